#!/usr/bin/env python3
"""Holds the MIR of the proved libraries, as libraries.py prints it, to the MIR that the proofs are about, as rt writes it out for a person to read: types, locals and
body of every function, and the declared types that it names. The functions of the kit's library `core`, of which rt writes out nothing, it holds to core.py.

    same.py MIR STATED

STATED: the folder of `rt check --generated`, of every crate that MIR has functions of. A function's MIR is there as terms of antt, cut into definitions that
name one another. What isn't known here ends the run.
"""
import os
import re
import sys

from core import CORE
from mir import WIDTHS, Stop, Text, items, need, number, parse, parts, shown

DEFINITION = re.compile(r"^(?:abbrev|unfoldable) pub (\S+) :\s(?:.*?)^\1 =\s(.*?)(?=\n\n|\Z)", re.M | re.S)
USE = re.compile(r"^use (\S+)(?: as (\S+))?$", re.M)
TOKEN = re.compile(r'\s*(?:([(){},;=])|"([^"\\]*)"|([^\s(){},;="\\]+))')
NAMES = ("Syntax", "MapTy", "Table")
CONS = {"List.◌∷◌", "Syntax.tcons", "Syntax.ttcons", "Syntax.ccons", "Syntax.dcons"}
NIL = {"List.[]", "Syntax.tnil", "Syntax.ttnil", "Syntax.cnil", "Syntax.dnil"}
FIELDS = ("lifetimes", "outlives", "ty_params", "givens", "params", "locals", "body")


class Tuple(list):
    """A tuple's parts."""


class Record(dict):
    """A record's fields."""


def tokens(text):
    found, at, end = [], 0, len(text.rstrip())
    while at < end:
        one = TOKEN.match(text, at)
        need(one, "no token in", text[at : at + 40])
        found.append(Text(one.group(2)) if one.group(2) is not None else one.group(1) or one.group(3))
        at = one.end()
    return found


class Reader:
    """An expression of antt: a word, a text, an application as a list, a tuple or a record."""

    def __init__(self, text):
        self.tokens, self.at = tokens(text), 0

    def whole(self):
        made = self.applied()
        need(self.at == len(self.tokens), "more behind an expression:", self.tokens[self.at : self.at + 5])
        return made

    def peek(self):
        return self.tokens[self.at] if self.at < len(self.tokens) else ")"

    def take(self, *wanted):
        one = self.peek()
        need(not wanted or not isinstance(one, Text) and one in wanted, "no", wanted, "but", one)
        self.at += 1
        return one

    def applied(self):
        """A word, or one that is applied to others."""
        found = []
        while isinstance(self.peek(), Text) or self.peek() not in (")", "}", ",", ";"):
            found.append(self.single())
        need(found, "no expression")
        return found[0] if len(found) == 1 else found

    def single(self):
        if isinstance(self.peek(), Text):
            return self.take()
        one = self.take()
        if one == "record":
            return self.record()
        if one != "(":
            need(one not in ("=", "{"), "no expression but", one)
            return one
        made = [self.applied()]
        while self.take(",", ")") == ",":
            if self.peek() == ")":
                self.take(")")
                break
            made.append(self.applied())
        return made[0] if len(made) == 1 else Tuple(made)

    def record(self):
        made = Record()
        self.take("{")
        while self.peek() != "}":
            name = self.take()
            self.take("=")
            made[name] = self.applied()
            self.take(";")
        self.take("}")
        return made


class Module:
    """A module's definitions, as text until they are asked for, and what its words for other modules stand for."""

    def __init__(self, path):
        with open(path, encoding="utf-8") as file:
            text = file.read()
        self.path = path
        self.texts = dict(DEFINITION.findall(text))
        self.uses = {short or whole.split(".")[-1]: whole for whole, short in USE.findall(text)}

    def get(self, name):
        need(name in self.texts, self.path, "has no", name)
        return Reader(self.texts[name]).whole()


def symbol_of(numbers):
    """The text of a list of bytes."""
    need(numbers[0] == "list", "no text:", numbers)
    return Text(bytes(map(number, numbers[1:])).decode())


class Stated:
    """folder: what `rt check --generated` wrote."""

    def __init__(self, folder):
        self.folder, self.modules, self.cycles = folder, {}, {}

    def module(self, *names):
        path = os.path.join(self.folder, *names) + ".antt"
        need(os.path.isfile(path), "there is no", path)
        if path not in self.modules:
            self.modules[path] = Module(path)
        return self.modules[path]

    def callee(self, module, word, given="no_args"):
        """The function that another module names, at these arguments: its Key states its symbol. One of the standard library, whose Keys aren't here, is named by
        the last words of its path."""
        alias, _, name = word.partition(".")
        need(name == "name" and alias in module.uses, "unknown word", word, "in", module.path)
        found = re.fullmatch(r"Rattle\.(\w+)\.(?:proofs\.(.*)\.Symbol|specs\.contracts\.(.*)\.Key)", module.uses[alias])
        need(found, "no function:", module.uses[alias])
        crate, place = found.group(1), (found.group(2) or found.group(3)).split(".")
        if crate == "std":
            return ["fn", last(place), given]
        key = self.module("Rattle-%s-specs" % crate, "contracts", *place, "Key")
        need(key.get("name") in (["Syntax.fn₀", "symbol"], ["Syntax.fn", "symbol"]), key.path, "has another name")
        symbol = key.get("symbol")
        need(isinstance(symbol, Text) and symbol == "::".join([crate] + place), key.path, "is of", symbol)
        return ["fn", symbol, given]

    def term(self, module, held):
        """A term of libraries.py."""
        if isinstance(held, Text):
            return held
        if isinstance(held, Tuple):
            return ["tuple"] + [self.term(module, one) for one in held]
        if isinstance(held, list):
            return self.applied(module, held)
        need(isinstance(held, str), "a record in a term")
        if held in NIL:
            return ["list"]
        if held in module.texts:
            return self.term(module, module.get(held))
        alias, _, name = held.partition(".")
        if alias in NAMES and name:
            return name
        return held if held.isdigit() else self.callee(module, held)

    def applied(self, module, held):
        head, rest = held[0], held[1:]
        if head in CONS:
            need(len(rest) == 2, "a list of", len(rest), "parts")
            made = ["list"]
            while isinstance(held, list) and not isinstance(held, Tuple) and held[0] == head:
                made.append(self.term(module, held[1]))
                held = held[2]
            need(held in NIL, "a list that ends in", held)
            return made
        if isinstance(head, str) and head.partition(".")[2] == "name" and len(rest) == 1 and isinstance(rest[0], Tuple):
            return self.callee(module, head, ["args"] + [self.term(module, one) for one in rest[0]])
        need(isinstance(head, str) and head.partition(".")[0] in NAMES, "unknown head", head, "in", module.path)
        name, given = head.partition(".")[2], [self.term(module, one) for one in rest]
        if name == "ty_struct":
            return ["ty_struct", symbol_of(given[0])] + given[1:]
        if name == "ty_named":
            _, symbol, lifetimes = given[0]
            return ["ty_named", symbol_of(symbol), lifetimes] + given[1:]
        if name in ("int_big", "int_neg"):
            # The same number as `int`, by a bound that a proof has, or counted from 2 ^ w down.
            wide, count = given
            return ["int", wide, count if name == "int_big" else str(2 ** WIDTHS[wide] - number(count))]
        return [name] + given

    def code(self, symbol):
        """The module that a function's MIR stands in, and the words for the function and the table there."""
        crate, *place = symbol.split("::")
        top = "Rattle-%s-proofs" % crate
        if os.path.isfile(os.path.join(self.folder, top, *place, "Code", "Mir.antt")):
            return self.module(top, *place, "Code", "Mir")
        # A function of a ring of calls stands with the others of it.
        above = os.path.join(self.folder, top, *place[:-1])
        need(os.path.isdir(above), "there is no", above)
        found = [one for one in sorted(os.listdir(above)) if os.path.isfile(os.path.join(above, one, "Code", "+%s.antt" % place[-1]))]
        need(len(found) == 1, symbol, "stands in", len(found), "places of", above)
        return self.module(top, *place[:-1], found[0], "Code", "+" + place[-1])

    def definition(self, symbol):
        module = self.code(symbol)
        by_name = "by_name" in module.texts
        if "function" in module.texts and by_name:
            need(module.get("function") == ["MapTy.spell_fn", "table", "by_name"], module.path, "has a function of another form")
        held = module.get("by_name" if by_name else "function")
        need(isinstance(held, Record) and tuple(held) == FIELDS, module.path, "has a function of other fields")
        entries = []
        for one in parts(["table"] + self.term(module, "table")[1:], "table", len(self.term(module, "table")) - 1) if by_name else []:
            _, name, kinds, shape = one
            entries.append(["entry", symbol_of(name), kinds, shape])
        return ["fn_def", Text(symbol), ["function"] + [self.term(module, held[name]) for name in FIELDS], ["list"] + entries]


def difference(one, other):
    """Where two terms differ first, as words."""
    if isinstance(one, list) and isinstance(other, list) and len(one) == len(other):
        for a, b in zip(one, other):
            if a != b:
                return difference(a, b)
    return "%s and %s" % (shown(one), shown(other))


def last(path):
    return Text("::".join(path[-2:]))


def spoken(term):
    """A term with the standard library's functions by the last words of their paths."""
    if not isinstance(term, list):
        return term
    if term[:1] == ["fn"] and term[1].startswith("core::"):
        term = ["fn", last(term[1].split("::")), term[2]]
    return [spoken(one) for one in term]


def held(term):
    """The declared types that a term names, but for those that it only points to."""
    if not isinstance(term, list) or term[:1] == ["ty_ref"]:
        return set()
    own = {str(term[1])} if term[:1] == ["ty_named"] else set()
    return own.union(*map(held, term))


def without_pointed_to(definition):
    """A function's definition without the declared types that it only points to, of which the proofs' table has none."""
    head, symbol, function, entries = definition
    entries = items(entries)
    wanted = held(function)
    while not wanted >= set().union(*(held(one) for one in entries if str(one[1]) in wanted)):
        wanted |= set().union(*(held(one) for one in entries if str(one[1]) in wanted))
    return [head, symbol, function, ["list"] + [one for one in entries if str(one[1]) in wanted]]


def held_to_core(printed):
    """Holds the functions of core to what core.py states: each as it stands there, and no others."""
    left = {}
    for promise, text in CORE:
        (one,) = parse(text)
        left[str(parts(one, "fn_def", 3)[0])] = (promise, one)
    for one in printed:
        symbol = str(one[1])
        need(symbol in left, symbol, "isn't stated in core.py")
        promise, other = left.pop(symbol)
        need(one == other, symbol, "isn't as core.py states it (%s):" % promise, difference(one, other))
    need(not left, "core.py states, and there is none:", *left)


def main():
    need(len(sys.argv) == 3, "usage: same.py MIR STATED")
    sys.setrecursionlimit(100000)
    stated = Stated(sys.argv[2])
    with open(sys.argv[1], encoding="utf-8") as file:
        printed = parse(file.read())
    core = [one for one in printed if str(parts(one, "fn_def", 3)[0]).startswith("core::")]
    held_to_core(core)
    proved = [one for one in printed if one not in core]
    need(proved, "no functions")
    for one in proved:
        symbol = str(one[1])
        other = stated.definition(symbol)
        one, other = spoken(without_pointed_to(one)), spoken(without_pointed_to(other))
        need(one == other, symbol, "isn't what is proved:", difference(one, other))
    print("portable: %d functions are what the proofs are about, and %d of core as stated" % (len(proved), len(core)))


if __name__ == "__main__":
    try:
        main()
    except Stop as stop:
        sys.exit("portable: %s" % stop)
