#!/usr/bin/env python3
"""Translates the MIR of the proved crates to one C99 file.

    translate.py MIR HEADER ROOT >j8.c

MIR: what libraries.py prints. HEADER: include/j8.h, whose functions are exported; what they reach is static. ROOT: the folder that holds crates/, for names.
mir.py reads the MIR, forms.py has each form's C and why it means the same, shapes.py each type's, header.py the functions of j8.h, sources.py the names.
A form or a type that these don't know ends the translation with what it is and where.
"""
import sys

from forms import HELPERS, address, operand, statement
from header import Header
from mir import Array, Int, Named, Raw, Ref, Stop, Unit, calls_in, function_of, items, need, number, program_of, type_of
from shapes import Shapes, c_name, is_tag, size
from sources import Sources

HEAD = """\
/*
 * j8.c - J8 Notation strings, lines, JSON8 and TSV8 for printer backups and logs, version %(version)s: the whole library in one C99 file, for any processor.
 *
 * Made by tools/portable of the j8 repository from the MIR of its proved crates. Don't edit it. Compile it with j8.h beside it:
 *
 *     cc -std=c99 -O2 -c j8.c
 *
 * It needs memcpy and memset, and on a processor of 32 bits the compiler's own 64-bit division. Nothing is kept between calls, and nothing is allocated.
 *
 * Proved is the MIR that this file was made from: that every call answers as its definition says and stays inside the parts that it is lent. Not proved are
 * the translation to C and your C compiler: docs/TRUST.md of the repository says how they are tested, and on what.
 *
 * -DJ8_CHECKED tests at each step what the proofs say of it (every access inside its slice, no sum over its type, no other tag than the one read), and at
 * the first that doesn't hold calls J8_FAULT with the line, the function and the condition. Without a J8_FAULT of your own that prints them and aborts.
 *
 * -DJ8_PLAIN leaves off what only gcc and clang have.
 *
 * v0 is a function's result, v1 and so on its parameters and then its variables. A function's comment names its file.
 */
#include <stddef.h>
#include <stdint.h>

#include "j8.h"

#if SIZE_MAX > UINT64_MAX
#error "size_t has more than 64 bits"
#endif

#ifdef J8_CHECKED
#ifndef J8_FAULT
#include <stdio.h>
#include <stdlib.h>
#define J8_FAULT(line, function, condition) (fprintf(stderr, "j8.c:%%d: %%s: not so: %%s\\n", line, function, condition), abort())
#endif
#define J8_CHECK(condition) ((condition) ? (void)0 : J8_FAULT(__LINE__, __func__, #condition))
/* How many bytes from a pointer on belong to its slice. */
#define J8_ROOM(statement) statement
#else
#define J8_CHECK(condition) ((void)0)
#define J8_ROOM(statement)
#endif

/* What the variants of an enum hold, of which one is live: in one place; for gcc on x86-64 side by side, since it keeps that in registers. */
#if defined __x86_64__ && defined __GNUC__ && !defined __clang__ && !defined __OPTIMIZE_SIZE__
#define J8_EITHER_BEGIN
#define J8_EITHER_END
#define J8_CASE_BEGIN
#define J8_CASE_END(name)
#define J8_OF(name, field) field
#else
#define J8_EITHER_BEGIN union {
#define J8_EITHER_END } u;
#define J8_CASE_BEGIN struct {
#define J8_CASE_END(name) } name;
#define J8_OF(name, field) u.name.field
#endif

/* Put where it is called: a part of its one caller in a ring of calls, so that each turn of the ring takes one frame of the stack and not several (J8_PART); and by
   gcc what the source has so, since a struct that is handed back costs more than what is done. Clang sees that by itself, and without optimization it costs
   stack alone (J8_NEAR). */
#if defined __GNUC__ && !defined J8_PLAIN
#define J8_PART inline __attribute__((always_inline))
#else
#define J8_PART inline
#endif
#if defined __clang__ || !defined __OPTIMIZE__
#define J8_NEAR inline
#else
#define J8_NEAR J8_PART
#endif
/* The same where the stack isn't what counts. */
#if SIZE_MAX < UINT64_MAX
#define J8_NEAR_64 inline
#else
#define J8_NEAR_64 J8_NEAR
#endif
/* Never put where it is called: by clang, which then sees that what calls it is small; gcc puts it there as it likes. */
#if defined __clang__ && !defined J8_PLAIN
#define J8_APART __attribute__((noinline))
#else
#define J8_APART inline
#endif
"""


# What a source's hint is in C.
KINDS = {"": "inline", "inline": "J8_NEAR", "inline(always)": "J8_NEAR_64", "inline(never)": "J8_APART"}
# What gcc is to put where it is called besides, since a struct is handed back or over: LLVM does so without a hint.
NEAR = {"json8_leaves::leaves::mark", "json8_show::show::shown_at", "upload::uploads::stop"}

# How many statements such a block may have, less one.
SCOPE_MAX = 6


class Writer:
    """A function on its way to C: what the forms ask and add to."""

    def __init__(self, function, files):
        self.function, self.shapes, self.files = function, files.shapes, files
        self.locals = list(function.locals)
        self.lines, self.depth, self.targets, self.labels = [], 1, [], 0
        self.type_of = type_of
        self.stored, self.read, self.scoped, self.counted, self.held = set(), {0}, set(), {}, {}
        self.note_uses(function.body)
        self.uses = self.count(function.body)
        self.type_raws()

    # -- what the forms ask

    def signature(self, symbol):
        """The types of a function's result and parameters."""
        need(symbol in self.files.functions, "a call of", symbol, "which isn't here")
        callee = self.files.functions[symbol]
        return callee.locals[: callee.params + 1]

    def is_slot(self, term):
        return self.function.in_memory[number(term[1])]

    def room(self, at):
        """How many bytes from a local pointer on belong to what it was made from: of a reference to an array, the array's."""
        ty = self.locals[at]
        if not isinstance(ty, Ref) or isinstance(ty.to, Named) and not is_tag(ty.to):
            return ""
        return str(size(ty.to)) if isinstance(ty.to, Array) else "r%d" % at

    def keep_room(self, to, room):
        at = number(to[1])
        if self.room(at).startswith("r"):
            self.line("J8_ROOM(r%d = %s;)" % (at, room))

    def constant(self, ty, numbers):
        return self.files.constant(ty, numbers)

    # -- what the forms add

    def line(self, text):
        self.lines.append("    " * self.depth + text)

    def check(self, conditions, deeper=0):
        for one in conditions:
            self.lines.append("    " * (self.depth + deeper) + "J8_CHECK(%s);" % one)

    def inside(self, term):
        self.depth += 1
        statement(self, term)
        self.depth -= 1

    def open_target(self):
        self.labels += 1
        self.targets.append(["l%d" % self.labels, False])
        return self.targets[-1]

    def close_target(self, target):
        self.targets.pop()
        if target[1]:
            self.line("%s:;" % target[0])

    def target(self, n):
        need(n < len(self.targets), "exit", n, "of", len(self.targets))
        self.targets[-1 - n][1] = True
        return self.targets[-1 - n][0]

    # A struct that stands between few statements of a list gets a block of its own: compilers give two such one place on the stack, which matters where each
    # step may refuse (`?`). An array, and what is a copy already, isn't stored to be copied at once.

    def count(self, term):
        """How often each local is named."""
        if not isinstance(term, list):
            return {}
        if id(term) not in self.counted:
            made = {number(term[1]): 1} if term[:1] == ["place"] else {}
            for part in term:
                for at, times in self.count(part).items():
                    made[at] = made.get(at, 0) + times
            self.counted[id(term)] = made
        return self.counted[id(term)]

    def scopes(self, listed, handed):
        """Which locals get a block from which statement of a list to which: (first, last, locals), none of which overlap. What is handed on is written where it
        arrives."""
        found, spans = [self.count(one) for one in listed], []
        written = list(range(len(listed)))
        for k in sorted(handed, reverse=True):
            written[k] = written[k + 1]
        for at in sorted(set().union(*found)):
            where = [k for k, one in enumerate(found) if at in one]
            ends = written[where[-1]]
            own = at > self.function.params and at in self.read and not self.function.in_memory[at] and at not in self.scoped
            struct = isinstance(self.locals[at], (Named, Array)) and not is_tag(self.locals[at])
            if own and struct and 0 < ends - where[0] <= SCOPE_MAX and sum(found[k][at] for k in where) == self.uses[at]:
                spans.append((where[0], ends, [at]))
        made = []
        for begin, end, own in sorted(spans):
            if made and begin <= made[-1][1]:
                if max(end, made[-1][1]) - made[-1][0] <= SCOPE_MAX:
                    made[-1] = (made[-1][0], max(end, made[-1][1]), made[-1][2] + own)
            else:
                made.append((begin, end, own))
        return made

    def handed_on(self, listed):
        """Which statements of a list store an array, a struct of one or a copy of a struct that the next one alone names, once and whole: their places in the list, with
        the local."""
        made = {}
        for k, (one, other) in enumerate(zip(listed, listed[1:])):
            stored = {"assign": 1, "call": 3}.get(one[0]) if isinstance(one, list) else None
            if stored is None or not isinstance(other, list) or other[0] not in ("assign", "call") or one[stored][2] != ["list"]:
                continue
            at = number(one[stored][1])
            copied = one[0] == "assign" and one[2][0] == "rv_opd" and isinstance(self.locals[at], Named) and not is_tag(self.locals[at])
            struct = copied or isinstance(self.locals[at], Array) or self.shapes.holds_array(self.locals[at])
            own = at > self.function.params and not self.function.in_memory[at] and self.uses[at] == 2
            operands = self.whole_operands(other)
            whole = operands is not None and operands.count(at) == 1
            if own and struct and whole and (one[0] == "assign" and one[2][0] in ("rv_opd", "aggregate") or one[0] == "call" and operands == [at]):
                made[k] = at
                self.scoped.add(at)
        return made

    def whole_operands(self, term):
        """The locals that an assign or a call copies: each, where all are copied whole; numbers apart."""
        given = {"rv_opd": [term[2][1]], "aggregate": term[2][1][1:]}.get(term[2][0]) if term[0] == "assign" else term[2][1:]
        if given is None:
            return None
        places = [one[1] for one in given if isinstance(one, list) and one[0] == "copy"]
        return [number(one[1]) if one[2] == ["list"] else -1 for one in places]

    def open_scope(self, own):
        self.line("{")
        self.depth += 1
        for at in own:
            self.scoped.add(at)
            self.line("%s;" % self.shapes.declare(self.locals[at], "v%d" % at))

    def close_scope(self):
        self.depth -= 1
        self.line("}")

    # -- before and after

    def note_uses(self, term):
        """Which locals are stored to as a whole, and which are looked at."""
        if not isinstance(term, list):
            return
        for part in term:
            if isinstance(part, list) and part[:1] == ["place"]:
                stored = {"assign": 1, "lend_static": 1, "call": 3}.get(term[0])
                whole = part[2] == ["list"] and stored is not None and part is term[stored]
                (self.stored if whole else self.read).add(number(part[1]))
            else:
                self.note_uses(part)

    def type_raws(self):
        """A raw pointer points to what the pointer did that it was made of; one local has one such type."""
        found = []

        def walk(term):
            if isinstance(term, list):
                if term[:1] == ["assign"] and term[1][2] == ["list"] and self.function.locals[number(term[1][1])] == Raw():
                    found.append((number(term[1][1]), term[2]))
                for part in term:
                    walk(part)

        walk(self.function.body)
        for at, right in found + found:
            if right[:2] == ["op2", "offset"]:
                made = operand(self, right[2]).type
                made = made if made == Raw() or not isinstance(made.to, Array) else Ref(made.mutable, made.to.of)
            else:
                need(right[0] == "addr_of", "a raw pointer made by", right[0])
                made = address(self, right[1]).type
            need(self.locals[at] in (Raw(), made), "a raw pointer to two types:", self.locals[at], made)
            self.locals[at] = made
        need(Raw() not in self.locals, "a raw pointer that was made of nothing")

    def head(self):
        """Inline, so that gcc -O2 puts a block's loop where its length is a number that it knows."""
        taken = [at for at in range(1, self.function.params + 1) if self.locals[at] != Unit()]
        params = [self.shapes.declare(self.locals[at], "v%d" % at) for at in taken]
        symbol = self.function.symbol
        kind = "J8_PART" if symbol in self.files.parts else "J8_NEAR" if symbol in NEAR else KINDS[self.files.sources.hint(symbol)]
        return ("static %s %s %s(%s)" % (kind, self.shapes.name(self.locals[0]), c_name(self.function.symbol), ", ".join(params) or "void")).replace("* ", "*")

    def whole(self):
        """The function in C."""
        statement(self, self.function.body)
        count, params = len(self.locals), self.function.params
        used = self.stored | self.read
        own = [at for at in range(count) if not 1 <= at <= params and at in used and at not in self.scoped and self.locals[at] != Unit()]
        spare = [at for at in range(1, params + 1) if at not in used and self.locals[at] != Unit()] + [at for at in own if at not in self.read]
        need(not any(self.room(at).startswith("r") for at in range(params + 1)), "a parameter or a result that points to one integer")
        out = ["/* %s, %s */" % (self.function.symbol, self.files.sources.file(self.function.symbol)), self.head(), "{"]
        out += ["    %s;" % self.shapes.declare(self.locals[at], "v%d" % at) for at in own]
        out += ["    J8_ROOM(uint64_t r%d;)" % at for at in own if self.room(at).startswith("r")]
        out += ["    (void)v%d;" % at for at in spare]
        out += ["    J8_ROOM((void)r%d;)" % at for at in own if self.room(at).startswith("r")]
        return "\n".join(out + self.lines + ["}", ""])

    def value(self):
        """What the function gives, if it does nothing else."""
        if len(self.lines) != 2 or not self.lines[0].startswith("    v0 = ") or self.lines[1] != "    return v0;":
            return ""
        return self.lines[0][len("    v0 = ") : -1]


class File:
    """The C file: types, constant arrays, functions, and the functions of the header."""

    def __init__(self, mir, header, root):
        self.header, self.sources = Header(header), Sources(root)
        program = program_of(mir, self.header.functions)
        self.shapes, self.constants, self.helpers = Shapes(program, self.sources), [], set()
        self.functions, self.given = {}, {}
        for symbol, term in program.terms.items():
            with_name(symbol, lambda: self.functions.update({symbol: function_of(symbol, term)}))
        self.parts = parts_of(program.terms)
        alone = [symbol for symbol, term in program.terms.items() if not calls_in(term) and symbol.split("::")[-1] not in self.header.functions]
        self.constant_functions = {symbol for symbol in alone if self.functions[symbol].params == 0}

    def constant(self, ty, numbers):
        """A constant array's name: it stands once in the file, and a function copies it."""
        need(isinstance(ty.of, Int), "a constant array of", ty.of)
        name = "constant_%d" % (len(self.constants) + 1)
        rows = ["        " + ", ".join(numbers[at : at + 16]) for at in range(0, len(numbers), 16)]
        self.constants.append("static const %s %s = {\n    {\n%s\n    }\n};\n" % (self.shapes.name(ty), name, ",\n".join(rows)))
        return name

    def text(self):
        writers = {symbol: with_name(symbol, lambda: Writer(function, self)) for symbol, function in self.functions.items()}
        texts = {}
        # What takes nothing and does nothing but give a value stands where it is called: so a table is copied once, and no second one lies on the stack.
        for symbol in sorted(writers, key=lambda one: one not in self.constant_functions):
            texts[symbol] = with_name(symbol, writers[symbol].whole)
            if symbol in self.constant_functions and writers[symbol].value():
                self.given[symbol] = writers[symbol].value()
        own = [symbol for symbol in self.functions if symbol not in self.given]
        bodies = [texts[symbol] for symbol in own]
        heads = [writers[symbol].head() + ";\n" for symbol in own]
        wrappers = []
        for name in self.header.functions:
            symbol = [one for one in self.functions if one.split("::")[-1] == name][0]
            wrappers.append(with_name(name, lambda: self.header.wrapper(self.shapes, self.sources, name, self.functions[symbol])))
        names = [c_name(symbol) for symbol in own] + list(self.shapes.made) + list(self.header.functions)
        need(len({one[:63] for one in names}) == len(names), "two things of one name in C")
        types, helpers = self.shapes.made.values(), [HELPERS[one] for one in sorted(self.helpers)]
        made = [HEAD % {"version": self.header.version}, "\n".join(types), "\n".join(self.constants), "\n".join(helpers), "".join(heads)]
        made.append("\n".join(bodies + wrappers))
        return "\n".join(one for one in made if one)


def parts_of(terms):
    """The functions that are called at one place, by another of the ring of calls that they stand in."""
    calls = {symbol: calls_in(term) for symbol, term in terms.items()}
    every = [other for one in calls.values() for other in one]

    def reach(symbol):
        seen, left = set(), list(calls[symbol])
        while left:
            one = left.pop()
            if one not in seen:
                seen.add(one)
                left += calls[one]
        return seen

    return {symbol for symbol in terms if every.count(symbol) == 1 and symbol not in calls[symbol] and symbol in reach(symbol)}


def with_name(name, made):
    """What is made, or a Stop that says of what."""
    try:
        return made()
    except Stop as stop:
        raise Stop("in %s: %s" % (name, stop)) from None


def main():
    need(len(sys.argv) == 4, "usage: translate.py MIR HEADER ROOT")
    sys.setrecursionlimit(100000)
    with open(sys.argv[1], encoding="utf-8") as mir, open(sys.argv[2], encoding="utf-8") as header:
        file = File(mir.read(), header.read(), sys.argv[3])
    need(NEAR <= set(file.functions), "no function of", *NEAR)
    sys.stdout.write(file.text())
    print("portable: %d functions, %d of them in j8.h, %d types" % (len(file.functions), len(file.header.functions), len(file.shapes.made)), file=sys.stderr)


if __name__ == "__main__":
    try:
        main()
    except Stop as stop:
        sys.exit("portable: %s" % stop)
