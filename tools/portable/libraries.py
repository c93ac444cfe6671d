#!/usr/bin/env python3
"""Prints the MIR that the proved libraries hold and the archive is linked from, as terms of logic/Mir/Syntax.antt: the functions of the header and all that they
reach, each behind those that it calls, one a line.

    libraries.py HEADER LIBRARIES >j8.mir

LIBRARIES: the folder of the crates; each proved one has its functions in NAME/out/rlib/NAME.rlib/toolchain/mir.json, and the kit's library `core` beside the
guide that `rt doc` names. What isn't known here ends the run.
"""
import glob
import json
import os
import subprocess
import sys
from collections.abc import Mapping

from header import Header
from mir import Stop, Text, need, printed, reached

WORDS = {
    "Bool": "ty_bool", "Unit": "ty_unit", "Ptr": "ty_ptr", "Erased": "erased", "Static": "static", "Mut": "mut", "Imm": "imm",
    "ValueLocal": "value_local", "MemorySlot": "memory_slot", "Unsigned": "unsigned", "Signed": "signed",
}
OPERANDS = {"True": "opd_true", "False": "opd_false", "Unit": "opd_unit"}
OPERATIONS = {
    "Add": "add", "Sub": "sub", "Mul": "mul", "Div": "div", "Rem": "rem", "And": "bit_and", "Or": "bit_or", "Xor": "bit_xor", "Shl": "shl", "Shr": "shr",
    "Eq": "eq", "Ne": "ne", "Lt": "lt", "Le": "le", "Offset": "offset", "Not": "bit_not", "Cast": "cast",
    "LeadingZeros": "count_leading_zeros", "TrailingZeros": "count_trailing_zeros", "CountOnes": "count_ones",
}
STEPS = {"Field": "field", "Variant": "variant", "Deref": "deref"}


def only(held):
    """The one name of an object, and what stands there."""
    need(isinstance(held, dict) and len(held) == 1, "no form of one name:", held)
    return next(iter(held.items()))


def fields(held, *names):
    """What an object has under these names and no others."""
    need(isinstance(held, dict) and set(held) == set(names), "not the fields", names, "but", held)
    return [held[name] for name in names]


def named(table, held):
    need(isinstance(held, str) and held in table, "unknown word", held)
    return table[held]


def count(held):
    need(isinstance(held, int) and not isinstance(held, bool) and held >= 0, "no number:", held)
    return str(held)


def width(held):
    return "w" + count(held)


def listed(terms):
    return ["list"] + list(terms)


def lifetime(held):
    if isinstance(held, str):
        return named(WORDS, held)
    name, of = only(held)
    need(name == "Named", "unknown lifetime", held)
    return ["named", count(of)]


def length(held):
    name, of = only(held)
    need(name == "Lit", "a length that is no number:", held)
    return count(of)


def type_term(held):
    if isinstance(held, str):
        return named(WORDS, held)
    name, of = only(held)
    need(name in TYPES, "unknown type", name)
    return TYPES[name](of)


def named_type(of):
    head, types = of
    name, lifetimes = fields(head, "name", "lifetimes")
    return ["ty_named", Text(name), listed(map(lifetime, lifetimes)), listed(map(type_term, types))]


TYPES = {
    "Int": lambda of: ["ty_int", width(of)],
    "Ref": lambda of: ["ty_ref", lifetime(of[0]), named(WORDS, of[1]), type_term(of[2])],
    "Array": lambda of: ["ty_array", type_term(of[0]), length(of[1])],
    "Struct": lambda of: ["ty_struct", Text(of[0]), listed(map(type_term, of[1]))],
    "Named": named_type,
    "Param": lambda of: ["ty_param", count(of)],
    "Const": lambda of: ["ty_const", count(of)],
}


def step(held):
    name, of = only(held)
    return [named(STEPS, name), type_term(of) if name == "Deref" else count(of)]


def place(held):
    local, steps = fields(held, "local", "steps")
    return ["place", count(local), listed(map(step, steps))]


def integer(held):
    wide, value = fields(held, "width", "value")
    return ["int", width(wide), count(value)]


def operand(held):
    if isinstance(held, str):
        return named(OPERANDS, held)
    name, of = only(held)
    if name == "NumOf":
        return ["num_of", width(of[0]), type_term(of[1])]
    need(name in ("Copy", "Int"), "unknown operand", name)
    return ["copy", place(of)] if name == "Copy" else integer(of)


def operation(held):
    if isinstance(held, str):
        return named(OPERATIONS, held)
    name, of = only(held)
    return [named(OPERATIONS, name)] + [named(WORDS, one) if isinstance(one, str) else width(one) for one in (of if isinstance(of, list) else [of])]


def right(held):
    name, of = only(held)
    need(name in RIGHT, "unknown right-hand side", name)
    return RIGHT[name](of)


RIGHT = {
    "Opd": lambda of: ["rv_opd", operand(of)],
    "Op1": lambda of: ["op1", operation(of[0]), operand(of[1])],
    "Op2": lambda of: ["op2", operation(of[0]), operand(of[1]), operand(of[2])],
    "AddrOf": lambda of: ["addr_of", place(of)],
    "Aggregate": lambda of: ["aggregate", listed(map(operand, of))],
    "Repeat": lambda of: ["repeat", operand(of[0]), length(of[1])],
}


def constant(held):
    name, of = only(held)
    need(name == "Ints", "unknown constant", name)
    wide, values = fields(of, "width", "values")
    return ["c_ints", width(wide), listed(map(count, values))]


def dictionary(held, impls):
    """An impl, by its methods, at types and for bounds of its own; or what the function takes for a bound."""
    name, of = only(held)
    if name == "Given":
        return ["given", count(of)]
    need(name == "Impl" and of[0] in impls, "unknown dictionary", held)
    return ["impl", listed(map(Text, impls[of[0]])), listed(map(type_term, of[1])), listed(dictionary(one, impls) for one in of[2])]


def arguments(held, impls):
    types, dicts = fields(held, "types", "dicts")
    if not types and not dicts:
        return "no_args"
    return ["args", listed(map(type_term, types)), listed(dictionary(one, impls) for one in dicts)]


def callee(held, impls):
    name, of = only(held)
    if name == "Method":
        return ["method", dictionary(of[0], impls), count(of[1]), arguments(of[2], impls)]
    need(name == "Fn", "a call of no function:", held)
    return ["fn", Text(of[0]), arguments(of[1], impls)]


class Held:
    """The statements that are left of a function's list, and the methods of the impls that it names."""

    def __init__(self, statements, impls):
        self.left, self.impls = iter(statements), impls


def body(held):
    """The next statement of a list in which each stands before those inside it."""
    one = next(held.left, "Nothing")
    name, of = (one, None) if isinstance(one, str) else only(one)
    need(name in BODIES, "unknown statement", name)
    return BODIES[name](of, held)


def switch(of, held):
    keys, has_default = of[1:]

    def arms(left):
        if not left:
            return ["default", body(held)] if has_default else "no_default"
        return ["arm", listed(map(count, left[0])), body(held), arms(left[1:])]

    return ["switch", operand(of[0]), arms(keys)]


BODIES = {
    "Skip": lambda of, held: "skip",
    "Return": lambda of, held: "return",
    "Unreachable": lambda of, held: "unreachable",
    "Block": lambda of, held: ["block", body(held)],
    "Loop": lambda of, held: ["loop", body(held)],
    "Seq": lambda of, held: ["seq", body(held), body(held)],
    "Assign": lambda of, held: ["assign", place(of[0]), right(of[1])],
    "If": lambda of, held: ["cond", operand(of), body(held), body(held)],
    "Exit": lambda of, held: ["exit", count(of)],
    "Call": lambda of, held: ["call", callee(of[0], held.impls), listed(map(operand, of[1])), place(of[2])],
    "LendStatic": lambda of, held: ["lend_static", place(of[0]), type_term(of[1]), constant(of[2])],
    "Switch": switch,
}


def shape(held):
    name, of = only(held)
    need(name in ("Fields", "Variants"), "unknown shape", name)
    return ["fields", listed(map(type_term, of))] if name == "Fields" else ["variants", listed(listed(map(type_term, variant)) for variant in of)]


# What a plain declared type has besides its MIR.
PLAIN_TYPE = {"lifetimes": 0, "bounds": [], "const_params": [], "type_bounds": [], "owns": False, "is_cell": False, "is_tuple": False}


def entry(held):
    """A declared type: its name, its type parameters, and what it is made of."""
    rest = {name: of for name, of in held.items() if name not in ("name", "shape", "type_params")}
    need(rest == PLAIN_TYPE, "a declared type that isn't plain:", held["name"])
    return ["entry", Text(held["name"]), listed(["a_type"] * int(count(held["type_params"]))), shape(held["shape"])]


def definition(symbol, held):
    """A function of a library."""
    lifetimes, outlives, params, generics, types, own, statements = fields(held, "lifetimes", "outlives", "params", "generics", "types", "locals", "body")
    kinds, type_outlives, bounds, _, trait_lifetimes, impls = fields(generics, "types", "outlives", "bounds", "method_of", "trait_lifetimes", "impls")
    need(outlives == [] and type_outlives == [] and trait_lifetimes == 0, symbol, "has bounds of lifetimes")
    held = Held(statements, {one["name"]: one["methods"] for one in impls})
    local_terms = [["local", type_term(ty), named(WORDS, home)] for ty, home in (fields(one, "ty", "home") for one in own)]
    taken = [listed("a_type" if one["const_bits"] is None else "a_number" for one in kinds), count(len(bounds)), count(params)]
    term = ["function", count(lifetimes), listed([])] + taken + [listed(local_terms), body(held)]
    need(next(held.left, None) is None, symbol, "has statements behind its body")
    return ["fn_def", Text(symbol), term, listed(map(entry, types))]


class Libraries(Mapping):
    """The functions of the proved libraries; each is read when it is asked for. where: each one's library."""

    def __init__(self, folder):
        self.where, self.held, self.read = {}, {}, {}
        guide = subprocess.run(["rt", "doc"], check=True, capture_output=True, text=True).stdout.strip()
        core = os.path.join(os.path.dirname(guide), "rlibs", "core.rlib", "toolchain", "mir.json")
        for path in sorted(glob.glob(os.path.join(folder, "*", "out", "rlib", "*.rlib", "toolchain", "mir.json"))) + [core]:
            library = os.path.basename(os.path.dirname(os.path.dirname(path)))[: -len(".rlib")]
            with open(path, encoding="utf-8") as file:
                for symbol, held in json.load(file):
                    need(symbol not in self.held, symbol, "stands in", library, "and", self.where.get(symbol, ""))
                    need(symbol.split("::")[0] == library, symbol, "is in", library)
                    self.where[symbol], self.held[symbol] = library, held

    def __iter__(self):
        return iter(self.held)

    def __len__(self):
        return len(self.held)

    def __getitem__(self, symbol):
        if symbol not in self.read:
            self.read[symbol] = definition(symbol, self.held[symbol])
        return self.read[symbol]


def main():
    need(len(sys.argv) == 3, "usage: libraries.py HEADER LIBRARIES")
    sys.setrecursionlimit(100000)
    with open(sys.argv[1], encoding="utf-8") as header:
        wanted = Header(header.read()).functions
    libraries = Libraries(sys.argv[2])
    order = reached(libraries, wanted)
    for symbol in order:
        print(printed(libraries[symbol]))
    print("portable: %d functions of %d proved libraries" % (len(order), len({libraries.where[symbol] for symbol in order})), file=sys.stderr)


if __name__ == "__main__":
    try:
        main()
    except Stop as stop:
        sys.exit("portable: %s" % stop)
