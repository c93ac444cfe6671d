"""The MIR as libraries.py prints it, read. Its constructors are those of logic/Mir/Syntax.antt: a term is a word, a text in quotes, or terms in brackets; a list
has the head `list`.

Whatever isn't known here ends the translation: `need` raises Stop.
"""
import re
from dataclasses import dataclass


class Stop(Exception):
    """A form or a type that the translator doesn't know, or two that don't fit together."""


def need(holds, *what):
    if not holds:
        raise Stop(" ".join(shown(one) for one in what))


class Text(str):
    """A text in quotes."""


TOKEN = re.compile(r'\s*(?:([()])|"([^"\\]*)"|([^\s()"\\]+))')


def parse(source):
    """The terms of a source: a word is a str, a text a Text, and brackets are a list."""
    open_lists, at, end = [[]], 0, len(source.rstrip())
    while at < end:
        found = TOKEN.match(source, at)
        need(found, "no token at byte", at)
        at = found.end()
        bracket, text, word = found.groups()
        if bracket == "(":
            open_lists.append([])
        elif bracket == ")":
            need(len(open_lists) > 1, "a bracket closes at byte", at, "and none is open")
            done = open_lists.pop()
            open_lists[-1].append(done)
        else:
            open_lists[-1].append(word if text is None else Text(text))
    need(len(open_lists) == 1, "a bracket stays open")
    return open_lists[0]


def printed(term):
    """A term as `parse` reads it."""
    if isinstance(term, Text):
        return '"%s"' % term
    return term if isinstance(term, str) else "(%s)" % " ".join(printed(part) for part in term)


def shown(term):
    """A term as it was printed, cut short."""
    text = "(%s)" % " ".join(shown(part) for part in term) if isinstance(term, list) else str(term)
    return text if len(text) <= 200 else text[:200] + " .."


def parts(term, head, count):
    """What stands behind the head of a term of so many parts."""
    need(isinstance(term, list) and len(term) == count + 1 and term[0] == head, "no", head, "of", count, "parts:", term)
    return term[1:]


def items(term):
    """A list's members."""
    need(isinstance(term, list) and term and term[0] == "list", "no list:", term)
    return term[1:]


def number(word):
    need(isinstance(word, str) and not isinstance(word, Text) and word.isdigit(), "no number:", word)
    return int(word)


# ---- types (logic/Mir/Syntax.antt, Ty). What isn't here, j8 doesn't have: floats, signs (they stand at operations), u128, functions of types.


@dataclass(frozen=True)
class Int:
    """ty_int: of so many bits. usize is 64 bits wide wherever the C is compiled."""

    width: int


@dataclass(frozen=True)
class Bool:
    """ty_bool"""


@dataclass(frozen=True)
class Unit:
    """ty_unit"""


@dataclass(frozen=True)
class Raw:
    """ty_ptr: it says nothing of what it points to."""


@dataclass(frozen=True)
class Ref:
    """ty_ref; its lifetime is left off, which the machine doesn't read."""

    mutable: bool
    to: object


@dataclass(frozen=True)
class Array:
    """ty_array"""

    of: object
    count: int


@dataclass(frozen=True)
class Slice:
    """ty_struct "&[]": a reference to the first element, and how many there are."""

    mutable: bool
    of: object


@dataclass(frozen=True)
class Named:
    """ty_named: a declared struct or enum, by its path, at types."""

    symbol: str
    types: tuple = ()


@dataclass(frozen=True)
class Param:
    """ty_param: the k-th type that a declared type is used at."""

    k: int


def at_types(ty, types):
    """A type of a declaration, used at these types."""
    if isinstance(ty, Param):
        need(ty.k < len(types), "no type", ty.k, "of", types)
        return types[ty.k]
    if isinstance(ty, Named):
        return Named(ty.symbol, tuple(at_types(one, types) for one in ty.types))
    need(not isinstance(ty, (Ref, Array, Slice)) or not types, "a type inside a declared type of types:", ty)
    return ty


WIDTHS = {"w8": 8, "w16": 16, "w32": 32, "w64": 64}
BARE = {"ty_bool": Bool(), "ty_unit": Unit(), "ty_ptr": Raw()}


def type_of(term):
    if isinstance(term, str):
        need(term in BARE, "unknown type", term)
        return BARE[term]
    need(term and term[0] in TYPES, "unknown type", term)
    return TYPES[term[0]](term)


def int_type(term):
    width = parts(term, "ty_int", 1)[0]
    need(width in WIDTHS, "unknown width", width)
    return Int(WIDTHS[width])


def ref_type(term):
    _, kind, to = parts(term, "ty_ref", 3)
    need(kind in ("mut", "imm"), "unknown reference", term)
    return Ref(kind == "mut", type_of(to))


def array_type(term):
    of, count = parts(term, "ty_array", 2)
    return Array(type_of(of), number(count))


def slice_type(term):
    name, fields = parts(term, "ty_struct", 2)
    fields = [type_of(one) for one in items(fields)]
    need(name == "&[]" and len(fields) == 2 and isinstance(fields[0], Ref) and fields[1] == Int(64), "unknown struct", term)
    return Slice(fields[0].mutable, fields[0].to)


# The structs without fields: a value of one is a unit.
NOTHING = set()


def named_type(term):
    symbol, lifetimes, types = parts(term, "ty_named", 3)
    if str(symbol) in NOTHING:
        return Unit()
    need(items(lifetimes) == [], "a declared type with lifetimes:", term)
    return Named(str(symbol), tuple(type_of(one) for one in items(types)))


def param_type(term):
    return Param(number(parts(term, "ty_param", 1)[0]))


TYPES = {"ty_int": int_type, "ty_ref": ref_type, "ty_array": array_type, "ty_struct": slice_type, "ty_named": named_type, "ty_param": param_type}


# ---- programs


@dataclass
class Function:
    """Fn: local 0 is the result, then come the parameters, then the rest. in_memory: the locals whose address may be taken."""

    symbol: str
    params: int
    locals: list
    in_memory: list
    body: object
    term: object


def function_of(symbol, term):
    _, outlives, _, _, params, local_terms, body = parts(term, "function", 7)
    need(outlives == ["list"], "a function with bounds:", outlives)
    types, homes = [], []
    for one in items(local_terms):
        ty, home = parts(one, "local", 2)
        need(home in ("value_local", "memory_slot"), "unknown home", home)
        types.append(type_of(ty))
        homes.append(home == "memory_slot")
    return Function(symbol, number(params), types, homes, body, term)


@dataclass
class Program:
    """terms: the functions, by path, as printed. shapes: what each declared type is made of (logic/Mir/Table.antt): for a struct ("fields", types), for an
    enum ("variants", lists of types)."""

    terms: dict
    shapes: dict


def shape_of(term):
    need(isinstance(term, list) and len(term) == 2 and term[0] in ("fields", "variants"), "unknown shape", term)
    if term[0] == "fields":
        return ("fields", [type_of(one) for one in items(term[1])])
    return ("variants", [[type_of(one) for one in items(variant)] for variant in items(term[1])])


def program_of(source, wanted):
    """The program that a source prints, with the shapes of those functions' types that `wanted` reach."""
    terms = {}
    for one in parse(source):
        symbol = str(parts(one, "fn_def", 3)[0])
        need(symbol not in terms, "two functions are named", symbol)
        terms[symbol] = one
    program, order = Program({}, {}), reached(terms, wanted)
    NOTHING.update(str(entry[1]) for symbol in order for entry in items(terms[symbol][3]) if entry[3] == ["fields", ["list"]])
    for symbol in order:
        for entry in items(terms[symbol][3]):
            name, kinds, shape = parts(entry, "entry", 3)
            need(set(items(kinds)) <= {"a_type"}, "a declared type of numbers:", entry)
            need(program.shapes.setdefault(str(name), shape_of(shape)) == shape_of(shape), "two shapes of", name)
    made = at_arguments(terms, wanted)
    program.terms = {symbol: made[symbol] for symbol in ordered(made, [one for one in made if one in terms and one.split("::")[-1] in wanted])}
    return program


def at_arguments(terms, wanted):
    """The functions that those wanted reach, each once for the types and dictionaries that it is called at, which are put in (logic/Mir/Inst.antt); these are
    counted in its symbol."""
    made, names = {}, {}

    def name_of(symbol, types, dicts):
        if not types and not dicts:
            return symbol
        numbers = names.setdefault(symbol, {})
        return "%s::%d" % (symbol, numbers.setdefault(printed(["list"] + types + dicts), len(numbers) + 1))

    def put(term, types, dicts):
        if not isinstance(term, list) or not term:
            return term
        head = term[0]
        if head == "ty_param":
            return types[number(term[1])]
        if head == "given":
            return dicts[number(term[1])]
        term = [put(one, types, dicts) for one in term]
        if head == "method":
            dictionary, k, own = parts(term, "method", 3)
            methods, impl_types, impl_dicts = parts(dictionary, "impl", 3)
            need(own == "no_args", "a method at types of its own:", term)
            term = ["fn", items(methods)[number(k)], ["args", impl_types, impl_dicts]]
        if term[0] == "fn":
            _, symbol, given = term
            own_types, own_dicts = ([], []) if given == "no_args" else map(items, parts(given, "args", 2))
            return ["fn", Text(visit(str(symbol), own_types, own_dicts)), "no_args"]
        return term

    def visit(symbol, types, dicts):
        name = name_of(symbol, types, dicts)
        if name not in made:
            need(symbol in terms, "no function is named", symbol)
            head, lifetimes, outlives, kinds, givens, *rest = terms[symbol][2]
            need(len(items(kinds)) == len(types) and number(givens) == len(dicts), symbol, "at", types, dicts)
            made[name] = None
            made[name] = [head, lifetimes, outlives, kinds, givens] + [put(one, types, dicts) for one in rest]
        return name

    for one in roots(terms, wanted):
        visit(one, [], [])
    return made


def roots(terms, wanted):
    """The symbols of the functions of these names."""
    symbols = []
    for name in wanted:
        found = [symbol for symbol in terms if symbol.split("::")[-1] == name]
        need(len(found) == 1, "functions named", name + ":", found)
        symbols += found
    return symbols


def calls_in(term):
    """The functions that a term names, once for each place that names it."""
    found, left = [], [term]
    while left:
        one = left.pop()
        if isinstance(one, list):
            if one and one[0] == "fn":
                found.append(str(one[1]))
            if one and one[0] == "impl":
                found += map(str, items(one[1]))
            left += one
    return found


def reached(terms, wanted):
    """The functions that those wanted reach, each behind those that it calls but for a ring of calls."""
    return ordered({symbol: Later(terms, symbol) for symbol in terms}, roots(terms, wanted))


class Later:
    """A function's term, read when it is asked for."""

    def __init__(self, terms, symbol):
        self.terms, self.symbol = terms, symbol

    def get(self):
        return self.terms[self.symbol][2]


def ordered(terms, symbols):
    """The functions that these reach, each behind those that it calls but for a ring of calls."""
    order, begun = [], set()

    def visit(symbol):
        if symbol in begun:
            return
        begun.add(symbol)
        need(symbol in terms, "no function is named", symbol)
        term = terms[symbol].get() if isinstance(terms[symbol], Later) else terms[symbol]
        for other in sorted(set(calls_in(term))):
            visit(other)
        order.append(symbol)

    for symbol in symbols:
        visit(symbol)
    return order
