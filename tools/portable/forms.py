"""The C of each form of the MIR, one table entry or one function a form, with why it means the same.

The meaning of a form is what the machine of logic/Prog/Machine.antt does with it: walk of places, eval_opd of operands, eval_rv of right-hand sides, code of
statements; operations are op2_val and op1_val of logic/Mir/Val.antt, and op2_chk and op1_chk are what the proofs have shown of their operands. A form that isn't
here ends the translation.

A `Value` is an operand or a place in C. Its checks are C conditions that hold by the proofs; J8_CHECKED tests them. `room`, of a pointer, is how many bytes
from it on belong to the slice or the array that it was made from; only J8_CHECKED uses it.
"""
import re
from dataclasses import dataclass

from mir import Array, Bool, Int, Named, Ref, Slice, Unit, items, need, number, parts
from shapes import c_name, is_tag, pointee, size


@dataclass
class Value:
    """behind: of a part of what a pointer points to, whether the pointer may store there."""

    text: str
    type: object
    room: str = ""
    checks: tuple = ()
    behind: object = None


@dataclass(frozen=True)
class Behind:
    """The type of a place behind a pointer; the Value's text is the pointer."""

    mutable: bool
    to: object


@dataclass(frozen=True)
class Variant:
    """The type of a place that is an enum's variant: the struct of the tag and the variant's fields."""

    enum: Named
    number: int


def same(want, got, what):
    """A value of one type may be stored where the other is wanted: both are equal, or both point to the same integers and what is const stays so."""
    if isinstance(want, Ref) and isinstance(got, Ref) and isinstance(want.to, Named) and not is_tag(want.to):
        need(want.to == got.to and (got.mutable or not want.mutable), what, "is", got, "and not", want)
    elif isinstance(want, Ref) and isinstance(got, Ref):
        need(pointee(want.to) == pointee(got.to) and (got.mutable or not want.mutable), what, "is", got, "and not", want)
        need(not isinstance(want.to, Array) or want.to == got.to, what, "is", got, "and not", want)
    else:
        need(want == got, what, "is", got, "and not", want)


# ---- places: walk


def place(w, term):
    """resolve: the local, and then step by step."""
    at, steps = parts(term, "place", 2)
    at = number(at)
    need(at < len(w.locals), "no local", at)
    spot = Value(w.held.pop(at, "v%d" % at), w.locals[at], w.room(at))
    for step in items(steps):
        need(isinstance(step, list) and step[0] in STEPS, "unknown step", step)
        spot = STEPS[step[0]](w, spot, parts(step, step[0], 1)[0])
    return spot


def field_step(w, spot, k):
    """field_of: the k-th field in the order written; of a slice the pointer and the count, of a variant the tag and then its fields."""
    k = number(k)
    if isinstance(spot.type, Slice):
        need(k < 2, "a slice has no field", k)
        if k == 1:
            return Value(spot.text + ".len", Int(64), "", spot.checks)
        return Value(spot.text + ".at", Ref(spot.type.mutable, spot.type.of), times("%s.len" % spot.text, size(spot.type.of)), spot.checks)
    if isinstance(spot.type, Variant) and is_tag(spot.type.enum):
        need(k == 0, "a field of a tag")
        return Value(spot.text, Int(8), "", spot.checks, spot.behind)
    if isinstance(spot.type, Variant):
        name, ty = w.shapes.variant_field(spot.type.enum, spot.type.number, k)
        live = ("%s.tag == %d" % (spot.text, spot.type.number),) if k > 0 else ()
        return Value("%s.%s" % (spot.text, name), ty, "", spot.checks + live, spot.behind)
    spot = reached(spot)
    name, ty = w.shapes.field(spot.type, k)
    return Value("%s.%s" % (spot.text, name), ty, "", spot.checks, spot.behind)


def reached(spot):
    """A place behind a pointer to a struct or a tag as that; C's pointer has its type."""
    if isinstance(spot.type, Behind) and isinstance(spot.type.to, Named):
        inside = (within(spot, 1),) if is_tag(spot.type.to) else ()
        return Value("(*%s)" % spot.text, spot.type.to, "", spot.checks + inside, spot.type.mutable)
    return spot


def variant_step(w, spot, k):
    """variant_of: the same place, seen as one variant; nothing is read."""
    spot = reached(spot)
    need(w.shapes.is_enum(spot.type), "a variant of", spot.type)
    return Value(spot.text, Variant(spot.type, number(k)), "", spot.checks, spot.behind)


def deref_step(w, spot, to):
    """walk's deref: the place that the pointer is, at the type that the step names. The pointer in C points to just that type, or to an array and so to its first
    element, which is the step's."""
    to = w.type_of(to)
    need(isinstance(spot.type, Ref), "a deref of", spot.type)
    if isinstance(to, Named) and not is_tag(to):
        need(to == spot.type.to, "a deref of", spot.type, "at", to)
        return Value(spot.text, Behind(spot.type.mutable, to), "", spot.checks)
    first = pointee(spot.type.to) if isinstance(spot.type.to, Array) else None
    need(to in (spot.type.to, first), "a deref of", spot.type, "at", to)
    return Value(spot.text, Behind(spot.type.mutable, to), spot.room, spot.checks)


STEPS = {"field": field_step, "variant": variant_step, "deref": deref_step}


def times(text, factor):
    return text if factor == 1 else "%s * %d" % (text, factor)


# ---- operands: eval_opd


WORDS = {"opd_true": Value("1", Bool()), "opd_false": Value("0", Bool()), "opd_unit": Value("", Unit())}


def operand(w, term):
    if isinstance(term, str):
        need(term in WORDS, "unknown operand", term)
        return WORDS[term]
    need(term and term[0] in OPERANDS, "unknown operand", term)
    return OPERANDS[term[0]](w, term)


def int_operand(w, term):
    """int: the number, of its width, which it fits."""
    width, value = parts(term, "int", 2)
    ty, value = w.type_of(["ty_int", width]), number(value)
    need(value < 2**ty.width, "a number over its width", term)
    return Value("UINT%d_C(%d)" % (ty.width, value), ty)


def copy_operand(w, term):
    """copy: what the place holds. Behind a pointer only integers are read; load asks that they lie in the block."""
    spot = reached(place(w, parts(term, "copy", 1)[0]))
    need(not isinstance(spot.type, Variant), "a copy of a variant")
    if not isinstance(spot.type, Behind):
        return spot
    need(isinstance(spot.type.to, Int), "a copy of", spot.type)
    return Value("*" + spot.text, spot.type.to, "", spot.checks + (within(spot, size(spot.type.to)),))


def number_operand(w, term):
    """num_of: the number that stands in a type's place, of its width."""
    width, held = parts(term, "num_of", 2)
    return int_operand(w, ["int", width, parts(held, "ty_const", 1)[0]])


OPERANDS = {"int": int_operand, "copy": copy_operand, "num_of": number_operand}


def within(pointer, count):
    return "%s >= %s" % (pointer.room, count)


LITERAL = re.compile(r"UINT\d+_C\((\d+)\) (!=|<) (\d+)")


def asked(condition):
    """A condition for J8_CHECKED, as checks of a Value. What holds of the literals in it is settled here."""
    found = LITERAL.fullmatch(condition)
    if found:
        a, b = int(found.group(1)), int(found.group(3))
        need(a < b if found.group(2) == "<" else a != b, "this doesn't hold:", condition)
    return () if found or not condition or condition.startswith("UINT64_C(0) <= ") else (condition,)


# ---- right-hand sides: eval_rv. Each is handed the place that its value is stored to, and gives the value, or None if it has stored it itself.


def opd_right(w, term, target):
    """rv_opd: the operand's value."""
    value = operand(w, parts(term, "rv_opd", 1)[0])
    same(target.type, value.type, value.text)
    return value


@dataclass
class Operator:
    """c: the C expression of the operands a and b. kind: see `result`. check: what op2_chk asks, in C. why: why both mean the same."""

    c: str
    kind: str
    check: str
    why: str


FITS = "C's own operation on unsigned numbers; op2_chk's fact says that nothing wraps, and narrow numbers, which C widens to int, are cut back to their width"
OPERATORS = {
    "add unsigned": Operator("{a} + {b}", "number", "{a} <= {max} - {b}", "a + b where Fits w (a + b). " + FITS),
    "sub unsigned": Operator("{a} - {b}", "number", "{b} <= {a}", "a - b where b ≤ a. " + FITS),
    "mul unsigned": Operator("{a} * {b}", "number", "{b} == 0 || {a} <= {max} / {b}", "a * b where Fits w (a * b). " + FITS),
    "div unsigned": Operator("{a} / {b}", "number", "{b} != 0", "a / b of natural numbers, rounded down, where 0 < b. " + FITS),
    "rem unsigned": Operator("{a} % {b}", "number", "{b} != 0", "a % b of natural numbers where 0 < b. " + FITS),
    "shl": Operator("({wide}){a} << {b}", "number", "{b} < {bits}", "(a * 2 ^ b) % 2 ^ w where b < w: an unsigned shift drops what is over C's type, and the cut the rest"),
    "shr unsigned": Operator("{a} >> {b}", "number", "{b} < {bits}", "a / 2 ^ b where b < w, which is C's shift of an unsigned number"),
    "bit_and": Operator("{a} & {b}", "bits", "", "bit by bit, or && of two truth values, which are 0 or 1 in C; both are values already"),
    "bit_or": Operator("{a} | {b}", "bits", "", "as bit_and"),
    "bit_xor": Operator("{a} ^ {b}", "bits", "", "bit by bit, or whether two truth values differ"),
    "eq": Operator("{a} == {b}", "equal", "", "whether both are the same number or truth value"),
    "ne": Operator("{a} != {b}", "equal", "", "whether they are not"),
    "lt unsigned": Operator("{a} < {b}", "order", "", "ltb: both have one width and are unsigned; where C widens them to int, they keep their values"),
    "le unsigned": Operator("{a} <= {b}", "order", "", "leb, as lt"),
}


def result(kind, ty):
    """The type that an operator gives of two operands of one type: number, of two numbers a number; bits, the same or of two truth values one; order, of two
    numbers a truth value; equal, the same or of two truth values."""
    need(isinstance(ty, Int) or isinstance(ty, Bool) and kind in ("bits", "equal"), "operands of", ty)
    return ty if kind in ("number", "bits") else Bool()


def op2_right(w, term, target):
    """op2: the operation on the values of both operands."""
    op, first, second = parts(term, "op2", 3)
    name = op if isinstance(op, str) else " ".join(map(str, op))
    a, b = operand(w, first), operand(w, second)
    if name == "offset":
        return offset(a, b, target)
    need(name in OPERATORS, "unknown operation", name)
    need(a.type == b.type, name, "of", a.type, "and", b.type)
    form, ty = OPERATORS[name], a.type
    made = result(form.kind, ty)
    same(target.type, made, name)
    words = {"a": a.text, "b": b.text}
    if isinstance(ty, Int):
        words.update(max="UINT%d_MAX" % ty.width, bits=ty.width, wide="uint%d_t" % max(32, ty.width))
    text = form.c.format(**words)
    if made != Int(64):
        text = "(%s)(%s)" % (w.shapes.name(made), text)
    return Value(text, made, "", a.checks + b.checks + asked(form.check.format(**words)))


def offset(a, b, target):
    """vptr k (n + o): so many bytes on. C counts in elements, so the step is made on bytes. C asks that it stays inside the array or one past its end: the front
    end makes an offset only of an index or a range that is proved to be inside."""
    need(isinstance(a.type, Ref) and b.type == Int(64), "an offset of", a.type, "by", b.type)
    to = pointee(a.type.to)
    same(target.type, Ref(a.type.mutable, to), "offset")
    text = "%s + (size_t)%s" % (a.text, b.text)
    if size(to) != 1:
        const = "" if a.type.mutable else "const "
        text = "(%suint%d_t *)(%svoid *)((%suint8_t *)%s)" % (const, to.width, const, const, text)
    return Value(text, Ref(a.type.mutable, to), "%s - %s" % (a.room, b.text), a.checks + b.checks + asked("%s <= %s" % (b.text, a.room)))


def op1_right(w, term, target):
    """op1: the operation on the operand's value."""
    op, only = parts(term, "op1", 2)
    value = operand(w, only)
    name = op if isinstance(op, str) else " ".join(map(str, op[:-1]))  # a cast ends with its width
    need(name in ONE, "unknown operation", op)
    return ONE[name](w, op, value, target)


def not_one(w, op, value, target):
    """bit_not: of a truth value the other one, of a number (2 ^ w - 1) - a: every bit turned, C's ~ cut back to the width."""
    need(isinstance(value.type, (Bool, Int)), "not of", value.type)
    same(target.type, value.type, "not")
    sign = "!" if value.type == Bool() else "~"
    return Value("(%s)%s%s" % (w.shapes.name(value.type), sign, value.text), value.type, "", value.checks)


def cast_one(w, op, value, target):
    """cast unsigned unsigned w: the same number in another width, which op1_chk says it fits (a truth value is 0 or 1): C's conversion keeps it."""
    ty = w.type_of(["ty_int", op[-1]])
    need(isinstance(value.type, (Bool, Int)), "a cast of", value.type)
    same(target.type, ty, "cast")
    narrow = isinstance(value.type, Int) and value.type.width > ty.width
    fits = asked("%s <= UINT%d_MAX" % (value.text, ty.width) if narrow else "")
    return Value("(%s)%s" % (w.shapes.name(ty), value.text), ty, "", value.checks + fits)


def zeros_one(w, op, value, target):
    """count_trailing_zeros (logic/Lib/Count.antt): the zeros below the lowest digit that is set, all 64 of 0; a number of 32 bits. HELPERS has it in C."""
    need(value.type == Int(64), "count_trailing_zeros of", value.type)
    same(target.type, Int(32), "count_trailing_zeros")
    w.files.helpers.add("trailing_zeros")
    return Value("trailing_zeros(%s)" % value.text, Int(32), "", value.checks)


ONE = {"bit_not": not_one, "cast unsigned unsigned": cast_one, "count_trailing_zeros": zeros_one}

HELPERS = {
    "trailing_zeros": """\
static uint32_t trailing_zeros(uint64_t x)
{
#if defined __GNUC__ && !defined J8_PLAIN
    return x == 0 ? UINT32_C(64) : (uint32_t)__builtin_ctzll(x);
#else
    uint32_t count = 0;

    while (count < 64 && (x >> count & 1) == 0) {
        count++;
    }
    return count;
#endif
}
"""
}


def addr_right(w, term, target):
    """addr_of: the place itself, nothing is read. Behind a pointer it is that pointer; a local array that lies in memory is pointed to at its first element."""
    got = address(w, term[1])
    parts(term, "addr_of", 1)
    same(target.type, got.type, "address")
    return got


def address(w, term):
    """A pointer to a place: an array is pointed to at its first element."""
    spot = place(w, term)
    if isinstance(spot.type, Behind):
        return Value(spot.text, Ref(spot.type.mutable, spot.type.to), spot.room, spot.checks)
    need(spot.behind is not None or w.is_slot(term), "the address of", spot.type)
    ty = Ref(spot.behind is not False, spot.type)
    if isinstance(spot.type, Array):
        return Value(spot.text + ".e", ty, str(size(spot.type)), spot.checks)
    need(isinstance(spot.type, (Int, Named)), "the address of", spot.type)
    return Value("&" + spot.text, ty, str(size(spot.type)) if isinstance(spot.type, Int) or is_tag(spot.type) else "", spot.checks)


def aggregate_right(w, term, target):
    """aggregate: a struct of these fields, a slice, an array of these elements, or an enum of this tag and then its variant's fields."""
    terms = items(parts(term, "aggregate", 1)[0])
    values, ty = [operand(w, one) for one in terms], target.type
    names, types = aggregate_parts(w, ty, terms)
    need(len(types) == len(values), "an aggregate of", len(values), "parts for", ty)
    for want, value in zip(types, values):
        same(want, value.type, value.text)
    if is_tag(ty):
        return Value(values[0].text, ty)
    checks = sum((value.checks for value in values), ())
    if isinstance(ty, Slice):
        checks += asked("%s <= %s" % (times(values[1].text, size(ty.of)), values[0].room))
    if isinstance(ty, Array) and all(one[0] == "int" for one in terms):
        return Value(w.constant(ty, [one[2] for one in terms]), ty)
    listed = ", ".join(name + value.text for name, value in zip(names, values) if value.type != Unit())
    return Value("(%s){ %s }" % (w.shapes.name(ty), "{ %s }" % listed if isinstance(ty, Array) else listed), ty, "", checks)


def aggregate_parts(w, ty, terms):
    """What C writes before each part of an aggregate (a designator, or nothing), and each part's type."""
    if isinstance(ty, Slice):
        return [".at = ", ".len = "], [Ref(ty.mutable, ty.of), Int(64)]
    if isinstance(ty, Array):
        return [""] * ty.count, [ty.of] * ty.count
    if w.shapes.is_enum(ty):
        need(terms and terms[0][:2] == ["int", "w8"], "an enum's tag is no number")
        variant = number(terms[0][2])
        found = [w.shapes.variant_field(ty, variant, k) for k in range(len(w.shapes.shape(ty, "variants")[variant]) + 1)]
    else:
        found = [w.shapes.field(ty, k) for k in range(len(w.shapes.shape(ty, "fields")))]
    return [".%s = " % name for name, _ in found], [one for _, one in found]


def repeat_right(w, term, target):
    """repeat: the operand's value in each element."""
    only, count = parts(term, "repeat", 2)
    value = operand(w, only)
    need(isinstance(target.type, Array) and target.type.count == number(count) and target.type.of == value.type, "repeat", term, "for", target.type)
    w.check(value.checks)
    w.line("for (uint64_t i = 0; i < %s; i++) {" % count)
    w.line("    %s.e[i] = %s;" % (target.text, value.text))
    w.line("}")
    return None


RIGHT = {"rv_opd": opd_right, "op2": op2_right, "op1": op1_right, "addr_of": addr_right, "aggregate": aggregate_right, "repeat": repeat_right}


# ---- statements: code


def statement(w, term):
    listed = []
    while isinstance(term, list) and term and term[0] == "seq":
        first, term = parts(term, "seq", 2)
        listed.append(first)
    listed.append(term)
    handed = w.handed_on(listed)
    scopes = w.scopes(listed, handed) if len(listed) > 1 else []
    for at, one in enumerate(listed):
        for begin, _, own in scopes:
            if begin == at:
                w.open_scope(own)
        if at in handed:
            hold(w, one, handed[at])
        elif isinstance(one, list) and one[:1] == ["seq"]:
            statement(w, one)
        else:
            head = one if isinstance(one, str) else one[0]
            need(head in STATEMENTS, "unknown statement", one)
            STATEMENTS[head](w, one)
        for _, end, _ in scopes:
            if end == at:
                w.close_scope()


def hold(w, term, at):
    """An assign or a call of an array, or of a struct of one, that the next statement alone names, and whole: that statement gets its C in the local's place, so that nothing is stored
    twice. Nothing else happens between, and behind a call nothing else is read there."""
    target = Value("", w.locals[at])
    value = call_value(w, term, target) if term[0] == "call" else RIGHT[term[2][0]](w, term[2], target)
    w.check(value.checks)
    w.held[at] = value.text


def skip(w, term):
    """skip does nothing."""


def return_(w, term):
    """return: the function's value is what local 0 holds (at_return)."""
    w.line("return;" if w.locals[0] == Unit() else "return v0;")


def assign(w, term):
    """assign: the right-hand side's value, stored to the place. A unit has no bytes to store."""
    to, right = parts(term, "assign", 2)
    target = place(w, to)
    need(right[0] in RIGHT, "unknown right-hand side", right)
    checks, pointer = target.checks, isinstance(target.type, Behind)
    if pointer:
        need(target.type.mutable and (isinstance(target.type.to, Int) or is_tag(target.type.to)), "a store to", target.type)
        checks += (within(target, size(target.type.to)),)
        target = Value("*" + target.text, target.type.to)
    if target.type == Unit():
        need(right == ["aggregate", ["list"]] or right[0] == "rv_opd" and operand(w, right[1]).type == Unit(), "a unit's value", right)
        return
    need(not isinstance(target.type, Variant), "a store to a variant")
    value = RIGHT[right[0]](w, right, target)
    if value is not None:
        w.check(value.checks + checks)
        w.line("%s = %s;" % (target.text, value.text))
        if not pointer:
            w.keep_room(to, value.room)


def lend_static(w, term):
    """lend_static: a reference to a constant in memory that is never written or freed, a block for each run of it. In C it is one constant for all runs: what
    tells two blocks apart is only a comparison of pointers, which isn't a form here."""
    to, ty, held = parts(term, "lend_static", 3)
    target, ty = place(w, to), w.type_of(ty)
    need(items(to[2]) == [], "a constant lent to a part")
    same(target.type, Ref(False, ty), "a constant")
    need(isinstance(ty, Array), "a constant of", ty)
    width, numbers = parts(held, "c_ints", 2)
    numbers = items(numbers)
    need(w.type_of(["ty_int", width]) == ty.of and len(numbers) == ty.count, "a constant", held, "for", ty)
    need(all(number(one) < 2**ty.of.width for one in numbers), "a number over its width", held)
    w.line("%s = %s.e;" % (target.text, w.constant(ty, numbers)))


def call(w, term):
    """call: the values of the operands are handed over, but for units, which hold nothing, and the result is stored to the place, which here is a whole local. What
    a function gives that takes nothing and does nothing else stands in the call's place."""
    to = parts(term, "call", 3)[2]
    target = place(w, to)
    need(items(to[2]) == [], "a call that stores to a part")
    made = call_value(w, term, target)
    w.check(made.checks)
    w.line(made.text + ";" if target.type == Unit() else "%s = %s;" % (target.text, made.text))


def call_value(w, term, target):
    how, given, _ = parts(term, "call", 3)
    symbol, given_types = parts(how, "fn", 2)
    need(given_types == "no_args", "a call at types:", how)
    symbol = str(symbol)
    types = w.signature(symbol)
    values = [operand(w, one) for one in items(given)]
    need(len(values) == len(types) - 1, "a call of", symbol, "with", len(values), "values")
    for want, value in zip(types[1:], values):
        same(want, value.type, value.text)
    same(target.type, types[0], "result of " + symbol)
    text = w.files.given.get(symbol) or "%s(%s)" % (c_name(symbol), ", ".join(value.text for value in values if value.type != Unit()))
    return Value(text, types[0], "", sum((value.checks for value in values), ()))


def if_(w, term):
    """cond: the first body if the operand is true, else the second."""
    asked, then, other = parts(term, "cond", 3)
    value = operand(w, asked)
    need(value.type == Bool(), "cond of", value.type)
    w.check(value.checks)
    if then == "skip" and other != "skip":
        w.line("if (!%s) {" % value.text)
        then, other = other, "skip"
    else:
        w.line("if (%s) {" % value.text)
    w.inside(then)
    if other != "skip":
        w.line("} else {")
        w.inside(other)
    w.line("}")


def switch(w, term):
    """switch: the first arm that has the number among its keys. No key stands twice, so C may take them in any order. Without a default no other number comes
    (cases is stuck there), and the last arm takes its place, so that C sees every way out."""
    asked, arms = parts(term, "switch", 2)
    value = operand(w, asked)
    need(isinstance(value.type, Int) and arms != "no_default", "switch of", value.type)
    w.check(value.checks)
    w.line("switch (%s) {" % value.text)
    seen = set()
    while arms != "no_default":
        if arms[0] == "default":
            w.line("default:")
            w.inside(parts(arms, "default", 1)[0])
            break
        listed, body, arms = parts(arms, "arm", 3)
        keys = [number(key) for key in items(listed)]
        need(keys and not seen.intersection(keys) and max(keys) < 2**value.type.width, "keys of a switch:", keys)
        seen.update(keys)
        for key in keys:
            w.line("case %d:" % key)
        if arms == "no_default":
            w.line("default:")
            w.check((" || ".join("%s == %d" % (value.text, key) for key in keys),), 1)
        w.inside(body)
        w.line("    break;")
    w.line("}")


def block(w, term):
    """block: its body; an exit of 0 in it goes on behind it (after_block_m)."""
    target = w.open_target()
    statement(w, parts(term, "block", 1)[0])
    w.close_target(target)


def loop(w, term):
    """loop: its body again and again; an exit of 0 in it begins the next turn (after_turn)."""
    w.line("for (;;) {")
    w.depth += 1
    target = w.open_target()
    statement(w, parts(term, "loop", 1)[0])
    w.close_target(target)
    w.depth -= 1
    w.line("}")


def exit_(w, term):
    """exit n: to the n-th block or loop around it, counted from 0."""
    w.line("goto %s;" % w.target(number(parts(term, "exit", 1)[0])))


STATEMENTS = {"skip": skip, "return": return_, "assign": assign, "lend_static": lend_static, "call": call, "cond": if_, "switch": switch, "block": block, "loop": loop, "exit": exit_}
