"""The C of each type. A value is a number, a truth value, a pointer or a struct of values, as in logic/Mir/Val.antt; how it lies in memory is C's own
business: what is reached through pointers are integers (`pointee`), which lie in C as in the machine but for the order of their bytes, which no program can tell,
and structs at their own type, so that C itself finds their fields."""
from mir import Array, Bool, Int, Named, Ref, Slice, Unit, at_types, need
from sources import STANDARD


def c_name(symbol):
    return symbol.replace("::", "_")


def type_name(ty, inside=False):
    """The C name of a declared type, with those of the types that it is used at: these by the last word of their paths, since C need tell names apart by 63
    letters only."""
    if isinstance(ty, Named):
        own = ty.symbol.split("::")[-1] if inside or ty.symbol in STANDARD else c_name(ty.symbol)
        return "_".join([own] + [type_name(one, True) for one in ty.types])
    words = {Bool(): "bool", Unit(): "unit"}
    need(isinstance(ty, Int) or ty in words, "a declared type at", ty)
    return words.get(ty) or "u%d" % ty.width


# The enums whose variants hold nothing: each is its tag alone, a byte.
TAGS = set()


def is_union(held):
    """Whether an enum has several variants that hold something: of these one is live, so that they may share their place (J8_EITHER)."""
    return sum(1 for variant in held if any(one != Unit() for one in variant)) > 1


def is_tag(ty):
    return isinstance(ty, Named) and ty.symbol in TAGS


def size(ty):
    """The bytes of what a pointer points to (logic/Prog/Memory.antt, size)."""
    if is_tag(ty):
        return 1
    if isinstance(ty, Array):
        return ty.count * size(ty.of)
    need(isinstance(ty, Int), "a pointer to", ty)
    return ty.width // 8


def pointee(ty):
    """The element that a reference to an integer, a tag or an array of them points to first."""
    of = ty.of if isinstance(ty, Array) else ty
    need(isinstance(of, Int) or is_tag(of), "a pointer to", ty)
    return of


class Shapes:
    """The C names of types; `made` has the definitions in their order."""

    def __init__(self, program, sources):
        self.shapes, self.sources, self.made, self.fields, self.named = program.shapes, sources, {}, {}, {}
        TAGS.update(symbol for symbol, (form, held) in program.shapes.items() if form == "variants" and not any(held))

    def name(self, ty):
        kind = type(ty)
        need(kind in NAMES, "no C for the type", ty)
        return NAMES[kind](self, ty)

    def declare(self, ty, name):
        """`ty name`, where C wants no blank behind a star."""
        return (self.name(ty) + " " + name).replace("* ", "*")

    def shape(self, ty, form):
        need(isinstance(ty, Named) and ty.symbol in self.shapes, "no declared type:", ty)
        found, held = self.shapes[ty.symbol]
        need(found == form, ty.symbol, "has", found, "and not", form)
        if form == "fields":
            return [at_types(one, ty.types) for one in held]
        return [[at_types(one, ty.types) for one in variant] for variant in held]

    def is_enum(self, ty):
        return isinstance(ty, Named) and ty.symbol in self.shapes and self.shapes[ty.symbol][0] == "variants"

    def holds_array(self, ty):
        """Whether a type is a struct of an array alone."""
        found, held = self.shapes.get(ty.symbol, ("", [])) if isinstance(ty, Named) else ("", [])
        return found == "fields" and len(held) == 1 and isinstance(held[0], Array)

    def field(self, ty, k):
        """The C name and the type of a struct's field."""
        held = self.shape(ty, "fields")
        need(k < len(held), ty.symbol, "has no field", k)
        self.name(ty)
        return self.fields[ty][k], held[k]

    def variant_field(self, ty, variant, k):
        """The C name and the type of a variant's field; field 0 is the tag (logic/Prog/Memory.antt, with_tag)."""
        held = self.shape(ty, "variants")
        need(variant < len(held) and k <= len(held[variant]), ty.symbol, "has no field", k, "of variant", variant)
        self.name(ty)
        called = self.fields[ty][variant]
        name = "J8_OF(%s, %s_%d)" % (called, called, k) if is_union(held) else "%s_%d" % (called, k)
        return ("tag", Int(8)) if k == 0 else (name, held[variant][k - 1])

    def define(self, name, members, comment=""):
        if name not in self.made:
            body = "".join("    %s\n" % one if one.endswith("J8_EITHER_END") else "    %s;\n" % one for one in members)
            self.made[name] = "%stypedef struct {\n%s} %s;\n" % ("/* %s */\n" % comment if comment else "", body, name)
        return name


def int_name(shapes, ty):
    """vint w n: n is below 2 ^ w, as a uintw_t is."""
    return "uint%d_t" % ty.width


def bool_name(shapes, ty):
    """vbool b: a byte, 1 if b is true and else 0. Every operation here gives 0 or 1, and so do C's comparisons and !. No bool of C: gcc compares the bytes of a
    block at once only where what was found is a byte like them."""
    return "uint8_t"


def unit_name(shapes, ty):
    """vunit: only as a result, which C has as void."""
    return "void"


def ref_name(shapes, ty):
    """vptr b o: a pointer to the first integer, or to a struct; const where nothing is stored through it."""
    if isinstance(ty.to, Named) and not is_tag(ty.to):
        return ("" if ty.mutable else "const ") + shapes.name(ty.to) + " *"
    return ("" if ty.mutable else "const ") + shapes.name(pointee(ty.to)) + " *"


def array_name(shapes, ty):
    """vstruct of its elements: a struct, so that C copies, hands over and returns it as a value."""
    name = "array_%s_%d" % (type_name(pointee(ty)), ty.count)
    return shapes.define(name, [shapes.declare(ty.of, "e[%d]" % ty.count)])


def slice_name(shapes, ty):
    """vstruct of a pointer and a count of elements."""
    name = "slice_%s%s" % ("mut_" if ty.mutable else "", type_name(pointee(ty.of)))
    return shapes.define(name, [shapes.declare(Ref(ty.mutable, ty.of), "at"), "uint64_t len"])


def named_name(shapes, ty):
    """A struct is vstruct of its fields, an enum vstruct of its tag and the live variant's fields. In C every variant's fields stand side by side for gcc on x86-64, which makes
    slower code of a union, and a field of a variant that isn't live is never read (its cells are poison, logic/Prog/Memory.antt)."""
    name = type_name(ty)
    need(shapes.named.setdefault(name, ty) == ty, "two types are named", name)
    if name in shapes.made:
        return name
    need(ty.symbol in shapes.shapes, "no shape of", ty.symbol)
    if is_tag(ty):
        names = shapes.sources.variants(ty.symbol, shapes.shape(ty, "variants"))
        shapes.fields[ty] = names
        told = ", ".join("%d %s" % one for one in enumerate(names))
        shapes.made[name] = "/* %s, %s: %s */\ntypedef uint8_t %s;\n" % (ty.symbol, shapes.sources.file(ty.symbol), told, name)
        return name
    form = shapes.shapes[ty.symbol][0]
    held = shapes.shape(ty, form)
    if form == "fields":
        names = shapes.sources.fields(ty.symbol, held)
        members = [shapes.declare(one, called) for one, called in zip(held, names)]
    else:
        need(len(held) <= 256, ty.symbol, "has more variants than a tag has numbers")
        names = shapes.sources.variants(ty.symbol, held)
        members = ["uint8_t tag"]
        own = []
        for variant, called in zip(held, names):
            fields = [shapes.declare(one, "%s_%d" % (called, k)) for k, one in enumerate(variant, 1) if one != Unit()]
            own += ["J8_CASE_BEGIN\n%s    J8_CASE_END(%s)" % ("".join("        %s;\n" % one for one in fields), called)] if fields and is_union(held) else fields
        members += ["J8_EITHER_BEGIN\n%s    J8_EITHER_END" % "".join("    %s\n" % one for one in own)] if is_union(held) else own
    shapes.fields[ty] = names
    return shapes.define(name, members, ty.symbol if ty.symbol in STANDARD else "%s, %s" % (ty.symbol, shapes.sources.file(ty.symbol)))


NAMES = {Int: int_name, Bool: bool_name, Unit: unit_name, Ref: ref_name, Array: array_name, Slice: slice_name, Named: named_name}
