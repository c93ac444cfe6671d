"""The functions of j8.h around those of the MIR. Parameters and the fields of structs are matched by name and by type with the Rattle source, so that two of
one type can't be swapped. size_t stands here and nowhere else: inside, usize is a uint64_t on every target."""
import re

from mir import Int, Named, Slice, need
from shapes import c_name

NUMBERS = {Int(32): "uint32_t", Int(64): "size_t"}


def struct_of(symbol):
    """The C struct of a Rattle struct: J8Result is j8_result."""
    return re.sub(r"(?<!^)([A-Z])", r"_\1", symbol.split("::")[-1]).lower()


class Header:
    """structs: the fields of each, as (type, name). functions: the result's type and the parameters of each, as (type, name). version: J8_VERSION."""

    def __init__(self, text):
        self.version = re.search(r'^#define J8_VERSION "(.*)"$', text, re.M).group(1)
        text = re.sub(r"/\*.*?\*/", "", text, flags=re.S)
        text = re.sub(r"^#.*(\\\n.*)*$", "", text, flags=re.M)
        self.structs, self.functions = {}, {}
        for body, name in re.findall(r"typedef struct \{([^}]*)\} (\w+);", text):
            self.structs[name] = [tuple(one.split()) for one in body.split(";") if one.strip()]
        for result, name, params in re.findall(r"^(\w+) (j8_\w+)\(([^)]*)\);", text, re.M):
            listed = [] if params == "void" else [re.sub(r"\s+", " ", one.strip()) for one in params.split(",")]
            self.functions[name] = (result, [re.fullmatch(r"(.*?)(\w+)", one).groups() for one in listed])

    def fields(self, shapes, ty):
        """The fields of a struct of the MIR, held to the header's struct: types and names."""
        held = shapes.shape(ty, "fields")
        have = self.structs[struct_of(ty.symbol)]
        need(len(held) == len(have), ty.symbol, "and", struct_of(ty.symbol), "have not as many fields")
        names = [shapes.field(ty, k)[0] for k in range(len(held))]
        for one, name, (c_type, c_field) in zip(held, names, have):
            want = struct_of(one.symbol) if isinstance(one, Named) else NUMBERS.get(one)
            need(name == c_field and want == c_type, ty.symbol, "has", name, "of", one, "and j8.h", c_type, c_field)
        return list(zip(held, names))

    def taken_in(self, shapes, ty, text):
        """The MIR's struct, made of the header's."""
        made = []
        for one, name in self.fields(shapes, ty):
            inner = "%s.%s" % (text, name)
            made.append(".%s = %s" % (name, self.taken_in(shapes, one, inner) if isinstance(one, Named) else inner))
        return "{ %s }" % ", ".join(made)

    def given_out(self, shapes, ty, to, of):
        """The lines that fill the header's struct with the MIR's."""
        lines = []
        for one, name in self.fields(shapes, ty):
            if isinstance(one, Named):
                lines += self.given_out(shapes, one, "%s.%s" % (to, name), "%s.%s" % (of, name))
            elif one == Int(64):
                lines.append("    J8_CHECK((size_t)%s.%s == %s.%s);" % (of, name, of, name))
                lines.append("    %s.%s = (size_t)%s.%s;" % (to, name, of, name))
            else:
                lines.append("    %s.%s = %s.%s;" % (to, name, of, name))
        return lines

    def argument(self, shapes, ty, own, rest, empty):
        """What a wrapper hands on for a parameter of the MIR: the next of the header's, or the next two. A pointer of length 0 may be NULL, to which C lets
        nothing be added: then a local stands for it, which is never read."""
        need(rest, "j8.h has no parameter", own)
        c_type, name = rest.pop(0)
        need(name == own, "j8.h has", name, "and not", own)
        if isinstance(ty, Slice):
            need(c_type == ("" if ty.mutable else "const ") + shapes.name(ty.of) + " *", own, "is", c_type)
            need(rest and rest.pop(0) == ("size_t ", own + "_len"), "no size_t", own + "_len")
            empty.add(ty.of)
            return "(%s){ %s_len != 0 ? %s : &no_u%d, %s_len }" % (shapes.name(ty), own, own, ty.of.width, own)
        if isinstance(ty, Named):
            need(c_type == struct_of(ty.symbol) + " ", own, "is", c_type)
            return "(%s)%s" % (shapes.name(ty), self.taken_in(shapes, ty, own))
        need(ty in NUMBERS and c_type == NUMBERS[ty] + " ", own, "is", c_type)
        return own

    def wrapper(self, shapes, sources, name, function):
        """The C function of the header, around that of the MIR."""
        result, params = self.functions[name]
        types, made, rest, empty = function.locals[: function.params + 1], [], list(params), set()
        for ty, own in zip(types[1:], sources.params(function.symbol, types[1:])):
            made.append(self.argument(shapes, ty, own, rest, empty))
        need(not rest, name, "has in j8.h", rest, "besides")
        lines = ["%s %s(%s)" % (result, name, ", ".join(one + own for one, own in params) or "void"), "{"]
        lines += ["    %s no_u%d = 0;" % (shapes.name(one), one.width) for one in sorted(empty, key=lambda one: one.width)]
        call = "%s(%s)" % (c_name(function.symbol), ", ".join(made))
        if types[0] == Int(32):
            need(result == "uint32_t", name, "is", result)
            return "\n".join(lines + ["    return %s;" % call, "}", ""])
        need(isinstance(types[0], Named) and struct_of(types[0].symbol) == result, name, "is", result, "and not", types[0])
        lines += ["    %s got;" % shapes.name(types[0]), "    %s answer;" % result, "", "    got = %s;" % call]
        return "\n".join(lines + self.given_out(shapes, types[0], "answer", "got") + ["    return answer;", "}", ""])
