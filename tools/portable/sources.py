"""The names of fields, variants and parameters, which the MIR leaves off, from the Rattle sources; each is held to the MIR's type."""
import os
import re

from mir import Array, Bool, Int, Named, Ref, Slice, Unit, need

NUMBERS = {"u8": Int(8), "u16": Int(16), "u32": Int(32), "u64": Int(64), "usize": Int(64), "bool": Bool(), "()": Unit()}
# The fields and variants of the standard library's types, which have no source here.
STANDARD = {
    "core::option::Option": ["None", "Some"],
    "core::result::Result": ["Ok", "Err"],
    "core::ops::ControlFlow": ["Continue", "Break"],
    "core::result::ErrResidual": ["error"],
    "core::option::NoValue": [],
}


def apart(text):
    """What stands between the commas of a list of types."""
    found, depth = [""], 0
    for one in text:
        depth += {"<": 1, ">": -1}.get(one, 0)
        if one == "," and depth == 0:
            found.append("")
        else:
            found[-1] += one
    return [one.strip() for one in found if one.strip()]


def is_type(text, ty):
    """Whether a type as the source writes it is a type of the MIR."""
    text = text.strip()
    if text in NUMBERS:
        return NUMBERS[text] == ty
    found = re.fullmatch(r"&(mut )?(.+)", text)
    if found:
        mutable, of = bool(found.group(1)), found.group(2)
        if re.fullmatch(r"\[[^;]+\]", of):
            return isinstance(ty, Slice) and ty.mutable == mutable and is_type(of[1:-1], ty.of)
        return isinstance(ty, Ref) and ty.mutable == mutable and is_type(of, ty.to)
    found = re.fullmatch(r"\[(.+); (\d+)\]", text)
    if found:
        return isinstance(ty, Array) and ty.count == int(found.group(2)) and is_type(found.group(1), ty.of)
    found = re.fullmatch(r"([\w:]+)(?:<(.*)>)?", text)
    if not found or not isinstance(ty, Named) or ty.symbol.split("::")[-1] != found.group(1).split("::")[-1]:
        return False
    given = apart(found.group(2) or "")
    return len(given) == len(ty.types) and all(map(is_type, given, ty.types))


class Sources:
    """root: the folder that holds crates/."""

    def __init__(self, root):
        self.root, self.texts = root, {}

    def file(self, symbol):
        """The file of a path, below root: its crate's root file, or that of its modules as far as there are files."""
        if symbol.startswith("core::"):
            return "the standard library"
        crate, *rest = symbol.split("::")
        for count in range(len(rest), 0, -1):
            path = "crates/%s/src/%s.rt" % (crate, "/".join(rest[:count]))
            if os.path.isfile(os.path.join(self.root, path)):
                return path
        path = "crates/%s/src/lib.rt" % crate
        need(os.path.isfile(os.path.join(self.root, path)), "no source of", symbol)
        return path

    def text(self, symbol):
        path = self.file(symbol)
        if path not in self.texts:
            with open(os.path.join(self.root, path), encoding="utf-8") as file:
                self.texts[path] = re.sub(r"//.*", "", file.read())
        return self.texts[path]

    def body(self, symbol, word):
        """What stands in the brackets of a declared struct or enum, one entry a comma."""
        found = re.findall(r"^(?:pub(?:\(crate\))? )?%s %s \{(.*?)^\}" % (word, symbol.split("::")[-1]), self.text(symbol), re.M | re.S)
        need(len(found) == 1, self.file(symbol), "has", len(found), word, symbol)
        entries = [one.strip() for one in re.split(r",\s*\n", found[0]) if one.strip()]
        return [one for one in entries if not re.match(r"(pub )?ghost ", one)]

    def fields(self, symbol, types):
        """The names of a struct's fields."""
        if symbol in STANDARD:
            return STANDARD[symbol]
        names = []
        entries = self.body(symbol, "struct")
        need(len(entries) == len(types), symbol, "has", len(types), "fields and in its source", len(entries))
        for entry, ty in zip(entries, types):
            found = re.fullmatch(r"(?:pub(?:\(crate\))? )?(\w+): (.+)", entry)
            need(found and is_type(found.group(2), ty), "field of", symbol + ":", entry, "is no", ty)
            names.append(found.group(1))
        return names

    def variants(self, symbol, types):
        """The names of an enum's variants."""
        if symbol in STANDARD:
            return STANDARD[symbol]
        names = []
        entries = self.body(symbol, "enum")
        need(len(entries) == len(types), symbol, "has", len(types), "variants and in its source", len(entries))
        for entry, held in zip(entries, types):
            found = re.fullmatch(r"(\w+)(?:\((.+)\)| = \d+)?", entry)
            texts = apart(found.group(2)) if found and found.group(2) else []
            need(found and len(texts) == len(held) and all(map(is_type, texts, held)), "variant of", symbol + ":", entry, "is no", held)
            names.append(found.group(1))
        return names

    def hint(self, symbol):
        """What a function's source asks of the compiler: `inline` or `inline(always)`, to put it where it is called, or `inline(never)`."""
        if symbol.startswith("core::"):
            return ""
        name = re.sub(r"::\d+$", "", symbol).split("::")[-1]
        found = re.findall(r"(?:^ *#\[(inline(?:\(\w+\))?)\]\n)?^ *(?:pub(?:\(crate\))? )?fn %s\b" % name, self.text(symbol), re.M)
        need(found, self.file(symbol), "has no function", symbol)
        return found[0] if len(set(found)) == 1 else ""

    def params(self, symbol, types):
        """The names of a function's parameters."""
        found = re.findall(r"\bfn %s\((.*?)\)" % symbol.split("::")[-1], self.text(symbol), re.S)
        need(len(found) == 1, self.file(symbol), "has", len(found), "functions", symbol)
        entries = [one.strip() for one in found[0].split(",") if one.strip()]
        need(len(entries) == len(types), symbol, "has", len(types), "parameters and in its source", len(entries))
        names = []
        for entry, ty in zip(entries, types):
            name, _, text = entry.partition(": ")
            need(is_type(text, ty), "parameter of", symbol + ":", entry, "is no", ty)
            names.append(name)
        return names
