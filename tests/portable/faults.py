#!/usr/bin/env python3
"""Puts faults into a copy of the translator, one at a time, and sees that the tests find each: the translator's own checks, the compiler, the vectors, calls by
chance and by fuzzing compared with the archive's answers, the C programs, J8_CHECKED, J8_PLAIN, or the sanitizers. Tests that can't fail would show nothing.

    faults.py [WORD]    run in the repository, after make portable archive; only the faults whose words have WORD
"""
import os
import shutil
import subprocess
import sys

ROOT = os.path.join(os.path.dirname(os.path.abspath(__file__)), "..", "..")
os.chdir(ROOT)
MADE = "target/portable"
FOLDER = MADE + "/faults"
TOOLS = FOLDER + "/tools"
CALLS = MADE + "/faults-calls"
WARNED = "-std=c99 -O1 -Wall -Wextra -Wconversion -Werror -pedantic -Iinclude".split()

# What, the file, what stands there once, and what stands there then.
FAULTS = [
    ("a sum as an or", "forms.py", 'Operator("{a} + {b}"', 'Operator("{a} | {b}"'),
    ("a difference turned round", "forms.py", 'Operator("{a} - {b}"', 'Operator("{b} - {a}"'),
    ("a product as a sum", "forms.py", 'Operator("{a} * {b}"', 'Operator("{a} + {b}"'),
    ("a quotient rounded up", "forms.py", 'Operator("{a} / {b}"', 'Operator("({a} + {b} - 1) / {b}"'),
    ("a remainder as an and", "forms.py", 'Operator("{a} % {b}"', 'Operator("{a} & {b}"'),
    ("a shift in 32 bits", "forms.py", 'Operator("({wide}){a} << {b}"', 'Operator("({wide})((uint32_t){a} << ({b} & 31))"'),
    ("a shift to the other side", "forms.py", 'Operator("{a} >> {b}"', 'Operator("{a} << {b}"'),
    ("an and as an or", "forms.py", 'Operator("{a} & {b}"', 'Operator("{a} | {b}"'),
    ("an or that leaves off what both have", "forms.py", 'Operator("{a} | {b}"', 'Operator("{a} ^ {b}"'),
    ("an xor as an or", "forms.py", 'Operator("{a} ^ {b}"', 'Operator("{a} | {b}"'),
    ("equal as at most", "forms.py", 'Operator("{a} == {b}"', 'Operator("{a} <= {b}"'),
    ("unequal as above", "forms.py", 'Operator("{a} != {b}"', 'Operator("{a} > {b}"'),
    ("below as at most", "forms.py", 'Operator("{a} < {b}"', 'Operator("{a} <= {b}"'),
    ("at most as below", "forms.py", 'Operator("{a} <= {b}"', 'Operator("{a} < {b}"'),
    ("below by sign", "forms.py", 'Operator("{a} < {b}"', 'Operator("(int64_t){a} < (int64_t){b}"'),
    ("numbers of 32 bits cut back to 8", "forms.py", 'text = "(%s)(%s)" % (w.shapes.name(made), text)', 'text = "(%s)(%s)" % ("uint8_t", text)'),
    ("an offset counted in elements", "forms.py", "    if size(to) != 1:\n        const", "    if size(to) == 2:\n        const"),
    ("an offset of 16 bits", "forms.py", 'text = "%s + (size_t)%s" % (a.text, b.text)', 'text = "%s + (uint16_t)%s" % (a.text, b.text)'),
    ("every type the first one", "mir.py", "return types[number(term[1])]", "return types[0]"),
    ("every type of a declared type the first one", "mir.py", "return types[ty.k]", "return types[0]"),
    ("a number in a type's place as 0", "forms.py", 'return int_operand(w, ["int", width, parts(held, "ty_const", 1)[0]])', 'return int_operand(w, ["int", width, "0"])'),
    ("a method at its caller's types", "mir.py", '["args", impl_types, impl_dicts]]', '["args", ["list"] + types[: len(items(impl_types))], impl_dicts]]'),
    ("not as itself", "forms.py", 'sign = "!" if', 'sign = "" if'),
    ("a cast through 8 bits", "forms.py", 'return Value("(%s)%s" % (w.shapes.name(ty), value.text), ty, "", value.checks + fits)', 'return Value("(%s)(uint8_t)%s" % (w.shapes.name(ty), value.text), ty, "", value.checks + fits)'),
    ("no trailing zeros of 0", "forms.py", "return x == 0 ? UINT32_C(64) :", "return x == 0 ? UINT32_C(0) :"),
    ("trailing zeros up to 32, without a builtin", "forms.py", "while (count < 64 &&", "while (count < 32 &&"),
    ("an array from its second element on", "forms.py", 'spot.text + ".e"', 'spot.text + ".e + 1"'),
    ("every tag 0", "forms.py", 'listed = ", ".join(name + value.text for', 'listed = ", ".join(name + ("0" if "tag" in name else value.text) for'),
    ("an enum without fields as its first variant", "forms.py", "return Value(values[0].text, ty)", 'return Value("UINT8_C(0)", ty)'),
    ("the other branch", "forms.py", 'w.line("if (!%s) {" % value.text)', 'w.line("if (%s) {" % value.text)'),
    ("arms that fall through", "forms.py", '        w.line("    break;")\n', ""),
    ("keys one off", "forms.py", 'w.line("case %d:" % key)', 'w.line("case %d:" % (key + 1))'),
    ("an exit to the next block out", "translate.py", "self.targets[-1 - n][1] = True\n        return self.targets[-1 - n][0]", "n = min(n + 1, len(self.targets) - 1)\n        self.targets[-1 - n][1] = True\n        return self.targets[-1 - n][0]"),
    ("a call whose result is dropped", "forms.py", 'w.line(made.text + ";" if target.type == Unit() else', 'w.line(made.text + ";" if target.type in (Unit(), Bool()) else'),
    ("the operands of a call turned round", "forms.py", '", ".join(value.text for value in values if value.type', '", ".join(value.text for value in values[::-1] if value.type'),
    ("a unit handed over", "forms.py", "for value in values if value.type != Unit()))\n    return", "for value in values))\n    return"),
    ("a load one element on", "forms.py", 'return Value("*" + spot.text, spot.type.to', 'return Value("1[" + spot.text + "]", spot.type.to'),
    ("a store one element on", "forms.py", 'target = Value("*" + target.text, target.type.to)', 'target = Value("1[" + target.text + "]", target.type.to)'),
    ("the length of a slice one less", "forms.py", 'return Value(spot.text + ".len", Int(64), "", spot.checks)', 'return Value("(%s.len - (%s.len > 700))" % (spot.text, spot.text), Int(64), "", spot.checks)'),
    ("a struct's fields one off", "shapes.py", "return self.fields[ty][k], held[k]", "return self.fields[ty][k - 1], held[k]"),
    ("a variant's fields as the first one's", "shapes.py", "called = self.fields[ty][variant]", "called = self.fields[ty][0]"),
    ("a struct behind a pointer as the next one", "forms.py", 'return Value("(*%s)" % spot.text', 'return Value("%s[1]" % spot.text'),
    ("a variant's fields at one place", "translate.py", "#define J8_CASE_BEGIN struct {", "#define J8_CASE_BEGIN union {"),
    ("a block of its own for what is pointed to", "translate.py", "at in self.read and not self.function.in_memory[at] and at not in", "at in self.read and at not in"),
    ("a block of its own for what is used behind it", "translate.py", " and sum(found[k][at] for k in where) == self.uses[at]", ""),
    ("a block that ends before what is handed on arrives", "translate.py", "written[k] = written[k + 1]", "written[k] = k"),
    ("what takes something as a constant", "translate.py", "if self.functions[symbol].params == 0}", "if self.functions[symbol].params >= 0}"),
    ("a value that is handed on and not taken", "forms.py", 'w.held.pop(at, "v%d" % at)', '"v%d" % at'),
    ("usize in 32 bits", "shapes.py", 'return "uint%d_t" % ty.width', 'return "uint%d_t" % min(ty.width, 32)'),
    ("constants in 32 bits", "forms.py", 'return Value("UINT%d_C(%d)" % (ty.width, value), ty)', 'return Value("UINT%d_C(%d)" % (ty.width, value % 2**32), ty)'),
    ("a lent constant from its second byte on", "forms.py", 'w.line("%s = %s.e;"', 'w.line("%s = %s.e + 1;"'),
    ("a table that repeats a row", "translate.py", 'numbers[at : at + 16]', 'numbers[at % 240 : at % 240 + 16]'),
    ("NULL handed on", "header.py", '{ %s_len != 0 ? %s : &no_u%d, %s_len }" % (shapes.name(ty), own, own, ty.of.width, own)', '{ %s_len != 0 || no_u%d == 0 ? %s : &no_u%d, %s_len }" % (shapes.name(ty), own, ty.of.width, own, ty.of.width, own)'),
    ("an answer's number in 16 bits", "header.py", 'lines.append("    %s.%s = (size_t)%s.%s;"', 'lines.append("    %s.%s = (uint16_t)%s.%s;"'),
    ("an answer's first field twice", "header.py", 'lines.append("    %s.%s = %s.%s;" % (to, name, of, name))', 'lines.append("    %s.%s = %s.%s;" % (to, name, of, "number" if name == "stored" else name))'),
    ("a parameter's length as its neighbour's", "header.py", ": &no_u%d, %s_len }\" % (shapes.name(ty), own, own, ty.of.width, own)", ": &no_u%d, %s_len }\" % (shapes.name(ty), own, own, ty.of.width, \"text\" if own == \"store\" else own)"),
]


def run(words, **more):
    return subprocess.run(words, stdout=subprocess.PIPE, stderr=subprocess.STDOUT, check=False, **more)


def answers(program, calls):
    """What a program prints for calls, or nothing if it dies or doesn't end."""
    with open(calls, "rb") as given:
        try:
            done = run([program], stdin=given, timeout=20)
        except subprocess.TimeoutExpired:
            return b""
    return done.stdout if done.returncode == 0 else b""


def whole(path):
    with open(path, "rb") as file:
        return file.read()


def differs(name, compiler, options):
    """Builds calls.c with the C file, and says whether an answer isn't the archive's."""
    program = "%s/%s" % (FOLDER, name)
    words = [compiler] + options + ["-std=c99", "-Iinclude", "tests/portable/calls.c", FOLDER + "/j8.c", "-o", program]
    if run(words).returncode != 0:
        return name + ", which doesn't compile it"
    for kind, said in (("vectors", "the vectors"), ("other", "calls beside the archive"), ("wide", "calls with numbers of 64 bits")):
        if answers(program, "%s/%s.calls" % (CALLS, kind)) != whole("%s/%s.answers" % (CALLS, kind)):
            return said + ("" if name == "gcc" else ", " + name)
    return ""


def programs(name, compiler, options):
    """The first of the C programs that doesn't pass."""
    for one in ("strings", "upload", "json8", "json8_write", "tsv8", "sentences", "drain"):
        program = "%s/%s_%s" % (FOLDER, name, one)
        run([compiler] + options + ["-std=c99", "-Iinclude", "tests/c/%s.c" % one, FOLDER + "/j8.c", "-o", program])
        try:
            if run([program], timeout=120).returncode != 0:
                return "tests/c/%s.c" % one + ("" if name == "gcc" else ", " + name)
        except subprocess.TimeoutExpired:
            return "tests/c/%s.c, which doesn't end" % one
    return ""


def helpers(option):
    """Whether a function that the translator writes by itself isn't as defined."""
    program = FOLDER + "/helpers"
    run(["gcc", "-std=c99", "-O1", option, "-Iinclude", "-I" + FOLDER, "tests/portable/helpers.c", "-o", program])
    return "tests/portable/helpers.c" if run([program]).returncode != 0 else ""


def finder():
    """What finds the fault in the copy, or nothing."""
    with open(FOLDER + "/j8.c", "wb") as out:
        done = subprocess.run([sys.executable, "-B", TOOLS + "/translate.py", MADE + "/j8.mir", "include/j8.h", "."], stdout=out, stderr=subprocess.PIPE, check=False)
    if done.returncode != 0:
        return "the translator, which stops" if done.stderr.startswith(b"portable:") else ""
    if whole(FOLDER + "/j8.c") == whole(MADE + "/j8.c"):
        return ""
    if run(["gcc"] + WARNED + ["-c", FOLDER + "/j8.c", "-o", FOLDER + "/warned.o"]).returncode != 0:
        return "gcc's warnings"
    sanitized = ["-O1", "-fsanitize=address,undefined", "-fno-sanitize-recover=all", "-DMARGIN=0"]
    return (differs("gcc", "gcc", ["-O1"]) or differs("J8_PLAIN", "gcc", ["-O1", "-DJ8_PLAIN"]) or programs("gcc", "gcc", ["-O1"])
            or helpers("-UJ8_PLAIN") or helpers("-DJ8_PLAIN")
            or differs("J8_CHECKED", "gcc", ["-O1", "-DJ8_CHECKED"]) or differs("sanitizers", "clang", sanitized))


def put_in(name, old, new):
    path = "%s/%s" % (TOOLS, name)
    with open(path, encoding="utf-8") as file:
        text = file.read()
    if text.count(old) != 1:
        return False
    with open(path, "w", encoding="utf-8") as file:
        file.write(text.replace(old, new))
    return True


def main():
    only = sys.argv[1] if len(sys.argv) > 1 else ""
    found = missed = 0
    os.makedirs(CALLS, exist_ok=True)
    for kind in ("vectors", "other", "wide"):
        for part in ("calls", "answers"):
            shutil.copy("%s/%s.%s" % (MADE, kind, part), CALLS)
    for what, name, old, new in FAULTS:
        if only not in what:
            continue
        shutil.rmtree(FOLDER, ignore_errors=True)
        shutil.copytree("tools/portable", TOOLS)
        edited = put_in(name, old, new)
        said = finder() if edited else ""
        found, missed = found + bool(said), missed + (not said)
        print("| %s | %s |" % (what, said) if said else "%s: %s" % ("MISSED" if edited else "NO EDIT", what), flush=True)
    print("faults of the translator: %d found, %d not" % (found, missed))
    sys.exit(1 if missed else 0)


main()
