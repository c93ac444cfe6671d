#!/usr/bin/env python3
"""The translator stops, with a word on what and where, at what it doesn't know and at what doesn't fit: each case below damages the MIR that `make portable`
printed, the header or a source in one place. So does the reader of the proved libraries, at a form that it doesn't know.

    stops.py                    run in the repository, after make portable
"""
import json
import os
import re
import shutil
import sys
import tempfile

ROOT = os.path.join(os.path.dirname(os.path.abspath(__file__)), "..", "..")
sys.path.insert(0, os.path.join(ROOT, "tools", "portable"))
sys.setrecursionlimit(100000)
# The translator's own modules, which the line above makes known.
import libraries  # noqa: E402
import mir  # noqa: E402
import translate  # noqa: E402

# Enough functions to have every form, and few enough to be quick.
WANTED = ("j8_string_read", "j8_json8_show", "j8_upload_fresh")


def read(path):
    with open(os.path.join(ROOT, path), encoding="utf-8") as file:
        return file.read()


def some(text):
    """The program of the functions wanted alone."""
    terms = {str(one[1]): one for one in mir.parse(text)}
    return "\n".join(mir.printed(terms[symbol]) for symbol in mir.reached(terms, WANTED))


def some_of_header(text):
    """The header without the other functions."""
    for name in re.findall(r"^\w+ (j8_\w+)\(", text, re.M):
        if name not in WANTED:
            text = re.sub(r"^\w+ %s\([^)]*\);" % name, "", text, flags=re.M)
    return text


# What, the pattern that is replaced once, what stands there then, and words of the message.
MIR = [
    ("a signed sum", r"\(add unsigned\)", "(add signed)", "unknown operation add signed"),
    ("a float", r"\(ty_int w64\)", "(ty_float w64)", "unknown type (ty_float w64)"),
    ("a number of 128 bits", r"\(ty_int w64\)", "(ty_int w128)", "unknown width w128"),
    ("an unknown statement", r"\(exit 1\)", "(drop 1)", "unknown statement (drop 1)"),
    ("an exit of nothing", r"\(exit 1\)", "(exit 9)", "exit 9 of"),
    ("an unknown step", r"\(field 0\)", "(index 0)", "unknown step (index 0)"),
    ("a field that isn't there", r"\(variant 0\) \(field 1\)", "(variant 0) (field 7)", "has no field 7"),
    ("an unknown operand", r"\(int w64 8\)", "(global w64 8)", "unknown operand (global w64 8)"),
    ("a number over its width", r"\(int w8 92\)", "(int w8 256)", "a number over its width"),
    ("operands of two widths", r"\(int w8 92\)", "(int w32 92)", "of Int(width=8) and Int(width=32)"),
    ("an unknown right-hand side", r"\(aggregate ", "(discriminant ", "unknown right-hand side (discriminant"),
    ("a cast by sign", r"\(cast unsigned unsigned w64\)", "(cast signed unsigned w64)", "unknown operation (cast signed unsigned w64)"),
    ("a division by 0", r"(\(div unsigned\) \(copy \(place \d+ \(list\)\)\)) \(int w64 \d+\)", r"\1 (int w64 0)", "this doesn't hold"),
    ("a key twice", r"\(arm \(list 1\)", "(arm (list 0)", "keys of a switch"),
    ("a call of what isn't there", r'\(fn "strings::read::\w+"', '(fn "strings::read::nothing"', "no function is named strings::read::nothing"),
    ("a call in a thread", r"\(call \(fn ", "(call (forked ", "no fn of 2 parts"),
    ("a call at a type of a function of none", r'(\(fn "strings::read::\w+") no_args', r"\1 (args (list ty_bool) (list))", "at (ty_bool)"),
    ("a bracket less", r"\(exit 1\)", "(exit 1", "bracket"),
    ("a store through a shared reference", r'(ty_ref \(named \d+\)) mut \(ty_int w8\)', r"\1 imm (ty_int w8)", "mutable"),
]
HEADER = [
    ("two fields swapped", r"(    size_t place;\n)(    size_t length;\n)(\} j8_result;)", r"\2\1\3", "j8.h"),
    ("a field's type", r"uint32_t stored;", "size_t stored;", "j8.h"),
    ("two parameters swapped", r"const uint8_t \*text, size_t text_len,(\s+)const uint8_t \*store, size_t store_len,",
     r"const uint8_t *store, size_t store_len,\1const uint8_t *text, size_t text_len,", "j8.h has"),
    ("a length without its name", r"size_t out_len\)", "size_t size)", "no size_t out_len"),
    ("a pointer that isn't const", r"const uint8_t \*text, size_t text_len,\s+uint8_t \*out", "uint8_t *text, size_t text_len, uint8_t *out", "text is uint8_t *"),
]
SOURCE = [
    ("two fields swapped in the source", "crates/structs/src/results.rt", r"(    pub number: u32,\n)(    pub place: usize,\n)", r"\2\1", "is no"),
    ("a variant less in the source", "crates/json8_show/src/show.rt", r"    InStore\(usize, usize\),\n", "", "variants and in its source"),
    ("a parameter's name in the source", "crates/j8/src/lib.rt", r"fn j8_string_read\(text:", "fn j8_string_read(bytes:", "j8.h has text and not bytes"),
]


def damaged(text, pattern, new):
    made = re.sub(pattern, new, text, count=1, flags=re.M)
    if made == text:
        sys.exit("no such place: " + pattern)
    return made


def stops(what, words, run):
    try:
        run()
    except mir.Stop as stop:
        if words not in str(stop):
            sys.exit("%s: stopped, but said: %s" % (what, stop))
        return
    sys.exit("not stopped: " + what)


def source_stops(program, header, folder):
    """The sources, one of them damaged."""
    for what, path, pattern, new, words in SOURCE:
        shutil.copytree(os.path.join(ROOT, "crates"), os.path.join(folder, "crates"), ignore=shutil.ignore_patterns("specs", "proofs", "must-fail"))
        with open(os.path.join(folder, path), "w", encoding="utf-8") as file:
            file.write(damaged(read(path), pattern, new))
        stops(what, words, lambda: translate.File(program, header, folder).text())
        shutil.rmtree(folder)


# What, the pattern that is replaced once in a library's function, what stands there then, and words of the message.
LIBRARY = [
    ("a constant of another form", r'"Copy"', '"Global"', "unknown operand Global"),
    ("a statement of another form", r'"Return"', '"Drop"', "unknown statement Drop"),
    ("a method of no dictionary", r'"Fn"', '"Method"', "no form of one name"),
    ("a call by a pointer", r'"Fn"', '"Pointer"', "a call of no function"),
    ("a dictionary of no impl", r'"dicts": \[\]', '"dicts": [{"Impl": ["none", [], []]}]', "unknown dictionary"),
    ("a type of another form", r'\{"Int": 64\}', '{"Float": 64}', "unknown type Float"),
    ("a field more", r'"params":', '"inline": true, "params":', "not the fields"),
    ("a type that owns memory", r'"owns": false', '"owns": true', "isn't plain"),
]


def library_stops(text):
    """A form that the reader doesn't know, and a number that differs from the library's."""
    name = "strings::read::read"
    proved = libraries.Libraries(os.path.join(ROOT, "crates"))
    held = json.dumps(proved.held[name])
    for what, pattern, new, words in LIBRARY:
        stops(what, words, lambda: libraries.definition(name, json.loads(damaged(held, pattern, new))))
    printed_one = mir.printed({str(one[1]): one for one in mir.parse(text)}[name])
    other = damaged(printed_one, r"\(int w64 (\d+)\)", r"(int w64 1\1)")
    if mir.parse(other)[0] == proved[name] or mir.parse(printed_one)[0] != proved[name]:
        sys.exit("not told apart: a number of " + name)
    return len(LIBRARY) + 1


def main():
    whole = read("target/portable/j8.mir")
    program, header = some(whole), some_of_header(read("include/j8.h"))
    translate.File(program, header, ROOT).text()
    for what, pattern, new, words in MIR:
        stops(what, words, lambda: translate.File(damaged(program, pattern, new), header, ROOT).text())
    for what, pattern, new, words in HEADER:
        stops(what, words, lambda: translate.File(program, damaged(header, pattern, new), ROOT).text())
    with tempfile.TemporaryDirectory() as folder:
        source_stops(program, header, os.path.join(folder, "copy"))
    count = len(MIR) + len(HEADER) + len(SOURCE) + library_stops(whole)
    print("the translator stopped at each of %d damages" % count)


main()
