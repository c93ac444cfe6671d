#!/usr/bin/env python3
"""sentences.py COMMAND: what is said of a text that is refused: as a line, as an object of JSON, of a slip in JSON8, of a byte order mark."""
import json
import os
import re

from testing import BOM, SAMPLES, Held, quoted, run, tame

held = Held("sentences")
KINDS = ("lines",), ("quote",), ("quote", "--lines"), ("quote", "-0"), ("unquote",), ("unquote", "--lines"), ("unquote", "-0"), ("json8",), ("strings",), ("tsv8",)
FIELDS = ["number", "line", "column", "place", "sentence"]

# A slip in JSON8, where it stands, and which of the five things could stand there.
SLIPS = [
    (b"[1 2]", 3, "comma", "closing bracket"),
    (b"{a: 1 b: 2}", 6, "comma", "closing bracket"),
    (b"{a 1}", 3, "colon"),
    (b"{a}", 2, "colon"),
    (b"{a = 1}", 3, "colon"),
    (b'{"a" "b"}', 5, "colon"),
    (b"[1,,2]", 3, "value", "closing bracket"),
    (b"[,]", 1, "value", "closing bracket"),
    (b"{,}", 1, "key", "closing bracket"),
    (b"{a:1,,}", 5, "key", "closing bracket"),
    (b"{1: 2}", 1, "key", "closing bracket"),
    (b"{[]: 2}", 1, "key", "closing bracket"),
    (b"[1}", 2, "comma", "closing bracket"),
    (b"{a: 1]", 5, "comma", "closing bracket"),
    (b"]", 0, "value"),
    (b"{a: , b: 1}", 4, "value"),
    (b"{a:}", 3, "value"),
    (b"{a: desk}", 4, "value"),
    (b"desk", 0, "value"),
    (b"settings {a: 1}", 0, "value"),
    (b"[yes]", 1, "value", "closing bracket"),
    (b"[TRUE]", 1, "value", "closing bracket"),
    (b"[;]", 1, "value", "closing bracket"),
    (b"// c\n[1]", 0, "value"),
    (b"{a: .5}", 4, "value"),
    (b"{a: +5}", 4, "value"),
    (b"[1;2]", 2, "comma", "closing bracket"),
    (b"[1 # c\n 2]", 8, "comma", "closing bracket"),
    (b"[\xff]", 1, "value", "closing bracket"),
    (b"[\x00]", 1, "value", "closing bracket"),
    (b"[\x1b]0;gone\x07]", 1, "value", "closing bracket"),
    ("[\u202e1]".encode(), 1, "value", "closing bracket"),
]

# Bytes that are no UTF-8, and the number of each fault.
FAULTS = [(b"\xff", 23), (b"\xe2\x82", 24), (b"\xc0\xaf", 25), (b"\xed\xa0\x80", 26), (b"\xf4\x90\x80\x80", 27)]


def plain(said):
    """The line that says the same as an object."""
    if said["number"] is None:
        return "j8: %s\n" % said["sentence"]
    where = "".join("%s %d, " % (name, said[name]) for name in ("line", "column") if said[name] is not None)
    return "refused %d at %splace %d: %s\n" % (said["number"], where, said["place"], said["sentence"])


def objects(text, words, what):
    """With --json the same status and output, and each line an object that says what the plain line does."""
    usual, done = run(*words, text=text), run(words[0], "--json", *words[1:], text=text)
    held.that((usual.status, usual.out) == (done.status, done.out), "%s: --json changes the answer" % what)
    held.that(tame(usual.err), "%s can drive a terminal:" % what, usual.err)
    try:
        said = [json.loads(line) for line in done.err.splitlines()]
    except ValueError:
        held.that(False, "%s: no JSON:" % what, done.err)
        return []
    held.that(all(list(one) == FIELDS for one in said), "%s has other fields:" % what, done.err)
    held.that("".join(map(plain, said)) == usual.err.decode(), "%s as JSON and as lines:" % what, done.err + usual.err)
    held.that(usual.status == 0 or any(one["number"] for one in said) or len(said) == 1, "%s: status %d without a word" % (what, usual.status))
    return said


def every_sample():
    seen = set()
    for sample in sorted(os.listdir(SAMPLES)):
        with open(os.path.join(SAMPLES, sample), "rb") as file:
            text = file.read()
        for words in KINDS:
            seen |= {one["number"] for one in objects(text, words, "%s of %s" % (" ".join(words), sample))}
    held.that({2, 3, 4, 11, 13, 14, 15, 19, 20, 21, 23, 24, 25, 26} <= seen and 5 not in seen, "the samples show too few refusals, or 5:", seen)


def every_number():
    """A text for each number that a reader can give, with its place."""
    strings = [(b"a", 3, 0), (b'"a', 4, 2), (b'"\x01"', 6, 1), (b'"\\x"', 7, 1), (b"'\\u{d800}'", 8, 1), (b"'\\u{110000}'", 9, 1), (b"u'\\yff'", 10, 2),
               (b'"a" x', 11, 3), (b"'" + b"a" * 40000 + b"'", 2, 0)]
    strings += [(b'"' + bytes + b'"', number, 1) for bytes, number in FAULTS]
    for text, number, place in strings:
        said = objects(text, ("unquote",), "unquote of %r" % text[:12])
        held.that(said[:1] and (said[0]["number"], said[0]["line"], said[0]["column"], said[0]["place"]) == (number, None, None, place), "unquote of %r says" % text[:12], said)
        if number not in (2, 3):
            said = objects(b"ok\n" + text, ("lines",), "lines of %r" % text[:12])
            held.that(said[:1] and (said[0]["number"], said[0]["line"], said[0]["column"], said[0]["place"]) == (number, 2, None, place), "lines of %r says" % text[:12], said)
    for text, number, place in (b"\xc3\xa9", 13, 0), (b"[01]", 14, 1), (b"[" * 33, 15, 32), (b"[" + b"1," * 1024, 16, 2047), (b"[1]]", 11, 3), (b"[1", 4, 2), *(
            (b"1 #" + bytes, number, 3) for bytes, number in FAULTS):
        said = objects(b"#\n" + text, ("json8",), "json8 of %r" % text[:12])
        held.that(said[:1] and (said[0]["number"], said[0]["line"], said[0]["column"], said[0]["place"]) == (number, 2, place + 1, place + 2), "json8 of %r says" % text[:12], said)
    for text, number, place in (b"x", 19, 0), (b"!tsv8\ta\n!type\tint", 19, 14), (b"!tsv8\ta\n\tx\ty", 20, 8), (b"!tsv8\ta\n!type\tInt\n\t 4l", 21, 19), (b"!tsv8\ta\n\t ", 22, 9), (b"!tsv8\ta\n\t'x' y", 11, 12), *(
            (b"!tsv8\ta\n\t" + bytes, number, 9) for bytes, number in FAULTS):
        said = objects(b"\n" + text, ("tsv8",), "tsv8 of %r" % text)
        line, column = text[:place].count(b"\n") + 2, place - text.rfind(b"\n", 0, place)
        held.that(said[:1] and (said[0]["number"], said[0]["line"], said[0]["column"], said[0]["place"]) == (number, line, column, place + 1), "tsv8 of %r says" % text, said)


def columns():
    """A column counts characters, a place bytes."""
    said = objects("[\n'é🤦' x]".encode(), ("json8",), "json8 behind characters")
    held.that(said and (said[0]["line"], said[0]["column"], said[0]["place"]) == (2, 6, 11), "a column behind characters:", said)


def told(sentence):
    """What stands there by the sentence of 13, and what could."""
    found = re.fullmatch(r"this can't stand here: (.*) stands where (.*) could", sentence)
    return (found[1].encode(), set(found[2].split(" or "))) if found else (b"", set())


def slips():
    """13 says what stands there and what could."""
    for text, place, *could in SLIPS:
        for word in "json8", "strings":
            said = objects(text, (word,), "%s of %r" % (word, text))
            held.that(said and (said[0]["number"], said[0]["place"]) == (13, place), "%s of %r says" % (word, text), said)
            there, named = told(said[0]["sentence"] if said else "")
            held.that(there in [quoted(text[place:place + size], True) for size in range(1, 20)], "%s of %r doesn't say what stands there:" % (word, text), said)
            held.that(named == {"a " + thing for thing in could}, "%s of %r could be %s, and it says" % (word, text, could), said)


def byte_order_marks():
    """A second sentence where a listed or refused line, or a refused JSON8 text, begins with a byte order mark; nowhere else."""
    marked = [(("lines",), BOM + b'"scans/in"\n', 0), (("lines",), b"a\n" + BOM + b"b\n", 0), (("lines",), BOM + b"\xff", 1), (("lines",), b"a\n" + BOM + b'"b" \x01\n', 1),
              (("json8",), BOM + b"[1]", 1), (("strings",), BOM + b"[1]", 1), (("json8",), BOM, 1), (("tsv8",), BOM + b"!tsv8\ta\n", 1)]
    for words, text, status in marked:
        said = objects(text, words, "%s of %r" % (words[0], text))
        held.that(sum("byte order mark" in one["sentence"] for one in said) == 1, "%s of %r says no word of its mark:" % (words[0], text), said)
        held.that(len(said) == 1 + status, "%s of %r has %d sentences" % (words[0], text, len(said)), said)
        held.status(run(*words, text=text), status, "%s of %r" % (words[0], text))
    for words, text in (("lines",), b"a" + BOM + b"\n"), (("lines",), b"a\n\xff"), (("lines",), b"'" + BOM + b"'\n"), (("json8",), b"[" + BOM + b"]"), (("json8",), b"'" + BOM + b"'"):
        held.that(b"byte order mark" not in run(*words, text=text).err, "%s of %r speaks of a mark" % (words[0], text))


every_sample()
every_number()
columns()
slips()
byte_order_marks()
held.end("sentences as lines and as JSON, slips in JSON8, byte order marks")
