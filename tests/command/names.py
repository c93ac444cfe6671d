#!/usr/bin/env python3
"""names.py COMMAND: plain names to strings and books, and back: every byte value, hostile names, and the longest that can be read back."""
import os
import random
import subprocess
import tempfile

from testing import BOM, COMMAND, Held, quoted, run

held = Held("names")
LINE, UPLOAD, TEXT = 1024, 1048576, 32768
ENDS = ("--lines", b"\n"), ("-0", b"\0")
HOSTILE = [b"", b" ", b"\t", b"\r", b"a\r", b" a ", b"\ta\t", b"#", b"-x", b"--", b'"', b"'", b'"a"', b"'a'", b"u'a'", b"b'a'", b"b'", b"u'", b'"a', b"\\", b"\\n", b"\\y",
           b"\x1b]0;gone\x07", b"\x7f", "\x85".encode(), "\u2028".encode(), "\u202e".encode(), "🤦".encode(), BOM, BOM + b"a", b'\xef\xbb\xbf"a"', b"caf\xe9", b"\xff\xfe",
           b"\xed\xa0\xbe\xed\xb4\xa6", b"\xf4\x90\x80\x80", b"\xc0\xaf", b"\xf0\x9f\xa4", b"../../etc/passwd", b"a/b", b"%s%n", b"$(x)", b"`x`", b"a" * 1022, b"\xff" * 255]


def fine(done, what):
    held.that(done.status == 0 and done.err == b"", "%s: status %d" % (what, done.status), done.err)
    return done.out


def one_string():
    """quote, quote --line and unquote on one name."""
    every = bytes(range(256))
    for name in [every, every * 20, *(bytes([byte]) for byte in range(256)), *HOSTILE, b"a\nb\n", b"\n", b"\n\n", b"a\r\n"]:
        said = run("quote", text=name)
        held.that((said.status, said.out) == (0, quoted(name) + b"\n"), "quote of %r" % name[:20], said.out[:80] + said.err)
        for end in b"", b"\n", b"\r\n":
            held.that(fine(run("unquote", text=quoted(name) + end), "unquote with %r behind" % end) == name, "quote and unquote of %r" % name[:20])
        held.that(run("quote", "--line", text=name + b"\n").out == quoted(name) + b"\n", "quote --line of %r" % name[:20])
        without = name[:-1] if name.endswith(b"\n") else name
        held.that(run("quote", "--line", text=name).out == quoted(without) + b"\n", "quote --line of %r without a line end" % name[:20])


def one_end():
    """Only one line end is ignored behind a string, and none before it."""
    for text, number in (b'"a"\n\n', 11), (b'"a"\r', 11), (b'"a"\r\r\n', 11), (b'"a" \n', 11), (b'\n"a"', 3), (b' "a"', 3), (b"", 3), (b"\n", 3), (b"a", 3), (BOM + b'"a"', 3):
        done = run("unquote", text=text)
        held.that(done.status == 1 and done.out == b"" and b"refused %d at" % number in done.err, "unquote of %r: status %d" % (text, done.status), done.err)


def book(names):
    return b"".join(quoted(name) + b"\n" for name in names)


def there_and_back(names, what):
    """Names to a book and back, by LF and by NUL, and listed by lines."""
    for option, end in ENDS:
        plain = [name for name in names if end not in name]
        text = b"".join(name + end for name in plain)
        made = fine(run("quote", option, text=text), "quote %s of %s" % (option, what))
        held.that(made == book(plain), "quote %s of %s" % (option, what), made[:200])
        held.that(fine(run("unquote", option, text=made), "unquote %s of %s" % (option, what)) == text, "quote and unquote %s of %s" % (option, what))
        listed = b"".join(b"%d\t%s\n" % (line + 1, quoted(name)) for line, name in enumerate(plain))
        held.that(fine(run("lines", text=made), "lines of %s" % what) == listed, "quote %s and lines of %s" % (option, what))


def lists():
    singles = [bytes([byte]) for byte in range(256)]
    there_and_back(singles, "every byte")
    there_and_back([bytes(range(256)).replace(b"\n", b"").replace(b"\0", b""), *HOSTILE], "hostile names")
    there_and_back([b"", b"", b""], "empty names")
    chance = random.Random(1)
    for _ in range(20):
        names = [bytes(chance.choice((chance.randrange(256), chance.choice(b"a \r\t\"'\\ub"))) for _ in range(chance.randrange(40))) for _ in range(50)]
        there_and_back(names, "random names")


def ends():
    """A last name without its end counts unless it is empty; a CR belongs to the name; the other end is a byte like others."""
    for option, end in ENDS:
        for text, names in (b"a" + end + b"b", [b"a", b"b"]), (b"a" + end, [b"a"]), (end, [b""]), (end + end, [b"", b""]), (end + b"a", [b"", b"a"]), (b"a\r" + end, [b"a\r"]):
            held.that(fine(run("quote", option, text=text), "quote %s" % option) == book(names), "quote %s of %r" % (option, text))
        for words in (option, "--lines"), ("--lines", option):
            held.that(run("quote", *words, text=b"a" + end + b"b").out == book([b"a", b"b"]), "quote %s %s" % words)
            held.that(run("unquote", *words, text=b"a\nb").out == b"a" + end + b"b" + end, "unquote %s %s" % words)
        done = run("quote", option, text=b"")
        held.that((done.status, done.out) == (0, b""), "quote %s of nothing" % option, done.out)
    held.that(run("quote", "-0", text=b"a\nb\0").out == b'"a\\nb"\n', "an LF in a name that NUL ends")
    held.that(run("quote", "--lines", text=b"a\0b\n").out == b'"a\\u0000b"\n', "a NUL in a name that LF ends")


def books_by_hand():
    """A book as people write it: bare names, blank lines, CR LF, every style."""
    text = b" bare \r\n\r\n\t\nu'\\u{e9}'\nb'\\ye9'\n\"\\ud83e\\udd26\"\n''\nlast"
    names = [b"bare", "é".encode(), b"\xe9", "🤦".encode(), b"", b"last"]
    for option, end in ENDS:
        held.that(fine(run("unquote", option, text=text), "a book by hand") == b"".join(name + end for name in names), "unquote %s of a book by hand" % option)
        done = run("unquote", option, text=text + b'\n"x\nnext\n')
        held.that(done.status == 1 and b"refused 4 at line 9, place 2" in done.err and b"next" not in done.out, "unquote %s of a bad line" % option, done.err)


def ends_in_names():
    """A name that holds the end that is asked for can't be told from two: it isn't printed, and the sentence says where and what to do."""
    done = run("unquote", "--lines", text=b'one\n\n"two\\nlines"\nlast\n')
    held.that(done.status == 1 and b"lines" not in done.out and b"last" not in done.out, "an LF in a name: status %d" % done.status, done.out)
    held.that(b"line 3" in done.err and b"-0" in done.err, "an LF in a name is told so:", done.err)
    done = run("unquote", "-0", text=b'one\n"two\\u0000lines"\nlast\n')
    held.that(done.status == 1 and b"lines" not in done.out and b"last" not in done.out and b"line 2" in done.err, "a NUL in a name: status %d" % done.status, done.out + done.err)
    held.that(run("unquote", "-0", text=b'"two\\nlines"').out == b"two\nlines\0", "an LF in a name that NUL ends")


def longest():
    """A string of 1,024 bytes is read back by an upload, one of 1,025 isn't: refused. So is a book of more bytes than an upload has."""
    for option, end in ENDS:
        for name in b"a" * 1022, b"\xff" * 255 + b"a", b"\x01" * 170 + b"aa", '"'.encode() * 511, "é".encode() * 511:
            assert len(quoted(name)) == LINE
            made = fine(run("quote", option, text=b"a" + end + name + end), "quote %s of the longest name" % option)
            held.that(run("unquote", option, text=made).out == b"a" + end + name + end, "the longest name doesn't read back")
            refused(option, b"a" + end + name + b"a" + end, "a name that is too long")
        refused(option, b"\xff" * 256 + end, "a name of bytes that is too long")
        refused(option, b"a" * 100000, "a name without an end")
        # 1,024 times a line of 1,024 bytes with its LF.
        names = [b"a" * 1021] * 1024
        made = fine(run("quote", option, text=b"".join(name + end for name in names)), "quote %s of the longest book" % option)
        held.that(len(made) == UPLOAD and run("unquote", option, text=made).out.count(end) == 1024, "the longest book doesn't read back")
        refused(option, b"".join(name + end for name in [*names[1:], b"a" * 1022]), "a book of a byte more")
        refused(option, end * (UPLOAD // 3 + 1), "a book of empty names that is too long")
        held.that(run("quote", option, text=end * (UPLOAD // 3)).status == 0, "a book of as many empty names as there can be")


def refused(option, text, what):
    """Status 1 and a sentence; what was printed before is a good book."""
    done = run("quote", option, text=text)
    held.that(done.status == 1 and done.err.endswith(b"\n") and len(done.err) > 20, "%s %s: status %d" % (option, what, done.status), done.err)
    held.that(len(done.out) <= UPLOAD and run("unquote", option, text=done.out).status == 0, "%s %s: what was printed isn't read" % (option, what))


def files():
    """Names as a folder has them, by find and xargs."""
    with tempfile.TemporaryDirectory() as folder:
        names = [name for name in HOSTILE if name not in (b"", b".") and b"/" not in name and len(name) < 255]
        for name in [*names, b"line\nend", b"\n", bytes(range(1, 47)), bytes(range(48, 256))]:
            open(os.path.join(folder.encode(), name), "w").close()
        asked = subprocess.run(["bash", "-c", "find . -print0"], cwd=folder, capture_output=True).stdout
        back = subprocess.run(["bash", "-c", 'find . -print0 | "$0" quote -0 | "$0" unquote -0', COMMAND], cwd=folder, capture_output=True)
        held.that(asked.count(b"\0") > 30 and back.stdout == asked and back.stderr == b"", "names of files differ", back.stderr)


def whole_strings():
    """quote and unquote at 32,768 bytes."""
    for name in b"a" * (TEXT - 2), b"\xff" * 8191 + b"a", b"\n" * 16383:
        made = fine(run("quote", text=name), "quote of the longest string")
        held.that(len(made) == TEXT + 1 and fine(run("unquote", text=made), "unquote of it") == name, "the longest string doesn't read back")
        done = run("quote", text=name + b"a")
        held.that(done.status == 1 and done.out == b"" and len(done.err) > 20, "a string that is too long: status %d" % done.status, done.err)
    for size in 40000, 1048577:
        held.status(run("quote", text=b"a" * size), 1, "quote of %d bytes" % size)
        held.status(run("unquote", text=b"'" + b"a" * size + b"'"), 1, "unquote of %d bytes" % size)
    held.status(run("unquote", text=b"'" + b"a" * (TEXT - 2) + b"'\r\n"), 0, "unquote of the longest string and CR LF")
    held.status(run("unquote", text=b"'" + b"a" * (TEXT - 1) + b"'"), 1, "unquote of a string that is too long")


one_string()
one_end()
lists()
ends()
books_by_hand()
ends_in_names()
longest()
files()
whole_strings()
held.end("names to strings and books and back, the longest ones, and those of files")
