#!/usr/bin/env python3
"""terminal.py COMMAND: what is shown on a terminal can't drive it and reads back the same; to a pipe all stays as it is."""
import os
import subprocess
import threading
import tty

from testing import COMMAND, HIDDEN, READERS, Held, quoted, run, tame

held = Held("terminal")


def on_terminal(*words, text=b"", error=False):
    """What the command shows on a pseudo terminal, and its status; where error is set, standard error is the terminal."""
    ours, theirs = os.openpty()
    tty.setraw(theirs)
    shown = []

    def read():
        try:
            while True:
                part = os.read(ours, 65536)
                if not part:
                    return
                shown.append(part)
        except OSError:
            return

    reader = threading.Thread(target=read)
    reader.start()
    other = subprocess.DEVNULL
    done = subprocess.run([COMMAND, *words], input=text, stdout=other if error else theirs, stderr=theirs if error else other, timeout=600)
    os.close(theirs)
    reader.join()
    os.close(ours)
    return done.returncode, b"".join(shown)


# Every character of the first blocks, those about each hidden one, and some of four bytes.
CODES = sorted({*range(0x20, 0x300), *(code + step for code in HIDDEN for step in (-1, 0, 1)), *range(0x2000, 0x2070), 0xFEFF, 0xFFFD, 0x10000, 0xE0001, 0x10FFFF})
ALL = "".join(map(chr, CODES)).encode()
# The same where only b'' can hold it.
BYTES = b"\xff" + ALL + b"\x1b\x01\xed\xa0\xbe"
NAMES = [ALL, BYTES, b"\x1b]0;gone\x07", b"", "\u202egpj.exe".encode(), "\u061c'\"\\".encode() + b"\xff'", *(chr(code).encode() for code in sorted(HIDDEN)),
         *(b"\xfe" + chr(code).encode() for code in sorted(HIDDEN))]


def strings():
    """One string: shown in its escaped form, which unquote reads back; to a pipe raw."""
    for name in NAMES:
        status, shown = on_terminal("quote", text=name)
        held.that((status, shown) == (0, quoted(name, True) + b"\n"), "quote shows %r as" % name[:20], shown)
        held.that(tame(shown), "quote shows what drives a terminal", shown)
        held.that(run("unquote", text=shown).out == name, "what quote shows of %r reads back as" % name[:20], run("unquote", text=shown).err)
        held.that(run("quote", text=name).out == quoted(name) + b"\n", "quote prints %r to a pipe as" % name[:20], run("quote", text=name).out)
        status, shown = on_terminal("quote", "--line", text=name + b"\n")
        held.that((status, shown) == (0, quoted(name, True) + b"\n"), "quote --line shows %r as" % name[:20], shown)


def books():
    """Lists of names: lines, quote --lines and -0."""
    # A line has 1,024 bytes at most, so the long names go in parts.
    names = [name[at:at + 120] for name in NAMES for at in range(0, max(1, len(name)), 120)]
    book = b"".join(quoted(name) + b"\n" for name in names)
    shown_book = b"".join(quoted(name, True) + b"\n" for name in names)
    listed = b"".join(b"%d\t%s\n" % (line + 1, quoted(name, True)) for line, name in enumerate(names))
    held.that(on_terminal("lines", text=book) == (0, listed), "lines shows otherwise")
    held.that(tame(listed.replace(b"\t", b" ")), "lines shows what drives a terminal")
    held.that(run("lines", text=shown_book).out == run("lines", text=book).out, "what lines shows doesn't read back")
    plain = b"".join(b"%d\t%s\n" % (line + 1, quoted(name)) for line, name in enumerate(names))
    held.that(run("lines", text=book).out == plain, "lines prints otherwise to a pipe")
    text = b"".join(name + b"\0" for name in names)
    for words in ("-0",), ("-0", "--lines"), ("--lines", "-0"):
        held.that(on_terminal("quote", *words, text=text) == (0, shown_book), "quote %s shows otherwise" % (words,))
        held.that(run("quote", *words, text=text).out == book, "quote %s prints otherwise to a pipe" % (words,))
    held.that(run("unquote", "-0", text=shown_book).out == text, "what quote -0 shows doesn't read back")
    text = b"".join(name + b"\n" for name in names)
    held.that(on_terminal("quote", "--lines", text=text) == (0, shown_book), "quote --lines shows otherwise")


def backups():
    """JSON8: keys and strings in the written form, and their list."""
    pairs = [(NAMES[at], NAMES[-at - 1]) for at in range(len(NAMES) // 2)]
    text = b"{" + b",".join(quoted(key) + b":[" + quoted(value) + b"]" for key, value in pairs) + b"}"
    shown_text = b"{" + b",".join(quoted(key, True) + b":[" + quoted(value, True) + b"]" for key, value in pairs) + b"}\n"
    status, shown = on_terminal("json8", text=text)
    held.that((status, shown) == (0, shown_text), "json8 shows otherwise:", shown[:300])
    held.that(tame(shown), "json8 shows what drives a terminal")
    held.that(run("json8", text=text).out == text + b"\n", "json8 prints otherwise to a pipe")
    held.that(run("json8", text=shown).out == text + b"\n", "what json8 shows doesn't read back")
    nodes = [(node, name) for at, pair in enumerate(pairs) for node, name in ((3 * at + 1, pair[0]), (3 * at + 3, pair[1]))]
    held.that(on_terminal("strings", text=text) == (0, b"".join(b"%d\t%s\n" % (node, quoted(name, True)) for node, name in nodes)), "strings shows otherwise")
    held.that(run("strings", text=text).out == b"".join(b"%d\t%s\n" % (node, quoted(name)) for node, name in nodes), "strings prints otherwise to a pipe")


def logs():
    """TSV8: the names of columns and the strings of cells, quoted and bare; numbers as they stand."""
    pairs = [(NAMES[at], NAMES[-at - 1]) for at in range(min(64, len(NAMES) // 2))]
    text = b"!tsv8" + b"".join(b"\t" + quoted(name) for name, _ in pairs) + (b"\n" + b"".join(b"\t" + quoted(value) for _, value in pairs)) * 3
    for terminal, status, shown in (True, *on_terminal("tsv8", text=text)), (False, 0, run("tsv8", text=text).out):
        lines = b"".join(b"%d\t%s\t%s\n" % (row, quoted(name, terminal), quoted(value, terminal)) for row in (1, 2, 3) for name, value in pairs)
        held.that((status, shown) == (0, lines), "tsv8 shows otherwise where terminal is %s:" % terminal, shown[:300])
        held.that(not terminal or tame(shown.replace(b"\t", b" ")), "tsv8 shows what drives a terminal")
    bare = "a\x7f\x9b\u202eb".encode()
    text = b"!tsv8\t" + bare + b"\tn\tf\n!type\tStr\tInt\tBool\n\t" + bare + b"\t41\ttrue\n"
    lines = b"1\t%s\t%s\n1\t%s\t41\n1\t%s\ttrue\n" % (quoted(bare, True), quoted(bare, True), b'"n"', b'"f"')
    held.that(on_terminal("tsv8", text=text) == (0, lines), "tsv8 shows bare strings as", on_terminal("tsv8", text=text))
    status, said = on_terminal("tsv8", text=b"!tsv8\ta\n\t\x1b]0;gone\x07\n", error=True)
    held.that(status == 1 and tame(said) and b"refused 6 at line 2, column 2, place 9: " in said, "tsv8 says of a control", said)


def raw():
    """unquote is raw, on a terminal too; a file's name never is; and help is the same everywhere."""
    for name in NAMES:
        held.that(on_terminal("unquote", text=quoted(name)) == (0, name), "unquote isn't raw of %r" % name[:20])
    for word in READERS:
        for name in "\x1b]0;gone\x07", "\u202e\x9b\x7f", os.fsdecode(b"\xff\x1b[2J\xc2\x9b"):
            status, said = on_terminal(word, name, error=True)
            held.that(status == 3 and tame(said) and quoted(os.fsencode(name), True) in said, "%s of a missing %r says" % (word, name), said)
    held.that(on_terminal("help")[1] == run("help").out, "help differs on a terminal")


strings()
books()
backups()
logs()
raw()
held.end("DEL, C1 controls and bidirectional marks on a terminal and to a pipe")
