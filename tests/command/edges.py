#!/usr/bin/env python3
"""edges.py COMMAND: texts and logs at their limits. What json8 prints reads back, or it says that it won't print it."""
import random

from testing import Held, quoted, run

held = Held("edges")
TEXT, LINE, UPLOAD = 32768, 1024, 1048576


def printed(text, written):
    """The text is printed in this form, with an LF unless it would be too long with it; printed again it is the same."""
    once = run("json8", text=text)
    asked = written if len(written) == TEXT else written + b"\n"
    held.that((once.status, once.out, once.err) == (0, asked, b""), "json8 of %r.., %d bytes: status %d" % (text[:12], len(text), once.status), once.err)
    held.that(run("json8", text=once.out).out == once.out, "what json8 printed of %r.. doesn't read back" % text[:12])
    held.status(run("strings", text=once.out), 0, "strings of what json8 printed of %r.." % text[:12])


def unprinted(text, written):
    """Read by the rules, but its written form has so many bytes that it couldn't be read: nothing is printed, and the sentence says so."""
    done = run("json8", text=text)
    held.that(done.status == 1 and done.out == b"", "json8 of %r.., written in %d bytes: status %d" % (text[:12], written, done.status), done.out[:40])
    held.that(b"too long" in done.err and done.err.count(b"\n") == 1, "json8 of %r.. says" % text[:12], done.err)
    held.status(run("strings", text=text), 0, "strings of %r.." % text[:12])


def backups():
    for size in TEXT - 1, TEXT:
        printed(b'"' + b"a" * (size - 2) + b'"', b'"' + b"a" * (size - 2) + b'"')
        printed(b"'" + b"a" * (size - 2) + b"'", b'"' + b"a" * (size - 2) + b'"')
        # Of fewer bytes than it is written in: a quote between others doubles.
        quotes = b'"' * 1000
        printed(b"'" + quotes + b"a" * (size - 2002) + b"'", b'"' + b'\\"' * 1000 + b"a" * (size - 2002) + b'"')
        printed(b"{" + b"a:1," * 400 + b"z:'" + b"a" * (size - 2408) + b"'}", b"{" + b'"a":1,' * 400 + b'"z":"' + b"a" * (size - 2408) + b'"}')
    # Of more bytes than it is written in: at the limit blanks and comments go, and there is room for the LF.
    printed(b" " * (TEXT - 3) + b"[1]", b"[1]")
    printed(b"#" * (TEXT - 4) + b"\n[1]", b"[1]")
    unprinted(b"'" + b'"' * 1000 + b"a" * (TEXT - 2001) + b"'", TEXT + 1)
    unprinted(b'"' + b"\\ud83e" * 5461 + b'"', 65535)
    unprinted(b"'" + b'"' * (TEXT - 2) + b"'", 65534)
    done = run("json8", text=b'"' + b"a" * (TEXT - 1) + b'"')
    held.that(done.status == 1 and done.out == b"" and b"refused 2 at" in done.err, "json8 of 32,769 bytes", done.err)
    for size in TEXT + 2, TEXT + 3, TEXT + 4, 100000, UPLOAD + 1:
        done = run("json8", text=b"[1]" + b" " * (size - 3))
        held.that(done.status == 1 and b"refused 2 at" in done.err, "json8 of %d bytes: status %d" % (size, done.status), done.err)


def groups():
    """32 and 33 brackets, 1,024 and 1,025 nodes."""
    for sides in b"[]", b"{}":
        deep = lambda n: (b"[" * n + b"1" + b"]" * n) if sides == b"[]" else (b'{"a":' * n + b"1" + b"}" * n)
        printed(deep(32), deep(32))
        done = run("json8", text=deep(33))
        held.that(done.status == 1 and b"refused 15 at" in done.err and done.out == b"", "33 brackets", done.err)
    printed(b"[" + b"1," * 1022 + b"1]", b"[" + b"1," * 1022 + b"1]")
    done = run("json8", text=b"[" + b"1," * 1023 + b"1]")
    held.that(done.status == 1 and b"refused 16 at" in done.err, "1,025 nodes", done.err)


def books():
    """A line of 1,024 bytes and a book of 1,048,576; one byte more of each."""
    for word in ("lines",), ("unquote", "--lines"), ("unquote", "-0"):
        done = run(*word, text=b"in\n" + b"a" * LINE + b"\nout")
        held.that(done.status == 0 and b"out" in done.out, "%s of a line of 1,024 bytes" % (word,), done.err)
        done = run(*word, text=b"in\n" + b"a" * (LINE + 1) + b"\nout")
        held.that(done.status == 1 and b"refused 2 at line 2, place 1024" in done.err and b"in" in done.out and b"out" not in done.out, "%s of a line of 1,025 bytes" % (word,), done.err)
        lines = b"a\n" * (UPLOAD // 2)
        for text, last in (lines, b"a"), (lines[:-2] + b"ab", b"ab"):
            done = run(*word, text=text)
            held.that(done.status == 0 and done.err == b"" and done.out.count(b"a") == UPLOAD // 2 and last in done.out, "%s of 1,048,576 bytes" % (word,), done.err)
        done = run(*word, text=lines + b"b")
        held.that(done.status == 1 and b"refused 17 at line 524289, place 0" in done.err and done.out.count(b"a") == UPLOAD // 2 and b"b" not in done.out,
                  "%s of 1,048,577 bytes: status %d" % (word, done.status), done.err)
        done = run(*word, text=lines + b"\n" * 100000)
        held.that(done.status == 1 and b"refused 17 at" in done.err, "%s of 1,148,576 bytes: status %d" % (word, done.status), done.err)


def logs():
    """64 and 65 columns, 32,768 and 32,769 bytes, the most cells, a long cell."""
    names = lambda n: b"!tsv8" + b"".join(b"\tc%d" % i for i in range(n)) + b"\n"
    done = run("tsv8", text=names(64) + b"\tx" * 64)
    held.that((done.status, done.err) == (0, b"") and done.out.splitlines() == [b'1\t"c%d"\t"x"' % i for i in range(64)], "64 columns: status %d" % done.status, done.err)
    done = run("tsv8", text=names(65) + b"\tx" * 65)
    held.that(done.status == 1 and done.out == b"" and done.err.startswith(b"refused 19 at line 1, column 1, place 0: "), "65 columns", done.err)
    most = b"!tsv8" + b"\tx" * 62 + (b"\n" + b"\tx" * 62) * 261
    for size in TEXT - 1, TEXT:
        done = run("tsv8", text=most + b" " * (size - len(most)))
        held.that(done.status == 0 and done.out.count(b"\n") == 62 * 261 and done.out.endswith(b'261\t"x"\t"x"\n'), "%d bytes: status %d" % (size, done.status), done.err)
    for size in TEXT + 1, 100000, UPLOAD + 1:
        done = run("tsv8", text=most + b" " * (size - len(most)))
        held.that(done.status == 1 and done.out == b"" and b"refused 2 at" in done.err, "tsv8 of %d bytes: status %d" % (size, done.status), done.err)
    for size in LINE, LINE + 1, 30000:
        done = run("tsv8", text=b"!tsv8\ta\n\t" + b"n" * size)
        held.that((done.status, done.out) == (0, b'1\t"a"\t"' + b"n" * size + b'"\n'), "a cell of %d bytes: status %d" % (size, done.status), done.err)


def listed(names, rows, text, what):
    """A log is printed whole: a line for each cell, values given as they are printed."""
    done = run("tsv8", text=text)
    lines = b"".join(b"%d\t%s\t%s\n" % (row + 1, name, value) for row, values in enumerate(rows) for name, value in zip(names, values))
    held.that((done.status, done.err) == (0, b"") and done.out == lines, "%s: status %d, %d bytes, not %d;" % (what, done.status, len(done.out), len(lines)), done.err)


def long_lines():
    """Names and cells so long that few lines find room on a page, and lines that just fill one."""
    # One name of 30,000 bytes among 64, and a row of which each is behind it.
    names = [b"x%d" % i for i in range(64)]
    for at in 0, 31, 63:
        long = names[:at] + [b"n" * 30000] + names[at + 1:]
        rows = [[b"%d" % row] * 64 for row in range(16)]
        text = b"!tsv8" + b"".join(b"\t" + name for name in long) + b"".join(b"\n" + b"".join(b"\t" + value for value in row) for row in rows)
        listed([quoted(name) for name in long], [[quoted(value) for value in row] for row in rows], text, "a name of 30,000 bytes in column %d" % at)
    # Written in twice their bytes: the longest line that a text can have, and those about it.
    for n in range(TEXT - 12, TEXT - 7):
        for size in 1, n // 2, n - 1:
            name, value = b'"' * size, b'"' * (n - size)
            bare = b"!tsv8\tn" + name[1:] + b"\n\tv" + value[1:]
            listed([quoted(b"n" + name[1:])], [[quoted(b"v" + value[1:])]], bare, "quotes, %d and %d" % (size, n - size))
    halves = b'"' + b"\\ud83e" * 2729 + b'"'
    listed([b"b'" + b"\\yed\\ya0\\ybe" * 2729 + b"'"], [[b"b'" + b"\\yed\\ya0\\ybe" * 2729 + b"'"]], b"!tsv8\t" + halves + b"\n\t" + halves, "halves of pairs")
    slashes = b"\\" * 16379
    listed([quoted(slashes)], [[quoted(slashes)]], b"!tsv8\t" + slashes + b"\n\t" + slashes, "backslashes")
    # Lines of every length about the page's, behind others.
    for size in range(200, 233):
        rows = [[quoted(b"v" * size)]] * 120
        listed([b'"a"'], rows, b"!tsv8\ta" + (b"\n\t" + b"v" * size) * 120, "120 cells of %d bytes" % size)
        rows = [[quoted(b"q" + b'"' * (size - 1))]] * 120
        listed([b'"a"'], rows, b"!tsv8\ta" + (b"\n\tq" + b'"' * (size - 1)) * 120, "120 cells of %d quotes" % size)


def odd_logs():
    """CR LF, blank lines, no rows, equal names, each type, and the most rows."""
    listed([], [], b"!tsv8\ta\tb", "a log without rows and line end")
    listed([], [], b"\r\n!tsv8\ta\tb\r\n!type\tInt\tBool\r\n!unit\t\t\xff\r\n\r\n", "a log without rows")
    listed([b'"a"', b'"a"'], [[b'"1"', b'"2"']], b"!tsv8\ta\ta\r\n\t1\t2\r\n", "equal names, CR LF")
    listed([b'""', b"b'\\yff'"], [[b'""', b'"\\n"']], b"!tsv8\t''\tb'\\yff'\n\t\"\"\t'\\u{a}'\n", "escapes in names and cells")
    listed([b'"b"', b'"i"', b'"f"', b'"s"'], [[b"true", b"0", b"-0.50e+07", b'"true"'], [b"false", b"18446744073709551616", b"12", b'"12"']],
           b"!tsv8\tb\ti\tf\ts\n!type\tBool\tInt\tFloat\tStr\n\t true\t0 \t -0.50e+07\ttrue\n\tfalse\t18446744073709551616\t12\t\"12\"", "each type")
    rows = (TEXT - 8) // 3
    listed([b'"a"'], [[b'"%c"' % (97 + row % 26)] for row in range(rows)], b"!tsv8\ta\n" + b"\n".join(b"\t%c" % (97 + row % 26) for row in range(rows)), "%d rows" % rows)
    listed([b'"x"'] * 58, [[b'"y"'] * 58] * 279, b"!tsv8" + b"\tx" * 58 + (b"\n" + b"\ty" * 58) * 279, "16,182 cells in 58 columns")
    # Nothing of a log that is refused, be it at its last byte.
    for last in b"\ty" * 57, b"\ty" * 59, b"\ty" * 57 + b"\t", b"\ty" * 57 + b"\t\x01", b"!" + b"\ty" * 58:
        done = run("tsv8", text=b"!tsv8" + b"\tx" * 58 + (b"\n" + b"\ty" * 58) * 278 + b"\n" + last)
        held.that(done.status == 1 and done.out == b"" and done.err.count(b"\n") == 1, "a log that is refused in its last line: status %d" % done.status, done.err)
    # Any bytes, by chance.
    chance = random.Random(8)
    for _ in range(60):
        columns = chance.randint(1, 64)
        some = lambda: bytes(chance.choice(b"a\"'\\ \t\n\x00\x7f\xc3\xa9\xff") for _ in range(chance.randint(0, 12)))
        names, rows = [some() for _ in range(columns)], [[some() for _ in range(columns)] for _ in range(chance.randint(0, 400 // columns))]
        text = b"!tsv8" + b"".join(b"\t" + quoted(name) for name in names) + b"".join(b"\n" + b"".join(b"\t" + quoted(value) for value in row) for row in rows)
        if len(text) <= TEXT:
            listed([quoted(name) for name in names], [[quoted(value) for value in row] for row in rows], text, "%d columns, %d rows by chance" % (columns, len(rows)))


def nothing():
    """An empty input: a book without records, and no string or value."""
    for words, status in (("lines",), 0), (("unquote", "--lines"), 0), (("unquote", "-0"), 0), (("quote",), 0), (("unquote",), 1), (("json8",), 1), (("strings",), 1), (("tsv8",), 1):
        done = run(*words)
        held.status(done, status, "%s of nothing" % (words,))
        held.that(done.out == (b'""\n' if words == ("quote",) else b""), "%s of nothing prints" % (words,), done.out)
    held.that(b"empty" in run("lines").err, "lines of nothing has no note")


def endless():
    """An input without an end is refused all the same."""
    for words in ("lines",), ("quote",), ("quote", "--line"), ("quote", "--lines"), ("quote", "-0"), ("unquote",), ("unquote", "--lines"), ("unquote", "-0"), ("json8",), ("strings",), ("tsv8",):
        with open("/dev/zero", "rb") as zeros:
            done = run(*words, stdin=zeros)
        held.that(done.status == 1 and done.err.count(b"\n") == 1, "%s of an endless input: status %d" % (words, done.status), done.err)


backups()
groups()
books()
logs()
long_lines()
odd_logs()
nothing()
endless()
held.end("texts at their limits, and what json8 prints read again")
