#!/usr/bin/env python3
"""arguments.py COMMAND: words that are wrong, missing, empty or too long. None makes the command read another input than it is told."""
import os
import re
import tempfile

from testing import GOOD, READERS, ROOT, Held, run, tame

held = Held("arguments")
LONG = 16, 17, 255, 4095, 4096, 5000, 100000
HOSTILE = "\x1b]0;gone\x07", "\x7f", "\x9b31m", "\u202e", "a\nb", os.fsdecode(b"\xff\xfe"), '"', "'"


def misused(*words, text=GOOD["json8"]):
    """Used wrongly: status 2, a sentence, and no output; the input would be fit."""
    done = run(*words, text=text)
    what = repr([word if len(word) < 60 else "%s.. %d" % (word[:8], len(word)) for word in words])
    held.status(done, 2, what)
    held.that(done.out == b"", what + " has an output", done.out[:80])
    held.that(done.err.endswith(b"\n") and len(done.err) > 10, what + " has no sentence", done.err)
    held.that(tame(done.err), what + " can drive a terminal", done.err[:200])
    return done


def first_words():
    help_text = run("help").out
    held.that(misused().err == help_text, "no word doesn't print the help")
    for word in "records", "LINES", "line", "json", "quotes", "", "-", "--", "-x", "--json", "--pieces", "-help", *HOSTILE:
        misused(word)
        misused(word, "folders.j8l")
    for size in LONG:
        misused("a" * size)
    # A command with more behind it is none.
    for word in READERS:
        for size in LONG:
            misused(word + " " * size, text=GOOD[word])


def file_names():
    for word in READERS:
        misused(word, "", text=GOOD[word])
        misused(word, "--", "", text=GOOD[word])
        misused(word, "--json", "", text=GOOD[word])
        misused(word, "-", "-", text=GOOD[word])
        misused(word, "folders.j8l", "crlf.j8l")
        misused(word, "--", "folders.j8l", "crlf.j8l")
        for size in 4096, 5000, 100000:
            misused(word, "a" * size, text=GOOD[word])
            misused(word, "./" * (size // 2) + "folders.j8l")
        held.status(run(word, "a" * 4095, text=GOOD[word]), 3, word + " with a name of 4,095 bytes")


def longest_name():
    """A file whose name has just as many bytes as a name can have is read."""
    with tempfile.TemporaryDirectory() as folder:
        path = os.path.join(folder, "x")
        with open(path, "wb") as file:
            file.write(b"read")
        path = folder + "/" * (4095 - len(folder) - 1) + "x"
        held.that(run("quote", path).out == b'"read"\n', "a name of 4,095 bytes isn't read")
        misused("quote", folder + "/" * (4096 - len(folder) - 1) + "x")


def options():
    belong = {"lines": ("--pieces", "--json"), "quote": ("--line", "--lines", "-0", "--json"), "unquote": ("--lines", "-0", "--json"),
              "json8": ("--json",), "strings": ("--json",), "tsv8": ("--json",)}
    every = "--pieces", "--pieces=3", "--line", "--lines", "-0", "-00", "-l", "-x", "--jso", "--jsonx", "--json=1", "--lines=", "-0x", "--version", *HOSTILE[:3]
    for word in READERS:
        for option in every:
            if option.split("=")[0] not in belong[word] or option in ("--json=1", "--lines="):
                option = option if option.startswith("-") else "-" + option
                misused(word, option, text=GOOD[word])
                misused(word, option, "folders.j8l")
        misused(word, "folders.j8l", "--colour")
        misused(word, "-", "--colour", text=GOOD[word])
        # Before the file and behind it they are the same, and behind -- a second file.
        for option in belong[word]:
            words = [option, "7"] if option == "--pieces" else [option]
            before, behind = run(word, *words, "folders.j8l"), run(word, "folders.j8l", *words)
            held.that((before.status, before.out, before.err) == (behind.status, behind.out, behind.err), "%s with %s behind its file" % (word, option), behind.err)
            misused(word, "folders.j8l", "--", option)
        for size in LONG:
            misused(word, "--" + "x" * size, text=GOOD[word])
            misused(word, "--json" + "x" * size, text=GOOD[word])


def pieces():
    sizes = "", "0", "4097", "-1", "+3", " 3", "3 ", "3k", "1e3", "0x10", "seven", "9" * 30, "1" * 5000, "18446744073709551617", "4294967297"
    for size in sizes:
        misused("lines", "--pieces", size, text=GOOD["lines"])
        misused("lines", "--pieces=" + size, text=GOOD["lines"])
    misused("lines", "--pieces", text=GOOD["lines"])
    misused("lines", "--pieces", "--json", text=GOOD["lines"])
    for size in "1", "3", "4096":
        for words in (("--pieces", size), ("--pieces=" + size,)):
            done = run("lines", *words, text=b"a\nb")
            held.that((done.status, done.out, done.err) == (0, b'1\t"a"\n2\t"b"\n', b""), "pieces of %s" % size, done.err)


def dashes():
    """Files whose names look like options, and standard input."""
    with tempfile.TemporaryDirectory() as folder:
        for name in "-x", "--json", "--", "-0", "--help", "--pieces=3":
            path = os.path.join(folder, name)
            with open(path, "wb") as file:
                file.write(b'"%s"' % name.encode())
            for words in ([path], ["--", path]):
                held.that(run("unquote", *words).out == name.encode(), "a file named %s isn't read" % name)
            # In its own folder the name stands alone.
            done = run("unquote", "--", name, folder=folder)
            held.that((done.status, done.out) == (0, name.encode()), "behind -- a file named %s isn't read" % name, done.err)
    for word in READERS:
        for words in ([], ["-"], ["--"], ["--", "-"]):
            done = run(word, *words, text=GOOD[word])
            held.that(done.status == 0 and done.err == b"" and done.out != b"", "%s %s doesn't read standard input" % (word, words), done.err)


def helped():
    texts = {}
    ways = *(["help", word] for word in READERS), *([word, "--help"] for word in READERS), *([word, "-h"] for word in READERS)
    for words in (["help"], ["--help"], ["-h"], *ways):
        done = run(*words)
        held.that(done.status == 0 and done.err == b"" and len(done.out) > 60, "%s doesn't help" % words, done.err)
        held.that(tame(done.out), "%s can drive a terminal" % words)
        texts[" ".join(words)] = done.out
    held.that(texts["help"] == texts["--help"] == texts["-h"], "help, --help and -h differ")
    for word in READERS:
        held.that(texts["help " + word] == texts[word + " --help"] == texts[word + " -h"], "help %s and %s --help differ" % (word, word))
        held.that(word.encode() in texts["help"] and word.encode() in texts["help " + word], "the help doesn't name %s" % word)
    held.that(len({texts["help " + word] for word in READERS}) == len(READERS), "two commands have the same help")
    for words in ["nonsense"], [""], ["a" * 5000]:
        misused("help", *words)


def version():
    with open(os.path.join(ROOT, "include", "j8.h")) as header:
        asked = re.search(r'#define J8_VERSION "(.*)"', header.read())[1]
    done = run("--version")
    held.that((done.status, done.out, done.err) == (0, b"j8 %s\n" % asked.encode(), b""), "--version says", done.out)


first_words()
file_names()
longest_name()
options()
pieces()
dashes()
helped()
version()
held.end("words that are wrong, empty or too long, options in every place, help, version")
