#!/usr/bin/env python3
"""manual.py COMMAND PAGE: the man page and the completion know what the command knows, and the page's examples run."""
import os
import re
import subprocess
import sys
import tempfile

from testing import COMMAND, READERS, ROOT, SAMPLES, Held, run

held = Held("manual")
PAGE = os.path.realpath(sys.argv[2])


def read(path):
    with open(os.path.join(ROOT, path)) as file:
        return file.read()


def formatted():
    """The page as it is shown, if man has no word to say about it."""
    done = subprocess.run(["man", "--warnings", "-l", PAGE], capture_output=True, env={**os.environ, "LC_ALL": "C.UTF-8", "MANWIDTH": "100", "GROFF_NO_SGR": "1"})
    held.that(done.returncode == 0 and done.stderr == b"", "man says", done.stderr)
    return re.sub(".\b", "", done.stdout.decode())


def options(text):
    return set(re.findall(r"(?<![\w-])(?:--[a-z]+|-[0h])(?![\w-])", text))


def alike(shown):
    """Version, commands and options of the page, the help and the completion."""
    version = re.search(r'#define J8_VERSION "(.*)"', read("include/j8.h"))[1]
    held.that(("j8 " + version) in shown and run("--version").out.decode() == "j8 %s\n" % version, "the versions differ")
    texts = {word: run("help", word).out.decode() for word in READERS}
    help_text = "".join(texts.values()) + run("help").out.decode()
    held.that(options(shown) == options(help_text), "options of the page and of the help:", (sorted(options(shown)), sorted(options(help_text))))
    for word in READERS:
        synopsis = " ".join(re.findall(r"^ +j8 %s (.*)$" % word, shown, re.M)[:1])
        # The help names --json once, for all.
        held.that(options(synopsis) == options(texts[word].splitlines()[0]) | {"--json"}, "the synopsis of %s:" % word, (synopsis, texts[word].splitlines()[:1]))
        row = re.search(r"^    [a-z0-9 |]*\b%s\b[a-z0-9 |]*\) echo \"(--.*)\"" % word, read("completions/j8.bash"), re.M)
        held.that(row is not None and options(row[1]) - {"--help"} == options(synopsis), "the completion of %s:" % word, row and row[1])
    for status in "0", "1", "2", "3":
        held.that(re.search(r"^ +%s  +[A-Zj]" % status, shown, re.M), "the page has no status " + status)


def blocks():
    """The examples of the page, without roff's escapes."""
    found = re.findall(r"^\.Bd -literal.*\n((?:.*\n)*?)\.Ed", read(PAGE), re.M)
    return [block.replace("\\e", "\\") for block in found]


def script(text, folder):
    """Runs a script with j8 on the path; its status, output and what was said."""
    os.makedirs(os.path.join(folder, "bin"), exist_ok=True)
    if not os.path.lexists(os.path.join(folder, "bin", "j8")):
        os.symlink(COMMAND, os.path.join(folder, "bin", "j8"))
    path = os.path.join(folder, "bin") + ":" + os.environ["PATH"]
    done = subprocess.run(["bash", "-c", text], cwd=folder, input="[1]", capture_output=True, text=True, errors="replace", env={**os.environ, "PATH": path})
    return done.returncode, done.stdout, done.stderr


def restores(block, folder):
    """The restore script takes a good backup alone; not a damaged one, none, or standard input."""
    for backup, asked in ("settings.json8", "restored\n"), ("cut-off.json8", ""), ("none.json8", ""), (None, ""):
        path = os.path.join(SAMPLES, backup) if backup else ""
        status, out, err = script('restore() { [ -s "$1" ] && echo restored; }\nbackup=%s\n%s' % (path, block), folder)
        held.that(status == 0 and out == asked and ("not restored: " in err) == (asked == ""), "the restore script of %s:" % backup, out + err)


def examples():
    found = blocks()
    held.that(len(found) == 4, "the page has %d examples" % len(found))
    with tempfile.TemporaryDirectory() as folder:
        restores(found[0], folder)
        os.mkdir(os.path.join(folder, "scans"))
        for name in b"in", b"caf\xe9", b"two\nlines":
            open(os.path.join(folder.encode(), b"scans", name), "w").close()
        status, out, err = script("set -e -o pipefail\n" + found[1] + "wc -l <names.j8l", folder)
        held.that(status == 0 and err == "" and out.splitlines()[-1] == "4" and out.count("scans") == 4, "the example of find:", out + err)
        line, answer = found[2].split("\n", 1)
        held.that(script(line.removeprefix("$ "), folder) == (0, answer, ""), "the example of --line:", answer)
        # jq may not be there: what it would read is.
        line = found[3].removeprefix("$ ").replace("jq .number", "cat")
        status, out, err = script('echo "\'x" >book.j8l\n' + line, folder)
        held.that(status == 0 and out.startswith('{"number":4,') and err == "", "the example of --json:", out + err)


alike(formatted())
examples()
held.end("the man page is right by man, of the right version, and its examples run")
