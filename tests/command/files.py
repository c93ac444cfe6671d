#!/usr/bin/env python3
"""files.py COMMAND: inputs that can't be read, outputs that can't be written, and how little stack is enough."""
import json
import os
import shutil
import subprocess
import tempfile
import threading
import time

from testing import COMMAND, GOOD, READERS, SAMPLES, Held, Run, limits, quoted, run, tame

held = Held("files")
NOBODY = 65534
HOSTILE = (b"none", b"a name", b'"', b"'", b"\\", b"\x1b]0;gone\x07", b"line\nend", b"\x7f", "\x9b31m".encode(), "\u202etxt".encode(), b"caf\xe9", b"\xed\xa0\xbe",
           "\u200f".encode() + b"\xff")
KINDS = (("lines",), ("quote",), ("quote", "--line"), ("quote", "--lines"), ("quote", "-0"), ("unquote",), ("unquote", "--lines"), ("unquote", "-0"), ("json8",),
         ("strings",), ("tsv8",))


def good(words):
    return GOOD["lines"] if words[0] == "unquote" and len(words) > 1 else GOOD[words[0]]


def failed(done, what, names=b"", reason=b""):
    """Status 3 and one sentence that names the file and the reason."""
    held.status(done, 3, what)
    held.that(done.err.count(b"\n") == 1 and done.err.endswith(b"\n") and tame(done.err), what + " isn't one tame line", done.err)
    held.that(names in done.err and reason in done.err, what + " doesn't name %s and %s" % (names, reason), done.err)


def failed_alike(what, *words, names=b"", reason=b"", **more):
    """The same, plain and as an object of JSON."""
    done = run(*words, **more)
    failed(done, what, names, reason)
    held.that(not done.out, what + " has an output", done.out)
    done = run(words[0], "--json", *words[1:], **more)
    held.status(done, 3, what + " with --json")
    try:
        said = json.loads(done.err)
        held.that(said["number"] is None and names.decode() in said["sentence"] and reason.decode() in said["sentence"], what + " as JSON", done.err)
    except ValueError:
        held.that(False, what + " isn't JSON", done.err)


def missing():
    with tempfile.TemporaryDirectory() as folder:
        for kind in KINDS:
            for name in HOSTILE:
                failed_alike("%s of a missing %r" % (kind, name), *kind, "--", name, folder=folder, names=quoted(name, True), reason=b"No such file or directory")
            # A name of exactly 4,095 bytes, each of which is escaped, is told whole.
            name = b"\x01" * 4095
            failed_alike("%s of a long name" % (kind,), *kind, name, folder=folder, reason=b"File name too long")
            failed_alike("%s of a folder" % (kind,), *kind, folder, names=quoted(folder.encode()), reason=b"Is a directory")


def named():
    """Files that are there, by names of any bytes: what they hold is read, and nothing of standard input, which may be closed. And words that are no file's."""
    with tempfile.TemporaryDirectory() as folder:
        for kind in KINDS:
            asked = run(*kind, text=good(kind))
            for name in HOSTILE:
                with open(os.path.join(os.fsencode(folder), name), "wb") as file:
                    file.write(good(kind))
                done = run(*kind, "--", name, text=b"\xff\xff", folder=folder)
                held.that((done.status, done.out, done.err) == (0, asked.out, asked.err), "%s of a file %r" % (kind, name), done.err)
            closed = subprocess.run(["sh", "-c", 'exec "$0" "$@" <&-', COMMAND, *kind, "--", name], cwd=folder, capture_output=True, check=False)
            held.that(closed.returncode == 0 and closed.stdout == asked.out, "%s with standard input closed" % (kind,), closed.stderr)
    start = time.monotonic()
    held.status(run("lines", *["folder"] * 100000, text=GOOD["lines"]), 2, "100,000 words")
    held.that(time.monotonic() - start < 10, "100,000 words in time")


def unreadable():
    """As nobody, where this runs as root: root may read all."""
    with tempfile.TemporaryDirectory() as folder:
        os.chmod(folder, 0o755)
        command = shutil.copy(COMMAND, os.path.join(folder, "j8"))
        os.chmod(command, 0o755)
        path = os.path.join(folder, "secret")
        with open(path, "wb") as file:
            file.write(GOOD["json8"])
        os.chmod(path, 0)
        user = NOBODY if os.geteuid() == 0 else None
        for kind in KINDS:
            failed_alike("%s of an unreadable file" % (kind,), *kind, path, command=command, folder="/", user=user, names=quoted(path.encode()), reason=b"Permission denied")


def read_errors():
    """What opens and can't be read; an input that is closed or a folder."""
    for kind in KINDS:
        failed_alike("%s of memory" % (kind,), *kind, "/proc/self/mem", names=b'"/proc/self/mem"', reason=b"Input/output error")
        descriptor = os.open(SAMPLES, os.O_RDONLY)
        failed_alike("%s of a folder as standard input" % (kind,), *kind, stdin=descriptor, names=b"standard input", reason=b"Is a directory")
        os.close(descriptor)
        closed = subprocess.run(["sh", "-c", 'exec "$0" "$@" <&-', COMMAND, *kind], capture_output=True)
        held.that(closed.returncode == 3 and closed.stdout == b"" and b"Bad file descriptor" in closed.stderr and b"standard input" in closed.stderr,
                  "%s of a closed input" % (kind,), closed)


def full():
    """An output without room, on every subcommand, with what is said as a line and as an object."""
    words = [*KINDS, ("help",), ("--help",), ("-h",), ("--version",), ("help", "lines"), ("lines", "--help")]
    for kind in words:
        text = good(kind) if kind in KINDS else b""
        with open("/dev/full", "wb") as device:
            failed(run(*kind, text=text, out=device), "%s to a full disk" % (kind,), reason=b"No space left on device")
            if kind in KINDS:
                done = run(kind[0], "--json", *kind[1:], text=text, out=device)
                held.that(done.status == 3 and b"No space left" in done.err and json.loads(done.err)["number"] is None, "%s --json to a full disk" % (kind,), done.err)
    # A refusal behind an output that failed: the output's failure is what counts.
    with open("/dev/full", "wb") as device:
        done = run("lines", text=b'scans/in\n"x\n', out=device)
        held.that(done.status == 3 and b"No space left on device" in done.err, "a refused book to a full disk: status %d" % done.status, done.err)
    # Only the refusal can't be said.
    with open("/dev/full", "wb") as device:
        held.status(run("json8", text=b"[", err=device), 1, "a refusal that can't be said")
        held.status(run("nonsense", err=device), 2, "a wrong word that can't be told")


def large(kind):
    """An input whose output is longer than any buffer, where the subcommand can have one."""
    if kind[0] == "lines" or kind[1:] == ("--lines",):
        return b"scans/in\n" * 50000
    if kind[1:] == ("-0",):
        return b"scans/in\0" * 50000 if kind[0] == "quote" else b"scans/in\n" * 50000
    return {"quote": b"a" * 32000, "unquote": b"'" + b"a" * 32000 + b"'", "json8": b"[" + b"'%s'," % (b"a" * 300) * 100 + b"]",
            "strings": b"[" + b"'%s'," % (b"a" * 300) * 100 + b"]", "tsv8": b"!tsv8\t" + b"a" * 30000 + b"\n\t1" * 900}[kind[0]]


def cut_off():
    """A disk that is full midway, and a closed pipe: with SIGPIPE as usual by the signal without a word, ignored by status 3."""
    for kind in KINDS:
        for text in good(kind), large(kind):
            with tempfile.TemporaryFile() as file:
                failed(run(*kind, text=text, out=file, file_size=3), "%s to a file of 3 bytes" % (kind,), reason=b"File too large")
                held.that(os.fstat(file.fileno()).st_size == 3, "%s wrote no 3 bytes first" % (kind,))
            reader, writer = os.pipe()
            os.close(reader)
            done = run(*kind, text=text, out=writer)
            held.that((done.status, done.err) == (-13, b""), "%s to a closed pipe: status %d" % (kind, done.status), done.err)
            failed(run(*kind, text=text, out=writer, pipe_ignored=True), "%s to a closed pipe, SIGPIPE ignored" % (kind,), reason=b"Broken pipe")
            os.close(writer)
        closed = subprocess.run(["sh", "-c", 'exec "$0" "$@" >&-', COMMAND, *kind], input=good(kind), stderr=subprocess.PIPE)
        held.that(closed.returncode == 3 and b"Bad file descriptor" in closed.stderr, "%s to a closed output" % (kind,), closed)


def cut_off_midway():
    """A reader that goes away in the middle of a log of 27 MB, and a disk that is full there."""
    text = large(("tsv8",))
    whole = run("tsv8", text=text).out
    for ignored in False, True:
        for size in 1, 65536, 1000000:
            with tempfile.TemporaryFile() as said:
                child = subprocess.Popen([COMMAND, "tsv8"], stdin=subprocess.PIPE, stdout=subprocess.PIPE, stderr=said, preexec_fn=limits(pipe_ignored=ignored), bufsize=0)
                child.stdin.write(text)
                child.stdin.close()
                got = b""
                while len(got) < size:
                    got += child.stdout.read(size - len(got))
                child.stdout.close()
                status = child.wait(60)
                said.seek(0)
                held.that(got == whole[:size], "tsv8 wrote other %d bytes" % size)
                done = Run(status, b"", said.read())
            if ignored:
                failed(done, "tsv8 whose reader goes away", reason=b"Broken pipe")
            else:
                held.that((done.status, done.err) == (-13, b""), "tsv8 whose reader goes away: status %d" % done.status, done.err)
    with tempfile.TemporaryFile() as file:
        failed(run("tsv8", text=text, out=file, file_size=200000), "tsv8 to a file of 200,000 bytes", reason=b"File too large")
        file.seek(0)
        held.that(file.read() == whole[:200000], "tsv8 wrote no 200,000 bytes first")


def closed_with_file():
    """A file is opened in the place of a descriptor that is closed: it is never written to, and the status stays what it is."""
    with tempfile.TemporaryDirectory() as folder:
        path = os.path.join(folder, "f")
        for text, status in (b"[1]", 0), (b"[", 1):
            with open(path, "wb") as file:
                file.write(text)
            for closed, asked in ("<&-", status), ("2>&-", status), (">&-", 3 if status == 0 else 1), ("<&- 2>&-", status), ("<&- >&- 2>&-", 3 if status == 0 else 1):
                done = subprocess.run(["sh", "-c", 'exec "$0" json8 "$1" ' + closed, COMMAND, path], capture_output=True)
                held.that(done.returncode == asked, "json8 of %s with %s: status %d" % (text, closed, done.returncode), done.stderr)
            with open(path, "rb") as file:
                held.that(file.read() == text, "the input was written to")


def slow():
    """An input that comes byte by byte."""
    for kind in KINDS:
        text = good(kind)
        reader, writer = os.pipe()

        def write():
            for at in range(len(text)):
                os.write(writer, text[at:at + 1])
                time.sleep(0.001)
            os.close(writer)

        writing = threading.Thread(target=write)
        writing.start()
        done = run(*kind, stdin=reader)
        writing.join()
        os.close(reader)
        held.that((done.status, done.out, done.err) == (0, run(*kind, text=text).out, b""), "%s byte by byte: status %d" % (kind, done.status), done.out + done.err)


def small_stack():
    """64 KiB of stack are enough for every subcommand, on every sample and on the largest inputs."""
    inputs = [(kind, large(kind)) for kind in KINDS]
    inputs += [(("json8",), b"[" * 32 + b"1" + b"]" * 32), (("json8",), b"{" + b"a:1," * 511 + b"}"), (("strings",), b"[" + b"'\\u{e9}'," * 1023 + b"]"),
               (("quote",), b"\x01" * 5000), (("json8",), b'"' + b"\\ud83e" * 2700 + b'"'), (("lines",), b"'" + b"\\u{10ffff}" * 90 + b"'\n"),
               (("tsv8",), b"!tsv8" + b"\tx" * 62 + (b"\n" + b"\tx" * 62) * 261), (("tsv8",), b"!tsv8\t'a\\n'\n" + b"\t'\\u{e9}'\n" * 2500)]
    for sample in sorted(os.listdir(SAMPLES)):
        with open(os.path.join(SAMPLES, sample), "rb") as file:
            text = file.read()
        inputs += [(kind, text) for kind in KINDS]
    for kind, text in inputs:
        usual, small = run(*kind, text=text), run(*kind, text=text, stack=65536)
        held.that((usual.status, usual.out, usual.err) == (small.status, small.out, small.err), "%s of %s.. in a small stack: status %d" % (kind, text[:20], small.status), small.err)
    held.that(run("json8", "a" * 5000, stack=65536).status == 2, "a long name in a small stack")


missing()
named()
unreadable()
read_errors()
full()
cut_off()
cut_off_midway()
closed_with_file()
slow()
small_stack()
held.end("files that can't be read, outputs that can't be written, 64 KiB of stack")
