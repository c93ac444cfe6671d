"""What the tests of the command share: running it, J8 strings as they should be written, and counting what was held."""
import os
import resource
import signal
import subprocess
import sys

COMMAND = os.path.realpath(sys.argv[1])
ROOT = os.path.join(os.path.dirname(os.path.abspath(__file__)), "..", "..")
SAMPLES = os.path.join(ROOT, "samples")
READERS = ("lines", "quote", "unquote", "json8", "strings", "tsv8")
BOM = b"\xef\xbb\xbf"

# The least that a text has to have so that a subcommand takes it.
GOOD = {"lines": b"scans/in\n", "quote": b"scans/in", "unquote": b'"scans/in"\n', "json8": b"[1]\n", "strings": b'["a"]\n', "tsv8": b"!tsv8\ta\n\t1\n"}

LETTERS = {8: "b", 9: "t", 10: "n", 12: "f", 13: "r"}
MARKS = [0x200E, 0x200F, 0x061C, *range(0x202A, 0x202F), *range(0x2066, 0x206A)]
HIDDEN = {0x7F, *range(0x80, 0xA0), *MARKS}


class Run:
    """How a run ended, and what it wrote. The status of a signal is -N."""

    def __init__(self, status, out, err):
        self.status, self.out, self.err = status, out, err


def limits(stack=None, file_size=None, pipe_ignored=False, user=None):
    """What a child does before it becomes the command."""
    def change():
        if pipe_ignored:
            signal.signal(signal.SIGPIPE, signal.SIG_IGN)
        if file_size is not None:
            signal.signal(signal.SIGXFSZ, signal.SIG_IGN)
            resource.setrlimit(resource.RLIMIT_FSIZE, (file_size, file_size))
        if stack is not None:
            resource.setrlimit(resource.RLIMIT_STACK, (stack, stack))
        if user is not None:
            os.setgroups([])
            os.setgid(user)
            os.setuid(user)
    return change


def run(*words, text=b"", out=subprocess.PIPE, err=subprocess.PIPE, stdin=None, command=COMMAND, folder=SAMPLES, **changes):
    """Runs the command with its input as bytes or from stdin, in the folder of the samples or another."""
    given = {"input": text} if stdin is None else {"stdin": stdin}
    change = limits(**changes) if changes else None
    done = subprocess.run([command, *words], stdout=out, stderr=err, cwd=folder, env={"LC_ALL": "C"}, timeout=600, preexec_fn=change, **given)
    return Run(done.returncode, done.stdout, done.stderr)


def character(code, terminal, single):
    """A character as a J8 string has it; on a terminal, what could drive it is escaped too."""
    mark = chr(code)
    if mark == "\\" or mark == ("'" if single else '"'):
        return "\\" + mark
    if code in LETTERS:
        return "\\" + LETTERS[code]
    if code < 0x20:
        return "\\y%02x" % code if single else "\\u%04x" % code
    if terminal and code in HIDDEN:
        return "\\u{%04x}" % code if single else "\\u%04x" % code
    return mark


def quoted(data, terminal=False):
    """The J8 string of some bytes."""
    try:
        text = data.decode()
    except UnicodeDecodeError:
        return b"b'" + by_bytes(data, terminal) + b"'"
    return ('"' + "".join(character(ord(mark), terminal, False) for mark in text) + '"').encode()


def by_bytes(data, terminal):
    """What stands between b' and ': a character where one starts, else a byte."""
    parts, at = [], 0
    while at < len(data):
        for size in 1, 2, 3, 4:
            try:
                mark = data[at:at + size].decode()
                parts.append(character(ord(mark), terminal, True).encode())
                break
            except (UnicodeDecodeError, TypeError):
                continue
        else:
            size = 1
            parts.append(b"\\y%02x" % data[at])
        at += size
    return b"".join(parts)


def tame(text):
    """Whether a text of lines can't drive a terminal."""
    try:
        return all(mark == "\n" or 0x20 <= ord(mark) and ord(mark) not in HIDDEN for mark in text.decode())
    except UnicodeDecodeError:
        return False


class Held:
    """Counts what was held, and says what wasn't."""

    def __init__(self, name):
        self.name, self.count, self.wrong = name, 0, 0

    def that(self, right, what, seen=""):
        self.count += 1
        if not right:
            self.wrong += 1
            print("%s: %s %s" % (self.name, what, str(seen)[:600]))

    def status(self, done, asked, what):
        self.that(done.status == asked, "%s: status %s, not %s;" % (what, done.status, asked), (done.out or b"")[:200] + (done.err or b"")[:400])

    def end(self, what):
        if not self.count:
            self.wrong += 1
        print("%s: %d of %d held: %s" % (self.name, self.count - self.wrong, self.count, what))
        sys.exit(self.wrong > 0)
