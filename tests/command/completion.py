#!/usr/bin/env python3
"""completion.py: types at a bash that has read completions/j8.bash, and looks at what a tab makes of the line."""
import os
import pty
import select
import sys
import tempfile
import time

HERE = os.path.dirname(os.path.abspath(__file__))
SOURCE = os.path.join(HERE, "..", "..", "completions", "j8.bash")

# What is typed, a tab behind it, and the line that stands there then.
LINES = [
    ("j8 li", "j8 lines "),
    ("j8 js", "j8 json8 "),
    ("j8 u", "j8 unquote "),
    ("j8 s", "j8 strings "),
    ("j8 --v", "j8 --version "),
    ("j8 --h", "j8 --help "),
    ("j8 help q", "j8 help quote "),
    ("j8 help quote ", "j8 help quote "),
    ("j8 lines --p", "j8 lines --pieces "),
    ("j8 lines --pieces ", "j8 lines --pieces "),
    ("j8 lines --pieces=", "j8 lines --pieces="),
    ("j8 lines --pieces 7 --j", "j8 lines --pieces 7 --json "),
    ("j8 lines --pieces=7 --j", "j8 lines --pieces=7 --json "),
    ("j8 quote --l", "j8 quote --line"),
    ("j8 quote -0 --j", "j8 quote -0 --json "),
    ("j8 unquote --l", "j8 unquote --lines "),
    ("j8 json8 --j", "j8 json8 --json "),
    ("j8 strings --h", "j8 strings --help "),
    ("j8 json8 o", "j8 json8 odd\\ name "),
    ("j8 lines --pieces 7 o", "j8 lines --pieces 7 odd\\ name "),
    ("j8 lines -- --o", "j8 lines -- --option-like "),
    ("j8 lines -- --j", "j8 lines -- --j"),
    ("j8 nonsense o", "j8 nonsense o"),
    ("j8 json8 --pi", "j8 json8 --pi"),
    ("j8 o", "j8 o"),
    ("j8 json8 --o", "j8 json8 --o"),
]


class Shell:
    """A bash on a pseudo terminal, which prints its line behind a mark when control and t is typed."""

    def __init__(self, folder):
        self.child, self.fd = pty.fork()
        if self.child == 0:
            os.chdir(folder)
            os.environ.update(TERM="dumb", PS1="", HISTFILE="/dev/null")
            os.execvp("bash", ["bash", "--norc", "--noprofile", "-i"])
        self.type("bind 'set bell-style none'; bind 'set completion-query-items 0'; bind 'set page-completions off'\n")
        self.type("bind -x '\"\\C-t\": printf \"\\n<%s>\\n\" \"$READLINE_LINE\"'\n")
        self.type("source '%s' && echo READ\"\"Y\n" % SOURCE)
        self.until("READY")

    def type(self, text):
        os.write(self.fd, text.encode())

    def until(self, mark, seconds=300):
        """What is printed up to a mark."""
        seen, end = "", time.time() + seconds
        while mark not in seen:
            if not select.select([self.fd], [], [], max(0, end - time.time()))[0]:
                sys.exit("completion: bash printed no %s: %r" % (mark, seen))
            seen += os.read(self.fd, 4096).decode(errors="replace")
        return seen

    def completed(self, typed):
        """The line behind a tab."""
        self.type(typed + "\t\x14")
        seen = self.until(">\r\n")
        # The line is taken away before the next one.
        self.type("\x15")
        return seen[seen.rindex("<") + 1:seen.rindex(">\r\n")]


def main():
    wrong = 0
    with tempfile.TemporaryDirectory() as folder:
        for name in "odd name", "--option-like":
            open(os.path.join(folder, name), "w").close()
        shell = Shell(folder)
        for typed, asked in LINES:
            line = shell.completed(typed)
            if line != asked:
                print("completion: %r and a tab is %r, and should be %r" % (typed, line, asked))
                wrong += 1
        os.close(shell.fd)
        os.waitpid(shell.child, 0)
    if not wrong:
        print("completion: %d lines are completed as they should be" % len(LINES))
    sys.exit(wrong > 0)


main()
