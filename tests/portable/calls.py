#!/usr/bin/env python3
"""The calls that calls.c makes.

    calls.py vectors            every case of tests/vectors, and all sentences
    calls.py expected           what calls.c must print for these; ? stands for a word that the vectors don't settle
    calls.py held EXPECTED GOT  holds what was printed to what was expected
    calls.py random SEED COUNT  calls made by chance, the same for the same seed; every number fits 32 bits
    calls.py wide SEED COUNT    the same of the functions that take numbers, which here fill 64 bits
"""
import os
import random
import sys

VECTORS = os.path.join(os.path.dirname(os.path.abspath(__file__)), "..", "vectors")


def raw(field):
    """The bytes of a field."""
    out = b""
    for one in [] if field == "-" else field.split("."):
        digits, _, times = one.partition("*")
        out += bytes.fromhex(digits) * int(times or 1)
    return out


def runs(values):
    """Values with how often each stands in a row, three or fewer one by one."""
    at = 0
    while at < len(values):
        end = at
        while end < len(values) and values[end] == values[at]:
            end += 1
        if end - at < 4:
            end = at + 1
        yield values[at], end - at
        at = end


def shown(data):
    """Bytes as calls.c prints them."""
    out, dot = "", False
    for value, times in runs(data):
        if times > 1:
            out += "%s%02x*%d" % ("." if out else "", value, times)
        else:
            out += "%s%02x" % ("." if dot else "", value)
        dot = times > 1
    return out or "-"


def shown_table(values):
    return ",".join("%d" % value + ("*%d" % times if times > 1 else "") for value, times in runs(values)) or "-"


def over(data, room, fill):
    """A buffer of so many bytes, filled, with data in front."""
    return shown(data + bytes([fill]) * (room - len(data)))


def cases(name):
    with open(os.path.join(VECTORS, name + ".txt"), encoding="ascii") as file:
        return [line.split() for line in file if line.strip() and not line.startswith("#")]


def text_vectors(name):
    for given, room, number, place, made in cases(name):
        made = raw(made)
        yield "%s %s %s" % (name, given, room), "%s,%s,%d %s" % (number, place, len(made), over(made, int(room), 0xCC))


def upload_vectors():
    for held, out, calls, answers, state, output, line in cases("upload"):
        words = [] if calls == "-" else calls.split(";")
        answered = "" if answers == "-" else answers + ";"
        yield " ".join(["upload", held, out] + words), "%s %s %s %s" % (answered, state, shown(raw(output)), shown(raw(line)))


def line_vectors():
    """A line by a feed and a finish, and with an LF instead of the finish. One that is too long is refused by the feed already."""
    for line, outcome, number, place, payload in cases("line_read"):
        payload = raw(payload)
        record = len(payload).to_bytes(2, "little") + bytes([int(number), 0]) + payload if outcome == "record" else b""
        answer = "%s,1,%s;" % (number, place) if outcome == "refused" else "0,0,0;"
        fed = answer if number == "2" and outcome == "refused" else "0,0,0;"
        for reader in ("E", "F0a"):
            for room in (len(record), len(record) + 50):
                yield "upload 1024 %d F%s %s" % (room, line, reader), "%s%s ? %s ?" % (fed, answer, over(record, room, 0xBB))


def read_vectors():
    for text, nodes, store, number, place, table, stored in cases("json8_read"):
        room, stored = 4 * int(nodes), raw(stored)
        values = [] if table == "-" else [int(one) for node in table.split(",") for one in node.split(":")]
        answer = "%s,%s,%d,%d" % (number, place, len(values) // 4, len(stored))
        filled = shown_table(values + [0xDDDDDDDD] * (room - len(values)))
        yield "json8_read %s %d %s" % (text, room, store), "%s %s %s" % (answer, filled, over(stored, int(store), 0xBB))


def write_vectors():
    for table, text, store, room, number, place, made in cases("json8_write"):
        made = raw(made)
        yield "json8_write %s %s %s %s" % (table, text, store, room), "%s,%s,%d %s" % (number, place, len(made), over(made, int(room), 0xCC))


def show_vectors():
    """The answer's other numbers are settled by the bytes that they point to."""
    for table, text, store, node, number, made in cases("json8_show"):
        yield "json8_show %s %s %s %s" % (table, text, store, node), "%s,? %s" % (number, shown(raw(made)))


def sheet_vectors():
    for text, names, types, cells, store, number, place, *given in cases("tsv8_read"):
        stored = raw(given.pop())
        made = [[] if part == "-" else [int(one) for one in part.replace(":", ",").split(",")] for part in given]
        answer = "%s,%s,%d,%d,%d" % (number, place, len(made[1]), len(made[2]) // 3, len(stored))
        filled = [shown_table(part + [0xDDDDDDDD] * (int(room) - len(part))) for part, room in zip(made, (names, types, cells))]
        yield "tsv8_read %s %s %s %s %s" % (text, names, types, cells, store), " ".join([answer] + filled + [over(stored, int(store), 0xBB)])


def sentence_calls():
    """Other tests have their words: here builds are compared."""
    for which in list(range(30)) + [255, 2**32 - 1]:
        for room in (0, 20, 60, 128):
            yield "sentence %d %d" % (which, room), "? ?"
    yield "version", "?"


def vectors():
    for name in ("string_read", "string_write", "lines_write"):
        yield from text_vectors(name)
    for part in (upload_vectors, line_vectors, read_vectors, write_vectors, show_vectors, sheet_vectors, sentence_calls):
        yield from part()


def held(expected, got):
    """Whether what was printed is what was expected."""
    with open(expected, encoding="ascii") as one, open(got, encoding="ascii") as other:
        want, have = one.read().splitlines(), other.read().splitlines()
    for at, (left, right) in enumerate(zip(want, have), 1):
        same = len(left.split()) == len(right.split())
        for a, b in zip(left.split(), right.split()):
            same = same and (a == "?" or a == b or (a.endswith(",?") and b.startswith(a[:-1])))
        if not same:
            sys.exit("line %d\nexpected %s\nprinted  %s" % (at, left[:400], right[:400]))
    if len(want) != len(have):
        sys.exit("%d lines expected, %d printed" % (len(want), len(have)))
    print("%d calls answered as the vectors say" % (len(have) - 1))


# ---- calls made by chance

TOKENS = """" ' u' b' \\ \\u \\u{ } d8 3f \\y ff a xyz \x20 \n \t \r \xc3\xa9 \xe2\x82\xac \xf0\x9f\x98\x80 \xed\xa0\x80 \xff \x00 \x7f \\n \\ud83e \\udd84
 [ ] { } : , 1 -0.5e3 null true false # key "k": \\" 0 . e \\/ \\u{10ffff} \\u{110000} \\u{d800} \\yfe""".split(" ")
TOKENS = [token.strip("\n").encode("latin-1") or b"\n" for token in TOKENS] + [b" ", b"a" * 52, b"\xc3\xa9" * 17, b"abcdefgh"]
# Each fault of UTF-8. They come apart from the rest, so that most texts have none.
FAULTS = [b"\x80", b"\xf8", b"\xc1", b"\xe2\x82", b"\xe0\x80", b"\xf7\xbf\xbf", b"\xc0\x80", b"\xe0\x9f\xbf", b"\xf0\x8d\xa0\x80", b"\xed\xbf\xbf", b"\xf4\x90\x80\x80", b"\xf7\xbf\xbf\xbf"]


class Chance:
    def __init__(self, seed, top=2**32 - 1):
        self.r, self.top = random.Random(seed), top
        self.makers = [self.string_read, self.string_write, self.lines_write, self.upload, self.state, self.read, self.write, self.show, self.sheet, self.sentence]

    def noise(self, most):
        return b"".join(self.r.choice(TOKENS if self.r.randrange(30) else FAULTS) for _ in range(self.r.randrange(most)))

    def quoted(self):
        mark = self.r.choice([b'"', b"'", b"u'", b"b'"])
        return mark + self.noise(12) + mark[-1:]

    def either(self, most):
        return self.quoted() if self.r.randrange(2) else self.noise(most)

    def value(self, depth):
        kind = self.r.randrange(9)
        if depth == 0 or kind < 5:
            return self.r.choice([b"null", b"true", b"1", b"-2.5e7", b"0", b'""', b'"\\n"', self.quoted(), b"b'\\yff'"])
        if kind < 7:
            return b"[" + b",".join(self.value(depth - 1) for _ in range(self.r.randrange(5))) + self.r.choice([b"", b"", b","]) + b"]"
        pairs = [self.r.choice([b"a", b'"k\\t"', self.quoted()]) + b": " + self.value(depth - 1) for _ in range(self.r.randrange(4))]
        return b"{" + b" ,".join(pairs) + self.r.choice([b"", b"", b"#c\n"]) + b"}"

    def string_read(self):
        return "string_read %s %d" % (shown(self.either(20)), self.r.choice([0, 1, 5, 30, 2000]))

    def string_write(self):
        return "string_write %s %d" % (shown(self.noise(20)), self.r.choice([0, 1, 5, 30, 5000]))

    def lines_write(self):
        out = b""
        for _ in range(self.r.randrange(5)):
            payload = self.noise(8)
            kind = 1 if payload.decode("utf-8", "replace").encode() == payload else 2
            kind = self.r.randrange(4) if self.r.randrange(8) == 0 else kind
            out += len(payload).to_bytes(2, "little") + bytes([kind, 0]) + payload
        return "lines_write %s %d" % (shown(out[:-1] if self.r.randrange(6) == 0 else out), self.r.choice([0, 9, 100, 5000]))

    def words(self, most):
        for _ in range(self.r.randrange(most)):
            if self.r.randrange(6) == 0:
                yield self.r.choice("EZ")
            else:
                yield "F" + shown(b"\n".join(self.either(30) for _ in range(self.r.randrange(6))))

    def upload(self):
        return " ".join(["upload", str(self.r.choice([1023, 1024, 1024, 1024, 1030])), str(self.r.choice([0, 20, 300, 9000]))] + list(self.words(8)))

    def state(self):
        """From a state by hand: each field small, at its limit, past it, or about the middle and the end of all numbers."""
        def field(limit):
            return self.r.choice([0, 0, 1, 3, limit - 1, limit, limit + 1, self.top // 2, self.top // 2 + 1, self.top])
        numbers = [field(1048576), field(3), field(1024), field(20), self.r.choice([0, 0, 0, 1, 7]), self.r.choice([0, 0, 0, 1, 5, 18, 23, 27, 99]), field(3), field(9)]
        return " ".join(["upload", "1024", str(self.r.choice([0, 20, 300])), "S" + ",".join(map(str, numbers))] + list(self.words(4)))

    def read(self):
        nested = b"[" * self.r.randrange(36) + self.value(1) + b"]" * self.r.randrange(36)
        text = self.r.choice([self.value(4), self.value(6), self.noise(20), nested])
        return "json8_read %s %d %d" % (shown(text), self.r.choice([0, 4, 7, 40, 4096]), self.r.choice([0, 3, 3000]))

    def write(self):
        table = []
        for _ in range(self.r.randrange(6)):
            table += [self.r.randrange(10), self.r.choice([1, 1, 1, 2, 3, 4]), self.r.choice([0, 0, 1, 2, 9, 2**32 - 1]), self.r.choice([0, 1, 2, 3, 2**32 - 1])]
        text = self.r.choice([b"12345", b"0.5e1x", self.noise(9)])
        return "json8_write %s %s %s %d" % (shown_table(table), shown(text), shown(self.noise(6)), self.r.choice([0, 5, 400]))

    def show(self):
        table = [self.r.choice([0, 5, 6, 5, 6, 7, 1, 2, 3]) for _ in range(self.r.randrange(14))]
        node = self.r.choice([0, 1, 2, 3, self.top // 4 + 1, self.top // 2 + 1, self.top])
        return "json8_show %s %s %s %d" % (shown_table(table), shown(self.noise(9)), shown(self.noise(9)), node)

    def cell(self):
        return self.r.choice([b"1", b"0.5", b"true", b"x", b" a b ", b"", b"-0", b"Int", b"Str", self.quoted(), self.noise(4)])

    def sheet(self):
        """Mostly as many cells as names; lines of every sort."""
        columns = self.r.choice([1, 1, 2, 3, 3, 64, 65] if self.r.randrange(9) == 0 else [1, 2, 3])
        lines = [b"!tsv8" + b"".join(b"\t" + self.r.choice([b"a", b"'n'", self.quoted()]) for _ in range(columns))]
        if self.r.randrange(2):
            lines.append(b"!type" + b"".join(b"\t" + self.r.choice([b"Bool", b"Int", b"Float", b"Str", b"Str"]) for _ in range(columns)))
        for _ in range(self.r.randrange(5)):
            first = self.r.choice([b"", b"", b"", b"", b"", b"!x", b"!type", b"x"])
            count = self.r.randrange(4) if self.r.randrange(9) == 0 else columns
            lines.append(first + b"".join(b"\t" + self.cell() for _ in range(count)))
        if self.r.randrange(4) == 0:
            lines.insert(self.r.randrange(len(lines) + 1), self.r.choice([b"", b" ", b" \r", b"\t"]))
        text = self.r.choice([b"\n", b"\n", b"\r\n"]).join(lines)
        rooms = self.r.choice([0, 2, 3, 8, 200]), self.r.choice([0, 1, 3, 70]), self.r.choice([0, 5, 9, 700]), self.r.choice([0, 3, 3000])
        if self.r.randrange(2):
            rooms = 200, 70, 3000, 3000
        return "tsv8_read %s %d %d %d %d" % ((shown(text),) + rooms)

    def sentence(self):
        return "sentence %d %d" % (self.r.randrange(30), self.r.randrange(130))


def main(words):
    if words in (["vectors"], ["expected"]):
        at = words == ["expected"]
        listed = [pair[at] for pair in vectors()]
        print("\n".join(listed + ["%d calls" % len(listed)] * at))
    elif len(words) == 3 and words[0] == "held":
        held(words[1], words[2])
    elif len(words) == 3 and words[0] in ("random", "wide"):
        chance = Chance(int(words[1]), 2**64 - 1 if words[0] == "wide" else 2**32 - 1)
        if words[0] == "wide":
            chance.makers = [chance.state, chance.show]
        for _ in range(int(words[2])):
            print(chance.r.choice(chance.makers)())
    else:
        sys.exit(__doc__)


main(sys.argv[1:])
