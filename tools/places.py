"""The places of src/ that docs/DESIGN-PASS.md counts, a row for each point; with a point's number as argument, each of its places.
Run it at the repository's top."""

import glob
import re
import sys
from collections import defaultdict

ITEM = re.compile(r"^\s*(?:pub(?:\(crate\))? )?(?:const |unsafe )?fn (\w+)")
CLAUSE = re.compile(r"^\s*(?:requires|ensures)(?: \w+)? \{ (.*) \}$")


def sources():
    for path in sorted(glob.glob("crates/*/src/**/*.rt", recursive=True)):
        with open(path, encoding="utf-8") as file:
            yield path[len("crates/") :], file.read().split("\n")


def lines(pattern, code=True):
    found = []
    for path, text in sources():
        for number, line in enumerate(text, 1):
            if code and line.lstrip().startswith("//"):
                continue
            if re.search(pattern, line):
                found.append("%s:%d: %s" % (path, number, line.strip()))
    return found


def enums():
    """Enums with a variant that refuses by a number, or of two variants of which one holds nothing or both hold what was read."""
    found = []
    for path, text in sources():
        joined = "\n".join(text)
        for match in re.finditer(r"^(?:pub(?:\(crate\))? )?enum (\w+) \{\n(.*?)^\}", joined, re.M | re.S):
            variants = [line.strip() for line in match[2].split("\n") if line.strip() and not line.strip().startswith("//")]
            refuses = any(re.match(r"\w+\((u32|u32, usize)\),", one) and re.match(r"(Refused|Refuse|Fault|Faulty|Bad|Failed|Ill|Stop)\b", one) for one in variants)
            bare = [one for one in variants if re.match(r"\w+,$", one)]
            held = [one for one in variants if "(" in one]
            option = len(variants) == 2 and len(held) >= 1 and (len(bare) == 1 or len(held) == 2)
            nowhere = any(re.match(r"(Nowhere|Unopened|Other|Malformed|Unnamed)\b", one) for one in variants)
            if refuses or option or nowhere:
                found.append("%s: enum %s { %s }" % (path, match[1], " ".join(variants)))
    return found


def nothing():
    """Functions that tell nothing by a number: their comment, or that of what they return, says which."""
    return lines(r"// .*(\b0 where|\b0 for|; 0 |, 0 |\b16 for|65536 where|0x110000 where|or 0\b|0 past|0 outside|0 says|[Ll]en is 0|0 bytes where)", code=False)


def flags():
    found = []
    for path, text in sources():
        for match in re.finditer(r"^(?:pub(?:\(crate\))? )?struct (\w+) \{\n(.*?)^\}", "\n".join(text), re.M | re.S):
            if re.search(r"^\s*(pub )?(failed|valid|plain|number|sized|mixed|error|refusal|fault|wrong): (bool|u32|i32|usize)", match[2], re.M):
                found.append("%s: struct %s" % (path, match[1]))
    return found


def facts():
    """Facts that stand in the clauses of three functions or more, each place of each."""
    seen = defaultdict(set)
    for path, text in sources():
        name = ""
        for number, line in enumerate(text, 1):
            item = ITEM.match(line)
            if item:
                name = path + ":" + item[1]
            clause = CLAUSE.match(line)
            if clause and line.lstrip().startswith("requires"):
                for fact in clause[1].split(" × "):
                    fact = fact.strip()
                    while fact.startswith("(") and fact.endswith(")") and fact.count("(") == fact.count(")"):
                        fact = fact[1:-1]
                    seen[fact].add(name)
    return sorted(("%4d  %s" % (len(names), fact) for fact, names in seen.items() if len(names) >= 3), reverse=True)


def together():
    """Parameters that travel together: pairs and more of the same names and types in ten functions or more."""
    seen = defaultdict(int)
    for path, text in sources():
        joined = re.sub(r"\n\s*", " ", "\n".join(text))
        for match in re.finditer(r"fn \w+(?:<[^>]*>)?\(([^)]*)\)", joined):
            held = tuple(one.strip() for one in match[1].rstrip(", ").split(", ") if ":" in one)
            for size in (2, 3, 4):
                for k in range(len(held) - size + 1):
                    seen[held[k : k + size]] += 1
    return sorted(("%4d  %s" % (count, ", ".join(held)) for held, count in seen.items() if count >= 10), reverse=True)


POINTS = {
    "1 enums of the shape of Option or Result": enums,
    "1 refusals by number": lambda: lines(r"refusals::[A-Z0-9_]{4,}"),
    "1 a number that says nothing": nothing,
    "1 a flag or number beside a value": flags,
    "1 kinds and types by number": lambda: lines(r"\b(kind|ty): (u8|u32|u64)\b|\[u8; COLUMN_MAX\]|-> u32$"),
    "3 loops by hand": lambda: lines(r"^\s*(while|loop)\b"),
    "3 loops by for": lambda: lines(r"^\s*for\b"),
    "4 conversions by hand": lambda: lines(r"fn (wide|narrow|index|widen|wider)\("),
    "4 equality and copies by hand": lambda: lines(r"fn (same|copy_\w+|put_two|put_three|put_few|few_at|is_equal|begins_with)\("),
    "5 facts in the requires of three functions or more": facts,
    "5 parameters of ten functions or more": together,
    "6 arrays with a count beside": lambda: lines(r"&(mut )?\[\w+; \w+\]"),
    "7 function tables": lambda: lines(r"\bdyn\b|\bfn\(|impl Fn"),
}


def main():
    for point, find in POINTS.items():
        found = find()
        if len(sys.argv) == 1:
            print("%5d  %s" % (len(found), point))
        elif point.startswith(sys.argv[1]):
            print("%s: %d" % (point, len(found)))
            print("\n".join("    " + one for one in found))


main()
