#!/usr/bin/env python3
"""Respells this repository's own definitions and lemmas as today's Rattle spells names.

usage: tools/respell.py [--report]      at the top of a repository that port.py has turned; --report writes nothing

Types, facts and theorems are in upper camel case; definitions, lemmas and fields in snake case. Names of src/ keep their spelling.
Contracts, definitions, proofs and must-fail edits are turned, and the names that the pages cite.
"""

import collections
import os
import re
import sys

# A name's characters, in antt and in clauses; the path of a module is left as it is, and in a function's proof a step of its code.
TOKEN = re.compile(r"(?<![\w'-])[^\W\d][\w'-]*")
PART = re.compile(r"Rattle(?:\.[\w+'-]+)*|(?<![\w'-])[^\W\d][\w'-]*")
STEP = re.compile(r"Rattle(?:\.[\w+'-]+)*|(?<![\w'.-])c(?:\.before)*\.[\w'-]+|(?<![\w'-])[^\W\d][\w'-]*")
HEAD = re.compile(r"^(?:(?:abbrev|unfoldable)\s+)*(?:pub\s+)?(?:(?:data|record|ruleset)\s+)?(?P<name>[^\s:(){},=.]+)\s*(?::|\(|\{|=|where|$)")
INNER = re.compile(r"^ {2,}(?:pub )?(?P<name>[^\s:(){},=.]+)\s+:(?:\s|$)")

# Definitions that port.py respelled in the crates; edits and pages still have these names.
PORTED = """
allBelow answerOf atPlace boolKind byByte bytesAt bytesOf callsOf cellAt cellsIn cellsOf charAt classOf dataOf groupOf heldOf highOf isFloat
isNumber isPlain isRefused isRow kindAt kindOf labelAt lastAt lenOf lineAt lineOf linesFrom linesOf lowHalf lowOf nodeOf numberAt numberOf
onWord oneOf orElse partsOf placeOf planOf positionOf putAt readAll readOf roomFor roomsOf rowsOf runC runOf shapeOf sizeAt sizeOf startOf
stateOf storeOf storesOf textOf treeOf turnOf typeOf typesIn typesOf unitAt unitOf valueOf wordOf
""".split()


def antt(root):
    for folder, dirs, files in os.walk(os.path.join(root, "crates")):
        dirs[:] = sorted(d for d in dirs if d != "out")
        for f in sorted(files):
            if f.endswith(".antt"):
                yield os.path.join(folder, f)


def others(root, ends):
    for folder, dirs, files in os.walk(os.path.join(root, "crates")):
        dirs[:] = sorted(d for d in dirs if d != "out")
        for f in sorted(files):
            if f.endswith(ends):
                yield os.path.join(folder, f)


def read(path):
    with open(path, encoding="utf-8") as f:
        return f.read()


def declared(root):
    """The names that files of specs/ and lemma files declare, with the files; a function's own proof isn't among them."""
    names = collections.defaultdict(set)
    for p in antt(root):
        if p.endswith("/Proof.antt"):
            continue
        for line in read(p).splitlines():
            if line.startswith(("use ", "pub use", "--", "pub mod", "mod ")):
                continue
            m = HEAD.match(line)
            if m and re.search(r"\s:(\s|$)|\bruleset\b|\bwhere\b", line):
                names[m.group("name")].add(p)
                continue
            m = INNER.match(line)
            if m:
                names[m.group("name")].add(p)
    return {n: ps for n, ps in names.items() if re.match(r"^[A-Za-z][\w'-]*$", n)}


def snake(name):
    parts = name.split("-")
    out = []
    for part in parts:
        part = re.sub(r"([a-z0-9])([A-Z])", r"\1_\2", part)
        out.append(part.lower())
    return "_".join(out)


def camel(name):
    name = "".join(p[:1].upper() + p[1:] for p in name.split("-"))
    return re.sub(r"([A-Z])([A-Z]+)(?=[A-Z][a-z]|$)", lambda m: m.group(1) + m.group(2).lower(), name) if re.search(r"[a-z]", name) else name


def spelling(name):
    if name[0].isupper():
        if "-" in name or re.search(r"[a-z][A-Z]{2,}$", name):
            return camel(name)
        return name
    if "-" in name or re.search(r"[a-z0-9][A-Z]", name):
        return snake(name).replace("get_d_", "get_or_")
    return name


def table(root):
    """The declared names, and what each is turned to. Where two fall together, the one of specs/ has the name, and a lemma's ends with _lem."""
    names = declared(root)
    spelled = {n: spelling(n) for n in names}
    together = collections.defaultdict(list)
    for n in names:
        together[spelled[n]].append(n)
    for new, olds in together.items():
        if len(olds) > 1:
            olds.sort(key=lambda n: (not any("/specs/" in p for p in names[n]), "-" in n, n))
            for n in olds[1:]:
                spelled[n] = new + "_lem"
    return names, {n: t for n, t in spelled.items() if t != n}


def swap(text, turned, parts=PART):
    def part(m):
        word = m.group(0)
        return word if word.startswith(("Rattle", "c.")) else turned.get(word, word)

    return parts.sub(part, text)


GHOST = re.compile(r"^\s*ghost\b")
CLAUSE = re.compile(r"^\s*(ghost|requires|ensures)\b")


def clauses(text, turned):
    """Turns the ghost lines and the clauses of a source file, and nothing else."""
    out = []
    depth = 0
    inside = False
    for line in text.splitlines(keepends=True):
        if not inside and CLAUSE.match(line) or re.match(r"^\s*#\[tactic", line):
            inside = True
            depth = 0
        if inside:
            out.append(swap(line, turned))
            depth += line.count("{") - line.count("}")
            if depth <= 0:
                inside = False
        else:
            out.append(line)
    return "".join(out)


def report(root, names, turned):
    by = collections.defaultdict(list)
    for n in names:
        by[turned.get(n, n)].append(n)
    for new, olds in sorted(by.items()):
        if len(olds) > 1:
            print("together", new, {o: [os.path.relpath(p, root + "/crates") for p in sorted(names[o])] for o in olds})
    for p in antt(root):
        tokens = set(TOKEN.findall(read(p)))
        for n in sorted(tokens & set(turned)):
            if turned[n] in tokens:
                print("beside", os.path.relpath(p, root + "/crates"), n, turned[n])
    rt = collections.defaultdict(set)
    for p in others(root, ".rt"):
        text = read(p)
        code = "\n".join(l for l in text.splitlines() if not CLAUSE.match(l) and not l.lstrip().startswith("//"))
        cited = set(TOKEN.findall("\n".join(l for l in text.splitlines() if CLAUSE.match(l))))
        for n in sorted(cited & set(turned)):
            if re.search(r"\b" + turned[n] + r"\s*:[^:]|\blet (mut )?" + turned[n] + r"\b|\." + turned[n] + r"\b(?!\()", code):
                print("source", os.path.relpath(p, root + "/crates"), n, turned[n])


def main(argv):
    root = os.getcwd()
    names, turned = table(root)
    if "--report" in argv:
        report(root, names, turned)
        return 0
    count = 0
    for p in antt(root):
        text = read(p)
        new = swap(text, turned, STEP if p.endswith("/Proof.antt") else PART)
        if new != text:
            open(p, "w", encoding="utf-8").write(new)
            count += 1
    for p in others(root, ".rt"):
        text = read(p)
        new = clauses(text, turned)
        if new != text:
            open(p, "w", encoding="utf-8").write(new)
            count += 1
    turned = turned | {n: snake(n) for n in PORTED}
    for p in others(root, ".edit"):
        text = read(p)
        head = re.search(r"^file: .*\.rt$", text, re.M)
        new = "".join(swap(l, turned) if not head or re.match(r"^(old|new):\s*(ghost|requires|ensures)\b", l) else l for l in text.splitlines(keepends=True))
        if new != text:
            open(p, "w", encoding="utf-8").write(new)
            count += 1
    loud = {n: t for n, t in turned.items() if n[0].isupper() and "-" in n}
    cased = {n: t for n, t in turned.items() if re.search(r"[A-Z]", n)}
    pages = ["README.md", "CHANGELOG.md"] + [os.path.relpath(os.path.join(d, f), root) for d, _, fs in os.walk(os.path.join(root, "docs")) for f in fs if f.endswith(".md")]
    for p in pages:
        text = read(os.path.join(root, p))
        new = re.sub(r"`[^`\n]+`", lambda m: swap(m.group(0), cased), swap(text, loud))
        if new != text:
            open(os.path.join(root, p), "w", encoding="utf-8").write(new)
            count += 1
    print(f"respell: {len(turned)} names in {count} files")
    return 0


if __name__ == "__main__":
    raise SystemExit(main(sys.argv[1:]))
