#!/usr/bin/env python3
"""Spells this repository's own definitions and lemmas as today's Rattle does: in snake case, types and facts apart.

usage: python3 tools/respell.py        at the top, once, right after port.py

It turns the names that specs/ and the lemma files of proofs/ declare, wherever they are cited: in clauses, definitions, proofs,
must-fail edits, and between backticks in README.md and docs/ (not docs/changes/, which tells of what was). A name of the
library, a function's name and a string stay. Where a lemma would get the name of a definition, it gets the ending `_lem`.
"""

import os
import re

TOKEN = re.compile(r"[^\s(){}\[\].;,:λ`\"«»⌜⌝]+")
PLAIN = re.compile(r"[a-z][A-Za-z0-9_'-]*$")
HUMP = re.compile(r"[a-z0-9][A-Z]")
USE = re.compile(r"\s*(?:ghost )?use ([^\s{;]+?)(?:\.\{(.*)\})?;?\s*$")
# names that port.py has turned into what a definition is called now, and where
FIRST = [
    ("crates/theorems/", "holds_at", "holds_at_lem"),
    ("crates/", "word_fits", "word_fits_lem"),
    ("crates/allocator/proofs/Promise.antt", "room_in", "room_in_lem"),
    ("crates/mir/proofs/", "branch_if", "branch_if_case"),
    ("crates/passes/proofs/Lists.antt", "thirty_two", "thirty_two_case"),
]


def files(*endings):
    for folder, dirs, names in os.walk("crates"):
        dirs[:] = sorted(d for d in dirs if d != "out")
        for n in sorted(names):
            if n.endswith(endings):
                yield os.path.join(folder, n)


def read(path):
    with open(path, encoding="utf-8") as f:
        return f.read()


def of_a_function(path):
    """A file of one function's proof, as proofs/F/Proof.antt: its names are mostly Rattle's."""
    parts = path.split(os.sep)
    return parts[2] == "proofs" and os.path.basename(path) == "Proof.antt"


def library(own):
    """Names that come from outside: they are spelled already."""
    names = set()
    for p in files(".antt", ".rt"):
        for line in read(p).splitlines():
            m = USE.match(line)
            if not m:
                continue
            path = m.group(1).split(".")
            if not (path[0] == "Rattle" and len(path) > 1 and path[1] in own):
                names |= {x.strip() for x in (m.group(2) or "").split(",") if x.strip()}
    return names


def tokens(line):
    return TOKEN.findall(re.sub(r"--.*", "", line))


def snake(name):
    name = re.sub(r"(?<=[a-z0-9])[A-Z]", lambda m: "_" + m.group(0).lower(), name)
    return name.replace("-", "_")


def names():
    own = {l.split(":")[0].split()[0] for l in read("crates.txt").splitlines() if l.strip() and not l.startswith("#")}
    outside = library(own)
    humps, dashes, taken = set(), set(), set()
    for p in files(".antt"):
        for line in read(p).splitlines():
            if USE.match(line):
                continue
            for t in tokens(line):
                if not PLAIN.match(t) or t in outside:
                    continue
                if HUMP.search(t):
                    humps.add(t)
                elif not of_a_function(p):
                    (dashes if "-" in t else taken).add(t)
    turned = {t: snake(t) for t in humps}
    taken |= set(turned.values())
    for t in sorted(dashes):
        turned[t] = snake(t) + ("_lem" if snake(t) in taken else "")
    return turned


def turn(text, turned):
    return TOKEN.sub(lambda m: turned.get(m.group(0), m.group(0)), text)


def main():
    for start, old, new in FIRST:
        for p in files(".antt"):
            if p.startswith(start):
                text = turn(read(p), {old: new})
                if text != read(p):
                    with open(p, "w", encoding="utf-8") as f:
                        f.write(text)
    turned = names()
    for p in files(".antt", ".rt"):
        old = read(p)
        new = turn(old, turned)
        if new != old:
            with open(p, "w", encoding="utf-8") as f:
                f.write(new)
    for p in files(".edit"):
        old = read(p)
        lines = [turn(l, turned) if l.startswith(("old:", "new:")) else l for l in old.split("\n")]
        if "\n".join(lines) != old:
            with open(p, "w", encoding="utf-8") as f:
                f.write("\n".join(lines))
    papers = ["README.md"] + [os.path.join("docs", n) for n in sorted(os.listdir("docs")) if n.endswith(".md")]
    for p in papers:
        old = read(p)
        new = re.sub(r"`[^`\n]+`", lambda m: turn(m.group(0), turned), old)
        if new != old:
            with open(p, "w", encoding="utf-8") as f:
                f.write(new)
    print(f"{len(turned)} names")


if __name__ == "__main__":
    main()
