#!/usr/bin/env python3
"""Turns the definitions of this repository whose names are in camel case (tablesOf) to snake case (tables_of), as today's Rattle spells them.

usage: tools/respell.py        at the top of the repository, once, after port.py

It renames in specs/, proofs/, the clauses of src/, must-fail/*.edit and the pages. A name is one that stands in an .antt file, begins with a small
letter and has a capital after a small letter or a digit. Functions of src/, exported names, strings, inputs and outputs have no such name. It stops,
and writes nothing, where a new name is in use already.
"""

import glob
import re
import sys

NAME = re.compile(r"(?<![\w'′₀-₉-])[a-z][a-z0-9]*(?:[A-Z][a-z]+[0-9]*)+(?![\w'′₀-₉-])")
# Lemmas whose spelling is then that of the definition that they are about, with the modules that have them.
LEMMAS = {"in_order": "forms.specs.WritingLaws", "joined_by": "coverage.specs.JoiningLaws", "part_length": "book.specs.PartsLaws"}
WORD = re.compile(r"[^\W\d][\w'′₀-₉-]*")


def snake(name):
    parts = re.findall(r"[A-Z]?[a-z]+|\d+", name)
    return "_".join(p.lower() for p in parts)


def read(path):
    with open(path, encoding="utf-8") as f:
        return f.read()


def main():
    logic = sorted(glob.glob("crates/*/specs/**/*.antt", recursive=True) + glob.glob("crates/*/proofs/**/*.antt", recursive=True))
    code = sorted(glob.glob("crates/*/src/**/*.rt", recursive=True))
    edits = sorted(glob.glob("crates/*/must-fail/*.edit"))
    pages = sorted(glob.glob("docs/**/*.md", recursive=True) + glob.glob("*.md") + glob.glob("rust/**/*.md", recursive=True))
    texts = {p: read(p) for p in logic + code + edits + pages}
    for name, module in LEMMAS.items():
        own = "crates/" + module.replace(".", "/") + ".antt"
        for p in logic:
            if p == own or re.search(rf"use Rattle\.{module}\.\{{[^}}]*\b{name}\b", texts[p]):
                texts[p] = re.sub(rf"(?<![\w'.-]){name}(?![\w'-])", name + "_lem", texts[p])
    names = set()
    for p in logic:
        names |= set(NAME.findall(texts[p]))
    new = {n: snake(n) for n in names}
    bad = [n for n in new if sum(m == new[n] for m in new.values()) > 1]
    for p in logic:
        words = set(WORD.findall(re.sub(r"(?m)^\s*--.*$|Rattle\.\w+\.proofs\.[^{]*", "", texts[p])))
        bad += [f"{n} in {p}" for n in new if n in words and new[n] in words]
    for p in code:
        bad += [f"{n} in {p}" for n in set(NAME.findall(texts[p])) if n in new and re.search(rf"[(,\s]{new[n]}: ", texts[p])]
    if bad:
        print("\n".join(f"in use already: {b}" for b in sorted(set(bad))))
        return 1
    for p, t in texts.items():
        u = NAME.sub(lambda m: new.get(m[0], m[0]), t)
        if u != read(p):
            with open(p, "w", encoding="utf-8") as f:
                f.write(u)
    print(f"{len(new)} names")
    return 0


if __name__ == "__main__":
    sys.exit(main())
