#!/usr/bin/env python3
"""Looks whether each call and clause that docs/PROMISES.md names stands in the code. Prints what it doesn't find."""

import glob
import re
import sys

ENTRY = re.compile(r"`([a-z_]+(?:::[A-Za-z0-9_]+)+)`(?: \(([^)]*)\))?")


def entries(text):
    """The calls of the second column, each with its clauses."""
    for line in text.split("\n"):
        cells = line.strip().strip("|").split(" | ")
        if line.startswith("| ") and len(cells) == 2:
            for found in ENTRY.finditer(cells[1]):
                yield found[1], re.findall(r"`([a-z_]+)`", found[2] or "")


def functions(crate):
    """The text of each function of a crate up to its body, with its name."""
    for file in glob.glob(f"crates/{crate}/src/**/*.rt", recursive=True):
        with open(file, encoding="utf-8") as it:
            text = it.read()
        heads = [found.start() for found in re.finditer(r"\bfn [a-z0-9_]+", text)]
        for start, end in zip(heads, heads[1:] + [len(text)]):
            yield re.match(r"fn ([a-z0-9_]+)", text[start:])[1], text[start:end]


def main():
    with open("docs/PROMISES.md", encoding="utf-8") as it:
        claims = list(entries(it.read()))
    missing = 0
    for path, clauses in claims:
        crate, *_, name = path.split("::")
        if name[0].isupper():
            heads = [head for _, head in functions(crate)]
            found = any(name in open(file, encoding="utf-8").read() for file in glob.glob(f"crates/{crate}/src/**/*.rt", recursive=True))
        else:
            heads = [head for called, head in functions(crate) if called == name]
            found = bool(heads)
        if not found:
            print(f"docs/PROMISES.md names {path}, which is nowhere in crates/{crate}/src")
            missing += 1
            continue
        for clause in clauses:
            if not any(re.search(rf"ensures\*? {clause} ", head) for head in heads):
                print(f"docs/PROMISES.md names the clause {clause} of {path}, which has none of that name")
                missing += 1
    sys.exit(0 if claims and not missing else 1)


main()
