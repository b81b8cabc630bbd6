#!/usr/bin/env python3
"""Writes the picture of the crates into docs/START.md, by crates.txt: each crate with those that it stands on, less those
that one of these stands on already.

    tools/layers.py            writes it
    tools/layers.py --check    says whether it stands there as it would be written
"""
import os
import re
import sys

TOP = os.path.join(os.path.dirname(os.path.abspath(__file__)), "..")
PAGE = os.path.join(TOP, "docs", "START.md")
BEGIN, END = "<!-- written by tools/layers.py -->", "<!-- end of what tools/layers.py writes -->"


def sections():
    """The crates of the repository with what they name, under the headings of crates.txt."""
    found = [("", [])]
    with open(os.path.join(TOP, "crates.txt"), encoding="utf-8") as it:
        for line in it:
            if line.startswith("#"):
                found.append((line[1:].strip(), []))
            elif match := re.match(r"(\w+)(?: \S+=\S+)*:(.*)", line):
                found[-1][1].append((match[1], match[2].split()))
    return found


def below(name, uses, known):
    """All that a crate stands on, itself included."""
    if name not in known:
        known[name] = {name}.union(*(below(it, uses, known) for it in uses[name]))
    return known[name]


def picture():
    rows = [row for _, part in sections() for row in part]
    names = {name for name, _ in rows}
    uses = {name: [it for it in words if it in names] for name, words in rows}
    known, out = {}, []
    for heading, part in sections():
        for name, _ in part:
            direct = [it for it in uses[name] if not any(it in below(other, uses, known) for other in uses[name] if other != it)]
            out.append(f"    {heading:37} {name} {'── ' + ', '.join(direct) if direct else ''}".rstrip())
            heading = ""
    return "\n".join(out)


def main():
    with open(PAGE, encoding="utf-8") as it:
        text = it.read()
    front, _, rest = text.partition(BEGIN)
    new = f"{front}{BEGIN}\n\n{picture()}\n\n{END}{rest.partition(END)[2]}"
    if sys.argv[1:] == ["--check"]:
        if new != text:
            print("docs/START.md: the picture of the crates isn't that of crates.txt (tools/layers.py)")
        return int(new != text)
    with open(PAGE, "w", encoding="utf-8") as it:
        it.write(new)
    return 0


if __name__ == "__main__":
    sys.exit(main())
