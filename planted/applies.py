#!/usr/bin/env python3
"""Looks whether each wrong body, in planted/ and in must-fail/, still applies: each text that it takes away stands once in its file.
It proves nothing; `planted/run` sees that the prover refuses them."""
import glob
import os
import sys

TOP = os.path.join(os.path.dirname(os.path.abspath(__file__)), "..")


def faults(edit, crate):
    """What is wrong with an edit of a crate, if anything is."""
    path, texts, old = None, {}, None
    with open(edit, encoding="utf-8") as it:
        lines = it.read().split("\n")
    for line in lines:
        if line.startswith("file: "):
            path = os.path.join(TOP, "crates", crate, line[6:])
            if not os.path.exists(path):
                yield f"there is no {line[6:]}"
                return
        elif line.startswith("old: "):
            old = line[5:]
        elif line.startswith("new: ") and path and old is not None:
            if path not in texts:
                with open(path, encoding="utf-8") as it:
                    texts[path] = it.read()
            if texts[path].count(old) != 1:
                yield f"stands {texts[path].count(old)} times: {old}"
            texts[path] = texts[path].replace(old, line[5:])
            old = None


def main():
    count = wrong = 0
    for pattern, place in (("planted/*/*.edit", -2), ("crates/*/must-fail/*.edit", -3)):
        for edit in sorted(glob.glob(os.path.join(TOP, pattern))):
            count += 1
            for fault in faults(edit, edit.split(os.sep)[place]):
                wrong += 1
                print(f"{os.path.relpath(edit, TOP)}: {fault}")
    return 1 if wrong or not count else 0


if __name__ == "__main__":
    sys.exit(main())
