#!/usr/bin/env python3
"""Lends proved libraries to a clone, so that `rt check` there doesn't prove them again.

    tools/lend.py FROM [CLONE]     of FROM's crates those whose files are the same in CLONE (this checkout, if none is named)

FROM is another checkout, or the copy on which a run of `rt ci` works (`/tmp/rt-copy-*/repo`, while it runs), whose log says which crates
are proved so far. A crate is lent only with all below it, and from one FROM alone: libraries fit those over which they were built.
"""
import os
import re
import shutil
import subprocess
import sys

KIT = os.path.dirname(subprocess.run(["rt", "doc"], capture_output=True, text=True, check=True).stdout.strip())
sys.path.insert(0, os.path.join(KIT, "bin"))
import rtlib  # the kit's own, by which rt knows what a library was made from

TOP = os.path.abspath(os.path.join(os.path.dirname(os.path.abspath(__file__)), ".."))


def listed(top):
    """The crates that stand in a checkout's crates.txt."""
    with open(os.path.join(top, "crates.txt"), encoding="utf-8") as it:
        return re.findall(r"^(\w+)(?: \S+=\S+)*:", it.read(), re.M)


def crate_in(top, name):
    os.chdir(os.path.join(top, "crates", name))
    return rtlib.Crate(os.getcwd(), top, {}, ())


def lend(name, giver, taker):
    """Whether the library of a crate stands in the clone then."""
    rlib = os.path.join(giver, "crates", name, "out", "rlib", name + ".rlib")
    if not os.path.isdir(rlib):
        return False
    stamp = crate_in(taker, name).stamp()
    if crate_in(giver, name).stamp() != stamp:
        return False
    folder = os.path.join(taker, "crates", name, "out", "rlib")
    shutil.rmtree(folder, ignore_errors=True)
    os.makedirs(folder)
    shutil.copytree(rlib, os.path.join(folder, name + ".rlib"), copy_function=os.link if same_disk(rlib, folder) else shutil.copy2)
    with open(os.path.join(folder, "stamp"), "w", encoding="utf-8") as it:
        it.write(stamp)
    return True


def same_disk(one, other):
    return os.stat(one).st_dev == os.stat(other).st_dev


def main():
    giver, taker = os.path.abspath(sys.argv[1]), os.path.abspath(sys.argv[2]) if len(sys.argv) > 2 else TOP
    names = sorted(set(listed(taker)) & set(listed(giver)))
    lent = [name for name in names if lend(name, giver, taker)]
    print(len(lent), "lent:", " ".join(lent))


if __name__ == "__main__":
    main()
