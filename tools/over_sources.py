#!/usr/bin/env python3
"""Checks functions of a crate with the repository's libraries as sources, before any of them is proved.

    tools/over_sources.py CRATE --only MODULE::FUNCTION [--only ..] [rattle's flags]

Only the named functions, what they call and the modules that these need are checked. It takes a minute or two where `rt check`
would first prove all that stands below; past some 4 GB, as where a function leads to all filters, it stops being worth it. It
keeps its work in /tmp, and says nothing for the gate.
"""
import os
import subprocess
import sys

KIT = os.path.dirname(subprocess.run(["rt", "doc"], capture_output=True, text=True, check=True).stdout.strip())
sys.path.insert(0, os.path.join(KIT, "bin"))
import rtlib  # the kit's own, by which rt calls rattle

TOP = os.path.abspath(os.path.join(os.path.dirname(os.path.abspath(__file__)), ".."))


def main():
    name, flags = sys.argv[1], sys.argv[2:]
    folder = os.path.join(TOP, "crates", name)
    os.chdir(folder)
    crate = rtlib.Crate(folder, TOP, {}, ())
    crate.out = sys.stderr
    kept = os.path.join("/tmp", f"over_sources-{os.getuid()}", name)
    os.makedirs(kept, exist_ok=True)
    words = crate.words(["--jobs", "1", *flags], as_source=True)
    return subprocess.run([rtlib.RATTLE, "check", *words, "--incremental", kept], cwd=folder, check=False).returncode


if __name__ == "__main__":
    sys.exit(main())
