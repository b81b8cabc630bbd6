#!/usr/bin/env python3
"""Lists the functions whose checks are dearest, by the code of the libraries that were built here.

What the prover states of borrows has some 40 KB for each place of a function's code, and 0.3 MB for each function,
whatever locals there are. So a check grows with the places. A `?` has ten and those of each drop of what lives
there, and a drop that isn't written out stands there part by part. A line has the places, how many calls are drops,
how many `?` there are, and the function. The last lines have the sums of each crate.

    tools/costs.py [CRATE..]     of these crates, or of all whose folder has out/rlib
"""
import collections
import glob
import json
import os
import re
import sys

PLACES = re.compile(r'"(?:Assign|Call|Switch|Return|Goto|Drop|Store|Loop)"')
DROPS = re.compile(r'"Call": \[\{"Fn": \["[^"]*::drop"')
QUESTIONS = re.compile(r'::branch"')


def costs(path):
    """Each function of a built library, with what its check goes by."""
    with open(path, encoding="utf-8") as it:
        functions = json.load(it)
    for name, function in functions:
        body = json.dumps(function["body"])
        yield *(len(them.findall(body)) for them in (PLACES, DROPS, QUESTIONS)), name


def main():
    crates = os.path.join(os.path.dirname(os.path.abspath(__file__)), "..", "crates")
    found, sums, counts = [], collections.Counter(), collections.Counter()
    for name in sys.argv[1:] or sorted(os.listdir(crates)):
        for path in glob.glob(f"{crates}/{name}/out/rlib/{name}.rlib/toolchain/mir.json"):
            rows = list(costs(path))
            found += rows
            sums[name] += sum(row[0] for row in rows)
            counts[name] += len(rows)
    for row in sorted(found, reverse=True)[:60]:
        print("%d places, %d drops, %d questions: %s" % row)
    for name, places in sums.most_common():
        print(f"{name}: {places} places in {counts[name]} functions")


if __name__ == "__main__":
    main()
