#!/usr/bin/env python3
"""Measures what each crate takes of the gate, and writes the table of docs/GATE.md.

    tools/minutes.py                  runs `rt ci`, whole, then writes the table
    tools/minutes.py NAME..           runs `rt ci NAME..`
    tools/minutes.py --table          runs nothing, and writes the table by what was measured before
    tools/minutes.py --watch SECONDS  runs nothing, and measures what other runs of `rt ci` do for so long

What a run measured of a crate (minutes of one processor: its proof, its tests, its must-fail edits) takes the place of what
docs/gate.tsv had of it. What an earlier run on this machine passed is kept beside the kit and takes nothing: its row stays.

One reference minute is the time that makes the proof of plain_data 1.2, on whatever machine: the table has all minutes of
gate.tsv divided by those of plain_data's proof and multiplied by 1.2. So plain_data belongs into each measure from nothing.

It looks at the processes that rattle is, three times a second, and takes of each what the system counted when it was
last seen.
"""
import collections
import glob
import os
import re
import subprocess
import sys
import time

TICKS = os.sysconf("SC_CLK_TCK")
KINDS = ("proof", "tests", "edits")
UNIT = ("plain_data", "proof", 1.2)
TOP = os.path.join(os.path.dirname(os.path.abspath(__file__)), "..")
DATA = os.path.join(TOP, "docs", "gate.tsv")
PAGE = os.path.join(TOP, "docs", "GATE.md")
BEGIN, END = "<!-- written by tools/minutes.py -->", "<!-- end of what tools/minutes.py writes -->"


def counted(pid):
    """The start of a process, and the seconds of a processor that it took so far."""
    with open(f"/proc/{pid}/stat", encoding="utf-8") as it:
        fields = it.read().rpartition(")")[2].split()
    return fields[19], (int(fields[11]) + int(fields[12])) / TICKS


def job_of(pid):
    """The crate that a process of rattle works for in a run of `rt ci`, and the kind of its work, or None."""
    with open(f"/proc/{pid}/cmdline", encoding="utf-8", errors="replace") as it:
        words = it.read().split("\0")
    folder = os.readlink(f"/proc/{pid}/cwd")
    if os.path.basename(words[0]) != "rattle" or "--crate-name" not in words or not is_run_folder(folder):
        return None
    crate = words[words.index("--crate-name") + 1]
    if "rt-edit" in folder:
        return crate, "edits"
    return crate, "tests" if "--test" in words or words[1] == "check" else "proof"


def is_run_folder(folder):
    """Whether `rt ci` works in a folder: one of this checkout, or a copy that it made."""
    return folder.startswith(os.path.realpath(TOP) + "/") or "/rt-copy" in folder or "/rt-edit" in folder


def look(seen):
    for pid in filter(str.isdigit, os.listdir("/proc")):
        try:
            start, seconds = counted(pid)
            found = seen.setdefault((pid, start), [None, seconds])
            # (a process that rt just made is not rattle yet)
            found[0] = found[0] or job_of(pid)
            found[1] = seconds
        except (OSError, ValueError, IndexError):
            pass


def sums(seen):
    minutes = collections.Counter()
    for job, seconds in seen.values():
        if job:
            minutes[job] += seconds / 60
    return minutes


def rows():
    """What was measured: for each crate, minutes of each kind."""
    found = {}
    if os.path.exists(DATA):
        with open(DATA, encoding="utf-8") as it:
            for line in it.read().split("\n")[1:]:
                if line:
                    crate, *minutes = line.split("\t")
                    found[crate] = dict(zip(KINDS, map(float, minutes)))
    return found


def save(minutes):
    found = rows()
    for crate in {crate for crate, _ in minutes}:
        found[crate] = {kind: minutes[crate, kind] for kind in KINDS}
    standing = set(os.listdir(os.path.join(TOP, "crates")))
    with open(DATA, "w", encoding="utf-8") as it:
        it.write("\t".join(("crate", *KINDS)) + "\n")
        for crate in sorted(found):
            if crate in standing:
                it.write("\t".join((crate, *(f"{found[crate][kind]:.2f}" for kind in KINDS))) + "\n")


def lines(crate, folder, ending):
    count = 0
    for file in glob.glob(os.path.join(TOP, "crates", crate, folder, "**", "*" + ending), recursive=True):
        with open(file, encoding="utf-8") as it:
            count += it.read().count("\n")
    return count


def order():
    """The crates in the order of crates.txt."""
    with open(os.path.join(TOP, "crates.txt"), encoding="utf-8") as it:
        return re.findall(r"^(\w+)(?: \S+=\S+)*:", it.read(), re.M)


def table():
    found = rows()
    unit = UNIT[2] / found[UNIT[0]][UNIT[1]] if UNIT[0] in found else 1.0
    head = ["Crate", "Code (lines)", "Definitions (lines)", "Proofs (lines)", "Proof (minutes)", "Tests (minutes)", "Edits (minutes)", "Edits"]
    out = ["| " + " | ".join(head) + " |", "|" + "---|" * len(head)]
    whole = [0] * 7
    for crate in order():
        counts = [lines(crate, "src", ".rt"), lines(crate, "specs", ".antt"), lines(crate, "proofs", ".antt")]
        minutes = [found.get(crate, {}).get(kind, 0.0) * unit for kind in KINDS]
        edits = len(glob.glob(os.path.join(TOP, "crates", crate, "must-fail", "*.edit")))
        whole = [a + b for a, b in zip(whole, counts + minutes + [edits])]
        cells = [str(n) if n else "-" for n in counts] + [f"{n:.1f}" if n >= 0.05 else "-" for n in minutes] + [str(edits) if edits else "-"]
        out.append(f"| `{crate}` | " + " | ".join(cells) + " |")
    cells = [str(n) for n in whole[:3]] + [f"{n:.1f}" for n in whole[3:6]] + [str(whole[6])]
    out.append("| all | " + " | ".join(cells) + " |")
    out.append("")
    out.append(f"{len(order())} crates, {sum(whole[3:6]):.0f} reference minutes of one processor in all.")
    return "\n".join(out)


def write_table():
    with open(PAGE, encoding="utf-8") as it:
        text = it.read()
    front, _, rest = text.partition(BEGIN)
    with open(PAGE, "w", encoding="utf-8") as it:
        it.write(f"{front}{BEGIN}\n\n{table()}\n\n{END}{rest.partition(END)[2]}")


def main():
    words, status, seen = sys.argv[1:], 0, {}
    if words[:1] != ["--table"]:
        run = None if words[:1] == ["--watch"] else subprocess.Popen(["rt", "ci", *words])
        end = time.monotonic() + (float(words[1]) if run is None else 1e9)
        while time.monotonic() < end if run is None else run.poll() is None:
            look(seen)
            time.sleep(0.3)
        status = run.returncode if run else 0
        save(sums(seen))
    write_table()
    return status


if __name__ == "__main__":
    sys.exit(main())
