#!/usr/bin/env python3
"""Runs two processes on one folder of a store, of which the first is killed, and looks which system calls they make;
and the program itself with a standard output that would block.

    .ci/processes.py [LOGSTASH [IO_TESTS]]

The calls on stores are made by the program io_tests; rt ci builds both, and others may be named. Prints what isn't as it should be.
Where strace is missing, only the answers are looked at."""

import json
import os
import re
import shutil
import subprocess
import sys
import tempfile
import time

LOGSTASH = os.path.abspath(sys.argv[1] if len(sys.argv) > 1 else "crates/logstash_cli/out/logstash_cli")
PROGRAM = os.path.abspath(sys.argv[2] if len(sys.argv) > 2 else "crates/io_tests/out/io_tests")
STRACE = shutil.which("strace")
CALL = re.compile(r"^(?:\d+ +)?(fsync|openat|open|unlink)\((.*)\) += (-?\d+)")

failed = []


def expect(what, found, wanted):
    if found != wanted:
        failed.append(what)
        print(f"processes: {what}: {found}, and not {wanted}")


class Process:
    """A run of io_tests that is asked line by line."""

    def __init__(self, folder, trace=None):
        words = [PROGRAM, folder]
        if trace and STRACE:
            words = [STRACE, "-f", "-y", "-s", "4096", "-e", "trace=fsync,fdatasync,openat,open", "-o", trace, *words]
        self.run = subprocess.Popen(words, stdin=subprocess.PIPE, stdout=subprocess.PIPE, text=True, cwd=os.path.dirname(folder))

    def ask(self, line):
        self.run.stdin.write(line + "\n")
        self.run.stdin.flush()
        return self.run.stdout.readline().rstrip("\n").rpartition(": ")[2]

    def kill(self):
        self.run.kill()
        self.run.wait()

    def end(self):
        self.run.stdin.close()
        self.run.wait()


def calls(trace, name):
    """The arguments of the system calls of this name that worked."""
    with open(trace, encoding="utf-8") as it:
        found = [CALL.match(line) for line in it]
    return [call[2] for call in found if call and call[1] == name and int(call[3]) >= 0]


def synced(trace):
    """The paths that were synced, in their order."""
    return [re.search(r"<(.*?)(?:\(deleted\))?>", call)[1] for call in calls(trace, "fsync")]


def killed(top):
    """A process appends and is killed; the next one syncs what it relies on, and opens nothing but the lock for writing."""
    data, trace = f"{top}/data", f"{top}/second"
    first = Process(data)
    expect("an append", first.ask("a append ~/main/page.0 abc"), "done")
    other = Process(data)
    expect("a read beside it", other.ask("a read ~/main/page.0 0 8"), "abc")
    expect("a change beside it", other.ask("a append ~/main/page.0 d"), "failed")
    expect("an opening beside it", other.ask("a list ~/main"), "failed")
    other.kill()
    first.kill()
    second = Process(data, trace)
    expect("a first sync", second.ask("a sync"), "done")
    expect("the names, under the lock", second.ask("a list ~/main"), "page.0 in all")
    expect("what was appended", second.ask("a read ~/main/page.0 0 8"), "abc")
    expect("a later sync", second.ask("a sync"), "done")
    second.end()
    if STRACE:
        expect("what is synced before it is relied on", synced(trace), [f"{data}/main", f"{data}/main/page.0"])
        opened = [call for call in calls(trace, "openat") if data in call and re.search("O_WRONLY|O_RDWR|O_CREAT", call)]
        for_writing = [call for call in opened if f'"{data}/main.lock"' not in call]
        expect("what is opened for writing", for_writing, [])
    third = Process(data)
    expect("an append once the lock is free", third.ask("a append ~/main/page.0 d"), "done")
    expect("all that was appended", third.ask("machine show ~/main/page.0"), "abcd")
    third.kill()


def made(top):
    """A sync of a file whose folders were made syncs the file and then each folder in which a name is new."""
    data, trace = f"{top}/made", f"{top}/folders"
    os.mkdir(data)
    process = Process(data, trace)
    expect("an append", process.ask("a append ~/one/two/x abc"), "done")
    before = synced(trace) if STRACE else []
    expect("a sync", process.ask("a sync"), "done")
    expect("an overwrite", process.ask("a write ~/one/two/x 1 B"), "done")
    expect("a sync", process.ask("a sync"), "done")
    process.kill()
    if STRACE:
        after = synced(trace)[len(before):]
        expect("what is synced", after, [f"{data}/one/two/x", data, f"{data}/one", f"{data}/one/two", f"{data}/one/two/x"])


def bare(top):
    """The folder of a name without a slash is the one where the program runs."""
    data, trace = f"{top}/bare/data", f"{top}/bare_calls"
    os.makedirs(data)
    process = Process(data, trace)
    expect("an append", process.ask("a append page.0 abc"), "done")
    expect("a sync", process.ask("a sync"), "done")
    process.kill()
    if STRACE:
        here = f"{top}/bare"
        expect("what is synced", synced(trace), [here, f"{here}/page.0", here])


def full(top):
    """Writes into a full pipe that doesn't block are waited for, and nothing is lost or written twice. One worker keeps the order of the lines."""
    lines = [f"{number:060}" for number in range(20_000)]
    given = f"{top}/lines"
    with open(given, "w", encoding="utf-8") as it:
        it.writelines(line + "\n" for line in lines)
    reads, writes = os.pipe()
    os.set_blocking(writes, False)
    trace = f"{top}/writes"
    words = [LOGSTASH, "-e", "input { stdin {} } output { stdout {} }", "-w", "1", "--path.data", f"{top}/full"]
    if STRACE:
        words = [STRACE, "-f", "-e", "trace=write,writev", "-o", trace, *words]
    with open(given, "rb") as it:
        run = subprocess.Popen(words, stdin=it, stdout=writes)
    os.close(writes)
    time.sleep(1)
    expect("a program whose output is full", run.poll(), None)
    with os.fdopen(reads, "rb") as it:
        rows = it.read().splitlines()
    expect("its status once it is read", run.wait(), 0)
    expect("the lines that were written", [json.loads(row)["message"] for row in rows] == lines, True)
    if STRACE:
        with open(trace, encoding="utf-8") as it:
            expect("a write that would block", any("EAGAIN" in call for call in it), True)


def main():
    for program in (PROGRAM, LOGSTASH):
        if not os.path.isfile(program):
            print(f"processes: {program} isn't built")
            return 1
    if not STRACE:
        print("processes: strace is missing, so system calls are not looked at")
    with tempfile.TemporaryDirectory() as top:
        for case in (killed, made, bare, full):
            case(os.path.realpath(top))
    return 1 if failed else 0


sys.exit(main())
