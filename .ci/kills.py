#!/usr/bin/env python3
"""Runs pipelines that are killed at random moments and started again, and looks whether a line is lost, and what the program
says where something fails or a stream is closed.

    .ci/kills.py [--program P] [--kills N] [--seed N]

Of a watched file each line comes out, once or more often. Recorded positions never go back, and never go beyond their files. Of
connections each row that stood in the queue at a kill comes out, and what was taken of one connection is its beginning, without a gap.
The seed decides behind how long a run is killed, and nothing else. Prints what isn't as it should be, and what was repeated."""

import argparse
import contextlib
import glob
import http.server
import json
import os
import random
import re
import shutil
import signal
import socket
import struct
import subprocess
import sys
import tempfile
import threading
import time
import zlib

FIRST_LINES, MOST_LINES, SENT_LINES = 10_000, 640_000, 3_000
LIMIT = 120  # seconds for what ends by itself
GROK = 'filter { grok { match => { "message" => "%{IP:client} %{WORD:verb} %{URIPATH:path} took %{NUMBER:ms}" } } }'
EMPTY = "input { stdin {} }"
PRINTED = "output { stdout { codec => line } }"

failed = []


def expect(what, found, wanted):
    if found != wanted:
        failed.append(what)
        print(f"kills: {what}: {found}, and not {wanted}")


# ---- lines, and the rows that are made of them


def line_of(number):
    return f"10.0.{number // 250 % 250}.{number % 250} GET /page/{number} took {number % 1000}"


def number_of(line):
    return int(line.split(" ")[2].rpartition("/")[2])


def row_number(row):
    """The number of the line of which grok made this row; -1 where the row isn't what it makes of any."""
    try:
        event = json.loads(row)
        number = number_of(event["message"])
        made = {"client": line_of(number).split(" ")[0], "verb": "GET", "path": f"/page/{number}", "ms": str(number % 1000), "message": line_of(number)}
        return number if all(event[field] == value for field, value in made.items()) else -1
    except (ValueError, KeyError, IndexError, AttributeError):
        return -1


def numbers_in(path, ended):
    """The numbers of a file of rows. A last row without its end counts where the program came to its own end, and not behind a kill."""
    if not os.path.exists(path):
        return []
    with open(path, "rb") as it:
        *rows, rest = it.read().split(b"\n")
    return [row_number(row) for row in rows + ([rest] if rest and ended else [])]


# ---- runs


@contextlib.contextmanager
def running(words, **streams):
    """A run that is killed at the end, however that comes."""
    with subprocess.Popen(words, text=True, **streams) as run:
        try:
            yield run
        finally:
            run.kill()


def told(words, lines="", **streams):
    """Status, stdout and stderr of a run that ends by itself."""
    done = subprocess.run(words, input=lines, text=True, timeout=LIMIT, **{"stdout": subprocess.PIPE, "stderr": subprocess.PIPE, **streams})
    return done.returncode, done.stdout, done.stderr


def closed(streams, words):
    """The words of a run that is started with some of its streams closed."""
    return ["sh", "-c", f'exec "$@" {streams}', "sh", *words]


def until(holds, limit=30):
    """Waits until this holds; False where it never does."""
    end = time.monotonic() + limit
    while not holds():
        if time.monotonic() > end:
            return False
        time.sleep(0.005)
    return True


class Pipeline:
    """A pipeline of an input, and filters and outputs, with a data folder of its own in this folder."""

    def __init__(self, program, folder, source, rest, workers):
        self.program, self.folder, self.source, self.rest, self.workers = program, folder, source, rest, workers
        self.data = os.path.join(folder, "data")
        self.positions = {}

    def words(self, source=None):
        return [self.program, "-e", f"{source or self.source} {self.rest}", "--path.data", self.data, "-w", str(self.workers)]

    def run_killed(self, chance):
        """Kills a run: one in three behind its start, and the others behind its first rows; False where it ended by itself before."""
        with running(self.words(), stdin=subprocess.DEVNULL, stdout=subprocess.DEVNULL, stderr=subprocess.PIPE) as run:
            if chance.randrange(3) > 0:
                self.wait_for_rows(run)
            try:
                run.wait(chance.uniform(0.005, 0.2))
            except subprocess.TimeoutExpired:
                return True
            expect("a run that ends by itself", (run.returncode, run.stderr.read()), (0, ""))
            return False

    def wait_for_rows(self, run):
        """Waits until the pages of the queue change, or the run ends."""
        before = self.queue_bytes()
        until(lambda: self.queue_bytes() != before or run.poll() is not None, 10)

    def queue_bytes(self):
        bytes_ = 0
        for page in glob.glob(os.path.join(self.data, "main", "page.*")):
            with contextlib.suppress(FileNotFoundError):  # a page that is acknowledged goes away
                bytes_ += os.path.getsize(page)
        return bytes_

    def rows(self):
        """What the program says of the rows of the queue that aren't recorded as acknowledged."""
        return rows_of(self.program, self.data)

    def standing(self):
        """The numbers of the rows that stand in the queue, by a run on a copy of the folder that prints them."""
        copy = os.path.join(self.folder, "copy")
        shutil.copytree(self.data, copy)
        status, rows, fault = told([self.program, "-e", f"{EMPTY} {PRINTED}", "--path.data", copy])
        expect("a run that prints what stands in the queue", (status, fault), (0, ""))
        shutil.rmtree(copy)
        return [number_of(row) for row in rows.splitlines()]

    def look_at_positions(self, files):
        """No recorded position is lower than it was, or beyond the end of its file."""
        for kind, path in files.items():
            for record in glob.glob(os.path.join(self.data, "main", f"{kind}.*")):
                place = newest(record, 24, 10)
                expect(f"whether the position in {kind}.* stays or grows", place >= self.positions.get(kind, 0), True)
                expect(f"whether the position in {kind}.* is in its file", place <= (os.path.getsize(path) if os.path.exists(path) else 0), True)
                self.positions[kind] = place


def rows_of(program, data):
    _status, line, fault = told([program, "--pqcheck", "main", "--path.data", data])
    return (line or fault).rstrip("\n")


def newest(path, size, field):
    """The number of 8 bytes at this place of the newest intact slot in a file of two slots; 0 where none is intact."""
    with open(path, "rb") as it:
        held = it.read()
    best = (-1, 0)
    for slot in (held[:size], held[size : 2 * size]):
        if len(slot) == size and zlib.crc32(slot[:-4]) == struct.unpack(">I", slot[-4:])[0]:
            best = max(best, (struct.unpack_from(">Q", slot, 2)[0], struct.unpack_from(">Q", slot, field)[0]))
    return best[1]


# ---- kills


def watched_file(program, workers, kills, chance):
    """A file that is read to its end, through grok, to a file. Where a run comes to that end before it is killed, the file grows."""
    with tempfile.TemporaryDirectory() as folder:
        source, target, count = os.path.join(folder, "in.log"), os.path.join(folder, "out.json"), 0

        def grow(more):
            nonlocal count
            with open(source, "a", encoding="ascii") as it:
                it.writelines(line_of(number) + "\n" for number in range(count, count + more))
            count += more

        grow(FIRST_LINES)
        pipeline = Pipeline(program, folder, f'input {{ file {{ path => "{source}" mode => "read" }} }}', f'{GROK} output {{ file {{ path => "{target}" }} }}', workers)
        killed = 0
        for _ in range(3 * kills):
            if pipeline.run_killed(chance):
                killed += 1
            elif count < MOST_LINES:
                grow(count)
            pipeline.look_at_positions({"in": source, "out": target})
            if killed == kills:
                break
        expect(f"the last run, {workers} workers", told(pipeline.words())[::2], (0, ""))
        pipeline.look_at_positions({"in": source, "out": target})
        numbers = numbers_in(target, True)
        lost = set(range(count)) - set(numbers)
        expect(f"whether runs were killed, {workers} workers", killed > 0, True)
        expect(f"lines that are lost, {workers} workers", sorted(lost)[:5], [])
        expect(f"rows that aren't what grok makes of a line, {workers} workers", sorted(set(numbers) - set(range(count)))[:5], [])
        expect(f"rows that are left, {workers} workers", pipeline.rows(), "rows 0")
        expect(f"the position in the source at the end, {workers} workers", pipeline.positions["in"], os.path.getsize(source))
        expect(f"the position in the target at the end, {workers} workers", pipeline.positions["out"], os.path.getsize(target))
        print(f"kills: a file, {workers} workers: {killed} kills, {count} lines, lost {len(lost)}, repeated {len(numbers) - len(set(numbers))}")


@contextlib.contextmanager
def held_port():
    """A port of this machine that nobody else gets, since it is bound here, and that the program may still listen on."""
    with socket.socket() as it:
        it.setsockopt(socket.SOL_SOCKET, socket.SO_REUSEADDR, 1)
        it.bind(("127.0.0.1", 0))
        yield it.getsockname()[1]


def connected(port):
    """A connection to the port, once somebody listens there."""
    for _ in range(1500):
        try:
            return socket.create_connection(("127.0.0.1", port), timeout=10)
        except ConnectionRefusedError:
            time.sleep(0.02)
    return None


def connections(program, workers, kills, chance):
    """A connection for each run that is killed: each row that stands in the queue at a kill comes out."""
    with tempfile.TemporaryDirectory() as folder, held_port() as port:
        target = os.path.join(folder, "out.json")
        pipeline = Pipeline(program, folder, f'input {{ tcp {{ host => "127.0.0.1" port => {port} }} }}', f'{GROK} output {{ file {{ path => "{target}" }} }}', workers)
        stood, sent = set(), 0
        for _ in range(kills):
            part = range(sent, sent + SENT_LINES)
            sent += SENT_LINES
            with running(pipeline.words(), stdin=subprocess.DEVNULL, stdout=subprocess.DEVNULL, stderr=subprocess.DEVNULL) as run:
                link = connected(port)
                expect("whether somebody listens", link is not None, True)
                if link is None:
                    return  # nothing further can be said
                with link, contextlib.suppress(OSError):
                    link.sendall("".join(line_of(number) + "\n" for number in part).encode())
                pipeline.wait_for_rows(run)
                time.sleep(chance.uniform(0.005, 0.3))
            pipeline.look_at_positions({"out": target})
            delivered, standing = set(numbers_in(target, False)), set(pipeline.standing())
            stood |= standing
            expect(f"rows that stood in the queue, and neither stand there nor came out, {workers} workers", sorted(stood - standing - delivered)[:5], [])
            taken = sorted((standing | delivered) & set(part))
            expect(f"whether the beginning of a connection was taken, {workers} workers", taken == list(part)[: len(taken)], True)
        expect(f"the last run, {workers} workers", told(pipeline.words(EMPTY))[::2], (0, ""))
        numbers = numbers_in(target, True)
        expect(f"rows that stood in the queue and are lost, {workers} workers", sorted(stood - set(numbers))[:5], [])
        expect(f"rows that aren't what grok makes of a line, {workers} workers", sorted(set(numbers) - set(range(sent)))[:5], [])
        expect(f"rows that are left of connections, {workers} workers", pipeline.rows(), "rows 0")
        print(f"kills: connections, {workers} workers: {kills} kills, {len(set(numbers))} of {sent} lines were taken, {len(stood)} of them stood in the queue at a kill, {len(numbers) - len(set(numbers))} repeated")


# ---- faults


def statuses(program):
    """What the program says where something fails."""
    with tempfile.TemporaryDirectory() as folder:

        def run(name, config, **streams):
            return told([program, "-e", config, "--path.data", os.path.join(folder, name)], lines="a\n", **streams)[::2]

        expect("an output file on a full device", run("full", 'input { stdin {} } output { file { path => "/dev/full" } }'), (4, "logstash: pipeline main: store fault\n"))
        with open("/dev/full", "w", encoding="ascii") as full:
            expect("stdout on a full device", run("kept", "input { stdin {} } output { stdout {} }", stdout=full), (6, "logstash: output fault output_1\n"))
        # what stdout didn't take stands in the queue, and comes out in the next run
        kept = [program, "-e", f"{EMPTY} {PRINTED}", "--path.data", os.path.join(folder, "kept")]
        expect("the run behind a full stdout", told(kept), (0, "a\n", ""))
        loop = os.path.join(folder, "loop")
        os.symlink(loop, loop)
        unread = f'input {{ file {{ path => "{loop}" mode => "read" }} }} output {{ sink {{}} }}'
        expect("a file that can't be read", run("unread", unread), (5, "logstash: pipeline main: input fault input_1\n"))


class Busy(http.server.BaseHTTPRequestHandler):
    def do_POST(self):
        self.rfile.read(int(self.headers["Content-Length"]))
        self.send_response(503)
        self.send_header("Content-Length", "0")
        self.end_headers()

    def log_message(self, *_words):
        pass


@contextlib.contextmanager
def busy_server():
    """The port of a server that puts off each request."""
    with http.server.ThreadingHTTPServer(("127.0.0.1", 0), Busy) as it:
        thread = threading.Thread(target=it.serve_forever, args=(0.05,))
        thread.start()
        try:
            yield it.server_port
        finally:
            it.shutdown()
            thread.join()


def damaged(program):
    """A page that is cut by hand behind a mark: status 7, and what is intact comes out behind a repair. The rows wait for a server that
    puts them off; meanwhile the folder is locked."""
    with tempfile.TemporaryDirectory() as folder, busy_server() as port:
        data = os.path.join(folder, "data")
        page, head = os.path.join(data, "main", "page.0"), os.path.join(data, "main", "checkpoint.head")
        waits = f'input {{ stdin {{}} }} output {{ elasticsearch {{ hosts => ["127.0.0.1:{port}"] index => "lines" }} }}'
        words = [program, "-e", f"{EMPTY} {PRINTED}", "--path.data", data]

        def marked():
            """The mark of the queue is at the end of the page."""
            return os.path.exists(head) and os.path.exists(page) and os.path.getsize(page) > 1000 and newest(head, 48, 34) == os.path.getsize(page)

        with running([program, "-e", waits, "--path.data", data], stdin=subprocess.PIPE, stderr=subprocess.DEVNULL) as run:
            run.stdin.write("".join(f"line {number}\n" for number in range(50)))
            run.stdin.close()
            expect("whether rows are marked that wait for a server", until(marked), True)
            expect("a second program on the folder", told(words), (4, "", "logstash: pipeline main: store fault\n"))
            expect("a look at a queue that is held", told([program, "--pqcheck", "main", "--path.data", data])[0], 4)
        expect("rows that wait for a server", rows_of(program, data), "rows 50")
        if not os.path.exists(page):
            return
        with open(page, "r+b") as it:
            it.truncate(os.path.getsize(page) - 3)
        status, _rows, fault = told(words)
        expect("a page that is cut", (status, bool(re.fullmatch(r"logstash: pipeline main: damaged .*page\.\d+ at \d+: found \d+, expected \d+\n", fault))), (7, True))
        expect("the repair", told([program, "--pqrepair", "main", "--path.data", data])[:2], (0, "rows 49\n"))
        shutil.move(os.path.join(data, "main"), os.path.join(data, "main.damaged"))
        shutil.move(os.path.join(data, "main.repaired"), os.path.join(data, "main"))
        expect("the run behind the repair", told(words), (0, "".join(f"line {number}\n" for number in range(49)), ""))


# ---- streams


def streams(program):
    """Streams that are closed at the start, and a stdin that is silent: nothing is lost, and nothing is damaged."""
    with tempfile.TemporaryDirectory() as folder:
        made = "input { generator { count => 3 } }"
        source, target = os.path.join(folder, "in.log"), os.path.join(folder, "out.log")
        with open(source, "w", encoding="ascii") as it:
            it.write("a\nb\n")
        watched = f'file {{ path => "{source}" mode => "read" }}'
        filed = f'output {{ file {{ path => "{target}" codec => line }} }}'

        def run(name, streams, config, lines="a\n"):
            """A run, and what its queue has behind it."""
            words = [program, "-e", config, "--path.data", os.path.join(folder, name)]
            return (*told(closed(streams, words), lines), rows_of(program, os.path.join(folder, name)))

        def rest(name):
            """What comes out in the next run, with all streams open."""
            return told([program, "-e", f"{EMPTY} {PRINTED}", "--path.data", os.path.join(folder, name)])

        def written():
            if not os.path.exists(target):
                return ""
            with open(target, encoding="ascii") as it:
                return it.read()

        expect("a closed stdout", run("out", ">&-", f"{EMPTY} {PRINTED}"), (6, "", "logstash: output fault output_1\n", "rows 1"))
        expect("the run behind a closed stdout", rest("out"), (0, "a\n", ""))
        expect("a closed stdin", run("in", "<&-", f"{EMPTY} {PRINTED}"), (0, "", "", "rows 0"))
        expect("a closed stderr", run("err", "2>&-", f"{EMPTY} {PRINTED}"), (0, "a\n", "", "rows 0"))
        expect("a closed stderr, and a closed stdout", run("both", ">&- 2>&-", f"{EMPTY} {PRINTED}"), (6, "", "", "rows 1"))
        expect("the run behind both", rest("both"), (0, "a\n", ""))
        expect("all three closed", run("all", "<&- >&- 2>&-", f"{made} {PRINTED}"), (6, "", "", "rows 3"))
        expect("the run behind all three", rest("all"), (0, "Hello world!\n" * 3, ""))
        expect("all three closed, from a file to a file", run("files", "<&- >&- 2>&-", f"input {{ stdin {{}} {watched} }} {filed}"), (0, "", "", "rows 0"))
        expect("what stands in the file", written(), "a\nb\n")
        os.remove(target)
        with running([program, "-e", f"input {{ stdin {{}} {watched} }} {filed}", "--path.data", os.path.join(folder, "silent")], stdin=subprocess.PIPE) as silent:
            expect("whether a file is read beside a silent stdin", until(lambda: written() == "a\nb\n"), True)
            expect("a program whose stdin is open", silent.poll(), None)
            silent.stdin.close()
            with contextlib.suppress(subprocess.TimeoutExpired):
                silent.wait(30)
            expect("its status once stdin is closed", silent.returncode, 0)


def main():
    words = argparse.ArgumentParser()
    words.add_argument("--program", default="crates/logstash_cli/out/logstash_cli")
    words.add_argument("--kills", type=int, default=25)
    words.add_argument("--seed", type=int, default=random.randrange(1 << 32))
    given = words.parse_args()
    program = os.path.abspath(given.program)
    if not os.path.isfile(program):
        print(f"kills: {program} isn't built")
        sys.exit(1)
    signal.signal(signal.SIGTERM, lambda *_: sys.exit(1))  # so that nothing is left then either
    print(f"kills: seed {given.seed}", flush=True)
    chance = random.Random(given.seed)
    for case in (statuses, damaged, streams):
        case(program)
    for workers in (1, 2):
        watched_file(program, workers, given.kills, chance)
        connections(program, workers, max(1, given.kills // 3), chance)
    sys.exit(1 if failed else 0)


if __name__ == "__main__":
    main()
