#!/usr/bin/env python3
"""How fast do pipelines run? Each takes lines through its queue to its destination; beside it, in the same run, rsyslog with
a queue on the disk (which it doesn't sync), awk and python3, as far as they are there and do the same. Prints for each: events a second,
processor time an event, syncs per 1,000 events (where strace is there), and the memory that it held at most. Ends with status 1 where a run
failed, or events are missing. Needs GNU time.

    bench/pipelines.sh [SIZE [PROGRAM]]     SIZE 1 is the whole size (1,000,000 lines), 0.1 the one that is run else

- W1: lines of 102 bytes from standard input to JSON on standard output; W1F: the same to a file; W1L: lines of 1,000 bytes.
- W3: access lines of 176 bytes, by COMBINEDAPACHELOG, to JSON; with one worker and with four.
- W4: lines of 120 bytes with nine pairs, by kv, a condition, to a file.
- W5: lines of JSON of 217 bytes, by json and mutate, to JSON.
- W6: W1's lines over four connections to a file."""

import contextlib
import json
import os
import re
import shutil
import signal
import socket
import subprocess
import sys
import tempfile
import threading
import time

SIZE = float(sys.argv[1]) if len(sys.argv) > 1 else 0.1
PROGRAM = os.path.abspath(sys.argv[2] if len(sys.argv) > 2 else os.path.join(os.path.dirname(__file__), "..", "bin", "logstash"))
STRACE = shutil.which("strace")


def lines_of(name, count):
    makers = {
        "W1": lambda n: f"{n:09d} " + "x" * 91,
        "W1L": lambda n: f"{n:09d} " + "x" * 989,
        "W3": lambda n: f'10.0.{n // 250 % 250}.{n % 250} - frank [10/Oct/2000:13:55:{n % 60:02d} -0700] "GET /apache_pb.gif?page={n:07d} HTTP/1.0" 200 2326 "http://www.example.com/start.html" "Mozilla/4.08 [en] (Win98; I)"',
        "W4": lambda n: f"level=info service=cart pid={n % 10000} took={n % 1000} user=u{n % 977} host=web{n % 9} zone=eu{n % 3} path=/p/{n:07d} code={200 + n % 5} size={n % 65536}",
        "W5": lambda n: json.dumps({"level": "info", "service": "cart", "pid": n % 10000, "took_ms": n % 1000, "user": {"name": f"u{n % 977}", "groups": ["a", "b"]}, "host": f"web{n % 9}", "message": f"cart shown {n:09d}", "path": "/shop/cart/items/all", "ok": True}),
    }
    return [makers[name](n) for n in range(count)]


def timed(words, folder, lines, out):
    """Runs words to their end: status, seconds, seconds of the processor, and the KiB that they held at most. GNU time says the memory, since
    what wait4 says of a child counts what this program held when it started it."""
    row = os.path.join(folder, "row")
    start = time.monotonic()
    run = subprocess.Popen(["/usr/bin/time", "-q", "-f", "%M", "-o", row, *words], stdin=lines, stdout=out)
    _pid, status, used = os.wait4(run.pid, 0)
    wall = time.monotonic() - start
    run.returncode = os.waitstatus_to_exitcode(status)
    with open(row, encoding="ascii") as it:
        return run.returncode, wall, used.ru_utime + used.ru_stime, int(it.read().split()[-1])


def ended(run, sign):
    """Ends a run by a signal: the seconds of the processor that it took, and the KiB that it held at most."""
    with open(f"/proc/{run.pid}/status", encoding="utf-8") as it:
        memory = int(re.search(r"VmHWM:\s*(\d+)", it.read())[1])
    run.send_signal(sign)
    _pid, status, used = os.wait4(run.pid, 0)
    run.returncode = os.waitstatus_to_exitcode(status)
    return used.ru_utime + used.ru_stime, memory


@contextlib.contextmanager
def running(words, **streams):
    """A run that goes on until it is ended, and no longer than this."""
    run = subprocess.Popen(words, **streams)
    try:
        yield run
    finally:
        if run.returncode is None:
            run.kill()
            run.wait()


failed = []


def fault(text):
    failed.append(text)
    print(text, flush=True)


def told(name, what, count, wall, processor, memory, syncs=None):
    shown = f"{syncs * 1000 / count:7.2f}" if syncs is not None else "      -"
    print(f"{name:4} {what:24} {count / wall:10.0f} events/s {processor * 1e6 / count:8.2f} us of processor {shown} syncs/1,000 {memory:8d} KiB", flush=True)


class Work:
    def __init__(self, name, count, config, data, target=None, workers=1, more=()):
        self.name, self.count, self.config, self.data, self.target = name, count, config, data, target
        self.workers, self.more = workers, more

    def words(self, folder):
        return [PROGRAM, "-e", self.config, "--path.data", folder, "-w", str(self.workers), *self.more]

    def run(self, syncs=False):
        with tempfile.TemporaryDirectory() as folder:
            if self.target and os.path.exists(self.target):
                os.remove(self.target)
            words = self.words(os.path.join(folder, "data"))
            trace = os.path.join(folder, "trace")
            if syncs:
                words = [STRACE, "-f", "-c", "-e", "trace=fsync,fdatasync", "-o", trace, *words]
            with open(self.data, "rb") as lines, open(os.path.join(folder, "out"), "wb") as out:
                status, wall, processor, memory = timed(words, folder, lines, out)
            made = Rows(self.target or os.path.join(folder, "out")).count()
            if status != 0 or made != self.count:
                fault(f"{self.name}: status {status}, {made} events of {self.count}")
            if syncs:
                with open(trace, encoding="utf-8") as it:
                    calls = [int(line.split()[3]) for line in it if re.search(r"\b(fsync|fdatasync)$", line)]
                return sum(calls)
            return wall, processor, memory

    def measure(self):
        best = min(self.run() for _ in range(2))
        syncs = self.run(syncs=True) if STRACE else None
        told(self.name, f"logstash -w {self.workers} {' '.join(self.more)}", self.count, *best, syncs)
        return best


def connections(count, lines, folder):
    """W6: four connections, until all lines stand in the file."""
    port = free_port()
    target = os.path.join(folder, "six.json")
    config = f'input {{ tcp {{ host => "127.0.0.1" port => {port} }} }} output {{ file {{ path => "{target}" }} }}'
    rows = Rows(target)
    with running([PROGRAM, "-e", config, "--path.data", os.path.join(folder, "six"), "-w", "1"], stdin=subprocess.DEVNULL) as run:
        wall = sent_to(port, lines, rows, count)
        processor, memory = ended(run, signal.SIGKILL)
    if rows.count() != count:
        fault(f"W6: {rows.count()} events of {count}")
    told("W6", "logstash -w 1", count, wall, processor, memory)


def free_port():
    with socket.socket() as it:
        it.bind(("127.0.0.1", 0))
        return it.getsockname()[1]


class Rows:
    """The rows of a file that grows, of which only what is new is read."""

    def __init__(self, path):
        self.path, self.read, self.rows = path, 0, 0

    def count(self):
        if os.path.exists(self.path):
            with open(self.path, "rb") as it:
                it.seek(self.read)
                for piece in iter(lambda: it.read(1 << 20), b""):
                    self.read += len(piece)
                    self.rows += piece.count(b"\n")
        return self.rows


def sent_to(port, lines, rows, count, senders=4):
    def send(part):
        for _ in range(200):
            try:
                with socket.create_connection(("127.0.0.1", port)) as it:
                    it.sendall(("\n".join(part) + "\n").encode())
                return
            except ConnectionRefusedError:
                time.sleep(0.02)

    start = time.monotonic()
    threads = [threading.Thread(target=send, args=(lines[at::senders],)) for at in range(senders)]
    for each in threads:
        each.start()
    for each in threads:
        each.join()
    while rows.count() < count and time.monotonic() - start < 300:
        time.sleep(0.02)
    return time.monotonic() - start


def rsyslog(name, count, lines, folder):
    """A file by connections through a queue on the disk to a file."""
    if not shutil.which("rsyslogd"):
        return
    port, target, spool = free_port(), os.path.join(folder, "rsyslog.out"), os.path.join(folder, "spool")
    os.makedirs(spool, exist_ok=True)
    conf = os.path.join(folder, "rsyslog.conf")
    with open(conf, "w", encoding="ascii") as it:
        it.write(
            f'global(workDirectory="{spool}")\nmodule(load="imptcp")\n'
            f'main_queue(queue.type="Disk" queue.filename="main" queue.maxdiskspace="4g" queue.checkpointinterval="1000")\n'
            f'template(name="json" type="list") {{ constant(value="{{\\"@timestamp\\":\\"") property(name="timegenerated" dateFormat="rfc3339") constant(value="\\",\\"message\\":\\"") property(name="rawmsg" format="json") constant(value="\\"}}\\n") }}\n'
            f'input(type="imptcp" port="{port}" address="127.0.0.1" supportOctetCountedFraming="off")\n'
            f'action(type="omfile" file="{target}" template="json")\n'
        )
    rows = Rows(target)
    with running(["rsyslogd", "-n", "-f", conf, "-i", os.path.join(folder, "rsyslog.pid")], stderr=subprocess.DEVNULL) as run:
        wall = sent_to(port, lines, rows, count)
        made = rows.count()
        processor, memory = ended(run, signal.SIGTERM)
    if made != count:
        print(f"{name}: rsyslog made {made} of {count}")
        return
    told(name, "rsyslog, Disk, connections", count, wall, processor, memory)


def filter_by(name, what, words, count, data):
    if not shutil.which(words[0]):
        return
    with tempfile.TemporaryDirectory() as folder, open(os.path.join(folder, "out"), "wb") as out:
        best = None
        for _ in range(2):
            out.truncate(0)
            out.seek(0)
            with open(data, "rb") as lines:
                _status, *row = timed(words, folder, lines, out)
            best = min(best or row, row)
    told(name, what, count, *best)


AWK_ROWS = r"""{ gsub(/\\/, "\\\\"); gsub(/"/, "\\\""); printf "{\"@timestamp\":\"2024-01-01T00:00:00.000Z\",\"@version\":\"1\",\"message\":\"%s\"}\n", $0 }"""
PYTHON_ROWS = """
import datetime, json, sys
for line in sys.stdin:
    moment = datetime.datetime.now(datetime.timezone.utc).strftime("%Y-%m-%dT%H:%M:%S.%fZ")
    sys.stdout.write(json.dumps({"@timestamp": moment, "@version": "1", "message": line.rstrip("\\n")}, separators=(",", ":")) + "\\n")
"""


def main():
    signal.signal(signal.SIGTERM, lambda *_: sys.exit(1))  # so that nothing is left then either
    with tempfile.TemporaryDirectory() as folder:
        counts = {"W1": 1_000_000, "W1L": 100_000, "W3": 400_000, "W4": 600_000, "W5": 300_000}
        data = {}
        for name, whole in counts.items():
            counts[name] = max(1000, int(whole * SIZE))
            data[name] = os.path.join(folder, name)
            with open(data[name], "w", encoding="ascii") as it:
                it.writelines(line + "\n" for line in lines_of(name, counts[name]))
        stdin, stdout = "input { stdin {} }", "output { stdout {} }"
        target = os.path.join(folder, "target")
        to_file = f'output {{ file {{ path => "{target}" }} }}'
        grok = f'{stdin} filter {{ grok {{ match => {{ "message" => "%{{COMBINEDAPACHELOG}}" }} }} }} {stdout}'
        Work("W1", counts["W1"], f"{stdin} {stdout}", data["W1"]).measure()
        filter_by("W1", "awk (no queue)", ["awk", AWK_ROWS], counts["W1"], data["W1"])
        filter_by("W1", "python3 (no queue)", ["python3", "-c", PYTHON_ROWS], counts["W1"], data["W1"])
        Work("W1F", counts["W1"], f"{stdin} {to_file}", data["W1"], target).measure()
        Work("W1F", counts["W1"], f"{stdin} {to_file}", data["W1"], target, more=("-b", "1000")).measure()
        Work("W1L", counts["W1L"], f"{stdin} {stdout}", data["W1L"]).measure()
        Work("W3", counts["W3"], grok, data["W3"]).measure()
        Work("W3", counts["W3"], grok, data["W3"], workers=4).measure()
        kv = f'{stdin} filter {{ kv {{}} if [code] == "204" {{ mutate {{ add_tag => ["empty"] }} }} }} {to_file}'
        Work("W4", counts["W4"], kv, data["W4"], target).measure()
        js = f'{stdin} filter {{ json {{ source => "message" }} mutate {{ rename => {{ "host" => "from" }} remove_field => ["path"] }} }} {stdout}'
        Work("W5", counts["W5"], js, data["W5"]).measure()
        six = lines_of("W1", counts["W1"])
        connections(counts["W1"], six, folder)
        rsyslog("W6", counts["W1"], six, folder)
    sys.exit(1 if failed else 0)


if __name__ == "__main__":
    main()
