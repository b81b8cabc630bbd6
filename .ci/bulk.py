#!/usr/bin/env python3
"""Runs the output `elasticsearch` against small servers on this machine: one that answers 200, 429 and then 200, and ones that close,
that answer slowly, in chunks or with nonsense, and that keep the connection open.

    .ci/bulk.py [LOGSTASH [BULK_TESTS]]

The deliveries are made by the program bulk_tests; and by the program itself, which is killed while a server puts its events off, and
started again. rt ci builds both, and others may be named. Prints what isn't as it should be."""

import json
import os
import socket
import subprocess
import sys
import tempfile
import threading
import time

LOGSTASH = os.path.abspath(sys.argv[1] if len(sys.argv) > 1 else "crates/logstash_cli/out/logstash_cli")
PROGRAM = os.path.abspath(sys.argv[2] if len(sys.argv) > 2 else "crates/bulk_tests/out/bulk_tests")
TOOK = b'{"took":1,"errors":false,"items":[{"index":{"status":201}},{"index":{"status":201}}]}'
HALF = b'{"took":1,"errors":true,"items":[{"index":{"status":201}},{"index":{"status":429}}]}'
LAST = b'{"took":1,"errors":false,"items":[{"index":{"status":201}}]}'
BODIES = {
    "a": b'{"index":{"_index":"i"}}\n{"message":"a"}\n',
    "b": b'{"index":{"_index":"i"}}\n{"message":"b"}\n',
}

failed = []


def expect(what, found, wanted):
    if found != wanted:
        failed.append(what)
        print(f"bulk: {what}: {found}, and not {wanted}")


class Server:
    """Takes a connection for each answer, reads a request on it, and calls the answer with it."""

    def __init__(self, answers):
        self.answers, self.bodies, self.heads = answers, [], []
        self.socket = socket.create_server(("127.0.0.1", 0))
        self.socket.settimeout(60)
        self.port = self.socket.getsockname()[1]
        self.thread = threading.Thread(target=self.serve)
        self.thread.start()

    def serve(self):
        for answer in self.answers:
            connection, _ = self.socket.accept()
            with connection:
                self.read(connection)
                try:
                    answer(connection)
                except OSError:
                    pass

    def read(self, connection):
        data = b""
        while b"\r\n\r\n" not in data:
            data += connection.recv(65536)
        head, body = data.split(b"\r\n\r\n", 1)
        fields = dict(line.split(b": ", 1) for line in head.split(b"\r\n")[1:])
        while len(body) < int(fields[b"Content-Length"]):
            body += connection.recv(65536)
        self.heads.append(head)
        self.bodies.append(body)

    def end(self):
        self.thread.join()
        self.socket.close()


def head(status, *fields):
    return b"\r\n".join([b"HTTP/1.1 " + status, *fields, b"", b""])


def sized(status, body):
    return head(status, b"Content-Type: application/json", b"Content-Length: %d" % len(body)) + body


def sends(data):
    return lambda connection: connection.sendall(data)


def slowly(data):
    def answer(connection):
        for place in range(0, len(data), 20):
            connection.sendall(data[place:place + 20])
            time.sleep(0.05)
    return answer


def in_chunks(body):
    chunks = b"".join(b"%x\r\n%b\r\n" % (len(body[at:at + 7]), body[at:at + 7]) for at in range(0, len(body), 7))
    return head(b"200 OK", b"Transfer-Encoding: chunked") + chunks + b"0\r\n\r\n"


def open_after(data):
    def answer(connection):
        connection.sendall(data)
        connection.recv(1)  # until the other side closes
    return answer


def silent(connection):
    connection.recv(1)


def long_reply(connection):
    connection.sendall(head(b"200 OK"))
    piece = b" " * 65536
    for _ in range(300):
        connection.sendall(piece)


def run(port, count):
    words = [PROGRAM, f"127.0.0.1:{port}", str(count)]
    ran = subprocess.run(words, stdout=subprocess.PIPE, stderr=subprocess.PIPE, text=True, timeout=100)
    expect("its status", (ran.returncode, ran.stderr), (0, ""))
    return ran.stdout.splitlines()


def delivered(answers, count):
    server = Server(answers)
    lines = run(server.port, count)
    server.end()
    return server, lines


def put_off():
    """200 with an event that waits, then 429, then 200: what is settled isn't sent again."""
    server, lines = delivered([sends(sized(b"200 OK", HALF)), sends(sized(b"429 Too Many Requests", b"")), sends(sized(b"200 OK", LAST))], 3)
    expect("200, 429 and 200", lines, ["set", "later", "later", "took, took", "faults 0, bad 0, laters 2"])
    expect("what was sent", server.bodies, [BODIES["a"] + BODIES["b"], BODIES["b"], BODIES["b"]])
    wanted = [
        b"POST /_bulk HTTP/1.1",
        b"Host: 127.0.0.1:%d" % server.port,
        b"Content-Type: application/x-ndjson",
        b"Content-Length: %d" % len(server.bodies[0]),
        b"Connection: close",
    ]
    expect("the head", server.heads[0].split(b"\r\n"), wanted)


def forms():
    """Replies in different forms."""
    server, lines = delivered([
        sends(head(b"200 OK") + TOOK),
        slowly(sized(b"200 OK", TOOK)),
        sends(in_chunks(TOOK)),
        slowly(in_chunks(TOOK)),
        open_after(sized(b"200 OK", TOOK)),
        open_after(in_chunks(TOOK)),
    ], 6)
    expect("replies in different forms", lines, ["set"] + ["took, took"] * 6 + ["faults 0, bad 0, laters 0"])


def faults():
    """Peers that give no good reply."""
    server, lines = delivered([
        sends(b""),
        sends(b"\x00\x01nonsense\r\n\r\n"),
        sends(sized(b"200 OK", TOOK)[:-1]),
        sends(in_chunks(TOOK)[:-20]),
        long_reply,
    ], 5)
    expect("replies that aren't good", lines, ["set"] + ["failed"] * 5 + ["faults 1, bad 4, laters 0"])


def nobody():
    """No program listens, and a name that no host has."""
    free = socket.create_server(("127.0.0.1", 0))
    port = free.getsockname()[1]
    free.close()
    expect("nobody who listens", run(port, 2), ["set", "failed", "failed", "faults 2, bad 0, laters 0"])


def silence():
    """A peer that answers nothing is given up after 10 seconds."""
    began = time.monotonic()
    _, lines = delivered([silent], 1)
    took = time.monotonic() - began
    expect("a silent peer", lines, ["set", "failed", "faults 1, bad 0, laters 0"])
    expect("after how long it is given up", 9.5 < took < 15, True)


class Index:
    """A server of an index: takes the first half of the events and puts all others off until it is told to take them. It refuses for good
    those that say so, once it takes all."""

    def __init__(self):
        self.taken, self.rejected, self.wrong, self.asked, self.takes_all = [], [], [], 0, False
        self.socket = socket.create_server(("127.0.0.1", 0))
        self.port = self.socket.getsockname()[1]
        threading.Thread(target=self.serve, daemon=True).start()

    def serve(self):
        while True:
            try:
                connection, _ = self.socket.accept()
            except OSError:
                return
            with connection:
                try:
                    body = self.read(connection)
                    connection.sendall(sized(b"200 OK", json.dumps({"took": 1, "errors": True, "items": self.items(body)}).encode()))
                except (OSError, ConnectionError):
                    pass  # the program was killed

    def read(self, connection):
        data = b""
        while b"\r\n\r\n" not in data:
            data += self.some(connection)
        front, body = data.split(b"\r\n\r\n", 1)
        size = next(int(line[16:]) for line in front.split(b"\r\n") if line.startswith(b"Content-Length: "))
        while len(body) < size:
            body += self.some(connection)
        return body

    def some(self, connection):
        piece = connection.recv(65536)
        if not piece:
            raise ConnectionError
        return piece

    def items(self, body):
        self.asked += 1
        lines, items = body.decode().splitlines(), []
        for action, event in zip(lines[::2], lines[1::2]):
            message = json.loads(event)["message"]
            if json.loads(action) != {"index": {"_index": "lines"}}:
                self.wrong.append(action)
            number = int(message.split()[1])
            if number >= EVENTS // 2 and not self.takes_all:
                items.append({"index": {"status": 429}})
            elif number % 100 == 99:
                self.rejected.append(message)
                items.append({"index": {"status": 400, "error": {"type": "mapper_parsing_exception", "reason": "no date"}}})
            else:
                self.taken.append(message)
                items.append({"index": {"status": 201}})
        return items


EVENTS = 1000


def program_killed():
    """The program is killed while half of its events are put off, twice, and started again: each event is in the index or a dead letter."""
    with tempfile.TemporaryDirectory() as folder:
        index, source, data = Index(), f"{folder}/lines", f"{folder}/data"
        messages = [f"event {number}" for number in range(EVENTS)]
        with open(source, "w", encoding="ascii") as it:
            it.writelines(message + "\n" for message in messages)
        words = [LOGSTASH, "-e", f'input {{ file {{ path => "{source}" mode => "read" }} }}'
                 f' output {{ elasticsearch {{ hosts => ["127.0.0.1:{index.port}"] index => "lines" }} }}', "--path.data", data]
        for _ in range(2):
            before = index.asked
            run = subprocess.Popen(words, stdin=subprocess.DEVNULL)
            end = time.monotonic() + 30
            while (index.asked < before + 10 or len(set(index.taken + index.rejected)) < EVENTS // 2) and time.monotonic() < end:
                time.sleep(0.02)
            expect("a program whose events are put off", run.poll(), None)
            run.kill()
            run.wait()
        early = set(index.taken + index.rejected)
        expect("what is taken while others are put off", early, set(messages[:EVENTS // 2]))
        index.takes_all = True
        done = subprocess.run(words, stdin=subprocess.DEVNULL, stdout=subprocess.PIPE, stderr=subprocess.PIPE, text=True, timeout=100)
        expect("the program once all are taken", (done.returncode, done.stdout, done.stderr), (0, "", ""))
        index.socket.close()
        expect("the events in the index", set(index.taken), {message for message in messages if not message.endswith("99")})
        expect("the events that are rejected", set(index.rejected), {message for message in messages if message.endswith("99")})
        expect("actions that aren't those of the configuration", index.wrong, [])
        told = subprocess.run([LOGSTASH, "--pqcheck", "main", "--path.data", data], stdout=subprocess.PIPE, text=True, timeout=100)
        expect("what is left in the queue", told.stdout, "rows 0\n")
        with open(f"{data}/main/dead.log", "rb") as it:
            letters = it.read()
        expect("whether each rejected event is a dead letter", all(message.encode() in letters for message in index.rejected), True)
        expect("the reason of dead letters", letters.count(b"status 400: no date") >= EVENTS // 100, True)


def main():
    for program in (PROGRAM, LOGSTASH):
        if not os.path.isfile(program):
            print(f"bulk: {program} isn't built")
            return 1
    put_off()
    forms()
    faults()
    nobody()
    silence()
    program_killed()
    if not failed:
        print("bulk: all as it should be")
    return 1 if failed else 0


if __name__ == "__main__":
    sys.exit(main())
