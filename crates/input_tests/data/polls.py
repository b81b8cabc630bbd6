# The rows of the table polls, and what an input of TCP connections answers, by the definitions.

LIMIT = 1048576
MOST = 64


def is_character(data):
    try:
        data.decode("utf-8")
        return True
    except UnicodeDecodeError:
        return False


def text_of(data):
    # each byte that begins no character becomes one U+FFFD
    text, at = "", 0
    while at < len(data):
        taken = next((n for n in (1, 2, 3, 4) if at + n <= len(data) and is_character(data[at:at + n])), 0)
        text += data[at:at + taken].decode("utf-8") if taken else "\ufffd"
        at += taken or 1
    return text


def lines_of(data, ended):
    # the lines of all bytes, joined
    lines, held = [], 0
    at = 0
    while True:
        feed = data.find(b"\n", at, at + LIMIT)
        if feed >= 0:
            line = data[at:feed]
            lines.append(line[:-1] if line.endswith(b"\r") else line)
            at = feed + 1
        elif len(data) - at >= LIMIT:
            lines.append(data[at:at + LIMIT])
            at += LIMIT
        else:
            break
    if ended and at < len(data):
        lines.append(data[at:])
    return lines


class Links:
    # connections in memory: one comes at each look, and a piece is given once it is the first that is left
    def __init__(self, connections, failing, pieces):
        self.connections, self.failing, self.pieces = connections, failing, list(pieces)
        self.came, self.calls, self.closed = 0, 0, set()

    def fails(self):
        self.calls += 1
        return self.calls - 1 in self.failing

    def look(self):
        if self.fails():
            return "fails"
        if self.came == self.connections:
            return "ended"
        self.came += 1
        return self.came - 1

    def read(self, conn):
        if self.fails():
            return "fails"
        if not self.pieces or self.pieces[0][0] != conn:
            return "waits"
        return self.pieces.pop(0)[1]

    def close(self, conn):
        self.closed.add(conn)
        self.pieces = [p for p in self.pieces if p[0] != conn]


class Input:
    def __init__(self, links):
        self.links, self.open, self.bytes, self.given = links, [], {}, {}
        self.held = []

    def take(self, conn, data, ended, second):
        self.bytes[conn] = self.bytes.get(conn, b"") + data
        lines = lines_of(self.bytes[conn], ended)
        for line in lines[self.given.get(conn, 0):]:
            self.held.append((text_of(line), second))
        self.given[conn] = len(lines)

    def poll(self, second):
        over = False
        if len(self.open) < MOST:
            come = self.links.look()
            if come == "fails":
                return "fault"
            over = come == "ended"
            if not over:
                self.open.append(come)
        for conn in list(self.open):
            found = self.links.read(conn)
            if found in ("end", "fails"):
                self.links.close(conn)
                self.open.remove(conn)
                self.take(conn, b"", True, second)
            elif found != "waits":
                self.take(conn, found, False, second)
        if self.held:
            return "lines"
        return "end" if over and not self.open else "not yet"

    def next(self):
        if not self.held:
            return "no line"
        text, second = self.held.pop(0)
        size = len(text.encode())
        return (f"{size} bytes" if size > 40 else text) + f"@{second}"


def bytes_in(word):
    data = b""
    for piece in word.split("+"):
        count, digits = piece.split("*") if "*" in piece else ("1", piece)
        data += int(count) * bytes.fromhex(digits)
    return data


def answers(row):
    connections, failing, pieces, calls = row.split("|")
    given = []
    for word in pieces.split():
        conn, data = word.split(":")
        data = data if data == "end" else bytes_in(data)
        if data != b"":
            given.append((int(conn), data))
    links = Links(int(connections), {int(n) for n in failing.split()}, given)
    tcp, polls, out = Input(links), 0, ""
    for call in calls.split():
        if call[0] in "pP":
            answer = "none"
            for _ in range(int(call[1:] or 1)):
                polls += 1
                answer = tcp.poll(polls)
            out += answer
        elif call[0] == "n":
            out += tcp.next()
        elif call[0] == "c":
            out += f"{links.came} came"
        else:
            out += "closed" if int(call[1:]) in links.closed else "open"
        out += "; "
    return out


def many(conn, count):
    # pieces of 65,536 bytes, which one read takes whole
    return " ".join([f"{conn}:65536*61"] * count)


ROWS = [
    # lines stand in the order in which they become whole
    "2||0:78 1:790a 0:310a|p p n n p n n p",
    # a read that fails in a line gives the rest as a line, and is no fault
    "1|3|0:78|p p n n s0 p",
    "2|5|0:78 1:79 1:7a0a|p p p p n s0 s1 n p n",
    # a look that fails is a fault, and the next one may not
    "1|0|0:610a|p c p c n p",
    "1|2|0:61 0:620a|p p p n n",
    # a connection that ends in a line, at once, and behind a line
    "1||0:78 0:end|p p n n s0 p",
    "1||0:end|p s0 p",
    "1||0:610a 0:end|p p n n p",
    "1||0:61 0:0d 0:end|p p p n p",
    # no connection, and none that sends
    "0|||p n c p",
    "1|||p p p s0",
    # several lines of a piece, the last not whole; a carriage return before a line feed, cut between them
    "1||0:610a0a620a63 0:0d 0:0a 0:end|p n n n n p p n n p p",
    # lines that are held while more are read
    "2||0:610a 1:620a 0:630a 1:end 0:64 0:end|p p p p p n n n n n p",
    # a piece may be cut anywhere
    "1||0:61 0:62 0:0a 0:63 0:0a|p p p n p p n n",
    "1||0:616263 0:0a640a|p p n n n",
    # bytes that are no text
    "1||0:61ff620a|p n",
    "1||0:61e2 0:82ac0a 0:e2820a|p p n p n",
    # 64 connections are open, and the next one is not looked for before one of them ends
    "66||63:610a 0:end 64:620a|P63 c p n p s0 c p n c p c p c",
    "70||69:610a|P64 c P5 c s63 s64",
    # a line has at most 1,048,576 bytes
    f"1||{many(0, 16)} 0:61+0a|P17 n n n",
    f"1||{many(0, 16)} 0:0a|P17 n n n",
    f"1||{many(0, 15)} 0:65535*61+0a62|P16 n n",
    f"1||{many(0, 16)} 0:end|P16 n n p",
    f"2||{many(0, 9)} 1:62 {many(0, 8)} 1:0a 0:end 1:end|P19 n p n p n n n p",
]
