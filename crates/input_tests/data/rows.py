"""Makes the tables of this folder, and `../stdout`: run it in this folder.

The answers are worked out here from what is promised of inputs, and from nothing of the program: the lines on all bytes
joined, the slots of position files with the CRC-32 of `zlib`, and what a stop leaves by the calls of the store.
"""

from json import JSONDecodeError, loads
from zlib import crc32

import polls
import streams

TABLES = ["reads", "stops", "paths"]
ROWS = {name: [] for name in TABLES}
LIMIT = 1048576
ROOM = 262144


def slot(turn, position):
    body = b"\0\1" + turn.to_bytes(8, "big") + position.to_bytes(8, "big") + b"\0\0"
    return body + crc32(body).to_bytes(4, "big")


def intact(file, at):
    piece = file[at : at + 24]
    if len(piece) < 24 or crc32(piece[:20]) != int.from_bytes(piece[20:], "big"):
        return None
    turn = int.from_bytes(piece[2:10], "big")
    return (turn, int.from_bytes(piece[10:18], "big")) if turn % 2 * 24 == at else None


def recorded(file):
    """None, a turn with a position, or the two numbers of a damage."""
    slots = [s for s in (intact(file, 0), intact(file, 24)) if s]
    if slots:
        return min(slots) if {turn for turn, _ in slots} == {0, 2**64 - 1} else max(slots)
    if len(file) <= 24:
        return None
    stored, computed = int.from_bytes(file[20:24], "big"), crc32(file[:20])
    turn = int.from_bytes(file[2:10], "big")
    return [stored, computed] if stored != computed else [turn, max(turn - 1, 0)]


def shown(found):
    if found is None:
        return "[nothing]"
    return f"[{found[0]}, not {found[1]}]" if isinstance(found, list) else f"[{found[1]} in turn {found[0]}]"


# ---- lines


def text(data):
    """As text; of bytes that are no text, each that begins no character becomes U+FFFD."""
    try:
        return data.decode("utf-8")
    except UnicodeDecodeError:
        pass
    out, at = "", 0
    while at < len(data):
        for size in range(1, 5):
            try:
                out, at = out + data[at : at + size].decode("utf-8"), at + size
                break
            except UnicodeDecodeError:
                continue
        else:
            out, at = out + "\ufffd", at + 1
    return out


def lines(data, ended):
    """The lines of bytes, each with the place behind it."""
    found, at = [], 0
    while True:
        end = data.find(b"\n", at, at + LIMIT)
        if end >= 0:
            content = data[at:end]
            found.append((content[:-1] if content.endswith(b"\r") else content, end + 1))
        elif len(data) - at >= LIMIT:
            found.append((data[at : at + LIMIT], at + LIMIT))
        else:
            break
        at = found[-1][1]
    if ended and at < len(data):
        found.append((data[at:], len(data)))
    return found


# ---- an input


class Fault(Exception):
    pass


class World:
    def __init__(self, slots, contents, of_store, of_files):
        self.slots, self.contents = slots, contents
        self.of_store, self.of_files = of_store, of_files
        self.store_calls = self.files_calls = 0
        self.moments = [[shown(recorded(slots or b""))]]

    def store(self):
        self.store_calls += 1
        if self.store_calls - 1 == self.of_store:
            raise Fault

    def file(self):
        number = self.files_calls
        self.files_calls += 1
        if number == self.of_files:
            raise Fault
        data = b""
        for start, content in self.contents:
            if start <= number:
                data = content or b""
        return data


class Input:
    def __init__(self, world, mode, start, codec):
        self.world, self.mode, self.codec = world, mode, codec
        found = recorded(world.slots or b"")
        self.turn = 0 if found is None else (found[0] + 1) % 2**64
        length = len(world.file())
        if found is None:
            self.began = 0 if mode == "read" or start == "start" else length
        else:
            self.began = found[1] if found[1] <= length else 0
        self.position = self.began if found is None else found[1]
        self.data, self.ended, self.moments, self.given = b"", False, [], 0

    def all(self):
        return lines(self.data, self.ended)

    def held(self):
        return len(self.all()) - self.given

    def behind(self):
        return self.began + (self.all()[self.given - 1][1] if self.given else 0)

    def poll(self, moment):
        if not self.held() and not self.ended:
            place = self.began + len(self.data)
            more = self.world.file()[place : place + ROOM]
            self.data += more
            self.ended = self.mode == "read" and not more
            self.moments += [moment] * (len(self.all()) - len(self.moments))
        return "lines" if self.held() else "end" if self.ended else "not yet"

    def next(self):
        if not self.held():
            return "none"
        message = text(self.all()[self.given][0])
        self.given += 1
        size = len(message.encode())
        return f"{message if size <= 40 else f'{size} bytes'}@{self.moments[self.given - 1]}"

    def path(self):
        """Where the next event came from: an object with another `log` keeps what it has, since the event can't hold the path."""
        line = text(self.all()[self.given][0])
        self.given += 1
        try:
            event = loads(line) if self.codec == "json" else {}
        except JSONDecodeError:
            event = {}
        log = event.get("log", {})
        file = log.get("file", {}) if isinstance(log, dict) else None
        return "of logs/a.log" if isinstance(file, dict) else "of no file"

    def holds(self):
        return "held" if self.held() else "none held"

    def assure(self, position):
        w = self.world
        w.store()
        before = shown(recorded(w.slots or b""))
        at, file = self.turn % 2 * 24, w.slots or b""
        w.slots = file[:at] + slot(self.turn, position) + file[at + 24 :]
        w.moments.append([shown(recorded(w.slots)), before])
        w.store()
        w.moments.append([shown(recorded(w.slots))])
        self.turn, self.position = (self.turn + 1) % 2**64, position


def run(world, mode, start, codec, calls):
    out = ""
    for part in calls.split(";"):
        try:
            for _ in ("sync", "read"):
                world.store()
                world.moments.append(world.moments[-1][:1])
        except Fault:
            out += "store fault; "
            continue
        found = recorded(world.slots or b"")
        if isinstance(found, list):
            out += f"in.pos at 0: {found[0]}, not {found[1]}; "
            continue
        try:
            it = Input(world, mode, start, codec)
        except Fault:
            out += "files fault; "
            continue
        out += f"from {it.behind()}"
        polls = 0
        for call in part.split():
            if call in "pP":
                polls += 1
                try:
                    answer = it.poll(polls)
                except Fault:
                    out += ", fault"
                    break
                out += f", {answer}" if call == "p" else ""
            elif call == "n":
                out += f", {it.next()}"
            elif call == "f":
                out += f", {it.path()}"
            elif call == "h":
                out += f", {it.holds()}"
            elif call == "b":
                out += f", {it.position} of {it.behind()}"
            else:
                place = int(call[2:]) if call[1:] else it.behind()
                try:
                    it.assure(place)
                    out += ", assured"
                except Fault:
                    out += ", not assured"
                    break
        out += "; "
    return out


def digits(data):
    if data is None:
        return "-"
    pieces, at = [], 0
    while at < len(data):
        count = len(data) - at - len(data[at:].lstrip(data[at : at + 1]))
        pieces.append(f"{count}*{data[at:at + 1].hex()}" if count > 8 else data[at : at + count].hex())
        at += count
    out = ""
    for piece in pieces:
        out += piece if not out or "*" not in piece and "*" not in out.split("+")[-1] else "+" + piece
    return out


def row(plan, slots, contents, calls, of_store=-1, of_files=-1, codec="plain", stops=False):
    mode, start = plan.split()
    contents = contents if isinstance(contents, list) else [(0, contents)]
    world = World(slots, contents, of_store, of_files)
    answer = run(world, mode, start, codec, calls)
    number = lambda n: str(n) if n >= 0 else "-"
    words = f"{plan} {codec} {number(of_store)} {number(of_files)} | {digits(slots)} | {' '.join(f'{n}:{digits(c)}' for n, c in contents)} | {calls}"
    if stops:
        moments = "; ".join(f"{n}: {' '.join(dict.fromkeys(m))}" for n, m in enumerate(world.moments))
        ROWS["stops"].append((words, moments + "; "))
    else:
        ROWS["reads"].append((words, answer + shown(recorded(world.slots or b""))))


# where a reading begins
row("read end", slot(0, 2), b"a\nb\n", "p n n p b a b")
row("tail end", None, b"a\nb\n", "p n b")
row("tail start", None, b"a\nb\n", "p n n n p b")
row("read end", None, b"a\nb\n", "p n n p")
row("tail end", slot(0, 2), b"a\nb\n", "p n n p b")
row("tail end", slot(0, 4), b"a\nb\n", "p n b")
row("tail end", slot(0, 5), b"a\nb\n", "b p n n n b")
row("read end", slot(0, 2**64 - 1), b"a\nb\n", "b p n n p")
row("tail end", slot(0, 0), b"a\nb\n", "p n n")
# a file that is missing, and comes
row("tail end", None, None, "p n b a b")
row("read end", None, None, "p n b")
row("tail end", slot(0, 3), None, "p n b")
row("tail end", None, [(0, None), (2, b"a\nb"), (3, b"a\nb\n")], "p p n n p n b")
# a file that grows, is cut, and goes away
row("tail start", None, [(0, b"ab"), (2, b"ab\ncd"), (4, b"ab\ncd\r\n\n")], "p p n n p p n n n b")
row("tail start", None, [(0, b"a\nb\n"), (2, b"a\n"), (3, b"a\nb\nc\n")], "p n n p p n n")
row("tail start", None, [(0, b"a\nb\n"), (2, None), (3, b"a\nb\nc\n")], "p n n p p n n")
row("read end", None, [(0, b"a\nb"), (2, b"a\nb"), (3, b"a\nb\nc\n")], "p n n p n p n b")
# what is held is given before the file is read again
row("tail start", None, [(0, b"a\nb\n"), (2, b"a\nb\nc\n")], "p p n p n p n")
# lines
row("read end", None, b"\n\r\n\r\r\nx\r", "p n n n n n p")
row("read end", None, b"a\r\nb\rc\n\rd", "p n n n p n p")
row("tail start", None, b"a\xffb\n\xe2\x82A\n\xc3\xa9\xed\xa0\x80\n", "p n n n")
row("tail start", None, b"a" * (LIMIT + 1) + b"\n", "P " * 4 + "p n p n n b")
row("tail start", None, b"a" * LIMIT + b"\n", "P " * 3 + "p n p n n b")
row("tail start", None, b"a" * (LIMIT - 1) + b"\r\n", "P " * 4 + "p n p n b")
row("tail start", None, b"a\xffb\n", "p n n")
row("tail start", None, b"a" * (ROOM - 1) + b"\nb\n", "p n n p n")
row("tail start", None, b"a" * ROOM + b"\nb\n", "p n p n n")
row("tail start", None, b"a\n" * 20 + b"b" * ROOM + b"\n", "p " + "n " * 21 + "b p n b")
# cut into pieces of every length
WHOLE = b"ab\r\n\n\xc3\xa9\xffc\r\nd"
for size in range(1, len(WHOLE) + 1):
    pieces = [(n, WHOLE[: n * size]) for n in range(len(WHOLE) // size + 2)]
    row("read end", None, pieces, "p n " * (len(WHOLE) // size + 7) + "b a b")
# whether a line is held is told by what was read: neither by what the file has, nor by a part of a line
row("tail start", None, b"a\nb", "h p h n h p h")
# and at the end of a file that is read to its end what is left is a line
row("read end", None, b"a", "h p h p h n h p h")
# each event has the name of its file
row("tail start", None, b"a\n\nb\n", "p f f f")
# also one whose object brought another name, but where the event can't hold it
OBJECTS = [b'{"log":{"file":{"path":"mine","x":1}}}', b'{"log":{"x":1}}', b'{"log":"x"}', b'{"log":{"file":7}}', b"no object", b"{}"]
row("tail start", None, b"\n".join(OBJECTS) + b"\n", "p f f f f f f", codec="json")
# positions
row("tail start", None, b"a\nb\nc\n", "b a b p n a n b a:1 b; p n n n n a; p n b")
row("tail start", slot(2**64 - 1, 2) + b"", b"a\nb\nc\n", "b")
row("tail start", bytes(24) + slot(2**64 - 1, 2), b"a\nb\nc\n", "p n a b; p n b")
row("tail start", slot(0, 2) + slot(1, 4), b"a\nb\nc\n", "p n n a; p n")
row("tail start", slot(0, 2) + slot(1, 4)[:23] + b"\0", b"a\nb\nc\n", "p n n a; p n")
row("tail start", slot(0, 2)[:23] + b"\0" + slot(1, 4), b"a\nb\nc\n", "p n n a; p n")
row("tail start", slot(0, 2)[:23] + b"\0", b"a\nb\nc\n", "p n b")
row("tail start", slot(0, 2)[:23] + b"\0" + b"\0", b"a\nb\nc\n", "p n b")
row("tail start", bytes(25), b"a\nb\nc\n", "p n b")
row("tail start", slot(1, 2) + b"\0", b"a\nb\nc\n", "p n b; p")
row("tail start", bytes(10), b"a\nb\nc\n", "p n a b")
# calls that fail
for number in range(6):
    row("tail end", slot(0, 2), b"a\nb\n", "p n a b; p n a b", of_store=number)
for number in range(4):
    row("tail end", slot(0, 2), b"a\nb\n", "p n p n; p n b", of_files=number)
row("tail end", bytes(25), b"a\nb\n", "p n", of_files=0)
# stops
row("tail start", None, b"a\nb\nc\n", "p n a n a n a", stops=True)
row("tail start", None, b"a\nb\nc\n", "a p n a; p n a", stops=True)
row("tail start", slot(6, 2) + slot(7, 4), b"a\nb\nc\n", "p n a a:0 a:6", stops=True)
row("tail start", bytes(24) + slot(2**64 - 1, 2), b"a\nb\nc\n", "p n a n a", stops=True)

# ---- paths


def encoded(path):
    plain = lambda b: chr(b) if chr(b).isascii() and (chr(b).isalnum() or chr(b) in ".-") else f"_{b:02x}"
    return "in." + "".join(plain(b) for b in path.encode())


def stands(pattern, name):
    if not pattern:
        return not name
    if pattern[0] == "*":
        return any(stands(pattern[1:], name[at:]) for at in range(len(name) + 1))
    return bool(name) and name[0] == pattern[0] and stands(pattern[1:], name[1:])


def paths(path, earlier, present, fails=False):
    cut = path.rfind("/") + 1
    folder, last = path[:cut], path[cut:]
    found = [path]
    if "*" in last:
        names = sorted((p[cut:] for p in present if p.startswith(folder) and p[cut:] and "/" not in p[cut:]), key=str.encode)
        found = [folder + name for name in names if stands(last, name)]
    found = [p for p in found if p not in earlier and len(encoded(p)) <= 250]
    answer = "fault" if fails and "*" in last else " ".join([str(len(found)), *found])
    ROWS["paths"].append((f"{path} | {' '.join(earlier)} | {' '.join(present)} | {'0' if fails else '-'}", answer))


LOGS = ["logs/b.log", "logs/a.log", "logs/sub/c.log", "x.log", "logs/a.txt", "logs/B.log", "logs/\u00e9.log", "logs/.log"]
paths("logs/*.log", [], LOGS)
paths("logs/*", [], LOGS)
paths("logs/a*", ["logs/a.log"], LOGS)
paths("*", [], LOGS)
paths("*.txt", [], LOGS)
paths("none/*", [], LOGS)
paths("/*", [], ["/x", "x", "/y/z"])
paths("logs/a.log", [], [])
paths("logs/a.log", ["logs/a.log"], LOGS)
paths("lo*s/a.log", [], LOGS)
paths("logs/*.log", [], LOGS, fails=True)
paths("logs/a.log", [], LOGS, fails=True)
for size in (240, 241):
    paths("logs/" + "a" * size, [], [])
    paths("logs/*", [], ["logs/" + "a" * size, "logs/b"])
paths("logs/*", [], ["logs/" + "\u00e9" * 40, "logs/" + "\u00e9" * 41])

TABLES.append("polls")
ROWS["polls"] = [(row, polls.answers(row)) for row in polls.ROWS]

TABLES.append("streams")
ROWS["streams"] = [(row, streams.answers(row, lines, text)) for row in streams.ROWS]

for name in TABLES:
    with open(name, "w") as file:
        file.writelines(f"{words}\n" for words, _ in ROWS[name])
with open("../stdout", "w") as file:
    for name in TABLES:
        file.write(f"# {name}\n")
        file.writelines(f"{answer}\n" for _, answer in ROWS[name])
