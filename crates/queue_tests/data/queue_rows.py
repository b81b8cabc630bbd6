"""The persistent queue by the tables of the formats: the bytes of pages and slots, the order of the writes, what a stop
leaves of them, and what an opening finds. `rows.py` takes the tables from here."""

from zlib import crc32

LAST = 2**63 - 1  # no row has this number
W = 2**32 - 1  # no page has this number
HEAD = "checkpoint.head"
EMPTY = bytes(8)  # an empty event


def u(width, number):
    return number.to_bytes(width, "big")


def number_at(data, at, width):
    return int.from_bytes(data[at : at + width], "big")


def checked(covered):
    return covered + u(4, crc32(covered))


def element(number, body):
    return checked(u(8, number) + u(4, len(body)) + body)


def slot(turn, number, first_open, least, count, length, version=1, zero=0):
    fields = u(4, number) + u(8, first_open) + u(8, least) + u(4, count) + u(8, length)
    return checked(u(2, version) + u(8, turn) + fields + u(2, zero))


def body_of(version, origin):
    return EMPTY if version == 1 else u(4, len(origin)) + origin.encode() + EMPTY


def page(version, least, *origins):
    """The bytes of a page of empty events."""
    rows = enumerate(origins, least)
    return u(1, version) + b"".join(element(n, body_of(version, origin)) for n, origin in rows)


class Failed(Exception):
    pass


class Damaged(Exception):
    pass


# ---- a store, and what a stop leaves of it


def overlaid(at, data, old):
    return old[:at] + data + old[at + len(data) :]


def foreign(start, end, old):
    start = min(start, len(old))
    return overlaid(start, b"\xa5" * max(0, end - start), old)


class Store:
    def __init__(self, files, failing=None):
        self.base, self.files, self.log, self.failing = dict(files), dict(files), [], failing

    def call(self, kind, *what):
        works = len(self.log) != self.failing
        self.log.append((kind, *what) if works else ("read",))
        if not works:
            raise Failed
        leave(self.files, 0, kind, *what)

    def append(self, name, data):
        self.call("write", name, len(self.files.get(name, b"")), data)

    def image(self, moment, choice):
        log = self.log[:moment]
        settled = max([i + 1 for i, call in enumerate(log) if call[0] == "sync"], default=0)
        files = dict(self.base)
        for i, call in enumerate(log):
            last = 2 if i + 1 == len(log) else 0
            leave(files, 0 if i < settled else last if choice == 2 else choice, *call)
        return Store(files)

    def changes(self):
        return [0, *(i + 1 for i, call in enumerate(self.log) if call[0] != "read")]


def leave(files, fate, kind, name=None, at=None, data=None):
    """What is left of a call: all of it (0), nothing (1), its first half (2), or other bytes in its place (3)."""
    old = files.get(name, b"")
    if kind == "write" and fate != 1:
        new = overlaid(at, data if fate == 0 else data[: len(data) // 2], old)
        files[name] = foreign(at, at + len(data), old) if fate == 3 else new
    elif kind == "cut" and name in files:
        files[name] = {0: old[:at], 1: old, 2: old[: at + (len(old) - at) // 2], 3: foreign(at, len(old), old)}[fate]
    elif kind == "remove" and fate == 0:
        files.pop(name, None)


# ---- a queue


def newest(data):
    """The turn, the version and the fields of the newest slot."""
    slots = []
    for place in [0, 48]:
        if len(data) >= place + 48 and crc32(data[place : place + 44]) == number_at(data, place + 44, 4):
            turn = number_at(data, place + 2, 8)
            if turn % 2 == place // 48:
                fields = [number_at(data, place + at, width) for at, width in [(10, 4), (14, 8), (22, 8), (30, 4), (34, 8)]]
                slots.append((turn, number_at(data, place, 2), *fields))
    if {s[0] for s in slots} == {0, 2**64 - 1}:
        return min(slots)
    return max(slots, default=None)


def tested(name, data):
    said = newest(data)
    if said is None:
        sums = number_at(data, 44, 4), crc32(data[:44])
        turn = number_at(data, 2, 8)
        two = (len(data), 48) if len(data) < 48 else sums if sums[0] != sums[1] else (turn, turn - 1)
        raise Damaged(name, 0, *two)
    _, version, number, _, least, count, _ = said
    if version != 1:
        raise Damaged(name, 0, version, 1)
    if number == W:
        raise Damaged(name, 0, W, W - 1)
    if least == 0:
        raise Damaged(name, 0, 0, 1)
    if least + count > LAST:
        raise Damaged(name, 0, least, LAST - count)
    return said


class Page:
    def __init__(self, number, said, data, head):
        self.number, self.name = number, f"page.{number}"
        self.turn, _, _, self.open, self.least, count, extent = said
        self.recorded = self.open
        self.gone = set(range(self.least, self.open))
        if len(data) < extent:
            raise Damaged(self.name, len(data), len(data), extent)
        self.version = data[0] if extent else 0
        if self.version not in (1, 2):
            raise Damaged(self.name, 0, self.version, 2)
        self.rows, self.length = [], 1
        while self.length < extent:
            self.rows.append(self.read(data[:extent]))
        if len(self.rows) != count:
            raise Damaged(self.name, 0, len(self.rows), count)
        while head and self.end() < LAST:
            try:
                self.rows.append(self.read(data))
            except Damaged:
                break

    def read(self, data):
        """The origin of the element at the end; else the first damage."""
        at = self.length
        size = number_at(data, at + 8, 4) if at + 12 <= len(data) else 0
        number = number_at(data, at, 8) if at + 8 <= len(data) else 0
        if number != self.end():
            raise Damaged(self.name, at, number, self.end())
        if at + 16 + size > len(data):
            raise Damaged(self.name, at, at + 16 + size, len(data))
        stored, computed = number_at(data, at + 12 + size, 4), crc32(data[at : at + 12 + size])
        if stored != computed:
            raise Damaged(self.name, at, stored, computed)
        body = data[at + 12 : at + 12 + size]
        origin = "?"
        if self.version == 2:
            if not 1 <= number_at(body, 0, 4) <= 255:
                raise Damaged(self.name, at, 0, size)
            origin = body[4:-8].decode()
        assert body == body_of(self.version, origin)
        self.length = at + 16 + size
        return origin

    def end(self):
        return self.least + len(self.rows)

    def first_open(self):
        return next(n for n in range(self.least, self.end() + 1) if n not in self.gone)

    def slot(self, turn):
        return slot(turn, self.number, self.first_open(), self.least, len(self.rows), self.length)


def started(number, least, turn):
    return Page(number, (turn, 1, number, least, least, 0, 1), b"\x02", False)


def numbers_in(files, kind):
    parts = [name.split(".", 1)[1] for name in files if name.startswith(kind + ".")]
    return sorted(int(p) for p in parts if p.isdigit() and str(int(p)) == p and int(p) <= W)


class Queue:
    def __init__(self, store, capacity, most):
        self.store, self.capacity, self.most = store, capacity, most
        store.call("sync")
        store.call("read")
        files, head = store.files, store.files.get(HEAD, b"")
        pages, checkpoints = numbers_in(files, "page"), numbers_in(files, "checkpoint")
        if newest(head) is None and len(head) <= 48 and not checkpoints and pages in ([], [0]):
            self.begin()
        else:
            self.read(tested(HEAD, head), pages, checkpoints)
        self.unread = [(n, p.rows[n - p.least]) for p in self.pages for n in range(max(p.open, p.least), p.end())]
        self.left = len(self.unread)

    def begin(self):
        self.store.call("cut", "page.0", 0)
        self.store.append("page.0", b"\x02")
        self.store.call("sync")
        self.pages = [started(0, 1, 0)]
        self.write_slot(HEAD, 0, self.pages[0])
        self.store.call("sync")

    def read(self, head, pages, checkpoints):
        top, files = head[2], self.store.files
        below = [n for n in pages if n < top]
        for n in pages:
            if n > top:
                self.store.call("remove", f"page.{n}")
        for n in checkpoints:
            if n >= top or n not in pages:
                self.store.call("remove", f"checkpoint.{n}")
        self.store.call("sync")
        self.store.call("read")
        said = [(n, tested(f"checkpoint.{n}", files.get(f"checkpoint.{n}", b""))) for n in below] + [(top, head)]
        for (_, before), (n, after) in zip(said, said[1:]):
            if after[4] < before[4] + before[5]:
                raise Damaged(f"page.{n}", 0, after[4], before[4] + before[5])
        self.pages = [Page(n, s, files.get(f"page.{n}", b""), n == top) for n, s in said]
        last = self.pages[-1]
        if last.length < len(files[last.name]):
            self.store.call("cut", last.name, last.length)
            self.store.call("sync")

    def write_slot(self, name, turn, page):
        turn %= 2**64
        self.store.call("write", name, 48 * (turn % 2), page.slot(turn))

    def write(self, origin):
        top = self.pages[-1]
        number, frame = top.end(), element(top.end(), body_of(2, origin))
        needed = top.version == 1 or (top.rows and top.length + len(frame) > self.capacity)
        if number == LAST or (needed and top.number + 1 == W):
            return "spent"
        held = any(p.first_open() < p.end() for p in self.pages)
        if held and sum(p.length for p in self.pages) + len(frame) + bool(needed) > self.most:
            return "full"
        if needed:
            self.mark()
            self.write_slot(f"checkpoint.{top.number}", 0, top)
            self.store.append(f"page.{top.number + 1}", b"\x02")
            self.store.call("sync")
            new = started(top.number + 1, number, top.turn + 1)
            self.write_slot(HEAD, new.turn, new)
            self.store.call("sync")
            top.turn = 0
            self.pages.append(new)
        top = self.pages[-1]
        self.store.append(top.name, frame)
        top.rows.append(origin)
        top.length += len(frame)
        self.unread.append((number, origin))
        self.left += 1
        return str(number)

    def mark(self):
        self.store.call("sync")
        for p in self.pages:
            top = p is self.pages[-1]
            if top or p.first_open() != p.recorded:
                p.turn = (p.turn + 1) % 2**64
                self.write_slot(HEAD if top else f"checkpoint.{p.number}", p.turn, p)
        self.store.call("sync")
        for p in self.pages:
            p.recorded = p.first_open()
        return str(self.pages[-1].end() - 1)

    def purge(self):
        for p in self.pages[:-1]:
            if p.recorded >= p.end():
                self.store.call("remove", p.name)
                self.store.call("sync")
                self.store.call("remove", f"checkpoint.{p.number}")
                self.pages.remove(p)
                return str(p.number)
        return "none"

    def take(self, most):
        if self.left == 0:
            return "none"
        self.store.call("read")
        given = [n for n, _ in self.unread if any(max(p.recorded, p.least) <= n < p.end() for p in self.pages)][:most]
        self.unread = [(n, origin) for n, origin in self.unread if given and n > given[-1]]
        self.left -= len(given)
        return " ".join(map(str, given)) or "none"

    def call(self, words):
        kind, _, what = words.partition(":")
        if kind == "a":
            first, behind = map(int, what.split("-"))
            for p in self.pages:
                p.gone |= set(range(max(first, p.least), min(behind, p.end())))
            return None
        calls = {"w": lambda: self.write(what), "k": lambda: self.write(what), "t": lambda: self.take(int(what)), "m": self.mark, "p": self.purge}
        return calls[kind]() if kind in calls else str(self.left)


# ---- the tables


def told(store, limits, runs):
    """What the calls answer, with an opening before each run; a call that didn't go well ends its run."""
    answers = []
    for run in runs:
        try:
            queue = Queue(store, *limits)
            answers.append("open")
            for words in run.split():
                answer = queue.call(words)
                answers += [] if answer is None else [answer]
                if answer in ("full", "spent"):
                    break
        except Damaged as damaged:
            name, place, found, expected = damaged.args
            answers.append(f"q/{name} at {place}: {found}, not {expected}")
        except Failed:
            answers.append("fault")
    return "".join(f"{answer}; " for answer in answers)


def each_new(answers):
    """Those that aren't the one before them."""
    return "".join(f"[{b}]" for a, b in zip(["", *answers], answers) if a != b)


ROWS = {"runs": [], "halts": [], "faults": []}


def row(table, limits, files, runs, answer):
    named = " | ".join(f"{name} {data.hex()}" for name, data in files.items())
    ROWS[table].append((" ; ".join([f"{limits[0]} {limits[1]} {named}".strip(), *runs]), answer))


def run(limits, files, *runs, expected=None):
    store = Store(files)
    answers = told(store, limits, runs)
    assert expected is None or answers == expected, (answers, expected)
    there = ", ".join(f"{name} {len(data)} {crc32(data):08x}" for name, data in sorted(store.files.items()))
    row("runs", limits, files, runs, f"{answers}[{there}]")
    return store


def images(store, moment, limits, run):
    """The answers for each choice of what a stop leaves, each once."""
    answers = ""
    for choice in range(4):
        new = told(store.image(moment, choice), limits, [run])
        answers += ("" if new in answers else new) + "|"
    return answers


def halts(limits, files, *runs):
    """A stop behind each change of the store."""
    store = Store(files)
    told(store, limits, runs[:-1])
    row("halts", limits, files, runs, each_new([images(store, moment, limits, runs[-1]) for moment in store.changes()]))


def faults(limits, files, *runs):
    """Each call of the store fails once, and then a stop comes."""
    answers, whole = [], Store(files)
    told(whole, limits, runs[:-1])
    for failing in range(len(whole.log) + 1):
        store = Store(files, failing)
        before = told(store, limits, runs[:-1])
        answers.append(f"{before.count(';')}: {images(store, len(store.log), limits, runs[-1])}")
    row("faults", limits, files, runs, each_new(answers))


# ---- rows with their answers, which were worked out by hand

AMPLE = 10**6
assert len(element(1, body_of(2, "i"))) == 29 and len(element(1, EMPTY)) == 24
TWO, OLD = page(2, 1, "i", "i"), page(1, 1, "", "")
THIRD = element(3, body_of(2, "i"))
ALL, NONE = (0, 1, 1, 2, 59), (0, 2, 1, 2, 49)


def folder(said, data, **more):
    """A head page, with its slot of turn 0; `p1` stands for `page.1`, and `c1` for `checkpoint.1`."""
    long = {"p": "page.", "c": "checkpoint."}
    return {HEAD: slot(0, *said), f"page.{said[0]}": data} | {long[name[0]] + name[1:]: file for name, file in more.items()}


# rows that are torn, given again, acknowledged in any order, and counted
run((59, AMPLE), folder(ALL, TWO + THIRD[:20]), "u t:9 w:i m", expected="open; 2; 1 2; 3; 3; ")
run((1000, AMPLE), {}, "w:i w:i w:i w:i t:2 t:2 a:3-5 m", "u t:9", expected="open; 1; 2; 3; 4; 1 2; 3 4; 4; open; 4; 1 2 3 4; ")
fourteen = run((59, AMPLE), {}, "w:i w:i w:i w:i w:i t:1 t:1 t:1 t:1 t:1 a:1-2 a:3-4 a:4-5 m p p", "u t:9", expected="open; 1; 2; 3; 4; 5; 1; 2; 3; 4; 5; 5; 1; none; open; 2; 2 5; ").files
run((1000, 59), {}, "w:i w:i w:i", expected="open; 1; 2; full; ")
run((1000, 58), {}, "w:i w:i", expected="open; 1; full; ")
run((24, AMPLE), {}, "w:i", expected="open; 1; ")
run((30, AMPLE), {}, "w:i w:i w:i t:1 t:1 t:1 a:2-3 m p", "u t:9 w:i", expected="open; 1; 2; 3; 1; 2; 3; 3; 1; open; 2; 1 3; 4; ")

# a page of version 1 is read, and never appended to
old = folder(NONE, OLD)
run((1000, AMPLE), old, "u t:9 w:i", expected="open; 1; 2; 3; ")
run((1000, AMPLE), old, "u t:9 w:i a:2-3 m p", expected="open; 1; 2; 3; 3; 0; ")
run((24, AMPLE), old, "u t:9 w:i w:i t:9 a:2-3 m p u", "u t:9", expected="open; 1; 2; 3; 4; 3 4; 4; 0; 0; open; 2; 3 4; ")
run((1000, AMPLE), folder(NONE, overlaid(0, b"\2", OLD)), "u", expected="q/page.0 at 1: 0, not 8; ")
run((1000, AMPLE), folder((0, 1, 1, 1, 25), OLD + element(3, EMPTY)[:9]), "t:9 w:i", expected="open; 1 2; 3; ")
run((59, AMPLE), folder((0, 1, 1, 3, 88), TWO + THIRD), "w:i t:9", expected="open; 4; 1 2 3 4; ")

# a mark doesn't pass a gap, and a purge leaves each page of which a row isn't recorded as acknowledged
run((88, AMPLE), {}, "w:i w:i w:i w:i t:4 a:1-2 a:3-4 p m p", "u", expected="open; 1; 2; 3; 4; 1 2 3 4; none; 4; none; open; 3; ")
run((30, AMPLE), {}, "w:i w:i w:i t:3 a:1-4 p m p p p", "u w:i", expected="open; 1; 2; 3; 1 2 3; none; 3; 0; 1; none; open; 0; 4; ")
run((59, AMPLE), {}, "w:i w:i w:i t:3 a:1-3 w:j w:k p p", "u", expected="open; 1; 2; 3; 1 2 3; 4; 5; 0; none; open; 3; ")
run((59, AMPLE), {}, "w:i t:1 a:1-2 m w:i t:9 m", "t:9", expected="open; 1; 1; 1; 2; 2; 2; open; 2; ")
run((59, AMPLE), {}, "t:1 w:i a:0-9 a:7-3 t:1 t:1 u m", "u", expected="open; none; 1; 1; none; 0; 1; open; 0; ")

# rows that are kept for their batch are given as others are, in parts, and none twice, nor behind the next opening
run((1000, AMPLE), {}, "k:i k:i k:j t:2 k:i t:9 t:9 u a:1-5 m", "u t:9 k:i t:9", expected="open; 1; 2; 3; 1 2; 4; 3 4; none; 0; 4; open; 0; none; 5; 5; ")

# kept and read ones mixed: a kept row behind one that is read, and the other way round
run((1000, AMPLE), {}, "w:i k:i w:i k:i t:1 t:2 t:1 t:1", expected="open; 1; 2; 3; 4; 1; 2 3; 4; none; ")
run((1000, AMPLE), {}, "k:i w:i k:i t:9 w:i k:i t:9 u", expected="open; 1; 2; 3; 1 2 3; 4; 5; 4 5; 0; ")

# a row that is kept of a page below the head is read: over three pages, of which the first has given its first row; and where each page has one row
run((59, AMPLE), {}, "k:i k:i k:i t:1 k:i k:i t:3 k:i t:9 a:1-7 m p p p", "u", expected="open; 1; 2; 3; 1; 4; 5; 2 3 4; 6; 5 6; 6; 0; 1; none; open; 0; ")
run((30, AMPLE), {}, "k:i k:i k:i t:2 k:i t:9", expected="open; 1; 2; 3; 1 2; 4; 3 4; ")

# acknowledged before it is given, a kept row is given as long as no mark records that, and not behind a mark, which leaves it uncounted
run((1000, AMPLE), {}, "k:i k:i a:1-2 t:9 u", expected="open; 1; 2; 1 2; 0; ")
run((1000, AMPLE), {}, "k:i k:i k:i a:1-2 m t:9 u t:9 a:2-4 m", "u", expected="open; 1; 2; 3; 3; 2 3; 1; none; 3; open; 0; ")
run((1000, AMPLE), {}, "w:i k:i k:i a:1-3 m t:9 k:i t:9", expected="open; 1; 2; 3; 3; 3; 4; 4; ")
run((59, AMPLE), {}, "k:i k:i k:i a:1-3 m p t:9", "t:9", expected="open; 1; 2; 3; 3; 0; 3; open; 3; ")

# a kept row that has no room in the queue isn't written
run((1000, 59), {}, "k:i k:i k:i", expected="open; 1; 2; full; ")

# numbers go on behind an opening, up to the last ones
run((59, AMPLE), {}, "w:i w:i t:2 a:1-3 m", "t:1 w:i t:1", expected="open; 1; 2; 1 2; 2; open; none; 3; 3; ")
run((59, AMPLE), folder((3, 7, 7, 0, 1), b"\2"), "u w:i t:1", expected="open; 0; 7; 7; ")
run((59, AMPLE), folder((0, LAST - 1, LAST - 1, 0, 1), b"\2"), "w:i w:i", "t:9 w:i", expected=f"open; {LAST - 1}; spent; open; {LAST - 1}; spent; ")
run((59, AMPLE), folder((W - 1, 5, 5, 0, 1), b"\2"), "w:i w:i w:i", "u", expected="open; 5; 6; spent; open; 2; ")
run((59, AMPLE), {"page.0": TWO, HEAD: slot(2**64 - 2, *ALL) + slot(2**64 - 1, *ALL)}, "t:1 a:1-2 m", "t:9 m", expected="open; 1; 2; open; 2; 2; ")

# full only while a row isn't acknowledged
run((1000, 59), {}, "w:i w:i t:2 a:1-3 w:i w:i", "t:9 a:1-4 w:i", expected="open; 1; 2; 1 2; 3; full; open; 1 2 3; 4; ")
run((30, 60), {}, "w:i w:i w:i", expected="open; 1; 2; full; ")
run((30, 59), {}, "w:i w:i", expected="open; 1; full; ")
run((30, 89), {}, "w:i w:i w:i", "t:1 a:1-2 m p w:i", expected="open; 1; 2; full; open; 1; 2; 0; 3; ")
run((1000, 1), {}, "w:longer t:1 a:1-2 w:i w:i", expected="open; 1; 1; 2; full; ")

# files that aren't the queue's, and those of which nothing is found
others = {name: b"x" for name in ["page.007", "page.00", "page.4294967296", "page.0.old", "page", "page.", "checkpoint.01", "checkpoint.head.old", "out.log", "page.-1"]}
run((59, AMPLE), others, "u w:i", expected="open; 0; 1; ")
run((59, AMPLE), fourteen | others, "u t:9 w:i", expected="open; 2; 2 5; 6; ")
gone = {name: b"x" for name in ["page.3", "page.10", f"page.{W}", "checkpoint.1", "checkpoint.2", f"checkpoint.{W}"]}
run((59, AMPLE), fourteen | gone, "u t:9 w:i", expected="open; 2; 2 5; 6; ")
run((59, AMPLE), {"page.0": TWO}, "u w:i", expected="open; 0; 1; ")
run((59, AMPLE), {"page.0": TWO, HEAD: slot(0, *ALL)[:47]}, "u w:i", expected="open; 0; 1; ")
run((59, AMPLE), folder(ALL, TWO + THIRD + element(5, body_of(2, "i"))), "u t:9 w:i", expected="open; 3; 1 2 3; 4; ")

# damage, of a folder of each version
for version in [1, 2]:
    two = page(version, 1, "i", "i")
    size = (len(two) - 1) // 2
    at, end = 1 + size, len(two)
    said = (0, 1, 1, 2, end)

    def damage(data, place, found, expected, last=slot(1, *said), name="page.0", first=slot(0, *said)):
        files = {"page.0": data, HEAD: first + last}
        run((1000, AMPLE), files, "u", expected=f"q/{name} at {place}: {found}, not {expected}; ")

    first, second = overlaid(13, b"\1", two), overlaid(at + 12, b"\1", two)
    damage(two[:40], 40, 40, end)
    damage(overlaid(0, b"\7", two), 0, 7, 2)
    damage(overlaid(1, u(8, 3), two), 1, 3, 1)
    damage(overlaid(9, u(4, 200), two), 1, 217, end)
    damage(second, at, number_at(two, end - 4, 4), crc32(second[at : end - 4]))
    damage(first + element(3, body_of(version, "i"))[:20], 1, number_at(two, at - 4, 4), crc32(first[1 : at - 4]))
    damage(two, 0, 2, 3, slot(1, 0, 1, 1, 3, end))
    damage(two, 0, 9, 1, slot(1, *said, version=9), HEAD)
    damage(two, 0, W, W - 1, slot(1, W, *said[1:]), HEAD)
    damage(two, 0, 0, 1, slot(1, 0, 1, 0, 2, end), HEAD)
    damage(two, 0, LAST, LAST - 2, slot(1, 0, 1, LAST, 2, end), HEAD)
    broken = [overlaid(44, bytes(4), slot(turn, *said)) for turn in [0, 1]]
    damage(two, 0, 0, crc32(broken[0][:44]), broken[1], HEAD, broken[0])
    damage(two, 0, 1, 0, b"x", HEAD, slot(1, *said))
    # with fewer bytes than a slot has, and nothing beside page 0, the folder is new: its rows are gone
    cut = (slot(0, *said) + slot(1, *said))[:30]
    run((1000, AMPLE), {"page.0": two, HEAD: cut}, "u t:9 w:i", expected="open; 0; none; 1; ")

more = folder((1, 3, 3, 0, 1), b"\2", p0=TWO, c0=slot(0, *ALL))
run((59, AMPLE), more, "u t:9", expected="open; 2; 1 2; ")
run((59, AMPLE), more | {HEAD: b""}, "u", expected=f"q/{HEAD} at 0: 0, not 48; ")
run((59, AMPLE), more | {HEAD: slot(5, *ALL)}, "u", expected=f"q/{HEAD} at 0: 5, not 4; ")
run((59, AMPLE), folder((1, 3, 3, 0, 1), b"\2", p0=TWO), "u", expected="q/checkpoint.0 at 0: 0, not 48; ")
run((59, AMPLE), folder((1, 3, 3, 0, 1), b"\2", p0=TWO, c0=slot(0, *ALL, version=3)), "u", expected="q/checkpoint.0 at 0: 3, not 1; ")
run((59, AMPLE), folder((1, 2, 2, 0, 1), b"\2", p0=TWO, c0=slot(0, *ALL)), "u", expected="q/page.1 at 0: 2, not 3; ")
run((59, AMPLE), folder((1, 4, 4, 0, 1), b"\2", p0=TWO, c0=slot(0, *ALL)), "u t:9 w:i", expected="open; 2; 1 2; 4; ")
run((59, AMPLE), folder((1, 3, 3, 0, 1), b"", p0=TWO, c0=slot(0, *ALL)), "u", expected="q/page.1 at 0: 0, not 1; ")
run((59, AMPLE), folder((1, 3, 3, 0, 1), b"\2", p0=TWO[:58], c0=slot(0, *ALL)), "u", expected="q/page.0 at 58: 58, not 59; ")
run((59, AMPLE), folder((1, 3, 3, 0, 1), b"\2", p0=TWO + b"x", c0=slot(0, *ALL)), "u t:9", expected="open; 2; 1 2; ")

# a page below the head that others wrote: its slot has another number, and bytes stand behind its rows
strange = folder((1, 3, 3, 0, 1), b"\2", p0=TWO + THIRD + b"x", c0=slot(0, 7, *ALL[1:]))
run((59, AMPLE), strange, "u t:1 a:1-2 m", "u t:9 a:2-3 w:i m p", "u t:9", expected="open; 2; 1; 2; open; 1; 2; 3; 3; 0; open; 1; 3; ")
run((59, AMPLE), strange, "w:i w:i w:i t:9 a:1-6 m p p", "u w:i", expected="open; 3; 4; 5; 1 2 3 4 5; 5; 0; 1; open; 0; 6; ")

# ---- a stop at each change, and a call that fails

BEHIND = "u t:9 w:z t:9 m p p u"
TWENTY = "w:a w:b w:c t:2 a:1-2 m w:d t:2 a:4-5 w:e m a:2-4 m p w:f t:9 a:5-6 a:6-7 m p"
for table in [halts, faults]:
    table((59, AMPLE), {}, TWENTY, BEHIND)
    table((59, AMPLE), {}, "w:a w:b t:2 a:1-2 m", "w:c t:9 a:2-3 m p", BEHIND)
    table((59, AMPLE), old, "w:a t:9 a:2-3 m p", BEHIND)
    table((59, AMPLE), fourteen | gone | {"page.2": fourteen["page.2"] + b"torn"}, "t:1 a:2-3 m w:i", BEHIND)
halts((30, AMPLE), {}, "w:a w:b w:c t:9 a:1-4 m p p", BEHIND)
halts((1000, 59), {}, "w:a w:b w:c", "t:9 a:1-3 w:d m", BEHIND)
halts((59, AMPLE), strange, "t:1 a:1-2 m w:i t:9 a:2-3 m p", BEHIND)
