"""The tools for queues by the tables of the formats: what a check says of a folder, and which rows a repair takes of it,
by the queue of `queue_rows.py` and a reading of pages of its own. `rows.py` takes the table from here."""

from queue_rows import HEAD, LAST, W, Damaged, Queue, Store, body_of, element, folder, fourteen, newest, number_at, numbers_in, overlaid, page, slot, u
from zlib import crc32

LIMITS = 2**26, 2**64 - 1


def run_of(data):
    """The numbers and origins of the longest run of intact elements from the first one on."""
    rows, at = [], 1
    while data[:1] in (b"\1", b"\2") and at + 16 <= len(data):
        number, size = number_at(data, at, 8), number_at(data, at + 8, 4)
        end = at + 16 + size
        if (rows and number != rows[-1][0] + 1) or end > len(data) or crc32(data[at : end - 4]) != number_at(data, end - 4, 4):
            break
        body = data[at + 12 : end - 4]
        origin = "unknown"
        if data[0] == 2:
            if not 1 <= number_at(body, 0, 4) <= 255:
                break
            origin = body[4:-8].decode()
        if body != body_of(data[0], origin):
            break
        rows.append((number, origin))
        at = end
    return rows


def salvaged(files):
    rows, end = [], 0
    head = newest(files.get(HEAD, b""))
    for n in numbers_in(files, "page"):
        run = run_of(files[f"page.{n}"])
        own = newest(files.get(f"checkpoint.{n}", b""))
        first_open = own[3] if own else head[3] if head and head[2] == n else 0
        if run and run[0][0] >= end:
            rows += [origin for number, origin in run if number >= first_open]
        if run:
            end = max(end, run[-1][0] + 1)
    return rows


def repaired(files):
    """The files of the new queue."""
    store = Store({})
    queue = Queue(store, *LIMITS)
    for origin in salvaged(files):
        queue.write(origin)
    queue.mark()
    return store.files


def checked(files):
    try:
        return f"0 done [rows {len(Queue(Store(files), *LIMITS).unread)}]"
    except Damaged as damaged:
        name, place, found, expected = damaged.args
        text = f"pipeline main: damaged data/main/{name} at {place}: found {found}, expected {expected}"
        return f"7 {text} [logstash: {text}]"


ROWS = {"tools": []}


def named(where, files):
    return [f"{where}{name} {data.hex()}".strip() for name, data in files.items()]


def shown(where, files):
    return [f"{where}{name} {len(data)} {crc32(data):08x}" for name, data in files.items()]


def row(words, files, answer, more={}):
    """Behind the answer stand all files, which are those from before, but for those of a new queue."""
    there = sorted(shown("data/main/", files) + shown("data/main.repaired/", more))
    ROWS["tools"].append((f"{words} ; " + " | ".join(named("data/main/", files)), f"{answer} [{', '.join(there)}]"))


def tools(files, check=None, count=None):
    """A check and a repair of a folder; the numbers that were worked out by hand are those of rows, -1 for a damage."""
    said, rows = checked(files), salvaged(files)
    assert check is None or said.startswith("7" if check < 0 else f"0 done [rows {check}]"), said
    assert count is None or len(rows) == count, rows
    row("--pqcheck main", files, said)
    row("--pqrepair main", files, f"0 done [rows {len(rows)}]", repaired(files))


# ---- rows with their counts, which were worked out by hand

TWO, OLD = page(2, 1, "i", "j"), page(1, 1, "", "")
THIRD = element(3, body_of(2, "k"))
ALL, NONE = (0, 1, 1, 2, 59), (0, 2, 1, 2, 49)

# folders that aren't damaged
tools({}, 0, 0)
tools({"page.0": TWO}, 0, 2)
tools(folder(ALL, TWO), 2, 2)
tools(folder(ALL, TWO + THIRD), 3, 3)
tools(folder((0, 2, 1, 2, 59), TWO + THIRD), 2, 2)
tools(folder((0, 3, 1, 2, 59), TWO), 0, 0)
tools(folder(NONE, OLD), 1, 1)
tools(fourteen, 2, 2)
more = folder((1, 3, 3, 1, 30), b"\2" + THIRD, p0=TWO, c0=slot(0, *ALL))
tools(more, 3, 3)

# of each version: a page that is cut, or of which a byte is another
for version in [1, 2]:
    two = page(version, 1, "i", "j")
    size = (len(two) - 1) // 2
    at, end = 1 + size, len(two)
    said = (0, 1, 1, 2, end)

    def damage(data, count, last=slot(1, *said), first=slot(0, *said)):
        tools({"page.0": data, HEAD: first + last}, -1, count)

    damage(two[: end - 1], 1)
    damage(two[: at + 11], 1)
    damage(two[:at], 1)
    damage(two[: at - 1], 0)
    damage(b"", 0)
    damage(overlaid(0, b"\3", two), 0)
    damage(overlaid(8, b"\2", two), 0)
    damage(overlaid(at + 7, b"\3", two), 1)
    damage(overlaid(11, b"\1", two), 0)
    damage(overlaid(at + 8, u(4, 200), two), 1)
    damage(overlaid(13, b"\1", two), 0)
    damage(overlaid(at + 12, b"\7", two), 1)
    damage(overlaid(end - 1, u(1, two[-1] ^ 1), two), 1)
    damage(two, 2, slot(1, 0, 1, 1, 3, end))
    damage(two, 1, slot(1, 0, 2, 1, 2, end, version=9))
    damage(two, 1, slot(1, 0, 2, 1, 2, end - 1))
    damage(two, 2, slot(1, W, 2, 1, 2, end))
    damage(two, 1, slot(1, 0, 2, 0, 2, end))
    damage(two, 2, b"x", slot(1, *said))
    damage(two, 1, overlaid(44, bytes(4), slot(1, 0, 2, 1, 2, end)), slot(0, 0, 2, 1, 3, end))

# pages below the head: their checkpoints, and their numbers
tools(more | {HEAD: b""}, -1, 3)
tools(more | {HEAD: slot(5, 1, 4, 3, 1, 30)}, -1, 3)
tools({name: data for name, data in more.items() if name != "checkpoint.0"}, -1, 3)
tools(more | {"checkpoint.0": slot(0, 0, 2, 1, 2, 59)}, 2, 2)
tools(more | {"checkpoint.0": slot(0, 0, 2, 1, 2, 59)[:47]}, -1, 3)
tools(more | {"checkpoint.0": overlaid(20, b"\1", slot(0, 0, 3, 1, 2, 59))}, -1, 3)
tools(more | {"checkpoint.0": slot(0, 7, 3, 1, 2, 59, version=2)}, -1, 1)
tools(more | {"page.0": TWO[:40]}, -1, 2)
tools(more | {"page.1": b""}, -1, 2)
tools(more | {"page.1": b"\2" + overlaid(14, b"\5", THIRD)}, -1, 2)
tools(folder((1, 2, 2, 1, 30), b"\2" + element(2, body_of(2, "x")), p0=TWO, c0=slot(0, *ALL)), -1, 2)
tools(folder((1, 9, 9, 1, 30), b"\2" + element(9, body_of(2, "x")), p0=TWO, c0=slot(0, *ALL)), 3, 3)
tools(folder((2, 5, 5, 0, 1), b"\2", p0=page(2, 1, *"abcd"), c0=slot(0, 0, 1, 1, 4, 117), p1=page(2, 3, *"xyzuv")), -1, 4)
tools(folder((2, 7, 7, 1, 30), page(2, 7, "w"), p0=page(2, 1, *"abcd"), c0=slot(0, 0, 5, 1, 4, 117), p1=page(2, 3, *"xyzuv"), c1=slot(0, 1, 3, 3, 5, 146)), -1, 0)
tools(folder((2, 8, 8, 1, 30), page(2, 8, "w"), p0=page(2, 1, *"abcd"), c0=slot(0, 0, 5, 1, 4, 117), p1=page(2, 3, *"xyzuv"), c1=slot(0, 1, 3, 3, 5, 146)), -1, 1)

# whatever numbers the first elements have, and files above the head
tools(folder(ALL, page(2, 6, "a", "b")), -1, 2)
tools(folder(ALL, page(2, 0, "a", "b")), -1, 1)
tools(folder(ALL, page(2, 2**64 - 1, "a")), -1, 1)
tools(folder((0, LAST, LAST - 1, 1, 30), page(2, LAST - 1, "a")), 0, 0)
tools(folder(ALL, TWO) | {"page.7": b"\2" + THIRD}, 2, 3)
tools(folder(ALL, TWO) | {"page.007": b"\2" + THIRD, "page.4294967296": b"x"}, 2, 2)
tools({"page.5": TWO, "page.6": b"\1" + element(3, bytes(8))}, -1, 3)

# words, and a folder that isn't new
for words in ["--pqcheck", "--pqcheck main --pqrepair main", "-e x", ""]:
    row(words, folder(ALL, TWO), f"1 words: {'both' if 'repair' in words else 'unread'} []")
row("--pqrepair ma.in", folder(ALL, TWO), "1 words: range --pqrepair []")
