"""Makes the tables of this folder, and `../stdout`, by the tables of the formats: run it in this folder.

All numbers are big endian. The answers stand beside their rows and were worked out by hand, but for the CRC-32 of bytes,
which is that of `zlib`, and for what stops leave of an output, which is worked out here from its calls.
"""

from queue_rows import EMPTY, ROWS as QUEUES, checked, element, foreign, overlaid, slot, u
from tool_rows import ROWS as TOOLS
from zlib import crc32

TABLES = ["pages", "prefixes", "heads", "failing", "appends", "slots", "turns", "names", "positions", "outputs", "batches", "images", "letters", "sheds", "segments", "counts", "queues", "stops", "senders", "runs", "halts", "faults", "tools", "frames"]
ROWS = {name: [] for name in TABLES} | QUEUES | TOOLS
LAST = 2**63 - 1


def page(version, bodies, least=1):
    return u(1, version) + b"".join(element(least + i, body) for i, body in enumerate(bodies))


def changed(data, at, new):
    return data[:at] + new + data[at + len(new) :]


def digits(data):
    """Bytes in base 16, a long run of the letter x by its number."""
    at = data.find(b"x" * 200)
    if at < 0:
        return data.hex()
    count = len(data) - at - len(data[at:].lstrip(b"x"))
    return f"{data[:at].hex()} {count}*78 {data[at + count:].hex()}"


def row(table, words, data, answer):
    ROWS[table].append((f"{words} {digits(data)}".strip(), answer))


# ---- pages

FIFTEEN = bytes.fromhex("0000000100000001610300000000000000" + "0f0100000000")  # a = 1.5
TEN = bytes.fromhex("0000000100000001610300000000000000" + "0a0100000000")  # 10 with a scale of 1
LONG = bytes.fromhex("000000010000000161") + b"\x04" + u(4, 70000) + b"x" * 70000 + bytes(4)


def named(origin, event=EMPTY):
    return u(4, len(origin)) + origin + event


def damaged(place, found, expected):
    return f"page.0 at {place}: {found}, not {expected}"


def says(version, rows, end, whole):
    """`rows` has a number, an origin and an event each, and no origin in a page of version 1."""
    shown = [f"{n} " + (f'"{o}" ' if version == 2 else "unknown ") + f"{e}|{{}}" for n, o, e in rows]
    return " | ".join([f"version {version}, {len(rows)} rows, {end} of {whole} bytes", *shown, "again"])


def empties(count, least=1):
    return [(least + i, "i", "{}") for i in range(count)]


def crc_damage(place, frame):
    return damaged(place, int.from_bytes(frame[-4:], "big"), crc32(frame[:-4]))


I = named(b"i")
TWO = {1: page(1, [EMPTY, EMPTY]), 2: page(2, [I, I])}
for version, two in TWO.items():
    whole = len(two)  # 49, and 59
    size = (whole - 1) // 2  # of an element
    body = size - 16
    words = f"sealed 1 2 {whole}"
    second = two[1 + size :]

    def put(data, answer, words=words):
        row("pages", words, data, answer)

    put(two, says(version, empties(2), whole, whole))
    put(two + b"more", says(version, empties(2), whole, whole + 4))
    put(two[:40], damaged(40, 40, whole))
    put(b"", damaged(0, 0, whole))
    for first in [7, 0, 3, 255]:
        put(changed(two, 0, u(1, first)), damaged(0, first, 2))
    put(changed(two, 1, u(8, 3)), damaged(1, 3, 1))
    put(changed(two, 1, u(8, 2**64 - 1)), damaged(1, 2**64 - 1, 1))
    put(changed(two, 1 + size, u(8, 1)), damaged(1 + size, 1, 2))
    put(two, damaged(1, 1, 2), f"sealed 2 2 {whole}")
    put(two, damaged(1, 0, 1), "sealed 1 1 5")
    put(two, damaged(1, 17, 10), "sealed 1 1 10")
    put(changed(two, 9, u(4, 200)), damaged(1, 217, whole))
    put(changed(two, 9, u(4, 2**32 - 1)), damaged(1, 17 + 2**32 - 1, whole))
    put(changed(two, 9, u(4, body - 1)), crc_damage(1, changed(two, 9, u(4, body - 1))[1:size]))
    put(changed(two, 1 + size + 12, b"\x01"), crc_damage(1 + size, changed(second, 12, b"\x01")))
    put(changed(two, 1 + size - 4, bytes(4)), damaged(1, 0, crc32(two[1 : 1 + size - 4])))
    for count in [3, 1, 0, 2**32 - 1]:
        put(two, damaged(0, 2, count), f"sealed 1 {count} {whole}")
    least = LAST - 2
    last = page(version, [I if version == 2 else EMPTY] * 2, least)
    put(last, says(version, empties(2, least), whole, whole), f"sealed {least} 2 {whole}")

row("pages", "sealed 1 0 0", b"", damaged(0, 0, 2))
row("pages", "sealed 1 2 49", changed(TWO[1], 0, b"\x02"), damaged(1, 0, 8))
row("pages", "sealed 1 2 59", changed(TWO[2], 0, b"\x01"), damaged(1, 13, 14))


def one(version, body, answer):
    data = page(version, [body])
    row("pages", f"sealed 1 1 {len(data)}", data, answer)


one(1, FIFTEEN, says(1, [(1, "", '{"a":1.5}')], 40, 40))
one(1, TEN, damaged(1, 9, 23))
one(1, FIFTEEN[:22], damaged(1, 22, 23))
one(1, b"", damaged(1, 0, 1))
one(1, EMPTY + b"\x00", damaged(1, 8, 9))
one(2, named(b"i", FIFTEEN), says(2, [(1, "i", '{"a":1.5}')], 45, 45))
one(2, named(b"i", TEN), damaged(1, 14, 28))
one(2, named(b"i", FIFTEEN[:22]), damaged(1, 27, 28))
one(2, b"", damaged(1, 0, 1))
one(2, bytes(3), damaged(1, 3, 4))
one(2, named(b""), damaged(1, 0, 12))
one(2, named(b"x" * 256), damaged(1, 0, 268))
one(2, named(b"x" * 255), says(2, [(1, "x" * 255, "{}")], 284, 284))
one(2, u(4, 9) + b"i", damaged(1, 5, 6))
one(2, named(b"\xff"), damaged(1, 4, 13))
one(2, named("é".encode()), says(2, [(1, "é", "{}")], 31, 31))
one(2, I + b"\x00", damaged(1, 13, 14))
long = page(2, [I, named(b"i", LONG), I])
length = 1 + 29 + (16 + 5 + 14 + 70000 + 4) + 29
rows = [(1, "i", "{}"), (2, "i", "70008 bytes of JSON"), (3, "i", "{}")]
row("pages", f"sealed 1 3 {length}", long, says(2, rows, length, length))

THREE = page(2, [I, I, I])
for cut in range(len(THREE) + 1):
    kept = (cut - 1) // 29
    answer = damaged(cut, cut, 30) if cut < 30 else says(2, empties(kept), 1 + 29 * kept, 1 + 29 * kept)
    row("prefixes", "head 1 1 30", THREE[:cut], answer)

# ---- head pages, and what stands behind their extents

THIRD, FOURTH = element(3, I), element(4, I)
TORN = changed(THIRD, 20, b"\x01")
for behind, kept in [
    (b"", 2),
    (THIRD[:14], 2),
    (THIRD[:-1], 2),
    (THIRD, 3),
    (THIRD + FOURTH, 4),
    (THIRD + FOURTH[:20], 3),
    (TORN, 2),
    (TORN + FOURTH, 2),
    (changed(THIRD, 28, b"\x00") + FOURTH, 2),
    (element(1, I), 2),
    (element(2, I), 2),
    (element(5, I), 2),
    (FOURTH + THIRD, 2),
    (THIRD + THIRD, 3),
    (THIRD + element(1, I) + FOURTH, 3),
    (bytes(100), 2),
    (THIRD + bytes(16), 3),
    (element(3, EMPTY), 2),
    (element(3, named(b"i", TEN)) + FOURTH, 2),
]:
    end = 1 + 29 * kept
    row("heads", "head 1 2 59", TWO[2] + behind, says(2, empties(kept), end, end))
row("heads", "sealed 1 2 59", TWO[2] + THIRD, says(2, empties(2), 59, 88))
row("heads", "head 1 2 49", TWO[1] + element(3, EMPTY), says(1, empties(3), 73, 73))
row("heads", "head 1 2 49", TWO[1] + THIRD, says(1, empties(2), 49, 49))
row("heads", "head 1 0 1", THREE, says(2, empties(3), 88, 88))
row("heads", "head 7 0 1", b"\x02", says(2, [], 1, 1))
row("heads", "head 7 0 1", b"\x02" + element(6, I), says(2, [], 1, 1))
row("heads", f"head {LAST - 1} 0 1", page(2, [I, I], LAST - 1), says(2, empties(1, LAST - 1), 30, 30))
row("heads", f"head {LAST} 0 1", page(2, [I], LAST), says(2, [], 1, 1))
broken = changed(TWO[2] + THIRD[:14], 17, b"\x01")
row("heads", "head 1 2 59", broken, crc_damage(1, broken[1:30]))
row("heads", "head 1 2 59", TWO[2][:58], damaged(58, 58, 59))

# ---- calls that fail: the length, a read, the cut, the sync, a read of rows, and one of a row by its place

says_two = "version 2, 2 rows, 59 of 59 bytes"
for call in range(4):
    row("failing", f"{call} head 1 2 59", TWO[2] + THIRD[:14], "fault, of 1")
row("failing", "4 head 1 2 59", TWO[2] + THIRD[:14], f"{says_two} | fault, of 1")
row("failing", "5 head 1 2 59", TWO[2] + THIRD[:14], f'{says_two} | unlike 1 "i" {{}}|{{}} | 2 "i" {{}}|{{}} | again')

# ---- appends


def appended(origin, words, data, answer):
    row("appends", f"{origin} {words}", data, answer)


for behind in [b"", THIRD[:14], TORN, element(2, I)]:
    appended("i", "head 1 2 59", TWO[2] + behind, f"done, 3 rows, 88 bytes: {(TWO[2] + THIRD).hex()}")
appended("up", "head 1 2 59", TWO[2] + THIRD, f"done, 4 rows, 118 bytes: {(THREE + element(4, named(b'up'))).hex()}")
appended("i", "head 7 0 1", b"\x02", f"done, 1 rows, 30 bytes: {(page(2, [I], 7)).hex()}")
wide = element(1, named(b"o" * 255))
appended("o" * 255, "head 1 0 1", b"\x02", f"done, 1 rows, 284 bytes: 02{wide.hex()}")
appended("o" * 256, "head 1 0 1", b"\x02", "not done, 0 rows, 1 bytes: 02")
appended("i", "head 1 2 49", TWO[1], f"not done, 2 rows, 49 bytes: {TWO[1].hex()}")

# ---- checkpoint files

MOST = 2**64 - 1


def state(turn, fields):
    number, first_open, least, count, length = fields
    return f"turn {turn}: page {number}, open {first_open}, least {least}, {count} rows, {length} bytes"


def file_says(newest, version, data):
    first = data[:48]
    sums = (int.from_bytes(first[44:], "big"), crc32(first[:44])) if len(data) >= 48 else (0, 0)
    turn = int.from_bytes(first[2:10], "big") if len(data) >= 48 else 0
    return f"{newest}; version {version}, {len(data)} bytes, {sums[0]:08x} {sums[1]:08x} {turn}"


def newest(data, said, version):
    row("slots", "", data, file_says(said, version, data))


F, G = (0, 1, 1, 2, 49), (3, 17, 12, 9, 4000)
GREAT = (2**32 - 1, MOST, MOST, 2**32 - 1, MOST)


def s(turn, fields=F, **more):
    return slot(turn, *fields, **more)


def pair(turn, other, last):
    """A slot at 0 and one at 48, of which the one of turn `last` is the newest."""
    newest(s(turn) + s(other, G), state(last, F if last == turn else G), 1)


newest(b"", "none", 0)
newest(s(0)[:30], "none", 0)
newest(s(0)[:47], "none", 0)
newest(s(0), state(0, F), 1)
newest(s(0) + s(1, G)[:47], state(0, F), 1)
pair(0, 1, 1)
pair(2, 1, 2)
pair(2, 3, 3)
pair(MOST - 1, MOST, MOST)
pair(0, MOST, 0)
pair(2, MOST, MOST)
newest(s(0, GREAT) + s(MOST, F), state(0, GREAT), 1)
newest(s(MOST), "none", 0)
newest(s(1) + s(0), "none", 0)
newest(s(1) + s(1, G), state(1, G), 1)
bad = changed(s(0), 47, u(1, s(0)[47] ^ 1)) + changed(s(1, G), 44, u(1, s(1, G)[44] ^ 128))
newest(bad, "none", 0)
newest(bad[:48] + s(1, G), state(1, G), 1)
newest(s(0) + s(1, G, version=9), state(1, G), 9)
newest(s(0, zero=1), state(0, F), 1)
newest(s(2)[:20] + s(0)[20:] + s(1, G), state(1, G), 1)
newest(s(0) + s(1, G) + b"more", state(1, G), 1)


def written(turn, fields, data, new, said):
    number, first_open, least, count, length = fields
    row("turns", f"{turn} {number} {first_open} {least} {count} {length}", data, f"{new.hex()} | {file_says(said, 1, new)}")


written(0, F, b"", s(0), state(0, F))
written(0, F, s(0)[:30], s(0), state(0, F))
written(1, G, s(0), s(0) + s(1, G), state(1, G))
written(2, G, s(0) + s(1), s(2, G) + s(1), state(2, G))
written(1, GREAT, s(0), s(0) + s(1, GREAT), state(1, GREAT))
written(MOST, G, s(MOST - 1), s(MOST - 1) + s(MOST, G), state(MOST, G))
written(0, G, s(MOST - 1) + s(MOST), s(0, G) + s(MOST), state(0, G))
written(1, G, s(0) + s(MOST), s(0) + s(1, G), state(1, G))
written(3, G, s(2) + s(1)[:20], s(2) + s(3, G), state(3, G))
row("turns", "1 0 1 1 0 1", s(0)[:47], "not done")

# ---- names of position files

for path, name in [
    ("out.log", "out.log"),
    ("", ""),
    ("AZaz09.-", "AZaz09.-"),
    ("/var/log/a b.txt", "_2fvar_2flog_2fa_20b.txt"),
    ("a_2f", "a_5f2f"),
    ("\t\x01\x7f~", "_09_01_7f_7e"),
    ("é/@[`{:", "_c3_a9_2f_40_5b_60_7b_3a"),
]:
    ROWS["names"].append((f"out {path}", f"out.{name}"))
    ROWS["names"].append((f"in {path}", f"in.{name}"))

# ---- position files


def place(turn, position, version=1, zero=0):
    return checked(u(2, version) + u(8, turn) + u(8, position) + u(2, zero))


def recorded(data, answer):
    row("positions", "", data, answer)


def unslotted(data):
    stored, computed = int.from_bytes(data[20:24], "big"), crc32(data[:20])
    return f"{stored}, not {computed}"


P, Q = place(0, 6), place(1, 4000)
BROKEN = changed(P, 23, u(1, P[23] ^ 1)) + changed(Q, 20, u(1, Q[20] ^ 128))
recorded(b"", "nothing")
recorded(P[:10], "nothing")
recorded(P[:23], "nothing")
recorded(bytes(24), "nothing")
recorded(Q, "nothing")  # the slot of an odd turn at 0
recorded(P, "6 in turn 0")
recorded(P + Q[:23], "6 in turn 0")
recorded(P + Q, "4000 in turn 1")
recorded(place(2, 9) + Q, "9 in turn 2")
recorded(place(MOST - 1, 7) + place(MOST, 8), f"8 in turn {MOST}")
recorded(P + place(MOST, 8), "6 in turn 0")
recorded(place(0, MOST), f"{MOST} in turn 0")
recorded(BROKEN[:24] + Q, "4000 in turn 1")
recorded(P + BROKEN[24:], "6 in turn 0")
recorded(P + Q + b"more", "4000 in turn 1")
recorded(place(0, 6, version=9, zero=1), "6 in turn 0")
recorded(BROKEN, unslotted(BROKEN))
recorded(BROKEN[:25], unslotted(BROKEN))
recorded(bytes(48), f"0, not {crc32(bytes(20))}")
recorded(Q + P, "1, not 0")  # each at the other's place
recorded(place(MOST, 5) + b"x", f"{MOST}, not {MOST - 1}")

# ---- output files: their position files first

TEXT = b"0123456789"


def hexed(*parts):
    return " | ".join(part.hex() for part in parts).rstrip()


def opened(slots, file, answer):
    ROWS["outputs"].append((hexed(slots, file), answer))


def holds(slots, file):
    return f"{slots.hex()} {file.hex()}"


opened(P, TEXT, holds(P, TEXT[:6]))
opened(P, TEXT[:6], holds(P, TEXT[:6]))
opened(P, TEXT[:5], "out.log at 5: 5, not 6")
opened(P, b"", "out.log at 0: 0, not 6")
opened(P + Q, TEXT, "out.log at 10: 10, not 4000")
opened(P + place(1, 0), TEXT, holds(P + place(1, 0), b""))
opened(place(0, 0), b"", holds(place(0, 0), b""))
opened(b"", TEXT, holds(place(0, 10), TEXT))
opened(b"", b"", holds(place(0, 0), b""))
opened(P[:10], TEXT, holds(place(0, 10), TEXT))
opened(Q, TEXT, holds(place(0, 10), TEXT))
opened(P[:12] + bytes(12), TEXT, holds(place(0, 10), TEXT))
opened(P + Q[:5], TEXT, holds(P + Q[:5], TEXT[:6]))
opened(BROKEN, TEXT, f"out.pos at 0: {unslotted(BROKEN)}")
opened(Q + P, TEXT, "out.pos at 0: 1, not 0")
opened(bytes(25), b"", f"out.pos at 0: 0, not {crc32(bytes(20))}")


def batch(words, slots, file, more, answer):
    ROWS["batches"].append((f"{words} {hexed(slots, file, more)}", answer))


batch(99, P, TEXT, b"z", "done | " + holds(P + place(1, 7), b"012345z"))
batch(99, P, TEXT, b"", "done | " + holds(P + place(1, 6), b"012345"))
batch(99, b"", b"", b"a line\n", "done | " + holds(place(0, 0) + place(1, 7), b"a line\n"))
batch(99, b"", b"base", b"!", "done | " + holds(place(0, 4) + place(1, 5), b"base!"))
batch(99, place(2, 6) + place(1, 3), TEXT, b"z", "done | " + holds(place(2, 6) + place(3, 7), b"012345z"))
batch(99, place(0, 1) + place(MOST, 6), TEXT, b"z", "done | " + holds(place(0, 1) + place(1, 2), b"0z"))
batch(99, place(MOST - 1, 1) + place(MOST, 6), TEXT, b"z", "done | " + holds(place(0, 7) + place(MOST, 6), b"012345z"))
batch(99, BROKEN, TEXT, b"z", " | ".join([f"out.pos at 0: {unslotted(BROKEN)}"] * 2))
batch(99, P, b"01234", b"z", " | ".join(["out.log at 5: 5, not 6"] * 2))


def run(slots, file, more):
    """The calls that open an output and append a batch, each with what it changes: a file, and a place or None of a cut."""
    begun = b"" if slots else [("pos", 0, place(0, len(file)))]
    first = [None, None, None, *(begun or [("log", None, 6)]), None]
    kept = file if begun else file[:6]
    old = place(0, len(file)) if begun else slots
    last = place(1, len(kept) + len(more))
    return first + [("log", len(kept), more), None, ("pos", 24, last), None], (old, kept), (old + last, kept + more)


def left(fate, at, new, old):
    if at is None:  # a cut to `new` bytes
        cut = {0: old[:new], 1: old, 2: old[: new + (len(old) - new) // 2], 3: foreign(new, len(old), old)}
        return cut[fate]
    end = at + len(new)
    return {0: overlaid(at, new, old), 1: old, 2: overlaid(at, new[: len(new) // 2], old), 3: foreign(at, end, old)}[fate]


def image(calls, files, choice):
    """What a stop leaves: all, nothing since the last sync, all but the last call, which is torn, or other bytes."""
    reads, image = dict(files), dict(files)
    for i, call in enumerate(calls):
        if call is None:
            if i in SYNCS:
                image = dict(reads)
            continue
        name, at, new = call
        fate = choice if choice != 2 else (2 if i + 1 == len(calls) else 0)
        image[name] = left(fate, at, new, image[name])
        reads[name] = left(0, at, new, reads[name])
    return image


def reopened(slots, there, old, new):
    """The two files behind an opening of an image with this position file."""
    if there == new[0]:
        return holds(*new)
    return holds(there if slots else old[0] + there[24:], old[1])


SYNCS = [0, 4, 6, 8]
for slots, file in [(P, TEXT), (b"", b"base")]:
    calls, old, new = run(slots, file, b"batch\n")
    for call in range(len(calls)):
        said = "fault, of 1" if call < 5 else "not done"
        whole = new if call == 8 else old
        batch(call, slots, file, b"batch\n", f"{said} | {holds(*whole)}")
    for moment in range(len(calls) + 1):
        for choice in range(4):
            there = image(calls[:moment], {"pos": slots, "log": file}, choice)
            ROWS["images"].append((f"{moment} {choice} {hexed(slots, file, b'batch' + bytes([10]))}", f"done | {reopened(slots, there['pos'], old, new)}"))

# ---- dead letters


def text(data):
    return u(4, len(data)) + data


def moment(nanos):
    return (nanos // 10**9).to_bytes(8, "big", signed=True) + u(4, nanos % 10**9)


def letter(kind, id, reason, nanos=0, event=EMPTY):
    return text(kind) + text(id) + text(reason) + moment(nanos) + event


def record(body, crc=None):
    covered = u(4, len(body)) + body
    return covered + u(4, crc32(covered) if crc is None else crc)


def letters(data, answer):
    row("letters", "", data, answer)


NINE = letter(b"if", b"9", b"x")
NINE_SHOWN = '"if", "9", "x", 0 {}|{}; '
SAME = "the same again"
assert len(record(NINE)) == 44

letters(b"", SAME)
letters(record(NINE), NINE_SHOWN + SAME)
letters(record(NINE) * 2, NINE_SHOWN * 2 + SAME)
letters(record(letter(b"", b"", b"", -1)), '"", "", "", -1 {}|{}; ' + SAME)
letters(record(letter(b"k", b"i", b"\xc3\xa4", 10**18 + 7, FIFTEEN)), '"k", "i", "ä", 1000000000000000007 {"a":1.5}|{}; ' + SAME)
letters(record(letter(b"k", b"i", b"x" * 65536)), '"k", "i", 65536 bytes, 0 {}|{}; ' + SAME)
letters(record(letter(b"k", b"i", b"r", -62135596800 * 10**9)), f'"k", "i", "r", {-62135596800 * 10**9} {{}}|{{}}; ' + SAME)
# a record that leaves the segment; a length that is cut counts as 0
letters(record(NINE)[:-1], "at 0: 44, not 43")
letters(record(NINE)[:4], "at 0: 44, not 4")
letters(record(NINE)[:3], "at 0: 8, not 3")
letters(record(NINE) + b"\0", "at 44: 52, not 45")
letters(record(NINE) + record(NINE)[:20], "at 44: 88, not 64")
letters(u(4, 2**32 - 1) + bytes(4), f"at 0: {2**32 + 7}, not 8")
# a checksum that is another
letters(record(NINE, 1), f"at 0: 1, not {crc32(u(4, 36) + NINE)}")
letters(record(NINE) + changed(record(NINE), 9, b"g"), f"at 44: {crc32(u(4, 36) + NINE)}, not {crc32(changed(u(4, 36) + NINE, 9, b'g'))}")
letters(bytes(8), f"at 0: 0, not {crc32(bytes(4))}")
# a body that fits no letter: the place in it, and its length, or one more
letters(record(b""), "at 0: 0, not 1")
letters(record(NINE + b"\0"), "at 0: 36, not 37")
letters(record(NINE[:-1]), "at 0: 35, not 36")
letters(record(u(4, 3) + b"if"), "at 0: 6, not 7")
letters(record(letter(b"\xff", b"9", b"x")), "at 0: 4, not 35")
letters(record(letter(b"if", b"\xff", b"x")), "at 0: 10, not 36")
letters(record(letter(b"if", b"9", b"\xc3")), "at 0: 15, not 36")
letters(record(NINE[:16] + u(8, 0) + u(4, 10**9) + EMPTY), "at 0: 16, not 36")
letters(record(NINE[:16] + u(8, 2**62) + u(4, 0) + EMPTY), "at 0: 16, not 36")
letters(record(letter(b"if", b"9", b"x", 0, TEN)), "at 0: 37, not 51")


def shed(policy, limit, segments, records, answer):
    words = f"{policy} {limit} {' '.join(map(str, segments))} | {' '.join(map(str, records))}"
    ROWS["sheds"].append((words, answer))


ONE = [44]
NONE = "older 0, newer"
for policy in ["hold", "drop_newer", "drop_older"]:
    shed(policy, 88, [0], ONE, NONE)
    shed(policy, 88, ONE, ONE, NONE)
    shed(policy, 0, [0], ONE, "older 0, newer 0")
    shed(policy, 2**64 - 1, [2**64 - 1], ONE, "older 0, newer 0")
shed("drop_newer", 88, [44, 44], ONE, "older 0, newer 0")
shed("drop_older", 88, [44, 44], ONE, "older 1, newer")
shed("drop_older", 40, [0], ONE, "older 0, newer 0")
shed("drop_older", 88, [88], ONE, "older 0, newer 0")
shed("drop_older", 88, [44, 44], [44, 44], "older 1, newer 1")
shed("drop_older", 88, [44, 44], [89, 44, 1], "older 1, newer 0 2")
shed("drop_older", 88, [10, 20, 30, 28], [30], "older 2, newer")
shed("drop_older", 88, [10, 20, 30, 28], [10], "older 1, newer")
shed("drop_older", 88, [10, 20, 30, 28], [11], "older 2, newer")
shed("drop_older", 88, [], [44, 44, 44], "older 0, newer 2")
shed("drop_newer", 88, [40], [50, 48, 1, 0], "older 0, newer 0 2")
shed("drop_newer", 88, [100], [0], "older 0, newer 0")
shed("drop_older", 352, ONE * 8, ONE * 8, "older 7, newer 7")
shed("drop_newer", 100, [2**64 - 1, 2**64 - 1], ONE, "older 0, newer 0")
shed("drop_older", 100, [2**64 - 1, 2**64 - 1, 50], ONE, "older 2, newer")


def named_segments(turn, first, last, length, version=2, zero=0):
    return checked(u(2, version) + u(8, turn) + u(4, first) + u(4, last) + u(8, length) + u(2, zero))


def says(data, answer):
    row("segments", "", data, answer)


Z = named_segments(0, 0, 0, 88)
W = 2**32 - 1
says(b"", "nothing")
says(Z[:-1], "nothing")
says(bytes(32), "nothing")
says(Z, "0 to 0, 88 bytes, in turn 0")
says(Z + named_segments(1, 1, 3, 7), "1 to 3, 7 bytes, in turn 1")
says(Z + named_segments(1, 1, 3, 7)[:-1], "0 to 0, 88 bytes, in turn 0")
says(named_segments(MOST - 1, W, W, MOST) + named_segments(MOST, 0, W, MOST), f"0 to {W}, {MOST} bytes, in turn {MOST}")
says(Z + named_segments(MOST, 4, 5, 6), "0 to 0, 88 bytes, in turn 0")
says(named_segments(2, 4, 3, 6), "4, not 3")
says(Z + named_segments(1, W, 0, 6), f"{W}, not 0")
says(changed(Z, 30, b"\0\0") + b"\0", f"{int.from_bytes(changed(Z, 30, bytes(2))[28:], 'big')}, not {crc32(Z[:28])}")
says(named_segments(5, 1, 2, 3) + b"\0", "5, not 4")


def counts(turn, first, last, length, data, answer):
    row("counts", f"{turn} {first} {last} {length}", data, answer)


counts(0, 0, 0, 0, b"", f"{named_segments(0, 0, 0, 0).hex()} | 0 to 0, 0 bytes, in turn 0")
counts(1, 0, 2, 9, Z, f"{(Z + named_segments(1, 0, 2, 9)).hex()} | 0 to 2, 9 bytes, in turn 1")
counts(2, 7, W, MOST, Z + named_segments(1, 0, 2, 9), f"{(named_segments(2, 7, W, MOST) + named_segments(1, 0, 2, 9)).hex()} | 7 to {W}, {MOST} bytes, in turn 2")
counts(0, 1, 1, 4, Z[:9], f"{named_segments(0, 1, 1, 4).hex()} | 1 to 1, 4 bytes, in turn 0")
counts(1, 0, 0, 0, b"", "not done")
counts(2, 3, 2, 0, Z, "not done")

# ---- queues of dead letters


def queue(table, policy, limit, files, batches, answer):
    named = " | ".join(f"{part} {digits(data)}" for part, data in files)
    words = " ; ".join([f"{policy} {limit} {named}", *map(digits, batches)])
    ROWS[table].append((words.rstrip(), answer))


def case(policy, limit, files, batches, told, held, said, there):
    lengths = "".join(f", {part} {length}" for part, length in there)
    queue("queues", policy, limit, files, batches, "".join(f"{answer}; " for answer in told) + f"[{held}] {said}{lengths}")


def stops(policy, limit, files, batches, *held):
    queue("stops", policy, limit, files, batches, "".join(f"[{ids}]" for ids in held))


LETTERS = [record(letter(b"if", str(id).encode(), b"x")) for id in range(10)]
SIZE = 44  # of each
_, A, B, C, D, E, *_ = LETTERS
POS, SEG, LOG = "dead.pos", "dead.seg", "dead.log"
ALL = "older 0, newer"
NEW = [(POS, 24), (SEG, 64)]
PAIR = [(SEG, named_segments(0, 0, 1, SIZE)), (LOG, A), ("dead.1.log", B)]
PAIR_NOW = [("dead.1.log", SIZE), (LOG, SIZE), (SEG, 32)]
BEHIND = [("dead.1.log", SIZE), ("dead.2.log", SIZE), (SEG, 64)]

# what each policy does with a third letter, and with letters that never fit
both = [("dead.1.log", SIZE), (LOG, SIZE), *NEW]
case("hold", 88, [], [A, B, C], [ALL, ALL, "full, 88 and 44 over 88"], "1 2", "0 to 1, 44 bytes, in turn 2", both)
case("drop_newer", 88, [], [A, B, C], [ALL, ALL, "older 0, newer 0"], "1 2", "0 to 1, 44 bytes, in turn 3", both)
older = [("dead.1.log", SIZE), ("dead.2.log", SIZE), *NEW]
case("drop_older", 88, [], [A, B, C], [ALL, ALL, "older 1, newer"], "2 3", "1 to 2, 44 bytes, in turn 3", older)
for limit in [0, 7, 40]:
    case("hold", limit, [], [A], [f"full, 0 and 44 over {limit}"], "", "0 to 0, 0 bytes, in turn 0", [(POS, 24), (SEG, 32)])
    for policy in ["drop_newer", "drop_older"]:
        case(policy, limit, [], [A], ["older 0, newer 0"], "", "0 to 0, 0 bytes, in turn 1", [(LOG, 0), *NEW])
case("drop_older", 88, PAIR, [C + D], ["older 1, newer 1"], "2 3", "1 to 2, 44 bytes, in turn 1", BEHIND)
case("hold", 352, [], [A + B], [ALL], "1 2", "0 to 1, 44 bytes, in turn 1", both)
case("hold", 703, [], [A + B], [ALL], "1 2", "0 to 1, 44 bytes, in turn 1", both)
case("hold", 704, [], [A + B], [ALL], "1 2", "0 to 0, 88 bytes, in turn 1", [(LOG, 88), *NEW])
eight = [*[(f"dead.{k}.log", SIZE) for k in range(1, 9)], *NEW]
case("drop_older", 352, [], [b"".join(LETTERS[1:9]), LETTERS[9]], [ALL, "older 1, newer"], "2 3 4 5 6 7 8 9", "1 to 8, 44 bytes, in turn 2", eight)
long = record(letter(b"k", b"i", b"x" * 65536)) + record(letter(b"", b"", b""))
size = len(long)
case("hold", 2**20, [], [long], [ALL], "i ", f"0 to 0, {size} bytes, in turn 1", [(LOG, size), *NEW])
last = [(SEG, named_segments(MOST - 1, W, W, 0) + named_segments(MOST, W, W, SIZE)), (f"dead.{W}.log", A)]
case("hold", 88, last, [B, C], [ALL, "full, 88 and 44 over 88"], "1 2", f"{W} to {W}, 88 bytes, in turn 0", [(f"dead.{W}.log", 88), (SEG, 64)])

# an opening: a new folder, those of the first version, and what doesn't count
case("hold", 88, [], [], [], "", "0 to 0, 0 bytes, in turn 0", [(POS, 24), (SEG, 32)])
first = [(LOG, 88), (POS, 24), (SEG, 32)]
case("hold", 88, [(LOG, A + B), (POS, place(0, 88))], [], [], "1 2", "0 to 0, 88 bytes, in turn 0", first)
case("hold", 88, [(LOG, A + B + b"more"), (POS, place(0, 88))], [], [], "1 2", "0 to 0, 88 bytes, in turn 0", first)
case("hold", 88, [(LOG, A + B)], [], [], "1 2", "0 to 0, 88 bytes, in turn 0", first)
case("hold", 88, [(LOG, A + B), (POS, place(0, 44))], [], [], "1", "0 to 0, 44 bytes, in turn 0", [(LOG, 44), (POS, 24), (SEG, 32)])
case("hold", 88, [(LOG, A), ("dead.1.log", B)], [], [], "1", "0 to 0, 44 bytes, in turn 0", [(LOG, 44), (POS, 24), (SEG, 32)])
case("hold", 88, [(SEG, Z[:-1]), (LOG, A)], [], [], "1", "0 to 0, 44 bytes, in turn 0", [(LOG, 44), (POS, 24), (SEG, 32)])
case("hold", 88, PAIR, [], [], "1 2", "0 to 1, 44 bytes, in turn 0", PAIR_NOW)
case("hold", 88, [*PAIR[:2], ("dead.1.log", B + C)], [], [], "1 2", "0 to 1, 44 bytes, in turn 0", PAIR_NOW)
case("hold", 88, [PAIR[0], (LOG, A + C), PAIR[2]], [], [], "1 3 2", "0 to 1, 44 bytes, in turn 0", [PAIR_NOW[0], (LOG, 88), (SEG, 32)])
case("hold", 88, [*PAIR, (POS, bytes(25))], [], [], "1 2", "0 to 1, 44 bytes, in turn 0", [*PAIR_NOW[:2], (POS, 25), (SEG, 32)])
others = [(part, E) for part in ["dead.03.log", "dead.4294967296.log", "dead.log.old", "out.log"]]
gone = [(part, E) for part in [LOG, "dead.3.log", "dead.10.log", f"dead.{W}.log"]]
stay = [("dead.03.log", 44), ("dead.1.log", 44), ("dead.2.log", 44), ("dead.4294967296.log", 44), ("dead.log.old", 44), (SEG, 32), ("out.log", 44)]
case("hold", 88, [(SEG, named_segments(0, 1, 2, SIZE)), ("dead.1.log", B), ("dead.2.log", C + D), *others, *gone], [], [], "2 3", "1 to 2, 44 bytes, in turn 0", stay)

# each damage
case("hold", 88, [(LOG, A[:-1]), (POS, place(0, 44))], [], [], "q/dead.log at 43: 43, not 44", "nothing", [(LOG, 43), (POS, 24)])
case("hold", 88, [(LOG, A), (POS, bytes(25))], [], [], f"q/dead.pos at 0: 0, not {crc32(bytes(20))}", "nothing", [(LOG, 44), (POS, 25)])
broken = changed(Z, 30, b"\0\0") + b"\0"
numbers = f"{int.from_bytes(broken[28:32], 'big')}, not {crc32(Z[:28])}"
case("hold", 88, [(SEG, broken), (LOG, A + B)], [A], [f"q/dead.seg at 0: {numbers}"], f"q/dead.seg at 0: {numbers}", numbers, [(LOG, 88), (SEG, 33)])
case("hold", 88, [(SEG, named_segments(2, 4, 3, 6)), (LOG, A)], [], [], "q/dead.seg at 0: 4, not 3", "4, not 3", [(LOG, 44), (SEG, 32)])
case("hold", 88, [*PAIR[:2], ("dead.1.log", B[:-1])], [], [], "q/dead.1.log at 43: 43, not 44", "0 to 1, 44 bytes, in turn 0", [("dead.1.log", 43), *PAIR_NOW[1:]])
case("hold", 88, PAIR[:2], [], [], "q/dead.1.log at 0: 0, not 44", "0 to 1, 44 bytes, in turn 0", PAIR_NOW[1:])
other = changed(B, 9, b"g")
numbers = f"{int.from_bytes(B[-4:], 'big')}, not {crc32(other[:-4])}"
case("hold", 88, [*PAIR[:2], ("dead.1.log", other)], [], [], f"q/dead.1.log at 0: {numbers}", "0 to 1, 44 bytes, in turn 0", PAIR_NOW)
case("hold", 88, [PAIR[0], (LOG, A[:-1]), PAIR[2]], [], [], "q/dead.log at 0: 44, not 43", "0 to 1, 44 bytes, in turn 0", [PAIR_NOW[0], (LOG, 43), (SEG, 32)])

# a stop at each moment, or a call that fails
stops("hold", 88, [], [A], "", "1")
stops("hold", 1000, [], [A + B], "", "1 2")
stops("hold", 88, PAIR, [C], "1 2")
stops("drop_newer", 88, PAIR, [C], "1 2")
stops("drop_older", 88, PAIR, [C], "1 2", "2 3")
stops("drop_older", 88, PAIR, [C + D], "1 2", "2 3")
stops("drop_older", 1000, PAIR, [C + D], "1 2", "1 2 3 4")
stops("hold", 1000, [(LOG, A + b"more"), (POS, place(0, 44))], [B], "1", "1 2")
stops("hold", 88, [(LOG, A)], [B], "1", "1 2")
stops("hold", 1000, [(SEG, named_segments(0, 1, 1, SIZE)), (LOG, C), ("dead.1.log", A + b"more"), ("dead.2.log", D)], [B], "1", "1 2")
stops("drop_older", 88, [], [A, B, C], "", "1", "1 2", "2 3", "1 3")

# ---- readers of dead letters


def about(id):
    return ' {"dead_letter_queue":{"entry_time":"1970-01-01T00:00:00.000Z","plugin_id":"%s","plugin_type":"if","reason":"x"}}' % id


def sender(files, segments, *runs):
    """What comes of these runs. A segment is its number, with the ids of its letters and the length of each record."""
    rows = []
    for number, letters in segments:
        end = 0
        for id, size in letters:
            end += size
            rows.append((number, end, id))
    place, turn, said = None, -1, []
    for run in runs:
        left = [row for row in rows if place is None or row[:2] > place]
        done, out, number, ended, ring, answers = 0, 0, 0, False, [], []
        for word in run.split():
            if word != "s":
                if not ring:
                    said.append("nothing")
                    continue
                number_of, ids = ring.pop(0)
                said.append(f"{number_of} to dlq:q, {len(ids)}" + (about(ids[0]) + about(ids[-1]) if ids else ""))
                answers += [word] * (word in "an")
                continue
            if out and not answers:
                said.append("not yet")
                continue
            if out and answers.pop(0) == "a":
                done += out
                place, turn = left[done - 1][:2], turn + 1
            out = 0
            if done < len(left):
                out = min(125, len(left) - done)
                number += 1
                ring.append((number, [row[2] for row in left[done : done + out]]))
                said.append("parcel")
                continue
            if not ended:
                ring.append((0, []))
            ended = True
            said.append("ended")
        said.append(None)
    answer = "".join("| " if word is None else f"{word}; " for word in said)
    answer += f"{place[0]} to {place[0]}, {place[1]} bytes, in turn {turn}" if place else "nothing"
    named = " | ".join(f"{part} {digits(data)}" for part, data in files)
    ROWS["senders"].append((" ; ".join([named, *runs]), answer))


def ids(*all):
    return [(str(id), SIZE) for id in all]


TWO = [(LOG, A + B)], [(0, ids(1, 2))]
MANY = [(LOG, A * 126)], [(0, ids(*[1] * 126))]

# the place is recorded, and nothing is sent again
sender(*TWO, "s a s", "s t t")
sender(*TWO, "s a s t s t")
# it is answered NotListening
sender(*TWO, "s n s n s a s t t")
# two parcels, one behind the other, and an opening between them
sender(*MANY, "s t s", "s a s a s t")
sender(*MANY, "s a s t", "s a s t")
sender(*MANY, "s a s n s a s s t t")
# an answer that was not heard
sender(*TWO, "s a", "s s a s t")
# no letters, and letters in two segments
sender([], [], "t s t s t")
sender(PAIR, [(0, ids(1)), (1, ids(2))], "s a s", "s t")
# a damaged letter
ROWS["senders"].append((f"{LOG} {digits(A[:-1])} ; s", "q/dead.log at 0: 44, not 43| nothing"))

# ---- frames

row("frames", "", b"123456789", "cbf43926, no frame")
row("frames", "", b"", "00000000, no frame")
row("frames", "", THIRD, f"{crc32(THIRD):08x}, 3 in 29 bytes, {I.hex()}")
row("frames", "", THIRD[:-1], f"{crc32(THIRD[:-1]):08x}, no frame")
row("frames", "", THIRD + FOURTH, f"{crc32(THIRD + FOURTH):08x}, 3 in 29 bytes, {I.hex()}")
row("frames", "", element(MOST, b""), f"{crc32(element(MOST, b'')):08x}, {MOST} in 16 bytes, ")

with open("../stdout", "w") as stdout:
    for name in TABLES:
        with open(name, "w") as table:
            table.writelines(f"{words}\n" for words, _ in ROWS[name])
        stdout.write(f"# {name}\n")
        stdout.writelines(f"{answer}\n" for _, answer in ROWS[name])
