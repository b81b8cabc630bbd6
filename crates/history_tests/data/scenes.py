"""Judges what a stop leaves in the scenes of `scenes`, apart from the program: python3 scenes.py.

It knows no bytes of a queue, of a file or of letters but for the sizes of records. A call of the store is made at once,
and what a stop leaves in its midst is what stood there before or behind it; a row that no later call settled is there by
the first choice alone.
"""
import copy
import sys

sys.dont_write_bytecode = True
from histories import OPENINGS, PLACES, Fault, Pipeline, first, ints, kept, words_of

LIMIT = 180


def letter_of(word):
    return word.split("=", 1)


def letters_of(text):
    return [letter_of(word) for word in words_of(text)]


def record_size(letter):
    # a frame, the moment and three lengths, and then the texts and the event, which has one text of one byte
    text, *said = letter
    texts = ["box", "output_1", "status " + said[0].replace("=", ": ")] if said else ["if", "filter_if_1", "order of text and number"]
    return 32 + sum(map(len, texts)) + 24 + len(text)


def size(letters):
    return sum(map(record_size, letters))


class Dead:
    def __init__(self):
        self.oldest, self.segments = 0, [[]]

    def shedding(self, policy, letters):
        held = [size(segment) for segment in self.segments]
        added = size(letters)
        if sum(held) + added <= LIMIT:
            return 0, []
        older = 0
        if policy == "drop_older":
            fits = [k for k in range(len(held)) if sum(held[k:]) + added <= LIMIT]
            older = fits[0] if fits else len(held) - 1
        room, newer = LIMIT - sum(held[older:]), []
        for at, letter in enumerate(letters):
            if record_size(letter) <= room:
                room -= record_size(letter)
            else:
                newer.append(at)
        return older, newer

    def append(self, policy, letters):
        older, newer = self.shedding(policy, letters)
        if policy == "hold" and (older, newer) != (0, []):
            return
        self.oldest, self.segments = self.oldest + older, self.segments[older:]
        for letter in kept(newer, letters):
            if self.segments[-1] and size(self.segments[-1]) + record_size(letter) > LIMIT // 8:
                self.segments.append([])
            self.segments[-1].append(letter)


class Store:
    def __init__(self):
        self.rows, self.settled, self.least, self.recorded = [], 0, 1, 1
        self.file, self.dead = [], Dead()

    def call(self, kind, rest):
        if kind == "row":
            self.settled = len(self.rows)
            self.rows.append((len(self.rows) + 1, rest))
            return
        self.settled = len(self.rows)
        if kind == "mark":
            # what is acknowledged is recorded of the front of the page alone
            acknowledged = range(*map(int, rest.split(" "))) if rest else []
            while self.least in acknowledged:
                self.least += 1
            self.recorded = len(self.rows) + 1
        elif kind == "file":
            self.file += words_of(rest)
        elif kind in OPENINGS:
            self.dead.append(kind, letters_of(rest))


class Scene:
    def __init__(self):
        self.store, self.before = Store(), Store()
        self.told, self.by, self.left = [], {}, None

    def sound(self, store, choice):
        line = Line(self)
        rows = store.rows if choice == 0 else store.rows[: store.settled]
        return line.legal and line.fits(store, rows) and tuple(store.file) in line.files and line.dead_is(store.dead)


class Line:
    """Where the pipeline stands after what was told, and what its destinations may hold."""

    def __init__(self, scene):
        self.pipeline, self.legal = Pipeline(), True
        self.files, self.dead = {()}, Dead()
        self.scene = scene
        try:
            for place, (kind, words) in enumerate(scene.told):
                self.tell(place, kind, words)
        except Fault:
            self.legal = False
        self.files |= self.with_one_more()
        if scene.left is not None:
            self.append_left(scene.left)

    def tell(self, place, kind, words):
        told = copy.deepcopy(self.pipeline)
        told.tell(kind, words)
        if kind in OPENINGS:
            self.files |= self.with_one_more()
            if place in self.scene.by:
                self.append_left(self.scene.by[place])
        elif kind == "file":
            self.files = {held + tuple(words_of(words[1])) for held in self.files}
        elif kind == "shed":
            self.shed = int(words[1]), ints(first(words, 2))
        elif kind == "letters":
            self.tell_letters(place, words)
        self.pipeline = told

    def next_due(self):
        return [out["left"][0] for out in self.pipeline.out.values() if out["left"]]

    def with_one_more(self):
        # one delivery more that was next
        return {held + tuple(texts) for held in self.files for at, texts in self.next_due() if at == "file"}

    def tell_letters(self, place, words):
        told, by = letters_of(first(words, 1)), self.scene.by.get(place, [])
        shed = self.shed if self.pipeline.between else (0, [])
        at, items = self.pipeline.out[int(words[0])]["left"][0]
        parts = items if at == "letters" else self.rejected(place, by)
        self.legal &= by == parts and told == kept(shed[1], by) and shed == self.dead.shedding(self.pipeline.policy, by)
        self.dead.append(self.pipeline.policy, by)

    def rejected(self, place, by):
        # the letters of what the delivery that is told next rejects
        if place + 1 < len(self.scene.told) and self.scene.told[place + 1][0] in PLACES:
            _, texts, *fates = self.scene.told[place + 1][1]
            pairs = zip(words_of(texts), words_of(first(fates, 0)))
            return [[text, fate] for text, fate in pairs if "=" in fate]
        return by

    def append_left(self, letters):
        fits = [items for at, items in self.next_due() if at == "letters" and items == letters]
        fits += [items for at, items in self.next_due() if at == "box" and self.pipeline.may_reject(items, [], letters)]
        self.legal &= bool(fits)
        self.dead.append(self.pipeline.policy, letters)

    def fits(self, store, rows):
        found = [row for row in rows if row[0] >= store.least]
        behind = max([store.recorded] + [number + 1 for number, _ in rows])
        top = max([self.pipeline.front] + [number for number, _ in found])
        try:
            copy.deepcopy(self.pipeline).opened("hold", [f"{number}={text}" for number, text in found])
        except Fault:
            return False
        return top < behind <= self.pipeline.high and self.pipeline.front < store.recorded

    def dead_is(self, dead):
        return (dead.oldest, dead.segments) == (self.dead.oldest, self.dead.segments)


def words_on(scene):
    for choice in range(4):
        both = {scene.sound(scene.before, choice), scene.sound(scene.store, choice)}
        yield {(True,): "all", (False,): "none"}.get(tuple(both), "some")


def judged(items):
    scene, said = Scene(), ""
    for item in items.split(";"):
        kind, _, rest = item.partition(" ")
        if kind == "?":
            said += "".join(f" {word}" for word in words_on(scene)) + ";"
        elif kind == "by":
            scene.by[len(scene.told) - 1] = letters_of(rest)
        elif kind == "left":
            scene.left = letters_of(rest)
        elif kind.startswith("!"):
            scene.before = copy.deepcopy(scene.store)
            scene.store.call(kind[1:], rest)
        else:
            scene.told.append((kind, rest.split(" ") if rest else []))
    return said


for row in open(sys.path[0] + "/scenes").read().splitlines():
    name, items = row.split(":", 1)
    print(f"{name}:{judged(items)}")
