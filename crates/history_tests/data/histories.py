"""Judges the histories of `histories` by the tables of legal histories, apart from the program: python3 histories.py.

A configuration has one input. Its filters are none, or one condition that asks whether the message is above 5, and so is
wrong where the message is no number; its outputs are none, or one, to which each event goes. An output `box` answers for
each event, and `sink` is an output to nowhere.

Rows that tell bodies apart which are wrong:

- the rows of a batch are acknowledged when it is read: `an early acknowledgement`, and once it is back: `an
  acknowledgement before its last delivery`
- an event whose condition is wrong is dropped: `an event whose condition is wrong is dropped`, and delivered: `an event
  whose condition is wrong is delivered`
- a batch goes by the newest configuration: `a batch by the newest configuration`
- a mark goes past rows that are not acknowledged, which are lost behind a stop: `a mark past a gap`
- letters are told of events that a box took: `a letter of an event that was taken`
- a letter that has to be shed is told, and one that needn't: `a letter that was shed is told`, `a place behind the letters`

That a delivery to an address without its answer isn't legal is no row here, since answers are no entries: it is one of `runs`, and the contract of
`laws::a_delivery_without_its_answer_is_not_legal`.

`scenes` shows of a stop's image that the same bodies aren't sound, and letters past the limit without a shedding.

Rows of whole runs:

- batches end out of order, and a stop comes: `batches end out of order and a stop comes`, with all deliveries in `batches
  end out of order, a stop comes and all is delivered again`
- another configuration comes while a batch is out: `two batches by two configurations`, `two batches that go home in the
  other order`
- a stop comes between a delivery to a file and its acknowledgement: `a delivery that a stop cut short is made again`
- a box takes all, or rejects an event: `a box takes all`, `a box rejects one`
"""
import itertools
import re
import sys

OPENINGS = ("hold", "drop_newer", "drop_older")
PLACES = {"deliver": "stdout", "file": "file", "box": "box", "address": "pipeline", "nowhere": "sink"}


class Fault(Exception):
    pass


def want(holds, reason):
    if not holds:
        raise Fault(reason)


def words_of(text):
    return [word for word in text.split(",") if word]


def ints(text):
    return [int(word) for word in words_of(text)]


def first(words, n):
    return words[n] if len(words) > n else ""


def kept(places, items):
    return [item for at, item in enumerate(items) if at not in places]


def is_number(text):
    return re.fullmatch("[0-9]+", text) is not None


def due(config, texts):
    # letters are written as the message of their event and what is said of it
    dead = [text for text in texts if "if" in config and not is_number(text)]
    left = [("letters", [[text] for text in dead])] if dead else []
    for place in config:
        passing = [text for text in texts if text not in dead]
        left += [(place, passing)] if place != "if" and passing else []
    return left


class Pipeline:
    def __init__(self):
        self.policy, self.plan, self.inputs = None, None, []
        self.rows, self.front, self.acked = [], 0, set()
        self.read, self.used, self.out = set(), set(), {}
        self.low = self.high = 1
        # what the next entry has to go with: nothing, what was shed, or letters of a rejection
        self.between = None

    def runs(self):
        want(self.plan is not None, "NotAdopted")
        want(self.between is None, "Unfinished")

    def tell(self, kind, words):
        if kind in OPENINGS:
            self.opened(kind, words)
        elif kind in PLACES:
            self.deliver(PLACES[kind], words)
        else:
            getattr(self, "read_batch" if kind == "read" else kind)(words)

    def undrawn(self, words):
        self.adopt(words, 0)

    def overdrawn(self, words):
        self.adopt(words, 1)

    def opened(self, policy, words):
        found = [(int(number), *row) for number, *row in (word.split("=") for word in words)]
        numbers = [row[0] for row in found]
        # each configuration has one input, which has this id
        want(all(row[:2] in self.rows and row[2:] in ((), ("input_1",)) for row in found), "Unknown")
        want(all(a < b for a, b in zip(numbers, numbers[1:])), "Order")
        stands = lambda row: row[0] in numbers or row[0] in self.acked
        want(all(stands(row) for row in self.rows if row[0] <= self.front), "Lost")
        want(all(stands(row) for row in self.rows if any(row[0] < n for n in numbers)), "Gap")
        top = max([self.front] + numbers)
        self.rows = [row for row in self.rows if row[0] <= top]
        self.acked = {n for n in self.acked if n <= top and n not in numbers}
        self.read, self.used, self.out = set(), set(), {}
        self.low, self.plan, self.inputs, self.policy, self.between = top + 1, None, [], policy, None

    def adopt(self, words, boxes=None):
        generation, name, config = int(words[0]), words[1], words[2:]
        boxed = sum(1 for output in config if output == "box")
        want(self.policy is not None, "NotOpened")
        want(self.between is None, "Unfinished")
        if self.plan is not None:
            want((name, config) != self.plan[1:], "Same")
            want(generation == self.plan[0] + 1, "Generation")
        want(boxes in (None, boxed), "Draws")
        self.plan = (generation, name, config)
        self.number(name)

    def number(self, name):
        # an input is its number, its name, which is its whole statement, and whether it is open
        same = [n for n, other, is_open in self.inputs if is_open and other == name]
        number = same[0] if same else len(self.inputs)
        self.inputs = [(number, name, True)] + [(n, other, False) for n, other, _ in self.inputs if n != number]

    def accept(self, words):
        number = int(words[0])
        self.runs()
        want(self.low <= number <= self.high, "Number")
        by = int(words[2]) if len(words) > 2 else 0
        comes = lambda is_open: is_open or words[3:] == ["parcel"]
        want(any(n == by and comes(is_open) for n, _, is_open in self.inputs), "Input")
        self.rows.append((number, words[1]))
        self.low = self.high = number + 1

    def mark(self, words):
        front = int(words[0])
        self.runs()
        want(self.low - 1 <= front <= self.high - 1, "Number")
        self.front, self.low, self.high = front, front + 1, front + 1

    def assure(self, words):
        self.runs()
        want(int(words[0]) == self.front, "Front")

    def read_batch(self, words):
        batch, generation, numbers = int(words[0]), int(words[1]), ints(first(words, 2))
        self.runs()
        want(generation == self.plan[0], "Generation")
        want(batch not in self.used, "Used")
        want(numbers, "Empty")
        unread = [(n, text) for n, text in self.rows if n not in self.acked and n not in self.read]
        rows = unread[: len(numbers)]
        want(numbers == [n for n, _ in rows], "NotFirst")
        self.read |= set(numbers)
        self.used.add(batch)
        self.out[batch] = {"numbers": numbers, "texts": [text for _, text in rows], "config": self.plan[2], "left": None}

    def back(self, words):
        batch, verdicts = int(words[0]), int(words[1])
        self.runs()
        want(batch in self.out, "NotOut")
        out = self.out[batch]
        want(out["left"] is None, "BackAgain")
        want(verdicts == 0, "Verdicts")
        out["left"] = due(out["config"], out["texts"])

    def left(self, batch):
        # what is due of the batch and not told yet
        want(batch in self.out, "NotOut")
        want(self.out[batch]["left"] is not None, "NotBack")
        return self.out[batch]["left"]

    def shed(self, words):
        batch, older, newer = int(words[0]), int(words[1]), ints(first(words, 2))
        self.runs()
        want(self.policy == "drop_older" or self.policy == "drop_newer" and older == 0, "Policy")
        want(older or newer, "Nothing")
        left = self.left(batch)
        want(all(a < b for a, b in zip(newer, newer[1:])), "Order")
        want(left and left[0][0] in ("letters", "box") and all(n < len(left[0][1]) for n in newer), "Places")
        self.between = ("shed", batch, newer)

    def letters(self, words):
        batch, told = int(words[0]), [word.split("=", 1) for word in words_of(first(words, 1))]
        left = self.left(batch)
        want(self.between is None or self.between[:2] == ("shed", batch), "Shed")
        newer = self.between[2] if self.between else []
        want(left, "NotDue")
        place, items = left[0]
        if place == "letters":
            want(all(n < len(items) for n in newer) and told == kept(newer, items), "NotDue")
            left.pop(0)
            self.between = None
        else:
            want(place == "box" and self.may_reject(items, newer, told), "NotDue")
            self.between = ("rejecting", batch, newer, told)

    def may_reject(self, texts, newer, told):
        # letters of some events in their order, less those at these places, of which nothing is told
        places = range(len(texts))
        some = (list(chosen) for n in places for chosen in itertools.combinations(texts, n + 1))
        fits = lambda chosen: all(n < len(chosen) for n in newer) and kept(newer, chosen) == [letter[0] for letter in told]
        return all(len(letter) == 2 for letter in told) and any(fits(chosen) for chosen in some)

    def deliver(self, place, words):
        batch, texts, fates = int(words[0]), words_of(words[1]), words_of(first(words, 2))
        left = self.left(batch)
        want(left and left[0] == (place, texts), "NotDue")
        want(len(fates) == (len(texts) if place == "box" else 0), "Fates")
        rejected = [[text, fate] for text, fate in zip(texts, fates) if "=" in fate]
        if rejected:
            want(self.between and self.between[:2] == ("rejecting", batch), "Rejections")
            newer, told = self.between[2:]
            want(all(n < len(rejected) for n in newer) and kept(newer, rejected) == told, "Rejections")
        else:
            want(self.between is None, "Rejections")
        left.pop(0)
        self.between = None

    def ack(self, words):
        batch = int(words[0])
        self.runs()
        want(not self.left(batch), "Untold")
        self.acked |= set(self.out.pop(batch)["numbers"])

    def purge(self, words):
        self.runs()


def judged(told):
    pipeline = Pipeline()
    for place, entry in enumerate(told.split(";")):
        kind, *words = entry.split(" ")
        try:
            pipeline.tell(kind, words)
        except Fault as fault:
            return f"{place} {fault}"
    return "legal"


if __name__ == "__main__":
    for row in open(sys.path[0] + "/histories").read().splitlines():
        name, told = row.split(":", 1)
        print(f"{name}: {judged(told)}")
