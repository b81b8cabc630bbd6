#!/usr/bin/env python3
"""What a configuration writes to stdout of lines, for tests, by the chapters of the Logstash Reference and this product's
documents. It takes each event through the statements by itself, with everything that becomes of it.

    flow.py CONFIGURATION <LINES

prints what the configuration of a file writes of lines that one read brings, or of those that its generator gives, without
`@timestamp` in the objects."""

import re
import sys
from decimal import Decimal
from itertools import islice

from events import Time, copy, filled, get, json_text
from filters import applied, time_of
from inputs import BATCH, Input
from language import read

NEW_YEAR = time_of(1_704_067_200 * 10**9)


class Dead(Exception):
    """A condition that has no truth of an event."""


def truth(value):
    return value is not None and value is not False


def operand(it, event):
    return get(event, it[1]) if it[0] == "field" else it[1]


def same(left, right):
    """Equal, of one kind."""
    if isinstance(left, list) and isinstance(right, list):
        return len(left) == len(right) and all(map(same, left, right))
    return type(left) is type(right) and left == right


def ordered(mark, left, right):
    if left is None or right is None:
        return False
    if isinstance(left, Time) and isinstance(right, Time):
        left, right = left.nanos, right.nanos
    elif isinstance(left, str) and isinstance(right, str):
        left, right = left.encode(), right.encode()
    elif not (isinstance(left, Decimal) and isinstance(right, Decimal)):
        raise Dead
    return {"<": left < right, ">": left > right, "<=": left <= right, ">=": left >= right}[mark]


def contains(left, right):
    if isinstance(right, list):
        return any(same(left, item) for item in right)
    return isinstance(left, str) and isinstance(right, str) and left in right


def matches(value, pattern):
    if value is None:
        return False
    if not isinstance(value, str):
        raise Dead
    return re.search(pattern, value) is not None


def holds(condition, event):
    mark, *parts = condition
    if mark in ("field", "value"):
        return truth(operand(condition, event))
    if mark == "!":
        return not holds(parts[0], event)
    if mark in ("and", "nand"):
        both = holds(parts[0], event) and holds(parts[1], event)
        return both if mark == "and" else not both
    if mark == "or":
        return holds(parts[0], event) or holds(parts[1], event)
    if mark == "xor":
        left = holds(parts[0], event)
        return holds(parts[1], event) != left
    left = operand(parts[0], event)
    if mark in ("=~", "!~"):
        return matches(left, parts[1]) == (mark == "=~")
    right = operand(parts[1], event)
    if mark in ("==", "!="):
        return same(left, right) == (mark == "==")
    if mark in ("in", "not in"):
        return contains(left, right) == (mark == "in")
    return ordered(mark, left, right)


def arm(statement, event):
    """The statements of the first arm whose condition holds."""
    for condition, block in statement[1]:
        if holds(condition, event):
            return block
    return statement[2]


def filtered(statements, event):
    """The events that come out behind the statements; of those that are dead none."""
    if not statements:
        return [event]
    first, *rest = statements
    try:
        if first[0] == "if":
            return filtered(arm(first, event) + rest, event)
        events = applied(first[1], first[2], event)
    except Dead:
        return []
    return [last for each in events for last in filtered(rest, each)]


def outputs_of(statements):
    for statement in statements:
        if statement[0] == "plugin":
            yield statement
        else:
            for _, block in statement[1]:
                yield from outputs_of(block)
            yield from outputs_of(statement[2])


def send(statements, event, sent):
    for statement in statements:
        if statement[0] == "plugin":
            sent.setdefault(id(statement), []).append(copy(event))
        else:
            send(arm(statement, event), event, sent)


def codec_bytes(settings, event, timed):
    codec = settings.get("codec", "json_lines")
    name, own = codec if isinstance(codec, tuple) else (codec, {})
    fields = event["fields"] if timed else {key: value for key, value in event["fields"].items() if key != "@timestamp"}
    text = json_text(fields) if name.startswith("json") else filled(own.get("format", "%{message}"), event)
    return text + ("\n" if name in ("line", "json_lines") else "")


def output_id(number, output):
    return output[2].get("id", f"output_{number}")


class Flow:
    """A configuration that is run over lines."""

    def __init__(self, text, timed=True):
        self.sections, self.timed = read(text), timed
        self.outputs = [it for it in outputs_of(self.sections["output"])]

        self.input = Input(self.sections["input"][0], NEW_YEAR)
        self.generates = self.input.name == "generator"
        self.generated = enumerate(self.input.lines())

    def batch(self, events):
        """What stdout gets of the events of one batch: the id of each output that gets some, and the bytes that it writes."""
        sent = {}
        for each in events:
            for event in filtered(self.sections["filter"], each):
                try:
                    send(self.sections["output"], event, sent)
                except Dead:
                    pass
        return [
            (output_id(number, output), "".join(codec_bytes(output[2], event, self.timed) for event in sent[id(output)]))
            for number, output in enumerate(self.outputs, 1)
            if output[1] == "stdout" and id(output) in sent
        ]

    def poll(self, lines):
        """What stdout gets of the lines that one read made whole, batch by batch."""
        events = [self.input.event(line) for line in lines]
        return [self.batch(events[at : at + BATCH]) for at in range(0, len(events), BATCH)]

    def next_batch(self):
        """What stdout gets of the next poll of a generator; None where there is no further one."""
        events = [self.input.event(line, Decimal(sequence)) for sequence, line in islice(self.generated, BATCH)]
        return self.batch(events) if events else None


def joined(batches):
    return "".join(text for batch in batches for _, text in batch)


if __name__ == "__main__":
    with open(sys.argv[1], encoding="utf-8") as file:
        flow = Flow(file.read(), timed=False)
    if flow.generates:
        while (batch := flow.next_batch()) is not None:
            sys.stdout.write(joined([batch]))
    else:
        sys.stdout.write(joined(flow.poll(sys.stdin.read().splitlines())))
