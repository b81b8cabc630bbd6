"""What codecs of inputs make of lines, worked out by hand, and the lines of samples."""

from decimal import Decimal

from events import json_text
from inputs import next_number, sample
from objects import written
from runs import ROWS

FAILED = {"tags": ["_jsonparsefailure"]}
FIELDS = {"@timestamp": "2024-01-01T00:00:00.000Z", "@version": "1"}


def message(line, **more):
    return {**FIELDS, "event": {"original": line}, "message": line, **more}


def members(line, **more):
    return {**FIELDS, "event": {"original": line}, **more}


def add_decoded(codec, line, fields, meta=None):
    row = f"{codec} | {written(line.encode() if isinstance(line, str) else line)}"
    ROWS.setdefault("decoded", []).append((row, f"{json_text(fields)} {json_text(meta or {})}"))


def decoded():
    """Each line by hand: what a codec makes of it is said by the rules of inputs alone."""
    for codec in ("plain", "line"):
        for line in ("", "a b", '{"a":1}', "\u20ac"):
            add_decoded(codec, line, message(line))
    for codec in ("json", "json_lines"):
        add_decoded(codec, "{}", members("{}"))
        for line in ("", "a", "{", "1", "null", "[]", '"a"', '{"a":1} x', "{'a':1}"):
            add_decoded(codec, line, message(line, **FAILED))
    line = '{"a":{"b":[1,null,true]},"message":"m","@version":"7","event":{"id":3}}'
    add_decoded("json", line, {**members(line), "a": {"b": [Decimal(1), None, True]}, "message": "m", "@version": "7", "event": {"id": Decimal(3), "original": line}})
    line = '{"event":{"original":"mine"}}'
    add_decoded("json", line, members(line))
    line = '{"event":"mine"}'
    add_decoded("json", line, {**FIELDS, "event": "mine"})
    line = '{"a":1,"a":2}'
    add_decoded("json", line, members(line, a=Decimal(2)))
    line = '{"[a]":1,"b.c":2,"":3}'
    add_decoded("json", line, {**members(line), "[a]": Decimal(1), "b.c": Decimal(2), "": Decimal(3)})
    decoded_times_and_tags()
    decoded_deep()


def decoded_times_and_tags():
    """Members whose values have a meaning, or that an event doesn't take as they are."""
    for text, moment in (
        ("2020-02-29T12:00:00Z", "2020-02-29T12:00:00.000Z"),
        ("2020-02-29T12:00:00+01:00", "2020-02-29T11:00:00.000Z"),
        ("2020-02-29T12:00:00.25", "2020-02-29T12:00:00.250Z"),
    ):
        line = f'{{"@timestamp":"{text}"}}'
        add_decoded("json", line, {**members(line), "@timestamp": moment})
    tags = {"tags": ["_timestampparsefailure"]}
    for text, value in (('"yesterday"', "yesterday"), ("7", Decimal(7)), ("null", None), ("{}", {}), ('"2020-02-30T00:00:00Z"', "2020-02-30T00:00:00Z")):
        line = f'{{"@timestamp":{text}}}'
        add_decoded("json", line, {**members(line), "_@timestamp": value, **tags})
    for text, value in (('"a"', ["a"]), ("[]", []), ('["a","b"]', ["a", "b"])):
        line = f'{{"tags":{text}}}'
        add_decoded("json", line, members(line, tags=value))
    for text, value in (("1", Decimal(1)), ("null", None), ('["a",1]', ["a", Decimal(1)]), ('{"a":1}', {"a": Decimal(1)})):
        line = f'{{"tags":{text}}}'
        add_decoded("json", line, members(line, _tags=value, tags=["_tagsparsefailure"]))
    line = '{"@timestamp":1,"tags":["a","_tagsparsefailure"]}'
    add_decoded("json", line, {**members(line), "_@timestamp": Decimal(1), "tags": ["a", "_tagsparsefailure", "_timestampparsefailure"]})
    line = '{"@timestamp":1,"tags":2}'
    add_decoded("json", line, {**members(line), "_@timestamp": Decimal(1), "_tags": Decimal(2), "tags": ["_timestampparsefailure", "_tagsparsefailure"]})
    line = '{"@metadata":{"k":"v"},"a":1}'
    add_decoded("json", line, members(line, a=Decimal(1)), {"k": "v"})
    for text in ("1", "null", "[]", '"a"'):
        line = f'{{"@metadata":{text}}}'
        add_decoded("json", line, members(line))


def decoded_deep():
    """At the limit of levels and behind it, and bytes that are no text."""
    deep = "[" * 99 + "]" * 99
    value = []
    for _ in range(98):
        value = [value]
    line = f'{{"a":{deep}}}'
    add_decoded("json", line, members(line, a=value))
    line = f'{{"a":[{deep}]}}'
    add_decoded("json", line, message(line, **FAILED))
    # Each byte that begins no character is replaced before the line is read.
    add_decoded("json", b'{"a":"\xff"}', members('{"a":"\ufffd"}', a="\ufffd"))
    add_decoded("line", b"\xe2\x82", message("\ufffd\ufffd"))


def samples():
    for start in (0, 1, 2, 20000, 2**64 - 1):
        for count in (0, 1, 2, 3, 4, 5, 6, 7, 8, 100):
            number = start
            for _ in range(count):
                number = next_number(number)
            ROWS.setdefault("samples", []).append((f"{start} {count}", sample(number)))
