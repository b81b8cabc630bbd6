"""Events and templates, for tests: an event is a dict of `fields` and `meta`, a number is a Decimal, a time a Time."""

import json
import re
from decimal import Decimal

TEMPLATE = re.compile(r"%\{([^}]*)\}")
PARTS = {"yyyy": (0, 4), "YYYY": (0, 4), "MM": (5, 7), "dd": (8, 10), "HH": (11, 13), "mm": (14, 16), "ss": (17, 19)}


class Refused(Exception):
    """A value that an event can't hold there."""


class Time:
    """A moment of UTC in nanoseconds, with its text."""

    def __init__(self, nanos, text):
        self.nanos, self.text = nanos, text


def number_text(number):
    text = f"{number:f}"
    text = text.rstrip("0").rstrip(".") if "." in text else text
    return "0" if text == "-0" else text


def json_text(value):
    if value is None or isinstance(value, (bool, str)):
        return json.dumps(value, ensure_ascii=False)
    if isinstance(value, Decimal):
        return number_text(value)
    if isinstance(value, Time):
        return f'"{value.text}"'
    if isinstance(value, list):
        return "[" + ",".join(map(json_text, value)) + "]"
    return "{" + ",".join(f"{json_text(key)}:{json_text(value[key])}" for key in sorted(value)) + "}"


def read_json(text):
    return json.loads(text, parse_int=Decimal, parse_float=Decimal)


def parts_of(path):
    """The parts of a field's name, or of a text that is one already."""
    if isinstance(path, list):
        return path
    return re.findall(r"\[([^\]]+)\]", path) if path.startswith("[") else [path]


def root(event, parts):
    return (event["meta"], parts[1:]) if parts[0] == "@metadata" else (event["fields"], parts)


def get(event, path, missing=None):
    value, parts = root(event, parts_of(path))
    for part in parts:
        if isinstance(value, dict) and part in value:
            value = value[part]
        elif isinstance(value, list) and re.fullmatch("-?[0-9]+", part) and -len(value) <= int(part) < len(value):
            value = value[int(part)]
        else:
            return missing
    return value


def put(event, path, value):
    inner, parts = root(event, parts_of(path))
    for part in parts[:-1]:
        if not isinstance(inner, dict):
            raise Refused
        inner = inner.setdefault(part, {})
    if not isinstance(inner, dict):
        raise Refused
    inner[parts[-1]] = value


def take(event, path):
    parts = parts_of(path)
    inner = get(event, parts[:-1]) if parts[1:] else event["fields"]
    return inner.pop(parts[-1], None) if isinstance(inner, dict) else None


def copy(value):
    if isinstance(value, dict):
        return {key: copy(inner) for key, inner in value.items()}
    return [copy(inner) for inner in value] if isinstance(value, list) else value


def shown(value):
    """The text that stands for a value in a template."""
    if value is None:
        return ""
    if isinstance(value, str):
        return value
    if isinstance(value, list):
        return ",".join(map(shown, value))
    return value.text if isinstance(value, Time) else json_text(value)


def dated(time, layout):
    return re.sub("yyyy|YYYY|MM|dd|HH|mm|ss", lambda it: time.text[slice(*PARTS[it[0]])], layout)


def filled(text, event):
    def part(match):
        name = match[1]
        if name.startswith("+"):
            return dated(event["fields"]["@timestamp"], name[1:])
        value = get(event, name, event)
        return match[0] if value is event else shown(value)

    return TEMPLATE.sub(part, text)


def joined(old, new):
    return (old if isinstance(old, list) else [old]) + (new if isinstance(new, list) else [new])


def add(event, path, value):
    """Puts a value at a field, behind what stands there."""
    old = get(event, path, event)
    put(event, path, value if old is event else joined(old, value))


def add_tag(event, tag):
    tags = event["fields"].get("tags")
    if "tags" not in event["fields"]:
        event["fields"]["tags"] = [tag]
    elif not isinstance(tags, list):
        event["fields"]["tags"] = [tags, tag]
    elif tag not in tags:
        tags.append(tag)
