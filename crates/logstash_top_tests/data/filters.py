"""The filters by the tables of their settings in the Logstash Reference and in this product's documents, for tests. Each takes
its settings and an event, and gives the events that go on with whether the options of all filters act on them."""

import csv
import re
from datetime import datetime, timedelta, timezone
from decimal import Decimal

from events import Refused, Time, add, add_tag, copy, filled, get, joined, parts_of, put, read_json, shown, take

PATTERNS = r"""
USERNAME [a-zA-Z0-9._-]+
USER %{USERNAME}
INT [+-]?[0-9]+
NUMBER [+-]?(?:[0-9]+(?:\.[0-9]+)?|\.[0-9]+)
WORD \b[A-Za-z0-9_]+\b
NOTSPACE \S+
DATA .*?
GREEDYDATA .*
QUOTEDSTRING "(?:\\.|[^\\"])*"|'(?:\\.|[^\\'])*'
QS %{QUOTEDSTRING}
IPV4 (?:(?:25[0-5]|2[0-4][0-9]|1?[0-9]{1,2})\.){3}(?:25[0-5]|2[0-4][0-9]|1?[0-9]{1,2})
IPV6 (?:[0-9A-Fa-f]{0,4}:){2,7}[0-9A-Fa-f]{0,4}
IP %{IPV6}|%{IPV4}
HOSTNAME [0-9A-Za-z][0-9A-Za-z-]{0,62}(?:\.[0-9A-Za-z][0-9A-Za-z-]{0,62})*
IPORHOST %{IP}|%{HOSTNAME}
MONTH Jan(?:uary)?|Feb(?:ruary)?|Mar(?:ch)?|Apr(?:il)?|May|June?|July?|Aug(?:ust)?|Sep(?:tember)?|Oct(?:ober)?|Nov(?:ember)?|Dec(?:ember)?
MONTHNUM 0[1-9]|1[0-2]|[1-9]
MONTHDAY 0[1-9]|[12][0-9]|3[01]|[1-9]
YEAR (?:[0-9]{2}){1,2}
HOUR 2[0-3]|[01]?[0-9]
MINUTE [0-5][0-9]
SECOND (?:[0-5]?[0-9]|60)(?:[.,][0-9]+)?
TIME %{HOUR}:%{MINUTE}(?::%{SECOND})?
ISO8601_TIMEZONE Z|[+-]%{HOUR}:?%{MINUTE}
TIMESTAMP_ISO8601 %{YEAR}-%{MONTHNUM}-%{MONTHDAY}[T ]%{HOUR}:%{MINUTE}(?::%{SECOND})?%{ISO8601_TIMEZONE}?
HTTPDATE %{MONTHDAY}/%{MONTH}/%{YEAR}:%{TIME} %{INT}
LOGLEVEL TRACE|DEBUG|INFO|NOTICE|WARN(?:ING)?|ERROR|CRITICAL|FATAL|trace|debug|info|notice|warn(?:ing)?|error|critical|fatal
COMMONAPACHELOG %{IPORHOST:clientip} %{USER:ident} %{USER:auth} \[%{HTTPDATE:timestamp}\] "(?:%{WORD:verb} %{NOTSPACE:request}(?: HTTP/%{NUMBER:httpversion})?|%{DATA:rawrequest})" %{NUMBER:response} (?:%{NUMBER:bytes}|-)
COMBINEDAPACHELOG %{COMMONAPACHELOG} %{QS:referrer} %{QS:agent}
"""
LIBRARY = dict(line.split(" ", 1) for line in PATTERNS.strip().splitlines())
NUMBER = re.compile(r"-?(?:0|[1-9][0-9]*)(?:\.[0-9]+)?(?:[eE][+-]?[0-9]+)?")
FLAGS = {"t": True, "true": True, "yes": True, "y": True, "1": True, "1.0": True}
FLAGS.update({"f": False, "false": False, "no": False, "n": False, "0": False, "0.0": False, "": False})
MONTHS = "jan feb mar apr may jun jul aug sep oct nov dec".split()
DATES = {"yyyy": r"(?P<y>\d{4})", "MMM": r"(?P<b>[A-Za-z]{3})", "MM": r"(?P<m>\d\d)", "dd": r"(?P<d>\d\d)", "HH": r"(?P<H>\d\d)"}
DATES.update({"mm": r"(?P<M>\d\d)", "ss": r"(?P<S>\d\d)", "SSS": r"(?P<f>\d{3})", "Z": r"(?P<z>Z|[+-]\d\d:?\d\d)"})
ISO = re.compile(r"(?P<y>\d{4})-(?P<m>\d\d)-(?P<d>\d\d)[T ](?P<H>\d\d):(?P<M>\d\d)(?::(?P<S>\d\d))?(?:[.,](?P<f>\d{1,9}))?(?P<z>Z|[+-]\d\d:?\d\d)?")
EPOCH = datetime(1970, 1, 1, tzinfo=timezone.utc)


class Failed(Exception):
    """What a filter was to do can't be done: the event gets a tag."""


def flag(settings, name, default):
    return {"true": True, "false": False}[settings.get(name, "true" if default else "false")]


def listed(value):
    return [] if value is None else value if isinstance(value, list) else [value]


def number_of(text):
    return Decimal(text) if NUMBER.fullmatch(text) else None


def time_of(nanos):
    moment = EPOCH + timedelta(seconds=nanos // 10**9)
    places = f"{nanos % 10**9:09}"
    places = places[:3] + places[3:].rstrip("0")
    return Time(nanos, f"{moment:%Y-%m-%dT%H:%M:%S}.{places}Z")


# What each operation of mutate does, in the order in which they are done.


def coerce(event, field, text):
    if get(event, field, event) is None:
        put(event, field, filled(text, event))


def rename(event, old, new):
    if get(event, old, event) is not event:
        put(event, new, take(event, old))


def update(event, field, text):
    if get(event, field, event) is not event:
        put(event, field, filled(text, event))


def replace(event, field, text):
    put(event, field, filled(text, event))


def converted(value, kind):
    if isinstance(value, list):
        return [converted(item, kind) for item in value]
    if kind == "string":
        return shown(value)
    if kind == "boolean":
        known = FLAGS.get(value) if isinstance(value, str) else {1: True, 0: False}.get(value) if isinstance(value, Decimal) else None
        return value if known is None else known
    number = value
    if isinstance(value, bool):
        number = Decimal(int(value))
    elif isinstance(value, str):
        number = number_of(value.replace(",", ""))
    if not isinstance(number, Decimal):
        raise Failed
    return Decimal(int(number)) if kind == "integer" else number


def convert(event, field, kind):
    value = get(event, field, event)
    if value is not event:
        put(event, field, converted(value, kind))


def on_texts(change):
    def one(event, field):
        value = get(event, field)
        if isinstance(value, str):
            put(event, field, change(value))
        elif isinstance(value, list):
            put(event, field, [change(item) if isinstance(item, str) else item for item in value])

    return one


def split_text(event, field, separator):
    value = get(event, field)
    if isinstance(value, str):
        put(event, field, value.split(separator) if separator else list(value))


def join(event, field, separator):
    value = get(event, field)
    if isinstance(value, list):
        put(event, field, separator.join(map(shown, value)))


def merge(event, into, other):
    old, new = get(event, into, event), get(event, other, event)
    if old is event or new is event:
        return
    if isinstance(old, dict) and isinstance(new, dict):
        put(event, into, {**old, **copy(new)})
    elif (isinstance(old, dict) and isinstance(new, list)) or (isinstance(old, list) and isinstance(new, dict)):
        raise Failed
    else:
        put(event, into, joined(old, copy(new)))


def copied(event, old, new):
    value = get(event, old, event)
    if value is not event:
        put(event, new, copy(value))


def raised(text):
    return "".join(it.upper() if it.isascii() else it for it in text)


def lowered(text):
    return "".join(it.lower() if it.isascii() else it for it in text)


HASHES = [("coerce", coerce), ("rename", rename), ("update", update), ("replace", replace), ("convert", convert)]
LISTS = [
    ("uppercase", on_texts(raised)),
    ("capitalize", on_texts(lambda text: raised(text[:1]) + lowered(text[1:]))),
    ("lowercase", on_texts(lowered)),
    ("strip", on_texts(lambda text: text.strip(" \t\r\n\f\v"))),
]
LAST = [("split", split_text), ("join", join), ("merge", merge), ("copy", copied)]


def mutate(settings, event):
    def hashes(operations):
        for name, change in operations:
            for field, text in settings.get(name, {}).items():
                change(event, field, text)

    hashes(HASHES)
    texts = settings.get("gsub", [])
    for field, pattern, new in zip(texts[::3], texts[1::3], texts[2::3]):
        on_texts(lambda text: re.sub(pattern, new, text))(event, field)
    for name, change in LISTS:
        for field in listed(settings.get(name)):
            change(event, field)
    hashes(LAST)
    return [event], True


def grok_pattern(text, own):
    """A pattern as Python's `re` has it, with the fields of its groups in their order, and how each is read."""
    groups = []

    def one(match):
        if match[4] is not None:
            groups.append((match[4], None))
            return f"(?P<g{len(groups)}>"
        name, field, kind = match[1], match[2], match[3]
        if not field:
            return f"(?:{expand(own.get(name) or LIBRARY[name])})"
        groups.append((field, kind))
        number = len(groups)
        return f"(?P<g{number}>{expand(own.get(name) or LIBRARY[name])})"

    def expand(part):
        return re.sub(r"%\{(\w+)(?::([^}:]+))?(?::(\w+))?\}|\(\?<([^>=!]+)>", one, part)

    return re.compile(expand(text)), groups


def captured(text, kind):
    number = number_of(text) if kind else None
    if number is None or (kind == "int" and number != int(number)):
        return text
    return number


def grok(settings, event):
    own, found = settings.get("pattern_definitions", {}), False
    target = parts_of(settings["target"]) if "target" in settings else []
    for field, patterns in settings["match"].items():
        value = get(event, field)
        for text in listed(value):
            for pattern in listed(patterns):
                regex, groups = grok_pattern(pattern, own)
                match = regex.search(text) if isinstance(text, str) else None
                if not match:
                    continue
                found, names = True, {}
                for number, (name, kind) in enumerate(groups, 1):
                    part = match[f"g{number}"]
                    if part is not None and (part or flag(settings, "keep_empty_captures", False)):
                        names.setdefault(name, []).append(captured(part, kind))
                for name, values in names.items():
                    one = values[0] if len(values) == 1 else values
                    where = target + parts_of(name)
                    if name in listed(settings.get("overwrite")):
                        put(event, where, one)
                    else:
                        add(event, where, one)
                if flag(settings, "break_on_match", True):
                    return [event], True
    if not found:
        raise Failed
    return [event], True


def kv_pairs(text, ends, marks):
    at, pairs = 0, []

    def run(start, stops):
        end = start
        while end < len(text) and text[end] not in stops:
            end += 1
        return end

    while at < len(text):
        if text[at] in ends:
            at += 1
            continue
        end = run(at, ends + marks)
        key = text[at:end]
        if not key or end == len(text) or text[end] not in marks:
            at = run(end, ends)
            continue
        at = end + 1
        close = dict(["\"\"", "''", "()", "[]", "<>"]).get(text[at : at + 1])
        last = text.find(close, at + 1) if close else -1
        if last >= 0:
            value, at = text[at + 1 : last], run(last + 1, ends)
        else:
            end = run(at, ends)
            value, at = text[at:end], end
            if not value:
                continue
        pairs.append((key, value))
    return pairs


def kv(settings, event):
    text = get(event, settings.get("source", "message"))
    if not isinstance(text, str):
        return [event], False
    values = {}
    for key, value in kv_pairs(text, settings.get("field_split", " "), settings.get("value_split", "=")):
        key = key.strip(settings["trim_key"]) if "trim_key" in settings else key
        value = value.strip(settings["trim_value"]) if "trim_value" in settings else value
        wanted = listed(settings.get("include_keys"))
        if (wanted and key not in wanted) or key in listed(settings.get("exclude_keys")):
            continue
        found = values.setdefault(settings.get("prefix", "") + key, [])
        if flag(settings, "allow_duplicate_values", True) or value not in found:
            found.append(value)
    target = parts_of(settings["target"]) if "target" in settings else []
    for key, found in values.items():
        try:
            put(event, target + [key], found[0] if len(found) == 1 else found)
        except Refused:
            pass
    return [event], True


def iso_time(text):
    match = ISO.fullmatch(text)
    try:
        return moment(match.groupdict(), None, "UTC") if match else None
    except ValueError:
        return None


def put_members(event, members):
    for key, value in members.items():
        if key == "@metadata":
            event["meta"] = value if isinstance(value, dict) else event["meta"]
        elif key == "@timestamp" and not (isinstance(value, str) and iso_time(value)):
            event["fields"]["_@timestamp"] = value
            add_tag(event, "_timestampparsefailure")
        elif key == "@timestamp":
            event["fields"][key] = iso_time(value)
        elif key == "tags" and isinstance(value, str):
            event["fields"][key] = [value]
        elif key == "tags" and not (isinstance(value, list) and all(isinstance(it, str) for it in value)):
            event["fields"]["_tags"] = value
            add_tag(event, "_tagsparsefailure")
        else:
            event["fields"][key] = value


def json(settings, event):
    text = get(event, settings["source"], event)
    if text is event:
        return [event], False
    try:
        value = read_json(text) if isinstance(text, str) else None
    except ValueError:
        raise Failed
    if not isinstance(text, str) or ("target" not in settings and not isinstance(value, dict)):
        raise Failed
    if "target" in settings:
        put(event, settings["target"], value)
    else:
        put_members(event, value)
    return [event], True


def csv_filter(settings, event):
    text = get(event, settings.get("source", "message"), event)
    if text is event:
        return [event], False
    separator, quote = settings.get("separator", ","), settings.get("quote_char", '"')
    rows = list(csv.reader(text.splitlines(True), delimiter=separator, quotechar=quote)) if isinstance(text, str) else []
    rows = [row for row in rows if row]
    if len(rows) != 1:
        raise Failed
    target = parts_of(settings["target"]) if "target" in settings else []
    columns = listed(settings.get("columns"))
    for number, value in enumerate(rows[0]):
        if number >= len(columns) and not flag(settings, "autogenerate_column_names", True):
            break
        name = columns[number] if number < len(columns) else f"column{number + 1}"
        if not value and flag(settings, "skip_empty_columns", False):
            continue
        if name in settings.get("convert", {}):
            try:
                value = converted(value, settings["convert"][name])
            except Failed:
                pass
        put(event, target + parts_of(name), value)
    return [event], True


def moment(parts, event, offset):
    if parts.get("b"):
        month = MONTHS.index(parts["b"].lower()) + 1
    else:
        month = int(parts.get("m") or 1)
    year = parts.get("y") or (event["fields"]["@timestamp"].text[:4])
    day, hour = int(parts.get("d") or 1), int(parts.get("H") or 0)
    at = datetime(int(year), month, day, hour, int(parts.get("M") or 0), int(parts.get("S") or 0), tzinfo=timezone.utc)
    nanos = int((at - EPOCH).total_seconds()) * 10**9 + int((parts.get("f") or "0").ljust(9, "0"))
    zone = parts.get("z") or offset
    if zone not in ("Z", "UTC"):
        digits = zone[1:].replace(":", "")
        away = (int(digits[:2]) * 60 + int(digits[2:])) * 60 * 10**9
        nanos += away if zone[0] == "-" else -away
    return time_of(nanos)


def date_read(layout, value, event, offset):
    """The moment that a value writes in this layout, or none."""
    if layout in ("UNIX", "UNIX_MS"):
        number = value if isinstance(value, Decimal) else number_of(value) if isinstance(value, str) else None
        return None if number is None else time_of(int(number * (10**9 if layout == "UNIX" else 10**6)))
    if not isinstance(value, str):
        return None
    if layout == "ISO8601":
        match = ISO.fullmatch(value)
    else:
        tokens = re.split(r"(yyyy|MMM|MM|dd|HH|mm|SSS|ss|Z|'[^']*')", layout)
        match = re.fullmatch("".join(DATES.get(it) or re.escape(it.strip("'")) for it in tokens if it), value)
    try:
        return moment(match.groupdict(), event, offset) if match else None
    except ValueError:
        return None


def date(settings, event):
    field, *layouts = settings["match"]
    value = get(event, field, event)
    if value is event:
        return [event], False
    for layout in layouts:
        time = date_read(layout, value, event, settings.get("timezone", "UTC"))
        if time:
            put(event, settings.get("target", "@timestamp"), time)
            return [event], True
    raise Failed


def clone(settings, event):
    copies = []
    for name in listed(settings["clones"]):
        other = copy(event)
        add_tag(other, name)
        copies.append(other)
    return [event] + copies, copies


def split(settings, event):
    field = settings.get("field", "message")
    value = get(event, field)
    if isinstance(value, str):
        end = settings.get("terminator", "\n")
        pieces = [it for it in (value.split(end) if end else value) if it]
    elif isinstance(value, list):
        pieces = value
    else:
        raise Failed
    if len(pieces) < 2:
        return [event], []
    events = []
    for piece in pieces:
        other = copy(event)
        put(other, settings.get("target", field), copy(piece))
        events.append(other)
    return events, events


def drop(settings, event):
    return [], []


FILTERS = {"mutate": mutate, "grok": grok, "kv": kv, "json": json, "csv": csv_filter, "date": date, "clone": clone, "split": split, "drop": drop}
TAGS = {"mutate": "_mutate_error", "grok": "_grokparsefailure", "json": "_jsonparsefailure", "csv": "_csvparsefailure"}
TAGS.update({"date": "_dateparsefailure", "split": "_split_type_failure"})


def with_options(settings, event):
    for field, text in settings.get("add_field", {}).items():
        try:
            add(event, field, filled(shown(text), event))
        except Refused:
            pass
    for field in listed(settings.get("remove_field")):
        take(event, field)
    for tag in listed(settings.get("add_tag")):
        add_tag(event, filled(tag, event))
    for tag in listed(settings.get("remove_tag")):
        if isinstance(event["fields"].get("tags"), list):
            text = filled(tag, event)
            event["fields"]["tags"] = [it for it in event["fields"]["tags"] if it != text]


def applied(name, settings, event):
    """The events that a filter makes of one."""
    try:
        events, matched = FILTERS[name](settings, event)
    except (Failed, Refused):
        add_tag(event, settings.get("tag_on_failure", TAGS[name]))
        return [event]
    for one in events if matched is True else matched or []:
        with_options(settings, one)
    return events
