"""What inputs make of their lines, for tests: the event by the codec of the input, then its type, fields and tags."""

from events import Refused, add_tag, put, read_json
from filters import iso_time, with_options

BATCH = 125


def sample(number):
    """The line of a number of a sample."""
    upper = number >> 33
    return (
        f"user=u{upper % 100} took={upper % 1000}",
        f'{{"user":"u{upper % 100}","took":{upper % 1000}}}',
        f'10.0.0.{upper % 250} - - [10/Oct/2000:13:55:36 +0000] "GET /p{upper % 1000} HTTP/1.1" 200 {upper % 10000}',
        f"junk {upper}",
    )[upper % 4]


def next_number(number):
    return (number * 6364136223846793005 + 1442695040888963407) % 2**64


def message(line, moment):
    return {"fields": {"message": line, "@version": "1", "@timestamp": moment, "event": {"original": line}}, "meta": {}}


def are_tags(value):
    return isinstance(value, str) or (isinstance(value, list) and all(isinstance(it, str) for it in value))


def of_object(members, line, moment):
    """The event of a JSON object."""
    fields, failures = dict(members), []
    meta = fields.pop("@metadata", None)
    time, tags = fields.pop("@timestamp", moment), fields.pop("tags", [])
    if time is moment or (isinstance(time, str) and iso_time(time)):
        fields["@timestamp"] = time if time is moment else iso_time(time)
    else:
        fields |= {"@timestamp": moment, "_@timestamp": time}
        failures.append("_timestampparsefailure")
    if not are_tags(tags):
        fields["_tags"], tags = tags, []
        failures.append("_tagsparsefailure")
    tags = [tags] if isinstance(tags, str) else tags
    tags = tags + [tag for tag in failures if tag not in tags]
    if tags or are_tags(members.get("tags")):
        fields["tags"] = tags
    fields.setdefault("@version", "1")
    event = {"fields": fields, "meta": meta if isinstance(meta, dict) else {}}
    try:
        put(event, ["event", "original"], line)
    except Refused:
        pass
    return event


def decoded(codec, line, moment):
    if not codec.startswith("json"):
        return message(line, moment)
    try:
        value = read_json(line)
    except ValueError:
        value = None
    if isinstance(value, dict):
        return of_object(value, line, moment)
    event = message(line, moment)
    add_tag(event, "_jsonparsefailure")
    return event


class Input:
    """An input with its settings."""

    def __init__(self, statement, moment):
        _, self.name, self.settings = statement
        self.moment = moment
        codec = self.settings.get("codec", "plain" if self.name == "generator" else "line")
        self.codec = codec[0] if isinstance(codec, tuple) else codec

    def event(self, line, sequence=None):
        event = decoded(self.codec, line, self.moment)
        if sequence is not None:
            try:
                put(event, ["event", "sequence"], sequence)
            except Refused:
                pass
        if "type" in self.settings:
            event["fields"].setdefault("type", self.settings["type"])
        with_options({"add_field": self.settings.get("add_field", {}), "add_tag": self.settings.get("tags")}, event)
        return event

    def lines(self):
        """The lines of a generator; without end where the count is 0."""
        count, number = int(self.settings.get("count", 0)), self.settings.get("sample")
        texts = self.settings.get("lines", [self.settings.get("message", "Hello world!")])
        texts = texts if isinstance(texts, list) else [texts]
        turn = 0
        while count == 0 or turn < count:
            turn += 1
            if number is None:
                yield from texts
            else:
                number = next_number(int(number))
                yield sample(number)
