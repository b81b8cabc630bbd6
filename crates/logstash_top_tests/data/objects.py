"""The objects of the outside in these tables: what they hold behind calls of which some fail, and how rows write bytes."""

import json

LIMIT, MANY = 1_048_576, 8


class Failed(Exception):
    pass


class Object:
    """An object of the outside, of which some calls fail and others wait."""

    def __init__(self, most=None, failing=(), waiting=()):
        self.most, self.failing, self.waiting = most, failing, waiting
        self.made = self.faults = self.flushed = 0
        self.taken = b""

    def call(self):
        number, self.made = self.made, self.made + 1
        if number in self.failing:
            self.faults += 1
            raise Failed
        return number in self.waiting

    def write(self, data):
        while data:
            self.call()
            count = min(len(data), self.most or len(data))
            self.taken, data = self.taken + data[:count], data[count:]

    def flush(self):
        self.call()
        self.flushed = len(self.taken)

    def written(self):
        return " ".join([str(self.most or "-"), ",".join(map(str, self.failing)) or "-"])

    def told(self, name):
        state = "flushed" if self.flushed == len(self.taken) else "not flushed"
        return f"; {name} {self.made} calls {self.faults} faults {state}: {told(self.taken.decode())}"


def told(text):
    parts, at = [], 0
    while at < len(text):
        end = at
        while end < len(text) and text[end] == text[at]:
            end += 1
        count, one = end - at, text[at]
        parts.append(f"%{count}*{one};" if count > MANY else ("%0a;" if one == "\n" else one) * count)
        at = end
    return "".join(parts)


def written(data):
    """Bytes as a row has them: what can't stand there in base 16, and a long run of one byte by its number."""
    parts, at = [], 0
    while at < len(data):
        end = at
        while end < len(data) and data[end] == data[at]:
            end += 1
        one = data[at : at + 1]
        if end - at > 40:
            parts.append(f"%{end - at}*{one.decode()};")
        else:
            plain = 32 <= one[0] < 127 and one not in b"%"
            parts.append((one.decode() if plain else f"%{one.hex()};") * (end - at))
        at = end
    return "".join(parts)


def words_written(words):
    return " & ".join(written(word.encode()) or "%;" for word in words)


def text_of(data):
    """The text of bytes: each byte that begins no character is U+FFFD."""
    text, at = "", 0
    while at < len(data):
        for width in (1, 2, 3, 4):
            try:
                text += data[at : at + width].decode()
                at += width
                break
            except UnicodeDecodeError:
                pass
        else:
            text, at = text + "\ufffd", at + 1
    return text


def row_of(line, **fields):
    """The row of a line whose event has these fields besides."""
    event = {"@timestamp": "2024-01-01T00:00:00.000Z", "@version": "1", "event": {"original": line}, "message": line, **fields}
    return json.dumps(event, ensure_ascii=False, separators=(",", ":"), sort_keys=True) + "\n"


class Lines:
    def __init__(self):
        self.part = b""

    def feed(self, data):
        """Gives the lines that these bytes make whole."""
        while data:
            room = LIMIT - len(self.part)
            end = data.find(b"\n", 0, room)
            if end >= 0:
                line = self.part + data[:end]
                yield line[:-1] if line.endswith(b"\r") else line
                self.part, data = b"", data[end + 1 :]
            elif len(data) >= room:
                yield self.part + data[:room]
                self.part, data = b"", data[room:]
            else:
                self.part, data = self.part + data, b""
