"""Reads configurations as the Logstash Reference writes them, for tests: `read` gives the sections with their statements.

A statement is ("plugin", name, settings) or ("if", arms, other), whose arms are pairs of a condition and its statements. Settings
are a dict; a codec with settings is a pair of its name and its settings. A condition is a tuple with the operator first, and a
field in it ("field", its parts).
"""

import re
from decimal import Decimal

BLANKS = re.compile(r"(?:\s|#[^\n]*)*")
STRING = re.compile(r""""((?:\\.|[^"\\])*)"|'((?:\\.|[^'\\])*)'""", re.S)
NUMBER = re.compile(r"-?[0-9]+(?:\.[0-9]+)?")
WORD = re.compile(r"[A-Za-z_][A-Za-z0-9_-]*")
REGEXP = re.compile(r"/((?:\\.|[^/\\])*)/", re.S)
SELECTOR = re.compile(r"(?:\[[^\[\],\"']+\])+")
COMPARED = re.compile(r"==|!=|<=|>=|<|>|=~|!~")


class Reader:
    def __init__(self, text):
        self.text, self.at = text, 0

    def found(self, pattern):
        """What a pattern matches at this place, behind blanks; then the place is behind it."""
        start = BLANKS.match(self.text, self.at).end()
        match = pattern.match(self.text, start)
        if match:
            self.at = match.end()
        return match

    def has(self, *marks):
        match = self.found(re.compile("|".join(re.escape(it) + (r"\b" if it[-1].isalpha() else "") for it in marks)))
        return match and match[0]

    def want(self, *marks):
        mark = self.has(*marks)
        if not mark:
            raise SyntaxError(f"{marks} at {self.text[self.at:]!r}")
        return mark

    def string(self):
        match = self.found(STRING)
        return match and (match[1] if match[1] is not None else match[2])

    def number(self):
        match = self.found(NUMBER)
        return match and Decimal(match[0])

    def name(self):
        text = self.string()
        if text is None:
            match = self.found(WORD) or self.found(NUMBER)
            text = match and match[0]
        return text

    def value(self):
        for read in (self.string, self.number):
            value = read()
            if value is not None:
                return value
        if self.has("["):
            return self.items("]", self.value)
        if self.has("{"):
            return dict(self.pairs())
        word = self.found(WORD)[0]
        return (word, dict(self.pairs())) if self.has("{") else word

    def items(self, end, read):
        items = []
        while not self.has(end):
            items.append(read())
            self.has(",")
        return items

    def pairs(self):
        pairs = []
        while not self.has("}"):
            name = self.name()
            self.want("=>")
            pairs.append((name, self.value()))
        return pairs

    def settings(self):
        settings = {}
        for name, value in self.pairs():
            old = settings.get(name)
            if isinstance(old, list) and isinstance(value, list):
                settings[name] = old + value
            elif isinstance(old, dict) and isinstance(value, dict):
                settings[name] = {**old, **value}
            else:
                settings[name] = value
        return settings

    def statements(self):
        statements = []
        while not self.has("}"):
            statements.append(self.branch() if self.has("if") else self.plugin())
        return statements

    def plugin(self):
        name = self.name()
        self.want("{")
        return ("plugin", name, self.settings())

    def branch(self):
        arms, other = [], []
        while True:
            condition = self.condition()
            self.want("{")
            arms.append((condition, self.statements()))
            if not self.has("else"):
                break
            if not self.has("if"):
                self.want("{")
                other = self.statements()
                break
        return ("if", arms, other)

    def condition(self):
        left = self.joined()
        while joint := self.has("or", "xor"):
            left = (joint, left, self.joined())
        return left

    def joined(self):
        left = self.unary()
        while joint := self.has("and", "nand"):
            left = (joint, left, self.unary())
        return left

    def unary(self):
        if self.found(re.compile(r"!(?![~=])")):
            return ("!", self.unary())
        if self.has("("):
            inner = self.condition()
            self.want(")")
            return inner
        return self.compared()

    def compared(self):
        left = self.operand()
        compared = self.found(COMPARED)
        if compared and compared[0] in ("=~", "!~"):
            match = self.found(REGEXP)
            pattern = match[1].replace("\\/", "/") if match else self.string()
            return (compared[0], left, pattern)
        if compared:
            return (compared[0], left, self.operand())
        if self.has("not"):
            self.want("in")
            return ("not in", left, self.operand())
        return ("in", left, self.operand()) if self.has("in") else left

    def operand(self):
        match = self.found(SELECTOR)
        if match:
            return ("field", re.findall(r"\[([^\]]+)\]", match[0]))
        if self.has("["):
            return ("value", self.items("]", lambda: self.operand()[1]))
        text = self.string()
        return ("value", self.number() if text is None else text)


def read(text):
    """The statements of a configuration, by their section."""
    reader, sections = Reader(text), {"input": [], "filter": [], "output": []}
    while section := reader.has("input", "filter", "output"):
        reader.want("{")
        sections[section] += reader.statements()
    if BLANKS.match(text, reader.at).end() != len(text):
        raise SyntaxError(text[reader.at :])
    return sections
