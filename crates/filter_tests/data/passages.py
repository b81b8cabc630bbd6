#!/usr/bin/env python3
"""Writes the table `passages`, and prints what must be printed of it: what becomes of events by the chapter on event flow of
the Logstash Reference. It goes through the statements by recursion, each event with everything that becomes of it before
the next, and was read through by hand."""
import json

KINDS = {bool: "boolean", int: "number", float: "number", str: "text", list: "list", dict: "object", type(None): "null"}


class Wrong(Exception):
    """A condition that has no truth of an event, with the reason."""


class If:
    """`if`, any number of `else if`, and `else`: arms of a condition and a block, and a block for the others."""

    def __init__(self, *arms, other=None):
        self.arms, self.other = arms, other

    def __str__(self):
        text = " else ".join(f"if {condition} {{ {written(block)} }}" for condition, block in self.arms)
        return text if self.other is None else f"{text} else {{ {written(self.other)} }}"


class Condition:
    def __init__(self, text, says):
        self.text, self.says, self.number = text, says, 0

    def __str__(self):
        return self.text


class Filter:
    def __init__(self, text, makes):
        self.text, self.makes = text, makes

    def __str__(self):
        return self.text


class Output:
    def __init__(self, name, places, settings="", own=None):
        self.name, self.places, self.settings, self.own, self.number = name, places, settings, own, 0

    def __str__(self):
        own = f'id => "{self.own}" ' if self.own else ""
        return f"{self.name} {{ {own}{self.settings}}}"


def written(statements):
    return " ".join(map(str, statements))


def is_(field, value):
    return Condition(f"[{field}] == {json.dumps(value)}", lambda e: field in e and (type(e[field]), e[field]) == (type(value), value))


def over(field, least):
    def says(event):
        if event.get(field) is None:
            return False
        if type(event[field]) is not int:
            raise Wrong(f"order of {KINDS[type(event[field])]} and number")
        return event[field] > least

    return Condition(f"[{field}] > {least}", says)


def matches(field, text):
    def says(event):
        if event.get(field) is None:
            return False
        if type(event[field]) is not str:
            raise Wrong(f"match of {KINDS[type(event[field])]}")
        return text in event[field]

    return Condition(f"[{field}] =~ /{text}/", says)


def tagged(tag):
    return Condition(f'"{tag}" in [tags]', lambda e: tag in e.get("tags", []))


def has(field):
    return Condition(f"[{field}]", lambda e: e.get(field) is not None and e[field] is not False)


def both(one, other):
    return Condition(f"{one} and {other}", lambda e: one.says(e) and other.says(e))


def either(one, other):
    return Condition(f"{one} or {other}", lambda e: one.says(e) or other.says(e))


def no(one):
    return Condition(f"!({one})", lambda e: not one.says(e))


def with_tag(event, name):
    """A tag is added where it isn't there."""
    tags = event.get("tags", [])
    return {**event, "tags": tags if name in tags else tags + [name]}


def tag(name):
    return Filter(f'mutate {{ add_tag => "{name}" }}', lambda e: [with_tag(e, name)])


def put(field, text):
    return Filter(f'mutate {{ replace => {{ "{field}" => "{text}" }} }}', lambda e: [{**e, field: text}])


def clone(*names):
    listed = ", ".join(f'"{it}"' for it in names)
    return Filter(f"clone {{ clones => [{listed}] }}", lambda e: [e] + [with_tag(e, it) for it in names])


def split(field):
    def makes(event):
        items = event.get(field)
        if type(items) is str:  # no text here has two lines
            return [event]
        if type(items) is not list:
            return [with_tag(event, "_split_type_failure")]
        return [event] if len(items) < 2 else [{**event, field: it} for it in items]

    return Filter(f'split {{ field => "{field}" }}', makes)


def drop():
    return Filter("drop { }", lambda e: [])


def stdout(own=None):
    return Output("stdout", ["stdout"], own=own)


def sink(own=None):
    return Output("sink", ["nowhere"], own=own)


def file(path, own=None):
    return Output("file", [path], f'path => "{path}" ', own)


def pipeline(*addresses):
    listed = ", ".join(f'"{it}"' for it in addresses)
    return Output("pipeline", list(dict.fromkeys(f"@{it}" for it in addresses)), f"send_to => [{listed}] ")


def count(statements, kind, number=1):
    """Numbers the conditions or the outputs of a section in the order of the text."""
    for it in statements:
        if isinstance(it, If):
            for condition, block in it.arms:
                if kind is Condition:
                    condition.number, number = number, number + 1
                number = count(block, kind, number)
            number = count(it.other or [], kind, number)
        elif kind is not Condition:
            it.number, number = number, number + 1
    return number


def go(statements, event, section, then, done):
    """Takes an event through statements, and on to what stands behind them."""
    if not statements:
        then(event)
        return
    first, rest = statements[0], statements[1:]
    behind = lambda e: go(rest, e, section, then, done)
    if isinstance(first, Filter):
        for made in first.makes(event):
            behind(made)
    elif isinstance(first, Output):
        for place in first.places:
            done.append(f"{first.own or f'output_{first.number}'} {place} {shown(event)}")
        behind(event)
    else:
        arms = list(first.arms)
        while arms:
            condition, block = arms.pop(0)
            try:
                if condition.says(event):
                    go(block, event, section, behind, done)
                    return
            except Wrong as why:
                done.append(f"dead {section}_if_{condition.number} {why} {shown(event)}")
                return
        go(first.other or [], event, section, behind, done)


def shown(event):
    return json.dumps(event, sort_keys=True, separators=(",", ":"))


def passage(filters, outputs, events):
    """What is printed of a row: of more than a hundred events that are sent the first and the last."""
    count(filters, Condition), count(outputs, Condition), count(outputs, Output)
    done = []
    for event in events:
        go(filters, event, "filter", lambda e: go(outputs, e, "output", lambda _: None, done), done)
    sent = [it for it in done if not it.startswith("dead ")]
    dead = [it for it in done if it.startswith("dead ")]
    if len(sent) > 100:
        return f"{len(sent)} sent, and of these " + " | ".join([sent[0], sent[-1]] + dead)
    return " | ".join(sent + dead) or "nothing"


A, B, C = {"a": 1}, {"a": 2}, {"a": "x"}
X = stdout
ROWS = [
    ([], [X()], [A]),
    ([], [X()], [A, B, C]),
    ([], [X(), sink(), file("/tmp/out"), pipeline("p", "q", "p")], [A]),
    ([], [X("one"), X("two")], [A, B]),
    ([drop()], [X()], [A, B]),
    ([drop(), tag("t")], [X(), X()], [A]),
    ([tag("t"), tag("u")], [X()], [A, B]),
    # branches
    ([If((is_("a", 1), [tag("one")]), (is_("a", 2), [tag("two")]), other=[tag("other")])], [X()], [A, B, C]),
    ([If((is_("a", 1), [drop()]))], [X()], [A, B, A, B]),
    ([If((is_("a", 1), [If((has("b"), [tag("ab")]), other=[tag("a")])]), other=[tag("o")]), tag("end")], [X()], [A, {"a": 1, "b": 0}, B]),
    ([If((has("a"), [If((is_("a", 1), [If((has("b"), [drop()]), other=[put("d", "3")])]), other=[put("d", "2")])]), other=[put("d", "0")])], [X()],
     [A, B, {}, {"a": 1, "b": 1}]),
    ([If((is_("a", 9), [])), If((is_("a", 1), []), other=[tag("t")])], [X()], [A, B]),
    ([If((is_("a", 1), [put("a", "y")]), (is_("a", "y"), [tag("no")])), If((is_("a", "y"), [tag("yes")]))], [X()], [A, C]),
    # outputs in branches
    ([], [If((is_("a", 1), [X("one")]), (is_("a", 2), [X("two"), sink("none")]), other=[X("other")]), X("all")], [A, B, C]),
    ([], [If((has("a"), [If((is_("a", 1), [X("in")]), other=[sink("out")]), X("mid")])), X("end")], [A, B, {}]),
    ([], [If((is_("a", 7), [X()]))], [A]),
    ([], [X("first"), If((tagged("t"), [X("t")])), X("last")], [{"tags": ["t"]}, {"tags": []}]),
    # clones
    ([clone("c")], [X()], [A, B]),
    ([clone("c", "d")], [X("one"), X("two")], [A]),
    ([clone("c"), clone("d")], [X()], [A]),
    ([clone("c"), clone("d"), clone("e")], [X()], [A]),
    ([clone("c"), If((tagged("c"), [put("m", "copy")])), tag("all")], [X()], [A]),
    ([clone("c"), If((tagged("c"), [drop()]))], [X()], [A, B]),
    ([clone("c"), If((no(tagged("c")), [drop()])), clone("d")], [X()], [A]),
    ([If((is_("a", 1), [clone("c"), tag("in")])), tag("behind")], [X()], [A, B]),
    ([clone("c")], [If((tagged("c"), [X("copies")]), other=[X("originals")]), sink("all")], [A]),
    # splits
    ([split("l")], [X()], [{"l": [1, 2, 3]}, A, {"l": [4]}]),
    ([split("l"), split("l")], [X()], [{"l": [[1, 2], [3, 4]]}]),
    ([split("l"), split("m")], [X()], [{"l": [1, 2], "m": [3, 4]}]),
    ([split("l"), clone("c")], [X()], [{"l": [1, 2]}]),
    ([clone("c"), split("l")], [X()], [{"l": [1, 2]}]),
    ([split("l"), If((over("l", 1), [tag("big")]), other=[drop()])], [X()], [{"l": [1, 2, 3]}, {"l": [0, 5]}]),
    ([If((has("l"), [split("l"), If((is_("l", 2), [clone("c")]))])), tag("end")], [X()], [{"l": [1, 2]}, A]),
    # conditions that are wrong
    ([If((over("a", 1), [tag("big")]))], [X()], [A, B, C]),
    ([If((matches("a", "x"), [tag("m")])), tag("end")], [X()], [C, A, {}]),
    ([If((is_("a", 1), [tag("one")]), (over("a", 1), [tag("big")]), other=[tag("o")])], [X()], [A, B, C, {}]),
    ([If((has("a"), [If((over("a", 0), [tag("in")])), tag("mid")])), tag("end")], [X()], [A, C, {}]),
    ([If((has("z"), [If((over("a", 0), []))]), (over("a", 0), []))], [X()], [{"a": "x", "z": 1}, {"a": "x"}]),
    ([], [X("first"), If((over("a", 1), [X("big")])), X("last")], [A, B, C]),
    ([], [If((has("a"), [X("in"), If((matches("a", "x"), [X("m")]), other=[X("o")])])), X("last")], [A, C, {}]),
    ([clone("c"), If((both(tagged("c"), over("a", 0)), [tag("big")]))], [X()], [C, A]),
    ([split("l"), If((over("l", 1), [tag("big")]))], [X()], [{"l": [1, "x", 2, None, [3], {"k": 4}, True]}]),
    ([If((either(is_("a", "x"), over("a", 1)), [tag("t")]))], [X()], [A, B, C, {"a": "y"}]),
    ([If((no(over("a", 1)), [tag("t")]))], [X()], [A, B, C]),
    ([clone("c"), clone("d")], [If((tagged("c"), [If((over("a", 0), [X("c")]))]), other=[X("o")])], [A, C]),
    # ten thousand events of one
    ([split("l"), split("m")], [X()], [{"l": list(range(100)), "m": list(range(100))}]),
]


def main():
    print("# passages")
    with open("passages", "w", encoding="utf-8") as table:
        for filters, outputs, events in ROWS:
            texts = " and ".join(map(shown, events))
            table.write(f"filter {{ {written(filters)} }} output {{ {written(outputs)} }} on {texts}\n")
            print(passage(filters, outputs, events))


if __name__ == "__main__":
    main()
