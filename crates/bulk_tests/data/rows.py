# Makes data/deliveries and stdout: the rows, and what the output `elasticsearch` answers to them. The answers in the rows were worked
# out by hand; those that a model in Python works out have to be the same, and it alone gives the others.
import datetime
import json
import os
import re

HERE = os.path.dirname(os.path.abspath(__file__))
TOKEN = rb"[!#$%&'*+.^_`|~0-9A-Za-z-]+"
TEXT = rb"[\t\x20-\x7e\x80-\xff]*"
HEAD = re.compile(rb"(?:\r?\n)*HTTP/1\.[01] ([0-9]{3})(?: %b)?\r?\n((?:%b:%b\r?\n)*)\r?\n" % (TEXT, TOKEN, TEXT))
FIELD = re.compile(rb"(%b):(%b)\r?\n" % (TOKEN, TEXT))
CHUNK = re.compile(rb"([0-9A-Fa-f]{1,16})[ \t]*(?:;[^\r\n]*)?\r\n")
SIGNS = {"r": "\r", "n": "\n", "s": " ", "t": "\t", "b": "|", "k": "\\"}
LEVELS = 127


def bytes_of(written, status=""):
    # the bytes of a reply as a row has it
    pieces = written.split("\\")
    text = pieces[0]
    for piece in pieces[1:]:
        if piece.startswith("("):
            count, rest = piece[1:].split("*", 1)
            repeated, rest = rest.split(")", 1)
            text += int(count) * repeated + rest
        else:
            text += SIGNS.get(piece[0], status) + piece[1:]
    return text.encode("utf-8")


def written(text):
    # the other way round
    text = text.replace("\\", "\\k")
    for sign, stands_for in SIGNS.items():
        if sign != "k":
            text = text.replace(stands_for, "\\" + sign)
    return text


def body_of(fields, rest):
    # the body behind a head, or None
    codings = [value for name, value in fields if name == b"transfer-encoding"]
    lengths = [value for name, value in fields if name == b"content-length"]
    if codings:
        if len(codings) > 1 or codings[0].lower() != b"chunked":
            return None
        body, at = b"", 0
        while line := CHUNK.match(rest, at):
            size, at = int(line[1], 16), line.end()
            if size == 0:
                return body
            if len(rest) < at + size + 2 or rest[at + size:at + size + 2] != b"\r\n":
                return None
            body += rest[at:at + size]
            at += size + 2
        return None
    if lengths:
        if len(lengths) > 1 or not re.fullmatch(rb"[0-9]+", lengths[0]) or int(lengths[0]) >= 1 << 64:
            return None
        return rest[:int(lengths[0])] if int(lengths[0]) <= len(rest) else None
    return rest


def levels(value):
    if isinstance(value, dict):
        return 1 + max(map(levels, value.values()), default=0)
    if isinstance(value, list):
        return 1 + max(map(levels, value), default=0)
    return 0


def no_constant(name):
    raise ValueError(name)


def answers_in(body, count):
    # the status and the reason of each item, or None
    try:
        value = json.loads(body.decode("utf-8"), parse_constant=no_constant)
        json.dumps(value, ensure_ascii=False).encode("utf-8")
    except ValueError:
        return None
    items = value.get("items") if isinstance(value, dict) else None
    if not isinstance(items, list) or len(items) != count or levels(value) > LEVELS:
        return None
    answers = []
    for item in items:
        inner = list(item.values())[0] if isinstance(item, dict) and len(item) == 1 else None
        status = inner.get("status") if isinstance(inner, dict) else None
        if type(status) is not int or not 0 <= status <= 65535:
            return None
        error = inner.get("error")
        texts = [error.get(key) for key in ("reason", "type")] if isinstance(error, dict) else []
        answers.append((status, next((text for text in texts if isinstance(text, str)), "")))
    return answers


def cut(text):
    data = text.encode("utf-8")[:65536]
    return data.decode("utf-8", "ignore")


def fate_of(answer):
    status, reason = answer
    if 200 <= status <= 299:
        return "took"
    if status not in (400, 404):
        return None
    reason = cut(reason)
    length = len(reason.encode("utf-8"))
    return f"rejected {status} " + (f"{length} bytes" if length > 40 else f"({reason})")


def read(reply, count):
    # a list of fates, "other", or "bad"
    head = HEAD.match(reply)
    fields = FIELD.findall(head[2]) if head else []
    if not head or len(fields) > 64:
        return "bad"
    if head[1] != b"200":
        return "other"
    body = body_of([(name.lower(), value.strip(b" \t")) for name, value in fields], reply[head.end():])
    answers = answers_in(body, count) if body is not None else None
    return "bad" if answers is None else [fate_of(answer) for answer in answers]


def time_of(event):
    return datetime.datetime.fromtimestamp(event["@timestamp"], datetime.timezone.utc) if "@timestamp" in event else None


def filled(template, event):
    # the name of an index: fields of texts, and dates by years, months and days
    def fill(match):
        moment = time_of(event)
        if match[1].startswith("+") and moment:
            return match[1][1:].replace("yyyy", f"{moment:%Y}").replace("MM", f"{moment:%m}").replace("dd", f"{moment:%d}")
        return event.get(match[1], match[0])

    return re.sub(r"%\{([^}]*)\}", fill, template)


def compact(value):
    return json.dumps(value, separators=(",", ":"), ensure_ascii=False, sort_keys=True)


def lines_of(index, event):
    fields = dict(event)
    if time_of(event):
        fields["@timestamp"] = f"{time_of(event):%Y-%m-%dT%H:%M:%S}.000Z"
    return compact({"index": {"_index": filled(index, event)}}) + "\n" + compact(fields) + "\n"


def refusal(settings):
    for name, value in sorted(settings.items()):
        if name == "hosts":
            values = value if isinstance(value, list) else [value]
            if not values or not all(isinstance(host, str) and re.fullmatch(r"(?s).*:0*[1-9][0-9]{0,4}", host) and int(host.rpartition(":")[2]) < 65536 for host in values):
                return "the setting hosts has a value of another kind"
        elif name in ("index", "id"):
            if not isinstance(value, str):
                return f"the setting {name} has a value of another kind"
        else:
            return f"the setting {name} is unknown"
    return None if "hosts" in settings else "the setting hosts is missing"


class Model:
    def __init__(self, settings, failing, replies):
        self.settings, self.failing, self.replies = settings, failing, replies
        self.host, self.index = "", ""
        self.made, self.faults, self.bad, self.last_bad, self.laters = 0, 0, 0, b"", 0
        self.kept, self.settled, self.sent = [], [], []

    def configure(self):
        fault = refusal(self.settings)
        if fault:
            return fault
        hosts = self.settings["hosts"]
        self.host = hosts[0] if isinstance(hosts, list) else hosts
        self.index = self.settings.get("index", "ecs-logstash-%{+yyyy.MM.dd}")
        self.kept, self.settled = [], []
        return "set"

    def ask(self, body):
        head = f"POST /_bulk HTTP/1.1\r\nHost: {self.host}\r\nContent-Type: application/x-ndjson\r\nContent-Length: {len(body.encode('utf-8'))}\r\nConnection: close\r\n\r\n"
        self.sent.append(head + body)
        self.made += 1
        if self.made - 1 in self.failing:
            self.faults += 1
            return None
        return self.replies.pop(0) if self.replies else b""

    def deliver(self, events):
        if self.kept != events:
            self.kept, self.settled = [], []
        settled = self.settled or [None] * len(events)
        left = [place for place, fate in enumerate(settled) if fate is None]
        reply = self.ask("".join(lines_of(self.index, events[place]) for place in left))
        if reply is None:
            return "failed"
        found = read(reply, len(left))
        if found == "bad":
            self.bad, self.last_bad = self.bad + 1, reply
            return "failed"
        if found == "other":
            self.laters += 1
            return "later"
        settled = list(settled)
        for place, fate in zip(left, found):
            settled[place] = fate
        if None in settled:
            self.kept, self.settled, self.laters = events, settled, self.laters + 1
            return "later"
        self.kept, self.settled = [], []
        return ", ".join(settled)

    def call(self, call, events):
        if call[0] == "s":
            return self.configure()
        if call[0] == "d":
            return self.deliver([events[int(place)] for place in call[1:]])
        if call == "c":
            return f"faults {self.faults}, bad {self.bad} of {len(self.last_bad)} bytes, laters {self.laters}"
        if not self.sent:
            return "nothing sent"
        last = self.sent[-1]
        body = last.partition("\r\n\r\n")[2]
        shown = (last if call == "Q" else body).replace("\r", "\\r").replace("\n", "\\n")
        return shown if call == "Q" else f"{len(self.sent)} to {self.host} of {len(body.encode('utf-8'))} bytes {shown}"


def modelled(settings, events, failing, replies, calls):
    model = Model(settings, failing, [bytes_of(reply) for reply in replies])
    answers = [model.configure()] + [model.call(call, events) for call in calls.split()]
    return "".join(answer + "; " for answer in answers)


def event_word(event):
    fields = {name: value for name, value in event.items() if name != "@timestamp"}
    return (f"{event['@timestamp']}@" if "@timestamp" in event else "") + compact(fields)


def statuses(reply):
    answers = []
    for status in range(200, 600):
        answer = Model({"hosts": ["h:9200"]}, [], [bytes_of(reply, str(status))]).deliver([{"message": "a"}])
        if answers and answers[-1][2] == answer:
            answers[-1][1] = status
        else:
            answers.append([status, status, answer])
    return "; ".join(f"{first} to {last}: {answer}" for first, last, answer in answers)


def reply(body, head="HTTP/1.1 200 OK", fields=""):
    return written(f"{head}\r\n{fields}\r\n") + body


def items(*inner):
    return written('{"items":[' + ",".join('{"index":' + one + "}" for one in inner) + "]}")


def status(number, error=None):
    return f'{{"status":{number}' + (f',"error":{error}' if error else "") + "}"


TOOK = items(status(201))
BAD = '{"type":"t","reason":"bad"}'
SET = {"hosts": ["h:9200"], "index": "i"}
A, B = {"message": "a"}, {"message": "b"}

# replies to one event, each with what becomes of it
REPLIES = [
    # statuses of items
    (reply(items(status(200))), "took"),
    (reply(items(status(299))), "took"),
    (reply(items(status(201, BAD))), "took"),
    (reply(items(status(0))), "later"),
    (reply(items(status(199))), "later"),
    (reply(items(status(300))), "later"),
    (reply(items(status(409, BAD))), "later"),
    (reply(items(status(429, BAD))), "later"),
    (reply(items(status(65535))), "later"),
    (reply(items(status(65536))), "failed"),
    (reply(items(status(65737))), "failed"),
    (reply(items(status(18446744073709551817))), "failed"),
    (reply(items(status(-201))), "failed"),
    (reply(items(status("201.0"))), "failed"),
    (reply(items(status("2.01e2"))), "failed"),
    (reply(items(status('"201"'))), "failed"),
    (reply(items(status("null"))), "failed"),
    (reply(items(status("[201]"))), "failed"),
    (reply(items("{}")), "failed"),
    (reply(items('{"Status":201}')), "failed"),
    (reply(items('{"status":500,"status":201}')), "took"),
    # why events are refused
    (reply(items(status(400, BAD))), "rejected 400 (bad)"),
    (reply(items(status(404, BAD))), "rejected 404 (bad)"),
    (reply(items(status(400, '{"type":"t"}'))), "rejected 400 (t)"),
    (reply(items(status(400, '{"type":"t","reason":""}'))), "rejected 400 ()"),
    (reply(items(status(400, '{"type":"t","reason":null}'))), "rejected 400 (t)"),
    (reply(items(status(400, '{"type":5,"reason":[]}'))), "rejected 400 ()"),
    (reply(items(status(400, '"bad"'))), "rejected 400 ()"),
    (reply(items(status(400))), "rejected 400 ()"),
    (reply(items(status(400, '{"reason":"\\u00e9\\ud83d\\ude00"}'))), "rejected 400 (é😀)"),
    (reply(items(status(400, '{"reason":"\\ud83d"}'))), "failed"),
    (reply(items(status(400, '{"reason":"R"}')).replace("R", "\\(65536*x)")), "rejected 400 65536 bytes"),
    (reply(items(status(400, '{"reason":"R"}')).replace("R", "\\(65537*x)")), "rejected 400 65536 bytes"),
    (reply(items(status(400, '{"reason":"R"}')).replace("R", "\\(32768*é)y")), "rejected 400 65536 bytes"),
    (reply(items(status(400, '{"reason":"R"}')).replace("R", "x\\(32768*é)")), "rejected 400 65535 bytes"),
    (reply(items(status(400, '{"reason":"R"}')).replace("R", "x\\(16384*😀)")), "rejected 400 65533 bytes"),
    # bodies that aren't those of the bulk API
    (reply(""), "failed"),
    (reply("[]"), "failed"),
    (reply("{}"), "failed"),
    (reply('{"items":null}'), "failed"),
    (reply('{"items":{"index":{"status":201}}}'), "failed"),
    (reply('{"items":[]}'), "failed"),
    (reply('{"Items":[{"index":{"status":201}}]}'), "failed"),
    (reply(items(status(201), status(201))), "failed"),
    (reply('{"items":[{}]}'), "failed"),
    (reply('{"items":[{"index":{"status":201},"create":{"status":201}}]}'), "failed"),
    (reply('{"items":[{"index":201}]}'), "failed"),
    (reply('{"items":[[{"status":201}]]}'), "failed"),
    (reply('{"items":[201]}'), "failed"),
    (reply('{"items":[],"items":[{"create":{"status":201}}]}'), "took"),
    (reply(written('\r\n { "took" : 7 , "errors" : false , "items" : [ { "index" : { "_id" : null , "status" : 201 } } ] } \t\n')), "took"),
    (reply(TOOK + "x"), "failed"),
    (reply(TOOK[:-1]), "failed"),
    (reply("<html>"), "failed"),
    (reply('{"items":[{"index":{"status":201}}],"x":NaN}'), "failed"),
    (reply('{"x":\\(126*[)\\(126*]),"items":[{"index":{"status":201}}]}'), "took"),
    (reply('{"x":\\(127*[)\\(127*]),"items":[{"index":{"status":201}}]}'), "failed"),
    # without blanks, as Elasticsearch writes it, and what isn't quite that
    (reply('{"took":30,"errors":false,"items":[{"index":{"_index":"ecs-logstash-2024.02.29","_id":"q3Zb8Y0BzQp7gq9mT1kZ","_version":1,"result":"created","_shards":{"total":2,"successful":1,"failed":0},"_seq_no":1234567,"_primary_term":1,"status":201}}]}'), "took"),
    (reply('{"x":[true,false,null,[],{},[[0,"y"],{"z":10}]],"items":[{"index":{"status":201}}]}'), "took"),
    (reply('{"x":"' + written("a quote that stands past sixteen bytes") + '","a_key_of_more_than_sixteen_bytes":"é","items":[{"index":{"status":201}}]}'), "took"),
    (reply('{"x":"' + written("\\") + 'n","items":[{"index":{"status":201}}]}'), "took"),
    (reply('{"x":340282366920938463463374607431768211456,"items":[{"index":{"status":201}}]}'), "took"),
    (reply('{"items":[{"index":{"status":201}}],"x":[1,2]}'), "took"),
    (reply('{"x":01,"items":[{"index":{"status":201}}]}'), "failed"),
    (reply('{"x":truex,"items":[{"index":{"status":201}}]}'), "failed"),
    (reply('{"x":tru,"items":[{"index":{"status":201}}]}'), "failed"),
    (reply('{"x":1,,"items":[{"index":{"status":201}}]}'), "failed"),
    (reply('{,"items":[{"index":{"status":201}}]}'), "failed"),
    (reply('{"items":[{"index":{"status":201}}],}'), "failed"),
    (reply('{"items":[{"index":{"status":201}},]}'), "failed"),
    (reply('{"items":[{"index":{"status":201}}}'), "failed"),
    (reply('{"items":[{"index":{"status":201]}}'), "failed"),
    (reply('{"items":[{"index":{"status":201}}]}}'), "failed"),
    (reply('{"items"[{"index":{"status":201}}]}'), "failed"),
    (reply('{"items":"x":[{"index":{"status":201}}]}'), "failed"),
    (reply('{"x":"' + written("\t") + '","items":[{"index":{"status":201}}]}'), "failed"),
    (reply('{"items":[{"index":{"status":201}}'), "failed"),
    # heads
    ("", "failed"),
    (reply(TOOK, "HTTP/1.0 200 OK"), "took"),
    (reply(TOOK, "HTTP/1.1 200"), "took"),
    (reply(TOOK, "HTTP/1.1 200 "), "took"),
    (reply(TOOK, "HTTP/1.1 204 No Content"), "later"),
    (reply(TOOK, "HTTP/1.1 100 Continue"), "later"),
    (reply(TOOK, "HTTP/1.1 999 Odd"), "later"),
    (reply("<html>busy</html>", "HTTP/1.1 429 Too Many Requests"), "later"),
    (reply("", "HTTP/1.1 503 Service Unavailable", "Content-Length: 100\r\n"), "later"),
    (reply(TOOK, "HTTP/2 200"), "failed"),
    (reply(TOOK, "http/1.1 200 OK"), "failed"),
    (reply(TOOK, "HTTP/1.1 20 OK"), "failed"),
    (reply(TOOK, "HTTP/1.1 2000 OK"), "failed"),
    (reply(TOOK, "HTTP/1.1  200 OK"), "failed"),
    (written("HTTP/1.1 200 OK\n\n") + TOOK, "took"),
    (written("\r\nHTTP/1.1 200 OK\r\n\r\n") + TOOK, "took"),
    (written("HTTP/1.1 200 OK\r\nX: y\r\n"), "failed"),
    (written("HTTP/1.1 503 Service Unavailable\r\nX: y\r\n"), "failed"),
    (reply(TOOK, fields="no colon\r\n"), "failed"),
    (reply(TOOK, fields="X : y\r\n"), "failed"),
    (reply(TOOK, fields="X: y\r\n z\r\n"), "failed"),
    (reply(TOOK, fields=": y\r\n"), "failed"),
    # where the body ends
    (reply(TOOK, fields="Content-Length: 36\r\n"), "took"),
    (reply(TOOK, fields="content-length:\t036 \r\n"), "took"),
    (reply(TOOK + "more", fields="Content-Length: 36\r\n"), "took"),
    (reply(TOOK, fields="Content-Length: 35\r\n"), "failed"),
    (reply(TOOK, fields="Content-Length: 37\r\n"), "failed"),
    (reply(TOOK, fields="Content-Length: 36\r\nContent-Length: 36\r\n"), "failed"),
    (reply(TOOK, fields="Content-Length: 36, 36\r\n"), "failed"),
    (reply(TOOK, fields="Content-Length: +36\r\n"), "failed"),
    (reply(TOOK, fields="Content-Length: \r\n"), "failed"),
    (reply(TOOK, fields="Content-Length: 18446744073709551652\r\n"), "failed"),
    (reply(written("24\r\n") + TOOK + written("\r\n0\r\n\r\n"), fields="Transfer-Encoding: chunked\r\n"), "took"),
    (reply(written("5;x=y\r\n") + TOOK[:5] + written("\r\n1F \t\r\n") + TOOK[5:] + written("\r\n000;z\r\nTrailer: t\r\n\r\n"), fields="TRANSFER-ENCODING: Chunked\r\n"), "took"),
    (reply(written("24\r\n") + TOOK + written("\r\n0\r\n"), fields="Transfer-Encoding: chunked\r\n"), "took"),
    (reply(written("24\r\n") + TOOK + written("\r\n"), fields="Transfer-Encoding: chunked\r\n"), "failed"),
    (reply(written("23\r\n") + TOOK + written("\r\n0\r\n\r\n"), fields="Transfer-Encoding: chunked\r\n"), "failed"),
    (reply(written("25\r\n") + TOOK + written("\r\n0\r\n\r\n"), fields="Transfer-Encoding: chunked\r\n"), "failed"),
    (reply(written("x\r\n") + TOOK + written("\r\n0\r\n\r\n"), fields="Transfer-Encoding: chunked\r\n"), "failed"),
    (reply(written("00000000000000024\r\n") + TOOK + written("\r\n0\r\n\r\n"), fields="Transfer-Encoding: chunked\r\n"), "failed"),
    (reply(written("24\n") + TOOK + written("\r\n0\r\n\r\n"), fields="Transfer-Encoding: chunked\r\n"), "failed"),
    (reply(written("24\r\n") + TOOK + written("\r\n0\r\n\r\n"), fields="Transfer-Encoding: chunked\r\nContent-Length: 2\r\n"), "took"),
    (reply(written("24\r\n") + TOOK + written("\r\n0\r\n\r\n"), fields="Transfer-Encoding: gzip, chunked\r\n"), "failed"),
    (reply(written("24\r\n") + TOOK + written("\r\n0\r\n\r\n"), fields="Transfer-Encoding: chunked\r\nTransfer-Encoding: chunked\r\n"), "failed"),
    (reply(TOOK, fields="Transfer-Encoding: identity\r\n"), "failed"),
]

# 64 and 65 lines of fields
LINES = "HTTP/1.1\\s%s\\sX\\r\\n%s\\r\\n" + TOOK
FIELDS = ["".join(f"X{n}:\\sy\\r\\n" for n in range(count)) for count in (64, 65)]
REPLIES += [
    (LINES % (200, FIELDS[0]), "took"),
    (LINES % (200, FIELDS[1]), "failed"),
    (LINES % (429, FIELDS[0]), "later"),
    (LINES % (429, FIELDS[1]), "failed"),
]

OK2 = reply(items(status(201), status(201)))
PART = reply(items(status(201), status(429)))
BUSY = reply("", "HTTP/1.1 503 Busy")
ONE = reply(TOOK)

# settings, events, failing calls, replies, calls, and the answers
ROWS = [
    # one event, and the bytes of its request
    (SET, [A], [], [ONE], "d0 q Q c", 'set; took; 1 to h:9200 of 41 bytes {"index":{"_index":"i"}}\\n{"message":"a"}\\n; POST /_bulk HTTP/1.1\\r\\nHost: h:9200\\r\\nContent-Type: application/x-ndjson\\r\\nContent-Length: 41\\r\\nConnection: close\\r\\n\\r\\n{"index":{"_index":"i"}}\\n{"message":"a"}\\n; faults 0, bad 0 of 0 bytes, laters 0; '),
    # two events, of which one is refused
    (SET, [A, B], [], [reply(items(status(201), status(400, BAD)))], "d01 c", "set; took, rejected 400 (bad); faults 0, bad 0 of 0 bytes, laters 0; "),
    # two events, of which one is put off, and then sent alone
    (SET, [A, B], [], [PART, ONE], "d01 c d01 q c", 'set; later; faults 0, bad 0 of 0 bytes, laters 1; took, took; 2 to h:9200 of 41 bytes {"index":{"_index":"i"}}\\n{"message":"b"}\\n; faults 0, bad 0 of 0 bytes, laters 1; '),
    # a refused event stays refused while another is put off
    (SET, [A, B], [], [reply(items(status(404, BAD), status(503))), reply(items(status(500))), ONE], "d01 d01 q d01 c", 'set; later; later; 2 to h:9200 of 41 bytes {"index":{"_index":"i"}}\\n{"message":"b"}\\n; rejected 404 (bad), took; faults 0, bad 0 of 0 bytes, laters 2; '),
    # the first is put off
    (SET, [A, B], [], [reply(items(status(429), status(201))), ONE], "d01 d01 q", 'set; later; took, took; 2 to h:9200 of 41 bytes {"index":{"_index":"i"}}\\n{"message":"a"}\\n; '),
    # what is settled stands through another status, a bad reply and a fault of the peer
    (SET, [A, B], [3], [PART, BUSY, reply("x"), ONE], "d01 d01 d01 d01 d01 q c", 'set; later; later; failed; failed; took, took; 5 to h:9200 of 41 bytes {"index":{"_index":"i"}}\\n{"message":"b"}\\n; faults 1, bad 1 of 20 bytes, laters 2; '),
    # other events forget it
    (SET, [A, B], [], [PART, ONE, OK2], "d01 d0 d01 q", None),
    (SET, [A, B], [], [PART, OK2], "d01 d10 q", None),
    # so do the settings, where they are taken
    (SET, [A, B], [], [PART, OK2], "d01 s d01 q", None),
    # a batch that is taken is forgotten, and sent again where it is handed in again
    (SET, [A, B], [], [OK2, OK2], "d01 d01 q", None),
    # equal events are events of their own
    (SET, [A], [], [PART, ONE], "d00 d00 q", None),
    # another status and a bad reply before anything is settled
    (SET, [A, B], [], [BUSY, reply("[]"), OK2], "d01 d01 d01 q c", None),
    # a peer that fails, and one that has no reply left
    (SET, [A], [0], [], "d0 q d0 q c", None),
    # the index's name by each event
    ({"hosts": ["h:9200"], "index": "x-%{type}-%{+yyyy.MM}"}, [{"type": "a\"b", "@timestamp": 0}, {"type": "\u00e9", "@timestamp": 951782400}, {"n": 1}], [], [], "d012 q", None),
    ({"hosts": ["h:9200"]}, [{"@timestamp": 1709164800}], [], [], "d0 q", 'set; failed; 1 to h:9200 of 89 bytes {"index":{"_index":"ecs-logstash-2024.02.29"}}\\n{"@timestamp":"2024-02-29T00:00:00.000Z"}\\n; '),
    # the first host alone is asked
    ({"hosts": ["one:1", "two:65535"], "index": "i"}, [A], [], [ONE], "d0 q", None),
    ({"hosts": "[::1]:9200", "index": "i"}, [A], [], [ONE], "d0 q", None),
    # settings that are refused
    ({"index": "i"}, [A], [], [], "", "the setting hosts is missing; "),
    ({}, [A], [], [], "", "the setting hosts is missing; "),
    ({"hosts": []}, [], [], [], "", "the setting hosts has a value of another kind; "),
    ({"hosts": ["h"]}, [], [], [], "", "the setting hosts has a value of another kind; "),
    ({"hosts": ["h:"]}, [], [], [], "", "the setting hosts has a value of another kind; "),
    ({"hosts": ["h:0"]}, [], [], [], "", "the setting hosts has a value of another kind; "),
    ({"hosts": ["h:65535"]}, [], [], [], "", "set; "),
    ({"hosts": ["h:65536"]}, [], [], [], "", "the setting hosts has a value of another kind; "),
    ({"hosts": ["h:+80"]}, [], [], [], "", "the setting hosts has a value of another kind; "),
    ({"hosts": ["h:8 0"]}, [], [], [], "", "the setting hosts has a value of another kind; "),
    ({"hosts": ["h:9200/path"]}, [], [], [], "", "the setting hosts has a value of another kind; "),
    ({"hosts": ["h:9200", "g"]}, [], [], [], "", "the setting hosts has a value of another kind; "),
    ({"hosts": ["h:9200", 9200]}, [], [], [], "", "the setting hosts has a value of another kind; "),
    ({"hosts": 9200}, [], [], [], "", "the setting hosts has a value of another kind; "),
    ({"hosts": {}}, [], [], [], "", "the setting hosts has a value of another kind; "),
    ({"hosts": ["h:9200"], "index": 5}, [], [], [], "", "the setting index has a value of another kind; "),
    ({"hosts": ["h:9200"], "index": ["i"]}, [], [], [], "", "the setting index has a value of another kind; "),
    ({"hosts": ["h:9200"], "index": ""}, [], [], [], "", "set; "),
    ({"hosts": ["h:9200"], "user": "u"}, [], [], [], "", "the setting user is unknown; "),
    ({"hosts": ["h"], "index": 5}, [], [], [], "", "the setting hosts has a value of another kind; "),
    ({"index": 5}, [], [], [], "", "the setting index has a value of another kind; "),
]

# one event by each status from 200 to 599
STATUSES = [
    (written("HTTP/1.1 \\S X\r\n\r\n").replace("\\kS", "\\S") + TOOK, "200 to 200: took; 201 to 599: later"),
    (written("HTTP/1.1 \\S X\r\n\r\n").replace("\\kS", "\\S") + "none", "200 to 200: failed; 201 to 599: later"),
    (reply(items(status("\\S", BAD))).replace("\\kS", "\\S"), "200 to 299: took; 300 to 399: later; 400 to 400: rejected 400 (bad); 401 to 403: later; 404 to 404: rejected 404 (bad); 405 to 599: later"),
]


def main():
    rows, answers = [], []
    cases = ROWS + [(SET, [A], [], [text], "d0", f"set; {answer}; ") for text, answer in REPLIES]
    for settings, events, failing, replies, calls, by_hand in cases:
        answer = modelled(settings, events, failing, replies, calls)
        row = "|".join([compact(settings), " ".join(map(event_word, events)), " ".join(map(str, failing)), " ".join(replies), calls])
        assert by_hand in (None, answer), (row, by_hand, answer)
        rows.append(row)
        answers.append(answer)
    for text, by_hand in STATUSES:
        answer = statuses(text)
        assert by_hand == answer, (text, by_hand, answer)
        rows.append("statuses|" + text)
        answers.append(answer)
    with open(os.path.join(HERE, "deliveries"), "w", encoding="utf-8") as it:
        it.writelines(row + "\n" for row in rows)
    with open(os.path.join(HERE, "..", "stdout"), "w", encoding="utf-8") as it:
        it.writelines(answer + "\n" for answer in answers)
    print(len(REPLIES), "replies,", len(rows), "rows")


main()
