"""Makes the tables of this folder, and `../stdout`: run it in this folder.

The answers follow from the rules: when a line ends, what its row is, how lines are cut into batches, when stdout and stderr are
flushed, and which line of stderr a status has, part by part. What configurations make of lines is said by hand, or by `flow.py`.
Nothing of the program is called.
"""

from configurations import CONFIGURATIONS, EVERY, SEVERAL
from decodings import decoded, samples
from flow import Flow
from inputs import BATCH
from objects import LIMIT, Failed, Object, row_of, words_written
from runs import ROWS, Given, Rows, Timed, config_line, file_written, no_file_line, run, said_by_first, tell, words_line
from stored import config_files, file_outputs, several_runs

BUILT = "input { stdin {} } output { stdout { codec => json_lines } }"
PLAIN = "input { stdin {} } output { stdout {} }"
LF = 'stdout { codec => line { format => "%{message}" } }'


def texts():
    for text in [
        BUILT,
        PLAIN,
        "input{stdin{}}output{stdout{codec=>json_lines}}",
        "\tinput\r\n{ stdin\n{\t}\n}\n\noutput { stdout { codec\n=>\tjson_lines } }\n",
        "# lines\ninput { \"stdin\" {} } output { 'stdout' { \"codec\" => 'json_lines' } } # to the end",
        "output { stdout { codec => line codec => json_lines } } filter { } input { } input { stdin {} }",
    ]:
        run("texts", ["-e", text], b"hello\n")


def lines():
    for data in [
        b"",
        b"a\nb",
        b"a\r\nb\r\n",
        b"a\rb\n\r\n",
        b"a\r\r\nb\r",
        b"\r",
        b"\n",
        b"a\n\n\nb\n",
        b"a\xffb\n",
        b"\xe2\x82A",
        b"\xe2\x82\n\xac\n",
        "é€\U0001f600\n".encode(),
        b'"a\\b"\t\0\n',
        b"hello",
    ]:
        for read in (1, 2, 3, 100):
            for waits in ((), tuple(range(0, 20, 2)), (0, 1, 2, 4, 5, 9)):
                run("lines", ["-e", BUILT], data, read=read, waits=waits)


def words_refused():
    for words, reason in [
        (["--nope"], "unread"),
        ([""], "unread"),
        (["-e"], "unread"),
        (["-E", BUILT], "unread"),
        ([BUILT, "-e"], "unread"),
        (["-e", BUILT, "-e"], "unread"),
        (["-e", BUILT, "-e", BUILT], "unread"),
        (["-e", BUILT, "--sample"], "unread"),
        (["-e", "x", "-f", "y"], "both"),
        (["-e", BUILT, "--pqcheck", "main", "-w", "0"], "both"),
        (["-w", "0"], "range --pipeline.workers"),
        (["-e", BUILT, "-w", "65"], "range --pipeline.workers"),
        (["-e", BUILT, "-b", "0"], "range --pipeline.batch.size"),
        (["-e", BUILT, "--pipeline.id", "a.b"], "range --pipeline.id"),
        (["--sample", "0"], "range --sample"),
        (["--pqcheck", ""], "range --pqcheck"),
        (["--pqrepair", "a b"], "range --pqrepair"),
        (["--apart", "-r"], "apart"),
        ([], "not built"),
        (["-w", "3", "-b", "10"], "not built"),
        (["-e", BUILT, "-r"], "not built"),
        (["-e", BUILT, "--apart"], "not built"),
        (["--sample", "1"], "not built"),
        (["--pqcheck", "main"], "not built"),
        (["--pqrepair", "main"], "not built"),
    ]:
        for quiet in ((0,), (1,), ()):
            run("words_refused", words, b"hello\n", quiet=quiet, refused=(1, words_line(reason)))


def words_run():
    for words in [
        ["--config.string", BUILT],
        ["-w", "64", "-e", BUILT, "-b", "10000"],
        ["--pipeline.workers=1", "--pipeline.batch.size=1", "-e", BUILT],
        ["--path.data", "d", "--path.settings", "s", "-e", BUILT],
        ["-e", BUILT, "--pipeline.id", "up", "-t"],
    ]:
        run("words_run", words, b"a\nb", flow=Rows(size=1 if "--pipeline.batch.size=1" in words else BATCH))


def texts_refused():
    for text, reason in [
        ("input { pipeline { address => q } } output { stdout {} }", "not built"),
        ("", "no input"),
        ("input { stdin {} } output { stdout {} } }", "syntax at 40"),
        ("input { stdin {} ", "syntax at 17"),
        ("inputs { stdin {} }", "syntax at 0"),
        ("input { if [a] { stdin {} } }", "syntax at 8"),
        ("filter { if [#] == 1 {} }", "syntax at 12"),
        ("filter { if " + "(" * 64, "deep at 75"),
    ]:
        for quiet in ((0,), (1,), (3,), ()):
            for name, more in (("main", []), ("up-2", ["--pipeline.id", "up-2"])):
                refused = (3, config_line(name, reason))
                run("texts_refused", [*more, "-e", text], b"hello\n", quiet=quiet, refused=refused)


NOT_BUILT = [
    'input { pipeline { address => "q" } } output { stdout {} }',
    "input { stdin {} pipeline { address => q } } output { stdout {} }",
    'input { stdin {} } output { stdout {} if [a] { pipeline { send_to => ["q"] } } }',
    'input { generator {} } filter { drop {} } output { sink {} pipeline { send_to => ["q"] } file { path => "x" } }',
]
# Such as read what a test has not, or have no end.
TESTED = [
    'input { file { path => "a" } } output { stdout {} }',
    "input { tcp { port => 5000 } } output { stdout {} }",
    "input { generator {} generator {} stdin {} } output { stdout {} }",
    'input { stdin {} file { path => "b*" } tcp { port => 1 } } filter { drop {} } output { sink {} file { path => "x" codec => line } }',
]
LONG = "x" * 248
REFUSED = [
    ("input { nope {} } output { stdout {} }", "unknown plugin nope"),
    ("input { stdin {} } filter { nope {} } output { stdout {} }", "unknown plugin nope"),
    ("input { stdin {} } filter { tagger {} } output { stdout {} }", "unknown plugin tagger"),
    ("input { stdin {} } output { grok {} }", "unknown plugin grok"),
    ("input { generator {} } filter { nope {} } output { stdout {} }", "unknown plugin nope"),
    ("input { stdin {} } filter { clone {} } output { stdout {} }", "filter_1: missing clones"),
    ('input { stdin {} } filter { drop {} mutate { nope => 1 id => "own" } } output { stdout {} }', "own: unknown nope"),
    ("input { stdin { type => 5 } } output { stdout {} }", "input_1: wrong kind type"),
    ("input { stdin { codec => dots } } output { stdout {} }", "input_1: wrong kind codec"),
    ("input { generator { lines => [] } } output { stdout {} }", "input_1: wrong kind lines"),
    ('input { generator { id => "own" count => -1 } } output { stdout {} }', "own: wrong kind count"),
    ("input { stdin {} } output { sink {} stdout { codec => dots } }", "output_2: wrong kind codec"),
    ("input { stdin {} } output { stdout { codec => json { format => x } } }", "output_1: unknown format"),
    ('input { stdin {} } filter { grok { match => { "message" => "(" } } } output { stdout {} }', "filter_1: bad pattern match"),
    ('input { stdin {} } filter { if [a] { } else if [b] =~ "(" { drop {} } } output { stdout {} }', "filter_if_2: bad pattern condition"),
    ('input { stdin {} } filter { drop { id => "a" } } output { stdout { id => "a" } }', "twice id a"),
    ("input { stdin { id => \"output_1\" } } output { stdout {} }", "twice id output_1"),
    ('input { file { path => "a" } file { path => "a" } } output { stdout {} }', "twice path a"),
    ('input { stdin {} } output { file { path => "x/y" } file { path => "x/y" } }', "twice path x/y"),
    ('input { pipeline { address => "q" } pipeline { address => "q" } } output { stdout {} }', "twice address q"),
    ("input { stdin {} stdin {} } output { stdout {} }", "twice stdin"),
    ('input { stdin {} } output { file { path => "data/x" } }', "twice path data/x"),
    ('input { stdin {} } output { stdout {} file { path => "y" } if [a] { file { path => "data/main/x" } } }', "twice path data/main/x"),
    (f'input {{ file {{ path => "{LONG}" }} }} output {{ stdout {{}} }}', f"path long {LONG}"),
    ("output { stdout {} }", "no input"),
    ("input { stdin {} }", "no output"),
    ("input { stdin {} } filter { drop {} } output { if [a] { } else { } }", "no output"),
    ("input { http {} } output { stdout {} }", "no spare http:8080: 1 wanted, 0 left"),
]


def refused():
    """Each fault of a configuration, and configurations without one that the program doesn't run yet."""
    for text, reason in REFUSED + [(text, "not built") for text in NOT_BUILT]:
        for name, more in (("main", []), ("up-2", ["--pipeline.id", "up-2"])):
            line = (3, config_line(name, reason))
            run("refused", [*more, "-e", text], b"hello\n", quiet=(4,), refused=line)
            add_test([*more, "-te", text], breaks=(0,), refused=line)


def worked():
    """Worked out by hand, line by line."""
    jl = "stdout { codec => json_lines }"
    time = {"@timestamp": "2000-10-10T20:55:36.000Z"}
    line = '127.0.0.1 - frank [10/Oct/2000:13:55:36 -0700] "GET /a.gif HTTP/1.0" 200 2326'
    found = {"clientip": "127.0.0.1", "ident": "-", "auth": "frank", "timestamp": "10/Oct/2000:13:55:36 -0700", "verb": "GET"}
    found |= {"request": "/a.gif", "httpversion": "1.0", "response": "200", "bytes": "2326"}
    for filters, outputs, said in [
        ("", jl, {"hello": row_of("hello")}),
        ("", LF, {"a": "a\n", "b": "b\n"}),
        (
            'json { source => "message" } mutate { replace => { "b" => "x" } rename => { "a" => "b" } }',
            'stdout { codec => line { format => "%{a} %{b}" } }',
            {'{"a":"1","b":"2"}': "%{a} x\n"},
        ),
        (
            'json { source => "message" }',
            "if [foo] { stdout { codec => line { format => Yes } } } else { stdout { codec => line { format => No } } }",
            {"{}": "No\n", '{"foo":null}': "No\n", '{"foo":false}': "No\n"},
        ),
        (
            'json { source => "message" }',
            "if [foo] { stdout { codec => line { format => Yes } } } else { stdout { codec => line { format => No } } }",
            {'{"foo":0}': "Yes\n", '{"foo":""}': "Yes\n"},
        ),
        (
            'clone { clones => ["audit"] } if "audit" in [tags] { mutate { replace => { "message" => "copy" } } }',
            LF,
            {"a": "a\ncopy\n"},
        ),
        ('split { terminator => "," } if [message] == "b" { drop {} }', LF, {"a,b,c": "a\nc\n"}),
        ('grok { match => { "message" => "%{COMMONAPACHELOG}" } }', jl, {line: row_of(line, **found)}),
        (
            'grok { match => { "message" => "%{WORD:m} %{NUMBER:n:int}" } }',
            jl,
            {"GET 200": row_of("GET 200", m="GET", n=200)},
        ),
        ('grok { match => { "message" => "%{WORD:m} %{INT:n}" } }', jl, {"!!": row_of("!!", tags=["_grokparsefailure"])}),
        (
            "kv {}",
            jl,
            {'a=1 b="two words" c a=3': row_of('a=1 b="two words" c a=3', a=["1", "3"], b="two words")},
        ),
        ('csv { columns => ["x"] }', jl, {'a,"b,c",': row_of('a,"b,c",', x="a", column2="b,c", column3="")}),
        (
            'json { source => "message" } csv { source => "n" columns => ["x"] }',
            jl,
            {'{"n":5}': row_of('{"n":5}', n=5, tags=["_csvparsefailure"])},
        ),
        (
            'date { match => ["message", "dd/MMM/yyyy:HH:mm:ss Z"] }',
            jl,
            {"10/Oct/2000:13:55:36 -0700": row_of("10/Oct/2000:13:55:36 -0700", **time), "soon": row_of("soon", tags=["_dateparsefailure"])},
        ),
        ('json { source => "message" }', jl, {'{"k":[1]}': row_of('{"k":[1]}', k=[1]), "{": row_of("{", tags=["_jsonparsefailure"])}),
        ("if [message] > 5 { drop {} }", jl, {"7": ""}),
    ]:
        text = f"input {{ stdin {{}} }} filter {{ {filters} }} output {{ {outputs} }}"
        for read in (None, 1):
            run("worked", ["-e", text], "".join(f"{line}\n" for line in said).encode(), read=read, flow=Rows(said))
    run("worked", ["-e", f"input {{ stdin {{}} }} output {{ {LF} }}"], b"a\nb", read=1, flow=Rows({"a": "a\n", "b": "b\n"}))
    run("worked", ["-e", f"input {{ stdin {{}} }} output {{ {jl} }}"], b"", flow=Rows({}))
    text = f"input {{ stdin {{ codec => json }} }} filter {{ if [n] > 5 {{ drop {{}} }} }} output {{ {jl} }}"
    run("worked", ["-e", text], b'{"n":"7"}\n', flow=Rows({'{"n":"7"}': ""}))
    text = f'input {{ generator {{ message => "x" count => 2 }} }} output {{ {jl} }}'
    numbered = [row_of("x", event={"original": "x", "sequence": number}) for number in (0, 1)]
    run("worked", ["-e", text], b"", flow=Given("".join(numbered)))
    several_inputs()


def several_inputs():
    """Each is polled before those behind it: what stdin gives comes first, where it needn't wait."""
    text = f'input {{ stdin {{}} generator {{ message => "x" count => 2 }} generator {{ message => "y" count => 1 }} }} output {{ {LF} }}'
    behind = [said_by_first("x\nx\n"), said_by_first("y\n")]
    for data, lines in ((b"", {}), (b"a\nb\n", {"a": "a\n", "b": "b\n"}), (b"a\nb", {"a": "a\n", "b": "b\n"})):
        run("worked", ["-e", text], data, flow=Rows(lines, behind=behind))


def configurations():
    for text, data in [*CONFIGURATIONS, EVERY]:
        run("configurations", ["-e", text], data.encode(), flow=Flow(text))
    lines = "".join(f"{number} \n" for number in range(375))
    for count in (0, 1, 124, 125, 126, 250, 251, 375):
        text = f"input {{ stdin {{}} }} output {{ {LF} stdout {{ codec => plain }} sink {{}} }}"
        run("configurations", ["-e", text], "".join(lines.splitlines(True)[:count]).encode(), flow=Flow(text))


TAKEN = r"""{"user":"ann","took":12.50,"tags":["a"],"type":"own","inner":{"k":[1,null]}}
{"@timestamp":"2024-02-29T12:30:00.250Z","tags":"b","@metadata":{"k":"v"},"event":{"original":"mine","id":3}}
{"@timestamp":"soon","tags":5,"type":null,"new":"here","message":"m"}
{"event":"mine","@version":"7"}
{}
[1,2]
7
"text"
null
{"user":
plain text

"""
EACH = 'output { stdout { } stdout { codec => line { format => "%{type} %{tags} %{new} %{[@metadata][k]}" } } }'


def inputs():
    """Lines by each codec, with the settings that every input has, and generators."""
    data = TAKEN.encode() + b'{"a":"\xff"}\n\xe2\x82{}\n{"a":1}'
    for own in (
        "",
        'type => "t"',
        'tags => ["a", "%{user}"]',
        'add_field => { "new" => "%{user}/%{type}" "[inner][k]" => "x" "[user][deep]" => "y" }',
        'tags => ["%{new}", "b"] add_field => { "new" => "%{type}" } type => "%{user}" id => "all"',
    ):
        for codec in ("", "codec => plain", "codec => line", "codec => json", "codec => json_lines { }"):
            text = f"input {{ stdin {{ {codec} {own} }} }} {EACH}"
            run("inputs", ["-e", text], data, flow=Flow(text))
    for settings in (
        "count => 1",
        'message => "x" count => 3',
        'lines => ["a", "b", "c"] count => 2 message => "not this"',
        'lines => "one" count => 2 codec => line',
        "sample => 1 count => 7",
        'sample => 9223372036854775807 count => 3 lines => ["a", "b"] codec => json',
        """lines => ['{"a":1}', '{"event":{"sequence":"mine"}}', '{"event":7}', '[', '{"type":"own","tags":["b"]}'] count => 1 codec => json type => "t" tags => ["a", "%{[event][sequence]}"]""",
        'message => "m" count => 2 add_field => { "new" => "%{[event][sequence]}" "[event][sequence]" => "%{message}" }',
    ):
        text = f"input {{ generator {{ {settings} }} }} {EACH}"
        run("inputs", ["-e", text], b"not read\n", fails=(0,), flow=Flow(text))
    for settings in ("count => 124", "count => 125", "count => 126", 'lines => ["a", "b", "c"] count => 42', "sample => 5 count => 250"):
        text = f'input {{ generator {{ {settings} }} }} output {{ stdout {{ codec => line {{ format => "%{{[event][sequence]}} " }} }} }}'
        run("inputs", ["-e", text], b"", flow=Flow(text))
    for settings in ("", 'lines => ["a", "b"] count => 0', "sample => 3", "count => 300"):
        text = f'input {{ generator {{ {settings} }} }} output {{ stdout {{ codec => line {{ format => "%{{[event][sequence]}} " }} }} }}'
        for number in range(5):
            run("inputs", ["-e", text], b"", breaks=(number,), flow=Flow(text))


def failing():
    """stdout fails at each of its calls, in runs of several outputs and of several batches."""
    text, data = SEVERAL
    calls = run("failing", ["-e", text], data.encode(), read=20, write=50, flow=Flow(text))
    for number in range(calls):
        run("failing", ["-e", text], data.encode(), read=20, write=50, breaks=(number,), flow=Flow(text))
    text = f'input {{ stdin {{}} }} filter {{ if [message] in ["7", "130"] {{ drop {{}} }} }} output {{ sink {{}} stdout {{ codec => plain }} {LF} }}'
    lines = "".join(f"{number}\n" for number in range(300)).encode()
    calls = run("failing", ["-e", text], lines, flow=Flow(text))
    for number in range(calls):
        run("failing", ["-e", text], lines, breaks=(number,), flow=Flow(text))


def named():
    """The ids of inputs and outputs in lines of faults."""
    for text, input_id in [
        ('input { stdin { id => "lines" } } output { stdout { id => "rows" } }', "lines"),
        ("input { stdin {} } output { sink {} if [message] { stdout {} } }", "input_1"),
        ('input { stdin {} } output { if [a] { stdout { id => "in" } } else { stdout {} } }', "input_1"),
        ('input { stdin {} } output { if [message] { stdout { id => "in" } } else { stdout {} } }', "input_1"),
        ("input { stdin {} } output { sink {} }", "input_1"),
    ]:
        run("named", ["-e", text], b"a\n", fails=(0,), flow=Flow(text), input_id=input_id)
        run("named", ["-e", text], b"a\n", breaks=(0, 1), flow=Flow(text))
        run("named", ["-e", text], b"a\n", fails=(1,), breaks=(1, 2), flow=Flow(text))


def long_texts():
    """Of one megabyte, and of a byte more."""
    run("long_texts", ["-e", BUILT.ljust(1_048_576)], b"hello\n")
    run("long_texts", ["-e", BUILT.ljust(1_048_577)], b"hello\n", refused=(3, config_line("main", "long")))


def faults():
    """Of reads, of a write or a flush of stdout, and of the line or the flush of stderr."""
    data, words = b"a\nbc\nd", ["-e", BUILT]
    for number in range(7):
        run("faults", words, data, read=1, fails=(number,), quiet=(5,))
    run("faults", [*words, "--pipeline.id", "up-2"], data, fails=(0,), name="up-2")
    calls = run("faults", words, data, read=1, write=7, quiet=(0,))
    for number in range(calls):
        run("faults", words, data, read=1, write=7, breaks=(number,))


def pauses():
    for waits in ((), (0, 1, 3), (4,)):
        run("pauses", ["-e", BUILT], b"a\nbc\nd", read=1, waits=waits)


def long_lines():
    """At the limit of a line, one behind it, and with a character cut there."""
    for behind in (b"a\n", b"aa\n", "é\n".encode()):
        run("long_lines", ["-e", BUILT], b"a" * (LIMIT - 1) + behind)


def defined():
    for data in [
        b"",
        b"a\nb",
        b"\r\n\n\xe2\x82\xac\r\r\nx",
        b"\xe2\x82\n\xac\xff\n\n",
        b"one\ntwo\nthree\n",
    ]:
        for read in (1, 2, 3, 100):
            run("defined", ["-e", BUILT], data, read=read)


def moments():
    """Each look at the clock shows its next moment: a line has that of the read that made it whole."""
    data = b"a\nb\nlast"
    for read in (2, 3, None):
        for waits in ((), (0, 2)):
            run("moments", ["-e", BUILT], data, read=read, waits=waits, flow=Timed([60, 5, 3, 7]), seconds=(60, 5, 3, 7))
    text = f'input {{ generator {{ lines => ["x", "y"] count => 1 }} }} output {{ stdout {{ codec => line {{ format => "%{{@timestamp}}" }} }} }}'
    run("moments", ["-e", text], b"", flow=Given("2024-01-01T00:00:04.000Z\n" * 2), seconds=(4, 9))


def add_test(words, breaks=(), quiet=(), refused=None, files=()):
    stdout, stderr = Object(None, breaks), Object(None, quiet)
    row = f"{stdout.written()}, {stderr.written()} | {words_written(words)}"
    row += " | " + " & ".join(file_written(path, data) for path, data in files) if files else ""
    status, line = refused or (0, [])
    if not refused:
        try:
            stdout.write(b"Configuration OK\n")
            stdout.flush()
        except Failed:
            status, line = 6, ["logstash: output fault ", "stdout", "\n"]
    tell(stderr, line)
    ROWS.setdefault("tests", []).append((row, f"{status}{stdout.told('stdout')}{stderr.told('stderr')}"))


def tests():
    for words in [
        ["-t", "-e", BUILT],
        ["-te", PLAIN],
        ["-e", BUILT, "--config.test_and_exit", "--pipeline.id", "up"],
        ["-e", BUILT],
    ]:
        for quiet in ((0,), (1,), ()):
            add_test(words, quiet=quiet)
        for number in (0, 1):
            add_test(words, breaks=(number,))
    for text in TESTED:
        add_test(["-te", text])
    for words, status, line in [
        (["-t", "-e", "input { stdin {} }"], 3, config_line("main", "no output")),
        (["-te", "input { stdin {} "], 3, config_line("main", "syntax at 17")),
        (["-te", "inputs", "--pipeline.id=up"], 3, config_line("up", "syntax at 0")),
        (["-te", "", "--pipeline.id=up"], 3, config_line("up", "no input")),
        (["-t", "-w", "0", "-e", BUILT], 1, words_line("range --pipeline.workers")),
        (["-t", "-e", "x", "-f", "y"], 1, words_line("both")),
        (["-t", "-t", "-e", BUILT], 1, words_line("unread")),
        (["-t"], 1, words_line("not built")),
        (["-t", "-f", "x"], 9, no_file_line("x")),
        (["-t", "-f", "c/*"], 9, no_file_line("c/*")),
        (["-t", "-r", "-e", BUILT], 1, words_line("not built")),
        (["-t", "--apart", "-e", BUILT], 1, words_line("not built")),
    ]:
        add_test(words, breaks=(0,), refused=(status, line))
    tests_of_files()


def tests_of_files():
    files = [("c/a", BUILT), ("c/b", "filter { nope {} }"), ("d/a", "input { stdin {} }"), ("d/b", "output { stdout {} }")]
    for words in (["-t", "-f", "c/a"], ["-tf", "c/a*"], ["-t", "-f", "d/*"]):
        add_test(words, files=files)
        add_test(words, breaks=(1,), files=files)
    for words, status, line in [
        (["-t", "-f", "c/c"], 9, no_file_line("c/c")),
        (["-t", "-f", "c/*c"], 9, no_file_line("c/*c")),
        (["-t", "-f", "c/*"], 3, config_line("main", "unknown plugin nope")),
        (["-t", "-f", "d/a", "--pipeline.id=up"], 3, config_line("up", "no output")),
    ]:
        add_test(words, breaks=(0,), refused=(status, line), files=files)


def calls():
    for words, answer in [
        (["-e", "x", "-w", "3"], "Run 3"),
        (["-t", "-e", "x"], "Test 2"),
        ([], "Run 2"),
        (["-w", "64"], "Run 64"),
        (["-w", "0"], "Run 2"),
        (["-t", "-w", "65"], "Run 2"),
        (["-t", "--nope"], "Run 2"),
        (["-tr", "-w", "1"], "Test 1"),
        (["--apart", "-w", "5"], "Apart 5"),
        (["-t", "--apart"], "Test 2"),
        (["--apart", "-r", "-w", "5"], "Run 2"),
        (["--pqcheck", "main"], "Check 2"),
        (["--pqrepair", "main", "-w", "3"], "Repair 3"),
        (["-t", "--pqcheck", "main"], "Check 2"),
        (["--apart", "--pqrepair", "main"], "Repair 2"),
        (["--pqcheck", "ma.in"], "Run 2"),
        (["--pqcheck", "main", "--pqrepair", "main"], "Run 2"),
    ]:
        ROWS.setdefault("calls", []).append((words_written(words), answer))


for table in (
    texts,
    lines,
    words_refused,
    words_run,
    texts_refused,
    long_texts,
    faults,
    pauses,
    long_lines,
    defined,
    worked,
    configurations,
    inputs,
    failing,
    named,
    moments,
    config_files,
    file_outputs,
    several_runs,
    tests,
    refused,
    calls,
    decoded,
    samples,
):
    table()
# What is told of settings stands behind these tables, and was worked out by hand.
with open("../stdout", encoding="utf-8", newline="") as stdout:
    _, settings, answers = stdout.read().partition("# words\n")
with open("../stdout", "w", encoding="utf-8", newline="") as stdout:
    for name, rows in ROWS.items():
        with open(name, "w", encoding="utf-8", newline="") as file:
            file.writelines(f"{row}\n" for row, _ in rows)
        stdout.write(f"# {name}\n")
        stdout.writelines(f"{answer}\n" for _, answer in rows)
    stdout.write(settings + answers)
