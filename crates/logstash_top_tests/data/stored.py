"""Runs over one store, with files around them: configurations that stand in files, outputs that write files, and runs behind others.

All is said by hand."""

from objects import row_of
from runs import BATCH, Given, Rows, add_stored, config_line, no_file_line, ran

BUILT = "input { stdin {} } output { stdout { codec => json_lines } }"
LF = 'codec => line { format => "%{message}" }'
LINES = f"input {{ stdin {{}} }} output {{ stdout {{ {LF} }} }}"
FAULT = (9, ["logstash: files fault\n"])


def same(*lines, **more):
    """Lines that are written as they are."""
    return Rows({line: line + "\n" for line in lines}, **more)


def config_files():
    """Configurations by `-f`. In its last part `*` stands for any bytes; files are joined in the byte order of their names."""
    twice = 'filter { mutate { replace => { "message" => "%{message}y" } } }'
    first = 'filter { mutate { replace => { "message" => "x" } } }'
    files = [
        ("one.conf", BUILT),
        ("c/9.conf", "input { stdin {} } # without a line feed"),
        ("c/a.conf", f"output {{ stdout {{ {LF} }} }} {twice}"),
        ("c/B.conf", first),
        ("c/10.conf", b"# \xff\n"),
        ("c/notes", "no configuration"),
        ("d/a", "input { stdin {} }\n"),
        ("d/b", "output { stdout {} "),
    ]
    every = Rows({"a": "xy\n", "b": "xy\n"})
    for words, flow in (["-f", "one.conf"], None), (["-f", "c/*.conf"], every), (["-f", "c/*on*"], every), (["--path.config=one*"], None):
        add_stored("config_files", [ran(words, b"a\nb", flow=flow)], files=files)
    for words, refused in [
        (["-f", "gone.conf"], (9, no_file_line("gone.conf"))),
        (["-f", "c/one.conf"], (9, no_file_line("c/one.conf"))),
        (["-f", "c/*.txt"], (9, no_file_line("c/*.txt"))),
        (["-f", "e/*"], (9, no_file_line("e/*"))),
        (["-f", "*/a"], (9, no_file_line("*/a"))),
        (["-f", "c/"], (9, no_file_line("c/"))),
        (["-f", "d/*"], (3, config_line("main", "syntax at 39"))),
        (["-f", "d/a", "--pipeline.id", "up"], (3, config_line("up", "no output"))),
        (["-f", "c/notes"], (3, config_line("main", "syntax at 0"))),
    ]:
        for quiet in ((), (1,)):
            add_stored("config_files", [ran(words, b"a\nb", refused=refused, quiet=quiet)], files=files)
    config_files_that_fail(files)
    long_config_files()


def config_files_that_fail(files):
    """The length and the bytes of a file, and before them the names of a folder, are calls that may fail."""
    for fails in "01":
        add_stored("config_files", [ran(["-f", "one.conf"], b"a\n", refused=FAULT)], fails=fails, files=files)
    for fails in "012345678":
        add_stored("config_files", [ran(["-f", "c/*.conf"], b"a\n", refused=FAULT)], fails=fails, files=files)
    add_stored("config_files", [ran(["-e", BUILT], b"a\n")], fails="0", files=files)


def long_config_files():
    """Of one megabyte, and of a byte more, with the line feed between files."""
    for size, more in ((524_288, 524_287), (524_288, 524_288), (1_048_576, 0)):
        files = [("c/a", LINES.ljust(size)), ("c/b", " " * more)]
        long = None if size + 1 + more <= 1_048_576 else (3, config_line("main", "long"))
        add_stored("config_files", [ran(["-f", "c/*"], b"a\n", flow=same("a"), refused=long)], files=files)


def file_outputs():
    """What outputs to files leave in the store."""
    rows = row_of("a") + row_of("b")
    for outputs, shown in [
        ('file { path => "out/x" }', [("out/x", rows)]),
        (f'file {{ path => "x" {LF} }}', [("x", "a\nb\n"), ("y", None)]),
        (f'file {{ path => "x" {LF} }} file {{ path => "y" codec => json }}', [("x", "a\nb\n"), ("y", (row_of("a")[:-1] + row_of("b")[:-1]))]),
        (f'if [message] == "b" {{ file {{ path => "x" {LF} }} }} else {{ file {{ path => "y" codec => plain }} }}', [("x", "b\n"), ("y", "a")]),
        (f'if [no] {{ file {{ path => "x" {LF} }} }} file {{ path => "database" {LF} }}', [("x", None), ("database", "a\nb\n")]),
    ]:
        text = f"input {{ stdin {{}} }} output {{ {outputs} }}"
        add_stored("file_outputs", [ran(["-e", text], b"a\nb\n", flow=same("a", "b", quiet=True))], shown=shown)
    text = f'input {{ stdin {{}} }} output {{ stdout {{ {LF} }} file {{ path => "x" {LF} }} }}'
    add_stored("file_outputs", [ran(["-e", text], b"a\nb\n", flow=same("a", "b"))], shown=[("x", "a\nb\n")])
    lines = "".join(f"{number}\n" for number in range(2 * BATCH + 1))
    add_stored("file_outputs", [ran(["-e", text], lines.encode(), flow=same(*lines.split()))], shown=[("x", lines)])
    own = f'input {{ stdin {{}} }} output {{ file {{ path => "data/x" {LF} }} }}'
    twice = (3, config_line("main", "twice path data/x"))
    add_stored("file_outputs", [ran(["-e", own], b"a\n", refused=twice)], shown=[("data/x", None)])
    add_stored("file_outputs", [ran(["--path.data", "d", "-e", own], b"a\n", flow=same("a", quiet=True))], shown=[("data/x", "a\n")])
    own = own.replace("data/x", "d/main/x")
    twice = (3, config_line("main", "twice path d/main/x"))
    add_stored("file_outputs", [ran(["--path.data", "d", "-e", own], b"a\n", refused=twice)], shown=[("d/main/x", None)])


def several_runs():
    """Runs over one store: each delivers what those before it left, and repeats nothing that was delivered."""
    words = ["-e", LINES]
    a, c, none = ran(words, b"a\nb\n", flow=same("a", "b")), ran(words, b"c\n", flow=same("c")), ran(words, b"", flow=same())
    add_stored("several_runs", [a, c, none, c])
    add_stored("several_runs", [ran(words, b"a\nb\n", read=2, fails=(1,), flow=same("a")), none, c])
    # What stdout didn't take, or didn't flush, is delivered by the next run of this pipeline.
    left = ran(words, b"", flow=same(before=["a\nb\n"]))
    for number in (0, 1):
        add_stored("several_runs", [ran(words, b"a\nb\n", breaks=(number,), flow=same("a", "b")), left, none])
    up = [*words, "--pipeline.id", "up"]
    failed = ran(up, b"a\nb\n", breaks=(0,), flow=same("a", "b"))
    add_stored("several_runs", [failed, none, ran(up, b"", flow=same(before=["a\nb\n"])), ran(up, b"", flow=same())])
    # Of three batches the second fails: the first is acknowledged, and was marked before the next read.
    second = ran(words, b"a\nb\nc\n", read=2, breaks=(2,), flow=same("a", "b", "c"))
    add_stored("several_runs", [second, ran(words, b"c\n", flow=same("c", before=["b\n"]))])
    runs_of_files_and_generators()
    runs_over_failing_stores(words)


def runs_of_files_and_generators():
    text = f'input {{ stdin {{}} }} output {{ file {{ path => "x" {LF} }} }}'
    made = [ran(["-e", text], data, flow=same("a", "b", quiet=True)) for data in (b"a\n", b"b\n", b"", b"a\n")]
    add_stored("several_runs", made, shown=[("x", "a\nb\na\n")])
    text = f'input {{ generator {{ message => "x" count => 2 }} }} output {{ stdout {{ {LF} }} }}'
    add_stored("several_runs", [ran(["-e", text], b"", flow=Given("x\nx\n")) for _ in range(2)])


def runs_over_failing_stores(words):
    """A call of the store fails while the pipeline is opened: nothing is read, and the next run goes on."""
    for name, more in (("main", []), ("up-2", ["--pipeline.id", "up-2"])):
        refused = (4, config_line(name, "store fault"))
        for store in "012":
            for quiet in ((), (1,)):
                made = ran([*words, *more], b"a\n", quiet=quiet, refused=refused)
                add_stored("several_runs", [made, ran([*words, *more], b"c\n", flow=same("c"))], store=store)
