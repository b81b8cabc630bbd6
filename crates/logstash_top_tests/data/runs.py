"""What runs leave of the objects of the outside, by the rules of lines, of batches, and of what is flushed when."""

import re

from flow import Flow
from inputs import BATCH
from objects import Failed, Lines, Object, row_of, text_of, told, words_written, written

ROWS = {}
ROOM = 262_144
# The tables whose runs aren't compared with the rows of their lines.
CONFIGURED = ["worked", "configurations", "inputs", "failing", "named", "moments", "refused"]


class Rows:
    """What a configuration writes of each line: its row, or what is said by hand; nothing where it is quiet. Before its lines comes
    what the queue has of a run before, and behind them what other inputs give."""

    generates = False

    def __init__(self, said=None, size=BATCH, behind=(), before=(), quiet=False):
        self.said, self.size = said, size
        self.before, self.behind, self.quiet = [said_by_first(text) for text in before], behind, quiet

    def row(self, line, _look):
        return row_of(line) if self.said is None else self.said[line]

    def poll(self, lines, look):
        """What stdout gets of the lines that one read made whole, batch by batch."""
        if self.quiet:
            return []
        rows = [self.row(line, look) for line in lines]
        return [said_by_first("".join(rows[at : at + self.size])) for at in range(0, len(rows), self.size)]


class Timed(Rows):
    """Rows by a clock that shows these seconds behind the new year, one at each look, and then the last again."""

    def __init__(self, seconds):
        super().__init__()
        self.seconds = seconds

    def row(self, line, look):
        second = self.seconds[min(look, len(self.seconds) - 1)]
        return row_of(line, **{"@timestamp": f"2024-01-01T00:{second // 60:02}:{second % 60:02}.000Z"})


def said_by_first(text):
    """What the first output writes of a batch."""
    return [("output_1", text)] if text else []


class Given:
    """What a configuration writes whose generator gives all its events at one poll, said by hand."""

    generates = True

    def __init__(self, *batches):
        self.batches = list(batches)

    def next_batch(self):
        return said_by_first(self.batches.pop(0)) if self.batches else None


class StdoutFailed(Exception):
    pass


class Run:
    """What a run leaves of its objects, for which it reads all of `data`."""

    def __init__(self, stdin, stdout, data, flow):
        self.stdin, self.stdout, self.data, self.flow = stdin, stdout, data, flow
        self.lines, self.pauses, self.looks, self.defined = Lines(), 0, 0, b""

    def take(self, lines):
        texts = [text_of(line) for line in lines]
        self.put(self.flow.poll(texts) if isinstance(self.flow, Flow) else self.flow.poll(texts, self.looks))

    def put(self, batches):
        """Each output that gets some of a batch writes it, and flushes."""
        self.defined += "".join(text for batch in batches for _, text in batch).encode()
        for batch in batches:
            for output, text in batch:
                try:
                    self.stdout.write(text.encode())
                    self.stdout.flush()
                except Failed:
                    raise StdoutFailed(output)

    def poll(self):
        """Gives whether there is more. Behind a read that brings no line the clock is paused."""
        if self.flow.generates:
            batch = self.flow.next_batch()
            self.put([batch or []])
            return batch is not None
        if self.stdin.call():
            self.pauses += 1
        elif self.data:
            count = min(len(self.data), ROOM, self.stdin.most or ROOM)
            piece, self.data = self.data[:count], self.data[count:]
            lines = list(self.lines.feed(piece))
            self.pauses += not lines
            self.take(lines)
        else:
            self.take([self.lines.part] if self.lines.part else [])
            self.put(getattr(self.flow, "behind", []))
            return False
        self.looks += 1
        return True

    def end(self):
        """Gives the status, and the output that failed."""
        try:
            self.put(getattr(self.flow, "before", []))
            while self.poll():
                pass
        except StdoutFailed as failed:
            return 6, failed.args[0]
        except Failed:
            return 5, None
        return 0, None


def tell(stderr, parts):
    try:
        for part in parts:
            stderr.write(part.encode())
        stderr.flush()
    except Failed:
        pass


def ran(words, data, read=None, fails=(), waits=(), write=None, breaks=(), quiet=(), name="main", refused=None, flow=None, input_id="input_1", seconds=()):
    """A run, of `flow` where it isn't of rows alone; `refused` is the status with the parts of its line where nothing is read.
    Gives its row, its answer, stdout, and what the definition says of it."""
    stdin, stdout, stderr = Object(read, fails, waits), Object(write, breaks), Object(None, quiet)
    waiting = ",".join(map(str, waits)) or "-"
    shown = ", " + ",".join(map(str, seconds)) if seconds else ""
    row = f"{stdin.written()} {waiting}, {stdout.written()}, {stderr.written()}{shown} | {words_written(words)} | {written(data)}"
    made = Run(stdin, stdout, data, flow or Rows())
    if refused:
        status, line = refused
    else:
        status, output = made.end()
        input_fault = ["logstash: pipeline ", name, ": input fault ", input_id, "\n"]
        line = {0: [], 5: input_fault, 6: ["logstash: output fault ", output, "\n"]}[status]
    tell(stderr, line)
    answer = f"{status}; {stdin.made} reads {made.pauses} pauses{stdout.told('stdout')}{stderr.told('stderr')}"
    return row, answer, stdout, made.defined


def run(table, words, data, **more):
    """Adds a run. Gives how many calls of stdout were made."""
    row, answer, stdout, defined = ran(words, data, **more)
    same = "; as defined" if stdout.taken == defined else "; not as defined"
    same = "" if table in CONFIGURED or len(stdout.taken) > 4_000 else same
    ROWS.setdefault(table, []).append((row, answer + same))
    return stdout.made


def file_written(path, data):
    return f"{path}={written(data.encode() if isinstance(data, str) else data)}"


def add_stored(table, runs, store="-", fails="-", files=(), shown=()):
    """Adds runs over one store: the calls that fail of it and of the files, the files of others, and what the store has at the end."""
    around = f"{store}, {fails} | {' & '.join(file_written(path, data) for path, data in files)} | {' & '.join(path for path, _ in shown)}"
    row = " ;; ".join([around, *(made[0] for made in runs)])
    answer = "".join(f"{made[1]} ;; " for made in runs)
    answer += "".join(f"{path}: {'none' if text is None else told(text)}; " for path, text in shown)
    ROWS.setdefault(table, []).append((row, answer))


def no_file_line(path):
    """The parts of the line of a path that names no file."""
    return ["logstash: no file ", path, "\n"]


def words_line(reason):
    """The parts of the line that refused words have."""
    if reason.startswith("range "):
        return ["logstash: words: range ", reason[len("range ") :], "\n"]
    return [f"logstash: words: {reason}\n"]


def config_line(name, reason):
    """The parts of the line that a refused text has."""
    start = ["logstash: pipeline ", name]
    setting = re.fullmatch("(.*): (missing|unknown|wrong kind|bad pattern) (.*)", reason)
    placed = re.fullmatch("(syntax at|deep at|unknown plugin|twice id|twice path|twice address|path long) (.*)", reason)
    spare = re.fullmatch("no spare (.*): (.*) wanted, (.*) left", reason)
    if setting:
        return [*start, ": ", setting[1], f": {setting[2]} ", setting[3], "\n"]
    if spare:
        return [*start, ": no spare ", spare[1], ": ", spare[2], " wanted, ", spare[3], " left\n"]
    return [*start, f": {placed[1]} ", placed[2], "\n"] if placed else [*start, f": {reason}\n"]
