#!/usr/bin/env bash
# How long do the filters take that find fields in texts? Runs the program filter_tests, which copies each event of a file and
# applies the filter to the copy, and beside it the same with copies alone, in turn, so that a busy moment of the machine meets
# both. Of seven runs each the least counts; their difference is the time of the filter, which puts the fields into the event.
# In the same run python3 reads the same texts by its `re`, `json` and `csv` to what it has in the place of fields: a dict or
# a list. Nanoseconds for an event each. Fails where grok takes more than 3.5 microseconds for a line of an access log.
. "$(dirname "$0")/common.sh"

build filter_tests copies /dev/null 1

python3 - "$work" <<'END_OF_EVENTS'
import json, sys


def write(name, texts):
    with open(f"{sys.argv[1]}/{name}", "w") as file:
        for text in texts:
            file.write(json.dumps({"message": text}) + "\n")


count = 1000
lines = [
    f'10.{i % 256}.{i % 199}.{i % 251} - user{i} [{i % 28 + 1:02}/Mar/2024:{i % 24:02}:{i % 60:02}:{i % 59:02} +0000]'
    f' "GET /shop/item/{i}?page={i % 9} HTTP/1.1" 200 {i % 50000} "https://example.org/list/{i}"'
    f' "Mozilla/5.0 (X11; Linux x86_64) Firefox/{i % 120}.0"'
    for i in range(count)
]
write("lines", lines)
write("other_lines", [line.replace("[", "(") for line in lines])
write("pairs", [" ".join(f"key{k}=value{i + k}" for k in range(10)) for i in range(count)])
write("rows", [",".join(f"field {i + k}" for k in range(10)) for i in range(count)])
write("objects", [json.dumps({f"field{k:02}": f"a value {i + k}" for k in range(30)}) for i in range(count)])
write("times", [f"{i % 28 + 1:02}/Mar/2024:{i % 24:02}:{i % 60:02}:{i % 59:02} +0000" for i in range(count)])
END_OF_EVENTS

rounds=100

# The nanoseconds that a filter takes on an event of a file.
event_time() {
    for run in 1 2 3 4 5 6 7; do
        for what in copies "$2"; do
            start=$(date +%s%N)
            "$program" "$what" "$work/$1" "$rounds" >"$work/output"
            echo "$what" $(($(date +%s%N) - start))
        done
    done | awk -v rounds="$rounds" '
        $1 == "copies" && (!copies || $NF < copies) { copies = $NF }
        $1 != "copies" && (!filter || $NF < filter) { filter = $NF }
        END { printf "%d\n", (filter - copies) / rounds / 1000 }'
}

grok='grok { match => { "message" => "%{COMBINEDAPACHELOG}" } }'
line=$(event_time lines "$grok")
echo "grok COMBINEDAPACHELOG on a line of an access log: $line ns"
echo "the same on a line that doesn't match: $(event_time other_lines "$grok") ns"
echo "kv with ten pairs: $(event_time pairs 'kv { }') ns"
echo "csv with ten columns: $(event_time rows 'csv { }') ns"
echo "json with thirty fields: $(event_time objects 'json { source => "message" }') ns"
echo "date with one format: $(event_time times 'date { match => ["message", "dd/MMM/yyyy:HH:mm:ss Z"] }') ns"

cat >"$work/peers.py" <<'PY'
import csv, datetime, json, re, sys, time

work, pattern = sys.argv[1:]
access = re.compile(open(pattern).read().rstrip("\n"))
pair = re.compile(r'([^ =]+)=(?:"([^"]*)"|([^ ]+))')


def texts(name):
    return [json.loads(line)["message"] for line in open(f"{work}/{name}")]


def measure(what, name, call):
    found = texts(name)
    best = None
    for _ in range(5):
        start = time.perf_counter()
        for _ in range(10):
            for text in found:
                call(text)
        spent = time.perf_counter() - start
        best = spent if best is None else min(best, spent)
    print(f"python3 {what}: {best / 10 / len(found) * 1e9:.0f} ns")


def groups(text):
    match = access.search(text)
    return match.groups() if match else None


measure("re on a line of an access log", "lines", groups)
measure("re on a line that doesn't match", "other_lines", groups)
measure("re with ten pairs", "pairs", lambda text: {m[1]: m[2] or m[3] for m in pair.finditer(text)})
measure("csv with ten columns", "rows", lambda text: next(csv.reader([text])))
measure("json with thirty fields", "objects", json.loads)
measure("strptime", "times", lambda text: datetime.datetime.strptime(text, "%d/%b/%Y:%H:%M:%S %z"))
PY
python3 "$work/peers.py" "$work" "$root/bench/access_log.regex"

if [ "$line" -gt 3500 ]; then
    echo "grok takes more than 3.5 microseconds a line"
    exit 1
fi
