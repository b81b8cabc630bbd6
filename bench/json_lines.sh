#!/usr/bin/env bash
# How fast are JSON lines read and written? Makes 10 MB of JSON lines as a log has them, and reads and
# writes them through the program bench_parts and, in the same run, through python3's json. bench_parts
# runs once and eleven times over the file; the difference of the two times is that of ten rounds,
# without the start. The least of five runs counts (three for python3). Prints MB (1,000,000 bytes) a second of the lines'
# text.
. "$(dirname "$0")/common.sh"

build

awk 'BEGIN {
    for (bytes = 0; bytes < 10000000; i++) {
        line = sprintf("{\"@timestamp\":\"2024-03-%02dT%02d:%02d:%02d.000Z\",\"bytes\":%d,\"client\":\"10.%d.%d.%d\",\"duration\":0.%03d,\"message\":\"GET /shop/item/%d?page=%d HTTP/1.1 \\\"Mozilla/5.0 (X11; Linux x86_64)\\\"\",\"ok\":%s,\"request\":{\"method\":\"GET\",\"path\":\"/shop/item/%d\",\"user\":null},\"status\":%d,\"tags\":[\"web\",\"shop%d\"]}",
            i % 28 + 1, i % 24, i % 60, i % 59, i * 37 % 100000, i % 256, i % 199, i % 251, i % 1000, i, i % 9, i % 2 ? "true" : "false", i % 50000, i % 7 ? 200 : 404, i % 5)
        print line
        bytes += length(line) + 1
    }
}' >"$work/lines"
size=$(wc -c <"$work/lines")

measure() {
    once=$(least_time "$program" json "$1" 1 "$work/lines")
    many=$(least_time "$program" json "$1" 11 "$work/lines")
    echo "event_json $1 $((size * 10 * 1000 / (many - once))) MB/s"
}

measure read
measure write
python3 - "$work/lines" <<'PY'
import json, sys, time

lines = open(sys.argv[1], "rb").read().splitlines()
size = sum(len(line) + 1 for line in lines)


def least(call):
    best = None
    for _ in range(3):
        start = time.perf_counter()
        call()
        spent = time.perf_counter() - start
        best = spent if best is None else min(best, spent)
    return best


values = [json.loads(line) for line in lines]
read = least(lambda: [json.loads(line) for line in lines])
write = least(lambda: [json.dumps(value, separators=(",", ":"), ensure_ascii=False) for value in values])
print(f"python3 json read {size / read / 1e6:.0f} MB/s")
print(f"python3 json write {size / write / 1e6:.0f} MB/s")
PY
