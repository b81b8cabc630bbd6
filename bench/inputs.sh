#!/usr/bin/env bash
# How fast do inputs make events of lines? A million lines of 100 bytes from a watched file and over 16 connections on the
# loopback, with the codec `line`, beside cat and a C program that cuts the file into lines; and JSON lines as a log has them, from
# a file, with the codec `json`, beside what `read_json` takes of these lines and making events of them by the codec `line`. The
# least of five runs each. It fails below 1,500,000 lines a second from the file, and where the codec `json` takes more than 1.3 times
# the sum of its parts. Needs cc.
. "$(dirname "$0")/common.sh"

build bench_parts
cc -O2 -D_GNU_SOURCE -o "$work/line_calls" "$root/bench/line_calls.c"
status=0
cd "$work"

awk 'BEGIN { line = sprintf("%099d", 0); gsub("0", "x", line); for (i = 0; i < 1000000; i++) print line }' >lines
file=$(least_time "$program" inputs file line "$work/lines" 1000000000)
copied=$(least_time cat lines)
cut=$(least_time "$work/line_calls" cut lines)

# The time in which so many lines came over 16 connections, from the start of the two programs on.
over_connections() {
    "$work/line_calls" send "$1" 16 lines &
    "$program" inputs tcp line "$1" 1000000 >made
    wait
}
port=20000
sent=
for run in 1 2 3 4 5; do
    port=$((port + 1))
    start=$(date +%s%N)
    over_connections $port
    time=$(($(date +%s%N) - start))
    if [ -z "$sent" ] || [ "$time" -lt "$sent" ]; then
        sent=$time
    fi
done
awk -v file="$file" -v sent="$sent" -v cut="$cut" -v copied="$copied" 'BEGIN {
    printf "codec line, a million lines: %d lines/s from a file, %d over 16 connections; C cuts %d, cat copies %d\n",
        1e15 / file, 1e15 / sent, 1e15 / cut, 1e15 / copied
}'
if [ "$file" -gt 666666666 ]; then
    echo "the codec line makes fewer than 1,500,000 events a second"
    status=1
fi

awk 'BEGIN {
    for (bytes = 0; bytes < 10000000; i++) {
        line = sprintf("{\"@timestamp\":\"2024-03-%02dT%02d:%02d:%02d.000Z\",\"bytes\":%d,\"client\":\"10.%d.%d.%d\",\"duration\":0.%03d,\"message\":\"GET /shop/item/%d?page=%d HTTP/1.1 \\\"Mozilla/5.0 (X11; Linux x86_64)\\\"\",\"ok\":%s,\"request\":{\"method\":\"GET\",\"path\":\"/shop/item/%d\",\"user\":null},\"status\":%d,\"tags\":[\"web\",\"shop%d\"]}",
            i % 28 + 1, i % 24, i % 60, i % 59, i * 37 % 100000, i % 256, i % 199, i % 251, i % 1000, i, i % 9, i % 2 ? "true" : "false", i % 50000, i % 7 ? 200 : 404, i % 5)
        print line
        bytes += length(line) + 1
    }
}' >json
count=$(wc -l <json)

# The time of ten rounds over the JSON lines, without the start: the difference of the times of eleven rounds and one.
ten_rounds() {
    echo $(($(least_time "$program" inputs make "$1" "$work/json" 11) - $(least_time "$program" inputs make "$1" "$work/json" 1)))
}
read=$(($(least_time "$program" json read 11 "$work/json") - $(least_time "$program" json read 1 "$work/json")))
line=$(ten_rounds line)
json=$(ten_rounds json)
awk -v read="$read" -v line="$line" -v json="$json" -v count="$count" 'BEGIN {
    printf "codec json: %d ns a line; read_json %d ns, an event %d ns: %.2f times the sum\n",
        json / count / 10, read / count / 10, line / count / 10, json / (read + line)
}'
if [ $((10 * json)) -gt $((13 * (read + line))) ]; then
    echo "the codec json takes more than 1.3 times read_json and the event"
    status=1
fi
exit $status
