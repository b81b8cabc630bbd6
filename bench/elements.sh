#!/usr/bin/env bash
# How fast are events encoded and decoded? Runs the program bench_parts on few and on many rounds of
# one event of nineteen fields, like that of a line of an access log; the difference of the two times is
# that of the rounds, without the start. The least of five runs counts.
. "$(dirname "$0")/common.sh"

build
size=$("$program" elements size 0)

for call in encode decode; do
    time=$(round_time 1000 "$program" elements "$call")
    echo "$call $time ns an event of $size bytes, $((size * 1000 / time)) MB/s"
done
