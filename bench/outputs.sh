#!/usr/bin/env bash
# What does an output file cost? 1,600 batches of 125 rows of 300 bytes are appended to an output file in a FileStore, each
# synced before its position is recorded, by the program bench_parts and by a C program that makes the same calls with the
# same bytes: processor time of the program and of the system for it, the least of five runs each. It fails where the files
# of the two differ, or where ours takes more than 1.5 times the time of C. Needs cc.
. "$(dirname "$0")/common.sh"

batches=1600
bytes=$((125 * 300))
build
cc -O2 -o "$work/output_calls" "$root/bench/output_calls.c"

TIMEFORMAT='%3U %3S'
ours=$(
    for run in 1 2 3 4 5; do
        rm -f "$work/ours" "$work/ours.pos"
        { time "$program" outputs "$work/ours" "$work/ours.pos" $batches $bytes >"$work/output"; } 2>"$work/time"
        awk '{ print int(($1 + $2) * 1000 + 0.5) }' "$work/time"
    done | sort -n | head -n 1
)
theirs=$(
    for run in 1 2 3 4 5; do
        rm -f "$work/theirs" "$work/theirs.pos"
        "$work/output_calls" "$work/theirs" "$work/theirs.pos" $batches $bytes
    done | sort -n | head -n 1
)

cmp "$work/ours" "$work/theirs"
cmp "$work/ours.pos" "$work/theirs.pos"
echo "$((ours * 1000 / batches)) µs of processor time a batch of $bytes bytes, C $((theirs * 1000 / batches)) µs"
if [ $((2 * ours)) -gt $((3 * theirs)) ]; then
    echo "output files take more than 1.5 times the time of C"
    exit 1
fi
