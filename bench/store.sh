#!/usr/bin/env bash
# What does a FileStore cost? 100,000 appends of 300 bytes with a sync per 1,024, by the program bench_parts
# and, in the same run, by a C program that makes the same calls: processor time of the program and of the
# system for it, the least of five runs each. Then the system calls of bench_parts per append and per sync.
# It fails where the store takes more than twice the time of C. Needs cc and strace.
. "$(dirname "$0")/common.sh"

build
cc -O2 -o "$work/store_calls" "$root/bench/store_calls.c"

# The least processor time of five runs of a command, each on a new file, in milliseconds.
TIMEFORMAT='%3U %3S'
least_processor_time() {
    for run in 1 2 3 4 5; do
        rm -f "$work/file"
        { time "$@" "$work/file" 100000 1024 >"$work/output"; } 2>"$work/time"
        awk '{ print int(($1 + $2) * 1000 + 0.5) }' "$work/time"
    done | sort -n | head -n 1
}

# How many system calls bench_parts makes for so many appends with a sync so often.
calls() {
    rm -f "$work/file"
    strace -f -c -U calls,name -o "$work/calls" "$program" store "$work/file" "$1" "$2" >"$work/output"
    awk '$2 == "total" { print $1 }' "$work/calls"
}

ours=$(least_processor_time "$program" store)
theirs=$(least_processor_time "$work/store_calls")
printf 'FileStore %5d ms of processor time for 100,000 appends, C %5d ms\n' "$ours" "$theirs"

# 10,240 appends make 10 syncs at one per 1,024 and 160 at one per 64; 20,480 make 20. Each run makes one more.
few=$(calls 10240 1024)
many=$(calls 20480 1024)
synced=$(calls 10240 64)
awk -v few="$few" -v many="$many" -v synced="$synced" 'BEGIN {
    per_sync = (synced - few) / 150
    per_append = (many - few - 10 * per_sync) / 10240
    printf "FileStore %.3f system calls per append, %.3f per sync\n", per_append, per_sync
}'
if [ "$ours" -gt $((2 * theirs)) ]; then
    echo "the store takes more than twice the time of C"
    exit 1
fi
