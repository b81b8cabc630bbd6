#!/usr/bin/env bash
# How fast is a queue checked? A queue of 1 GiB with rows of 300 bytes is written by the program bench_parts and checked by
# `logstash --pqcheck`, beside `cat` of its files: both read them from the disk where the memory of files can be emptied, which takes the
# rights of root, and else from there. Of three runs each the least time counts. It fails where the check has less than half the speed
# of cat. Another program than that of logstash_cli may be named.
. "$(dirname "$0")/common.sh"

rows=3579140
build
mkdir "$work/data"
(cd "$work/data" && "$program" queue fill 67108864 $rows >"$work/output")
if [ $# -gt 0 ]; then
    program=$1
else
    build logstash_cli --pqcheck none --path.data "$work/data"
fi

# The least time of three runs of a command, in milliseconds, each with nothing of the files in memory. Its output stands in $work/output.
cold_time() {
    for run in 1 2 3; do
        sync
        { echo 3 >/proc/sys/vm/drop_caches; } 2>/dev/null || true
        start=$(date +%s%N)
        "$@" >"$work/output"
        echo $((($(date +%s%N) - start) / 1000000))
    done | sort -n | head -n 1
}

read_in=$(cold_time cat "$work"/data/queue/*)
checked_in=$(cold_time "$program" --pqcheck queue --path.data "$work/data")
[ "$(cat "$work/output")" = "rows $rows" ]
echo "a queue of 1 GiB is checked in $checked_in ms, and read by cat in $read_in ms"
if [ "$checked_in" -gt $((2 * read_in)) ]; then
    echo "the check has less than half the speed of cat"
    exit 1
fi
