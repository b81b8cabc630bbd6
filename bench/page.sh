#!/usr/bin/env bash
# What does a page of the queue cost? 100,000 rows of the event of nineteen fields are encoded, framed and appended through a
# FileStore with a sync per 1,024, and then the page is opened, by the program bench_parts: processor time of the program and
# of the system for it, the least of five runs each. Beside it a C program that makes the same calls with the same bytes.
# It fails where the rows take more than 1.3 times what that program, `encode` and `crc32` take together, or where the page is
# opened at less than 200 MB/s. Needs cc.
. "$(dirname "$0")/common.sh"

rows=100000
every=1024
build
cc -O2 -o "$work/page_calls" "$root/bench/page_calls.c"

# The least processor time of five runs of a command, in milliseconds. A file that it is to write is removed before.
TIMEFORMAT='%3U %3S'
least_processor_time() {
    for run in 1 2 3 4 5; do
        rm -f "$work/written"
        { time "$@" >"$work/output"; } 2>"$work/time"
        awk '{ print int(($1 + $2) * 1000 + 0.5) }' "$work/time"
    done | sort -n | head -n 1
}

# The least of what five runs of the C program print.
least_printed() {
    for run in 1 2 3 4 5; do
        rm -f "$work/written"
        "$work/page_calls" "$@"
    done | sort -n | head -n 1
}

written=$(least_processor_time "$program" pages write "$work/written" $rows $every)
mv "$work/written" "$work/page"
bytes=$(stat -c %s "$work/page")
scanned=$(least_processor_time "$program" pages scan "$work/page" $rows $every)
c_written=$(least_printed write "$work/page" "$work/written" $every)
c_read=$(least_printed read "$work/page")
encoded=$(($(round_time 1000 "$program" elements encode) * rows / 1000000))
one=$(least_time "$program" crc "$work/page" 1)
many=$(least_time "$program" crc "$work/page" 9)
summed=$(((many - one) / 8000000))

echo "$((written * 1000000 / rows)) ns a row of $((bytes / rows)) bytes: C $((c_written * 1000000 / rows)) ns," \
    "encode $((encoded * 1000000 / rows)) ns, crc32 $((summed * 1000000 / rows)) ns"
echo "opened at $((bytes / scanned / 1000)) MB/s, $((scanned * 1000000 / rows)) ns a row;" \
    "C reads the file in $((c_read * 1000000 / rows)) ns a row"
if [ $((10 * written)) -gt $((13 * (c_written + encoded + summed))) ]; then
    echo "rows take more than 1.3 times what C, encode and crc32 take together"
    exit 1
fi
if [ $((bytes / scanned)) -lt 200000 ]; then
    echo "the page is opened at less than 200 MB/s"
    exit 1
fi
