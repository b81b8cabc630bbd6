#!/usr/bin/env bash
# What do threads share, and at what cost? Adds to a counter, and parcels of one event there and back between two threads,
# beside a C program that does the same; jobs through a ThreadShop, empty ones and ones of about 100 microseconds, with 1, 2
# and 4 workers. The least of five runs each. It fails where an add or a parcel takes more than twice the time of C, or where
# four workers on four processors do less than three times the jobs of one. Needs cc.
. "$(dirname "$0")/common.sh"

build bench_parts
cc -O2 -pthread -o "$work/threads_calls" "$root/bench/threads_calls.c"
status=0

ours=$(round_time 100000 "$program" counters)
theirs=$(round_time 100000 "$work/threads_calls" counters)
printf 'an add to a counter            %6d ns, C %6d ns\n' "$ours" "$theirs"
if [ "$ours" -gt $((2 * theirs)) ]; then
    echo "an add takes more than twice the time of C"
    status=1
fi

ours=$(round_time 5000 "$program" parcels)
theirs=$(round_time 5000 "$work/threads_calls" parcels)
printf 'a parcel there and back        %6d ns, C %6d ns\n' "$ours" "$theirs"
if [ "$ours" -gt $((2 * theirs)) ]; then
    echo "a parcel takes more than twice the time of C"
    status=1
fi

# The time of one job of so many turns with so many workers, in nanoseconds: TURNS WORKERS ROUNDS.
job_time() {
    round_time "$3" "$program" jobs "$2" "$1"
}

printf 'an empty job                   %6d ns with 1 worker, %d ns with 2, %d ns with 4\n' \
    "$(job_time 0 1 500)" "$(job_time 0 2 500)" "$(job_time 0 4 500)"
# So many turns, each of which waits for the one before it, take about 100 microseconds.
one=$(job_time 570000 1 10)
two=$(job_time 570000 2 10)
four=$(job_time 570000 4 10)
awk -v one="$one" -v two="$two" -v four="$four" 'BEGIN {
    printf "a job of %d microseconds      %.2f times the jobs with 2 workers, %.2f with 4\n", one / 1000, one / two, one / four
}'
if [ "$(nproc)" -ge 4 ] && [ "$one" -lt $((3 * four)) ]; then
    echo "four workers do less than three times the jobs of one"
    status=1
fi
exit "$status"
