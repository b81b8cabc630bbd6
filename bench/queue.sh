#!/usr/bin/env bash
# What does the queue cost? 200,000 rows of 300 bytes are written into a queue in a FileStore, taken in batches of 125,
# acknowledged and marked every 1,024, by the program bench_parts: processor time of the program and of the system for it, the
# least of five runs each, with pages of 64 MiB, of 1 MiB and of 2,000 rows, of which 100 are kept, and where they are purged.
# Beside it a C program that makes the same calls with the same bytes. It fails where the files of the two differ; where ours
# takes more than 1.5 times what that program, `encode`, `decode` and two CRCs of these rows take together; or where what ours
# takes beside the calls is 1.25 times as much with 100 pages as with one. The same rows are written and kept for their batch,
# with pages of 64 MiB: it fails where the files differ, or where one of these takes more than 0.6 of what one takes that is
# read. Then a folder of 1 GiB is opened, and one of a sixteenth of that: it fails where the first takes more than 4 MiB more
# of memory. Needs cc and GNU time.
. "$(dirname "$0")/common.sh"

rows=200000
large=67108864
build
cc -O2 -o "$work/queue_calls" "$root/bench/queue_calls.c"
mkdir "$work/ours" "$work/theirs"

TIMEFORMAT='%3R %3U %3S'

# Of the five runs of the program that with the least processor time: that time and all its time, in milliseconds. How many
# rows are left to be given stands in $work/output, and the queue in $work/ours/queue.
our_times() {
    for run in 1 2 3 4 5; do
        rm -rf "$work/ours/queue"
        (cd "$work/ours" && { time "$program" queue "$1" "$2" $rows >"$work/output"; } 2>"$work/time")
        awk '{ print int(($2 + $3) * 1000 + 0.5), int($1 * 1000 + 0.5) }' "$work/time"
    done | sort -n | head -n 1
}

# The least of what five runs of the C program print.
their_time() {
    for run in 1 2 3 4 5; do
        rm -rf "$work/theirs/queue"
        (cd "$work/theirs" && "$work/queue_calls" "$1" "$2" "$work/rows")
    done | sort -n | head -n 1
}

# Writes so many rows into a new queue. What its opening takes stands in $work/best.
open_filled() {
    rm -rf "$work/ours/queue"
    (
        cd "$work/ours"
        "$program" queue fill $large "$1" >"$work/output"
        best_run /dev/null "$program" queue open $large 0
    )
    [ "$(cat "$work/output")" = "$1" ]
}

(cd "$work/ours" && "$program" queue fill $large $rows >"$work/output")
mv "$work/ours/queue/page.0" "$work/rows"
bytes=$(($(stat -c %s "$work/rows") / rows))
encoded=$(round_time 1000 "$program" queue encode)
decoded=$(round_time 1000 "$program" queue decode)
one=$(least_time "$program" crc "$work/rows" 1)
many=$(least_time "$program" crc "$work/rows" 9)
summed=$(((many - one) / (8 * rows)))
made=$((encoded + decoded + 2 * summed))

too_slow=
for way in "keep $large" "keep 1048576" "keep $((2000 * bytes + 1))" "purge $large" "purge 1048576"; do
    read -r ours elapsed <<<"$(our_times $way)"
    theirs=$(their_time $way)
    diff -r "$work/ours/queue" "$work/theirs/queue"
    [ "$(cat "$work/output")" = 0 ]
    pages=$(ls "$work/ours/queue" | grep -c '^page')
    ours=$((ours * 1000000 / rows))
    theirs=$((theirs * 1000000 / rows))
    echo "$way ($pages pages at the end): $ours ns of processor time a row of $bytes bytes," \
        "$((rows * 1000 / elapsed)) rows a second: C $theirs ns, encode $encoded ns, decode $decoded ns, crc32 $summed ns"
    if [ $((2 * ours)) -gt $((3 * (theirs + made))) ]; then
        too_slow="$too_slow, $way"
    fi
    case "$way $pages" in
    "keep $large 1")
        least=$((ours - theirs)) read=$ours
        cp -r "$work/theirs/queue" "$work/theirs/one"
        ;;
    keep*100) most=$((ours - theirs)) ;;
    esac
done

read -r held elapsed <<<"$(our_times hold $large)"
held=$((held * 1000000 / rows))
diff -r "$work/ours/queue" "$work/theirs/one"
[ "$(cat "$work/output")" = 0 ]
echo "hold $large: $held ns of processor time a row that is kept for its batch, $((rows * 1000 / elapsed)) rows a second"

open_filled 223696
small=$(awk '{ print $4 }' "$work/best")
open_filled 3579140
read -r elapsed user system memory <"$work/best"
echo "1 GiB is opened in $elapsed s ($user and $system s of processor time) with $memory KiB, a sixteenth of it with $small KiB"

if [ -n "$too_slow" ]; then
    echo "rows take more than 1.5 times what C, encode, decode and two CRCs take together$too_slow"
    exit 1
fi
if [ $((10 * held)) -gt $((6 * read)) ]; then
    echo "a row that is kept takes $held ns, and one that is read $read ns"
    exit 1
fi
if [ $((4 * most)) -gt $((5 * least)) ]; then
    echo "a row takes $most ns beside the calls with 100 pages, and $least ns with one"
    exit 1
fi
if [ $((memory - small)) -gt 4096 ]; then
    echo "memory grows with what a folder holds"
    exit 1
fi
