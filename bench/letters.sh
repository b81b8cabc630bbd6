#!/usr/bin/env bash
# What does a dead letter cost? 100,000 letters with the event of nineteen fields are appended to a queue in a FileStore, in
# batches of 125, each synced before the slot that names its segments, under each policy, by the program bench_parts:
# processor time of the program and of the system for it, the least of five runs each. Under `hold` all fit, and under the
# others half of them. Beside it a C program that makes the same calls with the same bytes. It fails where the files of the two
# differ, or where ours takes more than 1.5 times what that program, and `encode` and `crc32` of the letters that are kept, take
# together. Needs cc.
. "$(dirname "$0")/common.sh"

batches=800
each=125
letters=$((batches * each))
build
cc -O2 -o "$work/letter_calls" "$root/bench/letter_calls.c"
mkdir "$work/ours" "$work/theirs"

TIMEFORMAT='%3U %3S'

# The least processor time of five runs of the program under a policy, in milliseconds. How many letters it kept stands in
# $work/kept, and its queue in $work/ours/letters.
our_time() {
    for run in 1 2 3 4 5; do
        rm -rf "$work/ours/letters"
        (cd "$work/ours" && { time "$program" letters "$1" "$2" $batches $each >"$work/kept"; } 2>"$work/time")
        awk '{ print int(($1 + $2) * 1000 + 0.5) }' "$work/time"
    done | sort -n | head -n 1
}

# The least of what five runs of the C program print.
their_time() {
    for run in 1 2 3 4 5; do
        rm -rf "$work/theirs/letters"
        mkdir "$work/theirs/letters"
        (cd "$work/theirs" && "$work/letter_calls" "$1" "$2" $batches $each "$work/record")
    done | sort -n | head -n 1
}

encoded=$(round_time 1000 "$program" elements encode)
(cd "$work/ours" && "$program" letters hold 134217728 $batches $each >"$work/kept")
cp "$work/ours/letters/dead.log" "$work/record"
bytes=$((16#$(head -c 4 "$work/record" | od -An -tx1 | tr -d ' \n') + 8))
records=$(($(stat -c %s "$work/record") / bytes))
one=$(least_time "$program" crc "$work/record" 1)
many=$(least_time "$program" crc "$work/record" 9)
summed=$(((many - one) / (8 * records)))

too_slow=
for policy in hold drop_newer drop_older; do
    limit=134217728
    if [ $policy != hold ]; then
        limit=$((letters / 2 * bytes))
    fi
    ours=$(our_time $policy $limit)
    theirs=$(their_time $policy $limit)
    # The position file is left from the queue's opening.
    diff -r -x dead.pos "$work/ours/letters" "$work/theirs/letters"
    kept=$(cat "$work/kept")
    made=$((kept * (encoded + summed) / 1000000))
    echo "$policy: $((ours * 1000000 / letters)) ns a letter of $bytes bytes ($kept of them kept):" \
        "C $((theirs * 1000000 / letters)) ns, encode $encoded ns, crc32 $summed ns"
    if [ $((2 * ours)) -gt $((3 * (theirs + made))) ]; then
        too_slow="$too_slow $policy"
    fi
done
if [ -n "$too_slow" ]; then
    echo "letters take more than 1.5 times what C, encode and crc32 take together:$too_slow"
    exit 1
fi
