#!/usr/bin/env bash
# How long does a filter take on an event? Runs the program filter_tests, which copies each event of a file and applies the
# filter to the copy, over and over, and beside it the same with copies alone, in turn, so that a busy moment of the machine
# meets both. Of seven runs each the least counts; their difference is the time of the filter. The six operations of mutate
# and the same six calls on the event are compared by their instructions, which no other work disturbs. Needs valgrind.
. "$(dirname "$0")/common.sh"

build filter_tests copies /dev/null 1

# An event of thirty fields: texts, one of which writes a number, and a list.
python3 - >"$work/thirty" <<'END'
import json

fields = {f"field{i:02}": "a value of some bytes" for i in range(30)}
fields["field06"] = "7.50"
fields["field08"] = ["one", "two"]
print(json.dumps(fields))
END
echo '{"message":"one,two,three,four,five,six,seven,eight,nine,ten","host":"a"}' >"$work/ten"

rounds=100000

# The nanoseconds that each of some filters takes on the event of a file, on a line each: FILE FILTER ..
event_times() {
    file=$1
    shift
    for run in 1 2 3 4 5 6 7; do
        number=0
        for what in copies "$@"; do
            start=$(date +%s%N)
            "$program" "$what" "$work/$file" "$rounds" >"$work/output"
            echo "$number $(($(date +%s%N) - start))"
            number=$((number + 1))
        done
    done | awk -v rounds="$rounds" '
        !($1 in least) || $2 < least[$1] { least[$1] = $2 }
        END { for (n = 1; n in least; n++) printf "%d\n", (least[n] - least[0]) / rounds }'
}

operations='rename => { "field00" => "fresh" } update => { "field02" => "a value of some bytes" }
    replace => { "field04" => "a value of some bytes" } convert => { "field06" => "float" }
    merge => { "field08" => "field02" } copy => { "field02" => "copied" }'
event_times thirty "mutate { $operations }" calls 'clone { clones => ["a"] }' >"$work/times"
{ read -r mutate; read -r calls; read -r clone; } <"$work/times"
echo "mutate with six operations on an event of thirty fields: $mutate ns, the same six calls on the event $calls ns"
echo "clone of an event of thirty fields: $clone ns"
echo "split of a text into ten: $(event_times ten 'split { terminator => "," }') ns"

# The instructions of a round.
instructions() {
    for count in 1000 3000; do
        valgrind --tool=callgrind --callgrind-out-file=/dev/null "$program" "$1" "$work/thirty" "$count" 2>&1 >/dev/null |
            awk '/Collected/ { print $NF }'
    done | awk 'NR == 1 { few = $1 } END { print int(($1 - few) / 2000) }'
}

copies=$(instructions copies)
mutate=$(($(instructions "mutate { $operations }") - copies))
calls=$(($(instructions calls) - copies))
echo "mutate with six operations: $mutate instructions, the same six calls $calls: $((100 * mutate / calls)) in 100"
if [ $((10 * mutate)) -gt $((15 * calls)) ]; then
    echo "mutate takes more than 1.5 times the calls on the event"
    exit 1
fi
