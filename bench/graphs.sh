#!/usr/bin/env bash
# How long does a whole configuration take? The program filter_tests takes batches of 125 events, lines as a generator's sample has
# them, through one of four filters and three conditions, and beside it has the same events meet the same filters and conditions
# by calls of them alone, with no graph around them: the sum of its parts. Both run in turn, seven times, and the least time of each
# counts, less that of copies of the events alone. Nanoseconds for an event each. Fails where the whole takes more than 1.2 times
# the sum of its parts. It also prints what each filter and each condition takes alone, over batches of the events that it meets.
. "$(dirname "$0")/common.sh"

build filter_tests copies /dev/null 1

python3 - "$work" <<'END_OF_EVENTS'
import json, sys

# 4,000 events in each file: those of one kind, or of all, as they come.
state, kinds = 1000, {"users": [], "objects": [], "accesses": [], "others": [], "all": [], "took": []}
while any(len(events) < 4000 for events in kinds.values()):
    state = (state * 6364136223846793005 + 1442695040888963407) % 2**64
    r = state >> 33
    kind, line = [
        ("users", f"user=u{r % 100} took={r % 1000}"),
        ("objects", json.dumps({"user": f"u{r % 100}", "took": r % 1000}, separators=(",", ":"))),
        ("accesses", f'10.0.0.{r % 250} - - [10/Oct/2000:13:55:36 +0000] "GET /p{r % 1000} HTTP/1.1" 200 {r % 10000}'),
        ("others", f"junk {r}"),
    ][r % 4]
    kinds[kind].append({"message": line})
    kinds["all"].append({"message": line})
    # kv gives texts, and json numbers.
    took = [{"took": f"{r % 1000}"}, {"took": r % 1000}, {}, {}][r % 4]
    kinds["took"].append({"message": line, **took})
for kind, events in kinds.items():
    with open(f"{sys.argv[1]}/{kind}", "w") as file:
        file.writelines(json.dumps(event) + "\n" for event in events[:4000])
END_OF_EVENTS

rounds=40

# The nanoseconds that each of these works takes on an event of a file, a line each.
event_times() {
    file=$1
    shift
    for run in 1 2 3 4 5 6 7; do
        place=0
        for what in copies "$@"; do
            start=$(date +%s%N)
            "$program" "$what" "$work/$file" "$rounds" 125 >"$work/output"
            echo "$place" $(($(date +%s%N) - start))
            place=$((place + 1))
        done
    done | awk -v events=$((rounds * $(wc -l <"$work/$file"))) '
        !($1 in least) || $2 < least[$1] { least[$1] = $2 }
        $1 > last { last = $1 }
        END { for (place = 1; place <= last; place++) printf "%d\n", (least[place] - least[0]) / events }'
}

grok='grok { match => { "message" => "%{COMMONAPACHELOG}" } }'
sample="filter {
  if [message] =~ /^\{/ { json { source => \"message\" } }
  else if [message] =~ /^user=/ { kv { } }
  else { $grok }
  if [took] > 500 { drop { } }
}
output { sink { } }"

parts='if [message] =~ /^\{/ { }
if [message] =~ /^user=/ { }
if [took] > 500 { }
json { source => "message" }
kv { }
'$grok

pairs=$(event_times users 'kv { }')
objects=$(event_times objects 'json { source => "message" }')
accesses=$(event_times accesses "$grok")
others=$(event_times others "$grok")
read -r -d '' first second <<<"$(event_times all 'if [message] =~ /^\{/ { }' 'if [message] =~ /^user=/ { }')" || true
third=$(event_times took 'if [took] > 500 { }')
read -r -d '' whole sum <<<"$(event_times all "$sample" "$parts")" || true
# A quarter of all events is of each kind.
apart=$(((pairs + objects + accesses + others + 3 * second) / 4 + first + third))
echo "kv: $pairs ns, json: $objects ns, grok: $accesses ns, and $others ns where it doesn't match, conditions: $first, $second and $third ns"
echo "the whole configuration: $whole ns, the sum of what an event meets: $sum ns, and $apart ns over batches of events of one kind"
if [ "$whole" -gt $((sum * 12 / 10)) ]; then
    echo "more than 1.2 times the sum" >&2
    exit 1
fi
