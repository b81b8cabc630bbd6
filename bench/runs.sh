#!/usr/bin/env bash
# How long do whole runs take? Three configurations over one million lines, from a file through the queue to a file, with one worker, by the fastest of three runs: lines of
# an access log by grok, pairs of keys and values by kv with a condition and drop, and JSON by json and mutate, all written as JSON. In the same run
# awk, perl and python3 write the same rows from the same lines; the rows of the first thousand lines are compared. Beside that stands the sum of
# the parts, nanoseconds for a line each: the program that reads the same lines and lets their events go, each filter and each condition alone in batches of 125
# (by filter_tests, as in graphs.sh), and the rows written as JSON (by bench_parts, as in json_lines.sh). Fails where a run takes more
# than 1.3 times the sum, where rows differ, or where a million lines hold more than 1.1 times the memory of 100,000, each by the least of three runs (one
# and the same run holds up to a tenth more from time to time). Each run has a data folder of its own. Needs GNU time.
#
#     bench/runs.sh [PROGRAM [LINES]]
. "$(dirname "$0")/common.sh"

logstash=${1:-${LOGSTASH:-$root/bin/logstash}}
count=${2:-${LINES_OF_RUNS:-1000000}}
build filter_tests copies /dev/null 1
filters=$program
build
parts=$program

python3 - "$work" "$count" <<'END_OF_LINES'
import json, sys

work, count = sys.argv[1], int(sys.argv[2])
state = 1000
with open(f"{work}/access", "w") as access, open(f"{work}/pairs", "w") as pairs, open(f"{work}/objects", "w") as objects:
    for i in range(count):
        state = (state * 6364136223846793005 + 1442695040888963407) % 2**64
        r = state >> 33
        access.write(
            f'10.{r % 256}.{r % 199}.{r % 251} - user{r % 100} [{r % 28 + 1:02}/Mar/2024:{r % 24:02}:{r % 60:02}:{r % 59:02} +0000]'
            f' "GET /shop/item/{r % 5000}?page={r % 9} HTTP/1.1" {200 if r % 7 else 404} {r % 50000} "https://example.org/list/{r % 300}"'
            f' "Mozilla/5.0 (X11; Linux x86_64) Firefox/{r % 120}.0"\n'
        )
        level = ("debug", "info", "warn", "error")[r % 4]
        pairs.write(f"level={level} service=shop user=u{r % 100} took={r % 1000} path=/item/{r % 5000} status={200 if r % 7 else 404}\n")
        fields = {"usr": f"u{r % 100}", "took": str(r % 1000), "path": f"/item/{r % 5000}", "ok": r % 7 > 0, "status": 200, "agent": "curl/8.5.0"}
        objects.write(json.dumps(fields, separators=(",", ":")) + "\n")
for kind in ("access", "pairs", "objects"):
    with open(f"{work}/{kind}") as lines, open(f"{work}/{kind}.events", "w") as events:
        for _, line in zip(range(4000), lines):
            line = line.rstrip("\n")
            event = {"@version": "1", "event": {"original": line}, "message": line}
            events.write(json.dumps(event) + "\n")
END_OF_LINES

gone='remove_field => ["@timestamp", "event", "message"]'
access_filters="grok { match => { \"message\" => \"%{COMBINEDAPACHELOG}\" } $gone }"
pairs_filters="kv { $gone }"
objects_filters="json { source => \"message\" $gone }"
changes='mutate { rename => { "usr" => "user" } convert => { "took" => "integer" } uppercase => ["user"] remove_field => ["agent"] }'

cat >"$work/access.awk" <<'AWK'
function text(s) { gsub(/\\/, "\\\\", s); gsub(/"/, "\\\"", s); return s }
{
    split($0, quoted, "\"")
    split(quoted[1], first, " ")
    split(quoted[2], request, " ")
    split(quoted[3], last, " ")
    printf "{\"@version\":\"1\",\"agent\":\"%s\",\"auth\":\"%s\",\"bytes\":\"%s\",\"clientip\":\"%s\",\"httpversion\":\"%s\",\"ident\":\"%s\"", \
        text("\"" quoted[6] "\""), text(first[3]), last[2], first[1], substr(request[3], 6), text(first[2])
    printf ",\"referrer\":\"%s\",\"request\":\"%s\",\"response\":\"%s\",\"timestamp\":\"%s\",\"verb\":\"%s\"}\n", \
        text("\"" quoted[4] "\""), text(request[2]), last[1], substr(first[4] " " first[5], 2, 26), request[1]
}
AWK
cat >"$work/pairs.awk" <<'AWK'
function text(s) { gsub(/\\/, "\\\\", s); gsub(/"/, "\\\"", s); return s }
{
    for (i = 1; i <= NF; i++) {
        at = index($i, "=")
        value[substr($i, 1, at - 1)] = substr($i, at + 1)
    }
    if (value["level"] != "debug") {
        printf "{\"@version\":\"1\",\"level\":\"%s\",\"path\":\"%s\",\"service\":\"%s\",\"status\":\"%s\",\"took\":\"%s\",\"user\":\"%s\"}\n", \
            text(value["level"]), text(value["path"]), text(value["service"]), text(value["status"]), text(value["took"]), text(value["user"])
    }
}
AWK
cat >"$work/objects.awk" <<'AWK'
BEGIN { FS = "[,:{}]" }
function bare(s) { gsub(/"/, "", s); return s }
{
    for (i = 2; i < NF; i += 2) value[bare($i)] = $(i + 1)
    printf "{\"@version\":\"1\",\"ok\":%s,\"path\":%s,\"status\":%s,\"took\":%d,\"user\":%s}\n", \
        value["ok"], value["path"], value["status"], bare(value["took"]), toupper(value["usr"])
}
AWK
cat >"$work/peer.pl" <<'PERL'
use strict;
use warnings;
use JSON::PP;

my ($kind, $file) = @ARGV;
my $json = JSON::PP->new->canonical->utf8;
open my $in, '<', $file or die;
my $access;
if ($kind eq 'access') {
    open my $pattern, '<', $ARGV[2] or die;
    chomp(my $text = <$pattern>);
    $access = qr/$text/;
}
my @names = qw(clientip ident auth timestamp verb request httpversion rawrequest response bytes referrer agent);
while (my $line = <$in>) {
    chomp $line;
    my %event = ('@version' => '1');
    if ($kind eq 'access') {
        my @found = $line =~ $access;
        for my $at (0 .. $#names) {
            $event{$names[$at]} = $found[$at] if defined $found[$at];
        }
    } elsif ($kind eq 'pairs') {
        $event{$1} = $2 while $line =~ /([^ =]+)=([^ ]+)/g;
        next if $event{level} eq 'debug';
    } else {
        my $fields = $json->decode($line);
        delete $fields->{agent};
        $fields->{user} = uc delete $fields->{usr};
        $fields->{took} = int $fields->{took};
        %event = (%event, %$fields);
    }
    print $json->encode(\%event), "\n";
}
PERL
cat >"$work/peer.py" <<'PY'
import json, re, sys

kind, file = sys.argv[1:3]
names = "clientip ident auth timestamp verb request httpversion rawrequest response bytes referrer agent".split()
access = re.compile(open(sys.argv[3]).read().rstrip("\n")) if kind == "access" else None
pair = re.compile("([^ =]+)=([^ ]+)")
write = sys.stdout.write
for line in open(file):
    line = line.rstrip("\n")
    event = {"@version": "1"}
    if kind == "access":
        event.update((name, text) for name, text in zip(names, access.search(line).groups()) if text is not None)
    elif kind == "pairs":
        event.update(pair.findall(line))
        if event["level"] == "debug":
            continue
    else:
        event.update(json.loads(line))
        del event["agent"]
        event["user"] = event.pop("usr").upper()
        event["took"] = int(event["took"])
    write(json.dumps(event, ensure_ascii=False, separators=(",", ":"), sort_keys=True) + "\n")
PY

configuration() {
    echo "input { stdin { } } filter { $1 } output { $2 { } }"
}

# The seconds of the fastest of three runs of a command on the lines of a kind, and the KiB that it held.
told_run() {
    best_run "$work/$1" "${@:3}"
    awk -v name="$2" -v count="$count" '{ printf "  %-10s %7.2f s %9d KiB %9d lines/s\n", name, $1, $4, count / $1 }' "$work/best"
}

# The nanoseconds that the fastest run took on a line.
of_line() {
    awk -v count="$count" '{ printf "%d\n", $1 * 1000000000 / count }' "$work/best"
}

# The nanoseconds that a filter, or a condition in front of an empty block, takes on an event of a file, in batches.
event_time() {
    events=$(wc -l <"$1")
    for run in 1 2 3 4 5 6 7; do
        for what in copies "$2"; do
            start=$(date +%s%N)
            "$filters" "$what" "$1" 40 125 >"$work/output"
            [ "$what" = copies ] && name=copies || name=work
            echo "$name" $(($(date +%s%N) - start))
        done
    done | awk -v events=$((40 * events)) '
        $1 == "copies" && (!copies || $2 < copies) { copies = $2 }
        $1 == "work" && (!work || $2 < work) { work = $2 }
        END { printf "%d\n", (work - copies) / events }'
}

# The program with a configuration, and a data folder that wasn't there before.
words() {
    rm -rf "$work/pipeline"
    run_words=("$logstash" -w 1 --path.data "$work/pipeline" -e "$1")
}

# The least memory that three runs of a configuration over some lines hold, in KiB.
least_memory() {
    for run in 1 2 3; do
        words "$2"
        /usr/bin/time -f %M -o "$work/held" "${run_words[@]}" <"$1" >"$work/output"
        cat "$work/held"
    done | sort -n | head -n 1
}

# The nanoseconds that the rows of a hundred thousand lines take to be written as JSON, for a line each.
write_time() {
    words "$1"
    "${run_words[@]}" <"$work/few" >"$work/rows"
    once=$(least_time "$parts" json write 1 "$work/rows")
    many=$(least_time "$parts" json write 11 "$work/rows")
    echo $(((many - once) / 10 / $(wc -l <"$work/few")))
}

same_rows() {
    words "$2"
    "${run_words[@]}" <"$work/first" >"$work/wanted"
    awk -f "$work/$1.awk" "$work/first" | cmp - "$work/wanted" || failed=1
    perl "$work/peer.pl" "$1" "$work/first" "$root/bench/access_log.regex" | cmp - "$work/wanted" || failed=1
    python3 "$work/peer.py" "$1" "$work/first" "$root/bench/access_log.regex" | cmp - "$work/wanted" || failed=1
}

# Runs a configuration of a kind of lines, whose filters and conditions take so many nanoseconds of a line.
whole() {
    kind=$1
    config=$(configuration "$2" stdout)
    head -n 1000 "$work/$kind" >"$work/first"
    head -n 100000 "$work/$kind" >"$work/few"
    echo "$kind:"
    same_rows "$kind" "$config"
    words "$config"
    told_run "$kind" logstash "${run_words[@]}"
    run=$(of_line)
    memory=$(least_memory "$work/$kind" "$config")
    told_run "$kind" awk awk -f "$work/$kind.awk"
    told_run "$kind" perl perl "$work/peer.pl" "$kind" "$work/$kind" "$root/bench/access_log.regex"
    told_run "$kind" python3 python3 "$work/peer.py" "$kind" "$work/$kind" "$root/bench/access_log.regex"
    words "$(configuration "" sink)"
    best_run "$work/$kind" "${run_words[@]}"
    reading=$(of_line)
    writing=$(write_time "$config")
    sum=$((reading + $3 + writing))
    echo "  a line: $run ns; the sum of reading $reading, filters $3 and writing $writing ns: $sum ns"
    few=$(least_memory "$work/few" "$config")
    echo "  memory: $few KiB for 100,000 lines, $memory KiB for $count"
    if [ $((10 * run)) -gt $((13 * sum)) ] || [ $((10 * memory)) -gt $((11 * few)) ]; then
        echo "  more than 1.3 times the sum, or memory that grows"
        failed=1
    fi
}

failed=0
whole access "$access_filters" "$(event_time "$work/access.events" "$access_filters")"

# The events that meet the condition are those that kv has read.
# The run ends at status 6 where head has read enough.
words "$(configuration "$pairs_filters" stdout)"
"${run_words[@]}" <"$work/pairs" 2>/dev/null | head -n 4000 >"$work/read.events" || true
kv=$(event_time "$work/pairs.events" "$pairs_filters")
condition=$(event_time "$work/read.events" 'if [level] == "debug" { }')
whole pairs "$pairs_filters if [level] == \"debug\" { drop { } }" $((kv + condition))

words "$(configuration "$objects_filters" stdout)"
"${run_words[@]}" <"$work/objects" 2>/dev/null | head -n 4000 >"$work/read.events" || true
json=$(event_time "$work/objects.events" "$objects_filters")
mutate=$(event_time "$work/read.events" "$changes")
whole objects "$objects_filters $changes" $((json + mutate))

exit "$failed"
