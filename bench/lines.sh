#!/usr/bin/env bash
# How fast do lines become JSON lines? One million lines of 100 bytes from a file to a file, through the queue of
# bin/logstash with one worker and, in the same run, through cat, awk and python3, which have none. Prints wall and processor
# time, peak memory and lines a second. Another program, and another number of lines, may be named. Needs GNU time.
#
#     bench/lines.sh [PROGRAM [LINES]]
. "$(dirname "$0")/common.sh"

logstash=${1:-$root/bin/logstash}
count=${2:-1000000}

awk -v count="$count" 'BEGIN { line = sprintf("%099d", 0); gsub("0", "x", line); for (i = 0; i < count; i++) print line }' >"$work/lines"

cat >"$work/rows.awk" <<'AWK'
{
    gsub(/\\/, "\\\\"); gsub(/"/, "\\\"")
    printf "{\"@timestamp\":\"2024-01-01T00:00:00.000Z\",\"@version\":\"1\",\"event\":{\"original\":\"%s\"},\"message\":\"%s\"}\n", $0, $0
}
AWK
cat >"$work/rows.py" <<'PY'
import datetime, json, sys

write = sys.stdout.write
for line in sys.stdin:
    line = line.rstrip("\n")
    moment = datetime.datetime.now(datetime.timezone.utc).strftime("%Y-%m-%dT%H:%M:%S.%fZ")
    event = {"@timestamp": moment, "@version": "1", "event": {"original": line}, "message": line}
    write(json.dumps(event, separators=(",", ":"), sort_keys=True) + "\n")
PY

# Runs a command on the lines, and prints its fastest run.
measure() {
    name=$1
    shift
    best_run "$work/lines" "$@"
    if [ "$(wc -l <"$work/output")" -ne "$count" ]; then
        echo "$name wrote $(wc -l <"$work/output") lines of $count"
        exit 1
    fi
    awk -v name="$name" -v count="$count" '{
        printf "%-10s %7.2f s wall %7.2f s cpu %8d KiB %9d lines/s\n", name, $1, $2 + $3, $4, count / ($1 ? $1 : 0.01)
    }' "$work/best"
}

measure logstash "$logstash" -w 1 --path.data "$work/pipeline" -e 'input { stdin {} } output { stdout {} }'
measure cat cat
measure awk awk -f "$work/rows.awk"
measure python3 python3 "$work/rows.py"
