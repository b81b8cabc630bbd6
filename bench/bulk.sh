#!/usr/bin/env bash
# What does the bulk output cost? 100,000 events of 300 bytes are delivered in batches of 125 to a peer in memory, which answers
# each request with a reply that takes all of them, by the program bulk_tests: once with the shortest reply there is, and once with one as
# Elasticsearch writes it. Beside it `write_json` of the same events. The least of five runs each counts. It fails where the first
# takes more than 1.3 times what `write_json` takes.
. "$(dirname "$0")/common.sh"

each=125
build bulk_tests "$work/none" "$work/none" 0
message=$(printf 'GET /index/%s HTTP/1.1 ' $(seq 10 18))
for number in $(seq $((each))); do
    printf '17000%05d@{"host":{"name":"web"},"message":"%s","path":"/var/log/access.log"}\n' "$number" "$message"
done >"$work/events"
short='{"index":{"status":201}}'
long='{"index":{"_index":"ecs-logstash-2024.02.29","_id":"q3Zb8Y0BzQp7gq9mT1kZ","_version":1,"result":"created","_shards":{"total":2,"successful":1,"failed":0},"_seq_no":1234567,"_primary_term":1,"status":201}}'

# A reply with this item for each event.
reply() {
    items=$(yes "$1" | head -n $each | paste -sd,)
    body="{\"took\":30,\"errors\":false,\"items\":[$items]}"
    printf 'HTTP/1.1 200 OK\r\nContent-Type: application/json\r\nContent-Length: %d\r\n\r\n%s' ${#body} "$body"
}

reply "$short" >"$work/short"
reply "$long" >"$work/long"
bytes=$(($("$program" "$work/events" json 1) / each))
written=$(($(round_time 16 "$program" "$work/events" json) / each))
shortest=$(($(round_time 16 "$program" "$work/events" "$work/short") / each))
usual=$(($(round_time 16 "$program" "$work/events" "$work/long") / each))
echo "events of $bytes bytes, in batches of $each: $shortest ns an event with the shortest reply, $usual ns with a usual one; write_json $written ns"
if [ $((10 * shortest)) -gt $((13 * written)) ]; then
    echo "the bulk output takes more than 1.3 times what write_json takes"
    exit 1
fi
