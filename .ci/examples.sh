#!/usr/bin/env bash
# Runs the program on the lines of each example, each in a data folder of its own, and compares what comes out with what stands beside
# the example; and looks that no row is left in the queue, and stderr is empty. Prints what isn't as it should be. It takes another
# program than the one that the gate built, where one is named.
set -u
cd "$(dirname "$0")/.." || exit 1
program=${1:-$PWD/crates/logstash_cli/out/logstash_cli}
if [ ! -x "$program" ]; then
    echo "examples: $program isn't built"
    exit 1
fi
work=$(mktemp -d) || exit 1
trap 'rm -rf "$work"' EXIT
failed=0
for folder in examples/*/; do
    rm -rf "$work/data"
    "$program" -e "$(cat "$folder/pipeline.conf")" --path.data "$work/data" <"$folder/input" >"$work/found" 2>"$work/told"
    status=$?
    cat "$work/told"
    if [ "$status" -ne 0 ] || [ -s "$work/told" ] || ! cmp "$work/found" "$folder/output"; then
        echo "examples: $folder isn't as it should be; the program ended with status $status"
        failed=1
    fi
    left=$("$program" --pqcheck main --path.data "$work/data")
    if [ "$left" != "rows 0" ]; then
        echo "examples: $folder leaves $left in its queue"
        failed=1
    fi
done
exit "$failed"
