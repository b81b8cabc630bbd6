#!/usr/bin/env bash
# Runs the program over the tables of configurations on a stack of 512 KiB: among them are rows of 170,000 joints, which are
# read, printed, copied, evaluated and dropped. Prints what isn't as it should be. It takes another build of config_tests than that of the gate,
# where one is named by its whole path.
set -u
cd "$(dirname "$0")/.." || exit 1
crate=$PWD/crates/config_tests
program=${1:-$crate/out/config_tests}
if [ ! -x "$program" ]; then
    echo "stack: $program isn't built"
    exit 1
fi
found=$(mktemp) || exit 1
trap 'rm -f "$found"' EXIT
(ulimit -s 512 && cd "$crate/data" && "$program") >"$found"
status=$?
if [ "$status" -ne 0 ]; then
    echo "stack: config_tests ends with status $status on a stack of 512 KiB"
    exit 1
fi
cmp "$found" "$crate/stdout"
