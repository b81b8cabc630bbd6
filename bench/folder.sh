#!/usr/bin/env bash
# What does it cost a FileStore to open a folder of 1,000 files? It lists the folder, and opens and syncs each file
# before it is first relied on. The program io_tests makes the calls on files of 4 KiB: where all is at rest, and right
# after the files were written, the least of five runs each. The time of a run without calls is taken off. Then the
# system calls per file, where strace is there.
. "$(dirname "$0")/common.sh"

(cd "$root/crates/io_tests" && rt run <stdin) >"$work/build.log" 2>&1 || {
    tail -n 5 "$work/build.log"
    exit 1
}
program=$root/crates/io_tests/out/io_tests
data=$work/data
printf 'a list ~/main\na each ~/main 1000\n' >"$work/calls"

make_files() {
    rm -rf "$data"
    mkdir -p "$data/main"
    for number in $(seq 0 999); do
        head -c 4096 /dev/zero >"$data/main/$number"
    done
}

# The least time of five openings, in nanoseconds, of files that the first command makes.
opening() {
    least=
    for run in 1 2 3 4 5; do
        "$1"
        start=$(date +%s%N)
        "$program" "$data" <"$2" >"$work/output"
        time=$(($(date +%s%N) - start))
        if [ -z "$least" ] || [ "$time" -lt "$least" ]; then
            least=$time
        fi
    done
    echo "$least"
}

make_files
sync -f "$data"
start=$(opening true /dev/null)
rest=$(opening true "$work/calls")
grep -q ': 1000$' "$work/output"
new=$(opening make_files "$work/calls")
awk -v start="$start" -v rest="$rest" -v new="$new" 'BEGIN {
    printf "a folder of 1,000 files is opened in %.1f ms where all is at rest, ", (rest - start) / 1e6
    printf "and in %.1f ms right after they were written\n", (new - start) / 1e6
}'
command -v strace >/dev/null || { echo "strace is missing, so system calls are not counted"; exit 0; }
strace -f -c -U calls,name -o "$work/calls.txt" "$program" "$data" <"$work/calls" >"$work/output"
awk '$2 == "total" { printf "%.1f system calls per file\n", $1 / 1000 }' "$work/calls.txt"
