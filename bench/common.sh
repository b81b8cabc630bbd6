# What the scripts of this folder time with, to be read by `.`. Sets `root` to the repository's folder and
# `work` to a folder that is removed at the end.
set -eu

root=$(cd "$(dirname "$0")/.." && pwd)
work=$(mktemp -d)
trap 'rm -rf "$work"' EXIT

# Proves and builds the program that makes the calls (bench_parts, where none is named), and sets `program` to its path.
# It is run once, with the words behind its name.
build() {
    name=${1:-bench_parts}
    (cd "$root/crates/$name" && rt run -- "${@:2}") >"$work/build.log" 2>&1 || {
        tail -n 5 "$work/build.log"
        exit 1
    }
    program=$root/crates/$name/out/$name
}

# The least time of five runs of a command, in nanoseconds. Its output stands in $work/output.
least_time() {
    least=
    for run in 1 2 3 4 5; do
        start=$(date +%s%N)
        "$@" >"$work/output"
        time=$(($(date +%s%N) - start))
        if [ -z "$least" ] || [ "$time" -lt "$least" ]; then
            least=$time
        fi
    done
    echo "$least"
}

# The time of one round of a command, in nanoseconds. The command takes a number of rounds as its last word; the
# time of few is taken from that of many, so that the start doesn't count.
round_time() {
    rounds=$1
    shift
    few=$(least_time "$@" "$rounds")
    many=$(least_time "$@" $((rounds * 201)))
    echo $(((many - few) / (rounds * 200)))
}

# Runs a command three times with a file as its input. The row of the fastest run (seconds, seconds of
# the processor in user and in system mode, KiB that it held at most) stands in $work/best, its output in
# $work/output. Before each run $work/pipeline is removed, the data folder of a program of pipelines. A run that
# fails ends the script. Needs GNU time.
best_run() {
    local input=$1 run
    shift
    : >"$work/times"
    for run in 1 2 3; do
        rm -rf "$work/pipeline"
        /usr/bin/time -f '%e %U %S %M' -o "$work/row" "$@" <"$input" >"$work/output"
        cat "$work/row" >>"$work/times"
    done
    sort -n "$work/times" | head -n 1 >"$work/best"
}
