#!/usr/bin/env bash
# Does the time of what can be large grow as its size does? Each case is timed at a size and at four times that size:
# the ratio is near 4 where it does, and near 16 where it grows with the square. The least of five runs counts, with
# the start taken off. The larger size of a case is near the limit of a megabyte.
. "$(dirname "$0")/common.sh"

build

start=$(least_time "$program" crc "$0" 1)

# A hash of so many keys, a plugin of so many settings, and so many hashes joined into one setting.
keys() {
    awk -v n="$1" 'BEGIN { printf "filter{x{a=>{"; for (i = 0; i < n; i++) printf "k%d=>1 ", i; print "}}}" }'
}
settings() {
    awk -v n="$1" 'BEGIN { printf "filter{x{"; for (i = 0; i < n; i++) printf "k%d=>1 ", i; print "}}" }'
}
hashes() {
    awk -v n="$1" 'BEGIN { printf "filter{x{"; for (i = 0; i < n; i++) printf "a=>{k%d=>1}", i; print "}}" }'
}

# An object whose keys fall, and one whose keys rise; and openings of a template that nothing closes.
falling() {
    awk -v n="$1" 'BEGIN { printf "{"; for (i = n; i > 0; i--) printf "%s\"k%07d\":1", (i < n ? "," : ""), i; print "}" }'
}
rising() {
    awk -v n="$1" 'BEGIN { printf "{"; for (i = 0; i < n; i++) printf "%s\"k%07d\":1", (i > 0 ? "," : ""), i; print "}" }'
}
openings() {
    awk -v n="$1" 'BEGIN { for (i = 0; i < n; i++) printf "%%{x" }'
}

# The time of the program on a case of a size, in microseconds.
time_of() {
    name=$1
    count=$2
    shift 2
    "$name" "$count" >"$work/$name"
    echo $((($(least_time "$program" "$@" "$work/$name") - start) / 1000))
}

measure() {
    name=$1
    count=$2
    shift 2
    small=$(time_of "$name" "$count" "$@")
    large=$(time_of "$name" $((count * 4)) "$@")
    awk -v name="$name" -v count="$count" -v small="$small" -v large="$large" 'BEGIN {
        printf "%-9s %6d: %8.1f ms  %6d: %8.1f ms  ratio %.1f\n", name, count, small / 1000, count * 4, large / 1000, large / small
    }'
}

measure keys 23000 parse parse 1
measure settings 23000 parse parse 1
measure hashes 18000 parse parse 1
measure falling 20000 json read 1
measure rising 20000 json read 1
measure openings 10000 templates 1
