#!/bin/sh
# How fast is crc32? Times the program bench_parts on 1 GiB, beside a C build of the form with one table of
# bytes and beside zlib's crc32 by python3, all in the same run, and checks that they agree.
#
# Each is run from outside on a file of 64 MiB, with 1 pass over it and with 17. The difference of the two
# times is that of 16 passes, without the start and the reading of the file. The least of five runs counts.
. "$(dirname "$0")/common.sh"

build
cc -O2 -o "$work/crc_bytes" "$root/bench/crc_bytes.c"
python3 -c '
import random, sys
sys.stdout.buffer.write(random.Random(1).randbytes(64 << 20))' >"$work/input"

# Prints the speed of a command in GB/s, and what it computed.
measure() {
    name=$1
    shift
    one=$(least_time "$@" "$work/input" 1)
    many=$(least_time "$@" "$work/input" 17)
    awk -v name="$name" -v time=$((many - one)) -v sum="$(cat "$work/output")" \
        'BEGIN { printf "%-28s %6.2f GB/s   %s\n", name, 16 * 64 * 1048576 / time, sum }'
    cat "$work/output" >>"$work/sums"
}

measure "crc_frame::crc32" "$program" crc
measure "C, one table of bytes" "$work/crc_bytes"
measure "zlib by python3" python3 "$root/bench/crc_zlib.py"
if [ "$(sort -u "$work/sums" | wc -l)" -ne 1 ]; then
    echo "the sums differ"
    exit 1
fi
