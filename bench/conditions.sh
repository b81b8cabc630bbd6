#!/usr/bin/env bash
# How long does it take to evaluate a condition of ten parts on an event of thirty fields? Runs the
# program bench_parts on few and on many rounds; the difference of the two times is that of the
# evaluations, without the start. The least of five runs counts. Each condition is Yes, and all of its
# parts are evaluated. The event's fields with even numbers are texts, the others numbers.
. "$(dirname "$0")/common.sh"

build

measure() {
    echo "$1: $(round_time 1000 "$program" conditions "$2") ns an evaluation"
}

text='"a value of some bytes"'
measure "ten comparisons" "[field00] == $text and [field02] != 'another' and [field01] > 0
    and [field03] >= 3 and [field05] < 5.5 and [field04] >= 'a' and [field07] in [5, 6, 7]
    and 'some' in [field06] and [missing] not in [1, 2] and [field08]"
measure "eight comparisons and two patterns" "[field00] == $text and [field02] =~ /^a value/
    and [field01] > 0 and [field03] >= 3 and [field05] < 5.5 and [field04] >= 'a'
    and [field07] in [5, 6, 7] and [field06] !~ /^no/ and [missing] not in [1, 2] and [field08]"
