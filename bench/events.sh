#!/usr/bin/env bash
# How long do calls on an event of thirty fields take? Runs the program bench_parts on few and on many
# rounds; the difference of the two times is that of the calls, without the start. The least of five
# runs counts. A round of get, put or take is one call for each field (a take with the put that puts
# back what was taken), a round of copy is one copy of the event.
. "$(dirname "$0")/common.sh"

build

measure() {
    echo "$1 $(($(round_time 100 "$program" events "$1") / $2)) ns $3"
}

measure get 30 "a call"
measure put 30 "a call, with the text that is put"
measure take 30 "a call, with the put that puts it back"
measure copy 1 "an event"
