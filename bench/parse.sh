#!/usr/bin/env bash
# How fast does a configuration parse? Runs the program bench_parts on a configuration of a megabyte, as
# operators write them, with 1 pass and with 11; the difference of the two times is that of ten passes. The
# least of five runs counts. Prints MB/s and nanoseconds a token, for lexing alone, for parsing whole and for printing
# what was read.
. "$(dirname "$0")/common.sh"

build

awk 'BEGIN {
    print "input { beats { port => 5044 } }"
    print "filter {"
    size = 40
    for (i = 0; size < 1048000; i++) {
        text = sprintf("  # access logs of shop %d\n  if [type] == \"access%d\" and [status] >= 400 {\n    grok {\n      match => { \"message\" => \"%%{COMBINEDAPACHELOG} %%{NUMBER:took:int}\" }\n      add_tag => [ \"shop\", \"nr_%d\" ]\n      remove_field => [ \"message\" ]\n    }\n  } else if [path] =~ /^\\/admin\\/%d/ or \"debug\" in [tags] {\n    mutate { add_field => { \"[@metadata][index]\" => \"admin-%d\" } }\n  } else {\n    drop { percentage => 12.5 }\n  }\n", i, i, i, i, i)
        size += length(text)
        if (size < 1048000) printf "%s", text
    }
    print "}"
    print "output { stdout { codec => json_lines } }"
}' >"$work/config"

size=$(wc -c <"$work/config")
tokens=$("$program" parse lex 1 "$work/config")
for call in lex parse print; do
    one=$(least_time "$program" parse "$call" 1 "$work/config")
    many=$(least_time "$program" parse "$call" 11 "$work/config")
    awk -v call="$call" -v time=$((many - one)) -v size="$size" -v tokens="$tokens" 'BEGIN {
        printf "%-6s %d bytes, %d tokens: %6.1f ms  %6.1f MB/s  %5.1f ns a token\n",
            call, size, tokens, time / 1e7, size * 1e4 / time, time / 10 / tokens
    }'
done
