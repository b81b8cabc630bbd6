#!/usr/bin/env bash
# How fast is a pattern? Searches 100,000 lines of an access log with the pattern of such lines
# (bench/access_log.regex) through the program bench_parts and, in the same run, through python3's re
# and perl, and checks that they find the same. Then it makes, searches and drops 20,000
# patterns. Prints wall and processor time and peak memory of the fastest of three runs. Needs GNU time.
. "$(dirname "$0")/common.sh"
pattern=$root/bench/access_log.regex

build

awk 'BEGIN {
    for (i = 0; i < 100000; i++)
        printf "10.%d.%d.%d - user%d [%02d/Mar/2024:%02d:%02d:%02d +0000] \"GET /shop/item/%d?page=%d HTTP/1.1\" 200 %d \"https://example.org/list/%d\" \"Mozilla/5.0 (X11; Linux x86_64) Firefox/%d.0\"\n",
            i % 256, i % 199, i % 251, i % 1000, i % 28 + 1, i % 24, i % 60, i % 59, i, i % 9, i % 50000, i, i % 120
}' >"$work/lines"

cat >"$work/search.py" <<'PY'
import re, sys

pattern = re.compile(open(sys.argv[1]).read().rstrip("\n"))
found = 0
for line in open(sys.argv[2]):
    match = pattern.search(line.rstrip("\n"))
    if match:
        found += 1 + sum(group is not None for group in match.groups())
print(found)
PY
cat >"$work/search.pl" <<'PERL'
use strict;
use warnings;

open(my $file, '<', $ARGV[0]) or die;
chomp(my $text = <$file>);
my $pattern = qr/$text/;
open(my $lines, '<', $ARGV[1]) or die;
my $found = 0;
while (my $line = <$lines>) {
    chomp $line;
    if ($line =~ $pattern) {
        $found += grep { defined } @-;
    }
}
print "$found\n";
PERL

measure() {
    name=$1
    shift
    best_run /dev/null "$@"
    awk -v name="$name" -v found="$(cat "$work/output")" '{
        printf "%-28s %7.2f s wall %7.2f s cpu %8d KiB   found %d\n", name, $1, $2 + $3, $4, found
    }' "$work/best"
}

# Searches the lines, and keeps what was found.
search() {
    measure "$@" "$pattern" "$work/lines"
    cat "$work/output" >>"$work/all_found"
}

search "pattern_box" "$program" patterns search
search "python3, re" python3 "$work/search.py"
search "perl" perl "$work/search.pl"
if [ "$(sort -u "$work/all_found" | wc -l)" -ne 1 ]; then
    echo "the searches differ"
    exit 1
fi
measure "20,000 patterns" "$program" patterns make "$pattern" 20000
