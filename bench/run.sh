#!/usr/bin/env bash
# Prints times, growth, stack, the screen's slowest sets, size and what the archive leans on, as a page in Markdown: docs/BENCH.md is such a page.
#   bench/run.sh > docs/BENCH.md         STAND_IN=1 measures the plain C of bench/ against itself, which shows how far the ratios can be trusted
set -eu
cd "$(dirname "$0")/.."
mkdir -p target/bench
. tests/platform.sh
build_archive target/bench
[ "$with" = "$archive" ] && with="bench/plain.c $archive"
$cc -O3 bench/bench.c $with -o target/bench/bench

cat <<PAGE
# Times, stack and size

Printed by \`bench/run.sh\`. Measured and not proved: another machine has other times. Archive and plain C (\`bench/plain.c\`, the same jobs written from document 01 and the requests,
\`gcc -O3\`) are in one program and take turns; a time is the best of 60 short rounds, so that what else the machine did in a round counts little. A ratio below 1 means
that the archive is faster.

PAGE
load=$(cut -d ' ' -f 1 /proc/loadavg)
echo "This run: x86-64, $(nproc) cores; $load programs ran on them on average in the minute before."
echo
target/bench/bench examples/flight.plan examples/case_a.plan
[ "${STAND_IN:-0}" = 1 ] && exit

cat <<PAGE

## The screen on links that are hard on it

Long chains of jobs (\`bench/slow.c\`). A set without a cycle costs its links, times the longest chain at worst. Where 64 rounds do not show
that there is no cycle, job after job is searched, each search at the cost of its jobs and links at most.

PAGE
$cc -O2 bench/slow.c bench/plain.c "$archive" -o target/bench/slow
target/bench/slow

sections=$($size -A "$archive")
# bytes PATTERN: the bytes of all sections whose name begins so.
bytes() { printf '%s\n' "$sections" | awk -v p="$1" 'index($1, p) == 1 { n += $2 } END { print n + 0 }'; }
symbols=$($nm "$archive")
names() { printf '%s\n' "$symbols" | awk -v kinds="$1" '(NF == 3 && index(kinds, $2)) || (NF == 2 && index(kinds, $1)) { print $NF }' | sort -u | paste -s -d ' '; }
or_none() { if [ -n "$1" ]; then echo "$1"; else echo none; fi; }
called=$(printf '%s\n' $(names Uw) | grep -vxF "$(printf '%s\n' $(names T))" | paste -s -d ' ')
data=$(($(bytes .data) + $(bytes .bss) + $(bytes .tdata) + $(bytes .tbss))) data_names=$(names DdBbCGgSs)
cat <<PAGE

## Size, and what the archive leans on

| of \`libflute.a\` | |
|---|---|
| code, bytes | $(bytes .text) |
| constants, bytes | $(bytes .rodata) |
| data that could be written, bytes | $data |
| names of such data | $(or_none "$data_names") |
| functions that it calls from elsewhere | $(or_none "$called") |
| functions that it has for C | $(names T | wc -w) |

PAGE
if [ "$data" = 0 ] && [ -z "$data_names" ]; then echo 'So it keeps nothing between calls.'; else echo 'SO IT KEEPS SOMETHING BETWEEN CALLS.'; fi
left=$(printf '%s\n' $called | grep -vxE 'memcpy|memset|memmove|memcmp|bcmp' | paste -s -d ' ')
if [ -z "$left" ]; then echo 'What it calls copies, fills and compares bytes: it asks for no heap.'; else echo "LOOK AT WHAT IT CALLS: $left"; fi
