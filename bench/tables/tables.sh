#!/bin/bash
# Counts with callgrind the instructions for reading tables of 100, 1,000, 10,000 and 20,000 lines, less what an empty table takes, and
# times them with starting the program: either grows with the lines where the figures stay alike.
#   bench/tables/tables.sh     RUNS (5): timings of each, of which the best counts
# PROGRAM is the program (build/braildesk).
set -eu
cd "$(dirname "$0")/../.."
program=${PROGRAM:-build/braildesk} runs=${RUNS:-5}
[ -x "$program" ] || { echo "$program is missing: make builds it" >&2; exit 1; }
command -v valgrind > /dev/null || { echo 'valgrind is missing: install it, as by apt-get install valgrind' >&2; exit 1; }
scratch=$(mktemp -d); trap 'rm -rf "$scratch"' EXIT

# each line defines another character, from U+4E00 on, by one to four cells
table() { # LINES
    python3 -c '
import sys
for n in range(int(sys.argv[1])):
    print("letter %s %s" % (chr(0x4E00 + n), "-".join(["1245", "36", "2", "1234568"][:1 + n % 4])))' "$1"
}
instructions() { # TABLE
    valgrind --tool=callgrind --callgrind-out-file=/dev/null "$program" translate "$1" < /dev/null 2>&1 > /dev/null |
        sed -n 's/.*refs: *//p' | tr -d ,
}
: > "$scratch/empty.utb"
empty=$(instructions "$scratch/empty.utb")
TIMEFORMAT='%U %S'
for lines in 100 1000 10000 20000; do
    table "$lines" > "$scratch/table.utb"
    best=
    for ((k = 0; k < runs; k++)); do
        { time for ((i = 0; i < 10; i++)); do "$program" translate "$scratch/table.utb" < /dev/null; done; } 2> "$scratch/time"
        now=$(awk '{ printf "%d", 100000 * ($1 + $2) }' "$scratch/time")
        [ "${best:-$now}" -lt "$now" ] || best=$now
    done
    awk -v n="$lines" -v s="$best" -v count="$(($(instructions "$scratch/table.utb") - empty))" \
        'BEGIN { printf "%6d lines: %6.0f instructions a line, %8.1f ms, %6.2f microseconds a line\n", n, count / n, s / 1000, s / n }'
done
