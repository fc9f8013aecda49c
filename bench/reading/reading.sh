#!/bin/bash
# Counts with callgrind the instructions for reading a table with and without making the index of its rules, and letting all of it go: the
# difference of once and not at all, so that starting and taking the bytes from the file are left out.
#   bench/reading/reading.sh [TABLE..]     the tables; without one: sample/plain.utb, which has no rules, bench/contracted.utb, and one
#                                          of 20,000 lines, 19,943 of them rules (bench/table.sh)
# PROGRAM is the program where it is built already.
set -eu
cd "$(dirname "$0")/../.."
command -v valgrind > /dev/null || { echo 'valgrind is missing: install it, as by apt-get install valgrind' >&2; exit 1; }
scratch=$(mktemp -d); trap 'rm -rf "$scratch"' EXIT
program=${PROGRAM:-$(bench/build.sh reading index bench/contracted.utb 1)}
tables=("$@")
if [ ${#tables[@]} -eq 0 ]; then
    bench/table.sh many > "$scratch/many.utb"
    tables=(sample/plain.utb bench/contracted.utb "$scratch/many.utb")
fi
instructions() { # WHAT TABLE TIMES
    valgrind --tool=callgrind --callgrind-out-file=/dev/null "$program" "$1" "$2" "$3" 2>&1 > /dev/null |
        sed -n 's/.*refs: *//p' | tr -d ,
}
for table in "${tables[@]}"; do
    awk -v name="${table##*/}" -v lines="$(wc -l < "$table")" \
        -v started="$(instructions read "$table" 0)" -v alone="$(instructions read "$table" 1)" \
        -v both="$(instructions index "$table" 1)" 'BEGIN {
            alone -= started; both -= started
            printf "%-16s %6d lines: %11.0f instructions without an index, %11.0f with it, %.2f times\n", name, lines, alone, both, both / alone }'
done
