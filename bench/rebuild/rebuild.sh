#!/bin/bash
# Counts with callgrind the instructions for making a book of the rows of 10,000 paragraphs of 106 characters, with the braille that the
# rows have and without it, beside those for translating the prints, with @en and with bench/contracted.utb: the difference to a run that
# makes the rows and lets them go, so that starting and the rows themselves are left out.
#   bench/rebuild/rebuild.sh [COUNT]     how many paragraphs (10000)
# PROGRAM is the program where it is built already.
set -eu
cd "$(dirname "$0")/../.."
command -v valgrind > /dev/null || { echo 'valgrind is missing: install it, as by apt-get install valgrind' >&2; exit 1; }
count=${1:-10000}
program=${PROGRAM:-$(bench/build.sh rebuild rows @en 1)}
instructions() { # WHAT TABLE
    valgrind --tool=callgrind --callgrind-out-file=/dev/null "$program" "$1" "$2" "$count" 2>&1 > /dev/null |
        sed -n 's/.*refs: *//p' | tr -d ,
}
for table in @en bench/contracted.utb; do
    for what in rebuild unread translate; do
        [ "$("$program" "$what" "$table" "$count")" = true ] || { echo "$what fails with $table" >&2; exit 1; }
    done
    awk -v name="${table##*/}" -v count="$count" -v rows="$(instructions rows "$table")" -v rebuilt="$(instructions rebuild "$table")" \
        -v unread="$(instructions unread "$table")" -v translated="$(instructions translate "$table")" 'BEGIN {
            rebuilt -= rows; unread -= rows; translated -= rows
            printf "%-16s %d paragraphs: %.0f instructions a paragraph to make the book, %.0f without its braille, %.0f to translate; %.2f and %.2f times\n",
                name, count, rebuilt / count, unread / count, translated / count, rebuilt / translated, unread / translated }'
done
