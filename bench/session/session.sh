#!/bin/bash
# Times sessions of the program over books of 10, 100, 1,000 and 10,000 paragraphs: typing the paragraphs, and 10,000
# corrections of the first two characters of one after the other, all replies read, beside a C program over SQLite's library
# that puts the same rows with one transaction a command (bench/session/session.c), the journal in mode WAL and synchronous FULL,
# which is what a book's file has. Each is timed as a whole process, with opening the file. The rows of both files have to be
# the same in the end.
#   bench/session/session.sh     RUNS (3): timings of each, of which the best counts; FOLDER: where the files are, since on a slow disk
#                        nothing but its syncs shows; SIZES; COUNT: how many corrections
# PROGRAM is the program (build/braildesk).
set -eu
cd "$(dirname "$0")/../.."
runs=${RUNS:-3} count=${COUNT:-10000}
for tool in sqlite3 cc; do
    command -v "$tool" > /dev/null || { echo "$tool is missing: install it" >&2; exit 1; }
done
scratch=$(mktemp -d ${FOLDER:+-p "$FOLDER"}); trap 'rm -rf "$scratch"' EXIT

program=${PROGRAM:-build/braildesk}
[ -x "$program" ] || { echo "$program is missing: make builds it" >&2; exit 1; }
cc -O2 -o "$scratch/session" bench/session/session.c -lsqlite3

typed() { # SIZE: the requests that type so many paragraphs
    echo 'supply en'
    awk -v size="$1" 'BEGIN {
        for (id = 1; id <= size; id++) {
            digits = sprintf("%06d", id); letters = ""
            for (at = 1; at <= 6; at++) letters = letters substr("abcdefghij", substr(digits, at, 1) + 1, 1)
            print "type end en paragraph " letters " it was the best of times it was the worst of times it was the age"
        } }'
}
corrected() { # SIZE
    awk -v size="$1" -v count="$count" 'BEGIN {
        for (at = 0; at < count; at++)
            print "correct " at % size + 1 " 0 2 " substr("abcdefghijklmnopqrstuvwxyz", (int(at / size) + 1) % 26 + 1, 1) "z"
    }'
}
ours() { # FILE REQUESTS WANTED: a session that has to accept so many commands
    "$program" session "$1" < "$2" > "$scratch/replies"
    [ "$(grep -c '^ok ' "$scratch/replies")" = "$3" ] || { echo 'a command is refused' >&2; exit 1; }
}
TIMEFORMAT='%R'
timed() { { time "$@"; } 2> "$scratch/time"; tail -n 1 "$scratch/time"; }
best() { sort -g "$1" | head -n 1; }
# but for the supplied table, which the C program doesn't know
rows() { sqlite3 -batch -init /dev/null "$1" 'SELECT * FROM book; SELECT * FROM para; SELECT * FROM corr2; SELECT para, hex(cells) FROM cache'; }
told() { # WHAT SIZE COUNT OURS THEIRS
    awk -v what="$1" -v size="$2" -v n="$3" -v a="$4" -v b="$5" \
        'BEGIN { printf "%-11s %6d paragraphs: %7.0f commands a second here, %7.0f in C, %.2f\n", what, size, n / a, n / b, b / a }'
}

for size in ${SIZES:-10 100 1000 10000}; do
    typed "$size" > "$scratch/typed"
    corrected "$size" > "$scratch/corrected"
    rm -f "$scratch"/time.*
    for ((k = 0; k < runs; k++)); do
        rm -f "$scratch"/*.db*
        "$program" new "$scratch/ours.db" > /dev/null
        timed ours "$scratch/ours.db" "$scratch/typed" $((size + 1)) >> "$scratch/time.1"
        timed "$scratch/session" "$scratch/theirs.db" type "$size" 1 >> "$scratch/time.2"
        timed ours "$scratch/ours.db" "$scratch/corrected" "$count" >> "$scratch/time.3"
        timed "$scratch/session" "$scratch/theirs.db" correct "$count" "$size" >> "$scratch/time.4"
    done
    [ "$(rows "$scratch/ours.db" | cksum)" = "$(rows "$scratch/theirs.db" | cksum)" ] || { echo 'the rows differ' >&2; exit 1; }
    told typed "$size" "$size" "$(best "$scratch/time.1")" "$(best "$scratch/time.2")"
    told corrections "$size" "$count" "$(best "$scratch/time.3")" "$(best "$scratch/time.4")"
done
