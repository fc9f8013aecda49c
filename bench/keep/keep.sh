#!/bin/bash
# Counts how many commands a second are kept durably in books of 10, 100, 1,000 and 10,000 paragraphs, typing at the end, correcting
# and marking, beside a C program over SQLite's library (bench/keep/keep.c) that writes the same rows in the same transactions, the
# journal in mode WAL with synchronous FULL. The two take turns on one disk. Where strace is installed, the syncs of a command are counted.
# Then the opening of the largest book is timed, which reads all rows and validates them with their braille, beside the C program that
# reads the same rows and, where liblouis is installed, lou_translate over the same prints.
#   bench/keep/keep.sh     RUNS (3): timings of each, of which the best counts; TIMES (200): commands of each kind; COUNTS: sizes of
#                          books; FOLDER: where the files are, on the disk that is meant
# PROGRAM is the program where it is built already.
set -eu
cd "$(dirname "$0")/../.."
runs=${RUNS:-3} times=${TIMES:-200} counts=${COUNTS:-10 100 1000 10000}
for tool in sqlite3 cc; do
    command -v "$tool" > /dev/null || { echo "$tool is missing: install it" >&2; exit 1; }
done
scratch=$(mktemp -d ${FOLDER:+-p "$FOLDER"}); trap 'rm -rf "$scratch"' EXIT

program=${PROGRAM:-$(bench/build.sh keep "$scratch/first.db" 1 1)}
"$program" "$scratch/schema.db" 1 1 > /dev/null
sqlite3 "$scratch/schema.db" .schema > "$scratch/schema"
cc -O2 -o "$scratch/keep" bench/keep/keep.c -lsqlite3

# Files of a new book: for the program here none, and for the C program one with the rows that a new book has.
new() { rm -f "$scratch"/*.db*; sqlite3 "$scratch/c.db" < "$scratch/schema"; sqlite3 "$scratch/c.db" 'INSERT INTO book VALUES (1, 2, 0)'; }
# how many rows a table has, and how many bytes
rows_of() { # FILE TABLE
    case $2 in
        para) sum='length(original) + length(print)' ;;
        corr2) sum='length(body) + length(who) + start + len' ;;
        mark) sum='length(note) + start + stop' ;;
        cache) sum='length(cells)' ;;
    esac
    sqlite3 "$scratch/$1" "SELECT count(*), sum($sum) FROM $2"
}
best() { sort -g | head -n 1; } # the best of the timings
per_second() { awk -v n="$times" -v micros="$1" 'BEGIN { printf "%d", micros ? n * 1e6 / micros : 0 }'; }

for count in $counts; do
    : > "$scratch/here"; : > "$scratch/there"
    for ((k = 0; k < runs; k++)); do
        new
        "$program" "$scratch/here.db" "$count" "$times" >> "$scratch/here"
        "$scratch/keep" "$scratch/c.db" "$count" "$times" >> "$scratch/there"
    done
    for kind in type correct mark; do
        here=$(sed -n "s/^$kind //p" "$scratch/here" | best) there=$(sed -n "s/^$kind //p" "$scratch/there" | best)
        printf '%-8s %6d paragraphs: %6d commands a second here, %6d in C\n' "$kind" "$count" "$(per_second "$here")" "$(per_second "$there")"
    done
    for table in para corr2 mark cache; do
        [ "$(rows_of here.db $table)" = "$(rows_of c.db $table)" ] || { echo "the rows of $table differ" >&2; exit 1; }
    done
done

# the last book, opened
for ((k = 0; k < runs; k++)); do "$program" open "$scratch/here.db" | sed -n 's/^open //p'; done | best > "$scratch/open"
for ((k = 0; k < runs; k++)); do "$scratch/keep" read "$scratch/here.db" | sed -n 's/^read //p'; done | best > "$scratch/read"
echo "opening the last book: $(($(< "$scratch/open") / 1000)) ms here; reading its rows in C: $(($(< "$scratch/read") / 1000)) ms"
if command -v lou_translate > /dev/null; then
    sqlite3 "$scratch/here.db" 'SELECT print FROM para ORDER BY id' > "$scratch/prints"
    TIMEFORMAT=%R
    for ((k = 0; k < runs; k++)); do
        { time lou_translate --forward en-ueb-g1.ctb < "$scratch/prints" > "$scratch/cells"; } 2>&1
    done | best > "$scratch/louis"
    echo "lou_translate over its prints, with starting and reading its table: $(< "$scratch/louis") s"
else
    echo 'no lou_translate: the translation of the prints is not timed'
fi

command -v strace > /dev/null || { echo 'no strace: syncs are not counted'; exit 0; }
syncs() { # COMMAND..
    strace -f -c -e trace=fsync,fdatasync,sync_file_range,msync -o "$scratch/calls" "$@" > /dev/null
    awk '$NF ~ /sync/ { calls += $4 } END { print calls + 0 }' "$scratch/calls"
}
each() { # WHO PROGRAM FILE
    new; local none; none=$(syncs "$2" "$scratch/$3" 10 0)
    new; local all; all=$(syncs "$2" "$scratch/$3" 10 "$times")
    awk -v who="$1" -v none="$none" -v all="$all" -v commands=$((3 * times)) \
        'BEGIN { printf "%.3f syncs a command %s\n", (all - none) / commands, who }'
}
each here "$program" here.db
each 'in C' "$scratch/keep" c.db
