#!/bin/bash
# Times putting 100, 1,000 and 10,000 paragraphs into a new book's file, a hundred to a transaction, and reading them again, beside a C
# program over SQLite's library (bench/rows/rows.c) and beside the sqlite3 shell with the values as parameters (.param), with the same
# statements and transactions, the journal in mode WAL and synchronous FULL, which is what the rows' file has. A put is timed as a whole
# process, with opening and closing the file; a reading by what a process takes longer that reads the file 21 times than one that does
# so once. Instructions are counted by callgrind.
#   bench/rows/rows.sh     RUNS (5): timings of each, of which the best counts
# PROGRAM is the program where it is built already.
set -eu
cd "$(dirname "$0")/../.."
runs=${RUNS:-5}
for tool in sqlite3 valgrind cc; do
    command -v "$tool" > /dev/null || { echo "$tool is missing: install it" >&2; exit 1; }
done
scratch=$(mktemp -d); trap 'rm -rf "$scratch"' EXIT

program=${PROGRAM:-$(bench/build.sh rows put "$scratch/first.db" 1)}
"$program" put "$scratch/schema.db" 1
sqlite3 "$scratch/schema.db" .schema > "$scratch/schema"
cc -O2 -o "$scratch/rows" bench/rows/rows.c -lsqlite3

upsert='INSERT INTO para VALUES (?1, ?2, ?3, ?4, ?5, ?6, ?7, ?8) ON CONFLICT (id) DO UPDATE SET place = excluded.place, tab = excluded.tab, original = excluded.original, print = excluded.print, style = excluded.style, volume = excluded.volume, struck = excluded.struck;'
# the puts as lines for the shell, with their values as parameters
shell_lines() { # COUNT
    awk -v count="$1" -v upsert="$upsert" 'BEGIN {
        print ".param init"
        for (id = 1; id <= count; id++) {
            if (id % 100 == 1) print "BEGIN;"
            text = "Paragraph " id ". It was the best of times, it was the worst of times, it was the age of wisdom."
            printf ".param set ?1 %d\n.param set ?2 %d\n", id, id
            printf ".param set ?3 \"\047en\047\"\n.param set ?4 \"\047%s\047\"\n.param set ?5 \"\047%s\047\"\n", text, text
            printf ".param set ?6 0\n.param set ?7 0\n.param set ?8 0\n%s\n", upsert
            if (id % 100 == 0 || id == count) print "COMMIT;"
        } }'
}
new() { rm -f "$scratch"/put.db*; sqlite3 "$scratch/put.db" < "$scratch/schema"; }
none() { rm -f "$scratch"/put.db*; }
select='SELECT id, place, tab, original, print, style, volume, struck FROM para ORDER BY id;'
here_read() { "$program" read "$scratch/put.db" "$1"; } # TIMES
c_read() { "$scratch/rows" read "$scratch/put.db" "$1"; }
shell_read() {
    local k
    for ((k = 0; k < $1; k++)); do echo "$select"; done |
        sqlite3 -batch -bail -init /dev/null "$scratch/put.db"
}
shell_put() {
    sqlite3 -batch -bail -init /dev/null -cmd 'PRAGMA journal_mode = WAL' -cmd 'PRAGMA synchronous = FULL' "$scratch/put.db" < "$scratch/lines"
}

TIMEFORMAT='%R'
best_of() { # BEFORE COMMAND..: the best of the timings by the clock, in seconds; BEFORE runs before each
    local before=$1 k
    shift
    for ((k = 0; k < runs; k++)); do
        $before
        { time "$@" > "$scratch/out"; } 2> "$scratch/time"
        tail -n 1 "$scratch/time"
    done | sort -g | head -n 1
}
instructions() { valgrind --tool=callgrind --callgrind-out-file=/dev/null "$@" 2>&1 > "$scratch/out" | sed -n 's/.*Collected : //p'; }
rows_a_second() { awk -v n="$1" -v s="$2" 'BEGIN { printf "%8.0f", n / s }'; }

for count in 100 1000 10000; do
    shell_lines "$count" > "$scratch/lines"
    ours=$(best_of none "$program" put "$scratch/put.db" "$count")
    shell=$(best_of new shell_put)
    theirs=$(best_of new "$scratch/rows" put "$scratch/put.db" "$count")
    echo "put  $count: $(rows_a_second "$count" "$ours") rows a second here, $(rows_a_second "$count" "$theirs") in C," \
        "$(rows_a_second "$count" "$shell") by the shell"
    [ "$("$scratch/rows" read "$scratch/put.db" 1)" = "$count" ] || { echo 'rows are missing' >&2; exit 1; }
    [ "$("$program" read "$scratch/put.db" 1)" = "$count" ] || { echo 'rows are missing' >&2; exit 1; }
    for read in here_read c_read shell_read; do
        once=$(best_of true "$read" 1)
        often=$(best_of true "$read" 21)
        awk -v n="$count" -v once="$once" -v often="$often" 'BEGIN { printf "%.0f\n", (often > once) ? 20 * n / (often - once) : 0 }'
    done > "$scratch/reads"
    here=$((($(instructions "$program" read "$scratch/put.db" 21) - $(instructions "$program" read "$scratch/put.db" 1)) / (20 * count)))
    there=$((($(instructions "$scratch/rows" read "$scratch/put.db" 21) - $(instructions "$scratch/rows" read "$scratch/put.db" 1)) / (20 * count)))
    echo "read $count: $(sed -n 1p "$scratch/reads") rows a second here, $(sed -n 2p "$scratch/reads") in C," \
        "$(sed -n 3p "$scratch/reads") by the shell;" \
        "$here and $there instructions a row"
done
