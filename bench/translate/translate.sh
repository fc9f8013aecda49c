#!/bin/bash
# Times `build/braildesk translate` over a corpus of English prose in ASCII (bench/lines.sh), beside `cat` over the same file, with four
# kinds of tables: definitions and signs alone, the supplied table @en, bench/contracted.utb (353 rules) and one of 20,000 lines
# (bench/table.sh); and @en over the same prose with typographic quotes and dashes. The instructions are counted by
# tests/program/instructions.sh.
#   bench/translate/translate.sh     RUNS (5): timings of each, of which the best counts; MEGABYTES (10): size of the corpus
# PROGRAM is the program (build/braildesk).
set -eu
cd "$(dirname "$0")/../.."
program=${PROGRAM:-build/braildesk} runs=${RUNS:-5} megabytes=${MEGABYTES:-10}
[ -x "$program" ] || { echo "$program is missing: make builds it" >&2; exit 1; }
scratch=$(mktemp -d); trap 'rm -rf "$scratch"' EXIT
export LC_ALL=C.UTF-8

bench/lines.sh $((megabytes * 1000000)) --ascii > "$scratch/ascii"
bench/lines.sh $((megabytes * 1000000)) > "$scratch/quotes"
bench/table.sh definitions > "$scratch/definitions.utb"
bench/table.sh many > "$scratch/many.utb"
characters() { echo $(($(wc -m < "$1") - $(wc -l < "$1"))); }

TIMEFORMAT='%U %S'
report() { # LINES COMMAND..: the best of the timings, in milliseconds of processor time, user and system
    local lines=$1 best= now k
    shift
    for ((k = 0; k < runs; k++)); do
        { time "$@" < "$scratch/$lines" > "$scratch/out"; } 2> "$scratch/time"
        now=$(awk '{ printf "%d", 1000 * ($1 + $2) }' "$scratch/time")
        [ "${best:-$now}" -lt "$now" ] || best=$now
    done
    awk -v name="${@: -1}" -v lines="$lines" -v count="$(characters "$scratch/$lines")" -v s="$best" 'BEGIN {
        sub(/.*\//, "", name)
        printf "%-16s %-6s %9d characters: %6d ms %12.0f characters/s\n", name, lines, count, s, s ? count * 1e3 / s : 0 }'
}
report ascii cat
for table in "$scratch/definitions.utb" @en bench/contracted.utb "$scratch/many.utb"; do report ascii "$program" translate "$table"; done
report quotes "$program" translate @en
