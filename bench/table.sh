#!/bin/bash
# Prints a table to measure with.
#   bench/table.sh definitions    the definitions and signs of bench/contracted.utb, without its rules
#   bench/table.sh many           20,000 lines: the same, and rules for words made of one to four syllables, `always` and `word` in turn
set -eu
cd "$(dirname "$0")"
definitions() { grep -E '^(space|uplow|digit|punctuation|numsign|capsletter|begcapsword) ' contracted.utb; }
case $1 in
    definitions) definitions ;;
    many)
        definitions
        awk -v have="$(definitions | wc -l)" 'BEGIN {
            count = split("ra to ne li su ma de ko vi pa en st or the ing", syllable, " ")
            for (n = 1; have < 20000; n++) {
                text = ""; cells = ""
                for (rest = n; rest > 0; rest = int((rest - 1) / count)) {
                    text = text syllable[(rest - 1) % count + 1]
                    cells = cells (cells == "" ? "" : "-") (rest % 8 + 1)
                }
                print (n % 2 ? "always" : "word"), text, cells; have++
            } }' ;;
    *) echo 'bench/table.sh definitions | many' >&2; exit 1 ;;
esac
