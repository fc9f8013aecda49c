#!/bin/bash
# Exports books of 24 to 20,000 paragraphs, and lays the same cells out by a plain C program. Sees that their pages are the same, byte for
# byte, counts the instructions a page of both with callgrind, and prints how many pages a second each makes by the clock, nine times in
# turn, with the medians.
#   bench/pages/pages.sh
# PIN stands before each run that is timed, as PIN="chrt -f 50 taskset -c 3"; PROGRAM is the program where it is built already.
set -eu
cd "$(dirname "$0")/../.."
rounds=9
work=$(mktemp -d); trap 'rm -rf "$work"' EXIT
program=${PROGRAM:-$(bench/build.sh pages 10)}
cc -O2 -o "$work/pages" bench/pages/pages.c

# the middle one of as many numbers as there are rounds
median() { sort -g | sed -n "$(((rounds + 1) / 2))p"; }

# the instructions of a run
instructions() {
    valgrind --tool=callgrind --callgrind-out-file=/dev/null "$@" 2>&1 > /dev/null | sed -n 's/.*Collected : //p'
}

for count in 24 240 2400 20000; do
    # as many times as the program itself exports a book of so many paragraphs
    times=$((60000 / count + 1))
    "$program" "cells+$count" > "$work/cells"
    "$program" "pages+$count" > "$work/text"
    "$work/pages" "$work/cells" | cmp - "$work/text"
    pages=$(tr -cd '\f' < "$work/text" | wc -c)
    more=$((pages * (times - 1)))
    ours=$((($(instructions "$program" "$count") - $(instructions "$program" "pages+$count")) / more))
    theirs=$((($(instructions "$work/pages" "$work/cells" "$times") - $(instructions "$work/pages" "$work/cells" 1)) / more))
    echo "$count paragraphs, $pages pages: $ours instructions a page, and $theirs of the C program"
    for _ in $(seq "$rounds"); do
        ours=$(${PIN:-} "$program" "$count" | sed 's/.*pages, *\([0-9]*\) pages a second/\1/')
        theirs=$(${PIN:-} "$work/pages" "$work/cells" "$times")
        echo "$ours $theirs $(awk "BEGIN { printf \"%.2f\", $ours / $theirs }")"
    done > "$work/rounds"
    cat "$work/rounds"
    echo "medians: $(cut -d' ' -f1 "$work/rounds" | median), $(cut -d' ' -f2 "$work/rounds" | median) and $(cut -d' ' -f3 "$work/rounds" | median)"
done
