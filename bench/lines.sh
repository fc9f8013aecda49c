#!/bin/bash
# Prints the lines of bench/prose.txt, the beginning of The Jungle Book, again and again, until so many bytes are reached.
#   bench/lines.sh BYTES            as they are, with typographic quotes and dashes
#   bench/lines.sh BYTES --ascii    with those of ASCII in their places
set -eu
cd "$(dirname "$0")"
ascii() { LC_ALL=C.UTF-8 sed "s/[“”]/\"/g; s/’/'/g; s/—/-/g" prose.txt; }
if [ "${2:-}" = --ascii ]; then ascii; else cat prose.txt; fi | LC_ALL=C awk -v most="$1" '
    { line[NR] = $0 }
    END { for (n = 0; size < most; n++) { text = line[n % NR + 1]; print text; size += length(text) + 1 } }'
