#!/bin/bash
# Prints a proof of a book by Chromium, and looks at whether each page is a sheet, and whether all words of the book stand on the sheets
# in their order.
#   tests/comparisons/chromium.sh [TEXT]     TEXT: paragraphs that blank lines part (README.md); PROGRAM, PYTHON: as for tests/desk/desk.sh
# What the table ueb lacks in the text is left out. The gate doesn't run this.
set -eu
cd "$(dirname "$0")/../.."
fail() { echo "tests/comparisons/chromium.sh: $*" >&2; exit 1; }
for tool in chromium pdftotext pdfinfo; do
    command -v "$tool" > /dev/null || fail "$tool is missing: install it, as by apt-get install chromium poppler-utils"
done
program=$(realpath "${PROGRAM:-build/braildesk}")
[ -x "$program" ] || fail "$program is missing: make builds it"
python=${PYTHON:-$(tests/python.sh)}
export BRAILDESK=$program PYTHONPATH=$PWD/src
scratch=$(mktemp -d); trap 'rm -rf "$scratch"' EXIT
scribe() { "$python" -m scribe "$@"; }

tr -cd '\n -~' < "${1:-README.md}" > "$scratch/text.txt"
scribe new "$scratch/book.braildesk" > /dev/null
scribe import "$scratch/book.braildesk" "$scratch/text.txt" > /dev/null
scribe run "$scratch/book.braildesk" <<< 'mark 1 2 3 spelled so?' > /dev/null
proof=$(scribe proof "$scratch/book.braildesk" "$scratch/book.html" --language en)
flags=()
[ "$(id -u)" != 0 ] || flags+=(--no-sandbox)
chromium --headless "${flags[@]}" --disable-gpu --user-data-dir="$scratch/profile" --no-pdf-header-footer \
    --print-to-pdf="$scratch/book.pdf" "file://$scratch/book.html" 2> "$scratch/said" > /dev/null || { cat "$scratch/said" >&2; exit 1; }

wanted=$(sed -n 's/.*: \([0-9,]*\) pages\?\.$/\1/p' <<< "$proof" | tr -d ,)
sheets=$(pdfinfo "$scratch/book.pdf" | sed -n 's/^Pages: *//p')
[ "$wanted" = "$sheets" ] || fail "the proof has $wanted pages, and is printed on $sheets sheets"
pdftotext -raw "$scratch/book.pdf" "$scratch/printed.txt"
"$python" - "$scratch" << 'END' || fail 'words of the book are missing on the sheets, or stand in another order'
"""Looks for the words of a book, one after the other, in what is printed, without its blanks and its cells."""
import re
import sys
from pathlib import Path

from braildesk import Session

# what stands between two words: the number of a page, of a paragraph, and marks with their notes
BETWEEN = 200
folder, place = Path(sys.argv[1]), 0
printed = re.sub("[\\s\u2800-\u28ff]", "", (folder / "printed.txt").read_text())
with Session(folder / "book.braildesk") as session:
    words = [w for each in session.paragraphs() for w in session.print_of(each.id).split()]
for word in words:
    front = printed.find(word, place, place + BETWEEN + len(word))
    if front < 0:
        sys.exit(f"{word!r} is missing after {printed[place - 40:place]!r}")
    place = front + len(word)
END
echo "ok  each of the $sheets pages of a proof is a sheet, and the words stand there in their order"
