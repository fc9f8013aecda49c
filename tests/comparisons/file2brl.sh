#!/bin/bash
# Compares the pages of volumes with those of file2brl, a program of liblouisutdml: both lay the same paragraphs and headings out by four
# layouts, and each page has to be the same, byte for byte.
#   tests/comparisons/file2brl.sh
# The program tests/comparisons/pages.rattle, which exports the volumes, is built by `rt try` in a scratch folder, and is not proved. The
# gate doesn't run this.
#
# file2brl is set to lay out as we do: no page numbers of the print, the number of a page at the end of a last line of its own, body text
# with a first line indented by two cells, headings with all lines indented by four after one empty line, no hyphens, and CR LF and form
# feed as ends. Nothing else is the same by settings:
# - It translates the number of a page by its table, so the table here has a sign for numbers and gives each digit no sign of its own.
# - It ends a line with a hyphen where it cuts a word that is longer than its room, and we don't. No word here is longer than the least
#   room.
# - It has no volumes and no struck paragraphs, and here is one volume with nothing struck.
set -eu
cd "$(dirname "$0")/../.."
rt=${RT:-rt}
fail() { echo "tests/comparisons/file2brl.sh: $*" >&2; exit 1; }
command -v file2brl > /dev/null || fail 'file2brl is missing: install it, as by apt-get install liblouisutdml-bin'
scratch=$(mktemp -d); trap 'rm -rf "$scratch"' EXIT
mkdir "$scratch/cases" "$scratch/theirs"

# 300 paragraphs of words from a list, a sixth of them headings, by a generator that gives the same numbers everywhere
awk '
    function below(limit) { seed = seed * 16807 % 2147483647; return seed % limit }
    BEGIN {
        seed = 2026
        count = split("It was 7 o'\''clock of a very warm evening in the Seeonee hills: Father Wolf woke up (at last), yawned; 42 - No?", words)
        for (place = 1; place <= 300; place++) {
            heading = below(6) == 0
            text = words[below(count) + 1]
            for (more = below(heading ? 12 : 70); more > 0; more--) text = text " " words[below(count) + 1]
            print (heading ? "h" : "b") text
        }
    }' > "$scratch/book"
{ sed 's/^\(digit . \)3456-/\1/' sample/plain.utb; echo 'numsign 3456'; } > "$scratch/table.utb"

# the same as file2brl reads it
cp "$scratch/table.utb" "$scratch/theirs"
{ echo '<html><body>'; sed -e 's|^h\(.*\)|<h2>\1</h2>|' -e 's|^b\(.*\)|<p>\1</p>|' "$scratch/book"; echo '</body></html>'; } > "$scratch/theirs/book.xml"
printf '%s\n' 'document html' 'no body' 'para p' 'heading2 h2' > "$scratch/theirs/pages.sem"
settings() { # WIDTH LINES
    cat << END
outputFormat
    cellsPerLine $1
    linesPerPage $2
    braillePages yes
    numberBraillePages yes
    beginningPageNumber 1
    braillePageNumberAt bottom
    pageNumberBottomSeparateLine yes
    printPages no
    interpoint no
    hyphenate no
    lineEnd \\r\\n
    pageEnd \\f
    formatFor textDevice
    outputEncoding ascii8
translation
    literaryTextTable en-us-brf.dis,table.utb
xml
    semanticFiles pages.sem
    newEntries no
    internetAccess no
style para
    firstLineIndent 2
style heading2
    linesBefore 1
    leftMargin 4
    firstLineIndent 0
END
}
for layout in '40 25' '60 40' '24 7' '13 5'; do
    read -r width lines <<< "$layout"
    settings "$width" "$lines" > "$scratch/theirs/pages.cfg"
    (cd "$scratch/theirs" && file2brl -f pages.cfg book.xml) > "$scratch/cases/$width-$lines.stdout" 2> "$scratch/errors" ||
        { cat "$scratch/errors" >&2; fail 'file2brl failed'; }
    [ "$(grep -c $'\f' "$scratch/cases/$width-$lines.stdout")" -gt 10 ] || fail 'file2brl made no more than ten pages'
    : > "$scratch/cases/$width-$lines"
    printf '%s\n' "$width" "$lines" > "$scratch/cases/$width-$lines.args"
done

# the volumes, over one build
mkdir -p "$scratch/crates/pages/src"
tar -c --exclude=out crates | tar -x -C "$scratch"
cp tests/comparisons/pages.rattle "$scratch/crates/pages/src/main.rt"
[ ! -e HANDLES ] || cp HANDLES "$scratch"
{ cat crates.txt; echo 'pages: desk_model desk_book desk_brf desk_ends anyhow'; } > "$scratch/crates.txt"
(cd "$scratch/crates/pages" && "$rt" try --cases "$scratch/cases" --data book="$scratch/book" --data table.utb="$scratch/table.utb") \
    > "$scratch/told" 2> "$scratch/errors" || { tail -n 40 "$scratch/told" "$scratch/errors" >&2; fail 'the pages differ, or the program pages failed'; }
for pages in "$scratch"/cases/*.stdout; do
    echo "ok  $(grep -c $'\f' "$pages") pages, $(basename "$pages" .stdout | tr - ' ')"
done
