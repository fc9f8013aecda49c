#!/bin/bash
# Shows the program itself: it keeps a small book in a file, exports the book, and translates lines of print. It is built from the sources
# as they are, without proofs and with checks as it runs: `rt try` builds it once and then runs each command in turn, in the order of
# the names of its cases. The book is a file in a scratch folder, which each command opens anew.
#   sample/demo.sh     RT (rt): the toolchain's command
set -eu
cd "$(dirname "$0")/.."
rt=${RT:-rt}
scratch=$(mktemp -d); trap 'rm -rf "$scratch"' EXIT
mkdir "$scratch/cases"
book=$scratch/moon.braildesk

# Adds a run of the program: what is shown above its output, the file of its standard input, and its words.
shown=()
run() { # TEXT INPUT WORD..
    local name=${#shown[@]}
    shown+=("$1")
    cp "$2" "$scratch/cases/$name"
    printf '%s\n' "${@:3}" > "$scratch/cases/$name.args"
}
cat_of() { # FILE REMARK: the command that shows a file, and the file
    printf '$ cat %s    # %s\n%s\n' "$1" "$2" "$(cat "$1")"
}
export_of() { # VOLUME
    run "\$ braildesk export moon.braildesk $1 --width 30 --lines 10" /dev/null export "$book" "$1" --width 30 --lines 10
}
run '$ braildesk new moon.braildesk' /dev/null new "$book"
run "$(cat_of sample/book.txt 'requests to the book')

\$ braildesk session moon.braildesk < sample/book.txt" sample/book.txt session "$book"
run "$(cat_of sample/cut-off.txt 'a session that was cut off within the lines of a table')

\$ braildesk session moon.braildesk < sample/cut-off.txt" sample/cut-off.txt session "$book"
run '$ braildesk check moon.braildesk    # what was acknowledged is kept, and nothing else' /dev/null check "$book"
export_of 1
export_of 2
run "$(cat_of sample/print.txt 'lines of print')

\$ braildesk translate sample/plain.utb < sample/print.txt" sample/print.txt translate "$PWD/sample/plain.utb"

# The output of each run comes below its name, without the carriage returns and form feeds of the pages.
(cd crates/braildesk && "$rt" try --steps 1 --cases "$scratch/cases") 2> "$scratch/errors" |
    while IFS= read -r line; do
        line=${line//[$'\r\f']/}
        case $line in
            '== '[0-9]) printf '\n%s\n' "${shown[${line#== }]}" ;;
            *) printf '%s\n' "$line" ;;
        esac
    done
[ "$(grep -c '^case=.* status=0 ' "$scratch/errors")" -eq ${#shown[@]} ] || { cat "$scratch/errors" >&2; exit 1; }
