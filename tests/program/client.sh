#!/bin/bash
# Has sample/client.py type four lines into a new book, one of them with a character that the table lacks, and looks at what
# it writes and what is kept.
#   tests/program/client.sh PROGRAM
set -eu
program=$(realpath "${1:?the path of the program is missing}")
cd "$(dirname "$0")/../.."
tests/needs.sh python
PYTHON=${PYTHON:-$(tests/python.sh)}
scratch=$(mktemp -d); trap 'rm -rf "$scratch"' EXIT
export BRAILDESK=$program PYTHONPATH=src PYTHONUTF8=1 PYTHONDONTWRITEBYTECODE=1
same() { # WHAT EXPECTED FOUND
    diff "$2" "$3" >&2 || { echo "tests/program/client.sh: $1 differ (< expected, > found)" >&2; exit 1; }
    echo "ok  $1"
}
client() { # FILE
    status=0
    "$PYTHON" sample/client.py "$1" > "$scratch/written" 2> "$scratch/errors" || status=$?
    echo "$status" >> "$scratch/errors"
}

"$program" new "$scratch/book.braildesk" > /dev/null
printf 'Hello\nZdeněk\n\nab 5a\n' | client "$scratch/book.braildesk"
printf '⠠⠓⠑⠇⠇⠕\n\n⠁⠃⠀⠼⠑⠰⠁\n' > "$scratch/expected"
same 'what sample/client.py writes' "$scratch/expected" "$scratch/written"
echo 'Line 2: The table en has no cells for “ě” (U+011B LATIN SMALL LETTER E WITH CARON), character 5 of the text: “Zdeněk”.' \
    'Nothing was added.' > "$scratch/expected"
echo 2 >> "$scratch/expected"
same 'what it says' "$scratch/expected" "$scratch/errors"
printf 'print 1\nprint 2\nprint 3\n' | "$program" session "$scratch/book.braildesk" > "$scratch/kept"
printf '| Hello\nend 4\n| \nend 4\n| ab 5a\nend 4\n' > "$scratch/expected"
same 'what it typed' "$scratch/expected" "$scratch/kept"

# each line that is written is answered before the next, as at a terminal
answered() { # WHAT WRITTEN EXPECTED COMMAND..: writes the line twice and waits for its answer each time
    local what=$1 written=$2 expected=$3 answer; shift 3
    coproc answering { exec "$@"; }
    local reading=${answering[0]} writing=${answering[1]} running=$answering_PID
    for _ in 1 2; do
        echo "$written" >&"$writing"
        IFS= read -r -t 60 answer <&"$reading" && [ "$answer" = "$expected" ] \
            || { echo "tests/program/client.sh: $what: no \"$expected\" came before the next line" >&2; exit 1; }
    done
    exec {writing}>&-
    wait "$running"
    echo "ok  $what"
}
answered 'translate answers a line before it reads the next' Hello '⠠⠓⠑⠇⠇⠕' "$program" translate @en
answered 'session answers a request before it reads the next' version 'end 4' "$program" session "$scratch/book.braildesk"

# a copy of the file without the log beside it
cp "$scratch/book.braildesk" "$scratch/copy"
"$program" check "$scratch/book.braildesk" > "$scratch/expected"
"$program" check "$scratch/copy" > "$scratch/written"
same 'the versions of a book and of a copy of its closed file alone' "$scratch/expected" "$scratch/written"

# a file that isn't there
client "$scratch/none" < /dev/null
printf 'There is no file “%s”. Check that the path is right.\n2\n' "$scratch/none" > "$scratch/expected"
same 'what it says of a file that is not there' "$scratch/expected" "$scratch/errors"
