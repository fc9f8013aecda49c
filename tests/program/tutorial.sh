#!/bin/bash
# Runs the commands that README.md and the pages of docs/ show, and compares what they print with what stands there,
# so that none goes stale; and compares the volumes of the sample book with those in sample/. The commands are those of the blocks
# fenced by ```console: a line that begins with '$ ' begins one, lines that begin with '> ' go on with it, and the lines after
# it are what it prints.
#   tests/program/tutorial.sh PROGRAM|--installed [--write]
# Each document is run by one shell in a folder of its own, which has the files of sample/, by PROGRAM and scribe as make install puts
# them in place, for PYTHON, or by those that are installed already. With --write a document gets what its commands print now: read what
# that changes before it is kept.
set -eu
program=${1:?the path of the program is missing}
[ "$program" = --installed ] || program=$(realpath "$program")
action=${2:---compare}
cd "$(dirname "$0")/../.."
scratch=$(mktemp -d); trap 'rm -rf "$scratch"' EXIT
mkdir "$scratch/found"
unset COLUMNS BRAILDESK MAKEFLAGS MAKELEVEL
export LC_ALL=C.UTF-8 XDG_STATE_HOME="$scratch/state"
if [ "$program" != --installed ]; then
    tests/needs.sh python louis pandoc
    PYTHON=${PYTHON:-$(tests/python.sh)}
    make --silent --old-file="$program" install PROGRAM="$program" DESTDIR= PREFIX="$scratch/usr" PYTHON="$PYTHON"
    export PATH="$scratch/usr/bin:$PATH"
fi

# Prints a document with what its commands print now.
replay() { # DOCUMENT
    local line command='' fenced=
    run() {
        [ -z "$command" ] || eval "$command" 2>&1 || true
        command=
    }
    while IFS= read -r line <&4; do
        case $fenced$line in
            '```console') fenced=yes; printf '%s\n' "$line" ;;
            'yes```') run; fenced=; printf '%s\n' "$line" ;;
            'yes$ '*) run; command=${line#'$ '}; printf '%s\n' "$line" ;;
            'yes> '* | 'yes>') command+=$'\n'${line:2}; printf '%s\n' "$line" ;;
            yes*) ;; # what the command printed when the document was written
            *) printf '%s\n' "$line" ;;
        esac
    done 4< "$1"
}

different=0
for document in README.md docs/{transcriber,proofreader,embosser,tables,contracted,FORMATS}.md; do
    name=$(basename "$document")
    count=$(grep -c '^\$ ' "$document")
    mkdir "$scratch/$name"
    cp sample/* "$scratch/$name"
    original=$PWD/$document
    (cd "$scratch/$name" && replay "$original") > "$scratch/found/$name" < /dev/null
    [ "$action" = --compare ] || cp "$scratch/found/$name" "$document"
    if diff "$document" "$scratch/found/$name"; then
        echo "ok  the $count commands of $document"
    else
        echo "tests/program/tutorial.sh: $document shows something else than the program (< shown, > printed)" >&2
        different=1
    fi
done

book=$scratch/book.braildesk
braildesk new "$book" > /dev/null
braildesk session "$book" < sample/book.txt > /dev/null
for volume in 1 2; do
    if braildesk export "$book" $volume --width 30 --lines 10 | cmp - sample/book-$volume.brf; then
        echo "ok  volume $volume of the sample book"
    else
        different=1
    fi
done
exit $different
