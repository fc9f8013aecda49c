#!/bin/bash
# Looks whether each file of definitions begins with a sentence that says what it decides, and each definition has one above it:
# docs/developers/architecture.md sends readers to these.
#   tests/make/sentences.sh
set -eu
cd "$(dirname "$0")/../.."
tests/needs.sh git
# Of a definition the whole first line is matched, since `record` begins values too.
git ls-files 'crates/*/specs/*.antt' | xargs -d '\n' awk '
    function lacks(line, what) { print "tests/make/sentences.sh: " FILENAME ":" line " lacks " what > "/dev/stderr"; failed = 1 }
    FNR == 1 && FILENAME !~ /\/Lib\.antt$/ && !/^-- [^-]/ { lacks(1, "a sentence that says what the file decides") }
    /^ *((unfoldable|abbrev) pub|pub (record|data)) |^pub [^ ]+ : / {
        definitions++
        if (above !~ /^ *-- [^-]/) lacks(FNR, "a sentence above the definition: " $0)
    }
    { above = $0 }
    END { if (!definitions) lacks(0, "definitions"); else if (!failed) print "ok  sentences above " definitions " definitions"; exit failed }
'
