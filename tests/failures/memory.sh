#!/bin/bash
# Refuses growths of memory, each in turn, while the program reads tables, while it makes a book, in a session over requests of all kinds
# and in one over an older file, by a small library that is loaded before it.
#   tests/failures/memory.sh     EVERY (8): while a session opens its book, one growth of so many is refused; OFFSET: after how many
#                                the first, by chance; ONLY: the number of a growth that is refused alone; PROGRAM: the program
#                                (build/braildesk)
set -eu
cd "$(dirname "$0")/../.."
. tests/built.sh python cc sqlite3
library memory
PYTHONPATH=tests "$PYTHON" -B tests/failures/memory.py "$program" "$scratch/memory.so" --every "${EVERY:-8}" \
    ${OFFSET:+--offset "$OFFSET"} ${ONLY:+--only "$ONLY"}
