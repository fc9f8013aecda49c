#!/bin/bash
# Brings all tables of the installed liblouis over by the built program, compares the cells with those of liblouis, and writes
# measured.md of src/braildesk/tables/convert and the figures that `scribe bring --list` shows.
#   tests/tables/bring_all.sh [FOLDER]
# In FOLDER each table gets a file with its figures, and a table that has one is left out, so that a run which was stopped goes on;
# without FOLDER all are measured anew. This takes some ten minutes of a processor. PROCESSES (1) says how many tables are brought over
# at once, EACH (10) how many lines of a shape are compared. The gate doesn't run this.
set -eu
cd "$(dirname "$0")/../.."
python=${PYTHON:-/usr/bin/python3}
"$python" -c 'import louis' || { echo 'tests/tables/bring_all.sh: python3-louis is missing: install it, as by apt-get install python3-louis' >&2; exit 1; }
if [ $# -gt 0 ]; then folder=$1; else folder=$(mktemp -d); trap 'rm -rf "$folder"' EXIT; fi
"$python" tests/tables/bring_all.py "$folder"
"$python" tests/tables/bring_all.py --write "$folder"
