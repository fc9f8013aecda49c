#!/bin/bash
# Stops the files of the program at each of their calls in turn, by a small library that is loaded before it, and opens the
# book again.
#   tests/failures/stops.sh     PROGRAM: the program (build/braildesk)
set -eu
cd "$(dirname "$0")/../.."
. tests/built.sh python cc sqlite3
library stops
PYTHONPATH=tests "$PYTHON" -B tests/failures/stops.py "$program" "$scratch/stops.so"
