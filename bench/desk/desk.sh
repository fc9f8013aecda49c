#!/bin/bash
# Times commands of scribe and keys of its screen on books of 10, 1,000 and 20,000 paragraphs of 500 characters with five marks each,
# beside `braildesk check`, which opens the book and does nothing else, and a session of requests through a pipe.
#   bench/desk/desk.sh     RUNS (3): timings of each, of which the best counts; FOLDER: where the files are, since on a slow disk
#                        nothing but its syncs shows, and where the books stay if it is given; SIZES
# For each it says the seconds by the clock and those of a processor, with those of the program. PROGRAM is the program
# (build/braildesk), PYTHON the Python.
set -eu
cd "$(dirname "$0")/../.."
program=$(realpath "${PROGRAM:-build/braildesk}")
[ -x "$program" ] || { echo "$program is missing: make builds it" >&2; exit 1; }
scratch=$(mktemp -d ${FOLDER:+-p "$FOLDER"}); trap 'rm -rf "$scratch"' EXIT
python=${PYTHON:-$(tests/python.sh)}
# shellcheck disable=SC2086
BRAILDESK=$program PYTHONPATH=$PWD/src "$python" bench/desk/desk.py "${FOLDER:-$scratch}" "${RUNS:-3}" ${SIZES:-10 1000 20000}
