#!/bin/bash
# Times keys of the window on a book of 20,000 paragraphs, and its opening; in a window that nobody sees, without an X server.
#   bench/window/window.sh     FOLDER: where the book is made, which takes long on a slow disk; RUNS (20): timings of each, of which the best
#                              and the middle one are said, by the clock and of a processor; PARAGRAPHS (20000); PROGRAM:
#                              the program (build/braildesk); PYTHON: an interpreter with PyQt6 (that of tests/python.sh)
set -eu
cd "$(dirname "$0")/../.."
program=$(realpath "${PROGRAM:-build/braildesk}")
[ -x "$program" ] || { echo "$program is missing: make builds it" >&2; exit 1; }
scratch=$(mktemp -d ${FOLDER:+-p "$FOLDER"}); trap 'rm -rf "$scratch"' EXIT
python=${PYTHON:-$(tests/python.sh)}
export BRAILDESK=$program PYTHONPATH=$PWD/src QT_QPA_PLATFORM=offscreen QT_QPA_PLATFORMTHEME='' LANG=C.UTF-8
export XDG_STATE_HOME=$scratch XDG_CONFIG_HOME=$scratch
"$python" bench/window/window.py make "$scratch/long.braildesk" "${PARAGRAPHS:-20000}"
"$python" bench/window/window.py time "$scratch/long.braildesk" "${RUNS:-20}"
