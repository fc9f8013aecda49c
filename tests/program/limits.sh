#!/bin/bash
# Fills a book to every limit at once, and opens, changes, exports and copies it.
#   tests/program/limits.sh     PROGRAM: the program (build/braildesk)
set -eu
cd "$(dirname "$0")/../.."
. tests/built.sh python
PYTHONPATH=tests:src "$PYTHON" -B tests/program/limits.py "$program" "$scratch"
