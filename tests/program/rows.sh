#!/bin/bash
# Feeds the program the rows of tests/program/rows and compares what it writes, byte for byte; compares its helps with the files of
# tests/program/rows/helps, and tries them; and tries ends that can't be read or written.
#   tests/program/rows.sh     PROGRAM: the program (build/braildesk)
set -eu
cd "$(dirname "$0")/../.."
. tests/built.sh python sqlite3
PYTHONPATH=tests "$PYTHON" -B tests/program/rows.py "$program" tests/program/rows
