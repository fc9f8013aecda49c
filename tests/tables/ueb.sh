#!/bin/bash
# Looks at the installed table src/braildesk/tables/ueb.utb by the program: that it defines what it claims, that rows of print have the cells that
# were written by hand (tests/tables/ueb/rows, docs/tables.md), that a book typed with it goes to an embosser, and that its cells are
# those of liblouis on lines of English, but for what has a cause (tests/tables/ueb_liblouis.sh).
#   tests/tables/ueb.sh     PROGRAM: the program (build/braildesk); PYTHON: the interpreter (that of tests/python.sh)
set -eu
cd "$(dirname "$0")/../.."
program=${PROGRAM:-build/braildesk}
[ -x "$program" ] || { echo "tests/tables/ueb.sh: $program is missing: make builds it" >&2; exit 1; }
tests/needs.sh python louis
PYTHONDONTWRITEBYTECODE=1 "${PYTHON:-$(tests/python.sh)}" tests/tables/ueb/gate.py "$program"
tests/tables/ueb_liblouis.sh --lines 6000
