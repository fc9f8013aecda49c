#!/bin/bash
# Compares src/braildesk/tables/ueb.utb with liblouis's en-ueb-g1 on lines of running English from the documents of this machine, and looks whether
# liblouis gives what docs/tables.md says that it gives. It fails where a share of the lines sinks, where a difference has no cause
# among those of tests/tables/ueb/causes.py, and where a cause has no example in that document.
#   tests/tables/ueb_liblouis.sh [--lines N] [--examples N] [--table TABLE]
#   --lines      compares at most so many lines (those of all documents, a minute or two)
#   --examples   shows so many lines of each cause
#   --table      compares another table, and only shows what is found
#   PROGRAM: the program (build/braildesk); PYTHON: the interpreter (that of tests/python.sh)
set -eu
cd "$(dirname "$0")/../.."
program=${PROGRAM:-build/braildesk}
[ -x "$program" ] || { echo "tests/tables/ueb_liblouis.sh: $program is missing: make builds it" >&2; exit 1; }
tests/needs.sh python louis
PYTHONDONTWRITEBYTECODE=1 exec "${PYTHON:-$(tests/python.sh)}" tests/tables/ueb/beside_liblouis.py "$program" "$@"
