#!/bin/bash
# Brings tables of liblouis over, and compares the program's cells with those of liblouis on running text that nobody made for that.
#   tests/tables/bring_real.sh             ten tables, eight of them on messages of the programs that are installed, as the gate does: some fifty seconds
#                                          of a processor; it fails where a share is below its least
#   tests/tables/bring_real.sh FOLDER      every table for whose language Debian has translated manual pages, which are installed first
#                                          (as root); writes tests/tables/real/figures.tsv, from which measured.md of src/braildesk/tables/convert is made. In FOLDER
#                                          each table has a file with its figures, and one that has it is left out. Ten minutes or more
#   MANUALS: the folder of the manual pages (/usr/share/man); where it is given, nothing is installed
#   PROGRAM: the program (build/braildesk); PYTHON: the interpreter (that of tests/python.sh); PROCESSES (1): tables at once
set -eu
cd "$(dirname "$0")/../.."
. tests/built.sh python louis
export BRAILDESK=$program PYTHONDONTWRITEBYTECODE=1
if [ $# -eq 0 ]; then
    exec "$PYTHON" tests/tables/real/gate.py
fi
languages=$("$PYTHON" tests/tables/real/figures.py --packages)
if [ -z "${MANUALS:-}" ] && [ "$(id -u)" -eq 0 ] && command -v apt-get > /dev/null; then
    # each package is a word of its own
    # shellcheck disable=SC2086
    DEBIAN_FRONTEND=noninteractive apt-get install -y $languages >&2
fi
"$PYTHON" tests/tables/real/figures.py "$1"
