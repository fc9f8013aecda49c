#!/bin/bash
# Writes tests/window/orca.txt: what Orca says while a book is worked on in the window, as its own log has it, in an X server, a session
# bus and an accessibility bus of its own. The gate compares with that file what the window gives to the bus, and needs no Orca.
#   tests/window/orca.sh     PROGRAM: the program (build/braildesk); PYTHON: the interpreter (that of tests/python.sh)
set -eu
cd "$(dirname "$0")/../.."
. tests/built.sh python xvfb-run xauth dbus-run-session PyQt6 gi atspi dejavu
command -v orca > /dev/null || { echo 'tests/window/orca.sh: missing: orca. Install it, as by: apt-get install orca' >&2; exit 1; }
BRAILDESK=$(realpath "$program")
export BRAILDESK PYTHONPATH=$PWD/src:$PWD/tests/window PYTHON
mkdir -m 700 "$scratch/runtime" "$scratch/home" "$scratch/silent"
# what would speak isn't asked for: the log has what is given to it
echo 'raise ImportError("silent")' > "$scratch/silent/speechd.py"
export SILENT=$scratch/silent XDG_RUNTIME_DIR=$scratch/runtime HOME=$scratch/home QT_QPA_PLATFORM=xcb QT_QPA_PLATFORMTHEME='' LANG=C.UTF-8
export XDG_STATE_HOME=$scratch/home/state XDG_CONFIG_HOME=$scratch/home/config QT_LINUX_ACCESSIBILITY_ALWAYS_ON=1
unset WAYLAND_DISPLAY QT_SCALE_FACTOR
# xvfb-run takes no path with blanks, and X has its socket in /tmp in any case
TMPDIR=/tmp xvfb-run -a -s '-screen 0 1024x768x24 -noreset -r' env TMPDIR="${TMPDIR:-/tmp}" dbus-run-session -- "$PYTHON" tests/window/orca_day.py "$scratch" tests/window/orca.txt 2> "$scratch/said" ||
    { status=$?; cat "$scratch/said" >&2; exit $status; }
