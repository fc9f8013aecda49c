#!/bin/bash
# Tries the window of scribe as a screen reader and a keyboard do, in an X server, a session bus and an accessibility bus of its own.
#   tests/window/window.sh     PROGRAM: the program (build/braildesk); PYTHON: the interpreter (that of tests/python.sh); PATIENCE (120): how
#                              many seconds a state is waited for, which comes at once if a test holds; the words go to pytest
set -eu
cd "$(dirname "$0")/../.."
. tests/built.sh python black mypy pyflakes pytest pandoc xvfb-run xauth dbus-run-session PyQt6 gi atspi dejavu
export BRAILDESK=$(realpath "$program") PYTHONPATH=$PWD/src
"$PYTHON" -m black --check --quiet tests/window bench/window || { echo 'tests/window/window.sh: black lays out tests/window or bench/window in another way' >&2; exit 1; }
"$PYTHON" -m pyflakes tests/window bench/window
# with src, where scribe has no mark of its types for others
"$PYTHON" -m mypy --strict src/scribe/window tests/window bench/window
mkdir -m 700 "$scratch/runtime"
# no theme, no scaling and no sizes of a person's own; the bus of accessibility is asked for before anybody listens
export XDG_RUNTIME_DIR=$scratch/runtime QT_QPA_PLATFORM=xcb QT_QPA_PLATFORMTHEME='' QT_LINUX_ACCESSIBILITY_ALWAYS_ON=1 LANG=C.UTF-8
unset WAYLAND_DISPLAY QT_SCALE_FACTOR
# A server that begins anew once its last window is closed refuses the next one for a moment. One with -r repeats no key of which the
# release comes late. xvfb-run takes no path with blanks, and X has its socket in /tmp in any case.
TMPDIR=/tmp xvfb-run -a -s '-screen 0 1024x768x24 -noreset -r' env TMPDIR="${TMPDIR:-/tmp}" dbus-run-session -- "$PYTHON" -m pytest -q -p no:cacheprovider tests/window "$@" \
    2> "$scratch/said" || { status=$?; cat "$scratch/said" >&2; exit $status; }
