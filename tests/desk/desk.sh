#!/bin/bash
# Looks at the layout and the types of the Python of src/, tests/desk, sample/ and bench/desk, for names that nothing uses, and runs the
# tests of tests/desk by the program: in processes side by side, each of which takes the next file that none has taken.
#   tests/desk/desk.sh     PROGRAM: the program (build/braildesk); PYTHON: the interpreter (that of tests/python.sh); SEED (1): of the
#                          random cases; PROCESSES (2): how many run the tests; the words of the command go to pytest
set -eu
cd "$(dirname "$0")/../.."
program=$(realpath "${PROGRAM:-build/braildesk}")
[ -x "$program" ] || { echo "tests/desk/desk.sh: $program is missing: make builds it" >&2; exit 1; }
tests/needs.sh python black mypy pyflakes pytest hypothesis pexpect prompt_toolkit pyte setuptools wheel pip louis pandoc PyQt6
python=${PYTHON:-$(tests/python.sh)}
export BRAILDESK=$program PYTHONPATH=$PWD/src
# what the tests start by its first line is run by the same Python, and by no script that looks for one
PATH=$(dirname "$(command -v "$python")"):$PATH
# modules and tests are compiled once for all processes and runs, also where a shell has Python keep nothing
unset PYTHONDONTWRITEBYTECODE
files=(src tests/desk sample/client.py bench/desk/desk.py)
"$python" -m black --check --quiet "${files[@]}" || {
    "$python" -m black --check "${files[@]}" || true
    echo 'tests/desk/desk.sh: black lays out these files in another way' >&2
    exit 1
}
"$python" -m pyflakes "${files[@]}"
room=$(mktemp -d)
export TAKEN=$room/taken
mkdir "$TAKEN"
trap 'kill $(jobs -p) 2> /dev/null || true; wait; rm -rf "$room"' EXIT
trap 'exit 1' INT TERM HUP
"$python" -m mypy --strict "${files[@]}" > "$room/types" 2>&1 &
running=($!)
for number in $(seq "${PROCESSES:-2}"); do
    # each has a folder of its own, since pytest shuts the one that it shares against others whenever it begins
    mkdir "$room/$number"
    PYTEST_DEBUG_TEMPROOT=$room/$number "$python" -m pytest -q -p no:cacheprovider -o console_output_style=classic \
        --hypothesis-seed="${SEED:-1}" tests/desk "$@" > "$room/tests-$number" 2>&1 &
    running+=($!)
done
status=0
# 5: the others had taken each file that has such tests
for each in "${running[@]}"; do wait "$each" || [ $? = 5 ] || status=1; done
cat "$room"/types "$room"/tests-*
grep -q ' passed' "$room"/tests-* || status=1
exit $status
