# shellcheck shell=bash
# What the scripts over the built program begin with. They source it in the root of the tree, with the names of what they need, as
# tests/needs.sh has them, and say what PROGRAM (build/braildesk) and PYTHON are. It makes a scratch folder, which goes in the end.
tests/needs.sh "$@"
PYTHON=${PYTHON:-$(tests/python.sh)}
program=${PROGRAM:-build/braildesk}
[ -x "$program" ] || { echo "$0: $program is missing: make builds it" >&2; exit 1; }
scratch=$(mktemp -d); trap 'rm -rf "$scratch"' EXIT

# Builds the library of tests/failures/NAME.c, which is loaded before the program.
library() { # NAME
    cc -O2 -shared -fPIC -o "$scratch/$1.so" "tests/failures/$1.c"
}
