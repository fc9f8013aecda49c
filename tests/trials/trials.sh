#!/bin/bash
# Runs the tests of tests/trials, unproved and with checks as they run, over the sources as they are.
#   tests/trials/trials.sh [PART..]     EVERY (1): at every how many of their calls files are stopped; RT: the toolchain's
#                                       command
# They are built as one crate in a scratch folder, beside those that they test. Those of `sqlite` are over files that sqlite3 made, and
# what they print is compared by tests/comparisons/sqlite3.sh.
set -eu
cd "$(dirname "$0")/../.."
rt=${RT:-rt}
parts=("$@")
[ ${#parts[@]} -gt 0 ] || mapfile -t parts < <(sed -n 's/^\([a-z]*\):.*/\1/p' tests/trials/crates)
scratch=$(mktemp -d); trap 'rm -rf "$scratch"' EXIT
tests/trials/beside.sh "$scratch" "${parts[@]}"
data=()
case " ${parts[*]} " in *' sqlite '*)
    mkdir "$scratch/sqlite"
    tests/comparisons/sqlite3.sh "$scratch/sqlite"
    for file in "$scratch"/sqlite/*.db; do data+=(--data "${file##*/}=$file"); done
esac
status=0
(cd "$scratch/crates/trials" && "$rt" try --test --seconds 3000 "${data[@]}") > "$scratch/log" 2>&1 || status=$?
passed=$(grep -c '^test .* \.\.\. ok$' "$scratch/log" || true)
[ "$status" -eq 0 ] && [ "$passed" -gt 0 ] && [ "$(sed -n 's/^tests: //p' "$scratch/log")" = "$passed" ] || {
    cat "$scratch/log" >&2
    echo 'tests/trials/trials.sh: a test failed' >&2
    exit 1
}
echo "ok  $passed tests of ${parts[*]}, unproved"
[ ${#data[@]} -eq 0 ] || tests/comparisons/sqlite3.sh "$scratch/sqlite" "$scratch/log"
