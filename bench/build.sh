#!/bin/bash
# Proves and builds the program bench/NAME/NAME.rattle, and prints where it is. It stands on copies of the repository's crates outside
# of it, in the user's cache (~/.cache/braildesk), where what is proved is kept for the next time.
#   bench/build.sh NAME ARGUMENTS    the arguments are those of a first run, which has to end well
set -eu
cd "$(dirname "$0")/.."
name=$1 copy=${XDG_CACHE_HOME:-$HOME/.cache}/braildesk
shift
mkdir -p "$copy/crates/$name/src"
for crate in crates/*/; do
    crate=${crate%/}
    mkdir -p "$copy/$crate"
    for part in src specs proofs; do
        rm -rf "${copy:?}/$crate/$part"
        [ ! -d "$crate/$part" ] || cp -Rp "$crate/$part" "$copy/$crate"
    done
    [ -d "$copy/$crate/out" ] || [ ! -d "$crate/out" ] || cp -Rp "$crate/out" "$copy/$crate"
done
cp "bench/$name/$name.rattle" "$copy/crates/$name/src/main.rt"
cp HANDLES "$copy"
{ cat crates.txt; grep "^$name:" bench/programs; } > "$copy/crates.txt"
echo "Proving and building bench/$name/$name.rattle, with all that it stands on. The first time this takes some minutes." >&2
told=$(mktemp); trap 'rm -f "$told"' EXIT
(cd "$copy/crates/$name" && "${RT:-rt}" run -- "$@") > "$told" 2>&1 < /dev/null || { cat "$told" >&2; exit 1; }
echo "$copy/crates/$name/out/$name"
