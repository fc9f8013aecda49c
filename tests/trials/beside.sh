#!/bin/bash
# Copies the crates into a folder, with a crate `trials` beside them that has parts of tests/trials.
#   tests/trials/beside.sh FOLDER PART..     EVERY (1): at every how many of their calls the files of tests are stopped
set -eu
cd "$(dirname "$0")/../.."
folder=$1
shift
tar -cf - --exclude=out HANDLES crates | tar -xf - -C "$folder"
mkdir -p "$folder/crates/trials/src"
for part in "$@"; do
    cp -r "tests/trials/$part.rattle" "tests/trials/$part" "$folder/crates/trials/src"
    printf '#[cfg(test)]\nmod %s;\n' "$part"
done > "$folder/crates/trials/src/lib.rt"
find "$folder/crates/trials" -name '*.rattle' | while read -r file; do mv "$file" "${file%.rattle}.rt"; done
disks=$folder/crates/trials/src/file/disks.rt
[ ! -e "$disks" ] || sed -i "s/EVERY: u64 = 1;/EVERY: u64 = ${EVERY:-1};/" "$disks"
{
    cat crates.txt
    printf 'trials:'
    for part in "$@"; do sed -n "s/^$part: / /p" tests/trials/crates; done | tr ' ' '\n' | sort -u | tr '\n' ' '
    echo
} > "$folder/crates.txt"
