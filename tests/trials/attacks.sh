#!/bin/bash
# Tries the edits in crates/NAME/attacks, which the gate doesn't: wrong bodies that the prover has to refuse, beside those
# of must-fail. A file there has all edits of one source file, each from a line 'edit: NAME' on. An edit with a line
# 'test: PART TEST' is one that no contract rules out: with it that part of tests/trials is run, and that test has to fail. It
# works on a copy, with what has been proved here, and takes half a minute of a processor for an edit.
#   tests/trials/attacks.sh [NAME..]     JOBS (1): how many checks at a time
set -eu
cd "$(dirname "$0")/../.."
rt=${RT:-rt}
scratch=$(mktemp -d); trap 'rm -rf "$scratch"' EXIT
git ls-files -z | tar --null -T - -cf - | tar -xf - -C "$scratch"
for kept in crates/*/out; do [ ! -d "$kept" ] || cp -a "$kept" "$scratch/$kept"; done
cd "$scratch"
names=("$@")
if [ ${#names[@]} -eq 0 ]; then
    for folder in crates/*/attacks; do names+=("$(basename "$(dirname "$folder")")"); done
fi

# Writes each edit of a file by itself, as rt reads it, with what stands before the first one.
part() { # FILE.edits
    awk -v stem="${1%.edits}" '
        /^edit: / { file = stem "." substr($0, 7) ".edit"; printf "%s", head > file; next }
        file == "" && NF { head = head $0 "\n" }
        file == "" { next }
        NF { print > file }' "$1"
    rm "$1"
}

# Puts each 'new:' of an edit in the place of its 'old:', which stands once in the edit's file, in the crate of this folder.
apply() {
    local line file old text
    while IFS= read -r line; do
        case $line in
            'file: '*) file=${line#file: } ;;
            'old: '*) old=${line#old: } ;;
            'new: '*)
                text=$(<"$file")
                if [[ $text != *"$old"* || ${text#*"$old"} == *"$old"* ]]; then return 1; fi
                printf '%s\n' "${text/"$old"/"${line#new: }"}" > "$file" ;;
        esac
    done < "$1"
}

# Says whether the edit's test fails with it, and undoes it.
test_sees() {
    local edit=$1 part test sources beside
    read -r part test < <(sed -n 's/^test: //p' "$edit")
    sources=$(mktemp -d "$scratch/sources.XXXXXX")
    beside=$(mktemp -d "$scratch/beside.XXXXXX")
    cp -r src/. "$sources"
    if ! apply "$edit"; then
        echo "$edit cannot be applied"
        return 1
    fi
    EVERY=1000 ../../tests/trials/beside.sh "$beside" "$part"
    (cd "$beside/crates/trials" && "$rt" try --test --seconds 3000) > "$beside/log" 2>&1 || true
    rm -r src && cp -r "$sources" src
    if grep -qF "test ${part}::$test ... FAILED" "$beside/log"; then
        echo "$edit: $test fails"
    else
        cat "$beside/log"
        echo "$edit: $test doesn't fail"
        return 1
    fi
}

missed=0
for name in "${names[@]}"; do
    for file in "crates/$name"/attacks/*.edits; do part "$file"; done
    for edit in $(cd "crates/$name/attacks" && grep -l '^test: ' ./*.edit || true); do
        (cd "crates/$name" && test_sees "attacks/$edit") || missed=$((missed + 1))
        rm "crates/$name/attacks/$edit"
    done
    rm -rf "crates/$name/must-fail"
    mv "crates/$name/attacks" "crates/$name/must-fail"
done
echo "edits that their test doesn't see: $missed"
RT_JOBS=${JOBS:-1} "$rt" must-fail "${names[@]}"
[ "$missed" -eq 0 ]
