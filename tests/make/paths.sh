#!/bin/bash
# Looks whether each file and folder that a text of this tree names is there: by its path from the top on, or in a document by the end of
# its path, as `src/lib.rt`.
#   tests/make/paths.sh
# NAME and other words in capitals stand for any name, and a * for any characters. What is built isn't looked for.
set -eu
cd "$(dirname "$0")/../.."
tests/needs.sh git
export LC_ALL=C.UTF-8
scratch=$(mktemp -d); trap 'rm -rf "$scratch"' EXIT
git ls-files > "$scratch/files"

# A path begins with a folder at the top, but for bin, which each place has where something is installed.
tops=$(sed -n 's|/.*||p' "$scratch/files" | sort -u | grep -v '^bin$' | sed 's|^src$|src/(?:braildesk\|scribe)|; s/\./\\./' | paste -sd'|')
xargs -d '\n' grep -HnoPI "(?<![\w./\$}-])(?:\.\./)*(?:$tops)/[\w.*/-]*[\w*](?![\w.*/-]*[\${<])" < "$scratch/files" |
    grep -vE ':.*/(out|[A-Z]+|NAME\.[a-z]+)(/|$)' > "$scratch/paths"
# each file of a document, by the end of its path
git ls-files '*.md' | xargs -d '\n' grep -HnoP '`\K[\w.*/-]+\.(rt|antt|sh|py|c|rattle)(?=`)' | grep -vE ':.*[A-Z]{2}[./]' > "$scratch/ends"

status=0
missing() { # FILE LINE NAME
    echo "tests/make/paths.sh: $1:$2 names $3, which is not there" >&2
    status=1
}
while IFS=: read -r file line path; do
    while [[ $path == ../* ]]; do path=${path#../}; done
    compgen -G "$path" > /dev/null || missing "$file" "$line" "$path"
done < "$scratch/paths"
while IFS=: read -r file line end; do
    pattern=${end//./\\.}
    grep -qE "(^|/)${pattern//\*/[^/]*}\$" "$scratch/files" || missing "$file" "$line" "$end"
done < "$scratch/ends"
[ $status -eq 0 ] || exit 1
echo "ok  $(wc -l < "$scratch/paths") paths and $(wc -l < "$scratch/ends") ends of paths that texts name"
