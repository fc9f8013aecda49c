#!/bin/bash
# Installs the package in a plain Debian, as a new user would: what README.md and the pages of docs/ show is typed there, and
# compared; then the package is removed, and nothing of it is left but a book. lintian looks at the package first.
#   tests/make/plain_debian.sh     as root; MIRROR: where Debian's packages are (where debootstrap looks by itself)
# It isn't part of the gate: it fetches a plain Debian by debootstrap, which takes minutes. PROGRAM is the program (build/braildesk).
set -eu
cd "$(dirname "$0")/../.."
. tests/built.sh dpkg-deb
fail() { echo "tests/make/plain_debian.sh: $*" >&2; exit 1; }
for tool in debootstrap lintian; do command -v $tool > /dev/null || fail "$tool is missing: install it, as by apt-get install $tool"; done
export PROGRAM=$program
package=$(scripts/deb.sh | head -1)
plain=$scratch/plain

# The one error that is meant: no licence has been given yet.
lintian --tag-display-limit 0 "$package" > "$scratch/tags" || true
cat "$scratch/tags"
! grep '^E:' "$scratch/tags" | grep -v license || fail 'lintian finds an error in the package'

debootstrap --variant=minbase bookworm "$plain" ${MIRROR:+"$MIRROR"} > "$scratch/log" 2>&1 ||
    { tail "$scratch/log" >&2; fail 'there is no plain Debian'; }
mount --bind /proc "$plain/proc" && trap 'umount "$plain/proc"; rm -rf "$scratch"' EXIT
list() { (cd "$plain" && find . -xdev \( -path ./proc -o -path ./var -o -path ./home -o -path ./tmp \) -prune -o -type f -print | sort); }
in_plain() { chroot "$plain" env -i HOME=/root PATH=/usr/bin:/usr/sbin:/bin:/sbin LC_ALL=C.UTF-8 DEBIAN_FRONTEND=noninteractive "$@"; }

# what it depends on, and what the documents' tables of liblouis need, comes first, so that it is seen what the package itself leaves
in_plain apt-get install -y --no-install-recommends python3 python3-prompt-toolkit python3-louis liblouis-data > "$scratch/log" 2>&1 || { tail "$scratch/log" >&2; fail 'no Python'; }
list > "$scratch/before"
cp "$package" "$plain/tmp"
in_plain apt-get install -y "/tmp/${package##*/}" > "$scratch/log" 2>&1 || { tail "$scratch/log" >&2; fail 'the package is not installed'; }
[ -n "$(find "$plain/usr/lib/python3/dist-packages/braildesk" -name '*.pyc')" ] || fail 'the packages of Python are not compiled'
in_plain useradd --create-home writer
in_plain su writer -c "cd && python3 -c 'import braildesk; print(braildesk.__version__)'" > "$scratch/version" || fail 'Python does not find braildesk'
[ "$(cat "$scratch/version")" = "$(cat src/braildesk/VERSION)" ] || fail 'Python finds another version of braildesk'
mkdir "$plain/home/writer/tree"
cp -r README.md docs sample tests "$plain/home/writer/tree"
in_plain chown -R writer /home/writer
in_plain su writer -c 'cd ~/tree && tests/program/tutorial.sh --installed' || fail 'the documents show something else in a plain Debian'
in_plain su writer -c 'cd && scribe new moon.braildesk && cp /usr/share/doc/braildesk/examples/moon.braildesk sample.braildesk && scribe show sample.braildesk > /dev/null' ||
    fail 'the example book is not shown'
in_plain apt-get purge -y braildesk > "$scratch/log" 2>&1 || { tail "$scratch/log" >&2; fail 'the package is not removed'; }
list > "$scratch/after"
diff <(grep -v -E '^\./etc/(passwd|group|shadow|gshadow|sub[ug]id)-?$' "$scratch/before") \
    <(grep -v -E '^\./etc/(passwd|group|shadow|gshadow|sub[ug]id)-?$' "$scratch/after") || fail 'something is left of the package (> left)'
[ -s "$plain/home/writer/moon.braildesk" ] || fail 'the book is gone'
echo 'ok  installed in a plain Debian, used, removed, and a book is all that is left'
