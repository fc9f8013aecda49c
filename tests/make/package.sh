#!/bin/bash
# Installs by scripts/install.sh into a folder and takes all away again, and makes the Debian packages twice: both have the same bytes, and
# what is in the first one works where it is unpacked, without what the second one depends on.
#   tests/make/package.sh     PROGRAM: the program (build/braildesk)
set -eu
cd "$(dirname "$0")/../.."
. tests/built.sh dpkg-deb
fail() { echo "tests/make/package.sh: $*" >&2; exit 1; }
export PROGRAM=$program LC_ALL=C.UTF-8
version=$(cat src/braildesk/VERSION)

# what is installed, by words of a new user, and nothing left when it is taken away
export DESTDIR=$scratch/installed PREFIX=/opt/braildesk
scripts/install.sh install
at=$DESTDIR$PREFIX
use() { # FOLDER MODULES: a new book by what is installed there, and the packages of Python
    (
        cd "$scratch"
        unset BRAILDESK PYTHONPATH
        rm -f ./*.braildesk*
        [ "$("$1/bin/scribe" --version)" = "scribe $version" ] || fail "$1/bin/scribe shows another version"
        "$1/bin/scribe" new moon.braildesk
        echo 'The moon is far away.' > moon.txt
        "$1/bin/scribe" import moon.braildesk moon.txt
        "$1/bin/scribe" show moon.braildesk
        cp "$1/share/doc/braildesk/examples/moon.braildesk" example.braildesk
        "$1/bin/scribe" show example.braildesk
        mkdir strange
        echo 'raise SystemExit("a module of the folder that somebody is in")' > strange/argparse.py
        (cd strange && PYTHONPATH=: "$1/bin/scribe" --version) || exit 1
        rm -r strange
    ) > "$scratch/shown" 2>&1 || { cat "$scratch/shown" >&2; fail "what is installed below $1 doesn't work"; }
    (cd "$scratch" && "$PYTHON" -BI -c "import sys; sys.path.insert(0, '$2'); import braildesk; print(braildesk.__version__)") > "$scratch/shown.version"
    [ "$(cat "$scratch/shown.version")" = "$version" ] || fail "Python finds no braildesk in $2, or another version"
    grep -q 'new book with the table ueb' "$scratch/shown" || fail "the table ueb is not found below $1"
    grep -q '⠠⠞⠓⠑⠀⠍⠕⠕⠝⠀⠊⠎⠀⠋⠁⠗⠀⠁⠺⠁⠽⠲' "$scratch/shown" || fail "the book made below $1 has other braille"
    grep -q 'Twice a day the sea comes' "$scratch/shown" || fail "the book of the examples below $1 is not shown"
}
use "$at" "$at/share/braildesk/python"
for document in README.md docs/FORMATS.md docs/transcriber.md docs/developers/proofs.md; do
    cmp "$document" "$at/share/doc/braildesk/$document" || fail "$document is not installed"
done
mkdir -p "$at/share/doc/braildesk/mine"
touch "$at/share/doc/braildesk/mine/book.braildesk"
scripts/install.sh uninstall
[ "$(find "$at" -type f)" = "$at/share/doc/braildesk/mine/book.braildesk" ] || fail "left: $(find "$at" -type f)"
unset DESTDIR PREFIX
echo 'ok  installed, used and taken away'

# the packages, twice
export SOURCE_DATE_EPOCH=1767225600
scripts/deb.sh > "$scratch/names"
{ read -r package; read -r desktop; } < "$scratch/names"
cp "$package" "$scratch/first.deb"
cp "$desktop" "$scratch/second.deb"
sleep 1.1
scripts/deb.sh > "$scratch/names"
cmp "$package" "$scratch/first.deb" || fail 'two packages of one program differ'
cmp "$desktop" "$scratch/second.deb" || fail 'two packages of one desktop differ'
[ "$package" = "build/braildesk_${version}_amd64.deb" ] || fail "the package is called $package"
[ "$(dpkg-deb --field "$package" Version)" = "$version" ] || fail 'the package has another version'
dpkg-deb --extract "$package" "$scratch/root"
use "$scratch/root/usr" "$scratch/root/usr/lib/python3/dist-packages"
[ -z "$(find "$scratch/root" -name '*.pyc')" ] || fail 'the package has compiled modules, which it makes where it is installed'
for file in bin/braildesk bin/scribe share/man/man1/scribe.1.gz share/doc/braildesk/copyright share/doc/braildesk/docs/FORMATS.md \
    share/applications/braildesk.desktop share/mime/packages/braildesk.xml share/bash-completion/completions/braildesk; do
    [ -f "$scratch/root/usr/$file" ] || fail "the package lacks $file"
done
(cd "$scratch/root" && dpkg-deb --info "$scratch/first.deb" md5sums | md5sum --check --quiet) || fail 'the sums of the package are wrong'

# what opens a book in a window
[ "$desktop" = "build/braildesk-desktop_${version}_all.deb" ] || fail "the second package is called $desktop"
[ "$(dpkg-deb --field "$desktop" Depends)" = "braildesk (= $version), python3-pyqt6, fonts-dejavu-core" ] || fail 'the second package depends on other packages'
[ "$(dpkg-deb --field "$desktop" Recommends)" = qt6-gtk-platformtheme ] || fail 'the second package recommends other packages'
! dpkg-deb --field "$package" Depends | grep -q pyqt || fail 'the first package depends on Qt'
dpkg-deb --extract "$desktop" "$scratch/desktop"
for file in applications/braildesk-desktop.desktop icons/hicolor/scalable/apps/braildesk.svg \
    icons/hicolor/scalable/mimetypes/application-x-braildesk.svg doc/braildesk-desktop/copyright doc/braildesk-desktop/changelog.gz; do
    [ -f "$scratch/desktop/usr/share/$file" ] || fail "the second package lacks $file"
    [ ! -e "$scratch/root/usr/share/$file" ] || fail "both packages have $file"
done
grep -q '^Exec=scribe window %f$' "$scratch/desktop/usr/share/applications/braildesk-desktop.desktop" || fail 'the desktop opens no window'
for licence in 'GNU General Public License' 'No licence has been given'; do
    grep -q "$licence" "$scratch/desktop/usr/share/doc/braildesk-desktop/copyright" || fail "the copyright of the second package lacks “$licence”"
done
"$PYTHON" -c 'import sys, xml.dom.minidom; xml.dom.minidom.parse(sys.argv[1])' "$scratch/desktop/usr/share/icons/hicolor/scalable/apps/braildesk.svg" ||
    fail 'the icon is no SVG'
(cd "$scratch/desktop" && dpkg-deb --info "$scratch/second.deb" md5sums | md5sum --check --quiet) || fail 'the sums of the second package are wrong'
echo 'ok  the packages: twice the same bytes, unpacked and used'
