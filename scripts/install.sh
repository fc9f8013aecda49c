#!/bin/bash
# Installs what `make` built, with the command scribe, tables, manual pages, documents, examples and what a desktop needs, or takes
# all that away again.
#   scripts/install.sh install|uninstall
# PREFIX (/usr/local) is where it is used, and DESTDIR (nothing) the folder below which PREFIX is written, as for a package. PROGRAM
# (build/braildesk) is the program, PYTHON (that of tests/python.sh) the Python that runs scribe. MODULES is the folder of PREFIX for the
# packages of Python; without it that is share/braildesk/python, where they are compiled.
set -eu
cd "$(dirname "$0")/.."
action=${1:?install or uninstall?}
program=${PROGRAM:-build/braildesk}
below=${DESTDIR-}${PREFIX:-/usr/local}
documents=share/doc/braildesk
modules=${MODULES:-share/braildesk/python}
python=$(command -v "${PYTHON:-$(tests/python.sh)}")
made=$(mktemp -d); trap 'rm -rf "$made"' EXIT # what is made for installing alone

# Every file that is installed: its mode, where it is and where it goes.
files() {
    local file
    echo "755 $program bin/braildesk"
    echo "755 $made/scribe bin/scribe"
    (cd src && find braildesk scribe -type f -not -name '*.pyc') | while IFS= read -r file; do
        echo "644 src/$file $modules/$file"
    done
    for file in docs/*.1; do echo "644 $file share/man/man1/${file##*/}"; done
    for file in README.md CHANGELOG.md CONTRIBUTING.md docs/*.md docs/developers/*.md docs/*.png; do echo "644 $file $documents/$file"; done
    for file in sample/*.txt sample/*.utb sample/*.py; do echo "644 $file $documents/examples/${file##*/}"; done
    echo "644 $made/moon.braildesk $documents/examples/moon.braildesk"
    for file in completions/*.bash; do echo "644 $file share/bash-completion/completions/$(basename "$file" .bash)"; done
    echo "644 packaging/braildesk.desktop share/applications/braildesk.desktop"
    echo "644 packaging/braildesk.xml share/mime/packages/braildesk.xml"
}

# The command scribe with the Python that runs it, which keeps nothing beside its modules, takes none from the folder it is run in or from
# where the environment says, and leaves the folders of other packages to it, and the book of the examples.
make_files() {
    { echo "#!$python -BIS"; tail -n +2 bin/scribe; } > "$made/scribe"
    "$program" new "$made/moon.braildesk" > /dev/null
    "$program" session "$made/moon.braildesk" < sample/book.txt > /dev/null
}

remove_modules() { rm -rf "${below:?}/$modules/braildesk" "${below:?}/$modules/scribe"; }

case $action in
    install)
        make_files
        remove_modules # with those of an older version
        files | while read -r mode file place; do install -D -m "$mode" "$file" "$below/$place"; done
        # by their contents, so that they may be moved and packed as any other file, and for all who run scribe
        umask 022
        [ -n "${MODULES-}" ] || "$python" -m compileall -q --invalidation-mode checked-hash ${DESTDIR:+-s "$DESTDIR"} "$below/$modules"
        ;;
    uninstall)
        remove_modules
        files | while read -r mode file place; do rm -f "$below/$place"; done
        for folder in share/braildesk "$documents"; do
            [ ! -d "$below/$folder" ] || find "$below/$folder" -depth -type d -empty -delete
        done
        ;;
    *)
        echo "scripts/install.sh: install or uninstall, and not '$action'" >&2
        exit 1
        ;;
esac
