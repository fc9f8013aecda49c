#!/bin/bash
# Measures contracted tables that `scribe bring --for` makes for texts, by the built program against liblouis.
#   tests/tables/contracted.sh FOLDER [TEXT ..]
# FOLDER gets Debian's packages with the texts and the lists of words, by apt-get download, the texts, and the tables; what is there
# already is used again. TEXT is one of those that contracted.py lists, as install.de; tables are made for those that are named, and
# compared on them. Without a name all are measured, which takes an hour of a processor. Rules for a list of words are learned once and
# kept in FOLDER. What is found is put into contracted.tsv and the tables of contracted.md of src/braildesk/tables/convert. The gate
# doesn't run this.
set -eu
cd "$(dirname "$0")/../.."
python=${PYTHON:-/usr/bin/python3}
[ $# -gt 0 ] || { echo 'tests/tables/contracted.sh: say in which folder the texts and tables are kept' >&2; exit 1; }
"$python" -c 'import louis' || { echo 'tests/tables/contracted.sh: python3-louis is missing: install it, as by apt-get install python3-louis' >&2; exit 1; }
folder=$(realpath "$1")
shift
mkdir -p "$folder/packages" "$folder/tree"
for package in wbritish wngerman wfrench debian-handbook installation-guide-amd64 dict-devil anarchism \
    wesnoth-1.16-httt gnome-user-docs debian-faq debian-faq-de debian-faq-fr debian-reference-{en,de,fr} \
    developers-reference{,-de,-fr} gimp-help-{en,de,fr} aptitude-doc-{en,fr} \
    gnucash-docs postgresql-doc-15 python3.11-doc git-doc apache2-doc; do
    (cd "$folder/packages" && [ -n "$(ls "$package"_*.deb 2>/dev/null)" ] || apt-get download -q "$package")
    [ -e "$folder/tree/usr/share/doc/$package" ] || dpkg-deb -x "$folder/packages/$package"_*.deb "$folder/tree"
done
export PYTHONPATH=$PWD/src XDG_CACHE_HOME=$folder/cache
export BRAILDESK=${BRAILDESK:-$PWD/build/braildesk}
"$python" tests/tables/contracted.py "$folder" "$@"
