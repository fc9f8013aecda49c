#!/bin/bash
# Makes the Debian packages of what `make` built, build/braildesk_VERSION_amd64.deb and build/braildesk-desktop_VERSION_all.deb, and prints
# their names. The second has what opens a book in a window, and depends on Qt. Two runs over one commit and one program give the same
# bytes: all files have one time, and one order.
#   scripts/deb.sh     SOURCE_DATE_EPOCH: that time, in seconds since 1970 (that of the last commit; PROGRAM as scripts/install.sh has it)
set -eu
cd "$(dirname "$0")/.."
version=$(cat src/braildesk/VERSION)
SOURCE_DATE_EPOCH=${SOURCE_DATE_EPOCH:-$(git log -1 --format=%ct)}
export SOURCE_DATE_EPOCH LC_ALL=C
umask 022

made=$(mktemp -d); trap 'rm -rf "$made"' EXIT

# Gives a package what Debian wants of each, and makes it: a copyright file, a compressed list of changes, sums.
pack() { # NAME ARCHITECTURE, the folder in packaging/ or packaging itself
    local root=$made/$1 package=build/$1_${version}_$2.deb documents=$made/$1/usr/share/doc/$1
    install -D -m 644 "$3/copyright" "$documents/copyright"
    {
        printf '%s (%s) stable; urgency=medium\n\n' "$1" "$version"
        awk '/^## /{ if (found) exit; found = 1; next } found && NF { sub(/^- /, "* "); print "  " $0 }' CHANGELOG.md | fmt --tagged-paragraph --width=78
        printf '\n -- %s  %s\n' "$(sed -n 's/^Maintainer: //p' "$3/control")" "$(date -uRd "@$SOURCE_DATE_EPOCH")"
    } | gzip -9n > "$documents/changelog.gz"
    mkdir "$root/DEBIAN"
    (cd "$root" && find usr -type f | sort | xargs -d '\n' md5sum) > "$root/DEBIAN/md5sums"
    for script in postinst prerm; do
        [ ! -e "$3/$script" ] || install -m 755 "$3/$script" "$root/DEBIAN/$script"
    done
    local size
    size=$(du -sk --apparent-size "$root/usr" | cut -f1)
    sed "s/@VERSION@/$version/; s/@SIZE@/$size/" "$3/control" > "$root/DEBIAN/control"
    find "$root" -exec touch --no-dereference --date="@$SOURCE_DATE_EPOCH" {} +
    dpkg-deb --root-owner-group --build -Zxz "$root" "$package" > /dev/null
    echo "$package"
}

root=$made/braildesk
mkdir -m 755 "$root"
DESTDIR=$root PREFIX=/usr MODULES=lib/python3/dist-packages PYTHON=/usr/bin/python3 scripts/install.sh install
# no names of symbols, and compressed pages
strip --strip-unneeded --remove-section=.comment --remove-section=.note "$root/usr/bin/braildesk"
gzip -9n "$root"/usr/share/man/man1/*.1
pack braildesk amd64 packaging

share=$made/braildesk-desktop/usr/share
install -D -m 644 packaging/desktop/braildesk-desktop.desktop "$share/applications/braildesk-desktop.desktop"
install -D -m 644 packaging/desktop/braildesk.svg "$share/icons/hicolor/scalable/apps/braildesk.svg"
install -D -m 644 packaging/desktop/braildesk.svg "$share/icons/hicolor/scalable/mimetypes/application-x-braildesk.svg"
pack braildesk-desktop all packaging/desktop
