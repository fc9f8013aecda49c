#!/bin/sh
# Looks for all that the gate needs. As root on Debian it installs what is missing; elsewhere, and where that doesn't help, it says in
# one line what to install, and fails.
#   tests/needs.sh             all that the gate needs
#   tests/needs.sh NAME..      these alone, and it installs nothing: so a script asks for what it uses
#   RT: the toolchain's command (rt); PYTHON: the Python that runs the tests (that of tests/python.sh)
set -u
cd "$(dirname "$0")/.." || exit 1
RT=${RT:-rt}
PYTHON=${PYTHON:-$(tests/python.sh)}

# How each thing is looked for, its name, and Debian's packages of it.
gate='
toolchain rt
command   bash            bash
command   awk             mawk
command   git             git
command   sqlite3         sqlite3
command   valgrind        valgrind
command   dpkg-deb        dpkg
command   strip           binutils
compiler  cc              gcc libc6-dev
python    python          python3
'
# What the Python of src/ and its tests need besides.
tools='
module    prompt_toolkit  python3-prompt-toolkit
module    pexpect         python3-pexpect
module    pyte            python3-pyte
module    pytest          python3-pytest
module    hypothesis      python3-hypothesis
module    louis           python3-louis
module    mypy            mypy
module    black           black
module    pyflakes        python3-pyflakes
module    setuptools      python3-setuptools
module    wheel           python3-wheel
module    pip             python3-pip
louis     lou_translate   liblouis-bin liblouis-data
command   pandoc          pandoc
module    PyQt6           python3-pyqt6
module    gi              python3-gi
atspi     atspi           gir1.2-atspi-2.0 at-spi2-core
command   xvfb-run        xvfb
command   xauth           xauth
command   dbus-run-session dbus
font      dejavu          fonts-dejavu-core
'
needed=$gate
[ ! -d src ] || needed=$gate$tools

is_there() { # HOW NAME
    case $1 in
        toolchain) command -v "$RT" ;;
        command) command -v "$2" ;;
        compiler) echo '#include <stdio.h>' | "$2" -x c -fsyntax-only - ;;
        python) "$PYTHON" -c 'import sys; sys.exit(sys.version_info < (3, 9))' ;;
        module) "$PYTHON" -c "import $2" ;;
        atspi) "$PYTHON" -c 'import gi; gi.require_version("Atspi", "2.0"); from gi.repository import Atspi' && [ -x /usr/libexec/at-spi-bus-launcher ] ;;
        font) [ -e /usr/share/fonts/truetype/dejavu/DejaVuSerif.ttf ] ;;
        louis) echo a | "$2" en-us-g1.ctb ;;
    esac > /dev/null 2>&1
}

# how a thing is called in a sentence
called() { # HOW NAME
    case $1 in
        toolchain) echo "the command '$RT' of the Rattle toolchain (RT=PATH says where it is)" ;;
        compiler) echo "the C compiler $2 with the headers of the C library" ;;
        python) echo "Python 3.9 or later (PYTHON=$PYTHON)" ;;
        module) echo "$2 of Python" ;;
        louis) echo "$2 with its tables" ;;
        atspi) echo "the accessibility bus with Atspi for Python" ;;
        font) echo "the fonts DejaVu" ;;
        *) echo "$2" ;;
    esac
}

# Sets what is missing, in words, and the packages of it.
look() { # NAME..
    missing='' packages='' known='' only=" $* "
    while read -r how name of_it; do
        known="$known $name "
        case $only in "  " | *" $name "*) ;; *) continue ;; esac
        if [ -z "$how" ] || is_there "$how" "$name"; then continue; fi
        missing="$missing${missing:+, }$(called "$how" "$name")"
        packages="$packages${of_it:+ $of_it}"
    done << END
$needed
END
    for name in "$@"; do
        case $known in *" $name "*) ;; *) missing="$missing${missing:+, }$name, of which nothing is known here" ;; esac
    done
}

look "$@"
if [ -n "$packages" ] && [ $# -eq 0 ] && [ "$(id -u)" -eq 0 ] && command -v apt-get > /dev/null; then
    echo "tests/needs.sh: installing$packages" >&2
    # each package is a word of its own
    # shellcheck disable=SC2086
    { apt-get update; DEBIAN_FRONTEND=noninteractive apt-get install -y $packages; } >&2
    look
fi
[ -z "$missing" ] || {
    echo "tests/needs.sh: missing: $missing.${packages:+ Install what is missing, as by: apt-get install$packages}" >&2
    exit 1
}
