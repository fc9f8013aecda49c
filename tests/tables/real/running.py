"""Lines of running text in a language, from what a machine has, the same ones each time.

They are the lines of translated manual pages, or the messages of programs. A line is running text if
it has eight words or more, and five sixths of its characters but blanks are letters. The lines are
taken in the order of their digests, so that no hand chooses them; those that come first are for
looking at, and as many after them are held back.
"""

import gzip
import hashlib
import os
import re
import struct
import sys
from collections.abc import Iterable, Iterator
from pathlib import Path

sys.path.insert(0, str(Path(__file__).resolve().parents[3] / "src"))

from braildesk.tables.convert.subject import script_of  # noqa: E402

MANUALS = Path(os.environ.get("MANUALS", "/usr/share/man"))
MESSAGES = Path("/usr/share/locale")
CATALOGS = (
    "bash bfd binutils coreutils dpkg findutils gas git grep ld make sed tar".split()
)
"""The programs whose messages are taken: any Debian has them, or the gate needs them."""

FEWEST_WORDS = 8
LETTERS = 5 / 6
"""The share of letters among the characters of a line, its blanks aside."""

_REQUEST = re.compile(r"[.']")
_FONT = re.compile(r"\\f(?:\[[^]]*\]|\(..|.)|\\s(?:[-+]?\d|\[[^]]*\])")
_NAMED = re.compile(r"\\(?:\((..)|\[([^]]*)\]|(.))")
_CHARACTERS = {
    **{"-": "-", "e": "\\", " ": "\u00a0", "~": "\u00a0", "'": "\u00b4", "`": "`"},
    **{"&": "", ",": "", "/": "", "|": "", "^": "", ":": "", "%": "", "c": ""},
    **{"aq": "'", "dq": '"', "rs": "\\", "ha": "^", "ti": "~", "ga": "`", "hy": "-"},
    **{"oq": "\u2018", "cq": "\u2019", "lq": "\u201c", "rq": "\u201d", "Bq": "\u201e"},
    **{"Fo": "\u00ab", "Fc": "\u00bb", "em": "\u2014", "en": "\u2013", "bq": "\u201a"},
    **{"co": "\u00a9", "rg": "\u00ae", "bu": "\u2022", "at": "@", "sc": "\u00a7"},
}


def is_running(line: str) -> bool:
    """Whether a line is running text."""
    written = [one for one in line if not one.isspace()]
    letters = sum(one.isalpha() for one in written)
    return len(line.split()) >= FEWEST_WORDS and letters >= LETTERS * len(written)


def is_of_script(line: str, script: str) -> bool:
    """Whether at least half of the letters of a line are of a script: others are of untranslated lines."""
    letters = [one for one in line if one.isalpha()]
    return 2 * sum(script_of(one) == script for one in letters) >= len(letters)


def in_order(lines: Iterable[str]) -> list[str]:
    """The lines of running text, none twice, in the order of their digests."""
    found = {line for line in lines if is_running(line)}
    return sorted(found, key=lambda line: hashlib.sha256(line.encode()).digest())


def of_manuals(language: str) -> Iterator[str]:
    """The lines of the manual pages in a language."""
    for path in sorted(MANUALS.glob(f"{language}/man*/*.gz")):
        if path.is_symlink():
            continue
        try:
            text = gzip.decompress(path.read_bytes()).decode()
        except (OSError, EOFError, UnicodeDecodeError):
            continue
        for line in text.split("\n"):
            if not _REQUEST.match(line) and (plain := _plain(line)) is not None:
                yield plain


def _plain(line: str) -> str | None:
    """A line of a manual page without its mark-up, or None if it has some that isn't known here."""
    unknown = False

    def character(found: re.Match[str]) -> str:
        nonlocal unknown
        name = found[1] or found[2] or found[3]
        unknown = unknown or name not in _CHARACTERS
        return _CHARACTERS.get(name, "")

    plain = _NAMED.sub(character, _FONT.sub("", line))
    return None if unknown or plain.endswith("\\") else _single_blanks(plain)


def of_messages(language: str) -> Iterator[str]:
    """The lines of the messages that programs have in a language."""
    folder = MESSAGES / language / "LC_MESSAGES"
    for path in (folder / f"{program}.mo" for program in CATALOGS):
        try:
            messages = list(_messages(path.read_bytes()))
        except (OSError, struct.error, UnicodeDecodeError):
            continue
        for message in messages:
            for line in re.split("[\n\0]", message):
                yield _single_blanks(line)


def _messages(catalog: bytes) -> Iterator[str]:
    """The translated messages of a catalog as gettext compiles it, its head aside."""
    order = "<" if catalog[:4] == b"\xde\x12\x04\x95" else ">"
    count, _, table = struct.unpack_from(f"{order}3I", catalog, 8)
    for at in range(table + 8, table + 8 * count, 8):
        length, start = struct.unpack_from(f"{order}2I", catalog, at)
        yield catalog[start : start + length].decode()


def _single_blanks(line: str) -> str:
    return " ".join(part for part in line.replace("\t", " ").split(" ") if part)
