"""Text in lines of a width, broken between words."""

import re
import unicodedata
from collections.abc import Callable
from functools import lru_cache
from typing import Self

from braildesk.text.cells import BLANKS
from braildesk.text.sequences import JOINING_JAMO, PLAIN, sequences

# the most that a tab takes
TAB_COLUMNS = 8
_BLANKS = "".join(BLANKS)
# a text that ends in blanks would be looked through from each of them to its end
_WORD = re.compile(f"([{_BLANKS}]*)([^{_BLANKS}]+)")
_UNSEEN = ("Mn", "Me")
# where characters that are no part of Unicode yet will be ideographs
_IDEOGRAPHS = (range(0xFA6E, 0xFB00), range(0x20000, 0x2FFFE), range(0x30000, 0x3FFFE))


class Offered(str):
    """A sentence that ends in a command, which stays in one line, as a shell has to be given it."""

    #: How the sentence ends.
    command: str

    def __new__(cls, sentence: str, command: str) -> Self:
        made = super().__new__(cls, f"{sentence} {command}")
        made.command = command
        return made


def columns(text: str) -> int:
    """How many columns of a terminal a text takes."""
    # the first is far quicker, and texts of ASCII are many
    if text.isascii() and text.isprintable() or PLAIN.fullmatch(text):
        return len(text)
    return sum(map(_columns_of, text))


def measure(text: str) -> Callable[[str], int]:
    """What gives the columns that a part of a text takes."""
    is_ascii = text.isascii() and text.isprintable()
    return len if is_ascii or PLAIN.fullmatch(text) else columns


def wrap(text: str, width: int, indent: str = "") -> list[str]:
    """The lines of a text, the later ones after an indent, none over the width.

    Lines are broken at blanks, those of braille too, and the blanks at which they are broken are
    left out. A word that is longer than a line is cut, and no combining sequence is. An empty text
    is one empty line.
    """
    text = text.rstrip(_BLANKS)
    size_of = measure(text)
    if size_of(text) <= width:
        return [text]
    lines = [""]
    taken = 0
    for blanks, word in _WORD.findall(text):
        size = size_of(blanks) + size_of(word)
        if taken + size <= width:
            lines[-1] += blanks + word
            taken += size
            continue
        longer = lines[-1] + blanks + word
        if lines[-1].strip():
            lines.append("")
            longer = indent + word
        lines[-1:] = _cut(longer, width, indent)
        taken = columns(lines[-1])
    return lines


def _cut(line: str, width: int, indent: str) -> list[str]:
    """A line in lines of the width, the later ones after the indent."""
    if columns(line) <= width:
        return [line]
    pieces = [""]
    taken = 0
    for sequence in sequences(line):
        size = columns(sequence)
        if taken + size > width and pieces[-1] not in ("", indent):
            pieces.append(indent)
            taken = len(indent)
        pieces[-1] += sequence
        taken += size
    return pieces


# the same few hundred characters stand all over a text
@lru_cache(maxsize=4096)
def _columns_of(character: str) -> int:
    if character == "\t":
        return TAB_COLUMNS
    category = unicodedata.category(character)
    if category in _UNSEEN or ord(character) in JOINING_JAMO:
        return 0
    if category == "Cn":
        # Python takes all of these for wide, but those among ideographs alone are
        return 2 if any(ord(character) in each for each in _IDEOGRAPHS) else 1
    return 2 if unicodedata.east_asian_width(character) in "WF" else 1
