"""Cells of braille as characters of Braille Patterns and as bytes of North American Braille ASCII."""

import re
from collections.abc import Iterable
from enum import StrEnum

from braildesk.text.spans import Span

EMPTY_CELL = "\u2800"
#: The characters between words, of print and of braille.
BLANKS = (" ", "\t", EMPTY_CELL)
_PATTERNS = range(0x2800, 0x2900)
_ASCII = " A1B'K2L@CIF/MSP\"E3H9O6R^DJG>NTQ,*5<-U8V.%[$+X!&;:4\\0Z7(_?W]#Y)="
# the letter of each mask of the dots 1 to 6
_LETTERS = _ASCII.encode().ljust(256)
_SIX_DOTS = re.compile("[\u2800-\u283f]*")
_TO_ASCII = {chr(0x2800 + mask): letter for mask, letter in enumerate(_ASCII)}
_FROM_ASCII = {letter: pattern for pattern, letter in _TO_ASCII.items()}
_SMALL_LETTERS = {chr(code): chr(code - 0x20) for code in range(0x60, 0x7F)}


_SMALL = {ord(letter): small for small, letter in _SMALL_LETTERS.items()}


class Notation(StrEnum):
    """How cells are written for a person."""

    #: Characters of Braille Patterns.
    UNICODE = "unicode"
    #: Braille ASCII.
    ASCII = "ascii"
    #: Braille ASCII with small letters: a display of 8 dots shows a capital with dot 7.
    SMALL = "ascii-small"

    def write(self, braille: str) -> str:
        """Cells that are given as characters of Braille Patterns."""
        match self:
            case Notation.UNICODE:
                return braille
            case Notation.ASCII:
                return braille_ascii(braille)
        return braille_ascii(braille).translate(_SMALL)


class NotCells(ValueError):
    """A text has a character that is no cell."""


def braille_ascii(braille: str) -> str:
    """Cells in Braille ASCII; those with dot 7 or 8, which it lacks, stay as they are."""
    if _SIX_DOTS.fullmatch(braille):
        # the lower byte of each is the mask of its dots
        masks = braille.encode("utf-16-le")[::2]
        return masks.translate(_LETTERS).decode("ascii")
    return "".join(_TO_ASCII.get(cell, cell) for cell in braille)


def braille_patterns(text: str) -> str:
    """Cells that are given in Braille ASCII, small letters too, or as characters of Braille Patterns.

    A blank is an empty cell in both.
    """
    if any(ord(character) in _PATTERNS for character in text):
        return "".join(_cell(character, {" ": EMPTY_CELL}) for character in text)
    letters = (_SMALL_LETTERS.get(character, character) for character in text)
    return "".join(_cell(letter, _FROM_ASCII) for letter in letters)


def with_dots(braille: str, dot: int, spans: Iterable[Span]) -> str:
    """Cells that have one dot more in some spans."""
    cells = list(braille)
    for span in spans:
        for place in range(span.start, min(span.stop, len(cells))):
            cells[place] = chr(ord(cells[place]) | 1 << dot - 1)
    return "".join(cells)


def _cell(character: str, cells: dict[str, str]) -> str:
    cell = cells.get(character, character)
    if ord(cell) not in _PATTERNS:
        raise NotCells(character)
    return cell
