"""The operands of a table's lines as liblouis has them: cells written as dots, and operands written.

Its characters with their escapes are those of `braildesk.tables.operands`.
"""

from __future__ import annotations

import re
from collections.abc import Iterable
from typing import Final

from braildesk.tables.operands import BadOperand, Cells
from braildesk.text.characters import shortened

MOST_CELLS: Final = 20
"""The most cells of a dots operand of the profile."""

_DOTS: Final = re.compile(r"[0-9a-f]+(?:-[0-9a-f]+)*")
_VIRTUAL: Final = "9abcdef"
_ESCAPED: Final = re.compile(r"[\\ ]|\A#")
_WRITTEN_CELLS: Final = tuple(
    "".join(str(dot) for dot in range(1, 9) if cell >> (dot - 1) & 1) or "0"
    for cell in range(256)
)


def write_characters(characters: str) -> str:
    """An operand that stands for these characters, and begins no comment."""
    if characters.isprintable() and not _ESCAPED.search(characters):
        # as nearly all are, of which each character stands for itself
        return characters
    return "".join(
        _written(character, first=place == 0)
        for place, character in enumerate(characters)
    )


def _written(character: str, *, first: bool) -> str:
    if character == "\\":
        return "\\\\"
    if character == " ":
        return "\\s"
    hidden = not character.isprintable() or character.isspace()
    if hidden or (first and character == "#"):
        code = ord(character)
        return f"\\x{code:04x}" if code <= 0xFFFF else f"\\z{code:08x}"
    return character


def read_dots(operand: str) -> Cells:
    """The cells of a dots operand. One with virtual dots is none of them, for these are no dots of a page."""
    if not _DOTS.fullmatch(operand):
        raise BadOperand(f"{shortened(operand)} is no dots operand.")
    if any(dot in _VIRTUAL for dot in operand):
        raise BadOperand(f"{shortened(operand)} has virtual dots.")
    return tuple(_mask(cell) for cell in operand.split("-"))


def without_virtual_dots(operand: str) -> str:
    """The operand with the dots of a page alone, which is what liblouis writes out in the end."""
    cells = operand.split("-")
    return "-".join(cell.strip("0").translate(_NO_VIRTUAL) or "0" for cell in cells)


_NO_VIRTUAL: Final = {ord(dot): None for dot in _VIRTUAL}


def _mask(cell: str) -> int:
    mask = 0
    for dot in cell:
        if dot != "0":
            mask |= 1 << (int(dot) - 1)
    return mask


def write_dots(cells: Iterable[int]) -> str:
    """A dots operand for these cells."""
    return "-".join([_WRITTEN_CELLS[cell] for cell in cells])


def shown(cells: Iterable[int]) -> str:
    """The cells as characters of Braille Patterns."""
    return "".join(chr(0x2800 + cell) for cell in cells)
