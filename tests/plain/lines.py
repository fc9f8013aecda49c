"""What `translate` answers to the lines of an input."""

from .braille import Braille, shown, undefined_place
from .table import Table, lines_of

MOST_BYTES = 65_536
MOST_CHARACTERS = 4_000


def answer(table: Table, line: bytes) -> str:
    try:
        text = line.decode("utf-8")
    except UnicodeDecodeError:
        return "no 1"
    if len(line) > MOST_BYTES:
        return "no 1"
    if len(text) > MOST_CHARACTERS:
        return "no 14"
    place = undefined_place(table, text)
    return shown(Braille(table, text).cells()) if place is None else f"no 7 {place}"


def translated(table: Table, data: bytes) -> bytes:
    """What is written of an input."""
    return "".join(answer(table, it) + "\n" for it in lines_of(data)).encode()
