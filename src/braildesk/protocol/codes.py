"""The codes by which something is refused, and the numbers that come with them."""

from collections.abc import Mapping
from enum import IntEnum


class Code(IntEnum):
    """Why something is refused, as docs/FORMATS.md lists it."""

    #: The request isn't in the language.
    NO_REQUEST = 1
    NO_PARAGRAPH = 2
    NO_TABLE = 3
    NO_MARK = 4
    #: The places or cells aren't all there, or a mark is put on no cell.
    OUT_OF_RANGE = 5
    #: A text has a line feed, a carriage return or U+0000.
    BARRED_CHARACTER = 6
    #: The table doesn't define a character of a text.
    UNDEFINED = 7
    BAD_TABLE = 8
    #: The new text of a table doesn't define a character of a print that uses the table.
    UNDEFINED_IN_PRINT = 9
    NOTHING_TO_UNDO = 10
    STRUCK = 11
    NOT_STRUCK = 12
    RESOLVED = 13
    TOO_LONG = 14
    FULL = 15
    #: The book is at another version than was expected.
    VERSION_CONFLICT = 16
    BAD_TABLE_NAME = 17
    BAD_PROOFREADER = 18
    NO_MEMORY = 90
    #: The file of a book failed to keep a command, and the session ends.
    NOT_KEPT = 91
    NOT_A_BOOK = 92
    DAMAGED = 93
    NEWER_FORMAT = 94
    #: A cell has dot 7 or 8, which pages for embossers can't have.
    NOT_FOR_EMBOSSERS = 95
    NO_VOLUME = 96
    BAD_PAGE_SIZE = 97
    CANNOT_OPEN = 98
    #: A book stands already where a new one was to be made.
    BOOK_THERE = 99


def code_of(number: int) -> int:
    """The code of a number, or the number alone if a newer program refuses by it."""
    try:
        return Code(number)
    except ValueError:
        return number


#: The names of the numbers that come with a code.
NUMBERS: Mapping[int, tuple[str, ...]] = {
    Code.BARRED_CHARACTER: ("place",),
    Code.UNDEFINED: ("place",),
    Code.BAD_TABLE: ("line", "cause"),
    Code.UNDEFINED_IN_PRINT: ("paragraph", "place"),
    Code.FULL: ("limit",),
    Code.VERSION_CONFLICT: ("version",),
    Code.DAMAGED: ("table", "id"),
    Code.NOT_FOR_EMBOSSERS: ("paragraph", "cell"),
    Code.BOOK_THERE: ("version",),
}
