"""What is bad in the text of a table, line by line, each with its cause and a sentence.

The causes are the numbers of docs/FORMATS.md.
"""

from dataclasses import dataclass
from enum import IntEnum

from braildesk.text import limits
from braildesk.text.characters import broken_after, named, near, shortened

#: The characters of a rule or a set, and the cells of a dots operand, at most.
MOST_CHARACTERS = 60
MOST_CELLS = 20


class Cause(IntEnum):
    """Why a line is refused."""

    NO_OPCODE = 1
    MISSING = 2
    CHARACTERS = 3
    DOTS = 4
    DEFINED = 5
    GIVEN = 6
    UNDEFINED = 7
    TOO_LONG = 8
    NOT_UTF8 = 9


@dataclass(frozen=True, slots=True)
class Fault:
    """A line is bad by a cause, and the sentence says what is wrong and what to do."""

    line: int
    cause: Cause
    sentence: str


def no_opcode(line: int, word: str, opcodes: list[str]) -> Fault:
    """The line begins with a word that is no opcode."""
    said = f"{shortened(word)} is no opcode of braildesk.{near(word, opcodes)}"
    return Fault(line, Cause.NO_OPCODE, said)


def missing(line: int, form: str) -> Fault:
    """An operand is missing."""
    return Fault(
        line, Cause.MISSING, f"An operand is missing. The line is written as: {form}."
    )


def bad_characters(line: int, sentence: str) -> Fault:
    """The characters operand can't be read."""
    return Fault(line, Cause.CHARACTERS, sentence)


def wrong_count(line: int, opcode: str, wanted: str, characters: str) -> Fault:
    """The opcode takes another number of characters."""
    return Fault(
        line,
        Cause.CHARACTERS,
        f"{opcode} takes {wanted}, and {shortened(characters)} has {len(characters)}.",
    )


def bad_dots(line: int, sentence: str) -> Fault:
    """The dots operand can't be read."""
    return Fault(line, Cause.DOTS, sentence)


def too_many_parts(line: int, operand: str) -> Fault:
    """The dots of a pair have more than two parts."""
    return Fault(
        line,
        Cause.DOTS,
        f"uplow takes dots, or dots of the capital, a comma and dots of the small letter:"
        f" {shortened(operand)} has more.",
    )


def defined(line: int, character: str, earlier: int) -> Fault:
    """An earlier line defines the character."""
    return Fault(
        line,
        Cause.DEFINED,
        f"{named(character)} is defined by line {earlier:,} already. Take one of the two out.",
    )


def defined_twice(line: int, character: str) -> Fault:
    """A pair has the same character twice."""
    return Fault(
        line,
        Cause.DEFINED,
        f"uplow takes a capital and its small letter, and has {named(character)} twice.",
    )


def given(line: int, opcode: str, earlier: int) -> Fault:
    """An earlier line gives the sign or the set."""
    return Fault(
        line,
        Cause.GIVEN,
        f"{opcode} is given by line {earlier:,} already. Take one of the two out.",
    )


def undefined(line: int, characters: list[str]) -> Fault:
    """No line of the text defines some characters of the line."""
    return Fault(
        line,
        Cause.UNDEFINED,
        f"No line of the table defines {', '.join(map(named, characters))}.",
    )


def long_line(line: int, length: int) -> Fault:
    """The line has too many characters."""
    return _too_long(
        line,
        f"The line has {length:,} characters, and may have"
        f" {limits.TABLE_LINE_CHARACTERS:,}.",
    )


def many_characters(line: int, count: int) -> Fault:
    """A rule or a set has too many characters."""
    return _too_long(
        line, f"The operand has {count:,} characters, and may have {MOST_CHARACTERS}."
    )


def many_cells(line: int, count: int) -> Fault:
    """A dots operand has too many cells."""
    return _too_long(line, f"The dots have {count:,} cells, and may have {MOST_CELLS}.")


def many_lines(line: int) -> Fault:
    """The text has too many lines."""
    return _too_long(
        line,
        f"A table has at most {limits.TABLE_LINES:,} lines, and this one has more.",
    )


def not_utf8(line: int, before: int) -> Fault:
    """The line isn't UTF-8."""
    where = broken_after(before).capitalize()
    return Fault(
        line,
        Cause.NOT_UTF8,
        f"{where} the line isn't UTF-8. Save the table as UTF-8.",
    )


def _too_long(line: int, sentence: str) -> Fault:
    return Fault(line, Cause.TOO_LONG, sentence)
