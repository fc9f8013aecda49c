"""The operands of a line: characters with their escapes, and dots."""

import re
from typing import TypeAlias

from braildesk.text.characters import shortened

#: The masks of some cells.
Cells: TypeAlias = tuple[int, ...]

_LETTERS = dict(zip("\\fnrstve", "\\\f\n\r \t\v\x1b"))
_DIGITS = {"x": 4, "y": 5, "z": 8}
_ESCAPE = re.compile(
    r"\\(?:([\\fnrstve])|x([0-9a-fA-F]{4})|y([0-9a-fA-F]{5})|z([0-9a-fA-F]{8}))"
)
_SURROGATES = range(0xD800, 0xE000)
_LAST = 0x10FFFF


class BadOperand(Exception):
    """An operand can't be read, with a sentence that says why."""

    def __init__(self, sentence: str) -> None:
        super().__init__(sentence)
        self.sentence = sentence


def characters(operand: str) -> str:
    """The characters that an operand spells; BadOperand if an escape is none."""
    found = []
    place = 0
    while place < len(operand):
        if operand[place] != "\\":
            found.append(operand[place])
            place += 1
            continue
        escape = _ESCAPE.match(operand, place)
        if escape is None:
            raise BadOperand(_no_escape(operand, place))
        found.append(_escaped(escape))
        place = escape.end()
    return "".join(found)


def cells(operand: str) -> Cells:
    """The cells of a dots operand, however many; BadOperand if it is none."""
    return tuple(_cell(part, operand) for part in operand.split("-"))


def _escaped(escape: re.Match[str]) -> str:
    letter, *numbers = escape.groups()
    if letter is not None:
        return _LETTERS[letter]
    number = int("".join(filter(None, numbers)), 16)
    if number > _LAST or number in _SURROGATES:
        raise BadOperand(f"{shortened(escape[0])} names no character of Unicode.")
    return chr(number)


def _no_escape(operand: str, place: int) -> str:
    letter = operand[place + 1 : place + 2]
    if not letter:
        return (
            "A backslash at the end begins no escape: a backslash is written as “\\\\”."
        )
    written = shortened(operand[place : place + 2])
    if letter in _DIGITS:
        return f"After {written} come exactly {_DIGITS[letter]} hexadecimal digits."
    return f"There is no escape {written}: a backslash is written as “\\\\”."


def _cell(part: str, operand: str) -> int:
    """The mask of a cell, which is written as a part of an operand."""
    if part == "0":
        return 0
    if not part:
        raise BadOperand(f"The dots {shortened(operand)} lack a cell beside a hyphen.")
    if not re.fullmatch("[1-8]+", part):
        raise BadOperand(
            f"{shortened(part)} is no cell: a cell is 0, or some of the digits 1 to 8."
        )
    if len(set(part)) < len(part):
        raise BadOperand(f"{shortened(part)} is no cell: it has a dot twice.")
    return sum(1 << (int(dot) - 1) for dot in part)
