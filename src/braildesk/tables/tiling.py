"""A print in pieces: which rule or definition is chosen at each place of it, and its cells."""

from collections.abc import Iterable
from dataclasses import dataclass
from itertools import groupby

from braildesk.tables.entries import (
    Class,
    Definition,
    RuleKind,
    Rule,
    SetName,
    Sign,
    SignName,
)
from braildesk.tables.operands import Cells
from braildesk.tables.table import Table


_FIRST_PATTERN = 0x2800


@dataclass(frozen=True, slots=True)
class Piece:
    """Some characters of a print, what was chosen for them, and the sign before them."""

    text: str
    chosen: Rule | Definition
    sign: Sign | None
    #: The cells, those of the sign first.
    cells: Cells

    @property
    def braille(self) -> str:
        """The cells as characters of Braille Patterns."""
        return "".join(chr(_FIRST_PATTERN + cell) for cell in self.cells)


def undefined_place(table: Table, text: str) -> int | None:
    """The first place of a print that the table doesn't define, if there is one."""
    places = (n for n, each in enumerate(text) if each not in table.definitions)
    return next(places, None)


def pieces(table: Table, text: str) -> list[Piece]:
    """The pieces of a print that the table defines."""
    before = signs(table, text)
    folded = table.folded(text)
    found: list[Piece] = []
    place = 0
    while place < len(text):
        chosen = _chosen(table, text, folded, before, place)
        stop = place + (len(chosen.characters) if isinstance(chosen, Rule) else 1)
        sign = before[place]
        cells = (sign.cells if sign else ()) + table.cells_of(chosen)
        found.append(Piece(text[place:stop], chosen, sign, cells))
        place = stop
    return found


def braille(found: Iterable[Piece]) -> str:
    """The braille of some pieces."""
    return "".join(piece.braille for piece in found)


def _chosen(
    table: Table, text: str, folded: str, before: list[Sign | None], place: int
) -> Rule | Definition:
    """The longest rule that fits, of those as long the earliest, else the definition."""
    for rule in table.by_first.get(folded[place], ()):
        stop = place + len(rule.characters)
        if (
            folded.startswith(rule.characters, place)
            and fits(
                table, rule.kind, text[max(place - 1, 0) : place], text[stop : stop + 1]
            )
            and not any(before[place + 1 : stop])
        ):
            return rule
    return table.definitions[text[place]]


def fits(table: Table, kind: RuleKind, left: str, right: str) -> bool:
    """Whether a rule may stand between two characters, which are empty at the print's ends."""
    match kind:
        case RuleKind.WORD:
            return _is_edge(table, left) and _is_edge(table, right)
        case RuleKind.BEGWORD:
            return _is_edge(table, left) and table.is_of(Class.LETTER, right)
        case RuleKind.MIDWORD:
            return table.is_of(Class.LETTER, left) and table.is_of(Class.LETTER, right)
        case RuleKind.ENDWORD:
            return table.is_of(Class.LETTER, left) and _is_edge(table, right)
    return True


def _is_edge(table: Table, character: str) -> bool:
    return (
        not character
        or table.is_of(Class.SPACE, character)
        or table.is_of(Class.PUNCTUATION, character)
    )


def signs(table: Table, text: str) -> list[Sign | None]:
    """The sign before each character of a print that the table defines."""
    numeric = _numeric_mode(table, text)
    found = _signs_of_capitals(table, text)
    for place, character in enumerate(text):
        follows_number = place > 0 and numeric[place - 1]
        if table.is_of(Class.DIGIT, character):
            if not follows_number:
                found[place] = table.signs.get(SignName.NUMBER)
        elif (
            follows_number
            and not numeric[place]
            and not table.is_capital(character)
            and table.has(SetName.NEED_SIGN, character)
        ):
            found[place] = table.signs.get(SignName.LETTER_AFTER_NUMBER)
    return found


def _numeric_mode(table: Table, text: str) -> list[bool]:
    """Which places are in a number: digits, and characters that go on with one."""
    found: list[bool] = []
    is_in = False
    for character in text:
        goes_on = is_in and table.has(SetName.GO_ON, character)
        is_in = goes_on or table.is_of(Class.DIGIT, character)
        found.append(is_in)
    return found


def _signs_of_capitals(table: Table, text: str) -> list[Sign | None]:
    """The signs of the capitals, which depend on their runs."""
    found: list[Sign | None] = []
    for are_capitals, group in groupby(text, table.is_capital):
        length = len(list(group))
        if not are_capitals:
            found += [None] * length
            continue
        after = text[len(found) + length : len(found) + length + 1]
        word = table.signs.get(SignName.CAPITALS)
        if word is not None and length > 1 and not table.is_of(Class.LETTER, after):
            found += [word, *[None] * (length - 1)]
        else:
            found += [table.signs.get(SignName.CAPITAL)] * length
    return found
