"""Why the cells of a word differ from those of liblouis."""

from __future__ import annotations

import enum
import re
from collections import Counter
from collections.abc import Iterable, Mapping, Sequence
from typing import Final

from braildesk.tables import Table
from braildesk.tables.convert.chooser import Chooser
from braildesk.tables.convert.oracle import Liblouis, stripped
from braildesk.tables.convert.running_text import Word
from braildesk.tables.entries import Class, RuleKind, SignName
from braildesk.tables.operands import Cells

_QUOTES: Final = re.compile("[\"'\u2018\u2019\u201c\u201d\u00ab\u00bb]")


class Difference(enum.Enum):
    """Why a word differs. All but the last are beyond the rules of a table of braildesk.

    A word is beyond them if liblouis gives it other cells alone than in its line, since a rule for
    the word can't say both; or if liblouis hasn't a sign where the table has one, since no rule can
    leave a sign out, move it or cover it. The names of these say what such words have in common.
    """

    PASSAGE = "passages of capitals"
    CAPITALS = "signs of capitals within a word"
    LETTER_SIGN = "a sign of letters before that of a capital"
    NUMBER = "a blank within a number"
    FIRST_MARK = "a number that begins with a mark"
    SIGN = "a sign that liblouis leaves out or has elsewhere"
    QUOTES = "quotation marks that pair"
    NEIGHBOURS = "what stands beyond the blank"
    RULES = "rules that the table lacks"

    @property
    def is_beyond(self) -> bool:
        """Whether rules of a table can't say it."""
        return self is not Difference.RULES


class Judge:
    """Finds causes by the print, by the cells, and by what liblouis gives a word alone."""

    def __init__(self, liblouis: Liblouis, table: Table) -> None:
        self._liblouis: Final = liblouis
        self._table: Final = table
        self._lower: Final[Mapping[str, str]] = table.lower
        self._number: Final = _sign(table, SignName.NUMBER)
        self._capital: Final = _sign(table, SignName.CAPITAL)
        self._capitals: Final = _sign(table, SignName.CAPITALS)
        self._letters: Final = _sign_of_letters(table)
        self._end: Final = self._end_of_capitals()
        self._signs: Final = _SignsInPlace(liblouis, table)

    def causes(self, lines: Sequence[str], words: Sequence[Word]) -> list[Difference]:
        """The cause of each word."""
        alone = self._liblouis.ask(word.text for word in words)
        same = [one.text for one, its in zip(words, alone) if its == one.theirs]
        by_rules = self._signs.fitting(same)
        return [
            (
                Difference.RULES
                if its == word.theirs and word.text in by_rules
                else self._beyond(lines[word.line], word, its != word.theirs)
            )
            for word, its in zip(words, alone, strict=True)
        ]

    def _beyond(self, line: str, word: Word, by_neighbours: bool) -> Difference:
        """The name of what no rule can say."""
        before = line[: word.start].split()[-1:]
        after = line[word.end :].split()[:1]
        if by_neighbours and self._is_in_passage(word.text, before + after):
            return Difference.PASSAGE
        if self._capital and self._has_run_before_small(word.text):
            return Difference.CAPITALS
        if by_neighbours and _is_parted_number(word.text, before, after):
            return Difference.NUMBER
        if self._lacks_sign_of_letters(word):
            return Difference.LETTER_SIGN
        if self._is_of_signs_of_capitals(word):
            return Difference.CAPITALS
        if self._begins_with_mark(word):
            return Difference.FIRST_MARK
        if not by_neighbours:
            return Difference.SIGN
        return Difference.QUOTES if _QUOTES.search(line) else Difference.NEIGHBOURS

    def _end_of_capitals(self) -> Cells:
        """What liblouis has between a run of capitals and a small letter, if anything."""
        if not self._capitals or not self._lower:
            return ()
        upper = max(self._lower, key="QXZ".find)
        small = self._table.definitions[self._lower[upper]].cells
        whole = self._liblouis.cells(upper * 3 + self._lower[upper])
        if whole is None:
            return ()
        return stripped(whole, self._capitals + tuple(small) * 3, tuple(small)) or ()

    def _is_of_signs_of_capitals(self, word: Word) -> bool:
        """Whether a word with capitals is the same without all signs of capitals."""
        if (
            not self._capital
            or word.ours is None
            or self._lower.keys().isdisjoint(word.text)
        ):
            return False
        ours, theirs = (
            _without(_without(cells, self._end), self._capital)
            for cells in (word.ours, word.theirs)
        )
        return ours == theirs

    def _begins_with_mark(self, word: Word) -> bool:
        """Whether liblouis has the sign of a number before a mark, while a table has it after."""
        if not self._number or word.ours is None:
            return False
        for mark, digit in zip(word.text, word.text[1:]):
            if (
                digit.isdigit()
                and not mark.isalnum()
                and mark in self._table.definitions
            ):
                cells = tuple(self._table.definitions[mark].cells)
                if _has(word.ours, cells + self._number) and _has(
                    word.theirs, self._number + cells
                ):
                    return True
        return False

    def _is_in_passage(self, word: str, neighbours: Iterable[str]) -> bool:
        return self._is_in_capitals(word) and any(
            self._is_in_capitals(one) for one in neighbours
        )

    def _is_in_capitals(self, word: str) -> bool:
        """Whether a word has capitals and no small letters."""
        return any(one in self._lower for one in word) and word.upper() == word

    def _has_run_before_small(self, word: str) -> bool:
        """Whether two capitals or more stand before a small letter."""
        capitals = 0
        for one in word:
            if one in self._lower:
                capitals += 1
            else:
                if capitals > 1 and one.isalpha():
                    return True
                capitals = 0
        return False

    def _lacks_sign_of_letters(self, word: Word) -> bool:
        """Whether liblouis has a sign of letters right before one of capitals, while no rule can have it."""
        if not self._capital or not self._letters or word.ours is None:
            return False
        both = self._letters + self._capital
        return _count(word.theirs, both) > _count(word.ours, both)


class _SignsInPlace:
    """Whether liblouis has a sign wherever the table has one, and what is before it within reach of rules."""

    def __init__(self, liblouis: Liblouis, table: Table) -> None:
        self._liblouis: Final = liblouis
        self._table: Final = table
        self._chooser: Final = Chooser(table)
        capitals = [upper + 2 * lower for upper, lower in table.lower.items()]
        digits = [
            one for one, its in table.definitions.items() if its.kind is Class.DIGIT
        ]
        self._others: Final = (capitals[:2], digits[:2])

    def fitting(self, texts: Sequence[str]) -> set[str]:
        """The texts whose cells rules can say, as far as signs go."""
        asked = [*dict.fromkeys(texts)]
        found = zip(asked, self._liblouis.pieces(asked), strict=True)
        before = {text: self._before_signs(text, pieces) for text, pieces in found}
        return {
            text
            for text, borrowed in before.items()
            if borrowed is not None and self._are_within_reach(text, borrowed)
        }

    def _before_signs(
        self, text: str, pieces: Sequence[tuple[str, Cells]]
    ) -> Mapping[int, Cells] | None:
        """What liblouis has before each sign in the piece of its character, or None if it lacks a sign."""
        cells_at: dict[int, Cells] = {}
        place = 0
        for piece, cells in pieces:
            cells_at[place] = cells
            place += len(piece)
        seen = self._chooser.printed(text)
        borrowed: dict[int, Cells] = {}
        for place in range(len(text)):
            sign = seen.sign(place)
            at = _place_of(cells_at.get(place, ()), sign)
            if at is None:
                return None
            if at:
                borrowed[place] = cells_at[place][:at]
        return borrowed

    def _are_within_reach(self, text: str, borrowed: Mapping[int, Cells]) -> bool:
        """Whether a rule for what stands before a sign knows enough to have these cells.

        It sees of the character with the sign only that it is a letter or a digit. So it has them
        only if they don't depend on which one it is, nor on what follows it.
        """
        for place, cells in borrowed.items():
            if place == 0:
                return False
            others = self._others[text[place] not in self._table.lower]
            other = next((one for one in others if one[0] != text[place]), text[place])
            twin = text[:place] + other + text[place + 1 :]
            (pieces,) = self._liblouis.pieces([twin])
            there = self._before_signs(twin, pieces)
            if there is None or there.get(place) != cells:
                return False
        return True


def _place_of(cells: Cells, sign: Cells) -> int | None:
    """Where a sign begins in cells and others follow it, or None if it doesn't."""
    if not sign:
        return 0
    places = range(len(cells) - len(sign))
    return next((at for at in places if cells[at : at + len(sign)] == sign), None)


def _is_parted_number(word: str, before: Sequence[str], after: Sequence[str]) -> bool:
    return any(one[-1:].isdigit() and word[:1].isdigit() for one in before) or any(
        one[:1].isdigit() and word[-1:].isdigit() for one in after
    )


def _sign(table: Table, name: SignName) -> Cells:
    found = table.signs.get(name)
    return tuple(found.cells) if found else ()


def _sign_of_letters(table: Table) -> Cells:
    """What most letters have before them where they stand alone."""
    found: Counter[Cells] = Counter()
    for rule in table.rules:
        if rule.kind is RuleKind.WORD and len(rule.characters) == 1 and rule.cells:
            definition = table.definitions[rule.characters]
            sign = stripped(tuple(rule.cells), (), tuple(definition.cells))
            if sign:
                found[sign] += 1
    return max(found, key=found.__getitem__, default=())


def _has(cells: Cells, part: Cells) -> bool:
    return _count(cells, part) > 0


def _count(cells: Cells, part: Cells) -> int:
    """How often a part stands in cells."""
    size = len(part)
    places = range(len(cells) - size + 1)
    return sum(cells[place : place + size] == part for place in places)


def _without(cells: Cells, part: Cells) -> Cells:
    """Cells without those of a part, wherever it stands."""
    left: list[int] = []
    if not part:
        return cells
    at = 0
    while at < len(cells):
        if cells[at : at + len(part)] == part:
            at += len(part)
        else:
            left.append(cells[at])
            at += 1
    return tuple(left)
