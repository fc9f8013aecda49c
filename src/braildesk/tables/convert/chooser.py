"""What a table chooses at each place of a print, fast enough to try thousands of rules.

It chooses as the program does, by rules that come and go. Figures are never taken from here: what
is found by it is compared with liblouis by the program's own cells.
"""

from __future__ import annotations

from collections.abc import Iterable, Mapping
from dataclasses import dataclass
from typing import Final

from braildesk.tables import Table
from braildesk.tables.entries import Class, RuleKind
from braildesk.tables.operands import Cells
from braildesk.tables.tiling import signs

WORD, BEGINNING, MIDDLE, END, ALWAYS = map(
    str,
    (
        RuleKind.WORD,
        RuleKind.BEGWORD,
        RuleKind.MIDWORD,
        RuleKind.ENDWORD,
        RuleKind.ALWAYS,
    ),
)
EDGE: Final = "e"
LETTER: Final = "l"
DIGIT: Final = "d"
SIDES: Final[Mapping[Class, str]] = {
    Class.SPACE: EDGE,
    Class.PUNCTUATION: EDGE,
    Class.LETTER: LETTER,
    Class.DIGIT: DIGIT,
}
KIND_BETWEEN: Final[Mapping[str, str]] = {
    EDGE + EDGE: WORD,
    EDGE + LETTER: BEGINNING,
    LETTER + LETTER: MIDDLE,
    LETTER + EDGE: END,
}
"""The kind of rule that is bound to the place between two sides."""

Choice = tuple[int, int, Cells, str | None]
"""A place, the place after what is chosen there, its cells with the sign before them, and the kind
of the rule, or None for a definition."""

Rule = tuple[str, str, Cells]
"""The kind of a rule, its characters with small letters, and its cells."""


@dataclass(frozen=True, slots=True)
class Print:
    """A print as rules see it."""

    text: str
    folded: str
    sides: str
    """What each character is to its neighbours, with an edge before the first and after the last."""
    signs: tuple[Cells, ...] | None
    """The sign before each character, or None if no character has one."""
    reach: tuple[int, ...] | None
    """How many characters there are from each place to the next sign, if there are signs."""

    def kind(self, start: int, end: int) -> str | None:
        """The kind of rule that is bound to a place, or None beside a digit."""
        return KIND_BETWEEN.get(self.sides[start] + self.sides[end + 1])

    def sign(self, place: int) -> Cells:
        """The sign before a character."""
        return self.signs[place] if self.signs else ()

    def room(self, place: int) -> int:
        """How many characters a rule may cover from a place on."""
        return self.reach[place] if self.reach else len(self.folded) - place


class Chooser:
    """The definitions and signs of a table, and rules."""

    def __init__(self, table: Table) -> None:
        self._table: Final = table
        self._cells: Final = {
            each: tuple(definition.cells)
            for each, definition in table.definitions.items()
        }
        self._sides: Final = {
            each: SIDES[definition.kind]
            for each, definition in table.definitions.items()
        }
        self._signed: Final = {
            each
            for each in self._sides
            if each in table.lower or self._sides[each] is DIGIT
        }
        self._rules: dict[str, dict[str, Cells]] = {}
        self._sizes: dict[str, list[int]] = {}
        for rule in table.rules:
            known = self._rules.get(rule.characters, {})
            # of the same characters the earlier line counts, and one for all places ends the matter
            if rule.kind not in known and ALWAYS not in known:
                self.add((str(rule.kind), rule.characters, tuple(table.cells_of(rule))))

    def __len__(self) -> int:
        return sum(map(len, self._rules.values()))

    def add(self, rule: Rule) -> None:
        """Adds a rule, in place of one of its kind and characters."""
        kind, characters, cells = rule
        self._rules.setdefault(characters, {})[kind] = cells
        sizes = self._sizes.setdefault(characters[:2], [])
        if len(characters) not in sizes:
            sizes.append(len(characters))
            sizes.sort(reverse=True)

    def remove(self, kind: str, characters: str) -> None:
        """Takes a rule away."""
        known = self._rules[characters]
        del known[kind]
        if not known:
            del self._rules[characters]

    def put_back(self, kind: str, characters: str, cells: Cells | None) -> None:
        """Gives a rule the cells that it had, or takes it away if there was none."""
        if cells is None:
            self.remove(kind, characters)
        else:
            self.add((kind, characters, cells))

    def cells_of(self, kind: str, characters: str) -> Cells | None:
        """The cells of a rule, or None if there is none."""
        return self._rules.get(characters, {}).get(kind)

    def whole_words(self) -> list[str]:
        """The words that have one cell, by a rule for the whole word."""
        return [
            characters
            for characters, known in self._rules.items()
            if len(known.get(WORD, ())) == 1 and characters.isalpha()
        ]

    def lacking(self, text: str) -> set[str]:
        """The characters of a text that the table doesn't define."""
        return {each for each in text if each not in self._cells}

    def is_word(self, text: str) -> bool:
        """Whether a text begins and ends with a letter."""
        sides = self._sides
        return sides.get(text[:1]) is LETTER and sides.get(text[-1:]) is LETTER

    def printed(self, text: str) -> Print:
        """A text that the table defines, as rules see it."""
        sides = EDGE + "".join([self._sides[each] for each in text]) + EDGE
        if self._signed.isdisjoint(text):
            return Print(text, text, sides, None, None)
        folded = self._table.folded(text)
        found = signs(self._table, text)
        if not any(found):
            return Print(text, folded, sides, None, None)
        cells = tuple(tuple(sign.cells) if sign else () for sign in found)
        reach = [0] * len(text)
        room = 0
        for place in range(len(text) - 1, -1, -1):
            room += 1
            reach[place] = room
            if found[place]:
                room = 0
        return Print(text, folded, sides, cells, tuple(reach))

    def choices(self, seen: Print, start: int = 0) -> list[Choice]:
        """What is chosen at each place, from one on."""
        found: list[Choice] = []
        while start < len(seen.text):
            end, cells, kind = self._chosen(seen, start)
            if seen.signs:
                cells = seen.signs[start] + cells
            found.append((start, end, cells, kind))
            start = end
        return found

    def cells(self, seen: Print, start: int = 0) -> Cells:
        """The cells of a print, from a place on."""
        return cells_of(self.choices(seen, start))

    def _chosen(self, seen: Print, start: int) -> tuple[int, Cells, str | None]:
        """The longest rule that fits, one for its place before one for all, else the definition."""
        text, sides = seen.folded, seen.sides
        room = seen.room(start)
        for front in (text[start : start + 2], text[start]):
            for size in self._sizes.get(front, ()):
                end = start + size
                known = self._rules.get(text[start:end]) if size <= room else None
                if known is not None:
                    kind = KIND_BETWEEN.get(sides[start] + sides[end + 1])
                    if kind in known:
                        return end, known[kind], kind
                    if ALWAYS in known:
                        return end, known[ALWAYS], ALWAYS
        return start + 1, self._cells[seen.text[start]], None


def cells_of(choices: Iterable[Choice]) -> Cells:
    """The cells of all that was chosen."""
    return tuple([cell for choice in choices for cell in choice[2]])
