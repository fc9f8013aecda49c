"""The braille of a print by a table: its choices, their cells, and which places belong together."""

from dataclasses import dataclass
from typing import Optional

from .table import Cells, Rule, Table


@dataclass(frozen=True)
class Choice:
    """A rule or a definition that is chosen at a place, and its cells with the sign before it."""

    start: int
    length: int
    cells: Cells


def undefined_place(table: Table, text: str) -> Optional[int]:
    """The first place that the table doesn't define, if there is one."""
    return next((at for at, it in enumerate(text) if it not in table.definitions), None)


class Print:
    """A print that a table defines."""

    def __init__(self, table: Table, text: str) -> None:
        self.table, self.text = table, text
        self.folded = table.folded(text)
        self.numeric = self.places_in_numeric_mode()
        self.signs = [self.sign(at) for at in range(len(text))]

    def kind(self, at: int) -> str:
        """The class of the character at a place, or nothing before the first and after the last."""
        return self.table.kind(self.text[at]) if 0 <= at < len(self.text) else ""

    def is_edge(self, at: int) -> bool:
        return self.kind(at) in ("", "space", "punctuation")

    def is_letter(self, at: int) -> bool:
        return self.kind(at) == "letter"

    def is_capital(self, at: int) -> bool:
        return 0 <= at < len(self.text) and self.text[at] in self.table.lower

    def places_in_numeric_mode(self) -> list[bool]:
        found: list[bool] = []
        for at, it in enumerate(self.text):
            goes_on = it in self.table.sets.get("numericmodechars", "")
            before = at > 0 and found[at - 1]
            found.append(self.kind(at) == "digit" or (before and goes_on))
        return found

    def sign(self, at: int) -> Cells:
        follows_number = at > 0 and self.numeric[at - 1]
        if self.kind(at) == "digit":
            return () if follows_number else self.table.sign("numsign")
        if self.is_capital(at):
            return self.sign_of_capital(at)
        could_be_more = self.text[at] in self.table.sets.get("numericnocontchars", "")
        if follows_number and not self.numeric[at] and could_be_more:
            return self.table.sign("nocontractsign")
        return ()

    def sign_of_capital(self, at: int) -> Cells:
        start, end = at, at + 1
        while self.is_capital(start - 1):
            start -= 1
        while self.is_capital(end):
            end += 1
        is_word = end - start > 1 and not self.is_letter(end)
        if not is_word or "begcapsword" not in self.table.signs:
            return self.table.sign("capsletter")
        return self.table.sign("begcapsword") if at == start else ()

    def fits(self, kind: str, start: int, end: int) -> bool:
        """Whether a rule of this kind may stand on these places."""
        before, after = start - 1, end
        return {
            "always": True,
            "word": self.is_edge(before) and self.is_edge(after),
            "begword": self.is_edge(before) and self.is_letter(after),
            "midword": self.is_letter(before) and self.is_letter(after),
            "endword": self.is_letter(before) and self.is_edge(after),
        }[kind]

    def is_candidate(self, rule: Rule, start: int) -> bool:
        end = start + len(rule.characters)
        return (
            self.folded[start:end] == rule.characters
            and self.fits(rule.kind, start, end)
            and not any(self.signs[start + 1 : end])
        )

    def chosen(self, start: int) -> Choice:
        """The longest candidate, of those as long the earliest rule, and the definition last."""
        length, cells = 1, self.table.definitions[self.text[start]].cells
        rules = [it for it in self.table.rules if self.is_candidate(it, start)]
        if rules:
            best = max(rules, key=lambda it: len(it.characters))
            length, cells = len(best.characters), self.table.cells_of_rule(best)
        return Choice(start, length, self.signs[start] + cells)

    def choices(self) -> list[Choice]:
        found: list[Choice] = []
        at = 0
        while at < len(self.text):
            found.append(self.chosen(at))
            at += found[-1].length
        return found


class Braille:
    """The braille of a print."""

    def __init__(self, table: Table, text: str) -> None:
        self.choices = Print(table, text).choices()

    def cells(self) -> Cells:
        return tuple(cell for it in self.choices for cell in it.cells)

    def choice_of_cell(self, cell: int) -> Optional[Choice]:
        """The choice that made a cell."""
        for it in self.choices:
            if cell < len(it.cells):
                return it
            cell -= len(it.cells)
        return None

    def output_place(self, place: int) -> Optional[int]:
        """The first cell of the choice that covers a place."""
        before = 0
        for it in self.choices:
            if place < it.start + it.length:
                return before
            before += len(it.cells)
        return None


def shown(cells: Cells) -> str:
    return "".join(chr(0x2800 + it) for it in cells)
