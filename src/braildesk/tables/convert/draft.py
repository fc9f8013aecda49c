"""A table of the profile while it is made, its text, and what the program gives by it."""

from __future__ import annotations

import textwrap
import unicodedata
from collections.abc import Sequence
from dataclasses import dataclass, field, replace
from pathlib import Path
from typing import Final

from braildesk.program import translate
from braildesk.protocol.values import Table
from braildesk.refusals import Refused
from braildesk.tables.convert.operands import MOST_CELLS, write_characters, write_dots
from braildesk.tables.operands import Cells
from braildesk.text.characters import visible
from braildesk.workshop import write_tried

MOST_LINES: Final = 20_000
MOST_CHARACTERS: Final = 60
"""The most characters of a rule, and of the two lines of numeric mode."""

KINDS: Final = ("word", "begword", "midword", "endword", "always")
"""The kinds of rules, those bound to a place first: of rules of the same characters the earlier counts."""

ROOM_FOR_COMMENTS: Final = 1_000
COMMENT_WIDTH: Final = 100


@dataclass(frozen=True)
class Origin:
    """Where rules come from, which stands above them in the text, and what each of them is marked with."""

    sentence: str
    mark: str = ""


@dataclass
class TableDraft:
    """Definitions, signs and rules, as they are found one after another."""

    classes: dict[str, str] = field(default_factory=dict)
    cells: dict[str, Cells] = field(default_factory=dict)
    lower: dict[str, str] = field(default_factory=dict)
    signs: dict[str, Cells] = field(default_factory=dict)
    mode: str = ""
    signed_after_numbers: str = ""
    rules: dict[tuple[str, str], tuple[Cells, Origin]] = field(default_factory=dict)

    def define(self, character: str, kind: str, cells: Cells) -> bool:
        """Defines a character, if the profile can have such cells and a table one more line."""
        if not 1 <= len(cells) <= MOST_CELLS:
            return False
        if character not in self.cells and self._is_full():
            return False
        self.classes[character] = kind
        self.cells[character] = cells
        return True

    def drop(self, character: str) -> None:
        """Takes a definition back, and the pair that it was of."""
        self.classes.pop(character, None)
        self.cells.pop(character, None)
        self.lower.pop(character, None)
        for upper in [u for u, lower in self.lower.items() if lower == character]:
            del self.lower[upper]

    def pair(self, upper: str, lower: str) -> None:
        """Says which character is the capital of which."""
        self.lower[upper] = lower

    def fold(self, text: str) -> str:
        """The text with the lower character of each capital."""
        return "".join(self.lower.get(character, character) for character in text)

    def add_rule(
        self, kind: str, characters: str, cells: Cells, origin: Origin
    ) -> bool:
        """Adds a rule in place of an earlier one of that kind, if the profile can have it."""
        folded = self.fold(characters)
        if not 1 <= len(cells) <= MOST_CELLS or not 1 <= len(folded) <= MOST_CHARACTERS:
            return False
        if any(character not in self.cells for character in folded):
            return False
        if (kind, folded) not in self.rules and self._is_full():
            return False
        self.rules[kind, folded] = (cells, origin)
        return True

    def copy(self) -> TableDraft:
        """A draft whose rules may change while those of this one stay."""
        return replace(self, rules=dict(self.rules))

    def _is_full(self) -> bool:
        return len(self.rules) + len(self.cells) + ROOM_FOR_COMMENTS >= MOST_LINES

    def text(self, comments: Sequence[str] = ()) -> str:
        """The text of the table, with comments at the top."""
        definitions = self.text_without_rules()
        top = "".join(line + "\n" for line in comments)
        return top + definitions + "".join(line + "\n" for line in self._rule_lines())

    def text_without_rules(self) -> str:
        """The lines of the table that aren't rules."""
        lines = [*self._sign_lines(), *self._pair_lines()]
        lines += self._definition_lines() + self._mode_lines()
        return "".join(line + "\n" for line in lines)

    def _sign_lines(self) -> list[str]:
        names = ["numsign", "capsletter", "begcapsword"]
        if self.signed_after_numbers:
            names.append("nocontractsign")
        return [
            f"{name} {write_dots(self.signs[name])}"
            for name in names
            if self.signs.get(name)
        ]

    def _pair_lines(self) -> list[str]:
        lines = []
        for upper, lower in self.lower.items():
            dots = [write_dots(self.cells[one]) for one in (upper, lower)]
            operand = dots[0] if dots[0] == dots[1] else ",".join(dots)
            lines.append(f"uplow {write_characters(upper + lower)} {operand}")
        return lines

    def _definition_lines(self) -> list[str]:
        paired = {*self.lower, *self.lower.values()}
        return [
            f"{self.classes[one]} {write_characters(one)} {write_dots(cells)}"
            for one, cells in self.cells.items()
            if one not in paired
        ]

    def _mode_lines(self) -> list[str]:
        lines = []
        if self.mode:
            lines.append(f"numericmodechars {write_characters(self.mode)}")
        if self.signed_after_numbers and self.signs.get("nocontractsign"):
            signed = write_characters(self.signed_after_numbers)
            lines.append(f"numericnocontchars {signed}")
        return lines

    def _rule_lines(self) -> list[str]:
        by_origin: dict[tuple[bool, str], list[str]] = {}
        for (kind, characters), (cells, origin) in self.rules.items():
            bound = kind != "always"
            line = f"{kind} {write_characters(characters)} {write_dots(cells)}"
            line = f"{line} {origin.mark}".rstrip()
            by_origin.setdefault((not bound, origin.sentence), []).append(line)
        return [
            line
            for key in sorted(by_origin)
            for line in [f"# {key[1]}", *by_origin[key]]
        ]


def comment_lines(sentence: str) -> list[str]:
    """A sentence as comment lines of a table."""
    return textwrap.wrap(
        visible(sentence),
        width=COMMENT_WIDTH,
        initial_indent="# ",
        subsequent_indent="#   ",
        break_long_words=False,
        break_on_hyphens=False,
    )


def add_normal_forms(draft: TableDraft) -> None:
    """Defines the normal form of each character like it, with its rules, if the table lacks that.

    Books keep their texts in normal form C: a Greek question mark is a semicolon there, and a table
    that defines the former alone would refuse each question.
    """
    forms = {
        one: form
        for one in draft.cells
        if len(form := unicodedata.normalize("NFC", one)) == 1
        and form not in draft.cells
    }
    for one, form in forms.items():
        draft.define(form, draft.classes[one], draft.cells[one])
    for (kind, characters), (cells, origin) in list(draft.rules.items()):
        written = "".join(forms.get(one, one) for one in characters)
        if written != characters:
            draft.add_rule(kind, written, cells, origin)


class ProgramTrial:
    """Drafts as the program translates by them. Nothing here stands in for the program."""

    def __init__(self, folder: Path) -> None:
        self._folder = folder

    def cells(self, draft: TableDraft, lines: Sequence[str]) -> list[Cells | None]:
        """The cells of each line, or None if the draft lacks a character."""
        return cells_by(write_tried(self._folder, "draft", draft.text()), lines)


def cells_by(table: Path | Table, lines: Sequence[str]) -> list[Cells | None]:
    """The cells of each line by a table, in a file or as a book has it, or None if it lacks a character."""
    return [_cells(answer) for answer in translate(table, lines)]


def _cells(answer: str | Refused) -> Cells | None:
    if isinstance(answer, Refused):
        return None
    # the low byte of each character of Braille Patterns is its cell
    return tuple(answer.encode("utf-16-le")[::2])
