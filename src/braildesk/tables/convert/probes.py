"""Characters in places: between edges of words, letters and digits, as liblouis is asked for them."""

from __future__ import annotations

import enum
from collections.abc import Iterable, Iterator, Sequence
from dataclasses import dataclass, replace
from itertools import islice
from typing import Final

from braildesk.tables.convert.draft import TableDraft
from braildesk.tables.convert.numbers import sample_digits
from braildesk.tables.convert.oracle import Frame, ask_frames, stripped
from braildesk.tables.convert.subject import Subject
from braildesk.tables.operands import Cells

CLOSING: Final = ".,;:?!)]}\"'%\u00b0\u2019\u201d\u00bb\u2026"
OPENING: Final = "([{\u201e\u201c\u201a\u2018\u00ab"
"""Marks that come after other marks, and such as come before them."""

SIX_DOTS: Final = 0x3F
"""The cell of all dots that a six-dot page can have."""


class Side(enum.Enum):
    """What stands beside a mark."""

    EDGE = enum.auto()
    LETTER = enum.auto()
    DIGIT = enum.auto()


Place = tuple[Side, Side]
Wanted = dict[Place, Cells | None]


@dataclass(frozen=True)
class Probe:
    """Characters in a place, with what stands there before and after them."""

    characters: str
    left: Side
    right: Side
    before: str
    after: str

    @property
    def frame(self) -> Frame:
        return Frame(self.before, self.characters, self.after)

    @property
    def line(self) -> str:
        return self.before + self.characters + self.after

    @property
    def place(self) -> Place:
        return self.left, self.right


class Probes:
    """The lines by which characters are asked for in their places.

    If numbers have no sign, a single digit may have one of its own, so two stand beside a character.
    """

    def __init__(self, subject: Subject, draft: TableDraft) -> None:
        self._liblouis: Final = subject.liblouis
        self._draft: Final = draft
        self._is_of_six_dots: Final = all(
            cell <= SIX_DOTS
            for one, kind in draft.classes.items()
            if kind in ("letter", "digit")
            for cell in draft.cells[one]
        )
        carriers = subject.alphabet.carriers() or ("",)
        digits = sample_digits(draft) or [""]
        many = 1 if draft.signs.get("numsign") else 2
        self._samples: Final = [
            (
                carriers[place % len(carriers)],
                digits[place % len(digits)] * many,
                digits[-1] * many,
            )
            for place in (0, 1)
        ]

    def of(self, characters: str, place: Place) -> list[Probe]:
        """The characters in a place, beside two letters and digits. None if the table has none."""
        return list(self._of(characters, place))

    def first_of(self, characters: str, place: Place) -> list[Probe]:
        """The same beside one letter and digit."""
        return list(islice(self._of(characters, place), 1))

    def _of(self, characters: str, place: Place) -> Iterator[Probe]:
        left, right = place
        if left is Side.EDGE and characters.startswith(" "):
            return
        if right is Side.EDGE and characters.endswith(" "):
            return
        inside = place == (Side.EDGE, Side.EDGE) and len(characters) == 1
        for letter, first, second in self._samples:
            probe = Probe(
                characters,
                left,
                right,
                self._before(left, letter, first),
                self._after(right, letter, second),
            )
            probe = self._beside_mark(probe) if inside else probe
            if self._is_whole(probe):
                yield probe

    def _before(self, side: Side, letter: str, digit: str) -> str:
        """What stands before, within a line: a number at the beginning of one may be that of a list."""
        if side is Side.LETTER or not letter:
            return "" if side is Side.EDGE else letter * 2 or digit
        return f"{letter * 2} {digit if side is Side.DIGIT else ''}"

    def _after(self, side: Side, letter: str, digit: str) -> str:
        if side is Side.EDGE:
            return f" {letter * 2}" if letter else ""
        return letter * 2 if side is Side.LETTER else digit

    def _beside_mark(self, probe: Probe) -> Probe:
        """A mark between edges, with another mark as one of them if it mostly stands so.

        A closing mark comes after another one, an opening one before it, and any other mark stands
        between blanks.
        """
        mark = probe.characters
        for neighbour in ")!.":
            if mark in CLOSING and neighbour in self._draft.cells and neighbour != mark:
                return replace(probe, before=probe.before.rstrip() + neighbour)
        for neighbour in "(\u201e\u00ab":
            if mark in OPENING and neighbour in self._draft.cells and neighbour != mark:
                return replace(probe, after=neighbour + probe.after.lstrip())
        return probe

    def ask(self, strings: Iterable[str], places: Sequence[Place]) -> None:
        """Asks at once for what `wanted` then finds remembered."""
        frames = [
            probe.frame
            for characters in strings
            for place in places
            for probe in self.of(characters, place)
        ]
        ask_frames(self._liblouis, frames)

    def wanted(self, characters: str, place: Place) -> Cells | None:
        """What liblouis gives for the characters in one place, whichever letter or digit stands there."""
        found = {self._middle(probe) for probe in self.of(characters, place)}
        return found.pop() if len(found) == 1 else None

    def _middle(self, probe: Probe) -> Cells | None:
        whole, before, after = self._liblouis.ask(probe.frame.texts)
        if whole is None or before is None or after is None:
            return None
        found = stripped(whole, before, after)
        if found is None and probe.right is Side.DIGIT:
            digits = [cell for one in probe.after for cell in self._draft.cells[one]]
            found = self._going_on(stripped(whole, before, tuple(digits)))
        return self.written_out(found)

    def written_out(self, cells: Cells | None) -> Cells | None:
        """The cells, unless they are those of a pass of liblouis that was to make others of them.

        A table whose letters and digits have six dots marks places for its later passes by dots 7 and 8.
        If none of these foresees a place, the marked cell is left, which no page can have.
        """
        if cells is None or not self._is_of_six_dots:
            return cells
        return cells if all(cell <= SIX_DOTS for cell in cells) else None

    def _going_on(self, cells: Cells | None) -> Cells | None:
        """A mark's cells before a digit without a sign, unless the sign of the number is among them.

        No rule can take the sign away from the digit, so a number that begins with a mark is lost.
        """
        sign = self._draft.signs["numsign"]
        if cells is None:
            return None
        starts = range(len(cells) - len(sign) + 1) if sign else range(0)
        if any(cells[start : start + len(sign)] == sign for start in starts):
            return None
        return cells

    def _is_whole(self, probe: Probe) -> bool:
        return self._draft.cells.keys() >= {*probe.line} and (
            (probe.left is Side.EDGE or probe.before != "")
            and (probe.right is Side.EDGE or probe.after != "")
        )
