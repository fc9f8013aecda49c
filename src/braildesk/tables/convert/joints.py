"""Marks between a letter and a digit, as in `utf-8` and `3-fach`.

No kind of rule is for such a place. So after a digit the rule has the digit, the mark and the letter; before
one it has the letter and the mark, if the mark has the same cells after a letter whatever follows.
"""

from __future__ import annotations

from collections.abc import Sequence
from dataclasses import dataclass
from typing import Final

from braildesk.tables.convert.draft import Origin, ProgramTrial, TableDraft
from braildesk.tables.convert.numbers import sample_digits, usual_digits
from braildesk.tables.convert.oracle import stripped
from braildesk.tables.convert.subject import Subject
from braildesk.tables.operands import Cells

BESIDE_DIGITS: Final = Origin("Marks between letters and digits, by asking liblouis.")

AFTER_DIGITS: Final = "-/."
BEFORE_DIGITS: Final = "-/.(="
"""The marks that are asked for between a digit and a letter, and between a letter and a digit."""

LAST_LETTER: Final = 0x1000
"""No letter from here on is asked for, as the Greek ones with accents of old texts."""


@dataclass(frozen=True)
class _Joint:
    """A mark between a letter and a digit, in a line, with what stands around the three."""

    mark: str
    letter: str
    before: str
    three: str
    after: str

    @property
    def line(self) -> str:
        return self.before + self.three + self.after


class Joints:
    """Asks for marks between letters and digits, and adds what they need."""

    def __init__(
        self, subject: Subject, draft: TableDraft, trial: ProgramTrial
    ) -> None:
        self._subject: Final = subject
        self._draft: Final = draft
        self._trial: Final = trial
        self._word: Final = (subject.alphabet.carriers() or ("",))[0] * 2
        self._digit: Final = next(iter(sample_digits(draft)), "")

    def settle(self, letters: Sequence[str]) -> None:
        """Adds the rules for the marks beside those letters that have other cells."""
        letters = [one for one in letters if ord(one) < LAST_LETTER]
        if not self._digit or not self._word or " " not in self._draft.cells:
            return
        word, digit = self._word, self._digit
        after = [
            _Joint(mark, one, f"{word} ", digit + mark + one, word)
            for mark in self._defined(AFTER_DIGITS)
            for one in letters
        ]
        for joint in self._different(after):
            self._add_after_digits(joint)
        before = [
            _Joint(mark, one, word, one + mark + digit, "")
            for mark in self._defined(BEFORE_DIGITS)
            if self._is_same_after_letters(mark)
            for one in letters
        ]
        for joint in self._different(before):
            self._add_after_letter(joint)

    def _defined(self, marks: str) -> list[str]:
        return [one for one in marks if one in self._draft.cells]

    def _different(self, joints: Sequence[_Joint]) -> list[_Joint]:
        lines = [joint.line for joint in joints]
        theirs = self._subject.liblouis.ask(lines)
        ours = self._trial.cells(self._draft, lines)
        return [
            joint
            for joint, want, have in zip(joints, theirs, ours, strict=True)
            if want is not None and want != have
        ]

    def _add_after_digits(self, joint: _Joint) -> None:
        cells = self._between(joint.line, joint.before + self._digit, joint.after)
        if not cells:
            return
        for digit in usual_digits(self._draft):
            characters = digit + joint.mark + joint.letter
            whole = self._draft.cells[digit] + cells
            self._draft.add_rule("always", characters, whole, BESIDE_DIGITS)

    def _add_after_letter(self, joint: _Joint) -> None:
        cells = self._between(joint.line, joint.before, self._digit)
        if cells:
            characters = joint.letter + joint.mark
            self._draft.add_rule("always", characters, cells, BESIDE_DIGITS)

    def _is_same_after_letters(self, mark: str) -> bool:
        """Whether a mark after a letter has the same cells before a digit, a letter and a blank."""
        found = {
            self._between(f"{self._word}{mark}{after}", self._word, after)
            for after in (self._digit, self._word, f" {self._word}")
        }
        return len(found) == 1 and None not in found

    def _between(self, line: str, before: str, after: str) -> Cells | None:
        whole, front, end = self._subject.liblouis.ask((line, before, after))
        if whole is None or front is None or end is None:
            return None
        return stripped(whole, front, end)
