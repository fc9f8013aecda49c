"""Marks in their places: beside blanks, letters and digits, and beside other marks.

The profile has a kind of rule for each place between edges of words and letters, and none beside a
digit. So what a mark is before a digit is its definition, or an `always` rule; after a digit it is a
rule for each digit; all other places have rules of their own kind.
"""

from __future__ import annotations

from collections.abc import Iterable, Sequence
from itertools import product
from typing import Final

from braildesk.tables.convert.draft import Origin, ProgramTrial, TableDraft
from braildesk.tables.convert.numbers import usual_digits
from braildesk.tables.convert.oracle import Frame, between, most_common, stripped
from braildesk.tables.convert.probes import (
    CLOSING,
    OPENING,
    Place,
    Probe,
    Probes,
    Side,
    Wanted,
)
from braildesk.tables.convert.subject import Subject, is_pattern
from braildesk.tables.operands import Cells

IN_PLACES: Final = Origin("Marks in their places, by asking liblouis.")
WITH_BLANKS: Final = Origin("Marks with blanks beside them, by asking liblouis.")
WITH_LETTERS: Final = Origin("Marks right after letters, by asking liblouis.")
AFTER_LETTERS: Final = Origin("Letters right after others, by asking liblouis.")
PAIRED: Final = Origin("Pairs of marks, by asking liblouis.")

JOINING: Final = "-/+*=:.<>(\u2013\u00b7\u00d7\u00f7\u2212"
"""Marks that between digits rather join numbers than end one."""

SENTENCE_ENDS: Final = ".:"
"""Marks that stand between numbers as well as after the last word of a line."""

YEARS: Final = range(1800, 2100)
"""The long numbers with which a paragraph most often ends."""

USUAL: Final = (
    ".,;:?!-'\"()[]/%\u2013\u2014\u2026"
    "\u2018\u2019\u201a\u201c\u201d\u201e\u00ab\u00bb"
)
"""The marks that are asked for in pairs."""


ENCLOSING: Final = ('""', "''", "()", "[]", "\u00ab\u00bb", "\u00bb\u00ab") + (
    "\u201c\u201d",
    "\u201e\u201c",
    "\u2018\u2019",
    "\u201a\u2018",
)
"""Marks between which a text names another one."""

BEFORE_EQUALS: Final = "+-*/<>!:"
"""The marks that are asked for before a sign of equality."""

ENDING: Final = ",;:.?!"
"""The marks that are asked for after a closing one with a blank after them."""

BEFORE_WORDS: Final = "%~^\\$@#<+"
"""The marks before a word or a letter, and hardly ever after capitals, that may be letters to their neighbours."""

_BEFORE_DIGIT: Final = ((Side.EDGE, Side.DIGIT), (Side.LETTER, Side.DIGIT))

_AFTER_WORD: Final = ((Side.LETTER, Side.LETTER), (Side.LETTER, Side.EDGE))

KIND_OF: Final = {
    (Side.EDGE, Side.EDGE): "word",
    (Side.EDGE, Side.LETTER): "begword",
    (Side.LETTER, Side.LETTER): "midword",
    (Side.LETTER, Side.EDGE): "endword",
}


def join_to_letters(subject: Subject, draft: TableDraft) -> None:
    """Makes letters of the marks beside which no letter has the sign that it has where it stands alone.

    So no rule for a word that stands alone is chosen beside them, whether it has capitals or not, as
    in `%so` and `~N`. After a mark like `/` no letter stands alone either, but before one of class
    letter each capital has a sign of its own, as in `TCP/IP`.
    """
    asked = [one for one in subject.alphabet.carriers() if one in draft.cells]
    ask = subject.liblouis.cells
    signed = [one for one in asked if ask(one) not in (None, draft.cells[one])]
    for mark in BEFORE_WORDS:
        if draft.classes.get(mark) == "punctuation" and signed:
            beside = [
                between(subject.liblouis, frame) == draft.cells[one]
                for one in signed
                for frame in (Frame(mark, one, ""), Frame("", one, mark))
            ]
            if all(beside):
                draft.classes[mark] = "letter"


class Marks:
    """Asks for marks in their places, and adds what they need to a draft."""

    def __init__(
        self, subject: Subject, draft: TableDraft, trial: ProgramTrial
    ) -> None:
        self.subject: Final = subject
        self.draft: Final = draft
        self.trial: Final = trial
        self._probes: Final = Probes(subject, draft)
        self._once_different: Final[list[Probe]] = []

    def define(self, marks: Iterable[str]) -> list[str]:
        """Defines the marks by their cells before a digit. Returns those without cells."""
        missing = []
        for mark, usual in self._usual(list(marks)).items():
            cells = usual or self.subject.written_cells(mark)
            if not cells or not self.draft.define(mark, "punctuation", cells):
                missing.append(mark)
        return missing

    def settle(
        self, strings: Sequence[str], places: Sequence[Place], origin: Origin
    ) -> list[str]:
        """Asks for strings in places, and adds rules where the draft differs. Returns those strings."""
        probes = [
            probe
            for characters in strings
            for place in places
            for probe in self._probes.first_of(characters, place)
        ]
        different: dict[str, set[Place]] = {}
        for probe in self._different(probes):
            self._once_different.append(probe)
            different.setdefault(probe.characters, set()).add(probe.place)
        self._probes.ask(different, places)
        for characters, where in different.items():
            wanted = {place: self._probes.wanted(characters, place) for place in places}
            self._add_rules(characters, wanted, where, origin)
        return list(different)

    def settle_ends(self, marks: Sequence[str]) -> None:
        """Asks for marks after a blank that end a line, as in French, and adds rules where the draft differs."""
        word = (self.subject.alphabet.carriers() or ("",))[0] * 2
        lines = {mark: f"{word} {mark}" for mark in marks}
        theirs = self.subject.liblouis.ask(lines.values())
        ours = self.trial.cells(self.draft, list(lines.values()))
        front = self.subject.liblouis.cells(word)
        added = []
        for mark, want, have in zip(lines, theirs, ours, strict=True):
            if front and self._probes.written_out(want) not in (None, have):
                cells = stripped(want or (), front, ())
                if cells and self.draft.add_rule(
                    "endword", f" {mark}", cells, WITH_BLANKS
                ):
                    added.append(mark)
        # such a rule holds before another mark too, where a word may begin, as in `":help`
        pairs = [f" {mark}{other}" for mark, other in product(added, marks)]
        self.settle(pairs, _AFTER_WORD, WITH_BLANKS)

    def unsettled(self) -> list[str]:
        """The lines for which rules were looked for, and that differ in the end."""
        return [probe.line for probe in self._different(self._once_different)]

    def _different(self, probes: Sequence[Probe]) -> list[Probe]:
        lines = [probe.line for probe in probes]
        theirs = self.subject.liblouis.ask(lines)
        ours = self.trial.cells(self.draft, lines)
        return [
            probe
            for probe, want, have in zip(probes, theirs, ours, strict=True)
            if self._probes.written_out(want) not in (None, have)
        ]

    def _usual(self, marks: Sequence[str]) -> dict[str, Cells | None]:
        """The cells of each mark before a digit, or else where it most often has them."""
        for mark in marks:
            self.draft.define(mark, "punctuation", (0,))
        places = (*_BEFORE_DIGIT, *KIND_OF)
        self._probes.ask((mark for mark in marks if not is_pattern(mark)), places)
        self.subject.liblouis.ask(marks)
        usual = {
            mark: (
                self.subject.liblouis.cells(mark)
                if is_pattern(mark)
                else self._usual_of(mark, places)
            )
            for mark in marks
        }
        for mark in marks:
            self.draft.drop(mark)
        return usual

    def _usual_of(self, mark: str, places: Sequence[Place]) -> Cells | None:
        found = {place: self._probes.wanted(mark, place) for place in places}
        before_digit = found[Side.EDGE, Side.DIGIT] or found[Side.LETTER, Side.DIGIT]
        alone = self._probes.written_out(self.subject.liblouis.cells(mark))
        return before_digit or most_common(found.values(), share=0.3) or alone

    def _add_rules(
        self, characters: str, wanted: Wanted, where: set[Place], origin: Origin
    ) -> None:
        """Adds rules for the places in which the draft differs."""
        bound = where
        usual = next(
            (place for place in _places_before_digit(characters) if wanted.get(place)),
            None,
        )
        if len(characters) > 1 and usual in where:
            cells = wanted[usual]
            if cells and self.draft.add_rule("always", characters, cells, origin):
                bound = set(wanted)
        for place, kind in KIND_OF.items():
            if place in bound and (bound_cells := wanted.get(place)):
                self.draft.add_rule(kind, characters, bound_cells, origin)
        if any(left is Side.DIGIT for left, _ in bound):
            self._add_after_digits(characters, wanted, origin)

    def _add_after_digits(
        self, characters: str, wanted: Wanted, origin: Origin
    ) -> None:
        """Rules for each digit before the characters, if they have other cells there."""
        inner = wanted.get((Side.DIGIT, Side.DIGIT))
        ending = wanted.get((Side.DIGIT, Side.EDGE))
        leading = wanted.get((Side.DIGIT, Side.LETTER))
        if len(characters) == 1 and characters in self.draft.mode:
            self._add_going_on(characters, wanted, origin)
            return
        if characters.endswith(" ") or characters[1:].endswith(tuple(OPENING)):
            usual = _first(leading, inner, ending)
        elif characters[0] in JOINING:
            usual = _first(inner, ending, leading)
        else:
            usual = _first(ending, inner, leading)
        if usual is None:
            return
        digits = usual_digits(self.draft)
        if len(characters) > 1 or usual != self.draft.cells[characters]:
            for digit in digits:
                cells = self.draft.cells[digit] + usual
                self.draft.add_rule("always", digit + characters, cells, origin)
        if ending is not None and ending != usual:
            self._add_after_last_digit(characters, ending, origin)

    def _add_after_last_digit(
        self, characters: str, ending: Cells, origin: Origin
    ) -> None:
        """What stands after a number that ends there, by the blank after it, or with a whole short number."""
        digits = usual_digits(self.draft)
        if " " in self.draft.cells:
            for digit in digits:
                cells = self.draft.cells[digit] + ending + self.draft.cells[" "]
                self.draft.add_rule("always", f"{digit}{characters} ", cells, origin)
        if characters not in SENTENCE_ENDS:
            return
        short = [*digits, *map("".join, product(digits, repeat=2))]
        years = YEARS if characters == "." and set("0123456789") <= set(digits) else ()
        for number in (*short, *map(str, years)):
            cells = tuple(cell for one in number for cell in self.draft.cells[one])
            self.draft.add_rule("word", number + characters, cells + ending, origin)

    def _add_going_on(self, mark: str, wanted: Wanted, origin: Origin) -> None:
        """A mark after which a number goes on: its definition is what it is at the end of a number.

        A rule of the mark and a digit is for its place within a number, since no rule covers a digit
        that has a sign. All other places have rules of their own kind.
        """
        inner = wanted.get((Side.DIGIT, Side.DIGIT))
        ending = wanted.get((Side.DIGIT, Side.EDGE)) or wanted.get(
            (Side.DIGIT, Side.LETTER)
        )
        before = self.draft.cells[mark]
        if (
            ending
            and ending != before
            and self.draft.define(mark, "punctuation", ending)
        ):
            for place, kind in KIND_OF.items():
                self.draft.add_rule(kind, mark, wanted.get(place) or before, origin)
        if inner is not None and inner != self.draft.cells[mark]:
            for digit in usual_digits(self.draft):
                cells = inner + self.draft.cells[digit]
                self.draft.add_rule("always", mark + digit, cells, origin)


def _places_before_digit(characters: str) -> Sequence[Place]:
    """The places before a digit, that first where the characters mostly stand: closing marks after words."""
    return _BEFORE_DIGIT[::-1] if characters[0] in CLOSING else _BEFORE_DIGIT


def _first(*found: Cells | None) -> Cells | None:
    """The first that there is. It may have no cells, as a colon that goes between digits."""
    return next((cells for cells in found if cells is not None), None)
