"""Lines that need what no rule of the profile can do, though no opcode of its own does it in liblouis.

In each case liblouis shows that it does such a thing, and a line needs it if the two agree once it
is taken out of the line.
"""

from __future__ import annotations

import re
from collections.abc import Callable, Iterable, Sequence
from dataclasses import dataclass
from typing import Final

from braildesk.tables.convert.draft import ProgramTrial, TableDraft
from braildesk.tables.convert.numbers import sample_digits
from braildesk.tables.convert.oracle import Frame, between, stripped
from braildesk.tables.convert.probes import CLOSING, OPENING, Probes, Side
from braildesk.tables.convert.subject import Subject
from braildesk.tables.operands import Cells

QUOTES: Final = "\"'"

_Without = Callable[[str], str]


@dataclass(frozen=True)
class _Beyond:
    """What no rule can do, and the function that takes it out of a line."""

    name: str
    without: _Without


def needs_beyond(
    subject: Subject, draft: TableDraft, trial: ProgramTrial, lines: Sequence[str]
) -> dict[str, str]:
    """Of these lines, those that need what no rule can do, each with the last thing that was taken out."""
    found: dict[str, str] = {}
    now = {line: line for line in lines}
    for beyond in _Looking(subject, draft, lines).found():
        changed = {}
        for line, before in now.items():
            if line not in found and (after := beyond.without(before)) != before:
                now[line] = changed[line] = after
        theirs = subject.liblouis.ask(changed.values())
        ours = trial.cells(draft, list(changed.values())) if changed else []
        for line, want, have in zip(changed, theirs, ours, strict=True):
            if want is not None and want == have:
                found[line] = beyond.name
    return found


class _Looking:
    """Looks for what liblouis does with the characters of some lines."""

    def __init__(
        self, subject: Subject, draft: TableDraft, lines: Sequence[str]
    ) -> None:
        self._liblouis: Final = subject.liblouis
        self._draft: Final = draft
        self._probes: Final = Probes(subject, draft)
        self._characters: Final = sorted({one for line in lines for one in line})
        carriers = subject.alphabet.carriers() or ("",)
        self._word: Final = carriers[0] * 2
        self._digit: Final = next(iter(sample_digits(draft)), "")

    def found(self) -> list[_Beyond]:
        return [
            _Beyond("numbers that begin with a mark", self._without_first_marks()),
            _Beyond(
                "marks after a number, by what follows", self._without_after_numbers()
            ),
            _Beyond(
                "signs of letters at a lone capital", self._without_lone_capitals()
            ),
            _Beyond("quotation marks that pair", self._without_opening_marks()),
        ]

    def _without_first_marks(self) -> _Without:
        """The sign of a number stands before a mark, while the profile has it before the first digit."""
        marks = [mark for mark in self._marks() if self._begins_number(mark)]
        return _replacing(r"(?<!\d){}+(?=\d)", marks, "")

    def _begins_number(self, mark: str) -> bool:
        sign = self._draft.signs.get("numsign", ())
        cells = between(self._liblouis, Frame(f"{self._word} ", mark + self._digit, ""))
        if not sign or not self._digit or cells is None:
            return False
        digit = self._draft.cells[self._digit]
        return bool(stripped(cells, sign, digit)) and not _ends(cells, sign + digit)

    def _without_after_numbers(self) -> _Without:
        """A mark has other cells between two numbers, each with its sign, than at the end of one."""
        marks = [mark for mark in self._marks() if self._depends_on_what_follows(mark)]
        return _replacing(r"(?<=\d){}", marks, " ")

    def _depends_on_what_follows(self, mark: str) -> bool:
        if mark in self._draft.mode:
            return False
        inner, ending = (
            self._probes.wanted(mark, (Side.DIGIT, side))
            for side in (Side.DIGIT, Side.EDGE)
        )
        return inner is not None and ending is not None and inner != ending

    def _without_lone_capitals(self) -> _Without:
        """A small letter has a sign of letters and its capital none, or one before its own sign.

        A rule of one letter is for both, and a place has one sign in the profile, before the rule's cells.
        """
        capitals = [
            one
            for one in self._characters
            if one in self._draft.lower
            and any(self._differs_alone(one, left) for left in ("", self._digit))
        ]
        pattern = _pattern(r"(?<![^\W\d_]){}(?![^\W\d_])", capitals)

        def without(line: str) -> str:
            return pattern.sub(lambda found: self._draft.lower[found[0]], line)

        return without if capitals else _same

    def _differs_alone(self, upper: str, left: str) -> bool:
        lower = self._draft.lower[upper]
        base = self._draft.cells[lower]
        capital = self._draft.signs.get("capsletter", ())
        small = between(self._liblouis, Frame(left, lower, ""))
        whole = between(self._liblouis, Frame(left, upper, ""))
        sign = stripped(small, (), base) if small is not None else None
        return bool(sign and capital) and whole in (
            capital + base,
            (sign or ()) + capital + base,
        )

    def _without_opening_marks(self) -> _Without:
        """A mark has other cells at the end of a word if another one stood before, however far."""
        pairs = [
            opening
            for opening in self._marks()
            if opening in OPENING + QUOTES
            and any(
                self._pair(opening, closing)
                for closing in self._marks()
                if closing in CLOSING + QUOTES
            )
        ]
        return _replacing("{}", pairs, "")

    def _pair(self, opening: str, closing: str) -> bool:
        words, after = f"{self._word} {self._word}", f" {self._word}"
        alone = between(self._liblouis, Frame(words, closing, after))
        paired = between(self._liblouis, Frame(opening + words, closing, after))
        return alone is not None and paired is not None and alone != paired

    def _marks(self) -> list[str]:
        return [
            one
            for one in self._characters
            if self._draft.classes.get(one) == "punctuation"
        ]


def _pattern(form: str, characters: Iterable[str]) -> re.Pattern[str]:
    of_them = "".join(re.escape(one) for one in characters)
    return re.compile(form.format(f"[{of_them}]") if of_them else "(?!)")


def _replacing(form: str, characters: Sequence[str], by: str) -> _Without:
    pattern = _pattern(form, characters)
    return lambda line: pattern.sub(by, line)


def _same(line: str) -> str:
    return line


def _ends(cells: Cells, end: Cells) -> bool:
    return cells[len(cells) - len(end) :] == end
