"""Letters of other scripts than the table's own, as Latin words in Russian or Greek have them.

Such a letter often has a sign at the beginning of a word and none within, and the capital another one
than the small letter, so each is asked for in its places, the capital as a letter of its own. A run of
capitals may have one sign, and that another one than a lone capital has. In some tables a word has no
sign either if the word before it is of its script: what stands between two such words is asked for with
the letters on both sides.
"""

from __future__ import annotations

from collections.abc import Iterable
from dataclasses import dataclass
from itertools import product
from typing import Final

from braildesk.tables.convert.draft import Origin, TableDraft
from braildesk.tables.convert.numbers import usual_digits
from braildesk.tables.convert.oracle import stripped
from braildesk.tables.convert.subject import Subject, script_of
from braildesk.tables.operands import Cells

OTHER_SCRIPTS: Final = Origin("Letters of other scripts, by asking liblouis.")
PASSAGES: Final = Origin("Between words of another script, by asking liblouis.")

FEWEST_LETTERS: Final = 10
"""Of a script with fewer letters no words are written."""

WITHIN: Final = "_/-.'=:@&+,"
"""The marks that stand between two such words without a blank, hardly ever after one of the own script."""

FIRST: Final = "$"
"""A mark before words of another script, as before the name of a variable."""

BETWEEN: Final = (" ", ", ", " (", ". ", " --", " -")
"""What stands with a blank between two words of small letters."""

BEFORE_CAPITALS: Final = (" ", ". ", " (")
"""What stands between a small letter and a capital."""

AFTER_CAPITALS: Final = (" ",)
"""What stands between a word of capitals and another word."""

BETWEEN_CAPITALS: Final = (" ", ", ", ". ")
"""What stands between two words of capitals."""

OPTION: Final = " -"
"""What stands between a word and a single letter that is an option, with which a passage ends."""

VERSION: Final = "v"
"""A letter before the number of a version. No kind of rule is for a letter before a digit."""

LONE_WORDS: Final = ("a", "A", "I")
"""Words of one letter, with which a passage may begin. It may end with any, as System V does."""


@dataclass(frozen=True)
class _Places:
    """The cells of a letter within a word, at its beginning, and alone."""

    within: Cells
    beginning: Cells
    alone: Cells

    def after(self, sign: Cells) -> _Places:
        """The same with a sign before the cells."""
        return _Places(sign + self.within, sign + self.beginning, sign + self.alone)


def other_scripts(subject: Subject, draft: TableDraft) -> list[Script]:
    """The scripts of a table's letters, aside from its own."""
    alphabet = subject.alphabet
    if alphabet.is_large or alphabet.script not in alphabet.by_script:
        return []
    if " " not in draft.cells:
        return []
    found = []
    for script, carriers in alphabet.by_script.items():
        letters = [
            one
            for one in alphabet.of("letter")
            if one in draft.cells and script_of(one) == script
        ]
        if script != alphabet.script and len(letters) >= FEWEST_LETTERS:
            found.append(Script(subject, draft, carriers, letters))
    return found


class Script:
    """The letters of a script among words of the table's own."""

    def __init__(
        self,
        subject: Subject,
        draft: TableDraft,
        carriers: tuple[str, ...],
        letters: list[str],
    ) -> None:
        self._liblouis: Final = subject.liblouis
        self._draft: Final = draft
        self._word: Final = carriers[0] * 2
        self._carrier: Final = carriers[0]
        self._letters: Final = letters
        self._own: Final = subject.alphabet.carriers()[0] * 2
        self._own_letters: Final = [
            one
            for one in subject.alphabet.of("letter")
            if one in draft.cells
            and one not in draft.lower
            and script_of(one) == subject.alphabet.script
        ]
        self._places: Final[dict[str, _Places]] = {}
        self._in_run: Final[dict[str, Cells]] = {}
        """The cells of capitals after other ones, if these aren't those after a small letter."""

    def settle_letters(self) -> None:
        """Asks for the letters in their places, and adds what they need."""
        carrier = self._within(self._carrier)
        if carrier is None:
            return
        texts = [text for one in self._letters for text in self._texts(one)]
        self._liblouis.ask(texts)
        for one in self._letters:
            found = self._asked(one, carrier)
            if found is not None:
                self._places[one] = found
        self._unpair()
        self._ask_runs()
        for one, places in self._places.items():
            self._define(one, places)
        self._settle_digits()
        self._settle_runs()

    def _texts(self, one: str) -> tuple[str, ...]:
        own, word = self._own, self._word
        return (
            f"{own} {word}{one}",
            f"{own} {one}{self._carrier}",
            f"{own} {one} {own}",
        )

    def _within(self, one: str) -> Cells | None:
        front = f"{self._own} {self._word}"
        return self._between(front + one, self._liblouis.cells(front), ())

    def _asked(self, one: str, carrier: Cells) -> _Places | None:
        """A letter in its places, or None if one of them can't be told from what stands beside it."""
        before = self._front()
        blank, own = self._draft.cells[" "], self._liblouis.cells(self._own)
        _, beginning, alone = self._texts(one)
        found = (
            self._within(one),
            self._between(beginning, before, carrier),
            self._between(alone, before, blank + (own or ())),
        )
        if not all(found):
            return None
        within, first, lone = found
        return _Places(within or (), first or (), lone or ())

    def _front(self) -> Cells | None:
        """The cells of a word of the table's own script and a blank."""
        own = self._liblouis.cells(self._own)
        return None if own is None else own + self._draft.cells[" "]

    def _between(self, text: str, before: Cells | None, after: Cells) -> Cells | None:
        whole = self._liblouis.cells(text)
        return (
            None if whole is None or before is None else stripped(whole, before, after)
        )

    def _unpair(self) -> None:
        """Makes capitals letters of their own if they aren't their small letters with the sign."""
        sign = self._draft.signs["capsletter"]
        pairs = {
            upper: lower
            for upper, lower in self._draft.lower.items()
            if upper in self._places and lower in self._places
        }
        if all(
            self._places[upper] == self._places[lower].after(sign)
            for upper, lower in pairs.items()
        ):
            for upper in pairs:
                del self._places[upper]
            return
        for upper in pairs:
            del self._draft.lower[upper]

    def _of_case(self, *, upper: bool) -> list[str]:
        """The capitals of the plain alphabet, or its small letters."""
        return [one for one in self._places if one.isascii() and one.isupper() == upper]

    def _ask_runs(self) -> None:
        """Finds the cells of capitals after others, by two such before each."""
        capitals = self._of_case(upper=True)
        carrier = self._carrier.upper()
        if carrier not in capitals:
            return
        before = f"{self._own} {carrier * 2}"
        self._liblouis.ask([before, *(before + one for one in capitals)])
        for one in capitals:
            cells = self._between(before + one, self._liblouis.cells(before), ())
            if cells and cells != self._places[one].within:
                self._in_run[one] = cells

    def _define(self, one: str, places: _Places) -> None:
        within = self._in_run.get(one, places.within)
        self._draft.define(one, "letter", within)
        for kind, cells in (("begword", places.beginning), ("word", places.alone)):
            if cells != within:
                self._draft.add_rule(kind, one, cells, OTHER_SCRIPTS)

    def _settle_runs(self) -> None:
        """Capitals after small letters, and the first two of a run, if runs have a sign of their own."""
        if self._in_run:
            self._after_small("midword")
            self._settle_beginnings_of_runs()

    def _after_small(self, kind: str) -> None:
        """Adds a rule for each small letter with a capital after it."""
        for one, capital in product(self._of_case(upper=False), self._in_run):
            first = self._places[one]
            cells = first.beginning if kind == "begword" else first.within
            cells += self._places[capital].within
            self._draft.add_rule(kind, one + capital, cells, OTHER_SCRIPTS)

    def _settle_beginnings_of_runs(self) -> None:
        front, carrier = self._front(), self._carrier.upper()
        blank, own = self._draft.cells[" "], self._liblouis.cells(self._own) or ()
        after = self._in_run.get(carrier, ())
        for kind, right, end in (
            ("begword", carrier, after),
            ("word", f" {self._own}", blank + own),
        ):
            pairs = [one + other for one, other in product(self._in_run, repeat=2)]
            texts = {pair: f"{self._own} {pair}{right}" for pair in pairs}
            self._liblouis.ask(texts.values())
            for pair, text in texts.items():
                cells = self._between(text, front, end)
                lone = self._places[pair[0]].beginning + self._in_run[pair[1]]
                if cells and cells != lone:
                    self._draft.add_rule(kind, pair, cells, OTHER_SCRIPTS)

    def _settle_digits(self) -> None:
        """Letters right after a digit, and one letter between a blank and a digit."""
        draft = self._draft
        digits = usual_digits(draft)
        plain = [one for one in self._places if one.isascii()]
        if not digits:
            return
        before = f"{self._own} {digits[0]}"
        self._liblouis.ask(before + one for one in plain)
        for one in plain:
            places = self._places[one]
            after = self._between(before + one, self._liblouis.cells(before), ())
            if after and after != places.within:
                for digit in digits:
                    cells = draft.cells[digit] + after
                    draft.add_rule("always", digit + one, cells, OTHER_SCRIPTS)
            if places.beginning == places.alone != places.within:
                cells = draft.cells[" "] + places.beginning
                draft.add_rule("always", f" {one}", cells, OTHER_SCRIPTS)

    def _goes_on(self, between: str) -> bool:
        """Whether a word right after another one of its script has no sign."""
        places = self._places[self._carrier]
        front = f"{self._own} {self._word}{between}"
        text = front + self._carrier
        whole = self._liblouis.cells(text) or ()
        return places.beginning != places.within and (
            whole[len(whole) - len(places.beginning) :] != places.beginning
        )

    def settle_passages(self) -> None:
        """Adds what stands between two words, and then what is rarer, while the table has room."""
        if self._carrier in self._places and self._goes_on(" "):
            self._settle_marks()
            self._settle_joints()
            self._settle_after_own()
        if self._in_run:
            self._after_small("endword")
            self._after_small("begword")

    def _settle_marks(self) -> None:
        """Adds marks without blanks, with the first letter of the word after them.

        They are few, since the letter before such a mark, of whatever script, isn't part of a rule.
        """
        letters = self._of_case(upper=False) + self._of_case(upper=True)
        for mark in WITHIN:
            if mark in self._draft.cells and self._goes_on(mark):
                for kind in ("midword", "endword"):
                    self._join(kind, product(("",), (mark,), letters))
        if FIRST in self._draft.cells:
            for kind in ("begword", "word"):
                self._join(kind, product(("",), (FIRST,), letters))

    def _settle_after_own(self) -> None:
        """Adds a hyphen after a letter of the table's own script, where the second word has its sign."""
        if "-" not in self._draft.cells or not self._goes_on("-"):
            return
        letters = self._of_case(upper=False) + self._of_case(upper=True)
        own, end = self._own, self._carrier * 2
        texts = {
            f"{last}-{first}": f"{own}{last}-{first}{end}"
            for last, first in product(self._own_letters, letters)
        }
        self._liblouis.ask(texts.values())
        after = self._within(self._carrier)
        for characters, text in texts.items():
            front = self._liblouis.cells(own)
            cells = None if after is None else self._between(text, front, after * 2)
            if cells:
                self._draft.add_rule("midword", characters, cells, PASSAGES)

    def _settle_joints(self) -> None:
        """Adds what stands between two words, with the last letter of one and the first of the other."""
        small, capitals = self._of_case(upper=False), self._of_case(upper=True)
        for between, last, first in (
            *((one, small, small) for one in BETWEEN),
            *((one, small, capitals) for one in BEFORE_CAPITALS),
            *((one, capitals, small) for one in AFTER_CAPITALS),
            *((one, capitals, capitals) for one in BETWEEN_CAPITALS),
        ):
            if all(one in self._draft.cells for one in between) and self._goes_on(
                between
            ):
                self._join("midword", product(last, (between,), first))
        lone = [one for one in small + capitals if one in LONE_WORDS]
        self._join("begword", product(lone, (" ",), small + capitals))
        self._join("endword", product(small, (" ",), small + capitals))
        self._join("endword", product(small, (OPTION,), small))
        self._join("always", product(small, (" ",), VERSION))

    def _join(self, kind: str, joints: Iterable[tuple[str, str, str]]) -> None:
        """Adds a rule for each last letter, what stands between, and first letter."""
        asked = {"".join(joint): self._around(kind, *joint) for joint in joints}
        self._liblouis.ask(text for texts in asked.values() for text in texts)
        for characters, (before, whole, after) in asked.items():
            front, end = self._liblouis.cells(before), self._after(after)
            cells = None if end is None else self._between(whole, front, end)
            if cells:
                self._draft.add_rule(kind, characters, cells, PASSAGES)

    def _around(
        self, kind: str, last: str, between: str, first: str
    ) -> tuple[str, str, str]:
        """What stands before a joint, with it, and after it: words of the case that its letters have."""
        carriers = {
            one: self._carrier.upper() if one in self._in_run else self._carrier
            for one in (last, first)
        }
        before = f"{self._own} {'' if kind == 'begword' else carriers[last] * 2}"
        after = f" {self._own}" if kind == "endword" else carriers[last]
        return before, f"{before}{last}{between}{first}{after}", after

    def _after(self, text: str) -> Cells | None:
        """The cells of a letter within a word, or of a blank and a word of the table's own script."""
        if text in self._places:
            return self._in_run.get(text, self._places[text].within)
        own = self._liblouis.cells(self._own)
        return None if own is None else self._draft.cells[" "] + own
