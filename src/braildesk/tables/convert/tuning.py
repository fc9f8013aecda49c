"""The table of a book compared with one of liblouis, and rules that would mend what differs."""

from __future__ import annotations

from collections import Counter
from collections.abc import Iterable, Mapping, Sequence
from dataclasses import dataclass
from pathlib import Path
from typing import Final

from braildesk.protocol.values import Table
from braildesk.tables import Reading, read
from braildesk.tables.convert.chooser import ALWAYS, Chooser, Rule, cells_of
from braildesk.tables.convert.draft import cells_by
from braildesk.tables.convert.examples import Example, examples
from braildesk.tables.convert.learning import BOOK_ROUNDS, Learned, Learner, Occurrences
from braildesk.tables.convert.operands import write_characters, write_dots
from braildesk.tables.convert.oracle import Liblouis
from braildesk.tables.convert.running_text import tokens
from braildesk.tables.convert.source import read_source
from braildesk.tables.convert.subject import read_subject
from braildesk.tables.convert.tailoring import Figures, Means, figures, weights_of
from braildesk.tables.convert.word_list import list_examples
from braildesk.text import limits


@dataclass(frozen=True)
class Mend:
    """A rule that mends words of a book."""

    line: str
    """The line of a table that it is."""
    mended: Counter[str]
    """The words that it sets right, each with how often it comes."""
    others: Counter[str]
    """The words that get other cells by it without being right then."""


@dataclass(frozen=True)
class Tuned:
    """How the words of a book compare with liblouis, and what its table would be with the rules."""

    liblouis: str
    """The version of liblouis."""
    before: Figures
    after: Figures
    mends: tuple[Mend, ...]
    text: bytes
    """The text of the table with the rules."""


def tune(table: Table, paragraphs: Sequence[str], source: Path, means: Means) -> Tuned:
    """Compares the table of some paragraphs with one of liblouis, and finds rules that mend what differs.

    The text of the table has to be one that is accepted. No rule spoils a word of the list that the
    table has right.
    """
    # read here first, where a table that includes itself is seen before liblouis would loop on it
    read_from = read_source(source)
    with Liblouis(source) as liblouis:
        carriers = read_subject(read_from, liblouis).alphabet.carriers()
        frame = carriers[0] * 2 if carriers else ""
        return _Tuning(table, paragraphs, liblouis, frame, means).run()


class _Tuning:
    """The steps by which a table is tuned."""

    def __init__(
        self,
        table: Table,
        paragraphs: Sequence[str],
        liblouis: Liblouis,
        frame: str,
        means: Means,
    ) -> None:
        self._table: Final = table
        self._paragraphs: Final = paragraphs
        self._liblouis: Final = liblouis
        self._frame: Final = frame
        self._means: Final = means
        self._reading: Final = read(table.text)
        self._chooser: Final = Chooser(self._reading.table)

    def run(self) -> Tuned:
        before = self._figures(self._table)
        counted = tokens(self._liblouis, self._paragraphs)
        found = self._examples(counted)
        rules = self._learned([*self._guard(counted), *found])
        older = Chooser(self._reading.table)
        mends = _Effects(self._chooser, older, found, counted).of(rules)
        text = with_rules(self._reading, self._table.text, rules, mends)
        after = self._figures(Table(self._table.name, text))
        return Tuned(self._liblouis.version, before, after, tuple(mends), text)

    def _figures(self, table: Table) -> Figures:
        ours = cells_by(table, self._paragraphs)
        means = read(table.text).table
        return figures(self._liblouis, means, self._paragraphs, ours)

    def _examples(self, counted: Mapping[str, int]) -> list[Example]:
        found = examples(
            self._liblouis,
            self._chooser,
            weights_of(counted),
            self._frame,
            self._means.report("words of the book asked for"),
        )
        for example in found:
            example.choose(self._chooser)
        return found

    def _guard(self, counted: Mapping[str, int]) -> list[Example]:
        """The words of the list that the table has right, those aside that the book has."""
        if self._means.words is None:
            return []
        report = self._means.report("words of the list asked for")
        found = list_examples(
            self._means.words, self._liblouis, self._chooser, self._frame, report
        )
        for example in found:
            example.choose(self._chooser)
        return [one for one in found if one.is_right and one.seen.text not in counted]

    def _learned(self, found: Sequence[Example]) -> Learned:
        """The rules that set right what they are for, and are still chosen."""
        room = limits.TABLE_LINES - len(self._reading.lines)
        learner = Learner(self._chooser, found, len(self._chooser) + room)
        learned = learner.learn(
            BOOK_ROUNDS, self._means.report("rounds of looking for rules")
        )
        cells = {key: self._chooser.cells_of(*key) for key in learned}
        return {key: its for key, its in cells.items() if its is not None}


class _Effects:
    """What each rule changes in a book: its tokens with the rule, and without it."""

    def __init__(
        self,
        chooser: Chooser,
        older: Chooser,
        found: Sequence[Example],
        counted: Mapping[str, int],
    ) -> None:
        self._chooser: Final = chooser
        self._older: Final = older
        self._counted: Final = counted
        self._occurrences: Final = Occurrences(found)

    def of(self, rules: Learned) -> list[Mend]:
        """The rules with what they change, those first that mend most."""
        found = [self._of((*key, cells)) for key, cells in rules.items()]
        return sorted(found, key=lambda mend: -mend.mended.total())

    def _of(self, rule: Rule) -> Mend:
        kind, characters, _ = rule
        mended: Counter[str] = Counter()
        others: Counter[str] = Counter()
        chosen_in = [
            example
            for example in self._occurrences.of(characters)
            if _is_chosen_in(rule, example)
        ]
        self._chooser.put_back(kind, characters, self._older.cells_of(kind, characters))
        for example in chosen_in:
            without = self._chooser.cells(example.seen)
            if without == cells_of(example.choices):
                continue
            kept = mended if example.is_right else others
            kept[example.token.strip()] += self._counted[example.token.strip()]
        self._chooser.add(rule)
        return Mend(line_of(rule), _alone(mended), _alone(others))


def _is_chosen_in(rule: Rule, example: Example) -> bool:
    kind, characters, _ = rule
    return any(
        its == kind and example.seen.folded[start:end] == characters
        for start, end, _, its in example.choices
    )


def _alone(counted: Counter[str]) -> Counter[str]:
    """Words without those that are counted with their neighbours, if there are any without."""
    alone = Counter({word: n for word, n in counted.items() if " " not in word})
    return alone or counted


def line_of(rule: Rule) -> str:
    """The line of a table that a rule is."""
    kind, characters, cells = rule
    return f"{kind} {write_characters(characters)} {write_dots(cells)}"


def with_rules(
    reading: Reading, text: bytes, rules: Learned, mends: Iterable[Mend]
) -> bytes:
    """The text of a table with rules, each in place of the line that it changes.

    New rules that are bound to a place stand before all other rules, since of the same characters the
    earlier line counts, and those for all places after them.
    """
    lines = text.split(b"\n")
    last = lines.pop()
    if last:
        lines.append(last)
    chooser = Chooser(reading.table)
    uses = {mend.line: mend.mended.total() for mend in mends}
    bound: list[bytes] = []
    free: list[bytes] = []
    numbers = _numbers(reading)
    for (kind, characters), cells in rules.items():
        line = line_of((kind, characters, cells))
        written = f"{line} {_mark(uses.get(line, 0))}".encode()
        if chooser.cells_of(kind, characters) is not None:
            lines[numbers[kind, characters] - 1] = written
        elif kind == ALWAYS:
            free.append(written)
        else:
            bound.append(written)
    first = min(numbers.values(), default=len(lines) + 1) - 1
    return b"".join(
        line + b"\n" for line in [*lines[:first], *bound, *lines[first:], *free]
    )


def _numbers(reading: Reading) -> Mapping[tuple[str, str], int]:
    """The line of each rule, the first of those of its kind and characters."""
    found: dict[tuple[str, str], int] = {}
    for rule in reading.table.rules:
        found.setdefault((str(rule.kind), rule.characters), rule.line)
    return found


def _mark(words: int) -> str:
    return f"for {words:,} {'word' if words == 1 else 'words'} of the book"
