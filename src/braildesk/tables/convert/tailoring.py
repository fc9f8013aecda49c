"""A table made for a manuscript: that of `making`, with rules learned from words and the manuscript.

A tenth of the manuscript is held back at first, so that it shows what the table is worth on text that
it wasn't made for. After that the tenth is learned from too.
"""

from __future__ import annotations

import re
from collections import Counter
from collections.abc import Callable, Iterable, Mapping, Sequence
from dataclasses import dataclass, replace
from pathlib import Path
from typing import Final

from braildesk.tables import Table, read
from braildesk.tables.convert.addition import Addition
from braildesk.tables.convert.causes import Difference, Judge
from braildesk.tables.convert.chooser import Chooser
from braildesk.tables.convert.contractions import named_words, signed_words
from braildesk.tables.convert.draft import (
    MOST_LINES,
    Origin,
    ProgramTrial,
    ROOM_FOR_COMMENTS,
)
from braildesk.tables.convert.examples import Example, Progress, examples
from braildesk.tables.convert.learning import BOOK_ROUNDS, Learned, Learner
from braildesk.tables.convert.making import Made, make_to_learn
from braildesk.tables.convert.oracle import Liblouis
from braildesk.tables.convert.running_text import (
    Agreement,
    agreement,
    spoilers,
    tokens,
)
from braildesk.tables.convert.source import read_source
from braildesk.tables.convert.subject import Subject, read_subject
from braildesk.tables.convert.word_list import (
    Folder,
    WordList,
    borne_out,
    keep,
    kept,
    learned_from_list,
    list_examples,
    name_of,
    weigh_less,
)
from braildesk.tables.operands import Cells
from braildesk.workshop import folder_for_a_while

HELD_BACK: Final = 10
"""Each paragraph of so many is held back."""

FEWEST_PARAGRAPHS: Final = 20
"""With fewer paragraphs none is held back."""

EACH_TIME: Final = 1
"""What a token of the manuscript counts more than one of the list, each time that it comes."""

APOSTROPHES: Final = ("'", "\u2019")
"""Both forms that an apostrophe has within a word. Those who type one may import the other."""

FROM_LIST: Final = "Learned from the word list"
FROM_MANUSCRIPT: Final = "Learned from the manuscript"

Report = Callable[[str], Progress]
"""Takes what is counted, in words, and gives what takes how many are done."""


@dataclass(frozen=True)
class Manuscript:
    """What a table is made for."""

    name: str
    paragraphs: Sequence[str]


@dataclass(frozen=True)
class Means:
    """What a table is made with: a list of words, if there is one, and where rules are kept.

    What is added comes after the lines of the table, and is compared with nothing.
    """

    words: WordList | None
    folder: Folder | None
    report: Report
    addition: Addition | None = None

    def naming(self, named: Iterable[str], signed: Iterable[str]) -> Means:
        """The same, with the words that a table names in the list, if there is one."""
        words = self.words and self.words.naming(named).signing(signed)
        return replace(self, words=words)


@dataclass(frozen=True)
class Figures:
    """How the program's cells compare with liblouis's on a text, and why words differ."""

    agreement: Agreement
    causes: tuple[Difference, ...]
    """The cause of each word that differs."""

    @property
    def by_cause(self) -> dict[Difference, Counter[str]]:
        """The words that differ by their causes, the most frequent cause first."""
        found: dict[Difference, Counter[str]] = {}
        for cause, _ in Counter(self.causes).most_common():
            found[cause] = Counter()
        for word, cause in zip(self.agreement.differences, self.causes, strict=True):
            found[cause][word.text] += 1
        return found

    @property
    def share_within_rules(self) -> float:
        """The share of words that agree, those aside that no table of braildesk can write so."""
        beyond = sum(cause.is_beyond for cause in self.causes)
        words = self.agreement.words - beyond
        return 1 - (len(self.causes) - beyond) / words if words else 0.0


@dataclass(frozen=True)
class Tailored:
    """A table that was made for a manuscript."""

    made: Made
    subject: Subject
    manuscript: Manuscript
    words: WordList | None
    addition: Addition | None
    from_list: int
    """How many rules were learned from the list, and from the manuscript."""
    from_manuscript: int
    own: Figures
    held_back: Figures | None


def figures(
    liblouis: Liblouis, table: Table, lines: Sequence[str], ours: Sequence[Cells | None]
) -> Figures:
    """Compares the cells of lines, which are the program's, with liblouis's."""
    found = agreement(liblouis, Chooser(table), lines, ours)
    causes = Judge(liblouis, table).causes(lines, found.differences)
    return Figures(found, tuple(causes))


def tailor(table: Path, manuscript: Manuscript, means: Means) -> Tailored:
    """Makes a table for a manuscript."""
    source = read_source(table)
    with Liblouis(table) as liblouis, folder_for_a_while() as folder:
        subject = read_subject(source, liblouis)
        return _Tailoring(subject, manuscript, means, folder).run()


class _Tailoring:
    """The steps by which a table is made for a manuscript."""

    def __init__(
        self, subject: Subject, manuscript: Manuscript, means: Means, folder: Path
    ) -> None:
        self._subject: Final = subject
        self._liblouis: Final = subject.liblouis
        self._manuscript: Final = manuscript
        self._means: Final = means.naming(
            named_words(subject.source), signed_words(subject.source)
        )
        self._trial: Final = ProgramTrial(folder)
        self._made: Final = make_to_learn(subject, self._trial)
        table = read(self._made.draft.text().encode()).table
        self._chooser: Final = Chooser(table)
        self._as_made: Final = Chooser(table)
        self._most: Final = MOST_LINES - ROOM_FOR_COMMENTS - len(self._made.draft.cells)
        carriers = subject.alphabet.carriers()
        self._frame: Final = carriers[0] * 2 if carriers else ""

    def run(self) -> Tailored:
        paragraphs = self._manuscript.paragraphs
        of_list = self._list_examples()
        from_list = self._from_list(of_list)
        if self._means.words:
            weigh_less(self._means.words, of_list)
        first, back = _parts(paragraphs)
        learned = self._from_manuscript(first, of_list, from_list)
        held_back = None
        if back:
            held_back = self._figures(from_list, learned, first, back)
            known = from_list | learned
            learned |= self._from_manuscript(paragraphs, of_list, known)
        own = self._figures(from_list, learned, paragraphs, paragraphs)
        return Tailored(
            self._made_with(from_list, learned, paragraphs),
            self._subject,
            self._manuscript,
            self._means.words,
            self._means.addition,
            len(from_list.keys() - learned.keys()),
            len(learned),
            own,
            held_back,
        )

    def _list_examples(self) -> list[Example]:
        if self._means.words is None:
            return []
        return list_examples(
            self._means.words,
            self._liblouis,
            self._chooser,
            self._frame,
            self._means.report("words of the list asked for"),
        )

    def _from_list(self, found: Sequence[Example]) -> Learned:
        """The rules of the word list: those that were kept, or else learned now."""
        words, folder = self._means.words, self._means.folder
        if words is None:
            return {}
        name = name_of(words, self._made.draft, self._liblouis.version)
        known = kept(folder, name, self._made.draft) if folder else None
        if known is not None:
            return borne_out(self._chooser, found, known)
        report = self._means.report("rounds of learning from the list")
        learned = learned_from_list(words, self._chooser, found, self._most, report)
        if folder:
            keep(folder, name, learned)
        return learned

    def _from_manuscript(
        self, paragraphs: Sequence[str], of_list: Sequence[Example], known: Learned
    ) -> Learned:
        """Learns from the tokens of paragraphs, so that no word of the list is spoiled.

        Some rules are known already.
        """
        weights = _with_twins(weights_of(tokens(self._liblouis, paragraphs)))
        own = examples(
            self._liblouis,
            self._chooser,
            weights,
            self._frame,
            self._means.report("words of the manuscript asked for"),
        )
        for example in own:
            example.choose(self._chooser)
        others = [
            one for one in of_list if one.is_right and one.seen.text not in weights
        ]
        report = self._means.report("rounds of learning from the manuscript")
        learner = Learner(self._chooser, [*others, *own], self._most)
        learned = learner.learn(BOOK_ROUNDS, report)
        learned |= learner.learn_chains(own)
        older = {
            key: known.get(key, self._as_made.cells_of(*key))
            for key in learned
            if " " in key[1]
        }
        spoiling = spoilers(self._liblouis, self._chooser, older, paragraphs)
        return {key: its for key, its in learned.items() if key not in spoiling}

    def _figures(
        self,
        from_list: Learned,
        learned: Learned,
        paragraphs: Sequence[str],
        compared: Sequence[str],
    ) -> Figures:
        draft = self._made_with(from_list, learned, paragraphs).draft
        table = read(draft.text().encode()).table
        ours = self._trial.cells(draft, compared)
        return figures(self._liblouis, table, compared, ours)

    def _made_with(
        self, from_list: Learned, learned: Learned, paragraphs: Sequence[str]
    ) -> Made:
        """The table with the learned rules, each with the words of the manuscript that it is for."""
        draft = self._made.draft.copy()
        uses = uses_of_rules(self._chooser, paragraphs)
        for rules, sentence in ((from_list, FROM_LIST), (learned, FROM_MANUSCRIPT)):
            for (kind, characters), _ in rules.items():
                cells = self._chooser.cells_of(kind, characters)
                if cells is not None:
                    mark = _mark(uses[kind, characters])
                    draft.add_rule(kind, characters, cells, Origin(sentence, mark))
        return replace(self._made, draft=draft)


def weights_of(counted: Mapping[str, int]) -> dict[str, float]:
    """What each token of a manuscript counts: one, and more the more often it comes."""
    return {token: 1 + EACH_TIME * count for token, count in counted.items()}


def _with_twins(weights: Mapping[str, float]) -> dict[str, float]:
    """Tokens with those that differ by the form of an apostrophe alone, each of which counts once."""
    twins: dict[str, float] = {}
    for one, other in (APOSTROPHES, APOSTROPHES[::-1]):
        within = re.compile(rf"(?<=[^\W\d_]){one}(?=[^\W\d_])")
        twins |= {within.sub(other, token): 1 for token in weights if one in token}
    return twins | dict(weights)


def _mark(uses: int) -> str:
    return f"for {uses:,} {'word' if uses == 1 else 'words'} of the manuscript"


def _parts(paragraphs: Sequence[str]) -> tuple[Sequence[str], Sequence[str]]:
    """The paragraphs that are learned from at first, and those held back."""
    if len(paragraphs) < FEWEST_PARAGRAPHS:
        return paragraphs, ()
    back = paragraphs[HELD_BACK - 1 :: HELD_BACK]
    first = [one for place, one in enumerate(paragraphs, start=1) if place % HELD_BACK]
    return first, back


def uses_of_rules(
    chooser: Chooser, paragraphs: Iterable[str]
) -> Counter[tuple[str, str]]:
    """In how many words of some paragraphs each rule is chosen."""
    counted = Counter(
        token for line in paragraphs for token in line.split(" ") if token
    )
    uses: Counter[tuple[str, str]] = Counter()
    for token, count in counted.items():
        if not chooser.lacking(token):
            seen = chooser.printed(token)
            chosen = {
                (kind, seen.folded[start:end])
                for start, end, _, kind in chooser.choices(seen)
                if kind is not None
            }
            for key in chosen:
                uses[key] += count
    return uses
