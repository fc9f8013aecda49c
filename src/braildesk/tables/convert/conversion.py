"""Bringing a table over, from its file to a text that was compared with liblouis."""

from __future__ import annotations

import zlib
from dataclasses import dataclass
from pathlib import Path
from typing import Final

from braildesk.tables.convert import report
from braildesk.tables.convert.addition import Addition, read_addition
from braildesk.tables.convert.comparison import Comparison, compare
from braildesk.tables.convert.draft import ProgramTrial, TableDraft
from braildesk.tables.convert.making import Made, make
from braildesk.tables.convert.oracle import Liblouis
from braildesk.tables.convert.shapes import ASKED, Material, Shape, UNSEEN, lines_of
from braildesk.tables.convert.shipped import shipped_table
from braildesk.tables.convert.source import read_source
from braildesk.tables.convert.subject import Subject, read_subject
from braildesk.tables.convert.words import (
    FEWEST_WORDS,
    installed_words,
    own_words,
    usable,
    words_in,
)
from braildesk.workshop import folder_for_a_while

LIMIT: Final = 0.99
"""The share of lines that has to agree, those aside that need what the profile leaves out for good."""

FEWEST: Final = 0.5
"""The share of all lines that has to agree, so that the limit doesn't speak of a few lines alone."""

EACH: Final = 25
"""How many lines of each shape are compared."""


class NoWords(Exception):
    """The words that were given can't be used."""


@dataclass(frozen=True)
class Options:
    """How a table is brought over."""

    words: Path | None = None
    each: int = EACH
    add: Path | None = None
    """A file of lines of the user's own, which come after those that were made."""


@dataclass(frozen=True)
class Converted:
    """A table as a text of the profile, and how it compares with liblouis."""

    text: str
    losses: tuple[str, ...]
    asked: Comparison
    unseen: Comparison
    source_of_words: str

    @property
    def is_good(self) -> bool:
        """Whether the text may be used without another look."""
        return self.unseen.share >= LIMIT and self.unseen.share_of_all >= FEWEST


def convert(table: Path, options: Options = Options()) -> Converted:
    """Brings a table over."""
    # read here first, where a table that includes itself is seen before liblouis would loop on it
    source = read_source(table)
    addition = None if options.add is None else read_addition(options.add)
    with Liblouis(table) as liblouis, folder_for_a_while() as folder:
        subject = read_subject(source, liblouis)
        return _Job(subject, options, addition, folder).run()


@dataclass(frozen=True)
class _Job:
    subject: Subject
    options: Options
    addition: Addition | None
    folder: Path

    def run(self) -> Converted:
        trial = ProgramTrial(self.folder)
        made = make(self.subject, trial)
        seed = zlib.crc32(self.subject.source.path.name.encode())
        source_of_words, words = self._words(made.draft, seed)
        asked, unseen = (
            self._compare(made, trial, shapes, words, seed + place)
            for place, shapes in enumerate((ASKED, UNSEEN))
        )
        agreement = report.agreement(unseen)
        comments = report.comments(made, self.subject, agreement, self.addition)
        losses = report.losses(made, self.subject, self.addition)
        losses += report.unsettled(made)
        text = made.draft.text(comments)
        if self.addition is not None:
            text, warned = self.addition.after(text)
            losses += warned
        return Converted(text, tuple(losses), asked, unseen, source_of_words)

    def _compare(
        self,
        made: Made,
        trial: ProgramTrial,
        shapes: tuple[Shape, ...],
        words: list[str],
        seed: int,
    ) -> Comparison:
        draft = made.draft
        if not words:
            return Comparison(0, (), {})
        upper = {lower: capital for capital, lower in draft.lower.items()}
        letters = sorted({one for word in words for one in word})
        plain = [one for one in letters if one.isascii()] or letters
        material = Material(words, plain, upper)
        samples = lines_of(shapes, material, draft.cells, self.options.each, seed)
        return compare(self.subject, draft, trial, samples, self.folder)

    def _words(self, draft: TableDraft, seed: int) -> tuple[str, list[str]]:
        """The words to compare with, and where they are from."""
        if self.options.words is not None:
            words = usable(words_in(self.options.words), draft)
            if len(words) < FEWEST_WORDS:
                raise NoWords(
                    f"Of the words in {self.options.words} the table can write {len(words)}, and"
                    f" {FEWEST_WORDS} are needed to compare with. Give a list of words of the"
                    " table's language, one on a line."
                )
            return str(self.options.words), words
        installed = installed_words(shipped_table(self.subject.source.path).language)
        if installed is not None:
            words = usable(words_in(installed), draft)
            if len(words) >= FEWEST_WORDS:
                return str(installed), words
        made_up = usable(own_words(self.subject, draft, seed), draft)
        return "made-up words of the table's own letters", made_up
