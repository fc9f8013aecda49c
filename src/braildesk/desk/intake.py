"""Paragraphs of a text file on their way into a book: which, where to, and by which table."""

from collections.abc import Iterator, Sequence
from dataclasses import dataclass, replace
from itertools import count
from typing import Any

from braildesk import After, Paragraph, Style, Table
from braildesk.desk import Problem
from braildesk.desk.import_note import How, ImportNote
from braildesk.desk.manuscript import Passage
from braildesk.protocol import requests
from braildesk.protocol.requests import Command, Type
from braildesk.protocol.value import Value


class NotImported(Problem):
    """Nothing of a text was typed into a book."""


class LineWithin(NotImported):
    """The line at which the text was to begin is within a paragraph of it."""

    def __init__(self, line: int, passage: Passage) -> None:
        super().__init__(line, passage)
        self.line = line
        self.passage = passage


class NoLine(NotImported):
    """The text, which has these paragraphs, has none from a line on."""

    def __init__(self, line: int, passages: Sequence[Passage]) -> None:
        super().__init__(line, passages)
        self.line = line
        self.passages = passages


class NoParagraphBefore(NotImported):
    """A book, which has so many paragraphs, has none of the number after which the text goes."""

    def __init__(self, number: int, count: int) -> None:
        super().__init__(number, count)
        self.number = number
        self.count = count


class BookHasNoTable(NotImported):
    """The book has no table."""


class WhichTable(NotImported):
    """The book has many tables, and nothing says which is meant, or none of a name."""

    def __init__(self, names: Sequence[str], wanted: str | None) -> None:
        super().__init__(names, wanted)
        self.names = names
        self.wanted = wanted


class NotContinuing(NotImported):
    """The print before in the book, if there is one, isn't that before the rest of the text."""

    def __init__(
        self, stored: str | None, before: Sequence[Passage], rest: Sequence[Passage]
    ) -> None:
        super().__init__(stored, before, rest)
        self.stored = stored
        self.before = before
        self.rest = rest

    @property
    def same(self) -> int | None:
        """Which passage of the text the print in the book is, if it is just one of them."""
        whole = [*self.before, *self.rest]
        same = [n for n, passage in enumerate(whole) if passage.text == self.stored]
        return same[0] if len(same) == 1 else None


@dataclass(frozen=True, eq=False, repr=False)
class Intake(Value):
    """What is to be typed into a book that is at a version and has so many paragraphs."""

    version: int
    there: int
    passages: tuple[Passage, ...]
    after: After
    table: Table
    #: What the paragraph before the first of these lacks, if the import was cut short after it.
    lacking: tuple[Command[Any], ...] = ()
    #: Whether the passages are in normal form C as they stand in the file.
    is_composed: bool = False

    def requests(self) -> Iterator[Command[Any]]:
        """A request for each paragraph, and one for each setting of it, which comes after it.

        A new paragraph has the next number. Each request makes the next version, so that each
        paragraph goes after the one before it, and none is typed after one that was refused.
        """
        versions = count(self.version)
        for each in self.lacking:
            yield replace(each, expect=next(versions))
        after, table = self.after, self.table.name
        for number, passage in enumerate(self.passages, start=self.there + 1):
            text = passage.joined if self.is_composed else passage.text
            yield Type(after, table, text, expect=next(versions))
            for each in settings(passage, number):
                yield replace(each, expect=next(versions))
            if after != "end":
                after = number

    def noted(
        self, text: str, digest: str, by_lines: bool, how: How
    ) -> ImportNote | None:
        """What is noted of this import: the path of the text, its digest, and how it is read.

        Nothing is noted of one that types nothing.
        """
        if not self.passages:
            return None
        return ImportNote(
            text,
            digest,
            by_lines,
            self.passages[0].first_line,
            len(self.passages),
            self.table.name,
            self.after,
            self.version,
            self.there,
            how,
        )


def settings(
    passage: Passage, number: int, paragraph: Paragraph | None = None
) -> Iterator[Command[Any]]:
    """What makes a new paragraph of a number be as a passage is, or one that has a part of it already."""
    if passage.style is Style.HEADING:
        if paragraph is None or paragraph.style is not Style.HEADING:
            yield requests.Style(number, Style.HEADING)
    if passage.begins_volume and (paragraph is None or not paragraph.begins_volume):
        yield requests.Volume(number, True)


def parted_at(
    passages: Sequence[Passage], line: int
) -> tuple[tuple[Passage, ...], tuple[Passage, ...]]:
    """The paragraphs of a text before a line, and those from it on; `LineWithin` and `NoLine`."""
    for place, passage in enumerate(passages):
        if passage.first_line >= line:
            return tuple(passages[:place]), tuple(passages[place:])
        if passage.last_line >= line:
            raise LineWithin(line, passage)
    raise NoLine(line, passages)


def paragraph_before(book: Sequence[Paragraph], after: After) -> Paragraph | None:
    """The paragraph after which the text goes, none at the front of the book."""
    if isinstance(after, int):
        for paragraph in book:
            if paragraph.id == after:
                return paragraph
        raise NoParagraphBefore(after, len(book))
    return book[-1] if book and after == "end" else None


def table_for(
    tables: Sequence[Table], before: Paragraph | None, name: str | None
) -> Table:
    """The table of that name; else that of the paragraph before, else the book's only one."""
    named = {table.name: table for table in tables}
    if not named:
        raise BookHasNoTable
    wanted = name or (before and before.table) or None
    if wanted is None and len(named) == 1:
        (wanted,) = named
    if wanted is None or wanted not in named:
        raise WhichTable(tuple(named), wanted)
    return named[wanted]


def check_goes_on(
    stored: str | None, before: Sequence[Passage], rest: Sequence[Passage]
) -> None:
    """`NotContinuing` if the print before isn't that of the paragraph of the text before those to come."""
    if before and stored != before[-1].text:
        raise NotContinuing(stored, before, rest)
