"""A book as it will be embossed, with the print that each word of cells stands for."""

import re
from bisect import bisect_left, bisect_right
from collections.abc import Iterator, Mapping, Sequence
from dataclasses import dataclass
from itertools import groupby

from braildesk import Mark, Paragraph, Session, Style
from braildesk.desk.layout import PageSize, Row, Volume, parted, volume
from braildesk.desk.places import Character, cells_on_lines, made_as_one
from braildesk.desk.readings import answers, prints
from braildesk.protocol.requests import Marks, Whence, Where
from braildesk.text.cells import EMPTY_CELL

_CELLS = re.compile(f"[^{EMPTY_CELL}]+")
_PRINT = re.compile(r"\S+")
_BLANK = re.compile(r"\s+")


@dataclass(frozen=True, slots=True)
class ProofWord:
    """Cells that stand together on a line, and the print that they stand for."""

    #: The column of the first cell, counted from 0.
    column: int
    cells: str
    #: Empty if the print stands under the cells before, as when a word is cut at a line's end.
    text: str
    is_marked: bool


@dataclass(frozen=True, slots=True)
class ProofLine:
    """A line of a page that has words."""

    #: Its number on the page, counted from 1.
    number: int
    #: The number of the paragraph that begins on it, if one does.
    begins: int | None
    is_heading: bool
    words: tuple[ProofWord, ...]
    #: The marks whose first cell stands on it.
    marks: tuple[Mark, ...]
    #: The print of its paragraph.
    print: str = ""


@dataclass(frozen=True, slots=True)
class ProofPage:
    """A page of a volume."""

    volume: int
    #: Counted from 1 in each volume.
    number: int
    lines: tuple[ProofLine, ...]
    #: The first paragraph of its volume with a cell of eight dots, and the place of that cell.
    eight_dots: tuple[int, int] | None = None

    @property
    def open_marks(self) -> int:
        """How many open marks have their first word on it."""
        return sum(not mark.resolved for line in self.lines for mark in line.marks)

    @property
    def has_open_mark(self) -> bool:
        """Whether an open mark is on it, also if its first word stands on the page before."""
        words = (word for line in self.lines for word in line.words)
        return bool(self.open_marks) or any(word.is_marked for word in words)


@dataclass(frozen=True, slots=True)
class _Word:
    """A run of cells of a paragraph, and the places of the print that it stands for."""

    start: int
    stop: int
    first: int
    last: int


def proof_pages(session: Session, page_size: PageSize) -> Iterator[ProofPage]:
    """The pages of all volumes of a book."""
    for number, paragraphs in enumerate(parted(session.paragraphs()), 1):
        its = volume(session, number, paragraphs, page_size)
        texts = dict(zip((each.id for each in paragraphs), prints(session, paragraphs)))
        marks = _marks(session, paragraphs)
        on_rows = _on_rows(session, its, texts, marks)
        words = _words(session, its, texts)
        yield from _pages(its, _Lines(its, texts, marks, on_rows, words))


def open_marks(session: Session) -> int:
    """How many open marks a book has, on its pages and elsewhere."""
    found = _marks(session, session.paragraphs()).values()
    return sum(not mark.resolved for marks in found for mark in marks)


def _marks(
    session: Session, paragraphs: Sequence[Paragraph]
) -> dict[int, tuple[Mark, ...]]:
    found = answers(session, (Marks(each.id) for each in paragraphs))
    return {each.id: marks for each, marks in zip(paragraphs, found)}


def _on_rows(
    session: Session,
    its: Volume,
    texts: Mapping[int, str],
    marks_of: Mapping[int, Sequence[Mark]],
) -> dict[int, list[list[Mark]]]:
    """The marks on each line of the paragraphs that have lines, in the order of the marks.

    A blank at which a line is broken stands where the word before it does.
    """
    fronts = {
        each.section.paragraph: [start for start, _ in each.spans]
        for each in its.layout.placed
        if each.spans
    }
    cells_of = its.brailles
    asked = [
        Character(number, min(mark.start, len(text) - 1), text, cells_of[number])
        for number, text in ((number, texts[number]) for number in fronts)
        for mark in marks_of[number]
    ]
    cells = iter(cells_on_lines(session, asked))
    found = {
        number: [list[Mark]() for _ in starts] for number, starts in fronts.items()
    }
    for number, starts in fronts.items():
        for mark in marks_of[number]:
            row = bisect_right(starts, next(cells)) - 1
            found[number][max(0, row)].append(mark)
    return found


def _words(
    session: Session, its: Volume, texts: Mapping[int, str]
) -> dict[int, list[_Word]]:
    """The words of each paragraph of a volume."""
    runs = {
        number: [match.span() for match in _CELLS.finditer(cells)]
        for number, cells in its.brailles.items()
    }
    paired = _paired(session, runs, texts)
    others = {number: each for number, each in runs.items() if number not in paired}
    return paired | _told_by_the_book(session, others, texts, its.brailles)


def _paired(
    session: Session,
    runs_of: Mapping[int, Sequence[tuple[int, int]]],
    texts: Mapping[int, str],
) -> dict[int, list[_Word]]:
    """The words of paragraphs if each begins where a run of cells does, and there are no more runs.

    As many of both are no sign of that: one sign may join words, and another one part a word.
    """
    found: dict[int, list[_Word]] = {}
    for number, runs in runs_of.items():
        words = [match.span() for match in _PRINT.finditer(texts[number])]
        if len(runs) == len(words):
            found[number] = [_Word(*run, *word) for run, word in zip(runs, words)]
    asked = (
        Where(number, word.first) for number, words in found.items() for word in words
    )
    begun = _in_turn(answers(session, asked), found)
    return {
        number: words
        for number, words in found.items()
        if begun[number] == [word.start for word in words]
    }


def _told_by_the_book(
    session: Session,
    runs_of: Mapping[int, Sequence[tuple[int, int]]],
    texts: Mapping[int, str],
    brailles: Mapping[int, str],
) -> dict[int, list[_Word]]:
    """The words of paragraphs, of which the book says where each run of cells comes from."""
    asked = (
        Whence(number, start) for number, runs in runs_of.items() for start, _ in runs
    )
    firsts_of = _in_turn(answers(session, asked), runs_of)
    begun = (
        Where(number, place) for number, firsts in firsts_of.items() for place in firsts
    )
    cells_of = _in_turn(answers(session, begun), runs_of)
    found: dict[int, list[_Word]] = {}
    for number, runs in runs_of.items():
        text, cells = texts[number], brailles[number]
        places = zip(runs, firsts_of[number], cells_of[number])
        firsts = [
            # a sign may stand for the end of the word before, a blank and this one's front
            _first_begun(session, Character(number, place, text, cells), start)
            if cell < start
            else place
            for (start, _), place, cell in places
        ]
        lasts = [*firsts[1:], len(text)]
        spans = zip(runs, firsts, lasts)
        found[number] = [_Word(*run, first, last) for run, first, last in spans]
    return found


def _in_turn(
    found: Iterator[int], runs: Mapping[int, Sequence[object]]
) -> dict[int, list[int]]:
    """Numbers that were asked for runs of paragraphs, one after the other."""
    return {number: [next(found) for _ in its] for number, its in runs.items()}


def _first_begun(session: Session, its: Character, cell: int) -> int:
    """The first place of the print that stands under a cell, made as one with those before it.

    That is of the next word if all of theirs stands under those before.
    """
    words, runs = made_as_one(session, its.paragraph, cell, its.text, its.braille)
    before = sum(run.start < cell for run in runs)
    if before < len(words):
        return words[before].start
    return _after_blank(its.text, words[-1].start if words else its.place)


def _after_blank(text: str, place: int) -> int:
    """The first place after the next blank, or the end of the text."""
    blank = _BLANK.search(text, place)
    return blank.end() if blank else len(text)


def _pages(its: Volume, line: "_Lines") -> Iterator[ProofPage]:
    headings = {each.id for each in its.paragraphs if each.style is Style.HEADING}
    eight_dots = its.eight_dots
    for page, rows in groupby(its.layout.rows, lambda row: row.page):
        lines = tuple(line.of(row, row.paragraph in headings) for row in rows)
        yield ProofPage(its.number, page, lines, eight_dots)


class _Lines:
    """The lines of a volume, row by row in their order."""

    def __init__(
        self,
        its: Volume,
        texts: Mapping[int, str],
        marks: Mapping[int, Sequence[Mark]],
        on_rows: Mapping[int, Sequence[Sequence[Mark]]],
        words: Mapping[int, Sequence[_Word]],
    ) -> None:
        self._brailles = its.brailles
        self._texts = texts
        self._marks = marks
        self._on_rows = on_rows
        self._words = words
        self._paragraph = 0
        self._marked = _Marked(())
        #: The word of the paragraph that comes next, and the row, counted from 0.
        self._next = self._row = 0

    def of(self, row: Row, is_heading: bool) -> ProofLine:
        """The line of a row, which comes after those of the rows before."""
        is_new = row.paragraph != self._paragraph
        if is_new:
            self._paragraph, self._next, self._row = row.paragraph, 0, 0
            self._marked = _Marked(self._marks[row.paragraph])
        text, braille = self._texts[row.paragraph], self._brailles[row.paragraph]
        words: list[ProofWord] = []
        column = len(row.shown) - len(row.shown.lstrip(" "))
        for word in self._on(row):
            start, stop = max(word.start, row.start), min(word.stop, row.stop)
            is_begun = word.start >= row.start
            shown = text[word.first : word.last].strip() if is_begun else ""
            is_marked = self._marked.is_on(word.first, word.last)
            words.append(ProofWord(column, braille[start:stop], shown, is_marked))
            column += stop - start + 1
        marks = self._on_rows[row.paragraph][self._row]
        self._row += 1
        return ProofLine(
            row.line,
            row.paragraph if is_new else None,
            is_heading,
            tuple(words),
            tuple(marks),
            text,
        )

    def _on(self, row: Row) -> Iterator[_Word]:
        """The words of which cells stand on a row; one that goes on is the next row's first."""
        words = self._words[row.paragraph]
        while self._next < len(words) and words[self._next].start < row.stop:
            yield words[self._next]
            if words[self._next].stop > row.stop:
                return
            self._next += 1


class _Marked:
    """The open marks of a paragraph, of which there may be very many, found by places of its print."""

    def __init__(self, marks: Sequence[Mark]) -> None:
        opened = sorted(
            (mark for mark in marks if not mark.resolved), key=lambda mark: mark.start
        )
        self._starts = [mark.start for mark in opened]
        # how far the marks reach that begin no later than each
        self._reach: list[int] = []
        for mark in opened:
            self._reach.append(max(_stop(mark), (self._reach or [0])[-1]))

    def is_on(self, first: int, last: int) -> bool:
        """Whether a mark is on any of some places."""
        before = bisect_left(self._starts, last)
        return before > 0 and first < self._reach[before - 1]


def _stop(mark: Mark) -> int:
    """Where a mark ends; one of which the characters are gone is on the place where they were."""
    return max(mark.stop, mark.start + 1)
