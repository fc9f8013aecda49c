"""The pages of a volume, laid out from its cells as `export` lays them out.

docs/FORMATS.md says under "Pages for embossers" how. Lines and pages are counted from 1, cells of a
paragraph from 0.
"""

import re
from bisect import bisect_left, bisect_right
from collections.abc import Iterable, Iterator, Sequence
from dataclasses import dataclass
from itertools import accumulate, chain, islice, repeat, takewhile

from braildesk import Paragraph, Session, Style
from braildesk.desk.readings import brailles
from braildesk.text.cells import EMPTY_CELL, braille_ascii

_BODY_INDENT = 2
_HEADING_INDENT = 4
_EIGHT_DOTS = re.compile("[\u2840-\u28ff]")
_DIGITS = str.maketrans("1234567890", "ABCDEFGHIJ")
# how many paragraphs are asked for at once if not all may be needed
_BATCH = 64

#: Cells of a paragraph, from the first one up to but not including another one.
Span = tuple[int, int]


@dataclass(frozen=True)
class PageSize:
    """The size of a page: the cells of a line, and its lines, of which the last has its number."""

    width: int = 40
    lines: int = 25

    @property
    def text_lines(self) -> int:
        return self.lines - 1

    def place(self, line: int) -> tuple[int, int]:
        """The page and its line on which a line of a volume stands, which is counted from 0."""
        page, place = divmod(line, self.text_lines)
        return page + 1, place + 1


@dataclass(frozen=True)
class Section:
    """A paragraph of a volume with its braille, as characters of Braille Patterns."""

    paragraph: int
    is_heading: bool
    braille: str

    @property
    def indents(self) -> Span:
        """The empty cells at the front of its first line, and of its others."""
        return (_HEADING_INDENT,) * 2 if self.is_heading else (_BODY_INDENT, 0)

    @property
    def eight_dots(self) -> int | None:
        """The place of the first cell with dot 7 or 8, with which no volume is exported."""
        found = _EIGHT_DOTS.search(self.braille)
        return found.start() if found else None


@dataclass(frozen=True)
class Row:
    """A line of a page: which cells of which paragraph stand on it, and what is embossed."""

    page: int
    line: int
    paragraph: int
    start: int
    stop: int
    shown: str


@dataclass(frozen=True)
class Placed:
    """A paragraph on its lines, with the cells on each; it has none if it has no words.

    Lines are counted from 0 through all pages of the volume, without those of the numbers of pages.
    """

    section: Section
    lines: range
    spans: list[Span]

    def line_of(self, cell: int) -> int:
        """The line on which a cell stands.

        An empty cell at which a line is broken stands on none: what is before it does.
        """
        before = sum(start <= cell for start, _ in self.spans)
        return self.lines[max(0, before - 1)]

    @property
    def shown(self) -> list[str]:
        """What is embossed on its lines."""
        letters = braille_ascii(self.section.braille)
        first, later = self.section.indents
        margins = chain([first], repeat(later))
        return [
            " " * margin + " ".join(letters[start:stop].split())
            for margin, (start, stop) in zip(margins, self.spans)
        ]


@dataclass(frozen=True)
class Layout:
    """The paragraphs of a volume in their order, on pages of a size."""

    page_size: PageSize
    placed: tuple[Placed, ...]

    @property
    def pages(self) -> int:
        """How many pages there are."""
        return (
            -(-self.placed[-1].lines.stop // self.page_size.text_lines)
            if self.placed
            else 0
        )

    @property
    def rows(self) -> tuple[Row, ...]:
        """The lines that have words, in their order."""
        return tuple(row for each in self.placed for row in self.rows_of(each))

    def rows_of(self, placed: Placed) -> Iterator[Row]:
        """The lines of a paragraph."""
        number = placed.section.paragraph
        for line, span, shown in zip(placed.lines, placed.spans, placed.shown):
            yield Row(*self.page_size.place(line), number, *span, shown)

    def on_page(self, page: int) -> list[Placed]:
        """The paragraphs that have lines on a page."""
        first = (page - 1) * self.page_size.text_lines
        last = first + self.page_size.text_lines
        start = bisect_right(self.placed, first, key=lambda each: each.lines.stop)
        stop = bisect_left(self.placed, last, key=lambda each: each.lines.start)
        return [each for each in self.placed[start:stop] if each.lines]

    def page(self, page: int) -> list[str]:
        """The lines of a page in Braille ASCII, the last of them with its number."""
        lines = [""] * self.page_size.text_lines
        front = (page - 1) * self.page_size.text_lines
        for placed in self.on_page(page):
            for line, text in zip(placed.lines, placed.shown):
                if 0 <= line - front < len(lines):
                    lines[line - front] = text
        number = "#" + str(page).translate(_DIGITS)
        return [*lines, number.rjust(self.page_size.width)]

    def embossed(self, page: int) -> bytes:
        """A page in Braille Ready Format."""
        lines = "".join(line + "\r\n" for line in self.page(page))
        return lines.encode("ascii") + b"\f"

    def brf(self) -> bytes:
        """The volume in Braille Ready Format."""
        return b"".join(map(self.embossed, range(1, self.pages + 1)))


def lay_out(
    sections: Iterable[Section], page_size: PageSize, last: int | None = None
) -> Layout:
    """Puts the words of a volume's paragraphs on lines, and the lines on pages.

    No more than the last page that is wanted is laid out, if one is said, and the paragraphs that
    begin on it or before.
    """
    found = placed(sections, page_size)
    if last is not None:
        stop = last * page_size.text_lines
        found = takewhile(lambda each: each.lines.start < stop, found)
    return Layout(page_size, tuple(found))


def placed(sections: Iterable[Section], page_size: PageSize) -> Iterator[Placed]:
    """Each paragraph of a volume on its lines."""
    front = 0
    for section in sections:
        spans = spans_of(section, page_size.width)
        if section.is_heading and spans and front % page_size.text_lines:
            front += 1
        yield Placed(section, range(front, front + len(spans)), spans)
        front += len(spans)


def spans_of(section: Section, width: int) -> list[Span]:
    """The cells on each line of a paragraph: words that are parted by one empty cell there."""
    first, later = (width - indent for indent in section.indents)
    cells = section.braille
    joined = EMPTY_CELL.join(filter(None, cells.split(EMPTY_CELL)))
    spans = _broken(joined, first, later)
    if joined == cells:
        return spans
    # each cell of a word stands at a place of its own in the paragraph
    places = [place for place, cell in enumerate(cells) if cell != EMPTY_CELL]
    counts = list(accumulate(cell != EMPTY_CELL for cell in joined))
    return [
        (places[counts[start] - 1], places[counts[stop - 1] - 1] + 1)
        for start, stop in spans
    ]


def _broken(words: str, first: int, later: int) -> list[Span]:
    """The lines of words, by the room of the first line and of the others."""
    spans = []
    start, room = 0, first
    while len(words) - start > room:
        stop = words.rfind(EMPTY_CELL, start, start + room + 1)
        is_cut = stop < 0
        if is_cut:
            stop = start + room
        spans.append((start, stop))
        start, room = stop if is_cut else stop + 1, later
    if words[start:]:
        spans.append((start, len(words)))
    return spans


@dataclass(frozen=True)
class Volume:
    """A volume: its number, its paragraphs, and their pages, maybe no more than the first of them."""

    number: int
    paragraphs: tuple[Paragraph, ...]
    layout: Layout

    @property
    def is_whole(self) -> bool:
        """Whether all its pages are laid out."""
        return len(self.layout.placed) == len(self.paragraphs)

    @property
    def eight_dots(self) -> tuple[int, int] | None:
        """The first paragraph with a cell of eight dots, if there is one, and the place of that cell."""
        sections = (placed.section for placed in self.layout.placed)
        found = ((each.paragraph, each.eight_dots) for each in sections)
        return next(((n, cell) for n, cell in found if cell is not None), None)

    @property
    def brailles(self) -> dict[int, str]:
        """The braille of each paragraph, by its number."""
        sections = (placed.section for placed in self.layout.placed)
        return {each.paragraph: each.braille for each in sections}


def parted(book: Sequence[Paragraph]) -> list[list[Paragraph]]:
    """The paragraphs of each volume: those that aren't struck, from a volume's first one on."""
    parts: list[list[Paragraph]] = []
    for paragraph in book:
        if paragraph.struck:
            continue
        if paragraph.begins_volume or not parts:
            parts.append([])
        parts[-1].append(paragraph)
    return parts


def volume(
    session: Session,
    number: int,
    paragraphs: Sequence[Paragraph],
    page_size: PageSize,
    last: int | None = None,
) -> Volume:
    """A volume of a book, laid out up to the last page that is wanted, if one is said."""
    some = sections if last is None else _some_sections
    layout = lay_out(some(session, paragraphs), page_size, last)
    return Volume(number, tuple(paragraphs), layout)


def sections(session: Session, paragraphs: Sequence[Paragraph]) -> Iterator[Section]:
    """Paragraphs with their braille, asked ahead."""
    for paragraph, cells in zip(paragraphs, brailles(session, paragraphs)):
        yield Section(paragraph.id, paragraph.style is Style.HEADING, cells)


def _some_sections(
    session: Session, paragraphs: Sequence[Paragraph]
) -> Iterator[Section]:
    """The same in groups, so that no more is asked than needed."""
    rest = iter(paragraphs)
    while group := list(islice(rest, _BATCH)):
        yield from list(sections(session, group))
