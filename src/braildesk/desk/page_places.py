"""On which page and line of which volume the words of a book stand, and what stands on a line."""

from collections.abc import Iterator, Sequence
from dataclasses import dataclass

from braildesk import Session
from braildesk.desk.layout import Layout, PageSize, Placed, Row, Volume, parted, volume
from braildesk.desk.places import Character, cells_on_lines, words_on_line
from braildesk.desk.readings import prints
from braildesk.text.spans import Span


@dataclass(frozen=True)
class PagePlace:
    """A line of a page of a volume, all counted from 1.

    Page and line are 0 in a volume that isn't laid out, since pages can't have a cell of it.
    """

    volume: int
    page: int
    line: int


class PageMap:
    """The pages and lines of a book as numbers, which is laid out whole when this is made."""

    def __init__(self, session: Session, page_size: PageSize) -> None:
        self._session = session
        self._page_size = page_size
        self._placed: dict[int, tuple[int, Placed]] = {}
        self._eight_dots: dict[int, tuple[int, int]] = {}
        #: The volumes of places that were asked for which aren't laid out, each with the first
        #: paragraph with a cell of eight dots, and the place of that cell.
        self.not_laid_out: dict[int, tuple[int, int]] = {}
        for number, paragraphs in enumerate(parted(session.paragraphs()), 1):
            its = volume(session, number, paragraphs, page_size)
            if its.eight_dots is not None:
                self._eight_dots[number] = its.eight_dots
            for placed in its.layout.placed:
                self._placed[placed.section.paragraph] = number, placed

    def of_character(self, paragraph: int, place: int, text: str) -> PagePlace | None:
        """Where a character of a print stands; none if that is on no page."""
        return next(self.of_characters([(paragraph, place, text)]))

    def of_characters(
        self, asked: Sequence[tuple[int, int, str]]
    ) -> Iterator[PagePlace | None]:
        """The same for each of some: its paragraph, its place, and the print."""
        known = [
            Character(
                number,
                min(place, len(text) - 1),
                text,
                self._placed[number][1].section.braille,
            )
            for number, place, text in asked
            if text and number in self._placed
        ]
        cells = iter(cells_on_lines(self._session, known))
        for number, _, text in asked:
            is_known = text and number in self._placed
            yield self.of_cell(number, next(cells)) if is_known else None

    def of_cell(self, paragraph: int, cell: int) -> PagePlace | None:
        """Where a cell of a paragraph stands; none if that is on no page."""
        number, placed = self._placed.get(paragraph, (0, None))
        if placed is None or not placed.spans:
            return None
        if number in self._eight_dots:
            self.not_laid_out[number] = self._eight_dots[number]
            return PagePlace(number, 0, 0)
        return PagePlace(number, *self._page_size.place(placed.line_of(cell)))


@dataclass(frozen=True)
class PrintedRow:
    """A line of a page, and the places of the print that stand on it."""

    row: Row
    place: Span
    text: str

    @property
    def words(self) -> str:
        return self.text[self.place.start : self.place.stop]


def rows_on(layout: Layout, page: int, line: int | None = None) -> list[Row]:
    """The lines of a page that have words, or one of them."""
    rows = (row for each in layout.on_page(page) for row in layout.rows_of(each))
    return [row for row in rows if row.page == page and line in (None, row.line)]


def rows_of(layout: Layout, number: int) -> list[Row]:
    """The lines of a paragraph."""
    placed = (each for each in layout.placed if each.section.paragraph == number)
    return [row for each in placed for row in layout.rows_of(each)]


def printed(session: Session, its: Volume, rows: Sequence[Row]) -> Iterator[PrintedRow]:
    """Lines of pages, each with the print that stands on it."""
    numbers = {row.paragraph for row in rows}
    chosen = [each for each in its.paragraphs if each.id in numbers]
    texts = dict(zip((each.id for each in chosen), prints(session, chosen)))
    cells = its.brailles
    for row in rows:
        number, text = row.paragraph, texts[row.paragraph]
        on_line = Span(row.start, row.stop)
        yield PrintedRow(
            row, words_on_line(session, number, on_line, text, cells[number]), text
        )
