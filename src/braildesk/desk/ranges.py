"""Ranges of paragraphs, in the order of the book, and of pages: those from one to another."""

from collections.abc import Callable, Sequence
from dataclasses import dataclass
from typing import TYPE_CHECKING

from braildesk.desk import Problem

if TYPE_CHECKING:
    from braildesk import Paragraph


class NoParagraph(Problem):
    """A book, which has so many paragraphs, has none of this number."""

    def __init__(self, number: int, count: int) -> None:
        super().__init__(number, count)
        self.number = number
        self.count = count


class BackwardRange(Problem):
    """The last paragraph of a range stands before its first one."""

    def __init__(self, first: int | None, last: int | None) -> None:
        super().__init__(first, last)
        self.first = first
        self.last = last


@dataclass(frozen=True)
class ParagraphRange:
    """From the first paragraph to the last; the front and the end of the book if there is none."""

    first: int | None = None
    last: int | None = None

    def of(self, book: Sequence["Paragraph"]) -> Sequence["Paragraph"]:
        """The paragraphs of the range; raises `NoParagraph` and `BackwardRange`."""
        places = {paragraph.id: place for place, paragraph in enumerate(book)}
        return book[self.among(places.get, len(book))]

    def among(self, place_of: Callable[[int], int | None], count: int) -> slice:
        """Where the range is in a book of so many paragraphs, each of which has a place by its number."""
        start, stop = 0, count
        if self.first is not None:
            start = _found(self.first, place_of, count)
        if self.last is not None:
            stop = _found(self.last, place_of, count) + 1
        if start >= stop and count:
            raise BackwardRange(self.first, self.last)
        return slice(start, stop)


def _found(number: int, place_of: Callable[[int], int | None], count: int) -> int:
    """The place of a paragraph; raises `NoParagraph`."""
    place = place_of(number)
    if place is None:
        raise NoParagraph(number, count)
    return place


def chosen(
    book: Sequence["Paragraph"], ranges: Sequence[ParagraphRange]
) -> list["Paragraph"]:
    """The paragraphs of some ranges, in their order; raises what `ParagraphRange.of` does."""
    return [paragraph for each in ranges for paragraph in each.of(book)]


class NoPage(Problem):
    """A volume, which has so many pages, has none of this number."""

    def __init__(self, volume: int, page: int, count: int) -> None:
        super().__init__(volume, page, count)
        self.volume = volume
        self.page = page
        self.count = count


@dataclass(frozen=True)
class PageRange:
    """Pages of a volume from one to another; from the first one or to the last if none is said."""

    first: int | None
    last: int | None

    def of(self, volume: int, pages: Sequence[bytes]) -> Sequence[bytes]:
        """Those pages; raises `NoPage`."""
        first = 1 if self.first is None else self.first
        last = len(pages) if self.last is None else self.last
        for page in (first, last):
            if not 1 <= page <= len(pages):
                raise NoPage(volume, page, len(pages))
        return pages[first - 1 : max(first, last)]

    @property
    def name(self) -> str:
        """The range in the name of a file, as it is typed."""
        if self.first == self.last:
            return str(self.first)
        return f"{self.first or ''}-{self.last or ''}"
