"""Where volumes begin so that none has too many pages.

A volume begins at a heading if that can be. Only a chapter that has too many pages by itself is cut
before one of its paragraphs. Of all ways to do so that cut as few chapters, one is taken that has the
fewest volumes, and of these one whose volumes are of a size as even as can be without more pages. A
volume that ends within a chapter is full.
"""

from bisect import bisect_right
from collections.abc import Iterable, Iterator, Sequence
from dataclasses import dataclass

from braildesk import Paragraph, Session
from braildesk.desk import Problem
from braildesk.desk.layout import PageSize, Section, sections, spans_of

#: What a way to cut costs: chapters that are cut, volumes, and the squares of their pages.
_Cost = tuple[int, int, int]


class TooManyPages(Problem):
    """A paragraph has more pages by itself than a volume is to have."""

    def __init__(self, paragraph: int, pages: int, most: int) -> None:
        super().__init__(paragraph, pages, most)
        self.paragraph = paragraph
        self.pages = pages
        self.most = most


@dataclass(frozen=True)
class Planned:
    """A volume that is there or may be: the places of its paragraphs among all, and its pages."""

    paragraphs: range
    pages: int
    #: The first paragraph with a cell of eight dots, if there is one, and the place of that cell.
    eight_dots: tuple[int, int] | None = None


@dataclass(frozen=True)
class Lines:
    """What of a paragraph decides where it stands: how many lines it has, and whether it is a heading.

    And the place of its first cell of eight dots, which keep a volume from being exported.
    """

    paragraph: int
    count: int
    is_heading: bool
    eight_dots: int | None = None


def lines_of(its: Iterable[Section], page_size: PageSize) -> list[Lines]:
    """The lines of paragraphs."""
    return [
        Lines(
            each.paragraph,
            len(spans_of(each, page_size.width)),
            each.is_heading,
            each.eight_dots,
        )
        for each in its
    ]


def shown_lines(
    session: Session, book: Sequence[Paragraph], page_size: PageSize
) -> tuple[list[Paragraph], list[Lines]]:
    """The paragraphs of a book that aren't struck, and their lines."""
    its = [each for each in book if not each.struck]
    return its, lines_of(sections(session, its), page_size)


def as_they_are(
    book: Sequence[Paragraph], lines: Sequence[Lines], page_size: PageSize
) -> list[Planned]:
    """The volumes of paragraphs that aren't struck."""
    starts = [0, *(n for n, each in enumerate(book) if n and each.begins_volume)]
    return _planned(starts if book else [], lines, page_size)


def planned(lines: Sequence[Lines], page_size: PageSize, most: int) -> list[Planned]:
    """The volumes of paragraphs so that none has more pages; raises `TooLong`."""
    plan = _Plan(lines, page_size.text_lines, most)
    return _planned(plan.starts(), lines, page_size)


def to_be_set(
    book: Sequence[Paragraph], volumes: Sequence[Planned]
) -> list[tuple[Paragraph, bool]]:
    """The paragraphs that begin a volume and are not to, and those that are to and don't.

    The first one begins the first volume in any case, and stays as it is.
    """
    starts = {each.paragraphs.start for each in volumes}
    return [
        (each, place in starts)
        for place, each in enumerate(book)
        if place and each.begins_volume != (place in starts)
    ]


def set_volumes(
    session: Session, changed: Sequence[tuple[Paragraph, bool]]
) -> Iterator[Paragraph]:
    """Sets where volumes begin, and gives each paragraph once that is kept."""
    for paragraph, begins in changed:
        session.set_begins_volume(paragraph.id, begins)
        yield paragraph


def _planned(
    starts: Sequence[int], lines: Sequence[Lines], page_size: PageSize
) -> list[Planned]:
    stops = [*starts[1:], len(lines)]
    return [
        Planned(
            range(start, stop),
            _pages(lines[start:stop], page_size.text_lines),
            next(_eight_dots(lines[start:stop]), None),
        )
        for start, stop in zip(starts, stops)
    ]


def _eight_dots(lines: Sequence[Lines]) -> Iterator[tuple[int, int]]:
    for each in lines:
        if each.eight_dots is not None:
            yield each.paragraph, each.eight_dots


def _pages(lines: Sequence[Lines], text_lines: int) -> int:
    """How many pages paragraphs have that begin a volume."""
    *_, last = 0, *_ends(lines, 0, text_lines)
    return -(-last // text_lines)


def _ends(lines: Sequence[Lines], start: int, text_lines: int) -> Iterator[int]:
    """The line after each of the paragraphs from one on, which begins a volume."""
    front = 0
    for place in range(start, len(lines)):
        its = lines[place]
        # an empty line stands before a heading, unless a page begins there
        if its.is_heading and its.count and front % text_lines:
            front += 1
        front += its.count
        yield front


class _Plan:
    """The best way to cut paragraphs into volumes, found from the end to the front."""

    def __init__(self, lines: Sequence[Lines], text_lines: int, most: int) -> None:
        self._lines = lines
        self._text_lines = text_lines
        self._most = most
        #: Where a chapter begins: at a heading that doesn't follow another one.
        self._chapters = [
            place
            for place, each in enumerate(lines)
            if each.is_heading and place and not lines[place - 1].is_heading
        ]
        self._is_chapter = {*self._chapters}

    def starts(self) -> list[int]:
        """Where the volumes begin."""
        nexts = self._nexts()
        costs: dict[int, tuple[_Cost, int]] = {len(self._lines): ((0, 0, 0), 0)}
        for start in sorted(nexts, reverse=True):
            costs[start] = min(
                (self._cost(stop, pages, costs[stop][0]), stop)
                for stop, pages in nexts[start]
            )
        found, place = [], 0
        while place < len(self._lines):
            found.append(place)
            place = costs[place][1]
        return found

    def _cost(self, stop: int, pages: int, rest: _Cost) -> _Cost:
        """What a volume costs that ends at a place, and the rest."""
        is_cut = stop < len(self._lines) and stop not in self._is_chapter
        return rest[0] + is_cut, rest[1] + 1, rest[2] + pages**2

    def _nexts(self) -> dict[int, list[tuple[int, int]]]:
        """For each place where a volume may begin those where it may end, with its pages."""
        found: dict[int, list[tuple[int, int]]] = {}
        left = [0] if self._lines else []
        while left:
            start = left.pop()
            if start not in found:
                found[start] = self._stops(start)
                left += [stop for stop, _ in found[start] if stop < len(self._lines)]
        return found

    def _stops(self, start: int) -> list[tuple[int, int]]:
        """Where a volume that begins at a place may end: before chapters, or where it is full."""
        stops: list[tuple[int, int]] = []
        full, pages = start, 0
        for place, end in enumerate(
            _ends(self._lines, start, self._text_lines), start + 1
        ):
            its_pages = -(-end // self._text_lines)
            if its_pages > self._most:
                break
            full, pages = place, its_pages
            if place in self._is_chapter or place == len(self._lines):
                stops.append((place, pages))
        if full == start:
            raise self._too_long(start)
        if self._is_to_be_cut(start, full, bool(stops)):
            stops.append((full, pages))
        return stops

    def _is_to_be_cut(self, start: int, full: int, has_stops: bool) -> bool:
        """Whether a volume may end where it is full: in a chapter that no volume has whole."""
        if full == len(self._lines) or full in self._is_chapter:
            return False
        if not has_stops:
            return True
        nth = bisect_right(self._chapters, full)
        front = self._chapters[nth - 1] if nth else 0
        stop = self._chapters[nth] if nth < len(self._chapters) else len(self._lines)
        # a heading that would stand at the end of the volume begins the next one
        is_in_text = not self._lines[full - 1].is_heading
        return (
            is_in_text
            and _pages(self._lines[front:stop], self._text_lines) > self._most
        )

    def _too_long(self, place: int) -> TooManyPages:
        pages = _pages(self._lines[place : place + 1], self._text_lines)
        return TooManyPages(self._lines[place].paragraph, pages, self._most)
