"""Volumes as they will be embossed: the page of the cursor's words, and the way to a page."""

import re
from collections.abc import Callable, Sequence
from dataclasses import dataclass, replace

from braildesk import Paragraph, Session
from braildesk.desk.layout import (
    Layout,
    PageSize,
    Placed,
    Section,
    parted,
    placed,
    sections,
    spans_of,
)
from braildesk.desk.places import words_on_line
from braildesk.text.spans import Span

from scribe.words.pages import described, no_line, not_exported

# a volume of so many characters is laid out in a moment
_MANY = 250_000
# after how many paragraphs it is said how far the layout has come
_PACE = 2_000
# a page of a volume, and a line of it, as people say it
_LINE = re.compile(
    r"(?:v(?:ol(?:ume)?)?\.? *(\d{1,9})[ ,]+)?p(?:age)?\.? *(\d{1,9})"
    r"(?:[ ,]+l(?:ine)?\.? *(\d{1,9}))?",
    re.IGNORECASE,
)


@dataclass(frozen=True)
class Page:
    """Where the cursor's words stand, and the lines of their page in Braille ASCII.

    `line` is their line of the page, counted from 0.
    """

    title: str
    lines: tuple[str, ...] = ()
    line: int | None = None


@dataclass(frozen=True)
class Sought:
    """A paragraph, a cell of it, and what stands there in words."""

    paragraph: Paragraph
    cell: int
    says: str


@dataclass(frozen=True)
class WantedLine:
    """A line of a page, of a volume if one is named; counted from 1."""

    page: int
    line: int = 1
    volume: int | None = None


class NotThere(ValueError):
    """A page or a line isn't there, with the sentence that says so."""

    def __init__(self, sentence: str) -> None:
        super().__init__(sentence)
        self.sentence = sentence


@dataclass(frozen=True)
class VolumeLines:
    """A volume of a version of a book, and the lines on which each of its paragraphs stands.

    Lines are counted from 0 through all its pages. There is a fault if it can have no pages.
    """

    version: int
    page_size: PageSize
    number: int
    paragraphs: Sequence[Paragraph]
    lines: Sequence[range] = ()
    fault: str = ""

    def is_of(self, other: "VolumeLines") -> bool:
        """Whether it is the same volume of the same version, on pages of the same size."""
        return (self.version, self.page_size, self.number) == (
            other.version,
            other.page_size,
            other.number,
        )

    @property
    def characters(self) -> int:
        """How much has to be laid out."""
        return sum(each.length for each in self.paragraphs)

    @property
    def is_long(self) -> bool:
        """Whether it takes a while to lay it out."""
        return self.characters > _MANY


class Layouts:
    """The volumes that were laid out, as long as the book and the size of its pages are the same."""

    def __init__(self) -> None:
        self._laid: dict[int, VolumeLines] = {}

    def of(self, volume: VolumeLines) -> VolumeLines | None:
        """A volume as it was laid out, none if it wasn't yet."""
        laid = self._laid.get(volume.number)
        return laid if laid is not None and laid.is_of(volume) else None

    def lay(
        self, session: Session, volume: VolumeLines, report: Callable[[int, int], None]
    ) -> VolumeLines:
        """A volume that is laid out, if need be now."""
        laid = self.of(volume) or laid_out(session, volume, report)
        self._laid[volume.number] = laid
        return laid

    def are_soon(self, volumes: Sequence[VolumeLines]) -> bool:
        """Whether some volumes are laid out in a moment, those aside that are so already."""
        lacking = [each for each in volumes if self.of(each) is None]
        return sum(each.characters for each in lacking) <= _MANY


def volumes_of(
    book: Sequence[Paragraph], version: int, page_size: PageSize
) -> tuple[VolumeLines, ...]:
    """The volumes of a version of a book, which aren't laid out yet."""
    return tuple(
        VolumeLines(version, page_size, number, part)
        for number, part in enumerate(parted(book), 1)
    )


def volume_of(
    book: Sequence[Paragraph], version: int, page_size: PageSize, its: Paragraph
) -> VolumeLines | None:
    """The volume of a paragraph, which isn't laid out yet; none for one that is struck."""
    volumes = volumes_of(book, version, page_size)
    return next((each for each in volumes if its in each.paragraphs), None)


def laid_out(
    session: Session, volume: VolumeLines, report: Callable[[int, int], None]
) -> VolumeLines:
    """A volume with the lines of its paragraphs. Nothing else of their braille is kept."""
    count = len(volume.paragraphs)
    lines: list[range] = []
    for each in placed(sections(session, volume.paragraphs), volume.page_size):
        if (cell := each.section.eight_dots) is not None:
            place = each.section.paragraph, cell
            (fault,) = not_exported([(volume.number, place)])
            return replace(volume, fault=fault)
        lines.append(each.lines)
        if len(lines) % _PACE == 0:
            report(len(lines), count)
    return replace(volume, lines=lines)


def page_of(session: Session, volume: VolumeLines, sought: Sought) -> Page:
    """The page of a volume that is laid out on which a cell of a paragraph stands."""
    if volume.fault:
        return Page(volume.fault)
    its, page_size = sought.paragraph, volume.page_size
    lines = volume.lines[volume.paragraphs.index(its)]
    if not lines:
        return Page(no_line(its.id))
    (section,) = sections(session, [its])
    page, line = divmod(
        line_of(volume, section, lines, sought.cell), page_size.text_lines
    )
    title = (
        f"Paragraph {its.id}, {sought.says}: volume {volume.number}, page {page + 1}, line"
        f" {line + 1}, of {described(page_size)}."
    )
    return Page(title, tuple(_lines_of(session, volume, page)), line)


def wanted_line(words: str) -> WantedLine | None:
    """The line that words name, as in page 6 line 9; none where they name none."""
    found = _LINE.fullmatch(words.strip())
    if found is None:
        return None
    volume, page, line = found.groups()
    return WantedLine(
        int(page), int(line or 1), None if volume is None else int(volume)
    )


def start_of(
    session: Session, volume: VolumeLines, page: int, line: int
) -> tuple[int, int]:
    """The paragraph and the character at which a line begins; raises `NotThere`."""
    if volume.fault:
        raise NotThere(volume.fault)
    size = volume.page_size
    last = max((lines.stop for lines in volume.lines), default=0)
    pages = -(-last // size.text_lines)
    if not 1 <= page <= pages:
        count = "1 page" if pages == 1 else f"{pages:,} pages"
        raise NotThere(f"Volume {volume.number} has {count} of {described(size)}.")
    if line == size.lines:
        raise NotThere(f"Line {line} of page {page} has only the number of the page.")
    wanted = (page - 1) * size.text_lines + line - 1
    found = [
        (its, lines)
        for its, lines in zip(volume.paragraphs, volume.lines)
        if wanted in lines
    ]
    if not found or not 1 <= line <= size.text_lines:
        raise NotThere(f"Page {page} has nothing on line {line}.")
    ((its, lines),) = found
    (section,) = sections(session, [its])
    cells = Span(*spans_of(section, size.width)[wanted - lines.start])
    text = session.print_of(its.id)
    words = words_on_line(session, its.id, cells, text, section.braille)
    return its.id, words.start


def place_said(
    session: Session, volume: VolumeLines, its: Paragraph, cell: int, volumes: int
) -> str:
    """The page and line of a cell as a sentence, with its volume where the book has several."""
    lines = volume.lines[volume.paragraphs.index(its)] if volume.lines else range(0)
    if not lines:
        return volume.fault or "It is on no page."
    (section,) = sections(session, [its])
    number = line_of(volume, section, lines, cell)
    page, line = volume.page_size.place(number)
    if volumes == 1:
        return f"Page {page} line {line}."
    return f"Volume {volume.number}, page {page} line {line}."


def line_of(volume: VolumeLines, section: Section, lines: range, cell: int) -> int:
    """The line of a volume on which a cell of a paragraph stands that takes some lines."""
    spans = spans_of(section, volume.page_size.width)
    return Placed(section, lines, spans).line_of(cell)


def _lines_of(session: Session, volume: VolumeLines, page: int) -> list[str]:
    """The lines of a page, counted from 0, by the braille of its paragraphs alone."""
    first = page * volume.page_size.text_lines
    last = first + volume.page_size.text_lines
    there = {
        each.id: lines
        for each, lines in zip(volume.paragraphs, volume.lines)
        if lines and lines.start < last and lines.stop > first
    }
    chosen = [each for each in volume.paragraphs if each.id in there]
    found = [
        Placed(each, there[each.paragraph], spans_of(each, volume.page_size.width))
        for each in sections(session, chosen)
    ]
    return Layout(volume.page_size, tuple(found)).page(page + 1)
