"""Pages in words: their size, also as people type it, and what stands on which page and line."""

from collections.abc import Iterable, Sequence

from braildesk.desk.layout import PageSize, Volume
from braildesk.desk.page_places import PageMap, PagePlace, PrintedRow
from braildesk.text import limits
from braildesk.text.characters import visible

from scribe.words.paragraph import counted


class NoSize(ValueError):
    """A text isn't the size of a page, with the sentence that says so."""

    def __init__(self, sentence: str) -> None:
        super().__init__(sentence)
        self.sentence = sentence


def typed_page_size(text: str) -> PageSize:
    """The size that somebody typed, as in 40 25: the cells of a line, and the lines of a page.

    NoSize if it is none.
    """
    ends = (limits.WIDTHS, limits.PAGE_LINES)
    words = text.split()
    if len(words) == 2 and all(map(_is_within, words, ends)):
        return PageSize(int(words[0]), int(words[1]))
    (narrowest, widest), (fewest, most) = ends
    raise NoSize(
        f"A line of a page has {narrowest} to {widest} cells, and a page {fewest} to {most}"
        " lines. Type both numbers with a blank between them, as in 40 25."
    )


def described(page_size: PageSize) -> str:
    """A size in words."""
    return f"{page_size.lines} lines of {page_size.width} cells"


def _is_within(word: str, ends: tuple[int, int]) -> bool:
    """Whether a word is a number between two ends, both of them allowed."""
    is_number = word.isascii() and word.isdigit() and len(word) <= 16
    return is_number and ends[0] <= int(word) <= ends[1]


def row_line(its: PrintedRow) -> str:
    """A line of a page with the paragraph and the print that stand on it."""
    row = its.row
    return (
        f"Page {row.page}, line {row.line}, paragraph {row.paragraph}, character"
        f" {its.place.start + 1}: {visible(its.words)}"
    )


def volume_title(its: Volume, pages: int) -> str:
    """A volume, how many pages it has, and of which size."""
    size = described(its.layout.page_size)
    return f"Volume {its.number}: {counted(pages, 'page')} of {size}."


def not_exported(volumes: Iterable[tuple[int, tuple[int, int] | None]]) -> list[str]:
    """What is said of each volume with a cell of eight dots: a paragraph, and the place of the cell."""
    found = dict(volumes).items()
    return [_not_exported(number, *cell) for number, cell in found if cell is not None]


def _not_exported(volume: int, paragraph: int, cell: int) -> str:
    return (
        f"Cell {cell + 1:,} of paragraph {paragraph} has dot 7 or 8, which pages for embossers"
        f" can't have, so volume {volume} can't be exported. Correct the table of that"
        " paragraph."
    )


def not_laid_out(pages: PageMap) -> list[str]:
    """Why volumes of places that were looked for aren't laid out."""
    return not_exported(pages.not_laid_out.items())


def on_no_page(paragraph: int) -> str:
    """What is said of a paragraph that is in no volume."""
    return f"Paragraph {paragraph} is struck, so it is on no page."


def not_there(volumes: Sequence[int], what: str) -> str:
    """What is said of what no volume has of those that were looked through."""
    if len(volumes) > 1:
        return f"No volume has {what}."
    return f"Volume {volumes[0]} has no {what}."


def no_line(paragraph: int) -> str:
    """What is said of a paragraph that is in a volume, and on none of its lines."""
    return f"Paragraph {paragraph} has no words, and takes no line."


def no_words(volumes: Sequence[int], page: int, line: int) -> str:
    """What is said of a line without words."""
    where = "any volume" if len(volumes) > 1 else f"volume {volumes[0]}"
    return f"Line {line} of page {page} has no words in {where}."


def page_place(place: PagePlace | None) -> str:
    """On which line of the pages something stands."""
    if place is None:
        return "on no page"
    if not place.page:
        return f"volume {place.volume}, not laid out"
    return f"volume {place.volume}, page {place.page}, line {place.line}"
