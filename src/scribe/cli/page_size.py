"""The words for the size of a page for an embosser, `--width` and `--lines` where nothing else is."""

from argparse import ArgumentParser, ArgumentTypeError, Namespace
from collections.abc import Callable
from typing import TYPE_CHECKING

from braildesk import Session
from braildesk.desk.layout import PageSize
from braildesk.text import limits

from scribe.cli.parser import number

if TYPE_CHECKING:
    from braildesk.desk.page_places import PageMap


def add_page_size(
    parser: ArgumentParser, names: tuple[str, str] = ("--width", "--lines")
) -> None:
    """Adds the words for the cells of a line and the lines of a page."""
    usual = PageSize()
    for name, what, ends, value in (
        (names[0], "the cells of a line", limits.WIDTHS, usual.width),
        (names[1], "the lines of a page", limits.PAGE_LINES, usual.lines),
    ):
        parser.add_argument(
            name,
            metavar="N",
            type=_within(ends),
            default=value,
            help=f"{what}, {ends[0]} to {ends[1]}; {value} if it isn't given",
        )


def page_size_of(arguments: Namespace) -> PageSize:
    """The size that the words give."""
    return PageSize(arguments.width, arguments.lines)


def add_pages(parser: ArgumentParser) -> None:
    """Adds the word `--pages`, and the size of these, which `page_map` reads."""
    parser.add_argument(
        "--pages", action="store_true", help="say on which page and line each stands"
    )
    add_page_size(parser, ("--page-width", "--page-lines"))


def page_map(arguments: Namespace, session: Session) -> "PageMap | None":
    """The pages of a book, if it is to be said on which of them something stands."""
    if not arguments.pages:
        return None
    # imported here, since it is seldom asked for
    from braildesk.desk.page_places import PageMap

    page_size = PageSize(arguments.page_width, arguments.page_lines)
    return PageMap(session, page_size)


def not_laid_out(pages: "PageMap | None") -> list[str]:
    """Why volumes of places that were shown aren't laid out, if it was said where these stand."""
    if pages is None:
        return []
    # imported here, since it is seldom asked for
    from scribe.words import pages as words

    return words.not_laid_out(pages)


def _within(ends: tuple[int, int]) -> Callable[[str], int]:
    """What reads a number that is between two ends, both of them allowed."""
    least, most = ends

    def size(word: str) -> int:
        value = number(word)
        if not least <= value <= most:
            raise ArgumentTypeError(f"{value} is not between {least} and {most}")
        return value

    return size
