"""`scribe marks`: all marks of a book."""

from argparse import Namespace
from collections.abc import Iterator, Sequence
from itertools import repeat
from typing import TYPE_CHECKING

from braildesk import Session
from braildesk.desk.marks import MarkOfBook, all_marks

from scribe.cli.book_command import BookCommand
from scribe.cli.page_size import add_pages, not_laid_out, page_map
from scribe.cli.parser import Parser, add_width, number
from scribe.words.console import Console
from scribe.words.paragraph import mark_line, marks_summary

if TYPE_CHECKING:
    from braildesk.desk.page_places import PageMap

MORE = """\
Open marks come first, then those that are resolved, both in the order of the book. With
PARA these are the marks of that paragraph, and with --open only those that are open. With
--pages the volume, page and line of each is said, on pages of --page-width cells and
--page-lines lines."""
EXAMPLE = "scribe marks moon.braildesk"


def add_words(parser: Parser) -> None:
    """Adds the words of `marks`."""
    parser.add_argument(
        "paragraph",
        metavar="PARA",
        type=number,
        nargs="?",
        help="the number of a paragraph",
    )
    parser.add_argument("--open", action="store_true", help="only those that are open")
    add_pages(parser)
    add_width(parser)


def answer(session: Session, arguments: Namespace, console: Console) -> None:
    """Shows the marks, and how many there are."""
    number, marks = arguments.paragraph, all_marks(session)
    if number is not None:
        session.print_of(number)  # which refuses a paragraph that isn't there
        marks = [each for each in marks if each.paragraph == number]
    pages = page_map(arguments, session)
    shown = [each for each in marks if not (arguments.open and each.mark.resolved)]
    where = repeat("") if pages is None else _pages(pages, shown)
    for each, page in zip(shown, where):
        life = "struck" if each.is_struck else ""
        console.show(mark_line(each.mark, each.text, each.paragraph, page, life))
    whose = "The book" if number is None else f"Paragraph {number}"
    console.say(marks_summary(marks, whose), *not_laid_out(pages))


def _pages(pages: "PageMap", marks: Sequence[MarkOfBook]) -> Iterator[str]:
    """On which page and line the words of each mark begin."""
    # imported here, since it is seldom asked for
    from scribe.words.pages import page_place

    asked = [(its.paragraph, its.mark.start, its.text) for its in marks]
    return map(page_place, pages.of_characters(asked))


COMMAND = BookCommand("marks", EXAMPLE, add_words, lambda: answer, MORE, looks=True)
