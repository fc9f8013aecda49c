"""`scribe list`: each paragraph of a book in short."""

from argparse import Namespace

from braildesk import Session, Style
from braildesk.desk.ranges import chosen
from braildesk.desk.readings import prints

from scribe.cli.book_command import BookCommand
from scribe.cli.parser import Parser, add_paragraphs, add_width, asked_ranges
from scribe.words.console import Console
from scribe.words.paragraph import listed

MORE = """\
A line has the number of a paragraph, its style, whether it begins a volume or is struck,
how many characters its print has, and its first words. --headings leaves the others out."""
EXAMPLE = """\
scribe list moon.braildesk
scribe list moon.braildesk 2-
scribe list moon.braildesk --headings"""


def add_words(parser: Parser) -> None:
    """Adds the words of `list`."""
    add_paragraphs(parser)
    parser.add_argument(
        "--headings", action="store_true", help="the headings among them alone"
    )
    add_width(parser)


def answer(session: Session, arguments: Namespace, console: Console) -> None:
    """Shows the lines."""
    book = session.paragraphs()
    has_table = len({each.table for each in book}) > 1
    its = chosen(book, asked_ranges(arguments))
    if arguments.headings:
        its = [each for each in its if each.style is Style.HEADING]
        if book and not its:
            console.say("There are no headings there.")
    for each, text in zip(its, prints(session, its)):
        console.show(*listed(each, text, has_table, console.columns))
    if not book:
        console.say("The book has no paragraphs.")


COMMAND = BookCommand("list", EXAMPLE, add_words, lambda: answer, MORE, looks=True)
