"""`scribe next`: the next open mark of a book."""

from argparse import Namespace

from braildesk import Session
from braildesk.desk.marks import MarkOfBook, next_open
from braildesk.text.excerpt import excerpt_lines

from scribe.cli.book_command import BookCommand
from scribe.cli.parser import Parser, add_width, number
from scribe.words.console import Console
from scribe.words.paragraph import mark_line, next_summary

MORE = """\
It is the first open mark of the book, or with MARK the next one after that mark, in the
order of the book; after the last one comes the first again. At the prompt of scribe talk
MARK is the mark that was shown last, if none is named. Until it is resolved, its note is
shown again after each correction of its paragraph, and change and resolve mean that
paragraph and that mark if they name none."""
EXAMPLE = "scribe next moon.braildesk"


def add_words(parser: Parser) -> None:
    """Adds the words of `next`."""
    parser.add_argument(
        "after_mark",
        metavar="MARK",
        type=number,
        nargs="?",
        help="the mark after which it comes",
    )
    add_width(parser)


def answer(
    session: Session, arguments: Namespace, console: Console
) -> MarkOfBook | None:
    """Shows the mark, the words around it, and how many others are open."""
    found = next_open(session, arguments.after_mark)
    its = found.mark
    if its is not None:
        struck = ", struck" if its.is_struck else ""
        mark, head = its.mark, f"Paragraph {its.paragraph}{struck}: "
        console.show(mark_line(mark, its.text, its.paragraph))
        console.show(
            *excerpt_lines(head, its.text, mark.start, mark.stop, console.columns)
        )
    console.say(next_summary(found))
    return its


COMMAND = BookCommand("next", EXAMPLE, add_words, lambda: answer, MORE, looks=True)
