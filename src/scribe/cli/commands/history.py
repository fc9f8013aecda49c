"""`scribe history`: who changed what in a book."""

from argparse import Namespace

from braildesk import Session
from braildesk.desk.history import corrected_by, histories
from braildesk.desk.ranges import ParagraphRange

from scribe.cli.book_command import BookCommand
from scribe.cli.parser import Parser, add_width, number, words
from scribe.words.changes import history_lines, nothing_found
from scribe.words.console import Console

MORE = """\
Each correction is shown with who made it and the words as they were after it, of each
paragraph the newest first. A book doesn't keep the words that a correction took out as
words: those that are not known stand as an ellipsis, or are counted. Without PARA the
histories of all paragraphs are shown in the order of the book."""
EXAMPLE = """\
scribe history moon.braildesk 1
scribe change moon.braildesk 1 far near --by anna && scribe history moon.braildesk --by anna"""


def add_words(parser: Parser) -> None:
    """Adds the words of `history`."""
    parser.add_argument(
        "paragraph", metavar="PARA", type=number, nargs="?", help="only this paragraph"
    )
    # not by the name of `--by` elsewhere, since who talks asks for the corrections of all
    parser.add_argument(
        "--by",
        dest="whose",
        metavar="WHO",
        type=words,
        help="only corrections by this proofreader, and which were taken back",
    )
    add_width(parser)


def answer(session: Session, arguments: Namespace, console: Console) -> None:
    """Shows each correction, or says that there is none."""
    number, by = arguments.paragraph, arguments.whose
    its = ParagraphRange(number, number).of(session.paragraphs())
    found = list(histories(session, its))
    wanted = found if by is None else corrected_by(found, by)
    for lines in history_lines(wanted, console.columns):
        console.show(*lines)
    if not wanted:
        names = (step.entry.who for step in found if step.entry.who is not None)
        console.say(nothing_found(by, names, number))


COMMAND = BookCommand("history", EXAMPLE, add_words, lambda: answer, MORE, looks=True)
