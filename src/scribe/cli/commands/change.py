"""`scribe change`: words put in place of others."""

from argparse import Namespace
from contextlib import nullcontext

from braildesk import Session
from braildesk.desk.change import change_by, planned
from braildesk.desk.places import Words
from braildesk.protocol.requests import Correct

from scribe.cli.book_command import BookCommand, add_nth
from scribe.cli.opened_book import said_where_stopped
from scribe.cli.parser import Parser, add_paragraph, add_width, proofreader
from scribe.words.changes import change_lines, kept_of
from scribe.words.console import Console
from scribe.words.typed import text, words

MORE = """\
OLD has to be in the paragraph just once; if it is there more often, --nth says which
place is meant. The fewest characters are corrected, and around the words of marks, so
that these stay on them, it may be more than one correction. The line is shown as it is
now, and as it was before."""
EXAMPLE = "scribe change moon.braildesk 1 'far away' 'very far away' --by anna"


def add_words(parser: Parser) -> None:
    """Adds the words of `change`."""
    add_paragraph(parser, True, lambda number: Correct(number, 0, 0, ""))
    parser.add_asked(
        "old", "OLD", words, "the words that go", "Which words go?", "old", stands=True
    )
    parser.add_asked(
        "new",
        "NEW",
        text,
        "what comes in their place; '' is nothing",
        "What comes in their place? Type '' to take them out.",
    )
    add_nth(parser, "OLD")
    parser.add_argument(
        "--by",
        metavar="WHO",
        type=proofreader,
        help="the proofreader, kept in the history",
    )
    add_width(parser)


def answer(session: Session, arguments: Namespace, console: Console) -> None:
    """Puts the new words in place of the old, and shows both."""
    where = Words(arguments.paragraph, arguments.old, arguments.nth)
    plan = planned(session, where, arguments.new)
    count = len(plan.corrections)
    among = said_where_stopped(
        session,
        arguments,
        console,
        lambda done, version: kept_of(done, count, version),
    )
    with among if count > 1 else nullcontext():
        change = change_by(session, plan, arguments.by)
    console.show(*change_lines(change, console.columns))


COMMAND = BookCommand("change", EXAMPLE, add_words, lambda: answer, MORE)
