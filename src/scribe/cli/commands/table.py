"""`scribe table`: a table put into a book."""

from argparse import Namespace

from braildesk import Session
from braildesk.desk.tables import NoSuchTable, table_request

from scribe.cli.book_command import BookCommand
from scribe.cli.parser import Parser, add_width, argument
from scribe.words.changes import carried_out
from scribe.words.console import Console
from scribe.words.status import Stop
from scribe.words.typed import given_path, words

MORE = """\
TEXT is the file of the table. Without it NAME is one of the tables that are installed
with scribe; en is the one that the program supplies, uncontracted English. A table of
that name that is in the book already gets the new text, if all paragraphs that have the
table can be written by it. What docs/FORMATS.md calls a bad line is shown."""
EXAMPLE = """\
scribe table moon.braildesk en
scribe table moon.braildesk own plain.utb"""


def add_words(parser: Parser) -> None:
    """Adds the words of `table`."""
    parser.add_asked(
        "name",
        "NAME",
        words,
        "the name that it has in the book",
        "Which name does the table have in the book?",
    )
    parser.add_argument(
        "text",
        metavar="TEXT",
        type=argument(given_path),
        nargs="?",
        help="the file of the table",
    )
    add_width(parser)


def answer(session: Session, arguments: Namespace, console: Console) -> None:
    """Puts the table into the book, or says which line of it is wrong."""
    try:
        request = table_request(arguments.name, arguments.text)
    except NoSuchTable as missing:
        if "wait" in arguments:
            raise
        # at the prompt of talk, which has the book open; what few lines need is imported for them
        from scribe.words.problems import no_such_table

        raise Stop(no_such_table(missing, "table NAME FILE")) from missing
    console.show(*carried_out(session, request, console.columns, console.cells))


COMMAND = BookCommand("table", EXAMPLE, add_words, lambda: answer, MORE)
