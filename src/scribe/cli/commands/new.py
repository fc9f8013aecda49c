"""`scribe new`: a new book with a table in it."""

from argparse import ArgumentParser, Namespace

from braildesk import new_book
from braildesk.desk.tables import first_table

from scribe.cli.endings import made_or_not, not_begun
from scribe.cli.parser import Subparsers, add_file, command_parser
from scribe.words.console import Console, OutputFailed
from scribe.words.status import Status

MORE = """\
Its table is ueb if that is installed with scribe, else en, the one that the program
supplies. A file that has a book already is left as it is, unless nothing was put into
that yet, and if anything fails no file is made."""


def add_parser(subparsers: Subparsers) -> ArgumentParser:
    """Adds the words of `new`."""
    parser = command_parser(
        subparsers,
        "new",
        "scribe new tides.braildesk",
        MORE,
    )
    add_file(parser)
    return parser


def run(arguments: Namespace, console: Console) -> Status:
    """Makes a book, and puts a table into it."""
    with not_begun():
        request, file = first_table(), arguments.file
    made = f"{file} is a new book with the table {request.table}."
    with made_or_not(console, file, made, f"{file} has what it had."):
        new_book(file, holding=[request], timeout=arguments.wait)
        try:
            console.show(made)
            console.flush()
        except OutputFailed as failed:
            # the book is there all the same
            failed.add_note(made)
            raise
    return Status.DONE
