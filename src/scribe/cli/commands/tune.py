"""`scribe tune`: the words of a book compared with liblouis, and rules that mend its table."""

from argparse import ArgumentParser, Namespace
from collections import Counter
from collections.abc import Sequence
from dataclasses import dataclass

from braildesk import Paragraph, Table
from braildesk.desk.contracted import means_for
from braildesk.desk.readings import prints
from braildesk.protocol import requests
from braildesk.tables.convert.manuscript_report import share_line
from braildesk.tables.convert.naming import named_table
from braildesk.tables.convert.oracle import NoLiblouis
from braildesk.tables.convert.source import NoTable
from braildesk.tables.convert.tuning import Tuned, tune
from braildesk.text.wrapping import wrap

from scribe.cli.opened_book import open_session
from scribe.cli.parser import (
    Subparsers,
    add_file,
    add_width,
    command_parser,
    readable,
    table_name,
)
from scribe.words.changes import at_version
from scribe.words.console import Console
from scribe.words.status import Status, Stop
from scribe.words.tuning import apart_lines, difference_lines, mend_lines

MORE = """\
TABLE is a table that liblouis has, by its name, its title or its file. Every word whose
braille isn't that of liblouis in its paragraph is shown, by causes, with how often it
stands there. Rules that mend words are shown, each with what else it changes in the book.
With --apply they are put into the book's table. What no rule mends is shown by its
paragraphs, to be proofread. Struck paragraphs are left out."""
EXAMPLE = """\
scribe tune moon.braildesk en-ueb-g1.ctb
scribe tune moon.braildesk en-ueb-g1.ctb --apply"""
_INDENT = "    "
_NOTHING_CHANGED = "Nothing was changed. With --apply the rules are put into the book."


def add_parser(subparsers: Subparsers) -> ArgumentParser:
    """Adds the words of `tune`."""
    parser = command_parser(
        subparsers,
        "tune",
        EXAMPLE,
        MORE,
    )
    add_file(parser)
    parser.add_argument(
        "source", metavar="TABLE", type=table_name, help="the table of liblouis"
    )
    parser.add_argument(
        "--table",
        metavar="NAME",
        help="the table of the book; else the one that its paragraphs have",
    )
    parser.add_argument(
        "--words",
        metavar="LIST",
        type=readable,
        help="words, one on a line, that no rule spoils; else the installed list",
    )
    parser.add_argument(
        "--apply", action="store_true", help="put the rules into the book's table"
    )
    add_width(parser)
    return parser


@dataclass(frozen=True)
class _Book:
    """What is compared: the paragraphs that have a table, at a version."""

    version: int
    table: Table
    numbers: Sequence[int]
    texts: Sequence[str]


def run(arguments: Namespace, console: Console) -> Status:
    """Shows what differs and what mends it, and mends it if that is asked for."""
    try:
        source = named_table(arguments.source)
    except NoTable as found:
        raise Stop(found.sentence, more=found.more) from found
    book = _book(arguments, console)
    try:
        means = means_for(source, arguments.words, console.progress)
        tuned = tune(book.table, book.texts, source, means)
    except (NoLiblouis, NoTable) as failed:
        raise Stop(str(failed)) from failed
    head = (
        f"The table {book.table.name} of {arguments.file.name} is compared with {source.name} of"
        f" liblouis {tuned.liblouis}."
    )
    lines = [head, *_found(tuned, book)]
    shown = [part for line in lines for part in wrap(line, console.columns, _INDENT)]
    if not (tuned.mends and arguments.apply):
        console.show(*shown)
        if tuned.mends:
            console.say(_NOTHING_CHANGED)
        return Status.DONE
    try:
        console.show(*_applied(arguments, book, tuned, console))
    finally:
        # which is of use as well where the rules can't be put into the book
        console.show(*shown)
    return Status.DONE


def _found(tuned: Tuned, book: _Book) -> list[str]:
    lines = [share_line(tuned.before.agreement), *difference_lines(tuned.before)]
    if tuned.before.causes:
        lines += mend_lines(tuned)
    if tuned.mends:
        lines.append(f"With them: {share_line(tuned.after.agreement)}")
    return [*lines, *apart_lines(tuned.after, book.numbers)]


def _applied(
    arguments: Namespace, book: _Book, tuned: Tuned, console: Console
) -> list[str]:
    """Puts the rules into the book's table, and says so."""
    request = requests.Table(book.table.name, tuned.text, expect=book.version)
    with open_session(arguments, console) as session:
        done = session.ask(request)
    return [f"The rules are in the table {book.table.name}.", at_version(done.version)]


def _book(arguments: Namespace, console: Console) -> _Book:
    """The paragraphs that have the table, and its text, as they are now."""
    with open_session(arguments, console) as session:
        paragraphs = [each for each in session.paragraphs() if not each.struck]
        name = _table_name(arguments.table, paragraphs)
        having = [each for each in paragraphs if each.table == name]
        texts = list(prints(session, having))
        # while the session has the book, so that no other one can change or replace it meanwhile
        tables = {each.name: each for each in session.tables()}
        version = session.last_version
    return _Book(version, tables[name], [each.id for each in having], texts)


def _table_name(asked: str | None, paragraphs: Sequence[Paragraph]) -> str:
    """The table that is asked for, or else the only one that paragraphs have."""
    used = Counter(each.table for each in paragraphs)
    if asked is not None and asked not in used:
        raise Stop(f"No paragraph that isn't struck has the table {asked}.")
    if not used:
        raise Stop(
            "The book has no paragraph that isn't struck, so there is nothing to compare."
        )
    if asked is None and len(used) > 1:
        raise Stop(
            f"Paragraphs of the book have the tables {', '.join(used)}. Say which by --table."
        )
    return asked or next(iter(used))
