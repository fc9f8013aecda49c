"""`scribe copy`: a copy of a book that opens as the same book."""

from argparse import ArgumentParser, Namespace
from pathlib import Path

from braildesk import CannotOpen, Why, copy
from braildesk.making import FileIsThere, copy_open
from braildesk.named_files import is_same_file
from braildesk.protocol.asked import BookFile

from scribe.cli.endings import made_or_not
from scribe.cli.opened_book import without_log
from scribe.cli.parser import Subparsers, add_file, command_parser, file_path
from scribe.words.console import Console, OutputFailed
from scribe.words.status import Status, Stop

MORE = """\
The copy has what stands in the file FILE-wal too, is opened, and gets its name only
then. A file that is there already is left as it is, unless --overwrite says that the
copy takes its place: that of a book that nobody has open, or of an empty file. Of a book
that another program has open, the copy has all that was kept before."""


def add_parser(subparsers: Subparsers) -> ArgumentParser:
    """Adds the words of `copy`."""
    parser = command_parser(
        subparsers,
        "copy",
        "scribe copy moon.braildesk moon-copy.braildesk",
        MORE,
    )
    add_file(parser, wait=0.0)
    parser.add_argument("to", metavar="TO", type=file_path, help="the file of the copy")
    parser.add_argument(
        "--overwrite",
        action="store_true",
        help="put the copy in the place of a book that is there",
    )
    return parser


def run(arguments: Namespace, console: Console) -> Status:
    """Copies the book."""
    to = arguments.to
    made = f"{to} is a copy of {arguments.file}"
    with made_or_not(console, to, f"{made}.", f"{to} is as it was."):
        try:
            version, is_open = _copied(arguments)
        except FileIsThere as taken:
            raise Stop(f"{taken.sentence} --overwrite replaces a book.") from taken
        said = f"{made}, at version {version:,}."
        try:
            console.show(said)
            console.flush()
        except OutputFailed as failed:
            # the copy is there all the same
            failed.add_note(said)
            raise
    if is_open:
        goes_on = f"Another program has {arguments.file} open, and goes on with it."
        console.say(f"{goes_on} {without_log(arguments.file)}".rstrip())
    return Status.DONE


def _copied(arguments: Namespace) -> tuple[int, bool]:
    """The version of the copy, and whether another program has the book open."""
    book, to, overwrite = arguments.file, arguments.to, arguments.overwrite
    try:
        wait = arguments.wait
        version = copy(book, to, overwrite=overwrite, only_books=True, timeout=wait)
        return version, False
    except CannotOpen as refusal:
        # of the book itself no older copy takes its place, should the other program end by now
        is_book = is_same_file(book, to)
        if refusal.why is not Why.IN_USE or _is_of(refusal, to) or is_book:
            raise
    return copy_open(book, to, overwrite=overwrite), True


def _is_of(refusal: CannotOpen, path: Path) -> bool:
    """Whether it is this file that can't be opened."""
    return isinstance(refusal.asked, BookFile) and refusal.asked.path == str(path)
