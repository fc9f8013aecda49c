"""`scribe export`: all volumes of a book as pages for an embosser."""

from argparse import ArgumentParser, Namespace
from collections.abc import Sequence
from dataclasses import replace

from braildesk import CannotOpen
from braildesk.desk.copied_book import copied_book
from braildesk.desk.export import Job
from braildesk.desk.ranges import PageRange
from braildesk.protocol.sentences import LOOKED_AT_BY_COPY

from scribe.cli.endings import made_or_not
from scribe.cli.page_size import add_page_size, page_size_of
from scribe.cli.parser import (
    Subparsers,
    WordsRefused,
    add_file,
    argument,
    command_parser,
    number,
    some_path,
)
from scribe.words.console import Console, OutputFailed
from scribe.words.export import export_in_words, pages_in_words
from scribe.words.status import Status
from scribe.words.typed import page_ranges

MORE = """\
The volumes of moon.braildesk are FOLDER/moon-1.brf, moon-2.brf, and so on, in Braille
Ready Format. The folder is made if the one above it is there. Nothing is written until
all volumes were read from one version of the book. A volume is written beside an older file
and takes its name only when it is whole. A volume that is refused leaves the older file,
and so does a full disk. New files are your own, and have the mode of the book for others,
as far as the umask allows, and its group. If a volume replaces an older file, it is said
which pages differ; --only-changed also writes these alone, beside it, as
moon-1-changed.brf. --page 6-10 writes pages of a volume alone, as moon-1-pages-6-10.brf,
and leaves the files of the volumes as they are."""
EXAMPLE = """\
scribe export moon.braildesk pages --width 30 --lines 20
scribe export moon.braildesk pages --width 30 --lines 20 --only-changed
scribe export moon.braildesk pages --page 1"""


def add_parser(subparsers: Subparsers) -> ArgumentParser:
    """Adds the words of `export`."""
    parser = command_parser(subparsers, "export", EXAMPLE, MORE)
    add_file(parser)
    parser.add_argument(
        "folder", metavar="FOLDER", type=some_path, help="where the volumes are written"
    )
    add_page_size(parser)
    which = parser.add_mutually_exclusive_group()
    which.add_argument(
        "--only-changed",
        action="store_true",
        help="write the pages that differ from the older file alone, too",
    )
    which.add_argument(
        "--page", metavar="6-10", type=argument(page_ranges), help="only these pages"
    )
    parser.add_argument(
        "--volume", metavar="N", type=number, help="the volume of --page"
    )
    parser.set_defaults(usage=parser.format_usage().strip())
    return parser


def run(arguments: Namespace, console: Console) -> Status:
    """Writes each volume, or pages of one, and says what became of it."""
    volume, wanted = arguments.volume, arguments.page
    if volume is not None and wanted is None:
        raise WordsRefused(
            "Argument --volume: say by --page which of its pages are written.",
            arguments.usage,
        )
    job = Job(
        arguments.file,
        arguments.folder,
        page_size_of(arguments),
        arguments.wait,
        arguments.only_changed,
    )
    try:
        return _exported(job, volume, wanted, console)
    except CannotOpen as refusal:
        if refusal.why not in LOOKED_AT_BY_COPY:
            raise
    with copied_book(job.book) as copy:
        return _exported(replace(job, copy=copy), volume, wanted, console)


def _exported(
    job: Job,
    volume: int | None,
    wanted: Sequence[PageRange] | None,
    console: Console,
) -> Status:
    if wanted is None:
        return export_in_words(job, console)
    # without its number it is the only one
    file = job.pages_file(1 if volume is None else volume, wanted)
    with made_or_not(console, file, f"{file} is new.", f"{file} is as before."):
        said = pages_in_words(job, volume, wanted)
        try:
            console.show(said)
            console.flush()
        except OutputFailed as failed:
            # the file is there all the same
            failed.add_note(f"{file} is new.")
            raise
    return Status.DONE
