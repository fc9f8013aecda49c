"""`scribe proof`: the pages of a book with the print under the cells, for those who read print."""

import re
from argparse import ArgumentParser, ArgumentTypeError, Namespace
from collections.abc import Iterable, Iterator

from braildesk.desk.proof import ProofPage, open_marks, proof_pages
from braildesk.desk.whole_file import (
    Access,
    AnotherIsThere,
    Replaces,
    judge_place,
    write_whole,
)
from braildesk.text.characters import shortened
from braildesk.workshop import MayNotLast

from scribe.cli.opened_book import looked_at
from scribe.cli.page_size import add_page_size, page_size_of
from scribe.cli.parser import Subparsers, add_file, command_parser, file_path
from scribe.words.console import Console, OutputFailed
from scribe.words.pages import not_exported
from scribe.words.proof_html import Proof, elsewhere, is_proof
from scribe.words.status import Status, Stop, file_not_written, left_there, may_not_last

MORE = """\
PROOF is one file of HTML for any browser: each page as it will be embossed, the print
word by word under the cells, and the marks with their notes beside the lines. A browser
prints one page on each sheet. --print-first puts the print above the cells, --ascii shows
the cells in Braille ASCII, --marks-only shows only pages with open marks, and a screen
reader reads the print alone unless --speak-cells is given. An older proof or an empty file
is replaced, and any other only with --overwrite."""
# the form of the codes by which HTML names a language
_LANGUAGE = re.compile("[A-Za-z]{1,8}(-[A-Za-z0-9]{1,8})*")
EXAMPLE = "scribe proof moon.braildesk moon.html --width 30 --lines 10"


def add_parser(subparsers: Subparsers) -> ArgumentParser:
    """Adds the words of `proof`."""
    parser = command_parser(subparsers, "proof", EXAMPLE, MORE)
    add_file(parser, wait=0.0)
    parser.add_argument(
        "proof", metavar="PROOF", type=file_path, help="the file of HTML"
    )
    add_page_size(parser)
    for word, does in (
        ("--print-first", "the print above the cells"),
        ("--ascii", "the cells in Braille ASCII"),
        ("--marks-only", "only the pages with open marks"),
        ("--speak-cells", "have screen readers read the cells too"),
        ("--overwrite", "replace a file that is no proof, unless it is a book"),
    ):
        parser.add_argument(word, action="store_true", help=does)
    parser.add_argument(
        "--language",
        metavar="CODE",
        type=_language,
        help="the language of the print, as en or de, by which it is spoken",
    )
    return parser


def _language(word: str) -> str:
    if not _LANGUAGE.fullmatch(word):
        raise ArgumentTypeError(
            f"{shortened(word)} is no code of a language, as en, de or pt-BR are"
        )
    return word


def run(arguments: Namespace, console: Console) -> Status:
    """Writes the proof."""
    replaces = None if arguments.overwrite else is_proof
    try:
        _judge_place(arguments, replaces)
        return _written(arguments, console, replaces)
    except AnotherIsThere as taken:
        said = left_there(arguments.proof, taken, "proof that scribe wrote")
        raise Stop(said) from taken


def _judge_place(arguments: Namespace, replaces: Replaces | None) -> None:
    """Refuses a path that gets no proof, before one is made."""
    try:
        judge_place(arguments.proof, replaces)
    except OSError as error:
        raise file_not_written(arguments.proof, error) from error


def _written(
    arguments: Namespace, console: Console, replaces: Replaces | None
) -> Status:
    page_size = page_size_of(arguments)
    shown = Proof(
        title=arguments.file.name.removesuffix(".braildesk"),
        page_size=page_size,
        language=arguments.language or "",
        is_ascii=arguments.ascii,
        has_print_first=arguments.print_first,
        has_spoken_cells=arguments.speak_cells,
    )
    with looked_at(arguments, console) as (session, copy):
        found = list(proof_pages(session, page_size))
        left = open_marks(session) - sum(page.open_marks for page in found)
        access = copy.access_by(session) if copy else Access.of_session(session)
    pages = list(_wanted(found, arguments.marks_only))
    others = [elsewhere(left)] if left else []
    if not pages:
        raise Stop(_nothing(arguments.marks_only), more=others)
    text = "".join(shown.html(pages)).encode()
    try:
        write_whole(arguments.proof, text, access, replaces)
    except MayNotLast as error:
        raise Stop(may_not_last(arguments.proof, error), Status.FAILED) from error
    except OSError as error:
        raise file_not_written(arguments.proof, error) from error
    count = "1 page" if len(pages) == 1 else f"{len(pages):,} pages"
    others += not_exported((page.volume, page.eight_dots) for page in found)
    try:
        console.show(f"{arguments.proof}: {count}.")
        console.say(*others)
    except OutputFailed as failed:
        # the file is written all the same
        failed.add_note(f"{arguments.proof} is written.")
        raise
    return Status.DONE


def _wanted(pages: Iterable[ProofPage], marks_only: bool) -> Iterator[ProofPage]:
    return (page for page in pages if page.has_open_mark or not marks_only)


def _nothing(marks_only: bool) -> str:
    if marks_only:
        return "No page has an open mark, so no proof was written."
    return "The book has no page, so no proof was written."
