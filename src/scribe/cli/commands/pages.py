"""`scribe pages`: on which page and line each paragraph stands, and what stands on a page."""

from argparse import Namespace
from collections.abc import Callable, Iterator, Sequence
from contextlib import ExitStack, contextmanager, suppress
from dataclasses import dataclass
from functools import partial

from braildesk import Code, DeskError, NotFound, Refused, Session, export
from braildesk.desk.layout import PageSize, Row, Volume, parted, volume
from braildesk.desk.page_places import printed, rows_of, rows_on
from braildesk.desk.readings import prints
from braildesk.files import read_version
from braildesk.program import exporting
from braildesk.snapshot import snapshot
from braildesk.text.characters import visible
from braildesk.text.excerpt import opening

from scribe.cli.book_command import BookCommand
from scribe.cli.page_size import add_page_size, page_size_of
from scribe.cli.parser import Parser, WordsRefused, number
from scribe.words.console import Console
from scribe.words.pages import no_line, no_words, not_there, row_line, volume_title
from scribe.words.status import Status, Stop

MORE = """\
Each paragraph is shown with its page and line. --page shows each line of a page with the
print that stands on it, with --line one line alone, and --paragraph each line of a
paragraph. Without VOLUME this is done for all volumes. What is shown was compared with
the pages that export writes."""
EXAMPLE = """\
scribe pages moon.braildesk
scribe pages moon.braildesk 1 --page 1 --width 30 --lines 10
scribe pages moon.braildesk --page 1 --line 2"""

_OPENING = 40


def add_words(parser: Parser) -> None:
    """Adds the words of `pages`."""
    parser.add_argument(
        "volume", metavar="VOLUME", type=number, nargs="?", help="only this volume"
    )
    add_page_size(parser)
    which = parser.add_mutually_exclusive_group()
    which.add_argument("--page", metavar="N", type=number, help="the lines of a page")
    which.add_argument(
        "--paragraph", metavar="N", type=number, help="the lines of a paragraph"
    )
    parser.add_argument(
        "--line", metavar="N", type=number, help="one line of the page, with its words"
    )
    parser.set_defaults(usage=parser.format_usage().strip(), exported=None)


def judge(arguments: Namespace) -> None:
    """Refuses a line of no page, and one that no page has."""
    line, lines = arguments.line, arguments.lines
    if line is not None and arguments.page is None:
        raise WordsRefused("Argument --line: say the page by --page.", arguments.usage)
    if line is not None and not 1 <= line <= lines:
        raise WordsRefused(
            f"Argument --line: a page has the lines 1 to {lines}.", arguments.usage
        )


def answer(session: Session, arguments: Namespace, console: Console) -> None:
    """Shows what is laid out, once it was compared with what export writes of the book."""
    volumes = laid_out(session, arguments)
    parts = shown(session, volumes, arguments)
    counts = _compared(session, parts, arguments)
    for part, count in zip(parts, counts):
        console.show(volume_title(part.volume, count), *part.lines)


@dataclass(frozen=True)
class Exported:
    """An export of a volume of a copy of the book at a version, which may go on yet."""

    version: int
    volume: int
    pages: Callable[[], bytes]


@contextmanager
def exported_beside(arguments: Namespace) -> Iterator[None]:
    """Begins the export that is needed for most books, which takes as long as opening the book."""
    with ExitStack() as begun:
        # what is in the way of this is in the way of opening the book
        with suppress(DeskError):
            copied = begun.enter_context(snapshot(arguments.file))
            # the book may be one that this user may only read
            copied.chmod(0o600)
            version, number = read_version(copied), arguments.volume or 1
            size = arguments.width, arguments.lines
            pages = begun.enter_context(exporting(copied, number, *size))
            arguments.exported = Exported(version, number, pages)
        yield


@dataclass(frozen=True)
class Part:
    """What is shown of a volume, and the pages on which that stands."""

    volume: Volume
    lines: Sequence[str]
    pages: Sequence[int]


def _compared(
    session: Session, parts: Sequence[Part], arguments: Namespace
) -> list[int]:
    """How many pages export writes of each volume, which are compared with those that are shown."""
    exported = arguments.exported
    if exported is not None and exported.version == session.last_version:
        if [part.volume.number for part in parts] == [exported.volume]:
            return [_pages_of(parts[0], exported.pages)]
    # a book that is open is exported from a copy, and nobody else changes it meanwhile
    with snapshot(arguments.read_at) as copied:
        size = arguments.width, arguments.lines
        return [
            _pages_of(part, partial(export, copied, part.volume.number, *size))
            for part in parts
        ]


def _pages_of(part: Part, exported: Callable[[], bytes]) -> int:
    """How many pages export writes of a volume; of these are compared those that are shown."""
    its = part.volume.layout
    try:
        written = exported()
    except NotFound:
        raise _otherwise(part.volume) from None
    except Refused as refused:
        if refused.code != Code.NOT_FOR_EMBOSSERS:
            raise
        # nothing was to be exported
        said = refused.sentence.replace("was exported", "is shown")
        raise Stop(said) from refused
    # the last one ends in a form feed too
    *pages, _ = written.split(b"\f")
    is_counted = not part.volume.is_whole or len(pages) == its.pages
    if not is_counted or any(
        pages[page - 1 : page] != [its.embossed(page).removesuffix(b"\f")]
        for page in part.pages
    ):
        raise _otherwise(part.volume)
    return len(pages)


def _otherwise(its: Volume) -> Stop:
    return Stop(
        f"The pages of volume {its.number} were laid out otherwise than export writes them, so"
        " nothing is shown. The book is as it was.",
        Status.FAILED,
    )


def laid_out(session: Session, arguments: Namespace) -> list[Volume]:
    """The volume that is wanted, or all of them, each up to the page that is wanted, if one is."""
    parts = dict(enumerate(parted(session.paragraphs()), 1))
    wanted, page_size = arguments.volume, page_size_of(arguments)
    if not parts:
        raise Stop("The book has no volume, since it has no paragraph to show.")
    if wanted is not None and wanted not in parts:
        raise Stop(f"There is no volume {wanted}: the book has {len(parts)}.")
    numbers = parts if wanted is None else [wanted]
    return [
        volume(session, each, parts[each], page_size, arguments.page)
        for each in numbers
    ]


def shown(session: Session, volumes: list[Volume], arguments: Namespace) -> list[Part]:
    """What is shown of each volume: of a page or a line of it, of a paragraph, or of each."""
    page, line, paragraph = arguments.page, arguments.line, arguments.paragraph
    numbers = [its.number for its in volumes]
    if line is not None and any(0 < page <= its.layout.pages for its in volumes):
        found = [(its, rows_on(its.layout, page, line)) for its in volumes]
        return _detailed(session, found, no_words(numbers, page, line))
    if page is not None:
        found = [(its, rows_on(its.layout, page)) for its in volumes]
        return _detailed(session, found, not_there(numbers, f"page {page}"))
    if paragraph is not None:
        found = [(its, rows_of(its.layout, paragraph)) for its in volumes]
        is_there = any(
            each.id == paragraph for its in volumes for each in its.paragraphs
        )
        none = not_there(numbers, f"paragraph {paragraph}")
        return _detailed(session, found, no_line(paragraph) if is_there else none)
    return [_listed(session, its) for its in volumes]


def _listed(session: Session, its: Volume) -> Part:
    """A line for each paragraph: from where to where it stands, and its first words."""
    lines = []
    for placed, text in zip(its.layout.placed, prints(session, its.paragraphs)):
        where = span(its.layout.page_size, placed.lines) if placed.lines else "No line"
        words = opening(visible(text), _OPENING)
        lines.append(f"{where}, paragraph {placed.section.paragraph}: {words}".rstrip())
    return Part(its, lines, range(1, its.layout.pages + 1))


def span(page_size: PageSize, lines: range) -> str:
    """From one line to another, in words."""
    (page, line), (last_page, last) = page_size.place(lines[0]), page_size.place(
        lines[-1]
    )
    if page != last_page:
        return f"Page {page} line {line} to page {last_page} line {last}"
    if line != last:
        return f"Page {page}, lines {line} to {last}"
    return f"Page {page}, line {line}"


def _detailed(
    session: Session, found: Sequence[tuple[Volume, list[Row]]], none: str
) -> list[Part]:
    """A line for each of some lines of pages, with the print that stands on it."""
    parts = []
    for its, rows in found:
        if rows:
            lines = map(row_line, printed(session, its, rows))
            pages = sorted({row.page for row in rows})
            parts.append(Part(its, list(lines), pages))
    if not parts:
        raise Stop(none)
    return parts


COMMAND = BookCommand(
    "pages",
    EXAMPLE,
    add_words,
    lambda: answer,
    MORE,
    looks=True,
    judge=judge,
    beside=exported_beside,
)
