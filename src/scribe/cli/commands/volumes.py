"""`scribe volumes`: the volumes of a book with their pages, and where others would begin."""

from argparse import ArgumentTypeError, Namespace

from braildesk import Paragraph, Session
from braildesk.desk.layout import PageSize
from braildesk.desk.volume_plan import (
    Lines,
    Planned,
    as_they_are,
    planned,
    set_volumes,
    shown_lines,
    to_be_set,
)

from scribe.cli.book_command import BookCommand
from scribe.cli.opened_book import said_where_stopped
from scribe.cli.page_size import add_page_size, page_size_of
from scribe.cli.parser import Parser, WordsRefused, number
from scribe.words.console import Console
from scribe.words.status import Stop
from scribe.words.volumes import (
    faults,
    stopped_after,
    summary,
    to_set,
    volume_lines,
    was_set,
)

MORE = """\
Without --pages the volumes are shown as they are. With --pages it is proposed where
volumes begin so that none has more pages: at headings, and before another paragraph only
where what is between two headings has too many pages by itself, as seldom as can be. Of
these ways one with the fewest volumes is taken, of a size as even as can be without more
pages; one that ends where there is no heading is full. --set does what is proposed."""
EXAMPLE = """\
scribe volumes moon.braildesk
scribe volumes moon.braildesk --pages 80
scribe volumes moon.braildesk --pages 80 --set"""


def add_words(parser: Parser) -> None:
    """Adds the words of `volumes`."""
    parser.add_argument(
        "--pages", metavar="N", type=_pages, help="no volume has over N pages"
    )
    parser.add_argument("--set", action="store_true", help="do what is proposed")
    add_page_size(parser)
    parser.set_defaults(usage=parser.format_usage().strip())


def judge(arguments: Namespace) -> None:
    """Refuses to set volumes of which nobody said how long they are."""
    if arguments.set and arguments.pages is None:
        raise WordsRefused(
            "Argument --set: say by --pages how many pages a volume has at most.",
            arguments.usage,
        )


def answer(session: Session, arguments: Namespace, console: Console) -> None:
    """Shows the volumes, or proposes others, or sets these."""
    page_size = page_size_of(arguments)
    if arguments.set:
        _set(session, arguments, page_size, console)
    else:
        _show(session, page_size, arguments.pages, console)


def _shown_lines(
    session: Session, page_size: PageSize
) -> tuple[list[Paragraph], list[Lines]]:
    """The paragraphs that stand in a volume, with their lines."""
    book, lines = shown_lines(session, session.paragraphs(), page_size)
    if not book:
        raise Stop("The book has no volume, since it has no paragraph to show.")
    return book, lines


def _show(
    session: Session, page_size: PageSize, most: int | None, console: Console
) -> None:
    """Shows the volumes as they are, or as they would be with so many pages at most."""
    book, lines = _shown_lines(session, page_size)
    volumes: list[Planned] = as_they_are(book, lines, page_size)
    if most is not None:
        volumes = planned(lines, page_size, most)
    console.show(*volume_lines(session, book, volumes))
    console.say(summary(volumes, page_size), *faults(volumes))
    if most is not None:
        console.say(*to_set(to_be_set(book, volumes)))


def _set(
    session: Session, arguments: Namespace, page_size: PageSize, console: Console
) -> None:
    """Sets where volumes begin, and shows them."""
    changed: list[tuple[Paragraph, bool]] = []

    def so_far(done: int, version: int) -> str:
        return stopped_after(done, len(changed), version)

    with said_where_stopped(session, arguments, console, so_far):
        book, lines = _shown_lines(session, page_size)
        volumes = planned(lines, page_size, arguments.pages)
        changed += to_be_set(book, volumes)
        for _ in set_volumes(session, changed):
            pass
        console.say(*was_set(changed, session.last_version))
    console.show(*volume_lines(session, book, volumes))
    console.say(summary(volumes, page_size), *faults(volumes))


def _pages(word: str) -> int:
    """How many pages a volume has at most."""
    count = number(word)
    if count == 0:
        raise ArgumentTypeError("a volume has at least 1 page")
    return count


COMMAND = BookCommand(
    "volumes",
    EXAMPLE,
    add_words,
    lambda: answer,
    MORE,
    looks=True,
    changes=lambda arguments: bool(arguments.set),
    judge=judge,
)
