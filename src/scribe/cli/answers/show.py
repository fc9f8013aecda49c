"""What `scribe show` does: the book as a person reads it."""

from argparse import Namespace
from collections.abc import Iterator, Sequence
from pathlib import Path

from braildesk import Paragraph, Session
from braildesk.desk.own_folder import may_have
from braildesk.desk.readings import ListedBook, answers, readings
from braildesk.protocol.requests import Whence, Where

from scribe.cli.parser import asked_ranges
from scribe.words.console import Console
from scribe.words.view import Shown, View

# how many paragraphs are asked for at once
_BATCH = 256


def answer(session: Session, arguments: Namespace, console: Console) -> None:
    """Shows the paragraphs, and names imports that were cut short."""
    book = ListedBook(session)
    ranges = asked_ranges(arguments)
    chosen = [each.among(book.place_of, len(book)) for each in ranges]
    its = [paragraph for places in chosen for paragraph in book.among(places)]
    view = View(
        width=console.columns,
        has_print=arguments.print or not arguments.braille,
        has_braille=arguments.braille or not arguments.print,
        notation=console.cells,
        has_table=len(book.tables) > 1,
    )
    for count, lines in enumerate(_shown(session, its, view)):
        console.show(*([""] if count else []), *lines)
    if not len(book):
        console.say("The book has no paragraphs.")
    if arguments.read_at == arguments.file:
        # another program that has the book open may still be at an import
        console.say(*_cut_short(session, book, arguments.file, console))


def _shown(
    session: Session, paragraphs: Sequence[Paragraph], view: View
) -> Iterator[list[str]]:
    """The lines of each paragraph: its braille under its print where the book has it there."""
    for start in range(0, len(paragraphs), _BATCH):
        batch = readings(session, paragraphs[start : start + _BATCH])
        found = [view.of(reading) for reading in batch]
        own = iter(_are_paired(session, found))
        for each in found:
            yield each.lines(all([next(own) for _ in each.begun]))


def _are_paired(session: Session, found: Sequence[Shown]) -> list[bool]:
    """Whether the characters and the cells at which lines begin belong together, line by line.

    They do if they are of one sign, or of signs that begin there.
    """
    begun = [(each.reading.paragraph.id, *at) for each in found for at in each.begun]
    cells = [*answers(session, [Where(number, place) for number, place, _ in begun])]
    # a sign that begins at the cell has its first character at the place or before it
    earlier = [at for at, first in zip(begun, cells) if first < at[2]]
    places = iter(
        [*answers(session, [Whence(number, cell) for number, _, cell in earlier])]
    )
    return [
        first == cell or first < cell and next(places) <= place
        for (_, place, cell), first in zip(begun, cells)
    ]


def _cut_short(
    session: Session, book: ListedBook, file: Path, console: Console
) -> tuple[str, ...]:
    """What is said of imports into the book that were cut short."""
    if not may_have("imports"):
        return ()
    # what few books need isn't imported for the others
    from braildesk.desk.drafts import Drafts
    from braildesk.desk.earlier import to_go_on
    from scribe.words.import_text import read_again, reminders

    found = to_go_on(
        Drafts(file),
        session,
        book.among(),
        lambda note: console.say_if_followed(read_again(note)),
    )
    return tuple(sentence for each in found for sentence in reminders(each, file))
