"""Earlier imports of a text into a book: what is noted of them, and what a person has to decide."""

import os
from collections.abc import Callable, Sequence
from enum import Enum, auto
from pathlib import Path

from braildesk import Paragraph, Session
from braildesk.desk.drafts import Drafts, NotKept
from braildesk.desk.import_note import ImportNote
from braildesk.desk.intake import NotImported
from braildesk.desk.manuscripts import read_bytes
from braildesk.desk.unfinished import NotSeen, Unfinished, digest_of, unfinished
from braildesk.workshop import OthersLink


class Way(Enum):
    """What is done about an earlier import of the same text."""

    ASK = auto()
    GO_ON = auto()
    AGAIN = auto()
    LEAVE = auto()


class NoneCutShort(NotImported):
    """No import of a text is known that was cut short."""

    def __init__(self, path: Path) -> None:
        super().__init__(path)
        self.path = path


class AllThere(NotImported):
    """All of a text is in the book, of which an import was cut short."""

    def __init__(self, note: ImportNote) -> None:
        super().__init__(note)
        self.note = note


class Undecided(NotImported):
    """A person has to say what is done about an earlier import.

    The way is what a yes means if one question is asked. The note is of what may be left out.
    """

    way: Way
    note: ImportNote | None


class StandsThere(Undecided):
    """A text stands in the book already, as paragraphs of these numbers."""

    def __init__(self, path: Path, numbers: Sequence[int]) -> None:
        super().__init__(path, numbers)
        self.path = path
        self.numbers = numbers
        self.way = Way.AGAIN
        self.note = None


class PartIsThere(Undecided):
    """A part of a text is in the book, by an import that was cut short."""

    def __init__(self, its: Unfinished) -> None:
        super().__init__(its)
        self.its = its
        self.way = Way.GO_ON
        self.note = its.note


class PartUnseen(Undecided):
    """It can't be seen how much of a text is in the book, by an import that was cut short."""

    def __init__(self, fault: NotSeen) -> None:
        super().__init__(fault)
        self.fault = fault
        self.way = Way.AGAIN
        self.note = fault.note


def leave(book: Path, path: Path) -> None:
    """Forgets an import of a text that was cut short; raises `NoneCutShort`."""
    try:
        data = read_bytes(path)
    except (OSError, OthersLink):
        data = b""
    drafts = Drafts(book)
    note = note_of_text(drafts.imports(), path, digest_of(data))
    if note is None:
        raise NoneCutShort(path)
    drafts.end_import(note)


def to_go_on(
    drafts: Drafts,
    session: Session,
    book: Sequence[Paragraph],
    reading: Callable[[ImportNote], None] = lambda note: None,
) -> tuple[Unfinished | NotSeen | NotKept, ...]:
    """The imports of which a part is in the book.

    What is noted of others is taken away, unless the book is as old as before them. Before a
    document is read again, which may take long, `reading` is called with what is noted of it.
    """
    found: list[Unfinished | NotSeen | NotKept] = []
    drafts.adopt()
    try:
        for note in drafts.imports():
            kind = note.how.reading.kind
            if kind is not None and kind.is_document:
                reading(note)
            try:
                its = unfinished(session, book, note)
            except NotSeen as fault:
                found.append(fault)
                continue
            if its.is_to_go_on:
                found.append(its)
            elif session.last_version > note.version:
                # an older file may be there for a while, as one from a backup
                drafts.end_import(note)
    except NotKept as unread:
        found.append(unread)
    return tuple(found)


def note_of_text(
    notes: Sequence[ImportNote], path: Path, digest: str
) -> ImportNote | None:
    """The note that is of a text, by its path or by the digest of its bytes."""
    whole = os.path.abspath(path)
    for note in notes:
        if note.digest == digest or note.text == whole:
            return note
    return None
