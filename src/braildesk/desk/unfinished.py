"""An import that was begun and didn't come to its end: how much of its text is in the book.

That is seen in the book: the paragraphs that it got since are compared with those of the text.
"""

from collections.abc import Sequence
from dataclasses import dataclass
from pathlib import Path

from braildesk import After, Paragraph, Session
from braildesk.desk.import_note import ImportNote
from braildesk.desk.intake import NotImported, parted_at, settings
from braildesk.desk.manuscript import Passage, UnreadableText
from braildesk.desk.manuscripts import read_again, taken
from braildesk.desk.origin import came_from
from braildesk.protocol.value import Value


class NotSeen(NotImported):
    """The text of an import was changed or can't be read, so what became of it can't be seen."""

    def __init__(
        self, note: ImportNote, cause: OSError | UnreadableText | None = None
    ) -> None:
        super().__init__(note, cause)
        self.note = note
        self.cause = cause


@dataclass(frozen=True, eq=False, repr=False)
class Unfinished(Value):
    """An import, and how far it came."""

    note: ImportNote
    #: How many paragraphs the book got by it.
    kept: int
    #: The paragraphs of the text before those that it was to type, and those.
    before: tuple[Passage, ...]
    rest: tuple[Passage, ...]
    #: Whether all that the book got by it is struck.
    is_taken_back: bool
    #: Whether the last of these isn't as it was to be, as a heading.
    is_lacking: bool = False
    #: Whether the book has the paragraphs before; an earlier copy, or another book, hasn't.
    has_before: bool = True

    @property
    def done(self) -> int:
        """How many paragraphs of the text are in the book."""
        return len(self.before) + self.kept

    @property
    def is_to_go_on(self) -> bool:
        """Whether a part of the text is in the book, and not all of it."""
        has_part = self.done > 0 and self.has_before and not self.is_all_there
        return has_part and not self.is_taken_back

    @property
    def is_all_there(self) -> bool:
        """Whether all of the text is in the book, as it was to be."""
        return self.kept == len(self.rest) and not self.is_lacking

    @property
    def after(self) -> After:
        """Where the rest goes."""
        return self.note.there + self.kept if self.kept else self.note.after

    @property
    def line(self) -> int:
        """The line of the text at which it goes on, which is beyond it if only settings are lacking."""
        if self.kept == len(self.rest):
            return self.rest[-1].last_line + 1
        return self.rest[self.kept].first_line

    @property
    def whole(self) -> tuple[Passage, ...]:
        """All paragraphs of the text."""
        return (*self.before, *self.rest)


def unfinished(
    session: Session, book: Sequence[Paragraph], note: ImportNote
) -> Unfinished:
    """What became of an import, by the book as it is now; `NotSeen` if nothing shows it."""
    try:
        before, rest = _parts(note)
    except NotSeen:
        if note.line == 1 and session.last_version <= note.version:
            # whatever the text is by now, nothing of it was typed yet
            return Unfinished(note, 0, (), (), False, has_before=False)
        raise
    new = range(note.there + 1, len(book) + 1)
    is_untouched = session.last_version == note.version
    kept = 0 if is_untouched else came_from(session, new, rest)
    struck = {each.id for each in book if each.struck}
    is_taken_back = kept > 0 and struck.issuperset(new[:kept])
    last = note.there + kept
    is_lacking = kept > 0 and any(
        next(settings(rest[kept - 1], last, each), None) is not None
        for each in book
        if each.id == last
    )
    has_before = kept > 0 or _has_last(session, book, note, before)
    return Unfinished(note, kept, before, rest, is_taken_back, is_lacking, has_before)


def _has_last(
    session: Session,
    book: Sequence[Paragraph],
    note: ImportNote,
    before: Sequence[Passage],
) -> bool:
    """Whether the last of some paragraphs of the text stands where the others were to go."""
    there = [each.id for each in book if each.id <= note.there]
    last = there[-1:] if note.after == "end" else [n for n in there if n == note.after]
    return came_from(session, last, before[-1:]) == len(before[-1:])


def digest_of(data: bytes) -> str:
    """By which a text is known again."""
    import hashlib  # which takes as long as the program for a table, beside which it is asked for

    return hashlib.sha256(data).hexdigest()


def _parts(note: ImportNote) -> tuple[tuple[Passage, ...], tuple[Passage, ...]]:
    """The paragraphs of the text before those that were to be typed, and those."""
    try:
        data = read_again(Path(note.text))
    except OSError as cause:
        raise NotSeen(note, cause) from cause
    if digest_of(data) != note.digest:
        raise NotSeen(note)
    try:
        whole = taken(data, note.by_lines, note.how, note.name).passages
        before, rest = parted_at(whole, note.line)
    except UnreadableText as cause:
        raise NotSeen(note, cause) from cause
    except NotImported as cause:
        raise NotSeen(note) from cause
    if len(rest) != note.count:
        raise NotSeen(note)
    return before, rest
