"""What was refused or failed, as exceptions that a person can read."""

from collections.abc import Mapping, Sequence
from dataclasses import replace
from functools import cached_property
from typing import TYPE_CHECKING, Any

from braildesk.protocol.asked import Asked, AskedOfFile, Refusal
from braildesk.protocol.codes import NUMBERS, Code, code_of
from braildesk.protocol.sentences import Why

if TYPE_CHECKING:
    from braildesk.protocol.requests import Request


class DeskError(Exception):
    """Whatever goes wrong with a book, with a sentence about it."""

    @property
    def sentence(self) -> str:
        """What a person reads: what happened, what it means for the book, what to do."""
        return super().__str__()

    @property
    def reason(self) -> str:
        """The sentence for what failed after other things were done: it says nothing of these."""
        return self.sentence

    def __str__(self) -> str:
        return self.sentence


class Refused(DeskError):
    """Something was refused by a code, and nothing was changed.

    The numbers that come with a code stand under their names, and are None if it has no such
    number. Places and cells count from 0, and lines from 1, as the program has them.
    """

    def __init__(self, refusal: Refusal) -> None:
        super().__init__(refusal)
        self.refusal = refusal
        #: A ``Code``; a number alone if a newer program refuses by one that isn't known here.
        self.code = code_of(refusal.code)
        #: What was asked: the request that was sent, in a session.
        self.asked = refusal.asked
        #: The place of a character in a text or a print (6, 7, 9, and 1 if it names one).
        self.place = refusal.place
        #: The line of a table (8), and what is wrong with it.
        self.line, self.cause = refusal.line, refusal.cause
        #: The paragraph that stands in the way (9, 95), and a cell of it (95).
        self.paragraph, self.cell = refusal.paragraph, refusal.cell
        #: What is full (15).
        self.limit = refusal.limit
        #: The version of the book (16, 99).
        self.version = refusal.version
        #: The number of a table in a damaged file, and of what is damaged in it (93).
        self.table, self.id = refusal.table, refusal.id

    def __repr__(self) -> str:
        return f"{type(self).__name__}({self.code!r}, {self.sentence!r})"

    @cached_property
    def sentence(self) -> str:
        """What a person reads: what happened, what it means for the book, what to do."""
        # imported here, since most of what is asked isn't refused
        from braildesk.protocol.wording import worded

        return worded(self.refusal)

    @property
    def reason(self) -> str:
        """The sentence without what the refusal means for the book."""
        from braildesk.protocol.wording import reason  # as above

        return reason(self.refusal)


class NotFound(Refused):
    """There is no such paragraph, table, mark or volume (2, 3, 4, 96)."""


class OutOfRange(Refused):
    """The places or cells aren't all there (5)."""


class Undefined(Refused):
    """A table doesn't define a character of a text or a print (7, 9)."""


class BadTable(Refused):
    """The text of a table is bad (8): ``line`` and ``cause`` say where and why."""


class TooLong(Refused):
    """A text, a print or a note is too long (14)."""


class Full(Refused):
    """The book, or a history, is full (15)."""


class VersionConflict(Refused):
    """The book is at another version than was expected (16)."""


class NoMemory(Refused):
    """There was no memory (90)."""


class Unopened(Refused):
    """A file isn't opened as a book, or as a table."""


class NotABook(Unopened):
    """The file is a database without a book (92)."""


class Damaged(Unopened):
    """The book in the file is damaged (93): ``table`` and ``id`` say where."""


class NewerFormat(Unopened):
    """The book in the file was made by a newer braildesk (94)."""


class CannotOpen(Unopened):
    """The file can't be opened (98): ``why`` tells the cases apart."""

    @property
    def why(self) -> Why:
        """What is seen at the path."""
        return self.refusal.why


class Failed(DeskError):
    """Something failed that is no fault of what was asked, such as a disk."""


class Lost(Failed):
    """A session's file failed to keep a command (91), or the session ended too early.

    ``acknowledged`` is the last command that was reported as kept, ``answered`` how many requests
    of the session were answered, and ``version`` the version that the book was last reported at.
    ``unanswered`` are the commands that were sent and not reported as kept: each of them may be in
    the book, in their order. ``cause`` is the front of the sentence, which says what happened.
    """

    #: The command that was asked last, if it was never sent, and so is not in the book.
    unsent: "Request[Any] | None" = None

    def __init__(
        self,
        cause: str,
        kept: str,
        acknowledged: "Request[Any] | None",
        answered: int,
        version: int,
        unanswered: "tuple[Request[Any], ...]" = (),
    ) -> None:
        super().__init__(cause, kept, acknowledged, answered, version, unanswered)
        self.cause = cause
        self.kept = kept
        self.acknowledged = acknowledged
        self.answered = answered
        self.version = version
        self.unanswered = unanswered

    @property
    def sentence(self) -> str:
        """What a person reads: what happened, what is in the book, what may be."""
        return f"{self.cause} {self.kept}"


class SessionEnded(Lost):
    """The program of a session ended, or was ended, before it answered."""


class Displaced(Lost):
    """The file of a session's book was removed, renamed, replaced or overwritten while it was open.

    What was acknowledged is not in what stands at the path. The sentence says where all of it was
    saved, or of a file that was overwritten the print.
    """

    #: The path of the file that has all of the book, if there is one: a new one, or, if its folder
    #: was renamed, its own.
    saved: str | None = None


_KINDS: Mapping[int, type[Refused]] = {
    Code.NO_PARAGRAPH: NotFound,
    Code.NO_TABLE: NotFound,
    Code.NO_MARK: NotFound,
    Code.NO_VOLUME: NotFound,
    Code.OUT_OF_RANGE: OutOfRange,
    Code.UNDEFINED: Undefined,
    Code.UNDEFINED_IN_PRINT: Undefined,
    Code.BAD_TABLE: BadTable,
    Code.TOO_LONG: TooLong,
    Code.FULL: Full,
    Code.VERSION_CONFLICT: VersionConflict,
    Code.NO_MEMORY: NoMemory,
    Code.NOT_A_BOOK: NotABook,
    Code.DAMAGED: Damaged,
    Code.NEWER_FORMAT: NewerFormat,
    Code.CANNOT_OPEN: CannotOpen,
}


def refused(code: int, asked: Asked, numbers: Sequence[int] = ()) -> Refused:
    """The exception of a code and its numbers, as the program answers them."""
    named = dict(zip(NUMBERS.get(code, ()), numbers))
    return refused_as(replace(Refusal(code, asked), **named))


def refused_as(refusal: Refusal) -> Refused:
    """The exception of a refusal."""
    return _KINDS.get(refusal.code, Refused)(refusal)


def cannot_open(asked: AskedOfFile, why: Why) -> CannotOpen:
    """The exception of a file that can't be opened."""
    return CannotOpen(Refusal(Code.CANNOT_OPEN, asked, why=why))
