"""What became of a command that was not answered: the book is opened again, and shows it."""

from collections.abc import Callable
from dataclasses import dataclass
from pathlib import Path
from typing import Any

from braildesk import DeskError, Kind, Lost, Paragraph, Refused, Session
from braildesk.desk.readings import paragraph_of
from braildesk.protocol import requests, values
from braildesk.protocol.requests import Request
from braildesk.text.sequences import composed

# how long another program may have the book before that is said
PATIENCE = 2.0


@dataclass(frozen=True)
class FoundAgain:
    """What a book that was opened again has of what wasn't answered before."""

    #: Its version, and the one that it was last reported at.
    version: int
    before: int
    #: How many commands were not answered, with one that was not sent.
    unanswered: int
    #: How many of these are in the book, the first ones; None if another program changed it.
    kept: int | None
    #: Whether a command was answered after which nothing was asked.
    is_answered: bool


def opened_again(
    path: Path, lost: Lost, while_waiting: Callable[[], None] = lambda: None
) -> tuple[Session, FoundAgain]:
    """The book in another session, and what it has; raises `DeskError` or `OSError`."""
    session = Session(path, timeout=PATIENCE, while_waiting=while_waiting)
    session.guard()
    try:
        return session, found_again(session, lost)
    except DeskError as failed:
        if not isinstance(failed, Lost):
            session.close()
        raise


def found_again(session: Session, lost: Lost) -> FoundAgain:
    """What a book that was opened again has of what wasn't answered before."""
    now, before, asked = session.last_version, lost.version, lost.unanswered
    kept: int | None = now - before
    if now != before and not (
        0 < now - before <= len(asked) and is_in(session, asked[now - before - 1])
    ):
        kept = None
    count = len(asked) + (lost.unsent is not None)
    is_answered = not count and lost.acknowledged is not None
    return FoundAgain(now, before, count, kept, is_answered)


def is_in(session: Session, command: Request[Any]) -> bool:
    """Whether a book is as a command leaves it that is the last one in it."""
    try:
        return _is_as_left(session, command)
    except Refused:
        return False


def _is_as_left(session: Session, command: Request[Any]) -> bool:
    match command:
        case requests.Type():
            return _has_typed(session, command)
        case requests.Correct(paragraph=number):
            return any(
                (each.kind, each.start, each.count, each.text)
                == (Kind.CORRECT, command.start, command.count, composed(command.text))
                for each in session.history_of(number)[-1:]
            )
        case requests.Undo(paragraph=number):
            return any(e.kind is Kind.UNDO for e in session.history_of(number)[-1:])
        case requests.Mark(paragraph=number):
            return any(m.note == command.note for m in session.marks_of(number)[-1:])
        case requests.Strike(paragraph=number):
            return _paragraph(session, number).struck
        case requests.Restore(paragraph=number):
            return not _paragraph(session, number).struck
        case requests.Style(paragraph=number):
            return _paragraph(session, number).style is values.Style(command.style)
        case requests.Volume(paragraph=number):
            return _paragraph(session, number).begins_volume is command.begins
        case requests.Retable(paragraph=number):
            return _paragraph(session, number).table == command.table
    # of the others the version says it
    return True


def _has_typed(session: Session, command: requests.Type) -> bool:
    newest = max(session.paragraphs(), key=lambda each: each.id, default=None)
    return (
        newest is not None
        and newest.table == command.table
        and session.print_of(newest.id) == composed(command.text)
    )


def _paragraph(session: Session, number: int) -> Paragraph:
    found = paragraph_of(session, number)
    assert found is not None
    return found
