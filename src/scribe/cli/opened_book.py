"""The book of a command: its session, and what is said where it can't be opened or the work is stopped."""

import os
from argparse import Namespace
from collections.abc import Callable, Iterator
from contextlib import contextmanager, nullcontext, suppress
from pathlib import Path
from typing import TYPE_CHECKING

from braildesk import (
    CannotOpen,
    DeskError,
    Displaced,
    Lost,
    Refused,
    Session,
    Why,
    check,
)
from braildesk.beginning import Beginning
from braildesk.desk import USUAL_WAIT
from braildesk.desk.places import ManyPlaces
from braildesk.opening import is_log_another
from braildesk.protocol.asked import BookFile
from braildesk.protocol.sentences import LOOKED_AT_BY_COPY
from braildesk.session import session_of
from braildesk.text.excerpt import excerpt_lines
from braildesk.text.spans import Span

from scribe.cli.book_command import BookCommand
from scribe.cli.endings import not_begun
from scribe.words.console import Console
from scribe.words.paragraph import quoted
from scribe.words.status import Interrupted, Status, Stop, stopped_by

if TYPE_CHECKING:
    from braildesk.desk.copied_book import CopiedBook


def answered(
    command: BookCommand,
    beginning: Beginning,
    arguments: Namespace,
    console: Console,
) -> Status:
    """Does what the words of a command ask for, on the book that a program has begun to open."""
    with not_begun():
        answer = command.answering()
    # others may have a book that is looked at once it is read, whenever that is read on by a person
    ahead = nullcontext(console) if command.may_change(arguments) else console.ahead()
    with places_shown(console.columns), ahead as console:
        with _opened(command, beginning, arguments, console) as session:
            outcome = answer(session, arguments, console)
    return outcome if isinstance(outcome, Status) else Status.DONE


@contextmanager
def _opened(
    command: BookCommand,
    beginning: Beginning,
    arguments: Namespace,
    console: Console,
) -> Iterator[Session]:
    """The session of a command."""

    def opened() -> Session:
        with not_begun():
            return session_of(beginning, arguments.wait)

    if command.may_change(arguments):
        session = opened()
        try:
            with session:
                yield session
        finally:
            follow(session, arguments.file)
    else:
        with looked_at(arguments, console, opened) as (session, copy):
            arguments.read_at = arguments.file if copy is None else copy.path
            yield session


def open_session(arguments: Namespace, console: Console) -> Session:
    """A session with the book that the words name, which says where it waits for the program."""
    with not_begun():
        return Session(
            arguments.file, timeout=arguments.wait, while_waiting=console.waiting()
        )


@contextmanager
def said_where_stopped(
    session: Session,
    arguments: Namespace,
    console: Console,
    so_far: Callable[[int, int], str],
) -> Iterator[None]:
    """Says what is in the book if many changes are stopped among them, one is refused, or their
    session ends.

    This is said by how many were made, each of which is a version, and the version of the book.
    """
    first = session.last_version
    try:
        yield
    except KeyboardInterrupt as cause:
        try:
            session.close()
            now: int | None = session.last_version
            lost_as = ""
        except Lost as lost:
            # what the session was just doing is in the book or isn't
            now, lost_as = _version_after(lost, arguments, first), lost.sentence
            if now is not None and not isinstance(lost, Displaced):
                lost_as = ""
        what = "" if now is None else so_far(now - first, now)
        console.say(" ".join(filter(None, (stopped_by(cause), what, lost_as))))
        raise Interrupted.after(cause) from cause
    except Lost as lost:
        now = _version_after(lost, arguments, first)
        if now is not None and now > first:
            console.say(so_far(now - first, now))
        raise
    except Refused as refused:
        now = session.last_version
        if now == first:
            raise
        raise Stop(f"{refused.reason} {so_far(now - first, now)}") from refused


def _version_after(lost: Lost, arguments: Namespace, first: int) -> int | None:
    """The version to which the changes of a lost session brought the book, if that is seen."""
    # another file may stand at the path of a book that is gone, which doesn't say what was changed
    file = lost.saved if isinstance(lost, Displaced) else arguments.file
    if file is None:
        return None
    with suppress(DeskError):
        now = check(file, timeout=getattr(arguments, "wait", USUAL_WAIT))
        # others may have changed the book since
        if first <= now <= lost.version + len(lost.unanswered):
            return now
    return None


def follow(session: Session, book: Path) -> None:
    """Has what is kept for a book that is gone be known where all of that was saved, too."""
    lost = session.lost
    if isinstance(lost, Displaced) and lost.saved is not None:
        # imported here, since few sessions are lost
        from braildesk.desk.drafts import Drafts

        Drafts(book).copy_to(Path(lost.saved))


@contextmanager
def looked_at(
    arguments: Namespace,
    console: Console,
    opened: Callable[[], Session] | None = None,
) -> Iterator[tuple[Session, "CopiedBook | None"]]:
    """A session with the book, which something opens, or with a copy of it, and that copy.

    It is a copy while another program has the book open, of which the version is said, and where
    nothing may be written.
    """
    try:
        session = opened() if opened else open_session(arguments, console)
    except CannotOpen as refusal:
        if refusal.why not in (Why.IN_USE, *LOOKED_AT_BY_COPY):
            raise
        # imported here, since few commands meet a book that they can't open
        from braildesk.desk.copied_book import copied_session

        with copied_session(arguments.file) as (session, copy):
            if refusal.why is Why.IN_USE:
                console.say(as_kept(arguments.file, session.last_version))
            yield session, copy
        return
    with session:
        yield session, None


def as_kept(book: Path, version: int) -> str:
    """What is said of a book that is looked at while another program has it open."""
    if missing := without_log(book):
        return (
            f"Another program has {book} open. {missing} This is what is there, at version"
            f" {version:,}."
        )
    return (
        f"Another program has {book} open. This is what it had kept a moment ago, at version"
        f" {version:,}."
    )


def without_log(book: Path) -> str:
    """What is said where a book that a program has open is without that program's log; else nothing.

    Each session makes one at once, and keeps there what is typed.
    """
    its = BookFile.of(book)
    if not os.path.lexists(its.log):
        return (
            "No log is beside the book, so what that program kept last may be missing."
        )
    if is_log_another(its.real, its.log):
        return (
            "That program doesn't have the log open that is beside the book, so what it kept last may be"
            " missing."
        )
    return ""


@contextmanager
def places_shown(width: int) -> Iterator[None]:
    """Stops with the places in which words stand, if it isn't clear which of them is meant."""
    try:
        yield
    except ManyPlaces as many:
        found = enumerate(many.places, 1)
        lines = [
            line
            for nth, place in found
            for line in _place_lines(many.text, place, nth, width)
        ]
        raise Stop(_of_many(many), more=lines) from many


def _of_many(many: ManyPlaces) -> str:
    count = len(many.places)
    times = "once" if count == 1 else f"{count:,} times"
    wanted = (
        "Say which by --nth" if many.nth is None else f"There is no place {many.nth}"
    )
    return (
        f"Paragraph {many.paragraph} has {quoted(many.sought)} {times}. {wanted}."
        " Nothing was changed."
    )


def _place_lines(text: str, place: Span, nth: int, width: int) -> list[str]:
    """A place with the words around it."""
    head = f"--nth {nth}, character {place.start + 1}: "
    return excerpt_lines(head, text, place.start, place.stop, width)
