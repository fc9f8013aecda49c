"""What became of a command that was not answered, in words, once the book is opened again."""

from collections.abc import Callable, Sequence
from pathlib import Path
from typing import Any

from braildesk import DeskError, Displaced, Lost, Paragraph, Session, requests
from braildesk.desk import aftermath
from braildesk.desk.aftermath import FoundAgain
from braildesk.protocol.requests import Command

from scribe.words.console import Console
from scribe.words.deeds import Deed, deed_of
from scribe.words.paragraph import counted


def after_loss(path: Path, lost: Lost) -> list[str]:
    """What is said if a session was lost: what happened, and what is in the book."""
    session, said = opened_again(path, lost)
    if session is not None:
        try:
            session.close()
        except DeskError as failed:
            return [lost.sentence, failed.reason]
    return said


def opened_again(
    path: Path,
    lost: Lost,
    shown: int | None = None,
    begun: int | None = None,
    while_waiting: Callable[[], None] = lambda: None,
) -> tuple[Session | None, list[str]]:
    """The book in another session, if it can be opened again, and what is said of the loss.

    What was kept up to a version may have been shown. Work of many commands began at another.
    """
    if isinstance(lost, Displaced):
        return None, [lost.sentence]
    try:
        session, found = aftermath.opened_again(path, lost, while_waiting)
    except DeskError as failed:
        return None, [lost.sentence, failed.reason]
    except OSError as failure:
        why = f"The book could not be opened again: {failure.strerror}."
        return None, [lost.sentence, why]
    words = found_again if shown == lost.version else _found_unshown
    return session, [lost.cause, words(found, begun)]


def kept_alone(session: Session, lost: Lost) -> Command[Any] | None:
    """The one command that was not answered, if it is in the book, and nothing after it."""
    if len(lost.unanswered) != 1 or session.last_version != lost.version + 1:
        return None
    (command,) = lost.unanswered
    if not isinstance(command, Command) or not aftermath.is_in(session, command):
        return None
    return command


def deed_found(
    session: Session, command: Command[Any], before: Sequence[Paragraph]
) -> Deed | None:
    """What the last command of a book did, which was not answered; none if it took something back."""
    answer: object = None
    if isinstance(command, requests.Type):
        answer = max(session.paragraphs(), key=lambda each: each.id)
    elif isinstance(command, requests.Mark):
        answer = session.marks_of(command.paragraph)[-1]
    return deed_of(command, answer, before)


def tell_end(console: Console, name: str, version: int, strayed: str) -> None:
    """Says at which version a closed book is, or what became of its file while nothing was kept."""
    if strayed:
        console.say(unchanged(strayed))
    else:
        console.show(f"{name} is at version {version:,}.")


def unchanged(strayed: str) -> str:
    """What is said of a book whose file came elsewhere while nothing was kept."""
    return f"{strayed} Nothing was changed in it here."


def _found_unshown(found: FoundAgain, begun: int | None = None) -> str:
    """What a book has if nobody may have read yet what the last command did."""
    is_one = begun is None or found.before == begun + 1
    if found.is_answered and found.version == found.before and is_one:
        return (
            f"The book was opened again: it is at version {found.version:,}, and what was changed"
            " last is in it."
        )
    return found_again(found, begun)


def found_again(found: FoundAgain, begun: int | None = None) -> str:
    """What a book that was opened again has of what wasn't answered before.

    Of many commands that one key asked for, those that were answered weren't shown yet.
    """
    at = f"The book was opened again: it is at version {found.version:,}"
    count, kept = found.unanswered, found.kept
    if begun is not None and begun < found.before and kept is not None:
        done = counted(found.version - begun, "change")
        return f"{at}. What was being done was stopped after {done}."
    if kept is None:
        look = " Look whether what was asked last is in it." if count else ""
        return (
            f"{at}, and was at {found.before:,} before: another program changed it"
            f" meanwhile.{look}"
        )
    if kept == 0:
        said = ", and what was asked last is not in it" if count else ""
        return f"{at}, as before{said}."
    if count == 1:
        return f"{at}, and what was asked last is in it."
    more = "1 is" if kept == 1 else f"{kept:,} are"
    return f"{at}. Of {count:,} commands that were not answered, {more} in it."


def is_gone(path: Path) -> bool:
    """Whether no file is at a path, which isn't known where that can't be looked at."""
    try:
        return not path.exists()
    except OSError:
        return False
