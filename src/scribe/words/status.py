"""How a command ends, and what is said of what wasn't done, or the system refused or failed to do."""

import enum
import errno
import os
import signal
import stat
from collections.abc import Callable, Iterable, Iterator
from contextlib import contextmanager
from pathlib import Path
from typing import TYPE_CHECKING

from braildesk.desk import Problem

if TYPE_CHECKING:
    from braildesk.desk.whole_file import AnotherIsThere

_IN_THE_BOOK = " What was reported as kept is in the book."
#: The same where the folder is gone in which the book may have been.
_UNLESS_THERE = " What was reported as kept is in the book, unless that was in it."
_OF_DISK = (errno.ENOSPC, errno.EDQUOT, errno.EROFS, errno.EIO, errno.ESTALE)


class Status(enum.IntEnum):
    """The exit status of a command."""

    DONE = 0
    WORDS_REFUSED = 1
    REFUSED = 2
    FAILED = 3


class Stop(Exception):
    """A command can't go on: the sentence that is said, and the status with which it ends.

    What comes after the sentence stands on lines of its own.
    """

    def __init__(
        self, sentence: str, status: Status = Status.REFUSED, more: Iterable[str] = ()
    ) -> None:
        self.lines = (sentence, *more)
        self.sentence = "\n".join(self.lines)
        self.status = status
        super().__init__(self.sentence)


class Interrupted(KeyboardInterrupt):
    """A signal told scribe to end, between any two of its steps.

    What was begun is ended in order, as after Ctrl-C, and the process ends by the same signal, so
    that a loop of a shell stops too.
    """

    def __init__(self, number: signal.Signals, is_said: bool = False) -> None:
        super().__init__(number)
        self.number = number
        #: Whether it was said already what became of the work.
        self.is_said = is_said

    @classmethod
    def after(cls, cause: KeyboardInterrupt) -> "Interrupted":
        """The one that ends scribe after it was said what became of the work."""
        return cls(number_of(cause), is_said=True)


def number_of(cause: KeyboardInterrupt) -> signal.Signals:
    """The signal that stopped the work, which is that of Ctrl-C if nothing else says so."""
    return cause.number if isinstance(cause, Interrupted) else signal.SIGINT


def stopped_by(cause: KeyboardInterrupt) -> str:
    """That the work was stopped, in a sentence."""
    number = number_of(cause)
    if number is signal.SIGINT:
        return "Stopped."
    # imported here, since few commands are stopped
    from braildesk.protocol.sentences import ENDED_BY

    return f"Stopped by {ENDED_BY.get(number, number.name)}."


def not_loaded(missing: ImportError, module: str, sentence: str) -> Stop:
    """Stops since something can't be imported: by a sentence, if a module of others isn't installed."""
    is_there = not isinstance(missing, ModuleNotFoundError)
    if is_there or (missing.name or "").partition(".")[0] != module:
        sentence = f"What is needed here can't be loaded ({missing})."
    return Stop(sentence, Status.FAILED)


@contextmanager
def in_sentences(may_change: Callable[[], bool] = lambda: True) -> Iterator[None]:
    """Stops by a sentence at a problem, and if the system refuses something.

    A person may go on after it. Where no book may be changed by what is done, it isn't spoken of what
    is in one.
    """
    try:
        yield
    except Problem as problem:
        # the sentences are imported when one is needed
        from scribe.words.problems import as_stop

        raise as_stop(problem) from problem
    except OSError as failure:
        said = of_system(failure, _IN_THE_BOOK if may_change() else "")
        raise Stop(said, Status.FAILED) from failure


def of_system(failure: OSError, kept: str = _IN_THE_BOOK) -> str:
    """What a person reads of a failure that no command has a sentence of its own for.

    After it is said what was kept.
    """
    if _is_nowhere():
        known = _UNLESS_THERE if kept else ""
        return (
            f"The folder in which scribe was started is gone.{known} Go to another folder, and name"
            " files from there."
        )
    names = (failure.filename, failure.filename2)
    # in place of a name there may be a descriptor
    paths = [each for each in names if isinstance(each, (str, bytes, os.PathLike))]
    named = " and ".join(f"“{os.fsdecode(each)}”" for each in paths)
    # imported here and below, since little fails
    from braildesk.protocol.sentences import of_failure

    why = of_failure(failure) or type(failure).__name__
    what = f"{named} could not be read or written" if named else "The system failed"
    return f"{what}: {why}.{kept}"


def is_of_disk(failure: Exception) -> bool:
    """Whether a disk is why something wasn't done, and not what was asked."""
    return isinstance(failure, OSError) and failure.errno in _OF_DISK


def status_of(failure: OSError) -> Status:
    """The status if a file can't be written: what stands in its place may be why."""
    from braildesk.desk.whole_file import NoPlaceForAFile

    is_taken = isinstance(failure, (NoPlaceForAFile, IsADirectoryError))
    return Status.REFUSED if is_taken else Status.FAILED


def file_not_written(file: Path, failure: OSError) -> Stop:
    """Why a file isn't written."""
    from braildesk.protocol.sentences import of_failure

    said = f"{file} could not be written: {of_failure(failure)}."
    return Stop(said, status_of(failure))


def may_not_last(file: Path, failure: OSError) -> str:
    """What is so of a file whose name may not outlast a loss of power."""
    from braildesk.protocol.sentences import of_failure

    return (
        f"{file} is written, but its folder could not be brought to the disk:"
        f" {of_failure(failure)}. After a loss of power the older file may be there."
    )


def left_there(path: Path, there: "AnotherIsThere", what: str) -> str:
    """That what stands at a path wasn't replaced; `what` is what a file there isn't."""
    if there.leads_to is not None:
        return (
            f"{path} is a link to {there.leads_to}, and was left as it is; --overwrite puts a file in"
            " place of the link, and leaves what it leads to."
        )
    its = f"is there already and is no {what}"
    if not stat.S_ISREG(there.mode):
        its = f"is {'a pipe' if stat.S_ISFIFO(there.mode) else 'no file'}"
    return f"{path} {its}, so it was left as it is; --overwrite replaces it."


def _is_nowhere() -> bool:
    """Whether the folder of this process was removed."""
    try:
        os.getcwd()
    except FileNotFoundError:
        return True
    except OSError:
        return False
    return False
