"""How a command and the process of scribe end: by a status, or by a signal that told it to end.

Whatever happens, somebody reads a sentence about it, and no status says more than is so.
"""

import os
import signal
import sys
import time
from argparse import Namespace
from collections.abc import Callable, Iterator
from contextlib import contextmanager, suppress
from dataclasses import dataclass
from functools import partial
from pathlib import Path
from types import FrameType
from typing import NoReturn

from braildesk.text.characters import visible
from braildesk.version import version

from scribe.words.console import Console, OutputFailed, width_of_output
from scribe.words.status import Interrupted, Status, number_of, stopped_by

_DETAILS = "fault.txt"
_SIGNALS = (
    signal.SIGINT,
    signal.SIGTERM,
    signal.SIGHUP,
    signal.SIGQUIT,
    signal.SIGXCPU,
)
#: When a signal comes again that was dropped, in seconds.
_SOON = 0.01
#: When none of its modules was imported yet, in seconds of the clock.
_BEGAN = time.time() - 1
#: What holds the modules of the beginning where a book is open for long.
_HOLDER = "scribe.cli.own_modules"
_IN_THE_BOOK = "What was reported as kept is in the book, and what was asked after that may be there too."
_NOTHING_CHANGED = "No book was changed."
_NOTHING_DONE = "Nothing was done."


def ended(
    run: Callable[[], int],
    may_change: Callable[[], bool],
    width: Callable[[], int | None] = width_of_output,
) -> int:
    """What a run of the process ends with: its status, if no signal ends the process first.

    Whether it may have changed a book, and how wide a line is, is asked where something has to be said.
    """
    say = partial(say_last, width=width)
    open_closed()
    try:
        _take_signals()
        status = _status(run, may_change, say)
        _leave_signals()
    except KeyboardInterrupt as cause:
        _end_by_signal(cause, may_change, say)
        return Status.FAILED
    return status


def leave(status: int) -> NoReturn:
    """Ends the process at once, since to take all apart that was made takes as long as some commands."""
    for stream in (sys.stdout, sys.stderr):
        # one that was closed at the beginning isn't there
        if stream is not None:
            try:
                stream.flush()
            except OSError:
                # Python would say so in words of its own, and end with 120
                status = Status.FAILED
    os._exit(status)


def _status(
    run: Callable[[], int],
    may_change: Callable[[], bool],
    say: Callable[[str], None],
) -> int:
    try:
        return run()
    except OutputFailed as failed:
        said = "" if failed.reader_left else _of_output(failed, may_change)
        for sentence in filter(None, (said, *lost_besides(failed))):
            say(sentence)
    except Exception as fault:
        if isinstance(fault.__cause__, KeyboardInterrupt):
            # Python makes a fault of a signal that comes while a class is made
            raise fault.__cause__ from None
        kept = _kept_at(fault, may_change)
        try:
            said = of_fault(fault, kept)
        except Exception:
            # what it needs can't be read, as if no file more may be open
            said = f"scribe stopped ({type(fault).__name__}: {fault}). {kept}"
        say(said)
    return Status.FAILED


def lost_besides(failure: BaseException) -> tuple[str, ...]:
    """What is said of a session that was lost as something else ended it, if one was.

    Or that nothing was done, where it was stopped before.
    """
    return tuple(getattr(failure, "__notes__", ()))


def _kept_at(failure: BaseException, may_change: Callable[[], bool]) -> str:
    """What is in the book after an end that nobody foresaw, or where it is if it was lost."""
    return " ".join(lost_besides(failure)) or _in_the_book(may_change)


def _in_the_book(may_change: Callable[[], bool]) -> str:
    """What is in the book after an end that nobody foresaw."""
    return _IN_THE_BOOK if _may_have_changed(may_change) else _NOTHING_CHANGED


def _of_output(failed: OutputFailed, may_change: Callable[[], bool]) -> str:
    """That no more can be written, and what was kept, where something may have been."""
    kept = failed.kept if _may_have_changed(may_change) else ""
    return f"{failed.sentence} {kept}".rstrip()


def _may_have_changed(may_change: Callable[[], bool]) -> bool:
    """Whether a book may have been changed."""
    # where even this fails, as without memory, nobody knows it
    with suppress(Exception):
        return may_change()
    return True


@contextmanager
def not_begun() -> Iterator[None]:
    """Has it be said that nothing was done if it is stopped here, before a command does anything."""
    try:
        yield
    except KeyboardInterrupt as cause:
        if _NOTHING_DONE not in lost_besides(cause):
            cause.add_note(_NOTHING_DONE)
        raise


@contextmanager
def made_or_not(console: Console, path: Path, made: str, left: str) -> Iterator[None]:
    """Says if the work is stopped by which a file is made whether it is there, and whole.

    That is another file than stood there before, or has something where that had nothing. Else it is
    said what is so of that file.
    """
    before = _found(path)
    try:
        yield
    except KeyboardInterrupt as cause:
        said = made
        if _found(path) == before:
            said = left if before else "Nothing was made."
        console.say(f"{stopped_by(cause)} {said}")
        raise Interrupted.after(cause) from cause


def _found(path: Path) -> tuple[int, int, bool] | None:
    """Which file stands at a path, if one does, and whether it has anything."""
    try:
        found = os.stat(path)
    except (OSError, ValueError):
        return None
    return found.st_dev, found.st_ino, found.st_size > 0


def said_of(
    failure: Exception, arguments: Namespace
) -> tuple[Status, list[str]] | None:
    """The status and what is said if a command fails; None for an exception that nobody foresaw."""
    # imported here, since a command that only shows its help doesn't need the client
    from braildesk import CannotOpen, DeskError, Failed, Lost, NoProgram, Why
    from scribe.words.aftermath import after_loss

    match failure:
        case Lost():
            return Status.FAILED, after_loss(arguments.file, failure)
        case CannotOpen(why=Why.READ_ONLY | Why.NO_ROOM | Why.OVER_QUOTA):
            # the disk is why, and not what was asked
            return Status.FAILED, [failure.sentence]
        case Failed() | NoProgram():
            return Status.FAILED, [failure.sentence]
        case DeskError():
            return Status.REFUSED, [failure.sentence]
    return None


def open_closed() -> None:
    """Opens standard input, output and errors on nothing if they are closed.

    Else the next file that is opened would be taken for one of them.
    """
    for number in range(3):
        try:
            os.fstat(number)
        except OSError:
            os.open(os.devnull, os.O_RDWR)


def of_fault(fault: Exception, kept: str) -> str:
    """What is said of an exception that nobody expected, and of what was kept before it.

    Its details are kept in a file.
    """
    if isinstance(fault, MemoryError):
        return (
            f"There was no memory for this. {kept} Close other programs, and try again."
        )
    if _is_replaced():
        return (
            "scribe was installed anew or taken away while it ran, and stopped"
            f" ({type(fault).__name__}). {kept} Try again."
        )
    import traceback  # which nobody hopes for

    last = traceback.extract_tb(fault.__traceback__)[-1:]
    places = [f", {Path(each.filename).name} line {each.lineno}" for each in last]
    what = f"scribe has a fault of its own and stopped ({type(fault).__name__}{''.join(places)})."
    try:
        path = _kept(fault)
    except OSError as error:
        from braildesk.protocol.sentences import of_failure  # as above

        return (
            f"{what} {kept} Please report it. Its details could not be written to a file:"
            f" {of_failure(error)}."
        )
    return f"{what} {kept} Please report it with its details, which are in {path}."


def _is_replaced() -> bool:
    """Whether a module of scribe was put in place, or taken away, after it was imported here.

    Not where those of the beginning are held, so that all are of one version.
    """
    if any(type(each).__module__ == _HOLDER for each in sys.meta_path):
        return False
    for name, module in tuple(sys.modules.items()):
        path = getattr(module, "__file__", None)
        if path and name.partition(".")[0] in ("braildesk", "scribe"):
            try:
                if os.stat(path).st_ctime > _BEGAN:
                    return True
            except FileNotFoundError:
                return True
            except OSError:
                # of what can't be looked at, as in an archive, nothing is known
                continue
    return False


def say_last(sentence: str, width: Callable[[], int | None] = width_of_output) -> None:
    """Says a sentence if standard error is there, and nothing else may be."""
    lines = _in_lines(visible(sentence), width)
    with suppress(OSError):
        os.write(2, lines.encode(errors="backslashreplace"))


def _in_lines(sentence: str, width: Callable[[], int | None]) -> str:
    """A sentence in lines of a width, or as it is where even this fails."""
    lines = [sentence]
    with suppress(Exception):
        # imported here, since few runs end so
        from braildesk.text.wrapping import wrap

        columns = width()
        lines = lines if columns is None else wrap(sentence, columns)
    return "".join(f"{line}\n" for line in lines)


def _kept(fault: Exception) -> Path:
    """The file in which the details of a fault are kept, in place of those of the last one."""
    command = " ".join(sys.argv[1:2])
    about = visible(f"scribe {version()} {command}, Python {sys.version}")
    import traceback
    from braildesk.desk.own_folder import OwnFolder
    from braildesk.desk.own_folder import state_folder

    lines = "".join(traceback.format_exception(fault))
    folder = OwnFolder(state_folder())
    folder.write(_DETAILS, f"{about}\n{lines}".encode(errors="backslashreplace"))
    return folder.path / _DETAILS


def _take_signals() -> None:
    """Has signals that end a process end it in order, unless it was started to ignore them."""
    for number in _SIGNALS:
        if signal.getsignal(number) in (signal.SIG_DFL, signal.default_int_handler):
            signal.signal(number, _interrupted)
    sys.unraisablehook = _dropped


def _leave_signals() -> None:
    """Has signals end the process as the system does, once nothing is left to be said."""
    again = signal.getsignal(signal.SIGALRM)
    if isinstance(again, _Again) and signal.setitimer(signal.ITIMER_REAL, 0)[0]:
        # one that was dropped a moment ago
        again()
    for number in _SIGNALS:
        if signal.getsignal(number) is _interrupted:
            signal.signal(number, signal.SIG_DFL)


def _interrupted(number: int, frame: FrameType | None) -> None:
    """What a signal does: the first one stops the work, and no second one cuts short its end."""
    for each in _SIGNALS:
        if signal.getsignal(each) is _interrupted:
            signal.signal(each, _nothing)
    # Python may lose what is raised where it comes to a timer's signal before that is caught
    signal.setitimer(signal.ITIMER_REAL, 0)
    raise Interrupted(signal.Signals(number))


@dataclass(frozen=True, eq=False, repr=False)
class _Again:
    """Has a signal come again."""

    number: signal.Signals

    def __call__(self, *_: object) -> None:
        raise Interrupted(self.number)


def _dropped(dropped: "sys.UnraisableHookArgs") -> None:
    """Has a signal come again that came where Python drops what is raised, as at the end of an object."""
    cause = dropped.exc_value
    if not isinstance(cause, Interrupted):
        sys.__unraisablehook__(dropped)
        return
    # not by itself, since it would be dropped here
    signal.signal(signal.SIGALRM, _Again(cause.number))
    signal.setitimer(signal.ITIMER_REAL, _SOON)


def _nothing(number: int, frame: FrameType | None) -> None:
    """What a signal does while scribe ends by an earlier one."""


def _end_by_signal(
    cause: KeyboardInterrupt,
    may_change: Callable[[], bool],
    say: Callable[[str], None],
) -> None:
    """Says what is so, unless it was said, and ends the process by the signal that stopped it."""
    if not (isinstance(cause, Interrupted) and cause.is_said):
        say(f"{stopped_by(cause)} {_kept_at(cause, may_change)}")
    number = number_of(cause)
    signal.signal(number, signal.SIG_DFL)
    os.kill(os.getpid(), number)
