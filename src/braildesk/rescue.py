"""What became of the file of a session's book, and what is saved of the book where that isn't well."""

import os
from collections.abc import Callable
from threading import Event, Lock, Thread
from typing import TypeVar

from braildesk import program as programs
from braildesk.openfile import OpenFile
from braildesk.opening import take_shared
from braildesk.program import StrPath
from braildesk.protocol.asked import BookFile, log_path
from braildesk.protocol.sentences import Why
from braildesk.refusals import CannotOpen, DeskError, Refused
from braildesk.text.characters import shortened

_Done = TypeVar("_Done")
#: What is said where a command wasn't kept and what others wrote has spoiled the files besides.
NOT_ALL_THERE = (
    "What was reported as kept isn't all in the book's file and its log: another program wrote into"
    " them while the book was open. Copy what you typed last, and look at the book before you go on."
)
#: Why a copy of a book's files isn't opened, whatever is in them.
_UNTOLD = frozenset(
    {
        Why.DENIED,
        Why.LOG_DENIED,
        Why.LOG_OPEN,
        Why.LOG_OPEN_TO_READ,
        Why.LOG_STAYS,
        Why.LOG_READ,
        Why.READ_ONLY,
        Why.NO_ROOM,
        Why.OVER_QUOTA,
        Why.IN_USE,
        Why.REPLACED,
        Why.LOG_IN_USE,
        Why.NO_LOCKS,
        Why.UNKNOWN,
    }
)


class Rescue:
    """Says what became of the file of a book that is open, and saves what would be lost by that."""

    def __init__(self, book: BookFile, file: OpenFile, program: StrPath | None) -> None:
        self._book = book
        self._file = file
        self._program = program

    def gone(self) -> str:
        """That the file isn't at its path any more."""
        is_replaced = os.path.lexists(self._file.path)
        what = "another one was put there" if is_replaced else "it was removed or moved"
        if self._file.is_disk_gone:
            what = "its disk was taken away from there"
        # from a folder that was renamed it is found still by a path that begins there
        is_found = self._file.is_at(self._book.path)
        path = self._file.path if is_found else self._book.path
        return f"The file of the book is no longer at {_shown(path)}: {what} while it was open."

    def written_over(self) -> str:
        """That others wrote into the file, or into the log."""
        if self._file.is_log_written_into:
            return (
                f"Another program wrote into the log of the book, {self._shown_log()}, while it was"
                " open: what was kept last may not be there any more."
            )
        return (
            f"Another program wrote into the file of the book, {_shown(self._book.path)}, while it"
            " was open: it isn't that book any more."
        )

    def set_back(self, version: int, before: int) -> tuple[str, str]:
        """That others wrote into the file while it was closed, which has an earlier version by that."""
        cause = (
            f"Another program wrote into the file of the book, {_shown(self._book.path)}, while it was"
            f" closed: it is at version {version:,} now, and was at {before:,} before."
        )
        return cause, (
            "What was kept before isn't all there any more. Copy what you typed last, and look at what"
            " stands there before you go on."
        )

    def without_log(self) -> str:
        """That the log isn't at its path any more, once all of it is in the file."""
        return (
            f"The log of the book, {self._shown_log()}, was removed or replaced while it was open. So"
            " the session was ended, by which what was in the log came into the book's file."
        )

    def has(self, version: int) -> bool:
        """Whether the file and its log have a version, once the program has ended.

        That is so as far as it can be told.
        """
        try:
            with self._file.opened() as file:
                if not take_shared(file):
                    # another session has it by now, and may have written there
                    return True
                with self._file.copied() as copied:
                    return programs.check(copied, self._program) >= version
        except Refused as refused:
            return says_nothing(refused)
        except (OSError, DeskError, ValueError):
            # nobody can tell, as if no copy can be made of it, or the program answers something else
            return True

    def all_saved(self, version: int, is_stopped: bool) -> tuple[str | None, str]:
        """The file that has all of a book whose own isn't at its path, and what is said of it.

        That is a new one; or its own, if no new one can be made and that was moved with its folder.
        The version is the least that the book has. Its program may have been stopped, by which work is
        left in the log.
        """
        try:
            saved = self._file.save(self._program, version, is_stopped)
        except DeskError as failed:
            moved = self._file.moved_to
            if moved is not None and self._is_whole(moved, version):
                return moved, (
                    f"It is at {_shown(moved)} now, and has all of the book, with what was kept"
                    " last. Go on there."
                )
            return None, (
                "What was kept last isn't at that path, and it could not be saved in a new file:"
                f" {failed.sentence} Copy what you typed last."
            )
        kept = f"All of the book, with what was kept last, is in the new file {_shown(saved)}"
        if self._file.is_disk_gone:
            return saved, (
                f"{kept}, which isn't on that disk. Move it to another folder before you go on: it is"
                " hidden once that disk is there again."
            )
        return saved, (
            f"{kept}. Go on with that one, or look first what is at the old path by now."
        )

    def _is_whole(self, path: str, version: int) -> bool:
        """Whether the file, which is at another path by now, has a version."""
        try:
            return programs.check(path, self._program) >= version
        except DeskError as failed:
            return isinstance(failed, Refused) and says_nothing(failed)

    def print_saved(self, all_print: Callable[[], str]) -> str:
        """Saves the print of a book whose file was written into, and says where it is.

        The program, which goes on meanwhile, keeps others from opening what stands there.
        """
        try:
            saved = self._file.save_text(all_print())
            kept = (
                "The print of all paragraphs, with what was kept last, is in the new file"
                f" {_shown(saved)}. Go on with a copy of the book, and import from that file what it"
                " lacks."
            )
        except DeskError as failed:
            kept = (
                "What was kept last isn't safe there, and its print could not be saved in a new"
                f" file: {failed.sentence} Copy what you typed last."
            )
        # while nobody else can open what stands there, and put the log into it
        log = "" if self._file.is_log_written_into else self._file.put_log_by()
        if log:
            kept += f" The log of what stood there before is now {_shown(log)}."
        return kept

    def _shown_log(self) -> str:
        return _shown(log_path(self._book.path))


def unstopped(act: Callable[[], _Done], stops: list[KeyboardInterrupt]) -> _Done:
    """What something gives that is done in another thread, since Ctrl-C and the like stop only this one.

    What would have stopped it is noted.
    """
    done, failed = list[_Done](), list[BaseException]()
    is_begun, is_over = Lock(), Event()

    def do() -> None:
        # once, also where the beginning of a thread was stopped
        if is_begun.acquire(blocking=False):
            try:
                done.append(act())
            except BaseException as error:
                failed.append(error)
            is_over.set()

    while not is_over.is_set():
        try:
            if not is_begun.locked():
                Thread(target=do).start()
            is_over.wait()
        except RuntimeError:
            # where no thread can be begun
            do()
        except KeyboardInterrupt as stop:
            stops.append(stop)
    for error in failed:
        raise error
    return done[0]


def says_nothing(refused: Refused) -> bool:
    """Whether a copy of a book's files was refused for something that isn't in it."""
    return isinstance(refused, CannotOpen) and refused.why in _UNTOLD


def _shown(path: str) -> str:
    return shortened(path, len(path))
