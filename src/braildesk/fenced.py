"""The program, kept to the files of its book where other users may put others in their place.

The program opens a book by its path, after that was looked at. Who may write in a folder on the way
can put a link there meanwhile, by which it would write into any file of this user. So the system is
asked, by Landlock, to let it write into no other files than are seen here. A system that doesn't
have that runs it as it is.
"""

import errno
import os
import stat
import struct
from collections.abc import Callable, Iterable, Iterator
from contextlib import suppress
from subprocess import Popen
from threading import Event, Thread
from typing import TYPE_CHECKING

from braildesk.held import alone
from braildesk.opening import MAGIC, has_page
from braildesk.protocol.asked import AskedOfFile, NewBook, TableFile
from braildesk.workshop import place_of
from braildesk.writers import has_more_writers

if TYPE_CHECKING:
    from ctypes import CDLL

#: The calls of the system, by the numbers that they have on all usual machines.
_CREATE_RULESET, _ADD_RULE, _RESTRICT_SELF = 444, 445, 446
_ASK_VERSION, _RULE_OF_PATH, _PR_SET_NO_NEW_PRIVS = 1, 1, 38
#: What may be allowed: to write into a file, to make one, and to cut one, which only later systems know.
_WRITE, _MAKE, _CUT = 1 << 1, 1 << 8, 1 << 14
_KNOWS_CUT = 3
#: How the rights of all rules are given, and those of a rule, with the descriptor that it is about.
_RIGHTS, _RULE = struct.Struct("=Q"), struct.Struct("=Qi")
#: The parts of a mode that let others than the owner write.
_OF_OTHERS = stat.S_IWGRP | stat.S_IWOTH


def started(asked: AskedOfFile, start: Callable[[], Popen[bytes]]) -> Popen[bytes]:
    """A program that is given the path of a book, and may write into the files of that book alone.

    ``start`` is called in another thread where somebody else may put something in the place of the
    book. What it starts can't be made to end with the thread that started it.
    """
    if isinstance(asked, TableFile) or not may_be_replaced(asked):
        return start()
    fence = _fence(asked)
    return start() if fence is None else _started_within(fence, start)


def is_known() -> bool:
    """Whether the system can keep a program to some files."""
    return _version(_library()) > 0


def may_be_replaced(asked: AskedOfFile) -> bool:
    """Whether another user may put something in the place of a file, or of a folder on the way to it."""
    try:
        real = asked.real
        # links on the way may lie in any folder
        return real != os.path.abspath(asked.path) or may_be_swapped(
            os.path.dirname(real)
        )
    except (OSError, ValueError):
        return True


def may_be_swapped(folder: str) -> bool:
    """Whether others may write in a folder, or put another one in its place."""
    found = os.stat(folder)
    is_shared = bool(found.st_mode & _OF_OTHERS)
    while not is_shared and found.st_uid in (0, os.geteuid()):
        if folder == os.path.dirname(folder):
            return False
        folder = os.path.dirname(folder)
        found = os.stat(folder)
        # in a sticky one only their owners rename folders
        is_sticky = bool(found.st_mode & stat.S_ISVTX)
        is_shared = not is_sticky and bool(found.st_mode & _OF_OTHERS)
    return True


def _fence(asked: AskedOfFile) -> int | None:
    """What the system lets through: the files of a book; None if it can't be asked for that."""
    library = _library()
    version = _version(library)
    if version <= 0:
        return None
    rights = _WRITE | _MAKE | (_CUT if version >= _KNOWS_CUT else 0)
    given = _RIGHTS.pack(rights)
    fence: int = library.syscall(_CREATE_RULESET, given, len(given), 0)
    if fence < 0:
        return None
    for descriptor, may in _let_through(asked):
        rule = _RULE.pack(may & rights, descriptor)
        if library.syscall(_ADD_RULE, fence, _RULE_OF_PATH, rule, 0):
            os.close(fence)
            return None
    return fence


def _let_through(asked: AskedOfFile) -> Iterator[tuple[int, int]]:
    """The descriptors of files, or of a folder, with what may be done there.

    A file that could not be a book's, by what is seen of it in this moment, isn't among them.
    """
    with suppress(OSError), open(os.devnull, "rb") as null:
        yield null.fileno(), _WRITE | _CUT
    with suppress(OSError), place_of(asked.real) as place:
        if isinstance(asked, NewBook):
            yield place.folder, _WRITE | _MAKE | _CUT
            return
        with alone(place.folder, place.name) as file:
            with alone(place.folder, place.beside("-wal").name) as log:
                is_begun = os.pread(file.fileno(), len(MAGIC), 0) == MAGIC
                is_book = is_begun or has_page(os.fstat(log.fileno()).st_size)
                if is_book and not has_more_writers(log, file):
                    yield file.fileno(), _WRITE | _CUT
                    yield log.fileno(), _WRITE | _CUT


def _started_within(fence: int, start: Callable[[], Popen[bytes]]) -> Popen[bytes]:
    """What is started in a thread that the fence is around, as it is then around that program alone.

    If this is interrupted, as by Ctrl-C, the program is ended.
    """
    outcome: list[Popen[bytes] | BaseException] = []
    is_over, is_given_up = Event(), Event()

    def begin() -> None:
        try:
            _stay_within(fence)
            os.close(fence)
            outcome.append(start())
        except BaseException as error:
            outcome.append(error)
        is_over.set()
        if is_given_up.is_set():
            _end(outcome)

    try:
        Thread(target=begin, daemon=True).start()
        is_over.wait()
    except RuntimeError:
        os.close(fence)
        # as where a process can't be begun
        raise OSError(errno.EAGAIN, os.strerror(errno.EAGAIN)) from None
    except BaseException:
        is_given_up.set()
        if is_over.is_set():
            _end(outcome)
        raise
    (begun,) = outcome
    if isinstance(begun, BaseException):
        raise begun
    return begun


def _end(outcome: Iterable[Popen[bytes] | BaseException]) -> None:
    """Ends a program that nobody waits for."""
    for each in outcome:
        if isinstance(each, Popen):
            each.kill()
            with each:
                pass


def _stay_within(fence: int) -> None:
    """Puts the fence around this thread and what it starts, for good, if the system has it."""
    library = _library()
    library.prctl(_PR_SET_NO_NEW_PRIVS, 1, 0, 0, 0)
    library.syscall(_RESTRICT_SELF, fence, 0)


def _version(library: "CDLL") -> int:
    """Which version of Landlock the system has; none if it is less than 1."""
    try:
        return int(library.syscall(_CREATE_RULESET, None, 0, _ASK_VERSION))
    except AttributeError:
        return 0


def _library() -> "CDLL":
    import ctypes  # which few sessions need

    return ctypes.CDLL(None)
