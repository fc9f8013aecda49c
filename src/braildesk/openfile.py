"""The file of a book that a session has open: whether it still is there and a book, and what is in it."""

import os
import stat
import time
from collections.abc import Iterator
from contextlib import contextmanager, suppress
from copy import copy
from dataclasses import dataclass, field
from pathlib import Path
from typing import BinaryIO
from zlib import crc32

from braildesk import program as programs
from braildesk.held import copy_held
from braildesk.opening import MAGIC, has_work, is_log, is_used
from braildesk.program import StrPath
from braildesk.protocol.sentences import of_failure
from braildesk.refusals import Failed, Unopened
from braildesk.watch import Watch
from braildesk.workshop import (
    MayNotLast,
    copy_bytes,
    create,
    give_access,
    made_beside,
    made_for_a_while,
    place_of,
    put,
)

#: So much of a file is summed up at most, in parts that lie evenly in a larger one.
_SUMMED, _PART = 1 << 21, 1 << 16
#: How long the times of a file may stay as they are while it is written, in nanoseconds.
_TICK = 2 * 10**9
#: How long a log is looked at that a program may be emptying, and how long one that has come to its
#: end takes at most until it gives up the file, in seconds.
_MOMENT, _LEAVING = 0.5, 1.0
#: The bytes of a log before its first page, and those before each page, which sum up all up to it.
_FRONT, _BEFORE_PAGE = 32, 24
_READ = os.O_RDONLY | os.O_NOFOLLOW | os.O_NONBLOCK | os.O_CLOEXEC


@dataclass(frozen=True)
class _Noted:
    """What a file was while the program waited: its size and times, the sum of what it held, and its log."""

    state: tuple[int, int, int]
    sum: int
    front: bytes | None
    #: Whether a later write may leave the times as they are, since their clock ticks so slowly.
    is_fresh: bool


@dataclass(frozen=True)
class _LogState:
    """What is another one once something was written into a log, also an earlier state of it."""

    size: int
    front: bytes
    #: Where the last page that was written begins, 0 if there is none, and the bytes before it.
    last: int
    summed: bytes
    #: How many commands of the session were kept by then.
    kept: int = field(default=0, compare=False)


class OpenFile:
    """A file that is held open beside the program, so that it is known when its name is taken away.

    What can't be looked at any more, as on a disk that was taken away, is said to be as it was: the
    program fails at it too.
    """

    def __init__(self, path: str) -> None:
        #: Where the path leads.
        self.path = path
        self._descriptor: int | None = None
        #: The disk that its folder is on.
        self._disk: int | None = None
        self._was_database = False
        #: The most bytes that were found in it.
        self._most = 0
        self._noted: _Noted | None = None
        #: Whether the program may have written into it since then, and at any time.
        self._is_lent = self._was_lent = False
        #: The log beside it, held open as well, and what it was while the program waited.
        self._log: int | None = None
        self._log_noted: _LogState | None = None
        #: Whether the program may have written into the log since then.
        self.is_log_lent = True
        #: Whether the log isn't as the program left it.
        self._is_log_foreign = False
        #: What tells that another program had the file open for writing, once it is needed.
        self._watch: Watch | None = None
        #: Whether the log was emptied into the file since that was last known to be sound.
        self._is_filled = False
        if os.path.isfile(self.path):
            try:
                # a pipe that stands there by now isn't waited for, nor is a link followed
                self._descriptor = os.open(self.path, _READ)
            except OSError:
                return  # the program says why
            with suppress(OSError):
                self._disk = os.stat(os.path.dirname(os.path.abspath(path))).st_dev
            self._was_database = self._is_database(self._descriptor)
            self._most = os.fstat(self._descriptor).st_size

    def fileno(self) -> int:
        """Its descriptor; ``ValueError`` where it is held no longer."""
        if self._descriptor is None:
            raise ValueError("the file is closed")
        return self._descriptor

    def again(self) -> "OpenFile":
        """The same file, held by itself, also once this one is closed."""
        other = copy(self)
        other._descriptor = other._log = other._watch = None
        if self._descriptor is not None:
            other._descriptor = os.dup(self._descriptor)
        return other

    def is_same(self, other: "OpenFile") -> bool:
        """Whether another one holds this file; if it holds none, whether this one has its name still."""
        if self._descriptor is None or other._descriptor is None:
            return self.is_at_its_path
        return os.path.sameopenfile(self._descriptor, other._descriptor)

    @property
    def is_at_its_path(self) -> bool:
        """Whether the file has its name still; True if there was none to be held, or nobody can tell."""
        return _is_at(self.path, self._descriptor)

    def is_at(self, path: str) -> bool:
        """Whether another path leads to the file by now."""
        return self._descriptor is not None and _is_at(path, self._descriptor)

    @property
    def is_disk_gone(self) -> bool:
        """Whether the file has a name on its disk still, and another disk is at its path by now."""
        if self._descriptor is None or self._disk is None:
            return False
        with suppress(OSError):
            folder = os.path.dirname(os.path.abspath(self.path))
            while not os.path.lexists(folder):
                folder = os.path.dirname(folder)
            is_other = os.lstat(folder).st_dev != self._disk
            has_name = os.fstat(self._descriptor).st_nlink > 0
            return is_other and has_name and self.moved_to is None
        return False

    @property
    def has_its_log(self) -> bool:
        """Whether the log has its name still, by which it is found if the program is stopped."""
        log = f"{self.path}-wal"
        return _may_be_log(log) if self._log is None else _is_at(log, self._log)

    @property
    def is_log_written_into(self) -> bool:
        """Whether others wrote into the log since it was noted, while the program waits."""
        noted = self._log_noted
        if self._is_log_foreign or self._log is None or noted is None:
            return self._is_log_foreign
        with suppress(OSError):
            return not self.is_log_lent and _log_state(self._log, noted.last) != noted
        return False

    @property
    def moved_to(self) -> str | None:
        """Where the file stands with its log by now, as in a folder that was renamed, if that is seen."""
        try:
            path = os.readlink(f"/proc/self/fd/{self._descriptor}")
        except OSError:
            return None
        is_whole = _is_at(path, self._descriptor) and _is_at(f"{path}-wal", self._log)
        return path if is_whole else None

    def note_log(self, kept: int = 0) -> None:
        """Notes the log, unless it is noted, while the program waits and writes nothing there.

        By then the session has kept so many commands.
        """
        if not self.is_log_lent or self._descriptor is None:
            return
        if self._log is None:
            with suppress(OSError):
                self._log = _opened_log(f"{self.path}-wal")
        with suppress(OSError):
            self._note_opened_log(kept)

    def _note_opened_log(self, kept: int) -> None:
        if self._log is not None:
            before = self._log_noted
            is_longer = before is not None and _has_part(self._log, before)
            last, commits = _last_page(self._log, before if is_longer else None)
            noted = _log_state(self._log, last, kept)
            if before is not None:
                added = kept - before.kept
                # a long command is written in several parts, of which each ends as a command does
                is_emptied = 1 <= _rounds(before, noted) <= added and commits > 0
                is_own = is_longer and commits >= added or is_emptied
                self._is_log_foreign |= not is_own
            # with how many commands were kept, whatever interrupts this
            self._log_noted = noted
            self.is_log_lent = False

    @property
    def is_overwritten(self) -> bool:
        """Whether the file began as a database does, and doesn't any more, or has become smaller.

        No program that uses it as one ever changes these bytes or makes the file smaller, whatever
        else it writes there.
        """
        if self._descriptor is None or not self._was_database:
            return False
        with suppress(OSError):
            size = os.fstat(self._descriptor).st_size
            self._most = max(self._most, size)
            return size < self._most or not self._is_database(self._descriptor)
        return False

    @property
    def is_used(self) -> bool:
        """Whether a program has the file open as a book, by its lock."""
        if self._descriptor is None:
            return False
        return is_used(self._descriptor)

    @property
    def is_used_further(self) -> bool:
        """Whether a program has the file open, and isn't just emptying the log at its end."""
        until = time.monotonic() + _LEAVING
        while self.is_used:
            if time.monotonic() > until:
                return True
            time.sleep(_LEAVING / 100)
        return False

    def note(self) -> None:
        """Notes what the file holds, while the program waits for a request and writes nothing."""
        if self._descriptor is not None and self._was_database:
            with suppress(OSError):
                self._noted = _noted(self._descriptor, self._front())
                self._is_lent = False

    def lend(self) -> None:
        """Says that the program gets a command, for which it may write into the file and the log."""
        self._begin_watch()
        self._is_lent = self.is_log_lent = True

    def _begin_watch(self) -> None:
        """Has the file watched before a command by which the log may be emptied into it.

        The first command of a session doesn't do that, unless something was in the log before.
        """
        noted = self._log_noted
        is_first = not self._was_lent and (noted is None or not noted.last)
        self._was_lent = True
        if self._watch is None and self._descriptor is not None and not is_first:
            with suppress(OSError):
                self._watch = Watch(self._descriptor)

    @property
    def is_doubtful(self) -> bool:
        """Whether another program may have written into the file while the log was emptied into it.

        What that one wrote doesn't show in the size, the times and the sum of the file.
        """
        if self._watch is None or not self._is_filled or not self._watch.was_written():
            return False
        self._is_filled = False
        return True

    @contextmanager
    def copied(self) -> Iterator[Path]:
        """A copy of the file and the log, while the program writes nothing there."""
        with made_for_a_while() as made, self.opened() as file:
            copy_held(file, f"{self.path}-wal", made)
            yield made

    @property
    def is_written_into(self) -> bool:
        """Whether others wrote into the file since it was noted, while the program waits.

        The program writes there to empty its log, which has another front then. Who touches the
        file, or changes its mode, changes its times alone.
        """
        noted, descriptor = self._noted, self._descriptor
        if noted is None or descriptor is None:
            return False
        with suppress(OSError):
            return self._is_other(noted, descriptor)
        return False

    def _is_other(self, noted: _Noted, descriptor: int) -> bool:
        front = self._front() if self._is_lent else noted.front
        is_same = (_state(descriptor), front) == (noted.state, noted.front)
        if is_same and not noted.is_fresh:
            return False
        front = self._front()
        self._noted, self._is_lent = _noted(descriptor, front), False
        is_emptied = front is None or front != noted.front
        self._is_filled |= is_emptied
        was, now = (noted.state[0], noted.sum), (self._noted.state[0], self._noted.sum)
        if is_emptied or was == now:
            return False
        # a program that has come to its end by itself may be emptying its log just now
        time.sleep(_MOMENT)
        return self._front() == front

    def _front(self) -> bytes | None:
        """The front of the log, which is another one once the log was emptied, and none if it isn't seen.

        A program has put it there before it answers, also in a log without a page.
        """
        try:
            with open(os.open(f"{self.path}-wal", _READ), "rb", buffering=0) as log:
                return log.read(_FRONT) or None
        except OSError:
            return None

    @staticmethod
    def _is_database(descriptor: int) -> bool:
        return os.pread(descriptor, len(MAGIC), 0) == MAGIC

    def opened(self) -> BinaryIO:
        """The file, to be read from its front, and closed."""
        return open(os.open(self.path, _READ), "rb")

    def save(self, program: StrPath | None, version: int, is_stopped: bool) -> str:
        """Puts what is in the file to a new path beside its own, once no program has it open.

        The version is the least that is in it, or in the log where the program was stopped.
        """
        assert self._descriptor is not None
        try:
            with made_beside(self.path) as made:
                with create(made) as written:
                    copy_bytes(self._descriptor, written.fileno())
                    os.fsync(written.fileno())
                    self._give_access(written)
                    saved = os.fstat(written.fileno())
                self._copy_log(made, is_stopped)
                found = _version(made, program)
                if found < version or has_work(f"{made}-wal"):
                    raise Failed("The program did not write all of it to its file.")
                return _put_beside(made, self.path, saved)
        except OSError as error:
            raise Failed(f"{of_failure(error)}.") from error

    def _copy_log(self, made: Path, is_stopped: bool) -> None:
        """Copies the log beside a copy of the file, if a program that was stopped left work there.

        Once it was emptied into the file it has no name, nor has one that others removed.
        """
        noted = self._log_noted
        has_own = self._was_lent or noted is not None and noted.last
        if self._log is None or not has_own:
            return
        if is_stopped or os.fstat(self._log).st_nlink:
            with create(Path(f"{made}-wal")) as written:
                copy_bytes(self._log, written.fileno())

    def save_text(self, text: str) -> str:
        """Puts a text to a new path beside the file."""
        assert self._descriptor is not None
        try:
            with made_beside(self.path) as made:
                with create(made) as written:
                    written.write(text.encode())
                    self._give_access(written)
                    saved = os.fstat(written.fileno())
                return _put_beside(made, self.path, saved, ".txt")
        except OSError as error:
            raise Failed(f"{of_failure(error)}.") from error

    def _give_access(self, file: BinaryIO) -> None:
        """Lets those at a file that may read and write this one.

        It is its owner's alone where the system says no more of this one, which is gone.
        """
        assert self._descriptor is not None
        with suppress(OSError):
            give_access(file.fileno(), self._descriptor)

    def put_log_by(self) -> str:
        """Gives the log beside the file a new path, unless it has no work; nothing where it stays.

        It goes with what the file held, and would damage what stands there now.
        """
        log = f"{self.path}-wal"
        try:
            if not has_work(log):
                return ""
            return _put_beside(Path(log), self.path, os.lstat(log), ".log")
        except OSError:
            return ""

    def close(self) -> None:
        """Holds the file and the log no longer."""
        for each in (self._descriptor, self._log):
            if each is not None:
                # a server that has ended is asked once more by that
                with suppress(OSError):
                    os.close(each)
        if self._watch is not None:
            self._watch.close()
        self._descriptor = self._log = self._watch = None


def _is_at(path: str, descriptor: int | None) -> bool:
    """Whether a file is at its path; True if there is none, or nobody can tell."""
    if descriptor is None:
        return True
    try:
        # by a link that stands there by now the log would be looked for in another place
        found = os.stat(path, follow_symlinks=False)
        return os.path.samestat(found, os.fstat(descriptor))
    except (FileNotFoundError, NotADirectoryError):
        return False
    except OSError:
        # a folder that may not be entered any more says nothing of its files
        return True


def _may_be_log(path: str) -> bool:
    """Whether what has the name of a log may be one; True if nothing has it, or nobody can tell."""
    try:
        return is_log(path)
    except OSError:
        return True


def _opened_log(path: str) -> int | None:
    """A log that is held open, none if something else has its name by now, as a folder or a pipe."""
    log = os.open(path, _READ)
    if stat.S_ISREG(os.fstat(log).st_mode):
        return log
    os.close(log)
    return None


def _log_state(log: int, last: int, kept: int = 0) -> _LogState:
    front, summed = os.pread(log, _FRONT, 0), os.pread(log, _BEFORE_PAGE, last)
    return _LogState(os.fstat(log).st_size, front, last, summed, kept)


def _last_page(log: int, before: _LogState | None) -> tuple[int, int]:
    """Where the last page of a log begins, 0 if it has none, and how many commands or parts of one end in it.

    They are looked for after what was in it before, if that is said.
    """
    front = os.pread(log, _FRONT, 0)
    if len(front) < _FRONT:
        return 0, 0
    # each page has its own number, which isn't 0, and that of the log before it
    number, step = front[16:24], _BEFORE_PAGE + int.from_bytes(front[8:12], "big")
    last, place, commits = 0, _FRONT, 0
    if before is not None and before.last:
        last, place = before.last, before.last + step
    while (page := os.pread(log, _BEFORE_PAGE, place))[8:16] == number:
        if page[:4] == bytes(4):
            break
        last, place = place, place + step
        # the last page of each has the size of the file
        commits += page[4:8] != bytes(4)
    return last, commits


def _has_part(log: int, before: _LogState) -> bool:
    """Whether a log has what it had before, to which more may have been added."""
    now = _log_state(log, before.last)
    is_same = (now.front, now.summed) == (before.front, before.summed)
    return is_same and now.size >= before.size


def _rounds(before: _LogState, now: _LogState) -> int:
    """How often a log was emptied; not at all if it is another one."""
    if len(now.front) < _FRONT or now.front[:12] != before.front[:12]:
        return 0
    first, last = (int.from_bytes(each.front[12:16], "big") for each in (before, now))
    # it is counted there, from the last number on that there is
    return (last + 1 - (first + 1) % 2**32) % (2**32 - 1)


def _state(descriptor: int) -> tuple[int, int, int]:
    """What is another one once something was written into a file: its size and its times."""
    found = os.fstat(descriptor)
    return found.st_size, found.st_mtime_ns, found.st_ctime_ns


def _noted(descriptor: int, front: bytes | None) -> _Noted:
    state = _state(descriptor)
    sum_of_all = _sum(descriptor, state[0])
    is_fresh = time.time_ns() - max(state[1:]) < _TICK
    return _Noted(state, sum_of_all, front, is_fresh)


def _sum(descriptor: int, size: int) -> int:
    """The sum of what a file holds."""
    found, step = 0, _PART * max(1, -(-size // _SUMMED))
    for place in range(0, size, step):
        found = crc32(os.pread(descriptor, _PART, place), found)
    return found


def _version(made: Path, program: StrPath | None) -> int:
    """The version of a book that was put beside its own path, which nobody has to know of."""
    try:
        return programs.check(made, program)
    except Unopened as failed:
        raise Failed("What was written there can't be opened.") from failed


def _put_beside(made: Path, path: str, like: os.stat_result, ending: str = "") -> str:
    """Puts a file beside a path, under a name that nothing has."""
    number = 1
    with place_of(path) as place:
        while True:
            saved = f"-saved-{number}{ending}"
            try:
                if not os.path.lexists(f"{path}{saved}-wal"):
                    put(made, place.beside(saved), like)
                    return path + saved
            except MayNotLast:
                # it is there, and nothing that is said of it speaks of a loss of power
                return path + saved
            except FileExistsError:
                pass
            number += 1
