"""What may be refused: requests of a session, and files and lines of print beside them.

Where the program finds the file of a book, its log and another program's journal is said here too.
"""

import errno
import os
from contextlib import suppress
from dataclasses import dataclass, field
from os import PathLike, fspath
from pathlib import PosixPath
from typing import TYPE_CHECKING, Any, Self, TypeAlias

from braildesk.protocol.sentences import Why
from braildesk.protocol.value import Value

if TYPE_CHECKING:
    from braildesk.protocol.requests import Request

#: How often it is tried to find where a path leads.
_TRIES = 10


@dataclass(frozen=True, eq=False, repr=False)
class PrintLine(Value):
    """A line of print that was to be translated."""

    table: str
    text: str


@dataclass(frozen=True, eq=False, repr=False)
class AskedOfFile(Value):
    """What names a file."""

    path: str
    #: Where the path led when it was first looked at; nothing if that isn't known.
    led_to: str = field(default="", kw_only=True, compare=False)
    #: Whether it was to be read, and nothing to be written there or beside it.
    is_read: bool = field(default=False, kw_only=True, compare=False)

    @property
    def real(self) -> str:
        """Where the path leads, whatever link is put there after it was looked at."""
        return self.led_to or real_path(self.path)

    @property
    def log(self) -> str:
        """The log beside the file."""
        return f"{self.real}-wal"

    @property
    def is_led_away(self) -> bool:
        """Whether a link was put on the way to the file after that was looked at."""
        return bool(self.led_to) and real_path(self.led_to) != self.led_to


class BookFile(AskedOfFile):
    """The file of a book."""

    @classmethod
    def of(cls, path: str | PathLike[str]) -> Self:
        """The file of a path, from now on where that leads by now."""
        return cls(fspath(path), led_to=seen(path).led_to)


class NewBook(AskedOfFile):
    """The file of a book that was to be made."""


@dataclass(frozen=True, eq=False, repr=False)
class TableFile(AskedOfFile):
    """The file of a table, with its text if that could be read."""

    text: bytes = b""
    is_read: bool = field(default=True, kw_only=True, compare=False)


@dataclass(frozen=True, eq=False, repr=False)
class Pages(AskedOfFile):
    """A volume of a book that was to be written as pages."""

    volume: int
    width: int
    lines: int


#: Anything that may be refused.
Asked: TypeAlias = "Request[Any] | PrintLine | AskedOfFile"


@dataclass(frozen=True, slots=True, eq=False, repr=False)
class Refusal(Value):
    """A code with its numbers, and what was asked."""

    code: int
    asked: Asked
    place: int | None = None
    line: int | None = None
    cause: int | None = None
    paragraph: int | None = None
    limit: int | None = None
    version: int | None = None
    cell: int | None = None
    table: int | None = None
    id: int | None = None
    #: Why a file can't be opened, or be written further.
    why: Why = Why.UNKNOWN
    #: The print or the braille of the paragraph, if it was looked up for the sentence.
    shown: str | None = None
    #: How many paragraphs the book has, if that was looked up for the sentence.
    count: int | None = None
    #: For how many bytes there is room on the disk, if that was looked up and is little.
    room: int | None = None


class SeenPath(PosixPath):
    """A path with where it led when it was looked at, which no path that is made of it has."""

    led_to = ""
    #: A link of another user by which it leads there, and where that leads.
    link = "", ""

    @classmethod
    def of(cls, path: str | PathLike[str], led_to: str) -> Self:
        """A path of which it is known where it leads."""
        found = cls(path)
        found.led_to = led_to
        return found


def seen(path: str | PathLike[str]) -> SeenPath:
    """A path that was looked at, now unless it was before."""
    if isinstance(path, SeenPath) and path.led_to:
        return path
    try:
        return SeenPath.of(path, real_path(fspath(path)))
    except (OSError, ValueError):
        # why it leads nowhere is said where it is opened
        return SeenPath(path)


def real_path(path: str) -> str:
    """Where a path leads, with no link in it: the program takes a book's file from there.

    A link that another user exchanges for a file in that moment is no link any more as it is read.
    """
    for _ in range(_TRIES):
        with suppress(OSError):
            return os.path.realpath(path)
    return os.path.realpath(path)


def log_path(path: str) -> str:
    """The log of the book at a path, which lies beside the file that the path leads to."""
    return f"{real_path(path)}-wal"


def own_closed(path: str, in_folder: int = 0o700, of_file: int = 0o600) -> str | None:
    """The folder of a file, or the file, if it is this user's own and its mode lets them do less there.

    Whoever may do everything is kept out by no mode.
    """
    file, user = real_path(path), os.geteuid()
    for each, mode in ((os.path.dirname(file), in_folder), (file, of_file)):
        try:
            found = os.stat(each)
        except OSError:
            return None
        if user and found.st_uid == user and found.st_mode & mode != mode:
            return each
    return None


def own_barred(path: str) -> str | None:
    """The first folder above that of a file which this user may not enter, if it is their own."""
    above = list(PosixPath(real_path(path)).parents)[1:]
    with suppress(OSError):
        for each in reversed(above):
            if not os.access(each, os.X_OK):
                is_own = os.stat(each).st_uid == os.geteuid()
                return str(each) if is_own else None
    return None


def is_left_out(path: str) -> bool:
    """Whether a book is this user's own, and its log is for the group of the book, in which they aren't."""
    path, own = real_path(path), (os.getegid(), *os.getgroups())
    try:
        book, log = os.stat(path), os.stat(log_path(path))
        # by a list of access the group may have less than the mode says
        has_list = "system.posix_acl_access" in os.listxattr(log_path(path))
    except OSError:
        return False
    is_of_group = log.st_gid == book.st_gid and log.st_mode & 0o060 == 0o060
    is_own = book.st_uid == os.geteuid() != log.st_uid
    return is_own and is_of_group and book.st_gid not in own and not has_list


def held(path: str) -> str | None:
    """The file at a path, or else its folder, if the system lets nobody change that, whatever its mode is."""
    file = real_path(path)
    return next((each for each in (file, os.path.dirname(file)) if is_held(each)), None)


def is_held(path: str) -> bool:
    """Whether the system lets nobody change a file or a folder, as where it was made immutable."""
    kind = os.O_TMPFILE if os.path.isdir(path) else os.O_NOFOLLOW | os.O_NONBLOCK
    try:
        os.close(os.open(path, os.O_WRONLY | os.O_CLOEXEC | kind, 0o600))
    except OSError as error:
        return error.errno == errno.EPERM
    except ValueError:
        pass
    return False


def journal_path(path: str) -> str:
    """The journal of another program at a book's file: no book has one."""
    return f"{real_path(path)}-journal"
