"""Files that are written whole or not at all."""

import errno
import os
import re
import stat
import time
from collections.abc import Callable
from contextlib import suppress
from dataclasses import dataclass
from pathlib import Path
from typing import TYPE_CHECKING

from braildesk.desk import Problem
from braildesk.fenced import may_be_swapped
from braildesk.opening import (
    LOGS,
    MAGIC,
    book_beside,
    has_tables_of_book,
    is_of_system,
    may_be_book,
)
from braildesk.protocol.value import Value
from braildesk.workshop import (
    Listed,
    Swapped,
    access_list,
    gives_lists,
    is_same,
    limit_group,
    limit_named,
    limit_of,
    limit_of_another_group,
    limit_to_older,
    may_of_named,
    mode_of,
    set_list,
    sync_names,
)

if TYPE_CHECKING:
    from braildesk.session import Session

ANYONE, _OWN = 0o666, 0o600
_OF_THE_SYSTEM = ("/dev/", "/proc/")
# neither through a link nor waiting for a pipe that was put there
_READ = os.O_RDONLY | os.O_NOFOLLOW | os.O_NONBLOCK | os.O_CLOEXEC
#: The name of a file that is written and has its own name only then.
_BESIDE = re.compile(r"\.scribe-[0-9a-f]{16}")
# what is said of a name that has nothing, or a link or a pipe, since it was looked at
_ANOTHER = (errno.ENOENT, errno.ELOOP, errno.ENXIO)
# what a writer that was killed left is taken away after this time
_LEFT_SECONDS = 3_600
#: How many bytes at the front of a file say what it is: more than a table has.
_HEAD_BYTES = 2**24
#: Whether a file with these bytes at its front may be replaced.
Replaces = Callable[[bytes], bool]


class NoPlaceForAFile(OSError):
    """What stands at a path, or what a link there leads to, isn't replaced by a file."""


class AnotherIsThere(Problem):
    """Something of another kind is there, and nobody said that it is to be replaced."""

    def __init__(self, name: str, mode: int, leads_to: str | None = None) -> None:
        super().__init__(name)
        self.mode = mode
        #: What it leads to, if it is a link.
        self.leads_to = leads_to


@dataclass(frozen=True, eq=False, repr=False)
class Access(Value):
    """Who may read and write a new file, as far as the umask allows."""

    mode: int = ANYONE
    #: The group that the mode means, if that isn't any.
    group: int | None = None
    #: What those may do at most to whom the folder gives access by a list (ACL).
    listed: int = 0
    #: What any other group may do at most, and others.
    most: int = ANYONE
    #: What each of those may do at most whom the book lists, where its folder lists them too.
    named: tuple[Listed, ...] = ()

    @classmethod
    def of(cls, file: int | Path) -> "Access":
        """That of a file from which another one is made: an open one, where others may replace it.

        Who makes a file may write it too. Nobody may do more with it whom the list of access names.
        """
        found = os.stat(file)
        most = limit_of(file, found) & ANYONE
        mode = mode_of(file, found) & limit_of(file, found, found.st_gid) & ANYONE
        listed, named = found.st_mode & most & stat.S_IRWXG, may_of_named(file)
        return cls(mode | _OWN, found.st_gid, listed, most, named)

    @classmethod
    def read_by(cls, process: int, file: int) -> "Access":
        """That of an open file which a process reads; its owner's alone if it has another one open.

        Others may have put that in the place of the file while the process opened it.
        """
        return cls.of(file) if _is_read_by(process, file) else cls(_OWN)

    @classmethod
    def of_session(cls, session: "Session") -> "Access":
        """That of the file of a session; its owner's alone where that isn't held beside the program.

        Others may have put a link in its place for a moment, while the program opened it.
        """
        try:
            return cls.read_by(session.pid, session.fileno())
        except (OSError, ValueError):
            return cls(_OWN)


@dataclass(frozen=True, eq=False, repr=False)
class Kept(Value):
    """The permissions of a file of one's own that is replaced, and the group that they mean."""

    mode: int
    group: int
    #: Its list of access (ACL), if it has one, and what those may do at most who are on that.
    listed: tuple[Listed, ...]
    most: int
    #: What each of those may do whom the list names, and its owner.
    named: tuple[Listed, ...]
    #: What may be done at most with a file without that list, so that nobody whom it names may do more.
    limit: int
    #: Whether it has another name, so that somebody else may have given it this one.
    is_linked: bool

    @classmethod
    def of(cls, file: int) -> "Kept":
        """Those of an open file."""
        found = os.fstat(file)
        most = found.st_mode & ANYONE & stat.S_IRWXG
        listed = tuple(access_list(file))
        mode, limit = mode_of(file, found) & ANYONE, limit_of(file, found, found.st_gid)
        is_linked = found.st_nlink > 1
        named = may_of_named(file)
        return cls(mode, found.st_gid, listed, most, named, mode & limit, is_linked)


def _is_read_by(process: int, file: int) -> bool:
    """Whether a process has a file open, or no other than what lies beside it, as far as the system says."""
    like, others = os.fstat(file), False
    with suppress(OSError):
        for name in os.listdir(f"/proc/{process}/fd"):
            path = f"/proc/{process}/fd/{name}"
            found = os.stat(path)
            if os.path.samestat(found, like):
                return True
            is_beside = int(name) <= 2 or book_beside(os.readlink(path)) is not None
            others |= stat.S_ISREG(found.st_mode) and not is_beside
    return not others


def write_whole(
    path: Path,
    data: bytes,
    access: Access = Access(),
    replaces: Replaces | None = None,
    held: int | None = None,
) -> None:
    """Gives a name these bytes, in place of the file that it named, in the folder of its path.

    That is one that is held open, if it is said, whatever is in its place by now.

    They are written beside it, in a file whose name begins with a full stop, and are on the disk
    when that file gets the name. If anything fails before that, what had the name is as it was;
    `MayNotLast` comes after it, and so does `Swapped`, if another file has the name then. The name
    alone is replaced: a link there is gone and the file that it led to stays as it was, and a pipe
    of that name isn't opened. A file of one's own keeps its permissions to read and write, but no more
    than a new one gets where others may have given it that name. Any other gets what is said here
    and the umask allows. A book or a log is never replaced, nor is a name given
    by which a log is looked for. Nor, with `AnotherIsThere`, is what may not be replaced by its front,
    if that is asked, unless it is an empty file, as `mktemp` makes one.
    """
    path = path if path.name else path.resolve()
    flags = os.O_RDONLY | os.O_DIRECTORY | os.O_CLOEXEC
    folder = os.open(path.parent if held is None else ".", flags, dir_fd=held)
    try:
        for left in filter(_BESIDE.fullmatch, os.listdir(folder)):
            remove_left(folder, left)
        kept = _kept_permissions(path.name, folder, replaces)
        replace_in(folder, path.name, data, access, kept)
    finally:
        os.close(folder)


def judge_place(path: Path, replaces: Replaces | None) -> None:
    """Raises what `write_whole` would of what stands at a path, before there is anything to write."""
    path = path if path.name else path.resolve()
    try:
        folder = os.open(path.parent, os.O_RDONLY | os.O_DIRECTORY | os.O_CLOEXEC)
        try:
            _kept_permissions(path.name, folder, replaces)
        finally:
            os.close(folder)
    except (NoPlaceForAFile, IsADirectoryError):
        raise
    except OSError:
        # it is said where the file is written
        pass


def replace_in(
    folder: int, name: str, data: bytes, access: Access, kept: Kept | None = None
) -> None:
    """Gives a name in an open folder these bytes, as a new file.

    It has the permissions that are kept, else what is said here and the umask allows.
    """
    beside = f".scribe-{os.urandom(8).hex()}"
    try:
        written = _write(beside, folder, data, access, kept)
        os.replace(beside, name, src_dir_fd=folder, dst_dir_fd=folder)
    except BaseException:
        remove_from(folder, beside)
        raise
    if not _is_there(name, folder, written, data):
        raise Swapped
    sync_names(folder)


def remove_left(folder: int, name: str) -> None:
    """Takes away what a writer of this user left who was killed, once none can be at it still."""
    with suppress(OSError):
        found = os.stat(name, dir_fd=folder, follow_symlinks=False)
        is_own = stat.S_ISREG(found.st_mode) and found.st_uid == os.geteuid()
        if is_own and time.time() - found.st_mtime > _LEFT_SECONDS:
            os.unlink(name, dir_fd=folder)


def remove_from(folder: int, name: str) -> None:
    """Takes a name out of an open folder, if it is there."""
    try:
        os.unlink(name, dir_fd=folder)
    except FileNotFoundError:
        pass


def _kept_permissions(name: str, folder: int, replaces: Replaces | None) -> Kept | None:
    """The permissions of a file of one's own that is to be replaced, else none."""
    try:
        older = os.stat(name, dir_fd=folder, follow_symlinks=False)
    except FileNotFoundError:
        _judge_name(name, folder)
        return None
    if stat.S_ISDIR(older.st_mode):
        raise IsADirectoryError(errno.EISDIR, os.strerror(errno.EISDIR))
    if _is_device(name, folder, older.st_mode):
        raise NoPlaceForAFile(errno.EINVAL, "a device, a terminal or a pipe is there")
    is_file = stat.S_ISREG(older.st_mode)
    head = _head(name, folder) if is_file else b""
    if head.startswith(MAGIC):
        # which nobody means when pages or a table are written
        is_book = has_tables_of_book(f"/proc/self/fd/{folder}/{name}")
        what = "book" if is_book else "database"
        why = f"a {what} is there, which was left as it is"
        raise NoPlaceForAFile(errno.EINVAL, why)
    if head.startswith(LOGS):
        # it may have what its book lacks
        why = "the log of a book is there, which was left as it is"
        raise NoPlaceForAFile(errno.EINVAL, why)
    _judge_name(name, folder)
    is_empty = is_file and not (older.st_size or head)
    if not (replaces is None or is_empty or is_file and replaces(head)):
        is_link = stat.S_ISLNK(older.st_mode)
        leads_to = os.readlink(name, dir_fd=folder) if is_link else None
        raise AnotherIsThere(name, older.st_mode, leads_to)
    if not is_file or older.st_uid != os.geteuid():
        return None
    return _kept(name, folder, older)


def _judge_name(name: str, folder: int) -> None:
    """Refuses a name by which what belongs to a book is looked for, if that is there, and no link to it.

    In a folder of the system it refuses any.
    """
    if is_of_system(os.path.realpath(f"/proc/self/fd/{folder}")):
        why = "in its folder the system shows what it has itself, and no file is made there"
        raise NoPlaceForAFile(errno.EINVAL, why)
    book = book_beside(name)
    path = f"/proc/self/fd/{folder}/{book}"
    is_file = os.path.isfile(path) and not os.path.islink(path)
    if book is not None and is_file and may_be_book(path):
        why = f"a file of that name would be taken for a part of the book {book}"
        raise NoPlaceForAFile(errno.EINVAL, why)


def _kept(name: str, folder: int, like: os.stat_result) -> Kept | None:
    """The permissions of a file that was looked at; none if another one is there by now, or nothing."""
    with suppress(OSError):
        with open(os.open(name, _READ, dir_fd=folder), "rb") as file:
            if is_same(os.fstat(file.fileno()), like):
                return Kept.of(file.fileno())
    return None


def _head(name: str, folder: int) -> bytes:
    """What stands at the front of a file; nothing if it is gone by now."""
    try:
        with open(os.open(name, _READ, dir_fd=folder), "rb") as file:
            # nothing where the system keeps a file that would have to be waited for
            return file.read(_HEAD_BYTES) or b""
    except OSError as error:
        if error.errno in _ANOTHER:
            return b""
        why = f"what is there can't be read ({error.strerror}), and may be a book"
        raise NoPlaceForAFile(errno.EINVAL, why) from error


def _is_device(name: str, folder: int, mode: int) -> bool:
    """Whether a name is that of a device, or of a link to one or to an open file, as /dev/stdout is."""
    if not stat.S_ISLNK(mode):
        return stat.S_ISCHR(mode) or stat.S_ISBLK(mode)
    return os.readlink(name, dir_fd=folder).startswith(_OF_THE_SYSTEM)


def _is_there(name: str, folder: int, written: os.stat_result, data: bytes) -> bool:
    """Whether a name has what was written, also where the file has another number by its name."""
    try:
        found = os.stat(name, dir_fd=folder, follow_symlinks=False)
        if is_same(found, written):
            return True
        head = _head(name, folder)
    except OSError:
        return False
    return found.st_size == len(data) and data.startswith(head) and head != b""


def _write(
    name: str, folder: int, data: bytes, access: Access, kept: Kept | None
) -> os.stat_result:
    """Makes a file with these bytes, on the disk, and says what it is."""
    is_own = kept is not None and not (kept.is_linked or _is_others(folder))
    whole = kept if is_own else None
    mode = _OWN if whole is not None else _allowed(folder, access)
    with open(_made(name, folder, _OWN), "wb") as file:
        if whole is not None:
            _keep(file.fileno(), whole)
        else:
            _give(file.fileno(), folder, access, mode, kept)
        file.write(data)
        file.flush()
        os.fsync(file.fileno())
        return os.fstat(file.fileno())


def _is_others(folder: int) -> bool:
    """Whether others may give a name in a folder to a file of this user, or put the folder in its place.

    The file may lie in another folder, so that the sticky bit of this one keeps nobody from that.
    """
    try:
        return may_be_swapped(os.path.realpath(f"/proc/self/fd/{folder}"))
    except OSError:
        # others have moved it in this moment, or the system doesn't say where it is
        return True


def _made(name: str, folder: int, mode: int) -> int:
    """A new file that is open to be written, with a mode as far as the umask or the folder's list allows."""
    flags = os.O_WRONLY | os.O_CREAT | os.O_EXCL | os.O_NOFOLLOW | os.O_CLOEXEC
    return os.open(name, flags, mode, dir_fd=folder)


def _allowed(folder: int, access: Access) -> int:
    """The mode that a new file gets there, as far as the umask or the folder's list allows.

    That is seen by a file without bytes. Who opens one before it has its group reads what is written
    there later.
    """
    mode = _created(folder, access)
    if not mode & ~_OWN:
        return mode
    tried = f".scribe-{os.urandom(8).hex()}"
    file = _made(tried, folder, mode)
    try:
        return os.fstat(file).st_mode & ANYONE
    finally:
        os.close(file)
        remove_from(folder, tried)


def _created(folder: int, access: Access) -> int:
    """The mode with which a file is made in a folder, as far as the umask allows."""
    if gives_lists(folder):
        return access.mode & access.most | access.listed
    is_others = _group_chosen(folder) not in (None, access.group)
    return access.mode & access.most if is_others else access.mode


def _keep(file: int, kept: Kept) -> None:
    """Gives a file the group and the permissions of another; any other group may do no more than others.

    Nor may they do more than the group then.
    """
    mode, limited = kept.mode, 0o777
    try:
        os.fchown(file, -1, kept.group)
    except OSError:
        if os.fstat(file).st_gid != kept.group:
            limited = limit_of_another_group(mode)
    if set_list(file, kept.listed, limited):
        os.fchmod(file, mode & limited | kept.most)
    else:
        os.fchmod(file, mode & limited)


def _group_chosen(folder: int) -> int | None:
    """The group that a folder gives to the files that are made in it, if it does so."""
    found = os.fstat(folder)
    return found.st_gid if found.st_mode & stat.S_ISGID else None


def _give(
    file: int, folder: int, access: Access, mode: int, older: Kept | None
) -> None:
    """Gives a new file, which is its owner's alone so far, its group, and then what its mode allows.

    Who can't be given its group may do no more than others, nor they more than that group. Nobody may
    do more with it than with an older one.
    """
    if access.group is not None:
        try:
            limit_named(file, access.mode, access.named)
            limit_group(file, access.mode)
        except OSError:
            # then the mode limits all of those on the list
            mode &= access.mode
        mode = _take_group(file, folder, access.mode, access.group, mode)
    if older is not None:
        mode &= _limit_of_older(file, older)
    if mode != _OWN:
        # a file system without modes says that it gives none
        with suppress(OSError):
            os.fchmod(file, mode)


def _limit_of_older(file: int, older: Kept) -> int:
    """What the mode of a new file allows at most, with which nobody may do more than with an older one."""
    if access_list(file):
        with suppress(OSError):
            mode = older.mode & (older.most | ~stat.S_IRWXG)
            others = limit_to_older(file, mode, older.group, older.named)
            return older.mode & stat.S_IRWXU | older.most | others
    elif os.fstat(file).st_gid == older.group:
        return older.limit
    return older.limit & limit_of_another_group(older.limit)


def _take_group(file: int, folder: int, meant: int, group: int, mode: int) -> int:
    """Gives a new file a group, and says its mode, by which another group does no more than is meant.

    The group of a folder that gives it to its files is kept: it was chosen for them.
    """
    if os.fstat(file).st_gid == group:
        return mode
    if _group_chosen(folder) is not None:
        return mode & (~stat.S_IRWXO | meant >> 3)
    try:
        os.fchown(file, -1, group)
        return mode
    except OSError:
        limited = limit_of_another_group(meant)
    with suppress(OSError):
        # the bits of the group would limit all of those on a list
        if limit_group(file, limited):
            return mode & (limited | stat.S_IRWXG)
    return mode & limited
