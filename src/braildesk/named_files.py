"""Files that a person names: opened only if they are files, and read up to a size.

A name may lead to a pipe that nobody writes to, to a device that never ends, or to a file of more
bytes than a machine has; who shares a folder can put such a thing there. What the shell itself
hands over, as for ``<(command)`` and ``/dev/stdin``, is the person's own, and is read to its end.
"""

import errno
import fcntl
import os
import re
import stat
from collections.abc import Iterator
from os import PathLike, fspath
from typing import BinaryIO, Self

StrPath = str | PathLike[str]

#: The names by which a process is given what it has open itself.
_OPEN = re.compile(r"/dev/stdin|/(?:dev|proc/self)/fd/([0-9]{1,9})")
#: Opened so that a pipe isn't waited for, and no terminal becomes the one of this process.
_READ = os.O_RDONLY | os.O_NONBLOCK | os.O_NOCTTY | os.O_CLOEXEC
_KINDS = (
    (stat.S_ISFIFO, "it is a pipe and no file"),
    (stat.S_ISSOCK, "it is a socket and no file"),
    (stat.S_ISCHR, "it is a device and no file"),
    (stat.S_ISBLK, "it is a device and no file"),
)


class NoFile(OSError):
    """What stands at a path is no file; ``strerror`` says what it is."""

    def __init__(self, what: str) -> None:
        super().__init__(errno.EINVAL, what)

    def __reduce__(self) -> tuple[type[Self], tuple[str | None]]:
        return type(self), (self.strerror,)


class TooLarge(OSError):
    """A file has too many bytes; ``strerror`` says how many it may have."""

    def __init__(self, most: int) -> None:
        super().__init__(errno.EFBIG, f"it has more than {most:,} bytes")
        self.most = most

    def __reduce__(self) -> tuple[type[Self], tuple[int]]:
        return type(self), (self.most,)


class Changing(OSError):
    """A file was changed while it was read, so that what was read may be a part of it."""

    def __init__(self) -> None:
        super().__init__(errno.EBUSY, "it was changed while it was read")

    def __reduce__(self) -> tuple[type[Self], tuple[()]]:
        return type(self), ()


def is_same_file(path: StrPath, other: StrPath) -> bool:
    """Whether two names lead to one file."""
    try:
        return os.path.samefile(path, other)
    except OSError:
        return False


def is_handed_over(path: StrPath) -> bool:
    """Whether a name means what this process had open as it began, and something else to another.

    A pipe to which it writes isn't read.
    """
    descriptor = _descriptor(path)
    if descriptor is None or not _is_of_another(descriptor):
        return False
    way = fcntl.fcntl(descriptor, fcntl.F_GETFL) & os.O_ACCMODE
    is_pipe = stat.S_ISFIFO(os.fstat(descriptor).st_mode)
    return not (is_pipe and way == os.O_WRONLY)


def is_descriptor(path: StrPath) -> bool:
    """Whether a name means what this process has open, and not what a folder has."""
    return _descriptor(path) is not None


def _descriptor(path: StrPath) -> int | None:
    """The descriptor that a name means, if it is the name of one."""
    found = _OPEN.fullmatch(fspath(path))
    return None if found is None else int(found[1] or 0)


def _is_of_another(descriptor: int) -> bool:
    """Whether a descriptor was there as this process began: what it opens itself it hands to no other."""
    try:
        return os.get_inheritable(descriptor)
    except OSError:
        # nothing is open by that number
        return False


def open_file(path: StrPath, more: int = 0, folder: int | None = None) -> BinaryIO:
    """A file, open for reading, as more flags may say; ``NoFile`` if it is none.

    Its path begins in a folder that is open, if one is said.
    """
    if "\0" in fspath(path):
        raise NoFile("no path has the character U+0000")
    number = _descriptor(path)
    if number is not None and not _is_of_another(number):
        # what this process has open there is nothing that somebody knows of
        missing = errno.ENOENT
        raise FileNotFoundError(missing, os.strerror(missing), fspath(path))
    _judge(os.stat(path, dir_fd=folder).st_mode, path)
    descriptor = os.open(path, _READ | more, dir_fd=folder)
    try:
        # what has been put there in this moment
        _judge(os.fstat(descriptor).st_mode, path)
        return open(descriptor, "rb")
    except BaseException:
        os.close(descriptor)
        raise


def read_file(path: StrPath, most: int) -> bytes:
    """The bytes of a file, or of what the shell hands over; ``TooLarge`` if they are too many.

    ``Changing`` if another program writes into the file meanwhile.
    """
    with opened(path) as file:
        return read_opened(file, path, most)


def opened(path: StrPath) -> BinaryIO:
    """A file, or what the shell hands over, open for reading; ``NoFile`` if it is none."""
    return open(path, "rb") if is_handed_over(path) else open_file(path)


def read_file_there(path: StrPath, most: int, folder: int | None = None) -> bytes:
    """The bytes of the file that has a name itself, and not of one to which a link there leads.

    ``Changing`` if the name is that of another one once they are read.
    """
    with open_file(path, os.O_NOFOLLOW, folder) as file:
        data = read_opened(file, path, most)
        found = os.stat(path, dir_fd=folder, follow_symlinks=False)
        if not os.path.samestat(found, os.fstat(file.fileno())):
            raise _named(Changing(), path)
    return data


def data_in(file: int) -> Iterator[tuple[int, int]]:
    """Where the parts of a file begin and end that are no holes."""
    size, stop = os.fstat(file).st_size, 0
    while stop < size:
        try:
            place = os.lseek(file, stop, os.SEEK_DATA)
        except OSError as error:
            if error.errno == errno.ENXIO:
                break
            raise
        stop = os.lseek(file, place, os.SEEK_HOLE)
        yield place, stop


def read_opened(file: BinaryIO, path: StrPath, most: int) -> bytes:
    """The bytes of an open file, as ``read_file`` reads those of the one at a path."""
    if file.isatty():
        # its keys may be those of a screen, on which nothing ends a text
        raise _named(NoFile("it is a terminal and no file"), path)
    before = _state(file)
    size, _ = before
    data: bytes | None = file.read(most + 1) if size <= most else b""
    if data is None:
        # as of what the system says in a file, while it has nothing to say
        raise _named(NoFile("it would have to be waited for, as a device"), path)
    if max(size, len(data)) > most:
        raise _named(TooLarge(most), path)
    if not is_handed_over(path) and _is_changed(file, before, data):
        raise _named(Changing(), path)
    return data


def _state(file: BinaryIO) -> tuple[int, int]:
    """What is another one once a file was written into: its size, and when that was."""
    found = os.fstat(file.fileno())
    return found.st_size, found.st_mtime_ns


def _is_changed(file: BinaryIO, before: tuple[int, int], data: bytes) -> bool:
    """Whether a file was written into since it was in a state, in which these bytes were read of it.

    Who touches it changes its time alone, and a file system may give another one each time.
    """
    now = _state(file)
    if now == before:
        return False
    file.seek(0)
    return now[0] != before[0] or file.read(len(data) + 1) != data


def _judge(mode: int, path: StrPath) -> None:
    """Whether it is the mode of a file."""
    if stat.S_ISDIR(mode):
        raise IsADirectoryError(errno.EISDIR, os.strerror(errno.EISDIR), fspath(path))
    for is_such, what in _KINDS:
        if is_such(mode):
            raise _named(NoFile(what), path)


def _named(failure: OSError, path: StrPath) -> OSError:
    """A failure that says the path, as those of the system do."""
    failure.filename = fspath(path)
    return failure
