"""Folders of one's own, in which nobody else reads or puts a file, and where scribe has them.

Files are opened relative to the folder, never through a link, and without waiting for what is no
file. What isn't a regular file of one's own, with one name and of a moderate size, isn't read.
"""

import os
import pwd
import stat
from collections.abc import Iterator
from contextlib import contextmanager, suppress
from pathlib import Path

from braildesk.desk.whole_file import Access, remove_from, remove_left, replace_in
from braildesk.workshop import sync_names

#: The bytes of a file at most.
MOST_BYTES = 4 * 2**20
_READ = os.O_RDONLY | os.O_NOFOLLOW | os.O_NONBLOCK | os.O_NOCTTY | os.O_CLOEXEC
_FOLDER = os.O_RDONLY | os.O_DIRECTORY | os.O_NOFOLLOW | os.O_CLOEXEC
# a file in place of a folder has no files
_ABSENT = (FileNotFoundError, NotADirectoryError)
_OWN = Access(0o600)


class Unfit(OSError):
    """What is there isn't a file, or a folder, of one's own."""

    def __init__(self, why: str) -> None:
        super().__init__(None, why)


class IsFolder(Unfit):
    """What is there is a folder."""


class TooLong(Unfit):
    """What is there has more bytes than are read of a file."""

    def __init__(self) -> None:
        super().__init__(f"it has more than {MOST_BYTES:,} bytes")


class OthersFolder(Unfit):
    """The folder itself is another user's."""


class OwnFolder:
    """The folder of a path, which is made with the first file."""

    def __init__(self, path: Path) -> None:
        self.path = path

    def read(self, name: str) -> bytes | None:
        """The bytes of a file, none if there is none."""
        try:
            with self._opened() as folder:
                return bytes_of(folder, name)
        except _ABSENT:
            return None

    def write(self, name: str, data: bytes) -> None:
        """Gives a file these bytes, in place of what it had; or leaves it as it was."""
        if len(data) > MOST_BYTES:
            raise TooLong
        if not self.path.is_absolute():
            raise Unfit("no home folder is known")
        _make(self.path)
        with self._opened() as folder:
            try:
                replace_in(folder, name, data, _OWN)
            except IsADirectoryError:
                raise IsFolder(f"{name} is a folder there") from None

    def rename(self, name: str, other: str) -> None:
        """Gives a file another name, also one that can't be read."""
        with self._opened() as folder:
            os.rename(name, other, src_dir_fd=folder, dst_dir_fd=folder)
            sync_names(folder)

    def remove(self, name: str) -> None:
        """Takes a file away, if there is one."""
        try:
            with self._opened() as folder:
                remove_from(folder, name)
                sync_names(folder)
        except _ABSENT:
            pass

    def names(self) -> list[str]:
        """The names of the files, without those of what was never written to its end."""
        try:
            with self._opened() as folder:
                found = os.listdir(folder)
        except _ABSENT:
            return []
        return sorted(name for name in found if not name.startswith("."))

    def clear_left(self) -> None:
        """Takes away what writers that were killed left, once nobody can be writing it still."""
        try:
            with self._opened() as folder:
                for name in os.listdir(folder):
                    if name.startswith("."):
                        remove_left(folder, name)
        except _ABSENT:
            pass

    @contextmanager
    def _opened(self) -> Iterator[int]:
        folder = os.open(self.path, _FOLDER)
        try:
            found = os.fstat(folder)
            if found.st_uid != os.geteuid():
                raise OthersFolder("it belongs to another user")
            if stat.S_IMODE(found.st_mode) & 0o077:
                os.fchmod(folder, 0o700)
            yield folder
        finally:
            os.close(folder)


@contextmanager
def opened(path: Path) -> Iterator[int]:
    """A folder that may be anybody's, to read a file of one's own there."""
    folder = os.open(path, os.O_PATH | os.O_DIRECTORY | os.O_CLOEXEC)
    try:
        yield folder
    finally:
        os.close(folder)


def bytes_of(folder: int, name: str) -> bytes:
    """The bytes of a regular file of one's own with one name, `Unfit` for anything else."""
    # a device isn't even opened; and what was opened is looked at again, since names change
    _refuse(os.stat(name, dir_fd=folder, follow_symlinks=False))
    with open(os.open(name, _READ, dir_fd=folder), "rb") as file:
        _refuse(os.fstat(file.fileno()))
        data = file.read(MOST_BYTES + 1)
    if len(data) > MOST_BYTES:
        raise TooLong
    return data


def _refuse(found: os.stat_result) -> None:
    if stat.S_ISLNK(found.st_mode):
        raise Unfit("it is a link")
    if stat.S_ISDIR(found.st_mode):
        raise IsFolder("it is a folder")
    if not stat.S_ISREG(found.st_mode):
        raise Unfit("it is no regular file")
    if found.st_uid != os.geteuid():
        raise Unfit("it belongs to another user")
    if found.st_nlink > 1:
        raise Unfit("it has another name too")
    if found.st_size > MOST_BYTES:
        raise TooLong


def _make(path: Path) -> None:
    """Makes a folder for its owner alone, and those above it that are missing.

    None is made in a folder of another user, unless that is the system's: root would take it from
    the user whose home it is.
    """
    if os.path.lexists(path):
        return
    if not path.parent.exists():
        _make(path.parent)
    if path.parent.stat().st_uid not in (os.geteuid(), 0):
        raise Unfit("the folder above it belongs to another user")
    with suppress(FileExistsError):
        path.mkdir(mode=0o700)


def state_folder() -> Path:
    """The folder `braildesk` where programs keep the state of their work for this user."""
    return _named("XDG_STATE_HOME", Path(".local", "state")) / "braildesk"


def may_have(what: str) -> bool:
    """Whether the folder may have a file of a kind, which is the last part of its name."""
    try:
        names = os.listdir(state_folder())
    except (FileNotFoundError, NotADirectoryError):
        return False
    except OSError:
        return True
    return any(name.endswith(f".{what}") for name in names)


def cache_folder() -> Path:
    """The folder `braildesk` where programs keep what they can make again for this user."""
    return _named("XDG_CACHE_HOME", Path(".cache")) / "braildesk"


def _named(variable: str, usual: Path) -> Path:
    """The folder that a variable names, else the usual one in the home of this user."""
    named = Path(os.environ.get(variable, ""))
    return named if named.is_absolute() else _home() / usual


def _home() -> Path:
    """The home folder of this user; a path that isn't absolute if none is known."""
    named = os.environ.get("HOME", "")
    if named:
        return Path(named)
    try:
        return Path(pwd.getpwuid(os.geteuid()).pw_dir)
    except KeyError:
        return Path()
