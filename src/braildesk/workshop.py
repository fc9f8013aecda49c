"""Files that are made whole before they get their names.

A file is made in a folder beside the place where it is to be, under a name that begins with a full
stop. Who makes it holds a lock of that folder, so that what is left by a program that was killed is
known, and is cleared away by the next one that makes a file there.
"""

import errno
import fcntl
import os
import stat
import struct
from collections.abc import Callable, Iterator, Sequence
from contextlib import contextmanager, suppress
from dataclasses import dataclass
from functools import reduce
from operator import and_
from pathlib import Path
from typing import BinaryIO, Self

from braildesk.named_files import data_in
from braildesk.protocol.value import Value

_PREFIX = ".braildesk-"
#: The file that is made, what is put beside it by the program and by SQLite when it reads what
#: stands in a log, and how the names of files end that are only tried. Nothing else is cleared away.
#: Nobody gives a book the first name, since others may rename a folder of this user as if one had been
#: made in it.
_MADE = "made-by-braildesk"
_NAMES = frozenset({_MADE, f"{_MADE}-wal", f"{_MADE}-shm"})
_TRIED = ".tried"
#: The number by which `renameat2` replaces nothing.
_NO_REPLACE = 1
#: What a system says of that, and of bringing a folder to the disk, if it, or the file system, as one
#: of a network may, doesn't have it.
_NOT_KNOWN = (errno.EINVAL, errno.ENOSYS, errno.EOPNOTSUPP)
#: What is said where a file system has no hard links; rclone says the last of it.
_NO_LINKS = (errno.EPERM, *_NOT_KNOWN, errno.EIO)
_CHUNK = 1 << 20
#: Where a file system has the list of who may do what with a file, the bytes before its entries, an
#: entry (whom it is about, what that one may do, and a number), and what says that it is about the
#: owner of the file, a user, the group of the file, or another group.
_ACL, _ACL_BEGIN, _ACL_ENTRY = (
    "system.posix_acl_access",
    b"\2\0\0\0",
    struct.Struct("<HHI"),
)
_ACL_FRONT = len(_ACL_BEGIN)
_OF_OWNER, _OF_USER, _OF_GROUP, _OF_OTHER_GROUP = 0x01, 0x02, 0x04, 0x08
#: An entry: whom it is about, what that one may do, and a number.
Listed = tuple[int, int, int]
#: How many names and links a path is followed by at most.
_MOST_STEPS = 5_000
_FOLDER = os.O_PATH | os.O_DIRECTORY | os.O_NOFOLLOW | os.O_CLOEXEC


class Swapped(OSError):
    """A file that was being made isn't at its path any more."""

    def __init__(self) -> None:
        what = "another program put something else in the place of what was made"
        super().__init__(errno.ESTALE, what)

    def __reduce__(self) -> tuple[type[Self], tuple[()]]:
        return type(self), ()


class OthersLink(Exception):
    """A link on the way of a path is of another user, who may have it lead anywhere."""

    def __init__(self, link: str) -> None:
        super().__init__(link)
        self.link = link


class MayNotLast(OSError):
    """A file has its new bytes, and whether its name outlasts a loss of power isn't known."""


@dataclass(frozen=True, slots=True, eq=False, repr=False)
class Place(Value):
    """A name in a folder that is held open: what is put in place of the folder leads nowhere else."""

    folder: int
    name: str

    def beside(self, ending: str) -> "Place":
        """The place of a file whose name ends so besides."""
        return Place(self.folder, self.name + ending)

    def size(self) -> int:
        """The bytes of the file, none if it isn't there."""
        try:
            return os.stat(self.name, dir_fd=self.folder, follow_symlinks=False).st_size
        except FileNotFoundError:
            return 0

    def has(self, file: int) -> bool:
        """Whether it is the place of the file of this descriptor, and not of a link to it."""
        try:
            found = os.stat(self.name, dir_fd=self.folder, follow_symlinks=False)
        except FileNotFoundError:
            return False
        return os.path.samestat(found, os.fstat(file))

    def judge(self, file: int) -> None:
        """Raises ``Swapped`` unless it is the place of that file."""
        if not self.has(file):
            raise Swapped

    def opened(self, flags: int) -> BinaryIO:
        """The file, never through a link, nor waiting for a pipe that was put there."""
        more = os.O_NOFOLLOW | os.O_NONBLOCK | os.O_CLOEXEC
        descriptor = os.open(self.name, flags | more, dir_fd=self.folder)
        return open(descriptor, "r+b" if flags & os.O_RDWR else "rb", buffering=0)


@contextmanager
def place_of(path: str) -> Iterator[Place]:
    """The place of a path in which no link is, nor is followed if one is put there."""
    folder = os.open("/", _FOLDER)
    try:
        for name in filter(None, os.path.dirname(path).split("/")):
            above, folder = folder, os.open(name, _FOLDER, dir_fd=folder)
            os.close(above)
        yield Place(folder, os.path.basename(path))
    finally:
        os.close(folder)


def own_path(path: str) -> str:
    """Where a path leads by links of this user and of root alone; ``OthersLink`` at any other."""
    # a folder that is gone has no path, which only a path from there needs
    whole = path if os.path.isabs(path) else os.path.join(os.getcwd(), path)
    left, here = whole.split("/")[::-1], "/"
    for _ in range(_MOST_STEPS):
        if not left:
            return here
        at = os.path.join(here, left.pop())
        found = os.lstat(at)
        if not stat.S_ISLNK(found.st_mode):
            # no link is in that, so that two full stops are its own folder
            here = os.path.normpath(at)
        elif found.st_uid in (0, os.geteuid()):
            to = os.readlink(at)
            left += to.split("/")[::-1]
            here = "/" if to.startswith("/") else here
        else:
            raise OthersLink(at)
    raise OSError(errno.ELOOP, os.strerror(errno.ELOOP))


@contextmanager
def made_beside(target: str) -> Iterator[Path]:
    """Where a file is to be made that is put at the target then, and is on the same disk."""
    with _made_in(os.path.dirname(target)) as made:
        yield made


@contextmanager
def made_for_a_while() -> Iterator[Path]:
    """Where a file is to be made that nobody needs in the end."""
    import tempfile  # which few sessions need

    with _made_in(tempfile.gettempdir()) as made:
        yield made


@contextmanager
def folder_for_a_while() -> Iterator[Path]:
    """A folder of files that are only tried."""
    with made_for_a_while() as made:
        yield made.parent


def write_tried(folder: Path, name: str, text: str) -> Path:
    """Writes a file that is only tried in a folder. Which one it is, is said of it in any failure."""
    path = folder / f"{name}{_TRIED}"
    try:
        path.write_text(text, encoding="utf-8", newline="\n")
    except OSError as error:
        # the system names none that there is no room for
        error.filename = str(path)
        raise
    return path


@contextmanager
def _made_in(parent: str) -> Iterator[Path]:
    """Where a file is to be made: in a new folder, which is removed in the end."""
    _clear(parent)
    descriptor, folder = _own_folder(parent)
    try:
        yield Path(folder, _MADE)
    finally:
        _remove(descriptor, folder)
        os.close(descriptor)


def create(path: Path, mode: int = 0o600) -> BinaryIO:
    """A new file where one is made, which is its owner's alone until it is given its access."""
    flags = os.O_RDWR | os.O_CREAT | os.O_EXCL | os.O_NOFOLLOW | os.O_CLOEXEC
    with _folder_of(path) as folder:
        try:
            return open(os.open(path.name, flags, mode, dir_fd=folder), "r+b")
        except FileExistsError as error:
            raise Swapped from error


def open_made(made: Path, like: os.stat_result) -> BinaryIO:
    """A file that was made, open once more; ``Swapped`` if another one is at its path.

    Who may write in the folder beside which it is made may put a folder with a link in its place.
    """
    flags = os.O_RDONLY | os.O_NOFOLLOW | os.O_NONBLOCK | os.O_CLOEXEC
    try:
        file = open(os.open(made, flags), "rb")
    except OSError as error:
        raise Swapped from error
    if not is_same(os.fstat(file.fileno()), like):
        file.close()
        raise Swapped
    return file


def is_same(found: os.stat_result, like: os.stat_result) -> bool:
    """Whether a file is one that was closed meanwhile.

    Another user who took that away may have made one of the same number.
    """
    return os.path.samestat(found, like) and found.st_uid == like.st_uid


def put(made: Path, target: Place, like: os.stat_result) -> None:
    """Gives a file its name, which nothing may have yet (``FileExistsError``).

    ``Swapped`` if another file than that which is like this gets the name, or has it right after.
    """
    with _folder_of(made) as folder, _known(folder, made.name, like) as judge:
        try:
            _rename(folder, made.name, target)
            judge(target)
        except OSError as error:
            if error.errno not in _NOT_KNOWN:
                raise
            # by its two names a file system of FUSE may have it for two files
            _link(folder, made.name, target)
    _sync_folder(target)


def put_over(made: Path, target: Place, like: os.stat_result) -> None:
    """Gives a file the name of another, which is no more then, nor is the log beside it.

    ``Swapped`` as for ``put``.
    """
    log, aside = target.beside("-wal").name, f"{made.name}-wal"
    is_aside = True
    with _folder_of(made) as folder, _known(folder, made.name, like) as judge:
        try:
            # it belongs to the older file, and would damage the new one
            os.replace(log, aside, src_dir_fd=target.folder, dst_dir_fd=folder)
        except FileNotFoundError:
            # what lies aside then is the new file's own, if anything does
            is_aside = False
        try:
            names = made.name, target.name
            os.replace(*names, src_dir_fd=folder, dst_dir_fd=target.folder)
        except OSError:
            if is_aside:
                os.replace(aside, log, src_dir_fd=folder, dst_dir_fd=target.folder)
            raise
        judge(target)
    _sync_folder(target)


def put_in_place(made: Path, target: Place, like: os.stat_result) -> None:
    """Gives a file the name of another, which is no more then. ``Swapped`` as for ``put``."""
    with _folder_of(made) as folder, _known(folder, made.name, like) as judge:
        names = made.name, target.name
        os.replace(*names, src_dir_fd=folder, dst_dir_fd=target.folder)
        judge(target)
    _sync_folder(target)


def give_access(file: int, like: int) -> None:
    """Gives a file the mode of another, and its group and owner if this process may.

    A group that isn't that of the other file gets no more than anybody, and then nobody gets more than
    that of the other file. If the folder has given the file a list of who may do what with it (ACL),
    those on that list may do as much with it as with the other file, where that lists them too, and
    else as its group. Nobody may do more with it whom the list of the other file names.
    """
    found, named = os.fstat(like), may_of_named(like)
    mode, listed = mode_of(like, found), found.st_mode & stat.S_IRWXG
    if not _named(like) <= _named(file):
        mode &= limit_of(like, found, found.st_gid)
        listed &= limit_of(like, found)
    of_group = mode
    try:
        os.fchown(file, -1, found.st_gid)
    except OSError:
        mode &= limit_of_another_group(mode)
    with suppress(OSError):
        os.fchown(file, found.st_uid, -1)
    with suppress(OSError):
        limit_named(file, of_group, named)
        if limit_group(file, mode):
            # what all those may do at most who are on the list that the file has
            mode = mode & ~stat.S_IRWXG | listed
        os.fchmod(file, mode)


def limit_of_another_group(mode: int) -> int:
    """What group and others may do at most with a file that has another group than its mode means.

    Who is in the group that is meant is one of the others there.
    """
    both = mode & mode >> 3 & stat.S_IRWXO
    return ~(stat.S_IRWXG | stat.S_IRWXO) | both << 3 | both


def limit_of(like: int | Path, found: os.stat_result, group: int | None = None) -> int:
    """What group and others may do at most with a file that is made from another one without its list.

    So nobody may do more with it whom that list of access names, as it may refuse somebody whom the
    group may be. Who is in the group isn't known unless it is said which it is.
    """
    limit = 0o777
    for tag, may, whom in _named(like):
        kept = may & found.st_mode >> 3
        if (tag, whom) == (_OF_USER, os.geteuid()):
            continue
        limit &= ~stat.S_IRWXO | kept
        if group is None or tag == _OF_USER and group in (groups_of(whom) or [group]):
            limit &= ~stat.S_IRWXG | kept << 3
    return limit


def _named(file: int | Path) -> set[Listed]:
    """The entries of the list of access of a file about users and groups that are named there."""
    return {
        each for each in access_list(file) if each[0] in (_OF_USER, _OF_OTHER_GROUP)
    }


def groups_of(number: int) -> list[int] | None:
    """The groups in which a user is; none if the system doesn't know the user."""
    import pwd  # which few openings need

    try:
        user = pwd.getpwuid(number)
        return os.getgrouplist(user.pw_name, user.pw_gid)
    except (KeyError, OSError):
        return None


def give_list(file: int, like: int) -> None:
    """Gives a file the list of access that another one has, or none.

    It names the owner of the other one too, if the file is somebody else's.
    """
    listed, owner = access_list(like), os.fstat(like).st_uid
    if listed and os.fstat(file).st_uid != owner:
        own = max((may for tag, may, _ in listed if tag == _OF_OWNER), default=0)
        others = [each for each in listed if each[::2] != (_OF_USER, owner)]
        listed = sorted([*others, (_OF_USER, own, owner)])
    set_list(file, listed)


def set_list(file: int, listed: Sequence[Listed], mode: int = 0o777) -> bool:
    """Gives a file a list of access, or none, in which the group itself may do what a mode says at most.

    Whether it has one then.
    """
    limited = [
        (tag, may & mode >> 3 if tag == _OF_GROUP else may, whom)
        for tag, may, whom in listed
    ]
    try:
        entries = b"".join(_ACL_ENTRY.pack(*each) for each in limited)
        os.setxattr(file, _ACL, _ACL_BEGIN + entries)
    except OSError:
        with suppress(OSError):
            os.removexattr(file, _ACL)
        return False
    return bool(limited)


def limit_group(file: int, mode: int) -> bool:
    """Lets the group itself do no more with a file that has a list of access than a mode says.

    Whether it has one: the mode of such a file says what anybody on the list may do at most.
    """
    return _limit_listed(file, lambda tag, _: mode >> 3 if tag == _OF_GROUP else 7)


def limit_named(file: int, mode: int, named: Sequence[Listed]) -> None:
    """Lets those whom the list of access of a file names do no more with it than is said of each.

    Of whom nothing is said, that one may do no more than the group by a mode.
    """
    most = {(tag, whom): may for tag, may, whom in named}

    def may_do(tag: int, whom: int) -> int:
        is_named = tag in (_OF_USER, _OF_OTHER_GROUP)
        return most.get((tag, whom), mode >> 3) if is_named else 7

    _limit_listed(file, may_do)


def limit_to_older(file: int, mode: int, group: int, named: Sequence[Listed]) -> int:
    """Lets nobody on the list of access of a file do more with it than with an older one of this user.

    That is known by its mode, the group that the mode means, and what those may do whom its list names.
    What others may do with the new one at most, who may have been more there, is said.
    """
    before = {(tag, whom): may for tag, may, whom in named}
    older, its = (_OF_OTHER_GROUP, group), (_OF_OTHER_GROUP, os.fstat(file).st_gid)
    before[older] = before.get(older, 0) | mode >> 3 & stat.S_IRWXO
    here = {its, *((tag, whom) for tag, _, whom in _named(file))}
    gone = before.keys() - here - {(_OF_USER, os.geteuid())}
    of_groups = (may for (tag, _), may in before.items() if tag == _OF_OTHER_GROUP)
    # whoever wasn't named may have been in any of the groups, or in none
    least = reduce(and_, of_groups, mode)

    def may_do(tag: int, whom: int) -> int:
        who = its if tag == _OF_GROUP else (tag, whom)
        if who not in here:
            return 7
        of_members = (
            before[kind, user]
            for kind, user in gone
            if kind == _OF_USER != tag and who[1] in (groups_of(user) or [who[1]])
        )
        return reduce(and_, of_members, before.get(who, least))

    _limit_listed(file, may_do)
    return reduce(and_, (before[who] for who in gone), mode & stat.S_IRWXO)


def _limit_listed(file: int, most: Callable[[int, int], int]) -> bool:
    """Limits what each may do who is on the list of access of a file, and says whether it has one."""
    try:
        listed = bytearray(os.getxattr(file, _ACL))
    except OSError:
        return False
    for place in range(_ACL_FRONT, _end_of(listed), _ACL_ENTRY.size):
        tag, may, whom = _ACL_ENTRY.unpack_from(listed, place)
        _ACL_ENTRY.pack_into(listed, place, tag, may & most(tag, whom), whom)
    os.setxattr(file, _ACL, listed)
    return True


def may_of_named(file: int | Path) -> tuple[Listed, ...]:
    """What those may do whom the list of access of a file names, and its owner."""
    found = os.stat(file)
    owner = _OF_USER, found.st_mode >> 6 & 7, found.st_uid
    listed = sorted(_named(file))
    return *((tag, may & found.st_mode >> 3, whom) for tag, may, whom in listed), owner


def _end_of(listed: bytes | bytearray) -> int:
    """Where the last whole entry of a list of access ends: somebody's own file system may say any bytes."""
    return max(len(listed) - (len(listed) - _ACL_FRONT) % _ACL_ENTRY.size, _ACL_FRONT)


def gives_lists(folder: int) -> bool:
    """Whether a folder gives a list of access to each file that is made in it."""
    try:
        return bool(os.getxattr(folder, "system.posix_acl_default"))
    except OSError:
        return False


def mode_of(file: int | Path, found: os.stat_result) -> int:
    """The mode of a file, with what its group itself may do.

    If the file has a list of who may do what with it (ACL), the system shows in the place of the
    group what anybody on that list may do at most.
    """
    mode = found.st_mode & 0o777
    for tag, may, _ in access_list(file):
        if tag == _OF_GROUP:
            mode &= ~stat.S_IRWXG | may << 3
    return mode


def access_list(file: int | Path) -> list[Listed]:
    """The entries of the list of access that a file has: whom each is about, what for, and a number."""
    try:
        listed = os.getxattr(file, _ACL)
    except OSError:
        return []
    entries = _ACL_ENTRY.iter_unpack(listed[_ACL_FRONT : _end_of(listed)])
    return [(tag, may, whom) for tag, may, whom in entries]


def copy_bytes(source: int, target: int) -> None:
    """Copies a file to an empty one, with its holes, or over one that has no data where it has holes.

    Who keeps it has to have it on the disk.
    """
    size = os.fstat(source).st_size
    for place, stop in data_in(source):
        while place < stop and (
            data := os.pread(source, min(_CHUNK, stop - place), place)
        ):
            place += os.pwrite(target, data, place)
    os.ftruncate(target, size)


@contextmanager
def _known(
    folder: int, name: str, like: os.stat_result
) -> Iterator[Callable[[Place], None]]:
    """What judges whether a file that was made has the place that it was given (``Swapped``).

    ``Swapped`` if another one has its old place. It isn't opened, which might keep it from getting
    its name.
    """
    flags = os.O_PATH | os.O_NOFOLLOW | os.O_CLOEXEC
    try:
        file = os.open(name, flags, dir_fd=folder)
    except FileNotFoundError as error:
        raise Swapped from error
    try:
        before = os.fstat(file)
        if not is_same(before, like):
            raise Swapped
        yield lambda place: _judge_renamed(file, before, place)
    finally:
        os.close(file)


def _judge_renamed(file: int, before: os.stat_result, place: Place) -> None:
    """Raises ``Swapped`` unless a file has the place that it was given.

    By its new name a file system of FUSE may have it for another file, and this one for gone. Then it
    is known by its owner, its size and the time when it was written.
    """
    with suppress(OSError):
        if place.has(file):
            return
    try:
        found = os.stat(place.name, dir_fd=place.folder, follow_symlinks=False)
    except OSError as error:
        raise Swapped from error
    if _traits(found) != _traits(before):
        raise Swapped


def _traits(found: os.stat_result) -> tuple[int, ...]:
    kind, owner = stat.S_IFMT(found.st_mode), found.st_uid
    return found.st_dev, kind, owner, found.st_size, found.st_mtime_ns


@contextmanager
def _folder_of(made: Path) -> Iterator[int]:
    """The folder in which a file is made; ``Swapped`` if a link is in its place.

    Through that what is made would come into any folder of who makes it.
    """
    try:
        folder = os.open(made.parent, _FOLDER)
    except (FileNotFoundError, NotADirectoryError) as error:
        raise Swapped from error
    try:
        yield folder
    finally:
        os.close(folder)


def _own_folder(parent: str) -> tuple[int, str]:
    """A new folder, and its descriptor, by which it is locked."""
    import tempfile  # which few sessions need

    while True:
        folder = tempfile.mkdtemp(prefix=_PREFIX, dir=parent)
        try:
            descriptor = os.open(folder, os.O_RDONLY | os.O_DIRECTORY | os.O_NOFOLLOW)
        except FileNotFoundError:
            if not os.path.isdir(parent):
                raise
            continue  # another program took it for one that was left
        if _is_locked(descriptor) and os.path.exists(folder):
            return descriptor, folder
        # another program took it for one that was left
        os.close(descriptor)


def _is_locked(descriptor: int) -> bool:
    """Locks a folder, unless another program has the lock of it."""
    try:
        fcntl.flock(descriptor, fcntl.LOCK_EX | fcntl.LOCK_NB)
    except BlockingIOError:
        return False
    except OSError:
        # a file system without such locks, on which nothing is cleared away
        return True
    return True


def _clear(parent: str) -> None:
    """Clears away the folders of programs that were killed."""
    with suppress(OSError), os.scandir(parent) as entries:
        for entry in entries:
            if entry.name.startswith(_PREFIX) and entry.is_dir(follow_symlinks=False):
                with suppress(OSError):
                    _clear_left(entry.path)


def _clear_left(folder: str) -> None:
    """Clears away a folder of one's own, unless somebody works in it."""
    descriptor = os.open(folder, os.O_RDONLY | os.O_DIRECTORY | os.O_NOFOLLOW)
    try:
        if os.fstat(descriptor).st_uid == os.geteuid():
            fcntl.flock(descriptor, fcntl.LOCK_EX | fcntl.LOCK_NB)
            _remove(descriptor, folder)
    finally:
        os.close(descriptor)


def _remove(descriptor: int, folder: str) -> None:
    """Removes a folder that has no other files than are made here."""
    with suppress(OSError):
        # btrfs shows who reads on no file that was made since the folder was opened
        os.lseek(descriptor, 0, os.SEEK_SET)
        names = os.listdir(descriptor)
        if all(name in _NAMES or name.endswith(_TRIED) for name in names):
            for name in names:
                os.unlink(name, dir_fd=descriptor)
            os.rmdir(folder)


def _rename(folder: int, name: str, target: Place) -> None:
    """Renames a file of an open folder if nothing has the new name."""
    import ctypes  # which few sessions need

    library = ctypes.CDLL(None, use_errno=True)
    try:
        rename = library.renameat2
    except AttributeError:
        raise OSError(errno.ENOSYS, os.strerror(errno.ENOSYS)) from None
    words = os.fsencode(name), os.fsencode(target.name)
    if rename(folder, words[0], target.folder, words[1], _NO_REPLACE):
        number = ctypes.get_errno()
        raise OSError(number, os.strerror(number), target.name)


def _link(folder: int, name: str, target: Place) -> None:
    """Renames a file of an open folder as that does, by a link, where nothing else renames so."""
    try:
        os.link(name, target.name, src_dir_fd=folder, dst_dir_fd=target.folder)
    except OSError as error:
        if error.errno not in _NO_LINKS:
            raise
        _rename_over_empty(folder, name, target)
        return
    os.unlink(name, dir_fd=folder)
    with suppress(OSError), target.opened(os.O_RDONLY) as file:
        # else a file system of FUSE may say for a second that the file has both names
        os.fchmod(file.fileno(), stat.S_IMODE(os.fstat(file.fileno()).st_mode))


def _rename_over_empty(folder: int, name: str, target: Place) -> None:
    """Does the same on a file system without links, as of a stick: over a file that is made for it.

    No program begins a book in that meanwhile, which would be lost.
    """
    flags = os.O_RDWR | os.O_CREAT | os.O_EXCL | os.O_NOFOLLOW | os.O_CLOEXEC
    with open(os.open(target.name, flags, 0o600, dir_fd=target.folder), "r+b") as empty:
        is_own = _is_kept_empty(empty)
        try:
            if not (is_own and target.has(empty.fileno())):
                raise FileExistsError(errno.EEXIST, os.strerror(errno.EEXIST))
            names = name, target.name
            os.replace(*names, src_dir_fd=folder, dst_dir_fd=target.folder)
        except BaseException:
            if is_own and target.has(empty.fileno()):
                os.unlink(target.name, dir_fd=target.folder)
            raise


def _is_kept_empty(file: BinaryIO) -> bool:
    """Keeps others from using a new file, unless one has begun a book in it already."""
    from braildesk.opening import take_alone  # which few sessions need here

    with suppress(OSError):
        # no program uses a book where a file system has no such locks
        if not take_alone(file):
            return False
    return os.fstat(file.fileno()).st_size == 0


def _sync_folder(place: Place) -> None:
    """Has the name of a file on the disk."""
    try:
        folder = os.open(".", os.O_RDONLY | os.O_DIRECTORY, dir_fd=place.folder)
    except PermissionError:
        # a folder that may be written in and not be read
        os.sync()
        return
    try:
        sync_names(folder)
    finally:
        os.close(folder)


def sync_names(folder: int) -> None:
    """Has the names of an open folder on the disk, if its file system has a way to do so."""
    try:
        os.fsync(folder)
    except OSError as error:
        if error.errno not in _NOT_KNOWN:
            raise MayNotLast(error.errno, error.strerror) from error
