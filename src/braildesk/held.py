"""The file of a closed book, kept from being used by a session while something else is done with it."""

import os
import stat
from collections.abc import Iterator
from contextlib import contextmanager, suppress
from dataclasses import replace
from pathlib import Path
from typing import BinaryIO

from braildesk import opening
from braildesk.opening import (
    are_kept,
    has_journal,
    has_page,
    has_work,
    is_log_used,
    is_used,
    take_alone,
    take_shared,
    why_no_log,
)
from braildesk.protocol.asked import BookFile, log_path
from braildesk.protocol.sentences import Why
from braildesk.refusals import CannotOpen, Failed, Refused, cannot_open
from braildesk.text import limits
from braildesk.workshop import (
    MayNotLast,
    Place,
    access_list,
    copy_bytes,
    create,
    give_access,
    give_list,
    made_beside,
    place_of,
    put_in_place,
)
from braildesk.writers import has_more_readers, has_more_writers


@contextmanager
def held(book: BookFile, flags: int = os.O_RDONLY) -> Iterator[BinaryIO]:
    """The file of a book, open and kept from being used by a session meanwhile.

    If it is opened for writing, it is kept from all others who hold it so too.
    """
    with open_file(book, flags) as file:
        if not (take_alone if flags == os.O_RDWR else take_shared)(file):
            raise cannot_open(book, Why.IN_USE)
        if not is_at_path(book, file):
            # another one was put there in this moment
            raise cannot_open(book, Why.REPLACED)
        if not are_kept(book.real, file):
            raise cannot_open(book, Why.NO_LOCKS)
        if no_log := why_no_log(book.log):
            raise cannot_open(book, no_log)
        if has_journal(book.real):
            raise cannot_open(book, Why.JOURNAL)
        if is_log_used(book.log):
            raise cannot_open(book, Why.LOG_IN_USE)
        yield file


def open_file(book: BookFile, flags: int = os.O_RDONLY) -> BinaryIO:
    """The file of a book, which is a regular one with one name."""
    if opening.word(book.path) is None:
        raise cannot_open(book, Why.NO_PATH)
    if not opening.is_file_or_free(book.path):
        raise cannot_open(book, Why.NO_FILE)
    try:
        # a pipe at the path isn't waited for, nor is a link followed that is put there by now
        with place_of(book.real) as place:
            file = place.opened(flags)
    except OSError:
        if book.is_led_away:
            raise cannot_open(book, Why.LED_AWAY) from None
        its = replace(book, is_read=flags == os.O_RDONLY)
        raise cannot_open(its, opening.why(its)) from None
    found = os.fstat(file.fileno())
    if not stat.S_ISREG(found.st_mode) or found.st_nlink > 1:
        file.close()
        raise cannot_open(book, opening.why(book))
    if found.st_size > limits.BOOK_BYTES:
        file.close()
        raise cannot_open(book, Why.TOO_LARGE_FOR_BOOK)
    return file


def fit_log(book: BookFile) -> None:
    """Sees to it that a log lies beside a book, and that nobody may use it who may not use the book.

    What stands there is taken into the book. ``CannotOpen`` where people may have written the work in
    such a log, of which nobody knows whose it is, or where it can't be made anew. One of one's own
    gets the mode that the book has by now, and one that more may use is made anew, with the work that
    it has.
    """
    path, name = Path(book.real), Path(book.log).name
    if not os.access(path, os.W_OK):
        return
    with suppress(OSError, ValueError), place_of(book.real) as place:
        # both lie in one folder, whatever is put in its place meanwhile
        folder = place.folder
        with alone(folder, path.name) as file:
            _renew_unfit(book, place.beside("-wal"), file)
            _begin_log(folder, name, file)
            with alone(folder, name) as log:
                if has_more_writers(log, file):
                    raise _not_taken(book.path, file)
                _give_mode(log, file)
                if not _is_own(log) and has_more_readers(log, file):
                    raise cannot_open(
                        book, Why.IN_USE if is_used(file) else Why.LOG_READ
                    )


def _renew_unfit(book: BookFile, place: Place, file: BinaryIO) -> None:
    """Removes a log without work that this user may not use, or others may use who may not use the book.

    In the place of one with work a copy is put, which those don't have open who may not read the book.
    """
    folder, name = place.folder, place.name
    try:
        _refuse_other(os.stat(name, dir_fd=folder, follow_symlinks=False))
        if _is_unfit(folder, name, file):
            # while a session has the book, it is using the log
            with suppress(Refused), held(book, os.O_RDWR) as found:
                if not os.path.samestat(
                    os.fstat(found.fileno()), os.fstat(file.fileno())
                ):
                    return
                if has_page(place.size()):
                    _copy_log(book, place, file)
                else:
                    os.unlink(name, dir_fd=folder)
    except MayNotLast as failed:
        raise Failed(
            f"A copy was put in the place of “{book.log}”, which more people could read than the book, but its"
            f" folder could not be brought to the disk: {failed.strerror}. Nothing else was changed. See"
            " to the disk, and try again."
        ) from failed
    except OSError:
        # it stays, and is judged as it is
        pass


def _copy_log(book: BookFile, place: Place, file: BinaryIO) -> None:
    """Puts the bytes of a log that more may read in its place, as a new file with the access of its book.

    Whenever this ends, one of the two files has the name, and all of the work.
    """
    with alone(place.folder, place.name) as log:
        if has_more_writers(log, file) or not has_more_readers(log, file):
            return
        with made_beside(book.real) as made:
            with create(made) as written:
                copy_bytes(log.fileno(), written.fileno())
                give_list(written.fileno(), file.fileno())
                give_access(written.fileno(), file.fileno())
                os.fsync(written.fileno())
                like = os.fstat(written.fileno())
            put_in_place(made, place, like)


def _is_unfit(folder: int, name: str, file: BinaryIO) -> bool:
    if not os.access(name, os.R_OK | os.W_OK, dir_fd=folder):
        return True
    with alone(folder, name) as log:
        return has_more_writers(log, file) or has_more_readers(log, file)


def _begin_log(folder: int, name: str, file: BinaryIO) -> None:
    """Makes an empty log that is like its book, unless one is there, before somebody else makes one.

    What has no bytes is no book without a log.
    """
    if not os.fstat(file.fileno()).st_size:
        return
    flags = os.O_RDWR | os.O_CREAT | os.O_EXCL | os.O_NOFOLLOW | os.O_CLOEXEC
    with suppress(FileExistsError):
        with open(os.open(name, flags, 0o600, dir_fd=folder), "r+b") as log:
            give_list(log.fileno(), file.fileno())
            give_access(log.fileno(), file.fileno())


def _give_mode(log: BinaryIO, file: BinaryIO) -> None:
    """Gives a log of one's own the mode and the group that its book has by now.

    What a list of access gives to single users stays as it is, unless they may not read the book.
    """
    found, like = os.fstat(log.fileno()), os.fstat(file.fileno())
    if not _is_own(log):
        return
    if is_read := has_more_readers(log, file):
        give_list(log.fileno(), file.fileno())
    if is_read or not access_list(file.fileno()) and _access(found) != _access(like):
        give_access(log.fileno(), file.fileno())


def _is_own(log: BinaryIO) -> bool:
    """Whether this user may change the mode of a log."""
    return os.geteuid() in (0, os.fstat(log.fileno()).st_uid)


def _access(found: os.stat_result) -> tuple[int, int]:
    return found.st_mode & 0o777, found.st_gid


def alone(folder: int, name: str) -> BinaryIO:
    """A regular file with one name, OSError for anything else."""
    flags = os.O_RDONLY | os.O_NOFOLLOW | os.O_NONBLOCK | os.O_CLOEXEC
    # a device isn't even opened; and what was opened is looked at again, since names change
    _refuse_other(os.stat(name, dir_fd=folder, follow_symlinks=False))
    file = open(os.open(name, flags, dir_fd=folder), "rb")
    try:
        _refuse_other(os.fstat(file.fileno()))
    except OSError:
        file.close()
        raise
    return file


def _refuse_other(found: os.stat_result) -> None:
    if not stat.S_ISREG(found.st_mode) or found.st_nlink != 1:
        raise OSError("no file of its own")


def is_at_path(book: BookFile, file: BinaryIO) -> bool:
    """Whether a file that was opened is the one that stands at the path of the book."""
    try:
        found = os.stat(book.real, follow_symlinks=False)
        return os.path.samestat(found, os.fstat(file.fileno()))
    except OSError:
        return False


def copy_held(source: BinaryIO, log: str, made: Path) -> os.stat_result:
    """Copies the file of a book that is held, and the work that stands in its log.

    What was made is said, so that it is known again. ``CannotOpen`` if somebody may have written the
    log who may not write the book.
    """
    with create(made) as written:
        copy_bytes(source.fileno(), written.fileno())
        found = os.fstat(written.fileno())
    if has_work(log):
        # whatever was put in its place in this moment, nothing is waited for
        flags = os.O_RDONLY | os.O_NOFOLLOW | os.O_NONBLOCK | os.O_CLOEXEC
        path = log.removesuffix("-wal")
        try:
            work = open(os.open(log, flags), "rb")
        except PermissionError:
            book = BookFile(path, is_read=True)
            raise cannot_open(book, Why.LOG_DENIED) from None
        with work:
            if has_more_writers(work, source):
                raise _not_taken(path, source)
            with create(Path(f"{made}-wal")) as written:
                copy_bytes(work.fileno(), written.fileno())
    return found


def _not_taken(path: str, source: BinaryIO) -> CannotOpen:
    """That nothing is taken from a log which people may write who may not write its book."""
    if is_used(source):
        # a log that was put in the place of this one would end the session
        return cannot_open(BookFile(path), Why.IN_USE)
    if not os.access(path, os.W_OK):
        return cannot_open(BookFile(path), Why.LOG_OPEN_TO_READ)
    why = Why.LOG_STAYS if _is_to_stay(log_path(path)) else Why.LOG_OPEN
    return cannot_open(BookFile(path), why)


def _is_to_stay(log: str) -> bool:
    """Whether a log lies in a folder, as one that all share, that lets this user move no file of others."""
    try:
        folder = os.stat(os.path.dirname(log))
        movers = (0, folder.st_uid, os.lstat(log).st_uid)
    except OSError:
        return False
    return bool(folder.st_mode & stat.S_ISVTX) and os.geteuid() not in movers
