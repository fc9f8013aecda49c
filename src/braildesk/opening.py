"""Why a file can't be opened, by what is seen at its path; its lock, and waiting while it is in use."""

import errno
import fcntl
import os
import sqlite3
import stat
import struct
import time
from collections.abc import Callable, Iterable, Iterator, Mapping
from contextlib import closing, suppress
from itertools import repeat
from os import PathLike, fsencode, fspath
from types import MappingProxyType
from typing import BinaryIO, TypeVar
from urllib.parse import quote

from braildesk.named_files import data_in, open_file
from braildesk.protocol.asked import (
    AskedOfFile,
    NewBook,
    TableFile,
    is_held,
    journal_path,
    log_path,
    real_path,
)
from braildesk.protocol.sentences import Why
from braildesk.refusals import CannotOpen
from braildesk.text import limits

#: The bytes of a log up to the first page in it: its own header, and that of the page.
_BEFORE_PAGE = 32 + 24
#: What is read of those: how long a page is; which one it is, and whether a change ends with it; and
#: what is in both if the page is one of the log's.
_LOG, _PAGE = struct.Struct(">8xI4x8s8x"), struct.Struct(">II8s8x")
#: A page has no fewer bytes.
_SMALLEST_PAGE = 512
#: What the file of every book begins with.
MAGIC = b"SQLite format 3\0"
#: What a log begins with, by its two orders of bytes.
LOGS = (b"\x37\x7f\x06\x82", b"\x37\x7f\x06\x83")
#: How the names end of what a program may look for beside a book.
_BESIDE = ("-wal", "-shm", "-journal")
#: Where the system shows what it has in things that look like files.
_OF_SYSTEM = ("/proc/", "/sys/", "/dev/fd/", "/dev/std")
#: With less room than this on its disk a book may not be kept, in bytes.
_LITTLE = 2**20
#: How often a file that isn't there is looked for once more, and how long it is waited in between.
_LOOKS, _BETWEEN = 5, 0.01


def word(path: str | PathLike[str]) -> str | None:
    """The path as a word of the command line, or None if the program can't take it."""
    text = fspath(path)
    try:
        encoded = fsencode(text)
        encoded.decode()
    except UnicodeError:
        return None
    return None if b"\0" in encoded else text


def book_beside(path: str) -> str | None:
    """The path of the book that would have a file of such a name beside it, if a book may have one."""
    found = (path.removesuffix(each) for each in _BESIDE if path.endswith(each))
    return next(found, None)


def is_file_or_free(path: str) -> bool:
    """Whether a path has a file, a folder or nothing: the program would wait for a pipe there."""
    try:
        mode = os.stat(path).st_mode
    except (OSError, ValueError):
        return True
    return stat.S_ISDIR(mode) or _is_file(path, mode)


def _is_file(path: str, mode: int) -> bool:
    """Whether what has a mode is a file, and nothing of the system that may have to be waited for.

    What a process has open has other names in another one, and what stands there may be its output.
    """
    return stat.S_ISREG(mode) and not is_of_system(path)


def is_of_system(path: str) -> bool:
    """Whether a path is one at which the system shows what it has, and keeps no file."""
    try:
        names = os.path.abspath(path), os.path.realpath(path)
    except OSError:
        # it begins in a folder that is gone, where nothing is
        return False
    return any(f"{each}/".startswith(_OF_SYSTEM) for each in names)


#: What a failure of the system says of a disk.
SAID_OF_DISK: Mapping[int, Why] = MappingProxyType(
    {
        errno.ENOSPC: Why.NO_ROOM,
        errno.EDQUOT: Why.OVER_QUOTA,
        # also of one that is shown as written to, and takes nothing since it failed
        errno.EROFS: Why.READ_ONLY,
    }
)
#: What a disk may be the cause of.
_OF_DISK = (Why.UNKNOWN, Why.DENIED, Why.LOG_DENIED)


def why(asked: AskedOfFile) -> Why:
    """Why the file can't be opened."""
    found = _why(asked)
    if found in _OF_DISK and not asked.is_read:
        return _why_by_disk(asked.path) or found
    return found


def _why_by_disk(path: str) -> Why | None:
    """What of the disk keeps a book from being written, if that is seen."""
    folder = os.path.dirname(os.path.realpath(path))
    try:
        disk = os.statvfs(folder)
    except (OSError, ValueError):
        return None
    if disk.f_flag & os.ST_RDONLY:
        return Why.READ_ONLY
    return Why.NO_ROOM if little_room(path) == 0 else _why_no_file_more(folder)


def _why_no_file_more(folder: str) -> Why | None:
    """What of the disk keeps a log from being made in a folder; a file that never has a name is tried."""
    try:
        file = os.open(folder, os.O_TMPFILE | os.O_WRONLY | os.O_CLOEXEC, 0o600)
        try:
            os.write(file, MAGIC)
        finally:
            os.close(file)
    except OSError as error:
        return SAID_OF_DISK.get(error.errno or 0)
    return None


def room(path: str) -> int | None:
    """How many bytes there is room for on the disk of a path, if that is seen."""
    try:
        disk = os.statvfs(os.path.dirname(os.path.realpath(path)))
    except (OSError, ValueError):
        return None
    if not disk.f_blocks:
        # it has no blocks at all, as /proc has none, and says nothing of its room
        return None
    blocks = disk.f_bavail if os.geteuid() else disk.f_bfree
    return blocks * disk.f_frsize


def little_room(path: str) -> int | None:
    """How many bytes there is room for on the disk of a path, if they are few."""
    found = room(path)
    return found if found is not None and found < _LITTLE else None


def is_little_left(path: str) -> bool:
    """Whether a quota leaves this user little or nothing of the disk of a path; a file without a name is tried."""
    folder = os.path.dirname(os.path.realpath(path))
    try:
        file = os.open(folder, os.O_TMPFILE | os.O_WRONLY | os.O_CLOEXEC, 0o600)
        try:
            os.posix_fallocate(file, 0, _LITTLE)
        finally:
            os.close(file)
    except OSError as error:
        return error.errno == errno.EDQUOT
    return False


def why_unwritten(path: str, room: int | None) -> Why:
    """Why a book can't be written, on whose disk there is so little room, if that is seen."""
    if room is not None:
        return Why.UNKNOWN
    if is_little_left(path):
        return Why.OVER_QUOTA
    return Why.COMPUTED if _is_added_to(path) else Why.UNKNOWN


def _why(asked: AskedOfFile) -> Why:
    # what is at the path by now may be in a folder that was renamed
    path = asked.led_to or asked.path
    try:
        os.stat(path)
        return _why_not_regular(asked.path) or _why_regular(asked)
    except (FileNotFoundError, NotADirectoryError):
        if isinstance(asked, NewBook):
            return _why_not_made(asked.path)
        return Why.REPLACED if _comes_back(path) else Why.MISSING
    except PermissionError:
        return Why.DENIED
    except (OSError, ValueError):
        return Why.UNKNOWN


def _comes_back(path: str) -> bool:
    """Whether a file that wasn't at a path is there a moment later, as where others exchange two."""
    for _ in range(_LOOKS):
        if os.path.exists(path):
            return True
        time.sleep(_BETWEEN)
    return False


def _why_not_made(path: str) -> Why:
    folder = os.path.dirname(os.path.abspath(path))
    if not os.path.isdir(folder):
        return Why.NO_FOLDER
    return Why.UNKNOWN if os.access(folder, os.W_OK | os.X_OK) else Why.DENIED


def _why_not_regular(path: str) -> Why | None:
    mode = os.stat(path).st_mode
    if stat.S_ISDIR(mode):
        return Why.FOLDER
    return None if _is_file(path, mode) else Why.NO_FILE


def _why_regular(asked: AskedOfFile) -> Why:
    # what was put there in this moment isn't waited for
    if isinstance(asked, TableFile):
        with open_file(asked.path) as file:
            return (
                Why.TOO_LARGE
                if os.fstat(file.fileno()).st_size > limits.TABLE_BYTES
                else Why.UNKNOWN
            )
    with open_file(asked.path) as file:
        if os.fstat(file.fileno()).st_nlink > 1:
            return Why.LINKED
        if is_used(file):
            return Why.IN_USE
        if is_log_used(log_path(asked.path)):
            return Why.IN_USE if is_used(file) else Why.LOG_IN_USE
        found = why_contents(file)
    if no_log := why_no_log(log_path(asked.path)):
        return no_log
    if has_journal(asked.path):
        return Why.JOURNAL
    return _why_denied(asked.path) or found if found is Why.UNKNOWN else found


def why_contents(file: BinaryIO) -> Why:
    """Why what stands in a file can't be read as a database."""
    size = os.fstat(file.fileno()).st_size
    file.seek(0)
    header = file.read(100)
    if size and not header.startswith(MAGIC):
        return Why.NO_DATABASE
    return Why.CUT_SHORT if size < _size_in(header) else Why.UNKNOWN


def may_be_book(path: str | PathLike[str]) -> bool:
    """Whether what stands at a path may be a book; True if nothing does, or it can't be read."""
    try:
        with open_file(path) as file:
            return begins_as_book(file)
    except OSError:
        return True


def begins_as_book(file: BinaryIO) -> bool:
    """Whether a file begins as a book does, or has no bytes."""
    return os.pread(file.fileno(), len(MAGIC), 0) in (b"", MAGIC)


def is_of_others(path: str | PathLike[str]) -> bool:
    """Whether a file is seen to be a database of something else: it can be read, and lacks a table of books.

    So is one without tables beside which a log has work, in which they may stand.
    """
    try:
        with closing(reader(path, True)) as database:
            query = "SELECT count(*) FROM main.sqlite_schema"
            ((count,),) = database.execute(query)
            if not count:
                return has_work(f"{fspath(path)}-wal")
            return not _OF_ALL_BOOKS <= _tables_in(database).keys()
    except sqlite3.Error:
        return False


def has_tables_of_book(path: str | PathLike[str]) -> bool:
    """Whether a file is seen to have the tables that a book has in any case."""
    try:
        with closing(reader(path, True)) as database:
            return _OF_ALL_BOOKS <= _tables_in(database).keys()
    except sqlite3.Error:
        return False


def _size_in(header: bytes) -> int:
    """The size that a database has by its own header."""
    if len(header) < 100:
        return 100 if header else 0
    page = int.from_bytes(header[16:18], "big")
    return (65_536 if page == 1 else page) * int.from_bytes(header[28:32], "big")


def _why_denied(path: str) -> Why | None:
    """Which of the file, its folder and the log beside it may not be read and written, if any."""
    log = log_path(path)
    folder = os.path.dirname(log)
    if not (os.access(folder, os.R_OK | os.W_OK | os.X_OK) and _may_be_changed(path)):
        return Why.DENIED
    is_free = _may_be_changed(log) or not os.path.exists(log)
    return None if is_free else Why.LOG_DENIED


def _may_be_changed(path: str) -> bool:
    """Whether a file may be read and written; one to which may only be added may not."""
    return os.access(path, os.R_OK | os.W_OK) and not is_held(real_path(path))


def is_log(log: str) -> bool:
    """Whether a log is one that the program opens, or isn't there: a link or another file is none."""
    try:
        found = os.lstat(log)
    except FileNotFoundError:
        return True
    if not stat.S_ISREG(found.st_mode) or found.st_nlink != 1:
        return False
    # the program would begin a log in the place of a book, or of any other file, of that name
    return found.st_size == 0 or _begins_as_log(log)


def _begins_as_log(log: str) -> bool:
    """Whether a file begins as a log does, or a part of one; so if it can't be read.

    The first byte of a log is written last, and is 0 until then.
    """
    # a pipe that was put there in this moment isn't waited for
    flags = os.O_RDONLY | os.O_NOFOLLOW | os.O_NONBLOCK | os.O_CLOEXEC
    try:
        with open(os.open(log, flags), "rb") as file:
            front = file.read(len(LOGS[0]))
    except OSError:
        return True
    return front[:1] == b"\0" or any(each.startswith(front) for each in LOGS)


def why_no_log(log: str) -> Why | None:
    """Why nothing can be looked for in a log, if that is so."""
    try:
        # the program looks for that too
        has_journal(log.removesuffix("-wal"))
        return None if is_log(log) else Why.NO_LOG
    except OSError as error:
        if error.errno == errno.ENAMETOOLONG:
            return Why.LONG_NAME
        raise


def has_work(log: str) -> bool:
    """Whether a log is there that may hold what isn't in the book's file."""
    try:
        return has_page(os.path.getsize(log))
    except FileNotFoundError:
        return False


def has_page(size: int) -> bool:
    """Whether a log of so many bytes may hold anything of a book."""
    return size > _BEFORE_PAGE


def changes_in(log: str) -> int:
    """How many changes a log holds at most, none if it isn't there: a page ends each of them."""
    try:
        file = open(log, "rb")
    except FileNotFoundError:
        return 0
    with file:
        head = file.read(_LOG.size)
        size, salt = _LOG.unpack(head) if len(head) == _LOG.size else (0, b"")
        count = 0
        while (
            size >= _SMALLEST_PAGE and len(head := file.read(_PAGE.size)) == _PAGE.size
        ):
            number, ends, of = _PAGE.unpack(head)
            if not number or of != salt:
                # nobody reads on there, and what comes may be holes without end
                break
            count += ends > 0
            file.seek(size, os.SEEK_CUR)
        return count


def has_journal(path: str) -> bool:
    """Whether a journal is there that says that a change of the file wasn't ended."""
    journal = journal_path(path)
    try:
        if not stat.S_ISREG(os.lstat(journal).st_mode):
            return True
        # a pipe that was put there in this moment isn't waited for
        flags = os.O_RDONLY | os.O_NOFOLLOW | os.O_NONBLOCK
        with open(os.open(journal, flags), "rb") as file:
            return file.read(1) not in (b"", b"\0")
    except PermissionError:
        # the program takes one that it can't look at for such a journal
        return True
    except OSError as error:
        if error.errno == errno.ENAMETOOLONG:
            raise
        return False


# The lock of a book's file keeps two programs from using it at once. It is that of an open file and
# not of a process, as the program takes it, so that it holds whatever else this process opens and
# closes.
#: The bytes that stand for the lock of a file, by the format of SQLite's files.
_FIRST_LOCKED = 0x40000000
_COUNT_LOCKED = 512
#: The kind of a lock, from where its bytes are counted, which they are, and a process.
_LOCK = struct.Struct("hhqqi0q")
#: How long a program that comes to its end has the log when it has given up the file, in seconds.
_LEAVING = 0.1


def take_shared(file: BinaryIO) -> bool:
    """Keeps programs from using the file until it is closed, unless one uses it already."""
    return _take(file, fcntl.F_RDLCK)


def take_alone(file: BinaryIO) -> bool:
    """Keeps all others from using or reading the file until it is closed, unless one does so.

    The file is open for writing.
    """
    return _take(file, fcntl.F_WRLCK)


def are_kept(path: str, file: BinaryIO) -> bool:
    """Whether the lock of a file is given to nobody else while it is held here.

    Where the file may not be written, that isn't tried.
    """
    flags = os.O_RDWR | os.O_NOFOLLOW | os.O_NONBLOCK | os.O_CLOEXEC
    try:
        other = open(os.open(path, flags), "r+b", buffering=0)
    except OSError:
        return True
    with other:
        found, held = os.fstat(other.fileno()), os.fstat(file.fileno())
        return not (os.path.samestat(found, held) and _take(other, fcntl.F_WRLCK))


def is_used(file: BinaryIO | int) -> bool:
    """Whether a program uses the file, or reads it with a shared lock."""
    return _lock_of(file) != fcntl.F_UNLCK


def _lock_of(file: BinaryIO | int) -> int:
    """The kind of the lock that somebody else has of a file."""
    found: bytes = fcntl.fcntl(file, fcntl.F_OFD_GETLK, _lock(fcntl.F_WRLCK))
    return int(_LOCK.unpack(found)[0])


def is_log_used(log: str) -> bool:
    """Whether a program has a log open, while the file beside it isn't used, if that can be seen.

    It has another file then, beside which the log was when it opened both.
    """
    flags = os.O_RDONLY | os.O_NOFOLLOW | os.O_NONBLOCK | os.O_CLOEXEC
    until = time.monotonic() + _LEAVING
    with suppress(OSError), open(os.open(log, flags), "rb") as file:
        while is_used(file):
            if time.monotonic() > until:
                return True
            time.sleep(_LEAVING / 10)
    return False


def is_log_another(path: str, log: str) -> bool:
    """Whether a session has a file open, but not the log beside it, if that can be seen.

    It has another log then, which was beside the file when it opened both. Who only reads the file has a
    shared lock of that alone.
    """
    flags = os.O_RDONLY | os.O_NOFOLLOW | os.O_NONBLOCK | os.O_CLOEXEC
    until = time.monotonic() + _LEAVING
    with suppress(OSError), open(os.open(log, flags), "rb") as beside:
        with open(os.open(path, flags), "rb") as file:
            while not is_used(beside) and _lock_of(file) == fcntl.F_WRLCK:
                if time.monotonic() > until:
                    return True
                time.sleep(_LEAVING / 10)
    return False


def _take(file: BinaryIO, kind: int) -> bool:
    try:
        fcntl.fcntl(file, fcntl.F_OFD_SETLK, _lock(kind))
    except OSError as error:
        if error.errno in (errno.EACCES, errno.EAGAIN):
            return False
        raise
    return True


def _lock(kind: int) -> bytes:
    return _LOCK.pack(kind, os.SEEK_SET, _FIRST_LOCKED, _COUNT_LOCKED, 0)


# A view and a virtual table give rows that stand nowhere in the file, perhaps without end. No table
# of a book is one.
#: How many steps of SQLite's machine may be taken in a file of a stranger.
STEPS = 100_000
#: How many of them a byte of a row takes at most.
_STEPS_OF_BYTE = 4
#: A file of so many bytes is read by the program within some three seconds, whatever its rows are.
_SOON_READ = 1 << 26
#: The bytes of a character at most, and the cells for it, with those of a sign before it.
_WIDE, _CELLS = 4, 40
#: The bytes of a value of a book at most, but for the text of a table: the cells of a print.
_VALUE = max(limits.LINE_BYTES, limits.PRINT_CHARACTERS * _CELLS)
#: Those of a table's text, with its line endings and a byte order mark.
_TABLE_TEXT = limits.TABLE_LINES * (limits.TABLE_LINE_CHARACTERS * _WIDE + 2) + 3
#: The columns of each table of a book, what gives its longest bytes, or 0, and how many bytes a value
#: has at most.
_TABLES: Mapping[bytes, tuple[str, str, int]] = MappingProxyType(
    {
        b"book": ("id format version", "0", _VALUE),
        b"tab": ("name", "max(length(body))", _TABLE_TEXT),
        b"para": ("id place tab original print style volume struck", "0", _VALUE),
        b"corr": ("para seq kind start len body", "0", _VALUE),
        b"corr2": ("para seq kind start len body who", "0", _VALUE),
        b"mark": ("id para start stop note touched resolved", "0", _VALUE),
        b"cache": ("para", "max(length(cells))", _VALUE),
    }
)
#: The tables that a book has in any case.
_OF_ALL_BOOKS = {b"book", b"tab", b"para"}
#: The bytes of a definition in a schema at most.
_SCHEMA = 1 << 20
#: What SQLite ends by if there is too much to be read.
_ENDLESS = (sqlite3.SQLITE_INTERRUPT, sqlite3.SQLITE_TOOBIG)
#: The front of what SQLite says of a schema that it can't read.
_MALFORMED = "malformed database schema"


def reader(path: str | PathLike[str], is_alone: bool) -> sqlite3.Connection:
    """What reads a file of which nobody knows who made it: alone, or with the log beside it."""
    # neither way makes a file where none is any more
    how = "mode=rw&immutable=1" if is_alone else "mode=rw"
    address = f"file:{quote(fsencode(fspath(path)))}?{how}"
    database = sqlite3.connect(address, uri=True)
    database.setlimit(sqlite3.SQLITE_LIMIT_LENGTH, _SCHEMA)
    database.execute("PRAGMA trusted_schema = OFF")
    database.set_progress_handler(lambda: 1, STEPS)
    return database


def fault_in(path: str | PathLike[str], is_alone: bool) -> Why | None:
    """What in a file keeps it from being opened; None if the program has to say it."""
    try:
        with closing(reader(path, is_alone)) as database:
            tables = _tables_in(database)
            if not all(tables.values()):
                return Why.COMPUTED
            size = _size(path) + (0 if is_alone else _size(f"{fspath(path)}-wal"))
            is_long = size > _SOON_READ and _has_long_value(database, size, tables)
            return Why.TOO_LONG if is_long else None
    except sqlite3.Error as error:
        code = getattr(error, "sqlite_errorcode", None)
        is_malformed = str(error).startswith(_MALFORMED)
        return Why.NO_SCHEMA if code in _ENDLESS or is_malformed else None


def _tables_in(database: sqlite3.Connection) -> dict[bytes, bool]:
    """The names of a book that are there, and whether each is that of a table that keeps its rows.

    SQLite refuses a schema whose rows name another kind than their texts, but takes a virtual table
    for one. Its own list of all tables is not asked for: it goes through all views for that, which
    has no end if each of them has another one twice. Nor are the columns of a view, for that reason.
    """
    database.text_factory = bytes
    names = ", ".join(f"'{name.decode()}'" for name in _TABLES)
    rows = database.execute(
        "SELECT lower(name),"
        " CASE WHEN type = 'table' AND rootpage > 0 AND sql LIKE 'CREATE TABLE%' THEN"
        " NOT EXISTS (SELECT 1 FROM pragma_table_xinfo(s.name, 'main') WHERE hidden) END"
        " FROM main.sqlite_schema s"
        f" WHERE type IN ('table', 'view') AND lower(name) IN ({names})"
    )
    return {name: bool(keeps_rows) for name, keeps_rows in rows}


def _is_added_to(path: str | PathLike[str]) -> bool:
    """Whether a table of a book has an index that a book doesn't have, if that is seen.

    By that a change may fail that the book takes.
    """
    names = ", ".join(f"'{name.decode()}'" for name in _TABLES)
    query = (
        "SELECT count(*) FROM main.sqlite_schema s, pragma_index_list(s.name, 'main')"
        f" WHERE type = 'table' AND lower(s.name) IN ({names}) AND origin <> 'pk'"
    )
    try:
        with closing(reader(path, True)) as database:
            ((count,),) = database.execute(query)
            return bool(count)
    except sqlite3.Error:
        return False


def _has_long_value(
    database: sqlite3.Connection, size: int, names: Iterable[bytes]
) -> bool:
    """Whether a value in a file of such a size is longer than any of a book, or its rows have no end."""
    # a row takes few steps for each of its bytes, unless one page stands for many
    rounds = (STEPS + _STEPS_OF_BYTE * size) // STEPS
    # Ctrl-C raises nothing in what runs no line of Python, and what fails ends the query
    database.set_progress_handler(repeat(0, rounds).__next__, STEPS)
    for name in names:
        columns, longest_bytes, most = _TABLES[name]
        # a longer text isn't read at all, and of bytes only how many they are
        database.setlimit(sqlite3.SQLITE_LIMIT_LENGTH, most)
        counts = ", ".join(f"count({column})" for column in columns.split())
        query = f"SELECT {counts}, {longest_bytes} FROM main.{name.decode()}"
        try:
            *_, longest = database.execute(query).fetchone()
        except sqlite3.Error as error:
            if getattr(error, "sqlite_errorcode", None) in _ENDLESS:
                return True
        else:
            if (longest or 0) > most:
                return True
    return False


def _size(path: str | PathLike[str]) -> int:
    """The bytes of a file without its holes, which have no row; none if it isn't there."""
    try:
        with open_file(path) as file:
            return sum(stop - place for place, stop in data_in(file.fileno()))
    except OSError:
        return 0


#: What of a book no command changes or takes away, in an order that a later book keeps.
_LASTING = (
    "SELECT id, original FROM main.para ORDER BY id",
    "SELECT para, seq, kind, start, len, body, who FROM main.corr2 ORDER BY para, seq",
    "SELECT id, para, note FROM main.mark ORDER BY id",
)


def goes_on(
    earlier: str | PathLike[str], later: str | PathLike[str], changes: int
) -> bool:
    """Whether one book has all of another, as after at most so many changes; both were checked.

    If more versions than that lie between them, a change that was made there is in neither. It is
    also said to have all if they can't be compared, as where one is of an older format.
    """
    try:
        with closing(_whole(earlier)) as before, closing(_whole(later)) as after:
            if not 0 <= version_in(after) - version_in(before) <= changes:
                return False
            return all(_has_all(before.execute(q), after.execute(q)) for q in _LASTING)
    except sqlite3.Error:
        return True


def _whole(path: str | PathLike[str]) -> sqlite3.Connection:
    """What reads all of a book that was checked, however many rows it has."""
    database = reader(path, True)
    database.set_progress_handler(None, 0)
    database.text_factory = bytes
    return database


def version_in(database: sqlite3.Connection) -> int:
    """The version of the book that a file holds."""
    ((version,),) = database.execute("SELECT version FROM main.book")
    return int(version)


def _has_all(rows: Iterable[object], found: Iterator[object]) -> bool:
    """Whether rows are among others, both in their order."""
    return all(row in found for row in rows)


Result = TypeVar("Result")
#: The first and the longest time between two attempts, in seconds.
_FIRST_PAUSE, _LONGEST_PAUSE = 0.02, 0.25
#: How often it is tried again, if the cause isn't seen: the other program ended before it was looked for.
_UNSEEN = 4
#: What may be over soon, and is waited for.
_PASSING = (Why.IN_USE, Why.LOG_IN_USE, Why.REPLACED)


def waited(attempt: Callable[[], Result], seconds: float) -> Result:
    """What an attempt gives, which is made again for so many seconds while the book is in use."""
    until = time.monotonic() + seconds
    pause, unseen = _FIRST_PAUSE, 0
    while True:
        try:
            return attempt()
        except CannotOpen as refusal:
            left = until - time.monotonic()
            is_used = refusal.why in _PASSING and left > 0
            is_unseen = refusal.why in (Why.UNKNOWN, Why.REPLACED)
            unseen += is_unseen
            if not is_used and not (is_unseen and unseen <= _UNSEEN):
                raise
        time.sleep(min(pause, max(left, 0)))
        pause = min(pause * 2, _LONGEST_PAUSE)
