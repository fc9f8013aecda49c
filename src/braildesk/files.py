"""What the file of a book holds: its tables, and its version."""

import sqlite3
from collections.abc import Iterator
from contextlib import ExitStack, closing, contextmanager
from pathlib import Path
from typing import BinaryIO

from braildesk import opening
from braildesk.held import copy_held, held
from braildesk.opening import has_work, reader, waited
from braildesk.program import StrPath
from braildesk.protocol.asked import BookFile
from braildesk.protocol.codes import Code
from braildesk.protocol.sentences import of_failure
from braildesk.protocol.values import Table
from braildesk.refusals import Failed, cannot_open, refused
from braildesk.text import limits
from braildesk.workshop import made_for_a_while

#: What SQLite is kept to when it reads a file of a stranger, as its page "Defense Against The Dark
#: Arts" has it; no table is longer.
_LIMITS = (
    (sqlite3.SQLITE_LIMIT_LENGTH, limits.TABLE_BYTES + 65_536),
    (sqlite3.SQLITE_LIMIT_EXPR_DEPTH, 10),
    (sqlite3.SQLITE_LIMIT_COMPOUND_SELECT, 3),
    (sqlite3.SQLITE_LIMIT_VDBE_OP, 25_000),
    (sqlite3.SQLITE_LIMIT_FUNCTION_ARG, 8),
    (sqlite3.SQLITE_LIMIT_ATTACHED, 0),
    (sqlite3.SQLITE_LIMIT_TRIGGER_DEPTH, 1),
)


def read_tables(path: StrPath, *, timeout: float = 0.0) -> tuple[Table, ...]:
    """The tables of the book in a closed file, in the order of their names.

    The file is only read, with what stands in the log beside it. While a session has it open, that
    is refused (``CannotOpen``), once it was tried again for ``timeout`` seconds.
    """
    book = BookFile.of(path)
    return waited(lambda: _tables(book), timeout)


def read_version(path: StrPath) -> int:
    """The version of the book in a closed file, whose other contents aren't judged."""
    book = BookFile.of(path)
    with contents(book) as database:
        try:
            return opening.version_in(database)
        except (sqlite3.Error, ValueError, TypeError, OverflowError):
            raise refused(Code.NOT_A_BOOK, book) from None


def open_tables(book: BookFile, file: BinaryIO) -> tuple[Table, ...]:
    """The tables of a book in a file that a session of this process has open, which does nothing."""
    with _database(book, file) as database:
        return _tables_in(book, database)


def _tables(book: BookFile) -> tuple[Table, ...]:
    with contents(book) as database:
        return _tables_in(book, database)


def _tables_in(book: BookFile, database: sqlite3.Connection) -> tuple[Table, ...]:
    rows = _rows_of_tables(book, database)
    found = [
        Table(name, text)
        for name, text in rows
        if isinstance(name, str) and isinstance(text, bytes)
    ]
    if len(found) < len(rows) or len(found) > limits.TABLES:
        raise refused(Code.NOT_A_BOOK, book)
    return tuple(sorted(found, key=lambda table: table.name))


@contextmanager
def contents(book: BookFile) -> Iterator[sqlite3.Connection]:
    """What a closed book holds, for reading. Nothing is made or changed beside its file."""
    with held(book) as file, _database(book, file) as database:
        yield database


@contextmanager
def _database(book: BookFile, file: BinaryIO) -> Iterator[sqlite3.Connection]:
    """What a file holds, with what stands in the log beside it, while nobody writes either."""
    log = book.log
    if not has_work(log):
        with closing(_reader(book.real, True)) as database:
            yield database
        return
    with _copied(book, file, log) as copied:
        with closing(_reader(copied, False)) as database:
            yield database


@contextmanager
def _copied(book: BookFile, file: BinaryIO, log: str) -> Iterator[Path]:
    """A copy of a book with the work in its log, in a temporary folder."""
    with ExitStack() as stack:
        try:
            copied = stack.enter_context(made_for_a_while())
            # from the file that is locked, whatever stands at its path by now
            copy_held(file, log, copied)
        except OSError as error:
            raise _no_copy(book, error) from error
        yield copied


def _no_copy(book: BookFile, error: OSError) -> Failed:
    return Failed(
        f"The book “{book.path}” could not be copied to a temporary folder, in which its tables are"
        f" read with the work in its log: {of_failure(error)}. Nothing was changed. Let TMPDIR name a"
        " folder with room for the book."
    )


def _reader(path: StrPath, is_alone: bool) -> sqlite3.Connection:
    """What reads the rows of a stranger's file."""
    database = reader(path, is_alone)
    database.execute("PRAGMA cell_size_check = ON")
    for limit, most in _LIMITS:
        database.setlimit(limit, most)
    return database


def _rows_of_tables(
    book: BookFile, database: sqlite3.Connection
) -> list[tuple[object, ...]]:
    """The rows of the book's tables, or one too many, of a file that may be no book.

    A view is no table, and isn't read.
    """
    try:
        is_table = database.execute(
            "SELECT count(*) FROM main.sqlite_schema WHERE type = 'table' AND rootpage > 0"
            " AND name = 'tab' COLLATE NOCASE"
        ).fetchone()
        if is_table != (1,):
            raise refused(Code.NOT_A_BOOK, book)
        cursor = database.execute("SELECT name, body FROM main.tab")
        return cursor.fetchmany(limits.TABLES + 1)
    except sqlite3.OperationalError:
        raise refused(Code.NOT_A_BOOK, book) from None
    except sqlite3.DatabaseError:
        # the file is held here, so its lock says nothing
        with open(book.path, "rb") as file:
            raise cannot_open(book, opening.why_contents(file)) from None
