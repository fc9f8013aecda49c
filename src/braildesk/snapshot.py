"""Snapshots of a book that another program has open: its file and its log, copied while it is used.

A program writes to the file of a book only to empty the log into it, and begins the log anew then.
While neither happens the log only grows, so that the file and the log that are copied meanwhile hold
every command that was kept before. What was being written to the end of the log is left out by the
program that opens the copy, as after a crash.
"""

import os
import time
from collections.abc import Iterator
from contextlib import ExitStack, contextmanager
from dataclasses import replace
from os import fspath
from pathlib import Path
from typing import BinaryIO

from braildesk.held import copy_held, is_at_path, open_file
from braildesk.opening import has_work, why_no_log
from braildesk.program import StrPath
from braildesk.protocol.asked import AskedOfFile, BookFile
from braildesk.protocol.sentences import Why, of_failure
from braildesk.refusals import Failed, Refused, cannot_open, refused_as
from braildesk.workshop import give_access, give_list, made_for_a_while, open_made

#: How long a file stays as it is before it is copied, so that a later change shows in its times.
_TICK = 0.02
#: How long it is tried to copy a book between two moments at which its log is emptied, and how often at
#: least, since a try may take long.
_SECONDS, _TRIES = 10.0, 5
#: The header of a log, which is another one once the log was emptied.
_HEADER = 32


@contextmanager
def snapshot(path: StrPath, like: int | None = None) -> Iterator[Path]:
    """A copy of a book in a temporary folder, while another program may have the book open.

    It holds every command that was kept before this was called, and maybe some that were kept
    meanwhile. Nothing is made or changed beside the book's file, and nobody has to wait. If it is to
    be that of a descriptor, no other is copied that stands at the path for a moment.
    """
    with _made(path, like) as (copy, _):
        yield copy


@contextmanager
def _made(path: StrPath, like: int | None) -> Iterator[tuple[Path, os.stat_result]]:
    """Such a copy, and what it was as it was made."""
    book = BookFile.of(path)
    with ExitStack() as stack:
        try:
            copied = stack.enter_context(made_for_a_while())
            found = _copy(book, copied, like)
        except OSError as error:
            raise _not_copied(book, error) from error
        yield copied, found


@contextmanager
def copied(
    path: StrPath, like: int | None = None
) -> Iterator[tuple[Path, os.stat_result]]:
    """A copy that may be opened, also of a book that may only be read, as ``snapshot`` makes it.

    What it was as it was made is said too. What is refused of the copy names the book itself.
    """
    with _made(path, like) as (copy, found):
        copy.chmod(copy.stat().st_mode & 0o777 | 0o600)
        try:
            yield copy, found
        except Refused as refusal:
            asked = refusal.asked
            if not isinstance(asked, AskedOfFile) or asked.path != fspath(copy):
                raise
            book = replace(asked, path=fspath(path))
            raise refused_as(replace(refusal.refusal, asked=book)) from None


def _copy(book: BookFile, copied: Path, like: int | None) -> os.stat_result:
    """Copies a book and its log until they stayed the same ones meanwhile, and says what was made."""
    until, tries = time.monotonic() + _SECONDS, 0
    while True:
        with open_file(book) as file:
            if not (like is None or os.path.sameopenfile(file.fileno(), like)):
                # another one was put there in this moment
                raise cannot_open(book, Why.REPLACED)
            if found := _copied_once(book, file, copied):
                return found
            why = Why.IN_USE if is_at_path(book, file) else Why.REPLACED
        for path in (copied, Path(f"{copied}-wal")):
            path.unlink(missing_ok=True)
        tries += 1
        if time.monotonic() > until and tries >= _TRIES:
            raise cannot_open(book, why)


def _copied_once(book: BookFile, file: BinaryIO, copied: Path) -> os.stat_result | None:
    """Copies a file and its log; none if that was emptied meanwhile, or one of them was replaced."""
    log = book.log
    if no_log := why_no_log(log):
        raise cannot_open(book, no_log)
    before = _state(book, file)
    time.sleep(_TICK)
    if _state(book, file) != before:
        return None
    # so that what is made of the copy is for those whom the book is for
    found = copy_held(file, log, copied)
    with open_made(copied, found) as made:
        give_list(made.fileno(), file.fileno())
        give_access(made.fileno(), file.fileno())
        # its owner may be another one by now
        found = os.fstat(made.fileno())
    # no two logs have one header
    is_its_log = _header(f"{copied}-wal") == before[-1]
    is_whole = is_its_log and _state(book, file) == before and is_at_path(book, file)
    return found if is_whole else None


def _state(book: BookFile, file: BinaryIO) -> tuple[int, int, int, bytes]:
    """What is another one once the log was emptied: size and times of the file, the log's header."""
    found = os.fstat(file.fileno())
    try:
        header = _header(book.log)
    except PermissionError as error:
        # the newest work is there
        raise cannot_open(replace(book, is_read=True), Why.LOG_DENIED) from error
    return found.st_size, found.st_mtime_ns, found.st_ctime_ns, header


def _header(log: str) -> bytes:
    """The header of a log; nothing if there is none yet, or no work after it."""
    if not has_work(log):
        return b""
    try:
        flags = os.O_RDONLY | os.O_NOFOLLOW | os.O_NONBLOCK | os.O_CLOEXEC
        with open(os.open(log, flags), "rb", buffering=0) as file:
            return file.read(_HEADER)
    except FileNotFoundError:
        return b""


def _not_copied(book: BookFile, error: OSError) -> Failed:
    return Failed(
        f"The book “{book.path}” could not be copied to a temporary folder, to be looked at there:"
        f" {of_failure(error)}. Nothing was changed. Let TMPDIR name a folder with room for the book."
    )
