"""Books that are made whole or not at all: new ones, and copies."""

import errno
import os
import sqlite3
from collections.abc import Callable, Iterator, Sequence
from contextlib import ExitStack, closing, contextmanager, suppress
from dataclasses import dataclass, replace
from os import fspath
from pathlib import Path
from typing import Any, BinaryIO

from braildesk import opening, program as programs
from braildesk.held import copy_held, held, open_file
from braildesk.opening import has_journal, has_work, is_log, waited
from braildesk.program import StrPath
from braildesk.protocol.asked import (
    BookFile,
    NewBook,
    SeenPath,
    log_path,
    real_path,
)
from braildesk.protocol.requests import Command
from braildesk.protocol.sentences import Why, of_failure
from braildesk.refusals import (
    CannotOpen,
    DeskError,
    Failed,
    Lost,
    Refused,
    SessionEnded,
    cannot_open,
    refused_as,
)
from braildesk.session import Session
from braildesk.workshop import (
    MayNotLast,
    OthersLink,
    Place,
    Swapped,
    copy_bytes,
    create,
    give_access,
    give_list,
    is_same,
    made_beside,
    made_for_a_while,
    open_made,
    own_path,
    place_of,
    put,
    put_over,
)

_ROOM = "Let TMPDIR name a folder with room."
#: Why a copy can't be opened where it is, whatever is so of the book.
_OF_PLACE = (Why.NO_ROOM, Why.OVER_QUOTA, Why.READ_ONLY, Why.DENIED)
#: Whether the copy takes the place of a file that is held.
_Replaces = Callable[[str, BinaryIO], bool]
#: What is said where a file may be written, and none may be put in its place: a mount, or a folder in
#: which nothing may be made.
_MAY_NOT_BE_REPLACED = (errno.EPERM, errno.EACCES, errno.EBUSY)
#: What may be of a file whose folder isn't on the disk yet.
_GONE, _OLDER = "it may be gone", "the older file may be there"


class NotMade(DeskError):
    """A book isn't made, since its path is taken."""


class NotCopied(NotMade):
    """A copy isn't made, since its path is taken."""


class FileIsThere(NotCopied):
    """A copy isn't made, since it would replace a file, and nobody asked for that."""


def new_book(
    path: StrPath,
    program: StrPath | None = None,
    *,
    holding: Sequence[Command[Any]] = (),
    timeout: float = 0.0,
) -> None:
    """Makes a book in a file: an empty one, or one in which some commands are carried out.

    A new file gets its name when all of that is in it, so that if anything fails there is none.
    A file with an empty book is taken as it is; one with another book is refused (99). While another
    program has it open, this is tried again for ``timeout`` seconds.
    """
    asked = NewBook(fspath(path))
    waited(lambda: _new_book(asked, program, holding), timeout)


def _new_book(
    asked: NewBook, program: StrPath | None, holding: Sequence[Command[Any]]
) -> None:
    if opening.word(asked.path) is None:
        raise cannot_open(asked, Why.NO_PATH)
    _judge_slash(asked.path, NotMade)
    if _leads_nowhere(asked.path):
        raise NotMade(
            f"“{asked.path}” is a link that leads to no file. Nothing was made. Remove the link, or"
            " take the path to which it leads."
        )
    try:
        if not os.path.lexists(asked.path):
            _judge_log(asked.path, NotMade, "new book")
            # unless another program makes one in this moment
            with suppress(FileExistsError):
                _make(asked, program, holding)
                return
        _judge_name(asked.path, NotMade, "new book")
        path = _followed(asked.path, NotMade, "made")
        if _fill(asked, path, program, holding):
            return
    except OSError as error:
        if error.errno == errno.ENAMETOOLONG:
            raise NotMade(
                f"“{asked.path}”, or the path of a file beside it, which ends in -journal besides, is too"
                " long. Nothing was made. Take a shorter one."
            ) from None
        why = opening.SAID_OF_DISK.get(error.errno or 0) or opening.why(asked)
        raise cannot_open(asked, why) from None
    # what is put in the place of the empty book by now isn't opened
    _carry_out(SeenPath.of(asked.path, path), program, holding)


def _judge_slash(named: str, kind: type[NotMade]) -> None:
    """Whether a path is that of a file; what opens it says of one that is there that it is a folder."""
    if named.endswith("/") and not os.path.isdir(named):
        raise kind(
            f"“{named}” ends in a slash, as only the path of a folder does. Nothing was made. Take the"
            " path of a file."
        )


def _leads_nowhere(path: str) -> bool:
    """Whether there is a link at a path, and no file to which it leads."""
    try:
        os.stat(path)
    except (FileNotFoundError, NotADirectoryError):
        return os.path.islink(path)
    except (OSError, ValueError) as error:
        return getattr(error, "errno", None) == errno.ELOOP
    return False


def _make(
    asked: NewBook, program: StrPath | None, holding: Sequence[Command[Any]]
) -> None:
    """Makes a book where none is, and gives it its name once it is whole.

    The program makes it in a folder of which nobody else can put another in the place.
    """
    target = real_path(asked.path)
    with made_beside(target) as made, ExitStack() as stack:
        place = stack.enter_context(place_of(target))
        stack.enter_context(_failing_whole(asked))
        begun = stack.enter_context(_temporary())
        _begin(begun, asked, program, holding)
        # by the program it would have a mode that no group may write by, whatever the umask says
        with open(begun, "rb") as whole, create(made, 0o666) as file:
            copy_bytes(whole.fileno(), file.fileno())
            os.fsync(file.fileno())
            written = os.fstat(file.fileno())
        put(made, place, written)


def _fill(
    asked: NewBook, path: str, program: StrPath | None, holding: Sequence[Command[Any]]
) -> bool:
    """Puts a book in the place of an empty file, and says whether it was one.

    An empty book stays as it is. A file that nothing may replace becomes a book itself. The program
    makes and judges another one: a link that is put in the place of this would lead it to any of this
    user.
    """
    with held(BookFile(asked.path), os.O_RDWR) as file, ExitStack() as stack:
        place = stack.enter_context(place_of(path))
        found = os.fstat(file.fileno())
        if found.st_size:
            _judge_copy(file, asked, program)
            return False
        if found.st_uid != os.geteuid():
            raise NotMade(
                f"“{asked.path}” is an empty file of another user, who could read and change what is put"
                " there. Nothing was made. Take another path for the new book."
            )
        stack.enter_context(_failing_whole(asked))
        begun = stack.enter_context(_temporary())
        _judge_log(asked.path, NotMade, "new book")
        _begin(begun, NewBook(fspath(begun)), program, holding)
        whole = stack.enter_context(open(begun, "rb"))
        try:
            _put_over_empty(whole, file, path, place)
        except OSError as error:
            if error.errno not in _MAY_NOT_BE_REPLACED:
                raise
            place.judge(file.fileno())
            _write_into(file, whole)
    return True


def _put_over_empty(whole: BinaryIO, empty: BinaryIO, path: str, place: Place) -> None:
    """Puts a file with these bytes in the place of an empty one, with the access of that.

    The umask keeps others from it as from any new book.
    """
    with made_beside(path) as made:
        with create(made, 0o666) as written:
            most = os.fstat(written.fileno()).st_mode
            os.fchmod(written.fileno(), 0o600)
            copy_bytes(whole.fileno(), written.fileno())
            give_list(written.fileno(), empty.fileno())
            give_access(written.fileno(), empty.fileno())
            _limit(written, most)
            os.fsync(written.fileno())
            like = os.fstat(written.fileno())
        place.judge(empty.fileno())
        put_over(made, place, like)


def _limit(file: BinaryIO, most: int) -> None:
    """Takes from the mode of a file what another mode doesn't have."""
    mode = os.fstat(file.fileno()).st_mode & 0o777
    if mode & ~most:
        os.fchmod(file.fileno(), mode & most)


def _write_into(empty: BinaryIO, whole: BinaryIO) -> None:
    """Writes a book into an empty file itself, which is empty again if that fails."""
    with _temporary() as made, create(made, 0o666) as new:
        _limit(empty, os.fstat(new.fileno()).st_mode)
    try:
        copy_bytes(whole.fileno(), empty.fileno())
        os.fsync(empty.fileno())
    except OSError:
        os.ftruncate(empty.fileno(), 0)
        raise


def _judge_copy(file: BinaryIO, asked: NewBook, program: StrPath | None) -> None:
    """Refuses a held file that isn't an empty book, by what the program says of a copy."""
    try:
        with _temporary() as begun:
            try:
                copy_held(file, log_path(asked.path), begun)
            except OSError as error:
                folder = f"{begun.parent.parent}, the temporary folder,"
                raise Failed(
                    f"{folder} takes no copy of what is there. {_ROOM}"
                ) from error
            programs.make_book(begun, program)
    except Refused as refusal:
        raise refused_as(replace(refusal.refusal, asked=asked)) from None
    except Failed as failed:
        raise Failed(
            f"“{asked.path}” isn't empty, and was left as it is: {failed.sentence}"
        ) from failed


@contextmanager
def _failing_whole(asked: NewBook) -> Iterator[None]:
    """Says of what fails while a book is made that there is none."""
    try:
        yield
    except MayNotLast as failed:
        raise _may_not_last(f"new book “{asked.path}”", failed, _GONE) from failed
    except FileExistsError:
        raise
    except (Failed, OSError) as failed:
        if isinstance(failed, OSError) and failed.errno in opening.SAID_OF_DISK:
            raise
        raise Failed(
            f"The new book “{asked.path}” could not be written, and there is none:"
            f" {_sentence(failed)}"
        ) from failed


def _begin(
    begun: Path,
    asked: NewBook,
    program: StrPath | None,
    holding: Sequence[Command[Any]],
) -> None:
    """Makes a book in the temporary folder; ``Failed`` says if that is why there is none."""
    folder = f"{begun.parent.parent}, the temporary folder,"
    full = Failed(f"{folder} could not keep all of it. {_ROOM}")
    try:
        programs.make_book(begun, program, named=asked.path)
        _carry_out(begun, program, holding)
    except CannotOpen as refusal:
        raise Failed(f"{folder} takes no file. {_ROOM}") from refusal
    except SessionEnded as ended:
        # what may be in a book that is thrown away is of no use to anybody
        raise Failed(ended.cause) from ended
    except Lost as lost:
        raise full from lost
    if has_work(f"{begun}-wal"):
        raise full


@contextmanager
def _temporary() -> Iterator[Path]:
    """A path in a temporary folder; ``Failed`` if none can be made."""
    with ExitStack() as stack:
        try:
            path = stack.enter_context(made_for_a_while())
        except OSError as error:
            why = f"no temporary folder can be made ({of_failure(error)})"
            raise Failed(f"{why}. {_ROOM}") from error
        yield path


def _may_not_last(what: str, failed: MayNotLast, after: str) -> Failed:
    return Failed(
        f"The {what} is made and whole, but its folder could not be brought to the disk:"
        f" {of_failure(failed)}. After a loss of power {after}."
    )


def _sentence(failed: Failed | OSError) -> str:
    return failed.sentence if isinstance(failed, Failed) else f"{_why(failed)}."


def _carry_out(
    path: StrPath, program: StrPath | None, commands: Sequence[Command[Any]]
) -> None:
    if commands:
        with Session(path, program) as session:
            for command in commands:
                session.ask(command)


def copy(
    path: StrPath,
    to: StrPath,
    *,
    overwrite: bool = False,
    only_books: bool = False,
    program: StrPath | None = None,
    timeout: float = 0.0,
) -> int:
    """Copies a closed book, with what stands in the log beside it, and gives its version.

    The copy is written in a folder beside ``to``, opened there by the program, and gets its name
    only then. A file that is at ``to`` already is replaced only if ``overwrite`` says so, and, with
    ``only_books``, if it begins as a book and isn't seen to be another database; no session can open
    it meanwhile. While a session has one of them open, this is tried again for ``timeout`` seconds.
    """
    book, named = BookFile.of(path), fspath(to)
    is_replaced = _may_be_book if only_books else lambda path, file: True
    replaces = is_replaced if overwrite else None
    return waited(lambda: _copied(book, named, replaces, program), timeout)


def copy_open(path: StrPath, to: StrPath, *, overwrite: bool = False) -> int:
    """Copies a book that another program may have open, as ``copy`` does with ``only_books``.

    It is copied to a temporary folder first, with every command that was kept before this was called.
    """
    # imported here, since few books are copied while they are open
    from braildesk.snapshot import copied

    replaces = _may_be_book if overwrite else None
    book = open_file(BookFile.of(path))
    with book, copied(path, book.fileno()) as (now, made):

        def book_of(copy: BinaryIO) -> BinaryIO:
            """The book, unless another file was put in the place of its copy."""
            if not is_same(os.fstat(copy.fileno()), made):
                raise Swapped
            return book

        return _copied(BookFile.of(now), fspath(to), replaces, None, book_of)


def _copied(
    book: BookFile,
    named: str,
    replaces: _Replaces | None,
    program: StrPath | None,
    book_of: Callable[[BinaryIO], BinaryIO] = lambda source: source,
) -> int:
    """Copies a book, or a copy of one, of which the file of that book is said."""
    try:
        with held(book) as source:
            its = book_of(source)
            with _claimed(its, named, replaces) as target:
                with made_beside(target.path) as made:
                    copied = copy_held(source, book.log, made)
                    version = _checked(made, copied, book, named, program)
                    _put(made, target, _finish(its, made, copied))
    except FileIsThere:
        if replaces is None:
            raise
        # it was put there in this moment, and is to be replaced too
        return _copied(book, named, replaces, program, book_of)
    except (OSError, ValueError) as error:
        raise _not_written(named, _why(error)) from error
    return version


@dataclass(frozen=True, slots=True)
class _Target:
    """Where a copy goes: the path as it was given, where that leads, and its place by then."""

    named: str
    path: str
    place: Place
    #: The file of the book that is replaced, if one is.
    older: BinaryIO | None = None


@contextmanager
def _claimed(
    source: BinaryIO, named: str, replaces: _Replaces | None
) -> Iterator[_Target]:
    """A path at which a copy may be put. The lock of a file that is there is held all the while."""
    if opening.word(named) is None:
        raise cannot_open(BookFile(named), Why.NO_PATH)
    _judge_slash(named, NotCopied)
    path = real_path(named)
    if os.path.isdir(path):
        raise cannot_open(BookFile(named), Why.FOLDER)
    with ExitStack() as stack:
        if not os.path.lexists(named):
            _judge_log(named, NotCopied, "copy")
            yield _Target(named, path, stack.enter_context(place_of(path)))
            return
        if os.path.exists(path) and os.path.samestat(
            os.stat(path), os.fstat(source.fileno())
        ):
            raise NotCopied(
                f"“{named}” is the book itself. Take another path for the copy."
            )
        if replaces is None:
            raise _taken(named)
        _judge_name(named, NotCopied, "copy")
        path = _followed(named, NotCopied, "replaced")
        older = stack.enter_context(held(BookFile(named), os.O_RDWR))
        if not replaces(path, older):
            raise NotCopied(
                f"“{named}” is no book, and was left as it is. Take another path for the copy."
            )
        place = stack.enter_context(place_of(path))
        place.judge(older.fileno())
        yield _Target(named, path, place, older)


def _may_be_book(path: str, file: BinaryIO) -> bool:
    return opening.begins_as_book(file) and not opening.is_of_others(path)


def _followed(named: str, kind: type[NotMade], done: str) -> str:
    """Where a path leads to a file that is written: others might lead that to any of this user."""
    try:
        return own_path(named)
    except OthersLink as found:
        raise kind(
            f"The link “{found.link}” is another user's, and no book is {done} through it. Take the"
            " path to which it leads, if that is what you mean, or another one."
        ) from None


def _taken(named: str) -> FileIsThere:
    return FileIsThere(
        f"“{named}” is there already, and was left as it is. Take another path for the copy."
    )


def _judge_name(named: str, kind: type[NotMade], what: str) -> None:
    """Whether a book may get a name: not one by which what belongs to another one is looked for."""
    if book := opening.book_beside(real_path(named)):
        raise kind(
            f"“{named}” is a name as a file beside a book has: “{book}” would be that book. Take another"
            f" path for the {what}."
        )


def _judge_log(named: str, kind: type[NotMade], what: str) -> None:
    """Whether a book may get a path at which none is: work there belongs to another one.

    What keeps a book from being opened there keeps it from being made too.
    """
    _judge_name(named, kind, what)
    real = os.path.dirname(real_path(named))
    before = os.path.dirname(named)
    if before and os.path.isdir(real) and not os.path.exists(before):
        # by two full stops after a folder that isn't there
        raise cannot_open(NewBook(named), Why.NO_FOLDER)
    if opening.is_of_system(named):
        raise kind(
            f"“{named}” is where the system shows what it has itself, as in /proc and /sys, and no book is"
            f" made there. Take another path for the {what}."
        )
    log = log_path(named)
    if not is_log(log):
        raise cannot_open(BookFile(named), Why.NO_LOG)
    if has_journal(named):
        raise cannot_open(BookFile(named), Why.JOURNAL)
    if opening.is_log_used(log):
        raise cannot_open(BookFile(named), Why.LOG_IN_USE)
    if has_work(log):
        raise kind(
            f"“{log}” is there, which belongs to another book that stood at “{named}” and may"
            f" hold work. Take another path for the {what}, or move that file away."
        )


def _checked(
    made: Path,
    copied: os.stat_result,
    book: BookFile,
    named: str,
    program: StrPath | None,
) -> int:
    """The version of a copy; what keeps it from being opened keeps the book from it too."""
    try:
        version = programs.check(made, program)
    except Failed as failed:
        raise _not_written(named, failed.sentence) from failed
    except Refused as refusal:
        # unless it is another file by now
        open_made(made, copied).close()
        if isinstance(refusal, CannotOpen) and refusal.why in _OF_PLACE:
            raise cannot_open(BookFile(named), refusal.why) from None
        raise refused_as(replace(refusal.refusal, asked=book)) from None
    if has_work(f"{made}-wal"):
        raise _not_written(named, "the program could not write all of it")
    return version


def _why(error: OSError | ValueError) -> str:
    """Why something failed, without the number of it and the path that was made beside the copy."""
    return of_failure(error) if isinstance(error, OSError) else str(error)


def _not_written(named: str, why: str) -> Failed:
    return Failed(f"The copy “{named}” could not be written: {why.rstrip('.')}.")


def _finish(source: BinaryIO, made: Path, copied: os.stat_result) -> os.stat_result:
    """Gives a whole copy what the book's file has beside its contents, and says what it is then."""
    with open_made(made, copied) as file:
        give_access(file.fileno(), source.fileno())
        os.fsync(file.fileno())
        return os.fstat(file.fileno())


def _put(made: Path, target: _Target, copied: os.stat_result) -> None:
    """Gives a whole copy its path, if nothing of an older book is left beside it."""
    try:
        if target.older is not None:
            _empty_log(target, target.older)
            target.place.judge(target.older.fileno())
            put_over(made, target.place, copied)
        else:
            _judge_log(target.named, NotCopied, "copy")
            put(made, target.place, copied)
    except FileExistsError:
        raise _taken(target.named) from None
    except MayNotLast as failed:
        after = _GONE if target.older is None else _OLDER
        raise _may_not_last(f"copy “{target.named}”", failed, after) from failed


def _empty_log(target: _Target, older: BinaryIO) -> None:
    """Puts what stands in the log of a held book into its file.

    Until the copy takes its place the book is whole in that file then, whenever this ends. Both are
    written by their descriptors: a link that is put in place of one leads SQLite nowhere. A log that
    isn't the book's own stays, and so does the book.
    """
    place = target.place.beside("-wal")
    if not opening.has_page(place.size()):
        return
    with place.opened(os.O_RDWR) as log, ExitStack() as stack:
        if not opening.take_alone(log):
            raise cannot_open(BookFile(target.named), Why.LOG_IN_USE)
        try:
            whole = _filled(stack, older, log)
        except (OSError, Failed, sqlite3.OperationalError) as error:
            raise _not_written(target.named, _why_not_filled(error)) from error
        if whole is None:
            raise _of_another(target.named)
        # until the log is empty it stands for each page that is half written
        copy_bytes(whole.fileno(), older.fileno())
        os.fsync(older.fileno())
        os.ftruncate(log.fileno(), 0)
        os.fsync(log.fileno())


def _of_another(named: str) -> NotCopied:
    log = log_path(named)
    return NotCopied(
        f"What stands in “{log}” isn't part of “{named}” as it is, and may be work of another book that"
        " stood there. Nothing was changed. Keep both files: take another path for the copy, or move"
        f" “{log}” away first."
    )


def _filled(stack: ExitStack, older: BinaryIO, log: BinaryIO) -> BinaryIO | None:
    """A copy of a file with what stands in its log; none if a program would find no book there, or another."""
    if not os.fstat(older.fileno()).st_size:
        # SQLite would remove the log of that
        return None
    made = stack.enter_context(_temporary())
    whole = stack.enter_context(create(made))
    copy_bytes(older.fileno(), whole.fileno())
    with create(Path(f"{made}-wal")) as work:
        copy_bytes(log.fileno(), work.fileno())
    changes = opening.changes_in(f"{made}-wal")
    try:
        with closing(sqlite3.connect(made)) as database:
            database.execute("PRAGMA trusted_schema = OFF")
            database.set_progress_handler(lambda: 1, opening.STEPS)
            database.execute("PRAGMA locking_mode = EXCLUSIVE")
            database.execute("PRAGMA wal_checkpoint(TRUNCATE)").fetchone()
            database.set_progress_handler(None, 0)
            is_whole = database.execute("PRAGMA quick_check(1)").fetchone() == ("ok",)
    except sqlite3.OperationalError:
        raise
    except sqlite3.DatabaseError:
        return None
    # by a log that isn't its own the file would be damaged, or another book
    alone = Path(f"/proc/self/fd/{older.fileno()}")
    if not is_whole or any(opening.fault_in(each, True) for each in (alone, made)):
        return None
    return whole if opening.goes_on(alone, made, changes) else None


def _why_not_filled(error: OSError | Failed | sqlite3.OperationalError) -> str:
    if isinstance(error, Failed):
        return error.sentence
    why = _why(error) if isinstance(error, OSError) else str(error)
    return (
        "what stands in the log of the older book can't be put into its file, since the temporary"
        f" folder takes no copy of it ({why}). {_ROOM}"
    )
