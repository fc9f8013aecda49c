"""Files of books: their tables, their copies, and what keeps them from being opened."""

import errno
import fcntl
import os
import pwd
import shutil
import signal
import sqlite3
import stat
import struct
import subprocess
import sys
import tempfile
import time
from collections.abc import Callable, Iterator
from contextlib import ExitStack, closing, contextmanager, suppress
from pathlib import Path
from typing import Any, BinaryIO

import pytest

import braildesk
from braildesk import (
    CannotOpen,
    Damaged,
    DeskError,
    Failed,
    NotABook,
    NotCopied,
    NotFound,
    NotMade,
    Refused,
    Session,
    Table,
    Why,
    fenced,
    held,
    limits,
    making,
    opening,
    requests,
    workshop,
)
from braildesk.desk.whole_file import Access, write_whole
from braildesk.files import contents, read_version
from braildesk.held import fit_log
from braildesk.protocol.asked import BookFile, seen
from braildesk.refusals import cannot_open
from braildesk.rescue import says_nothing
from braildesk.snapshot import snapshot
from braildesk.workshop import mode_of

from strangers import (
    NEEDS_FENCE,
    NEEDS_ROOT,
    STRANGER,
    as_stranger,
    become_stranger,
    beside_stranger,
    in_time,
    lead_to,
)
from tool import WAIT_SECONDS, Ran, scribe

ROOT = Path(__file__).parents[2]
#: The number of an entry that names no user and no group.
NOBODY = 2**32 - 1


def names(folder: Path) -> set[str]:
    return {path.name for path in folder.iterdir()}


def killed_after(path: Path, text: str) -> None:
    """Leaves work in the file beside a book, by a session that is killed."""
    with Session(path) as session:
        session.add_paragraph("end", "en", text)
        kill(session)


def kill(session: Session) -> None:
    """Kills a session after its last command."""
    os.kill(session.pid, signal.SIGKILL)
    with pytest.raises(braildesk.SessionEnded):
        session.version()


@pytest.mark.parametrize("why", [Why.IN_USE, Why.LOG_IN_USE, Why.REPLACED])
def test_what_others_do_at_a_copy_says_nothing_of_what_its_book_has(why: Why) -> None:
    assert says_nothing(cannot_open(BookFile("moon.braildesk"), why))


def test_the_tables_of_a_book_are_read_with_their_texts(empty_book: Path) -> None:
    text = b"space \\s 0\r\nletter a 1\n# no line feed"
    with Session(empty_book) as session:
        session.put_table("zz", text)
        session.put_table("a_1", b"")
    assert braildesk.read_tables(empty_book) == (
        Table("a_1", b""),
        Table("zz", text + b"\n"),
    )


def test_tables_are_read_with_what_stands_beside_the_file(book: Path) -> None:
    with Session(book) as session:
        session.put_table("new", b"letter a 1\n")
        os.kill(session.pid, signal.SIGKILL)
        with pytest.raises(braildesk.SessionEnded):
            session.version()
    before = {path: path.read_bytes() for path in book.parent.iterdir()}
    assert [table.name for table in braildesk.read_tables(book)] == ["en", "new"]
    assert read_version(book) == 2
    assert {path: path.read_bytes() for path in book.parent.iterdir()} == before


@pytest.mark.parametrize(
    "rows", ["", "(1), (2)", "('no')", "(x'01')", "(9e999)", "(NULL)"]
)
def test_a_file_without_a_version_is_no_book(tmp_path: Path, rows: str) -> None:
    path = tmp_path / "other.braildesk"
    with closing(sqlite3.connect(path)) as database, database:
        database.execute("CREATE TABLE book (version)")
        if rows:
            database.execute(f"INSERT INTO book VALUES {rows}")
    with pytest.raises(braildesk.NotABook):
        read_version(path)


def test_reading_tables_leaves_nothing_beside_the_file(book: Path) -> None:
    before = names(book.parent)
    braildesk.read_tables(book)
    assert names(book.parent) == before


def test_a_copy_opens_as_the_same_book(book: Path, tmp_path: Path) -> None:
    with Session(book) as session:
        for text in ("one", "two"):
            session.add_paragraph("end", "en", text)
        session.add_mark(2, 0, 1, "who?")
    to = tmp_path / "the copy"
    assert braildesk.copy(book, to) == 4
    with Session(book) as one, Session(to) as other:
        assert one.paragraphs() == other.paragraphs()
        assert [other.print_of(1), other.print_of(2)] == ["one", "two"]
        assert other.marks_of(2) == one.marks_of(2) != ()


def test_all_of_a_book_is_in_one_file_while_nobody_has_it_open(moon: Path) -> None:
    with Session(moon) as session:
        session.strike(2)
    beside = moon.with_name(moon.name + "-wal")
    assert beside.stat().st_size == 41
    alone = moon.with_name("alone.braildesk")
    shutil.copyfile(moon, alone)
    beside.unlink()
    for path in (moon, alone):
        with Session(path) as session:
            assert session.last_version == 8 and session.paragraphs()[1].struck


def test_a_copy_has_what_stands_in_the_file_beside_it(
    book: Path, tmp_path: Path
) -> None:
    killed_after(book, "not in the file yet")
    before = book.read_bytes(), Path(f"{book}-wal").read_bytes()
    to = tmp_path / "copied"
    assert braildesk.copy(book, to) == 2
    assert (book.read_bytes(), Path(f"{book}-wal").read_bytes()) == before
    assert names(tmp_path) == {book.name, f"{book.name}-wal", "copied"}
    with Session(to) as session:
        assert session.print_of(1) == "not in the file yet"
    # the copied file alone, without the one beside it, has all of it
    alone = shutil.copyfile(to, tmp_path / "alone")
    with Session(alone) as session:
        assert session.print_of(1) == "not in the file yet"


def test_while_a_session_is_open_nothing_is_read_or_copied(
    book: Path, tmp_path: Path
) -> None:
    to = tmp_path / "copied"
    with Session(book) as session:
        session.add_paragraph("end", "en", "a")
        attempts: list[Callable[[], object]] = [
            lambda: braildesk.read_tables(book),
            lambda: braildesk.copy(book, to),
            lambda: braildesk.check(book),
            lambda: Session(book),
        ]
        for attempt in attempts:
            with pytest.raises(CannotOpen) as caught:
                attempt()
            assert caught.value.why == Why.IN_USE
            assert caught.value.sentence == (
                f"Another program has “{book}” open. Nothing was changed. That one must end first."
            )
        assert session.version() == 2
    assert not to.exists()


@pytest.mark.parametrize("has_work_beside", [False, True])
def test_while_a_book_is_read_no_session_can_open_it(
    book: Path, has_work_beside: bool
) -> None:
    if has_work_beside:
        killed_after(book, "not in the file yet")
    with contents(BookFile(str(book))) as database:
        with pytest.raises(CannotOpen) as caught:
            braildesk.check(book)
        assert caught.value.why == Why.IN_USE
        [(version,)] = database.execute("SELECT version FROM book").fetchall()
    assert braildesk.check(book) == version == 1 + has_work_beside


def test_a_file_that_is_there_is_replaced_only_where_that_is_asked(
    book: Path, tmp_path: Path
) -> None:
    to = tmp_path / "copied"
    to.write_text("my notes")
    with pytest.raises(NotCopied) as caught:
        braildesk.copy(book, to)
    assert caught.value.sentence == (
        f"“{to}” is there already, and was left as it is. Take another path for the copy."
    )
    assert to.read_text() == "my notes"
    assert braildesk.copy(book, to, overwrite=True) == 1
    assert braildesk.check(to) == 1


def test_a_replaced_book_leaves_no_work_to_the_copy(book: Path, tmp_path: Path) -> None:
    old = Path(shutil.copyfile(book, tmp_path / "old"))
    killed_after(old, "of the old book")
    assert braildesk.copy(book, old, overwrite=True) == 1
    with Session(old) as session:
        assert session.paragraphs() == ()


def test_a_book_that_can_not_be_replaced_keeps_its_work(
    book: Path, tmp_path: Path, monkeypatch: pytest.MonkeyPatch
) -> None:
    old = Path(shutil.copyfile(book, tmp_path / "old"))
    killed_after(old, "of the old book")
    replace = os.replace

    def refused(source: Path | str, target: Path | str, **folders: int) -> None:
        if target == old.name:
            raise PermissionError(errno.EPERM, "Operation not permitted")
        replace(source, target, **folders)

    with monkeypatch.context() as patched:
        patched.setattr(os, "replace", refused)
        with pytest.raises(Failed, match="could not be written: Operation not"):
            braildesk.copy(book, old, overwrite=True)
    with Session(old) as session:
        assert session.print_of(1) == "of the old book"


#: What Python does with names and files while a copy takes the place of a book.
STEPS = {
    *("os.mkdir", "os.remove", "os.rename", "os.rmdir", "os.truncate"),
    *("sqlite3.connect", "written"),
}


def killed_before(step: int, deed: Callable[[], object]) -> bool:
    """Whether a copy of this process was killed before so many steps of what it did were done."""
    child = os.fork()
    if child == 0:
        done = 0

        def watch(event: str, _: object) -> None:
            nonlocal done
            if event in STEPS:
                done += 1
                if done > step:
                    os.kill(os.getpid(), signal.SIGKILL)

        def write(*words: Any) -> int:
            sys.audit("written")
            return pwrite(*words)

        pwrite, os.pwrite = os.pwrite, write
        try:
            sys.addaudithook(watch)
            deed()
            os._exit(0)
        finally:
            os._exit(1)
    status = os.waitstatus_to_exitcode(os.waitpid(child, 0)[1])
    assert status in (0, -signal.SIGKILL)
    return status != 0


def test_where_a_copy_is_killed_the_older_book_is_there_with_its_work_or_the_copy(
    book: Path, tmp_path: Path
) -> None:
    older, folder = tmp_path / "older", tmp_path / "folder"
    shutil.copyfile(book, older)
    killed_after(older, "at version 2")
    with Session(book) as session:
        session.add_paragraph("end", "en", "at version 2")
        session.add_paragraph("end", "en", "at version 3")
    folder.mkdir()
    to = folder / "to"
    found = list[int]()
    while 3 not in found:
        for ending in ("", "-wal"):
            shutil.copyfile(f"{older}{ending}", f"{to}{ending}")
        is_killed = killed_before(
            len(found), lambda: braildesk.copy(book, to, overwrite=True)
        )
        found.append(braildesk.check(to))
        assert is_killed or found[-1] == 3
    # until the copy has its name, which is one of the last things done
    assert (len(found) > 4, set(found)) == (True, {2, 3})
    assert braildesk.copy(book, to, overwrite=True) == 3
    assert names(folder) <= {"to", "to-wal"}


@NEEDS_ROOT
def test_a_book_of_another_that_can_not_be_replaced_gets_no_log_of_the_copy(
    made_once: Path, open_folder: Path
) -> None:
    # as in /tmp, where each may rename files of their own alone
    open_folder.chmod(0o1777)
    old = Path(shutil.copyfile(made_once / "empty.braildesk", open_folder / "old"))
    mine = Path(shutil.copyfile(made_once / "empty.braildesk", open_folder / "mine"))
    for each in (old, mine):
        each.chmod(0o666)
    program = shutil.copy(braildesk.find(), open_folder / "program")

    def copy() -> None:
        braildesk.copy(mine, old, overwrite=True, program=program)

    assert as_stranger(copy) == "Failed"
    assert names(open_folder) == {"old", "mine", "program"}


def test_a_book_is_not_copied_over_itself_or_over_an_open_one(
    book: Path, tmp_path: Path
) -> None:
    link = tmp_path / "link"
    link.symlink_to(book)
    for to in (book, link):
        with pytest.raises(NotCopied, match="is the book itself"):
            braildesk.copy(book, to, overwrite=True)
    other = Path(shutil.copyfile(book, tmp_path / "other"))
    with Session(other) as session:
        with pytest.raises(CannotOpen) as caught:
            braildesk.copy(book, other, overwrite=True)
        assert (caught.value.why, caught.value.refusal.asked.path) == (  # type: ignore[union-attr]
            Why.IN_USE,
            str(other),
        )
        session.add_paragraph("end", "en", "a")


def test_a_copy_is_not_put_beside_the_work_of_another_book(
    book: Path, tmp_path: Path
) -> None:
    moved = Path(shutil.copyfile(book, tmp_path / "moved"))
    killed_after(moved, "left")
    moved.unlink()
    with pytest.raises(NotCopied) as caught:
        braildesk.copy(book, moved)
    assert caught.value.sentence == (
        f"“{moved}-wal” is there, which belongs to another book that stood at “{moved}” and may"
        " hold work. Take another path for the copy, or move that file away."
    )
    assert not moved.exists()


def meanwhile(monkeypatch: pytest.MonkeyPatch, deed: Callable[[], object]) -> None:
    """Has something done while the program looks at the next copy."""
    check, deeds = braildesk.program.check, [deed]

    def checked(path: Path, program: str | None = None) -> int:
        version = check(path, program)
        if deeds:
            deeds.pop()()
        return version

    monkeypatch.setattr(braildesk.program, "check", checked)


def test_nothing_is_made_beside_a_file_that_is_no_book(tmp_path: Path) -> None:
    letter = tmp_path / "letter"
    letter.write_text("Dear Anna,\n")
    acts: list[Callable[[Path], object]] = [
        Session,
        braildesk.check,
        braildesk.new_book,
    ]
    for act in acts:
        with pytest.raises(CannotOpen) as caught:
            act(letter)
        assert caught.value.why is Why.NO_DATABASE
    assert names(tmp_path) == {"letter"}


def test_no_session_opens_a_book_that_is_being_replaced(
    book: Path, tmp_path: Path, monkeypatch: pytest.MonkeyPatch
) -> None:
    old = Path(shutil.copyfile(book, tmp_path / "old"))

    def try_old() -> None:
        with pytest.raises(CannotOpen) as caught:
            Session(old)
        assert caught.value.why == Why.IN_USE

    meanwhile(monkeypatch, try_old)
    assert braildesk.copy(book, old, overwrite=True) == 1


def test_a_book_that_is_being_replaced_is_not_replaced_by_another_copy(
    book: Path, tmp_path: Path, monkeypatch: pytest.MonkeyPatch
) -> None:
    old = Path(shutil.copyfile(book, tmp_path / "old"))

    def copy_too() -> None:
        with pytest.raises(CannotOpen) as caught:
            braildesk.copy(book, old, overwrite=True)
        assert caught.value.why == Why.IN_USE

    meanwhile(monkeypatch, copy_too)
    assert braildesk.copy(book, old, overwrite=True) == 1


def test_a_file_that_appeared_while_a_book_was_copied_stays(
    book: Path, tmp_path: Path, monkeypatch: pytest.MonkeyPatch
) -> None:
    to = tmp_path / "copied"
    meanwhile(monkeypatch, lambda: to.write_text("my notes"))
    with pytest.raises(NotCopied) as caught:
        braildesk.copy(book, to)
    assert caught.value.sentence == (
        f"“{to}” is there already, and was left as it is. Take another path for the copy."
    )
    assert to.read_text() == "my notes"
    assert names(tmp_path) == {book.name, "copied"}


def test_a_book_that_appeared_while_another_was_copied_is_replaced_if_that_is_asked(
    book: Path, tmp_path: Path, monkeypatch: pytest.MonkeyPatch
) -> None:
    other, to = tmp_path / "other", tmp_path / "copied"
    braildesk.new_book(other)
    meanwhile(monkeypatch, lambda: braildesk.copy(other, to))
    assert braildesk.copy(book, to, overwrite=True) == 1
    assert braildesk.check(to) == 1


@pytest.mark.parametrize("why", [Why.NO_ROOM, Why.READ_ONLY, Why.DENIED])
def test_a_copy_that_can_not_be_opened_for_its_own_disk_is_said_of_the_copy(
    book: Path, tmp_path: Path, monkeypatch: pytest.MonkeyPatch, why: Why
) -> None:
    def refused(made: Path, program: str | None = None) -> int:
        raise cannot_open(BookFile(str(made)), why)

    to = tmp_path / "copied"
    monkeypatch.setattr(braildesk.program, "check", refused)
    with pytest.raises(DeskError) as caught:
        braildesk.copy(book, to)
    assert caught.value.sentence == cannot_open(BookFile(str(to)), why).sentence
    assert names(tmp_path) == {book.name}


def test_of_two_copies_to_one_path_one_is_made(
    book: Path, tmp_path: Path, monkeypatch: pytest.MonkeyPatch
) -> None:
    other = Path(shutil.copyfile(book, tmp_path / "other"))
    with Session(other) as session:
        session.add_paragraph("end", "en", "of the other book")
    to = tmp_path / "copied"
    meanwhile(monkeypatch, lambda: braildesk.copy(other, to))
    with pytest.raises(NotCopied):
        braildesk.copy(book, to)
    assert braildesk.check(to) == 2


def swap(folder: Path, private: Path) -> None:
    """Puts a folder with a link in place of the one in which a book is made, as its sharers may."""
    (making,) = folder.glob(".braildesk-*")
    making.rename(folder / "moved")
    making.mkdir()
    (making / workshop._MADE).symlink_to(private)


@pytest.mark.parametrize("replaces", [False, True])
def test_a_link_in_place_of_a_copy_that_is_made_gives_no_file_another_mode(
    book: Path, tmp_path: Path, monkeypatch: pytest.MonkeyPatch, replaces: bool
) -> None:
    book.chmod(0o666)
    private, shared = tmp_path / "private", tmp_path / "shared"
    private.write_text("mine")
    private.chmod(0o600)
    shared.mkdir()
    to = shared / "copied"
    if replaces:
        shutil.copyfile(book, to)
    meanwhile(monkeypatch, lambda: swap(shared, private))
    with pytest.raises(Failed) as caught:
        braildesk.copy(book, to, overwrite=replaces)
    assert caught.value.sentence == (
        f"The copy “{to}” could not be written: another program put something else in the place of"
        " what was made."
    )
    assert stat.S_IMODE(private.stat().st_mode) == 0o600
    assert (to.exists(), to.is_symlink()) == (replaces, False)


def lead_elsewhere(way: str, shared: Path, private: Path) -> None:
    """Puts a link in place of a folder, or of the book in it, as those may who share what is above."""
    if way == "of the folder":
        shared.rename(shared.with_name("moved"))
        shared.symlink_to(private)
    else:
        (shared / "old").rename(shared / "moved")
        (shared / "old").symlink_to(private / "old")


@pytest.mark.parametrize("way", ["of the folder", "of the book"])
@pytest.mark.parametrize("moment", ["while it is checked", "while the log is emptied"])
def test_a_link_put_in_place_of_a_replaced_book_or_its_folder_leads_to_no_other_book(
    book: Path, tmp_path: Path, monkeypatch: pytest.MonkeyPatch, way: str, moment: str
) -> None:
    private, shared = tmp_path / "private", tmp_path / "shared"
    for folder in (private, shared):
        folder.mkdir()
        shutil.copyfile(book, folder / "old")
    killed_after(shared / "old", "of the replaced book")
    with Session(private / "old") as session:
        session.add_paragraph("end", "en", "of an open book")
        before = contents_of(private)
        deeds: list[Callable[[], object]] = [
            lambda: lead_elsewhere(way, shared, private)
        ]
        if moment == "while it is checked":
            meanwhile(monkeypatch, deeds.pop())
        else:
            connect = sqlite3.connect

            def connected(*words: Any, **more: Any) -> sqlite3.Connection:
                while deeds:
                    deeds.pop()()
                return connect(*words, **more)

            monkeypatch.setattr(sqlite3, "connect", connected)
        with pytest.raises(Failed, match="put something else in the place"):
            braildesk.copy(book, shared / "old", overwrite=True)
        assert contents_of(private) == before
        session.add_paragraph("end", "en", "and goes on")
    assert braildesk.check(private / "old") == 3


def contents_of(folder: Path) -> dict[str, bytes]:
    """What the files of a folder have."""
    return {path.name: path.read_bytes() for path in folder.iterdir()}


def refuse_to_sync(monkeypatch: pytest.MonkeyPatch, number: int) -> None:
    """Has no folder be brought to the disk."""
    sync = os.fsync

    def refused(file: int) -> None:
        if stat.S_ISDIR(os.fstat(file).st_mode):
            raise OSError(number, os.strerror(number))
        sync(file)

    monkeypatch.setattr(os, "fsync", refused)


@pytest.mark.parametrize("replaces", [False, True])
def test_a_book_is_made_where_no_folder_can_be_brought_to_the_disk(
    book: Path, tmp_path: Path, monkeypatch: pytest.MonkeyPatch, replaces: bool
) -> None:
    refuse_to_sync(monkeypatch, errno.EINVAL)
    to, new = tmp_path / "copied", tmp_path / "new"
    if replaces:
        shutil.copyfile(book, to)
    assert braildesk.copy(book, to, overwrite=replaces) == 1
    braildesk.new_book(new)
    assert (braildesk.check(to), braildesk.check(new)) == (1, 0)


@pytest.mark.parametrize("replaces", [False, True])
def test_a_book_whose_folder_fails_to_come_to_the_disk_is_said_to_be_there(
    book: Path, tmp_path: Path, monkeypatch: pytest.MonkeyPatch, replaces: bool
) -> None:
    refuse_to_sync(monkeypatch, errno.EIO)
    to, new = tmp_path / "copied", tmp_path / "new"
    if replaces:
        shutil.copyfile(book, to)
    with pytest.raises(Failed) as caught:
        braildesk.copy(book, to, overwrite=replaces)
    older = "the older file may be there" if replaces else "it may be gone"
    assert caught.value.sentence == (
        f"The copy “{to}” is made and whole, but its folder could not be brought to the disk:"
        f" Input/output error. After a loss of power {older}."
    )
    with pytest.raises(Failed) as caught:
        braildesk.new_book(new)
    assert caught.value.sentence == (
        f"The new book “{new}” is made and whole, but its folder could not be brought to the disk:"
        " Input/output error. After a loss of power it may be gone."
    )
    assert (braildesk.check(to), braildesk.check(new)) == (1, 0)


@pytest.mark.parametrize("holding", [(), (requests.Supply("en"),)])
def test_a_link_in_place_of_a_new_book_gets_no_name(
    tmp_path: Path,
    monkeypatch: pytest.MonkeyPatch,
    holding: tuple[requests.Supply, ...],
) -> None:
    private, to = tmp_path / "private", tmp_path / "new"
    private.write_text("mine")
    make_book = braildesk.program.make_book

    def made(path: Path, program: str | None, named: str) -> None:
        make_book(path, program, named)
        swap(tmp_path, private)

    monkeypatch.setattr(braildesk.program, "make_book", made)
    with pytest.raises(Failed) as caught:
        braildesk.new_book(to, holding=holding)
    assert caught.value.sentence == (
        f"The new book “{to}” could not be written, and there is none: another program put"
        " something else in the place of what was made."
    )
    assert (os.path.lexists(to), private.read_text()) == (False, "mine")


@NEEDS_ROOT
def test_a_book_in_a_folder_that_a_stranger_renames_is_not_taken_for_what_was_left(
    tmp_path: Path,
) -> None:
    shared = tmp_path / "shared"
    shared.mkdir()
    shared.chmod(0o777)
    lead_to(shared)
    mine, renamed = shared / "mine", shared / ".braildesk-mine"
    mine.mkdir(mode=0o700)
    for name in ("book", "book-wal"):
        (mine / name).write_bytes(b"work")
    assert as_stranger(lambda: mine.rename(renamed)) == ""
    with workshop.made_beside(str(shared / "new")):
        pass
    assert names(renamed) == {"book", "book-wal"}


@pytest.mark.parametrize("is_copy", [True, False])
def test_a_link_in_place_of_the_folder_in_which_a_book_is_made_leads_no_file_elsewhere(
    book: Path, tmp_path: Path, monkeypatch: pytest.MonkeyPatch, is_copy: bool
) -> None:
    private, shared = tmp_path / "private", tmp_path / "shared"
    private.mkdir()
    shared.mkdir()
    own_folder, to = workshop._own_folder, shared / "made"

    def swapped(parent: str) -> tuple[int, str]:
        descriptor, folder = own_folder(parent)
        if parent == str(shared):
            os.rename(folder, shared / "moved")
            os.symlink(private, folder)
        return descriptor, folder

    monkeypatch.setattr(workshop, "_own_folder", swapped)
    with pytest.raises(Failed) as caught:
        braildesk.copy(book, to) if is_copy else braildesk.new_book(to)
    assert caught.value.sentence.endswith(
        ": another program put something else in the place of what was made."
    )
    assert (names(private), os.path.lexists(to)) == (set(), False)


def test_the_program_is_led_nowhere_while_it_makes_a_book(
    tmp_path: Path, monkeypatch: pytest.MonkeyPatch
) -> None:
    private, shared = tmp_path / "private", tmp_path / "shared"
    private.mkdir()
    shared.mkdir()
    make_book, to = braildesk.program.make_book, shared / "new"

    def swapped(path: Path, program: str | None, named: str) -> None:
        (making,) = shared.glob(".braildesk-*")
        making.rename(shared / "moved")
        making.symlink_to(private)
        make_book(path, program, named)

    monkeypatch.setattr(braildesk.program, "make_book", swapped)
    with pytest.raises(Failed):
        braildesk.new_book(to)
    assert (names(private), os.path.lexists(to)) == (set(), False)


@pytest.mark.parametrize(
    "number, why", [(errno.ENOSPC, Why.NO_ROOM), (errno.EROFS, Why.READ_ONLY)]
)
def test_a_new_book_that_its_disk_takes_no_bytes_of_says_so_though_it_takes_some_by_then(
    tmp_path: Path, monkeypatch: pytest.MonkeyPatch, number: int, why: Why
) -> None:
    def full(source: int, target: int) -> None:
        raise OSError(number, os.strerror(number))

    monkeypatch.setattr("braildesk.making.copy_bytes", full)
    with pytest.raises(CannotOpen) as caught:
        braildesk.new_book(tmp_path / "new")
    assert caught.value.why is why
    assert names(tmp_path) == set()


@pytest.mark.parametrize(
    "number, why",
    [
        (errno.ENOSPC, Why.NO_ROOM),
        (errno.EDQUOT, Why.OVER_QUOTA),
        (errno.EROFS, Why.READ_ONLY),
    ],
)
def test_a_book_beside_which_its_disk_takes_no_file_more_says_so(
    book: Path, monkeypatch: pytest.MonkeyPatch, number: int, why: Why
) -> None:
    opened = os.open

    def full(path: str, flags: int, *more: int, **named: int) -> int:
        if flags & os.O_TMPFILE == os.O_TMPFILE:
            raise OSError(number, os.strerror(number))
        return opened(path, flags, *more, **named)

    monkeypatch.setattr(os, "open", full)
    assert opening.why(BookFile(str(book))) is why


@pytest.mark.parametrize("length", [248, 253])
def test_a_book_beside_which_a_file_would_have_too_long_a_name_says_so(
    book: Path, tmp_path: Path, length: int
) -> None:
    long = book.rename(tmp_path / ("m" * length))
    with pytest.raises(CannotOpen) as opened:
        Session(long)
    assert opened.value.why is Why.LONG_NAME
    with pytest.raises(CannotOpen) as copied:
        braildesk.copy(long, tmp_path / "copy")
    with pytest.raises(CannotOpen) as looked_at, snapshot(long):
        pass
    assert copied.value.why is looked_at.value.why is Why.LONG_NAME


@pytest.mark.parametrize("number", [errno.EIO, errno.ESTALE])
def test_a_new_book_that_its_disk_fails_to_keep_says_so(
    tmp_path: Path, monkeypatch: pytest.MonkeyPatch, number: int
) -> None:
    def fail(file: int) -> None:
        raise OSError(number, os.strerror(number))

    monkeypatch.setattr(os, "fsync", fail)
    with pytest.raises(Failed) as caught:
        braildesk.new_book(tmp_path / "new")
    assert caught.value.sentence == (
        f"The new book “{tmp_path}/new” could not be written, and there is none:"
        f" {os.strerror(number)}."
    )
    assert names(tmp_path) == set()


def test_a_new_book_that_has_no_temporary_folder_says_so(
    tmp_path: Path, monkeypatch: pytest.MonkeyPatch
) -> None:
    monkeypatch.setattr(tempfile, "tempdir", str(tmp_path / "none"))
    with pytest.raises(Failed) as caught:
        braildesk.new_book(tmp_path / "new")
    assert caught.value.sentence == (
        f"The new book “{tmp_path}/new” could not be written, and there is none: no temporary"
        " folder can be made (No such file or directory). Let TMPDIR name a folder with room."
    )
    assert names(tmp_path) == set()


def test_a_book_is_not_said_to_be_gone_where_no_copy_of_it_can_be_judged(
    book: Path, tmp_path: Path, monkeypatch: pytest.MonkeyPatch
) -> None:
    monkeypatch.setattr(tempfile, "tempdir", str(tmp_path / "none"))
    with pytest.raises(Failed) as caught:
        braildesk.new_book(book)
    assert caught.value.sentence == (
        f"“{book}” isn't empty, and was left as it is: no temporary folder can be made (No such file or"
        " directory). Let TMPDIR name a folder with room."
    )


@pytest.mark.parametrize("mode, wanted", [(0o664, 0o644), (0o604, 0o600)])
def test_a_group_that_is_not_the_books_may_do_no_more_with_its_copy_than_anybody_nor_they_than_the_books(
    book: Path,
    tmp_path: Path,
    monkeypatch: pytest.MonkeyPatch,
    mode: int,
    wanted: int,
) -> None:
    def refused(file: int, owner: int, group: int) -> None:
        raise PermissionError(errno.EPERM, "Operation not permitted")

    monkeypatch.setattr(os, "fchown", refused)
    book.chmod(mode)
    braildesk.copy(book, tmp_path / "copied")
    assert stat.S_IMODE((tmp_path / "copied").stat().st_mode) == wanted


def test_where_a_file_system_has_no_such_renaming_a_copy_is_linked(
    book: Path, tmp_path: Path, monkeypatch: pytest.MonkeyPatch
) -> None:
    def renamed(*_: object) -> None:
        raise OSError(errno.EINVAL, "Invalid argument")

    monkeypatch.setattr(workshop, "_rename", renamed)
    to = tmp_path / "copied"
    assert braildesk.copy(book, to) == 1
    assert (to.stat().st_nlink, names(tmp_path)) == (1, {book.name, "copied"})
    other = tmp_path / "other"
    meanwhile(monkeypatch, lambda: other.write_text("my notes"))
    with pytest.raises(NotCopied):
        braildesk.copy(book, other)
    assert other.read_text() == "my notes"


def test_where_a_file_system_still_counts_a_name_that_is_gone_a_copy_may_be_opened(
    book: Path, tmp_path: Path, monkeypatch: pytest.MonkeyPatch
) -> None:
    def renamed(*_: object) -> None:
        raise OSError(errno.EINVAL, "Invalid argument")

    link, look, change = os.link, os.fstat, os.fchmod
    counted: set[int] = set()

    def linked(name: str, other: str, src_dir_fd: int, dst_dir_fd: int) -> None:
        link(name, other, src_dir_fd=src_dir_fd, dst_dir_fd=dst_dir_fd)
        counted.add(os.stat(other, dir_fd=dst_dir_fd).st_ino)

    def looked(file: int) -> os.stat_result:
        found = look(file)
        names = 2 if found.st_ino in counted else found.st_nlink
        return os.stat_result([*found[:3], names, *found[4:]])

    def changed(file: int, mode: int) -> None:
        change(file, mode)
        # as of FUSE, which keeps what it was told of a file until that is changed
        counted.discard(look(file).st_ino)

    monkeypatch.setattr(workshop, "_rename", renamed)
    monkeypatch.setattr(os, "link", linked)
    monkeypatch.setattr(os, "fstat", looked)
    monkeypatch.setattr(os, "fchmod", changed)
    to = tmp_path / "copied"
    assert braildesk.copy(book, to) == 1
    assert len(braildesk.read_tables(to)) == 1


@pytest.mark.parametrize("is_gone", [True, False])
def test_where_a_file_has_another_number_by_its_new_name_it_is_known_by_what_it_has(
    book: Path, tmp_path: Path, monkeypatch: pytest.MonkeyPatch, is_gone: bool
) -> None:
    rename, replace = workshop._rename, os.replace
    look, look_by_name = os.fstat, os.stat
    moved: set[int] = set()
    others: list[Path] = []

    def note(name: str, folder: int) -> None:
        moved.add(look_by_name(name, dir_fd=folder).st_ino)
        for other in others:
            replace(other, name, dst_dir_fd=folder)

    def renamed(folder: int, name: str, target: workshop.Place) -> None:
        rename(folder, name, target)
        note(target.name, target.folder)

    def replaced(name: str, other: str, src_dir_fd: int, dst_dir_fd: int) -> None:
        replace(name, other, src_dir_fd=src_dir_fd, dst_dir_fd=dst_dir_fd)
        note(other, dst_dir_fd)

    def looked(file: int) -> os.stat_result:
        found = look(file)
        if is_gone and found.st_ino in moved:
            raise FileNotFoundError(errno.ENOENT, os.strerror(errno.ENOENT))
        return found

    def looked_by_name(*words: Any, **more: Any) -> os.stat_result:
        found = look_by_name(*words, **more)
        if found.st_ino not in moved:
            return found
        # as of FUSE, where the path of a file may make its number
        number, times = found.st_ino + 2**40, {"st_mtime_ns": found.st_mtime_ns}
        return os.stat_result((found[0], number, *found[2:]), times)

    monkeypatch.setattr(workshop, "_rename", renamed)
    monkeypatch.setattr(os, "replace", replaced)
    monkeypatch.setattr(os, "fstat", looked)
    monkeypatch.setattr(os, "stat", looked_by_name)
    begun, filled, to = tmp_path / "begun", tmp_path / "filled", tmp_path / "copied"
    filled.touch()
    braildesk.new_book(begun)
    braildesk.new_book(filled)
    assert braildesk.copy(book, to) == 1
    moved.clear()
    assert braildesk.copy(book, to, overwrite=True) == 1
    moved.clear()
    others.append(tmp_path / "other")
    others[0].write_bytes(to.read_bytes())
    with pytest.raises(Failed):
        braildesk.copy(book, to, overwrite=True)


@pytest.mark.parametrize(
    "number", [errno.EPERM, errno.ENOSYS, errno.EOPNOTSUPP, errno.EIO]
)
def test_where_a_file_system_has_no_links_either_a_copy_is_made_and_replaces_nothing(
    book: Path, tmp_path: Path, monkeypatch: pytest.MonkeyPatch, number: int
) -> None:
    def renamed(*_: object) -> None:
        raise OSError(errno.EINVAL, "Invalid argument")

    def linked(*_: object, **__: object) -> None:
        raise OSError(number, os.strerror(number))

    monkeypatch.setattr(workshop, "_rename", renamed)
    monkeypatch.setattr(os, "link", linked)
    to, other = tmp_path / "copied", tmp_path / "other"
    assert braildesk.copy(book, to) == 1
    assert names(tmp_path) == {book.name, "copied"}
    meanwhile(monkeypatch, lambda: other.write_text("my notes"))
    with pytest.raises(NotCopied):
        braildesk.copy(book, other)
    assert other.read_text() == "my notes"
    # if it fails after all, nothing is left there
    monkeypatch.setattr(os, "replace", linked)
    with pytest.raises(DeskError) as caught:
        braildesk.copy(book, tmp_path / "third")
    assert os.strerror(number) in caught.value.sentence
    assert names(tmp_path) == {book.name, "copied", "other"}


@pytest.mark.parametrize("moment", ["before it is locked", "once it is locked"])
def test_where_a_file_system_has_no_links_no_book_is_lost_that_is_begun_at_the_path(
    book: Path, tmp_path: Path, monkeypatch: pytest.MonkeyPatch, moment: str
) -> None:
    def failed(*_: object, **__: object) -> None:
        raise OSError(errno.EOPNOTSUPP, os.strerror(errno.EOPNOTSUPP))

    to, replace, take_alone = tmp_path / "copied", os.replace, opening.take_alone

    def begin() -> None:
        braildesk.new_book(to, holding=[requests.Supply("other")])

    def taken(file: BinaryIO) -> bool:
        if moment == "before it is locked":
            begin()
        return take_alone(file)

    def replaced(name: str, other: str, src_dir_fd: int, dst_dir_fd: int) -> None:
        with pytest.raises(CannotOpen) as caught:
            begin()
        assert caught.value.why is Why.IN_USE
        replace(name, other, src_dir_fd=src_dir_fd, dst_dir_fd=dst_dir_fd)

    monkeypatch.setattr(workshop, "_rename", failed)
    monkeypatch.setattr(os, "link", failed)
    monkeypatch.setattr(os, "replace", replaced)
    monkeypatch.setattr(opening, "take_alone", taken)
    if moment == "before it is locked":
        with pytest.raises(NotCopied):
            braildesk.copy(book, to)
        assert [table.name for table in braildesk.read_tables(to)] == ["other"]
    else:
        assert braildesk.copy(book, to) == 1
        assert [table.name for table in braildesk.read_tables(to)] == ["en"]
        assert names(tmp_path) == {book.name, "copied"}


def test_what_a_killed_copy_left_is_cleared_away_by_the_next_one(
    book: Path, tmp_path: Path
) -> None:
    killer = tmp_path / "killer"
    killer.write_text("#!/bin/sh\nkill -9 $PPID\n")
    killer.chmod(0o755)
    code = "import sys, braildesk; braildesk.copy(*sys.argv[1:3], program=sys.argv[3])"
    done = subprocess.run(
        [sys.executable, "-c", code, book, tmp_path / "first", killer],
        env={**os.environ, "PYTHONPATH": str(ROOT / "src")},
    )
    assert done.returncode == -signal.SIGKILL
    left = names(tmp_path) - {book.name, "killer"}
    assert len(left) == 1 and left != {"first"}
    mine = tmp_path / f"{left.pop()}-mine"
    mine.mkdir()
    (mine / workshop._MADE).write_text("of my own")
    (mine / "notes").write_text("of my own")
    assert braildesk.copy(book, tmp_path / "second") == 1
    assert names(tmp_path) == {book.name, "killer", "second", mine.name}
    assert names(mine) == {workshop._MADE, "notes"}


def test_nothing_is_left_beside_a_copy_where_who_reads_a_folder_on_is_shown_no_new_file(
    book: Path, tmp_path: Path, monkeypatch: pytest.MonkeyPatch
) -> None:
    own_folder = workshop._own_folder

    def read_already(parent: str) -> tuple[int, str]:
        descriptor, folder = own_folder(parent)
        # so btrfs has it from the opening on
        os.lseek(descriptor, sys.maxsize, os.SEEK_SET)
        return descriptor, folder

    monkeypatch.setattr(workshop, "_own_folder", read_already)
    assert braildesk.copy(book, tmp_path / "copied") == 1
    assert names(tmp_path) == {book.name, "copied"}


def test_a_copy_that_is_being_made_is_not_cleared_away(
    book: Path, tmp_path: Path, monkeypatch: pytest.MonkeyPatch
) -> None:
    meanwhile(monkeypatch, lambda: braildesk.copy(book, tmp_path / "second"))
    assert braildesk.copy(book, tmp_path / "first") == 1
    assert braildesk.check(tmp_path / "first") == 1
    assert braildesk.check(tmp_path / "second") == 1


def test_a_folder_that_another_copy_took_for_one_that_was_left_is_made_once_more(
    book: Path, tmp_path: Path, monkeypatch: pytest.MonkeyPatch
) -> None:
    make, made = tempfile.mkdtemp, list[str]()

    def mkdtemp(prefix: str, dir: str) -> str:
        made.append(make(prefix=prefix, dir=dir))
        if len(made) == 1:
            # before the one that made it has a lock of it
            os.rmdir(made[0])
        return made[-1]

    monkeypatch.setattr(tempfile, "mkdtemp", mkdtemp)
    assert braildesk.copy(book, tmp_path / "copied") == 1
    assert (len(made), names(tmp_path)) == (2, {book.name, "copied"})


@pytest.mark.parametrize(
    ("put", "ending", "why"),
    [
        (os.mkfifo, "-wal", Why.NO_LOG),
        (os.mkdir, "-wal", Why.NO_LOG),
        (lambda path: os.symlink("none", path), "-wal", Why.NO_LOG),
        (lambda path: os.symlink("none", path), "-journal", Why.JOURNAL),
    ],
)
def test_no_book_is_made_beside_what_keeps_it_from_being_opened(
    book: Path,
    tmp_path: Path,
    put: Callable[[str], object],
    ending: str,
    why: Why,
) -> None:
    to = tmp_path / "made"
    put(f"{to}{ending}")
    attempts: list[Callable[[], object]] = [
        lambda: braildesk.new_book(to),
        lambda: braildesk.copy(book, to),
        lambda: braildesk.copy(book, to, overwrite=True),
    ]
    for attempt in attempts:
        with pytest.raises(CannotOpen) as caught:
            attempt()
        assert caught.value.why is why
    assert names(tmp_path) == {book.name, f"made{ending}"}


def test_the_log_has_the_mode_that_the_book_has_by_now(book: Path) -> None:
    book.chmod(0o664)
    Session(book).close()
    log = book.with_name(f"{book.name}-wal")
    for mode in (0o640, 0o660):
        book.chmod(mode)
        Session(book).close()
        assert stat.S_IMODE(log.stat().st_mode) == mode


@NEEDS_ROOT
def test_a_log_that_may_be_written_by_people_who_may_not_write_the_book_is_not_taken(
    book: Path, tmp_path: Path
) -> None:
    lead_to(tmp_path)
    log = Path(f"{book}-wal")
    os.chown(book, -1, STRANGER)
    book.chmod(0o664)
    forged = Path(shutil.copyfile(book, tmp_path / "forged"))
    killed_after(book, "of the office")
    killed_after(forged, "of the stranger")
    book.chmod(0o644)
    work, others = log.read_bytes(), Path(f"{forged}-wal").read_bytes()

    def forge(path: Path) -> Callable[[], object]:
        return lambda: path.write_bytes(others)

    assert as_stranger(forge(book)) == "PermissionError"
    assert as_stranger(forge(log)) == ""
    before = book.read_bytes()
    with pytest.raises(CannotOpen) as caught:
        Session(book)
    assert caught.value.why is Why.LOG_OPEN
    takes = f"install -m 600 -- {log} {log}-own && mv -f -- {log}-own {log}"
    assert caught.value.sentence == (
        f"“{log}”, in which the newest work of “{book}” is looked for, may be written by people who"
        " may not write the book, as after a change of its permissions. They may have put something"
        f" else there. Nothing was changed. If you don't know that the work is yours, move “{log}”"
        f" away, and go on without it. If you do, open the book again after this command: {takes}"
    )
    looks: list[Callable[[], object]] = [
        lambda: braildesk.copy(book, tmp_path / "copy"),
        lambda: braildesk.read_tables(book),
        lambda: snapshot(book).__enter__(),
    ]
    for look in looks:
        with pytest.raises(CannotOpen) as caught:
            look()
        assert caught.value.why is Why.LOG_OPEN
    assert (book.read_bytes(), log.read_bytes()) == (before, others)
    # who may only read the book can't take it for those who may write it
    answers = tmp_path / "answers"
    answers.touch()
    answers.chmod(0o666)

    def ask() -> None:
        try:
            snapshot(book).__enter__()
        except CannotOpen as refusal:
            answers.write_text(refusal.sentence)

    assert as_stranger(ask) == ""
    assert answers.read_text().endswith(
        f" Nothing was changed. Ask somebody who may write “{book}” to open it."
    )
    # and one that a session is using isn't taken from it
    with open(book, "rb") as used:
        assert opening.take_shared(used)
        with pytest.raises(CannotOpen) as caught:
            snapshot(book).__enter__()
    assert caught.value.why is Why.IN_USE
    log.write_bytes(work)
    subprocess.run(takes, shell=True, check=True)
    with Session(book) as session:
        assert session.print_of(1) == "of the office"
    assert as_stranger(forge(log)) == "PermissionError"


@NEEDS_ROOT
def test_a_log_of_somebody_who_may_not_write_the_book_is_not_taken(
    book: Path, tmp_path: Path
) -> None:
    lead_to(tmp_path)
    log, own = Path(f"{book}-wal"), tmp_path / "own"
    own.mkdir()
    os.chown(own, STRANGER, STRANGER)
    killed_after(book, "of a colleague")
    # it isn't that the copy can't be written
    log.chmod(0o600)
    assert as_stranger(lambda: braildesk.copy(book, own / "copy")) == "CannotOpen"
    os.chown(log, STRANGER, STRANGER)
    with pytest.raises(CannotOpen) as caught:
        Session(book)
    assert caught.value.why is Why.LOG_OPEN
    # as a colleague who has that group may write the book
    os.chown(book, -1, STRANGER)
    book.chmod(0o664)
    with Session(book) as session:
        assert session.print_of(1) == "of a colleague"


@NEEDS_ROOT
def test_a_log_of_another_that_its_folder_lets_nobody_move_is_left_to_an_administrator(
    book: Path, tmp_path: Path
) -> None:
    lead_to(tmp_path)
    tmp_path.chmod(0o1777)
    log, answers = Path(f"{book}-wal"), tmp_path / "answers"
    killed_after(book, "of the office")
    os.chown(book, STRANGER, STRANGER)
    answers.touch()
    answers.chmod(0o666)

    def ask() -> None:
        try:
            Session(book)
        except CannotOpen as refusal:
            answers.write_text(f"{refusal.why}: {refusal.sentence}")

    os.chown(log, STRANGER - 1, STRANGER - 1)
    log.chmod(0o644)
    assert as_stranger(lambda: log.rename(tmp_path / "away")) == "PermissionError"
    assert as_stranger(ask) == ""
    assert answers.read_text() == (
        f"log open to others and held by its folder: “{log}”, in which the newest work of “{book}”"
        " is looked for, may be written by people who may not write the book, as after a change of"
        " its permissions. They may have put something else there, and its folder lets nobody move"
        " it away but its owner, the owner of the folder and an administrator. Nothing was changed."
        f" If you know that the work is yours, ask an administrator to make “{log}” yours, with the"
        " mode 600, and open the book again. If you don't, ask for it to be moved away, and go on"
        " without it."
    )
    os.chown(log, STRANGER, STRANGER)
    log.chmod(0o600)
    assert as_stranger(lambda: Session(book).close()) == ""
    with Session(book) as session:
        assert session.print_of(1) == "of the office"


@NEEDS_ROOT
def test_a_log_without_work_is_made_anew_where_others_could_write_it(
    book: Path, tmp_path: Path
) -> None:
    forged = Path(shutil.copyfile(book, tmp_path / "forged"))
    killed_after(forged, "of the stranger")
    log = Path(f"{book}-wal")
    os.chown(book, -1, STRANGER)
    book.chmod(0o664)
    Session(book).close()
    book.chmod(0o644)
    # who opened it while that was permitted writes into what nobody reads any more
    with open(log, "r+b") as opened_before:
        Session(book).close()
        opened_before.write(Path(f"{forged}-wal").read_bytes())
    assert braildesk.check(book) == 1
    assert stat.S_IMODE(log.stat().st_mode) == 0o644


@NEEDS_ROOT
def test_a_log_that_a_colleague_began_may_be_written_by_who_owns_the_book(
    book: Path,
) -> None:
    # a colleague may read and write it by a list of access, which names nobody else
    listed = (1, 6, NOBODY), (2, 6, STRANGER), (4, 0, NOBODY), (16, 6, NOBODY)
    entries = [struct.pack("<HHI", *each) for each in (*listed, (32, 0, NOBODY))]
    os.chown(book, STRANGER - 1, -1)
    try:
        names = b"".join([struct.pack("<I", 2), *entries])
        os.setxattr(book, "system.posix_acl_access", names)
    except OSError:
        pytest.skip("the file system keeps no such lists")
    lead_to(book.parent)
    book.parent.chmod(0o777)
    log = Path(f"{book}-wal")
    assert as_stranger(lambda: fit_log(BookFile(str(book)))) == ""
    assert log.stat().st_uid == STRANGER
    assert as_stranger(lambda: log.open("r+b").close(), STRANGER - 1) == ""
    assert as_stranger(lambda: log.open("r+b").close(), STRANGER - 2) != ""


@NEEDS_ROOT
@pytest.mark.parametrize(
    "owner, has_work, listed",
    [(STRANGER, False, False), (STRANGER - 1, True, False), (STRANGER - 1, True, True)],
)
def test_nobody_may_read_a_log_who_may_not_read_its_book(
    book: Path, owner: int, has_work: bool, listed: bool
) -> None:
    log, own = Path(f"{book}-wal"), STRANGER - 1
    if has_work:
        killed_after(book, "of the owner")
    log.touch()
    for path, uid, mode in ((book, own, 0o660), (log, owner, 0o664)):
        os.chown(path, uid, own)
        path.chmod(mode)
    # a colleague may use the book by a list of access, or another may read what is left of its log by one
    path, whom, may = (log, STRANGER - 2, 4) if listed else (book, STRANGER, 6)
    who = (1, 6, NOBODY), (2, may, whom), (4, 6, NOBODY), (16, 6, NOBODY)
    entries = [struct.pack("<HHI", *each) for each in (*who, (32, 0, NOBODY))]
    try:
        names = b"".join([struct.pack("<I", 2), *entries])
        os.setxattr(path, "system.posix_acl_access", names)
    except OSError:
        pytest.skip("the file system keeps no such lists")
    lead_to(book.parent)
    book.parent.chmod(0o777)
    assert as_stranger(lambda: log.open("rb").close(), STRANGER - 2) == ""
    assert as_stranger(lambda: fit_log(BookFile(str(book))), own) == ""
    assert as_stranger(lambda: log.open("rb").close(), STRANGER - 2) != ""
    assert as_stranger(lambda: log.open("r+b").close(), own) == ""
    assert as_stranger(lambda: Session(book).close(), own) == ""


@NEEDS_ROOT
def test_a_log_of_a_colleague_that_more_may_read_is_made_anew_with_its_work(
    book: Path,
) -> None:
    log, own = Path(f"{book}-wal"), STRANGER - 1
    killed_after(book, "of a colleague")
    # the colleague is of the group that may use the book
    for path, uid, mode in ((book, own, 0o660), (log, STRANGER, 0o664)):
        os.chown(path, uid, STRANGER)
        path.chmod(mode)
    lead_to(book.parent)
    book.parent.chmod(0o777)

    def type_more() -> None:
        with Session(book) as session:
            assert session.print_of(1) == "of a colleague"
            session.add_paragraph("end", "en", "secret")
            kill(session)

    # who opened it while that was permitted reads on in what nothing more is written to
    with open(log, "rb") as opened_before:
        assert as_stranger(type_more, own) == ""
        assert b"secret" not in opened_before.read()
    assert b"secret" in log.read_bytes()
    assert stat.S_IMODE(log.stat().st_mode) & 0o007 == 0
    assert names(book.parent) == {book.name, log.name}
    with Session(book) as session:
        assert [session.print_of(1), session.print_of(2)] == [
            "of a colleague",
            "secret",
        ]


@NEEDS_ROOT
@pytest.mark.parametrize("is_after", [False, True])
@pytest.mark.parametrize(
    "step", ["create", "copy_bytes", "give_list", "give_access", "put_in_place"]
)
def test_the_work_in_a_log_stays_whenever_its_making_anew_is_killed(
    book: Path, monkeypatch: pytest.MonkeyPatch, step: str, is_after: bool
) -> None:
    log, own = Path(f"{book}-wal"), STRANGER - 1
    killed_after(book, "of a colleague")
    for path, uid, mode in ((book, own, 0o660), (log, STRANGER, 0o664)):
        os.chown(path, uid, STRANGER)
        path.chmod(mode)
    lead_to(book.parent)
    book.parent.chmod(0o777)
    work, whole = log.read_bytes(), getattr(held, step)

    def killed(*asked: Any) -> Any:
        if is_after:
            whole(*asked)
        os.kill(os.getpid(), signal.SIGKILL)

    with monkeypatch.context() as patched:
        patched.setattr(held, step, killed)
        child = os.fork()
        if child == 0:
            become_stranger(own)
            fit_log(BookFile(str(book)))
            os._exit(0)
    _, status = os.waitpid(child, 0)
    assert os.WTERMSIG(status) == signal.SIGKILL
    assert log.read_bytes() == work
    assert as_stranger(lambda: fit_log(BookFile(str(book))), own) == ""
    assert log.read_bytes() == work
    assert stat.S_IMODE(log.stat().st_mode) & 0o007 == 0
    assert braildesk.check(book) == 2


@NEEDS_ROOT
@pytest.mark.parametrize("mode", [0o660, 0o600])
def test_who_is_not_in_the_group_of_a_book_of_ones_own_is_told_so_where_its_log_is_for_that(
    book: Path, tmp_path: Path, mode: int
) -> None:
    log = Path(f"{book}-wal")
    log.touch()
    for path, owner, its in ((book, STRANGER, 0o660), (log, STRANGER - 1, mode)):
        os.chown(path, owner, STRANGER - 2)
        path.chmod(its)
    lead_to(tmp_path)
    tmp_path.chmod(0o1777)

    def open_it() -> None:
        with pytest.raises(CannotOpen) as caught:
            Session(book).close()
        assert caught.value.why is Why.LOG_DENIED
        told = (
            f"“{log}” is for the group of “{book}”, which is your own, and you aren't in that group."
            " Ask an administrator to put you into it, and log in again."
        )
        assert caught.value.sentence.endswith(told) is (mode == 0o660)

    assert as_stranger(open_it) == ""


@NEEDS_ROOT
@pytest.mark.parametrize("has_work", [False, True])
def test_nothing_is_written_to_a_log_that_more_may_read_and_its_folder_keeps(
    book: Path, tmp_path: Path, has_work: bool
) -> None:
    log, own = Path(f"{book}-wal"), STRANGER - 1
    if has_work:
        killed_after(book, "of a colleague")
    log.touch()
    for path, uid, mode in ((book, own, 0o660), (log, STRANGER, 0o664)):
        os.chown(path, uid, STRANGER)
        path.chmod(mode)
    lead_to(tmp_path)
    tmp_path.chmod(0o1777)

    def become_another_of_the_group() -> None:
        os.setgroups([STRANGER])
        os.setgid(own)
        os.setuid(own)

    def asked(*words: str, given: str = "") -> Ran:
        return scribe(
            words[0],
            book,
            *words[1:],
            folder=tmp_path,
            given=given,
            before=become_another_of_the_group,
        )

    refused = asked("run", given="type end en secret\n")
    owner = pwd.getpwuid(STRANGER).pw_name
    assert refused == Ran(
        2,
        "",
        f"“{log}” may be read by people who may not read “{book}”, and what is kept would stand there"
        f" first. It belongs to “{owner}”, and no other could be put in its place: its folder doesn't"
        f" let you, or its disk has no room. Nothing was changed. Ask “{owner}” to open the book once,"
        " by which that file gets its permissions, or ask an administrator to do so.\n",
    )
    # what is there may be looked at, by a copy
    looked = asked("list")
    assert (looked.status, "of a colleague" in looked.shown) == (0, has_work)
    assert stat.S_IMODE(log.stat().st_mode) == 0o664
    assert as_stranger(lambda: Session(book).close()) == ""
    assert stat.S_IMODE(log.stat().st_mode) == 0o660
    assert asked("run", given="type end en secret\n").status == 0
    assert braildesk.check(book) == 2 + has_work


@NEEDS_ROOT
def test_a_log_without_work_is_made_anew_where_the_book_may_be_used_again(
    book: Path, tmp_path: Path
) -> None:
    lead_to(tmp_path)
    os.chown(tmp_path, -1, STRANGER)
    tmp_path.chmod(0o2775)
    os.chown(book, -1, STRANGER)
    for mode in (0o640, 0o600):
        book.chmod(mode)
        Session(book).close()
        book.chmod(0o664)
        assert as_stranger(lambda: Session(book).close()) == ""
    assert stat.S_IMODE(Path(f"{book}-wal").stat().st_mode) == 0o664


@NEEDS_ROOT
def test_a_log_is_there_as_its_book_is_before_the_program_opens_that(
    book: Path, tmp_path: Path
) -> None:
    # whose files get its own group, which may not write the book
    tmp_path.chmod(0o2775)
    os.chown(tmp_path, -1, STRANGER)
    book.chmod(0o664)
    noting, noted = tmp_path / "noting", tmp_path / "noted"
    noting.write_text(
        # where others may write, the program may write into no other file
        f"#!/bin/sh\nln -s \"$(stat -c '%a %g %s' '{book}-wal')\" '{noted}'\n"
        f"exec '{braildesk.find()}' \"$@\"\n"
    )
    noting.chmod(0o755)
    with Session(book, noting) as session:
        kill(session)
    assert os.readlink(noted) == f"664 {book.stat().st_gid} 0"
    assert braildesk.check(book) == 1


def test_no_log_elsewhere_gets_a_mode_where_the_folder_of_a_book_is_exchanged(
    book: Path, tmp_path: Path, monkeypatch: pytest.MonkeyPatch
) -> None:
    shared, own, away = (tmp_path / name for name in ("shared", "own", "away"))
    for folder in (shared, own):
        folder.mkdir()
        for name in ("moon", "moon-wal"):
            (folder / name).write_bytes(b"")
            (folder / name).chmod(0o666 if folder == shared else 0o600)
    whole_open = os.open

    def open_and_exchange(*asked: Any, **more: Any) -> int:
        opened = whole_open(*asked, **more)
        if str(asked[0]).endswith("moon"):
            shared.rename(away)
            own.rename(shared)
        return opened

    monkeypatch.setattr(os, "open", open_and_exchange)
    fit_log(BookFile(str(shared / "moon")))
    monkeypatch.undo()
    assert away.exists()
    assert stat.S_IMODE((shared / "moon-wal").stat().st_mode) == 0o600


@pytest.mark.parametrize(
    "listed", [b"", b"\2", b"\2\0\0\0\4", b"\2\0\0\0" + b"\4" * 11]
)
def test_a_list_of_access_that_is_cut_off_is_read_as_far_as_it_goes(
    book: Path, monkeypatch: pytest.MonkeyPatch, listed: bytes
) -> None:
    book.chmod(0o640)
    monkeypatch.setattr(os, "getxattr", lambda *asked: listed)
    assert mode_of(book, book.stat()) == 0o640


def test_what_is_made_of_a_book_with_a_list_of_access_gives_its_group_no_more(
    book: Path, tmp_path: Path
) -> None:
    # its owner and another user may read and write it, and its group may do nothing
    listed = [(1, 6, NOBODY), (2, 6, 65_534), (4, 0, NOBODY), (16, 6, NOBODY)]
    entries = [struct.pack("<HHI", *each) for each in (*listed, (32, 0, NOBODY))]
    try:
        names = b"".join([struct.pack("<I", 2), *entries])
        os.setxattr(book, "system.posix_acl_access", names)
    except OSError:
        pytest.skip("the file system keeps no such lists")
    assert stat.S_IMODE(book.stat().st_mode) == 0o660
    braildesk.copy(book, tmp_path / "copy")
    assert stat.S_IMODE((tmp_path / "copy").stat().st_mode) == 0o600
    assert Access.of(book).mode == 0o600


@NEEDS_ROOT
@pytest.mark.parametrize("is_listed", [False, True])
@pytest.mark.parametrize("refused", [(2, 0, STRANGER - 2), (8, 0, STRANGER - 2)])
def test_whom_the_list_of_a_book_refuses_by_name_reads_nothing_that_is_made_of_it(
    book: Path, tmp_path: Path, refused: tuple[int, int, int], is_listed: bool
) -> None:
    def packed(*listed: tuple[int, int, int]) -> bytes:
        entries = [struct.pack("<HHI", *each) for each in listed]
        return b"".join([struct.pack("<I", 2), *entries])

    who, others = STRANGER - 2, ((4, 6, NOBODY), (16, 6, NOBODY), (32, 4, NOBODY))
    named = sorted([refused, *others])
    folder, setgid = tmp_path / "folder", tmp_path / "setgid"
    folder.mkdir()
    setgid.mkdir()
    os.chown(setgid, -1, who)
    setgid.chmod(0o2755)
    log = Path(f"{book}-wal")
    book.chmod(0o664)
    log.touch()
    log.chmod(0o664)
    try:
        os.setxattr(book, "system.posix_acl_access", packed((1, 6, NOBODY), *named))
        if is_listed:
            # a folder gives what is made in it to all whom it names
            given = packed(
                (1, 6, NOBODY),
                (2, 6, who),
                (4, 6, NOBODY),
                (16, 6, NOBODY),
                (32, 4, NOBODY),
            )
            os.setxattr(folder, "system.posix_acl_default", given)
    except OSError:
        pytest.skip("the file system keeps no such lists")
    lead_to(tmp_path)
    assert as_stranger(lambda: book.open("rb").close(), who) == "PermissionError"
    assert as_stranger(lambda: book.open("rb").close(), who - 1) == ""
    braildesk.copy(book, folder / "copy")
    write_whole(folder / "pages", b"pages", Access.of(book))
    write_whole(setgid / "pages", b"pages", Access.of(book))
    fit_log(BookFile(str(book)))
    for made in (log, folder / "copy", folder / "pages", setgid / "pages"):
        assert as_stranger(lambda: made.open("rb").close(), who) == "PermissionError"
    # who may use the book by its list may use the log
    assert as_stranger(lambda: log.open("rb").close(), who - 1) == ""


@NEEDS_ROOT
def test_a_copy_stays_for_the_group_of_the_book_in_which_nobody_is_whom_its_list_limits(
    book: Path, tmp_path: Path
) -> None:
    # another user may only read the book, and isn't in its group
    listed = (1, 6, NOBODY), (2, 4, STRANGER), (4, 6, NOBODY), (16, 6, NOBODY)
    entries = [struct.pack("<HHI", *each) for each in (*listed, (32, 0, NOBODY))]
    groups = {0: 0o660, STRANGER: 0o640}
    for group, wanted in groups.items():
        os.chown(book, -1, group)
        try:
            names = b"".join([struct.pack("<I", 2), *entries])
            os.setxattr(book, "system.posix_acl_access", names)
        except OSError:
            pytest.skip("the file system keeps no such lists")
        copied = tmp_path / f"copy-{group}"
        braildesk.copy(book, copied)
        assert stat.S_IMODE(copied.stat().st_mode) == wanted
        assert Access.of(book).mode == wanted


def test_those_to_whom_a_folder_gives_access_by_a_list_have_it_to_what_is_made_there(
    book: Path, tmp_path: Path
) -> None:
    def packed(*listed: tuple[int, int, int]) -> bytes:
        entries = [struct.pack("<HHI", *each) for each in listed]
        return b"".join([struct.pack("<I", 2), *entries])

    # another user may read and write, and the group may read what is made, but not the book
    others = (2, 6, 65_534), (16, 6, NOBODY), (32, 0, NOBODY)
    of_book = packed((1, 6, NOBODY), others[0], (4, 0, NOBODY), *others[1:])
    folder = tmp_path / "folder"
    folder.mkdir()
    try:
        os.setxattr(book, "system.posix_acl_access", of_book)
        of_folder = packed((1, 6, NOBODY), others[0], (4, 4, NOBODY), *others[1:])
        os.setxattr(folder, "system.posix_acl_default", of_folder)
    except OSError:
        pytest.skip("the file system keeps no such lists")
    braildesk.copy(book, folder / "copy")
    write_whole(folder / "pages", b"pages", Access.of(book))
    for made in folder.iterdir():
        assert os.getxattr(made, "system.posix_acl_access") == of_book


@NEEDS_ROOT
@pytest.mark.parametrize("of_group", [0, 4])
@pytest.mark.parametrize("is_open", [False, True])
def test_whom_a_folder_lists_and_a_book_does_not_gets_no_more_than_the_group_of_the_book(
    book: Path, tmp_path: Path, of_group: int, is_open: bool
) -> None:
    def packed(*listed: tuple[int, int, int]) -> bytes:
        entries = [struct.pack("<HHI", *each) for each in sorted(listed)]
        return b"".join([struct.pack("<I", 2), *entries])

    owner, others, ben, eve = (1, 6, NOBODY), (32, 0, NOBODY), STRANGER - 2, STRANGER
    one = (2, 4, ben), (4, of_group, NOBODY), (16, 6, NOBODY)
    all_of_it = (2, 7, ben), (2, 7, eve), (8, 7, eve), (4, 7, NOBODY), (16, 7, NOBODY)
    folder = tmp_path / "folder"
    folder.mkdir()
    folder.chmod(0o755)
    with Session(book) as session:
        session.add_paragraph("end", "en", "private")
    try:
        os.setxattr(book, "system.posix_acl_access", packed(owner, *one, others))
        given = packed(owner, *all_of_it, others)
        os.setxattr(folder, "system.posix_acl_default", given)
    except OSError:
        pytest.skip("the file system keeps no such lists")
    lead_to(tmp_path)
    words = ("copy", book, "copy"), ("proof", book, "page.html"), ("export", book, ".")
    with ExitStack() as opened:
        if is_open:
            opened.enter_context(Session(book))
        # a book that is open isn't exported
        ran = [scribe(*each, folder=folder).status for each in words[: 3 - is_open]]
    made = sorted(folder.iterdir())
    assert ran == [0] * len(made) == [0] * (3 - is_open)
    for each in (book, *made):
        read, write = lambda: each.open("rb").close(), lambda: each.open("ab").close()
        for_group = "" if of_group and each != book else "PermissionError"
        assert (as_stranger(read, ben), as_stranger(read, eve)) == ("", for_group)
        assert as_stranger(write, ben) == as_stranger(write, eve) == "PermissionError"


@pytest.mark.parametrize(
    ("mode", "of_copy"), [(0o600, 0o600), (0o664, 0o664), (0o4640, 0o640)]
)
def test_a_copy_has_the_mode_of_the_book(
    book: Path, tmp_path: Path, mode: int, of_copy: int
) -> None:
    killed_after(book, "not in the file yet")
    book.chmod(mode)
    old = Path(shutil.copyfile(book, tmp_path / "old"))
    old.chmod(0o666)
    before = os.umask(0o027)
    try:
        braildesk.copy(book, tmp_path / "copied")
        braildesk.copy(book, old, overwrite=True)
    finally:
        os.umask(before)
    for copied in (tmp_path / "copied", old):
        assert stat.S_IMODE(copied.stat().st_mode) == of_copy


@pytest.mark.skipif(os.getuid() != 0, reason="only root gives a file to another")
def test_a_copy_has_the_owner_of_the_book_where_that_is_permitted(
    book: Path, tmp_path: Path, open_folder: Path
) -> None:
    os.chown(book, 1234, 5678)
    braildesk.copy(book, tmp_path / "copied")
    found = (tmp_path / "copied").stat()
    assert (found.st_uid, found.st_gid) == (1234, 5678)
    path = Path(shutil.copyfile(book, open_folder / "book"))
    path.chmod(0o644)
    as_nobody(ATTEMPTS, path, open_folder / "copied")
    assert (open_folder / "copied").stat().st_uid == 65534


@pytest.mark.parametrize("way", ["of the file", "of its folder"])
def test_through_a_link_the_work_beside_the_file_is_found(
    book: Path, tmp_path: Path, way: str
) -> None:
    with Session(book) as session:
        session.put_table("new", b"letter a 1\n")
        os.kill(session.pid, signal.SIGKILL)
        with pytest.raises(braildesk.SessionEnded):
            session.version()
    elsewhere = tmp_path / "elsewhere"
    if way == "of the file":
        elsewhere.mkdir()
        (elsewhere / book.name).symlink_to(book)
    else:
        elsewhere.symlink_to(tmp_path)
    linked = elsewhere / book.name
    assert [table.name for table in braildesk.read_tables(linked)] == ["en", "new"]
    assert braildesk.copy(linked, tmp_path / "copied") == 2
    assert braildesk.check(tmp_path / "copied") == 2
    assert braildesk.check(linked) == 2


@pytest.mark.parametrize("kind", ["a link", "another name", "a pipe"])
def test_a_log_that_is_no_file_of_its_own_is_not_read(
    book: Path, tmp_path: Path, kind: str
) -> None:
    other = tmp_path / "other"
    other.write_bytes(b"of another user" * 1_000)
    log = Path(f"{book}-wal")
    match kind:
        case "a link":
            log.symlink_to(other)
        case "another name":
            os.link(other, log)
        case "a pipe":
            os.mkfifo(log)
    attempts: list[Callable[[], object]] = [
        lambda: braildesk.check(book),
        lambda: braildesk.read_tables(book),
        lambda: braildesk.copy(book, tmp_path / "copied"),
    ]
    for attempt in attempts:
        with pytest.raises(CannotOpen) as caught:
            attempt()
        assert caught.value.why is Why.NO_LOG
    assert names(tmp_path) == {book.name, log.name, "other"}


@pytest.mark.parametrize("length", [3, 40, 4_000])
def test_a_file_of_another_kind_in_the_place_of_a_log_stays_as_it_is(
    book: Path, tmp_path: Path, length: int
) -> None:
    log, notes = Path(f"{book}-wal"), (b"My notes on the book.\n" * 200)[:length]
    log.write_bytes(notes)
    deeds: tuple[Callable[[], object], ...] = (
        lambda: braildesk.check(book),
        lambda: Session(book).close(),
        lambda: braildesk.copy(book, tmp_path / "copy"),
    )
    for deed in deeds:
        with pytest.raises(CannotOpen) as caught:
            deed()
        assert caught.value.why is Why.NO_LOG
    assert log.read_bytes() == notes
    # as after a loss of power
    log.write_bytes(bytes(length))
    assert braildesk.check(book) == 1


def test_a_copy_that_replaces_a_book_through_a_link_leaves_the_link(
    book: Path, tmp_path: Path
) -> None:
    old = Path(shutil.copyfile(book, tmp_path / "old"))
    killed_after(old, "of the old book")
    link = tmp_path / "link"
    link.symlink_to("old")
    assert braildesk.copy(book, link, overwrite=True) == 1
    assert os.readlink(link) == "old"
    with Session(old) as session:
        assert session.paragraphs() == ()


@NEEDS_ROOT
@pytest.mark.parametrize("way", ["the book", "its folder", "a link of one's own"])
def test_a_copy_replaces_no_book_through_a_link_of_another_user(
    book: Path, tmp_path: Path, way: str
) -> None:
    private, shared = tmp_path / "private", tmp_path / "shared"
    for folder in (private, shared):
        folder.mkdir()
    old = Path(shutil.copyfile(book, private / "old"))
    shared.chmod(0o777)
    lead_to(shared)
    to = link = shared / "link"
    if way == "its folder":
        to = link / "old"
        assert as_stranger(lambda: link.symlink_to("../private")) == ""
    else:
        assert as_stranger(lambda: link.symlink_to("../private/old")) == ""
        if way != "the book":
            to = tmp_path / "own"
            to.symlink_to(link)
    braildesk.new_book(other := tmp_path / "other")
    with pytest.raises(NotCopied) as caught:
        braildesk.copy(other, to, overwrite=True)
    assert caught.value.sentence == (
        f"The link “{link}” is another user's, and no book is replaced through it. Take the path to"
        " which it leads, if that is what you mean, or another one."
    )
    assert braildesk.check(old) == 1
    assert braildesk.copy(other, old, overwrite=True) == 0


@NEEDS_ROOT
def test_no_empty_file_becomes_a_book_through_a_link_of_another_user(
    tmp_path: Path,
) -> None:
    shared, empty, link = (
        tmp_path / name for name in ("shared", "empty", "shared/new")
    )
    shared.mkdir()
    shared.chmod(0o777)
    lead_to(shared)
    empty.touch()
    assert as_stranger(lambda: link.symlink_to("../empty")) == ""
    with pytest.raises(NotMade, match="and no book is made through it"):
        braildesk.new_book(link)
    assert empty.read_bytes() == b""
    braildesk.new_book(empty)


@NEEDS_ROOT
@pytest.mark.parametrize("is_root", [True, False])
def test_no_empty_file_of_another_user_becomes_a_book(
    tmp_path: Path, is_root: bool
) -> None:
    empty = tmp_path / "empty"
    tmp_path.chmod(0o1777)
    lead_to(tmp_path)
    empty.touch()
    empty.chmod(0o666)
    os.chown(empty, STRANGER if is_root else 1, STRANGER)

    def make() -> None:
        with pytest.raises(NotMade) as caught:
            braildesk.new_book(empty)
        assert caught.value.sentence == (
            f"“{empty}” is an empty file of another user, who could read and change what is put there."
            " Nothing was made. Take another path for the new book."
        )

    if is_root:
        make()
    else:
        assert as_stranger(make) == ""
    assert empty.read_bytes() == b""


@pytest.mark.parametrize("is_replaced", [True, False])
def test_an_empty_file_becomes_a_book_for_those_whom_the_umask_leaves(
    tmp_path: Path, monkeypatch: pytest.MonkeyPatch, is_replaced: bool
) -> None:
    empty = tmp_path / "empty"
    empty.touch()
    empty.chmod(0o666)
    if not is_replaced:

        def refused(*_: object, **__: object) -> None:
            raise OSError(errno.EPERM, os.strerror(errno.EPERM))

        monkeypatch.setattr(os, "replace", refused)
    before = os.umask(0o027)
    try:
        braildesk.new_book(empty)
    finally:
        os.umask(before)
    assert stat.S_IMODE(empty.stat().st_mode) == 0o640


def test_no_book_is_made_at_the_path_of_a_folder_that_is_not_there(
    tmp_path: Path,
) -> None:
    with pytest.raises(NotMade) as caught:
        braildesk.new_book(f"{tmp_path}/sub/")
    assert caught.value.sentence == (
        f"“{tmp_path}/sub/” ends in a slash, as only the path of a folder does. Nothing was made. Take the"
        " path of a file."
    )
    ran = scribe("new", "sub/", folder=tmp_path)
    assert ran.said.splitlines()[0] == (
        "Argument FILE: sub/ ends in a slash, as only the path of a folder does."
    )
    assert (ran.status, names(tmp_path)) == (1, set())


@contextmanager
def swapped(folder: Path, name: Callable[[], Path], to: Path) -> Iterator[Path]:
    """A program in whose place another user first has a name lead elsewhere, once it is begun."""
    queue, program = folder / "queue", folder / "program"
    os.mkfifo(queue)
    queue.chmod(0o666)
    program.write_text(f'#!/bin/sh\ncat "{queue}"\nexec "{braildesk.find()}" "$@"\n')
    program.chmod(0o755)

    def swap() -> None:
        in_time()
        with queue.open("wb"):
            path = name()
            path.rename(f"{path}-kept")
            path.symlink_to(to)

    with beside_stranger(swap):
        yield program
    queue.unlink()


@NEEDS_ROOT
@NEEDS_FENCE
@pytest.mark.parametrize("way", ["the book", "its folder", "a link to it"])
def test_a_link_put_in_place_of_a_book_that_is_opened_leads_the_program_nowhere(
    book: Path, tmp_path: Path, way: str
) -> None:
    shared, private = tmp_path / "shared", tmp_path / "private"
    for folder in (shared, private):
        folder.mkdir()
    shared.chmod(0o777)
    lead_to(shared)
    other = private / "book"
    other.touch()
    path, name, to = shared / "book", shared / "book", other
    match way:
        case "the book":
            shutil.move(book, path)
        case "its folder":
            name, to = shared / "folder", private
            name.mkdir()
            path = Path(shutil.move(book, name / "book"))
        case "a link to it":
            path.symlink_to(book)
    deeds: tuple[Callable[[Path], object], ...] = (
        lambda program: Session(path, program),
        lambda program: braildesk.check(path, program),
        lambda program: braildesk.export(path, 1, program=program),
    )
    for deed in deeds:
        with swapped(tmp_path, lambda: name, to) as program:
            if way == "a link to it":
                # what it led to at first is opened, which has no volume
                with suppress(NotFound):
                    opened = deed(program)
                    if isinstance(opened, Session):
                        opened.close()
            else:
                with pytest.raises(Refused) as refused:
                    deed(program)
                assert str(path) in refused.value.sentence
        assert other.read_bytes() == b"" and names(private) == {"book"}
        name.unlink()
        name.with_name(f"{name.name}-kept").rename(name)
    with Session(path) as session:
        session.add_paragraph("end", "en", "as before")
    assert braildesk.check(path) == 2


@NEEDS_ROOT
@NEEDS_FENCE
def test_a_folder_put_in_place_of_the_one_of_a_copy_leads_the_program_nowhere(
    book: Path, tmp_path: Path
) -> None:
    shared, other = tmp_path / "shared", tmp_path / "other"
    for folder in (shared, other):
        folder.mkdir()
    shared.chmod(0o777)
    lead_to(shared)
    made = other / workshop._MADE
    made.touch()
    with swapped(tmp_path, lambda: next(shared.glob(".b*")), other) as program:
        with pytest.raises(DeskError) as failed:
            braildesk.copy(book, shared / "copy", program=program)
    assert failed.value.sentence.endswith(
        "another program put something else in the place of what was made."
    )
    assert made.read_bytes() == b"" and names(other) == {made.name}
    assert not (shared / "copy").exists()


@NEEDS_FENCE
def test_a_book_is_opened_where_the_system_keeps_the_program_to_no_file(
    book: Path, tmp_path: Path, monkeypatch: pytest.MonkeyPatch
) -> None:
    tmp_path.chmod(0o777)
    monkeypatch.setattr(fenced, "_RULE_OF_PATH", 99)
    with Session(book) as session:
        session.add_paragraph("end", "en", "as before")
    assert braildesk.check(book) == 2


@NEEDS_FENCE
def test_what_is_begun_where_others_may_write_is_ended_by_ctrl_c(
    book: Path, tmp_path: Path
) -> None:
    tmp_path.chmod(0o777)
    begun: list[subprocess.Popen[bytes]] = []

    def begin() -> subprocess.Popen[bytes]:
        begun.append(subprocess.Popen(["sleep", "99"]))
        os.kill(os.getpid(), signal.SIGINT)
        return begun[0]

    with pytest.raises(KeyboardInterrupt):
        fenced.started(BookFile(str(book)), begin)
    while not begun:
        pass
    assert begun[0].wait() == -signal.SIGKILL


@pytest.mark.parametrize("is_empty", [True, False])
def test_a_link_put_in_place_of_a_file_leads_a_new_book_to_no_other(
    tmp_path: Path, monkeypatch: pytest.MonkeyPatch, is_empty: bool
) -> None:
    place, other = tmp_path / "place", tmp_path / "other"
    make_book = braildesk.program.make_book
    place.write_bytes(b"" if is_empty else b"No book")
    other.touch()

    def swapped(path: Path, program: str | None, named: str | None = None) -> None:
        place.unlink()
        place.symlink_to(other)
        make_book(path, program, named)

    monkeypatch.setattr(braildesk.program, "make_book", swapped)
    with pytest.raises(Failed if is_empty else CannotOpen):
        braildesk.new_book(place)
    assert (names(tmp_path), other.read_bytes()) == ({"place", "other"}, b"")


@pytest.mark.parametrize("times", [1, 9])
def test_no_program_is_said_to_have_a_book_open_that_another_replaces_meanwhile(
    tmp_path: Path, monkeypatch: pytest.MonkeyPatch, times: int
) -> None:
    path, others = tmp_path / "book", [tmp_path / f"other{n}" for n in range(times)]
    for each in (path, *others):
        each.write_bytes(opening.MAGIC + bytes(84))

    def taken(file: BinaryIO) -> bool:
        if others:
            others.pop().replace(path)
        return opening.take_shared(file)

    def look() -> int:
        with held.held(BookFile(str(path))) as file:
            return os.fstat(file.fileno()).st_size

    monkeypatch.setattr(held, "take_shared", taken)
    if times == 1:
        assert opening.waited(look, 0) == 100
        return
    with pytest.raises(CannotOpen) as caught:
        opening.waited(look, 0)
    assert caught.value.sentence == (
        f"“{path}” was replaced by another file just as it was opened, or was away for a moment."
        " Nothing was changed. See which program does that, and try again."
    )


def test_a_file_that_is_away_for_a_moment_is_not_said_to_be_none(
    tmp_path: Path, monkeypatch: pytest.MonkeyPatch
) -> None:
    path = tmp_path / "book"
    path.touch()
    aside = path.rename(tmp_path / "aside")
    slept = time.sleep

    def moved(seconds: float) -> None:
        slept(seconds)
        if aside.exists():
            aside.rename(path)

    assert opening.why(BookFile(str(path))) is Why.MISSING
    monkeypatch.setattr(time, "sleep", moved)
    assert opening.why(BookFile(str(path))) is Why.REPLACED


@pytest.mark.parametrize("is_made_anew", [False, True])
def test_a_book_whose_folder_is_not_where_it_was_is_said_to_be_there_no_more(
    book: Path, tmp_path: Path, monkeypatch: pytest.MonkeyPatch, is_made_anew: bool
) -> None:
    folder = tmp_path / "folder"
    folder.mkdir()
    shutil.copy(book, folder / "book")
    monkeypatch.chdir(folder)
    path = seen("book")
    folder.rename(tmp_path / "other")
    if is_made_anew:
        folder.mkdir()
    with pytest.raises(CannotOpen) as refused:
        Session(path)
    assert refused.value.why is Why.MISSING
    said = f"There is no file “{folder / 'book'}”. Check that the path is right."
    assert refused.value.sentence == said


def test_a_link_put_in_place_of_an_empty_book_has_its_table_put_into_no_other(
    empty_book: Path, tmp_path: Path, monkeypatch: pytest.MonkeyPatch
) -> None:
    place = Path(shutil.copyfile(empty_book, tmp_path / "place"))
    make_book = braildesk.program.make_book

    def swapped(path: Path, program: str | None) -> None:
        make_book(path, program)
        place.unlink()
        place.symlink_to(empty_book)

    monkeypatch.setattr(braildesk.program, "make_book", swapped)
    with pytest.raises(CannotOpen) as caught:
        braildesk.new_book(place, holding=[requests.Supply("en")])
    assert caught.value.why is Why.LED_AWAY
    assert braildesk.check(empty_book) == 0


def test_a_new_book_that_is_stopped_while_it_is_written_leaves_an_empty_file_empty(
    tmp_path: Path, monkeypatch: pytest.MonkeyPatch
) -> None:
    place = tmp_path / "place"
    place.touch(0o640)

    def stopped(source: int, target: int) -> None:
        os.write(target, os.read(source, 99))
        os.kill(os.getpid(), signal.SIGKILL)

    if (child := os.fork()) == 0:
        monkeypatch.setattr(making, "copy_bytes", stopped)
        braildesk.new_book(place)
    assert os.waitpid(child, 0)[1] == signal.SIGKILL
    assert place.read_bytes() == b""
    braildesk.new_book(place)
    assert (names(tmp_path), mode_of(place, place.stat())) == ({"place"}, 0o640)


@pytest.mark.parametrize("number", [errno.EPERM, errno.EACCES, errno.EBUSY])
def test_an_empty_file_that_may_not_be_replaced_becomes_a_book_itself(
    tmp_path: Path, monkeypatch: pytest.MonkeyPatch, number: int
) -> None:
    place = tmp_path / "place"
    place.touch()
    before = place.stat().st_ino

    def refused(*_: object, **__: object) -> None:
        raise OSError(number, os.strerror(number))

    monkeypatch.setattr(os, "replace", refused)
    braildesk.new_book(place)
    assert (names(tmp_path), place.stat().st_ino) == ({"place"}, before)
    assert braildesk.check(place) == 0


@pytest.mark.parametrize("ending", ["-wal", "-shm", "-journal"])
def test_no_book_gets_a_name_by_which_what_belongs_to_another_is_looked_for(
    book: Path, ending: str
) -> None:
    beside = Path(f"{book}-other{ending}")
    said = (
        f"“{beside}” is a name as a file beside a book has: “{book}-other” would be that book. Take"
        " another"
    )
    with pytest.raises(NotCopied) as copied:
        braildesk.copy(book, beside)
    assert copied.value.sentence == f"{said} path for the copy."
    with pytest.raises(NotMade) as made:
        braildesk.new_book(beside)
    assert made.value.sentence == f"{said} path for the new book."
    assert not beside.exists()


@pytest.mark.parametrize("has_work", [True, False])
def test_no_book_takes_the_place_of_what_belongs_to_another_one(
    book: Path, tmp_path: Path, has_work: bool
) -> None:
    log, other = Path(f"{book}-wal"), tmp_path / "other"
    braildesk.new_book(other)
    if has_work:
        killed_after(book, "kept")
    else:
        log.touch()
        with pytest.raises(NotMade, match="is a name as a file beside a book has"):
            braildesk.new_book(log)
    with pytest.raises(NotCopied, match="is a name as a file beside a book has"):
        braildesk.copy(other, log, overwrite=True)
    assert braildesk.check(book) == 1 + has_work


def test_books_are_replaced_and_made_by_whole_paths_in_a_folder_that_is_gone(
    book: Path, tmp_path: Path, monkeypatch: pytest.MonkeyPatch
) -> None:
    empty, gone = tmp_path / "empty", tmp_path / "gone"
    empty.touch()
    gone.mkdir()
    monkeypatch.chdir(gone)
    gone.rmdir()
    braildesk.new_book(empty)
    assert braildesk.copy(book, empty, overwrite=True) == 1


def test_a_copy_is_not_put_where_a_link_leads_nowhere(
    book: Path, tmp_path: Path
) -> None:
    link = tmp_path / "link"
    link.symlink_to("nothing")
    with pytest.raises(NotCopied):
        braildesk.copy(book, link)
    assert names(tmp_path) == {book.name, "link"}


@pytest.mark.parametrize("to", ["nothing", "missing/book", "book/book", "link"])
def test_a_new_book_is_not_made_where_a_link_leads_to_no_file(
    book: Path, tmp_path: Path, to: str
) -> None:
    link = tmp_path / "link"
    link.symlink_to(to.replace("book/", f"{book.name}/"))
    with pytest.raises(NotMade) as caught:
        braildesk.new_book(link)
    assert caught.value.sentence == (
        f"“{link}” is a link that leads to no file. Nothing was made. Remove the link, or take the"
        " path to which it leads."
    )
    assert names(tmp_path) == {book.name, "link"}


def test_a_book_is_not_opened_where_two_programs_get_the_lock_of_one_file(
    book: Path, tmp_path: Path, monkeypatch: pytest.MonkeyPatch
) -> None:
    control = fcntl.fcntl

    def granted(file: Any, what: int, *more: Any) -> Any:
        return b"" if what == fcntl.F_OFD_SETLK else control(file, what, *more)

    monkeypatch.setattr(fcntl, "fcntl", granted)
    deeds: tuple[Callable[[], object], ...] = (
        lambda: Session(book).close(),
        lambda: braildesk.check(book),
        lambda: braildesk.copy(book, tmp_path / "copy"),
    )
    for deed in deeds:
        with pytest.raises(CannotOpen) as caught:
            deed()
        assert caught.value.why is Why.NO_LOCKS
        assert caught.value.sentence.startswith(
            f"The file system of “{book}” lets two programs have the lock of one file, so that two"
            " could change the book at once. Nothing was "
        )
    assert names(tmp_path) == {book.name}


def test_a_book_with_two_names_is_opened_by_neither(book: Path, tmp_path: Path) -> None:
    other = tmp_path / "other"
    os.link(book, other)
    for path in (book, other):
        attempts: list[Callable[[], object]] = [
            lambda: Session(path),
            lambda: braildesk.check(path),
            lambda: braildesk.read_tables(path),
            lambda: braildesk.copy(path, tmp_path / "copied"),
        ]
        for attempt in attempts:
            with pytest.raises(CannotOpen) as caught:
                attempt()
            assert caught.value.why == Why.LINKED
            assert caught.value.sentence == (
                f"The file “{path}” has another name too (a hard link). By each name its newest work"
                " would be looked for in another place, so it is opened by none. Nothing was"
                " changed. Remove the other name; if one of them has a file ending in -wal beside it,"
                " keep that one."
            )
    assert names(tmp_path) == {book.name, "other"}
    other.unlink()
    assert braildesk.check(book) == 1


ENDLESS = (
    "ALTER TABLE {0} RENAME TO old_{0}; CREATE VIEW {0} AS WITH RECURSIVE more(n) AS (SELECT 1"
    " UNION ALL SELECT n + 1 FROM more) SELECT old_{0}.* FROM old_{0}, more"
)


def endless(book: Path, name: str) -> None:
    """Puts a view that never ends in the place of a table."""
    with closing(sqlite3.connect(book)) as database:
        database.executescript(ENDLESS.format(name))


def trying(deed: str, book: Path, to: Path) -> "subprocess.Popen[str]":
    """A process that does something with a book."""
    code = (
        "import sys, braildesk\n"
        "path, to = sys.argv[1:3]\n"
        "try:\n"
        f"    print({deed})\n"
        "except braildesk.DeskError as error:\n"
        "    print(type(error).__name__)\n"
    )
    return subprocess.Popen(
        [sys.executable, "-c", code, book, to],
        env={**os.environ, "PYTHONPATH": str(ROOT / "src")},
        stdout=subprocess.PIPE,
        stderr=subprocess.DEVNULL,
        text=True,
    )


@pytest.mark.parametrize(
    "deed, refused",
    [
        ("braildesk.read_tables(path)", "NotABook"),
        ("braildesk.copy(path, to)", "CannotOpen"),
    ],
)
def test_a_view_that_never_ends_is_not_read_for_a_table(
    book: Path, tmp_path: Path, deed: str, refused: str
) -> None:
    endless(book, "tab")
    before = names(tmp_path)
    with trying(deed, book, tmp_path / "copied") as process:
        try:
            assert process.communicate(timeout=WAIT_SECONDS)[0] == f"{refused}\n"
        finally:
            process.kill()
    assert names(tmp_path) == before


def children(process: int) -> list[int]:
    """The processes that a process started and that run still."""
    try:
        return [
            int(child)
            for child in Path(f"/proc/{process}/task/{process}/children")
            .read_text()
            .split()
        ]
    except FileNotFoundError:
        return []


def noted(process: int) -> list[str]:
    """What the system notes of a process after its name; nothing of one that has ended."""
    try:
        words = Path(f"/proc/{process}/stat").read_text().rpartition(")")[2].split()
    except FileNotFoundError:
        return []
    return [] if words[0] == "Z" else words


def ticks(process: int) -> int:
    """For how many ticks of the clock a process has run."""
    return int(([*noted(process)[11:], "0"])[0])


@pytest.mark.parametrize(
    "deed",
    ["braildesk.copy(path, to)", "braildesk.check(path)", "braildesk.Session(path)"],
)
def test_a_program_that_never_answers_is_left_by_ctrl_c(
    book: Path,
    tmp_path: Path,
    tmp_path_factory: pytest.TempPathFactory,
    monkeypatch: pytest.MonkeyPatch,
    deed: str,
) -> None:
    busy = tmp_path_factory.mktemp("busy") / "braildesk"
    busy.write_text("#!/bin/sh\nwhile :; do :; done\n")
    busy.chmod(0o755)
    monkeypatch.setenv("BRAILDESK", str(busy))
    found: list[int] = []
    with trying(deed, book, tmp_path / "copied") as process:
        try:
            # until the program is busy with it
            while not (found := children(process.pid)) or ticks(found[0]) < 20:
                assert process.poll() is None
                time.sleep(0.01)
            (program,) = found
            process.send_signal(signal.SIGINT)
            process.wait(timeout=WAIT_SECONDS)
            assert not noted(program)
        finally:
            process.kill()
            for left in found:
                with suppress(ProcessLookupError):
                    os.kill(left, signal.SIGKILL)
    assert names(tmp_path) <= {book.name, f"{book.name}-wal"}


def test_a_hole_in_a_file_stays_one_in_its_copy(
    book: Path, tmp_path: Path, monkeypatch: pytest.MonkeyPatch
) -> None:
    os.truncate(book, 1 << 32)
    blocks = []
    check = braildesk.program.check

    def measured(path: Path, program: str | None = None) -> int:
        blocks.append(path.stat().st_blocks)
        return check(path, program)

    monkeypatch.setattr(braildesk.program, "check", measured)
    with pytest.raises(CannotOpen):
        braildesk.copy(book, tmp_path / "copied")
    assert blocks[0] * 512 < 1 << 24


def test_a_file_that_is_larger_than_any_book_is_not_opened(
    book: Path, tmp_path: Path
) -> None:
    os.truncate(book, limits.BOOK_BYTES + 1)
    attempts: list[Callable[[], object]] = [
        lambda: Session(book, "false"),
        lambda: braildesk.new_book(book, "false"),
        lambda: braildesk.copy(book, tmp_path / "copied", program="false"),
        lambda: braildesk.read_tables(book),
    ]
    for attempt in attempts:
        with pytest.raises(CannotOpen) as caught:
            attempt()
        assert caught.value.sentence == (
            f"“{book}” has more than 4,294,967,296 bytes, which is more than a book has. It was not"
            " opened, and nothing was changed. Check that it is the right file; if it is, braildesk"
            " itself opens books of any size."
        )


def test_a_damaged_book_is_not_copied(book: Path, tmp_path: Path) -> None:
    with closing(sqlite3.connect(book)) as database:
        database.execute("UPDATE book SET version = -1")
        database.commit()
    before = names(tmp_path)
    with pytest.raises(Damaged) as caught:
        braildesk.copy(book, tmp_path / "copied")
    assert f"The book “{book}” is damaged" in caught.value.sentence
    assert names(tmp_path) - before <= {f"{book.name}-wal", f"{book.name}-shm"}


def test_a_copy_into_a_folder_that_is_not_there_says_so(
    book: Path, tmp_path: Path
) -> None:
    with pytest.raises(Failed) as caught:
        braildesk.copy(book, tmp_path / "none" / "copied")
    assert caught.value.sentence == (
        f"The copy “{tmp_path}/none/copied” could not be written: No such file or directory."
    )


@pytest.mark.parametrize(
    ("kind", "why", "says"),
    [
        (
            "missing",
            Why.MISSING,
            "There is no file “{}”. Check that the path is right.",
        ),
        (
            "under a file",
            Why.MISSING,
            "There is no file “{}”. Check that the path is right.",
        ),
        (
            "folder",
            Why.FOLDER,
            "“{}” is a folder and no file. Give the path of a file in it.",
        ),
        (
            "text",
            Why.NO_DATABASE,
            "“{}” is no book, since it isn't even a database. Nothing was changed. Check that the"
            " path is right.",
        ),
        (
            "cut short",
            Why.CUT_SHORT,
            "The book “{}” is cut short: its end is missing. Nothing was changed. Keep the file as"
            " it is, and go on with an earlier copy.",
        ),
        (
            "NUL",
            Why.NO_PATH,
            "“{}” can't be a path for braildesk, which takes those in UTF-8 alone.",
        ),
        (
            "no UTF-8",
            Why.NO_PATH,
            "“{}” can't be a path for braildesk, which takes those in UTF-8 alone.",
        ),
    ],
)
def test_a_file_that_cannot_be_opened_says_why(
    book: Path, tmp_path: Path, kind: str, why: Why, says: str
) -> None:
    path = str(tmp_path / "it")
    shown = path
    match kind:
        case "under a file":
            path = shown = f"{book}/it"
        case "folder":
            os.mkdir(path)
        case "text":
            Path(path).write_text("Once upon a time there was a moon.\n" * 100)
        case "cut short":
            Path(path).write_bytes(book.read_bytes()[:-4096])
        case "NUL":
            path, shown = f"{path}\0", f"{path}<U+0000>"
        case "no UTF-8":
            path, shown = f"{path}\udcff", f"{path}<U+DCFF>"
    attempts: list[Callable[[], object]] = [
        lambda: Session(path),
        lambda: braildesk.check(path),
        lambda: braildesk.read_tables(path),
        lambda: braildesk.copy(path, tmp_path / "copied"),
    ]
    for attempt in attempts:
        with pytest.raises(CannotOpen) as caught:
            attempt()
        assert (caught.value.code, caught.value.why) == (98, why)
        assert caught.value.sentence == says.format(shown)
    assert not (tmp_path / "copied").exists()


def test_a_new_book_in_a_folder_that_is_not_there_is_refused(tmp_path: Path) -> None:
    path = tmp_path / "none" / "moon.braildesk"
    with pytest.raises(CannotOpen) as caught:
        braildesk.new_book(path)
    assert caught.value.why == Why.NO_FOLDER
    assert caught.value.sentence == (
        f"There is no folder in which “{path}” could be made. Check that the path is right."
    )


def test_an_older_copy_beside_the_log_of_a_newer_book_is_said_to_be_that(
    book: Path, tmp_path: Path
) -> None:
    older = Path(shutil.copyfile(book, tmp_path / "older"))
    with Session(book) as session:
        for number in range(60):
            session.add_paragraph("end", "en", f"line {number} " + "x" * 500)
    with Session(book) as session:
        for number in range(3):
            session.correct(number + 1, 0, 4, "Line")
        os.kill(session.pid, signal.SIGKILL)
        with pytest.raises(braildesk.SessionEnded):
            session.version()
    shutil.copyfile(older, book)
    log = Path(f"{book}-wal")
    before = book.read_bytes(), log.read_bytes()
    noting, asked = tmp_path / "noting", tmp_path / "asked"
    noting.write_text(
        f"#!/bin/sh\necho \"$@\" >> '{asked}'\nexec '{braildesk.find()}' \"$@\"\n"
    )
    noting.chmod(0o755)
    attempts: list[Callable[[], object]] = [
        lambda: Session(book, noting),
        lambda: braildesk.check(book, noting),
        lambda: braildesk.copy(book, tmp_path / "copied", program=noting),
    ]
    for attempt in attempts:
        with pytest.raises(CannotOpen) as caught:
            attempt()
        assert caught.value.why == Why.OTHER_LOG
        assert caught.value.sentence == (
            f"The file “{log}” isn't that of “{book}” as it is: “{book}” is whole without it, and"
            " with it would be damaged or lose what it has. It may be that another file was put in"
            f" the place of the book. Nothing was changed. Keep both files; to go on with “{book}”"
            f" as it is, move “{log}” away."
        )
    assert (book.read_bytes(), log.read_bytes()) == before
    # the program itself would put the two together
    assert str(book) not in asked.read_text().split()
    log.unlink()
    assert braildesk.check(book) == 1


@pytest.mark.parametrize("has_work", [False, True])
def test_a_book_beside_the_log_of_one_that_is_open_is_said_to_be_that(
    book: Path, tmp_path: Path, has_work: bool
) -> None:
    newer, third, copied = (
        tmp_path / name for name in ("newer", "third", "copied.braildesk")
    )
    for each in (newer, third):
        braildesk.new_book(each)
    log = Path(f"{book}-wal")
    attempts: list[Callable[[], object]] = [
        lambda: Session(book),
        lambda: braildesk.check(book),
        lambda: braildesk.export(book, 1),
        lambda: braildesk.read_tables(book),
        lambda: braildesk.new_book(book),
        lambda: braildesk.copy(book, copied),
        lambda: braildesk.copy(third, book, overwrite=True),
    ]
    with suppress(braildesk.Displaced), Session(book) as session:
        if has_work:
            session.add_paragraph("end", "en", "kept")
        newer.replace(book)
        before = log.read_bytes()
        for attempt in attempts:
            with pytest.raises(CannotOpen) as caught:
                attempt()
            assert caught.value.why is Why.LOG_IN_USE
        # as where it was put there once the file was judged
        assert opening.why(BookFile(str(book))) is Why.LOG_IN_USE
        assert caught.value.sentence == (
            f"Another program has “{log}” open, but not “{book}”. So that log belongs to another book,"
            f" perhaps to one that stood at “{book}” before. Nothing was changed. That program must"
            " end first."
        )
        assert (log.read_bytes(), copied.exists()) == (before, False)
    assert braildesk.check(book) == 0


def test_nothing_is_made_beside_the_log_of_a_book_that_was_moved_while_it_is_open(
    book: Path, tmp_path: Path
) -> None:
    other = tmp_path / "other"
    braildesk.new_book(other)
    attempts: list[Callable[[], object]] = [
        lambda: braildesk.new_book(book),
        lambda: braildesk.copy(other, book),
    ]
    with Session(book):
        book.rename(tmp_path / "moved")
        for attempt in attempts:
            with pytest.raises(CannotOpen) as caught:
                attempt()
            assert caught.value.why is Why.LOG_IN_USE
        assert not book.exists()


def test_an_empty_file_leaves_the_log_of_a_book_that_stood_there_as_it_is(
    book: Path, tmp_path: Path
) -> None:
    killed_after(book, "kept")
    book.rename(moved := tmp_path / "moved")
    book.touch()
    for attempt in (Session, braildesk.check):
        with pytest.raises(NotABook):
            attempt(book)
    with pytest.raises(NotCopied):
        braildesk.copy(moved, book, overwrite=True)
    moved.replace(book)
    with Session(book) as session:
        assert session.print_of(1) == "kept"


@pytest.mark.parametrize("encoding", ["UTF-8", "UTF-16"])
@pytest.mark.parametrize("has_log", [True, False])
def test_nothing_is_written_into_a_database_of_something_else(
    tmp_path: Path, has_log: bool, encoding: str
) -> None:
    letters, folder = tmp_path / "letters", tmp_path / "folder"
    folder.mkdir()
    other = folder / "other"
    with closing(sqlite3.connect(letters)) as database:
        database.execute(f"PRAGMA encoding = '{encoding}'")
        if has_log:
            database.execute("PRAGMA journal_mode = WAL")
        database.execute("CREATE TABLE letters (text)")
        for each in tmp_path.glob("letters*"):
            if not each.name.endswith("-shm"):
                shutil.copyfile(each, folder / each.name.replace("letters", "other"))
    before = {each.name: each.read_bytes() for each in folder.iterdir()}
    assert before.keys() == ({"other", "other-wal"} if has_log else {"other"})
    attempts: list[Callable[[], object]] = [
        lambda: Session(other),
        lambda: braildesk.check(other),
        lambda: braildesk.export(other, 1),
    ]
    for attempt in attempts:
        with pytest.raises(NotABook) as caught:
            attempt()
        assert caught.value.sentence == (
            f"“{other}” is no book. Nothing was changed. Check that the path is right."
        )
    assert {each.name: each.read_bytes() for each in folder.iterdir()} == before


@pytest.mark.parametrize(
    "done_in_copy",
    [
        lambda copy: copy.add_paragraph("end", "en", "of the copy"),
        lambda copy: copy.correct(1, 0, 2, "of"),
        lambda copy: copy.add_mark(1, 0, 1, "of the copy"),
        lambda copy: [copy.strike(1), copy.restore(1), copy.strike(1)],
    ],
    ids=["paragraph", "correction", "mark", "later"],
)
def test_work_in_a_copy_is_not_replaced_by_the_log_of_the_book_whose_place_it_took(
    book: Path, tmp_path: Path, done_in_copy: Callable[[Session], object]
) -> None:
    with Session(book) as session:
        session.add_paragraph("end", "en", "in both")
    copied = tmp_path / "copied"
    braildesk.copy(book, copied)
    with Session(copied) as session:
        done_in_copy(session)
    with Session(book) as session:
        session.add_paragraph("end", "en", "left")
        session.add_mark(1, 0, 1, "left")
        kill(session)
    copied.replace(book)
    before = book.read_bytes(), Path(f"{book}-wal").read_bytes()
    attempts: list[Callable[[], object]] = [
        lambda: Session(book),
        lambda: braildesk.check(book),
        lambda: braildesk.copy(book, tmp_path / "another"),
    ]
    for attempt in attempts:
        with pytest.raises(CannotOpen) as caught:
            attempt()
        assert caught.value.why == Why.OTHER_LOG
    assert (book.read_bytes(), Path(f"{book}-wal").read_bytes()) == before


def test_an_older_copy_that_lacks_a_change_made_before_those_of_a_log_is_not_completed_by_it(
    book: Path, tmp_path: Path
) -> None:
    with Session(book) as session:
        for number in range(60):
            session.add_paragraph("end", "en", f"line {number} " + "x" * 500)
    older = Path(shutil.copyfile(book, tmp_path / "older"))
    with Session(book) as session:
        session.correct(1, 0, 4, "Line")
    with Session(book) as session:
        session.strike(60)
        kill(session)
    shutil.copyfile(older, book)
    before = book.read_bytes(), Path(f"{book}-wal").read_bytes()
    attempts: list[Callable[[], object]] = [
        lambda: Session(book),
        lambda: braildesk.check(book),
        lambda: braildesk.copy(book, tmp_path / "another"),
    ]
    for attempt in attempts:
        with pytest.raises(CannotOpen) as caught:
            attempt()
        assert caught.value.why == Why.OTHER_LOG
    assert (book.read_bytes(), Path(f"{book}-wal").read_bytes()) == before


def test_a_copy_from_before_the_work_in_a_log_is_completed_by_it(
    book: Path, tmp_path: Path
) -> None:
    with Session(book) as session:
        session.add_paragraph("end", "en", "in both")
        session.add_mark(1, 0, 1, "in both")
    copied = tmp_path / "copied"
    braildesk.copy(book, copied)
    with Session(book) as session:
        session.correct(1, 0, 2, "of")
        session.strike(1)
        kill(session)
    copied.replace(book)
    with Session(book) as session:
        assert (session.version(), session.print_of(1)) == (5, "of both")


def test_a_new_book_is_not_made_beside_the_work_of_another(book: Path) -> None:
    killed_after(book, "left")
    log = Path(f"{book}-wal")
    work = log.read_bytes()
    book.unlink()
    with pytest.raises(NotMade) as caught:
        braildesk.new_book(book)
    assert caught.value.sentence == (
        f"“{log}” is there, which belongs to another book that stood at “{book}” and may hold work."
        " Take another path for the new book, or move that file away."
    )
    assert names(book.parent) == {log.name}
    assert log.read_bytes() == work


@pytest.mark.parametrize("length", [248, 252, 256])
def test_a_new_book_whose_name_is_too_long_for_those_of_files_beside_it_says_so(
    tmp_path: Path, length: int
) -> None:
    path = tmp_path / (length * "n")
    with pytest.raises(NotMade) as caught:
        braildesk.new_book(path)
    assert caught.value.sentence == (
        f"“{path}”, or the path of a file beside it, which ends in -journal besides, is too long."
        " Nothing was made. Take a shorter one."
    )
    longest = tmp_path / (247 * "n")
    braildesk.new_book(longest)
    assert names(tmp_path) == {longest.name}
    assert braildesk.check(longest) == 0


def test_where_a_book_was_removed_a_new_one_may_be_made(book: Path) -> None:
    with Session(book) as session:
        session.add_paragraph("end", "en", "in the file")
    assert names(book.parent) == {book.name, f"{book.name}-wal"}
    book.unlink()
    braildesk.new_book(book)
    assert braildesk.check(book) == 0


@pytest.mark.parametrize("fault", ["a bad table", "no room"])
def test_a_new_book_that_fails_leaves_no_file(tmp_path: Path, fault: str) -> None:
    program, text = None, b"nonsense\n"
    if fault == "no room":
        program, text = limited(tmp_path, 600), b"# a comment of a table\n" * 20_000
    before = names(tmp_path)
    with pytest.raises(DeskError) as caught:
        braildesk.new_book(
            tmp_path / "new", program, holding=[requests.Table("own", text)]
        )
    if fault == "no room":
        assert caught.value.sentence.startswith(
            f"The new book “{tmp_path}/new” could not be written, and there is none: "
        )
    assert names(tmp_path) == before


def test_a_new_book_is_not_put_over_one_that_appeared_meanwhile(
    book: Path, tmp_path: Path, monkeypatch: pytest.MonkeyPatch
) -> None:
    make, path = braildesk.program.make_book, tmp_path / "new"

    def made(*words: object, **more: object) -> None:
        make(*words, **more)  # type: ignore[arg-type]
        if not path.exists():
            shutil.copyfile(book, path)

    monkeypatch.setattr(braildesk.program, "make_book", made)
    with pytest.raises(Refused) as caught:
        braildesk.new_book(path)
    assert (caught.value.code, caught.value.version) == (99, 1)


@pytest.mark.parametrize(
    ("umask", "mode"), [(0o002, 0o664), (0o022, 0o644), (0o077, 0o600)]
)
def test_a_new_book_has_the_mode_that_the_umask_leaves(
    tmp_path: Path, umask: int, mode: int
) -> None:
    path = tmp_path / "new"
    before = os.umask(umask)
    try:
        braildesk.new_book(path)
        braildesk.check(path)
    finally:
        os.umask(before)
    for file in (path, Path(f"{path}-wal")):
        assert stat.S_IMODE(file.stat().st_mode) == mode


@pytest.mark.parametrize("name", ["file:", "file:x?mode=ro", ":memory:", "a?b%23#"])
def test_a_path_is_the_name_of_a_file_and_no_address(
    name: str, tmp_path: Path, monkeypatch: pytest.MonkeyPatch
) -> None:
    monkeypatch.chdir(tmp_path)
    braildesk.new_book(name, holding=[requests.Supply("en")])
    with Session(name) as session:
        session.add_paragraph("end", "en", "in the file")
    assert (braildesk.check(name), read_version(Path(name))) == (2, 2)
    assert braildesk.copy(name, "copy") == 2
    assert names(tmp_path) == {name, f"{name}-wal", "copy"}


def test_a_database_without_a_book_has_no_tables(tmp_path: Path) -> None:
    path = tmp_path / "other.db"
    with closing(sqlite3.connect(path)) as database:
        database.execute("CREATE TABLE birds (name TEXT)")
    with pytest.raises(NotABook):
        braildesk.read_tables(path)
    with pytest.raises(NotABook):
        braildesk.copy(path, tmp_path / "copied")


def as_nobody(code: str, *words: object) -> str:
    """What a script prints that runs as a user who owns nothing."""
    drop = "import os; os.setgid(65534); os.setuid(65534)\n" if os.getuid() == 0 else ""
    done = subprocess.run(
        [sys.executable, "-c", drop + code, *map(str, words)],
        env={**os.environ, "PYTHONPATH": str(ROOT / "src"), "LC_ALL": "C"},
        capture_output=True,
        text=True,
        encoding="utf-8",
    )
    assert done.returncode == 0, done.stderr
    return done.stdout.rstrip("\n")


ATTEMPTS = """
import sys
import braildesk
path, to = sys.argv[1:3]
for attempt in (
    lambda: braildesk.Session(path),
    lambda: braildesk.check(path),
    lambda: braildesk.read_tables(path),
    lambda: braildesk.copy(path, to),
):
    try:
        print(attempt())
    except braildesk.DeskError as error:
        print(error.sentence)
"""


@pytest.fixture
def open_folder() -> Iterator[Path]:
    """A folder that everybody may enter and write in; pytest's own are closed to others."""
    with tempfile.TemporaryDirectory() as folder:
        os.chmod(folder, 0o777)
        yield Path(folder)


DENIED = (
    "You aren't permitted to open “{}”. Nothing was changed. Ask who owns it for leave to read"
    " and write it and to write in its folder."
)
UNREAD = "You aren't permitted to read “{}”. Nothing was changed. Ask who owns {} for leave to {}."


def test_a_book_that_may_not_be_read_says_so(book: Path, open_folder: Path) -> None:
    path = Path(shutil.copyfile(book, open_folder / "book"))
    path.chmod(0)
    said = as_nobody(ATTEMPTS, path, open_folder / "copied").splitlines()
    assert said[:2] == [DENIED.format(path)] * 2
    # these read it, and write nothing there
    assert said[2:] == [UNREAD.format(path, "it", "read it")] * 2


def test_a_book_that_may_only_be_read_is_copied_and_not_opened(
    book: Path, open_folder: Path
) -> None:
    path = Path(shutil.copyfile(book, open_folder / "book"))
    path.chmod(0o444)
    said = as_nobody(ATTEMPTS, path, open_folder / "copied").splitlines()
    assert said[:2] == [DENIED.format(path)] * 2
    assert said[2].startswith("(Table(name='en'")
    assert said[3] == "1"
    assert braildesk.check(open_folder / "copied") == 1


def test_a_book_in_a_folder_that_may_not_be_entered_says_so(
    book: Path, open_folder: Path
) -> None:
    folder = open_folder / "closed"
    folder.mkdir(mode=0o700)
    path = Path(shutil.copyfile(book, folder / "book"))
    path.chmod(0o666)
    said = as_nobody(ATTEMPTS, path, open_folder / "copied").splitlines()
    assert said[:2] == [DENIED.format(path)] * 2
    assert said[2:] == [UNREAD.format(path, "its folder", "enter that")] * 2


def test_a_new_book_in_a_folder_that_may_not_be_written_says_so(
    open_folder: Path,
) -> None:
    open_folder.chmod(0o755)
    code = (
        "import sys, braildesk\n"
        "try:\n"
        "    braildesk.new_book(sys.argv[1])\n"
        "except braildesk.CannotOpen as error:\n"
        "    print(error.sentence)\n"
    )
    path = open_folder / "new"
    assert as_nobody(code, path) == DENIED.format(path)


OF_NEW = """
import sys
import braildesk
try:
    print(braildesk.new_book(sys.argv[1]))
except braildesk.DeskError as error:
    print(error.sentence)
"""


@pytest.mark.parametrize(
    "of_file, of_folder, what",
    [
        (
            0o444,
            0o755,
            "The file {}read and write it. This lets you: chmod u+rw -- {file}",
        ),
        (0, 0o755, "The file {}read and write it. This lets you: chmod u+rw -- {file}"),
        (
            0o644,
            0o555,
            "Its folder {}read and write in it. This lets you: chmod u+rwx -- {folder}",
        ),
    ],
)
def test_of_a_file_of_ones_own_nobody_else_is_asked(
    book: Path, open_folder: Path, of_file: int, of_folder: int, what: str
) -> None:
    folder = open_folder / "a folder"
    folder.mkdir()
    path = Path(shutil.copyfile(book, folder / "book"))
    if os.getuid() == 0:
        os.chown(path, 65534, 65534)
        os.chown(folder, 65534, 65534)
    path.chmod(of_file)
    folder.chmod(of_folder)
    said = what.format(
        "is your own, and its permissions don't let you ",
        file=f"'{path}'",
        folder=f"'{folder}'",
    )
    (opened, *_) = as_nobody(ATTEMPTS, path, open_folder / "copied").splitlines()
    made = as_nobody(OF_NEW, path if of_file != 0o644 else folder / "new")
    front = "You aren't permitted to open “{}”. Nothing was changed. "
    assert opened == front.format(path) + said
    assert made.endswith(f" Nothing was changed. {said}")
    folder.chmod(0o755)


def test_a_folder_of_ones_own_that_nobody_may_enter_is_not_said_to_be_none(
    open_folder: Path,
) -> None:
    folder = open_folder / "a folder"
    folder.mkdir(mode=0o777)
    if os.getuid() == 0:
        os.chown(folder, 65534, 65534)
    shut = f"import os\nos.chdir({str(folder)!r})\nos.chmod('.', 0o600)\n"
    assert as_nobody(shut + OF_NEW, Path("new")) == (
        "You aren't permitted to open “new”. Nothing was changed. Its folder is your own, and its"
        " permissions don't let you read and write in it. This lets you: chmod u+rwx --"
        f" '{folder}'"
    )
    folder.chmod(0o755)


LOOKING = """
import sys
import braildesk
from braildesk.desk.copied_book import copied_session
path, to = sys.argv[1:3]
for attempt in (
    lambda: copied_session(path).__enter__(),
    lambda: braildesk.read_tables(path),
    lambda: braildesk.copy(path, to),
):
    try:
        attempt()
    except braildesk.DeskError as error:
        print(error.sentence)
"""


@pytest.mark.parametrize(
    "of_file, of_folder, what",
    [
        (0o200, 0o755, "The file {}read it. This lets you: chmod u+r -- {file}"),
        (0o444, 0o600, "Its folder {}enter it. This lets you: chmod u+x -- {folder}"),
    ],
)
def test_to_look_at_a_book_of_ones_own_no_leave_to_write_is_taken(
    book: Path, open_folder: Path, of_file: int, of_folder: int, what: str
) -> None:
    folder = open_folder / "a folder"
    folder.mkdir()
    path = Path(shutil.copyfile(book, folder / "book"))
    if os.getuid() == 0:
        os.chown(path, 65534, 65534)
        os.chown(folder, 65534, 65534)
    path.chmod(of_file)
    folder.chmod(of_folder)
    said = what.format(
        "is your own, and its permissions don't let you ",
        file=f"'{path}'",
        folder=f"'{folder}'",
    )
    front = f"You aren't permitted to read “{path}”. Nothing was changed. "
    found = as_nobody(LOOKING, path, open_folder / "copied").splitlines()
    folder.chmod(0o755)
    assert found == [front + said] * 3


def test_of_a_folder_of_ones_own_above_that_of_a_book_nobody_else_is_asked(
    book: Path, open_folder: Path
) -> None:
    folder = open_folder / "a folder"
    (folder / "books").mkdir(parents=True)
    path = Path(shutil.copyfile(book, folder / "books" / "book"))
    if os.getuid() == 0:
        os.chown(folder, 65534, 65534)
    folder.chmod(0o600)
    to = open_folder / "copied"
    looked = as_nobody(LOOKING, path, to).splitlines()
    (opened, *_) = as_nobody(ATTEMPTS, path, to).splitlines()
    made = as_nobody(OF_NEW, path.with_name("new")).rstrip()
    folder.chmod(0o755)
    said = (
        f"Nothing was changed. The folder “{folder}” is your own, and its permissions don't let you"
        f" enter it. This lets you: chmod u+x -- '{folder}'"
    )
    assert looked == [f"You aren't permitted to read “{path}”. {said}"] * 3
    assert opened == f"You aren't permitted to open “{path}”. {said}"
    assert made == f"You aren't permitted to open “{path.with_name('new')}”. {said}"


@NEEDS_ROOT
def test_of_a_folder_of_somebody_else_above_that_of_a_book_its_owner_is_asked(
    book: Path, open_folder: Path
) -> None:
    folder = open_folder / "a folder"
    own = folder / "books"
    own.mkdir(parents=True)
    path = Path(shutil.copyfile(book, own / "book"))
    os.chown(own, 65534, 65534)
    # nor is one's own below that of somebody else named, which isn't seen
    own.chmod(0o600)
    folder.chmod(0o700)
    to = open_folder / "copied"
    looked = as_nobody(LOOKING, path, to).splitlines()
    (opened, *_) = as_nobody(ATTEMPTS, path, to).splitlines()
    assert (
        looked
        == [
            f"You aren't permitted to read “{path}”. Nothing was changed. Ask who owns its folder for leave"
            " to enter that."
        ]
        * 3
    )
    assert opened == (
        f"You aren't permitted to open “{path}”. Nothing was changed. Ask who owns it for leave to read"
        " and write it and to write in its folder."
    )


def test_a_table_that_may_not_be_read_is_to_be_read_alone(open_folder: Path) -> None:
    path = open_folder / "own.utb"
    path.write_text("space \\s 0\n")
    path.chmod(0)
    code = (
        "import sys, braildesk\n"
        "try:\n"
        "    braildesk.translate(sys.argv[1], ['a'])\n"
        "except braildesk.CannotOpen as error:\n"
        "    print(error.sentence)\n"
    )
    assert as_nobody(code, path) == UNREAD.format(path, "it", "read it")


@NEEDS_ROOT
@pytest.mark.parametrize(
    "name, flag, what",
    [("book", "i", "it"), ("book", "a", "it"), (".", "i", "its folder")],
)
def test_of_a_file_that_the_system_lets_nobody_change_nobody_is_asked_for_leave(
    book: Path, open_folder: Path, name: str, flag: str, what: str
) -> None:
    path = Path(shutil.copyfile(book, open_folder / "book"))
    kept = ["--", str(open_folder / name)]
    if shutil.which("chattr") is None:
        pytest.skip("the program that sets such flags isn't here")
    if subprocess.run(["chattr", f"+{flag}", *kept], capture_output=True).returncode:
        pytest.skip("the file system keeps no such flags")
    try:
        with pytest.raises(CannotOpen) as caught:
            Session(path)
        said = caught.value.sentence
        with snapshot(path) as copied:
            assert braildesk.check(copied) == 1
    finally:
        subprocess.run(["chattr", f"-{flag}", *kept], check=True)
    assert said == (
        f"You aren't permitted to open “{path}”. Nothing was changed. The system lets nobody"
        f" change {what}, whatever its permissions are: perhaps it was made immutable. An"
        " administrator can take that away."
    )


def test_a_copy_into_a_folder_that_may_not_be_entered_says_so(
    book: Path, open_folder: Path
) -> None:
    path = Path(shutil.copyfile(book, open_folder / "book"))
    path.chmod(0o644)
    closed = open_folder / "closed"
    closed.mkdir(0o600)
    os.chown(closed, 65534, 65534)
    said = as_nobody(ATTEMPTS, path, closed / "copied").splitlines()
    assert said[3] == (
        f"The copy “{closed / 'copied'}” could not be written: Permission denied."
    )


def test_names_and_texts_are_those_of_any_locale(tmp_path: Path) -> None:
    code = (
        "import sys, braildesk\n"
        "path = sys.argv[1]\n"
        "braildesk.new_book(path)\n"
        "with braildesk.Session(path) as session:\n"
        "    session.supply_table('en')\n"
        "    print(session.add_paragraph('end', 'en', 'caf\\u2019s'))\n"
        "    try:\n"
        "        session.add_paragraph('end', 'en', '\\u2026')\n"
        "    except braildesk.Refused as refusal:\n"
        "        sys.stdout.buffer.write(refusal.sentence.encode())\n"
    )
    path = tmp_path / "livre – Zdeněk.braildesk"
    for locale in ("C", "POSIX", "C.UTF-8"):
        done = subprocess.run(
            [sys.executable, "-c", code, path],
            env={**os.environ, "PYTHONPATH": str(ROOT / "src"), "LC_ALL": locale},
            capture_output=True,
        )
        assert done.returncode == 0, done.stderr.decode()
        assert "“…” (U+2026 HORIZONTAL ELLIPSIS)" in done.stdout.decode()
        assert braildesk.read_tables(path)[0].name == "en"
        path.unlink()


def limited(folder: Path, blocks: int) -> Path:
    """The program, which may write files of so many blocks of 512 bytes, as on a full disk."""
    path = folder / "limited"
    path.write_text(
        f"#!/bin/sh\ntrap '' XFSZ\nulimit -f {blocks}\nexec '{braildesk.find()}' \"$@\"\n"
    )
    path.chmod(0o755)
    return path


def test_a_new_book_for_which_there_is_no_room_is_refused(tmp_path: Path) -> None:
    with pytest.raises(Failed) as caught:
        braildesk.new_book(tmp_path / "new", program=limited(tmp_path, 8))
    assert caught.value.sentence == (
        f"The new book “{tmp_path / 'new'}” could not be written, and there is none:"
        f" {tempfile.gettempdir()}, the temporary folder, takes no file. Let TMPDIR name a folder with room."
    )
    assert not (tmp_path / "new").exists()


def test_a_file_of_no_bytes_is_no_book_and_stays_as_it_is(tmp_path: Path) -> None:
    empty = tmp_path / "notes.txt"
    empty.touch()
    asks: list[Callable[[], object]] = [
        lambda: Session(empty),
        lambda: braildesk.check(empty),
        lambda: braildesk.export(empty, 1),
        lambda: braildesk.copy(empty, tmp_path / "copied"),
        lambda: braildesk.read_tables(empty),
    ]
    for ask in asks:
        with pytest.raises(NotABook):
            ask()
    # to which a link of another user may lead by now
    fit_log(BookFile(str(empty)))
    assert (empty.stat().st_size, names(tmp_path)) == (0, {"notes.txt"})
    braildesk.new_book(empty)
    assert braildesk.check(empty) == 0


def test_a_copy_that_does_not_fit_leaves_nothing(book: Path, tmp_path: Path) -> None:
    to = tmp_path / "copied"
    code = (
        "import resource, signal, sys, braildesk\n"
        "signal.signal(signal.SIGXFSZ, signal.SIG_IGN)\n"
        "resource.setrlimit(resource.RLIMIT_FSIZE, (8192, 8192))\n"
        "try:\n"
        "    braildesk.copy(sys.argv[1], sys.argv[2])\n"
        "except braildesk.Failed as failure:\n"
        "    print(failure.sentence)\n"
    )
    done = subprocess.run(
        [sys.executable, "-c", code, book, to],
        env={**os.environ, "PYTHONPATH": str(ROOT / "src")},
        capture_output=True,
        text=True,
        encoding="utf-8",
        check=True,
    )
    assert done.stdout.startswith(f"The copy “{to}” could not be written: ")
    assert names(tmp_path) == {book.name}
    assert braildesk.check(book) == 1
