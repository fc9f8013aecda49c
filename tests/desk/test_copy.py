"""`scribe copy`: what is at the path of a copy stays, unless it is a book and the words say so."""

import os
import shutil
import sqlite3
from collections.abc import Iterator
from contextlib import AbstractContextManager, closing, contextmanager
from io import BytesIO, StringIO
from pathlib import Path
from typing import Any, BinaryIO

import pytest

import braildesk
from braildesk import CannotOpen, Displaced, Session, Why
from braildesk.held import held
from braildesk.snapshot import copied

from scribe.cli import run_words
from scribe.words.console import Console
from tool import Ran, scribe


def copy(book: Path, *words: str) -> Ran:
    """Copies the book `moon` to `other` beside it."""
    return scribe("copy", book.name, "other", *words, folder=book.parent)


def test_a_book_takes_the_place_of_another_where_the_words_say_so(moon: Path) -> None:
    other = moon.with_name("other")
    braildesk.new_book(other)
    there = "“other” is there already, and was left as it is."
    assert copy(moon) == Ran(
        2,
        "",
        f"{there} Take another path for the copy. --overwrite replaces a book.\n",
    )
    assert braildesk.check(other) == 0
    for _ in range(2):
        ran = copy(moon, "--overwrite")
        assert ran == Ran(0, f"other is a copy of {moon.name}, at version 7.\n", "")
    assert braildesk.check(other) == 7


def test_no_copy_is_put_elsewhere_by_a_path_that_leads_nowhere(moon: Path) -> None:
    ran = scribe("copy", moon.name, "none/../other", folder=moon.parent)
    why = "There is no folder in which “none/../other” could be made."
    assert ran == Ran(2, "", f"{why} Check that the path is right.\n")
    assert not moon.with_name("other").exists()


@pytest.mark.parametrize("kind", ["text", "link to a text", "pipe", "database"])
def test_nothing_but_a_book_is_replaced(moon: Path, kind: str) -> None:
    other, text = moon.with_name("other"), moon.with_name("letter")
    text.write_text("Dear Anna,\n")
    if kind == "pipe":
        os.mkfifo(other)
    elif kind == "database":
        with closing(sqlite3.connect(other)) as database:
            # a book has a table of that name too
            database.execute("CREATE TABLE book (title TEXT)")
    elif kind == "text":
        shutil.copyfile(text, other)
    else:
        other.symlink_to(text)
    before = os.lstat(other)
    ran = copy(moon, "--overwrite")
    assert (ran.status, ran.shown) == (2, "")
    found = os.lstat(other)
    assert (found.st_ino, found.st_mtime_ns) == (before.st_ino, before.st_mtime_ns)
    assert text.read_text() == "Dear Anna,\n"
    if kind != "pipe":
        assert ran.said == (
            "“other” is no book, and was left as it is. Take another path for the copy.\n"
        )


def test_no_database_is_replaced_whose_tables_stand_in_its_log(moon: Path) -> None:
    other, letters = moon.with_name("other"), moon.with_name("letters")
    with closing(sqlite3.connect(letters)) as database:
        database.execute("PRAGMA journal_mode = WAL")
        database.execute("CREATE TABLE letters (text)")
        for ending in ("", "-wal"):
            shutil.copyfile(f"{letters}{ending}", f"{other}{ending}")
    log = Path(f"{other}-wal").read_bytes()
    ran = copy(moon, "--overwrite")
    assert (ran.status, Path(f"{other}-wal").read_bytes()) == (2, log)
    assert ran.said.startswith("“other” is no book, and was left as it is.")


def test_no_book_beside_a_log_of_another_is_replaced(moon: Path) -> None:
    other, third = moon.with_name("other"), moon.with_name("third")
    braildesk.copy(moon, other)
    braildesk.new_book(third)
    with Session(third) as session:
        session.put_table("en", moon.with_name("plain.utb").read_bytes())
        for number in range(200):
            session.add_paragraph("end", "en", f"star {number}")
        shutil.copyfile(f"{third}-wal", f"{other}-wal")
    log = Path(f"{other}-wal")
    before = other.read_bytes(), log.read_bytes()
    ran = scribe("copy", "third", "other", "--overwrite", folder=moon.parent)
    assert ran == Ran(
        2,
        "",
        f"What stands in “{log}” isn't part of “other” as it is, and may be work of another book that"
        " stood there. Nothing was changed. Keep both files: take another path for the copy, or move"
        f" “{log}” away first.\n",
    )
    assert (other.read_bytes(), log.read_bytes()) == before
    log.unlink()
    assert braildesk.copy(third, other, overwrite=True) == 201


@pytest.mark.parametrize("there", ["an earlier copy", "another book", "an empty file"])
def test_no_copy_takes_the_log_of_a_session_in_whose_place_another_file_was_put(
    moon: Path, there: str
) -> None:
    other, log = moon.with_name("other"), moon.with_name("other-wal")
    braildesk.copy(moon, other)
    with pytest.raises(Displaced) as caught, Session(other) as session:
        session.add_paragraph("end", "en", "Typed meanwhile.")
        session.add_mark(4, 0, 5, "put meanwhile")
        other.unlink()
        if there == "an earlier copy":
            shutil.copyfile(moon, other)
        elif there == "another book":
            braildesk.new_book(moon.with_name("new"))
            moon.with_name("new").rename(other)
        else:
            other.touch()
        before = other.read_bytes(), log.read_bytes()
        ran = copy(moon, "--overwrite")
        assert ran == Ran(
            2,
            "",
            f"Another program has “{log}” open, but not “other”. So that log belongs to another book,"
            " perhaps to one that stood at “other” before. Nothing was changed. That program must"
            " end first.\n",
        )
        with pytest.raises(CannotOpen) as refused:
            braildesk.copy(moon, other, overwrite=True)
        assert refused.value.why is Why.LOG_IN_USE
        assert (other.read_bytes(), log.read_bytes()) == before
    assert caught.value.saved is not None
    with Session(caught.value.saved) as session:
        assert session.print_of(4) == "Typed meanwhile."
        assert [mark.note for mark in session.marks_of(4)] == ["put meanwhile"]
    # the log is nobody's by now, and empty
    assert copy(moon, "--overwrite").status == 0


def test_what_is_put_in_place_of_a_book_meanwhile_is_not_replaced(
    moon: Path, monkeypatch: pytest.MonkeyPatch
) -> None:
    other, letter = moon.with_name("other"), moon.with_name("letter")
    letter.write_text("Dear Anna,\n")
    braildesk.new_book(other)

    def swapped(*given: Any) -> AbstractContextManager[BinaryIO]:
        other.unlink()
        other.symlink_to(letter)
        return held(*given)

    # as by another user of the folder, once it was looked at
    monkeypatch.setattr("braildesk.making.held", swapped)
    shown, said = StringIO(), StringIO()
    words = ["copy", str(moon), str(other), "--overwrite"]
    assert run_words(words, Console(BytesIO(), shown, said)) == 2
    assert letter.read_text() == "Dear Anna,\n"
    assert said.getvalue().startswith(f"“{other}” is no book, and was left as it is.")


def test_a_book_that_is_open_or_the_book_itself_is_not_replaced(moon: Path) -> None:
    other = moon.with_name("other")
    shutil.copyfile(moon, other)
    with Session(other) as session:
        ran = copy(moon, "--overwrite", "--wait", "0")
        assert ran.said.startswith("Another program has “other” open.")
        session.strike(1)
    other.unlink()
    other.symlink_to(moon)
    ran = copy(moon, "--overwrite")
    assert (ran.status, "“other” is the book itself." in ran.said) == (2, True)
    assert braildesk.check(moon) == 7


def test_a_book_whose_session_ends_is_not_replaced_by_what_it_had_kept_before(
    moon: Path, monkeypatch: pytest.MonkeyPatch
) -> None:
    link = moon.with_name("link")
    link.symlink_to(moon)
    session = Session(moon)

    @contextmanager
    def ended(path: Path, like: int) -> Iterator[tuple[Path, os.stat_result]]:
        with copied(path, like) as made:
            session.strike(2)
            session.close()
            yield made

    monkeypatch.setattr("braildesk.snapshot.copied", ended)
    words = ["copy", str(moon), str(link), "--overwrite"]
    status = run_words(words, Console(BytesIO(), StringIO(), said := StringIO()))
    session.close()
    assert status == 2
    assert said.getvalue() == (
        f"Another program has “{moon}” open. Nothing was changed. That one must end first.\n"
    )
    assert braildesk.check(moon) == 7
