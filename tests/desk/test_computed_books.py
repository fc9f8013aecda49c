"""Files of strangers whose rows are computed: they are refused before the program reads them."""

import os
import shutil
import sqlite3
import struct
from collections.abc import Callable
from contextlib import closing
from pathlib import Path

import pytest

import braildesk
from braildesk import (
    CannotOpen,
    Failed,
    Lost,
    Refused,
    Session,
    Why,
    limits,
    opening,
)
from braildesk.opening import fault_in, reader
from strangers import NEEDS_ROOT, STRANGER, as_stranger, in_time, lead_to
from tool import scribe

ENDLESS = (
    "WITH RECURSIVE n(x) AS (VALUES (1) UNION ALL SELECT x + 1 FROM n)"
    " SELECT 1 AS id, 2 AS format, x AS version FROM n"
)
#: What is done to the file of a book, by which its rows are computed.
DONE = {
    "a view without end": f"DROP TABLE book; CREATE VIEW book AS {ENDLESS}",
    "a view in capitals": f"DROP TABLE mark; CREATE VIEW Mark AS {ENDLESS}",
    "a virtual table": "DROP TABLE tab; CREATE VIRTUAL TABLE tab USING fts5(name, body)",
    "a generated column": "DROP TABLE tab; CREATE TABLE tab(name TEXT NOT NULL PRIMARY KEY,"
    " body BLOB NOT NULL AS (hex(zeroblob(60000000)))) STRICT",
}
#: Views of which each has the one before twice, so that nobody comes to the end of the last.
TWICE = "CREATE VIEW v0 AS SELECT 1 AS x;" + "".join(
    f"CREATE VIEW v{n} AS SELECT a.x FROM v{n - 1} a, v{n - 1} b;" for n in range(1, 41)
)


def altered(book: Path, statements: str) -> None:
    """Carries statements out in the file of a book."""
    with closing(sqlite3.connect(book)) as database:
        database.executescript(statements)


def logged(book: Path, statements: str) -> None:
    """The same, with what is changed in the log beside the file."""
    with closing(sqlite3.connect(book)) as database:
        database.execute("PRAGMA journal_mode = WAL")
        database.executescript(statements)
        database.commit()
        files = [(Path(f"{book}{end}"), f"{book}-kept{end}") for end in ("", "-wal")]
        for path, to in files:
            shutil.copyfile(path, to)
    for path, to in files:
        os.replace(to, path)


@pytest.fixture
def full(book: Path) -> Path:
    """A book with a row in each table."""
    with Session(book) as session:
        session.add_paragraph("end", "en", "The moon")
        session.correct(1, 0, 3, "A", by="Ann")
        session.add_mark(1, 0, 1, "why?")
    return book


@pytest.mark.parametrize("name", DONE)
def test_a_file_whose_rows_are_computed_is_not_opened(book: Path, name: str) -> None:
    altered(book, DONE[name])
    before = book.read_bytes()
    # it isn't even asked of the program
    attempts: list[Callable[[], object]] = [
        lambda: braildesk.check(book, "false"),
        lambda: Session(book, "false"),
        lambda: braildesk.export(book, 1, program="false"),
        lambda: braildesk.new_book(book, "false"),
    ]
    for attempt in attempts:
        with pytest.raises(CannotOpen) as caught:
            attempt()
        assert caught.value.why is Why.COMPUTED
    assert caught.value.sentence == (
        f"“{book}” was not opened, since it isn't made as books are: one of its tables is a view or"
        " has another part that is computed, and may have no end. Nothing was changed. Ask whoever"
        " made it for the book itself."
    )
    assert book.read_bytes() == before


@pytest.mark.parametrize("words", [["show"], ["export"], ["copy"], ["import"], ["new"]])
def test_scribe_reads_nothing_of_a_view_without_end(
    book: Path, words: list[str]
) -> None:
    altered(book, DONE["a view without end"])
    (book.parent / "text").write_text("The sun\n")
    more = {"import": ["text"], "copy": ["other"], "export": ["pages"]}
    ran = scribe(
        *words, book.name, *more.get(words[0], []), folder=book.parent, before=in_time
    )
    assert (ran.status, ran.shown) == (2, "")
    assert ran.said.startswith(f"“{book.name}” was not opened, since it isn't made as")


def test_views_that_take_for_ever_beside_a_book_are_not_looked_at(book: Path) -> None:
    altered(book, TWICE)
    ran = scribe("list", book.name, folder=book.parent, before=in_time)
    assert ran.status == 0


@pytest.mark.parametrize(
    "statements",
    [*DONE.values(), "DROP TABLE mark; CREATE VIEW mark AS SELECT x FROM v40"],
)
def test_a_file_whose_rows_are_computed_is_not_opened_beside_such_views_either(
    book: Path, statements: str
) -> None:
    altered(book, TWICE + statements)
    assert fault_in(book, True) is Why.COMPUTED


#: How many bytes are more than any value of a book has, by its column.
TOO_LONG = {
    "tab.body": 80_040_004,
    **dict.fromkeys(("para.tab", "para.original", "para.print"), 160_001),
    **dict.fromkeys(("corr2.body", "corr2.who", "mark.note"), 160_001),
    "cache.cells": 160_001,
    # a column of numbers has anything if the file is made by hand
    "mark.start": 160_001,
}


def lengthened(column: str, size: int) -> str:
    """The statement by which a column has values of so many bytes."""
    table, name = column.split(".")
    data = f"zeroblob({size})"
    if column not in ("tab.body", "cache.cells"):
        data = f"CAST({data} AS TEXT)"
    return f"""
        PRAGMA writable_schema = ON;
        UPDATE sqlite_schema SET sql = replace(sql, 'STRICT', '') WHERE name = '{table}';
        PRAGMA writable_schema = RESET;
        UPDATE {table} SET {name} = {data};
    """


@pytest.mark.parametrize("column", TOO_LONG)
@pytest.mark.parametrize("is_logged", [False, True])
def test_a_value_that_no_book_has_is_refused_before_it_is_read(
    full: Path, column: str, is_logged: bool, monkeypatch: pytest.MonkeyPatch
) -> None:
    # a small file is soon read
    monkeypatch.setattr(opening, "_SOON_READ", 0)
    change = lengthened(column, TOO_LONG[column])
    (logged if is_logged else altered)(full, change)
    with pytest.raises(CannotOpen) as caught:
        Session(full, "false")
    assert caught.value.sentence == (
        f"“{full}” was not opened, since it isn't made as books are: a text in it is longer than any"
        " of a book, or its rows have no end. Nothing was changed. Ask whoever made it for the book"
        " itself."
    )


def test_a_row_of_many_megabytes_is_refused_at_once(full: Path) -> None:
    altered(full, lengthened("para.print", 68_000_000))
    ran = scribe("show", full.name, folder=full.parent, before=in_time)
    assert (ran.status, ran.shown) == (2, "")
    assert ran.said.startswith(f"“{full.name}” was not opened, since it isn't made as")


def test_pages_that_stand_for_many_are_not_counted_for_ever(
    full: Path, monkeypatch: pytest.MonkeyPatch
) -> None:
    monkeypatch.setattr(opening, "_SOON_READ", 0)
    repeat_pages(full, "mark", 5)
    assert fault_in(full, is_alone=True) is Why.TOO_LONG


def repeat_pages(book: Path, table: str, levels: int) -> None:
    """Has the rows of a table stand below pages of which each has the next one 300 times."""
    with closing(sqlite3.connect(book)) as database:
        asked = "SELECT rootpage FROM sqlite_schema WHERE name = ?"
        (root,) = database.execute(asked, [table]).fetchone()
        (size,) = database.execute("PRAGMA page_size").fetchone()
        (count,) = database.execute("PRAGMA page_count").fetchone()
    data = bytearray(book.read_bytes())
    data += data[(root - 1) * size : root * size]
    for number in range(count + 1, count + levels):
        data += page_above(number, size)
    data[(root - 1) * size : root * size] = page_above(count + levels, size)
    data[28:32] = struct.pack(">I", count + levels)
    book.write_bytes(data)


def put_holed_log(book: Path) -> None:
    """Puts a log beside a book that has one page of its own, and then holes without end."""
    page = struct.pack(">II16x", 1, 1)
    with open(f"{book}-wal", "wb") as log:
        log.write(struct.pack(">IIII16x", 0x377F0682, 3_007_000, 512, 0) + page)
        log.truncate(1 << 40)


def test_the_pages_of_a_log_are_counted_up_to_its_holes(tmp_path: Path) -> None:
    put_holed_log(tmp_path / "book")
    assert opening.changes_in(str(tmp_path / "book-wal")) == 1


@pytest.mark.parametrize("is_endless", [False, True])
def test_holes_in_a_log_are_not_read_for_ever(full: Path, is_endless: bool) -> None:
    if is_endless:
        repeat_pages(full, "mark", 5)
    put_holed_log(full)
    ran = scribe("list", full.name, folder=full.parent, before=in_time)
    assert ran.status == (2 if is_endless else 0)


def page_above(child: int, size: int) -> bytes:
    """A page of a table's tree that has 300 times the same page below it."""
    cells = [struct.pack(">IBB", child, 0x81, number & 0x7F) for number in range(300)]
    start = size - sum(map(len, cells))
    head = struct.pack(">BHHHBI", 5, 0, len(cells), start, 0, child)
    places = b"".join(struct.pack(">H", start + 6 * n) for n in range(len(cells)))
    return (head + places).ljust(start, b"\0") + b"".join(cells)


def test_the_longest_values_of_a_sound_book_are_not_refused(full: Path) -> None:
    # 4,000 characters of four bytes, each with a sign and cells of 20 each; 20,000 lines of 1,000
    # such characters with CR LF after a byte order mark
    wide = chr(0x1F600)
    with closing(sqlite3.connect(full)) as database, database:
        for column in ("para.original", "para.print", "corr2.body"):
            table, name = column.split(".")
            database.execute(f"UPDATE {table} SET {name} = ?", [wide * 4_000])
        database.execute("UPDATE mark SET note = ?", [wide * 500])
        database.execute("UPDATE corr2 SET who = ?", [wide * 40])
        database.execute("UPDATE cache SET cells = zeroblob(160000)")
        database.execute("UPDATE tab SET body = zeroblob(80040003)")
    assert full.stat().st_size > 80_000_000
    assert fault_in(full, is_alone=True) is None


def test_what_a_log_makes_of_a_file_is_looked_at_too(
    book: Path, tmp_path: Path
) -> None:
    with closing(sqlite3.connect(book)) as database:
        database.executescript(DONE["a view without end"])
        for each in (book, Path(f"{book}-wal")):
            shutil.copyfile(each, tmp_path / each.name.replace("book", "other", 1))
    other = tmp_path / "other.braildesk"
    assert Path(f"{other}-wal").stat().st_size > 4096
    with pytest.raises(CannotOpen) as caught:
        Session(other, "false")
    assert caught.value.why is Why.COMPUTED


def test_a_list_of_tables_that_can_not_be_read_is_said(book: Path) -> None:
    altered(
        book,
        "PRAGMA writable_schema = ON;"
        "UPDATE sqlite_schema SET sql = 'CREATE TABLE book(' WHERE name = 'book'",
    )
    with pytest.raises(CannotOpen) as caught:
        Session(book, "false")
    assert caught.value.sentence == (
        f"The list of the tables in “{book}” can't be read. Nothing was changed. Keep the file as"
        " it is, and go on with an earlier copy."
    )


def test_a_list_of_very_many_tables_is_not_read_to_its_end(book: Path) -> None:
    altered(
        book,
        "PRAGMA writable_schema = ON;"
        "WITH RECURSIVE n(x) AS (VALUES (1) UNION ALL SELECT x + 1 FROM n WHERE x < 150000)"
        " INSERT INTO sqlite_schema"
        " SELECT 'table', 't' || x, 't' || x, 2, 'CREATE TABLE t' || x || '(a)' FROM n",
    )
    ran = scribe("list", book.name, folder=book.parent, before=in_time)
    assert (ran.status, ran.shown) == (2, "")
    assert ran.said.startswith(f"The list of the tables in “{book.name}” can't be read")


@pytest.mark.parametrize("how", ["encoding = 'UTF-16le'", "auto_vacuum = FULL"])
def test_a_book_in_a_form_that_no_program_here_reads_is_said_to_be_one(
    book: Path, how: str
) -> None:
    other = book.with_name("other")
    with closing(sqlite3.connect(book)) as own, closing(sqlite3.connect(other)) as made:
        made.execute(f"PRAGMA {how}")
        made.executescript("\n".join(own.iterdump()))
    before = other.read_bytes()
    with pytest.raises(CannotOpen) as caught:
        Session(other)
    assert caught.value.why is Why.UNKNOWN
    assert caught.value.sentence.endswith(
        " If all of that is so, it has a form that braildesk doesn't read: ask whoever made it, or"
        " go on with an earlier copy."
    )
    assert other.read_bytes() == before


def test_what_else_stands_in_the_file_of_a_book_is_left_alone(book: Path) -> None:
    altered(
        book,
        "CREATE TABLE trigger_log(x CHECK (x > 0), y AS (x + 1));"
        "CREATE VIEW other AS SELECT version FROM book; CREATE INDEX i ON para(place)",
    )
    with Session(book) as session:
        session.add_paragraph("end", "en", "The moon")
    assert braildesk.check(book) == 2


#: What is said where a table of a book has an index that the program doesn't give it.
ADDED = (
    "One of its tables has an index that no book has by itself, and that may be why. Ask whoever made"
    " the file, or go on with an earlier copy."
)


def test_of_a_book_that_keeps_nothing_by_an_index_that_was_added_the_disk_is_not_blamed(
    book: Path,
) -> None:
    with Session(book) as session:
        session.add_paragraph("end", "en", "The moon")
    altered(book, "CREATE UNIQUE INDEX i ON para(struck)")
    with Session(book) as session:
        with pytest.raises(Lost) as lost:
            session.add_paragraph("end", "en", "The sea")
    assert lost.value.cause == (
        "The new paragraph “The sea” was not reported as kept, since the file of the book could not"
        f" be written or read. {ADDED}"
    )
    assert braildesk.check(book) == 2


def test_of_a_book_that_can_not_be_completed_by_an_index_that_was_added_the_disk_is_not_blamed(
    book: Path,
) -> None:
    altered(book, "DROP TABLE cache; CREATE INDEX cache ON para(place)")
    with pytest.raises(Failed) as failed:
        braildesk.check(book)
    assert failed.value.sentence == (
        "The file could not be written or read. What the book held is still in it."
        f" {ADDED}"
    )


@pytest.mark.parametrize("kind", ["file", "pipe", "link"])
def test_a_journal_beside_a_book_is_never_put_into_it(book: Path, kind: str) -> None:
    journal = Path(f"{book}-journal")
    if kind == "file":
        journal.write_bytes(b"\xd9\xd5\x05\xf9 \xa1c\xd7" + bytes(600))
    elif kind == "pipe":
        os.mkfifo(journal)
    else:
        journal.symlink_to("elsewhere")
    before = book.read_bytes()
    with pytest.raises(CannotOpen) as caught:
        Session(book)
    assert caught.value.sentence == (
        f"Beside “{book}” lies “{journal}”, which braildesk never makes: another program was stopped"
        " while it changed that file, or somebody put it there. Nothing was changed. Keep both"
        " files, and go on with an earlier copy."
    )
    with pytest.raises(CannotOpen) as caught:
        braildesk.copy(book, book.with_name("copied"))
    assert caught.value.why is Why.JOURNAL
    assert book.read_bytes() == before
    journal.unlink()
    # as a program leaves it that keeps its journals
    journal.write_bytes(bytes(600))
    assert braildesk.check(book) == 1


@NEEDS_ROOT
def test_a_journal_that_may_not_be_read_is_named(book: Path, tmp_path: Path) -> None:
    lead_to(tmp_path)
    own, said = tmp_path / "own", tmp_path / "said"
    own.mkdir()
    own.chmod(0o777)
    moved = Path(shutil.move(book, own))
    os.chown(moved, STRANGER, STRANGER)
    Path(f"{moved}-journal").touch(0o600)
    said.touch()
    said.chmod(0o666)

    def look() -> None:
        attempts: list[Callable[[], object]] = [
            lambda: Session(moved),
            lambda: braildesk.copy(moved, own / "copy"),
        ]
        for attempt in attempts:
            with pytest.raises(CannotOpen) as caught:
                attempt()
            with said.open("a") as file:
                file.write(f"{caught.value.why}\n")

    assert as_stranger(look) == ""
    assert said.read_text() == "journal\njournal\n"


@pytest.mark.parametrize("kind", ["pipe", "link", "folder", "book"])
def test_what_has_the_name_of_a_log_and_is_none_is_named(book: Path, kind: str) -> None:
    log = Path(f"{book}-wal")
    attempts: list[Callable[[Path], object]] = [Session, braildesk.check]
    log.unlink(missing_ok=True)
    if kind == "pipe":
        os.mkfifo(log)
    elif kind == "link":
        log.symlink_to("elsewhere")
    elif kind == "folder":
        log.mkdir()
    else:
        shutil.copyfile(book, log)
    for attempt in attempts:
        with pytest.raises(CannotOpen) as caught:
            attempt(book)
        assert caught.value.sentence == (
            f"What stands at “{log}” is no log of its own, but a link, a folder, a pipe, a book or"
            f" another file, and the newest work of “{book}” would be looked for there."
            " Nothing was changed. Move it away, or ask an administrator to do so where its"
            " folder doesn't let you."
        )
    assert not book.with_name("elsewhere").exists()
    if kind == "book":
        assert braildesk.check(log) == 1


@pytest.mark.parametrize("is_alone", [True, False])
def test_what_reads_a_file_makes_none_where_it_was_removed(
    tmp_path: Path, is_alone: bool
) -> None:
    with pytest.raises(sqlite3.OperationalError):
        with closing(reader(tmp_path / "gone", is_alone)) as database:
            database.execute("SELECT count(*) FROM sqlite_schema")
    assert not list(tmp_path.iterdir())


@pytest.mark.parametrize("is_logged", [False, True])
def test_a_table_that_is_longer_than_any_is_not_read(
    book: Path, is_logged: bool
) -> None:
    altered(book, f"UPDATE tab SET body = zeroblob({limits.TABLE_BYTES + 70_000})")
    if is_logged:
        with closing(sqlite3.connect(book)) as database:
            database.execute("PRAGMA journal_mode = WAL")
            database.execute("PRAGMA user_version = 1")
            database.commit()
            files = [
                (Path(f"{book}{end}"), f"{book}-kept{end}") for end in ("", "-wal")
            ]
            for path, to in files:
                shutil.copyfile(path, to)
        for path, to in files:
            os.replace(to, path)
    with pytest.raises(Refused):
        braildesk.read_tables(book)
