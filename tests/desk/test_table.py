"""scribe table and scribe new: tables of a book, from files and from where they are installed."""

import shutil
import subprocess
import sys
from pathlib import Path

import pytest

import braildesk
from tool import ROOT, Ran, environment, scribe


def text_of(book: Path, name: str) -> bytes:
    """The text of a table, as the book has it."""
    (found,) = (table for table in braildesk.read_tables(book) if table.name == name)
    return found.text


def test_a_table_is_put_into_the_book_as_it_stands(moon: Path) -> None:
    text = b"\xef\xbb\xbfspace \\s 0\r\n\r\n# a comment\nletter a 1\n"
    moon.with_name("own.utb").write_bytes(text)
    assert scribe("table", moon, "own", "own.utb", folder=moon.parent) == Ran(
        0,
        "Table own is in the book. No paragraph has it yet.\nThe book is at version 8.\n",
        "",
    )
    assert text_of(moon, "own") == text


def test_a_last_line_without_a_line_feed_is_not_lost(moon: Path) -> None:
    moon.with_name("own.utb").write_bytes(b"space \\s 0\nletter a 1")
    scribe("table", moon, "own", "own.utb", folder=moon.parent)
    given = "type end own a a\nbraille 4\n"
    ran = scribe("run", moon, folder=moon.parent, given=given)
    assert ran == Ran(0, "ok 9 4\n| ⠁⠀⠁\nend 9\n", "")


def test_an_empty_text_is_a_table(moon: Path) -> None:
    moon.with_name("own.utb").write_bytes(b"")
    assert scribe("table", moon, "own", "own.utb", folder=moon.parent).status == 0
    assert text_of(moon, "own") == b""


@pytest.mark.parametrize(
    "text, sentence",
    [
        (
            "space \\s 0\nletter a 19\n",
            "Line 2 of the table own is refused: its dots are none that the opcode takes."
            " It reads “letter a 19”. Nothing was changed.\n",
        ),
        (
            "space \\s 0\nleter a 1",
            "Line 2 of the table own is refused: it begins with a word that is no opcode of"
            " braildesk. It reads “leter a 1”. Nothing was changed.\n",
        ),
        (
            "space \\s 0\nalways ab 1\x1b\n",
            "Line 2 of the table own is refused: its dots are none that the opcode takes."
            " It reads “always ab 1<U+001B>”. Nothing was changed.\n",
        ),
    ],
)
def test_the_line_that_is_wrong_is_shown(text: str, sentence: str, moon: Path) -> None:
    moon.with_name("own.utb").write_text(text)
    ran = scribe("table", moon, "own", "own.utb", folder=moon.parent)
    assert ran == Ran(2, "", sentence)
    assert braildesk.check(moon) == 7


def test_a_table_that_lacks_a_character_of_the_book_names_it(moon: Path) -> None:
    text = (ROOT / "sample" / "plain.utb").read_text().replace("letter T ", "# T ")
    moon.with_name("own.utb").write_text(text)
    ran = scribe("table", moon, "en", "own.utb", folder=moon.parent)
    assert ran == Ran(
        2,
        "",
        "The new text of the table en has no cells for “T” (U+0054 LATIN CAPITAL LETTER T),"
        " character 1 of paragraph 1, which uses that table: “The moon is far away.”."
        " Nothing was changed. Keep a definition of it, or give that paragraph another table"
        " first.\n",
    )


def test_a_table_of_too_many_lines_is_refused_by_its_line(moon: Path) -> None:
    moon.with_name("own.utb").write_text("#\n" * 20_001)
    ran = scribe("table", moon, "own", "own.utb", folder=moon.parent)
    assert ran.status == 2
    assert ran.said.startswith("Line 20001 of the table own is refused: it is too long")


def test_en_without_a_file_is_the_supplied_table(moon: Path) -> None:
    assert scribe("table", moon, "en", folder=moon.parent) == Ran(
        0,
        "Table en is in the book. 3 paragraphs have it.\nThe book is at version 8.\n",
        "",
    )


def test_another_text_of_a_table_that_the_book_has_is_said_to_be_one(
    moon: Path,
) -> None:
    text = (ROOT / "sample" / "plain.utb").read_bytes()
    own = moon.with_name("own.utb")

    def put(*words: str) -> str:
        return scribe("table", moon, *words, folder=moon.parent).shown.splitlines()[0]

    own.write_bytes(text)
    for said in (" is in the book. No paragraph has it yet.",) * 2:
        assert put("own", "own.utb") == f"Table own{said}"
    own.write_bytes(text + b"# once more\n")
    other = "is in the book, with another text than before"
    assert put("own", "own.utb") == f"Table own {other}. No paragraph has it yet."
    assert put("en", "own.utb") == f"Table en {other}. 3 paragraphs have it."
    assert put("en") == f"Table en {other}. 3 paragraphs have it."
    assert put("en") == "Table en is in the book. 3 paragraphs have it."


def test_a_table_that_is_not_installed_is_refused(moon: Path) -> None:
    ran = scribe("table", moon, "klingon", folder=moon.parent)
    assert (ran.status, ran.shown) == (2, "")
    assert ran.said.startswith(
        f"There is no table klingon in {ROOT / 'src' / 'braildesk' / 'tables'}."
    )
    narrow = scribe("table", moon, "klingon", "--width", "20", folder=moon.parent)
    assert narrow.said.splitlines()[-1] == "scribe table BOOK NAME FILE"


def test_a_file_that_is_not_there_is_named(moon: Path) -> None:
    ran = scribe("table", moon, "own", "my own.utb", folder=moon.parent)
    assert ran == Ran(
        2,
        "",
        "The table my own.utb can't be read: No such file or directory. Nothing was"
        " changed.\n",
    )


@pytest.fixture
def installed(tmp_path: Path) -> Path:
    """The folder in which scribe and a table ueb are installed."""
    folder = tmp_path / "share" / "braildesk"
    shutil.copytree(ROOT / "src", folder / "python")
    shutil.copy(
        ROOT / "sample" / "plain.utb",
        folder / "python" / "braildesk" / "tables" / "ueb.utb",
    )
    (tmp_path / "bin").mkdir()
    shutil.copy(ROOT / "bin" / "scribe", tmp_path / "bin" / "scribe")
    return tmp_path


def run_installed(installed: Path, *words: str) -> str:
    done = subprocess.run(
        [sys.executable, installed / "bin" / "scribe", *words],
        cwd=installed,
        env={**environment(), "PYTHONPATH": "", "BRAILDESK": braildesk.find()},
        capture_output=True,
        check=True,
    )
    return done.stdout.decode()


def test_a_new_book_has_the_everyday_table_where_it_is_installed(
    installed: Path,
) -> None:
    shown = run_installed(installed, "new", "tides.braildesk")
    assert shown == "tides.braildesk is a new book with the table ueb.\n"
    plain = (ROOT / "sample" / "plain.utb").read_bytes()
    assert text_of(installed / "tides.braildesk", "ueb") == plain


def test_an_installed_table_is_put_into_a_book_by_its_name(installed: Path) -> None:
    run_installed(installed, "new", "tides.braildesk")
    assert run_installed(installed, "table", "tides.braildesk", "ueb").startswith(
        "Table ueb is in the book."
    )


def test_a_book_that_is_there_is_left(moon: Path) -> None:
    assert scribe("new", moon, folder=moon.parent) == Ran(
        2,
        "",
        f"“{moon}” holds a book at version 7 already, which stays as it is. Use that one, or"
        " take another path for the new one.\n",
    )


@pytest.mark.parametrize("name", ["none/moon.braildesk", "none/../moon.braildesk"])
def test_a_book_in_a_folder_that_is_not_there_is_refused(
    tmp_path: Path, name: str
) -> None:
    said = f"There is no folder in which “{name}” could be made. Check that the path is right.\n"
    assert scribe("new", name, folder=tmp_path) == Ran(2, "", said)
    assert not any(tmp_path.iterdir())


def test_names_with_blanks_and_other_letters_are_names(tmp_path: Path) -> None:
    name = "Zdeňkův měsíc.braildesk"
    ran = scribe("new", name, folder=tmp_path, LC_ALL="C")
    assert ran.status == 0 and ran.shown.startswith(f"{name} is a new book")
    ran = scribe("run", name, folder=tmp_path, LC_ALL="C", given="version\n")
    assert ran == Ran(0, "end 1\n", "")
