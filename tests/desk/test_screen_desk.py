"""Keys that are carried out on a book by the program, and what the screen shows after each."""

import errno
import os
import shutil
import signal
import tempfile
from collections.abc import Callable, Iterator
from concurrent.futures import ThreadPoolExecutor
from pathlib import Path
from typing import Any

import pytest

import braildesk
from braildesk import CannotOpen, Kind, Lost, Session, Why, requests
from braildesk.desk.draft import Aim, Draft
from braildesk.desk.drafts import Drafts
from braildesk.desk.intake import Intake
from braildesk.desk.manuscripts import taken
from braildesk.desk.typist import type_all
from braildesk.text.cells import braille_patterns

from scribe.screen.background import ActionResult, done_in_background
from scribe.screen.desk import Desk
from scribe.screen.field import Field, Purpose
from scribe.screen.state import Pages, Size
from scribe.words.links import followed, name_of
from scribe.words.preview import Preview, Tables
from sitting import Sat, Sit
from stand_in import KEPT, KILL_PROGRAM
from strangers import NEEDS_ROOT, STRANGER
from terminal import standing_in
from tool import ROOT

SMALL = (
    "space \\s 0\nletter a 1\nletter b 12\nuplow Tt 2345\nletter h 125\nletter e 15\n"
)


@pytest.fixture(scope="module")
def read_desk(
    moon_once: Path, tmp_path_factory: pytest.TempPathFactory
) -> Iterator[Desk]:
    """A book that is open once for all tests that change nothing."""
    folder = tmp_path_factory.mktemp("read")
    desk = Desk(Path(shutil.copyfile(moon_once, folder / "moon.braildesk")))
    yield desk
    desk.close()


@pytest.fixture
def reader(read_desk: Desk) -> Sat:
    """Somebody who has just opened that book."""
    return Sat(read_desk, read_desk.first_state(Size(80, 24), None, False))


def closed(sat: Sat) -> Path:
    """Ends, and gives the book for another session."""
    sat.desk.close()
    return sat.desk.path


@NEEDS_ROOT
def test_a_link_of_another_user_by_which_the_book_is_named_is_said_first(
    moon: Path,
) -> None:
    link = moon.with_name("link")
    link.symlink_to(moon)
    os.chown(link, STRANGER, -1, follow_symlinks=False)
    desk = Desk(followed(link))
    state = desk.first_state(Size(80, 24), None, False)
    desk.close()
    assert state.message.startswith(
        f"“{link}” is a link of another user, and leads to “{moon}”."
    )


def test_a_book_to_which_its_link_leads_no_more_is_named_by_its_own_path(
    moon: Path,
) -> None:
    link = moon.with_name("link")
    link.symlink_to(moon)
    book = followed(link)
    assert (name_of(book), name_of(followed(moon))) == ("link", moon.name)
    link.unlink()
    link.symlink_to("another")
    assert name_of(book) == f"“{moon}”"


def test_the_book_is_shown_as_it_is_opened(reader: Sat) -> None:
    sat = reader
    assert sat.lines[:10] == [
        "moon.braildesk, version 7, table en, nothing kept yet",
        ">    1 body, 1 open mark: The moon is far away.",
        "     2 body: The Tides",
        "     3 body: Twice a day the sea comes up.",
        "",
        "",
        "",
        "-- Paragraph 1, body, table en " + "-" * 49,
        "The moon is far away.",
        "⠠⠞⠓⠑⠀⠍⠕⠕⠝⠀⠊⠎⠀⠋⠁⠗⠀⠁⠺⠁⠽⠲",
    ]
    # the T with its sign
    assert sat.highlighted == ["T", "⠠⠞"]
    sat.press("tab")
    assert sat.highlighted == ["T", "⠠"]
    sat.press("right", "right")
    assert sat.highlighted == ["h", "⠓"]


def test_a_correction_is_kept_with_its_name_and_then_undone(
    moon: Path, sit: Sit
) -> None:
    sat = sit(moon, by="anna")
    sat.press("c-right", "enter", "delete")
    sat.write("M")
    assert sat.state.version == 7 and sat.state.kept == ""
    sat.press("enter")
    assert "kept: correction 2 of paragraph 1" in sat.lines[0]
    assert sat.lines[8] == "The Moon is far away."
    assert "Mark 1, open, touched, on “Moon”: spelled so?" in sat.lines
    sat.press("u")
    assert (
        "version 9, table en, last kept: the print of paragraph 1 as it was before"
        in sat.lines[0]
    )
    assert sat.lines[8] == "The moon is far away."
    sat.press("h")
    assert sat.lines[1:5] == [
        "History of paragraph 1. Lines 1 to 3 of 3.",
        "Correction 2 taken back: The [moon] is far away.",
        "Correction 2, by anna, for “moon”: The [Moon] is far away.",
        "Correction 1, for 3 characters: The [moon] is far away.",
    ]
    with Session(closed(sat)) as session:
        entries = session.history_of(1)
    assert [(each.kind, each.who) for each in entries] == [
        (Kind.CORRECT, None),
        (Kind.CORRECT, "anna"),
        (Kind.UNDO, None),
    ]


def test_a_refusal_is_a_sentence_and_what_was_typed_stays(reader: Sat) -> None:
    sat = reader
    sat.press("enter")
    sat.write("ě")
    sat.state = sat.desk.previewed(sat.state)
    assert sat.lines[-3:-1] == [
        "Character 1, in “ěThe moon is far”: the table en has no cells for “ě” (U+011B",
        "LATIN SMALL LETTER E WITH CARON).",
    ]
    sat.press("enter")
    assert sat.state.typed and sat.state.typed.text == "ěThe moon is far away."
    assert "Nothing was changed." in " ".join(sat.lines)
    assert (sat.state.version, sat.state.kept) == (7, "")
    sat.press("backspace", "u")
    assert sat.state.typed and sat.state.typed.text == "uThe moon is far away."
    sat.press("escape", "down", "u")
    assert "Paragraph 2 has no correction that could be taken back." in " ".join(
        sat.lines
    )


def test_paragraphs_are_typed_and_pasted_up_to_one_that_is_refused(
    moon: Path, sit: Sit
) -> None:
    sat = sit(moon)
    sat.press("o")
    sat.write("It rose.")
    sat.state = sat.desk.previewed(sat.state)
    assert sat.lines[7].startswith("-- New paragraph after paragraph 1, table en ")
    assert sat.lines[8:10] == ["It rose.", "⠠⠊⠞⠀⠗⠕⠎⠑⠲"]
    sat.press("enter", "escape", "O")
    sat.write("Soon.")
    sat.press("enter")
    assert "kept: paragraph 5" in sat.lines[0]
    sat.press("escape", "o")
    sat.state = sat.desk.paste(sat.state, "One.\nTwo.\n")
    sat.press("y")
    # the next one is begun, as after Enter
    assert sat.state.typed == Field(Purpose.AFTER)
    assert "kept: paragraph 7" in sat.lines[0]
    sat.state = sat.desk.paste(sat.state, "Three.\nTěo.\nFour.")
    sat.press("y")
    assert sat.state.typed and sat.state.typed.text == "Těo."
    assert sat.state.message.startswith("1 typed. The table en has no cells for “ě”")
    assert "Nothing was added" not in sat.state.message
    assert sat.state.message.endswith(
        " Once nothing is typed any more, U brings back the line after this one."
    )
    assert "kept: paragraph 8" in sat.lines[0]
    sat.press("left", "left", "backspace", "w", "enter", "escape")
    sat.press("U", "y", "enter")
    with Session(closed(sat)) as session:
        found = [(each.id, session.print_of(each.id)) for each in session.paragraphs()]
    assert found == [
        (1, "The moon is far away."),
        (5, "Soon."),
        (6, "One."),
        (7, "Two."),
        (8, "Three."),
        (9, "Two."),
        (10, "Four."),
        (4, "It rose."),
        (2, "The Tides"),
        (3, "Twice a day the sea comes up."),
    ]


def test_each_key_for_a_paragraph_is_kept_and_shown(moon: Path, sit: Sit) -> None:
    sat = sit(moon)
    sat.press("down")
    version = 7
    for keys, kept, listed, line in (
        ("s", "struck", "body, struck: The Tides", 2),
        ("s", "restored", "body: The Tides", 2),
        ("b", "a heading", "heading: The Tides", 2),
        ("b", "body text", "body: The Tides", 2),
        ("v", "begins a volume", "body, volume: The Tides", 2),
        ("v", "begins no volume", "body: The Tides", 2),
        ("t p l a i n enter", "with table plain", "body: The Tides", 2),
        ("a-up", "moved to the front", "body: The Tides", 1),
        ("a-down", "moved after 1", "body: The Tides", 2),
        ("a-down", "moved after 3", "body: The Tides", 3),
    ):
        sat.press(*keys.split())
        version += 1
        assert f"version {version}, " in sat.lines[0]
        assert sat.lines[0].endswith(f", last kept: paragraph 2 {kept}")
        assert sat.lines[line] == f">    2 {listed}"
    assert "table plain" in sat.lines[0]


def test_marks_are_put_on_chosen_cells_gone_to_and_resolved(
    moon: Path, sit: Sit
) -> None:
    sat = sit(moon)
    sat.press("down", "down", " ", "right", "right", "m")
    sat.write("who?")
    sat.press("enter")
    assert sat.lines[0].endswith("kept: mark 2")
    sat.press("c-home", "n")
    assert "Mark 1, open, on “moon”: spelled so?" in sat.lines
    sat.press("n")
    assert (sat.state.chosen, sat.state.place) == (2, 0)
    assert "Mark 2, open, on “Tw”: who?" in sat.lines
    sat.press("N")
    assert (sat.state.chosen, sat.state.place) == (0, 4)
    sat.press("r")
    assert sat.lines[0].endswith("kept: mark 1 resolved")
    assert "Mark 1, resolved, on “moon”: spelled so?" in sat.lines
    sat.press("n", "n")
    assert sat.state.chosen == 2


def test_words_and_cells_are_found_and_found_again(reader: Sat) -> None:
    sat = reader
    sat.press("/")
    sat.write("a")
    sat.press("enter")
    spots = [(sat.state.chosen, sat.state.place)]
    for _ in range(5):
        sat.press("*")
        spots.append((sat.state.chosen, sat.state.place))
    assert spots == [(0, 13), (0, 16), (0, 18), (2, 6), (2, 9), (2, 18)]
    sat.press("*")
    assert (sat.state.chosen, sat.state.place) == (0, 13)
    around = "“a” isn't further on; this is the first in the print of the book."
    assert around in sat.lines
    sat.press("tab", "/")
    sat.write("tides")
    sat.press("enter")
    assert (sat.state.chosen, sat.state.place) == (1, 6)
    sat.press("/", "é", "enter")
    assert "is no cell in Braille ASCII or Unicode" in " ".join(sat.lines)
    sat.press("tab", "/", "z", "enter")
    assert "“z” isn't in the print of the book." in sat.lines


def test_words_that_stand_nowhere_else_are_said_to(reader: Sat) -> None:
    sat = reader
    sat.press("/", *"Tides", "enter")
    assert (sat.state.chosen, sat.state.place, sat.state.message) == (1, 4, "")
    sat.press("*")
    assert (sat.state.chosen, sat.state.place) == (1, 4)
    assert sat.lines[-2] == "“Tides” is nowhere else in the print of the book."
    sat.press("/", *"moon", "enter")
    assert (sat.state.chosen, sat.state.place) == (0, 4)
    assert sat.lines[-2] == (
        "“moon” isn't further on; this is the first in the print of the book."
    )


def test_words_that_are_found_are_shown_with_all_cells_of_their_last_character(
    moon: Path, sit: Sit
) -> None:
    sat = sit(moon)
    sat.press("/", *"e T", "enter")
    assert (sat.state.chosen, sat.state.place) == (1, 2)
    cells = sat.state.chosen_cells
    assert cells is not None and sat.state.reading is not None
    assert sat.state.reading.braille[cells.start : cells.stop] == "⠑⠀⠠⠞"
    # as those are on which a mark then stands
    sat.press("m", "enter")
    assert cells in sat.state.marked_cells


def test_of_cells_it_is_said_that_they_are_nowhere_else_among_the_cells(
    moon: Path, sit: Sit
) -> None:
    with Session(moon) as session:
        session.add_paragraph("end", "en", "It is far! 6 boats came.")
    sat = sit(moon)
    sat.press("tab", "/", "6", "enter")
    assert (sat.state.chosen, sat.state.place, sat.state.message) == (3, 10, "")
    sat.press("*")
    assert sat.state.message == "“6” is nowhere else in the cells of the book."
    sat.press("/", *",", "enter")
    assert sat.state.message == (
        "“,” isn't further on; this is the first in the cells of the book."
    )


def test_what_is_said_again_is_drawn_otherwise(reader: Sat) -> None:
    sat = reader
    nowhere = "“z” isn't in the print of the book."
    sat.press("/", "z", "enter")
    assert sat.lines[-2] == nowhere
    sat.press("*")
    assert sat.lines[-2] == f"Again: {nowhere}"
    sat.press("*")
    assert sat.lines[-2] == f"3 times now: {nowhere}"
    sat.press("left", "*")
    assert sat.lines[-2] == nowhere
    sat.press("%", "%")
    assert sat.lines[-2] == "Again: That key does nothing here. ? shows the keys."


@pytest.mark.parametrize(
    "sought, how, place",
    [
        ("MOON", "other capitals", (0, 4)),
        ("twice a day", "other capitals", (2, 0)),
        ("Twice\u00a0a day", "another kind of blank", (2, 0)),
        ("tides’", "other capitals and another apostrophe", (3, 4)),
        ("sea-side", "another dash", (3, 11)),
        ('"up"', "other quotation marks", (3, 20)),
    ],
)
def test_words_that_are_otherwise_in_the_book_are_offered_and_gone_to(
    moon: Path, sit: Sit, sought: str, how: str, place: tuple[int, int]
) -> None:
    with Session(moon) as session:
        session.add_paragraph("end", "plain", "The Tides' sea–side “up”")
    sat = sit(moon)
    sat.press("right", "/", *sought, "enter")
    assert sat.state.message == (
        f"“{sought}” isn't in the print as typed; with {how} it is in paragraph"
        f" {place[0] + 1}: * goes there."
    )
    assert (sat.state.chosen, sat.state.place) == (0, 1)
    sat.press("*")
    assert (sat.state.chosen, sat.state.place) == place
    assert sat.state.message == ""
    sat.press("*")
    assert (
        sat.state.message
        == f"“{sought}” in any form is nowhere else in the print of the book."
    )
    sat.press("/", *sought, "enter")
    assert "isn't in the print as typed" in sat.state.message


def test_the_page_is_that_of_the_export(reader: Sat, moon: Path) -> None:
    reader.press("down", "p")
    assert reader.lines[1].startswith(
        "Paragraph 2, character 1: volume 1, page 1, line 2, of 25"
    )
    pages = braildesk.export(moon, 1).decode().split("\r\n")
    assert [line.strip() for line in pages[:3]] == [
        ",THE MOON IS FAR AWAY4",
        ",THE ,TIDES",
        ",TWICE A DAY THE SEA COMES UP4",
    ]
    assert reader.state.pages
    assert reader.state.pages.lines == tuple(map(braille_patterns, pages[:25]))


def test_a_table_is_put_into_an_empty_book_and_the_first_paragraph_typed(
    empty_book: Path, sit: Sit
) -> None:
    sat = sit(empty_book)
    assert sat.lines[1] == (
        "The book has no table and no paragraphs. t puts a table into it."
    )
    sat.press("o")
    assert "The book has no table yet. t chooses one." in sat.lines
    sat.press("t", "x", "y", "enter")
    said = "There is no table xy. Nothing was changed. The book has no table yet."
    assert said in " ".join(sat.lines)
    sat.press("t", "e", "n", "enter")
    assert sat.lines[0] == "empty.braildesk, version 1, table en, last kept: table en"
    sat.press("o")
    sat.write("ab 5")
    sat.state = sat.desk.previewed(sat.state)
    assert "⠁⠃⠀⠼⠑" in sat.lines
    sat.press("enter")
    assert sat.lines[1] == ">    1 body: ab 5"


def test_the_preview_is_by_the_text_of_a_table(program: str) -> None:
    tables = Tables()
    tables.put("small", SMALL.encode())
    assert tables.preview("small", "The", "The") == Preview("The", "⠞⠓⠑")
    lacking = tables.preview("small", "thea c", "thea c")
    assert lacking.fault == (
        "Character 6, in “thea c”: the table small has no cells for “c” (U+0063 LATIN SMALL"
        " LETTER C)."
    )
    tables.put("small", b"letter c 14\n")
    assert tables.preview("small", "c", "c") == Preview("c", "⠉")


def test_a_preview_needs_no_file_that_something_else_may_clean_away(
    program: str, tmp_path: Path, monkeypatch: pytest.MonkeyPatch
) -> None:
    monkeypatch.setattr(tempfile, "tempdir", str(tmp_path))
    tables = Tables()
    tables.put("small", b"letter c 25\n")
    for each in tmp_path.iterdir():
        shutil.rmtree(each)
    # the supplied table gives c other cells
    assert tables.preview("small", "c", "c") == Preview("c", "⠒")
    monkeypatch.setattr(tempfile, "tempdir", str(tmp_path / "missing"))
    Tables().put("small", b"letter c 25\n")


@pytest.mark.parametrize(
    "number, said",
    [
        (
            errno.EMFILE,
            "Too many open files. Nothing was translated. Close other programs, and try again.",
        ),
        (
            errno.EFBIG,
            "File too large. Nothing was translated. Set a higher limit on the size of files"
            " (ulimit -f), and try again.",
        ),
    ],
)
def test_a_preview_by_a_table_that_cannot_be_handed_over_says_so(
    program: str, monkeypatch: pytest.MonkeyPatch, number: int, said: str
) -> None:
    def full(name: str) -> int:
        raise OSError(number, os.strerror(number))

    monkeypatch.setattr(os, "memfd_create", full)
    tables = Tables()
    tables.put("small", b"letter c 25\n")
    assert tables.preview("small", "c", "c") == Preview(
        "c",
        fault=f"There is no preview. The text of a table could not be kept in memory: {said}",
    )
    assert tables.first_fault("small", ["a"]) == ""


def test_an_export_and_an_import_are_done_and_the_book_is_open_again(
    moon: Path, sit: Sit
) -> None:
    sat = sit(moon)
    heard: list[str] = []
    sat.press("x")
    sat.write(str(moon.parent / "pages"))
    sat.press("enter")
    sat.state = sat.desk.away(sat.state, heard.append)
    file = moon.parent / "pages" / "moon-1.brf"
    assert heard == [f"{file}: volume 1, 1 page, 52 cells with dots."]
    assert file.read_bytes().startswith(b"  ,THE MOON IS FAR AWAY4\r\n")
    text = moon.parent / "more.txt"
    text.write_text("The sun\n\nThe stars…\n")
    sat.press("escape", "i")
    sat.write(str(text))
    sat.press("enter")
    sat.state = sat.desk.away(sat.state, heard.append)
    assert "line 3, column 10: “…” (U+2026" in " ".join(sat.lines).replace("  ", " ")
    assert sat.lines[0] == "moon.braildesk, version 7, table en, nothing kept yet"
    text.write_text("The sun\n\nThe stars.\n")
    sat.press("escape", "i")
    sat.write(str(text))
    sat.press("enter")
    sat.state = sat.desk.away(sat.state, heard.append)
    sat.press("escape", "s")
    assert sat.lines[1:4] == [
        ">    1 body, struck, 1 open mark: The moon is far away.",
        "     4 body: The sun",
        "     5 body: The stars.",
    ]


def test_that_nothing_was_imported_is_shown_before_what_would_be_lost(
    moon: Path, sit: Sit
) -> None:
    text = moon.with_name("more.md")
    text.write_text("The *sun*…\n")
    sat = sit(moon)
    sat.press("i")
    sat.write(str(text))
    sat.press("enter")
    sat.state = sat.desk.away(sat.state, print)
    shown = " ".join(sat.lines)
    assert -1 < shown.find("Nothing was typed.") < shown.find("is read as Markdown")


def test_an_import_into_an_empty_book_has_the_table_that_was_chosen(
    book: Path, sit: Sit
) -> None:
    with Session(book) as session:
        session.put_table("plain", (ROOT / "sample" / "plain.utb").read_bytes())
    (book.parent / "text.txt").write_text("The sun\n")
    sat = sit(book)
    sat.press("i")
    assert sat.state.message == "The book has the tables en, plain. t chooses one."
    sat.press("t", *"plain", "enter", "i", *str(book.parent / "text.txt"), "enter")
    sat.state = sat.desk.away(sat.state, lambda line: None)
    assert sat.state.kept == "kept: 1 paragraph typed, number 1, by the table plain"


def test_an_import_that_is_cut_short_is_kept_as_far_as_it_came(
    moon: Path, sit: Sit, monkeypatch: pytest.MonkeyPatch
) -> None:
    def cut_short(path: Path, *_: object) -> ActionResult:
        with Session(path) as session:
            session.add_paragraph("end", "en", "The sun")
        return ActionResult("Import.", ("The session ended.",))

    monkeypatch.setattr("scribe.screen.desk.done_in_background", cut_short)
    sat = sit(moon)
    sat.press("s", "i", "x", "enter")
    assert sat.lines[0].endswith("last kept: paragraph 1 struck")
    sat.state = sat.desk.away(sat.state, lambda line: None)
    assert sat.lines[0].endswith(
        "version 9, table en, last kept: 1 paragraph of the import"
    )


@pytest.fixture
def other(moon: Path) -> Path:
    """Another book, of one paragraph."""
    path = moon.with_name("other.braildesk")
    braildesk.new_book(path)
    with Session(path) as session:
        session.put_table("en", (ROOT / "sample" / "plain.utb").read_bytes())
        session.add_paragraph("end", "en", "The stars")
    return path


def while_read(patch: pytest.MonkeyPatch, deed: Callable[[], object]) -> None:
    """Has something be done while the text of an import is read."""

    def then_taken(*words: Any) -> Any:
        deed()
        return taken(*words)

    patch.setattr("braildesk.desk.import_text.taken", then_taken)


def tried(book: Path, other: Path) -> list[Why]:
    """Why others can't have a book, nor put a copy of another one in its place."""
    whys: list[Why] = []
    try:
        Session(book).close()
    except CannotOpen as refused:
        whys.append(refused.why)
    try:
        braildesk.copy(other, book, overwrite=True)
    except CannotOpen as refused:
        whys.append(refused.why)
    return whys


def test_nobody_else_has_the_book_while_it_is_exported(
    moon: Path, other: Path, sit: Sit
) -> None:
    whys: list[Why] = []
    sat = sit(moon)
    sat.press("O", *"Soon.", "enter", "escape", "x", *str(moon.parent), "enter")
    sat.state = sat.desk.away(sat.state, lambda _: whys.extend(tried(moon, other)))
    assert whys == [Why.IN_USE, Why.IN_USE]
    file = moon.parent / "moon-1.brf"
    assert b",SOON4" in file.read_bytes()
    assert sat.state.pages and sat.state.pages.lines[0].startswith(f"{file}: volume 1,")
    sat.press("escape", "u")
    assert sat.state.message == (
        "Taken back: paragraph 4 was typed. The book keeps it, struck."
    )


def test_nothing_is_exported_of_another_book_that_was_put_in_the_place_of_the_open_one(
    moon: Path, other: Path, sit: Sit
) -> None:
    sat = sit(moon)
    sat.press("s", "x", *str(moon.parent), "enter")
    os.replace(other, moon)
    sat.state = sat.desk.away(sat.state, lambda _: None)
    assert sat.state.is_lost and not moon.with_name("moon-1.brf").exists()
    assert sat.state.pages and sat.state.pages.lines[0] == "Nothing was exported."
    with Session(f"{moon}-saved-1") as session:
        assert session.paragraphs()[0].struck


def test_what_was_kept_before_the_book_was_opened_is_exported_also_where_its_log_is_gone(
    moon: Path, sit: Sit
) -> None:
    with pytest.raises(Lost), Session(moon) as session:
        session.strike(1)
        os.kill(session.pid, signal.SIGKILL)
        session.version()
    sat = sit(moon)
    assert sat.state.book[0].struck
    Path(f"{moon}-wal").unlink()
    sat.press("x", *str(moon.parent), "enter")
    sat.state = sat.desk.away(sat.state, lambda _: None)
    assert b",MOON" not in moon.with_name("moon-1.brf").read_bytes()
    assert b",TIDES" in moon.with_name("moon-1.brf").read_bytes()


def test_that_nothing_is_exported_is_said_where_the_session_is_lost_as_that_begins(
    moon: Path, sit: Sit
) -> None:
    sat = sit(moon)
    sat.press("s", "x", *str(moon.parent), "enter")
    Path(f"{moon}-wal").unlink()
    sat.state = sat.desk.away(sat.state, lambda _: None)
    assert sat.state.pages and sat.state.pages.lines == ("Nothing was exported.",)
    assert "was removed or replaced while it was open" in sat.state.message
    assert not sat.state.is_lost and not moon.with_name("moon-1.brf").exists()


def test_pages_that_may_be_another_book_s_are_said_to_be_where_none_could_be_copied(
    moon: Path,
    other: Path,
    sit: Sit,
    monkeypatch: pytest.MonkeyPatch,
    tmp_path: Path,
) -> None:
    sat = sit(moon)
    # from which pages are made then, while the session is closed
    monkeypatch.setattr(tempfile, "tempdir", str(tmp_path / "missing"))
    before_it(monkeypatch, lambda: os.replace(other, moon))
    sat.press("x", *str(moon.parent), "enter")
    sat.state = sat.desk.away(sat.state, lambda _: None)
    assert sat.state.pages is not None
    assert "of another file that was at the book's path." in sat.state.pages.lines[-2]


def test_nothing_is_said_of_another_file_where_a_book_is_only_removed_while_it_is_exported(
    moon: Path, sit: Sit, monkeypatch: pytest.MonkeyPatch, tmp_path: Path
) -> None:
    sat = sit(moon)
    monkeypatch.setattr(tempfile, "tempdir", str(tmp_path / "missing"))
    before_it(monkeypatch, lambda: os.unlink(moon))
    sat.press("x", *str(moon.parent), "enter")
    sat.state = sat.desk.away(sat.state, lambda _: None)
    assert sat.state.pages is not None
    assert not any("another file" in line for line in sat.state.pages.lines)


def test_nobody_else_has_the_book_while_a_document_is_read(
    moon: Path, other: Path, sit: Sit, monkeypatch: pytest.MonkeyPatch
) -> None:
    whys: list[Why] = []

    while_read(monkeypatch, lambda: whys.extend(tried(moon, other)))
    text = moon.with_name("text.md")
    text.write_text("The *sun*\n")
    sat = sit(moon)
    sat.press("s", "i", *str(text), "enter")
    sat.state = sat.desk.away(sat.state, lambda line: None)
    assert whys == [Why.IN_USE, Why.IN_USE]
    assert sat.state.kept == "kept: 1 paragraph typed, number 4, by the table en"
    with Session(closed(sat)) as session:
        assert [session.print_of(each.id) for each in session.paragraphs()] == [
            "The moon is far away.",
            "The sun",
            "The Tides",
            "Twice a day the sea comes up.",
        ]
        assert session.paragraphs()[0].struck


@pytest.mark.parametrize("print_", ["The *sun*\n", "\n"])
def test_nothing_is_imported_into_another_book_that_is_put_there_while_a_document_is_read(
    moon: Path,
    other: Path,
    sit: Sit,
    monkeypatch: pytest.MonkeyPatch,
    print_: str,
) -> None:
    while_read(monkeypatch, lambda: os.replace(other, moon))
    text = moon.with_name("text.md")
    text.write_text(print_)
    sat = sit(moon)
    sat.press("s", "i", *str(text), "enter")
    sat.state = sat.desk.away(sat.state, lambda line: None)
    saved = Path(f"{moon}-saved-1")
    assert sat.state.is_lost and sat.state.pages
    assert str(saved) in " ".join(sat.state.pages.lines)
    with Session(saved) as session:
        assert len(session.paragraphs()) == 3 and session.paragraphs()[0].struck
    with Session(moon) as session:
        assert len(session.paragraphs()) == 1
    sat.press("enter")
    assert sat.state.message.startswith("The file that is at the path now is open.")


def with_its_number(other: Path, book: Path) -> None:
    """Puts a copy of another book in the place of one, with the number of its file if that is free by then."""
    number = book.stat().st_ino
    book.unlink()
    for nth in range(100):
        made = shutil.copyfile(other, book.with_name(f"copy-{nth}"))
        if made.stat().st_ino == number:
            break
    made.rename(book)


@pytest.mark.parametrize("put", [os.replace, with_its_number])
def test_nothing_is_imported_into_another_book_that_is_put_there_before_it(
    moon: Path,
    other: Path,
    sit: Sit,
    monkeypatch: pytest.MonkeyPatch,
    put: Callable[[Path, Path], None],
) -> None:
    def then_done(path: Path, *words: Any) -> ActionResult:
        put(other, path)
        return done_in_background(path, *words)

    monkeypatch.setattr("scribe.screen.desk.done_in_background", then_done)
    text = moon.with_name("text.txt")
    text.write_text("The sun\n")
    sat = sit(moon)
    sat.press("s", "i", *str(text), "enter")
    sat.state = sat.desk.away(sat.state, lambda line: None)
    assert sat.state.is_lost and sat.state.pages
    assert sat.state.pages.lines == ("Nothing was typed.", replaced(moon))
    with Session(f"{moon}-saved-1") as session:
        assert len(session.paragraphs()) == 3 and session.paragraphs()[0].struck
    with Session(moon) as session:
        assert len(session.paragraphs()) == 1


def replaced(book: Path) -> str:
    """What is said of a book in the place of which another one was put."""
    return (
        f"The file of the book is no longer at “{book}”: another one was put there while it was open."
        f" All of the book, with what was kept last, is in the new file “{book}-saved-1”. Go on with"
        " that one, or look first what is at the old path by now."
    )


def while_typed(patch: pytest.MonkeyPatch, deed: Callable[[], None]) -> None:
    """Has something be done as the typing of an import begins."""

    def then_typed(
        session: Session,
        intake: Intake,
        report: Callable[[int], None],
        begin: Callable[[], None],
    ) -> None:
        begin()
        type_all(session, intake, report, deed)

    patch.setattr("braildesk.desk.import_text.type_all", then_typed)


def once_imported(patch: pytest.MonkeyPatch, deed: Callable[[], None]) -> None:
    """Has something be done once an import has come to its end."""

    def then_done(path: Path, *words: Any) -> ActionResult:
        ending = done_in_background(path, *words)
        deed()
        return ending

    patch.setattr("scribe.screen.desk.done_in_background", then_done)


@pytest.mark.parametrize("when", [while_typed, once_imported])
def test_another_book_that_is_put_there_by_an_import_s_end_is_not_taken_for_the_book(
    moon: Path,
    other: Path,
    sit: Sit,
    monkeypatch: pytest.MonkeyPatch,
    when: Callable[[pytest.MonkeyPatch, Callable[[], None]], None],
) -> None:
    when(monkeypatch, lambda: os.replace(other, moon))
    text = moon.with_name("text.txt")
    text.write_text("The sun\n\nThe sea\n")
    sat = sit(moon)
    sat.press("i", *str(text), "enter")
    sat.state = sat.desk.away(sat.state, lambda line: None)
    typed = "2 paragraphs typed, numbers 4 to 5, by the table en."
    if when is while_typed:
        typed = f"{text} is in the book up to line 3, which is the end of paragraph 5 of the book."
    title = "The session ended."
    assert sat.state.pages == Pages(title, (typed, replaced(moon)))
    with Session(f"{moon}-saved-1") as session:
        its = [session.print_of(each.id) for each in session.paragraphs()]
    assert (its[1:3], len(its)) == (["The sun", "The sea"], 5)
    sat.press("enter")
    assert sat.state.message.startswith("The file that is at the path now is open.")
    assert [each.id for each in sat.state.book] == [1]


def before_it(patch: pytest.MonkeyPatch, deed: Callable[[], None]) -> None:
    """Has something be done before an export or an import opens the book."""

    def then_begun(path: Path, *words: Any) -> ActionResult:
        deed()
        return done_in_background(path, *words)

    patch.setattr("scribe.screen.desk.done_in_background", then_begun)


@pytest.mark.parametrize("when", [before_it, once_imported])
def test_a_book_that_is_removed_while_it_is_closed_for_an_import_is_saved(
    moon: Path,
    sit: Sit,
    monkeypatch: pytest.MonkeyPatch,
    when: Callable[[pytest.MonkeyPatch, Callable[[], None]], None],
) -> None:
    when(monkeypatch, lambda: os.unlink(moon))
    text = moon.with_name("text.txt")
    text.write_text("The sun\n\nThe sea\n")
    sat = sit(moon)
    sat.press("i", *str(text), "enter")
    sat.state = sat.desk.away(sat.state, lambda line: None)
    assert sat.state.pages is not None
    assert sat.state.pages.lines[-1].startswith(
        f"The file of the book is no longer at “{moon}”: it was removed or moved while it was open."
        f" All of the book, with what was kept last, is in the new file “{moon}-saved-1”."
    )
    with Session(f"{moon}-saved-1") as session:
        its = [session.print_of(each.id) for each in session.paragraphs()]
    typed = ["The sun", "The sea"] if when is once_imported else []
    assert [each for each in its if each in typed] == typed
    assert len(its) == 3 + len(typed)


def test_an_import_ends_at_once_by_a_signal_while_its_document_is_read(
    moon: Path, sit: Sit, monkeypatch: pytest.MonkeyPatch
) -> None:
    queue, text = moon.with_name("queue"), moon.with_name("text.html")
    os.mkfifo(queue)
    slow = moon.with_name("pandoc")
    slow.write_text(f"#!/bin/sh\necho > {queue}\nexec sleep 60\n")
    slow.chmod(0o755)
    monkeypatch.setenv("PATH", f"{slow.parent}:{os.environ['PATH']}")
    text.write_text("<p>The sun</p>")
    sat = sit(moon)
    sat.press("i", *str(text), "enter")

    def stopped() -> None:
        queue.read_bytes()
        sat.desk.stop(signal.SIGTERM)

    with ThreadPoolExecutor() as beside:
        beside.submit(stopped)
        sat.state = sat.desk.away(sat.state, lambda line: None)
    said = "Stopped by SIGTERM. Nothing was typed."
    assert sat.state.pages == Pages("Import.", (said,))
    assert len(sat.state.book) == 3


def test_what_is_kept_of_an_import_is_said_also_if_another_program_has_the_book_then(
    moon: Path, sit: Sit, monkeypatch: pytest.MonkeyPatch
) -> None:
    text = moon.with_name("text.txt")
    text.write_text("The sun\n\nThe stars\n\nThe sea\n")
    for name, value in standing_in(2, KEPT, KILL_PROGRAM).items():
        monkeypatch.setenv(name, value)
    others: list[Session] = []

    def then_taken(path: Path, *words: Any) -> ActionResult:
        ending = done_in_background(path, *words)
        others.append(Session(path))
        return ending

    monkeypatch.setattr("scribe.screen.desk.done_in_background", then_taken)
    monkeypatch.setattr("braildesk.desk.aftermath.PATIENCE", 0.0)
    sat = sit(moon)
    sat.press("i", *str(text), "enter")
    sat.state = sat.desk.away(sat.state, lambda line: None)
    others[0].close()
    assert sat.state.pages and sat.state.pages.title == "The book is closed."
    assert sat.lines[0].endswith("last kept: 2 paragraphs of the import")


def test_what_an_import_did_is_said_also_if_another_program_takes_the_book_then(
    moon: Path, sit: Sit, monkeypatch: pytest.MonkeyPatch
) -> None:
    typed = "1 paragraph typed, number 4, by the table en."
    others: list[Session] = []

    def taken(path: Path, *_: object) -> ActionResult:
        with Session(path) as session:
            session.add_paragraph("end", "en", "The sun")
        others.append(Session(path))
        return ActionResult("Import.", (typed,), typed)

    monkeypatch.setattr("scribe.screen.desk.done_in_background", taken)
    monkeypatch.setattr("braildesk.desk.aftermath.PATIENCE", 0.0)
    sat = sit(moon)
    sat.press("i", "x", "enter")
    sat.state = sat.desk.away(sat.state, lambda line: None)
    others[0].close()
    assert sat.state.pages == Pages(
        "The book is closed.",
        (typed, f"Another program has “{moon}” open. That one must end first."),
    )
    assert sat.lines[0].rstrip().endswith(f"last kept: {typed}")
    sat.press("enter")
    assert sat.state.message == (
        "The book is open again. It is at version 8 now; the screen said 7 last."
    )


def test_only_the_listed_paragraphs_are_asked_for(
    big_book: Path, sit: Sit, monkeypatch: pytest.MonkeyPatch
) -> None:
    sat = sit(big_book)
    asked: list[int] = []

    def noted(request: requests.Print) -> list[str]:
        asked.append(request.paragraph)
        return super(requests.Print, request).head()

    monkeypatch.setattr(requests.Print, "head", noted)
    sat.press("c-end")
    assert sorted(set(asked)) == list(range(19_995, 20_001))
    assert sat.lines[6] == ">20000 body: Paragraph number 20000 of the moon."
    asked.clear()
    sat.press("up")
    assert asked == [19_999]


def test_a_killed_session_says_what_was_kept_and_keeps_what_was_typed(
    moon: Path, sit: Sit
) -> None:
    sat = sit(moon)
    sat.press("down", "s", "s", "o")
    sat.write("It rose.")
    os.kill(sat.desk.pid, signal.SIGKILL)
    sat.press("enter")
    text = " ".join(sat.lines)
    assert (
        "The session was ended by signal 9. The book was opened again: it is at version 9, as before,"
        " and what was asked last is not in it."
    ) in text
    assert sat.lines[0].endswith("kept: paragraph 2 restored")
    sat.desk.close()
    again = sit(moon)
    assert again.state.version == 9
    assert again.lines[-2:] == [
        "A text of a new paragraph was typed and isn't in the book: “It rose.”. Shall it",
        "be typed further? y is yes, n is no. l leaves it for later.",
    ]
    again.press("y", "enter")
    assert again.lines[0].endswith("kept: paragraph 4")
    assert [each.id for each in again.state.book] == [1, 2, 4, 3]
    assert again.desk.drafts.waiting() is None


def test_a_text_that_waits_can_be_left_out(moon: Path, sit: Sit) -> None:
    Drafts(moon).save(Draft(Aim.EDIT, 2, "en", "The Tides", "The Tide"))
    sat = sit(moon)
    assert sat.lines[-2:] == [
        "A text of paragraph 2 was typed and isn't in the book: “The Tide”. Shall it be",
        "typed further? y is yes, n is no. l leaves it for later.",
    ]
    sat.press("q", "n")
    assert sat.state.typed is None and sat.desk.drafts.waiting() is None
    assert sat.lines[8] == "The Tides"


def test_a_resize_lists_more_and_the_choice_stays(reader: Sat) -> None:
    sat = reader
    sat.state = sat.desk.resized(sat.state, Size(40, 12))
    sat.press("down", "right", " ", "right")
    before = sat.state.chosen_cells
    sat.state = sat.desk.resized(sat.state, Size(200, 60))
    assert len(sat.lines) == 60
    assert sat.state.chosen_cells == before
    assert sat.lines[2] == ">    2 body: The Tides"
