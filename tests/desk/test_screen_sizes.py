"""Long, wide and many: what a terminal shows of them, and how much is asked for."""

import shutil
from pathlib import Path

import pytest

from braildesk import Session
from braildesk.desk.draft import Aim, Draft
from braildesk.desk.drafts import Drafts
from braildesk.pipe import Pipe

from scribe.screen.drawing import draw
from scribe.screen.state import Size
from sitting import Sat, Sit
from terminal import Open

#: How many requests show the screen of 80 by 24: two for each listed paragraph, and for the chosen
#: one three and where its cells are.
SHOWN = 2 * 6 + 3 + 2
WIDE = """\
space \\s 0
letter a 1
letter e 15
letter q 12345
letter 月 1346
letter \\x0303 4
"""


def test_wide_and_combining_characters_stand_in_their_columns(
    book: Path, at: Open
) -> None:
    with Session(book) as session:
        session.put_table("wide", WIDE.encode())
        session.add_paragraph("end", "wide", "月 q\u0303月a")
    terminal = at(book)
    lines = terminal.wait("? shows the keys.")
    assert lines[8] == "月 q\u0303月a" and terminal.cursor == (8, 0)
    for column in (2, 3, 4, 6):
        terminal.keys("right")
        terminal.wait_cursor((8, column))
    terminal.keys("enter", "left", "backspace", "\u6708", "enter")
    lines = terminal.wait("kept: correction 1 of paragraph 1")
    assert lines[8] == "月 月月a"
    assert terminal.cursor == (8, 5)
    terminal.keys("q")
    assert terminal.ended() == 0


@pytest.mark.parametrize("size", [(80, 24), (40, 12)])
def test_a_paragraph_of_4000_characters_is_read_and_corrected_to_its_end(
    book: Path, at: Open, size: tuple[int, int]
) -> None:
    words = " ".join(f"word {number:03}" for number in range(444)) + " end."
    assert len(words) == 4_000
    with Session(book) as session:
        session.add_paragraph("end", "en", words)
    terminal = at(book, *size)
    terminal.wait("? shows the keys.")
    terminal.keys("end")
    lines = terminal.wait("“.” ⠲, character 4000, cell 4444")
    line, column = terminal.cursor
    assert lines[line][: column + 1].endswith("end.")
    terminal.keys("enter", "backspace", "!")
    terminal.wait("en!.")
    terminal.keys("enter")
    terminal.wait("kept: correction 1 of paragraph 1")
    terminal.keys("q")
    assert terminal.ended() == 0
    with Session(book) as session:
        assert session.print_of(1) == words[:-2] + "!."


def test_a_line_begins_after_a_blank_in_the_last_column_and_no_column_goes_out_of_sight(
    book: Path, at: Open
) -> None:
    words = "The moon was as far away as it ever is."
    with Session(book) as session:
        session.add_paragraph("end", "en", words)
    terminal = at(book, 40, 12)
    terminal.wait("? shows the keys.")
    terminal.keys("enter", "end", " ")
    terminal.wait_cursor((5, 0))
    lines = terminal.wait("⠊⠎⠲")
    assert lines[0].startswith("version 2") and lines[4:6] == [words, ""]
    terminal.keys("So", "enter")
    lines = terminal.wait("last kept: correction 1 of paragraph 1")
    assert lines[4:6] == [words, "So"] and terminal.cursor == (5, 1)
    terminal.keys("q")
    assert terminal.ended() == 0


def of_cursor(sat: Sat) -> tuple[str, int]:
    """The line of the cursor, and its place there."""
    line, place = draw(sat.state).cursor
    return sat.lines[line], place


@pytest.mark.parametrize("lines", range(3, 8))
def test_few_lines_show_the_line_of_the_cursor_and_what_matters_most(
    moon: Path, sit: Sit, lines: int
) -> None:
    with Session(moon) as session:
        session.add_paragraph(
            "end", "en", "Twice a day the sea comes up and goes. " * 3
        )
        session.add_mark(4, 0, 6, "so?")
    sat = sit(moon, size=Size(40, lines))
    assert sat.lines[0] == "Paragraph 1, body, nothing kept yet"
    assert of_cursor(sat) == ("The moon is far away.", 0)
    sat.press("n")
    assert "Mark 1, open, on “moon”: spelled so?" in sat.lines
    sat.press("n")
    assert sat.lines[0] == "Paragraph 4, body, nothing kept yet"
    for front in ("Twice a day the sea", "Twice a day the sea", "Twice a day the sea"):
        line, place = of_cursor(sat)
        assert line.startswith(front) and place == 0
        sat.press("j")
    sat.press("tab")
    assert of_cursor(sat)[0].startswith("⠠⠞⠺⠊⠉⠑")
    sat.press("tab", "%")
    said = "That key does nothing here. ? shows the keys."
    assert said in " ".join(sat.lines)
    sat.press("m", *"why?")
    assert sat.lines[-1] == "Note of the mark: why?"
    sat.press("enter", "enter", "!")
    assert of_cursor(sat)[0].startswith("!Twice")


@pytest.mark.parametrize("lines", range(2, 8))
def test_few_lines_show_how_a_question_is_answered_and_the_line_of_a_list(
    moon: Path, sit: Sit, lines: int
) -> None:
    sat = sit(moon, size=Size(40, lines))
    sat.press("o", *"It rose.", "escape", "U")
    if lines == 2:
        # what was kept, and the front of the question, which goes on below
        assert sat.lines[1] == "1 of 1. A text of a new paragraph was…"
        sat.press("down")
    assert "y is yes, n is no." in " ".join(sat.lines)
    assert len(draw(sat.state).lines) == lines
    sat.press("n", "M")
    assert of_cursor(sat)[0].startswith("Mark 1, open, ")
    sat.press("home")
    what = "Lines 1 to " if lines > 3 else "2 lines."
    assert of_cursor(sat)[0].startswith(f"1 open mark. {what}")


@pytest.mark.parametrize("lines", [1, 2])
def test_a_question_is_read_whole_on_few_lines(
    moon: Path, at: Open, lines: int
) -> None:
    Drafts(moon).save(Draft(Aim.EDIT, 2, "en", "The Tides", "The tides of the sea"))
    asked = (
        "A text of paragraph 2 was typed and isn't in the book: “The tides of the sea”. Shall it be"
        " typed further? y is yes, n is no. l leaves it for later."
    )
    terminal = at(moon, 40, lines)
    terminal.wait("A text of paragraph 2 was typed and…")
    read = ["A text of paragraph 2 was typed and"]
    while not read[-1].endswith("for later.") and len(read) < 9:
        terminal.keys("down")
        terminal.settle()
        line = terminal.lines[terminal.cursor[0]]
        read.append(line.removesuffix("…"))
    assert " ".join(read) == asked
    terminal.keys("home")
    terminal.wait("Paragraph 2, body, nothing kept yet")
    terminal.answer("l")
    terminal.wait("The text waits. U asks about it, and so…")
    terminal.keys("q")
    assert terminal.ended() == 0


def test_what_is_said_is_read_to_its_end_on_two_lines(moon: Path, sit: Sit) -> None:
    sat = sit(moon, size=Size(40, 2))
    sat.press("t", *"none", "enter")
    read = [sat.lines[1]]
    while read[-1].endswith("…"):
        sat.press("down")
        read.append(sat.lines[1])
    assert " ".join(each.removesuffix("…") for each in read) == sat.state.message
    assert sat.state.times == 1 and len(read) > 3
    sat.press("down")
    assert sat.lines == ["Paragraph 2, body, nothing kept yet", "The Tides"]


def test_what_was_kept_is_said_on_one_line(moon: Path, at: Open) -> None:
    terminal = at(moon, 40, 1)
    terminal.wait("? shows the keys.")
    terminal.keys("enter", "O", "h", " ", "enter")
    terminal.wait("Kept: correction 2 of paragraph 1.")
    terminal.keys("s")
    terminal.wait("Kept: paragraph 1 struck.")
    terminal.keys("u")
    terminal.wait("Kept: paragraph 1 restored. Taken back:…")
    terminal.keys("o", "I", "t", "enter")
    terminal.wait("Kept: paragraph 4.")
    terminal.keys("A")
    terminal.wait("A")
    terminal.keys("escape", "q")
    assert terminal.ended() == 0


def test_a_terminal_of_three_lines_shows_what_is_said(moon: Path, at: Open) -> None:
    terminal = at(moon, 40, 3)
    terminal.wait("The moon is far away.")
    terminal.keys("n")
    terminal.wait("Mark 1, open, on “moon”: spelled so?")
    terminal.keys("%")
    terminal.wait("That key does nothing here. ? shows the")
    terminal.keys("q")
    assert terminal.ended() == 0


def test_a_terminal_may_change_its_size_while_print_is_typed_or_a_question_waits(
    moon: Path, at: Open
) -> None:
    terminal = at(moon)
    terminal.wait("? shows the keys.")
    terminal.keys("o", "It rose.")
    terminal.wait("⠠⠊⠞⠀⠗⠕⠎⠑⠲")
    terminal.resize(40, 12)
    lines = terminal.wait("-- New paragraph after paragraph 1,…----")
    assert lines[4:6] == ["It rose.", "⠠⠊⠞⠀⠗⠕⠎⠑⠲"]
    assert terminal.cursor == (4, 8)
    terminal.paste("Then\nit set.")
    terminal.wait("y is yes, n is no.")
    terminal.resize(200, 60)
    lines = terminal.wait("-- New paragraph after paragraph 1, table en ----")
    assert lines[-1] == (
        "The pasted text has 2 lines. Are they 2 paragraphs? y is yes, n is no."
    )
    terminal.answer("y")
    lines = terminal.wait("kept: paragraph 5")
    assert lines[1:4] == [
        "     1 body, 1 open mark: The moon is far away.",
        "     4 body: It rose.Then",
        ">    5 body: it set.",
    ]
    # with a blank the text takes the whole line, and what comes after it stands on the next
    full = "The tide was high at the old stone pier"
    terminal.resize(len(full) + 1, 12)
    terminal.keys(full + " ", "x")
    terminal.wait_cursor((5, 1))
    assert terminal.lines[4:6] == [full, "x"]
    terminal.keys("escape", "q")
    assert terminal.ended() == 0


def test_what_a_very_narrow_terminal_cut_is_there_again_on_a_wide_one(
    moon: Path, at: Open
) -> None:
    terminal = at(moon)
    terminal.wait("? shows the keys.")
    terminal.keys("o", "Malsagx vidas ci")
    terminal.wait("Malsagx vidas ci")
    for columns in (8, 9):
        terminal.resize(columns, 24)
        terminal.wait("idas ci")
        terminal.resize(80, 24)
        terminal.wait("keeps it  Escape ends  F1 keys")
        assert terminal.lines[0].startswith("moon.braildesk")
        assert "Malsagx vidas ci" in terminal.lines
    terminal.keys("escape", "q")
    assert terminal.ended() == 0


@pytest.fixture
def asked(monkeypatch: pytest.MonkeyPatch) -> list[bytes]:
    """The requests that are sent to the program from now on."""
    sent: list[bytes] = []
    send = Pipe.send

    def noted(pipe: Pipe, request: bytes) -> None:
        sent.append(request)
        send(pipe, request)

    monkeypatch.setattr(Pipe, "send", noted)
    return sent


def test_a_book_of_20000_is_opened_and_scrolled_without_delay(
    big_book: Path, sit: Sit, asked: list[bytes]
) -> None:
    sat = sit(big_book)
    # the version and the list besides
    assert len(asked) == 2 + SHOWN
    keys = ["down"] * 20 + ["pagedown"] * 20 + ["c-end"] + ["pageup"] * 20 + ["up"] * 9
    for key in keys:
        asked.clear()
        sat.press(key)
        assert len(asked) <= SHOWN
    sat.state = sat.desk.resized(sat.state, Size(200, 60))
    assert len(sat.state.listed) == 18


def test_a_command_in_a_book_of_20000_is_shown_without_delay(
    big_book: Path, tmp_path: Path, sit: Sit, asked: list[bytes]
) -> None:
    sat = sit(Path(shutil.copyfile(big_book, tmp_path / "big.braildesk")))
    sat.press("c-end")
    keys = ["s", "s", "b", "b", "enter", "x", "enter"]
    for key in keys:
        asked.clear()
        sat.press(key)
        # a command is sent, and what the screen shows may be asked for twice
        assert len(asked) <= 1 + 2 * SHOWN
    assert sat.state.version == 20_001 + 5
