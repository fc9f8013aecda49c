"""What somebody who is tired tries: keys at the wrong time, twice, or at a question."""

import os
import shutil
from pathlib import Path

import pytest
from hypothesis import HealthCheck, given, settings
from hypothesis import strategies as st

from braildesk import Session
from braildesk.text.wrapping import columns

from scribe.screen.desk import Desk
from scribe.screen.drawing import draw
from scribe.screen.keys import KEYS
from scribe.screen.state import Size
from sitting import Sat, Sit

PROMPTS = ["enter", "o", "O", "m", "g", "t", "/", "x", "i"]
SIZES = [Size(80, 24), Size(40, 12), Size(200, 60), Size(20, 8)]


def check(sat: Sat) -> None:
    """What holds of any screen: it fits, and nobody else has changed the book."""
    drawing = draw(sat.state)
    size = sat.state.size
    assert len(drawing.lines) == size.lines
    assert all(columns(line) <= size.columns for line in drawing.texts())
    line, place = drawing.cursor
    assert 0 <= line < size.lines and 0 <= place < size.columns
    assert not sat.state.is_lost
    assert "Another program" not in sat.state.message


def check_book(sat: Sat) -> None:
    """The book in the file is the one that is shown."""
    sat.desk.close()
    with Session(sat.desk.path) as session:
        assert (session.last_version, session.paragraphs()) == (
            sat.state.version,
            sat.state.book,
        )


@pytest.mark.parametrize("key", PROMPTS)
def test_escape_at_a_prompt_leaves_the_book_as_it_was(
    moon: Path, sit: Sit, key: str
) -> None:
    sat = sit(moon)
    sat.press("c-right", key, "q", "x", "escape")
    assert sat.state.message.startswith("Given up. The book is as it was.")
    assert (sat.state.version, sat.state.typed, sat.state.is_over) == (7, None, False)
    assert sat.desk.drafts.waiting() is None
    check(sat)
    check_book(sat)


@pytest.mark.parametrize("key", PROMPTS)
def test_pasted_lines_stay_one_line_at_a_prompt_and_nothing_is_sent(
    moon: Path, sit: Sit, key: str
) -> None:
    sat = sit(moon)
    sat.press(key)
    before = sat.state.typed
    sat.state = sat.desk.paste(sat.state, "one\r\ntwo\r\n\r\nthree\r\n")
    check(sat)
    if key in ("o", "O", "enter"):
        sat.press("n")
    assert sat.state.typed and before
    assert sat.state.typed.text == f"one two three {before.text}".rstrip()
    assert (sat.state.version, sat.state.away) == (7, None)


def test_enter_pressed_twice_keeps_one_paragraph(moon: Path, sit: Sit) -> None:
    sat = sit(moon)
    sat.press("o")
    sat.write("Soon.")
    sat.press("enter", "enter")
    assert sat.state.message == "This paragraph was empty, and wasn't added."
    assert (sat.state.version, len(sat.state.book)) == (8, 4)
    sat.press("o", "enter", "o", " ", "enter")
    assert sat.state.message == "This paragraph was empty, and wasn't added."
    assert (sat.state.version, len(sat.state.book)) == (8, 4)


def test_q_with_an_edited_line_is_a_letter(moon: Path, sit: Sit) -> None:
    sat = sit(moon)
    sat.press("enter", "q", "q", "enter")
    assert not sat.state.is_over
    assert sat.lines[8] == "qqThe moon is far away."
    sat.press("q")
    assert sat.state.is_over


@pytest.mark.parametrize("key", sorted(set(KEYS) - {"q"}))
def test_each_key_on_an_empty_paragraph(moon: Path, sit: Sit, key: str) -> None:
    with Session(moon) as session:
        session.correct(1, 0, 21, "")
    sat = sit(moon)
    sat.press(key)
    check(sat)
    if sat.state.typed:
        sat.press("enter")
        check(sat)


def test_no_cells_are_chosen_where_there_are_none(moon: Path, sit: Sit) -> None:
    with Session(moon) as session:
        session.correct(1, 0, 21, "")
    sat = sit(moon)
    for key in (" ", "m"):
        sat.press(key)
        assert sat.state.message == "There is no cell here that a mark could stand on."
        assert sat.state.anchor is None and sat.state.typed is None


@pytest.mark.parametrize("key", sorted(set(KEYS) - {"q"}))
def test_each_key_in_an_empty_book(empty_book: Path, sit: Sit, key: str) -> None:
    sat = sit(empty_book)
    sat.press(key, key)
    check(sat)
    assert sat.state.version == 0


WORDS = ["enter", "escape", "y", "n", "backspace", "delete", "e", " ", "\u0301", "月"]


@settings(
    max_examples=40,
    deadline=None,
    suppress_health_check=[HealthCheck.function_scoped_fixture],
)
@given(
    keys=st.lists(st.sampled_from([*KEYS, *WORDS, "two lines"]), max_size=40),
    size=st.sampled_from(SIZES),
)
def test_any_keys_leave_a_book_that_is_shown_as_it_is(
    moon_once: Path, tmp_path: Path, keys: list[str], size: Size
) -> None:
    folder = tmp_path / "desk"
    shutil.rmtree(folder, ignore_errors=True)
    folder.mkdir()
    book = Path(shutil.copyfile(moon_once, folder / "moon.braildesk"))
    before = os.getcwd()
    os.chdir(folder)
    desk = Desk(book)
    try:
        sat = Sat(desk, desk.first_state(size, "anna", False))
        for key in keys:
            if key == "two lines":
                sat.state = desk.paste(sat.state, "sea\nmoon")
            else:
                sat.press(key)
            if sat.state.away:
                sat.state = desk.away(sat.state, lambda line: None)
            check(sat)
            if sat.state.is_over:
                break
        check_book(sat)
    finally:
        desk.close()
        os.chdir(before)
