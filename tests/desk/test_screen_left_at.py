"""The book opens where it was left; and what stands in the place of that note is no fault."""

import errno
import json
import os
import shutil
import signal
import time
from pathlib import Path

import pytest

from braildesk import Session
from braildesk.desk.draft import Aim, Draft
from braildesk.desk.drafts import Begun, Drafts, LeftAt
from braildesk.desk.own_folder import MOST_BYTES, OwnFolder

from scribe.screen.state import Pane, Size
from sitting import Sat, Sit
from terminal import Open, once_free
from tool import WAIT_SECONDS

OPENED_THERE = "The book is open where it was left. ? shows the keys."


def left(sat: Sat) -> None:
    """Ends at the screen."""
    sat.desk.keep_place(sat.state)
    sat.desk.close()


def noted(book: Path) -> Path:
    """The file that says where a book was left."""
    place = Drafts(book).place
    return place.with_name(place.name.replace("unsent", Begun.LEFT_AT.value))


def test_the_book_opens_at_the_paragraph_and_character_where_it_was_left(
    moon: Path, sit: Sit
) -> None:
    sat = sit(moon)
    sat.press("down", "down", "c-right", "right")
    left(sat)
    again = sit(moon)
    assert (again.state.chosen, again.state.place) == (2, 7)
    assert again.state.message == OPENED_THERE
    assert "“ ” ⠀, character 8, cell 9" in again.lines
    again.press("tab", "right", "z", "d")
    left(again)
    third = sit(moon)
    assert (third.state.chosen, third.state.pane) == (2, Pane.CELLS)
    assert third.state.place == again.state.place
    assert (third.state.is_quiet, third.state.has_dots) == (True, True)
    third.press("z", "d", "tab", "c-home")
    left(third)
    # at the front there is nothing to be said
    assert sit(moon).state.message == "? shows the keys."


def test_a_paragraph_that_got_shorter_is_opened_at_its_end(
    moon: Path, sit: Sit
) -> None:
    sat = sit(moon)
    sat.press("down", "end")
    left(sat)
    with Session(moon) as session:
        session.correct(2, 3, 6, "")
    again = sit(moon)
    assert (again.state.chosen, again.state.place) == (1, 2)


@pytest.mark.parametrize("lines", [1, 2])
def test_what_is_asked_where_the_book_was_left_is_in_sight_on_one_or_two_lines(
    moon: Path, sit: Sit, lines: int
) -> None:
    sat = sit(moon)
    sat.press("down")
    left(sat)
    Drafts(moon).save(Draft(Aim.EDIT, 2, "en", "The Tides", "The Tide"))
    again = sit(moon, size=Size(40, lines))
    assert (again.state.chosen, again.state.message) == (1, "")
    assert again.lines[-1] == "A text of paragraph 2 was typed and…"


def test_a_text_that_waits_is_offered_at_its_own_paragraph(
    moon: Path, sit: Sit
) -> None:
    sat = sit(moon)
    sat.press("down", "down")
    left(sat)
    Drafts(moon).save(Draft(Aim.EDIT, 2, "en", "The Tides", "The Tide"))
    again = sit(moon)
    assert again.state.chosen == 1
    assert again.state.question and again.state.question.draft
    assert again.state.message == ""


WHOLE = {
    "paragraph": 2,
    "place": 3,
    "is_in_cells": False,
    "is_quiet": False,
    "has_dots": False,
}
FORGED = {
    "nothing": b"",
    "no JSON": b"\xff\x00{",
    "a list": b"[2, 3]",
    "no values": b"{}",
    "a paragraph that isn't there": json.dumps({**WHOLE, "paragraph": 99}).encode(),
    "no number": json.dumps({**WHOLE, "paragraph": True}).encode(),
    "a number below all": json.dumps({**WHOLE, "place": -1}).encode(),
    "a number above all": json.dumps({**WHOLE, "paragraph": 10**30}).encode(),
    "a word": json.dumps({**WHOLE, "is_quiet": "yes"}).encode(),
    "deep lists": b"[" * 100_000,
    "too much": b" " * (MOST_BYTES + 1),
}


@pytest.mark.parametrize("what", FORGED)
def test_a_forged_note_is_no_fault_and_the_book_opens_at_its_front(
    moon: Path, sit: Sit, what: str
) -> None:
    path = noted(moon)
    path.parent.mkdir(mode=0o700, parents=True, exist_ok=True)
    path.write_bytes(FORGED[what])
    sat = sit(moon)
    assert (sat.state.chosen, sat.state.place) == (0, 0)
    assert sat.state.message == "? shows the keys."
    # it is written over, and nothing else is kept of it
    sat.press("down")
    left(sat)
    assert Drafts(moon).left_at() == LeftAt(2, 0, version=7)
    path.unlink()


def test_a_link_or_a_folder_in_its_place_is_neither_followed_nor_a_fault(
    moon: Path, sit: Sit, tmp_path: Path
) -> None:
    path = noted(moon)
    path.parent.mkdir(mode=0o700, parents=True, exist_ok=True)
    other = tmp_path / "other"
    other.write_text(json.dumps(WHOLE))
    path.symlink_to(other)
    sat = sit(moon)
    assert sat.state.chosen == 0
    sat.press("down")
    left(sat)
    assert other.read_text() == json.dumps(WHOLE)
    assert not path.is_symlink() and Drafts(moon).left_at() == LeftAt(2, 0, version=7)
    path.unlink()
    path.mkdir()
    again = sit(moon)
    assert again.state.chosen == 0
    left(again)
    path.rmdir()


def test_where_nothing_can_be_kept_the_book_is_left_all_the_same(
    moon: Path, sit: Sit, tmp_path: Path, monkeypatch: pytest.MonkeyPatch
) -> None:
    (tmp_path / "file").write_text("no folder")
    monkeypatch.setenv("XDG_STATE_HOME", str(tmp_path / "file"))
    sat = sit(moon)
    sat.press("down")
    left(sat)
    assert Drafts(moon).left_at() is None


def test_a_book_whose_place_found_no_room_is_not_opened_where_it_was_left_before(
    moon: Path, sit: Sit, monkeypatch: pytest.MonkeyPatch
) -> None:
    sat = sit(moon)
    sat.press("down")
    left(sat)

    def full(folder: OwnFolder, name: str, data: bytes) -> None:
        raise OSError(errno.ENOSPC, os.strerror(errno.ENOSPC))

    with monkeypatch.context() as patched:
        patched.setattr(OwnFolder, "write", full)
        sat = sit(moon)
        sat.press("down")
        left(sat)
    again = sit(moon)
    assert again.state.chosen == 0
    assert "where it was left" not in again.state.message


def test_of_a_book_that_was_changed_since_it_is_not_said_that_it_is_open_where_it_was_left(
    moon: Path, sit: Sit
) -> None:
    sat = sit(moon)
    sat.press("down", "down", "right")
    left(sat)
    with Session(moon) as session:
        session.correct(3, 0, 6, "Each")
    again = sit(moon)
    assert (again.state.chosen, again.state.place) == (2, 1)
    assert again.state.message == "? shows the keys."
    left(again)
    assert sit(moon).state.message == OPENED_THERE


def test_a_copy_of_a_book_opens_at_its_front(moon: Path, sit: Sit) -> None:
    sat = sit(moon)
    sat.press("down")
    left(sat)
    copy = Path(shutil.copyfile(moon, moon.with_name("copy.braildesk")))
    assert sit(copy).state.chosen == 0


def test_a_book_that_takes_the_place_of_another_one_opens_where_it_was_left_itself(
    moon: Path, sit: Sit
) -> None:
    later = Path(shutil.copyfile(moon, moon.with_name("later.braildesk")))
    for book, keys in ((moon, ["down"]), (later, ["down", "down", "right"])):
        sat = sit(book)
        sat.press(*keys)
        left(sat)
    later.replace(moon)
    again = sit(moon)
    assert (again.state.chosen, again.state.place) == (2, 1)
    left(again)
    # one that was never open is opened where that was left whose place it takes, as one from a backup
    shutil.copyfile(moon, later)
    later.replace(moon)
    found = sit(moon).state
    assert found.chosen == 2
    # and it isn't said, since it may be another one of the same version
    assert found.message == "? shows the keys."


def test_a_book_opens_where_it_rested_before_scribe_was_killed(
    moon: Path, at: Open, sit: Sit
) -> None:
    terminal = at(moon, 40, 12)
    terminal.wait("? shows the keys.")
    terminal.keys("down", "right", "z")
    terminal.wait("Now without the list, and without")
    end = time.monotonic() + WAIT_SECONDS
    while Drafts(moon).left_at() != LeftAt(2, 1, is_quiet=True, version=7):
        assert time.monotonic() < end
        time.sleep(0.01)
    terminal.send_signal(signal.SIGKILL)
    assert terminal.ended() == -signal.SIGKILL
    once_free(moon).close()
    sat = sit(moon)
    assert (sat.state.chosen, sat.state.place, sat.state.is_quiet) == (1, 1, True)


def test_a_terminal_that_is_closed_leaves_the_place_too(moon: Path, at: Open) -> None:
    terminal = at(moon, 40, 12)
    terminal.wait("? shows the keys.")
    terminal.keys("down", "right")
    terminal.wait("“h” ⠓, character 2, cell 3")
    terminal.hang_up()
    terminal.left()
    again = at(moon, 40, 12)
    again.wait("“h” ⠓, character 2, cell 3")
    assert again.lines[2] == ">    2 body: The Tides"
    again.keys("c-home", "q")
    assert again.ended() == 0
    assert Drafts(moon).left_at() == LeftAt(1, 0, version=7)
