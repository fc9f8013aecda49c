"""What is typed where the screen asks for words, numbers and names: it is kept, and Up brings it back."""

import os
import signal
import time
from pathlib import Path

import pytest

from braildesk import requests
from braildesk.desk.drafts import Drafts

from scribe.screen.field import Field, Purpose
from scribe.screen.keys import step
from scribe.screen.state import Size, State
from sitting import Sat, Sit
from terminal import Open, once_free
from tool import WAIT_SECONDS

#: The keys that have each of them be typed.
ASKS = {
    Purpose.NUMBER: "g",
    Purpose.TABLE: "t",
    Purpose.WORDS: "/",
    Purpose.SIZE: "w",
    Purpose.FOLDER: "x",
    Purpose.TEXT_FILE: "i",
    Purpose.OLD: "c",
    Purpose.PAGES: "V v",
}


def a_second_goes_by(sat: Sat) -> None:
    """What is typed is kept, as each second."""
    sat.state = sat.desk.save_draft(sat.state)


def test_what_is_typed_as_an_answer_is_kept_before_enter_and_comes_back_by_up(
    moon: Path, sit: Sit
) -> None:
    sat = sit(moon)
    for purpose, keys in ASKS.items():
        sat.press(*keys.split(), "c-u")
        assert sat.state.typed and sat.state.typed.purpose is purpose
        sat.write(f"{purpose.name} typed")
        a_second_goes_by(sat)
        assert Drafts(moon).answers()[purpose.name] == f"{purpose.name} typed"
        sat.press("escape", *(["escape"] if purpose is Purpose.PAGES else []))
    sat.desk.close()
    # nothing else is kept at an end by SIGKILL
    sat = sit(moon)
    for purpose, keys in ASKS.items():
        sat.press(*keys.split(), "c-u", "up")
        assert sat.state.typed and sat.state.typed.text == f"{purpose.name} typed"
        sat.press("escape", *(["escape"] if purpose is Purpose.PAGES else []))


@pytest.mark.parametrize(
    "keys, words, said",
    [
        ("", ("mon", ""), "“mon” was to be changed, which may not be done."),
        (
            "enter m o o n",
            ("mon", "moon"),
            "“mon” was to be changed to “moon”, which may not be done.",
        ),
    ],
)
def test_words_that_were_to_be_changed_are_offered_at_the_next_opening(
    moon: Path, sit: Sit, keys: str, words: tuple[str, str], said: str
) -> None:
    sat = sit(moon)
    sat.press("c", *"mon", *keys.split())
    a_second_goes_by(sat)
    assert Drafts(moon).words() == words
    sat.desk.close()
    sat = sit(moon)
    assert sat.state.message.startswith(
        f"{said} Up after c brings back what was typed."
    )
    # they wait until c has them
    sat.press("down", "up", "c", "up")
    assert sat.state.typed and sat.state.typed.text == "mon"
    sat.press("enter", "up")
    assert sat.state.typed and sat.state.typed.text == words[1]
    sat.press("escape")
    assert Drafts(moon).words() is None
    assert Drafts(moon).answers()["OLD"] == "mon"


def test_up_puts_back_what_it_took_the_place_of(moon: Path, sit: Sit) -> None:
    sat = sit(moon)
    sat.press("/", "up")
    assert sat.state.message == "Nothing else was typed for this before."
    sat.press(*"sea", "enter", "/", *"tide", "up")
    assert sat.state.typed == Field(Purpose.WORDS, "sea", 3)
    sat.press("up")
    assert sat.state.typed == Field(Purpose.WORDS, "tide", 4)


def test_up_does_not_say_that_nothing_else_was_typed_where_an_older_one_was(
    moon: Path, sit: Sit
) -> None:
    sat = sit(moon)
    sat.press("/", *"sea", "enter", "/", *"tide", "enter", "/", "up")
    assert sat.state.typed == Field(Purpose.WORDS, "tide", 4)
    sat.press("up")
    assert sat.state.typed == Field(Purpose.WORDS, "tide", 4)
    assert sat.state.message == "No older one is kept."


@pytest.mark.parametrize("keys, purpose", [("/", Purpose.WORDS), ("c", Purpose.OLD)])
def test_what_is_typed_as_an_answer_outlives_a_session_that_ends_meanwhile(
    moon: Path, sit: Sit, keys: str, purpose: Purpose
) -> None:
    sat = sit(moon)
    sat.press(*keys.split(), *"far away")
    os.kill(sat.desk.pid, signal.SIGKILL)
    with once_free(moon):
        sat.state = sat.desk.lost(sat.state)
    assert sat.state.is_lost
    sat.press("enter")
    assert not sat.state.is_lost
    a_second_goes_by(sat)
    assert Drafts(moon).answers()[purpose.name] == "far away"
    sat.press(*keys.split(), "up")
    assert sat.state.typed and sat.state.typed.text == "far away"


def test_what_is_typed_as_an_answer_outlives_a_book_that_another_program_changed(
    moon: Path, sit: Sit
) -> None:
    sat = sit(moon)
    sat.press("c", *"far", "enter", *"near")
    os.kill(sat.desk.pid, signal.SIGKILL)
    with once_free(moon) as session:
        session.ask(requests.Strike(1))
    sat.state = sat.desk.lost(sat.state)
    assert (sat.state.is_lost, sat.state.typed) == (False, None)
    a_second_goes_by(sat)
    assert Drafts(moon).words() == ("far", "near")
    sat.press("c", "up", "enter", "up")
    assert sat.state.typed and sat.state.typed.text == "near"


def test_a_size_that_stands_there_takes_the_place_of_none_that_was_typed(
    moon: Path, sit: Sit
) -> None:
    sat = sit(moon)
    sat.press("w", "c-u", *"32 24 or so", "enter", "escape")
    sat.press("w")
    assert sat.state.typed
    there = sat.state.typed
    a_second_goes_by(sat)
    assert Drafts(moon).answers()["SIZE"] == "32 24 or so"
    sat.press("escape", "w", "up")
    assert sat.state.typed and sat.state.typed.text == "32 24 or so"
    sat.press("up")
    assert sat.state.typed == there


def test_in_a_note_up_brings_nothing_back(moon: Path, sit: Sit) -> None:
    sat = sit(moon)
    sat.press("/", *"moon", "enter", "m", "up")
    assert sat.state.message.startswith("That key does nothing here.")
    assert sat.state.typed and sat.state.typed.text == ""


def test_the_keys_of_an_answer_name_up() -> None:
    state = State(
        "moon.braildesk", 1, (), ("en",), Size(80, 24), typed=Field(Purpose.WORDS)
    )
    shown = step(state, "f1").state
    assert shown.pages and shown.pages.lines[0].startswith("Up: what was typed")


def test_words_that_are_looked_for_outlive_a_terminal_that_is_killed(
    moon: Path, at: Open
) -> None:
    terminal = at(moon)
    terminal.wait("? shows the keys.")
    terminal.keys("/", "far away")
    end = time.monotonic() + WAIT_SECONDS
    while Drafts(moon).answers().get("WORDS") != "far away":
        assert time.monotonic() < end
        time.sleep(0.01)
    terminal.send_signal(signal.SIGKILL)
    assert terminal.ended() == -signal.SIGKILL
    again = at(moon)
    again.wait("? shows the keys.")
    again.keys("/", "up")
    again.wait("far away")
    again.keys("escape", "q")
    assert again.ended() == 0
