"""What is kept of keys that nobody carries out any more, from a state that is written by hand."""

from dataclasses import replace

import pytest

from scribe.screen.field import Field, Purpose
from scribe.screen.keyboard import Pasted, Stroke
from scribe.screen.state import Pages, Size, State, lines_typed
from scribe.screen.unread import rest_of, unread_of

STATE = State("moon.braildesk", 7, (), ("en",), Size(80, 24), table="en")
TYPED = replace(STATE, typed=Field(Purpose.AFTER, "The moon", 8))


@pytest.mark.parametrize(
    "keys, lines",
    [
        ("s", "The moons"),
        ("s backspace", "The moon"),
        ("s backspace n backspace s h", "The moonsh"),
        ("home A c-e s", "AThe moons"),
        ("f5 s tab", "The moons"),
        ("tab s h", "The moonsh"),
        ("s tab enter tab I t", "The moons|It"),
        ("c-w s u n", "The sun"),
        ("enter backspace I t", "The moon|It"),
        ("enter I t backspace s left enter W e", "The moon|Is|We"),
        ("escape s", "The moon"),
    ],
)
def test_a_text_is_kept_with_what_keys_took_out_of_it(keys: str, lines: str) -> None:
    rest = rest_of(TYPED, keys.split())
    assert lines_typed(rest.state) == tuple(lines.split("|"))
    assert rest.letters == ("s" if keys.startswith("escape") else "")
    assert rest.state.message == TYPED.message


def test_a_text_that_is_typed_while_nothing_is_done_is_kept_after_a_key_in_it() -> None:
    came: list[Stroke] = [
        "enter",
        Pasted("It stood. It sett", is_keys=True),
        "backspace",
        ".",
    ]
    unread = unread_of(TYPED, came)
    assert unread is not None and unread.lines == "It stood. It set."
    assert unread.rest.text == ""


def test_letters_at_a_list_above_a_text_are_no_part_of_it_and_are_said() -> None:
    keys = Pages("Keys while typing.", ("Enter: keeps it",))
    rest = rest_of(replace(TYPED, pages=keys), ["s", "enter", "h"])
    assert lines_typed(rest.state) == ("The moon",)
    assert (rest.letters, rest.state.ended) == ("sh", None)
