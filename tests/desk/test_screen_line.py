"""Keys in a line that is typed, as any editor has them: by words, cut out, and put in again."""

from dataclasses import replace

import pytest

from scribe.screen.field import Field, Purpose
from scribe.screen.keys import step
from scribe.screen.state import Size, State

STATE = State("moon.braildesk", 7, (), ("en",), Size(80, 24), table="en")


def after(keys: str, text: str) -> str:
    """The line after keys, with a bar at the cursor, as in the text before them."""
    front, _, back = text.partition("|")
    state = replace(STATE, typed=Field(Purpose.AFTER, front + back, len(front)))
    for key in keys.split():
        state = step(state, key).state
    assert state.typed is not None
    place = state.typed.place
    return f"{state.typed.text[:place]}|{state.typed.text[place:]}"


@pytest.mark.parametrize(
    "keys, before, wanted",
    [
        ("a-b", "One, two's end.|", "One, two's |end."),
        ("a-b a-b", "One, two's end.|", "One, two'|s end."),
        ("a-b a-b a-b a-b a-b", "One, two's end.|", "|One, two's end."),
        ("a-f", "|One, two's", "One|, two's"),
        ("a-f a-f a-f", "|One, two's.", "One, two's|."),
        ("a-f a-f a-f a-f", "|One, two's.", "One, two's.|"),
        ("a-left", "One, two's end.|", "One, two's |end."),
        ("a-left a-left", "One, two's end.|", "One, |two's end."),
        ("c-left c-left", "One, two's end.|", "One, |two's end."),
        ("a-right", "|One, two's", "One, |two's"),
        ("c-right", "|One, two's", "One, |two's"),
        ("c-a", "One t|wo", "|One two"),
        ("home", "One t|wo", "|One two"),
        ("c-e", "One t|wo", "One two|"),
        ("end", "One t|wo", "One two|"),
        ("c-b", "One t|wo", "One |two"),
        ("c-f", "One t|wo", "One tw|o"),
        ("c-d", "One t|wo", "One t|o"),
        ("a-b", "a cafe\u0301|", "a |cafe\u0301"),
        ("a-f", "|e\u0301a b", "e\u0301a| b"),
    ],
)
def test_keys_move_in_the_line(keys: str, before: str, wanted: str) -> None:
    assert after(keys, before) == wanted


@pytest.mark.parametrize(
    "keys, before, wanted",
    [
        ("c-w", "One, two's| end", "One, | end"),
        ("c-w", "One, two's  |end", "One, |end"),
        ("a-backspace", "One, two's| end", "One, two'| end"),
        ("a-backspace", "One,  |end", "|end"),
        ("a-d", "One|, two's", "One|'s"),
        ("a-d", "|e\u0301t, two", "|, two"),
        ("c-u", "One, |two", "|two"),
        ("c-k", "One, |two", "One, |"),
        ("c-w c-y", "One, two's| end", "One, two's| end"),
        ("c-w c-w c-y", "One two three|", "One two three|"),
        ("a-d a-d end c-y", "|One two three", " threeOne two|"),
        ("c-k home c-y", "One |two", "two|One "),
        ("c-w home c-w c-y", "One two|", "two|One "),
        ("c-u c-y c-y", "Ab|c", "AbAb|c"),
    ],
)
def test_keys_cut_words_out_and_put_them_in(
    keys: str, before: str, wanted: str
) -> None:
    assert after(keys, before) == wanted


def test_what_is_cut_is_said_and_comes_back_in_another_line() -> None:
    state = replace(STATE, typed=Field(Purpose.AFTER, "It rose.", 8))
    state = step(state, "c-u").state
    assert state.message == "“It rose.” was cut. Ctrl-Y puts it in."
    state = step(state, "c-u").state
    assert state.message == "There is nothing to cut there."
    other = replace(state, typed=Field(Purpose.NOTE))
    back = step(other, "c-y").state.typed
    assert back == Field(Purpose.NOTE, "It rose.", 8)


def cut_out(state: State, purpose: Purpose, text: str) -> State:
    """The state after all of a text was cut that is typed for a purpose."""
    typed = Field(purpose, text, len(text))
    return step(replace(state, typed=typed), "c-u").state


def put_in(state: State, purpose: Purpose) -> str:
    """What Ctrl-Y puts into a text for a purpose."""
    typed = step(replace(state, typed=Field(purpose)), "c-y").state.typed
    return typed.text if typed else ""


@pytest.mark.parametrize(
    "cuts, for_book, asked",
    [
        ([(Purpose.EDIT, "It rose."), (Purpose.WORDS, "moon")], "It rose.", "moon"),
        ([(Purpose.WORDS, "moon"), (Purpose.EDIT, "It rose.")], "It rose.", "It rose."),
        ([(Purpose.FOLDER, "pages")], "pages", "pages"),
        ([(Purpose.NOTE, "which?")], "which?", "which?"),
    ],
)
def test_what_is_cut_out_of_an_answer_takes_no_place_of_what_was_cut_for_the_book(
    cuts: list[tuple[Purpose, str]], for_book: str, asked: str
) -> None:
    state = STATE
    for purpose, text in cuts:
        state = cut_out(state, purpose, text)
    assert put_in(state, Purpose.AFTER) == put_in(state, Purpose.NOTE) == for_book
    assert put_in(state, Purpose.WORDS) == asked


def test_where_nothing_was_cut_nothing_is_put_in() -> None:
    state = replace(STATE, typed=Field(Purpose.AFTER, "It", 2))
    taken = step(state, "c-y").state
    assert (taken.typed, taken.message) == (
        state.typed,
        "Nothing was cut yet, so nothing was put in.",
    )
