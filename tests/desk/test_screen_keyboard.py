"""Keys as a terminal sends them: each is one key, and no text that is typed goes by one.

The keys are those of the tables of terminals (terminfo), those that prompt_toolkit has, and each
character with Alt or Ctrl.
"""

import re
import subprocess
from dataclasses import replace
from pathlib import Path

import pytest
from prompt_toolkit.input.ansi_escape_sequences import ANSI_SEQUENCES

from braildesk import Paragraph, Session, Style
from braildesk.desk.highlighting import Highlighted
from braildesk.desk.readings import ParagraphReading
from braildesk.text.spans import Span

from scribe.screen import keyboard as keyboards
from scribe.screen.drawing import draw
from scribe.screen.field import Field, Purpose
from scribe.screen.keyboard import Keyboard, Pasted
from scribe.screen.keys import step
from scribe.screen.state import Opening, Size, State
from terminal import Open

PRINT = "The moon is far away."
#: The text that is typed, with the cursor after “old”.
TYPED = "The old moon is far."
PLACE = 7
#: What the keys leave of it that take something out; all others leave it as it is.
LEFT = {
    "backspace": "The ol moon is far.",
    "delete": "The oldmoon is far.",
    "c-d": "The oldmoon is far.",
    "c-w": "The  moon is far.",
    "a-backspace": "The  moon is far.",
    "a-d": "The old is far.",
    "c-u": " moon is far.",
    "c-k": "The old",
}
TERMINALS = "xterm-256color linux screen-256color tmux-256color rxvt vt220".split()
SIZES = [Size(80, 24), Size(40, 12), Size(200, 60)]


def state_of(size: Size) -> State:
    """A screen on which a text is typed."""
    its = Paragraph(1, "en", Style.BODY, False, False, len(PRINT))
    return State(
        "moon.braildesk",
        7,
        (its,),
        ("en",),
        size,
        openings={1: Opening(PRINT, 0)},
        reading=ParagraphReading(its, PRINT, "⠠⠞⠓⠑⠀⠍⠕⠕⠝⠀⠊⠎⠀⠋⠁⠗⠀⠁⠺⠁⠽⠲", ()),
        highlighted=Highlighted(Span(0, 1), Span(0, 2)),
        table="en",
        typed=Field(Purpose.EDIT, TYPED, PLACE),
    )


def of_terminfo(terminal: str) -> set[str]:
    """What the keys of a terminal send."""
    done = subprocess.run(
        ["infocmp", "-1", "-x", terminal], capture_output=True, text=True, check=True
    )
    found = re.findall(r"^\tk\w+=(.*),$", done.stdout, re.MULTILINE)
    return {written_out(each) for each in found}


def written_out(escaped: str) -> str:
    """A sequence of terminfo with its escapes as the characters that they stand for."""

    def character(found: re.Match[str]) -> str:
        number, named, control = found.groups()
        if control:
            return chr(ord(control) ^ 0x40)
        return chr(int(number, 8)) if number else named.replace("E", "\x1b")

    return re.sub(r"\\(\d{3})|\\(.)|\^(.)", character, escaped)


def all_sequences() -> set[str]:
    """What each key with Alt or Ctrl and each function key sends; Enter and Escape are none."""
    found = set(ANSI_SEQUENCES) - {"\x1b[200~"}
    for terminal in TERMINALS:
        found |= of_terminfo(terminal)
    characters = [*map(chr, range(0x7F)), "é", "月"]
    found |= {"\x1b" + each for each in characters if each not in "\x1b[O"}
    found |= {"\x1b" + each for each in found if each.startswith("\x1b[")}
    keyboard = Keyboard()
    keys = {each: keyboard.strokes(each) + keyboard.last() for each in found}
    return {each for each in found if keys[each] not in (["enter"], ["escape"])}


@pytest.mark.parametrize("size", SIZES, ids=lambda size: f"{size.columns}")
def test_no_key_takes_away_the_text_that_is_typed(size: Size) -> None:
    state, sequences = state_of(size), all_sequences()
    assert len(sequences) > 500
    for sequence in sorted(sequences):
        for parts in ([sequence], list(sequence)):
            keyboard = Keyboard()
            strokes = [each for part in parts for each in keyboard.strokes(part)]
            strokes += keyboard.last()
            assert len(strokes) == 1, (sequence, strokes)
            (key,) = strokes
            assert isinstance(key, str)
            if parts == [sequence]:
                check(state, key, sequence)


def check(state: State, key: str, sequence: str) -> None:
    """The text is there after a key, on the screen too, or what was cut out of it comes back."""
    taken = step(state, key)
    typed = taken.state.typed
    assert (typed is not None, taken.asked) == (True, None), (sequence, key)
    assert typed is not None
    text = typed.text
    if len(key) == 1 and key >= " " and not "\x7f" <= key < "\xa0":
        assert text == f"The old{key} moon is far.", (sequence, key)
        return
    assert text == LEFT.get(key, TYPED), (sequence, key)
    shown = taken.state
    if key in ("f1", "a-?"):
        # the keys stand in place of the text until Escape
        assert shown.pages and shown.pages.title == "Keys while typing."
        shown = step(shown, "escape").state
        assert shown.typed == state.typed
    assert text.strip() in draw(shown).texts()[size_line(state)]
    is_moved = typed != state.typed or taken.state.pages
    assert is_moved or taken.state.message, (sequence, key)
    if key.startswith(("c-", "a-")) and text != TYPED and key != "c-d":
        back = step(taken.state, "c-y").state.typed
        assert back and back.text == TYPED, (sequence, key)


def size_line(state: State) -> int:
    """The line of the screen on which the text stands, counted from 0."""
    return state.list_lines + 2


@pytest.mark.parametrize(
    "key",
    [
        *(f"a-{each}" for each in "bfdqsuvx1é"),
        *("a-enter", "a-left", "a-backspace", "a-up", "c-c", "c-q", "f5", "unknown"),
    ],
)
def test_a_key_that_isnt_bound_does_nothing_and_says_so(key: str) -> None:
    state = replace(state_of(SIZES[0]), typed=None)
    taken = step(state, key)
    said = "That key does nothing here. ? shows the keys."
    if key == "a-up":
        said = "It is the first paragraph of the book."
    assert taken.asked is None
    assert taken.state == state.saying(said)


@pytest.mark.parametrize(
    "sequence, keys",
    [
        ("\x1bb", ["a-b"]),
        ("\x1bB", ["a-B"]),
        ("\x1b\x7f", ["a-backspace"]),
        ("\x1b\r", ["a-enter"]),
        ("\x1b\x1b[A", ["a-up"]),
        ("\x1b[1;3D", ["a-left"]),
        ("\x1b[1;9D", ["a-left"]),
        ("\x1b[1;7D", ["a-c-left"]),
        ("\x1b[5D", ["c-left"]),
        ("\x1bOd", ["c-left"]),
        ("\x1b[1;2A", ["s-up"]),
        ("\x1b[3;5~", ["c-delete"]),
        ("\x1b[5^", ["c-pageup"]),
        ("\x1b[7$", ["s-home"]),
        ("\x1bOP", ["f1"]),
        ("\x1b[[E", ["f5"]),
        ("\x1b[24;2~", ["s-f12"]),
        ("\x1b[97;5u", ["unknown"]),
        ("\x1b[?62;1;4c", ["unknown"]),
        ("\x1b[12\x1b[A", ["unknown", "up"]),
        (f"\x1b[{'9' * 5_000}~", ["unknown"]),
        ("a\x1b[Ab", ["a", "up", "b"]),
        ("\x1b\x1b[200~one\x1b[201~", ["escape", Pasted("one")]),
        ("\x1b[200~one\x1b[Atwo\x1b[201~x", [Pasted("one\x1b[Atwo"), "x"]),
    ],
)
def test_what_a_terminal_sends_is_the_key_by_its_name(
    sequence: str, keys: list[str]
) -> None:
    keyboard = Keyboard()
    assert keyboard.strokes(sequence) == keys
    one_by_one = [key for each in sequence for key in keyboard.strokes(each)]
    assert (one_by_one, keyboard.last()) == (keys, [])


@pytest.mark.parametrize(
    "sequence, key",
    [("\x1b", "escape"), ("\x1b\x1b", "escape"), ("\x1b[", "a-["), ("\x1bO", "a-O")],
)
def test_what_nothing_follows_is_escape_or_a_key_with_alt(
    sequence: str, key: str
) -> None:
    keyboard = Keyboard()
    assert keyboard.strokes(sequence) == []
    assert (keyboard.last(), keyboard.last()) == ([key], [])


@pytest.mark.parametrize("end", ["", "\x1b", "\x1b[201"])
def test_a_paste_whose_end_never_comes_is_text_and_no_other_rest_is(end: str) -> None:
    keyboard = Keyboard()
    assert keyboard.strokes("\x1b[200~It rose." + end) + keyboard.last() == []
    assert (keyboard.rest(), keyboard.rest()) == ([Pasted("It rose.")], [])
    assert keyboard.strokes("\x1b[20") + keyboard.rest() == []


def test_a_paste_may_be_ended_and_keys_that_were_pressed_in_it_are_no_text() -> None:
    keyboard = Keyboard()
    assert keyboard.strokes("s") + keyboard.end_paste() == ["s"]
    pressed = ["\x1b[200~It rose.\rIt", "\x1b[A", "\x7f", "\x1b", "\x03", "\t", " set."]
    assert [stroke for each in pressed for stroke in keyboard.strokes(each)] == []
    assert keyboard.is_pasting
    text = "It rose.\rIt\t set."
    assert keyboard.end_paste() == [Pasted(text, has_end=False)]
    assert not keyboard.is_pasting
    ends = "\x1b[201~" * 2_000
    assert keyboard.strokes(f"s{ends}x{ends}") == ["s", "x"]


def test_a_paste_is_waited_for_up_to_so_many_characters(
    monkeypatch: pytest.MonkeyPatch,
) -> None:
    monkeypatch.setattr(keyboards, "_MOST", 20)
    keyboard = Keyboard()
    assert keyboard.strokes("\x1b[200~It rose.") == []
    assert keyboard.strokes(" It set.") == [Pasted("It rose. It set.", has_end=False)]
    assert keyboard.strokes("s") == ["s"]


def test_keys_with_alt_at_the_terminal_leave_the_text_and_escape_alone_ends_it(
    moon: Path, at: Open
) -> None:
    terminal = at(moon)
    terminal.wait("? shows the keys.")
    terminal.keys("enter", "end", "a-b", "Oh")
    terminal.wait("The moon is far Ohaway.")
    terminal.keys("a-s", "a-u", "a-q", "a-enter", "a-1", "f5")
    terminal.send("\x1b[1;4Z")
    terminal.wait("That key does nothing here. Enter ends what is typed")
    terminal.keys("c-w", "c-y", "c-y")
    terminal.wait("The moon is far OhOhaway.")
    terminal.keys("escape")
    terminal.wait("Given up.")
    terminal.keys("a-s", "a-b", "a-q")
    lines = terminal.wait("That key does nothing here. ? shows the keys.")
    assert lines[0] == "moon.braildesk, version 7, table en, nothing kept yet"
    terminal.keys("q")
    assert terminal.ended() == 0
    with Session(moon) as session:
        assert session.last_version == 7
