"""What a screen reader says of each key: the rows that change, in their order, and where the cursor is.

A row is also drawn anew where only its looks change, as where the cursor leaves a word; these rows
are counted for each key of a proofreader's loop, so that nothing else is drawn.
"""

from dataclasses import dataclass
from pathlib import Path

import pytest

from braildesk import Session

from scribe.screen.drawing import draw
from scribe.screen.state import Size
from sitting import Sat, Sit

MOON, MOON_CAPITAL = "⠠⠞⠓⠑⠀⠍⠕⠕⠝⠀⠊⠎⠀⠋⠁⠗⠀⠁⠺⠁⠽⠲", "⠠⠞⠓⠑⠀⠠⠍⠕⠕⠝⠀⠊⠎⠀⠋⠁⠗⠀⠁⠺⠁⠽⠲"
OON = "⠠⠞⠓⠑⠀⠕⠕⠝⠀⠊⠎⠀⠋⠁⠗⠀⠁⠺⠁⠽⠲"


@dataclass
class Heard:
    """A key, the rows of which the text changes, other rows that are drawn anew, and the cursor.

    Rows and columns are counted from 1.
    """

    key: str
    rows: dict[int, str]
    looks: tuple[int, ...]
    cursor: tuple[int, int]


#: A mark is gone to, dealt with and resolved, and the next one is gone to.
LOOP = {
    (40, 12): [
        Heard(
            "n",
            {
                8: "“m” ⠍, character 5, cell 6",
                9: "Mark 1, open, on “moon”: spelled so?",
                11: "",
            },
            (5, 6),
            (5, 5),
        ),
        Heard(
            "enter",
            {
                8: "You are editing paragraph 1.",
                12: "Enter keeps it  Escape doesn't  F1 keys",
            },
            (5, 6),
            (5, 5),
        ),
        Heard("delete", {5: "The oon is far away.", 6: OON}, (), (5, 5)),
        Heard("M", {5: "The Moon is far away.", 6: MOON_CAPITAL}, (), (5, 6)),
        Heard(
            "enter",
            {
                1: "last kept: correction 2 of paragraph 1",
                2: ">    1 body, 1 open mark: The Moon is…",
                8: "“o” ⠕, character 6, cell 8",
                9: "Mark 1, open, touched, on “Moon”:",
                10: "spelled so?",
                12: "? keys  q ends  Enter edits  o new  u…",
            },
            (5, 6),
            (5, 6),
        ),
        Heard(
            "r",
            {
                1: "table en, last kept: mark 1 resolved",
                2: ">    1 body: The Moon is far away.",
                9: "Mark 1, resolved, touched, on “Moon”:",
            },
            (5, 6),
            (5, 6),
        ),
        Heard(
            "n",
            {
                2: "     1 body: The Moon is far away.",
                3: ">    2 body, 1 open mark: The Tides",
                4: "-- Paragraph 2, body, table en ---------",
                5: "The Tides",
                6: "⠠⠞⠓⠑⠀⠠⠞⠊⠙⠑⠎",
                8: "“T” ⠠⠞, character 5, cells 6 to 7",
                9: "Mark 2, open, on “Tides”: which?",
                10: "",
            },
            (),
            (5, 5),
        ),
    ],
    (80, 24): [
        Heard(
            "n",
            {
                19: "“m” ⠍, character 5, cell 6",
                20: "Mark 1, open, on “moon”: spelled so?",
                23: "",
            },
            (9, 10),
            (9, 5),
        ),
        Heard(
            "enter",
            {
                19: "You are editing paragraph 1.",
                24: "Enter keeps it  Escape doesn't  F1 keys",
            },
            (9, 10),
            (9, 5),
        ),
        Heard("delete", {9: "The oon is far away.", 10: OON}, (), (9, 5)),
        Heard("M", {9: "The Moon is far away.", 10: MOON_CAPITAL}, (), (9, 6)),
        Heard(
            "enter",
            {
                1: "moon.braildesk, version 9, table en, last kept: correction 2 of paragraph 1",
                2: ">    1 body, 1 open mark: The Moon is far away.",
                19: "“o” ⠕, character 6, cell 8",
                20: "Mark 1, open, touched, on “Moon”: spelled so?",
                24: "? keys  q ends  Enter edits  o new  u undo  Tab cells  m mark  n next mark  /…",
            },
            (9, 10),
            (9, 6),
        ),
        Heard(
            "r",
            {
                1: "moon.braildesk, version 10, table en, last kept: mark 1 resolved",
                2: ">    1 body: The Moon is far away.",
                20: "Mark 1, resolved, touched, on “Moon”: spelled so?",
            },
            (9, 10),
            (9, 6),
        ),
        Heard(
            "n",
            {
                2: "     1 body: The Moon is far away.",
                3: ">    2 body, 1 open mark: The Tides",
                8: "-- Paragraph 2, body, table en -------------------------------------------------",
                9: "The Tides",
                10: "⠠⠞⠓⠑⠀⠠⠞⠊⠙⠑⠎",
                19: "“T” ⠠⠞, character 5, cells 6 to 7",
                20: "Mark 2, open, on “Tides”: which?",
            },
            (),
            (9, 5),
        ),
    ],
}
#: Two paragraphs are typed one after the other, and then no more.
CHAPTER = [
    Heard(
        "o",
        {
            4: "-- New paragraph after paragraph 1,…----",
            5: "",
            6: "",
            8: "",
            9: "",
            11: "",
            12: "Enter keeps it  Escape ends  F1 keys",
        },
        (),
        (5, 1),
    ),
    Heard("A", {5: "A", 6: "⠠⠁"}, (), (5, 2)),
    Heard(
        "enter",
        {
            1: "table en, last kept: paragraph 4",
            2: "     1 body, 1 open mark: The moon is…",
            3: ">    4 body: A",
            4: "-- New paragraph after paragraph 4,…----",
            5: "",
            6: "",
        },
        (),
        (5, 1),
    ),
    Heard("B", {5: "B", 6: "⠠⠃"}, (), (5, 2)),
    Heard(
        "enter",
        {
            1: "table en, last kept: paragraph 5",
            2: "     4 body: A",
            3: ">    5 body: B",
            4: "-- New paragraph after paragraph 5,…----",
            5: "",
            6: "",
        },
        (),
        (5, 1),
    ),
    Heard(
        "escape",
        {
            4: "-- Paragraph 5, body, table en ---------",
            5: "B",
            6: "⠠⠃",
            8: "“B” ⠠⠃, character 1, cells 1 to 2",
            10: "This paragraph was empty, and wasn't",
            11: "added.",
            12: "? keys  q ends  Enter edits  o new  u…",
        },
        (),
        (5, 1),
    ),
]


#: In the list of the places of a word, the first is changed and the other is left.
PLACES = [
    Heard(
        "enter",
        {
            2: "2 places of “The”, to be “Our”. Lines 1",
            3: "to 5 of 5.",
            4: "Place 1 of 2, paragraph 1:",
            5: "[The] moon is far away.",
            6: "After: [Our] moon is far away.",
            7: "Place 2 of 2, paragraph 2: [The] Tides",
            8: "After: [Our] Tides",
            9: "",
            10: "",
            11: "",
            12: "y changes it  n leaves it  a all  ?…",
        },
        (),
        (4, 1),
    ),
    Heard(
        "y",
        {
            1: "last kept: a correction of paragraph 1",
            4: "Place 1 of 2, changed, paragraph 1:",
            5: "[Our] moon is far away.",
            6: "Before: [The] moon is far away.",
            11: "Paragraph 1 is changed. 1 more place.",
        },
        (7,),
        (7, 1),
    ),
    Heard(
        "n",
        {
            3: "to 6 of 6.",
            7: "Place 2 of 2, left, paragraph 2:",
            8: "[The] Tides",
            9: "After: [Our] Tides",
            11: "It stays as it is. No more places.",
        },
        (),
        (7, 1),
    ),
]


@pytest.fixture
def marked(moon: Path) -> Path:
    """The book with a second mark, at version 8."""
    with Session(moon) as session:
        session.add_mark(2, 6, 5, "which?")
    return moon


def check(sat: Sat, wanted: Heard) -> None:
    """Presses a key, and compares what is drawn anew with what has to be."""
    before = draw(sat.state)
    sat.press(wanted.key)
    sat.state = sat.desk.previewed(sat.state)
    after = draw(sat.state)
    pairs = enumerate(zip(before.texts(), after.texts()), 1)
    heard = {number: text for number, (old, text) in pairs if old != text}
    assert (wanted.key, heard) == (wanted.key, wanted.rows)
    drawn = enumerate(zip(before.lines, after.lines), 1)
    looks = tuple(n for n, (old, new) in drawn if old != new and n not in heard)
    assert (wanted.key, looks) == (wanted.key, wanted.looks)
    line, place = after.cursor
    assert (wanted.key, line + 1, place + 1) == (wanted.key, *wanted.cursor)


@pytest.mark.parametrize("size", LOOP, ids=lambda size: f"{size[0]}x{size[1]}")
def test_the_loop_of_a_proofreader_draws_what_changed_and_nothing_else(
    marked: Path, sit: Sit, size: tuple[int, int]
) -> None:
    sat = sit(marked, size=Size(*size))
    for each in LOOP[size]:
        check(sat, each)
    # of 12 rows, or of 24
    assert max(len(each.rows) + len(each.looks) for each in LOOP[size]) <= 8


def test_a_chapter_is_typed_and_each_paragraph_is_heard(marked: Path, sit: Sit) -> None:
    sat = sit(marked, size=Size(40, 12))
    for each in CHAPTER:
        check(sat, each)
    assert [each.id for each in sat.state.book] == [1, 4, 5, 2, 3]
    assert sat.desk.drafts.waiting() is None


def test_places_are_heard_as_they_are_changed_and_left(marked: Path, sit: Sit) -> None:
    sat = sit(marked, size=Size(40, 12))
    sat.press("c", *"The", "enter", *"Our")
    for each in PLACES:
        check(sat, each)


@pytest.mark.parametrize("keys", ["m", "g", "t", "x", "i", "c", "c T enter", "V v"])
def test_what_is_said_of_a_line_stands_while_it_is_typed_and_is_heard_once(
    marked: Path, sit: Sit, keys: str
) -> None:
    sat = sit(marked, size=Size(40, 12))
    sat.press(*keys.split())
    assert sat.lines[10]
    for key in "why":
        before = draw(sat.state).lines
        sat.press(key)
        pairs = enumerate(zip(before, draw(sat.state).lines), 1)
        assert [row for row, (old, new) in pairs if old != new] == [12]


def test_a_quiet_screen_draws_one_row_for_each_character_that_is_typed(
    marked: Path, sit: Sit
) -> None:
    sat = sit(marked, size=Size(40, 12))
    sat.press("z", "o")
    for number, key in enumerate("Risen.", 2):
        text = "Risen."[: number - 1]
        check(sat, Heard(key, {3: text}, (), (3, number)))


def test_print_that_is_too_long_is_kept_and_the_rest_is_typed_further(
    marked: Path, sit: Sit
) -> None:
    sat = sit(marked, size=Size(40, 12))
    sentence = "The moon is far away. "
    sat.press("o")
    sat.state = sat.desk.paste(sat.state, sentence * 182)
    sat.state = sat.desk.previewed(sat.state)
    assert sat.lines[8:11] == [
        "A paragraph has at most 4,000",
        "characters. Type on: Enter asks whether",
        "it goes on in a new one.",
    ]
    # nothing is lost, however it is answered
    sat.press("enter", "n", "enter", "y")
    assert sat.state.kept == "kept: paragraph 4"
    assert sat.state.typed and sat.state.typed.text == sentence
    assert sat.state.book[1].length == 181 * len(sentence) - 1
    sat.press("x", "enter", "escape")
    assert [each.id for each in sat.state.book] == [1, 4, 5, 2, 3]
    assert sat.state.reading and sat.state.reading.text == sentence + "x"
    # an edit goes on in a new paragraph as well
    sat.press("enter", "end")
    sat.state = sat.desk.paste(sat.state, " " + "It rose. " * 500)
    sat.press("enter", "y")
    assert sat.state.kept == "kept: correction 1 of paragraph 5"
    assert sat.state.typed and sat.state.typed.text.startswith("It rose. It rose.")
    sat.press("enter", "enter")
    assert [each.id for each in sat.state.book] == [1, 4, 5, 6, 2, 3]
