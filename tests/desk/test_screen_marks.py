"""Marks that are worked through on the screen: gone to, dealt with in the print, resolved."""

from pathlib import Path

import pytest

from braildesk import Session
from braildesk.text.spans import Span

from scribe.screen.drawing import draw
from scribe.screen.state import Size
from sitting import Sat, Sit
from terminal import Open

SIZES = [Size(20, 8), Size(40, 12), Size(80, 24), Size(200, 60)]
#: What is typed at the front of “moon”, which is marked, and the print after it.
FIXES = {
    "over its words": ("delete delete delete delete s u n", "The sun is far away."),
    "behind them": ("right right right right s", "The moons is far away."),
    "in front of them": ("n e w", "The newmoon is far away."),
    "nothing in their place": ("delete delete delete delete", "The  is far away."),
    "elsewhere": ("end !", "The moon is far away.!"),
}


def said(sat: Sat) -> str:
    """All lines below the paragraph, as one."""
    lines = sat.lines
    rule = next(n for n, line in enumerate(lines) if line.startswith("-- "))
    return " ".join(lines[rule + 1 :])


#: The keys before m, and what is said of where the mark goes.
PLACES = {
    "the words that were found": ("/ f a r enter", "On “far”."),
    "the character of the cursor, where nothing was found": (
        "/ s u n enter",
        "On “T”.",
    ),
    "the character of the cursor, away from what was found": (
        "/ f a r enter right",
        "On “a”.",
    ),
    "the cells that were found": ("tab / f a r enter", "On “far”."),
    "the cells that are chosen": ("tab space right right", "On “Th”."),
    "a part of the cells of a character": ("tab space", "On “T”."),
    "the character of a cell": ("tab", "On “T”."),
}


@pytest.mark.parametrize("place", PLACES)
def test_what_a_mark_goes_on_is_said_before_its_note_is_typed(
    moon: Path, sit: Sit, place: str
) -> None:
    keys, wanted = PLACES[place]
    sat = sit(moon)
    sat.press(*(" " if key == "space" else key for key in keys.split()), "m")
    assert sat.state.heard == (f"{wanted} r resolves a mark, and nothing takes it out.")


@pytest.mark.parametrize(
    "key, said, hint",
    [
        ("m", "On “T”.", "r resolves a mark, and nothing takes it out."),
        ("g", "", "A paragraph's number, or page 6 line 9, or words to find."),
    ],
)
def test_a_hint_is_said_the_first_time(
    moon: Path, sit: Sit, key: str, said: str, hint: str
) -> None:
    sat = sit(moon)
    sat.press(key)
    assert sat.state.heard == f"{said} {hint}".lstrip()
    sat.press("escape", key)
    assert sat.state.heard == said


@pytest.mark.parametrize("size", SIZES, ids=str)
@pytest.mark.parametrize("fix", FIXES)
def test_r_resolves_the_mark_that_n_went_to_whatever_was_typed(
    moon: Path, sit: Sit, size: Size, fix: str
) -> None:
    keys, wanted = FIXES[fix]
    sat = sit(moon, size=size)
    sat.press("n", "enter", *keys.split(), "enter")
    assert sat.state.reading and sat.state.reading.text == wanted
    assert said(sat).count("Mark 1, open,") == 1
    assert [line[:6] for line in sat.lines if line[:1] == ">"] == [">    1"]
    sat.press("r")
    assert sat.state.kept == "kept: mark 1 resolved"
    assert "Mark 1, resolved" in said(sat)


@pytest.mark.parametrize("size", SIZES, ids=str)
def test_the_note_of_a_mark_is_seen_while_its_words_are_edited(
    moon: Path, sit: Sit, size: Size
) -> None:
    sat = sit(moon, size=size)
    sat.press("n")
    before = said(sat)
    sat.press("enter", "delete", "right")
    assert "Mark 1, open" in before and "Mark 1, open" in said(sat)
    if size.columns > 20:
        assert "Mark 1, open, on “moon”: spelled so?" in sat.lines


def test_a_mark_that_is_put_again_by_u_is_in_hand(moon: Path, sit: Sit) -> None:
    sat = sit(moon)
    sat.press("n", "enter", *["right"] * 4, "s", "enter", "r", "u")
    assert sat.state.message == (
        "Taken back: mark 1 was resolved. It stays resolved, and a new mark stands in its"
        " place."
    )
    assert any(
        line.endswith("Mark 2, open, on “moon”: spelled so?") for line in sat.lines
    )
    sat.press("r")
    assert sat.state.kept == "kept: mark 2 resolved"


@pytest.mark.parametrize("size", SIZES, ids=str)
def test_a_mark_that_was_just_put_is_shown_before_others(
    moon: Path, sit: Sit, size: Size
) -> None:
    sat = sit(moon, size=size)
    for keys in ((), ("tab",)):
        sat.press("n", *keys, "m", *"why?", "enter")
        number = (sat.state.kept or "").removeprefix("kept: mark ")
        assert f" marks here. Mark {number}, " in said(sat)
    sat.press("r")
    assert sat.state.kept == f"kept: mark {number} resolved"


def test_the_mark_in_hand_is_left_once_the_cursor_moves(moon: Path, sit: Sit) -> None:
    sat = sit(moon)
    sat.press("n", "enter", "end", "!", "enter", "left", "r")
    assert sat.state.message.startswith("There is no open mark here.")
    assert "Mark 1" not in said(sat)


def test_a_mark_that_an_edit_touched_from_elsewhere_is_in_hand(
    moon: Path, sit: Sit
) -> None:
    sat = sit(moon)
    # from the front of the print up to behind “moon”
    sat.press("enter", *["right"] * 8, *["backspace"] * 4, *"sun", "enter")
    assert "Mark 1, open, touched, on “sun”: spelled so?" in sat.lines
    sat.press("r")
    assert sat.state.kept == "kept: mark 1 resolved"


def test_a_mark_in_hand_that_is_elsewhere_is_not_counted_here(
    moon: Path, sit: Sit
) -> None:
    with Session(moon) as session:
        session.add_mark(1, 17, 5, "how far?")
    sat = sit(moon)
    # the edit begins on the one mark, and ends on the other
    sat.press("n", "enter", "end", "backspace", "!", "enter")
    first = "Mark 1, open, on “moon”: spelled so?"
    second = "Mark 2, open, touched, on “away!”: how far?"
    assert sat.lines[-5:-3] == [first, second]
    sat.press("r")
    assert sat.lines[-5:-3] == [second, first.replace("open", "resolved")]


def test_a_mark_that_u_resolves_elsewhere_leaves_none_here(
    moon: Path, sit: Sit
) -> None:
    sat = sit(moon)
    sat.press("/", *"far", "enter", "m", *"how far?", "enter", "n", "u")
    assert sat.state.message == (
        "Taken back: mark 2 was put. The book keeps it, resolved."
    )


def test_each_mark_of_one_character_is_gone_to_shown_and_resolved(
    moon: Path, sit: Sit
) -> None:
    with Session(moon) as session:
        session.add_mark(1, 5, 4, "whose?")
        session.add_mark(1, 6, 1, "one o?")
    sat = sit(moon)
    first = "Mark 1, open, on “moon”: spelled so?"
    second = "Mark 2, open, on “moon”: whose?"
    sat.press("n")
    assert [f"2 marks here. {first}", second] == sat.lines[-5:-3]
    sat.press("n")
    assert [f"2 marks here. {second}", first] == sat.lines[-5:-3]
    assert sat.lines[-2] == "Mark 2 begins here."
    sat.press("n")
    assert sat.state.place == 5
    assert sat.lines[-5].startswith("3 marks here. Mark 3, open, on “o”: one o?")
    sat.press("N")
    assert sat.lines[-5:-3] == [f"2 marks here. {second}", first]
    sat.press("r")
    assert sat.state.kept == "kept: mark 2 resolved"
    assert sat.state.message == (
        "Mark 2 is resolved. 1 open mark is left here; r resolves mark 1."
    )
    assert f"2 marks here, 1 open. {first}" in sat.lines
    sat.press("r")
    assert (sat.state.kept, sat.state.message) == ("kept: mark 1 resolved", "")
    assert any(line.startswith("2 marks here, none open. ") for line in sat.lines)
    sat.press("r")
    assert sat.state.message == "There is no open mark here. n looks for the next one."


def test_n_goes_from_a_mark_that_was_just_put_on_cells(moon: Path, sit: Sit) -> None:
    sat = sit(moon)
    sat.press("down", "tab", "right", "m", "A", "enter", "m", "B", "enter")
    assert sat.state.mark_in_hand and sat.state.mark_in_hand.id == 3
    sat.press("N")
    assert sat.state.mark_in_hand and sat.state.mark_in_hand.id == 2
    sat.press("tab", "right", "m", "C", "enter", "n")
    assert sat.state.mark_in_hand and sat.state.mark_in_hand.id == 1


def test_n_says_where_it_goes_around_and_that_there_is_no_other_mark(
    moon: Path, sit: Sit
) -> None:
    sat = sit(moon)
    sat.press("n")
    assert sat.state.message == ""
    sat.press("n")
    assert sat.state.message == "The book has no other open mark."
    sat.press("down", "n")
    assert sat.state.message == (
        "No open mark begins further on: this is the first in the book."
    )
    sat.press("left", "left", "N")
    assert sat.state.message == (
        "No open mark begins further back: this is the last in the book."
    )


def test_n_says_only_of_marks_that_begin_further_on_that_there_are_none(
    moon: Path, sit: Sit
) -> None:
    with Session(moon) as session:
        session.add_mark(1, 5, 4, "really?")
    # both are on the words of the cursor
    sat = sit(moon)
    sat.press("n", "right", "right", "n")
    assert (sat.state.place, sat.state.message) == (
        4,
        "No open mark begins further on: this is the first in the book.",
    )


def test_n_says_from_which_mark_it_went_around_wherever_the_cursor_is(
    moon: Path, sit: Sit
) -> None:
    with Session(moon) as session:
        session.add_mark(1, 12, 3, "")
    sat = sit(moon)
    sat.press("n", "N")
    assert (sat.state.place, sat.state.message) == (
        11,
        "No open mark begins before mark 1: this is the last in the book.",
    )
    # the mark of the edit stays in hand, and the cursor is before both
    sat.press("enter", "c-a", *"Oh, ", "enter")
    assert sat.state.mark_in_hand and sat.state.mark_in_hand.id == 2
    sat.press("n")
    assert (sat.state.place, sat.state.message) == (
        8,
        "No open mark begins after mark 2: this is the first in the book.",
    )


@pytest.mark.parametrize("lines", [1, 2, 3, 4])
def test_n_says_the_note_of_a_mark_first_where_it_has_no_row(
    moon: Path, sit: Sit, lines: int
) -> None:
    note = "spelled so? Ask the author of the book"
    with Session(moon) as session:
        session.add_mark(2, 4, 5, note)
    around = "No open mark begins after mark 2: this is the first in the book."
    sat = sit(moon, size=Size(40, lines))
    sat.press("n", "n", "n")
    (mark,) = (m for m in sat.state.marks_here if sat.state.is_on(m))
    said = f"Mark 1, open, on “moon”: {mark.note} {around}"
    assert sat.state.message == said
    sat.press("n")
    assert (note in sat.state.message) == (lines < 3)
    shown = [sat.lines[-1]]
    while lines < 3 and shown[-1].rstrip().endswith("…"):
        sat.press("down")
        shown.append(sat.lines[-1])
    read = " ".join(each.rstrip().removesuffix("…") for each in shown)
    assert (note in read) == (lines < 3)


def test_marks_that_are_touched_are_all_named_where_one_is_elsewhere_than_the_cursor(
    moon: Path, sit: Sit
) -> None:
    with Session(moon) as session:
        session.add_mark(1, 10, 2, "is?")
    sat = sit(moon)
    sat.press("n", "enter", *["delete"] * 7, *"sun was", "home", "enter")
    assert [sat.lines[-5], sat.lines[-2]] == [
        "Mark 1, open, touched, on “sun”: spelled so?",
        "This touched the marks 1 and 2.",
    ]


def test_a_mark_whose_words_at_the_end_are_gone_is_gone_to_and_resolved(
    moon: Path, sit: Sit
) -> None:
    with Session(moon) as session:
        session.resolve_mark(1)
        session.add_mark(2, 6, 5, "which?")
        session.correct(2, 4, 5, "")
    sat = sit(moon)
    sat.press("n")
    assert "Mark 2, open, touched, on no words, at the end: which?" in sat.lines
    sat.press("left", "right", "r")
    assert sat.state.kept == "kept: mark 2 resolved"


def test_the_chosen_paragraph_is_listed_whatever_is_said_below(
    moon: Path, sit: Sit
) -> None:
    with Session(moon) as session:
        session.add_mark(3, 0, 6, "is it so? " * 40)
    for size in SIZES:
        sat = sit(moon, size=size)
        sat.press("c-end")
        sat.state = sat.state.saying("Nothing of this is so. " * 30)
        lines = sat.lines
        assert [line[:6] for line in lines if line[:1] == ">"] == [">    3"], size
        line, _ = draw(sat.state).cursor
        assert lines[line].startswith("Twice a day")
        assert len(lines) == size.lines
        sat.desk.close()


@pytest.mark.parametrize("size", [(20, 8), (40, 12), (80, 24)])
def test_marks_are_worked_through_in_a_terminal(
    moon: Path, at: Open, size: tuple[int, int]
) -> None:
    with Session(moon) as session:
        session.add_mark(2, 6, 5, "which?")
        session.add_mark(3, 1, 5, "how often?")
    terminal = at(moon, *size)
    terminal.wait("? shows the keys.")
    for number, typed in enumerate(("sun", "Waves", "Once"), 1):
        terminal.keys("n")
        terminal.wait(f"Mark {number}, open")
        terminal.keys("enter", *["delete"] * (4 if number == 1 else 5), typed, "enter")
        terminal.wait("kept: corre")
        lines = terminal.wait(f"Mark {number}, open,")
        assert [line[:6] for line in lines if line[:1] == ">"] == [f">    {number}"]
        terminal.keys("r")
        terminal.wait(f"kept: mark {number}")
    terminal.keys("q")
    assert terminal.ended() == 0
    with Session(moon) as session:
        prints = [session.print_of(number) for number in (1, 2, 3)]
        marks = [mark for number in (1, 2, 3) for mark in session.marks_of(number)]
    assert prints == [
        "The sun is far away.",
        "The Waves",
        "Once a day the sea comes up.",
    ]
    assert [mark.resolved for mark in marks] == [True] * 3


@pytest.mark.parametrize("size", SIZES, ids=str)
def test_ctrl_right_chooses_cells_to_the_end_of_a_word(
    moon: Path, sit: Sit, size: Size
) -> None:
    sat = sit(moon, size=size)
    sat.press("c-right", " ", "c-right")
    assert sat.state.chosen_cells == Span(5, 9)
    sat.press("c-right")
    assert sat.state.chosen_cells == Span(5, 12)
    sat.press(*["c-right"] * 5)
    assert sat.state.chosen_cells == Span(5, 22)
    sat.press(" ", "c-left", "c-left")
    assert sat.state.place == 13
    # without a choice it goes to the front of the next word, as in the print
    sat.press("c-right")
    assert sat.state.place == 17


@pytest.mark.parametrize(
    "keys, words",
    [
        (["/", *"far away", "enter", "m"], (12, 20)),
        (["g", *"far away", "enter", "m"], (12, 20)),
        (["tab", "/", *"far", "enter", "m"], (12, 15)),
        # once the cursor has moved, it is the character that is marked
        (["/", *"far away", "enter", "right", "m"], (13, 14)),
        (["/", *"far away", "enter", "right", "left", "m"], (12, 20)),
        # chosen cells are meant rather than what was found
        (["/", *"far away", "enter", " ", "right", "m"], (12, 14)),
    ],
)
def test_a_mark_is_put_on_what_was_found(
    moon: Path, sit: Sit, keys: list[str], words: tuple[int, int]
) -> None:
    sat = sit(moon)
    sat.press(*keys, *"so?", "enter")
    assert sat.state.kept == "kept: mark 2"
    assert sat.state.reading
    mark = sat.state.reading.marks[-1]
    assert (mark.start, mark.stop, mark.note) == (*words, "so?")


@pytest.mark.parametrize(
    "keys, words",
    [
        # another print, at the front of which the cursor stays
        (["enter", *["delete"] * 4, "enter"], "On “m”."),
        (["enter", "s", "home", "enter"], "On “s”."),
        # a shorter print than what was found
        (["enter", "c-k", "S", "u", "n", "home", "enter"], "On “S”."),
        # the print is as it was when the words were found
        (["enter", "s", "home", "enter", "u"], "On “The moon is far”."),
    ],
)
def test_no_mark_goes_on_cells_that_were_found_before_a_correction(
    moon: Path, sit: Sit, keys: list[str], words: str
) -> None:
    sat = sit(moon)
    sat.press("/", *"The moon is far", "enter", *keys, "m")
    assert sat.state.heard == f"{words} r resolves a mark, and nothing takes it out."


def test_a_mark_that_comes_to_end_within_a_contraction_is_on_its_cell(
    moon: Path, sit: Sit
) -> None:
    table = (moon.parent / "plain.utb").read_bytes() + b"always the 2346\n"
    with Session(moon) as session:
        session.put_table("own", table)
        session.add_paragraph("front", "own", "t he sea")
        session.add_mark(4, 0, 1, "so?")
    sat = sit(moon)
    sat.press("enter", "right", "delete", "enter")
    assert sat.state.kept == "kept: correction 1 of paragraph 4"
    assert sat.state.marked_cells == (Span(0, 1),)
    assert said(sat).startswith("the sea ⠮⠀⠎⠑⠁")
    assert "Mark 2, open, on “t”: so?" in said(sat)


def test_the_cursor_stays_where_it_is_while_what_is_typed_becomes_composed(
    moon: Path, sit: Sit
) -> None:
    table = (moon.parent / "plain.utb").read_bytes() + b"letter \\x00e9 123456\n"
    with Session(moon) as session:
        session.put_table("own", table)
        session.add_paragraph("front", "own", "the sea")
    sat = sit(moon)
    sat.press("enter", "e", "\u0301", "e", "\u0301", " ", "enter")
    assert sat.state.reading and sat.state.reading.text == "éé the sea"
    assert sat.state.place == 3


@pytest.mark.parametrize("lines", [1, 2, 3])
def test_where_a_mark_has_no_row_it_is_said_on_which_words_it_is_and_that_it_is_touched(
    moon: Path, sit: Sit, lines: int
) -> None:
    sat = sit(moon, size=Size(80, lines))
    sat.press("down", "down", "tab", "m")
    asked = sat.lines
    sat.write("so?")
    sat.press("enter")
    seen = [*asked, *sat.lines]
    assert any("On “T”." in line or "on “T”" in line for line in seen)
    assert (sat.state.message == "Kept: mark 2. It is on “T”.") is (lines == 1)
    sat.press("enter", "delete", "X", "enter")
    is_said = sat.lines[-1].endswith("This touched mark 2.")
    assert is_said is (lines < 3)
    assert ("Mark 2, open, touched, on “X”: so?" in sat.lines) is (lines == 3)
