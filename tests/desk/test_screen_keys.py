"""What each key asks for, from a state that is written by hand."""

from dataclasses import replace
from pathlib import Path

import pytest

from braildesk import Mark, Paragraph, Style, requests
from braildesk.desk.highlighting import Highlighted
from braildesk.desk.layout import PageSize
from braildesk.desk.readings import ParagraphReading
from braildesk.text.sequences import parted
from braildesk.text.spans import Span

from scribe.screen.actions import (
    BringBack,
    ExportTo,
    GiveTable,
    GiveUp,
    GoOn,
    ImportFrom,
    ListHeadings,
    ListMarks,
    OpenAgain,
    PutBy,
    PutOff,
    Quit,
    ShowHistory,
    ShowPage,
    TakeBack,
    ToFound,
    ToMark,
    ToPage,
    TypeAll,
)
from scribe.screen.field import Field, Purpose
from scribe.screen.keys import KEYS, keys_of, step
from scribe.screen.lines import rows
from scribe.screen.pasted_lines import pasted, waiting
from scribe.screen.state import (
    End,
    Opening,
    Pages,
    Pane,
    Question,
    Size,
    State,
    Target,
    draft_of,
)
from scribe.words.deeds import Deed

PRINT = "The moon is far away."
CELLS = "⠠⠞⠓⠑⠀⠍⠕⠕⠝⠀⠊⠎⠀⠋⠁⠗⠀⠁⠺⠁⠽⠲"
BOOK = (
    Paragraph(4, "en", Style.BODY, False, False, 21),
    Paragraph(2, "en", Style.HEADING, True, True, 9),
    Paragraph(3, "own", Style.BODY, False, False, 9),
)
STATE = State(
    "moon.braildesk",
    7,
    BOOK,
    ("en", "own"),
    Size(80, 24),
    reading=ParagraphReading(
        BOOK[0], PRINT, CELLS, (Mark(1, 4, 8, False, False, "so?"),)
    ),
    place=5,
    highlighted=Highlighted(Span(5, 6), Span(6, 7)),
)
EMPTY = replace(STATE, book=(), reading=None, highlighted=None)
AT_SECOND = STATE.at(1)


def typed(purpose: Purpose, text: str = "", place: int | None = None) -> State:
    """The state in which a text is typed."""
    field = Field(purpose, text, len(text) if place is None else place)
    return replace(STATE, typed=field, table="en")


ASKED = {
    "u takes back a correction": (STATE, "u", requests.Undo(4, expect=7)),
    "s strikes": (STATE, "s", requests.Strike(4, expect=7)),
    "s restores what is struck": (AT_SECOND, "s", requests.Restore(2, expect=7)),
    "b makes a heading": (STATE, "b", requests.Style(4, Style.HEADING, expect=7)),
    "b makes body text of a heading": (
        AT_SECOND,
        "b",
        requests.Style(2, Style.BODY, expect=7),
    ),
    "v begins a volume": (STATE, "v", requests.Volume(4, True, expect=7)),
    "v ends one": (AT_SECOND, "v", requests.Volume(2, False, expect=7)),
    "Alt-Down moves down": (STATE, "a-down", requests.Move(4, 2, expect=7)),
    "Alt-Up moves up to the front": (
        AT_SECOND,
        "a-up",
        requests.Move(2, "front", expect=7),
    ),
    "Alt-Up moves up": (STATE.at(2), "a-up", requests.Move(3, 4, expect=7)),
    "r resolves the mark at the cursor": (STATE, "r", requests.Resolve(1, expect=7)),
    "h looks at the history": (STATE, "h", ShowHistory()),
    "p looks at the page": (STATE, "p", ShowPage()),
    "n goes to the next mark": (STATE, "n", ToMark(False)),
    "N goes to the mark before": (STATE, "N", ToMark(True)),
    "M lists the marks": (STATE, "M", ListMarks()),
    "H lists the headings": (STATE, "H", ListHeadings()),
    "* finds again": (replace(STATE, sought="moon"), "*", ToFound("moon", True)),
    "q ends": (STATE, "q", Quit()),
    "Enter keeps an edit as the smallest correction": (
        typed(Purpose.EDIT, "The moons is far away."),
        "enter",
        requests.Correct(4, 8, 0, "s", expect=7),
    ),
    "Enter keeps it with the name of the proofreader": (
        replace(typed(Purpose.EDIT, "The moons is far away."), by="anna"),
        "enter",
        requests.CorrectBy(4, 8, 0, "s", who="anna", expect=7),
    ),
    "what is edited is in normal form C": (
        typed(Purpose.EDIT, "The moon is fa\u0308r away."),
        "enter",
        requests.Correct(4, 13, 1, "ä", expect=7),
    ),
    "Enter types a paragraph after": (
        typed(Purpose.AFTER, "It rose."),
        "enter",
        requests.Type(4, "en", "It rose.", expect=7),
    ),
    "Enter types a paragraph before": (
        typed(Purpose.BEFORE, "It rose."),
        "enter",
        requests.Type("front", "en", "It rose.", expect=7),
    ),
    "a note is put on the cells of the cursor": (
        typed(Purpose.NOTE, "why?"),
        "enter",
        requests.Mark(4, 6, 1, "why?", expect=7),
    ),
    "a note is put on the chosen cells": (
        replace(typed(Purpose.NOTE), pane=Pane.CELLS, anchor=8, place=5),
        "enter",
        requests.Mark(4, 5, 4, "", expect=7),
    ),
    "a table is given": (typed(Purpose.TABLE, "own"), "enter", GiveTable("own")),
    "words are looked for": (typed(Purpose.WORDS, "far"), "enter", ToFound("far")),
    "two blanks are looked for": (typed(Purpose.WORDS, "  "), "enter", ToFound("  ")),
    "a folder of nobody is a path": (
        typed(Purpose.FOLDER, "~nobody-here/pages"),
        "enter",
        ExportTo(Path("~nobody-here/pages")),
    ),
    "a folder is exported to": (
        typed(Purpose.FOLDER, "pages"),
        "enter",
        ExportTo(Path("pages")),
    ),
    "a folder is exported to on pages of another size": (
        replace(typed(Purpose.FOLDER, "pages"), page_size=PageSize(30, 10)),
        "enter",
        ExportTo(Path("pages"), PageSize(30, 10)),
    ),
    "a text file is imported after the paragraph": (
        typed(Purpose.TEXT_FILE, "a.txt"),
        "enter",
        ImportFrom(Path("a.txt"), 4, "en"),
    ),
    "Escape gives up what is typed": (typed(Purpose.EDIT, "x"), "escape", GiveUp()),
    "Escape leaves pasted lines out": (
        replace(typed(Purpose.AFTER, "x"), question=Question("?", ("a", "b"))),
        "escape",
        GiveUp(),
    ),
    "no gives up a text that waits": (
        replace(STATE, question=Question("?", draft=Field(Purpose.EDIT, "x"))),
        "n",
        GiveUp(),
    ),
    "a text that waits is left for later": (
        replace(STATE, question=Question("?", draft=Field(Purpose.EDIT, "x"))),
        "l",
        PutOff(),
    ),
    "U brings back a text": (STATE, "U", BringBack()),
    "U brings back an older text": (
        replace(STATE, question=Question("?", draft=Field(Purpose.EDIT, "x"), older=2)),
        "U",
        BringBack(2),
    ),
    "yes types pasted lines as paragraphs": (
        replace(typed(Purpose.AFTER), question=Question("?", ("a", "b"))),
        "y",
        TypeAll(Purpose.AFTER, ("a", "b")),
    ),
}
SAID = {
    "an unknown key": (STATE, "%", "That key does nothing here. ? shows the keys."),
    "z": (
        STATE,
        "z",
        "Now without the list, and without braille while you type. z ends that.",
    ),
    "z again": (replace(STATE, is_quiet=True), "z", ""),
    "d": (
        STATE,
        "d",
        "Dot 7 is under marked cells, dot 8 under those of the cursor. d takes both away.",
    ),
    "d again": (replace(STATE, has_dots=True), "d", ""),
    "d in Braille ASCII": (
        replace(STATE, is_ascii=True),
        "d",
        "Braille ASCII has no dots 7 and 8: a shows the cells as Unicode characters.",
    ),
    "a key of the book while other lines are looked at": (
        replace(STATE, pages=Pages("All keys.", ("Up: to the paragraph before",))),
        "s",
        "That key does nothing here. Escape goes back.",
    ),
    "r without a mark": (
        replace(STATE, highlighted=Highlighted(Span(0, 1), Span(0, 2))),
        "r",
        "There is no open mark here. n looks for the next one.",
    ),
    "Enter on a struck paragraph": (
        AT_SECOND,
        "enter",
        "Paragraph 2 is struck. s restores it, and then it can be edited.",
    ),
    "m on a struck paragraph": (
        AT_SECOND,
        "m",
        "Paragraph 2 is struck. s restores it, and then it can be marked.",
    ),
    "t on a struck paragraph": (
        AT_SECOND,
        "t",
        "Paragraph 2 is struck. s restores it, and then it can be given a table.",
    ),
    **{
        f"{key} on the first paragraph": (
            replace(STATE, place=place),
            key,
            "It is the first paragraph of the book.",
        )
        for key, place in (("up", 5), ("pageup", 5), ("c-home", 0))
    },
    **{
        f"{key} on the last paragraph": (
            STATE.at(2),
            key,
            "It is the last paragraph of the book.",
        )
        for key in ("down", "pagedown", "c-end")
    },
    **{
        f"{key} at the front": (
            replace(STATE, place=0),
            key,
            "This is the front of the paragraph.",
        )
        for key in ("left", "home", "c-left")
    },
    **{
        f"{key} at the end": (
            replace(STATE, place=20),
            key,
            "This is the end of the paragraph.",
        )
        for key in ("right", "end", "c-right")
    },
    "the end of a word at the end of the cells": (
        replace(STATE, pane=Pane.CELLS, anchor=3, place=21),
        "c-right",
        "This is the end of the paragraph.",
    ),
    "right in an empty paragraph": (
        replace(STATE, reading=ParagraphReading(BOOK[0], "", "", ()), place=0),
        "right",
        "The paragraph is empty.",
    ),
    "down on the last line that is looked at": (
        replace(
            STATE, pages=Pages("All keys.", ("Up: to the paragraph before",), 0, 0)
        ),
        "down",
        "There are no more lines that way.",
    ),
    "Alt-Up at the front": (STATE, "a-up", "It is the first paragraph of the book."),
    "Alt-Down at the end": (
        STATE.at(2),
        "a-down",
        "It is the last paragraph of the book.",
    ),
    "o without a table": (
        replace(EMPTY, tables=()),
        "o",
        "The book has no table yet. t chooses one.",
    ),
    "o with two tables": (
        EMPTY,
        "o",
        "The book has the tables en, own. t chooses one.",
    ),
    "i with two tables": (
        EMPTY,
        "i",
        "The book has the tables en, own. t chooses one.",
    ),
    "u in an empty book": (
        EMPTY,
        "u",
        "The book has no paragraphs yet.",
    ),
    "Escape at a prompt": (
        typed(Purpose.NUMBER, "x"),
        "escape",
        "Given up. The book is as it was.",
    ),
    "Escape while nothing is changed": (
        typed(Purpose.EDIT, PRINT),
        "escape",
        "Given up. The book is as it was.",
    ),
    "an edit that changes nothing": (
        typed(Purpose.EDIT, PRINT),
        "enter",
        "The print reads as before, so there is nothing to keep.",
    ),
    "Enter on nothing, for a new paragraph": (
        typed(Purpose.AFTER, "  "),
        "enter",
        "This paragraph was empty, and wasn't added.",
    ),
    "Escape on nothing, for a new paragraph": (
        typed(Purpose.AFTER),
        "escape",
        "This paragraph was empty, and wasn't added.",
    ),
    "Up on the first line that is typed": (
        typed(Purpose.AFTER, "It rose."),
        "up",
        "This is the first line of the paragraph.",
    ),
    "Down on the last line that is typed": (
        typed(Purpose.EDIT, "It rose."),
        "down",
        "This is the last line of the paragraph.",
    ),
    "Up at a prompt": (
        typed(Purpose.NOTE, "why?"),
        "up",
        "That key does nothing here. Enter ends what is typed, Escape gives it up.",
    ),
    "k on the first line": (STATE, "k", "This is the first line of the paragraph."),
    "Ctrl-Down on the last line": (
        STATE,
        "c-down",
        "This is the last line of the paragraph.",
    ),
    "g": (STATE, "g", "A paragraph's number, or page 6 line 9, or words to find."),
    "Enter on a blank at a prompt": (
        typed(Purpose.TABLE, " "),
        "enter",
        "Nothing was typed, so nothing is done.",
    ),
    "Ctrl-C while typing": (
        typed(Purpose.EDIT, "x"),
        "c-c",
        "That key does nothing here. Enter ends what is typed, Escape gives it up.",
    ),
    "a number that isn't there": (
        typed(Purpose.NUMBER, "9"),
        "enter",
        "There is no paragraph 9. The cursor stays where it is.",
    ),
    "a size of pages": (
        typed(Purpose.SIZE, "30 10"),
        "enter",
        "Pages of 10 lines of 30 cells.",
    ),
    "no size of pages": (
        typed(Purpose.SIZE, "30"),
        "enter",
        "A line of a page has 10 to 60 cells, and a page 5 to 40 lines. Type both numbers with a"
        " blank between them, as in 40 25.",
    ),
    "x": (STATE, "x", "Pages of 25 lines of 40 cells. Escape, then w, changes it."),
    "* at first": (STATE, "*", "Nothing was looked for yet. / asks for words."),
    "bytes that aren't UTF-8": (
        typed(Purpose.EDIT, "x"),
        "\udcff",
        "What came isn't UTF-8, and was left out.",
    ),
}


@pytest.mark.parametrize("name", ASKED)
def test_a_key_asks_for_its_command(name: str) -> None:
    state, key, wanted = ASKED[name]
    assert step(state, key).asked == wanted


@pytest.mark.parametrize("name", SAID)
def test_a_key_that_asks_for_nothing_says_why(name: str) -> None:
    state, key, sentence = SAID[name]
    taken = step(state, key)
    assert (taken.asked, taken.state.heard) == (None, sentence)


@pytest.mark.parametrize(
    "keys, place",
    [
        ("right", 6),
        ("left", 4),
        ("home", 0),
        ("end", 20),
        ("c-right", 9),
        ("c-left", 4),
        ("home left", 0),
        ("end right", 20),
        ("tab", 6),
        ("tab right right", 8),
        ("tab end", 21),
        ("tab tab", 0),
    ],
)
def test_keys_move_along_the_paragraph(keys: str, place: int) -> None:
    state = STATE
    for key in keys.split():
        state = step(state, key).state
    assert state.place == place


@pytest.mark.parametrize(
    "keys, chosen",
    [
        ("down", 1),
        ("down down down", 2),
        ("up", 0),
        ("pagedown", 2),
        ("pagedown pageup", 0),
        ("c-end", 2),
        ("c-end c-home", 0),
        ("g 2 enter", 1),
        ("g 3 enter", 2),
    ],
)
def test_keys_move_through_the_book(keys: str, chosen: int) -> None:
    state = STATE
    for key in keys.split():
        state = step(state, key).state
    assert (state.chosen, state.typed) == (chosen, None)


def test_only_as_many_paragraphs_are_listed_as_there_is_room_for() -> None:
    book = tuple(replace_id(number) for number in range(1, 20_001))
    state = replace(STATE, book=book)
    assert [each.id for each in state.listed] == [1, 2, 3, 4, 5, 6]
    state = step(state, "c-end").state
    assert [each.id for each in state.listed] == list(range(19_995, 20_001))


def replace_id(number: int) -> Paragraph:
    return Paragraph(number, "en", Style.BODY, False, False, 1)


def test_a_combining_sequence_is_one_character_for_the_cursor() -> None:
    field = Field(Purpose.EDIT, "ae\u0301b", 4)
    left = field.moved("left")
    assert left and left.place == 3
    left = left.moved("left")
    assert left and left.place == 1
    gone = left.moved("delete")
    assert gone and gone.text == "ab"


def test_space_begins_and_ends_a_choice_of_cells() -> None:
    state = step(STATE, " ").state
    assert (state.pane, state.anchor) == (Pane.CELLS, 6)
    state = step(step(state, "right").state, "right").state
    assert state.chosen_cells == Span(6, 9)
    assert step(state, " ").state.anchor is None
    # as everything else that was begun, Escape ends it
    left = step(state, "escape").state
    assert left == replace(state, anchor=None)
    said = "That key does nothing here. ? shows the keys."
    assert step(left, "escape").state == left.saying(said)


def test_pasted_lines_of_a_new_paragraph_are_asked_about() -> None:
    state = pasted(typed(Purpose.AFTER, "It. ", 0), "One\r\n\r\nTwo\nThree ").state
    assert state.question == Question(
        "The pasted text has 3 lines. Are they 3 paragraphs?",
        ("One", "Two", "Three It. "),
        end=End.BLANK,
    )
    joined = step(state, "n").state
    assert joined.typed == Field(Purpose.AFTER, "One Two Three It. ", 14)


def test_what_is_typed_on_at_the_question_about_a_long_text_goes_on_in_it() -> None:
    text = "a" * 4_001
    asked = step(typed(Purpose.AFTER, text, 4_001), "enter").state
    assert asked.question and asked.question.parts
    for on in (
        step(step(asked, "r").state, "o").state,
        pasted(asked, "ro").state,
        pasted(asked, "ro", True).state,
    ):
        assert (on.typed, on.question) == (
            Field(Purpose.AFTER, f"{text}ro", 4_003),
            None,
        )
    assert (
        step(asked, "r").state.message == "It stays as it is typed. Enter asks again."
    )
    for key in ("enter", "backspace", "up"):
        assert step(asked, key).state.question == asked.question


def test_a_blank_at_the_end_of_pasted_lines_parts_what_is_typed_on() -> None:
    asked = pasted(typed(Purpose.AFTER), "One.\nTwo moons ").state
    assert asked.question and asked.question.lines == ("One.", "Two moons")
    assert step(asked, "y").asked == TypeAll(Purpose.AFTER, ("One.", "Two moons"))
    joined = step(asked, "n").state
    assert joined.typed == Field(Purpose.AFTER, "One. Two moons ", 15)
    on = step(asked, "r").state
    assert on.question and on.question.lines == ("One.", "Two moons r")
    for text in (" r", "r"):
        on = pasted(asked, text).state
        assert on.question and on.question.lines == ("One.", "Two moons r")


def test_what_is_typed_on_at_a_question_about_lines_goes_on_in_the_last() -> None:
    asked = pasted(typed(Purpose.AFTER, "The moon r", 10), "ose.\rIt").state
    for key in (*" isz", "backspace", *" nigh"):
        asked = step(asked, key).state
    asked = step(pasted(asked, "t.\rDay").state, "s").state
    assert asked.question and asked.question.lines == (
        "The moon rose.",
        "It is night.",
        "Days",
    )
    assert asked.joined and asked.joined.text == "The moon rose. It is night. Days"
    ended = step(asked, "enter").state
    draft = draft_of(ended)
    assert draft and draft.text == "The moon rose.\nIt is night.\nDays"
    assert ended.question and ended.question.sentence == (
        "What is typed has 3 lines. Are they 3 paragraphs?"
    )
    lines = ("The moon rose.", "It is night.", "Days")
    assert step(ended, "y").asked == TypeAll(Purpose.AFTER, lines)


def test_enter_at_the_end_of_keys_that_came_at_once_parts_what_is_typed_on() -> None:
    lines = ("The moon must", "be", "far.")
    asked = pasted(typed(Purpose.AFTER, "The ", 4), "moon must\n", True).state
    assert (asked.typed, asked.question) == (Field(Purpose.AFTER, lines[0], 13), None)
    assert asked.message == (
        "Enter came with other keys at once, and ended nothing yet. Press it to end this; what is"
        " typed on is another line."
    )
    for key in "be":
        asked = step(asked, key).state
    assert asked.question and asked.question.lines == lines[:2]
    assert asked.question.is_typed_on
    asked = pasted(asked, "\nfar.\n", True).state
    assert asked.question and asked.question.lines == (*lines, "")
    assert step(asked, "y").asked == TypeAll(Purpose.AFTER, lines)


def test_enter_at_the_end_of_several_lines_that_came_at_once_parts_them_too() -> None:
    asked = pasted(typed(Purpose.AFTER), "One.\nTwo must\n", True).state
    assert asked.question and asked.question.lines == ("One.", "Two must")
    for key in "be":
        asked = step(asked, key).state
    assert asked.question and asked.question.lines == ("One.", "Two must", "be")


def test_how_many_lines_there_are_is_said_of_those_that_are_there() -> None:
    state = typed(Purpose.AFTER, "It rose.")
    state = replace(state, ended=state.typed)
    two = "What is typed has 2 lines. Are they 2 paragraphs?"
    one = "What is typed is 1 line. Shall it be kept?"
    for key, lines, said in (
        (" ", ("It rose.", " "), two),
        ("I", ("It rose.", " I"), two),
        ("backspace", ("It rose.", " "), two),
        ("backspace", ("It rose.", ""), one),
        ("I", ("It rose.", "I"), two),
        ("enter", ("It rose.", "I", ""), two),
    ):
        state = step(state, key).state
        assert state.question and state.question.lines == lines
        assert state.question.sentence == said


def test_nothing_more_is_asked_of_a_line_that_waits_once_all_of_it_is_taken_out() -> (
    None
):
    state = waiting(typed(Purpose.AFTER, ""), Purpose.AFTER, ["I"])
    for key, said in (
        ("t", "What is typed is 1 line. Shall it be kept?"),
        ("backspace", "What is typed is 1 line. Shall it be kept?"),
        ("backspace", None),
    ):
        state = step(state, key).state
        assert (state.question and state.question.sentence) == said
    assert state.typed == Field(Purpose.AFTER) and draft_of(state) is None
    assert step(state, "y").state.typed == Field(Purpose.AFTER, "y", 1)


def test_enter_that_came_at_once_is_forgotten_once_another_key_is_pressed() -> None:
    asked = pasted(typed(Purpose.EDIT, "The moon.", 4), "old\n", True).state
    asked = step(step(asked, "backspace").state, "d").state
    assert asked.question is None
    assert asked.typed == Field(Purpose.EDIT, "The oldmoon.", 7)


def test_what_is_typed_on_at_a_question_about_lines_stands_before_what_followed() -> (
    None
):
    asked = pasted(typed(Purpose.EDIT, "The moon.", 4), "old \n\nnew\n").state
    for key in " n":
        asked = step(asked, key).state
    assert asked.question and asked.question.lines == ("The old", "new nmoon.")
    ended = step(asked, "enter").state
    assert ended.question and ended.question.lines == ("The old", "new n", "moon.")


def test_a_key_at_an_end_leaves_the_cursor_and_the_chosen_cells() -> None:
    state = replace(STATE, pane=Pane.CELLS, anchor=3, place=5)
    moved = step(state, "up").state
    assert (moved.place, moved.anchor, moved.chosen) == (5, 3, 0)


def test_pasted_lines_where_print_is_edited_are_asked_about() -> None:
    state = pasted(typed(Purpose.EDIT, "The moon.", 4), "old \n\nnew\n").state
    assert state.question == Question(
        "The pasted text has 2 lines. Shall the first go on in this paragraph, and the other be"
        " new after it? If not, they are joined.",
        ("The old", "new moon."),
        end=End.LINE,
    )
    joined = step(state, "n").state
    assert joined.typed == Field(Purpose.EDIT, "The old new moon.", 12)
    assert step(state, "y").asked == TypeAll(Purpose.EDIT, ("The old", "new moon."))
    left = step(state, "escape")
    assert (left.asked, left.state) == (GiveUp(), state)


def test_a_pasted_line_goes_in_as_it_is() -> None:
    for text in ("old ", "old \n", "\r\nold "):
        state = pasted(typed(Purpose.EDIT, "The moon.", 4), text).state
        assert state.typed == Field(Purpose.EDIT, "The old moon.", 8)
    # blanks alone are text too
    state = pasted(typed(Purpose.EDIT, "Themoon.", 3), " ").state
    assert state.typed == Field(Purpose.EDIT, "The moon.", 4)


AS_BLANK = "The end of the pasted line is a blank here. Enter ends what is typed."
LEFT_OUT = "The end of the pasted line was left out. Enter ends what is typed."


@pytest.mark.parametrize("ending", ["\n", "\r", "\r\n", "\n \n"])
@pytest.mark.parametrize(
    "before, text, after, wanted, said",
    [
        ("The ", "old", "moon.", "The oldmoon.", ""),
        ("The ", "old|", "moon.", "The old moon.", AS_BLANK),
        ("The ", "old |", "moon.", "The old moon.", LEFT_OUT),
        ("The ", "old|", " moon.", "The old moon.", LEFT_OUT),
        # a blank on both sides is one
        ("The ", "old |", " moon.", "The old moon.", LEFT_OUT),
        ("The ", "| old", "moon.", "The oldmoon.", ""),
        ("The", "|old", " moon.", "The old moon.", ""),
        ("The ", "|old", " moon.", "The old moon.", ""),
        ("", "|old|", "moon.", "old moon.", AS_BLANK),
        ("The moon", "|rose.|", "", "The moon rose.", LEFT_OUT),
        ("The", " ", "moon.", "The moon.", ""),
    ],
)
def test_the_end_of_a_pasted_line_parts_it_from_what_stands_there(
    ending: str, before: str, text: str, after: str, wanted: str, said: str
) -> None:
    for purpose in (Purpose.EDIT, Purpose.AFTER, Purpose.NOTE):
        state = typed(purpose, before + after, len(before))
        state = pasted(state, text.replace("|", ending)).state
        assert (state.typed and state.typed.text, state.message) == (wanted, said)
        assert state.typed and state.typed.back == after


@pytest.mark.parametrize("ending", ["\n", "\r", "\r\n", "\n \n"])
@pytest.mark.parametrize(
    "before, text, after, wanted, typed_on",
    [
        ("The ", "old|new", "moon.", "The old/newmoon.", "The old/newsmoon."),
        ("The ", "old|new|", "moon.", "The old/new moon.", "The old/new smoon."),
        ("The ", "old|new|", " moon.", "The old/new moon.", "The old/new s moon."),
        ("The ", "old|new |", "moon.", "The old/new moon.", "The old/new smoon."),
        ("The", "|old|new", "", "The old/new", "The old/news"),
        ("The ", " old|new|", "", "The old/new", "The old/new s"),
        ("", "|old||new|", "moon.", "old/new moon.", "old/new smoon."),
    ],
)
def test_the_end_of_pasted_lines_parts_them_from_what_stands_there_or_is_typed_on(
    ending: str, before: str, text: str, after: str, wanted: str, typed_on: str
) -> None:
    state = typed(Purpose.EDIT, before + after, len(before))
    asked = pasted(state, text.replace("|", ending)).state
    assert asked.question and asked.question.lines == tuple(wanted.split("/"))
    joined = step(asked, "n").state.typed
    assert joined and (joined.text, joined.back) == (wanted.replace("/", " "), after)
    lines = tuple(typed_on.split("/"))
    for more in ("s", " s") if text[-1] in "| " else ("s",):
        on = step(asked, more[0]).state
        on = step(on, more[1]).state if more[1:] else on
        assert on.question and on.question.lines == lines
        on = pasted(asked, more).state
        assert on.question and on.question.lines == lines
    on = pasted(asked, f"{ending}far{ending}").state
    front = wanted.removesuffix(after).rstrip()
    assert on.question and on.question.lines == (*front.split("/"), "far", after)
    assert on.joined and on.joined.text.split() == (
        f"{front.replace('/', ' ')} far {after}".split()
    )
    assert "  " not in on.joined.text


def test_enter_before_keys_that_came_at_once_ends_what_was_typed() -> None:
    lines = ("It rose.", "It set.")
    asked = pasted(typed(Purpose.AFTER, lines[0]), f"\n{lines[1]}", True).state
    assert asked.question == Question(
        "What is typed has 2 lines. Are they 2 paragraphs?", lines
    )
    # nothing stands before it in an empty paragraph
    state = pasted(typed(Purpose.AFTER), f"\n{lines[1]}", True).state
    assert state.typed == Field(Purpose.AFTER, lines[1], 7)
    # and a word that hands end by Enter is one
    state = pasted(typed(Purpose.EDIT, "The mon.", 5), "oooo\n", True).state
    assert state.typed and state.typed.text == "The mooooon."


def test_pasted_lines_at_a_prompt_are_joined_which_is_said() -> None:
    state = pasted(typed(Purpose.NOTE, "ab", 1), "x\ny").state
    assert state.typed == Field(Purpose.NOTE, "ax yb", 4)
    assert state.message == "The 2 pasted lines were joined."
    state = pasted(typed(Purpose.NOTE, "ab", 1), "\nx\ny\n").state
    assert state.typed == Field(Purpose.NOTE, "a x y b", 6)
    state = pasted(typed(Purpose.WORDS), "moon\nn\n", True).state
    assert state.typed == Field(Purpose.WORDS, "moon n", 6)
    assert state.message == "The 2 lines that came at once were joined."
    state = pasted(typed(Purpose.WORDS), "moon\n", True).state
    assert state.typed == Field(Purpose.WORDS, "moon", 4)
    assert state.message == (
        "Enter came with other keys at once, and ended nothing. Press it to end this."
    )


def test_pasted_lines_with_a_control_character_are_not_typed() -> None:
    state = pasted(typed(Purpose.AFTER), "One\nT\x1bwo").state
    taken = step(state, "y")
    assert (taken.asked, taken.state.question) == (None, state.question)
    assert taken.state.message.startswith("Character 2 of the line is U+001B ESCAPE")


def test_a_size_of_pages_is_kept_and_what_is_none_is_typed_further() -> None:
    asked = step(STATE, "w").state
    assert asked.typed == Field(Purpose.SIZE, "40 25", 5)
    given = step(typed(Purpose.SIZE, "30 10"), "enter").state
    assert (given.page_size, given.typed) == (PageSize(30, 10), None)
    further = step(typed(Purpose.SIZE, "30 1"), "enter").state
    assert (further.page_size, further.typed) == (
        PageSize(),
        Field(Purpose.SIZE, "30 1", 4),
    )


def test_u_names_no_deed_as_the_next_that_has_no_way_back_either() -> None:
    resolved = [Deed(f"mark {number} was resolved") for number in (1, 2)]
    said = step(replace(STATE, deeds=tuple(resolved)), "u").state.message
    assert said == "The book has no way back from this: mark 2 was resolved."


def test_no_other_key_answers_a_question() -> None:
    draft = Field(Purpose.EDIT, "text")
    asked = replace(STATE, question=Question("Further?", draft=draft))
    for key in sorted({*KEYS, "x", "escape"} - {"n"}):
        taken = step(asked, key)
        assert (taken.state.question, taken.asked) == (asked.question, None)
    assert step(asked, "y").state.typed == draft


def test_a_key_that_is_no_answer_is_said_to_be_none_at_each_question() -> None:
    waits = Field(Purpose.EDIT, "text")
    pasted_lines = replace(
        typed(Purpose.AFTER), question=Question("Lines?", ("One.", "Two."))
    )
    for asked in (
        replace(STATE, question=Question("Further?", draft=waits)),
        replace(STATE, question=Question("Further?", draft=waits, older=1)),
        replace(STATE, question=Question("All?", yes=TakeBack())),
        pasted_lines,
    ):
        # at lines letters go on in the last of them
        letters = () if asked is pasted_lines else ("q", "x")
        for key in ("enter", "a-y", "up", *letters):
            taken = step(asked, key)
            assert (taken.state.question, taken.asked) == (asked.question, None)
            assert taken.state.message == "That key is no answer to the question."


def test_pasted_lines_that_wait_from_before_are_asked_about_again() -> None:
    draft = Field(Purpose.BEFORE, "One.\nTwo.")
    asked = replace(STATE, question=Question("Further?", draft=draft))
    state = step(asked, "y").state
    assert state.question and state.question.lines == ("One.", "Two.")
    assert step(state, "y").asked == TypeAll(Purpose.BEFORE, ("One.", "Two."))


def test_all_keys_of_the_book_are_shown_one_a_line() -> None:
    what, lines = keys_of(STATE)
    assert what == "in the book"
    assert all(any(bound.says in line for line in lines) for bound in KEYS.values())
    assert len(lines) == len({bound.says for bound in KEYS.values()})
    assert "k, Ctrl-Up: to the line before in the paragraph" in lines
    assert step(STATE, "?").state.pages == Pages("Keys in the book.", lines)


CHOOSING = replace(STATE, pane=Pane.CELLS, anchor=6, place=6)
LOOKING = replace(STATE, pages=Pages("History of paragraph 4.", ("1: …",)))
LISTED = replace(STATE, pages=Pages("1 heading.", ("The Tides",), targets=(Target(2),)))


@pytest.mark.parametrize(
    "state, key, title, first, last",
    [
        (CHOOSING, "?", "Keys while choosing cells.", "Left, Right", "Tab"),
        (LOOKING, "?", "Keys while looking.", "Up, Down", "Escape, Enter, q"),
        (LISTED, "?", "Keys while looking.", "Enter", "Escape, q"),
        (typed(Purpose.EDIT, "x"), "f1", "Keys while typing.", "Enter", "F1, Alt-?"),
        (typed(Purpose.AFTER), "a-?", "Keys while typing.", "Enter", "F1, Alt-?"),
        (
            typed(Purpose.NOTE, "why"),
            "f1",
            "Keys while typing.",
            "Left, Right",
            "F1, Alt-?",
        ),
    ],
)
def test_the_keys_of_what_is_being_done_are_shown_and_left_again(
    state: State, key: str, title: str, first: str, last: str
) -> None:
    shown = step(state, key).state
    assert shown.pages and shown.pages.title == title
    lines = shown.pages.lines
    assert (lines[0].split(":")[0], lines[-1].split(":")[0]) == (first, last)
    # they are shown once, and Escape goes back to what was being done
    again = step(shown, "f1").state
    assert again == shown.saying("The keys are shown already. Escape goes back.")
    back = step(shown, "escape").state
    assert (back.pages, back.typed, back.anchor) == (
        state.pages,
        state.typed,
        state.anchor,
    )


def test_a_question_mark_is_typed_where_a_text_is() -> None:
    state = step(typed(Purpose.NOTE, "why"), "?").state
    assert (state.typed, state.pages) == (Field(Purpose.NOTE, "why?", 4), None)


def test_pasted_text_goes_into_no_line_that_is_not_seen() -> None:
    shown = step(typed(Purpose.EDIT, "x"), "f1").state
    taken = pasted(shown, "moon")
    assert (taken.asked, taken.state.typed) == (PutBy("moon"), shown.typed)


@pytest.mark.parametrize(
    "asked, wanted",
    [
        ("page 6 line 9", ToPage(6, 9)),
        ("Page 6, line 9", ToPage(6, 9)),
        ("p6 l9", ToPage(6, 9)),
        ("page 6", ToPage(6)),
        ("volume 2 page 6 line 9", ToPage(6, 9, 2)),
        ("vol. 2, p. 6", ToPage(6, 1, 2)),
        ("far away", ToFound("far away")),
        ("page six", ToFound("page six")),
        ("6 9", ToFound("6 9")),
    ],
)
def test_g_goes_to_a_page_and_line_and_to_words(
    asked: str, wanted: ToPage | ToFound
) -> None:
    taken = step(typed(Purpose.NUMBER, asked), "enter")
    assert (taken.asked, taken.state.typed) == (wanted, None)
    if isinstance(wanted, ToFound):
        assert taken.state.sought == asked


def test_enter_in_a_list_goes_to_the_place_of_its_line_with_its_mark_in_hand() -> None:
    lines = ("Mark 1, open, page 1 line 1, paragraph 3, on “sea”: which?", "Mark 2")
    targets = (Target(3, 12, 1), Target(2, 4, 2))
    small = replace(STATE, size=Size(40, 12), pane=Pane.CELLS, anchor=3)
    pages = Pages("2 open marks.", lines, targets=targets)
    # the first one takes two lines of the screen
    for place, wanted in ((0, (2, 12, 1)), (1, (2, 12, 1)), (2, (1, 4, 2))):
        state = replace(small, pages=replace(pages, place=place))
        gone = step(state, "enter").state
        assert gone.in_hand
        assert (gone.chosen, gone.place, gone.in_hand.mark) == wanted
        assert (gone.pages, gone.pane, gone.anchor) == (None, Pane.PRINT, None)
    # on the head of the list it goes back
    gone = step(replace(small, pages=pages), "enter").state
    assert (gone.pages, gone.chosen, gone.in_hand) == (None, 0, None)


#: A text of three lines on a screen of 12 columns.
THREE_LINES = "One, two three, four five, six"


@pytest.mark.parametrize(
    "keys, place, wanted",
    [
        ("down", 0, 9),
        ("down", 4, 13),
        ("down down", 4, 25),
        # the last line is shorter
        ("down", 19, 30),
        ("down up", 3, 3),
        ("end up", 0, 18),
    ],
)
def test_up_and_down_go_by_the_lines_of_the_screen_while_print_is_typed(
    keys: str, place: int, wanted: int
) -> None:
    assert rows(THREE_LINES, 12) == [Span(0, 9), Span(9, 21), Span(21, 30)]
    narrow = replace(STATE, size=Size(12, 12))
    state = replace(narrow, typed=Field(Purpose.AFTER, THREE_LINES, place), table="en")
    for key in keys.split():
        state = step(state, key).state
    assert state.typed == Field(Purpose.AFTER, THREE_LINES, wanted)


def test_print_that_is_too_long_is_asked_about_and_goes_on_in_a_new_paragraph() -> None:
    sentence = "The moon is far away. "
    text = sentence * 182
    assert len(text) == 4_004
    for purpose in (Purpose.AFTER, Purpose.EDIT):
        asked = step(typed(purpose, text), "enter").state
        assert asked.question and asked.question.sentence == (
            "A paragraph has at most 4,000 characters, and this one has 4,004. Shall it go on"
            " in a new paragraph from “The moon is far away. ” on?"
        )
        first = (sentence * 181).rstrip()
        assert step(asked, "y").asked == GoOn(purpose, first, sentence)
        for key in ("n", "escape"):
            stays = step(asked, key).state
            assert (stays.typed, stays.question) == (asked.typed, None)
            assert stays.message == "It stays as it is typed. Enter asks again."
    # as many as a paragraph can have are kept as they are
    assert step(typed(Purpose.AFTER, text[:4_000]), "enter").asked == requests.Type(
        4, "en", text[:4_000], expect=7
    )


def test_a_text_is_parted_at_a_sentence_at_a_blank_or_between_sequences() -> None:
    assert parted("One two. Three four", 12) == ("One two.", "Three four")
    assert parted("“One two.” Three four", 14) == ("“One two.”", "Three four")
    assert parted("One. Two three four", 12) == ("One. Two", "three four")
    assert parted("abcdefgh", 3) == ("abc", "defgh")
    assert parted("abe\u0301\u0301fgh", 3) == ("ab", "e\u0301\u0301fgh")
    # what no print can have is parted all the same
    assert parted("a" + "\u0301" * 5_000, 4_000) == (
        "a" + "\u0301" * 3_999,
        "\u0301" * 1_001,
    )


def test_a_text_that_is_short_enough_in_normal_form_c_is_not_parted() -> None:
    for text in ("One. Two three", "One. Two thre" + "e\u0301"):
        assert parted(text, 14) == (text, "")
    # each of these characters is two in normal form C
    assert parted("\u0958 \u0958 \u0958", 5) == ("\u0958", "\u0958 \u0958")


def test_a_lost_session_is_left_or_opened_again_and_nothing_else() -> None:
    pages = Pages("The session ended.", ("Because.",))
    lost = replace(STATE, is_lost=True, pages=pages)
    for key in [*KEYS, "y", "x"]:
        asked = step(lost, key).asked
        wanted = {"q": Quit(), "enter": OpenAgain()}
        assert asked == wanted.get(key)
    # a screen of few lines has no line of keys
    for key in ("?", "f1", "s", "escape"):
        said = "Enter opens the book again, and q ends. That key does nothing here."
        assert step(lost, key).state == lost.saying(said)
        said = (
            "Enter opens what is at the path, and q ends. That key does nothing here."
        )
        gone = replace(lost, is_displaced=True)
        assert step(gone, key).state == gone.saying(said)


def test_the_openings_of_other_paragraphs_stay() -> None:
    state = replace(STATE, openings={4: Opening("The moon", 1)})
    assert step(state, "down").state.openings == {4: Opening("The moon", 1)}
