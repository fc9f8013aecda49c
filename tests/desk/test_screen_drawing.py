"""The lines of the screen, from a state that is written by hand, without a terminal or a book."""

from dataclasses import replace

import pytest

from braildesk import Mark, Paragraph, Style
from braildesk.desk.change_all import Replacement
from braildesk.desk.highlighting import Highlighted
from braildesk.desk.readings import ParagraphReading
from braildesk.text.spans import Span
from braildesk.text.wrapping import columns

from scribe.screen.actions import ChangePlaces
from scribe.screen.desk import with_preview
from scribe.screen.drawing import Drawing, draw
from scribe.screen.field import Field, Purpose
from scribe.screen.keys import step
from scribe.screen.lines import BOTH, HIGHLIGHTED, MARKED, rows
from scribe.screen.question_rows import moved
from scribe.screen.state import (
    Opening,
    Pages,
    Pane,
    Question,
    Size,
    State,
    Target,
)
from scribe.words.preview import Preview


PRINT = "The moon is far away."
CELLS = "⠠⠞⠓⠑⠀⠍⠕⠕⠝⠀⠊⠎⠀⠋⠁⠗⠀⠁⠺⠁⠽⠲"
FIRST = Paragraph(1, "en", Style.BODY, False, False, 21)
SECOND = Paragraph(2, "en", Style.HEADING, True, True, 9)
MARK = Mark(1, 4, 8, False, False, "spelled so?")
READING = ParagraphReading(FIRST, PRINT, CELLS, (MARK,))
STATE = State(
    "moon.braildesk",
    7,
    (FIRST, SECOND),
    ("en",),
    Size(80, 24),
    openings={1: Opening(PRINT, 1), 2: Opening("The Tides", 0)},
    reading=READING,
    marked_cells=(Span(5, 9),),
    place=5,
    highlighted=Highlighted(Span(5, 6), Span(6, 7)),
    kept="kept: mark 1",
)
SIZES = {
    (80, 24): [
        "moon.braildesk, version 7, table en, last kept: mark 1",
        ">    1 body, 1 open mark: The moon is far away.",
        "     2 heading, volume, struck: The Tides",
        *[""] * 4,
        "-- Paragraph 1, body, table en " + "-" * 49,
        PRINT,
        CELLS,
        *[""] * 8,
        "“o” ⠕, character 6, cell 7",
        "Mark 1, open, on “moon”: spelled so?",
        *[""] * 3,
        "? keys  q ends  Enter edits  o new  u undo  Tab cells  m mark  n next mark  /…",
    ],
    (40, 12): [
        "version 7, table en, last kept: mark 1",
        ">    1 body, 1 open mark: The moon is…",
        "     2 heading, volume, struck: The…",
        "-- Paragraph 1, body, table en ---------",
        PRINT,
        CELLS,
        "",
        "“o” ⠕, character 6, cell 7",
        "Mark 1, open, on “moon”: spelled so?",
        "",
        "",
        "? keys  q ends  Enter edits  o new  u…",
    ],
    (200, 60): [
        "moon.braildesk, version 7, table en, last kept: mark 1",
        ">    1 body, 1 open mark: The moon is far away.",
        "     2 heading, volume, struck: The Tides",
        *[""] * 16,
        "-- Paragraph 1, body, table en " + "-" * 169,
        PRINT,
        CELLS,
        *[""] * 29,
        "“o” ⠕, character 6, cell 7",
        "Mark 1, open, on “moon”: spelled so?",
        *[""] * 6,
        "? keys  q ends  Enter edits  o new  u undo  Tab cells  m mark  n next mark  / find"
        "  x export",
    ],
}


def looks(drawing: Drawing, look: str) -> list[str]:
    """All text that has a look, in its order."""
    return [each.text for line in drawing.lines for each in line if each.look == look]


@pytest.mark.parametrize("size", SIZES)
def test_each_line_is_what_has_to_be_there_at_each_size(size: tuple[int, int]) -> None:
    drawn = draw(replace(STATE, size=Size(*size)))
    assert drawn.texts() == SIZES[size]
    assert all(columns(line) <= size[0] for line in drawn.texts())


def test_the_character_of_the_cursor_its_cells_and_the_marked_words_are_lit() -> None:
    drawn = draw(STATE)
    assert looks(drawn, HIGHLIGHTED) == []
    assert looks(drawn, BOTH) == ["o", "⠕"]
    assert looks(drawn, MARKED) == ["m", "on", "⠍", "⠕⠝"]
    assert drawn.lines[8][2].text == "o" and drawn.cursor == (8, 5)


def test_on_cells_the_cursor_stands_on_the_cell_and_its_characters_are_lit() -> None:
    highlighted = Highlighted(Span(0, 1), Span(0, 1))
    drawn = draw(replace(STATE, pane=Pane.CELLS, place=0, highlighted=highlighted))
    assert looks(drawn, HIGHLIGHTED) == ["T", "⠠"]
    assert drawn.texts()[8:10] == [PRINT, CELLS]
    assert drawn.cursor == (9, 0)


def test_what_belongs_to_the_cursor_and_what_is_marked_is_said_in_words_below() -> None:
    highlighted = Highlighted(Span(0, 1), Span(0, 2))
    drawn = draw(replace(STATE, place=0, highlighted=highlighted))
    assert drawn.texts()[8:10] == [PRINT, CELLS]
    assert drawn.texts()[-6:-4] == [
        "“T” ⠠⠞, character 1, cells 1 to 2",
        "Marked: “moon”.",
    ]


def test_what_the_cursor_stands_on_takes_a_second_line_where_that_is_free() -> None:
    text, cells = f"{'x' * 790}LORD", f"{'⠭' * 567}⠠⠠⠐⠇⠕⠗⠙"
    reading = ParagraphReading(FIRST, text, cells, (MARK,))
    highlighted = Highlighted(Span(790, 791), Span(567, 571))
    its = replace(STATE, reading=reading, place=790, highlighted=highlighted)
    narrow = replace(its, size=Size(40, 12))
    line, marked = "“L” ⠠⠠⠐⠇, character 791, cells 568 to", "Marked: “xxxx”."
    said = ["Mark 1 is resolved. No mark is left in", "the book that is open still."]
    assert draw(narrow).texts()[7:11] == [line, "571", marked, ""]
    drawn = draw(narrow.saying(said[0][:19])).texts()
    assert drawn[7:11] == [line, "571", marked, said[0][:19]]
    drawn = draw(narrow.saying(" ".join(said))).texts()
    assert drawn[7:11] == [f"{line}…", marked, *said]


def test_all_marked_words_of_the_paragraph_are_named_in_their_order_in_one_line() -> (
    None
):
    marks = (
        Mark(1, 12, 15, False, False, "how far?"),
        Mark(2, 4, 8, False, False, "spelled so?"),
        Mark(3, 9, 9, False, True, "which?"),
        Mark(4, 0, 3, True, False, "resolved already"),
        Mark(5, 4, 8, False, False, "whose?"),
    )
    reading = ParagraphReading(FIRST, PRINT, CELLS, marks)
    highlighted = Highlighted(Span(17, 18), Span(18, 19))
    state = replace(STATE, reading=reading, place=17, highlighted=highlighted)
    assert draw(state).texts()[-5] == (
        "Marked: “moon”; no words, at character 10; “far”."
    )
    narrow = draw(replace(state, size=Size(40, 12))).texts()
    assert narrow[-4] == "Marked: “moon”; no words, at character…"
    new = replace(state, typed=Field(Purpose.AFTER, "It", 2))
    assert not any(line.startswith("Marked") for line in draw(new).texts())


def test_dots_7_and_8_say_what_is_marked_and_where_the_cursor_is() -> None:
    dotted = replace(STATE, has_dots=True)
    # dot 7 under the cells of “moon”, and dot 8 under the cell of the cursor
    assert draw(dotted).texts()[8:10] == [PRINT, "⠠⠞⠓⠑⠀⡍⣕⡕⡝⠀⠊⠎⠀⠋⠁⠗⠀⠁⠺⠁⠽⠲"]
    assert "“o” ⠕, character 6, cell 7" in draw(dotted).texts()
    chosen = replace(dotted, pane=Pane.CELLS, anchor=1, place=3)
    assert draw(chosen).texts()[9] == "⠠⢞⢓⢑⠀⡍⡕⡕⡝⠀⠊⠎⠀⠋⠁⠗⠀⠁⠺⠁⠽⠲"
    assert draw(replace(dotted, is_ascii=True)).texts()[9] == ",THE MOON IS FAR AWAY4"


def test_of_a_struck_paragraph_the_keys_are_named_that_do_something_there() -> None:
    state = replace(STATE, chosen=1, size=Size(100, 24), reading=None)
    assert draw(state).texts()[-1] == (
        "? keys  q ends  s restores  o new  u undo  Tab cells  n next mark  / find  x export"
    )
    choosing = replace(state, pane=Pane.CELLS, anchor=0, place=0)
    assert draw(choosing).texts()[-1] == "Left, Right choose more  Space gives them up"


def test_chosen_cells_are_lit_and_counted() -> None:
    highlighted = Highlighted(Span(7, 8), Span(8, 9))
    drawn = draw(
        replace(STATE, pane=Pane.CELLS, place=8, anchor=5, highlighted=highlighted)
    )
    assert looks(drawn, BOTH) == ["n", "⠍⠕⠕⠝"]
    line, place = drawn.cursor
    assert drawn.texts()[line] == CELLS
    assert drawn.texts()[line][place] == "⠝"
    assert "4 cells chosen, at ⠝ “n”, cell 9, character 8" in drawn.texts()
    drawn = draw(
        replace(STATE, pane=Pane.CELLS, place=9, anchor=5, highlighted=highlighted)
    )
    line, place = drawn.cursor
    assert drawn.texts()[line][:place] == "⠠⠞⠓⠑⠀⠍⠕⠕⠝"


def test_braille_ascii_is_shown_where_it_is_wanted() -> None:
    drawn = draw(replace(STATE, is_ascii=True))
    assert ",THE MOON IS FAR AWAY4" in drawn.texts()
    assert "“o” O, character 6, cell 7" in drawn.texts()
    assert "".join(drawn.texts()[:-1]).count("⠕") == 0


def test_what_is_typed_stands_in_place_of_the_print_with_its_braille() -> None:
    typed = Field(Purpose.EDIT, "The mo", 6)
    drawn = draw(replace(STATE, typed=typed, preview=Preview("The mo", "⠠⠞⠓⠑⠀⠍⠕")))
    lines = drawn.texts()
    assert "You are editing paragraph 1." in lines
    assert lines[8:10] == ["The mo", "⠠⠞⠓⠑⠀⠍⠕"]
    assert drawn.cursor == (8, 6)


def test_a_character_that_the_table_lacks_is_said_while_typing() -> None:
    fault = "The table en has no cells for “ö”."
    typed = Field(Purpose.EDIT, "ö", 1)
    drawn = draw(replace(STATE, typed=typed, preview=Preview("ö", fault=fault)))
    assert fault in drawn.texts()


def test_a_note_is_typed_on_the_last_line_and_the_cursor_stands_there() -> None:
    drawn = draw(replace(STATE, typed=Field(Purpose.NOTE, "why?", 2)))
    assert drawn.texts()[-1] == "Note of the mark: why?"
    assert drawn.cursor == (23, 20)


def test_a_question_about_lines_says_how_it_is_answered_while_the_last_is_typed_on() -> (
    None
):
    question = Question("Are they 2 paragraphs?", ("One.", "Two"), is_typed_on=True)
    asked = replace(STATE, typed=Field(Purpose.AFTER), question=question)
    assert draw(asked).texts()[-1] == (
        "Are they 2 paragraphs? Enter ends the last line, and then y is yes, n is no."
    )


def test_a_long_note_is_shown_from_a_word_on_while_it_is_typed() -> None:
    note = "is it far away, or only a little way off"
    narrow = replace(STATE, size=Size(40, 12))
    shown = {}
    for count in range(20, len(note) + 1):
        drawn = draw(replace(narrow, typed=Field(Purpose.NOTE, note[:count], count)))
        assert columns(drawn.texts()[-1]) < 40
        shown[count] = drawn.texts()[-1]
    assert shown[20] == "Note of the mark: is it far away, or o"
    assert shown[21] == "Note of the mark: it far away, or on"
    assert shown[24] == "Note of the mark: far away, or only"
    assert shown[27] == "Note of the mark: away, or only a l"
    assert shown[40] == "Note of the mark: a little way off"


def test_a_long_paragraph_is_shown_around_the_cursor() -> None:
    text = " ".join(f"word{n:04}" for n in range(444))
    cells = text.replace(" ", "\u2800")
    reading = ParagraphReading(FIRST, text, cells, ())
    highlighted = Highlighted(Span(3990, 3991), Span(3990, 3991))
    drawn = draw(replace(STATE, reading=reading, place=3990, highlighted=highlighted))
    line, place = drawn.cursor
    assert drawn.texts()[line].startswith("word") and "word0443" in drawn.texts()[line]
    assert drawn.texts()[line][place - 3 : place + 5] == "word0443"
    assert len(drawn.lines) == 24


def test_the_lines_of_a_long_paragraph_stay_while_the_cursor_goes_through_them() -> (
    None
):
    text = " ".join(f"word{n:04}" for n in range(444))
    reading = ParagraphReading(FIRST, text, text.replace(" ", "\u2800"), ())
    state = replace(STATE, size=Size(40, 12), reading=reading, highlighted=None)
    # a line has four words of nine characters with their blanks, and two lines are seen
    for first in (0, 72, 144):
        seen = [draw(replace(state, place=first + n)).texts()[4:6] for n in range(72)]
        assert seen == [[text[first : first + 35], text[first + 36 : first + 71]]] * 72


def test_wide_and_combining_characters_take_their_columns_and_are_not_cut() -> None:
    text = "月" * 20 + "e\u0301" * 20
    # of 22 columns the last is left free: 10 wide ones; 10 wide ones and one sequence; the others
    assert rows(text, 22) == [
        Span(0, 10),
        Span(10, 22),
        Span(22, 60),
    ]


def test_an_empty_book_says_what_to_do() -> None:
    state = replace(STATE, book=(), openings={}, reading=None, highlighted=None)
    lines = draw(state).texts()
    assert lines[1].startswith("The book has no paragraphs. o types the first one")
    # among several tables one is chosen first, before o types anything
    state = replace(state, tables=("de", "ueb"))
    assert draw(state).texts()[1] == (
        "The book has no paragraphs, but the tables de, ueb. t chooses one for the first."
    )
    lines = draw(replace(state, table="de")).texts()
    assert lines[1].startswith("The book has no paragraphs. o types the first one")


def test_a_question_is_asked_on_the_last_line() -> None:
    drawn = draw(replace(STATE, question=Question("Are they 2 paragraphs?")))
    assert drawn.texts()[-1] == "Are they 2 paragraphs? y is yes, n is no."
    said = draw(replace(STATE, question=Question("Further?"), message="Changed."))
    assert said.texts()[-2:] == ["Changed.", "Further? y is yes, n is no."]


def test_pages_are_looked_at_from_their_top_on() -> None:
    lines = tuple(f"line {n}" for n in range(1, 41))
    drawn = draw(replace(STATE, pages=Pages("All keys.", lines, 10)))
    assert drawn.texts()[1:3] == ["All keys. Lines 11 to 30 of 40.", "line 11"]


def test_what_is_said_below_lines_that_are_looked_at_leaves_them_the_rest() -> None:
    lines = tuple(f"line {n}" for n in range(1, 41))
    said = "That key does nothing here. Escape goes back."
    state = replace(STATE, size=Size(40, 12), pages=Pages("All keys.", lines, 10, 18))
    assert draw(state).texts()[9] == "line 19" and draw(state).cursor == (9, 0)
    drawn = draw(replace(state, message=said))
    assert drawn.texts()[1:3] == ["All keys. Lines 13 to 19 of 40.", "line 13"]
    assert drawn.texts()[8:11] == [
        "line 19",
        "That key does nothing here. Escape goes",
        "back.",
    ]
    assert drawn.cursor == (8, 0)


def test_two_lines_show_what_is_asked_looked_at_or_said_at_the_cursor() -> None:
    state = replace(STATE, size=Size(40, 2))
    asked = Question("It rose. Shall it be typed further?", more="l leaves it.")
    drawn = draw(replace(state, question=asked))
    assert drawn.texts() == [
        "It rose. Shall it be typed further? y is",
        "yes, n is no. l leaves it.",
    ]
    assert drawn.cursor == (1, 0)
    said = "That key is no answer to the question."
    three = draw(replace(state, question=asked, size=Size(40, 3)).saying(said))
    assert three.texts() == [said, *drawn.texts()]
    assert three.cursor == (2, 0)
    looked_at = replace(state, pages=Pages("All keys.", ("Up: goes up", "q: ends")))
    closed = Pages("The book is closed.", ("It is gone.",))
    for shown, line in (
        (looked_at, "All keys. 2 lines."),
        (replace(looked_at, pages=replace(closed, place=0)), "It is gone."),
        (
            replace(state, is_lost=True, pages=closed),
            f"{closed.title} 1 line.",
        ),
        (looked_at.saying("No more."), "No more."),
    ):
        drawn = draw(shown)
        assert drawn.texts() == ["Paragraph 1, body, last kept: mark 1", line]
        assert drawn.cursor == (1, 0)


@pytest.mark.parametrize("count", range(1, 8))
def test_keys_go_through_a_question_that_has_no_room(count: int) -> None:
    words = " ".join(f"It has word {n} of many." for n in range(1, 21))
    asked = Question(f"{words} Shall it be typed further?", more="l leaves it.")
    state = replace(STATE, size=Size(40, count), question=asked).saying("Opened again.")
    looked, read = moved(state, "home"), [""]
    while looked is not None and len(read) < 30:
        drawn = draw(looked)
        assert len(drawn.lines) == count
        read.append(drawn.texts()[drawn.cursor[0]].removesuffix("…"))
        looked = moved(looked, "down")
    title, said, *rows = dict.fromkeys(read[1:])
    assert title == "Paragraph 1, body, last kept: mark 1"
    assert said == "Opened again."
    assert " ".join(rows) == f"{asked.sentence} y is yes, n is no. l leaves it."


@pytest.mark.parametrize("count", [1, 2, 3])
@pytest.mark.parametrize(
    "typed", [None, Field(Purpose.EDIT, "The", 3), Field(Purpose.NOTE, "why?", 4)]
)
def test_keys_go_through_what_is_said_that_has_no_room(
    count: int, typed: Field | None
) -> None:
    words = " ".join(f"It has word {n} of many." for n in range(1, 11))
    state = replace(STATE, size=Size(40, count), typed=typed).saying(words)
    seen: list[list[str]] = []
    looked: State | None = state
    while looked is not None:
        seen.append([each for each in draw(looked).texts() if "word" in each])
        state, looked = looked, moved(looked, "down")
    rows = [
        row.removesuffix("…") for row in [*map(lambda its: its[0], seen), *seen[-1][1:]]
    ]
    assert " ".join(rows) == words
    # beyond its end the keys are those of the book again, and before its front
    for _ in seen[1:]:
        back = moved(state, "up")
        assert back is not None
        state = back
    assert draw(state).texts() == draw(replace(state, said_row=0)).texts()
    assert moved(state, "up") is None and moved(state, "left") is None
    assert moved(replace(state, size=Size(40, 12)), "down") is None


def test_a_question_is_read_from_its_front_where_little_of_it_is_seen() -> None:
    words = "It rose over the old stone pier, and it set. Shall it be typed further?"
    state = replace(STATE, size=Size(40, 2), question=Question(words))
    assert draw(state).texts() == [
        "Paragraph 1, body, last kept: mark 1",
        "It rose over the old stone pier, and it…",
    ]
    # any other key begins anew
    below = moved(state, "end")
    assert below is not None
    assert draw(below).texts() == [
        "set. Shall it be typed further? y is",
        "yes, n is no.",
    ]
    again = step(below, "x").state
    assert draw(again).texts()[1] == "That key is no answer to the question.…"
    assert again.message.endswith(" Up and Down go through it.")
    assert moved(replace(state, size=Size(80, 24)), "down") is None


def test_two_lines_show_what_is_typed_until_a_key_has_something_said() -> None:
    state = replace(STATE, size=Size(40, 2), typed=Field(Purpose.EDIT, "The ☾", 5))
    fault = "“☾” has no cells by the table en."
    state = replace(state, preview=Preview("The ☾", fault=fault))
    assert (draw(state).texts()[1], draw(state).cursor) == ("The ☾", (1, 5))
    # else what was refused looks like what was kept
    refused = draw(state.saying("Nothing was changed."))
    assert (refused.texts()[1], refused.cursor) == ("Nothing was changed.", (1, 0))
    typed = replace(state, typed=Field(Purpose.AFTER, "It", 2), preview=None)
    assert draw(typed).texts() == ["New paragraph, last kept: mark 1", "It"]
    narrow = draw(replace(typed, size=Size(20, 4))).texts()
    assert narrow == ["last kept: mark 1", "It", "New paragraph.", ""]
    # so of a note, which stays as it was typed, below what is said of all of it
    note = replace(state, typed=Field(Purpose.NOTE, "why?", 4, said="On “moon”."))
    drawn = draw(note)
    assert drawn.texts() == ["On “moon”.", "Note of the mark: why?"]
    assert drawn.cursor == (1, 22)
    refused = draw(note.saying("No mark was put."))
    assert (refused.texts()[1], refused.cursor) == ("No mark was put.", (1, 0))


def test_a_long_refusal_leaves_room_for_the_book() -> None:
    drawn = draw(replace(STATE, size=Size(40, 12), message="No, never again. " * 40))
    assert len(drawn.lines) == 12
    assert PRINT in drawn.texts()


@pytest.mark.parametrize("size", [*SIZES, (20, 8)])
def test_what_is_said_is_seen_whole_beside_the_chosen_paragraph(
    size: tuple[int, int]
) -> None:
    said = "“Moon” isn't in the print as typed; with other capitals it is in paragraph 1: * goes there."
    for typed in (None, Field(Purpose.NOTE, "why?", 4), Field(Purpose.EDIT, "The", 3)):
        drawn = draw(replace(STATE, size=Size(*size), message=said, typed=typed))
        lines = drawn.texts()
        assert len(lines) == size[1] and all(columns(each) <= size[0] for each in lines)
        if size == (20, 8) and typed and typed.purpose is Purpose.NOTE:
            assert lines[2:] == [
                "The moon is far",
                "“Moon” isn't in the",
                "print as typed; with",
                "other capitals it is",
                "in paragraph 1: *…",
                "Note of… why?",
            ]
        else:
            assert said in " ".join(lines)
        assert lines[1].startswith(">    1 body")
        assert any(line.startswith("The") for line in lines[2:])


@pytest.mark.parametrize("size", [(80, 24), (40, 12)])
def test_nothing_else_moves_when_something_is_said(size: tuple[int, int]) -> None:
    text = " ".join(f"word{n:04}" for n in range(444))
    long = ParagraphReading(FIRST, text, text.replace(" ", "\u2800"), ())
    for reading in (READING, long):
        for pane in Pane:
            state = replace(STATE, size=Size(*size), reading=reading, pane=pane)
            before = draw(state)
            # a message of one row, and one of as many rows as messages have
            for said in ("Given up.", "This stands nowhere in the whole of the book."):
                after = draw(replace(state, message=said))
                pairs = enumerate(zip(before.lines, after.lines))
                changed = [n for n, (old, new) in pairs if old != new]
                rows_of_said = 2 if len(said) > size[0] else 1
                last = size[1] - 1
                assert changed == list(range(last - rows_of_said, last))
                assert after.cursor == before.cursor


def test_a_long_sentence_covers_the_last_lines_and_the_print_stays() -> None:
    state = replace(STATE, size=Size(40, 12))
    before = draw(state).texts()
    after = draw(replace(state, message="No, this can't be done. " * 7)).texts()
    assert after[:5] == before[:5]
    assert after[5:7] == [
        "“o” ⠕, character 6, cell 7",
        "Mark 1, open, on “moon”: spelled so?",
    ]
    assert after[7].startswith("No, this can't be done.")


def test_of_a_first_word_that_is_longer_than_its_line_the_front_is_listed() -> None:
    openings = {1: Opening("m" * 92 + " is long.", 0), 2: Opening("m" * 9, 0)}
    for width, seen in [
        (90, f"body: {'m' * 75}…"),
        (18, "body: mmm…"),
        (16, "body: m…"),
        (15, "body:…"),
    ]:
        state = replace(STATE, size=Size(width, 24), openings=openings)
        assert draw(state).texts()[1] == f">    1 {seen}"


def test_a_quiet_screen_has_neither_list_nor_keys_nor_the_braille_of_what_is_typed() -> (
    None
):
    quiet = replace(STATE, size=Size(40, 12), is_quiet=True)
    assert draw(quiet).texts() == [
        "version 7, table en, last kept: mark 1",
        "-- Paragraph 1, body, table en ---------",
        PRINT,
        CELLS,
        *[""] * 4,
        "“o” ⠕, character 6, cell 7",
        "Mark 1, open, on “moon”: spelled so?",
        "",
        "",
    ]
    edited = Field(Purpose.EDIT, "The mo", 6)
    preview = Preview("The mo", "⠠⠞⠓⠑⠀⠍⠕")
    assert draw(replace(quiet, typed=edited, preview=preview)).texts() == [
        "version 7, table en, last kept: mark 1",
        "-- Paragraph 1, body, table en ---------",
        "The mo",
        *[""] * 5,
        "You are editing paragraph 1.",
        "Mark 1, open, on “moon”: spelled so?",
        "",
        "",
    ]
    # what can't be written is said all the same
    fault = Preview("ö", fault="The table en has no cells for “ö”.")
    faulty = replace(quiet, typed=Field(Purpose.EDIT, "ö", 1), preview=fault)
    assert draw(faulty).texts()[-1] == "The table en has no cells for “ö”."
    note = draw(replace(quiet, typed=Field(Purpose.NOTE, "why?", 2)))
    assert note.texts()[-1] == "Note of the mark: why?"
    assert note.cursor == (11, 20)


def test_several_marks_at_the_cursor_are_counted_and_a_long_note_is_wrapped() -> None:
    second = Mark(2, 5, 6, False, False, "so? " * 100)
    reading = replace(READING, marks=(second, MARK))
    lines = draw(replace(STATE, size=Size(40, 24), reading=reading)).texts()
    place = lines.index("“o” ⠕, character 6, cell 7")
    assert lines[place + 1 : place + 3] == [
        "2 marks here. Mark 2, open, on “o”: so?",
        "so? so? so? so? so? so? so? so? so? so?",
    ]
    assert (
        lines[-3].endswith("so?…")
        and lines[-2] == "Mark 1, open, on “moon”: spelled so?"
    )
    assert len(lines) - place == 6


def test_a_character_that_can_not_be_seen_is_named_where_the_cursor_is() -> None:
    reading = ParagraphReading(FIRST, "a\u00a0b", "⠁⠀⠃", ())
    highlighted = Highlighted(Span(1, 2), Span(1, 2))
    drawn = draw(
        replace(
            STATE, reading=reading, place=1, highlighted=highlighted, marked_cells=()
        )
    )
    assert "U+00A0 NO-BREAK SPACE ⠀, character 2, cell 2" in drawn.texts()


def test_no_sentence_brings_a_control_character_to_the_screen() -> None:
    evil = "one \u202etwo\x1b[2J"
    for state in (
        replace(STATE, message=evil),
        replace(STATE, question=Question(evil)),
        replace(STATE, pages=Pages(evil, (evil,))),
        replace(STATE, name=evil, openings={1: Opening(evil, 0)}),
        replace(STATE, typed=Field(Purpose.NOTE, evil, 4)),
        replace(STATE, typed=Field(Purpose.EDIT, evil, 4)),
        replace(STATE, kept=evil),
    ):
        text = "".join(draw(state).texts())
        assert "\u202e" not in text and "\x1b" not in text
        assert "<U+202E>two<U+001B>[2J" in text


def test_control_characters_are_written_out_and_the_cursor_stands_after_them() -> None:
    reading = ParagraphReading(FIRST, "a\u200bb", "⠁⠁⠃", ())
    highlighted = Highlighted(Span(2, 3), Span(2, 3))
    drawn = draw(replace(STATE, reading=reading, place=2, highlighted=highlighted))
    assert drawn.texts()[8] == "a<U+200B>b"
    assert drawn.cursor == (8, 9)


def test_a_lost_session_is_said_and_nothing_more_is_asked_for() -> None:
    pages = Pages("The session ended.", ("Because.",))
    typed = Field(Purpose.NOTE, "why?", 4)
    drawn = draw(replace(STATE, is_lost=True, pages=pages, typed=typed))
    assert drawn.texts()[1:3] == ["The session ended. Lines 1 to 1 of 1.", "Because."]
    assert drawn.texts()[-1] == (
        "Enter opens the book again  q ends  Up, Down look further"
    )


def test_the_braille_of_what_was_typed_comes_under_no_other_text() -> None:
    typed = Field(Purpose.EDIT, "The moon", 8)
    asked, preview = replace(STATE, typed=typed), Preview("The moon", "⠠⠞⠓⠑")
    later = replace(asked, typed=typed.inserted("!"))
    assert with_preview(later, asked, preview) == replace(later, preview=preview)
    for other in (
        replace(STATE, typed=None),
        replace(STATE.at(1), typed=typed),
        replace(asked, version=8),
        replace(asked, typed=Field(Purpose.AFTER, "It", 2)),
    ):
        assert with_preview(other, asked, preview) == other


PLACE = (
    "Place 1 of 2, paragraph 1:",
    "[The] moon is far away.",
    "After: [Our] moon is far away.",
)
CHANGED = "Paragraph 3 is changed. 1 more place."


@pytest.mark.parametrize(
    "lines, said, seen",
    [
        (6, "", ["2 places of “The”, to be “Our”. Lines 1", "to 3 of 5.", *PLACE]),
        (6, CHANGED, [*PLACE, "", CHANGED]),
        (5, CHANGED, [*PLACE, CHANGED]),
        (4, "", [*PLACE]),
        (4, CHANGED, [*PLACE, CHANGED]),
        (3, "", [*PLACE]),
        (3, CHANGED, [*PLACE[:2], CHANGED]),
        (2, "", [*PLACE[:2]]),
        (2, CHANGED, [CHANGED]),
        (1, CHANGED, [CHANGED]),
    ],
)
def test_on_few_lines_it_is_seen_what_would_be_changed(
    lines: int, said: str, seen: list[str]
) -> None:
    listed = (*PLACE, "Place 2 of 2, paragraph 2: [The] Tides", "After: [Our] Tides")
    targets = (*(Target(1, nth=0),) * 3, *(Target(2, nth=1),) * 2)
    offer = ChangePlaces(Replacement("The", "Our"), ())
    title = "2 places of “The”, to be “Our”."
    pages = Pages(title, listed, place=0, targets=targets, offer=offer)
    drawing = draw(replace(STATE, size=Size(40, lines), pages=pages, message=said))
    assert drawing.texts()[-len(seen) :] == seen
    assert len(drawing.lines) == lines
    cursor = PLACE[0] if PLACE[0] in seen else CHANGED
    assert drawing.texts()[drawing.cursor[0]] == cursor
