"""Lists to go by on the screen, the marks and the headings with their pages, and the way to a page."""

import re
from pathlib import Path

import pytest

import braildesk
from braildesk import Session
from braildesk.desk.layout import PageSize
from braildesk.desk.proof import proof_pages

from scribe.screen.drawing import draw
from scribe.screen.state import Size
from scribe.words import pagelook
from sitting import Sat, Sit
from tool import Ran, scribe

SENTENCE = "Twice a day the sea comes up. "


@pytest.fixture
def tides(book: Path) -> Path:
    """A book of two volumes with three headings, and marks of which one is resolved."""
    with Session(book) as session:
        session.add_paragraph("end", "en", "The Moon")
        session.set_style(1, "heading")
        session.add_paragraph("end", "en", SENTENCE * 40)
        session.add_paragraph("end", "en", "The Tides")
        session.set_style(3, "heading")
        session.set_begins_volume(3, True)
        session.add_paragraph("end", "en", "It goes twice, and comes twice.")
        session.add_paragraph("end", "en", "Struck out")
        session.set_style(5, "heading")
        session.strike(5)
        # on “comes” in the last sentence of paragraph 2, on its first word, and on “goes”
        session.add_mark(2, session.output_position(2, 39 * 30 + 20), 5, "how often?")
        session.add_mark(2, 0, 6, "once?")
        session.add_mark(4, 4, 4, "where?")
        session.resolve_mark(2)
    return book


def looked_at(sat: Sat) -> str:
    """The row of the screen on which the cursor stands."""
    drawn = draw(sat.state)
    return drawn.texts()[drawn.cursor[0]]


def test_the_marks_are_listed_with_page_and_line_the_open_ones_first(
    tides: Path, sit: Sit
) -> None:
    exported = braildesk.export(tides, 1).decode().split("\f")
    sat = sit(tides)
    sat.press("M")
    assert sat.state.pages
    assert sat.state.pages.title == "2 open marks, 1 resolved."
    assert sat.state.pages.lines[1:] == (
        "Mark 3, open, volume 2, page 1 line 2, paragraph 4, on “goes”: where?",
        "Mark 2, resolved, volume 1, page 1 line 2, paragraph 2, on “Twice”: once?",
    )
    first = sat.state.pages.lines[0]
    found = re.fullmatch(
        r"Mark 1, open, volume 1, page (\d+) line (\d+), paragraph 2, on “comes”: how often\?",
        first,
    )
    assert found is not None
    page, line = map(int, found.groups())
    # the page that is exported has the words there, and the last of them
    rows = exported[page - 1].split("\r\n")
    assert "COMES" in rows[line - 1]
    assert "COMES" not in "".join(rows[line:]) + "".join(exported[page:])
    # the cursor is on the first that comes after it
    assert looked_at(sat) == first


def test_enter_goes_to_the_mark_of_the_line_and_it_is_in_hand(
    tides: Path, sit: Sit
) -> None:
    sat = sit(tides, size=Size(40, 12))
    sat.press("M", "end", "up", "up", "enter")
    assert sat.state.pages is None
    assert (sat.state.chosen, sat.state.place) == (3, 3)
    assert "Mark 3, open, on “goes”: where?" in sat.lines
    # the list opens where its mark is in hand
    sat.press("M", "enter", "r")
    assert sat.state.kept == "kept: mark 3 resolved"
    sat.press("c-home", "M")
    assert sat.state.pages and sat.state.pages.title.startswith("1 open mark, 2")
    sat.press("enter")
    assert (sat.state.chosen, sat.state.place) == (1, 39 * 30 + 20)
    sat.press("r", "M")
    assert sat.state.pages and sat.state.pages.title.startswith("No open marks, 3")


def test_n_goes_from_mark_to_mark_in_their_list(tides: Path, sit: Sit) -> None:
    sat = sit(tides, size=Size(40, 12))
    # on the first mark, which takes three rows here as the second does
    sat.press("M", "n", "enter")
    assert (sat.state.chosen, sat.state.place) == (3, 3)
    sat.press("M", "N", "enter")
    assert (sat.state.chosen, sat.state.place) == (1, 39 * 30 + 20)
    sat.press("M", "n", "n", "n")
    assert sat.state.message == "There are no more places that way."


def test_page_and_line_of_what_is_gone_to_are_said_where_that_is_wanted(
    tides: Path, sit: Sit, monkeypatch: pytest.MonkeyPatch
) -> None:
    sat = sit(tides)
    sat.press("n")
    assert sat.state.message == ""
    sat.press("P")
    assert sat.state.message == (
        "Now n, N, / and * say the page and line to which they go. P ends that."
    )
    sat.press("n")
    assert sat.state.message == "Volume 2, page 1 line 2."
    sat.press("/", *"The Moon", "enter")
    assert sat.state.message == (
        "“The Moon” isn't further on; this is the first in the print of the book. Volume 1, page 1 line 1."
    )
    sat.press("/", *"nowhere", "enter")
    assert sat.state.message == "“nowhere” isn't in the print of the book."
    # a long volume is laid out beside the screen, once
    monkeypatch.setattr(pagelook, "_MANY", 0)
    sat.press("s", "s", "N")
    assert sat.state.message == "Please wait." and sat.state.away
    sat.state = sat.desk.away(sat.state, lambda _: None)
    assert sat.state.message == (
        "No open mark begins further back: this is the last in the book. Volume 2, page 1"
        " line 2."
    )
    sat.press("P", "n")
    assert "page" not in sat.state.message


def test_the_headings_are_listed_with_their_pages_and_gone_to(
    tides: Path, sit: Sit
) -> None:
    sat = sit(tides)
    sat.press("down", "H")
    assert sat.state.pages
    assert sat.state.pages.title == "3 headings."
    assert sat.state.pages.lines == (
        "The Moon, volume 1, page 1 line 1, paragraph 1",
        "The Tides, volume 2, page 1 line 1, paragraph 3",
        "Struck out, struck, on no page, paragraph 5",
    )
    # that of the chosen paragraph
    assert looked_at(sat).startswith("The Moon, ")
    sat.press("down", "enter")
    gone = sat.state
    assert (gone.chosen, gone.place, gone.pages) == (2, 0, None)
    sat.press("H", "escape")
    assert sat.state.chosen == 2 and sat.lines[8] == "The Tides"


def test_books_without_marks_or_headings_say_so(book: Path, sit: Sit) -> None:
    with Session(book) as session:
        session.add_paragraph("end", "en", "The Moon")
    sat = sit(book)
    sat.press("M")
    assert sat.state.message == "The book has no marks."
    sat.press("H")
    assert sat.state.message == "The book has no headings. b makes one of a paragraph."
    sat.press("s", "M")
    assert sat.state.message == "All paragraphs are struck, so the book has no pages."


@pytest.mark.parametrize("page_size", [PageSize(40, 25), PageSize(30, 10)])
def test_each_line_of_each_page_is_gone_to(
    tides: Path, sit: Sit, page_size: PageSize
) -> None:
    pages = braildesk.export(tides, 1, page_size.width, page_size.lines).decode()
    sat = sit(tides)
    sat.press("a", "w", *["backspace"] * 5, *f"{page_size.width} {page_size.lines}")
    sat.press("enter")
    for number, page in enumerate(pages.split("\f")[:-1], 1):
        rows = page.split("\r\n")[: page_size.lines - 1]
        for line, words in enumerate(rows, 1):
            if line not in (1, 2, 5, len(rows)):
                continue
            before = (sat.state.chosen, sat.state.place)
            sat.press("g", *f"volume 1 page {number} line {line}", "enter")
            if not words.strip():
                assert sat.state.message == (
                    f"Page {number} has nothing on line {line}. The cursor stays where it is."
                )
                assert (sat.state.chosen, sat.state.place) == before
                continue
            # the page of the cursor is that one, with the cursor on that line
            sat.press("p")
            assert looked_at(sat).strip() == words.strip()[:80]
            assert sat.state.pages
            assert f"page {number}, line {line}, of" in sat.state.pages.title
            sat.press("escape")


def test_a_word_made_as_one_with_the_end_of_the_word_before_has_its_own_line(
    empty_book: Path, sit: Sit
) -> None:
    table = b"space \\s 0\nletter a 1\nletter b 12\nletter c 14\nalways a\\sb 1-0-12\n"
    with Session(empty_book) as session:
        session.put_table("across", table)
        session.add_paragraph("end", "across", "a a cc bc c")
        session.add_mark(1, 7, 2, "so?")
        # now the mark begins in the middle of what is made as one
        session.correct(1, 6, 0, "a")
        (page,) = proof_pages(session, PageSize(10, 5))
    assert [len(line.marks) for line in page.lines] == [0, 1]
    sat = sit(empty_book)
    sat.press("w", *["backspace"] * 5, *"10 5", "enter", "g", *"page 1 line 2", "enter")
    assert (sat.state.chosen, sat.state.place) == (0, 8)
    sat.press("p")
    assert sat.state.pages and sat.state.pages.lines[:2] == ("⠀⠀⠁⠀⠁⠀⠉⠉⠁", "⠃⠉⠀⠉")
    assert sat.state.pages.title.endswith(
        "character 9: volume 1, page 1, line 2, of 5 lines of 10 cells."
    )
    sat.press("escape", "M")
    listed = "Mark 1, open, page 1 line 2, paragraph 1, on “bc”: so?"
    assert sat.state.pages and sat.state.pages.lines == (listed,)
    sat.press("escape", "P", "c-home", "/", *"bc", "enter")
    assert sat.state.message == "Page 1 line 2."
    # a cell stands where it does
    sat.press("tab", "left", "p")
    assert sat.state.pages and "page 1, line 1, of" in sat.state.pages.title


def test_what_is_no_page_is_said_and_words_are_found(tides: Path, sit: Sit) -> None:
    sat = sit(tides)
    for asked, said in {
        "page 9": "Volume 1 has 2 pages of 25 lines of 40 cells. The cursor stays where it is.",
        "volume 3 page 1": "There is no volume 3: the book has 2.",
        "volume 2 page 1 line 9": "Page 1 has nothing on line 9. The cursor stays where it is.",
        "volume 2 page 1 line 25": "Line 25 of page 1 has only the number of the page."
        " The cursor stays where it is.",
        "volume 2 page 1 line 26": "Page 1 has nothing on line 26. The cursor stays where it is.",
        "page 0": "Volume 1 has 2 pages of 25 lines of 40 cells. The cursor stays where it is.",
        "9": "There is no paragraph 9. The cursor stays where it is.",
    }.items():
        sat.press("g", *asked, "enter")
        assert (sat.state.message, sat.state.chosen) == (said, 0)
    sat.press("g", *"goes twice", "enter")
    assert (sat.state.chosen, sat.state.place) == (3, 3)
    sat.press("g", "3", "enter")
    assert sat.state.chosen == 2
    sat.press("g", *"page 1 line 2", "enter")
    # of the volume of the cursor
    assert (sat.state.chosen, sat.state.place) == (3, 0)
    sat.press("c-end", "g", *"page 1", "enter")
    assert sat.state.message == "Paragraph 5 is struck, so it is on no page."


def test_a_long_book_is_laid_out_beside_the_screen(
    tides: Path, sit: Sit, monkeypatch: pytest.MonkeyPatch
) -> None:
    monkeypatch.setattr(pagelook, "_MANY", 1_000)
    sat = sit(tides)
    for key, title in (("M", "2 open marks, 1 resolved."), ("H", "3 headings.")):
        sat.press(key)
        if key == "M":
            assert sat.state.away is not None
            assert sat.state.message == "Please wait."
            sat.state = sat.desk.away(sat.state, lambda line: None)
        # what was laid out once isn't again until the book changes
        assert sat.state.away is None and sat.state.pages
        assert sat.state.pages.title.startswith(title)
        sat.press("escape")
    sat.press("g", *"page 2", "enter")
    assert (sat.state.away, sat.state.chosen) == (None, 1)
    sat.press("s")
    sat.press("M")
    assert sat.state.pages and "struck, on no page" in sat.state.pages.lines[0]


def test_where_the_cells_can_not_go_on_pages_the_marks_are_listed_without_them(
    empty_book: Path, sit: Sit
) -> None:
    with Session(empty_book) as session:
        session.put_table("own", b"letter a 1\nletter b 17\n")
        session.add_paragraph("end", "own", "ab")
        session.add_mark(1, 0, 1, "why?")
    sat = sit(empty_book)
    sat.press("M")
    why = (
        "Cell 2 of paragraph 1 has dot 7 or 8, which pages for embossers can't have, so volume 1"
        " can't be exported. Correct the table of that paragraph."
    )
    assert sat.state.pages and sat.state.pages.lines == (
        "Mark 1, open, not laid out, paragraph 1, on “a”: why?",
    )
    assert sat.state.pages.title == f"1 open mark. {why}"
    sat.press("escape", "g", *"page 1", "enter")
    assert sat.state.message.startswith("Cell 2 of paragraph 1 has dot 7 or 8")
    # a volume in which nothing is listed isn't spoken of
    sat.press("o", "a", "enter", "escape", "v", "b", "H")
    assert sat.state.pages and sat.state.pages.title == "1 heading."
    assert sat.state.pages.lines == ("a, volume 2, page 1 line 1, paragraph 2",)
    sat.press("escape", "up", "b", "H")
    assert sat.state.pages and sat.state.pages.title == f"2 headings. {why}"
    assert sat.state.pages.lines[0] == "ab, volume 1, not laid out, paragraph 1"


def test_a_mark_without_words_is_on_no_page_also_in_a_volume_that_is_not_laid_out(
    empty_book: Path, sit: Sit
) -> None:
    with Session(empty_book) as session:
        session.put_table("own", b"space \\s 0\nletter a 1\nletter b 17\n")
        session.add_paragraph("end", "own", " ")
        session.add_paragraph("end", "own", "b")
        session.add_mark(1, 0, 1, "why?")
    said = "Mark 1, open, on no page, paragraph 1, on “ ”: why?"
    ran = scribe("marks", empty_book, "--pages", folder=empty_book.parent)
    assert ran == Ran(0, f"{said}\n", "The book has 1 open mark.\n")
    sat = sit(empty_book)
    sat.press("M")
    assert sat.state.pages and sat.state.pages.lines == (said,)
    assert sat.state.pages.title == "1 open mark."
