"""The page of a paragraph on the screen: it is that of an export of the same size."""

import re
from pathlib import Path

import pytest

from braildesk import Session
import braildesk
from braildesk.desk.layout import PageSize
from braildesk.text.wrapping import wrap

from scribe.screen.pager import seen
from scribe.screen.state import Size
from sitting import Sat, Sit

SHEETS = [
    PageSize(40, 25),
    PageSize(30, 10),
    PageSize(10, 5),
    PageSize(60, 40),
    PageSize(13, 6),
]


@pytest.fixture
def tides(book: Path) -> Path:
    """A book of two volumes, with headings, a long paragraph and one that is struck."""
    with Session(book) as session:
        session.add_paragraph("end", "en", "The Moon")
        session.set_style(1, "heading")
        for count in (3, 40, 1):
            session.add_paragraph("end", "en", "Twice a day the sea comes up. " * count)
        session.strike(4)
        session.add_paragraph("end", "en", "The Tides")
        session.set_style(5, "heading")
        session.set_begins_volume(5, True)
        session.add_paragraph("end", "en", "It goes twice, and comes twice.")
        session.add_paragraph("end", "en", " ")
    return book


#: What the first line of each paragraph begins with, where it is long enough.
FIRST = {
    1: ",THE ,MOON",
    2: ",TWICE A DAY",
    3: ",TWICE A DAY",
    5: ",THE ,TIDES",
    6: ",IT GOES TWICE1",
}


def sized(sat: Sat, page_size: PageSize) -> None:
    """Gives pages a size, by keys."""
    before = f"{sat.state.page_size.width} {sat.state.page_size.lines}"
    sat.press("w", *["backspace"] * len(before))
    sat.write(f"{page_size.width} {page_size.lines}")
    sat.press("enter")


@pytest.mark.parametrize("size", [Size(80, 24), Size(40, 12)])
def test_the_page_and_the_line_of_each_paragraph_are_those_of_an_export(
    tides: Path, sit: Sit, size: Size
) -> None:
    exported = {
        (page_size, volume): braildesk.export(
            tides, volume, page_size.width, page_size.lines
        )
        for page_size in SHEETS
        for volume in (1, 2)
    }
    sat = sit(tides, size=size)
    sat.press("a")
    for page_size in SHEETS:
        sized(sat, page_size)
        for number, first in FIRST.items():
            sat.press("g", str(number), "enter", "p")
            pages = sat.state.pages
            assert pages is not None
            found = re.fullmatch(
                rf"Paragraph {number}, character 1: volume (\d), page (\d+), line (\d+), of"
                rf" {page_size.lines} lines of {page_size.width} cells\.",
                pages.title,
            )
            assert found is not None
            volume, page, line = map(int, found.groups())
            written = exported[page_size, volume].decode().split("\f")[page - 1]
            assert pages.lines == tuple(written.split("\r\n")[:-1])
            words = pages.lines[line - 1].strip()
            assert words and (words.startswith(first) or first.startswith(words))
            looked_at = seen(pages, size)
            assert [*looked_at.head, *looked_at.lines][looked_at.cursor].strip() == (
                wrap(pages.lines[line - 1], size.columns)[0].strip()
            )
            sat.press("escape")


@pytest.mark.parametrize("size", [Size(80, 24), Size(40, 12)])
def test_the_page_is_that_of_the_words_of_the_cursor(
    tides: Path, sit: Sit, size: Size
) -> None:
    page_size = PageSize(30, 10)
    exported = braildesk.export(tides, 1, page_size.width, page_size.lines).decode()
    words = "Twice a day the sea comes up. " * 40
    sat = sit(tides, size=size)
    sat.press("a")
    sized(sat, page_size)
    sat.press("g", "3", "enter")
    for _ in range(14):
        sat.press(*["c-right"] * 19)
        place = sat.state.place
        sat.press("p")
        pages = sat.state.pages
        assert pages is not None
        found = re.fullmatch(
            rf"Paragraph 3, character {place + 1}: volume 1, page (\d+), line (\d+), of"
            r" 10 lines of 30 cells\.",
            pages.title,
        )
        assert found is not None
        page, line = map(int, found.groups())
        lines = exported.split("\f")[page - 1].split("\r\n")
        assert pages.lines == tuple(lines[:-1])
        # the word of the cursor stands on that line, at the same word of the paragraph
        before = len(words[:place].split())
        whole = [
            (number, at, word)
            for number, each in enumerate(exported.split("\f")[:-1], 1)
            for at, text in enumerate(each.split("\r\n")[:-2], 1)
            for word in text.split()
        ]
        # the words of the heading and of the paragraph before stand there first
        assert whole[2 + 21 + before] == (
            page,
            line,
            ",TWICE A DAY THE SEA COMES UP4".split()[before % 7],
        )
        looked_at = seen(pages, size)
        cursor = [*looked_at.head, *looked_at.lines][looked_at.cursor]
        assert cursor.strip() == lines[line - 1].strip()[: size.columns]
        sat.press("escape")
    sat.press("end", "tab", "p")
    assert sat.state.pages
    assert sat.state.pages.title.startswith("Paragraph 3, cell ")


def test_a_paragraph_without_a_page_says_why(tides: Path, sit: Sit) -> None:
    sat = sit(tides)
    sat.press("g", "4", "enter", "p")
    assert "Paragraph 4 is struck, so it is on no page." in sat.lines
    sat.press("g", "7", "enter", "p")
    assert "Paragraph 7 has no words, and takes no line." in sat.lines
    assert sat.state.pages is None


def test_from_a_struck_paragraph_a_page_is_that_of_the_only_volume(
    moon: Path, sit: Sit
) -> None:
    sat = sit(moon)
    sat.press("down", "down", "s", "g", *"page 1 line 1", "enter")
    assert (sat.state.message, sat.state.chosen, sat.state.place) == ("", 0, 0)


def test_a_cell_that_pages_can_not_have_is_said_where_it_is(
    empty_book: Path, sit: Sit
) -> None:
    with Session(empty_book) as session:
        session.put_table("own", b"letter a 1\nletter b 17\n")
        session.add_paragraph("end", "own", "a")
        session.add_paragraph("end", "own", "ab")
    sat = sit(empty_book)
    sat.press("p")
    assert sat.state.message == (
        "Cell 2 of paragraph 2 has dot 7 or 8, which pages for embossers can't have, so volume 1"
        " can't be exported. Correct the table of that paragraph."
    )
