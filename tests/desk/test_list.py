"""`scribe list`: each paragraph of a book in short."""

from pathlib import Path

import pytest
from strangers import NEEDS_ROOT, as_stranger, lead_to
from tool import Ran, scribe

from braildesk import Session


def listed(book: Path, *words: str) -> Ran:
    return scribe("list", book, *words, folder=book.parent)


@pytest.fixture
def stars(moon: Path) -> Path:
    """The book of the examples with a heading that begins a volume, and a struck paragraph."""
    with Session(moon) as session:
        session.set_style(2, "heading")
        session.set_begins_volume(2, True)
        session.strike(3)
        session.add_paragraph("front", "en", "")
    return moon


def test_a_line_says_what_each_paragraph_is_and_how_it_begins(stars: Path) -> None:
    assert listed(stars, "--width", "70") == Ran(
        0,
        "Paragraph 4, body, 0 characters\n"
        "Paragraph 1, body, 21 characters: The moon is far away.\n"
        "Paragraph 2, heading, begins a volume, 9 characters: The Tides\n"
        "Paragraph 3, body, struck, 29 characters: Twice a day the sea comes…\n",
        "",
    )


def test_tables_are_named_where_there_are_several(stars: Path) -> None:
    with Session(stars) as session:
        session.set_table(2, "plain")
    assert listed(stars, "--paragraphs", "2").shown == (
        "Paragraph 2, heading, begins a volume, table plain, 9 characters: The Tides\n"
    )


def test_some_paragraphs_are_listed_alone(stars: Path) -> None:
    assert listed(stars, "--paragraphs=-1,3").shown.splitlines() == [
        "Paragraph 4, body, 0 characters",
        "Paragraph 1, body, 21 characters: The moon is far away.",
        "Paragraph 3, body, struck, 29 characters: Twice a day the sea comes up.",
    ]
    assert listed(stars, "--paragraphs", "9") == Ran(
        2, "", "There is no paragraph 9: the book has the paragraphs 1 to 4.\n"
    )


def test_headings_are_listed_alone(stars: Path) -> None:
    assert listed(stars, "--headings").shown.splitlines() == [
        "Paragraph 2, heading, begins a volume, 9 characters: The Tides",
    ]
    given = "list --headings\nlist 1 --headings\n"
    ran = scribe("talk", stars, folder=stars.parent, given=given)
    assert "2, heading, begins a volume, 9 characters: The Tides\n" in ran.shown
    assert ran.said == "There are no headings there.\n"


@NEEDS_ROOT
@pytest.mark.parametrize("way", ["the book", "its folder"])
def test_a_link_of_another_user_that_leads_to_the_book_is_named(
    moon: Path, tmp_path: Path, way: str
) -> None:
    shared, own = tmp_path / "shared", tmp_path / "own"
    shared.mkdir()
    shared.chmod(0o777)
    lead_to(shared)
    to = moon if way == "the book" else moon.parent
    link = shared / "link"
    assert as_stranger(lambda: link.symlink_to(to)) == ""
    own.symlink_to(to)
    names = () if way == "the book" else (moon.name,)
    ran = listed(link.joinpath(*names))
    assert ran.said.splitlines()[0] == (
        f"“{link}” is a link of another user, and leads to “{to}”."
    )
    assert listed(own.joinpath(*names)) == Ran(0, ran.shown, "")


@pytest.mark.parametrize("width", [10, 20, 32, 40, 55])
def test_no_line_is_over_the_width(stars: Path, width: int) -> None:
    ran = listed(stars, "--width", str(width))
    assert max(map(len, ran.shown.splitlines())) <= width


def test_an_empty_book_is_said_to_be_empty(book: Path) -> None:
    assert listed(book) == Ran(0, "", "The book has no paragraphs.\n")


def test_a_talk_lists_paragraphs_by_the_same_word(stars: Path) -> None:
    ran = scribe(
        "talk", stars, "--width", "70", folder=stars.parent, given="list\nlist 2\n"
    )
    assert ran.shown.splitlines()[1:-1] == [
        *listed(stars, "--width", "70").shown.splitlines(),
        "Paragraph 2, heading, begins a volume, 9 characters: The Tides",
    ]
