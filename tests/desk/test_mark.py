"""`scribe mark` and `scribe marks`: marks on words, and all marks of a book."""

from pathlib import Path

import pytest
from tool import Ran, scribe

from braildesk import Mark, Session
from braildesk.desk.marks import all_marks, mark_words
from braildesk.desk.places import Words
from braildesk.desk.search import Spot, next_mark

CONTRACTIONS = b"""space \\s 0
letter s 234
letter a 1
letter n 1345
letter d 145
letter t 2345
letter h 125
letter e 15
always and 12346
always the 2346
always nd 56-145
"""


def mark(book: Path, *words: str) -> Ran:
    return scribe("mark", book, *words, folder=book.parent)


def marks(book: Path) -> Ran:
    return scribe("marks", book, folder=book.parent)


def marks_of(book: Path, paragraph: int = 1) -> tuple[Mark, ...]:
    with Session(book) as session:
        return session.marks_of(paragraph)


@pytest.fixture
def moon(book: Path) -> Path:
    with Session(book) as session:
        session.add_paragraph("end", "en", "On 20 July 1969 two men stood there.")
        session.add_paragraph("front", "en", "Two moons")
    return book


def test_a_mark_stands_on_its_words_and_nothing_beside_them(moon: Path) -> None:
    assert mark(moon, "1", "men", "who were they?") == Ran(
        0,
        "Mark 1, open, on “men”: who were they?\n"
        "Paragraph 1: On 20 July 1969 two [men] stood there.\n"
        "The book is at version 4.\n",
        "",
    )
    assert marks_of(moon) == (Mark(1, 20, 23, False, False, "who were they?"),)


def test_a_control_character_of_a_note_is_counted_within_the_note(moon: Path) -> None:
    ran = mark(moon, "1", "men", "who\nwere they?")
    assert (ran.status, ran.shown) == (1, "")
    assert ran.said.startswith(
        "Argument NOTE: Character 4 of the text is U+000A LINE FEED, a control character. "
    )


def test_the_signs_before_a_number_and_a_capital_belong_to_their_characters(
    moon: Path,
) -> None:
    mark(moon, "1", "20 J", "")
    mark(moon, "1", "969", "")
    assert [(each.start, each.stop) for each in marks_of(moon)] == [(3, 7), (12, 15)]


def test_the_nth_place_is_marked(moon: Path) -> None:
    ran = mark(moon, "1", "st", "x")
    assert ran.status == 0  # it stands just once
    assert mark(moon, "1", "o", "x") == Ran(
        2,
        "",
        "Paragraph 1 has “o” 3 times. Say which by --nth. Nothing was changed.\n"
        "--nth 1, character 19: On 20 July 1969 tw[o] men stood there.\n"
        "--nth 2, character 27: On 20 July 1969 two men st[o]od there.\n"
        "--nth 3, character 28: On 20 July 1969 two men sto[o]d there.\n",
    )
    assert mark(moon, "1", "o", "x", "--nth", "2").status == 0
    assert marks_of(moon)[1] == Mark(2, 26, 27, False, False, "x")


@pytest.fixture
def sand(empty_book: Path) -> Path:
    """Print that contractions make into cells together."""
    with Session(empty_book) as session:
        session.put_table("own", CONTRACTIONS)
        session.add_paragraph("end", "own", "the sand ends")
    return empty_book


@pytest.mark.parametrize(
    "words, nth, marked",
    [
        ("san", "1", "sand"),
        ("an", "1", "and"),
        ("d e", "1", "and e"),
        ("he s", "1", "the s"),
        ("e", "1", "the"),
        ("d", "2", "nd"),
        ("n", "2", "nd"),
    ],
)
def test_a_mark_on_a_part_of_a_contraction_is_wider_which_is_said(
    sand: Path, words: str, nth: str, marked: str
) -> None:
    ran = mark(sand, "1", words, "so?", "--nth", nth)
    assert ran.status == 0
    assert ran.shown.startswith(f"Mark 1, open, on “{marked}”: so?\n")
    assert ran.said == (
        f"“{words}” shares its cells with what is beside it, so the mark is on"
        f" “{marked}”.\n"
    )


@pytest.mark.parametrize("words", ["the", "sand", " ", "s", "the sand ends"])
def test_a_mark_on_whole_contractions_is_no_wider(sand: Path, words: str) -> None:
    ran = mark(sand, "1", words, "so?", "--nth", "1")
    assert ran.said == ""
    assert ran.shown.startswith(f"Mark 1, open, on “{words}”: so?\n")


def test_what_cannot_be_marked_is_refused(moon: Path) -> None:
    assert mark(moon, "1", "sun", "x") == Ran(
        2, "", "“sun” isn't in paragraph 1. Nothing was changed.\n"
    )
    assert mark(moon, "1", "", "x").status == 1
    assert mark(moon, "1", "men", "a\x1b[A").status == 1
    assert mark(moon, "9", "men", "x").status == 2
    assert mark(moon, "1", "men", "x" * 501).status == 2
    assert marks_of(moon) == ()


def test_a_struck_paragraph_is_refused_before_it_is_asked_which_place_is_meant(
    moon: Path,
) -> None:
    with Session(moon) as session:
        session.strike(2)
    ran = mark(moon, "2", "o", "which?")
    assert (ran.status, ran.said) == (
        2,
        "Paragraph 2 is struck. No mark was put. Restore it first.\n",
    )
    ran = scribe("change", moon, "2", "o", "u", folder=moon.parent)
    assert ran.said == (
        "Paragraph 2 is struck. Nothing was changed. Restore it first.\n"
    )


def test_all_marks_are_shown_open_ones_first_in_the_order_of_the_book(
    moon: Path,
) -> None:
    mark(moon, "1", "there", "where?")
    mark(moon, "1", "20 July", "the year?")
    mark(moon, "2", "moons", "one moon")
    mark(moon, "1", "men", "who?")
    mark(moon, "1", "two", "")
    with Session(moon) as session:
        session.resolve_mark(2)
        session.correct(1, 20, 3, "women")
    assert marks(moon) == Ran(
        0,
        "Mark 3, open, paragraph 2, on “moons”: one moon\n"
        "Mark 5, open, paragraph 1, on “two”.\n"
        "Mark 4, open, touched, paragraph 1, on “women”: who?\n"
        "Mark 1, open, paragraph 1, on “there”: where?\n"
        "Mark 2, resolved, paragraph 1, on “20 July”: the year?\n",
        "The book has 4 open and 1 resolved marks.\n",
    )


def test_a_book_without_marks_is_said_to_have_none(moon: Path) -> None:
    assert marks(moon) == Ran(0, "", "The book has no marks.\n")


def test_control_characters_of_a_note_are_made_visible(moon: Path) -> None:
    with Session(moon) as session:
        session.add_mark(1, 1, 2, "a\x1b[2Jb\u202e")
    assert marks(moon).shown == (
        "Mark 1, open, paragraph 1, on “On”: a<U+001B>[2Jb<U+202E>\n"
    )


def test_marks_of_20_000_paragraphs_are_found(big_book: Path) -> None:
    assert marks(big_book).said == "The book has no marks.\n"


@pytest.fixture
def marked(moon: Path) -> Path:
    """Four marks in the order 3, 1, 4 and 2 of the book, of which 4 is resolved."""
    with Session(moon) as session:
        mark_words(session, Words(1, "20"), "the day?")
        mark_words(session, Words(1, "there"), "where?")
        mark_words(session, Words(2, "moons"), "one moon")
        mark_words(session, Words(1, "men"), "who?")
        session.resolve_mark(4)
    return moon


def test_marks_may_be_those_of_a_paragraph_and_the_open_ones_alone(
    marked: Path,
) -> None:
    def shown(*words: str) -> list[str]:
        ran = scribe("marks", marked, *words, folder=marked.parent)
        return [line.split(":")[0] for line in (ran.shown + ran.said).splitlines()]

    open_ones = [
        "Mark 3, open, paragraph 2, on “moons”",
        "Mark 1, open, paragraph 1, on “20”",
        "Mark 2, open, paragraph 1, on “there”",
    ]
    resolved = "Mark 4, resolved, paragraph 1, on “men”"
    every = "The book has 3 open and 1 resolved marks."
    assert shown() == [*open_ones, resolved, every]
    assert shown("--open") == [*open_ones, every]
    assert shown("2") == [open_ones[0], "Paragraph 2 has 1 open mark."]
    assert shown("9") == ["The book has no paragraph 9"]


def test_the_next_open_mark_comes_in_the_order_of_the_book(marked: Path) -> None:
    def shown(*words: str) -> list[str]:
        ran = scribe("next", marked, *words, "--width", "60", folder=marked.parent)
        return (ran.shown + ran.said).splitlines()

    assert shown() == [
        "Mark 3, open, paragraph 2, on “moons”: one moon",
        "Paragraph 2: Two [moons]",
        "2 other marks are open.",
    ]
    assert shown("3")[0] == "Mark 1, open, paragraph 1, on “20”: the day?"
    # mark 4, which is resolved, is left out, but may be named
    assert shown("1")[0] == "Mark 2, open, paragraph 1, on “there”: where?"
    assert shown("4")[0] == "Mark 2, open, paragraph 1, on “there”: where?"
    assert shown("2") == [
        *shown()[:2],
        "It is the first of the book again. 2 other marks are open.",
    ]
    assert shown("9") == [
        "The book has no mark 9. The command marks shows which there",
        "are.",
    ]
    with Session(marked) as session:
        session.resolve_mark(1)
        session.resolve_mark(2)
    assert shown("3")[-1] == "No other mark is open."
    with Session(marked) as session:
        session.resolve_mark(3)
    assert shown() == ["The book has no open mark."]


def test_the_next_open_mark_is_said_to_be_in_a_struck_paragraph(marked: Path) -> None:
    with Session(marked) as session:
        session.strike(2)
    ran = scribe("next", marked, folder=marked.parent)
    assert ran.shown.splitlines()[1] == "Paragraph 2, struck: Two [moons]"


def test_marks_of_a_struck_paragraph_are_said_to_be_in_one(marked: Path) -> None:
    with Session(marked) as session:
        session.strike(2)
    shown = marks(marked).shown.splitlines()
    assert shown[0] == "Mark 3, open, paragraph 2, struck, on “moons”: one moon"
    assert shown[1] == "Mark 1, open, paragraph 1, on “20”: the day?"


def test_marks_that_begin_at_one_character_are_listed_as_n_goes_along_them(
    moon: Path,
) -> None:
    with Session(moon) as session:
        mark_words(session, Words(2, "moons"), "which?")
        mark_words(session, Words(2, "moon"), "one?")
        book, spot = session.paragraphs(), Spot(0, 0)
        gone_to = []
        for _ in range(2):
            found = next_mark(session, book, spot, False)
            assert found is not None and not found.is_around
            spot = found.spot
            gone_to.append(spot.mark)
        assert gone_to == [each.mark.id for each in all_marks(session)] == [1, 2]
