"""`scribe change`: words put in place of others, by the smallest correction."""

import signal
from pathlib import Path

import pytest
from stand_in import KEPT, KILL_PROGRAM, READ, REPLY, SIGNAL
from terminal import standing_in
from tool import Ran, scribe

from braildesk import Entry, Kind, Session


def change(book: Path, *words: str) -> Ran:
    return scribe("change", book, *words, folder=book.parent)


@pytest.fixture
def moon(book: Path) -> Path:
    with Session(book) as session:
        session.add_paragraph("end", "en", "Two men stood on the mooon, on the mooon.")
        session.add_paragraph("end", "en", "The sea")
        session.strike(2)
    return book


def history(book: Path, paragraph: int = 1) -> tuple[Entry, ...]:
    with Session(book) as session:
        return session.history_of(paragraph)


def test_the_line_is_shown_as_it_is_now_and_as_it_was(moon: Path) -> None:
    assert change(moon, "1", "men", "women") == Ran(
        0,
        "Paragraph 1: Two [women] stood on the mooon, on the mooon.\n"
        "Before: Two [men] stood on the mooon, on the mooon.\n"
        "The book is at version 5.\n",
        "",
    )
    assert history(moon) == (Entry(1, Kind.CORRECT, 4, 0, "wo", None, None),)


def test_a_correction_keeps_the_name_of_its_proofreader(moon: Path) -> None:
    assert change(moon, "1", "Two", "Three", "--by", "anna").status == 0
    assert history(moon) == (Entry(1, Kind.CORRECT, 1, 2, "hree", "anna", None),)


def test_words_that_stand_more_often_are_refused_with_their_places(moon: Path) -> None:
    assert change(moon, "1", "mooon", "moon") == Ran(
        2,
        "",
        "Paragraph 1 has “mooon” 2 times. Say which by --nth. Nothing was changed.\n"
        "--nth 1, character 22: Two men stood on the [mooon], on the mooon.\n"
        "--nth 2, character 36: Two men stood on the mooon, on the [mooon].\n",
    )
    assert history(moon) == ()


def test_the_nth_of_them_is_replaced(moon: Path) -> None:
    assert change(moon, "1", "mooon", "moon", "--nth", "2").shown == (
        "Paragraph 1: Two men stood on the mooon, on the [moon].\n"
        "Before: Two men stood on the mooon, on the [mooon].\n"
        "The book is at version 5.\n"
    )


def test_a_place_that_is_not_there_is_refused(moon: Path) -> None:
    ran = change(moon, "1", "men", "women", "--nth", "2")
    assert ran == Ran(
        2,
        "",
        "Paragraph 1 has “men” once. There is no place 2. Nothing was changed.\n"
        "--nth 1, character 5: Two [men] stood on the mooon, on the mooon.\n",
    )
    assert change(moon, "1", "men", "women", "--nth", "0").status == 1


def test_words_that_stand_nowhere_are_refused(moon: Path) -> None:
    assert change(moon, "1", "sun", "moon") == Ran(
        2, "", "“sun” isn't in paragraph 1. Nothing was changed.\n"
    )


def test_words_that_stand_there_otherwise_are_refused_with_those_that_do(
    moon: Path,
) -> None:
    assert change(moon, "1", "TWO\u00a0men", "moon") == Ran(
        2,
        "",
        "“TWO\u00a0men” isn't in paragraph 1 as typed; with other capitals and another"
        " kind of blank it is “Two men”. Nothing was changed.\n",
    )


def test_words_are_taken_out(moon: Path) -> None:
    assert change(moon, "1", ", on the mooon", "").shown == (
        "Paragraph 1: Two men stood on the mooon[].\n"
        "Before: Two men stood on the mooon[, on the mooon].\n"
        "The book is at version 5.\n"
    )


def test_the_same_words_change_nothing(moon: Path) -> None:
    assert change(moon, "1", "men", "men") == Ran(
        2, "", "The new words are the same as the old. Nothing was changed.\n"
    )


def test_only_marks_whose_own_characters_change_are_touched(moon: Path) -> None:
    with Session(moon) as session:
        men = session.output_position(1, 4)
        session.add_mark(1, men, 3, "who?")
        session.add_mark(1, session.output_position(1, 8), 5, "stood so?")
    # the m and the n of men stay, and what stands in the middle of its mark changes
    assert change(moon, "1", "men stood", "man stood").shown == (
        "Paragraph 1: Two [man stood] on the mooon, on the mooon.\n"
        "Before: Two [men stood] on the mooon, on the mooon.\n"
        "Mark 1, open, touched, on “man”: who?\n"
        "The book is at version 7.\n"
    )
    with Session(moon) as session:
        assert [mark.touched for mark in session.marks_of(1)] == [True, False]


def test_what_the_book_refuses_is_said_and_changes_nothing(moon: Path) -> None:
    ran = change(moon, "1", "men", "mě")
    assert (ran.status, ran.shown) == (2, "")
    assert "“ě” (U+011B LATIN SMALL LETTER E WITH CARON)" in ran.said
    assert change(moon, "2", "sea", "tide").status == 2
    assert change(moon, "9", "sea", "tide").status == 2
    assert history(moon) == ()


@pytest.mark.parametrize("by", [(), ("--by", "anna")])
def test_a_character_that_the_table_lacks_is_counted_in_all_of_the_new_words(
    moon: Path, by: tuple[str, ...]
) -> None:
    assert change(moon, "1", "Two men", "Two měn", *by) == Ran(
        2,
        "",
        "The table of paragraph 1 has no cells for “ě” (U+011B LATIN SMALL LETTER E WITH CARON),"
        " character 6 of the new text: “Two měn”. Nothing was changed.\n",
    )


def test_words_are_compared_and_put_in_normal_form_c(empty_book: Path) -> None:
    table = "letter c 14\nletter a 1\nletter f 124\nletter e 15\nletter é 123456\n"
    with Session(empty_book) as session:
        session.put_table("own", table.encode() + b"letter \\x0301 5\n")
        session.add_paragraph("end", "own", "cafe\u0301")
    assert change(empty_book, "1", "e\u0301", "e").shown == (
        "Paragraph 1: caf[e]\nBefore: caf[é]\nThe book is at version 3.\n"
    )
    assert change(empty_book, "1", "fe", "fe\u0301").status == 0
    with Session(empty_book) as session:
        assert session.print_of(1) == "café"


@pytest.mark.parametrize("words", [("men\x1b", "x"), ("men", "x\x07"), ("", "x")])
def test_words_with_control_characters_and_empty_ones_are_refused(
    moon: Path, words: tuple[str, str]
) -> None:
    ran = change(moon, "1", *words)
    assert (ran.status, ran.shown) == (1, "")
    assert history(moon) == ()


def test_a_long_line_is_shown_around_what_changed(book: Path) -> None:
    with Session(book) as session:
        session.add_paragraph(
            "end", "en", "the sea " * 200 + "moon " + "the sea " * 200
        )
    assert change(book, "1", "moon", "sun", "--width", "50").shown == (
        "Paragraph 1: …sea the sea [sun] the sea the sea…\n"
        "Before: …the sea the sea [moon] the sea the sea…\n"
        "The book is at version 3.\n"
    )


@pytest.fixture
def marked(moon: Path) -> Path:
    """A book with an open mark and a resolved one, between words that are going to change."""
    with Session(moon) as session:
        session.add_mark(1, session.output_position(1, 8), 5, "stood so?")
        session.add_mark(1, session.output_position(1, 14), 2, "on?")
        session.resolve_mark(2)
    return moon


OLD, NEW = "men stood on the mooon,", "women stood on the moon,"


def spans(book: Path) -> list[tuple[str, bool]]:
    """The words on which the marks of a paragraph are, and whether these were touched."""
    with Session(book) as session:
        text, marks = session.print_of(1), session.marks_of(1)
    return [(text[mark.start : mark.stop], mark.touched) for mark in marks]


def test_marks_between_words_that_change_stay_on_their_words(marked: Path) -> None:
    assert change(marked, "1", OLD, NEW, "--by", "anna") == Ran(
        0,
        "Paragraph 1: Two [women stood on the moon,] on the mooon.\n"
        "Before: Two [men stood on the mooon,] on the mooon.\n"
        "These are 2 corrections, so that marks stay on their words: undo takes back one at a"
        " time.\n"
        "The book is at version 9.\n",
        "",
    )
    assert spans(marked) == [("stood", False), ("on", False)]
    assert history(marked) == (
        Entry(1, Kind.CORRECT, 24, 1, "", "anna", None),
        Entry(2, Kind.CORRECT, 4, 0, "wo", "anna", None),
    )
    for _ in range(2):
        assert scribe("undo", marked, "1", folder=marked.parent).status == 0
    with Session(marked) as session:
        assert session.print_of(1) == "Two men stood on the mooon, on the mooon."
    assert spans(marked) == [("stood", False), ("on", False)]


def test_a_mark_on_words_that_change_grows_over_no_others(moon: Path) -> None:
    with Session(moon) as session:
        session.add_mark(1, session.output_position(1, 8), 5, "stood so?")
    ran = change(moon, "1", OLD, "men stand on the moon,")
    assert ran.status == 0
    assert "Mark 1, open, touched, on “stand”: stood so?\n" in ran.shown
    assert "These are 2 corrections, so that marks stay on their words:" in ran.shown
    assert spans(moon) == [("stand", True)]


def test_a_change_around_marks_is_refused_as_a_whole_for_what_the_table_lacks(
    marked: Path,
) -> None:
    for new, number, around in (
        ("women stood on the moěn,", 22, "stood on the moěn,"),
        ("woměn stood on the moon,", 4, "woměn stood on the moon,"),
    ):
        ran = change(marked, "1", OLD, new)
        assert (ran.status, ran.shown) == (2, "")
        assert ran.said == (
            "The table of paragraph 1 has no cells for “ě” (U+011B LATIN SMALL LETTER E WITH"
            f" CARON), character {number} of the new text: “{around}”."
            " Nothing was changed.\n"
        )
    assert history(marked) == ()


HALF_KEPT = "Of 2 corrections 1 is in the book. The book is at version 8.\n"


def test_how_much_of_a_change_is_kept_is_said_where_the_rest_is_refused(
    marked: Path,
) -> None:
    its = standing_in(2, READ, REPLY, "no 15 10000")
    ran = scribe(
        "change", marked, "1", OLD, NEW, folder=marked.parent, before=None, **its
    )
    assert (ran.status, ran.shown) == (2, "")
    assert ran.said.endswith(HALF_KEPT)
    assert "Nothing was changed" not in ran.said
    assert len(history(marked)) == 1


@pytest.mark.parametrize("at, said", [(1, ""), (2, HALF_KEPT)])
def test_how_much_of_a_change_is_kept_is_said_where_its_session_ends(
    marked: Path, at: int, said: str
) -> None:
    its = standing_in(at, READ, KILL_PROGRAM)
    ran = scribe(
        "change", marked, "1", OLD, NEW, folder=marked.parent, before=None, **its
    )
    assert (ran.status, ran.shown) == (3, "")
    version = 6 + at
    assert ran.said.startswith(said)
    assert ran.said.endswith(
        f"The book was opened again: it is at version {version}, as before, and what was"
        " asked last is not in it.\n"
    )
    assert len(history(marked)) == at - 1


def test_how_much_of_a_change_is_kept_is_said_where_it_is_stopped(
    marked: Path,
) -> None:
    its = standing_in(2, KEPT, SIGNAL, "SIGINT")
    ran = scribe(
        "change", marked, "1", OLD, NEW, folder=marked.parent, before=None, **its
    )
    kept = len(history(marked))
    assert (ran.status, ran.shown) == (-signal.SIGINT, "")
    is_are = "is" if kept == 1 else "are"
    assert ran.said == (
        f"Stopped. Of 2 corrections {kept} {is_are} in the book."
        f" The book is at version {7 + kept}.\n"
    )
