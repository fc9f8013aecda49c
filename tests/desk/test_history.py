"""`scribe history`: who changed what, as far as a book keeps it."""

import sys
from pathlib import Path

import pytest
from hypothesis import HealthCheck, given, settings
from hypothesis import strategies as st
from tool import Ran, scribe

from braildesk import Entry, Kind, Refused, Session
from braildesk.desk.history import UNKNOWN, steps


def history(book: Path, *words: str) -> Ran:
    return scribe("history", book, *words, folder=book.parent)


@pytest.fixture
def men(book: Path) -> Path:
    """A book whose first paragraph was corrected by three hands, and its third once."""
    with Session(book) as session:
        session.add_paragraph("end", "en", "Two men stood on the mooon.")
        session.add_paragraph("end", "en", "The sea")
        session.add_paragraph("front", "en", "The Moon")
        session.correct(1, 21, 5, "moon", by="bob")
        session.correct(1, 4, 0, "wo", by="anna")
        session.undo(1)
        session.correct(1, 0, 3, "Three")
        session.correct(3, 4, 4, "", by="bob")
    return book


def test_each_entry_is_shown_with_who_and_for_what_the_newest_first(men: Path) -> None:
    # the book keeps no characters that a correction took out, unless they stand there again
    assert history(men, "--width", "80") == Ran(
        0,
        "Paragraph 3, correction 1, by bob, for 4 characters: The []\n"
        "Paragraph 1, correction 4, for 3 characters: [Three] men stood on the moon.\n"
        "Paragraph 1, correction 2 taken back: … [men] stood on the moon.\n"
        "Paragraph 1, correction 2, by anna, for “men”: … [women] stood on the moon.\n"
        "Paragraph 1, correction 1, by bob, for 6 characters: … men stood on the [moon.]\n",
        "",
    )


def test_characters_beside_a_correction_that_are_not_known_are_none_that_it_replaced(
    book: Path,
) -> None:
    with Session(book) as session:
        session.add_paragraph("end", "en", "The cat sat on the mat that night.")
        session.correct(1, 4, 0, "XX", by="bob")
        session.correct(1, 4, 25, "A dog lay under a tree", by="alice")
    assert history(book, "1", "--width", "80").shown.splitlines()[1] == (
        "Paragraph 1, correction 1, by bob: The [XX]… night."
    )


def test_one_paragraph_or_one_proofreader_is_shown_alone(men: Path) -> None:
    assert [line[:28] for line in history(men, "1").shown.splitlines()] == [
        "Paragraph 1, correction 4, f",
        "Paragraph 1, correction 2 ta",
        "Paragraph 1, correction 2, b",
        "Paragraph 1, correction 1, b",
    ]
    assert [line[:34] for line in history(men, "--by", "bob").shown.splitlines()] == [
        "Paragraph 3, correction 1, by bob,",
        "Paragraph 1, correction 1, by bob,",
    ]
    assert history(men, "--by", "anna", "--width", "80").shown == (
        "Paragraph 1, correction 2 taken back: … [men] stood on the moon.\n"
        "Paragraph 1, correction 2, by anna, for “men”: … [women] stood on the moon.\n"
    )
    assert history(men, "--by", "carl") == Ran(
        0, "", "There is no correction by “carl”. There are some by anna, bob.\n"
    )


def test_where_nothing_was_corrected_that_is_said(men: Path) -> None:
    assert history(men, "2") == Ran(
        0, "", "Nothing was corrected in paragraph 2 yet.\n"
    )
    assert history(men, "2", "--by", "bob").said == (
        "There is no correction by “bob” in paragraph 2, nor by anybody with a name.\n"
    )
    assert history(men, "4") == Ran(
        2, "", "There is no paragraph 4: the book has the paragraphs 1 to 3.\n"
    )
    assert history(men, "x").status == 1


@pytest.mark.parametrize("width", [16, 30, 40, 72])
def test_no_line_is_over_the_width(men: Path, width: int) -> None:
    shown = history(men, "--width", str(width)).shown.splitlines()
    assert max(map(len, shown)) <= width


def test_a_talk_tells_the_history_by_the_same_word(men: Path) -> None:
    given = "history\nhistory 1\nhistory 2\n"
    # whoever talks sees what others changed too
    words = ("--width", "80", "--by", "nobody")
    ran = scribe("talk", men, *words, folder=men.parent, given=given)
    assert ran.shown.splitlines()[1:-1] == [
        *history(men, "--width", "80").shown.splitlines(),
        *history(men, "1", "--width", "80").shown.splitlines(),
    ]
    assert ran.said == "Nothing was corrected in paragraph 2 yet.\n"


EDIT = st.one_of(
    st.none(),
    st.tuples(st.integers(0, 9), st.integers(0, 4), st.text("xyz ", max_size=3)),
)


@settings(
    max_examples=30,
    deadline=None,
    suppress_health_check=[HealthCheck.function_scoped_fixture],
)
@given(st.text("abc ", max_size=9), st.lists(EDIT, max_size=12))
def test_prints_are_found_again_as_far_as_their_characters_are_known(
    session: Session, text: str, edits: list[tuple[int, int, str] | None]
) -> None:
    number = session.add_paragraph("end", "en", text).id
    prints = [text]
    for edit in edits:
        try:
            if edit is None:
                session.undo(number)
            else:
                session.correct(number, *edit)
        except Refused:
            continue
        prints.append(session.print_of(number))
    found = steps(number, prints[-1], session.history_of(number))
    assert len(found) == len(prints) - 1
    for step, before, after in zip(found, prints, prints[1:]):
        whole = step.before + step.came + step.after
        assert is_like(whole, after)
        assert is_like(step.before + step.went + step.after, before)
    if found:
        last = found[-1]
        assert last.before + last.came + last.after == prints[-1]


def test_an_entry_of_a_long_history_takes_few_steps() -> None:
    now, calls = " x " * 700, 0
    entries = [
        Entry(seq, Kind.CORRECT, 3 * seq + 1, 1, "x", None, None)
        for seq in range(1, 100)
    ]

    def counted(frame: object, event: str, argument: object) -> None:
        nonlocal calls
        calls += event in ("call", "c_call")

    sys.setprofile(counted)
    try:
        found = steps(1, now, entries)
    finally:
        sys.setprofile(None)
    assert [(each.came, each.went) for each in found] == [("x", UNKNOWN)] * 99
    assert calls < len(now) * len(entries) / 10


def is_like(found: str, text: str) -> bool:
    """Whether a text is another in which an ellipsis stands for characters."""
    first, *others = found.split(UNKNOWN)
    if not text.startswith(first):
        return False
    place = len(first)
    for part in others:
        place = text.find(part, place + 1 - (not part)) if part else place
        if place < 0:
            return False
        place += len(part)
    return not others or others[-1] == "" or text.endswith(others[-1])
