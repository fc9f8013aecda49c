"""`scribe change-all`: words replaced wherever they stand, by the smallest corrections."""

import os
import re
import shutil
import signal
import subprocess
import sys
from collections.abc import Callable
from io import BytesIO, StringIO
from pathlib import Path

import pytest
from hypothesis import HealthCheck, given, settings
from hypothesis import strategies as st
from prompted import Prompted
from sitting import Sit
from stand_in import KEPT, KILL_SCRIBE
from terminal import once_free, standing_in
from tool import Ran, environment, scribe

from braildesk import Entry, Kind, Session
from braildesk.desk.change import Change, change_place
from braildesk.desk.change_all import (
    NotChanged,
    Proposal,
    Replacement,
    change_proposed,
    proposals,
)
from braildesk.desk.change_note import Became, ChangeNote, NotedPlace
from braildesk.desk.changed_so_far import left_open
from braildesk.desk.drafts import Drafts
from braildesk.desk.ranges import ParagraphRange
from braildesk.desk.tables import FOLDER
from braildesk.text.spans import Span
from scribe.cli import run_words
from scribe.words.change_all import (
    cut_short,
    not_seen,
    proposal_lines,
    ranges_named,
)
from scribe.words.console import Console
from scribe.words.status import Interrupted


def changed(book: Path, *words: str, given: str = "") -> Ran:
    return scribe("change-all", book, *words, folder=book.parent, given=given)


def prints(book: Path) -> list[str]:
    with Session(book) as session:
        return [session.print_of(each.id) for each in session.paragraphs()]


@pytest.fixture
def moons(book: Path) -> Path:
    """A book with a word in three paragraphs, of which the last is struck."""
    with Session(book) as session:
        session.add_paragraph("end", "en", "The mooon and the Mooon.")
        session.add_paragraph("end", "en", "A mooonlit mooon")
        session.add_paragraph("end", "en", "No mooon")
        session.strike(3)
    return book


def test_each_place_is_shown_after_and_before_and_all_are_counted(moons: Path) -> None:
    assert changed(moons, "mooon", "moon", "--in", "1-2", "--by", "anna") == Ran(
        0,
        "Paragraph 1: The [moon] and the Mooon.\n"
        "Before: The [mooon] and the Mooon.\n"
        "Paragraph 2: A [moon]lit mooon\n"
        "Before: A [mooon]lit mooon\n"
        "Paragraph 2: A moonlit [moon]\n"
        "Before: A moonlit [mooon]\n",
        "“mooon” was replaced by “moon” in 3 places of 2 paragraphs.\n"
        "The book is at version 8.\n",
    )
    with Session(moons) as session:
        # one letter goes, and the others stay
        assert session.history_of(1) == (
            Entry(1, Kind.CORRECT, 7, 1, "", "anna", None),
        )
        assert len(session.history_of(2)) == 2


def test_a_mark_between_two_changes_of_a_place_is_touched_as_is_said(
    moons: Path,
) -> None:
    with Session(moons) as session:
        session.add_mark(1, session.output_position(1, 10), 3, "so?")
    ran = changed(moons, "The mooon and", "The moon and")
    assert "Mark 1" not in ran.shown
    ran = changed(moons, "moon and the", "sun and a")
    assert ran.shown.endswith("Mark 1, open, touched, on “sun and a”: so?\n")
    said = "A mark between two changes of one place is touched, and covers both then."
    shown = scribe("change-all", "--help", folder=moons.parent).shown
    assert said in " ".join(shown.split())


def test_what_is_refused_stays_and_is_listed_with_the_reason(moons: Path) -> None:
    ran = changed(moons, "mooon", "moon")
    assert ran.status == 2
    assert ran.shown.count("Before: ") == 3
    assert ran.said == (
        "Refused in paragraph 3, character 4: Paragraph 3 is struck. Restore it first.\n"
        "“mooon” was replaced by “moon” in 3 places of 2 paragraphs.\n"
        "1 place was refused and stays as before.\n"
        "The book is at version 8.\n"
    )
    assert prints(moons)[2] == "No mooon"
    ran = changed(moons, "mooon", "mě", "--in", "3-")
    assert (ran.status, ran.shown) == (2, "")
    assert "“mooon” was replaced by “mě” nowhere.\n1 place was refused" in ran.said


def test_whole_words_alone(moons: Path) -> None:
    assert changed(moons, "mooon", "sun", "--words", "--in", "2").status == 0
    assert prints(moons)[1] == "A mooonlit sun"
    assert changed(moons, "moo", "sun", "--words") == Ran(
        2,
        "",
        "“moo” isn't in the print of the book as whole words. Nothing was changed.\n",
    )


def test_other_capitals_are_changed_too_and_kept(moons: Path) -> None:
    assert changed(moons, "mooon", "sun", "--case", "--in", "1").status == 0
    assert prints(moons)[0] == "The sun and the Sun."


def test_ss_is_no_other_capital_of_another_letter(empty_book: Path) -> None:
    with Session(empty_book) as session:
        session.put_table("ueb", (FOLDER / "ueb.utb").read_bytes())
        session.add_paragraph("end", "ueb", "Die Masse, die Maße, die Straße’s")
    ran = changed(empty_book, "masse", "menge", "--case")
    assert ran.said.splitlines()[0] == (
        "“masse” was replaced by “menge” in 1 place of 1 paragraph."
    )
    assert prints(empty_book) == ["Die Menge, die Maße, die Straße’s"]
    for old, how in (
        ("Strasse", "a letter written otherwise"),
        ("Straße's", "another apostrophe"),
    ):
        assert changed(empty_book, old, "Wege", "--case") == Ran(
            2,
            "",
            f"“{old}” isn't in the print of the book as typed. With {how} it is there once. Nothing was"
            " changed.\n",
        )


@pytest.mark.parametrize(
    "gone, new, comes",
    [
        ("moon", "Sun", "Sun"),
        ("Moon", "sun", "Sun"),
        ("MOON", "sun", "SUN"),
        ("mOON", "Sun", "sun"),
        ("MOon", "sun", "Sun"),
        ("mOON", "SUN", "SUN"),
        ("Moon", "", ""),
    ],
)
def test_new_words_take_the_capitals_of_those_that_go(
    gone: str, new: str, comes: str
) -> None:
    assert Replacement("moon", new, is_of_any_case=True).comes(gone) == comes


def test_nothing_is_changed_where_it_is_only_shown(moons: Path) -> None:
    ran = changed(moons, "mooon", "moon", "--in", "1", "--dry-run")
    assert ran == Ran(
        0,
        "Place 1 of 1, paragraph 1: The [mooon] and the Mooon.\n"
        "After: The [moon] and the Mooon.\n",
        "“mooon” would be changed in 1 place of 1 paragraph, unless the book refuses a place."
        " Nothing was changed.\n",
    )
    assert prints(moons)[0] == "The mooon and the Mooon."


def test_places_in_struck_paragraphs_are_not_counted_as_changed(moons: Path) -> None:
    ran = changed(moons, "mooon", "moon", "--dry-run")
    assert (ran.status, ran.said) == (
        0,
        "“mooon” would be changed in 3 places of 2 paragraphs, unless the book refuses a"
        " place. 1 place of 1 struck paragraph would be refused. Nothing was changed.\n",
    )
    for new, how in (("u", "changed"), ("", "taken out")):
        ran = changed(moons, "o", new, "--in", "3-", "--dry-run")
        assert ran.said == (
            f"“o” would be {how} nowhere. 4 places of 1 struck paragraph would be refused."
            " Nothing was changed.\n"
        )


def test_places_where_the_new_words_stand_already_are_not_counted(moons: Path) -> None:
    words = "mooon", "Mooon", "--case", "--in", "1-2"
    ran = changed(moons, *words, "--dry-run")
    assert ran.shown.startswith("Place 1 of 3, paragraph 1: The [mooon] and the Mooon.")
    assert ran.said == (
        "“mooon” would be changed in 3 places of 2 paragraphs, unless the book refuses a"
        " place. Nothing was changed.\n"
    )
    ran = changed(moons, *words, "--ask", given="no\nyes\nno\n")
    assert "Place 2 of 3, paragraph 2: A [mooon]lit mooon" in ran.shown
    assert prints(moons)[:2] == ["The mooon and the Mooon.", "A Mooonlit mooon"]


@pytest.mark.parametrize(
    "how, where",
    [
        ("--dry-run", ""),
        ("--ask", ""),
        ("--words", " as whole words"),
        ("--in=4", " in these paragraphs"),
    ],
)
def test_new_words_that_stand_everywhere_already(
    moons: Path, how: str, where: str
) -> None:
    with Session(moons) as session:
        session.add_paragraph("end", "en", "Tides and Tides")
        if where:
            session.add_paragraph("end", "en", "ebbtides")
    assert changed(moons, "tides", "Tides", "--case", how) == Ran(
        2,
        "",
        f"The new words are the same wherever “tides” stands{where}. Nothing was changed.\n",
    )


def test_places_that_would_stay_the_same_are_not_said_to_be_changed(
    empty_book: Path,
) -> None:
    with Session(empty_book) as session:
        session.supply_table("en")
        session.add_paragraph("end", "en", "Sun SUN sun")
    ran = changed(empty_book, "Sun", "sun", "--case", "--dry-run")
    assert ran.said.startswith("“Sun” would be changed in 1 place of 1 paragraph, ")
    ran = changed(empty_book, "Sun", "sun", "--case")
    assert ran.said.startswith("“Sun” was replaced by “sun” in 1 place of 1 paragraph.")
    assert prints(empty_book) == ["sun SUN sun"]


def test_each_place_is_asked_about(moons: Path) -> None:
    ran = changed(moons, "mooon", "moon", "--ask", given="\nperhaps\nno\nY\nstop\n")
    assert ran.status == 0
    assert ran.shown.splitlines()[:6] == [
        "Place 1 of 4, paragraph 1: The [mooon] and the Mooon.",
        "After: The [moon] and the Mooon.",
        "Place 2 of 4, paragraph 2: A [mooon]lit mooon",
        "After: A [moon]lit mooon",
        "Paragraph 2: A [moon]lit mooon",
        "Before: A [mooon]lit mooon",
    ]
    assert ran.said.count("Change it? Type yes, no, all or stop.\n") == 5
    assert ran.said.endswith(
        "“mooon” was replaced by “moon” in 1 place of 1 paragraph.\n"
        "3 places stay as before.\nThe book is at version 6.\n"
    )
    assert prints(moons) == ["The mooon and the Mooon.", "A moonlit mooon", "No mooon"]


@pytest.mark.parametrize(
    "given, wanted", [("", 0), ("n\nall\n", 2), ("yes\n", 1), ("a\n", 3)]
)
def test_an_answer_for_all_the_rest_and_the_end_of_the_input(
    moons: Path, given: str, wanted: int
) -> None:
    ran = changed(moons, "mooon", "moon", "--ask", "--in", "1-2", given=given)
    assert (ran.status, ran.shown.count("Before: ")) == (0, wanted)


@pytest.mark.parametrize(
    "words, status, sentence",
    [
        (
            ("sun", "moon"),
            2,
            "“sun” isn't in the print of the book. Nothing was changed.",
        ),
        (
            ("MOOON", "moon"),
            2,
            "“MOOON” isn't in the print of the book as typed. With other capitals it is there 5 times, in 3"
            " paragraphs; --case changes other capitals too. Nothing was changed.",
        ),
        (
            ("sun", "moon", "--in", "1"),
            2,
            "“sun” isn't in these paragraphs. Nothing was changed.",
        ),
        (
            ("mooon", "mooon"),
            2,
            "The new words are the same as the old. Nothing was changed.",
        ),
        (
            ("mooon", "moon", "--in", "2-9"),
            2,
            "There is no paragraph 9: the book has the paragraphs 1 to 3.",
        ),
        (
            ("", "moon"),
            1,
            "Argument OLD: it is empty, and nothing can be looked for.",
        ),
        (
            ("mooon", "x", "--ask", "--dry-run"),
            1,
            "Argument --dry-run: not allowed with argument --ask.",
        ),
    ],
)
def test_what_can_not_be_done_is_said(
    moons: Path, words: tuple[str, ...], status: int, sentence: str
) -> None:
    ran = changed(moons, *words)
    assert (ran.status, ran.shown) == (status, "")
    assert ran.said.startswith(sentence + "\n")
    assert prints(moons)[0] == "The mooon and the Mooon."


def test_where_it_is_stopped_it_is_said_what_is_in_the_book(
    moons: Path, monkeypatch: pytest.MonkeyPatch
) -> None:
    left = [2]

    def stopped(
        session: Session, number: int, text: str, place: Span, new: str, by: str | None
    ) -> Change:
        change = change_place(session, number, text, place, new, by)
        left[0] -= 1
        if not left[0]:
            raise KeyboardInterrupt
        return change

    monkeypatch.setattr("braildesk.desk.change_all.change_place", stopped)
    shown, said = StringIO(), StringIO()
    with pytest.raises(Interrupted):
        run_words(
            ["change-all", str(moons), "mooon", "moon"],
            Console(BytesIO(), shown, said),
        )
    assert said.getvalue() == (
        "Stopped. Of 4 places 2 are changed in the book. The book is at version 7.\n"
    )
    assert prints(moons) == ["The moon and the Mooon.", "A moonlit mooon", "No mooon"]
    monkeypatch.setattr("braildesk.desk.change_all.change_place", change_place)
    ran = changed(moons, "mooon", "moon", "--ask", given="no\nno\n")
    assert ran.said.startswith(
        "Changing “mooon” to “moon” was cut short: 2 of 4 places are changed already.\n"
    )


@pytest.fixture
def tides(empty_book: Path) -> Path:
    """A book with words that stand in the new ones too."""
    with Session(empty_book) as session:
        session.supply_table("en")
        for text in ("The tide", "a tide and tide", "tides of tide", "a    b"):
            session.add_paragraph("end", "en", text)
    return empty_book


def killed(book: Path, name: str, *words: str, at: int = 2, given: str = "") -> None:
    """Changes words until scribe is killed once a command is kept."""
    its = standing_in(at, KEPT, KILL_SCRIBE)
    ran = scribe(
        name, book, *words, folder=book.parent, given=given, before=None, **its
    )
    assert ran.status == -signal.SIGKILL
    once_free(book).close()


@pytest.mark.parametrize(
    "words, status, said",
    [
        (("--in", "4"), 2, "“tide” isn't in these paragraphs. Nothing was changed."),
        (
            ("--in", "1", "--words"),
            2,
            "“tide” isn't in these paragraphs as whole words. Nothing was changed.",
        ),
        (
            ("--in", "1"),
            0,
            "There are no more places to change in these paragraphs.",
        ),
    ],
)
def test_places_that_are_left_are_not_said_to_be_none_where_fewer_are_looked_for(
    tides: Path, words: tuple[str, ...], status: int, said: str
) -> None:
    killed(tides, "change-all", "tide", "tides")
    cut = "Changing “tide” to “tides” was cut short: 2 of 5 places are changed already."
    assert changed(tides, "tide", "tides", *words) == Ran(
        status, "", f"{cut}\n{said}\n"
    )
    (note,) = Drafts(tides).changes()
    assert len(note.places) == 5


def test_other_capitals_that_are_left_are_not_said_to_be_none(tides: Path) -> None:
    with Session(tides) as session:
        session.correct(3, 0, 13, "Tide")
    killed(tides, "change-all", "tide", "tides", "--case", "--in", "1,3", at=1)
    ran = changed(tides, "tide", "tides", "--in", "1,3")
    assert (ran.status, ran.said.splitlines()[1]) == (
        0,
        "There are no more places to change in these paragraphs with these capitals.",
    )


def test_what_was_cut_short_stays_noted_while_fewer_of_its_places_are_changed(
    tides: Path, sit: Sit
) -> None:
    killed(tides, "change-all", "tide", "tides")
    assert changed(tides, "tide", "tides", "--words").status == 0
    sat = sit(tides)
    assert sat.state.question and " 4 of 5 places are" in sat.state.question.sentence
    sat.desk.close()
    assert changed(tides, "tide", "tides").status == 0
    rest = ["tidess of tides", "a    b"]
    assert prints(tides) == ["The tides", "a tides and tides", *rest]
    assert Drafts(tides).changes() == ()


def test_what_is_all_done_takes_nothing_away_that_is_noted_of_other_places(
    tides: Path,
) -> None:
    drafts = Drafts(tides)
    for became, number, ranges in (
        (Became.CHANGED, 1, (ParagraphRange(),)),
        (Became.OPEN, 2, (ParagraphRange(2, 3),)),
    ):
        length = 8 if number == 1 else 15
        place = NotedPlace(number, length, 4 if number == 1 else 2, "tide", became)
        its = ChangeNote("tide", "x", False, False, 1, (place,), ranges)
        drafts.begin_change(its)
    with Session(tides) as session:
        assert [note for note, _ in left_open(session, drafts)] == [its]
    assert drafts.changes() == (its,)


def test_changes_that_are_cut_short_push_out_none_that_were_before(
    tides: Path,
) -> None:
    drafts = Drafts(tides)
    place = NotedPlace(1, 8, 4, "tide", Became.OPEN)
    notes = [
        ChangeNote("tide", f"tide {n}", False, False, 1, (place,)) for n in range(12)
    ]
    for note in notes:
        drafts.begin_change(note)
    assert drafts.changes() == tuple(reversed(notes))


@pytest.mark.parametrize("name", ["change-all", "talk"])
def test_an_answer_ends_a_change_that_was_cut_short_and_the_end_of_the_input_does_not(
    tides: Path, name: str
) -> None:
    killed(tides, "change-all", "tide", "tides")
    words, given = ["tide", "tides", "--ask"], "yes\n"
    if name == "talk":
        words, given = [], f"change-all {' '.join(words)}\n{given}"
    ran = scribe(name, tides, *words, folder=tides.parent, given=given)
    assert ran.said.endswith(
        "“tide” was replaced by “tides” in 1 place of 1 paragraph.\n"
        "The book is at version 8.\nThe input ended, so the rest stays as it was.\n"
    )
    ran = changed(tides, "tide", "tides", "--ask", given="stop\n")
    assert ran.said.startswith(
        "Changing “tide” to “tides” was cut short: 3 of 5 places are changed already.\n"
    )
    assert "“tide” was replaced by “tides” nowhere.\n2 places stay as" in ran.said
    assert Drafts(tides).changes() == ()


def test_the_end_of_the_input_at_a_place_ends_a_talk_as_at_other_questions(
    tides: Path,
) -> None:
    talk = Prompted("talk", str(tides), folder=tides.parent)
    talk.type("change-all tide tides --ask", prompt=": ")
    talk.type("yes", prompt=": ")
    ran = talk.end("\x04")
    assert ran.status == 0
    assert ran.shown.replace("\r", "").endswith(
        "“tide” was replaced by “tides” in 1 place of 1 paragraph.\n"
        "The book is at version 6.\nThe input ended, so the rest stays as it was.\n"
        "The book is at version 6.\n"
    )


@pytest.mark.parametrize("word", ["quit", "q", "exit", "help", "maybe"])
def test_a_word_that_is_no_answer_at_a_place_is_asked_for_again(
    tides: Path, word: str
) -> None:
    given = f"change-all tide tides --ask\n{word}\nyes\nstop\n"
    ran = scribe("talk", tides, folder=tides.parent, given=given)
    assert "The answers are yes, no, all and stop." in ran.said
    assert "“tide” was replaced by “tides” in 1 place of 1 paragraph." in ran.said
    assert prints(tides)[0] == "The tides"


@pytest.mark.parametrize(
    "paragraphs, front",
    [
        ([], ""),
        (
            [2],
            "Paragraph 2 was changed otherwise since, so it isn't seen which of its ",
        ),
        (
            [2, 3],
            "Paragraph 2 and 1 other were changed otherwise since, so it isn't seen",
        ),
        ([2, 3, 9], "Paragraph 2 and 2 others were changed otherwise since, so"),
    ],
)
def test_paragraphs_of_which_it_is_not_seen_what_was_changed_are_said(
    paragraphs: list[int], front: str
) -> None:
    said = not_seen(paragraphs)
    assert said.startswith(front) and bool(said) is bool(paragraphs)


def test_where_it_is_stopped_while_it_looks_no_place_is_said_to_be_all(
    tides: Path, monkeypatch: pytest.MonkeyPatch
) -> None:
    killed(tides, "change-all", "tide", "tides")

    def stopped(*_: object) -> None:
        raise KeyboardInterrupt

    monkeypatch.setattr("braildesk.desk.changed_so_far.proposals", stopped)
    said = StringIO()
    with pytest.raises(Interrupted):
        run_words(
            ["change-all", str(tides), "tide", "tides"],
            Console(BytesIO(), StringIO(), said),
        )
    assert said.getvalue() == (
        "Stopped. Nothing was changed. The book is at version 7.\n"
    )


def test_thousands_of_places_are_counted_as_other_things_are() -> None:
    its = Proposal(1, "The tide", Span(4, 8), "sea")
    assert proposal_lines(its, 1_034, 1_035, 80)[0] == (
        "Place 1,034 of 1,035, paragraph 1: The [tide]"
    )
    place = NotedPlace(1, 8, 4, "tide", Became.OPEN)
    note = ChangeNote("tide", "sea", False, False, 1, (place,) * 1_035)
    became = [Became.CHANGED] * 1_034 + [Became.OPEN]
    assert cut_short(note, became) == (
        "Changing “tide” to “sea” was cut short: 1,034 of 1,035 places are changed."
    )


def test_of_a_place_in_a_struck_paragraph_it_is_said_that_it_is_struck() -> None:
    its = Proposal(2, "The tide", Span(4, 8), "sea", is_struck=True)
    assert proposal_lines(its, 1, 2, 80) == [
        "Place 1 of 2, paragraph 2, struck: The [tide]",
        "After: The [sea]",
    ]


@pytest.mark.parametrize(
    "ends, named",
    [
        ([(3, 3)], "paragraph 3"),
        ([(3, 9), (12, 12)], "paragraphs 3 to 9 and 12"),
        ([(None, 2), (4, 4), (6, None)], "paragraphs up to 2, 4 and from 6 on"),
    ],
)
def test_ranges_of_paragraphs_are_named(
    ends: list[tuple[int | None, int | None]], named: str
) -> None:
    assert ranges_named([ParagraphRange(*each) for each in ends]) == named


@pytest.mark.parametrize("how", ["", "--ask", "talk"])
def test_what_was_changed_before_a_kill_is_changed_once(
    tides: Path, sit: Sit, how: str
) -> None:
    words = "change-all", "tide", "tides"
    if how == "talk":
        killed(tides, how, given=" ".join(words))
    else:
        killed(tides, *words, *filter(None, [how]), given="yes\nno\nyes\n")
    said = "Changing “tide” to “tides” was cut short: 2 of 5 places are changed"
    ran = changed(tides, "tide", "tides", "--dry-run")
    assert ran.shown.count("After: ") == 3
    assert ran.said.startswith(f"{said} already.\n“tide” would be changed in 3 places")
    sat = sit(tides)
    assert sat.state.question and sat.state.question.sentence.startswith(said)
    sat.desk.close()
    killed(tides, *words, at=1)
    ran = changed(tides, "tide", "tides", *filter("--ask".__eq__, [how]), given="a\n")
    assert ran.said.startswith(said.replace("2 of", "3 of"))
    assert "“tide” was replaced by “tides” in 2 places" in ran.said
    rest = ["tidess of tides", "a    b"]
    assert prints(tides) == ["The tides", "a tides and tides", *rest]
    assert Drafts(tides).changes() == ()
    with Session(tides) as session:
        # each place was changed once
        assert session.last_version == 5 + 5


def test_what_was_cut_short_in_some_paragraphs_stays_noted_while_others_are_changed(
    tides: Path, sit: Sit
) -> None:
    killed(tides, "change-all", "tide", "tides", "--in", "1-2")
    assert changed(tides, "tide", "tides", "--in", "3").status == 0
    sat = sit(tides)
    assert sat.state.question and " 2 of 3 places " in sat.state.question.sentence
    sat.press("y", "a")
    sat.desk.close()
    rest = ["tidess of tides", "a    b"]
    assert prints(tides) == ["The tides", "a tides and tides", *rest]
    assert Drafts(tides).changes() == ()


def test_where_it_is_not_seen_what_was_changed_each_place_is_to_be_looked_at(
    tides: Path, sit: Sit
) -> None:
    killed(tides, "change-all", "tide", "tides")
    # the print is as long as it was at first
    assert scribe("change", tides, "2", "and", "or", folder=tides.parent).status == 0
    said = "Changing “tide” to “tides” was cut short: at least 1 of 5 places is changed"
    unseen = "Paragraph 2 was changed otherwise since, so it isn't seen which of its places are changed."
    sat = sit(tides)
    assert sat.state.question and sat.state.question.sentence.startswith(said)
    sat.press("y")
    assert sat.state.message == unseen
    sat.desk.close()
    assert changed(tides, "tide", "tides") == Ran(
        2,
        "",
        f"{said} already.\n{unseen} --ask shows each place. Nothing was changed.\n",
    )
    ran = changed(tides, "tide", "tides", "--dry-run")
    alone = f"{unseen} --ask shows each place."
    assert ran.said.splitlines()[:2] == [f"{said} already.", alone]
    assert changed(tides, "tide", "tides", "--ask", given="no\nall\n").status == 0
    assert prints(tides)[:3] == ["The tides", "a tides or tides", "tidess of tides"]
    assert Drafts(tides).changes() == ()
    # where nothing is seen, it isn't said how many were
    killed(tides, "change-all", "of", "off", at=1)
    assert scribe("change", tides, "3", "off", "oft", folder=tides.parent).status == 0
    said = "Changing “of” to “off” was cut short, and it isn't seen how far it came.\n"
    assert changed(tides, "of", "off", "--dry-run").said.startswith(said)


def test_a_place_that_shares_letters_with_a_changed_one_goes_on(tides: Path) -> None:
    killed(tides, "change-all", "  ", " ", at=1)
    assert " 1 of 2 places is " in changed(tides, "  ", " ").said
    assert prints(tides)[3] == "a  b"
    # all of it was changed before a kill
    killed(tides, "change-all", "  ", "", at=1)
    assert changed(tides, "  ", "") == Ran(
        0,
        "",
        "Taking out “  ” was cut short: 1 of 1 place is changed already.\n"
        "There are no more places to change.\n",
    )
    assert Drafts(tides).changes() == ()


def test_of_a_change_that_was_cut_short_before_its_first_place_none_is_changed_yet(
    tides: Path, monkeypatch: pytest.MonkeyPatch
) -> None:
    def stopped(*_: object) -> Change:
        raise KeyboardInterrupt

    monkeypatch.setattr("braildesk.desk.change_all.change_place", stopped)
    with pytest.raises(Interrupted):
        run_words(
            ["change-all", str(tides), "tides", "seas"],
            Console(BytesIO(), StringIO(), StringIO()),
        )
    monkeypatch.setattr("braildesk.desk.change_all.change_place", change_place)
    said = "Changing “tides” to “seas” was cut short: none of 1 place is changed yet.\n"
    assert changed(tides, "tides", "seas", "--dry-run").said.startswith(said)


def test_what_was_noted_of_another_book_at_the_path_is_not_said_of_this_one(
    tides: Path,
) -> None:
    another = tides.with_name("another")
    shutil.copyfile(tides, another)
    with Session(another) as session:
        for number in range(1, 4):
            session.correct(number, 0, 0, "So, ")
    killed(tides, "change-all", "tide", "tides")
    another.replace(tides)
    ran = changed(tides, "tide", "tides", "--in", "1")
    assert ran.said.startswith("“tide” was replaced by “tides” in 1 place of 1 para")


def stopped_after_two(
    monkeypatch: pytest.MonkeyPatch, book: Path, deed: Callable[[], object]
) -> str:
    """What is said where Ctrl-C comes after two changes, once something else was done."""
    left = [2]

    def stopped(
        session: Session, number: int, text: str, place: Span, new: str, by: str | None
    ) -> Change:
        if not left[0]:
            deed()
            raise KeyboardInterrupt
        left[0] -= 1
        return change_place(session, number, text, place, new, by)

    monkeypatch.setattr("braildesk.desk.change_all.change_place", stopped)
    said = StringIO()
    with pytest.raises(Interrupted):
        run_words(
            ["change-all", str(book), "mooon", "moon"],
            Console(BytesIO(), StringIO(), said),
        )
    return said.getvalue()


def test_where_it_is_stopped_and_others_take_the_book_it_is_said_what_was_changed(
    moons: Path, monkeypatch: pytest.MonkeyPatch
) -> None:
    others: list[Session] = []
    close = Session.close

    def taken(session: Session) -> None:
        close(session)
        if not others:
            others.append(Session(moons))

    said = stopped_after_two(
        monkeypatch, moons, lambda: monkeypatch.setattr(Session, "close", taken)
    )
    close(others[0])
    assert said == (
        "Stopped. Of 4 places 2 are changed in the book. The book is at version 7.\n"
    )


def test_where_it_is_stopped_and_another_book_is_there_it_is_said_where_the_changes_are(
    moons: Path, monkeypatch: pytest.MonkeyPatch
) -> None:
    earlier = moons.with_name("earlier")
    shutil.copyfile(moons, earlier)
    said = stopped_after_two(monkeypatch, moons, lambda: earlier.replace(moons))
    saved = moons.with_name(f"{moons.name}-saved-1")
    assert said == (
        "Stopped. Of 4 places 2 are changed in the book. The book is at version 7."
        f" The file of the book is no longer at “{moons}”: another one was put there while"
        " it was open. All of the book, with what was kept last, is in the new file"
        f" “{saved}”. Go on with that one, or look first what is at the old path by now.\n"
    )
    assert prints(saved) == ["The moon and the Mooon.", "A moonlit mooon", "No mooon"]


def test_where_the_session_ends_it_is_said_how_many_places_are_changed(
    moons: Path, monkeypatch: pytest.MonkeyPatch
) -> None:
    left = [2]

    def killed(
        session: Session, number: int, text: str, place: Span, new: str, by: str | None
    ) -> Change:
        change = change_place(session, number, text, place, new, by)
        left[0] -= 1
        if not left[0]:
            os.kill(session.pid, signal.SIGKILL)
        return change

    monkeypatch.setattr("braildesk.desk.change_all.change_place", killed)
    shown, said = StringIO(), StringIO()
    status = run_words(
        ["change-all", str(moons), "mooon", "moon"], Console(BytesIO(), shown, said)
    )
    assert (status, said.getvalue()) == (
        3,
        "Of 4 places 2 are changed in the book. The book is at version 7.\n"
        "The session was ended by signal 9.\n"
        "The book was opened again: it is at version 7, and what was changed last is in it.\n",
    )
    assert prints(moons) == ["The moon and the Mooon.", "A moonlit mooon", "No mooon"]


def test_where_the_book_goes_it_is_said_how_many_places_are_changed_where_it_was_saved(
    moons: Path, monkeypatch: pytest.MonkeyPatch
) -> None:
    left = [2]

    def gone(
        session: Session, number: int, text: str, place: Span, new: str, by: str | None
    ) -> Change:
        left[0] -= 1
        if not left[0]:
            moons.unlink()
        return change_place(session, number, text, place, new, by)

    monkeypatch.setattr("braildesk.desk.change_all.change_place", gone)
    said = StringIO()
    words = ["change-all", str(moons), "mooon", "mooons"]
    status = run_words(words, Console(BytesIO(), StringIO(), said))
    saved = moons.with_name(f"{moons.name}-saved-1")
    assert (status, said.getvalue()) == (
        3,
        "Of 4 places 2 are changed in the book. The book is at version 7.\n"
        f"The file of the book is no longer at “{moons}”: it was removed or moved while it was open."
        f" All of the book, with what was kept last, is in the new file “{saved}”. Go on with that one,"
        " or look first what is at the old path by now.\n",
    )
    # the same words change the others there, and no place twice
    changed(saved, "mooon", "mooons")
    assert prints(saved)[:2] == ["The mooons and the Mooon.", "A mooonslit mooons"]


def test_where_the_input_ends_and_the_book_is_gone_no_place_is_changed_twice(
    moons: Path,
) -> None:
    words = ("change-all", str(moons), "mooon", "mooons", "--ask")
    with subprocess.Popen(
        [sys.executable, "-m", "scribe", *words],
        env=environment(),
        stdin=subprocess.PIPE,
        stdout=subprocess.DEVNULL,
        stderr=subprocess.PIPE,
        encoding="utf-8",
    ) as process:
        assert process.stdin and process.stderr
        process.stdin.write("yes\n")
        process.stdin.flush()
        asked = [process.stderr.readline() for _ in range(2)]
        assert len({*asked}) == 1
        moons.unlink()
        process.communicate()
    assert process.returncode == 3
    saved = moons.with_name(f"{moons.name}-saved-1")
    changed(saved, "mooon", "mooons")
    assert prints(saved)[:2] == ["The mooons and the Mooon.", "A mooonslit mooons"]


def test_a_talk_changes_all_by_the_same_word_and_asks(moons: Path) -> None:
    given = "change-all mooon --ask\nmoon\nno\nyes\nmaybe\n\nversion\n"
    ran = scribe("talk", moons, "--width", "80", folder=moons.parent, given=given)
    assert "Paragraph 2: A [moon]lit mooon" in ran.shown.splitlines()
    assert "3 places stay as before." in ran.said
    assert "The answers are yes, no, all and stop." in ran.said
    assert prints(moons) == ["The mooon and the Mooon.", "A moonlit mooon", "No mooon"]
    assert ran.shown.splitlines()[-2:] == ["The book is at version 6."] * 2
    given = "change-all mooon moon\nhistory 1\n"
    ran = scribe("talk", moons, "--by", "anna", folder=moons.parent, given=given)
    assert prints(moons) == ["The moon and the Mooon.", "A moonlit moon", "No mooon"]
    assert "1 place was refused and stays as before." in ran.said.splitlines()
    with Session(moons) as session:
        assert [each.who for each in session.history_of(2)] == [None, "anna"]


TEXT = st.lists(st.sampled_from(["ab", "Ab", "AB", "a", "b", " ", "-", "é"])).map(
    "".join
)
#: No words that a capital or its absence make of one another in more than one way.
WORDS = st.sampled_from(["ab", "a", "b", "aba", " a", "ab ", "é", "-"])


def model(text: str, old: str, new: str, words: bool, case: bool) -> tuple[str, int]:
    """What comes of a text, by a regular expression, and in how many places."""
    front = r"(?<!\w)" if words and old[0].isalpha() else ""
    end = r"(?!\w)" if words and old[-1].isalpha() else ""
    places = 0

    def comes(match: re.Match[str]) -> str:
        nonlocal places
        gone = match[0]
        letters = [each for each in gone if each.isalpha()]
        come = new
        if case and gone != old:
            if len(letters) > 1 and all(each.isupper() for each in letters):
                come = new.upper()
            elif gone[0].isupper():
                come = new[:1].upper() + new[1:]
            elif gone[0].islower():
                come = new[:1].lower() + new[1:]
        places += come != gone
        return come

    flags = re.IGNORECASE if case else 0
    return re.sub(front + re.escape(old) + end, comes, text, flags=flags), places


@settings(
    max_examples=60,
    deadline=None,
    suppress_health_check=[HealthCheck.function_scoped_fixture],
)
@given(
    st.lists(st.tuples(TEXT, st.booleans()), min_size=1, max_size=3),
    WORDS,
    st.sampled_from(["", "c", "ab", "Ba", "xaby", "é"]),
    st.booleans(),
    st.booleans(),
)
def test_words_are_replaced_as_by_a_small_model(
    session: Session,
    texts: list[tuple[str, bool]],
    old: str,
    new: str,
    words: bool,
    case: bool,
) -> None:
    if old == new:
        return
    if "own" not in {each.table for each in session.paragraphs()}:
        session.put_table("own", (TABLE + "letter é 6\nletter É 46\n").encode())
    numbers = []
    for text, is_struck in texts:
        numbers.append(session.add_paragraph("end", "own", text).id)
        if is_struck:
            session.strike(numbers[-1])
    ranges = (ParagraphRange(numbers[0], numbers[-1]),)
    wanted = Replacement(old, new, words, case, ranges, "anna")
    came = list(change_proposed(session, proposals(session, wanted), wanted.by))
    done = [each.paragraph for each in came if isinstance(each, Change)]
    refused = [e.proposal.paragraph for e in came if isinstance(e, NotChanged)]
    for number, (text, is_struck) in zip(numbers, texts):
        print_text, places = model(text, old, new, words, case)
        assert session.print_of(number) == (text if is_struck else print_text)
        assert done.count(number) == (0 if is_struck else places)
        assert refused.count(number) == (places if is_struck else 0)
        assert len(session.history_of(number)) == done.count(number)


TABLE = "space \\s 0\npunctuation - 36\n" + "".join(
    f"letter {each} {dots}\nletter {each.upper()} {dots}6\n"
    for each, dots in (("a", 1), ("b", 12), ("c", 14), ("x", 134), ("y", 135))
)
