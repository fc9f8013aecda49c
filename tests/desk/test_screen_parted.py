"""An edit on the screen that changes a paragraph at two places, with a mark between them."""

from pathlib import Path

import pytest

from braildesk import Entry, Kind, Session

from sitting import Sat, Sit
from stand_in import KEPT, KILL_PROGRAM, READ, REPLY
from terminal import once_free, standing_in

BEFORE, NOW = "The moon is far away.", "XThe moon is far away. Yes."


def edited(sat: Sat) -> None:
    """Changes the front and the end of a paragraph that has a mark between."""
    sat.press("enter", "home", "X", "end")
    sat.write(" Yes.")


def marked(session: Session) -> tuple[str, bool]:
    """The words of the mark, and whether these were touched."""
    text, (mark,) = session.print_of(1), session.marks_of(1)
    return text[mark.start : mark.stop], mark.touched


@pytest.mark.parametrize("by", [None, "anna"])
def test_a_mark_between_stays_on_its_words_and_u_takes_all_of_it_back(
    moon: Path, sit: Sit, by: str | None
) -> None:
    sat = sit(moon, by)
    edited(sat)
    sat.press("enter")
    assert sat.state.kept == "kept: corrections 2 and 3 of paragraph 1"
    assert (sat.state.version, sat.state.typed) == (9, None)
    assert sat.state.reading and sat.state.reading.text == NOW
    assert sat.state.place == len(NOW) - 1
    sat.press("u")
    sat.state = sat.desk.away(sat.state, lambda _: None)
    assert sat.state.heard == "Taken back: paragraph 1 was corrected."
    assert sat.state.reading and sat.state.reading.text == BEFORE
    assert sat.state.deeds == ()
    sat.desk.close()
    with once_free(moon) as session:
        assert session.history_of(1)[1:3] == (
            Entry(2, Kind.CORRECT, 21, 0, " Yes.", by, None),
            Entry(3, Kind.CORRECT, 0, 0, "X", by, None),
        )
        assert session.print_of(1) == BEFORE
        assert marked(session) == ("moon", False)


@pytest.mark.parametrize("by", [None, "anna"])
def test_a_word_that_comes_before_a_marked_one_that_begins_as_it_does_is_put_beside_it(
    moon: Path, sit: Sit, by: str | None
) -> None:
    sat = sit(moon, by)
    sat.press("enter", "home", *["right"] * 4)
    sat.write("moony ")
    sat.press("enter")
    assert sat.state.kept == "kept: correction 2 of paragraph 1"
    assert sat.state.reading
    assert sat.state.reading.text == "The moony moon is far away."
    (its,) = sat.state.reading.marks
    assert (its.start, its.stop, its.touched) == (10, 14, False)
    sat.press("u")
    assert sat.state.reading and sat.state.reading.text == BEFORE
    sat.desk.close()
    with once_free(moon) as session:
        came, _ = session.history_of(1)[1:]
        assert came == Entry(2, Kind.CORRECT, 4, 0, "moony ", by, None)
        (mark,) = session.marks_of(1)
        assert (mark.start, mark.stop, mark.touched) == (4, 8, False)


def test_of_two_words_that_are_the_same_the_one_goes_that_has_no_mark(
    moon: Path, sit: Sit
) -> None:
    with Session(moon) as session:
        session.correct(1, 4, 0, "moon ")
    sat = sit(moon)
    sat.press("enter", "home", *["right"] * 9, *["delete"] * 5)
    sat.press("end")
    sat.write(" Don't go, it's late.")
    sat.press("enter")
    now = f"{BEFORE} Don't go, it's late."
    assert sat.state.reading and sat.state.reading.text == now
    sat.desk.close()
    with once_free(moon) as session:
        assert session.print_of(1) == now
        (mark,) = session.marks_of(1)
        assert (mark.start, mark.stop, mark.touched) == (4, 8, False)


def test_lines_that_are_pasted_into_it_leave_the_mark_on_its_words_too(
    moon: Path, sit: Sit
) -> None:
    sat = sit(moon)
    sat.press("enter", "home", "X", "end")
    sat.state = sat.desk.paste(sat.state, " Yes.\nOh,\n")
    while sat.state.question is not None:
        sat.press("y")
    sat.press("escape")
    sat.desk.close()
    with once_free(moon) as session:
        assert session.print_of(1) == NOW
        assert [p.id for p in session.paragraphs()] == [1, 4, 2, 3]
        assert marked(session) == ("moon", False)


def test_a_mark_on_words_that_go_into_another_paragraph_is_said_to_stay(
    moon: Path, sit: Sit
) -> None:
    sat = sit(moon)
    sat.press("enter", "home", *["right"] * 3)
    sat.state = sat.desk.paste(sat.state, " sea.\nThe")
    sat.press("y")
    assert sat.state.message == "Mark 1 was touched, and stays in paragraph 1."
    sat.desk.close()
    with once_free(moon) as session:
        assert [session.print_of(1), session.print_of(4)] == [
            "The sea.",
            "The moon is far away.",
        ]


def test_it_is_said_too_where_a_text_that_is_too_long_goes_on_in_another(
    moon: Path, sit: Sit
) -> None:
    sat = sit(moon)
    sat.press("enter", "home")
    sat.state = sat.desk.paste(sat.state, "The sea is far. " * 249)
    sat.press("enter", "y")
    assert sat.state.typed and sat.state.typed.text == BEFORE
    assert "Mark 1 was touched, and stays in paragraph 1." in sat.state.message


def test_what_the_table_lacks_is_refused_before_any_of_it_is_kept(
    moon: Path, sit: Sit
) -> None:
    sat = sit(moon)
    sat.press("enter", "home", "ě", "end")
    sat.write(" Yes.")
    sat.press("enter")
    assert sat.state.message.startswith("The table of paragraph 1 has no cells for “ě”")
    assert sat.state.message.endswith("Nothing was changed.")
    assert sat.state.version == 7 and sat.state.typed


def test_the_rest_stays_typed_where_it_is_refused_and_what_is_kept_is_said(
    moon: Path, sit: Sit, monkeypatch: pytest.MonkeyPatch
) -> None:
    with monkeypatch.context() as patched:
        for name, value in standing_in(2, READ, REPLY, "no", "90").items():
            patched.setenv(name, value)
        sat = sit(moon)
        edited(sat)
        sat.press("enter")
    assert sat.state.message.startswith(
        "1 correction of this edit is kept, and the rest isn't."
    )
    assert "Nothing was changed" not in sat.state.message
    assert sat.state.kept == "kept: correction 2 of paragraph 1"
    assert sat.state.typed and sat.state.typed.text == NOW
    assert sat.state.reading and sat.state.reading.text == f"{BEFORE} Yes."
    sat.press("enter")
    assert sat.state.kept == "kept: correction 3 of paragraph 1"
    assert sat.state.reading and sat.state.reading.text == NOW
    for _ in range(2):
        sat.press("u")
    assert sat.state.reading and sat.state.reading.text == BEFORE
    assert marked(sat.desk._session) == ("moon", False)


def test_it_is_said_too_where_lines_are_pasted_into_it(
    moon: Path, sit: Sit, monkeypatch: pytest.MonkeyPatch
) -> None:
    with monkeypatch.context() as patched:
        for name, value in standing_in(2, READ, REPLY, "no", "90").items():
            patched.setenv(name, value)
        sat = sit(moon)
        sat.press("enter", "home", "X", "end")
        sat.state = sat.desk.paste(sat.state, " Yes.\nOh,\n")
        sat.press("y")
    assert sat.state.message.startswith(
        "1 correction of this edit is kept, and the rest isn't."
    )
    assert sat.state.message.endswith("U brings back the line after this one.")
    assert sat.state.typed and sat.state.typed.text == NOW


def test_a_line_after_it_that_reads_as_the_newest_paragraph_is_not_lost_with_a_session(
    moon: Path, sit: Sit, monkeypatch: pytest.MonkeyPatch
) -> None:
    with monkeypatch.context() as patched:
        for name, value in standing_in(2, KEPT, KILL_PROGRAM).items():
            patched.setenv(name, value)
        sat = sit(moon)
        sat.press("enter", "home", "X", "end")
        patched.undo()
        newest = "Twice a day the sea comes up."
        sat.state = sat.desk.paste(sat.state, f" Yes.\n{newest}\n")
        sat.press("y")
    assert sat.state.reading and sat.state.reading.text == NOW
    assert sat.state.question and newest in sat.state.question.sentence
    sat.press("y", "enter", "escape")
    sat.desk.close()
    with once_free(moon) as session:
        assert [p.id for p in session.paragraphs()] == [1, 4, 2, 3]
        assert session.print_of(4) == newest


def test_it_is_not_lost_either_where_there_are_more_corrections_beside_one_mark(
    moon: Path, sit: Sit, monkeypatch: pytest.MonkeyPatch
) -> None:
    now, newest = "A sun was far gone!", "Twice a day the sea comes up."
    with monkeypatch.context() as patched:
        for name, value in standing_in(4, KEPT, KILL_PROGRAM).items():
            patched.setenv(name, value)
        sat = sit(moon)
        sat.press("enter", "home", *["delete"] * len(BEFORE))
        patched.undo()
        sat.state = sat.desk.paste(sat.state, f"{now}\n{newest}\n")
        sat.press("y")
    assert sat.state.reading and sat.state.reading.text == now
    assert sat.state.question and newest in sat.state.question.sentence
    sat.press("y", "enter", "escape")
    sat.desk.close()
    with once_free(moon) as session:
        assert len(session.history_of(1)) == 5
        assert [p.id for p in session.paragraphs()] == [1, 4, 2, 3]
        assert session.print_of(4) == newest


@pytest.mark.parametrize("far, print_now", [(READ, f"{BEFORE} Yes."), (KEPT, NOW)])
def test_what_a_lost_session_kept_of_it_is_said_and_the_rest_waits(
    moon: Path,
    sit: Sit,
    monkeypatch: pytest.MonkeyPatch,
    far: str,
    print_now: str,
) -> None:
    with monkeypatch.context() as patched:
        for name, value in standing_in(2, far, KILL_PROGRAM).items():
            patched.setenv(name, value)
        sat = sit(moon)
        edited(sat)
        patched.undo()
        sat.press("enter")
    count = 1 if far == READ else 2
    changes = "1 change" if far == READ else "2 changes"
    assert (
        f"The book was opened again: it is at version {7 + count}. What was being done was"
        f" stopped after {changes}."
    ) in sat.state.heard
    assert sat.state.reading and sat.state.reading.text == print_now
    if far == READ:
        question = sat.state.question
        assert question and "has been changed since" in question.sentence
        sat.press("y", "enter")
    assert sat.state.question is None and sat.state.typed is None
    assert sat.state.reading and sat.state.reading.text == NOW
    assert marked(sat.desk._session) == ("moon", False)
    for _ in range(2):
        sat.press("u")
    assert sat.state.reading and sat.state.reading.text == BEFORE
