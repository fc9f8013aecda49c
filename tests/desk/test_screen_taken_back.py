"""What `u` takes back, and what it says of it; and what is said where the book has no way back."""

import os
import signal
from pathlib import Path

import pytest

from braildesk import Session, Style

from scribe.screen.desk import Desk
from sitting import Sat, Sit
from stand_in import ANSWERED, KEPT, KILL_PROGRAM, KILL_SCRIBE, READ, REPLY
from terminal import Open, once_free, standing_in
from tool import scribe, wait_for_program

#: Keys, what `u` says after them, and what the chosen paragraph or the book is then as before.
DEEDS = {
    "a struck paragraph": ("s", "Taken back: paragraph 1 was struck."),
    "a heading": ("b", "Taken back: paragraph 1 was made a heading."),
    "a volume": ("v", "Taken back: paragraph 1 was made to begin a volume."),
    "a table": (
        "t p l a i n enter",
        "Taken back: paragraph 1 was given the table plain.",
    ),
    "a move down": ("a-down", "Taken back: paragraph 1 was moved."),
    "a move up": ("c-end a-up", "Taken back: paragraph 3 was moved."),
    "a move to the front": ("down a-up", "Taken back: paragraph 2 was moved."),
    "a correction": (
        "enter O h , enter",
        "Taken back: paragraph 1 was corrected.",
    ),
}


def whole(sat: Sat) -> list[tuple[object, str]]:
    """The paragraphs of the book, each with its print."""
    return [(each, sat.state.openings[each.id].words) for each in sat.state.book]


def paste(sat: Sat, text: str) -> None:
    """Pastes a text."""
    sat.state = sat.desk.paste(sat.state, text)


@pytest.mark.parametrize("name", DEEDS)
def test_u_takes_back_what_a_key_last_did_and_says_what(
    moon: Path, sit: Sit, name: str
) -> None:
    keys, said = DEEDS[name]
    sat = sit(moon)
    before = whole(sat)
    sat.press(*keys.split())
    assert (sat.state.version, whole(sat) == before) == (8, False)
    # whichever paragraph is chosen by then
    sat.press("c-end", "u")
    assert (sat.state.version, sat.state.message) == (9, said)
    assert whole(sat) == before


def test_u_takes_back_one_thing_after_the_other(moon: Path, sit: Sit) -> None:
    sat = sit(moon)
    before = whole(sat)
    sat.press("s", "down", "b", "v", "a-down", "c-home", "s", "s")
    sat.press(*["u"] * 6)
    assert sat.state.message == "Taken back: paragraph 1 was struck."
    assert sat.state.version == 7 + 6 + 6
    assert whole(sat) == before
    # nothing that a key did is left, so it is the newest correction from before
    sat.press("u")
    assert sat.state.kept == "kept: the print of paragraph 1 as it was before"
    assert sat.lines[8].startswith("The mon is far away.")
    assert sat.state.message == "Taken back: the newest correction of paragraph 1."


def test_u_says_whose_correction_from_before_it_takes_back(
    moon: Path, sit: Sit
) -> None:
    with Session(moon) as session:
        for start, who in ((0, "anna"), (1, "ben"), (2, None), (3, "carl")):
            session.correct(2, start, 1, "x", by=who)
        session.undo(2)
    sat = sit(moon)
    for by in ("", ", by ben", ", by anna"):
        sat.press("down", "u") if not by else sat.press("u")
        said = f"Taken back: the newest correction of paragraph 2{by}."
        assert sat.state.message == said


def test_the_cursor_is_where_a_correction_was_taken_back(moon: Path, sit: Sit) -> None:
    sat = sit(moon)
    # at the end of the print as it was corrected, and of its cells
    for keys, there in (
        ("", "“o” ⠕, character 7, cell 8"),
        ("tab", "⠕ “o”, cell 8, character 7"),
    ):
        sat.press("c-home", "enter", *["right"] * 6, "O", "enter", "c-end")
        sat.press(*keys.split(), "u")
        assert there in sat.lines


def test_the_cursor_is_where_an_edit_of_several_corrections_was_taken_back(
    moon: Path, sit: Sit
) -> None:
    sat = sit(moon)
    for pane, there in (
        ("", "“ ” ⠀, character 4, cell 5"),
        ("tab", "⠀ “ ”, cell 5, character 4"),
    ):
        version = sat.state.version
        sat.press("c-home", "enter", "home")
        # on both sides of a mark, which takes two corrections
        sat.press(*["right"] * 3, "n", "end", "backspace", "!", "enter", "c-end")
        sat.press(*pane.split(), "u")
        sat.state = sat.desk.away(sat.state, lambda _: None)
        assert sat.state.version == version + 4
        assert (sat.state.chosen, sat.lines[8]) == (0, "The moon is far away.")
        assert there in sat.lines


def test_a_typed_paragraph_is_taken_back_by_striking_it(moon: Path, sit: Sit) -> None:
    sat = sit(moon)
    sat.press("o", *"It rose.", "enter", "escape", "c-home", "u")
    assert sat.state.message == (
        "Taken back: paragraph 4 was typed. The book keeps it, struck."
    )
    assert sat.lines[2] == ">    4 body, struck: It rose."


def test_pasted_paragraphs_are_taken_back_together_once_that_is_asked(
    moon: Path, sit: Sit
) -> None:
    sat = sit(moon)
    sat.press("enter", "end")
    paste(sat, " So\nfar.\nIt rose.")
    sat.press("y")
    assert sat.lines[1:4] == [
        "     1 body, 1 open mark: The moon is far away. So",
        "     4 body: far.",
        ">    5 body: It rose.",
    ]
    sat.press("u")
    asked = (
        "This was done last and isn't taken back: paragraph 1 was corrected, and 2 paragraphs were"
        " typed, 4 to 5. Shall all of it be taken back?"
    )
    assert sat.state.question and sat.state.question.sentence == asked
    sat.press("n")
    assert (sat.state.message, sat.state.version) == ("Nothing was taken back.", 10)
    sat.press("u", "y")
    heard: list[str] = []
    sat.state = sat.desk.away(sat.state, heard.append)
    assert heard == ["1 of 3 done.", "2 of 3 done.", "3 of 3 done."]
    assert sat.state.message == (
        "Taken back: paragraph 1 was corrected, and 2 paragraphs were typed, 4 to 5. The book"
        " keeps them, struck."
    )
    assert (sat.state.version, sat.state.deeds) == (13, ())
    assert sat.lines[1:4] == [
        "     1 body, 1 open mark: The moon is far away.",
        "     4 body, struck: far.",
        ">    5 body, struck: It rose.",
    ]


def test_an_import_is_taken_back_by_striking_its_paragraphs(
    moon: Path, sit: Sit
) -> None:
    sat = sit(moon)
    text = moon.parent / "more.txt"
    text.write_text("The sun\n\nThe stars.\n\nThe sea.\n")
    sat.press("i")
    assert sat.state.heard == (
        "The book keeps what is imported. u strikes it, and nothing takes it out."
    )
    sat.press(*str(text), "enter")
    sat.state = sat.desk.away(sat.state, print)
    sat.press("escape", "u")
    assert sat.state.question and sat.state.question.sentence == (
        "This was done last and isn't taken back: 3 paragraphs were imported, 4 to 6. Shall all of"
        " it be taken back?"
    )
    sat.press("y")
    sat.state = sat.desk.away(sat.state, print)
    assert sat.state.message.endswith("The book keeps them, struck.")
    struck = [each.id for each in sat.state.book if each.struck]
    assert (struck, sat.state.version) == ([4, 5, 6], 13)


def test_a_mark_that_is_taken_back_beside_another_is_said_once(
    moon: Path, sit: Sit
) -> None:
    sat = sit(moon)
    sat.press("n", "m", *"who?", "enter", "u")
    assert sat.state.message == (
        "Taken back: mark 2 was put. The book keeps it, resolved. 1 open mark is left here; r"
        " resolves mark 1."
    )


def test_of_a_mark_in_hand_that_is_elsewhere_it_is_not_said_that_it_is_here(
    moon: Path, sit: Sit
) -> None:
    sat = sit(moon)
    sat.press("end", "m", *"who?", "enter", "home", "n", "r", "n")
    # a new one is in the place of the first, with the cursor at the other
    sat.press("u", "u")
    assert sat.state.mark_in_hand and sat.state.mark_in_hand.id == 3
    assert sat.state.message == (
        "Taken back: mark 2 was put. The book keeps it, resolved."
    )


@pytest.mark.parametrize(
    "pane, there",
    [
        ("", "“f” ⠋, character 13, cell 14"),
        ("tab", "⠋ “f”, cell 14, character 13"),
    ],
)
def test_the_cursor_is_on_the_words_of_a_mark_that_is_put_again_in_another_paragraph(
    moon: Path, sit: Sit, pane: str, there: str
) -> None:
    with Session(moon) as session:
        session.add_mark(1, 13, 3, "how far?")
    sat = sit(moon)
    sat.press("end", "n", "n", "r", "c-end", *pane.split(), "u")
    assert sat.state.message == (
        "Taken back: mark 2 was resolved. It stays resolved, and a new mark stands in its"
        " place."
    )
    assert sat.state.mark_in_hand and sat.state.mark_in_hand.id == 3
    assert there in sat.lines


@pytest.mark.parametrize(
    "pane, there",
    [
        ("", "“f” ⠋, character 13, cell 14"),
        ("tab", "⠋ “f”, cell 14, character 13"),
    ],
)
def test_the_cursor_is_on_the_words_of_a_mark_that_is_taken_back_in_another_paragraph(
    moon: Path, sit: Sit, pane: str, there: str
) -> None:
    sat = sit(moon)
    sat.press("/", *"far", "enter", "m", *"how far?", "enter", "c-end")
    sat.press(*pane.split(), "u")
    assert sat.state.message == (
        "Taken back: mark 2 was put. The book keeps it, resolved."
    )
    assert there in sat.lines
    assert "Mark 2, resolved, on “far”: how far?" in sat.lines


def test_a_mark_is_taken_back_by_resolving_it_and_that_by_a_new_one(
    moon: Path, sit: Sit
) -> None:
    sat = sit(moon)
    sat.press("down", "m")
    assert sat.state.heard.endswith(". r resolves a mark, and nothing takes it out.")
    sat.press(*"who?", "enter", "r", "c-home", "u")
    assert sat.state.message == (
        "Taken back: mark 2 was resolved. It stays resolved, and a new mark stands in its"
        " place."
    )
    assert [mark.id for mark in sat.state.marks_here] == [3, 2]
    sat.press("c-home", "u")
    assert sat.state.message == (
        "Taken back: mark 2 was put. The book keeps it, resolved."
    )
    sat.desk.close()
    with Session(moon) as session:
        marks = [(m.id, m.start, m.stop, m.resolved) for m in session.marks_of(2)]
    assert marks == [(2, 0, 1, True), (3, 0, 1, True)]


def test_a_mark_whose_words_are_gone_is_put_again_on_the_character_there(
    moon: Path, sit: Sit
) -> None:
    sat = sit(moon)
    sat.press("n", "enter", *["delete"] * 4, "enter", "r")
    assert sat.state.kept == "kept: mark 1 resolved"
    sat.press("u")
    assert sat.state.message == (
        "Taken back: mark 1 was resolved. It stays resolved, and a new mark is on “ ”."
    )
    sat.desk.close()
    with Session(moon) as session:
        marks = [(m.id, m.start, m.resolved, m.note) for m in session.marks_of(1)]
    assert marks == [(1, 4, True, "spelled so?"), (2, 4, False, "spelled so?")]


def test_of_a_mark_that_is_put_again_on_more_words_it_is_said_on_which(
    moon: Path, sit: Sit
) -> None:
    with Session(moon) as session:
        text = moon.with_name("plain.utb").read_bytes() + b"always oo 16\n"
        session.put_table("short", text)
        session.add_paragraph("end", "short", "The mon is up.")
        session.add_mark(4, 6, 1, "really?")
        session.correct(4, 5, 0, "o")
    sat = sit(moon)
    sat.press("c-end", "n", "r", "u")
    assert sat.state.message == (
        "Taken back: mark 2 was resolved. It stays resolved, and a new mark is on “oo”."
    )
    sat.desk.close()
    with Session(moon) as session:
        marks = [(m.id, m.start, m.stop, m.resolved) for m in session.marks_of(4)]
    assert marks == [(2, 6, 7, True), (3, 5, 7, False)]


def test_a_mark_that_could_not_be_put_again_is_resolved_once_that_is_asked(
    moon: Path, sit: Sit
) -> None:
    sat = sit(moon)
    sat.press("n", "enter", "c-e", "c-u", "enter", "r")
    assert sat.state.kept == "kept: correction 2 of paragraph 1"
    asked = (
        "Paragraph 1 is empty, so mark 1 can't be put on it again. Shall it be resolved?"
        " y is yes, n is no."
    )
    assert " ".join(sat.lines[-3:]).strip() == asked
    sat.press("n")
    assert (sat.state.message, sat.state.question) == ("Nothing was resolved.", None)
    assert not sat.state.marks_here[0].resolved
    sat.press("r", "y")
    assert sat.state.kept == "kept: mark 1 resolved"
    sat.press("u")
    assert sat.state.message == (
        "The book has no way back from this: mark 1 was resolved. u again takes back that"
        " paragraph 1 was corrected."
    )


def test_a_mark_of_a_struck_paragraph_is_resolved_once_that_is_asked(
    moon: Path, sit: Sit
) -> None:
    sat = sit(moon)
    sat.press("n", "s", "r")
    assert sat.state.question and sat.state.question.sentence == (
        "Paragraph 1 is struck, so mark 1 can't be put on it again unless it is restored. Shall it"
        " be resolved?"
    )
    sat.press("y")
    assert sat.state.kept == "kept: mark 1 resolved"
    sat.press("u")
    assert sat.state.message == (
        "The book has no way back from this: mark 1 was resolved. u again takes back that"
        " paragraph 1 was struck."
    )
    sat.press("u")
    assert sat.state.message == "Taken back: paragraph 1 was struck."


def test_u_is_said_to_take_back_only_what_has_a_way_back(moon: Path, sit: Sit) -> None:
    with Session(moon) as session:
        session.add_mark(1, 5, 4, "really?")
    sat = sit(moon)
    sat.press("n", "s", "r", "y", "r", "y", "u")
    none = "The book has no way back from this: mark {} was resolved."
    assert sat.state.message == none.format(2)
    sat.press("u")
    assert sat.state.message == (
        f"{none.format(1)} u again takes back that paragraph 1 was struck."
    )


def test_a_table_that_was_put_into_the_book_stays_there_which_is_said_before(
    moon: Path, sit: Sit
) -> None:
    sat = sit(moon)
    sat.press("s", "s", "t")
    assert sat.state.heard == (
        "A table that the book lacks is put into it, and stays there."
    )
    sat.press(*"ueb", "enter", "u")
    assert sat.state.message == "Taken back: paragraph 1 was given the table ueb."
    version = sat.state.version
    sat.press("u")
    assert (sat.state.message, sat.state.version) == (
        "The book has no way back from this: table ueb was put into the book. u again takes"
        " back that paragraph 1 was restored.",
        version,
    )
    sat.press("u")
    assert sat.state.message == "Taken back: paragraph 1 was restored."


def test_what_others_changed_meanwhile_is_not_taken_back(
    moon: Path, sit: Sit, monkeypatch: pytest.MonkeyPatch
) -> None:
    def changed(line: str) -> None:
        with Session(moon) as session:
            session.set_style(2, "heading")

    # where no copy can be made, others may have the book during an export
    monkeypatch.setattr("tempfile.tempdir", str(moon.parent / "nowhere"))
    sat = sit(moon)
    sat.press("down", "s", "x", *str(moon.parent / "pages"), "enter")
    sat.state = sat.desk.away(sat.state, changed)
    sat.press("escape", "u")
    assert sat.state.message == (
        "Paragraph 2 is struck. Nothing was changed. Restore it first."
    )


@pytest.mark.parametrize("keys", ["x", "i"])
def test_what_others_typed_meanwhile_is_no_import_of_this_one(
    moon: Path, sit: Sit, monkeypatch: pytest.MonkeyPatch, keys: str
) -> None:
    def typed(line: str) -> None:
        if not others:
            with Session(moon) as session:
                others.append(session.add_paragraph("end", "en", "The stars").id)

    others: list[int] = []
    # where no copy can be made, others may have the book during an export
    monkeypatch.setattr("tempfile.tempdir", str(moon.parent / "nowhere"))
    sat = sit(moon)
    # neither an export nor a text that isn't there puts anything into the book
    sat.press("s", keys, *str(moon.parent / "not there" / "it"), "enter")
    sat.state = sat.desk.away(sat.state, typed)
    assert (others, sat.state.version) == ([4], 9)
    assert sat.state.kept == "kept: another program's change"
    assert sat.state.pages is not None and sat.state.pages.lines[:2] == (
        "Another program changed the book meanwhile. It is at version 9 now, and is shown as it"
        " is.",
        "Of what was done until now, u takes back only corrections.",
    )
    assert sat.state.deeds == ()


@pytest.mark.parametrize("is_volume", [False, True])
def test_what_others_set_during_an_import_is_not_of_this_one(
    moon: Path, sit: Sit, monkeypatch: pytest.MonkeyPatch, is_volume: bool
) -> None:
    open_further = Desk._open_further

    def opened_after_others(desk: Desk) -> str:
        with Session(moon) as session:
            if is_volume:
                session.set_begins_volume(2, True)
            else:
                session.set_style(2, "heading")
        return open_further(desk)

    monkeypatch.setattr(Desk, "_open_further", opened_after_others)
    sat = sit(moon)
    text = moon.with_name("more.txt")
    text.write_text("The sun\n\nThe stars.\n")
    sat.press("i", *str(text), "enter")
    sat.state = sat.desk.away(sat.state, print)
    assert sat.state.pages is not None and sat.state.pages.lines[0] == (
        "Another program changed the book meanwhile. It is at version 10 now, and is shown as it"
        " is."
    )
    # the import came before that here, and may come after it
    assert (sat.state.kept, sat.state.deeds) == (None, ())


def test_the_rest_of_an_import_is_taken_back_with_the_heading_that_was_lacking(
    moon: Path, sit: Sit
) -> None:
    text = moon.with_name("more.md")
    text.write_text("The sun\n\n# The stars\n\nThe sea.\n")
    # the heading is in the book, and isn't one yet
    ran = scribe(
        *("import", str(moon), str(text)),
        folder=moon.parent,
        before=wait_for_program,
        **standing_in(2, KEPT, KILL_PROGRAM),
    )
    assert ran.status == 3
    once_free(moon).close()
    sat = sit(moon)
    sat.press("y")
    sat.state = sat.desk.away(sat.state, print)
    assert sat.state.pages is not None and sat.state.pages.lines == (
        "1 paragraph typed, number 6, by the table en.",
    )
    assert sat.state.book[4].style is Style.HEADING
    sat.press("escape", "u")
    assert sat.state.question and sat.state.question.sentence == (
        "This was done last and isn't taken back: paragraph 5 was made a heading, and paragraph 6"
        " was imported. Shall all of it be taken back?"
    )
    sat.press("y")
    sat.state = sat.desk.away(sat.state, print)
    assert (sat.state.book[4].style, sat.state.book[5].struck) == (Style.BODY, True)


def test_what_is_refused_midway_is_said_and_the_rest_is_taken_back_later(
    moon: Path, sit: Sit, monkeypatch: pytest.MonkeyPatch
) -> None:
    # three paragraphs are typed, and the second one isn't struck
    for name, value in standing_in(5, READ, REPLY, "no", "90").items():
        monkeypatch.setenv(name, value)
    sat = sit(moon)
    sat.press("o")
    paste(sat, "One.\nTwo.\nThree.")
    sat.press("y", "escape", "u", "y")
    sat.state = sat.desk.away(sat.state, print)
    assert sat.state.message.startswith("1 of 3 done. ")
    assert "Nothing was changed" not in sat.state.message
    assert [each.struck for each in sat.state.book[1:4]] == [False, False, True]
    sat.press("u")
    assert sat.state.question and sat.state.question.sentence == (
        "This was done last: 3 paragraphs were typed, 4 to 6. 1 of its 3 changes is taken back."
        " Shall the rest be taken back?"
    )
    sat.press("y")
    sat.state = sat.desk.away(sat.state, print)
    assert [each.struck for each in sat.state.book[1:4]] == [True, True, True]
    assert (sat.state.version, sat.state.deeds) == (13, ())


def test_what_a_lost_session_left_is_taken_back_later(
    moon: Path, sit: Sit, monkeypatch: pytest.MonkeyPatch
) -> None:
    # the session ends before the second of three paragraphs is struck
    for name, value in standing_in(5, READ, KILL_PROGRAM).items():
        monkeypatch.setenv(name, value)
    sat = sit(moon)
    sat.press("o")
    paste(sat, "One.\nTwo.\nThree.")
    sat.press("y", "escape", "u", "y")
    sat.state = sat.desk.away(sat.state, print)
    stopped = "is at version 11. What was being done was stopped after 1 change."
    assert sat.state.message.endswith(stopped)
    assert sat.state.kept == "kept: 1 change"
    assert [each.struck for each in sat.state.book[1:4]] == [False, False, True]
    sat.press("u", "y")
    sat.state = sat.desk.away(sat.state, print)
    assert [each.struck for each in sat.state.book[1:4]] == [True, True, True]


def test_what_was_taken_back_as_the_session_ended_is_not_taken_back_twice(
    moon: Path, sit: Sit, monkeypatch: pytest.MonkeyPatch
) -> None:
    # the session ends once it answered, and before the book is read again
    for name, value in standing_in(3, ANSWERED, KILL_PROGRAM).items():
        monkeypatch.setenv(name, value)
    sat = sit(moon)
    sat.press("b", "enter", "O", " ", "enter", "u")
    assert sat.state.message.startswith("The session was ended by signal 9.")
    assert sat.state.openings[1].words == "The moon is far away."
    sat.press("u")
    assert sat.state.message == "Taken back: paragraph 1 was made a heading."
    assert sat.state.openings[1].words == "The moon is far away."


@pytest.mark.parametrize(
    "keys, said",
    [
        ("s", "Taken back: paragraph 1 was struck."),
        ("n r", "Taken back: mark 1 was resolved. It stays resolved,"),
        ("n m x enter", "Taken back: mark 2 was put. The book keeps it, resolved."),
        ("o x enter escape", "Taken back: paragraph 4 was typed. The book keeps it,"),
    ],
)
def test_what_is_in_the_book_though_its_session_ended_is_taken_back(
    moon: Path, sit: Sit, monkeypatch: pytest.MonkeyPatch, keys: str, said: str
) -> None:
    with monkeypatch.context() as patched:
        for name, value in standing_in(2, KEPT, KILL_PROGRAM).items():
            patched.setenv(name, value)
        sat = sit(moon)
    sat.press("b", *keys.split())
    assert (len(sat.state.deeds), sat.state.version) == (2, 9)
    sat.press("u")
    assert sat.state.message.startswith(said)
    sat.press("u")
    assert sat.state.message.startswith("Taken back: paragraph 1 was made a heading.")


@pytest.mark.parametrize("keys", ["s", "n r", "n m x enter"])
def test_what_was_taken_back_and_not_answered_is_not_taken_back_twice(
    moon: Path, sit: Sit, monkeypatch: pytest.MonkeyPatch, keys: str
) -> None:
    with monkeypatch.context() as patched:
        for name, value in standing_in(3, KEPT, KILL_PROGRAM).items():
            patched.setenv(name, value)
        sat = sit(moon)
    sat.press("b", *keys.split(), "u")
    assert sat.state.message.startswith("The session was ended by signal 9.")
    assert (len(sat.state.deeds), sat.state.version) == (1, 10)
    sat.press("u")
    assert sat.state.message.startswith("Taken back: paragraph 1 was made a heading.")


def test_what_a_lost_session_did_of_many_changes_is_not_taken_back_twice(
    moon: Path, sit: Sit, monkeypatch: pytest.MonkeyPatch
) -> None:
    # the second of three paragraphs is struck as the session ends
    with monkeypatch.context() as patched:
        for name, value in standing_in(5, KEPT, KILL_PROGRAM).items():
            patched.setenv(name, value)
        sat = sit(moon)
    sat.press("o")
    paste(sat, "One.\nTwo.\nThree.")
    sat.press("y", "escape", "u", "y")
    sat.state = sat.desk.away(sat.state, print)
    assert [each.struck for each in sat.state.book[1:4]] == [False, True, True]
    sat.press("u")
    assert sat.state.message == (
        "Taken back: 3 paragraphs were typed, 4 to 6. The book keeps them, struck."
    )
    assert [each.struck for each in sat.state.book[1:4]] == [True, True, True]


def test_a_refusal_leaves_what_can_be_taken_back(
    moon: Path, sit: Sit, monkeypatch: pytest.MonkeyPatch
) -> None:
    for name, value in standing_in(2, READ, REPLY, "no", "90").items():
        monkeypatch.setenv(name, value)
    sat = sit(moon)
    sat.press("s", "u")
    assert sat.state.book[0].struck and sat.state.version == 8
    assert "memory" in sat.state.message
    sat.press("u")
    assert sat.state.message == "Taken back: paragraph 1 was struck."


def test_how_far_the_taking_back_came_is_said_at_the_next_opening(
    moon: Path, at: Open, sit: Sit
) -> None:
    # three places are changed, and the second is taken back as the session ends
    terminal = at(moon, **standing_in(5, KEPT, KILL_SCRIBE))
    terminal.wait("? shows the keys.")
    terminal.keys("c", "o", "enter", "u", "enter")
    terminal.wait("3 places of")
    terminal.keys("a")
    terminal.wait("Changed.")
    terminal.keys("escape", "u", "y")
    terminal.ended()
    once_free(moon).close()
    said = "Taking back 3 changes was cut short: at most 2 of them were taken back."
    for is_said in (True, False):
        sat = sit(moon)
        assert (said in sat.state.message) is is_said
        sat.desk.close()


def test_what_another_program_changed_after_a_session_was_lost_is_said_to_be_of_that(
    moon: Path, sit: Sit
) -> None:
    sat = sit(moon)
    sat.press("s")
    assert "last kept: paragraph 1 struck" in sat.lines[0]
    os.kill(sat.desk.pid, signal.SIGKILL)
    with once_free(moon) as session:
        session.set_style(2, "body")
    sat.state = sat.desk.lost(sat.state)
    assert sat.state.message == (
        "The session was ended by signal 9. The book was opened again: it is at version 9, and was"
        " at 8 before: another program changed it meanwhile. Of what was done until now, u takes"
        " back only corrections."
    )
    assert "version 9, " in sat.lines[0]
    assert "last kept: another program's change" in sat.lines[0]
    sat.press("s")
    assert "last kept: paragraph 1 restored" in sat.lines[0]


def test_u_takes_back_a_correction_from_before_others_changed_the_book_as_is_said(
    moon: Path, sit: Sit
) -> None:
    sat = sit(moon)
    sat.press("enter", *"Oh, ", "enter")
    os.kill(sat.desk.pid, signal.SIGKILL)
    with once_free(moon) as session:
        session.set_style(2, "body")
    sat.state = sat.desk.lost(sat.state)
    assert sat.state.message.endswith(
        " another program changed it meanwhile. Of what was done until now, u takes back only"
        " corrections."
    )
    sat.press("u")
    assert sat.state.message == "Taken back: the newest correction of paragraph 1."
    assert sat.state.version == 10
