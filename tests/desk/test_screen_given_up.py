"""What is given up, left for later or pasted where nothing is typed: it is kept and comes back."""

import errno
import os
import shutil
import signal
from pathlib import Path

import pytest

from braildesk import Session, requests
from braildesk.desk.draft import Aim, Draft, Unread
from braildesk.desk.drafts import Drafts
from braildesk.desk.own_folder import OwnFolder
from braildesk.text.spans import Span
from scribe.screen.drawing import draw
from scribe.screen.state import Size
from sitting import Sat, Sit
from stand_in import KEPT, KILL_PROGRAM
from strangers import NEEDS_ROOT, STRANGER
from terminal import Open, standing_in

LONG = "Twice a day the sea comes up, and twice it goes down again."


def paste(sat: Sat, text: str) -> None:
    """Pastes a text."""
    sat.state = sat.desk.paste(sat.state, text)


def asked(sat: Sat) -> str:
    """The question that is on the screen, from the bottom up to what stands above it."""
    assert sat.state.question is not None
    lines = " ".join(sat.lines)
    return lines[lines.index(sat.state.question.sentence[:20]) :]


def test_what_escape_gives_up_comes_back_by_a_key(moon: Path, sit: Sit) -> None:
    sat = sit(moon)
    sat.press("o", *"It rose.", "escape")
    assert sat.state.message == "Given up. The book is as it was. U brings it back."
    assert (sat.state.typed, sat.desk.drafts.waiting()) == (None, None)
    sat.press("c-end", "U")
    assert asked(sat) == (
        "1 of 1. A text of a new paragraph was set aside: “It rose.”. Shall it be typed"
        " further? y is yes, n is no."
    )
    sat.press("y", "enter")
    assert sat.state.kept == "kept: paragraph 4"
    assert [each.id for each in sat.state.book] == [1, 4, 2, 3]
    # one was given up, and is in the book by now
    sat.press("escape", "U")
    assert sat.state.message == "No text is set aside in this book."


@pytest.mark.parametrize("keys", [["o"], ["down", "enter", "home"], ["m"]])
def test_a_text_is_typed_further_where_its_cursor_was(
    moon: Path, sit: Sit, keys: list[str]
) -> None:
    sat = sit(moon)
    sat.press(*keys, *"It rse. ", *["left"] * 4, "escape", "U", "y", "o")
    typed = sat.state.typed
    assert typed and typed.text.startswith("It rose. ")
    sat.state = sat.desk.save_draft(sat.state)
    # also where it was moved and nothing was typed since
    sat.press("home")
    sat.state = sat.desk.save_draft(sat.state)
    sat.desk.close()
    sat = sit(moon)
    sat.press("y", *"Oh, ")
    typed = sat.state.typed
    assert typed and typed.text.startswith("Oh, It rose. ")


def test_lines_are_typed_further_at_their_end_wherever_the_cursor_was(
    moon: Path, sit: Sit
) -> None:
    its = Draft(Aim.AFTER, 1, "en", "", "It rose.", None, 7, place=3)
    drafts = Drafts(moon)
    drafts.save(its)
    aside = Draft(Aim.AFTER, 1, "en", "", "It set.")
    drafts.keep_unread(Unread("It shone.", aside))
    sat = sit(moon)
    sat.press("y", "n", "!")
    typed = sat.state.typed
    assert typed and typed.text == "It rose. It shone.!"


def test_what_was_typed_at_a_question_or_a_report_is_said_truly_of_both_after_a_kill(
    moon: Path, sit: Sit
) -> None:
    aside = Draft(Aim.AFTER, 1, "en", "", "It set.")
    Drafts(moon).keep_unread(Unread("", aside, is_at_offer=True))
    assert sit(moon).state.message == (
        "What was typed where no text was asked for is set aside: “It set.”. U brings it back."
    )


@NEEDS_ROOT
def test_of_a_folder_of_another_user_it_is_said_once_that_it_can_not_be_read(
    moon: Path, sit: Sit, state_home: Path
) -> None:
    folder = state_home / "braildesk"
    folder.mkdir()
    os.chown(folder, STRANGER, STRANGER)
    sat = sit(moon)
    assert sat.state.message == f"{folder} can't be read: it belongs to another user."


def test_another_escape_leaves_it_said_how_what_was_given_up_is_brought_back(
    moon: Path, sit: Sit
) -> None:
    sat = sit(moon)
    sat.press("o", *"It rose.", "escape")
    given_up = sat.state.message
    nothing = "That key does nothing here. ? shows the keys."
    for _ in range(2):
        sat.press("escape")
        assert sat.state.message == f"{given_up} {nothing}"
    sat.press("down")
    assert sat.state.message == ""
    sat.press("escape")
    assert sat.state.message == nothing
    sat.press("o")
    sat.state = sat.desk.paste(sat.state, "It set.\nIt shone.")
    sat.press("escape", "escape")
    assert sat.state.message == (
        "These lines aren't in the book. Once nothing is typed any more, U brings them back. This"
        " paragraph was empty, and wasn't added."
    )
    sat.press("U")
    assert "“It set. It shone.”" in asked(sat)


def test_another_escape_leaves_it_said_that_what_was_given_up_is_kept_nowhere(
    moon: Path, sit: Sit, tmp_path: Path, monkeypatch: pytest.MonkeyPatch
) -> None:
    (tmp_path / "file").write_text("no folder")
    monkeypatch.setenv("XDG_STATE_HOME", str(tmp_path / "file"))
    sat = sit(moon)
    sat.press("o", *"It rose.", "escape", "escape")
    assert "It is here only until scribe ends." in sat.state.message


@pytest.mark.parametrize("keys", [["n"], ["escape"], ["U", "n"], ["U", "U", "n"]])
def test_one_is_back_where_one_was_if_what_was_given_up_stays_so(
    moon: Path, sit: Sit, keys: list[str]
) -> None:
    sat = sit(moon)
    sat.press("enter", *"Oh, ", "escape", "down", "m", *"who?", "escape")
    sat.press("c-end", "right", "right")
    before = sat.state.chosen, sat.state.place, sat.state.pane
    sat.press("U", *keys)
    assert (sat.state.chosen, sat.state.place, sat.state.pane) == before
    assert sat.state.anchor is None
    sat.press("o")
    assert "New paragraph after paragraph 3" in "\n".join(sat.lines)


@pytest.mark.parametrize("keys", ["enter O h , escape", "o I t escape"])
@pytest.mark.parametrize("pane", ["", "tab"])
def test_the_cursor_stays_in_its_paragraph_where_what_came_back_is_given_up_again(
    moon: Path, sit: Sit, keys: str, pane: str
) -> None:
    sat = sit(moon)
    sat.press(*keys.split(), *pane.split(), "right", "right")
    before = sat.state.chosen, sat.state.place, sat.state.pane
    sat.press("U", "y", "escape")
    assert sat.state.typed is None
    assert (sat.state.chosen, sat.state.place, sat.state.pane) == before


def test_enter_that_came_at_once_ends_no_line_that_was_given_up(
    moon: Path, sit: Sit
) -> None:
    sat = sit(moon)
    sat.press("o")
    sat.state = sat.desk.paste(sat.state, "It rose\n", True)
    assert sat.state.message.endswith(" what is typed on is another line.")
    sat.press("escape", "U", "y", *" far.")
    assert sat.state.question is None
    assert sat.state.typed and sat.state.typed.text == "It rose far."


def test_what_was_given_up_comes_back_when_the_book_is_opened_again(
    moon: Path, sit: Sit
) -> None:
    sat = sit(moon)
    sat.press("down", "enter", *"Oh, ", "escape", "m", *"who?", "escape")
    sat.press("o", *"It rose.", "escape", "q")
    sat.desk.close()
    again = sit(moon)
    assert again.state.question is None
    sentences, others = [], []
    for _ in range(4):
        again.press("U")
        sentences.append(asked(again).split(" Shall")[0])
        others.append(asked(again).split("n is no. ")[1])
    assert sentences == [
        "1 of 3. A text of a new paragraph was set aside: “It rose.”.",
        "2 of 3. A note for a mark in paragraph 2 was set aside: “who?”.",
        "3 of 3. A text of paragraph 2 was set aside: “Oh, The Tides”.",
        "1 of 3. A text of a new paragraph was set aside: “It rose.”.",
    ]
    before, newest = (
        "U asks about the one before.",
        "U asks about the newest one again.",
    )
    assert others == [before, before, newest, before]
    again.press("n")
    assert again.state.message == "It stays set aside. U asks about it again."
    again.press("U", "U", "n")
    assert again.state.message == (
        "It stays set aside. U, pressed 2 times, asks about it again."
    )
    again.press("U", "U", "y", "enter")
    assert again.state.kept == "kept: mark 2"
    # what the book has isn't asked about any more
    again.press("U", "U", "y", "enter")
    assert again.state.kept == "kept: correction 1 of paragraph 2"
    assert [each.text for each in again.desk.drafts.given_up()] == ["It rose."]


def test_the_last_ten_texts_are_kept(moon: Path, sit: Sit) -> None:
    sat = sit(moon)
    for number in range(12):
        sat.press("o", *f"Text {number}.", "escape")
    texts = [each.text for each in sat.desk.drafts.given_up()]
    assert texts == [f"Text {number}." for number in range(11, 1, -1)]
    sat.press("U")
    assert asked(sat).startswith("1 of 10. ")


def test_no_to_a_text_that_waits_keeps_it_and_it_comes_back(
    moon: Path, sit: Sit
) -> None:
    Drafts(moon).save(Draft(Aim.EDIT, 2, "en", "The Tides", LONG))
    sat = sit(moon)
    assert asked(sat) == (
        "A text of paragraph 2 was typed and isn't in the book: “Twice a day the sea comes up, and twice…”."
        " It has 59 characters. Shall it be typed further? y is yes, n is no. l leaves it for"
        " later."
    )
    sat.press("n")
    assert sat.state.message == "Given up. The book is as it was. U brings it back."
    assert sat.desk.drafts.waiting() is None
    sat.press("U", "y")
    assert sat.state.typed and sat.state.typed.text == LONG


@pytest.mark.parametrize("aim", [Aim.EDIT, Aim.NOTE])
def test_a_text_whose_paragraph_an_older_file_lacks_is_said_to_be_a_new_paragraph(
    moon: Path, sit: Sit, aim: Aim
) -> None:
    Drafts(moon).save(Draft(aim, 9, "en", "It was late.", "It was dark.", None, 20))
    sat = sit(moon, size=Size(40, 2))
    question = sat.state.question
    assert question is not None and question.sentence.endswith(
        " and isn't in the book: “It was dark.”. The book has no paragraph 9, so it would be a"
        " new paragraph. Shall it be typed further?"
    )
    # where there is no room for all of the question it is seen once that is answered
    sat.press("y")
    assert sat.lines[1] == "The book has no paragraph 9, so it…"
    sat.press("end")
    assert sat.lines[1] == "It was dark."


@pytest.mark.parametrize("is_waiting", [True, False])
def test_that_the_print_was_changed_is_said_until_the_text_is_kept(
    moon: Path, sit: Sit, is_waiting: bool
) -> None:
    said = "The print there has been changed since."
    sat = sit(moon)
    sat.press("down", "enter", "home", *"Oh, ", "escape")
    sat.press("enter", "home", *"No ", "enter", "U")
    assert said in asked(sat)
    sat.press("y", "x")
    sat.state = sat.desk.save_draft(sat.state)
    draft = sat.desk.drafts.waiting()
    if is_waiting:
        sat.desk.close()
        sat = sit(moon)
        assert sat.desk.drafts.waiting() == draft
    else:
        sat.press("escape", "U")
    assert said in asked(sat)
    sat.press("y", "enter", "enter", "home", *"So ", "escape", "U")
    assert said not in asked(sat)


def test_a_text_that_is_typed_after_lines_were_left_out_is_one_of_the_print_as_it_is(
    moon: Path, sit: Sit
) -> None:
    said = "The print there has been changed since."
    sat = sit(moon)
    sat.press("down", "enter")
    paste(sat, "One.\nTwo.")
    sat.press("escape", "escape", "enter", "home", *"No ", "enter", "U")
    assert said in asked(sat)
    sat.press("y", "escape", *"So ")
    sat.press("escape", "U")
    assert "So " in asked(sat) and said not in asked(sat)
    sat.press("U")
    assert said in asked(sat)


def test_what_a_mark_goes_on_is_said_where_its_note_is_typed_further(
    moon: Path, sit: Sit
) -> None:
    sat = sit(moon)
    sat.press("/", *"far", "enter", "m", *"how far?", "escape", "U", "y")
    assert sat.state.heard == "On “far”."
    sat.press("escape", "home", "enter", *"Oh, ", "enter", "U")
    assert "has been changed since" not in asked(sat)
    sat.press("y")
    assert sat.state.heard == "On “far”."
    # it has the same cells whatever print was put in where its words were
    sat.press("escape", "enter", "end", *["backspace"] * len("far away."), "enter")
    sat.press(
        "enter",
        "home",
        *["delete"] * len("Oh, "),
        "end",
        *"by the hills.",
        "enter",
        "U",
    )
    changed = "The print there has been changed since. The note was typed for “far”."
    assert changed in asked(sat)
    sat.press("y")
    assert sat.state.heard == f"On “e h”. {changed}"
    sat.state = sat.desk.resized(sat.state, Size(40, 2))
    # where it will be is seen first
    words = "On “e h”. The print there has been…"
    assert sat.lines[1] == words
    sat.press("end")
    assert sat.lines == [words, "Note of the mark: how far?"]
    sat.state = sat.desk.resized(sat.state, Size(80, 24))
    sat.press("enter")
    assert "Mark 2, open, on “e h”: how far?" in " ".join(sat.lines)


@pytest.mark.parametrize(
    "old, new",
    [
        ("The moon", "In the night the moon"),
        ("away", "off"),
        ("The moon is far away.", "So far it was never."),
    ],
)
def test_a_note_that_waits_is_for_its_words_where_others_were_changed(
    moon: Path, sit: Sit, old: str, new: str
) -> None:
    sat = sit(moon)
    sat.press("/", *"far", "enter", "m", *"how far?")
    sat.state = sat.desk.save_draft(sat.state)
    sat.desk.close()
    with Session(moon) as session:
        start = session.print_of(1).index(old)
        session.correct(1, start, len(old), new)
    again = sit(moon)
    assert "“how far?”" in asked(again)
    assert "has been changed since" not in asked(again)
    again.press("y")
    assert again.state.heard == "On “far”."
    again.press("enter")
    assert "Mark 2, open, on “far”: how far?" in " ".join(again.lines)


@pytest.mark.parametrize("new", ["near", "farther", "the sea"])
def test_that_the_words_of_a_note_that_waits_were_changed_is_said(
    moon: Path, sit: Sit, new: str
) -> None:
    sat = sit(moon)
    sat.press("/", *"far", "enter", "m", *"how far?")
    sat.state = sat.desk.save_draft(sat.state)
    sat.desk.close()
    with Session(moon) as session:
        session.correct(1, session.print_of(1).index("far"), 3, new)
    again = sit(moon)
    changed = " The print there has been changed since. The note was typed for “far”."
    assert changed in asked(again)
    again.press("y")
    assert again.state.heard.endswith(changed)


@pytest.mark.parametrize("is_changed", [False, True])
def test_a_note_that_waits_is_for_its_words_where_these_have_other_cells_by_now(
    moon: Path, sit: Sit, is_changed: bool
) -> None:
    plain = moon.with_name("plain.utb").read_bytes()
    with Session(moon) as session:
        session.put_table("long", plain.replace(b"letter m 134", b"letter m 6-6-134"))
    sat = sit(moon)
    sat.press("/", *"far", "enter", "m", *"how far?")
    sat.state = sat.desk.save_draft(sat.state)
    sat.desk.close()
    with Session(moon) as session:
        session.set_table(1, "long")
        if is_changed:
            session.correct(1, len("The moon is far"), 0, ",")
    again = sit(moon)
    again.press("y")
    assert again.state.heard == "On “far”."
    again.press("enter")
    assert "Mark 2, open, on “far”: how far?" in " ".join(again.lines)


def test_a_note_that_is_given_up_where_its_words_were_changed_is_for_them_still(
    moon: Path, sit: Sit
) -> None:
    sat = sit(moon)
    sat.press("/", *"far", "enter", "m", *"how far?")
    sat.state = sat.desk.save_draft(sat.state)
    sat.desk.close()
    with Session(moon) as session:
        session.correct(1, session.print_of(1).index("far"), 3, "near")
    again = sit(moon)
    again.press("n", "U")
    assert "The print there has been changed since." in asked(again)
    again.press("n", "q")
    again.desk.close()
    with Session(moon) as session:
        session.undo(1)
    last = sit(moon)
    last.press("U")
    assert "has been changed since" not in asked(last)
    last.press("y")
    assert last.state.heard == "On “far”."


def test_a_note_that_waits_is_not_taken_for_a_mark_on_other_words(
    moon: Path, sit: Sit
) -> None:
    sat = sit(moon)
    # mark 1 has this note
    sat.press("/", *"far", "enter", "m", *"spelled so?")
    sat.state = sat.desk.save_draft(sat.state)
    sat.desk.close()
    with Session(moon) as session:
        session.strike(2)
    again = sit(moon)
    assert "isn't in the book: “spelled so?”" in asked(again)
    again.press("y", "enter")
    assert "Mark 2, open, on “far”: spelled so?" in " ".join(again.lines)


@pytest.mark.parametrize("keys", [["/", *"Tides", "enter"], ["tab", "right"]])
def test_a_note_is_typed_further_where_the_cursor_was_in_the_print_or_on_cells(
    moon: Path, sit: Sit, keys: list[str]
) -> None:
    sat = sit(moon)
    sat.press("down", *keys, "m", *"which?")
    cells, pane = sat.state.chosen_cells, sat.state.pane
    sat.state = sat.desk.save_draft(sat.state)
    sat.desk.keep_place(sat.state)
    sat.desk.close()
    again = sit(moon)
    assert "isn't in the book: “which?”" in asked(again)
    again.press("y")
    assert (again.state.chosen_cells, again.state.pane) == (cells, pane)
    again.press("enter")
    assert again.state.kept == "kept: mark 2" and again.state.pane is pane


def test_the_question_says_how_many_lines_wait(moon: Path, sit: Sit) -> None:
    Drafts(moon).save(Draft(Aim.AFTER, 2, "en", "", "It rose.\nIt set.\nIt rose."))
    sat = sit(moon)
    assert "It has 25 characters, 3 lines. Shall it be typed" in asked(sat)


def test_lines_that_are_left_for_later_wait_without_those_of_the_book(
    moon: Path, sit: Sit
) -> None:
    with Session(moon) as session:
        Drafts(moon).save(
            Draft(
                *(Aim.AFTER, 2, "en", "", "One.\nTwo.\nThree."),
                version=session.last_version,
            )
        )
        session.ask(requests.Type(2, "en", "One."))
    sat = sit(moon)
    assert "“Two. Three.”" in asked(sat)
    sat.press("l", "U")
    assert "“Two. Three.”" in asked(sat)
    sat.press("l")
    sat.desk.close()
    assert "“Two. Three.”" in asked(sit(moon))


def test_lines_that_can_not_be_left_for_later_without_those_of_the_book_stay_asked_about(
    moon: Path, sit: Sit, monkeypatch: pytest.MonkeyPatch
) -> None:
    draft = Draft(Aim.AFTER, 2, "en", "", "One.\nTwo.\nThree.", version=7)
    Drafts(moon).save(draft)
    with Session(moon) as session:
        session.ask(requests.Type(2, "en", "One."))
    sat = sit(moon)
    with monkeypatch.context() as patched:
        patched.setattr(OwnFolder, "write", no_room)
        sat.press("l")
        assert sat.state.message.startswith("It can't be left for later. What is typed")
        assert "“Two. Three.”" in asked(sat)
        sat.press("y", "y", "escape")
    prints = [sat.state.openings[each.id].words for each in sat.state.book[1:5]]
    assert prints == ["The Tides", "One.", "Two.", "Three."]


def test_a_text_that_is_left_for_later_waits_through_other_work(
    moon: Path, sit: Sit
) -> None:
    Drafts(moon).save(Draft(Aim.EDIT, 2, "en", "The Tides", "The Tide"))
    sat = sit(moon)
    sat.press("l")
    assert sat.state.message == (
        "The text waits. U asks about it, and so does an opening at which no newer one waits."
    )
    sat.press("s", "s", "o", *"It rose.", "enter", *"It set.")
    sat.state = sat.desk.save_draft(sat.state)
    waiting = sat.desk.drafts.waiting()
    assert waiting and waiting.text == "It set."
    # whatever stops the machine now, the text is there, and is none of the ten that are given up
    assert [each.text for each in sat.desk.drafts.later()] == ["The Tide"]
    assert sat.desk.drafts.given_up() == ()
    sat.press("enter", "escape", "q")
    sat.desk.close()
    again = sit(moon)
    assert "“The Tide”" in asked(again)
    again.press("l", "U")
    assert asked(again).startswith("1 of 1. A text of paragraph 2 was set aside: ")
    again.press("y", "enter")
    assert again.state.kept == "kept: correction 1 of paragraph 2"
    assert again.desk.drafts.waiting() is None


def test_a_text_that_is_left_for_later_waits_where_another_one_reads_the_same(
    moon: Path, sit: Sit
) -> None:
    sat = sit(moon)
    sat.press("/", *"far", "enter", "m", *"why?")
    sat.state = sat.desk.save_draft(sat.state)
    sat.desk.close()
    again = sit(moon)
    again.press("l", "down", "down", "m", *"why?", "escape")
    texts = "A note for a mark in paragraph {} was set aside: “why?”."
    again.press("U")
    assert asked(again).startswith(f"1 of 2. {texts.format(3)}")
    again.press("U")
    assert asked(again).startswith(f"2 of 2. {texts.format(1)}")
    again.press("n", "q")
    again.desk.close()
    third = sit(moon)
    assert asked(third).startswith("A note for a mark in paragraph 1 was typed")
    third.press("y", "enter")
    assert third.state.kept == "kept: mark 2"
    third.press("U")
    assert asked(third).startswith(f"1 of 1. {texts.format(3)}")
    assert third.desk.drafts.waiting() is None


def test_texts_come_back_by_when_they_were_given_up_or_left_also_at_the_next_opening(
    moon: Path, sit: Sit
) -> None:
    Drafts(moon).save(Draft(Aim.AFTER, 2, "en", "", "First."))
    sat = sit(moon)
    sat.press("l", "o", *"Second.")
    sat.state = sat.desk.save_draft(sat.state)
    sat.desk.close()
    sat = sit(moon)
    sat.press("l", "o", *"Third.", "escape", "q")
    sat.desk.close()
    sat = sit(moon)
    assert "“Second.”" in asked(sat)
    sat.press("y", "enter", "escape", "U")
    assert "1 of 2. " in asked(sat) and "“Third.”" in asked(sat)
    sat.press("U")
    assert "2 of 2. " in asked(sat) and "“First.”" in asked(sat)


def test_a_text_left_for_later_is_asked_about_where_the_newer_one_is_in_the_book(
    moon: Path, sit: Sit
) -> None:
    later = Draft(Aim.AFTER, 2, "en", "", "It rose.")
    with Session(moon) as session:
        before = session.last_version
        session.ask(requests.Correct(2, 8, 1, "."))
        now = session.print_of(2)
    for number in (1, 2):
        drafts = Drafts(moon)
        drafts.save(Draft(Aim.EDIT, 2, "en", "The Tides", now, None, before))
        drafts.keep_later([later])
        sat = sit(moon)
        assert f"What was typed last is in the book, in paragraph 2: “{now}”." in (
            sat.state.message
        )
        assert asked(sat).startswith("A text of a new paragraph was typed and isn't")
        sat.press(*"ln"[number - 1], "q")
        assert drafts.waiting() == (later if number == 1 else None)
        sat.desk.close()


@pytest.mark.parametrize("aim", [Aim.EDIT, Aim.NOTE, Aim.AFTER])
def test_that_a_paragraph_is_struck_is_said_of_a_text_that_waits_for_it(
    moon: Path, sit: Sit, aim: Aim
) -> None:
    cells = Span(0, 2) if aim is Aim.NOTE else None
    Drafts(moon).save(Draft(aim, 2, "en", "The Tides", "The Tide", cells))
    with Session(moon) as session:
        session.ask(requests.Strike(2))
    sat = sit(moon)
    said = "Paragraph 2 is struck, so nothing goes in there until it is restored."
    assert (said in asked(sat)) == (aim is not Aim.AFTER)
    sat.press("y", "enter")
    assert (said in sat.state.message, sat.state.typed is None) == (False, False)
    assert sat.state.failure.startswith("Paragraph 2 is struck.") or aim is Aim.AFTER


def test_a_text_whose_paragraph_is_gone_is_given_up_as_it_waits(
    moon: Path, sit: Sit
) -> None:
    text = Draft(Aim.EDIT, 9, "en", "It rises.", "It rose.")
    Drafts(moon).save(text)
    sat = sit(moon)
    sat.press("n")
    assert sat.state.message == "Given up. The book is as it was. U brings it back."
    assert sat.desk.drafts.given_up() == (text,)
    sat.press("U", "y", "enter", "escape")
    assert sat.state.kept == "kept: paragraph 4"
    sat.press("U")
    assert sat.state.message == "No text is set aside in this book."


@pytest.mark.parametrize("answer", ["y", "n", "l"])
def test_a_text_that_is_left_for_later_is_asked_about_after_a_later_one_that_was_broken_off(
    moon: Path, sit: Sit, answer: str
) -> None:
    first = Draft(Aim.EDIT, 2, "en", "The Tides", "The Tide")
    Drafts(moon).save(first)
    sat = sit(moon)
    sat.press("l", "down", "o", *"It rose.")
    sat.state = sat.desk.save_draft(sat.state)
    sat.desk.close()
    again = sit(moon)
    assert "“It rose.”" in asked(again)
    again.press(answer, *["enter", "escape"] * (answer == "y"))
    again.state = again.desk.save_draft(again.state)
    again.press("U", *["U"] * (answer == "n"))
    assert "“The Tide”" in asked(again) or answer == "l"
    again.press("n", "q")
    again.desk.close()
    third = sit(moon)
    if answer == "l":
        assert "“It rose.”" in asked(third)
        third.press("n")
        third.state = third.desk.save_draft(third.state)
        third.press("q")
        third.desk.close()
        third = sit(moon)
    assert "“The Tide”" in asked(third)
    third.press("n")
    third.state = third.desk.save_draft(third.state)
    assert Drafts(moon).waiting() is None and not Drafts(moon).later()


def test_the_last_ten_given_up_are_kept_beside_one_that_is_left_for_later(
    moon: Path, sit: Sit
) -> None:
    Drafts(moon).save(Draft(Aim.EDIT, 2, "en", "The Tides", "The Tide"))
    sat = sit(moon)
    sat.press("l")
    for number in range(10):
        sat.press("o", *f"It rose {number}.")
        sat.state = sat.desk.save_draft(sat.state)
        sat.press("escape")
        sat.state = sat.desk.save_draft(sat.state)
    kept = [each.text for each in Drafts(moon).given_up()]
    assert kept == [f"It rose {number}." for number in reversed(range(10))]
    waiting = Drafts(moon).waiting()
    assert waiting and waiting.text == "The Tide"


def test_what_was_given_up_or_left_for_later_last_is_what_u_asks_about_first(
    moon: Path, sit: Sit
) -> None:
    Drafts(moon).save(Draft(Aim.EDIT, 2, "en", "The Tides", "The Tide"))
    sat = sit(moon)
    paste(sat, "It set.")
    sat.press("l", "U")
    assert asked(sat).startswith("1 of 2. ") and "“The Tide”" in asked(sat)
    sat.press("n", "o", *"It rose.", "escape")
    assert sat.state.message == "Given up. The book is as it was. U brings it back."
    for text in ("It rose.", "The Tide", "It set.", "It rose."):
        sat.press("U")
        assert f"“{text}”" in asked(sat)
    sat.press("n", "o", *"It shone.", "escape", "U")
    assert "“It shone.”" in asked(sat)
    sat.press("U")
    assert "“It rose.”" in asked(sat)


def test_what_came_last_before_an_end_is_what_u_asks_about_first(
    moon: Path, sit: Sit
) -> None:
    drafts = Drafts(moon)
    drafts.keep_later([Draft(Aim.EDIT, 2, "en", "The Tides", "The Tide")])
    drafts.keep_unread(Unread("", Draft(Aim.AFTER, 1, "en", "", "It rose.", None, 5)))
    sat = sit(moon)
    assert "is set aside: “It rose.”. U brings it back." in sat.state.message
    sat.press("U")
    assert "“It rose.”" in asked(sat)


@pytest.mark.parametrize("keys", ["n", "l", "l U U y escape", "y escape", "y enter"])
def test_a_text_that_was_left_for_later_is_kept_at_each_moment_until_it_waits_again(
    moon: Path, sit: Sit, monkeypatch: pytest.MonkeyPatch, keys: str
) -> None:
    Drafts(moon).keep_later([Draft(Aim.EDIT, 2, "en", "The Tides", "The Tide")])
    Drafts(moon).save(Draft(Aim.AFTER, 1, "en", "", "It rose."))
    sat = sit(moon)
    moments: list[list[str]] = []

    def after(act: str) -> None:
        does = getattr(OwnFolder, act)

        def noted(*words: object) -> None:
            does(*words)
            its = Drafts(moon)
            there = (*its.later(), *its.given_up(), *filter(None, [its.waiting()]))
            moments.append([each.text for each in there])

        monkeypatch.setattr(OwnFolder, act, noted)

    after("write")
    after("remove")
    for key in (*keys.split(), "o", *"It set.", "escape"):
        sat.press(key)
        sat.state = sat.desk.save_draft(sat.state)
    assert len(moments) > 3 and all("The Tide" in each for each in moments)


def test_a_text_that_was_left_for_later_can_be_given_up_when_it_is_asked_about_again(
    moon: Path, sit: Sit
) -> None:
    Drafts(moon).save(Draft(Aim.EDIT, 2, "en", "The Tides", "The Tide"))
    sat = sit(moon)
    sat.press("l")
    os.kill(sat.desk.pid, signal.SIGKILL)
    sat.state = sat.desk.lost(sat.state)
    assert "“The Tide”" in asked(sat)
    sat.press("n")
    assert sat.desk.drafts.waiting() is None
    assert [each.text for each in sat.desk.drafts.given_up()] == ["The Tide"]


def test_where_nothing_was_given_up_the_key_says_so(empty_book: Path, sit: Sit) -> None:
    sat = sit(empty_book)
    sat.press("U")
    assert sat.state.message == "No text is set aside in this book."


@pytest.mark.parametrize("before", ["", "?", "x", "t"])
def test_text_that_is_pasted_where_none_is_typed_comes_back_as_a_paragraph(
    moon: Path, sit: Sit, before: str
) -> None:
    sat = sit(moon)
    if before == "?":
        sat.press("?")
    paste(sat, "strike bits.\rIt rose.\r")
    assert sat.state.message == (
        "Pasted text goes in after Enter or o. No key of it was obeyed. U brings it back, for a"
        " new paragraph."
    )
    sat.press(*["escape"] * (before == "?"), "c-end", "U", "y")
    assert sat.state.question and sat.state.question.lines == (
        "strike bits.",
        "It rose.",
    )
    sat.press("y")
    prints = [sat.state.openings[each.id].words for each in sat.state.book]
    assert prints[1:3] == ["strike bits.", "It rose."]
    assert sat.state.version == 9


def test_keys_that_come_all_at_once_are_not_said_to_be_pasted(
    moon: Path, sit: Sit
) -> None:
    sat = sit(moon)
    sat.state = sat.desk.paste(sat.state, "strike bits.\n", is_keys=True)
    assert sat.state.message == (
        "Keys that come all at once are taken as a text, which goes in after Enter or o. No key of"
        " it was obeyed. U brings it back, for a new paragraph."
    )
    assert [each.text for each in sat.desk.drafts.given_up()] == ["strike bits."]


def test_what_was_said_before_a_text_was_pasted_is_not_said_again(
    moon: Path, sit: Sit
) -> None:
    sat = sit(moon)
    sat.press("o", "f5")
    assert sat.state.heard.startswith("That key does nothing here.")
    paste(sat, "It rose.\nIt set.")
    assert sat.state.question and sat.state.heard == ""
    sat.press("escape", "escape", "o")
    sat.state = sat.desk.paste(sat.state, "It rose.\n", is_keys=True)
    assert sat.state.heard.startswith("Enter came with other keys at once")
    sat.state = sat.desk.paste(sat.state, "It set.", is_keys=True)
    assert sat.state.question and sat.state.heard == ""


def test_text_that_is_pasted_at_a_question_is_no_answer_and_is_kept(
    moon: Path, sit: Sit
) -> None:
    Drafts(moon).save(Draft(Aim.EDIT, 2, "en", "The Tides", "The Tide"))
    sat = sit(moon)
    paste(sat, "yes, no and later")
    assert sat.state.question and sat.state.typed is None
    waiting = sat.desk.drafts.waiting()
    assert waiting and waiting.text == "The Tide"
    sat.press("n", "U", "U")
    assert "“yes, no and later”" in asked(sat)


def test_pasted_lines_that_are_left_out_come_back(moon: Path, sit: Sit) -> None:
    sat = sit(moon)
    sat.press("o", *"Oh")
    paste(sat, ", it rose.\nIt set.")
    sat.press("escape")
    assert sat.state.message == (
        "These lines aren't in the book. Once nothing is typed any more, U brings them back."
    )
    assert sat.state.typed and sat.state.typed.text == "Oh"
    sat.press("escape", "U", "U", "y")
    assert sat.state.question and sat.state.question.lines == (
        "Oh, it rose.",
        "It set.",
    )


def test_what_is_given_up_in_an_empty_book_waits_for_a_table(
    empty_book: Path, sit: Sit
) -> None:
    sat = sit(empty_book)
    paste(sat, "It rose.")
    sat.press("U", "y")
    assert sat.state.message == "The book has no table yet. t chooses one."
    sat.press("n", "t", *"en", "enter", "U", "y", "enter")
    assert sat.state.kept == "kept: paragraph 1"


def test_what_cant_be_kept_is_there_until_the_end(moon: Path, sit: Sit) -> None:
    sat = sit(moon)
    folder = sat.desk.drafts.place.parent
    shutil.rmtree(folder, ignore_errors=True)
    folder.write_text("in the way")
    sat.press("o", *"It rose.", "escape")
    assert sat.state.typed is None
    sat.press("U", "y")
    assert sat.state.typed and sat.state.typed.text == "It rose."
    # what is in the book isn't said to be kept nowhere
    sat.press("enter", "escape")
    assert sat.state.kept == "kept: paragraph 4"
    assert sat.desk.unkept == ()
    folder.unlink()


def test_what_couldnt_be_kept_is_kept_once_it_can_be(moon: Path, sit: Sit) -> None:
    sat = sit(moon)
    folder = sat.desk.drafts.place.parent
    shutil.rmtree(folder, ignore_errors=True)
    folder.write_text("in the way")
    sat.press("o", *"It rose.", "escape", "o", *"It set.", "escape")
    folder.unlink()
    sat.press("down")
    texts = [each.text for each in Drafts(moon).given_up()]
    assert texts == ["It set.", "It rose."]


def test_what_was_given_up_and_is_kept_nowhere_is_said_at_the_end(
    moon: Path, at: Open
) -> None:
    terminal = at(moon, XDG_STATE_HOME="/proc/nowhere")
    terminal.wait("? shows the keys.")
    terminal.keys("o", *"It rose.")
    terminal.wait("It rose.")
    terminal.keys("escape")
    terminal.wait("It is here only until")
    terminal.keys("q")
    terminal.wait("Shall scribe end? y is yes, n is no.")
    terminal.keys("y")
    assert terminal.ended() == 0
    assert "This was given up, and is kept nowhere:\nIt rose.\n" in terminal.said


def test_q_asks_before_texts_are_left_that_are_kept_nowhere(
    moon: Path, sit: Sit, monkeypatch: pytest.MonkeyPatch
) -> None:
    sat = sit(moon)
    with monkeypatch.context() as patched:
        patched.setattr(OwnFolder, "write", no_room)
        sat.press("o", *"It rose.", "escape", "q")
        assert not sat.state.is_over
        assert asked(sat) == (
            "“It rose.” was given up, and can't be kept. At the end it is shown once more, and kept"
            " nowhere. Shall scribe end? y is yes, n is no."
        )
        sat.press("n")
        said = "The book stays open. U brings the text back."
        assert (sat.state.message, sat.state.question) == (said, None)
        sat.press("o", *"It set.", "escape", "q")
        assert asked(sat).startswith(
            "2 texts were given up, the last of them “It set.”, and can't be kept. At the end they"
        )
        sat.press("escape", "U", "n", "q", "y")
        assert sat.state.is_over
    assert sat.desk.unkept == ("It set.", "It rose.")


def test_q_asks_nothing_once_there_is_room_for_what_was_given_up(
    moon: Path, sit: Sit, monkeypatch: pytest.MonkeyPatch
) -> None:
    sat = sit(moon)
    with monkeypatch.context() as patched:
        patched.setattr(OwnFolder, "write", no_room)
        sat.press("o", *"It rose.", "escape")
        assert sat.desk.unkept == ("It rose.",)
    sat.press("q")
    assert sat.state.is_over
    assert [each.text for each in Drafts(moon).given_up()] == ["It rose."]


def test_lines_that_were_pasted_into_an_edit_and_cut_short_go_on(
    moon: Path, sit: Sit
) -> None:
    sat = sit(moon)
    sat.press("down", "enter", "end")
    paste(sat, " of\nthe sea.\nThey come.")
    os.kill(sat.desk.pid, signal.SIGKILL)
    sat.press("y")
    # the same question stands, since none of the lines is in the book
    lines = ("The Tides of", "the sea.", "They come.")
    assert sat.state.question and sat.state.question.lines == lines
    sat.press("y")
    prints = [sat.state.openings[each.id].words for each in sat.state.book]
    assert prints[1:4] == ["The Tides of", "the sea.", "They come."]


@pytest.mark.parametrize("is_killed", [False, True])
def test_lines_of_an_edit_that_are_given_up_again_leave_its_print(
    moon: Path, sit: Sit, is_killed: bool
) -> None:
    sat = sit(moon)
    sat.press("down", "enter", "end")
    paste(sat, "of\nthe sea.")
    if is_killed:
        sat.state = sat.desk.save_draft(sat.state)
        sat.desk.close()
        sat = sit(moon)
    else:
        sat.press("escape", "escape", "U")
    sat.press("y")
    lines = ("The Tidesof", "the sea.")
    assert sat.state.question and sat.state.question.lines == lines
    sat.press("escape")
    assert sat.state.typed and sat.state.typed.text == "The Tides"
    sat.press("enter")
    assert [sat.state.openings[each.id].words for each in sat.state.book][1] == (
        "The Tides"
    )
    assert sat.state.version == 7
    sat.press("U")
    assert "“The Tidesof the sea.”" in asked(sat)


def test_lines_pasted_into_an_edit_go_on_after_the_one_that_is_in_the_book(
    moon: Path, sit: Sit, monkeypatch: pytest.MonkeyPatch
) -> None:
    with monkeypatch.context() as patched:
        for name, value in standing_in(1, KEPT, KILL_PROGRAM).items():
            patched.setenv(name, value)
        sat = sit(moon)
        sat.press("down", "enter", "end")
        paste(sat, " of\nthe sea.\nThey come.")
        sat.press("y")
    assert "what was asked last is in it" in sat.state.message
    sat.press("y")
    assert sat.state.question and sat.state.question.lines == ("the sea.", "They come.")
    # the stand-in is still there once more
    sat.press("y", "y", "enter")
    prints = [sat.state.openings[each.id].words for each in sat.state.book]
    assert prints[1:4] == ["The Tides of", "the sea.", "They come."]
    assert sat.state.version == 10


def test_lines_stand_on_the_screen_while_it_is_asked_what_they_are(
    moon: Path, sit: Sit
) -> None:
    sat = sit(moon)
    sat.press("o")
    paste(sat, "It rose.\nIt set.")
    assert "It rose. It set." in sat.lines
    sat.press("escape", "escape")
    assert "It rose. It set." not in sat.lines
    sat.press("U", "y")
    assert asked(sat).startswith("What is typed has 2 lines. Are they 2 paragraphs?")
    assert "It rose. It set." in sat.lines
    sat.press("y")
    prints = [sat.state.openings[each.id].words for each in sat.state.book]
    assert prints[1:3] == ["It rose.", "It set."]


def test_lines_after_one_that_is_refused_are_not_joined_and_come_back_as_lines(
    moon: Path, sit: Sit
) -> None:
    sat = sit(moon)
    sat.press("down", "enter", "end")
    paste(sat, " of the sěa.\nIt rose.\nIt set.")
    sat.press("y")
    assert sat.state.typed and sat.state.typed.text == "The Tides of the sěa."
    assert sat.state.message.startswith("0 typed. The table of paragraph 2 has no ")
    assert sat.state.message.endswith("U brings back the 2 lines after this one.")
    waiting = sat.desk.drafts.waiting()
    assert waiting and waiting.text == "The Tides of the sěa."
    sat.press("left", "left", "backspace", "enter", "U", "y", "y")
    prints = [sat.state.openings[each.id].words for each in sat.state.book]
    assert prints[1:4] == ["The Tides of the sa.", "It rose.", "It set."]


def test_long_lines_are_seen_from_their_front_while_it_is_asked_what_they_are(
    moon: Path, sit: Sit
) -> None:
    line = "The sea comes up. " * 150
    Drafts(moon).save(Draft(Aim.AFTER, 2, "en", "", f"{line}\n{line}"))
    sat = sit(moon)
    sat.press("y")
    assert asked(sat).startswith("What is typed has 2 lines. Are they 2 paragraphs?")
    assert any("The sea comes up. The sea comes up." in each for each in sat.lines)


def test_what_cant_be_kept_is_said_beside_a_refusal_and_once(
    moon: Path, sit: Sit, monkeypatch: pytest.MonkeyPatch
) -> None:
    monkeypatch.setenv("XDG_STATE_HOME", "/proc/nowhere")
    sat = sit(moon)
    sat.press("enter", "ě", "enter")
    for _ in range(3):
        # as each second
        sat.state = sat.desk.save_draft(sat.state)
    assert sat.state.message.startswith("The table of paragraph 1 has no cells for “ě”")
    assert sat.state.message.count("What is typed can't be kept in ") == 1


def test_what_is_in_the_way_is_said_once_until_it_is_another_thing(
    moon: Path, sit: Sit, monkeypatch: pytest.MonkeyPatch
) -> None:
    monkeypatch.setenv("XDG_STATE_HOME", "/proc/nowhere")
    sat = sit(moon)
    said = []
    for key in ("o", "I", "t", "enter", "S", "enter", "escape", "s"):
        sat.press(key)
        # as each second
        sat.state = sat.desk.save_draft(sat.state)
        said.append(sat.state.message)
    assert [each for each in said if "can't be kept in" in each] == said[1:2]
    sat.press("o", "I")
    monkeypatch.setattr(OwnFolder, "write", no_room)
    sat.state = sat.desk.save_draft(sat.state)
    assert "there is no room on the disk" in sat.state.message
    # where scribe ends it is said whether it was said before or not
    assert (
        "there is no room on the disk" in sat.desk.saved(sat.state.saying("")).message
    )


def no_room(*_: object) -> None:
    raise OSError(errno.ENOSPC, os.strerror(errno.ENOSPC))


@pytest.mark.parametrize("key", ["c-u", "c-w", "a-backspace"])
def test_what_was_cut_comes_back_by_ctrl_y_after_scribe_was_killed(
    moon: Path, sit: Sit, key: str
) -> None:
    sat = sit(moon)
    sat.press("o", *"Moonrise", key)
    sat.state = sat.desk.save_draft(sat.state)
    assert sat.desk.drafts.waiting() is None
    sat.desk.close()
    # as after a kill: nothing of what the first one had is left but its files
    again = sit(moon)
    assert again.state.message == "? shows the keys."
    again.press("o", "c-y")
    assert again.state.typed and again.state.typed.text == "Moonrise"


def test_what_was_cut_out_of_a_print_is_kept_also_if_words_were_cut_out_of_an_answer(
    moon: Path, sit: Sit
) -> None:
    sat = sit(moon)
    sat.press("o", *"Moonrise", "c-u", "escape", "/", *"far", "c-u")
    sat.state = sat.desk.save_draft(sat.state)
    sat.press("c-y", "enter")
    assert sat.state.sought == "far"
    sat.desk.close()
    again = sit(moon)
    again.press("o", "c-y")
    assert again.state.typed and again.state.typed.text == "Moonrise"


def test_what_was_cut_out_of_a_text_that_waits_comes_back_by_ctrl_y(
    moon: Path, at: Open
) -> None:
    terminal = at(moon)
    terminal.wait("? shows the keys.")
    terminal.keys("o", *"It rose", "c-w")
    terminal.wait("“rose” was cut.")
    terminal.send_signal(signal.SIGTERM)
    assert terminal.ended() == -signal.SIGTERM
    again = at(moon)
    again.wait("y is yes, n is no. l leaves it for later.")
    again.answer("y")
    again.wait("-- New paragraph after paragraph 1")
    again.keys("c-y")
    again.wait("It rose")
    again.keys("enter")
    again.wait("last kept: paragraph 4")
    again.keys("escape", "q")
    assert again.ended() == 0
    assert Drafts(moon).cut() == "rose"


@pytest.mark.parametrize("typing", [True, False])
def test_text_that_came_before_the_end_and_was_not_taken_in_is_kept(
    moon: Path, at: Open, typing: bool
) -> None:
    terminal = at(moon)
    terminal.wait("? shows the keys.")
    if typing:
        terminal.keys("o")
        terminal.wait("New paragraph after paragraph 1")
    # the rest of the paste never comes
    terminal.send("\x1b[200~It rose.\rIt se")
    terminal.await_read()
    terminal.send_signal(signal.SIGTERM)
    assert terminal.ended() == -signal.SIGTERM
    drafts, text = Drafts(moon), "It rose.\nIt se"
    waiting = drafts.waiting()
    assert (waiting.text if waiting else "") == (text if typing else "")
    given_up = [each.text for each in drafts.given_up()]
    assert given_up == ([] if typing else [text])
    assert ("U brings it back" in terminal.said) is not typing


def test_letters_that_came_as_scribe_was_told_to_end_are_kept(
    moon: Path, at: Open
) -> None:
    terminal = at(moon)
    terminal.wait("? shows the keys.")
    terminal.keys("o", "It")
    terminal.wait("It")
    with terminal.stopped() as end:
        terminal.send(" rose")
        terminal.await_count(end, len(" rose"))
        terminal.send_signal(signal.SIGTERM)
        terminal.send_signal(signal.SIGCONT)
    assert terminal.ended() == -signal.SIGTERM
    waiting = Drafts(moon).waiting()
    assert waiting and waiting.text == "It rose"


def test_text_that_is_pasted_after_the_key_that_ends_is_kept(
    moon: Path, at: Open
) -> None:
    terminal = at(moon)
    terminal.wait("? shows the keys.")
    terminal.send("q\x1b[200~It rose.\x1b[201~")
    assert terminal.ended() == 0
    assert [each.text for each in Drafts(moon).given_up()] == ["It rose."]
    assert "U brings it back" in terminal.said


def test_an_unbracketed_paste_at_the_terminal_changes_nothing_and_comes_back(
    moon: Path, at: Open
) -> None:
    terminal = at(moon)
    terminal.wait("? shows the keys.")
    terminal.send("strike this bit and import.\r")
    terminal.wait("No key of it was obeyed.")
    terminal.keys("U", "y", "enter")
    terminal.wait("kept: paragraph 4")
    terminal.keys("escape", "enter", "end")
    terminal.wait("You are editing paragraph")
    terminal.send(" One\rtwo")
    terminal.wait("Shall the first go on in this paragraph")
    terminal.answer("n")
    terminal.wait("strike this bit and import. One two")
    terminal.keys("enter")
    terminal.wait("kept: correction 1 of paragraph 4")
    terminal.keys("q")
    assert terminal.ended() == 0
    with Session(moon) as session:
        assert session.last_version == 9


def test_that_what_is_typed_is_kept_nowhere_stays_on_the_screen_while_one_types_on(
    moon: Path, sit: Sit, monkeypatch: pytest.MonkeyPatch
) -> None:
    monkeypatch.setenv("XDG_STATE_HOME", "/proc/nowhere")
    sat = sit(moon)
    sat.press("o")
    sat.write("Es war")
    sat.state = sat.desk.save_draft(sat.state)
    said = "What is typed can't be kept in /proc/nowhere/braildesk:"
    for _ in range(2):
        sat.write(" einmal")
        assert said in " ".join(draw(sat.state).texts())
        assert sat.state.message == ""
        sat.state = sat.desk.save_draft(sat.state)
    sat.press("f5")
    assert said not in " ".join(draw(sat.state).texts())
    monkeypatch.setattr(Drafts, "save", lambda drafts, draft: None)
    sat.write(" ein Mann")
    sat.state = sat.desk.save_draft(sat.state)
    assert said not in " ".join(draw(sat.state).texts())
