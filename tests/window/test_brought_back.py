"""Texts that are put into the print by the window, as one that is brought back: no key loses them."""

import os
import signal
from collections.abc import Sequence
from dataclasses import replace
from pathlib import Path

import pytest
from PyQt6.QtCore import QMimeData
from PyQt6.QtWidgets import QApplication

from braildesk import Paragraph, new_book, requests
from braildesk.desk.draft import Aim, Draft, Unread
from braildesk.desk.drafts import Drafts
from braildesk.desk.layout import PageSize
from braildesk.protocol.requests import Command
from braildesk.text.spans import Span

from scribe.window import dialogs
from scribe.window.actions import Actions
from scribe.window.book import ChosenParagraph, Contents, NotAll
from scribe.window.desk import Desk

from conftest import Answers
from test_whole import prints_of

GIVEN_UP = "Given up. The book is as it was. Ctrl+B brings it back."
EDIT = Draft(Aim.EDIT, 2, "en", "The mon is far away.", "The moon rose.", None, 5)
AFTER = Draft(Aim.AFTER, 2, "en", "", "It rose.", None, 5)
LINES = Draft(Aim.AFTER, 1, "en", "", "One.\nTwo.\nThree.", None, 5)


@pytest.fixture
def first(monkeypatch: pytest.MonkeyPatch) -> None:
    """The first of several names is chosen."""
    monkeypatch.setattr(dialogs, "one_of", lambda _, title, asked, names, n: names[0])


def _type(desk: Desk, text: str) -> None:
    """Types letters as keys do, one by one."""
    for letter in text:
        desk.window.print.textCursor().insertText(letter)


def _kept(desk: Desk) -> tuple[list[str], str]:
    """The texts that were given up, and the one that waits."""
    desk.wait_for_draft()
    drafts = Drafts(desk.path)
    waiting = drafts.waiting()
    return [each.text for each in drafts.given_up()], waiting.text if waiting else ""


@pytest.mark.parametrize("draft", [EDIT, AFTER])
def test_what_is_typed_after_a_text_that_was_brought_back_is_taken_back_alone(
    desk: Desk, first: None, draft: Draft
) -> None:
    desk.put_by(draft)
    desk.act("bring_back")
    field, document = desk.window.print, desk.window.print.document()
    assert document is not None
    _type(desk, " So.")
    assert field.text == f"{draft.text} So."
    desk.act("take_back")
    assert (field.text, _kept(desk)) == (draft.text, ([], draft.text))
    desk.act("take_back")
    assert (field.text, desk.window.message.text) == (draft.before, GIVEN_UP)
    # all of it is given up, and only once
    whole = f"{draft.text} So."
    assert _kept(desk) == ([whole], "")
    # it is there again by either key
    field.redo()
    assert (field.text, _kept(desk)) == (draft.text, ([whole], draft.text))
    assert desk.window.message.text == ""
    field.redo()
    assert (field.text, _kept(desk)) == (whole, ([], whole))
    for _ in range(2):
        desk.act("take_back")
    desk.act("bring_back")
    assert (field.text, _kept(desk)) == (whole, ([], whole))
    desk.act("give_up")


def test_what_is_typed_by_hands_is_taken_back_and_is_not_given_up(desk: Desk) -> None:
    desk.act("to_print")
    desk.window.print.put_caret(8)
    _type(desk, " rose.")
    desk.act("take_back")
    assert (desk.window.print.text, _kept(desk)) == ("The Moon", ([], ""))
    assert desk.window.message.text == ""


@pytest.mark.parametrize("act", [None, "new_after"])
def test_what_was_typed_is_not_lost_where_it_is_taken_back_and_what_was_done_before_too(
    desk: Desk, act: str | None
) -> None:
    desk.act("heading")
    if act:
        desk.act(act)
    _type(desk, "So: ")
    typed = desk.window.print.text
    _paste(desk, "one ")
    for _ in range(2):
        desk.act("take_back")
    assert _kept(desk) == ([], "")
    desk.act("take_back")
    assert desk.window.print.text == "The Moon"
    whole = f"So: one {typed.removeprefix('So: ')}"
    assert desk.window.message.text.endswith(
        f"What was typed and taken back is set aside: “{whole}”. Ctrl+B brings it back."
    )
    assert _kept(desk) == ([whole], "")


def test_of_a_text_that_was_taken_back_in_a_long_print_it_is_said_what_was_typed(
    desk: Desk,
) -> None:
    desk.choose(2)
    _type(desk, "As the sailors here on the coast say: ")
    desk.act("keep")
    desk.window.print.put_caret(len(desk.window.print.text))
    _type(desk, " So it is.")
    for _ in range(2):
        desk.act("take_back")
    said = "What was typed and taken back is set aside: “… up. So it is.”."
    assert desk.window.message.text.endswith(f"{said} Ctrl+B brings it back.")


def test_a_text_is_set_aside_that_another_one_took_the_place_of_where_both_are_taken_back(
    desk: Desk,
) -> None:
    desk.act("new_after")
    _type(desk, "It rose.")
    desk.window.print.selectAll()
    _paste(desk, "Twice a day the sea comes up.")
    for text in ("It rose.", ""):
        desk.act("take_back")
        assert desk.window.print.text == text
    _type(desk, "x")
    given_up = ["It rose.", "Twice a day the sea comes up."]
    assert sorted(_kept(desk)[0]) == given_up
    desk.act("give_up")


@pytest.mark.parametrize("place, count", [(6, 1), (10, 3)])
def test_what_was_only_taken_away_and_is_there_again_is_not_set_aside(
    desk: Desk, place: int, count: int
) -> None:
    desk.choose(1)
    desk.act("to_print")
    desk.window.print.put_caret(place)
    for _ in range(count):
        desk.window.print.textCursor().deletePreviousChar()
    desk.act("take_back")
    assert desk.window.print.text == "The mon is far away."
    desk.choose(2)
    assert (_kept(desk), desk.window.message.text) == (([], ""), "")


@pytest.mark.parametrize("is_new", [True, False])
def test_what_is_set_aside_is_not_said_after_what_was_said_of_something_else(
    desk: Desk, is_new: bool
) -> None:
    desk.act("heading")
    assert desk.window.message.text.startswith("Kept: ")
    _type(desk, "So: ")
    desk.act("take_back")
    if is_new:
        desk.act("new_after")
    else:
        desk.window.choose(1)
    assert desk.window.message.text == (
        "What was typed and taken back is set aside: “So: The Moon”. Ctrl+B brings it back."
    )


def test_each_text_that_was_taken_back_is_set_aside_once_no_key_types_it_again(
    desk: Desk,
) -> None:
    for text in ("So: ", "Oh, "):
        _type(desk, text)
        desk.act("take_back")
    # the last one comes back by the key for that
    assert _kept(desk) == (["So: The Moon"], "")
    desk.choose(1)
    assert _kept(desk) == (["Oh, The Moon", "So: The Moon"], "")


@pytest.mark.parametrize("act", ["keep", "give_up", "new_after", "heading"])
def test_the_end_of_a_text_that_was_taken_back_is_set_aside_once_the_rest_is_kept_or_given_up(
    desk: Desk, act: str
) -> None:
    desk.act("new_after")
    _type(desk, "It")
    _paste(desk, " rose.")
    desk.act("take_back")
    assert (desk.window.print.text, _kept(desk)) == ("It", ([], "It"))
    desk.act(act)
    assert _kept(desk) == (["It rose."], "")


@pytest.mark.parametrize(
    "earlier, act", [("next_mark", "new_after"), ("heading", "new_before")]
)
def test_a_text_that_was_given_up_is_said_after_nothing_of_an_earlier_action(
    desk: Desk, earlier: str, act: str
) -> None:
    desk.act("to_print")
    desk.act(earlier)
    assert desk.window.message.text
    _type(desk, "So: ")
    desk.act("take_back")
    desk.act(act)
    assert desk.new is not None
    assert desk.window.message.text.startswith("What was typed and taken back is set")
    # nor is it said again by an action that says nothing
    desk.act("give_up")
    assert desk.window.message.text == "This paragraph was empty, and wasn't added."


def test_a_text_that_was_taken_back_is_set_aside_where_the_new_paragraph_is_left(
    desk: Desk,
) -> None:
    desk.act("new_after")
    _type(desk, "It rose.")
    desk.act("take_back")
    desk.act("give_up")
    assert desk.window.message.text == (
        "This paragraph was empty, and wasn't added. What was typed and taken back is set aside:"
        " “It rose.”. Ctrl+B brings it back."
    )
    assert _kept(desk) == (["It rose."], "")


def test_a_text_that_was_taken_back_is_set_aside_where_an_empty_print_is_given_up(
    desk: Desk,
) -> None:
    desk.window.print.selectAll()
    desk.window.print.textCursor().removeSelectedText()
    _paste(desk, "It rose.")
    desk.act("take_back")
    assert (desk.window.print.text, _kept(desk)) == ("", ([], ""))
    desk.act("give_up")
    assert (desk.window.print.text, _kept(desk)) == ("The Moon", (["It rose."], ""))


def test_a_text_that_was_taken_back_is_set_aside_where_the_window_is_closed(
    desk: Desk,
) -> None:
    _type(desk, "So: ")
    desk.act("take_back")
    assert desk.window.close()
    assert _kept(desk) == (["So: The Moon"], "")


def test_a_text_that_was_taken_back_is_set_aside_where_the_window_is_ended(
    application: QApplication, moon: Path
) -> None:
    desk = Desk(moon, None, 0.0, PageSize())
    desk.acts = Actions(desk).by_name
    desk.begin()
    _type(desk, "So: ")
    desk.act("take_back")
    desk.close()
    assert [each.text for each in Drafts(moon).given_up()] == ["So: The Moon"]


def test_what_was_typed_and_taken_away_is_set_aside_where_more_is_taken_back(
    desk: Desk,
) -> None:
    desk.act("new_after")
    _type(desk, "It rose.")
    desk.window.print.selectAll()
    desk.window.print.textCursor().removeSelectedText()
    for _ in range(3):
        desk.act("take_back")
    assert desk.new is None
    assert _kept(desk) == (["It rose."], "")


def test_what_was_typed_after_a_text_that_was_brought_back_is_set_aside_where_more_is_taken_back(
    desk: Desk, first: None
) -> None:
    desk.put_by(EDIT)
    desk.act("bring_back")
    _type(desk, " So.")
    for _ in range(3):
        desk.act("take_back")
    assert _kept(desk) == ([f"{EDIT.text} So."], "")


def test_what_was_taken_back_is_not_given_up_any_more_once_it_is_typed_again(
    desk: Desk,
) -> None:
    _type(desk, "So: ")
    desk.act("take_back")
    _type(desk, "So")
    said = "What was typed and taken back is set aside: “So: The Moon”."
    assert said in desk.window.message.text
    assert _kept(desk) == (["So: The Moon"], "SoThe Moon")
    _type(desk, ": ")
    assert said not in desk.window.message.text
    assert _kept(desk) == ([], "So: The Moon")


def _paste(desk: Desk, text: str) -> None:
    data = QMimeData()
    data.setText(text)
    desk.window.print.insertFromMimeData(data)


@pytest.mark.parametrize("text", [" far", " very\nfar"])
def test_what_is_pasted_is_taken_back_without_what_was_typed_before_or_after_it(
    desk: Desk, given: Answers, text: str
) -> None:
    given["choices"] = [1]
    desk.window.print.put_caret(8)
    _type(desk, " is")
    _paste(desk, text)
    _type(desk, " off")
    wanted = f"The Moon is {' '.join(text.split())}"
    assert desk.window.print.text == f"{wanted} off"
    for there in (wanted, "The Moon is", "The Moon"):
        desk.act("take_back")
        assert desk.window.print.text == there


def test_what_stays_typed_once_the_session_ended_is_taken_back_and_not_lost(
    desk: Desk,
) -> None:
    _type(desk, "So: ")
    os.kill(desk.book.pid, signal.SIGKILL)
    desk.act("keep")
    assert desk.window.print.text == "So: The Moon"
    _type(desk, "!")
    desk.act("take_back")
    assert desk.window.print.text == "So: The Moon"
    desk.act("take_back")
    assert (desk.window.print.text, desk.window.message.text) == ("The Moon", GIVEN_UP)
    assert _kept(desk) == (["So: The Moon"], "")


def test_the_first_of_lines_that_is_refused_is_taken_back_and_not_lost(
    desk: Desk, given: Answers
) -> None:
    given["choices"] = [0]
    desk.window.print.put_caret(8)
    _paste(desk, " #\nTwo.")
    assert _kept(desk) == (["Two."], "The Moon #")
    desk.act("take_back")
    assert (desk.window.print.text, desk.window.message.text) == ("The Moon", GIVEN_UP)
    assert _kept(desk) == (["The Moon #", "Two."], "")


def test_a_text_that_no_key_typed_is_given_up_and_not_kept_for_a_moment(
    desk: Desk,
) -> None:
    desk.window.print.setPlainText("The Moon rose.")
    version = desk.contents.version
    desk.act("take_back")
    assert (desk.window.print.text, desk.window.message.text) == ("The Moon", GIVEN_UP)
    assert desk.asked(desk.book.contents).version == version
    assert _kept(desk) == (["The Moon rose."], "")


@pytest.mark.parametrize("act", [None, "new_after"])
def test_what_is_typed_is_not_taken_back_as_the_newest_correction(
    desk: Desk, act: str | None
) -> None:
    if act:
        desk.act(act)
    _type(desk, "So: ")
    typed, version = desk.window.print.text, desk.contents.version
    desk.act("undo_here")
    assert desk.window.message.text == (
        "Nothing was taken back: what is typed isn't in the book yet. Enter keeps it, and Escape"
        " gives it up."
    )
    assert desk.window.print.text == typed
    assert desk.asked(desk.book.contents).version == version
    # until something else is typed
    desk.act("to_print")
    desk.act("take_back")
    assert desk.window.message.text == ""
    desk.act("give_up")


def test_a_text_is_not_lost_where_the_session_ends_before_it_is_in_its_place(
    desk: Desk, first: None, monkeypatch: pytest.MonkeyPatch
) -> None:
    desk.put_by(EDIT)
    reading = desk.book.reading

    def killed(paragraph: Paragraph) -> ChosenParagraph:
        monkeypatch.setattr(desk.book, "reading", reading)
        os.kill(desk.book.pid, signal.SIGKILL)
        return reading(paragraph)

    monkeypatch.setattr(desk.book, "reading", killed)
    desk.act("bring_back")
    assert desk.window.message.text.endswith(
        "A text of paragraph 2 isn't in the book. Ctrl+B brings it back."
    )
    assert _kept(desk) == ([EDIT.text], "")


def test_a_text_is_not_lost_where_the_book_has_no_table_for_it(
    tmp_path: Path, first: None
) -> None:
    new_book(book := tmp_path / "empty.braildesk")
    Drafts(book).put_by(Draft(Aim.AFTER, None, None, "", "It rose.", None, 0))
    desk = Desk(book, None, 0.0, PageSize())
    desk.acts = Actions(desk).by_name
    desk.begin()
    desk.act("bring_back")
    assert desk.window.message.text == (
        "The book has no table yet. Ctrl+L puts one into it. Ctrl+B brings it back."
    )
    desk.close()
    assert [each.text for each in Drafts(book).given_up()] == ["It rose."]


@pytest.mark.parametrize(
    "changed, said",
    [
        (requests.Correct(2, 0, 3, "That"), "The print there has been changed since."),
        (requests.Move(2, 3), ""),
    ],
)
def test_it_is_said_if_the_print_was_changed_since_a_text_was_given_up(
    desk: Desk, first: None, changed: Command[object], said: str
) -> None:
    desk.put_by(EDIT)
    desk.do(changed)
    desk.say("")
    desk.act("bring_back")
    assert (desk.window.print.text, desk.window.message.text) == (EDIT.text, said)
    desk.act("give_up")


def test_that_the_print_was_changed_is_said_until_the_text_is_kept(
    desk: Desk, first: None
) -> None:
    said = "The print there has been changed since."
    desk.put_by(EDIT)
    desk.do(requests.Correct(2, 0, 3, "That"))
    for keys in (["take_back"], ["give_up"], ["take_back", "bring_back", "give_up"]):
        desk.act("bring_back")
        assert desk.window.message.text == said
        for key in keys:
            desk.act(key)
    desk.act("bring_back")
    _type(desk, " So.")
    desk.wait_for_draft()
    waiting = Drafts(desk.path).waiting()
    assert waiting and (waiting.before, waiting.text) == (
        EDIT.before,
        f"{EDIT.text} So.",
    )
    # what came back by the key of redo was typed from the same print
    desk.act("take_back")
    desk.act("take_back")
    desk.window.print.redo()
    desk.act("give_up")
    desk.act("bring_back")
    assert desk.window.message.text == said
    desk.act("keep")
    desk.window.print.put_caret(0)
    _type(desk, "So ")
    desk.act("give_up")
    desk.act("bring_back")
    assert desk.window.message.text == ""
    desk.act("give_up")


def test_a_text_that_is_typed_anew_is_one_of_the_print_as_it_is(
    desk: Desk, first: None
) -> None:
    desk.put_by(EDIT)
    desk.do(requests.Correct(2, 0, 3, "That"))
    for key in ("take_back", "give_up"):
        desk.act("bring_back")
        desk.act(key)
        _type(desk, "So ")
        draft = desk.draft()
        assert draft is not None and draft.before == "That mon is far away."
        desk.act("give_up")
        desk.unsent.take_up(draft, draft)
        desk.keep_draft(None)


def test_a_text_that_came_back_by_redo_and_was_kept_is_given_up_no_more(
    desk: Desk, first: None
) -> None:
    desk.act("new_after")
    _type(desk, "It rose.")
    desk.act("give_up")
    desk.act("bring_back")
    desk.act("take_back")
    assert _kept(desk) == (["It rose."], "")
    desk.window.print.redo()
    assert _kept(desk) == ([], "It rose.")
    desk.act("keep")
    desk.act("give_up")
    assert (prints_of(desk)[1], _kept(desk)) == ("It rose.", ([], ""))
    desk.act("bring_back")
    assert desk.window.message.text == "No text is set aside in this book."


def test_that_a_text_was_given_up_is_not_said_once_it_is_typed_further(
    desk: Desk, first: None
) -> None:
    desk.act("new_after")
    _type(desk, "It rose.")
    desk.act("give_up")
    assert desk.window.message.text == GIVEN_UP
    desk.act("bring_back")
    assert (desk.window.print.text, desk.window.message.text) == ("It rose.", "")
    desk.act("give_up")


def test_that_a_text_was_given_up_is_not_said_once_it_came_back_by_redo(
    desk: Desk, first: None
) -> None:
    desk.put_by(EDIT)
    desk.act("bring_back")
    desk.act("take_back")
    assert desk.window.message.text == GIVEN_UP
    # another text that is typed leaves it given up
    _type(desk, "So")
    assert desk.window.message.text == GIVEN_UP
    desk.act("take_back")
    desk.act("bring_back")
    desk.act("take_back")
    desk.say_too("It is five o'clock.")
    desk.window.print.redo()
    assert desk.window.print.text == EDIT.text
    assert desk.window.message.text == "It is five o'clock."
    desk.act("give_up")


def test_where_a_new_paragraph_is_brought_back_the_print_shows_no_other_text_meanwhile(
    desk: Desk, first: None
) -> None:
    desk.put_by(Draft(Aim.AFTER, 2, "en", "", "It rose."))
    shown: list[str] = []
    field = desk.window.print
    field.textChanged.connect(lambda: shown.append(field.text))
    desk.act("bring_back")
    assert (desk.number, field.text) == (2, "It rose.")
    assert set(shown) <= {"", "It rose."}
    desk.act("give_up")
    assert (desk.number, field.text) == (2, "The mon is far away.")


def test_of_a_text_of_a_struck_paragraph_it_is_said_that_it_would_be_a_new_one(
    desk: Desk, first: None
) -> None:
    desk.put_by(EDIT)
    desk.do(requests.Strike(2))
    desk.act("bring_back")
    assert desk.window.message.text == (
        "Paragraph 2 is struck, so it would be a new paragraph."
    )
    assert desk.new is not None and desk.window.print.text == EDIT.text
    desk.act("give_up")


@pytest.mark.parametrize("answer, count", [(0, 3), (1, 1), (2, 0)])
@pytest.mark.parametrize("is_offered", [True, False])
def test_of_lines_that_are_typed_further_it_is_asked_whether_they_are_paragraphs(
    desk: Desk, given: Answers, first: None, is_offered: bool, answer: int, count: int
) -> None:
    given["choices"] = [answer]
    if is_offered:
        given["choices"].insert(0, 0)
        Drafts(desk.path).save(LINES)
        desk.acting(Actions(desk).offer)
    else:
        desk.put_by(LINES)
        desk.act("bring_back")
    assert given["said"][-1] == "What was typed has 3 lines. Are they paragraphs?"
    lines = ["One.", "Two.", "Three."]
    if count == 3:
        assert prints_of(desk)[1:4] == lines
        assert _kept(desk) == ([], "")
        return
    assert len(prints_of(desk)) == 3
    if count:
        assert desk.window.print.text == " ".join(lines)
        assert _kept(desk) == ([], " ".join(lines))
        desk.act("give_up")
    else:
        assert desk.window.message.text == GIVEN_UP
        assert _kept(desk) == ([LINES.text], "")


def test_of_lines_of_which_the_first_goes_on_in_a_paragraph_that_is_said(
    desk: Desk, given: Answers, first: None
) -> None:
    desk.put_by(Draft(Aim.EDIT, 2, "en", EDIT.before, "The moon.\nIt rose.", None, 5))
    given["choices"] = [0]
    desk.act("bring_back")
    assert given["said"] == [
        "What was typed has 2 lines. Are they paragraphs? The first goes on in paragraph 2."
    ]
    assert prints_of(desk)[1:3] == ["The moon.", "It rose."]


def test_lines_wait_until_it_is_answered_what_they_are(
    desk: Desk, first: None, monkeypatch: pytest.MonkeyPatch
) -> None:
    waited: list[tuple[list[str], str]] = []

    def choice(*_: object) -> int:
        waited.append(_kept(desk))
        desk.is_ending = True
        return 2

    monkeypatch.setattr(dialogs, "choice", choice)
    desk.put_by(LINES)
    desk.act("bring_back")
    # and also where the window is ended then
    assert waited == [([], LINES.text)]
    assert _kept(desk) == ([], LINES.text)


def test_the_caret_goes_to_the_words_of_a_note_that_is_brought_back(
    desk: Desk, first: None, monkeypatch: pytest.MonkeyPatch
) -> None:
    asked: list[str] = []

    def further(over: object, title: str, sentence: str, *_: object) -> str:
        asked.append(sentence)
        return "who?"

    monkeypatch.setattr(dialogs, "text_further", further)
    before = "Twice a day the sea comes up."
    cells = desk.asked(lambda: desk.book.cells_of(3, Span(16, 19)))
    desk.put_by(Draft(Aim.NOTE, 3, "en", before, "who?", cells, 5))
    desk.window.cells.setFocus()
    desk.act("bring_back")
    assert asked == ["The note of a mark on “sea”, cells 18 to 20:"]
    assert (desk.number, desk.window.print.place, desk.in_hand) == (3, 16, 2)
    assert desk.window.here.text.startswith("“s” ⠎, character 17, cell 18.")
    assert desk.window.here.text.endswith("Mark 2, open, on “sea”: who?")


def test_lines_that_are_left_for_later_wait_without_those_of_the_book(
    desk: Desk, given: Answers, monkeypatch: pytest.MonkeyPatch
) -> None:
    names: list[str] = []
    monkeypatch.setattr(dialogs, "one_of", lambda *words: names.extend(words[3]))
    lines = replace(LINES, version=desk.contents.version)
    desk.do(requests.Type(2, "en", "One."))
    Drafts(desk.path).save(lines)
    given["choices"] = [2]
    desk.acting(Actions(desk).offer)
    assert "“Two. Three.”" in given["said"][0]
    desk.act("bring_back")
    assert len(names) == 1 and names[0].endswith(": “Two. Three.”")
    desk.wait_for_draft()
    waiting = Drafts(desk.path).waiting()
    assert waiting is not None and waiting.text == "Two.\nThree."


def test_a_text_that_waits_is_offered_also_where_one_beside_the_book_is_none(
    desk: Desk, given: Answers
) -> None:
    Drafts(desk.path).save(EDIT)
    beside = desk.path.with_name(f"{desk.path.name}-unsent")
    beside.write_text("It is no such text.")
    given["choices"] = [2]
    desk.acting(Actions(desk).offer)
    assert given["said"][0].startswith("A text of paragraph 2 was typed and isn't in")
    said = desk.window.message.text
    assert said.startswith(
        "The text waits. Ctrl+B asks about it, and so does an opening at which no newer one waits."
    )
    assert f"{beside} isn't taken as a text that waits for the book" in said
    _type(desk, "So: ")
    assert _kept(desk) == ([], "So: The Moon")
    assert Drafts(desk.path).later() == (EDIT,)
    desk.act("give_up")


def test_a_text_left_for_later_is_offered_where_the_newer_one_is_in_the_book(
    desk: Desk, given: Answers
) -> None:
    later, before = Draft(Aim.AFTER, 2, "en", "", "It rose."), desk.contents.version
    desk.do(requests.Correct(2, 0, 3, "That"))
    now = desk.asked(lambda: desk.book.session.print_of(2))
    Drafts(desk.path).save(replace(EDIT, text=now, version=before))
    Drafts(desk.path).keep_later([later])
    given["choices"] = [2]
    desk.acting(Actions(desk).offer)
    assert given["said"][0].startswith(
        f"What was typed last is in the book, in paragraph 2: “{now}”. A text of a new paragraph was"
    )
    assert desk.window.message.text.startswith("The text waits.")
    desk.wait_for_draft()
    assert Drafts(desk.path).waiting() == later


def test_a_text_that_waits_is_not_lost_where_the_session_ends_before_it_is_offered(
    desk: Desk,
) -> None:
    Drafts(desk.path).save(replace(EDIT, version=3))
    os.kill(desk.book.pid, signal.SIGKILL)
    desk.acting(Actions(desk).offer)
    assert desk.window.message.text.startswith("The session was ended by signal 9.")
    assert _kept(desk) == ([], EDIT.text)
    # another text is kept besides, and Ctrl+B has it before the next opening
    _type(desk, "So: ")
    assert _kept(desk) == ([], "So: The Moon")
    assert Drafts(desk.path).later() == (replace(EDIT, version=3),)
    desk.act("give_up")
    # what was given up is the first that it shows
    assert [each.text for each in desk.unsent.texts()] == ["So: The Moon", EDIT.text]


def test_what_waits_is_all_said_at_the_opening(desk: Desk) -> None:
    drafts = Drafts(desk.path)
    drafts.keep_words("sea", "ocean")
    aside = Draft(Aim.AFTER, 1, "en", "", "It rose.", None, 5)
    drafts.keep_unread(Unread("", aside))
    desk.acting(Actions(desk).offer)
    assert desk.window.message.text == (
        "What was typed while scribe was busy is set aside: “It rose.”. Ctrl+B brings it back."
        " “sea” was to be changed to “ocean”, which may not be done. Ctrl+H has the words still."
    )


@pytest.mark.parametrize(
    "answer, said",
    [
        (0, ""),
        (1, f"{GIVEN_UP} "),
        (
            2,
            "The text waits. Ctrl+B asks about it, and so does an opening at which no newer one"
            " waits. ",
        ),
    ],
)
def test_what_waits_besides_a_text_that_is_asked_about_is_said_once(
    desk: Desk, given: Answers, answer: int, said: str
) -> None:
    drafts = Drafts(desk.path)
    drafts.save(EDIT)
    drafts.keep_words("sea", "ocean")
    given["choices"] = [answer]
    desk.acting(Actions(desk).offer)
    assert desk.window.message.text == (
        f"{said}“sea” was to be changed to “ocean”, which may not be done. Ctrl+H has the words"
        " still."
    )
    desk.act("give_up")


def _ends_each_time(desk: Desk, monkeypatch: pytest.MonkeyPatch, name: str) -> None:
    """Has the session end each time that it is asked for something."""
    ask = getattr(desk.book, name)

    def killed(*words: object) -> object:
        os.kill(desk.book.pid, signal.SIGKILL)
        return ask(*words)

    monkeypatch.setattr(desk.book, name, killed)


@pytest.mark.parametrize("name", ["reading", "by_character"])
@pytest.mark.parametrize("act", ["", "new_after"])
def test_what_is_typed_is_not_lost_where_the_session_ends_again_and_again(
    desk: Desk, monkeypatch: pytest.MonkeyPatch, name: str, act: str
) -> None:
    if act:
        desk.act(act)
    _type(desk, "So: ")
    typed = desk.window.print.text
    with monkeypatch.context() as patched:
        _ends_each_time(desk, patched, name)
        os.kill(desk.book.pid, signal.SIGKILL)
        desk.act("keep")
    assert desk.is_closed
    said = desk.window.message.text
    assert said.startswith("The session was ended by signal 9.")
    assert said.endswith(f"What is typed is kept in {desk.drafts.place}.")
    assert _kept(desk) == ([], typed)
    desk.act("open_again")
    assert desk.window.message.text.endswith(
        " isn't in the book. Ctrl+B brings it back."
    )
    assert _kept(desk) == ([typed], "")


def test_nothing_can_be_typed_where_the_session_ended_before_a_paragraph_was_shown(
    desk: Desk, monkeypatch: pytest.MonkeyPatch
) -> None:
    said = "It can't be opened now."
    with monkeypatch.context() as patched:
        patched.setattr(desk.book, "open_after", lambda *_: (None, [said]))
        os.kill(desk.book.pid, signal.SIGKILL)
        desk.acting(lambda: desk.choose(2))
    assert (desk.window.message.text, desk.is_closed) == (said, True)
    field = desk.window.print
    assert field.isReadOnly() and not field.text
    field.typed_on.emit("x")
    assert desk.window.message.text == (
        "The book is closed: Open the book again, in the menu Book, opens it. Nothing was typed."
    )
    desk.act("open_again")
    assert (desk.number, field.text) == (3, "Twice a day the sea comes up.")


def test_the_session_may_end_before_it_is_shown_what_of_much_was_taken_back(
    desk: Desk, given: Answers, monkeypatch: pytest.MonkeyPatch
) -> None:
    contents = desk.book.contents

    def killed() -> Contents:
        monkeypatch.setattr(desk.book, "contents", contents)
        os.kill(desk.book.pid, signal.SIGKILL)
        return contents()

    def stopped() -> None:
        monkeypatch.setattr(desk.book, "contents", killed)
        raise NotAll(1, KeyboardInterrupt())

    desk.acting(stopped)
    assert desk.window.message.text.startswith("The session was ended by signal 9.")
    assert not desk.is_closed


def test_a_long_text_is_parted_only_where_it_is_too_long(
    desk: Desk, given: Answers
) -> None:
    way = "Er ging den langen Weg. "
    end = "Und dann kam der Winter. Und dann das Ende. Und dann nichts mehr. "
    text = (way * 160 + end * 6).rstrip()
    assert len(text) == 4_235
    given["choices"] = [0]
    desk.act("new_after")
    desk.window.print.put_in(text)
    desk.act("keep")
    desk.act("give_up")
    *first, second = prints_of(desk)[1:3]
    assert (f"{first[0]} {second}", len(prints_of(desk))) == (text, 5)


def test_texts_of_a_long_paragraph_are_told_by_where_they_are_not_as_the_book(
    desk: Desk, given: Answers, monkeypatch: pytest.MonkeyPatch
) -> None:
    before = "The moon goes around the earth, and twice a day the sea comes up."
    texts = [
        before.replace("twice", "three times"),
        f"{before} So it is.",
        before.removesuffix(" up."),
        f"So: {before}",
        "The Moon",
    ]
    for text in texts:
        desk.put_by(Draft(Aim.EDIT, 1, "en", before, text))
    told: list[str] = []

    def one_of(
        over: object, title: str, asked: str, names: Sequence[str], first: int
    ) -> None:
        told.extend(names)

    monkeypatch.setattr(dialogs, "one_of", one_of)
    desk.act("bring_back")
    assert told == [
        "1. A text of paragraph 1: “The Moon”",
        "2. A text of paragraph 1: “So: The moon goes around the earth, and…”",
        "3. A text of paragraph 1: “… comes”",
        "4. A text of paragraph 1: “… up. So it is.”",
        "5. A text of paragraph 1: “… three times a day the sea comes up.”",
    ]
    given["choices"] = [2]
    Drafts(desk.path).save(Draft(Aim.EDIT, 1, "en", before, texts[1]))
    desk.acting(Actions(desk).offer)
    assert "isn't in the book: “… up. So it is.”." in given["said"][0]


def test_nothing_is_set_aside_where_what_was_taken_away_came_back(desk: Desk) -> None:
    desk.act("to_print")
    cursor = desk.window.print.textCursor()
    cursor.select(cursor.SelectionType.WordUnderCursor)
    cursor.removeSelectedText()
    desk.act("take_back")
    desk.window.print.put_caret(0)
    assert desk.window.print.text == "The Moon"
    _type(desk, "So: ")
    assert _kept(desk) == ([], "So: The Moon")
    assert desk.window.message.text == ""
