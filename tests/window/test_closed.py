"""A window that is closed or ended while something is typed: what is said of that is so."""

import os
import shutil
import signal
import subprocess
import sys
from collections.abc import Callable, Iterator, Sequence
from pathlib import Path
from typing import Any

import pytest

from braildesk import Session, new_book, requests
from braildesk.desk.draft import Aim, Draft
from braildesk.desk.drafts import Drafts
from braildesk.desk.layout import PageSize
from braildesk.text.spans import Span

from PyQt6.QtCore import QEvent, Qt, QTimer
from PyQt6.QtGui import QInputMethodEvent, QKeyEvent
from PyQt6.QtWidgets import QApplication, QMessageBox

from scribe.window import dialogs
from scribe.window.actions import Actions
from scribe.window.desk import NO_PARAGRAPH, Desk
from scribe.window.held import Held

from conftest import Open, wait
from test_whole import prints_of

STRUCK = "Paragraph 1 is struck. Ctrl+D restores it, so that it can be changed. Nothing was typed."
_LOST = "What is typed can't be kept elsewhere: it is lost if the window is closed."


@pytest.fixture
def stays(monkeypatch: pytest.MonkeyPatch) -> list[str]:
    """What is asked before the window goes, which stays then."""
    asked: list[str] = []

    def choice(
        over: object, title: str, said: str, answers: Sequence[str], by_enter: int = 0
    ) -> int:
        asked.append(said)
        return 1

    monkeypatch.setattr(dialogs, "choice", choice)
    return asked


def _without_folder(tmp_path: Path) -> None:
    """Puts a file in the place of the folder of what is typed."""
    (tmp_path / "state" / "braildesk").write_text("")


def test_a_text_that_can_be_kept_nowhere_is_said_to_be_lost_with_the_window(
    desk: Desk, stays: list[str], tmp_path: Path
) -> None:
    _without_folder(tmp_path)
    desk.window.print.insertPlainText("#")
    assert not desk.window.close()
    (asked,) = stays
    assert asked.endswith(f"Nothing was changed.\n\n{_LOST}")
    desk.window.print.setPlainText("The Moon")


@pytest.mark.parametrize("typed", ["\r", "clouds\r\r"])
@pytest.mark.parametrize("is_given_up", [True, False])
def test_no_enter_and_no_letter_closes_a_window_with_which_a_text_is_lost(
    desk: Desk,
    application: QApplication,
    tmp_path: Path,
    is_given_up: bool,
    typed: str,
) -> None:
    _without_folder(tmp_path)
    if is_given_up:
        desk.act("new_after")
        desk.window.print.insertPlainText("It rose.")
        desk.act("give_up")
    else:
        desk.window.print.insertPlainText("#")
    asked: list[str] = []

    def enter() -> None:
        box = application.activeModalWidget()
        if not isinstance(box, QMessageBox):
            QTimer.singleShot(10, enter)
            return
        asked.append(box.text())
        kind, none = QEvent.Type.KeyPress, Qt.KeyboardModifier.NoModifier
        for each in typed:
            key = Qt.Key.Key_Return if each == "\r" else Qt.Key(ord(each.upper()))
            application.sendEvent(box, QKeyEvent(kind, key, none, each))

    QTimer.singleShot(0, enter)
    assert not desk.window.close()
    (said,) = asked
    assert "lost if the window is closed." in said
    more = [typed.strip()] if len(typed) > 1 else []
    assert [*desk.unsent.unkept] == more + ["It rose."] * is_given_up
    assert all(each in desk.window.message.text for each in more)
    if not is_given_up:
        assert desk.window.print.text == "#The Moon"
        desk.window.print.setPlainText("The Moon")


@pytest.mark.parametrize("more", ["", "Kept: paragraph 4. "])
def test_that_a_text_can_be_kept_nowhere_is_said_until_it_is_kept(
    desk: Desk, application: QApplication, tmp_path: Path, more: str
) -> None:
    _without_folder(tmp_path)
    said = (
        f"What is typed can't be kept in {tmp_path}/state/braildesk: Not a directory."
    )
    desk.window.print.insertPlainText("#")
    message = desk.window.message
    assert wait(application, 5, lambda: message.text == said)
    desk.say(f"{more}{said}")
    (tmp_path / "state" / "braildesk").unlink()
    assert wait(application, 5, lambda: message.text == more.strip())
    assert (text := Drafts(desk.path).waiting()) and text.text == "#The Moon"
    desk.window.print.setPlainText("The Moon")


def test_what_is_said_meanwhile_stays_while_it_is_tried_to_keep_a_text(
    desk: Desk, application: QApplication, tmp_path: Path
) -> None:
    _without_folder(tmp_path)
    desk.window.print.insertPlainText("#")
    message = desk.window.message
    assert wait(application, 5, lambda: "can't be kept in" in message.text)
    desk.say("The caret is on no mark.")
    assert not wait(application, 2.5, lambda: "can't be kept in" in message.text)
    assert message.text == "The caret is on no mark."
    desk.window.print.setPlainText("The Moon")


def test_that_a_held_text_can_be_kept_nowhere_is_said_once_and_until_it_is_tried_again(
    desk: Desk,
    application: QApplication,
    tmp_path: Path,
    monkeypatch: pytest.MonkeyPatch,
) -> None:
    _without_folder(tmp_path)
    monkeypatch.setattr(Held, "text", "Typed on meanwhile.")
    desk.held.changed.emit()
    message = desk.window.message
    assert wait(application, 5, lambda: "can't be kept in" in message.text)
    said = message.text
    desk.say("The caret is on no mark.")
    assert not wait(application, 2.5, lambda: "can't be kept in" in message.text)
    desk.say(said)
    (tmp_path / "state" / "braildesk").unlink()
    assert wait(application, 5, lambda: message.text == "")
    assert Drafts(desk.path).unread() is not None
    monkeypatch.setattr(Held, "text", "")


def test_that_a_text_which_is_held_can_be_kept_nowhere_is_said_until_it_is_kept(
    desk: Desk,
    application: QApplication,
    tmp_path: Path,
    monkeypatch: pytest.MonkeyPatch,
) -> None:
    _without_folder(tmp_path)
    monkeypatch.setattr(Held, "text", "Typed on meanwhile.")
    desk.held.changed.emit()
    message = desk.window.message
    assert wait(application, 5, lambda: "can't be kept in" in message.text)
    (tmp_path / "state" / "braildesk").unlink()
    desk.held.changed.emit()
    assert wait(application, 5, lambda: message.text == "")
    monkeypatch.setattr(Held, "text", "")


def test_a_note_that_can_be_kept_nowhere_is_said_to_be_while_it_is_typed(
    desk: Desk, application: QApplication, tmp_path: Path
) -> None:
    _without_folder(tmp_path)
    desk.have_wait(Draft(Aim.NOTE, 1, "en", "The Moon", "who?", Span(0, 1), 5))
    message = desk.window.message
    assert wait(application, 5, lambda: "can't be kept in" in message.text)
    desk.have_wait(None)


def test_what_is_given_up_and_can_be_kept_nowhere_is_typed_further(
    desk: Desk, stays: list[str], monkeypatch: pytest.MonkeyPatch, tmp_path: Path
) -> None:
    monkeypatch.setattr(dialogs, "one_of", lambda _, t, a, names, f: names[0])
    _without_folder(tmp_path)
    desk.act("new_after")
    desk.window.print.insertPlainText("It rose.")
    desk.act("give_up")
    assert desk.window.message.text.endswith("It is here only until scribe ends.")
    assert not desk.window.close()
    assert stays == [
        "A text, “It rose.”, can't be kept elsewhere after being given up. It is lost if the window"
        " is closed. Ctrl+B brings it back."
    ]
    desk.act("bring_back")
    assert desk.new is not None and desk.window.print.text == "It rose."
    assert "What is typed can't be kept in" in desk.window.message.text
    desk.act("keep")
    assert "It rose." in prints_of(desk)
    assert desk.unsent.unkept == ()


@pytest.mark.parametrize("is_closed", [False, True])
def test_what_is_given_up_and_could_be_kept_nowhere_is_kept_once_that_can_be(
    desk: Desk,
    application: QApplication,
    stays: list[str],
    tmp_path: Path,
    is_closed: bool,
) -> None:
    _without_folder(tmp_path)
    desk.act("new_after")
    desk.window.print.insertPlainText("It rose.")
    desk.act("give_up")
    message = desk.window.message
    assert message.text.endswith("It is here only until scribe ends.")
    (tmp_path / "state" / "braildesk").unlink()
    if is_closed:
        assert desk.window.close()
    else:
        given_up = "Given up. The book is as it was."
        assert wait(application, 5, lambda: message.text == given_up)
    assert (stays, desk.unsent.unkept) == ([], ())
    assert [each.text for each in Drafts(desk.path).given_up()] == ["It rose."]


def test_what_is_given_up_and_can_be_kept_nowhere_is_said_at_the_end(
    monkeypatch: pytest.MonkeyPatch, desk: Desk, tmp_path: Path
) -> None:
    _without_folder(tmp_path)
    for text in ("It rose.", "It set."):
        desk.act("new_after")
        desk.window.print.insertPlainText(text)
        desk.act("give_up")
    desk.close()
    monkeypatch.setattr(desk, "close", lambda: None)
    said = "This was typed, and could not be kept: It set. It rose."
    assert desk.waits_at_once() == said


@pytest.mark.parametrize("is_slow", [False, True])
def test_what_is_refused_is_said_also_where_what_is_typed_can_be_kept_nowhere(
    desk: Desk,
    application: QApplication,
    monkeypatch: pytest.MonkeyPatch,
    tmp_path: Path,
    is_slow: bool,
) -> None:
    _without_folder(tmp_path)
    wait = desk.wait_for_draft

    def look_while_waiting() -> None:
        wait()
        application.processEvents()

    if is_slow:
        monkeypatch.setattr(desk, "wait_for_draft", look_while_waiting)
    desk.window.print.insertPlainText("#")
    for _ in range(2):
        desk.act("keep")
        look_while_waiting()
        said = desk.window.message.text
        assert "The table of paragraph 1 has no cells for “#”" in said
        assert said.count("What is typed can't be kept in") == 1
    desk.window.print.setPlainText("The Moon")


def test_a_text_of_a_closed_book_that_can_be_kept_nowhere_does_not_go_unasked(
    desk: Desk,
    application: QApplication,
    stays: list[str],
    moon: Path,
    tmp_path: Path,
) -> None:
    _without_folder(tmp_path)
    desk.window.print.insertPlainText("Oh, ")
    os.kill(desk.book.pid, signal.SIGKILL)
    moon.unlink()
    desk.act("keep")
    assert desk.is_closed and desk.window.message.text.endswith(_LOST)
    assert not desk.window.close()
    assert stays[0].endswith(_LOST) and stays[0].count(_LOST) == 1
    # it is said no more once that is kept
    (tmp_path / "state" / "braildesk").unlink()
    assert wait(application, 60, lambda: _LOST not in desk.window.message.text)
    desk.window.print.setPlainText("The Moon")


def test_of_what_is_typed_in_a_closed_book_it_is_not_said_that_enter_keeps_it(
    desk: Desk, moon: Path
) -> None:
    field = desk.window.print
    field.insertPlainText("Oh, ")
    counted = "Character 5 of 12 characters, not in the book yet."
    keeps = "Enter keeps it, Escape gives it up."
    assert desk.window.here.text == f"{counted} {keeps}"
    os.kill(desk.book.pid, signal.SIGKILL)
    moon.rename(there := moon.with_name("elsewhere"))
    desk.act("keep")
    assert desk.is_closed and desk.is_typed()
    assert desk.window.here.text == f"{counted} Escape gives it up."
    field.insertPlainText("my ")
    assert desk.window.here.text.endswith(" yet. Escape gives it up.")
    there.rename(moon)
    desk.act("open_again")
    assert desk.window.here.text.endswith(f" yet. {keeps}")
    desk.act("give_up")


@pytest.mark.parametrize("act", ["to_print", "new_after"])
def test_a_text_that_is_given_up_in_a_closed_book_is_brought_back_there(
    desk: Desk, moon: Path, monkeypatch: pytest.MonkeyPatch, act: str
) -> None:
    monkeypatch.setattr(dialogs, "one_of", lambda _, title, asked, names, n: names[0])
    field = desk.window.print
    desk.act(act)
    field.insertPlainText("Oh, ")
    typed = field.text
    os.kill(desk.book.pid, signal.SIGKILL)
    moon.rename(there := moon.with_name("elsewhere"))
    desk.act("keep")
    assert desk.is_closed and desk.is_typed()
    desk.act("give_up")
    assert desk.window.message.text == (
        "Given up. The book is as it was. Ctrl+B brings it back."
    )
    assert field.text == "The Moon"
    desk.act("bring_back")
    assert (field.text, desk.window.message.text) == (typed, "")
    assert desk.is_waiting() and not desk.unsent.texts()
    there.rename(moon)
    desk.act("open_again")
    assert field.text == typed
    desk.act("give_up")


def test_that_others_changed_a_book_before_it_was_opened_again_is_said_to_bar_taking_back(
    desk: Desk, moon: Path
) -> None:
    desk.do(requests.Mark(2, 0, 1, ""))
    os.kill(desk.book.pid, signal.SIGKILL)
    moon.rename(there := moon.with_name("elsewhere"))
    desk.act("strike")
    assert desk.is_closed
    there.rename(moon)
    with Session(moon) as session:
        session.set_begins_volume(2, True)
    desk.act("open_again")
    assert desk.window.message.text == (
        "The file that is at the path now is open, at version 7. Ctrl+Z no longer takes back what was"
        " done before it was opened again."
    )
    desk.act("take_back")
    assert desk.window.message.text.startswith("There is nothing that Ctrl+Z could")


@pytest.mark.parametrize("is_known", [True, False])
def test_that_others_changed_a_book_as_its_session_was_lost_is_said_to_bar_taking_back(
    desk: Desk, moon: Path, is_known: bool
) -> None:
    left = "Ctrl+Z no longer takes back what was done before it was opened again."
    if is_known:
        desk.do(requests.Mark(2, 0, 1, ""))
    os.kill(desk.book.pid, signal.SIGKILL)
    with Session(moon, timeout=60) as session:
        session.set_begins_volume(2, True)
    desk.act("strike")
    said = desk.window.message.text
    assert "another program changed it meanwhile" in said
    # where nothing was done before, nothing of it is taken back no more
    assert said.endswith(f" {left}") == is_known
    assert said.count(left) == is_known
    desk.act("take_back")
    assert desk.window.message.text.startswith("There is nothing that Ctrl+Z could")


def test_that_a_book_was_put_in_place_of_another_is_said_to_bar_taking_back(
    desk: Desk, moon: Path
) -> None:
    other = shutil.copyfile(moon, moon.with_name("other.braildesk"))
    with Session(other) as session:
        session.set_begins_volume(2, True)
    desk.do(requests.Mark(2, 0, 1, ""))
    other.replace(moon)
    desk.act("strike")
    assert desk.is_closed
    desk.act("open_again")
    assert desk.window.message.text == (
        "The file that is at the path now is open, at version 6. Ctrl+Z no longer takes back what was"
        " done before it was opened again."
    )
    desk.act("take_back")
    assert desk.window.message.text.startswith("There is nothing that Ctrl+Z could")


@pytest.mark.parametrize("is_kept", [False, True])
def test_another_book_that_is_there_as_a_session_ends_is_not_taken_for_this_one(
    desk: Desk, moon: Path, is_kept: bool
) -> None:
    other = shutil.copyfile(moon, moon.with_name("other.braildesk"))
    if is_kept:
        desk.do(requests.Mark(2, 0, 1, ""))
    desk.window.print.insertPlainText("Es war ")
    other.replace(moon)
    os.kill(desk.book.pid, signal.SIGKILL)
    desk.act("keep")
    saved = Path(f"{moon}-saved-1")
    assert desk.is_closed
    assert desk.window.message.text.startswith(
        f"The session was ended by signal 9. The file of the book is no longer at “{moon}”: another"
        " one was put there while it was open. All of the book, with what was kept last, is in the"
        f" new file “{saved}”. Go on with that one, or look first what is at the old path by now."
    )
    assert desk.window.message.text.endswith(
        f" What is typed is kept in {desk.drafts.place}."
    )
    waiting = Drafts(saved).waiting()
    assert waiting is not None and waiting.text.startswith("Es war The ")
    with Session(saved) as session:
        assert len(session.marks_of(2)) == 1 + is_kept
    # it goes with the book that is gone
    Path(f"{moon}-wal").unlink(missing_ok=True)
    desk.act("open_again")
    assert "The file that is at the path now is open, at version 5." in (
        desk.window.message.text
    )
    desk.act("give_up")


def test_a_text_is_kept_for_the_file_that_is_open_also_where_another_is_at_its_path(
    desk: Desk, moon: Path
) -> None:
    for text in ("It rose.", "It set."):
        desk.act("new_after")
        desk.window.print.insertPlainText("So: ")
        desk.wait_for_draft()
        moved = moon.rename(moon.with_name(text))
        shutil.copyfile(moved, moon)
        desk.window.print.insertPlainText(text)
        desk.wait_for_draft()
        drafts = Drafts(moved)
        drafts.take_in()
        waiting = drafts.waiting()
        assert waiting is not None and waiting.text == f"So: {text}"
        # what is sent shows that the file is gone, and the other one is opened at its path
        desk.act("keep")
        assert desk.is_closed
        desk.act("open_again")
        assert not desk.is_closed
        desk.act("give_up")


def test_another_book_that_came_after_a_session_ended_is_not_said_to_be_this_one(
    desk: Desk, moon: Path
) -> None:
    other = shutil.copyfile(moon, moon.with_name("other.braildesk"))
    moon.rename(moon.with_name("away.braildesk"))
    os.kill(desk.book.pid, signal.SIGKILL)
    desk.act("strike")
    assert desk.is_closed
    other.rename(moon)
    desk.act("open_again")
    assert "The file that is at the path now is open, at version 5." in (
        desk.window.message.text
    )


def test_of_a_text_by_a_table_that_the_book_lacks_it_is_said_that_there_is_no_preview(
    desk: Desk,
    application: QApplication,
    moon: Path,
    monkeypatch: pytest.MonkeyPatch,
) -> None:
    failed: list[object] = []
    monkeypatch.setattr(sys, "excepthook", lambda kind, fault, _: failed.append(fault))
    other = moon.with_name("other.braildesk")
    new_book(
        other,
        holding=[requests.Supply("de"), requests.Type("end", "de", "Es war.")],
    )
    desk.act("new_after")
    desk.window.print.insertPlainText("It rose.")
    other.replace(moon)
    os.kill(desk.book.pid, signal.SIGKILL)
    desk.act("keep")
    assert desk.is_closed
    # it goes with the book that is gone
    Path(f"{moon}-wal").unlink(missing_ok=True)
    desk.act("open_again")
    assert desk.window.print.text == "It rose."
    said = "There is no preview. The book has no table en. "
    here = desk.window.here
    assert wait(application, 60, lambda: here.text.startswith(said) or bool(failed))
    assert failed == []
    desk.act("notation")
    tables = desk.book.tables
    assert desk.ahead.result(lambda: tables.first_fault("en", ["It rose."])) == ""
    desk.act("give_up")


def test_lines_that_were_not_typed_yet_wait_if_the_window_is_ended(
    desk: Desk, asked: dict[str, int], monkeypatch: pytest.MonkeyPatch
) -> None:
    long: Callable[..., Any] = dialogs.long

    def ended(
        over: object, worker: object, title: str, act: Callable[..., Any], *more: Any
    ) -> Any:
        def is_stopped() -> bool:
            drafts = Drafts(desk.path).waiting()
            return drafts is not None and drafts.text == "Two.\nThree."

        desk.is_ending = True
        return long(over, worker, title, lambda say, _: act(say, is_stopped), *more)

    monkeypatch.setattr(dialogs, "long", ended)
    asked["Pasted lines"] = 0
    desk.act("new_after")
    desk.window.print.pasted.emit(["One.", "Two.", "Three."])
    desk.keep_draft(desk.draft())
    desk.wait_for_draft()
    waiting = Drafts(desk.path).waiting()
    assert waiting is not None and waiting.text == "Two.\nThree."
    assert Drafts(desk.path).given_up() == ()


@pytest.mark.parametrize(
    "is_new, what, back",
    [(False, "paragraph 1", "The Moon"), (True, "a new paragraph", "")],
)
def test_what_is_typed_after_lines_that_were_pasted_into_a_closed_book_waits(
    desk: Desk, asked: dict[str, int], is_new: bool, what: str, back: str
) -> None:
    asked["Pasted lines"] = 0
    if is_new:
        desk.act("new_after")
    desk.is_closed = True
    field = desk.window.print
    field.textCursor().insertText("Oh, ")
    field.pasted.emit(["One.", "Two. "])
    assert desk.window.message.text == (
        "The book is closed: Open the book again, in the menu Book, opens it. A text of"
        f" {what} isn't in the book. Ctrl+B brings it back."
    )
    field.textCursor().insertText("my")
    desk.wait_for_draft()
    waiting = Drafts(desk.path).waiting()
    assert waiting is not None and waiting.text == f"Oh, my{back}"
    (left,) = Drafts(desk.path).given_up()
    assert left.text == f"Oh, One.\nTwo. {back}".rstrip()
    desk.is_closed = False
    desk.act("give_up")


def test_lines_wait_while_it_is_asked_what_they_are_also_if_the_window_is_ended(
    desk: Desk, monkeypatch: pytest.MonkeyPatch
) -> None:
    waiting: list[str] = []

    def choice(over: object, title: str, said: str, answers: Sequence[str]) -> int:
        found = Drafts(desk.path).waiting()
        waiting.append(found.text if found is not None else "")
        desk.is_ending = len(waiting) > 1
        return 2

    monkeypatch.setattr(dialogs, "choice", choice)
    desk.window.print.put_caret(4)
    for _ in range(2):
        desk.window.print.pasted.emit(["One.", "Two. "])
        desk.wait_for_draft()
        found = Drafts(desk.path).waiting()
        waiting.append(found.text if found is not None else "")
        assert desk.window.print.text == "The Moon"
    assert waiting == ["The One.\nTwo. Moon", "", *["The One.\nTwo. Moon"] * 2]


def test_what_is_refused_before_an_action_is_not_said_to_be_refused_again(
    desk: Desk,
) -> None:
    desk.window.print.insertPlainText("#")
    for again in ("", "Again: "):
        desk.act("heading")
        said = desk.window.message.text
        assert said.startswith(f"{again}The table of paragraph 1 has no cells for “#”")
        assert desk.window.focusWidget() is desk.window.message
    assert desk.contents.version == 5
    desk.window.print.setPlainText("The Moon")


def test_letters_that_come_after_a_refusal_are_typed_on(desk: Desk) -> None:
    window, kind = desk.window, QEvent.Type.KeyPress
    held = Qt.KeyboardModifier.NoModifier

    def press(letter: str) -> None:
        key = QKeyEvent(kind, Qt.Key(ord(letter.upper())), held, letter)
        QApplication.sendEvent(window.focusWidget(), key)

    desk.act("to_print")
    window.print.textCursor().insertText("#")
    desk.act("keep")
    assert window.focusWidget() is window.message
    press("s")
    assert (window.print.text, window.focusWidget()) == ("#sThe Moon", window.print)
    # not where the message is read because somebody went there, nor where letters are keys
    desk.act("to_message")
    said = window.message.text
    press("t")
    press("u")
    assert window.print.text == "#sThe Moon"
    nowhere = "Nothing is typed here: a text goes into the print. F2 goes there."
    assert window.message.text == f"{said} {nowhere}".lstrip()
    window.print.setPlainText("The Moon")


@pytest.mark.parametrize("is_refused", [True, False])
def test_what_is_pasted_into_the_message_is_said_not_to_be_typed_as_a_letter_is(
    desk: Desk, is_refused: bool
) -> None:
    window, clipboard = desk.window, QApplication.clipboard()
    assert clipboard is not None
    clipboard.setText("far ")
    desk.act("to_print")
    if is_refused:
        window.print.textCursor().insertText("#")
        desk.act("keep")
    desk.act("to_message")
    text, said = window.print.text, window.message.text
    code, held = Qt.Key.Key_V, Qt.KeyboardModifier.ControlModifier
    for _ in range(2):
        QApplication.sendEvent(
            window.message, QKeyEvent(QEvent.Type.KeyPress, code, held, "\x16")
        )
    nowhere = "Nothing is typed here: a text goes into the print. F2 goes there."
    assert window.message.text == f"{said} {nowhere}".lstrip()
    assert (window.print.text, window.focusWidget()) == (text, window.message)
    window.print.setPlainText("The Moon")


@pytest.mark.parametrize("name", ["here", "marks", "page"])
def test_what_is_typed_where_something_is_only_read_is_said_not_to_be(
    desk: Desk, name: str
) -> None:
    window, none = desk.window, Qt.KeyboardModifier.NoModifier
    field = getattr(window, name)
    window.dock.show()
    field.setFocus()

    def press(key: Qt.Key, text: str) -> None:
        kind = QEvent.Type.KeyPress
        QApplication.sendEvent(window.focusWidget(), QKeyEvent(kind, key, none, text))

    text, said = field.text, window.message.text
    press(Qt.Key.Key_Space, " ")
    assert (window.message.text, window.focusWidget()) == (said, field)
    for letter in "und hier":
        press(Qt.Key(ord(letter.upper())), letter)
    nowhere = "Nothing is typed here: a text goes into the print. F2 goes there."
    assert (window.message.text, window.focusWidget()) == (nowhere, window.message)
    press(Qt.Key.Key_Escape, "\x1b")
    assert (field.text, window.focusWidget()) == (text, field)
    assert window.print.text == "The Moon"


@pytest.mark.parametrize(
    "act", ["strike", "mark", "resolve", "table", "headings", "to_print", "history"]
)
def test_of_a_closed_book_nothing_is_offered_that_can_not_be_done_there(
    desk: Desk, act: str
) -> None:
    desk.act("strike")
    os.kill(desk.book.pid, signal.SIGKILL)
    desk.path.rename(other := desk.path.with_name("other.braildesk"))
    desk.act("heading")
    assert desk.is_closed
    closed = desk.closed
    assert "restore" not in desk.window.print_label.text()
    desk.say("")
    desk.act(act)
    if act == "to_print":
        none, kind = Qt.KeyboardModifier.NoModifier, QEvent.Type.KeyPress
        letter = QKeyEvent(kind, Qt.Key.Key_X, none, "x")
        QApplication.sendEvent(desk.window.print, letter)
        closed += " Nothing was typed."
    assert desk.window.message.text == closed
    other.rename(desk.path)
    desk.act("open_again")
    assert desk.window.print_label.text().endswith("; restore it to type in it")


def test_a_letter_that_dead_keys_make_is_typed_on_and_changes_nothing_that_is_read(
    desk: Desk,
) -> None:
    window = desk.window

    def commit(text: str) -> None:
        event = QInputMethodEvent()
        event.setCommitString(text)
        QApplication.sendEvent(window.focusWidget(), event)

    desk.act("to_print")
    window.print.textCursor().insertText("#")
    desk.act("keep")
    said = window.message.text
    commit("é")
    assert (window.print.text, window.message.text) == ("#éThe Moon", said)
    window.print.setPlainText("The Moon")
    desk.act("to_cells")
    cells = window.cells.text
    commit("é")
    assert (window.cells.text, window.print.text) == (cells, "The Moon")
    desk.act("strike")
    desk.act("to_print")
    commit("é")
    assert (window.print.text, window.message.text) == ("The Moon", STRUCK)


@pytest.mark.parametrize(
    "is_struck, letter, held, said",
    [
        (True, "x", Qt.KeyboardModifier.NoModifier, STRUCK),
        (True, "v", Qt.KeyboardModifier.ControlModifier, STRUCK),
        (False, "x", Qt.KeyboardModifier.NoModifier, ""),
    ],
)
def test_what_is_typed_in_a_struck_paragraph_is_said_not_to_be(
    desk: Desk, is_struck: bool, letter: str, held: Qt.KeyboardModifier, said: str
) -> None:
    if is_struck:
        desk.act("strike")
    desk.act("to_print")
    desk.say("")
    code, kind = Qt.Key(ord(letter.upper())), QEvent.Type.KeyPress
    focused = desk.window.message if said else desk.window.print
    # the second one comes where the message has the focus by then
    for _ in range(2):
        key = QKeyEvent(kind, code, held, letter)
        QApplication.sendEvent(desk.window.focusWidget(), key)
        assert desk.window.message.text == said
        assert desk.window.focusWidget() is focused
    assert (desk.window.print.text == "The Moon") is is_struck
    desk.act("give_up")


def test_the_newest_correction_is_taken_back_by_its_key_where_it_was_typed(
    moon: Path, at: Open
) -> None:
    window = at(moon)
    window.press("F2")
    window.focus("text", "Print")
    window.type("A ")
    window.press("Return")
    window.reads("Message", "Kept: correction 1 of paragraph 1.")
    window.press("Ctrl+Z")
    window.reads("Print", "The Moon")


def test_what_is_kept_is_not_taken_back_with_what_is_typed_after_it(
    desk: Desk,
) -> None:
    field = desk.window.print
    field.insertPlainText("A")
    desk.act("keep")
    field.insertPlainText("B")
    desk.act("take_back")
    assert (field.text, desk.is_typed()) == ("AThe Moon", False)
    # what was typed and taken back is typed again by the key for that
    document = field.document()
    assert document is not None and document.isRedoAvailable()


def _correct_and_type(desk: Desk, typed: str) -> None:
    """Has the chosen paragraph be corrected, and then something else be typed in it."""
    desk.do(requests.Correct(1, 0, 3, "A"))
    desk.act("to_print")
    desk.window.print.put_caret(0)
    desk.window.print.insertPlainText(typed)


@pytest.mark.parametrize("act", ["to_message", "to_paragraphs", "to_cells"])
def test_what_was_typed_and_taken_back_is_typed_again_wherever_the_focus_is(
    desk: Desk, act: str
) -> None:
    _correct_and_type(desk, "☾")
    version, window = desk.contents.version, desk.window
    if act == "to_message":
        desk.act("keep")
    else:
        desk.act(act)
    assert window.focusWidget() is not window.print
    desk.act("take_back")
    assert window.print.text == "A Moon"
    desk.act("undo_here")
    assert (window.print.text, window.focusWidget()) == ("☾A Moon", window.print)
    assert window.message.text == "Typed again: what was taken back last."
    assert desk.asked(desk.book.contents).version == version
    window.print.insertPlainText("so")
    assert window.message.text == ""
    desk.act("give_up")


@pytest.mark.parametrize("act", ["to_message", "to_paragraphs", "to_cells"])
def test_that_what_was_typed_is_taken_back_is_said_where_the_print_has_no_focus(
    desk: Desk, act: str
) -> None:
    field, message = desk.window.print, desk.window.message
    desk.act("to_print")
    field.put_caret(8)
    field.insertPlainText(" rose")
    desk.act(act)
    desk.act("take_back")
    said = "Taken back: what was typed last."
    assert (field.text, message.text) == ("The Moon", said)
    desk.act("undo_here")
    assert field.text == "The Moon rose"
    # where it has, a screen reader says what goes
    desk.say("")
    desk.act("take_back")
    assert (field.text, message.text) == ("The Moon", "")


def test_that_what_was_typed_is_taken_back_is_said_until_it_is_typed_again(
    desk: Desk,
) -> None:
    field, message = desk.window.print, desk.window.message
    desk.act("to_print")
    field.insertPlainText("So: ")
    desk.act("to_paragraphs")
    desk.act("take_back")
    assert (field.text, message.text) == (
        "The Moon",
        "Taken back: what was typed last.",
    )
    desk.act("to_print")
    field.redo()
    assert (field.text, message.text) == ("So: The Moon", "")
    desk.act("give_up")


def test_once_something_else_was_done_the_newest_correction_is_taken_back(
    desk: Desk,
) -> None:
    _correct_and_type(desk, "☾")
    desk.act("take_back")
    desk.act("heading")
    desk.act("to_paragraphs")
    desk.act("undo_here")
    assert desk.window.print.text == "The Moon"


@pytest.mark.parametrize(
    "part, text, said", [("print", "The Moon#", ""), ("table", "The Moon", "Taken")]
)
def test_a_letter_that_was_typed_and_taken_away_comes_back_where_one_is_in_the_print(
    desk: Desk, part: str, text: str, said: str
) -> None:
    desk.act("heading")
    desk.say("")
    field = desk.window.print
    desk.act("to_print")
    field.put_caret(8)
    field.insertPlainText("#")
    field.textCursor().deletePreviousChar()
    assert not desk.is_typed()
    getattr(desk.window, part).setFocus()
    desk.act("take_back")
    assert (field.text, desk.window.message.text[:5]) == (text, said)
    desk.act("give_up")


def test_what_was_typed_and_taken_away_does_not_come_back_in_another_paragraph(
    desk: Desk,
) -> None:
    desk.do(requests.Type(1, "en", "The Moon"))
    desk.choose(0)
    field = desk.window.print
    desk.act("to_print")
    field.put_caret(8)
    field.insertPlainText("#")
    field.textCursor().deletePreviousChar()
    desk.choose(1)
    assert (desk.number, field.text) == (4, "The Moon")
    desk.act("take_back")
    assert field.text == "The Moon"
    assert desk.window.message.text.startswith("Taken back: paragraph 4 ")


@pytest.mark.parametrize("act", ["heading", "strike"])
def test_what_was_done_after_a_letter_was_taken_away_is_taken_back_before_it(
    desk: Desk, act: str
) -> None:
    field = desk.window.print
    desk.act("to_print")
    field.put_caret(8)
    field.insertPlainText("#")
    field.textCursor().deletePreviousChar()
    desk.act(act)
    assert desk.window.focusWidget() is field
    desk.act("take_back")
    assert desk.window.message.text.startswith("Taken back: paragraph 1 ")
    assert field.text == "The Moon"


def test_in_a_book_without_a_paragraph_it_is_said_once_why_nothing_is_typed(
    application: QApplication, tmp_path: Path
) -> None:
    new_book(path := tmp_path / "empty.braildesk", holding=[requests.Supply("en")])
    desk = Desk(path, None, 0.0, PageSize())
    desk.acts = Actions(desk).by_name
    desk.begin()
    desk.say("")
    desk.act("strike")
    for letter in "tr":
        desk.window.message.typed_on.emit(letter)
    said = desk.window.message.text
    desk.close()
    assert said == f"{NO_PARAGRAPH} Nothing was typed."


@pytest.fixture
def shelved(application: QApplication, moon: Path) -> Iterator[Desk]:
    """The book in a folder of books, at work in a window that nobody sees."""
    (folder := moon.with_name("books")).mkdir()
    desk = Desk(moon.rename(folder / moon.name), None, 0.0, PageSize())
    desk.acts = Actions(desk).by_name
    desk.begin()
    yield desk
    desk.close()


@pytest.mark.parametrize("is_closing", [False, True])
@pytest.mark.parametrize("is_new", [False, True])
@pytest.mark.parametrize("is_moved", [False, True])
def test_what_is_in_a_book_that_is_gone_is_said_to_be_and_what_is_typed_on_is_offered(
    shelved: Desk, stays: list[str], is_moved: bool, is_new: bool, is_closing: bool
) -> None:
    desk, field = shelved, shelved.window.print
    if is_new:
        desk.act("new_after")
    field.insertPlainText("Es war ")
    if is_moved:
        folder = desk.path.parent.rename(desk.path.parent.with_name("older"))
        there = folder / desk.path.name
    else:
        desk.path.unlink()
        there = desk.path.with_name(f"{desk.path.name}-saved-1")
    if is_closing:
        assert not desk.window.close()
        assert stays == [desk.window.message.text]
    else:
        desk.act("keep")
    assert desk.is_closed and not desk.is_typed()
    assert desk.window.message.text.endswith(" What was typed last is in it.")
    with Session(there) as session:
        text = session.print_of(4 if is_new else 1)
    assert text == ("Es war " if is_new else "Es war The Moon")
    assert Drafts(there).waiting() is None and Drafts(desk.path).waiting() is None
    # letters that are typed on are offered where that is opened
    field.insertPlainText("einmal")
    assert "What was typed last is in it." not in desk.window.message.text
    desk.wait_for_draft()
    (drafts := Drafts(there)).take_in()
    waiting = drafts.waiting()
    assert waiting is not None
    where = (Aim.AFTER, 4) if is_new else (Aim.EDIT, 1)
    assert (waiting.aim, waiting.paragraph) == where
    assert waiting.text == ("einmal" if is_new else "Es war einmalThe Moon")


def test_what_is_typed_after_lines_that_a_book_which_is_gone_lacks_is_kept_beside_them(
    shelved: Desk, asked: dict[str, int]
) -> None:
    desk, field = shelved, shelved.window.print
    asked["Pasted lines"] = 0
    field.put_caret(8)
    desk.path.unlink()
    field.pasted.emit(["s", "One.", "Two."])
    assert desk.is_closed
    lines = "The Moons\nOne.\nTwo."
    desk.wait_for_draft()
    there = Drafts(desk.path.with_name(f"{desk.path.name}-saved-1"))
    for drafts in (there, Drafts(desk.path)):
        waiting = drafts.waiting()
        assert waiting is not None and waiting.text == lines
    field.insertPlainText("So ")
    desk.wait_for_draft()
    for drafts in (there, Drafts(desk.path)):
        waiting = drafts.waiting()
        assert waiting is not None and waiting.text == "The MoonSo "
        assert [each.text for each in drafts.given_up()] == [lines]


@pytest.mark.parametrize("is_saved", [True, False])
def test_of_a_book_of_which_the_file_is_gone_it_is_said_where_it_is_until_that_is_back(
    shelved: Desk, is_saved: bool
) -> None:
    desk, message = shelved, shelved.window.message
    other = desk.path.with_name("other.braildesk")
    saved = desk.path.with_name(f"{desk.path.name}-saved-1")
    if not is_saved:
        os.kill(desk.book.pid, signal.SIGKILL)
    desk.path.rename(other)
    desk.act("strike")
    assert desk.is_closed and saved.exists() == is_saved
    gone = f"The book is closed: Its file isn't at “{desk.path}” any more."
    opens = "Open the book again, in the menu Book, opens it"
    if is_saved:
        gone += f" All of the book is in “{saved}”, which scribe window opens."
    else:
        gone += f" {opens} once it is there again."
    for name in ("strike", "open_again"):
        desk.say("")
        desk.act(name)
        assert message.text == gone, name
    other.rename(desk.path)
    desk.act("strike")
    assert message.text == f"The book is closed: {opens}."
    desk.act("open_again")
    assert not desk.is_closed
    opened = "The file that is at the path now is" if is_saved else "The book is"
    assert message.text.startswith(f"{opened} open")


@pytest.mark.parametrize("is_moved", [False, True])
def test_of_a_file_with_all_of_a_book_it_is_not_said_at_the_end_to_be_where_it_is_gone(
    shelved: Desk, stays: list[str], is_moved: bool
) -> None:
    desk, field = shelved, shelved.window.print
    field.insertPlainText("Es war ")
    saved = desk.path.with_name(f"{desk.path.name}-saved-1")
    if is_moved:
        folder = desk.path.parent.rename(desk.path.parent.with_name("older"))
        saved = folder / desk.path.name
    else:
        desk.path.unlink()
    desk.act("keep")
    cause = desk.loss.split(" while it was open. ")[0] + " while it was open."
    assert saved.exists() and desk.so_now(desk.loss) == desk.loss
    assert str(saved) in desk.loss
    saved.unlink()
    gone = f"{cause} All of the book was in “{saved}”, where no file is any more."
    assert desk.so_now(desk.loss) == gone
    assert not desk.is_left()
    assert stays == [f"{gone} What was typed last was in it."]


@pytest.mark.parametrize("is_moved", [False, True])
def test_of_a_book_that_is_gone_it_is_said_at_the_end_that_a_file_is_at_its_path_again(
    shelved: Desk, stays: list[str], is_moved: bool
) -> None:
    desk = shelved
    desk.path.unlink()
    desk.act("strike")
    saved = desk.path.with_name(f"{desk.path.name}-saved-1")
    said = desk.loss
    assert str(saved) in said and desk.so_now(said) == said
    if is_moved:
        saved.rename(desk.path)
        cause = said.split(" while it was open. ")[0] + " while it was open."
        said = f"{cause} All of the book was in “{saved}”, where no file is any more."
    else:
        shutil.copyfile(saved, desk.path)
    said = f"{said} A file is at “{desk.path}” again."
    assert desk.so_now(desk.loss) == said
    assert not desk.is_left()
    assert stays == [said]
    assert desk.so_now("") == ""


def test_a_text_is_dropped_on_a_book_of_which_the_file_is_gone_and_where_that_is_is_said(
    shelved: Desk, tmp_path: Path
) -> None:
    desk, message = shelved, shelved.window.message
    desk.path.rename(desk.path.with_name("other.braildesk"))
    desk.act("strike")
    assert desk.is_closed
    (text := tmp_path / "tides.txt").write_text("One.\n")
    desk.say("")
    desk.window.dropped.emit(text)
    saved = desk.path.with_name(f"{desk.path.name}-saved-1")
    assert message.text == (
        f"The book is closed: Its file isn't at “{desk.path}” any more. All of the book is in"
        f" “{saved}”, which scribe window opens."
    )


def test_letters_that_are_taken_away_again_wait_nowhere_for_a_book_that_is_gone(
    shelved: Desk, stays: list[str]
) -> None:
    desk, field = shelved, shelved.window.print
    field.insertPlainText("Es war ")
    desk.path.unlink()
    desk.act("keep")
    there = desk.path.with_name(f"{desk.path.name}-saved-1")
    assert desk.is_closed and not desk.is_typed()
    field.insertPlainText("x")
    desk.wait_for_draft()
    assert Drafts(there).waiting() is not None
    field.undo()
    desk.wait_for_draft()
    assert not desk.is_typed()
    assert Drafts(there).waiting() is None


def test_a_note_in_a_book_whose_folder_was_moved_is_not_said_to_wait(
    shelved: Desk, monkeypatch: pytest.MonkeyPatch
) -> None:
    desk = shelved

    def text(*asked: Any) -> str:
        asked[-1]("who?")
        desk.path.parent.rename(desk.path.parent.with_name("older"))
        return "who?"

    monkeypatch.setattr(dialogs, "text_further", text)
    desk.act("mark")
    assert desk.window.message.text.endswith(" What was typed last is in it.")
    assert desk.draft() is None and Drafts(desk.path).waiting() is None


def test_a_word_that_an_input_method_still_holds_is_kept_with_what_was_typed(
    desk: Desk, monkeypatch: pytest.MonkeyPatch
) -> None:
    field, held = desk.window.print, list[str]()

    class Method:
        """An input method, and the application that has it."""

        def inputMethod(self) -> object:
            return self

        def commit(self) -> None:
            while held:
                event = QInputMethodEvent()
                event.setCommitString(held.pop())
                QApplication.sendEvent(field, event)

    def type_word(word: str) -> None:
        held.append(word)
        QApplication.sendEvent(field, QInputMethodEvent(word, []))

    monkeypatch.setattr("scribe.window.desk.QGuiApplication", Method(), raising=False)
    type_word("xin")
    assert field.text == "The Moon"
    desk.act("heading")
    assert prints_of(desk)[0] == "xinThe Moon"
    type_word("a")
    desk.act("give_up")
    assert Drafts(desk.path).given_up()[0].text == "xinaThe Moon"
    type_word("xin")
    assert desk.window.close()
    assert prints_of(desk)[0] == "xinxinThe Moon"


@pytest.mark.parametrize(
    "place, typed, gone, there, cell",
    [
        (4, "far ", 0, 4, 5),
        (8, " rose", 0, 8, 10),
        (8, "", 4, 8, 10),
        (0, "So", 0, 0, 0),
    ],
)
def test_the_caret_stays_where_it_is_as_a_text_is_given_up(
    desk: Desk, place: int, typed: str, gone: int, there: int, cell: int
) -> None:
    window, field = desk.window, desk.window.print
    desk.act("to_print")
    field.put_caret(place)
    field.textCursor().insertText(typed)
    for _ in range(gone):
        field.textCursor().deletePreviousChar()
    assert desk.is_typed()
    desk.act("give_up")
    assert (field.text, field.place, window.cells.place) == ("The Moon", there, cell)


def test_a_window_says_at_the_end_which_book_it_had_where_its_link_leads_to_another(
    moon: Path, at: Open
) -> None:
    link = moon.with_name("link")
    link.symlink_to(moon)
    window = at(link)
    link.unlink()
    link.symlink_to(shutil.copyfile(moon, moon.with_name("other.braildesk")))
    window.press("F2")
    window.focus("text", "Print")
    window.type("A ")
    window.press("Ctrl+q")
    shown, _ = window.program.communicate(timeout=120)
    assert shown.decode() == f"“{moon}” is at version 6.\n"


def test_what_was_typed_elsewhere_before_the_book_is_open_again_is_set_aside_and_said(
    desk: Desk,
) -> None:
    desk.act("new_after")
    desk.window.print.insertPlainText("It rose.")
    assert desk.is_waiting()
    # another session of the book, as of another window
    drafts = Drafts(desk.path)
    drafts.save(Draft(Aim.AFTER, 1, "en", "", "It set."))
    said = desk.taken_again(desk.asked(desk.book.contents))
    assert said == (
        "What was typed elsewhere meanwhile is set aside: “It set.”. Ctrl+B brings it back."
    )
    assert [each.text for each in drafts.given_up()] == ["It set."]
    assert desk.window.print.text == "It rose."
    assert desk.is_waiting()
    waiting = drafts.waiting()
    assert waiting is not None and waiting.text == "It rose."
    desk.act("give_up")


def test_a_window_that_is_told_to_end_once_its_book_is_gone_says_where_all_of_it_is(
    moon: Path, at: Open
) -> None:
    window = at(moon)
    window.focus("table", "Paragraphs")
    moon.unlink()
    window.press("s")
    saved = moon.with_name(f"{moon.name}-saved-1")
    # it is there only once it is said
    window.says(f"is in the new file “{saved}”")
    window.program.send_signal(signal.SIGTERM)
    _, said = window.program.communicate(timeout=120)
    assert window.program.returncode == -signal.SIGTERM
    told = said.decode()
    assert "What was reported as kept is in the book" not in told
    assert str(saved) in "".join(told.split("\n"))


@pytest.mark.parametrize("typed", ["", "It rose. "])
@pytest.mark.parametrize("is_other", [False, True])
def test_a_window_that_is_told_to_end_says_that_its_file_is_gone_where_nothing_was_kept(
    moon: Path, at: Open, typed: str, is_other: bool
) -> None:
    window = at(moon)
    if typed:
        window.press("F2")
        window.focus("text", "Print")
        window.type(typed)
        window.reads("Print", f"{typed}The Moon")
    what = "it was removed or moved while it was open."
    if is_other:
        what = "another one was put there while it was open."
        shutil.copyfile(moon, other := moon.with_name("other.braildesk"))
        other.replace(moon)
    else:
        moon.unlink()
    window.program.send_signal(signal.SIGTERM)
    shown, said = window.program.communicate(timeout=120)
    assert (window.program.returncode, shown) == (-signal.SIGTERM, b"")
    waits = " A text that was typed and isn't in the book is kept, and is offered when the book is next opened."
    assert " ".join(said.decode().split()) == (
        f"Stopped by SIGTERM. The file of the book is no longer at “{moon}”: {what} Nothing was"
        f" changed in it here.{waits * bool(typed)}"
    )


#: A signal as Qt first hands over an event, which is in the midst of what Qt does.
_ENDED_AT_EVENT = """
import os, signal, sys
from scribe.window.held import Held

def end(self, to, event):
    os.kill(os.getpid(), signal.SIGTERM)
    return False

Held.eventFilter = end
from scribe.cli import main
from scribe.cli.endings import leave

leave(main())
"""


def test_a_signal_ends_a_window_that_is_being_made(moon: Path) -> None:
    words = ["window", str(moon)]
    ended = subprocess.run(
        [sys.executable, "-c", _ENDED_AT_EVENT, *words], capture_output=True
    )
    assert (ended.returncode, ended.stderr) == (-signal.SIGTERM, b"")


#: A signal at each pause after which it is looked again whether a book is in use still.
_ENDED_AT_PAUSE = """
import os, signal, time
from types import SimpleNamespace
from braildesk import opening

def sleep(seconds):
    os.kill(os.getpid(), signal.SIGTERM)
    time.sleep(seconds)

opening.time = SimpleNamespace(monotonic=time.monotonic, sleep=sleep)
from scribe.cli import main
from scribe.cli.endings import leave

leave(main())
"""


def test_a_signal_ends_a_window_that_waits_for_a_book_in_use(moon: Path) -> None:
    words = ["window", str(moon), "--wait", "600"]
    with Session(moon):
        ended = subprocess.run(
            [sys.executable, "-c", _ENDED_AT_PAUSE, *words],
            capture_output=True,
            timeout=120,
        )
    assert (ended.returncode, ended.stdout) == (-signal.SIGTERM, b"")
    assert ended.stderr.startswith(b"Stopped by SIGTERM.")
