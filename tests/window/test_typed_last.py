"""What keys typed last comes back by an action, in the order in which it came, whatever became of it."""

import os
import signal
import time
from pathlib import Path

import pytest
from PyQt6.QtCore import QCoreApplication, QMimeData, QTimer
from PyQt6.QtGui import QInputMethodEvent
from PyQt6.QtWidgets import QApplication, QDialog

from braildesk.desk.draft import Aim, Draft
from braildesk.desk.drafts import Drafts

from scribe.window import dialogs
from scribe.window.desk import Desk
from scribe.words.typed_last import BROUGHT, NOTHING

from conftest import Answers, Open
from reader import Reader
from test_held import begun

#: After so many seconds what is typed is kept.
KEPT_SECONDS = 2.5


def brought(window: Reader, text: str) -> None:
    """Has a text be brought back as one that is typed, and gives it up."""
    window.press("Ctrl+Shift+b")
    window.reads("Print", text)
    window.says(BROUGHT)
    window.press("Escape")
    window.says("Given up. The book is as it was.")


def test_what_was_typed_comes_back_whatever_became_of_it(moon: Path, at: Open) -> None:
    window = at(moon)
    window.focus("table", "Paragraphs")
    window.press("Ctrl+Shift+b")
    window.says(NOTHING)
    window.press("Escape")
    window.focus("table", "Paragraphs")
    # where nothing takes it
    window.type("jelly")
    brought(window, "jelly")
    # it is kept as that, and no other text gives up its place for it
    assert Drafts(moon).given_up() == ()
    # taken back, and typed over
    window.press("F2", "End")
    window.focus("text", "Print")
    window.type(" Dawn")
    window.reads("Print", "The Moon Dawn")
    window.press("Ctrl+z")
    window.reads("Print", "The Moon")
    window.type("!")
    window.reads("Print", "The Moon!")
    window.press("Escape")
    window.reads("Print", "The Moon")
    brought(window, "jelly Dawn!")
    # where something else is asked
    window.press("Ctrl+f")
    window.dialog("Find")
    window.type("fog")
    window.press("Escape")
    window.no_dialog()
    brought(window, "jelly Dawn! fog")
    window.press("Ctrl+q")
    assert window.end() == 0
    again = at(moon)
    brought(again, "jelly Dawn! fog")
    again.press("Ctrl+q")
    assert again.end() == 0


@pytest.mark.parametrize("number", [signal.SIGKILL, signal.SIGTERM])
def test_what_was_typed_comes_back_after_a_signal(
    moon: Path, at: Open, number: signal.Signals
) -> None:
    window = at(moon)
    window.focus("table", "Paragraphs")
    window.type("jelly")
    if number == signal.SIGKILL:
        time.sleep(KEPT_SECONDS)
    else:
        brought(window, "jelly")
    window.program.send_signal(number)
    assert window.end() != 0
    again = at(moon)
    brought(again, "jelly")
    again.press("Ctrl+q")
    assert again.end() == 0


def test_what_is_typed_while_the_window_waits_is_noted_once(
    moon: Path, at: Open
) -> None:
    window = at(moon)
    program = begun(window)
    window.type("It set")
    os.kill(program, signal.SIGCONT)
    window.reads("Print", "It set")
    window.press("Escape")
    window.press("Escape")
    brought(window, "It rose. It set")
    window.press("Ctrl+q")
    assert window.end() == 0


def test_what_is_pasted_and_what_an_input_method_hands_over_is_noted(
    desk: Desk, given: Answers
) -> None:
    lines = QMimeData()
    lines.setText("It rose.\nIt set.")
    # neither paragraphs nor one of them
    given["choices"] = [2]
    desk.window.print.insertFromMimeData(lines)
    handed = QInputMethodEvent()
    handed.setCommitString("où")
    for field in (desk.window.print, desk.window.marks):
        QCoreApplication.sendEvent(field, handed)
    assert desk.typed_last.text == "It rose. It set.oùoù"
    desk.act("give_up")


def test_a_text_that_was_brought_back_is_there_whatever_keys_take_out_of_it(
    desk: Desk, monkeypatch: pytest.MonkeyPatch
) -> None:
    desk.unsent.put_by(Draft(Aim.AFTER, 1, "en", "", "It rose early."))
    monkeypatch.setattr(dialogs, "one_of", lambda *its: its[3][0])
    desk.act("bring_back")
    assert desk.draft() is not None and desk.unsent.texts() == ()
    desk.window.print.textCursor().document().clear()
    desk.act("give_up")
    assert desk.typed_last.text == "It rose early."


@pytest.mark.parametrize("text, set_aside", [("é", []), ("été", ["été"])])
def test_what_an_input_method_hands_over_to_a_dialog_is_noted(
    desk: Desk, text: str, set_aside: list[str]
) -> None:
    def hand_over() -> None:
        dialog = QApplication.activeModalWidget()
        if not isinstance(dialog, QDialog) or not dialog.isVisible():
            QTimer.singleShot(10, hand_over)
            return
        for letter in text:
            handed = QInputMethodEvent()
            handed.setCommitString(letter)
            QCoreApplication.sendEvent(dialog.focusWidget() or dialog, handed)
        dialog.reject()

    QTimer.singleShot(0, hand_over)
    desk.show_lines("Keys", ["F1: this list"])
    assert desk.typed_last.text == text
    assert [each.text for each in desk.unsent.texts()] == set_aside
