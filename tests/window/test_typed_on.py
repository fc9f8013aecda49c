"""What keys do at each kind of dialog: what they plainly mean, or what is typed is set aside, and never both."""

import time
from collections.abc import Callable
from typing import Any

import pytest
from PyQt6.QtCore import Qt, QTimer
from PyQt6.QtGui import QInputMethodEvent
from PyQt6.QtTest import QTest
from PyQt6.QtWidgets import QApplication, QDialog, QMainWindow

from scribe.window import dialogs, typed_on
from scribe.window.held import Held
from scribe.window.worker import Worker

# its types are those of an object, of which Qt makes none
_HANDS: Any = QTest
_KEYS = {
    "\r": Qt.Key.Key_Return,
    "\t": Qt.Key.Key_Tab,
    "\b": Qt.Key.Key_Backspace,
    "\x1b": Qt.Key.Key_Escape,
    "→": Qt.Key.Key_Right,
    "↓": Qt.Key.Key_Down,
}
_ANSWERS = "&Paragraphs", "&One", "&Neither"
_NAMES = "1. so", "2. or so", "3. not so"


@pytest.fixture
def over(application: QApplication, monkeypatch: pytest.MonkeyPatch) -> QMainWindow:
    """A window over which something is asked that could be read by then."""
    monkeypatch.setattr(typed_on, "_READING_SECONDS", 0.0)
    monkeypatch.setattr(dialogs, "_SHOWN_AFTER_SECONDS", 0)
    found = QMainWindow()
    found.show()
    found.activateWindow()
    return found


def _press(dialog: QDialog, key: str, held: Qt.KeyboardModifier) -> None:
    """Presses a key where the focus is; a letter beyond ASCII comes by an input method."""
    to = dialog.focusWidget() or dialog
    if key in _KEYS:
        _HANDS.keyClick(to, _KEYS[key])
    elif held != Qt.KeyboardModifier.NoModifier:
        # Qt looks for the key of a button before a part gets it
        _HANDS.keyClick(dialog.windowHandle(), key, held)
        # a button that is pressed so is seen to be for a moment
        _HANDS.qWait(300)
    elif key.isascii():
        _HANDS.keyClicks(to, key)
    else:
        event = QInputMethodEvent()
        event.setCommitString(key)
        QApplication.sendEvent(to, event)


def _at_dialog(keys: str, left: list[str]) -> None:
    """Presses keys at the next dialog until it closes, of which the others are left; “^” holds Alt for one."""

    def look() -> None:
        dialog = QApplication.activeModalWidget()
        if not isinstance(dialog, QDialog) or not dialog.isActiveWindow():
            QTimer.singleShot(10, look)
            return
        held = Qt.KeyboardModifier.NoModifier
        for place, key in enumerate(keys):
            if not dialog.isVisible():
                left.append(keys[place:])
                return
            if key != "^":
                _press(dialog, key, held)
            held = Qt.KeyboardModifier.NoModifier
            if key == "^":
                held = Qt.KeyboardModifier.AltModifier
        if dialog.isVisible():
            left.append("open")
            dialog.reject()

    QTimer.singleShot(0, look)


def _asked(over: QMainWindow, typed: Callable[[str], None]) -> object:
    return dialogs.ask(over, "Lines", "What are they?", _ANSWERS, typed)


def _offered(over: QMainWindow, typed: Callable[[str], None]) -> object:
    return dialogs.offer(over, "Lines", "What are they?", _ANSWERS, typed)


def _names(over: QMainWindow, typed: Callable[[str], None]) -> object:
    with typed_on.taking_at_names(typed):
        return dialogs.one_of(over, "Texts", "Which?", _NAMES, 0)


def _lines(over: QMainWindow, typed: Callable[[str], None]) -> object:
    held = Held()
    with typed_on.taking_at_lines(typed, held.holding):
        found = dialogs.line_of(over, "Lines", _NAMES, 0)
    held.stop()
    return found


@pytest.mark.parametrize(
    "ask, keys, answer, aside",
    [
        (_asked, "\r", 0, ""),
        (_asked, " ", 0, ""),
        (_asked, "\t\r", 1, ""),
        (_asked, "→ ", 1, ""),
        (_asked, "\x1b", 2, ""),
        (_asked, "^o", 1, ""),
        (_asked, "und\x1b", 2, "und"),
        (_asked, "und\r\r", 2, "und"),
        (_asked, "un→d\r\r", 2, "und"),
        (_asked, "1984\r\r", 2, "1984"),
        (_asked, "éà\r\r", 2, "éà"),
        (_asked, "ab\rcd\r\r", 2, "ab\ncd"),
        (_asked, "unx\bd\r\r", 2, "und"),
        # what was taken away again, or is one letter alone, is no text
        (_asked, "un\b\b\r", 0, ""),
        (_asked, "u\b ", 0, ""),
        (_asked, "u\r\r", 2, ""),
        # an answer that was gone to is given, and the text before it is set aside
        (_asked, "und\t\r", 1, "und"),
        (_asked, "und^o", 1, "und"),
        (_offered, "\r", 0, ""),
        (_offered, "\t ", 1, ""),
        (_offered, "^n", 2, ""),
        (_offered, " \x1b", 2, ""),
        (_offered, " und hier\r\r", 2, "und hier"),
        (_names, "\r", "1. so", ""),
        (_names, "↓\r", "2. or so", ""),
        (_names, "3\r", "3. not so", ""),
        (_names, "23\r\r", None, "23"),
        (_names, "2 go\r\r", None, "2 go"),
        (_names, "éà\r\r", None, "éà"),
        (_names, "und\b\b\b\r", "1. so", ""),
        (_names, "\x1b", None, ""),
        (_lines, "\r", 0, ""),
        (_lines, "↓\r", 1, ""),
        (_lines, " ↓\r", 1, ""),
        (_lines, "x\r", 0, ""),
        (_lines, "und\r\r", None, "und"),
        (_lines, "und\b\b\b\r", 0, ""),
        (_lines, "éà\r\r", None, "éà"),
        (_lines, "und\x1b", None, "und"),
    ],
)
def test_keys_at_a_dialog_give_an_answer_or_are_a_text_that_is_set_aside(
    over: QMainWindow,
    ask: Callable[[QMainWindow, Callable[[str], None]], object],
    keys: str,
    answer: object,
    aside: str,
) -> None:
    typed, left = [""], list[str]()
    _at_dialog(keys, left)
    assert (ask(over, typed.append), left, typed[-1]) == (answer, [], aside)


@pytest.mark.parametrize(
    "keys, is_stopped, aside",
    [
        ("\r", False, ""),
        ("x", False, "x"),
        ("und hier\r", False, "und hier"),
        ("und→→\t\b\b", False, "u"),
        ("éà", False, "éà"),
        ("x\b ", True, ""),
        (" ", True, ""),
        ("\x1b", True, ""),
        ("und\x1b hier\r", True, "und hier"),
    ],
)
def test_keys_while_something_takes_long_end_it_or_are_a_text_that_is_set_aside(
    over: QMainWindow, keys: str, is_stopped: bool, aside: str
) -> None:
    typed, held, done = [""], Held(), list[bool]()

    def press() -> None:
        dialog = QApplication.activeModalWidget()
        if not isinstance(dialog, QDialog) or dialog.focusWidget() is None:
            QTimer.singleShot(10, press)
            return
        for key in keys:
            _press(dialog, key, Qt.KeyboardModifier.NoModifier)
        done.append(True)

    def act(say: dialogs.Say, is_ended: dialogs.IsStopped) -> bool:
        while not done:
            time.sleep(0.01)
        return is_ended()

    QTimer.singleShot(0, press)
    worker = Worker(held)
    assert dialogs.long(over, worker, "Import", act, typed.append) == is_stopped
    assert typed[-1] == aside
    worker.stop()
    held.stop()


def test_nothing_comes_for_a_moment_after_a_dialog_while_something_is_waited_for(
    application: QApplication,
) -> None:
    (held := Held()).stand_still()
    worker, came = Worker(held), list[bool]()
    QTimer.singleShot(0, lambda: came.append(True))
    worker.result(lambda: time.sleep(0.1))
    assert not came
    time.sleep(held.still_seconds)
    worker.result(lambda: time.sleep(0.2))
    assert came
    worker.stop()
    held.stop()
