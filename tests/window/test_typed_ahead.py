"""What is typed for a line of a dialog before that has the keyboard: it comes into the line, in its order."""

import signal
from collections.abc import Callable, Iterator, Sequence
from pathlib import Path

import pytest
from PyQt6.QtCore import QCoreApplication, QEvent, Qt, QTimer
from PyQt6.QtGui import QInputMethodEvent, QKeyEvent
from PyQt6.QtWidgets import QApplication, QDialog, QMainWindow

from braildesk.desk.drafts import Drafts

from scribe.window import dialogs
from scribe.window.held import Held

import test_held
from conftest import Open, wait
from reader import PATIENCE_SECONDS

_FOUND = "Paragraph 3, character 17."
_RETURN, _CONTROL = 0xFF0D, 0xFFE3
late = test_held.late


@pytest.mark.parametrize(
    "part, key, keys, said",
    [
        ("F5", "Ctrl+f", ["sea", "Return"], _FOUND),
        ("F2", "Ctrl+f", ["sae", "BackSpace", "BackSpace", "ea", "Return"], _FOUND),
        ("F5", "Ctrl+g", ["3", "Return"], "Paragraph 3, character 1."),
        # of which the place is asked of the program first
        ("F5", "Ctrl+m", ["so?", "Return"], "Kept: mark 2."),
        ("F2", "Ctrl+m", ["spelled so?", "Return"], "Kept: mark 2."),
        # each line in its order
        (
            *("F5", "Ctrl+h", ["mon", "Return", "moon", "Return"]),
            "Kept: correction 1 of paragraph 2.",
        ),
    ],
)
def test_what_hands_type_for_a_line_before_it_is_there_comes_into_it(
    moon: Path, at: Open, part: str, key: str, keys: Sequence[str], said: str
) -> None:
    window = at(moon)
    window.press(part)
    # as a machine that has much to do hands keys on
    window.program.send_signal(signal.SIGSTOP)
    window.press(key)
    for each in keys:
        if each[0].isupper():
            window.press(each)
        else:
            window.type(each)
    window.program.send_signal(signal.SIGCONT)
    window.says(said)
    window.no_dialog()
    assert not Drafts(moon).given_up()


def test_what_hands_type_for_lines_before_they_are_there_comes_into_each(
    moon: Path, at: Open
) -> None:
    window = at(moon)
    window.program.send_signal(signal.SIGSTOP)
    window.press("Ctrl+Shift+H")
    window.type("mon")
    window.press("Tab")
    window.type("moon")
    window.press("Return")
    window.program.send_signal(signal.SIGCONT)
    asked = "“mon” would be changed in 1 place of 1 paragraph"
    window.until("the question", lambda: asked in window.described())
    window.press("Escape")
    window.no_dialog()
    window.says("Nothing was changed.")


def test_what_a_screen_reader_hears_of_late_comes_into_the_line_for_which_it_is_typed(
    late: None, moon: Path, at: Open
) -> None:
    window = at(moon)
    window.program.send_signal(signal.SIGSTOP)
    test_held.press_at_once([*map(ord, "fsea"), _RETURN], _CONTROL)
    window.program.send_signal(signal.SIGCONT)
    window.says(_FOUND)
    window.no_dialog()
    assert not Drafts(moon).given_up()


@pytest.fixture
def held(application: QApplication) -> Iterator[Held]:
    """What is pressed while a window waits."""
    found = Held()
    yield found
    found.stop()


@pytest.fixture
def window(application: QApplication) -> Iterator[QMainWindow]:
    """A window beneath dialogs."""
    found = QMainWindow()
    found.show()
    yield found
    found.close()


def _pressed(key: int) -> Iterator[QKeyEvent]:
    """A key that is pressed and let go."""
    text = chr(key).lower() if key <= ord("Z") else ""
    for kind in (QEvent.Type.KeyPress, QEvent.Type.KeyRelease):
        yield QKeyEvent(kind, key, Qt.KeyboardModifier.NoModifier, text)


@pytest.fixture
def patient(application: QApplication) -> Iterator[None]:
    """Closes a dialog that nothing closes."""

    def close() -> None:
        if isinstance(dialog := QApplication.activeModalWidget(), QDialog):
            dialog.reject()

    timer = QTimer()
    timer.timeout.connect(close)
    timer.start(int(PATIENCE_SECONDS * 1000))
    yield
    timer.stop()


@pytest.mark.usefixtures("patient")
def test_keys_that_a_screen_reader_hands_on_beneath_a_line_come_into_it(
    held: Held, window: QMainWindow
) -> None:
    """It has them from when they were pressed, and hands each on to the window in which that was."""
    keys = [*map(ord, "SAE"), *[Qt.Key.Key_Backspace] * 2, *map(ord, "EA")]
    timer = QTimer()

    def hand_on() -> None:
        if QApplication.activeModalWidget() is None:
            return
        timer.stop()
        for key in (*keys, Qt.Key.Key_Return):
            for event in _pressed(key):
                QCoreApplication.postEvent(window.windowHandle(), event)

    timer.timeout.connect(hand_on)
    timer.start(1)
    assert dialogs.text(window, "Find", "Words:", "moon") == "sea"


@pytest.mark.usefixtures("patient")
@pytest.mark.parametrize("is_by_method", [False, True])
def test_what_came_before_a_dialog_comes_into_its_first_line_from_its_first_letter_on(
    held: Held, window: QMainWindow, is_by_method: bool
) -> None:
    def typed() -> None:
        with held.holding():
            if is_by_method:
                whole = QInputMethodEvent()
                whole.setCommitString("sea")
                QCoreApplication.sendEvent(window, whole)
            for key in (*(() if is_by_method else map(ord, "SEA")), Qt.Key.Key_Return):
                for event in _pressed(key):
                    QCoreApplication.sendEvent(window.windowHandle(), event)

    typed()
    assert dialogs.folder(window, "Export", "The folder:", "pages") == "sea"
    typed()
    lines = ("Words:", "Their place:"), ("moon", ""), ("Only whole words",)
    assert dialogs.fields(window, "Change", *lines) == (["sea", ""], [False])


def _line(window: QMainWindow) -> str | None:
    return dialogs.text(window, "Find", "Words:", "moon")


def _folder(window: QMainWindow) -> str | None:
    return dialogs.folder(window, "Export", "The folder:", "pages")


def _first_of_lines(window: QMainWindow) -> str | None:
    lines = ("Words:", "Their place:"), ("moon", ""), ("Only whole words",)
    found = dialogs.fields(window, "Change", *lines)
    return found[0][0] if found is not None else None


@pytest.mark.usefixtures("patient")
@pytest.mark.parametrize("asked", [_line, _folder, _first_of_lines])
def test_letters_that_come_after_enter_before_a_dialog_is_gone_are_no_part_of_its_answer(
    held: Held, window: QMainWindow, asked: Callable[[QMainWindow], str | None]
) -> None:
    noted: list[str] = []
    held.note = noted.append
    timer = QTimer()

    def press() -> None:
        dialog = QApplication.activeModalWidget()
        if dialog is None or not dialog.isActiveWindow():
            return
        timer.stop()
        for key in (*map(ord, "SEA"), Qt.Key.Key_Return, *map(ord, "UP")):
            for event in _pressed(key):
                QCoreApplication.postEvent(dialog.windowHandle(), event)

    timer.timeout.connect(press)
    timer.start(1)
    assert asked(window) == "sea"
    # they are noted as typed last
    assert "".join(noted) == "sea\nup"


@pytest.mark.usefixtures("patient")
def test_what_came_before_a_line_is_asked_for_again_is_no_answer(
    held: Held, window: QMainWindow
) -> None:
    given_up: list[str] = []
    held.unanswered.connect(lambda: given_up.append(held.text))
    with held.holding():
        for key in (*map(ord, "SEA"), Qt.Key.Key_Return):
            for event in _pressed(key):
                QCoreApplication.sendEvent(window.windowHandle(), event)
    timer = QTimer()

    def answer() -> None:
        dialog = QApplication.activeModalWidget()
        if dialog is None or not given_up:
            return
        timer.stop()
        for key in (ord("S"), Qt.Key.Key_Return):
            for event in _pressed(key):
                QCoreApplication.postEvent(dialog.windowHandle(), event)

    timer.timeout.connect(answer)
    timer.start(1)
    # and what is typed then comes in place of the line
    assert dialogs.text(window, "Find", "Words:", "moon", why="It is nowhere.") == "s"
    assert given_up == ["sea\n"]


class _Finding(QMainWindow):
    """A window in which a key asks for words, which come before the line for them is there."""

    found: str | None = ""

    def keyPressEvent(self, event: QKeyEvent | None) -> None:
        """Asks for words."""
        for key in (*map(ord, "SEA"), Qt.Key.Key_Return):
            for each in _pressed(key):
                QCoreApplication.postEvent(self.windowHandle(), each)
        self.found = dialogs.text(self, "Find", "Words:")


@pytest.mark.usefixtures("patient")
def test_what_comes_after_a_key_that_was_held_itself_comes_into_its_line(
    application: QApplication, held: Held
) -> None:
    window = _Finding()
    window.show()
    with held.holding():
        for event in _pressed(ord("F")):
            QCoreApplication.sendEvent(window.windowHandle(), event)
    assert wait(application, PATIENCE_SECONDS, lambda: window.found != "")
    assert window.found == "sea"
    window.close()
