"""What is typed on where the window asks something: it answers nothing, and is set aside."""

import signal
import time
from collections.abc import Callable, Sequence
from pathlib import Path
from threading import Event
from types import SimpleNamespace
from typing import Any

import pytest
from PyQt6.QtCore import QCoreApplication, QEvent, Qt, QTimer
from PyQt6.QtGui import QKeyEvent
from PyQt6.QtTest import QTest
from PyQt6.QtWidgets import (
    QApplication,
    QLabel,
    QLineEdit,
    QListWidget,
    QMainWindow,
    QMessageBox,
    QPlainTextEdit,
    QPushButton,
    QWidget,
)

from braildesk import Style, requests
from braildesk.desk.draft import Aim, Draft
from braildesk.desk.drafts import Drafts
from braildesk.desk.layout import PageSize

from scribe.window import dialogs, typed_on
from scribe.window.desk import Desk
from scribe.window.fields import Read
from scribe.window.files import Files
from scribe.window.held import Held
from scribe.window.worker import Worker

import test_held
from conftest import Open, prints, wait
from reader import Reader
from test_whole import prints_of

_NO_ANSWER = "What is typed here is no answer. Tab goes to one, and Enter gives it."
_ASIDE = "What was typed at the question is set aside: “{}”. Ctrl+B brings it back."
# its types are those of an object, of which Qt makes none
_HANDS: Any = QTest
_RETURN = 0xFF0D
# by then what was pressed has come
_MOMENT_SECONDS = 0.2
# more than a paragraph has room for
_LONG = " ".join(["abcdefghi"] * 520)


def _lines(desk: Desk, path: Path) -> None:
    desk.act("new_after")
    desk.window.print.pasted.emit(["One.", "Two."])


def _long(desk: Desk, path: Path) -> None:
    desk.act("new_after")
    desk.window.print.insertPlainText(_LONG)
    desk.act("keep")


def _not_kept(desk: Desk, path: Path) -> None:
    desk.window.print.insertPlainText("#")
    assert not desk.window.close()


def _change_all(desk: Desk, path: Path) -> None:
    desk.act("change_all")


def _take_back(desk: Desk, path: Path) -> None:
    path.write_text("One.\n\nTwo.\n")
    desk.acting(lambda: Files(desk).imported(path))
    desk.act("take_back")


def _import(desk: Desk, path: Path) -> None:
    path.write_text("One.\n\nTwo.\n")
    desk.window.print.files_pasted.emit([path])


def _part(desk: Desk, path: Path) -> None:
    desk.page_size = PageSize(10, 4)
    for number in (1, 3):
        desk.do(requests.Style(number, Style.HEADING))
    desk.act("part")


def _typed_lines(desk: Desk, path: Path) -> None:
    desk.put_by(Draft(Aim.AFTER, 1, "en", "", "One.\nTwo."))
    desk.act("bring_back")


@pytest.fixture
def others(monkeypatch: pytest.MonkeyPatch) -> None:
    """What is answered where a line is typed or chosen; and reports aren't waited for."""
    words = ["a", "one"], [True, False]
    monkeypatch.setattr(dialogs, "fields", lambda *_: words)
    monkeypatch.setattr(dialogs, "text", lambda *_: "2")
    monkeypatch.setattr(dialogs, "one_of", lambda *its: its[3][0])
    monkeypatch.setattr(dialogs, "report", lambda *_: None)


def _at_question(does: Callable[[QPushButton, QMessageBox], None]) -> list[str]:
    """Does something once a question can be answered, and gives its title then."""
    titles: list[str] = []

    def look() -> None:
        button, box = QApplication.focusWidget(), QApplication.activeModalWidget()
        if not isinstance(box, QMessageBox) or not isinstance(button, QPushButton):
            QTimer.singleShot(10, look)
            return
        titles.append(box.windowTitle())
        does(button, box)

    QTimer.singleShot(0, look)
    return titles


@pytest.mark.parametrize(
    "ask, title, last",
    [
        (_lines, "Pasted lines", "&Neither"),
        (_long, "A long paragraph", "&No"),
        (_not_kept, "Not kept", "&Stay"),
        (_change_all, "Change everywhere", "&Cancel"),
        (_take_back, "Take back", "&No"),
        (_import, "Import", "&No"),
        (_part, "Part into volumes", "&No"),
        (_typed_lines, "Typed lines", "&Give them up"),
    ],
)
@pytest.mark.parametrize("text", ["und hier", "hallo du da", "I say so", "y n c a p"])
def test_a_text_that_is_typed_on_at_a_question_answers_nothing_and_is_set_aside(
    desk: Desk,
    others: None,
    tmp_path: Path,
    ask: Callable[[Desk, Path], None],
    title: str,
    last: str,
    text: str,
) -> None:
    typed, said, focused = list[str](), list[str](), list[str]()

    def type_on(button: QPushButton, box: QMessageBox) -> None:
        for letter in text:
            if box.isVisible():
                _HANDS.keyClicks(box.focusWidget(), letter)
                typed.append(letter)
        if box.isVisible():
            # Enter belongs to the text, and a second one answers what does least
            _HANDS.keyClick(box.focusWidget(), Qt.Key.Key_Return)
            said.append(box.text())
            focused.extend(each.text() for each in box.buttons() if each.hasFocus())
            box.close()

    version = desk.contents.version
    titles = _at_question(type_on)
    ask(desk, tmp_path / "text.txt")
    assert ("".join(typed), titles, focused) == (text, [title], [last])
    assert said[0].endswith(f"\n\n{_NO_ANSWER}")
    assert desk.window.message.text.endswith(_ASIDE.format(text))
    assert text in [each.text for each in Drafts(desk.path).given_up()]
    assert Drafts(desk.path).unread() is None
    if ask not in (_take_back, _part):
        assert desk.asked(desk.book.contents).version == version


def _at_names(does: Callable[[QListWidget], None]) -> None:
    """Does something once one of several names can be chosen."""

    def look() -> None:
        names = QApplication.focusWidget()
        if isinstance(names, QListWidget) and QApplication.activeModalWidget():
            does(names)
        else:
            QTimer.singleShot(10, look)

    QTimer.singleShot(0, look)


@pytest.mark.parametrize("text", ["und hier", "2 go", "It rose"])
def test_a_text_that_is_typed_on_at_the_texts_to_bring_back_chooses_none_of_them(
    desk: Desk, text: str
) -> None:
    seen = list[str]()

    def type_on(names: QListWidget) -> None:
        dialog = names.window()
        for letter in text:
            _HANDS.keyClicks(names, letter)
        # the first one belongs to the text
        for _ in range(2):
            if dialog.isVisible():
                (label,) = dialog.findChildren(QLabel)
                assert isinstance(label, QLabel)
                seen.append(label.text())
                _HANDS.keyClick(dialog.focusWidget(), Qt.Key.Key_Return)

    for line in ("It rose.", "It set."):
        desk.put_by(Draft(Aim.AFTER, 1, "en", "", line))
    _at_names(type_on)
    desk.act("bring_back")
    asked = "Which text shall be typed further?"
    said = "What is typed here is no answer. Tab goes back, and Enter gives what is chosen."
    assert seen == [asked, f"{asked}\n\n{said}"]
    assert desk.window.message.text == _ASIDE.format(text)
    assert not desk.is_typed() and desk.new is None
    given_up = [each.text for each in Drafts(desk.path).given_up()]
    assert given_up == [text, "It set.", "It rose."]
    assert Drafts(desk.path).unread() is None


@pytest.mark.parametrize(
    "keys, name",
    [
        ([Qt.Key.Key_Return], "1. so"),
        ([Qt.Key.Key_Down, Qt.Key.Key_Return], "2. or so"),
        ([Qt.Key.Key_3, Qt.Key.Key_Return], "3. not so"),
        ([Qt.Key.Key_Space, Qt.Key.Key_Return], "1. so"),
        # a key that goes to a name ends the text
        ([Qt.Key.Key_X, Qt.Key.Key_Y, Qt.Key.Key_Down, Qt.Key.Key_Return], "2. or so"),
        ([Qt.Key.Key_Tab, Qt.Key.Key_Tab, Qt.Key.Key_Return], None),
        ([Qt.Key.Key_Down, Qt.Key.Key_Escape], None),
        # a digit that was taken away counts no more
        (
            [Qt.Key.Key_2, Qt.Key.Key_Backspace, Qt.Key.Key_3, Qt.Key.Key_Return],
            "3. not so",
        ),
        # a number that no name has is of a text
        ([*map(Qt.Key, b"1984"), Qt.Key.Key_Return, Qt.Key.Key_Return], None),
    ],
)
def test_of_names_one_is_chosen_by_keys_that_type_nothing_and_by_its_number(
    application: QApplication,
    monkeypatch: pytest.MonkeyPatch,
    keys: list[Qt.Key],
    name: str | None,
) -> None:
    monkeypatch.setattr(typed_on, "_READING_SECONDS", 0.0)
    over = QWidget()

    def press(names: QListWidget) -> None:
        dialog = names.window()
        for key in keys:
            _HANDS.keyClick(dialog.focusWidget(), key)
        assert not dialog.isVisible()

    _at_names(press)
    names = ["1. so", "2. or so", "3. not so"]
    with typed_on.taking_at_names(lambda text: None):
        assert dialogs.one_of(over, "Bring back", "Which?", names, 0) == name


@pytest.mark.parametrize(
    "keys, answer",
    [
        (" ", 0),
        ("\r", 0),
        ("\t ", 1),
        ("\t\t\r", 2),
        # that is no text any more
        ("x\b ", 0),
        ("xy\t ", 1),
        # a letter alone is no answer either, and the Enter after it only says so
        ("p\r\r", 2),
        ("xy\r\r", 2),
        # also where another answer was gone to between two texts
        ("xy\r\tab\r\r", 2),
        ("x y\r ", None),
    ],
)
def test_space_and_enter_alone_press_the_button_that_has_the_focus(
    application: QApplication,
    monkeypatch: pytest.MonkeyPatch,
    keys: str,
    answer: int | None,
) -> None:
    monkeypatch.setattr(typed_on, "_READING_SECONDS", 0.0)
    over, left = QWidget(), list[str]()

    def press(button: QPushButton, box: QMessageBox) -> None:
        its = {
            "\r": Qt.Key.Key_Return,
            "\t": Qt.Key.Key_Tab,
            "\b": Qt.Key.Key_Backspace,
        }
        for nth, key in enumerate(keys):
            if not box.isVisible():
                left.append(keys[nth:])
                return
            _HANDS.keyClick(box.focusWidget(), its.get(key, key))
        if box.isVisible():
            left.append("open")
            box.close()

    _at_question(press)
    answers = ("&Paragraphs", "&One", "&Neither")
    given = dialogs.ask(over, "Lines", "What are they?", answers, lambda text: None)
    assert (given, left) == ((2, ["open"]) if answer is None else (answer, []))


def test_a_space_that_comes_before_a_question_could_be_read_begins_a_text(
    application: QApplication, monkeypatch: pytest.MonkeyPatch
) -> None:
    monkeypatch.setattr(typed_on, "_READING_SECONDS", 3600.0)
    over, typed = QWidget(), list[str]()

    def press(button: QPushButton, box: QMessageBox) -> None:
        _HANDS.keyClicks(box.focusWidget(), " ")
        if box.isVisible():
            _HANDS.keyClicks(box.focusWidget(), "und hier")
            box.close()

    _at_question(press)
    answers = ("Change &all", "Ask at each &place", "&Cancel")
    assert dialogs.ask(over, "Change", "So?", answers, typed.append) == 2
    assert typed[-1] == "und hier"


@pytest.mark.parametrize("keys", [(), (Qt.Key.Key_Down, Qt.Key.Key_F2)])
@pytest.mark.parametrize("text", [" ma no", "  ma no", " Ma no"])
def test_a_text_that_begins_with_a_blank_presses_no_button_and_is_set_aside(
    application: QApplication,
    monkeypatch: pytest.MonkeyPatch,
    text: str,
    keys: Sequence[Qt.Key],
) -> None:
    clock = [0.0]
    monkeypatch.setattr(typed_on, "time", SimpleNamespace(monotonic=lambda: clock[0]))
    monkeypatch.setattr(typed_on, "_READING_SECONDS", 3600.0)
    over, typed, focused = QWidget(), list[str](), list[str]()

    def type_on(button: QPushButton, box: QMessageBox) -> None:
        clock[0] = 3600.0
        for key in keys:
            _HANDS.keyClick(box.focusWidget(), key)
        for letter in text:
            if box.isVisible():
                _HANDS.keyClicks(box.focusWidget(), letter)
        if box.isVisible():
            _HANDS.keyClick(box.focusWidget(), Qt.Key.Key_Return)
            focused.extend(each.text() for each in box.buttons() if each.hasFocus())
            box.close()

    _at_question(type_on)
    answers = ("Change &all", "Ask at each &place", "&Cancel")
    assert dialogs.ask(over, "Change", "So?", answers, typed.append) == 2
    assert (typed[-1:], focused) == ([text.strip()], ["&Cancel"])


@pytest.mark.parametrize("keys", [[], [Qt.Key.Key_Control], [Qt.Key.Key_Space]])
def test_a_space_after_which_no_letter_comes_presses_the_button_a_moment_later(
    application: QApplication,
    monkeypatch: pytest.MonkeyPatch,
    keys: list[Qt.Key],
) -> None:
    clock = [0.0]
    monkeypatch.setattr(typed_on, "time", SimpleNamespace(monotonic=lambda: clock[0]))
    monkeypatch.setattr(typed_on, "_READING_SECONDS", 0.01)
    over, seen = QWidget(), list[bool]()

    def press(button: QPushButton, box: QMessageBox) -> None:
        clock[0] = 1.0
        for key in (Qt.Key.Key_Space, *keys):
            _HANDS.keyClick(button, key)
        seen.append(box.isVisible())

    _at_question(press)
    answers = ("Change &all", "Ask at each &place", "&Cancel")
    given = dialogs.ask(over, "Change", "So?", answers, lambda text: None)
    assert (given, seen) == (0, [True])


def test_a_space_that_is_held_down_is_not_repeated_below_the_question(
    application: QApplication, monkeypatch: pytest.MonkeyPatch
) -> None:
    clock = [0.0]
    monkeypatch.setattr(typed_on, "time", SimpleNamespace(monotonic=lambda: clock[0]))
    monkeypatch.setattr(typed_on, "_READING_SECONDS", 0.001)
    over, seen = QWidget(), list[bool]()
    kinds = QEvent.Type

    def key(kind: QEvent.Type, is_repeated: bool) -> QKeyEvent:
        its = Qt.Key.Key_Space, Qt.KeyboardModifier.NoModifier
        return QKeyEvent(kind, *its, " ", is_repeated)

    def press(button: QPushButton, box: QMessageBox) -> None:
        clock[0] = 1.0
        QApplication.sendEvent(button, key(kinds.KeyPress, False))
        # Qt doesn't say of each one that it is repeated
        for is_repeated in (True, False, True):
            _HANDS.qWait(10)
            for kind in (kinds.KeyRelease, kinds.KeyPress):
                QApplication.sendEvent(button, key(kind, is_repeated))
            _HANDS.qWait(100)
            seen.append(box.isVisible())
        QApplication.sendEvent(button, key(kinds.KeyRelease, False))
        QTimer.singleShot(2_000, box.reject)

    _at_question(press)
    answers = ("Change &all", "Ask at each &place", "&Cancel")
    given = dialogs.ask(over, "Change", "So?", answers, lambda text: None)
    assert (given, seen) == (0, [True, True, True])


@pytest.mark.parametrize(
    "key, answer",
    [(Qt.Key.Key_Tab, 2), (Qt.Key.Key_Return, 0), (Qt.Key.Key_Backspace, 2)],
)
def test_a_space_is_held_no_longer_once_another_key_is_pressed(
    application: QApplication,
    monkeypatch: pytest.MonkeyPatch,
    key: Qt.Key,
    answer: int,
) -> None:
    clock = [0.0]
    monkeypatch.setattr(typed_on, "time", SimpleNamespace(monotonic=lambda: clock[0]))
    monkeypatch.setattr(typed_on, "_READING_SECONDS", 0.001)
    over = QWidget()

    def press(button: QPushButton, box: QMessageBox) -> None:
        clock[0] = 1.0
        for each in (Qt.Key.Key_Space, key):
            _HANDS.keyClick(button, each)
        QTimer.singleShot(30, box.reject)

    _at_question(press)
    answers = ("Change &all", "Ask at each &place", "&Cancel")
    assert dialogs.ask(over, "Change", "So?", answers, lambda text: None) == answer


class _Again(QKeyEvent):
    """Enter while it is held down, at a time. Qt doesn't tell each time that it is repeated."""

    def __init__(self, kind: QEvent.Type, time: int, is_told: bool) -> None:
        none = Qt.KeyboardModifier.NoModifier
        super().__init__(kind, Qt.Key.Key_Return, none, "\r", is_told)
        self._time = time

    def timestamp(self) -> int:
        """When the X server had it come up, and go down."""
        return self._time


def _hold_enter(dialog: QWidget) -> bool:
    """Holds Enter down at a dialog; whether that is there still."""
    for time_of, is_told in ((1_000, True), (1_040, False), (1_080, True)):
        for kind in (QEvent.Type.KeyRelease, QEvent.Type.KeyPress):
            focused = dialog.focusWidget()
            if dialog.isVisible() and focused is not None:
                QApplication.sendEvent(focused, _Again(kind, time_of, is_told))
    return dialog.isVisible()


def test_an_enter_that_is_held_down_changes_no_place_that_is_asked_about_after_it(
    desk: Desk, others: None, monkeypatch: pytest.MonkeyPatch
) -> None:
    words = ["The", "That"], [True, False]
    monkeypatch.setattr(dialogs, "fields", lambda *_: words)
    stays = list[bool]()

    def close(button: QPushButton, box: QMessageBox) -> None:
        box.close()

    def at_a_place(button: QPushButton, box: QMessageBox) -> None:
        stays.append(_hold_enter(box))
        if stays == [True]:
            _at_question(at_a_place)
            _HANDS.keyClick(box.focusWidget(), Qt.Key.Key_Return)
        elif stays[-1]:
            box.close()
        else:
            _at_question(close)

    def at_all(button: QPushButton, box: QMessageBox) -> None:
        _at_question(at_a_place)
        for key in (Qt.Key.Key_Tab, Qt.Key.Key_Return):
            _HANDS.keyClick(box.focusWidget(), key)

    _at_question(at_all)
    desk.act("change_all")
    assert stays == [True, True]
    assert prints_of(desk)[:2] == ["That Moon", "The mon is far away."]


@pytest.mark.parametrize("is_line", [False, True])
def test_an_enter_that_is_held_down_gives_no_answer_to_a_dialog_that_it_opened(
    application: QApplication, is_line: bool
) -> None:
    over, held, stays = QWidget(), Held(), list[bool]()

    def at_next() -> None:
        dialog = application.activeModalWidget()
        if dialog is None or dialog.focusWidget() is None:
            QTimer.singleShot(10, at_next)
            return
        stays.append(_hold_enter(dialog))
        if stays[0]:
            _HANDS.keyClick(dialog.focusWidget(), Qt.Key.Key_Return)

    def at_first(button: QPushButton, box: QMessageBox) -> None:
        _HANDS.keyClick(button, Qt.Key.Key_Return)
        QTimer.singleShot(0, at_next)

    _at_question(at_first)
    answers = ("&Yes", "&No")
    assert dialogs.choice(over, "Change", "So?", answers) == 0
    if is_line:
        assert dialogs.text(over, "Change", "By what?", "sea") == "sea"
    else:
        assert dialogs.choice(over, "Change", "All?", answers) == 0
    held.stop()
    assert stays == [True]


@pytest.mark.parametrize("text", ["een zin", "hallo", "ueb is it", "the road to\nue"])
def test_a_text_that_is_typed_on_at_the_tables_chooses_none_of_them(
    desk: Desk, monkeypatch: pytest.MonkeyPatch, text: str
) -> None:
    monkeypatch.setattr(typed_on, "_SEARCH_SECONDS", 0.2)
    parts = text.split("\n")
    text = "".join(parts)

    def type_on(names: QListWidget) -> None:
        dialog = names.window()
        for part in parts:
            _HANDS.keyClicks(names, part)
            # by which another search begins
            time.sleep(0.3 * (len(parts) - 1))
        for _ in range(2):
            _HANDS.keyClick(dialog.focusWidget(), Qt.Key.Key_Return)
        assert not dialog.isVisible()

    version = desk.contents.version
    _at_names(type_on)
    desk.act("table")
    assert desk.window.message.text == _ASIDE.format(text)
    assert desk.asked(desk.book.contents).version == version
    assert [each.text for each in Drafts(desk.path).given_up()] == [text]


@pytest.mark.parametrize("letters", ["ue", "uu", "uex\b", "q u", "q\t", "xq\b\b u"])
def test_a_table_is_looked_for_by_its_first_letters(
    desk: Desk, monkeypatch: pytest.MonkeyPatch, letters: str
) -> None:
    monkeypatch.setattr(typed_on, "_SEARCH_SECONDS", 0.2)
    monkeypatch.setattr("scribe.window.structure.table_names", lambda: ["ueb"])

    def look(names: QListWidget) -> None:
        for letter in letters:
            if letter == " ":
                # by which another search begins, for Qt too
                time.sleep(2 * QApplication.keyboardInputInterval() / 1000)
            elif letter == "\b":
                _HANDS.keyClick(names, Qt.Key.Key_Backspace)
            elif letter == "\t":
                _HANDS.keyClick(names, Qt.Key.Key_End)
                _HANDS.keyClick(names, Qt.Key.Key_Up)
            else:
                _HANDS.keyClicks(names, letter)
        _HANDS.keyClick(names, Qt.Key.Key_Return)
        assert not names.window().isVisible()

    _at_names(look)
    desk.act("table")
    assert desk.contents.paragraphs[0].table == "ueb"
    assert Drafts(desk.path).given_up() == ()


@pytest.mark.parametrize(
    "letters, name",
    [
        ("u", "ueb"),
        ("uu", "unb"),
        ("uuu", "ueb"),
        ("un", "unb"),
        # what was taken away counts no more
        ("ux\bn", "unb"),
        ("uu\b", "unb"),
        # also after so long that the list of Qt would begin anew
        ("u n", "unb"),
        # a number that no name has is of a text
        ("12\r", None),
    ],
)
def test_the_table_is_chosen_that_begins_with_the_letters_that_are_typed_by_now(
    application: QApplication,
    monkeypatch: pytest.MonkeyPatch,
    letters: str,
    name: str | None,
) -> None:
    monkeypatch.setattr(typed_on, "_SEARCH_SECONDS", 60.0)
    names, over, its = ["en", "nl", "ueb", "unb"], QWidget(), list[str]()

    def look(found: QListWidget) -> None:
        for letter in letters:
            if letter == " ":
                time.sleep(1.25 * QApplication.keyboardInputInterval() / 1000)
            elif letter in "\b\r":
                key = Qt.Key.Key_Return if letter == "\r" else Qt.Key.Key_Backspace
                _HANDS.keyClick(found, key)
            else:
                _HANDS.keyClicks(found, letter)
        dialog = found.window()
        _HANDS.keyClick(dialog.focusWidget(), Qt.Key.Key_Return)
        assert not dialog.isVisible()

    _at_names(look)
    with typed_on.taking_at_search(its.append, names):
        assert dialogs.one_of(over, "Table", "Which?", names, 0) == name
    assert its[-1:] == ([""] if name else ["12"])


def test_a_window_that_is_ended_waits_for_no_hands(application: QApplication) -> None:
    over, held = QMainWindow(), Held()
    over.show()
    assert wait(application, 60, lambda: over.windowHandle() is not None)
    key = QKeyEvent(QEvent.Type.KeyPress, Qt.Key.Key_A, Qt.KeyboardModifier(0), "a")
    QCoreApplication.sendEvent(over.windowHandle(), key)
    assert held.is_typed_on
    held.hurry()
    assert not held.is_typed_on
    held.stop()


def test_no_dialog_opens_by_itself_while_hands_type(
    application: QApplication, monkeypatch: pytest.MonkeyPatch
) -> None:
    monkeypatch.setattr(dialogs, "_SHOWN_AFTER_SECONDS", 0)
    over, field, held = QMainWindow(), QLineEdit(), Held()
    over.setCentralWidget(field)
    over.show()
    assert wait(application, 60, lambda: over.windowHandle() is not None)
    seen, is_seen, none = list[QWidget | None](), Event(), Qt.KeyboardModifier(0)

    def look() -> None:
        if QApplication.activeModalWidget() is None:
            QTimer.singleShot(10, look)
        else:
            is_seen.set()

    def type_on() -> None:
        seen.append(QApplication.activeModalWidget())
        key = QKeyEvent(QEvent.Type.KeyPress, Qt.Key.Key_A, none, "a")
        QCoreApplication.sendEvent(over.windowHandle(), key)
        QTimer.singleShot(20, type_on if len(seen) < 8 else look)

    type_on()
    worker = Worker(held)
    assert dialogs.long(over, worker, "Import", lambda say, is_stopped: is_seen.wait())
    assert seen == [None] * 8
    worker.stop()
    held.stop()


def test_no_dialog_closes_by_itself_while_hands_type(
    application: QApplication, monkeypatch: pytest.MonkeyPatch
) -> None:
    monkeypatch.setattr(dialogs, "_SHOWN_AFTER_SECONDS", 0)
    over, held, is_done = QMainWindow(), Held(), Event()
    over.show()
    typed, none = list[str](), Qt.KeyboardModifier(0)

    def type_on() -> None:
        dialog = QApplication.activeModalWidget()
        if dialog is not None and dialog.isVisible() and len(typed) < 16:
            key = QKeyEvent(QEvent.Type.KeyPress, Qt.Key.Key_A, none, "a")
            QCoreApplication.sendEvent(dialog.windowHandle(), key)
            is_done.set()
        QTimer.singleShot(20, type_on)

    QTimer.singleShot(0, type_on)
    worker = Worker(held)
    work = lambda say, is_stopped: is_done.wait()
    assert dialogs.long(over, worker, "Import", work, typed.append)
    assert typed[-1] == "a" * 16
    worker.stop()
    held.stop()


def _at_report(does: Callable[[QWidget, QWidget], None]) -> None:
    """Does something once a report can be read."""

    def look() -> None:
        lines, dialog = QApplication.focusWidget(), QApplication.activeModalWidget()
        # on a busy machine it is said before how far the work came
        if isinstance(lines, Read) and dialog is not None and lines.window() is dialog:
            does(lines, dialog)
        else:
            QTimer.singleShot(10, look)

    QTimer.singleShot(0, look)


@pytest.mark.parametrize("text", ["und hier", "It rose"])
def test_a_text_that_is_typed_on_at_a_report_is_set_aside(
    desk: Desk, tmp_path: Path, text: str
) -> None:
    (path := tmp_path / "text.txt").write_text("The sun\n\nThe sea\n")
    seen = list[str]()

    def type_on(lines: QWidget, dialog: QWidget) -> None:
        for letter in text:
            _HANDS.keyClicks(dialog.focusWidget(), letter)
        # the first one belongs to the text
        _HANDS.keyClick(dialog.focusWidget(), Qt.Key.Key_Return)
        last = dialog.focusWidget()
        assert dialog.isVisible() and isinstance(last, QPushButton)
        seen.extend((last.text(), last.accessibleDescription()))
        _HANDS.keyClick(last, Qt.Key.Key_Return)
        assert not dialog.isVisible()

    _at_report(type_on)
    desk.acting(lambda: Files(desk).imported(path))
    assert seen == ["Close", "What is typed here is set aside. Enter closes this."]
    assert desk.window.message.text == (
        "2 paragraphs typed, numbers 4 to 5, by the table en. What was typed where lines were read is"
        f" set aside: “{text}”. Ctrl+B brings it back."
    )
    assert [each.text for each in Drafts(desk.path).given_up()] == [text]
    assert Drafts(desk.path).unread() is None


@pytest.mark.parametrize(
    "keys",
    [
        [Qt.Key.Key_Down, Qt.Key.Key_Return],
        [Qt.Key.Key_X, Qt.Key.Key_Escape],
        [Qt.Key.Key_X, Qt.Key.Key_Return],
        [Qt.Key.Key_X, Qt.Key.Key_Down, Qt.Key.Key_Return],
    ],
)
def test_a_report_is_read_and_closed_by_keys_that_type_nothing(
    desk: Desk, keys: list[Qt.Key]
) -> None:
    blocks = list[int]()

    def read(lines: QWidget, dialog: QWidget) -> None:
        assert isinstance(lines, QPlainTextEdit)
        for key in keys:
            _HANDS.keyClick(dialog.focusWidget(), key)
            blocks.append(lines.textCursor().blockNumber())
        assert not dialog.isVisible()

    _at_report(read)
    desk.acting(lambda: desk.report("Export", ["One.", "Two."]))
    assert blocks[-1] == (Qt.Key.Key_Down in keys)
    assert desk.window.message.text == ""
    assert Drafts(desk.path).given_up() == ()


@pytest.mark.parametrize("text", ["und hier", "hallo du da", "x"])
def test_what_is_typed_before_a_question_is_there_answers_nothing_and_is_set_aside(
    application: QApplication, monkeypatch: pytest.MonkeyPatch, text: str
) -> None:
    monkeypatch.setattr(test_held, "_PACE_SECONDS", 0.0)
    over, field, held = QMainWindow(), QLineEdit(), Held()
    over.setCentralWidget(field)
    over.show()
    over.activateWindow()
    assert wait(application, 60, field.hasFocus)
    typed, kept = list[str](), list[str]()

    def answer(button: QPushButton, box: QMessageBox) -> None:
        kept.extend(typed[-1:])
        # as the question stands once something was typed before it
        assert wait(application, 60, lambda: box.text().endswith(_NO_ANSWER))
        _HANDS.keyClick(box.focusWidget(), Qt.Key.Key_Return)

    test_held.press_at_once([*map(ord, text), _RETURN])
    time.sleep(_MOMENT_SECONDS)
    _at_question(answer)
    its = over, "Lines", "What are they?", ("&Paragraphs", "&One", "&Neither")
    assert dialogs.ask(*its, typed.append, held.holding) == 2
    held.stop()
    assert kept == [text if len(text) > 1 else ""]
    assert field.text() == ""


@pytest.mark.parametrize(
    "keys, name, aside",
    [
        ("2", "2. or so", ""),
        ("un", "unb", ""),
        ("1984", "1. so", "1984"),
        ("und hier", "unb", "und hier"),
    ],
)
def test_what_is_typed_before_names_are_there_goes_to_a_name_or_is_set_aside(
    application: QApplication,
    monkeypatch: pytest.MonkeyPatch,
    keys: str,
    name: str,
    aside: str,
) -> None:
    monkeypatch.setattr(test_held, "_PACE_SECONDS", 0.0)
    over, field, held = QMainWindow(), QLineEdit(), Held()
    over.setCentralWidget(field)
    over.show()
    over.activateWindow()
    assert wait(application, 60, field.hasFocus)
    typed, is_search = list[str](), name == "unb"
    names = ["en", "ueb", "unb", "x"] if is_search else ["1. so", "2. or so", "3. so"]

    def answer(found: QListWidget) -> None:
        for key in (Qt.Key.Key_Down, Qt.Key.Key_Up, Qt.Key.Key_Return):
            _HANDS.keyClick(found, key)

    test_held.press_at_once([*map(ord, keys)])
    time.sleep(_MOMENT_SECONDS)
    _at_names(answer)
    if is_search:
        taking = typed_on.taking_at_search(typed.append, names, held.holding)
    else:
        taking = typed_on.taking_at_names(typed.append, held.holding)
    with taking:
        found = dialogs.one_of(over, "Names", "Which?", names, 0)
    held.stop()
    assert (found, typed[-1:], field.text()) == (name, [aside], "")


def _of_lines(window: Reader) -> None:
    # the lines of a report are copied, and pasted into a new paragraph
    window.press("F1")
    window.dialog("Keys")
    window.press("Ctrl+a", "Ctrl+c", "Escape")
    window.no_dialog()
    window.press("Ctrl+Return")
    window.focus("text", "Print")
    window.press("Ctrl+v")


def _of_length(window: Reader) -> None:
    window.press("Ctrl+Return")
    window.focus("text", "Print")
    window.insert("Print", _LONG)
    window.reads("Print", _LONG)
    window.press("Return")


def _of_closing(window: Reader) -> None:
    window.press("F2")
    window.focus("text", "Print")
    window.type("#")
    window.reads("Print", "#The Moon")
    window.press("Ctrl+q")


@pytest.mark.parametrize(
    "ask, title, text",
    [
        (_of_lines, "Pasted lines", "und hier"),
        (_of_lines, "Pasted lines", "hallo du da"),
        (_of_length, "A long paragraph", "abcde fghij"),
        (_of_closing, "Not kept", "weiter so"),
    ],
)
def test_what_hands_type_on_at_a_question_of_a_window_is_brought_back(
    moon: Path, at: Open, ask: Callable[[Reader], None], title: str, text: str
) -> None:
    window = at(moon)
    ask(window)
    window.dialog(title)
    window.type(text)
    window.press("Return", "Return")
    window.no_dialog()
    window.says(_ASIDE.format(text))
    assert text in [each.text for each in Drafts(moon).given_up()]
    window.kill()
    assert len(prints(moon)) == 3


def test_what_hands_type_before_a_question_of_a_window_is_there_is_brought_back(
    moon: Path, at: Open
) -> None:
    window = at(moon)
    window.press("Ctrl+Return")
    window.focus("text", "Print")
    window.insert("Print", _LONG)
    window.reads("Print", _LONG)
    # as a machine that has much to do hands keys on
    window.program.send_signal(signal.SIGSTOP)
    window.press("Return")
    window.type("abcde fghij")
    window.press("Return")
    window.program.send_signal(signal.SIGCONT)
    window.dialog("A long paragraph")
    window.press("Return")
    window.no_dialog()
    window.says(_ASIDE.format("abcde fghij"))
    window.reads("Print", _LONG)


def test_what_is_typed_on_at_a_question_is_kept_also_where_the_program_is_killed(
    moon: Path, at: Open
) -> None:
    window = at(moon)
    _of_length(window)
    window.dialog("A long paragraph")
    window.type("abcde fghij")

    def is_kept() -> bool:
        found = Drafts(moon).unread()
        return found is not None and found.text_of_all == "abcde fghij"

    window.until("it is kept", is_kept)
    window.kill()
    window = at(moon, is_waited_for=False)
    window.dialog("Unsent text")
    window.press("Escape")
    window.no_dialog()
    window.opened()
    window.says(
        "What was typed where no text was asked for is set aside: “abcde fghij”. Ctrl+B brings it back."
    )
    waiting = Drafts(moon).waiting()
    assert waiting is not None and waiting.text == _LONG


@pytest.mark.parametrize(
    "answer",
    [
        lambda window, box: window.press("Alt+n"),
        lambda window, box: window.press("Tab", " "),
        lambda window, box: window.press("Escape"),
        lambda window, box: window.click(window.part("push button", "No", box)),
    ],
)
def test_a_question_of_a_window_is_answered_by_what_types_nothing(
    moon: Path, at: Open, answer: Callable[[Reader, object], None]
) -> None:
    window = at(moon)
    _of_length(window)
    answer(window, window.dialog("A long paragraph"))
    window.no_dialog()
    window.reads("Message", "It stays as it is typed. Enter asks again.")
    assert not Drafts(moon).given_up()
