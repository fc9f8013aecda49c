"""Keys that are pressed while the window waits: each does after it what it is for, and no text is lost."""

import ctypes
import os
import signal
import subprocess
import sys
import time
from collections.abc import Iterator, Sequence
from pathlib import Path
from threading import Event

import pytest
from PyQt6.QtCore import QCoreApplication, QEvent, QMimeData, Qt, QTimer
from PyQt6.QtGui import QDragEnterEvent, QDropEvent, QKeyEvent, QWindow
from PyQt6.QtWidgets import QApplication, QDialog

from braildesk import Session, requests
from braildesk.desk.draft import Draft, Unread
from braildesk.desk.drafts import Drafts
from braildesk.desk.layout import PageSize

from scribe.window.desk import Desk
from scribe.window.held import Held
from scribe.words.console import WAITING

from conftest import Open, prints, wait
from reader import Reader
from test_choosing import asked
from test_kept import session_of

# a screen reader, as it hears of each key before a window does, that has other work at each of them
_LATE = """
import time

import gi

gi.require_version("Atspi", "2.0")
from gi.repository import Atspi


def heard(event, *_):
    time.sleep(0.08)
    return False


parts = Atspi.EventListener.new(lambda event, *_: None)
parts.register("object:state-changed:focused")
keys = Atspi.DeviceListener.new(heard)
how = Atspi.KeyListenerSyncType.SYNCHRONOUS | Atspi.KeyListenerSyncType.CANCONSUME
Atspi.register_keystroke_listener(keys, None, 0, 3, how)
print("listens", flush=True)
Atspi.event_main()
"""
# as fast as letters are typed
_PACE_SECONDS = 0.03
_RETURN, _DOWN, ALT = 0xFF0D, 0xFF54, 0xFFE9


def press_at_once(keys: Sequence[int], held: int | None = None) -> None:
    """Presses keys by the X server itself: those of the bus wait for who listens to keys.

    Another one may be held down before the first of them is pressed, until just before that comes up.
    """
    x, test = ctypes.CDLL("libX11.so.6"), ctypes.CDLL("libXtst.so.6")
    x.XOpenDisplay.restype = ctypes.c_void_p
    display = ctypes.c_void_p(x.XOpenDisplay(None))
    strokes = [(key, is_down) for key in keys for is_down in (True, False)]
    if held is not None:
        strokes = [(held, True), strokes[0], (held, False), *strokes[1:]]
    for key, is_down in strokes:
        code = x.XKeysymToKeycode(display, ctypes.c_ulong(key))
        test.XTestFakeKeyEvent(display, code, is_down, ctypes.c_ulong(0))
        x.XFlush(display)
        if not is_down:
            time.sleep(_PACE_SECONDS)
    x.XCloseDisplay(display)


@pytest.fixture
def late() -> Iterator[None]:
    """A screen reader that answers late."""
    listener = subprocess.Popen([sys.executable, "-c", _LATE], stdout=subprocess.PIPE)
    assert listener.stdout is not None and listener.stdout.readline() == b"listens\n"
    yield
    listener.kill()
    listener.communicate()


def begun(window: Reader) -> int:
    """Types a new paragraph, stops the program, and presses Enter; the number of its process."""
    window.press("Ctrl+Return")
    window.focus("text", "Print")
    window.type("It rose.")
    window.reads("Print", "It rose.")
    program = session_of(window)
    os.kill(program, signal.SIGSTOP)
    window.press("Return")
    window.reads("Message", WAITING)
    return program


def await_kept(window: Reader, book: Path, text: str) -> None:
    """Waits until a text that was typed while the window waited is kept."""

    def is_there() -> bool:
        found = Drafts(book).unread()
        return found is not None and found.text_of_all == text

    window.until(f"“{text}” as what came meanwhile", is_there)


def kill_both(window: Reader, program: int) -> None:
    """Kills a window and a program that was stopped.

    That would go on where the window ends first, and may keep what it was asked.
    """
    window.program.send_signal(signal.SIGSTOP)
    os.waitpid(window.program.pid, os.WUNTRACED)
    os.kill(program, signal.SIGKILL)
    window.program.kill()
    window.program.wait()


def test_what_is_typed_while_the_window_waits_outlives_a_kill(
    moon: Path, at: Open
) -> None:
    window = at(moon)
    program = begun(window)
    window.type("It stok")
    window.press("BackSpace")
    window.type("od.")
    window.press("Return")
    window.type("It set.")
    await_kept(window, moon, "It stood.\nIt set.")
    kill_both(window, program)
    again = at(moon)
    again.dialog(
        "Unsent text",
        "A text of a new paragraph was typed and isn't in the book: “It rose. It stood. It set.”."
        " Shall it be typed further?",
    )
    again.press("Return")
    asked = "What was typed has 3 lines. Are they paragraphs?"
    again.dialog("Typed lines", asked)
    again.press("Return")
    again.no_dialog()
    again.opened()
    again.says("Kept")
    assert prints_after(again, moon)[1:4] == ["It rose.", "It stood.", "It set."]


def prints_after(window: Reader, book: Path) -> list[str]:
    """The prints of a book once its window was closed."""
    window.press("Ctrl+q")
    assert window.end() == 0
    assert Drafts(book).unread() is None
    return prints(book)


def test_keys_that_are_pressed_while_the_window_waits_are_obeyed_once_in_order(
    moon: Path, at: Open
) -> None:
    window = at(moon)
    program = begun(window)
    window.type("It stok")
    window.press("BackSpace")
    window.type("od.")
    window.press("Return")
    window.type("It set. ")
    window.press("Ctrl+Return")
    window.type("It came.")
    await_kept(window, moon, "It stood.\nIt set. It came.")
    window.click_at(window.row(0))
    os.kill(program, signal.SIGCONT)
    window.reads("Print", "The Moon")
    drafts = Drafts(moon)
    window.until("no text to be kept", lambda: drafts.unread() is None)
    assert drafts.given_up() == ()
    wanted = ["It rose.", "It stood.", "It set. ", "It came."]
    assert prints_after(window, moon)[1:5] == wanted


def test_letters_are_held_in_order_where_a_screen_reader_hears_of_them_late(
    late: None, moon: Path, at: Open
) -> None:
    window = asked(at)
    window.press("Return")
    dialog = window.dialog("Open a book")
    window.insert_in(window.first("text", dialog), str(moon))
    window.press("Return")
    window.no_dialog()
    window.opened().press("Ctrl+Return")
    window.focus("text", "Print")
    window.insert("Print", "It rose.")
    window.reads("Print", "It rose.")
    program = session_of(window)
    os.kill(program, signal.SIGSTOP)
    text = "it stood and set"
    press_at_once([_RETURN, *map(ord, text)])
    await_kept(window, moon, text)
    os.kill(program, signal.SIGCONT)
    window.reads("Print", text)


def test_what_is_typed_after_a_paragraph_was_moved_is_typed_in_the_print(
    late: None, moon: Path, at: Open
) -> None:
    window = at(moon)
    window.press("F2")
    window.focus("text", "Print")
    for number, text in enumerate(("at last", " of all"), 1):
        window.press("End")
        before = window.text("Print")
        press_at_once([_DOWN, *map(ord, text)], ALT)
        window.reads("Print", f"{before}{text}")
        window.press("Return")
        window.reads("Message", f"Kept: correction {number} of paragraph 1.")
        window.lists(number, f"1 body: {before}{text}")


@pytest.mark.parametrize("number", [signal.SIGTERM, signal.SIGKILL])
def test_what_is_typed_in_no_text_while_the_window_waits_is_set_aside(
    moon: Path, at: Open, number: signal.Signals
) -> None:
    window = at(moon)
    program = session_of(window)
    os.kill(program, signal.SIGSTOP)
    window.press("Down")
    window.reads("Message", WAITING)
    window.type("oThe sun rose.")
    await_kept(window, moon, "oThe sun rose.")
    if number == signal.SIGTERM:
        window.program.send_signal(number)
        _, said = window.program.communicate(timeout=120)
        assert " ".join(said.decode().split()).endswith(
            " is kept, and can be brought back when the book is next opened."
        )
    else:
        kill_both(window, program)
    again = at(moon)
    again.says("What was typed while scribe was busy is set aside: “oThe sun rose.”.")
    assert [each.text for each in Drafts(moon).given_up()] == ["oThe sun rose."]


def test_what_is_typed_before_a_dialog_opens_is_no_answer_to_it(
    moon: Path, at: Open
) -> None:
    window = at(moon)
    window.press("F2")
    window.focus("text", "Print")
    program = session_of(window)
    os.kill(program, signal.SIGSTOP)
    window.press("Right")
    window.reads("Message", WAITING)
    window.press("Ctrl+m")
    window.type("It set.")
    window.press("Return")
    await_kept(window, moon, "It set.")
    os.kill(program, signal.SIGCONT)
    top = window.dialog("Mark in paragraph 1")
    window.until("a text that is given up", Drafts(moon).given_up)
    assert [each.text for each in Drafts(moon).given_up()] == ["It set."]
    window.type("who?")
    window.until("the note", lambda: window.text_in(window.first("text", top)))
    window.press("Return")
    window.no_dialog()
    window.reads(
        "Message",
        "Kept: mark 2. What was typed while scribe was busy is set aside: “It set.”. Ctrl+B brings"
        " it back.",
    )
    assert prints_after(window, moon)[0] == "The Moon"


@pytest.mark.parametrize("is_before", [False, True])
def test_what_is_pressed_after_the_key_that_closes_does_nothing_and_its_text_is_kept(
    moon: Path, at: Open, is_before: bool
) -> None:
    window = at(moon)
    window.press("F2")
    window.focus("text", "Print")
    window.type("A ")
    window.reads("Print", "A The Moon")
    program = session_of(window)
    os.kill(program, signal.SIGSTOP)
    if is_before:
        window.press("Return")
        window.reads("Message", WAITING)
    window.press("Ctrl+q")
    window.press("Ctrl+d")
    window.type("It set.")
    await_kept(window, moon, "It set.")
    os.kill(program, signal.SIGCONT)
    shown, said = window.program.communicate(timeout=120)
    assert shown.decode() == "moon.braildesk is at version 6.\n"
    assert " ".join(said.decode().split()) == (
        "What was typed last isn't in the book. It is kept, and can be brought back when the book is next"
        " opened."
    )
    with Session(moon) as session:
        first = session.paragraphs()[0]
        assert (session.print_of(1), first.struck) == ("A The Moon", False)
    again = at(moon)
    again.says(
        "What was typed while scribe was busy is set aside: “It set.”. Ctrl+B brings it back."
    )


def test_what_comes_together_with_the_key_that_closes_is_not_obeyed_after_it(
    moon: Path, at: Open
) -> None:
    window = at(moon)
    window.press("F2")
    window.focus("text", "Print")
    window.type("A ")
    window.reads("Print", "A The Moon")
    # as a machine that has much to do hands keys on
    window.program.send_signal(signal.SIGSTOP)
    window.press("Ctrl+q")
    window.press("Ctrl+d")
    window.program.send_signal(signal.SIGCONT)
    shown, _ = window.program.communicate(timeout=120)
    assert shown.decode() == "moon.braildesk is at version 6.\n"
    with Session(moon) as session:
        assert not session.paragraphs()[0].struck


@pytest.mark.parametrize("is_new", [False, True])
def test_what_another_program_types_while_the_window_waits_is_kept_too(
    moon: Path, at: Open, is_new: bool
) -> None:
    window = at(moon)
    window.press("Ctrl+Return" if is_new else "F2")
    window.focus("text", "Print")
    window.insert("Print", "It rose.")
    window.reads("Print", "It rose.")
    program = session_of(window)
    os.kill(program, signal.SIGSTOP)
    window.press("Return")
    window.reads("Message", WAITING)
    window.insert("Print", "It rose. It set.")
    window.reads("Print", "It rose. It set.")
    os.kill(program, signal.SIGCONT)
    window.says("Kept")
    assert "It rose. It set." in prints_after(window, moon)


@pytest.mark.parametrize(
    ("key", "is_killed"), [("Down", False), ("Down", True), ("s", False)]
)
def test_what_another_program_types_while_another_paragraph_is_read_is_given_up(
    moon: Path, at: Open, key: str, is_killed: bool
) -> None:
    window = at(moon)
    program = session_of(window)
    os.kill(program, signal.SIGSTOP)
    window.press(key)
    window.reads("Message", WAITING)
    window.insert("Print", "It rose.")
    window.reads("Print", "It rose.")
    os.kill(program, signal.SIGKILL if is_killed else signal.SIGCONT)
    window.says("shown is set aside: “It rose.”. Ctrl+B brings it back.")
    window.reads("Print", "The Moon" if key == "s" else "The mon is far away.")
    assert [each.text for each in Drafts(moon).given_up()] == ["It rose."]
    assert prints_after(window, moon)[0] == "The Moon"
    assert Drafts(moon).waiting() is None


@pytest.mark.parametrize("is_long", [False, True])
def test_what_another_program_types_below_a_dialog_is_given_up(
    moon: Path, at: Open, is_long: bool
) -> None:
    window, title = at(moon), "Find"
    program = session_of(window)
    if is_long:
        title = "Take back: please wait"
        window.press("Ctrl+t")
        window.says("Kept")
        os.kill(program, signal.SIGSTOP)
    window.press("Ctrl+z" if is_long else "Ctrl+f")
    window.dialog(title)
    window.insert("Print", "It rose.")
    window.reads("Print", "It rose.")
    os.kill(program, signal.SIGCONT)
    if not is_long:
        window.type("sea")
        window.press("Return")
    window.says("below the dialog is set aside: “It rose.”. Ctrl+B brings it back.")
    window.says("Taken back" if is_long else "Paragraph 3, character")
    text = "The Moon" if is_long else "Twice a day the sea comes up."
    window.reads("Print", text)
    assert [each.text for each in Drafts(moon).given_up()] == ["It rose."]
    assert prints_after(window, moon)[0] == "The Moon"
    assert Drafts(moon).waiting() is None


def test_what_another_program_types_where_nothing_can_be_typed_is_given_up(
    moon: Path, at: Open
) -> None:
    window = at(moon)
    window.press("Ctrl+d")
    window.says("Kept")
    window.insert("Print", "It rose.")
    window.reads(
        "Message",
        "Paragraph 1 is struck. Ctrl+D restores it, so that it can be changed. What was typed"
        " there is set aside: “It rose.”. Ctrl+B brings it back.",
    )
    window.reads("Print", "The Moon")
    assert [each.text for each in Drafts(moon).given_up()] == ["It rose."]
    # below a dialog it is said once that is answered
    window.press("Ctrl+f")
    window.dialog("Find")
    window.insert("Print", "It set.")
    window.reads("Print", "The Moon")
    window.type("sea")
    window.press("Return")
    window.says(
        "Paragraph 3, character 17. What was typed there is set aside: “It set.”."
    )


@pytest.mark.parametrize("is_struck", [False, True])
def test_what_another_program_types_while_the_session_ends_is_kept(
    application: QApplication, moon: Path, is_struck: bool
) -> None:
    desk = Desk(moon, None, 0.0, PageSize())
    desk.begin()
    program, field = desk.book.pid, desk.window.print
    if is_struck:
        desk.do(requests.Strike(1))
    os.kill(program, signal.SIGSTOP)

    def insert() -> None:
        field.textCursor().insertText("It rose.")
        # the caret is put elsewhere, too, of which the session isn't asked
        field.put_caret(2)
        os.kill(program, signal.SIGCONT)

    QTimer.singleShot(0, insert)
    desk.close()
    waits, drafts = desk.waits_at_once(), Drafts(moon)
    if is_struck:
        assert [each.text for each in drafts.given_up()] == ["It rose.The Moon"]
        assert (waits, drafts.waiting()) == ("", None)
    else:
        assert waits.startswith("A text that was typed and isn't in the book is kept")
        waiting = drafts.waiting()
        assert waiting is not None and waiting.text == "It rose.The Moon"
    with Session(moon) as session:
        assert session.print_of(1) == "The Moon"


def test_what_is_dropped_while_the_window_waits_stays_where_it_comes_from(
    application: QApplication, desk: Desk
) -> None:
    window, program, data = desk.window, desk.book.pid, QMimeData()
    data.setText("It set.")
    window.show()
    taken: list[bool] = []

    def drop() -> None:
        at = window.print.mapTo(window, window.print.rect().center())
        keys, its = Qt.KeyboardModifier.NoModifier, Qt.MouseButton.LeftButton
        to, action = window.windowHandle(), Qt.DropAction.CopyAction
        enter = QDragEnterEvent(at, action, data, its, keys)
        for event in (enter, QDropEvent(at.toPointF(), action, data, its, keys)):
            QCoreApplication.sendEvent(to, event)
            taken.append(event.isAccepted())
        os.kill(program, signal.SIGCONT)

    drop()
    assert (window.print.text, taken) == ("The MoonIt set.", [True, True])
    os.kill(program, signal.SIGSTOP)
    QTimer.singleShot(0, drop)
    desk.act("keep")
    assert (window.print.text, taken[2:]) == ("The MoonIt set.", [False, False])
    assert desk.contents.version == 6


def test_a_text_that_was_held_waits_before_it_is_held_no_more(
    desk: Desk, monkeypatch: pytest.MonkeyPatch
) -> None:
    done: list[tuple[str, str]] = []

    def keep(draft: Draft | None) -> None:
        done.append(("waits", draft.text if draft is not None else ""))

    def keep_unread(held: Unread | None) -> None:
        done.append(("held", held.text_of_all if held is not None else ""))

    monkeypatch.setattr(desk.unsent, "keep", keep)
    monkeypatch.setattr(desk.unsent, "keep_unread", keep_unread)
    # a disk that takes long
    is_free = Event()
    desk.aside.post(is_free.wait, lambda future: None)
    desk.window.print.textCursor().insertText("It rose. ")
    desk.held.changed.emit()
    desk.window.print.textCursor().insertText("It set. ")
    is_free.set()
    desk.wait_for_draft()
    held_no_more = done.index(("held", ""))
    assert ("waits", "It rose. The Moon") in done[:held_no_more]
    assert done[-1] == ("waits", "It rose. It set. The Moon")


class Pressed(QWindow):
    """A window that waits at each letter, and what is held then."""

    def __init__(self, held: Held) -> None:
        super().__init__()
        self.held = held
        self.obeyed = ""
        self.kept: list[str] = []
        held.changed.connect(lambda: self.kept.append(held.text))

    def press(self, letters: str) -> None:
        """Has letters come, as a screen reader that has heard of them hands them on."""
        held, kind = Qt.KeyboardModifier.NoModifier, QEvent.Type.KeyPress
        for letter in letters:
            event = QKeyEvent(kind, Qt.Key(ord(letter.upper())), held, letter)
            QCoreApplication.sendEvent(self, event)

    def keyPressEvent(self, event: QKeyEvent | None) -> None:
        """Waits, and gets another letter meanwhile."""
        assert event is not None
        self.obeyed += event.text()
        with self.held.holding():
            if self.obeyed == "a":
                self.press("d")


def test_what_is_obeyed_is_kept_no_more_while_the_next_key_waits(
    application: QApplication,
) -> None:
    window = Pressed(Held())
    with window.held.holding():
        window.press("abc")
    # before what is held is obeyed
    window.press("x")
    assert wait(application, 60, lambda: window.obeyed == "abcxd")
    assert window.kept[:4] == ["a", "ab", "abc", "abcx"]
    assert window.kept[4:] == ["bcx", "bcxd", "cxd", "xd", "d", ""]
    window.held.stop()


def test_a_dialog_that_opens_while_something_is_waited_for_can_be_answered(
    application: QApplication,
) -> None:
    window, dialog = Pressed(Held()), QDialog()
    dialog.setModal(True)
    with window.held.holding():
        window.press("c")
        dialog.show()
        window.press("b")
        assert window.obeyed == "b"
        dialog.hide()
    assert wait(application, 60, lambda: window.obeyed == "bc")
    window.held.stop()
