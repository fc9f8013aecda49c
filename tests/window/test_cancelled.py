"""What takes long is cancelled in its middle: what was done by then is said, and the book is worked on."""

import errno
import os
import select
import signal
import time
from collections.abc import Callable, Iterator, Sequence
from pathlib import Path
from threading import Event
from types import SimpleNamespace
from typing import Any

import pytest
from PyQt6.QtCore import Qt, QTimer
from PyQt6.QtGui import QKeyEvent
from PyQt6.QtTest import QTest
from PyQt6.QtWidgets import QApplication, QDialog, QLabel, QPushButton, QWidget

from braildesk import Session, requests
from braildesk.desk.drafts import Drafts

from scribe.window import dialogs, typed_on
from scribe.window.desk import Desk
from scribe.words.drafts import Unsent

from conftest import Open, wait
from reader import PATIENCE_SECONDS, Reader

MANY = 300
#: Stands in the place of the program, and waits where it is told.
STAND_IN = Path(__file__).resolve().parents[1] / "desk" / "stand_in.py"
_MOMENT_SECONDS = 0.2
_ASIDE = (
    "What was typed while scribe was busy is set aside: “{}”. Ctrl+B brings it back."
)
# its types are those of an object, of which Qt makes none
_HANDS: Any = QTest

Cancelled = Callable[[str, Callable[[], None]], list[str]]


@pytest.fixture
def cancelled(monkeypatch: pytest.MonkeyPatch) -> Cancelled:
    """Does something, and clicks on Cancel once a line of progress is shown; gives what is reported.

    The work waits after that line until the click came.
    """
    reported: list[str] = []
    long: Callable[..., Any] = dialogs.long
    monkeypatch.setattr(dialogs, "_SHOWN_AFTER_SECONDS", 0)
    monkeypatch.setattr(
        dialogs, "report", lambda _, title, lines: reported.extend(lines)
    )

    def cancelled_at(progress: str, act: Callable[[], None]) -> list[str]:
        clicked = Event()

        def look() -> None:
            over = QApplication.activeModalWidget()
            if not isinstance(over, QDialog) or clicked.is_set():
                return
            parts = [each for each in over.children() if isinstance(each, QWidget)]
            labels = [each.text() for each in parts if isinstance(each, QLabel)]
            if any(progress in label for label in labels):
                (button,) = [each for each in parts if isinstance(each, QPushButton)]
                button.click()
                clicked.set()

        def waiting(
            over: object,
            worker: object,
            title: str,
            work: Callable[..., Any],
            *more: Any,
        ) -> Any:
            def say_and_wait(say: dialogs.Say, line: str) -> None:
                say(line)
                if progress in line:
                    clicked.wait(PATIENCE_SECONDS)

            return long(
                over,
                worker,
                title,
                lambda say, is_stopped: work(
                    lambda line: say_and_wait(say, line), is_stopped
                ),
                *more,
            )

        monkeypatch.setattr(dialogs, "long", waiting)
        timer = QTimer()
        timer.timeout.connect(look)
        timer.start(1)
        act()
        timer.stop()
        assert clicked.is_set()
        return reported

    return cancelled_at


@pytest.fixture
def answered(monkeypatch: pytest.MonkeyPatch) -> list[str]:
    """What is asked, which is answered by Yes."""
    asked: list[str] = []

    def choice(over: object, title: str, said: str, given: Sequence[str]) -> int:
        asked.append(said)
        return 0

    monkeypatch.setattr(dialogs, "choice", choice)
    return asked


def test_an_import_that_is_cancelled_is_gone_on_with(
    desk: Desk, cancelled: Cancelled, tmp_path: Path, answered: list[str]
) -> None:
    # more than is on its way at once
    text, line = tmp_path / "long.txt", "The moon is far away. " * 100
    text.write_text("\n\n".join(f"{n}. {line}" for n in range(1, MANY + 1)))
    said = cancelled("1 of", lambda: desk.window.dropped.emit(text))
    count = len(desk.contents.paragraphs) - 3
    # what was on its way to the program is typed
    assert 0 < count < MANY
    last = (
        f"line {2 * count - 1}, which is the end of paragraph {count + 3} of the book."
    )
    again = "Import it again to have the rest typed too."
    assert said == ["Stopped.", f"{text} is in the book up to {last}", again]
    assert desk.window.message.text == again
    desk.window.dropped.emit(text)
    asked = f"The import of long.txt was cut short: {count} of its {MANY} paragraphs"
    assert [each.startswith(asked) for each in answered] == [True]
    assert len(desk.contents.paragraphs) == MANY + 3
    rest = f"{MANY - count} paragraphs typed, numbers {count + 4} to {MANY + 3}, by the table en."
    assert (said[3:], desk.window.message.text) == ([rest], rest)


def test_an_export_that_is_cancelled_while_the_book_is_copied_writes_nothing(
    desk: Desk,
    cancelled: Cancelled,
    monkeypatch: pytest.MonkeyPatch,
    tmp_path: Path,
) -> None:
    def checked(path: Path, while_waiting: Callable[[], None]) -> None:
        """As the copy of a long book is, which takes a while."""
        end = time.monotonic() + PATIENCE_SECONDS
        while time.monotonic() < end:
            while_waiting()
            time.sleep(0.01)

    monkeypatch.setattr("scribe.words.export.check", checked)
    folder = tmp_path / "pages"
    monkeypatch.setattr(dialogs, "folder", lambda *_: str(folder))
    said = cancelled("Export. Please wait.", lambda: desk.act("export"))
    assert said == ["Stopped. Nothing was exported."]
    assert desk.window.message.text == said[0]
    assert not folder.exists()
    # the book is worked on
    desk.act("strike")
    assert desk.window.message.text == "Kept: paragraph 1 struck."


TABLE = "space \\s 0\nletter a 1\nletter b 12\n"


@pytest.mark.parametrize(
    ("step", "said", "tables"),
    [
        ("is read", "Stopped. The book is as it was.", ("en",)),
        ("into the book", "Stopped. The book is as it was.", ("en",)),
        (
            "is given",
            "Kept: table own. Stopped before paragraph 1 was given it.",
            ("en", "own"),
        ),
    ],
)
def test_a_table_that_is_cancelled_is_not_given_and_what_was_sent_is_said(
    desk: Desk,
    cancelled: Cancelled,
    tmp_path: Path,
    monkeypatch: pytest.MonkeyPatch,
    step: str,
    said: str,
    tables: tuple[str, ...],
) -> None:
    text = tmp_path / "own.utb"
    text.write_text(TABLE)
    monkeypatch.setattr(dialogs, "one_of", lambda *_: "From a file…")
    monkeypatch.setattr(dialogs, "file_to_read", lambda *_: text)
    cancelled(step, lambda: desk.act("table"))
    assert desk.window.message.text == said
    assert desk.contents.tables == tables
    assert desk.chosen.table == "en"
    # the book is worked on, and the table can be given
    desk.act("strike")
    assert desk.window.message.text == "Kept: paragraph 1 struck."


@pytest.fixture
def queue(tmp_path: Path) -> Iterator[Path]:
    """A queue of the file system, at which what waits at the end is let on."""
    path = tmp_path / "queue"
    os.mkfifo(path)
    yield path
    both_ends = os.open(path, os.O_RDWR | os.O_NONBLOCK)
    time.sleep(_MOMENT_SECONDS)
    os.close(both_ends)


def _at_a_table(moon: Path, at: Open, queue: Path) -> tuple[Reader, int]:
    """A window whose program waits before it takes a table, and what has it wait."""
    window = at(
        moon,
        BRAILDESK=str(STAND_IN),
        STAND_IN_FOR=os.environ["BRAILDESK"],
        STAND_IN_AT=f"1 read wait {queue}",
    )
    there = os.open(queue, os.O_RDONLY | os.O_NONBLOCK)
    window.press("Ctrl+l")
    window.part("list", "Table", window.dialog("Table"))
    window.press("Down", "Return")
    return window, there


def _let_on(window: Reader, queue: Path, there: int) -> None:
    """Has the program of a window wait no more, once it waits."""
    came = select.poll()
    came.register(there)
    window.until("the program that was at the queue", lambda: came.poll(0))
    os.close(there)

    def is_let_on() -> bool:
        try:
            os.close(os.open(queue, os.O_WRONLY | os.O_NONBLOCK))
        except OSError as failure:
            # nobody reads there yet
            assert failure.errno == errno.ENXIO
            return False
        return True

    window.until("the program that waits", is_let_on)


def test_a_table_is_cancelled_while_the_book_takes_it(
    moon: Path, at: Open, queue: Path
) -> None:
    window, there = _at_a_table(moon, at, queue)
    top = window.dialog("Table: please wait")
    window.part("label", "The table ueb is put into the book.", top)
    window.click(window.part("push button", "Cancel", top))
    window.part("label", "It ends after this step.", top)
    _let_on(window, queue, there)
    window.no_dialog()
    said = "Kept: table ueb. Stopped before paragraph 1 was given it."
    window.reads("Message", said)
    window.press("Ctrl+q")
    assert window.end() == 0
    with Session(moon) as session:
        assert [each.name for each in session.tables()] == ["en", "ueb"]
        assert {each.table for each in session.paragraphs()} == {"en"}


@pytest.mark.parametrize(
    ("key", "is_ended"),
    [
        (Qt.Key.Key_Return, False),
        (Qt.Key.Key_Enter, False),
        (Qt.Key.Key_Escape, True),
    ],
)
def test_enter_does_not_end_what_takes_long(
    desk: Desk, monkeypatch: pytest.MonkeyPatch, key: Qt.Key, is_ended: bool
) -> None:
    monkeypatch.setattr(dialogs, "_SHOWN_AFTER_SECONDS", 0)
    pressed = Event()

    def press() -> None:
        over = QApplication.activeModalWidget()
        button = over.findChild(QPushButton) if over is not None else None
        if button is not None and not pressed.is_set():
            none = Qt.KeyboardModifier.NoModifier
            event = QKeyEvent(QKeyEvent.Type.KeyPress, key, none)
            QApplication.sendEvent(button, event)
            pressed.set()

    def work(say: dialogs.Say, is_stopped: dialogs.IsStopped) -> bool:
        return pressed.wait(PATIENCE_SECONDS) and is_stopped()

    timer = QTimer()
    timer.timeout.connect(press)
    timer.start(1)
    assert dialogs.long(desk.window, desk.work, "Table", work) is is_ended
    timer.stop()


def test_a_text_that_is_typed_while_something_takes_long_does_not_end_it_and_is_set_aside(
    desk: Desk, monkeypatch: pytest.MonkeyPatch
) -> None:
    monkeypatch.setattr(dialogs, "_SHOWN_AFTER_SECONDS", 0)
    pressed = Event()

    def press() -> None:
        over = QApplication.activeModalWidget()
        button = over.findChild(QPushButton) if over is not None else None
        if button is not None and not pressed.is_set():
            for letter in "It  \brose.\r":
                key = {"\b": Qt.Key.Key_Backspace, "\r": Qt.Key.Key_Return}.get(letter)
                key = key or Qt.Key(ord(letter.upper()))
                none = Qt.KeyboardModifier.NoModifier
                for kind in (QKeyEvent.Type.KeyPress, QKeyEvent.Type.KeyRelease):
                    QApplication.sendEvent(button, QKeyEvent(kind, key, none, letter))
            pressed.set()

    def work(say: dialogs.Say, is_stopped: dialogs.IsStopped) -> bool:
        return pressed.wait(PATIENCE_SECONDS) and is_stopped()

    timer = QTimer()
    timer.timeout.connect(press)
    timer.start(1)
    ended: list[bool] = []
    desk.acting(lambda: ended.append(desk.long("Table", work)))
    timer.stop()
    assert ended == [False]
    said = "What was typed while scribe was busy is set aside: “It rose.”. Ctrl+B brings it back."
    assert desk.window.message.text == said
    assert [each.text for each in desk.unsent.texts()] == ["It rose."]


def _meanwhile(desk: Desk, does: Callable[[QDialog], None]) -> bool:
    """Does something once a dialog says that something takes long; whether that is ended by it."""
    done = Event()

    def look() -> None:
        over = QApplication.activeModalWidget()
        if (
            isinstance(over, QDialog)
            and QApplication.focusWidget()
            and not done.is_set()
        ):
            does(over)
            done.set()

    def work(say: dialogs.Say, is_stopped: dialogs.IsStopped) -> bool:
        return done.wait(PATIENCE_SECONDS) and is_stopped()

    timer, ended = QTimer(), list[bool]()
    timer.timeout.connect(look)
    timer.start(1)
    desk.acting(lambda: ended.append(desk.long("Table", work)))
    timer.stop()
    return ended == [True]


@pytest.mark.parametrize("is_read", [False, True])
@pytest.mark.parametrize("text", [" und hier", "  und hier"])
def test_a_text_that_begins_with_a_blank_does_not_end_what_takes_long(
    desk: Desk, monkeypatch: pytest.MonkeyPatch, text: str, is_read: bool
) -> None:
    clock = [0.0]
    monkeypatch.setattr(typed_on, "time", SimpleNamespace(monotonic=lambda: clock[0]))
    monkeypatch.setattr(typed_on, "_READING_SECONDS", 3600.0)
    monkeypatch.setattr(dialogs, "_SHOWN_AFTER_SECONDS", 0)

    def type_on(over: QDialog) -> None:
        clock[0] = 3600.0 if is_read else 0.0
        for letter in text:
            _HANDS.keyClicks(over.focusWidget() or over, letter)

    assert not _meanwhile(desk, type_on)
    assert desk.window.message.text == _ASIDE.format("und hier")
    assert [each.text for each in desk.unsent.texts()] == ["und hier"]


def test_space_alone_ends_what_takes_long_a_moment_later(
    application: QApplication, desk: Desk, monkeypatch: pytest.MonkeyPatch
) -> None:
    monkeypatch.setattr(typed_on, "_READING_SECONDS", 0.01)
    monkeypatch.setattr(dialogs, "_SHOWN_AFTER_SECONDS", 0)

    def press(over: QDialog) -> None:
        button = over.focusWidget()
        assert isinstance(button, QPushButton)
        time.sleep(0.02)
        _HANDS.keyClick(button, Qt.Key.Key_Space)
        assert button.isEnabled()
        assert wait(application, 60, lambda: not button.isEnabled())

    assert _meanwhile(desk, press)


@pytest.mark.parametrize("text", ["und hier", "x", " so"])
def test_what_is_typed_once_what_takes_long_is_cancelled_is_set_aside(
    desk: Desk, monkeypatch: pytest.MonkeyPatch, text: str
) -> None:
    monkeypatch.setattr(dialogs, "_SHOWN_AFTER_SECONDS", 0)

    def type_on(over: QDialog) -> None:
        _HANDS.keyClick(over.focusWidget(), Qt.Key.Key_Escape)
        for letter in text:
            _HANDS.keyClicks(over.focusWidget() or over, letter)
        _HANDS.keyClick(over.focusWidget() or over, Qt.Key.Key_Return)

    assert _meanwhile(desk, type_on)
    assert desk.window.message.text == _ASIDE.format(text.strip())
    assert [each.text for each in desk.unsent.texts()] == [text.strip()]
    assert Drafts(desk.path).unread() is None


def test_what_is_typed_while_something_takes_long_outlives_a_kill(
    moon: Path, at: Open, queue: Path
) -> None:
    window, there = _at_a_table(moon, at, queue)
    window.dialog("Table: please wait")
    window.type("und hier")

    def is_kept() -> bool:
        found = Drafts(moon).unread()
        return found is not None and found.text_of_all == "und hier"

    window.until("it is kept", is_kept)
    window.kill()
    os.close(there)
    # as the next opening has it
    unsent = Unsent(Drafts(moon))
    unsent.read()
    assert f"{unsent.came_last} Ctrl+B brings it back." == _ASIDE.format("und hier")
    assert [each.text for each in unsent.texts()] == ["und hier"]


def test_a_window_that_is_ended_while_it_works_waits_for_no_step_that_has_no_end(
    moon: Path, at: Open, queue: Path
) -> None:
    window, there = _at_a_table(moon, at, queue)
    window.dialog("Table: please wait")
    window.program.send_signal(signal.SIGTERM)
    shown, said = window.program.communicate(timeout=120)
    os.close(there)
    assert (window.program.returncode, shown) == (3, b"")
    assert said.startswith(b"braildesk didn't answer any more, and was ended.")
    with Session(moon, timeout=60) as session:
        assert {each.table for each in session.paragraphs()} == {"en"}


def test_an_export_that_is_cancelled_says_which_volumes_are_new(
    desk: Desk, cancelled: Cancelled, tmp_path: Path, monkeypatch: pytest.MonkeyPatch
) -> None:
    for number in (2, 3):
        desk.do(requests.Volume(number, True))
    folder = tmp_path / "pages"
    monkeypatch.setattr(dialogs, "folder", lambda *_: str(folder))
    written, ended = cancelled("volume 1", lambda: desk.act("export"))
    assert written.endswith("moon-1.brf: volume 1, 1 page, 9 cells with dots.")
    assert ended == "Stopped. Volume 1 is new. Volumes 2 and 3 were not made."
    assert desk.window.message.text == ended
    assert [each.name for each in folder.iterdir()] == ["moon-1.brf"]
    # the book is open again, and worked on
    desk.act("strike")
    assert desk.window.message.text == "Kept: paragraph 3 struck."
