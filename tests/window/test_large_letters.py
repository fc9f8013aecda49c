"""The window and its dialogs where letters are large and the screen is low: all of it can be reached."""

from collections.abc import Callable, Iterator
from pathlib import Path
from threading import Event
from types import SimpleNamespace
from typing import Any, cast

import pytest
from PyQt6.QtCore import QEventLoop, QPoint, QSize, Qt, QTimer
from PyQt6.QtTest import QTest
from PyQt6.QtWidgets import (
    QAbstractScrollArea,
    QApplication,
    QLabel,
    QPushButton,
    QWidget,
)

from braildesk import Paragraph, Style

from scribe.window import dialogs, fitted
from scribe.window.fields import Field
from scribe.window.menus import MENUS
from scribe.window.paragraphs import WORDS
from scribe.window.window import Window
from scribe.window.held import Held
from scribe.window.worker import Worker

from conftest import wait
from reader import PATIENCE_SECONDS

LOW = QSize(640, 480)
# the words of a paragraph, as a question quotes them
QUOTED = "“Der Begriff „freie Software“ bezieht sich…”"

Ask = Callable[[QWidget], object]


@pytest.fixture
def large(application: QApplication) -> Iterator[None]:
    """Letters that a person with low sight chose for the whole desktop."""
    before = application.font()
    its = application.font()
    its.setPointSizeF(32)
    application.setFont(its)
    yield
    application.setFont(before)


@pytest.fixture
def window(large: None) -> Iterator[Window]:
    """A window without a book."""
    found = _window()
    yield found
    found.close()


def _window() -> Window:
    names = (each.name for items in MENUS.values() for each in items if each)
    acts = {name: lambda: None for name in names}
    found = Window("moon.braildesk", lambda numbers: None, acts, lambda: True)
    found.model.show((Paragraph(1, "en", Style.BODY, False, False, 8),))
    return found


def test_a_new_window_is_no_larger_than_the_screen(
    application: QApplication, monkeypatch: pytest.MonkeyPatch
) -> None:
    screen = SimpleNamespace(availableSize=lambda: LOW)
    monkeypatch.setattr(Window, "screen", lambda window: screen)
    window = _window()
    assert window.size() == LOW
    window.close()


def test_a_low_window_shows_the_message_and_the_part_with_the_focus(
    application: QApplication, window: Window
) -> None:
    window.enlarge(9)
    window.show()
    window.resize(LOW)
    window.activateWindow()
    assert (
        wait(application, PATIENCE_SECONDS, window.isActiveWindow)
        and window.size() == LOW
    )
    assert _is_seen(window.message, window.message.contentsRect().center())
    window.cells.show_text("⠠⠍⠕⠕⠝")
    window.cells.setFocus()
    assert _is_seen(window.cells, window.cells.cursorRect().center())
    window.table.setFocus()
    row = window.table.visualRect(window.model.index(0, 0))
    assert _is_seen(window.table, row.center())


@pytest.mark.parametrize("part", ["print", "cells"])
@pytest.mark.parametrize("is_large", [False, True])
def test_the_caret_stays_in_sight_while_the_page_is_shown_beside_it_and_hidden(
    application: QApplication,
    request: pytest.FixtureRequest,
    part: str,
    is_large: bool,
) -> None:
    if is_large:
        request.getfixturevalue("large")
    window = _window()
    window.enlarge(9 if is_large else 0)
    window.show()
    window.resize(LOW)
    window.activateWindow()
    assert wait(application, PATIENCE_SECONDS, window.isActiveWindow)
    field: Field = getattr(window, part)
    field.show_text("moon and sea " * 200)
    field.setFocus()
    for place in (0, 600, 1_200, 2_600):
        field.put_caret(place)
        assert _is_seen(field, field.cursorRect().center())
        for is_shown in (True, False):
            width = field.width()
            window.dock.setVisible(is_shown)
            moved = lambda: field.width() != width
            assert wait(application, PATIENCE_SECONDS, moved)
            application.processEvents()
            assert _is_seen(field, field.cursorRect().center())
    window.close()


def test_a_click_into_a_text_comes_where_that_is_seen(
    application: QApplication,
) -> None:
    window, hands = _window(), cast(Any, QTest)
    window.show()
    window.activateWindow()
    assert wait(application, PATIENCE_SECONDS, window.isActiveWindow)
    field, scrolled = window.print, window.print.verticalScrollBar()
    area = field.viewport()
    assert scrolled is not None and area is not None
    field.show_text("moon and sea " * 200)
    scrolled.setValue(scrolled.maximum())
    there = area.rect().center()
    place = field.cursorForPosition(there).position()
    assert place > 0 and not field.hasFocus()
    hands.mouseClick(area, Qt.MouseButton.LeftButton, pos=there)
    assert (field.hasFocus(), field.textCursor().position()) == (True, place)
    window.close()


def _is_seen(part: QAbstractScrollArea, at: QPoint) -> bool:
    viewport = part.viewport()
    return viewport is not None and viewport.visibleRegion().contains(at)


def test_the_names_of_the_columns_are_whole(window: Window) -> None:
    header = window.table.horizontalHeader()
    assert header is not None
    for column in range(WORDS):
        assert header.sectionSize(column) >= header.sectionSizeHint(column)


def _progress(over: QWidget) -> None:
    held, ended = Held(), Event()
    worker = Worker(held)

    def act(say: dialogs.Say, is_stopped: dialogs.IsStopped) -> None:
        say(f"1,000 of 3,000 paragraphs are laid out. {QUOTED} {QUOTED}")
        while not (is_stopped() or ended.wait(0.01)):
            pass

    dialogs.long(over, worker, "Export", act)
    worker.stop()
    held.stop()


ASKED: dict[str, Ask] = {
    "a note": lambda over: dialogs.text(
        over, "Mark", f"The note of a mark on {QUOTED}, cells 101 to 145:"
    ),
    "one of some texts": lambda over: dialogs.one_of(
        over, "Bring back", "Which?", [f"1. A text of paragraph 12: {QUOTED}"], 0
    ),
    "words": lambda over: dialogs.fields(
        *(over, "Change", ("&Words:", f"What comes in place of {QUOTED}:"), ("", "")),
        ("Whatever the &capitals",),
    ),
    "a folder": lambda over: dialogs.folder(
        over, "Export", f"The folder to which the volumes of {QUOTED} go:", "pages"
    ),
    "a question": lambda over: dialogs.choice(
        over,
        "Unsent text",
        f"A text was typed: {QUOTED}. It was typed when the book was {Path('books of Anna/moon')}."
        " The print there has been changed since. Shall it be typed further?",
        ("&Type it further", "&Give it up", "Change all the &rest", "&Later"),
    ),
    "a question of many lines": lambda over: dialogs.choice(
        over, "Part into volumes", "\n".join([QUOTED] * 50), ("&Yes", "&No")
    ),
    "what takes long": _progress,
}


@pytest.mark.parametrize("is_low", [False, True])
@pytest.mark.parametrize("asked", ASKED.values(), ids=ASKED.keys())
def test_a_dialog_is_whole_on_the_screen(
    large: None,
    application: QApplication,
    monkeypatch: pytest.MonkeyPatch,
    asked: Ask,
    is_low: bool,
) -> None:
    screen = application.primaryScreen()
    assert screen is not None
    room = screen.availableSize()
    if is_low:
        width, height = fitted._LESS_FOR_FRAME
        its = width - room.width() + LOW.width(), height - room.height() + LOW.height()
        monkeypatch.setattr(fitted, "_LESS_FOR_FRAME", its)
        room = LOW
    over = QWidget()
    found: list[tuple[QSize, list[str]]] = []

    def look() -> None:
        dialog = application.activeModalWidget()
        parts = dialog.findChildren((QLabel, QPushButton)) if dialog else []
        seen = [each for each in parts if isinstance(each, QLabel | QPushButton)]
        if dialog is None or any("Please" in each.text() for each in seen):
            QTimer.singleShot(10, look)
            return
        cut = [each.text() for each in seen if each.isVisible() and _is_cut(each)]
        found.append((dialog.frameSize(), cut))
        dialog.close()

    QTimer.singleShot(0, look)
    asked(over)
    ((size, cut),) = found
    assert not cut
    assert size.boundedTo(room) == size


@pytest.mark.parametrize("asked", ASKED.values(), ids=ASKED.keys())
def test_a_dialog_that_is_closed_is_no_window_any_more(
    application: QApplication, monkeypatch: pytest.MonkeyPatch, asked: Ask
) -> None:
    monkeypatch.setattr(dialogs, "_SHOWN_AFTER_SECONDS", 0)
    over, loop, kept = QWidget(), QEventLoop(), list[QWidget]()

    def close() -> None:
        dialog = application.activeModalWidget()
        if dialog is None:
            QTimer.singleShot(10, close)
            return
        # as what refers to itself is kept by Python for some time
        kept.append(dialog)
        dialog.close()

    def ask() -> None:
        QTimer.singleShot(0, close)
        asked(over)
        loop.quit()

    QTimer.singleShot(0, ask)
    loop.exec()
    application.processEvents()
    assert kept and not set(kept) & set(application.topLevelWidgets())


def _is_cut(part: QLabel | QPushButton) -> bool:
    if isinstance(part, QLabel):
        return part.height() < part.heightForWidth(part.width())
    return part.width() < part.minimumSizeHint().width()


def test_a_dialog_shows_words_of_a_book_as_they_are(application: QApplication) -> None:
    asked = "The note of a mark on “<h1>R&D</h1> <img src=moon.png>”:"
    over = QWidget()
    found: list[str] = []

    def look() -> None:
        dialog = application.activeModalWidget()
        label = dialog.findChild(QLabel) if dialog else None
        if dialog is None or not isinstance(label, QLabel):
            QTimer.singleShot(10, look)
            return
        # a label shows that by which it may be copied
        label.setTextInteractionFlags(Qt.TextInteractionFlag.TextSelectableByMouse)
        label.setSelection(0, len(asked))
        found.append(label.selectedText())
        dialog.close()

    QTimer.singleShot(0, look)
    dialogs.text(over, "Mark", asked)
    assert found == [asked]
