"""How much work a key is in a book with as many paragraphs as one may have: what is asked and shown."""

from collections.abc import Iterator
from dataclasses import dataclass
from pathlib import Path

import pytest
from PyQt6.QtCore import Qt
from PyQt6.QtGui import QKeyEvent
from PyQt6.QtWidgets import QApplication

from braildesk.desk.layout import PageSize
from braildesk.pipe import Pipe

from scribe.window.actions import Actions
from scribe.window.desk import Desk
from scribe.window.paragraphs import Paragraphs


@dataclass
class Work:
    """The names of what was asked of the book, and how many cells of the table were looked at."""

    asked: list[str]
    cells: int = 0


@pytest.fixture(scope="module")
def long(application: QApplication, long_book: Path) -> Iterator[Desk]:
    """The book at work in a window that is shown, once what it lists was read."""
    found = Desk(long_book, None, 0.0, PageSize())
    found.acts = Actions(found).by_name
    found.begin()
    found.window.show()
    _settle(found)
    yield found
    found.window.hide()
    found.close()


@pytest.fixture
def work(monkeypatch: pytest.MonkeyPatch) -> Work:
    """What is done from now on."""
    found, send, data = Work([]), Pipe.send, Paragraphs.data

    def asked(pipe: Pipe, request: bytes) -> None:
        words = request.decode().split()
        found.asked.append(words[1] if words[0].startswith("@") else words[0])
        send(pipe, request)

    def shown(model: Paragraphs, *words: object) -> object:
        found.cells += 1
        return data(model, *words)  # type: ignore[arg-type]

    monkeypatch.setattr(Pipe, "send", asked)
    monkeypatch.setattr(Paragraphs, "data", shown)
    return found


def _settle(desk: Desk) -> None:
    """Waits until nothing is left to do, and all is drawn."""
    application = QApplication.instance()
    assert application is not None
    for _ in range(3):
        for worker in (desk.work, desk.ahead, desk.aside):
            worker.result(lambda: None, is_first=False)
        application.processEvents()


TABLE, PRINT = "table", "print"
WHERE = ["where", "where"]
#: A key, the part of the window where it is pressed, and what is asked of the book then.
KEYS: tuple[tuple[Qt.Key, str, list[str]], ...] = (
    (Qt.Key.Key_Down, TABLE, ["print", "braille", "marks", *WHERE]),
    (Qt.Key.Key_Right, PRINT, WHERE),
    (Qt.Key.Key_A, PRINT, []),
)
# a row that comes into sight, and the two between which the choice moves
MOST_CELLS = 200


@pytest.mark.parametrize("key, part, asked", KEYS)
def test_a_key_is_as_little_work_as_in_a_short_book(
    long: Desk, work: Work, key: Qt.Key, part: str, asked: list[str]
) -> None:
    text = "a" if key == Qt.Key.Key_A else ""
    event = QKeyEvent(
        QKeyEvent.Type.KeyPress, key, Qt.KeyboardModifier.NoModifier, text
    )
    QApplication.sendEvent(getattr(long.window, part), event)
    _settle(long)
    assert work.asked == asked
    assert work.cells < MOST_CELLS
