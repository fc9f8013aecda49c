"""What the tests of the window share: books, and windows that are closed at the end."""

import os
import sys
import time
from collections.abc import Callable, Iterator, Sequence
from functools import partial
from pathlib import Path
from tempfile import TemporaryDirectory
from typing import Any

import pytest

from PyQt6.QtCore import QSettings, QTimer
from PyQt6.QtWidgets import QApplication, QDialog

from braildesk import Session, new_book
from braildesk.desk.layout import PageSize
from braildesk.protocol.requests import Mark, Supply, Type

from scribe.window import dialogs
from scribe.window.actions import Actions
from scribe.window.collecting import Collector
from scribe.window.desk import Desk

from reader import PATIENCE_SECONDS, Reader

Open = Callable[..., Reader]
Answers = dict[str, Any]
_LOOK_MILLISECONDS = 50


@pytest.fixture(autouse=True)
def own_folders(tmp_path: Path, monkeypatch: pytest.MonkeyPatch) -> None:
    """What belongs to one person is in a folder of each test."""
    for name in ("STATE", "CONFIG", "CACHE"):
        folder = tmp_path / name.lower()
        folder.mkdir()
        monkeypatch.setenv(f"XDG_{name}_HOME", str(folder))
    # Qt takes the folder of settings from the environment only once in a process
    native, user = QSettings.Format.NativeFormat, QSettings.Scope.UserScope
    QSettings.setPath(native, user, str(tmp_path / "config"))


class Faults:
    """The faults in what Qt calls during a test, after which it would end all tests at once."""

    def __init__(self) -> None:
        self.found: list[BaseException] = []
        self.is_over = False

    def note(
        self, kind: type[BaseException], fault: BaseException, trace: object
    ) -> None:
        """Notes one, after which nobody may be there to answer a dialog."""
        self.found.append(fault)
        self._end_dialog()

    def _end_dialog(self) -> None:
        dialog = QApplication.activeModalWidget()
        if isinstance(dialog, QDialog):
            dialog.reject()
        if not self.is_over:
            QTimer.singleShot(_LOOK_MILLISECONDS, self._end_dialog)


@pytest.fixture(autouse=True)
def faults(monkeypatch: pytest.MonkeyPatch) -> Iterator[None]:
    """A fault in what Qt calls is one of the test."""
    faults = Faults()
    monkeypatch.setattr(sys, "excepthook", faults.note)
    yield
    # a window that is taken away while it has the keyboard is told so when Python has nothing of it any more
    for window in QApplication.topLevelWidgets():
        window.hide()
    faults.is_over = True
    if faults.found:
        raise faults.found[0]


@pytest.fixture
def moon(tmp_path: Path) -> Path:
    """A book of three paragraphs, with a fault that is marked."""
    path = tmp_path / "moon.braildesk"
    new_book(
        path,
        holding=[
            Supply("en"),
            Type("end", "en", "The Moon"),
            Type("end", "en", "The mon is far away."),
            Type("end", "en", "Twice a day the sea comes up."),
            Mark(2, 5, 3, "spelled so?"),
        ],
    )
    return path


@pytest.fixture
def at() -> Iterator[Open]:
    """Opens a book in a window, and kills it at the end if it is still there."""
    readers: list[Reader] = []

    def opened(
        book: Path | None,
        *words: str,
        is_waited_for: bool = True,
        under: Sequence[str] = (),
        **settings: str,
    ) -> Reader:
        readers.append(Reader(book, *words, under=under, **settings))
        return readers[-1].opened() if is_waited_for else readers[-1]

    yield opened
    for reader in readers:
        reader.kill()


@pytest.fixture(scope="session")
def application() -> QApplication:
    """The one application of these tests."""
    there = QApplication.instance()
    found = there if isinstance(there, QApplication) else QApplication([])
    # no window of an earlier test is taken away in the threads of a later one
    Collector(found)
    return found


@pytest.fixture
def desk(application: QApplication, moon: Path) -> Iterator[Desk]:
    """The book, at work in a window that nobody sees."""
    found = Desk(moon, None, 0.0, PageSize())
    found.acts = Actions(found).by_name
    found.begin()
    yield found
    found.close()


@pytest.fixture
def asked(monkeypatch: pytest.MonkeyPatch) -> dict[str, int]:
    """Which answer is given to a question of a title; and reports aren't waited for."""
    answers: dict[str, int] = {}

    def choice(over: object, title: str, said: str, given: Sequence[str]) -> int:
        return answers[title]

    monkeypatch.setattr(dialogs, "choice", choice)
    monkeypatch.setattr(dialogs, "report", lambda over, title, lines: None)
    return answers


@pytest.fixture
def given(monkeypatch: pytest.MonkeyPatch) -> Answers:
    """What is answered to each kind of dialog, and under "said" and "titles" what was asked and reported."""
    answers: Answers = {"said": [], "titles": [], "choices": []}

    def choice(
        over: object, title: str, said: str, names: Sequence[str], by_enter: int = 0
    ) -> int:
        answers["said"].append(said)
        answers["titles"].append(title)
        answers["by_enter"] = names[by_enter]
        return int(answers["choices"].pop(0))

    def line_of(over: object, title: str, lines: Sequence[str], first: int) -> Any:
        answers["said"] += [title, *lines]
        return answers["line"]

    def report(over: object, title: str, lines: Sequence[str]) -> None:
        answers["said"] += lines

    monkeypatch.setattr(dialogs, "choice", choice)
    monkeypatch.setattr(dialogs, "line_of", line_of)
    monkeypatch.setattr(dialogs, "report", report)

    def answered(name: str, *its: object) -> Any:
        # what is asked again is given up
        is_again = any(isinstance(each, str) and each for each in its[5:])
        return None if is_again else answers[name]

    for name in ("text", "fields"):
        monkeypatch.setattr(dialogs, name, partial(answered, name))
    monkeypatch.setattr(dialogs, "text_further", lambda *_: answers["text"])
    monkeypatch.setattr(dialogs, "one_of", lambda *_: answers["one_of"])
    monkeypatch.setattr(dialogs, "font", lambda *_: answers["font"])
    monkeypatch.setattr(dialogs, "file_to_read", lambda *_: answers["file"])
    return answers


@pytest.fixture(scope="session")
def long_book() -> Iterator[Path]:
    """A book with as many paragraphs as a book may have.

    Each is kept before the next one, which takes a disk minutes and a disk of memory seconds.
    """
    memory = "/dev/shm" if os.access("/dev/shm", os.W_OK) else None
    with TemporaryDirectory(prefix="scribe-long-", dir=memory) as folder:
        path = Path(folder, "long.braildesk")
        new_book(path, holding=[Supply("en")])
        with Session(path) as session:
            for _ in session.each(
                Type("end", "en", f"Paragraph number {number} of the moon.")
                for number in range(1, 20_001)
            ):
                pass
        yield path


def wait(application: QApplication, seconds: float, is_so: Callable[[], bool]) -> bool:
    """Whether something comes about within a time."""
    end = time.monotonic() + seconds
    while time.monotonic() < end and not is_so():
        application.processEvents()
    return is_so()


def prints(book: Path) -> list[str]:
    """The prints of a book that is closed."""
    with Session(book, timeout=PATIENCE_SECONDS) as session:
        return [session.print_of(each.id) for each in session.paragraphs()]
