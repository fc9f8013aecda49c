"""What leads to itself and to which nothing else leads is taken away in the thread of the window alone."""

import gc
import os
import threading
from pathlib import Path
from typing import Any

from PyQt6.QtWidgets import QApplication

from braildesk.text.spans import Span

from scribe.window.fields import Field

from conftest import Open, wait
from reader import PATIENCE_SECONDS

_ENOUGH = 100_000
#: What notes in which threads Python takes away what nothing leads to, before scribe begins.
_NOTES = """
import gc, os, threading

def note(phase, about):
    if phase == "start":
        with open(os.environ["COLLECTED"], "a") as file:
            print(threading.current_thread() is threading.main_thread(), file=file)

gc.callbacks.append(note)
"""


class Circle:
    """It leads to itself, and notes in which thread it was taken away."""

    def __init__(self, taken: list[threading.Thread], *things: Any) -> None:
        self.itself, self.things, self.taken = self, things, taken

    def __del__(self) -> None:
        self.taken.append(threading.current_thread())


def test_circles_are_taken_away_in_no_other_thread(application: QApplication) -> None:
    taken: list[threading.Thread] = []
    things: list[list[int]] = []

    def make() -> None:
        for number in range(_ENOUGH):
            Circle(taken)
            things.append([number])

    other = threading.Thread(target=make)
    other.start()
    other.join()
    # the last ones stay until there are enough of them
    assert wait(application, PATIENCE_SECONDS, lambda: bool(taken))
    assert not gc.isenabled()
    assert set(taken) == {threading.main_thread()}


def test_a_book_that_is_opened_has_none_taken_away_in_another_thread(
    at: Open, long_book: Path, tmp_path: Path
) -> None:
    site, noted = tmp_path / "site", tmp_path / "collected"
    site.mkdir()
    (site / "sitecustomize.py").write_text(_NOTES)
    path = f"{site}:{os.environ['PYTHONPATH']}"
    window = at(long_book, PYTHONPATH=path, COLLECTED=str(noted))
    window.press("Ctrl+q")
    assert window.end() == 0
    assert set(noted.read_text().split()) == {"True"}


def test_cursors_of_what_is_lit_are_taken_away_at_once(
    application: QApplication,
) -> None:
    field = Field("Print", True)
    field.show_text("The Moon")
    gc.collect()
    field.light([Span(0, 3)], Span(1, 2))
    assert gc.collect() == 0
