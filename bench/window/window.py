"""Times the opening of a window and its keys on a long book."""

import resource
import subprocess
import sys
import time
from collections.abc import Callable, Iterable
from dataclasses import dataclass
from pathlib import Path

from PyQt6.QtCore import Qt
from PyQt6.QtGui import QKeyEvent
from PyQt6.QtWidgets import QApplication, QWidget

from braildesk import Session, new_book
from braildesk.desk.layout import PageSize
from braildesk.protocol.requests import Mark, Supply, Type

from scribe.window.actions import Actions
from scribe.window.desk import Desk

WORDS = "The moon is far away, and twice a day the sea comes up to look at it. "


def book_of(path: Path, paragraphs: int) -> None:
    """A book of paragraphs of 490 characters, each with a mark."""
    new_book(path, holding=[Supply("en")])
    with Session(path) as session:
        texts = (f"{n} {WORDS * 7}"[:490] for n in range(1, paragraphs + 1))
        _all(session.each(Type("end", "en", text) for text in texts))
        _all(
            session.each(Mark(n, 9, 4, "spelled so?") for n in range(1, paragraphs + 1))
        )


def _all(answers: Iterable[object]) -> None:
    for _ in answers:
        pass


def opened(book: Path) -> Desk:
    """The book at work in a window that is drawn."""
    desk = Desk(book, None, 0.0, PageSize())
    desk.acts = Actions(desk).by_name
    desk.begin()
    desk.window.show()
    QApplication.processEvents()
    return desk


def settle(desk: Desk) -> None:
    """Waits until nothing is left to do, and all is drawn."""
    for _ in range(2):
        for worker in (desk.work, desk.ahead):
            worker.result(lambda: None, is_first=False)
        QApplication.processEvents()


def press(desk: Desk, field: QWidget, key: Qt.Key, text: str = "") -> None:
    """Presses a key, and waits for all that comes of it."""
    held = Qt.KeyboardModifier.NoModifier
    QApplication.sendEvent(field, QKeyEvent(QKeyEvent.Type.KeyPress, key, held, text))
    settle(desk)


@dataclass(frozen=True)
class Took:
    """How many milliseconds something took by the clock, and of a processor, with its session."""

    clock: float
    processor: float


def said(name: str, times: list[Took]) -> None:
    """Says the best and the middle of some times."""
    clocks = sorted(each.clock for each in times)
    processors = sorted(each.processor for each in times)
    middle = len(times) // 2
    print(
        f"{name}: {clocks[0]:.1f} ms, the middle one {clocks[middle]:.1f} ms;"
        f" of a processor {processors[0]:.1f} ms, the middle one {processors[middle]:.1f} ms"
    )


def took(act: Callable[[], object], desk: Desk | None = None) -> Took:
    """How long something takes, in a window where one is given."""
    began, used = time.perf_counter(), processor_seconds(desk)
    act()
    clock, processor = time.perf_counter() - began, processor_seconds(desk) - used
    return Took(clock * 1000, processor * 1000)


def processor_seconds(desk: Desk | None) -> float:
    """What this process, those that it started and ended, and the session of a window have used."""
    ended = resource.getrusage(resource.RUSAGE_CHILDREN)
    own = time.process_time() + ended.ru_utime + ended.ru_stime
    if desk is None:
        return own
    nanoseconds, *_ = Path(f"/proc/{desk.book.pid}/schedstat").read_text().split()
    return own + int(nanoseconds) / 1e9


def timed(
    name: str, runs: int, act: Callable[[], object], desk: Desk | None = None
) -> None:
    """Says how long something takes that is done many times."""
    said(name, [took(act, desk) for _ in range(runs)])


def time_keys(desk: Desk, runs: int) -> None:
    """Times keys of a window."""
    table, prints, keys = desk.window.table, desk.window.print, Qt.Key

    def in_table() -> None:
        press(desk, table, keys.Key_Down)

    def in_print() -> None:
        press(desk, prints, keys.Key_Right)

    def letter() -> None:
        press(desk, prints, keys.Key_A, "a")

    timed("Down, to the next paragraph", runs, in_table, desk)
    timed("Right, to the next character", runs, in_print, desk)
    timed("a letter, with its braille", runs, letter, desk)
    times = []
    for _ in range(runs):
        letter()
        times.append(took(lambda: press(desk, prints, keys.Key_Return), desk))
    said("Enter, which corrects", times)
    timed("F4, to the next mark", runs, lambda: act_in(desk, "next_mark"), desk)


def act_in(desk: Desk, name: str) -> None:
    """Does an action, and waits for all that comes of it."""
    desk.act(name)
    settle(desk)


def most_memory() -> int:
    """The most memory that this process had, in megabytes."""
    (line,) = [
        line
        for line in Path("/proc/self/status").read_text().splitlines()
        if line.startswith("VmHWM:")
    ]
    return int(line.split()[1]) // 1000


def open_once(book: Path) -> None:
    """Opens a window and closes it, as a process of its own does."""
    application = QApplication([])
    opened(book).close()
    del application


def time_all(book: Path, runs: int) -> None:
    """Times each."""
    application = QApplication([])
    desk = opened(book)
    settle(desk)
    time_keys(desk, runs)
    desk.close()
    print(f"the most memory that a window had: {most_memory()} MB")

    def session() -> None:
        with Session(book) as its:
            its.paragraphs()

    def command() -> None:
        subprocess.run([sys.executable, __file__, "once", str(book)], check=True)

    timed("a session that lists the paragraphs", 5, session)
    timed("the window opens and is closed", 5, lambda: opened(book).close())
    timed("the same, with the start of Python and Qt", 5, command)
    del application


def main() -> None:
    """Makes the book, or times the window on it."""
    what, book = sys.argv[1], Path(sys.argv[2])
    if what == "make":
        book_of(book, int(sys.argv[3]))
    elif what == "once":
        open_once(book)
    else:
        time_all(book, int(sys.argv[3]))


if __name__ == "__main__":
    main()
