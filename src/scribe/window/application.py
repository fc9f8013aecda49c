"""The application of the window: it is started, ended in order, and says how it ended."""

import os
import re
import signal
import socket
import sys
from collections.abc import Callable, Iterator
from contextlib import contextmanager, suppress
from pathlib import Path
from types import TracebackType

from PyQt6.QtCore import (
    QMessageLogContext,
    QSocketNotifier,
    QtMsgType,
    QTimer,
    qFormatLogMessage,
    qInstallMessageHandler,
)
from PyQt6.QtWidgets import QApplication
from PyQt6.sip import voidptr

from braildesk import Lost
from braildesk.desk.layout import PageSize
from braildesk.text.characters import visible

from scribe.window.actions import Actions
from scribe.window.choosing import chosen_book
from scribe.window.collecting import Collector
from scribe.window.contrast import Contrast
from scribe.window.desk import Desk
from scribe.window.dialogs import choice
from scribe.window.dragged import Dragged
from scribe.window.held import Held
from scribe.window.typed_on import taking_at_sentence
from scribe.window.window import title_of
from scribe.words.links import followed, name_of
from scribe.words.status import Interrupted

# what Qt says before it ends the process because the X server, or the compositor, is gone
_GONE = re.compile("The (X11|Wayland) connection (broke|experienced a fatal error)")
_NO_SCREEN = (
    "The screen that DISPLAY or WAYLAND_DISPLAY names can't be reached. Nothing was changed. scribe"
    " edit shows a book in a terminal."
)
_KEPT = "What was reported as kept is in the book."
_SCREEN_GONE = "The screen is gone: its X server or its compositor ended."
_SIGNALS = (
    signal.SIGHUP,
    signal.SIGTERM,
    signal.SIGINT,
    signal.SIGQUIT,
    signal.SIGXCPU,
)


class NoBook(Exception):
    """No book was named, and none was chosen."""


class Application:
    """A book in a window, until the person closes it or a signal ends it.

    If no path is given, it is asked for a book; raises `NoBook` where that is given up.
    """

    def __init__(
        self,
        path: Path | None,
        by: str | None,
        wait: float,
        page_size: PageSize,
        leave: Callable[[str], None],
    ) -> None:
        # says a sentence and ends the process, where Qt would end it
        self._leave = leave
        self._is_begun = False
        #: What became of what was typed and isn't in the book, once the window is closed.
        self.waits = ""
        qInstallMessageHandler(self._heard)
        with _ended_by_signals():
            self._begin_qt()
            # a screen reader listens from the first question on, and hears of keys before they are held
            held = Held()
            its = path or followed(_chosen())
            self._desk = Desk(its, by, wait, page_size, held)
        actions = Actions(self._desk)
        self._desk.acts = actions.by_name
        self._offer = actions.offer
        self._fault: BaseException | None = None
        self._ended_by: signal.Signals | None = None
        self._is_begun = True

    def _begin_qt(self) -> None:
        self._qt = QApplication(sys.argv[:1])
        self._qt.setApplicationName("braildesk")
        self._qt.setDesktopFileName("braildesk-desktop")
        self._collector = Collector(self._qt)
        self._dragged = Dragged(self._qt)
        self._contrast = Contrast(self._qt)
        self._contrast.follow()

    @property
    def name(self) -> str:
        """The name of the book, as it is by now."""
        return name_of(self._desk.path)

    @property
    def version(self) -> int:
        """The version at which the book was last."""
        return self._desk.contents.version

    @property
    def loss(self) -> str:
        """How the session ended, if the book wasn't opened again after that, and what is so of it now."""
        return self._desk.so_now(self._desk.loss)

    @property
    def strayed(self) -> str:
        """What became of the file of a book in which nothing was kept, once it is closed."""
        return self._desk.book.session.strayed

    def _heard(
        self, kind: QtMsgType, where: QMessageLogContext, text: str | None
    ) -> None:
        """What Qt says goes on to standard error, unless it ends the process after it."""
        if self._is_begun and _GONE.match(text or ""):
            waits = self._desk.waits_at_once()
            kept = self._desk.end_at_once() or _KEPT
            self._leave(f"{_SCREEN_GONE} {kept} {waits}".rstrip())
        line = qFormatLogMessage(kind, where, text or "")
        with suppress(OSError):
            os.write(2, f"{line}\n".encode(errors="backslashreplace"))
        if kind == QtMsgType.QtFatalMsg and not self._is_begun:
            self._leave(_NO_SCREEN)

    def begin(self) -> None:
        """Opens the book; raises what the client raises, and `Interrupted` if a signal came first."""
        desk = self._desk
        try:
            with self._ending_in_order():
                desk.begin()
        except BaseException as cause:
            desk.is_closed = True
            desk.close()
            if isinstance(cause, Interrupted) and self._ended_by is not None:
                raise Interrupted(self._ended_by) from None
            raise

    def tell(self, sentence: str) -> None:
        """Shows a sentence in the place of a book that isn't open, until it is closed.

        A text that is typed on there is given up; if it can't be kept it is shown in the end.
        """
        desk = self._desk
        with _ended_by_signals(), taking_at_sentence(desk.keep_unopened):
            title = title_of(desk.path.name)
            choice(desk.window, title, visible(sentence), ["&Close"])
        if unkept := desk.put_by_unopened():
            self.tell(unkept)

    def run(self) -> None:
        """Shows the book until its window is closed; raises what ends it otherwise."""
        desk = self._desk
        with self._ending_in_order():
            try:
                if not desk.is_ending:
                    self._show()
            finally:
                self._close()
        cause = self._fault
        if cause is None and self._ended_by is not None:
            cause = Interrupted(self._ended_by)
        self.waits = desk.waits_at_once()
        if cause is not None:
            kept = "" if isinstance(cause, Lost) else self._kept
            if said := f"{kept} {self.waits}".strip():
                cause.add_note(said)
            raise cause

    @property
    def _kept(self) -> str:
        """What is so of the book as a signal or a fault ends its window, if that has to be said here."""
        return self.loss or self._desk.strayed or _KEPT * bool(self.waits)

    def _show(self) -> None:
        desk = self._desk
        desk.window.show()
        desk.window.activateWindow()
        desk.window.table.setFocus()
        QTimer.singleShot(0, lambda: desk.acting(self._offer))
        self._qt.exec()

    @contextmanager
    def _ending_in_order(self) -> Iterator[None]:
        """Has signals and faults end the window in order, also while it waits."""
        before, sys.excepthook = sys.excepthook, self._failed
        ends, notifier = self._take_signals()
        try:
            yield
        finally:
            signal.set_wakeup_fd(-1)
            notifier.setEnabled(False)
            for end in ends:
                end.close()
            sys.excepthook = before

    def _close(self) -> None:
        desk = self._desk
        desk.take_begun_word()
        desk.keep_anew()
        try:
            desk.close()
        except Lost as lost:
            self._fault = self._fault or lost
        except Interrupted:
            # the program didn't answer, and was ended
            pass

    def _failed(
        self,
        kind: type[BaseException],
        fault: BaseException,
        trace: TracebackType | None,
    ) -> None:
        """A fault of scribe ends it, as elsewhere, and not without what is typed being kept."""
        # a program that didn't answer is waited for no more because the window is being ended
        if not isinstance(fault, Interrupted):
            self._fault = self._fault or fault
        self._end()

    def _end(self) -> None:
        self._desk.is_ending = True
        self._desk.held.hurry()
        self._qt.exit()

    def _take_signals(
        self,
    ) -> tuple[tuple[socket.socket, socket.socket], QSocketNotifier]:
        """Has signals end the window."""
        ends = socket.socketpair()
        for end in ends:
            end.setblocking(False)
        signal.set_wakeup_fd(ends[1].fileno())
        notifier = QSocketNotifier(voidptr(ends[0].fileno()), QSocketNotifier.Type.Read)

        def woken() -> None:
            # what a signal does is done by Python itself once it runs
            ends[0].recv(1)

        notifier.activated.connect(woken)

        def ended(number: int, frame: object) -> None:
            self._ended_by = signal.Signals(number)
            self._end()

        for number in _SIGNALS:
            if signal.getsignal(number) is not signal.SIG_IGN:
                signal.signal(number, ended)
        return ends, notifier


def _chosen() -> Path:
    """The book that is chosen where none was named."""
    with _ended_by_signals():
        path = chosen_book()
    if path is None:
        raise NoBook
    return path


@contextmanager
def _ended_by_signals() -> Iterator[None]:
    """Has signals end the process at once: nothing is at stake, and Python does nothing while Qt waits."""
    before = {number: signal.getsignal(number) for number in _SIGNALS}
    heard = [each for each in before if before[each] is not signal.SIG_IGN]
    for number in heard:
        signal.signal(number, signal.SIG_DFL)
    try:
        yield
    finally:
        for number in heard:
            signal.signal(number, before[number])
