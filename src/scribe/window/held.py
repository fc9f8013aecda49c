"""What is pressed while the window waits: it is held in its order, and does after it what it is for."""

import math
import time
from collections import deque
from collections.abc import Callable, Iterator
from contextlib import contextmanager
from typing import TypeGuard

from PyQt6.QtCore import QCoreApplication, QEvent, QObject, Qt, QTimer, pyqtSignal
from PyQt6.QtGui import QGuiApplication, QInputMethodEvent, QKeyEvent, QWindow
from PyQt6.QtWidgets import QApplication, QWidget
from PyQt6.sip import isdeleted

from scribe.window.fields import ENTER, is_letter, typed_by

_KINDS = QEvent.Type
# what comes to a window by hands
_BY_HANDS = frozenset(
    (
        *(_KINDS.KeyPress, _KINDS.KeyRelease, _KINDS.Close, _KINDS.Wheel),
        *(_KINDS.MouseButtonPress, _KINDS.MouseButtonRelease, _KINDS.MouseMove),
        *(_KINDS.MouseButtonDblClick, _KINDS.TouchBegin, _KINDS.TouchUpdate),
        *(_KINDS.TouchEnd, _KINDS.TouchCancel, _KINDS.ContextMenu),
    )
)
# what Qt makes of keys before they come to a window
_OF_KEYS = frozenset((_KINDS.Shortcut, _KINDS.InputMethod))
_OF_TEXT = frozenset((_KINDS.KeyPress, _KINDS.InputMethod))
_KEYS = frozenset((_KINDS.KeyPress, _KINDS.KeyRelease))
# after so long without a letter nobody types on
_PAUSE_SECONDS = 0.3
# for so long after a dialog was closed nothing comes, so that no part takes the focus as it was before
_STILL_SECONDS = 0.4
# what is dragged, which is there only for now
_OF_DRAGS = frozenset((_KINDS.DragEnter, _KINDS.DragMove, _KINDS.Drop))
# the property of dialogs with a line: whether that takes what came before it was there
_TAKES = "takesWhatCame"


def take_what_came(dialog: QWidget, is_again: bool = False) -> None:
    """Has a line of a dialog take what comes after the key that opens it, before it has the keyboard.

    Where it is asked again, that is no answer, since nobody knew of the dialog.
    """
    dialog.setProperty(_TAKES, not is_again)


def _is_of_text(event: QEvent | None) -> bool:
    """Whether a key of a text is pressed, and not held down."""
    if not isinstance(event, QKeyEvent) or event.type() != _KINDS.KeyPress:
        return False
    return is_letter(event) and not event.isAutoRepeat()


def _is_of_line(dialog: QWidget | None) -> TypeGuard[QWidget]:
    return dialog is not None and dialog.property(_TAKES) is not None


def _is_beneath_line(to: QObject) -> bool:
    """Whether a window is beneath a line that hasn't the keyboard yet, where Qt drops a key that comes."""
    dialog = QApplication.activeModalWidget()
    over = dialog.parentWidget() if _is_of_line(dialog) else None
    return over is not None and to is over.windowHandle()


class Held(QObject):
    """What is pressed while the window waits, until it can be obeyed.

    Qt would hold it by itself, where nobody sees it and a kill takes it along.
    """

    #: Something came that may be text; or nothing is held any more.
    changed = pyqtSignal()
    #: A dialog was opened, to which nothing of this is an answer: it isn't obeyed.
    unanswered = pyqtSignal()

    def __init__(self) -> None:
        super().__init__()
        #: What notes all that is typed, whatever becomes of it.
        self.note: Callable[[str], None] = lambda text: None
        # each with the dialog over the window as it came
        self._events: deque[tuple[QWidget | None, QObject, QEvent]] = deque()
        # whether all text of it came after the key that is obeyed, or in a line that this opened
        self._is_ahead = True
        self._waits = 0
        # the dialog over the window as the wait began
        self._over: QWidget | None = None
        self._obeyed: QEvent | None = None
        # the dialog over the window as Enter was pressed, which may be down still, and when it came up
        self._entered_at: QWidget | None = None
        self._let_go_at = 0
        # whether the window for which it is isn't shown any more
        self._is_over = False
        # until when nothing comes
        self._still_until = -math.inf
        # when a letter came last, and whether that counts no more
        self._typed_at, self._is_hurried = -math.inf, False
        self._soon = QTimer(self)
        self._soon.setSingleShot(True)
        self._soon.timeout.connect(self._obey)
        self._application = QCoreApplication.instance()
        assert self._application is not None
        # before a screen reader's, which hears of keys as they are pressed
        self._application.installEventFilter(self)

    @property
    def is_typed_on(self) -> bool:
        """Whether hands are typing: what comes in the moment in which a dialog opens, nobody gets."""
        return (
            not self._is_hurried and time.monotonic() < self._typed_at + _PAUSE_SECONDS
        )

    def expect_text(self) -> None:
        """Takes it that hands are typing, which go on before they know what became of a key."""
        self._typed_at = time.monotonic()

    def stand_still(self) -> None:
        """Has nothing come for a moment, in which a part takes the focus, while something is waited for.

        A screen reader would read the part as it was before a dialog, and not what became of that.
        """
        self._still_until = time.monotonic() + _STILL_SECONDS

    @property
    def still_seconds(self) -> float:
        """For how long nothing comes."""
        return max(0.0, self._still_until - time.monotonic())

    def hurry(self) -> None:
        """Has nothing wait any more until hands type no more, since the window is ended from outside."""
        self._is_hurried = True

    def end(self) -> None:
        """Holds all that is pressed from now on, since nothing is shown any more on which it could act."""
        self._is_over = True

    def stop(self) -> None:
        """Holds nothing more, since nothing more is waited for."""
        if self._application is not None:
            self._application.removeEventFilter(self)

    @contextmanager
    def holding(self) -> Iterator[None]:
        """Holds what is pressed for as long as something is waited for."""
        before, self._over = self._over, QApplication.activeModalWidget()
        self._waits += 1
        if self._events:
            # what was obeyed by now isn't held any more
            self.changed.emit()
        try:
            yield
        finally:
            self._waits -= 1
            self._over = before
            self._soon.start()

    @property
    def text(self) -> str:
        """The text that is held, in lines."""
        typed: list[str] = []
        for _, _, event in self._events:
            if isinstance(event, QInputMethodEvent):
                typed += event.commitString()
            elif not isinstance(event, QKeyEvent) or event.type() != _KINDS.KeyPress:
                continue
            elif event.key() in ENTER:
                typed.append("\n")
            elif is_letter(event):
                typed += event.text()
            elif event.key() == Qt.Key.Key_Backspace and typed:
                typed.pop()
        return "".join(typed)

    def eventFilter(self, to: QObject | None, event: QEvent | None) -> bool:
        """Takes what hands do while something is waited for, what they did after that, and keys beneath a line.

        What they drag isn't taken, and stays where it comes from.
        """
        is_obeyed = event is self._obeyed
        self.note("" if is_obeyed else typed_by(event, to))
        if isinstance(to, QWindow) and not is_obeyed and _is_of_text(event):
            self._typed_at = time.monotonic()
        if isinstance(event, QKeyEvent) and not is_obeyed and self._is_held_down(event):
            return True
        if to is None or event is None:
            return False
        if isinstance(to, QWidget) and _is_of_line(to):
            self._take_until_shown(event)
        kind = event.type()
        is_beneath = kind in _KEYS and _is_beneath_line(to)
        if not (is_beneath or self._waits or self._events or self._is_over):
            return False
        over = QApplication.activeModalWidget()
        # a dialog that opens while something is waited for can be answered
        is_answer = bool(self._waits) and over is not self._over
        if not is_answer and kind in _OF_DRAGS and isinstance(to, QWindow):
            event.ignore()
            return True
        if is_answer or is_obeyed or not self._is_by_hands(to, kind):
            return False
        copy = event.clone()
        assert copy is not None
        # of a mouse that moves on it is enough where it is in the end
        moves = kind == _KINDS.MouseMove and bool(self._events)
        if moves and self._events[-1][2].type() == kind:
            self._events.pop()
        self._events.append((None if is_beneath else over, to, copy))
        if is_beneath:
            self._soon.start()
        event.setAccepted(kind != _KINDS.Close)
        if kind in _OF_TEXT:
            self.changed.emit()
        return True

    def _is_held_down(self, event: QKeyEvent) -> bool:
        """Whether Enter is held down, and repeated where a dialog opened or closed since it was pressed.

        It would give an answer to what nobody has read yet.
        """
        if event.key() not in ENTER:
            return False
        if event.type() == _KINDS.KeyRelease:
            self._let_go_at = event.timestamp()
        if event.type() != _KINDS.KeyPress:
            return False
        # Qt doesn't tell of each time that it is repeated: it comes up and goes down at one time
        is_at_once = 0 < event.timestamp() == self._let_go_at
        over = QApplication.activeModalWidget()
        if not (event.isAutoRepeat() or is_at_once):
            self._entered_at = over
        return over is not self._entered_at

    def _take_until_shown(self, event: QEvent) -> None:
        """Takes what came until a dialog is shown: Qt drops what comes beneath it after that."""
        if event.type() == _KINDS.Show and not event.spontaneous():
            with self.holding():
                QCoreApplication.processEvents()

    def _is_by_hands(self, to: QObject, kind: QEvent.Type) -> bool:
        """Whether hands did this. A window is closed by what they did before, too."""
        if kind == _KINDS.Close and (self._is_over or not self._waits):
            return False
        return kind in _OF_KEYS or kind in _BY_HANDS and isinstance(to, QWindow)

    def _obey(self) -> None:
        """Has the first of what is held do what it is for, once nothing is waited for."""
        if self._waits or self._is_over or not self._events:
            return
        over, to, event = self._events[0]
        dialog = QApplication.activeModalWidget()
        is_line = dialog is not None and bool(dialog.property(_TAKES))
        is_there = dialog is over
        if not is_there and not (is_line and self._is_ahead):
            self.unanswered.emit()
            self._events.clear()
            self._is_ahead = True
            self.changed.emit()
            return
        self._events.popleft()
        # each in a turn of its own, so that a dialog which it opens isn't waited for by the next one
        self._soon.start()
        self._is_ahead = self._is_ahead and is_line or not self.text
        self._obeyed = event
        is_text = event.type() == _KINDS.InputMethod
        its: QObject | None = QGuiApplication.focusObject() if is_text else to
        if dialog is not None and not is_there:
            is_key = event.type() in (_KINDS.KeyPress, _KINDS.KeyRelease)
            of_line = dialog.focusWidget() if is_text else None
            its = dialog.windowHandle() if is_key else of_line
        if its is not None and not isdeleted(its):
            QCoreApplication.sendEvent(its, event)
        if not self._events:
            self.changed.emit()
