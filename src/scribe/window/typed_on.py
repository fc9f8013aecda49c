"""What is typed on where a dialog has the keyboard: a text is no answer to it, and is handed on."""

import math
import time
from collections.abc import Callable, Iterator, Sequence
from contextlib import AbstractContextManager, contextmanager

from PyQt6.QtCore import QCoreApplication, QEvent, QObject, Qt, QTimer
from PyQt6.QtGui import QInputMethodEvent, QKeyEvent, QWindow
from PyQt6.QtWidgets import (
    QApplication,
    QDialog,
    QDialogButtonBox,
    QLabel,
    QListWidget,
    QMessageBox,
    QPushButton,
    QWidget,
)

from scribe.window.fields import ENTER, Read, is_letter
from scribe.window.fitted import fit, within

#: Holds what is pressed, for a while.
Holding = Callable[[], AbstractContextManager[None]]
# for so long a question stands before Space alone, which may come from a text, is an answer to it, and
# for so long no letter comes after it then
_READING_SECONDS = 0.3
# after so long a key that came up isn't one that is repeated
_REPEAT_MILLISECONDS = 50
# so many letters a text has at least where one alone may be meant as an answer
_LEAST_OF_TEXT = 2
# so long after a letter the next one begins another search
_SEARCH_SECONDS = 1.0
# keys that go from one button to another, of which the last are those of a text too
_TABS = (Qt.Key.Key_Tab, Qt.Key.Key_Backtab)
_ARROWS = (*(Qt.Key.Key_Left, Qt.Key.Key_Right), *(Qt.Key.Key_Up, Qt.Key.Key_Down))
# keys that go to parts of the window, where hands don't look at the question
_TO_PARTS = (Qt.Key.Key_F2, Qt.Key.Key_F5, Qt.Key.Key_F8)
# keys that go from one name to another
_TO_NAMES = (
    *(*_ARROWS, Qt.Key.Key_Home, Qt.Key.Key_End),
    *(Qt.Key.Key_PageUp, Qt.Key.Key_PageDown),
)
# what is said where a text or Space came that answers nothing, or is typed where lines are read
_NO_ANSWER = "What is typed here is no answer. Tab goes to one, and Enter gives it."
_NO_NAME = (
    "What is typed here is no answer. Tab goes back, and Enter gives what is chosen."
)
_NOT_HERE = "What is typed here is set aside. Enter closes this."


def _key_of(event: QEvent | None) -> QKeyEvent | None:
    """The key that is pressed; none where anything else came."""
    if isinstance(event, QKeyEvent) and event.type() == QEvent.Type.KeyPress:
        return event
    return None


def taking_at_offer(
    typed: Callable[[str], None], holding: Holding | None = None
) -> AbstractContextManager[None]:
    """Hands on a text that is typed on where something is asked meanwhile that no key has asked for."""
    return _Blind(typed, holding=holding).taking()


def taking_at_question(
    typed: Callable[[str], None], holding: Holding | None = None
) -> AbstractContextManager[None]:
    """The same at what a key has asked for, where Space alone answers once that could be read."""
    return _Blind(typed, _READING_SECONDS, holding=holding).taking()


def taking_at_progress(typed: Callable[[str], None]) -> AbstractContextManager[None]:
    """The same at what takes long, where a letter alone is no answer either."""
    return _Blind(typed, _READING_SECONDS, least=1).taking()


def taking_at_sentence(
    typed: Callable[[str], None], said: str = _NOT_HERE
) -> AbstractContextManager[None]:
    """The same at a sentence that stands in place of a window, and that its one button closes."""
    return _BlindAtSentence(typed, said).taking()


class _Blind(QObject):
    """Takes the text that is typed where buttons have the focus, with the ends of its lines.

    Space alone is no text from when it has been asked for some time, if ever. A text has so many
    letters at least.
    """

    # what is said where a text or Space came
    _no_answer = _NO_ANSWER

    def __init__(
        self,
        typed: Callable[[str], None],
        reading: float = math.inf,
        least: int = _LEAST_OF_TEXT,
        holding: Holding | None = None,
    ) -> None:
        super().__init__()
        self._hand_on = typed
        self._text, self._least = "", least
        # the dialog, once it is about to be shown; and what holds all else that is pressed until then,
        # where nothing closes it meanwhile
        self._dialog: QDialog | None = None
        self._holding = holding
        self._reading, self._read_at = reading, math.inf
        # Enter and Space press a button that was gone to
        self._is_gone_to = self._is_said = False
        # the button that Space presses, unless a letter comes soon after it; and whether Space is down still
        self._pressed: QPushButton | None = None
        self._is_down = False
        self._held = QTimer(self)
        self._held.setSingleShot(True)
        self._held.timeout.connect(self._press)

    @contextmanager
    def taking(self) -> Iterator[None]:
        """Takes what is typed at the question that is asked meanwhile."""
        application = QApplication.instance()
        assert application is not None
        application.installEventFilter(self)
        try:
            yield
        finally:
            application.removeEventFilter(self)
            self._held.stop()
            self._dialog = None

    @property
    def _is_text(self) -> bool:
        """Whether a text is typed: a letter alone may be meant as an answer."""
        return len(self._text.strip()) >= self._least

    def eventFilter(self, to: QObject | None, event: QEvent | None) -> bool:
        """Takes letters, what takes them away, and Space and Enter unless a button was gone to."""
        if event is not None and isinstance(to, QWindow):
            return self._is_from_before(to, event)
        if event is None or not isinstance(
            to, (QPushButton, QDialog, QListWidget, Read)
        ):
            return False
        if event.type() == QEvent.Type.Show:
            self._read_at = time.monotonic() + self._reading
            if isinstance(to, QDialog):
                self._take_until_shown(to)
        if self._is_held(to, event):
            return True
        # it comes to no window first: only so it is heard of by what notes all that is typed, or holds it
        is_handed = isinstance(event, QInputMethodEvent)
        if is_handed and QCoreApplication.sendEvent(self, event):
            return True
        text = self._after(event)
        if text is not None and self._takes(text):
            self._say(to)
        return text is not None

    def _takes(self, text: str) -> bool:
        """Takes a text as it is after what came; whether that may be meant to press a button."""
        is_typed = len(text) > len(self._text)
        self._text = text
        self._is_gone_to = self._is_gone_to and not is_typed
        self._hand_on(text.strip() if self._is_text else "")
        return text.endswith("\n") or not text.strip() and is_typed

    def _take_until_shown(self, dialog: QDialog) -> None:
        """Takes what was pressed until a dialog is shown: Qt drops what comes beneath it after that."""
        self._dialog = dialog
        if self._holding is not None:
            with self._holding():
                QCoreApplication.processEvents()

    def _is_from_before(self, to: QWindow, event: QEvent) -> bool:
        """Whether text came to a window beneath, where hands typed before the dialog was there."""
        dialog, key = self._dialog, _key_of(event)
        if dialog is None or to is dialog.windowHandle() or key is None:
            return False
        is_of_text = is_letter(key) or key.key() in (*ENTER, Qt.Key.Key_Backspace)
        text = self._after(key) if is_of_text else None
        if text is not None and self._takes(text):
            # what is said changes the dialog, which has to be there
            QTimer.singleShot(0, self._say_over)
        return text is not None

    def _say_over(self) -> None:
        """Says that nothing was answered in the dialog over what was typed, unless that is closed."""
        if self._dialog is not None:
            self._say(self._dialog)

    def _is_held(self, to: QObject, event: QEvent | None) -> bool:
        """Whether Space, which may begin a text, is held; what is pressed after it ends that."""
        if isinstance(event, QKeyEvent) and event.type() == QEvent.Type.KeyRelease:
            return self._is_let_go(event)
        key = _key_of(event)
        if key is None:
            return False
        is_space = is_letter(key) and key.text() == " " and self._is_answer
        if is_space and not self._is_gone_to and self._reading:
            self._is_down = True
            if isinstance(to, QPushButton) and self._pressed is None:
                self._pressed = to
                self._held.start(math.ceil(self._reading * 1000))
            return self._pressed is not None
        if key.text() or key.key() in (*_TABS, *_ARROWS):
            # not by a key that is held for another one, or has a screen reader be silent
            self._held.stop()
            self._pressed = None
        return False

    def _is_let_go(self, event: QKeyEvent) -> bool:
        """Whether it is Space that comes up, which is held; it is repeated for as long as it is down."""
        if event.key() != Qt.Key.Key_Space or self._pressed is None:
            return False
        self._is_down = self._is_down and event.isAutoRepeat()
        # Qt doesn't tell of each time that it is repeated: the next one comes soon
        self._held.start(max(self._held.remainingTime(), _REPEAT_MILLISECONDS))
        return True

    def _press(self) -> None:
        """Presses the button for which Space was meant, once that is up: else it goes on below the question."""
        if self._pressed is None or self._is_down:
            return
        button, self._pressed = self._pressed, None
        if not self._text.strip():
            button.click()

    def _after(self, event: QEvent | None) -> str | None:
        """The text after what came; none where that is for the buttons."""
        text = self._text
        if isinstance(event, QInputMethodEvent):
            return text + event.commitString()
        pressed = _key_of(event)
        if pressed is None:
            return None
        key = pressed.key()
        if key in _ARROWS and self._is_text:
            return text
        if key in (*_TABS, *_ARROWS):
            self._is_gone_to = True
        elif key in _TO_PARTS:
            self._is_gone_to = False
        elif key == Qt.Key.Key_Backspace and text:
            return text[:-1]
        elif key in ENTER and pressed.modifiers() & Qt.KeyboardModifier.ControlModifier:
            # so hands begin a paragraph that don't know yet of the question
            return text if text.endswith("\n") else f"{text}\n"
        elif key in ENTER and text.strip() and not self._is_gone_to:
            # a second one gives the answer that does least
            return None if text.endswith("\n") else f"{text}\n"
        elif is_letter(pressed) and not (pressed.text() == " " and self._is_answer):
            return text + pressed.text()
        return None

    @property
    def _is_answer(self) -> bool:
        """Whether Space presses a button: it was gone to, or no text is typed on and that was read."""
        is_read = time.monotonic() >= self._read_at
        return self._is_gone_to or is_read and not self._text.strip()

    def _say(self, to: QWidget) -> None:
        """Says once that nothing was answered, and goes each time to the last answer, which does least."""
        box = to.window()
        if not isinstance(box, QMessageBox):
            return
        last = box.escapeButton()
        assert isinstance(last, QPushButton)
        if self._is_said:
            last.setFocus()
            return
        self._is_said = True
        last.setAccessibleDescription(self._no_answer)
        box.setDefaultButton(last)
        last.setFocus()
        box.setText(f"{box.text()}\n\n{self._no_answer}")
        fit(box)


class _BlindAtSentence(_Blind):
    """The same at one button, which has the focus already, and takes it anew so that it is heard."""

    def __init__(self, typed: Callable[[str], None], said: str) -> None:
        super().__init__(typed)
        self._no_answer = said

    def _say(self, to: QWidget) -> None:
        to.clearFocus()
        super()._say(to)


def taking_at_names(
    typed: Callable[[str], None], holding: Holding | None = None
) -> AbstractContextManager[None]:
    """Hands on a text that is typed on where one of several names is asked for meanwhile."""
    return _BlindAtNames(typed, holding).taking()


class _BlindAtNames(_Blind):
    """The same at names, where arrow keys go from one to another, and digits to the one of a number."""

    def __init__(self, typed: Callable[[str], None], holding: Holding | None) -> None:
        super().__init__(typed, _READING_SECONDS, holding=holding)
        # when a letter came last, and the digits by which a name was gone to
        self._came_at, self._number = -math.inf, ""

    def eventFilter(self, to: QObject | None, event: QEvent | None) -> bool:
        """Takes letters, and digits by which no name begins, with those that come after them."""
        key = _key_of(event)
        if isinstance(to, QListWidget) and key is not None and self._goes(to, key):
            return True
        return super().eventFilter(to, event)

    def _is_from_before(self, to: QWindow, event: QEvent) -> bool:
        """The same, but what goes to a name goes there, since a key has asked for the names."""
        dialog, key = self._dialog, _key_of(event)
        if dialog is None or to is dialog.windowHandle() or key is None:
            return False
        goes = any(self._goes(names, key) for names in within(dialog, QListWidget))
        return goes or super()._is_from_before(to, event)

    def _goes(self, names: QListWidget, key: QKeyEvent) -> bool:
        """Goes to the name of a number, if a digit of it came, or is taken away; whether it does."""
        if key.key() == Qt.Key.Key_Backspace:
            number = self._text[:-1]
        elif is_letter(key):
            is_further = self._comes_soon() or not self._text.isdigit()
            number = self._text * is_further + key.text()
        else:
            return False
        if not number.isdigit() or not _go_to(names, number, 0):
            return False
        self._text = self._number = number
        self._hand_on("")
        return True

    def _comes_soon(self) -> bool:
        """Notes when a letter came; whether that is so soon after the one before it that it belongs to it."""
        before, self._came_at = self._came_at, time.monotonic()
        return self._came_at < before + _SEARCH_SECONDS

    def _after(self, event: QEvent | None) -> str | None:
        key = _key_of(event)
        if key is not None:
            is_number = bool(self._text) and self._text == self._number
            if key.key() in _ARROWS or key.key() in ENTER and is_number:
                self._is_gone_to = True
                return None
        return super()._after(event)

    def _say(self, to: QWidget) -> None:
        """Says once that no name was chosen, and goes each time to the button that chooses none."""
        dialog = to.window()
        if not isinstance(dialog, QDialog):
            return
        label, buttons = within(dialog, QLabel)[0], within(dialog, QDialogButtonBox)
        last = buttons[0].button(QDialogButtonBox.StandardButton.Cancel)
        assert last is not None
        last.setFocus()
        if self._is_said:
            return
        self._is_said = True
        last.setAccessibleDescription(_NO_NAME)
        label.setText(f"{label.text()}\n\n{_NO_NAME}")
        fit(dialog, dialog.width(), dialog.height())


def taking_at_search(
    typed: Callable[[str], None],
    names: Sequence[str],
    holding: Holding | None = None,
) -> AbstractContextManager[None]:
    """The same where letters look for the name that begins with them."""
    return _BlindAtSearch(typed, names, holding).taking()


class _BlindAtSearch(_BlindAtNames):
    """The same at names that are looked for by their first letters: with those of a text no name begins."""

    def __init__(
        self,
        typed: Callable[[str], None],
        names: Sequence[str],
        holding: Holding | None,
    ) -> None:
        super().__init__(typed, holding)
        self._names = [name.casefold() for name in names]
        # the letters that look for a name together
        self._sought = ""
        self._is_of_words = False

    def _goes(self, names: QListWidget, key: QKeyEvent) -> bool:
        """Looks for a name if a letter came, or is taken away; whether it does, also where none begins so."""
        if key.key() == Qt.Key.Key_Backspace:
            self._sought, self._text = self._sought[:-1], self._text[:-1]
        elif is_letter(key):
            self._sought = self._sought * self._comes_soon() + key.text()
            self._text += key.text()
            self._is_gone_to = False
        else:
            if key.key() in _TO_NAMES:
                self._sought = ""
            return False
        if self._sought and self._is_search:
            its = self._one_letter
            is_next = bool(its) and is_letter(key)
            _go_to(names, its or self._sought, names.currentRow() + is_next)
        is_word = len(self._sought.strip()) >= self._least and not self._is_search
        # where all of it looks for a name, what was taken away again counts no more
        is_more = self._is_of_words and self._text != self._sought
        self._is_of_words = is_word or is_more
        self._hand_on(self._text.strip() if self._is_of_words else "")
        return True

    def _after(self, event: QEvent | None) -> str | None:
        key = _key_of(event)
        if key is not None and key.key() in ENTER:
            is_found = self._is_search and not self._is_of_words
            self._is_gone_to = self._is_gone_to or is_found
        return super()._after(event)

    @property
    def _is_search(self) -> bool:
        """Whether a name begins so."""
        sought = self._one_letter or self._sought.casefold()
        return any(name.startswith(sought) for name in self._names)

    @property
    def _one_letter(self) -> str:
        """The letter that comes again and again, which goes from name to name; nothing if others do."""
        letters = set(self._sought.casefold())
        return letters.pop() if len(letters) == 1 else ""


def _go_to(names: QListWidget, sought: str, first: int) -> bool:
    """Chooses the next name that begins so, from a row on and around; whether there is one."""
    found = names.findItems(sought, Qt.MatchFlag.MatchStartsWith)
    rows, count = map(names.row, found), names.count()
    row = min(rows, key=lambda each: (each - first) % count, default=None)
    if row is not None:
        names.setCurrentRow(row)
    return row is not None


def taking_at_lines(
    typed: Callable[[str], None], holding: Holding
) -> AbstractContextManager[None]:
    """Hands on a text that is typed on where lines are shown meanwhile, which can be read."""
    return _BlindAtLines(typed, _READING_SECONDS, holding=holding).taking()


class _BlindAtLines(_Blind):
    """The same at lines, in which arrow keys and Space go on."""

    def _after(self, event: QEvent | None) -> str | None:
        key = _key_of(event)
        if key is not None and key.key() in _ARROWS:
            self._is_gone_to = True
            return None
        if key is not None and key.key() in ENTER and not self._is_text:
            return None
        return super()._after(event)

    def _say(self, to: QWidget) -> None:
        """Goes to the button that closes them, which says what becomes of the text."""
        for buttons in within(to.window(), QDialogButtonBox):
            last = buttons.button(QDialogButtonBox.StandardButton.Close)
            assert last is not None
            last.setAccessibleDescription(_NOT_HERE)
            last.setFocus()
