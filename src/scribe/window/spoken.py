"""What a screen reader speaks of what changes where the focus is and stays."""

from collections.abc import Iterator
from contextlib import contextmanager

from PyQt6.QtCore import Qt, QTimer
from PyQt6.QtGui import QGuiApplication
from PyQt6.QtWidgets import QApplication, QMenu, QPlainTextEdit, QWidget

from scribe.window.fields import Field

# Orca speaks what comes to be selected in any text, and says that it is selected, unless this ends it
_OBJECT = "\ufffc"


class Spoken:
    """Has what is said while something is done be spoken, where the focus stays in a text.

    A part that takes the focus is spoken by itself, and what is said with it.
    """

    def __init__(self, window: QWidget) -> None:
        self._window = window
        # what is spoken, which is seen nowhere
        self._voice: QPlainTextEdit | None = None
        self._said, self._is_back = "", False
        self._is_entered = False
        #: The focus moved while something was done.
        self.is_moved = False
        #: The focus moved and nothing came after that, so that what has it now wasn't read yet.
        self.is_just_moved = False
        # where the focus was as something began to be done, and what that was said to be
        self._before: tuple[QWidget | None, str] = None, ""
        application = QApplication.instance()
        assert isinstance(application, QApplication)
        application.focusChanged.connect(self._note_move)
        for menu in window.findChildren(QMenu):
            assert isinstance(menu, QMenu)
            menu.aboutToHide.connect(self._note_back)

    def note(self, sentence: str) -> None:
        """Notes what is said."""
        self._said = sentence

    def after_news(self, field: Field, sentence: str) -> str:
        """A sentence after what a text is said to be, if that is news by what is being done."""
        if not field.described or (field, field.described) == self._before:
            return sentence
        return f"{ended(field.described)} {sentence}"

    def _note_move(self) -> None:
        self.is_moved = self.is_just_moved = True
        QTimer.singleShot(0, self._forget_move)

    def _forget_move(self) -> None:
        self.is_just_moved = False

    def note_enter(self) -> None:
        """Notes that Enter was pressed, after which Orca speaks what comes into the text."""
        self._is_entered = True
        QTimer.singleShot(0, self._forget_enter)

    def _forget_enter(self) -> None:
        self._is_entered = False

    def _note_back(self) -> None:
        """Notes that the part with the focus is spoken again, as a menu goes whose action is done next."""
        self._is_back = True
        QTimer.singleShot(0, self._forget_back)

    def _forget_back(self) -> None:
        self._is_back = False

    @contextmanager
    def of_changes(self) -> Iterator[None]:
        """Has what is said meanwhile be spoken, and another paragraph that is shown."""
        field = QApplication.focusWidget()
        self._said, self.is_moved = "", self._is_back
        before = field.described if isinstance(field, Field) else ""
        self._before, is_entered = (field, before), self._is_entered
        yield
        if not isinstance(field, Field) or self.is_moved:
            return
        found = [self._said]
        if field.described != before:
            # with Ctrl held Orca speaks by itself what comes into the text
            held = QGuiApplication.keyboardModifiers()
            is_held = bool(held & Qt.KeyboardModifier.ControlModifier)
            found.insert(0, "" if is_held or is_entered else field.line)
            found.append(field.accessibleDescription())
        parts = [each.strip() for each in dict.fromkeys(found) if each.strip()]
        if parts:
            self._be_silent()
            self._speak(" ".join([*map(ended, parts[:-1]), parts[-1]]))
            field.show_on_display()

    def _be_silent(self) -> None:
        """What was spoken is of no use any more."""
        voice, self._voice = self._voice, None
        if voice is not None:
            voice.deleteLater()

    def _speak(self, sentence: str) -> None:
        # of a text in which something was selected before, only what is more now would be spoken
        self._voice = voice = QPlainTextEdit(self._window)
        voice.setFocusPolicy(Qt.FocusPolicy.NoFocus)
        voice.setAccessibleName("Spoken")
        voice.hide()
        voice.setPlainText(sentence + _OBJECT)
        voice.selectAll()


def ended(said: str) -> str:
    """What is said, with a stop before what comes next, as Orca puts one where a part takes the focus."""
    return said if said.endswith((".", "?", "!", ":")) else f"{said}."
