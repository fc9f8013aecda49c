"""What is asked of a person, and what is reported, in windows over the one of the book."""

import time
from collections.abc import Callable, Iterator, Sequence
from concurrent.futures import Future
from contextlib import contextmanager
from functools import partial
from pathlib import Path
from typing import TypeVar

from PyQt6.QtCore import QEvent, QItemSelectionModel, QModelIndex, Qt, QTimer
from PyQt6.QtGui import QFocusEvent, QFont, QKeyEvent
from PyQt6.QtWidgets import (
    QCheckBox,
    QDialog,
    QDialogButtonBox,
    QFileDialog,
    QFontDialog,
    QInputDialog,
    QLabel,
    QLineEdit,
    QListWidget,
    QMessageBox,
    QPushButton,
    QVBoxLayout,
    QWidget,
)

from braildesk.text.characters import is_shown, visible

from scribe.window.fields import ENTER, Read, lines_of, stays_chosen
from scribe.window.fitted import BESIDE, WIDTH, fit, within
from scribe.window.held import take_what_came
from scribe.window.typed_on import (
    Holding,
    taking_at_offer,
    taking_at_progress,
    taking_at_question,
)
from scribe.window.window import Window
from scribe.window.worker import Worker

Result = TypeVar("Result")
#: Says how far something is that takes long; and whether it is to end.
Say = Callable[[str], None]
IsStopped = Callable[[], bool]
# when a dialog of progress is shown, and how often what it says is looked at
_SHOWN_AFTER_SECONDS = 0.4
_PACE_MILLISECONDS = 100
# how wide the dialog is that asks for a folder
_FOLDER_WIDTH = 560


@contextmanager
def _back_to(over: QWidget | None, dialog: QDialog | None = None) -> Iterator[None]:
    """Has the keyboard go back to a window, if there is one, also where no window manager sees to that.

    The dialog over it is of no use any more, and isn't kept as a part of it, nor as a window that a
    screen reader lists.
    """
    try:
        yield
    finally:
        if dialog is not None:
            dialog.setParent(None)  # type: ignore[call-overload]
            dialog.deleteLater()
        if isinstance(over, Window):
            over.give_focus()
        if over is not None:
            over.activateWindow()


def choice(
    over: QWidget | None,
    title: str,
    sentence: str,
    answers: Sequence[str],
    by_enter: int = 0,
) -> int:
    """Asks, and gives the place of the answer among those.

    The last one is also Escape's, and the first one Enter's, where no other is.
    """
    box = QMessageBox(over)
    box.setWindowTitle(title)
    box.setText(visible(sentence, lambda each: each == "\n" or is_shown(each)))
    box.setTextFormat(Qt.TextFormat.PlainText)
    buttons = []
    for answer in answers:
        button = box.addButton(answer, QMessageBox.ButtonRole.ActionRole)
        assert button is not None
        buttons.append(button)
    box.setDefaultButton(buttons[by_enter])
    box.setEscapeButton(buttons[-1])
    fit(box)
    with _back_to(over, box):
        box.exec()
    clicked = box.clickedButton()
    places = (n for n, button in enumerate(buttons) if button is clicked)
    return next(places, len(buttons) - 1)


def offer(
    over: QWidget | None,
    title: str,
    sentence: str,
    answers: Sequence[str],
    typed: Callable[[str], None],
    *by_enter: int,
    holding: Holding | None = None,
) -> int:
    """Asks what no key has asked for: a text that is typed on there is no answer, and is handed on.

    Qt would take the first letter of an answer for it, Space for the answer that has the focus, and the
    Enter after the text too.
    """
    with taking_at_offer(typed, holding):
        return choice(over, title, sentence, answers, *by_enter)


def ask(
    over: QWidget | None,
    title: str,
    sentence: str,
    answers: Sequence[str],
    typed: Callable[[str], None],
    holding: Holding | None = None,
    *by_enter: int,
) -> int:
    """Asks what a key has asked for: the same, but Space alone answers once that could be read.

    It is the first of a text if a letter comes soon after it.
    """
    with taking_at_question(typed, holding):
        return choice(over, title, sentence, answers, *by_enter)


def text(
    over: QWidget,
    title: str,
    asked: str,
    first: str = "",
    changed: Callable[[str], None] | None = None,
    why: str = "",
) -> str | None:
    """Asks for a line; none where it is given up.

    Where it is asked again, it is said first why, and what is typed comes in place of the line.
    """
    return _line(QInputDialog(over), title, asked, first, changed, why)


def text_further(
    over: QWidget,
    title: str,
    asked: str,
    first: str,
    changed: Callable[[str], None],
) -> str | None:
    """Asks for a line, of which a part was typed before, and stays where more is typed."""
    return _line(_LineFurther(over), title, asked, first, changed)


class _LineFurther(QInputDialog):
    """A line that is typed further: Qt selects all of it, which the next letter would replace."""

    def setVisible(self, visible: bool) -> None:
        """Has the caret be at the end, and selects nothing."""
        super().setVisible(visible)
        for line in within(self, QLineEdit):
            line.end(False)


def _line(
    dialog: QInputDialog,
    title: str,
    asked: str,
    first: str,
    changed: Callable[[str], None] | None,
    why: str = "",
) -> str | None:
    over = dialog.parentWidget()
    dialog.setWindowTitle(title)
    dialog.setLabelText(_whole(_after(why, asked)))
    dialog.setTextValue(first)
    fit(dialog, WIDTH)

    def typed(line: str) -> None:
        if changed is not None:
            changed(_in_a_line(line))

    dialog.textValueChanged.connect(typed)
    _take_until_answered(dialog, bool(why))
    with _back_to(over, dialog):
        return _in_a_line(dialog.textValue()) if dialog.exec() else None


def _take_until_answered(dialog: QDialog, is_again: bool = False) -> None:
    """Has lines of a dialog take what came before it was there, and nothing once it is answered.

    Letters that come after Enter, before it is gone, are no part of the answer, nor of what is
    answered where it is asked again.
    """
    take_what_came(dialog, is_again)
    for line in within(dialog, QLineEdit):
        dialog.accepted.connect(partial(line.setReadOnly, True))


def _in_a_line(typed: str) -> str:
    """What was typed on a line, where Qt leaves the ends of lines that were pasted."""
    return " ".join(lines_of(typed))


def _after(why: str, asked: str) -> str:
    """What is asked, after why it is asked again, if it is."""
    return f"{visible(why)} {asked}".lstrip()


def _whole(asked: str) -> str:
    """Words of which none is the key of a field, as the letter after “&” is otherwise."""
    return asked.replace("&", "&&")


def one_of(
    over: QWidget, title: str, asked: str, names: Sequence[str], first: int
) -> str | None:
    """Asks for one of several names; none where it is given up."""
    dialog, found = QDialog(over), _Names(title, names, first)
    dialog.setWindowTitle(title)
    found.itemDoubleClicked.connect(dialog.accept)
    column = QVBoxLayout(dialog)
    for part in (QLabel(asked), found, _ok_or_cancel(dialog)):
        column.addWidget(part)
    longest = max(map(dialog.fontMetrics().horizontalAdvance, (asked, *names)))
    fit(dialog, longest + BESIDE)
    with _back_to(over, dialog):
        return names[found.currentRow()] if dialog.exec() else None


class _Names(QListWidget):
    """Names of which one is chosen. Of a box that shows only that one Qt says nothing as another is."""

    def __init__(self, title: str, names: Sequence[str], first: int) -> None:
        super().__init__()
        self.setAccessibleName(title)
        self.addItems(names)
        self.setCurrentRow(first)

    def selectionCommand(
        self, index: QModelIndex, event: QEvent | None = None
    ) -> QItemSelectionModel.SelectionFlag:
        """One of the names is chosen at any time."""
        return stays_chosen(index, super().selectionCommand(index, event))

    def focusInEvent(self, event: QFocusEvent | None) -> None:
        """Tells a screen reader of the chosen name too, and not of the list alone."""
        if event is not None:
            super().focusInEvent(event)
            QTimer.singleShot(0, self._tell_of_name)

    def _tell_of_name(self) -> None:
        if self.hasFocus():
            self.currentChanged(self.currentIndex(), self.currentIndex())


def _ok_or_cancel(dialog: QDialog) -> QDialogButtonBox:
    """The buttons that end a dialog."""
    kinds = QDialogButtonBox.StandardButton
    buttons = QDialogButtonBox(kinds.Ok | kinds.Cancel)
    buttons.accepted.connect(dialog.accept)
    buttons.rejected.connect(dialog.reject)
    return buttons


def fields(
    over: QWidget,
    title: str,
    asked: Sequence[str],
    first: Sequence[str],
    checks: Sequence[str],
    changed: Callable[[list[str]], None] = lambda typed: None,
    why: str = "",
    holding: Sequence[bool] = (),
) -> tuple[list[str], list[bool]] | None:
    """Asks for several lines, and whether some things hold; none where it is given up. Again as for a line."""
    dialog = QDialog(over)
    dialog.setWindowTitle(title)
    column = QVBoxLayout(dialog)
    lines = [_LineOfSeveral(text) for text in first]
    asked = [_after(_whole(why), asked[0]), *asked[1:]]

    def typed() -> list[str]:
        return [_in_a_line(line.text()) for line in lines]

    for words, line in zip(asked, lines):
        label = QLabel(words)
        label.setBuddy(line)
        column.addWidget(label)
        column.addWidget(line)
        line.textChanged.connect(lambda _: changed(typed()))
    boxes = _checks(checks, holding)
    for part in (*boxes, _ok_or_cancel(dialog)):
        column.addWidget(part)
    lines[0].selectAll()
    # at once, since what came before is typed before the dialog has the keyboard
    lines[0].setFocus()
    fit(dialog, WIDTH)
    _take_until_answered(dialog, bool(why))
    with _back_to(over, dialog):
        is_given = dialog.exec()
    if not is_given:
        return None
    return typed(), [box.isChecked() for box in boxes]


def _checks(words: Sequence[str], holding: Sequence[bool]) -> list[QCheckBox]:
    """Boxes to be checked, of which some are."""
    boxes = [QCheckBox(each) for each in words]
    for box, holds in zip(boxes, holding):
        box.setChecked(holds)
    return boxes


class _LineOfSeveral(QLineEdit):
    """A line to which Tab goes: if it is empty, nothing of it is told before its name."""

    def focusInEvent(self, event: QFocusEvent | None) -> None:
        """Selects what there is."""
        if event is not None and not self.text():
            event = QFocusEvent(event.type(), Qt.FocusReason.OtherFocusReason)
        if event is not None:
            super().focusInEvent(event)


def report(over: QWidget, title: str, lines: Sequence[str]) -> None:
    """Shows lines that can be read one by one, until it is closed."""
    _Lines(over, title, lines, None).read()


def line_of(over: QWidget, title: str, lines: Sequence[str], first: int) -> int | None:
    """Shows lines that can be read one by one, and gives the place of the one that is gone to.

    The caret stands on the first one to be read; none is gone to where it is closed.
    """
    return _Lines(over, title, lines, first).read()


def font(over: QWidget, title: str, now: QFont) -> QFont | None:
    """Asks for a font; none where it is given up."""
    with _back_to(over):
        found, is_given = QFontDialog.getFont(now, over, title)
    return found if is_given else None


def file_to_read(
    over: QWidget | None, title: str, beside: Path, kinds: str
) -> Path | None:
    """Asks for a file that is there, beside another one to begin with."""
    folder = str(beside.absolute().parent)
    with _back_to(over):
        name, _ = QFileDialog.getOpenFileName(over, title, folder, kinds)
    return Path(name) if name else None


def folder(
    over: QWidget, title: str, asked: str, first: str, why: str = ""
) -> str | None:
    """Asks for the path of a folder, which may be typed or looked for; again as for a line."""
    dialog = QDialog(over)
    dialog.setWindowTitle(title)
    line, label = QLineEdit(first), QLabel(_after(_whole(why), asked))
    label.setBuddy(line)
    line.selectAll()

    def look() -> None:
        found = QFileDialog.getExistingDirectory(dialog, title, line.text())
        dialog.activateWindow()
        if found:
            line.setText(found)

    buttons = _ok_or_cancel(dialog)
    browse = QPushButton("&Look for a folder…")
    browse.setAutoDefault(False)
    browse.clicked.connect(look)
    buttons.addButton(browse, QDialogButtonBox.ButtonRole.ActionRole)
    column = QVBoxLayout(dialog)
    for part in (label, line, buttons):
        column.addWidget(part)
    # as above
    line.setFocus()
    fit(dialog, _FOLDER_WIDTH)
    _take_until_answered(dialog, bool(why))
    with _back_to(over, dialog):
        return line.text() if dialog.exec() else None


def file_to_write(over: QWidget, title: str, first: Path) -> Path | None:
    """Asks for a file that is written; that an older one goes is asked there."""
    with _back_to(over):
        name, _ = QFileDialog.getSaveFileName(over, title, str(first))
    return Path(name) if name else None


def new_file(over: QWidget | None, title: str, first: Path) -> Path | None:
    """Asks for a file that isn't there yet; of one that is nothing is asked there."""
    with _back_to(over):
        name, _ = QFileDialog.getSaveFileName(
            *(over, title, str(first)),
            options=QFileDialog.Option.DontConfirmOverwrite,
        )
    return Path(name) if name else None


class _Lines(QDialog):
    """Lines that are read, and perhaps one of them is gone to by Enter or a double click."""

    def __init__(
        self, over: QWidget, title: str, lines: Sequence[str], first: int | None
    ) -> None:
        super().__init__(over)
        self._over = over
        self.setWindowTitle(title)
        self._field = Read(title, True)
        self._field.setPlainText("\n".join(lines))
        column = QVBoxLayout(self)
        column.addWidget(self._field)
        buttons = QDialogButtonBox(QDialogButtonBox.StandardButton.Close)
        buttons.rejected.connect(self.reject)
        if first is not None:
            role = QDialogButtonBox.ButtonRole.AcceptRole
            buttons.addButton("&Go there", role)
            buttons.accepted.connect(self.accept)
            self._field.doubled.connect(self.accept)
            self._field.put_caret(sum(len(line) + 1 for line in lines[:first]))
        column.addWidget(buttons)
        self._field.entered.connect(self.accept)
        self._field.left.connect(self.reject)
        self._field.setFocus()
        fit(self, 640, 400)

    def read(self) -> int | None:
        """Shows them, and gives the line of the caret where that is gone to."""
        with _back_to(self._over, self):
            is_given = self.exec()
        return self._field.textCursor().blockNumber() if is_given else None


class _Cancel(QPushButton):
    """A button that Enter doesn't press, which may be meant for what was there before the dialog."""

    def __init__(self) -> None:
        super().__init__("Cancel")
        self.setAutoDefault(False)

    def keyPressEvent(self, event: QKeyEvent | None) -> None:
        """Presses it by any other key that does so."""
        if event is not None and event.key() not in ENTER:
            super().keyPressEvent(event)


class _Progress(QDialog):
    """What is said of something that takes long, and a button that ends it."""

    def __init__(
        self, over: QWidget, title: str, may_close: Callable[[], bool]
    ) -> None:
        super().__init__(over)
        self._may_close = may_close
        self.setWindowTitle(f"{title}: please wait")
        self._label = QLabel(f"{title}. Please wait.")
        self._cancel = _Cancel()
        self._cancel.clicked.connect(self.reject)
        column = QVBoxLayout(self)
        column.addWidget(self._label)
        column.addWidget(self._cancel)
        fit(self, WIDTH, 120)
        self.said = ""
        self.is_stopped = False

    def look(self) -> None:
        """Shows what was said last, and closes once that may be."""
        self._tell()
        if self._may_close():
            self.accept()

    def _tell(self) -> None:
        if self.said and not self.is_stopped:
            self._label.setText(self.said)
            # it doesn't become lower again, so that its button stays where it is
            height = self.heightForWidth(self.width())
            fit(self, self.width(), max(self.height(), height))

    def reject(self) -> None:
        """Has the work end, for which the dialog waits."""
        self.is_stopped = True
        self._label.setText("It ends after this step.")
        self._cancel.setEnabled(False)


def long(
    over: QWidget,
    worker: Worker,
    title: str,
    act: Callable[[Say, IsStopped], Result],
    typed: Callable[[str], None] = lambda text: None,
) -> Result:
    """What comes of something that takes long, with its progress shown, and a button that ends it.

    It is given what to say its progress with, and what says whether it is to end. A text that is
    typed there, by hands that don't know yet of the dialog, is handed on and presses nothing.
    """
    found: list[Future[Result]] = []
    # what comes in the moment in which a dialog closes, nobody gets
    dialog = _Progress(over, title, lambda: bool(found) and not worker.is_typed_on)

    def say(line: str) -> None:
        dialog.said = line

    def ended(future: Future[Result]) -> None:
        found.append(future)
        dialog.look()

    timer = QTimer()
    timer.timeout.connect(dialog.look)
    timer.start(_PACE_MILLISECONDS)
    worker.post(lambda: act(say, lambda: dialog.is_stopped), ended)
    shown_at = time.monotonic() + _SHOWN_AFTER_SECONDS
    worker.wait_until(
        lambda: bool(found) or time.monotonic() >= shown_at and not worker.is_typed_on
    )
    with _back_to(over, dialog):
        if not found:
            with taking_at_progress(typed):
                dialog.exec()
        # if it isn't found the window is being ended, and the work is in the middle of a step
        dialog.is_stopped = True
        worker.wait_until(lambda: bool(found))
    timer.stop()
    return found[0].result()
