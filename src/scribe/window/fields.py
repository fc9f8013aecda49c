"""Texts that are read or typed: the print of a paragraph, its cells, and what is said of them.

Qt counts places in UTF-16, where a character beyond U+FFFF has two; all others here count characters.
"""

import re
from collections.abc import Callable, Sequence
from functools import partial
from pathlib import Path

from PyQt6.QtCore import (
    QEvent,
    QItemSelectionModel,
    QMimeData,
    QModelIndex,
    QObject,
    Qt,
    QTimer,
    pyqtSignal,
)
from PyQt6.QtGui import (
    QDragEnterEvent,
    QDragMoveEvent,
    QDropEvent,
    QFocusEvent,
    QFont,
    QInputMethodEvent,
    QKeyEvent,
    QKeySequence,
    QMouseEvent,
    QPalette,
    QResizeEvent,
    QTextCharFormat,
    QTextCursor,
    QTextDocumentFragment,
    QWindow,
)
from PyQt6.QtWidgets import QFrame, QPlainTextEdit, QTextEdit

from braildesk.text import limits
from braildesk.text.spans import Span

from scribe.words.typed_last import PARTED

#: The characters that may be typed in one paragraph until Enter parts it, and that may be pasted as
#: lines: Qt lays a paragraph out anew at each key, and what is typed has to have room where it waits.
MOST_OF_ONE, MOST_OF_LINES = 25 * limits.PRINT_CHARACTERS, 125 * limits.PRINT_CHARACTERS
#: How wide the line around the part is that has the focus, and around the others.
FRAME_WITH_FOCUS, _FRAME = 3, 1
#: What is above and below the lines of a text, in pixels.
AROUND = FRAME_WITH_FOCUS + 5
# so many lines of a text are seen at least, in any font
_LEAST_LINES = 2
_BEYOND = "\U00010000"
#: The keys of Enter.
ENTER = Qt.Key.Key_Return, Qt.Key.Key_Enter
# keys that may go elsewhere, where what is typed is no part of the word before it
_ELSEWHERE = frozenset(
    (
        *(Qt.Key.Key_Tab, Qt.Key.Key_Backtab, Qt.Key.Key_Escape),
        *(Qt.Key.Key_Left, Qt.Key.Key_Right, Qt.Key.Key_Up, Qt.Key.Key_Down),
        *(Qt.Key.Key_Home, Qt.Key.Key_End, Qt.Key.Key_PageUp, Qt.Key.Key_PageDown),
        *(Qt.Key(number) for number in range(Qt.Key.Key_F1, Qt.Key.Key_F12 + 1)),
    )
)
#: What Qt puts where a line of a text ends.
LINE_END = "\u2029"
_LINE_END = re.compile(f"\r\n|[\r\n{LINE_END}]")


def units(text: str, place: int) -> int:
    """Where Qt counts the character of a text that is at a place."""
    if not text or max(text) < _BEYOND:
        return place
    return len(text[:place].encode("utf-16-le", "surrogatepass")) // 2


def characters(text: str, unit: int) -> int:
    """The place of the character that Qt counts there, also by its second half."""
    if not text or max(text) < _BEYOND:
        return min(unit, len(text))
    passed = place = 0
    for place, character in enumerate(text):
        passed += 1 if character < _BEYOND else 2
        if passed > unit:
            return place
    return len(text)


class Field(QPlainTextEdit):
    """A text. Its caret is there also where it is read only."""

    #: Enter was pressed; or Escape.
    entered = pyqtSignal()
    left = pyqtSignal()
    #: A word was clicked on twice.
    doubled = pyqtSignal()
    #: Characters were typed where nothing can be typed; none where something was pasted.
    typed_on = pyqtSignal(str)
    #: It has another size, in which its caret is in sight.
    resized = pyqtSignal()

    def __init__(self, name: str, is_read_only: bool) -> None:
        self._lights: tuple[Sequence[Span], Span | None] = (), None
        self._font: QFont | None = None
        super().__init__()
        #: What a screen reader says that this is.
        self.described = ""
        self.selectionChanged.connect(lambda: self.light(*self._lights))
        self._frame(False)
        self.setAccessibleName(name)
        self.setTabChangesFocus(True)
        self.setReadOnly(is_read_only)
        if is_read_only:
            keys = Qt.TextInteractionFlag.TextSelectableByKeyboard
            mouse = Qt.TextInteractionFlag.TextSelectableByMouse
            self.setTextInteractionFlags(keys | mouse)

    @property
    def lines(self) -> int:
        """How many lines the text takes here."""
        document = self.document()
        assert document is not None
        return round(document.size().height())

    def describe(self, said: str) -> None:
        """Has a screen reader say what this is, each time it takes the focus."""
        self.described = said
        self.setAccessibleDescription(said)

    def focusInEvent(self, event: QFocusEvent | None) -> None:
        """It is seen to have the focus."""
        if event is not None:
            super().focusInEvent(event)
            self._frame(True)

    def focusOutEvent(self, event: QFocusEvent | None) -> None:
        """What was said once isn't said again when this takes the focus."""
        if event is not None:
            super().focusOutEvent(event)
            self._frame(False)
            self.setAccessibleDescription(self.described)

    def show_in(self, family: str, size: float) -> None:
        """Shows the text in a font, of a size in points."""
        self._font = QFont(family)
        self._font.setPointSizeF(size)
        self.setFont(self._font)
        lines = self.fontMetrics().lineSpacing() * _LEAST_LINES
        self.setMinimumHeight(lines + 2 * AROUND)

    def changeEvent(self, event: QEvent | None) -> None:
        """What is lit has the colours of the desktop, which may be others now; the font stays."""
        if event is None:
            return
        super().changeEvent(event)
        if event.type() == QEvent.Type.PaletteChange:
            self.light(*self._lights)
        # a style that goes takes along what was set while it was there
        if event.type() == QEvent.Type.StyleChange and self._font is not None:
            self.setFont(self._font)

    def event(self, event: QEvent | None) -> bool:
        """The caret stays in sight where this has another size, as beside the page."""
        if event is None:
            return False
        is_done = super().event(event)
        # Qt tells of the same size as the frame becomes wider
        if isinstance(event, QResizeEvent) and event.size() != event.oldSize():
            self.ensureCursorVisible()
            self.resized.emit()
        return is_done

    def _frame(self, has_focus: bool) -> None:
        width = frame(self, has_focus)
        # the text stays where it is
        margin = FRAME_WITH_FOCUS - width
        self.setViewportMargins(margin, margin, margin, margin)

    @property
    def text(self) -> str:
        """The text as it is: `toPlainText` makes blanks of no-break spaces."""
        document = self.document()
        assert document is not None
        return document.toRawText()

    @property
    def line(self) -> str:
        """The line in which the caret stands, as it is shown."""
        cursor, kinds = self.textCursor(), QTextCursor.MoveOperation
        cursor.movePosition(kinds.StartOfLine)
        cursor.movePosition(kinds.EndOfLine, QTextCursor.MoveMode.KeepAnchor)
        return cursor.selectedText()

    @property
    def place(self) -> int:
        """The character on which the caret stands."""
        return characters(self.text, self.textCursor().position())

    @property
    def selected(self) -> Span:
        """The characters that are selected."""
        cursor, text = self.textCursor(), self.text
        start = characters(text, cursor.selectionStart())
        return Span(start, characters(text, cursor.selectionEnd()))

    def show_text(self, text: str) -> None:
        """Shows another text, if it is another one, of one line or of several."""
        if text.replace("\n", LINE_END) != self.text:
            self.setPlainText(text)

    def put_caret(self, place: int) -> None:
        """Puts the caret on a character, and selects nothing.

        The text may be shorter than the one of which the place is known.
        """
        cursor, text = self.textCursor(), self.text
        unit = units(text, min(place, len(text)))
        if cursor.position() != unit or cursor.hasSelection():
            cursor.setPosition(unit)
            self.setTextCursor(cursor)

    def select(self, span: Span) -> None:
        """Selects characters, with the caret on the first of them."""
        text, cursor = self.text, self.textCursor()
        cursor.setPosition(units(text, span.stop))
        cursor.setPosition(units(text, span.start), QTextCursor.MoveMode.KeepAnchor)
        self.setTextCursor(cursor)

    def select_from(self, anchor: int, position: int) -> None:
        """Selects what is between two places as Qt counts them, with the caret on the second one."""
        cursor = self.textCursor()
        cursor.setPosition(anchor)
        cursor.setPosition(position, QTextCursor.MoveMode.KeepAnchor)
        self.setTextCursor(cursor)

    def show_on_display(self) -> None:
        """Has a display of braille show this again, as where something comes to be selected, or not any more."""
        now, other = self.textCursor(), self.textCursor()
        place = now.position()
        other.setPosition(place - 1 if place else min(1, len(self.text)))
        other.setPosition(place, QTextCursor.MoveMode.KeepAnchor)
        if now.hasSelection():
            other.clearSelection()
        self.blockSignals(True)
        try:
            self.setTextCursor(other)
            self.setTextCursor(now)
        finally:
            self.blockSignals(False)

    def light(self, marked: Sequence[Span], lit: Span | None) -> None:
        """Underlines what is marked, and lights what belongs to the caret, for the eye alone.

        A screen reader is told of neither; what they mean is said in words elsewhere.
        """
        self._lights = marked, lit
        underlined, ground = _underlined(QTextCharFormat()), QTextCharFormat()
        palette = self.palette()
        ground.setBackground(palette.brush(QPalette.ColorRole.Highlight))
        ground.setForeground(palette.brush(QPalette.ColorRole.HighlightedText))
        stretches = [(each, underlined) for each in marked]
        # what is selected has the same ground, and what is lit beside it would seem to be selected
        if lit is not None and not self.textCursor().hasSelection():
            stretches.append((lit, ground))
            both = _underlined(QTextCharFormat(ground))
            stretches += [(_common(each, lit), both) for each in marked]
        text, found = self.text, []
        for span, form in stretches:
            if not span.start < span.stop <= len(text):
                continue
            cursor, stop = self.textCursor(), units(text, span.stop)
            cursor.setPosition(units(text, span.start))
            cursor.setPosition(stop, QTextCursor.MoveMode.KeepAnchor)
            its = QTextEdit.ExtraSelection()
            # the cursor that this gives back would lead to it, and it to the cursor
            its.cursor, its.format = cursor, form
            found.append(its)
        self.setExtraSelections(found)

    def keyPressEvent(self, event: QKeyEvent | None) -> None:
        """Enter and Escape are keys of the desk; no other line begins in a paragraph."""
        if event is None:
            return
        key = event.key()
        if key in ENTER:
            self.entered.emit()
        elif key == Qt.Key.Key_Escape:
            self.left.emit()
        elif self.isReadOnly() and event.matches(QKeySequence.StandardKey.Paste):
            self.typed_on.emit("")
        else:
            if self.isReadOnly() and is_letter(event):
                self.typed_on.emit(event.text())
            super().keyPressEvent(event)

    def inputMethodEvent(self, event: QInputMethodEvent | None) -> None:
        """What dead keys and input methods make is typed as a letter is, and not into what is read."""
        if event is None:
            return
        if not self.isReadOnly():
            super().inputMethodEvent(event)
        elif event.commitString():
            self.typed_on.emit(event.commitString())

    def mouseDoubleClickEvent(self, event: QMouseEvent | None) -> None:
        """Says that a word was clicked on twice."""
        if event is not None:
            super().mouseDoubleClickEvent(event)
            self.doubled.emit()


class Print(Field):
    """The print of a paragraph, which is typed."""

    #: A text was pasted or dropped, whatever becomes of it.
    text_came = pyqtSignal(str)
    #: Several lines were pasted, or dropped, with an empty one after them if the last was ended, or a
    #: blank; or files; or what has no text.
    pasted = pyqtSignal(list)
    lines_dropped = pyqtSignal(list)
    files_pasted = pyqtSignal(list)
    nothing_pasted = pyqtSignal()
    #: More was pasted than may be: so many characters, of so many at most, and whether it was dropped;
    #: and these lines if it was, which some programs have no more by then.
    too_much_pasted = pyqtSignal(int, int, bool)
    too_much_dropped = pyqtSignal(list)

    def __init__(self) -> None:
        super().__init__("Print", False)
        self._is_dropped = self._may_begin_drag = False
        # what is selected while it is dragged from here
        self._dragged: QTextCursor | None = None

    def event(self, event: QEvent | None) -> bool:
        """Undo is an action of the desk, which knows whether something is typed.

        So is what the key of redo does where nothing typed was taken back.
        """
        if event is None:
            return False
        if event.type() == QEvent.Type.ShortcutOverride and isinstance(
            event, QKeyEvent
        ):
            kinds = QKeySequence.StandardKey
            is_redo = event.matches(kinds.Redo) and not self.may_be_typed_again
            if is_redo or event.matches(kinds.Undo):
                event.ignore()
                return False
        return super().event(event)

    def put_in(self, text: str) -> None:
        """Has a text come where the caret is, or in place of what is selected, as a step of its own.

        Qt joins what is typed to what came just before it, unless the document is as it was saved.
        """
        document = self.document()
        assert document is not None
        document.setModified(False)
        self.textCursor().insertText(text)
        document.setModified(False)

    @property
    def may_be_typed_again(self) -> bool:
        """Whether something that was typed was taken back, and is typed again by a key."""
        document = self.document()
        assert document is not None
        return document.isRedoAvailable()

    def have_kept(self) -> None:
        """What was typed is kept, and isn't taken back as what is typed any more."""
        document = self.document()
        assert document is not None
        document.clearUndoRedoStacks()

    def insertFromMimeData(self, source: QMimeData | None) -> None:
        """One line goes in where the caret is; of several it is asked what they are."""
        if source is None:
            return
        files = files_of(source)
        if files:
            self.files_pasted.emit(files)
            return
        text = text_of(source)
        self.text_came.emit(text)
        if not text:
            self._after_drop(self.nothing_pasted.emit)
            return
        lines = lines_of(text)
        if self._is_too_much(lines):
            return
        if len(lines) > 1:
            found = _with_end(self._parted(lines, text), text)
            (self.lines_dropped if self._is_dropped else self.pasted).emit(found)
        elif lines:
            self.put_in(*self._parted(lines, text))
        # the caret is seen where the text ends
        self.ensureCursorVisible()

    def _is_too_much(self, lines: list[str]) -> bool:
        """Whether lines are too long to be pasted here, which is said then."""
        here, found = self.selected, list(map(len, lines))
        others = len(self.text) - (here.stop - here.start)
        for count, most in (
            (others + max(found, default=0), MOST_OF_ONE),
            (others + sum(found), MOST_OF_LINES),
        ):
            if count > most:
                its = count, most, self._is_dropped
                self._after_drop(partial(self.too_much_pasted.emit, *its))
                if self._is_dropped:
                    self._after_drop(partial(self.too_much_dropped.emit, lines))
                return True
        return False

    def _after_drop(self, say: Callable[[], None]) -> None:
        """Says something, after a drop if this is one: Qt tells of another text then, also of the same."""
        if self._is_dropped:
            QTimer.singleShot(0, say)
        else:
            say()

    def _parted(self, lines: list[str], text: str) -> list[str]:
        """Lines of a text, parted by a blank from words here if it has one there or an end of a line."""
        here = self.selected
        front, back = self.text[: here.start], self.text[here.stop :]
        *above, last = lines
        if not above and text[-1:].isspace() and _are_run_together(last, back):
            last += " "
        first, *others = [*above, last]
        if text[:1].isspace() and _are_run_together(front, first):
            first = f" {first}"
        return [first, *others]

    def mouseMoveEvent(self, event: QMouseEvent | None) -> None:
        """What is dragged from here stays here, unless it is dropped here.

        Qt takes away what is selected after it, if another program moves it or doesn't answer yet.
        """
        if event is None:
            return
        self._may_begin_drag = True
        try:
            super().mouseMoveEvent(event)
        finally:
            self._may_begin_drag = False
            self._select_dragged()

    def createMimeDataFromSelection(self) -> QMimeData:
        """Has nothing be selected while that is dragged."""
        data = super().createMimeDataFromSelection()
        if self._may_begin_drag:
            self._may_begin_drag = False
            self._dragged = self.textCursor()
            self.put_caret(self.place)
        return data

    def _select_dragged(self) -> None:
        """Has what was dragged be selected as before."""
        dragged, self._dragged = self._dragged, None
        if dragged is not None and dragged.hasSelection():
            self.setTextCursor(dragged)

    def dragEnterEvent(self, event: QDragEnterEvent | None) -> None:
        """Says while a text is dragged that it is copied: its program may ask no later."""
        if event is not None:
            super().dragEnterEvent(event)
            self._copy(event)

    def dragMoveEvent(self, event: QDragMoveEvent | None) -> None:
        """Says so at each place."""
        if event is not None:
            super().dragMoveEvent(event)
            self._copy(event)

    def dropEvent(self, event: QDropEvent | None) -> None:
        """A text that is dropped stays where it comes from, also if it isn't typed in the end."""
        if event is None:
            return
        if self._is_own(event):
            self._select_dragged()
        elif not take_copy(event):
            return
        self._is_dropped = True
        try:
            super().dropEvent(event)
        finally:
            self._is_dropped = False
        self._copy(event)

    def _copy(self, event: QDropEvent) -> None:
        """Has what is taken stay where it comes from, unless that is this text."""
        if event.isAccepted() and not self._is_own(event):
            take_copy(event)

    def _is_own(self, event: QDropEvent) -> bool:
        return event.source() is self.viewport()

    def canInsertFromMimeData(self, source: QMimeData | None) -> bool:
        """Text goes in; a file that is dropped is for the window."""
        is_text = source is not None and (source.hasText() or source.hasHtml())
        return source is not None and is_text and not source.hasUrls()


class Read(Field):
    """Lines of a dialog, in which nothing is typed."""


class Cells(Field):
    """The cells of a paragraph, where a letter is a key of the desk."""

    def __init__(self, name: str, letter: Callable[[QKeyEvent], bool]) -> None:
        super().__init__(name, True)
        self._letter = letter

    def keyPressEvent(self, event: QKeyEvent | None) -> None:
        """Has a letter do what its action does."""
        if event is None or not self._letter(event):
            super().keyPressEvent(event)


def is_letter(event: QKeyEvent) -> bool:
    """Whether a key types something, and isn't one of the desk's."""
    keys = Qt.KeyboardModifier
    held = keys.ControlModifier | keys.AltModifier | keys.MetaModifier
    text = event.text()
    return bool(text) and text.isprintable() and not event.modifiers() & held


def typed_by(event: QEvent | None, to: QObject | None) -> str:
    """What a key types in a window, whatever it is for there, or what an input method hands over."""
    if isinstance(event, QInputMethodEvent):
        return event.commitString()
    if not (isinstance(event, QKeyEvent) and isinstance(to, QWindow)):
        return ""
    if event.type() != QEvent.Type.KeyPress:
        return ""
    if event.key() in ENTER:
        return "\n"
    return event.text() if is_letter(event) else PARTED * (event.key() in _ELSEWHERE)


def frame(area: QFrame, has_focus: bool) -> int:
    """Draws a line around a part in the colour of texts, and gives its width.

    It is wider where the focus is. Styles draw it in a shade of the ground, which isn't seen on black.
    """
    width = FRAME_WITH_FOCUS if has_focus else _FRAME
    area.setFrameStyle(QFrame.Shape.Box | QFrame.Shadow.Plain)
    area.setLineWidth(width)
    return width


def stays_chosen(
    index: QModelIndex, command: QItemSelectionModel.SelectionFlag
) -> QItemSelectionModel.SelectionFlag:
    """What is done where a view of Qt would show that nothing is chosen any more.

    It would at a click with Ctrl, and at one below the last row; it acts on what was chosen still.
    """
    flags = QItemSelectionModel.SelectionFlag
    stays = not index.isValid() or bool(command & flags.Deselect)
    return flags.NoUpdate if stays else command


def _underlined(form: QTextCharFormat) -> QTextCharFormat:
    form.setFontUnderline(True)
    form.setUnderlineStyle(QTextCharFormat.UnderlineStyle.DashUnderline)
    return form


def _common(one: Span, other: Span) -> Span:
    return Span(max(one.start, other.start), min(one.stop, other.stop))


def take_copy(event: QDropEvent) -> bool:
    """Takes a copy of what is dragged, and nothing that can only be moved; whether it is taken."""
    copy = Qt.DropAction.CopyAction
    is_offered = bool(event.possibleActions() & copy)
    if is_offered:
        event.setDropAction(copy)
    event.setAccepted(is_offered)
    return is_offered


def files_of(source: QMimeData) -> list[Path]:
    """The files that were copied or dragged in a manager of files; none where it is anything else."""
    urls = source.urls()
    if not all(url.isLocalFile() for url in urls):
        return []
    return [Path(url.toLocalFile()) for url in urls]


def text_of(source: QMimeData) -> str:
    """The text that was copied, also of what some programs give in HTML alone."""
    if source.hasText() or not source.hasHtml():
        return source.text()
    return QTextDocumentFragment.fromHtml(source.html()).toPlainText()


def _are_run_together(before: str, after: str) -> bool:
    """Whether the words of two texts would be one, without a blank between them."""
    return bool(before[-1:].strip() and after[:1].strip())


def _with_end(lines: list[str], text: str) -> list[str]:
    """The lines of a text with what parts them from what comes after them, if anything does."""
    *above, last = lines
    end = _LINE_END.split(text)[-1]
    if not end.strip():
        return [*lines, ""]
    return [*above, last if end == end.rstrip() else f"{last} "]


def lines_of(text: str) -> list[str]:
    """The lines of a text that have something; one that is alone keeps its blanks."""
    lines = _LINE_END.split(text)
    if len(lines) == 1:
        return [line for line in lines if line]
    stripped = (line.replace("\t", " ").strip() for line in lines)
    return [line for line in stripped if line]
