"""The window of a book: what is seen in it, and what of that is remembered."""

from collections.abc import Callable, Mapping, Sequence
from pathlib import Path

from PyQt6.QtCore import QEvent, QSettings, QSize, Qt, QTimer, pyqtSignal
from PyQt6.QtGui import (
    QCloseEvent,
    QDragEnterEvent,
    QDragMoveEvent,
    QDropEvent,
    QFont,
    QKeyEvent,
    QKeySequence,
    QResizeEvent,
)
from PyQt6.QtWidgets import (
    QApplication,
    QDockWidget,
    QFrame,
    QLabel,
    QMainWindow,
    QScrollArea,
    QSplitter,
    QVBoxLayout,
    QWidget,
)

from braildesk.text.characters import is_visible, visible
from braildesk.text.excerpt import opening
from braildesk.text.spans import Span

from scribe.window.fields import AROUND, Cells, Field, Print, files_of, take_copy
from scribe.window.menus import Menus
from scribe.window.paragraphs import WORDS, Paragraphs, Table
from scribe.window.spoken import Spoken

#: Round dots, and cells that are all equally wide.
CELLS_FONT = "DejaVu Serif"
_PRINT_FONT = "DejaVu Sans"
_PRINT_POINTS, _CELL_POINTS = 14.0, 20.0
_LEAST_POINTS, _MOST_POINTS = 6.0, 72.0
_LARGER = 1.15
# how large a window is at first, where the screen is
_SIZE = QSize(960, 720)
# how the table, the texts and the marks share the room
_HEIGHTS = [180, 270, 70]
# the lines of the place and of the message, and those where the window has fewer lines in all
_LINES, _LINES_IF_LOW = (2, 3), (1, 2)
_LOW = 20
_MARGIN = 6
_PAGE_WIDTH = 360
# so many columns of the name of a file are in a title
_TITLE = 80


def title_of(name: str) -> str:
    """The name of a file as the title of a window."""
    # of “[*]” Qt would make a sign of its own, unless it stands there twice
    return opening(visible(name, is_visible), _TITLE).replace("[*]", "[*]" * 2)


class Window(QMainWindow):
    """The paragraphs of a book, the print and the cells of the chosen one, and what is said."""

    #: A file was dropped on the window; or so many at once.
    dropped = pyqtSignal(Path)
    several_dropped = pyqtSignal(int)
    #: Something was pasted into the paragraphs or the braille.
    pasted = pyqtSignal()
    #: A dialog was opened over the window, or none is any more.
    covered = pyqtSignal(bool)

    def __init__(
        self,
        name: str,
        ask: Callable[[Sequence[int]], None],
        acts: Mapping[str, Callable[[], None]],
        is_closing: Callable[[], bool],
    ) -> None:
        super().__init__()
        self._is_closing = is_closing
        # the part that has the focus again once a dialog is answered
        self._later: QWidget | None = None
        self.setWindowTitle(title_of(name))
        self.setAcceptDrops(True)
        self.model = Paragraphs(ask)
        self.table = Table(self.model, self._letter)
        self.print = Print()
        self.cells = Cells("Braille", self._letter)
        self.marks = Field("Marks", True)
        self.here = Field("Place", True)
        self.message = Field("Message", True)
        self.page = Field("Page", True)
        self.print_label = QLabel()
        # at once, since keys that came with this one are obeyed before what is done later
        self.menus = Menus(self, {**acts, "leave": self.close})
        self.spoken = Spoken(self)
        self.print.entered.connect(self.spoken.note_enter)
        self._lay_out()
        self._settings = QSettings("braildesk", "window")
        self._restore()

    def _lay_out(self) -> None:
        halves = QSplitter(Qt.Orientation.Vertical)
        halves.setObjectName("halves")
        halves.addWidget(self._column(QLabel("Paragraphs"), self.table))
        cells, marks = QLabel("Braille"), QLabel("Marks")
        paragraph = self._column(self.print_label, self.print, cells, self.cells)
        halves.addWidget(paragraph)
        halves.addWidget(self._column(marks, self.marks))
        halves.setSizes(_HEIGHTS)
        for part, height in enumerate(_HEIGHTS):
            halves.setStretchFactor(part, height)
        self.halves = halves
        self._scroll = self._scrolled(halves)
        place = QLabel("Place")
        said = QLabel("Message")
        whole = self._column(self._scroll, place, self.here, said, self.message)
        column = whole.layout()
        assert column is not None
        column.setContentsMargins(_MARGIN, _MARGIN, _MARGIN, _MARGIN)
        self.setCentralWidget(whole)
        self._share_room()
        self.dock = QDockWidget("Page", self)
        self.dock.setObjectName("page")
        self.dock.setWidget(self.page)
        self.page.setMinimumWidth(_PAGE_WIDTH)
        self.addDockWidget(Qt.DockWidgetArea.RightDockWidgetArea, self.dock)
        self.dock.hide()
        self.page.setLineWrapMode(Field.LineWrapMode.NoWrap)

    def _scrolled(self, whole: QWidget) -> QScrollArea:
        """What shows a part of something where a screen is too low for all, as with large letters."""
        area = QScrollArea()
        area.setWidget(whole)
        area.setWidgetResizable(True)
        area.setFrameShape(QFrame.Shape.NoFrame)
        area.setFocusPolicy(Qt.FocusPolicy.NoFocus)
        application = QApplication.instance()
        assert isinstance(application, QApplication)
        application.focusChanged.connect(self._bring_in_sight)
        for field in (self.print, self.cells, self.marks):
            field.cursorPositionChanged.connect(self._bring_in_sight)
            field.resized.connect(self._bring_in_sight)
        return area

    def _bring_in_sight(self) -> None:
        """Has the part with the focus, and its caret, be in sight."""
        part = self.focusWidget()
        if part is None or not self.halves.isAncestorOf(part):
            return
        self._scroll.ensureWidgetVisible(part, 0, 0)
        if isinstance(part, Field):
            caret, seen = part.cursorRect(), self._scroll.viewport()
            assert seen is not None
            at = part.mapTo(self.halves, caret.center())
            around = min(caret.height(), seen.height()) // 2
            self._scroll.ensureVisible(at.x(), at.y(), 0, around)

    def _share_room(self) -> None:
        """Leaves room for what is worked on, also where letters are large or the window is low."""
        is_low = self.height() < _LOW * self.fontMetrics().lineSpacing()
        lines = _LINES_IF_LOW if is_low else _LINES
        for field, count in zip((self.here, self.message), lines):
            height = field.fontMetrics().lineSpacing() * count + 2 * AROUND
            field.setFixedHeight(height)

    def event(self, event: QEvent | None) -> bool:
        """Says that a dialog was opened over this, or that none is any more."""
        if event is None:
            return False
        kind, kinds = event.type(), QEvent.Type
        if kind == kinds.WindowUnblocked:
            self._hold_focus()
        if kind in (kinds.WindowBlocked, kinds.WindowUnblocked):
            self.covered.emit(kind == kinds.WindowBlocked)
        return super().event(event)

    def _hold_focus(self) -> None:
        """Has no part take the focus before it is known what a dialog was answered.

        A window manager gives this the keyboard as the dialog goes, and a screen reader would read the
        part as it was.
        """
        if self.focusWidget() not in (None, self):
            self._later = self.focusWidget()
            self.setFocus()

    def give_focus(self) -> None:
        """Gives the focus to the part that had it before a dialog."""
        later, self._later = self._later, None
        if later is not None and self.focusWidget() is self:
            later.setFocus()

    def resizeEvent(self, event: QResizeEvent | None) -> None:
        """What has the focus stays in sight."""
        if event is not None:
            super().resizeEvent(event)
            self._share_room()
            self._bring_in_sight()

    def _column(self, *parts: QWidget) -> QWidget:
        whole = QWidget()
        column = QVBoxLayout(whole)
        column.setContentsMargins(0, 0, 0, 0)
        for part in parts:
            column.addWidget(part)
        return whole

    def tell(self, sentence: str, is_besides: bool = False) -> None:
        """Shows something in the message. A screen reader says it too where a text takes the focus.

        It does so at once where the paragraphs have it, and where a text has it still. What is said
        besides what is done is said after what the text is by that.
        """
        self.message.show_text(sentence)
        focused = self.focusWidget()
        if focused is self.table:
            self.table.tell(sentence)
        if isinstance(focused, Field) and focused is not self.message:
            if is_besides:
                sentence = self.spoken.after_news(focused, sentence)
            focused.setAccessibleDescription(sentence)
            self.spoken.note(sentence)

    def choose(self, row: int) -> None:
        """Chooses a paragraph in the table."""
        index = self.model.index(row, WORDS)
        self.table.setCurrentIndex(index)
        self.table.scrollTo(index)

    def show_page(
        self, title: Sequence[str], lines: Sequence[str], line: int | None
    ) -> None:
        """Shows a page below its title, with a line lit on which its caret stands."""
        self.page.show_text("\n".join([*title, *lines]))
        text = self.page.text
        if line is None:
            self.page.light((), None)
            return
        start = sum(len(each) + 1 for each in (*title, *lines[:line]))
        self.page.light((), Span(start, start + len(lines[line])))
        self.page.put_caret(min(start, len(text)))
        self.page.ensureCursorVisible()

    def enlarge(self, by: int) -> None:
        """Has print and braille be larger, or smaller."""
        for field in (self.print, self.cells, self.page):
            family, points = field.font().family(), field.font().pointSizeF()
            points = max(_LEAST_POINTS, min(points * _LARGER**by, _MOST_POINTS))
            field.show_in(family, points)

    def take_cells_font(self, font: QFont) -> None:
        """Shows cells in a font that somebody chose."""
        for field in (self.cells, self.page):
            field.show_in(font.family(), font.pointSizeF())

    def remember(self) -> None:
        """Keeps the fonts, the sizes and the places of this window for the next one."""
        settings = self._settings
        for name, field in self._fonts().items():
            settings.setValue(f"{name}/family", field.font().family())
            settings.setValue(f"{name}/points", field.font().pointSizeF())
        settings.setValue("geometry", self.saveGeometry())
        settings.setValue("state", self.saveState())
        settings.setValue("halves", self.halves.saveState())
        settings.sync()

    def _restore(self) -> None:
        settings = self._settings
        usual = {
            "print": (_PRINT_FONT, _PRINT_POINTS),
            "cells": (CELLS_FONT, _CELL_POINTS),
            "page": (CELLS_FONT, _CELL_POINTS * 0.7),
        }
        for name, field in self._fonts().items():
            family, points = usual[name]
            family = settings.value(f"{name}/family", family, str)
            points = settings.value(f"{name}/points", points, float)
            points = max(_LEAST_POINTS, min(points, _MOST_POINTS))
            field.show_in(family, points)
        screen = self.screen()
        assert screen is not None
        self.resize(_SIZE.boundedTo(screen.availableSize()))
        if (value := settings.value("geometry")) is not None:
            self.restoreGeometry(value)
        if (value := settings.value("state")) is not None:
            self.restoreState(value)
        if (value := settings.value("halves")) is not None:
            self.halves.restoreState(value)
        # the page is laid out once it is asked for
        self.dock.hide()

    def _fonts(self) -> dict[str, Field]:
        return {"print": self.print, "cells": self.cells, "page": self.page}

    def _letter(self, event: QKeyEvent) -> bool:
        if event.matches(QKeySequence.StandardKey.Paste):
            self.pasted.emit()
            return True
        return self.menus.letter(event)

    def dragEnterEvent(self, event: QDragEnterEvent | None) -> None:
        """Takes files of which a copy is offered: one is read where it is, and of several that is said."""
        data = event.mimeData() if event is not None else None
        if event is not None and data is not None and files_of(data):
            take_copy(event)

    def dragMoveEvent(self, event: QDragMoveEvent | None) -> None:
        """Takes what came in, as a copy still."""
        if event is not None:
            take_copy(event)

    def dropEvent(self, event: QDropEvent | None) -> None:
        """Says which file was dropped, once the program from which it comes waits no more."""
        data = event.mimeData() if event is not None else None
        files = files_of(data) if data is not None else []
        if event is not None and files and take_copy(event):
            QTimer.singleShot(0, lambda: self._tell_of(files))

    def _tell_of(self, files: Sequence[Path]) -> None:
        if len(files) == 1:
            self.dropped.emit(files[0])
        else:
            self.several_dropped.emit(len(files))

    def closeEvent(self, event: QCloseEvent | None) -> None:
        """Ends the work on the book, unless there is something to see to first."""
        if event is None:
            return
        if self._is_closing():
            self.remember()
            event.accept()
        else:
            event.ignore()
