"""The table of the paragraphs of a book."""

from collections.abc import Callable, Sequence
from typing import Any

from PyQt6.QtCore import (
    QAbstractTableModel,
    QEvent,
    QItemSelectionModel,
    QModelIndex,
    Qt,
    QTimer,
    pyqtSignal,
)
from PyQt6.QtGui import QFocusEvent, QKeyEvent
from PyQt6.QtWidgets import QAbstractItemView, QTableView

from braildesk import Paragraph, Style
from braildesk.text.characters import visible

from scribe.window.book import Opening
from scribe.window.fields import ENTER, frame, stays_chosen

_COLUMNS = ("Number", "Kind", "Open marks", "First words")
#: The column on which the cursor stands. A screen reader reads the row, cell by cell.
WORDS = len(_COLUMNS) - 1
_KIND = 1
# what is above and below the words of a row, in pixels
_ROW_MARGIN = 8
# what most rows have in the columns before the words, which is seen whole; and so many rows are seen
_USUAL = ("20,000", "heading", "10 open marks")
_LEAST_WIDTHS = (0, 140, 0)
_LEAST_ROWS = 2
# how many paragraphs are read at once
_BATCH = 128


class Paragraphs(QAbstractTableModel):
    """What is listed of paragraphs; those that weren't read yet are asked for once they are shown."""

    def __init__(self, ask: Callable[[Sequence[int]], None]) -> None:
        super().__init__()
        self._ask = ask
        self._book: tuple[Paragraph, ...] = ()
        self._openings: dict[int, Opening] = {}
        self._asked: set[int] = set()
        #: How often the book was another one; what was asked before may have been read before.
        self.turn = 0
        #: Where a screen reader is told something, by its row and column, and what.
        self.told: tuple[int, int, str] | None = None

    def rowCount(self, parent: QModelIndex = QModelIndex()) -> int:
        return 0 if parent.isValid() else len(self._book)

    def columnCount(self, parent: QModelIndex = QModelIndex()) -> int:
        return 0 if parent.isValid() else len(_COLUMNS)

    def headerData(
        self, section: int, orientation: Qt.Orientation, role: int = 0
    ) -> Any:
        is_shown = role == Qt.ItemDataRole.DisplayRole
        is_column = orientation == Qt.Orientation.Horizontal
        return _COLUMNS[section] if is_shown and is_column else None

    def data(self, index: QModelIndex, role: int = Qt.ItemDataRole.DisplayRole) -> Any:
        if not index.isValid():
            return None
        its, column = self._book[index.row()], index.column()
        if role == Qt.ItemDataRole.AccessibleDescriptionRole and self.told is not None:
            *where, said = self.told
            return said if where == [index.row(), column] else None
        if role != Qt.ItemDataRole.DisplayRole:
            return None
        if column < 2:
            return (str(its.id), kind(its))[column]
        found = self._openings.get(its.id)
        if found is None:
            self._read(index.row())
            return ""
        return (_marks(found), visible(found.words))[column - 2]

    def show(self, book: tuple[Paragraph, ...], changed: int | None = None) -> None:
        """Shows a book, of which one paragraph may read otherwise than before."""
        before, self._asked = self._book, set()
        self.turn += 1
        if changed is not None:
            self._openings.pop(changed, None)
        old, new = [each.id for each in before], [each.id for each in book]
        if old == new:
            self._book = book
            pairs = enumerate(zip(before, book))
            rows = [
                n
                for n, (was, its) in pairs
                # most of them are the same, which is seen soonest so
                if its.id == changed or was is not its and was != its
            ]
            for row in rows:
                self._tell(row, row)
        elif len(new) == len(old) + 1 and (place := _only_new(old, new)) is not None:
            self.beginInsertRows(QModelIndex(), place, place)
            self._book = book
            self.endInsertRows()
        else:
            self.beginResetModel()
            self._book = book
            self._openings = {} if changed is None else self._openings
            self.endResetModel()

    def take(self, found: dict[int, Opening], turn: int) -> None:
        """Takes what was read of paragraphs, or has it read again if the book is another one."""
        if turn == self.turn:
            self._openings |= found
        rows = [n for n, each in enumerate(self._book) if each.id in found]
        if rows:
            self._tell(rows[0], rows[-1])

    def all_unread(self) -> None:
        """Forgets what was read."""
        self._openings, self._asked = {}, set()
        self.turn += 1
        if self._book:
            self._tell(0, len(self._book) - 1)

    def be_as_new(self) -> None:
        """Has each cell be another one for a screen reader, which hears nothing of one that it has."""
        self.layoutAboutToBeChanged.emit()
        self.layoutChanged.emit()

    def _tell(self, first: int, last: int) -> None:
        self.dataChanged.emit(self.index(first, 0), self.index(last, WORDS))

    def _read(self, row: int) -> None:
        """Asks for a paragraph and for those around it."""
        if row in self._asked:
            return
        first = row - row % _BATCH
        rows = range(first, min(first + _BATCH, len(self._book)))
        self._asked |= set(rows)
        numbers = [self._book[each].id for each in rows]
        self._ask([each for each in numbers if each not in self._openings])


class Table(QTableView):
    """The paragraphs as they are seen, of which one is chosen."""

    #: Enter was pressed where there is none.
    entered_empty = pyqtSignal()

    def __init__(self, model: Paragraphs, letter: Callable[[QKeyEvent], bool]) -> None:
        super().__init__()
        self._letter = letter
        self._model = model
        # the row of which a screen reader was told last, unless all rows are other ones by now
        self._told_of, self._is_reset = -1, False
        self.setModel(model)
        self.setAccessibleName("Paragraphs")
        self.setSelectionBehavior(QAbstractItemView.SelectionBehavior.SelectRows)
        self.setSelectionMode(QAbstractItemView.SelectionMode.SingleSelection)
        self.setEditTriggers(QAbstractItemView.EditTrigger.NoEditTriggers)
        self.setTabKeyNavigation(False)
        self.setWordWrap(False)
        frame(self, False)
        header, numbers = self.horizontalHeader(), self.verticalHeader()
        assert header is not None and numbers is not None
        header.setStretchLastSection(True)
        header.setHighlightSections(False)
        numbers.hide()
        self._measure()

    def _measure(self) -> None:
        """Has the rows and the columns be as large as the letters."""
        header, numbers = self.horizontalHeader(), self.verticalHeader()
        assert header is not None and numbers is not None
        row = self.fontMetrics().lineSpacing() + _ROW_MARGIN
        numbers.setDefaultSectionSize(row)
        for column in range(WORDS):
            words = self.fontMetrics().horizontalAdvance(_USUAL[column]) + _ROW_MARGIN
            least = max(words, header.sectionSizeHint(column), _LEAST_WIDTHS[column])
            header.resizeSection(column, least)
        height = header.sizeHint().height() + _LEAST_ROWS * row
        self.setMinimumHeight(height + 2 * self.frameWidth())

    def changeEvent(self, event: QEvent | None) -> None:
        """The letters of the desktop may be larger now."""
        if event is not None:
            super().changeEvent(event)
            if event.type() == QEvent.Type.FontChange:
                self._measure()

    def focusInEvent(self, event: QFocusEvent | None) -> None:
        """Tells a screen reader of the chosen row too, and not of the table alone."""
        if event is not None:
            super().focusInEvent(event)
            frame(self, True)
            QTimer.singleShot(0, self._tell_of_row)

    def focusOutEvent(self, event: QFocusEvent | None) -> None:
        """It is seen to have the focus no more."""
        if event is not None:
            super().focusOutEvent(event)
            frame(self, False)
            self._model.told, self._told_of = None, -1

    def reset(self) -> None:
        """All rows are other ones, also for a screen reader."""
        super().reset()
        self._is_reset = True

    def tell(self, sentence: str) -> None:
        """Tells a screen reader something at the chosen row, which has the focus.

        It says what the row is now, and then that; all of the row where it was at another one.
        """
        row = self.currentIndex().row()
        is_same = row == self._told_of and not self._is_reset
        column = _KIND if is_same else WORDS
        self._model.told, self._is_reset = (row, column, sentence), False
        if self.hasFocus() and row >= 0:
            self._model.be_as_new()
            its = self._model.index(row, column)
            super().currentChanged(its, its)

    def selectionCommand(
        self, index: QModelIndex, event: QEvent | None = None
    ) -> QItemSelectionModel.SelectionFlag:
        """The row of the paragraph that is worked on is shown as chosen at any time."""
        return stays_chosen(index, super().selectionCommand(index, event))

    def currentChanged(self, now: QModelIndex, before: QModelIndex) -> None:
        """Tells of the row that is chosen where this has the focus; Qt says elsewhere that it has."""
        if self._model.told is not None and self._model.told[0] != now.row():
            self._model.told = None
        if self.hasFocus():
            self._told_of = now.row()
            super().currentChanged(now, before)
        else:
            QAbstractItemView.currentChanged(self, now, before)

    def _tell_of_row(self) -> None:
        if self.hasFocus():
            self._is_reset = False
            self.currentChanged(self.currentIndex(), self.currentIndex())

    def keyPressEvent(self, event: QKeyEvent | None) -> None:
        """Has a letter do what its action does, and look for nothing."""
        if event is None or self._letter(event):
            return
        if event.key() in ENTER and not self._model.rowCount():
            self.entered_empty.emit()
        else:
            super().keyPressEvent(event)


def kind(paragraph: Paragraph) -> str:
    """What a paragraph is, in a few words."""
    parts = (
        "heading" if paragraph.style is Style.HEADING else "body",
        "begins a volume" if paragraph.begins_volume else "",
        "struck" if paragraph.struck else "",
    )
    return ", ".join(filter(None, parts))


def _marks(found: Opening) -> str:
    count = found.open_marks
    if not count:
        return ""
    return "1 open mark" if count == 1 else f"{count:,} open marks"


def _only_new(old: Sequence[int], new: Sequence[int]) -> int | None:
    """The place of the one number that is new, where nothing else changed."""
    pairs = enumerate(zip(old, new))
    place = next((n for n, (was, its) in pairs if was != its), len(old))
    return place if new[place + 1 :] == list(old[place:]) else None
