"""How dialogs have room: on any screen, with letters of any size."""

from typing import TypeVar

from PyQt6.QtCore import QSize, Qt
from PyQt6.QtGui import QFont
from PyQt6.QtWidgets import QDialog, QDialogButtonBox, QLabel, QScrollArea, QWidget

Part = TypeVar("Part", bound=QWidget)
#: How wide dialogs are, where the screen is; and what is beside a line of what is asked.
WIDTH, BESIDE = 480, 60
# what a frame has around a dialog, with its title
_LESS_FOR_FRAME = -8, -40
# so many letters are in a line of what is asked, where the screen has room
_LINE = 50
# by how much letters become smaller for which a screen is too small, and how small they are at least
_SMALLER, _LEAST_POINTS = 0.9, 7.0


def fit(dialog: QDialog, width: int = 0, height: int = 0) -> None:
    """Has a dialog be as large as it needs to be, of a size at least, and whole on the screen.

    Where letters are large its words go on in the next line, and its buttons stand below each other;
    where the screen is too small for that, its letters are smaller, or else its words are scrolled.
    """
    screen = dialog.screen()
    assert screen is not None
    room = screen.availableGeometry().adjusted(0, 0, *_LESS_FOR_FRAME).size()
    # some have their other parts only once they were asked for a size
    dialog.sizeHint()
    usual = QFont(dialog.font())
    if not _is_fitted(dialog, width, room):
        _scroll(dialog, usual)
        _is_fitted(dialog, width, room)
    for area in within(dialog, QScrollArea):
        _fill(dialog, area, _wide(dialog, width, room), room.height())
    wanted = QSize(width, height).expandedTo(dialog.sizeHint())
    dialog.resize(wanted.boundedTo(room))


def _is_fitted(dialog: QDialog, width: int, room: QSize) -> bool:
    """Has a dialog have letters by which it has room; whether there are any that can be read."""
    _lay_out(dialog, room)
    its = dialog.font()
    while not _has_room(dialog, width, room):
        its.setPointSizeF(its.pointSizeF() * _SMALLER)
        if its.pointSizeF() < _LEAST_POINTS:
            return False
        dialog.setFont(its)
        _lay_out(dialog, room)
    return True


def _lay_out(dialog: QDialog, room: QSize) -> None:
    """Has no part of a dialog be wider than there is room."""
    for label in within(dialog, QLabel):
        # words of a book that look like those of a page would be taken for that, with its pictures
        label.setTextFormat(Qt.TextFormat.PlainText)
        label.setWordWrap(True)
        letters = label.fontMetrics()
        longest = max(map(letters.horizontalAdvance, label.text().split("\n")))
        line = letters.averageCharWidth() * _LINE
        least = min(longest, line, room.width() - BESIDE)
        # a narrower one is made wide enough by Qt, for which it may not be said to be
        is_wide = least > min(room.width() // 2, WIDTH)
        areas = [e for e in within(dialog, QScrollArea) if e.widget() is label]
        part: QWidget = areas[0] if areas else label
        part.setMinimumWidth(least if is_wide else 0)
    for buttons in within(dialog, QDialogButtonBox):
        buttons.setOrientation(Qt.Orientation.Horizontal)
        if buttons.sizeHint().width() > room.width() - BESIDE:
            buttons.setOrientation(Qt.Orientation.Vertical)


def _has_room(dialog: QDialog, width: int, room: QSize) -> bool:
    """Whether a dialog that is so wide at least has room."""
    layout = dialog.layout()
    assert layout is not None
    wide = _wide(dialog, width, room)
    is_narrow = layout.totalMinimumSize().width() <= room.width()
    return is_narrow and layout.totalHeightForWidth(wide) <= room.height()


def _wide(dialog: QDialog, width: int, room: QSize) -> int:
    """How wide a dialog is that is so wide at least."""
    layout = dialog.layout()
    assert layout is not None
    least = layout.totalMinimumSize().width()
    return min(max(width, least, room.width() // 2), room.width())


def _scroll(dialog: QDialog, usual: QFont) -> None:
    """Has the longest words of a dialog be scrolled, and be in letters as they are elsewhere.

    Tab goes to them too, and the arrow keys move them.
    """
    dialog.setFont(usual)
    labels, layout = within(dialog, QLabel), dialog.layout()
    if not labels or layout is None or within(dialog, QScrollArea):
        return
    label = max(labels, key=lambda each: len(each.text()))
    area = QScrollArea(dialog)
    area.setWidgetResizable(True)
    area.setHorizontalScrollBarPolicy(Qt.ScrollBarPolicy.ScrollBarAlwaysOff)
    area.setAccessibleName(label.text())
    layout.replaceWidget(label, area)
    label.setMinimumWidth(0)
    area.setWidget(label)


def _fill(dialog: QDialog, area: QScrollArea, width: int, height: int) -> None:
    """Has what is scrolled take what the other parts of a dialog of a size leave."""
    layout, label = dialog.layout(), area.widget()
    assert layout is not None and label is not None
    area.setMinimumHeight(1)
    others = layout.totalHeightForWidth(width) if layout.hasHeightForWidth() else 0
    others = max(others, layout.totalMinimumSize().height())
    its = label.heightForWidth(area.minimumWidth()) + 2 * area.frameWidth()
    area.setMinimumHeight(max(0, min(its, height - others)))


def within(dialog: QWidget, kind: type[Part]) -> list[Part]:
    """The parts of a kind that a dialog has."""
    return [each for each in dialog.findChildren(kind) if isinstance(each, kind)]
