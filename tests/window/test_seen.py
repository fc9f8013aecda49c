"""What is seen of marks, of what is lit and selected, and of the focus, in any colours."""

from collections.abc import Iterator
from typing import Any

import pytest
from PyQt6.QtCore import QPoint, Qt
from PyQt6.QtGui import QColor, QFocusEvent, QPalette
from PyQt6.QtTest import QTest
from PyQt6.QtWidgets import QApplication, QWidget

from braildesk import Paragraph, Style

from scribe.window.desk import Desk
from scribe.window.dialogs import _Names
from scribe.window.fields import Field
from scribe.window.paragraphs import Paragraphs, Table

BLACK, WHITE, YELLOW = QColor("black"), QColor("white"), QColor("yellow")


@pytest.fixture
def contrast(application: QApplication) -> Iterator[None]:
    """White on black, with black on yellow for what is chosen."""
    before, palette, roles = application.palette(), QPalette(), QPalette.ColorRole
    for role in QPalette.ColorRole:
        if role is not roles.NColorRoles:
            palette.setColor(role, BLACK)
    for role in (roles.WindowText, roles.Text, roles.ButtonText):
        palette.setColor(role, WHITE)
    palette.setColor(roles.Highlight, YELLOW)
    application.setPalette(palette)
    yield
    application.setPalette(before)


def _seen(field: Field) -> list[tuple[int, int, bool, bool]]:
    """What is drawn over a text: from where to where, and whether it is underlined, and lit."""
    its = [(each.cursor, each.format) for each in field.extraSelections()]
    lit = field.palette().brush(QPalette.ColorRole.Highlight)
    return [
        (
            cursor.selectionStart(),
            cursor.selectionEnd(),
            form.underlineStyle() == form.UnderlineStyle.DashUnderline,
            form.background() == lit,
        )
        for cursor, form in its
    ]


def test_what_is_marked_stays_underlined_where_it_is_lit(desk: Desk) -> None:
    desk.act("next_mark")
    window = desk.window
    mark, lit, both = (4, 7, True, False), (4, 5, False, True), (4, 5, True, True)
    assert _seen(window.print) == [mark, lit, both]
    mark, lit, both = (5, 8, True, False), (5, 6, False, True), (5, 6, True, True)
    assert _seen(window.cells) == [mark, lit, both]
    window.print.put_caret(6)
    assert _seen(window.print)[-1] == (6, 7, True, True)
    window.print.put_caret(8)
    assert _seen(window.print) == [(4, 7, True, False), (8, 9, False, True)]


def test_what_is_selected_is_not_longer_by_what_is_lit(desk: Desk) -> None:
    its = desk.window.print
    cursor = its.textCursor()
    cursor.setPosition(4)
    cursor.setPosition(7, cursor.MoveMode.KeepAnchor)
    its.setTextCursor(cursor)
    assert _seen(its) == []
    assert _seen(desk.window.cells) == [(9, 10, False, True)]
    # the caret stays where it is, and nothing is selected any more
    cursor.clearSelection()
    its.setTextCursor(cursor)
    assert _seen(its) == [(7, 8, False, True)]


def test_each_part_has_a_frame_in_the_colour_of_texts_wider_with_the_focus(
    contrast: None, desk: Desk
) -> None:
    window = desk.window
    parts: tuple[QWidget, ...] = (window.table, window.print, window.cells)
    for part in (*parts, window.marks, window.here, window.message):
        part.resize(200, 60)
        widths = []
        for kind in (QFocusEvent.Type.FocusIn, QFocusEvent.Type.FocusOut):
            QApplication.sendEvent(part, QFocusEvent(kind))
            row = part.grab().toImage()
            colours = [row.pixelColor(x, 30).name() for x in range(5)]
            widths.append(colours.count(WHITE.name()))
            assert colours[: widths[-1]] == [WHITE.name()] * widths[-1], colours
        assert widths == [3, 1], part.accessibleName()


def test_what_is_chosen_is_shown_as_chosen_wherever_a_click_comes(
    application: QApplication,
) -> None:
    # its types take none of its functions for static ones
    hands: Any = QTest
    model = Paragraphs(lambda numbers: None)
    book = [Paragraph(n, "en", Style.BODY, False, False, 8) for n in (1, 2)]
    model.show(tuple(book))
    table = Table(model, lambda event: False)
    table.setCurrentIndex(model.index(1, 0))
    for view in (table, _Names("Table", ("en", "ueb"), 1)):
        view.resize(300, 300)
        view.show()
        area, chosen = view.viewport(), view.selectionModel()
        assert area is not None and chosen is not None
        here, keys = view.visualRect(view.currentIndex()).center(), Qt.KeyboardModifier
        below, left = QPoint(20, area.height() - 5), Qt.MouseButton.LeftButton
        for held, at in ((keys.ControlModifier, here), (keys.NoModifier, below)):
            hands.mouseClick(area, left, held, at)
            assert {each.row() for each in chosen.selectedIndexes()} == {1}
        hands.keyClick(view, Qt.Key.Key_Space, keys.ControlModifier)
        assert {each.row() for each in chosen.selectedIndexes()} == {1}
        view.close()
