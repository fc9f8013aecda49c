"""Places of Qt, which counts in UTF-16, and those of characters; lines that are pasted."""

from collections.abc import Iterator

import pytest
from PyQt6.QtCore import QMessageLogContext, QtMsgType, qInstallMessageHandler
from PyQt6.QtWidgets import QApplication

from scribe.window.desk import Desk
from scribe.window.fields import Field, characters, lines_of, units

from conftest import wait

#: A text, and where Qt counts each of its characters, and its end.
TEXTS = (
    ("", (0,)),
    ("moon", (0, 1, 2, 3, 4)),
    ("e\u0301a", (0, 1, 2, 3)),
    ("😀", (0, 2)),
    ("a😀b", (0, 1, 3, 4)),
    ("😀😀\u0301c", (0, 2, 4, 5, 6)),
    ("של😀ום", (0, 1, 2, 4, 5, 6)),
    ("\u00a0\u2028⣿", (0, 1, 2, 3)),
)


@pytest.mark.parametrize("text, places", TEXTS)
def test_a_character_is_where_qt_counts_it(text: str, places: tuple[int, ...]) -> None:
    assert tuple(units(text, n) for n in range(len(text) + 1)) == places
    assert [characters(text, unit) for unit in places] == [*range(len(text) + 1)]


@pytest.mark.parametrize(
    "text, unit, place",
    [
        ("a😀b", 2, 1),
        ("😀😀", 1, 0),
        ("😀😀", 3, 1),
        ("moon", 9, 4),
        ("😀", 5, 1),
    ],
)
def test_half_of_a_character_and_what_is_beyond_the_end_have_places(
    text: str, unit: int, place: int
) -> None:
    assert characters(text, unit) == place


@pytest.mark.parametrize(
    "text, lines",
    [
        ("", []),
        (" a word ", [" a word "]),
        ("one\ntwo", ["one", "two"]),
        ("one\r\n\r\n two\t2 \r", ["one", "two 2"]),
        ("one\u2029two", ["one", "two"]),
        ("one\u2028still one", ["one\u2028still one"]),
        ("a line\n", ["a line"]),
    ],
)
def test_lines_that_are_pasted_are_parted(text: str, lines: list[str]) -> None:
    assert lines_of(text) == lines


@pytest.fixture
def warned() -> Iterator[list[str]]:
    """What Qt warns of."""
    found: list[str] = []

    def take(kind: QtMsgType, where: QMessageLogContext, text: str | None) -> None:
        found.append(text or "")

    before = qInstallMessageHandler(take)
    yield found
    qInstallMessageHandler(before)


def test_no_caret_is_put_beyond_the_braille_of_what_was_typed_and_is_taken_back(
    application: QApplication, desk: Desk, warned: list[str]
) -> None:
    field, cells = desk.window.print, desk.window.cells
    field.selectAll()
    field.textCursor().insertText("a")
    assert wait(application, 60, lambda: len(cells.text) == 1)
    desk.act("take_back")
    assert (field.text, len(cells.text)) == ("The Moon", 10)
    assert [each for each in warned if "out of range" in each] == []


def test_no_caret_is_put_beyond_an_empty_text_that_a_display_shows_again(
    application: QApplication, warned: list[str]
) -> None:
    field = Field("Print", False)
    field.show_on_display()
    assert (field.place, warned) == (0, [])


def test_a_text_of_several_lines_is_not_shown_again_where_it_stands(
    application: QApplication,
) -> None:
    field, shown = Field("Marks", True), []
    field.textChanged.connect(lambda: shown.append(field.text))
    field.show_text("Mark 1\nMark 2")
    field.put_caret(7)
    for text in ("Mark 1\nMark 2", "Mark 1\nMark 3"):
        field.show_text(text)
        assert field.place == (7 if text.endswith("2") else 0)
    assert shown == ["Mark 1\u2029Mark 2", "Mark 1\u2029Mark 3"]
