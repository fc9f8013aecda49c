"""Texts of other scripts, characters of two units of Qt, cells of eight dots, and long ones."""

from collections.abc import Iterator
from pathlib import Path

import pytest
from PyQt6.QtCore import Qt
from PyQt6.QtGui import QKeyEvent
from PyQt6.QtWidgets import QApplication

from braildesk import Session, new_book, requests
from braildesk.desk.draft import Aim, Draft
from braildesk.desk.drafts import Drafts
from braildesk.desk.layout import PageSize
from braildesk.protocol.requests import Table, Type
from braildesk.text.spans import Span

from scribe.window.actions import Actions
from scribe.window.desk import Desk
from scribe.window.fields import Field

from conftest import Open
from reader import all_within

TABLE = """\
space \\s 0
letter a 1
letter b 12
letter 月 134
letter 亮 13478
letter \u05d0 1
letter \u05d1 12
letter 😀 12345678
"""


def _book(path: Path, *texts: str) -> Path:
    typed = [Type("end", "own", text) for text in texts]
    new_book(path, holding=[Table("own", TABLE.encode()), *typed])
    return path


def test_places_are_those_of_characters(tmp_path: Path, at: Open) -> None:
    book = _book(tmp_path / "own.braildesk", "😀a😀b", "\u05d0\u05d1 ab")
    window = at(book)
    window.reads("Print", "😀a😀b")
    window.reads("Braille", "⣿⠁⣿⠃")
    window.press("F2")
    window.focus("text", "Print")
    window.reads("Place", "“😀” ⣿, character 1, cell 1.")
    window.press("Right")
    window.reads("Place", "“a” ⠁, character 2, cell 2.")
    window.press("Right")
    window.reads("Place", "“😀” ⣿, character 3, cell 3.")
    window.press("Right")
    window.reads("Place", "“b” ⠃, character 4, cell 4.")
    window.caret("Braille", 3)
    window.type("a")
    window.reads("Braille", "⣿⠁⣿⠁⠃")
    window.press("Return")
    window.reads("Message", "Kept: correction 1 of paragraph 1.")
    window.press("F8")
    window.focus("text", "Braille")
    window.press("Home")
    window.press("Right")
    window.press("Right")
    window.reads("Place", "“😀” ⣿, character 3, cell 3.")
    window.press("F5")
    window.focus("table", "Paragraphs")
    window.press("Down")
    window.reads("Print", "\u05d0\u05d1 ab")
    window.reads("Place", "“\u05d0” ⠁, character 1, cell 1.")
    window.press("Ctrl+q")
    assert window.end() == 0
    with Session(book) as session:
        (entry,) = session.history_of(1)
        assert (entry.start, entry.count, entry.text) == (3, 0, "a")


@pytest.fixture
def own(application: QApplication, tmp_path: Path) -> Iterator[Desk]:
    """A book in Chinese and in Hebrew, at work in a window that nobody sees."""
    book = _book(tmp_path / "own.braildesk", "月亮a月", "\u05d0\u05d1 ab")
    found = Desk(book, None, 0.0, PageSize())
    found.acts = Actions(found).by_name
    found.begin()
    yield found
    found.close()


@pytest.mark.parametrize(
    "name, shown",
    [
        ("a\x1b[2J\u202eb\nc", "a<U+001B>[2J<U+202E>b<U+000A>c.braildesk"),
        ("moon[*]", "moon[*].braildesk"),
        ("the moon " + "x" * 200, "the moon…"),
    ],
)
def test_the_name_of_a_book_stands_in_the_title_as_it_can_be_seen(
    tmp_path: Path, at: Open, name: str, shown: str
) -> None:
    book = _book(tmp_path / f"{name}.braildesk", "ab")
    window = at(book)
    assert window.top.get_name() == shown
    # and where it can't be opened
    another = at(book, is_waited_for=False)
    another.dialog(shown)


def test_what_is_asked_names_a_folder_as_it_can_be_seen(
    tmp_path: Path, at: Open
) -> None:
    (folder := tmp_path / "a\u202eb").mkdir()
    book = _book(folder / "own.braildesk", "ab")
    Drafts(book).save(Draft(Aim.EDIT, 1, "own", "ab", "abb", None, 2))
    renamed = folder.rename(tmp_path / "books")
    window = at(renamed / book.name)
    top = window.dialog("Unsent text")
    asked = window.until(
        "the question",
        lambda: next(
            (
                str(each.get_name())
                for each in all_within(top)
                if "abb" in each.get_name()
            ),
            None,
        ),
    )
    was = f"{tmp_path}/a<U+202E>b/own.braildesk"
    assert f"It was typed when the book was {was}." in asked


def _press(field: Field, key: Qt.Key, text: str = "") -> None:
    held = Qt.KeyboardModifier.NoModifier
    QApplication.sendEvent(field, QKeyEvent(QKeyEvent.Type.KeyPress, key, held, text))


def test_wide_characters_and_cells_of_eight_dots_go_with_each_other(own: Desk) -> None:
    window = own.window
    assert (window.print.text, window.cells.text) == ("月亮a月", "⠍⣍⠁⠍")
    assert window.here.text == "“月” ⠍, character 1, cell 1."
    _press(window.print, Qt.Key.Key_Right)
    assert window.here.text == "“亮” ⣍, character 2, cell 2."
    assert (window.print.place, window.cells.place) == (1, 1)
    own.do(requests.Mark(1, 1, 1, "which?"))
    assert window.here.text.endswith("Mark 1, open, on “亮”: which?")
    window.print.textCursor().insertText("月")
    assert own.settle()
    assert (window.print.text, window.cells.text) == ("月月亮a月", "⠍⠍⣍⠁⠍")
    assert window.here.text.startswith("“亮” ⣍, character 3, cell 3.")
    own.act("copy_ascii")
    assert _copied() == "MM⣍AM"
    assert window.message.text == (
        "Copied in Braille ASCII: 5 cells. Those with dot 7 or 8, which it lacks, are Unicode."
    )
    own.act("copy_unicode")
    assert _copied() == "⠍⠍⣍⠁⠍"
    own.act("notation")
    assert window.cells.text == "MM⣍AM"


def test_a_text_that_the_window_cannot_show_is_not_changed_by_who_goes_through_it(
    application: QApplication, tmp_path: Path
) -> None:
    table = requests.Table("odd", b"letter a 1\npunctuation \\xfdd0 2\n")
    prints = [requests.Type("end", "odd", text) for text in ("a\ufdd0a", "aa")]
    new_book(book := tmp_path / "odd.braildesk", holding=[table, *prints])
    desk = Desk(book, None, 0.0, PageSize())
    desk.begin()
    assert desk.settle()
    desk.choose(1)
    assert (desk.window.print.text, desk.contents.version) == ("aa", 3)
    desk.close()


def test_text_from_right_to_left_is_gone_through_and_corrected(own: Desk) -> None:
    window = own.window
    own.choose(1)
    assert window.here.text == "“\u05d0” ⠁, character 1, cell 1."
    # what comes next stands on the left
    _press(window.print, Qt.Key.Key_Left)
    assert window.here.text == "“\u05d1” ⠃, character 2, cell 2."
    _press(window.print, Qt.Key.Key_Right)
    assert window.here.text == "“\u05d0” ⠁, character 1, cell 1."
    _press(window.print, Qt.Key.Key_End)
    assert window.here.text == "The end, after 5 characters."
    window.print.put_caret(1)
    window.print.textCursor().insertText("\u05d1")
    assert own.settle()
    assert window.print.text == "\u05d0\u05d1\u05d1 ab"
    window.print.select(Span(1, 3))
    assert window.print.selected == Span(1, 3)
    assert own.asked(lambda: own.book.cells_of(2, Span(1, 3))) == Span(1, 3)


def _copied() -> str:
    clipboard = QApplication.clipboard()
    assert clipboard is not None
    return clipboard.text()


def test_the_longest_paragraph_is_typed_in_and_no_longer_one(
    tmp_path: Path, at: Open
) -> None:
    window = at(_book(tmp_path / "own.braildesk", "a" * 4_000))
    window.press("F2")
    window.focus("text", "Print")
    window.press("Ctrl+End")
    window.reads("Place", "The end, after 4,000 characters.")
    window.type("b")
    window.press("Return")
    # whether it goes on in a new paragraph
    window.dialog("A long paragraph")
    window.press("Escape")
    window.no_dialog()
    window.reads("Message", "It stays as it is typed. Enter asks again.")
    window.focus("text", "Print")
    window.press("BackSpace")
    window.reads("Place", "The end, after 4,000 characters.")


def test_a_book_of_20_000_paragraphs_takes_little_memory(
    long_book: Path, at: Open
) -> None:
    window = at(long_book)
    assert window.rows() == 20_000
    window.focus("table", "Paragraphs")
    window.press("Ctrl+End")
    window.reads("Print", "Paragraph number 20000 of the moon.")
    window.lists(19_999, "20000 body: Paragraph number 20000 of the moon.")
    window.press("Up")
    window.reads("Print", "Paragraph number 19999 of the moon.")
    sizes = Path(f"/proc/{window.program.pid}/status").read_text().split("\n")
    most = next(int(line.split()[1]) for line in sizes if line.startswith("VmHWM:"))
    assert most < 150_000
