"""The book of README.md, typed, corrected, marked and exported in the window alone."""

from pathlib import Path

import braildesk
from braildesk import Session, new_book
from braildesk.protocol.requests import Table
from braildesk.desk.tables import table_request

import pytest

from conftest import Open
from reader import Reader

TEXT = "The moon is far away."
FAULT = "The mon is far away."
EXPORTED = "moon-1.brf: volume 1, 1 page, 18 cells with dots."


@pytest.fixture
def new(tmp_path: Path) -> Path:
    """The new book of README.md, as `scribe new` makes it."""
    path = tmp_path / "moon.braildesk"
    table = table_request("ueb", None)
    assert isinstance(table, Table)
    new_book(path, holding=[table])
    return path


def _is_made(window: Reader, book: Path, folder: Path) -> None:
    """Closes the window, and looks at what is in the book and in the folder."""
    assert window.end() == 0
    written = (folder / "moon-1.brf").read_bytes()
    assert written == braildesk.export(book, 1, 30, 5)
    with Session(book) as session:
        assert session.print_of(1) == TEXT
        assert len(session.history_of(1)) == 1
        (mark,) = session.marks_of(1)
        assert (mark.start, mark.stop, mark.note) == (12, 20, "how far?")


def test_by_the_keyboard(new: Path, at: Open, tmp_path: Path) -> None:
    folder = tmp_path / "pages"
    window = at(new)
    window.reads("Message", "The book has no paragraph yet. Ctrl+Enter begins one.")
    window.press("Ctrl+Return")
    window.focus("text", "Print")
    window.type(FAULT)
    window.reads("Print", FAULT)
    window.press("Return")
    window.reads("Message", "Kept: paragraph 1.")
    window.press("Escape")
    window.reads("Message", "This paragraph was empty, and wasn't added.")
    window.press("Home", "Ctrl+Right", "Right", "Right")
    window.caret("Print", 6)
    window.type("o")
    window.reads("Print", TEXT)
    window.press("Return")
    window.reads("Message", "Kept: correction 1 of paragraph 1.")
    window.press("Home", *["Ctrl+Right"] * 3)
    window.caret("Print", 12)
    window.press(*["Shift+Right"] * 8, "Ctrl+m")
    window.dialog("Mark in paragraph 1")
    window.type("how far?")
    window.press("Return")
    window.no_dialog()
    window.reads("Marks", "Mark 1, open, on “far away”: how far?")
    window.press("Ctrl+Shift+p")
    window.dialog("Page size")
    window.press("Ctrl+a")
    window.type("30 5")
    window.press("Return")
    window.no_dialog()
    window.reads("Message", "Pages have 5 lines of 30 cells.")
    window.press("Ctrl+e")
    window.dialog("Export, pages of 5 lines of 30 cells")
    # the folder beside the book is proposed
    window.press("Return")
    top = window.dialog("Export")
    report = window.part("text", "Export", top)
    window.until(EXPORTED, lambda: EXPORTED in window.text_in(report))
    window.press("Escape")
    window.no_dialog()
    window.press("Ctrl+q")
    _is_made(window, new, folder)


def test_by_the_mouse_and_the_letters_of_the_text_alone(
    new: Path, at: Open, tmp_path: Path
) -> None:
    folder = tmp_path / "pages"
    window = at(new)
    window.choose("Paragraph", "New paragraph after")
    window.focus("text", "Print")
    window.type(FAULT)
    window.reads("Print", FAULT)
    window.choose("Edit", "Keep what is typed\tEnter")
    window.reads("Message", "Kept: paragraph 1.")
    window.choose("Edit", "Give up what is typed\tEsc")
    window.reads("Message", "This paragraph was empty, and wasn't added.")
    window.click_on("Print", 6)
    window.caret("Print", 6)
    window.type("o")
    window.reads("Print", TEXT)
    window.choose("Edit", "Keep what is typed\tEnter")
    window.reads("Message", "Kept: correction 1 of paragraph 1.")
    window.drag_over("Print", 12, 20)
    window.choose("Marks", "Mark what is selected…")
    dialog = window.dialog("Mark in paragraph 1")
    window.type("how far?")
    window.click_at(window.part("push button", "OK", dialog))
    window.no_dialog()
    window.reads("Marks", "Mark 1, open, on “far away”: how far?")
    window.choose("Book", "Page size…")
    dialog = window.dialog("Page size")
    window.press("Ctrl+a")
    window.type("30 5")
    window.click_at(window.part("push button", "OK", dialog))
    window.no_dialog()
    window.choose("Book", "Export the volumes…")
    dialog = window.dialog("Export, pages of 5 lines of 30 cells")
    window.type(str(folder))
    window.click_at(window.part("push button", "OK", dialog))
    top = window.dialog("Export")
    report = window.part("text", "Export", top)
    window.until(EXPORTED, lambda: EXPORTED in window.text_in(report))
    window.click_at(window.part("push button", "Close", top))
    window.no_dialog()
    window.choose("Book", "Quit")
    _is_made(window, new, folder)
