"""Texts that come in and pages that go out, by dialogs, and what is copied."""

import errno
import os
import signal
from pathlib import Path
from stat import S_IMODE

import pytest

from braildesk import Session
from braildesk.workshop import MayNotLast

from scribe.window import dialogs
from scribe.window.desk import Desk

from conftest import Answers, Open, prints
from reader import Reader, all_within


def _name(window: Reader, title: str, path: Path, button: str) -> None:
    """Gives a dialog of files the path of one, and clicks on its button."""
    dialog = window.dialog(title)
    field = window.first("text", dialog)
    window.insert_in(field, str(path))
    window.click(window.part("push button", button, dialog))


def _close(window: Reader, title: str, words: str) -> None:
    """Waits until a report has some words, and closes it."""
    top = window.dialog(title)
    field = window.part("text", title, top)
    window.until(f"“{words}” in {title}", lambda: words in window.text_in(field))
    window.press("Escape")
    window.no_dialog()


def test_a_text_is_imported_and_taken_back(
    moon: Path, at: Open, tmp_path: Path
) -> None:
    text = tmp_path / "tides.txt"
    text.write_text("One.\n\nTwo.\n", encoding="utf-8")
    window = at(moon)
    window.press("Ctrl+i")
    _name(window, "Import a text", text, "Open")
    said = "2 paragraphs typed, numbers 4 to 5, by the table en."
    _close(window, "Import", said)
    window.reads("Message", said)
    window.lists(1, "4 body: One.")
    # much is taken back only if that is meant
    window.press("u")
    window.dialog("Take back")
    window.press("Escape")
    window.no_dialog()
    window.reads("Message", "Nothing was taken back.")
    window.press("u")
    window.dialog("Take back")
    window.press("Return")
    window.no_dialog()
    window.says("Taken back: 2 paragraphs were imported, 4 to 5.")
    window.lists(2, "5 body, struck: Two.")
    window.press("Ctrl+q")
    assert window.end() == 0
    with Session(moon) as session:
        assert [each.struck for each in session.paragraphs()] == [
            False,
            True,
            True,
            False,
            False,
        ]


@pytest.mark.parametrize(
    "key, role, name", [("F5", "table", "Paragraphs"), ("F2", "text", "Print")]
)
def test_what_came_of_an_import_is_told_where_the_focus_is_once_its_report_is_closed(
    moon: Path, at: Open, tmp_path: Path, key: str, role: str, name: str
) -> None:
    text = tmp_path / "tides.txt"
    text.write_text("One.\n\nTwo.\n", encoding="utf-8")
    window = at(moon)
    window.press(key)
    window.focus(role, name)
    window.press("Ctrl+i")
    _name(window, "Import a text", text, "Open")
    said = "2 paragraphs typed, numbers 4 to 5, by the table en."
    _close(window, "Import", said)
    window.focus(role, name)

    def is_told() -> bool:
        about = window.part(role, name).get_description()
        return said in (window.about(0) if role == "table" else [about])

    window.until("what came of it", is_told)


def test_the_volumes_are_exported_as_they_are_shown(
    moon: Path, at: Open, tmp_path: Path
) -> None:
    (folder := tmp_path / "pages").mkdir()
    window = at(moon, "--width", "20", "--lines", "6")
    window.press("Ctrl+p")
    page = (
        "Paragraph 1,\ncharacter 1: volume\n1, page 1, line 1,\nof 6 lines of 20\ncells."
        "\n⠀⠀⠠⠞⠓⠑⠀⠠⠍⠕⠕⠝"
    )
    field = window.part("text", "Page")
    window.until("the page", lambda: window.text_in(field).startswith(page))
    window.press("Ctrl+e")
    _name(window, "Export, pages of 6 lines of 20 cells", folder, "OK")
    _close(window, "Export", "moon-1.brf: volume 1, 1 page, 50 cells with dots.")
    first = (folder / "moon-1.brf").read_bytes().split(b"\r\n")[:2]
    assert first == [b"  ,THE ,MOON", b"  ,THE MON IS FAR"]


def test_a_proof_is_written(moon: Path, at: Open, tmp_path: Path) -> None:
    path = tmp_path / "moon.html"
    window = at(moon)
    window.press("Ctrl+Shift+e")
    dialog = window.dialog("Write a proof")
    window.until(
        "a name that is proposed",
        lambda: any(window.text_in(e) == "moon.html" for e in all_within(dialog)),
    )
    _name(window, "Write a proof", path, "Save")
    window.no_dialog()
    window.reads("Message", f"{path}: 1 page.")
    assert "spelled so?" in path.read_text(encoding="utf-8")


def test_words_are_found_changed_and_marked(moon: Path, at: Open) -> None:
    window = at(moon)
    window.press("Ctrl+f")
    window.dialog("Find")
    window.type("sea")
    window.press("Return")
    window.no_dialog()
    window.focus("text", "Print")
    window.reads("Message", "Paragraph 3, character 17.")
    window.caret("Print", 16)
    window.press("Ctrl+m")
    asked = "The note of a mark on “sea”, cells 18 to 20:"
    window.dialog("Mark in paragraph 3", asked)
    window.type("which")
    window.press("Return")
    window.no_dialog()
    window.reads("Message", "Kept: mark 2.")
    window.reads("Marks", "Mark 2, open, on “sea”: which")
    window.press("F3")
    window.reads("Message", "“sea” stands nowhere else in the print of the book.")
    window.press("Escape")
    window.press("Ctrl+h")
    window.dialog("Change words")
    window.type("sea")
    window.press("Return")
    asked = "What comes in place of “sea” in paragraph 3:"
    window.dialog("Change words", asked)
    window.type("ocean")
    window.press("Return")
    window.no_dialog()
    window.reads("Message", "Kept: correction 1 of paragraph 3.")
    window.reads("Print", "Twice a day the ocean comes up.")


def test_the_book_is_closed_with_what_is_typed_in_it(moon: Path, at: Open) -> None:
    window = at(moon)
    window.press("Ctrl+Return")
    window.focus("text", "Print")
    window.type("The end")
    window.reads("Print", "The end")
    window.press("Ctrl+q")
    assert window.end() == 0
    assert prints(moon)[1] == "The end"


def test_nothing_is_said_to_be_exported_where_the_session_ended_before(
    desk: Desk, given: Answers, monkeypatch: pytest.MonkeyPatch
) -> None:
    folder = desk.path.with_name("pages")

    def typed(*_: object) -> str:
        os.kill(desk.book.pid, signal.SIGKILL)
        return str(folder)

    monkeypatch.setattr(dialogs, "folder", typed)
    desk.act("export")
    assert given["said"][0] == "Export: nothing was done."
    assert given["said"][1].startswith("The session was ended by signal 9.")
    assert not folder.exists()


@pytest.mark.parametrize(
    "failed, said",
    [
        (
            MayNotLast(errno.EIO, "Input/output error"),
            "is written, but its folder could not be brought to the disk: Input/output error.",
        ),
        (
            OSError(errno.ENOSPC, "No space left on device"),
            "could not be written: there is no room on the disk.",
        ),
    ],
)
def test_what_became_of_a_proof_is_said_where_the_disk_fails(
    desk: Desk, monkeypatch: pytest.MonkeyPatch, failed: OSError, said: str
) -> None:
    proof = desk.path.with_name("moon.html")

    def write(*_: object) -> None:
        raise failed

    monkeypatch.setattr(dialogs, "file_to_write", lambda *_: proof)
    monkeypatch.setattr("scribe.window.files.write_whole", write)
    desk.act("proof")
    assert desk.window.message.text.startswith(f"{proof} {said}")


def test_a_proof_of_a_book_that_is_not_held_beside_the_program_is_its_owners_alone(
    desk: Desk, monkeypatch: pytest.MonkeyPatch
) -> None:
    proof = desk.path.with_name("moon.html")
    desk.path.chmod(0o666)

    def closed(_: Session) -> int:
        # as where a link was in the place of the book for a moment
        raise ValueError("the file is closed")

    monkeypatch.setattr(dialogs, "file_to_write", lambda *_: proof)
    monkeypatch.setattr(Session, "fileno", closed)
    desk.act("proof")
    assert desk.window.message.text == f"{proof}: 1 page."
    assert S_IMODE(proof.stat().st_mode) == 0o600
