"""What comes into a window otherwise than by keys: lines that are pasted, and files that are dropped."""

import os
import signal
import sys
import time
from collections.abc import Callable, Iterator, Sequence
from concurrent.futures import Future
from pathlib import Path
from threading import Event
from typing import Any

import pytest
from PyQt6.QtCore import QEvent, QMimeData, QPoint, QPointF, Qt, QTimer, QUrl
from PyQt6.QtGui import QDragEnterEvent, QDropEvent, QKeyEvent
from PyQt6.QtWidgets import QApplication, QDialog, QLabel

from braildesk import CannotOpen, Session, Style, Why, copy, new_book, requests
from braildesk.desk.documents.kinds import ManuscriptKind
from braildesk.desk.documents.options import ReadingOptions
from braildesk.desk.drafts import Drafts
from braildesk.desk.export import Job
from braildesk.desk.import_note import How, ImportNote
from braildesk.desk.import_text import Import
from braildesk.desk.intake import Intake
from braildesk.desk.layout import PageSize
from braildesk.desk.manuscripts import taken
from braildesk.desk.typist import type_all
from braildesk.desk.unfinished import NotSeen
from braildesk.text.spans import Span

from scribe.window import dialogs
from scribe.window.actions import Actions
from scribe.window.book import Contents, OpenBook
from scribe.window.desk import CLOSED, NO_PARAGRAPH, Desk
from scribe.window.fields import LINE_END
from scribe.window.files import Files
from scribe.window.held import Held
from scribe.window.worker import Worker
from scribe.words.console import WAITING, Console
from scribe.words.drafts import typed_at_offer
from scribe.words.export import export_in_words
from scribe.words.import_text import (
    Outcome,
    import_in_words,
    not_seen_yet,
    read_again,
)
from scribe.words.links import followed
from scribe.words.status import Stop

from conftest import Answers, wait
from reader import PATIENCE_SECONDS


_NONE = Qt.KeyboardModifier.NoModifier


def _paste(desk: Desk, text: str) -> None:
    data = QMimeData()
    data.setText(text)
    desk.window.print.insertFromMimeData(data)


def _prints(desk: Desk) -> list[str]:
    paragraphs = desk.asked(desk.book.contents).paragraphs
    session = desk.book.session
    return [
        desk.asked(lambda number=each.id: session.print_of(number))  # type: ignore[misc]
        for each in paragraphs
    ]


def test_one_line_goes_in_where_the_caret_is(desk: Desk) -> None:
    desk.window.print.put_caret(3)
    _paste(desk, " big")
    assert desk.window.print.text == "The big Moon"
    assert desk.settle()
    assert _prints(desk)[0] == "The big Moon"


def test_lines_are_joined_if_they_are_no_paragraphs(
    desk: Desk, asked: dict[str, int]
) -> None:
    asked["Pasted lines"] = 1
    desk.window.print.put_caret(8)
    _paste(desk, " is\nfar")
    assert desk.window.print.text == "The Moon is far"


def test_lines_are_paragraphs_the_first_of_which_goes_on_here(
    desk: Desk, asked: dict[str, int]
) -> None:
    asked["Pasted lines"] = 0
    desk.window.print.put_caret(8)
    _paste(desk, "s\r\nOne.\r\n\r\nTwo.")
    assert _prints(desk)[:3] == ["The Moons", "One.", "Two."]
    assert not desk.is_typed()
    desk.wait_for_draft()
    assert Drafts(desk.path).waiting() is None


def test_of_lines_that_are_refused_none_is_lost(
    desk: Desk, asked: dict[str, int], monkeypatch: pytest.MonkeyPatch
) -> None:
    monkeypatch.setattr(dialogs, "one_of", lambda _, t, a, names, f: names[0])
    asked["Pasted lines"] = asked["Typed lines"] = 0
    desk.act("new_after")
    _paste(desk, "One.\n#\nTwo.\nThree.")
    assert _prints(desk)[:3] == ["The Moon", "One.", "The mon is far away."]
    assert desk.window.message.text.startswith("1 typed. The table en has no cells")
    assert "Nothing was added" not in desk.window.message.text
    assert desk.window.message.text.endswith(
        "The line stays typed. What comes after it was given up. Ctrl+B brings it back."
    )
    assert [each.text for each in Drafts(desk.path).given_up()] == ["Two.\nThree."]
    desk.wait_for_draft()
    waiting = Drafts(desk.path).waiting()
    assert waiting is not None and waiting.text == desk.window.print.text == "#"
    desk.window.print.setPlainText("A sign.")
    desk.act("keep")
    desk.act("bring_back")
    wanted = ["The Moon", "One.", "A sign.", "Two.", "Three.", "The mon is far away."]
    assert _prints(desk)[:6] == wanted
    assert not desk.is_typed()


@pytest.mark.parametrize("paragraphs", ["#One.\nTwo.", "One.#\nTwo.\n"])
def test_the_first_of_pasted_lines_stays_typed_where_the_book_refuses_it(
    desk: Desk, asked: dict[str, int], paragraphs: str
) -> None:
    asked["Pasted lines"] = 0
    before = _prints(desk)
    desk.window.print.put_caret(4)
    _paste(desk, paragraphs)
    assert _prints(desk) == before
    first = paragraphs.partition("\n")[0]
    assert desk.window.print.text == f"The {first}"
    assert desk.window.message.text.startswith("The table of paragraph 1 has no cells")
    assert desk.window.message.text.endswith(
        "Nothing was changed. What comes after it was given up. Ctrl+B brings it back."
    )
    desk.wait_for_draft()
    waiting = Drafts(desk.path).waiting()
    assert waiting is not None and waiting.text == f"The {first}"
    (left,) = Drafts(desk.path).given_up()
    rest = "Two.Moon" if paragraphs.endswith("Two.") else "Two.\nMoon"
    assert left.text == rest
    desk.act("give_up")


def test_of_a_new_paragraph_that_is_empty_again_no_character_of_another_is_said(
    desk: Desk,
) -> None:
    desk.act("new_after")
    said = desk.window.here.text
    assert said.startswith("The end of 0 characters, not in the book yet.")
    desk.window.print.insertPlainText("x")
    desk.window.print.textCursor().deletePreviousChar()
    assert desk.window.here.text == said
    desk.act("give_up")


def _new_again(desk: Desk) -> Callable[[], None]:
    """Gives up what is typed, and begins another paragraph."""

    def act() -> None:
        desk.act("give_up")
        desk.act("new_after")

    return act


def test_of_what_is_not_typed_any_more_no_fault_is_said(
    desk: Desk, application: QApplication
) -> None:
    desk.act("new_after")
    said, field = desk.window.here.text, desk.window.print
    for take_away in (lambda: field.setPlainText(""), _new_again(desk)):
        field.insertPlainText("x#")
        assert wait(application, 9, lambda: "no cells" in desk.window.here.text)
        take_away()
        assert desk.window.here.text == said
    desk.act("give_up")


@pytest.mark.parametrize("typed", ["", "  "])
def test_a_new_paragraph_of_blanks_alone_is_not_put_into_the_book(
    desk: Desk, typed: str
) -> None:
    before = _prints(desk)
    desk.act("new_after")
    desk.window.print.setPlainText(typed)
    desk.act("keep")
    assert desk.new is None and _prints(desk) == before
    said = "This paragraph was empty, and wasn't added."
    assert desk.window.message.text == said


def test_a_line_end_from_elsewhere_is_a_blank(desk: Desk) -> None:
    desk.window.print.setPlainText("The Moon\nis far.")
    assert desk.settle()
    assert _prints(desk)[0] == "The Moon is far."


def test_a_file_that_is_dropped_is_imported(
    application: QApplication, desk: Desk, asked: dict[str, int], tmp_path: Path
) -> None:
    (text := tmp_path / "text.txt").write_text("One.\n\nTwo.\n")
    data = QMimeData()
    data.setUrls([QUrl.fromLocalFile(str(text))])
    drop = QDropEvent(
        QPointF(9, 9),
        Qt.DropAction.CopyAction,
        data,
        Qt.MouseButton.LeftButton,
        Qt.KeyboardModifier.NoModifier,
    )
    imported: list[Path] = []
    desk.window.dropped.connect(imported.append)
    desk.window.dropEvent(drop)
    # the program from which it is dropped doesn't wait for that
    assert not imported
    assert wait(application, 60, lambda: imported == [text])
    assert _prints(desk)[:3] == ["The Moon", "One.", "Two."]
    # once more it is asked first, and nothing is typed after No
    asked["Import"] = 1
    desk.window.dropEvent(drop)
    assert wait(application, 60, lambda: imported == [text, text])
    assert len(_prints(desk)) == 5


def test_of_several_files_that_are_dropped_it_is_said_that_none_is_imported(
    application: QApplication, desk: Desk, tmp_path: Path
) -> None:
    data, keys = QMimeData(), Qt.KeyboardModifier.NoModifier
    names = ("one.txt", "two.txt")
    data.setUrls([QUrl.fromLocalFile(str(tmp_path / name)) for name in names])
    its = Qt.DropAction.CopyAction, data, Qt.MouseButton.LeftButton, keys
    enter = QDragEnterEvent(QPoint(9, 9), *its)
    enter.ignore()
    desk.window.dragEnterEvent(enter)
    assert enter.isAccepted()
    desk.window.dropEvent(QDropEvent(QPointF(9, 9), *its))
    said = "2 files were dropped, and nothing was typed. Ctrl+I imports one at a time."
    assert wait(application, 60, lambda: desk.window.message.text == said)
    assert len(_prints(desk)) == 3


@pytest.mark.parametrize(
    "answer, typed, said",
    [
        (0, ["One.", "Two."], "2 paragraphs typed, numbers 4 to 5, by the table en."),
        (1, [], "The rest of text.txt is left out. What is in the book stays there."),
    ],
)
def test_a_text_that_was_changed_since_its_import_was_cut_short_is_asked_about(
    desk: Desk,
    given: Answers,
    tmp_path: Path,
    answer: int,
    typed: list[str],
    said: str,
) -> None:
    (text := tmp_path / "text.txt").write_text("One.\n\nTwo.\n")
    Drafts(desk.path).begin_import(
        ImportNote(str(text), "0" * 64, False, 1, 9, "en", "end", 2, 1)
    )
    Actions(desk).offer()
    asked = (
        f"The import of text.txt was cut short, and {text} was changed since. So how much of it is in"
        " the book can't be seen: the book had 1 paragraph before, and the text 9."
    )
    assert desk.window.message.text == (
        f"{asked} Ctrl+I and the name of that file ask what is done."
    )
    given["choices"] = [answer]
    desk.acting(lambda: Files(desk).imported(text))
    assert given["said"][0] == (
        f"{asked} Shall all of the text be typed, also what may be there already?"
    )
    assert desk.window.message.text == said
    assert _prints(desk) == ["The Moon", *typed, *_prints(desk)[1 + len(typed) :]]
    assert len(_prints(desk)) == 3 + len(typed)
    assert Drafts(desk.path).imports() == ()


def test_what_is_waited_for_is_said_while_a_document_is_read_again_at_the_opening(
    desk: Desk, tmp_path: Path, monkeypatch: pytest.MonkeyPatch
) -> None:
    how = How(ReadingOptions(ManuscriptKind.MARKDOWN))
    text = str(tmp_path / "tides.md")
    note = ImportNote(text, "0" * 64, False, 1, 9, "en", "end", 2, 1, how)
    Drafts(desk.path).begin_import(note)
    said = set[str]()
    look = QTimer()
    look.timeout.connect(lambda: said.add(desk.window.message.text))

    def unfinished(session: Session, book: object, its: ImportNote) -> None:
        """As pandoc reads what is long."""
        wait_until = time.monotonic() + PATIENCE_SECONDS
        while read_again(note) not in said and time.monotonic() < wait_until:
            time.sleep(0.05)
        raise NotSeen(its)

    monkeypatch.setattr("braildesk.desk.earlier.unfinished", unfinished)
    look.start(50)
    desk.say("Before.")
    Actions(desk).offer()
    look.stop()
    assert read_again(note) in said and WAITING not in said
    assert (
        desk.window.message.text == f"Before. {not_seen_yet(NotSeen(note), 'Ctrl+I')}"
    )
    # what is waited for next is the program
    monkeypatch.setattr("scribe.window.worker._LONG_MILLISECONDS", 50)
    said.clear()
    look.start(50)
    desk.asked(lambda: time.sleep(1))
    look.stop()
    assert WAITING in said


def test_a_file_that_is_dropped_while_something_else_is_done_is_said_to_be_left(
    desk: Desk, tmp_path: Path
) -> None:
    (text := tmp_path / "text.txt").write_text("One.\n")

    def act() -> None:
        desk.window.dropped.emit(text)
        desk.say("Done.")

    desk.acting(act)
    assert desk.window.message.text == (
        "Done. text.txt was dropped while something else was being done, and wasn't imported."
    )
    assert len(_prints(desk)) == 3


def test_a_text_that_is_typed_at_an_offer_is_said_to_be_given_up_after_a_refusal(
    desk: Desk, monkeypatch: pytest.MonkeyPatch
) -> None:
    def typed(*words: Any, **_: Any) -> int:
        words[-1]("The sea.")
        return 0

    monkeypatch.setattr("scribe.window.desk.offer", typed)

    def act() -> None:
        desk.offered("Import", "Shall it be imported?", ("&Yes", "&No"))
        raise Stop("It is there no more.")

    desk.acting(act)
    said = f"It is there no more. {typed_at_offer('The sea.')} Ctrl+B brings it back."
    assert desk.window.message.text == said


def test_a_manuscript_is_imported_with_its_headings_and_a_report(
    desk: Desk, tmp_path: Path, monkeypatch: pytest.MonkeyPatch
) -> None:
    reported: list[str] = []
    monkeypatch.setattr(
        dialogs, "report", lambda _, title, lines: reported.extend(lines)
    )
    (text := tmp_path / "tides.md").write_text("# Tides\n\nTwice a *day*.\n")
    monkeypatch.setattr(dialogs, "file_to_read", lambda *_: text)
    desk.act("import_text")
    assert _prints(desk)[:3] == ["The Moon", "Tides", "Twice a day."]
    assert desk.contents.paragraphs[1].style is Style.HEADING
    assert reported[1:] == [
        "1 emphasis, as by italics, is lost:",
        "- “day” in “Twice a day.”",
        "2 paragraphs typed, numbers 4 to 5, by the table en.",
    ]
    assert desk.window.message.text == reported[-1]
    # the heading is a command of its own, and is no other program's
    monkeypatch.setattr(dialogs, "choice", lambda *_: 0)
    desk.act("take_back")
    assert desk.window.message.text == (
        "Taken back: 2 paragraphs were imported, 4 to 5. The book keeps them, struck."
    )


def test_of_a_new_paragraph_it_is_said_that_enter_keeps_it_once_something_is_typed(
    desk: Desk,
) -> None:
    desk.act("new_after")
    here, empty = desk.window.here, "Enter and Escape leave it."
    assert here.text == f"The end of 0 characters, not in the book yet. {empty}"
    desk.window.print.insertPlainText(" ")
    assert here.text.endswith(empty)
    desk.window.print.insertPlainText("It rose.")
    assert here.text.endswith("Enter keeps it, Escape gives it up.")
    desk.window.print.setPlainText("")
    assert here.text.endswith(empty)
    desk.act("keep")
    assert (desk.new, len(desk.contents.paragraphs)) == (None, 3)


@pytest.fixture
def empty(application: QApplication, tmp_path: Path) -> Iterator[Desk]:
    """A book of two tables and no paragraph, at work."""
    own = requests.Table("a", b"space \\s 0\nletter a 1\n")
    new_book(book := tmp_path / "empty.braildesk", holding=[own, requests.Supply("en")])
    found = Desk(book, None, 0.0, PageSize())
    found.acts = Actions(found).by_name
    found.begin()
    yield found
    found.close()


@pytest.mark.parametrize("name", ["en", "ueb"])
def test_a_table_that_is_chosen_in_a_book_without_paragraphs_is_that_of_new_ones(
    empty: Desk, given: Answers, name: str
) -> None:
    given["one_of"] = name
    empty.act("table")
    said = f"New paragraphs have the table {name}. Ctrl+Enter begins the first one."
    assert empty.window.message.text == said
    empty.act("new_after")
    head = f"A new paragraph at the end of the book, table {name}"
    assert empty.window.print_label.text() == head
    empty.window.print.insertPlainText("It rose.")
    empty.act("keep")
    assert [each.table for each in empty.contents.paragraphs] == [name]
    # from now on it is that of the chosen paragraph
    given["one_of"] = "a"
    empty.window.print.insertPlainText("a")
    empty.act("table")
    assert [each.table for each in empty.contents.paragraphs] == [name, "a"]
    assert empty.table_of_new() == "a"


@pytest.mark.parametrize("typed", ["It rose.", ""])
@pytest.mark.parametrize("name", ["en", "ueb"])
def test_a_first_paragraph_is_given_a_table_while_it_is_typed(
    empty: Desk, given: Answers, application: QApplication, typed: str, name: str
) -> None:
    empty.act("new_after")
    field, window = empty.window.print, empty.window
    field.insertPlainText(typed)
    if typed:
        empty.act("keep")
        assert window.message.text.startswith("The table a has no cells for “I”")
    field.put_caret(2)
    given["one_of"] = name
    empty.act("table")
    assert window.message.text == f"New paragraphs have the table {name}."
    head = f"A new paragraph at the end of the book, table {name}"
    assert (window.print_label.text(), field.text) == (head, typed)
    assert field.place == min(2, len(typed))
    waiting = empty.draft()
    assert empty.is_waiting() and (waiting.table if waiting else "") == name * bool(
        typed
    )
    assert wait(application, 9, lambda: bool(window.cells.text) == bool(typed))
    assert "no cells" not in window.here.text
    empty.act("keep")
    assert [each.table for each in empty.contents.paragraphs] == [name] * bool(typed)
    assert _prints(empty) == [typed] * bool(typed)


@pytest.mark.parametrize("act", ["to_print", "new_after"])
@pytest.mark.parametrize("is_refused_before", [True, False])
def test_that_no_table_can_be_chosen_while_a_refused_text_is_typed_is_said(
    desk: Desk, given: Answers, act: str, is_refused_before: bool
) -> None:
    desk.act(act)
    desk.window.print.insertPlainText("#")
    typed, tables = desk.window.print.text, [p.table for p in desk.contents.paragraphs]
    if is_refused_before:
        desk.act("keep")
    given["one_of"] = "ueb"
    desk.act("table")
    said = desk.window.message.text
    assert said.startswith("Again: " * is_refused_before + "The table ")
    assert "no cells for “#”" in said
    assert said.endswith(
        " No other table can be chosen until what is typed is kept or given up."
    )
    assert desk.window.print.text == typed
    assert [each.table for each in desk.contents.paragraphs] == tables
    desk.act("give_up")
    desk.act("table")
    assert "ueb" in [each.table for each in desk.contents.paragraphs]


@pytest.mark.parametrize(
    "act, count, said",
    [
        ("keep", 1, "The print reads as before, so there is nothing to keep."),
        ("take_back", 1, "There is nothing that Ctrl+Z could take back."),
        ("take_back", 2, "Again: There is nothing that Ctrl+Z could take back."),
        (
            "undo_here",
            1,
            "Paragraph 1 has no correction that could be taken back. Nothing was changed.",
        ),
    ],
)
def test_what_is_said_of_what_is_typed_is_said_until_something_else_is_typed(
    desk: Desk, act: str, count: int, said: str
) -> None:
    for _ in range(count):
        desk.act(act)
    assert desk.window.message.text == said
    desk.window.print.insertPlainText("So: ")
    assert desk.window.message.text == ""
    # what was said since then stays
    desk.say("The caret is on no mark.")
    desk.window.print.insertPlainText("so ")
    assert desk.window.message.text == "The caret is on no mark."
    desk.act("give_up")


def test_with_nothing_to_take_back_a_correction_is_named_only_where_there_is_one(
    desk: Desk,
) -> None:
    nothing = "There is nothing that Ctrl+Z could take back."
    further = " Ctrl+Shift+Z takes back the newest correction of the paragraph."
    desk.act("take_back")
    assert desk.window.message.text == nothing
    number = desk.settled()
    desk.asked(lambda: desk.book.session.correct(number, 0, 3, "A"))
    desk.act("take_back")
    assert desk.window.message.text == nothing + further
    desk.asked(lambda: desk.book.session.undo(number))
    desk.act("take_back")
    assert desk.window.message.text == nothing


def test_a_correction_that_was_taken_back_by_its_key_is_made_anew_by_the_other_one(
    desk: Desk,
) -> None:
    number = desk.settled()
    desk.asked(lambda: desk.book.session.correct(number, 0, 3, "A"))
    desk.choose(1)
    desk.act("heading")
    desk.choose(0)
    desk.act("undo_here")
    assert desk.window.print.text == "The Moon"
    desk.act("take_back")
    assert desk.window.print.text == "A Moon"
    assert desk.window.message.text == (
        "Taken back: correction 1 of paragraph 1 was taken back. It was made anew."
    )
    desk.act("take_back")
    assert desk.window.message.text == "Taken back: paragraph 2 was made a heading."


def test_a_row_that_others_than_hands_choose_meanwhile_is_not_the_one_in_which_is_typed(
    desk: Desk, application: QApplication
) -> None:
    table = desk.window.table
    other = desk.window.model.index(1, 0)
    desk.acting(lambda: table.setCurrentIndex(other))
    application.processEvents()
    assert (table.currentIndex().row(), desk.row, desk.number) == (0, 0, 1)


@pytest.fixture
def other(moon: Path) -> Path:
    """A book without a paragraph."""
    path = moon.with_name("other.braildesk")
    new_book(path)
    return path


def _tried(book: Path, other: Path) -> list[Why]:
    """Why others can't have a book, nor put a copy of another one in its place."""
    whys: list[Why] = []
    try:
        Session(book).close()
    except CannotOpen as refused:
        whys.append(refused.why)
    try:
        copy(other, book, overwrite=True)
    except CannotOpen as refused:
        whys.append(refused.why)
    return whys


def test_nobody_else_has_the_book_while_it_is_exported(
    desk: Desk,
    other: Path,
    given: Answers,
    monkeypatch: pytest.MonkeyPatch,
    tmp_path: Path,
) -> None:
    whys: list[Why] = []

    def then_exported(job: Job, console: Console) -> None:
        whys.extend(_tried(desk.path, other))
        export_in_words(job, console)

    monkeypatch.setattr("scribe.window.files.export_in_words", then_exported)
    (folder := tmp_path / "pages").mkdir()
    monkeypatch.setattr(dialogs, "folder", lambda *_: str(folder))
    desk.choose(1)
    desk.act("heading")
    before = desk.contents.version
    desk.act("export")
    assert whys == [Why.IN_USE, Why.IN_USE]
    assert given["said"][-1].startswith(f"{folder / 'moon-1.brf'}: volume 1, ")
    assert desk.window.message.text == given["said"][-1]
    written = (folder / "moon-1.brf").read_bytes()
    desk.act("take_back")
    assert desk.contents.version == before + 1
    desk.act("export")
    assert (folder / "moon-1.brf").read_bytes() != written


@pytest.mark.parametrize("is_done", [False, True])
def test_what_others_changed_during_an_export_is_said(
    desk: Desk, tmp_path: Path, monkeypatch: pytest.MonkeyPatch, is_done: bool
) -> None:
    def changed(job: Job, console: Console) -> None:
        with Session(job.book) as session:
            session.strike(1)
        console.show("The volumes are written.")

    reported: list[str] = []
    # where no copy can be made, others may have the book during an export
    monkeypatch.setattr("tempfile.tempdir", str(tmp_path / "nowhere"))
    monkeypatch.setattr(
        dialogs, "report", lambda _, title, lines: reported.extend(lines)
    )
    monkeypatch.setattr(dialogs, "folder", lambda *_: str(tmp_path))
    monkeypatch.setattr("scribe.window.files.export_in_words", changed)
    if is_done:
        desk.do(requests.Mark(2, 0, 1, ""))
    desk.act("export")
    left = " Ctrl+Z no longer takes back what was done before it was opened again."
    assert reported == [
        f"Another program changed the book meanwhile. It is at version {6 + is_done} now, and is"
        f" shown as it is.{left * is_done}",
        "The volumes are written.",
    ]
    desk.act("take_back")
    assert desk.window.message.text.startswith("There is nothing that Ctrl+Z could")


def test_what_takes_long_is_cancelled_by_its_dialog(desk: Desk) -> None:
    def act(say: Callable[[str], None], is_stopped: Callable[[], bool]) -> str:
        while not is_stopped():
            say("It goes on.")
            time.sleep(0.01)
        return "stopped"

    said: list[str] = []

    def look() -> None:
        over = QApplication.activeModalWidget()
        found = over.findChildren(QLabel) if isinstance(over, QDialog) else []
        labels = [each.text() for each in found if isinstance(each, QLabel)]
        if "It goes on." in labels:
            assert isinstance(over, QDialog)
            said.append("It goes on.")
            over.reject()

    timer = QTimer()
    timer.timeout.connect(look)
    timer.start(20)
    assert dialogs.long(desk.window, desk.work, "Long", act) == "stopped"
    timer.stop()
    assert said


def test_what_is_typed_stays_what_it_is_where_cells_are_shown_otherwise(
    application: QApplication, desk: Desk
) -> None:
    desk.act("new_after")
    desk.act("notation")
    # nothing was typed, and the paragraph beside isn't either
    assert (desk.window.print.text, desk.is_typed()) == ("", False)
    desk.window.print.insertPlainText("So")
    assert wait(application, 60, lambda: desk.window.cells.text == ",SO")
    desk.act("notation")
    assert (desk.window.print.text, desk.window.cells.text) == ("So", "⠠⠎⠕")
    # and these are the cells that are copied
    desk.window.cells.select(Span(1, 3))
    desk.act("copy_ascii")
    assert desk.window.message.text == "Copied in Braille ASCII: 2 cells."
    clipboard = QApplication.clipboard()
    assert clipboard is not None and clipboard.text() == "SO"
    desk.window.cells.select(Span(1, 2))
    desk.act("copy_ascii")
    assert desk.window.message.text == "Copied in Braille ASCII: 1 cell."


def _in_cells(desk: Desk, cell: int) -> tuple[int, int, str]:
    """Has the caret of the braille be on a cell; where it and that of the print are, and what is said of it."""
    desk.choose(1)
    desk.act("to_cells")
    desk.window.cells.put_caret(cell)
    return _carets(desk)


def _carets(desk: Desk) -> tuple[int, int, str]:
    window = desk.window
    return window.print.place, window.cells.place, window.here.text


def test_the_carets_stay_where_they_are_as_cells_are_shown_otherwise(
    desk: Desk,
) -> None:
    before = _in_cells(desk, 12)
    desk.act("notation")
    print_place, cell, said = _carets(desk)
    assert (print_place, cell) == before[:2] and "spelled so" not in said
    desk.act("notation")
    assert _carets(desk) == before


@pytest.mark.parametrize("act", ["to_cells", "to_print"])
def test_what_is_selected_in_the_braille_stays_so_as_cells_are_shown_otherwise(
    desk: Desk, act: str
) -> None:
    desk.choose(1)
    desk.act("to_cells")
    cells = desk.window.cells
    cells.put_caret(3)
    cursor = cells.textCursor()
    cursor.setPosition(7, cursor.MoveMode.KeepAnchor)
    cells.setTextCursor(cursor)
    desk.act(act)
    before = desk.window.print.place
    for _ in range(2):
        desk.act("notation")
        assert (cells.selected, cells.place) == (Span(3, 7), 7)
        assert desk.window.print.place == before


def test_the_carets_stay_at_what_was_typed_once_it_is_taken_back_from_the_braille(
    desk: Desk, application: QApplication
) -> None:
    place, cell, said = _in_cells(desk, 12)
    desk.act("to_print")
    desk.window.print.insertPlainText("so ")
    cells = desk.window.cells
    assert wait(application, 60, lambda: "⠎⠕ " in cells.text or "⠎⠕⠀" in cells.text)
    desk.act("to_cells")
    desk.act("take_back")
    assert desk.window.print.text == "The mon is far away."
    assert _carets(desk) == (place, cell, said)


def test_the_carets_stay_as_a_correction_is_taken_back_from_the_braille(
    desk: Desk,
) -> None:
    desk.choose(1)
    desk.do(requests.Correct(2, 16, 3, "by"))
    before = _in_cells(desk, 12)
    desk.act("undo_here")
    assert _carets(desk) == before


@pytest.mark.parametrize("act", ["copy_unicode", "copy_ascii"])
@pytest.mark.parametrize("typed", ["", "#"])
def test_where_no_cells_are_nothing_is_copied(desk: Desk, act: str, typed: str) -> None:
    clipboard = QApplication.clipboard()
    assert clipboard is not None
    clipboard.setText("moon")
    desk.act("new_after")
    desk.window.print.insertPlainText(typed)
    desk.act(act)
    assert desk.window.message.text == "There are no cells here, so nothing was copied."
    assert clipboard.text() == "moon"
    desk.act("give_up")


def test_enter_in_the_table_of_an_empty_book_says_that_it_has_no_paragraph(
    application: QApplication, tmp_path: Path
) -> None:
    new_book(path := tmp_path / "empty.braildesk", holding=[requests.Supply("en")])
    desk = Desk(path, None, 0.0, PageSize())
    desk.acts = Actions(desk).by_name
    desk.begin()
    desk.say("")
    enter = QKeyEvent(QEvent.Type.KeyPress, Qt.Key.Key_Return, _NONE, "\r")
    QApplication.sendEvent(desk.window.table, enter)
    assert desk.window.message.text == NO_PARAGRAPH
    assert desk.window.focusWidget() is desk.window.message
    # but one that is typed is gone to
    desk.act("new_after")
    desk.act("to_paragraphs")
    enter = QKeyEvent(QEvent.Type.KeyPress, Qt.Key.Key_Return, _NONE, "\r")
    QApplication.sendEvent(desk.window.table, enter)
    assert desk.window.focusWidget() is desk.window.print
    desk.close()


@pytest.mark.parametrize("part, first", [("to_cells", ""), ("to_print", "sea")])
@pytest.mark.parametrize("act", ["change", "change_all"])
def test_words_that_were_looked_for_are_offered_to_be_changed_and_cells_are_not(
    desk: Desk, monkeypatch: pytest.MonkeyPatch, part: str, first: str, act: str
) -> None:
    offered: list[object] = []

    def fields(*words: Any) -> None:
        offered.append(words[3][0])

    monkeypatch.setattr(dialogs, "text", lambda *words: "sea")
    desk.act(part)
    desk.act("find")
    monkeypatch.setattr(dialogs, "text", lambda *words: offered.append(words[3]))
    monkeypatch.setattr(dialogs, "fields", fields)
    desk.act(act)
    assert offered == [first]


def _on_page(desk: Desk) -> str:
    """What the page shows, in one line."""
    return desk.window.page.text.replace(LINE_END, " ")


def test_the_page_is_that_of_the_chosen_paragraph_also_while_something_is_typed(
    application: QApplication, desk: Desk
) -> None:
    desk.window.show()
    for _ in range(2):
        desk.act("page")
    desk.choose(2, 12)
    desk.window.print.insertPlainText("Zz ")
    desk.act("page")
    said = "Paragraph 3, character 13: volume 1, page 1, line 3, "
    page = desk.window.page
    assert wait(application, 60, lambda: _on_page(desk).startswith(said))
    assert desk.window.message.text == "The page is shown beside the book."
    assert "⠵⠵" not in page.text
    desk.act("give_up")


def test_where_no_page_can_be_shown_it_is_said_why(
    application: QApplication,
    desk: Desk,
    other: Path,
    monkeypatch: pytest.MonkeyPatch,
) -> None:
    desk.window.show()
    for _ in range(2):
        desk.act("page")
    desk.act("new_after")
    desk.window.print.insertPlainText("Zz ")
    empty = Desk(other, None, 0.0, PageSize())
    empty.acts = Actions(empty).by_name
    empty.begin()
    empty.window.show()
    new = "The new paragraph isn't in the book yet, so it is on no page."
    for each, why in ((desk, new), (empty, NO_PARAGRAPH)):
        each.act("page")
        assert each.window.message.text == why
        assert wait(application, 60, lambda: _on_page(each) == why)
        each.act("page")
        assert each.window.message.text == "The page is hidden."
    empty.close()
    desk.act("give_up")
    monkeypatch.setattr(desk, "is_closed", True)
    desk.act("page")
    assert desk.window.message.text == CLOSED
    monkeypatch.undo()


def test_of_a_paragraph_on_no_page_it_is_said_why_it_is_on_none(
    application: QApplication, desk: Desk
) -> None:
    desk.window.show()
    desk.do(requests.Strike(2))
    desk.do(requests.Correct(3, 0, 29, ""))

    def says(why: str) -> None:
        desk.act("page")
        assert desk.window.message.text == why
        assert wait(application, 60, lambda: _on_page(desk) == why)
        desk.act("page")

    for row, why in (
        (1, "Paragraph 2 is struck, so it is on no page."),
        (2, "Paragraph 3 has no words, and takes no line."),
    ):
        desk.choose(row)
        says(why)
    desk.window.print.insertPlainText("So")
    says("Paragraph 3 has no words in the book yet, so it is on no page.")
    desk.act("give_up")


def test_a_paragraph_without_words_is_said_to_have_none_in_the_book_once_some_are_typed(
    application: QApplication, desk: Desk
) -> None:
    desk.window.show()
    desk.do(requests.Correct(3, 0, 29, ""))
    desk.choose(2)

    def is_on_page(begin: str) -> None:
        assert wait(application, 60, lambda: _on_page(desk).startswith(begin))

    desk.act("page")
    none = "Paragraph 3 has no words, and takes no line."
    is_on_page(none)
    assert desk.window.message.text == none
    desk.window.print.insertPlainText("So")
    is_on_page("Paragraph 3 has no words in the book yet, so it is on no page.")
    assert desk.window.message.text == ""
    desk.act("take_back")
    is_on_page(none)
    desk.window.print.insertPlainText("So")
    desk.act("keep")
    is_on_page("Paragraph 3, ")


def test_the_page_is_that_of_the_book_that_is_at_the_path_by_now(
    application: QApplication, desk: Desk
) -> None:
    desk.window.show()
    desk.act("page")
    assert wait(application, 60, lambda: "page 1, line 1, " in _on_page(desk))
    other = desk.path.with_name("other.braildesk")
    lines = ("Mars " * 20, "The Sun", "The stars are far away.", "It set.")
    typed = [requests.Type("end", "en", line.strip()) for line in lines]
    new_book(other, holding=[requests.Supply("en"), *typed])
    other.replace(desk.path)
    desk.act("heading")
    assert desk.is_closed
    desk.act("open_again")
    assert not desk.is_closed
    desk.choose(1)
    assert wait(application, 60, lambda: "page 1, line 5, " in _on_page(desk))
    desk.choose(3)
    assert wait(application, 60, lambda: "page 1, line 7, " in _on_page(desk))


def test_no_page_is_shown_of_a_book_that_was_changed_meanwhile(
    application: QApplication, desk: Desk, monkeypatch: pytest.MonkeyPatch
) -> None:
    failed: list[object] = []
    monkeypatch.setattr(sys, "excepthook", lambda kind, fault, _: failed.append(fault))
    desk.window.show()
    desk.act("page")
    desk.choose(1, 19)
    desk.asked(lambda: None)
    QApplication.processEvents()
    # the page waits for something else, and a correction by which a line becomes two comes before it
    desk.work.post(lambda: time.sleep(0.2), lambda _: None)
    desk.update_page(True)
    desk.do(requests.Correct(2, 0, 20, "A " + "b" * 38))
    page = desk.window.page
    assert wait(application, 60, lambda: "⠃" * 38 in page.text or bool(failed))
    desk.window.hide()
    assert failed == []


def test_what_was_read_before_a_change_is_not_listed_after_it(
    application: QApplication, desk: Desk
) -> None:
    model, is_read = desk.window.model, Event()

    def listed(place: int) -> list[str]:
        return [model.data(model.index(place, n)) for n in (2, 3)]

    assert listed(1) == ["", ""]
    # it is read by then, and is handed over only after the correction
    desk.work.post(lambda: is_read.set(), lambda _: None)
    assert is_read.wait(60)
    desk.do(requests.Correct(2, 6, 0, "o"))
    desk.do(requests.Resolve(1))
    there = ["", "The moon is far away."]
    assert wait(application, 60, lambda: listed(1) == there), listed(1)


def test_what_is_done_just_as_its_waiting_ends_is_no_failure(
    application: QApplication, monkeypatch: pytest.MonkeyPatch
) -> None:
    class Late(Future[int]):
        """What came a moment after its time ran out."""

        def result(self, timeout: float | None = None) -> int:
            found = super().result()
            if timeout is not None:
                raise TimeoutError
            return found

    monkeypatch.setattr("scribe.window.worker.Future", Late)
    held = Held()
    worker = Worker(held)
    assert worker.result(lambda: 1) == 1
    worker.stop()
    held.stop()


def test_sizes_and_fonts_are_remembered(desk: Desk, moon: Path) -> None:
    desk.act("larger")
    points = desk.window.cells.font().pointSizeF()
    assert points == pytest.approx(23.0)
    desk.window.remember()
    again = Desk(moon, None, 0.0, PageSize())
    again.is_closed = True
    assert again.window.cells.font().pointSizeF() == pytest.approx(23.0)
    again.close()


def test_the_history_says_who_changed_what(
    desk: Desk, monkeypatch: pytest.MonkeyPatch
) -> None:
    reports: list[tuple[str, list[str]]] = []

    def report(over: object, title: str, lines: Sequence[str]) -> None:
        reports.append((title, [*lines]))

    monkeypatch.setattr(dialogs, "report", report)
    desk.choose(0)
    desk.acts["history"]()
    desk.do(requests.CorrectBy(1, 4, 4, "Sun", who="anna"))
    desk.acts["history"]()
    title = "History of paragraph 1"
    assert reports == [
        (title, ["Nothing was corrected yet."]),
        (title, ["Correction 1, by anna, for 4 characters: The [Sun]"]),
    ]


def _while_read(patch: pytest.MonkeyPatch, deed: Callable[[], object]) -> None:
    """Has something be done while the text of an import is read."""

    def then_taken(*words: Any) -> Any:
        deed()
        return taken(*words)

    patch.setattr("braildesk.desk.import_text.taken", then_taken)


def test_nobody_else_has_the_book_while_a_document_is_read(
    desk: Desk,
    other: Path,
    given: Answers,
    monkeypatch: pytest.MonkeyPatch,
    tmp_path: Path,
) -> None:
    whys: list[Why] = []

    _while_read(monkeypatch, lambda: whys.extend(_tried(desk.path, other)))
    desk.act("heading")
    (text := tmp_path / "tides.md").write_text("One *and*.\n\nTwo.\n")
    desk.window.dropped.emit(text)
    assert whys == [Why.IN_USE, Why.IN_USE]
    said = "2 paragraphs typed, numbers 4 to 5, by the table en."
    assert desk.window.message.text == said
    assert [each.id for each in desk.contents.paragraphs] == [1, 4, 5, 2, 3]


@pytest.mark.parametrize("print_", ["One *and*.\n", "\n"])
def test_nothing_is_imported_into_another_book_that_is_put_there_while_a_document_is_read(
    desk: Desk,
    other: Path,
    given: Answers,
    monkeypatch: pytest.MonkeyPatch,
    tmp_path: Path,
    print_: str,
) -> None:
    _while_read(monkeypatch, lambda: os.replace(other, desk.path))
    before = desk.contents.version
    desk.act("heading")
    (text := tmp_path / "tides.md").write_text(print_)
    desk.window.dropped.emit(text)
    saved = Path(f"{desk.path}-saved-1")
    assert desk.is_closed and str(saved) in desk.window.message.text
    assert any(str(saved) in line for line in given["said"])
    with Session(saved) as session:
        assert (session.last_version, len(session.paragraphs())) == (before + 1, 3)
    with Session(desk.path) as session:
        assert session.last_version == 0


def _while_typed(patch: pytest.MonkeyPatch, deed: Callable[[], None]) -> None:
    """Has something be done as the typing of an import begins."""

    def then_typed(
        session: Session,
        intake: Intake,
        report: Callable[[int], None],
        begin: Callable[[], None],
    ) -> None:
        begin()
        type_all(session, intake, report, deed)

    patch.setattr("braildesk.desk.import_text.type_all", then_typed)


def _once_imported(patch: pytest.MonkeyPatch, deed: Callable[[], None]) -> None:
    """Has something be done once an import has come to its end."""

    def then_done(job: Import, *words: Any) -> Outcome:
        outcome = import_in_words(job, *words)
        deed()
        return outcome

    patch.setattr("scribe.window.files.import_in_words", then_done)


@pytest.mark.parametrize("when", [_while_typed, _once_imported])
def test_another_book_that_is_put_there_by_an_import_s_end_is_not_taken_for_the_book(
    desk: Desk,
    other: Path,
    given: Answers,
    monkeypatch: pytest.MonkeyPatch,
    tmp_path: Path,
    when: Callable[[pytest.MonkeyPatch, Callable[[], None]], None],
) -> None:
    when(monkeypatch, lambda: os.replace(other, desk.path))
    (text := tmp_path / "tides.txt").write_text("One.\n\nTwo.\n")
    desk.window.dropped.emit(text)
    saved = Path(f"{desk.path}-saved-1")
    said = (
        f"The file of the book is no longer at “{desk.path}”: another one was put there while it was"
        f" open. All of the book, with what was kept last, is in the new file “{saved}”. Go on with"
        " that one, or look first what is at the old path by now."
    )
    typed = "2 paragraphs typed, numbers 4 to 5, by the table en."
    if when is _while_typed:
        typed = f"{text} is in the book up to line 3, which is the end of paragraph 5 of the book."
    assert desk.is_closed and desk.window.message.text == said
    assert given["said"] == [typed, said]
    with Session(saved) as session:
        assert len(session.paragraphs()) == 5
    desk.act("open_again")
    assert desk.contents.paragraphs == ()
    assert desk.window.message.text.startswith(
        "The file that is at the path now is open, at version 0."
    )


def test_what_an_import_did_is_said_also_if_another_program_has_the_book_after_it(
    desk: Desk, monkeypatch: pytest.MonkeyPatch, tmp_path: Path
) -> None:
    shown: list[str] = []
    monkeypatch.setattr(dialogs, "report", lambda _, title, lines: shown.extend(lines))
    others: list[Session] = []

    def then_opened_by_another(job: Import, *words: Any) -> Outcome:
        outcome = import_in_words(job, *words)
        others.append(Session(job.book))
        return outcome

    monkeypatch.setattr("scribe.window.files.import_in_words", then_opened_by_another)
    text = tmp_path / "tides.txt"
    text.write_text("One.\n\nTwo.\n")
    desk.window.dropped.emit(text)
    said = [
        "2 paragraphs typed, numbers 4 to 5, by the table en.",
        f"Another program has “{desk.path}” open. That one must end first.",
    ]
    assert (desk.window.message.text, shown) == (" ".join(said), said)
    assert desk.is_closed and desk.loss == " ".join(said)
    others[0].take_over()
    others[0].close()
    desk.act("open_again")
    assert [each.id for each in desk.contents.paragraphs] == [1, 4, 5, 2, 3]


def test_of_a_book_that_another_program_has_after_an_import_all_else_says_that_it_is_closed(
    desk: Desk, monkeypatch: pytest.MonkeyPatch, given: Answers, tmp_path: Path
) -> None:
    others: list[Session] = []

    def then_opened_by_another(job: Import, *words: Any) -> Outcome:
        outcome = import_in_words(job, *words)
        others.append(Session(job.book))
        return outcome

    monkeypatch.setattr("scribe.window.files.import_in_words", then_opened_by_another)
    desk.act("heading")
    (text := tmp_path / "tides.txt").write_text("One.\n\nTwo.\n")
    desk.window.dropped.emit(text)
    assert desk.is_closed
    others[0].take_over()
    others[0].close()
    monkeypatch.setattr(dialogs, "file_to_write", lambda *_: tmp_path / "proof.html")
    given.update(fields=(["moon", "sun"], [False, False]), text="1", file=text)
    acts = "take_back headings all_marks volumes part proof change_all import_text"
    for name in acts.split():
        given["choices"] = [0, 0]
        desk.say("")
        desk.act(name)
        assert desk.window.message.text == CLOSED, name
    desk.window.dropped.emit(text)
    assert desk.window.message.text == f"Again: {CLOSED}"
    desk.act("open_again")
    assert [each.id for each in desk.contents.paragraphs] == [1, 4, 5, 2, 3]


@pytest.mark.parametrize("is_there", [True, False])
def test_what_an_import_did_is_said_also_if_the_session_after_it_ends(
    desk: Desk, monkeypatch: pytest.MonkeyPatch, tmp_path: Path, is_there: bool
) -> None:
    shown: list[str] = []
    monkeypatch.setattr(dialogs, "report", lambda _, title, lines: shown.extend(lines))
    imported = OpenBook.imported

    def then_killed(book: OpenBook, before: Contents, *of_import: Any) -> Contents:
        monkeypatch.setattr(OpenBook, "imported", imported)
        imported(book, before, *of_import)
        os.kill(book.pid, signal.SIGKILL)
        if not is_there:
            desk.path.rename(tmp_path / "away")
        book.session.version()
        raise AssertionError

    monkeypatch.setattr(OpenBook, "imported", then_killed)
    text = tmp_path / "tides.txt"
    text.write_text("One.\n\nTwo.\n")
    desk.window.dropped.emit(text)
    assert shown[0] == "2 paragraphs typed, numbers 4 to 5, by the table en."
    assert "The session was ended by signal 9." in " ".join(shown)
    assert desk.window.message.text.startswith("The session was ended by signal 9.")
    assert desk.is_closed is not is_there
    if is_there:
        assert [each.id for each in desk.contents.paragraphs] == [1, 4, 5, 2, 3]


def test_the_message_says_that_the_program_is_waited_for_until_it_answers(
    desk: Desk, monkeypatch: pytest.MonkeyPatch
) -> None:
    monkeypatch.setattr("scribe.window.worker._LONG_MILLISECONDS", 0, raising=False)
    said, is_seen = list[tuple[str, bool]](), Event()
    desk.window.print.setFocus()
    desk.say("Kept: paragraph 1.")
    message = desk.window.message

    def look() -> None:
        # it is heard where the focus is
        is_heard = desk.window.focusWidget() is message
        said.append((message.text, is_heard))
        is_seen.set()

    message.textChanged.connect(look)
    assert desk.asked(lambda: is_seen.wait(60))
    waiting, before = "Waiting for braildesk to answer.", "Kept: paragraph 1."
    assert said == [(waiting, True), (before, False)]
    assert desk.window.focusWidget() is desk.window.print


@pytest.mark.skipif(os.geteuid() != 0, reason="only root can act as two persons")
def test_a_link_of_another_user_by_which_the_book_is_named_is_said_first(
    application: QApplication, moon: Path
) -> None:
    link = moon.with_name("link")
    link.symlink_to(moon)
    os.chown(link, 65_534, -1, follow_symlinks=False)
    desk = Desk(followed(link), None, 0.0, PageSize())
    actions = Actions(desk)
    desk.acts = actions.by_name
    desk.begin()
    actions.offer()
    desk.close()
    assert desk.window.message.text.startswith(
        f"“{link}” is a link of another user, and leads to “{moon}”."
    )


@pytest.mark.parametrize("act", ["undo_here", "take_back"])
def test_a_mark_in_hand_that_stands_elsewhere_once_a_correction_is_taken_back_is_let_go(
    desk: Desk, act: str
) -> None:
    desk.choose(1)
    desk.act("to_print")
    far = Span(11, 14)
    cells = desk.asked(lambda: desk.book.cells_of(2, far))
    desk.do(requests.Mark(2, cells.start, cells.stop - cells.start, "so?"))
    desk.do(requests.Correct(2, 0, 3, "It, the"))
    assert desk.reading is not None
    desk.in_hand = desk.reading.its.marks[-1].id
    desk.window.print.put_caret(15)
    desk.link()
    assert "so?" in desk.window.here.text
    desk.act("to_message")
    desk.act(act)
    assert (desk.window.print.text, desk.place) == ("The mon is far away.", 15)
    assert "so?" not in desk.window.here.text and desk.in_hand is None


def _before_import(patch: pytest.MonkeyPatch, deed: Callable[[], None]) -> None:
    """Has something be done before an import opens the book."""

    def then_done(job: Import, *words: Any) -> Outcome:
        deed()
        return import_in_words(job, *words)

    patch.setattr("scribe.window.files.import_in_words", then_done)


@pytest.mark.parametrize("when, count", [(_before_import, 3), (_once_imported, 5)])
def test_a_book_that_is_removed_while_it_is_closed_for_an_import_is_saved(
    desk: Desk,
    given: Answers,
    monkeypatch: pytest.MonkeyPatch,
    tmp_path: Path,
    when: Callable[[pytest.MonkeyPatch, Callable[[], None]], None],
    count: int,
) -> None:
    when(monkeypatch, lambda: os.unlink(desk.path))
    (text := tmp_path / "tides.txt").write_text("One.\n\nTwo.\n")
    desk.window.dropped.emit(text)
    saved = Path(f"{desk.path}-saved-1")
    assert desk.is_closed and str(saved) in desk.window.message.text
    with Session(saved) as session:
        assert len(session.paragraphs()) == count


@pytest.mark.parametrize("count, stop", [(1, 0), (400, 1_999)])
def test_a_message_of_several_lines_is_read_whole_as_it_takes_the_focus(
    desk: Desk, application: QApplication, count: int, stop: int
) -> None:
    desk.window.show()
    desk.window.activateWindow()
    assert wait(application, 60, desk.window.isActiveWindow)
    desk.refuse(" ".join(["word"] * count))
    application.processEvents()
    assert desk.window.message.selected == Span(0, stop)
