"""What is pasted where print is typed: text in HTML alone, files, and what has no text."""

from collections.abc import Callable, Iterator
from pathlib import Path
from typing import Any

import pytest
from PyQt6.QtCore import QMimeData, QPoint, QPointF, Qt, QTimer, QUrl
from PyQt6.QtGui import QDragEnterEvent, QDragMoveEvent, QDropEvent, QImage
from PyQt6.QtTest import QTest
from PyQt6.QtWidgets import QApplication, QDialog, QLineEdit, QWidget

from scribe.window import dialogs
from scribe.window.desk import Desk
from scribe.window.dragged import Dragged

from conftest import Answers, Open
from dragging import PLACE, Source
from test_whole import prints_of


def pasted(desk: Desk, **data: object) -> None:
    """Pastes what has some kinds of data."""
    its = QMimeData()
    for kind, value in data.items():
        getattr(its, f"set{kind}")(value)
    desk.window.print.insertFromMimeData(its)


def test_of_html_alone_the_text_is_pasted(desk: Desk, given: Answers) -> None:
    desk.act("new_after")
    pasted(desk, Html="<p>The <b>sea</b> &amp; the\nmoon</p>")
    assert desk.window.print.text == "The sea & the moon"
    desk.act("keep")
    desk.act("give_up")
    given["choices"] = [0]
    desk.act("new_after")
    pasted(desk, Html="<h1>Tides</h1><p>They come.</p><ul><li>twice</li></ul>")
    assert "3 lines were pasted. Are they paragraphs?" in given["said"]
    assert prints_of(desk)[1:4] == ["Tides", "They come.", "twice"]


def test_a_file_that_is_pasted_is_imported_once_that_is_asked(
    desk: Desk, given: Answers, tmp_path: Path
) -> None:
    (text := tmp_path / "text.txt").write_text("One.\n\nTwo.\n")
    urls = [QUrl.fromLocalFile(str(text))]
    given["choices"] = [1, 0]
    pasted(desk, Urls=urls, Text=urls[0].toString())
    asked = "text.txt was pasted. Shall its text be imported after paragraph 1?"
    assert given["said"] == [asked]
    assert desk.window.message.text == "Nothing was typed."
    assert desk.window.print.text == "The Moon"
    desk.window.print.put_in("x")
    assert desk.window.message.text == ""
    desk.act("give_up")
    pasted(desk, Urls=urls)
    assert prints_of(desk)[:3] == ["The Moon", "One.", "Two."]


def test_of_several_files_that_are_pasted_none_is_typed(
    desk: Desk, given: Answers, tmp_path: Path
) -> None:
    urls = [QUrl.fromLocalFile(str(tmp_path / name)) for name in ("a.txt", "b.txt")]
    pasted(desk, Urls=urls)
    said = "2 files were pasted, and nothing was typed. Ctrl+I imports one at a time."
    assert desk.window.message.text == said
    assert not desk.is_typed()
    pasted(desk, Text="x")
    assert (desk.is_typed(), desk.window.message.text) == (True, "")


def test_an_address_that_is_pasted_is_typed(desk: Desk, given: Answers) -> None:
    desk.act("new_after")
    pasted(desk, Urls=[QUrl("https://a.org/b")], Text="https://a.org/b")
    assert desk.window.print.text == "https://a.org/b"
    desk.act("give_up")


def test_what_has_no_text_is_said_not_to_be_pasted(desk: Desk) -> None:
    pasted(desk, ImageData=QImage(3, 3, QImage.Format.Format_RGB32))
    assert desk.window.message.text == (
        "There is no text to put in, so nothing was typed."
    )
    assert not desk.is_typed()
    # which is so no more once something is
    pasted(desk, Text="x")
    assert (desk.is_typed(), desk.window.message.text) == (True, "")


@pytest.mark.parametrize(
    "place, text, wanted",
    [
        (4, "One.\nTwo. ", ["The One.", "Two. Moon", "The mon is far away."]),
        (4, "One.\nTwo.\n", ["The One.", "Two.", "Moon"]),
        (0, "One.\nTwo.\n", ["One.", "Two.", "The Moon"]),
        (8, "\nrose.\nTwo.\n", ["The Moon rose.", "Two.", "The mon is far away."]),
    ],
)
def test_what_stands_after_the_caret_stays_after_pasted_paragraphs(
    desk: Desk, given: Answers, place: int, text: str, wanted: list[str]
) -> None:
    given["choices"] = [0]
    desk.window.print.put_caret(place)
    pasted(desk, Text=text)
    assert given["said"] == ["2 lines were pasted. Are they paragraphs?"]
    assert prints_of(desk)[:3] == wanted
    # before a whole paragraph they are new ones, so that its marks stay on it
    its = desk.contents.place(1)
    assert its == (2 if place == 0 else 0)


@pytest.mark.parametrize(
    "place, text, wanted",
    [
        (4, "One.\nTwo. ", ("Two. Moon", len("Two. "))),
        (3, "One.\nTwo.", ("Two. Moon", len("Two."))),
        (3, "One.\nTwo.\n", ("Moon", 0)),
        (4, "One.\nTwo.\n", ("Moon", 0)),
        (0, "One.\nTwo.\n", ("Two.", len("Two."))),
        (8, "\nrose.\nTwo.\n", ("Two.", len("Two."))),
    ],
)
def test_what_is_typed_after_pasted_paragraphs_comes_after_them(
    desk: Desk, given: Answers, place: int, text: str, wanted: tuple[str, int]
) -> None:
    given["choices"] = [0]
    desk.window.print.put_caret(place)
    pasted(desk, Text=text)
    assert (desk.window.print.text, desk.window.print.place) == wanted


def test_a_mark_on_words_that_go_into_another_paragraph_is_said_to_stay(
    desk: Desk, given: Answers
) -> None:
    given["choices"] = [0]
    desk.show(desk.contents, 2)
    desk.window.print.put_caret(3)
    pasted(desk, Text=" sea.\nThe")
    assert prints_of(desk)[1:3] == ["The sea.", "The mon is far away."]
    assert desk.window.message.text == (
        "Kept: paragraph 4. Mark 1 was touched, and stays in paragraph 2."
    )


def test_a_paragraph_and_those_after_it_of_pasted_lines_are_taken_back_together(
    desk: Desk, given: Answers
) -> None:
    desk.window.print.put_caret(4)
    given["choices"] = [0, 0]
    pasted(desk, Text="One.\nTwo.\nThree.")
    assert prints_of(desk)[:3] == ["The One.", "Two.", "Three.Moon"]
    desk.act("take_back")
    assert given["said"][-1] == (
        "The last action did this: paragraph 1 was corrected, and 2 paragraphs were typed, 4 to 5."
        " Shall all of it be taken back?"
    )
    assert prints_of(desk)[0] == "The Moon"
    assert [each.id for each in desk.contents.paragraphs if each.struck] == [4, 5]
    desk.act("take_back")
    assert desk.window.message.text.startswith("There is nothing that Ctrl+Z could")


def test_pasted_lines_that_are_neither_are_given_up(
    desk: Desk, given: Answers, monkeypatch: pytest.MonkeyPatch
) -> None:
    names: list[str] = []

    def one_of(_: object, title: str, asked: str, given: list[str], first: int) -> str:
        names.extend(given)
        return given[first]

    monkeypatch.setattr(dialogs, "one_of", one_of)
    given["choices"] = [2, 0]
    pasted(desk, Text="One.\nTwo.\n")
    assert not desk.is_typed()
    assert desk.window.message.text == (
        "The lines aren't in the book. Ctrl+B brings them back."
    )
    desk.act("bring_back")
    assert names == ["1. A text of a new paragraph: “One. Two.”"]
    assert prints_of(desk)[:3] == ["The Moon", "One.", "Two."]


def test_what_stands_after_pasted_lines_that_are_joined_is_parted_from_them(
    desk: Desk, given: Answers
) -> None:
    given["choices"] = [1]
    desk.window.print.put_caret(4)
    pasted(desk, Text="One.\nTwo.\n")
    assert desk.window.print.text == "The One. Two. Moon"
    desk.act("give_up")


@pytest.mark.parametrize(
    "place, text, wanted",
    [
        (3, "\nbig\n", "The big Moon"),
        (4, "big\n", "The big Moon"),
        (4, "  big  ", "The   big  Moon"),
        (8, "\nrose.\n", "The Moon rose."),
        (8, "s\n", "The Moons"),
        (3, "\nbig\nred\n", "The big red Moon"),
    ],
)
def test_the_end_of_a_line_parts_what_is_pasted_from_the_words_beside_it(
    desk: Desk, given: Answers, place: int, text: str, wanted: str
) -> None:
    given["choices"] = [1]
    desk.window.print.put_caret(place)
    pasted(desk, Text=text)
    assert desk.window.print.text == wanted
    desk.act("give_up")


def drop_lines(desk: Desk) -> QDropEvent:
    """Drops lines at the front of the print, as a program does that would move them."""
    data, actions = QMimeData(), Qt.DropAction
    data.setText("One.\nTwo.")
    drop = QDropEvent(
        QPointF(2, 8),
        actions.CopyAction | actions.MoveAction,
        data,
        Qt.MouseButton.LeftButton,
        Qt.KeyboardModifier.NoModifier,
    )
    drop.setDropAction(actions.MoveAction)
    desk.window.print.dropEvent(drop)
    return drop


def test_lines_that_are_dropped_stay_where_they_come_from_and_keep_it_waiting_for_no_answer(
    desk: Desk, application: QApplication, given: Answers
) -> None:
    given["choices"] = [2]
    drop = drop_lines(desk)
    assert drop.isAccepted() and drop.dropAction() == Qt.DropAction.CopyAction
    assert not given["said"]
    application.processEvents()
    assert given["said"] == ["2 lines were dropped. Are they paragraphs?"]
    assert given["titles"] == ["Dropped lines"]


def test_lines_go_where_they_were_dropped_though_the_caret_was_moved_before_that_is_asked(
    desk: Desk, application: QApplication, given: Answers
) -> None:
    given["choices"] = [0]
    desk.window.print.put_caret(8)
    drop_lines(desk)
    desk.window.print.put_caret(8)
    application.processEvents()
    assert prints_of(desk)[:3] == ["One.", "Two.The Moon", "The mon is far away."]


@pytest.mark.parametrize("act", ["strike", "new_after", "choose"])
def test_lines_are_given_up_where_something_else_is_shown_before_they_are_asked_about(
    desk: Desk, application: QApplication, given: Answers, act: str
) -> None:
    drop_lines(desk)
    if act == "choose":
        desk.window.choose(1)
    else:
        desk.act(act)
    application.processEvents()
    assert desk.window.message.text == (
        "Lines were dropped while something else was being done. The lines aren't in the book."
        " Ctrl+B brings them back."
    )
    (given_up,) = desk.unsent.texts()
    assert given_up.text == "One.\nTwo."
    assert not given["said"] and prints_of(desk)[0] == "The Moon"


def test_lines_that_are_dropped_as_something_else_begins_are_given_up(
    desk: Desk,
) -> None:
    desk.acting(lambda: desk.window.print.pasted.emit(["One.", "Two.", ""]))
    assert desk.window.message.text == (
        "Lines were dropped while something else was being done. The lines aren't in the book."
        " Ctrl+B brings them back."
    )
    (given_up,) = desk.unsent.texts()
    assert given_up.text == "One.\nTwo."
    assert prints_of(desk)[0] == "The Moon"


@pytest.mark.parametrize("is_file", [False, True])
@pytest.mark.parametrize("is_copied", [True, False])
def test_what_is_dragged_is_copied_from_the_first_or_isnt_taken(
    desk: Desk,
    application: QApplication,
    tmp_path: Path,
    is_file: bool,
    is_copied: bool,
) -> None:
    data, actions = QMimeData(), Qt.DropAction
    files: list[Path] = []
    desk.window.dropped.disconnect()
    desk.window.dropped.connect(files.append)
    if is_file:
        data.setUrls([QUrl.fromLocalFile(str(tmp_path / "text.txt"))])
    else:
        data.setText("far ")
    offered = actions.MoveAction
    if is_copied:
        offered |= actions.CopyAction
    # with Shift a move is proposed, as programs do that drag a text without it
    hands = Qt.MouseButton.LeftButton, Qt.KeyboardModifier.ShiftModifier
    events: list[QDropEvent] = [
        QDragEnterEvent(QPoint(2, 8), offered, data, *hands),
        QDragMoveEvent(QPoint(2, 8), offered, data, *hands),
        QDropEvent(QPointF(2, 8), offered, data, *hands),
    ]
    to = desk.window if is_file else desk.window.print.viewport()
    for event in events:
        assert event.proposedAction() == actions.MoveAction
        application.sendEvent(to, event)
        assert event.isAccepted() == is_copied
        if is_copied:
            assert event.dropAction() == actions.CopyAction
    application.processEvents()
    assert files == ([tmp_path / "text.txt"] if is_file and is_copied else [])
    is_typed = is_copied and not is_file
    assert desk.window.print.text == ("far The Moon" if is_typed else "The Moon")
    if is_typed:
        desk.act("give_up")


ASKED: dict[str, Callable[[QWidget], object]] = {
    "a line": lambda over: dialogs.text(over, "Go to", "&Where?", "here"),
    "a line that is typed further": lambda over: dialogs.text_further(
        over, "Mark", "The note:", "here", lambda typed: None
    ),
    "several lines": lambda over: dialogs.fields(
        over, "Change", ("&Words:", "&New ones:"), ("", "here"), ()
    ),
    "a folder": lambda over: dialogs.folder(over, "Export", "The folder:", "here"),
    "a file": lambda over: dialogs.file_to_read(over, "Import", Path("here"), ""),
    "a file to write": lambda over: dialogs.file_to_write(over, "Proof", Path("here")),
    "a new file": lambda over: dialogs.new_file(over, "New", Path("here")),
    "a font": lambda over: dialogs.font(over, "Font", over.font()),
}


@pytest.fixture
def dragged(application: QApplication) -> Iterator[None]:
    """What is dragged is copied, as in the application of the window."""
    its = Dragged(application)
    yield
    application.removeEventFilter(its)


@pytest.mark.usefixtures("dragged")
@pytest.mark.parametrize("is_copied", [True, False])
@pytest.mark.parametrize("ask", ASKED.values(), ids=ASKED.keys())
def test_what_is_dragged_into_a_line_of_a_dialog_is_copied_or_isnt_taken(
    application: QApplication, ask: Callable[[QWidget], object], is_copied: bool
) -> None:
    data, actions, found = QMimeData(), Qt.DropAction, list[str]()
    data.setText("far")
    offered = actions.MoveAction
    if is_copied:
        offered |= actions.CopyAction
    hands = Qt.MouseButton.LeftButton, Qt.KeyboardModifier.ShiftModifier
    taken: list[tuple[bool, bool]] = []

    def drag() -> None:
        dialog = application.activeModalWidget()
        if not isinstance(dialog, QDialog) or dialog.windowHandle() is None:
            QTimer.singleShot(10, drag)
            return
        parts = dialog.findChildren(QLineEdit)
        lines = [e for e in parts if isinstance(e, QLineEdit) and e.isVisible()]
        line = lines[-1]
        at, before = line.mapTo(dialog, QPoint(1, line.height() // 2)), line.text()
        events: list[QDropEvent] = [
            QDragEnterEvent(at, offered, data, *hands),
            QDragMoveEvent(at, offered, data, *hands),
            QDropEvent(QPointF(at), offered, data, *hands),
        ]
        for event in events:
            application.sendEvent(dialog.windowHandle(), event)
            is_copy = event.dropAction() == actions.CopyAction
            taken.append((event.isAccepted(), event.isAccepted() and is_copy))
        found.extend((before, line.text()))
        dialog.reject()

    QTimer.singleShot(0, drag)
    assert ask(QWidget()) is None
    assert taken == [(is_copied, is_copied)] * 3
    before, after = found
    assert after == (f"far{before}" if is_copied else before)


@pytest.fixture
def drags() -> Iterator[Callable[[str], Source]]:
    """Starts another program, from which a text can be dragged, above other windows."""
    sources: list[Source] = []

    def started(text: str) -> Source:
        sources.append(Source(text))
        return sources[-1]

    yield started
    for each in sources:
        each.end()


def test_another_program_keeps_what_is_dragged_from_it_into_a_dialog_of_qt(
    moon: Path, at: Open, drags: Callable[[str], Source]
) -> None:
    window = at(moon)
    window.press("Ctrl+i")
    line = window.first("text", window.dialog("Import a text"))
    source = drags("far")
    window.drag(PLACE, line)
    window.until("what was dragged", lambda: window.text_in(line) == "far")
    assert source.text == "far"


def test_the_print_keeps_what_is_dragged_from_it_into_another_program_that_moves_it(
    moon: Path, at: Open, drags: Callable[[str], Source]
) -> None:
    window = at(moon)
    window.press("F2")
    window.focus("text", "Print")
    # what is dragged within the print is moved there
    window.drag_over("Print", 0, 4)
    window.drag_within("Print", 1, 7)
    window.reads("Print", "MooThe n")
    window.press("Ctrl+a")
    source = drags("far")
    window.drag_out("Print", 2, PLACE)
    window.until("what was dragged", lambda: "MooThe n" in source.text)
    # whatever was dragged is still dragged, and what is typed comes in its place
    window.reads("Print", "MooThe n")
    window.type("x")
    window.reads("Print", "x")
    window.press("Escape")
    window.reads("Print", "The Moon")


TOO_MUCH = (
    "With what was copied this would have {:,} characters, and at most {:,} can be pasted here."
    " Nothing was typed. Save the text as a document, such as .odt or .docx: Ctrl+I imports it, with"
    " long paragraphs parted."
)


@pytest.mark.parametrize(
    "line, times, end, answer, count, most",
    [
        ("a", 99_993, "", None, 100_001, 100_000),
        ("a", 5_000_000, "\nb", None, 5_000_008, 100_000),
        ("a\n", 500_000, "", None, 500_008, 500_000),
        ("a\n", 50_000, "", 1, 100_008, 100_000),
    ],
)
def test_more_than_can_be_typed_is_said_to_be_kept_elsewhere_and_changes_nothing(
    desk: Desk,
    given: Answers,
    line: str,
    times: int,
    end: str,
    answer: int | None,
    count: int,
    most: int,
) -> None:
    given["choices"] = [answer]
    desk.window.print.put_caret(8)
    pasted(desk, Text=line * times + end)
    assert desk.window.message.text == TOO_MUCH.format(count, most)
    assert (desk.window.print.text, desk.draft()) == ("The Moon", None)
    # as much as there is room for is typed
    pasted(desk, Text="a" * 99_992)
    assert len(desk.window.print.text) == 100_000
    assert desk.window.message.text == ""
    desk.act("give_up")


def test_what_is_dropped_and_is_too_much_can_be_brought_back(
    desk: Desk, application: QApplication
) -> None:
    """Qt takes it away from where it was, if it is dropped before this window could answer anything."""
    field, actions = desk.window.print, Qt.DropAction
    data, text = QMimeData(), "The sea. " * 12_223
    data.setText(text)
    hands = Qt.MouseButton.LeftButton, Qt.KeyboardModifier.NoModifier
    offered = actions.CopyAction | actions.MoveAction
    field.dropEvent(QDropEvent(QPointF(2, 8), offered, data, *hands))
    assert (field.text, desk.draft()) == ("The Moon", None)
    application.processEvents()
    said = TOO_MUCH.format(110_015, 100_000)
    said = said.replace("copied", "dropped").replace("pasted", "dropped")
    assert desk.window.message.text == (
        f"{said} The lines aren't in the book. Ctrl+B brings them back."
    )
    (given_up,) = desk.unsent.texts()
    lines = given_up.text.split("\n")
    assert "".join(lines).replace(" ", "") == text.replace(" ", "")
    assert max(map(len, lines)) <= 4_000
    pasted(desk, Text="x")
    assert desk.window.message.text == (
        "The lines aren't in the book. Ctrl+B brings them back."
    )


@pytest.mark.parametrize("part", ["table", "cells"])
def test_what_is_pasted_where_no_text_is_typed_is_said_to_be_nowhere(
    desk: Desk, part: str
) -> None:
    clipboard = QApplication.clipboard()
    assert clipboard is not None
    clipboard.setText("One.\nTwo.")
    hands: Any = QTest
    its = getattr(desk.window, part)
    its.setFocus()
    hands.keyClick(its, Qt.Key.Key_V, Qt.KeyboardModifier.ControlModifier)
    said = "Nothing was pasted: a text goes into the print. F2 goes there."
    assert desk.window.message.text == said
    assert (desk.window.print.text, desk.contents.version) == ("The Moon", 5)
    pasted(desk, Text="x")
    assert desk.window.message.text == ""
