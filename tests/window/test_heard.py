"""What a screen reader says, by Orca's own log, beside what the window gives to the bus.

`orca.txt` was written by `orca.sh` while the steps of `steps.py` were done. Here they are done again, and
what Orca had to say of each part is put together from the bus.
"""

import time
from collections.abc import Iterator
from pathlib import Path

import pytest
from PyQt6.QtCore import QEvent, QObject, QTimer
from PyQt6.QtWidgets import QApplication, QDialog

from scribe.window import dialogs
from scribe.window.desk import Desk
from scribe.window.worker import _MOMENT_SECONDS

from conftest import Open, wait
from reader import (
    CARET,
    EDITABLE,
    FOCUS,
    FOCUSABLE,
    INSERTED,
    PATIENCE_SECONDS,
    SELECTION,
    Part,
    Reader,
    all_within,
    has,
    hearing,
    text_of,
)
from steps import STEPS

# parts from which the print takes the focus, each by its key
_ELSEWHERE = ("F5", "table", "Paragraphs"), ("F6", "text", "Message")
# keys that keep first what is typed, what a dialog of theirs is answered, and what they say after that
_AFTER_KEPT = (
    ("F4", "", "Mark 1, open, on “mon”: spelled so?"),
    ("F3", "", "Paragraph 2, character 6."),
    ("Ctrl+d", "", "Kept: paragraph 2 struck."),
    (
        "Shift+F4",
        "",
        "This is the last in the book. Mark 1, open, on “mon”: spelled so?",
    ),
    ("Ctrl+m", "Return", "Kept: mark 2."),
    ("Ctrl+m", "Escape", ""),
)
FIXTURE = Path(__file__).with_name("orca.txt")


def _said() -> dict[str, list[str]]:
    """What Orca said at each step."""
    parts = FIXTURE.read_text(encoding="utf-8").strip().split("\n\n")
    named = (part.split("\n") for part in parts)
    return {lines[0].removeprefix("# "): lines[1:] for lines in named}


SAID = _said()


def _ended(text: str) -> str:
    """A text with the stop that Orca puts after what has none."""
    return text if text.endswith((".", "?", "!", ":")) else f"{text}."


def _row(window: Reader, row: int) -> list[str]:
    """A row of the table, cell by cell; an empty one isn't spoken."""
    return [_ended(cell) for cell in window.cells(row) if cell]


def _table(window: Reader) -> list[str]:
    columns = len(window.cells(0))
    return ["Paragraphs.", f"table with {window.rows()} rows {columns} columns"]


def _field(part: Part) -> list[str]:
    """A field that takes the focus: what it is, its text, and its description."""
    kind = "text" if has(part, EDITABLE) else "read only text"
    found = [f"{part.get_name()} {kind}.", _ended(text_of(part))]
    about = part.get_description()
    return [*found, _ended(about)] if about else found


def _spoken(window: Reader) -> str:
    """What is spoken where the focus stays, without what has Orca not say that it is selected."""
    return window.text_in(window.part("text", "Spoken", window.top)).rstrip("\ufffc")


@pytest.fixture
def window(moon: Path, at: Open) -> Reader:
    """The book of the steps, in a window that has just been opened."""
    found = at(moon, "--by", "anna")
    found.focus("table", "Paragraphs")
    found.lists(1, "2 body, 1 open mark: The mon is far away.")
    return found


def test_each_step_is_in_the_log() -> None:
    assert list(SAID) == ["opening", *STEPS]


def test_at_the_opening(window: Reader) -> None:
    frame = f"{window.top.get_name()} frame."
    assert SAID["opening"] == [frame, *_table(window), *_row(window, 0)]


def test_at_a_move(window: Reader) -> None:
    window.press("Down")
    window.reads("Print", "The mon is far away.")
    assert SAID["a move to the next paragraph"] == _row(window, 1)


def test_at_a_mark_at_a_correction_and_at_a_refusal(window: Reader) -> None:
    window.press("Down", "F4")
    window.focus("text", "Print")
    field, message = (window.part("text", name) for name in ("Print", "Message"))
    # what was found is said with the print that takes the focus
    window.until("the mark", lambda: str(field.get_description()) == text_of(message))
    window.says("Mark 1")
    assert SAID["to the next open mark"] == _field(field)
    window.press("Right")
    window.caret("Print", 5)
    window.type("o")
    window.reads("Print", "The moon is far away.")
    window.press("Return")
    window.says("Kept")
    kept = window.text("Message")
    assert _spoken(window) == kept
    assert SAID["Enter keeps it"] == ["return", kept]
    window.press("F6")
    window.focus("text", "Message")
    assert SAID["F6 to the message"] == _field(message)
    window.press("Escape")
    window.focus("text", "Print")
    assert SAID["Escape back to the print"] == ["escape", *_field(field)]
    window.press("Ctrl+r", "End")
    window.says("resolved")
    window.type("#")
    window.reads("Print", "The moon is far away.#")
    window.press("Return")
    window.focus("text", "Message")
    window.says("The table of paragraph 2 has no cells")
    assert SAID["Enter is refused"] == ["return", *_field(message)]


def test_a_new_paragraph_is_said_to_be_one(window: Reader) -> None:
    window.press("Ctrl+Return")
    window.focus("text", "Print")
    about = window.part("text", "Print").get_description()
    assert about == "A new paragraph after paragraph 1, table en"
    assert SAID["a new paragraph"] == ["Print text.", _ended(about.replace("1", "3"))]


def test_nothing_that_takes_the_focus_is_without_a_name(window: Reader) -> None:
    parts = (each for each in all_within(window.top) if has(each, FOCUSABLE))
    assert [each.get_role_name() for each in parts if not each.get_name()] == []


@pytest.fixture
def heard() -> Iterator[list[tuple[str, str]]]:
    """What is told of the focus, of carets and of what is selected, each with the name of its part."""
    with hearing() as found:
        yield found


def test_of_names_the_chosen_one_is_told_and_each_that_is_chosen_after_it(
    window: Reader, heard: list[tuple[str, str]]
) -> None:
    window.press("Ctrl+l")
    dialog = window.dialog("Table")
    window.part("label", "The table of paragraph 1:", dialog)
    window.part("list", "Table", dialog)
    window.until("the focus on en", lambda: (FOCUS, "en") in heard)
    for key, name in (("Down", "ueb"), ("Up", "en")):
        heard.clear()
        window.press(key)
        window.until(f"the focus on {name}", lambda: (FOCUS, name) in heard)
    window.press("Escape")
    window.no_dialog()


def test_of_an_empty_line_it_is_told_first_that_it_has_the_focus(
    window: Reader, heard: list[tuple[str, str]]
) -> None:
    window.press("Ctrl+Shift+H")
    dialog = window.dialog("Change everywhere")
    name = "What comes in their place; nothing takes them out:"
    window.part("text", name, dialog)
    window.press("Tab")
    window.until("the focus there", lambda: (FOCUS, name) in heard)
    assert [kind for kind, of in heard if of == name][0] == FOCUS


def test_what_a_letter_did_in_the_table_is_told_at_its_row_until_another_is_chosen(
    window: Reader, heard: list[tuple[str, str]]
) -> None:
    window.press("Down")
    window.until("the row", lambda: (FOCUS, "The mon is far away.") in heard)
    heard.clear()
    window.press("b")
    window.until("its kind", lambda: (FOCUS, "heading") in heard)
    window.says("Kept: ")
    kept = window.text("Message")
    assert window.about(1) == ["", kept, "", ""]
    said = ["b", "Kind column header heading.", _ended(kept)]
    assert SAID["making a heading"] == [each.replace("2", "3") for each in said]
    # after a dialog it is told with the whole row
    window.press("m")
    window.dialog("Mark in paragraph 2")
    window.press("Return")
    window.no_dialog()
    window.says("Kept: mark 2.")
    window.until("it", lambda: window.about(1) == ["", "", "", "Kept: mark 2."])
    window.press("Up")
    window.until("none", lambda: not any(window.about(0) + window.about(1)))


def test_no_row_is_told_to_have_the_focus_while_another_part_has_it(
    window: Reader, heard: list[tuple[str, str]]
) -> None:
    window.press("F2")
    window.focus("text", "Print")
    heard.clear()
    window.press("F4")
    window.says("Mark 1")
    window.reads("Print", "The mon is far away.")
    window.press("F8")
    window.until("the focus on the braille", lambda: (FOCUS, "Braille") in heard)
    assert [name for kind, name in heard if kind == FOCUS] == ["Braille"]
    window.press("F5")
    # the row is told once the table has the focus
    window.until("the row", lambda: (FOCUS, "The mon is far away.") in heard)


def test_what_is_said_or_shown_where_the_print_keeps_the_focus_is_spoken_once(
    window: Reader, heard: list[tuple[str, str]]
) -> None:
    window.press("F2")
    window.until("the focus on the print", lambda: (FOCUS, "Print") in heard)
    print_, mark = "The mon is far away.", "Mark 1, open, on “mon”: spelled so?"
    new = "A new paragraph after paragraph 1, table en"
    steps = (
        ("Ctrl+Return", new),
        ("Escape", "The Moon. This paragraph was empty, and wasn't added."),
        ("Ctrl+Return", new),
        # what comes into the print after Enter is read by itself
        ("Return", "This paragraph was empty, and wasn't added."),
        ("F4", f"{print_} {mark}"),
        ("F4", f"The book has no other open mark. {mark}"),
    )
    for key, said in steps:
        heard.clear()
        window.press(key)
        window.until(said, lambda: _spoken(window) == said)
        window.until("it", lambda: (SELECTION, "Spoken") in heard)
        assert heard.count((SELECTION, "Spoken")) == 1
        # the focus is nowhere else in the meantime, and a display has the print
        assert FOCUS not in [kind for kind, _ in heard]
        if said != new:
            window.until("the print", lambda: (SELECTION, "Print") in heard)
            assert window.selected("Print") == ""


@pytest.mark.parametrize("key, answer, said", _AFTER_KEPT)
def test_what_a_key_keeps_first_is_said_before_what_it_does(
    window: Reader, key: str, answer: str, said: str
) -> None:
    window.press("Ctrl+f")
    window.dialog("Find")
    window.type("mon")
    window.press("Return")
    window.no_dialog()
    window.says("Paragraph 2, character 5.")
    window.press("Home")
    window.caret("Print", 0)
    window.type("x")
    window.reads("Print", "xThe mon is far away.")
    window.press(key)
    if answer:
        window.dialog("Mark in paragraph 2")
        window.press(answer)
        window.no_dialog()
    kept = f"Kept: correction 1 of paragraph 2. {said}".rstrip()
    window.reads("Message", kept)
    if answer:
        # the print takes the focus again, and what is said with it
        field = window.part("text", "Print")
        window.until("it", lambda: str(field.get_description()) == kept)
    else:
        window.until("it", lambda: _spoken(window) == kept)


def test_what_was_kept_is_said_of_a_new_paragraph_that_is_begun_from_the_table(
    window: Reader,
) -> None:
    window.press("F2")
    window.focus("text", "Print")
    window.type("x")
    window.reads("Print", "xThe Moon")
    window.press("F5")
    window.focus("table", "Paragraphs")
    window.press("Ctrl+Return")
    window.focus("text", "Print")
    new, kept = "A new paragraph after paragraph 1, table en", "Kept: correction 1"
    window.says(kept)
    its = window.part("text", "Print").get_description()
    assert its == f"{new}. {kept} of paragraph 1."


def test_a_new_paragraph_is_spoken_before_the_text_that_was_given_up_for_it(
    window: Reader,
) -> None:
    window.press("F2")
    window.focus("text", "Print")
    window.press("F4")
    window.says("Mark 1")
    window.caret("Print", 4)
    window.type("x")
    window.reads("Print", "The xmon is far away.")
    window.press("Ctrl+z")
    window.reads("Print", "The mon is far away.")
    window.press("Ctrl+Return")
    new = "A new paragraph after paragraph 2, table en"
    aside = "What was typed and taken back is set aside: “The xmon is far away.”."
    said = f"{new}. {aside} Ctrl+B brings it back."
    window.until(said, lambda: _spoken(window) == said)
    assert window.text("Message") == f"{aside} Ctrl+B brings it back."


def test_what_is_said_where_the_print_takes_the_focus_is_not_spoken_besides(
    window: Reader, heard: list[tuple[str, str]]
) -> None:
    window.press("F4")
    window.says("Mark 1")
    window.press("Ctrl+f")
    window.dialog("Find")
    window.type("sea")
    window.press("Return")
    window.no_dialog()
    window.says("Paragraph 3")
    window.choose("Marks", "Next open mark")
    window.says("Mark 1")
    window.press("F8", "F2")
    window.until("the focus on the print", lambda: heard[-1:] == [(FOCUS, "Print")])
    assert (SELECTION, "Spoken") not in heard


def test_the_focus_is_in_the_menus_from_their_key_on_until_an_action_is_done(
    window: Reader, heard: list[tuple[str, str]]
) -> None:
    window.press("F2")
    window.focus("text", "Print")
    window.press("F4")
    window.says("Mark 1")
    window.press("Ctrl+r")
    window.says("Kept")
    heard.clear()
    for key, first in (
        ("F10", "Import a text…"),
        ("Right", "Take back"),
        ("Right", "New paragraph after"),
        ("Left", "Take back"),
    ):
        window.press(key)
        window.until(first, lambda: heard[-1:] == [(FOCUS, first)])
    assert (FOCUS, "Print") not in heard
    window.press("Return")
    window.until("the focus on the print", lambda: (FOCUS, "Print") in heard)
    window.says("Taken back: mark 1 was resolved.")
    its = window.part("text", "Print").get_description()
    assert its == window.text("Message")


def test_the_print_has_a_text_that_is_brought_back_before_it_takes_the_focus(
    moon: Path, at: Open
) -> None:
    with hearing((FOCUS, INSERTED)) as heard:
        window = at(moon)
        window.press("Ctrl+Return")
        window.focus("text", "Print")
        window.type("so")
        window.reads("Print", "so")
        window.press("Escape")
        window.says("Ctrl+B brings it back.")
        window.press("F5")
        window.focus("table", "Paragraphs")
        heard.clear()
        window.press("Ctrl+Shift+B")
        window.until("the focus", lambda: (FOCUS, "Print") in heard)
        window.until("the text", lambda: (INSERTED, "Print") in heard)
        window.says("All that is noted as typed")
    of_print = [kind for kind, name in heard if name == "Print"]
    assert of_print == [INSERTED, FOCUS]


@pytest.mark.parametrize("key, role, name", _ELSEWHERE)
def test_the_print_takes_the_focus_before_its_caret_moves_as_a_paragraph_is_begun(
    window: Reader, heard: list[tuple[str, str]], key: str, role: str, name: str
) -> None:
    window.press("F4")
    window.says("Mark 1")
    window.caret("Print", 4)
    window.press(key)
    window.focus(role, name)
    window.until("the focus there", lambda: FOCUS in [kind for kind, _ in heard[-2:]])
    heard.clear()
    window.press("Ctrl+Return")
    window.caret("Print", 0)
    window.until("the caret", lambda: (CARET, "Print") in heard)
    assert [kind for kind, of in heard if of == "Print"][0] == FOCUS


def test_what_is_taken_back_comes_into_the_message_that_has_the_focus_unselected(
    window: Reader,
) -> None:
    window.press("Down", "Down", "Alt+Up", "Alt+Up")
    window.says("Kept: paragraph 3 moved to the front.")
    window.press("F6")
    window.focus("text", "Message")
    # Orca reads what comes in after Ctrl+Z, and says of what is selected then only that it is
    with hearing((INSERTED, SELECTION)) as told:
        for said in ("Taken back: paragraph 3 was moved.",) * 2:
            told.clear()
            window.press("Ctrl+z")
            window.reads("Message", said)
            window.until("what came in", lambda: (INSERTED, "Message") in told)
        window.press("Ctrl+z")
        window.says("There is nothing that Ctrl+Z could take back.")
    assert (SELECTION, "Message") not in told
    assert window.selected("Message") == ""
    window.press("Alt+Up")
    window.selects("Message", "Kept: paragraph 3 moved after 1.")


def test_what_a_dialog_was_answered_from_the_message_is_not_selected_there(
    window: Reader, heard: list[tuple[str, str]]
) -> None:
    window.press("F6")
    window.focus("text", "Message")
    window.press("Ctrl+m")
    window.dialog("Mark in paragraph 1")
    heard.clear()
    window.press("Return")
    window.no_dialog()
    window.says("Kept: mark 2.")
    window.until("the focus there", lambda: (FOCUS, "Message") in heard)
    # it is read as it takes the focus, and would be once more
    assert (SELECTION, "Message") not in heard
    assert window.selected("Message") == ""


def test_the_print_takes_the_focus_after_a_dialog_once_it_has_its_new_text(
    application: QApplication, desk: Desk
) -> None:
    window, field = desk.window, desk.window.print
    texts, left = list[str](), list[QDialog]()

    class Focus(QObject):
        def eventFilter(self, to: QObject | None, event: QEvent | None) -> bool:
            if to is field and event and event.type() == QEvent.Type.FocusIn:
                texts.append(field.text)
            return False

    def enter() -> None:
        dialog = QApplication.activeModalWidget()
        assert isinstance(dialog, QDialog)
        dialog.accept()
        # where a window manager gives the window the keyboard before the dialog is answered
        assert window.focusWidget() is window
        left.append(dialog)

    def act() -> None:
        assert dialogs.text(window, "Find", "Words:", "sea") == "sea" and left
        assert window.focusWidget() is field
        desk.asked(lambda: time.sleep(3 * _MOMENT_SECONDS))
        field.show_text("Here it is.")

    window.show()
    window.activateWindow()
    field.setFocus()
    assert wait(application, PATIENCE_SECONDS, field.hasFocus)
    focus = Focus()
    application.installEventFilter(focus)
    QTimer.singleShot(500, enter)
    desk.acting(act)
    assert wait(application, PATIENCE_SECONDS, field.hasFocus)
    application.removeEventFilter(focus)
    assert texts == ["Here it is."]


def test_what_is_spoken_stays_until_something_else_is_said(window: Reader) -> None:
    window.press("F2")
    window.focus("text", "Print")
    window.press("F4", "Escape")
    window.says("Mark 1")
    # there is nothing to give up, and nothing is said of that
    window.caret("Print", 4)
    window.type("x")
    window.reads("Print", "The xmon is far away.")
    said = f"The mon is far away. {window.text('Message')}"
    window.until(said, lambda: _spoken(window) == said)


def test_a_letter_goes_into_the_print_at_once_after_what_is_spoken(
    window: Reader,
) -> None:
    window.press("F2")
    window.focus("text", "Print")
    window.press("F4")
    window.type("oo")
    window.reads("Print", "The oomon is far away.")
