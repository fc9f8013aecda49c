"""A day at the window, by the keyboard alone, as a screen reader follows it."""

import shutil
from pathlib import Path

from braildesk import Session

from conftest import Open, prints
from reader import SELECTION, hearing

FAR = "⠠⠞⠓⠑⠀⠍⠕⠕⠝⠀⠊⠎⠀⠋⠁⠗⠀⠁⠺⠁⠽⠲"
MARK = "Mark 1, open, on “mon”: spelled so?"
TOUCHED = "Mark 1, open, touched, on “moon”: spelled so?"


def test_a_fault_is_found_by_its_mark_corrected_and_resolved(
    moon: Path, at: Open
) -> None:
    window = at(moon, "--by", "anna")
    window.focus("table", "Paragraphs")
    window.lists(0, "1 body: The Moon")
    window.lists(1, "2 body, 1 open mark: The mon is far away.")
    window.reads("Print", "The Moon")
    window.reads("Braille", "⠠⠞⠓⠑⠀⠠⠍⠕⠕⠝")
    window.reads("Place", "“T” ⠠⠞, character 1, cells 1 to 2.")

    # the mark is gone to, and said with its words
    window.press("F4")
    window.focus("text", "Print")
    window.reads("Print", "The mon is far away.")
    window.reads("Message", MARK)
    window.reads("Marks", MARK)
    window.reads("Place", f"“m” ⠍, character 5, cell 6.\n{MARK}")
    window.caret("Print", 4)
    window.caret("Braille", 5)

    # what is typed is translated, and isn't said to be kept
    window.press("Right")
    window.caret("Print", 5)
    window.type("o")
    window.reads("Print", "The moon is far away.")
    window.reads("Braille", FAR)
    said = "Character 7 of 21 characters, not in the book yet. Enter keeps it, Escape gives it up."
    window.reads("Place", said)
    window.reads("Message", MARK)
    window.press("Return")
    window.reads("Message", "Kept: correction 1 of paragraph 2.")
    window.lists(1, "2 body, 1 open mark: The moon is far away.")
    window.reads("Marks", TOUCHED)

    window.press("Ctrl+r")
    window.reads("Message", "Kept: mark 1 resolved.")
    window.reads("Marks", "Mark 1, resolved, touched, on “moon”: spelled so?")
    window.press("Ctrl+q")
    assert window.end() == 0
    with Session(moon) as session:
        assert session.print_of(2) == "The moon is far away."
        (entry,) = session.history_of(2)
        assert (entry.start, entry.count, entry.text, entry.who) == (6, 0, "o", "anna")
        assert [mark.resolved for mark in session.marks_of(2)] == [True]


def test_the_carets_of_print_and_braille_go_with_each_other(
    moon: Path, at: Open
) -> None:
    window = at(moon)
    window.press("F2")
    window.focus("text", "Print")
    window.press("End")
    window.caret("Print", 8)
    window.caret("Braille", 10)
    window.reads("Place", "The end, after 8 characters.")
    window.press("F8")
    window.focus("text", "Braille")
    window.press("Home")
    window.caret("Braille", 0)
    window.press("Right")
    window.press("Right")
    window.caret("Braille", 2)
    window.caret("Print", 1)
    window.reads("Place", "“h” ⠓, character 2, cell 3.")
    # as a routing key of a braille display does
    window.part("text", "Braille").set_caret_offset(5)
    window.reads("Place", "“M” ⠠, character 5, cell 6.")
    window.caret("Print", 4)
    window.press("F9")
    window.reads("Braille", ",THE ,MOON")


def test_what_is_done_is_taken_back_with_each_key(moon: Path, at: Open) -> None:
    window = at(moon)
    plain = ["1 body: The Moon", "3 body: Twice a day the sea comes up."]
    for key, letter, said, listed, back in (
        ("Ctrl+t", "b", "Kept: paragraph 1 a heading.", "1 heading: The Moon", "u"),
        (
            "Ctrl+u",
            "v",
            "Kept: paragraph 1 begins a volume.",
            "1 body, begins a volume: The Moon",
            "Ctrl+z",
        ),
        ("Ctrl+d", "s", "Kept: paragraph 1 struck.", "1 body, struck: The Moon", "u"),
    ):
        for pressed in (key, letter):
            window.press(pressed)
            window.reads("Message", said)
            window.lists(0, listed)
            window.press(back)
            window.lists(0, plain[0])
            window.says("Taken back: paragraph 1 was")
    window.press("Down")
    window.press("Down")
    window.reads("Print", "Twice a day the sea comes up.")
    window.press("Alt+Up")
    window.reads("Message", "Kept: paragraph 3 moved after 1.")
    window.lists(1, plain[1])
    window.press("Alt+Down")
    window.lists(2, plain[1])
    window.press("Alt+Down")
    window.focus("text", "Message")
    window.reads("Message", "Paragraph 3 is the last of the book.")
    window.press("Escape")
    window.focus("table", "Paragraphs")


def test_paragraphs_are_typed_one_after_another(moon: Path, at: Open) -> None:
    window = at(moon)
    window.press("Ctrl+Return")
    window.focus("text", "Print")
    window.part("label", "A new paragraph after paragraph 1, table en")
    window.type("One")
    window.reads("Print", "One")
    window.press("Return")
    window.reads("Message", "Kept: paragraph 4.")
    window.part("label", "A new paragraph after paragraph 4, table en")
    window.type("Two")
    window.reads("Print", "Two")
    window.press("Return")
    window.reads("Message", "Kept: paragraph 5.")
    window.press("Escape")
    window.reads("Message", "This paragraph was empty, and wasn't added.")
    window.reads("Print", "Two")
    window.press("Ctrl+Shift+Return")
    window.part("label", "A new paragraph before paragraph 5, table en")
    window.type("Half")
    window.reads("Print", "Half")
    # what is typed is kept too where another paragraph is chosen
    window.press("F5")
    window.focus("table", "Paragraphs")
    window.press("Up")
    window.reads("Message", "Kept: paragraph 6.")
    window.press("Ctrl+q")
    assert window.end() == 0
    assert prints(moon)[:4] == ["The Moon", "One", "Half", "Two"]


def test_a_refusal_takes_the_focus_and_nothing_that_is_typed_is_lost(
    moon: Path, at: Open
) -> None:
    window = at(moon)
    window.press("F2")
    window.focus("text", "Print")
    window.press("End")
    window.caret("Print", 8)
    window.type("#")
    window.reads("Print", "The Moon#")
    fault = "the table en has no cells for “#” (U+0023 NUMBER SIGN)."
    keeps = "The end of 9 characters, not in the book yet. Enter keeps it, Escape gives it up."
    window.reads("Place", f"Character 9, in “The Moon#”: {fault} {keeps}")
    window.press("Return")
    window.focus("text", "Message")
    refused = (
        "The table of paragraph 1 has no cells for “#” (U+0023 NUMBER SIGN), character 1 of the"
        " new text: “#”. Nothing was changed."
    )
    window.reads("Message", refused)
    window.press("Escape")
    window.focus("text", "Print")
    window.press("F5")
    window.focus("table", "Paragraphs")
    window.press("Down")
    window.focus("text", "Message")
    window.reads("Message", f"Again: {refused}")
    window.reads("Print", "The Moon#")
    window.press("F2")
    window.focus("text", "Print")
    window.press("Escape")
    window.reads("Print", "The Moon")
    window.reads("Message", "Given up. The book is as it was. Ctrl+B brings it back.")
    window.press("Ctrl+b")
    window.dialog("Bring back a text")
    window.press("Return")
    window.no_dialog()
    window.reads("Print", "The Moon#")
    window.press("BackSpace")
    window.reads("Print", "The Moon")
    window.press("Ctrl+q")
    assert window.end() == 0
    assert prints(moon)[0] == "The Moon"


def test_a_book_that_is_gone_is_saved_also_once_scribe_was_taken_away(
    moon: Path, at: Open, tmp_path: Path
) -> None:
    ignored = shutil.ignore_patterns("__pycache__")
    modules = tmp_path / "modules"
    shutil.copytree(Path(__file__).parents[2] / "src", modules, ignore=ignored)
    window = at(moon, PYTHONPATH=str(modules))
    window.focus("table", "Paragraphs")
    window.press("F4")
    window.focus("text", "Print")
    shutil.rmtree(modules)
    window.press("Right")
    window.type("o")
    window.press("Return")
    window.reads("Message", "Kept: correction 1 of paragraph 2.")
    moon.unlink()
    window.press("Ctrl+r")
    saved = moon.with_name("moon.braildesk-saved-1")
    window.until("the new file", saved.exists)
    with Session(saved, timeout=120) as session:
        assert session.print_of(2) == "The moon is far away."


def test_what_comes_into_the_message_while_it_has_the_focus_is_selected_there(
    moon: Path, at: Open
) -> None:
    window = at(moon)
    first = "Paragraph 1 is the first of the book."
    window.press("Alt+Up")
    window.focus("text", "Message")
    window.reads("Message", first)
    assert window.selected("Message") == ""
    # a screen reader reads what is selected, and no other change where the focus is
    for keys, said in (
        ("Alt+Up", f"Again: {first}"),
        ("Alt+Up", first),
        ("Ctrl+d", "Kept: paragraph 1 struck."),
    ):
        window.press(keys)
        window.selects("Message", said)
    window.press("Escape")
    window.focus("table", "Paragraphs")


def test_escape_goes_back_also_where_the_message_was_gone_to_twice(
    moon: Path, at: Open
) -> None:
    window = at(moon)
    window.press("F2")
    window.focus("text", "Print")
    window.press("Alt+Up")
    window.focus("text", "Message")
    refused = "Paragraph 1 is the first of the book."
    window.reads("Message", refused)
    window.press("F6")
    window.selects("Message", refused)
    window.press("Escape")
    window.focus("text", "Print")
    window.press("Alt+Up")
    window.focus("text", "Message")
    window.press("F6")
    window.selects("Message", f"Again: {refused}")
    with hearing() as heard:
        # it is there to be read again each time
        for _ in range(2):
            heard.clear()
            window.press("F6")
            window.until("the message, again", lambda: (SELECTION, "Message") in heard)
    window.selects("Message", f"Again: {refused}")
    # what is typed by hands that don't know yet of a refusal goes on in the print also then
    window.type("A ")
    window.reads("Print", "A The Moon")
    window.focus("text", "Print")
