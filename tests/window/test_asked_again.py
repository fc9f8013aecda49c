"""What is asked again: why an answer was refused is heard first, and the next one is no text of the print."""

import os
import signal
import time
from pathlib import Path

import pytest

from braildesk.desk.drafts import Drafts

from scribe.words.console import WAITING

from conftest import Open, prints
from reader import Part, Reader
from test_held import await_kept
from test_kept import session_of

_PRINT = "The mon is far away."
_PLACE = "A paragraph's number, or page 6 line 9, or words to find:"
_PAGES = "How many pages a volume has at most:"
_SIZE = "The cells of a line, and the lines of a page, as in 40 25:"
_CELLS = "Cells, in Braille ASCII or Unicode:"
_AT_LEAST = "A volume has at least 1 page: type how many, as in 80."
_NO_SIZE = (
    "A line of a page has 10 to 60 cells, and a page 5 to 40 lines. Type both numbers with a blank"
    " between them, as in 40 25."
)
_NO_PAGE = "Volume 1 has 1 page of 25 lines of 40 cells. The caret stays where it was."
_NOWHERE = "“zebra” isn't in the print of the book."
_IN_NO_CELLS = "“The Moon” isn't in the cells of the book."
_NO_CELL = (
    "U+00E9 LATIN SMALL LETTER E WITH ACUTE is no cell in Braille ASCII or Unicode."
)
_THERE = "Paragraph 3, character 17."
_NO_SIGN = (
    "The table of paragraph 2 has no cells for “#” (U+0023 NUMBER SIGN), character 1 of the new"
    " text: “#”. Nothing was changed."
)
_SAME = "The new words are the same as the old. Nothing was changed."


def _at_print(window: Reader) -> None:
    """Goes to the print of the second paragraph."""
    window.press("Down", "F2")
    window.focus("text", "Print")
    window.reads("Print", _PRINT)


def _line(window: Reader, title: str, asked: str) -> Part:
    """The line that is asked for in some words, by which a screen reader names it."""
    return window.part("text", asked, window.dialog(title, asked))


def _answers(window: Reader, answer: str) -> None:
    window.type(answer)
    window.press("Return")


def _ends(window: Reader, book: Path) -> None:
    """Closes the window, and sees that nothing of the answers is in the book, or was given up."""
    window.press("Ctrl+q")
    assert window.end() == 0
    assert prints(book)[1] == _PRINT
    assert not Drafts(book).given_up()


@pytest.mark.parametrize(
    "part, key, title, asked, answer, why, next_one, said",
    [
        ("F2", "Ctrl+f", "Find", "Words:", "zebra", _NOWHERE, "sea", _THERE),
        ("F8", "Ctrl+f", "Find", _CELLS, "é", _NO_CELL, "sea", "Paragraph 3, cell 18."),
        (
            "F8",
            "Ctrl+f",
            "Find",
            _CELLS,
            "The Moon",
            _IN_NO_CELLS,
            "sea",
            "Paragraph 3, cell 18.",
        ),
        *(
            ("F2", "Ctrl+g", "Go to", _PLACE, answer, why, "sea", _THERE)
            for answer, why in (
                ("999", "There is no paragraph 999 in the book."),
                ("page 99", _NO_PAGE),
                ("v9 p1", "There is no volume 9: the book has 1."),
                ("zebra", _NOWHERE),
            )
        ),
        *(
            ("F2", "Ctrl+Shift+V", "Part into volumes", _PAGES, answer, _AT_LEAST)
            + ("80", "The volumes begin there already: 1 volume")
            for answer in ("0", "many")
        ),
        (
            *("F2", "Ctrl+Shift+P", "Page size", _SIZE, "40", _NO_SIZE, "32 20"),
            "Pages have 20 lines of 32 cells.",
        ),
    ],
)
def test_where_an_answer_is_refused_it_is_asked_again_and_said_first_why(
    moon: Path,
    at: Open,
    part: str,
    key: str,
    title: str,
    asked: str,
    answer: str,
    why: str,
    next_one: str,
    said: str,
) -> None:
    window = at(moon)
    _at_print(window)
    window.press(part)
    field = "Braille" if part == "F8" else "Print"
    window.focus("text", field)
    window.press(key)
    _line(window, title, asked)
    _answers(window, answer)
    line = _line(window, title, f"{why} {asked}")
    assert window.text_in(line) == answer
    # it can be read again once it is given up
    window.press("Escape")
    window.no_dialog()
    window.focus("text", field)
    window.reads("Message", why)
    window.press(key)
    _line(window, title, asked)
    _answers(window, answer)
    _line(window, title, f"{why} {asked}")
    # which comes in place of the one before
    _answers(window, next_one)
    window.no_dialog()
    window.says(said)
    _ends(window, moon)


def test_what_comes_in_place_of_words_is_asked_again_where_it_cant_be_there(
    moon: Path, at: Open
) -> None:
    window, title = at(moon), "Change words"
    asked = "What comes in place of “mon” in paragraph 2:"
    _at_print(window)
    window.press("Ctrl+h")
    _line(window, title, "Words to change:")
    _answers(window, "zebra")
    _line(window, title, f"{_NOWHERE} Words to change:")
    _answers(window, "mon")
    _line(window, title, asked)
    _answers(window, "mon")
    _line(window, title, f"{_SAME} {asked}")
    _answers(window, "#")
    _line(window, title, f"{_NO_SIGN} {asked}")
    window.press("Escape")
    window.no_dialog()
    window.reads("Message", f"{_NO_SIGN} Ctrl+H has the words again.")
    window.focus("text", "Print")
    _ends(window, moon)
    assert Drafts(moon).words() == ("mon", "#")


def test_words_to_change_everywhere_are_asked_for_again_as_they_were_typed(
    moon: Path, at: Open
) -> None:
    window, title = at(moon), "Change everywhere"
    _at_print(window)
    window.press("Ctrl+Shift+H")
    window.dialog(title)
    window.type("zebra")
    window.press("Tab")
    window.type("x")
    window.press("Tab", " ", "Return")
    why = "“zebra” isn't in the print of the book as whole words. Nothing was changed."
    asked = f"{why} Words to change:"
    line = _line(window, title, asked)
    assert window.text_in(line) == "zebra"
    window.type("mon")
    window.press("Return")
    window.dialog(title, "")
    window.press("Escape")
    window.no_dialog()
    window.reads("Message", "Nothing was changed.")
    _ends(window, moon)


def test_a_folder_is_asked_for_again_where_none_was_typed(moon: Path, at: Open) -> None:
    window, title = at(moon), "Export, pages of 25 lines of 40 cells"
    asked = "The folder to which the volumes go, which is made if it isn't there:"
    _at_print(window)
    window.press("Ctrl+e")
    _line(window, title, asked)
    window.press("BackSpace", "Return")
    why = "No folder was typed, so nothing was exported."
    _line(window, title, f"{why} {asked}")
    window.press("Escape")
    window.no_dialog()
    window.focus("text", "Print")
    window.reads("Message", why)
    _ends(window, moon)


def test_a_text_that_is_typed_on_after_an_answer_that_is_refused_is_no_answer(
    moon: Path, at: Open
) -> None:
    window = at(moon)
    _at_print(window)
    program = session_of(window)
    window.press("Ctrl+f")
    _line(window, "Find", "Words:")
    window.type("zebra")
    os.kill(program, signal.SIGSTOP)
    window.press("Return")
    window.reads("Message", WAITING)
    window.type("They rise.")
    window.press("Return")
    await_kept(window, moon, "They rise.")
    os.kill(program, signal.SIGCONT)
    line = _line(window, "Find", f"{_NOWHERE} Words:")
    assert window.text_in(line) == "zebra"
    _answers(window, "sea")
    window.no_dialog()
    window.says(f"{_THERE} ")
    window.says("“They rise.”")
    window.press("Ctrl+q")
    assert window.end() == 0
    assert prints(moon)[1] == _PRINT
    assert [each.text for each in Drafts(moon).given_up()] == ["They rise."]


@pytest.mark.parametrize("is_killed", [False, True])
def test_nor_is_one_that_goes_on_at_once_after_hands_stood_still(
    moon: Path, at: Open, is_killed: bool
) -> None:
    window = at(moon)
    _at_print(window)
    window.press("Ctrl+f")
    _line(window, "Find", "Words:")
    window.type("zebra")
    time.sleep(0.5)
    window.press("Return")
    # the first key may come just as the dialog closes
    for letter in " They rise.":
        time.sleep(0.1)
        window.type(letter)
    line = _line(window, "Find", f"{_NOWHERE} Words:")
    assert window.text_in(line) == "zebra"
    if is_killed:
        await_kept(window, moon, "They rise.")
        window.kill()
        window = at(moon)
    else:
        window.press("Escape")
        window.no_dialog()
    window.says("“They rise.”")
    window.press("Ctrl+q")
    assert window.end() == 0
    assert prints(moon)[1] == _PRINT
    assert [each.text for each in Drafts(moon).given_up()] == ["They rise."]
