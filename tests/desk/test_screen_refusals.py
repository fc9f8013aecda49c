"""What the desk says where a key asks for what is refused: sentences, and never a code alone."""

import errno
import re
import shutil
from pathlib import Path

import pytest

from braildesk import Session

from scribe.screen import desk
from scribe.screen.background import ActionResult
from sitting import Sat, Sit
from stand_in import READ, REPLY
from terminal import standing_in

#: Keys, and what is said after them, in a book whose second paragraph is struck.
SAID = {
    "a character that the table lacks": (
        "enter ě enter",
        "The table of paragraph 1 has no cells for “ě” (U+011B LATIN SMALL LETTER E WITH CARON),"
        " character 1 of the new text: “ě”. Nothing was changed.",
    ),
    "an undo without a correction": (
        "down down u",
        "Paragraph 3 has no correction that could be taken back. Nothing was changed.",
    ),
    "an undo of a struck paragraph": (
        "down u",
        "Paragraph 2 is struck. Nothing was changed. Restore it first.",
    ),
    "a mark in a struck paragraph": (
        "down m",
        "Paragraph 2 is struck. s restores it, and then it can be marked.",
    ),
    "an edit of a struck paragraph": (
        "down enter",
        "Paragraph 2 is struck. s restores it, and then it can be edited.",
    ),
    "a page of a struck paragraph": (
        "down p",
        "Paragraph 2 is struck, so it is on no page.",
    ),
    "a table that isn't there": (
        "t x y enter",
        "There is no table xy. Nothing was changed. The book has the tables en, plain. t puts one of"
        " these into it: ueb. Another is put into a book by: scribe table BOOK NAME FILE",
    ),
    "a name that no table has": (
        "t X enter",
        "There is no table X. Nothing was changed. The book has the tables en, plain. t puts one of"
        " these into it: ueb. Another is put into a book by: scribe table BOOK NAME FILE",
    ),
    "a paragraph that isn't there": (
        "g 9 enter",
        "There is no paragraph 9. The cursor stays where it is.",
    ),
    "words to go to that aren't there": (
        "g x enter",
        "“x” isn't in the print of the book.",
    ),
    "words that stand nowhere": (
        "/ z z enter",
        "“zz” isn't in the print of the book.",
    ),
    "cells that are none": (
        "tab / é enter",
        "U+00E9 LATIN SMALL LETTER E WITH ACUTE is no cell in Braille ASCII or Unicode. Tab"
        " goes to the print.",
    ),
}
#: Keys, by which a command is sent, and the replies that a book may give it.
REPLIES = {
    "o N e w enter": "no 2|no 3|no 6 1|no 7 1|no 14|no 15 2|no 15 5|no 90",
    "end enter x enter": "no 2|no 5|no 6 0|no 7 4|no 11|no 14|no 15 3|no 15 5|no 18|no 90",
    "u": "no 2|no 7 0|no 10|no 11|no 14|no 15 3|no 15 5|no 90",
    "m w h y enter": "no 2|no 5|no 6 1|no 11|no 14|no 15 4|no 15 5|no 90",
    "n r": "no 4|no 13|no 15 5|no 90",
    "s": "no 2|no 11|no 12|no 15 5|no 90",
    "b": "no 2|no 15 5|no 90",
    "v": "no 2|no 15 5|no 90",
    "a-down": "no 2|no 15 5|no 90",
    "t e n enter": "no 2|no 3|no 7 0|no 11|no 15 5|no 90",
    "t u e b enter": "no 8 1 1|no 8 2 4|no 15 1|no 15 5|no 17|no 90",
}
CASES = [(keys, reply) for keys, all_ in REPLIES.items() for reply in all_.split("|")]


@pytest.fixture
def struck(moon: Path) -> Path:
    """The book with its second paragraph struck, at version 8."""
    with Session(moon) as session:
        session.strike(2)
    return moon


@pytest.mark.parametrize("name", SAID)
def test_a_refusal_is_said_in_words(struck: Path, sit: Sit, name: str) -> None:
    keys, sentence = SAID[name]
    sat = sit(struck)
    sat.press(*keys.split())
    assert (sat.state.message, sat.state.version) == (sentence, 8)


@pytest.mark.parametrize("keys, reply", CASES)
def test_each_code_that_a_command_is_refused_by_is_a_sentence(
    moon: Path, sit: Sit, monkeypatch: pytest.MonkeyPatch, keys: str, reply: str
) -> None:
    for name, value in standing_in(1, READ, REPLY, *reply.split()).items():
        monkeypatch.setenv(name, value)
    sat = sit(moon)
    sat.press(*keys.split())
    said = sat.state.message
    assert re.fullmatch(r"([A-Z“]|ueb can't).{20,}\.", said), said
    assert not re.search(r"\bno [0-9]|isn't known", said)
    assert (sat.state.version, sat.state.kept, sat.state.is_lost) == (7, "", False)
    # what was typed can be put right, or is left out by Escape
    for_book = keys.startswith(("o", "m", "end"))
    assert (sat.state.typed is not None) == for_book
    if for_book:
        sat.press("escape")
    sat.press("s")
    assert sat.state.kept == "kept: paragraph 1 struck"


def test_a_text_that_is_too_long_stays_to_be_cut(moon: Path, sit: Sit) -> None:
    sat = sit(moon)
    sat.press("enter")
    sat.state = sat.desk.paste(sat.state, "a" * 4_000)
    sat.press("enter")
    assert sat.state.question and sat.state.question.sentence == (
        "A paragraph has at most 4,000 characters, and this one has 4,021. Shall it go on in"
        " a new paragraph from “The moon is far away.” on?"
    )
    sat.press("n")
    assert sat.state.message == "It stays as it is typed. Enter asks again."
    assert sat.state.typed and len(sat.state.typed.text) == 4_021
    assert sat.state.version == 7
    sat.press("escape", "m")
    sat.state = sat.desk.paste(sat.state, "b" * 501)
    sat.press("enter")
    assert sat.state.message == (
        "The note has 501 characters, and may have 500. No mark was put. Cut it."
    )
    sat.press("backspace", "enter")
    assert sat.state.kept == "kept: mark 2"


def test_a_name_that_no_proofreader_has_is_said_at_the_first_correction(
    moon: Path, sit: Sit
) -> None:
    sat = sit(moon, by="anna b")
    sat.press("enter", "x", "enter")
    assert sat.state.message == (
        "“anna b” can't be the name of a proofreader. Nothing was changed. A name has 1 to 40"
        " characters, none of them a blank."
    )
    assert sat.state.typed and sat.state.typed.text == "xThe moon is far away."


def after_errand(sat: Sat, key: str, path: Path) -> list[str]:
    """What is shown after an action for which the session is closed; the book is open then."""
    sat.press(key)
    sat.write(str(path))
    sat.press("enter")
    sat.state = sat.desk.away(sat.state, lambda line: None)
    assert sat.state.pages and not sat.state.is_lost
    shown = list(sat.state.pages.lines)
    sat.press("escape", "b")
    assert sat.state.kept and sat.state.kept.startswith("kept: paragraph 1 ")
    return shown


def test_what_is_not_exported_or_imported_is_said(moon: Path, sit: Sit) -> None:
    sat = sit(moon)
    folder = moon.parent
    nowhere = folder / "nowhere" / "pages"
    empty, bytes_ = folder / "empty.txt", folder / "bytes.txt"
    empty.write_text("\n")
    bytes_.write_bytes(b"The moon\n\xff\n")
    for key, path, said in (
        ("x", moon, f"{moon} is no folder. Nothing was exported."),
        (
            "x",
            nowhere,
            f"The folder {nowhere} can't be made: No such file or directory. Nothing was"
            " exported.",
        ),
        (
            "i",
            nowhere,
            f"{nowhere} can't be read: No such file or directory. Nothing was typed.",
        ),
        ("i", folder, f"{folder} can't be read: Is a directory. Nothing was typed."),
        ("i", empty, f"{empty} has no paragraph, so nothing was typed."),
        (
            "i",
            bytes_,
            f"{bytes_} isn't UTF-8: line 2, column 1 has the byte 0xff. Save it as UTF-8, and"
            " import it again. Nothing was typed.",
        ),
    ):
        assert after_errand(sat, key, path) == [said]


def test_after_an_export_that_the_system_refused_keys_act_again(
    moon: Path, sit: Sit, monkeypatch: pytest.MonkeyPatch
) -> None:
    def refused(*words: object, **settings: object) -> ActionResult:
        raise PermissionError(errno.EACCES, "Permission denied", "pages")

    sat = sit(moon)
    monkeypatch.setattr(desk, "done_in_background", refused)
    sat.press("x")
    sat.write("pages")
    sat.press("enter")
    sat.state = sat.desk.away(sat.state, lambda line: None)
    assert sat.state.away is None
    assert "Permission denied." in sat.state.message
    sat.press("b")
    assert sat.state.kept and sat.state.kept.startswith("kept: paragraph 1 ")


def test_no_text_is_imported_from_the_path_of_a_folder_that_is_not_there(
    moon: Path, sit: Sit
) -> None:
    sat, text = sit(moon), moon.with_name("text.txt")
    text.write_text("The sun\n")
    sat.press("i")
    sat.write(f"{text}/")
    sat.press("enter")
    assert sat.state.message == (
        f"{text}/ ends in a slash, as only the path of a folder does. Nothing was typed."
    )
    assert len(sat.state.book) == 3


def test_a_cell_that_no_embosser_has_is_said(moon: Path, sit: Sit) -> None:
    with Session(moon) as session:
        session.put_table("seven", b"space \\s 0\nletter a 17\n")
        session.add_paragraph("end", "seven", "a")
    file = moon.parent / "pages" / "moon-1.brf"
    assert after_errand(sit(moon), "x", file.parent) == [
        "Volume 1: Cell 1 of paragraph 4 has dot 7 or 8, which pages for embossers can't have."
        f" Correct the table of that paragraph. {file} was not made."
    ]


def test_a_book_whose_paragraphs_are_all_struck_has_no_volume(
    moon: Path, sit: Sit
) -> None:
    with Session(moon) as session:
        for number in (1, 2, 3):
            session.strike(number)
    assert after_errand(sit(moon), "x", moon.parent / "pages") == [
        "The book has no volume: each paragraph is struck, or there is none."
    ]


def test_a_full_book_says_so_and_what_was_typed_stays(
    big_book: Path, tmp_path: Path, sit: Sit
) -> None:
    sat = sit(Path(shutil.copyfile(big_book, tmp_path / "big.braildesk")))
    sat.press("c-end", "o", "N", "enter")
    assert sat.state.message == (
        "The book has 20,000 paragraphs with the struck ones, and holds no more. Nothing was"
        " added. Begin another book."
    )
    assert sat.state.typed and sat.state.typed.text == "N"


def test_a_table_that_a_paragraph_is_not_given_is_said_to_be_in_the_book(
    empty_book: Path, sit: Sit
) -> None:
    with Session(empty_book) as session:
        session.put_table("own", "letter п 1\n".encode())
        session.add_paragraph("end", "own", "п")
    sat = sit(empty_book)
    sat.press("t", *"ueb", "enter")
    assert sat.state.message == (
        "The table ueb has no cells for “п” (U+043F CYRILLIC SMALL LETTER PE), character 1 of"
        " paragraph 1: “п”. Table ueb is in the book now, and paragraph 1 wasn't given it."
    )
    assert (sat.state.version, sat.state.tables) == (3, ("own", "ueb"))
