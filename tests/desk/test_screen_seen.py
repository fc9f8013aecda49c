"""What is seen in a terminal that a program reads, at the sizes of a window and of a small device."""

import stat
from pathlib import Path

import pytest

from braildesk import Session
from terminal import Open

OPENED = "? shows the keys."
HEBREW = "".join(
    f"letter {chr(0x05D0 + n)} {dots}\n"
    for n, dots in enumerate(
        "1 1236 1245 145 125 2456 1356 1346 2345 245 16 13 123 134 1345 1345 234 1246".split()
    )
)
SCRIPTS = (
    "space \\s 0\nletter a 1\nletter b 12\nletter \\x00F3 246\nletter \\x6708 123\nletter \\x661F 234\n"
    + "letter \\x0301 6\n"
    + HEBREW
)


@pytest.fixture
def scripts(empty_book: Path) -> Path:
    """A book of Hebrew, Chinese and combining characters, by a table of its own."""
    with Session(empty_book) as session:
        session.put_table("own", SCRIPTS.encode())
        session.add_paragraph("end", "own", "ab אבג דהו a")
        session.add_paragraph("end", "own", "月星 月星 ab")
        session.add_paragraph("end", "own", "ab\u0301 ab\u0301 b")
    return empty_book


@pytest.mark.parametrize("size", [(80, 24), (40, 12)])
def test_marks_and_the_cursor_are_in_words_and_no_cell_is_put_in(
    moon: Path, at: Open, size: tuple[int, int]
) -> None:
    terminal = at(moon, *size)
    lines = terminal.wait(OPENED)
    place = lines.index("The moon is far away.")
    assert lines[place + 1] == "⠠⠞⠓⠑⠀⠍⠕⠕⠝⠀⠊⠎⠀⠋⠁⠗⠀⠁⠺⠁⠽⠲"
    assert "“T” ⠠⠞, character 1, cells 1 to 2" in lines
    assert terminal.cursor == (place, 0)
    terminal.keys("c-right", "right")
    lines = terminal.wait("“o” ⠕, character 6, cell 7")
    assert lines[place + 1] == "⠠⠞⠓⠑⠀⠍⠕⠕⠝⠀⠊⠎⠀⠋⠁⠗⠀⠁⠺⠁⠽⠲"
    assert "Mark 1, open, on “moon”: spelled so?" in lines
    assert terminal.cursor == (place, 5)
    terminal.keys("tab", " ", "right")
    lines = terminal.wait("2 cells chosen, at ⠕ “o”, cell 8,")
    assert lines[place : place + 2] == [
        "The moon is far away.",
        "⠠⠞⠓⠑⠀⠍⠕⠕⠝⠀⠊⠎⠀⠋⠁⠗⠀⠁⠺⠁⠽⠲",
    ]
    assert terminal.cursor == (place + 1, 7)
    terminal.keys("a")
    lines = terminal.wait("2 cells chosen, at O “o”, cell 8,")
    assert lines[place + 1] == ",THE MOON IS FAR AWAY4"


@pytest.mark.parametrize("size", [(80, 24), (40, 12)])
def test_hebrew_has_the_cursor_and_its_cells_on_their_columns(
    scripts: Path, at: Open, size: tuple[int, int]
) -> None:
    terminal = at(scripts, *size)
    place = terminal.wait(OPENED).index("ab אבג דהו a")
    for column, (character, cell, number) in enumerate(
        [("a", "⠁", 1), ("b", "⠃", 2), (" ", "⠀", 3), ("א", "⠁", 4), ("ב", "⠧", 5)]
    ):
        lines = terminal.wait(
            f"“{character}” {cell}, character {number}, cell {number}"
        )
        assert terminal.cursor == (place, column)
        assert lines[place] == "ab אבג דהו a"
        assert lines[place + 1] == "⠁⠃⠀⠁⠧⠛⠀⠙⠓⠺⠀⠁"
        terminal.keys("right")


def test_wide_and_combining_characters_move_the_cursor_by_their_columns(
    scripts: Path, at: Open
) -> None:
    terminal = at(scripts)
    place = terminal.wait(OPENED).index("ab אבג דהו a")
    terminal.keys("down")
    terminal.wait("“月” ⠇, character 1, cell 1")
    columns = [terminal.cursor]
    for words in ("“星” ⠎, character 2", "“ ” ⠀, character 3", "“月” ⠇, character 4"):
        terminal.keys("right")
        terminal.wait(words)
        columns.append(terminal.cursor)
    assert columns == [(place, 0), (place, 2), (place, 4), (place, 5)]
    terminal.keys("down")
    terminal.wait("“a” ⠁, character 1, cell 1")
    columns = [terminal.cursor]
    for words in (
        "“b\u0301” ⠃⠠, characters 2 to 3",
        "“ ” ⠀, character 4",
        "“a” ⠁, character 5",
    ):
        terminal.keys("right")
        terminal.wait(words)
        columns.append(terminal.cursor)
    assert columns == [(place, 0), (place, 1), (place, 2), (place, 3)]


def test_characters_that_turn_the_direction_are_shown_by_their_numbers(
    moon: Path, at: Open
) -> None:
    terminal = at(moon)
    terminal.wait(OPENED)
    terminal.keys("o", "one \u202etwo\u2066")
    lines = terminal.wait("one <U+202E>two<U+2066>")
    assert "the table en has no cells for U+202E RIGHT-TO-LEFT OVERRIDE" in " ".join(
        terminal.wait("RIGHT-TO-LEFT")
    )
    place = lines.index("one <U+202E>two<U+2066>")
    assert terminal.cursor == (place, 23)
    terminal.keys("escape")
    terminal.wait("Given up.")
    terminal.keys("t", "\u202een", "enter")
    terminal.wait("<U+202E>en")
    assert "\u202e".encode() not in terminal.written


def test_what_is_typed_is_seen_before_its_braille_is_known(
    moon: Path, at: Open, program: str
) -> None:
    slow = moon.parent / "slow"
    slow.write_text(
        '#!/bin/sh\n[ "$1" != translate ] || until [ -e go ]; do sleep 0.05; done\n'
        f'exec "{program}" "$@"\n'
    )
    slow.chmod(slow.stat().st_mode | stat.S_IXUSR)
    terminal = at(moon, BRAILDESK=str(slow))
    terminal.wait(OPENED)
    terminal.keys("o")
    terminal.wait("-- New paragraph after paragraph 1")
    terminal.paste("word " * 790)
    terminal.wait("word word")
    terminal.keys("It rose.")
    lines = terminal.wait("It rose.")
    assert not any("⠠⠊⠞" in line for line in lines)
    (moon.parent / "go").touch()
    terminal.wait("⠠⠊⠞⠀⠗⠕⠎⠑⠲")


@pytest.mark.parametrize("size", [(80, 24), (40, 12)])
def test_a_character_that_the_table_lacks_is_said_before_it_is_sent(
    scripts: Path, at: Open, size: tuple[int, int]
) -> None:
    terminal = at(scripts, *size)
    terminal.wait(OPENED)
    # its place is that in normal form C, as the book would keep it
    terminal.keys("o", "ao\u0301b c")
    terminal.wait("Character 5, in “aób c”: the table own")
    assert "has no cells for “c” (U+0063 LATIN" in " ".join(terminal.lines)
    terminal.keys("backspace")
    terminal.wait("⠁⠪⠃")
    terminal.keys("escape")
    terminal.wait("Given up.")
    terminal.keys("o")
    terminal.wait("-- New paragraph after paragraph 1")
    terminal.paste("a\nb c b\nab\n")
    lines = terminal.wait("Line 2: Character 3, in “b c b”: the")
    assert "The pasted text has 3 lines. Are they 3" in " ".join(lines)
    assert lines[0].endswith("nothing kept yet")


@pytest.mark.parametrize("size, width, lines", [((80, 24), 30, 10), ((40, 12), 60, 40)])
def test_a_page_is_that_of_an_export_of_the_same_size(
    moon: Path, at: Open, size: tuple[int, int], width: int, lines: int
) -> None:
    terminal = at(moon, *size)
    terminal.wait(OPENED)
    terminal.keys("a", "w", *["backspace"] * 5, f"{width} {lines}", "enter")
    terminal.wait(f"Pages of {lines} lines of {width} cells")
    terminal.keys("x", "out", "enter")
    terminal.wait("Export. Lines")
    pages = (moon.parent / "out" / "moon-1.brf").read_bytes().decode()
    terminal.keys("q", "down", "down", "p")
    shown = terminal.wait("Paragraph 3, character 1: volume 1, page")
    said = " ".join(shown[1:5])
    number = said.split(" page ")[1].split(",")[0]
    line = said.split(" line ")[1].split(",")[0]
    page = pages.split("\f")[int(number) - 1].split("\r\n")
    words = page[int(line) - 1]
    assert words.strip() and ",TWICE A DAY".startswith(words.strip()[:5])
    row, column = terminal.cursor
    assert (shown[row], column) == (words[: size[0]].rstrip(), 0)


def test_a_terminal_without_utf8_shows_what_it_can_and_names_the_others(
    scripts: Path, at: Open
) -> None:
    with Session(scripts) as session:
        session.add_paragraph("front", "own", "aób 月")
    terminal = at(scripts, LC_ALL="en_US.ISO-8859-1")
    lines = terminal.wait(OPENED)
    assert '"a" A, character 1, cell 1' in lines
    assert b"a\xf3b ??" in terminal.written
    terminal.keys("end")
    terminal.wait("U+6708 CJK UNIFIED IDEOGRAPH-6708 L, character 5, cell 5")
    terminal.keys("q")
    assert terminal.ended() == 0
    assert terminal.written.replace(b"\xf3", b"o").isascii()


@pytest.mark.parametrize("locale", ["C", "xx_YY.nothing"])
def test_a_locale_without_utf8_shows_braille_ascii(
    moon: Path, at: Open, locale: str
) -> None:
    terminal = at(moon, LC_ALL=locale)
    lines = terminal.wait(OPENED)
    assert ",THE MOON IS FAR AWAY4" in lines
    terminal.keys("q")
    assert terminal.ended() == 0
