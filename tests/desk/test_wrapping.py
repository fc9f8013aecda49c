"""Lines of a width, as a terminal shows them."""

import unicodedata

import pytest
from hypothesis import given
from hypothesis import strategies as st
from prompt_toolkit.utils import get_cwidth

from braildesk.text.characters import is_shown
from braildesk.text.sequences import seams, sequences
from braildesk.text.wrapping import columns, wrap

from scribe.screen.terminal import agree_on_widths
from scribe.words.view import interlinear, paired

WIDTHS = [
    ("", 0),
    ("moon", 4),
    ("café", 4),
    ("cafe\u0301", 4),
    ("月の海", 6),
    ("ｍｏｏｎ", 8),
    ("⠍⠕⠕⠝", 4),
    ("שָׁלוֹם", 4),
    ("கா", 2),
    ("각", 2),
    ("😀", 2),
    ("\u0378", 1),
    ("\U0003ffff", 1),
    ("\U0002fffd", 2),
]


@pytest.mark.parametrize("text, width", WIDTHS)
def test_a_text_takes_the_columns_of_its_characters(text: str, width: int) -> None:
    assert columns(text) == width


def test_the_screen_takes_all_characters_of_unicode_to_be_as_wide() -> None:
    agree_on_widths()
    differ = {
        character
        for character in map(chr, range(0x110000))
        if is_shown(character) and character != "\t"
        # what is new in Unicode is known to one of the two before the other
        and unicodedata.category(character) != "Cn"
        and columns(character) != get_cwidth(character)
    }
    assert not differ


def test_the_screen_gives_a_syllable_that_is_spelled_out_two_columns() -> None:
    agree_on_widths()
    assert get_cwidth("\u1112\u119e\u11ab") == columns("\u1112\u119e\u11ab") == 2


LINES = [
    ("", 10, [""]),
    ("The moon is far away.", 10, ["The moon", "is far", "away."]),
    ("The moon is", 11, ["The moon is"]),
    ("a  b   c", 4, ["a  b", "c"]),
    ("  indented", 12, ["  indented"]),
    ("abcdefghij klm", 4, ["abcd", "efgh", "ij", "klm"]),
    ("a bcdefg", 4, ["a", "bcde", "fg"]),
    ("月の海 は", 4, ["月の", "海", "は"]),
    ("月の海 は", 5, ["月の", "海 は"]),
    ("aq\u0307q\u0307q\u0307", 2, ["aq\u0307", "q\u0307q\u0307"]),
    ("காகாகா", 3, ["கா", "கா", "கா"]),
    ("⠞⠓⠑⠀⠍⠕⠕⠝", 5, ["⠞⠓⠑", "⠍⠕⠕⠝"]),
    ("שלום עולם", 5, ["שלום", "עולם"]),
]


@pytest.mark.parametrize("text, width, lines", LINES)
def test_a_text_is_broken_between_words(
    text: str, width: int, lines: list[str]
) -> None:
    assert wrap(text, width) == lines


ANY = st.text("aé月காq\u0307 ⠀⠍ש\u05b0😀", max_size=40)


@given(ANY, st.integers(2, 12))
def test_no_line_is_wider_than_the_width(text: str, width: int) -> None:
    for line in wrap(text, width):
        assert columns(line) <= width or len(sequences(line)) == 1


@given(ANY, st.integers(2, 12))
def test_nothing_but_blanks_is_left_out(text: str, width: int) -> None:
    blanks = str.maketrans("", "", " \u2800")
    assert "".join(wrap(text, width)).translate(blanks) == text.translate(blanks)


@given(ANY, st.integers(2, 12))
def test_no_sequence_is_cut_by_the_end_of_a_line(text: str, width: int) -> None:
    places = {
        text[:place].replace(" ", "").replace("\u2800", "") for place in seams(text)
    }
    front = ""
    for line in wrap(text, width):
        front += line.replace(" ", "").replace("\u2800", "")
        assert front in places


def test_later_lines_stand_after_the_indent() -> None:
    assert wrap("Mark 3, open: spelled so?", 12, "  ") == [
        "Mark 3,",
        "  open:",
        "  spelled",
        "  so?",
    ]
    assert wrap("abcdefghij", 4, "  ") == ["abcd", "  ef", "  gh", "  ij"]


def under_one_another(text: str, braille: str, width: int) -> list[str]:
    """The lines of a print whose words have their cells one after the other, if they are as many."""
    return interlinear(paired(text, braille, width), text, braille, width)


def test_braille_stands_under_the_same_words() -> None:
    assert under_one_another("On 20 July two men", "⠠⠕⠝⠀⠼⠃⠚⠀⠠⠚⠥⠇⠽⠀⠞⠺⠕⠀⠍⠑⠝", 13) == [
        "On 20 July",
        "⠠⠕⠝⠀⠼⠃⠚⠀⠠⠚⠥⠇⠽",
        "two men",
        "⠞⠺⠕⠀⠍⠑⠝",
    ]


def test_a_word_that_is_longer_than_a_line_has_its_braille_after_it() -> None:
    assert under_one_another("a moonlight", "⠁⠀⠍⠕⠕⠝⠇⠊⠛⠓⠞", 4) == [
        "a",
        "⠁",
        "moon",
        "ligh",
        "t",
        "⠍⠕⠕⠝",
        "⠇⠊⠛⠓",
        "⠞",
    ]


def test_where_words_differ_in_number_all_print_comes_first() -> None:
    assert under_one_another("of the moon", "⠷⠮⠀⠍⠕⠕⠝", 8) == [
        "of the",
        "moon",
        "⠷⠮⠀⠍⠕⠕⠝",
    ]


def test_a_line_begins_at_its_character_whatever_is_shown_before_it() -> None:
    found = paired("a\u200eb cd", "⠁⠃⠀⠉⠙", 3)
    assert [(each.upper, each.lower) for each in found] == [
        ("a<U+200E>b", "⠁⠃"),
        ("cd", "⠉⠙"),
    ]
    assert [(each.place, each.cell) for each in found] == [(0, 0), (4, 3)]


def test_an_empty_paragraph_has_an_empty_line_of_each() -> None:
    assert under_one_another("", "", 10) == ["", ""]
