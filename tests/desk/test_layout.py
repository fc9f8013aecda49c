"""The pages of a volume from its cells, as docs/FORMATS.md says; and cells as Braille ASCII."""

import pytest

from braildesk.desk.layout import PageSize, Row, Section, lay_out
from braildesk.text.cells import NotCells, braille_ascii, braille_patterns


def test_a_page_of_the_tutorial_is_laid_out_as_it_stands_there() -> None:
    title = Section(2, True, braille_patterns(",THE ,MOON"))
    words = ",ON #BJ ,JULY #AIFI TWO MEN STOOD ON THE MOON4"
    body = Section(1, False, braille_patterns(words))
    volume = lay_out([title, body], PageSize(24, 8))
    assert volume.rows == (
        Row(1, 1, 2, 0, 10, "    ,THE ,MOON"),
        Row(1, 2, 1, 0, 19, "  ,ON #BJ ,JULY #AIFI"),
        Row(1, 3, 1, 20, 40, "TWO MEN STOOD ON THE"),
        Row(1, 4, 1, 41, 46, "MOON4"),
    )
    lines = [row.shown for row in volume.rows] + [""] * 3 + [" " * 22 + "#A"]
    assert volume.brf() == "".join(line + "\r\n" for line in lines).encode() + b"\f"


def rows(
    *sections: tuple[bool, str], page_size: PageSize
) -> list[tuple[int, int, str]]:
    laid = [
        Section(number, is_heading, braille_patterns(text))
        for number, (is_heading, text) in enumerate(sections, 1)
    ]
    return [(row.page, row.line, row.shown) for row in lay_out(laid, page_size).rows]


def test_an_empty_line_stands_before_a_heading_and_none_at_the_front_of_a_page() -> (
    None
):
    assert rows((False, "A"), (True, "B"), (True, "C"), page_size=PageSize(10, 5)) == [
        (1, 1, "  A"),
        (1, 3, "    B"),
        (2, 1, "    C"),
    ]


def test_a_heading_whose_empty_line_fills_the_page_begins_the_next() -> None:
    assert rows(*[(False, "A")] * 3, (True, "B"), page_size=PageSize(10, 5)) == [
        (1, 1, "  A"),
        (1, 2, "  A"),
        (1, 3, "  A"),
        (2, 1, "    B"),
    ]


def test_paragraphs_without_words_take_no_line() -> None:
    assert rows(
        (False, ""), (True, "   "), (False, " A"), page_size=PageSize(10, 5)
    ) == [(1, 1, "  A")]
    assert rows((False, "A"), (True, " "), (False, "B"), page_size=PageSize(10, 5)) == [
        (1, 1, "  A"),
        (1, 2, "  B"),
    ]


def test_a_word_that_is_longer_than_its_empty_line_is_cut_there() -> None:
    # room for 8 cells on the first line, for 10 on the others
    assert rows((False, "ABCDEFGHIJKLMNOPQRS TU"), page_size=PageSize(10, 5)) == [
        (1, 1, "  ABCDEFGH"),
        (1, 2, "IJKLMNOPQR"),
        (1, 3, "S TU"),
    ]
    # it isn't begun after another word, and nine cells fit whole on the second line
    assert rows((False, "AB ABCDEFGHI"), page_size=PageSize(10, 5)) == [
        (1, 1, "  AB"),
        (1, 2, "ABCDEFGHI"),
    ]
    assert rows((True, "ABCDEFG AB ABC"), page_size=PageSize(10, 5)) == [
        (1, 1, "    ABCDEF"),
        (1, 2, "    G AB"),
        (1, 3, "    ABC"),
    ]


def test_a_word_that_just_fits_stays_on_its_line() -> None:
    assert rows((False, "ABC DEFG HIJKLMNOPQ"), page_size=PageSize(10, 5)) == [
        (1, 1, "  ABC DEFG"),
        (1, 2, "HIJKLMNOPQ"),
    ]


def test_pages_are_filled_and_numbered() -> None:
    volume = lay_out([Section(1, False, braille_patterns("A " * 41))], PageSize(10, 5))
    assert volume.pages == 3
    pages = volume.brf().decode().split("\f")
    assert pages[1] == "A A A A A\r\n" * 4 + "        #B\r\n"
    assert pages[2] == "A A\r\n" + "\r\n" * 2 + "\r\n" + "        #C\r\n"
    assert pages[3] == ""


def test_a_page_number_has_letters_for_its_digits() -> None:
    volume = lay_out([Section(1, False, "⠁⠀" * 1603)], PageSize(10, 5))
    assert volume.brf().decode().split("\f")[79].split("\r\n")[4] == "       #HJ"


def test_a_volume_without_lines_has_no_bytes() -> None:
    assert lay_out([Section(1, True, "")], PageSize()).brf() == b""


CELLS = [
    ("⠠⠞⠓⠑⠀⠍⠕⠕⠝⠲", ",THE MOON4"),
    ("⠮⠯⠷⠿⠾⠵⠳⠪⠻⠹⠱⠫", "!&(=)Z\\[]?:$"),
]


@pytest.mark.parametrize("cells, letters", CELLS)
def test_cells_have_their_letters_in_braille_ascii(cells: str, letters: str) -> None:
    assert braille_ascii(cells) == letters
    assert braille_patterns(letters) == cells
    assert braille_patterns(letters.lower()) == cells
    assert braille_patterns(cells) == cells


def test_small_signs_of_braille_ascii_are_those_of_the_capitals() -> None:
    assert braille_patterns("`{|}~") == braille_patterns("@[\\]^")


def test_a_blank_among_characters_of_braille_patterns_is_an_empty_cell() -> None:
    assert braille_patterns("⠞⠓⠑ ⠍") == "⠞⠓⠑⠀⠍"


@pytest.mark.parametrize("text, character", [("THÉ", "É"), ("⠞H", "H"), ("A\tB", "\t")])
def test_what_is_no_cell_is_refused(text: str, character: str) -> None:
    with pytest.raises(NotCells, match=character):
        braille_patterns(text)
