"""The paragraphs of a text file, and where their characters stand in it."""

import tracemalloc
import unicodedata

import pytest

from braildesk.desk.manuscript import Position, UnreadableText, passages
from braildesk.text.sequences import belongs, is_plain

from scribe.words.import_text import unreadable


def texts(data: bytes, by_lines: bool = False) -> list[tuple[str, int, int]]:
    found = passages(data, by_lines)
    return [(passage.text, passage.first_line, passage.last_line) for passage in found]


def test_blank_lines_part_paragraphs_and_wrapped_lines_are_joined() -> None:
    assert texts(b"The moon\nis far\naway.\n\n\n  \nThe tides\n") == [
        ("The moon is far away.", 1, 3),
        ("The tides", 7, 7),
    ]


def test_each_line_is_a_paragraph_by_lines_and_blank_ones_are_passed_over() -> None:
    assert texts(b"The moon\nis far\n\naway.", by_lines=True) == [
        ("The moon", 1, 1),
        ("is far", 2, 2),
        ("away.", 4, 4),
    ]


@pytest.mark.parametrize("by_lines", [False, True])
def test_blank_lines_take_no_memory(by_lines: bool) -> None:
    data = b"\n" * 300_000 + b"The moon\n"
    tracemalloc.start()
    try:
        assert texts(data, by_lines) == [("The moon", 300_001, 300_001)]
        _, most = tracemalloc.get_traced_memory()
    finally:
        tracemalloc.stop()
    assert most < 20 * len(data)


def test_a_text_of_more_paragraphs_than_five_books_is_refused() -> None:
    assert len(passages(b"a\n" * 100_000, True)) == 100_000
    with pytest.raises(UnreadableText) as refused:
        passages(b"a\n" * 100_001, True)
    assert unreadable(refused.value) == (
        "has over 100,000 paragraphs, and a book has at most 20,000"
    )
    with pytest.raises(UnreadableText) as refused:
        passages(b"a\n" * 100_001 + b"\xff", True)
    wanted = "isn't UTF-8: line 100002, column 1 has the byte 0xff. "
    assert unreadable(refused.value).startswith(wanted)


@pytest.mark.parametrize("by_lines", [False, True])
def test_a_file_of_blank_lines_has_no_paragraph(by_lines: bool) -> None:
    assert texts(b"", by_lines) == texts(b"\n \n\t\r\n\f\n", by_lines) == []


def test_a_mark_at_the_front_and_carriage_returns_at_the_ends_are_no_text() -> None:
    assert texts("\ufeffThe moon\r\nis far.\r\n\r\nTides\r\n".encode()) == [
        ("The moon is far.", 1, 2),
        ("Tides", 4, 4),
    ]


def test_only_one_mark_and_one_carriage_return_are_left_out() -> None:
    assert texts("\ufeff\ufeffa\r\r\nb\rc\n".encode(), by_lines=True) == [
        ("\ufeffa\r", 1, 1),
        ("b\rc", 2, 2),
    ]


def test_tabs_and_form_feeds_are_blanks() -> None:
    assert texts(b"\tThe\tmoon\nis far.\n\n\f\nNext page\n\f\n\x0cmore  so") == [
        ("The moon is far.", 1, 2),
        ("Next page", 5, 5),
        ("more  so", 7, 7),
    ]


def test_other_ends_of_lines_are_characters() -> None:
    text = "a\u2028b\u0085c\x0bd"
    assert texts(text.encode()) == [(text, 1, 1)]


def test_a_print_is_in_normal_form_c() -> None:
    assert texts("cafe\u0301\n\u0301x".encode()) == [("café \u0301x", 1, 2)]


def test_a_character_has_the_line_and_the_column_of_the_file() -> None:
    (_, passage) = passages(b"one\n\n  The moon\n\tis far\n", by_lines=False)
    assert passage.text == "The moon is far"
    places = {0: (3, 3), 4: (3, 7), 7: (3, 10), 9: (4, 2), 14: (4, 7)}
    assert {
        place: (passage.position(place).line, passage.position(place).column)
        for place in places
    } == places


def test_a_column_counts_the_characters_of_the_file_and_not_of_the_print() -> None:
    (passage,) = passages("e\u0301e\u0301…q\u0307!".encode(), by_lines=False)
    assert passage.text == "éé…q\u0307!"
    assert passage.position(1) == Position(1, 3)
    assert passage.position(2) == Position(1, 5)
    assert passage.position(4) == Position(1, 6)
    assert passage.position(5) == Position(1, 8)


def test_a_byte_order_mark_takes_no_column() -> None:
    (passage,) = passages("\ufeffab…".encode(), by_lines=False)
    assert passage.position(2) == Position(1, 3)


UNREADABLE = [
    (b"one\ncaf\xe9 x\n", "isn't UTF-8: line 2, column 4 has the byte 0xe9"),
    ("é".encode() + b"\xff", "isn't UTF-8: line 1, column 2 has the byte 0xff"),
    (b"\xef\xbb\xbf\x80", "isn't UTF-8: line 1, column 1 has the byte 0x80"),
    ("one".encode("utf-16"), "is UTF-16"),
]


@pytest.mark.parametrize("data, sentence", UNREADABLE)
def test_a_file_that_is_not_utf_8_is_refused(data: bytes, sentence: str) -> None:
    with pytest.raises(UnreadableText) as refused:
        passages(data, by_lines=True)
    assert unreadable(refused.value).startswith(sentence)


def test_characters_that_are_plain_stay_as_they_are_in_normal_form_c() -> None:
    plain = [chr(code) for code in range(0x3000) if is_plain(chr(code))]
    assert len(plain) > 800
    for character in plain:
        assert unicodedata.is_normalized("NFC", character)
        # and none is joined to the one before it
        assert not belongs("a", character)
