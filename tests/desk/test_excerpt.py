"""Some words of a text and those around them, in a line of a width."""

import pytest

from hypothesis import given
from hypothesis import strategies as st

from braildesk.text.excerpt import (
    ending,
    excerpt,
    excerpt_lines,
    opening,
    opening_after,
)
from braildesk.text.wrapping import columns

TEXT = "On 20 July 1969 two men stood on the moon."

EXCERPTS = [
    (TEXT, 20, 23, 60, "On 20 July 1969 two [men] stood on the moon."),
    (TEXT, 20, 23, 24, "…two [men] stood on the…"),
    (TEXT, 0, 2, 16, "[On] 20 July…"),
    (TEXT, 37, 41, 20, "…on the [moon]."),
    (TEXT, 20, 23, 5, "[men]"),
    (TEXT, 3, 41, 24, "… [20 July…on the moon]."),
    ("", 0, 0, 10, "[]"),
    ("abcdefghijklmn", 6, 7, 9, "…ef[g]hi…"),
    ("月の海は広い", 2, 3, 12, "月の[海]は…"),
    ("a\x1bb moon", 4, 8, 30, "a<U+001B>b [moon]"),
]


@pytest.mark.parametrize("text, start, stop, width, line", EXCERPTS)
def test_words_stand_in_brackets_with_words_around_them(
    text: str, start: int, stop: int, width: int, line: str
) -> None:
    assert excerpt(text, start, stop, width) == line


def test_a_text_that_fits_is_left_whole() -> None:
    assert opening("The moon", 8) == ending("The moon", 8) == "The moon"


def test_a_text_that_does_not_fit_is_cut_at_a_blank() -> None:
    assert opening("The moon is far", 12) == "The moon is…"
    assert ending("The moon is far", 12) == "…moon is far"
    assert opening("moonlight", 5) == "moon…"


def test_after_a_head_stands_at_least_the_front_of_a_word() -> None:
    assert opening_after("No. 3: ", "The moon", 12) == "No. 3: The…"
    assert opening_after("No. 3: ", "moonlight", 12) == "No. 3: moon…"
    assert opening_after("No. 3: ", "moon", 8) == "No. 3:…"


def test_no_word_beside_others_is_cut() -> None:
    assert excerpt("Twice a day that sea", 17, 20, 10) == "… [sea]"
    assert excerpt("the sea comes", 4, 7, 10) == "… [sea] …"
    assert excerpt("l’océan 月の海は広い", 8, 10, 12) == "… [月の]海…"


LINES = [
    (20, ["Paragraph 3,", "  character 21:", "…two [men] stood on…"]),
    (40, ["Paragraph 3, character 21:", "…July 1969 two [men] stood on the moon."]),
    (60, ["Paragraph 3, character 21: …1969 two [men] stood on the…"]),
]


@pytest.mark.parametrize("width, lines", LINES)
def test_a_head_that_leaves_no_room_has_lines_of_its_own(
    width: int, lines: list[str]
) -> None:
    assert excerpt_lines("Paragraph 3, character 21: ", TEXT, 20, 23, width) == lines


def test_words_that_fill_more_than_a_line_are_shown_whole() -> None:
    assert excerpt_lines("Before: ", TEXT, 3, 41, 20) == [
        "Before:",
        "…[20 July 1969 two",
        "  men stood on the",
        "  moon]…",
    ]


@pytest.mark.parametrize("width", range(9, 45))
@pytest.mark.parametrize("text", [TEXT, TEXT.replace("e", "é\u0301")])
def test_words_left_out_beside_others_have_an_ellipsis(text: str, width: int) -> None:
    for start, stop in ((3, 41), (0, 30), (10, len(text)), (20, 29)):
        before, rest = excerpt(text, start, stop, width).split("[")
        after = rest.split("]")[1]
        assert before == text[:start] or before.startswith("…")
        assert after == text[stop:] or after.endswith("…")


@pytest.mark.parametrize("width", range(14, 19))
def test_words_left_out_have_an_ellipsis_also_where_the_others_fill_a_line(
    width: int,
) -> None:
    for start, stop in ((20, 34), (0, 12), (26, len(TEXT))):
        found = excerpt_lines("Paragraph 3: ", TEXT, start, stop, width)
        shown = " ".join(line.strip() for line in found[1:])
        before, after = shown.split("[")[0], shown.split("]")[1]
        assert before == TEXT[:start] or before.startswith("…")
        assert after == TEXT[stop:] or after.endswith("…")


@given(
    text=st.text("ab ⠍海\u0301", min_size=1, max_size=120),
    start=st.integers(0, 119),
    size=st.integers(1, 60),
    head=st.sampled_from(["", "1: ", "Paragraph 17771, struck, character 1234: "]),
    width=st.integers(10, 90),
)
def test_all_that_was_sought_is_shown_at_any_width(
    text: str, start: int, size: int, head: str, width: int
) -> None:
    start = min(start, len(text) - 1)
    lines = excerpt_lines(head, text, start, min(start + size, len(text)), width)
    assert max(map(columns, lines)) <= width

    def letters(shown: str) -> str:
        return "".join(shown.split())

    inside = "".join(lines).split("[", 1)[1].split("]")[0]
    assert letters(inside) == letters(text[start : start + size])


@pytest.mark.parametrize("width", range(0, 30))
def test_no_excerpt_is_wider_than_it_may_be(width: int) -> None:
    text = "月の海は q\u0307q\u0307 moonlight sonata"
    assert columns(opening(text, width)) <= width
    assert columns(excerpt(text, 2, 15, width + 4)) <= width + 4
    assert columns(ending(text, width)) <= width
