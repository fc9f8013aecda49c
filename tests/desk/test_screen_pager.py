"""Lines that are looked at in place of the book, on screens of several sizes."""

from dataclasses import replace

import pytest

from scribe.screen.pager import at_line, beside, moved, seen
from scribe.screen.state import Pages, Size

SMALL, USUAL = Size(40, 12), Size(80, 24)
LINES = Pages("All lines.", tuple(f"line {n}" for n in range(1, 26)))


def pressed(pages: Pages, size: Size, keys: str) -> Pages:
    for key in keys.split():
        after = moved(pages, size, key)
        assert after is not None
        pages = after
    return pages


def looked_at(pages: Pages, size: Size) -> str:
    """The line on which the cursor stands."""
    found = seen(pages, size)
    return [*found.head, *found.lines][found.cursor]


def test_the_cursor_stands_on_the_head_and_then_on_each_line() -> None:
    assert looked_at(LINES, SMALL) == "All lines. Lines 1 to 8 of 25."
    assert looked_at(pressed(LINES, SMALL, "down"), SMALL) == "line 1"
    pages = LINES
    for number in range(1, 26):
        pages = pressed(pages, SMALL, "down")
        assert looked_at(pages, SMALL) == f"line {number}"
    assert seen(pages, SMALL).head == ("All lines. Lines 18 to 25 of 25.",)
    for number in range(24, 0, -1):
        pages = pressed(pages, SMALL, "up")
        assert looked_at(pages, SMALL) == f"line {number}"
    assert pressed(pages, SMALL, "up") == LINES


def test_a_key_goes_from_one_line_of_a_list_to_the_next_however_many_rows_it_has() -> (
    None
):
    texts = tuple(f"mark {n} stands on words with a longer note" for n in range(1, 8))
    pages = Pages("All lines.", texts)
    for number in range(1, 8):
        pages = beside(pages, SMALL, 1)
        assert looked_at(pages, SMALL) == f"mark {number} stands on words with a longer"
        found = seen(pages, SMALL)
        assert found.lines[found.cursor - len(found.head) + 1] == "note"
    assert beside(pages, SMALL, 1) == pages
    # also from the second row of one
    pages = beside(pressed(pages, SMALL, "down"), SMALL, -1)
    for number in range(6, 0, -1):
        assert looked_at(pages, SMALL) == f"mark {number} stands on words with a longer"
        pages = beside(pages, SMALL, -1)
    assert looked_at(pages, SMALL) == "All lines. Lines 1 to 8 of 14."
    assert beside(pages, SMALL, -1) == pages


def test_a_line_that_is_gone_to_is_seen_to_its_end() -> None:
    long = "mark {} stands on words with a longer note"
    pages = Pages("All lines.", ("mark 1", *map(long.format, range(2, 8))))
    for number in range(1, 7):
        found = seen(at_line(pages, SMALL, number), SMALL)
        assert found.lines[found.cursor - len(found.head) + 1] == "note"


def test_after_the_last_line_of_a_list_there_is_none_to_go_to() -> None:
    long = "mark {} stands on words with a longer note"
    pages = Pages("All lines.", ("mark 1", *map(long.format, range(2, 6))))
    for keys in ("", "down"):
        there = pressed(at_line(pages, SMALL, 4), SMALL, keys)
        assert beside(there, SMALL, 1) == there


def test_the_lines_stay_where_they_are_while_they_are_read() -> None:
    pages, tops = LINES, []
    for _ in range(25):
        pages = pressed(pages, SMALL, "down")
        tops.append(pages.top)
    assert tops == [0] * 8 + [8] * 8 + [16] * 8 + [17]
    tops = []
    for _ in range(25):
        pages = pressed(pages, SMALL, "up")
        tops.append(pages.top)
    assert tops == [17] * 7 + [9] * 8 + [1] * 8 + [0] * 2


def test_a_page_on_shows_the_lines_after_those_that_were_seen() -> None:
    first = seen(LINES, SMALL).lines
    second = seen(pressed(LINES, SMALL, "pagedown"), SMALL).lines
    assert (first[-1], second[0]) == ("line 8", "line 9")
    assert seen(pressed(LINES, SMALL, "pagedown pagedown pagedown"), SMALL).lines == (
        tuple(f"line {n}" for n in range(18, 26))
    )
    assert seen(pressed(LINES, SMALL, "end pageup"), SMALL).lines[0] == "line 10"


def test_a_page_at_the_end_goes_to_the_last_line_and_back_to_the_head() -> None:
    last = pressed(LINES, SMALL, "pagedown pagedown pagedown pagedown")
    assert looked_at(last, SMALL) == "line 25"
    assert pressed(last, SMALL, "pageup pageup pageup pageup") == LINES
    assert pressed(last, SMALL, "home") == LINES


def test_a_long_line_is_looked_at_to_its_end() -> None:
    words = " ".join(f"word{n:04}" for n in range(440))
    pages = Pages("The session ended.", ("Because.", words))
    assert looked_at(pressed(pages, SMALL, "end"), SMALL).endswith("word0439")
    read = [looked_at(pages, SMALL)]
    while (after := pressed(pages, SMALL, "down")) != pages:
        pages = after
        read.append(looked_at(pages, SMALL))
    assert " ".join(read[2:]) == words


def test_a_line_that_is_spoken_of_is_seen_and_has_the_cursor() -> None:
    for size in (SMALL, USUAL, Size(20, 8)):
        for number in range(25):
            pages = at_line(LINES, size, number)
            assert looked_at(pages, size) == f"line {number + 1}"
    # a line of 60 cells takes two lines of a screen of 40
    wide = replace(LINES, lines=("a" * 60, "b" * 60, "c"))
    assert looked_at(at_line(wide, SMALL, 2), SMALL) == "c"


def test_a_head_that_is_too_long_is_wrapped_and_leaves_room_for_lines() -> None:
    title = "Paragraph 2: volume 1, page 1, line 2, of 25 lines of 40 cells."
    found = seen(replace(LINES, title=title), SMALL)
    assert found.head == (
        "Paragraph 2: volume 1, page 1, line 2,",
        "of 25 lines of 40 cells. Lines 1 to 6 of",
        "25.",
    )
    assert len(found.lines) == 6


@pytest.mark.parametrize(
    "title, wanted",
    [
        ("3 places of “sea”, each with its words.", "3 places of… Lines 1"),
        ("Abc.", "Abc. Lines 1"),
    ],
)
def test_beside_a_line_on_few_rows_a_long_head_is_seen_from_its_front(
    title: str, wanted: str
) -> None:
    size = Size(34, 5)
    pages = Pages(title, ("One", "Two", "Three"), place=0)
    found = seen(pages, size)
    assert found.head[0].startswith(wanted) and len(found.head) == 1
    assert found.head[0].endswith(" Lines 1 to 1 of 3.")
    assert found.cursor == 1


def test_other_keys_move_nothing() -> None:
    assert moved(LINES, SMALL, "x") is None
