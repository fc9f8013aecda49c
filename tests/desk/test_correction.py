"""The smallest correction, the pieces of a text that it doesn't cut, and where words stand."""

import unicodedata

import pytest
from hypothesis import given
from hypothesis import strategies as st

from braildesk.desk.correction import (
    Correction,
    place_before,
    replaced,
    smallest_correction,
)
from braildesk.text.sequences import composed, seams, sequences
from braildesk.text.spans import Span, find_spans

DOT_ABOVE = "\u0307"  # q with it has no character of its own
ACUTE = "\u0301"

CASES = [
    # old, new, start, count, text
    ("The mooon.", "The moon.", 7, 1, ""),
    ("The mon.", "The moon.", 6, 0, "o"),
    ("two men", "the first two men", 1, 0, "he first t"),
    ("men", "women", 0, 0, "wo"),
    ("", "moon", 0, 0, "moon"),
    ("moon", "", 0, 4, ""),
    ("cafe", "café", 3, 1, "é"),
    ("abcabc", "abc", 3, 3, ""),
    # a base whose mark is another is replaced whole, and so is one that gets a mark
    (f"aq{DOT_ABOVE}b", f"aq{ACUTE}b", 1, 2, f"q{ACUTE}"),
    ("aqb", f"aq{DOT_ABOVE}b", 1, 1, f"q{DOT_ABOVE}"),
    (f"aq{DOT_ABOVE}b", "aqb", 1, 2, "q"),
    # the same mark on another base
    (f"q{DOT_ABOVE}z", f"x{DOT_ABOVE}z", 0, 2, f"x{DOT_ABOVE}"),
    # a letter before one that has a mark, and the same letter without
    (f"qq{DOT_ABOVE}", f"qqq{DOT_ABOVE}", 1, 0, "q"),
    # a Tamil letter with a vowel sign that takes a column of its own
    ("கா", "கி", 0, 2, "கி"),
    # a Korean syllable of old letters, spelled out
    ("ᄀᆞx", "ᄀᆡx", 0, 2, "ᄀᆡ"),
    # right to left, with points
    ("שָׁלוֹם", "שָׁלֹם", 3, 3, "לֹ"),
    # four-byte characters count as one
    ("a😀b", "a😁b", 1, 1, "😁"),
]


@pytest.mark.parametrize("old, new, start, count, text", CASES)
def test_a_correction_is_the_smallest_that_cuts_no_sequence(
    old: str, new: str, start: int, count: int, text: str
) -> None:
    assert smallest_correction(old, new) == Correction(start, count, text)


def test_nothing_is_to_correct_where_the_prints_are_the_same() -> None:
    assert smallest_correction("moon", "moon") is None


TEXTS = st.text(f"aqé{DOT_ABOVE}{ACUTE}가ᆞாக ", max_size=9).map(composed)


@given(TEXTS, TEXTS)
def test_applied_to_the_old_print_it_gives_the_new_one(old: str, new: str) -> None:
    found = smallest_correction(old, new)
    assert (old if found is None else found.applied(old)) == new


@given(TEXTS, TEXTS)
def test_what_it_puts_in_is_in_normal_form_c(old: str, new: str) -> None:
    found = smallest_correction(old, new)
    assert found is None or unicodedata.is_normalized("NFC", found.text)


@given(TEXTS, TEXTS)
def test_no_other_that_cuts_no_sequence_takes_or_puts_less(old: str, new: str) -> None:
    found = smallest_correction(old, new)
    if found is None:
        return
    here, there = set(seams(old)), set(seams(new))
    assert {found.start, found.stop} <= here
    assert {found.start, found.start + len(found.text)} <= there
    sizes = [
        len(sequences(old[start:stop])) + len(sequences(new[start:end]))
        for start in here & there
        for stop in here
        for end in there
        if start <= stop and start <= end
        if old[:start] == new[:start] and old[stop:] == new[end:]
    ]
    size = len(sequences(old[found.start : found.stop])) + len(sequences(found.text))
    assert size == min(sizes)


@given(TEXTS, TEXTS)
def test_as_much_as_can_stays_in_front_of_it(old: str, new: str) -> None:
    found = smallest_correction(old, new)
    if found is None:
        return
    shared = [n for n in seams(old) if n in seams(new) and old[:n] == new[:n]]
    assert found.start == max(shared)


def test_each_character_that_joins_the_one_before_it_begins_no_sequence() -> None:
    """All characters that normal form C joins to one before them, by Python's own data."""
    joined = set()
    for code in range(0x110000):
        pieces = unicodedata.decomposition(chr(code)).split()
        if len(pieces) == 2 and not pieces[0].startswith("<"):
            first, second = (chr(int(piece, 16)) for piece in pieces)
            if composed(first + second) == chr(code):
                joined.add((first, second))
    assert len(joined) > 900
    for first, second in joined:
        assert sequences(first + second) == [first + second]


def test_what_is_put_in_joins_what_stands_before_it() -> None:
    assert replaced("cafe!", 4, 4, ACUTE) == "café!"


def test_what_stands_elsewhere_stays_as_it_is() -> None:
    apart = f"e{ACUTE} cafe e{ACUTE}"  # a print may be so, corrected piece by piece
    assert replaced(apart, 6, 7, "é") == f"e{ACUTE} café e{ACUTE}"


OCCURRENCES = [
    ("The moon, the moon.", "moon", [(4, 8), (14, 18)]),
    ("The moon.", "sun", []),
    ("The moon.", "", []),
    ("aaa", "aa", [(0, 2), (1, 3)]),
    ("a café", f"cafe{ACUTE}", [(2, 6)]),
    (f"a cafe{ACUTE}.", "café", [(2, 7)]),
    (f"e{ACUTE} e{ACUTE}x", "éx", [(3, 6)]),
    (f"q{DOT_ABOVE}q", "q", [(2, 3)]),
    ("cafe", "é", []),
    ("😀 moon", "moon", [(2, 6)]),
]


@pytest.mark.parametrize("text, sought, places", OCCURRENCES)
def test_words_are_found_in_normal_form_c_and_cut_no_sequence(
    text: str, sought: str, places: list[tuple[int, int]]
) -> None:
    assert find_spans(text, sought) == tuple(Span(*span) for span in places)


@pytest.mark.parametrize(
    "old, typed, was",
    [
        # the caret, where it was typed or taken away, and where it is in what was there before
        ("The moon.", "The| moon.", "The| moon."),
        ("The moon.", "The far |moon.", "The |moon."),
        ("The moon.", "The |n.", "The moo|n."),
        ("The moon.", "The moon. So.|", "The moon.|"),
        ("two men", "the first |two men", "|two men"),
        ("mon", "mo|on", "m|on"),
        # something else is another one after it, before it, and on both sides
        ("The moon.", "The| sea.", "The| moon."),
        ("The moon.", "So the |moon.", "The |moon."),
        ("The moon.", "The sea| rose.", "The |moon."),
        ("", "The moon.|", "|"),
    ],
)
def test_a_caret_stays_between_what_is_there_before_and_after_it(
    old: str, typed: str, was: str
) -> None:
    place = place_before(old, typed.replace("|", ""), typed.index("|"))
    assert f"{old[:place]}|{old[place:]}" == was
