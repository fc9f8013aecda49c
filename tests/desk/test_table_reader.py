"""Table texts read in Python: the same first faults and the same cells as the program's."""

import tempfile
from pathlib import Path

import pytest
from hypothesis import HealthCheck, given, settings
from hypothesis import strategies as st

import braildesk
from braildesk import Refused
from braildesk.tables import (
    Cause,
    Disagreement,
    Rule,
    TableText,
    braille,
    pieces,
    read,
    undefined_place,
    warnings,
)

#: A text, and the line and the cause by which it is refused.
BAD: dict[str, tuple[bytes, int, int]] = {
    "a word that is no opcode": (b"space \\s 0\nlowercase a 1\n", 2, 1),
    "the case of an opcode": (b"Letter a 1\n", 1, 1),
    "a definition without dots": (b"letter a\n", 1, 2),
    "a sign without dots": (b"\n# a comment\nnumsign\n", 3, 2),
    "a set without characters": (b"numericmodechars\n", 1, 2),
    "an escape that there is not": (b"letter \\q 1\n", 1, 3),
    "an escape that is cut": (b"letter \\x006 1\n", 1, 3),
    "a surrogate": (b"letter \\xd800 1\n", 1, 3),
    "a number above Unicode": (b"letter \\z00110000 1\n", 1, 3),
    "two characters in a definition": (b"letter ab 1\n", 1, 3),
    "one character in a pair": (b"uplow A 1\n", 1, 3),
    "a pair that is in the way of its dots": (b"uplow A 9\n", 1, 3),
    "dot 9": (b"letter a 19\n", 1, 4),
    "a dot twice": (b"letter a 11\n", 1, 4),
    "0 with a dot": (b"letter a 01\n", 1, 4),
    "a hyphen at the end": (b"letter a 1-\n", 1, 4),
    "digits of another script": ("letter a ١\n".encode(), 1, 4),
    "an equals sign in a definition": (b"letter a =\n", 1, 4),
    "a third part in a pair": (b"uplow Aa 1,2,3\n", 1, 4),
    "an empty part in a pair": (b"uplow Aa 1,\n", 1, 4),
    "a character that is defined twice": (b"letter a 1\nletter a 1\n", 2, 5),
    "a pair of one character": (b"uplow aa 1\n", 1, 5),
    "a pair with a letter of before": (b"letter a 1\nuplow Aa 1\n", 2, 5),
    "a sign that is given twice": (b"numsign 3456\nnumsign 3456\n", 2, 6),
    "a rule with an undefined character": (b"always the 1\nletter t 1\n", 1, 7),
    "a set with a capital that stands for itself": (
        b"letter a 1\nnumericnocontchars A\n",
        2,
        7,
    ),
    "an undefined character before a fault": (b"always x 1\nletter a 9\n", 2, 4),
    "a line of 1,001 characters": (b"#" + b"x" * 1_000 + b"\n", 1, 8),
    "a long line that is no opcode": (b"x" * 1_001 + b"\n", 1, 1),
    "61 characters": (b"letter a 1\nalways " + b"a" * 61 + b" 1\n", 2, 8),
    "21 cells": (b"letter a " + b"-".join([b"1"] * 21) + b"\n", 1, 8),
    "line 20,001": (b"\n" * 20_001, 20_001, 8),
    "line 20,001 that is no opcode": (b"\n" * 20_000 + b"x", 20_001, 1),
    "bytes that are not UTF-8 after a fault": (b"x\nletter \xff 1\n", 2, 9),
    "a character that is cut by a line feed": (b"# \xe2\x80\nletter a 1\n", 1, 9),
    "a second byte order mark": ("\ufeff\ufeffspace \\s 0\n".encode(), 1, 1),
}

#: Texts that are accepted.
GOOD: dict[str, bytes] = {
    "no text": b"",
    "a byte order mark and CRLF": "\ufeffspace \\s 0\r\nletter a 1\r\n".encode(),
    "tabs, and a comment after the operands": b"\tletter\ta\t1 first of all\n",
    "a definition after the rule that uses it": b"always Aa =\nuplow Aa 1\n",
    "60 characters": b"letter a 1\nalways " + b"a" * 60 + b" 1\n",
    "60 characters by escapes": b"letter a 1\nalways " + b"\\x0061" * 60 + b" =\n",
    "20 cells": b"letter a " + b"-".join([b"1"] * 20) + b"\n",
    "a line of 1,000 characters": b"#" + b"x" * 999 + b"\n",
    "20,000 lines": b"\n" * 20_000,
    "a control character by an escape": b"space \\x0000 0\nspace \\t 0\n",
    "a no-break space as a character": "letter \u00a0 1\n".encode(),
}


@pytest.mark.parametrize("name", BAD)
def test_the_first_fault_is_that_of_the_program(name: str) -> None:
    text, line, cause = BAD[name]
    table = TableText("own.utb", text)
    first = table.reading.first
    assert first is not None
    assert (first.line, first.cause) == (line, cause)


@pytest.mark.parametrize("name", GOOD)
def test_a_sound_text_is_accepted_by_both(name: str) -> None:
    table = TableText("own.utb", GOOD[name])
    assert table.reading.faults == ()


def test_each_cause_is_among_the_bad_texts() -> None:
    assert {cause for _, _, cause in BAD.values()} == set(Cause)


def test_all_faults_are_found_and_none_follows_from_another() -> None:
    text = b"""\
lowercase a 1
letter b 19
letter c
uplow Dd 1-
letter \\e\\e 9
always abcd =
always abx =
numsign 3456
numsign 3456 3
letter x\\q 99
numericmodechars y
"""
    found = [(fault.line, int(fault.cause)) for fault in read(text).faults]
    assert found == [
        (1, 1),
        (2, 4),
        (3, 2),
        (4, 4),
        (5, 3),
        (5, 4),
        (7, 7),
        (9, 6),
        (10, 3),
        (10, 4),
        (11, 7),
    ]


def test_no_character_is_missed_where_a_line_cannot_be_read() -> None:
    faults = read(b"letter \xe9 1\nalways e 1\n# \xff\n").faults
    assert [(fault.line, int(fault.cause)) for fault in faults] == [(1, 9), (3, 9)]


#: A table, and prints with the pieces that they are taken to, worked out by hand.
TABLE = b"""\
space \\s 0
punctuation . 256
digit 1 1
digit 2 12
uplow Aa 1
uplow Bb 12
uplow Cc 14
numsign 3456
capsletter 6
begcapsword 6-6
numericmodechars .
nocontractsign 56
numericnocontchars ab
word a 1-1
begword ab 2
always ab 3
midword c 4-4
endword cc 5
"""
PIECES: dict[str, list[tuple[str, int, str]]] = {
    "": [],
    "a": [("a", 14, "⠁⠁")],
    "A": [("A", 14, "⠠⠁⠁")],
    "aba": [("ab", 15, "⠂"), ("a", 5, "⠁")],
    "cab": [("c", 7, "⠉"), ("ab", 16, "⠄")],
    "1a": [("1", 3, "⠼⠁"), ("a", 5, "⠰⠁")],
    "12.1": [("1", 3, "⠼⠁"), ("2", 4, "⠃"), (".", 2, "⠲"), ("1", 3, "⠁")],
    ".1": [(".", 2, "⠲"), ("1", 3, "⠼⠁")],
    "ABc": [("A", 5, "⠠⠁"), ("B", 6, "⠠⠃"), ("c", 7, "⠉")],
    "AB": [("AB", 16, "⠠⠠⠄")],
    "acb": [("a", 5, "⠁"), ("c", 17, "⠈⠈"), ("b", 6, "⠃")],
    "acc.": [("a", 5, "⠁"), ("cc", 18, "⠐"), (".", 2, "⠲")],
    "acC": [("a", 5, "⠁"), ("c", 17, "⠈⠈"), ("C", 7, "⠠⠉")],
}


def test_prints_are_taken_to_the_pieces_of_a_table() -> None:
    table = TableText("own.utb", TABLE)
    for text, wanted in PIECES.items():
        cells, found = table.pieces(text)
        parts = [(it.text, it.chosen.line, it.braille) for it in found]
        assert (parts, cells) == (wanted, "".join(it[2] for it in wanted)), text


def test_a_print_with_an_undefined_character_is_refused() -> None:
    table = TableText("own.utb", TABLE)
    with pytest.raises(Refused) as refused:
        table.pieces("ab d")
    assert refused.value.sentence == (
        "The table “own.utb” has no cells for “d” (U+0064 LATIN SMALL LETTER D), character 4 of"
        " the line: “ab d”. This line was not translated."
    )


def test_a_print_that_is_too_long_is_refused() -> None:
    table = TableText("own.utb", TABLE)
    assert table.pieces("a" * 4_000)[0] == "⠁" * 4_000
    for text, code in (("a" * 4_001, 14), ("é" * 32_769, 1)):
        with pytest.raises(Refused) as refused:
            table.pieces(text)
        assert refused.value.code == code


def program_that(tmp_path: Path, does: str) -> Path:
    """A program in the place of braildesk."""
    path = tmp_path / "otherwise"
    path.write_text(f"#!/bin/sh\n{does}\n")
    path.chmod(0o755)
    return path


def test_a_table_that_only_the_program_refuses_is_not_answered(
    tmp_path: Path, monkeypatch: pytest.MonkeyPatch
) -> None:
    does = "echo 'braildesk: no 8 3 4' >&2; exit 2"
    monkeypatch.setenv("BRAILDESK", str(program_that(tmp_path, does)))
    with pytest.raises(Disagreement) as differs:
        TableText("own.utb", TABLE)
    assert differs.value.sentence == (
        "braildesk and scribe differ on the table “own.utb”: braildesk refuses its line 3 by"
        " cause 4, and scribe finds nothing wrong in it. One of the two is wrong, so this is no"
        " answer. Please report it with the table."
    )


@pytest.mark.parametrize(
    "answer, said",
    [("⠁", "gives the cells ⠁"), ("no 7 0", "refuses it by code 7 at character 1")],
)
def test_cells_that_differ_are_not_answered(
    answer: str, said: str, tmp_path: Path, monkeypatch: pytest.MonkeyPatch
) -> None:
    table = TableText("own.utb", TABLE)
    does = f"echo '{answer}'"
    monkeypatch.setenv("BRAILDESK", str(program_that(tmp_path, does)))
    with pytest.raises(Disagreement) as differs:
        table.pieces("a")
    assert differs.value.sentence.startswith(
        f"braildesk and scribe differ on the table “own.utb”: for “a” braildesk {said}, and"
        " scribe gives the cells ⠁⠁."
    )


CHARACTERS = " .-12abcéABC"
DEFINITIONS = (
    ("space \\s 0", "space \\s 4"),
    ("punctuation . 256", "letter . 256"),
    ("punctuation - 36", "space - 36"),
    ("digit 1 2", "digit 1 1-2"),
    ("digit 2 23", "letter 2 23"),
    ("uplow Aa 1", "uplow Aa 1,17", "letter a 1\nletter A 1"),
    ("uplow Bb 12", "uplow bB 12"),
    ("uplow Cc 14", "letter c 14\npunctuation C 14"),
    ("letter \\x00e9 123456", "digit é 123456"),
)
FRAGMENTS = (
    *CHARACTERS,
    *("ab", "abc", "Ab", "AB", "ABC", "ABc", "bé", "AbC"),
    *("12", "1a", "2b", "1.2", "1.a", "2-", "1A", "1é", "x"),
)
KINDS = ("always", "word", "begword", "midword", "endword")
DOTS = ("=", "1", "2-3", "7", "0", "123456-8")
SIGNS = ("numsign 3456", "capsletter 6", "begcapsword 6-6", "nocontractsign 56")
ODD = (
    "lowercase x 1",
    "letter x",
    "always xyz =",
    "letter a 1",
    "numsign 3456",
    "uplow Xx 1,2,3",
    "word \\q 1",
    "always ab 1-",
    "letter \\e 0",
    "numericmodechars x",
)


def text_of(characters: str) -> str:
    """Characters as an operand of a rule."""
    return characters.replace(" ", "\\s")


@st.composite
def tables(draw: st.DrawFn) -> bytes:
    """Texts of tables, of which most are sound."""
    lines = [draw(st.sampled_from(forms)) for forms in DEFINITIONS]
    lines += draw(st.lists(st.sampled_from(SIGNS), unique=True))
    some = st.text(CHARACTERS, min_size=1, max_size=3)
    for name in ("numericmodechars", "numericnocontchars"):
        if draw(st.booleans()):
            lines.append(f"{name} {text_of(draw(some))}")
    rules = st.tuples(st.sampled_from(KINDS), some, st.sampled_from(DOTS))
    for kind, characters, dots in draw(st.lists(rules, min_size=3, max_size=12)):
        lines.append(f"{kind} {text_of(characters)} {dots}")
    if draw(st.integers(0, 5)) == 0:
        lines += draw(st.lists(st.sampled_from(ODD), min_size=1, max_size=2))
    return ("\n".join(draw(st.permutations(lines))) + "\n").encode()


def prints() -> st.SearchStrategy[str]:
    """Prints, of which few have a character that no table defines."""
    return st.lists(st.sampled_from(FRAGMENTS), max_size=6).map("".join)


@settings(max_examples=200, deadline=None, suppress_health_check=list(HealthCheck))
@given(tables(), st.lists(prints(), min_size=12, max_size=20))
def test_random_tables_and_prints_are_taken_as_by_the_program(
    text: bytes, lines: list[str]
) -> None:
    reading = read(text)
    with tempfile.NamedTemporaryFile() as file:
        file.write(text)
        file.flush()
        try:
            answers = braildesk.translate(file.name, lines)
        except Refused as refused:
            assert reading.first is not None
            first = reading.first.line, reading.first.cause
            assert (refused.code, (refused.line, refused.cause)) == (8, first)
            return
    assert reading.faults == ()
    never = {
        warning.line
        for warning in warnings(reading.table, is_for_embosser=False)
        if "never chosen" in warning.sentence
    }
    for line, answer in zip(lines, answers):
        place = undefined_place(reading.table, line)
        if isinstance(answer, Refused):
            assert (answer.code, answer.place) == (7, place)
            continue
        assert place is None
        found = pieces(reading.table, line)
        assert braille(found) == answer, line
        assert "".join(piece.text for piece in found) == line
        assert (
            not {it.chosen.line for it in found if isinstance(it.chosen, Rule)} & never
        )


def test_of_a_table_of_too_many_lines_none_is_read_after_the_one_that_is_refused() -> (
    None
):
    reading = read(b"letter a 1\n" + b"always aa 1\n" * 100_000)
    assert len(reading.lines) == 20_001
    assert reading.faults[-1].line == 20_001
    # what is defined after that isn't known to be lacking
    late = b"always b 1\n" * 20_001 + b"letter b 1\n"
    assert [fault.line for fault in read(late).faults[-1:]] == [20_001]
