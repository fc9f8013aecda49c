"""How a table of liblouis is read: its operands, its lines with what it includes, and what they say."""

from pathlib import Path

import pytest

from braildesk.tables.convert.operands import (
    read_dots,
    shown,
    without_virtual_dots,
    write_characters,
    write_dots,
)
from braildesk.tables.convert.source import NoTable, find_table, read_source
from braildesk.tables.convert.subject import make_alphabet, script_of_table
from braildesk.tables.convert.table import read_table
from braildesk.tables.operands import BadOperand, characters

CHARACTERS = {
    "abc": "abc",
    "a\\sb": "a b",
    "\\\\": "\\",
    "\\x00e9": "é",
    "\\y1f600": "😀",
    "\\z0001f600x": "😀x",
    "\\t\\n\\f\\r\\v\\e": "\t\n\f\r\v\x1b",
}
DOTS = {"1": (1,), "0": (0,), "12345678": (255,), "145-0-8": (25, 0, 128), "21": (3,)}


@pytest.mark.parametrize("operand", CHARACTERS)
def test_escapes_stand_for_their_characters(operand: str) -> None:
    assert characters(operand) == CHARACTERS[operand]


@pytest.mark.parametrize(
    "operand", ["\\q", "\\x12", "a\\", "\\\\\\", "\\xd800", "\\z00110000"]
)
def test_an_escape_that_names_no_character_is_refused(operand: str) -> None:
    with pytest.raises(BadOperand):
        characters(operand)


def test_characters_are_written_so_that_they_are_read_back() -> None:
    assert write_characters("# a\\\u00a0\u200b😀") == "\\x0023\\sa\\\\\\x00a0\\x200b😀"
    assert write_characters("a#") == "a#"


@pytest.mark.parametrize("operand", DOTS)
def test_dots_operands_are_cells(operand: str) -> None:
    assert read_dots(operand) == DOTS[operand]


@pytest.mark.parametrize("operand", ["", "9", "1-", "-1", "x", "1a", "="])
def test_what_is_no_dots_of_a_page_is_refused(operand: str) -> None:
    with pytest.raises(BadOperand):
        read_dots(operand)


def test_cells_are_written_as_dots_and_as_characters() -> None:
    assert write_dots((25, 0, 128)) == "145-0-8"
    assert shown((25, 0, 128)) == "⠙⠀⢀"


def test_virtual_dots_are_taken_away() -> None:
    assert without_virtual_dots("19-a-12f") == "1-0-12"


def test_a_table_is_read_with_all_that_it_includes(tmp_path: Path) -> None:
    (tmp_path / "top.ctb").write_text(
        "# a comment\nletter a 1\ninclude low.uti more\n\nnocross nofor always ab 12\n"
    )
    (tmp_path / "low.uti").write_text("\ufeffspace \\s 0\r\nbefore sp always b 12\r\n")
    source = read_source(tmp_path / "top.ctb")
    assert source.files == ("top.ctb", "low.uti")
    assert [(line.place, line.name, line.operands) for line in source.lines] == [
        ("top.ctb 2", "letter", ("a", "1")),
        ("low.uti 1", "space", ("\\s", "0")),
        ("low.uti 2", "before always", ("b", "12")),
        ("top.ctb 5", "always", ("ab", "12")),
    ]
    assert [line.is_for_print for line in source.lines] == [True, True, True, False]


@pytest.mark.parametrize("encoding", ["utf-8", "latin-1", "utf-16"])
def test_a_table_is_read_in_its_encoding(tmp_path: Path, encoding: str) -> None:
    (tmp_path / "a.utb").write_bytes("letter é 123456\n".encode(encoding))
    (line,) = read_source(tmp_path / "a.utb").lines
    assert line.operands == ("é", "123456")


def test_an_include_that_is_not_there_is_named(tmp_path: Path) -> None:
    (tmp_path / "a.utb").write_text("include none.uti\ninclude show.dis\nletter a 1\n")
    assert read_source(tmp_path / "a.utb").missing == ("none.uti",)


def test_a_table_that_includes_itself_is_refused(tmp_path: Path) -> None:
    (tmp_path / "a.utb").write_text("include b.uti\n")
    (tmp_path / "b.uti").write_text("include a.utb\n")
    with pytest.raises(NoTable, match="includes itself"):
        read_source(tmp_path / "a.utb")


def test_a_table_that_stands_too_deep_is_not_said_to_include_itself(
    tmp_path: Path,
) -> None:
    for number in range(22):
        include = f"include {number + 1}.uti\n"
        (tmp_path / f"{number}.uti").write_text(include)
    with pytest.raises(NoTable) as refused:
        read_source(tmp_path / "0.uti")
    assert refused.value.sentence == (
        "The table 21.uti stands more than 20 includes deep, and is not read."
    )


def test_a_table_that_is_not_there_is_refused_with_where_it_was_looked_for() -> None:
    with pytest.raises(NoTable, match="There is no table none.utb"):
        find_table("none.utb")


TABLE = """\
space \\s 0
lowercase a 1
lowercase b 12
uppercase A 17
base uppercase A a
base uppercase B b
digit 1 16
litdigit 1 1
punctuation . 256
sign + 235
numsign 3456
capsletter 6
midnum . 46
always ab 12-1
prepunc ( 126
always xx\\q 1
correct "a" "b"
after sp always b 1
"""


def test_the_lines_say_characters_signs_and_rules(tmp_path: Path) -> None:
    (tmp_path / "a.utb").write_text(TABLE)
    table = read_table(read_source(tmp_path / "a.utb"))
    assert table.classes["A"] == {"uppercase"}
    assert table.classes["1"] == {"digit", "litdigit"}
    assert table.dots == {
        " ": "0",
        "a": "1",
        "b": "12",
        "A": "17",
        "1": "1",
        ".": "256",
        "+": "235",
    }
    assert table.lower == {"A": "a", "B": "b"}
    assert table.signs == {"numsign": "3456", "capsletter": "6"}
    assert [rule.characters for rule in table.rules] == ["ab", "("]
    assert [line.number for line in table.asked] == [13]
    assert [line.number for line in table.left] == [16, 17, 18]


@pytest.mark.parametrize(
    "line, kind, dots",
    [
        ("hyphen - 36", "punctuation", "36"),
        ("noback always Æ 345", "letter", "345"),
        ("math - 3-6", "punctuation", "3-6"),
        ("sign - 3-6\nhyphen - 36", "punctuation", "3-6"),
        ("hyphen - 36\nsign - 3-6", "punctuation", "3-6"),
    ],
)
def test_a_character_that_only_a_rule_writes_is_one_of_the_table(
    line: str, kind: str, dots: str, tmp_path: Path
) -> None:
    (tmp_path / "a.utb").write_text(f"lowercase a 1\n{line}\n", encoding="utf-8")
    table = read_table(read_source(tmp_path / "a.utb"))
    character = "Æ" if "Æ" in line else "-"
    assert make_alphabet(table, "a.utb").kinds[character] == kind
    assert table.dots[character] == dots


def test_both_characters_of_a_group_are_read(tmp_path: Path) -> None:
    (tmp_path / "a.utb").write_text("lowercase a 1\ngrouping row <> 126,345\n")
    table = read_table(read_source(tmp_path / "a.utb"))
    assert (table.dots["<"], table.dots[">"]) == ("126", "345")
    kinds = make_alphabet(table, "a.utb").kinds
    assert kinds["<"] == kinds[">"] == "punctuation"
    assert table.left == ()


def test_definitions_that_cannot_be_read_are_among_the_lines_that_are_left(
    tmp_path: Path,
) -> None:
    lines = ("grouping row <", "base uppercase A", "attribute", "letter ab 1", "math x")
    (tmp_path / "a.utb").write_text("".join(f"{line}\n" for line in lines))
    left = read_table(read_source(tmp_path / "a.utb")).left
    assert [line.number for line in left] == [1, 2, 3, 4, 5]


def test_characters_have_the_classes_of_the_profile(tmp_path: Path) -> None:
    (tmp_path / "a.utb").write_text(TABLE)
    alphabet = make_alphabet(read_table(read_source(tmp_path / "a.utb")), "a.utb")
    assert alphabet.kinds == {
        " ": "space",
        "a": "letter",
        "b": "letter",
        "A": "letter",
        "B": "letter",
        "1": "digit",
        ".": "punctuation",
        "+": "punctuation",
    }
    assert alphabet.lower == {"A": "a", "B": "b"}
    assert alphabet.carriers("+") == ("a", "b")


def test_letters_that_a_table_calls_signs_are_letters_where_it_has_no_others(
    tmp_path: Path,
) -> None:
    text = "sign \\s 0\nsign a 1\nsign A 17\nsign 1 2\nsign . 256\n"
    (tmp_path / "a.utb").write_text(text)
    alphabet = make_alphabet(read_table(read_source(tmp_path / "a.utb")), "a.utb")
    assert alphabet.kinds == {
        " ": "space",
        "a": "letter",
        "A": "letter",
        "1": "punctuation",
        ".": "punctuation",
    }


@pytest.mark.parametrize(
    ("name", "script"),
    [
        ("de-g0.utb", "LATIN"),
        ("ru-litbrl.ctb", "CYRILLIC"),
        ("el.ctb", "GREEK"),
        ("ka-in-g1.utb", "KANNADA"),
        ("ka.utb", "GEORGIAN"),
    ],
)
def test_a_table_is_for_the_script_of_its_language(name: str, script: str) -> None:
    assert script_of_table(name) == script
