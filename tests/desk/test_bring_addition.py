"""Lines of the user's own after a table that was brought over."""

from pathlib import Path

import pytest

from braildesk.tables.convert.addition import BadAddition
from braildesk.tables.convert.conversion import Options, convert
from tool import scribe

TABLE = """\
space \\s 0
lowercase a 1
lowercase x 1346
lowercase q 12345
lowercase z 1356
"""


def test_added_lines_come_after_the_table_and_are_named(tmp_path: Path) -> None:
    (tmp_path / "table.utb").write_text(TABLE)
    (tmp_path / "own").write_text("punctuation - 36\nalways a- 1-5-36\n")
    brought = convert(tmp_path / "table.utb", Options(each=1, add=tmp_path / "own"))
    assert brought.text.splitlines()[-3:] == [
        "# Added from own.",
        "punctuation - 36",
        "always a- 1-5-36",
    ]
    assert "# The last lines are those of own" in brought.text
    assert not any("U+002D" in sentence for sentence in brought.losses)
    without = convert(tmp_path / "table.utb", Options(each=1))
    assert any("U+002D" in sentence for sentence in without.losses)


@pytest.mark.parametrize(
    ("line", "why"),
    [
        ("letter a 1", "line 2: an earlier line of the table has this already"),
        ("always b 12", "line 2: "),
        ("hyphen - 36", "is no opcode of braildesk"),
    ],
)
def test_lines_that_do_not_fit_the_table_are_refused_with_their_number(
    line: str, why: str, tmp_path: Path
) -> None:
    (tmp_path / "table.utb").write_text(TABLE)
    (tmp_path / "own").write_text(f"punctuation - 36\n{line}\n")
    with pytest.raises(BadAddition) as found:
        convert(tmp_path / "table.utb", Options(each=1, add=tmp_path / "own"))
    assert any(why in sentence for sentence in found.value.more)


def test_a_rule_that_an_earlier_line_leaves_without_use_is_named(
    tmp_path: Path,
) -> None:
    (tmp_path / "table.utb").write_text(TABLE + "always ax 5\n")
    (tmp_path / "own").write_text("always ax 1-1346\n")
    brought = convert(tmp_path / "table.utb", Options(each=1, add=tmp_path / "own"))
    assert any(sentence.startswith("Line 1 of own: ") for sentence in brought.losses)


def test_the_command_adds_lines_and_says_what_is_wrong_with_them(
    tmp_path: Path,
) -> None:
    (tmp_path / "table.utb").write_text(TABLE)
    own = tmp_path / "own"
    own.write_text("punctuation - 36\n")
    words = ["bring", str(tmp_path / "table.utb"), str(tmp_path / "made.utb")]
    ran = scribe(*words, "--anyway", "--add", str(own), folder=tmp_path)
    assert ran.status == 0
    assert "punctuation - 36\n# The sum of" in (tmp_path / "made.utb").read_text()
    own.write_text("punctuation - 36\nletter a 1\n")
    ran = scribe(*words, "--anyway", "--add", str(own), folder=tmp_path)
    assert ran.status == 2
    assert "don't fit the table" in ran.said
    assert "line 2: " in ran.said
