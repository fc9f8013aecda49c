"""Lines that need what no rule can do, in small tables of liblouis that do it."""

from collections.abc import Sequence
from pathlib import Path

import pytest

from braildesk.tables.convert.beyond import needs_beyond
from braildesk.tables.convert.draft import ProgramTrial
from braildesk.tables.convert.making import make
from braildesk.tables.convert.oracle import Liblouis
from braildesk.tables.convert.source import read_source
from braildesk.tables.convert.subject import read_subject

CHARACTERS = """\
space \\s 0
lowercase a 1
lowercase x 1346
lowercase q 12345
lowercase z 1356
base uppercase A a
base uppercase X x
base uppercase Q q
base uppercase Z z
capsletter 6
digit 1 16
digit 2 126
digit 3 146
litdigit 1 1
litdigit 2 12
litdigit 3 14
numsign 3456
punctuation ( 236
punctuation ) 356
"""
PAIRING = """\
punctuation ' 3
punctuation \\x2018 236
punctuation \\x2019 356
noback correct "\\x2018" *#1=1
noback correct #1=0"\\x2019" "'"
"""
BETWEEN = """\
punctuation . 6-256
sign \\x2832 256
noback correct $d["."]$d "\\x2832"
"""
CASES = {
    "numbers that begin with a mark": (
        "numericmodechars (\n",
        ["qq (12", "a (1 q (23"],
        ["qq 12", "(a", "12 (a"],
    ),
    "marks after a number, by what follows": (
        BETWEEN,
        ["qq 123.", "a 321."],
        ["qq 12.31", "q 1.2 x", "qq 12.", "a."],
    ),
    "signs of letters at a lone capital": (
        "word x 56-1346\n",
        ["qq X", "X (a"],
        ["Xa", "qq x"],
    ),
    "quotation marks that pair": (
        PAIRING,
        ["\u2018a qq\u2019 z"],
        ["\u2018a", "qq\u2019 z"],
    ),
}
"""What no rule can do: the lines of a table that do it, lines that need it, and others."""


def needs(folder: Path, text: str, lines: Sequence[str]) -> dict[str, str]:
    table = folder / "table.utb"
    table.write_text(CHARACTERS + text)
    with Liblouis(table) as liblouis:
        subject = read_subject(read_source(table), liblouis)
        trial = ProgramTrial(folder)
        draft = make(subject, trial).draft
        theirs = liblouis.ask(lines)
        ours = trial.cells(draft, lines)
        different = [
            line
            for line, want, have in zip(lines, theirs, ours, strict=True)
            if want != have
        ]
        return needs_beyond(subject, draft, trial, different)


@pytest.mark.parametrize("name", CASES)
def test_a_line_needs_what_no_rule_can_do(name: str, tmp_path: Path) -> None:
    text, needing, others = CASES[name]
    found = needs(tmp_path, text, [*needing, *others])
    assert found == {line: name for line in needing}


def test_a_line_that_differs_for_another_reason_needs_nothing(tmp_path: Path) -> None:
    table = tmp_path / "table.utb"
    table.write_text(CHARACTERS + "numericmodechars (\n")
    with Liblouis(table) as liblouis:
        subject = read_subject(read_source(table), liblouis)
        trial = ProgramTrial(tmp_path)
        draft = make(subject, trial).draft
        draft.cells["z"] = (1,)
        found = needs_beyond(subject, draft, trial, ["zz (12", "qq (12"])
    assert found == {"qq (12": "numbers that begin with a mark"}
