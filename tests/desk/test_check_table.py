"""scribe check-table: faults and warnings of a table in words, with their lines."""

import subprocess
import sys
from itertools import permutations, product
from pathlib import Path

import pytest

from braildesk.tables import TableText, pieces, read, warnings
from tool import Ran, environment, scribe

REFUSED = "braildesk refuses the table. Warnings come once it is accepted."
ACCEPTED = "braildesk accepts the table."
WIDE = "400"


def check(folder: Path, text: str | bytes, *words: str) -> Ran:
    """Checks a table."""
    data = text.encode() if isinstance(text, str) else text
    (folder / "own.utb").write_bytes(data)
    return scribe("check-table", "own.utb", *words, folder=folder)


#: For each cause a text, and what is shown of it.
FAULTS: dict[int, tuple[str | bytes, str]] = {
    1: (
        "# mine\nlettre a 1\n",
        "Line 2: “lettre” is no opcode of braildesk. Did you mean letter? It reads “lettre a"
        " 1”.",
    ),
    2: (
        "space \\s 0\nuplow Aa\n",
        "Line 2: An operand is missing. The line is written as: uplow CHARACTERS DOTS or uplow"
        " CHARACTERS DOTS,DOTS. It reads “uplow Aa”.",
    ),
    3: (
        "letter \\q 1\n",
        "Line 1: There is no escape “\\q”: a backslash is written as “\\\\”. It reads “letter"
        " \\q 1”.",
    ),
    4: (
        "letter a 1\nalways a 1-29\n",
        "Line 2: “29” is no cell: a cell is 0, or some of the digits 1 to 8. It reads “always a"
        " 1-29”.",
    ),
    5: (
        "letter a 1\nletter b 12\nuplow Aa 1\n",
        "Line 3: “a” (U+0061 LATIN SMALL LETTER A) is defined by line 1 already. Take one of"
        " the two out. It reads “uplow Aa 1”.",
    ),
    6: (
        "numsign 3456\nnumsign 3456\n",
        "Line 2: numsign is given by line 1 already. Take one of the two out. It reads “numsign"
        " 3456”.",
    ),
    7: (
        "letter t 2345\nalways the 2346\n",
        "Line 2: No line of the table defines “h” (U+0068 LATIN SMALL LETTER H), “e” (U+0065"
        " LATIN SMALL LETTER E). It reads “always the 2346”.",
    ),
    8: (
        "letter a 1\nalways " + "a" * 61 + " 1\n",
        f"Line 2: The operand has 61 characters, and may have 60. It reads “always {'a' * 61}"
        " 1”.",
    ),
    9: (
        b"letter a 1\nletter \xe9 1\n",
        "Line 2: After its first 7 characters the line isn't UTF-8. Save the table as UTF-8. It"
        " reads “letter � 1”.",
    ),
}


@pytest.mark.parametrize(
    "line, where",
    [
        (b"\xe9 1", "From its first character on"),
        (b"l\xe9 1", "After its first character"),
        (b"le\xe9 1", "After its first 2 characters"),
    ],
)
def test_a_line_is_said_to_be_utf_8_as_far_as_it_is(line: bytes, where: str) -> None:
    (fault,) = read(line).faults
    assert fault.sentence.startswith(f"{where} the line isn't UTF-8.")


@pytest.mark.parametrize("cause", FAULTS)
def test_each_cause_is_shown_in_words_with_its_line(cause: int, tmp_path: Path) -> None:
    text, sentence = FAULTS[cause]
    ran = check(tmp_path, text, "--width", WIDE)
    assert ran == Ran(2, f"{sentence}\nown.utb: 1 fault. {REFUSED}\n", "")


def test_all_faults_are_shown_in_the_order_of_their_lines(tmp_path: Path) -> None:
    text = "always zx 1\nletter ab 9\ninclude en.ctb\ndigit 5 15\n"
    shown = check(tmp_path, text, "--width", WIDE).shown.splitlines()
    assert shown == [
        "Line 1: No line of the table defines “z” (U+007A LATIN SMALL LETTER Z), “x” (U+0078"
        " LATIN SMALL LETTER X). It reads “always zx 1”.",
        "Line 2: letter takes one character, and “ab” has 2. It reads “letter ab 9”.",
        "Line 2: “9” is no cell: a cell is 0, or some of the digits 1 to 8. It reads “letter ab"
        " 9”.",
        "Line 3: “include” is no opcode of braildesk. It reads “include en.ctb”.",
        f"own.utb: 4 faults. {REFUSED}",
    ]


LETTERS = "space \\s 0\ndigit 5 15\nletter a 1\nletter n 1345\nletter d 145\n"
#: For each warning a text, and what is shown of it.
WARNINGS: dict[str, tuple[str, str]] = {
    "the same characters and place": (
        LETTERS + "word and 12346\nword and 1\n",
        "Line 7, a warning: This rule is never chosen. Line 6 has the same characters, fits"
        " wherever this one does, and of two such rules the earlier line is chosen. It reads"
        " “word and 1”. Line 6 reads “word and 12346”.",
    ),
    "the same characters after an always": (
        LETTERS + "always and 12346 contraction\nbegword and 1\n",
        "Line 7, a warning: This rule is never chosen. Line 6 has the same characters, fits"
        " wherever this one does, and of two such rules the earlier line is chosen. It reads"
        " “begword and 1”. Line 6 reads “always and 12346”.",
    ),
    "the same characters after rules for all places": (
        "space \\s 0\nletter a 1\nword a 1\nbegword a 2\nmidword a 3\nendword a 4\nalways a 5\n",
        "Line 7, a warning: This rule is never chosen. Lines 3, 4, 5 and 6 have the same"
        " characters, one of them fits wherever this one does, and of such rules the earlier"
        " line is chosen. It reads “always a 5”. Line 3 reads “word a 1”.",
    ),
    "a digit inside": (
        LETTERS + "numsign 3456\nalways a5 1-2\n",
        "Line 7, a warning: This rule is never chosen: inside it always stands numsign, and no"
        " rule covers a sign. It reads “always a5 1-2”. Line 6 reads “numsign 3456”.",
    ),
    "a letter after a digit inside": (
        LETTERS + "nocontractsign 56\nnumericnocontchars ad\nalways 5an 1-2\n",
        "Line 8, a warning: This rule is never chosen: inside it always stands nocontractsign,"
        " and no rule covers a sign. It reads “always 5an 1-2”. Line 6 reads “nocontractsign"
        " 56”.",
    ),
    "no letters": (
        "space \\s 0\npunctuation - 36\nendword - 1\n",
        "Line 3, a warning: This rule is never chosen: endword needs a letter beside it, and"
        " the table defines no character as letter. It reads “endword - 1”.",
    ),
    "a capital as a letter": (
        LETTERS + "letter A 1\ncapsletter 6\n",
        "Line 6, a warning: “A” (U+0041 LATIN CAPITAL LETTER A) is a capital but defined by"
        " letter, so capsletter never stands before it. A capital and its small letter are"
        " defined by one line uplow. It reads “letter A 1”. Line 7 reads “capsletter 6”.",
    ),
    "a pair the wrong way round": (
        "uplow aA 1\n",
        "Line 1, a warning: uplow takes the capital first: by this line “A” (U+0041 LATIN"
        " CAPITAL LETTER A) is the small letter of its pair. It reads “uplow aA 1”.",
    ),
    "a cell with dot 7": (
        "uplow Aa 17,1\n",
        "Line 1, a warning: A cell has dot 7 or 8. Pages for an embosser can't have these, and"
        " a volume with such a cell isn't exported. It reads “uplow Aa 17,1”.",
    ),
    "a sign with dot 8": (
        "letter a 1\ncapsletter 6-8\n",
        "Line 2, a warning: A cell has dot 7 or 8. Pages for an embosser can't have these, and"
        " a volume with such a cell isn't exported. It reads “capsletter 6-8”.",
    ),
}


@pytest.mark.parametrize("name", WARNINGS)
def test_each_warning_is_shown_with_its_line(name: str, tmp_path: Path) -> None:
    text, sentence = WARNINGS[name]
    ran = check(tmp_path, text, "--width", WIDE)
    summary = f"own.utb: no faults, 1 warning. {ACCEPTED}"
    assert ran == Ran(0, f"{sentence}\n{summary}\n", "")


#: Tables that are as they are meant, though they come near to what is warned of.
USUAL: dict[str, str] = {
    "an always after the rules that are bound to a place": LETTERS
    + "word and 1\nbegword and 2\nalways and 12346\n",
    "an always after the rules for all places but those beside digits": LETTERS
    + "word a 1\nbegword a 2\nmidword a 3\nendword a 4\nalways a 5\n",
    "digits that follow digits": LETTERS + "numsign 3456\nalways 55 1-2\n",
    "a digit that may follow a number": LETTERS
    + "punctuation . 256\nnumsign 3456\nnumericmodechars .\nalways .5 1-2\n",
    "a digit inside where there is no sign": LETTERS + "always a5 1-2\n",
    "capitals without a sign of capitals": LETTERS + "letter A 1\n",
    "capitals of pairs": "uplow Aa 1\ncapsletter 6\nbegcapsword 6-6\nalways AA 2\n",
}


@pytest.mark.parametrize("name", USUAL)
def test_nothing_usual_is_warned_of(name: str) -> None:
    table = TableText("own.utb", USUAL[name].encode())
    assert table.reading.faults == ()
    assert warnings(table.reading.table, is_for_embosser=True) == []


#: The lines that define some classes, and a character of each.
CLASSES = {
    "marks alone": ("punctuation - 36\n", "-"),
    "letters": ("punctuation - 36\nletter x 1346\n", "-x"),
    "digits": ("punctuation - 36\ndigit 5 15\n", "-5"),
    "letters and digits": ("punctuation - 36\nletter x 1346\ndigit 5 15\n", "-x5"),
}
KINDS = ("always", "word", "begword", "midword", "endword")


@pytest.mark.parametrize("classes", CLASSES)
def test_those_rules_are_warned_of_that_no_print_chooses(classes: str) -> None:
    definitions, characters = CLASSES[classes]
    first = definitions.count("\n") + 1
    beside = ["", *characters]
    prints = ["".join(each) for each in product(beside, characters, beside)]
    for kinds in permutations(KINDS):
        for character in characters:
            rules = "".join(f"{kind} {character} 2\n" for kind in kinds)
            table = read((definitions + rules).encode()).table
            warned = {each.line for each in warnings(table, is_for_embosser=True)}
            chosen = {
                each.chosen.line for text in prints for each in pieces(table, text)
            }
            assert warned == {*range(first, first + len(KINDS))} - chosen, rules


def test_dots_7_and_8_are_no_matter_on_a_display(tmp_path: Path) -> None:
    ran = check(tmp_path, "letter a 178\n", "--display")
    assert ran == Ran(0, f"own.utb: no faults, no warnings. {ACCEPTED}\n", "")


def test_no_line_is_over_the_width(tmp_path: Path) -> None:
    text = "".join(text for text, _ in WARNINGS.values() if text.startswith("uplow"))
    for given in (text, FAULTS[8][0], FAULTS[7][0]):
        lines = check(tmp_path, given, "--width", "30").shown.splitlines()
        assert len(lines) > 4 and max(map(len, lines)) <= 30


def test_what_cannot_be_seen_is_written_out(tmp_path: Path) -> None:
    shown = check(tmp_path, "letter \x1b[2J 1\n", "--width", WIDE).shown
    assert "It reads “letter <U+001B>[2J 1”." in shown and "\x1b" not in shown


def test_a_difference_is_reported_and_nothing_else_is_shown(
    tmp_path: Path, monkeypatch: pytest.MonkeyPatch
) -> None:
    program = tmp_path / "otherwise"
    program.write_text("#!/bin/sh\ncat > /dev/null\n")
    program.chmod(0o755)
    monkeypatch.setenv("BRAILDESK", str(program))
    ran = check(tmp_path, "letter a 9\n")
    assert (ran.status, ran.shown) == (3, "")
    assert ran.said == (
        "braildesk and scribe differ on the table “own.utb”: braildesk finds nothing wrong in it,"
        " and scribe refuses its line 1 by cause 4. One of the two is wrong, so this is no"
        " answer. Please report it with the table.\n"
    )


def test_a_file_that_is_not_there_is_said(tmp_path: Path) -> None:
    ran = scribe("check-table", "none.utb", folder=tmp_path)
    assert ran == Ran(
        2, "", "There is no file “none.utb”. Check that the path is right.\n"
    )


def test_of_a_book_it_is_said_that_it_is_no_table(moon: Path) -> None:
    ran = scribe("check-table", moon.name, folder=moon.parent)
    said = "moon.braildesk is a book of braildesk, and no table.\n"
    assert ran == Ran(2, "", said)


@pytest.mark.parametrize(
    ("words", "name"),
    [
        ("/dev/stdin < own.utb", "Standard input"),
        ("/dev/fd/0 < own.utb", "Standard input"),
        ("<(cat own.utb)", "What the shell handed over"),
        ("own.utb", "own.utb"),
    ],
)
def test_what_the_shell_hands_over_is_called_so_and_not_by_its_number(
    tmp_path: Path, words: str, name: str
) -> None:
    (tmp_path / "own.utb").write_text("space \\s 0\nletter a 1\n")
    line = f"{sys.executable} -m scribe check-table {words}"
    ran = subprocess.run(
        ["bash", "-c", line],
        cwd=tmp_path,
        env=environment(),
        capture_output=True,
        text=True,
        check=True,
    )
    assert ran.stdout == f"{name}: no faults, no warnings. {ACCEPTED}\n"
