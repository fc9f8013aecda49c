"""Looks at src/braildesk/tables/ueb.utb by the built program.

Its characters and its pairs of letters are asked for, rows of print are compared with
their cells, and a book that is typed with it is exported.
"""

import argparse
import pathlib
import sys
import tempfile

import cells
import claims
import rows
from program import Program, ProgramFailed

ROOT = pathlib.Path(__file__).resolve().parents[3]
ROWS = pathlib.Path(__file__).with_name("rows")

# the sign of a capital
CAPITAL = cells.of_dots("6")


def the_table_defines_what_it_claims(program: Program) -> list[str]:
    """Each character that is claimed has cells, and no other has any.

    None is defined twice, since the program refuses a table that does that.
    """
    claimed = set(claims.characters())
    asked = claims.asked()
    wrong = []
    for character, answer in zip(asked, program.translate(asked)):
        if (character in claimed) == answer.startswith("no "):
            what = "is claimed and" if character in claimed else "isn't claimed and"
            wrong.append(f"U+{ord(character):04X} {what} is answered by {answer}")
    return wrong


def a_capital_is_its_small_letter_with_the_sign(program: Program) -> list[str]:
    """A capital has the sign of a capital, and its small letter's cells."""
    pairs = claims.pairs()
    capitals = program.translate([capital for capital, _ in pairs])
    smalls = program.translate([small for _, small in pairs])
    return [
        f"{capital}{small}: {of_capital} and {of_small}"
        for (capital, small), of_capital, of_small in zip(pairs, capitals, smalls)
        if capital not in claims.TWO_CAPITALS and of_capital != CAPITAL + of_small
    ]


def rows_have_their_cells(program: Program) -> list[str]:
    """Each row of tests/tables/ueb/rows has the cells that were written by hand."""
    return wrong_rows(program, rows.of_file(ROWS))


def every_character_stands_in_a_row(_: Program) -> list[str]:
    """Each character that is claimed has cells that were written by hand.

    A capital's are those of its small letter, as another check sees.
    """
    written = "".join(row.print for row in rows.of_file(ROWS))
    smalls = {
        capital: small
        for capital, small in claims.pairs()
        if capital not in claims.TWO_CAPITALS
    }
    return [
        f"U+{ord(it):04X} stands in no row"
        for it in claims.characters()
        if it not in written and smalls.get(it, it) not in written
    ]


def examples_of_the_document_have_their_cells(program: Program) -> list[str]:
    """Each example of docs/tables.md for this table has the cells that it shows."""
    wanted = rows.of_document(ROOT / "docs/tables.md", "The table `ueb.utb`")
    return wrong_rows(program, wanted) if wanted else ["there are no examples"]


def a_book_with_every_character_goes_to_an_embosser(program: Program) -> list[str]:
    """A book with each character and each row has pages: no cell has dot 7 or 8."""
    table = program.table.read_text(encoding="utf-8")
    prints = [
        *claims.CLAIMED.values(),
        *(row.print for row in rows.of_file(ROWS)),
    ]
    requests = f"table ueb {table.count(chr(10))}\n{table}" + "".join(
        f"type end ueb {it}\n" for it in prints
    )
    with tempfile.TemporaryDirectory() as folder:
        book = f"{folder}/book"
        program.run(["new", book])
        replies = program.run(["session", book], requests).split("\n")[:-1]
        wrong = [
            f"{reply} is the reply to request {at}"
            for at, reply in enumerate(replies, 1)
            if reply[:3] != "ok "
        ]
        if len(replies) != len(prints) + 1:
            wrong.append(f"{len(prints) + 1} requests have {len(replies)} replies")
        pages = program.run(["export", book, "1"])
    return wrong if "VITAMIN ,A" in pages else [*wrong, "its pages lack a row"]


def wrong_rows(program: Program, wanted: list[rows.Row]) -> list[str]:
    """The rows that have other cells."""
    found = program.translate([row.print for row in wanted])
    return [
        f"{row.place}: {row.print}\n"
        f"    wanted {cells.to_ascii(row.cells)}\n"
        f"    found  {cells.to_ascii(answer)}"
        for row, answer in zip(wanted, found)
        if answer != row.cells
    ]


CHECKS = (
    the_table_defines_what_it_claims,
    a_capital_is_its_small_letter_with_the_sign,
    rows_have_their_cells,
    every_character_stands_in_a_row,
    examples_of_the_document_have_their_cells,
    a_book_with_every_character_goes_to_an_embosser,
)


def main() -> int:
    """Runs each check, and says what is wrong."""
    parser = argparse.ArgumentParser(description=__doc__)
    parser.add_argument("program", type=lambda it: pathlib.Path(it).resolve())
    program = Program(
        parser.parse_args().program, ROOT / "src/braildesk/tables/ueb.utb"
    )
    status = 0
    for check in CHECKS:
        name = check.__name__.replace("_", " ")
        try:
            wrong = check(program)
        except ProgramFailed as failure:
            wrong = [str(failure)]
        for it in wrong:
            print(f"tests/tables/ueb.sh: {name}: {it}", file=sys.stderr)
        if wrong:
            status = 1
        else:
            print(f"ok  {name}")
    return status


if __name__ == "__main__":
    sys.exit(main())
