"""Compares src/braildesk/tables/ueb.utb with liblouis's en-ueb-g1 on English of this machine.

Each difference has to have a cause that docs/tables.md explains by an example, and the
shares of lines with the same cells have to be as large as they are known to be.
"""

import argparse
import collections
import dataclasses
import pathlib
import sys

import louis  # type: ignore[import]

import causes
import cells
import claims
import english
import rows
from program import Program
from regions import Region, Translation, differing

ROOT = pathlib.Path(__file__).resolve().parents[3]
sys.path.insert(0, str(ROOT / "src"))

from braildesk import tables as profile  # noqa: E402

UEB = ROOT / "src/braildesk/tables/ueb.utb"
TABLES = ["unicode.dis", "en-ueb-g1.ctb"]

# The characters that alone have other cells, as docs/tables.md says.
OTHERWISE_ALONE = frozenset('"?·’ﬀﬁ')

# The least share of the lines with the same cells: of those that need nothing that the
# profile leaves out, and of all. A machine with fewer lines has no share to speak of.
LEAST_SHARE = 0.975
LEAST_OF_ALL = 0.93
FEWEST_LINES = 5_000


@dataclasses.dataclass(frozen=True)
class Pair:
    """The cells of a line by both."""

    line: str
    ours: str
    theirs: Translation

    @property
    def is_same(self) -> bool:
        """Whether both have the same cells."""
        return self.ours == self.theirs.cells


class Table:
    """A table, taken to pieces, and the program that translates by it."""

    def __init__(self, program: Program) -> None:
        self.program = program
        self._table = profile.read(program.table.read_bytes()).table

    def pairs(self, lines: list[str]) -> list[Pair]:
        """The cells of the lines that both can translate."""
        found = []
        for line, ours in zip(lines, self.program.translate(lines)):
            theirs = by_liblouis(line)
            if theirs and not ours.startswith("no "):
                found.append(Pair(line, ours, theirs))
        return found

    def differing(self, pair: Pair) -> list[Region]:
        """Where the cells of a line differ."""
        pieces = profile.pieces(self._table, pair.line)
        if profile.braille(pieces) != pair.ours:
            raise AssertionError(f"the pieces of {pair.line} have other cells")
        starts, place, cell = {0: 0}, 0, 0
        for piece in pieces:
            place += len(piece.text)
            cell += len(piece.cells)
            starts[place] = cell
        return differing(pair.line, Translation(pair.ours, starts), pair.theirs)


def by_liblouis(line: str) -> Translation | None:
    """Liblouis's cells, or nothing where it lacks a character."""
    written, places, _, _ = louis.translate(TABLES, line)
    if not all(map(cells.is_six_dot, written)):
        return None
    starts = {len(line): len(written)}
    for cell, place in enumerate(places):
        starts.setdefault(place, cell)
    return Translation(written, starts)


@dataclasses.dataclass
class Counts:
    """The differences of some lines by their causes, and those that have none."""

    by_cause: collections.Counter[str]
    lines_by_cause: collections.Counter[str]
    examples: dict[str, list[Pair]]
    unclaimed: list[Region]
    #: How many lines differ only where the table follows the Rules and liblouis doesn't.
    by_the_rules: int = 0


def counted(table: Table, pairs: list[Pair]) -> Counts:
    """What makes the cells of lines differ."""
    counts = Counts(
        collections.Counter(),
        collections.Counter(),
        collections.defaultdict(list),
        [],
    )
    for pair in pairs:
        if pair.is_same:
            continue
        regions = table.differing(pair)
        found = [causes.causes_of(region) for region in regions]
        counts.unclaimed += [at for at, of_it in zip(regions, found) if not of_it]
        names = [cause.name for of_it in found for cause in of_it]
        counts.by_cause.update(names)
        counts.lines_by_cause.update(set(names))
        for name in set(names):
            counts.examples[name].append(pair)
        if all(of_it and {*of_it} <= {*causes.CHOICES} for of_it in found):
            counts.by_the_rules += 1
    return counts


def share(pairs: list[Pair]) -> float:
    """The share of the lines with the same cells."""
    return sum(pair.is_same for pair in pairs) / len(pairs) if pairs else 0.0


def show_shares(pairs: list[Pair]) -> None:
    """Prints the share of all lines, and by what they need."""
    groups = [("lines that both can translate", pairs)]
    for need in english.Need:
        group = [pair for pair in pairs if english.need_of(pair.line) is need]
        groups.append((need.value, group))
    for name, group in groups:
        print(f"  {100 * share(group):6.2f} % of {len(group):6,} {name}")


def show_counts(counts: Counts, pairs: list[Pair], examples: int) -> None:
    """Prints how often each cause makes cells differ, with examples."""
    good = sum(pair.is_same for pair in pairs) + counts.by_the_rules
    print(
        f"  {100 * good / len(pairs) if pairs else 0:6.2f} % of these lines have the same cells,"
        " or others only where the table follows the Rules"
    )
    for name, count in counts.by_cause.most_common():
        print(f"  {count:6,} in {counts.lines_by_cause[name]:5,} lines: {name}")
        for pair in counts.examples[name][:examples]:
            print(f"        {pair.line}")
            print(f"        here     {cells.to_ascii(pair.ours)}")
            print(f"        liblouis {cells.to_ascii(pair.theirs.cells)}")
    print(f"  {len(counts.unclaimed):6,} without a cause")


def wrong_shares(pairs: list[Pair]) -> list[str]:
    """The shares that are less than they are known to be."""
    others = [
        pair for pair in pairs if english.need_of(pair.line) is english.Need.NOTHING
    ]
    if len(others) < FEWEST_LINES:
        print(
            f"  This machine has documents of {len(others):,} such lines, and"
            f" {FEWEST_LINES:,} are needed for a share."
        )
        return []
    return [
        f"the cells are the same on {100 * share(group):.2f} % of {name}, and should be"
        f" on {100 * least:.1f} %"
        for name, group, least in (
            ("all lines", pairs, LEAST_OF_ALL),
            (english.Need.NOTHING.value, others, LEAST_SHARE),
        )
        if share(group) < least
    ]


def shown(region: Region) -> str:
    """A difference in a line."""
    print_ = f"{region.before[-30:]}[{region.print}]{region.after[:30]}"
    ours, theirs = map(cells.to_ascii, (region.ours, region.theirs))
    return f"no cause claims {print_}: {ours} here, {theirs} by liblouis"


def wrong_characters(program: Program) -> list[str]:
    """The characters that alone have other cells, where they should not, or should."""
    asked = list(claims.characters())
    wrong = []
    for character, ours in zip(asked, program.translate(asked)):
        theirs = by_liblouis(character)
        if theirs and (ours != theirs.cells) != (character in OTHERWISE_ALONE):
            wrong.append(
                f"U+{ord(character):04X}: {ours} here, {theirs.cells} by liblouis"
            )
    return wrong


def examples_of_the_document() -> list[rows.Row]:
    """The examples of docs/tables.md that have liblouis's cells too."""
    told = rows.of_document(ROOT / "docs/tables.md", "The table `ueb.utb`")
    return [row for row in told if row.by_liblouis]


def wrong_examples() -> list[str]:
    """The examples of docs/tables.md that liblouis answers otherwise."""
    return [
        f"{row.place}: {row.print}: liblouis gives {found}"
        for row in examples_of_the_document()
        if (found := louis.translateString(TABLES, row.print)) != row.by_liblouis
    ]


def wrong_causes(table: Table) -> list[str]:
    """The examples that no cause claims, the causes without an example, and cells that are
    changed and claimed all the same."""
    pairs = table.pairs([row.print for row in examples_of_the_document()])
    counts = counted(table, pairs)
    wrong = [shown(region) for region in counts.unclaimed]
    wrong += [
        f"docs/tables.md has no example of the cause: {cause.name}"
        for cause in causes.CAUSES
        if cause.name not in counts.by_cause
    ]
    for pair in pairs:
        for region in table.differing(pair):
            changed = dataclasses.replace(region, ours=region.ours + WRONG)
            if causes.causes_of(changed):
                wrong.append(f"a cause claims a wrong cell: {shown(changed)}")
    return wrong


# a cell that no cause sets aside
WRONG = cells.of_dots("12456")


def main() -> int:
    """Compares, and says how much is the same and what isn't."""
    parser = argparse.ArgumentParser(description=__doc__)
    parser.add_argument("program", type=lambda it: pathlib.Path(it).resolve())
    parser.add_argument("--lines", type=int)
    parser.add_argument("--examples", type=int, default=0, metavar="N")
    parser.add_argument("--table", type=pathlib.Path, default=UEB)
    given = parser.parse_args()
    lines, documents = english.running_lines(given.lines)
    table = Table(Program(given.program, given.table))
    pairs = table.pairs(lines)
    print(
        f"{len(lines):,} lines of running English of {documents:,} documents; the same cells:"
    )
    show_shares(pairs)
    counts = counted(table, pairs)
    print("What differs:")
    show_counts(counts, pairs, given.examples)
    if given.table != UEB:
        return 0
    wrong = [
        *map(shown, counts.unclaimed),
        *wrong_shares(pairs),
        *wrong_causes(table),
        *wrong_examples(),
        *wrong_characters(table.program),
    ]
    for it in wrong:
        print(f"tests/tables/ueb_liblouis.sh: {it}", file=sys.stderr)
    return 1 if wrong else 0


if __name__ == "__main__":
    sys.exit(main())
