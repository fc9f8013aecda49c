"""Brings all tables of the installed liblouis over, and writes what was found.

    tests/tables/bring_all.py FOLDER [NAME ..]     a row of FOLDER for each table, or for those that are named
    tests/tables/bring_all.py --write FOLDER       measured.md and measured.tsv of src/braildesk/tables/convert
    tests/tables/bring_all.py --renew FOLDER       what both have of the tables that have rows there
    tests/tables/bring_all.py --real               what both have of running text, from real/figures.tsv

A table that has its row already is left out, so that a stopped run goes on. A row is the figures of
one table in JSON. Of tables that have the same lines one is measured, for all of them.
"""

from __future__ import annotations

import csv
import functools
import io
import json
import os
import subprocess
import sys
import textwrap
from collections.abc import Iterable, Mapping, Sequence
from concurrent.futures import ThreadPoolExecutor
from dataclasses import dataclass
from pathlib import Path
from typing import Any, Final

ROOT: Final = Path(__file__).resolve().parents[2]
sys.path[:0] = [str(ROOT / "src"), str(ROOT / "tests/tables/real")]

import document as running  # noqa: E402

from braildesk.tables.convert.conversion import (
    FEWEST,
    LIMIT,
    Options,
    convert,
)  # noqa: E402
from braildesk.tables.convert.comparison import Comparison, what_differs  # noqa: E402
from braildesk.tables.convert.oracle import NoLiblouis  # noqa: E402
from braildesk.tables.convert.report import percent  # noqa: E402
from braildesk.tables.convert.shipped import (
    MEASURED,
    Shipped,
    shipped_tables,
)  # noqa: E402
from braildesk.tables.convert.source import (
    NoTable,
    find_table,
    read_source,
)  # noqa: E402

EACH: Final = int(os.environ.get("EACH", "10"))
"""How many lines of each shape are compared."""

SECONDS: Final = float(os.environ.get("SECONDS_EACH", "1800"))
"""How long one table may take."""

PROCESSES: Final = int(os.environ.get("PROCESSES", "1"))
"""How many tables are brought over at once."""

WIDTH: Final = 100

EUROPE: Final = (
    "ba be bg ca cs cy da de el en eo es et fi fr ga gd grc hr hu hy is it ka kk kmr lt lv mt nl no"
    " pl pt ro ru se sk sl sr sv tr tt uk"
).split()
"""The languages of Europe that liblouis has tables of, with Esperanto and Ancient Greek."""

CONTRACTED: Final = ("en-us-interline.ctb", "en-us-mathtext.ctb")
"""Tables of contracted English that don't say so by their heads or names."""

Row = dict[str, Any]


def main(words: Sequence[str]) -> int:
    """Runs what the words ask for."""
    if words[:1] in (["--write"], ["--renew"]):
        rows = [
            json.loads(path.read_text()) for path in sorted(Path(words[1]).iterdir())
        ]
        (write if words[0] == "--write" else renew)(rows)
        return 0
    if words[:1] == ["--real"]:
        write_real()
        return 0
    if words[:1] == ["--one"]:
        print(json.dumps(measured(words[1])))
        return 0
    folder = Path(words[0])
    folder.mkdir(parents=True, exist_ok=True)
    names = words[1:] or [table.name for table in different_tables()]
    with ThreadPoolExecutor(PROCESSES) as pool:
        list(pool.map(lambda name: keep(folder, name), names))
    return 0


def different_tables() -> list[Shipped]:
    """The tables, without those that have just the lines of an earlier one. Uncontracted ones of Europe first."""
    found = [tables[0] for tables in tables_by_lines()]
    return sorted(found, key=lambda table: not is_european_and_uncontracted(table))


@functools.cache
def tables_by_lines() -> list[list[Shipped]]:
    """All tables, those together that have the same lines."""
    together: dict[tuple[str, ...], list[Shipped]] = {}
    for table in shipped_tables():
        lines = tuple(line.text for line in read_source(table.path).lines)
        together.setdefault(lines, []).append(table)
    return list(together.values())


def is_european_and_uncontracted(table: Shipped) -> bool:
    return table.language in EUROPE and not is_contracted(table)


def is_contracted(table: Shipped) -> bool:
    """Whether a table has contractions: by its head, or by the names of what it includes."""
    if table.contraction:
        return table.contraction != "no"
    names = read_source(table.path).files
    return table.name in CONTRACTED or any("g2" in name for name in names)


def keep(folder: Path, name: str) -> None:
    """Measures a table in a process of its own, and keeps its row."""
    row = folder / f"{name}.json"
    if row.exists():
        return
    command = [sys.executable, __file__, "--one", name]
    try:
        done = subprocess.run(command, capture_output=True, text=True, timeout=SECONDS)
    except subprocess.TimeoutExpired:
        text = json.dumps(failed(name, f"took over {SECONDS:g} seconds"))
    else:
        text = done.stdout
        if done.returncode or not text:
            text = json.dumps(failed(name, done.stderr.strip()[-200:]))
    row.write_text(text)
    print(name, flush=True)


def measured(name: str) -> Row:
    """The figures of a table."""
    try:
        brought = convert(find_table(name), Options(each=EACH))
    except (NoLiblouis, NoTable) as error:
        return failed(name, str(error))
    return {
        "table": name,
        "lines": brought.text.count("\n"),
        "asked": figures(brought.asked),
        "unseen": figures(brought.unseen),
        "differs": what_differs(brought.unseen),
        "words": brought.source_of_words,
    }


def figures(comparison: Comparison) -> dict[str, Any]:
    return {
        "lines": comparison.lines,
        "all": comparison.share_of_all,
        "others": comparison.share,
        "apart": comparison.apart,
    }


def failed(name: str, why: str) -> Row:
    return {"table": name, "failed": why}


def write(rows: Iterable[Row]) -> None:
    """Writes the document and the figures for `scribe bring --list`."""
    found = measured_tables({row["table"]: row for row in rows})
    write_shares(found)
    DOCUMENT.write_text(document(found), encoding="utf-8")


def measured_tables(rows: Mapping[str, Row]) -> list[Found]:
    """The tables that have rows, with those that have the lines of one of them."""
    found = [
        Found(table, rows[tables[0].name])
        for tables in tables_by_lines()
        for table in tables
        if tables[0].name in rows
    ]
    return sorted(found, key=lambda one: (one.table.language, one.table.name))


def write_shares(found: Iterable[Found]) -> None:
    """Writes the figures for `scribe bring --list`."""
    real = on_running_text()
    with MEASURED.open("w", encoding="utf-8", newline="") as file:
        writer = csv.writer(file, delimiter="\t", lineterminator="\n")
        writer.writerow(["table", "asked", "unseen", "others", "differs", "real"])
        for one in found:
            if one.is_compared:
                shares = [f"{share:.5f}" for share in one.shares]
                known = real.get(one.table.name, {}).get("all_lines", "")
                writer.writerow([one.table.name, *shares, one.row["differs"], known])


def renew(rows: Iterable[Row]) -> None:
    """Writes what is known of some tables anew, and leaves the lines of all others."""
    new = measured_tables({row["table"]: row for row in rows})
    by_name = {one.table.name: one for one in new}
    known = known_shares()
    found = [
        by_name.get(one.name) or Found(one, known.get(one.name, {}))
        for one in sorted(shipped_tables(), key=lambda one: (one.language, one.name))
    ]
    write_shares(found)
    before, _, made_up = DOCUMENT.read_text(encoding="utf-8").partition(MADE_UP)
    _, first, lines = made_up.partition(FIRST)
    for one in new:
        start = f"| {one.table.language} | `{one.table.name}`"
        lines = "".join(
            row_of(one) if line.startswith(start) and one.is_compared else line
            for line in lines.splitlines(keepends=True)
        )
    head = paragraphs(HEAD.format(**summary_of(found)))
    DOCUMENT.write_text(before + head + "\n" + first + lines, encoding="utf-8")


def known_shares() -> dict[str, Row]:
    """The shares that are written down, as rows."""
    with MEASURED.open(encoding="utf-8", newline="") as file:
        return {
            row["table"]: {
                "asked": {"all": float(row["asked"])},
                "unseen": {
                    "lines": 1,
                    "all": float(row["unseen"]),
                    "others": float(row["others"]),
                },
                "differs": row["differs"],
            }
            for row in csv.DictReader(file, delimiter="\t")
        }


def write_real() -> None:
    """Writes what is known of running text anew, and leaves what is known of made-up lines."""
    real = on_running_text()
    with MEASURED.open(encoding="utf-8", newline="") as file:
        rows = list(csv.DictReader(file, delimiter="\t"))
    with MEASURED.open("w", encoding="utf-8", newline="") as file:
        names = ["table", "asked", "unseen", "others", "differs", "real"]
        writer = csv.DictWriter(file, names, delimiter="\t", lineterminator="\n")
        writer.writeheader()
        for row in rows:
            known = real.get(row["table"], {}).get("all_lines", "")
            writer.writerow(row | {"real": known})
    written = DOCUMENT.read_text(encoding="utf-8")
    before, _, rest = written.partition(REAL)
    _, _, after = rest.partition(MADE_UP)
    tables = sorted(shipped_tables(), key=lambda one: (one.language, one.name))
    part = part_on_running_text(tables) + "\n"
    DOCUMENT.write_text(before + part + MADE_UP + after, encoding="utf-8")


def on_running_text() -> dict[str, running.Row]:
    """The figures on running text by the names of the tables, of those with the same lines for each."""
    known = running.rows()
    return {
        table.name: {**known[tables[0].name], "table": table.name}
        for tables in tables_by_lines()
        for table in tables
        if tables[0].name in known
    }


def part_on_running_text(tables: Sequence[Shipped]) -> str:
    """The part of the document on running text."""
    real = on_running_text()
    europe = [
        real[one.name]
        for one in tables
        if one.name in real and is_european_and_uncontracted(one)
    ]
    text = paragraphs(running.head(europe, list(real.values())))
    for title, is_wanted in (
        ("Uncontracted tables", True),
        ("Tables with contractions", False),
    ):
        text += f"\n### {title}\n\n{running.COLUMNS}"
        text += "".join(
            running.line_of(real[one.name], one.title)
            for one in tables
            if one.name in real and is_european_and_uncontracted(one) is is_wanted
        )
        text += running.below(europe) if is_wanted else ""
    return text


@dataclass(frozen=True)
class Found:
    """A table with the row that was measured for it."""

    table: Shipped
    row: Row

    @property
    def is_compared(self) -> bool:
        return bool(self.row.get("unseen", {}).get("lines"))

    @property
    def shares(self) -> tuple[float, float, float]:
        """The shares of asked lines, of all unseen ones, and of the others of these."""
        unseen = self.row["unseen"]
        return self.row["asked"]["all"], unseen["all"], unseen["others"]


def document(found: Sequence[Found]) -> str:
    """measured.md of src/braildesk/tables/convert."""
    compared = [one for one in found if one.is_compared]
    europe = [one for one in compared if is_european_and_uncontracted(one.table)]
    rest = [one for one in compared if one not in europe]
    contracted = [one for one in rest if is_contracted(one.table)]
    text = io.StringIO()
    text.write(paragraphs(FRONT))
    text.write("\n" + part_on_running_text([one.table for one in found]) + "\n")
    text.write(paragraphs(HEAD.format(**summary_of(found))))
    for title, part in (
        ("Uncontracted tables of Europe", europe),
        ("Other uncontracted tables", [one for one in rest if one not in contracted]),
        ("Contracted tables", contracted),
    ):
        text.write(f"\n### {title}\n\n")
        text.write(
            "| language | table | asked | unseen | others | apart | what differs |\n"
        )
        text.write("|---|---|---|---|---|---|---|\n")
        text.writelines(row_of(one) for one in part)
    without = [one for one in found if not one.is_compared]
    if without:
        text.write(TAIL)
        for one in without:
            why = one.row.get("failed", NO_LINES)
            text.write(f"- `{one.table.name}`: {why}\n")
    return text.getvalue()


def row_of(one: Found) -> str:
    """The line of a table."""
    apart = one.row["unseen"]["apart"]
    title = f" {one.table.title}" if one.table.title else ""
    cells = [
        one.table.language,
        f"`{one.table.name}`{title}",
        *(percent(share) for share in one.shares),
        ", ".join(f"{name} {count}" for name, count in apart.items()),
        one.row["differs"],
    ]
    return "| " + " | ".join(cells) + " |\n"


def paragraphs(text: str) -> str:
    """The text with its paragraphs wrapped, lists and headings as they are."""
    wrapped = [
        part if part.startswith(("#", "- ")) else textwrap.fill(part, WIDTH)
        for part in text.split("\n\n")
    ]
    return "\n\n".join(wrapped).rstrip("\n") + "\n"


def summary_of(found: Sequence[Found]) -> dict[str, object]:
    """What is counted of all tables."""
    compared = [one for one in found if one.is_compared]
    europe = [one for one in compared if is_european_and_uncontracted(one.table)]
    return summary(found, compared, europe)


def summary(
    found: Sequence[Found], compared: Sequence[Found], europe: Sequence[Found]
) -> dict[str, object]:
    def count(place: int, limit: float, among: Sequence[Found] = compared) -> int:
        return sum(one.shares[place] >= limit for one in among)

    below = [one for one in europe if one.shares[2] < 0.995]
    return {
        "shipped": sum(map(len, tables_by_lines())),
        "different": len(tables_by_lines()),
        "found": len(found),
        "compared": len(compared),
        "each": EACH,
        "asked": count(0, 0.999),
        "unseen_999": count(1, 0.999),
        "unseen_99": count(1, 0.99),
        "unseen_90": count(1, 0.9),
        "others": count(2, 0.995),
        "europe": len(europe),
        "europe_all": count(1, 0.995, europe),
        "europe_others": count(2, 0.995, europe),
        "below": ", ".join(
            f"`{one.table.name}` ({percent(one.shares[2])})" for one in below
        )
        or "none",
        "written": sum(
            one.shares[2] >= LIMIT and one.shares[1] >= FEWEST for one in compared
        ),
    }


DOCUMENT: Final = ROOT / "src/braildesk/tables/convert/measured.md"

REAL: Final = "## On running text\n"
MADE_UP: Final = "## On lines that were made up\n"
"""The headings of the two parts of the document."""

FIRST: Final = "### Uncontracted tables of Europe\n"
"""The heading of the first tables of made-up lines."""

FRONT: Final = """\
# Tables of liblouis, brought over

`scribe bring TABLE FILE` makes one text that braildesk can read from a table of liblouis, with all
that it includes, and compares the program's cells with those of liblouis. This was done with the tables
of liblouis 3.24.0, on running text and on lines that were made up. `tests/tables/bring_real.sh` and
`tests/tables/bring_all.sh` wrote this file. `scribe bring --list` shows the shares of *all lines* of
running text, as *real lines*, and then *unseen* and *others* of made-up ones.
"""

HEAD: Final = """\
## On lines that were made up

For most tables there is no running text here. Each table is compared on lines that are made of its own
letters, words and marks.

- **asked**: the share of lines that agree, of the shapes that `scribe bring` asks liblouis about to
  make the table: words, capitals and numbers, each with one mark.
- **unseen**: the same for shapes that it hasn't asked about: sentences, quotations, dates, hours,
  sums, addresses, initials, lists, and passages of capitals, {each} lines of each shape at most.
- **others**: the same without the lines that differ and need what a table of braildesk can't have,
  which **apart** counts.

A line needs passages of capitals, capitals that end or go on within a word, several passes or
computer braille if liblouis gives it other cells without the lines of these opcodes. Four more things
need no opcode of their own in liblouis: a number that begins with a mark, a mark after a number that
depends on what follows, a sign of letters at a lone capital, and quotation marks that pair. A line
needs such a thing if liblouis shows that it does it, and the two agree on the line once it is taken
out.

`scribe bring` writes a table if the share of the others is at least 99%, and that of all unseen lines
at least 50%.

The words are made up from the table's own letters and the letters of its rules, since no word list
was installed. So these are no words that a contracted table meets in a book: with `--words FILE` it
is compared on words of its language.

liblouis has {shipped} tables, of which {different} differ in their lines; a table with the lines of an
earlier one has its figures here. Of {found} that were measured {compared} could be compared: {asked}
agree on at least 99.9% of the asked lines; {unseen_999} agree on at least 99.9% of all unseen lines,
{unseen_99} on at least 99%, and {unseen_90} on at least 90%; {others} agree on at least 99.5% of the
others, and {written} are written without `--anyway`.

Of the {europe} uncontracted tables of Europe {europe_all} agree on at least 99.5% of all unseen lines,
and {europe_others} on at least 99.5% of the others. Below that: {below}.
"""

TAIL: Final = """
### Not compared

"""

NO_LINES: Final = "it has no letters, or lacks blanks or the marks of sentences"

if __name__ == "__main__":
    sys.exit(main(sys.argv[1:]))
