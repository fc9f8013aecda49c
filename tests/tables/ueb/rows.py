"""Rows of print and its cells, in tests/tables/ueb/rows and in docs/tables.md."""

import dataclasses
import pathlib
import re

import cells


# a character in the print of a row, by its number
ESCAPE = re.compile(r"\\x([0-9A-F]{4})")


class NoRow(Exception):
    """A line that should be a row is none."""


@dataclasses.dataclass(frozen=True)
class Row:
    """Print with its cells, those of liblouis where they are given, and its place."""

    place: str
    print: str
    cells: str
    by_liblouis: str | None = None


def of_file(path: pathlib.Path) -> list[Row]:
    """The rows of a file, in Braille ASCII."""
    rows = []
    for at, line in enumerate(path.read_text(encoding="utf-8").split("\n"), 1):
        if not line or line.startswith("# "):
            continue
        print_, arrow, written = line.partition(" => ")
        if not arrow:
            raise NoRow(f"{path.name}:{at} has no ' => '.")
        shown = ESCAPE.sub(lambda it: chr(int(it[1], 16)), print_)
        rows.append(Row(f"{path.name}:{at}", shown, cells.from_ascii(written)))
    return rows


def of_document(path: pathlib.Path, heading: str) -> list[Row]:
    """The examples of a part of a document, whose heading is given."""
    lines = path.read_text(encoding="utf-8").split("\n")
    first = lines.index(f"## {heading}")
    rows = []
    for at, line in enumerate(lines[first + 1 :], first + 2):
        if line.startswith("## "):
            break
        if line.startswith("| ") and (example := of_line(f"{path.name}:{at}", line)):
            rows.append(example)
    return rows


def of_line(place: str, line: str) -> Row | None:
    """The example in a row of a table: what it shows, print, cells, and others."""
    _, *columns = line.strip("| ").split(" | ")
    spans = [it.strip("`") for it in columns if it.startswith("`") and it.endswith("`")]
    return Row(place, *spans) if len(spans) > 1 else None
