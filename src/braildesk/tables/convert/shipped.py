"""The tables that the installed liblouis has, by language, with what was measured of them."""

from __future__ import annotations

import csv
import re
from collections.abc import Iterator, Mapping
from dataclasses import dataclass
from importlib.resources import files
from pathlib import Path
from typing import Final

from braildesk.named_files import read_file
from braildesk.tables.convert.source import INSTALLED
from braildesk.text import limits

MEASURED: Final = Path(str(files("braildesk.tables.convert") / "measured.tsv"))
"""What `tests/tables/bring_all.sh` found, a row a table."""

_ENDINGS: Final = (".tbl", ".utb", ".ctb")
_INCLUDE: Final = re.compile(r"^include\s+(\S+\.[uc]tb)", re.MULTILINE)
_NAME: Final = re.compile("[a-z-]+")


@dataclass(frozen=True)
class Shipped:
    """A table with what its head says of it."""

    path: Path
    language: str
    title: str
    contraction: str
    """`no`, `full`, `partial`, or empty if the head doesn't say."""
    index: str
    """What an index calls it, the language first, as `German, uncontracted`."""

    @property
    def name(self) -> str:
        return self.path.name


@dataclass(frozen=True)
class Measured:
    """The shares of lines that agreed when a table was brought over."""

    asked: float
    unseen: float
    """The share of all lines of shapes that were not used for the making."""
    others: float
    """The share on unseen lines, those aside that need what the profile leaves out for good."""
    differs: str
    real: float | None = None
    """The share of lines of running text, for languages of which there is some."""


def head_of(path: Path) -> dict[str, str]:
    """The entries at the head of a table, as `language` or `display-name`."""
    found: dict[str, str] = {}
    for line in _text_of(path).splitlines():
        if entry := _entry_of(line):
            found.setdefault(*entry)
        elif line.strip() and not line.startswith("#"):
            break
    return found


def _text_of(path: Path) -> str:
    """The text of a table, or nothing if it can't be read."""
    try:
        return read_file(path, limits.TEXT_BYTES).decode(errors="replace")
    except OSError:
        return ""


def _entry_of(line: str) -> tuple[str, str] | None:
    """The name and the value of an entry, as of `#-language: de`."""
    name, colon, value = line[2:].partition(":")
    if line[:2] in ("#-", "#+") and colon and _NAME.fullmatch(name):
        return name, value.strip()
    return None


def shipped_table(path: Path) -> Shipped:
    """A table with its head, or with that of a table which does little more than include it."""
    return _with_head(path, _heads_of_included(path.parent))


def _with_head(path: Path, included: Mapping[str, Mapping[str, str]]) -> Shipped:
    head: Mapping[str, str] = head_of(path)
    if "language" not in head:
        head = included.get(path.name, head)
    language = head.get("language") or re.split(r"[-_.]", path.name)[0].lower()
    title = head.get("display-name") or head.get("index-name") or ""
    index = head.get("index-name", "")
    return Shipped(path, language, title, head.get("contraction", ""), index)


def _heads_of_included(folder: Path) -> dict[str, dict[str, str]]:
    """By the first table that each table with the ending .tbl includes, the head of the latter."""
    heads = {}
    for path in sorted(folder.glob("*.tbl")):
        if included := _INCLUDE.search(_text_of(path)):
            heads[included[1]] = head_of(path)
    return heads


def shipped_tables(folder: Path = INSTALLED) -> list[Shipped]:
    """All tables of a folder that stand for themselves, by language and name."""
    included = _heads_of_included(folder)
    found = [
        _with_head(path, included)
        for path in sorted(folder.iterdir() if folder.is_dir() else ())
        if path.suffix in _ENDINGS
    ]
    return sorted(found, key=lambda one: (one.language, one.name))


def measured_tables(path: Path = MEASURED) -> Mapping[str, Measured]:
    """What was measured, by the names of the tables."""
    return dict(_rows(path)) if path.is_file() else {}


def _rows(path: Path) -> Iterator[tuple[str, Measured]]:
    with path.open(encoding="utf-8", newline="") as file:
        for row in csv.DictReader(file, delimiter="\t"):
            asked, unseen, others = (
                float(row[key]) for key in ("asked", "unseen", "others")
            )
            real = float(row["real"]) if row["real"] else None
            yield row["table"], Measured(asked, unseen, others, row["differs"], real)
