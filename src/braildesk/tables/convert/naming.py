"""A table by what people call it: a file, an installed name, its title, or the language that it is for."""

from __future__ import annotations

from collections.abc import Sequence
from difflib import get_close_matches
from pathlib import Path
from typing import Final

from braildesk.named_files import open_file
from braildesk.tables.convert.shipped import Shipped, shipped_tables
from braildesk.tables.convert.source import NoTable, find_table, search_path

NEAR: Final = 5
"""How many near names are shown."""

_ALIKE: Final = 0.7
"""How alike two names have to be, from 0 to 1."""


def named_table(name: str) -> Path:
    """The table of a name.

    This is a path, or of an installed table its name with or without the ending, its title, or the
    language if there is one table of it.
    """
    if not name:
        raise NoTable("The name of the table is empty.")
    try:
        return find_table(name)
    except NoTable:
        found = _called(name, _installed())
    if len(found) == 1:
        return found[0].path
    if found:
        sentence = f"{len(found)} tables are called {name}. Name one of these:"
        raise NoTable(sentence, *map(_line, found))
    raise _none(name)


def is_named_by_file(name: str, table: Path) -> bool:
    """Whether the name of a table is a path, or that of its file with or without the ending."""
    its = Path(name).name.casefold()
    return its in (table.name.casefold(), table.stem.casefold())


def of_language(word: str, tables: Sequence[Shipped]) -> list[Shipped]:
    """The tables of a language, by its code or its English name."""
    folded = word.casefold()
    codes = {
        table.language
        for table in tables
        if folded in (table.language.casefold(), _language_name(table).casefold())
    }
    return [table for table in tables if table.language in codes]


def _installed() -> list[Shipped]:
    folders = dict.fromkeys(search_path())
    return [table for folder in folders for table in shipped_tables(folder)]


def _called(name: str, tables: Sequence[Shipped]) -> list[Shipped]:
    """The tables of a name, and those of a language if no table has that name."""
    folded = name.casefold()
    by_name = [table for table in tables if folded in _names(table)]
    return by_name or of_language(name, tables)


def _names(table: Shipped) -> tuple[str, ...]:
    names = [table.name, table.path.stem, table.title]
    # an index may call one of several tables by the language alone
    if table.index != _language_name(table):
        names.append(table.index)
    return tuple(one.casefold() for one in names if one)


def _language_name(table: Shipped) -> str:
    """The name of the language, with which the entry of a table in an index begins."""
    return table.index.split(",")[0]


def _none(name: str) -> NoTable:
    folders = ", ".join(str(folder) for folder in search_path())
    none = f"There is no table {name}, neither as a file nor in {folders}."
    sentence = _no_file(name) or none
    near = _near(name, _installed())
    if near:
        sentence += " Tables with a name like it:"
    listed = "`scribe bring --list` shows all that are installed."
    return NoTable(sentence, *map(_line, near), listed)


def _no_file(name: str) -> str:
    """What stands at a path in place of a file, as a folder or a pipe; nothing if nothing does."""
    try:
        open_file(name).close()
    except (FileNotFoundError, NotADirectoryError):
        return ""
    except OSError as error:
        return f"The table {name} cannot be read: {error.strerror}."
    return ""


def _near(name: str, tables: Sequence[Shipped]) -> list[Shipped]:
    by_name: dict[str, list[Shipped]] = {}
    for table in tables:
        for one in _names(table):
            by_name.setdefault(one, []).append(table)
    for language in {_language_name(table) for table in tables} - {""}:
        by_name.setdefault(language.casefold(), of_language(language, tables))
    close = get_close_matches(name.casefold(), by_name, NEAR, _ALIKE)
    return list({one.path: one for word in close for one in by_name[word]}.values())


def _line(table: Shipped) -> str:
    return f"  {table.name:<24} {table.title}".rstrip()
