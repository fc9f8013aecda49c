"""Tables that are put into a book: from a file, from those that are installed, or supplied."""

import re
from collections.abc import Sequence
from dataclasses import dataclass
from itertools import takewhile
from pathlib import Path

from braildesk.desk import Problem
from braildesk.named_files import read_file
from braildesk.protocol import requests
from braildesk.text import limits


SUPPLIED = "en"
EVERYDAY = "ueb"


class NoSuchTable(Problem):
    """No table of this name is installed in a folder; those that are there, and the supplied one."""

    def __init__(self, name: str, folder: Path, names: Sequence[str]) -> None:
        super().__init__(name, folder, names)
        self.name = name
        self.folder = folder
        self.names = names


class UnreadableTable(Problem):
    """The file of a table can't be read."""

    def __init__(self, path: Path, cause: OSError) -> None:
        super().__init__(path, cause)
        self.path = path
        self.cause = cause


def table_request(name: str, path: Path | None) -> requests.Table | requests.Supply:
    """The request that puts a table into a book: the text of a file, or an installed table.

    Without a file `en` is the supplied table. Raises `NoSuchTable` and `UnreadableTable`.
    """
    if path is None and name == SUPPLIED:
        return requests.Supply(name)
    found = path or table_file(name)
    if found is None:
        raise NoSuchTable(name, FOLDER, [SUPPLIED, *table_names()])
    try:
        return requests.Table(name, read_file(found, limits.TABLE_BYTES))
    except OSError as cause:
        raise UnreadableTable(found, cause) from cause


def first_table() -> requests.Table | requests.Supply:
    """The request for the table that a new book has."""
    name = EVERYDAY if table_file(EVERYDAY) else SUPPLIED
    return table_request(name, None)


#: Beside what reads tables, which takes long to import and isn't needed for their names.
FOLDER = Path(__file__).parents[1] / "tables"
_NAME = re.compile("[a-z0-9_-]{1,32}")


def table_file(name: str, folder: Path = FOLDER) -> Path | None:
    """The file of an installed table, if there is one of this name."""
    if not _NAME.fullmatch(name):
        return None
    path = folder / f"{name}.utb"
    return path if path.is_file() else None


def table_names(folder: Path = FOLDER) -> list[str]:
    """The names of the installed tables."""
    return sorted(path.stem for path in folder.glob("*.utb"))


@dataclass(frozen=True)
class Made:
    """How a table was made from one of liblouis: by the name of that, and for a manuscript or not."""

    name: str
    is_for_manuscript: bool


def made_from(text: bytes) -> Made | None:
    """How a table was made, by the comments at the top of its text, if it was made from one of liblouis."""
    lines = takewhile(_is_comment, text.decode(errors="replace").split("\n"))
    head = " ".join(part for line in lines for part in line[1:].split())
    found = _MADE.search(head)
    return Made(found[1], _FOR_MANUSCRIPT in head) if found else None


def _is_comment(line: str) -> bool:
    return line.startswith("#")


_MADE = re.compile(
    r"(\S+) of liblouis \S+, brought over to the profile of braildesk by scribe bring\."
)
_FOR_MANUSCRIPT = "learned from the manuscript"
