"""The lines of a table of liblouis and of all that it includes."""

from __future__ import annotations

import os
from collections.abc import Iterator, Sequence
from dataclasses import dataclass
from pathlib import Path
from typing import Final

from braildesk.named_files import read_file
from braildesk.text import limits

INSTALLED: Final = Path("/usr/share/liblouis/tables")
"""Where distributions put the tables of liblouis."""

DEEPEST: Final = 20
"""Includes within includes, beyond which no more are read."""

MOST_FILES: Final = 100
"""The files of a table with all that it includes, each as often as it is included; liblouis reads no more."""

MOST_LINES: Final = 1_000_000
"""The lines of a table with all that it includes; the longest of liblouis has 46,000."""

_PREFIXES: Final = {
    "noback": 0,
    "nofor": 0,
    "nocross": 0,
    "empmatchbefore": 0,
    "empmatchafter": 0,
    "after": 1,
    "before": 1,
}
"""The words before an opcode, and how many operands each takes."""

_HYPHENATION_HEADS: Final = ("UTF-8", "ISO")
_DISPLAY_ENDINGS: Final = (".dis",)


class NoTable(Exception):
    """A table that is not there or cannot be read: a sentence, and lines that go with it."""

    def __init__(self, sentence: str, *more: str) -> None:
        super().__init__("\n".join([sentence, *more]))
        self.sentence = sentence
        self.more = more


@dataclass(frozen=True)
class TableLine:
    """A line of a table that is neither blank nor a comment."""

    file: str
    number: int
    prefixes: tuple[str, ...]
    opcode: str
    operands: tuple[str, ...]
    text: str

    @property
    def place(self) -> str:
        """Where the line stands."""
        return f"{self.file} {self.number}"

    @property
    def name(self) -> str:
        """The opcode with the prefixes that bind it to what stands around."""
        binding = [word for word in self.prefixes if word in ("before", "after")]
        return " ".join([*binding, self.opcode])

    @property
    def is_for_print(self) -> bool:
        """Whether the line counts where print becomes braille."""
        return "nofor" not in self.prefixes


@dataclass(frozen=True)
class Source:
    """A table with all that it includes, line by line in the order of reading."""

    path: Path
    files: tuple[str, ...]
    lines: tuple[TableLine, ...]
    missing: tuple[str, ...]


def search_path() -> tuple[Path, ...]:
    """The folders in which tables are looked for by name."""
    named = os.environ.get("LOUIS_TABLEPATH", "")
    folders = [Path(part) for part in named.split(",") if part]
    return (*folders, INSTALLED)


def find_table(name: str) -> Path:
    """The file of a table that is named by its path, or by its name among the installed ones."""
    for candidate in (Path(name), *(folder / name for folder in search_path())):
        if candidate.is_file():
            return candidate
    folders = ", ".join(str(folder) for folder in search_path())
    raise NoTable(
        f"There is no table {name}, neither as a file nor in {folders}. "
        "`scribe bring --list` shows the installed ones."
    )


def read_source(path: Path) -> Source:
    """Reads a table and all that it includes."""
    reading = _Reading([], [], [])
    reading.take(path, ())
    return Source(
        path, tuple(reading.files), tuple(reading.lines), tuple(reading.missing)
    )


@dataclass
class _Reading:
    files: list[str]
    lines: list[TableLine]
    missing: list[str]

    def take(self, path: Path, above: tuple[Path, ...]) -> None:
        """Reads a file, and at each include the file that it names."""
        if path in above:
            raise NoTable(f"The table {path.name} includes itself.")
        if len(above) > DEEPEST:
            raise NoTable(
                f"The table {path.name} stands more than {DEEPEST} includes deep, and is not read."
            )
        self.files.append(path.name)
        if len(self.files) > MOST_FILES:
            raise NoTable(
                f"With all that it includes the table is more than {MOST_FILES} files, the last of"
                f" them {path.name}. liblouis reads no more."
            )
        for line in _lines_of(path):
            if len(self.lines) >= MOST_LINES:
                raise NoTable(
                    f"With all that it includes the table has more than {MOST_LINES:,} lines."
                )
            if line.opcode != "include":
                self.lines.append(line)
            elif line.operands and line.is_for_print:
                self.include(line.operands[0], path, above)

    def include(self, name: str, path: Path, above: tuple[Path, ...]) -> None:
        candidates = (folder / name for folder in (path.parent, *search_path()))
        found = next((each for each in candidates if each.exists()), None)
        if found is not None and not found.is_file():
            # liblouis would wait for a pipe
            raise NoTable(f"The table includes {name}, which is no file.")
        if name.endswith(_DISPLAY_ENDINGS):
            return
        if found is None:
            self.missing.append(name)
        else:
            self.take(found, (*above, path))


def _lines_of(path: Path) -> Iterator[TableLine]:
    for number, text in enumerate(read_text(path).split("\n"), 1):
        fields = text.split()
        if number == 1 and fields and fields[0].startswith(_HYPHENATION_HEADS):
            yield TableLine(path.name, 1, (), "hyphenation", (), text)
            return
        if fields and fields[0][0] not in "#<":
            yield from _line_of(path.name, number, fields, text)


def _line_of(
    file: str, number: int, fields: Sequence[str], text: str
) -> Iterator[TableLine]:
    prefixes: list[str] = []
    rest = list(fields)
    while rest and rest[0] in _PREFIXES:
        prefixes.append(rest[0])
        rest = rest[1 + _PREFIXES[rest[0]] :]
    if rest:
        yield TableLine(
            file, number, tuple(prefixes), rest[0], tuple(rest[1:]), text.strip()
        )


def read_text(path: Path) -> str:
    """The text of a file of a table, in whichever of three encodings."""
    try:
        raw = read_file(path, limits.TEXT_BYTES)
    except OSError as error:
        raise NoTable(f"The table {path} cannot be read: {error.strerror}.") from error
    if raw.startswith((b"\xfe\xff", b"\xff\xfe")):
        return raw.decode("utf-16", "replace")
    try:
        return raw.decode("utf-8-sig")
    except UnicodeDecodeError:
        return raw.decode("latin-1")
