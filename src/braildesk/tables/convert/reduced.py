"""Tables of liblouis without the opcodes that the profile leaves out for good.

A line needs such an opcode if liblouis gives it other cells without the opcode's lines.
"""

from __future__ import annotations

from collections.abc import Iterator, Mapping, Sequence
from pathlib import Path
from typing import Final

from braildesk.tables.convert.oracle import Liblouis, NoLiblouis
from braildesk.tables.convert.source import Source
from braildesk.workshop import write_tried

LEFT_OUT: Final[Mapping[str, tuple[str, ...]]] = {
    "passages of capitals": ("begcapsphrase", "endcapsphrase", "lencapsphrase"),
    "capitals that end or go on within a word": ("endcapsword", "capsmodechars"),
    "several passes": ("correct", "context", "pass2", "pass3", "pass4"),
    "computer braille": ("compbrl", "literal", "begcomp", "endcomp", "comp6"),
}
"""What the profile leaves out for good, by the opcodes that do it in liblouis."""


def needs(
    source: Source, lines: Sequence[str], liblouis: Liblouis, folder: Path
) -> dict[str, str]:
    """Of these lines, those that need what the profile leaves out, each with what it needs first."""
    if not lines:
        return {}
    found: dict[str, str] = {}
    theirs = liblouis.ask(lines)
    whole = _beside(liblouis, source, (), folder, "whole")
    if whole is None:
        return {}
    same = {
        line
        for line, cells, again in zip(lines, theirs, whole.ask(lines), strict=True)
        if cells is not None and cells == again
    }
    for place, (name, opcodes) in enumerate(_present(source)):
        less = _beside(liblouis, source, opcodes, folder, f"less{place}")
        if less is not None:
            for line, cells, other in zip(lines, theirs, less.ask(lines), strict=True):
                if line in same and other != cells:
                    found.setdefault(line, name)
    return found


def _present(source: Source) -> Iterator[tuple[str, tuple[str, ...]]]:
    opcodes = {line.opcode for line in source.lines if line.is_for_print}
    for name, group in LEFT_OUT.items():
        if opcodes.intersection(group):
            yield name, group


def _beside(
    liblouis: Liblouis,
    source: Source,
    without: tuple[str, ...],
    folder: Path,
    name: str,
) -> Liblouis | None:
    """The table in one file without these opcodes, or None if liblouis refuses that."""
    path = write_tried(folder, name, text_without(source, without))
    try:
        return liblouis.beside(path)
    except NoLiblouis:
        return None


def text_without(source: Source, opcodes: tuple[str, ...]) -> str:
    """The lines of a table with all that it includes, without those of some opcodes."""
    return "".join(
        f"include {line.file}\n" if line.opcode == "hyphenation" else f"{line.text}\n"
        for line in source.lines
        if line.opcode not in opcodes
    )
