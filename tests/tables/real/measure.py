"""How the cells of a table that was brought over compare with those of liblouis on running text.

A line counts if liblouis has cells for all its characters. A plain line has words, numbers and marks of a
book alone: no option, no path, no digit beside a letter, and no capital within a word. Words are counted by
the cells: those of liblouis that stand in the same order among the program's.
"""

import dataclasses
import difflib
import re
import sys
from collections import Counter
from collections.abc import Iterable, Sequence
from pathlib import Path

import louis  # type: ignore[import]

sys.path.insert(0, str(Path(__file__).resolve().parents[3] / "src"))

from braildesk.program import translate  # noqa: E402
from braildesk.refusals import Refused  # noqa: E402

_MODE = louis.dotsIO | louis.ucBrl
_MARKS = ".,;:?!\u2026()[]\"'\u2018\u2019\u201a\u201c\u201d\u201e\u00ab\u00bb\u2039\u203a\u2013\u2014-\u00bf\u00a1"
_JOINT = re.compile("['\u2019\u2010\u2013/-]")
_NUMBER = re.compile(r"\d+(?:[.,:]\d+)*")

BLANK = "\u2800"

NOBODYS = "\uf8ff"
"""A character that no table defines."""


@dataclasses.dataclass
class Count:
    """Lines or words, and how many of them have the same cells."""

    of_all: int = 0
    same: int = 0

    def add(self, of_all: int, same: int) -> None:
        self.of_all += of_all
        self.same += same

    @property
    def share(self) -> float:
        return self.same / self.of_all if self.of_all else 0.0


@dataclasses.dataclass
class Measure:
    """What was counted on some lines of running text."""

    lines: Count = dataclasses.field(default_factory=Count)
    words: Count = dataclasses.field(default_factory=Count)
    plain: Count = dataclasses.field(default_factory=Count)
    #: How many lines have characters for which liblouis's table has no cells, and these characters.
    without_cells: int = 0
    lacking: Counter[str] = dataclasses.field(default_factory=Counter)
    #: How many lines the made table refuses, though liblouis's has cells for them.
    refused: int = 0
    #: A word that differs in each line that does, with both braille texts, and whether the line is plain.
    examples: list[tuple[str, str, str, bool]] = dataclasses.field(default_factory=list)


def is_plain(line: str) -> bool:
    """Whether a line has words, numbers and marks of a book alone."""
    return all(map(_is_plain_word, line.split()))


def _is_plain_word(word: str) -> bool:
    bare = word.strip(_MARKS)
    if not bare or _NUMBER.fullmatch(bare):
        return True
    return all(
        part.isalpha() and (part[1:] == part[1:].lower() or part == part.upper())
        for part in _JOINT.split(bare)
    )


def measure(table: str, made: Path, lines: Sequence[str]) -> Measure:
    """Compares the program's cells by a made table with those of a table of liblouis."""
    found = Measure()
    for line, ours in zip(lines, translate(made, lines), strict=True):
        is_refused = isinstance(ours, Refused)
        if is_refused or _has_numbers_of_characters(table, line):
            lacking = [one for one in sorted(set(line)) if is_without_cells(table, one)]
            found.lacking.update(lacking)
            if lacking:
                found.without_cells += 1
                continue
        found.refused += is_refused
        _compare(found, line, _cells(table, line), "" if is_refused else str(ours))
    return found


def _compare(found: Measure, line: str, theirs: str, ours: str) -> None:
    want, have = (
        [word for word in cells.split(BLANK) if word] for cells in (theirs, ours)
    )
    same = theirs == ours
    found.lines.add(1, same)
    if is_plain(line):
        found.plain.add(1, same)
    matching = difflib.SequenceMatcher(None, want, have, False).get_matching_blocks()
    found.words.add(len(want), sum(block.size for block in matching))
    if not same and ours:
        found.examples.append((*_example(line, theirs, ours), is_plain(line)))


def _example(line: str, theirs: str, ours: str) -> tuple[str, str, str]:
    """The first word that differs, or where the words don't correspond, the line, with both cells."""
    words, want, have = line.split(" "), theirs.split(BLANK), ours.split(BLANK)
    if len(words) == len(want) == len(have):
        for word, one, other in zip(words, want, have):
            if one != other:
                return word, one, other
    return line, theirs, ours


def _cells(table: str, line: str, mode: int = _MODE) -> str:
    return "".join(
        chr(0x2800 + (ord(cell) & 255))
        for cell in louis.translateString([table], line, mode=mode)
    )


def _has_numbers_of_characters(table: str, line: str) -> bool:
    """Whether liblouis writes the number of a character in a line, for want of its cells."""
    return _cells(table, line) != _cells(table, line, _MODE | louis.noUndefined)


def is_without_cells(table: str, one: str) -> bool:
    """Whether liblouis has no cells for a character but its number, or those that stand for any other one."""
    return _has_numbers_of_characters(table, one) or (
        _cells(table, one) == _cells(table, NOBODYS)
    )


def in_first_plane(lines: Iterable[str]) -> list[str]:
    """The lines as liblouis for Python takes them: no character beyond the first plane."""
    return [line for line in lines if all(ord(one) <= 0xFFFF for one in line)]
