"""Characters that stand in the place of others while a manuscript is imported.

A person writes them into a file, whose lines are ``CHARACTERS<tab>CHARACTERS``. They are kept for the
book, and stand for its next manuscripts too.
"""

import re
from collections.abc import Iterable, Sequence
from dataclasses import dataclass, replace
from pathlib import Path
from typing import TYPE_CHECKING

from braildesk.desk.import_note import Pairs, is_pair
from braildesk.desk.intake import NotImported
from braildesk.desk.manuscript import TextLine, Passage, UnreadableText, text_lines
from braildesk.named_files import read_file
from braildesk.protocol.value import Value
from braildesk.text import limits
from braildesk.text.sequences import composed, sequences

if TYPE_CHECKING:
    from braildesk.desk.documents.reading import Part

#: How many pairs a file may have.
MOST_PAIRS = 1_000


class BadReplacements(NotImported):
    """A file has no such lines: the number of the first that is none, if there is one."""

    def __init__(self, path: Path, line: int | None, cause: Exception | None) -> None:
        super().__init__(path, line, cause)
        self.path = path
        self.line = line
        self.cause = cause


@dataclass(frozen=True, eq=False, repr=False)
class Replaced(Value):
    """Characters, those that stand in their place, and how often they were replaced."""

    old: str
    new: str
    count: int


class Replacer:
    """Puts characters in the place of others, and counts how often.

    If two could stand at a place the longer is taken. What was put there isn't replaced again.
    """

    def __init__(self, pairs: Pairs) -> None:
        self._by = dict(pairs)
        self._counts = dict.fromkeys(self._by, 0)
        longest_first = sorted(self._by, key=len, reverse=True)
        self._sought = re.compile("|".join(map(re.escape, longest_first)))

    @property
    def counts(self) -> tuple[Replaced, ...]:
        """How often each was replaced so far."""
        pairs = self._by.items()
        return tuple(Replaced(old, new, self._counts[old]) for old, new in pairs)

    def parts(self, parts: Iterable["Part"]) -> "tuple[Part, ...]":
        """Parts with the new characters, without those of which nothing is left."""
        if not self._by:
            return tuple(parts)
        # imported here, since a text needs none of it
        from braildesk.desk.documents.reading import plain

        made = [
            replace(part, text=composed(plain(self._replaced(part.text))))
            for part in parts
        ]
        return tuple(part for part in made if part.text)

    def passages(self, passages: Iterable[Passage]) -> tuple[Passage, ...]:
        """The same of the passages of a text, whose lines know their columns still."""
        if not self._by:
            return tuple(passages)
        made = [
            replace(passage, lines=tuple(filter(None, map(self._line, passage.lines))))
            for passage in passages
        ]
        return tuple(passage for passage in made if passage.lines)

    def _replaced(self, text: str) -> str:
        return self._sought.sub(self._new, composed(text))

    def _line(self, line: TextLine) -> TextLine | None:
        """A line with the new characters, none if nothing is left of it."""
        pieces: list[str] = []
        columns: list[int] = []
        place, (its, places) = 0, _in_print(line.text)
        for found in self._sought.finditer(its):
            pieces += (its[place : found.start()], self._new(found))
            columns += places[place : found.start()]
            columns += [places[found.start()]] * len(pieces[-1])
            place = found.end()
        if not place:
            return line
        pieces.append(its[place:])
        columns += places[place:]
        text = "".join(pieces)
        front = len(text) - len(text.lstrip(" "))
        shown = text.strip(" ")
        if not shown:
            return None
        return line._replace(text=shown, columns=tuple(columns[front:]))

    def _new(self, found: re.Match[str]) -> str:
        self._counts[found[0]] += 1
        return self._by[found[0]]


def _in_print(text: str) -> tuple[str, Sequence[int]]:
    """A text as a book has it, and where each of its characters, and its end, is in the text."""
    made = composed(text)
    if made == text:
        return text, range(len(text) + 1)
    places: list[int] = []
    place = 0
    for each in sequences(text):
        # what a sequence has that is shorter then begins where that does
        places += [
            min(place + n, place + len(each) - 1) for n in range(len(composed(each)))
        ]
        place += len(each)
    return made, [*places, place]


def read_replacements(path: Path) -> Pairs:
    """The pairs that a file has; raises `BadReplacements`. Blank lines are passed over."""
    try:
        lines = list(text_lines(read_file(path, limits.TEXT_BYTES)))
    except (OSError, UnreadableText) as cause:
        raise BadReplacements(path, None, cause) from cause
    pairs: dict[str, str] = {}
    for number, line in enumerate(lines, start=1):
        if not line:
            continue
        old, tab, new = line.partition("\t")
        old, new = composed(old), composed(new)
        if not tab or not is_pair(old, new) or pairs.get(old, new) != new:
            raise BadReplacements(path, number, None)
        pairs[old] = new
        if len(pairs) > MOST_PAIRS:
            raise BadReplacements(path, number, None)
    return tuple(pairs.items())
