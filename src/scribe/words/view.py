"""Paragraphs as a person reads them: print and its braille under one another, in lines of a width."""

import re
from collections.abc import Callable, Iterator, Sequence
from dataclasses import dataclass

from braildesk.desk.readings import ParagraphReading
from braildesk.text.cells import EMPTY_CELL, Notation
from braildesk.text.characters import visible
from braildesk.text.wrapping import measure, wrap

from scribe.words.paragraph import mark_line, title


_INDENT = "  "


@dataclass(frozen=True, eq=False)
class View:
    """What is shown of paragraphs."""

    width: int
    has_print: bool = True
    has_braille: bool = True
    notation: Notation = Notation.UNICODE
    has_table: bool = False

    def of(self, reading: ParagraphReading) -> "Shown":
        """A paragraph as it is shown if its words have their cells one after the other."""
        is_paired = self.has_print and self.has_braille
        cells = self.notation.write(reading.braille)
        groups = paired(reading.text, cells, self.width) if is_paired else []
        return Shown(self, reading, cells, groups)


@dataclass(frozen=True)
class Group:
    """Words that fit on a line in print and in braille, and where both begin."""

    upper: str
    lower: str
    place: int
    cell: int


@dataclass(frozen=True, eq=False)
class Shown:
    """A paragraph: what it is, its print and braille, and its marks."""

    view: View
    reading: ParagraphReading
    cells: str
    groups: Sequence[Group]

    @property
    def begun(self) -> list[tuple[int, int]]:
        """The character and the cell at which each line begins after the first, if they belong together."""
        return [(each.place, each.cell) for each in self.groups[1:]]

    def lines(self, is_paired: bool) -> list[str]:
        """Its lines: the braille of each line under its print, or all print first."""
        view, reading = self.view, self.reading
        head = title(reading.paragraph, view.has_table)
        marks = (mark_line(mark, reading.text) for mark in reading.marks)
        return [
            *wrap(head, view.width, _INDENT),
            *self._body(self.groups if is_paired else ()),
            *(line for mark in marks for line in wrap(mark, view.width, _INDENT)),
        ]

    def _body(self, groups: Sequence[Group]) -> list[str]:
        view, text = self.view, visible(self.reading.text)
        if not view.has_braille:
            return wrap(text, view.width)
        if not view.has_print:
            return wrap(self.cells, view.width)
        return interlinear(groups, text, self.cells, view.width)


_WORD = re.compile(rf"([\s{EMPTY_CELL}]*)([^\s{EMPTY_CELL}]+)")


def interlinear(
    groups: Sequence[Group], text: str, braille: str, width: int
) -> list[str]:
    """Lines of print, each with the line of its braille under it.

    If there are no groups of words that belong together, all lines of print come first.
    """
    if not groups:
        return wrap(text, width) + wrap(braille, width)
    lines: list[str] = []
    for each in groups:
        lines += wrap(each.upper, width) + wrap(each.lower, width)
    return lines


def paired(text: str, braille: str, width: int) -> list[Group]:
    """The words that fit on a line in print and in braille; none if they aren't as many.

    As many of both may yet not belong together: one sign may join words, and another part one.
    """
    shown = visible(text)
    words, cells = [*_WORD.finditer(shown)], [*_WORD.finditer(braille)]
    if len(words) != len(cells):
        return []
    places: Sequence[int] = range(len(text))
    if shown != text:
        places = [n for n, each in enumerate(text) for _ in visible(each)]
    size_of = measure(shown + braille)
    return [
        Group(
            _joined(words, first, last),
            _joined(cells, first, last),
            places[words[first].start(2)],
            cells[first].start(2),
        )
        for first, last in _lines(words, cells, width, size_of)
    ]


def _joined(words: Sequence[re.Match[str]], first: int, last: int) -> str:
    """Words with the blanks between them, and those at the front of a paragraph."""
    begun = words[first][2 if first else 0]
    return begun + "".join(each[0] for each in words[first + 1 : last])


def _lines(
    words: Sequence[re.Match[str]],
    cells: Sequence[re.Match[str]],
    width: int,
    size_of: Callable[[str], int],
) -> Iterator[tuple[int, int]]:
    """The first word of each line and that of the next, with what fits in print and in braille."""
    first = taken = beneath = 0
    for number, (word, braille) in enumerate(zip(words, cells)):
        upper_size, lower_size = size_of(word[2]), size_of(braille[2])
        taken += size_of(word[1]) + upper_size
        beneath += size_of(braille[1]) + lower_size
        if number > first and (taken > width or beneath > width):
            yield first, number
            first, taken, beneath = number, upper_size, lower_size
    if words:
        yield first, len(words)
