"""A book of print and what is asked of it: commands, their refusals in order, and queries."""

import re
import unicodedata
from dataclasses import dataclass, field
from typing import Optional, Union

from .braille import Braille, shown, undefined_place
from .table import BadTable, Table, read_table

MOST_TABLES, MOST_PARAGRAPHS, MOST_ENTRIES, MOST_MARKS = 16, 20_000, 10_000, 100_000
MOST_VERSION = 2**53
MOST_PRINT, MOST_NOTE, MOST_NAME = 4_000, 500, 40


class Refused(Exception):
    """A request is refused, by a code and the numbers that come with it."""

    def __init__(self, *numbers: int) -> None:
        super().__init__(f"refused by {numbers}")
        self.numbers = numbers


@dataclass(frozen=True)
class Correction:
    start: int
    count: int
    text: str
    who: str


@dataclass(frozen=True)
class Undo:
    """The correction with this number, counted from 1 in the history, is taken back."""

    of: int


Entry = Union[Correction, Undo]


@dataclass
class Paragraph:
    number: int
    table: str
    original: str
    history: list[Entry] = field(default_factory=list)
    style: str = "body"
    begins_volume: bool = False
    is_struck: bool = False

    def in_force(self) -> list[int]:
        """The numbers of the corrections that no undo names."""
        undone = {it.of for it in self.history if isinstance(it, Undo)}
        numbered = enumerate(self.history, 1)
        return [
            at for at, it in numbered if isinstance(it, Correction) and at not in undone
        ]

    def print_by(self, numbers: list[int]) -> str:
        """The original with these corrections put into it in turn."""
        text = self.original
        for number in numbers:
            entry = self.history[number - 1]
            assert isinstance(entry, Correction)
            text = replaced(text, entry)
        return text

    def print(self) -> str:
        return self.print_by(self.in_force())


def replaced(text: str, entry: Correction) -> str:
    return text[: entry.start] + entry.text + text[entry.start + entry.count :]


@dataclass
class Mark:
    number: int
    paragraph: int
    start: int
    stop: int
    note: str
    is_touched: bool = False
    is_resolved: bool = False

    def move(self, start: int, count: int, length: int) -> None:
        """So many characters from a place on give way to so many others."""
        end, more = start + count, length - count
        if self.stop <= start:
            return
        if self.start >= end:
            self.start, self.stop = self.start + more, self.stop + more
        else:
            self.start, self.stop = min(self.start, start), max(self.stop, end) + more
            self.is_touched = True


def barred_place(text: str) -> Optional[int]:
    return next((at for at, it in enumerate(text) if it in "\n\r\0"), None)


def check_text(text: str) -> None:
    place = barred_place(text)
    if place is not None:
        raise Refused(6, place)


def check_table_name(name: str) -> None:
    if not re.fullmatch("[a-z0-9_-]{1,32}", name):
        raise Refused(17)


def check_proofreader(name: str) -> None:
    if len(name) > MOST_NAME or barred_place(name) is not None:
        raise Refused(18)


def check_length(*texts: str) -> None:
    if any(len(it) > MOST_PRINT for it in texts):
        raise Refused(14)


def check_defined(table: Table, text: str) -> None:
    place = undefined_place(table, text)
    if place is not None:
        raise Refused(7, place)


Anchor = Union[str, int]


@dataclass
class Book:
    """A book. A command answers the number that its reply has after the version, if it has one."""

    version: int = 0
    tables: dict[str, Table] = field(default_factory=dict)
    paragraphs: list[Paragraph] = field(default_factory=list)
    marks: list[Mark] = field(default_factory=list)

    def paragraph(self, number: int) -> Paragraph:
        for it in self.paragraphs:
            if it.number == number:
                return it
        raise Refused(2)

    def table(self, name: str) -> Table:
        if name not in self.tables:
            raise Refused(3)
        return self.tables[name]

    def mark(self, number: int) -> Mark:
        if not 1 <= number <= len(self.marks):
            raise Refused(4)
        return self.marks[number - 1]

    def live(self, number: int) -> Paragraph:
        found = self.paragraph(number)
        if found.is_struck:
            raise Refused(11)
        return found

    def check_anchor(self, after: Anchor) -> None:
        if isinstance(after, int):
            self.paragraph(after)

    def check_room(self, number: int, held: int, most: int) -> None:
        """There is room for one more of a kind of things, and for a version."""
        if held >= most:
            raise Refused(15, number)
        self.check_version()

    def check_version(self) -> None:
        if self.version >= MOST_VERSION:
            raise Refused(15, 5)

    def braille(self, number: int) -> Braille:
        it = self.paragraph(number)
        return Braille(self.tables[it.table], it.print())

    # ---- commands

    def give_table(self, name: str, text: bytes) -> None:
        check_table_name(name)
        if name not in self.tables and len(self.tables) >= MOST_TABLES:
            raise Refused(15, 1)
        self.check_version()
        try:
            table = read_table(text)
        except BadTable as bad:
            raise Refused(8, bad.line, bad.cause) from bad
        for it in self.paragraphs:
            place = undefined_place(table, it.print()) if it.table == name else None
            if place is not None:
                raise Refused(9, it.number, place)
        self.tables[name] = table

    def type(self, after: Anchor, table: str, text: str) -> int:
        check_text(text)
        self.check_anchor(after)
        rules = self.table(table)
        stored = unicodedata.normalize("NFC", text)
        check_length(stored)
        self.check_room(2, len(self.paragraphs), MOST_PARAGRAPHS)
        check_defined(rules, stored)
        number = len(self.paragraphs) + 1
        self.put(Paragraph(number, table, stored), after)
        return number

    def put(self, paragraph: Paragraph, after: Anchor) -> None:
        at = {"front": 0, "end": len(self.paragraphs)}.get(str(after))
        if at is None:
            at = 1 + [it.number for it in self.paragraphs].index(int(after))
        self.paragraphs.insert(at, paragraph)

    def correct(self, number: int, start: int, count: int, text: str, who: str) -> int:
        check_proofreader(who)
        check_text(text)
        paragraph = self.live(number)
        before = paragraph.print()
        if start + count > len(before):
            raise Refused(5)
        entry = Correction(start, count, unicodedata.normalize("NFC", text), who)
        new = replaced(before, entry)
        check_length(entry.text, new)
        self.add_entry(paragraph, entry, new)
        self.move_marks(number, start, count, len(entry.text))
        return len(paragraph.history)

    def undo(self, number: int) -> int:
        paragraph = self.live(number)
        numbers = paragraph.in_force()
        if not numbers:
            raise Refused(10)
        before = paragraph.print_by(numbers[:-1])
        taken_back = paragraph.history[numbers[-1] - 1]
        assert isinstance(taken_back, Correction)
        check_length(before)
        self.add_entry(paragraph, Undo(numbers[-1]), before)
        # what stood there comes back
        self.move_marks(
            number, taken_back.start, len(taken_back.text), taken_back.count
        )
        return len(paragraph.history)

    def add_entry(self, paragraph: Paragraph, entry: Entry, new: str) -> None:
        self.check_room(3, len(paragraph.history), MOST_ENTRIES)
        check_defined(self.tables[paragraph.table], new)
        paragraph.history.append(entry)

    def move_marks(self, number: int, start: int, count: int, length: int) -> None:
        for it in self.marks:
            if it.paragraph == number:
                it.move(start, count, length)

    def give_mark(self, number: int, cell: int, count: int, note: str) -> int:
        check_text(note)
        self.live(number)
        braille = self.braille(number)
        first = braille.choice_of_cell(cell)
        last = braille.choice_of_cell(cell + count - 1) if count else None
        if first is None or last is None:
            raise Refused(5)
        if len(note) > MOST_NOTE:
            raise Refused(14)
        self.check_room(4, len(self.marks), MOST_MARKS)
        stop = last.start + last.length
        self.marks.append(Mark(len(self.marks) + 1, number, first.start, stop, note))
        return len(self.marks)

    def resolve(self, number: int) -> None:
        mark = self.mark(number)
        if mark.is_resolved:
            raise Refused(13)
        self.check_version()
        mark.is_resolved = True

    def strike(self, number: int) -> None:
        paragraph = self.live(number)
        self.check_version()
        paragraph.is_struck = True

    def restore(self, number: int) -> None:
        paragraph = self.paragraph(number)
        if not paragraph.is_struck:
            raise Refused(12)
        self.check_version()
        paragraph.is_struck = False

    def give_style(self, number: int, style: str) -> None:
        paragraph = self.paragraph(number)
        self.check_version()
        paragraph.style = style

    def begin_volume(self, number: int, begins: bool) -> None:
        paragraph = self.paragraph(number)
        self.check_version()
        paragraph.begins_volume = begins

    def retable(self, number: int, name: str) -> None:
        self.paragraph(number)
        rules = self.table(name)
        paragraph = self.live(number)
        self.check_version()
        check_defined(rules, paragraph.print())
        paragraph.table = name

    def move(self, number: int, after: Anchor) -> None:
        paragraph = self.paragraph(number)
        self.check_anchor(after)
        self.check_version()
        if after != number:
            self.paragraphs.remove(paragraph)
            self.put(paragraph, after)

    # ---- queries

    def history(self, number: int) -> list[str]:
        return [
            f"{at} undo {it.of}" if isinstance(it, Undo) else f"{at} {told(it)}"
            for at, it in enumerate(self.paragraph(number).history, 1)
        ]

    def marks_on(self, number: int) -> list[str]:
        self.paragraph(number)
        return [
            f"{it.number} {it.start} {it.stop} {'resolved' if it.is_resolved else 'open'}"
            f" {'touched' if it.is_touched else 'kept'} {it.note}"
            for it in self.marks
            if it.paragraph == number
        ]

    def cells(self, number: int) -> str:
        return shown(self.braille(number).cells())

    def where(self, number: int, place: int) -> int:
        cell = self.braille(number).output_place(place)
        if cell is None:
            raise Refused(5)
        return cell

    def whence(self, number: int, cell: int) -> int:
        choice = self.braille(number).choice_of_cell(cell)
        if choice is None:
            raise Refused(5)
        return choice.start

    def listed(self) -> list[str]:
        return [
            f"{it.number} {it.table} {it.style} {'volume' if it.begins_volume else '-'}"
            f" {'struck' if it.is_struck else 'live'} {len(it.print())}"
            for it in self.paragraphs
        ]


def told(entry: Correction) -> str:
    name = f"correct-by {entry.who}" if entry.who else "correct"
    return f"{name} {entry.start} {entry.count} {entry.text}"
