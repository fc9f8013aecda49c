"""The paragraphs of a text file, and where in the file each of their characters stands.

Lines end with LF or CR LF, and one byte order mark at the front is skipped. Tabs and form feeds are
blanks. Blanks around a line, and lines of blanks alone, are no part of a paragraph. Lines and
columns are counted from 1, columns in characters.
"""

from bisect import bisect_right
from collections.abc import Iterable, Iterator, Sequence
from dataclasses import dataclass
from functools import cached_property
from itertools import groupby, islice
from typing import NamedTuple

from braildesk import Style
from braildesk.desk import Problem
from braildesk.protocol.value import Value
from braildesk.text import limits
from braildesk.text.sequences import chunks, composed, sequences

_MARK = b"\xef\xbb\xbf"
_OTHER_MARKS = (b"\xff\xfe", b"\xfe\xff")
# what is over the paragraphs of a book is counted up to here, so that it can be said how many
_MOST = 5 * limits.PARAGRAPHS


class UnreadableText(Problem):
    """The bytes of a text file can't be read as paragraphs for a book."""


class TooManyPassages(UnreadableText):
    """A text has more paragraphs than are counted."""

    def __init__(self, most: int) -> None:
        super().__init__(most)
        self.most = most


class Utf16(UnreadableText):
    """A text is UTF-16."""


class NotUtf8(UnreadableText):
    """A text isn't UTF-8: a byte at a line and a column isn't."""

    def __init__(self, position: "Position", byte: int) -> None:
        super().__init__(position, byte)
        self.position = position
        self.byte = byte


# as lines are, of which a text has many thousands, it is made in less time than a dataclass
class Position(NamedTuple):
    """A line of a file and a column in it, both from 1."""

    line: int
    column: int


class TextLine(NamedTuple):
    """What a line of a file has between the blanks around it, and the position of its front."""

    text: str
    position: Position
    #: How far from the front of the line in the file each character and the end are, if they aren't
    #: as far as here, since some were put in place of others.
    columns: tuple[int, ...] = ()


@dataclass(frozen=True, eq=False, repr=False)
class Passage(Value):
    """A paragraph of a text file: lines that are joined by one blank each."""

    lines: tuple[TextLine, ...]
    style: Style = Style.BODY
    begins_volume: bool = False

    @property
    def first_line(self) -> int:
        return self.lines[0].position.line

    @property
    def last_line(self) -> int:
        return self.lines[-1].position.line

    @cached_property
    def text(self) -> str:
        """The print of the paragraph, in normal form C."""
        return composed(self.joined)

    @property
    def joined(self) -> str:
        """The same as it stands in the file."""
        return " ".join([line.text for line in self.lines])

    @property
    def length(self) -> int:
        """How many characters that has."""
        return sum([len(line.text) for line in self.lines]) + len(self.lines) - 1

    def position(self, place: int) -> Position:
        """Where in the file a place of the print comes from, by the front of its sequence."""
        (position,) = self.positions([place])
        return position

    def positions(self, places: Iterable[int]) -> Iterator[Position]:
        """Where in the file places of the print come from, in their ascending order."""
        fronts, rest = self._fronts(), iter(places)
        place = next(rest, None)
        before = there = 0
        for chunk in chunks(self.joined):
            if place is None:
                return
            if there + (length := len(composed(chunk))) <= place:
                before, there = before + len(chunk), there + length
                continue
            for sequence in sequences(chunk):
                there += len(composed(sequence))
                while place is not None and place < there:
                    yield self._position(before, fronts)
                    place = next(rest, None)
                before += len(sequence)
        # beyond the end of the print is the place after its last character
        while place is not None:
            yield self._position(before, fronts)
            place = next(rest, None)

    def _fronts(self) -> list[int]:
        """Where each line begins in the lines joined."""
        fronts = [0]
        for line in self.lines[:-1]:
            fronts.append(fronts[-1] + len(line.text) + 1)
        return fronts

    def _position(self, place: int, fronts: Sequence[int]) -> Position:
        number = bisect_right(fronts, place) - 1
        line, offset = self.lines[number], place - fronts[number]
        front = line.position
        if line.columns:
            offset = line.columns[min(offset, len(line.columns) - 1)]
        return Position(front.line, front.column + offset)


# what adds nothing to a passage is no dataclass of its own, since making one takes long
class DocumentPassage(Passage):
    """A paragraph of a document, whose line is its number among all of them."""


def passages(data: bytes, by_lines: bool) -> tuple[Passage, ...]:
    """The paragraphs of a text: its lines, or what stands between its blank lines.

    Raises `UnreadableText`.
    """
    lines = _lines(data)
    found = tuple(islice(_parted(lines, by_lines), _MOST + 1))
    if len(found) > _MOST:
        decoded(data)  # what is no text at all is refused for that
        raise TooManyPassages(_MOST)
    return found


def _parted(lines: Iterator[TextLine], by_lines: bool) -> Iterator[Passage]:
    if by_lines:
        return (Passage((line,)) for line in lines if line.text)
    groups = groupby(lines, key=lambda line: bool(line.text))
    return (Passage(tuple(group)) for has_text, group in groups if has_text)


def text_lines(data: bytes) -> Iterator[str]:
    """The lines of a text, as they are between their ends; raises `UnreadableText`."""
    found, front = data.removeprefix(_MARK), 0
    try:
        # lines are taken one by one, since a text may have millions that are blank
        while (end := found.find(b"\n", front)) >= 0:
            yield found[front:end].decode().removesuffix("\r")
            front = end + 1
        if front < len(found):
            yield found[front:].decode().removesuffix("\r")
    except UnicodeDecodeError:
        # says where in the text that is
        decoded(data)


def _lines(data: bytes) -> Iterator[TextLine]:
    blanks_alone = data.replace(b"\t", b" ").replace(b"\f", b" ")
    for number, shown in enumerate(text_lines(blanks_alone), start=1):
        text = shown.lstrip(" ")
        front = len(shown) - len(text)
        yield TextLine(text.rstrip(" "), Position(number, front + 1))


def decoded(data: bytes) -> str:
    """The characters of a text in UTF-8, without the mark at its front; raises `UnreadableText`."""
    data = data.removeprefix(_MARK)
    try:
        return data.decode("utf-8")
    except UnicodeDecodeError as fault:
        if data.startswith(_OTHER_MARKS):
            raise Utf16 from fault
        before = data[: fault.start].decode("utf-8")
        line = before.count("\n") + 1
        column = len(before) - before.rfind("\n")
        raise NotUtf8(Position(line, column), data[fault.start]) from fault
