"""What a book answers, as values that never change."""

from dataclasses import dataclass
from enum import StrEnum
from typing import Literal, TypeAlias

from braildesk.protocol.value import Value

#: Where a paragraph is put: before all others, after all others, or after the one of this number.
After: TypeAlias = int | Literal["front", "end"]


class Style(StrEnum):
    """How a paragraph is laid on a page."""

    BODY = "body"
    HEADING = "heading"


class Kind(StrEnum):
    """What an entry of a history is."""

    CORRECT = "correct"
    UNDO = "undo"


@dataclass(frozen=True, slots=True, eq=False, repr=False)
class Done(Value):
    """A command was kept, and the book is at this version now."""

    version: int


@dataclass(frozen=True, slots=True, eq=False, repr=False)
class Typed(Value):
    """A paragraph was added."""

    version: int
    #: The number of the new paragraph.
    id: int


@dataclass(frozen=True, slots=True, eq=False, repr=False)
class Corrected(Value):
    """A correction or an undo was kept."""

    version: int
    #: Its number in the history of the paragraph.
    seq: int


@dataclass(frozen=True, slots=True, eq=False, repr=False)
class Marked(Value):
    """A mark was put."""

    version: int
    #: The number of the new mark.
    id: int


@dataclass(frozen=True, slots=True, eq=False, repr=False)
class Paragraph(Value):
    """A paragraph as the list of a book shows it."""

    id: int
    #: The name of its table.
    table: str
    style: Style
    begins_volume: bool
    struck: bool
    #: How many characters its print has.
    length: int


@dataclass(frozen=True, slots=True, eq=False, repr=False)
class Mark(Value):
    """A proofreader's mark on places of a print."""

    id: int
    #: The first of its places, counted from 0.
    start: int
    #: The place after the last of them.
    stop: int
    resolved: bool
    #: Whether characters that it stands on were corrected.
    touched: bool
    note: str


@dataclass(frozen=True, slots=True, eq=False, repr=False)
class Entry(Value):
    """An entry in the history of a paragraph."""

    seq: int
    kind: Kind
    #: The first place that a correction replaced, counted from 0; 0 for an undo.
    start: int
    #: How many characters a correction replaced; 0 for an undo.
    count: int
    #: What a correction put in their place; empty for an undo.
    text: str
    #: The name of the proofreader who corrected, if one was given.
    who: str | None
    #: The number of the correction that an undo took back; None for a correction.
    undone: int | None


@dataclass(frozen=True, slots=True, eq=False, repr=False)
class Table(Value):
    """A table of a book, with its text as it came."""

    name: str
    text: bytes
