"""The requests of a book: one table, of which each class is a row.

A row has the fields of a request in the order of its line, what the request is answered by, what it
keeps, and its help. Whatever writes, reads, lists or explains requests goes by this table.

A request is written whole or not at all: what would break the form of a request, such as a line
feed in a text, raises ``Unwritable`` before a byte of it is made.
"""

from abc import ABC, abstractmethod
from collections.abc import Mapping
from dataclasses import dataclass, field, fields
from functools import cache
from typing import Annotated, Any, ClassVar, Generic, get_args, get_origin

from braildesk.protocol import answers, values
from braildesk.protocol.answers import Answer, Result
from braildesk.protocol.codes import Code
from braildesk.protocol.fields import (
    Anchor,
    Choice,
    Field,
    Lines,
    Name,
    Number,
    OnOff,
    Text,
    Unwritable,
    lines_of,
)
from braildesk.protocol.value import Value
from braildesk.protocol.values import Corrected, Done, Entry, Marked, Paragraph, Typed
from braildesk.text import limits
from braildesk.text.characters import shortened

#: The version that stands after ``@``.
EXPECTED = Number("VERSION")

# the fields: what each is in Python, and how it stands in a line
Para = Annotated[int, Number("PARA")]
Start = Annotated[int, Number("START")]
Count = Annotated[int, Number("COUNT")]
Cell = Annotated[int, Number("CELL")]
Place = Annotated[int, Number("PLACE")]
MarkNumber = Annotated[int, Number("MARK")]
NewTable = Annotated[str, Name("NAME", Code.BAD_TABLE_NAME)]
KnownTable = Annotated[str, Name("NAME", Code.NO_TABLE)]
Who = Annotated[str, Name("WHO", Code.BAD_PROOFREADER)]
After = Annotated[values.After, Anchor("AFTER")]
Words = Annotated[str, Text("TEXT")]
Note = Annotated[str, Text("NOTE")]
TableText = Annotated[bytes, Lines("LINES")]
StyleWord = Annotated[
    values.Style, Choice("STYLE", choices=tuple((s, s, s) for s in values.Style))
]
Switch = Annotated[
    bool, OnOff("SWITCH", choices=(("on", True, "a"), ("off", False, "no")))
]


@dataclass(frozen=True, eq=False, repr=False)
class Request(ABC, Generic[Answer]):
    """What is asked of a book."""

    #: The first word of its line.
    name: ClassVar[str]
    #: One of its lines.
    example: ClassVar[str]

    # once for all requests, since each is made as a class whenever a command is run
    def __eq__(self, other: object) -> bool:
        return type(other) is type(self) and vars(other) == vars(self)

    def __hash__(self) -> int:
        return hash((type(self), *vars(self).values()))

    def __repr__(self) -> str:
        given = ", ".join(f"{key}={value!r}" for key, value in vars(self).items())
        return f"{type(self).__qualname__}({given})"

    @property
    @abstractmethod
    def result(self) -> Result[Answer]:
        """What it is answered by."""

    @classmethod
    def form(cls) -> str:
        """Its line, with words in capitals that stand for its fields."""
        return " ".join([cls.name, *(kind.word for kind in fields_of(cls).values())])

    @classmethod
    def read(cls, rest: str | None) -> "Request[Any] | TableHead":
        """The request with what follows its name in a line; None if nothing follows.

        ``ValueError`` if these aren't its fields.
        """
        return cls(**_values(cls, rest))

    def head(self) -> list[str]:
        """The words of its line."""
        words = [self.name]
        for key, kind in fields_of(type(self)).items():
            value = getattr(self, key)
            if not isinstance(value, kind.types):
                raise self._mistyped(key, kind)
            words.append(kind.write(value))
        return words

    def _mistyped(self, key: str, kind: Field) -> TypeError:
        """What is raised for a field whose value is of another type."""
        import reprlib  # which few requests need

        value = getattr(self, key)
        return TypeError(
            f"In a request {self.name}, {key} has to be {kind.called}, and is"
            f" {reprlib.repr(value)}. Nothing was sent."
        )

    def in_words(self) -> str:
        """What it asks for, as a sentence names it."""
        return shortened(" ".join(self.head()))

    def encoded(self) -> bytes:
        """Its bytes, or ``Unwritable``."""
        words = self.head()
        line = " ".join(words).encode()
        if len(line) > limits.LINE_BYTES:
            kinds = fields_of(type(self)).values()
            # words before its fields are short
            sizes = zip(map(len, reversed(words)), reversed(kinds))
            raise Unwritable(max(sizes, key=lambda each: each[0])[1].code)
        return line + b"\n"


@dataclass(frozen=True, eq=False, repr=False)
class Command(Request[Answer]):
    """A request that makes a version of the book."""

    #: What it makes, as a sentence names it.
    kept: ClassVar[str]

    #: The version that the book has to be at, if that matters.
    expect: int | None = field(default=None, kw_only=True)

    def head(self) -> list[str]:
        words, expected = super().head(), self.expect
        if expected is not None:
            if not isinstance(expected, int):
                raise self._mistyped("expect", EXPECTED)
            words.insert(0, f"@{EXPECTED.write(expected)}")
        return words

    def in_words(self) -> str:
        kinds = fields_of(type(self)).items()
        return self.kept.format_map(
            {key: kind.said(getattr(self, key)) for key, kind in kinds}
        )


@dataclass(frozen=True, eq=False, repr=False)
class OfParagraph:
    """What names a paragraph."""

    paragraph: Para


# Requests that add no field of their own take over what was made for those that they are of, since
# making a dataclass takes most of the time in which this module is imported.


@dataclass(frozen=True, eq=False, repr=False)
class CommandOnParagraph(OfParagraph, Command[Answer]):
    """A command that changes a paragraph."""


@dataclass(frozen=True, eq=False, repr=False)
class Table(Command[Done]):
    """Adds the table whose text is the next LINES lines, or replaces its text."""

    name = "table"
    example = "table own 87"
    kept = "the table {table}"
    result = answers.DONE
    table: NewTable
    text: TableText

    @classmethod
    def read(cls, rest: str | None) -> "TableHead":
        return TableHead(*_values(cls, rest).values())

    def encoded(self) -> bytes:
        return super().encoded() + b"".join(
            each + b"\n" for each in lines_of(self.text)
        )


@dataclass(frozen=True, eq=False, repr=False)
class TableHead(Value):
    """The line of a request ``table``, which the lines of the table's text follow."""

    table: str
    lines: int
    expect: int | None = None

    def request(self, text: bytes) -> Table:
        """The request, with the text of its table."""
        return Table(self.table, text, expect=self.expect)


@dataclass(frozen=True, eq=False, repr=False)
class Supply(Command[Done]):
    """Adds the supplied table, uncontracted English, under a name."""

    name = "supply"
    example = "supply en"
    kept = "the supplied table as {table}"
    result = answers.DONE
    table: NewTable


@dataclass(frozen=True, eq=False, repr=False)
class Type(Command[Typed]):
    """Types a new paragraph with a table. AFTER is front, end, or the number of a paragraph."""

    name = "type"
    example = "type end en The moon is far away."
    kept = "the new paragraph {text}"
    result = answers.TYPED
    after: After
    table: KnownTable
    text: Words


@dataclass(frozen=True, eq=False, repr=False)
class Correct(CommandOnParagraph[Corrected]):
    """Puts TEXT in place of COUNT characters from place START on, counted from 0."""

    name = "correct"
    example = "correct 1 4 3 moon"
    kept = "the correction of paragraph {paragraph}"
    result = answers.CORRECTED
    start: Start
    count: Count
    text: Words


@dataclass(frozen=True, eq=False, repr=False)
class CorrectBy(Correct):
    """Does the same, and keeps the name of the proofreader."""

    name = "correct-by"
    example = "correct-by anna 1 4 3 moon"
    who: Who = field(kw_only=True)


class Undo(CommandOnParagraph[Corrected]):
    """Takes back the newest correction of a paragraph that is in force."""

    name = "undo"
    example = "undo 1"
    kept = "the undo in paragraph {paragraph}"
    result = answers.CORRECTED


@dataclass(frozen=True, eq=False, repr=False)
class Mark(CommandOnParagraph[Marked]):
    """Puts a mark on COUNT cells from cell CELL on, counted from 0."""

    name = "mark"
    example = "mark 1 5 4 spelled so?"
    kept = "the mark {note} in paragraph {paragraph}"
    result = answers.MARKED
    cell: Cell
    count: Count
    note: Note = ""


@dataclass(frozen=True, eq=False, repr=False)
class Resolve(Command[Done]):
    """Says that a mark is dealt with."""

    name = "resolve"
    example = "resolve 1"
    kept = "the resolving of mark {mark}"
    result = answers.DONE
    mark: MarkNumber


class Strike(CommandOnParagraph[Done]):
    """Takes a paragraph out of the volumes."""

    name = "strike"
    example = "strike 1"
    kept = "the striking of paragraph {paragraph}"
    result = answers.DONE


class Restore(CommandOnParagraph[Done]):
    """Puts a struck paragraph back into the volumes."""

    name = "restore"
    example = "restore 1"
    kept = "the restoring of paragraph {paragraph}"
    result = answers.DONE


@dataclass(frozen=True, eq=False, repr=False)
class Style(CommandOnParagraph[Done]):
    """Gives a paragraph a style: body or heading."""

    name = "style"
    example = "style 1 heading"
    kept = "the style {style} of paragraph {paragraph}"
    result = answers.DONE
    style: StyleWord


@dataclass(frozen=True, eq=False, repr=False)
class Volume(CommandOnParagraph[Done]):
    """Says whether a paragraph begins a volume: on or off."""

    name = "volume"
    example = "volume 1 on"
    kept = "that paragraph {paragraph} begins {begins} volume"
    result = answers.DONE
    begins: Switch


@dataclass(frozen=True, eq=False, repr=False)
class Retable(CommandOnParagraph[Done]):
    """Gives a paragraph another table."""

    name = "retable"
    example = "retable 1 own"
    kept = "the table {table} of paragraph {paragraph}"
    result = answers.DONE
    table: KnownTable


@dataclass(frozen=True, eq=False, repr=False)
class Move(CommandOnParagraph[Done]):
    """Puts a paragraph elsewhere. AFTER is front, end, or the number of a paragraph."""

    name = "move"
    example = "move 2 front"
    kept = "the move of paragraph {paragraph}"
    result = answers.DONE
    after: After


class Print(OfParagraph, Request[str]):
    """Shows the print of a paragraph."""

    name = "print"
    example = "print 1"
    result = answers.TEXT


class Braille(OfParagraph, Request[str]):
    """Shows the braille of a paragraph."""

    name = "braille"
    example = "braille 1"
    result = answers.TEXT


class History(OfParagraph, Request[tuple[Entry, ...]]):
    """Shows the corrections of a paragraph."""

    name = "history"
    example = "history 1"
    result = answers.HISTORY


class Marks(OfParagraph, Request[tuple[values.Mark, ...]]):
    """Shows the marks of a paragraph."""

    name = "marks"
    example = "marks 1"
    result = answers.MARKS


@dataclass(frozen=True, eq=False, repr=False)
class Where(OfParagraph, Request[int]):
    """Shows the first cell made for a place of the print, both counted from 0."""

    name = "where"
    example = "where 1 20"
    result = answers.NUMBER
    place: Place


@dataclass(frozen=True, eq=False, repr=False)
class Whence(OfParagraph, Request[int]):
    """Shows the first place that a cell was made from, both counted from 0."""

    name = "whence"
    example = "whence 1 24"
    result = answers.NUMBER
    cell: Cell


class List(Request[tuple[Paragraph, ...]]):
    """Shows the paragraphs in the order of the book."""

    name = "list"
    example = "list"
    result = answers.PARAGRAPHS


class Version(Request[int]):
    """Shows the version of the book."""

    name = "version"
    example = "version"
    result = answers.VERSION


#: All requests, commands first.
REQUESTS: tuple[type[Request[Any]], ...] = (
    *(Table, Supply, Type, Correct, CorrectBy, Undo, Mark, Resolve),
    *(Strike, Restore, Style, Volume, Retable, Move),
    *(Print, Braille, History, Marks, Where, Whence, List, Version),
)
BY_NAME: Mapping[str, type[Request[Any]]] = {kind.name: kind for kind in REQUESTS}


@cache
def fields_of(kind: type[Request[Any]]) -> Mapping[str, Field]:
    """The kinds of a request's fields in the order of its line, by the names of the attributes."""
    # what is given by its keyword alone stands in front
    in_order = sorted(fields(kind), key=lambda each: not each.kw_only)
    return {
        each.name: get_args(each.type)[1]
        for each in in_order
        if get_origin(each.type) is Annotated
    }


def _values(kind: type[Request[Any]], rest: str | None) -> dict[str, Any]:
    """The values of the fields that follow a name in a line, by the names of the attributes."""
    kinds = fields_of(kind)
    has_rest = any(each.is_rest for each in kinds.values())
    words = []
    if rest is not None:
        words = rest.split(" ", len(kinds) - 1 if has_rest else -1)
    if has_rest and len(words) == len(kinds) - 1:
        words.append("")
    if len(words) != len(kinds):
        raise ValueError(f"these aren't the fields of {kind.form()}")
    return {key: each.read(word) for (key, each), word in zip(kinds.items(), words)}
