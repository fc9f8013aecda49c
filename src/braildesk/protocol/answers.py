"""What requests are answered by: the values that are read from replies which are no refusals."""

from collections.abc import Callable, Mapping
from dataclasses import dataclass
from typing import Generic, TypeVar

from braildesk.protocol.replies import Reply
from braildesk.protocol.value import Value
from braildesk.protocol.values import (
    Corrected,
    Done,
    Entry,
    Kind,
    Mark,
    Marked,
    Paragraph,
    Style,
    Typed,
)

#: What a request is answered by, if it isn't refused.
Answer = TypeVar("Answer", covariant=True)


@dataclass(frozen=True, slots=True, eq=False, repr=False)
class Result(Value, Generic[Answer]):
    """What a kind of request gives, read from its reply."""

    read: Callable[[Reply], Answer]


def _entry(line: str) -> Entry:
    seq, kind, rest = line.split(" ", 2)
    if kind == Kind.UNDO:
        return Entry(int(seq), Kind.UNDO, 0, 0, "", None, int(rest))
    who = None
    if kind == "correct-by":
        who, rest = rest.split(" ", 1)
    start, count, text = rest.split(" ", 2)
    return Entry(int(seq), Kind.CORRECT, int(start), int(count), text, who, None)


_STYLES: Mapping[str, Style] = {style.value: style for style in Style}


def _mark(line: str) -> Mark:
    id, start, stop, state, touch, note = line.split(" ", 5)
    return Mark(
        int(id), int(start), int(stop), state == "resolved", touch == "touched", note
    )


def read_paragraph(line: str) -> Paragraph:
    """The paragraph of a line of the list."""
    id, table, style, volume, life, length = line.split(" ")
    return Paragraph(
        int(id),
        table,
        _STYLES[style],
        volume == "volume",
        life == "struck",
        int(length),
    )


DONE = Result(lambda reply: Done(*reply.numbers))
TYPED = Result(lambda reply: Typed(*reply.numbers))
CORRECTED = Result(lambda reply: Corrected(*reply.numbers))
MARKED = Result(lambda reply: Marked(*reply.numbers))
TEXT = Result(lambda reply: reply.lines[0])
NUMBER = Result(lambda reply: int(reply.lines[0]))
VERSION = Result(lambda reply: reply.numbers[0])
HISTORY = Result(lambda reply: tuple(map(_entry, reply.lines)))
MARKS = Result(lambda reply: tuple(map(_mark, reply.lines)))
PARAGRAPHS = Result(lambda reply: tuple(map(read_paragraph, reply.lines)))
