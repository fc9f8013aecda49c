"""What a book says of many of its paragraphs, asked ahead of the replies."""

from collections.abc import Callable, Iterable, Iterator, Sequence
from dataclasses import dataclass
from typing import Any, TypeVar

from braildesk import Mark, Paragraph, Refused, Session
from braildesk.protocol.answers import read_paragraph
from braildesk.protocol.requests import Braille, List, Marks, Print, Request
from braildesk.protocol.value import Value

Answer = TypeVar("Answer")


@dataclass(frozen=True, slots=True, eq=False, repr=False)
class ParagraphReading(Value):
    """A paragraph with its print, its braille and its marks."""

    paragraph: Paragraph
    text: str
    braille: str
    marks: tuple[Mark, ...]


def answers(
    session: Session,
    asked: Iterable[Request[Answer]],
    progress: Callable[[int], None] | None = None,
) -> Iterator[Answer]:
    """The answers to many requests, none of which may be refused."""
    for answer in session.each(asked, progress):
        if isinstance(answer, Refused):
            raise answer
        yield answer


class ListedBook:
    """The paragraphs of a book as its list has them, of which no line is read before it is needed."""

    def __init__(self, session: Session) -> None:
        self._lines = session.reply(List()).lines

    def __len__(self) -> int:
        return len(self._lines)

    @property
    def tables(self) -> set[str]:
        """The names of the tables that paragraphs have."""
        return {line.split(" ", 2)[1] for line in self._lines}

    def place_of(self, number: int) -> int | None:
        """Where the paragraph of a number is, if it is there."""
        front, lines = f"{number} ", self._lines
        if number and any(
            line.startswith(front) for line in lines[number - 1 : number]
        ):
            # nobody moved it, nor one before it
            return number - 1
        places = (n for n, line in enumerate(lines) if line.startswith(front))
        return next(places, None)

    def among(self, places: slice = slice(None)) -> list[Paragraph]:
        """The paragraphs at some places."""
        return [read_paragraph(line) for line in self._lines[places]]


def paragraph_of(session: Session, number: int) -> Paragraph | None:
    """The paragraph of a number, if it is there."""
    book = ListedBook(session)
    place = book.place_of(number)
    return None if place is None else book.among(slice(place, place + 1))[0]


def prints(session: Session, paragraphs: Sequence[Paragraph]) -> Iterator[str]:
    """The prints of paragraphs."""
    return answers(session, (Print(paragraph.id) for paragraph in paragraphs))


def brailles(session: Session, paragraphs: Sequence[Paragraph]) -> Iterator[str]:
    """The braille of paragraphs."""
    return answers(session, (Braille(paragraph.id) for paragraph in paragraphs))


def readings(
    session: Session, paragraphs: Sequence[Paragraph]
) -> Iterator[ParagraphReading]:
    """All that is shown of paragraphs."""

    def asked() -> Iterator[Request[Any]]:
        for paragraph in paragraphs:
            yield Print(paragraph.id)
            yield Braille(paragraph.id)
            yield Marks(paragraph.id)

    found = answers(session, asked())
    for paragraph in paragraphs:
        yield ParagraphReading(paragraph, next(found), next(found), next(found))
