"""Where in the book something stands next: words, cells, or an open mark."""

from collections.abc import Callable, Iterable, Iterator, Sequence
from dataclasses import dataclass
from itertools import islice
from typing import Any

from braildesk import Mark, Paragraph, Session
from braildesk.desk.readings import answers
from braildesk.protocol.requests import Braille, Marks, Print, Request
from braildesk.text.sequences import composed
from braildesk.text.spans import Form, find_spans

# how many paragraphs are asked for at once
_BATCH = 64


#: A place in a print or in cells, and the number of the mark there.
_Place = tuple[int, int]
# a place of words has none of its own, and comes before the first mark of that place
_NO_MARK = 0


@dataclass(frozen=True, order=True)
class Spot:
    """A paragraph by its place in the book, a place in its print or its cells, and a mark there."""

    chosen: int
    place: int
    mark: int = _NO_MARK


@dataclass(frozen=True)
class Found:
    """What stands next, and whether the other end of the book had to be gone to for it.

    It is the same if nothing else was found all around the book.
    """

    spot: Spot
    is_around: bool
    is_same: bool


def next_words(
    session: Session,
    book: Sequence[Paragraph],
    here: Spot,
    sought: str,
    form: Form = composed,
) -> Found | None:
    """The next place of words in the prints of a book."""
    return _next_text(session, book, here, Print, sought, form)


def next_cells(
    session: Session, book: Sequence[Paragraph], here: Spot, cells: str
) -> Found | None:
    """The next place of cells in the braille of a book."""
    return _next_text(session, book, here, Braille, cells, composed)


def _next_text(
    session: Session,
    book: Sequence[Paragraph],
    here: Spot,
    wanted: Callable[[int], Request[str]],
    sought: str,
    form: Form,
) -> Found | None:
    def places(text: str) -> Iterable[_Place]:
        return ((each.start, _NO_MARK) for each in find_spans(text, sought, form))

    return _next(session, book, here, wanted, places, range(len(book) + 1))


def next_mark(
    session: Session, book: Sequence[Paragraph], here: Spot, is_back: bool
) -> Found | None:
    """The next open mark after a spot, or the one before, by its first character.

    Marks that begin on one character come one after the other, by their numbers.
    """

    def places(marks: tuple[Mark, ...]) -> Iterable[_Place]:
        found = ((m.start, m.id) for m in marks if not m.resolved)
        return sorted(found, reverse=is_back)

    count = len(book) + 1
    order = range(0, -count, -1) if is_back else range(count)
    return _next(session, book, here, Marks, places, order)


def _next(
    session: Session,
    book: Sequence[Paragraph],
    here: Spot,
    wanted: Callable[[int], Request[Any]],
    places: Callable[[Any], Iterable[_Place]],
    order: range,
) -> Found | None:
    """The first spot beyond another one, once around the book."""
    rounds = [(here.chosen + each) % len(book) for each in order]
    is_back = order.step < 0
    for turn, (chosen, found) in enumerate(_found(session, book, rounds, wanted)):
        for place, mark in places(found):
            spot = Spot(chosen, place, mark)
            is_beyond = spot < here if is_back else spot > here
            # the first paragraph comes twice: from the cursor on, and up to it
            if turn or is_beyond:
                return Found(spot, not is_beyond, spot == here)
    return None


def _found(
    session: Session,
    book: Sequence[Paragraph],
    rounds: list[int],
    wanted: Callable[[int], Request[Any]],
) -> Iterator[tuple[int, Any]]:
    """Paragraphs with what was asked of each, in groups, so that no more is asked than needed."""
    rest = iter(rounds)
    while group := list(islice(rest, _BATCH)):
        asked = [wanted(book[chosen].id) for chosen in group]
        yield from zip(group, list(answers(session, asked)))
