"""Marks: on words of a paragraph, and all those of a book."""

from dataclasses import dataclass
from typing import NamedTuple

from braildesk import Mark, Session
from braildesk.desk import Problem
from braildesk.desk.places import Words, cells_of, place_in
from braildesk.desk.readings import answers, prints
from braildesk.protocol import requests
from braildesk.text.spans import Span


# made in 0.4 of the time of a dataclass, since a book may have a hundred thousand
class MarkOfBook(NamedTuple):
    """A mark, and the number and the print of the paragraph in which it is."""

    mark: Mark
    paragraph: int
    text: str
    #: Whether that paragraph is struck.
    is_struck: bool = False


class NoMark(Problem):
    """The book has no mark of this number."""

    def __init__(self, number: int) -> None:
        super().__init__(number)
        self.number = number


def all_marks(session: Session) -> list[MarkOfBook]:
    """The marks of a book, the open ones first, by paragraph and place."""
    return sorted(_in_order(session), key=lambda each: each.mark.resolved)


def _in_order(session: Session) -> list[MarkOfBook]:
    """The marks of a book by paragraph and first character, as they are looked for."""
    book = session.paragraphs()
    marks = list(answers(session, (requests.Marks(each.id) for each in book)))
    pairs = [(each, its) for each, its in zip(book, marks) if its]
    texts = prints(session, [each for each, _ in pairs])
    return [
        MarkOfBook(mark, paragraph.id, text, paragraph.struck)
        for (paragraph, its), text in zip(pairs, texts)
        for mark in sorted(its, key=lambda mark: (mark.start, mark.id))
    ]


@dataclass(frozen=True)
class NextMark:
    """The open mark that comes next, if there is one, and how many others are open."""

    mark: MarkOfBook | None
    others: int
    #: Whether it was looked for from the front of the book again.
    is_from_front: bool


def next_open(session: Session, after: int | None) -> NextMark:
    """The next open mark after one of the book, or its first one; raises `NoMark`.

    After the last one comes the first again.
    """
    placed = _in_order(session)
    numbers = [each.mark.id for each in placed]
    if after is not None and after not in numbers:
        raise NoMark(after)
    place = 0 if after is None else numbers.index(after) + 1
    later, earlier = (
        [each for each in part if not each.mark.resolved]
        for part in (placed[place:], placed[:place])
    )
    found = [*later, *earlier]
    if not found:
        return NextMark(None, 0, False)
    return NextMark(found[0], len(found) - 1, not later)


@dataclass(frozen=True)
class MarkedWords:
    """A mark that was put on words, where these stand in the print, and the version since then."""

    version: int
    mark: Mark
    text: str
    place: Span

    @property
    def is_wider(self) -> bool:
        """Whether the cells of the words stand for print beside them too."""
        return self.place != Span(self.mark.start, self.mark.stop)


def mark_words(session: Session, words: Words, note: str) -> MarkedWords:
    """Puts a mark on the cells of words of a paragraph; raises `NoPlace` and `ManyPlaces`."""
    number = words.paragraph
    text = session.print_of(number)
    version = session.last_version
    place = place_in(session, words, text, requests.Mark(number, 0, 0, note))
    cells = cells_of(session, number, place)
    count = cells.stop - cells.start
    made = session.add_mark(number, cells.start, count, note, expect=version)
    (mark,) = (each for each in session.marks_of(number) if each.id == made.id)
    return MarkedWords(made.version, mark, text, place)
