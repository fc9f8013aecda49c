"""The place of words in a paragraph, the cells that they have, and the words that cells stand for."""

import re
from collections.abc import Sequence
from dataclasses import dataclass
from typing import Any

from braildesk import Session
from braildesk.desk import Problem
from braildesk.desk.readings import answers
from braildesk.protocol.codes import Code
from braildesk.protocol.requests import CommandOnParagraph, Whence, Where
from braildesk.refusals import refused
from braildesk.text.cells import EMPTY_CELL
from braildesk.text.spans import Span, find_spans

_WORD = re.compile(r"\S+")
_RUN = re.compile(f"[^{EMPTY_CELL}]+")


class NoPlace(Problem):
    """The words stand nowhere in the print of a paragraph."""

    def __init__(self, sought: str, text: str, paragraph: int) -> None:
        super().__init__(sought, text, paragraph)
        self.sought = sought
        self.text = text
        self.paragraph = paragraph


class ManyPlaces(Problem):
    """The words stand in more than one place and nothing says which, or there is no nth place."""

    def __init__(
        self,
        sought: str,
        text: str,
        paragraph: int,
        places: tuple[Span, ...],
        nth: int | None,
    ) -> None:
        super().__init__(sought, text, paragraph, places, nth)
        self.sought = sought
        self.text = text
        self.paragraph = paragraph
        self.places = places
        self.nth = nth


@dataclass(frozen=True)
class Words:
    """Words that stand in a paragraph: which, and in which of their places, counted from 1."""

    paragraph: int
    text: str
    nth: int | None = None

    def place(self, text: str) -> Span:
        """The place in the print of the paragraph where they stand just once, or the nth.

        Raises `NoPlace` and `ManyPlaces`.
        """
        found = find_spans(text, self.text)
        if not found:
            raise NoPlace(self.text, text, self.paragraph)
        nth = 1 if self.nth is None and len(found) == 1 else self.nth
        if nth is None or nth > len(found):
            raise ManyPlaces(self.text, text, self.paragraph, found, nth)
        return found[nth - 1]


def place_in(
    session: Session, words: Words, text: str, asked: CommandOnParagraph[Any]
) -> Span:
    """The same as `Words.place`; but what is asked of a struck paragraph is refused in any case.

    So nobody has to say first which of the places is meant.
    """
    try:
        return words.place(text)
    except ManyPlaces:
        judge_struck(session, words.paragraph, asked)
        raise


def judge_struck(
    session: Session, paragraph: int, asked: CommandOnParagraph[Any]
) -> None:
    """Refuses what is asked of a paragraph if that is struck."""
    book = session.paragraphs()
    if any(each.struck for each in book if each.id == paragraph):
        raise refused(Code.STRUCK, asked) from None


def cells_of(session: Session, paragraph: int, words: Span) -> Span:
    """The fewest cells that a mark on words has to stand on.

    The last is the first cell of the last character: a mark on it stands for all of the print that
    was made into cells together with that character.
    """
    first = session.output_position(paragraph, words.start)
    last = session.output_position(paragraph, words.stop - 1)
    return Span(first, last + 1)


def all_cells_of(
    session: Session, paragraph: int, words: Span, length: int, braille: str
) -> Span:
    """The cells of words, with the signs before them and all that was made with the last character.

    The print has so many characters.
    """
    first = last = session.output_position(paragraph, words.start)
    if words.stop - words.start > 1:
        last = session.output_position(paragraph, words.stop - 1)
    for later in range(words.stop, length):
        stop = session.output_position(paragraph, later)
        if stop != last:
            return Span(first, stop)
    return Span(first, len(braille))


def words_of(
    session: Session, paragraph: int, cells: Span, text: str, braille: str
) -> Span:
    """The print that cells stand for, with all that was made into the first and the last of them."""
    start = session.input_position(paragraph, cells.start)
    last = session.input_position(paragraph, cells.stop - 1)
    for cell in range(cells.stop, len(braille)):
        place = session.input_position(paragraph, cell)
        if place != last:
            return Span(start, place)
    return Span(start, len(text))


@dataclass(frozen=True)
class Character:
    """A place of the print of a paragraph, which has some braille."""

    paragraph: int
    place: int
    text: str
    braille: str


def cells_on_lines(session: Session, asked: Sequence[Character]) -> list[int]:
    """A cell on the line of each of some characters.

    It is the first that was made for the character; but a line may be broken at an empty cell among
    those that were made as one, so it is the first of the character's word there. A blank before the
    first of these words goes with it.
    """
    cells = list(answers(session, (Where(its.paragraph, its.place) for its in asked)))
    whences = (Whence(its.paragraph, cell) for its, cell in zip(asked, cells))
    firsts = list(answers(session, whences))
    return [
        _of_word(session, its, first, cell)
        for its, first, cell in zip(asked, firsts, cells)
    ]


def _of_word(session: Session, its: Character, first: int, cell: int) -> int:
    """The first cell of the word of a character, by the first place and cell made as one with it."""
    count = len(_WORD.findall(its.text, first, its.place + 1))
    if count < 2 and its.braille[cell] != EMPTY_CELL:
        return cell
    _, runs = made_as_one(session, its.paragraph, cell, its.text, its.braille)
    return runs[min(max(count, 1), len(runs)) - 1].start if runs else cell


def words_on_line(
    session: Session, paragraph: int, cells: Span, text: str, braille: str
) -> Span:
    """The print that stands on the line of some cells, of which the first and the last have dots."""
    start, stop = words_of(session, paragraph, cells, text, braille)
    words, runs = made_as_one(session, paragraph, cells.start, text, braille)
    begun = sum(run.start <= cells.start for run in runs)
    if words:
        start = words[min(begun, len(words)) - 1].start
    words, runs = made_as_one(session, paragraph, cells.stop - 1, text, braille)
    begun = sum(run.start < cells.stop for run in runs)
    if begun < min(len(words), len(runs)):
        stop = words[begun - 1].stop
    return Span(start, stop)


def made_as_one(
    session: Session, paragraph: int, cell: int, text: str, braille: str
) -> tuple[list[Span], list[Span]]:
    """The words, and the runs of cells with dots, of what was made into cells as one with a cell."""
    its = words_of(session, paragraph, Span(cell, cell + 1), text, braille)
    start, stop = session.output_position(paragraph, its.start), len(braille)
    if its.stop < len(text):
        stop = session.output_position(paragraph, its.stop)
    words = [Span(*found.span()) for found in _WORD.finditer(text, *its)]
    return words, [Span(*found.span()) for found in _RUN.finditer(braille, start, stop)]
