"""Which cells belong to a character or to a mark, and which characters to a cell."""

from dataclasses import dataclass

from braildesk import Session
from braildesk.desk.places import (
    Character,
    all_cells_of,
    cells_on_lines,
    words_of,
)
from braildesk.desk.readings import ParagraphReading, answers
from braildesk.protocol.requests import Where
from braildesk.text.sequences import seams
from braildesk.text.spans import Span


@dataclass(frozen=True)
class Highlighted:
    """The characters and the cells that belong to what the cursor stands on."""

    words: Span
    cells: Span


_NOTHING = Highlighted(Span(0, 0), Span(0, 0))


def highlighted_by_cell(
    session: Session, reading: ParagraphReading, cell: int
) -> Highlighted:
    """What is highlighted where the cursor stands on a cell."""
    text, cells, its = reading.text, reading.braille, Span(cell, cell + 1)
    if not text or not cells:
        return _NOTHING
    words = words_of(session, reading.paragraph.id, its, text, cells)
    return Highlighted(words, its)


def highlighted_by_character(
    session: Session, reading: ParagraphReading, place: int
) -> Highlighted:
    """What is highlighted where the cursor stands on a character."""
    text = reading.text
    if not text or not reading.braille:
        return _NOTHING
    after = min(each for each in seams(text) if each > place)
    words = Span(place, after)
    cells = all_cells_of(
        session, reading.paragraph.id, words, len(text), reading.braille
    )
    return Highlighted(words, cells)


def cell_on_line(session: Session, reading: ParagraphReading, its: Highlighted) -> int:
    """A cell on the line of a character that is highlighted."""
    number, text, braille = reading.paragraph.id, reading.text, reading.braille
    if not text or not braille:
        return its.cells.start
    character = Character(number, its.words.start, text, braille)
    (cell,) = cells_on_lines(session, [character])
    return cell


def cells_of_marks(session: Session, reading: ParagraphReading) -> tuple[Span, ...]:
    """The cells of the open marks, with the signs before them."""
    text, number = reading.text, reading.paragraph.id
    spans = {(mark.start, mark.stop) for mark in reading.marks if not mark.resolved}
    asked = {
        place for start, stop in spans for place in (start, max(start, stop - 1), stop)
    }
    places = sorted(place for place in asked if place < len(text))
    # all of them, since the session answers nothing else before
    found = list(answers(session, (Where(number, place) for place in places)))
    cells = dict(zip(places, found))
    cells[len(text)] = len(reading.braille)

    def after(start: int, stop: int) -> int:
        """The cell after a mark, and after all that was made with its last character."""
        if start < stop < len(text) and cells[stop] == cells[stop - 1]:
            words = Span(stop - 1, stop)
            return all_cells_of(session, number, words, len(text), reading.braille).stop
        return cells[stop]

    return tuple(Span(cells[start], after(start, stop)) for start, stop in spans)
