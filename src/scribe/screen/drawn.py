"""What is drawn of the listed and the chosen paragraphs, as the session with the book gives it."""

from dataclasses import replace
from typing import Any

from braildesk import Session, requests
from braildesk.desk.highlighting import (
    Highlighted,
    cells_of_marks,
    highlighted_by_cell,
    highlighted_by_character,
)
from braildesk.desk.readings import ParagraphReading, answers
from braildesk.protocol.requests import Request
from braildesk.text.excerpt import opening

from scribe.screen.state import Opening, Pane, State

# the first words of a listed paragraph are kept as long as any line may be
_WORDS = 300


def refreshed(session: Session, state: State) -> State:
    """The state with all that is drawn of the listed and the chosen paragraphs."""
    unread = [each for each in state.listed if each.id not in state.openings]
    if unread:
        openings = {**state.openings, **_openings(session, [p.id for p in unread])}
        state = replace(state, openings=openings)
    paragraph = state.paragraph
    if paragraph is None:
        return replace(state, reading=None, highlighted=None)
    if state.reading is None or state.reading.paragraph != paragraph:
        text, cells, marks = answers(session, _of(paragraph.id))
        reading = ParagraphReading(paragraph, text, cells, marks)
        marked = cells_of_marks(session, reading)
        state = replace(state, reading=reading, marked_cells=marked, highlighted=None)
    assert state.reading is not None
    if state.highlighted is None:
        its = state.reading
        whole = its.text if state.pane is Pane.PRINT else its.braille
        place = max(0, min(state.place, len(whole) - 1))
        light = _highlighted(session, its, state.pane, place)
        state = replace(state, place=place, highlighted=light)
    return state


def _highlighted(
    session: Session, its: ParagraphReading, pane: Pane, place: int
) -> Highlighted:
    by = highlighted_by_cell if pane is Pane.CELLS else highlighted_by_character
    return by(session, its, place)


def _openings(session: Session, numbers: list[int]) -> dict[int, Opening]:
    asked: list[Request[Any]] = []
    for number in numbers:
        asked += [requests.Print(number), requests.Marks(number)]
    found = iter(list(answers(session, asked)))
    return {
        number: Opening(opening(text, _WORDS), sum(not mark.resolved for mark in marks))
        for number, text, marks in zip(numbers, found, found)
    }


def _of(number: int) -> list[Request[Any]]:
    return [requests.Print(number), requests.Braille(number), requests.Marks(number)]
