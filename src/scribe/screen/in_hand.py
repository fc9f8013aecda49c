"""The mark in hand: which one is worked on once the cursor or the print has changed.

Before a new one is put, its note is asked for, and the words are said on which it will be.
"""

from dataclasses import replace
from typing import Any

from braildesk import Mark, Session, requests
from braildesk.desk.places import words_of
from braildesk.desk.search import Found, Spot
from braildesk.protocol.requests import Command
from braildesk.text.spans import Span

from scribe.screen.field import Purpose
from scribe.screen.state import InHand, Pane, State, prompted
from scribe.words.paragraph import marked_words as where
from scribe.words.paragraph import quoted

_FIRST = "No open mark begins {}: this is the first in the book."
_LAST = "No open mark begins {}: this is the last in the book."
# said before it is put, since the book keeps it
_OF_MARK = "r resolves a mark, and nothing takes it out."
#: Of how many lines a screen is on which a mark has a row, and on which its words are seen beside its note.
_WITH_ROW, _WITH_NOTE = 3, 2


def at_mark(state: State, found: Found, is_back: bool, since: Spot) -> State:
    """The state with the cursor at an open mark that was looked for from a spot, which is in hand there."""
    spot = found.spot
    # a mark without words may stand after the last character
    place = max(0, min(spot.place, state.book[spot.chosen].length - 1))
    has_moved = (spot.chosen, place) != (state.chosen, state.place)
    state = holding(state.at(spot.chosen, place), spot.mark)
    if found.is_same:
        return state.saying("The book has no other open mark.")
    if found.is_around:
        around = _LAST if is_back else _FIRST
        return state.saying(around.format(_way(since, is_back)))
    if has_moved or spot.place != place:
        return state
    return state.saying(f"Mark {spot.mark} begins here.")


def at_words_of(session: Session, state: State, command: Command[Any]) -> State:
    """The state with the cursor on the words, or on the cells, of a mark that a command puts or resolves."""
    assert state.paragraph is not None
    number, length = state.paragraph.id, state.paragraph.length
    place, is_print = state.place, state.pane is Pane.PRINT
    if isinstance(command, requests.Mark):
        place = command.cell
        if is_print:
            cells = Span(place, place + command.count)
            words = marked_words(session, number, cells)
            place = words.start if words is not None else 0
    elif isinstance(command, requests.Resolve) and length:
        marks = session.marks_of(number)
        its = next(each for each in marks if each.id == command.mark)
        place = min(its.start, length - 1)
        place = place if is_print else session.output_position(number, place)
    return state.at(state.chosen, place)


def _way(since: Spot, is_back: bool) -> str:
    """From where it was gone around to another mark: from one that was in hand, or from the cursor.

    Others may be on the words of the cursor, and begin elsewhere.
    """
    if since.mark > 0:
        return f"{'before' if is_back else 'after'} mark {since.mark}"
    return "further back" if is_back else "further on"


def with_mark_in_hand(state: State, before: State) -> State:
    """The state after a command, with the mark in hand that was worked on before it.

    That is the open mark on which an edit began, so that r resolves it wherever in its paragraph
    the edit ended; or else one that the command put, or one that it touched elsewhere. Where any
    that were touched are elsewhere, or none has a row, all are said.
    """
    if state.reading is None or before.reading is None:
        return state
    if state.reading.paragraph.id != before.reading.paragraph.id:
        return state
    old, text = {m.id: m.touched for m in before.reading.marks}, state.reading.text
    fresh = [m for m in state.reading.marks if m.touched and old.get(m.id) is False]
    put = [mark for mark in state.reading.marks if mark.id not in old]
    begun = None
    if before.typed is not None and before.typed.purpose is Purpose.EDIT:
        begun = next((m for m in before.marks_here if not m.resolved), None)
    if begun is not None:
        state = holding(state, begun.id)
    elif put:
        state = holding(state, put[-1].id)
    elif fresh and not set(fresh) & set(state.marks_here):
        state = holding(state, fresh[0].id)
    # of those of which the screen shows one, it may show only a line
    is_elsewhere = any(mark not in state.marks_here for mark in fresh)
    if is_elsewhere:
        state = state.saying(touched(fresh))
    elif fresh and state.size.lines < _WITH_ROW:
        state = state.saying_too(touched(fresh))
    if put and state.size.lines < _WITH_NOTE:
        state = state.saying_too(f"It is {where(put[-1], text)}.")
    return state


def left_here(state: State) -> State:
    """The state after a mark was resolved: others that are still open here are said."""
    # the one in hand may be elsewhere
    here = filter(state.is_on, state.marks_here)
    count = sum(not mark.resolved for mark in here)
    if not count:
        return state
    left = "1 open mark is" if count == 1 else f"{count} open marks are"
    first = state.marks_here[0].id
    return state.saying(f"{left} left here; r resolves mark {first}.")


def holding(state: State, mark: int) -> State:
    """The state with a mark in hand where the cursor is."""
    assert state.paragraph is not None
    held = InHand(mark, state.paragraph.id, state.pane, state.place)
    return replace(state, in_hand=held)


def asked_for_note(session: Session, state: State, cells: Span) -> State:
    """The state in which the note of a mark is typed; said are all the words that it will be on."""
    assert state.paragraph is not None
    number = state.paragraph.id
    state = prompted(state, Purpose.NOTE, on_words(session, number, cells), _OF_MARK)
    assert state.typed is not None
    words = marked_words(session, number, cells)
    return replace(state, typed=replace(state.typed, words=words))


def on_words(session: Session, paragraph: int, cells: Span) -> str:
    """All the words that a mark on cells will be on; nothing if the paragraph has no cells."""
    words = marked_words(session, paragraph, cells)
    if words is None:
        return ""
    return f"On {quoted(session.print_of(paragraph)[words.start : words.stop])}."


def marked_words(session: Session, paragraph: int, cells: Span) -> Span | None:
    """Where these words stand in the print; none if the paragraph has no cells."""
    text, braille = session.print_of(paragraph), session.braille_of(paragraph)
    return words_of(session, paragraph, cells, text, braille) if braille else None


def touched(marks: list[Mark]) -> str:
    """What is said of marks that were touched; nothing if there are none."""
    numbers = [str(mark.id) for mark in marks]
    if not numbers:
        return ""
    if len(numbers) == 1:
        return f"This touched mark {numbers[0]}."
    return f"This touched the marks {', '.join(numbers[:-1])} and {numbers[-1]}."
