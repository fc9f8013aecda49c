"""The cursor at what was looked for, and what is said of the way there."""

from dataclasses import replace

from braildesk import Mark, Session
from braildesk.desk import search
from braildesk.desk.find import alike, unlike
from braildesk.desk.places import all_cells_of
from braildesk.text.cells import NotCells, braille_patterns
from braildesk.text.characters import code_and_name
from braildesk.text.sequences import composed
from braildesk.text.spans import Span, find_spans

from scribe.screen.actions import ToFound, ToMark
from scribe.screen.in_hand import at_mark
from scribe.screen.state import Pane, State, WordsFound
from scribe.words.find import in_words
from scribe.words.paragraph import mark_line, quoted

# on so many lines what is said covers the marks
_FEW = 4


def to_found(session: Session, state: State, action: ToFound) -> State:
    """The state with the cursor at the next place of words, or of cells while it is on cells."""
    sought = action.sought
    if state.pane is Pane.CELLS:
        return _to_cells(session, state, sought)
    finds_alike = action.is_again and state.finds_alike
    state = replace(state, finds_alike=finds_alike)
    form = alike if finds_alike else composed
    here = search.Spot(state.chosen, state.place)
    found = search.next_words(session, state.book, here, sought, form)
    if found is None:
        return _with_others_alike(session, state, sought)
    text = session.print_of(state.book[found.spot.chosen].id)
    places = find_spans(text, sought, form)
    (words,) = (each for each in places if each.start == found.spot.place)
    return _at_found(session, state, found, words.stop - words.start)


def to_mark(session: Session, state: State, action: ToMark) -> State:
    """The state with the cursor at the next open mark, or at the one before."""
    # it is one while the cursor is where it was, on print or on cells
    here, held = state, state.mark_in_hand
    if state.pane is Pane.CELLS:
        place = state.highlighted.words.start if state.highlighted else 0
        here = replace(state, pane=Pane.PRINT, place=place)
    spot = _spot_of_mark(here, held)
    found = search.next_mark(session, here.book, spot, action.is_back)
    if found is None:
        return state.saying("The book has no open marks.")
    state = at_mark(replace(here, anchor=None), found, action.is_back, spot)
    return _saying_mark(session, state, found)


def _saying_mark(session: Session, state: State, found: search.Found) -> State:
    """The state in which a mark is said too, where it has no row beside what is said."""
    lines = state.size.lines
    if lines > _FEW or lines > 2 and not state.message:
        return state
    number = state.book[found.spot.chosen].id
    mark = next(m for m in session.marks_of(number) if m.id == found.spot.mark)
    line = mark_line(mark, session.print_of(number))
    return state.saying(f"{line} {state.message}".rstrip())


def _spot_of_mark(state: State, held: Mark | None) -> search.Spot:
    """The spot of the mark in hand, or of the one that is shown first if it begins at the cursor."""
    shown = held
    if shown is None:
        begins = (mark for mark in state.marks_here if mark.start == state.place)
        shown = next((mark for mark in begins if mark == state.marks_here[0]), None)
    if shown is None:
        return search.Spot(state.chosen, state.place)
    return search.Spot(state.chosen, shown.start, shown.id)


def _to_cells(session: Session, state: State, sought: str) -> State:
    try:
        cells = braille_patterns(sought)
    except NotCells as fault:
        character = code_and_name(str(fault))
        return state.saying(
            f"{character} is no cell in Braille ASCII or Unicode. Tab goes to the print."
        )
    state = replace(state, finds_alike=False)
    here = search.Spot(state.chosen, state.place)
    found = search.next_cells(session, state.book, here, cells)
    if found is None:
        said = f"{quoted(sought)} isn't in the cells of the book."
        return state.saying(said)
    return _at_found(session, state, found, len(cells))


def _with_others_alike(session: Session, state: State, sought: str) -> State:
    """What is said of words that stand nowhere: where there are others like them, to go to."""
    here = search.Spot(state.chosen, state.place)
    found = search.next_words(session, state.book, here, sought, alike)
    if found is None:
        said = f"{quoted(sought)} isn't in the print of the book."
        return state.saying(said)
    spot = found.spot
    number = state.book[spot.chosen].id
    text = session.print_of(number)
    places = find_spans(text, sought, alike)
    place = next(each for each in places if each.start == spot.place)
    how = in_words(unlike(sought, text[place.start : place.stop]))
    said = (
        f"{quoted(sought)} isn't in the print as typed; with {how} it is in paragraph"
        f" {number}: * goes there."
    )
    return replace(state, finds_alike=True).saying(said)


def _at_found(session: Session, state: State, found: search.Found, count: int) -> State:
    """The state with the cursor at what was looked for, of so many characters or cells."""
    spot, what = found.spot, quoted(state.sought)
    if state.finds_alike:
        what = f"{what} in any form"
    # the print may have as words what is looked for as cells, and a note has both
    where = f"the {'cells' if state.pane is Pane.CELLS else 'print'} of the book"
    said = ""
    if found.is_same:
        said = f"{what} is nowhere else in {where}."
    elif found.is_around:
        said = f"{what} isn't further on; this is the first in {where}."
    its, span = state.book[spot.chosen], Span(spot.place, spot.place + count)
    number, braille, cells = its.id, session.braille_of(its.id), span
    if state.pane is Pane.PRINT:
        cells = all_cells_of(session, number, span, its.length, braille)
    words = WordsFound(number, state.pane, spot.place, cells, braille, count)
    return replace(state.at(spot.chosen, spot.place), found=words).saying(said)
