"""Keys that move the cursor: to other paragraphs, by the lines of one, and along it."""

from collections.abc import Callable
from dataclasses import replace

from braildesk.text.sequences import seams

from scribe.screen.field import Field, Purpose
from scribe.screen.lines import beside
from scribe.screen.state import Pane, State, Step


def by_paragraphs(by: int) -> Callable[[State], Step]:
    """To another paragraph, so many further on."""
    return lambda state: _to_paragraph(state, state.chosen + by)


def by_lists(by: int) -> Callable[[State], Step]:
    """To another paragraph, so many lists of them further on."""
    return lambda state: _to_paragraph(state, state.chosen + by * state.list_lines)


def _to_paragraph(state: State, place: int) -> Step:
    """To the paragraph at a place of the book, or to the last one before that place."""
    within = max(0, min(place, len(state.book) - 1))
    if within == state.chosen != place:
        return Step(state.saying(no_further(place < 0)))
    return Step(state.at(within))


def to_end_of_book(state: State, is_back: bool) -> Step:
    """To the last paragraph, or to the first one."""
    moved = state.at(0 if is_back else len(state.book))
    if (moved.chosen, moved.place) == (state.chosen, state.place):
        return Step(state.saying(no_further(is_back)))
    return Step(moved)


def no_further(is_back: bool) -> str:
    """What is said where no paragraph comes before or after."""
    return f"It is the {'first' if is_back else 'last'} paragraph of the book."


def _placed(state: State, place: int, is_back: bool) -> Step:
    """The cursor at a place of the paragraph, or what is said if it stands there already."""
    if place != state.place:
        return Step(replace(state, place=place, highlighted=None))
    where = "front" if is_back else "end"
    said = f"This is the {where} of the paragraph."
    return Step(state.saying(said if _text(state) else "The paragraph is empty."))


def by_row(by: int) -> Callable[[State], Step]:
    """To the line of the paragraph before or after, as it stands on the screen."""

    def moved(state: State) -> Step:
        text = _text(state)
        place = beside(text, state.size.columns, state.place, by)
        if place is None:
            return Step(state.saying(no_line(by)))
        return _placed(state, min(place, max(0, len(text) - 1)), by < 0)

    return moved


def no_line(by: int) -> str:
    """What is said where no line of the paragraph comes before or after."""
    return f"This is the {'first' if by < 0 else 'last'} line of the paragraph."


def along(state: State, is_back: bool) -> Step:
    """To the character or the cell beside; cells are single, and characters are sequences."""
    text = _text(state)
    places = seams(text) if state.pane is Pane.PRINT else list(range(len(text)))
    others = [n for n in places if n < len(text)]
    nearer = [n for n in others if (n < state.place if is_back else n > state.place)]
    place = (max(nearer) if is_back else min(nearer)) if nearer else state.place
    return _placed(state, place, is_back)


def to_end(state: State, is_back: bool) -> Step:
    """To the end of the paragraph, or to its front."""
    text = _text(state)
    last = seams(text)[-2] if text and state.pane is Pane.PRINT else len(text) - 1
    return _placed(state, 0 if is_back else max(0, last), is_back)


def by_word(state: State, is_back: bool) -> Step:
    """To the next word, to its end while cells are chosen, or to the word before."""
    text = _text(state).replace("\u2800", " ")
    if state.anchor is not None and state.pane is Pane.CELLS and not is_back:
        return _placed(state, _word_end(text, state.place), is_back)
    moved = Field(Purpose.EDIT, text, state.place).moved(
        "c-left" if is_back else "c-right"
    )
    assert moved is not None
    return _placed(state, min(moved.place, max(0, len(text) - 1)), is_back)


def _word_end(text: str, place: int) -> int:
    """The last place of the word, or of the next one if this is the last place already."""
    rest = text[place + 1 :]
    if not rest.strip(" "):
        return place
    stop = text.find(" ", place + 1 + len(rest) - len(rest.lstrip(" ")))
    return (len(text) if stop < 0 else stop) - 1


def _text(state: State) -> str:
    if state.reading is None:
        return ""
    return state.reading.text if state.pane is Pane.PRINT else state.reading.braille


def other_pane(state: State) -> Step:
    """From the print to the cells of the same words, or back."""
    pane = Pane.CELLS if state.pane is Pane.PRINT else Pane.PRINT
    place = 0
    if state.highlighted:
        highlighted = (
            state.highlighted.cells if pane is Pane.CELLS else state.highlighted.words
        )
        place = highlighted.start
    return Step(replace(state, pane=pane, place=place, anchor=None, highlighted=None))
