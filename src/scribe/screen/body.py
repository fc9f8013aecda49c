"""The print and the braille of the chosen paragraph, or of what is typed.

Nothing is put in among them that isn't in the book: braces and bars are cells themselves on a
display that shows computer braille, and would shift what follows.
"""

from collections.abc import Sequence
from dataclasses import dataclass
from itertools import groupby

from braildesk.text.cells import braille_ascii, with_dots
from braildesk.text.spans import Span

from scribe.screen.field import Field
from scribe.screen.lines import (
    Area,
    BOTH,
    HIGHLIGHTED,
    Line,
    MARKED,
    PLAIN,
    Run,
    row_of,
    rows,
    shown,
)
from scribe.screen.state import Pane, State

_NOTHING = Span(0, 0)
# what dot 7 and dot 8 say of a cell, if a key asked for them
_DOT_OF_MARK, _DOT_OF_CURSOR = 7, 8


@dataclass(frozen=True)
class _Text:
    """A text, what is highlighted and marked in it, and the place around which it is looked at."""

    text: str
    place: int
    highlighted: Span = _NOTHING
    marked: Sequence[Span] = ()

    def rows(self, width: int) -> list[Span]:
        """The places on each line."""
        return rows(self.text, width)

    def line(self, row: Span) -> Line:
        """A line of it."""
        places = range(row.start, row.stop)
        return tuple(
            Run("".join(shown(self.text[place]) for place in group), look)
            for look, group in groupby(places, key=self._look)
        )

    def column(self, row: Span) -> int:
        """How many characters of a line stand before the place."""
        return sum(len(shown(each)) for each in self.text[row.start : self.place])

    def dotted(self) -> "_Text":
        """Cells with dot 7 where they are marked, and dot 8 where they belong to the cursor."""
        text = with_dots(self.text, _DOT_OF_MARK, self.marked)
        text = with_dots(text, _DOT_OF_CURSOR, [self.highlighted])
        return _Text(text, self.place, self.highlighted, self.marked)

    def _look(self, place: int) -> str:
        is_marked = any(span.start <= place < span.stop for span in self.marked)
        if self.highlighted.start <= place < self.highlighted.stop:
            return BOTH if is_marked else HIGHLIGHTED
        return MARKED if is_marked else PLAIN


def body(state: State, room: int) -> Area:
    """The print and the braille, as many lines of each as there is room for."""
    typed = state.shown
    typed = typed if typed and typed.purpose.is_print else None
    upper, lower = _typed(state, typed) if typed else _kept(state)
    above, below = upper.rows(state.size.columns), lower.rows(state.size.columns)
    print_room = min(len(above), max(room - len(below), (room + 1) // 2))
    in_cells = typed is None and state.pane is Pane.CELLS
    if in_cells and room == 1:
        # the line with the cursor
        print_room = 0
    first = _window(above, upper.place, print_room)
    second = _window(below, lower.place, max(0, room - len(first)))
    lines = [*map(upper.line, first), *map(lower.line, second)]
    if not in_cells:
        return Area(lines, _cursor(upper, first, 0))
    return Area(lines, _cursor(lower, second, len(first)))


def _typed(state: State, typed: Field) -> tuple[_Text, _Text]:
    """What is typed, and its braille as far as it is known."""
    cells = state.preview.braille if state.preview and not state.is_quiet else ""
    place = max(0, len(cells) - 1) * typed.place // (len(typed.text) or 1)
    text = braille_ascii(cells) if state.is_ascii else cells
    return _Text(typed.text, typed.place), _Text(text, place)


def _kept(state: State) -> tuple[_Text, _Text]:
    """The print and the braille as the book has them."""
    reading, light = state.reading, state.highlighted
    if reading is None:
        return _Text("", 0), _Text("", 0)
    in_print = state.pane is Pane.PRINT
    words, cells = (light.words, light.cells) if light else (_NOTHING, _NOTHING)
    upper = _Text(
        reading.text,
        state.place if in_print else words.start,
        words,
        state.marked_words,
    )
    lower = _Text(
        braille_ascii(reading.braille) if state.is_ascii else reading.braille,
        cells.start if in_print else state.place,
        state.chosen_cells or _NOTHING,
        state.marked_cells,
    )
    return upper, lower.dotted() if state.has_dots and not state.is_ascii else lower


def _window(lines: list[Span], place: int, room: int) -> list[Span]:
    """The lines with a place that there is room for.

    They are the same for each place among them, so that none moves while the cursor goes there.
    """
    page = row_of(lines, place) // room * room if room else 0
    start = max(0, min(page, len(lines) - room))
    return lines[start : start + room]


def _cursor(text: _Text, seen: list[Span], above: int) -> tuple[int, int]:
    if not seen:
        return above, 0
    row = row_of(seen, text.place)
    return above + row, text.column(seen[row])
