"""Lines of the screen: pieces of text that look in some way, the cursor, and the places on each."""

from dataclasses import dataclass
from functools import lru_cache

from braildesk.text.cells import BLANKS
from braildesk.text.characters import visible
from braildesk.text.sequences import seams
from braildesk.text.spans import Span
from braildesk.text.wrapping import columns

PLAIN, HIGHLIGHTED, MARKED, CHOSEN, HEAD = "", "highlighted", "marked", "chosen", "head"
# what is highlighted and marked
BOTH = "both"


@dataclass(frozen=True)
class Run:
    """Some text of a line, and how it looks."""

    text: str
    look: str = PLAIN


Line = tuple[Run, ...]


@dataclass(frozen=True)
class Area:
    """Some lines, and the cursor where it stands in them: a line and a character."""

    lines: list[Line]
    cursor: tuple[int, int] | None = None


def filled(lines: list[Line], room: int) -> list[Line]:
    """As many lines as there is room for, empty ones at the end."""
    return (lines + [(Run(""),)] * room)[:room]


def shown(character: str) -> str:
    """What stands on the screen for a character: a tab is a blank there."""
    return " " if character == "\t" else visible(character)


def rows(text: str, width: int) -> list[Span]:
    """The places on each line, all of them, broken after blanks; at least one line.

    The last column is left free for a blank at which a line is broken, or for the place after the
    text, which begins a line where that blank is the last character. A word that is longer than a
    line is cut, and no combining sequence is.
    """
    room = max(1, width - 1)
    found: list[Span] = []
    start = broken = taken = since = 0
    places = seams(text)
    for place, stop in zip(places, places[1:]):
        size = sum(map(_size, text[place:stop]))
        is_blank = text[place] in BLANKS
        if taken + size > room and place > start and not (is_blank and taken <= room):
            if broken <= start:
                broken, since = place, taken
            found.append(Span(start, broken))
            start, taken = broken, taken - since
            since = 0
        taken += size
        if is_blank:
            broken, since = stop, taken
    found.append(Span(start, len(text)))
    if taken > room:
        found.append(Span(len(text), len(text)))
    return found


# a long text is parted again at each key
@lru_cache(maxsize=4096)
def _size(character: str) -> int:
    return columns(shown(character))


def beside(text: str, width: int, place: int, by: int) -> int | None:
    """The place under one of the line before, or over one of the line after; None if none is."""
    lines = rows(text, width)
    here = row_of(lines, place)
    if not 0 <= here + by < len(lines):
        return None
    row, is_last = lines[here + by], here + by == len(lines) - 1
    column = sum(map(_size, text[lines[here].start : place]))
    within = [each for each in seams(text) if row.start <= each < row.stop]
    within += [row.stop] if is_last or not within else []
    taken, found = 0, row.start
    for start, stop in zip(within, within[1:]):
        taken += sum(map(_size, text[start:stop]))
        if taken > column:
            break
        found = stop
    return found


def row_of(lines: list[Span], place: int) -> int:
    """The line on which a place stands; the last one for the place after the text."""
    for number, line in enumerate(lines):
        if place < line.stop:
            return number
    return len(lines) - 1
