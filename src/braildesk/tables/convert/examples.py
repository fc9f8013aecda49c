"""Examples that rules are learned from: tokens, which stand between blanks, with liblouis's cells.

A token with a mark or a digit at one of its ends is asked for between words, since marks look
beyond blanks.
"""

from __future__ import annotations

from collections.abc import Callable, Mapping, Sequence
from dataclasses import dataclass, field
from itertools import islice
from typing import Final

from braildesk.tables.convert.chooser import Choice, Chooser, Print, cells_of
from braildesk.tables.convert.oracle import Liblouis, Piece
from braildesk.tables.operands import Cells

AT_ONCE: Final = 5_000
"""How many tokens are asked for before it is said how many are done."""

NOWHERE: Final = -1

Progress = Callable[[int, int], None]
"""Takes how many are done, of how many."""


@dataclass(slots=True, eq=False)
class Example:
    """A token in its frame, with the cells that it is to have and those that are chosen for it."""

    seen: Print
    wanted: Cells
    starts: Sequence[int]
    """Of each place of the print, and of its end, where in the cells its piece begins, or NOWHERE."""
    first: int
    last: int
    """Where the token begins and ends within its frame; a blank of the frame is on either side."""
    weight: float
    choices: list[Choice] = field(default_factory=list)
    is_right: bool = False

    @property
    def token(self) -> str:
        return self.seen.text[self.first : self.last]

    def choose(self, chooser: Chooser) -> None:
        """Chooses anew."""
        self.choices = chooser.choices(self.seen)
        self.is_right = cells_of(self.choices) == self.wanted


def examples(
    liblouis: Liblouis,
    chooser: Chooser,
    weights: Mapping[str, float],
    frame: str,
    progress: Progress,
) -> list[Example]:
    """The tokens that the table defines, as examples, each with its weight."""
    tokens = [token for token in weights if token and not chooser.lacking(token)]
    found: list[Example] = []
    rest = iter(tokens)
    done = 0
    while parcel := list(islice(rest, AT_ONCE)):
        framed = [_framed(chooser, token, frame) for token in parcel]
        for token, text, pieces in zip(
            parcel, framed, liblouis.pieces(framed), strict=True
        ):
            if pieces:
                margin = (len(text) - len(token)) // 2
                found.append(_example(chooser, text, pieces, margin, weights[token]))
        done += len(parcel)
        progress(done, len(tokens))
    return found


def _framed(chooser: Chooser, token: str, frame: str) -> str:
    if chooser.is_word(token):
        return token
    return f"{frame} {token} {frame}"


def _example(
    chooser: Chooser, text: str, pieces: Sequence[Piece], margin: int, weight: float
) -> Example:
    starts = [NOWHERE] * (len(text) + 1)
    place = cell = 0
    for piece, cells in pieces:
        starts[place] = cell
        place += len(piece)
        cell += len(cells)
    starts[-1] = cell
    wanted = tuple([one for _, cells in pieces for one in cells])
    seen = chooser.printed(text)
    _begin_with_signs(seen, wanted, starts)
    # the blank of the frame beside the token is within reach of its rules
    first = max(margin - 1, 0)
    last = len(text) - first
    return Example(seen, wanted, starts, first, last, weight)


def _begin_with_signs(seen: Print, wanted: Cells, starts: list[int]) -> None:
    """Has each piece begin with the sign that the table has at its place, if it has that further on.

    Cells before it, as those of a letter that a number follows in German, can be had by a rule for
    what stands before.
    """
    after = starts[-1]
    for place in range(len(seen.text) - 1, -1, -1):
        first, sign = starts[place], seen.sign(place)
        if first == NOWHERE:
            continue
        for at in range(first, after - len(sign) + 1 if sign else first):
            if wanted[at : at + len(sign)] == sign:
                starts[place] = at
                break
        after = first
