"""The marks of quotations on a page, which stand beside the first and the last word in them.

A quotation may have paragraphs in it: a mark before the first one or after the last one would be a paragraph
itself, or be left out.
"""

from collections import Counter
from collections.abc import Callable

QUOTATION = "q"
#: The marks, and these of one within another.
_MARKS = (("\u201c", "\u201d"), ("\u2018", "\u2019"))
_PARAGRAPH = "p"
#: What ends no paragraph that is open, and what has nothing in it.
_WITHIN = frozenset(
    "applet area audio br button canvas embed iframe map noscript object output progress"
    " script source style svg video".split()
)
_VOID = frozenset("area br col embed hr isindex source".split())


class Quotations:
    """The quotations that are open on a page which is written anew, with the blocks that are."""

    def __init__(self, pieces: list[str], put: Callable[[int, int, str], None]) -> None:
        self._pieces = pieces
        self._put = put
        #: The quotations and blocks that are open, from the outermost on, and how many there are of each.
        self._open: list[str] = []
        self._counts: Counter[str] = Counter()
        #: The marks that nothing is after yet, each with the number of the piece at which it stands.
        self._waiting: list[tuple[int, str]] = []
        #: The number of the piece after what was last shown.
        self._last = 0
        #: Whether a block has begun or ended since.
        self._is_parted = False

    @property
    def are_open(self) -> bool:
        """Whether there are any."""
        return self._counts[QUOTATION] > 0

    def begin(self, place: int) -> None:
        """Begins one at a place of the page."""
        mark = _MARKS[self._counts[QUOTATION] % 2][0]
        if not self._waiting:
            self._is_parted = False
        self._waiting.append((self._stand(place), mark))
        self._enter(QUOTATION)

    def end(self, place: int) -> None:
        """Ends the newest one at a place of the page, unless a block is open in it."""
        if self._open[-1:] == [QUOTATION]:
            self._leave(QUOTATION, place)

    def begin_block(self, tag: str, place: int) -> None:
        """Begins a block, which ends a paragraph that is open with the quotations in it."""
        if tag not in _WITHIN and self._counts[_PARAGRAPH]:
            self._leave(_PARAGRAPH, place)
        if tag not in _VOID:
            self._enter(tag)
        self._is_parted = True

    def end_block(self, tag: str, place: int) -> None:
        """Ends a block with the quotations in it."""
        if self._counts[tag]:
            self._leave(tag, place)
        self._is_parted = True

    def end_all(self, place: int) -> None:
        """Ends those that nothing ended before the end of the page."""
        while self._open:
            self._leave(self._open[-1], place)

    def show(self, start: int, stop: int) -> None:
        """Takes a part of the page for print, before which the marks stand that wait."""
        if self._is_parted and self._waiting:
            self._put(start, start, "".join(mark for _, mark in self._waiting))
        elif self._waiting:
            self._write_waiting()
        self._waiting = []
        self._is_parted = False
        self._last = self._stand(stop)

    def _write_waiting(self) -> None:
        for number, mark in self._waiting:
            self._pieces[number] += mark

    def _stand(self, place: int) -> int:
        """The number of a piece at a place of the page, which may get a mark."""
        self._put(place, place, "")
        return len(self._pieces) - 1

    def _enter(self, tag: str) -> None:
        self._open.append(tag)
        self._counts[tag] += 1

    def _leave(self, tag: str, place: int) -> None:
        left = ""
        while left != tag:
            left = self._open.pop()
            self._counts[left] -= 1
            if left == QUOTATION:
                self._end_mark(place)

    def _end_mark(self, place: int) -> None:
        mark = _MARKS[self._counts[QUOTATION] % 2][1]
        if self._waiting:
            # there is nothing in it
            self._write_waiting()
            self._waiting = []
            self._is_parted = False
        if self._is_parted:
            self._pieces[self._last] += mark
        else:
            self._last = self._stand(place)
            self._pieces[self._last] += mark
