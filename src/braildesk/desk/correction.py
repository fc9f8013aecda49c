"""The smallest correction that makes one print of another.

What a correction takes away and puts in decides which marks are touched, so it is as small as it can
be without cutting a combining sequence.
"""

from bisect import bisect_left, bisect_right
from dataclasses import dataclass
from itertools import takewhile
from os.path import commonprefix

from braildesk.text.sequences import composed, seams, sequences


@dataclass(frozen=True)
class Correction:
    """Puts a text in place of so many characters from a place on, as the request `correct` does."""

    start: int
    count: int
    text: str

    @property
    def stop(self) -> int:
        """The place after the last character that goes."""
        return self.start + self.count

    def applied(self, text: str) -> str:
        """The print that the correction makes of one."""
        return text[: self.start] + self.text + text[self.stop :]


def smallest_correction(old: str, new: str) -> Correction | None:
    """The smallest correction that makes the new print of the old one, none if they are the same.

    The longest common beginning stays, then the longest common ending of what is left, both counted
    in combining sequences.
    """
    if old == new:
        return None
    before, after = sequences(old), sequences(new)
    front = _shared(before, after)
    before, after = before[front:], after[front:]
    end = _shared(before[::-1], after[::-1])
    start = len(old) - len("".join(before))
    gone = "".join(before[: len(before) - end])
    come = "".join(after[: len(after) - end])
    return Correction(start, len(gone), come)


def replaced(text: str, start: int, stop: int, by: str) -> str:
    """A text with another in place of what stands from one place to another, in normal form C there.

    What stands elsewhere stays as it is, even if it isn't in normal form C.
    """
    joined = text[:start] + by + text[stop:]
    places = seams(joined)
    first = places[bisect_right(places, start) - 1]
    last = places[bisect_left(places, start + len(by))]
    return joined[:first] + composed(joined[first:last]) + joined[last:]


def with_typed(old: str, typed: str) -> str:
    """A print once another was typed over it: what is new in normal form C, as the book keeps it."""
    least = smallest_correction(old, typed)
    return old if least is None else replaced(old, least.start, least.stop, least.text)


def place_kept(typed: str, kept: str, place: int) -> int:
    """Where a place of a text that was typed is in the print that it is kept as."""
    if typed == kept:
        return place
    front = composed(typed[:place])
    places = (n for n in range(len(kept)) if composed(kept[:n]) == front)
    return next(places, min(place, len(kept)))


def place_before(old: str, typed: str, place: int) -> int:
    """Where a place of a text that is typed over a print is in that print.

    It is before what stands after it there too, or else after what stands before it.
    """
    front, back = typed[:place], typed[place:]
    if old.endswith(back):
        return len(old) - len(back)
    return len(commonprefix((old, front)))


def _shared(some: list[str], others: list[str]) -> int:
    """How many sequences two lists have in common at their fronts."""
    return sum(1 for _ in takewhile(lambda pair: pair[0] == pair[1], zip(some, others)))
