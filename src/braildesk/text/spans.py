"""Where words stand in a print, and the words around them."""

from collections.abc import Callable, Mapping
from typing import NamedTuple

from braildesk.text.sequences import composed, is_plain, seams, sequences


# made in 0.6 of the time of a dataclass, since a search gives a hundred thousand of them
class Span(NamedTuple):
    """The places of a text from the start up to but not including the stop."""

    start: int
    stop: int

    def counted(self, what: str) -> str:
        """Its characters or its cells, counted from 1, as in “characters 5 to 8”."""
        if self.stop <= self.start:
            return f"no {what}"
        if self.stop == self.start + 1:
            return f"{what} {self.stop}"
        return f"{what}s {self.start + 1} to {self.stop}"


# in half the time of calling the class, whose fields may also be given by name
_span = tuple.__new__

#: What a text is compared as: that of a text is that of its sequences, one after the other.
Form = Callable[[str], str]


def find_spans(text: str, sought: str, form: Form = composed) -> tuple[Span, ...]:
    """Where a text stands in another, both compared in a form, in the places of the other.

    Those that overlap are all given. None begins or ends within a combining sequence.
    """
    wanted = form(sought)
    # a text that is plain is in normal form C
    is_same = form is composed and wanted in text and is_plain(text)
    whole = text if is_same else form(text)
    if not wanted or wanted not in whole:
        return ()
    size, stored = len(wanted), None if is_same else _places(text, whole, form)
    starts = _starts(whole, wanted)
    if stored is None:
        return tuple([_span(Span, (start, start + size)) for start in starts])
    return tuple(
        Span(stored[start], stored[start + size])
        for start in starts
        if start in stored and start + size in stored
    )


def _starts(text: str, sought: str) -> list[int]:
    """Where a text stands in another, also where those places overlap."""
    found = []
    start = text.find(sought)
    while start >= 0:
        found.append(start)
        start = text.find(sought, start + 1)
    return found


def _places(text: str, whole: str, form: Form) -> Mapping[int, int] | None:
    """For each seam of a text its place in the whole form, with the same place of the text as it is.

    Nothing if each character is a sequence of its own and so is its form, so that both are the same.
    """
    if len(whole) == len(text) and (is_plain(text) or len(seams(text)) > len(text)):
        return None
    places = {0: 0}
    here = there = 0
    for piece in sequences(text):
        here, there = here + len(piece), there + len(form(piece))
        places[there] = here
    return places
