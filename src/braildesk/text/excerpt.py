"""Some words of a text, and as many of those around them as a line has room for."""

from collections.abc import Callable, Iterable, Sequence

from braildesk.text.cells import BLANKS, EMPTY_CELL
from braildesk.text.characters import visible
from braildesk.text.sequences import is_plain, sequences
from braildesk.text.wrapping import columns, measure, wrap

_CUT = "…"
_INDENT = "  "
#: How much of a text beside the words is worth the rest of a line.
_BESIDE = 10
_BRACKETS = len("[]")
#: In how few columns words aren't cut for the sake of the ellipses beside them.
_LEAST = 5
#: What stands for a character that isn't known: no text has it.
NOT_KNOWN = "\ud800"
#: What ends a word.
_NO_WORD = (*BLANKS, NOT_KNOWN)


class Excerpts:
    """Excerpts of one text, which is looked through once for how its characters are shown."""

    def __init__(self, text: str) -> None:
        self._text = text
        self._spaced = _spaced(text)
        self._is_plain = is_plain(text)

    def line(self, start: int, stop: int, width: int) -> str:
        """The words from one place to another in brackets, and words around them, in a line.

        Where words are left out stands an ellipsis, also within the brackets if they are too long.
        """
        room = width - (stop - start) - _BRACKETS
        if not self._is_plain or room < (start > 0) + (stop < len(self._text)):
            return _in_brackets(self._text, start, stop, width)
        return self._plain_lines([""], [(start, stop)], [room])[0]

    def _plain_lines(
        self,
        heads: Iterable[str],
        places: Iterable[tuple[int, int]],
        rooms: Iterable[int],
    ) -> list[str]:
        """Heads with such lines of a text that is plain, each with so much room beside the words."""
        text, spaced, size = self._text, self._spaced, len(self._text)
        lines = []
        # a loop without calls, since a search gives a hundred thousand of them
        for head, (start, stop), room in zip(heads, places, rooms):
            before, rest = room // 2, size - stop
            if room - rest > before:
                before = room - rest
            # a blank is found on both sides nearly always, so that it is looked for here already
            if start <= before:
                front = text[:start]
            elif (blank := spaced.find(" ", start - before, start - 1)) >= 0:
                front = _CUT + text[blank + 1 : start]
            else:
                front = _ending(text, spaced, start, before)
            left = room - len(front)
            if rest <= left:
                after = text[stop:]
            elif (blank := spaced.rfind(" ", stop + 1, stop + left)) >= 0:
                after = text[stop:blank] + _CUT
            else:
                after = _opening(text, spaced, stop, left)
            lines.append(f"{head}{front}[{text[start:stop]}]{after}")
        return lines

    def lines_of_all(
        self, heads: Sequence[str], places: Sequence[tuple[int, int]], width: int
    ) -> list[str]:
        """The lines for each of many places, one after the other, of which each has a head."""
        rooms = [
            width - len(head) - (stop - start) - _BRACKETS
            for head, (start, stop) in zip(heads, places)
        ]
        is_short = min(rooms, default=0) >= _BESIDE and "".join(heads).isascii()
        if self._is_plain and is_short:
            return self._plain_lines(heads, places, rooms)
        found = (self.lines(h, *place, width) for h, place in zip(heads, places))
        return [line for its in found for line in its]

    def lines(self, head: str, start: int, stop: int, width: int) -> list[str]:
        """A head and an excerpt after it, in as few lines of the width as have all of the words.

        The excerpt begins a line of its own if the rest of the head's line is short, and goes on
        in others if the words fill more than one.
        """
        # nearly all are of the first kind, here and below
        room = width - (len(head) if head.isascii() else columns(head))
        text, size = self._text, stop - start + _BRACKETS
        if self._is_plain and size + _BESIDE <= room:
            return self._plain_lines([head], [(start, stop)], [room - size])
        if not self._is_plain:
            size = columns(f"[{visible(text[start:stop])}]")
        others = len(text) - (stop - start)
        if size + _BESIDE <= room or size + others <= room:
            return [head + self.line(start, stop, room)]
        lines = wrap(head, width, _INDENT)
        before, after = _CUT if start else "", _CUT if stop < len(text) else ""
        if size + len(before + after) <= width:
            return [*lines, self.line(start, stop, width)]
        words = f"{before}[{visible(text[start:stop])}]{after}"
        return [*lines, *wrap(words, width, _INDENT)]


def excerpt(text: str, start: int, stop: int, width: int) -> str:
    """A line of a text that is looked at once; `Excerpts.line` says what it is."""
    return Excerpts(text).line(start, stop, width)


def excerpt_lines(head: str, text: str, start: int, stop: int, width: int) -> list[str]:
    """Lines of a text that is looked at once; `Excerpts.lines` says what they are."""
    return Excerpts(text).lines(head, start, stop, width)


def opening(text: str, width: int) -> str:
    """The first words of a text, in a line of a width."""
    size_of = measure(text)
    if size_of is len:
        return _opening(text, _spaced(text), 0, width)
    if size_of(text) <= width:
        return text
    return "".join(_fitting(sequences(text), width, size_of))


def opening_after(head: str, text: str, width: int) -> str:
    """A head and the first words of a text, in a line: of a word without room its front at least."""
    room = width - columns(head)
    if room > len(_CUT):
        return head + opening(text, room)
    return opening(head + text, width)


def ending(text: str, width: int) -> str:
    """The last words of a text, in a line of a width."""
    size_of = measure(text)
    if size_of is len:
        return _ending(text, _spaced(text), len(text), width)
    if size_of(text) <= width:
        return text
    return "".join(reversed(_fitting(sequences(text)[::-1], width, size_of)))


def _spaced(text: str) -> str:
    """A text with a space for each blank that is one column: for all but the tab."""
    return text.replace(EMPTY_CELL, " ")


def _opening(text: str, spaced: str, start: int, width: int) -> str:
    """The first words from a place on, where each character is a sequence of one column."""
    stop = start + width
    if len(text) <= stop:
        return text[start:]
    if width <= 0:
        return ""
    blank = spaced.rfind(" ", start + 1, stop)
    if blank >= 0:
        return text[start:blank] + _CUT
    if text[start] in BLANKS:
        # no word is cut if another one ends before it
        return (text[start] if width > 1 else "") + _CUT
    return text[start : stop - 1] + _CUT


def _ending(text: str, spaced: str, stop: int, width: int) -> str:
    """The last words up to a place, where each character is a sequence of one column."""
    front = stop - width
    if front <= 0:
        return text[:stop]
    if width <= 0:
        return ""
    blank = spaced.find(" ", front, stop - 1)
    if blank >= 0:
        return _CUT + text[blank + 1 : stop]
    if text[stop - 1] in BLANKS:
        return _CUT + (text[stop - 1] if width > 1 else "")
    return _CUT + text[front + 1 : stop]


def _in_brackets(text: str, start: int, stop: int, width: int) -> str:
    """Words in brackets and those around them, whatever is shown of their characters."""
    before, after = visible(text[:start]), visible(text[stop:])
    most = width - _BRACKETS
    cuts = columns(_CUT) * (bool(before) + bool(after))
    if most - cuts >= _LEAST:
        most -= cuts
    words = f"[{_both_ends(visible(text[start:stop]), most)}]"
    room = width - columns(words)
    front = ending(before, max(room // 2, room - columns(after)))
    return front + words + opening(after, room - columns(front))


def _both_ends(text: str, width: int) -> str:
    """The first and the last words of a text, in a line of a width."""
    if columns(text) <= width:
        return text
    front = opening(text, width // 2)
    return front + ending(text, width - columns(front)).removeprefix(_CUT)


def _fitting(pieces: list[str], width: int, size_of: Callable[[str], int]) -> list[str]:
    """The front of a text in pieces that doesn't fit whole, up to a blank."""
    if width <= 0:
        return []
    left = width - columns(_CUT)
    taken = blank = 0
    while (size := size_of(pieces[taken])) <= left:
        left -= size
        taken += 1
        if pieces[taken] in BLANKS:
            blank = taken
    if not blank and pieces[0] in BLANKS:
        taken = min(taken, 1)
    return [*pieces[: blank or taken], _CUT]


def word_front(text: str, place: int) -> int:
    """The front of the word in which a place of a text stands."""
    while place > 0 and text[place - 1] not in _NO_WORD:
        place -= 1
    return place


def word_end(text: str, place: int) -> int:
    """The end of the word in which a place stands."""
    while place < len(text) and text[place] not in _NO_WORD:
        place += 1
    return place
