"""A text that is being typed, and the place in it before which the next character goes."""

from collections.abc import Callable, Iterable
from dataclasses import dataclass, replace
from enum import Enum, auto

from braildesk.text.sequences import seams
from braildesk.text.spans import Span


class Purpose(Enum):
    """What a text is typed for."""

    EDIT = auto()
    AFTER = auto()
    BEFORE = auto()
    NOTE = auto()
    NUMBER = auto()
    TABLE = auto()
    WORDS = auto()
    SIZE = auto()
    FOLDER = auto()
    TEXT_FILE = auto()
    OLD = auto()
    NEW = auto()
    PAGES = auto()

    @property
    def is_print(self) -> bool:
        """Whether it is print of the book."""
        return self in (Purpose.EDIT, Purpose.AFTER, Purpose.BEFORE)

    @property
    def is_for_book(self) -> bool:
        """Whether it goes into the book: a print, or a note."""
        return self.is_print or self is Purpose.NOTE

    @property
    def is_new(self) -> bool:
        """Whether it is a new paragraph."""
        return self in (Purpose.AFTER, Purpose.BEFORE)


@dataclass(frozen=True)
class Field:
    """A text that is being typed."""

    purpose: Purpose
    text: str = ""
    place: int = 0
    #: What is said of it as long as it is typed, where nothing else is said.
    said: str = ""
    #: The print from which it was typed, if that was another one than it is now.
    before: str | None = None
    #: The words of the paragraph's print that a note is for.
    words: Span | None = None

    @property
    def front(self) -> str:
        """What stands before its place."""
        return self.text[: self.place]

    @property
    def back(self) -> str:
        """What stands after its place."""
        return self.text[self.place :]

    def inserted(self, text: str) -> "Field":
        """The field with a text at its place."""
        whole = self.front + text + self.back
        return replace(self, text=whole, place=self.place + len(text))

    def moved(self, key: str) -> "Field | None":
        """The field after a key that moves its place or takes a character out; None for others."""
        seam = seams(self.text)
        before = max((each for each in seam if each < self.place), default=0)
        after = min((each for each in seam if each > self.place), default=self.place)
        match key:
            case "left" | "c-b":
                return replace(self, place=before)
            case "right" | "c-f":
                return replace(self, place=after)
            case "home" | "c-a":
                return replace(self, place=0)
            case "end" | "c-e":
                return replace(self, place=len(self.text))
            case "c-left" | "a-left":
                return replace(self, place=self._word_before())
            case "c-right" | "a-right":
                return replace(self, place=self._word_after())
            case "a-b":
                return replace(self, place=self._back_over(str.isalnum))
            case "a-f":
                return replace(self, place=self._on_over(str.isalnum))
            case "backspace":
                return self._without(before, self.place)
            case "delete" | "c-d":
                return self._without(self.place, after)
        return None

    def cut(self, key: str) -> "Cut | None":
        """The field after a key that cuts words out, and what it cut; None for other keys.

        As in any editor, a word is of letters and digits; only Ctrl-W goes back to a blank.
        """
        match key:
            case "c-u":
                start, stop = 0, self.place
            case "c-k":
                start, stop = self.place, len(self.text)
            case "c-w":
                start, stop = self._back_over(_is_no_blank), self.place
            case "a-backspace":
                start, stop = self._back_over(str.isalnum), self.place
            case "a-d":
                start, stop = self.place, self._on_over(str.isalnum)
            case _:
                return None
        is_back = stop == self.place
        return Cut(self._without(start, stop), self.text[start:stop], is_back)

    def _without(self, start: int, stop: int) -> "Field":
        return replace(self, text=self.text[:start] + self.text[stop:], place=start)

    def _word_before(self) -> int:
        front = self.text[: self.place].rstrip(" ")
        return front.rfind(" ") + 1

    def _word_after(self) -> int:
        found = self.text.find(" ", self.place)
        if found < 0:
            return len(self.text)
        rest = self.text[found:]
        return found + len(rest) - len(rest.lstrip(" "))

    def _back_over(self, is_of_word: Callable[[str], bool]) -> int:
        """The front of the word before the place, at a seam of the text."""
        fronts = [each for each in seams(self.text) if each < self.place]
        place = self.place
        while fronts and not is_of_word(self.text[fronts[-1]]):
            place = fronts.pop()
        while fronts and is_of_word(self.text[fronts[-1]]):
            place = fronts.pop()
        return place

    def _on_over(self, is_of_word: Callable[[str], bool]) -> int:
        """The end of the word after the place, at a seam of the text."""
        places = [each for each in seams(self.text) if each >= self.place]
        steps = list(zip(places, places[1:]))[::-1]
        place = self.place
        while steps and not is_of_word(self.text[steps[-1][0]]):
            place = steps.pop()[1]
        while steps and is_of_word(self.text[steps[-1][0]]):
            place = steps.pop()[1]
        return place


@dataclass(frozen=True)
class Cut:
    """A field after words were cut out of it: what they are, and whether they stood before."""

    field: Field
    text: str
    is_back: bool


def blank_between(before: str, after: str) -> str:
    """The blank by which two texts are parted, unless one of them has it there or is empty."""
    is_parted = not before or before.endswith(" ") or after[:1] in ("", " ", "\n")
    return "" if is_parted else " "


def joined_by_blanks(lines: Iterable[str]) -> str:
    """Lines as one text."""
    parts, before = [], ""
    for line in lines:
        parts += [blank_between(before, line), line]
        before = line or before
    return "".join(parts)


def _is_no_blank(character: str) -> bool:
    return not character.isspace()
