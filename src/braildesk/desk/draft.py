"""A text that was typed for a book and isn't in it yet."""

import re
from dataclasses import dataclass, field, replace
from enum import Enum, auto

from braildesk.desk.record import NotSuch, Record
from braildesk.protocol.value import Value
from braildesk.text import limits
from braildesk.text.spans import Span, find_spans

_SURROGATE = re.compile("[\ud800-\udfff]")
_NAME = re.compile(f"[^ \n\r\0]{{1,{limits.NAME_CHARACTERS}}}")


class Aim(Enum):
    """What a text was typed for: the print of a paragraph, a new paragraph, or a note."""

    EDIT = auto()
    AFTER = auto()
    BEFORE = auto()
    NOTE = auto()

    @property
    def is_new(self) -> bool:
        """Whether it is a new paragraph."""
        return self in (Aim.AFTER, Aim.BEFORE)


@dataclass(frozen=True, eq=False, repr=False)
class Draft(Value):
    """A text that was typed: what for, at which paragraph, and how its print read then.

    Lines that were pasted, and may become paragraphs, are parted by LF. The cells are those of the
    mark whose note was typed, and the words those of it in that print, if they are known. The version
    is that of the book at that time, if it is known. When it was given up or left for later, in
    milliseconds, is for the order of such texts. The place is that before which the next character
    was to go, if it is known.
    """

    aim: Aim
    paragraph: int | None
    table: str | None
    before: str
    text: str
    cells: Span | None = None
    version: int | None = None
    words: Span | None = None
    left: int | None = field(default=None, compare=False)
    place: int | None = field(default=None, compare=False)

    @property
    def joined(self) -> str:
        """The text in one line."""
        return self.text.replace("\n", " ")

    @property
    def known_by(self) -> tuple[object, ...]:
        """By what a person tells it from others: how it reads, what for, and where.

        A note is for its words, or for its cells where these aren't known.
        """
        its = self.words
        words = self.before[its.start : its.stop] if its else None
        is_note = self.aim is Aim.NOTE
        where = (its or self.cells, words) if is_note else None
        return self.text, self.aim, self.paragraph, where

    def is_same_as(self, other: "Draft") -> bool:
        """Whether a person takes it for the same text as another one, also where the print was changed."""
        return self.known_by == other.known_by

    def is_typed_on_from(self, other: "Draft") -> bool:
        """Whether it is for the same as another text, and has all of that, and more in one place."""
        # imported here, since few texts are typed in two sessions
        from braildesk.desk.correction import smallest_correction

        more = smallest_correction(other.text, self.text)
        is_longer = more is not None and not more.count
        return is_longer and self.known_by[1:] == other.known_by[1:]

    @property
    def first_line(self) -> str:
        """The first of its lines."""
        return self.text.partition("\n")[0]

    def after_first_line(self, newest: int) -> "Draft | None":
        """The lines after the first one, which is in the book; none if there are none.

        That one is the newest paragraph, unless the print of another one was typed.
        """
        return self.after_lines(1, newest)

    def after_lines(self, count: int, newest: int) -> "Draft | None":
        """The lines after so many, which are in the book, the last of them as the newest paragraph."""
        rest = "\n".join(self.text.split("\n")[count:])
        if not rest:
            return None
        number = self.paragraph if self.aim is Aim.EDIT else newest
        return replace(self, aim=Aim.AFTER, paragraph=number, text=rest, place=None)

    def words_in(self, now: str) -> Span | None:
        """Where the words that it is a note for stand in a print by now; none if nobody can tell.

        They were moved by a change beside them, or stand just once in either print.
        """
        # imported here, since few texts are notes
        from braildesk.desk.correction import smallest_correction

        its, before = self.words, self.before
        if its is None or not its.start < its.stop <= len(before):
            return None
        sought, least = before[its.start : its.stop], smallest_correction(before, now)
        if least is None or its.stop <= least.start:
            there = its
        elif its.start >= least.stop:
            moved = len(now) - len(before)
            there = Span(its.start + moved, its.stop + moved)
        else:
            found = find_spans(now, sought)
            if len(found) != 1 or len(find_spans(before, sought)) != 1:
                return None
            there = found[0]
        # a word that goes on by now is another one
        return there if _goes_on(now, there) == _goes_on(before, its) else None

    def values(self) -> dict[str, object]:
        """What is kept of it as JSON."""
        cells, words = self.cells, self.words
        has_words = words is not None and words.start < words.stop
        return {
            **({"words": words} if has_words else {}),
            **({"left": self.left} if self.left is not None else {}),
            **({"place": self.place} if self.place is not None else {}),
            "purpose": self.aim.name,
            "paragraph": self.paragraph,
            "table": self.table,
            "before": written(self.before),
            "text": written(self.text),
            "cells": None if cells is None else [cells.start, cells.stop],
            "version": self.version,
        }


@dataclass(frozen=True, eq=False, repr=False)
class Unread(Value):
    """Text that came while nothing could be done with it.

    Some of it is lines after those of the text that waits, and the rest a text by itself. Both may
    be nothing. It may have been typed where no text was asked for: at a question, or at lines to be read.
    """

    lines: str
    rest: Draft
    is_at_offer: bool = False

    @property
    def text_of_all(self) -> str:
        """All of it."""
        return "\n".join(filter(None, (self.lines, self.rest.text)))

    def values(self) -> dict[str, object]:
        """What is kept of it as JSON."""
        its = {"lines": written(self.lines), "at-offer": self.is_at_offer}
        return {**self.rest.values(), **its}


def unread_in(kept: Record) -> Unread:
    """The text of which these values were kept; `NotSuch` if they are none."""
    is_at_offer = kept.is_equal("at-offer", True)
    return Unread(kept.text("lines"), draft_in(kept), is_at_offer)


def draft_in(kept: Record) -> Draft:
    """The draft of which these values were kept; `NotSuch` if they are none."""
    aim = kept.text("purpose")
    if aim not in Aim.__members__:
        raise NotSuch("purpose")
    table = kept.text_or_none("table")
    if table is not None and not _NAME.fullmatch(table):
        raise NotSuch("table")
    return Draft(
        Aim[aim],
        kept.number_or_none("paragraph", least=1),
        table,
        kept.text("before"),
        kept.text("text"),
        _span(kept, "cells"),
        kept.number_or_none("version"),
        _span(kept, "words"),
        kept.number_or_none("left"),
        kept.number_or_none("place"),
    )


def written(text: str) -> str:
    """A text as it is kept: what came in bytes that aren't UTF-8 has no character."""
    return _SURROGATE.sub("\N{REPLACEMENT CHARACTER}", text)


def _span(kept: Record, name: str) -> Span | None:
    if not kept.has(name):
        return None
    places = kept.numbers(name)
    if len(places) != 2 or places[0] >= places[1]:
        raise NotSuch(name)
    return Span(*places)


def _goes_on(text: str, words: Span) -> tuple[bool, bool]:
    """Whether a letter or a digit stands right before words, and whether one stands after them."""
    before, after = text[: words.start][-1:], text[words.stop :][:1]
    return before.isalnum(), after.isalnum()
