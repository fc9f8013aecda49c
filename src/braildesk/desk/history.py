"""The histories of a book: which words came by each correction, by whom, and which went.

A history has what each correction put in and how many characters that replaced, but not these. Those
that stand in the print now, or stood there when a correction was taken back, are found again from it;
of the others nothing is known but their number.
"""

import re
from collections.abc import Iterator, Sequence
from dataclasses import dataclass, field
from typing import Generic, TypeVar

from braildesk import Entry, Kind, Paragraph, Session
from braildesk.desk.readings import answers
from braildesk.protocol.requests import History, Print
from braildesk.text.excerpt import NOT_KNOWN, word_end, word_front

#: What stands for characters of which nothing is known.
UNKNOWN = "…"
_UNKNOWN_RUN = re.compile(f"{NOT_KNOWN}+")
Characters = TypeVar("Characters", str, list[int | None])


@dataclass(frozen=True)
class Step:
    """An entry of a history, and the print after it: whole words that changed, and what is beside them."""

    paragraph: int
    entry: Entry
    before: str
    came: str
    after: str
    #: The words that stood in their place.
    went: str
    #: How many characters these have.
    length: int
    #: Whether at least half of these are known.
    is_known: bool


@dataclass
class _Print(Generic[Characters]):
    """The characters of a print, while the entries of its history are gone through."""

    characters: Characters
    #: What each correction in force did: where, how many characters came, and which went.
    _done: list[tuple[int, int, Characters]] = field(default_factory=list)

    def apply(self, entry: Entry, text: Characters) -> tuple[int, int, Characters]:
        """Does what an entry does, and gives where, how many characters came, and which went."""
        if entry.kind is Kind.UNDO:
            start, count, come = self._done.pop()
        else:
            start, count, come = entry.start, entry.count, text
        now, stop = self.characters, start + count
        gone = now[start:stop]
        self.characters = now[:start] + come + now[stop:]
        if entry.kind is not Kind.UNDO:
            self._done.append((start, len(come), gone))
        return start, len(come), gone


def histories(session: Session, paragraphs: Sequence[Paragraph]) -> Iterator[Step]:
    """The entries of the histories of paragraphs, of each the newest first."""
    found = list(answers(session, (History(each.id) for each in paragraphs)))
    pairs = [(each.id, its) for each, its in zip(paragraphs, found) if its]
    prints = answers(session, (Print(number) for number, _ in pairs))
    for (number, entries), now in zip(pairs, prints):
        yield from reversed(steps(number, now, entries))


def corrected_by(found: Sequence[Step], who: str) -> list[Step]:
    """The corrections of a proofreader, and the entries that took one of them back."""
    its = {(each.paragraph, each.entry.seq) for each in found if each.entry.who == who}
    return [
        each
        for each in found
        if each.entry.who == who or (each.paragraph, each.entry.undone) in its
    ]


def steps(paragraph: int, now: str, entries: Sequence[Entry]) -> list[Step]:
    """The entries of a history, by which a print came to be what it is now."""
    print_text = _Print[str](_first(now, entries))
    return [_step(paragraph, entry, print_text) for entry in entries]


def _first(now: str, entries: Sequence[Entry]) -> str:
    """The characters with which a print began, as far as they are known."""
    longer: list[int] = []
    for entry in entries:
        if entry.kind is Kind.UNDO:
            longer.pop()
        else:
            longer.append(len(entry.text) - entry.count)
    # each character of the beginning is followed by its place
    places = _Print[list[int | None]]([*range(len(now) - sum(longer))])
    first = [NOT_KNOWN] * len(places.characters)
    for entry in entries:
        places.apply(entry, [None] * len(entry.text))
    for place, character in zip(places.characters, now):
        if place is not None:
            first[place] = character
    return "".join(first)


def _step(paragraph: int, entry: Entry, text: _Print[str]) -> Step:
    start, count, gone = text.apply(entry, entry.text)
    now, stop = text.characters, start + count
    front, end = word_front(now, start), word_end(now, stop)
    went = now[front:start] + gone + now[stop:end]
    return Step(
        paragraph,
        entry,
        _written(now[:front]),
        _written(now[front:end]),
        _written(now[end:]),
        _written(went),
        len(went),
        2 * went.count(NOT_KNOWN) <= len(went),
    )


def _written(text: str) -> str:
    """A text with one sign for characters beside one another that aren't known."""
    return _UNKNOWN_RUN.sub(UNKNOWN, text) if NOT_KNOWN in text else text


def newest_corrector(history: Sequence[Entry]) -> str | None:
    """The name that was given with the newest correction that is in force, if any was."""
    newest = newest_correction(history)
    return newest.who if newest is not None else None


def newest_correction(history: Sequence[Entry]) -> Entry | None:
    """The newest correction that is in force, if any is."""
    undone = {each.undone for each in history}
    there = [e for e in history if e.kind is Kind.CORRECT and e.seq not in undone]
    return there[-1] if there else None
