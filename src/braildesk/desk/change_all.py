"""Words that are replaced wherever they stand, place by place and by the smallest corrections."""

import unicodedata
from collections.abc import Callable, Iterable, Iterator, Sequence
from dataclasses import dataclass, replace
from itertools import groupby

from braildesk import Paragraph, Refused, Session
from braildesk.desk.change import Change, SameWords, change_place
from braildesk.desk.correction import replaced
from braildesk.desk.find import any_case
from braildesk.desk.ranges import ParagraphRange, chosen
from braildesk.desk.readings import prints
from braildesk.text.sequences import composed
from braildesk.text.spans import Form, Span, find_spans


@dataclass(frozen=True)
class Replacement:
    """Which words are replaced, by which, and where."""

    old: str
    new: str
    #: Whether they have to stand there as whole words.
    is_of_words: bool = False
    #: Whether they may have other capitals there, of which the new words take the first, or all.
    is_of_any_case: bool = False
    ranges: tuple[ParagraphRange, ...] = (ParagraphRange(),)
    by: str | None = None

    @property
    def _form(self) -> Form:
        return any_case if self.is_of_any_case else composed

    def places(self, text: str, apart: Iterable[Span] = ()) -> Iterator[Span]:
        """The places, none of which stands in another or in those apart, from left to right."""
        others = sorted(apart, key=lambda each: each.start, reverse=True)
        start = 0
        for place in find_spans(text, self.old, self._form):
            while others and others[-1].stop <= place.start:
                others.pop()
            is_taken = others and others[-1].start < place.stop
            if is_taken or place.start < start:
                continue
            if not self.is_of_words or _are_words(text, place):
                yield place
                start = place.stop

    def comes(self, gone: str) -> str:
        """What comes in place of words."""
        if not self.is_of_any_case or composed(gone) == composed(self.old):
            return self.new
        return _with_capitals(self.new, gone)


@dataclass(frozen=True)
class Proposal:
    """A place where words stand that may be replaced, and what its print would be."""

    paragraph: int
    text: str
    place: Span
    new: str
    #: Whether its paragraph is struck, so that the book refuses the change.
    is_struck: bool = False

    @property
    def after(self) -> tuple[str, Span]:
        """The print as it would be, and where the new words would stand in it."""
        now = replaced(self.text, self.place.start, self.place.stop, self.new)
        kept = len(self.text) - self.place.stop
        return now, Span(self.place.start, max(self.place.start, len(now) - kept))

    @property
    def changes(self) -> bool:
        """Whether the print would be another one."""
        return self.after[0] != self.text


@dataclass(frozen=True)
class NotChanged:
    """A place that the book refused to change, and stays as it was."""

    proposal: Proposal
    refused: Refused


@dataclass(frozen=True)
class Passed:
    """A place that stays as it is: it wasn't wanted, or the new words are the same there."""

    proposal: Proposal


#: Says of a place whether it is to be changed.
Choice = Callable[[Proposal], bool]


def proposals(
    session: Session, wanted: Replacement, apart: Iterable[Proposal] = ()
) -> list[Proposal]:
    """All places of a book that would be changed, as they are now, and that stand in none of others.

    Where the new words are the same as those that stand there, nothing would be.
    """
    if composed(wanted.old) == composed(wanted.new):
        raise SameWords
    return [each for each in _places(session, wanted, apart) if each.changes]


def is_there(session: Session, wanted: Replacement) -> bool:
    """Whether the words stand anywhere, also where the new ones are the same."""
    return bool([*_places(session, wanted)])


def change_proposed(
    session: Session,
    found: Iterable[Proposal],
    by: str | None = None,
    is_wanted: Choice = lambda _: True,
) -> Iterator[Change | NotChanged | Passed]:
    """Changes places that were proposed, in the book's order, and gives what became of each.

    Each is a correction of its own, which is kept before the next one is made.
    """
    for _, its in groupby(found, key=lambda each: each.paragraph):
        left = list(its)
        while left:
            proposal = left.pop(0)
            if not (proposal.changes and is_wanted(proposal)):
                yield Passed(proposal)
                continue
            number, text, place = proposal.paragraph, proposal.text, proposal.place
            try:
                change = change_place(session, number, text, place, proposal.new, by)
            except Refused as refused:
                yield NotChanged(proposal, refused)
                continue
            left = moved_by(change, left)
            yield change


def moved_by(change: Change, found: Iterable[Proposal]) -> list[Proposal]:
    """Places that were proposed as they are after one of their paragraphs was changed."""
    by = len(change.now) - len(change.before)
    return [
        (
            each
            if each.paragraph != change.paragraph
            else replace(
                each,
                text=change.now,
                place=(
                    Span(each.place.start + by, each.place.stop + by)
                    if each.place.start >= change.went.stop
                    else each.place
                ),
            )
        )
        for each in found
    ]


def _chosen(session: Session, wanted: Replacement) -> Sequence[Paragraph]:
    """The paragraphs in which words are replaced, each once, in the order of the book."""
    book = session.paragraphs()
    numbers = {each.id for each in chosen(book, wanted.ranges)}
    return [each for each in book if each.id in numbers]


def _places(
    session: Session, wanted: Replacement, apart: Iterable[Proposal] = ()
) -> Iterator[Proposal]:
    """All places where the words stand, but those that stand in others."""
    others: dict[int, list[Span]] = {}
    for each in apart:
        others.setdefault(each.paragraph, []).append(each.place)
    its = _chosen(session, wanted)
    for paragraph, text in zip(its, prints(session, its)):
        for place in wanted.places(text, others.get(paragraph.id, ())):
            proposal = _proposal(paragraph.id, text, place, wanted)
            yield replace(proposal, is_struck=paragraph.struck)


def _proposal(number: int, text: str, place: Span, wanted: Replacement) -> Proposal:
    return Proposal(number, text, place, wanted.comes(text[place.start : place.stop]))


def _are_words(text: str, place: Span) -> bool:
    """Whether what stands at a place begins and ends no word in its middle."""
    edges = (
        text[place.start - 1 : place.start + 1] if place.start else "",
        text[place.stop - 1 : place.stop + 1],
    )
    return not any(len(pair) == 2 and all(map(_is_of_word, pair)) for pair in edges)


def _is_of_word(character: str) -> bool:
    """Whether it is a letter, a digit, or a mark on one."""
    return unicodedata.category(character)[0] in "LNM"


def _with_capitals(new: str, gone: str) -> str:
    """New words with the capitals of those that they replace: all of them, the first one, or none.

    Those in capitals stay so.
    """
    if gone.isupper() and sum(map(str.isalpha, gone)) > 1:
        return new.upper()
    if gone[:1].isupper():
        return new[:1].upper() + new[1:]
    if gone[:1].islower() and not new[1:2].isupper():
        return new[:1].lower() + new[1:]
    return new
