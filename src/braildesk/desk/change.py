"""Words of a paragraph, and others that are put in their place."""

from collections.abc import Sequence
from dataclasses import dataclass, replace

from braildesk import DeskError, Lost, Mark, Refused, Session, Undefined, translate
from braildesk.desk import Problem
from braildesk.desk.around_marks import corrections, prints_between
from braildesk.desk.correction import Correction, replaced, smallest_correction
from braildesk.desk.places import Words, place_in
from braildesk.desk.readings import paragraph_of
from braildesk.protocol.requests import Correct
from braildesk.refusals import refused_as
from braildesk.text.spans import Span


class SameWords(Problem):
    """The words that come are those that go."""


@dataclass(frozen=True)
class Change:
    """A print as it is and as it was, the words that came and went, and the marks it touched."""

    version: int
    paragraph: int
    now: str
    before: str
    came: Span
    went: Span
    touched: tuple[Mark, ...]
    #: How many corrections it was.
    corrections: int = 1


@dataclass(frozen=True)
class Planned:
    """A change of a print that isn't made yet, as the corrections that are sent one after the other.

    The marks are those of the paragraph before it.
    """

    paragraph: int
    before: str
    went: Span
    new: str
    corrections: tuple[Correction, ...]
    marks: tuple[Mark, ...]


def planned(session: Session, words: Words, new: str) -> Planned:
    """How new words come in place of words of a paragraph, with the marks left on words that stay.

    Raises `NoPlace`, `ManyPlaces` and `SameWords`.
    """
    number = words.paragraph
    before = session.print_of(number)
    went = place_in(session, words, before, Correct(number, 0, 0, new))
    after = replaced(before, went.start, went.stop, new)
    marks = session.marks_of(number)
    parts = corrections(before, after, marks)
    if not parts:
        raise SameWords
    prints = prints_between(before, parts)
    if prints and not _has_cells(session, number, [*prints, after]):
        # it is refused, or kept, as a whole
        parts = corrections(before, after, ())
    return Planned(number, before, went, new, parts, marks)


def change_place(
    session: Session,
    number: int,
    before: str,
    went: Span,
    new: str,
    by: str | None = None,
) -> Change:
    """Makes the smallest correction that puts new words at a place of a print, as it stands now.

    Raises `SameWords`.
    """
    least = smallest_correction(before, replaced(before, went.start, went.stop, new))
    if least is None:
        raise SameWords
    marks = session.marks_of(number)
    return change_by(session, Planned(number, before, went, new, (least,), marks), by)


def change_by(session: Session, plan: Planned, by: str | None = None) -> Change:
    """Makes the corrections of a change, each of which is kept before the next one is made."""
    number, before, went = plan.paragraph, plan.before, plan.went
    version = session.last_version
    for part in plan.corrections:
        try:
            session.correct(
                number, part.start, part.count, part.text, by=by, expect=version
            )
        except Undefined as refused:
            if len(plan.corrections) > 1:
                raise
            raise _of_all(refused, went, plan.new) from None
        version = session.last_version
    now = session.print_of(number)
    kept = len(before) - went.stop
    came = Span(went.start, max(went.start, len(now) - kept))
    touched = newly_touched(plan.marks, session.marks_of(number))
    count = len(plan.corrections)
    return Change(version, number, now, before, came, went, touched, count)


def newly_touched(before: Sequence[Mark], now: Sequence[Mark]) -> tuple[Mark, ...]:
    """The marks of a paragraph that are touched now and weren't before."""
    fresh = {mark.id for mark in before if not mark.touched}
    return tuple(mark for mark in now if mark.touched and mark.id in fresh)


def _of_all(refused: Undefined, went: Span, new: str) -> Refused:
    """The refusal of a character by its place in all of the words that come."""
    asked = refused.refusal.asked
    if isinstance(asked, Correct):
        count = went.stop - went.start
        asked = replace(asked, start=went.start, count=count, text=new)
    return refused_as(replace(refused.refusal, asked=asked))


def _has_cells(session: Session, number: int, prints: list[str]) -> bool:
    """Whether the table of a paragraph has cells for prints, as far as that can be seen."""
    its = paragraph_of(session, number)
    assert its is not None
    try:
        (table,) = (each for each in session.tables() if each.name == its.table)
        return not any(isinstance(each, Refused) for each in translate(table, prints))
    except Lost:
        raise
    except DeskError:
        # the book itself judges each
        return True
