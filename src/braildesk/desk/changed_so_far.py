"""Words that were being changed wherever they stand: what became of each place, as its print shows."""

from collections.abc import Callable, Iterable, Iterator, Sequence
from contextlib import suppress
from dataclasses import replace
from itertools import groupby

from braildesk import Session
from braildesk.desk.change import Change
from braildesk.desk.change_all import (
    Choice,
    NotChanged,
    Passed,
    Proposal,
    Replacement,
    change_proposed,
    is_there,
    proposals,
)
from braildesk.desk.change_note import Became, ChangeNote, NotedPlace
from braildesk.desk.drafts import Drafts, NotKept
from braildesk.desk.readings import prints
from braildesk.text.sequences import composed
from braildesk.text.spans import Span

# so many characters beside a place are noted
_BESIDE = 8
#: Places as they are now, each with what became of it.
PlacesNow = list[tuple[Proposal, Became]]


def wanted_by(note: ChangeNote, by: str | None) -> Replacement:
    """Which words are replaced and by which, in the name of somebody."""
    how = note.is_of_words, note.is_of_any_case
    return Replacement(note.old, note.new, *how, note.ranges, by)


def note_of(
    wanted: Replacement, places: Iterable[tuple[Proposal, Became]], version: int
) -> ChangeNote:
    """What is noted of words in a book of a version, before more of their places are changed."""
    found = sorted(places, key=lambda each: (each[0].paragraph, each[0].place.start))
    return ChangeNote(
        *(wanted.old, wanted.new, wanted.is_of_words, wanted.is_of_any_case, version),
        tuple(
            noted
            for _, its in groupby(found, key=lambda each: each[0].paragraph)
            for noted in _noted(list(its))
        ),
        wanted.ranges,
    )


def left_open(session: Session, drafts: Drafts) -> list[tuple[ChangeNote, PlacesNow]]:
    """What is noted of words of which not all places were changed, with the places as they are now.

    What is noted of words whose places are all done is taken away.
    """
    found = []
    for note, places in _noted_now(session, drafts):
        is_seen = len(places) == len(note.places)
        if is_seen and not any(became is Became.OPEN for _, became in places):
            with suppress(NotKept):
                drafts.drop_change(note)
        else:
            found.append((note, places))
    return found


def end_taken_back(session: Session, drafts: Drafts, wanted: Replacement) -> None:
    """Takes away what is noted of words of which no place is changed any more: all were taken back."""
    for note, places in _noted_now(session, drafts):
        is_seen = len(places) == len(note.places)
        is_changed = any(became is Became.CHANGED for _, became in places)
        if note.is_of(wanted) and is_seen and not is_changed:
            with suppress(NotKept):
                drafts.drop_change(note)


def _noted_now(
    session: Session, drafts: Drafts
) -> Iterator[tuple[ChangeNote, PlacesNow]]:
    for note in drafts.changes():
        # an older file may be there for a while, as one from a backup
        if session.last_version < note.version:
            continue
        places = places_now(session, note)
        # nothing of it may be there since that is another book
        if places or drafts.has_changes_of_file():
            yield note, places


class Further:
    """Words that are changed wherever they stand, from where that was cut short before."""

    def __init__(self, session: Session, drafts: Drafts, wanted: Replacement) -> None:
        self._session = session
        self._drafts = drafts
        self.wanted = wanted
        #: What was noted of them before, with the places as they are now.
        self.notes = [
            (note, places)
            for note, places in _noted_now(session, drafts)
            if note.is_of(wanted)
        ]
        #: The places that were changed or left before.
        self.answered: PlacesNow = []
        for _, places in self.notes:
            known = {(its.paragraph, its.place) for its, _ in self.answered}
            self.answered += [
                (its, became)
                for its, became in places
                if became is not Became.OPEN and (its.paragraph, its.place) not in known
            ]

    @property
    def is_done(self) -> bool:
        """Whether the words were changed or left before, if no place of them is found any more."""
        is_all = all(note.is_within(self.wanted) for note, _ in self.notes)
        return bool(self.answered) and (is_all or is_there(self._session, self.wanted))

    def unseen(self, found: Iterable[Proposal]) -> list[int]:
        """The paragraphs of places of which it isn't seen whether they were changed before."""
        unseen = set[int]()
        for note, places in self.notes:
            seen = {its.paragraph for its, _ in places}
            unseen |= {each.paragraph for each in note.places} - seen
        numbers = dict.fromkeys(each.paragraph for each in found)
        return [number for number in numbers if number in unseen]

    def found(self) -> list[Proposal]:
        """The places that are to be changed."""
        left = {(its.paragraph, its.place) for its in self._that(Became.LEFT)}
        places = proposals(self._session, self.wanted, self._that(Became.CHANGED))
        return [each for each in places if (each.paragraph, each.place) not in left]

    def changed(
        self,
        found: Sequence[Proposal],
        is_wanted: Choice,
        report: Callable[[NotKept], None] = lambda _: None,
    ) -> Iterator[Change | NotChanged | Passed]:
        """Changes places, which are noted until the last of them is done; gives what became of each."""
        wanted, version = self.wanted, self._session.last_version
        places = [*self.answered, *((each, Became.OPEN) for each in found)]
        try:
            self._drafts.begin_change(note_of(wanted, places, version))
        except NotKept as fault:
            report(fault)
        yield from map(Passed, self._that(Became.LEFT))
        yield from change_proposed(self._session, found, wanted.by, is_wanted)
        try:
            self._drafts.end_change(wanted)
        except NotKept as fault:
            report(fault)

    def _that(self, became: Became) -> list[Proposal]:
        return [its for its, what in self.answered if what is became]


def _noted(places: PlacesNow) -> Iterator[NotedPlace]:
    """What is noted of the places of a paragraph, which are as they were proposed."""
    starts = [its.place.start for its, _ in places[1:]]
    front = 0
    for (its, became), end in zip(places, [*starts, None]):
        text, start, stop = its.text, its.place.start, its.place.stop
        before, after = text[front:start][-_BESIDE:], text[stop:end][:_BESIDE]
        words = text[start:stop]
        yield NotedPlace(
            *(its.paragraph, len(text), start, words, became, before, after)
        )
        front = stop


def places_now(session: Session, note: ChangeNote) -> PlacesNow:
    """The places as they are now, without those of prints that were changed otherwise since."""
    places: dict[int, list[NotedPlace]] = {}
    for each in note.places:
        places.setdefault(each.paragraph, []).append(each)
    book = [each for each in session.paragraphs() if each.id in places]
    wanted, found = wanted_by(note, None), list[tuple[Proposal, Became]]()
    for paragraph, text in zip(book, prints(session, book)):
        its = sorted(places[paragraph.id], key=lambda each: each.start)
        for each in _as_now(text, its, wanted):
            place = Span(each.start, each.start + len(each.words))
            proposal = Proposal(each.paragraph, text, place, "", paragraph.struck)
            found.append((proposal, each.became))
    return found


def _as_now(
    text: str, its: Sequence[NotedPlace], wanted: Replacement
) -> list[NotedPlace]:
    """The places of a print as they are in it now; none if it isn't seen what became of them.

    Those that were changed move those after them. If several ways lead to the length of the print, the
    first places are the changed ones.
    """
    ways: list[dict[int, tuple[int, NotedPlace]]] = []
    moves = [0]
    for each in its:
        kinds = [each]
        if each.became is Became.OPEN:
            words = composed(wanted.comes(each.words))
            kinds.append(replace(each, words=words, became=Became.CHANGED))
        steps: dict[int, tuple[int, NotedPlace]] = {}
        for kind in kinds:
            for by in moves:
                front = each.start + by - len(each.before)
                whole = each.before + kind.words + each.after
                if front >= 0 and text.startswith(whole, front):
                    after = by + len(kind.words) - len(each.words)
                    steps.setdefault(after, (by, kind))
        ways.append(steps)
        moves = list(steps)
    by, found = len(text) - its[0].length, list[NotedPlace]()
    for steps in reversed(ways):
        if by not in steps:
            return []
        by, kind = steps[by]
        found.append(replace(kind, start=kind.start + by))
    return found[::-1]
