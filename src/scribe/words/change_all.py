"""Words that are replaced wherever they stand, in words: each place, and what became of all."""

from collections.abc import Callable, Iterable, Iterator, Sequence
from dataclasses import dataclass, field

from braildesk import Session
from braildesk.desk.change import Change
from braildesk.desk.change_all import (
    NotChanged,
    Passed,
    Proposal,
    Replacement,
    is_there,
)
from braildesk.desk.change_note import WHOLE, Became, ChangeNote
from braildesk.desk.find import Variant, alike, find_words, tallied
from braildesk.desk.ranges import ParagraphRange
from braildesk.text.excerpt import excerpt_lines

from scribe.words.changes import at_version, changed_lines
from scribe.words.find import found_summary
from scribe.words.paragraph import counted, quoted
from scribe.words.typed import InvalidInput

#: What may be answered to whether a place is changed.
YES, NO, ALL, STOP = "yes", "no", "all", "stop"
ANSWERS = (YES, NO, ALL, STOP)
QUESTION = "Change it? Type yes, no, all or stop."
#: The same in a word or two.
SHORT_QUESTION = "yes, no, all or stop"
REST_STAYS = "The rest stays as it was."
STAY = "The other places stay as they are."
NONE_LISTED = "There are no more places to change in this list."


@dataclass
class Count:
    """What became of the places where words stand, so far."""

    wanted: Replacement
    changed: int = 0
    passed: int = 0
    refused: list[NotChanged] = field(default_factory=list)
    _paragraphs: set[int] = field(default_factory=set)

    def lines(
        self, found: Iterable[Change | NotChanged | Passed], width: int
    ) -> Iterator[list[str]]:
        """The lines of each place that was changed, as it is counted."""
        for each in found:
            self.add(each)
            if isinstance(each, Change):
                yield changed_lines(each, width)

    def add(self, each: Change | NotChanged | Passed) -> None:
        """Counts what became of a place."""
        match each:
            case Change():
                self.add_change(each.paragraph)
            case NotChanged():
                self.refused.append(each)
            case Passed():
                self.passed += 1

    def add_change(self, paragraph: int) -> None:
        """Counts a place of a paragraph that was changed."""
        self.changed += 1
        self._paragraphs.add(paragraph)

    def sentences(self, version: int) -> Iterator[str]:
        """Which places were refused and why, and how many were changed."""
        yield from self.refusals()
        yield from self.totals(version)

    def refusals(self) -> Iterator[str]:
        """Which places were refused, and why."""
        for each in self.refused:
            place = each.proposal
            yield (
                f"Refused in paragraph {place.paragraph}, character"
                f" {place.place.start + 1}: {each.refused.reason}"
            )

    def totals(self, version: int) -> Iterator[str]:
        """How many places were changed, and how many stay as before."""
        yield self.changed_in_words()
        if self.refused:
            was, stays = (
                ("was", "stays") if len(self.refused) == 1 else ("were", "stay")
            )
            count = counted(len(self.refused), "place")
            yield f"{count} {was} refused and {stays} as before."
        if self.passed:
            stays = "stays" if self.passed == 1 else "stay"
            yield f"{counted(self.passed, 'place')} {stays} as before."
        yield at_version(version)

    def changed_in_words(self) -> str:
        """How many places were changed."""
        old, new = quoted(self.wanted.old), quoted(self.wanted.new)
        by = f"replaced by {new}" if self.wanted.new else "taken out"
        if not self.changed:
            return f"{old} was {by} nowhere."
        places = counted(self.changed, "place")
        return f"{old} was {by} in {places} of {counted(len(self._paragraphs), 'paragraph')}."


class Asking:
    """Asks of each place whether it is changed, until the answer is for all that are left."""

    def __init__(
        self,
        show: Callable[..., None],
        ask: Callable[[], str],
        places: int,
        width: int,
    ) -> None:
        self._show = show
        self._ask = ask
        self._places = places
        self._width = width
        self._shown = 0
        self._of_rest: bool | None = None

    def is_wanted(self, found: Proposal) -> bool:
        """Whether a place is changed."""
        if self._of_rest is not None:
            return self._of_rest
        self._shown += 1
        self._show(*proposal_lines(found, self._shown, self._places, self._width))
        answer = self._ask()
        if answer in (ALL, STOP):
            self._of_rest = answer == ALL
        return answer in (ALL, YES)


def answered(word: str) -> str:
    """The answer that a word, or the front of one, is to whether a place is changed."""
    typed = word.strip().lower()
    for answer in ANSWERS:
        if typed and answer.startswith(typed):
            return answer
    raise InvalidInput(f"the answers are {YES}, {NO}, {ALL} and {STOP}")


def stopped_after(changed: int, places: int, version: int) -> str:
    """What is in the book if the replacing was stopped."""
    if not changed:
        return f"Nothing was changed. {at_version(version)}"
    # a person, or the book, may have left some between these as they are
    is_are = "is" if changed == 1 else "are"
    return (
        f"Of {counted(places, 'place')} {changed:,} {is_are} changed in the book."
        f" {at_version(version)}"
    )


def cut_short(note: ChangeNote, now: Sequence[Became], already: str = "") -> str:
    """How far a change of words came that was cut short; of some places it may not be seen now."""
    what = f"Taking out {quoted(note.old)}"
    if note.new:
        what = f"Changing {quoted(note.old)} to {quoted(note.new)}"
    places = [each for each in note.places if each.became is not Became.LEFT]
    changed = now.count(Became.CHANGED)
    least = "at least " if len(now) < len(note.places) else ""
    if least and not changed:
        return f"{what} was cut short, and it isn't seen how far it came."
    is_are = "is" if changed < 2 else "are"
    some = f"{changed:,}" if changed else "none"
    when = " yet" if already and not changed else already
    return (
        f"{what} was cut short: {least}{some} of {counted(len(places), 'place')}"
        f" {is_are} changed{when}."
    )


def not_seen(paragraphs: Sequence[int]) -> str:
    """That it isn't seen of places whether they were changed before; nothing of no paragraphs."""
    if not paragraphs:
        return ""
    first, others = f"Paragraph {paragraphs[0]}", len(paragraphs) - 1
    if not others:
        what, its = f"{first} was", "its"
    else:
        what, its = f"{first} and {counted(others, 'other')} were", "their"
    return f"{what} changed otherwise since, so it isn't seen which of {its} places are changed."


def proposal_lines(
    found: Proposal, nth: int, count: int, width: int, what: str = ""
) -> list[str]:
    """A place as it is and as it would be, after what is said of it."""
    struck = ", struck" if found.is_struck else ""
    head = f"Place {nth:,} of {count:,}{what}, paragraph {found.paragraph}{struck}: "
    after = "After: "
    now, came = found.after
    place = found.place
    return [
        *excerpt_lines(head, found.text, place.start, place.stop, width),
        *excerpt_lines(after, now, came.start, came.stop, width),
    ]


def would_change(wanted: Replacement, found: Iterable[Proposal]) -> str:
    """How many places would be changed, where none is."""
    return f"{how_many(wanted, found)} Nothing was changed."


def how_many(wanted: Replacement, found: Iterable[Proposal]) -> str:
    """How many places would be changed, as far as it is known before the book is asked, and how many
    wouldn't, since their paragraphs are struck.
    """
    struck: list[int] = []
    numbers: list[int] = []
    for each in found:
        (struck if each.is_struck else numbers).append(each.paragraph)
    how, of = ("changed", "in") if wanted.new else ("taken out", "of")
    where = "nowhere"
    if numbers:
        places = _places_of(numbers, "paragraph")
        where = f"{of} {places}, unless the book refuses a place"
    said = f"{quoted(wanted.old)} would be {how} {where}."
    if struck:
        said += f" {_places_of(struck, 'struck paragraph')} would be refused."
    return said


def _places_of(numbers: Sequence[int], word: str) -> str:
    """How many places there are in paragraphs, of which each has its number once for each place."""
    return f"{counted(len(numbers), 'place')} of {counted(len({*numbers}), word)}"


def _within(wanted: Replacement) -> str:
    """Where words are looked for, and as what, if not everywhere and as they come."""
    where = "" if wanted.ranges == WHOLE else " in these paragraphs"
    return f"{where} as whole words" if wanted.is_of_words else where


def ranges_named(ranges: Sequence[ParagraphRange]) -> str:
    """Some ranges of paragraphs, as in “paragraphs 3 to 9 and 12”."""
    names = []
    for its in ranges:
        name = f"{its.first} to {its.last}"
        if its.first is None:
            name = f"up to {its.last}"
        elif its.last is None:
            name = f"from {its.first} on"
        names.append(str(its.first) if its.first == its.last else name)
    *others, last = names
    joined = f"{', '.join(others)} and {last}" if others else last
    return f"paragraph{'' if joined.isdigit() else 's'} {joined}"


def none_left(
    wanted: Replacement, others: Iterable[Replacement | ChangeNote] = ()
) -> str:
    """What is said of words of which each place was changed or left, in whatever forms others were."""
    how = _within(wanted)
    if not wanted.is_of_any_case and any(each.is_of_any_case for each in others):
        how += " with these capitals"
    return f"There are no more places to change{how}."


def nowhere(session: Session, wanted: Replacement, offer: str) -> str:
    """What is said of words where none would be changed in what is looked through."""
    old, within = quoted(wanted.old), _within(wanted)
    if is_there(session, wanted):
        same = f"The new words are the same wherever {old} stands{within}."
        return f"{same} Nothing was changed."
    if wanted.ranges != WHOLE:
        return f"{old} isn't{within}. Nothing was changed."
    if within:
        return f"{old} isn't in the print of the book{within}. Nothing was changed."
    others = tallied(find_words(session, wanted.old, alike), wanted.old)
    how = offer if others.kinds == (Variant.CAPITALS,) else "."
    said = found_summary(wanted.old, tallied((), ""), others, how)
    return f"{said} Nothing was changed."
