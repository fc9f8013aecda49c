"""What concerns the whole book: words that are changed wherever they stand, and its volumes.

Both are lists that are looked at first, and change the book only by a key in them.
"""

from collections.abc import Callable, Iterable, Sequence
from dataclasses import replace

from braildesk import Mark, Refused, Session, requests
from braildesk.desk.change import Change, change_place
from braildesk.desk.change_all import (
    Passed,
    Proposal,
    Replacement,
    change_proposed,
    moved_by,
    proposals,
)
from braildesk.desk.change_note import WHOLE, Became, ChangeNote
from braildesk.desk.changed_so_far import Further, note_of, places_now, wanted_by
from braildesk.desk.drafts import Drafts
from braildesk.desk.volume_plan import (
    as_they_are,
    planned,
    set_volumes,
    shown_lines,
    to_be_set,
)

from braildesk.text.excerpt import excerpt_lines
from braildesk.text.spans import Span

from scribe.screen import pager
from scribe.screen.actions import (
    ChangePlaces,
    FindPlaces,
    ListVolumes,
    OfWholeBook,
    Place,
    SetVolumes,
    TypeAll,
)
from scribe.screen.field import Field, Purpose
from scribe.screen.in_hand import touched
from scribe.screen.lists import at_chosen
from scribe.screen.state import Pages, State, Target
from scribe.words.change_all import (
    NONE_LISTED,
    REST_STAYS,
    STAY,
    Count,
    none_left,
    not_seen,
    nowhere,
    proposal_lines,
    ranges_named,
)
from scribe.words.deeds import Deed
from scribe.words.paragraph import counted, quoted
from scribe.words.status import Interrupted
from scribe.words.volumes import faults, summary, to_set, volume_lines, was_set

# a book of so many characters is read in a moment
_MANY = 250_000
# so many commands are done in a moment
_FEW = 20
_FURTHER = "The change that was cut short goes on."
_OF_CAPITALS = "These have other capitals. After shows what comes."
_NOT_A_NUMBER = "That is no number of pages, such as 80."
_OF_PAGES = (
    "Volumes begin at headings where they can, and none has more pages than this."
)
_ANEW = "The places are listed as they are now."
_CLOSED = "The list of places is closed. c lists them again."
_CHANGED = (
    "This place is changed already. Escape, then u, takes back the newest change."
)

KEYS_OF_PLACES = (
    "y: changes this place",
    "n: leaves this place as it is",
    "a: changes all places but those left",
    "w: whole words alone, or parts of words too",
    "c: with other capitals too, or not",
    "Enter: goes there",
    *pager.KEYS,
    "Escape, q: go back; the other places stay as they are",
)
KEYS_OF_VOLUMES = (
    "v: proposes volumes of at most so many pages",
    "y: sets the volumes that are proposed",
    "Enter: goes to the first paragraph of a volume",
    *pager.KEYS,
    "Escape, q: go back",
)

#: Says how far the work has come.
Report = Callable[[int, int], None]


def asked_by(state: State, pages: Pages, key: str) -> tuple[State, OfWholeBook | None]:
    """What a key asks for in a list of places or volumes; the same state if it isn't one of its."""
    match pages.offer:
        case ChangePlaces() as offer:
            return _of_places(state, pages, offer, key)
        case SetVolumes() as offer if key == "y" and offer.changed:
            return state, offer
        case SetVolumes() if key == "v":
            field = Field(Purpose.PAGES, said=_OF_PAGES)
            return replace(state, typed=field), None
    return state, None


def _of_places(
    state: State, pages: Pages, offer: ChangePlaces, key: str
) -> tuple[State, OfWholeBook | None]:
    wanted = offer.wanted
    match key:
        case "a" if offer.open_places:
            return state, offer
        case "a":
            return state.saying(NONE_LISTED), None
        case "w":
            other = not wanted.is_of_words
            wanted = replace(wanted, is_of_words=other)
            return state, FindPlaces(wanted, offer.answered)
        case "c":
            other = not wanted.is_of_any_case
            wanted = replace(wanted, is_of_any_case=other)
            return state, FindPlaces(wanted, offer.answered)
        case "escape" | "q" if offer.open_places:
            return replace(state, pages=pages.under).saying(STAY), None
    target = pager.target(pages, state.size)
    nth = target.nth if target else None
    if nth is None or key not in ("y", "n"):
        return state, None
    if offer.places[nth].change is not None:
        return state.saying(_CHANGED), None
    if key == "y":
        return state, replace(offer, nth=nth)
    left = replace(offer.places[nth], is_left=True)
    places = (*offer.places[:nth], left, *offer.places[nth + 1 :])
    return (
        _on_next(state, replace(offer, places=places), nth, "It stays as it is."),
        None,
    )


def pages_typed(state: State, text: str) -> tuple[State, OfWholeBook | None]:
    """What a number asks for that was typed as the most pages of a volume."""
    word = text.strip()
    if not (word.isascii() and word.isdigit() and 0 < len(word) < 7 and int(word)):
        typed = Field(Purpose.PAGES, text, len(text), _OF_PAGES)
        return replace(state, typed=typed).saying(_NOT_A_NUMBER), None
    return state, ListVolumes(int(word))


def takes_long(state: State, action: OfWholeBook | TypeAll) -> bool:
    """Whether something isn't done in a moment."""
    match action:
        case TypeAll(lines=lines):
            return len(lines) > _FEW
        case ChangePlaces(nth=nth):
            return nth is None and len(action.open_places) > _FEW
        case SetVolumes(changed=changed) if len(changed) > _FEW:
            return True
    return sum(each.length for each in state.book) > _MANY


def done(
    session: Session,
    state: State,
    action: OfWholeBook,
    tell: Report,
    changed: list[int],
) -> State:
    """The state after something was looked for in the whole book, or was changed in it.

    Each paragraph is listed as soon as it is changed, once for each change.
    """
    match action:
        case FindPlaces():
            return _found(session, state, action)
        case ChangePlaces(nth=None):
            return _all_changed(session, state, action, tell, changed)
        case ChangePlaces(nth=nth):
            return _one_changed(session, state, action, nth or 0, changed)
        case ListVolumes():
            return _volumes(session, state, action.most)
        case SetVolumes():
            return _volumes_set(session, state, action, tell, changed)


def deed_of(action: OfWholeBook, changed: Sequence[int]) -> Deed:
    """What was done to the whole book, or a part of it, by changes of paragraphs in their order."""
    if isinstance(action, SetVolumes):
        its = reversed(action.changed[: len(changed)])
        were = tuple(requests.Volume(each.id, each.begins_volume) for each, _ in its)
        count = counted(len(changed), "paragraph")
        return Deed(f"volumes were set at {count}", were)
    back = tuple(map(requests.Undo, reversed(changed)))
    # one change is shown where it is taken back, as that of an edit
    only = changed[0] if len(changed) == 1 else None
    if not isinstance(action, ChangePlaces) or action.nth is not None:
        return Deed(f"paragraph {changed[-1]} was corrected", back, paragraph=only)
    count_of = Count(action.wanted)
    for number in changed:
        count_of.add_change(number)
    what = count_of.changed_in_words().removesuffix(".")
    return Deed(what, back, paragraph=only, wanted=action.wanted)


def _found(session: Session, state: State, action: FindPlaces) -> State:
    """The list of the places where words stand, also with other capitals if there are no others."""
    wanted, answered, said = action.wanted, action.answered or (), action.said
    found = proposals(session, wanted, _came(answered))
    if not (found or answered or wanted.is_of_any_case or state.pages):
        found = proposals(session, replace(wanted, is_of_any_case=True))
        if found:
            wanted, said = replace(wanted, is_of_any_case=True), _OF_CAPITALS
    if not found:
        offer = state.pages.offer if state.pages else None
        others = [offer.wanted] if isinstance(offer, ChangePlaces) else []
        why = none_left(wanted, others) if answered else nowhere(session, wanted, ".")
        return state.saying(why)
    offer = _offer_of(wanted, found, answered)
    return _listed_from_open(state, offer).saying(said)


def listed_anew(session: Session, state: State, offer: ChangePlaces) -> State:
    """The list of the places of words in a book that is another one now."""
    places = _places_of(places_now(session, noted(offer, state.version)))
    if len(places) < len(offer.places) + len(offer.elsewhere):
        return state.saying_too(_CLOSED)
    answered = [each for each in places if not each.is_open]
    found = proposals(session, offer.wanted, _came(answered))
    if not found:
        return state.saying_too(none_left(offer.wanted))
    offer = _offer_of(offer.wanted, found, answered)
    return _listed_from_open(state, offer).saying_too(_ANEW)


def noted(offer: ChangePlaces, version: int) -> ChangeNote:
    """What is noted of the places of a list in a book of a version, and of those that it hasn't."""
    its = (*offer.elsewhere, *offer.places)
    places = [(each.proposal, each.became) for each in its]
    return note_of(offer.wanted, places, version)


def going_on(session: Session, drafts: Drafts, wanted: Replacement) -> FindPlaces:
    """Looks for words from where their change was cut short, in that form and those paragraphs."""
    further = Further(session, drafts, wanted)
    others = [wanted_by(note, wanted.by) for note, _ in further.notes]
    if not others:
        return FindPlaces(wanted, ())
    said = ""
    if wanted not in others:
        further.wanted, said = others[0], _FURTHER
    unseen = not_seen(further.unseen(further.found()))
    answered = tuple(_places_of(further.answered))
    return FindPlaces(further.wanted, answered, f"{said} {unseen}".strip())


def _places_of(found: Iterable[tuple[Proposal, Became]]) -> list[Place]:
    """Places by what became of them."""
    return [
        Place(
            its,
            is_left=became is Became.LEFT,
            was_changed=became is Became.CHANGED,
        )
        for its, became in found
    ]


def _came(answered: Iterable[Place]) -> list[Proposal]:
    """The places that were changed."""
    return [each.proposal for each in answered if each.became is Became.CHANGED]


def _offer_of(
    wanted: Replacement, found: Sequence[Proposal], answered: Sequence[Place]
) -> ChangePlaces:
    """Places that were found; those that were left before stay left."""
    left = {_where(each.proposal) for each in answered if each.is_left}
    places = tuple(Place(each, is_left=_where(each) in left) for each in found)
    there = {_where(each.proposal) for each in places}
    elsewhere = (each for each in answered if _where(each.proposal) not in there)
    return ChangePlaces(wanted, places, elsewhere=tuple(elsewhere))


def _where(its: Proposal) -> tuple[int, str, Span]:
    return its.paragraph, its.text, its.place


def _listed_from_open(state: State, offer: ChangePlaces) -> State:
    """The list with the cursor on the first place that is open."""
    opened = (n for n, each in enumerate(offer.places) if each.is_open)
    return _listed(state, offer, next(opened, 0))


def _listed(state: State, offer: ChangePlaces, nth: int) -> State:
    """The state in which places are looked at, as they are and as they would be, the cursor on one."""
    wanted, count = offer.wanted, len(offer.places)
    lines: list[str] = []
    targets: list[Target] = []
    fronts: list[int] = []
    for number, each in enumerate(offer.places, 1):
        fronts.append(len(lines))
        lines += _lines_of(each, number, count, state.size.columns)
        its = each.proposal
        target = Target(its.paragraph, its.place.start, nth=number - 1)
        targets += [target] * (len(lines) - len(targets))
    new = f"to be {quoted(wanted.new)}" if wanted.new else "to be taken out"
    how = ", as whole words" if wanted.is_of_words else ""
    how += ", whatever the capitals" if wanted.is_of_any_case else ""
    how += f", in {ranges_named(wanted.ranges)}" if wanted.ranges != WHOLE else ""
    title = f"{counted(count, 'place')} of {quoted(wanted.old)}{how}, {new}."
    pages = Pages(title, tuple(lines), targets=tuple(targets), offer=offer)
    return replace(state, pages=pager.at_line(pages, state.size, fronts[nth]))


def _lines_of(its: Place, nth: int, count: int, width: int) -> list[str]:
    """A place as it is and as it would be, or as it is now and as it was before."""
    if its.change is None:
        what = ", left" if its.is_left else ""
        return proposal_lines(its.proposal, nth, count, width, what)
    now, was = its.proposal, its.change
    head = f"Place {nth:,} of {count:,}, changed, paragraph {now.paragraph}: "
    return [
        *excerpt_lines(head, now.text, now.place.start, now.place.stop, width),
        *excerpt_lines("Before: ", was.before, was.went.start, was.went.stop, width),
    ]


def _on_next(state: State, offer: ChangePlaces, nth: int, said: str) -> State:
    """The list with the cursor on the next place that is open, and how many are."""
    opened = [n for n, each in enumerate(offer.places) if each.is_open]
    after = next((n for n in opened if n > nth), opened[0] if opened else nth)
    count = {0: "No more places.", 1: "1 more place."}.get(
        len(opened), f"{len(opened):,} more places."
    )
    listed = _listed(state, replace(offer, nth=None), after)
    return listed.saying(f"{said} {count}")


def _one_changed(
    session: Session, state: State, offer: ChangePlaces, nth: int, changed: list[int]
) -> State:
    """Changes one of the places, and goes on with the next one that is open."""
    its = offer.places[nth].proposal
    if not its.changes:
        return state.saying("The print there would stay the same.")
    number, text, by = its.paragraph, its.text, offer.wanted.by
    try:
        change = change_place(session, number, text, its.place, its.new, by)
    except Refused as refused:
        return state.failing(refused.sentence)
    changed.append(number)
    kept = f"kept: a correction of paragraph {number}"
    state = _changed(session, state, deed_of(offer, changed), kept)
    places = _moved(change, offer.places)
    came = replace(places[nth].proposal, place=change.came)
    places[nth] = Place(came, change)
    elsewhere = tuple(_moved(change, offer.elsewhere))
    offer = replace(offer, places=tuple(places), elsewhere=elsewhere)
    said = f"Paragraph {number} is changed. {touched(list(change.touched))}".rstrip()
    return _on_next(state, offer, nth, said)


def _moved(change: Change, places: Sequence[Place]) -> list[Place]:
    """Places as they are after one of their paragraphs was changed."""
    moved = moved_by(change, (each.proposal for each in places))
    return [replace(each, proposal=its) for each, its in zip(places, moved)]


def _all_changed(
    session: Session,
    state: State,
    offer: ChangePlaces,
    tell: Report,
    changed: list[int],
) -> State:
    """Changes all places that are listed, and says which were refused and why."""
    places = offer.open_places
    of_list = _done_before(offer)
    marks: list[Mark] = []
    said = ""
    try:
        for nth, each in enumerate(
            change_proposed(session, places, offer.wanted.by), 1
        ):
            of_list.add(each)
            if isinstance(each, Change):
                marks += each.touched
                changed.append(each.paragraph)
            tell(nth, len(places))
    except Interrupted:
        said = REST_STAYS
    if changed:
        kept = f"kept: {counted(len(changed), 'correction')}"
        state = _changed(session, state, deed_of(offer, changed), kept)
    lines = [*of_list.totals(state.version), *of_list.refusals()]
    lines += filter(None, (said, touched(marks)))
    title = "Changed." if of_list.changed else "Nothing was changed."
    return replace(state, pages=Pages(title, tuple(lines)))


def _done_before(offer: ChangePlaces) -> Count:
    """What became of the places that were changed or left one by one, also in other lists."""
    count = Count(offer.wanted)
    for each in (*offer.elsewhere, *offer.places):
        if each.change is not None:
            count.add(each.change)
        elif each.is_left:
            count.add(Passed(each.proposal))
    return count


def _changed(session: Session, state: State, deed: Deed, kept: str) -> State:
    """The state after the book was changed in more places than the chosen paragraph."""
    return replace(
        state,
        version=session.last_version,
        book=session.paragraphs(),
        openings={},
        reading=None,
        highlighted=None,
        deeds=(*state.deeds, deed),
        kept=kept,
    )


def _volumes(session: Session, state: State, most: int | None) -> State:
    """The list of the volumes as they are, or as they would be with so many pages at most."""
    size = state.page_size
    book, lines = shown_lines(session, state.book, size)
    if not book:
        return state.saying("All paragraphs are struck, so the book has no volume.")
    volumes = as_they_are(book, lines, size)
    title, changed, front = summary(volumes, size), [], []
    if most is not None:
        volumes = planned(lines, size, most)
        title = f"Proposed: {summary(volumes, size)}"
        changed = to_be_set(book, volumes)
        front = list(to_set(changed, "y does it"))
    targets = [Target(book[0].id)] * len(front)
    targets += [Target(each.eight_dots[0]) for each in volumes if each.eight_dots]
    targets += [Target(book[each.paragraphs.start].id) for each in volumes]
    listed = Pages(
        title,
        (*front, *faults(volumes), *volume_lines(session, book, volumes)),
        targets=tuple(targets),
        offer=SetVolumes(tuple(changed)),
    )
    # what is proposed is read from its head on
    return at_chosen(state, listed) if most is None else replace(state, pages=listed)


def _volumes_set(
    session: Session,
    state: State,
    action: SetVolumes,
    tell: Report,
    changed: list[int],
) -> State:
    """Sets where volumes begin, as it was proposed, and shows them."""
    why = ""
    try:
        for paragraph in set_volumes(session, action.changed):
            changed.append(paragraph.id)
            tell(len(changed), len(action.changed))
    except Interrupted:
        pass
    except Refused as refused:
        if not changed:
            raise
        why = refused.reason
    kept = f"kept: volumes set at {counted(len(changed), 'paragraph')}"
    state = _changed(session, state, deed_of(action, changed), kept)
    said = was_set(action.changed[: len(changed)], state.version)
    state = _volumes(session, state, None)
    return state.saying(" ".join([why, *said]).lstrip())
