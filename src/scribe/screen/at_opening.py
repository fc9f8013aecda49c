"""The screen at the opening of a book: where it was left, and what was begun and isn't in the book."""

from collections.abc import Callable
from dataclasses import replace
from pathlib import Path

from braildesk import Session
from braildesk.desk.changed_so_far import left_open, wanted_by
from braildesk.desk.drafts import Drafts, NotKept
from braildesk.desk.earlier import PartIsThere, to_go_on
from braildesk.desk.import_note import ImportNote
from braildesk.desk.unfinished import NotSeen, Unfinished

from scribe.screen.actions import FindPlaces, ImportFrom, LeaveChange
from scribe.screen.background import question_about
from scribe.screen.field import Cut, Field, Purpose
from scribe.screen.state import Pane, Question, State
from scribe.words.change_all import cut_short
from scribe.words.drafts import Unsent, not_kept, words_wait
from scribe.words.import_text import came_to, not_seen_yet

SHOWS_KEYS = "? shows the keys."
_OPENED_THERE = "The book is open where it was left. "
_GOES_ON = "c and the same words go on."


def where_left(drafts: Drafts, state: State) -> State:
    """The state at the place where the book was left, if that is there still.

    It is said if the book wasn't changed since, by which something else may stand there.
    """
    left = drafts.left_at()
    if left is None:
        return state
    state = replace(state, is_quiet=left.is_quiet, has_dots=left.has_dots)
    places = [n for n, each in enumerate(state.book) if each.id == left.paragraph]
    if not places or (places[0], left.place) == (0, 0):
        return state
    pane = Pane.CELLS if left.is_in_cells else Pane.PRINT
    state = replace(state.at(places[0], left.place), pane=pane)
    if left.version != state.version:
        return state
    return state.saying(f"{_OPENED_THERE}{state.message}".rstrip())


def elsewhere(before: State, state: State) -> State:
    """The state in which it isn't said any more that the book is open where it was left, if it isn't."""
    where, here = (before.chosen, before.place), (state.chosen, state.place)
    if where == here:
        return state
    return state.saying(f"{state.message} ".replace(_OPENED_THERE, "").rstrip())


def asking(state: State) -> State:
    """The state in which what is asked isn't behind where the book is open, as on a screen of one line."""
    if state.question is None:
        return state
    return state.saying(f"{state.message} ".replace(_OPENED_THERE, "").rstrip())


def with_cut(unsent: Unsent, state: State) -> State:
    """The state with what was cut out of a text when scribe was ended, for Ctrl-Y.

    Nothing is said of it: most of what is cut is what something else was typed in the place of.
    """
    if not unsent.cut:
        return state
    return replace(state, cut=Cut(Field(Purpose.EDIT), unsent.cut, False))


def with_answers(unsent: Unsent, state: State) -> State:
    """The state with what was typed last where something is asked, and words for c."""
    names = Purpose.__members__
    answers = {
        names[name]: text for name, text in unsent.answers.items() if name in names
    }
    state = replace(state, answers=answers, unchanged=unsent.words)
    old, new = unsent.words
    if not old:
        return state
    both = {Purpose.OLD: old, **({Purpose.NEW: new} if new else {})}
    said = f"{words_wait(unsent.words)} Up after c brings back what was typed."
    state = replace(state, answers={**answers, **both})
    return state.saying(f"{said} {state.message}".rstrip())


def reminded(
    drafts: Drafts,
    session: Session,
    state: State,
    reading: Callable[[ImportNote], None],
) -> State:
    """Asks about an import that was cut short, or says so if something else is asked."""
    for found in to_go_on(drafts, session, state.book, reading):
        if isinstance(found, Unfinished) and state.question is None:
            action = ImportFrom(Path(found.note.text), found.after)
            question = question_about(PartIsThere(found), action)
            said = state.message.removesuffix(SHOWS_KEYS).rstrip()
            state = replace(state, message=said, question=question)
            continue
        sentences = [state.message]
        match found:
            case Unfinished():
                go_on = "i and the name of that file go on."
                sentences += [came_to(found), go_on]
            case NotSeen():
                sentences.append(not_seen_yet(found, "i"))
            case NotKept():
                # of a folder that can't be read it may be said already
                fault = not_kept(found)
                sentences += [] if fault in state.message else [fault]
        state = state.saying(" ".join(filter(None, sentences)))
    return state


def with_changes(drafts: Drafts, session: Session, state: State) -> State:
    """Asks about words of which not all places were changed, or says so if something else is asked."""
    for note, places in left_open(session, drafts):
        found = cut_short(note, [became for _, became in places])
        if state.question is not None:
            state = state.saying_too(f"{found} {_GOES_ON}")
            continue
        wanted = wanted_by(note, state.by)
        question = Question(
            f"{found} Shall the others be listed?",
            yes=FindPlaces(wanted),
            no=LeaveChange(wanted),
            more="l leaves it for later.",
        )
        said = state.message.removesuffix(SHOWS_KEYS).rstrip()
        state = replace(state, message=said, question=question)
    return state
