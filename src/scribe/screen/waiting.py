"""Texts that were typed and aren't in the book: they are set aside, and asked about again."""

from collections.abc import Callable
from dataclasses import replace

from braildesk import Session
from braildesk.desk.draft import Aim, Draft
from braildesk.desk.drafts import NotKept
from braildesk.desk.kept_lines import lines_kept, lines_left, mark_kept
from braildesk.desk.places import cells_of, words_of
from braildesk.text.characters import visible
from braildesk.text.sequences import composed
from braildesk.text.spans import Span

from scribe.screen.actions import BringBack, GiveUp, PutBy, PutOff, Quit
from scribe.screen.field import Field, Purpose
from scribe.screen.in_hand import marked_words, on_words
from scribe.screen.state import (
    Pane,
    Question,
    State,
    WordsFound,
    draft_of,
    draft_of_pasted,
    field_of,
)
from scribe.screen.typing_keys import no_table, table_of_new
from scribe.words.drafts import (
    Unsent,
    as_paragraphs,
    changed_since,
    not_kept,
    typed_at_offer,
    what_for,
    while_struck,
    without_paragraph,
)
from scribe.words.paragraph import counted, quoted
from scribe.words.typed_last import BROUGHT, NOTHING

_PASTED = (
    "Pasted text goes in after Enter or o. No key of it was obeyed. U brings it back, for a new"
    " paragraph."
)
# also of those that were pressed before the screen was there
_AT_ONCE = (
    "Keys that come all at once are taken as a text, which goes in after Enter or o. No key of it"
    " was obeyed. U brings it back, for a new paragraph."
)
_ONCE_OPEN = (
    "No key of that text was obeyed. Once the book is open again, U brings it back, for a new"
    " paragraph."
)
_LATER = "The text waits. U asks about it, and so does an opening at which no newer one waits."
_NOT_LATER = "The text couldn't be kept to wait. U brings it back."
_STAYS_ASKED = "It can't be left for later."
_KEPT = "They are kept as a text, which U brings back."
# others may have been given up, and be in the book since
_NO_TEXT = "No text is set aside in this book."
_BACK_LATER = "Once nothing is asked or typed any more, U brings it back."


def with_text(
    session: Session,
    unsent: Unsent,
    state: State,
    action: GiveUp | PutOff | BringBack | PutBy,
    is_typed_last: Callable[[str], bool],
) -> State:
    """What becomes of a text that isn't sent. All that was typed last, brought back, is kept as that."""
    match action:
        case GiveUp():
            return _given_up(unsent, state, is_typed_last)
        case BringBack():
            return _brought_back(session, unsent, state, action.place)
        case PutBy():
            return _put_by(unsent, state, action)
    offered = state.question.saved if state.question else None
    said = _LATER if offered and unsent.waits(offered) else _NOT_LATER
    if offered and unsent.waiting != offered and said == _LATER:
        # the lines that the book has don't wait any more
        try:
            unsent.keep(offered)
        except NotKept as fault:
            if unsent.waiting and unsent.waiting.text != offered.text:
                # U would bring these back as well
                return state.saying(f"{_STAYS_ASKED} {not_kept(fault)}")
    unsent.put_off()
    return replace(state, question=None, anchor=None).saying(said)


def _given_up(
    unsent: Unsent, state: State, is_typed_last: Callable[[str], bool]
) -> State:
    """Gives up lines that are asked about, what is typed, or the text that waits."""
    # what is typed on, or brought back and typed on, is no other line any more
    state = replace(state, ended=None)
    asked = state.question
    if asked is not None and asked.draft is not None:
        state = replace(state, typed=asked.draft, question=None)
    draft = draft_of(state)
    if asked is not None and asked.saved is not None:
        # at another place it would be another text
        draft = asked.saved
    is_kept = draft is not None and draft.aim is Aim.AFTER and is_typed_last(draft.text)
    fault = unsent.put_by(draft) if draft and not is_kept else ""
    if asked is not None and asked.lines:
        its, field = state.reading, state.typed
        if its is not None and field is not None and field.text == its.text:
            state = replace(state, typed=replace(field, before=None))
        how = "Once nothing is typed any more, U brings them back."
        said = f"These lines aren't in the book. {how} {fault}".rstrip()
        return replace(state, question=None).saying(said)
    said = "Given up. The book is as it was."
    if draft is not None:
        said = f"{said} {fault or ('Alt-Y' if is_kept else 'U') + ' brings it back.'}"
    given_up = replace(state, typed=None, preview=None, question=None, anchor=None)
    return given_up.saying(said)


def _brought_back(session: Session, unsent: Unsent, state: State, place: int) -> State:
    """Asks about a text that was given up, or left for later."""
    texts = unsent.texts()
    if not texts:
        return state.saying(_NO_TEXT)
    place %= len(texts)
    before = state.question.came_from if state.question else None
    came_from = before or (state.chosen, state.place, state.pane)
    state = replace(state, question=None)
    state = asked_about(session, state, texts[place], "was set aside")
    assert state.question is not None
    sentence = f"{place + 1} of {len(texts)}. {state.question.sentence}"
    more = "U asks about the one before." if place + 1 < len(texts) else ""
    if len(texts) > 1 and not more:
        more = "U asks about the newest one again."
    asked = replace(state.question, sentence=sentence, older=place + 1, more=more)
    return replace(state, question=replace(asked, came_from=came_from))


def with_typed_last(state: State, text: str) -> State:
    """A new paragraph is typed after this one, with all that keys typed last, if they typed anything."""
    table = table_of_new(state)
    if not text or table is None:
        return state.saying(no_table(state) if text else NOTHING)
    field = Field(Purpose.AFTER, text, len(text))
    return replace(state, table=table, typed=field).saying(BROUGHT)


def _put_by(unsent: Unsent, state: State, action: PutBy) -> State:
    """Keeps a text that was pasted where nothing is typed, so that it can be typed."""
    draft = draft_of_pasted(state, action.text)
    if action.is_last:
        said = f"{not_obeyed(draft.joined)} {_KEPT}"
    elif state.is_lost:
        said = _ONCE_OPEN
    elif state.question is not None and state.question.is_offer:
        said = f"{typed_at_offer(draft.joined)} {_BACK_LATER}"
    else:
        said = _AT_ONCE if action.is_keys else _PASTED
    return state.saying(f"{said} {unsent.put_by(draft)}".rstrip())


def left_or_asked(unsent: Unsent, state: State, action: Quit) -> State:
    """The state in which the book is left, or in which it is asked about texts that are kept nowhere."""
    unsent.keep_again()
    texts = unsent.unkept
    if not texts or action.is_asked or state.is_lost:
        return replace(state, is_over=True)
    newest, they_are = f"{quoted(texts[0])} was given up", "it is"
    if len(texts) > 1:
        count = counted(len(texts), "text")
        newest = f"{count} were given up, the last of them {quoted(texts[0])}"
        they_are = "they are"
    asked = (
        f"{newest}, and can't be kept. At the end {they_are} shown once more, and kept nowhere."
        " Shall scribe end?"
    )
    return replace(state, question=Question(asked, yes=Quit(is_asked=True)))


def not_obeyed(keys: str) -> str:
    """That keys which came last weren't obeyed."""
    what = "The last key wasn't" if len(keys) == 1 else "The last keys weren't"
    return f"{what} obeyed: {quoted(keys)}."


def asked_about(
    session: Session,
    state: State,
    saved: Draft,
    became: str,
    moved: str = "",
) -> State:
    """Asks whether a text that waits is taken up, at its paragraph."""
    places = [n for n, each in enumerate(state.book) if each.id == saved.paragraph]
    changed, before = "" if places else without_paragraph(saved), None
    if places:
        # in the paragraph of the cursor it stays where it is
        state = state.at(places[0], state.place * (places[0] == state.chosen))
        now = session.print_of(state.book[places[0]].id)
        changed = changed_since(saved, now)
        before = saved.before if changed and saved.aim is Aim.EDIT else None
        if state.book[places[0]].struck and not saved.aim.is_new:
            changed += while_struck(state.book[places[0]].id)
    amount = _amount(saved)
    sentence = (
        f"{what_for(saved)} {became}: {quoted(saved.joined)}.{amount}{moved}{changed}"
    )
    # on few lines no more than the end of a question is seen
    field = replace(field_of(saved), said=changed.lstrip(), before=before)
    if saved.aim is Aim.NOTE and places:
        number = state.book[places[0]].id
        cells = _cells_of(session, number, saved)
        state = _with_chosen(session, state, cells)
        said = on_words(session, number, cells)
        words = marked_words(session, number, cells)
        # on few lines no more than its front is seen: where the note will be
        field = replace(field, said=f"{said}{changed}".strip(), words=words)
    elif not places and not saved.aim.is_new:
        field = replace(field, purpose=Purpose.AFTER)
    table = saved.table if saved.table in state.tables else None
    state = replace(state, table=table or state.table)
    asked = f"{sentence} Shall it be typed further?"
    more = "l leaves it for later."
    question = Question(asked, draft=field, saved=saved, more=more)
    return replace(state, question=question)


def where_kept(session: Session, state: State, saved: Draft) -> str:
    """Where a text that waits, or its first line, is in the book, in words; or nothing.

    It may be there if the session ended after it was kept, and before that was reported.
    """
    numbers = [each.id for each in state.book]
    if saved.version is None or state.version <= saved.version or not numbers:
        return ""
    if saved.aim.is_new:
        count = lines_kept(session, saved, state.version, numbers)
        return as_paragraphs(numbers, count)
    text = composed(saved.first_line)
    number = saved.paragraph
    if number is None or number not in numbers:
        return ""
    if saved.aim is Aim.EDIT:
        is_there = composed(session.print_of(number)) == text
        return f"in paragraph {number}" if is_there else ""
    mark = mark_kept(session, saved)
    return f"as mark {mark.id}" if mark is not None else ""


def unkept(session: Session, state: State, saved: Draft) -> Draft | None:
    """What of a text that waits isn't in the book, where its first line is."""
    numbers = [each.id for each in state.book]
    return lines_left(session, saved, state.version, numbers)


def _cells_of(session: Session, number: int, saved: Draft) -> Span:
    """The cells on which a note would stand: those of its words, if these were moved or have others."""
    now, braille = session.print_of(number), session.braille_of(number)
    cells, words = saved.cells or Span(0, 1), saved.words_in(now) if braille else None
    is_there = cells.stop <= len(braille)
    if words is None:
        return cells if is_there else Span(0, 1)
    # also where the print is as it was, by another table
    if is_there and words_of(session, number, cells, now, braille) == words:
        return cells
    return cells_of(session, number, words)


def _with_chosen(session: Session, state: State, cells: Span) -> State:
    """The state with cells chosen, or the words of these in the print where the cursor is there."""
    assert state.paragraph is not None
    number = state.paragraph.id
    text, braille = session.print_of(number), session.braille_of(number)
    if state.pane is Pane.PRINT and braille:
        words = words_of(session, number, cells, text, braille)
        count = words.stop - words.start
        found = WordsFound(number, Pane.PRINT, words.start, cells, braille, count)
        return replace(state.at(state.chosen, words.start), found=found)
    return replace(
        state,
        pane=Pane.CELLS,
        anchor=cells.start,
        place=cells.stop - 1,
        highlighted=None,
    )


def _amount(saved: Draft) -> str:
    """How much text it is, if that isn't seen from its first words."""
    lines = saved.text.count("\n") + 1
    if lines == 1 and quoted(saved.text) == f"“{visible(saved.text)}”":
        return ""
    of_lines = f", {lines:,} lines" if lines > 1 else ""
    return f" It has {counted(len(saved.text), 'character')}{of_lines}."
