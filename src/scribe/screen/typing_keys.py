"""What keys do while a text is typed, and what the text asks for when Enter ends it."""

from dataclasses import replace

from braildesk import After, requests
from braildesk.desk.change_all import Replacement
from braildesk.desk.correction import smallest_correction, with_typed
from braildesk.desk.tables import NoSuchTable
from braildesk.text import limits
from braildesk.text.characters import control_refused
from braildesk.text.sequences import composed, parted

from scribe.screen import whole_book
from scribe.screen.actions import (
    ExportTo,
    FindPlaces,
    GiveTable,
    GiveUp,
    ImportFrom,
    ToFound,
    ToPage,
)
from scribe.screen.field import Cut, Field, Purpose
from scribe.screen.lines import beside
from scribe.screen.moves import no_line
from scribe.screen.pasted_lines import about_ended, parted_from, typed_on
from scribe.screen.state import Question, State, Step, answered_with, draft_of
from scribe.words.pagelook import wanted_line
from scribe.words.pages import NoSize, described, typed_page_size
from scribe.words.paragraph import quoted
from scribe.words.typed import InvalidInput, given_path, typed_path

_NOTHING_WHILE_TYPING = (
    "That key does nothing here. Enter ends what is typed, Escape gives it up."
)
OF_OLD = "Each place is shown as it is asked about."
_AS_IT_WAS = "Given up. The book is as it was."
_NOT_ADDED = "This paragraph was empty, and wasn't added."
_MOST = limits.PRINT_CHARACTERS
KEYS_OF_PRINT = (
    "Enter: keeps it; after a new paragraph the next one is begun",
    "Escape: leaves the book as it was; U brings the text back",
    "Up, Down: to the line before, after",
)
KEYS_OF_ANSWER = ("Up: what was typed for this before, and back again",)
KEYS_OF_LINE = (
    "Left, Right: to the character before, after",
    "Ctrl-Left, Ctrl-Right: to the word before, after",
    "Alt-B, Alt-F: to the front, to the end of a word",
    "Home, Ctrl-A: to the front",
    "End, Ctrl-E: to the end",
    "Backspace, Delete: take out the character before, the one here",
    "Ctrl-W, Alt-Backspace: cut the word before",
    "Alt-D: cuts the word after",
    "Ctrl-U, Ctrl-K: cut to the front, to the end",
    "Ctrl-Y: puts in what was cut",
    "F1, Alt-?: shows these keys",
)


def while_typing(state: State, typed: Field, key: str) -> Step:
    """What a key asks for while a text is typed."""
    if key == "escape" and draft_of(state) is not None:
        return Step(state, GiveUp())
    if key == "escape":
        said = _NOT_ADDED if typed.purpose.is_new else _AS_IT_WAS
        return Step(_left(state, typed).saying(said))
    if key in ("up", "down") and typed.purpose.is_print:
        return Step(_on_other_line(state, typed, -1 if key == "up" else 1))
    if key == "up" and not typed.purpose.is_for_book:
        return Step(_brought_back(state, typed))
    if key == "enter":
        refused = control_refused(typed.text.encode())
        if refused:
            return Step(state.saying(refused))
        question = about_length(state, typed)
        if question is not None:
            return Step(replace(state, question=question))
        return entered(state, typed)
    if key == "c-y":
        return Step(_put_back(state, typed))
    cut = typed.cut(key)
    if cut is not None:
        return Step(_cut_out(state, cut))
    moved = typed.moved(key)
    if moved is not None:
        return Step(replace(state, typed=moved))
    if is_character(key):
        ended = about_ended(state)
        if ended is not None:
            return Step(typed_on(state, typed, ended, key))
        return Step(replace(state, typed=parted_from(state, typed).inserted(key)))
    return Step(state.saying(_NOTHING_WHILE_TYPING))


def is_character(key: str) -> bool:
    """Whether a key is a character of a text."""
    return len(key) == 1 and key >= " " and not "\x7f" <= key < "\xa0"


def _on_other_line(state: State, typed: Field, by: int) -> State:
    place = beside(typed.text, state.size.columns, typed.place, by)
    if place is None:
        return state.saying(no_line(by))
    return replace(state, typed=replace(typed, place=place))


def about_length(state: State, typed: Field) -> Question | None:
    """Whether print that is too long for a paragraph goes on in a new one, if it is too long."""
    if not typed.purpose.is_print or len(print_of(state, typed)) <= _MOST:
        return None
    first, rest = parted(typed.text, _MOST)
    sentence = (
        f"A paragraph has at most {_MOST:,} characters, and this one has"
        f" {len(typed.text):,}. Shall it go on in a new paragraph from"
        f" {quoted(rest)} on?"
    )
    return Question(sentence, parts=(first, rest))


def _brought_back(state: State, typed: Field) -> State:
    """The state with what was typed for this before, in whose place what is typed now comes."""
    text = state.answers.get(typed.purpose, "")
    if not text:
        return state.saying("Nothing else was typed for this before.")
    if text == typed.text:
        return state.saying("No older one is kept.")
    field = replace(typed, text=text, place=len(text))
    answers = {**state.answers, typed.purpose: typed.text or text}
    return replace(state, answers=answers, typed=field)


def _left(state: State, typed: Field) -> State:
    """The state in which nothing is typed any more; what was is brought back by Up."""
    state = answered_with(state, typed)
    if typed.purpose in (Purpose.OLD, Purpose.NEW):
        state = replace(state, unchanged=("", ""))
    return replace(state, typed=None, preview=None)


def _cut_out(state: State, cut: Cut) -> State:
    """The state with words cut out; those cut one after the other are put back together."""
    if not cut.text:
        return state.saying("There is nothing to cut there.")
    last = state.answer_cut or state.cut
    before = last.text if last and last.field == state.typed else ""
    text = cut.text + before if cut.is_back else before + cut.text
    state = _with_cut(replace(state, typed=cut.field), replace(cut, text=text))
    return state.saying(f"{quoted(text)} was cut. Ctrl-Y puts it in.")


def _with_cut(state: State, cut: Cut) -> State:
    """The state with what was cut last: out of an answer it takes no place of what was for the book."""
    if cut.field.purpose.is_for_book:
        return replace(state, cut=cut, answer_cut=None)
    return replace(state, answer_cut=cut)


def _put_back(state: State, typed: Field) -> State:
    """The state with what was cut put in: for the book first of all what was cut there."""
    first, other = state.cut, state.answer_cut
    cut = first or other if typed.purpose.is_for_book else other or first
    if cut is None:
        return state.saying("Nothing was cut yet, so nothing was put in.")
    return replace(state, typed=typed.inserted(cut.text))


def entered(state: State, typed: Field) -> Step:
    """What a text asks for when Enter ends it. Print stays on the screen until it is kept."""
    match typed.purpose:
        case Purpose.EDIT:
            return _corrected(state, typed)
        case Purpose.AFTER | Purpose.BEFORE if typed.text.strip():
            table = state.table
            assert table is not None
            command = requests.Type(after(state, typed), table, typed.text)
            return Step(state, replace(command, expect=state.version))
        case Purpose.NOTE:
            return _marked(state, typed.text)
    state = _left(state, typed)
    if typed.purpose.is_new:
        return Step(state.saying(_NOT_ADDED))
    # blanks may be looked for
    is_looked_for = typed.purpose in (Purpose.WORDS, Purpose.OLD) and typed.text
    # and nothing may come in place of words
    if not (typed.text.strip() or is_looked_for or typed.purpose is Purpose.NEW):
        return Step(state.saying("Nothing was typed, so nothing is done."))
    return _answering(state, typed)


def _answering(state: State, typed: Field) -> Step:
    match typed.purpose:
        case Purpose.NUMBER:
            return _going(state, typed.text)
        case Purpose.TABLE:
            return Step(state, GiveTable(typed.text.strip()))
        case Purpose.WORDS:
            return Step(replace(state, sought=typed.text), ToFound(typed.text))
        case Purpose.SIZE:
            return Step(_with_sheet(state, typed))
        case Purpose.OLD:
            said = f"Enter alone takes {quoted(typed.text)} out. {OF_OLD}"
            field = Field(Purpose.NEW, said=said)
            return Step(replace(state, gone=typed.text, typed=field))
        case Purpose.NEW:
            wanted = Replacement(state.gone, typed.text, by=state.by)
            return Step(state, FindPlaces(wanted))
        case Purpose.PAGES:
            return Step(*whole_book.pages_typed(state, typed.text))
        case Purpose.FOLDER:
            return Step(state, ExportTo(typed_path(typed.text), state.page_size))
    return _importing(state, typed.text)


def _importing(state: State, word: str) -> Step:
    try:
        path = given_path(word)
    except InvalidInput as refused:
        return Step(state.saying(f"{refused}. Nothing was typed."))
    place: After = state.paragraph.id if state.paragraph else "end"
    return Step(state, ImportFrom(path, place, state.table))


def after(state: State, typed: Field) -> After:
    """Where a new paragraph goes."""
    if state.paragraph is None:
        return "end"
    if typed.purpose is Purpose.AFTER:
        return state.paragraph.id
    return state.book[state.chosen - 1].id if state.chosen else "front"


def print_of(state: State, typed: Field) -> str:
    """The print that what is typed will be: what is new in normal form C, as the book keeps it."""
    if typed.purpose is not Purpose.EDIT or state.reading is None:
        return composed(typed.text)
    return with_typed(state.reading.text, typed.text)


def _corrected(state: State, typed: Field) -> Step:
    assert state.reading is not None
    least = smallest_correction(state.reading.text, print_of(state, typed))
    if least is None:
        said = "The print reads as before, so there is nothing to keep."
        return Step(replace(state, typed=None, preview=None).saying(said))
    number, by = state.reading.paragraph.id, state.by
    span = (number, least.start, least.count, least.text)
    if by is None:
        return Step(state, requests.Correct(*span, expect=state.version))
    return Step(state, requests.CorrectBy(*span, who=by, expect=state.version))


def _marked(state: State, note: str) -> Step:
    cells = state.chosen_cells
    assert cells is not None and state.paragraph is not None
    count = cells.stop - cells.start
    command = requests.Mark(state.paragraph.id, cells.start, count, note)
    return Step(state, replace(command, expect=state.version))


def _going(state: State, words: str) -> Step:
    """To a paragraph by its number, to a line of a page, or to words."""
    asked = words.strip()
    if asked.isascii() and asked.isdigit():
        return Step(_at_number(state, asked.lstrip("0") or "0"))
    wanted = wanted_line(asked)
    if wanted is None:
        return Step(replace(state, sought=words), ToFound(words))
    return Step(state, ToPage(wanted.page, wanted.line, wanted.volume))


def _at_number(state: State, word: str) -> State:
    for place, paragraph in enumerate(state.book):
        if str(paragraph.id) == word:
            return state.at(place)
    return state.saying(f"There is no paragraph {word}. The cursor stays where it is.")


def _with_sheet(state: State, typed: Field) -> State:
    """The size of pages that was typed, or what is wrong with it, to be typed further."""
    try:
        state = replace(state, page_size=typed_page_size(typed.text))
    except NoSize as fault:
        return replace(state, typed=typed).saying(fault.sentence)
    return state.saying(f"Pages of {described(state.page_size)}.")


def table_of_new(state: State) -> str | None:
    """The table of a new paragraph, if there is no doubt about it."""
    if state.paragraph is not None:
        return state.paragraph.table
    only = state.tables[0] if len(state.tables) == 1 else None
    return state.table or only


def no_table(state: State) -> str:
    """That a table has to be chosen for what is new."""
    return f"{_tables_of(state)}. t chooses one."


def no_such_table(state: State, none: NoSuchTable) -> str:
    """That there is no table of a name, with those that the book has before those it may get."""
    others = [name for name in none.names if name not in state.tables]
    installed = f" t puts one of these into it: {', '.join(others)}." if others else ""
    return (
        f"There is no table {none.name}. Nothing was changed. {_tables_of(state)}.{installed}"
        " Another is put into a book by: scribe table BOOK NAME FILE"
    )


def _tables_of(state: State) -> str:
    """Which tables the book has, at the front of a sentence."""
    if not state.tables:
        return "The book has no table yet"
    what = "table" if len(state.tables) == 1 else "tables"
    return f"The book has the {what} {', '.join(state.tables)}"
