"""What each key asks for: a function from the state to the state after it, and what goes with it."""

import re
from collections.abc import Callable
from dataclasses import dataclass, replace

from braildesk import After, Paragraph, Style, requests

from scribe.screen import pager, whole_book
from scribe.screen.actions import (
    AskForNote,
    BringBack,
    BringTyped,
    ChangePlaces,
    ListHeadings,
    ListMarks,
    ListVolumes,
    OpenAgain,
    Quit,
    ShowHistory,
    ShowPage,
    TakeBack,
    ToFound,
    ToMark,
)
from scribe.screen.field import Field, Purpose
from scribe.screen.lists import at_target
from scribe.screen.moves import (
    along,
    by_lists,
    by_paragraphs,
    by_row,
    by_word,
    no_further,
    other_pane,
    to_end,
    to_end_of_book,
)
from scribe.screen.pasted_lines import is_cut
from scribe.screen.question_keys import answered
from scribe.screen.state import (
    Pages,
    Pane,
    Question,
    State,
    Step,
    prompted,
    saying_first,
    size_typed,
)
from scribe.screen.typing_keys import (
    KEYS_OF_ANSWER,
    KEYS_OF_LINE,
    KEYS_OF_PRINT,
    OF_OLD,
    no_table,
    table_of_new,
    while_typing,
)
from scribe.words.pages import described

_DOTS = (
    "Dot 7 is under marked cells, dot 8 under those of the cursor. d takes both away."
)
_NO_CELL = "There is no cell here that a mark could stand on."
_QUIET = "Now without the list, and without braille while you type. z ends that."
_PAGES_SAID = "Now n, N, / and * say the page and line to which they go. P ends that."
_NO_PAGES_SAID = "Now n, N, / and * say no page and line."
_NO_DOTS = "Braille ASCII has no dots 7 and 8: a shows the cells as Unicode characters."
_OF_GOING = "A paragraph's number, or page 6 line 9, or words to find."
# what is said before it is done, since the book keeps it
_OF_TABLE = "A table that the book lacks is put into it, and stays there."
_OF_IMPORT = "The book keeps what is imported. u strikes it, and nothing takes it out."
_OF_LOST = "Enter opens {opens}, and q ends. That key does nothing here."
_HELP = "Keys "
# of a text that isn't in the book
_WAY_BACK = re.compile(r"\b(?:U|Alt-Y) (?:brings|asks)\b|\bhere only until\b")
_HELP_SHOWN = "The keys are shown already. Escape goes back."
# what shows keys also where ? is a letter
_ASKS_FOR_KEYS = ("f1", "a-?")
KEYS_OF_CHOICE = (
    "Left, Right: to the cell before, after",
    "Ctrl-Right: to the end of the word",
    "Ctrl-Left: to the word before",
    "Home, End: to the front, to the end of the paragraph",
    "k, j: to the line before, after",
    "m: puts a mark on these cells, with a note",
    "Space, Escape: give the choice up",
    "Tab: gives it up, and goes to the print",
)
KEYS_OF_PAGES = (*pager.KEYS, "Escape, Enter, q: go back")
KEYS_OF_LIST = (
    "Enter: goes there",
    "n, N: to the next of the list, to the one before",
    *pager.KEYS,
    "Escape, q: go back",
)


def step(state: State, key: str) -> Step:
    """What a key asks for in a state. A key is a character, or the name of another key."""
    if is_cut(key):
        return Step(state.saying("What came isn't UTF-8, and was left out."))
    found = _step(state.saying(""), key)
    return _with_way_back(state, found) if key == "escape" else found


def _with_way_back(before: State, found: Step) -> Step:
    """What Escape asks for, and before what it says how a text is brought back, if that was said last.

    One that is pressed once more than is needed doesn't hide it.
    """
    if found.asked is not None or not _WAY_BACK.search(before.message):
        return found
    said = before.message.removesuffix(found.state.message).rstrip()
    return Step(saying_first(said, found.state))


def _step(state: State, key: str) -> Step:
    """The same, where nothing is said any more."""
    if state.is_lost and key == "q":
        return Step(state, Quit())
    if state.is_lost and key == "enter":
        return Step(state, OpenAgain())
    if state.is_lost and key == "escape":
        # whoever leaves something by it would type the next keys to a shell
        return Step(state.saying(_OF_LOST.format(opens=state.opens)))
    if state.question and not state.is_lost:
        # from here on it is read anew
        question = replace(state.question, row=None)
        return answered(replace(state, question=question), question, key)
    if key in _ASKS_FOR_KEYS and not state.is_lost:
        return Step(_with_help(state))
    if state.pages and not state.is_typing:
        found, asked = whole_book.asked_by(state, state.pages, key)
        if asked is not None or found is not state:
            return Step(found, asked)
        return Step(_looking(state, state.pages, key))
    if state.typed:
        return while_typing(state, state.typed, key)
    if key == "escape" and state.anchor is not None:
        return Step(replace(state, anchor=None))
    bound = KEYS.get(key)
    if bound is None:
        return Step(state.saying("That key does nothing here. ? shows the keys."))
    if bound.needs_paragraph and state.paragraph is None:
        return Step(state.saying("The book has no paragraphs yet."))
    return bound.does(state)


def is_obeyed(state: State, key: str) -> bool:
    """Whether a key does anything but have something said."""
    found = step(state, key)
    return found.asked is not None or found.state.saying(state.message) != state


def _looking(state: State, pages: Pages, key: str) -> State:
    moved = pager.moved(pages, state.size, key)
    if key in ("n", "N") and pages.targets and pages.offer is None:
        moved = pager.beside(pages, state.size, 1 if key == "n" else -1)
    if moved == pages:
        what = "places" if key in ("n", "N") else "lines"
        return state.saying(f"There are no more {what} that way.")
    if moved is not None:
        return replace(state, pages=moved)
    if state.is_lost:
        return state.saying(_OF_LOST.format(opens=state.opens))
    target = pager.target(pages, state.size) if key == "enter" else None
    if target is not None:
        return at_target(state, target)
    if key in ("escape", "q", "enter"):
        return replace(state, pages=pages.under)
    if key == "?":
        return _with_help(state)
    return state.saying("That key does nothing here. Escape goes back.")


def _with_help(state: State) -> State:
    """The state in which the keys of what is being done are looked at, one a line."""
    under = state.pages
    if under is not None and under.title.startswith(_HELP):
        return state.saying(_HELP_SHOWN)
    what, lines = keys_of(state)
    return replace(state, pages=Pages(f"{_HELP}{what}.", lines, under=under))


def keys_of(state: State) -> tuple[str, tuple[str, ...]]:
    """What is being done, and its keys."""
    pages = None if state.is_typing else state.pages
    if pages and isinstance(pages.offer, ChangePlaces):
        return "in the list of places", whole_book.KEYS_OF_PLACES
    if pages and pages.offer is not None:
        return "in the list of volumes", whole_book.KEYS_OF_VOLUMES
    if pages:
        return "while looking", KEYS_OF_LIST if pages.targets else KEYS_OF_PAGES
    if state.typed is not None:
        purpose = state.typed.purpose
        first = KEYS_OF_PRINT if purpose.is_print else KEYS_OF_ANSWER
        return "while typing", (
            *(first if purpose is not Purpose.NOTE else ()),
            *KEYS_OF_LINE,
        )
    if state.anchor is not None and state.pane is Pane.CELLS:
        return "while choosing cells", KEYS_OF_CHOICE
    seen: dict[str, list[str]] = {}
    for key, bound in KEYS.items():
        seen.setdefault(bound.says, []).append(NAMES.get(key, key))
    lines = (f"{', '.join(keys)}: {says}" for says, keys in seen.items())
    return "in the book", tuple(lines)


def _size(state: State) -> Step:
    text = size_typed(state)
    return Step(replace(state, typed=Field(Purpose.SIZE, text, len(text))))


def _folder(state: State) -> Step:
    said = f"Pages of {described(state.page_size)}. Escape, then w, changes it."
    return Step(replace(state, typed=Field(Purpose.FOLDER, said=said)))


def _typed_for(purpose: Purpose, hint: str = "") -> Callable[[State], Step]:
    return lambda state: Step(prompted(state, purpose, hint=hint))


def _edit(state: State) -> Step:
    paragraph, reading = _chosen(state), state.reading
    if paragraph.struck:
        return _refused_as_struck(state, "edited")
    assert reading is not None
    place = state.place if state.pane is Pane.PRINT else _lit_start(state)
    typed = Field(Purpose.EDIT, reading.text, place)
    return Step(replace(state, table=paragraph.table, typed=typed))


def _refused_as_struck(state: State, what: str) -> Step:
    number = _chosen(state).id
    said = f"Paragraph {number} is struck. s restores it, and then it can be {what}."
    return Step(state.saying(said))


def _table(state: State) -> Step:
    """Asks for a table, which a struck paragraph isn't given."""
    if state.paragraph is not None and state.paragraph.struck:
        return _refused_as_struck(state, "given a table")
    return Step(replace(state, typed=Field(Purpose.TABLE, said=_OF_TABLE)))


def _lit_start(state: State) -> int:
    return state.highlighted.words.start if state.highlighted else 0


def _new(purpose: Purpose, said: str = "") -> Callable[[State], Step]:
    """Types what is new by the table of the chosen paragraph, or of the book, if that is known."""

    def typed(state: State) -> Step:
        table = table_of_new(state)
        if table is None:
            return Step(state.saying(no_table(state)))
        return Step(replace(state, table=table, typed=Field(purpose, said=said)))

    return typed


def _choose_cells(state: State) -> Step:
    if state.reading is not None and not state.reading.braille:
        return Step(state.saying(_NO_CELL))
    if state.pane is Pane.PRINT:
        state = other_pane(state).state
        return Step(replace(state, anchor=state.place))
    if state.anchor is not None:
        return Step(replace(state, anchor=None))
    return Step(replace(state, anchor=state.place))


def _mark(state: State) -> Step:
    if _chosen(state).struck:
        return _refused_as_struck(state, "marked")
    cells = state.chosen_cells
    if cells is None or cells.stop <= cells.start:
        return Step(state.saying(_NO_CELL))
    return Step(state, AskForNote(cells))


def _resolve(state: State) -> Step:
    for mark in state.marks_here:
        if not mark.resolved:
            asked = requests.Resolve(mark.id, expect=state.version)
            its = _chosen(state)
            is_empty = state.reading is not None and not state.reading.braille
            if not (is_empty or its.struck):
                return Step(state, asked)
            what, unless = (
                ("struck", " unless it is restored") if its.struck else ("empty", "")
            )
            sentence = (
                f"Paragraph {its.id} is {what}, so mark {mark.id} can't be put on it again{unless}."
                " Shall it be resolved?"
            )
            return Step(replace(state, question=Question(sentence, yes=asked)))
    return Step(state.saying("There is no open mark here. n looks for the next one."))


def _chosen(state: State) -> Paragraph:
    assert state.paragraph is not None
    return state.paragraph


def _take_back(state: State) -> Step:
    """What a key last did is taken back; if keys did nothing, the newest correction is."""
    if not state.deeds:
        return Step(state, requests.Undo(_chosen(state).id, expect=state.version))
    *earlier, deed = state.deeds
    if not deed.back:
        said = f"The book has no way back from this: {deed.what}."
        if earlier and earlier[-1].back:
            said += f" u again takes back that {earlier[-1].what}."
        return Step(replace(state, deeds=tuple(earlier)).saying(said))
    if len(deed.back) == 1 or deed.is_edit:
        return Step(state, TakeBack())
    return Step(replace(state, question=Question(deed.question, yes=TakeBack())))


def _bring_back(state: State) -> Step:
    return Step(state, BringBack())


def _bring_typed(state: State) -> Step:
    return Step(state, BringTyped())


def _strike(state: State) -> Step:
    its = _chosen(state)
    request = requests.Restore if its.struck else requests.Strike
    return Step(state, request(its.id, expect=state.version))


def _style(state: State) -> Step:
    its = _chosen(state)
    other = Style.BODY if its.style is Style.HEADING else Style.HEADING
    return Step(state, requests.Style(its.id, other, expect=state.version))


def _volume(state: State) -> Step:
    its = _chosen(state)
    begins = not its.begins_volume
    return Step(state, requests.Volume(its.id, begins, expect=state.version))


def _carried(by: int) -> Callable[[State], Step]:
    """Moves the paragraph one place up or down."""

    def moved(state: State) -> Step:
        place = state.chosen + by
        if not 0 <= place < len(state.book):
            return Step(state.saying(no_further(by < 0)))
        before = place - 1 if by < 0 else place
        where_to: After = state.book[before].id if before >= 0 else "front"
        number = _chosen(state).id
        return Step(state, requests.Move(number, where_to, expect=state.version))

    return moved


def _marks(state: State) -> Step:
    return Step(state, ListMarks())


def _headings(state: State) -> Step:
    return Step(state, ListHeadings())


def _again(state: State) -> Step:
    if not state.sought:
        return Step(state.saying("Nothing was looked for yet. / asks for words."))
    return Step(state, ToFound(state.sought, True))


def _ascii(state: State) -> Step:
    return Step(replace(state, is_ascii=not state.is_ascii))


def _dots(state: State) -> Step:
    """Has dots 7 and 8 say what is marked and where the cursor is, or not any more."""
    if state.is_ascii:
        return Step(state.saying(_NO_DOTS))
    has_dots = not state.has_dots
    return Step(replace(state, has_dots=has_dots).saying(_DOTS if has_dots else ""))


def _pages_said(state: State) -> Step:
    """Has the keys that go to marks and words say their page and line, or not any more."""
    says_pages = not state.says_pages
    said = _PAGES_SAID if says_pages else _NO_PAGES_SAID
    return Step(replace(state, says_pages=says_pages).saying(said))


def _quiet(state: State) -> Step:
    """Hides the list of paragraphs and the braille of what is typed, or shows them."""
    is_quiet = not state.is_quiet
    return Step(replace(state, is_quiet=is_quiet).saying(_QUIET if is_quiet else ""))


def _help(state: State) -> Step:
    return Step(_with_help(state))


@dataclass(frozen=True)
class Bound:
    """What a key does, and what is said of it."""

    says: str
    does: Callable[[State], Step]
    needs_paragraph: bool = True


NAMES = {
    "up": "Up",
    "down": "Down",
    "left": "Left",
    "right": "Right",
    "c-left": "Ctrl-Left",
    "c-right": "Ctrl-Right",
    "home": "Home",
    "end": "End",
    "c-home": "Ctrl-Home",
    "c-end": "Ctrl-End",
    "c-up": "Ctrl-Up",
    "c-down": "Ctrl-Down",
    "pageup": "Page Up",
    "pagedown": "Page Down",
    "a-up": "Alt-Up",
    "a-down": "Alt-Down",
    "a-y": "Alt-Y",
    "enter": "Enter",
    "tab": "Tab",
    "f1": "F1",
    " ": "Space",
}
KEYS = {
    "up": Bound("to the paragraph before", by_paragraphs(-1)),
    "down": Bound("to the paragraph after", by_paragraphs(1)),
    "left": Bound("to the character or cell before", lambda s: along(s, True)),
    "right": Bound("to the character or cell after", lambda s: along(s, False)),
    "c-left": Bound("to the word before", lambda s: by_word(s, True)),
    "c-right": Bound(
        "to the word after; in a choice of cells, to the end of a word",
        lambda s: by_word(s, False),
    ),
    **dict.fromkeys(
        ("k", "c-up"), Bound("to the line before in the paragraph", by_row(-1))
    ),
    **dict.fromkeys(
        ("j", "c-down"), Bound("to the line after in the paragraph", by_row(1))
    ),
    "home": Bound("to the front of the paragraph", lambda s: to_end(s, True)),
    "end": Bound("to the end of the paragraph", lambda s: to_end(s, False)),
    "pageup": Bound("a list of paragraphs back", by_lists(-1)),
    "pagedown": Bound("a list of paragraphs on", by_lists(1)),
    "c-home": Bound("to the first paragraph", lambda s: to_end_of_book(s, True)),
    "c-end": Bound("to the last paragraph", lambda s: to_end_of_book(s, False)),
    "g": Bound(
        "goes to a paragraph by its number, to a page and line, or to words",
        _typed_for(Purpose.NUMBER, _OF_GOING),
    ),
    "H": Bound("the headings with their pages; Enter goes to one", _headings),
    "tab": Bound("from the print to the cells, and back", other_pane),
    "a": Bound("cells in Braille ASCII, or as Unicode characters", _ascii, False),
    "d": Bound("dots 7 and 8 under marked cells and the cursor, or not", _dots, False),
    "z": Bound("a quiet screen, without list and preview, or not", _quiet, False),
    "enter": Bound("edits the print; Enter keeps it, Escape doesn't", _edit),
    "o": Bound("a new paragraph after this one", _new(Purpose.AFTER), False),
    "O": Bound("a new paragraph before this one", _new(Purpose.BEFORE), False),
    "u": Bound("takes back what a key last did, or the newest correction", _take_back),
    "U": Bound("brings back a text that was given up", _bring_back, False),
    "a-y": Bound("a new paragraph with all that was typed last", _bring_typed, False),
    "h": Bound("the history of the paragraph", lambda s: Step(s, ShowHistory())),
    " ": Bound("begins or ends a choice of cells, for m", _choose_cells),
    "m": Bound("puts a mark on the cells or the words found, with a note", _mark),
    "n": Bound("to the next open mark", lambda s: Step(s, ToMark(False))),
    "N": Bound("to the open mark before", lambda s: Step(s, ToMark(True))),
    "M": Bound("the marks with their pages; Enter goes to one", _marks),
    "r": Bound("says that the mark shown first is dealt with", _resolve),
    "s": Bound("strikes the paragraph, or restores it", _strike),
    "b": Bound("makes it a heading, or body text", _style),
    "v": Bound("has it begin a volume, or not", _volume),
    "V": Bound(
        "the volumes with their pages, and proposes others",
        lambda s: Step(s, ListVolumes()),
    ),
    "t": Bound("gives it a table", _table, False),
    "a-up": Bound("moves the paragraph up", _carried(-1)),
    "a-down": Bound("moves the paragraph down", _carried(1)),
    "/": Bound("finds words, or cells while on the cells", _typed_for(Purpose.WORDS)),
    "*": Bound("finds the same again", _again),
    "c": Bound(
        "changes words wherever they stand, all at once or place by place",
        _typed_for(Purpose.OLD, OF_OLD),
    ),
    "p": Bound("the page on which these words stand", lambda s: Step(s, ShowPage())),
    "P": Bound(
        "says the page and line of marks and words that are gone to, or not",
        _pages_said,
        False,
    ),
    "w": Bound("the size of pages", _size, False),
    "x": Bound("exports all volumes to a folder", _folder),
    "i": Bound("imports a text file", _new(Purpose.TEXT_FILE, _OF_IMPORT), False),
    "?": Bound("shows the keys of what is being done", _help, False),
    "f1": Bound("shows the keys of what is being done", _help, False),
    "q": Bound(
        "ends; all that was kept is in the book", lambda s: Step(s, Quit()), False
    ),
}
