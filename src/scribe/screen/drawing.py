"""The lines of the screen, as a function of its state."""

import unicodedata
from dataclasses import dataclass, replace

from braildesk import Mark, Style
from braildesk.desk.highlighting import Highlighted
from braildesk.desk.readings import ParagraphReading
from braildesk.text import limits
from braildesk.text.cells import braille_ascii
from braildesk.text.characters import code_and_name, visible
from braildesk.text.excerpt import opening, opening_after
from braildesk.text.wrapping import columns, wrap

from scribe.screen import pager, question_rows
from scribe.screen.body import body
from scribe.words.encoding import has
from scribe.screen.actions import ChangePlaces, SetVolumes
from scribe.screen.field import Field, Purpose
from scribe.screen.lines import Area, CHOSEN, HEAD, Line, PLAIN, Run, filled, shown
from scribe.screen.state import Pages, Pane, Question, Size, State
from scribe.words.paragraph import mark_line, marked_words, title

# what is most needed comes first, since a narrow screen shows only the front of it
HINT = (
    "? keys  q ends  Enter edits  o new  u undo  Tab cells  m mark  n next mark  / find"
    "  x export"
)
# of a struck paragraph, which isn't edited or marked
_STRUCK_HINT = "? keys  q ends  s restores  o new  u undo  Tab cells  n next mark  / find  x export"
PROMPTS = {
    Purpose.NOTE: "Note of the mark: ",
    Purpose.NUMBER: "Go to: ",
    Purpose.TABLE: "Table: ",
    Purpose.WORDS: "Find: ",
    Purpose.SIZE: "Cells and lines: ",
    Purpose.FOLDER: "Export to the folder: ",
    Purpose.TEXT_FILE: "Import the text file: ",
    Purpose.OLD: "Words to change: ",
    Purpose.NEW: "In their place: ",
    Purpose.PAGES: "Most pages of a volume: ",
}


# what is always seen of the book: the chosen paragraph, the line below the list, a line of the print
# and one of the braille; beside what is said that is long, the first and the third of these
_LEAST_OF_BOOK = 4
_LEAST_BESIDE_SAID = 2
# on a screen of fewer lines a line of the print is seen, and below it what matters most
_FEW_LINES = 8
_TOO_LONG = (
    f"A paragraph has at most {limits.PRINT_CHARACTERS:,} characters. Type on: Enter asks whether it"
    " goes on in a new one."
)
# as many columns of what is typed are seen after a whole prompt
_LEAST_TYPED = 16


@dataclass(frozen=True)
class _Own:
    """The rows below the book that marks, and what is said, have of their own, and the last row.

    They are there whatever stands in them, so that the book doesn't move when something is said.
    """

    marks: int
    said: int
    hint: int = 1

    @property
    def count(self) -> int:
        """All rows below the book, with the one that says what the cursor is on."""
        return 1 + self.marks + self.said + self.hint


# the rows of screens of so many lines or more
_OWN = {
    40: _Own(4, 3),
    20: _Own(2, 2),
    12: _Own(1, 2),
    5: _Own(1, 1, 0),
    4: _Own(1, 0, 0),
    0: _Own(0, 0, 0),
}


@dataclass(frozen=True)
class Drawing:
    """All lines of the screen, and where the terminal's cursor stands: a line and a character."""

    lines: tuple[Line, ...]
    cursor: tuple[int, int]

    def texts(self) -> list[str]:
        """The lines as text alone."""
        return ["".join(piece.text for piece in line).rstrip() for line in self.lines]


def draw(state: State) -> Drawing:
    """The screen: a title, the book and the chosen paragraph, and what is said below."""
    if state.size.lines < 2 and (state.question is None or state.is_lost):
        return _on_one_line(state)
    bottom = _bottom(state)
    room = max(0, state.size.lines - 1 - len(bottom.lines))
    areas = [Area([_title(state)]), _above(state, room), bottom]
    lines: list[Line] = []
    cursor = (0, 0)
    for area in areas:
        if area.cursor is not None:
            cursor = (len(lines) + area.cursor[0], area.cursor[1])
        lines += area.lines
    # where there is no room for the title, what is asked is seen
    over = max(0, len(lines) - state.size.lines)
    return Drawing(tuple(lines[over:]), (cursor[0] - over, cursor[1]))


def _on_one_line(state: State) -> Drawing:
    """The line of the cursor, as it is on two."""
    whole = draw(replace(state, size=Size(state.size.columns, 2)))
    line, place = whole.cursor
    return Drawing((whole.lines[line],), (0, place))


def _above(state: State, room: int) -> Area:
    """The book, or what is looked at in its place.

    What needs more rows than it has of its own covers the last lines of the book, which stays where
    it is, unless the cursor is there.
    """
    if state.pages:
        return _pages(state, state.pages, room)
    usual = max(room, state.size.lines - 1 - _own(state).count)
    whole = _middle(state, usual)
    line = whole.cursor[0] if whole.cursor else 0
    if line >= room:
        return _middle(state, room)
    return Area(whole.lines[:room], whole.cursor)


def _own(state: State) -> _Own:
    """The rows below the book; a quiet screen names keys only if nothing else can be done."""
    own = next(own for least, own in _OWN.items() if state.size.lines >= least)
    if state.is_quiet and not (state.is_lost or state.away):
        return replace(own, hint=0)
    return own


def _title(state: State) -> Line:
    paragraph = state.paragraph
    table = paragraph.table if paragraph else state.table
    parts = [state.name, f"version {state.version:,}"]
    if table:
        parts.append(f"table {table}")
    if state.size.lines < _FEW_LINES and state.typed and state.typed.purpose.is_new:
        parts.append("New paragraph")
    elif paragraph and state.size.lines < _FEW_LINES:
        parts.append(title(paragraph, False))
    # the sentence below may speak of something later
    if state.kept is not None:
        parts.append(f"last {state.kept}" if state.kept else "nothing kept yet")
    # what was last kept stands there at any width
    while len(parts) > 1 and columns(visible(", ".join(parts))) > state.size.columns:
        parts.pop(0)
    text = visible(", ".join(parts))
    if columns(text) > state.size.columns:
        text = text.removeprefix("last ")
    text = opening(text, state.size.columns)
    return (Run(text + " " * (state.size.columns - columns(text)), HEAD),)


def _middle(state: State, room: int) -> Area:
    if not state.book and not (state.typed and state.typed.purpose.is_print):
        text = _of_no_paragraphs(state)
        lines: list[Line] = [(Run(each),) for each in wrap(text, state.size.columns)]
        return Area(filled(lines, room), (0, 0))
    listed = _listed(state, min(state.list_lines, max(1, room - 3)))
    if state.is_quiet or state.size.lines < _FEW_LINES:
        listed = []
    above = [*listed, _rule(state)] if room >= _LEAST_OF_BOOK else listed
    below = body(state, room - len(above))
    cursor = below.cursor and (len(above) + below.cursor[0], below.cursor[1])
    return Area(filled([*above, *below.lines], room), cursor)


def _of_no_paragraphs(state: State) -> str:
    if not state.tables:
        return "The book has no table and no paragraphs. t puts a table into it."
    if len(state.tables) > 1 and not state.table:
        names = ", ".join(state.tables)
        return f"The book has no paragraphs, but the tables {names}. t chooses one for the first."
    return "The book has no paragraphs. o types the first one, i imports a text."


def _listed(state: State, count: int) -> list[Line]:
    """So many lines of the list, the chosen paragraph among them: number, style, flags, first words."""
    top = max(state.top, state.chosen - count + 1)
    lines: list[Line] = []
    for place, paragraph in enumerate(state.book[top : top + count], top):
        its = state.openings.get(paragraph.id)
        marks = its.open_marks if its else 0
        flags = [
            "heading" if paragraph.style is Style.HEADING else "body",
            "volume" if paragraph.begins_volume else "",
            "struck" if paragraph.struck else "",
            f"{marks} open {'mark' if marks == 1 else 'marks'}" if marks else "",
        ]
        sign = ">" if place == state.chosen else " "
        words = its.words if its else ""
        head = f"{sign}{paragraph.id:>5} {', '.join(filter(None, flags))}: "
        text = opening_after(head, visible(words), state.size.columns - 1)
        lines.append((Run(text, CHOSEN if place == state.chosen else PLAIN),))
    return lines + [(Run(""),)] * (count - len(lines))


def _rule(state: State) -> Line:
    paragraph, typed = state.paragraph, state.typed
    if typed and typed.purpose.is_new:
        where = "after" if typed.purpose is Purpose.AFTER else "before"
        name = f" {where} paragraph {paragraph.id}" if paragraph else ""
        text = f"New paragraph{name}, table {state.table}"
    elif paragraph:
        text = title(paragraph, True)
    else:
        text = ""
    text = opening(f"-- {text} ", state.size.columns)
    return (Run(text + "-" * (state.size.columns - columns(text))),)


def _pages(state: State, pages: Pages, room: int) -> Area:
    """Lines that are looked at in place of the book, in the room that is left by what is said."""
    lines: list[Line]
    size = Size(state.size.columns, room + pager.OTHERS)
    found = pager.seen(pager.fitted(pages, size), size)
    its = pager.entry(pages, size) if room and _is_of_few(state) else ()
    if len(its) > len(found.head) + len(found.lines) - found.cursor:
        # what would be changed covers what is looked at, and the title
        rows = its[: room + 1]
        lines = [(Run(row, PLAIN if n else CHOSEN),) for n, row in enumerate(rows)]
        return Area([*lines, *filled([], room - len(lines))], (0, 0))
    lines = [
        (Run(line, CHOSEN if place == found.cursor else PLAIN),)
        for place, line in enumerate([*found.head, *found.lines])
    ]
    # that of the cursor, if there is no room for what is above it
    top = max(0, found.cursor + 1 - room)
    return Area(filled(lines[top:], room), (max(0, found.cursor - top), 0))


def _is_of_few(state: State) -> bool:
    """Whether places that may be changed are looked at on few rows."""
    pages, is_few = state.pages, state.size.lines < _FEW_LINES
    return pages is not None and isinstance(pages.offer, ChangePlaces) and is_few


def _bottom(state: State) -> Area:
    """Where the cursor is in words, the marks there, what is said, and what is typed."""
    if state.question and not state.is_lost:
        return _asked(state, state.question)
    typed = state.typed if state.is_typing and not state.is_lost else None
    width, own = state.size.columns, _own(state)
    if typed and not typed.purpose.is_print:
        return _prompted(state, typed)
    lines = _below(state, state.size.lines - 1, own.count - own.hint)
    # the keys are what is needed least
    if own.hint and len(lines) < state.size.lines - 1 - _LEAST_OF_BOOK:
        lines.append(opening(_hint(state), width))
    return Area([(Run(line),) for line in lines])


def _prompted(state: State, typed: Field) -> Area:
    """What is said, and below it the words, the number or the name that is typed."""
    room = state.size.lines - 2
    if state.message and room < 1:
        # on two lines what a key had said covers what is typed, until the next key
        return Area([(Run(line),) for line in _message(state, 1)], (0, 0))
    text, place = _tail(PROMPTS[typed.purpose], typed, state.size.columns)
    # what is said of all that is typed covers the title there
    lines = _below(state, max(1, room), _own(state).count - 1)
    return Area([(Run(line),) for line in [*lines, text]], (len(lines), place))


def _asked(state: State, question: Question) -> Area:
    """A question after what is said, on all lines but the first if it needs them."""
    found = question_rows.part(state, question)
    if found is not None:
        return Area([(Run(row),) for row in found.rows], (found.cursor, 0))
    width, most = state.size.columns, state.size.lines - 1
    rows = wrap(question_rows.in_words(question), width)
    if len(rows) > most:
        # how it is answered stands at its end
        rows = [*_at_most(rows, most - 2, width), *rows[-2:]]
    # where it has no other room, what is said covers the title
    room = max(most - len(rows), min(1, state.size.lines - len(rows)))
    lines = [*_message(state, room), *rows]
    free = _own(state).count - len(lines)
    if free > 0:
        place = [] if state.pages else _place_lines(state)
        marks = _mark_lines(state, _marks(state), free - len(place))
        above = [*place, *marks][:free]
        lines = [*above, *[""] * (free - len(above)), *lines]
    return Area([(Run(line),) for line in lines], (len(lines) - 1, 0))


def _hint(state: State) -> str:
    """Which keys are needed most."""
    if state.is_lost:
        return f"Enter opens {state.opens}  q ends  Up, Down look further"
    if state.away:
        return "Please wait. Keys do nothing until this is done."
    if state.typed and state.typed.purpose.is_new and not state.pages:
        return "Enter keeps it  Escape ends  F1 keys"
    if state.typed and not state.pages:
        return "Enter keeps it  Escape doesn't  F1 keys"
    is_struck = state.paragraph is not None and state.paragraph.struck
    if state.anchor is not None and not state.pages:
        front = "" if is_struck else "m marks these cells  "
        return f"{front}Left, Right choose more  Space gives them up"
    if state.pages:
        match state.pages.offer:
            case ChangePlaces():
                return "y changes it  n leaves it  a all  ? keys  Escape goes back"
            case SetVolumes(changed=changed):
                front = "y sets them" if changed else "v proposes others"
                return f"{front}  ? keys  Escape goes back  Enter goes there"
        front = "Enter goes there  " if state.pages.targets else ""
        return f"{front}Escape goes back  Up, Down, Page Up, Page Down look further"
    return _STRUCK_HINT if is_struck else HINT


def _tail(prompt: str, typed: Field, width: int) -> tuple[str, int]:
    """The line of a field, from a word on if it is too long, and the cursor in it."""
    if columns(prompt) > max(width // 2, width - _LEAST_TYPED):
        prompt = opening(prompt, width // 2 - 1) + " "
    before = "".join(map(shown, typed.text[: typed.place]))
    while columns(prompt + before) >= width - 1 and before:
        _, blank, rest = before.partition(" ")
        before = rest if blank and rest else before[1:]
    line = prompt + before
    after = "".join(map(shown, typed.text[typed.place :]))
    while columns(line + after) > width - 1 and after:
        after = after[:-1]
    return line + after, len(line)


def _below(state: State, room: int, count: int) -> list[str]:
    """What the cursor stands on, the marks there, and what is said, in so many rows of their own.

    There are more rows if what is said needs them, as far as the book leaves room.
    """
    least, beside = _LEAST_OF_BOOK, _LEAST_BESIDE_SAID
    if state.size.lines < _FEW_LINES:
        # what is said covers the print, but not while it is typed
        least, count = 1, min(count, room - 1)
        is_print = state.typed is not None and state.typed.purpose.is_print
        # on two lines what a key had said covers that too
        beside = int(is_print and not (state.message and room < 2))
    said = _said(state, room - beside)
    if state.pages:
        # on two lines there is room for what is looked at, or for what is said
        free = min(pager.SAID, state.size.lines - 2) - len(said)
        free = 0 if _is_of_few(state) else free
        return [*[""] * free, *said]
    rest = max(0, room - least - len(said))
    # one row of the marks is seen beside whatever is said
    marks = _mark_lines(state, _marks(state), min(max(1, count - 1 - len(said)), rest))
    left = min(rest, count - len(said)) - len(marks)
    place = _place_lines(state, left)[: rest - len(marks)]
    free = count - len(place) - len(marks) - len(said)
    return [*place, *marks, *[""] * free, *said]


def _said(state: State, most: int) -> list[str]:
    """What the table lacks of what is typed, and what is said, in at most so many lines."""
    message = _message(state, most)
    fault = _fault(state)
    if not fault or state.pages:
        return message
    width = state.size.columns
    return [*_at_most(wrap(fault, width), most - len(message), width), *message]


def _fault(state: State) -> str:
    """What the table lacks of what is typed."""
    typed, preview = state.typed, state.preview
    if typed is None or preview is None or not typed.purpose.is_print:
        return ""
    if preview.fault and len(typed.text) > limits.PRINT_CHARACTERS:
        return _TOO_LONG
    return preview.fault


def _message(state: State, most: int) -> list[str]:
    """What is said, in at most so many lines."""
    return _at_most(question_rows.said(state, most), most, state.size.columns)


def _place_lines(state: State, most: int = 1) -> list[str]:
    """In words: what the cursor stands on, or which paragraph is edited.

    There is one line, or as many as that needs if these are no more than there is room for.
    """
    typed, reading = state.typed, state.reading
    if typed is not None and typed.purpose is Purpose.EDIT and reading is not None:
        said = f"You are editing paragraph {reading.paragraph.id}."
        return [opening(said, state.size.columns)]
    is_print = typed is not None and typed.purpose.is_print
    if typed is not None and typed.purpose.is_new and state.size.lines < _FEW_LINES:
        # where no line above what is typed says so
        return [opening("New paragraph.", state.size.columns)]
    if is_print or reading is None or state.highlighted is None:
        return [""]
    line = _cursor_in_words(state, reading, state.highlighted)
    lines = wrap(line, state.size.columns)
    return lines if len(lines) <= most else [opening(line, state.size.columns)]


def _marks(state: State) -> tuple[Mark, ...]:
    """The marks where the cursor is, also while the print is edited there."""
    is_new = state.typed is not None and state.typed.purpose.is_new
    return () if is_new else state.marks_here


def _mark_lines(state: State, marks: tuple[Mark, ...], most: int) -> list[str]:
    """Marks in at most so many lines, of which the first has all that the others leave."""
    if most < 1:
        return []
    if not marks:
        return _marked(state)
    assert state.reading is not None
    text, width = state.reading.text, state.size.columns
    # the one in hand is shown wherever it is, and isn't counted elsewhere
    here = [mark for mark in marks if state.is_on(mark)]
    counted = {mark.id: _how_many(here) for mark in here[:1]}
    said = (counted.get(mark.id, "") + mark_line(mark, text) for mark in marks)
    first, *others = (wrap(each, width) for each in said)
    if len(first) + sum(map(len, others)) > most:
        count = max(most // 3, most - len(first))
        others = [_at_most(each, 1, width) for each in others[:count]]
    first = _at_most(first, most - sum(map(len, others)), width)
    return [*first, *(line for each in others for line in each)]


def _marked(state: State) -> list[str]:
    """On which words of the paragraph the open marks are, if the cursor is on none of them."""
    is_new = state.typed is not None and state.typed.purpose.is_new
    if state.reading is None or is_new:
        return []
    text = state.reading.text
    marks = sorted(state.reading.marks, key=lambda mark: (mark.start, mark.id))
    where = dict.fromkeys(
        marked_words(each, text).removeprefix("on ")
        for each in marks
        if not each.resolved
    )
    if not where:
        return []
    return [opening(f"Marked: {'; '.join(where)}.", state.size.columns)]


def _how_many(marks: list[Mark]) -> str:
    """How many marks are at the cursor if several are, and how many of them are open."""
    if len(marks) == 1:
        return ""
    count = sum(not mark.resolved for mark in marks)
    are_open = f", {count or 'none'} open" if count < len(marks) else ""
    return f"{len(marks)} marks here{are_open}. "


def _cursor_in_words(
    state: State, reading: ParagraphReading, highlighted: Highlighted
) -> str:
    """What the cursor stands on, what belongs to that, and the places of both, counted from 1."""
    if not reading.text:
        return "The paragraph is empty."
    words = _words(
        reading.text[highlighted.words.start : highlighted.words.stop], state.encoding
    )
    cells = reading.braille[highlighted.cells.start : highlighted.cells.stop]
    cells = braille_ascii(cells) if state.is_ascii else cells
    places = [highlighted.words.counted("character"), highlighted.cells.counted("cell")]
    if state.pane is Pane.PRINT:
        text = f"{words} {cells}, {', '.join(places)}"
    else:
        text = f"{cells} {words}, {', '.join(reversed(places))}"
    if state.anchor is not None and state.chosen_cells:
        count = state.chosen_cells.stop - state.chosen_cells.start
        text = f"{count} {'cell' if count == 1 else 'cells'} chosen, at {text}"
    return text


def _words(text: str, encoding: str) -> str:
    """Some characters in quotation marks, or by their names if they can't be seen there."""
    is_unseen = (
        len(text) == 1 and text != " " and unicodedata.category(text)[0] in "CZM"
    )
    if is_unseen or not has(encoding, text):
        return " and ".join(map(code_and_name, text))
    return f"“{visible(text)}”"


def _at_most(lines: list[str], count: int, width: int) -> list[str]:
    """Some lines, or the first of them if they are more, with a sign that others follow."""
    if len(lines) <= count:
        return lines
    if count < 1:
        return []
    last = lines[count - 1]
    while columns(last) >= width:
        last = last[:-1]
    return [*lines[: count - 1], last + "…"]
