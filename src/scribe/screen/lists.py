"""Lists: the marks and the headings of a book, each with its page and line, and a history."""

from collections.abc import Callable, Iterator, Sequence
from dataclasses import replace

from braildesk import Paragraph, Session, Style
from braildesk.desk.highlighting import cell_on_line
from braildesk.desk.layout import sections
from braildesk.desk.marks import MarkOfBook, all_marks
from braildesk.desk.places import Character, cells_on_lines
from braildesk.desk.readings import brailles, prints
from braildesk.text.cells import EMPTY_CELL
from braildesk.text.characters import visible
from braildesk.text.excerpt import opening

from scribe.screen import pager
from scribe.screen.actions import ToPage
from scribe.screen.in_hand import holding
from scribe.screen.state import Pages, Pane, State, Target
from scribe.words import pagelook
from scribe.words.changes import nothing_found, paragraph_history
from scribe.words.pagelook import Layouts, VolumeLines, line_of
from scribe.words.paragraph import mark_line

# a heading is named by so many columns of its words
_WORDS = 60
_STRUCK = "struck, on no page"

#: Says how far a layout has come.
Report = Callable[[int, int], None]


def volumes_of(state: State) -> tuple[VolumeLines, ...]:
    """The volumes of the book, which aren't laid out yet."""
    return pagelook.volumes_of(state.book, state.version, state.page_size)


class PagesInWords:
    """The pages and lines of a book in words, by volumes that are laid out once for the screen.

    `PageMap` of `braildesk.desk` gives them as numbers, and lays the book out for one command.
    """

    def __init__(
        self,
        session: Session,
        volumes: Sequence[VolumeLines],
        layouts: Layouts,
        tell: Report,
    ) -> None:
        self._session = session
        self._volumes = [layouts.lay(session, each, tell) for each in volumes]
        self._lines: dict[int, tuple[VolumeLines, range]] = {
            its.id: (volume, lines)
            for volume in self._volumes
            for its, lines in zip(volume.paragraphs, volume.lines)
        }
        self._not_laid_out = {
            its.id: volume
            for volume in self._volumes
            if volume.fault
            for its in volume.paragraphs
        }
        #: Why volumes of places that were asked for aren't laid out, by their numbers.
        self.faults: dict[int, str] = {}

    def of(self, places: Sequence[tuple[Paragraph, int]]) -> list[str]:
        """In words: the page and line of a cell of each of some paragraphs."""
        return list(self._of(places))

    def _of(self, places: Sequence[tuple[Paragraph, int]]) -> Iterator[str]:
        read = {its.id: its for its, _ in places if not its.struck}
        cells = list(sections(self._session, list(read.values())))
        found = dict(zip(read, cells))
        for its, cell in places:
            if its.struck:
                yield _STRUCK
            elif not found[its.id].braille.strip(EMPTY_CELL):
                yield "on no page"
            elif volume := self._not_laid_out.get(its.id):
                self.faults[volume.number] = volume.fault
                yield f"{self._front(volume)}not laid out"
            else:
                volume, lines = self._lines[its.id]
                line = line_of(volume, found[its.id], lines, cell)
                yield self._said(volume, line)

    def _said(self, volume: VolumeLines, number: int) -> str:
        page, line = volume.page_size.place(number)
        return f"{self._front(volume)}page {page} line {line}"

    def _front(self, volume: VolumeLines) -> str:
        return f"volume {volume.number}, " if len(self._volumes) > 1 else ""


def marks_list(session: Session, state: State, layouts: Layouts, tell: Report) -> State:
    """The state in which the marks are looked at, the open ones first, the cursor on the next."""
    marks = all_marks(session)
    if not marks:
        return state.saying("The book has no marks.")
    by_number = {each.id: each for each in state.book}
    marked = [by_number[number] for number in {e.paragraph for e in marks if e.text}]
    read = dict(zip((each.id for each in marked), brailles(session, marked)))
    asked = [
        Character(each.paragraph, _start(each), each.text, read[each.paragraph])
        for each in marks
        if each.text
    ]
    cells = iter(cells_on_lines(session, asked))
    places = [
        (by_number[each.paragraph], next(cells) if each.text else 0) for each in marks
    ]
    numbers = PagesInWords(session, volumes_of(state), layouts, tell)
    where = numbers.of(places)
    lines = tuple(
        mark_line(each.mark, each.text, each.paragraph, page)
        for each, page in zip(marks, where)
    )
    targets = tuple(
        Target(each.paragraph, _start(each), each.mark.id) for each in marks
    )
    opened = sum(not each.mark.resolved for each in marks)
    front = {0: "No open marks", 1: "1 open mark"}.get(opened, f"{opened:,} open marks")
    rest = f", {len(marks) - opened:,} resolved" if len(marks) > opened else ""
    title = " ".join([f"{front}{rest}.", *numbers.faults.values()])
    pages = Pages(title, lines, targets=targets)
    return replace(state, pages=_at_nearest(state, pages, opened or len(marks)))


def _start(its: MarkOfBook) -> int:
    """The character at which a mark is gone to."""
    return max(0, min(its.mark.start, len(its.text) - 1))


def headings_list(
    session: Session, state: State, layouts: Layouts, tell: Report
) -> State:
    """The state in which the headings are looked at, the cursor on that of the chosen paragraph."""
    found = [each for each in state.book if each.style is Style.HEADING]
    if not found:
        return state.saying("The book has no headings. b makes one of a paragraph.")
    numbers = PagesInWords(session, volumes_of(state), layouts, tell)
    places = [(each, 0) for each in found]
    where = numbers.of(places)
    texts = list(prints(session, found))
    lines = tuple(
        f"{opening(visible(text), _WORDS)}, {page}, paragraph {its.id}"
        for its, text, page in zip(found, texts, where)
    )
    targets = tuple(Target(each.id) for each in found)
    count = "1 heading" if len(found) == 1 else f"{len(found):,} headings"
    title = " ".join([f"{count}.", *numbers.faults.values()])
    return at_chosen(state, Pages(title, lines, targets=targets))


def at_chosen(state: State, pages: Pages) -> State:
    """The state in which a list is looked at, the cursor on its last line up to the chosen paragraph."""
    order = {each.id: place for place, each in enumerate(state.book)}
    places = [order[each.paragraph] for each in pages.targets]
    before = [n for n, place in enumerate(places) if place <= state.chosen]
    line = before[-1] if before else 0
    return replace(state, pages=pager.at_line(pages, state.size, line))


def with_history(session: Session, state: State) -> State:
    """The state in which the history of the chosen paragraph is looked at."""
    its = state.paragraph
    assert its is not None
    lines = tuple(paragraph_history(session, its, state.size.columns))
    title = f"History of paragraph {its.id}."
    return replace(state, pages=Pages(title, lines or (nothing_found(None, ()),)))


def _at_nearest(state: State, pages: Pages, count: int) -> Pages:
    """The list with the cursor on the mark in hand, or on the next of its first ones."""
    order = {each.id: place for place, each in enumerate(state.book)}
    held = state.mark_in_hand
    here = (state.chosen, state.place if state.pane is Pane.PRINT else 0)
    line = 0
    for number, each in reversed(list(enumerate(pages.targets[:count]))):
        if (order[each.paragraph], each.place) >= here:
            line = number
    for number, each in enumerate(pages.targets):
        if held is not None and each.mark == held.id:
            line = number
    return pager.at_line(pages, state.size, line)


def at_target(state: State, target: Target) -> State:
    """The state with the cursor where a line of a list leads, and with its mark in hand."""
    places = [n for n, each in enumerate(state.book) if each.id == target.paragraph]
    state = replace(state, pages=None, pane=Pane.PRINT, anchor=None)
    if not places:
        return state.saying(f"There is no paragraph {target.paragraph} any more.")
    state = state.at(places[0], target.place)
    return state if target.mark is None else holding(state, target.mark)


def page_said(session: Session, state: State, laid: VolumeLines) -> str:
    """The page and line of the cursor's words in a volume that is laid out, as a sentence."""
    its, volumes = state.paragraph, len(volumes_of(state))
    assert its is not None
    cell = cell_of_cursor(session, state)
    return pagelook.place_said(session, laid, its, cell, volumes)


def cell_of_cursor(session: Session, state: State) -> int:
    """The cell of the cursor, or one on the line of its character."""
    reading, here = state.reading, state.highlighted
    assert reading is not None and here is not None
    if state.pane is Pane.CELLS:
        return here.cells.start
    return cell_on_line(session, reading, here)


def at_page(session: Session, state: State, action: ToPage, laid: VolumeLines) -> State:
    """The state with the cursor on the first word of a line of a page, or what is said of it."""
    try:
        number, place = pagelook.start_of(session, laid, action.page, action.line)
    except pagelook.NotThere as fault:
        stays = "" if laid.fault else " The cursor stays where it is."
        return state.saying(f"{fault.sentence}{stays}")
    return at_target(state, Target(number, place))
