"""The marks of the book at work."""

from dataclasses import replace
from functools import partial

from braildesk import Refused, requests
from braildesk.desk import search
from braildesk.desk.draft import Aim, Draft
from braildesk.text.spans import Span

from scribe.window import dialogs
from scribe.window.arriving import say_there
from scribe.window.desk import STRUCK, Desk
from scribe.words.drafts import changed_since, while_struck
from scribe.words.paragraph import mark_line, quoted
from scribe.words.status import Stop


class Marking:
    """Marks are put, gone to and resolved."""

    def __init__(self, desk: Desk) -> None:
        self.desk = desk

    def mark(self) -> None:
        """Puts a mark on what is selected, or on what the caret stands on, with a note."""
        desk, window = self.desk, self.desk.window
        on_cells = desk.is_in_cells
        cells, words = window.cells.selected, window.print.selected
        words = Span(desk.as_kept(words.start), desk.as_kept(words.stop))
        number = self.desk.settled()
        if self.desk.chosen.struck:
            raise Stop(f"Paragraph {number} {STRUCK}")
        if not on_cells and words.stop > words.start:
            cells = desk.asked(lambda: desk.book.cells_of(number, words))
        elif not on_cells or cells.stop <= cells.start:
            cells = self._cells_here()
        if cells.stop <= cells.start:
            raise Stop("Nothing stands here that a mark could be put on.")
        self.noted(cells, "")

    def _cells_here(self) -> Span:
        desk, reading = self.desk, self.desk.reading
        assert reading is not None
        place = desk.window.print.place
        return desk.asked(partial(desk.book.by_character, reading, place)).cells

    def noted_further(self, draft: Draft) -> None:
        """Asks for a note that was typed before, with the caret where its mark will be."""
        desk, reading = self.desk, self.desk.reading
        cells, changed = self._cells_of(draft), ""
        # a screen reader that hears of the caret first says nothing of the print
        desk.window.print.setFocus()
        if reading is not None:
            its = reading.its.paragraph
            changed = changed_since(draft, reading.its.text)
            changed += while_struck(its.id) if its.struck else ""
        if reading is not None and cells.stop <= len(reading.its.braille):
            there = desk.asked(partial(desk.book.by_cell, reading, cells.start))
            desk.window.print.put_caret(there.words.start)
        self.noted(cells, draft.text, changed)

    def _cells_of(self, draft: Draft) -> Span:
        """The cells on which a note would stand: those of its words, if these were moved or have others."""
        desk, reading = self.desk, self.desk.reading
        cells = draft.cells or Span(0, 1)
        if reading is None or not reading.its.braille:
            return cells
        its = reading.its
        words = draft.words_in(its.text)
        if words is None:
            return cells
        if cells.stop <= len(its.braille):
            # also where the print is as it was, by another table
            there, _ = desk.asked(partial(desk.book.words_of, reading, cells))
            if there == words:
                return cells
        return desk.asked(partial(desk.book.cells_of, its.paragraph.id, words))

    def noted(self, cells: Span, note: str, changed: str = "") -> None:
        """Asks for the note of a mark on cells, which waits while it is typed.

        It may be said that the print there was changed.
        """
        desk, reading = self.desk, self.desk.reading
        assert reading is not None
        its, version = reading.its, desk.contents.version
        number, table = its.paragraph.id, its.paragraph.table
        if cells.stop > len(its.braille):
            # those for which it was typed are gone
            cells = Span(0, 1)

        def typed(text: str) -> None:
            of_print = Draft(Aim.NOTE, number, table, its.text, text)
            draft = replace(of_print, cells=cells, version=version, words=words)
            desk.have_wait(draft if text else None)

        try:
            words, marked = desk.asked(partial(desk.book.words_of, reading, cells))
            typed(note)
            said = quoted(its.text[words.start : words.stop])
            asked = f"{changed} The note of a mark on {said}, {marked.counted('cell')}:"
            title = f"Mark in paragraph {number}"
            its_line = title, asked.lstrip(), note, typed
            found = dialogs.text_further(desk.window, *its_line)
            if found is None:
                self._given_up()
                return
            desk.wait_for_draft()
            count = cells.stop - cells.start
            desk.do(requests.Mark(number, cells.start, count, found))
        except Refused as refused:
            back = desk.put_by(desk.beside) if desk.beside is not None else ""
            raise Stop(f"{refused.sentence} {back}".rstrip()) from refused
        desk.have_wait(None)
        put = desk.reading.its.marks if desk.reading else ()
        desk.in_hand = put[-1].id if put else None
        desk.link()

    def _given_up(self) -> None:
        """The note that was typed is given up, unless the window is ended, where it waits."""
        desk, note = self.desk, self.desk.beside
        if note is not None and not desk.is_ending:
            desk.say(f"Given up. No mark was put. {desk.put_by(note)}")

    def next_mark(self) -> None:
        """Goes to the next open mark."""
        self._to_mark(False)

    def last_mark(self) -> None:
        """Goes to the open mark before."""
        self._to_mark(True)

    def _to_mark(self, is_back: bool) -> None:
        desk = self.desk
        if not desk.settle():
            return
        here, held = search.Spot(max(0, desk.row), desk.place), desk.held_mark
        if held is not None:
            here = replace(here, place=held.start, mark=held.id)
        contents = desk.contents
        found = None
        if contents.paragraphs:
            found = desk.asked(lambda: desk.book.next_mark(contents, here, is_back))
        if found is None:
            raise Stop("The book has no open marks.")
        # a screen reader that hears of the caret first says nothing of the print
        desk.window.print.setFocus()
        desk.choose(found.spot.chosen)
        desk.in_hand = found.spot.mark
        desk.window.print.put_caret(found.spot.place)
        desk.link()
        said = ""
        if found.is_same:
            said = "The book has no other open mark. "
        elif found.is_around:
            said = (
                "This is the last in the book. "
                if is_back
                else "This is the first in the book. "
            )
        held, reading = desk.held_mark, desk.reading
        line = mark_line(held, reading.its.text) if held and reading else ""
        say_there(desk, said + line)

    def resolve(self) -> None:
        """Resolves the mark in hand, or the first open one at the caret."""
        desk = self.desk
        self.desk.settled()
        marks = [mark for mark in desk.marks_here() if not mark.resolved]
        reading = desk.reading
        if not marks or reading is None:
            raise Stop("There is no open mark here. F4 looks for the next one.")
        mark = marks[0].id
        desk.show_done(desk.asked(partial(desk.book.resolved, reading, mark)))
        desk.in_hand = None
        desk.link()
