"""Words and cells that are looked for."""

from braildesk.desk import search
from braildesk.desk.find import alike
from braildesk.text.cells import NotCells, braille_patterns
from braildesk.text.characters import code_and_name
from braildesk.text.sequences import composed
from braildesk.text.spans import Span, find_spans

from scribe.window.arriving import say_there
from scribe.window.book import NoAnswer
from scribe.window.desk import Desk
from scribe.words.paragraph import quoted
from scribe.words.status import Stop


class Finding:
    """What is looked for in the book at work."""

    def __init__(self, desk: Desk) -> None:
        self.desk = desk
        #: What was looked for last.
        self.sought = ""
        #: The words among that: cells are none.
        self.words = ""
        self._finds_alike = False

    def find(self) -> None:
        """Asks for words, or for cells where the focus is on cells, and goes to the next."""
        desk = self.desk
        is_cells = desk.is_in_cells
        if not desk.settle():
            return
        selected = desk.window.print.textCursor().selectedText()
        first = self.sought if is_cells else selected or self.sought
        asked = "Cells, in Braille ASCII or Unicode:" if is_cells else "Words:"
        desk.line("Find", asked, lambda sought: self.look_for(sought, is_cells), first)

    def look_for(self, sought: str, is_cells: bool) -> None:
        """Goes to the next place of words or cells, if there are any."""
        if not sought:
            return
        self.seek(sought)
        if is_cells:
            self.words = ""
        self.to_next(is_cells)

    def seek(self, sought: str) -> None:
        """Has words or cells be what is looked for from now on."""
        self.sought = self.words = sought
        self._finds_alike = False

    def find_next(self) -> None:
        """Goes to the next place of what was looked for."""
        is_cells = self.desk.is_in_cells
        if not self.sought:
            self.find()
        elif self.desk.settle():
            self.to_next(is_cells)

    def to_next(self, is_cells: bool) -> None:
        """Goes to the next place of what is looked for."""
        desk, sought, is_alike = self.desk, self.sought, self._finds_alike
        here = search.Spot(max(0, desk.row), self._place(is_cells))
        contents = desk.contents
        if not contents.paragraphs:
            raise Stop(desk.no_paragraph)
        if is_cells:
            try:
                found = desk.asked(lambda: desk.book.next_cells(contents, here, sought))
            except NotCells as fault:
                what = code_and_name(str(fault))
                said = f"{what} is no cell in Braille ASCII or Unicode."
                raise NoAnswer(said) from fault
        else:
            found = desk.asked(
                lambda: desk.book.next_words(contents, here, sought, is_alike)
            )
        if found is None and not is_cells and not is_alike:
            found = desk.asked(
                lambda: desk.book.next_words(contents, here, sought, True)
            )
            self._finds_alike = found is not None
        if found is None:
            raise NoAnswer(f"{quoted(sought)} isn't in {_where(is_cells)}.")
        self._at_found(found, is_cells)

    def _place(self, is_cells: bool) -> int:
        window = self.desk.window
        return window.cells.place if is_cells else window.print.place

    def _at_found(self, found: search.Found, is_cells: bool) -> None:
        desk, spot = self.desk, found.spot
        if not is_cells:
            # a screen reader that hears of the caret first says nothing of the print
            desk.window.print.setFocus()
        desk.choose(spot.chosen)
        if is_cells:
            count = len(braille_patterns(self.sought))
            desk.window.cells.select(Span(spot.place, spot.place + count))
        else:
            desk.window.print.put_caret(spot.place)
            if (words := self.found_here()) is not None:
                desk.window.print.select(words)
        said = f"Paragraph {desk.number}, {'cell' if is_cells else 'character'} {spot.place + 1}."
        is_otherwise = not is_cells and self._stands_otherwise()
        if is_otherwise:
            said = f"{said} It stands there otherwise than as it was typed."
        if found.is_same and is_otherwise:
            said = f"{said} It stands nowhere else in {_where(is_cells)}."
        elif found.is_same:
            said = f"{quoted(self.sought)} stands nowhere else in {_where(is_cells)}."
        elif found.is_around:
            where = _where(is_cells)
            said = f"{said} This is the first in {where}: there is none further on."
        say_there(desk, said)

    def _stands_otherwise(self) -> bool:
        """Whether the words at the caret aren't just as they were typed."""
        reading, words = self.desk.reading, self.found_here()
        if reading is None or words is None:
            return False
        found = reading.its.text[words.start : words.stop]
        return composed(found) != composed(self.sought)

    def found_here(self) -> Span | None:
        """The words that were looked for, where the caret stands on them."""
        reading, place = self.desk.reading, self.desk.window.print.place
        if reading is None:
            return None
        form = alike if self._finds_alike else composed
        spans = find_spans(reading.its.text, self.sought, form)
        return next((each for each in spans if each.start == place), None)


def _where(is_cells: bool) -> str:
    """Where something is looked for, which may be elsewhere: in a note, or in the other of the two."""
    return f"the {'cells' if is_cells else 'print'} of the book"
