"""What is seen of the book at work, in which form, and what is copied of it."""

from PyQt6.QtWidgets import QApplication

from braildesk.text.cells import braille_ascii

from scribe.window import dialogs
from scribe.window.book import LEFT, NoAnswer
from scribe.window.desk import CLOSED, Desk
from scribe.window.menus import key_lines
from scribe.words.pages import NoSize, described, typed_page_size
from scribe.words.paragraph import counted
from scribe.words.status import Stop


class View:
    """What is shown, and how."""

    def __init__(self, desk: Desk) -> None:
        self.desk = desk

    def to_paragraphs(self) -> None:
        """Gives the table the focus."""
        self.desk.go_to(self.desk.window.table)

    def to_print(self) -> None:
        """Gives the print the focus."""
        self.desk.go_to(self.desk.window.print)

    def to_cells(self) -> None:
        """Gives the braille the focus."""
        self.desk.go_to(self.desk.window.cells)

    def to_message(self) -> None:
        """Gives the message the focus."""
        self.desk.go_to(self.desk.window.message)

    def page(self) -> None:
        """Shows the page of the caret beside the book, or hides it."""
        desk = self.desk
        dock = desk.window.dock
        dock.setVisible(not dock.isVisible())
        desk.update_page(True)
        if not dock.isVisible():
            desk.say("The page is hidden.")
        elif why := desk.why_no_page:
            desk.say(why)
            desk.until_typed()
        else:
            desk.say("The page is shown beside the book.")

    def pages_said(self) -> None:
        """Has the page and line be said of what is gone to, or not any more."""
        desk = self.desk
        desk.says_pages = not desk.says_pages
        said = "Now F4, Ctrl+F and F3 say the page and line to which they go."
        desk.say(
            said if desk.says_pages else "Now F4, Ctrl+F and F3 say no page and line."
        )

    def page_size(self) -> None:
        """Asks for the size of pages."""
        desk = self.desk
        now = f"{desk.page_size.width} {desk.page_size.lines}"
        asked = "The cells of a line, and the lines of a page, as in 40 25:"
        desk.line("Page size", asked, self._take_page_size, now)

    def _take_page_size(self, typed: str) -> None:
        desk = self.desk
        try:
            desk.page_size = typed_page_size(typed)
        except NoSize as fault:
            raise NoAnswer(fault.sentence) from fault
        desk.say(f"Pages have {described(desk.page_size)}.")
        desk.update_page(True)

    def notation(self) -> None:
        """Shows cells in Braille ASCII, or as Unicode characters."""
        desk = self.desk
        desk.is_ascii = not desk.is_ascii
        desk.show_cells()
        desk.update_page(True)
        desk.say(
            f"Cells are shown {'in Braille ASCII' if desk.is_ascii else 'as Unicode'}."
        )

    def larger(self) -> None:
        """Has print and braille be larger."""
        self._enlarge(1)

    def smaller(self) -> None:
        """Has print and braille be smaller."""
        self._enlarge(-1)

    def _enlarge(self, by: int) -> None:
        window = self.desk.window
        window.enlarge(by)
        sizes = [round(f.font().pointSizeF()) for f in (window.print, window.cells)]
        self.desk.say(f"Print has {sizes[0]} points now, and braille {sizes[1]}.")

    def fonts(self) -> None:
        """Asks for the font of cells."""
        window = self.desk.window
        font = dialogs.font(window, "Font of the braille", window.cells.font())
        if font is not None:
            window.take_cells_font(font)
            self.desk.say(f"Braille is in {font.family()}, {font.pointSize()} points.")

    def keys(self) -> None:
        """Shows each action with its keys."""
        self.desk.show_lines("Keys", key_lines())

    def copy_unicode(self) -> None:
        """Copies the cells that are selected, or all, as characters of Unicode."""
        self._copy(self._cells_to_copy(), "as Unicode")

    def copy_ascii(self) -> None:
        """The same in Braille ASCII, as files for embossers have them."""
        text = braille_ascii(self._cells_to_copy())
        self._copy(text, "in Braille ASCII")
        if not text.isascii():
            said = self.desk.window.message.text
            self.desk.say(f"{said} Those with dot 7 or 8, which it lacks, are Unicode.")

    def _cells_to_copy(self) -> str:
        cells, selected = self.desk.braille, self.desk.window.cells.selected
        if self.desk.reading is None and self.desk.new is None:
            raise Stop(self.desk.no_paragraph)
        if not cells:
            raise Stop("There are no cells here, so nothing was copied.")
        part = cells[selected.start : selected.stop]
        return part or cells

    def _copy(self, text: str, how: str) -> None:
        clipboard = QApplication.clipboard()
        assert clipboard is not None
        clipboard.setText(text)
        self.desk.say(f"Copied {how}: {counted(len(text), 'cell')}.")

    def open_again(self) -> None:
        """Opens the book again after its session ended."""
        desk = self.desk
        if not desk.is_closed:
            desk.say("The book is open.")
            return
        if (closed := desk.closed) != CLOSED:
            raise Stop(closed)
        deeds, opened = desk.book.deeds, "The book is open again"
        if desk.book.is_displaced:
            opened = "The file that is at the path now is open"
        more = desk.taken_again(desk.work.result(desk.book.opened_again))
        left = LEFT if deeds and not desk.book.deeds else ""
        at = f"{opened}, at version {desk.contents.version:,}."
        desk.say(" ".join(filter(None, (at, left, more))))
