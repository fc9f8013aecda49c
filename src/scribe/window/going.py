"""Ways to a place of the book at work: by what is typed, by its headings, and by its marks."""

from functools import partial

from PyQt6.QtWidgets import QWidget

from braildesk import Style
from braildesk.desk.marks import MarkOfBook, all_marks
from braildesk.desk.page_places import PageMap
from braildesk.desk.readings import prints
from braildesk.text.characters import visible
from braildesk.text.excerpt import opening

from scribe.window.arriving import say_there
from scribe.window.book import NoAnswer
from scribe.window.desk import Desk
from scribe.window.dialogs import IsStopped, Say
from scribe.window.finding import Finding
from scribe.words import pagelook
from scribe.words.pages import not_laid_out, page_place
from scribe.words.paragraph import counted, mark_line, marks_summary
from scribe.words.status import Stop

_ASKED = "A paragraph's number, or page 6 line 9, or words to find:"
# a heading is named by so many columns of its words
_WORDS = 60


class Going:
    """The ways to a place of the book."""

    def __init__(self, desk: Desk, finding: Finding) -> None:
        self.desk = desk
        self._finding = finding

    def go_to(self) -> None:
        """Asks for a paragraph, a line of a page, or words, and goes there."""
        if self.desk.settle():
            self.desk.line("Go to", _ASKED, self._to_typed)

    def _to_typed(self, typed: str) -> None:
        """Goes to what was typed, if anything was."""
        word = typed.strip()
        wanted = pagelook.wanted_line(word)
        if not word:
            return
        if word.isascii() and word.isdigit():
            self._to_number(word.lstrip("0") or "0")
        elif wanted is not None:
            self._to_line(wanted)
        else:
            self._finding.look_for(typed, False)

    def _to_number(self, word: str) -> None:
        """Goes to the paragraph whose number was typed, which may be longer than any is."""
        book = self.desk.contents.paragraphs
        number = next((each.id for each in book if str(each.id) == word), None)
        if number is None:
            said = f"There is no paragraph {opening(word, _WORDS)} in the book."
            raise NoAnswer(said)
        self._to(number, 0, self.desk.window.table)
        self._say_there()

    def _to(self, number: int, place: int, part: QWidget) -> None:
        """Goes to a character of a paragraph, in a part of the window."""
        row = self.desk.contents.place(number)
        if row is None:
            raise Stop(f"There is no paragraph {number} in the book.")
        # a screen reader that hears of the caret first says nothing of the part
        part.setFocus()
        self.desk.choose(row, place)

    def _to_line(self, wanted: pagelook.WantedLine) -> None:
        """Goes to the first word of a line of a page."""
        desk = self.desk
        desk.settled()
        look = partial(
            desk.book.line, desk.contents, desk.page_size, wanted, desk.chosen
        )
        found, place = desk.long("Go to a page", look)
        self._to(found, place, desk.window.print)
        self._say_there()

    def _say_there(self) -> None:
        """Says where the caret is now, in place of why it stayed where it was."""
        desk = self.desk
        say_there(desk, f"Paragraph {desk.number}, character {desk.place + 1:,}.")

    def headings(self) -> None:
        """Lists the headings, each with its page, and goes to one."""
        desk = self.desk
        desk.settled()
        book = desk.contents.paragraphs
        found = [each for each in book if each.style is Style.HEADING]
        if not found:
            raise Stop("The book has no headings. Ctrl+T makes one of a paragraph.")

        def look(say: Say, is_stopped: IsStopped) -> tuple[list[str], PageMap]:
            session = desk.book.session
            pages = PageMap(session, desk.page_size)
            return [
                f"{opening(visible(text), _WORDS)}, {page_place(pages.of_cell(its.id, 0))},"
                f" paragraph {its.id}"
                for its, text in zip(found, prints(session, found))
            ], pages

        lines, pages = desk.long("Headings", look)
        title = _title(f"Headings: {counted(len(found), 'heading')}", pages)
        before = [n for n, e in enumerate(found) if book.index(e) <= desk.row]
        first = before[-1] if before else 0
        line = desk.line_of(title, lines, first)
        if line is not None:
            self._to(found[line].id, 0, desk.window.table)
            self._say_there()

    def all_marks(self) -> None:
        """Lists the marks, the open ones first, each with its page, and goes to one."""
        desk = self.desk
        desk.settled()

        def look(
            say: Say, is_stopped: IsStopped
        ) -> tuple[list[MarkOfBook], list[str], PageMap]:
            session = desk.book.session
            marks, pages = all_marks(session), PageMap(session, desk.page_size)
            return marks, [_line(each, pages) for each in marks], pages

        marks, lines, pages = desk.long("Marks", look)
        if not marks:
            raise Stop(marks_summary(marks))
        held = [n for n, each in enumerate(marks) if each.mark.id == desk.in_hand]
        title = _title("All marks", pages)
        line = desk.line_of(title, lines, held[0] if held else 0)
        if line is None:
            return
        its = marks[line]
        last = max(0, len(its.text) - 1)
        place = max(0, min(its.mark.start, last))
        self._to(its.paragraph, place, desk.window.print)
        desk.in_hand = its.mark.id
        desk.link()
        desk.say(mark_line(its.mark, its.text))


def _title(what: str, pages: PageMap) -> str:
    """What is listed, and why volumes that have some of it aren't laid out."""
    reasons = not_laid_out(pages)
    return ". ".join([what, " ".join(reasons)]) if reasons else what


def _line(its: MarkOfBook, pages: PageMap) -> str:
    place = pages.of_character(its.paragraph, its.mark.start, its.text)
    life = "struck" if its.is_struck else ""
    return mark_line(its.mark, its.text, its.paragraph, page_place(place), life)
