"""What a book is asked and told: a method for each request of docs/FORMATS.md."""

from typing import Literal

from braildesk.protocol import requests
from braildesk.protocol.answers import Answer
from braildesk.protocol.requests import Request
from braildesk.protocol.values import (
    After,
    Corrected,
    Done,
    Entry,
    Mark,
    Marked,
    Paragraph,
    Style,
    Typed,
)


class Asking:
    """The requests of a session, which says itself how one is asked."""

    def ask(self, request: Request[Answer]) -> Answer:
        """Sends a request, and gives what it is answered by."""
        raise NotImplementedError

    def put_table(self, table: str, text: bytes, *, expect: int | None = None) -> Done:
        """Adds a table, or replaces its text."""
        return self.ask(requests.Table(table, text, expect=expect))

    def supply_table(self, table: str, *, expect: int | None = None) -> Done:
        """Adds the supplied table, or replaces the text of a table by it."""
        return self.ask(requests.Supply(table, expect=expect))

    def add_paragraph(
        self, after: After, table: str, text: str, *, expect: int | None = None
    ) -> Typed:
        """Types a new paragraph."""
        return self.ask(requests.Type(after, table, text, expect=expect))

    def correct(
        self,
        paragraph: int,
        start: int,
        count: int,
        text: str,
        *,
        by: str | None = None,
        expect: int | None = None,
    ) -> Corrected:
        """Puts a text in place of ``count`` characters from ``start`` on.

        ``by`` is the name of the proofreader, which is kept with the correction.
        """
        if by is None:
            return self.ask(
                requests.Correct(paragraph, start, count, text, expect=expect)
            )
        return self.ask(
            requests.CorrectBy(paragraph, start, count, text, who=by, expect=expect)
        )

    def undo(self, paragraph: int, *, expect: int | None = None) -> Corrected:
        """Takes back the newest correction in force."""
        return self.ask(requests.Undo(paragraph, expect=expect))

    def add_mark(
        self,
        paragraph: int,
        cell: int,
        count: int,
        note: str = "",
        *,
        expect: int | None = None,
    ) -> Marked:
        """Puts a mark on ``count`` cells from ``cell`` on."""
        return self.ask(requests.Mark(paragraph, cell, count, note, expect=expect))

    def resolve_mark(self, mark: int, *, expect: int | None = None) -> Done:
        """Says that a mark is dealt with."""
        return self.ask(requests.Resolve(mark, expect=expect))

    def strike(self, paragraph: int, *, expect: int | None = None) -> Done:
        """Takes a paragraph out of the volumes."""
        return self.ask(requests.Strike(paragraph, expect=expect))

    def restore(self, paragraph: int, *, expect: int | None = None) -> Done:
        """Puts a struck paragraph back into the volumes."""
        return self.ask(requests.Restore(paragraph, expect=expect))

    def set_style(
        self,
        paragraph: int,
        style: Style | Literal["body", "heading"],
        *,
        expect: int | None = None,
    ) -> Done:
        """Gives a paragraph a style."""
        known = Style(style) if isinstance(style, str) else style
        return self.ask(requests.Style(paragraph, known, expect=expect))

    def set_begins_volume(
        self, paragraph: int, begins: bool, *, expect: int | None = None
    ) -> Done:
        """Says whether a paragraph begins a volume."""
        return self.ask(requests.Volume(paragraph, begins, expect=expect))

    def set_table(
        self, paragraph: int, table: str, *, expect: int | None = None
    ) -> Done:
        """Gives a paragraph another table."""
        return self.ask(requests.Retable(paragraph, table, expect=expect))

    def move(self, paragraph: int, after: After, *, expect: int | None = None) -> Done:
        """Puts a paragraph elsewhere."""
        return self.ask(requests.Move(paragraph, after, expect=expect))

    def print_of(self, paragraph: int) -> str:
        """The print of a paragraph."""
        return self.ask(requests.Print(paragraph))

    def braille_of(self, paragraph: int) -> str:
        """The braille of a paragraph, as characters of Braille Patterns."""
        return self.ask(requests.Braille(paragraph))

    def history_of(self, paragraph: int) -> tuple[Entry, ...]:
        """The entries of a paragraph's history, in order."""
        return self.ask(requests.History(paragraph))

    def marks_of(self, paragraph: int) -> tuple[Mark, ...]:
        """The marks of a paragraph, in the order of their numbers."""
        return self.ask(requests.Marks(paragraph))

    def output_position(self, paragraph: int, place: int) -> int:
        """The first cell that was made for a place of the print."""
        return self.ask(requests.Where(paragraph, place))

    def input_position(self, paragraph: int, cell: int) -> int:
        """The first place of the print that a cell was made from."""
        return self.ask(requests.Whence(paragraph, cell))

    def paragraphs(self) -> tuple[Paragraph, ...]:
        """The paragraphs in the order of the book."""
        return self.ask(requests.List())

    def version(self) -> int:
        """The version of the book."""
        return self.ask(requests.Version())
