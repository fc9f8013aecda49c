"""The braille of print that isn't in the book yet, by `braildesk translate`."""

from collections.abc import Callable, Iterable, Sequence
from dataclasses import dataclass

from braildesk import DeskError, Refused, Table, Undefined, translate
from braildesk.text.characters import around, named
from braildesk.text.sequences import composed


# the name by which the program calls its own table
_SUPPLIED = "@en"


@dataclass(frozen=True)
class Preview:
    """The braille of what is being typed, or why there is none."""

    text: str
    braille: str = ""
    fault: str = ""


class Tables:
    """The texts of the book's tables, as they were before the session began and as sent since."""

    def __init__(self, while_waiting: Callable[[], None] = lambda: None) -> None:
        self._while_waiting = while_waiting
        #: Each by its name; the supplied table has no text of its own.
        self._tables: dict[str, Table | None] = {}

    @property
    def names(self) -> tuple[str, ...]:
        """The names of the tables."""
        return tuple(sorted(self._tables))

    def read(self, tables: Iterable[Table]) -> None:
        """Keeps the texts of the tables of a book, which may be another one than before, and of no others."""
        self._tables = {each.name: each for each in tables}

    def put(self, name: str, text: bytes | None) -> None:
        """Keeps the text of a table; None is the supplied one."""
        self._tables[name] = None if text is None else Table(name, text)

    def preview(self, name: str, typed: str, text: str) -> Preview:
        """The braille of a print, for what is typed; or the first character that is lacking."""
        try:
            (answer,) = self._answers(name, [text])
        except DeskError as failed:
            return Preview(typed, fault=f"There is no preview. {failed}")
        if not isinstance(answer, Refused):
            return Preview(typed, answer)
        return Preview(typed, fault=_fault(name, text, answer))

    def first_fault(self, name: str, lines: Sequence[str]) -> str:
        """Why one of several prints would be refused, with its line; nothing if none would."""
        texts = list(map(composed, lines))
        try:
            found = self._answers(name, texts)
        except DeskError:
            # each line is checked again when it is sent
            return ""
        for number, (text, answer) in enumerate(zip(texts, found), 1):
            if isinstance(answer, Refused):
                return f"Line {number:,}: {_fault(name, text, answer)}"
        return ""

    def _answers(self, name: str, texts: Sequence[str]) -> list[str | Refused]:
        if name not in self._tables:
            # it was typed in another book, which was at the path before
            raise DeskError(f"The book has no table {name}.")
        table, look = self._tables[name] or _SUPPLIED, self._while_waiting
        return translate(table, texts, while_waiting=look)


def _fault(name: str, text: str, refused: Refused) -> str:
    """Why a print is refused, with the place of the character that its table lacks first."""
    place = refused.place
    if not isinstance(refused, Undefined) or place is None:
        return refused.sentence
    return (
        f"Character {place + 1:,}, in {around(text, place)}: the table {name} has no cells for"
        f" {named(text[place])}."
    )
