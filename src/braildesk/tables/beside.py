"""What is found here beside what the program answers: if the two differ, nothing is answered."""

from dataclasses import dataclass
from os import fspath

from braildesk import opening, program as programs
from braildesk.named_files import TooLarge, read_file
from braildesk.program import StrPath
from braildesk.protocol.asked import TableFile
from braildesk.protocol.codes import Code
from braildesk.protocol.sentences import Why
from braildesk.protocol.values import Table
from braildesk.refusals import BadTable, Failed, Refused, cannot_open
from braildesk.tables.reading import Reading, read
from braildesk.tables.tiling import Piece, braille, pieces, undefined_place
from braildesk.text import limits
from braildesk.text.characters import shortened


class Disagreement(Failed):
    """The program and the reading in Python answer differently, so one of them is wrong."""


@dataclass(frozen=True, slots=True)
class _Refusal:
    """A line is refused by a code, if it names one at a place."""

    code: int
    place: int | None = None


class TableText:
    """The text of a table at one moment, read here and by the program.

    The program is handed this text and not the file, so that both read the same whatever is saved
    meanwhile.
    """

    def __init__(self, path: StrPath, text: bytes) -> None:
        self.path = fspath(path)
        self.text = text
        self.reading = self._read()

    @property
    def _table(self) -> Table:
        return Table(self.path, self.text)

    def pieces(self, line: str) -> tuple[str, list[Piece]]:
        """The program's braille of a line, and the pieces that it is made of.

        It is an error, Refused, if the line has no braille, and Disagreement if the two
        differ. The table has to be one that is accepted.
        """
        found = _found(self.reading, line)
        (answer,) = programs.translate(self._table, [line])
        if isinstance(answer, Refused):
            if found == _Refusal(answer.code, answer.place):
                raise answer
        elif isinstance(found, list) and braille(found) == answer:
            return answer, found
        raise self._differs(
            f"for {shortened(line)} braildesk {_answer(answer)}, and scribe {_answer(found)}"
        )

    def _read(self) -> Reading:
        """The reading, once the program's answer is seen to be the same."""
        reading = read(self.text)
        first = reading.first
        found = None if first is None else (first.line, int(first.cause))
        if found != (said := self._said()):
            raise self._differs(
                f"braildesk {_judgement(said)}, and scribe {_judgement(found)}"
            )
        return reading

    def _said(self) -> tuple[int, int | None] | None:
        """The line and the cause by which the program refuses the text, if it does."""
        try:
            programs.translate(self._table, [])
        except BadTable as refused:
            if refused.line is None:
                raise
            return refused.line, refused.cause
        return None

    def _differs(self, what: str) -> Disagreement:
        path = shortened(self.path, len(self.path))
        return Disagreement(
            f"braildesk and scribe differ on the table {path}: {what}. One of the two is"
            " wrong, so this is no answer. Please report it with the table."
        )


def _found(reading: Reading, line: str) -> list[Piece] | _Refusal:
    """The pieces of a line, or the code and the place by which it is refused."""
    if len(line.encode()) > limits.LINE_BYTES:
        return _Refusal(Code.NO_REQUEST)
    if len(line) > limits.PRINT_CHARACTERS:
        return _Refusal(Code.TOO_LONG)
    if (place := undefined_place(reading.table, line)) is not None:
        return _Refusal(Code.UNDEFINED, place)
    return pieces(reading.table, line)


def _answer(answer: str | Refused | list[Piece] | _Refusal) -> str:
    """What was answered to a line, in words."""
    match answer:
        case str():
            return f"gives the cells {answer}"
        case Refused():
            return _answer(_Refusal(answer.code, answer.place))
        case _Refusal(code, place):
            at = "" if place is None else f" at character {place + 1}"
            return f"refuses it by code {code}{at}"
    return f"gives the cells {braille(answer)}"


def _judgement(fault: tuple[int, int | None] | None) -> str:
    """What was found in a table, in words."""
    if fault is None:
        return "finds nothing wrong in it"
    return f"refuses its line {fault[0]:,} by cause {fault[1]}"


def text_at(path: StrPath) -> bytes:
    """The text of a table in a file."""
    asked = TableFile(fspath(path))
    try:
        return read_file(path, limits.TABLE_BYTES)
    except TooLarge as error:
        raise cannot_open(asked, Why.TOO_LARGE) from error
    except (OSError, ValueError) as error:
        raise cannot_open(asked, opening.why(asked)) from error
