"""What a book replies: its lines, as docs/FORMATS.md has them, a refusal, and answers in words."""

from typing import Any

from braildesk import Entry, Kind, Refused, Session, requests
from braildesk.protocol.codes import Code, NUMBERS
from braildesk.protocol.replies import Reply
from braildesk.protocol.requests import Request
from braildesk.text.cells import Notation
from braildesk.text.characters import visible
from braildesk.text.spans import Span

from scribe.words.paragraph import mark_line, title

# the refusals that speak of places that the request has, or that the line of the refusal has
_COUNTS = frozenset({Code.OUT_OF_RANGE})
_COUNTS_OF_LINE = _COUNTS | {
    Code.BARRED_CHARACTER,
    Code.UNDEFINED,
    Code.UNDEFINED_IN_PRINT,
}


def reply_lines(reply: Reply) -> list[str]:
    """The lines of a reply, with control and format characters of texts made visible."""
    last = " ".join([reply.word, *map(str, reply.numbers)])
    return [*(f"| {visible(line)}" for line in reply.lines), last]


def refusal_line(refused: Refused) -> str:
    """The line by which a request is refused."""
    numbers = (getattr(refused, name) for name in NUMBERS.get(refused.code, ()))
    return " ".join(["no", str(refused.code), *map(str, numbers)])


def refusal_sentence(refused: Refused, has_line: bool) -> str:
    """What is said of a request that is refused, and that requests count otherwise if they do.

    A place of the refusal itself is seen only if its line is shown.
    """
    counts = _COUNTS_OF_LINE if has_line else _COUNTS
    if refused.code not in counts:
        return refused.sentence
    return f"{refused.sentence} Requests count from 0, sentences from 1."


def shown(
    session: Session, query: Request[Any], cells: Notation = Notation.UNICODE
) -> list[str]:
    """Sends a query, and gives what it shows; ``Refused`` if it is refused."""
    match query:
        case requests.Print():
            return [visible(session.ask(query)) or "The print is empty."]
        case requests.Braille():
            return [cells.write(session.ask(query)) or "There are no cells."]
        case requests.History():
            entries = session.ask(query)
            return [*map(_entry_line, entries)] or ["Nothing was corrected yet."]
        case requests.Marks():
            return _marks(session, query)
        case requests.Where(place=place):
            cell = session.ask(query)
            return [
                f"The first cell for character {place + 1} is cell {cell + 1} (in requests, place"
                f" {place} and cell {cell})."
            ]
        case requests.Whence(cell=cell):
            place = session.ask(query)
            return [
                f"The first character for cell {cell + 1} is character {place + 1} (in requests,"
                f" cell {cell} and place {place})."
            ]
        case requests.List():
            book = session.ask(query)
            lines = [
                f"{title(each, True)}, {_characters(each.length)}" for each in book
            ]
            return lines or ["The book has no paragraphs."]
        case requests.Version():
            return [f"The book is at version {session.ask(query):,}."]
    raise TypeError(f"no query of a book: {query!r}")


def _marks(session: Session, query: requests.Marks) -> list[str]:
    marks = session.ask(query)
    if not marks:
        return [f"Paragraph {query.paragraph} has no marks."]
    text = session.print_of(query.paragraph)
    return [mark_line(mark, text) for mark in marks]


def _entry_line(entry: Entry) -> str:
    if entry.kind is Kind.UNDO:
        return f"{entry.seq}: correction {entry.undone} taken back"
    by = "" if entry.who is None else f", by {visible(entry.who)}"
    come = f"“{visible(entry.text)}”" if entry.text else "nothing"
    gone = Span(entry.start, entry.start + entry.count).counted("character")
    if entry.count:
        return f"{entry.seq}: {come} for {gone}{by}"
    where = f"after character {entry.start}" if entry.start else "at the front"
    return f"{entry.seq}: {come} put in {where}{by}"


def _characters(count: int) -> str:
    return "1 character" if count == 1 else f"{count:,} characters"
