"""Which paragraphs of a book came from a text: those that have its prints, or had them once."""

from collections.abc import Iterable, Sequence

from braildesk import After, Entry, Kind, Paragraph, Session
from braildesk.desk.manuscript import Passage
from braildesk.desk.readings import answers
from braildesk.protocol.requests import Print


def came_from(
    session: Session, numbers: Iterable[int], texts: Sequence[Passage]
) -> int:
    """How many paragraphs of a text, from its first one on, these paragraphs of a book are.

    They are that also if they were corrected since.
    """
    pairs = list(zip(numbers, texts))
    prints = answers(session, (Print(number) for number, _ in pairs))
    others = {
        number: found
        for found, (number, passage) in zip(prints, pairs)
        if found != passage.text
    }
    for count, (number, passage) in enumerate(pairs):
        if number in others:
            history = session.history_of(number)
            if not history or corrected(passage.text, history) != others[number]:
                return count
    return len(pairs)


def standing(
    session: Session,
    book: Sequence[Paragraph],
    after: After,
    texts: Sequence[Passage],
    front: Sequence[Passage] = (),
) -> tuple[int, ...]:
    """The paragraphs that are a text already, just before or after a place; none if none are.

    Before it they come after those of the front of the text, which may read as the rest does. Struck
    ones are passed over.
    """
    place = 0
    if after == "end":
        place = len(book)
    elif after != "front":
        place = [each.id for each in book].index(after) + 1
    whole = (*front, *texts)
    before = [each.id for each in book[:place] if not each.struck][-len(whole) :]
    behind = [each.id for each in book[place:] if not each.struck][: len(texts)]
    for numbers, wanted in ((before, whole), (behind, texts)):
        if len(numbers) == len(wanted) and came_from(session, numbers[:1], wanted):
            if came_from(session, numbers, wanted) == len(wanted):
                return tuple(numbers[-len(texts) :])
    return ()


def corrected(text: str, history: Iterable[Entry]) -> str | None:
    """A print after the corrections and undos of a history; none if that is of a longer print."""
    before: list[str] = []
    for entry in history:
        if entry.kind is Kind.UNDO:
            text = before.pop()
        else:
            before.append(text)
            stop = entry.start + entry.count
            if stop > len(text):
                return None
            text = text[: entry.start] + entry.text + text[stop:]
    return text
