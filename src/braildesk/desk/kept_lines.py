"""Lines that wait while they are typed, of which the first ones may be in the book already, and notes."""

from collections.abc import Sequence
from dataclasses import replace

from braildesk import Mark, Session
from braildesk.desk.draft import Aim, Draft
from braildesk.desk.places import words_of
from braildesk.desk.readings import answers
from braildesk.protocol.requests import Print
from braildesk.text.sequences import composed
from braildesk.text.spans import Span

# what waits is kept anew each time that such a part of its lines was typed
_PART = 8
# of how many of the newest paragraphs it is looked for whether one reads as a text
_MOST_SINCE = 1_000


class LinesLeft:
    """Lines that wait as they were last kept, of which one after the other is typed.

    They are kept anew each time that a part of them was typed. If they were kept after each line, the
    time would grow as the square of their number.
    """

    def __init__(self, kept: Draft | None) -> None:
        self._kept = kept
        self._count = kept.text.count("\n") + 1 if kept else 0
        self._typed = self._newest = 0

    def left(self) -> Draft | None:
        """Those that weren't typed."""
        if self._kept is None or not self._typed:
            return self._kept
        return self._kept.after_lines(self._typed, self._newest)

    def one_typed(self, newest: int, version: int) -> Draft | None:
        """Those that are to be kept anew now that the first is the newest paragraph; else none.

        The version is that of the book with it.
        """
        self._typed, self._newest = self._typed + 1, newest
        left = self.left() if self._typed * _PART >= self._count else None
        if left is None:
            return None
        left = replace(left, version=version)
        self._kept, self._count = left, self._count - self._typed
        self._typed = 0
        return left


def lines_kept(
    session: Session, draft: Draft, version: int, numbers: Sequence[int]
) -> int:
    """How many of the first lines of new paragraphs are the newest ones of a book of a version.

    They may be there if the session ended before it was reported, or before what waits was kept
    anew. Each made the version greater by 1.
    """
    if draft.version is None or version <= draft.version:
        return 0
    lines = [composed(line) for line in draft.text.split("\n")]
    newest = _since(draft, numbers)[-min(version - draft.version, len(lines)) :]
    asked = [Print(number) for number in newest]
    prints = [composed(text) for text in answers(session, asked)]
    return overlap(prints, lines)


def reads_the_same(
    session: Session, draft: Draft, version: int, numbers: Sequence[int]
) -> int | None:
    """The newest paragraph that a book of a version may have got since a text was typed and that reads as that.

    It may be that text, where others typed paragraphs after it before what waits was looked at.
    """
    if not draft.aim.is_new or draft.version is None or version <= draft.version:
        return None
    since = _since(draft, numbers)[-min(version - draft.version, _MOST_SINCE) :]
    wanted = composed(draft.text)
    prints = answers(session, [Print(number) for number in since])
    found = [number for number, text in zip(since, prints) if composed(text) == wanted]
    return max(found, default=None)


def _since(draft: Draft, numbers: Sequence[int]) -> list[int]:
    """The paragraphs that are newer than the one where a text was typed, which was there by then."""
    return sorted(number for number in numbers if number > (draft.paragraph or 0))


def lines_left(
    session: Session, draft: Draft, version: int, numbers: Sequence[int]
) -> Draft | None:
    """The lines that aren't in a book of a version, of which the first is; none if all are."""
    count, newest = 1, max(numbers)
    if not draft.aim.is_new:
        # the first changed a paragraph, and those after it are new ones
        rest = draft.after_first_line(newest)
        if rest is None or draft.version is None:
            return rest
        made = draft.version + _corrections(session, draft)
        draft, count = replace(rest, version=made), 0
    count = max(count, lines_kept(session, draft, version, numbers))
    return draft.after_lines(count, newest) if count else draft


def _corrections(session: Session, draft: Draft) -> int:
    """How many corrections made the first of some lines of the print where it was typed."""
    number = draft.paragraph
    if draft.aim is not Aim.EDIT or number is None:
        return 1
    entries, wanted = session.history_of(number), composed(draft.first_line)
    # beside each mark there are four at most
    for count in range(1, min(len(entries), 4 * len(session.marks_of(number)) + 1) + 1):
        text = draft.before
        for each in entries[-count:]:
            text = text[: each.start] + each.text + text[each.start + each.count :]
        if composed(text) == wanted:
            return count
    return 1


def overlap(earlier: Sequence[str], later: Sequence[str]) -> int:
    """How many texts at most are both the last ones of some and the first ones of others."""
    # for each count of the first ones, how many fewer of them are the last ones of these too
    shorter = [0]

    def longer(count: int, text: str) -> int:
        while count and (count == len(later) or later[count] != text):
            count = shorter[count - 1]
        return count + (count < len(later) and later[count] == text)

    for text in later[1:]:
        shorter.append(longer(shorter[-1], text))
    count = 0
    for text in earlier:
        count = longer(count, text)
    return count


def mark_kept(session: Session, draft: Draft) -> Mark | None:
    """The newest mark with a note that waits, on those cells for which it was typed; none if there is none.

    Where the print isn't as it was then, nobody can tell.
    """
    number, cells = draft.paragraph, draft.cells
    if number is None or cells is None:
        return None
    text, braille = session.print_of(number), session.braille_of(number)
    if composed(text) != composed(draft.before) or cells.stop > len(braille):
        return None
    words = words_of(session, number, cells, text, braille)
    its = [
        mark
        for mark in session.marks_of(number)
        if mark.note == draft.text and Span(mark.start, mark.stop) == words
    ]
    return max(its, key=lambda mark: mark.id) if its else None
