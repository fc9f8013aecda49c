"""What is asked and said in rows of the screen, and the keys that go through these where all have no room.

What is said goes before what is asked, and above both is the title of the screen, which is row 0.
"""

from dataclasses import dataclass, replace

from braildesk.text.characters import visible
from braildesk.text.wrapping import wrap

from scribe.screen.state import Question, State

# on fewer rows nothing but the front of a question, or its end, would be seen at once
_FEW = 4


@dataclass(frozen=True)
class Part:
    """The rows that are seen below the title, or in its place, and the one of the cursor.

    That is counted from 0, and is -1 on the title.
    """

    rows: tuple[str, ...]
    cursor: int


def in_words(question: Question) -> str:
    """A question, and how it is answered."""
    how = f"y is yes, n is no. {question.more}".rstrip()
    if question.is_typed_on:
        how = f"Enter ends the last line, and then {how}"
    return f"{visible(question.sentence)} {how}"


def part(state: State, question: Question) -> Part | None:
    """What is seen of a question on few rows, or while keys go through it; else None."""
    if question.row is None and state.size.lines >= _FEW:
        return None
    whole = _rows(state, question, state.size.columns)
    if question.row is None and len(whole) <= state.size.lines:
        return Part(whole, len(whole) - 1)
    rows, count = _narrow_rows(state, question), state.size.lines
    row = min(_row(state, question), len(rows))
    # the same for each row among them, so that none moves while the cursor goes there
    top = max(0, min(row // count * count, len(rows) + 1 - count))
    stop = top + count - 1
    seen = rows[max(0, top - 1) : stop]
    if seen and stop < len(rows):
        seen = (*seen[:-1], f"{seen[-1]}…")
    return Part(seen, row - max(1, top))


def moved(state: State, key: str) -> State | None:
    """The state after a key that goes through the rows of what is asked or said; None for another key.

    It does so where not all of these are seen at once, or what is asked covers the title.
    """
    question = state.question
    if question is None or state.is_lost:
        return _said_further(state, key)
    if is_whole(state):
        return None
    row, last = _row(state, question), len(_narrow_rows(state, question))
    match key:
        case "up" | "down":
            row += 1 if key == "down" else -1
        case "pageup" | "pagedown":
            row += state.size.lines if key == "pagedown" else -state.size.lines
        case "home" | "end":
            row = 0 if key == "home" else last
        case _:
            return None
    return replace(state, question=replace(question, row=max(0, min(row, last))))


def is_whole(state: State) -> bool:
    """Whether all that is asked is seen at once, with what is said before it and the title."""
    if state.question is None:
        return True
    whole = _rows(state, state.question, state.size.columns)
    return len(whole) < state.size.lines


def said(state: State, most: int) -> list[str]:
    """What is said in rows, from the one on that keys went to, where so many have no room for all."""
    width = state.size.columns
    rows = wrap(visible(state.heard), width) if state.heard else []
    if len(rows) <= most or state.size.lines >= _FEW:
        return rows
    rows = wrap(visible(state.heard), width - 1)
    return rows[min(state.said_row, len(rows) - 1) :]


def _said_further(state: State, key: str) -> State | None:
    """The state in which what is said is read on by Down, to its last row, and back by Up."""
    if key not in ("up", "down"):
        return None
    is_typed = state.is_typing and not state.is_lost
    most = max(1, state.size.lines - (2 if is_typed else 1))
    rows, row = said(state, most), state.said_row + (1 if key == "down" else -1)
    is_there = row >= 0 and (key == "up" or len(rows) > most)
    return replace(state, said_row=row) if rows and is_there else None


def _row(state: State, question: Question) -> int:
    """The row of the cursor: the first one where a question is begun to be read, or else the last."""
    if question.row is not None:
        return question.row
    is_begun = state.size.lines < _FEW
    return 1 if is_begun else len(_narrow_rows(state, question))


def _narrow_rows(state: State, question: Question) -> tuple[str, ...]:
    """The rows with room after each for the sign that others follow."""
    return _rows(state, question, state.size.columns - 1)


def _rows(state: State, question: Question, width: int) -> tuple[str, ...]:
    said = wrap(visible(state.heard), width) if state.heard else []
    return (*said, *wrap(in_words(question), width))
