"""Lines that are looked at in place of the book, as many at once as there is room for."""

from dataclasses import dataclass, replace
from functools import lru_cache

from braildesk.text.characters import visible
from braildesk.text.excerpt import opening
from braildesk.text.wrapping import wrap

from scribe.screen.state import HEAD_LINE, Pages, Size, Target
from scribe.words.paragraph import counted

#: The row for what is said below the lines.
SAID = 1
#: The keys that move the cursor, and what each does.
KEYS = (
    "Up, Down: to the line before, after",
    "Page Up, Page Down: a screen back, on",
    "Home, End: to the first line, to the last",
)
# the rows of the screen that aren't the pager's: the first has the book's name, the last keys
OTHERS = 2 + SAID


@dataclass(frozen=True)
class Seen:
    """What is seen of the lines: what they are, those that there is room for, and the cursor.

    The cursor stands on one of all these lines, counted from 0.
    """

    head: tuple[str, ...]
    lines: tuple[str, ...]
    cursor: int


def seen(pages: Pages, size: Size) -> Seen:
    """What is seen of the lines on a screen of a size."""
    lines, most = _wrapped(pages, size), _most(pages, size)
    top = max(0, min(pages.top, len(lines) - most))
    shown = lines[top : top + most]
    head = f"{pages.title} Lines {top + 1} to {top + len(shown)} of {len(lines)}."
    wrapped = tuple(wrap(visible(head), size.columns))
    if pages.place == HEAD_LINE and len(wrapped) >= size.lines - OTHERS:
        # no line is seen beside it
        head = f"{pages.title} {counted(len(lines), 'line')}."
        wrapped = tuple(wrap(visible(head), size.columns))
    elif pages.place != HEAD_LINE and len(wrapped) >= max(2, size.lines - OTHERS):
        # what is looked at and where that is, in the one row beside a line
        wrapped = (_in_a_row(pages.title, head.removeprefix(pages.title), size),)
    is_seen = top <= pages.place < top + len(shown)
    return Seen(wrapped, shown, len(wrapped) + pages.place - top if is_seen else 0)


def _in_a_row(title: str, where: str, size: Size) -> str:
    """The front of a title, and where the lines are, in one row."""
    room = size.columns - len(where) - 1
    if room < 1:
        return opening(where.lstrip(), size.columns)
    return f"{opening(visible(title), room)}{where}"


def at_line(pages: Pages, size: Size, number: int) -> Pages:
    """The lines with the cursor on the front of one of them, counted from 0, however long it is.

    All of that line is seen, if there is room for it.
    """
    before = replace(pages, lines=pages.lines[:number])
    moved = _at(pages, size, len(_wrapped(before, size)))
    end = moved.place + len(wrap(visible(pages.lines[number]), size.columns))
    if end <= moved.top + _most(pages, size):
        return moved
    last = len(_wrapped(pages, size)) - _most(pages, size)
    return replace(moved, top=max(0, min(moved.place, last)))


def beside(pages: Pages, size: Size, by: int) -> Pages:
    """The lines with the cursor on the front of the next one or the one before, if there is one."""
    number = _number(pages, size) + by
    if number >= len(pages.lines):
        return pages
    if number < 0:
        return _at(pages, size, HEAD_LINE)
    return at_line(pages, size, number)


def _number(pages: Pages, size: Size) -> int:
    """Which of the lines the cursor is on, counted from 0, or -1 on their head."""
    if pages.place == HEAD_LINE:
        return -1
    stop = 0
    for number, line in enumerate(pages.lines):
        stop += len(wrap(visible(line), size.columns))
        if pages.place < stop:
            return number
    return len(pages.lines) - 1


def target(pages: Pages, size: Size) -> Target | None:
    """Where the line of the cursor leads, in a list to go by; on its head none does."""
    number = _number(pages, size)
    return pages.targets[number] if 0 <= number < len(pages.targets) else None


def entry(pages: Pages, size: Size) -> tuple[str, ...]:
    """What is seen of the entry of the cursor, from the cursor on; nothing if it is on the head."""
    number = _number(pages, size)
    if number < 0:
        return ()
    nth = pages.targets[number].nth
    its = (n for n, each in enumerate(pages.targets) if each.nth == nth)
    up_to = replace(pages, lines=pages.lines[: max(its) + 1])
    return _wrapped(up_to, size)[pages.place :]


def fitted(pages: Pages, size: Size) -> Pages:
    """The lines with that of the cursor still seen on a screen of another size."""
    if pages.place == HEAD_LINE:
        return pages
    top = max(pages.top, pages.place - _most(pages, size) + 1)
    return replace(pages, top=min(top, pages.place))


def resized(pages: Pages, before: Size, size: Size) -> Pages:
    """The lines on a screen of another size, with the cursor on the same one of them."""
    number = _number(pages, before)
    front = replace(pages, top=0, place=HEAD_LINE)
    moved = front if number < 0 else at_line(front, size, number)
    under = pages.under and resized(pages.under, before, size)
    return replace(moved, under=under)


def moved(pages: Pages, size: Size, key: str) -> Pages | None:
    """The lines after a key that moves the cursor, or None for another key."""
    last, most = len(_wrapped(pages, size)) - 1, _most(pages, size)
    match key:
        case "up":
            return _at(pages, size, pages.place - 1)
        case "down":
            return _at(pages, size, pages.place + 1)
        case "home" | "c-home":
            return _at(pages, size, HEAD_LINE)
        case "end" | "c-end":
            return _at(pages, size, last)
        case "pageup" | "pagedown":
            by = most if key == "pagedown" else -most
            top = max(0, min(pages.top + by, last + 1 - most))
            # if there is nothing further to see, the cursor goes to the end of it
            place = top if top != pages.top else last if by > 0 else HEAD_LINE
            return replace(pages, top=top, place=place)
    return None


def _at(pages: Pages, size: Size, place: int) -> Pages:
    """The lines with the cursor on one of those that stand on the screen, which is seen.

    Where it isn't seen yet the lines go on by as many as are seen, and not by one after the other,
    so that they stay where they are while they are read.
    """
    last, most = len(_wrapped(pages, size)) - 1, _most(pages, size)
    place = max(HEAD_LINE, min(place, last))
    top = pages.top
    if place >= top + most:
        top = place
    elif place < top:
        top = place - most + 1
    return replace(pages, top=max(0, min(top, last + 1 - most)), place=place)


def _wrapped(pages: Pages, size: Size) -> tuple[str, ...]:
    """All lines, parted if they are longer than the screen."""
    return _parted(pages.lines, size.columns)


# each key looks at the same lines again, which may be thousands
@lru_cache(maxsize=4)
def _parted(lines: tuple[str, ...], width: int) -> tuple[str, ...]:
    return tuple(part for line in lines for part in wrap(visible(line), width))


def _most(pages: Pages, size: Size) -> int:
    """How many lines there is room for beside the longest head that they can have."""
    count = len(_wrapped(pages, size))
    head = wrap(
        f"{visible(pages.title)} Lines {count} to {count} of {count}.", size.columns
    )
    return max(1, size.lines - OTHERS - len(head))
