"""A paragraph and its marks in words."""

from collections.abc import Callable, Sequence
from typing import TYPE_CHECKING

from braildesk import Mark, Paragraph, Style
from braildesk.text.characters import visible
from braildesk.text.excerpt import excerpt, opening
from braildesk.text.wrapping import columns, wrap

if TYPE_CHECKING:
    from braildesk.desk.marks import MarkOfBook, NextMark

_WORDS = 40
#: The fewest columns of a line that show words after what is said of them.
_ROOM = 24


def title(paragraph: Paragraph, with_table: bool) -> str:
    """What a paragraph is: its number, its style and its flags."""
    flags = [
        f"Paragraph {paragraph.id}",
        "heading" if paragraph.style is Style.HEADING else "body",
        "begins a volume" if paragraph.begins_volume else "",
        "struck" if paragraph.struck else "",
        f"table {paragraph.table}" if with_table else "",
    ]
    return ", ".join(flag for flag in flags if flag)


def mark_line(
    mark: Mark,
    text: str,
    paragraph: int | None = None,
    page: str = "",
    life: str = "",
) -> str:
    """A mark with the words that it stands on in a print, where and what that is, and its note."""
    flags = [
        f"Mark {mark.id}",
        "resolved" if mark.resolved else "open",
        "touched" if mark.touched else "",
        page,
        "" if paragraph is None else f"paragraph {paragraph}",
        life,
        marked_words(mark, text),
    ]
    line = ", ".join(flag for flag in flags if flag)
    return f"{line}: {visible(mark.note)}" if mark.note else line + "."


def marks_summary(marks: "Sequence[MarkOfBook]", whose: str = "The book") -> str:
    """How many marks a book or a paragraph has, in a sentence."""
    resolved = sum(each.mark.resolved for each in marks)
    opened = len(marks) - resolved
    if not opened and not resolved:
        return f"{whose} has no marks."
    kinds = []
    if opened:
        kinds.append(f"{opened:,} open")
    if resolved:
        kinds.append(f"{resolved:,} resolved")
    word = "mark" if opened + resolved == 1 else "marks"
    return f"{whose} has {' and '.join(kinds)} {word}."


def next_summary(found: "NextMark") -> str:
    """What is said after the next open mark: how many others are open."""
    if found.mark is None:
        return "The book has no open mark."
    again = "It is the first of the book again. " if found.is_from_front else ""
    match found.others:
        case 0:
            return "No other mark is open."
        case 1:
            return f"{again}1 other mark is open."
    return f"{again}{found.others:,} other marks are open."


def marked_words(mark: Mark, text: str) -> str:
    """The words that a mark stands on, or where it stands if they are gone."""
    if mark.start == mark.stop:
        at_end = mark.start >= len(text)
        return f"on no words, {'at the end' if at_end else f'at character {mark.start + 1}'}"
    return f"on {quoted(text[mark.start : mark.stop])}"


def quoted(text: str) -> str:
    """The first words of a text in quotation marks."""
    return f"“{opening(visible(text), _WORDS)}”"


def no_mark(number: int, command: str = "The command marks") -> str:
    """The sentence for a mark that isn't there, with what shows those that are."""
    return f"The book has no mark {number}. {command} shows which there are."


def no_paragraph(number: int, count: int) -> str:
    """The sentence for a paragraph that isn't there."""
    if not count:
        return f"There is no paragraph {number}: the book has none."
    if count == 1:
        return f"There is no paragraph {number}: the book has paragraph 1 alone."
    return f"There is no paragraph {number}: the book has the paragraphs 1 to {count}."


def counted(count: int, word: str) -> str:
    """A number of things, of each of which a word is the name, as in “2 pages”."""
    return f"1 {word}" if count == 1 else f"{count:,} {word}s"


def part_of(part: int, whole: int, word: str) -> str:
    """How many of some things are, or one is, what is said after it, as in “1 of 3 pages is”."""
    are = "is" if 1 in (part, whole) else "are"
    return f"{part:,} of {counted(whole, word)} {are}"


def listed(paragraph: Paragraph, text: str, has_table: bool, width: int) -> list[str]:
    """A paragraph in a list: what it is, its length and its first words."""
    head = f"{title(paragraph, has_table)}, {counted(paragraph.length, 'character')}"
    return headed(head, lambda room: opening(visible(text), room), width)


def in_its_line(head: str, text: str, start: int, stop: int, width: int) -> list[str]:
    """What is said of words, and these in brackets with the words around them."""
    return headed(head, lambda room: excerpt(text, start, stop, room), width)


def headed(head: str, shown: Callable[[int], str], width: int) -> list[str]:
    """A line of what is said of words, and these, which are shown in some columns.

    If there are few columns for them they stand on a line of their own.
    """
    room = width - columns(head) - len(": ")
    alone = shown(width)
    if not alone:
        return wrap(head, width, "  ")
    if columns(alone) <= room:
        return [f"{head}: {alone}"]
    if room < _ROOM:
        return [*wrap(f"{head}:", width, "  "), alone]
    return [f"{head}: {shown(room)}"]
