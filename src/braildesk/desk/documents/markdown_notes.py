"""Notes of a text in Markdown to which several numbers lead, which pandoc repeats at each of them.

A mark at the front of such a note, a paragraph of its own, says afterwards which notes of the tree are one.
"""

import re
from collections import Counter
from collections.abc import Iterator, Sequence
from html import unescape
from typing import Any

from braildesk.desk.documents.nodes import nodes, texts
from braildesk.desk.documents.reading import Loss, LossKind, plain
from braildesk.desk.documents.tree import Node

#: What quotations and lists have before the first line of a block.
AHEAD = r"(?:[ \t>]|[*+~:-](?=[ \t])|\(?[\w#@]{1,9}[.)](?=[ \t]))*"
#: The number of a note, where it is used or written; and the note: what stands before it, its number and its
#: first line.
_NUMBER = re.compile(r"\[\^([^][\s]+)\]")
_NOTE = re.compile(rf"({AHEAD})(\[\^([^][\s]+)\]:[ \t]*)(.*)")
_ITEM = re.compile(r"[^ \t>]")
#: The lines after which a note may begin, which are no text that goes on: of those that are indented it
#: isn't known of which list they are, so that only a note that is in none begins after one.
BEFORE_NOTE = re.compile(r"[ \t>]*+(?:(?:\*?\[|[#<|\\]|:::).*|[-=*_~`:+ ]*)")
_INDENTED = re.compile(r"[ \t>]*(?: {4}|\t)")
_IN_NO_LIST = re.compile("(?: {0,3}>)* {0,3}")
#: What stands around the number of a mark, which no text has; and what it adds to lines that are no note.
_FRONT, _END = "\ue0f0", "\ue0f1"
#: A mark that no note has.
NO_NOTE = f"{_FRONT}{_END}"
_WORD = re.compile(r"[^\W_]+")
_MARK = re.compile(f"{_FRONT}([0-9]*){_END}(?:\n[ \t>]*\n[ \t>]* {{4}}|\n)?")


def with_marks(text: str) -> tuple[str, list[Loss]]:
    """A text with a mark before each note that is used more than once; and what may be such notes that can't
    have one."""
    lines = text.split("\n")
    found = list(_notes(lines))
    uses = Counter(_NUMBER.findall(text))
    # a colon may stand after a number that is used too
    uses.subtract(note[3] for _, note, is_after in found if is_after)
    losses: list[Loss] = []
    if _FRONT in text or _END in text or not any(uses[key] > 1 for key in uses):
        return text, losses
    for place, note, is_after in found:
        if uses[note[3]] > 1:
            if is_after:
                lines[place] = _marked(note, place)
            else:
                losses.append(Loss(LossKind.NOTE_AGAIN, plain(note[0]), plain(note[0])))
    return "\n".join(lines), losses


def _notes(lines: Sequence[str]) -> Iterator[tuple[int, re.Match[str], bool]]:
    """The places of the lines that are like notes, and whether they are no text that goes on."""
    is_after, is_after_indented, is_in = True, False, False
    for place, line in enumerate(lines):
        note = _NOTE.match(line)
        if note and is_after_indented:
            is_after |= _IN_NO_LIST.fullmatch(note[1]) is not None
        if note:
            yield place, note, is_after
        is_in = is_in and bool(line.strip(" \t>")) or is_after and note is not None
        is_after = is_in or BEFORE_NOTE.fullmatch(line) is not None
        is_after_indented = _INDENTED.match(line) is not None


def _marked(note: re.Match[str], number: int) -> str:
    """The first line of a note with its mark, after which it goes on as a further paragraph of it."""
    quoted, key, _, first = note.groups()
    front = f"{quoted}{key}{_FRONT}{number}{_END}\n"
    # the mark of an item stands before its first line
    below = _ITEM.sub(" ", quoted)
    return f"{front}{below}\n{below}    {first}" if first.strip() else front


def without_marks(value: Any) -> Any:
    """A part of a tree without marks, in which the notes that are one have one name."""
    if isinstance(value, str):
        return _MARK.sub("", value)
    if isinstance(value, list):
        return [without_marks(each) for each in value]
    if not isinstance(value, dict):
        return value
    if value.get("t") == "Note":
        return _note(value)
    return {key: without_marks(each) for key, each in value.items()}


def repeated(tree: Node, unmarked: Sequence[Loss]) -> list[Loss]:
    """The notes without a mark that a tree has more than once; what else is like one is text of it."""
    notes = (each for each in nodes(tree["blocks"]) if each.get("t") == "Note")
    counts = Counter("".join(texts(each["c"])) for each in notes if "of" not in each)
    firsts = {_first_word(text) for text in counts if counts[text] > 1}
    lines = [(unescape(each.words.partition("]:")[2]), each) for each in unmarked]
    # the first line of a note may be empty, or a note have no word
    return [
        loss
        for line, loss in lines
        if firsts and not (line and firsts.isdisjoint(("", *_WORD.findall(line))))
    ]


def _first_word(text: str) -> str:
    """The first word of a text as it may be written, without signs; nothing if it has none."""
    found = _WORD.search(text)
    return found[0] if found else ""


def _note(note: Node) -> Node:
    """A note without its mark, which is its name."""
    first, *rest = note["c"] or [{}]
    inlines = first.get("c")
    mark = inlines[0] if isinstance(inlines, list) and len(inlines) == 1 else None
    if isinstance(mark, dict) and mark["t"] == "Str" and _MARK.fullmatch(mark["c"]):
        return {**note, "c": without_marks(rest), "of": mark["c"]}
    return {**note, "c": without_marks(note["c"])}
