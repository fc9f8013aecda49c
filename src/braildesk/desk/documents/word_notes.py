"""Notes of a document in DOCX to which more than one number leads.

pandoc repeats a note at each of its own numbers, and takes those that are fields for text.
"""

import re
from collections import Counter, deque
from collections.abc import Iterator, Sequence
from xml.etree.ElementTree import Element

from braildesk.desk.documents.reading import Loss, LossKind, plain
from braildesk.desk.documents.word_print import GONE

_W = "{http://schemas.openxmlformats.org/wordprocessingml/2006/main}"
#: What the code of a field has that is a further number of a note.
_FIELD = re.compile(r"\bNOTEREF\b", re.IGNORECASE)
#: How many characters are shown of a note, or of the paragraph of a number.
_SHOWN = 60


def notes_again(roots: Sequence[Element]) -> Iterator[Loss]:
    """The notes of some parts that are typed after each of several numbers, and the numbers in fields."""
    kept = [each for root in roots for each in _kept(root)]
    for kind in ("footnote", "endnote"):
        numbers = (each for each in kept if each.tag == f"{_W}{kind}Reference")
        uses = Counter(each.get(f"{_W}id") for each in numbers)
        for note in kept:
            if note.tag == f"{_W}{kind}" and uses[note.get(f"{_W}id")] > 1:
                yield _loss(LossKind.NOTE_AGAIN, note)
    for paragraph in (each for each in kept if each.tag == f"{_W}p"):
        if found := _FIELD.findall("".join(_codes(paragraph))):
            yield from [_loss(LossKind.NOTE_NUMBER, paragraph)] * len(found)


def _kept(element: Element) -> Iterator[Element]:
    """The elements below one that are typed with it."""
    waiting = deque([element])
    while waiting:
        for child in waiting.popleft():
            if child.tag not in GONE:
                yield child
                waiting.append(child)


def _codes(paragraph: Element) -> Iterator[str]:
    for each in _kept(paragraph):
        if each.tag == f"{_W}instrText":
            yield each.text or ""
        yield each.get(f"{_W}instr", "")


def _loss(what: LossKind, element: Element) -> Loss:
    words = plain("".join(each.text or "" for each in element.iter(f"{_W}t")))[:_SHOWN]
    return Loss(what, words, words)
