"""What of the paragraphs of a text file keeps them from being typed, and where it is first."""

import unicodedata
from collections import Counter
from collections.abc import Callable, Collection, Iterator, Sequence
from dataclasses import dataclass

from braildesk import Refused, Table, translate
from braildesk.desk.manuscript import Passage, Position
from braildesk.text import limits
from braildesk.text.characters import characters_of
from braildesk.text.sequences import is_plain


@dataclass(frozen=True)
class Barred:
    """A control character, which no print has, and how often it stands in the text."""

    character: str
    count: int


@dataclass(frozen=True)
class Lacking:
    """A character that has no cells by a table, and how often it stands in the text."""

    character: str
    count: int
    table: str


@dataclass(frozen=True)
class TooLongPassage:
    """A paragraph with more characters than a print has."""

    passage: Passage


@dataclass(frozen=True)
class TextFault:
    """What is at fault in a text, and where it is first."""

    position: Position
    what: Barred | Lacking | TooLongPassage
    #: The paragraph that has it.
    passage: Passage


def found_faults(
    passages: Sequence[Passage], table: Table, while_waiting: Callable[[], None]
) -> list[TextFault]:
    """Each character that can't be typed with a table, and each paragraph that is too long.

    A table refuses nothing else of a print but characters that it doesn't define, and a character
    is defined or isn't wherever it stands. So each is asked for once, by itself.
    """
    texts = [passage.joined for passage in passages]
    there = characters_of("".join(texts))
    if not is_plain("".join(there)):
        # others may be joined in normal form C, or stand for others there
        texts = [passage.text for passage in passages]
        there = characters_of("".join(texts))
    barred = {each for each in there if unicodedata.category(each) == "Cc"}
    others = sorted(there - barred)
    lacking = _refused(others, translate(table, others, while_waiting=while_waiting))
    counts = Counter("".join(texts) if barred or lacking else "")
    found = [
        *_of_characters(passages, barred, lambda each: Barred(each, counts[each])),
        *_of_characters(
            passages, lacking, lambda each: Lacking(each, counts[each], table.name)
        ),
        *(_too_long(each) for each, text in zip(passages, texts) if _is_too_long(text)),
    ]
    return sorted(found, key=lambda fault: fault.position)


def _refused(asked: Sequence[str], answers: Sequence[str | Refused]) -> set[str]:
    pairs = zip(asked, answers)
    return {character for character, answer in pairs if isinstance(answer, Refused)}


def _is_too_long(text: str) -> bool:
    return len(text) > limits.PRINT_CHARACTERS


def _of_characters(
    passages: Sequence[Passage],
    unfit: Collection[str],
    what: Callable[[str], Barred | Lacking],
) -> Iterator[TextFault]:
    """A fault for each of some characters, where it stands first."""
    left = set(unfit)
    for passage in passages if left else ():
        if left.isdisjoint(passage.text):
            continue
        places = _first_places(passage.text, left)
        for character, position in zip(places, passage.positions(places.values())):
            yield TextFault(position, what(character), passage)
        left.difference_update(places)


def _first_places(text: str, sought: Collection[str]) -> dict[str, int]:
    """Where each of some characters that a text has stands first, from left to right."""
    found: dict[str, int] = {}
    for place, character in enumerate(text):
        if character in sought:
            found.setdefault(character, place)
    return found


def _too_long(passage: Passage) -> TextFault:
    position = passage.position(limits.PRINT_CHARACTERS)
    return TextFault(position, TooLongPassage(passage), passage)
