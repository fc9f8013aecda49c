"""What is read of a manuscript: its paragraphs, and all of it that they don't have."""

import re
from collections.abc import Iterable, Iterator
from dataclasses import dataclass, replace
from enum import Enum, auto
from itertools import chain, islice
from typing import TypeVar

from braildesk.desk.documents.kinds import ManuscriptKind
from braildesk.text import limits
from braildesk.text.sequences import sequences

#: Blanks of all widths, also those at which no line may end.
_BLANKS = re.compile(
    r"[ \t\r\f\v\u00a0\u1680\u2000-\u200a\u202f\u205f\u3000]+", re.ASCII
)
#: How many characters are shown of words that are emphasized, and how many texts of a paragraph are looked at for them.
_SHOWN, _FRONT = 60, 1_000
#: What only says where a line may end or may not.
_UNSEEN = re.compile("[\u00ad\u200b\u2060\ufeff]")
_Usual = TypeVar("_Usual", int, None)
#: Where a sentence ends: at its mark, with the quotation marks and brackets that close after it.
_SENTENCE_END = re.compile("[.!?\u2026]['\"\u2019\u201d\u00bb)\\]]* ")


class LossKind(Enum):
    """What of a document a book can't hold, or is left out of it."""

    EMPHASIS = auto()
    LINK = auto()
    SUBSCRIPT = auto()
    SUPERSCRIPT = auto()
    MATHEMATICS = auto()
    TABLE = auto()
    SPAN = auto()
    SAME = auto()
    BOX = auto()
    PICTURE = auto()
    DESCRIBED = auto()
    NUMBER = auto()
    LIST = auto()
    SHEET = auto()
    STYLES = auto()
    RULES = auto()
    LEVEL = auto()
    LENGTH = auto()
    LONG_SENTENCE = auto()
    LONG_WORD = auto()
    RAW = auto()
    NOTE = auto()
    NOTE_AGAIN = auto()
    NOTE_NUMBER = auto()
    JOINED = auto()
    INITIAL = auto()
    HIDDEN = auto()
    DELETED = auto()
    COMMENT = auto()
    CONTENTS = auto()
    ASIDE = auto()
    REPEATED = auto()
    UNREAD = auto()
    GUESSED = auto()
    UNSEEN = auto()
    ABSENT = auto()
    EMBEDDED = auto()
    OTHER_FILE = auto()
    COMPUTED = auto()


#: How a text is parted that is too long, from the best way on.
_WAYS = (LossKind.LENGTH, LossKind.LONG_SENTENCE, LossKind.LONG_WORD)


@dataclass(frozen=True, slots=True)
class Loss:
    """Something that a book can't hold, and where: the words of it, and those around them."""

    what: LossKind
    words: str
    around: str


@dataclass(frozen=True, slots=True)
class Missing:
    """Words of a document that none of its paragraphs has, with their neighbours."""

    words: str
    before: str
    after: str


@dataclass(frozen=True, slots=True)
class Part:
    """A paragraph of a manuscript, in normal form C."""

    text: str
    #: Of a heading, from 1 on; 0 of the title of the whole; None of the body.
    level: int | None = None
    #: Whether it stands before the text, as the title and those who wrote it.
    is_front: bool = False

    @property
    def is_heading(self) -> bool:
        """Whether it is a heading."""
        return self.level is not None


@dataclass(frozen=True, slots=True)
class Manuscript:
    """The paragraphs of a manuscript, and what of it they don't have."""

    kind: ManuscriptKind
    parts: tuple[Part, ...]
    #: What a book can't hold, in the order in which it stands there.
    losses: tuple[Loss, ...] = ()
    #: The words of the file that aren't in any paragraph.
    missing: tuple[Missing, ...] = ()
    #: Of a book that another program has open, the version at which it was read.
    kept_at: int | None = None

    @property
    def texts(self) -> list[str]:
        """The prints of the paragraphs."""
        return [part.text for part in self.parts]


def whole(text: str | None, usual: _Usual) -> int | _Usual:
    """The whole number that a text is, or what is usual if it is none."""
    return int(text) if text and re.fullmatch("-?[0-9]{1,9}", text) else usual


def plain(text: str) -> str:
    """A text as a print has it: with one blank for several, and none around it."""
    return _BLANKS.sub(" ", _UNSEEN.sub("", text)).strip(" \n")


def emphases(texts: Iterable[tuple[str, bool]]) -> Iterator[Loss]:
    """The emphases of a paragraph, by its texts, of which each is emphasized or isn't, in their order."""
    run = ""
    for text, is_emphasized in chain(islice(texts, _FRONT), [(".", False)]):
        if is_emphasized or not text.strip():
            run += text[:_FRONT]
            continue
        if shown := plain(run.replace("\n", " "))[:_SHOWN]:
            yield Loss(LossKind.EMPHASIS, shown, shown)
        run = ""


def short_enough(part: Part) -> Iterator[Part]:
    """A part, parted if it is longer than a print may be, at its sentences if that can be."""
    for text, _ in _pieces(part.text):
        yield replace(part, text=text)


def parting(text: str) -> LossKind | None:
    """How a text is parted, by the place in it that no sentence or no blank is at; None if it isn't."""
    ways = [way for _, way in _pieces(text) if way is not None]
    return max(ways, key=_WAYS.index, default=None)


def _pieces(text: str) -> Iterator[tuple[str, LossKind | None]]:
    """The pieces of a text that prints can have, each with what it ends at; the last ends with the text."""
    while len(text) > limits.PRINT_CHARACTERS:
        stop, way = _stop(text)
        if not stop:
            break
        yield text[:stop].rstrip(" "), way
        text = text[stop:].lstrip(" ")
    yield text, None


def _stop(text: str) -> tuple[int, LossKind]:
    """Where the front of a text ends that a print can have, and at what: at a sentence, a blank or a character."""
    most = limits.PRINT_CHARACTERS
    front = text[: most + 1]
    ends = [found.end() for found in _SENTENCE_END.finditer(front)]
    if ends:
        return ends[-1], LossKind.LENGTH
    blank = front.rfind(" ")
    if blank > 0:
        return blank, LossKind.LONG_SENTENCE
    stop = 0
    for sequence in sequences(front):
        if stop + len(sequence) > most:
            break
        stop += len(sequence)
    return stop, LossKind.LONG_WORD
