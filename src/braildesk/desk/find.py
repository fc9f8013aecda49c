"""Where words or cells stand in a book, and words that are like those that were looked for.

Who looks for words types what the keyboard has: a straight apostrophe, a hyphen, a blank. In the
print there may be a curved one, a dash, a no-break space, or a capital at the front of a sentence.
"""

from collections.abc import Iterable, Iterator, Sequence
from dataclasses import dataclass, replace
from enum import Enum, auto

from braildesk import Paragraph, Session
from braildesk.desk.places import words_of
from braildesk.desk.readings import brailles, prints
from braildesk.text.sequences import composed
from braildesk.text.spans import Form, Span, find_spans


class Variant(Enum):
    """By what words differ that are alike."""

    CAPITALS = auto()
    LETTERS = auto()
    APOSTROPHE = auto()
    QUOTATION_MARKS = auto()
    DASH = auto()
    BLANK = auto()


#: The signs of each kind, which count as the first of them.
_SIGNS = {
    Variant.APOSTROPHE: "'‘’‚‛‹›′ʼ`´",
    Variant.QUOTATION_MARKS: '"“”„‟«»″',
    Variant.DASH: "-‐‑‒–—―−",
    Variant.BLANK: " \t\u00a0\u1680\u2002\u2003\u2004\u2005\u2006\u2007\u2008\u2009\u200a\u202f"
    "\u205f\u3000",
}
# a sigma at the end of a word is another small letter, and the same capital
_SIGMA = str.maketrans("ς", "σ")
#: What each sign counts as where texts may differ by all kinds, or by all but one.
_SHAPES = {
    kept: {
        ord(sign): signs[0]
        for kind, signs in _SIGNS.items()
        if kind is not kept
        for sign in signs
    }
    for kept in (None, *Variant)
}


def alike(text: str) -> str:
    """The same text for all texts that differ by these alone; their sequences stay in their order."""
    return _folded(text, None)


def any_case(text: str) -> str:
    """The same text for all texts that differ by their capitals alone: ss isn't ß."""
    return composed(text).lower().translate(_SIGMA)


def unlike(words: str, others: str) -> tuple[Variant, ...]:
    """By what two texts differ that are alike."""
    return tuple(
        kind for kind in Variant if _folded(words, kind) != _folded(others, kind)
    )


def _folded(text: str, kept: Variant | None) -> str:
    """A text without what its sequences may differ by, but for one kind."""
    text = composed(text)
    match kept:
        case Variant.CAPITALS:
            text = "".join(map(_with_plain_letters, text)).translate(_SIGMA)
        case Variant.LETTERS:
            text = text.lower()
        case _:
            text = text.casefold()
    return text.translate(_SHAPES[kept])


def _with_plain_letters(character: str) -> str:
    """The letters that are written by one that joins them, as ß and ligatures do, or that one."""
    plain = character.casefold()
    if any_case(plain) == any_case(character):
        return character
    return plain if character == character.lower() else plain.upper()


@dataclass(frozen=True)
class Hit:
    """A paragraph, its print or its braille, and the places in it of what was looked for."""

    paragraph: Paragraph
    text: str
    places: tuple[Span, ...]


@dataclass(frozen=True)
class Tally:
    """How many places were found, in how many paragraphs, and by what they differ from the words."""

    count: int = 0
    paragraphs: int = 0
    kinds: tuple[Variant, ...] = ()
    #: Whether any of them is what was looked for.
    has_same: bool = False

    def with_hit(self, hit: Hit) -> "Tally":
        """With those of another paragraph, which are what was looked for."""
        count = self.count + len(hit.places)
        return Tally(count, self.paragraphs + 1, self.kinds, has_same=True)

    def with_alike(self, hit: Hit, sought: str) -> "Tally":
        """With those of another paragraph, which are like it."""
        words = {hit.text[start:stop] for start, stop in hit.places}
        found = [unlike(sought, others) for others in words - {sought}]
        kinds = set(self.kinds).union(*found)
        its = tuple(kind for kind in Variant if kind in kinds)
        has_same = self.has_same or sought in words or () in found
        return replace(self.with_hit(hit), kinds=its, has_same=has_same)


def tallied(found: Iterable[Hit], sought: str) -> Tally:
    """How much was found."""
    tally = Tally()
    for hit in found:
        tally = tally.with_alike(hit, sought)
    return tally


def find_words(session: Session, sought: str, form: Form = composed) -> Iterator[Hit]:
    """The paragraphs in whose prints words stand, compared in a form."""
    book = session.paragraphs()
    yield from _hits(book, prints(session, book), sought, form)


def find_cells(session: Session, cells: str) -> list[Hit]:
    """The paragraphs in whose braille cells stand, for all of which the session can be asked."""
    book = session.paragraphs()
    return list(_hits(book, brailles(session, book), cells, composed))


def print_of(session: Session, hit: Hit) -> tuple[str, list[Span]]:
    """The print of a paragraph, and the places in it for which the cells stand that were found."""
    number = hit.paragraph.id
    text = session.print_of(number)
    return text, [
        words_of(session, number, place, text, hit.text) for place in hit.places
    ]


def _hits(
    book: Sequence[Paragraph], texts: Iterable[str], sought: str, form: Form
) -> Iterator[Hit]:
    """The paragraphs in whose texts something stands."""
    for paragraph, text in zip(book, texts):
        found = find_spans(text, sought, form)
        if found:
            yield Hit(paragraph, text, found)
