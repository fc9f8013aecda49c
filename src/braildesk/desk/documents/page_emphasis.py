"""The words of a page that its style sheets alone emphasize, raise or lower, of which pandoc knows nothing; and what is
lost within words that are shown as they are written, as is known of all others.
"""

import re
from collections.abc import Collection, Iterator, Mapping, Sequence
from dataclasses import dataclass
from itertools import islice

from braildesk.desk.documents.markup import BLOCKS, PARTED
from braildesk.desk.documents.reading import Loss, LossKind, plain
from braildesk.desk.documents.tree import without_scheme, words_around

#: What is emphasized by itself, or stands above or below the line, as pandoc knows.
_KNOWN = {
    **dict.fromkeys("b del em i ins s strong strike u".split(), LossKind.EMPHASIS),
    "sub": LossKind.SUBSCRIPT,
    "sup": LossKind.SUPERSCRIPT,
}
#: Some small capitals that it knows: those of this element by this class, or by its own style.
_SMALL, _SMALL_CLASS = "span", "smallcaps"
_LINK, _PARAGRAPH = "a", "p"
#: Headings, which are bold and the like as such, and are struck out as any words are.
_HEADS = frozenset("h1 h2 h3 h4 h5 h6".split())
#: Blocks that have their words in paragraphs of their own too; a paragraph has none within it.
_WHOLE = BLOCKS - _HEADS - {_PARAGRAPH, "th"}
_STRUCK = "line-through"
#: What declarations say of words that are emphasized.
_EMPHASIZED = {
    "font-style": re.compile("italic|oblique"),
    "font-weight": re.compile("bold(er)?|[6-9]00"),
    "font-variant": re.compile("small-caps"),
    "text-decoration": re.compile("underline|line-through"),
    "text-transform": re.compile("uppercase"),
}
#: What they say of words that are plain though those around them aren't; a line goes on below such words.
_PLAIN = {
    "font-style": frozenset({"normal"}),
    "font-weight": frozenset("normal lighter 100 200 300 400 500".split()),
    "font-variant": frozenset({"normal"}),
    "text-transform": frozenset("none lowercase capitalize".split()),
}
_PLACES = {"super": LossKind.SUPERSCRIPT, "sub": LossKind.SUBSCRIPT}
#: How many characters are shown of such words, and how many pieces are looked at for them.
_SHOWN = 60
#: How many texts of a block are looked at for its first words.
_MOST_TEXTS = 1_000
#: How many characters of a piece are looked at, which may be the same for many elements.
_FRONT = 200


@dataclass(frozen=True, slots=True)
class Emphasized:
    """An element of a page of which a sheet, or it itself, says how it is shown."""

    tag: str
    values: Mapping[str, str]
    #: What it says itself, with its classes.
    own: frozenset[str]
    #: Whether it is a link or within one, and whether it is within a heading or the head of a column.
    is_in_link: bool
    is_in_head: bool
    #: Whether it is within words that are shown as they are written, and where it leads, if it is a link.
    is_as_written: bool
    address: str | None


@dataclass(slots=True)
class _Open:
    """Words that are open: their element, how many are around it, what is lost of them, and by which declarations."""

    element: Emphasized
    depth: int
    what: LossKind
    names: frozenset[str]
    #: Their first text, and the piece of it with which those begin that aren't plain; None in words that are.
    text: int
    piece: int | None

    @property
    def is_whole(self) -> bool:
        """Whether it is all of a block that is no paragraph."""
        return self.element.tag in _WHOLE and self.what is LossKind.EMPHASIS

    @property
    def is_struck(self) -> bool:
        """Whether it is struck out."""
        return _STRUCK in self.element.values.get("text-decoration", "").split()


class PageEmphasis:
    """What is found of such words while a page is read."""

    def __init__(self) -> None:
        #: What, its words, and the text and the piece of that with which it begins.
        self._found: list[tuple[LossKind, str, int, int]] = []
        self._open: list[_Open] = []
        #: The elements whose words are plain in what is open: how many are around each, and that.
        self._plain: list[tuple[int, list[_Open]]] = []
        #: The texts that are headings.
        self._heads: set[int] = set()

    def begin(
        self, element: Emphasized, depth: int, texts: Sequence[Sequence[str]], seam: str
    ) -> None:
        """Notes an element within so many others, whose text is the next one if it is a block."""
        is_next = element.tag in BLOCKS
        text, piece = (len(texts), 0) if is_next else (len(texts) - 1, len(texts[-1]))
        values = element.values
        off = {name for name, said in _PLAIN.items() if values.get(name, "") in said}
        its = [
            each
            for each in islice(reversed(self._open), _SHOWN)
            if each.names <= off
            if (each.is_whole or each.text == text) and each.piece is not None
        ]
        for each in its:
            self._end(each, texts, seam)
            each.piece = None
        if its:
            self._plain.append((depth, its))
        found: dict[LossKind, set[str]] = {}
        for what, name in _lost(element):
            found.setdefault(what, set()).add(name)
        for what, names in found.items():
            its_names = frozenset(names)
            self._open.append(_Open(element, depth, what, its_names, text, piece))

    def note_heading(self, text: int) -> None:
        """Notes a text that is a heading."""
        self._heads.add(text)

    def note_picture(self, texts: Sequence[Sequence[str]]) -> None:
        """Notes a picture that has no description, at the end of the text."""
        place = len(texts) - 1, len(texts[-1])
        self._found.append((LossKind.PICTURE, "", *place))

    def end(self, depth: int, texts: Sequence[Sequence[str]], seam: str) -> None:
        """Notes that no more elements are open than so many; the seams of texts aren't shown."""
        while self._plain and depth <= self._plain[-1][0]:
            for each in self._plain.pop()[1]:
                each.text = len(texts) - 1 if each.is_whole else each.text
                each.piece = len(texts[each.text])
        while self._open and depth <= self._open[-1].depth:
            self._end(self._open.pop(), texts, seam)

    def _end(self, its: _Open, texts: Sequence[Sequence[str]], seam: str) -> None:
        """Notes the words that are open up to the end of their text, if there are any."""
        text, piece = its.text, its.piece
        if piece is None:
            return
        if its.is_whole:
            text, piece = self._first(its, texts, seam)
        pieces = texts[text][piece : piece + _SHOWN]
        is_as_written = its.element.is_as_written
        is_number = (
            its.what in _PLACES.values() and not is_as_written and seam in pieces
        )
        joined = "".join(each[:_FRONT] for each in pieces)
        words = plain(joined.replace(seam, "").replace("\n", " "))
        address = its.element.address if its.what is LossKind.LINK else None
        is_said = address is not None and words in (address, without_scheme(address))
        if words and not is_number and not is_said:
            self._found.append((its.what, words[:_SHOWN], text, piece))

    def _first(
        self, its: _Open, texts: Sequence[Sequence[str]], seam: str
    ) -> tuple[int, int]:
        """The first text of a block that has words, and the piece with which they begin; headings are as they are."""
        piece = its.piece or 0
        heads: Collection[int] = () if its.is_struck else self._heads
        for text in range(its.text, min(its.text + _MOST_TEXTS, len(texts))):
            pieces = texts[text][piece : piece + _SHOWN]
            words = (plain(each.replace(seam, "")) for each in pieces)
            if text not in heads and any(words):
                return text, piece
            piece = 0
        return its.text, len(texts[its.text])

    def losses(self, texts: Sequence[Sequence[str]], seam: str) -> Iterator[Loss]:
        """What was found, each with the words around it in its text."""
        for what, words, text, piece in self._found:
            first = max(piece - _SHOWN, 0)
            outer = [each[-_FRONT:] for each in texts[text][first:piece]]
            inner = [each[:_FRONT] for each in texts[text][piece : piece + _SHOWN]]
            before, its = ("".join(each).replace(seam, "") for each in (outer, inner))
            start = len(before) + len(its) - len(its.lstrip())
            around = words_around(before + its, start, start + len(words))
            if what is LossKind.PICTURE and not around:
                # one that stands alone is found by the words before it
                around = _last_words(texts[max(text - _SHOWN, 0) : text], seam)
            is_front = not before.strip() and len(words) == _SHOWN
            yield Loss(what, words, words if is_front else around)


def _last_words(texts: Sequence[Sequence[str]], seam: str) -> str:
    """The last words of some texts."""
    joined = ("".join(each).replace(seam, "") for each in reversed(texts))
    last = next((text for text in joined if text.strip()), "")
    return words_around(last, len(last), len(last))


def _lost(element: Emphasized) -> Iterator[tuple[LossKind, str]]:
    """What of an element is lost, and the name of the declaration that says it."""
    tag, own, values = element.tag, element.own, element.values
    is_within_line = tag not in BLOCKS | PARTED | _KNOWN.keys()
    if element.is_as_written and tag in _KNOWN:
        yield _KNOWN[tag], tag
    if element.is_as_written and not (element.address or "#").startswith("#"):
        yield LossKind.LINK, tag
    # of a link to a note the number is typed in brackets
    place = _PLACES.get(values.get("vertical-align", ""))
    if place and is_within_line and not element.is_in_link:
        yield place, "vertical-align"
    for name, emphasized in _EMPHASIZED.items():
        is_usual = tag == _LINK and name == "text-decoration"
        is_usual |= tag == _SMALL and name == "font-variant" and name in own
        is_usual |= _SMALL_CLASS in own and name == "font-variant"
        is_bold_head = element.is_in_head and name == "font-weight"
        is_whole = tag in {_PARAGRAPH} | _WHOLE and not is_bold_head
        said = values.get(name, "").split()
        is_any = any(map(emphasized.fullmatch, said))
        if is_whole or is_within_line and not is_usual:
            yield from [(LossKind.EMPHASIS, name)] * is_any
        elif tag in _HEADS and _STRUCK in said:
            yield LossKind.EMPHASIS, name
