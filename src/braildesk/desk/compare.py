"""The print of a book beside a manuscript: the words that differ, whatever the paragraphs are there.

Long paragraphs that stand once on both sides are found first. What stands between them is compared word
by word, so that a paragraph that one side has as two differs by none.
"""

from bisect import bisect_left
from collections import Counter
from collections.abc import Collection, Iterable, Iterator, Sequence
from dataclasses import dataclass
from difflib import SequenceMatcher
from itertools import groupby, pairwise, takewhile

from braildesk import Session
from braildesk.desk.readings import prints
from braildesk.text.sequences import composed

#: How many words in a row are taken for the same place of two texts where each has them once.
_IN_A_ROW = 4
#: How many words a paragraph has at least that is taken for the same one where each text has it once: those of a
#: short one may stand in longer ones too.
_LONG = 12
#: How many pairs of words are looked at between two such places.
_MOST_PAIRS = 4_000_000
#: In how many paragraphs of each those are looked for that stand in the same order, where there are more pairs.
_PIECE = 10_000


@dataclass(frozen=True)
class Word:
    """A word of a book or of a manuscript, and where it stands there."""

    #: The number of its paragraph of the book, or the place of that of the manuscript, from 0.
    paragraph: int
    place: int
    text: str


#: A stretch of words of a text, and the stretch of another one that stands in its place: from where, and up to where.
Gap = tuple[int, int, int, int]


@dataclass(frozen=True, slots=True)
class _Side:
    """The words of one of two texts, and before which a paragraph begins, or after the last one ends."""

    words: Sequence[str]
    fronts: frozenset[int]

    @classmethod
    def of(cls, its: Sequence[Word], words: Sequence[str]) -> "_Side":
        """The words of a text as they are compared."""
        beside = enumerate(pairwise(each.paragraph for each in its), 1)
        inner = (place for place, (one, next_one) in beside if one != next_one)
        return cls(words, frozenset((0, *inner, len(words))))

    def edges(self, start: int, stop: int) -> list[int]:
        """Where the paragraphs of a stretch begin, and where that ends."""
        inner = (place for place in range(start + 1, stop) if place in self.fronts)
        return [start, *inner, stop]

    def mirrored(self) -> "_Side":
        """The words from the last one to the first."""
        count = len(self.words)
        return _Side(self.words[::-1], frozenset(count - each for each in self.fronts))


@dataclass(frozen=True)
class OtherWords:
    """Words of a paragraph of a book in place of which a manuscript has others, or none."""

    paragraph: int
    #: The place of the first of them in the print.
    place: int
    words: str
    others: str


@dataclass(frozen=True)
class LackingWords:
    """Words of a manuscript that a book lacks after a word of a paragraph, or at its front."""

    paragraph: int
    after: str
    others: str


@dataclass(frozen=True)
class LackingParagraph:
    """A paragraph of a manuscript that a book lacks after one of its own, or at its front (0)."""

    after: int
    text: str


@dataclass(frozen=True)
class ParagraphAlone:
    """A paragraph of a book of which a manuscript has nothing."""

    paragraph: int
    text: str


Difference = OtherWords | LackingWords | LackingParagraph | ParagraphAlone


def compare(session: Session, texts: Sequence[str]) -> Iterator[Difference]:
    """What differs between a book, without its struck paragraphs, and those of a manuscript."""
    its = [each for each in session.paragraphs() if not each.struck]
    pairs = zip((each.id for each in its), prints(session, its))
    return differences(list(pairs), texts)


def differences(
    book: Sequence[tuple[int, str]], texts: Sequence[str]
) -> Iterator[Difference]:
    """What differs between the numbered paragraphs of a book and those of a manuscript."""
    ours = [" ".join(text.split()) for _, text in book]
    theirs = [" ".join(text.split()) for text in texts]
    if " ".join(filter(None, ours)) == " ".join(filter(None, theirs)):
        return
    for start, stop, first, last in _stretches(ours, theirs):
        mine = [
            word for number, text in book[start:stop] for word in _words(number, text)
        ]
        other = [
            word for place in range(first, last) for word in _words(place, texts[place])
        ]
        yield from _of_stretch(book[start - 1][0] if start else 0, mine, other)


def _stretches(
    some: Sequence[str], others: Sequence[str]
) -> Iterator[tuple[int, int, int, int]]:
    """The stretches of paragraphs that aren't the same, between long ones that stand once in each text."""
    here = there = 0
    once = _pairs(some, others, 1)
    long = [pair for pair in once if some[pair[0]].count(" ") >= _LONG - 1]
    for place, other in [*_ascending(long), (len(some), len(others))]:
        ours, theirs = some[here:place], others[there:other]
        front = _alike(ours, theirs)
        end = _alike(ours[front:][::-1], theirs[front:][::-1])
        if not front + end == len(ours) == len(theirs):
            yield here + front, place - end, there + front, other - end
        here, there = place, other


def _alike(some: Sequence[str], others: Sequence[str]) -> int:
    """How many are the same at the front of both."""
    return len(list(takewhile(lambda pair: pair[0] == pair[1], zip(some, others))))


def _words(paragraph: int, text: str) -> Iterator[Word]:
    place = 0
    for word in text.split():
        place = text.index(word, place)
        yield Word(paragraph, place, word)
        place += len(word)


def _of_stretch(
    before: int, mine: Sequence[Word], other: Sequence[Word]
) -> Iterator[Difference]:
    """What differs between the words of such a stretch."""
    some = _Side.of(mine, [composed(each.text) for each in mine])
    others = _Side.of(other, [each.text for each in other])
    for start, stop, first, last in _by_paragraphs(
        some, others, _unequal(some, others)
    ):
        gone, come = mine[start:stop], other[first:last]
        gone, alone = _parted(gone, mine, start, stop, bool(come))
        come, lacking = _parted(come, other, first, last, bool(gone))
        whole = [ParagraphAlone(number, text) for number, text in _texts(alone)]
        is_after = bool(gone) and gone[0] is mine[start]
        yield from () if is_after else whole
        last_word = mine[start - 1] if start else None
        number = before if last_word is None else last_word.paragraph
        if len(gone) == len(come):
            for word, instead in zip(gone, come):
                yield OtherWords(word.paragraph, word.place, word.text, instead.text)
        elif gone:
            yield from _replaced(gone, come)
        elif come:
            begun = {each.paragraph for each in other[last : last + 1]}
            begun -= {each.paragraph for each in other[first - 1 : first] if first}
            yield from _lacking(come, mine, start, begun)
        yield from whole if is_after else ()
        for _, text in _texts(lacking):
            yield LackingParagraph(number, text)


def _lacking(
    come: Sequence[Word], mine: Sequence[Word], start: int, begun: Collection[int]
) -> Iterator[LackingWords]:
    """Words that a book lacks before one of its words, some of which may begin a paragraph that goes on with it."""
    before, after = mine[max(start - 1, 0) : start], mine[start : start + 1]
    is_front = {each.paragraph for each in before}.isdisjoint(
        each.paragraph for each in after
    )
    for number, text in _texts(come):
        if after and is_front and number in begun or not before:
            yield LackingWords(mine[start].paragraph, "", text)
        else:
            yield LackingWords(before[0].paragraph, before[0].text, text)


def _parted(
    words: Sequence[Word],
    all_words: Sequence[Word],
    start: int,
    stop: int,
    has_others: bool,
) -> tuple[Sequence[Word], Sequence[Word]]:
    """Words that differ: those within paragraphs, and those of whole paragraphs.

    If there are none of the first, and words on the other side, all of them count as the first.
    """
    whole = {*_whole(words, all_words, start, stop)}
    within = [each for each in words if each.paragraph not in whole]
    if has_others and not within:
        return words, []
    return within, [each for each in words if each.paragraph in whole]


def _unequal(some: _Side, others: _Side) -> Iterator[Gap]:
    """The stretches of words in which two texts differ.

    Words that stand in the same order, and so just once in each, part long texts into short ones.
    """
    here = there = 0
    anchors = _ascending(_pairs(some.words, others.words, _IN_A_ROW))
    for place, other in [*anchors, (len(some.words), len(others.words))]:
        if (place - here) * (other - there) > _MOST_PAIRS:
            yield from _unequal_in_paragraphs(some, others, here, place, there, other)
        else:
            yield from _unequal_in(some, others, here, place, there, other)
        here, there = place, other


def _unequal_in(
    some: _Side, others: _Side, start: int, stop: int, first: int, last: int
) -> Iterator[Gap]:
    """The same within a stretch of each."""
    if (stop - start) * (last - first) > _MOST_PAIRS:
        # nothing of the one is found in the other
        yield start, stop, first, first
        yield stop, stop, first, last
        return
    ours, theirs = some.words[start:stop], others.words[first:last]
    matched = SequenceMatcher(None, ours, theirs, autojunk=False)
    for kind, front, end, other, after in matched.get_opcodes():
        if kind != "equal":
            yield start + front, start + end, first + other, first + after


def _unequal_in_paragraphs(
    some: _Side, others: _Side, start: int, stop: int, first: int, last: int
) -> Iterator[Gap]:
    """The same within long stretches, between paragraphs that are the same."""
    ours, theirs = some.edges(start, stop), others.edges(first, last)
    mine = [" ".join(some.words[front:end]) for front, end in pairwise(ours)]
    its = [" ".join(others.words[front:end]) for front, end in pairwise(theirs)]
    here = there = 0
    for place, other in [*_longest_in_pieces(mine, its), (len(mine), len(its))]:
        if place > here or other > there:
            edges = ours[here], ours[place], theirs[there], theirs[other]
            yield from _unequal_in(some, others, *edges)
        here, there = place + 1, other + 1


def _by_paragraphs(some: _Side, others: _Side, gaps: Iterable[Gap]) -> list[Gap]:
    """The same, but that words are those of the same paragraph if they may be, and not of the one beside it."""
    sizes = len(some.words), len(others.words)
    back = _set_back(some, others, gaps)
    its = _set_back(some.mirrored(), others.mirrored(), _mirrored(back, *sizes))
    return [*_mirrored(its, *sizes)]


def _mirrored(gaps: Sequence[Gap], count: int, other_count: int) -> Iterator[Gap]:
    for start, stop, first, last in reversed(gaps):
        yield count - stop, count - start, other_count - last, other_count - first


def _set_back(some: _Side, others: _Side, gaps: Iterable[Gap]) -> list[Gap]:
    """The same, each of which begins earlier where the words before it begin a paragraph in it too."""
    found: list[Gap] = []
    end = 0
    for gap in gaps:
        found += _divided(some, others, gap, gap[0] - end)
        end = gap[1]
    return found


def _divided(some: _Side, others: _Side, gap: Gap, most: int) -> Iterator[Gap]:
    """The parts of a gap, before which so many words are the same."""
    start, stop, first, last = gap
    counts = range(1, most + 1)
    fronts = (
        each
        for each in counts
        if start - each in some.fronts or first - each in others.fronts
    )
    count = next(fronts, 0)
    is_ours, is_theirs = start - count in some.fronts, first - count in others.fronts
    if count and is_theirs and not is_ours:
        place = _front_of(others.words[first - count : first], some, start, stop)
        if place >= 0:
            yield start - count, place, first - count, first - count
            start = place + count
    elif count and is_ours and not is_theirs:
        place = _front_of(some.words[start - count : start], others, first, last)
        if place >= 0:
            yield start - count, start - count, first - count, place
            first = place + count
    if start < stop or first < last:
        yield start, stop, first, last


def _front_of(words: Sequence[str], side: _Side, start: int, stop: int) -> int:
    """Where in a stretch the last paragraph begins that begins with some words; -1 if none does."""
    for place in range(stop - len(words), start - 1, -1):
        if place in side.fronts and side.words[place : place + len(words)] == words:
            return place
    return -1


def _longest_in_pieces(
    some: Sequence[str], others: Sequence[str]
) -> Iterator[tuple[int, int]]:
    """The places of the most paragraphs that stand in the same order in each piece of two texts."""
    for front in range(0, max(len(some), len(others)), _PIECE):
        end = front + _PIECE
        for place, other in _longest(some[front:end], others[front:end]):
            yield front + place, front + other


def _longest(some: Sequence[str], others: Sequence[str]) -> list[tuple[int, int]]:
    """The places of the most that stand in the same order in both.

    A row has a bit for each of the others: it is 0 where that makes the longest order longer.
    """
    places: dict[str, int] = {}
    for nth, each in enumerate(others):
        places[each] = places.get(each, 0) | 1 << nth
    row = whole = (1 << len(others)) - 1
    rows = [whole]
    for each in some:
        found = row & places.get(each, 0)
        row = (row + found | row - found) & whole
        rows.append(row)
    pairs: list[tuple[int, int]] = []
    place, other = len(some), len(others)
    while place and other:
        if rows[place] >> other - 1 & 1:
            other -= 1
            continue
        place -= 1
        if rows[place] >> other - 1 & 1:
            other -= 1
            pairs.append((place, other))
    return pairs[::-1]


def _pairs(
    some: Sequence[str], others: Sequence[str], count: int
) -> list[tuple[int, int]]:
    """The places of words, so many in a row, that stand once in each text."""
    ours, there = _once(some, count), _once(others, count)
    return [(place, there[row]) for row, place in ours.items() if row in there]


def _ascending(pairs: Sequence[tuple[int, int]]) -> list[tuple[int, int]]:
    """The longest chain of pairs in which the second places ascend as the first do."""
    tops: list[int] = []
    ends: list[int] = []
    before: list[int] = []
    for nth, (_, other) in enumerate(pairs):
        length = bisect_left(tops, other)
        before.append(ends[length - 1] if length else -1)
        tops[length : length + 1] = [other]
        ends[length : length + 1] = [nth]
    found: list[tuple[int, int]] = []
    nth = ends[-1] if ends else -1
    while nth >= 0:
        found.append(pairs[nth])
        nth = before[nth]
    return found[::-1]


def _once(words: Sequence[str], count: int) -> dict[tuple[str, ...], int]:
    """The rows of so many words that stand once in a text, in their order, with their places."""
    rows = list(zip(*(words[place:] for place in range(count))))
    counts = Counter(rows)
    return {row: place for place, row in enumerate(rows) if counts[row] == 1}


def _whole(
    gone: Sequence[Word], words: Sequence[Word], start: int, stop: int
) -> Iterator[int]:
    """The paragraphs all of whose words are among those from one place to another."""
    beside = {
        *(each.paragraph for each in words[start - 1 : start] if start),
        *(each.paragraph for each in words[stop : stop + 1]),
    }
    for number in dict.fromkeys(each.paragraph for each in gone):
        if number not in beside:
            yield number


def _texts(words: Sequence[Word]) -> Iterator[tuple[int, str]]:
    """The paragraphs of words that stand beside one another, and the words of each."""
    for number, its in groupby(words, lambda each: each.paragraph):
        yield number, " ".join(each.text for each in its)


def _replaced(gone: Sequence[Word], come: Sequence[Word]) -> Iterator[OtherWords]:
    """Words that stand for others, of each paragraph those that it has."""
    others = " ".join(each.text for each in come)
    places = {each.paragraph: each.place for each in reversed(gone)}
    for number, words in _texts(gone):
        yield OtherWords(number, places[number], words, others)
        # the words of the manuscript are told once
        others = ""
