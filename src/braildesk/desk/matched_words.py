"""Words put beside those that come in place of them, the words of marks first."""

from bisect import bisect_left, bisect_right
from collections import Counter
from collections.abc import Iterable, Iterator, Sequence
from itertools import takewhile

from braildesk.text.spans import Span

#: So many words on each side of a word say how sure it is that it stayed.
_MOST_BESIDE = 10
#: Some words, those that are in place of them, both counted from 0, and whether they are the same.
Match = tuple[Span, Span, bool]
#: A pair of places, and those before it.
_Row = tuple[tuple[int, int], "_Row | None"]


def sure_matches(
    some: Sequence[str],
    others: Sequence[str],
    starts: Sequence[int],
    other_starts: Sequence[int],
    marked: Sequence[int],
) -> list[Match]:
    """Marked words that are there once on both sides, beside each other, and all between these.

    They are put so first with the signs at which no blank is. Between blanks stands what begins at
    one of the starts.
    """
    its = [bisect_right(starts, nth) - 1 for nth in marked]
    wholes, other_wholes = _wholes(some, starts), _wholes(others, other_starts)
    ends, other_ends = [*starts, len(some)], [*other_starts, len(others)]
    found = list[Match]()
    for run, other, is_same in _sure_first(wholes, other_wholes, dict.fromkeys(its)):
        one = Span(ends[run.start], ends[run.stop])
        two = Span(other_ends[other.start], other_ends[other.stop])
        if is_same:
            found.append((one, two, True))
            continue
        mine, theirs = some[one.start : one.stop], others[two.start : two.stop]
        nths = [nth - one.start for nth in marked if one.start <= nth < one.stop]
        for left, right, is_same in _sure_first(mine, theirs, nths):
            found.append((_on(left, one.start), _on(right, two.start), is_same))
    return found


def finer(
    some: Sequence[str], others: Sequence[str], matches: Iterable[Match]
) -> Iterator[Match]:
    """Matches, with the words that stay found by `difflib` in those that aren't of the same words."""
    from difflib import SequenceMatcher  # which few edits need

    for one, two, is_same in matches:
        if is_same:
            yield one, two, True
            continue
        mine, theirs = some[one.start : one.stop], others[two.start : two.stop]
        found = SequenceMatcher(None, mine, theirs, autojunk=False)
        for what, start, stop, to, end in found.get_opcodes():
            its, there = Span(start, stop), Span(to, end)
            yield _on(its, one.start), _on(there, two.start), what == "equal"


def steps(some: Sequence[str], others: Sequence[str], matches: Iterable[Match]) -> int:
    """How many steps it takes at most to find them."""
    count = 0
    for one, two, is_same in matches:
        if not is_same:
            counts = Counter(others[two.start : two.stop])
            its = some[one.start : one.stop]
            pairs = sum(counts[word] for word in its)
            count += sum(word in counts for word in its) * (len(its) + pairs)
    return count


def is_sign(word: str) -> bool:
    """Whether a word is of no letters and digits."""
    return not any(map(str.isalnum, word))


def _wholes(words: Sequence[str], starts: Sequence[int]) -> list[str]:
    """The words and signs between blanks."""
    stops = [*starts[1:], len(words)]
    return ["".join(words[start:stop]) for start, stop in zip(starts, stops)]


def _on(span: Span, by: int) -> Span:
    """A span so much further on."""
    return Span(span.start + by, span.stop + by)


def _sure_first(
    some: Sequence[str], others: Sequence[str], marked: Iterable[int]
) -> Iterator[Match]:
    """The marked words that are there once on both sides, and all that is between these."""
    here = there = 0
    for one, other in (*_sure(some, others, marked), (len(some), len(others))):
        if here < one or there < other:
            yield Span(here, one), Span(there, other), False
        if one < len(some):
            yield Span(one, one + 1), Span(other, other + 1), True
        here, there = one + 1, other + 1


def _sure(
    some: Sequence[str], others: Sequence[str], marked: Iterable[int]
) -> list[tuple[int, int]]:
    """The places of the marked words that are there once on both sides.

    Of those that change their order, these are the ones beside which the most words stay too.
    """
    counts, other_counts = Counter(some), Counter(others)
    places = {word: place for place, word in enumerate(others)}
    # the last places of the rows that weigh the most so far, what these weigh, and their pairs
    ends, weights, rows = list[int](), list[int](), list[_Row]()
    for one in marked:
        if not counts[some[one]] == other_counts[some[one]] == 1:
            continue
        other = places[some[one]]
        nth = bisect_left(ends, other)
        weight = _beside(some, others, one, other) + (weights[nth - 1] if nth else 0)
        row = (one, other), rows[nth - 1] if nth else None
        lighter = slice(nth, bisect_right(weights, weight, nth))
        ends[lighter], weights[lighter], rows[lighter] = [other], [weight], [row]
    found, last = list[tuple[int, int]](), rows[-1] if rows else None
    while last is not None:
        found.append(last[0])
        last = last[1]
    return found[::-1]


def _beside(some: Sequence[str], others: Sequence[str], one: int, other: int) -> int:
    """How many words stay that stand together with one, that one among them."""
    ahead = zip(some[one : one + _MOST_BESIDE], others[other : other + _MOST_BESIDE])
    front = some[max(one - _MOST_BESIDE, 0) : one]
    before = others[max(other - _MOST_BESIDE, 0) : other]
    return sum(
        sum(1 for _ in takewhile(lambda pair: pair[0] == pair[1], pairs))
        for pairs in (ahead, zip(reversed(front), reversed(before)))
    )
