"""Rules that would set an example right, or a part of it.

A rule begins where both liblouis and the table begin a piece, at the first wrong choice or shortly
before it, and ends where liblouis begins one. Its cells are liblouis's, and it is bound to its place
or to none.
"""

from __future__ import annotations

from collections.abc import Iterator
from dataclasses import dataclass
from typing import Final

from braildesk.tables.convert.chooser import ALWAYS, WORD, Choice, Chooser, Rule
from braildesk.tables.convert.draft import MOST_CHARACTERS
from braildesk.tables.convert.examples import NOWHERE, Example
from braildesk.tables.convert.operands import MOST_CELLS
from braildesk.tables.operands import Cells

LONGEST: Final = 20
"""How many characters of a token a rule covers at most, but one that is the whole token."""

BEGINNINGS: Final = 5
"""At how many of the last choices up to the wrong one a rule may begin."""

SHORTEST_LINK: Final = 2
"""The characters of the shortest rule of a chain; one for a single letter would spoil other tokens."""

Proposal = tuple[Rule, bool]
"""A rule, and whether nothing of the example is wrong with it."""


@dataclass(frozen=True)
class _Beginning:
    """A place where a rule may begin, with what the table chooses there."""

    start: int
    end: int
    kind: str | None


def proposals(
    chooser: Chooser, example: Example, of_list: bool = False
) -> Iterator[Proposal]:
    """The rules for an example that isn't right, which is of a list of words or of a text."""
    wrong, beginnings = _up_to_wrong(example)
    rest_is_right: dict[int, bool] = {}
    for beginning in beginnings[-BEGINNINGS:]:
        if beginning.start < example.first:
            continue
        sign = example.seen.sign(beginning.start)
        for end in _ends(example, beginning, wrong):
            cells = _cells_between(example, beginning.start, end, sign)
            if cells is None:
                continue
            if end not in rest_is_right:
                rest = chooser.cells(example.seen, end)
                rest_is_right[end] = rest == example.wanted[example.starts[end] :]
            characters = example.seen.folded[beginning.start : end]
            for kind in _kinds(example, beginning, end, of_list):
                yield (kind, characters, cells), rest_is_right[end]
    if beginnings and beginnings[0].start == 0:
        yield from _as_word(example)


def _up_to_wrong(example: Example) -> tuple[int, list[_Beginning]]:
    """The place of the first wrong choice, and the places up to it where a rule may begin."""
    beginnings: list[_Beginning] = []
    at = 0
    for start, end, cells, kind in example.choices:
        if example.starts[start] == at:
            beginnings.append(_Beginning(start, end, kind))
        after = at + len(cells)
        if example.wanted[at:after] != cells or example.starts[end] not in (
            NOWHERE,
            after,
        ):
            return start, beginnings
        at = after
    return _start(example.choices[-1]), beginnings


def _start(choice: Choice) -> int:
    return choice[0]


def _ends(example: Example, beginning: _Beginning, wrong: int) -> Iterator[int]:
    """Where a rule may end: beyond the wrong place, and not before a longer one that is there."""
    start = beginning.start
    reach = start + min(LONGEST, example.seen.room(start))
    for end in range(max(wrong + 1, beginning.end), min(example.last, reach) + 1):
        if example.starts[end] != NOWHERE:
            yield end


def _cells_between(example: Example, start: int, end: int, sign: Cells) -> Cells | None:
    """The cells of a rule, which the sign at its first place isn't part of."""
    first, last = example.starts[start], example.starts[end]
    cells = example.wanted[first:last]
    if cells[: len(sign)] != sign or not 1 <= len(cells) - len(sign) <= MOST_CELLS:
        return None
    return cells[len(sign) :]


def _kinds(
    example: Example, beginning: _Beginning, end: int, of_list: bool
) -> Iterator[str]:
    """The kinds that a rule may have: that of its place, and for all places."""
    characters = example.seen.folded[beginning.start : end]
    own = example.seen.kind(beginning.start, end)
    if " " in characters and (of_list or not _is_sure(characters, own)):
        return
    if own is not None:
        yield own
    is_chosen = end > beginning.end or beginning.kind in (None, ALWAYS)
    # a word that stands alone doesn't show what its letters are within another, nor a list what a
    # mark is in a text
    is_for_all = own != WORD if characters.isalpha() else own is None or not of_list
    if is_chosen and is_for_all and " " not in characters.strip(" "):
        yield ALWAYS


def _is_sure(characters: str, kind: str | None) -> bool:
    """Whether examples show what a rule with a blank does.

    Words stand there without blanks, unless marks are at their ends, and with a neighbour only
    if it matters.
    """
    inner = characters.strip(" ")
    if not inner or characters[0] == " " and inner[0].isalpha():
        return False
    if characters[-1] == " " and inner[-1].isalpha():
        return False
    return " " not in inner or kind == WORD


def _as_word(example: Example) -> Iterator[Proposal]:
    """The whole token as a word, which is right whatever stands beside it."""
    whole = len(example.seen.text)
    sign = example.seen.sign(0)
    if " " in example.seen.text or whole > MOST_CHARACTERS:
        return
    if example.seen.room(0) < whole or example.choices[0][1] > whole:
        return
    cells = _cells_between(example, 0, whole, sign)
    if cells is not None:
        yield (WORD, example.seen.folded, cells), True


Chain = dict[tuple[str, str], Cells]
"""Rules by their kinds and characters, one after another."""


def chains(example: Example) -> Iterator[Chain]:
    """Rules one after another that write a token: each as long as it may be, or all about as long.

    Liblouis writes some tokens by a way of their own, as addresses, and a rule has few cells. What
    stands beside a digit has no kind of its own, so such a token has no chain. What is left for the
    last rule, if the others are long, is often a piece that other tokens have too. A chain that
    begins with the blank before the token goes before rules that begin with the token.
    """
    for start in dict.fromkeys((_front(example), example.first)):
        for evenness in (0, 1):
            found = _chain(example, start, evenness)
            if found:
                yield found


def _chain(example: Example, first: int, evenness: int) -> Chain:
    """The chain of fewest rules: of these the one whose first rules are longest, or most even."""
    last = len(example.seen.text) - _front(example)
    chosen = {start: end for start, end, *_ in example.choices}
    costs: dict[int, tuple[int, int]] = {last: (0, 0)}
    rules: dict[int, tuple[str, int, Cells]] = {}
    for start in range(last - 1, first - 1, -1):
        # a shorter rule than what is chosen there now wouldn't be
        for end in range(
            _farthest(example, start), chosen.get(start, start + 1) - 1, -1
        ):
            rule = _link(example, start, end) if end in costs else None
            if rule is None:
                continue
            count, unevenness = costs[end]
            cost = count + 1, unevenness + evenness * (end - start) ** 2
            if start not in costs or cost < costs[start]:
                costs[start], rules[start] = cost, rule
    found: Chain = {}
    start = first
    while start in rules:
        kind, end, cells = rules[start]
        found[kind, example.seen.folded[start:end]] = cells
        start = end
    return found


def _link(example: Example, start: int, end: int) -> tuple[str, int, Cells] | None:
    """The rule of a chain from one place to another, with its end."""
    kind = example.seen.kind(start, end)
    if kind is None or end - start < SHORTEST_LINK:
        return None
    if NOWHERE in (example.starts[start], example.starts[end]):
        return None
    characters = example.seen.folded[start:end]
    if " " in characters and not _is_sure(characters, kind):
        return None
    cells = _cells_between(example, start, end, example.seen.sign(start))
    return None if cells is None else (kind, end, cells)


def _front(example: Example) -> int:
    """Where the token begins, without the blank beside it, which is as far from the end."""
    return example.first + (example.first > 0)


def _farthest(example: Example, start: int) -> int:
    """Where a rule of a chain may end at most: at the token's end, or before the next sign."""
    end = len(example.seen.text) - _front(example)
    return min(end, start + min(MOST_CHARACTERS, example.seen.room(start)))
