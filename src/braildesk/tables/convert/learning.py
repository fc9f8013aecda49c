"""Rules learned from examples: those that set most of them right and few wrong.

In each round rules are proposed for the examples that are wrong, and those are added that gain
enough: the weights of the examples that a rule sets right, less those of the ones that it would set
wrong, these counted higher. Rounds ask for less and less, so that few rules for many words come first
and rules for a single word last. After each round what was added is tried, and what set no more right
than wrong is taken back for good.
"""

from __future__ import annotations

import heapq
from collections import defaultdict
from collections.abc import Iterable, Iterator, Mapping, Sequence
from typing import Final

from braildesk.tables.convert.chooser import ALWAYS, WORD, Chooser, Rule
from braildesk.tables.convert.examples import NOWHERE, Example, Progress
from braildesk.tables.convert.proposals import chains, proposals
from braildesk.tables.operands import Cells

PENALTY: Final = 1.5
"""How much more an example counts that a rule sets wrong."""

IN_PART: Final = 0.5
"""The share of an example's weight that counts if another mistake is left in it."""

LIST_ROUNDS: Final = (100, 50, 20, 10, 5, 3, 2, 1, 1, 0.3)
JOINED_ROUNDS: Final = (20, 5, 2, 1)
BOOK_ROUNDS: Final = (20, 5, 2, 1, 1, 0.6, 0.6)
"""The least gain of a rule in each round: with a list of words, with tokens made of them, and with a book."""

_WORDS_LAST: Final = 30
"""The length that a rule for a whole word counts as, so that of equal ones a piece comes first."""

_NEARLY: Final = 1e-9

Learned = dict[tuple[str, str], Cells]
"""Rules by their kinds and characters."""


class Learner:
    """Adds rules to a chooser by examples.

    The tokens of a list stand in no text. So a rule of theirs covers no blank, and one with a mark is
    for its place alone, since for all places it would keep longer rules from beginning with the mark.
    """

    def __init__(
        self,
        chooser: Chooser,
        examples: Sequence[Example],
        most: int,
        of_list: bool = False,
    ) -> None:
        self._chooser: Final = chooser
        self._examples: Final = examples
        self._occurrences: Final = Occurrences(examples)
        self._most: Final = most
        self._of_list: Final = of_list
        self._rejected: set[Rule] = set()
        self._lost: dict[Rule, float] = {}

    def learn(self, rounds: Sequence[float], progress: Progress) -> Learned:
        """The rules that were added, round by round."""
        learned: Learned = {}
        for done, least in enumerate(rounds):
            progress(done, len(rounds))
            learned |= self._round(least)
        progress(len(rounds), len(rounds))
        return learned

    def learn_chains(self, examples: Iterable[Example]) -> Learned:
        """Rules that write a token together, as a long address, of which each alone sets nothing right."""
        learned: Learned = {}
        for example in examples:
            found = () if example.is_right else chains(example)
            for rules in found:
                has_room = len(self._chooser) + len(rules) <= self._most
                if has_room and self._set_more_right(rules):
                    learned |= rules
                    break
        return learned

    def _set_more_right(self, rules: Learned) -> bool:
        """Adds rules, unless they set more wrong than right, all of them counted together.

        What is wrong is tried first. After that nothing is gained any more, so the trial ends where all
        of the gain is lost.
        """
        older = {key: self._chooser.cells_of(*key) for key in rules}
        touched = sorted(self._touched(rules), key=lambda one: one.is_right)
        tried = []
        gain = 0.0
        for key, cells in rules.items():
            self._chooser.add((*key, cells))
        for example in touched:
            was_right = example.is_right
            if was_right and gain <= 0:
                break
            example.choose(self._chooser)
            tried.append(example)
            if example.is_right != was_right:
                gain += example.weight if not was_right else -PENALTY * example.weight
        if gain > 0:
            return True
        for key, cells_before in older.items():
            self._chooser.put_back(*key, cells_before)
        self._choose(tried)
        return False

    def _round(self, least: float) -> Learned:
        gains, helped = self._gains()
        # what an earlier round found to be lost is enough to leave most rules out
        worth = self._worth(gains, least)
        for rule, gain in worth.items():
            self._lost[rule] = self._loss(rule, (gain - least) / PENALTY)
        worth = self._worth(worth, least)
        order = _Order(worth, self._lost, helped, least)
        chosen = order.best(self._most - len(self._chooser))
        return self._tried(chosen) if chosen else {}

    def _worth(self, gains: Mapping[Rule, float], least: float) -> dict[Rule, float]:
        """The rules that gain enough, for all that is known of what they lose."""
        return {
            rule: gain
            for rule, gain in gains.items()
            if gain - PENALTY * self._lost.get(rule, 0) >= least
        }

    def _gains(self) -> tuple[Mapping[Rule, float], Mapping[Rule, list[Example]]]:
        """What each proposed rule gains, and the examples that it is for."""
        gains: dict[Rule, float] = defaultdict(float)
        helped: dict[Rule, list[Example]] = defaultdict(list)
        for example in self._examples:
            if example.is_right:
                continue
            seen = set()
            for rule, is_right in proposals(self._chooser, example, self._of_list):
                if rule in seen or rule in self._rejected or self._has(rule):
                    continue
                seen.add(rule)
                share = 1 if is_right else IN_PART
                gains[rule] += share * example.weight
                helped[rule].append(example)
        return gains, helped

    def _has(self, rule: Rule) -> bool:
        kind, characters, cells = rule
        return self._chooser.cells_of(kind, characters) == cells

    def _loss(self, rule: Rule, most: float) -> float:
        """What the examples that are right would lose by a rule, as far as it isn't more than so much."""
        lost = 0.0
        for example in self._occurrences.of(rule[1]):
            if example.is_right and _spoils(rule, example):
                lost += example.weight
                if lost > most + _NEARLY:
                    break
        return lost

    def _tried(self, chosen: Learned) -> Learned:
        """Adds rules, and takes back those that set no more right than wrong."""
        older = {key: self._chooser.cells_of(*key) for key in chosen}
        touched = self._touched(chosen)
        before = [example.is_right for example in touched]
        for key, cells in chosen.items():
            self._chooser.add((*key, cells))
        self._choose(touched)
        net = _net(touched, before, chosen)
        kept = {key: cells for key, cells in chosen.items() if net.get(key, 0) > 0}
        for key in chosen.keys() - kept.keys():
            self._rejected.add((*key, chosen[key]))
            self._chooser.put_back(*key, older[key])
        if len(kept) < len(chosen):
            self._choose(touched)
        return kept

    def _touched(self, rules: Learned) -> list[Example]:
        """The examples in which one of some rules would be chosen. By these no other can change."""
        found: dict[Example, None] = {}
        for (kind, characters), cells in rules.items():
            rule = kind, characters, cells
            for example in self._occurrences.of(characters):
                if example not in found and any(_choosing(rule, example)):
                    found[example] = None
        return [*found]

    def _choose(self, examples: Iterable[Example]) -> None:
        for example in examples:
            example.choose(self._chooser)


class _Order:
    """Rules in the order of what they gain, so that what one deals with is no gain of another."""

    def __init__(
        self,
        gains: Mapping[Rule, float],
        lost: Mapping[Rule, float],
        helped: Mapping[Rule, Sequence[Example]],
        least: float,
    ) -> None:
        self._lost: Final = {rule: PENALTY * lost[rule] for rule in gains}
        self._helped: Final = helped
        self._least: Final = least
        self._heap = [
            (self._lost[rule] - gain, *_rank(rule)) for rule, gain in gains.items()
        ]
        heapq.heapify(self._heap)

    def best(self, most: int) -> Learned:
        """The best rules, one for each kind and characters, down to the least gain."""
        dealt_with: set[Example] = set()
        chosen: Learned = {}
        while self._heap and len(chosen) < most:
            *_, rule = heapq.heappop(self._heap)
            kind, characters, cells = rule
            left = [one for one in self._helped[rule] if one not in dealt_with]
            gain = sum([one.weight for one in left]) - self._lost[rule]
            if gain < self._least - _NEARLY or (kind, characters) in chosen:
                continue
            if self._heap and gain < -self._heap[0][0] - _NEARLY:
                heapq.heappush(self._heap, (-gain, *_rank(rule)))
                continue
            chosen[kind, characters] = cells
            dealt_with.update(left)
        return chosen


def _rank(rule: Rule) -> tuple[int, bool, Rule]:
    """Of rules that gain the same, short ones first, and those bound to a place."""
    kind, characters, _ = rule
    length = _WORDS_LAST if kind == WORD else len(characters)
    return length, kind == ALWAYS, rule


def _choosing(rule: Rule, example: Example) -> Iterator[tuple[int, int, int]]:
    """Where a rule would be chosen in place of what is now: its place, its end, and how many cells are before it."""
    kind, characters, _ = rule
    seen = example.seen
    place = seen.folded.find(characters)
    at = 0
    for start, now, cells, its in example.choices:
        if 0 <= place < start:
            place = seen.folded.find(characters, start)
        if start == place:
            end = start + len(characters)
            if kind == ALWAYS:
                is_chosen = end > now or end == now and its in (None, ALWAYS)
            else:
                is_chosen = end >= now and kind == seen.kind(start, end)
            if is_chosen and end - start <= seen.room(start):
                yield start, end, at
        at += len(cells)


def _spoils(rule: Rule, example: Example) -> bool:
    """Whether a rule would be chosen in an example and give other cells."""
    return any(
        not _is_right(example, rule, *place) for place in _choosing(rule, example)
    )


def _is_right(example: Example, rule: Rule, start: int, end: int, at: int) -> bool:
    """Whether a rule gives the wanted cells from a place on, whose cells begin so far on."""
    after = example.starts[end]
    if after == NOWHERE:
        return False
    first = at + len(example.seen.sign(start))
    return example.wanted[first:after] == rule[2]


def _net(
    examples: Iterable[Example], before: Iterable[bool], chosen: Learned
) -> Mapping[tuple[str, str], float]:
    """What each rule set right, less what it set wrong."""
    net: dict[tuple[str, str], float] = defaultdict(float)
    for example, was_right in zip(examples, before, strict=True):
        if example.is_right == was_right:
            continue
        weight = example.weight if example.is_right else -PENALTY * example.weight
        for start, end, _, kind in example.choices:
            if kind is not None:
                key = kind, example.seen.folded[start:end]
                if key in chosen:
                    net[key] += weight
    return net


_SIZES: Final = (2, 3, 4)


class Occurrences:
    """The examples by the short runs of characters that they have, so that a rule is tried on few."""

    def __init__(self, examples: Sequence[Example]) -> None:
        self._all: Final = examples
        self._having: Final[dict[str, list[Example]]] = defaultdict(list)
        for example in examples:
            for run in _runs(example.seen.folded):
                self._having[run].append(example)

    def of(self, characters: str) -> Iterator[Example]:
        """The examples that have some characters one after another."""
        having = (self._having.get(run, ()) for run in _runs(characters))
        fewest = min(having, key=len, default=self._all)
        return (example for example in fewest if characters in example.seen.folded)


def _runs(text: str) -> set[str]:
    return {
        text[start : start + size]
        for size in _SIZES
        for start in range(len(text) - size + 1)
    }
