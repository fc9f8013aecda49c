"""A list of words to learn from, and the rules that were learned from it, kept from book to book.

What was kept is never trusted: it is read as the lines of a table are, its head has to say what it was
learned from, and a rule stays only if a word of the list bears it out.
"""

from __future__ import annotations

import hashlib
import random
import string
import zlib
from collections import Counter
from collections.abc import Iterable, Iterator, Sequence
from dataclasses import dataclass, replace
from itertools import cycle, product
from pathlib import Path
from typing import Final, Protocol

from braildesk.tables import Rule as TableRule, read
from braildesk.tables.convert.chooser import Chooser
from braildesk.tables.convert.draft import TableDraft
from braildesk.tables.convert.examples import Example, Progress, examples
from braildesk.tables.convert.learning import (
    JOINED_ROUNDS,
    LIST_ROUNDS,
    Learned,
    Learner,
)
from braildesk.tables.convert.operands import write_characters, write_dots
from braildesk.tables.convert.oracle import Liblouis
from braildesk.tables.convert.shapes import ENCLOSED, JOINED, Material, lines_of
from braildesk.tables.convert.words import forms_in

METHOD: Final = 5
"""Counted up with each change of what is learned from a list."""

MOST_FORMS: Final = 120_000
"""How many words are learned from; of a longer list they are taken by a digest."""

LESS: Final = 0.3
"""What a form with a mark or a number within counts, so that those of a word don't outweigh the word."""

LONE: Final = 100.0
"""What a letter or a word of one cell counts that stands alone, which tokens with marks are to leave as it is."""

USUALLY: Final = 5.0
"""What a word of one cell counts with the marks that texts have beside it, as `in,`."""

BESIDE: Final = 0.1
"""What a token with a mark or a number within counts at most beside a manuscript, whose words go before it."""

MARKS_IN_NAMES: Final = "_/."
"""The marks of names of files and the like, beside which letters, words of one cell and others are learned."""

MARKS_BESIDE_LETTERS: Final = MARKS_IN_NAMES + "="
"""Those beside which letters are."""

PLACES_IN_NAMES: Final = ("{one}{mark}{word}", "{word}{mark}{one}", "{mark}{one}")
"""Where one stands beside such a mark."""

LONGER_BY: Final = 5
"""One letter of so many is put after those that have a sign alone, so that longer words have none."""

JOINED_OF_EACH: Final = 200
"""How many tokens of each shape with marks or numbers within are made of a list of many words."""

RARE: Final = 0.01
"""The share of words that have a letter which isn't taken alone, unless it is one of ASCII."""

SEED: Final = 1


def _made_of(forms: Sequence[str]) -> dict[str, float]:
    """Letters alone and tokens with marks or numbers within, of the words of a list."""
    words = _small(forms)
    having = Counter(one for word in words for one in {*word} if len(one.upper()) == 1)
    usual = [one for one in having if one.isascii() or having[one] > RARE * len(words)]
    each = min(JOINED_OF_EACH, len(words) // len(JOINED))
    found = _joined(words, sorted(usual), each)
    return found | dict.fromkeys(sorted(having) if found else (), LONE)


def _small(forms: Iterable[str]) -> list[str]:
    """The words of letters alone, but those with capitals within, in small letters."""
    return [one.lower() for one in forms if one.isalpha() and one[1:].islower()]


def _joined(
    words: Sequence[str], letters: Sequence[str], each: int
) -> dict[str, float]:
    """Tokens with marks or numbers within, so many of each shape, and some of them with marks around.

    What all tokens of a shape count together is the same, so that few of letters alone are worth as
    much as many with words.
    """
    upper = {
        one: one.upper() for word in words for one in word if len(one.upper()) == 1
    }
    defined = {*upper, *upper.values(), *string.digits, *string.punctuation, "\u2019"}
    material = Material(words, letters, upper)
    plain: dict[str, float] = {}
    for place, shape in enumerate(JOINED):
        found = lines_of([shape], material, defined, each, SEED + place)
        plain |= {one.line: LESS * each / len(found) for one in found}
    enclosed = map(str.format, cycle(ENCLOSED), [*plain][::2])
    return dict.fromkeys(enclosed, LESS) | plain


class Folder(Protocol):
    """Where files are kept by their names. What can't be read or written is an OSError."""

    def read(self, name: str) -> bytes | None:
        """The bytes of a file, or None if there is none."""

    def write(self, name: str, data: bytes) -> None:
        """Gives a file these bytes."""


@dataclass(frozen=True)
class WordList:
    """Words with what each counts, and tokens that are made of them."""

    path: Path
    weights: dict[str, float]
    joined: dict[str, float]
    signed: tuple[str, ...] = ()
    """Those of the words that have a sign where they stand alone."""

    @classmethod
    def of(cls, path: Path) -> WordList:
        """The list in a file."""
        forms = forms_in(path)
        each = -(-len(forms) // MOST_FORMS) or 1
        taken = [form for form in forms if zlib.crc32(form.encode()) % each == 0]
        weights = {form: 1 if form.isalpha() else LESS for form in taken}
        return cls(path, weights, _made_of(taken))

    def naming(self, named: Iterable[str]) -> WordList:
        """The list with the words that a table names."""
        return replace(self, weights=dict.fromkeys(named, 1.0) | self.weights)

    def signing(self, signed: Iterable[str]) -> WordList:
        """The list with what has a sign where it stands alone, and with longer words that have none."""
        letters = sorted(self.letters)[::LONGER_BY]
        own = dict.fromkeys(signed if letters else (), 1.0)
        longer = dict.fromkeys(map("".join, product(own, letters)), LESS)
        return replace(self, weights=longer | own | self.weights, signed=(*own,))

    @property
    def letters(self) -> list[str]:
        """The letters alone, which a list of many words has."""
        return [one for one in self.joined if len(one) == 1]

    @property
    def digest(self) -> str:
        return _digest("\n".join([*self.weights, "", *self.joined]))


def list_examples(
    words: WordList,
    liblouis: Liblouis,
    chooser: Chooser,
    frame: str,
    progress: Progress,
) -> list[Example]:
    """The words of a list as examples, and the tokens that are made of them."""
    weights = words.weights | words.joined
    if words.joined:
        known = [one for one in chooser.whole_words() if len(one) > 1]
        short = dict.fromkeys([*known, *_short(liblouis, words)])
        others = [one for one in words.signed if len(one) == 2]
        others += _held(liblouis, words)
        weights = _in_names(words, [*short, *others]) | weights
        if known:
            letters = sorted({one for word in known for one in word})
            weights = _joined(known, letters, 2 * len(known)) | weights
        # such words have their cells alone before all, and beside few marks
        weights |= dict.fromkeys(_enclosed(others), 1.0)
        weights |= dict.fromkeys(others, USUALLY)
        weights |= dict.fromkeys(_enclosed(short), USUALLY)
        weights |= dict.fromkeys(_enclosed(words.letters, but="{}."), USUALLY)
        weights |= dict.fromkeys(_initials(words.letters), USUALLY)
        weights |= dict.fromkeys(short, LONE)
    return examples(liblouis, chooser, weights, frame, progress)


def _enclosed(ones: Iterable[str], but: str | None = None) -> Iterator[str]:
    """Letters or words with the marks that texts have beside them, but for one form.

    A letter before a full stop is mostly an initial, whose rule capitals have too.
    """
    forms = [form for form in ENCLOSED if form != but]
    return (form.format(one) for one in ones for form in forms)


def _initials(letters: Sequence[str]) -> Iterator[str]:
    """Each letter as the last of two initials, small and as a capital."""
    for first, last in zip(letters, [*letters[1:], *letters[:1]]):
        yield f"{first}.{last}."
        yield f"{first}.{last}.".upper()


def _in_names(words: WordList, ones: Sequence[str]) -> dict[str, float]:
    """Letters and some words beside each mark of names, with another word beyond it.

    Beside such a mark few stand alone, and tokens made by chance leave some of them out.
    """
    others = _small(words.weights)
    random.Random(SEED).shuffle(others)
    word = cycle(others)
    upper = [one.upper() for one in words.letters if one.isascii()]
    return {
        place.format(one=one, mark=mark, word=next(word)): 1.0
        for those, marks in (
            ([*words.letters, *upper], MARKS_BESIDE_LETTERS),
            (ones, MARKS_IN_NAMES),
        )
        for one, mark, place in product(those, marks, PLACES_IN_NAMES)
    }


def _short(liblouis: Liblouis, words: WordList) -> list[str]:
    """The words of a list that have one cell where they stand alone."""
    asked = [one for one in words.weights if len(one) > 1 and one.islower()]
    cells = zip(asked, liblouis.ask(asked), strict=True)
    return [word for word, its in cells if its is not None and len(its) == 1]


def _held(liblouis: Liblouis, words: WordList) -> list[str]:
    """The words of four letters or more and two cells, which they have within a word too.

    No rule for a mark and the first letter of another word may end within them.
    """
    asked = [one for one in words.weights if len(one) > 3 and one.islower()]
    cells = zip(asked, liblouis.ask(asked), strict=True)
    few = {one: its for one, its in cells if its is not None and len(its) == 2}
    twice = zip(few, liblouis.ask(one * 2 for one in few), strict=True)
    return [one for one, its in twice if its == few[one] * 2]


def name_of(words: WordList, draft: TableDraft, version: str) -> str:
    """The name under which rules are kept that a version of liblouis gave by a list for a draft."""
    return _digest(f"{METHOD}\n{version}\n{words.digest}\n{draft.text()}")


def learned_from_list(
    words: WordList,
    chooser: Chooser,
    found: Sequence[Example],
    most: int,
    progress: Progress,
) -> Learned:
    """Learns from the words of a list, and then from the tokens too, so that no word is left wrong for them."""
    for example in found:
        example.choose(chooser)
    alone = [one for one in found if one.token.strip(" ") in words.weights]
    rounds = len(LIST_ROUNDS) + len(JOINED_ROUNDS)
    learned = Learner(chooser, alone, most, of_list=True).learn(
        LIST_ROUNDS, lambda done, _: progress(done, rounds)
    )
    if len(alone) == len(found):
        return learned
    for example in found:
        example.choose(chooser)
    return learned | Learner(chooser, found, most, of_list=True).learn(
        JOINED_ROUNDS, lambda done, _: progress(len(LIST_ROUNDS) + done, rounds)
    )


def weigh_less(words: WordList, found: Iterable[Example]) -> None:
    """Has the tokens that were made of a list count less, so that a manuscript is learned from with them."""
    for one in found:
        if one.weight < LONE and one.token.strip(" ") not in words.weights:
            one.weight = min(one.weight, BESIDE)


def keep(folder: Folder, name: str, rules: Learned) -> None:
    """Keeps rules, unless there is no place for them, which costs time and nothing else."""
    lines = [
        f"{kind} {write_characters(characters)} {write_dots(cells)}\n"
        for (kind, characters), cells in rules.items()
    ]
    try:
        folder.write(name, "".join([_head(name), *lines]).encode())
    except OSError:
        pass


def kept(folder: Folder, name: str, draft: TableDraft) -> Learned | None:
    """The rules that were kept, or None if there are none that could be of this draft."""
    try:
        data = folder.read(name)
    except OSError:
        return None
    if data is None or not data.startswith(_head(name).encode()):
        return None
    before = draft.text_without_rules().encode()
    reading = read(before + data)
    own = len(read(before).table.definitions)
    table = reading.table
    if reading.faults or len(table.definitions) != own:
        return None
    return {_key(rule): tuple(table.cells_of(rule)) for rule in table.rules}


def borne_out(chooser: Chooser, found: Sequence[Example], rules: Learned) -> Learned:
    """Adds rules to a chooser, and takes back those that no word of a list bears out."""
    older = {key: chooser.cells_of(*key) for key in rules}
    for key, cells in rules.items():
        chooser.add((*key, cells))
    for example in found:
        example.choose(chooser)
    good = _chosen_rightly(found)
    for key in rules.keys() - good:
        chooser.put_back(*key, older[key])
    if not rules.keys() <= good:
        for example in found:
            example.choose(chooser)
    return {key: rules[key] for key in rules if key in good}


def _chosen_rightly(found: Iterable[Example]) -> set[tuple[str, str]]:
    """The rules that are chosen in words that are right."""
    return {
        (kind, example.seen.folded[start:end])
        for example in found
        if example.is_right
        for start, end, _, kind in example.choices
        if kind is not None
    }


def _key(rule: TableRule) -> tuple[str, str]:
    return str(rule.kind), rule.characters


def _head(name: str) -> str:
    return f"# braildesk: rules learned from a word list, {name}\n"


def _digest(text: str) -> str:
    return hashlib.sha256(text.encode()).hexdigest()
