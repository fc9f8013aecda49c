"""The making of a table of the profile from one of liblouis, step by step."""

from __future__ import annotations

from collections.abc import Callable, Iterator, Sequence
from dataclasses import dataclass
from itertools import product
from typing import Final

from braildesk.tables.convert.contractions import read_rules
from braildesk.tables.convert.crossings import settle_syllables
from braildesk.tables.convert.draft import (
    Origin,
    ProgramTrial,
    TableDraft,
    add_normal_forms,
)
from braildesk.tables.convert.joints import Joints
from braildesk.tables.convert.letters import (
    ask_capitals,
    ask_letters,
    ask_lone_letters,
    settle_lone_capitals,
)
from braildesk.tables.convert.marks import (
    AFTER_LETTERS,
    BEFORE_EQUALS,
    ENCLOSING,
    ENDING,
    IN_PLACES,
    KIND_OF,
    Marks,
    PAIRED,
    USUAL,
    WITH_BLANKS,
    WITH_LETTERS,
    join_to_letters,
)
from braildesk.tables.convert.numbers import ask_digits, ask_mode, ask_signed_letters
from braildesk.tables.convert.probes import CLOSING, Place, Side
from braildesk.tables.convert.reduced import LEFT_OUT
from braildesk.tables.convert.scripts import other_scripts
from braildesk.tables.convert.source import TableLine
from braildesk.tables.convert.subject import Alphabet, Subject, is_pattern, script_of

_ALL: Final = tuple(product(Side, Side))
_LETTER_PLACES: Final = ((Side.EDGE, Side.EDGE), (Side.LETTER, Side.EDGE))
_END_PLACES: Final = tuple(product(Side, (Side.LETTER, Side.DIGIT)))
_PAIR_PLACES: Final = (
    (Side.EDGE, Side.EDGE),
    (Side.EDGE, Side.LETTER),
    (Side.LETTER, Side.EDGE),
    (Side.LETTER, Side.LETTER),
    (Side.DIGIT, Side.EDGE),
    (Side.EDGE, Side.DIGIT),
)


@dataclass(frozen=True)
class Made:
    """A table of the profile, with what could not be carried over."""

    draft: TableDraft
    without_cells: tuple[str, ...]
    uncarried: tuple[tuple[str, TableLine], ...]
    unsettled: tuple[str, ...]


def make(subject: Subject, trial: ProgramTrial) -> Made:
    """Makes a table of the profile."""
    return _make(subject, trial, lambda *_: None, settle_syllables)


def make_to_learn(subject: Subject, trial: ProgramTrial) -> Made:
    """Makes a table to which rules are added that are learned from texts.

    It has no rules for syllables. Those of German would fill it, and the few that a text needs are
    learned from the text. Some marks of technical text are letters to their neighbours in it.
    """
    return _make(subject, trial, join_to_letters, lambda *_: None)


def _make(
    subject: Subject,
    trial: ProgramTrial,
    settle_marks: Callable[[Subject, TableDraft], None],
    settle_rules: Callable[[Subject, TableDraft, ProgramTrial], None],
) -> Made:
    draft = TableDraft()
    alphabet = subject.alphabet
    missing = ask_letters(subject, draft)
    missing += ask_capitals(subject, draft)
    missing += ask_digits(subject, draft)
    scripts = other_scripts(subject, draft)
    for script in scripts:
        script.settle_letters()
    marks = Marks(subject, draft, trial)
    missing += marks.define(alphabet.of("punctuation"))
    settle_marks(subject, draft)
    uncarried = read_rules(subject, draft)
    settle_rules(subject, draft, trial)
    settle_lone_capitals(subject, draft)
    printed = [
        one
        for one in alphabet.of("punctuation")
        if one in draft.cells
        and one.isprintable()
        and not is_pattern(one)
        and (one in USUAL or not alphabet.is_large)
    ]
    ask_mode(subject, draft, [*printed, *alphabet.of("space")])
    ask_signed_letters(subject, draft)
    ask_lone_letters(subject, draft)
    if _has_pairs_of_letters(subject) and not alphabet.is_large:
        _settle_letters(marks, alphabet)
    unsettled = _settle(marks, alphabet, printed)
    if not alphabet.is_large:
        Joints(subject, draft, trial).settle(_own_letters(alphabet, draft))
    for script in scripts:
        script.settle_passages()
    add_normal_forms(draft)
    return Made(draft, tuple(missing), tuple(uncarried), tuple(unsettled))


def _has_pairs_of_letters(subject: Subject) -> bool:
    """Whether two letters may have other cells beside one another.

    So it is in tables with rules for single letters by the class of what stands before or after them,
    and in those of several passes, as in Greek the pairs of letters under an accent.
    """
    return any(
        line.opcode in LEFT_OUT["several passes"]
        or "before" in line.prefixes
        or "after" in line.prefixes
        for line in subject.table.left
        if line.operands
    )


def _settle_letters(marks: Marks, alphabet: Alphabet) -> None:
    """Asks for each letter right after each other one, and if they differ, at the edges of words too."""
    letters = _own_letters(alphabet, marks.draft)
    pairs = [first + second for first, second in product(letters, letters)]
    within = (Side.LETTER, Side.LETTER)
    different = marks.settle(pairs, [within], AFTER_LETTERS)
    marks.settle(
        different, [place for place in KIND_OF if place != within], AFTER_LETTERS
    )


def _own_letters(alphabet: Alphabet, draft: TableDraft) -> list[str]:
    """The letters of the table's own script, of a pair the small one."""
    return [
        one
        for one in alphabet.of("letter")
        if one in draft.cells
        and one not in draft.lower
        and script_of(one) == alphabet.script
    ]


def _settle(marks: Marks, alphabet: Alphabet, printed: list[str]) -> list[str]:
    """Asks for the marks alone, with blanks, beside letters and beside one another."""
    for strings, places, origin in _asked_in_places(marks.draft, alphabet, printed):
        marks.settle(strings, places, origin)
    if " " in marks.draft.cells and not alphabet.is_large:
        marks.settle_ends([mark for mark in USUAL if mark in marks.draft.cells])
    return marks.unsettled()


def _beside_equals(draft: TableDraft, usual: Sequence[str]) -> list[str]:
    """Marks after a sign of equality, as in `--all=,`, and such as stand before one, as in `+=`."""
    if "=" not in draft.cells:
        return []
    before = [mark for mark in BEFORE_EQUALS if mark in draft.cells]
    return [f"={mark}" for mark in usual] + [f"{mark}=" for mark in before]


def _asked_in_places(
    draft: TableDraft, alphabet: Alphabet, printed: list[str]
) -> Iterator[tuple[list[str], Sequence[Place], Origin]]:
    yield printed, _ALL, IN_PLACES
    has_blank = " " in draft.cells
    if has_blank:
        for form in ("{} ", " {}", " {} "):
            yield [form.format(mark) for mark in printed], _ALL, WITH_BLANKS
        if not draft.signs["numsign"]:
            digits = [one for one in alphabet.of("digit") if one in draft.cells]
            yield [f" {digit} " for digit in digits], _ALL, WITH_BLANKS
    if alphabet.is_large:
        return
    usual = [mark for mark in USUAL if mark in draft.cells]
    closing = [mark for mark in usual if mark in CLOSING]
    letters = _own_letters(alphabet, draft)
    ends = [letter + mark for letter, mark in product(letters, closing)]
    yield ends, _LETTER_PLACES, WITH_LETTERS
    yield [one + other for one, other in product(usual, usual)], _PAIR_PLACES, PAIRED
    yield [mark * 3 for mark in usual], _PAIR_PLACES, PAIRED
    yield _beside_equals(draft, usual), _PAIR_PLACES, PAIRED
    shown = [
        pair[0] + mark + pair[1]
        for pair in ENCLOSING
        if all(one in draft.cells for one in pair)
        for mark in usual
    ]
    yield shown, [(Side.EDGE, Side.EDGE)], PAIRED
    if has_blank:
        before = [*closing, *(one for one in "=" if one in draft.cells)]
        after = [f"{one}{other} " for one, other in product(before, ENDING)]
        yield after, _END_PLACES, PAIRED
