"""The cells of letters and blanks, and of capitals with their signs, alone and between others."""

from __future__ import annotations

from collections.abc import Mapping, Sequence
from itertools import product
from typing import Final

from braildesk.tables.convert.draft import Origin, TableDraft
from braildesk.tables.convert.oracle import (
    Frame,
    ask_frames,
    between,
    most_common,
    stripped,
)
from braildesk.tables.convert.subject import Subject, script_of
from braildesk.tables.operands import Cells

ALONE: Final = Origin("Letters that stand alone, by asking liblouis.")
IN_WORDS: Final = Origin(
    "Letters within words, whose capitals have a sign only where they stand alone."
)


def ask_letters(subject: Subject, draft: TableDraft) -> list[str]:
    """Defines the letters that are no capitals, and the blanks. Returns those without cells."""
    alphabet = subject.alphabet
    missing = []
    asked = [
        one
        for one in [*alphabet.of("letter"), *alphabet.of("space")]
        if one not in alphabet.lower
    ]
    ask_frames(
        subject.liblouis, [frame for one in asked for frame in _frames(subject, one)]
    )
    subject.liblouis.ask(asked)
    for one in asked:
        cells = _within(subject, one) or subject.written_cells(one)
        if not cells or not draft.define(one, alphabet.kinds[one], cells):
            missing.append(one)
    return missing


def ask_lone_letters(subject: Subject, draft: TableDraft) -> None:
    """Adds rules for letters that have other cells where they stand alone."""
    if subject.alphabet.is_large:
        return
    for one in subject.alphabet.of("letter"):
        alone = subject.liblouis.cells(one)
        if one in subject.alphabet.lower or one not in draft.cells or not alone:
            continue
        if alone != draft.cells[one]:
            draft.add_rule("word", one, alone, ALONE)


def _frames(subject: Subject, one: str) -> list[Frame]:
    """A character between doubled letters: a single letter may carry a sign of its own."""
    return [
        Frame(letter * 2, one, letter * 2) for letter in subject.alphabet.carriers(one)
    ]


def _within(subject: Subject, one: str) -> Cells | None:
    """A character's cells between letters, or else alone."""
    found = [between(subject.liblouis, frame) for frame in _frames(subject, one)]
    alone = subject.liblouis.cells(one)
    return most_common([cells for cells in found if cells]) or alone


SAMPLE: Final = 60
"""How many capitals are asked for the signs that they share."""

RUNS: Final = 40


def ask_capitals(subject: Subject, draft: TableDraft) -> list[str]:
    """Defines the capitals with their signs. Returns those that get no cells."""
    pairs = {
        upper: lower
        for upper, lower in subject.alphabet.lower.items()
        if lower in draft.cells
    }
    subject.liblouis.ask(
        text
        for upper, lower in pairs.items()
        for tail in [_tail(subject, upper)]
        for text in (upper + tail, lower + tail, tail)
    )
    sample = _sample(subject, pairs)
    sign = most_common(
        [_sign(subject, upper, pairs[upper]) for upper in sample], share=0.3
    )
    missing = []
    for upper, lower in pairs.items():
        if not _define(subject, draft, upper, lower, sign or ()):
            missing.append(upper)
    draft.signs["capsletter"] = sign or ()
    run = _run_sign(subject, draft, [one for one in sample if one in draft.lower])
    draft.signs["begcapsword"] = run or ()
    return missing


def _sample(subject: Subject, pairs: dict[str, str]) -> list[str]:
    own = [one for one in pairs if script_of(one) == subject.alphabet.script]
    plain = [one for one in own if one.isascii()]
    return (plain or own or list(pairs))[:SAMPLE]


def _tail(subject: Subject, one: str) -> str:
    carriers = subject.alphabet.carriers(one)
    return carriers[0] * 2 if carriers else ""


def _sign(subject: Subject, upper: str, lower: str) -> Cells | None:
    """What stands before a capital at the beginning of a word, and not before its small letter."""
    tail = _tail(subject, upper)
    whole = subject.liblouis.cells(upper + tail)
    small = subject.liblouis.cells(lower + tail)
    return None if whole is None or small is None else stripped(whole, (), small)


def _define(
    subject: Subject, draft: TableDraft, upper: str, lower: str, sign: Cells
) -> bool:
    """Defines a capital with its sign, or as a letter of its own if it has no sign."""
    first, *others = _tails(subject, upper)
    for tail in (first, *others):
        cells = _cells_before(subject, upper, sign, tail)
        is_sure = tail == first or cells == draft.cells[lower]
        if cells and is_sure and draft.define(upper, "letter", cells):
            draft.pair(upper, lower)
            return True
    if subject.liblouis.cells(upper) is None:
        return False
    found = _cells_before(subject, upper, (), first)
    cells = found or subject.written_cells(upper)
    return bool(cells) and draft.define(upper, "letter", cells or ())


def _tails(subject: Subject, one: str) -> list[str]:
    """What a capital is asked for before, since with some of it it may be a contraction."""
    return [letter * 2 for letter in subject.alphabet.carriers(one)] or [""]


def _cells_before(subject: Subject, upper: str, sign: Cells, tail: str) -> Cells | None:
    """The cells of a capital between its sign and what stands after it."""
    whole = subject.liblouis.cells(upper + tail)
    after = subject.liblouis.cells(tail)
    if whole is None or after is None:
        return None
    return stripped(whole, sign, after)


def _run_sign(
    subject: Subject, draft: TableDraft, sample: Sequence[str]
) -> Cells | None:
    """What stands before three capitals alone, if their own signs are left out."""
    if len(sample) < 3:
        return None
    found = []
    runs = [
        [sample[(place * step) % len(sample)] for step in (1, 3, 7)]
        for place in range(min(RUNS, len(sample)))
    ]
    wholes = subject.liblouis.ask("".join(run) for run in runs)
    for run, whole in zip(runs, wholes, strict=True):
        plain = tuple(cell for one in run for cell in draft.cells[one])
        found.append(None if whole is None else stripped(whole, (), plain))
    return most_common(found) if any(one is not None for one in found) else None


def settle_lone_capitals(subject: Subject, draft: TableDraft) -> None:
    """A sign that capitals have where they stand alone, while those of words have none.

    The profile has the sign of one capital wherever that stands. So this one is put into the capital's
    definition, and rules of the letter, which are for the capital too, are without it within words.
    """
    if draft.signs["capsletter"] or subject.alphabet.is_large:
        return
    letters = {
        upper: lower
        for upper, lower in draft.lower.items()
        if draft.cells[upper] == draft.cells[lower]
    }
    alone = _signs_alone(subject, draft, letters)
    sample = _sample(subject, letters)
    sign = most_common([alone[upper] for upper in sample]) if sample else None
    if not sign:
        return
    for upper, lower in letters.items():
        if alone[upper] == sign:
            cells = draft.cells[lower]
            draft.define(upper, "letter", sign + cells)
            for kind in ("begword", "midword", "endword"):
                if (kind, lower) not in draft.rules:
                    draft.add_rule(kind, lower, cells, IN_WORDS)
    if not _has_contractions(subject):
        _settle_before_digits(draft, [letters[upper] for upper in sample])


def _signs_alone(
    subject: Subject, draft: TableDraft, letters: Mapping[str, str]
) -> dict[str, Cells | None]:
    """What stands before each capital between two words, and not before its small letter."""
    word = (subject.alphabet.carriers() or ("",))[0] * 2
    frames = {upper: Frame(f"{word} ", upper, f" {word}") for upper in letters}
    ask_frames(subject.liblouis, frames.values())
    found: dict[str, Cells | None] = {}
    for upper, frame in frames.items():
        cells = between(subject.liblouis, frame)
        found[upper] = (
            None if cells is None else stripped(cells, (), draft.cells[upper])
        )
    return found


def _has_contractions(subject: Subject) -> bool:
    """Whether a table has a rule for several letters."""
    return any(
        len(rule.characters) > 1 and rule.characters.isalpha()
        for rule in subject.table.rules
    )


def _settle_before_digits(draft: TableDraft, letters: Sequence[str]) -> None:
    """The last letter of a word before a digit, by rules of the two last: no kind is for that place."""
    begun = {
        characters[0]
        for kind, characters in draft.rules
        if len(characters) > 1 and kind != "always"
    }
    for first, last in product(letters, repeat=2):
        if last not in begun:
            cells = draft.cells[first] + draft.cells[last]
            draft.add_rule("always", first + last, cells, IN_WORDS)
