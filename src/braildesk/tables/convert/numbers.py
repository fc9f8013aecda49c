"""Numbers: the digits and their sign, the marks that go on with a number, and letters after one."""

from __future__ import annotations

from collections import Counter
from typing import Final

from braildesk.tables.convert.draft import MOST_CHARACTERS, Origin, TableDraft
from braildesk.tables.convert.oracle import (
    Frame,
    ask_frames,
    between,
    most_common,
    stripped,
)
from braildesk.tables.convert.subject import Subject, script_of
from braildesk.tables.operands import Cells

AFTER_NUMBERS: Final = Origin("Letters after digits, by asking liblouis.")


def ask_digits(subject: Subject, draft: TableDraft) -> list[str]:
    """Defines the digits and the sign of numbers. Returns the digits without cells."""
    missing = []
    signs = []
    subject.liblouis.ask(
        text for digit in subject.alphabet.of("digit") for text in (digit, digit * 2)
    )
    for digit in subject.alphabet.of("digit"):
        sign, cells = _digit(subject, digit)
        if not draft.define(
            digit, "digit", cells or subject.written_cells(digit) or ()
        ):
            missing.append(digit)
        elif digit.isascii() or not any(one.isascii() for one in draft.cells):
            signs.append(sign)
    draft.signs["numsign"] = most_common(signs) or ()
    return missing


def _digit(subject: Subject, digit: str) -> tuple[Cells | None, Cells | None]:
    """The sign and the cells of a digit, by what a second one adds."""
    one = subject.liblouis.cells(digit)
    two = subject.liblouis.cells(digit * 2)
    if one is None or two is None:
        return None, None
    added = len(two) - len(one)
    if added <= 0 or len(one) < added or two[-added:] != one[-added:]:
        return None, None
    return one[:-added], one[-added:]


def sample_digits(draft: TableDraft) -> list[str]:
    """Digits with which marks are asked for, the usual ones first."""
    digits = [one for one, kind in draft.classes.items() if kind == "digit"]
    usual = [one for one in "52378" if one in digits]
    return usual if len(usual) > 1 else digits[:5]


def usual_digits(draft: TableDraft) -> list[str]:
    """The digits that texts have, or those that the table has."""
    digits = [one for one, kind in draft.classes.items() if kind == "digit"]
    return [one for one in digits if one.isascii()] or digits


def ask_mode(subject: Subject, draft: TableDraft, marks: list[str]) -> None:
    """Finds the marks after which a number goes on without another sign.

    A blank is one of them only alone: after `5,` and a blank a number would go on too.
    """
    digits = sample_digits(draft)
    if len(digits) < 2 or not draft.signs["numsign"]:
        return
    pairs = list(zip(digits, digits[1:]))
    subject.liblouis.ask(
        first + mark + second for mark in marks for first, second in pairs
    )
    found = [mark for mark in marks if _goes_on(subject, draft, mark, pairs)]
    if len(found) > 1:
        found = [mark for mark in found if draft.classes[mark] != "space"]
    draft.mode = "".join(found[:MOST_CHARACTERS])


def _goes_on(
    subject: Subject, draft: TableDraft, mark: str, pairs: list[tuple[str, str]]
) -> bool:
    sign = draft.signs["numsign"]
    for first, second in pairs:
        whole = subject.liblouis.cells(first + mark + second)
        before = subject.liblouis.cells(first)
        if whole is None or before is None:
            return False
        middle = stripped(whole, before, draft.cells[second])
        if middle is None or middle[-len(sign) :] == sign:
            return False
    return True


def ask_signed_letters(subject: Subject, draft: TableDraft) -> None:
    """Finds the letters that have a sign right after a number, and after a mark that goes on with it."""
    digits = sample_digits(draft)
    if not digits or subject.alphabet.is_large:
        return
    signs: dict[str, Cells] = {}
    frames = {
        one: Frame(digits[0], one, "")
        for one in subject.alphabet.of("letter")
        if one in draft.cells and one not in draft.lower and _own(subject, one)
    }
    ask_frames(subject.liblouis, frames.values())
    for one, frame in frames.items():
        sign = between(subject.liblouis, frame)
        lone = stripped(sign, (), draft.cells[one]) if sign else None
        if lone:
            signs[one] = lone
    if not signs:
        return
    common = Counter(signs.values()).most_common(1)[0][0]
    letters = [one for one, sign in signs.items() if sign == common]
    if len(letters) > MOST_CHARACTERS or _mode_differs(subject, draft, letters[0]):
        _by_rules(draft, letters, common)
        return
    draft.signs["nocontractsign"] = common
    draft.signed_after_numbers = "".join(letters)


def _own(subject: Subject, one: str) -> bool:
    scripts = subject.alphabet.by_script
    return script_of(one) == subject.alphabet.script or (
        subject.alphabet.script not in scripts
    )


def _mode_differs(subject: Subject, draft: TableDraft, letter: str) -> bool:
    """Whether a letter has no sign after a mark that goes on with a number."""
    digit = sample_digits(draft)[0]
    for mark in draft.mode[:3]:
        cells = between(subject.liblouis, Frame(digit + mark, letter, ""))
        if cells == draft.cells[letter]:
            return True
    return False


def _by_rules(draft: TableDraft, letters: list[str], sign: Cells) -> None:
    """Writes the sign by a rule for each digit and letter."""
    for digit in [one for one, kind in draft.classes.items() if kind == "digit"]:
        for letter in letters:
            cells = draft.cells[digit] + sign + draft.cells[letter]
            draft.add_rule("always", digit + letter, cells, AFTER_NUMBERS)
