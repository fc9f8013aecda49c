"""What a table may have but is rarely meant, each with a sentence."""

from collections.abc import Iterator, Mapping
from dataclasses import dataclass
from itertools import product
from typing import TypeAlias

from braildesk.tables.entries import (
    Class,
    Definition,
    RuleKind,
    Rule,
    SetName,
    Sign,
    SignName,
)
from braildesk.tables.operands import Cells
from braildesk.tables.table import Table
from braildesk.tables.tiling import fits
from braildesk.text.characters import named

_BESIDE_LETTERS = (RuleKind.BEGWORD, RuleKind.MIDWORD, RuleKind.ENDWORD)
_DOT_7 = 0x40

#: What stands on the left of a rule and on its right.
_Place: TypeAlias = tuple[str, str]


@dataclass(frozen=True, slots=True)
class Warning:
    """A line is accepted but rarely meant. The earlier line is one that it has to do with."""

    line: int
    sentence: str
    earlier: int | None = None


def warnings(table: Table, is_for_embosser: bool) -> list[Warning]:
    """All warnings, by line."""
    found = [*_repeated(table), *_never_fitting(table), *_capitals(table)]
    if is_for_embosser:
        found += _eight_dots(table)
    return sorted(found, key=lambda warning: warning.line)


def _repeated(table: Table) -> Iterator[Warning]:
    """Rules of the same characters as earlier ones, of which one fits wherever they do."""
    places = {kind: _places(table, kind) for kind in RuleKind}
    seen: dict[str, list[Rule]] = {}
    for rule in table.rules:
        before = seen.setdefault(rule.characters, [])
        earlier = _covering(places, rule, before)
        if earlier:
            yield _repeating(rule, [each.line for each in earlier])
        else:
            before.append(rule)


def _covering(
    places: Mapping[RuleKind, set[_Place]], rule: Rule, before: list[Rule]
) -> list[Rule]:
    """An earlier rule that fits wherever a rule does, or some that do together, or none."""
    wanted = places[rule.kind]
    near = [each for each in before if wanted & places[each.kind]]
    for each in near:
        if wanted <= places[each.kind]:
            return [each]
    together: set[_Place] = set()
    for each in near:
        together |= places[each.kind]
    return near if wanted <= together else []


def _repeating(rule: Rule, earlier: list[int]) -> Warning:
    """A rule is never chosen for the sake of some earlier lines."""
    numbers = [f"{line:,}" for line in earlier]
    if len(earlier) == 1:
        which = (
            f"Line {numbers[0]} has the same characters, fits wherever this one does"
        )
        of = "two such rules"
    else:
        which = (
            f"Lines {', '.join(numbers[:-1])} and {numbers[-1]} have the same characters, one of"
            " them fits wherever this one does"
        )
        of = "such rules"
    return Warning(
        rule.line,
        f"This rule is never chosen. {which}, and of {of} the earlier line is chosen.",
        earlier[0],
    )


def _places(table: Table, kind: RuleKind) -> set[_Place]:
    """Where a rule of a kind fits.

    The end of the print stands for blanks and punctuation too, and one letter and one digit for
    all.
    """
    sides = [""]
    for each in (Class.LETTER, Class.DIGIT):
        sides += [it for it in table.definitions if table.is_of(each, it)][:1]
    return {
        (left, right)
        for left, right in product(sides, repeat=2)
        if fits(table, kind, left, right)
    }


def _never_fitting(table: Table) -> Iterator[Warning]:
    """Rules that fit nowhere."""
    has_letters = any(each.kind is Class.LETTER for each in table.definitions.values())
    for rule in table.rules:
        if rule.kind in _BESIDE_LETTERS and not has_letters:
            yield Warning(
                rule.line,
                f"This rule is never chosen: {rule.kind} needs a letter beside it, and the table"
                " defines no character as letter.",
            )
        elif (sign := _sign_inside(table, rule.characters)) is not None:
            yield Warning(
                rule.line,
                f"This rule is never chosen: inside it always stands {sign.name}, and no rule"
                " covers a sign.",
                sign.line,
            )


def _capitals(table: Table) -> Iterator[Warning]:
    """Capitals that get no sign, though the table has one, and pairs the wrong way round."""
    sign = table.signs.get(SignName.CAPITAL) or table.signs.get(SignName.CAPITALS)
    for character, definition in table.definitions.items():
        small = character.lower()
        if small == character or table.is_capital(character):
            continue
        if character in table.uppers:
            yield Warning(
                definition.line,
                f"uplow takes the capital first: by this line {named(character)} is the small"
                " letter of its pair.",
            )
        elif sign is not None and definition.kind is Class.LETTER:
            yield Warning(
                definition.line,
                f"{named(character)} is a capital but defined by letter, so {sign.name} never"
                " stands before it. A capital and its small letter are defined by one line"
                " uplow.",
                sign.line,
            )


def _eight_dots(table: Table) -> Iterator[Warning]:
    """Cells that pages for an embosser can't have."""
    found: dict[int, Cells] = {}
    entries: list[Definition | Rule | Sign] = [*table.definitions.values()]
    for entry in [*entries, *table.rules, *table.signs.values()]:
        found[entry.line] = found.get(entry.line, ()) + (entry.cells or ())
    for line, cells in found.items():
        if any(cell >= _DOT_7 for cell in cells):
            yield Warning(
                line,
                "A cell has dot 7 or 8. Pages for an embosser can't have these, and a volume"
                " with such a cell isn't exported.",
            )


def _sign_inside(table: Table, characters: str) -> Sign | None:
    """A sign that stands inside a rule of these characters wherever they stand in a print."""
    variants = [_variants(table, each) for each in characters]
    numeric = _is_numeric(table, variants[0])
    for each in variants[1:]:
        follows_number, numeric = numeric, _is_numeric(table, each, numeric)
        if _all_of(table, each, Class.DIGIT):
            if follows_number is False and SignName.NUMBER in table.signs:
                return table.signs[SignName.NUMBER]
        elif (
            follows_number
            and numeric is False
            and SignName.LETTER_AFTER_NUMBER in table.signs
            and len(each) == 1
            and table.has(SetName.NEED_SIGN, each)
        ):
            return table.signs[SignName.LETTER_AFTER_NUMBER]
    return None


def _variants(table: Table, character: str) -> str:
    """The characters of a print that a folded one stands for: itself, and its capital."""
    return character + table.uppers.get(character, "")


def _is_numeric(
    table: Table, variants: str, is_before: bool | None = None
) -> bool | None:
    """Whether a place is in numeric mode, by the place before it; None if that isn't known."""
    if _all_of(table, variants, Class.DIGIT):
        return True
    go_on = {table.has(SetName.GO_ON, each) for each in variants}
    if go_on == {False}:
        return False
    return is_before if go_on == {True} or is_before is False else None


def _all_of(table: Table, variants: str, kind: Class) -> bool:
    return all(table.is_of(kind, each) for each in variants)
