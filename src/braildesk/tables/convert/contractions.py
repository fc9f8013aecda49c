"""The rules of a table, by reading them."""

from __future__ import annotations

from collections.abc import Iterator
from typing import Final

from braildesk.tables.convert.draft import Origin, TableDraft
from braildesk.tables.convert.operands import read_dots
from braildesk.tables.convert.oracle import Frame, between
from braildesk.tables.convert.source import Source, TableLine
from braildesk.tables.convert.subject import Subject
from braildesk.tables.convert.table import INEXACT, KINDS, SourceRule
from braildesk.tables.operands import BadOperand, Cells

READ: Final = Origin("Rules of the table.")


def named_words(source: Source) -> Iterator[str]:
    """The words that have a contraction where they stand alone, by lines that are no rules of the profile."""
    for line in source.lines:
        if line.opcode == "match" and line.is_for_print and len(line.operands) > 2:
            before, word, *_ = line.operands
            # what may stand before is a blank or a mark, and no letter
            is_word = word.isalpha() and word.islower() and len(word) > 2
            if before.startswith("%[") and is_word:
                yield word


def signed_words(source: Source) -> Iterator[str]:
    """The letters that would be read as a contraction where they stand alone, so that they have a sign there."""
    for line in source.lines:
        if line.opcode == "contraction" and line.is_for_print and line.operands:
            if line.operands[0].isalpha():
                yield line.operands[0]


def read_rules(subject: Subject, draft: TableDraft) -> list[tuple[str, TableLine]]:
    """Adds the rules that the table has. Returns those that can't be carried over, each with the reason."""
    left = []
    for rule in subject.table.rules:
        folded = draft.fold(rule.characters)
        if _is_asked(draft, rule, folded):
            continue
        fault = _carry(subject, draft, rule, folded)
        if fault is not None:
            left.append((fault, rule.line))
        elif rule.line.opcode in INEXACT:
            kinds = " and ".join(KINDS[rule.line.opcode])
            left.append((f"{rule.line.name}, carried over as {kinds}", rule.line))
    return left


def _is_asked(draft: TableDraft, rule: SourceRule, folded: str) -> bool:
    """Whether liblouis is asked for what the rule does, since it is of one mark, or a definition."""
    if len(folded) != 1 or folded not in draft.cells:
        return False
    return draft.classes[folded] != "letter" or rule.line.opcode == "always"


def _carry(
    subject: Subject, draft: TableDraft, rule: SourceRule, folded: str
) -> str | None:
    """Adds a rule, or says why it can't be."""
    name = rule.line.name
    if any(one not in draft.cells for one in folded):
        return f"{name} with characters that have no cells"
    for kind in KINDS[rule.line.opcode]:
        cells = _cells(subject, draft, rule, folded, kind)
        if cells is None:
            return f"{name} with dots that no page has"
        if (kind, folded) not in draft.rules and not draft.add_rule(
            kind, folded, cells, READ
        ):
            return f"{name} beyond the limits of a table"
    return None


def _cells(
    subject: Subject, draft: TableDraft, rule: SourceRule, folded: str, kind: str
) -> Cells | None:
    """The cells of a rule. If they have virtual dots, which later passes take away, liblouis is asked."""
    if rule.dots == "=":
        return tuple(cell for one in folded for cell in draft.cells[one])
    try:
        return read_dots(rule.dots)
    except BadOperand:
        carriers = subject.alphabet.carriers()
        if subject.alphabet.is_large or not carriers:
            return None
        letters = carriers[0] * 2
        left = "" if kind in ("word", "begword") else letters
        right = "" if kind in ("word", "endword") else letters
        return between(subject.liblouis, Frame(left, folded, right))
