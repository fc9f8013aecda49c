"""What the lines of a table give, each with the number of its line."""

from dataclasses import dataclass
from enum import StrEnum

from braildesk.tables.operands import Cells


class Class(StrEnum):
    """The class of a character."""

    SPACE = "space"
    PUNCTUATION = "punctuation"
    DIGIT = "digit"
    LETTER = "letter"


class RuleKind(StrEnum):
    """Where a rule may stand."""

    ALWAYS = "always"
    WORD = "word"
    BEGWORD = "begword"
    MIDWORD = "midword"
    ENDWORD = "endword"


class SignName(StrEnum):
    """The signs that a table may give."""

    NUMBER = "numsign"
    CAPITAL = "capsletter"
    CAPITALS = "begcapsword"
    LETTER_AFTER_NUMBER = "nocontractsign"


class SetName(StrEnum):
    """The sets of characters that a table may give."""

    GO_ON = "numericmodechars"
    NEED_SIGN = "numericnocontchars"


@dataclass(frozen=True, slots=True)
class Definition:
    """A character with its class and its cells."""

    line: int
    kind: Class
    character: str
    cells: Cells


@dataclass(frozen=True, slots=True)
class Pair:
    """A capital and its small letter."""

    line: int
    upper: Definition
    lower: Definition


@dataclass(frozen=True, slots=True)
class Rule:
    """A rule. Without cells it has those of its characters' definitions."""

    line: int
    kind: RuleKind
    characters: str
    cells: Cells | None


@dataclass(frozen=True, slots=True)
class Sign:
    """The cells of a sign."""

    line: int
    name: SignName
    cells: Cells


@dataclass(frozen=True, slots=True)
class CharacterSet:
    """Some characters, as they are written."""

    line: int
    name: SetName
    characters: str


Entry = Definition | Pair | Rule | Sign | CharacterSet
