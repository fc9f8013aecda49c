"""What the lines of a table of liblouis say: characters with their classes, signs and rules."""

from __future__ import annotations

from collections.abc import Callable, Mapping, Sequence
from dataclasses import dataclass, field
from typing import Final

from braildesk.tables.convert.source import TableLine, Source
from braildesk.tables.operands import BadOperand, characters

DEFINITIONS: Final = (
    "space",
    "punctuation",
    "digit",
    "litdigit",
    "letter",
    "lowercase",
    "uppercase",
    "sign",
    "math",
    "grouping",
)
"""The opcodes that give a character its class and its cells."""

RULED: Final = "rule"
"""The class of a character that no line defines, and a rule writes, as `hyphen -` does."""

SIGNS: Final = ("numsign", "capsletter", "begcapsword", "nonumsign")
"""The opcodes of signs that have a counterpart."""

NUMBERS: Final = (
    "begnum",
    "decpoint",
    "endnum",
    "hyphen",
    "joinnum",
    "midendnumericmodechars",
    "midnum",
    "numericmodechars",
    "numericnocontchars",
)
"""What marks and letters do beside digits, which liblouis is asked for."""

KINDS: Final[Mapping[str, tuple[str, ...]]] = {
    "always": ("always",),
    "word": ("word",),
    "begword": ("begword",),
    "midword": ("midword",),
    "endword": ("endword",),
    "sufword": ("word", "begword"),
    "prfword": ("word", "endword"),
    "begmidword": ("begword", "midword"),
    "midendword": ("midword", "endword"),
    "partword": ("begword", "midword", "endword"),
    "lowword": ("word",),
    "largesign": ("word", "begword"),
    "prepunc": ("begword",),
    "postpunc": ("endword",),
}
"""The kinds of rules of the profile that an opcode of a rule comes to."""

INEXACT: Final = ("lowword", "largesign", "prepunc", "postpunc")
"""Opcodes of rules that mean more than their kinds."""

SILENT: Final = ("display", "include", "undefined", "attribute", "base", "multind")
"""Opcodes without which the braille of a text is the same, or that are read elsewhere."""


@dataclass(frozen=True)
class SourceRule:
    """A rule as it is written."""

    line: TableLine
    characters: str
    dots: str


@dataclass(frozen=True)
class SourceTable:
    """What a table says, as far as it is read."""

    classes: Mapping[str, frozenset[str]]
    dots: Mapping[str, str]
    lower: Mapping[str, str]
    signs: Mapping[str, str]
    rules: tuple[SourceRule, ...]
    asked: tuple[TableLine, ...]
    left: tuple[TableLine, ...]


@dataclass
class _Reading:
    classes: dict[str, set[str]] = field(default_factory=dict)
    dots: dict[str, str] = field(default_factory=dict)
    lower: dict[str, str] = field(default_factory=dict)
    signs: dict[str, str] = field(default_factory=dict)
    rules: list[SourceRule] = field(default_factory=list)
    asked: list[TableLine] = field(default_factory=list)
    left: list[TableLine] = field(default_factory=list)
    ruled: dict[str, str] = field(default_factory=dict)
    """The single characters that rules write, with the dots of the first such rule."""

    def take(self, line: TableLine) -> None:
        """Reads one line into what it says, or among the lines that are left."""
        opcode = line.opcode
        reader: Callable[[TableLine], bool] | None = None
        if opcode == "grouping":
            reader = self.grouping
        elif opcode in DEFINITIONS:
            reader = self.define
        elif opcode == "base":
            reader = self.base
        elif opcode == "attribute":
            reader = self.attribute
        elif opcode in SIGNS:
            reader = self.sign
        elif opcode in NUMBERS:
            self.asked.append(line)
            if opcode == "hyphen":
                self._read(self.hyphen, line)
            return
        elif opcode in KINDS and "after" not in line.name and "before" not in line.name:
            reader = self.rule
        elif opcode in SILENT:
            return
        if reader is None or not self._read(reader, line):
            self.left.append(line)

    def _read(self, reader: Callable[[TableLine], bool], line: TableLine) -> bool:
        try:
            return reader(line)
        except BadOperand:
            return False

    def define(self, line: TableLine) -> bool:
        if len(line.operands) < 2:
            return False
        character = characters(line.operands[0])
        if len(character) != 1:
            return False
        if line.opcode == "litdigit":
            self.dots[character] = line.operands[1]
        self.dots.setdefault(character, line.operands[1])
        self.classes.setdefault(character, set()).add(line.opcode)
        return True

    def grouping(self, line: TableLine) -> bool:
        """Two characters with a name before them, and the dots of both with a comma between them."""
        if len(line.operands) < 3:
            return False
        pair = characters(line.operands[1])
        dots = line.operands[2].split(",")
        if len(pair) != 2 or len(dots) != 2:
            return False
        for character, its_dots in zip(pair, dots):
            self.dots.setdefault(character, its_dots)
            self.classes.setdefault(character, set()).add(line.opcode)
        return True

    def hyphen(self, line: TableLine) -> bool:
        """A character that goes between the digits of some numbers, and has cells elsewhere too."""
        return self.written(characters(line.operands[0]), line.operands[1:])

    def written(self, characters: str, dots: Sequence[str]) -> bool:
        """Takes note of a single character that is written by a rule, if nothing defines it."""
        if len(characters) != 1 or not dots:
            return False
        self.ruled.setdefault(characters, dots[0])
        return True

    def base(self, line: TableLine) -> bool:
        if len(line.operands) < 3:
            return False
        upper, lower = (characters(operand) for operand in line.operands[1:3])
        if len(upper) != 1 or len(lower) != 1:
            return False
        self.lower.setdefault(upper, lower)
        self.classes.setdefault(upper, set()).add(
            "uppercase" if line.operands[0] == "uppercase" else "base"
        )
        return True

    def attribute(self, line: TableLine) -> bool:
        if len(line.operands) < 2:
            return False
        if line.operands[0] in DEFINITIONS:
            for character in characters(line.operands[1]):
                self.classes.setdefault(character, set()).add(line.operands[0])
        return True

    def sign(self, line: TableLine) -> bool:
        if not line.operands:
            return False
        self.signs[line.opcode] = line.operands[0]
        return True

    def rule(self, line: TableLine) -> bool:
        if len(line.operands) < 2:
            return False
        text = characters(line.operands[0])
        self.rules.append(SourceRule(line, text, line.operands[1]))
        if line.opcode == "always":
            self.written(text, line.operands[1:])
        return True


def read_table(source: Source) -> SourceTable:
    """Reads what the lines of a table say."""
    reading = _Reading()
    for line in source.lines:
        if line.is_for_print:
            reading.take(line)
    for character, dots in reading.ruled.items():
        if character not in reading.classes:
            reading.classes[character] = {RULED}
            reading.dots[character] = dots
    return SourceTable(
        {
            character: frozenset(classes)
            for character, classes in reading.classes.items()
        },
        reading.dots,
        reading.lower,
        reading.signs,
        tuple(reading.rules),
        tuple(reading.asked),
        tuple(reading.left),
    )
