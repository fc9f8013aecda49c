"""Table texts: what they mean, or the line and the cause of what is bad in them."""

import re
from dataclasses import dataclass, field
from typing import Optional

CLASSES = ("space", "punctuation", "digit", "letter")
RULES = ("always", "word", "begword", "midword", "endword")
SIGNS = ("numsign", "capsletter", "begcapsword", "nocontractsign")
SETS = ("numericmodechars", "numericnocontchars")

MOST_LINES = 20_000
MOST_IN_LINE = 1_000
MOST_IN_OPERAND = 60
MOST_CELLS = 20

LETTER_ESCAPES = dict(zip("\\fnrstve", "\\\f\n\r \t\v\x1b"))
NUMBER_ESCAPES = {"x": 4, "y": 5, "z": 8}

Cells = tuple[int, ...]


class BadTable(Exception):
    """A table text is bad at a line, by a cause."""

    def __init__(self, line: int, cause: int) -> None:
        super().__init__(f"line {line} is bad by cause {cause}")
        self.line, self.cause = line, cause


@dataclass(frozen=True)
class Definition:
    kind: str
    cells: Cells


@dataclass(frozen=True)
class Rule:
    """A rule, whose characters are folded. Without cells it has those of their definitions."""

    kind: str
    characters: str
    cells: Optional[Cells]


@dataclass
class Table:
    definitions: dict[str, Definition] = field(default_factory=dict)
    lower: dict[str, str] = field(default_factory=dict)
    rules: list[Rule] = field(default_factory=list)
    signs: dict[str, Cells] = field(default_factory=dict)
    sets: dict[str, str] = field(default_factory=dict)

    def folded(self, text: str) -> str:
        return "".join(self.lower.get(it, it) for it in text)

    def kind(self, character: str) -> str:
        return self.definitions[character].kind

    def sign(self, name: str) -> Cells:
        return self.signs.get(name, ())

    def cells_of_rule(self, rule: Rule) -> Cells:
        if rule.cells is not None:
            return rule.cells
        parts = [self.definitions[it].cells for it in rule.characters]
        return tuple(cell for part in parts for cell in part)


def lines_of(data: bytes) -> list[bytes]:
    """The lines of some bytes, without their endings."""
    lines = data.split(b"\n")
    if not lines[-1]:
        lines.pop()
    return [it.removesuffix(b"\r") for it in lines]


def characters(operand: str) -> Optional[str]:
    """The characters of an operand, or nothing where it has an escape that there isn't."""
    found, rest = "", operand
    while rest:
        sign, rest = rest[0], rest[1:]
        if sign != "\\":
            found += sign
            continue
        letter, rest = rest[:1], rest[1:]
        if letter in LETTER_ESCAPES:
            found += LETTER_ESCAPES[letter]
        elif letter in NUMBER_ESCAPES:
            count = NUMBER_ESCAPES[letter]
            digits, rest = rest[:count], rest[count:]
            number = int(digits, 16) if is_hexadecimal(digits, count) else 0xD800
            if number > 0x10FFFF or 0xD800 <= number <= 0xDFFF:
                return None
            found += chr(number)
        else:
            return None
    return found


def is_hexadecimal(digits: str, count: int) -> bool:
    return re.fullmatch(f"[0-9a-fA-F]{{{count}}}", digits) is not None


def cell(written: str) -> Optional[int]:
    if written == "0":
        return 0
    if not re.fullmatch("[1-8]+", written) or len(set(written)) < len(written):
        return None
    return sum(1 << (int(it) - 1) for it in written)


def dots(operand: str) -> Optional[Cells]:
    """The cells of an operand, however many, or nothing where it isn't one."""
    cells = [cell(it) for it in operand.split("-")]
    return None if None in cells else tuple(it for it in cells if it is not None)


def causes_of_dots(*operands: str) -> set[int]:
    cells = [dots(it) for it in operands]
    if None in cells:
        return {4}
    return {8} if any(len(it) > MOST_CELLS for it in cells if it is not None) else set()


class Reading:
    """A table while its text is read, line by line."""

    def __init__(self) -> None:
        self.table = Table()
        # the characters that have to be defined, by their lines
        self.needed: list[tuple[int, str]] = []
        self.raw_rules: list[tuple[int, str, str, Optional[Cells]]] = []

    def causes(self, number: int, line: str) -> set[int]:
        """Takes up what a line gives, or answers the causes that hold of it."""
        too_long = {8} if len(line) > MOST_IN_LINE or number > MOST_LINES else set()
        fields = [it for it in re.split("[ \t]+", line) if it]
        if not fields or fields[0].startswith("#"):
            return too_long
        return too_long | self.causes_of_fields(number, fields[0], fields[1:])

    def causes_of_fields(
        self, number: int, opcode: str, operands: list[str]
    ) -> set[int]:
        if opcode in SIGNS:
            return self.give_sign(opcode, *operands[:1]) if operands else {2}
        if opcode in SETS:
            return self.give_set(number, opcode, operands[0]) if operands else {2}
        if opcode in CLASSES or opcode in RULES or opcode == "uplow":
            if len(operands) < 2:
                return {2}
            first, second = characters(operands[0]), operands[1]
            if opcode == "uplow":
                return self.give_pair(first, second)
            if opcode in CLASSES:
                return self.define(opcode, first, second)
            return self.give_rule(number, opcode, first, second)
        return {1}

    def define(self, kind: str, text: Optional[str], written: str) -> set[int]:
        causes = causes_of_dots(written)
        if text is None or len(text) != 1:
            causes |= {3}
        elif text in self.table.definitions:
            causes |= {5}
        elif not causes:
            self.table.definitions[text] = Definition(kind, dots(written) or ())
        return causes

    def give_pair(self, text: Optional[str], written: str) -> set[int]:
        parts = written.split(",")
        causes = causes_of_dots(*parts) if len(parts) < 3 else {4}
        if text is None or len(text) != 2:
            return causes | {3}
        upper, lower = text[0], text[1]
        if upper == lower or {upper, lower} & self.table.definitions.keys():
            causes |= {5}
        if not causes:
            self.table.definitions[upper] = Definition("letter", dots(parts[0]) or ())
            self.table.definitions[lower] = Definition("letter", dots(parts[-1]) or ())
            self.table.lower[upper] = lower
        return causes

    def give_rule(
        self, number: int, kind: str, text: Optional[str], written: str
    ) -> set[int]:
        causes = set() if written == "=" else causes_of_dots(written)
        if text is None:
            return causes | {3}
        if len(text) > MOST_IN_OPERAND:
            causes |= {8}
        if not causes:
            cells = None if written == "=" else dots(written)
            self.raw_rules.append((number, kind, text, cells))
        return causes

    def give_sign(self, name: str, written: str) -> set[int]:
        causes = causes_of_dots(written)
        if name in self.table.signs:
            causes |= {6}
        if not causes:
            self.table.signs[name] = dots(written) or ()
        return causes

    def give_set(self, number: int, name: str, written: str) -> set[int]:
        text = characters(written)
        causes = {6} if name in self.table.sets else set()
        if text is None:
            return causes | {3}
        if len(text) > MOST_IN_OPERAND:
            causes |= {8}
        if not causes:
            self.table.sets[name] = text
            self.needed.append((number, text))
        return causes

    def finished(self) -> Table:
        """The table, with its rules folded by all pairs of its text."""
        for number, kind, text, cells in self.raw_rules:
            folded = self.table.folded(text)
            self.table.rules.append(Rule(kind, folded, cells))
            self.needed.append((number, folded))
        for number, text in sorted(self.needed):
            if not all(it in self.table.definitions for it in text):
                raise BadTable(number, 7)
        return self.table


def read_table(data: bytes) -> Table:
    """What a text means. It is an error, BadTable, where it is bad."""
    try:
        data.decode("utf-8")
    except UnicodeDecodeError as bad:
        raise BadTable(1 + data[: bad.start].count(b"\n"), 9) from bad
    reading = Reading()
    for number, line in enumerate(lines_of(data), 1):
        text = line.decode("utf-8")
        causes = reading.causes(
            number, text.removeprefix("\ufeff") if number == 1 else text
        )
        if causes:
            raise BadTable(number, min(causes))
    return reading.finished()
