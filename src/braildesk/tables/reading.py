"""The text of a table read: its entries, and all that is bad in it."""

import re
from dataclasses import dataclass, field

from braildesk.tables import faults
from braildesk.tables.entries import (
    CharacterSet,
    Class,
    Definition,
    Entry,
    RuleKind,
    Pair,
    Rule,
    SetName,
    Sign,
    SignName,
)
from braildesk.tables.faults import Cause, Fault
from braildesk.tables.operands import BadOperand, Cells, cells, characters
from braildesk.tables.table import Table, fold
from braildesk.text import limits

_MARK = "\ufeff".encode()
_GAP = re.compile("[ \t]+")

#: How a line of each opcode is written.
FORMS: dict[str, str] = {
    **{kind: f"{kind} CHARACTER DOTS" for kind in Class},
    "uplow": "uplow CHARACTERS DOTS or uplow CHARACTERS DOTS,DOTS",
    **{kind: f"{kind} CHARACTERS DOTS or {kind} CHARACTERS =" for kind in RuleKind},
    **{name: f"{name} DOTS" for name in SignName},
    **{name: f"{name} CHARACTERS" for name in SetName},
}


@dataclass(frozen=True)
class Reading:
    """What was read of a text."""

    #: The lines without their endings; bytes that aren't UTF-8 stand in them as U+FFFD.
    lines: tuple[str, ...]
    #: All faults, by line, and those of a line by cause.
    faults: tuple[Fault, ...]
    #: The table that is made of the lines without a fault.
    table: Table

    @property
    def first(self) -> Fault | None:
        """The fault by which the text is refused."""
        for ranked in (_is_not_utf8, _is_own):
            for fault in self.faults:
                if ranked(fault):
                    return fault
        return self.faults[0] if self.faults else None

    def written(self, line: int) -> str:
        """The opcode and the operands of a line, without what follows them."""
        fields = _fields(self.lines[line - 1])
        if fields and fields[0] in FORMS:
            fields = fields[: 1 + _operand_count(fields[0])]
        return " ".join(fields)


def read(text: bytes) -> Reading:
    """Reads the text of a table."""
    reader = _Reader()
    # of a text that is too long no line is read after the one that is refused for that
    raw = text.removeprefix(_MARK).split(b"\n", limits.TABLE_LINES + 1)
    if not raw[-1] or len(raw) > limits.TABLE_LINES + 1:
        reader.hides_some = bool(raw.pop())
    lines = [reader.line(n, line.removesuffix(b"\r")) for n, line in enumerate(raw, 1)]
    reader.judge_needed()
    ordered = sorted(reader.faults, key=lambda fault: (fault.line, fault.cause))
    return Reading(tuple(lines), tuple(ordered), Table.of(reader.entries))


def _is_not_utf8(fault: Fault) -> bool:
    return fault.cause is Cause.NOT_UTF8


def _is_own(fault: Fault) -> bool:
    """Whether a fault is seen without the lines after it."""
    return fault.cause is not Cause.UNDEFINED


def _operand_count(opcode: str) -> int:
    return 1 if opcode in {*SignName, *SetName} else 2


def _fields(line: str) -> list[str]:
    return [part for part in _GAP.split(line) if part]


@dataclass
class _Reader:
    """What is known while lines are read."""

    entries: list[Entry] = field(default_factory=list)
    faults: list[Fault] = field(default_factory=list)
    #: The lines that define characters, and that give signs and sets.
    defined: dict[str, int] = field(default_factory=dict)
    given: dict[str, int] = field(default_factory=dict)
    #: What lines with faults were meant to define: no other line is blamed for lacking these.
    meant: set[str] = field(default_factory=set)
    #: Whether a line isn't UTF-8, so that nobody knows what it defines.
    hides_some: bool = False
    lower: dict[str, str] = field(default_factory=dict)
    #: The lines with characters that have to be defined, and whether these are folded.
    needed: list[tuple[int, str, bool]] = field(default_factory=list)

    def line(self, number: int, raw: bytes) -> str:
        """Reads a line, and gives its text."""
        try:
            text = raw.decode()
        except UnicodeDecodeError as bad:
            before = len(raw[: bad.start].decode())
            self.faults.append(faults.not_utf8(number, before))
            self.hides_some = True
            return raw.decode(errors="replace")
        if len(text) > limits.TABLE_LINE_CHARACTERS:
            self.faults.append(faults.long_line(number, len(text)))
        if number == limits.TABLE_LINES + 1:
            self.faults.append(faults.many_lines(number))
        found = _fields(text)
        if found and not found[0].startswith("#"):
            self.fields(_Line(number, found[0], found[1:]))
        return text

    def fields(self, line: "_Line") -> None:
        """Reads the fields of a line that says something."""
        opcode = line.opcode
        if opcode not in FORMS:
            line.faults.append(faults.no_opcode(line.number, opcode, list(FORMS)))
            self.is_sound(line)
        elif len(line.operands) < _operand_count(opcode):
            line.faults.append(faults.missing(line.number, FORMS[opcode]))
            self.is_sound(line)
        elif opcode == "uplow":
            self.pair(line)
        elif opcode in set(Class):
            self.definition(line)
        elif opcode in set(RuleKind):
            self.rule(line)
        elif opcode in set(SignName):
            self.sign(line)
        else:
            self.character_set(line)

    def definition(self, line: "_Line") -> None:
        """Reads the definition of a character."""
        text = line.characters(1, "one character")
        found = line.cells(line.operands[1])
        if text is not None:
            self.judge_new(line, text)
        if self.is_sound(line) and text and found is not None:
            entry = Definition(line.number, Class(line.opcode), text, found)
            self.defined[text] = line.number
            self.entries.append(entry)

    def pair(self, line: "_Line") -> None:
        """Reads a capital with its small letter."""
        text = line.characters(2, "two characters, the capital first")
        parts = line.operands[1].split(",")
        if len(parts) > 2:
            line.faults.append(faults.too_many_parts(line.number, line.operands[1]))
            parts = []
        found = [line.cells(part) for part in parts]
        if text is not None:
            self.judge_new(line, text)
        if not self.is_sound(line) or text is None:
            return
        upper, lower = (
            Definition(line.number, Class.LETTER, character, dots)
            for character, dots in zip(text, (found[0], found[-1]))
            if dots is not None
        )
        self.defined |= {upper.character: line.number, lower.character: line.number}
        self.lower[upper.character] = lower.character
        self.entries.append(Pair(line.number, upper, lower))

    def rule(self, line: "_Line") -> None:
        """Reads a rule."""
        text = line.characters()
        takes_definitions = line.operands[1] == "="
        found = None if takes_definitions else line.cells(line.operands[1])
        if text is not None:
            line.judge_length(text)
            self.needed.append((line.number, text, True))
        if self.is_sound(line) and text:
            self.entries.append(Rule(line.number, RuleKind(line.opcode), text, found))

    def sign(self, line: "_Line") -> None:
        """Reads the cells of a sign."""
        found = line.cells(line.operands[0])
        self.judge_given(line)
        if self.is_sound(line) and found is not None:
            self.given[line.opcode] = line.number
            self.entries.append(Sign(line.number, SignName(line.opcode), found))

    def character_set(self, line: "_Line") -> None:
        """Reads the characters of a set."""
        text = line.characters()
        self.judge_given(line)
        if text is not None:
            line.judge_length(text)
            self.needed.append((line.number, text, False))
        if self.is_sound(line) and text:
            self.given[line.opcode] = line.number
            name = SetName(line.opcode)
            self.entries.append(CharacterSet(line.number, name, text))

    def judge_new(self, line: "_Line", text: str) -> None:
        """No earlier line defines the characters, and they differ."""
        if len(text) > len(set(text)):
            line.faults.append(faults.defined_twice(line.number, text[0]))
        for character in dict.fromkeys(text):
            if (earlier := self.defined.get(character)) is not None:
                line.faults.append(faults.defined(line.number, character, earlier))

    def judge_given(self, line: "_Line") -> None:
        """No earlier line gives the sign or the set."""
        if (earlier := self.given.get(line.opcode)) is not None:
            line.faults.append(faults.given(line.number, line.opcode, earlier))

    def judge_needed(self) -> None:
        """The characters that have to be defined are, by lines of the whole text."""
        if self.hides_some:
            return
        for number, text, is_folded in self.needed:
            wanted = fold(text, self.lower) if is_folded else text
            lacking = [
                each
                for each in dict.fromkeys(wanted)
                if each not in self.defined and each not in self.meant
            ]
            if lacking:
                self.faults.append(faults.undefined(number, lacking))

    def is_sound(self, line: "_Line") -> bool:
        """Whether a line has no fault; if it has one, what it was meant to define is kept."""
        self.faults += line.faults
        if line.faults and line.is_definition:
            self.meant |= set(line.spelled)
        return not line.faults


@dataclass(frozen=True)
class _Line:
    """A line that says something, and its faults."""

    number: int
    opcode: str
    operands: list[str]
    faults: list[Fault] = field(default_factory=list)

    @property
    def is_definition(self) -> bool:
        """Whether the line defines characters, or looks so by an opcode that there isn't."""
        if self.opcode in FORMS:
            return self.opcode == "uplow" or self.opcode in set(Class)
        return any(_are_cells(operand) for operand in self.operands[1:2])

    @property
    def spelled(self) -> str:
        """The characters of the first operand, as far as they can be read."""
        try:
            return characters(self.operands[0]) if self.operands else ""
        except BadOperand:
            return ""

    def characters(self, count: int | None = None, wanted: str = "") -> str | None:
        """The characters of the first operand, or None if it has a fault."""
        try:
            text = characters(self.operands[0])
        except BadOperand as bad:
            self.faults.append(faults.bad_characters(self.number, bad.sentence))
            return None
        if count is not None and len(text) != count:
            self.faults.append(
                faults.wrong_count(self.number, self.opcode, wanted, text)
            )
            return None
        return text

    def cells(self, operand: str) -> Cells | None:
        """The cells of a dots operand, or None if it has a fault."""
        try:
            found = cells(operand)
        except BadOperand as bad:
            self.faults.append(faults.bad_dots(self.number, bad.sentence))
            return None
        if len(found) > faults.MOST_CELLS:
            self.faults.append(faults.many_cells(self.number, len(found)))
            return None
        return found

    def judge_length(self, text: str) -> None:
        """A rule or a set has no more characters than it may have."""
        if len(text) > faults.MOST_CHARACTERS:
            self.faults.append(faults.many_characters(self.number, len(text)))


def _are_cells(operand: str) -> bool:
    try:
        return bool(cells(operand))
    except BadOperand:
        return False
