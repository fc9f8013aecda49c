"""What the text of a table means."""

from collections.abc import Iterable, Mapping
from dataclasses import dataclass, field, replace
from functools import cached_property

from braildesk.tables.entries import (
    CharacterSet,
    Class,
    Definition,
    Entry,
    Pair,
    Rule,
    SetName,
    Sign,
    SignName,
)
from braildesk.tables.operands import Cells


@dataclass(frozen=True)
class Table:
    """The definitions of a table by their characters, and its rules, signs and sets."""

    definitions: Mapping[str, Definition] = field(default_factory=dict)
    #: The small letters by their capitals.
    lower: Mapping[str, str] = field(default_factory=dict)
    #: The rules in the order of their lines, with folded characters.
    rules: tuple[Rule, ...] = ()
    signs: Mapping[SignName, Sign] = field(default_factory=dict)
    sets: Mapping[SetName, CharacterSet] = field(default_factory=dict)

    @classmethod
    def of(cls, entries: Iterable[Entry]) -> "Table":
        """The table that is made of some entries, of which none repeats another."""
        definitions: dict[str, Definition] = {}
        lower: dict[str, str] = {}
        rules: list[Rule] = []
        signs: dict[SignName, Sign] = {}
        sets: dict[SetName, CharacterSet] = {}
        for entry in entries:
            match entry:
                case Definition():
                    definitions[entry.character] = entry
                case Pair():
                    definitions[entry.upper.character] = entry.upper
                    definitions[entry.lower.character] = entry.lower
                    lower[entry.upper.character] = entry.lower.character
                case Rule():
                    rules.append(entry)
                case Sign():
                    signs[entry.name] = entry
                case CharacterSet():
                    sets[entry.name] = entry
        folded = (
            replace(rule, characters=fold(rule.characters, lower)) for rule in rules
        )
        return cls(definitions, lower, tuple(folded), signs, sets)

    def folded(self, text: str) -> str:
        """A text with small letters in place of its capitals."""
        return fold(text, self.lower)

    def is_capital(self, character: str) -> bool:
        """Whether a character is the capital of a pair."""
        return character in self.lower

    def is_of(self, kind: Class, character: str) -> bool:
        """Whether a character is of a class."""
        definition = self.definitions.get(character)
        return definition is not None and definition.kind is kind

    def has(self, name: SetName, character: str) -> bool:
        """Whether a character is in a set."""
        found = self.sets.get(name)
        return found is not None and character in found.characters

    def cells_of(self, chosen: Rule | Definition) -> Cells:
        """The cells of a rule or a definition, without those of a sign."""
        if chosen.cells is not None:
            return chosen.cells
        assert isinstance(chosen, Rule)
        parts = (self.definitions[each].cells for each in chosen.characters)
        return tuple(cell for part in parts for cell in part)

    @cached_property
    def uppers(self) -> Mapping[str, str]:
        """The capitals of each small letter of a pair."""
        found: dict[str, str] = {}
        for upper, lower in self.lower.items():
            found[lower] = found.get(lower, "") + upper
        return found

    @cached_property
    def by_first(self) -> Mapping[str, tuple[Rule, ...]]:
        """The rules by their first characters, the longest first, and of those the earliest."""
        found: dict[str, list[Rule]] = {}
        for rule in self.rules:
            found.setdefault(rule.characters[0], []).append(rule)
        return {
            first: tuple(sorted(rules, key=lambda rule: -len(rule.characters)))
            for first, rules in found.items()
        }


def fold(text: str, lower: Mapping[str, str]) -> str:
    """A text with small letters in place of the capitals that have one."""
    return "".join(lower.get(each, each) for each in text)
