"""A table that is being brought over: what it says, its characters, and liblouis to ask about it."""

from __future__ import annotations

import unicodedata
from collections.abc import Mapping
from dataclasses import dataclass
from typing import Final

from braildesk.tables.convert.operands import read_dots, without_virtual_dots
from braildesk.tables.convert.oracle import Liblouis
from braildesk.tables.convert.source import Source
from braildesk.tables.convert.table import RULED, SourceTable, read_table
from braildesk.tables.operands import BadOperand, Cells

MANY: Final = 3_000
"""With so many characters, as Chinese and Korean have them, each is asked for in few places."""

CARRIERS: Final = 6
"""How many letters a character is asked for between, at most."""

DEEPEST_BASE: Final = 5
_RARE: Final = ("xqzjkv", "хцщфжв", "ξζψχφθ")
"""Letters that few contractions have."""

_SCRIPTS: Final[Mapping[str, str]] = {
    "ARABIC": "ar fa ur ckb ks sd",
    "ARMENIAN": "hy",
    "BENGALI": "bn be-in as mni",
    "CANADIAN": "iu",
    "CHEROKEE": "chr",
    "CJK": "zh zhcn",
    "COPTIC": "cop",
    "CYRILLIC": "ru uk be bel bg mn sr kk tt sah ba ukchardefs",
    "DEVANAGARI": "hi mr ne np sa kok bh br bra awa aw mwr dra gon kru mun",
    "ETHIOPIC": "ethio gez",
    "GEORGIAN": "ka",
    "GREEK": "el gr grc",
    "GUJARATI": "gu",
    "GURMUKHI": "pa pu",
    "HANGUL": "ko",
    "HEBREW": "he",
    "HIRAGANA": "ja",
    "KANNADA": "kn ka-in",
    "KHMER": "km",
    "MALAYALAM": "ml",
    "MYANMAR": "my",
    "ORIYA": "or",
    "SINHALA": "si sin",
    "TAMIL": "ta",
    "TELUGU": "te",
    "TIBETAN": "bo",
}
"""The scripts other than Latin, each with the languages by which tables are named."""

_NOT_TO_BE_DEFINED: Final = "\n\r\x00\ufffd"


def is_pattern(character: str) -> bool:
    """Whether a character is one of Braille Patterns, which is its own cell wherever it stands."""
    return 0x2800 <= ord(character) <= 0x28FF


def script_of(character: str) -> str:
    """The script of a character, by the first word of its name."""
    return unicodedata.name(character, "?").split(" ", 1)[0]


def script_of_table(name: str) -> str:
    """The script that a table is for, by its name."""
    stem = name.split(".")[0].replace("_", "-")
    for language in ("-".join(stem.split("-")[:2]), stem.split("-")[0]):
        for script, languages in _SCRIPTS.items():
            if language in languages.split():
                return script
    return "LATIN"


@dataclass(frozen=True)
class Alphabet:
    """The characters of a table."""

    script: str
    kinds: Mapping[str, str]
    """Each character with its class in the profile, in the table's order."""
    lower: Mapping[str, str]
    """Each capital with its small letter."""
    by_script: Mapping[str, tuple[str, ...]]
    """The letters of each script between which characters are asked for."""

    @property
    def is_large(self) -> bool:
        return len(self.kinds) > MANY

    def of(self, kind: str) -> list[str]:
        """The characters of a class."""
        return [one for one, its_kind in self.kinds.items() if its_kind == kind]

    def carriers(self, character: str = "") -> tuple[str, ...]:
        """The letters between which a character is asked for, of its own script if it has one."""
        main = self.by_script.get(self.script, ())
        if not main and self.by_script:
            main = max(self.by_script.values(), key=len)
        own = self.by_script.get(script_of(character), ()) if character else ()
        chosen = own if len(own) >= 3 and self.kinds[character] == "letter" else main
        return chosen[:2] if self.is_large else chosen


def make_alphabet(table: SourceTable, name: str) -> Alphabet:
    """The characters of a table, with the class that each has in the profile."""
    kinds = {
        one: _kind(one, table)
        for one in table.classes
        if one not in _NOT_TO_BE_DEFINED and not 0xD800 <= ord(one) <= 0xDFFF
    }
    if "letter" not in kinds.values():
        kinds |= {one: _kind_by_itself(one) for one in kinds}
    lower = _pairs(table, kinds)
    groups: dict[str, list[str]] = {}
    for one, kind in kinds.items():
        if kind == "letter" and one not in lower:
            groups.setdefault(script_of(one), []).append(one)
    cased = set(lower.values())
    by_script = {script: _chosen(letters, cased) for script, letters in groups.items()}
    return Alphabet(script_of_table(name), kinds, lower, by_script)


def _kind(character: str, table: SourceTable, depth: int = 0) -> str:
    classes = table.classes[character]
    if classes == {RULED}:
        return _kind_by_itself(character)
    for names, kind in (
        (("space",), "space"),
        (("digit", "litdigit"), "digit"),
        (("letter", "lowercase", "uppercase"), "letter"),
        (("punctuation",), "punctuation"),
    ):
        if classes.intersection(names):
            return kind
    base = table.lower.get(character)
    if base is not None and base in table.classes and depth < DEEPEST_BASE:
        return _kind(base, table, depth + 1)
    return "punctuation"


def _kind_by_itself(character: str) -> str:
    """The class of a character that no line gives one, as of tables that call all of them signs."""
    if character.isalpha():
        return "letter"
    return "space" if character == " " else "punctuation"


def _pairs(table: SourceTable, kinds: Mapping[str, str]) -> dict[str, str]:
    pairs: dict[str, str] = {}
    taken: set[str] = set()
    for upper, classes in table.classes.items():
        if "uppercase" not in classes or upper not in kinds:
            continue
        lower = table.lower.get(upper, upper.lower())
        fits = kinds.get(lower) == "letter" and lower != upper
        if fits and not taken & {upper, lower}:
            pairs[upper] = lower
            taken |= {upper, lower}
    return pairs


def _chosen(letters: list[str], cased: set[str]) -> tuple[str, ...]:
    among = [one for one in letters if one in cased] or letters
    rare = [one for row in _RARE for one in row if one in among]
    step = max(1, len(among) // CARRIERS)
    others = [one for one in among[::step] if one not in rare]
    return tuple([*rare, *others][:CARRIERS])


@dataclass(frozen=True)
class Subject:
    """A table of liblouis from three sides: its lines, what they say, and what liblouis makes of them."""

    source: Source
    table: SourceTable
    alphabet: Alphabet
    liblouis: Liblouis

    def written_cells(self, character: str) -> Cells | None:
        """The cells that the lines give a character, in whatever place."""
        for rule in self.table.rules:
            if rule.line.opcode == "always" and rule.characters == character:
                found = _read(rule.dots)
                if found is not None:
                    return found
        seen = set()
        while character not in seen:
            seen.add(character)
            dots = self.table.dots.get(character)
            if dots is not None and dots != "=":
                return _read(dots)
            character = self.table.lower.get(character, character)
        return None


def _read(dots: str) -> Cells | None:
    try:
        return read_dots(without_virtual_dots(dots))
    except BadOperand:
        return None


def read_subject(source: Source, liblouis: Liblouis) -> Subject:
    """Reads a table that liblouis has open."""
    table = read_table(source)
    return Subject(source, table, make_alphabet(table, source.path.name), liblouis)
