"""Words for lines that are compared: of a file, of an installed list, or of a table's own letters."""

from __future__ import annotations

import random
from collections.abc import Mapping, Sequence
from pathlib import Path
from typing import Final

from braildesk.named_files import read_file
from braildesk.tables.convert.draft import TableDraft
from braildesk.tables.convert.subject import Subject, script_of
from braildesk.text import limits

LISTS: Final = Path("/usr/share/dict")
SPELLING: Final = Path("/usr/share/hunspell")

MOST_WORDS: Final = 20_000
FEWEST_WORDS: Final = 200
MADE_UP: Final = 2_000

RARE: Final = 0.1
"""The share of letters beyond the alphabet of ASCII in made-up words."""

_LONGEST: Final = 24

_LIST_NAMES: Final[Mapping[str, tuple[str, ...]]] = {
    "ca": ("catalan",),
    "da": ("danish",),
    "de": ("ngerman", "ogerman", "swiss"),
    "en": ("american-english", "british-english"),
    "eo": ("esperanto",),
    "es": ("spanish",),
    "fo": ("faroese",),
    "fr": ("french",),
    "ga": ("irish",),
    "gl": ("galician-minimos",),
    "it": ("italian",),
    "nb": ("bokmaal",),
    "nl": ("dutch",),
    "no": ("bokmaal", "norwegian"),
    "pl": ("polish",),
    "pt": ("portuguese", "brazilian"),
    "sv": ("swedish",),
    "uk": ("ukrainian",),
}


def words_in(path: Path) -> list[str]:
    """The words of a file that have letters alone."""
    return [word for word in forms_in(path) if word.isalpha()]


def forms_in(path: Path) -> list[str]:
    """The words of a file: the first of each line, without what a spelling list adds to it."""
    raw = read_file(path, limits.TEXT_BYTES)
    try:
        text = raw.decode("utf-8-sig")
    except UnicodeDecodeError:
        text = raw.decode("latin-1")
    found = [line.split("/")[0].split()[:1] for line in text.splitlines()]
    return list(dict.fromkeys(word for words in found for word in words))


def installed_words(language: str) -> Path | None:
    """An installed list of words of a language, or None."""
    for name in _LIST_NAMES.get(language, ()):
        if (LISTS / name).is_file():
            return LISTS / name
    if SPELLING.is_dir():
        for path in sorted(SPELLING.glob(f"{language}*.dic")):
            if path.stem.split("_")[0] == language:
                return path
    return None


def usable(words: Sequence[str], draft: TableDraft) -> list[str]:
    """The words that a draft can write, in small letters, evenly taken if there are many."""
    folded = [draft.fold(word) for word in words if len(word) <= _LONGEST]
    good = [
        word
        for word in dict.fromkeys(folded)
        if all(draft.classes.get(one) == "letter" for one in word)
    ]
    return good[:: 1 + len(good) // MOST_WORDS]


def own_words(subject: Subject, draft: TableDraft, seed: int) -> list[str]:
    """Words of the table's letters, among which stand the letters of its rules."""
    chance = random.Random(seed)
    common, rare = _letters(subject, draft)
    if not common:
        return []
    letters = {*common, *rare}
    parts = [
        rule.characters
        for rule in subject.table.rules
        if len(rule.characters) > 1 and all(one in letters for one in rule.characters)
    ]
    words = []
    for _ in range(MADE_UP):
        pieces = [
            chance.choice(rare if rare and chance.random() < RARE else common)
            for _ in range(chance.randint(2, 8))
        ]
        if parts and chance.random() < 0.5:
            pieces[chance.randrange(len(pieces))] = chance.choice(parts)
        words.append("".join(pieces))
    return words


def _letters(subject: Subject, draft: TableDraft) -> tuple[list[str], list[str]]:
    """The letters of made-up words: plain ones, and such as few words have.

    A letter without a capital is left out if the script has capitals, since nobody writes a
    word in capitals with it.
    """
    alphabet = subject.alphabet
    script = alphabet.script if alphabet.script in alphabet.by_script else None
    own = [
        one
        for one in alphabet.of("letter")
        if one in draft.cells
        and one not in draft.lower
        and script in (None, script_of(one))
    ]
    cased = set(draft.lower.values()).intersection(own)
    own = [one for one in own if not cased or one in cased]
    plain = [one for one in own if one.isascii()]
    if not plain:
        return own, []
    return plain, [one for one in own if not one.isascii() and ord(one) < 0x180]
