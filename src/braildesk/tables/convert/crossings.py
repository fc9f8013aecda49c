"""Rules that hold within a syllable alone, as German `ie` does in `viel` and not in `speziell`.

liblouis finds the syllables by patterns of letters, which are files of their own. Each pattern that may part
the characters of such a rule is asked for as it stands, and becomes a rule if it does.
"""

from __future__ import annotations

import re
from collections.abc import Iterator, Sequence
from dataclasses import dataclass
from typing import Final

from braildesk.tables.convert.draft import Origin, ProgramTrial, TableDraft
from braildesk.tables.convert.oracle import Frame, ask_frames, between
from braildesk.tables.convert.source import NoTable, find_table, read_text
from braildesk.tables.convert.subject import Subject

SYLLABLES: Final = Origin("Rules that end with a syllable, by asking liblouis.")

ROUNDS: Final = 3
"""How often the patterns are compared, since a rule for one may be wrong for another one."""

_DIGITS: Final = re.compile("[0-9]+")

_KINDS: Final = {
    (False, False): ("always",),
    (True, False): ("word", "begword"),
    (False, True): ("word", "endword"),
    (True, True): ("word",),
}
"""The kinds of rules for a pattern, by whether it is for the beginning and for the end of a word."""


@dataclass(frozen=True)
class _Pattern:
    """The letters of a pattern, and whether it is for the beginning or the end of a word."""

    letters: str
    begins: bool
    ends: bool

    def frame(self, word: str) -> Frame:
        """The letters within a word of that word's letters, or at an end of it."""
        return Frame(
            "" if self.begins else word, self.letters, "" if self.ends else word
        )


def settle_syllables(subject: Subject, draft: TableDraft, trial: ProgramTrial) -> None:
    """Adds rules for the patterns by which liblouis leaves a rule out."""
    parted = [
        rule.characters
        for rule in subject.table.rules
        if "nocross" in rule.line.prefixes and len(rule.characters) > 1
    ]
    carriers = subject.alphabet.carriers()
    if not parted or not carriers or subject.alphabet.is_large:
        return
    patterns = [
        one
        for one in dict.fromkeys(_patterns(subject, parted))
        if all(letter in draft.cells for letter in one.letters)
    ]
    frames = {one: one.frame(carriers[0] * 2) for one in patterns}
    ask_frames(subject.liblouis, frames.values())
    for _ in range(ROUNDS):
        lines = [frame.texts[0] for frame in frames.values()]
        ours = trial.cells(draft, lines)
        theirs = subject.liblouis.ask(lines)
        for (pattern, frame), want, have in zip(
            frames.items(), theirs, ours, strict=True
        ):
            cells = between(subject.liblouis, frame)
            if want is not None and want != have and cells:
                for kind in _KINDS[pattern.begins, pattern.ends]:
                    draft.add_rule(kind, pattern.letters, cells, SYLLABLES)


def _patterns(subject: Subject, parted: Sequence[str]) -> Iterator[_Pattern]:
    """The patterns with a digit, which says how they part, within the characters of one of these rules."""
    for name in _dictionaries(subject):
        for line in read_text(find_table(name)).split("\n")[1:]:
            word = _DIGITS.sub("", line.strip())
            begins, ends = word.startswith("."), word.endswith(".")
            for letters in _parted(line.strip(), parted):
                yield _Pattern(letters.replace(".", ""), begins, ends)


def _parted(pattern: str, parted: Sequence[str]) -> Iterator[str]:
    """The letters of a pattern, with those that a rule adds at an end where the pattern parts it there."""
    letters = _DIGITS.sub("", pattern)
    for digit in _DIGITS.finditer(pattern):
        place = len(_DIGITS.sub("", pattern[: digit.start()]))
        before, after = letters[:place], letters[place:]
        for rule in parted:
            for split in range(1, len(rule)):
                first, second = rule[:split], rule[split:]
                has_first = before.endswith(first) or first.endswith(before)
                has_second = after.startswith(second) or second.startswith(after)
                if has_first and has_second and (before or after):
                    front = first if first.endswith(before) else before
                    yield front + (second if second.startswith(after) else after)


def _dictionaries(subject: Subject) -> list[str]:
    """The files of patterns that are there."""
    found = []
    for line in subject.source.lines:
        if line.opcode == "hyphenation":
            try:
                find_table(line.file)
            except NoTable:
                continue
            found.append(line.file)
    return found
