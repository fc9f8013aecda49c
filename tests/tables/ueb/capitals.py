"""Where a line needs what no table of the profile has: signs of capitals beyond a word."""

import itertools
import re

# how many words in capitals are a passage, by the Rules of Unified English Braille (8)
PASSAGE_WORDS = 3

LETTERS = re.compile(r"[^\W\d_]+")


def has_small_letters(word: str) -> bool:
    """Whether a word has small letters."""
    return word.upper() != word


def has_capitals(word: str) -> bool:
    """Whether a word has capitals."""
    return word.lower() != word


def passages(line: str) -> list[range]:
    """The places of each passage of capitals, from its first capital word to its end.

    Words without letters, such as numbers, go on with a passage and don't count.
    """
    found = []
    words = re.finditer(r"\S+", line)
    for are_small, group in itertools.groupby(
        words, lambda word: has_small_letters(word[0])
    ):
        rest = list(itertools.dropwhile(lambda word: not has_capitals(word[0]), group))
        count = sum(has_capitals(word[0]) for word in rest)
        if not are_small and count >= PASSAGE_WORDS:
            found.append(range(rest[0].start(), rest[-1].end()))
    return found


def runs_before_small_letters(line: str) -> list[range]:
    """The places of each run of capitals, two or more, that a small letter follows."""
    found = []
    for word in LETTERS.finditer(line):
        at = word.start()
        for are_capitals, group in itertools.groupby(word[0], str.isupper):
            first, at = at, at + len(list(group))
            if are_capitals and at - first > 1 and at < word.end():
                found.append(range(first, at))
    return found
