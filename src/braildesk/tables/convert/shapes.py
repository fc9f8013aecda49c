"""Shapes of lines: the plain ones that the making asks about, and those that it has not seen.

In a pattern `{w}` is a word, `{W}` one with a capital, `{A}` one of capitals, `{l}` a letter, `{L}`
a capital, `{n}` a number of one to four digits, `{d}` a number of one or two, `{t}` three digits, and
`{m}` a mark.
"""

from __future__ import annotations

import random
import re
import string
from collections.abc import Container, Mapping, Sequence
from dataclasses import dataclass
from typing import Final


@dataclass(frozen=True)
class Shape:
    """A pattern of lines, with the name of what it tries."""

    name: str
    pattern: str


@dataclass(frozen=True)
class Sample:
    """A line of a shape."""

    line: str
    shape: str


def _shapes(name: str, *patterns: str) -> tuple[Shape, ...]:
    return tuple(Shape(name, pattern) for pattern in patterns)


ASKED: Final = (
    *_shapes("words", "{w} {w}", "{W} {w} {W}", "{l} {w}"),
    *_shapes("words with marks", "{w}, {w}", "{W} {w}.", "{w}; {w}: {w}", "{w}? {w}!"),
    *_shapes("words with marks", "({w})", "{w}-{w}", "{w}/{w}", "{w} + {w}"),
    *_shapes("quotations", '"{w}"', "'{w}'", "\u201c{w}\u201d", "\u00ab{w}\u00bb"),
    *_shapes("numbers", "{w} {d} {w}", "{d}, {d}", "{d}.", "{d},{d}", "{d} % {w}"),
    *_shapes("numbers with marks", "{d}-{d}", "{d}/{d}", "{d}:{d}", "({d})", '"{d}"'),
    *_shapes("capitals", "{A}"),
)
"""Shapes of single words and numbers, each with a mark."""

UNSEEN: Final = (
    *_shapes(
        "sentences",
        "{W} {w} {w} {w} {w}.",
        "{W} {w}, {w} {w}, {w}.",
        "{W} {w} {w}: {w}, {w} {w}!",
        "{W} {w}; {w} {w}?",
        "{W} {W} {w} {w} {W}.",
    ),
    *_shapes("words in capitals", "{w} {A} {w} {w}.", "{W} {A} {A} {w}."),
    *_shapes("passages of capitals", "{w} {A} {A} {A} {A} {w}."),
    *_shapes(
        "words with hyphens", "{W} {A}-{A} {w}.", "{W}-{W} {w} {w}-{w}.", "{w}-{W} {w}."
    ),
    *_shapes(
        "quotations",
        '{W} {w}, "{w} {w} {w}," {w} {w}.',
        '"{W} {w} {w}!" {w} {w}.',
        "{W} {w} \u201c{w} {w}\u201d {w}.",
        "{W} {w} \u201e{W} {w}\u201c, {w}.",
        "{W} {w} \u00ab{w} {w}\u00bb {w}.",
        "{W} {w} \u2018{w}\u2019 {w} {w}.",
    ),
    *_shapes("brackets", "{W} {w} ({w} {w} {w}), {w}.", "{W} {w} ({W} {n}) {w} [{w}]."),
    *_shapes("apostrophes", "{w} {w}\u2019{w} {w}'{w} {w}.", "{W}'{w} {w} {w}."),
    *_shapes("dashes", "{W} {w} \u2013 {w} {w} \u2013 {w}."),
    *_shapes("points of omission", "{W} {w}... {w} {w}.", "{W} {w}\u2026 {w} {w}."),
    *_shapes(
        "numbers",
        "{W} {w} {n} {w} {w} {n} {w}.",
        "{W} {w} {d},{d} {w} {n}.{t}.",
        "{W} {w} {d} %, {w} {d}% {w}.",
    ),
    *_shapes(
        "dates and hours",
        "{W} {d}.{d}.{n} {w} {d}/{d}/{n}.",
        "{W} {w} {d}:{d}, {w} {n}-{n} {w}.",
    ),
    *_shapes("numbers in brackets", "{W} {w} ({n}\u2013{n}), {w}. {n}."),
    *_shapes("signs", "{W} {w} \u00a7 {n}, {w} {w} \u20ac {n}."),
    *_shapes("sums", "{w} {d} + {d} = {n}, {w}."),
    *_shapes("letters at numbers", "{W} {w} {d}{l} {w} {d}{L}, {w}."),
    *_shapes("addresses", "{w}.{w}@{w}.{l}{l}", "www.{w}.{l}{l}/{w}"),
    *_shapes("initials", "{L}. {W} {w} {L}. {L}. {W}."),
    *_shapes("lists", "{d}. {W} {w}; {d}) {w} {w}.", "{W} {l}) {w}, {l}) {w} {l} {w}."),
)
"""Shapes of sentences, dates, sums, quotations, addresses and passages of capitals."""

JOINED: Final = (
    *_shapes("words with marks between", "{w}.{w}", "{w}/{w}", "{w}-{w}", "{w}_{w}"),
    *_shapes("words with marks between", "{w}:{w}", "{w}={w}", "{w}@{w}", "{W}.{w}"),
    *_shapes("words with marks between", "{w}+{w}", "{w}&{w}", "{w}|{w}", "{w}~{w}"),
    *_shapes("words after a mark", "/{w}", "{w}/{w}/", ".{w}", "*.{w}", "'{w}'"),
    *_shapes("words after a mark", "${w}", "#{w}", "~{w}", "+{w}", "^{w}", "|{w}|"),
    *_shapes("paths", "~/{w}", "~/.{w}/{w}", "./{w}", "../{w}", "{w}/*", "/{w}/*.{w}"),
    *_shapes("paths", "/{w}/{w}.{w}", "/{w}/{w}.{l}/{w}", "/{w}/{w}-{w}/{w}_{w}"),
    *_shapes("paths", "http://{w}.{w}/{w}", "https://www.{w}.{w}/", "{w}@{w}.{w}.{w}"),
    *_shapes("options", "-{w}", "--{w}", "--{w}={w}", "--{w}-{w}", "{A}={w}", "${A}"),
    *_shapes("words in brackets", "{w}({d})", "{w}.{w}({d})", "{w}()", "({w}){w}"),
    *_shapes("words in brackets", "[{w}]", "<{w}>", "{w}[{d}]", "{w}({w})"),
    *_shapes("letters beside a mark", "{w}.{l}", "{w}.{l}/", "{w}({l})", "{w}/{l}"),
    *_shapes("letters beside a mark", "{l}.{w}", "{l}-{w}", "{l}.{l}.", "{w}-{l}"),
    *_shapes(
        "letters beside a mark", "-{l}", "({l})", "'{l}'", '"{l}"', "{l}.", "-{l}."
    ),
    *_shapes("letters beside a mark", "{L}.{w}", "{L}.{W}", "{L}.{d}", "{L}.{L}.{L}."),
    *_shapes("letters beside a mark", "{L}&{L}", "{L}/{L}", "~{l}", "^{L}", "{w}={L}"),
    *_shapes("letters at an apostrophe", "{l}'{w}", "{l}\u2019{w}", "{w}'{l}"),
    *_shapes("letters beside a number", "{w}{d}", "{l}{d}", "{d}{l}", "{w}{d}.{w}"),
    *_shapes("letters beside a number", "{d}{w}", "{d}.{l}", "{w}-{d}.{d}", "{w}_{d}"),
    *_shapes(
        "words between angles", "<{w}>:<{w}>", "<{w}>.<{w}>", "<{w}>.{w}", "<{w}>:{w}"
    ),
    *_shapes("marks alone", '"{m}"', '"{m}".', '"{m}{m}"', "({m})", "'{m}'", '"-{L}"'),
    *_shapes("ordinals and years", "{d}st", "{d}nd", "{d}rd", "{d}th", "{d}s", "{d}er"),
    *_shapes(
        "capitals", "{A}_{A}", "{A}/{A}", "{A}.{w}", "{A}-{w}", "{w}.{W}", "{w}{W}"
    ),
)
"""Shapes of tokens with marks and numbers within, as technical texts have: names of files, and versions."""

ENCLOSED: Final = (
    *("{},", "{}.", "{};", "{}:", "{}?", "{}!", "({})", "({}", "{})"),
    *('"{}"', '"{}".', '"{}",', '("{}")', "'{}'", "\u201c{}\u201d"),
    *('"{}', '{}"', "\u201c{}", "{}\u201d", "\u2018{}", "{}\u2019", "\u2018{}\u2019"),
)
"""What may stand around such a token."""

_SLOT: Final = re.compile(r"\{([wWAlLndtm])\}")


@dataclass(frozen=True)
class Material:
    """What the slots of patterns are filled with."""

    words: Sequence[str]
    letters: Sequence[str]
    upper: Mapping[str, str]

    def capitalized(self, word: str) -> str:
        """The word with a capital, if its first letter has one."""
        return self.upper.get(word[0], word[0]) + word[1:]

    def in_capitals(self, word: str) -> str:
        """The word in capitals, if its letters have them."""
        return "".join(self.upper.get(one, one) for one in word)


def lines_of(
    shapes: Sequence[Shape],
    material: Material,
    defined: Container[str],
    each: int,
    seed: int,
) -> list[Sample]:
    """Lines of the shapes that have no other than defined characters, so many of each."""
    chance = random.Random(seed)
    lines: dict[str, Sample] = {}
    for shape in shapes:
        for _ in range(each):
            line = _SLOT.sub(
                lambda slot: _filled(slot[1], material, chance), shape.pattern
            )
            if all(one in defined for one in line):
                lines.setdefault(line, Sample(line, shape.name))
    return list(lines.values())


def _filled(slot: str, material: Material, chance: random.Random) -> str:
    if slot == "n":
        return str(chance.randint(0, 10 ** chance.randint(1, 4) - 1))
    if slot == "d":
        return str(chance.randint(1, 99))
    if slot == "t":
        return f"{chance.randint(0, 999):03}"
    if slot == "m":
        return chance.choice(string.punctuation)
    if slot in "lL":
        letter = chance.choice(material.letters)
        return material.in_capitals(letter) if slot == "L" else letter
    word = chance.choice(material.words)
    if slot == "W":
        return material.capitalized(word)
    return material.in_capitals(word) if slot == "A" else word
