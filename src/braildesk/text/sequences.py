"""Combining sequences: the pieces of a text that no correction, search or line break takes apart.

A sequence is a character and what belongs to it: combining marks of any kind, the vowels and final
consonants of Korean syllables that are spelled out, and a character that normal form C would join
to the one before it. The places between sequences are the seams of a text.
"""

import re
import unicodedata
from collections.abc import Iterator, Sequence
from functools import lru_cache

from braildesk.text import limits

# a sequence gets shorter by three characters at most
_LONGEST = limits.PRINT_CHARACTERS + 3
# about so many characters are put into normal form C at once
_AT_ONCE = 1_000
# where a sentence ends, with the blanks after it; compiled where it is looked for, which is rare
_SENTENCE = r"[.!?\u2026][\u201d\u2019\u00bb\"')\]]*\s+"
# characters that never belong to the one before them: those of Latin, of punctuation and of braille
_ALONE = "\0-\u02ff\u2010-\u2027\u2800-\u28ff"
# these are compiled where they are looked for, since few short commands do so
_ALL_ALONE = f"[{_ALONE}]*"
#: Latin letters, the signs that stand among them, and braille, without what isn't seen.
PLAIN = re.compile("[ -~\u00a0-\u00ac\u00ae-\u02ff\u2010-\u2027\u2800-\u28ff]*")
_LATE = f"[^{_ALONE}]"
JOINING_JAMO = range(0x1160, 0x1200)
_MORE_JOINING_JAMO = range(0xD7B0, 0xD800)


# the same few pairs of characters stand all over a text
@lru_cache(maxsize=4096)
def belongs(before: str, character: str) -> bool:
    """Whether a character belongs to the sequence of the one before it."""
    if character < "\u0300":
        return False
    code = ord(character)
    if code in JOINING_JAMO or code in _MORE_JOINING_JAMO:
        return True
    if unicodedata.category(character).startswith("M"):
        return True
    # letters that join, as there are since Unicode 16
    return len(unicodedata.normalize("NFC", before + character)) < 2


# a text in which words are found is shown after that
@lru_cache(maxsize=8)
def is_plain(text: str) -> bool:
    """Whether each character is a sequence of its own, which is seen and takes one column.

    It may be so of a text of other characters than those of Latin and of braille too.
    """
    is_ascii = text.isascii() and text.isprintable()
    return is_ascii or PLAIN.fullmatch(text) is not None


def seams(text: str) -> Sequence[int]:
    """The places of a text where no sequence is cut, its front and its end among them."""
    places = range(len(text) + 1)
    if text.isascii() or re.fullmatch(_ALL_ALONE, text):
        return places
    lates = (late.start() for late in re.compile(_LATE).finditer(text, 1))
    joined = {place for place in lates if belongs(text[place - 1], text[place])}
    return [place for place in places if place not in joined] if joined else places


def sequences(text: str) -> list[str]:
    """A text, parted at its seams."""
    places = seams(text)
    if len(places) > len(text):
        return list(text)
    return [text[start:stop] for start, stop in zip(places, places[1:])]


def chunks(text: str) -> Iterator[str]:
    """A text, parted at some of its seams into pieces that are as long as few sequences are."""
    start = 0
    while start < len(text):
        stop = min(start + _AT_ONCE, len(text))
        while stop < len(text) and belongs(text[stop - 1], text[stop]):
            stop += 1
        yield text[start:stop]
        start = stop


def composed(text: str) -> str:
    """A text in normal form C.

    A sequence that no print can have stays as it is: its marks would be put into their order in a
    time that grows with the square of their number.
    """
    if text.isascii():
        return text
    if len(text) <= _LONGEST:
        return unicodedata.normalize("NFC", text)
    return "".join(
        unicodedata.normalize("NFC", part) if len(part) <= _LONGEST else part
        for chunk in chunks(text)
        for part in ([chunk] if len(chunk) <= _LONGEST else sequences(chunk))
    )


def parted(text: str, most: int) -> tuple[str, str]:
    """A text in two, the first no longer than so many characters: at a sentence, or at a blank.

    They are counted in normal form C. Of a text that is no longer than that nothing is parted.
    """
    front = text
    while (size := len(composed(front))) > most:
        front = front[: len(front) * most // size]
    if front == text:
        return text.rstrip(), ""
    ends = [found.end() for found in re.finditer(_SENTENCE, front)]
    blank = front.rfind(" ") + 1
    # what no print can have is parted within a sequence
    seam = max(s for s in seams(text) if s <= len(front)) or len(front)
    # a sentence that ends far from there would leave a short paragraph
    place = ends[-1] if ends and ends[-1] > most // 2 else blank or seam
    return text[:place].rstrip(), text[place:].lstrip()
