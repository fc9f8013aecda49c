"""What a person types, read as what was asked for: numbers, texts, paragraphs and paths."""

import os
import re
from collections.abc import Iterator
from pathlib import Path
from typing import TYPE_CHECKING, Self

from braildesk.text import limits
from braildesk.text.characters import control_refused, shortened

if TYPE_CHECKING:
    from braildesk.desk.ranges import PageRange, ParagraphRange
    from braildesk.protocol.values import After

_LONE = range(0xDC80, 0xDD00)
# between single marks, between double ones, or up to a blank
_WORD = re.compile(
    r"""\ *(?:'([^']*)'(?=\ |$)|"((?:[^"\\]|\\.)*)"(?=\ |$)|((?:[^\ \\]|\\.|\\$)+))""",
    re.DOTALL,
)
# what a backslash isn't kept before
_ESCAPED = re.compile(r"""\\([\ \t'"\\])""")
_AFTER_BACKSLASH = (
    " One after a backslash doesn't close it; two backslashes stand for one."
)
_NUMERIC = re.compile(r"[-+]?\d[\d.,]*")
_RANGE = re.compile(r"([0-9]+)?(?:(-)([0-9]+)?)?")
#: The digits of a number in the requests of a book at most.
_DIGITS = 16
#: The first and the last of a range, none where it isn't said.
_Ends = tuple[int | None, int | None]


class InvalidInput(ValueError):
    """What was typed isn't what was asked for; the end of a sentence says why."""


class QuotedHyphen(str):
    """A word that begins with a hyphen, as it stood in quotation marks: it is no option."""

    #: The word without the marks.
    word: str

    def __new__(cls, word: str) -> Self:
        made = super().__new__(cls, f"'{word}'")
        made.word = word
        return made


def number(word: str) -> int:
    """The number that a word is: decimal digits, as the requests of a book have them."""
    if not (word.isascii() and word.isdigit()):
        # a sign or a point is no digit, nor are the digits of other scripts
        digits = " in the digits 0 to 9 alone" if _NUMERIC.fullmatch(word) else ""
        raise InvalidInput(f"{shortened(word)} is not a number{digits}")
    digits = word.lstrip("0")
    if len(digits) > _DIGITS or (found := int(digits or "0")) > limits.NUMBER:
        raise InvalidInput(f"{word} is too large a number")
    return found


def text(word: str) -> str:
    """A text or a note, which has no control character but the tab."""
    if any(ord(character) in _LONE for character in word):
        raise InvalidInput("it is not UTF-8")
    refused = control_refused(word.encode(), "text")
    if refused is not None:
        raise InvalidInput(refused)
    return word


def words(word: str) -> str:
    """A text that is looked for, which is not empty."""
    if not word:
        raise InvalidInput("it is empty, and nothing can be looked for")
    return text(word)


def proofreader(word: str) -> str:
    """The name of a proofreader, as a book takes it."""
    name = text(word)
    if 1 <= len(name) <= limits.WHO_CHARACTERS and " " not in name:
        return name
    # imported here, since such a name is rarely typed
    from braildesk.protocol.codes import Code
    from braildesk.protocol.requests import CorrectBy
    from braildesk.refusals import refused

    asked = CorrectBy(0, 0, 0, "", who=name)
    raise InvalidInput(refused(Code.BAD_PROOFREADER, asked).sentence)


def after(word: str) -> "After":
    """Where a paragraph is put: front, end, or the number of the one before it."""
    if word == "front":
        return "front"
    if word == "end":
        return "end"
    try:
        return number(word)
    except InvalidInput:
        raise InvalidInput(
            f"{shortened(word)} is none of front, end and the number of a paragraph"
        ) from None


def switch(word: str) -> bool:
    """Whether something is on."""
    if word not in ("on", "off"):
        raise InvalidInput(f"{shortened(word)} is neither on nor off")
    return word == "on"


def paragraph_ranges(word: str) -> "tuple[ParagraphRange, ...]":
    """The ranges of paragraphs that a word names, as in `3-9,12`."""
    # imported here, since few commands take them
    from braildesk.desk.ranges import ParagraphRange

    return tuple(ParagraphRange(*ends) for ends in _ranges(word, "paragraph"))


def page_ranges(word: str) -> "tuple[PageRange, ...]":
    """The ranges of pages that a word names, as in `3-9,12`."""
    from braildesk.desk.ranges import PageRange  # as above

    return tuple(PageRange(*ends) for ends in _in_order(_ranges(word, "page")))


def _ranges(word: str, what: str) -> Iterator[_Ends]:
    """The ends of ranges of things."""
    for part in word.split(","):
        match = _RANGE.fullmatch(part)
        if match is None or not (match[1] or match[3]):
            raise InvalidInput(
                f"{shortened(part)} is no {what} and no range such as 3-9"
            )
        first = number(match[1]) if match[1] else None
        last = number(match[3]) if match[3] else None
        yield first, last if match[2] else first


def _in_order(ranges: Iterator[_Ends]) -> Iterator[_Ends]:
    """Ranges of things that stand in the order of their numbers."""
    for first, last in ranges:
        if first is not None and last is not None and last < first:
            raise InvalidInput(f"{last} comes before {first}: ask for {last}-{first}")
        yield first, last


def words_of(line: str) -> list[str]:
    """The words of a line as a shell parts them, but that an apostrophe within a word is one.

    A word that begins with a quotation mark goes on to the next one. A backslash takes a quotation
    mark, a blank or a backslash as it is, or a hyphen at the front of a word without marks, and is
    kept before all else and between single marks. A hyphen at the front of what stands between
    marks, or after a backslash, makes a word a ``QuotedHyphen``. Tabs at the front and at the end are
    passed over as blanks are.
    """
    found: list[str] = []
    line, place = _without_ends(line), 0
    while match := _WORD.match(line, place):
        place = match.end()
        single, double, bare = match.groups()
        if bare is not None and bare[0] in "'\"":
            is_taken = bare[0] == '"' and '\\"' in line[match.start() :]
            raise InvalidInput(
                f"The quotation mark {bare[0]} is opened and not closed."
                f"{_AFTER_BACKSLASH if is_taken else ''}"
            )
        word = _ESCAPED.sub(r"\1", double or bare or "") if single is None else single
        if bare is not None and bare.startswith("\\-"):
            word = word[1:]
        is_bare = bare is not None and bare[0] == "-"
        found.append(QuotedHyphen(word) if word[:1] == "-" and not is_bare else word)
    return found


def _without_ends(line: str) -> str:
    """A line without the blanks and the tabs around it, but for one that a backslash takes."""
    line = line.lstrip(" \t")
    words = line.rstrip(" \t")
    backslashes = len(words) - len(words.rstrip("\\"))
    return line[: len(words) + backslashes % 2]


def path_word(path: Path | str) -> str:
    """A path as a word of a command, which takes it for no option of its own."""
    word = str(path)
    return f"./{word}" if word.startswith("-") else word


def some_path(word: str) -> Path:
    """The path that a word is, which is not empty."""
    if not word:
        # it would be the folder in which scribe was started
        raise InvalidInput("it is empty, which is no path")
    return Path(word)


def file_path(word: str) -> Path:
    """The path of a file; what opens it says of one that is there that it is a folder."""
    path = some_path(word)
    # a path of Python has no slash at its end any more
    if word.endswith("/") and os.path.isdir(path.parent) and not os.path.isdir(path):
        raise InvalidInput(f"{word} ends in a slash, as only the path of a folder does")
    return path


def given_path(word: str) -> Path:
    """The path of a file that was typed where one has to be."""
    path = typed_path(str(some_path(word)))
    return file_path(f"{path}/") if word.endswith("/") else path


def typed_path(word: str) -> Path:
    """The path that was typed, with ~ as the person's folder.

    A path that begins with ~ and the name of nobody is taken as it stands.
    """
    try:
        return Path(word).expanduser()
    except RuntimeError:
        return Path(word)
