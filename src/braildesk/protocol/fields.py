"""The kinds of fields that a request has: how each is written in a line, and read from one."""

import re
from abc import ABC, abstractmethod
from dataclasses import KW_ONLY, dataclass
from typing import Any, ClassVar

from braildesk.protocol.codes import Code
from braildesk.text import limits
from braildesk.text.characters import shortened

_NUMBER = re.compile("[0-9]{1,16}")
_PLAIN_NAME = re.compile(f"[a-z0-9_-]{{1,{limits.NAME_CHARACTERS}}}")
# compiled where they are looked for, since that takes long and few commands need it
_NO_NAME = "[ \n\r\0\ud800-\udfff]"


class Unwritable(ValueError):
    """A request that can't be written, with the code by which the program would refuse it."""

    def __init__(
        self,
        code: Code,
        place: int | None = None,
        line: int | None = None,
        cause: int | None = None,
    ) -> None:
        super().__init__(code, place, line, cause)
        self.code = code
        self.place = place
        self.line = line
        self.cause = cause

    def __str__(self) -> str:
        return f"a request can't be written ({self.code})"


@dataclass(frozen=True, eq=False, repr=False)
class Field(ABC):
    """A kind of field."""

    #: What stands for it in the form of a request.
    word: str
    #: The code of a request whose line is too long by such a field.
    code: Code = Code.NO_REQUEST
    #: Whether it is the rest of a line, with all its blanks.
    is_rest: ClassVar[bool] = False
    #: The types of its values, and what these are called.
    types: ClassVar[type | tuple[type, ...]] = str
    called: ClassVar[str] = "a string"

    @property
    def words(self) -> tuple[str, ...]:
        """The words that it may be, apart from numbers and names."""
        return ()

    @abstractmethod
    def write(self, value: Any) -> str:
        """The field of a value, or ``Unwritable``."""

    @abstractmethod
    def read(self, word: str) -> Any:
        """The value of a field, or ``ValueError``."""

    def said(self, value: Any) -> str:
        """The value as a sentence has it."""
        return str(value)


@dataclass(frozen=True, eq=False, repr=False)
class Number(Field):
    """A number from 0 on, in decimal digits."""

    types: ClassVar[type | tuple[type, ...]] = int
    called = "a whole number"

    _: KW_ONLY
    most: int = limits.NUMBER

    def write(self, value: int) -> str:
        if not 0 <= value <= self.most:
            raise Unwritable(self.code)
        return f"{value:d}"

    def read(self, word: str) -> int:
        if not _NUMBER.fullmatch(word) or int(word) > self.most:
            raise ValueError(f"no number up to {self.most:,}: {word!r}")
        return int(word)


# what adds nothing to a kind is no dataclass of its own, since making one takes long
class Anchor(Number):
    """Where a paragraph is put: the front or the end, or after the one of a number."""

    words = ("front", "end")
    types = (int, str)
    called = 'a whole number, "front" or "end"'

    def write(self, value: int | str) -> str:
        if isinstance(value, int):
            return super().write(value)
        if value not in self.words:
            raise Unwritable(self.code)
        return value

    def read(self, word: str) -> Any:
        return word if word in self.words else super().read(word)


@dataclass(frozen=True, eq=False, repr=False)
class Choice(Field):
    """One of a few words."""

    _: KW_ONLY
    #: The words, each with what it stands for and with what a sentence has in its place.
    choices: tuple[tuple[str, object, str], ...]

    @property
    def words(self) -> tuple[str, ...]:
        return tuple(word for word, _, _ in self.choices)

    def write(self, value: object) -> str:
        for word, meant, _ in self.choices:
            if meant == value:
                return word
        raise Unwritable(self.code)

    def read(self, word: str) -> object:
        for each, meant, _ in self.choices:
            if each == word:
                return meant
        raise ValueError(f"none of the words of {self.word}: {word!r}")

    def said(self, value: object) -> str:
        return next(said for _, meant, said in self.choices if meant == value)


class Name(Field):
    """A name, which is one or more characters that aren't blanks."""

    def write(self, value: str) -> str:
        # a name of letters and digits has nothing that is looked for
        if not value.isalnum() and (not value or re.search(_NO_NAME, value)):
            raise Unwritable(self.code)
        return value

    def read(self, word: str) -> str:
        if not word:
            raise ValueError("an empty name")
        return word

    def said(self, value: str) -> str:
        return plain(value)


@dataclass(frozen=True, eq=False, repr=False)
class Text(Field):
    """A text or a note."""

    code: Code = Code.TOO_LONG
    is_rest = True

    def write(self, value: str) -> str:
        try:
            # only what is half of a pair of UTF-16 has no bytes
            value.encode()
        except UnicodeEncodeError as lone:
            raise Unwritable(Code.NO_REQUEST, lone.start) from None
        # looked for one by one, which takes less time than judging each character
        if "\n" in value or "\r" in value or "\0" in value:
            place = min(value.index(barred) for barred in "\n\r\0" if barred in value)
            raise Unwritable(Code.BARRED_CHARACTER, place)
        return value

    def read(self, word: str) -> str:
        return word

    def said(self, value: str) -> str:
        return shortened(value)


class OnOff(Choice):
    """Whether something is so."""

    # numbers too, as Python takes them for these
    types = int
    called = "True or False"


class Lines(Field):
    """How many lines the text of a table has, which follow the line of the request."""

    types = (bytes, bytearray)
    called = "bytes"

    def write(self, value: bytes) -> str:
        lines = lines_of(value)
        for number, line in enumerate(lines, 1):
            if number > limits.TABLE_LINES or len(line) > limits.LINE_BYTES:
                raise _bad_table(value, number)
        return str(len(lines))

    def read(self, word: str) -> int:
        return Number(self.word, most=limits.TABLE_LINES).read(word)


def plain(name: str) -> str:
    """A name, in quotation marks only if it isn't plain."""
    return name if _PLAIN_NAME.fullmatch(name) else shortened(name)


def lines_of(text: bytes) -> list[bytes]:
    """The lines of the text of a table, without their line feeds."""
    lines = text.split(b"\n")
    return lines if lines[-1] else lines[:-1]


def _bad_table(text: bytes, line: int) -> Unwritable:
    """A text that is not UTF-8 is refused for that before anything else."""
    try:
        text.decode()
    except UnicodeDecodeError as fault:
        line = 1 + text.count(b"\n", 0, fault.start)
        return Unwritable(Code.BAD_TABLE, line=line, cause=9)
    return Unwritable(Code.BAD_TABLE, line=line, cause=8)
