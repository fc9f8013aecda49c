"""The requests of a book as people write them: head lines, read by the grammar of docs/FORMATS.md."""

from dataclasses import replace
from typing import Any

from braildesk.protocol.fields import Choice
from braildesk.protocol.requests import (
    BY_NAME,
    EXPECTED,
    Command,
    Request,
    TableHead,
    fields_of,
)
from braildesk.text import limits
from braildesk.text.characters import broken_after

from scribe.words.elsewhere import AMONG_REQUESTS, hint


# the fields that people would count from 1
_PLACES = ("START", "CELL", "PLACE")


class NotARequest(Exception):
    """A line that isn't in the language of requests, with a sentence that says why."""

    def __init__(self, sentence: str) -> None:
        super().__init__(sentence)
        self.sentence = sentence


def read_head(line: bytes) -> Request[Any] | TableHead:
    """The request that a head line asks for, its ending aside; ``NotARequest`` if it is none."""
    if len(line) > limits.LINE_BYTES:
        raise NotARequest(
            f"This line has over {limits.LINE_BYTES:,} bytes, and no request has so many."
        )
    try:
        text = line.decode()
    except UnicodeDecodeError as fault:
        before = len(line[: fault.start].decode())
        raise NotARequest(f"This line isn't UTF-8 {broken_after(before)}.") from None
    if not text:
        raise NotARequest("An empty line is no request.")
    if text.startswith(" "):
        raise NotARequest("This line begins with a blank, and no request does.")
    expect, text = _expected(text)
    name, blank, rest = text.partition(" ")
    kind = BY_NAME.get(name)
    if kind is None:
        raise NotARequest(unknown_request(name))
    return _expecting(kind, expect, _request(kind, rest if blank else None))


def unknown_request(name: str) -> str:
    """What is said of a word that is no request."""
    return f"There is no request “{name[:40]}”.{hint(name, BY_NAME, AMONG_REQUESTS)}"


def _expected(text: str) -> tuple[int | None, str]:
    """The version that the book has to be at, and the rest of the line."""
    if not text.startswith("@"):
        return None, text
    version, _, rest = text[1:].partition(" ")
    try:
        return EXPECTED.read(version), rest
    except ValueError:
        raise NotARequest(
            "After @ stands the number of a version, and after that one blank and a command."
        ) from None


def _request(kind: type[Request[Any]], rest: str | None) -> Request[Any] | TableHead:
    try:
        return kind.read(rest)
    except ValueError:
        raise NotARequest(
            f"The request {kind.name} is written as: {kind.form()}.{_counting(kind)}"
            f"{_choosing(kind)} One blank stands between fields, and none at the end."
        ) from None


def _counting(kind: type[Request[Any]]) -> str:
    """From where a request counts, if it has a place or a cell."""
    counted = [each.word for each in fields_of(kind).values() if each.word in _PLACES]
    return f" {counted[0]} is counted from 0." if counted else ""


def _choosing(kind: type[Request[Any]]) -> str:
    """The words of each field of a request that is one of a few."""
    choices = [its for its in fields_of(kind).values() if isinstance(its, Choice)]
    return "".join(f" {its.word} is {' or '.join(its.words)}." for its in choices)


def _expecting(
    kind: type[Request[Any]], expect: int | None, request: Request[Any] | TableHead
) -> Request[Any] | TableHead:
    if expect is None:
        return request
    if isinstance(request, (Command, TableHead)):
        return replace(request, expect=expect)
    raise NotARequest(
        f"A version may be expected by commands alone, and {kind.name} is a query."
    )
