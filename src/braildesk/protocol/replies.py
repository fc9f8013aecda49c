"""Replies of a session, read from the bytes that come."""

from collections import deque
from functools import lru_cache
from typing import NamedTuple


# made in 0.4 of the time of a dataclass, since each of a book's paragraphs may need several
class Reply(NamedTuple):
    """One reply: what it shows, and the word and the numbers of the line that ends it."""

    lines: tuple[str, ...]
    #: ``ok``, ``no`` or ``end``.
    word: str
    numbers: tuple[int, ...]


class Unreadable(Exception):
    """A line that no session of braildesk answers."""

    def __init__(self, line: bytes) -> None:
        super().__init__(line)
        self.line = line

    def __str__(self) -> str:
        return f"This is no line of a reply of braildesk: {self.line[:80]!r}."


class Reader:
    """Cuts bytes into replies, however they come."""

    def __init__(self) -> None:
        self._rest = b""
        self._lines: list[str] = []
        self._replies: deque[Reply] = deque()

    def feed(self, data: bytes) -> None:
        """Takes the next bytes."""
        *lines, self._rest = (self._rest + data).split(b"\n")
        for line in lines:
            try:
                if line.startswith(b"| "):
                    self._lines.append(line[2:].decode())
                else:
                    self._replies.append(Reply(tuple(self._lines), *_ending(line)))
                    self._lines.clear()
            except ValueError:
                # it isn't UTF-8, or has no numbers
                raise Unreadable(line) from None

    @property
    def has_reply(self) -> bool:
        """Whether a reply is there whole."""
        return bool(self._replies)

    def pop(self) -> Reply | None:
        """The next reply that is there whole."""
        return self._replies.popleft() if self._replies else None


# replies to queries end in the same line until the book has another version
@lru_cache(maxsize=16)
def _ending(line: bytes) -> tuple[str, tuple[int, ...]]:
    """The word and the numbers of the line that ends a reply; ``ValueError`` if it isn't one."""
    word, *numbers = line.decode().split(" ")
    if word not in ("ok", "no", "end") or not numbers:
        raise ValueError(word)
    return word, tuple(map(int, numbers))
