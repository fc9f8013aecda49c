"""A session over a book: the requests of an input, and the replies to them.

This is the program's language by the words of docs/FORMATS.md, in plain steps and without a file.
Tests take from it what the program has to answer.
"""

import pathlib
import re
from typing import Optional

from .book import Anchor, Book, Refused

MOST_IN_HEAD = 65_536
MOST_NUMBER = 2**53
MOST_LINES = 20_000
SUPPLIED = (pathlib.Path(__file__).parent / "en.utb").read_bytes()

# The operands of each request, by their kinds. A text is the rest of the line.
COMMANDS: dict[str, tuple[str, ...]] = {
    "table": ("name", "lines"),
    "supply": ("name",),
    "type": ("anchor", "name", "text"),
    "correct": ("number", "number", "number", "text"),
    "correct-by": ("name", "number", "number", "number", "text"),
    "undo": ("number",),
    "mark": ("number", "number", "number", "text"),
    "resolve": ("number",),
    "strike": ("number",),
    "restore": ("number",),
    "style": ("number", "style"),
    "volume": ("number", "flag"),
    "retable": ("number", "name"),
    "move": ("number", "anchor"),
}
QUERIES: dict[str, tuple[str, ...]] = {
    "print": ("number",),
    "braille": ("number",),
    "history": ("number",),
    "marks": ("number",),
    "where": ("number", "number"),
    "whence": ("number", "number"),
    "list": (),
    "version": (),
}


class NotInLanguage(Exception):
    """A request isn't in the language."""


def number(written: str, most: int = MOST_NUMBER) -> int:
    if not re.fullmatch("[0-9]{1,16}", written) or int(written) > most:
        raise NotInLanguage(written)
    return int(written)


def name(written: str) -> str:
    if not written:
        raise NotInLanguage("an empty name")
    return written


def anchor(written: str) -> Anchor:
    return written if written in ("front", "end") else number(written)


def operand(kind: str, written: str) -> Anchor:
    if kind == "number":
        return number(written)
    if kind == "lines":
        return number(written, MOST_LINES)
    if kind == "anchor":
        return anchor(written)
    if kind in ("style", "flag"):
        words = ("body", "heading") if kind == "style" else ("on", "off")
        if written not in words:
            raise NotInLanguage(written)
        return written
    return name(written)


class Head:
    """A head line: the version that is expected, the word of the request, and its operands."""

    def __init__(self, line: bytes) -> None:
        self.expected: Optional[int] = None
        try:
            fields = line.decode("utf-8").split(" ")
        except UnicodeDecodeError as bad:
            raise NotInLanguage("not UTF-8") from bad
        if len(line) > MOST_IN_HEAD:
            raise NotInLanguage("too long")
        if fields[0].startswith("@"):
            self.expected = number(fields.pop(0)[1:])
        self.word, given = (fields or [""])[0], fields[1:]
        kinds = COMMANDS.get(self.word)
        if kinds is None and self.expected is None:
            kinds = QUERIES.get(self.word)
        if kinds is None:
            raise NotInLanguage(self.word)
        has_text = kinds[-1:] == ("text",)
        count = len(kinds) - has_text
        if len(given) < count or (len(given) > count and not has_text):
            raise NotInLanguage("too few or too many operands")
        self.operands = [operand(kind, it) for kind, it in zip(kinds[:count], given)]
        if has_text:
            self.operands.append(" ".join(given[count:]))

    def lines(self) -> int:
        """How many lines its block has."""
        return int(self.operands[1]) if self.word == "table" else 0


class Input:
    """Bytes that are cut into lines."""

    def __init__(self, data: bytes) -> None:
        self.data = data

    def line(self) -> Optional[bytes]:
        """The next line with its ending, if there is one."""
        end = self.data.find(b"\n") + 1 or len(self.data)
        found, self.data = self.data[:end], self.data[end:]
        return found or None


def without_ending(line: bytes) -> bytes:
    return line.removesuffix(b"\n").removesuffix(b"\r")


class Session:
    """Answers requests by a book."""

    def __init__(self, book: Optional[Book] = None) -> None:
        self.book = book or Book()

    def replies(self, data: bytes) -> list[bytes]:
        """The replies to the requests of an input."""
        source, replies = Input(data), []
        while (line := source.line()) is not None:
            replies.append(self.reply(without_ending(line), source))
        return replies

    def reply(self, line: bytes, source: Input) -> bytes:
        try:
            head = Head(line)
            block = self.block(head.lines(), source)
            return "".join(it + "\n" for it in self.lines(head, block)).encode()
        except NotInLanguage:
            return b"no 1\n"
        except Refused as refused:
            return ("no " + " ".join(map(str, refused.numbers)) + "\n").encode()

    def block(self, count: int, source: Input) -> bytes:
        lines = [source.line() for _ in range(count)]
        if any(it is None or len(without_ending(it)) > MOST_IN_HEAD for it in lines):
            raise NotInLanguage("a block that is cut, or has too long a line")
        return b"".join(it for it in lines if it is not None)

    def lines(self, head: Head, block: bytes) -> list[str]:
        if head.word in QUERIES:
            return [f"| {it}" for it in self.asked(head)] + [f"end {self.book.version}"]
        if head.expected not in (None, self.book.version):
            raise Refused(16, self.book.version)
        answered = self.done(head, block)
        self.book.version += 1
        return [
            f"ok {self.book.version}" + ("" if answered is None else f" {answered}")
        ]

    def asked(self, head: Head) -> list[str]:
        book, given = self.book, [int(it) for it in head.operands]
        if head.word == "print":
            return [book.paragraph(*given).print()]
        if head.word == "braille":
            return [book.cells(*given)]
        if head.word == "history":
            return book.history(*given)
        if head.word == "marks":
            return book.marks_on(*given)
        if head.word in ("where", "whence"):
            return [str(getattr(book, head.word)(*given))]
        return book.listed() if head.word == "list" else []

    def done(self, head: Head, block: bytes) -> Optional[int]:
        """Does a command, and answers its number, if it has one."""
        if head.word in ("table", "supply"):
            text = block if head.word == "table" else SUPPLIED
            self.book.give_table(str(head.operands[0]), text)
            return None
        if head.word == "type":
            after, table, text_in = head.operands
            return self.book.type(after, str(table), str(text_in))
        if head.word in ("correct", "correct-by", "mark"):
            return self.done_at_place(head)
        if head.word == "undo":
            return self.book.undo(int(head.operands[0]))
        self.do_other(head.word, int(head.operands[0]), head.operands[1:])
        return None

    def done_at_place(self, head: Head) -> int:
        *given, paragraph, at, count, text = head.operands
        place = int(paragraph), int(at), int(count), str(text)
        if head.word == "mark":
            return self.book.give_mark(*place)
        return self.book.correct(*place, who=str(given[0]) if given else "")

    def do_other(self, word: str, number: int, given: list[Anchor]) -> None:
        """Does a command that answers no number."""
        if word == "resolve":
            self.book.resolve(number)
        elif word == "strike":
            self.book.strike(number)
        elif word == "restore":
            self.book.restore(number)
        elif word == "style":
            self.book.give_style(number, str(given[0]))
        elif word == "volume":
            self.book.begin_volume(number, given[0] == "on")
        elif word == "retable":
            self.book.retable(number, str(given[0]))
        else:
            self.book.move(number, given[0])
