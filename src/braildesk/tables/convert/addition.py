"""Lines of the user's own, for characters and rules that a table lacks."""

from __future__ import annotations

from dataclasses import dataclass
from pathlib import Path

from braildesk.named_files import read_file
from braildesk.tables.faults import Cause, Fault
from braildesk.tables.reading import read
from braildesk.tables.warnings import warnings
from braildesk.text import limits


class BadAddition(Exception):
    """The lines can't be added: a sentence, and a line for each fault."""

    def __init__(self, sentence: str, *more: str) -> None:
        super().__init__("\n".join([sentence, *more]))
        self.sentence = sentence
        self.more = more


@dataclass(frozen=True)
class Addition:
    """Lines of a file, and the characters that they define."""

    path: Path
    lines: tuple[str, ...]
    characters: frozenset[str]

    def sentence(self) -> str:
        """What a comment says of the lines."""
        return (
            f"The last lines are those of {self.path.name}, which the user added. liblouis has nothing"
            " like them, so they were compared with nothing."
        )

    def after(self, text: str) -> tuple[str, list[str]]:
        """The text with the lines after it, which have to fit it, and what is to be known of them."""
        before = f"{text}# Added from {self.path.name}.\n"
        front = before.count("\n")
        whole = before + "".join(f"{line}\n" for line in self.lines)
        reading = read(whole.encode())
        if reading.faults:
            raise BadAddition(
                f"The lines of {self.path} don't fit the table. Nothing was written.",
                *(f"  line {one.line - front}: {_said(one)}" for one in reading.faults),
            )
        return whole, [
            f"Line {one.line - front} of {self.path.name}: {one.sentence}"
            for one in warnings(reading.table, is_for_embosser=False)
            if one.line > front
        ]


def _said(fault: Fault) -> str:
    """What is wrong, without the number of a line that nobody has seen."""
    if fault.cause in (Cause.DEFINED, Cause.GIVEN):
        return "an earlier line of the table has this already. Take the line out."
    return fault.sentence


def read_addition(path: Path) -> Addition:
    """Reads the lines of a file."""
    raw = read_file(path, limits.TEXT_BYTES)
    try:
        text = raw.decode("utf-8-sig")
    except UnicodeDecodeError as error:
        raise BadAddition(
            f"{path} is not UTF-8, so its lines can't be added."
        ) from error
    lines = tuple(
        line.removesuffix("\r") for line in text.removesuffix("\n").split("\n")
    )
    return Addition(path, lines, frozenset(read(text.encode()).table.definitions))
