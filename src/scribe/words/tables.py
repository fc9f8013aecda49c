"""Tables as a person reads them: faults and warnings, and prints in pieces, each with its line."""

from collections.abc import Iterator
from itertools import groupby
from pathlib import Path

from braildesk.named_files import is_handed_over
from braildesk.tables import (
    Definition,
    Fault,
    Piece,
    Reading,
    Rule,
    Sign,
    Warning,
    braille,
)
from braildesk.text.characters import is_visible, shortened, visible


_MOST_SHOWN = 200
#: The ends of the names of standard input, as /dev/stdin and /dev/fd/0.
_INPUT = ("stdin", "0")


def named(path: Path) -> str:
    """The name of a table's file at the front of a sentence."""
    if not is_handed_over(path):
        return path.name
    # a number says nothing of what a shell hands over, as by <(command)
    return "Standard input" if path.name in _INPUT else "What the shell handed over"


def fault_lines(reading: Reading) -> Iterator[str]:
    """Each fault, and what its line reads."""
    for fault in reading.faults:
        yield fault_line(fault, reading)


def fault_line(fault: Fault, reading: Reading) -> str:
    """A fault, and what its line reads."""
    return f"Line {fault.line:,}: {fault.sentence} {_reads(fault.line, reading)}"


def warning_lines(warnings: list[Warning], reading: Reading) -> Iterator[str]:
    """Each warning, what its line reads, and what the earlier line reads that it is about."""
    for warning in warnings:
        reads = _reads(warning.line, reading)
        if warning.earlier is not None:
            earlier = shortened(reading.written(warning.earlier), _MOST_SHOWN)
            reads += f" Line {warning.earlier:,} reads {earlier}."
        yield f"Line {warning.line:,}, a warning: {warning.sentence} {reads}"


def counted(number: int, what: str) -> str:
    """How many of something there are, as in `no faults` and `1 fault`."""
    return f"{f'{number:,}' if number else 'no'} {what}{'' if number == 1 else 's'}"


def _reads(line: int, reading: Reading) -> str:
    return f"It reads {shortened(reading.lines[line - 1].strip(), _MOST_SHOWN)}."


def piece_lines(pieces: list[Piece], reading: Reading) -> list[str]:
    """A line for each rule and each sign; characters between these share one."""
    lines = []
    for is_plain, group in groupby(pieces, _is_plain):
        parts = list(group)
        if is_plain and len(parts) > 1:
            lines.append(_characters(parts))
        else:
            lines += [_piece(part, reading) for part in parts]
    return lines


def _is_plain(piece: Piece) -> bool:
    """Whether a piece is a character by its definition, without a sign."""
    return isinstance(piece.chosen, Definition) and piece.sign is None


def _characters(pieces: list[Piece]) -> str:
    """Characters that have the cells of their definitions."""
    numbers = [f"{piece.chosen.line:,}" for piece in pieces]
    listed = f"{', '.join(numbers[:-1])} and {numbers[-1]}"
    return f"{_head(pieces)}: each by itself, lines {listed}"


def _piece(piece: Piece, reading: Reading) -> str:
    """A piece with the line of its rule or its definition, and that of its sign."""
    sign = f", after {_line(piece.sign, reading)}" if piece.sign else ""
    return f"{_head([piece])}: {_line(piece.chosen, reading)}{sign}"


def _head(pieces: list[Piece]) -> str:
    text = "".join(piece.text for piece in pieces)
    return f"“{visible(text, is_visible)}” {braille(pieces)}"


def _line(entry: Rule | Definition | Sign, reading: Reading) -> str:
    return f"line {entry.line:,}, {visible(reading.written(entry.line), is_visible)}"
