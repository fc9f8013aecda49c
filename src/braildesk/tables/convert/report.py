"""What is said of a table that was brought over: in comments at its top, and to the one who asked."""

from __future__ import annotations

from collections.abc import Iterable, Iterator, Sequence
from itertools import groupby
from typing import Final
from zlib import crc32

from braildesk.tables.convert.addition import Addition
from braildesk.tables.convert.comparison import Comparison, Difference
from braildesk.tables.convert.draft import comment_lines
from braildesk.tables.convert.making import Made
from braildesk.tables.convert.operands import shown
from braildesk.tables.convert.shipped import head_of, shipped_table
from braildesk.tables.convert.source import TableLine
from braildesk.tables.convert.subject import Subject
from braildesk.tables.convert.table import SILENT
from braildesk.text.characters import named

SHOWN: Final = 10
"""How many lines that differ are shown."""

MOST_PLACES: Final = 60
"""How many places of an opcode a comment names."""

EVERYDAY: Final = (
    "".join(map(chr, range(0x20, 0x7F)))
    + "\u2018\u2019\u201a\u201c\u201d\u201e\u00ab\u00bb\u2039\u203a\u2013\u2014\u2026\u20ac\u00a0"
)
"""The characters that texts of any language may have: ASCII, quotation marks, dashes, the ellipsis, the euro."""

_NO_BRAILLE: Final = (
    *(opcode for opcode in SILENT if opcode not in ("base", "attribute")),
    "class",
    "emphclass",
    "hyphenation",
)


_BROUGHT: Final = "brought over to the profile of braildesk by scribe bring."
_SUMMED: Final = "# The sum of these lines, as scribe bring wrote them, is "
_HEAD_BYTES: Final = 4_096


def with_sum(text: str) -> str:
    """The text of a table with a last comment, by which it is known that nobody changed it."""
    return f"{text}{_SUMMED}{crc32(text.encode()):08x}.\n"


def is_brought(text: bytes) -> bool:
    """Whether a text is as `scribe bring` wrote it, by its first comment and its last one."""
    sentence = ""
    for line in text[:_HEAD_BYTES].decode(errors="replace").splitlines():
        if not line.startswith("#") or sentence and not line.startswith("#  "):
            break
        sentence += f" {line[1:].strip()}"
    if " of liblouis " not in sentence or not sentence.endswith(f", {_BROUGHT}"):
        return False
    table, found, _ = text.rpartition(_SUMMED.encode())
    return bool(found) and text == with_sum(table.decode(errors="replace")).encode()


def origin(subject: Subject) -> list[str]:
    """Sentences that say where a table comes from, and under whose licence it is."""
    title = shipped_table(subject.source.path).title
    title = f"{title}: " if title else ""
    licence = head_of(subject.source.path).get("license")
    stated = f" Its head names the licence {licence}." if licence else ""
    return [
        f"{title}{subject.source.path.name} of liblouis {subject.liblouis.version}, {_BROUGHT}",
        f"It was made from {', '.join(subject.source.files)}. This text is derived from those files"
        f" and is under the licence that they state.{stated}",
    ]


def losses(made: Made, subject: Subject, addition: Addition | None = None) -> list[str]:
    """What could not be carried over, opcode by opcode with the lines."""
    sentences = []
    if count := len(made.without_cells):
        sentences.append(
            f"{so_many(count, 'character')} {'has' if count == 1 else 'have'} no cells that a table of"
            f" braildesk can write: {_characters(made.without_cells)}."
        )
    added = addition.characters if addition is not None else frozenset()
    lacking = [
        one for one in EVERYDAY if one not in made.draft.cells and one not in added
    ]
    if lacking:
        listed = ", ".join(map(named, lacking))
        sentences.append(
            "A text can't have these characters by this table, though texts often do:"
            f" {listed if len(lacking) <= SHOWN else _characters(lacking)}."
        )
    for name, lines in _by_opcode(subject.table.left):
        sentences.append(_sentence(f"Not carried over: {name}", lines))
    by_fault: dict[str, list[TableLine]] = {}
    for fault, line in made.uncarried:
        by_fault.setdefault(fault, []).append(line)
    for fault, found in by_fault.items():
        verb = "Not exact" if "carried over as" in fault else "Not carried over"
        sentences.append(_sentence(f"{verb}: {fault}", found))
    asked = [name for name, _ in _by_opcode(subject.table.asked)]
    if asked:
        sentences.append(
            "What these do to single characters beside digits was asked of liblouis, and nothing else"
            f" of them: {', '.join(asked)}."
        )
    sentences += [
        f"The table includes {name}, which isn't there."
        for name in subject.source.missing
    ]
    return sentences


def unsettled(made: Made) -> list[str]:
    """What the places that were asked for still differ in."""
    if not made.unsettled:
        return []
    examples = ", ".join(f"\u201c{line}\u201d" for line in made.unsettled[:SHOWN])
    return [
        f"{len(made.unsettled):,} of the places that liblouis was asked for can't be had by rules of a"
        f" table of braildesk, as {examples}."
    ]


def comments(
    made: Made,
    subject: Subject,
    agreement: Sequence[str],
    addition: Addition | None = None,
) -> list[str]:
    """The comments at the top of a table's text."""
    paragraphs = [
        *origin(subject),
        *agreement,
        *([] if addition is None else [addition.sentence()]),
        *losses(made, subject, addition),
        *unsettled(made),
    ]
    return [line for one in paragraphs for line in comment_lines(one)]


def agreement(comparison: Comparison) -> list[str]:
    """Sentences that say on how many lines the two agree."""
    if not comparison.lines:
        return ["No line could be compared with liblouis."]
    sentences = [
        f"On {so_many(comparison.lines, 'line')} of shapes that were not used for the making, the cells"
        f" are those of liblouis on {percent(comparison.share_of_all)}."
    ]
    apart = comparison.apart
    if apart:
        named = ", ".join(f"{name} {count:,}" for name, count in apart.items())
        count = sum(apart.values())
        need = "that differs needs" if count == 1 else "that differ need"
        sentences.append(
            f"{so_many(count, 'line')} {need} what a table of braildesk can't have"
            f" ({named}). Of the others {percent(comparison.share)} agree."
        )
    return sentences


def so_many(count: int, what: str) -> str:
    """A number of things, of each of which a word is the name."""
    return f"1 {what}" if count == 1 else f"{count:,} {what}s"


def percent(share: float) -> str:
    """A share in percent, rounded down, so that 100 says that nothing differs."""
    return f"{int(share * 10_000) / 100:g}%"


def examples(differences: Sequence[Difference], most: int = SHOWN) -> list[str]:
    """Some of the lines that differ, evenly taken, each with both answers."""
    step = max(1, len(differences) // most)
    lines = []
    for one in differences[::step][:most]:
        need = f" (needs {one.need})" if one.need else ""
        lines += [
            f"  print     {one.line}{need}",
            f"  liblouis  {shown(one.theirs)}",
            f"  braildesk {shown(one.ours)}",
        ]
    return lines


def _by_opcode(lines: Iterable[TableLine]) -> Iterator[tuple[str, list[TableLine]]]:
    by_name: dict[str, list[TableLine]] = {}
    for line in lines:
        if line.opcode not in _NO_BRAILLE and not line.opcode.startswith(_EMPHASIS):
            by_name.setdefault(line.name, []).append(line)
    yield from by_name.items()


_EMPHASIS: Final = (
    "emph",
    "begemph",
    "endemph",
    "lenemph",
    "noemph",
    "singleletter",
)


def _sentence(what: str, lines: Sequence[TableLine]) -> str:
    count = f"{len(lines):,} {'line' if len(lines) == 1 else 'lines'}"
    return f"{what}, {count} ({_places(lines)})."


def _places(lines: Sequence[TableLine]) -> str:
    """The places of lines, as `de-g0.utb 12-14 20, de-accents.cti 7`."""
    files = []
    for file, group in groupby(lines[:MOST_PLACES], key=lambda line: line.file):
        numbers = " ".join(_runs([line.number for line in group]))
        files.append(f"{file} {numbers}")
    more = ", .." if len(lines) > MOST_PLACES else ""
    return ", ".join(files) + more


def _runs(numbers: Sequence[int]) -> Iterator[str]:
    start = end = numbers[0]
    for number in [*numbers[1:], -1]:
        if number != end + 1:
            yield str(start) if start == end else f"{start}-{end}"
            start = number
        end = number


def _characters(characters: Sequence[str]) -> str:
    named = " ".join(f"U+{ord(one):04X}" for one in characters[:MOST_PLACES])
    return named + (" .." if len(characters) > MOST_PLACES else "")
