"""Running text in words: the cells of each word in its line, and the tokens of a manuscript."""

from __future__ import annotations

from collections import Counter
from collections.abc import Iterable, Iterator, Mapping, Sequence
from dataclasses import dataclass
from typing import Final

from braildesk.tables.convert.chooser import Chooser
from braildesk.tables.convert.oracle import Liblouis
from braildesk.tables.operands import Cells

BLANK: Final = 0
"""The cell without dots."""

MOST_TOGETHER: Final = 60
"""How many characters a word has at most that is learned with its neighbours."""


@dataclass(frozen=True, slots=True)
class Word:
    """A word of a line, whose cells differ in the line from those of liblouis."""

    line: int
    """The place of its line among the lines."""
    start: int
    text: str
    ours: Cells | None
    """The cells, or None if they can't be told from those of its neighbours."""
    theirs: Cells

    @property
    def end(self) -> int:
        return self.start + len(self.text)


@dataclass(frozen=True, slots=True)
class Agreement:
    """How many words and lines of a text have the cells of liblouis, and the words that haven't."""

    words: int
    lines: int
    agreeing_lines: int
    differences: tuple[Word, ...]
    lacking: Counter[str]
    """The characters without cells, each with the lines that it keeps from having braille."""
    refused: int
    """The lines without braille, which aren't among the others."""

    @property
    def share_of_words(self) -> float:
        return 1 - len(self.differences) / self.words if self.words else 0.0

    @property
    def share_of_lines(self) -> float:
        return self.agreeing_lines / self.lines if self.lines else 0.0


def agreement(
    liblouis: Liblouis,
    chooser: Chooser,
    lines: Sequence[str],
    ours: Sequence[Cells | None],
) -> Agreement:
    """Compares the cells of each line, which are the program's, word by word."""
    theirs = liblouis.ask(lines)
    lacking: Counter[str] = Counter()
    words = refused = compared = 0
    unlike: list[tuple[int, Cells, Cells]] = []
    for place, (line, have, want) in enumerate(zip(lines, ours, theirs, strict=True)):
        if have is None or want is None:
            lacking.update(chooser.lacking(line))
            refused += 1
            continue
        compared += 1
        words += sum(map(bool, line.split(" ")))
        if have != want:
            unlike.append((place, have, want))
    differences = tuple(_differences(liblouis, chooser, lines, unlike))
    alike = compared - len(unlike)
    return Agreement(words, compared, alike, differences, lacking, refused)


def _differences(
    liblouis: Liblouis,
    chooser: Chooser,
    lines: Sequence[str],
    unlike: Sequence[tuple[int, Cells, Cells]],
) -> Iterator[Word]:
    """The words of lines with other cells, and the whole line if none can be told apart."""
    unclear = [
        lines[place]
        for place, have, want in unlike
        if not len(_parted(have)) == len(_parted(want)) == len(lines[place].split(" "))
    ]
    pieces = dict(zip(unclear, liblouis.pieces(unclear), strict=True))
    for place, have, want in unlike:
        line = lines[place]
        ours: Sequence[Cells | None] = _parted(have)
        theirs: Sequence[Cells] = _parted(want)
        if line in pieces:
            choices = chooser.choices(chooser.printed(line))
            ours = _cut(line, [(line[at:to], cells) for at, to, cells, _ in choices])
            theirs = _cut(line, pieces[line])
        start = 0
        for text, its, their in zip(line.split(" "), ours, theirs):
            if text and its != their:
                yield Word(place, start, text, its, their)
            start += len(text) + 1


def spoilers(
    liblouis: Liblouis,
    chooser: Chooser,
    older: Mapping[tuple[str, str], Cells | None],
    lines: Sequence[str],
) -> set[tuple[str, str]]:
    """Takes back the rules without which no more words of whole lines have other cells than liblouis's.

    They are given with the cells that they had before. What stands before a blank is seen in lines
    alone, so a rule that begins with a blank may spoil words that no token shows.
    """
    found = set()
    having = [line for line in lines if not chooser.lacking(line)]
    for (kind, characters), before in older.items():
        now = chooser.cells_of(kind, characters)
        touched = [one for one in having if characters in chooser.printed(one).folded]
        wrong = _count_wrong(liblouis, chooser, touched)
        chooser.put_back(kind, characters, before)
        if _count_wrong(liblouis, chooser, touched) <= wrong:
            found.add((kind, characters))
        else:
            chooser.put_back(kind, characters, now)
    return found


def _count_wrong(liblouis: Liblouis, chooser: Chooser, lines: Iterable[str]) -> int:
    """How many words of lines have other cells; of a line that isn't parted at its blanks, all."""
    count = 0
    for line in lines:
        have, want = chooser.cells(chooser.printed(line)), liblouis.cells(line)
        if want is not None and have != want:
            ours, theirs = _parted(have), _parted(want)
            words = len(line.split(" "))
            is_clear = len(ours) == len(theirs) == words
            unlike = sum(its != their for its, their in zip(ours, theirs))
            count += unlike if is_clear else words
    return count


def _parted(cells: Cells) -> list[Cells]:
    """Cells in groups, between the blank cells."""
    parts: list[list[int]] = [[]]
    for cell in cells:
        if cell == BLANK:
            parts.append([])
        else:
            parts[-1].append(cell)
    return [tuple(part) for part in parts]


def _cut(line: str, pieces: Iterable[tuple[str, Cells]]) -> list[Cells]:
    """The cells of each word.

    A piece over blanks is parted at them if its cells are. Else it counts to the word in which it
    begins, or before which it does.
    """
    found: list[list[int]] = [[]]
    for text, cells in pieces:
        parts = _parted(cells)
        blanks = text.count(" ")
        if len(parts) != blanks + 1:
            before = len(text) - len(text.lstrip(" "))
            parts = [()] * before + [cells] + [()] * (blanks - before)
        found[-1] += parts[0]
        found += map(list, parts[1:])
    found += [[]] * (line.count(" ") + 1 - len(found))
    return [_without_blanks(cells) for cells in found]


def _without_blanks(cells: Sequence[int]) -> Cells:
    first, last = 0, len(cells)
    while first < last and cells[first] == BLANK:
        first += 1
    while first < last and cells[last - 1] == BLANK:
        last -= 1
    return tuple(cells[first:last])


def tokens(liblouis: Liblouis, lines: Sequence[str]) -> Counter[str]:
    """The tokens of some lines, by how often they come.

    A token to which liblouis gives other cells in its line than alone is counted with its
    neighbours too.
    """
    counted = Counter(token for line in lines for token in line.split(" ") if token)
    liblouis.ask(counted)
    for line in lines:
        counted.update(_in_company(liblouis, line))
    return counted


def _in_company(liblouis: Liblouis, line: str) -> Iterator[str]:
    words = line.split(" ")
    cells = liblouis.cells(line)
    parts = _parted(cells or ())
    if len(parts) != len(words):
        (pieces,) = liblouis.pieces([line])
        parts = _cut(line, pieces)
    for place, (word, its) in enumerate(zip(words, parts)):
        if word and liblouis.cells(word) != its:
            for first, after in ((-1, 1), (0, 2), (-1, 2)):
                first, after = place + first, place + after
                together = " ".join(words[max(first, 0) : after])
                if first >= 0 and after <= len(words) and _is_plain(together):
                    yield together


def _is_plain(text: str) -> bool:
    return len(text) <= MOST_TOGETHER and "  " not in text and text == text.strip()
