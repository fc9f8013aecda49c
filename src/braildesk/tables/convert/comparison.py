"""Comparing the program's cells with those of liblouis, line by line."""

from __future__ import annotations

from collections import Counter
from collections.abc import Mapping, Sequence
from dataclasses import dataclass
from pathlib import Path

from braildesk.tables.convert.beyond import needs_beyond
from braildesk.tables.convert.draft import ProgramTrial, TableDraft
from braildesk.tables.convert.reduced import needs
from braildesk.tables.convert.shapes import Sample
from braildesk.tables.convert.subject import Subject
from braildesk.tables.operands import Cells


@dataclass(frozen=True)
class Difference:
    """A line for which the two give other cells."""

    line: str
    shape: str
    theirs: Cells
    ours: Cells
    need: str | None
    """What the line needs that the profile leaves out for good, if it does."""


@dataclass(frozen=True)
class Comparison:
    """How many lines have the same cells, and those that differ."""

    lines: int
    differences: tuple[Difference, ...]

    by_shape: Mapping[str, int]
    """How many lines of each shape were compared."""

    @property
    def agreeing(self) -> int:
        return self.lines - len(self.differences)

    @property
    def share_of_all(self) -> float:
        """The share of all lines that agree."""
        return self.agreeing / self.lines if self.lines else 0.0

    @property
    def others(self) -> tuple[Difference, ...]:
        """The differences of lines that need nothing that the profile leaves out."""
        return tuple(one for one in self.differences if one.need is None)

    @property
    def share(self) -> float:
        """The share that agrees, lines aside that need what the profile leaves out."""
        counted = self.agreeing + len(self.others)
        return self.agreeing / counted if counted else 0.0

    @property
    def apart(self) -> dict[str, int]:
        """How many differing lines need what, of all that the profile leaves out."""
        return dict(Counter(one.need for one in self.differences if one.need))


def compare(
    subject: Subject,
    draft: TableDraft,
    trial: ProgramTrial,
    samples: Sequence[Sample],
    folder: Path,
) -> Comparison:
    """Compares on lines. Those that liblouis can't translate aren't counted."""
    lines = [sample.line for sample in samples]
    theirs = subject.liblouis.ask(lines)
    ours = trial.cells(draft, lines)
    by_shape: Counter[str] = Counter()
    different: list[tuple[Sample, Cells, Cells]] = []
    for sample, want, have in zip(samples, theirs, ours, strict=True):
        if want is None or have is None:
            continue
        by_shape[sample.shape] += 1
        if want != have:
            different.append((sample, want, have))
    need = needs(
        subject.source,
        [sample.line for sample, _, _ in different],
        subject.liblouis,
        folder,
    )
    others = [sample.line for sample, _, _ in different if sample.line not in need]
    need |= needs_beyond(subject, draft, trial, others)
    differences = tuple(
        Difference(one.line, one.shape, want, have, need.get(one.line))
        for one, want, have in different
    )
    return Comparison(by_shape.total(), differences, by_shape)


def what_differs(comparison: Comparison, most: int = 4) -> str:
    """In which shapes the other lines differ, the most frequent first, as `sums 4 of 16`."""
    counted = Counter(one.shape for one in comparison.others)
    named = [
        f"{shape} {count} of {comparison.by_shape[shape]}"
        for shape, count in counted.most_common(most)
    ]
    if len(counted) > most:
        named.append("others")
    return ", ".join(named)
