"""Where the cells of a line differ: the smallest parts of its print with other cells."""

import dataclasses
from collections.abc import Iterator


@dataclasses.dataclass(frozen=True)
class Translation:
    """The cells of a line, and where those of a place of its print begin."""

    cells: str
    #: The first cell by the place, for the places that cells are known to begin at.
    starts: dict[int, int]


@dataclasses.dataclass(frozen=True)
class Region:
    """A part of a line's print, from a place to before another, with the cells of both."""

    line: str
    first: int
    end: int
    ours: str
    theirs: str

    @property
    def print(self) -> str:
        """The print of this part."""
        return self.line[self.first : self.end]

    @property
    def before(self) -> str:
        """The print of the line before it."""
        return self.line[: self.first]

    @property
    def after(self) -> str:
        """The print of the line after it."""
        return self.line[self.end :]

    def joined(self, other: "Region") -> "Region":
        """This part and the one after it as one."""
        return Region(
            self.line,
            self.first,
            other.end,
            self.ours + other.ours,
            self.theirs + other.theirs,
        )


def differing(line: str, ours: Translation, theirs: Translation) -> list[Region]:
    """The parts that have other cells, from left to right."""
    found: list[Region] = []
    for region in parts(line, ours, theirs):
        if region.ours == region.theirs:
            continue
        # a sign may be counted to the part before it by one and to that after it by the other
        if found and found[-1].end == region.first:
            joined = found[-1].joined(region)
            if joined.ours == joined.theirs:
                found.pop()
                continue
        found.append(region)
    return found


def parts(line: str, ours: Translation, theirs: Translation) -> Iterator[Region]:
    """The parts of a line that begin and end at a place that both know."""
    places = [0]
    for place in sorted(ours.starts.keys() & theirs.starts.keys()):
        last = places[-1]
        if (
            place > last
            and ours.starts[place] > ours.starts[last]
            and theirs.starts[place] > theirs.starts[last]
        ):
            places.append(place)
    for first, end in zip(places, places[1:]):
        yield Region(
            line,
            first,
            end,
            ours.cells[ours.starts[first] : ours.starts[end]],
            theirs.cells[theirs.starts[first] : theirs.starts[end]],
        )
