"""What is noted of words that are changed wherever they stand, until the last place is."""

from dataclasses import dataclass
from enum import Enum
from typing import TYPE_CHECKING

from braildesk.desk.ranges import ParagraphRange
from braildesk.desk.record import NotSuch, Record
from braildesk.protocol.value import Value

if TYPE_CHECKING:
    from braildesk.desk.change_all import Replacement

#: The ranges of all paragraphs.
WHOLE = (ParagraphRange(),)


class Became(Enum):
    """What became of a place where words stood."""

    OPEN = "open"
    CHANGED = "changed"
    LEFT = "left"


@dataclass(frozen=True, eq=False, repr=False)
class NotedPlace(Value):
    """A place in a print of some length, the words that stood there, and what had become of it."""

    paragraph: int
    length: int
    start: int
    words: str
    became: Became
    #: What stands beside the words, up to the next place, by which it is seen that no others do.
    before: str = ""
    after: str = ""


@dataclass(frozen=True, eq=False, repr=False)
class ChangeNote(Value):
    """Words that were being changed in a book of a version, and the places in its order."""

    old: str
    new: str
    is_of_words: bool
    is_of_any_case: bool
    version: int
    places: tuple[NotedPlace, ...]
    ranges: tuple[ParagraphRange, ...] = WHOLE

    def is_of(self, wanted: "ChangeNote | Replacement") -> bool:
        """Whether it is of these words, wherever they were looked for, and whatever their form."""
        return (self.old, self.new) == (wanted.old, wanted.new)

    def is_within(self, wanted: "ChangeNote | Replacement") -> bool:
        """Whether all places of it are among those where words are looked for."""
        return (
            self.is_of(wanted)
            and wanted.ranges in (WHOLE, self.ranges)
            and (self.is_of_words or not wanted.is_of_words)
            and (wanted.is_of_any_case or not self.is_of_any_case)
        )

    def values(self) -> dict[str, object]:
        """What is kept of it as JSON."""
        return {
            "old": self.old,
            "new": self.new,
            "is_of_words": self.is_of_words,
            "is_of_any_case": self.is_of_any_case,
            "version": self.version,
            "ranges": [{"first": i.first, "last": i.last} for i in self.ranges],
            "places": [
                {
                    "paragraph": each.paragraph,
                    "length": each.length,
                    "start": each.start,
                    "words": each.words,
                    "became": each.became.value,
                    "before": each.before,
                    "after": each.after,
                }
                for each in self.places
            ],
        }


def change_note_in(kept: Record) -> ChangeNote:
    """The note of which these values were kept; `NotSuch` if they are none."""
    return ChangeNote(
        kept.text("old"),
        kept.text("new"),
        kept.truth("is_of_words"),
        kept.truth("is_of_any_case"),
        kept.number("version"),
        tuple(map(_place_in, kept.records("places"))),
        tuple(map(_range_in, kept.records("ranges"))),
    )


def _range_in(kept: Record) -> ParagraphRange:
    return ParagraphRange(kept.number_or_none("first"), kept.number_or_none("last"))


def _place_in(kept: Record) -> NotedPlace:
    try:
        became = Became(kept.text("became"))
    except ValueError as cause:
        raise NotSuch("became") from cause
    return NotedPlace(
        kept.number("paragraph", least=1),
        kept.number("length"),
        kept.number("start"),
        kept.text("words"),
        became,
        kept.text("before"),
        kept.text("after"),
    )
