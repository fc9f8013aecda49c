"""What is noted of an import before its first paragraph is typed, until it has come to its end."""

import re
from dataclasses import dataclass
from pathlib import PurePath

from braildesk import After
from braildesk.desk.documents.kinds import ManuscriptKind
from braildesk.desk.documents.options import BRACKETS, ReadingOptions
from braildesk.desk.record import NotSuch, Record
from braildesk.protocol.value import Value
from braildesk.text import limits

_DIGEST = re.compile("[0-9a-f]{64}")
_NAME = re.compile(f"[^ \n\r\0]{{1,{limits.NAME_CHARACTERS}}}")
_CONTROL = re.compile("[\0-\x1f\x7f-\x9f]")

#: How many characters each side of a pair may have.
MOST_CHARACTERS = 100
#: Characters, and those that stand in their place.
Pairs = tuple[tuple[str, str], ...]


@dataclass(frozen=True, eq=False, repr=False)
class How(Value):
    """How a manuscript becomes paragraphs of a book."""

    reading: ReadingOptions
    #: Characters, and those that stand in their place.
    replacements: Pairs = ()
    #: The level of the headings at which volumes begin.
    volumes: int | None = None


@dataclass(frozen=True, eq=False, repr=False)
class ImportNote(Value):
    """An import that was begun: of which text, how, and what the book was then."""

    #: The whole path of the text, and the SHA-256 of its bytes.
    text: str
    digest: str
    by_lines: bool
    #: The line of the text from which it began, and how many paragraphs there are from it on.
    line: int
    count: int
    table: str
    after: After
    #: The version of the book, and how many paragraphs it had.
    version: int
    there: int
    how: How = How(ReadingOptions(ManuscriptKind.TEXT))

    @property
    def name(self) -> str:
        """The name of the text."""
        return PurePath(self.text).name

    def is_of(self, other: "ImportNote") -> bool:
        """Whether both are of one text."""
        return self.digest == other.digest or self.text == other.text

    def values(self) -> dict[str, object]:
        """What is kept of it as JSON."""
        return {
            "text": self.text,
            "digest": self.digest,
            "by_lines": self.by_lines,
            "line": self.line,
            "count": self.count,
            "table": self.table,
            "after": self.after,
            "version": self.version,
            "there": self.there,
            "kind": (self.how.reading.kind or ManuscriptKind.TEXT).value,
            "notes_at_end": self.how.reading.notes_at_end,
            "bullet": self.how.reading.bullet,
            "brackets": self.how.reading.brackets,
            "replacements": values_of(self.how.replacements),
            "volumes": self.how.volumes,
        }


def note_in(kept: Record) -> ImportNote:
    """The note of which these values were kept; `NotSuch` if they are none."""
    digest, table = kept.text("digest"), kept.text("table")
    if not _DIGEST.fullmatch(digest):
        raise NotSuch("digest")
    if not _NAME.fullmatch(table):
        raise NotSuch("table")
    return ImportNote(
        kept.path("text"),
        digest,
        kept.truth("by_lines"),
        kept.number("line"),
        kept.number("count", least=1),
        table,
        _after(kept),
        kept.number("version"),
        kept.number("there"),
        _how(kept),
    )


def _how(kept: Record) -> How:
    # an older scribe kept no more, since it imported texts alone
    if not kept.has("kind"):
        return How(ReadingOptions(ManuscriptKind.TEXT))
    try:
        kind = ManuscriptKind(kept.text("kind"))
    except ValueError as cause:
        raise NotSuch("kind") from cause
    brackets = kept.text("brackets")
    if len(brackets) != len(BRACKETS):
        raise NotSuch("brackets")
    is_at_end = kept.truth("notes_at_end")
    reading = ReadingOptions(kind, is_at_end, kept.text("bullet"), brackets)
    volumes = kept.number_or_none("volumes", least=1)
    return How(reading, pairs_in(kept), volumes)


def _after(kept: Record) -> After:
    if kept.is_number("after"):
        return kept.number("after", least=1)
    match kept.text("after"):
        case "front":
            return "front"
        case "end":
            return "end"
    raise NotSuch("after")


def is_pair(old: str, new: str) -> bool:
    """Whether characters may stand in the place of others, or nothing may."""
    is_short = max(len(old), len(new)) <= MOST_CHARACTERS
    return bool(old) and is_short and not _CONTROL.search(old + new)


def values_of(pairs: Pairs) -> list[dict[str, str]]:
    """What is kept of pairs as JSON."""
    return [{"old": old, "new": new} for old, new in pairs]


def pairs_in(kept: Record) -> Pairs:
    """The pairs of which these values were kept; `NotSuch` if they are none."""
    found = tuple(
        (each.text("old"), each.text("new")) for each in kept.records("replacements")
    )
    if not all(is_pair(old, new) for old, new in found):
        raise NotSuch("replacements")
    return found
