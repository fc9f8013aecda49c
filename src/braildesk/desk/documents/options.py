"""How a manuscript is read: of a text nothing else of this package is needed but its kind."""

from dataclasses import dataclass

from braildesk.desk.documents.kinds import ManuscriptKind
from braildesk.protocol.value import Value

#: What stands before an item of a list that has no number, and around notes and the descriptions of
#: pictures, unless something else is said.
BULLET, BRACKETS = "\u2022", "[]"


@dataclass(frozen=True, slots=True, eq=False, repr=False)
class ReadingOptions(Value):
    """How a manuscript is read."""

    #: Which kind it is; else that is found.
    kind: ManuscriptKind | None = None
    #: Whether notes stand at the end of their section, and not after their paragraph.
    notes_at_end: bool = False
    #: What stands before an item of a list that has no number.
    bullet: str = BULLET
    #: The two characters that stand around notes and the descriptions of pictures.
    brackets: str = BRACKETS
