"""What a key may ask for beside one command: actions of more than one request, or of none."""

from dataclasses import dataclass
from pathlib import Path

from braildesk import After, Paragraph
from braildesk.desk.change import Change
from braildesk.desk.change_all import Proposal, Replacement
from braildesk.desk.change_note import Became
from braildesk.desk.earlier import Way
from braildesk.desk.import_note import ImportNote
from braildesk.desk.layout import PageSize
from braildesk.text.spans import Span

from scribe.screen.field import Purpose


@dataclass(frozen=True)
class ToFound:
    """To the next place of what is looked for, for the first time or again."""

    sought: str
    is_again: bool = False


@dataclass(frozen=True)
class ToMark:
    """To the next open mark, or to the one before."""

    is_back: bool


@dataclass(frozen=True)
class AskForNote:
    """Asks for the note of a mark on some cells, and says on which words it will be."""

    cells: Span


@dataclass(frozen=True)
class ShowHistory:
    """Looks at the history of the chosen paragraph."""


@dataclass(frozen=True)
class ShowPage:
    """Looks at the page on which the words of the cursor stand."""


@dataclass(frozen=True)
class ListMarks:
    """Looks at the marks of the book, the open ones first, each with its page and line."""


@dataclass(frozen=True)
class ListHeadings:
    """Looks at the headings of the book, each with its page and line."""


@dataclass(frozen=True)
class ToPage:
    """To a line of a page, of the volume of the cursor if none is named; counted from 1."""

    page: int
    line: int = 1
    volume: int | None = None


@dataclass(frozen=True)
class SayPage:
    """Says the page and line of the cursor's words, after what has to be said anyway."""

    said: str = ""


#: What needs the pages of volumes.
ByPages = ShowPage | ListMarks | ListHeadings | ToPage | SayPage


@dataclass(frozen=True)
class Place:
    """A place where words stand that are to be changed, and what became of it."""

    proposal: Proposal
    change: Change | None = None
    is_left: bool = False
    #: Whether it was changed by what was cut short later.
    was_changed: bool = False

    @property
    def became(self) -> Became:
        """What became of it."""
        if self.change is not None or self.was_changed:
            return Became.CHANGED
        return Became.LEFT if self.is_left else Became.OPEN

    @property
    def is_open(self) -> bool:
        """Whether it was neither changed nor left as it is."""
        return self.became is Became.OPEN


@dataclass(frozen=True)
class FindPlaces:
    """Looks at the places where words stand that others may come in place of."""

    wanted: Replacement
    #: The places of another list of these words that were changed or left; none is known before one.
    answered: tuple[Place, ...] | None = None
    #: What is said of them.
    said: str = ""


@dataclass(frozen=True)
class ChangePlaces:
    """Changes the places of a list that are open, or one of them, counted from 0."""

    wanted: Replacement
    places: tuple[Place, ...]
    nth: int | None = None
    #: Places of other lists of these words that were changed or left, and aren't in this one.
    elsewhere: tuple[Place, ...] = ()

    @property
    def answered(self) -> tuple[Place, ...]:
        """The places that were changed or left, in this list or in others."""
        its = (each for each in self.places if not each.is_open)
        return (*self.elsewhere, *its)

    @property
    def open_places(self) -> tuple[Proposal, ...]:
        """The places that were neither changed nor left as they are."""
        return tuple(each.proposal for each in self.places if each.is_open)


@dataclass(frozen=True)
class ListVolumes:
    """Looks at the volumes with their pages, or at others of which none has more pages."""

    most: int | None = None


@dataclass(frozen=True)
class SetVolumes:
    """Sets where volumes begin: at each paragraph, or not there any more."""

    changed: tuple[tuple[Paragraph, bool], ...] = ()


#: What concerns the whole book.
OfWholeBook = FindPlaces | ChangePlaces | ListVolumes | SetVolumes


@dataclass(frozen=True)
class GiveTable:
    """Gives the chosen paragraph a table, or puts an installed one into the book."""

    name: str


@dataclass(frozen=True)
class TypeAll:
    """Types several paragraphs, one after the other."""

    purpose: Purpose
    lines: tuple[str, ...]


@dataclass(frozen=True)
class GoOn:
    """Types the first part of a text that is too long, and goes on typing the rest after it."""

    purpose: Purpose
    first: str
    rest: str


@dataclass(frozen=True)
class ExportTo:
    """Exports all volumes to a folder on pages of a size, from a copy of the book if one can be made."""

    folder: Path
    page_size: PageSize = PageSize()


@dataclass(frozen=True)
class ImportFrom:
    """Imports a text file after a paragraph by a table, in a session of its own that holds the book."""

    path: Path
    after: After
    table: str | None = None
    #: What is done about an earlier import of that file.
    way: Way = Way.ASK


@dataclass(frozen=True)
class LeaveImport:
    """Leaves out the rest of an import that was cut short."""

    note: ImportNote


@dataclass(frozen=True)
class LeaveChange:
    """Leaves the places of words as they are of which the change was cut short."""

    wanted: Replacement


@dataclass(frozen=True)
class TakeBack:
    """Takes back what a key last did, with one command or with many."""


@dataclass(frozen=True)
class GiveUp:
    """Gives up what is typed, was pasted or waits; it is kept, and can be brought back."""


@dataclass(frozen=True)
class PutOff:
    """Leaves the text that waits for later."""


@dataclass(frozen=True)
class BringBack:
    """Asks about a text that was given up, by its place among them, the newest first."""

    place: int = 0


@dataclass(frozen=True)
class BringTyped:
    """Begins a new paragraph with all that keys typed last."""


@dataclass(frozen=True)
class PutBy:
    """Keeps a text that was pasted where nothing is typed, or came as keys, or as the last of them."""

    text: str
    is_last: bool = False
    is_keys: bool = False


@dataclass(frozen=True)
class OpenAgain:
    """Opens the book again after the session ended by itself."""


@dataclass(frozen=True)
class Quit:
    """Ends, or asks first whether texts are left that are kept nowhere, if it wasn't asked yet."""

    is_asked: bool = False


Action = (
    ToFound
    | ToMark
    | AskForNote
    | ShowHistory
    | ByPages
    | OfWholeBook
    | GiveTable
    | TypeAll
    | GoOn
    | ExportTo
    | ImportFrom
    | LeaveImport
    | LeaveChange
    | TakeBack
    | GiveUp
    | PutOff
    | BringBack
    | BringTyped
    | PutBy
    | OpenAgain
    | Quit
)
