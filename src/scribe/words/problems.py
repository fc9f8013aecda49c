"""The sentence for each problem of a use case, with the status of a command that it ends."""

from braildesk.desk import Problem
from braildesk.desk.change import SameWords
from braildesk.desk.drafts import NotKept
from braildesk.desk.export import (
    BookChanges,
    NoFolder,
    NotWritten,
    WhichVolume,
)
from braildesk.desk.intake import NotImported
from braildesk.desk.ranges import NoPage
from braildesk.desk.marks import NoMark
from braildesk.desk.ranges import BackwardRange, NoParagraph
from braildesk.desk.places import NoPlace
from braildesk.desk.tables import NoSuchTable, UnreadableTable
from braildesk.desk.volume_plan import TooManyPages
from braildesk.text.wrapping import Offered

from scribe.words import export
from scribe.words.changes import no_place
from scribe.words.drafts import not_kept
from scribe.words.import_text import not_imported
from scribe.words.paragraph import no_mark, no_paragraph
from scribe.words.status import Status, Stop, is_of_disk, status_of
from scribe.words.volumes import too_long


def as_stop(problem: Problem) -> Stop:
    """What a person reads of a problem."""
    match problem:
        case NoParagraph(number=number, count=count):
            return Stop(no_paragraph(number, count))
        case BackwardRange(first=first, last=last):
            return Stop(
                f"Paragraph {last} stands before paragraph {first} in the book: ask for"
                f" {last}-{first}."
            )
        case NoMark(number=number):
            return Stop(no_mark(number))
        case NotImported():
            return not_imported(problem)
        case NotKept():
            return Stop(not_kept(problem))
        case NoPlace():
            return Stop(no_place(problem))
        case SameWords():
            return Stop("The new words are the same as the old. Nothing was changed.")
        case TooManyPages():
            return Stop(too_long(problem))
        case NoSuchTable():
            return Stop(no_such_table(problem))
        case UnreadableTable(path=path, cause=cause):
            return Stop(
                f"The table {path} can't be read: {cause.strerror}. Nothing was changed."
            )
        case BookChanges():
            return Stop(export.book_changes(problem), Status.FAILED)
        case NoFolder(cause=cause):
            status = Status.FAILED if is_of_disk(cause) else Status.REFUSED
            return Stop(export.no_folder(problem), status)
        case NoPage():
            return Stop(export.no_page(problem))
        case WhichVolume():
            return Stop(export.which_volume(problem))
        case NotWritten():
            return Stop(export.not_written(problem), status_of(problem.cause))
    raise TypeError(f"no sentence for {problem!r}")


def no_such_table(
    problem: NoSuchTable, how: str = "scribe table BOOK NAME FILE"
) -> str:
    """The sentence for a table that isn't installed, with how one is put into a book from a file."""
    none = (
        f"There is no table {problem.name} in {problem.folder}. Nothing was changed. Without a"
        f" file a table may be: {', '.join(problem.names)}. Another is put into a book by:"
    )
    return Offered(none, how)
