"""The book of a window for which none was named, as where it is started from a menu."""

from pathlib import Path

from braildesk import DeskError, new_book
from braildesk.desk.tables import first_table
from braildesk.text.characters import visible

from scribe.window import dialogs
from scribe.window.typed_on import taking_at_sentence
from scribe.words.status import Stop, in_sentences

_TITLE = "braildesk"
_ENDING = ".braildesk"
_BOOKS = f"Books (*{_ENDING});;All files (*)"
_FOR_NONE = "What is typed here goes nowhere. Enter closes this."


def chosen_book() -> Path | None:
    """Asks which book is opened, or makes a new one; none where that is given up."""
    asked = "Which book shall be opened?"
    answers = ("&Open a book…", "&New book…", "&Cancel")
    answer = dialogs.ask(None, _TITLE, asked, answers, _kept_nowhere)
    if answer == 0:
        return dialogs.file_to_read(None, "Open a book", Path("book"), _BOOKS)
    return _new_book() if answer == 1 else None


def _new_book() -> Path | None:
    """Asks for the file of a new book, until one can be made there; none where that is given up."""
    first = Path(f"book{_ENDING}").absolute()
    while True:
        path = dialogs.new_file(None, "New book", first)
        if path is None:
            return None
        # a name may have a full stop elsewhere
        is_ended = path.name.endswith(_ENDING)
        first = path if is_ended else path.with_name(path.name + _ENDING)
        try:
            with in_sentences():
                new_book(first, holding=[first_table()])
            return first
        except (DeskError, Stop) as failed:
            said = visible(failed.sentence)
            with taking_at_sentence(_kept_nowhere, _FOR_NONE):
                dialogs.choice(None, _TITLE, said, ("&Close",))


def _kept_nowhere(typed: str) -> None:
    """What is typed on where a book is chosen is for none, and is no answer."""
