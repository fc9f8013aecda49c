"""`scribe compare`: the print of a book beside a manuscript."""

from argparse import Namespace

from braildesk import Session
from braildesk.desk.compare import compare
from braildesk.desk.documents.options import ReadingOptions
from braildesk.desk.manuscript import UnreadableText
from braildesk.desk.manuscripts import read_manuscript
from braildesk.named_files import is_same_file

from scribe.cli.book_command import BookCommand
from scribe.cli.opened_book import as_kept
from scribe.cli.parser import Parser, add_width
from scribe.words.compare import Count, left_out
from scribe.words.console import Console
from scribe.words.import_text import unreadable
from scribe.words.status import Stop
from scribe.words.typed import given_path

MORE = """\
Each line has a paragraph of the book, where in it a word stands, and what the manuscript
has instead. It makes no difference where paragraphs begin, and which blanks part words.
Struck paragraphs of the book are left out. TEXT is a text or a document that scribe
import reads, or a book."""
EXAMPLE = "scribe compare moon.braildesk print.txt"


def add_words(parser: Parser) -> None:
    """Adds the words of `compare`."""
    parser.add_asked(
        "text",
        "TEXT",
        given_path,
        "the manuscript",
        "Which manuscript? Type its path.",
        "path",
    )
    add_width(parser)


def answer(session: Session, arguments: Namespace, console: Console) -> None:
    """Shows each word that differs, and how many do."""
    path, wait = arguments.text, getattr(arguments, "wait", 0.0)
    try:
        manuscript = read_manuscript(path, ReadingOptions(), wait)
    except UnreadableText as fault:
        why = unreadable(fault).replace(", and import it again", "")
        raise Stop(f"{path} {why}. Nothing was compared.") from fault
    # this program has the book open by itself
    if manuscript.kept_at is not None and not is_same_file(path, arguments.file):
        console.say(as_kept(path, manuscript.kept_at))
    count = Count()
    for lines in count.lines(compare(session, manuscript.texts), console.columns):
        console.show(*lines)
    console.say(*count.sentences(), *left_out(manuscript))


COMMAND = BookCommand("compare", EXAMPLE, add_words, lambda: answer, MORE, looks=True)
