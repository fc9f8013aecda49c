"""`scribe import`: the paragraphs of a text file or of a document, typed into the book."""

from argparse import ArgumentParser, Namespace
from pathlib import Path

from braildesk import CannotOpen, DeskError, Session, Why
from braildesk.desk.documents.kinds import ManuscriptKind
from braildesk.desk.documents.options import ReadingOptions
from braildesk.desk.earlier import NoneCutShort, Way, leave
from braildesk.desk.import_note import How
from braildesk.desk.import_text import Import

from scribe.cli.parser import (
    Subparsers,
    WordsRefused,
    add_file,
    after,
    command_parser,
    counted,
    readable,
    file_path,
)
from scribe.words.console import Console
from scribe.words.import_text import import_in_words, trial_in_words
from scribe.words.status import Status, Stop

MORE = """\
Blank lines part the paragraphs, and the lines between them are joined; with --lines each
line is a paragraph. The text is UTF-8. Before anything is typed all of it is judged: each
character that the table lacks and each paragraph that is too long is shown with its line
and column. If the typing is cut short, also by a terminal that is closed, --continue types
the rest; --from goes on at a line of the text, or at a paragraph of a document. A text that
was typed there already, or of which an import of yours was cut short, isn't typed once more
without --again.
DOCX, ODT, EPUB, HTML and Markdown are read by pandoc, and RTF and DOC by LibreOffice, if
these are installed; which of them it is, is found. Headings become headings. What a book
can't hold, as emphasis and the form of tables, but not what is a quotation or code, is said
before anything is typed, and so is each word of its text that no paragraph has."""
EXAMPLE = """\
echo 'The sun is farther away.' > sun.txt && scribe import moon.braildesk sun.txt
echo '# The Sun' > sun.md && scribe import moon.braildesk sun.md --volumes 1 --dry-run"""
FORMATS = tuple(
    kind.value for kind in ManuscriptKind if kind is not ManuscriptKind.BOOK
)


def add_parser(subparsers: Subparsers) -> ArgumentParser:
    parser = command_parser(subparsers, "import", EXAMPLE, MORE)
    add_file(parser)
    parser.add_argument(
        "text", metavar="TEXT", type=file_path, help="the text file, or a document"
    )
    parser.add_argument("--lines", action="store_true", help="each line is a paragraph")
    parser.add_argument(
        "--table",
        metavar="NAME",
        help="the table; else that of the paragraph before, else the book's only one",
    )
    parser.add_argument(
        "--after",
        metavar="AFTER",
        type=after,
        default="end",
        help="front, end, or the number of the paragraph after which the text goes",
    )
    parser.add_argument(
        "--dry-run", action="store_true", help="judge the text, and type nothing"
    )
    parser.add_argument(
        "--from",
        dest="line",
        metavar="LINE",
        type=counted("lines and paragraphs"),
        help="begin at this line, or this paragraph of a document; the paragraph before it has to be in"
        " the book already, right before where the text goes",
    )
    _add_choices(parser)
    _add_ways(parser)
    parser.set_defaults(usage=parser.format_usage().strip())
    return parser


def _add_choices(parser: ArgumentParser) -> None:
    """Adds the words about documents, and about what is said of them."""
    parser.add_argument(
        "--format",
        choices=FORMATS,
        help="what the file is, if that isn't found: " + ", ".join(FORMATS),
        metavar="NAME",
    )
    parser.add_argument(
        "--volumes",
        metavar="LEVEL",
        type=counted("levels"),
        help="begin a volume at each heading of this level, which is usually 1",
    )
    parser.add_argument(
        "--notes",
        choices=("after", "end"),
        default="after",
        help="where notes go: after their paragraph, or to the end of the section",
    )
    parser.add_argument(
        "--replace",
        metavar="PAIRS",
        type=readable,
        help="a file of lines, each with characters, a tab, and what stands in their place; they"
        " are kept for what you import into the book next",
    )
    parser.add_argument(
        "--report",
        metavar="REPORT",
        type=file_path,
        help="write all that is lost of a document to this file, which replaces an older report"
        " or an empty file, and nothing else",
    )


def _add_ways(parser: ArgumentParser) -> None:
    """Adds the words that say what is done about an earlier import of the text."""
    ways = parser.add_mutually_exclusive_group()
    for option, way, does in (
        ("--continue", Way.GO_ON, "type the rest of an import that was cut short"),
        ("--again", Way.AGAIN, "type once more what was typed there already"),
        ("--leave", Way.LEAVE, "leave out the rest of an import that was cut short"),
    ):
        ways.add_argument(
            option,
            dest="way",
            action="store_const",
            const=way,
            default=Way.ASK,
            help=does,
        )


def run(arguments: Namespace, console: Console) -> Status:
    """Imports the text, or judges it, or leaves out what an earlier import of it didn't type."""
    path = arguments.text
    if arguments.way is Way.LEAVE:
        if arguments.dry_run:
            raise WordsRefused(
                "Argument --leave: not allowed with argument --dry-run.",
                arguments.usage,
            )
        _judge_free(arguments)
        return _left_out(arguments.file, path, console)
    job = Import(
        arguments.file,
        path,
        arguments.lines,
        arguments.table,
        arguments.after,
        arguments.line,
        arguments.way,
        arguments.wait,
        _how(arguments),
        arguments.replace,
    )
    if arguments.dry_run:
        return trial_in_words(job, console, arguments.report)
    return import_in_words(job, console, arguments.report).status


def _how(arguments: Namespace) -> How:
    kind = ManuscriptKind(arguments.format) if arguments.format else None
    reading = ReadingOptions(kind, notes_at_end=arguments.notes == "end")
    return How(reading, volumes=arguments.volumes)


def _judge_free(arguments: Namespace) -> None:
    """Refuses to leave out what another program may be typing just now.

    What else keeps the book from being opened is no matter.
    """
    try:
        Session(arguments.file, timeout=arguments.wait).close()
    except CannotOpen as refusal:
        if refusal.why is Why.IN_USE:
            raise
    except DeskError:
        pass


def _left_out(book: Path, path: Path, console: Console) -> Status:
    try:
        leave(book, path)
    except NoneCutShort as none:
        raise Stop(f"No import of {path} is known that was cut short.") from none
    console.show(f"The rest of {path} is left out. What is in the book stays there.")
    return Status.DONE
