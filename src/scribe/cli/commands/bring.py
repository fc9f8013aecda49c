"""`scribe bring`: a table of liblouis made one text that braildesk reads."""

from argparse import ArgumentParser, Namespace
from pathlib import Path

from braildesk.desk.contracted import means_for
from braildesk.desk.manuscript import UnreadableText
from braildesk.desk.manuscripts import read_with_access
from braildesk.desk.whole_file import (
    Access,
    AnotherIsThere,
    judge_place,
    write_whole,
)
from braildesk.named_files import is_same_file
from braildesk.tables.convert import manuscript_report, report
from braildesk.tables.convert.addition import BadAddition
from braildesk.tables.convert.conversion import (
    Converted,
    LIMIT,
    NoWords,
    Options,
    convert,
)
from braildesk.tables.convert.naming import (
    is_named_by_file,
    named_table,
    of_language,
)
from braildesk.tables.convert.oracle import NoLiblouis
from braildesk.tables.convert.shipped import Measured, measured_tables, shipped_tables
from braildesk.tables.convert.source import NoTable
from braildesk.tables.convert.tailoring import Manuscript, tailor
from braildesk.workshop import MayNotLast

from scribe.cli.opened_book import as_kept
from scribe.cli.parser import (
    Subparsers,
    WordsRefused,
    command_parser,
    readable,
    file_path,
    table_name,
)
from scribe.words.console import Console
from scribe.words.import_text import unreadable
from scribe.words.status import Status, Stop, file_not_written, left_there, may_not_last

MORE = """\
TABLE is a table that liblouis has, by its name, as de-g0.utb or de-g0, or its title, or a
language if it has no other table, or a file. Its characters and rules are read, with all
that it includes, and liblouis is asked for the cells of each character in its places. The
text is then compared with liblouis, through the program, on lines that were not used for
making it. It is written to FILE, or to standard output, if at least half of the lines
agree, and 99 of 100 of those that don't need what a table of braildesk can't have
(passages of capitals, several passes, computer braille). What could not be carried over
stands in comments at the top of the text. The text is under the licence of the table that
it was made from.
With --for MANUSCRIPT rules are learned besides, by asking liblouis, from a list of words
and from the words of a text, a document or a book, so that a contracted table writes it
as liblouis does. What differs still is said with its causes: such a table is to be proofread.
docs/contracted.md makes a book so.
A FILE that is as bring wrote it or that is empty is replaced, and any other only with
--overwrite."""
EXAMPLE = """\
scribe bring --list
scribe bring --list Spanish
scribe bring es-g1.ctb spanish.utb"""
LEGEND = (
    "real lines: of lines of running text that nobody made for the table, the share that agrees with"
    " liblouis, where they were measured. made-up lines: the same of lines that were made"
    " from the table's letters. others: that share without the lines that differ and need what a table"
    " of braildesk can't have."
)
NOT_WRITTEN = (
    "Nothing was written, since fewer than 99 of 100 lines agree. With --anyway the text is"
    " written as it is."
)
NO_LINES = (
    "Nothing was written, since no line could be compared: the table lacks letters, blanks or"
    " the marks of sentences. With --anyway the text is written as it is."
)
FEW_LINES = (
    "Nothing was written, since fewer than half of all lines agree. With --anyway the text is"
    " written as it is."
)

FEWEST_WORDS = 0.95
"""The share of a manuscript's words that has to agree, those aside that no table can write so."""
FEW_WORDS = (
    "Nothing was written, since fewer than 95 of 100 words agree of those that a table of braildesk"
    " can write. With --anyway the text is written as it is."
)


def add_parser(subparsers: Subparsers) -> ArgumentParser:
    """Adds the words of `bring`."""
    parser = command_parser(subparsers, "bring", EXAMPLE, MORE)
    parser.add_argument(
        "table",
        metavar="TABLE",
        nargs="?",
        type=table_name,
        help="the table, by its name or its file",
    )
    parser.add_argument(
        "file",
        metavar="FILE",
        nargs="?",
        type=file_path,
        help="where the text is written",
    )
    parser.add_argument(
        "--list",
        action="store_true",
        help="show the installed tables instead, or those of the language TABLE",
    )
    _add_files(parser)
    parser.add_argument(
        "--anyway",
        action="store_true",
        help="write the text however few lines agree",
    )
    parser.add_argument(
        "--overwrite",
        action="store_true",
        help="replace a FILE that isn't as bring wrote it, unless it is a book",
    )
    parser.set_defaults(usage=parser.format_usage().strip())
    return parser


def _add_files(parser: ArgumentParser) -> None:
    """Adds the words that name a file to read."""
    parser.add_argument(
        "--words",
        metavar="LIST",
        type=readable,
        help="a file of words, one on a line, to compare with or, with --for, to learn from",
    )
    parser.add_argument(
        "--for",
        dest="manuscript",
        metavar="MANUSCRIPT",
        type=readable,
        help="a text, a document or a book: learn rules for its words, as of contracted braille",
    )
    parser.add_argument(
        "--add",
        metavar="LINES",
        type=readable,
        help="a file of lines of your own, which come after those of the table",
    )


def run(arguments: Namespace, console: Console) -> Status:
    """Shows the tables, or brings one over."""
    if arguments.list:
        if arguments.file is not None:
            raise WordsRefused(
                "Argument FILE: --list shows tables, and writes none.", arguments.usage
            )
        lines = listed(arguments.table)
        console.show(*lines)
        if len(lines) > 1:
            console.say(LEGEND)
        return Status.DONE
    if arguments.table is None:
        raise WordsRefused(
            "Which table is to be brought over? `scribe bring --list` shows those that the"
            " installed liblouis has.",
            arguments.usage,
        )
    try:
        table = named_table(arguments.table)
        _judge_file(table, arguments)
        if not is_named_by_file(arguments.table, table):
            console.say(f"{arguments.table} is the table {table.name}.")
        if arguments.manuscript is not None:
            return _for_manuscript(table, arguments, console)
        brought = convert(table, Options(arguments.words, add=arguments.add))
    except (NoTable, BadAddition) as found:
        raise Stop(found.sentence, more=found.more) from found
    except (NoLiblouis, NoWords) as found:
        raise Stop(str(found)) from found
    console.say(*said_of(brought))
    if not brought.is_good and not arguments.anyway:
        raise Stop(_why_not(brought))
    return _written(report.with_sum(brought.text), arguments, console)


def _judge_file(table: Path, arguments: Namespace) -> None:
    """Refuses to write the text over a file from which it is made."""
    file = arguments.file
    sources = (table, arguments.manuscript, arguments.words, arguments.add)
    its = [] if file is None else [each for each in sources if each is not None]
    if any(is_same_file(file, each) for each in its):
        raise Stop(
            f"The table would take the place of {file}, from which it is made. Nothing was written."
        )
    if file is not None:
        try:
            judge_place(file, None if arguments.overwrite else report.is_brought)
        except AnotherIsThere as taken:
            raise _not_replaced(file, taken) from taken
        except OSError as error:
            raise file_not_written(file, error) from error


def _not_replaced(file: Path, there: AnotherIsThere) -> Stop:
    return Stop(left_there(file, there, "table as scribe bring wrote it"))


def _for_manuscript(table: Path, arguments: Namespace, console: Console) -> Status:
    """Makes a table for a manuscript, and says what it is worth."""
    manuscript, access = _manuscript(arguments.manuscript, console)
    means = means_for(table, arguments.words, console.progress, arguments.add)
    tailored = tailor(table, manuscript, means)
    console.say(manuscript_report.NOT_CERTIFIED, *manuscript_report.said_of(tailored))
    if tailored.own.share_within_rules < FEWEST_WORDS and not arguments.anyway:
        raise Stop(FEW_WORDS)
    text, warned = manuscript_report.text_of(tailored)
    console.say(*warned)
    return _written(report.with_sum(text), arguments, console, access)


def _manuscript(path: Path, console: Console) -> tuple[Manuscript, Access]:
    """A manuscript, and who may read it: it may be gone by the time at which the table is made."""
    try:
        found, access = read_with_access(path)
    except UnreadableText as cause:
        why = unreadable(cause).replace(", and import it again", "")
        raise Stop(f"{path} {why}.") from cause
    except OSError as cause:
        raise Stop(f"{path} can't be read: {cause.strerror}.") from cause
    if not found.texts:
        raise Stop(f"{path} has no paragraph, so there is nothing to make a table for.")
    if found.kept_at is not None:
        console.say(as_kept(path, found.kept_at))
    return Manuscript(path.name, found.texts), access


def listed(language: str | None = None) -> list[str]:
    """The installed tables by language, each with the shares that were measured, or those of one language."""
    measured = measured_tables()
    tables = shipped_tables()
    if language is not None and tables:
        tables = of_language(language, tables)
        if not tables:
            raise Stop(
                f"No installed table is for the language {language}. `scribe bring --list`"
                " shows the languages in its first column."
            )
    lines = []
    for table in tables:
        row = measured.get(table.name)
        shares = _shares(row)
        lines.append(_row(table.language, table.name, *shares, table.title or "-"))
    if not lines:
        return ["No tables of liblouis are installed: apt-get install liblouis-data."]
    head = _row("language", "table", "real lines", "made-up lines", "others", "title")
    return [head, *lines]


def _shares(row: Measured | None) -> tuple[str, str, str]:
    """The shares of a table in percent: of real lines, of made-up ones, and of the others of these."""
    if row is None:
        return "-", "not measured", "-"
    # in a narrow row nothing else says which of the shares is missing
    real = "-" if row.real is None else report.percent(row.real)
    return real, report.percent(row.unseen), report.percent(row.others)


def _row(
    language: str, table: str, real: str, made_up: str, others: str, title: str
) -> str:
    return f"{language:<8} {table:<34} {real:>10} {made_up:>13} {others:>7}  {title}"


def said_of(brought: Converted) -> list[str]:
    """What is said of a table that was brought over."""
    lines = report.agreement(brought.unseen)
    lines.append(f"The words of these lines are from {brought.source_of_words}.")
    if brought.unseen.others:
        lines.append("Lines that differ:")
        lines += report.examples(brought.unseen.others)
    elif brought.unseen.differences:
        lines.append("Lines that differ:")
        lines += report.examples(brought.unseen.differences, most=3)
    return [*lines, *brought.losses]


def _why_not(brought: Converted) -> str:
    if not brought.unseen.lines:
        return NO_LINES
    return FEW_LINES if brought.unseen.share >= LIMIT else NOT_WRITTEN


def _written(
    text: str, arguments: Namespace, console: Console, access: Access = Access()
) -> Status:
    """Writes a table, which names words of a manuscript for which it is made."""
    file = arguments.file
    replaces = None if arguments.overwrite else report.is_brought
    if file is None:
        console.pass_on(*text.removesuffix("\n").split("\n"))
        return Status.DONE
    try:
        write_whole(file, text.encode(), access, replaces)
    except AnotherIsThere as taken:
        raise _not_replaced(file, taken) from taken
    except MayNotLast as error:
        raise Stop(may_not_last(file, error), Status.FAILED) from error
    except OSError as error:
        raise file_not_written(file, error) from error
    console.say(f"{file} was written, {text.count(chr(10)):,} lines.")
    return Status.DONE
