"""`scribe check-table`: what is wrong with the text of a table, and what is rarely meant."""

from argparse import ArgumentParser, Namespace

from braildesk.opening import MAGIC
from braildesk.tables import Reading, TableText, Warning, text_at, warnings
from braildesk.text.wrapping import wrap

from scribe.cli.parser import Subparsers, add_width, command_parser, file_path
from scribe.words.console import Console
from scribe.words.status import Status, Stop
from scribe.words.tables import counted, fault_lines, named, warning_lines

MORE = """\
Each line that braildesk refuses is shown, with what is wrong with it. Where none is
refused, lines are shown that are accepted but rarely meant: a rule that is never
chosen, since an earlier line has the same characters or since a sign always stands
inside it; a capital without its sign; a cell with dot 7 or 8, which no page for an
embosser can have. The first refused line is compared with the one that braildesk
reports. The status is 0 if no line is refused."""
EXAMPLE = """\
scribe check-table plain.utb
scribe check-table plain.utb --display"""
_INDENT = "  "


def add_parser(subparsers: Subparsers) -> ArgumentParser:
    """Adds the words of `check-table`."""
    parser = command_parser(
        subparsers,
        "check-table",
        EXAMPLE,
        MORE,
    )
    parser.add_argument(
        "table", metavar="TABLE", type=file_path, help="the table's file"
    )
    parser.add_argument(
        "--display",
        action="store_true",
        help="the table's books are read on displays alone, so dots 7 and 8 are no matter",
    )
    add_width(parser)
    return parser


def run(arguments: Namespace, console: Console) -> Status:
    """Shows the faults, or the warnings if there is none."""
    text = text_at(arguments.table)
    if text.startswith(MAGIC):
        raise Stop(f"{named(arguments.table)} is a book of braildesk, and no table.")
    reading = TableText(arguments.table, text).reading
    rare = warnings(reading.table, is_for_embosser=not arguments.display)
    found = [] if reading.faults else rare
    for line in [*fault_lines(reading), *warning_lines(found, reading)]:
        console.show(*wrap(line, console.columns, _INDENT))
    summary = _summary(named(arguments.table), reading, found)
    console.show(*wrap(summary, console.columns, _INDENT))
    return Status.REFUSED if reading.faults else Status.DONE


def _summary(name: str, reading: Reading, found: list[Warning]) -> str:
    if reading.faults:
        faults = counted(len(reading.faults), "fault")
        return f"{name}: {faults}. braildesk refuses the table. Warnings come once it is accepted."
    return f"{name}: no faults, {counted(len(found), 'warning')}. braildesk accepts the table."
