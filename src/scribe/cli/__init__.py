"""The command line: its words are parsed, a command runs, and what went wrong is said once."""

import sys
from argparse import Namespace
from collections.abc import Collection, Sequence
from contextlib import suppress

from scribe.cli.commands import COMMANDS, command, may_change
from scribe.cli.endings import ended, lost_besides, not_begun, said_of
from scribe.cli.parser import (
    Parser,
    TextAsked,
    WordsRefused,
    as_asked,
    taken_for_options,
    unknown_command,
    width_asked,
)
from scribe.words.console import Console, InputFailed, OutputFailed, width_of_output
from scribe.words.status import Status, Stop, in_sentences

DESCRIPTION = """\
Works on a braildesk book: a file of print, its braille, and the marks on it.
scribe COMMAND --help says more of a command, with an example."""
STATUSES = """\
statuses:
  0  done
  1  the words are refused
  2  something is refused: a request, a book, a table, a text
  3  something failed: a file, the disk, standard input or output, scribe itself
After Ctrl-C (SIGINT), SIGTERM, SIGHUP, SIGQUIT and SIGXCPU scribe says what is so, and ends by
that signal."""


def make_parser(names: Collection[str] = COMMANDS.keys()) -> Parser:
    """The parser of the words of some commands; if these are none, all are listed."""
    parser = Parser(prog="scribe", description=DESCRIPTION, epilog=STATUSES)
    parser.add_version()
    subparsers = parser.add_subparsers(
        title="commands", metavar="COMMAND", dest="command", required=True
    )
    asked = [name for name in COMMANDS if name in names]
    for name in asked:
        its = command(name)
        its.add_parser(subparsers).set_defaults(run=its.run)
    for name, (_, does) in () if asked else COMMANDS.items():
        subparsers.add_parser(name, help=does)
    return parser


def run_words(words: Sequence[str], console: Console) -> Status:
    """Runs the command that the words ask for, and says what kept it from being done."""
    arguments = Namespace()
    try:
        with not_begun():
            parser = make_parser(words[:1])
            if words and not words[0].startswith("-") and words[0] not in COMMANDS:
                parser.refuse(unknown_command(words[0], list(COMMANDS)))
            arguments = parser.parse_args(words)
            console = as_asked(console, arguments)
            if led := _of_link(arguments):
                console.say(led)
        with in_sentences(lambda: may_change(arguments)):
            status: Status = arguments.run(arguments, console)
            console.flush()
        return status
    except TextAsked as asked:
        console.show(*asked.text.rstrip("\n").split("\n"))
        return Status.DONE
    except WordsRefused as refused:
        also = taken_for_options(words, refused)
        console.say(refused.sentence, *also, *refused.usage.split("\n"))
        return Status.WORDS_REFUSED
    except Stop as stop:
        console.say(*stop.lines, *lost_besides(stop))
        return stop.status
    except InputFailed as failed:
        console.say(failed.sentence, *lost_besides(failed))
        return Status.FAILED
    except Exception as failure:
        said = said_of(failure, arguments)
        if said is None:
            raise
        status, sentences = said
        console.say(*sentences, *lost_besides(failure))
        return status


def _of_link(arguments: Namespace) -> str:
    """What is said of a link of another user by which the words name a book; nothing if none does.

    The book is the one to which its path leads now, whatever is put there later.
    """
    if getattr(arguments, "file", None) is None or not hasattr(arguments, "wait"):
        # no book is opened by these words
        return ""
    # imported here, since what only shows help needs none of it
    from scribe.words.links import followed, led

    arguments.file = followed(arguments.file)
    return led(arguments.file)


def main() -> int:
    """Runs the words of this process, and gives its status."""
    return ended(_run_process, _may_change, _width)


def _may_change() -> bool:
    """Whether the words of this process may change a book; those that are refused do nothing."""
    arguments = _arguments()
    return arguments is not None and may_change(arguments)


def _width() -> int | None:
    """The columns of a line for the words of this process."""
    return width_asked(_arguments() or Namespace(), width_of_output())


def _arguments() -> Namespace | None:
    """The words of this process as they are read; None if they are refused, or ask for a text."""
    words = sys.argv[1:]
    try:
        return make_parser(words[:1]).parse_args(words)
    except (TextAsked, WordsRefused):
        return None


def _run_process() -> int:
    console = Console.of_process()
    try:
        status = run_words(sys.argv[1:], console)
        console.flush()
        return status
    except BaseException:
        # what was shown comes before what is said of the end
        with suppress(OutputFailed):
            console.flush()
        raise
