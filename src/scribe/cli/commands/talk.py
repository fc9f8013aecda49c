"""`scribe talk`: a book at a prompt, in words."""

from argparse import ArgumentParser, Namespace
from contextlib import AbstractContextManager, ExitStack, nullcontext
from pathlib import Path

from braildesk import DeskError, Lost
from braildesk.protocol.requests import BY_NAME
from braildesk.text.characters import visible

from scribe.cli import prompt_words
from scribe.cli.endings import not_begun
from scribe.cli.opened_book import follow, open_session
from scribe.cli.own_modules import hold_modules
from scribe.cli.commands import AT_PROMPT
from scribe.cli.parser import (
    Subparsers,
    add_cells,
    add_file,
    command_parser,
    proofreader,
    width,
)
from scribe.prompt.broken_off import BrokenOff
from scribe.prompt.conversation import Conversation, Ended, EndedAmong, request_line
from scribe.prompt.typed_lines import GivenUp, Lines, PipedLines, TypedLines, are_typed
from scribe.words.aftermath import opened_again, tell_end
from scribe.words.console import Console
from scribe.words.elsewhere import AT_PROMPT as KNOWN, hint
from scribe.words.status import Status, Stop, in_sentences

MORE = """\
The commands are those of the shell without the file, as in change 1 mon moon, and ask for
words that a line lacks, one at a time. Requests of a book are typed as docs/FORMATS.md
has them and answered in words. help lists all; quit, q or exit ends. Each answer begins
with what changed, and is kept when it is shown. Requests count places and cells from 0,
and what is said in words counts from 1. Ctrl-C gives up the line that is typed."""
EXAMPLE = "echo 'change 1 far near' | scribe talk moon.braildesk"
PROMPT = "> "
USUAL_WIDTH = 80
_ENDS = ("quit", "q", "exit")
_GIVEN_UP = "Given up. Nothing was changed."
_BLANKS = b" \t"


def add_parser(subparsers: Subparsers) -> ArgumentParser:
    """Adds the words of `talk`."""
    parser = command_parser(subparsers, "talk", EXAMPLE, MORE)
    add_file(parser, wait=0)
    parser.add_argument(
        "--by",
        metavar="WHO",
        type=proofreader,
        help="the proofreader whose name the corrections of change keep",
    )
    add_cells(parser)
    parser.add_argument(
        "--short", action="store_true", help="ask questions in a word or two"
    )
    parser.add_argument(
        "--width",
        dest="columns",
        metavar="N",
        type=width,
        help=f"no line over N columns; {USUAL_WIDTH}, or the terminal's width if that is"
        " less, where it isn't given",
    )
    parser.set_defaults(most_columns=USUAL_WIDTH)
    return parser


def run(arguments: Namespace, console: Console) -> Status:
    """Talks until the person ends it."""
    with ExitStack() as closed, ExitStack() as opened:
        with not_begun():
            session = opened.enter_context(open_session(arguments, console))
            lines = opened.enter_context(_lines(console))
        conversation = Conversation(
            session,
            lines,
            [*_ENDS, *prompt_words.names()],
            console,
            arguments.by,
            arguments.short,
        )
        count = len(session.paragraphs())
        console.show(
            f"{arguments.file.name}: version {session.last_version:,}, {count:,}"
            f" {'paragraph' if count == 1 else 'paragraphs'}. Type help, or quit to end."
        )
        broken_off = opened.enter_context(BrokenOff(conversation, arguments.file))
        # the end of the session may show that the book is gone
        closed.callback(lambda: follow(conversation.session, arguments.file))
        while (lost := _talk(conversation, arguments.file, broken_off)) is not None:
            again, said = opened_again(arguments.file, lost, conversation.shown)
            console.say(*said)
            if again is None:
                broken_off.keep()
                return Status.FAILED
            session = opened.enter_context(again)
            if not isinstance(lines, TypedLines):
                # nobody has read what was said, and the lines were written before it
                return Status.FAILED
            conversation.session = session
        # what is said of the book is so once it is closed
        session.close()
        tell_end(console, "The book", session.last_version, session.strayed)
    return Status.DONE


def _lines(console: Console) -> AbstractContextManager[Lines]:
    if not are_typed():
        return nullcontext[Lines](PipedLines(console))
    hold_modules()
    return TypedLines()


def _talk(conversation: Conversation, file: Path, broken_off: BrokenOff) -> Lost | None:
    """Answers line after line to the end, or until the session is lost."""
    console = conversation.console
    while True:
        try:
            conversation.typed.clear()
            conversation.may_change = False
            line = conversation.next_line(PROMPT, is_kept=True)
            if line.decode(errors="replace").strip() in _ENDS:
                return None
            conversation.shown = conversation.session.last_version
            with in_sentences(lambda: conversation.may_change):
                _answer(conversation, file, line)
            conversation.may_change = False
            broken_off.answered()
            if conversation.session.last_version != conversation.shown:
                conversation.remind()
        except GivenUp:
            console.show(_GIVEN_UP)
            broken_off.given_up()
        except Stop as stop:
            console.say(*stop.lines)
            conversation.bring_back()
        except EndedAmong:
            return None
        except Ended:
            if conversation.typed:
                # somebody was asked for more of that line
                console.show(_GIVEN_UP)
            return None
        except Lost as lost:
            if conversation.may_change:
                console.say("What was typed last may not be in the book:")
                console.say(*map(visible, conversation.typed))
                conversation.bring_back()
            return lost
        except DeskError as failure:
            console.say(failure.sentence)
            conversation.bring_back()


def _answer(conversation: Conversation, file: Path, line: bytes) -> None:
    """Answers one line: help, a command of the shell, or a request."""
    line = line.lstrip(_BLANKS)
    if b" " not in line.partition(b"\t")[0]:
        # a tab after the first word parts it from the others as a blank does
        line = line.replace(b"\t", b" ", 1)
    name, _, rest = line.decode("utf-8", "surrogateescape").partition(" ")
    if not name:
        return
    if name == "help":
        _help(conversation, rest.strip())
    elif name in ("short", "long"):
        conversation.is_short = name == "short"
        console = conversation.console
        console.show(
            f"Questions are {'short' if name == 'short' else 'in sentences'} now."
        )
    elif name in AT_PROMPT:
        prompt_words.command_answered(conversation, file, name, rest)
    elif name in _ENDS:
        conversation.console.say(f"{name} takes no words. Type {name} alone to end.")
    elif name == "request":
        request_line(conversation, line.removeprefix(b"request").lstrip(_BLANKS))
    elif name in BY_NAME or name.startswith("@"):
        request_line(conversation, line)
    else:
        conversation.console.say(_unknown(name))


def _help(conversation: Conversation, name: str) -> None:
    lines = prompt_words.help_of(name) if name else prompt_words.overview()
    if lines is None:
        conversation.console.say(_unknown(name))
    else:
        conversation.console.show(*lines)


def _unknown(name: str) -> str:
    said = hint(name, prompt_words.names(), KNOWN)
    return f"There is no {visible(name[:40])}.{said} help says what can be typed."
