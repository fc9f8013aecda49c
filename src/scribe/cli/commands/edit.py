"""`scribe edit`: the book on the screen."""

import os
import shutil
import sys
from argparse import ArgumentParser, Namespace
from dataclasses import replace
from io import TextIOWrapper
from pathlib import Path
from typing import TYPE_CHECKING

from braildesk import Lost
from braildesk.text.shell_words import command_line
from braildesk.text.wrapping import Offered

from scribe.cli.endings import not_begun
from scribe.cli.own_modules import hold_modules
from scribe.cli.page_size import add_page_size, page_size_of
from scribe.cli.parser import Subparsers, add_file, command_parser, proofreader
from scribe.prompt.typed_lines import are_typed
from scribe.words import encoding
from scribe.words.aftermath import tell_end
from scribe.words.console import Console
from scribe.words.links import name_of
from scribe.words.status import Interrupted, Status, Stop, not_loaded
from scribe.words.typed import path_word

if TYPE_CHECKING:
    from scribe.screen.desk import Desk
    from scribe.screen.terminal import Screen

MORE = """\
The paragraphs are listed, and of the chosen one the print and the braille are shown. The
arrow keys move, Enter edits the print, ? shows the keys, q ends. What is said to be kept
is in the book. Text that isn't in the book yet is kept in ~/.local/state/braildesk, and is
offered at the next opening; of several texts the newest is, and U asks about the others.
NO_COLOR is obeyed: there are no colours."""
EXAMPLE = "scribe edit moon.braildesk --by anna"


def add_parser(subparsers: Subparsers) -> ArgumentParser:
    """Adds the words of `edit`."""
    parser = command_parser(subparsers, "edit", EXAMPLE, MORE)
    add_file(parser, wait=0)
    parser.add_argument(
        "--by",
        metavar="WHO",
        type=proofreader,
        help="the proofreader, whose name corrections keep",
    )
    add_page_size(parser)
    return parser


def run(arguments: Namespace, console: Console) -> Status:
    """Shows the book until the person ends it."""
    if not are_typed():
        raise Stop(
            "scribe edit needs a terminal, with which nothing else is read or written. scribe"
            " run and scribe talk work without one. Nothing was changed."
        )
    if os.environ.get("TERM") == "dumb":
        talk = command_line(["scribe", "talk", path_word(arguments.file)])
        dumb = (
            "scribe edit needs a terminal on which the cursor moves, and TERM says that this one is"
            " dumb. Nothing was changed. This works here:"
        )
        raise Stop(Offered(dumb, talk))
    try:
        # imported here, since only this command needs prompt_toolkit
        with not_begun():
            from scribe.screen.desk import Desk
            from scribe.screen.state import Size
            from scribe.screen.terminal import Screen
    except ImportError as missing:
        raise not_loaded(
            missing,
            "prompt_toolkit",
            "scribe edit needs prompt_toolkit, which is not installed. Debian has it as"
            " python3-prompt-toolkit. scribe talk works without it.",
        ) from None
    hold_modules()
    with not_begun():
        desk = Desk(arguments.file, arguments.wait, console.waiting())
    columns, lines = shutil.get_terminal_size()
    environment = encoding.first_environment()
    is_ascii = encoding.is_plain(environment)
    of_terminal = encoding.encoding_of(environment, sys.stdout.encoding)
    _take_encoding(of_terminal)
    size, tell = Size(columns, lines), console.say_if_followed
    state = desk.first_state(size, arguments.by, is_ascii, tell)
    state = replace(state, page_size=page_size_of(arguments), encoding=of_terminal)
    return _shown(desk, Screen(desk, state), arguments.file, console)


def _shown(desk: "Desk", screen: "Screen", book: Path, console: Console) -> Status:
    """Shows the book until it is left. Whatever ends the screen, what can't be kept is said."""
    try:
        screen.run()
    except Exception:
        console.say(*screen.unseen)
        raise
    return _end(desk, screen, book, console)


def _end(desk: "Desk", screen: "Screen", book: Path, console: Console) -> Status:
    """Closes the book, and says how its session ended, if somebody is there to read it."""
    try:
        desk.close()
    except Lost as lost:
        if not screen.is_hung_up:
            console.say(lost.sentence, *screen.unseen)
        return Status.FAILED
    except Interrupted:
        # the program doesn't answer, and isn't waited for
        console.say(*screen.unseen)
        raise
    if screen.is_hung_up:
        return Status.FAILED
    if screen.state.is_lost:
        lines_said = screen.state.pages.lines if screen.state.pages else ()
        # what is typed stands last, and may be said there already
        is_said = not screen.unseen or screen.unseen[-1] in lines_said
        console.say(*desk.not_so_any_more, *lines_said)
        console.say(*(() if is_said else screen.unseen))
        return Status.FAILED
    tell_end(console, name_of(book), screen.state.version, desk.strayed)
    console.say(*screen.unseen)
    if screen.ended_by is not None:
        raise Interrupted(screen.ended_by, is_said=True)
    return Status.DONE


def _take_encoding(its: str) -> None:
    """Has keys and the screen be in an encoding."""
    for stream in (sys.stdin, sys.stdout):
        if isinstance(stream, TextIOWrapper):
            stream.reconfigure(encoding=its)
