"""`scribe window`: the book in a window."""

import os
from argparse import ArgumentParser, Namespace
from typing import TYPE_CHECKING

from scribe.cli.endings import not_begun, say_last
from scribe.cli.own_modules import hold_modules
from scribe.cli.page_size import add_page_size, page_size_of
from scribe.cli.parser import Subparsers, add_file, command_parser, proofreader
from scribe.words.aftermath import tell_end
from scribe.words.console import Console
from scribe.words.status import Status, Stop, not_loaded

if TYPE_CHECKING:
    from scribe.window.application import Application

MORE = """\
The paragraphs are a table, and of the chosen one the print and the braille are shown, each
with a caret that goes with the other's. What is typed is kept by Enter, or when another
paragraph is chosen; each action stands in a menu with its key, and F1 lists them all. Text
that wasn't sent is kept in ~/.local/state/braildesk, and is offered at the next opening; of
several texts the newest is, and Ctrl+B asks about the others."""
EXAMPLE = "scribe window moon.braildesk --by anna"
# where the environment says which screen there is, or what stands for one
_SCREENS = ("DISPLAY", "WAYLAND_DISPLAY", "QT_QPA_PLATFORM")


def add_parser(subparsers: Subparsers) -> ArgumentParser:
    """Adds the words of `window`."""
    parser = command_parser(subparsers, "window", EXAMPLE, MORE)
    add_file(
        parser, wait=0, without="; without it the window asks for one, or a new one"
    )
    parser.add_argument(
        "--by",
        metavar="WHO",
        type=proofreader,
        help="the proofreader, whose name corrections keep",
    )
    add_page_size(parser)
    return parser


def run(arguments: Namespace, console: Console) -> Status:
    """Shows the book until its window is closed."""
    _check_screen()
    try:
        # imported here, since only this command needs PyQt6
        with not_begun():
            from scribe.window.application import Application, NoBook
    except ImportError as missing:
        raise not_loaded(
            missing,
            "PyQt6",
            "scribe window needs PyQt6, which is not installed. Debian has it as python3-pyqt6."
            " scribe edit shows a book in a terminal without it.",
        ) from None
    from braildesk import DeskError

    hold_modules()
    size = page_size_of(arguments)
    words = arguments.file, arguments.by, arguments.wait, size
    try:
        application = Application(*words, _left)
    except NoBook:
        return Status.DONE
    try:
        application.begin()
    except DeskError as failed:
        if not console.errors.isatty():
            # who starts it from a menu or a manager of files reads no standard error
            application.tell(failed.sentence)
        raise
    application.run()
    return _closed(application, console)


def _closed(application: "Application", console: Console) -> Status:
    """Says what is so of the book once its window is closed."""
    if application.loss:
        console.say(f"{application.loss} {application.waits}".rstrip())
        return Status.FAILED
    tell_end(console, application.name, application.version, application.strayed)
    if application.waits:
        console.say(application.waits)
    return Status.DONE


def _check_screen() -> None:
    """Raises `Stop` where no screen is known on which a window can be shown."""
    if not any(os.environ.get(name) for name in _SCREENS):
        raise Stop(
            "scribe window needs a screen with windows, and none is known here (DISPLAY and"
            " WAYLAND_DISPLAY aren't set). scribe edit shows a book in a terminal."
        )


def _left(sentence: str) -> None:
    """Says what is so where nothing can be shown any more, and ends the process.

    That ends its session too, in which what was reported as kept is in the book.
    """
    say_last(sentence)
    os._exit(Status.FAILED)
