"""`scribe try`: a table tried at a prompt, with the line of each rule that is chosen."""

from argparse import ArgumentParser, Namespace
from contextlib import AbstractContextManager, nullcontext
from dataclasses import dataclass

from braildesk import DeskError, Failed
from braildesk.text.sequences import composed
from braildesk.text.wrapping import columns, wrap

from scribe.cli.own_modules import hold_modules
from scribe.cli.parser import Subparsers, add_width, command_parser, file_path
from scribe.prompt.trial import Trial
from scribe.prompt.typed_lines import (
    Due,
    GivenUp,
    Lines,
    PipedLines,
    TypedLines,
    are_typed,
)
from scribe.words.console import Console, NoInput
from scribe.words.status import Status, Stop, in_sentences

MORE = """\
Print is typed at a prompt. The answer is its braille, as braildesk translates it, and
then the lines of the table by which its cells came about, from left to right. A file
that is saved is read again by itself: while nothing is typed at once, and the last print
is translated once more, else with the line that is typed. An empty line too translates
the last print once more. Print is taken in normal form C, as a book keeps it. quit or
Ctrl-D ends, Ctrl-C gives up the line that is typed. The status is that of the last
answer."""
EXAMPLE = "echo 'The sea' | scribe try plain.utb"
PROMPT = "> "
_INDENT = "  "
_QUIT = b"quit"


@dataclass(frozen=True)
class _Talk:
    """A table that is tried, and the person who tries it."""

    trial: Trial
    lines: Lines
    console: Console
    width: int

    def show(self, *lines: str) -> None:
        """Shows lines, none of them over the width."""
        for line in lines:
            fits = columns(line) <= self.width
            self.console.show(*([line] if fits else wrap(line, self.width, _INDENT)))

    def say(self, sentence: str) -> None:
        """Says what kept a line from being answered."""
        self.console.say(*wrap(sentence, self.width, _INDENT))

    def next_line(self) -> bytes | None:
        """The next line that is typed, or None if the person ends.

        It is an empty one too if the file was saved before a line is begun.
        """
        self.console.flush()
        try:
            line = self.lines.line(PROMPT, is_kept=True, is_due=self.trial.is_saved)
        except Due:
            return b""
        if line is None or line.strip() == _QUIT:
            return None
        return line.removesuffix(b"\r")

    def answer(self, text: str) -> None:
        """Shows what a text comes to by the table as its file is now."""
        if self.trial.reread():
            self.show("The file was saved, and is read again.", *self.trial.state())
            if self.trial.status is not Status.DONE:
                return
        if text:
            self.show(*self.trial.answer(text))


def add_parser(subparsers: Subparsers) -> ArgumentParser:
    """Adds the words of `try`."""
    parser = command_parser(subparsers, "try", EXAMPLE, MORE)
    parser.add_argument(
        "table", metavar="TABLE", type=file_path, help="the table's file"
    )
    add_width(parser)
    return parser


def run(arguments: Namespace, console: Console) -> Status:
    """Answers line after line until the person ends it."""
    trial = Trial(arguments.table)
    with _lines(console) as lines:
        talk = _Talk(trial, lines, console, console.columns)
        talk.show(*trial.state(), "Type print, or quit to end.")
        last = ""
        while True:
            try:
                line = talk.next_line()
                if line is None:
                    return trial.status
                last = _text(line) or last
                with in_sentences(lambda: False):
                    talk.answer(last)
            except GivenUp:
                talk.show("Given up.")
            except Stop as stop:
                trial.status = stop.status
                talk.say(stop.sentence)
            except NoInput:
                raise
            except DeskError as refused:
                failed = isinstance(refused, Failed)
                trial.status = Status.FAILED if failed else Status.REFUSED
                talk.say(refused.sentence)


def _lines(console: Console) -> AbstractContextManager[Lines]:
    if not are_typed():
        return nullcontext[Lines](PipedLines(console))
    hold_modules()
    return TypedLines()


def _text(line: bytes) -> str:
    """The text that was typed, as a book would keep it."""
    try:
        return composed(line.decode())
    except UnicodeDecodeError:
        raise Stop("This line isn't UTF-8, and was not translated.") from None
