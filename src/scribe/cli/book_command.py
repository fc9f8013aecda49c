"""Commands on a book: at a shell each opens the book, and at the prompt of `talk` it is open."""

from argparse import ArgumentParser, Namespace
from collections.abc import Callable
from contextlib import AbstractContextManager, nullcontext
from dataclasses import dataclass
from typing import TYPE_CHECKING, TypeAlias

from braildesk.desk import USUAL_WAIT

from scribe.cli.endings import not_begun
from scribe.cli.parser import Parser, Subparsers, add_file, command_parser, counted
from scribe.words.console import Console
from scribe.words.status import Status

if TYPE_CHECKING:
    from braildesk import Session
    from braildesk.beginning import Beginning
    from braildesk.desk.marks import MarkOfBook

#: The mark that a person deals with from now on, or how a command ends that isn't just done.
Outcome: TypeAlias = "MarkOfBook | Status | None"
#: What does what the words of a command ask for. The book is at `arguments.file`, and what looks at it
#: has the path `arguments.read_at` open. At a prompt `arguments.ask_person` asks a question.
Answer: TypeAlias = "Callable[[Session, Namespace, Console], Outcome]"


@dataclass(frozen=True, eq=False)
class BookCommand:
    """A command whose words mean the same at a shell and at the prompt of `talk`."""

    name: str
    example: str
    #: Adds its words but for the book's file.
    add_words: Callable[[Parser], None]
    #: What does what its words ask for. At a shell it is imported while the program opens the book,
    #: where that takes long.
    answering: Callable[[], Answer]
    more: str = ""
    #: Whether it looks at the book and changes nothing.
    looks: bool = False
    #: Whether its words have it change the book though it looks at it without them.
    changes: Callable[[Namespace], bool] | None = None
    #: Refuses words that don't go together, before anything is begun by them.
    judge: Callable[[Namespace], None] = lambda _: None
    #: Begins at a shell what goes on beside the opening of the book.
    beside: Callable[[Namespace], AbstractContextManager[object]] = nullcontext

    def add_parser(self, subparsers: Subparsers) -> Parser:
        """Adds its words, and those for the book's file."""
        parser = command_parser(subparsers, self.name, self.example, self.more)
        wait = 0.0 if self.looks else USUAL_WAIT
        # what looks at a book doesn't wait, and with some words this isn't just a look
        add_file(parser, None if self.changes else wait)
        self.add_words(parser)
        return parser

    def prompt_parser(self) -> Parser:
        """The parser of its words at a prompt, where those that are missing are asked for."""
        parser = Parser(prog=self.name)
        self.add_words(parser)
        for asked in parser.asked:
            asked.action.required = False
        return parser

    def run(self, arguments: Namespace, console: Console) -> Status:
        """Opens the book, and does what the words ask for."""
        self.judge(arguments)
        if arguments.wait is None:
            arguments.wait = USUAL_WAIT if self.may_change(arguments) else 0.0
        with self.beside(arguments), _begun(arguments, console) as beginning:
            with not_begun():
                # imported once the program is at work, as is what answers
                from scribe.cli.opened_book import answered

            return answered(self, beginning, arguments, console)

    def may_change(self, arguments: Namespace) -> bool:
        """Whether its words may have it change the book."""
        return not self.looks or bool(self.changes and self.changes(arguments))


def _begun(arguments: Namespace, console: Console) -> "Beginning":
    """The program, which begins to open the book."""
    with not_begun():
        from braildesk.beginning import Beginning

        return Beginning(arguments.file, console.waiting())


def add_nth(parser: ArgumentParser, words: str) -> None:
    """Adds the word `--nth`: which place, counted from 1, as `arguments.nth`."""
    parser.add_argument(
        "--nth",
        metavar="N",
        type=counted("places"),
        help=f"the Nth place, where {words} stands more than once",
    )
