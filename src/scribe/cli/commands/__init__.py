"""The commands, in the order in which help lists them. Each is imported when it is run."""

from argparse import ArgumentParser, Namespace
from collections.abc import Mapping
from importlib import import_module
from typing import TYPE_CHECKING, Protocol, cast

if TYPE_CHECKING:
    from scribe.cli.book_command import BookCommand
    from scribe.cli.parser import Subparsers
    from scribe.words.console import Console
    from scribe.words.status import Status

# the module of the commands that send one request each
_EDITS = "edits"
#: Each command by its name: the module of this folder that has it, and what it does.
COMMANDS: Mapping[str, tuple[str, str]] = {
    "new": ("new", "Makes a new book with a table in it."),
    "edit": ("edit", "Shows the book on the screen, to work on."),
    "window": ("window", "Shows the book in a window, to work on."),
    "run": (
        "run",
        "Answers the requests of standard input, with a sentence after each refusal.",
    ),
    "talk": ("talk", "Works on a book at a prompt, in words."),
    "table": ("table", "Puts a table into the book."),
    "check-table": ("check_table", "Shows all that is wrong with a table."),
    "try": ("try_table", "Tries a table on print that is typed."),
    "import": ("import_text", "Types the paragraphs of a text file or a document."),
    "show": ("show", "Shows print, braille and marks."),
    "list": ("list_paragraphs", "Shows each paragraph in short."),
    "history": ("history", "Says who changed what."),
    "compare": ("compare", "Shows the words that differ from a manuscript."),
    "find": ("find", "Finds words or cells in the book."),
    "change": ("change", "Puts words in place of others."),
    "change-all": ("change_all", "Puts words in place of others in the whole book."),
    "mark": ("mark", "Puts a mark on words, with a note."),
    "marks": ("marks", "Shows all marks with their words and notes."),
    "next": ("next_mark", "Shows the next open mark, with the words around it."),
    "undo": ("edits", "Takes back the newest correction of a paragraph."),
    "resolve": ("edits", "Says that a mark is dealt with."),
    "strike": ("edits", "Takes a paragraph out of the volumes."),
    "restore": ("edits", "Puts a struck paragraph back into the volumes."),
    "heading": ("edits", "Makes a paragraph a heading."),
    "body": ("edits", "Makes a paragraph body text."),
    "volume": ("edits", "Says whether a paragraph begins a volume."),
    "volumes": ("volumes", "Shows the volumes, or where they would begin."),
    "move": ("edits", "Puts a paragraph elsewhere in the book."),
    "retable": ("edits", "Gives a paragraph another table."),
    "pages": ("pages", "Says what stands on which page and line."),
    "export": ("export", "Writes all volumes as pages for an embosser."),
    "proof": ("proof", "Writes pages for those who read print."),
    "copy": ("copy", "Copies a book whole, and opens the copy."),
    "bring": ("bring", "Brings a table of liblouis over."),
    "tune": ("tune", "Compares a book's words with liblouis, and mends its table."),
}


#: The commands that change no book, whatever their words; of the others a `BookCommand` says it.
CHANGES_NONE = ("check-table", "try", "export", "proof", "bring")

#: The commands that `scribe talk` takes too, by the same words, in the order in which its help lists
#: them: each module has a `BookCommand`.
AT_PROMPT = (
    *(
        "show",
        "list",
        "find",
        "marks",
        "next",
        "pages",
        "volumes",
        "history",
        "compare",
    ),
    *("change", "change-all", "mark", "resolve", "undo", "strike", "restore"),
    *("heading", "body", "volume", "move", "retable", "table"),
)


class Command(Protocol):
    """A module of this folder, which has these two functions, or an object with these methods."""

    def add_parser(self, subparsers: "Subparsers") -> ArgumentParser:
        """Adds the command's words, with `scribe.cli.parser.command_parser`, and returns its parser."""

    def run(self, arguments: Namespace, console: "Console") -> "Status":
        """Does what the words ask for. What it lets through, `scribe.cli` turns into a sentence."""


def command(name: str) -> Command:
    """The command of a name."""
    module, _ = COMMANDS[name]
    found = import_module(f"{__name__}.{module}")
    if module == _EDITS:
        return cast(Command, found.EDITS[name])
    return cast(Command, getattr(found, "COMMAND", found))


def may_change(arguments: Namespace) -> bool:
    """Whether a command may change a book by its words."""
    # imported here, since most commands come to their end
    from scribe.cli.book_command import BookCommand

    is_trial = getattr(arguments, "dry_run", False)
    if arguments.command in CHANGES_NONE or is_trial:
        return False
    if not getattr(arguments, "apply", True):
        # what tune finds is put into the book only if that is asked for
        return False
    its = command(arguments.command)
    return its.may_change(arguments) if isinstance(its, BookCommand) else True


def prompt_command(name: str) -> "BookCommand":
    """The command of a name that `scribe talk` takes too."""
    return cast("BookCommand", command(name))
