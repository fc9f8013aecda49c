"""The words of the command line: a parser that speaks in sentences, and what its words are."""

import argparse
import re
from collections.abc import Callable, Iterator, Sequence
from contextlib import contextmanager
from dataclasses import dataclass, replace
from itertools import pairwise, takewhile
from pathlib import Path
from typing import TYPE_CHECKING, Any, NoReturn, TypeVar, cast

from braildesk.desk import USUAL_WAIT
from braildesk.text.cells import Notation
from braildesk.text.characters import shortened
from braildesk.text.wrapping import wrap
from braildesk.version import version

from scribe.cli.commands import COMMANDS
from scribe.words import typed
from scribe.words.console import (
    LEAST_WIDTH,
    USUAL_WIDTH,
    Console,
    width_of_output,
)

if TYPE_CHECKING:
    from braildesk.desk.ranges import ParagraphRange
    from braildesk.protocol.requests import CommandOnParagraph

# The object on which a command calls add_parser.
Subparsers = Any
Value = TypeVar("Value")
_ARE_LACKING = re.compile("The following arguments are required: (?!COMMAND)")
_LACKS_WORD = re.compile("Argument (--[a-z-]+): expected one argument")


class WordsRefused(Exception):
    """The words of the command line are refused."""

    def __init__(self, sentence: str, usage: str) -> None:
        super().__init__(sentence)
        self.sentence = sentence
        self.usage = usage


class TextAsked(Exception):
    """The words ask for a text, as that of the help, and nothing else is done."""

    def __init__(self, text: str) -> None:
        super().__init__(text)
        self.text = text


class _Help(argparse.Action):
    def __call__(self, parser: argparse.ArgumentParser, *_: Any) -> NoReturn:
        raise TextAsked(parser.format_help())


class _Formatter(argparse.RawDescriptionHelpFormatter):
    """Paragraphs that flow in the width, with lines that begin with blanks as they are."""

    def __init__(self, prog: str) -> None:
        # two columns are left free, as argparse does by itself
        super().__init__(prog, width=(width_of_output() or USUAL_WIDTH) - 2)

    def _fill_text(self, text: str, width: int, indent: str) -> str:
        lines: list[str] = []
        for paragraph in text.split("\n\n"):
            words: list[str] = []
            lines.append("")
            for line in [*paragraph.splitlines(), " "]:
                if line.startswith(" "):
                    lines += wrap(" ".join(words), width) if words else []
                    lines += [line] if line.strip() else []
                    words = []
                else:
                    words.append(line)
        return "\n".join(lines[1:])


class _Version(argparse.Action):
    def __call__(self, parser: argparse.ArgumentParser, *_: Any) -> NoReturn:
        raise TextAsked(f"{parser.prog} {version()}")


@dataclass(frozen=True, eq=False, repr=False)
class Asked:
    """A word that has to be there. A prompt asks for it if it is missing."""

    action: argparse.Action
    read: Callable[[str], Any]
    question: str
    #: The same in a word or two.
    short: str
    #: Whether it is words that stand in the print of the paragraph that is named before them.
    stands: bool = False
    #: Whether the mark that is dealt with says which it is.
    in_hand: bool = False
    #: Of a paragraph: what is refused if it is struck.
    if_struck: "Callable[[int], CommandOnParagraph[Any]] | None" = None


class Parser(argparse.ArgumentParser):
    """A parser that raises what it has to say, so that a command is tried without a process."""

    def __init__(self, **options: Any) -> None:
        options.setdefault("formatter_class", _Formatter)
        super().__init__(add_help=False, allow_abbrev=False, **options)
        #: The words that have to be there, in their order.
        self.asked: list[Asked] = []
        self.add_argument(
            "-h",
            "--help",
            action=_Help,
            nargs=0,
            help="say what this does, with an example",
        )

    def parse_known_args(self, args: Any = None, namespace: Any = None) -> Any:
        """Parses words, none of which is left over.

        An option that can only be a text is refused where one would change nothing, or is left over.
        """
        words, options = list(args or ()), self._option_string_actions
        after = words[words.index("--") + 1 :] if "--" in words else []
        taken = [each for each in after if each[:2] == "--" and each in options]
        if taken and "--dry-run" in options:
            self._refuse_after(taken[0])
        found, over = super().parse_known_args(args, namespace)
        if over:
            with self._left_out_taken():
                found, over = super().parse_known_args(args, namespace)
        if over:
            for name in (each.partition("=")[0] for each in over if each in after):
                if name[:2] == "--" and name in options:
                    self._refuse_after(name)
            # with the usage of the command
            is_option = over[0].startswith("-")
            what = "unrecognized arguments" if is_option else "there are too many words"
            shown = " ".join(word or "''" for word in over)
            self.error(f"{what}: {shown}")
        return found, over

    def _refuse_after(self, option: str) -> NoReturn:
        """Refuses an option that stands where all is taken as it is typed."""
        self.refuse(
            f"{option} stands after --, and isn't taken as an option there. Put it before --."
        )

    @contextmanager
    def _left_out_taken(self) -> Iterator[None]:
        """Has a word that may be left out be taken after an option too, where argparse leaves it out."""
        its = [each for each in self._get_positional_actions() if each.nargs == "?"]
        for each in its:
            each.nargs = None
        try:
            yield
        finally:
            for each in its:
                each.nargs = "?"

    def _get_values(self, action: argparse.Action, arg_strings: list[str]) -> Any:
        # after those that end the options, two hyphens are a word as any, which argparse leaves out
        if action.nargs is None and arg_strings == ["--"]:
            value = self._get_value(action, "--")
            self._check_value(action, value)
            return value
        return super()._get_values(action, arg_strings)

    def _get_value(self, action: argparse.Action, arg_string: str) -> Any:
        if isinstance(arg_string, typed.QuotedHyphen):
            # which argparse didn't take for an option
            arg_string = arg_string.word
        return super()._get_value(action, arg_string)

    def add_version(self) -> None:
        """Adds the option that shows the version."""
        self.add_argument(
            "--version", action=_Version, nargs=0, help="show the version of scribe"
        )

    def add_asked(
        self,
        name: str,
        metavar: str,
        read: Callable[[str], Any],
        does: str,
        question: str,
        short: str = "",
        stands: bool = False,
        in_hand: bool = False,
        if_struck: "Callable[[int], CommandOnParagraph[Any]] | None" = None,
    ) -> None:
        """Adds a word that has to be there, with the question by which a prompt asks for it."""
        action = self.add_argument(
            name, metavar=metavar, type=argument(read), help=does
        )
        short = short or name
        asked = Asked(action, read, question, short, stands, in_hand, if_struck)
        self.asked.append(asked)

    def refuse(self, sentence: str) -> NoReturn:
        """Refuses the words with a sentence."""
        raise WordsRefused(sentence, self.format_usage().strip())

    def error(self, message: str) -> NoReturn:
        """Refuses the words with what argparse says of them, as a sentence."""
        self.refuse(message[:1].upper() + message[1:].rstrip(".") + ".")


def command_parser(
    subparsers: Subparsers, name: str, example: str, more: str = ""
) -> Parser:
    """Adds a command's parser: its help is the sentence of `COMMANDS`, and an example.

    The example is one or more lines for a shell, which run as they stand in the folder that the
    tests make for them.
    """
    _, does = COMMANDS[name]
    description = f"{does}\n\n{more}" if more else does
    lines = "\n".join(f"  {line}" for line in example.splitlines())
    parser = subparsers.add_parser(
        name, help=does, description=description, epilog=f"example:\n{lines}"
    )
    return cast(Parser, parser)


def add_file(
    parser: argparse.ArgumentParser,
    wait: float | None = USUAL_WAIT,
    without: str = "",
) -> None:
    """Adds the word FILE: the file of a book, as the path `arguments.file`.

    `arguments.wait` is how many seconds it is waited for, or None if that isn't said and depends on
    whether the book is changed. The path is None if FILE may be left out, and was; then it is said
    what is done without.
    """
    says = f"the file of the book{without}"
    if without:
        parser.add_argument(
            "file", metavar="FILE", type=file_path, nargs="?", help=says
        )
    else:
        parser.add_argument("file", metavar="FILE", type=file_path, help=says)
    parser.add_argument(
        "--wait",
        metavar="SECONDS",
        type=seconds,
        default=wait,
        help="how long to wait for a book that another program has open;"
        f" {wait or 0:g} if it isn't given"
        + (f", or {USUAL_WAIT:g} to change it" if wait is None else ""),
    )


def add_paragraph(
    parser: Parser,
    in_hand: bool = False,
    if_struck: "Callable[[int], CommandOnParagraph[Any]] | None" = None,
) -> None:
    """Adds the word PARA: the number of a paragraph, as `arguments.paragraph`.

    At a prompt nothing more is asked for a request that is refused of a struck one.
    """
    parser.add_asked(
        "paragraph",
        "PARA",
        typed.number,
        "the number of the paragraph",
        "Which paragraph? Type its number.",
        in_hand=in_hand,
        if_struck=if_struck,
    )


def add_ranges(
    parser: "argparse._ActionsContainer",
    word: str,
    does: str = "only these paragraphs, from one to the other as they stand in the book",
) -> None:
    """Adds a word for ranges of paragraphs, such as 3-9, as `arguments.paragraphs`."""
    # imported here, since few commands take them
    from braildesk.desk.ranges import ParagraphRange

    parser.add_argument(
        word,
        dest="paragraphs",
        metavar="PARAS",
        type=argument(typed.paragraph_ranges),
        default=(ParagraphRange(),),
        help=does,
    )


def add_paragraphs(parser: argparse.ArgumentParser) -> None:
    """Adds PARAS, the ranges of the paragraphs that are shown, which `asked_ranges` reads."""
    ways = parser.add_mutually_exclusive_group()
    ways.add_argument(
        "range",
        metavar="PARAS",
        type=argument(typed.paragraph_ranges),
        nargs="?",
        help="only these paragraphs, as in 3-9: from one to the other as they stand in the book",
    )
    add_ranges(ways, "--paragraphs", "the same")


def asked_ranges(arguments: argparse.Namespace) -> "tuple[ParagraphRange, ...]":
    """The ranges of the paragraphs that are shown."""
    ranges: tuple[ParagraphRange, ...] = arguments.range or arguments.paragraphs
    return ranges


def argument(read: Callable[[str], Value]) -> Callable[[str], Value]:
    """What reads a word of the command line as it is read where it is typed."""

    def read_word(word: str) -> Value:
        try:
            return read(word)
        except typed.InvalidInput as fault:
            raise argparse.ArgumentTypeError(str(fault)) from fault

    return read_word


number = argument(typed.number)
text = argument(typed.text)
words = argument(typed.words)
proofreader = argument(typed.proofreader)
after = argument(typed.after)
some_path = argument(typed.some_path)
file_path = argument(typed.file_path)


def counted(things: str) -> Callable[[str], int]:
    """What reads the number of a thing, of which the first is 1."""

    def read_number(word: str) -> int:
        found = number(word)
        if found == 0:
            raise argparse.ArgumentTypeError(f"{things} are counted from 1")
        return found

    return read_number


def seconds(word: str) -> float:
    """The seconds that a word is: decimal digits, with a point among them or not."""
    if not (word.isascii() and word.replace(".", "", 1).isdigit() and len(word) <= 8):
        raise argparse.ArgumentTypeError(f"{shortened(word)} is no number of seconds")
    return float(word)


def unknown_command(word: str, names: Sequence[str]) -> str:
    """What is said of a word that is no command."""
    # imported here, since it knows all requests of a book
    from scribe.words.elsewhere import AT_SHELL, hint

    said = hint(word, names, AT_SHELL)
    return f"There is no command {word}.{said} The commands are {', '.join(names)}."


def taken_for_options(words: Sequence[str], refused: WordsRefused) -> list[str]:
    """What is said beside that words are lacking, where some were taken for options that aren't there."""
    options = re.findall(r"--?[a-z-]+", refused.usage)
    before = list(takewhile(lambda word: word != "--", words))
    given = {each.partition("=")[0] for each in before if each[:1] == "-" != each}
    if lacking := _LACKS_WORD.match(refused.sentence):
        name = lacking[1]
        is_taken = any(
            word == name and after[:1] == "-" != after and after not in options
            for word, after in pairwise(before)
        )
        said = f"A word that begins with a hyphen is joined to {name} by =, as in {name}=-x."
        return [said] if is_taken else []
    if not _ARE_LACKING.match(refused.sentence) or given.issubset(options):
        return []
    return ["A word that begins with a hyphen, and is no option, comes after --."]


def table_name(word: str) -> str:
    """The name of a table of liblouis, which ends in no slash, or the path of its file."""
    return str(file_path(word)) if word.endswith("/") else word


def readable(word: str) -> Path:
    """The path of a file."""
    # imported here, since few commands name another file than a book
    from braildesk.named_files import is_handed_over

    its = file_path(word)
    try:
        is_file = its.is_file() or is_handed_over(its)
        is_there = is_file or its.exists()
    except (OSError, ValueError) as cause:
        why = (isinstance(cause, OSError) and cause.strerror) or cause
        raise argparse.ArgumentTypeError(f"{word} can't be read: {why}") from cause
    if not is_there:
        raise argparse.ArgumentTypeError(f"there is no file {word}")
    if not is_file:
        raise argparse.ArgumentTypeError(f"{word} is there, but is no file")
    return its


def add_width(parser: argparse.ArgumentParser) -> None:
    """Adds the word `--width`, by which `scribe.cli` makes the console's lines as long."""
    parser.add_argument(
        "--width",
        dest="columns",
        metavar="N",
        type=width,
        help="no line over N columns; if it isn't given, the terminal's width, or that of a talk",
    )


def add_cells(parser: argparse.ArgumentParser) -> None:
    """Adds the words for how cells are written, by which `scribe.cli` makes the console."""
    ways = parser.add_mutually_exclusive_group()
    for notation, does in (
        (Notation.ASCII, "cells in Braille ASCII, as where the locale isn't UTF-8"),
        (Notation.SMALL, "cells in Braille ASCII with small letters"),
        (Notation.UNICODE, "cells as Unicode characters, in any locale"),
    ):
        ways.add_argument(
            f"--{notation}",
            dest="cells",
            action="store_const",
            const=notation,
            help=does,
        )


def width(word: str) -> int:
    """A width that holds a few words."""
    columns = number(word)
    if columns < LEAST_WIDTH:
        raise argparse.ArgumentTypeError(f"a line has at least {LEAST_WIDTH} columns")
    return columns


def as_asked(console: Console, arguments: argparse.Namespace) -> Console:
    """The console with the width and the writing of cells that words ask for."""
    width = width_asked(arguments, console.width)
    cells = getattr(arguments, "cells", None) or console.cells
    return replace(console, width=width, cells=cells)


def width_asked(arguments: argparse.Namespace, usual: int | None) -> int | None:
    """The columns of a line that words ask for, or else the usual ones, of which some take no more."""
    asked: int | None = getattr(arguments, "columns", None)
    most: int | None = getattr(arguments, "most_columns", None)
    if asked is not None or most is None:
        return asked or usual
    return min(most, usual or most)
