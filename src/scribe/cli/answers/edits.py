"""What the commands do that send one request each, and show what it changed."""

from argparse import Namespace
from collections.abc import Callable, Mapping
from typing import Any

from braildesk import Code, NotFound, Session, Style, requests
from braildesk.protocol.requests import Command
from braildesk.text.shell_words import command_line
from braildesk.text.wrapping import Offered

from scribe.cli.book_command import Answer
from scribe.words.changes import carried_out
from scribe.words.console import Console
from scribe.words.paragraph import no_mark
from scribe.words.status import Stop
from scribe.words.typed import path_word

#: The request of each command, made of its words.
_REQUESTS: Mapping[str, Callable[[Namespace], Command[Any]]] = {
    "undo": lambda words: requests.Undo(words.paragraph),
    "resolve": lambda words: requests.Resolve(words.mark),
    "strike": lambda words: requests.Strike(words.paragraph),
    "restore": lambda words: requests.Restore(words.paragraph),
    "heading": lambda words: requests.Style(words.paragraph, Style.HEADING),
    "body": lambda words: requests.Style(words.paragraph, Style.BODY),
    "volume": lambda words: requests.Volume(words.paragraph, words.begins),
    "move": lambda words: requests.Move(words.paragraph, words.after),
    "retable": lambda words: requests.Retable(words.paragraph, words.table),
}


def answer_of(name: str) -> Answer:
    """What a command does."""
    request = _REQUESTS[name]

    def answer(session: Session, arguments: Namespace, console: Console) -> None:
        try:
            lines = carried_out(
                session, request(arguments), console.columns, console.cells
            )
        except NotFound as missing:
            if missing.code == Code.NO_MARK:
                raise Stop(_no_mark(arguments)) from missing
            raise
        console.show(*lines)

    return answer


def _no_mark(arguments: Namespace) -> str:
    if "wait" not in arguments:
        # at the prompt of talk, which has the book open
        return no_mark(arguments.mark, "Nothing was changed. The command marks")
    command = command_line(["scribe", "marks", path_word(arguments.file)])
    none = f"The book has no mark {arguments.mark}. Nothing was changed."
    return Offered(f"{none} This shows which there are:", command)
