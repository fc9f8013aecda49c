"""Lines that were being typed as a conversation was broken off, which come back at the next one."""

from collections.abc import Sequence
from contextlib import AbstractContextManager, suppress
from pathlib import Path
from types import TracebackType

from braildesk.desk.drafts import MOST_LINES, Drafts, NotKept

from scribe.prompt.conversation import FEW, Conversation
from scribe.prompt.typed_lines import TypedLines
from scribe.words.console import OutputFailed
from scribe.words.drafts import not_kept

_COMES_BACK = (
    "Up brings back what was typed as a talk was broken off, and Ctrl-C gives it up:"
)


class BrokenOff(AbstractContextManager["BrokenOff"]):
    """Brings such lines back while a book is open, and keeps those that are broken off.

    These are the one that is being typed, and those that were entered to change the book, of which
    nothing was answered yet.
    """

    def __init__(self, conversation: Conversation, book: Path) -> None:
        self._conversation = conversation
        its = conversation.lines
        self._lines = its if isinstance(its, TypedLines) else None
        self._console = conversation.console
        self._drafts = Drafts(book)
        self._before: tuple[str, ...] = ()
        if self._lines is not None:
            self._drafts.adopt(is_open=True)
            self._before = self._drafts.lines()
            for line in self._before:
                self._lines.bring_back(line)
        if self._before:
            self._console.say(_COMES_BACK, *self._before)

    def __exit__(
        self,
        kind: type[BaseException] | None,
        error: BaseException | None,
        trace: TracebackType | None,
    ) -> None:
        if kind is not None:
            self.keep()

    def keep(self) -> None:
        """Keeps what was typed and isn't answered, as the talk ends by what nobody asked for."""
        if self._lines is None:
            return
        its = self._conversation
        # the lines that came after that are for no shell, which would carry them out
        last, *rest = (self._lines.broken_off + self._lines.rest()).split("\n")
        typed = [*its.typed, last]
        if not its.may_change:
            typed = typed[-1:]
        typed += rest
        new = [each for each in typed if each.strip()]
        # a short answer is lacking to the command before it; a short line alone is typed anew
        if len(new) > 1 or any(len(each.strip()) > FEW for each in new):
            others = [each for each in self._before if each not in new]
            self._keep((*others[-MOST_LINES:], *new))

    def answered(self) -> None:
        """Keeps a line no more that is among those just answered, or came back and was typed on to one."""
        self._leave(self._conversation.typed)

    def given_up(self) -> None:
        """Keeps a line no more that is among those just given up, or came back and was typed on to one."""
        if self._lines is not None:
            self._leave([*self._conversation.typed, self._lines.given_up])

    def _leave(self, typed: Sequence[str]) -> None:
        came_back = self._lines.brought_back if self._lines is not None else ()
        left = tuple(
            each
            for each in self._before
            if each not in typed
            and not (each in came_back and any(its.startswith(each) for its in typed))
        )
        self._conversation.typed.clear()
        if left != self._before:
            self._before = left
            self._keep(left)

    def _keep(self, lines: tuple[str, ...]) -> None:
        try:
            self._drafts.keep_lines(lines)
        except NotKept as fault:
            # the terminal may be closed
            with suppress(OutputFailed):
                self._console.say(not_kept(fault))
