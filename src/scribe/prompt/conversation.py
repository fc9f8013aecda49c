"""A conversation about a book: lines are typed, and each is answered in words."""

from collections.abc import Callable, Collection
from dataclasses import dataclass, field
from typing import Any, TypeVar

from braildesk import NotFound, Refused, Session, limits
from braildesk.desk.marks import MarkOfBook
from braildesk.protocol.requests import Command, Request, TableHead
from braildesk.text.characters import control_refused

from scribe.prompt.grammar import NotARequest, read_head
from scribe.prompt.typed_lines import GivenUp, Lines
from scribe.words.changes import carried_out
from scribe.words.console import Console
from scribe.words.paragraph import counted, mark_line
from scribe.words.replies import refusal_sentence, shown
from scribe.words.typed import InvalidInput

Value = TypeVar("Value")
#: What has no more characters is typed again sooner than it is looked for.
FEW = 3
#: What is typed for a text without characters, since an empty line gives up.
_EMPTY = ("''", '""')


class Ended(Exception):
    """There are no more lines."""


class EndedAmong(Ended):
    """There are no more lines, and it was said what became of the one that was answered."""


class NoAnswer(GivenUp):
    """The person typed what begins as a command does, and is no answer."""


@dataclass
class Conversation:
    """A session with a book and a person, and how they are spoken to."""

    session: Session
    lines: Lines
    #: The words that a line begins with.
    commands: Collection[str]
    #: Where lines are shown, none of them over its width.
    console: Console
    #: The proofreader whose name the corrections of `change` keep.
    by: str | None = None
    #: Whether questions are asked in a word or two.
    is_short: bool = False
    #: The mark that the person deals with.
    hand: MarkOfBook | None = None
    #: The version of the book before the last line: what was kept up to it is shown.
    shown: int | None = None
    #: The lines that were typed since the last prompt for a command.
    typed: list[str] = field(default_factory=list)
    #: Whether the line that is answered may change the book.
    may_change: bool = False

    def next_line(self, prompt: str, is_kept: bool = False) -> bytes:
        """The next line that is typed; Ended if there is none, GivenUp by Ctrl-C."""
        self.console.flush()
        line = self.lines.line(prompt, is_kept)
        if line is None:
            raise Ended
        self.typed.append(line.decode(errors="replace"))
        return line

    def ask(
        self,
        question: str,
        short: str,
        read: Callable[[str], Value],
        is_of_line: bool = True,
    ) -> Value:
        """The answer to a question, asked until it can be read; an empty line gives up.

        So does a line that is no answer and begins as a command does. What is answered while a line is
        carried out isn't among its words.
        """
        while True:
            line = self._answer(question, short)
            if not line:
                raise GivenUp
            answer = line.decode("utf-8", "surrogateescape")
            try:
                found = _read("" if answer in _EMPTY else answer, read)
                if not is_of_line:
                    self.typed.pop()
                return found
            except InvalidInput as fault:
                self._bring_back(self.typed.pop())
                # somebody who types a command has forgotten the question
                is_command = answer.split(" ")[0] in self.commands
                # a short question doesn't say it
                has_way_out = self.is_short and not is_command
                way_out = " An empty line gives up." if has_way_out else ""
                self.console.say(sentence(str(fault)) + way_out)
                if is_command:
                    raise NoAnswer from fault

    def _answer(self, question: str, short: str) -> bytes:
        """The line that is typed after a question, or after the same in a word or two."""
        if not self.is_short:
            self.console.show(f"{question} An empty line gives up.")
            return self.next_line(": ")
        if not self.lines.has_prompts:
            self.console.show(f"{short}:")
        return self.next_line(f"{short}: ")

    def bring_back(self) -> None:
        """Has the arrow keys bring back what was answered to questions for a line that is refused."""
        for answer in self.typed[1:]:
            self._bring_back(answer)

    def _bring_back(self, answer: str) -> None:
        if len(answer.strip()) > FEW:
            self.lines.bring_back(answer)

    def remind(self) -> None:
        """Shows the mark in hand again if its paragraph is corrected, until it is resolved."""
        was = self.hand
        if was is None:
            return
        number = was.paragraph
        try:
            marks = self.session.marks_of(number)
        except NotFound:
            marks = ()
        mark = next((each for each in marks if each.id == was.mark.id), None)
        if mark is None:
            # an earlier copy, or another book, is open by now
            self.hand = None
            return
        text = self.session.print_of(number)
        self.hand = MarkOfBook(mark, number, text)
        # a mark that was touched just now is shown with the change
        is_shown = mark.touched != was.mark.touched
        if text != was.text and not (mark.resolved or is_shown):
            self.console.show(mark_line(mark, text, number))


def _read(answer: str, read: Callable[[str], Value]) -> Value:
    """What an answer is read as, without the blanks around it if it is none with them."""
    try:
        return read(answer)
    except InvalidInput:
        if answer == answer.strip():
            raise
        return read(answer.strip())


def sentence(words: str) -> str:
    """A sentence of words that may be only its end."""
    return words[:1].upper() + words[1:].rstrip(".") + "."


def request_line(conversation: Conversation, line: bytes) -> None:
    """Answers a line of the requests' grammar."""
    say = conversation.console.say
    try:
        read = _head(line)
        conversation.may_change = isinstance(read, (Command, TableHead))
        control = control_refused(line)
        request = read
        if isinstance(read, TableHead):
            request = read.request(_block(conversation, read))
    except NotARequest as fault:
        conversation.bring_back()
        say(f"{fault.sentence} Nothing was changed.")
        return
    if control is not None:
        conversation.bring_back()
        say(control)
        return
    assert isinstance(request, Request)
    _answer(conversation, request)


def _head(line: bytes) -> Request[Any] | TableHead:
    """The request of a line, without the blanks at its end if it is none with them."""
    try:
        return read_head(line)
    except NotARequest:
        if line == line.rstrip(b" \t"):
            raise
        return read_head(line.rstrip(b" \t"))


def _answer(conversation: Conversation, request: Request[Any]) -> None:
    """Sends a request, and answers in words."""
    session, console = conversation.session, conversation.console
    try:
        if isinstance(request, Command):
            lines = carried_out(session, request, console.columns, console.cells)
        else:
            lines = shown(session, request, console.cells)
    except Refused as refused:
        conversation.bring_back()
        console.say(refusal_sentence(refused, has_line=False))
        return
    console.show(*lines)


def _block(conversation: Conversation, head: TableHead) -> bytes:
    """The lines of a table's text, as they are typed."""
    conversation.console.show(
        f"Now the {counted(head.lines, 'line')} of the table {head.table}. Ctrl-C gives it up."
    )
    lines = []
    for number in range(1, head.lines + 1):
        line = conversation.next_line(f"{number} of {head.lines}: ")
        if len(line) > limits.LINE_BYTES:
            raise NotARequest(f"Line {number:,} has over {limits.LINE_BYTES:,} bytes.")
        lines.append(line + b"\n")
    return b"".join(lines)
