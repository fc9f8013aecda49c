"""`scribe run`: requests of standard input, their replies, and a sentence after each refusal."""

from argparse import ArgumentParser, Namespace
from dataclasses import dataclass
from typing import Any

from braildesk import Refused, Session, limits
from braildesk.protocol.requests import Request, TableHead
from braildesk.text.characters import control_refused

from scribe.cli.opened_book import open_session
from scribe.cli.parser import Subparsers, add_file, command_parser
from scribe.prompt.grammar import NotARequest, read_head
from scribe.words.console import CUT_BYTES, Console
from scribe.words.paragraph import counted
from scribe.words.replies import refusal_line, refusal_sentence, reply_lines
from scribe.words.status import Status

MORE = """\
The requests are those of `braildesk session`; docs/FORMATS.md lists them. A reply
that is shown is kept. Requests and replies count places and cells from 0, and the
sentences after refusals count them from 1. A request with a control character in a
text or a note isn't sent, and what is shown has them, and format characters, written
out: <U+001B>."""


def add_parser(subparsers: Subparsers) -> ArgumentParser:
    """Adds the words of `run`."""
    parser = command_parser(
        subparsers,
        "run",
        "echo 'print 1' | scribe run moon.braildesk",
        MORE,
    )
    add_file(parser)
    parser.add_argument(
        "--keep-going",
        action="store_true",
        help="go on after a refusal, in place of stopping there",
    )
    return parser


def run(arguments: Namespace, console: Console) -> Status:
    """Answers requests up to the first refusal, or all of them."""
    requests = RequestLines(console)
    status = Status.DONE
    with open_session(arguments, console) as session:
        while (head := requests.next_head()) is not None:
            refusal = answered(session, requests, head, console)
            if refusal is None:
                continue
            status = Status.REFUSED
            console.say(f"Line {requests.head_number}: {refusal}")
            if not arguments.keep_going:
                break
    return status


@dataclass
class RequestLines:
    """The lines of requests, as the program cuts them."""

    console: Console
    number: int = 0
    head_number: int = 0
    #: Whether a terminal may have cut a line of the last request.
    is_cut: bool = False

    def next_head(self) -> bytes | None:
        """The next head line without its ending, or None at the end."""
        self.is_cut = False
        line = self._next()
        self.head_number = self.number
        if line is None:
            return None
        return line.removesuffix(b"\n").removesuffix(b"\r")

    def block(self, count: int) -> tuple[bytes, int]:
        """The bytes of so many lines after a head line, and how many lines were there."""
        lines = bytearray()
        there = 0
        while there < count and (line := self._next()) is not None:
            there += 1
            # a text that no table can have isn't kept, but read to its end
            if len(lines) <= limits.TABLE_BYTES:
                lines += line
        return bytes(lines), there

    def _next(self) -> bytes | None:
        line = self.console.read_line()
        self.number += bool(line)
        self.is_cut = self.is_cut or self.console.may_be_cut(line)
        return line or None


def answered(
    session: Session, lines: RequestLines, head: bytes, console: Console
) -> str | None:
    """Answers the request of a head line, and gives the sentence of its refusal."""
    try:
        _judge_cut(lines)
        read = read_head(head)
        request = _whole(read, lines) if isinstance(read, TableHead) else read
        _judge_cut(lines)
    except NotARequest as fault:
        console.pass_on("no 1")
        return f"{fault.sentence} Nothing was changed."
    control = control_refused(head)
    if control is not None:
        return control
    return _asked(session, request, console)


def _judge_cut(lines: RequestLines) -> None:
    if lines.is_cut:
        raise NotARequest(
            f"The terminal may have cut a line of this after {CUT_BYTES:,} bytes. Requests in a file are"
            " taken whole."
        )


def _whole(head: TableHead, lines: RequestLines) -> Request[Any]:
    text, count = lines.block(head.lines)
    if count < head.lines:
        raise NotARequest(
            f"The input ends after {count:,} of the {counted(head.lines, 'line')} of this table."
        )
    if len(text) > limits.TABLE_BYTES:
        raise NotARequest(f"This table has over {limits.TABLE_BYTES:,} bytes.")
    for number, line in enumerate(text.split(b"\n"), 1):
        if len(line.removesuffix(b"\r")) > limits.LINE_BYTES:
            raise NotARequest(
                f"Line {number:,} of this table has over {limits.LINE_BYTES:,} bytes."
            )
    return head.request(text)


def _asked(session: Session, request: Request[Any], console: Console) -> str | None:
    try:
        reply = session.reply(request)
    except Refused as refused:
        console.pass_on(refusal_line(refused))
        return refusal_sentence(refused, has_line=True)
    console.pass_on(*reply_lines(reply))
    console.flush()
    return None
