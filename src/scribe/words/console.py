"""Where a command reads and writes."""

import errno
import os
import sys
import time
from collections.abc import Callable, Iterable, Iterator
from contextlib import contextmanager, suppress
from dataclasses import dataclass, replace
from io import StringIO
from typing import BinaryIO, TextIO

from braildesk.text import limits
from braildesk.text.cells import Notation
from braildesk.text.characters import visible
from braildesk.text.wrapping import Offered, columns, wrap

from scribe.words import encoding

PROGRESS_SECONDS = 2.0
#: What is said while the program of a session doesn't answer, and for how long it isn't said again.
WAITING, _WAITING_SECONDS = "Waiting for braildesk to answer.", 10.0
#: What the streams are called where no more can be written there.
OUTPUT, ERRORS = "Standard output", "Standard error"
LEAST_WIDTH = 10
USUAL_WIDTH = 80
_INDENT = "  "
#: Where a terminal that collects lines cuts them, by n_tty(4).
CUT_BYTES = 4_095
# a line that a request may have, CR LF and one byte more
_LINE = limits.LINE_BYTES + 3


class InputFailed(Exception):
    """Standard input gives no more lines; a sentence says why."""

    def __init__(self, sentence: str) -> None:
        super().__init__(sentence)
        self.sentence = sentence


class NoInput(InputFailed):
    """Standard input can't be read."""

    def __init__(self, cause: OSError) -> None:
        super().__init__(f"Standard input could not be read: {_why(cause)}.")


class EndlessLine(InputFailed):
    """A line of standard input has no end, as when it is a device."""

    def __init__(self) -> None:
        super().__init__(
            f"A line of standard input has over {limits.TEXT_BYTES:,} bytes. No more is read."
        )


class OutputFailed(Exception):
    """Standard output, or standard error, can't be written."""

    #: What is said besides, where a book may have been changed.
    kept = "What was changed in a book before that is kept."

    def __init__(self, cause: OSError, what: str = OUTPUT) -> None:
        super().__init__(cause)
        self.reader_left = isinstance(cause, BrokenPipeError)
        self.sentence = f"{what} could not be written: {_why(cause)}."


class OutputClosed(OutputFailed):
    """Standard output was closed before scribe began."""

    kept = ""

    def __init__(self) -> None:
        super().__init__(OSError(errno.EBADF, os.strerror(errno.EBADF)))
        self.sentence = "Standard output is closed, so nothing was done."


@dataclass(frozen=True, eq=False, repr=False)
class Console:
    """Standard input and output, and standard error.

    What a person asked for is shown on the output, sentences are said on the errors. Both are
    UTF-8 whatever the locale says, as a book is. What would move the cursor or end a line, as a
    name of a file may have it, is written out here, so that no sentence can forget it. No line is
    over the width, if there is one.
    """

    input: BinaryIO
    output: TextIO
    errors: TextIO
    #: Raises Interrupted if the work is to end: at the process's own streams a signal does that.
    check: Callable[[], None] = lambda: None
    #: The columns of a line; None if a line is as long as it comes, as for another program.
    width: int | None = None
    #: How cells are written.
    cells: Notation = Notation.UNICODE

    @property
    def columns(self) -> int:
        """The columns in which what is shown is laid out."""
        return USUAL_WIDTH if self.width is None else self.width

    @classmethod
    def of_process(cls) -> "Console":
        """The streams of this process; OutputFailed if its output is closed.

        What can't be said, since the errors are closed, isn't missed by anybody.
        """
        if sys.stdout is None:
            raise OutputClosed
        source = _closed_input() if sys.stdin is None else sys.stdin.buffer
        try:
            writers = _utf8_writer(1), _utf8_writer(2)
            return cls(source, *writers, width=width_of_output(), cells=_usual_cells())
        except OSError as cause:
            raise OutputFailed(cause) from cause

    def read_line(self) -> bytes:
        """The next line of the input with its ending; nothing at the end.

        Of a line that is too long for a request, just the front is given, which is too long too.
        """
        try:
            line = self.input.readline(_LINE)
            taken = len(line)
            rest = line
            while len(rest) == _LINE and not rest.endswith(b"\n"):
                if taken > limits.TEXT_BYTES:
                    raise EndlessLine
                rest = self.input.readline(_LINE)
                taken += len(rest)
            return line
        except OSError as cause:
            raise NoInput(cause) from cause

    def may_be_cut(self, line: bytes) -> bool:
        """Whether a line comes from a terminal that may have cut it."""
        return len(line) >= CUT_BYTES and self.input.isatty()

    def show(self, *lines: str) -> None:
        """Writes lines that a person asked for."""
        if self.width is None and "".join(lines).isprintable():
            # nothing of them is written out or broken, as is so of most for another program
            self._write("\n".join((*lines, "")))
        else:
            self._write("".join(self._lines(lines, _INDENT)))

    def pass_on(self, *lines: str) -> None:
        """Writes lines that another program reads, as long as they come."""
        self._write("".join(visible(line) + "\n" for line in lines))

    def _write(self, text: str) -> None:
        try:
            self.output.write(text)
        except OSError as cause:
            raise OutputFailed(cause) from cause

    def flush(self) -> None:
        """Writes out all that was shown."""
        try:
            self.output.flush()
        except OSError as cause:
            raise OutputFailed(cause) from cause

    def say(self, *sentences: str) -> None:
        """Writes sentences, after all that was shown before them."""
        self.flush()
        try:
            self.errors.writelines(self._lines(sentences))
            self.errors.flush()
        except OSError as cause:
            raise OutputFailed(cause, ERRORS) from cause

    def _lines(self, texts: Iterable[str], indent: str = "") -> Iterator[str]:
        """Texts in lines of the width, each with its ending."""
        for each in texts:
            text = visible(each)
            if self.width is None or columns(text) <= self.width:
                yield text + "\n"
                continue
            whole = visible(each.command) if isinstance(each, Offered) else ""
            before = text.removesuffix(whole)
            yield from (line + "\n" for line in wrap(before, self.width, indent))
            if whole:
                yield whole + "\n"

    @contextmanager
    def ahead(self) -> Iterator["Console"]:
        """The console for work that no reader is to hold up: it waits for them once that is done.

        If that is told to end, what wasn't read yet is left out.
        """
        # imported only by a command that shows something to somebody
        from scribe.words.outgoing import Outgoing, has_reader

        numbers = self._descriptors()
        if numbers is None or not has_reader(numbers[0]):
            yield self
            return
        self.flush()
        outgoing, failed = Outgoing(), None
        output = outgoing.stream(numbers[0], OUTPUT)
        errors = outgoing.stream(numbers[1], ERRORS)
        console = replace(self, output=output, errors=errors)
        try:
            try:
                yield console
            except OutputFailed:
                raise
            except Exception as failure:
                failed = failure
            console.flush()
            outgoing.end()
        except KeyboardInterrupt:
            with suppress(OutputFailed):
                console.flush()
                outgoing.cut_short()
            raise
        finally:
            outgoing.close()
        if failed is not None:
            raise failed

    def _descriptors(self) -> tuple[int, int] | None:
        """Where lines and errors go, None if somebody hears them in this process."""
        try:
            return self.output.fileno(), self.errors.fileno()
        except OSError:
            return None

    def progress(self, what: str) -> Callable[[int, int], None]:
        """A function of how many are done, of how many, that says so from time to time.

        If the errors are no terminal nothing is said. Each sentence is a line of its own, since
        a line that is written over can't be followed by a screen reader. If nothing more can be
        said, or nothing now, the work goes on.
        """
        is_followed = self.errors.isatty()
        last = time.monotonic()

        def report(done: int, total: int) -> None:
            nonlocal last
            self.check()
            if is_followed and time.monotonic() - last >= PROGRESS_SECONDS:
                last = time.monotonic()
                self._say_now(f"{done:,} of {total:,} {what}.")

        return report

    def waiting(self) -> Callable[[], None]:
        """A function that says, each second in which a session waits, that it does; once at a time.

        If the errors are no terminal nothing is said.
        """
        is_followed = self.errors.isatty()
        last = -_WAITING_SECONDS

        def report() -> None:
            nonlocal last
            self.check()
            before, last = last, time.monotonic()
            if is_followed and last - before >= _WAITING_SECONDS:
                self._say_now(WAITING)

        return report

    def say_if_followed(self, sentence: str) -> None:
        """Says a sentence on which nothing depends, unless the errors are no terminal."""
        if self.errors.isatty():
            self._say_now(sentence)

    def _say_now(self, sentence: str) -> None:
        """Says a sentence on which nothing depends, unless a stopped terminal would hold up the work."""
        # imported only where something takes long
        from scribe.words.outgoing import takes_line

        numbers = self._descriptors()
        if numbers is None or takes_line(numbers[1]):
            with suppress(OutputFailed):
                self.say(sentence)


class Heard(StringIO):
    """A stream whose lines are reported as they are written."""

    def __init__(self, report: Callable[[str], None]) -> None:
        super().__init__()
        self._report = report

    def write(self, lines: str) -> int:
        """Writes whole lines."""
        size = super().write(lines)
        for line in lines.split("\n")[:-1]:
            self._report(line)
        return size

    def isatty(self) -> bool:
        """Whether a person follows it, as one does here."""
        return True


def width_of_output() -> int | None:
    """The columns that COLUMNS says, or those of the terminal of the output, if it is one."""
    found = 0
    with suppress(KeyError, ValueError):
        found = int(os.environ["COLUMNS"])
    if found <= 0:
        with suppress(OSError):
            found = os.get_terminal_size(1).columns
    return max(found, LEAST_WIDTH) if found > 0 else None


def _usual_cells() -> Notation:
    """How cells are written if nothing says how: in Braille ASCII if the locale isn't UTF-8."""
    is_utf8 = encoding.is_utf8(encoding.first_environment())
    return Notation.UNICODE if is_utf8 else Notation.ASCII


def _closed_input() -> BinaryIO:
    """An input that can't be read, as one that was closed."""
    return open(os.open(os.devnull, os.O_WRONLY), "rb")


def _why(cause: OSError) -> str:
    # imported here, since few streams fail
    from braildesk.protocol.sentences import of_failure

    return "it is closed" if cause.errno == errno.EBADF else of_failure(cause)


def _utf8_writer(descriptor: int) -> TextIO:
    return open(
        os.dup(descriptor),
        "w",
        encoding="utf-8",
        errors="backslashreplace",
        newline="\n",
    )
