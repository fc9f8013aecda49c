"""A terminal that a program reads, with scribe in it."""

import mmap
import os
import signal
import sys
import time
from collections.abc import Callable, Iterator
from contextlib import contextmanager, suppress
from fcntl import ioctl
from pathlib import Path
from termios import FIONREAD

import pexpect  # type: ignore[import]
import pyte  # type: ignore[import]
from prompt_toolkit.input.posix_utils import PosixStdinReader

import braildesk
from braildesk import CannotOpen, Session
from braildesk.protocol.sentences import Why

from scribe.screen.terminal import Screen
from tool import (
    WAIT_SECONDS,
    at_terminal,
    end,
    environment,
    is_taken_at_start,
    scribe_in_copy,
    wait_for_program,
)

# how long what is written is waited for at once
_QUIET_SECONDS = 0.02
# where it isn't seen what became of a key: how long it is on its way, how long Escape waits for a key
# with Alt, and how long the screen may take to be drawn; keys that do nothing draw nothing
_ARRIVING_SECONDS, _ESCAPE_SECONDS, _DRAWN_SECONDS = 0.2, 0.15, 5
# longer than a question that comes by itself is on the screen before a key answers it
_READING_SECONDS = 0.5
# longer than keys that come together, as pasted text does, are apart
_TYPING_SECONDS = 0.06
# what shows the cursor once the screen is drawn to its end, and what hides it before
_SHOWN, _HIDDEN = b"\x1b[?25h", b"\x1b[?25l"
STAND_IN = Path(__file__).with_name("stand_in.py")
KEYS = {
    "enter": "\r",
    "tab": "\t",
    "escape": "\x1b",
    "backspace": "\x7f",
    "delete": "\x1b[3~",
    "up": "\x1b[A",
    "down": "\x1b[B",
    "right": "\x1b[C",
    "left": "\x1b[D",
    "home": "\x1b[H",
    "end": "\x1b[F",
    "pageup": "\x1b[5~",
    "pagedown": "\x1b[6~",
    "c-home": "\x1b[1;5H",
    "c-end": "\x1b[1;5F",
    "c-right": "\x1b[1;5C",
    "c-left": "\x1b[1;5D",
    "a-up": "\x1b[1;3A",
    "a-down": "\x1b[1;3B",
    "c-w": "\x17",
    "c-y": "\x19",
    "f5": "\x1b[15~",
}


class Progress:
    """How far scribe, in a copy of this process, has come with what was sent to its terminal."""

    def __init__(self) -> None:
        # both processes have it
        self._shared = mmap.mmap(-1, 16)

    @property
    def read(self) -> int:
        """How many bytes it has read."""
        return int.from_bytes(self._shared[:8], "little")

    @property
    def done(self) -> int:
        """So many of them are carried out and drawn, and no key is held."""
        return int.from_bytes(self._shared[8:], "little")

    def follow(self) -> None:
        """Has this process say from now on how far it has come."""
        read, rest = PosixStdinReader.read, Screen._rest

        def counted(reader: PosixStdinReader, count: int = 1024) -> str:
            text = read(reader, count)
            came = len(text.encode("utf-8", "surrogateescape"))
            self._shared[:8] = (self.read + came).to_bytes(8, "little")
            return text

        def rested(screen: Screen, works: int) -> None:
            rest(screen, works)
            keyboard = screen._keyboard
            is_held = screen._arrivals.due is not None or keyboard._rest
            if screen._is_idle and (not is_held or keyboard.is_pasting):
                self._shared[8:] = self._shared[:8]

        setattr(PosixStdinReader, "read", counted)
        setattr(Screen, "_rest", rested)


class Terminal:
    """A terminal with scribe in it, and what its screen shows."""

    #: Whether scribe, in a copy of this process, says soon that it waits for the program, and ends
    #: without it where it is told to end.
    is_hurried = False

    def __init__(self, book: Path, columns: int, lines: int, **more: str) -> None:
        # what scribe leaves where it is killed goes with the book
        beside = str(book.parent)
        settings = {"TERM": "xterm-256color", "LC_ALL": "C.UTF-8", "TMPDIR": beside}
        settings |= more
        self._screen = pyte.Screen(columns, lines)
        self._stream = pyte.ByteStream(self._screen)
        self._shown = [""] * lines
        self.written = b""
        #: How often the screen was drawn to its end, until now and until the last key.
        self._drawn = self._drawn_before = 0
        self._pressed = ""
        #: How many bytes were sent, and how far scribe has come with them, if that is seen.
        self._sent, self._progress = 0, Progress()
        self._is_seen = not is_taken_at_start(more)
        self._errors = book.parent / "errors"
        words, first = ["edit", str(book)], environment(**settings)
        begin = begin_errors
        if self._is_seen:
            begin = scribe_in_copy(words, first, self._begin)
        self._child = at_terminal(
            sys.executable,
            "-m",
            "scribe",
            *words,
            settings=first,
            folder=book.parent,
            begin=begin,
            size=(lines, columns),
            encoding=None,
        )

    @property
    def lines(self) -> list[str]:
        """The lines of the screen, of which only those are looked at that were drawn anew."""
        screen = self._screen
        drawn, count = screen.dirty, screen.lines
        self._shown = [*self._shown, *[""] * count][:count]
        # an accent that is drawn at the front of a line stands at the end of the one before
        for number in drawn | {each - 1 for each in drawn}:
            if 0 <= number < count:
                cells = screen.buffer[number]
                # the second cell of a wide character has nothing
                its = [cells[column].data for column in range(screen.columns)]
                self._shown[number] = "".join(its).rstrip()
        drawn.clear()
        return [*self._shown]

    @property
    def cursor(self) -> tuple[int, int]:
        """The line and the column of the terminal's cursor."""
        return self._screen.cursor.y, self._screen.cursor.x

    @property
    def said(self) -> str:
        """What scribe has written on standard error."""
        return self._errors.read_text(encoding="utf-8")

    def keys(self, *names: str) -> None:
        """Presses keys, each by its name or its character; more characters are one text.

        Characters are pressed once the screen is drawn after the one before, as by hands: those
        that come all at once are text that was pasted.
        """
        for name in names:
            if name not in KEYS and len(name) > 1 and not name.startswith("a-"):
                self.paste(name)
                continue
            is_held = _is_held(name) and _is_held(self._pressed)
            if self._pressed == "escape" or is_held:
                self._await_drawn()
            self._drawn_before = self._drawn
            self._pressed = name
            self._send(_sent_for(name))

    def answer(self, name: str) -> None:
        """Answers a question that comes by itself by a key, once there was time to read it."""
        # keys that come while scribe is busy may have been pressed before
        self.settle()
        time.sleep(_READING_SECONDS)
        self.keys(name)

    def await_read(self) -> None:
        """Waits until scribe has read all that was sent."""
        if self._is_seen:
            end = time.monotonic() + WAIT_SECONDS
            while self._progress.read < self._sent:
                assert time.monotonic() < end, self.lines
                time.sleep(0.01)
            return
        # it comes to the other end of the terminal a moment later
        time.sleep(_ARRIVING_SECONDS)
        flags = os.O_RDONLY | os.O_NONBLOCK | os.O_NOCTTY
        terminal = os.open(f"/proc/{self._child.pid}/fd/0", flags)
        try:
            self.await_count(terminal, 0)
        finally:
            os.close(terminal)

    def await_count(self, terminal: int, count: int) -> None:
        """Waits until so many bytes are at the end of the terminal that scribe has, and unread."""
        end = time.monotonic() + WAIT_SECONDS
        while ioctl(terminal, FIONREAD, bytes(4)) != count.to_bytes(4, sys.byteorder):
            assert time.monotonic() < end, self.lines
            time.sleep(0.01)

    def send(self, text: str) -> None:
        """Sends characters all at once, once Escape was taken, if it was pressed last.

        A key that came before would be one with Alt.
        """
        if self._pressed == "escape":
            self._await_drawn()
        self._send(text)

    def type_on(self, text: str) -> None:
        """Types characters as fast as hands do, whatever becomes of them."""
        for character in text:
            self.send(character)
            time.sleep(_TYPING_SECONDS)

    def _send(self, text: str) -> None:
        self._sent += len(text.encode())
        self._child.send(text)

    def _await_drawn(self) -> None:
        """Waits until all that was sent is carried out and drawn: on a busy machine that may be late."""
        if not self._is_seen:
            self._await_written()
            return
        end = time.monotonic() + WAIT_SECONDS
        while self._progress.done < self._sent:
            assert time.monotonic() < end, self.lines
            self._read(_QUIET_SECONDS)

    def _await_written(self) -> None:
        """Waits until the screen is drawn after the last key, and nothing more is written."""
        least = time.monotonic()
        if self._pressed == "escape":
            self.await_read()
            least = time.monotonic() + _ESCAPE_SECONDS
        end = time.monotonic() + _DRAWN_SECONDS
        while time.monotonic() < end:
            is_written = self._read(_QUIET_SECONDS)
            is_drawn = self._drawn > self._drawn_before
            if is_drawn and not is_written and time.monotonic() >= least:
                break

    def paste(self, text: str) -> None:
        """Pastes a text as a terminal does, with an ending of each line that is that of Enter."""
        self.send("\x1b[200~" + text.replace("\n", "\r") + "\x1b[201~")

    def wait(self, wanted: str) -> list[str]:
        """The lines, once one of them has what is waited for and the screen is drawn to its end."""
        end = time.monotonic() + WAIT_SECONDS
        while not any(wanted in line for line in self.lines):
            assert time.monotonic() < end, (wanted, self.lines)
            self._read()
        while not self._is_drawn:
            assert time.monotonic() < end, (wanted, self.lines)
            self._read()
        return self.lines

    def wait_gone(self, words: str) -> None:
        """Waits until no line has some words."""
        end = time.monotonic() + WAIT_SECONDS
        while any(words in line for line in self.lines):
            assert time.monotonic() < end, (words, self.lines)
            self._read()

    @property
    def _is_drawn(self) -> bool:
        """Whether the screen is drawn to its end: its cursor is hidden while it is drawn."""
        return self.written.rfind(_SHOWN) >= self.written.rfind(_HIDDEN)

    def wait_for(self, lines: list[str], cursor: tuple[int, int], what: str) -> None:
        """Waits until the lines and the cursor are these."""
        end = time.monotonic() + WAIT_SECONDS
        while (self.lines, self.cursor) != (lines, cursor) and time.monotonic() < end:
            self._read()
        assert (what, self.lines, self.cursor) == (what, lines, cursor)

    def wait_cursor(self, cursor: tuple[int, int]) -> None:
        """Waits until the cursor is there."""
        end = time.monotonic() + WAIT_SECONDS
        while self.cursor != cursor and time.monotonic() < end:
            self._read()
        assert self.cursor == cursor

    def wait_left(self) -> None:
        """Waits until the screen is left, and the terminal shows what it showed before."""
        end = time.monotonic() + WAIT_SECONDS
        while b"\x1b[?1049l" not in self.written:
            assert time.monotonic() < end, self.lines
            self._read()

    def settle(self) -> None:
        """Waits until nothing more is written for a while."""
        while self._read():
            pass

    def resize(self, columns: int, lines: int) -> None:
        """Gives the terminal another size."""
        self._screen.resize(lines, columns)
        self._child.setwinsize(lines, columns)

    def program(self) -> int:
        """The process of the session."""
        children = Path(f"/proc/{self._child.pid}/task/{self._child.pid}/children")
        return int(children.read_text().split()[0])

    def hang_up(self) -> None:
        """Closes the terminal, as its window does."""
        self._child.ptyproc.fileobj.close()

    def send_signal(self, number: signal.Signals) -> None:
        """Sends scribe a signal."""
        os.kill(self._child.pid, number)

    @contextmanager
    def stopped(self) -> Iterator[int]:
        """Stops scribe as a shell does, and gives the end of the terminal that it has."""
        end = os.open(f"/proc/{self._child.pid}/fd/0", os.O_RDWR | os.O_NOCTTY)
        try:
            self.send_signal(signal.SIGSTOP)
            yield end
        finally:
            os.close(end)

    def left(self) -> int:
        """The status with which scribe ends where its terminal is closed."""
        status = os.waitstatus_to_exitcode(os.waitpid(self._child.pid, 0)[1])
        self._child.ptyproc.terminated = True
        return status

    def ended(self) -> int:
        """The status with which scribe ends by itself, or the signal with a minus before it."""
        end = time.monotonic() + WAIT_SECONDS
        while True:
            assert time.monotonic() < end, self.lines
            try:
                self._read()
            except pexpect.EOF:
                break
        self._child.wait()
        self._child.close()
        if self._child.signalstatus is not None:
            return -int(self._child.signalstatus)
        return int(self._child.exitstatus)

    def close(self) -> None:
        """Ends scribe, where it hasn't ended yet."""
        end(self._child)

    def _begin(self) -> None:
        begin_errors()
        if not self.is_hurried:
            wait_for_program()
        self._progress.follow()

    def _read(self, seconds: float = 0.5) -> bool:
        """Reads what is written within some time, and says whether anything was."""
        try:
            data = self._child.read_nonblocking(65_536, timeout=seconds)
        except pexpect.TIMEOUT:
            return False
        # what is counted may come in two parts
        before = len(self.written) - len(_SHOWN) + 1
        self.written += data
        self._drawn += self.written.count(_SHOWN, max(0, before))
        self._stream.feed(data)
        return True


def begin_errors() -> None:
    """Has what is said on standard error stand in a file of this name."""
    os.dup2(os.open("errors", os.O_WRONLY | os.O_CREAT | os.O_TRUNC, 0o666), 2)


def _is_held(name: str) -> bool:
    """Whether scribe holds a key until it sees that it isn't a part of pasted text."""
    return len(name) == 1 or name in ("enter", "tab")


def _sent_for(name: str) -> str:
    """What a terminal sends for a key, by its name or its character; for Alt, Escape before it."""
    if name in KEYS or not name.startswith("a-") or len(name) == len("a-"):
        return KEYS.get(name, name)
    return KEYS["escape"] + _sent_for(name.removeprefix("a-"))


#: What opens a terminal: a book, the columns, the lines, and settings of the environment.
Open = Callable[..., Terminal]


def standing_in(number: int, far: str, *deed: str) -> dict[str, str]:
    """The settings by which a stand-in does a deed when a command has come so far."""
    moment = " ".join([str(number), far, *deed])
    return {
        "BRAILDESK": str(STAND_IN),
        "STAND_IN_FOR": braildesk.find(),
        "STAND_IN_AT": moment,
    }


def once_free(path: Path) -> Session:
    """A session with a book, as soon as no other program has it."""
    end = time.monotonic() + WAIT_SECONDS
    while True:
        try:
            return Session(path)
        except CannotOpen as refused:
            # the other one may have ended before it was looked for
            if refused.why not in (Why.IN_USE, Why.UNKNOWN) or time.monotonic() > end:
                for each in users_of(path):
                    refused.add_note(each)
                raise
            time.sleep(0.01)


def users_of(path: Path) -> Iterator[str]:
    """The processes that have a file open, by their numbers and their words."""
    for each in Path("/proc").glob("[0-9]*/fd/*"):
        with suppress(OSError):
            if each.samefile(path):
                process = each.parents[1]
                words = process.joinpath("cmdline").read_bytes().split(b"\0")
                yield f"Process {process.name} has it open: {b' '.join(words)!r}"
