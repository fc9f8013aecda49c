"""What goes out while a book is open: readers that don't read hold up nothing, and no one else."""

import io
import os
import select
import stat
import time
from collections import deque
from contextlib import suppress
from typing import TYPE_CHECKING, TextIO

from scribe.words.console import OutputFailed

if TYPE_CHECKING:
    from _typeshed import ReadableBuffer

# what a pipe takes without waiting for its reader, if it takes anything
_AT_ONCE = select.PIPE_BUF
# after which a line to another machine has sent a character, in seconds
_SOON = 0.01
_ANEW = os.O_WRONLY | os.O_NONBLOCK | os.O_NOCTTY | os.O_CLOEXEC


class Outgoing:
    """What goes out on some descriptors, in its order, as far as their readers take it.

    The rest is kept in memory, of which no more is needed than the text takes.
    """

    def __init__(self) -> None:
        self._waiting: deque[tuple[_Way, memoryview]] = deque()
        self._is_amid_line = self._is_closed = False

    def stream(self, descriptor: int, name: str) -> TextIO:
        """A stream of text on a descriptor, whose last words come out once it is flushed.

        Where no more can be written, `OutputFailed` calls it by its name.
        """
        way = _Way(descriptor, name)
        return io.TextIOWrapper(
            io.BufferedWriter(_Raw(self, way)),
            encoding="utf-8",
            errors="backslashreplace",
            newline="\n",
            line_buffering=way.is_terminal,
        )

    def put(self, way: "_Way", data: bytes) -> None:
        """Has these bytes go out after those before."""
        if data and not self._is_closed:
            self._waiting.append((way, memoryview(data)))
            self.pass_on()

    def pass_on(self) -> None:
        """Writes what the readers take now."""
        while self._waiting and self._waiting[0][0].takes_now() and self._write():
            pass

    def end(self) -> None:
        """Writes all that is left, however long the readers take."""
        while self._waiting:
            # a signal comes here and not within a write, of which nobody would know how far it came
            self._waiting[0][0].wait()
            if not self._write():
                time.sleep(_SOON)
        self._is_closed = True

    def cut_short(self) -> None:
        """Ends the line that is being written, if its reader takes it, and leaves the rest out."""
        left = (
            b"".join(data for _, data in self._waiting) if self._is_amid_line else b""
        )
        line, end, _ = left.partition(b"\n")
        way = self._waiting[0][0] if self._waiting else None
        self._waiting.clear()
        if way and end:
            self.put(way, line + end)
        self.close()

    def close(self) -> None:
        """Leaves out what is left, and all that comes."""
        self._is_closed = True
        self._waiting.clear()

    def _write(self) -> bool:
        """Writes a part of what is next, and says whether anything of it was taken."""
        way, data = self._waiting[0]
        count = way.write(data[:_AT_ONCE])
        if count == 0:
            return False
        self._is_amid_line = data[count - 1 : count] != b"\n"
        if count < len(data):
            self._waiting[0] = way, data[count:]
        else:
            self._waiting.popleft()
        return True


class _Way:
    """A descriptor, and what is known of its reader.

    A terminal says that it takes something also where a write then waits for it to take the rest. So
    it is opened anew, since what is set for the descriptor itself is set for the shell too. Where that
    can't be, as after `su`, it takes nothing but what is waited for.
    """

    def __init__(self, descriptor: int, name: str) -> None:
        self.descriptor, self.name = descriptor, name
        self.is_terminal = os.isatty(descriptor)
        self._poll = select.poll()
        self._poll.register(descriptor, select.POLLOUT)
        self._anew: int | None = None
        if self.is_terminal:
            with suppress(OSError):
                self._anew = os.open(f"/proc/self/fd/{descriptor}", _ANEW)

    def takes_now(self) -> bool:
        """Whether something is taken there, so that no write waits; where a reader left, it fails."""
        if self.is_terminal and (self._anew is None or stops_job(self.descriptor)):
            return False
        return bool(self._poll.poll(0))

    def wait(self) -> None:
        """Waits until something is taken there."""
        self._poll.poll()

    def write(self, data: memoryview) -> int:
        """How many bytes are taken there."""
        try:
            return os.write(self.descriptor if self._anew is None else self._anew, data)
        except BlockingIOError:
            return 0
        except OSError as cause:
            raise OutputFailed(cause, self.name) from cause

    def close(self) -> None:
        """Closes what was opened anew."""
        if self._anew is not None:
            os.close(self._anew)
            self._anew = None


class _Raw(io.RawIOBase):
    """Bytes that go out on a descriptor."""

    def __init__(self, outgoing: Outgoing, way: _Way) -> None:
        self._outgoing = outgoing
        self._way = way

    def writable(self) -> bool:
        """Whether it can be written."""
        return True

    def fileno(self) -> int:
        """The descriptor."""
        return self._way.descriptor

    def isatty(self) -> bool:
        """Whether a person follows it."""
        return self._way.is_terminal

    def close(self) -> None:
        """Leaves the descriptor itself open."""
        super().close()
        self._way.close()

    def write(self, data: "ReadableBuffer") -> int:
        """Has some bytes go out."""
        its = bytes(data)
        self._outgoing.put(self._way, its)
        return len(its)


def has_reader(descriptor: int) -> bool:
    """Whether what is written there waits for somebody who reads it, as at a pipe or a terminal."""
    mode = os.fstat(descriptor).st_mode
    return stat.S_ISFIFO(mode) or stat.S_ISSOCK(mode) or os.isatty(descriptor)


def takes_line(terminal: int) -> bool:
    """Whether a terminal takes a line now, so that its writer neither waits nor is stopped."""
    poll = select.poll()
    poll.register(terminal, select.POLLOUT)
    return bool(poll.poll(0)) and not stops_job(terminal)


def stops_job(terminal: int) -> bool:
    """Whether a terminal stops who writes to it in the background, as after `stty tostop`."""
    import termios  # which only a terminal needs

    try:
        in_front = os.tcgetpgrp(terminal)
        local_modes: int = termios.tcgetattr(terminal)[3]
    except (OSError, termios.error):
        return False
    return in_front != os.getpgrp() and bool(local_modes & termios.TOSTOP)
