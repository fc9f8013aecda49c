"""The pipes to a session of the program: bytes of requests go in, and replies come out.

Both ways go on at once, so that no sizes of requests and replies make the two wait for each other.
"""

import os
import select
import time
from collections import deque
from collections.abc import Callable, Sequence
from dataclasses import dataclass
from subprocess import PIPE, Popen
from typing import IO

from braildesk.fenced import started
from braildesk.protocol.asked import BookFile
from braildesk.protocol.replies import Reader, Reply

#: A write of so many bytes goes into a pipe whole or not at all. Short requests are written in
#: groups of at most this size, so that a client that is killed leaves none of them cut.
_WHOLE = select.PIPE_BUF
#: What is read at once.
_READ = 1 << 16
#: How long nothing comes before somebody is told that the program is waited for, in milliseconds.
_LONG = 1_000
#: How many seconds a program is waited for still, once somebody stopped the waiting.
_PATIENCE = 2.0
#: Of so many replies to commands that are to come none is waited for by itself, since the program would
#: wake this process for each, but what comes within so many seconds.
_MANY, _PAUSE = 64, 0.001
#: So many seconds are taken by what is under way, as far as is known, and so long anybody waits who stops.
_SECONDS_AHEAD = 0.5
#: So many requests are under way before it is known how long they take, and at least.
_FIRST, _LEAST = 16, 4


@dataclass(frozen=True, eq=False, repr=False)
class Ending:
    """How the program of a session ended."""

    #: Its exit status, or the number of a signal with a minus before it.
    status: int
    #: What it wrote on standard error.
    errors: str
    #: Whether it was ended here, since it didn't answer any more.
    is_given_up: bool = False


class Steps:
    """Steps that belong together: all of them are done, or they were interrupted, as by Ctrl-C."""

    def __init__(self) -> None:
        self.are_interrupted = False

    def __enter__(self) -> None:
        self.are_interrupted = True

    def __exit__(self, kind: type[BaseException] | None, *_: object) -> None:
        if kind is None:
            self.are_interrupted = False


class Pace:
    """How many requests may be under way, by how quickly those before them were answered."""

    def __init__(self, most: int, clock: Callable[[], float] = time.monotonic) -> None:
        self._most, self._clock = most, clock
        self.ahead = min(_FIRST, most)
        # how many were answered since when
        self._count, self._since = 0, clock()

    def answered(self) -> None:
        """Sees that one more was answered."""
        self._count += 1
        if 2 * self._count < self.ahead:
            return
        now = self._clock()
        taken = max(now - self._since, 0.001)
        soon = int(_SECONDS_AHEAD * self._count / taken)
        self.ahead = max(min(soon, 2 * self.ahead, self._most), min(_LEAST, self._most))
        self._count, self._since = 0, now


class Pipe:
    """The program of a session, with the pipes to it."""

    def __init__(
        self,
        words: Sequence[str],
        book: BookFile,
        while_waiting: Callable[[], None] = lambda: None,
    ) -> None:
        self._while_waiting = while_waiting
        #: The time until which the program is waited for; None if that has no end.
        self._until: float | None = None
        self._is_given_up = False
        self._process = started(book, lambda: _begun(words))
        self._input = _unblocked(self._process.stdin)
        self._output = _unblocked(self._process.stdout)
        self._errors = _unblocked(self._process.stderr)
        self._poll = select.poll()
        self._poll.register(self._output, select.POLLIN)
        self._poll.register(self._errors, select.POLLIN)
        self._open = {self._output, self._errors}
        self._reader = Reader()
        self._error_bytes = b""
        self._queue: deque[bytes] = deque()
        self._queued_bytes = 0
        self._chunk = memoryview(b"")
        #: How many requests were taken from the queue whose replies weren't given yet.
        self._under_way = 0
        #: Whether the newest of them is a command, which takes the program longer than a query.
        self.is_of_commands = False
        self._writable = True
        self._is_closing = False
        #: How often replies were read.
        self.reads = 0
        #: What belongs together, here or of the caller, is done within these.
        self.steps = Steps()

    @property
    def pid(self) -> int:
        """The number of the process."""
        return self._process.pid

    @property
    def is_running(self) -> bool:
        """Whether the program has not ended yet."""
        return self._process.poll() is None

    @property
    def queued(self) -> int:
        """How many requests there are of which nothing is written yet."""
        return len(self._queue)

    @property
    def queued_bytes(self) -> int:
        """The bytes of the requests of which nothing is written yet."""
        return self._queued_bytes

    def send(self, request: bytes) -> None:
        """Queues a request, which is written while replies are waited for."""
        self._queue.append(request)
        self._queued_bytes += len(request)

    def drop(self) -> int:
        """Drops the requests of which nothing is written yet, and says how many."""
        dropped = len(self._queue)
        self._queue.clear()
        self._queued_bytes = 0
        return dropped

    def has_reply(self) -> bool:
        """Whether there is a next reply, which is waited for, and the program didn't end before it."""
        while not self._reader.has_reply:
            if self._output not in self._open:
                return False
            self._move()
        return True

    def reply(self) -> Reply:
        """Takes the next reply, which is there. The caller notes it among the same steps."""
        reply = self._reader.pop()
        assert reply is not None
        self._under_way -= 1
        return reply

    def push(self) -> None:
        """Writes what can be written without waiting."""
        while self._writable and self._fill():
            with self.steps:
                try:
                    self._chunk = self._chunk[os.write(self._input, self._chunk) :]
                except BlockingIOError:
                    return
                except BrokenPipeError:
                    self._writable = False

    def close(self) -> Ending:
        """Ends the input, and waits for the program to end.

        A program whose pipes were left in the middle of a move, as Ctrl-C may do, is ended by a
        signal: what it acknowledged is in its file, and no request is written to it twice. If the
        waiting is stopped here, that is raised once the program has ended.
        """
        if self.steps.are_interrupted:
            self.kill()
        self._is_closing = True
        self.abandon()
        stopped: KeyboardInterrupt | None = None
        while self._open:
            try:
                self._receive()
            except KeyboardInterrupt as cause:
                stopped = cause
        status = self._process.wait()
        for stream in (self._process.stdout, self._process.stderr):
            if stream is not None:
                stream.close()
        if stopped is not None:
            raise stopped
        errors = self._error_bytes.decode(errors="replace")
        return Ending(status, errors, self._is_given_up)

    def hasten(self) -> None:
        """Has a program that does nothing be waited for no longer than for a while: somebody stopped that."""
        if self._until is None:
            self._until = time.monotonic() + _PATIENCE

    def abandon(self) -> None:
        """Ends the input, and doesn't wait for the program, which ends by that."""
        self._writable = False
        if self._process.stdin is not None:
            self._process.stdin.close()

    def kill(self) -> None:
        """Ends the program by a signal, and reads no more of it."""
        self._process.kill()
        self._open.clear()

    def _fill(self) -> bool:
        """Whether there is a chunk to write, which is made of whole requests."""
        if not self._chunk and self._queue:
            with self.steps:
                parts = [self._queue.popleft()]
                size = len(parts[0])
                while self._queue and size + len(self._queue[0]) <= _WHOLE:
                    parts.append(self._queue.popleft())
                    size += len(parts[-1])
                self._queued_bytes -= size
                self._under_way += len(parts)
                self._chunk = memoryview(b"".join(parts))
        return bool(self._chunk)

    def _move(self) -> None:
        """Writes and reads what there is, and waits if there is nothing."""
        self.push()
        if self._writable and self._chunk:
            self._poll.register(self._input, select.POLLOUT)
            try:
                self._receive()
            finally:
                self._poll.unregister(self._input)
        else:
            self._receive()

    def _receive(self) -> None:
        for stream, _ in self._awaited():
            if stream != self._input:
                self._take(stream)

    def _awaited(self) -> list[tuple[int, int]]:
        """The streams on which something is to be done, which are waited for.

        Once somebody stopped that, as by Ctrl-C, a program that does nothing is ended by a signal.
        """
        try:
            is_in_blocks = self.is_of_commands and self._under_way > _MANY
            if is_in_blocks and not self._poll.poll(0):
                time.sleep(_PAUSE)
            while not (found := self._poll.poll(_LONG)):
                if self._until is None:
                    self._while_waiting()
                elif time.monotonic() > self._until:
                    self._is_given_up = True
                    self.kill()
                    break
            return found
        except KeyboardInterrupt:
            self._until = time.monotonic() + _PATIENCE
            raise

    def _take(self, stream: int) -> None:
        with self.steps:
            data = os.read(stream, _READ)
            if not data:
                self._poll.unregister(stream)
                self._open.remove(stream)
            elif stream == self._errors:
                self._error_bytes += data
            elif not self._is_closing:
                self.reads += 1
                self._reader.feed(data)


def _begun(words: Sequence[str]) -> Popen[bytes]:
    """A program in a group of its own, so that Ctrl-C at a terminal interrupts the client alone."""
    return Popen(
        words, bufsize=0, stdin=PIPE, stdout=PIPE, stderr=PIPE, process_group=0
    )


def _unblocked(stream: IO[bytes] | None) -> int:
    """The number of an end of a pipe that never waits."""
    assert stream is not None
    os.set_blocking(stream.fileno(), False)
    return stream.fileno()
