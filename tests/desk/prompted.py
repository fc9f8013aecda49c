"""Somebody at a terminal at which scribe asks for lines, as talk and try do."""

import fcntl
import os
import re
import signal
import sys
import termios
import threading
import time
from collections.abc import Callable
from pathlib import Path

from scribe.words.console import WAITING
from tool import (
    WAIT_SECONDS,
    Ran,
    at_end,
    at_terminal,
    end,
    environment,
    is_taken_at_start,
    scribe_in_copy,
    wait_for_program,
)


#: What has scribe look at what is typed so often that it is about to do so whenever it is stopped.
LOOKING_OFTEN = (
    "from scribe.prompt import typed_lines; typed_lines._TICK = 0.001;"
    " from scribe.cli import main; main()"
)
#: The settings of a shell that speaks English, at whose prompt scribe is begun.
OF_SHELL = {
    "PS1": "$ ",
    "TERM": "xterm-256color",
    "INPUTRC": "/dev/null",
    "LC_ALL": "C.UTF-8",
}


class Prompted:
    """Somebody at a terminal at which scribe asks for lines, and what it answers."""

    def __init__(
        self,
        *words: str,
        folder: Path,
        before: Callable[[], object] | None = None,
        **more: str,
    ) -> None:
        def begin() -> None:
            wait_for_program()
            if before is not None:
                before()

        settings = environment(TERM="xterm-256color", INPUTRC="/dev/null", **more)
        is_new = is_taken_at_start(more)
        self._child = at_terminal(
            sys.executable,
            "-m",
            "scribe",
            *words,
            settings=settings,
            folder=folder,
            begin=None if is_new else scribe_in_copy(words, settings, begin),
        )
        self.greeting = self._answer("> ")

    def type(self, line: str, prompt: str = "> ") -> list[str]:
        """Types a line, and gives the lines that are written before the next prompt."""
        self._child.send(line + "\r")
        return self.wait(prompt)

    def wait(self, prompt: str = "> ") -> list[str]:
        """The lines that are written before the next prompt, but for that of the last one."""
        _, *answer = self._answer(prompt)
        return answer

    def keys(self, keys: str) -> None:
        """Types keys without the one that ends the line."""
        self._child.send(keys)

    def shown_keys(self, keys: str) -> None:
        """Types characters, and waits until they are shown."""
        self._child.send(keys)
        self._child.expect_exact(keys)

    def give_up(self) -> list[str]:
        """Gives up the line by Ctrl-C, and gives what is said to it."""
        self._child.send("\x03")
        return self.wait()

    def paste(self, text: str) -> None:
        """Pastes a text, which goes on while what is written is read."""
        threading.Thread(target=self._child.send, args=(text,), daemon=True).start()

    def wait_for(self, text: str) -> None:
        """Waits until a text is written."""
        self._child.expect_exact(text)

    def end(self, line: str) -> Ran:
        """Types the last line, and gives how scribe ended and what it wrote."""
        self._child.send(line)
        status = at_end(self._child)
        return Ran(status, self._child.before, "")

    def program(self) -> int:
        """The process of the session that scribe talks to."""
        children = Path(f"/proc/{self._child.pid}/task/{self._child.pid}/children")
        return int(children.read_text().split()[0])

    def stop_program(self) -> None:
        """Stops that process, which reads nothing more by then."""
        program = self.program()
        stat = Path(f"/proc/{program}/stat")
        os.kill(program, signal.SIGSTOP)
        end = time.monotonic() + WAIT_SECONDS
        while stat.read_text().rpartition(")")[2].split()[0] != "T":
            assert time.monotonic() < end, "the program isn't stopped"
            time.sleep(0.01)

    def wait_for_request(self) -> None:
        """Waits until scribe waits for the answer to a request, which the program doesn't read."""
        stat = Path(f"/proc/{self._child.pid}/stat")
        end = time.monotonic() + WAIT_SECONDS
        with open(f"/proc/{self.program()}/fd/0", "rb", buffering=0) as sent:
            while not any(fcntl.ioctl(sent, termios.FIONREAD, bytes(4))) or (
                stat.read_text().rpartition(")")[2].split()[0] != "S"
            ):
                assert time.monotonic() < end, "scribe sends nothing"
                time.sleep(0.01)

    def wait_for_ticks(self) -> None:
        """Waits until scribe has looked several times at what is typed, which it does now and then."""
        status = Path(f"/proc/{self._child.pid}/status")

        def looked() -> int:
            lines = status.read_text().splitlines()
            return int(next(n for n in lines if n.startswith("voluntary_")).split()[1])

        before, end = looked(), time.monotonic() + WAIT_SECONDS
        while looked() < before + 5:
            assert time.monotonic() < end, "scribe doesn't look at what is typed"
            time.sleep(0.01)

    def stop_by(self, number: signal.Signals) -> Ran:
        """Ends scribe by a signal, and gives how it ended and what it wrote."""
        os.kill(self._child.pid, number)
        status = at_end(self._child)
        return Ran(status, self._child.before, "")

    def hang_up(self) -> int:
        """Closes the terminal, as its window does, and gives how scribe ended."""
        self._child.ptyproc.fileobj.close()
        status = os.waitpid(self._child.pid, 0)[1]
        self._child.ptyproc.terminated = True
        return os.waitstatus_to_exitcode(status)

    def close(self) -> None:
        """Ends scribe, where it hasn't ended yet."""
        end(self._child)

    def _answer(self, prompt: str) -> list[str]:
        self._child.expect(rf"(?:^|\n){re.escape(prompt)}")
        return without_waiting(self._child.before.replace("\r", "").split("\n"))


def without_waiting(lines: list[str]) -> list[str]:
    """Lines but for that which is said where a machine has other work, and scribe waits."""
    return [line for line in lines if line != WAITING]


def child_of(process: int) -> int:
    """The only process that another one began and has still."""
    return int(Path(f"/proc/{process}/task/{process}/children").read_text())
