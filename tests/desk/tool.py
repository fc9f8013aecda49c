"""Runs scribe as a person does: its words, what it shows, what it says, and its status.

A machine on which the tests run may have other work, so a state is waited for, and nothing is taken
to be done after some time.
"""

import gc
import os
import signal
import subprocess
import sys
import tempfile
import traceback
from collections.abc import Callable, Mapping, Sequence
from dataclasses import dataclass
from importlib import import_module
from pathlib import Path
from typing import Any, TextIO

import pexpect  # type: ignore[import]

from braildesk import pipe

from scribe.cli import main
from scribe.words import encoding

# imported once, and not in each process anew
import_module("scribe.screen.terminal")

ROOT = Path(__file__).resolve().parents[2]
#: How long a state is waited for: only where it never comes.
WAIT_SECONDS = 120
# what Python takes from the environment as it is started, and not later
_TAKEN_AT_START = ("LC_", "LANG", "PYTHON")


@dataclass(frozen=True)
class Ran:
    """What became of a run: its status, and what came out on both streams."""

    status: int
    shown: str
    said: str


def environment(**more: str) -> dict[str, str]:
    """The environment in which scribe is found, and cells are shown as Unicode characters."""
    usual = {"LANG": "C.UTF-8", **os.environ}
    return {**usual, "PYTHONPATH": str(ROOT / "src"), **more}


def scribe(
    *words: str | Path,
    folder: Path,
    given: str | bytes = "",
    before: Callable[[], object] | None = None,
    **more: str,
) -> Ran:
    """Runs scribe in a folder, with what is given as its input.

    It runs in a copy of this process, unless settings are given that only a new one takes.
    """
    settings = environment(**more)
    begin = (
        before if is_taken_at_start(more) else scribe_in_copy(words, settings, before)
    )
    done = subprocess.run(
        [sys.executable, "-m", "scribe", *words],
        cwd=folder,
        input=given.encode() if isinstance(given, str) else given,
        capture_output=True,
        env=settings,
        preexec_fn=begin,
    )
    return Ran(done.returncode, done.stdout.decode(), done.stderr.decode())


def is_taken_at_start(settings: Mapping[str, str]) -> bool:
    """Whether some settings are taken by Python as it is started."""
    return any(name.startswith(_TAKEN_AT_START) for name in settings)


def scribe_in_copy(
    words: Sequence[str | Path],
    settings: Mapping[str, str],
    before: Callable[[], object] | None = None,
) -> Callable[[], None]:
    """What has a copy of this process be scribe in place of another program that it would run.

    The copy has its streams and its folder already. All that scribe imports is imported in it, which
    takes a new process longer than most commands take.
    """

    def become() -> None:
        status = 1
        try:
            # nothing of what the tests have open is open here, nor closed a second time
            gc.freeze()
            os.closerange(3, os.sysconf("SC_OPEN_MAX"))
            os.environ.clear()
            os.environ.update(settings)
            tempfile.tempdir = None
            if before is not None:
                before()
            # as Python has it from its beginning, and no process that is to run another program
            for each in (signal.SIGPIPE, signal.SIGXFSZ):
                signal.signal(each, signal.SIG_IGN)
            # the environment with which a process was started can't be changed in it
            encoding.first_environment = lambda: dict(settings)
            sys.argv = ["scribe", *map(str, words)]
            for number, name in enumerate(("stdin", "stdout", "stderr")):
                setattr(sys, name, _stream(number))
            status = main()
        except BaseException:
            traceback.print_exc()
        finally:
            os._exit(status)

    return become


def wait_for_program() -> None:
    """Has this process wait for the program however long that takes, as it may on a busy machine.

    Else scribe says after a second that it waits, and where it is told to end it ends without it.
    """
    pipe._LONG = 1_000 * WAIT_SECONDS


def at_terminal(
    program: str,
    *words: str | Path,
    settings: Mapping[str, str],
    folder: Path | None = None,
    begin: Callable[[], None] | None = None,
    size: tuple[int, int] = (24, 200),
    encoding: str | None = "utf-8",
) -> Any:
    """A program at a terminal of so many lines and columns."""
    child = pexpect.spawn(
        program,
        [*map(str, words)],
        cwd=folder and str(folder),
        env=settings,
        preexec_fn=begin,
        encoding=encoding,
        # a line that is longer than the terminal may be drawn from the middle of a character on
        codec_errors="replace",
        timeout=WAIT_SECONDS,
        dimensions=size,
    )
    # keys are sent once they are waited for, and need no pause
    child.delaybeforesend = None
    child.ptyproc.delayafterclose = 0
    return child


def at_end(child: Any) -> int:
    """The status with which a program at a terminal ends by itself, or its signal with a minus."""
    child.expect(pexpect.EOF)
    child.wait()
    child.close()
    return int(child.exitstatus if child.signalstatus is None else -child.signalstatus)


def end(child: Any) -> None:
    """Ends a program at a terminal, if it hasn't ended yet, and waits for it however long it takes."""
    if not child.ptyproc.terminated:
        os.kill(child.pid, signal.SIGKILL)
        child.wait()
    child.close()


def put_in_place(path: Path, text: str) -> None:
    """Puts a text in place of that of a file, so that who reads the file finds one of them whole."""
    beside = path.with_name(f"{path.name}-new")
    beside.write_text(text, encoding="utf-8")
    beside.replace(path)


def _stream(number: int) -> TextIO | None:
    """A standard stream as Python has it as it begins; none if it is closed."""
    try:
        return open(number, "w" if number else "r", closefd=False)
    except OSError:
        return None
