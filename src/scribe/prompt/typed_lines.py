"""Lines that a person types.

At a terminal they are edited by readline, with a history that isn't kept on disk. A terminal left
alone collects a line before any program sees it, and drops what comes after its first 4,095 bytes.
So it is taken out of that mode for as long as lines are read, and what is pasted while something
else goes on is kept as well.
"""

import locale
import os
import re
import select
import signal
import sys
import termios
from collections.abc import Callable, Iterator
from contextlib import AbstractContextManager, contextmanager, suppress
from functools import partial
from io import TextIOWrapper
from types import FrameType, TracebackType
from typing import Protocol, Self

from scribe.words.console import CUT_BYTES, Console
from scribe.words.status import Interrupted, Stop, not_loaded

# how often, in seconds, a line is noted, and it is asked whether something came about before it is begun
_TICK = 0.5
# how long more of a paste is waited for, in seconds, and how much of it is read at once
_LULL, _READ_BYTES = 0.05, 1 << 16
# what tells where a paste begins and ends, and keys that are no text
_NO_TEXT = re.compile(r"\x1b\[20[01]~|[\x00-\x08\x0b\x0c\x0e-\x1f\x7f]")
_SETTINGS = (
    # pasted lines are lines of their own, and nothing is written that isn't text
    "set enable-bracketed-paste off",
    # so they are where a terminal says of its own where they begin and end
    r'"\e[200~": ""',
    r'"\e[201~": ""',
    "set enable-meta-key off",
    "set input-meta on",
    "set output-meta on",
    "set convert-meta off",
    # a tab is a character like any other
    "tab: self-insert",
)


class GivenUp(Exception):
    """The person gave up the line, by Ctrl-C."""


class Due(Exception):
    """Something came about while no line was begun."""


def never() -> bool:
    """Nothing comes about."""
    return False


class Lines(Protocol):
    """Where lines come from."""

    #: Whether a person sees the prompts.
    has_prompts: bool

    def line(
        self,
        prompt: str,
        is_kept: bool = False,
        is_due: Callable[[], bool] = never,
    ) -> bytes | None:
        """The next line without its ending, or None at the end; GivenUp if it is given up.

        A line that is kept is one of those that the arrow keys bring back. At a terminal it is
        asked now and then whether something is due, until the line is begun, and Due is raised.
        """

    def bring_back(self, line: str) -> None:
        """Has a line be the first that the arrow keys bring back, if there are any."""


class PipedLines:
    """Lines that come from no terminal, or while nothing is shown at one, so without a prompt."""

    has_prompts = False

    def __init__(self, console: Console) -> None:
        self._console = console

    def line(
        self,
        prompt: str,
        is_kept: bool = False,
        is_due: Callable[[], bool] = never,
    ) -> bytes | None:
        """The next line."""
        line = self._console.read_line()
        if self._console.may_be_cut(line):
            raise Stop(
                f"The terminal may have cut this line after {CUT_BYTES:,} bytes. Nothing was changed."
            )
        return line.removesuffix(b"\n").removesuffix(b"\r") if line else None

    def bring_back(self, line: str) -> None:
        """Does nothing: no keys are there."""


class TypedLines(AbstractContextManager["TypedLines"]):
    """Lines that are typed at a terminal, and edited while they are."""

    has_prompts = True

    def __init__(self) -> None:
        _read_utf8()
        # imported here, since it prepares the terminal and takes the locale of this moment
        try:
            import readline
        except ImportError as missing:
            raise not_loaded(
                missing,
                "readline",
                f"{sys.executable}, by which scribe runs, lacks the module readline, without"
                " which lines can't be typed. Run scribe by another Python.",
            ) from None
        self._readline = readline
        for setting in _SETTINGS:
            readline.parse_and_bind(setting)
        readline.set_auto_history(False)
        # until then the line before stands where the next one is typed; readline would drop what a signal
        # raises in code of Python here, and this runs none
        readline.set_startup_hook(partial(setattr, self, "_is_begun", True))
        self._before = termios.tcgetattr(0)
        #: The prompt of the line that is typed, if one is.
        self._prompt: str | None = None
        #: What was typed of a line as a signal, or the end of the terminal, broke it off.
        self.broken_off = ""
        #: What was typed of the line that was given up last.
        self.given_up = ""
        #: The lines that the arrow keys brought back, of which others were made.
        self.brought_back: set[str] = set()
        # what was typed of the line a moment ago, and whether that is the line which is being typed
        self._noted, self._is_begun = "", False

    def __enter__(self) -> Self:
        self._interrupted = signal.signal(signal.SIGINT, _nothing)
        # a process that was begun to be stopped by no key isn't
        if signal.getsignal(signal.SIGTSTP) is signal.SIG_DFL:
            signal.signal(signal.SIGTSTP, self._stop)
        self._set(echoes=False)
        return self

    def __exit__(
        self,
        kind: type[BaseException] | None,
        error: BaseException | None,
        trace: TracebackType | None,
    ) -> None:
        if kind is not None:
            # what was pasted for here is for no shell
            self.rest()
        # a terminal that was closed needs no care
        with suppress(termios.error):
            termios.tcsetattr(0, termios.TCSADRAIN, self._before)
        signal.signal(signal.SIGINT, self._interrupted)
        if signal.getsignal(signal.SIGTSTP) == self._stop:
            signal.signal(signal.SIGTSTP, signal.SIG_DFL)

    def line(
        self,
        prompt: str,
        is_kept: bool = False,
        is_due: Callable[[], bool] = never,
    ) -> bytes | None:
        """The next line, edited by readline."""
        try:
            with self._typing(prompt), self._asking(is_due):
                line = _read(prompt)
        except EOFError:
            self._break_off()
            return None
        except Due:
            print()
            raise
        except Interrupted:
            self._break_off()
            raise
        except KeyboardInterrupt:
            self.given_up = self._readline.get_line_buffer() if self._is_begun else ""
            print()
            raise GivenUp from None
        if is_kept and line:
            self.bring_back(line)
        return line.encode("utf-8", "surrogateescape")

    def bring_back(self, line: str) -> None:
        """Has a line be the first that the arrow keys bring back."""
        # if the system has no locale with UTF-8, only lines of ASCII come back
        with suppress(UnicodeEncodeError):
            self._readline.add_history(line)

    def rest(self) -> str:
        """What came and wasn't read, which a shell would take for commands of its own."""
        found = b""
        # a terminal that was closed has none, and what a shell has by now is for that
        with suppress(OSError):
            while os.tcgetpgrp(0) == os.getpgrp() and _has_more():
                part = os.read(0, _READ_BYTES)
                if not part:
                    break
                found += part
        text = _NO_TEXT.sub("", found.decode(errors="replace"))
        return text.replace("\r", "\n")

    def _break_off(self) -> None:
        """Leaves the line that is typed, of which nobody sees the end if the terminal was closed."""
        self.broken_off = self._readline.get_line_buffer() if self._is_begun else ""
        try:
            print()
        except OSError:
            # readline keeps no line of a terminal that was closed
            self.broken_off = self.broken_off or self._noted

    @contextmanager
    def _typing(self, prompt: str) -> Iterator[None]:
        """While a line is typed it is shown, and Ctrl-C gives it up."""
        self._set(echoes=True)
        signal.signal(signal.SIGINT, signal.default_int_handler)
        self._prompt = prompt
        try:
            yield
        finally:
            self._prompt = None
            signal.signal(signal.SIGINT, _nothing)
            self._set(echoes=False)
            self._note_brought_back()

    def _note_brought_back(self) -> None:
        """Notes the line that the arrow keys brought back, of which the one just typed was made."""
        import ctypes  # which few commands need

        # a library that isn't readline itself may not say it
        with suppress(AttributeError, OSError):
            place = ctypes.CDLL(self._readline.__file__).where_history()
            line = self._readline.get_history_item(place + 1)
            self.brought_back.update([line] if line else [])

    def _stop(self, number: int, frame: FrameType | None) -> None:
        """What Ctrl-Z does: the shell has the terminal, which is here as it was before once it is back.

        A shell leaves it so that it collects lines, and would cut the one that is being typed.
        """
        mode = termios.tcgetattr(0)
        termios.tcsetattr(0, termios.TCSADRAIN, self._before)
        signal.signal(signal.SIGTSTP, signal.SIG_DFL)
        # the timer would come at once with a signal that ends scribe meanwhile
        timer = signal.setitimer(signal.ITIMER_REAL, 0)
        try:
            os.kill(os.getpid(), signal.SIGTSTP)
            # a terminal that was closed needs no care
            with suppress(termios.error):
                termios.tcsetattr(0, termios.TCSADRAIN, mode)
            signal.setitimer(signal.ITIMER_REAL, *timer)
            signal.signal(signal.SIGTSTP, self._stop)
        except Interrupted:
            _leave_terminal()
            raise
        if self._prompt is not None:
            print(self._prompt + self._readline.get_line_buffer(), end="", flush=True)

    @contextmanager
    def _asking(self, is_due: Callable[[], bool]) -> Iterator[None]:
        """While a line is typed it is noted, and while none is begun it is asked whether something is due."""

        def ask(number: int, frame: FrameType | None) -> None:
            self._noted = self._readline.get_line_buffer()
            if not self._noted and is_due():
                raise Due

        self._noted, self._is_begun = "", False
        # what the timer was set for before this, or is meanwhile, is to come
        if signal.getitimer(signal.ITIMER_REAL)[0]:
            yield
            return
        before = signal.signal(signal.SIGALRM, ask)
        # what is written to a terminal that was stopped goes on afterwards
        signal.siginterrupt(signal.SIGALRM, False)
        signal.setitimer(signal.ITIMER_REAL, _TICK, _TICK)
        try:
            yield
        finally:
            if signal.getsignal(signal.SIGALRM) is ask:
                signal.setitimer(signal.ITIMER_REAL, 0)
                signal.signal(signal.SIGALRM, before)

    def _set(self, echoes: bool) -> None:
        # a terminal that was closed needs no care
        with suppress(termios.error):
            mode = termios.tcgetattr(0)
            mode[3] &= ~termios.ICANON
            mode[3] = mode[3] | termios.ECHO if echoes else mode[3] & ~termios.ECHO
            mode[6][termios.VMIN], mode[6][termios.VTIME] = 1, 0
            termios.tcsetattr(0, termios.TCSADRAIN, mode)


def _has_more() -> bool:
    """Whether more of what was typed or pasted comes at once."""
    return bool(select.select([0], [], [], _LULL)[0])


def are_typed() -> bool:
    """Whether a person sits at a terminal that shows what is typed."""
    streams = (sys.stdin, sys.stdout)
    return all(stream is not None and stream.isatty() for stream in streams)


def _read(prompt: str) -> str:
    """A line, or what a signal raises that ends the reading."""
    try:
        return input(prompt)
    except SystemError as fault:
        # another signal came before Python was done with that one
        if fault.__cause__ is None:
            raise
        raise fault.__cause__ from None


def _read_utf8() -> None:
    """Has lines read as UTF-8 whatever the locale says, as a book is."""
    for stream in (sys.stdin, sys.stdout):
        if isinstance(stream, TextIOWrapper):
            stream.reconfigure(encoding="utf-8", errors="surrogateescape")
    if locale.nl_langinfo(locale.CODESET) != "UTF-8":
        # readline takes the environment's locale while it reads a line, and the process's beside it
        os.environ["LC_ALL"] = "C.UTF-8"
        with suppress(locale.Error):
            locale.setlocale(locale.LC_CTYPE, "C.UTF-8")


def _leave_terminal() -> None:
    """Has nothing be done to the terminal any more if the shell has it, which would stop scribe again."""
    # a terminal that was closed needs no care
    with suppress(OSError):
        if os.tcgetpgrp(0) != os.getpgrp():
            signal.signal(signal.SIGTTOU, signal.SIG_IGN)
            nothing = os.open(os.devnull, os.O_RDWR)
            os.dup2(nothing, 0)
            os.close(nothing)


def _nothing(number: int, frame: FrameType | None) -> None:
    """What Ctrl-C does while the program answers: the answer is waited for."""
