"""The terminal: keys come in, and what is drawn goes out."""

import asyncio
import errno
import math
import os
import signal
import sys
import termios
import time
from collections import deque
from collections.abc import Callable, Sequence
from concurrent.futures import Future, ThreadPoolExecutor
from contextlib import suppress
from copy import copy, deepcopy
from dataclasses import replace
from types import FrameType
from typing import Any

from prompt_toolkit import utils
from prompt_toolkit.application import Application
from prompt_toolkit.data_structures import Point
from prompt_toolkit.formatted_text import StyleAndTextTuples
from prompt_toolkit.input.vt100 import Vt100Input, raw_mode
from prompt_toolkit.key_binding.key_processor import KeyPress
from prompt_toolkit.layout import FormattedTextControl, Layout, Window
from prompt_toolkit.output.vt100 import Vt100_Output
from prompt_toolkit.styles import Style

from braildesk.text.characters import visible
from braildesk.text.sequences import JOINING_JAMO

from scribe.screen.actions import ExportTo, ImportFrom, TypeAll
from scribe.screen.arrivals import (
    READING_SECONDS,
    UNREAD,
    Arrivals,
    Lull,
    ToBeRead,
    is_text,
    text_of,
)
from scribe.screen.desk import Desk, preview_of, with_preview
from scribe.screen.drawing import Drawing, draw
from scribe.screen.keyboard import Keyboard, Pasted, Stroke
from scribe.screen.keys import is_obeyed
from scribe.screen.lines import BOTH, CHOSEN, HEAD, HIGHLIGHTED, MARKED, PLAIN
from scribe.screen.state import Size, State, lines_typed, saying_first
from scribe.screen.unread import rest_of, unread_of
from scribe.screen.waiting import not_obeyed
from scribe.words.console import WAITING
from scribe.words.encoding import in_encoding
from scribe.words.status import Interrupted, of_system
from scribe.words.typed_last import PARTED

# no colours: what is highlighted is reversed, what is marked is underlined
_STYLE = Style(
    [
        (HIGHLIGHTED, "reverse"),
        (MARKED, "underline"),
        (BOTH, "reverse underline"),
        (CHOSEN, "bold"),
        (HEAD, "reverse"),
    ]
)
_CLASSES = {
    PLAIN: "",
    **{each: f"class:{each}" for each in (HIGHLIGHTED, MARKED, BOTH, CHOSEN, HEAD)},
}
# how often what is typed is kept
_SAVE_SECONDS = 1.0
# how long Escape waits for a key that would make it Alt
_ESCAPE_SECONDS = 0.1
# others may be among those that were given up, or were typed where no key types anything
_WAITS = "A text that was typed and isn't in the book is kept, and is offered when the book is next opened."
_UNKEPT = "This was given up, and is kept nowhere:"
_NO_END = "The end of the pasted text didn't come. All that came is taken as pasted, and keys act again."
_TOO_SOON = "That key came before the question could be read, and was no answer to it."
_UNSEEN = "That key came before this could be seen, and did nothing."


class _ToldToEnd(Exception):
    """scribe is to end, and was stopped as it asked for the terminal."""


class _RawMode(raw_mode):
    """The mode in which keys come one by one, also where scribe was stopped as it asked for that."""

    def __init__(self, fileno: int, is_told_to_end: Callable[[], bool]) -> None:
        super().__init__(fileno)
        self._is_told_to_end = is_told_to_end

    def __enter__(self) -> None:
        """Takes the terminal, as soon as a shell gives it; _ToldToEnd if scribe is to end before that."""
        while True:
            try:
                return super().__enter__()
            except termios.error as failure:
                if failure.args[0] != errno.EINTR:
                    raise
            if self._is_told_to_end():
                raise _ToldToEnd
            # as the shell has left it since, it is given back
            super().__init__(self.fileno)

    def __exit__(self, *_: object) -> None:
        """Leaves the terminal as it was, unless a shell has it, which would stop scribe until it gives it."""
        while self.attrs_before is not None and not _is_behind(self.fileno):
            try:
                termios.tcsetattr(self.fileno, termios.TCSANOW, self.attrs_before)
            except termios.error as failure:
                if failure.args[0] == errno.EINTR:
                    continue
            # a terminal that was closed needs no care
            return


class _Input(Vt100Input):
    """Hands on the characters of the terminal as they come, and says when no more come."""

    def __init__(
        self,
        came: Callable[[str], None],
        ended: Callable[[], None],
        is_told_to_end: Callable[[], bool],
    ) -> None:
        super().__init__(sys.stdin)
        self._came = came
        self._ended = ended
        self._is_told_to_end = is_told_to_end

    def raw_mode(self) -> raw_mode:
        """What takes the terminal for keys, and gives it back."""
        return _RawMode(self.stdin.fileno(), self._is_told_to_end)

    def read_keys(self) -> list[KeyPress]:
        """No keys, since what comes is handed on."""
        self._came(self.stdin_reader.read())
        return []

    def flush_keys(self) -> list[KeyPress]:
        """No keys either."""
        self._ended()
        return []

    def rest(self) -> str:
        """The characters that came and weren't read, without waiting for others."""
        found = ""
        # a terminal that was closed has none
        with suppress(OSError):
            while part := self.stdin_reader.read():
                found += part
        return found


# what a terminal that was closed answers
_CLOSED = (errno.EIO, errno.EBADF)
_SIGNALS = (
    signal.SIGHUP,
    signal.SIGTERM,
    signal.SIGINT,
    signal.SIGQUIT,
    signal.SIGXCPU,
)
# keys after which the same word goes on
_ERASING = ("backspace", "delete")
# what stands before a sentence that was said of what keys have changed since
_BEFORE_KEYS = "Before the last keys this was said: "
# and what stands after it, before a sentence of these keys
_NOW = "Now:"


class HungUp(Exception):
    """The terminal was closed, so that nobody reads what is written there."""


class Output(Vt100_Output):
    """What is written on the terminal. Only here a failure says something of the terminal."""

    def flush(self) -> None:
        """Writes out what is drawn; HungUp if the terminal was closed."""
        try:
            super().flush()
        except OSError as failure:
            if failure.errno in _CLOSED:
                raise HungUp from failure
            raise TerminalFailed(failure) from failure


class TerminalFailed(Exception):
    """The terminal is there and can't be written."""

    def __init__(self, failure: OSError) -> None:
        super().__init__(failure)
        self.failure = failure


def _is_there() -> bool:
    """Whether the terminal is there to be read: SIGHUP may come from elsewhere."""
    try:
        termios.tcgetattr(sys.stdin.fileno())
    except termios.error:
        return False
    return True


def _is_behind(fileno: int) -> bool:
    """Whether a shell has the terminal, so that scribe would be stopped if it did anything to it."""
    # one that no shell has a hold of, or that was closed, stops nobody
    with suppress(OSError):
        return os.tcgetpgrp(fileno) != os.getpgrp()
    return False


def agree_on_widths() -> None:
    """Has prompt_toolkit take as many columns for each character as `columns` does.

    Joining jamo take none of their own on a terminal, which wcwidth knows from release 0.2.9 on.
    """
    utils._CHAR_SIZES_CACHE.update({chr(code): 0 for code in JOINING_JAMO})


class Screen:
    """A book on the terminal of this process, until the person ends it."""

    def __init__(
        self, desk: Desk, state: State, clock: Callable[[], float] = time.monotonic
    ) -> None:
        self._desk = desk
        self.state = state
        self._clock = clock
        self._keyboard = Keyboard()
        self._arrivals = Arrivals()
        self._lull = Lull()
        self._timer: asyncio.TimerHandle | None = None
        self._waiting: list[Stroke] = []
        #: What came while the program didn't answer, or as scribe was told to end.
        self._unread = ""
        # what is being taken in, before it is cut into keys, and the keys that are carried out
        self._taking = ""
        self._under_way: deque[Stroke] = deque()
        # when this began, since when there was no time for keys, and when they were read last
        self._begun_at = self._busy_from = self._read_at = clock()
        self._is_idle, self._works = True, 0
        self._question = ToBeRead()
        # what was said last, of what, and since when it is on the screen, if it ever was
        self._said, self._said_of, self._said_at = "", _spot(state), 0.0
        # how long that has to be there to be read
        self._reading = 0.0
        #: Whether the terminal was closed, so that nobody reads what is said.
        self.is_hung_up = False
        #: The signal that ended scribe, if one did.
        self.ended_by: signal.Signals | None = None
        #: Whether that was while pasted lines were typed, of which some wait.
        self._ends_among_lines = False
        #: What has to be said after the screen is left.
        self.unseen: tuple[str, ...] = ()
        self._worker = ThreadPoolExecutor(max_workers=1)
        self._aside: Future[State] | None = None
        self._watched: int | None = None
        self._drawn = (state, draw(state))
        self._translates = False
        self._say_waiting, desk.while_waiting = desk.while_waiting, self._waits
        self._input = _Input(self._came, self._paused, lambda: self._is_told_to_end)
        self._app = self._application()

    def _application(self) -> Application[None]:
        """What draws the screen, and takes what comes."""
        agree_on_widths()
        control = FormattedTextControl(
            self._fragments, show_cursor=True, get_cursor_position=self._cursor
        )
        application: Application[None] = Application(
            # at each drawing from the first column on, wherever the cursor was on a narrower terminal
            layout=Layout(Window(control, get_horizontal_scroll=lambda window: 0)),
            input=self._input,
            style=_STYLE,
            full_screen=True,
            output=Output.from_pty(sys.stdout, term=os.environ.get("TERM")),
            before_render=lambda app: self._fit(),
            after_render=lambda app: self._end_drawing(),
        )
        application.ttimeoutlen = _ESCAPE_SECONDS
        return application

    def run(self) -> None:
        """Shows the book until it is left, or until the terminal hangs up."""
        try:
            self._app.run(
                pre_run=self._begin, set_exception_handler=False, handle_sigint=False
            )
        except (EOFError, HungUp):
            self.is_hung_up = True
        except TerminalFailed as failed:
            raise failed.failure from None
        except _ToldToEnd:
            # nothing was drawn, or a shell has drawn over it since
            pass
        finally:
            try:
                self._settle()
            finally:
                # also after a fault in what was done with the session closed
                self._take_rest()
                self._keep_last()

    def _take_rest(self) -> None:
        """Keeps text that came and wasn't taken in before the end; no key of it is obeyed.

        What comes after Enter is another new paragraph, or else is set aside.
        """
        self.state = replace(self.state, is_over=True)
        keyboard = copy(self._keyboard)
        self._noted([*keyboard.strokes(self._taking + self._unread), *keyboard.rest()])
        came = self._left()
        if self._ends_among_lines:
            text = "".join(map(text_of, came))
            came = [Pasted(f"\n{text}")] if text else []
        rest = rest_of(self.state, came)
        self.state, said = rest.state, [*rest.said]
        for each in rest.aside:
            self.state = self._desk.set_aside(self.state, each.text, each.is_keys)
            said += [] if self.state.is_lost else [self.state.message]
        if rest.letters and self.ended_by is not None:
            said.append(not_obeyed(rest.letters))
        self.unseen = (*self.unseen, *said)

    def _noted(self, strokes: list[Stroke]) -> list[Stroke]:
        """Keys as they came, of which it is noted what they type, whatever becomes of that."""
        for each in strokes:
            self._desk.typed_last.note(
                text_of(each) or ("" if each in _ERASING else PARTED)
            )
        return strokes

    def _left(self) -> list[Stroke]:
        """The keys that came and weren't carried out, as if no more came; none is taken in yet."""
        keyboard, arrivals = copy(self._keyboard), deepcopy(self._arrivals)
        unread = keyboard.strokes(self._taking + self._unread)
        came = [*self._waiting, *(self._not_begun() if self._under_way else ())]
        came += arrivals.came(unread, self._clock())
        return [*came, *arrivals.rest(), *keyboard.rest()]

    def _keep_unread(self) -> str:
        """Keeps text that came and can't be taken in yet, and gives what is in the way of that."""
        is_at_offer = self._arrivals.holds_unread
        unread = unread_of(self.state, self._left(), is_at_offer)
        return self._desk.keep_unread(unread)

    def _keep_last(self) -> None:
        """Keeps what is typed at the end, and has it said if it can't be, or if it waits."""
        self._desk.keep_place(self.state)
        self._desk.typed_last.keep()
        state = self.state
        kept = self._desk.saved(state)
        if unkept := self._not_kept(kept) if kept is not state else ():
            self.unseen = (*self.unseen, *unkept)
        elif self.ended_by is not None and self._desk.has_waiting and not kept.is_lost:
            self.unseen = (*self.unseen, _WAITS)
        for text in self._desk.unkept:
            self.unseen = (*self.unseen, _UNKEPT, visible(text))
        if kept is state and not self._desk.unkept:
            self._desk.keep_unread(None)
        self.state = kept

    def _not_kept(self, state: State) -> tuple[str, ...]:
        """What is said of what is typed, or was cut, and can't be kept; nothing of neither."""
        lines, its = tuple(map(visible, lines_typed(state))), state.cut_kept
        typed = ("This was typed:", *lines) if lines else ()
        is_cut = its is not None and its.text != self._desk.kept_cut
        cut = ("This was cut:", visible(its.text)) if its and is_cut else ()
        return (state.message, *typed, *cut) if is_cut or state.typed else ()

    def _settle(self) -> None:
        """Waits for what is done with the session closed, which ends soon once it is to end."""
        if self.state.away and self._aside is not None:
            is_of_lines = isinstance(self.state.away, TypeAll)
            self._stop_aside()
            self.state = self._aside.result()
            asked = self.state.question
            self._ends_among_lines = bool(is_of_lines and asked and asked.lines)
            self._desk.take_over()
            pages, message = self.state.pages, self.state.message
            said = pages.lines if pages else (message,)
            self.unseen = tuple(line for line in said if line)

    def _begin(self) -> None:
        loop = asyncio.get_running_loop()
        loop.set_exception_handler(self._fail)

        # kept to the end, so that no second signal cuts short what the first one began
        def ended(number: int, frame: FrameType | None) -> None:
            if self.ended_by is None:
                self.ended_by = signal.Signals(number)
            is_gone = number == signal.SIGHUP and not _is_there()
            leave = self._hang_up if is_gone else self._leave
            if not loop.is_closed():
                loop.call_soon_threadsafe(leave)

        for number in _SIGNALS:
            signal.signal(number, ended)
        signal.signal(
            signal.SIGCONT, lambda *_: loop.call_soon_threadsafe(self._show_again)
        )
        self._watch()
        self._app.create_background_task(self._keep())
        self._look_ahead()

    def _show_again(self) -> None:
        """Takes the terminal again that a shell had while scribe was stopped, and draws all anew."""
        if not self._app.is_running or self.state.is_over:
            return
        self._input.raw_mode().__enter__()
        output = self._app.output
        self._app.renderer.reset(leave_alternate_screen=False)
        output.enter_alternate_screen()
        output.erase_screen()
        output.cursor_goto(0, 0)
        self._app.invalidate()

    def _drawing(self) -> Drawing:
        if self._drawn[0] is not self.state:
            self._drawn = (self.state, draw(self.state))
        return self._drawn[1]

    def _fragments(self) -> StyleAndTextTuples:
        fragments: StyleAndTextTuples = []
        encoding = self.state.encoding
        for line in self._drawing().lines:
            for piece in line:
                text = in_encoding(encoding, piece.text)
                fragments.append((_CLASSES[piece.look], text))
            # a blank, so that the cursor can stand after the last character of any line
            fragments.append(("", " \n"))
        fragments[-1] = ("", " ")
        return fragments

    def _cursor(self) -> Point:
        line, place = self._drawing().cursor
        return Point(x=place, y=line)

    def _fit(self) -> None:
        """Takes the size of the terminal, which may have changed."""
        self._begin_work()
        found = self._app.output.get_size()
        size = Size(max(10, found.columns), max(1, found.rows))
        if size == self.state.size:
            return
        before = self.state
        # what is said while the program doesn't answer has to be seen
        self.state = replace(before, size=size)
        if not (before.away or before.is_lost):
            with suppress(Interrupted):
                self.state = self._desk.resized(before, size)

    def _begin_work(self) -> None:
        """From here on keys wait, if they don't already."""
        if self._is_idle:
            self._is_idle, self._busy_from = False, self._clock()

    def _end_drawing(self) -> None:
        if self.state.message == self._said:
            self._said_at = min(self._said_at, self._clock())
        self._question.drawn(self._asked, self._clock())
        self._end_work()

    def _end_work(self) -> None:
        """What waits is read within the next two rounds of the loop, and after these none does."""
        self._works += 1
        loop = asyncio.get_running_loop()
        loop.call_soon(loop.call_soon, self._rest, self._works)

    def _rest(self, works: int) -> None:
        self._is_idle = works == self._works

    def _came(self, text: str) -> None:
        """Characters came: keys that may have waited while there was no time for them."""
        self._unread += text
        if self._is_told_to_end:
            # no key is obeyed any more
            return
        self._taking, self._unread = self._unread, ""
        now, read_at = self._clock(), self._read_at
        self._read_at = now
        since = None if self._is_idle else max(self._busy_from, read_at)
        pressed_at = now if since is None else since
        self._do(self._arrivals.let_go(pressed_at))
        self._question.came(self._asked, pressed_at, read_at)
        text, self._taking = self._taking, ""
        strokes = self._noted(self._keyboard.strokes(text))
        if is_unseen := self._is_unseen(read_at, since):
            strokes = [each for each in strokes if text_of(each)]
        # what is begun at an offer is one text also where that isn't there any more
        is_unread = is_unseen or self._is_unread_offer or self._begin_text(strokes)
        self._arrivals.is_unread = is_unread or self._arrivals.holds_unread
        self._lull.came(len(text), self._keyboard.is_pasting, now)
        self._do(self._arrivals.came(strokes, now, since))

    def _is_unseen(self, read_at: float, busy_since: float | None) -> bool:
        """Whether the first keys may have been pressed while the book was waited for and not seen."""
        is_first = read_at == self._begun_at and busy_since is not None
        return is_first and self._desk.was_waited_for

    def _take_in(self) -> None:
        """Takes in what came while the program didn't answer."""
        if self._unread:
            self._came(self._input.rest())
            # what reads the terminal waits for no key with Escape that came meanwhile
            loop = asyncio.get_running_loop()
            loop.call_later(_ESCAPE_SECONDS, self._paused)
        if not self._is_told_to_end:
            self._desk.keep_unread(None)

    def _paused(self) -> None:
        """Nothing comes after Escape, so it is that key."""
        last = self._noted(self._keyboard.last())
        self._do(self._arrivals.came(last, self._clock()))

    def _let_go(self) -> None:
        now = self._clock()
        if self._lull.is_over(now):
            self._lull.due = None
            pasted = self._noted(self._keyboard.end_paste())
            self._do(self._arrivals.came(pasted, now))
        else:
            self._do(self._arrivals.let_go(now))

    def _do(self, strokes: Sequence[Stroke]) -> None:
        """Carries out keys, and sees to it that those that are held are let go."""
        self._begin_work()
        rest = self._under_way = deque(strokes)
        try:
            while rest:
                if self._is_too_soon(rest[0]):
                    held = self._arrivals.hold([*rest], self._clock())
                    rest.clear()
                    rest += held
                    continue
                self._carry_out(rest[0])
                if self._is_stopped_among_lines(rest.popleft()):
                    self._ends_among_lines = True
                    self._waiting += rest
                    break
        except Interrupted:
            # text among what is left is kept at the end
            self._waiting += self._not_begun()
        except OSError as failure:
            self._set_rest_aside(self._not_begun(), failure)
        finally:
            self._under_way = deque()
            self._leave_said()
            self._end_work()
            self._wait_for_held()

    def _is_too_soon(self, stroke: Stroke) -> bool:
        """Whether a key begins a text that came before what is offered by now could be read."""
        is_taken = not (self.state.away or self.state.is_over)
        is_letter = isinstance(stroke, str) and is_text(stroke)
        return is_taken and is_letter and self._is_unread_offer

    def _set_rest_aside(self, rest: Sequence[Stroke], failure: OSError) -> None:
        """Gives up the text among keys of which the system refused the first, and says so."""
        said, text = of_system(failure), "".join(map(text_of, rest))
        if text.strip():
            self.state = self._desk.set_aside(self.state, text, True)
            said = f"{said} {self.state.message}"
        self._become(self.state.failing(said))

    def _is_stopped_among_lines(self, key: Stroke) -> bool:
        """Whether lines still wait that a key had be typed, since scribe is to end."""
        asked = self.state.question
        is_of_lines = asked is not None and bool(asked.lines) and not asked.is_typed_on
        return self._is_told_to_end and is_of_lines and key == "y"

    def _leave_said(self) -> None:
        """Leaves on the screen what wasn't there yet as the keys came that would take it away."""
        is_seen = self._is_seen_by(self._read_at)
        if is_seen or self.state.message or self.state.is_over:
            return
        said = self._said
        if _spot(self.state) != self._said_of:
            # it need not be so any more
            said = f"{_BEFORE_KEYS}{said.removeprefix(_BEFORE_KEYS)}"
            self._note_said(said, self.state)
        self.state = self.state.saying(said)

    def _is_seen_by(self, time_then: float) -> bool:
        """Whether what was said last was there to be read by a time."""
        return self._said_at + self._reading <= time_then

    def _unread_failure(self, state: State) -> str:
        """A failure that nobody has read before a state, as it is said beside that; or nothing."""
        failure = self.state.failure
        by_now = self._read_at if self._under_way else self._clock()
        is_read = not self._reading or self._is_seen_by(by_now)
        if is_read or failure not in self._said:
            return ""
        is_before = self._said.startswith(_BEFORE_KEYS) or _spot(state) != self._said_of
        return f"{_BEFORE_KEYS}{failure}" if is_before else failure

    def _heard(self, state: State) -> State:
        """The state with what is said of it, after a failure that nobody has read yet."""
        if not state.message or state.message == self._said:
            return state
        unread = self._unread_failure(state)
        if unread and self.state.failure not in state.message:
            now = f" {_NOW}" if unread.startswith(_BEFORE_KEYS) else ""
            both = saying_first(f"{unread}{now}", state)
            # neither of two failures is read yet
            state = replace(both, failure=both.message) if state.says_failure else both
        self._note_said(state.message, state)
        self._reading = READING_SECONDS if state.says_failure else 0.0
        return state

    def _note_said(self, sentence: str, state: State) -> None:
        """Notes what is said, until it was on the screen as a key came."""
        self._said, self._said_of, self._said_at = sentence, _spot(state), math.inf

    def _not_begun(self) -> list[Stroke]:
        """The keys that wait, with the one that is carried out unless it is a command by a letter."""
        first, *others = self._under_way
        is_command = self.state.typed is None and isinstance(first, str)
        return others if is_command and is_text(str(first)) else [first, *others]

    def _carry_out(self, stroke: Stroke) -> None:
        if self.state.away or self.state.is_over:
            # what is pasted meanwhile is no key that does nothing, nor what is typed to the end, nor
            # after pasted lines
            is_typed_on = self.state.is_over or isinstance(self.state.away, TypeAll)
            if isinstance(stroke, Pasted) or is_typed_on:
                self._waiting.append(stroke)
        elif isinstance(stroke, Pasted):
            self._paste(stroke)
        elif self._is_unread_offer and stroke == UNREAD:
            self._become(self.state.saying(_TOO_SOON).after(self.state))
        elif stroke == UNREAD and not self._asked:
            self._become(self.state.saying(_UNSEEN).after(self.state))
        elif self._is_typed_on(stroke):
            self._become(self._desk.paste(self.state, stroke))
        else:
            self._become(self._desk.press(self.state, stroke))

    def _paste(self, text: Pasted) -> None:
        """Takes in a text. What was typed at an offer is kept at each moment, and once."""
        if self._arrivals.is_unread:
            # all of it: the same text, set aside, takes its place
            self._desk.keep_unread(unread_of(self.state, [text], True))
        state = self._desk.paste(self.state, text.text, text.is_keys)
        # what came of it before its end is kept by itself no more
        self._desk.keep_unread(None)
        self._become(state if text.has_end else state.saying_too(_NO_END))

    @property
    def _asked(self) -> object:
        """What waits for an answer: a question, or what to do once the book is closed."""
        return self.state.is_lost or self.state.question

    @property
    def _is_offer(self) -> bool:
        """Whether something is offered for which no key has asked."""
        question = self.state.question
        return question is not None and question.is_offer or self.state.is_lost

    @property
    def _is_unread_offer(self) -> bool:
        """Whether something is offered that was not there to be read before the last key."""
        return self._is_offer and not self._question.is_read_of(self._asked)

    def _begin_text(self, strokes: Sequence[Stroke]) -> bool:
        """Whether keys begin a text at what is offered, since the first is no answer to it."""
        first = strokes[0] if strokes and self._is_offer else None
        is_letter = isinstance(first, str) and is_text(first)
        return is_letter and not is_obeyed(self.state, str(first))

    def _is_typed_on(self, key: str) -> bool:
        """Whether a key that answers a question about what is typed came too soon, and is a letter."""
        question = self.state.question
        if (
            question is None
            or self._question.is_read_of(question)
            or key not in ("y", "n")
        ):
            return False
        return bool(question.lines) or question.parts is not None

    @property
    def _is_told_to_end(self) -> bool:
        return self.ended_by is not None or self.is_hung_up

    def _wait_for_held(self) -> None:
        if self._timer is not None:
            self._timer.cancel()
        dues = [due for due in (self._arrivals.due, self._lull.due) if due is not None]
        self._timer = None
        if dues:
            wait = max(0.0, min(dues) - self._clock())
            self._timer = asyncio.get_running_loop().call_later(wait, self._let_go)

    def _become(self, state: State) -> None:
        if state.away:
            # that it has to be waited for isn't so any more once that is done
            self._said = self._unread_failure(state)
            self._said_at = math.inf if self._said else 0.0
        else:
            state = self._heard(state)
        self.state = state
        if state.is_over:
            self._app.exit()
        elif state.away:
            self._unwatch()
            self._app.create_background_task(self._go_away())
        else:
            self._watch()
            self._look_ahead()
        self._app.invalidate()

    def _waits(self) -> None:
        """Says that the program doesn't answer, while no key can act; a signal ends the waiting."""
        if not self.state.away and self._app.is_running and self._app.loop is not None:
            # a terminal that is closed has nothing any more
            self._unread += self._input.rest()
            self._app.loop.call_soon(self._take_in)
        is_told = self._is_told_to_end
        # an export and an import end between their own steps, and the book is opened again then
        if is_told and not isinstance(self.state.away, ExportTo | ImportFrom):
            raise Interrupted(self.ended_by or signal.SIGHUP)
        if is_told:
            self._desk.hasten()
        if not self._app.is_running:
            self._say_waiting()
        elif self.state.away and self._app.loop is not None:
            # what is done beside the screen waits
            self._app.loop.call_soon_threadsafe(self._say, WAITING)
        else:
            self._say_at_once(f"{WAITING} {self._keep_unread()}".rstrip())

    def _say_at_once(self, sentence: str) -> None:
        """Shows a sentence while no key can act."""
        if self.state.message != sentence:
            self.state = self.state.saying(sentence)
            # what was drawn last isn't kept
            self._app.render_counter += 1
            self._app.renderer.render(self._app, self._app.layout)

    async def _go_away(self) -> None:
        """Does what needs the session closed beside the terminal, which goes on."""
        loop = asyncio.get_running_loop()

        def report(line: str) -> None:
            # the screen may be gone before the work is ended
            with suppress(RuntimeError):
                loop.call_soon_threadsafe(self._say, line)

        begun = self.state
        self._aside = self._worker.submit(self._desk.away, begun, report)
        # if the screen ends meanwhile, the work is waited for and not given up
        state = await asyncio.shield(asyncio.wrap_future(self._aside))
        self._desk.take_over()
        self._become(state.after(begun))
        waiting, self._waiting = self._waiting, []
        self._do(waiting)
        self._desk.keep_unread(None)

    def _say(self, line: str) -> None:
        if self.state.away:
            self.state = self.state.saying(line)
            self._app.invalidate()

    def _look_ahead(self) -> None:
        """Translates what is typed, if it isn't that already."""
        typed, preview = self.state.shown, self.state.preview
        if typed is None or not typed.purpose.is_print or self._translates:
            return
        if preview is None or preview.text != typed.text:
            self._translates = True
            self._app.create_background_task(self._translate())

    async def _translate(self) -> None:
        asked = self.state
        typed = asked.shown
        if typed is not None:
            words = preview_of(asked, typed)
            loop = asyncio.get_running_loop()
            preview = await loop.run_in_executor(
                None, self._desk.tables.preview, *words
            )
            self.state = with_preview(self.state, asked, preview)
        self._translates = False
        self._look_ahead()
        self._app.invalidate()

    async def _keep(self) -> None:
        """Keeps what is typed, and where the cursor rests, again and again."""
        before, loop = self.state, asyncio.get_running_loop()
        while True:
            await asyncio.sleep(_SAVE_SECONDS)
            state = self.state
            is_unread = bool(state.away) or self._arrivals.holds_unread
            is_pasting = self._keyboard.is_pasting and not is_unread
            # lines that are typed beside the screen are kept there, and here what comes after them
            if is_unread:
                self._keep_unread()
            elif is_pasting:
                self._keep_paste(state)
            if state.typed and not (state.away or is_pasting):
                self._begin_work()
                kept = self._desk.save_draft(state)
                if kept is not state:
                    self._app.invalidate()
                self.state = kept
                self._end_work()
            if state.typed or state is before:
                # a slow disk holds up no key
                await loop.run_in_executor(None, self._desk.keep_place, state)
            before = self.state
            await loop.run_in_executor(None, self._desk.typed_last.keep)

    def _keep_paste(self, state: State) -> None:
        """Keeps what is typed with what came of a paste by now; what isn't part of it is kept by itself."""
        rest = rest_of(state, copy(self._keyboard).rest())
        self._desk.keep_unread(unread_of(rest.state, rest.aside, True))
        if state.typed:
            self._begin_work()
            self._desk.keep_so_far(rest.state)
            self._end_work()

    def _fail(self, loop: asyncio.AbstractEventLoop, context: dict[str, Any]) -> None:
        """What a key, or what goes on beside the keys, failed by.

        A terminal that is gone ends all; what the system refused is said, and the work goes on; a
        fault of scribe ends it.
        """
        cause = context.get("exception")
        if isinstance(cause, HungUp):
            self._hang_up()
        elif isinstance(cause, OSError):
            self.state = self.state.saying(of_system(cause))
            self._app.invalidate()
        elif not isinstance(cause, Exception):
            loop.default_exception_handler(context)
        elif self._app.is_running and not self.state.is_over:
            self.state = replace(self.state, is_over=True)
            self._app.exit(exception=cause)

    def _stop_aside(self) -> None:
        """Has what is done with the session closed end before its next step."""
        if self.state.away:
            self._desk.stop(self.ended_by or signal.SIGHUP)

    def _hang_up(self) -> None:
        self.is_hung_up = True
        self._leave()

    def _leave(self) -> None:
        """What ends scribe from outside: what is typed is kept."""
        self._stop_aside()
        self._unread += self._input.rest()
        if not self.state.away:
            self.state = self._desk.saved(self.state)
        # a terminal that is closed and a shell that ends may both send a signal
        if not self.state.is_over:
            self.state = replace(self.state, is_over=True)
            if self._app.is_running:
                self._app.exit()

    def _watch(self) -> None:
        """Watches the session, so that its end is seen when it comes."""
        if self.state.is_lost or self._watched is not None:
            return
        self._watched = os.pidfd_open(self._desk.pid)
        asyncio.get_running_loop().add_reader(self._watched, self._ended)

    def _unwatch(self) -> None:
        if self._watched is not None:
            asyncio.get_running_loop().remove_reader(self._watched)
            os.close(self._watched)
            self._watched = None

    def _ended(self) -> None:
        self._unwatch()
        if not self.state.is_lost and not self.state.is_over:
            with suppress(Interrupted):
                self._become(self._desk.lost(self.state))


def _spot(state: State) -> tuple[object, ...]:
    """Of what a sentence is said: of the book as it is, of a place in it, and of what is typed, if anything is."""
    return state.version, state.chosen, state.place, state.typed is None
