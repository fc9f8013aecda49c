"""The window as a screen reader has it, by AT-SPI, and its keys as a keyboard sends them."""

import os
import subprocess
import sys
import time
from collections.abc import Callable, Iterator, Sequence
from contextlib import contextmanager, suppress
from pathlib import Path
from typing import Any, TypeVar

import gi  # type: ignore[import]

gi.require_version("Atspi", "2.0")
from gi.repository import Atspi, GLib  # type: ignore[import]  # noqa: E402

# a window answers late on a machine that has other work; the bus gives up after 0.8 seconds by itself
_ANSWER_MILLISECONDS = 60_000
Atspi.set_timeout(_ANSWER_MILLISECONDS, _ANSWER_MILLISECONDS)

Found = TypeVar("Found")
#: A part of a window, as the bus has it; there are no types of it.
Part = Any

_KEYS = {
    "Return": 0xFF0D,
    "Tab": 0xFF09,
    "Escape": 0xFF1B,
    "Delete": 0xFFFF,
    "BackSpace": 0xFF08,
    "Home": 0xFF50,
    "Left": 0xFF51,
    "Up": 0xFF52,
    "Right": 0xFF53,
    "Down": 0xFF54,
    "End": 0xFF57,
    **{f"F{number}": 0xFFBD + number for number in range(1, 13)},
}
_MASKS = {"Shift": 1 << 0, "Ctrl": 1 << 2, "Alt": 1 << 3}
# how long a state is waited for; a test that holds never waits so long
PATIENCE_SECONDS = float(os.environ.get("PATIENCE", "120"))
_PACE_SECONDS = 0.02
# by how many steps something is dragged, and how many it stays where it is dropped then
_STEPS = 12
# the roles of parts that a window has from its front to its end, by names that stay
_LASTING = ("text", "table")

#: What is told on the bus of the part that takes the focus, and of one in which another text is selected.
FOCUS, SELECTION = "object:state-changed:focused", "object:text-selection-changed"
#: What is told of a text that comes into a part.
INSERTED = "object:text-changed:insert"
#: What is told of a caret that moves.
CARET = "object:text-caret-moved"
_TOLD = (FOCUS, CARET, SELECTION)

#: States of parts.
EDITABLE, FOCUSABLE = Atspi.StateType.EDITABLE, Atspi.StateType.FOCUSABLE


class Missed(AssertionError):
    """Something didn't come about in time."""


class Reader:
    """A window of scribe, its tree on the accessibility bus, and a keyboard."""

    def __init__(
        self,
        book: Path | None,
        *words: str,
        under: Sequence[str] = (),
        **settings: str,
    ) -> None:
        its = [] if book is None else [str(book)]
        self.program = subprocess.Popen(
            [*under, sys.executable, "-m", "scribe", "window", *its, *words],
            env={**os.environ, **settings},
            stdout=subprocess.PIPE,
            stderr=subprocess.PIPE,
        )
        self.began = time.monotonic()
        self.top: Part = None
        # parts that are there as long as the window, found once
        self._lasting: dict[tuple[str, str], Part] = {}

    def until(self, what: str, found: Callable[[], Found | None]) -> Found:
        """What is found, as soon as it is."""
        end = time.monotonic() + PATIENCE_SECONDS
        while True:
            try:
                there = found()
            except GLib.Error:
                # a part that went while it was looked at
                there = None
            if there:
                return there
            if time.monotonic() > end:
                raise Missed(f"{what} isn't there; the window has {self.described()}")
            if self.program.poll() is not None:
                _, errors = self.program.communicate()
                raise Missed(f"{what} isn't there; scribe ended: {errors.decode()}")
            _let_events_come()

    def opened(self) -> "Reader":
        """The window, once it is there and has the keyboard."""
        self.top = self.until("the window", self._active)
        return self

    def _windows(self) -> Iterator[Part]:
        desktop = Atspi.get_desktop(0)
        for number in range(desktop.get_child_count()):
            its = desktop.get_child_at_index(number)
            if its and its.get_process_id() == self.program.pid:
                yield from children(its)

    def _active(self) -> Part:
        active = Atspi.StateType.ACTIVE
        found = (each for each in self._windows() if has(each, active))
        return next(found, None)

    def dialog(self, title: str, words: str = "") -> Part:
        """The window over the first one that has a title, once it has the keyboard.

        It asks in some words, where the one before it had the same title.
        """

        def found() -> Part:
            active = self._active()
            if active is None or active.get_name() != title:
                return None
            is_it = not words or within(active, "label", words) is not None
            return active if is_it else None

        its: Part = self.until(f"the dialog {title} {words}", found)
        return its

    def no_dialog(self) -> None:
        """Waits until the window of the book has the keyboard."""

        def is_there() -> bool:
            active = self._active()
            return active is not None and bool(active.get_role_name() == "frame")

        self.until("the window of the book", is_there)

    def part(self, role: str, name: str, top: Part = None) -> Part:
        """The part that has a role and a name."""
        known = None if top else self._lasting.get((role, name))
        if known is not None:
            return known

        def found() -> Part:
            return within(top or self.top, role, name)

        its: Part = self.until(f"{role} {name}", found)
        if top is None and role in _LASTING:
            self._lasting[role, name] = its
        return its

    def first(self, role: str, top: Part) -> Part:
        """The first part within another one that has a role."""

        def found() -> Part:
            roles = (each for each in all_within(top) if each.get_role_name() == role)
            return next(roles, None)

        its: Part = self.until(f"a {role}", found)
        return its

    def text(self, name: str) -> str:
        """The text of a field."""
        return text_of(self.part("text", name))

    def text_in(self, part: Part) -> str:
        """The text of a part that was found."""
        return text_of(part)

    def reads(self, name: str, text: str) -> None:
        """Waits until a field has a text."""
        field = self.part("text", name)
        self._same(f"the text of {name}", lambda: text_of(field), text)

    def says(self, part: str) -> None:
        """Waits until the message has some words."""
        field = self.part("text", "Message")
        self.until(f"“{part}” in the message", lambda: part in text_of(field))

    def caret(self, name: str, place: int) -> None:
        """Waits until the caret of a field stands at a place."""
        field = self.part("text", name)
        self._same(f"the caret of {name}", field.get_caret_offset, place)

    def selects(self, name: str, text: str) -> None:
        """Waits until a text is selected in a field."""
        self._same(f"what {name} selects", lambda: self.selected(name), text)

    def selected(self, name: str) -> str:
        """What is selected in a field."""
        field = self.part("text", name)
        if not Atspi.Text.get_n_selections(field):
            return ""
        its = Atspi.Text.get_selection(field, 0)
        return str(Atspi.Text.get_text(field, its.start_offset, its.end_offset))

    def rows(self) -> int:
        """How many paragraphs the table has."""
        return int(Atspi.Table.get_n_rows(self.part("table", "Paragraphs")))

    def row(self, row: int) -> Part:
        """The cell of the table that has the first words of a paragraph."""
        table = self.part("table", "Paragraphs")
        return Atspi.Table.get_accessible_at(table, row, 3)

    def cell(self, row: int) -> str:
        """How a paragraph is read in the table."""
        number, kind, marks, words = self.cells(row)
        flags = ", ".join(filter(None, (f"{number} {kind}", marks)))
        return f"{flags}: {words}"

    def cells(self, row: int) -> list[str]:
        """What is in each cell of a row of the table."""
        return [str(each.get_name()) for each in self._cells(row)]

    def about(self, row: int) -> list[str]:
        """What is told of each cell of a row besides what it has."""
        return [str(each.get_description() or "") for each in self._cells(row)]

    def _cells(self, row: int) -> Iterator[Part]:
        table, count = self.part("table", "Paragraphs"), 4
        return (Atspi.Table.get_accessible_at(table, row, n) for n in range(count))

    def lists(self, row: int, words: str) -> None:
        """Waits until a paragraph is read so in the table."""
        self._same(f"row {row}", lambda: self.cell(row), words)

    def _same(self, what: str, found: Callable[[], object], wanted: object) -> None:
        try:
            self.until(what, lambda: found() == wanted)
        except Missed as missed:
            raise Missed(f"{what} is {found()!r}, not {wanted!r}") from missed

    def focus(self, role: str, name: str) -> None:
        """Waits until a part has the keyboard."""
        focused, part = Atspi.StateType.FOCUSED, self.part(role, name)
        self.until(f"the focus on {role} {name}", lambda: has(part, focused))

    def press(self, *keys: str) -> None:
        """Presses keys, with what is held, through the X server as a keyboard would."""
        for each in keys:
            *held, key = each.split("+")
            mask = sum(_MASKS[name] for name in held)
            if mask:
                _generate(mask, Atspi.KeySynthType.LOCKMODIFIERS)
            _generate(_KEYS.get(key) or ord(key), Atspi.KeySynthType.SYM)
            if mask:
                _generate(mask, Atspi.KeySynthType.UNLOCKMODIFIERS)

    def type(self, text: str) -> None:
        """Types a text where the caret is."""
        for each in text:
            _generate(ord(each), Atspi.KeySynthType.SYM)

    def insert(self, name: str, text: str) -> None:
        """Puts a text into a field over the bus, as a screen reader may."""
        self.insert_in(self.part("text", name), text)

    def insert_in(self, field: Part, text: str) -> None:
        """Puts a text into a part that was found."""
        Atspi.EditableText.set_text_contents(field, text)

    def click(self, part: Part) -> None:
        """Does what a click on a part does."""
        Atspi.Action.do_action(part, 0)

    def click_at(self, part: Part) -> None:
        """Clicks in the middle of a part with the mouse."""
        at = Atspi.Component.get_extents(part, Atspi.CoordType.SCREEN)
        x, y = at.x + at.width // 2, at.y + at.height // 2
        Atspi.generate_mouse_event(x, y, "b1c")

    def choose(self, menu: str, item: str) -> None:
        """Clicks on a menu with the mouse, and on an item of it."""
        self.click_at(self.shown("menu item", menu))
        self.click_at(self.shown("menu item", item))

    def click_on(self, name: str, place: int) -> None:
        """Clicks with the mouse before a character of a field."""
        x, y = self._at(name, place)
        Atspi.generate_mouse_event(x, y, "b1c")

    def drag_over(self, name: str, start: int, stop: int) -> None:
        """Selects characters of a field with the mouse."""
        for place, what in ((start, "b1p"), (stop, "abs"), (stop, "b1r")):
            x, y = self._at(name, place)
            Atspi.generate_mouse_event(x, y, what)
            _let_events_come()

    def drag(self, start: tuple[int, int], part: Part) -> None:
        """Drags what is at a place of the screen into the middle of a part, slowly, and drops it there."""
        at = Atspi.Component.get_extents(part, Atspi.CoordType.SCREEN)
        self._drag(start, (at.x + at.width // 2, at.y + at.height // 2))

    def drag_out(self, name: str, place: int, stop: tuple[int, int]) -> None:
        """Drags what is at a character of a field to a place of the screen, slowly."""
        self._drag(self._at(name, place), stop)

    def drag_within(self, name: str, start: int, stop: int) -> None:
        """Drags what is at a character of a field to another one, slowly."""
        self._drag(self._at(name, start), self._at(name, stop))

    def _drag(self, start: tuple[int, int], stop: tuple[int, int]) -> None:
        Atspi.generate_mouse_event(*start, "abs")
        Atspi.generate_mouse_event(*start, "b1p")
        for step in range(1, 2 * _STEPS):
            x, y = (
                a + (b - a) * min(step, _STEPS) // _STEPS for a, b in zip(start, stop)
            )
            Atspi.generate_mouse_event(x + step % 2, y, "abs")
            _let_events_come()
        Atspi.generate_mouse_event(*stop, "b1r")

    def _at(self, name: str, place: int) -> tuple[int, int]:
        """Where the front of a character of a field is seen."""
        field, screen = self.part("text", name), Atspi.CoordType.SCREEN
        its = Atspi.Text.get_character_extents(field, place, screen)
        return its.x + 1, its.y + its.height // 2

    def shown(self, role: str, name: str) -> Part:
        """A part, once it is seen."""
        showing = Atspi.StateType.SHOWING
        part = self.part(role, name)
        self.until(f"{role} {name}, shown", lambda: has(part, showing))
        return part

    def end(self) -> int:
        """The status of the window that is being closed."""
        try:
            return self.program.wait(PATIENCE_SECONDS)
        finally:
            self.kill()

    def kill(self) -> None:
        """Kills it, if it is still there."""
        if self.program.poll() is None:
            self.program.kill()
        self.program.communicate()

    def described(self) -> str:
        """What the window has, for those who look for what is missing."""
        parts = []
        for top in self._windows():
            parts.append(f"{top.get_role_name()} {top.get_name()!r}")
            parts += [
                f"{each.get_role_name()} {each.get_name()!r} {text_of(each)!r}"
                for each in all_within(top)
                if each.get_role_name() in ("text", "label", "push button")
            ]
        return "; ".join(parts)


def children(part: Part) -> list[Part]:
    """The parts of a part."""
    found = (part.get_child_at_index(n) for n in range(part.get_child_count()))
    return [each for each in found if each]


def all_within(top: Part) -> Iterator[Part]:
    """A part and all within it, without the cells of tables."""
    yield top
    if not has(top, Atspi.StateType.MANAGES_DESCENDANTS):
        for each in children(top):
            yield from all_within(each)


def within(top: Part, role: str, name: str) -> Part:
    """The part within another one that has a role and a name, if it is there."""
    found = (
        each
        for each in all_within(top)
        if each.get_role_name() == role and each.get_name() == name
    )
    return next(found, None)


def has(part: Part, state: Part) -> bool:
    """Whether a part is in a state."""
    return bool(part.get_state_set().contains(state))


def text_of(part: Part) -> str:
    """The text of a part; nothing where it has none."""
    if part.get_text_iface() is None:
        return ""
    return str(Atspi.Text.get_text(part, 0, Atspi.Text.get_character_count(part)))


@contextmanager
def hearing(kinds: Sequence[str] = _TOLD) -> Iterator[list[tuple[str, str]]]:
    """What is told on the bus of parts with the focus and of texts, in order, each with the part's name."""
    found: list[tuple[str, str]] = []

    def take(event: Part, *_: object) -> None:
        # that a part has the focus no more is told too
        if event.type != FOCUS or event.detail1:
            found.append((event.type, event.source.get_name()))

    listener = Atspi.EventListener.new(take)
    for kind in kinds:
        listener.register(kind)
    _wait_until_known()
    try:
        yield found
    finally:
        for kind in kinds:
            listener.deregister(kind)


def _wait_until_known() -> None:
    """Waits until the windows of others know what is heard: each answers after it was told."""
    desktop = Atspi.get_desktop(0)
    for number in range(desktop.get_child_count()):
        its = desktop.get_child_at_index(number)
        if its and its.get_process_id() != os.getpid():
            with suppress(GLib.Error):
                its.get_toolkit_name()


def _generate(code: int, kind: Part) -> None:
    Atspi.generate_keyboard_event(code, None, kind)


def _let_events_come() -> None:
    context = GLib.MainContext.default()
    while context.iteration(False):
        pass
    time.sleep(_PACE_SECONDS)
