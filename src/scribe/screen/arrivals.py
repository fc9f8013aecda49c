"""Keys as they arrive, and text among them that no hands typed, which is taken as pasted.

A terminal that doesn't say what is pasted sends it as keys, all at once. If the letters acted, a
pasted line would strike paragraphs and move them.
"""

from collections.abc import Iterator, Sequence
from dataclasses import dataclass, field
from itertools import groupby, islice

from scribe.screen.keyboard import Pasted, Stroke

# a key that is held down comes again after 20 ms or more, and hands are slower
_TOGETHER_SECONDS = 0.015
# what is pasted over a slow line comes in pieces
_PASTE_SECONDS = 0.05
# keys that waited while the desk was busy are typed if there was so much time for each
_TYPED_SECONDS = 0.04
# how long a paste is waited for once no more of it comes
_LULL_SECONDS = 3.0
#: How long a question is on the screen, and no key comes, before one is an answer to it.
READING_SECONDS = 0.3
# hands that type on, and read nothing, stop for less time between two words
_PAUSE_SECONDS = 1.0
_FEW = 3
#: What comes in place of a key that was pressed before what is offered could be read.
UNREAD = "unread"
_TEXT = {"enter": "\n", "tab": "\t"}


@dataclass
class Arrivals:
    """Keys in their order: each by itself, or together as a text that was pasted.

    Characters, Enter and Tab are held until it is seen whether others come with them. Times are in
    seconds, of any clock that only goes on.
    """

    #: Whether something is offered that nobody has read: no key is meant for it, and what hands type
    #: until they pause is one text.
    is_unread: bool = False
    _held: list[str] = field(default_factory=list)
    _latest: float = 0.0

    @property
    def holds_unread(self) -> bool:
        """Whether a text is held that hands type at what is offered, since they made no pause yet."""
        return self.is_unread and bool(self._held)

    @property
    def due(self) -> float | None:
        """The time at which nothing more comes with what is held; None if nothing is."""
        if not self._held:
            return None
        if self.is_unread:
            is_text = _is_text_of_hands(self._held)
            return self._latest + (_PAUSE_SECONDS if is_text else READING_SECONDS)
        is_text = _is_pasted(self._held)
        return self._latest + (_PASTE_SECONDS if is_text else _TOGETHER_SECONDS)

    def came(
        self, strokes: Sequence[Stroke], now: float, busy_since: float | None = None
    ) -> list[Stroke]:
        """What is to be done once keys have come.

        They may have waited since a time, while the desk was busy. If there was time enough to
        type each of them, they were typed.
        """
        done = self.let_go(now if busy_since is None else busy_since)
        least = _TYPED_SECONDS * len(list(_presses(strokes)))
        is_typed = busy_since is not None and now - busy_since >= least
        for stroke in strokes:
            if isinstance(stroke, Pasted) or not is_text(stroke):
                done += [*self._judged(), stroke]
            elif is_typed and not self.is_unread:
                done += [*self._judged(), stroke]
            else:
                self._held.append(stroke)
                self._latest = now
        return done

    def hold(self, strokes: Sequence[Stroke], now: float) -> list[Stroke]:
        """What is to be done of keys that came before something was offered that nobody has read.

        The text at their end is held with what comes after it.
        """
        later, self._held, self.is_unread = self._held, [], True
        done = self.came(strokes, now)
        self._held += later
        return done

    def let_go(self, now: float) -> list[Stroke]:
        """What was held, if nothing more comes with it."""
        due = self.due
        return self._judged() if due is not None and now >= due else []

    def rest(self) -> list[Stroke]:
        """What is held, if nothing comes any more."""
        return self._judged()

    def _judged(self) -> list[Stroke]:
        held, self._held = self._held, []
        if not (self.is_unread or _is_pasted(held)):
            return list(held)
        if self.is_unread and not _is_text_of_hands(held):
            return [UNREAD] if held else []
        return [Pasted("".join(map(text_of, held)), is_keys=True)]


def _is_text_of_hands(held: Sequence[str]) -> bool:
    """Whether keys are more than one that was pressed as an answer, however often."""
    return len(set("".join(map(text_of, held)).strip())) > 1


@dataclass
class Lull:
    """A paste whose end doesn't come: it is over once keys alone come for some time, or nothing.

    A terminal that breaks off in the middle would have each key be text of the paste for good.
    """

    #: The time at which the paste is over; None where nothing is being pasted.
    due: float | None = None
    _latest: float = 0.0

    def came(self, characters: int, is_pasting: bool, now: float) -> None:
        """Characters came, all at once, after which a text is being pasted or isn't."""
        is_of_paste = characters > _FEW or now - self._latest < _PASTE_SECONDS
        self._latest = now
        if not is_pasting:
            self.due = None
        elif is_of_paste or self.due is None:
            self.due = now + _LULL_SECONDS

    def is_over(self, now: float) -> bool:
        """Whether the end of the paste isn't waited for any longer."""
        return self.due is not None and now >= self.due


@dataclass
class ToBeRead:
    """What is asked on the screen, and whether there was time to read it before a key came.

    Hands that don't read it type on, and are faster.
    """

    _read: object = None
    _asked: object = None
    _since: float = 0.0

    def drawn(self, asked: object, now: float) -> None:
        """The screen was drawn with what is asked, if anything is."""
        if asked != self._asked:
            self._asked, self._since = asked, now

    def came(self, asked: object, pressed_at: float, before: float) -> None:
        """Keys came, which may have been pressed at a time, and others came before that."""
        pause = pressed_at - max(before, self._since)
        is_read = asked == self._asked and pause >= READING_SECONDS
        self._read = asked if is_read else None

    def is_read_of(self, asked: object) -> bool:
        """Whether there was time for it, if it was asked before the keys came."""
        return asked == self._read


def _is_pasted(held: Sequence[str]) -> bool:
    """Whether keys that came together are more than hands press at once."""
    return len(list(islice(_presses(held), _FEW + 1))) > _FEW


def _presses(strokes: Sequence[Stroke]) -> Iterator[Stroke]:
    """The keys that were pressed: one that is held down comes again and again."""
    return (key for key, _ in groupby(strokes))


def is_text(key: str) -> bool:
    """Whether a key stands for text that is typed."""
    return key in _TEXT or len(key) == 1


def text_of(stroke: Stroke) -> str:
    """The text of a key or of what was pasted; nothing if it stands for none."""
    if isinstance(stroke, Pasted):
        return stroke.text
    return _TEXT.get(stroke, stroke) if is_text(stroke) else ""
