"""Keys, read from the characters that a terminal sends for them.

A key with Alt comes as Escape and the key, and any other key that isn't a character as a sequence
that begins with Escape. So no sequence is ever read as Escape and the letters after it: one that
isn't known is a key that isn't known.
"""

import re
from dataclasses import dataclass

#: A key that isn't known. It is bound to nothing.
UNKNOWN = "unknown"
_ESCAPE = "\x1b"
_PASTE, _PASTE_END = "\x1b[200~", "\x1b[201~"
# that of a paste of which the end was waited for no longer is no key
_LATE_ENDS = re.compile(r"\A(?:\x1b\[201~)+")
# Escape once, or again for Alt, and: a function key of the Linux console; a control sequence, to
# its last character or to where it breaks off; a key of the keypad's kind; any character
_KEY = re.compile(
    r"\x1b+(?:\[\[.|\[[0-?]+[ -#%-/]*[$@-~]?|\[[@-Z\\-~]|O[0-9;]*[!-~]|[^\x1b])",
    re.DOTALL,
)
# what may go on: a sequence of which the last character isn't there yet
_FRONT = re.compile(r"\x1b+(?:\[\[?|\[[0-?]+[ -#%-/]*|O[0-9;]*)?")
# the parts of a sequence: a number, another one or a modifier, and its last character
_PARTS = re.compile(r"([\[O]\[?)(\d{0,4})(?:;(\d{1,4}))?([^\d;])", re.DOTALL)
_LETTERED = {
    "A": "up",
    "B": "down",
    "C": "right",
    "D": "left",
    "F": "end",
    "H": "home",
    "P": "f1",
    "Q": "f2",
    "R": "f3",
    "S": "f4",
    "Z": "s-tab",
}
_CONSOLE = {"A": "f1", "B": "f2", "C": "f3", "D": "f4", "E": "f5"}
_NUMBERED = dict(
    enumerate(
        "home insert delete end pageup pagedown home end . . f1 f2 f3 f4 f5 . f6 f7 f8 f9 f10 ."
        " f11 f12 f13 f14 . f15 f16 . f17 f18 f19 f20".split(),
        1,
    )
)
# Control and Shift as rxvt has them: the last character of a key with a number
_RXVT = {"~": "", "^": "c-", "$": "s-", "@": "c-s-"}
_CONTROLS = {"\r": "enter", "\n": "enter", "\t": "tab", "\x08": "backspace"}
_CONTROLS |= {"\x7f": "backspace", _ESCAPE: "escape"}


# so much of a text that is pasted is waited for, in characters
_MOST = 1 << 22
# what is no text in a paste of which nobody knows where it ended: keys that were pressed after it
_NO_TEXT = re.compile(rf"{_KEY.pattern}|[\x00-\x08\x0b\x0c\x0e-\x1f\x7f]", re.DOTALL)


@dataclass(frozen=True)
class Pasted:
    """A text that was pasted, and whether its end came too."""

    text: str
    has_end: bool = True
    #: Whether it came as keys, so that an ending of it may be an Enter that hands pressed.
    is_keys: bool = False


#: A key by its name or its character, or a pasted text.
Stroke = str | Pasted


class Keyboard:
    """Cuts characters into keys, however they come."""

    def __init__(self) -> None:
        self._rest = ""

    @property
    def is_pasting(self) -> bool:
        """Whether the end of a text that is pasted hasn't come yet."""
        return self._rest.startswith(_PASTE)

    def strokes(self, text: str) -> list[Stroke]:
        """The keys that are there whole, once more characters have come."""
        self._rest += text
        found: list[Stroke] = []
        while (stroke := self._next()) is not None:
            found.append(stroke)
        return found + (self.end_paste() if len(self._rest) > _MOST else [])

    def end_paste(self) -> list[Stroke]:
        """What came of a paste whose end isn't waited for any longer; what comes next is keys."""
        if not self.is_pasting:
            return []
        text, self._rest = self._rest.removeprefix(_PASTE), ""
        return [Pasted(_NO_TEXT.sub("", text), has_end=False)]

    def last(self) -> list[Stroke]:
        """The key that waits for more characters, if none come: Escape, or one with Alt."""
        rest = self._rest
        if not rest or rest.startswith(_PASTE):
            return []
        self._rest = ""
        return ["escape" if not rest.strip(_ESCAPE) else named(rest)]

    def rest(self) -> list[Stroke]:
        """What came of a paste whose end didn't come, if nothing comes any more."""
        rest, self._rest = self._rest, ""
        if not rest.startswith(_PASTE):
            return []
        text = rest.removeprefix(_PASTE)
        for count in range(len(_PASTE_END) - 1, 0, -1):
            text = text.removesuffix(_PASTE_END[:count])
        return [Pasted(text)]

    def _next(self) -> Stroke | None:
        self._rest = rest = _LATE_ENDS.sub("", self._rest)
        if not rest:
            return None
        if rest.startswith(_PASTE):
            return self._pasted()
        if rest[0] != _ESCAPE:
            self._rest = rest[1:]
            return _character(rest[0])
        if rest.lstrip(_ESCAPE).startswith(_PASTE[1:]):
            self._rest = _PASTE + rest.partition(_PASTE)[2]
            return "escape"
        found = _KEY.match(rest)
        if found is None or _FRONT.fullmatch(rest):
            return None
        self._rest = rest[found.end() :]
        return named(found.group())

    def _pasted(self) -> Pasted | None:
        text, end, rest = self._rest.partition(_PASTE_END)
        if not end:
            return None
        self._rest = rest
        return Pasted(text.removeprefix(_PASTE))


def named(sequence: str) -> str:
    """The name of the key for which a sequence comes that begins with Escape."""
    body = sequence.lstrip(_ESCAPE)
    if len(body) == 1:
        return "a-" + _character(body)
    parts = _PARTS.fullmatch(body)
    if parts is None:
        return UNKNOWN
    kind, number, modifier, last = parts.groups()
    name = _base(kind, number, last)
    if name is None:
        return UNKNOWN
    held = int(modifier or (number if last not in _RXVT else "") or 1) - 1
    has_alt = held & 10 or len(sequence) - len(body) > 1
    return "a-" * bool(has_alt) + "c-" * bool(held & 4) + "s-" * (held & 1) + name


def _base(kind: str, number: str, last: str) -> str | None:
    """A key without what is held down with it, if it is known."""
    if kind == "[[":
        return _CONSOLE.get(last)
    if kind == "[" and last in _RXVT:
        name = _NUMBERED.get(int(number or 0), ".")
        return None if name == "." else _RXVT[last] + name
    # Control in rxvt after O, and Shift after the bracket
    if last in "abcd":
        return ("c-" if kind == "O" else "s-") + _LETTERED[last.upper()]
    is_keypad = kind == "O" and last == "M"
    return "enter" if is_keypad else _LETTERED.get(last)


def _character(character: str) -> str:
    """A key that comes as one character: itself, or its name."""
    if character in _CONTROLS:
        return _CONTROLS[character]
    if character < " ":
        return "c-" + chr(ord(character) + 0x40).lower()
    return character
