"""A day's work in short, step by step, as Orca listened to it and as a test does it again."""

from collections.abc import Callable, Mapping
from pathlib import Path

from braildesk import new_book
from braildesk.protocol.requests import Mark, Supply, Type

from reader import Reader

Step = Callable[[Reader], None]


def moon_book(path: Path) -> None:
    """A book of three paragraphs, with a fault that is marked."""
    new_book(
        path,
        holding=[
            Supply("en"),
            Type("end", "en", "The Moon"),
            Type("end", "en", "The mon is far away."),
            Type("end", "en", "Twice a day the sea comes up."),
            Mark(2, 5, 3, "spelled so?"),
        ],
    )


def _keys(*keys: str) -> Step:
    return lambda window: window.press(*keys)


def _typed(text: str) -> Step:
    return lambda window: window.type(text)


#: What is done, after the opening.
STEPS: Mapping[str, Step] = {
    "a move to the next paragraph": _keys("Down"),
    "to the next open mark": _keys("F4"),
    "a character to the right": _keys("Right"),
    "typing a letter": _typed("o"),
    "Enter keeps it": _keys("Return"),
    "F6 to the message": _keys("F6"),
    "Escape back to the print": _keys("Escape"),
    "to the mark again": _keys("F4"),
    "resolving the mark": _keys("Ctrl+r"),
    "to the braille": _keys("F8"),
    "a cell to the right": _keys("Right"),
    "to the print": _keys("F2"),
    "to the end": _keys("End"),
    "typing a sign that the table lacks": _typed("#"),
    "Enter is refused": _keys("Return"),
    "Escape from the message": _keys("Escape"),
    "Escape gives it up": _keys("Escape"),
    "asking for words": _keys("Ctrl+f"),
    "typing the words": _typed("sea"),
    "Enter finds them": _keys("Return"),
    "asking for a note": _keys("Ctrl+m"),
    "typing the note": _typed("which"),
    "Enter keeps the mark": _keys("Return"),
    "to the paragraphs": _keys("F5"),
    "making a heading": _keys("b"),
    "moving it up": _keys("Alt+Up"),
    "moving it up again": _keys("Alt+Up"),
    "moving it up where it is the first": _keys("Alt+Up"),
    "Escape back to the paragraphs": _keys("Escape"),
    "a new paragraph": _keys("Ctrl+Return"),
    "Escape leaves it": _keys("Escape"),
    "the page": _keys("Ctrl+p"),
    "all marks": _keys("Ctrl+Shift+M"),
    "a line on": _keys("Down"),
    "Enter goes there": _keys("Return"),
    "the keys": _keys("F1"),
    "Escape from the keys": _keys("Escape"),
    "export": _keys("Ctrl+e"),
    "Escape from export": _keys("Escape"),
    "taking back what was done last": _keys("Ctrl+z"),
}
