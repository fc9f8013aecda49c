"""Somebody who sits at a book: presses keys, and reads the lines, without a terminal."""

from collections.abc import Callable
from dataclasses import dataclass

from scribe.screen.desk import Desk
from scribe.screen.drawing import draw
from scribe.screen.lines import BOTH, HIGHLIGHTED
from scribe.screen.state import State


@dataclass
class Sat:
    """A desk, and the state that its screen shows."""

    desk: Desk
    state: State

    def press(self, *keys: str) -> None:
        """Presses keys, each by its name or its character."""
        for key in keys:
            self.state = self.desk.press(self.state, key)

    def write(self, text: str) -> None:
        """Types a text."""
        self.press(*text)

    @property
    def lines(self) -> list[str]:
        """The lines of the screen."""
        return draw(self.state).texts()

    @property
    def highlighted(self) -> list[str]:
        """What is highlighted, in its order."""
        lines = draw(self.state).lines
        return [
            each.text
            for line in lines
            for each in line
            if each.look in (BOTH, HIGHLIGHTED)
        ]


#: What sits down at a book: a path, the name of a proofreader, and the size of the screen.
Sit = Callable[..., Sat]
