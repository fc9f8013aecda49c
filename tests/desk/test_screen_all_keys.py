"""Each key once, at three sizes, and what a screen reader would say of the screen after each.

The files of the folder `screens` have the screens: after each line with keys the lines that changed,
in their order and with their numbers, and where the cursor stands. They are drawn without a terminal;
the first keys are pressed in one too. Those of 40 by 12 and 80 by 24 were written by hand, by what
the documents say of each key, and are changed by hand. With `SCREENS=write` in the environment those
of 200 by 60 are written as the screens are, to be read and compared by `git diff`.
"""

import os
from collections.abc import Iterator
from dataclasses import dataclass, field
from pathlib import Path

import pytest

from braildesk.text.wrapping import columns

from scribe.screen.drawing import draw
from scribe.screen.keys import KEYS
from scribe.screen.state import Size
from sitting import Sat, Sit
from terminal import Open

SCREENS = Path(__file__).with_name("screens")
#: How many of the steps are pressed in a terminal too: those along the paragraph and to others.
IN_TERMINAL = 26
#: The keys of each step; what is in quotation marks is typed.
STEPS = """
right
left
end
home
c-right
c-left
down
up
pagedown
pageup
c-end
c-home
g
'3' enter
tab
d
d
a
a
tab
c-home c-right
enter
delete 'M'
enter
tab
space right
m
'why?'
enter
n
N
r
u
h
escape
M
?
escape
enter
H
o
f1
escape
'It rose.'
enter
escape
O
'Soon.'
enter
escape
o
'Dusk.'
escape
U
n
s
s
b
v
t
'plain' enter
a-up
a-down
/
'ea' enter
*
p
escape
w
escape
x
'pages' enter
escape
i
'text.txt' enter
escape
?
pagedown
escape
z
o
'Late.'
escape
z
j
k
c-down
c-up
P
n
P
c
'ea' enter
'oo' enter
?
escape
y
a
escape
V
v
'1' enter
escape
a-y
""".strip().split(
    "\n"
)


#: The keys of a line that is typed, those that do nothing, and what a table lacks.
TYPING = """
enter
c-right
right
a-f
a-b
end
c-left
home
up
down
f5
delete
'T'
c-k
c-y
backspace
'!'
c-w
a-backspace
c-u
c-u
c-y
a-b
a-d
escape
enter
enter
o
'ě'
backspace
escape
f5
""".strip().split(
    "\n"
)
#: The size and the steps of each file.
FILES = {
    "40x12": ((40, 12), STEPS),
    "typing-40x12": ((40, 12), TYPING),
    "80x24": ((80, 24), STEPS),
    "200x60": ((200, 60), STEPS),
}
BY_HAND = ("40x12", "typing-40x12", "80x24")


@dataclass
class Shown:
    """What stands on a screen, and where the cursor is: a line and a column."""

    lines: list[str]
    cursor: tuple[int, int]

    def changes(self, before: "Shown") -> Iterator[str]:
        """What is different from what stood there before."""
        pairs = enumerate(zip(self.lines, before.lines), 1)
        yield from (f"{n}: {now}".rstrip() for n, (now, old) in pairs if now != old)
        line, column = self.cursor
        yield f"cursor: line {line + 1}, column {column + 1}"


@dataclass
class Wanted:
    """The screens that have to be there, one after the other."""

    file: Path
    steps: list[tuple[str, Shown]] = field(default_factory=list)

    def read(self, empty: Shown) -> None:
        """Reads the screens from their file."""
        lines, cursor = list(empty.lines), (0, 0)
        for step in self.file.read_text(encoding="utf-8").split("== ")[1:]:
            keys, *changes = step.rstrip("\n").split("\n")
            for change in changes:
                number, _, text = change.partition(":")
                if number == "cursor":
                    _, line, _, column = text.replace(",", "").split()
                    cursor = (int(line) - 1, int(column) - 1)
                else:
                    lines[int(number) - 1] = text[1:]
            self.steps.append((keys, Shown(list(lines), cursor)))

    def write(self, empty: Shown) -> None:
        """Writes the screens that were seen to their file."""
        text, before = "", empty
        for keys, shown in self.steps:
            text += "\n".join([f"== {keys}", *shown.changes(before)]) + "\n"
            before = shown
        self.file.write_text(text, encoding="utf-8")


def keys_of(step: str) -> Iterator[str]:
    """The keys of a step, one by one."""
    while step:
        if step[0] == "'":
            typed, _, step = step[1:].partition("'")
            yield from typed
        else:
            key, _, step = step.partition(" ")
            yield " " if key == "space" else key
        step = step.lstrip()


def pressed(sat: Sat, step: str) -> Shown:
    """The screen once the keys of a step were pressed, and all that goes on beside it is done."""
    for key in keys_of(step):
        sat.press(key)
        if sat.state.away:
            sat.state = sat.desk.away(sat.state, lambda line: None)
    sat.state = sat.desk.previewed(sat.state)
    drawn = draw(sat.state)
    line, place = drawn.cursor
    before = "".join(piece.text for piece in drawn.lines[line])[:place]
    return Shown(drawn.texts(), (line, columns(before)))


def cells_alone(lines: list[str]) -> bool:
    """Whether nothing but cells stands in the lines of cells of the paragraph."""
    rule = next((n for n, each in enumerate(lines) if each.startswith("-- ")), None)
    below = [] if rule is None else lines[rule + 1 :]
    return all(
        set(line) <= {chr(0x2800 + mask) for mask in range(256)}
        for line in below
        if line and 0x2800 <= ord(line[0]) < 0x2900 and ", cell" not in line
    )


@pytest.mark.parametrize("name", FILES)
def test_the_screen_after_each_key_is_what_has_to_be_there(
    moon: Path, sit: Sit, name: str, monkeypatch: pytest.MonkeyPatch
) -> None:
    size, steps = FILES[name]
    monkeypatch.chdir(moon.parent)
    (moon.parent / "text.txt").write_text("The sun\n\nThe stars.\n")
    empty = Shown([""] * size[1], (0, 0))
    wanted = Wanted(SCREENS / f"{name}.txt")
    sat = sit(moon, size=Size(*size))
    shown = [(keys, pressed(sat, keys)) for keys in ["", *steps]]
    if os.environ.get("SCREENS") == "write" and name not in BY_HAND:
        wanted.steps = [(keys or "opened", each) for keys, each in shown]
        wanted.write(empty)
        return
    wanted.read(empty)
    assert [keys for keys, _ in wanted.steps] == ["opened", *steps]
    for (keys, there), (_, each) in zip(wanted.steps, shown):
        assert (keys, each.lines, each.cursor) == (keys, there.lines, there.cursor)
        assert cells_alone(each.lines), keys


def test_a_terminal_shows_the_same_after_each_of_the_first_keys(
    moon: Path, at: Open
) -> None:
    wanted = Wanted(SCREENS / "40x12.txt")
    wanted.read(Shown([""] * 12, (0, 0)))
    terminal = at(moon, 40, 12)
    terminal.wait("? shows the keys.")
    for keys, shown in wanted.steps[: IN_TERMINAL + 1]:
        terminal.keys(*([] if keys == "opened" else keys_of(keys)))
        terminal.wait_for(shown.lines, shown.cursor, keys)
    terminal.keys("q")
    assert terminal.ended() == 0


def test_the_steps_have_each_key() -> None:
    names = {"space": " "}
    words = {names.get(key, key) for step in STEPS for key in step.split()}
    assert set(KEYS) - words == {"q"}
