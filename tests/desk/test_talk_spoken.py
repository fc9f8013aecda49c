"""What a person hears or feels of each command of `talk`: lines in their order, at two widths.

The texts of the folder `spoken` were written by hand. A line that is typed stands there after its
prompt, as a terminal shows it; `#` begins a comment.
"""

import re
import sys
from pathlib import Path

import pytest

from scribe.cli.commands import AT_PROMPT
from scribe.cli.prompt_words import names
from prompted import without_waiting
from tool import at_end, at_terminal, environment

SPOKEN = Path(__file__).with_name("spoken")
#: The prompts: for a line, for an answer, and for an answer where questions are short.
_TYPED = re.compile(r"(> |: |(?:paragraph|old|new|words|note|mark|place 1 to 2): )(.*)")


def texts(width: int) -> list[str]:
    """The lines of a text but for its comments."""
    text = (SPOKEN / f"{width}.txt").read_text(encoding="utf-8")
    return [line for line in text.splitlines() if not line.startswith("#")]


@pytest.mark.parametrize("width", [80, 40])
def test_each_command_says_what_is_written_here(moon: Path, width: int) -> None:
    manuscript = "The Tides\n\nThe moon is far away.\n\nTwice a day the sea comes up.\n"
    (moon.parent / "manuscript.txt").write_text(manuscript)
    words = ["talk", "moon.braildesk", "--width", str(width)]
    child = at_terminal(
        sys.executable,
        "-m",
        "scribe",
        *words,
        folder=moon.parent,
        # a process of its own: in a copy of this one an earlier test may have readline know another
        # terminal
        settings=environment(TERM="dumb", INPUTRC="/dev/null"),
    )
    wanted = texts(width)
    shown = ""
    for typed in filter(None, map(_TYPED.fullmatch, wanted)):
        child.expect(rf"(?:^|\n){re.escape(typed[1])}$")
        shown += child.before + child.after
        child.send(typed[2] + "\r")
    assert at_end(child) == 0
    lines = (shown + child.before).replace("\r", "").splitlines()
    lines = without_waiting(lines)
    assert lines == wanted
    assert max(map(len, lines)) <= width
    assert "\x1b" not in shown


@pytest.mark.parametrize("width", [80, 40])
def test_each_word_of_talk_is_typed_there(width: int) -> None:
    found = filter(None, map(_TYPED.fullmatch, texts(width)))
    typed = {match[2].split(" ")[0] for match in found if match[1] == "> "}
    assert typed >= {*names()} - {"exit", "q"}
    assert typed >= set(AT_PROMPT)
