"""What a book holds where scribe, or the session under it, is killed at each moment of a work.

The work is five commands. A stand-in in the place of the program kills one of the two when a
command has come so far; so each moment is the same on any machine.
"""

import signal
import time
from pathlib import Path

import pytest

from braildesk import Mark, Session
from braildesk.desk.drafts import Drafts
from stand_in import ANSWERED, HALF, KEPT, KILL_PROGRAM, KILL_SCRIBE, READ
from terminal import Open, Terminal, once_free, standing_in
from tool import WAIT_SECONDS

#: The keys of each command, and what the screen says once it is kept.
WORK = (
    ("c-right enter delete M enter", "kept: correction 2 of paragraph 1"),
    ("tab m w h y ? enter", "kept: mark 2"),
    ("o S o o n . enter", "kept: paragraph 4"),
    ("escape down s", "kept: paragraph 2 struck"),
    ("c-home u", "kept: paragraph 2 restored"),
)
#: The book after none of the commands, after the first one, and so on.
BOOKS = (
    "7: 1 The moon is far away. <moon>, 2 The Tides, 3 Twice a day the sea comes up.",
    "8: 1 The Moon is far away. <Moon>, 2 The Tides, 3 Twice a day the sea comes up.",
    "9: 1 The Moon is far away. <Moon> <o>, 2 The Tides, 3 Twice a day the sea comes up.",
    "10: 1 The Moon is far away. <Moon> <o>, 4 Soon., 2 The Tides,"
    " 3 Twice a day the sea comes up.",
    "11: 1 The Moon is far away. <Moon> <o>, 4 Soon., 2 The Tides struck,"
    " 3 Twice a day the sea comes up.",
    "12: 1 The Moon is far away. <Moon> <o>, 4 Soon., 2 The Tides,"
    " 3 Twice a day the sea comes up.",
)
SAID = ("nothing kept yet", *(said for _, said in WORK))
NUMBERS = range(1, len(WORK) + 1)


def shown(path: Path) -> str:
    """A book in a line: its version, and each paragraph with what its marks stand on."""
    with once_free(path) as session:
        paragraphs = [
            " ".join(
                [
                    str(each.id),
                    session.print_of(each.id),
                    *("struck" for _ in range(each.struck)),
                    *(
                        f"<{on(session, each.id, mark)}>"
                        for mark in session.marks_of(each.id)
                    ),
                ]
            )
            for each in session.paragraphs()
        ]
        return f"{session.last_version}: {', '.join(paragraphs)}"


def on(session: Session, number: int, mark: Mark) -> str:
    return session.print_of(number)[mark.start : mark.stop]


def worked(terminal: Terminal, number: int) -> None:
    """Does the work up to a command, which is begun and not waited for."""
    terminal.wait("? shows the keys.")
    for keys, said in WORK[: number - 1]:
        terminal.keys(*keys.split())
        terminal.wait(said)
    terminal.keys(*WORK[number - 1][0].split())


@pytest.mark.parametrize("far", [READ, KEPT, ANSWERED])
@pytest.mark.parametrize("number", NUMBERS)
def test_what_the_screen_said_is_kept_where_scribe_is_killed(
    moon: Path, at: Open, number: int, far: str
) -> None:
    terminal = at(moon, **standing_in(number, far, KILL_SCRIBE))
    worked(terminal, number)
    assert terminal.ended() == -signal.SIGKILL
    said = SAID[number - 1 : number + 1 if far == ANSWERED else number]
    assert terminal.lines[0].endswith(said)
    # what was sent goes its way, and is kept whole
    assert shown(moon) == BOOKS[number]


@pytest.mark.parametrize("number", NUMBERS)
def test_what_the_screen_said_is_kept_where_scribe_is_killed_once_it_is_said(
    moon: Path, at: Open, number: int
) -> None:
    terminal = at(moon)
    worked(terminal, number)
    terminal.wait(SAID[number])
    terminal.send_signal(signal.SIGKILL)
    assert terminal.ended() == -signal.SIGKILL
    assert shown(moon) == BOOKS[number]


@pytest.mark.parametrize("far", [READ, HALF, KEPT, ANSWERED])
@pytest.mark.parametrize("number", NUMBERS)
def test_what_the_screen_said_is_kept_where_the_session_is_killed(
    moon: Path, at: Open, number: int, far: str
) -> None:
    terminal = at(moon, **standing_in(number, far, KILL_PROGRAM))
    worked(terminal, number)
    lines = terminal.wait("The book was opened again")
    said = SAID[number if far == ANSWERED else number - 1]
    assert lines[0].endswith("last kept: 1 change" if far == KEPT else said)
    # what isn't in the book is typed still, and given up
    terminal.keys("escape", "q")
    assert terminal.ended() == 0
    # half of a line is no command, and a command that was answered is kept
    assert shown(moon) == BOOKS[number if far in (KEPT, ANSWERED) else number - 1]


def test_what_was_typed_two_seconds_before_scribe_is_killed_is_offered_again(
    moon: Path, at: Open
) -> None:
    terminal = at(moon)
    terminal.wait("? shows the keys.")
    terminal.keys("enter", "Oh, ")
    terminal.wait("Oh, The moon is far away.")
    drafts = Drafts(moon)
    end = time.monotonic() + WAIT_SECONDS
    while not ((waits := drafts.waiting()) and waits.text.startswith("Oh, The moon")):
        assert time.monotonic() < end
        time.sleep(0.01)
    terminal.send_signal(signal.SIGKILL)
    assert terminal.ended() == -signal.SIGKILL
    assert shown(moon) == BOOKS[0]
    again = at(moon)
    again.wait("further? y is yes, n is no.")
    again.answer("y")
    again.wait("Oh, The moon is far away.")
