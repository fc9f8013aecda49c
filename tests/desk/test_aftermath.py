"""A command that was not answered, since the program was stopped: scribe says what is in the book."""

import io
from collections.abc import Iterator
from contextlib import contextmanager
from pathlib import Path

import pytest

from braildesk import Lost, Session, requests
from braildesk.desk import aftermath
from braildesk.protocol.requests import Request

from scribe.cli import run_words
from scribe.words.aftermath import found_again
from scribe.words.console import Console
from stand_in import ANSWERED, KEPT, KILL_PROGRAM, READ, REPLY
from terminal import standing_in
from tool import scribe

COMMANDS = (
    "change 1 far near",
    "mark 1 far why?",
    "undo 1",
    "resolve 1",
    "strike 2",
    "heading 2",
    "volume 3 on",
    "move 3 front",
    "retable 1 plain",
    "table en",
)


@contextmanager
def stopped(
    monkeypatch: pytest.MonkeyPatch, number: int, far: str, *deed: str
) -> Iterator[None]:
    """Has a stand-in do a deed when a command has come so far."""
    with monkeypatch.context() as patched:
        for name, value in standing_in(number, far, *deed).items():
            patched.setenv(name, value)
        yield


@pytest.mark.parametrize("words", COMMANDS)
@pytest.mark.parametrize(
    "far, version, found",
    [
        (
            READ,
            7,
            "The book was opened again: it is at version 7, as before, and what was asked last is"
            " not in it.",
        ),
        (
            KEPT,
            8,
            "The book was opened again: it is at version 8, and what was asked last is in it.",
        ),
        (
            ANSWERED,
            8,
            "The book was opened again: it is at version 8, and what was changed last is in it.",
        ),
    ],
    ids=["not kept", "kept", "answered and not shown"],
)
def test_a_command_of_the_shell_says_whether_it_is_in_the_book_after_all(
    moon: Path,
    monkeypatch: pytest.MonkeyPatch,
    words: str,
    far: str,
    version: int,
    found: str,
) -> None:
    name, *rest = words.split()
    shown, said = io.StringIO(), io.StringIO()
    with stopped(monkeypatch, 1, far, KILL_PROGRAM):
        status = run_words([name, str(moon), *rest], Console(io.BytesIO(), shown, said))
    assert said.getvalue().splitlines() == ["The session was ended by signal 9.", found]
    assert (status, shown.getvalue()) == (3, "")
    with Session(moon) as session:
        assert session.last_version == version


def test_a_file_that_could_not_be_written_is_opened_again(
    moon: Path, monkeypatch: pytest.MonkeyPatch
) -> None:
    with stopped(monkeypatch, 1, READ, REPLY, "no 91"):
        ran = scribe("strike", "moon.braildesk", "2", folder=moon.parent)
    assert ran.said.splitlines() == [
        "The striking of paragraph 2 was not reported as kept, since the file of the book could not"
        " be written or read. See to the disk.",
        "The book was opened again: it is at version 7, as before, and what was asked last is not"
        " in it.",
    ]
    assert ran.status == 3


def test_a_conversation_says_what_of_its_last_line_is_in_the_book(
    moon: Path, monkeypatch: pytest.MonkeyPatch
) -> None:
    given = "strike 2\nstrike 3\n"
    with stopped(monkeypatch, 2, KEPT, KILL_PROGRAM):
        ran = scribe("talk", "moon.braildesk", folder=moon.parent, given=given)
    assert ran.said.splitlines()[-2:] == [
        "The session was ended by signal 9.",
        "The book was opened again: it is at version 9, and what was asked last is in it.",
    ]
    assert ran.status == 3


@pytest.mark.parametrize(
    "unanswered, version, found",
    [
        ((), 7, "The book was opened again: it is at version 7, as before."),
        (
            (requests.Type("end", "en", "Soon."),),
            6,
            "The book was opened again: it is at version 7, and was at 6 before: another program"
            " changed it meanwhile. Look whether what was asked last is in it.",
        ),
        (
            (),
            6,
            "The book was opened again: it is at version 7, and was at 6 before: another program"
            " changed it meanwhile.",
        ),
        (
            (requests.Strike(2),),
            5,
            "The book was opened again: it is at version 7, and was at 5 before: another program"
            " changed it meanwhile. Look whether what was asked last is in it.",
        ),
        (
            (
                requests.Type("end", "en", "Twice a day the sea comes up."),
                requests.Correct(1, 4, 3, "moon"),
                requests.Mark(1, 5, 4, "spelled so?"),
                requests.Strike(2),
            ),
            4,
            "The book was opened again: it is at version 7. Of 4 commands that were not answered, 3"
            " are in it.",
        ),
    ],
    ids=["nothing", "of another", "of another alone", "more than was asked", "several"],
)
def test_what_is_found_again_is_said_by_the_version_and_the_book(
    moon: Path, unanswered: tuple[Request[object], ...], version: int, found: str
) -> None:
    lost = Lost("It ended.", "", None, 0, version, unanswered)
    with Session(moon) as session:
        assert found_again(aftermath.found_again(session, lost)) == found
