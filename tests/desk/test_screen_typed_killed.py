"""What is left of a text where scribe is killed at any moment of typing, giving up and sending it.

The work below is done once whole. Then it is done again and again, each time in a process that
kills itself at another moment: before one of the calls of the system by which anything is written
or sent. So no second passes, and the same moment is the same place of the code. What the screen
said before the end is compared with the book and with the texts that are kept. Among the moments are
all at which a file gets or loses its name, and the others are taken from all of the work; `KILLS` in
the environment says how many there are at most.
"""

import json
import os
import shutil
import signal
from collections.abc import Callable, Iterator
from dataclasses import dataclass
from pathlib import Path
from typing import Any

import pytest

from braildesk.desk.draft import Aim, Draft
from braildesk.desk.drafts import Drafts

from scribe.screen.desk import Desk
from scribe.screen.state import Size, State
from terminal import once_free

KILLS = int(os.environ.get("KILLS", "200"))
NAMING = ("rename", "replace", "link", "unlink")
WRITING = ("write", "fsync", "mkdir", *NAMING)
#: Keys, a text that is typed (in quotation marks), one that is pasted (in brackets), or a second
#: that goes by, in which what is typed is kept.
WORK = (
    "l c-home o 'It rose.' second ' It' second ' set.' enter"
    " escape o 'Given up.' second escape"
    " down enter end ', she said' second c-w c-y second escape"
    " o 'Noon' second [One.|Two.|Three.] second y escape"
    " up u y away"
    " [pasted|where none|is typed] U y n second ' And on.' enter"
    " escape m 'which?' second escape U U n"
    " enter 'Oh, ' second enter u"
    " s b u u"
    " U U U U y second escape"
    " o 'The last.' second"
)
#: A text that waits from before, and is left for later.
LATER = "For later"
#: What was given up at the end of it, the newest first.
GIVEN_UP = [
    LATER,
    "which?",
    "The Tides, she said",
    "Given up.",
]


@dataclass(frozen=True)
class Shown:
    """What was there after a step: the book by what the screen shows, and the texts."""

    version: int
    book: list[list[object]]
    typed: str
    #: The text that waited or was typed when it was last kept.
    kept: str
    given_up: list[str]


def steps() -> Iterator[str]:
    """The steps of the work: a character that is typed is one."""
    rest = WORK.strip()
    while rest:
        if rest[0] == "'":
            typed, _, rest = rest[1:].partition("'")
            yield from typed
        elif rest[0] == "[":
            pasted, _, rest = rest[1:].partition("]")
            yield "paste " + pasted.replace("|", "\n")
        else:
            step, _, rest = rest.partition(" ")
            yield step
        rest = rest.lstrip(" ")


def after(desk: Desk, state: State, step: str) -> State:
    """The state after a step."""
    if step == "second":
        return desk.save_draft(state)
    if step == "away":
        return desk.away(state, lambda line: None)
    if step.startswith("paste "):
        return desk.paste(state, step.removeprefix("paste "))
    return desk.press(state, step)


def shown(desk: Desk, state: State, kept: str) -> Shown:
    """What is there now."""
    book: list[list[object]] = [
        [each.id, each.struck, each.style.value, state.openings[each.id].words]
        for each in state.book
    ]
    typed = state.typed.text if state.typed else ""
    given_up = [each.text for each in desk.drafts.given_up()]
    return Shown(state.version, book, typed, kept, given_up)


def worked(path: Path, report: Callable[[Shown], None]) -> None:
    """Does the work, and reports after each step."""
    desk = Desk(path)
    state, kept = desk.first_state(Size(80, 60), None, False), ""
    report(shown(desk, state, kept))
    for step in steps():
        state = after(desk, state, step)
        waiting = desk.drafts.waiting()
        kept = waiting.text if waiting else ""
        report(shown(desk, state, kept))
    desk.close()


def killed_at(path: Path, moment: int | None) -> tuple[list[Shown], list[str]]:
    """What was reported until a copy of this process killed itself, and the calls that it made."""
    reading, writing = os.pipe()
    child = os.fork()
    if child == 0:
        os.close(reading)
        try:
            in_child(path, moment, writing)
        finally:
            os._exit(0)
    os.close(writing)
    with open(reading, "rb") as reports:
        lines = reports.read().splitlines(keepends=True)
    status = os.waitstatus_to_exitcode(os.waitpid(child, 0)[1])
    assert status == (0 if moment is None else -signal.SIGKILL), moment
    whole = [json.loads(line) for line in lines if line.endswith(b"\n")]
    calls = [] if moment is not None else whole.pop()
    return [Shown(**values) for values in whole], calls


def in_child(path: Path, moment: int | None, writing: int) -> None:
    """Does the work in a process that ends before a call, if any."""
    calls: list[str] = []
    send = os.write

    def counted(call: Callable[..., Any]) -> Callable[..., Any]:
        def made(*given: Any, **named: Any) -> Any:
            if len(calls) == moment:
                os.kill(os.getpid(), signal.SIGKILL)
            calls.append(call.__name__)
            return call(*given, **named)

        return made

    def report(now: Shown | list[str]) -> None:
        values = vars(now) if isinstance(now, Shown) else now
        send(writing, json.dumps(values).encode() + b"\n")

    for name in WRITING:
        setattr(os, name, counted(getattr(os, name)))
    worked(path, report)
    report(calls)


@pytest.fixture
def fresh(moon: Path, monkeypatch: pytest.MonkeyPatch) -> Callable[[int], Path]:
    """Makes a folder with a copy of the book, and with a text that waits for it."""

    def made(number: int) -> Path:
        folder = moon.parent / f"run{number}"
        folder.mkdir()
        monkeypatch.setenv("XDG_STATE_HOME", str(folder))
        path = Path(shutil.copyfile(moon, folder / "moon.braildesk"))
        Drafts(path).save(Draft(Aim.EDIT, 2, "en", "The Tides", LATER))
        return path

    return made


def test_nothing_that_was_kept_or_given_up_is_lost_where_scribe_is_killed(
    fresh: Callable[[int], Path]
) -> None:
    whole, calls = killed_at(fresh(0), None)
    assert (whole[-1].version, whole[-1].given_up) == (21, GIVEN_UP)
    moments = sorted(range(len(calls)), key=lambda n: (calls[n] not in NAMING, n % 3))
    assert sum(call in NAMING for call in calls) > 20
    for moment in moments[:KILLS]:
        path = fresh(moment + 1)
        seen, _ = killed_at(path, moment)
        assert seen == whole[: len(seen)], moment
        check_left(path, whole, len(seen), moment)


def check_left(path: Path, whole: list[Shown], count: int, moment: int) -> None:
    """The book and the texts are as after the last step that was seen, or as after the next one."""
    before = whole[count - 1] if count else whole[0]
    around = [before, whole[count]]
    with once_free(path) as session:
        book = [
            [each.id, each.struck, each.style.value, session.print_of(each.id)]
            for each in session.paragraphs()
        ]
        version = session.last_version
    # several commands may be one step, and each of them is in the book whole
    assert around[0].version <= version <= around[1].version, moment
    for each in around:
        assert version != each.version or book == each.book, moment
    drafts = Drafts(path)
    waiting = drafts.waiting()
    given_up = [each.text for each in (*drafts.given_up(), *drafts.later())]
    prints = [str(each[3]) for each in book]
    there = [*given_up, *prints, waiting.text if waiting else ""]
    for text in [LATER, *before.given_up]:
        assert text in there, (moment, text)
    kept = before.kept
    # the step that was under way may send its lines one by one
    is_in_step = around[1].kept != kept
    lines_there = all(any(line in each for each in there) for line in kept.split("\n"))
    is_there = not kept or kept in there or is_in_step and lines_there
    assert is_there, (moment, kept, there)
