"""A book that another program has open: how long each command of the shell waits for it."""

import fcntl
import hashlib
import io
import os
import shutil
import subprocess
import sys
import time
from collections.abc import Callable
from contextlib import suppress
from io import BytesIO, StringIO
from pathlib import Path

import pytest

from braildesk import CannotOpen, Session, opening
from braildesk.desk.drafts import Drafts
from braildesk.desk.import_note import ImportNote
from braildesk.opening import waited
from braildesk.protocol.asked import BookFile
from braildesk.protocol.requests import Type
from braildesk.protocol.sentences import Why
from braildesk.refusals import cannot_open

from scribe.cli import run_words
from scribe.cli.commands import edit
from scribe.cli.endings import lost_besides
from scribe.words.console import WAITING, Console
from scribe.words.status import Status
from strangers import NEEDS_ROOT, as_stranger, lead_to
from terminal import once_free
from tool import environment, scribe


class Clock:
    """A clock that goes on when somebody sleeps, and closes a book at a time."""

    def __init__(self, first: Session, closes_at: float) -> None:
        self.now = 0.0
        self._first, self._closes_at = first, closes_at

    def sleep(self, seconds: float) -> None:
        self.now += seconds
        if self.now >= self._closes_at:
            self._first.close()

    def monotonic(self) -> float:
        return self.now


def run_beside(
    monkeypatch: pytest.MonkeyPatch, moon: Path, closes_at: float, *words: str
) -> tuple[int, str, str]:
    """The status of a command, what it shows and what it says, while the book is in use at first."""
    shown, said = io.StringIO(), io.StringIO()
    with Session(moon) as first:
        first.strike(2)
        clock = Clock(first, closes_at)
        with monkeypatch.context() as patched:
            # where a book is waited for, and not where a program's end is
            patched.setattr(opening, "time", clock)
            status = run_words(words, Console(io.BytesIO(), shown, said))
    return status, shown.getvalue(), said.getvalue()


def test_two_who_mark_at_once_both_have_their_marks(
    moon: Path, monkeypatch: pytest.MonkeyPatch
) -> None:
    words = ("mark", str(moon), "1", "far", "how far?")
    status, shown, said = run_beside(monkeypatch, moon, 1.5, *words)
    assert (status, said) == (0, "")
    assert shown.splitlines()[0] == "Mark 2, open, on “far”: how far?"
    assert shown.splitlines()[-1] == "The book is at version 9."


@pytest.mark.parametrize(
    "words",
    [
        "talk {}",
        "mark {} 1 far why? --wait 0",
        "volumes {} --pages 9 --set --wait 0",
        "export {} {}-pages --wait 1.2",
    ],
)
def test_a_book_that_is_not_free_in_time_is_said_to_be_in_use(
    moon: Path, monkeypatch: pytest.MonkeyPatch, words: str
) -> None:
    words = words.format(moon, moon)
    status, shown, said = run_beside(monkeypatch, moon, 1.5, *words.split())
    assert (status, shown) == (2, "")
    # talk says it in lines of a width, for which the path may be too long
    wanted = f"Another program has “{moon}” open. Nothing was changed. That one must end first."
    assert "".join(said.split()) == "".join(wanted.split())


@pytest.mark.parametrize(
    "words",
    [
        "copy {} {}-copy --wait 60",
        "run {} --wait 60",
        "export {} {}-pages --wait 60",
        "import {} {} --dry-run --wait 60",
        "pages {} --wait 60",
        "show {} --wait 60",
        "talk {} --wait 60",
        "heading {} 1 --wait 60",
        "volumes {} --pages 9 --set --wait 60",
    ],
)
def test_a_command_waits_for_as_long_as_it_is_told(
    moon: Path, monkeypatch: pytest.MonkeyPatch, words: str
) -> None:
    text = moon.parent / "text"
    text.write_text("The moon.\n")
    second = text if words.startswith("import") else moon
    told = words.format(moon, second).split()
    assert run_beside(monkeypatch, moon, 50, *told)[0] == 0


def small_pipe() -> tuple[int, int]:
    """The ends of a pipe that takes a page."""
    reader, writer = os.pipe()
    fcntl.fcntl(writer, fcntl.F_SETPIPE_SZ, 4_096)
    return reader, writer


@pytest.mark.parametrize(
    "ends, words",
    [
        (small_pipe, "show {}"),
        (small_pipe, "list {} --width 80"),
        (small_pipe, "find {} moon"),
        (small_pipe, "pages {} --page 1"),
        (os.openpty, "show {}"),
    ],
)
def test_others_may_have_a_book_that_somebody_reads_slowly_once_it_is_read(
    moon: Path, ends: Callable[[], tuple[int, int]], words: str
) -> None:
    with Session(moon) as session:
        lines = [f"{number}: the moon is far away." for number in range(300)]
        assert len(list(session.each(Type("end", "en", line) for line in lines))) == 300
    told = [sys.executable, "-m", "scribe", *words.format(moon.name).split()]
    whole = scribe(*told[3:], folder=moon.parent).shown
    reader, writer = ends()
    process = subprocess.Popen(
        told, cwd=moon.parent, env=environment(), stdout=writer, stderr=writer
    )
    os.close(writer)
    # a pager has one line, and waits for a key
    found = os.read(reader, 20)
    with once_free(moon) as session:
        session.strike(2)
    # the end of what a terminal shows comes as an error
    with suppress(OSError):
        while more := os.read(reader, 65_536):
            found += more
    os.close(reader)
    assert process.wait() == 0
    found = found.replace(b"\r\n", b"\n")
    assert found.decode().replace(f"{WAITING}\n", "").startswith(whole)


@pytest.mark.parametrize("name", ["talk", "edit"])
def test_who_ends_a_wait_is_told_once_that_nothing_was_done(
    monkeypatch: pytest.MonkeyPatch, moon: Path, name: str
) -> None:
    def stop(seconds: float) -> None:
        raise KeyboardInterrupt

    with Session(moon) as first:
        first.strike(2)
        monkeypatch.setattr(time, "sleep", stop)
        monkeypatch.setattr(edit, "are_typed", lambda: True)
        monkeypatch.setenv("TERM", "xterm")
        console = Console(BytesIO(), StringIO(), StringIO())
        with pytest.raises(KeyboardInterrupt) as caught:
            run_words([name, str(moon), "--wait", "20"], console)
        monkeypatch.undo()
    assert lost_besides(caught.value) == ("Nothing was done.",)


def test_an_import_that_goes_on_waits_too(
    moon: Path, monkeypatch: pytest.MonkeyPatch
) -> None:
    text = moon.parent / "text"
    text.write_text("The moon.\n")
    whole, digest = str(text), hashlib.sha256(text.read_bytes()).hexdigest()
    note = ImportNote(whole, digest, False, 1, 1, "en", "end", 7, 3)
    Drafts(moon).begin_import(note)
    words = ("import", str(moon), whole, "--continue", "--wait", "60")
    status, shown, _ = run_beside(monkeypatch, moon, 50, *words)
    assert (status, shown) == (0, "1 paragraph typed, number 4, by the table en.\n")


@pytest.mark.parametrize("times, is_given", [(4, True), (5, False)])
def test_a_book_that_was_free_again_whenever_it_was_looked_for_is_tried_a_few_times(
    book: Path, times: int, is_given: bool
) -> None:
    refusals = [cannot_open(BookFile(str(book)), Why.UNKNOWN)] * times

    def attempt() -> str:
        if refusals:
            raise refusals.pop()
        return "opened"

    if is_given:
        assert waited(attempt, 0.0) == "opened"
    else:
        with pytest.raises(CannotOpen):
            waited(attempt, 0.0)


def test_seconds_are_numbers() -> None:
    console = Console(io.BytesIO(), io.StringIO(), errors := io.StringIO())
    assert run_words(["show", "moon", "--wait", "soon"], console) == 1
    assert errors.getvalue().startswith(
        "Argument --wait: “soon” is no number of seconds."
    )


@NEEDS_ROOT
@pytest.mark.parametrize("way", ["the book", "its folder"])
@pytest.mark.parametrize(
    "name, words",
    [
        ("change", ("1", "moon", "sun")),
        ("show", ("1",)),
        ("run", ()),
        ("talk", ("--width", "400")),
        ("export", ("pages",)),
        ("proof", ("page.html",)),
        ("copy", ("copied",)),
    ],
)
def test_a_link_that_another_user_puts_there_while_a_command_waits_leads_it_nowhere(
    moon: Path,
    tmp_path: Path,
    monkeypatch: pytest.MonkeyPatch,
    name: str,
    words: tuple[str, ...],
    way: str,
) -> None:
    books, private = tmp_path / "shared" / "books", tmp_path / "private"
    books.mkdir(parents=True)
    private.mkdir(mode=0o700)
    book, other = books / moon.name, private / moon.name
    shutil.copyfile(moon, book)
    shutil.copyfile(moon, other)
    for folder in (books, books.parent):
        folder.chmod(0o777)
    lead_to(books)
    named = book if way == "the book" else books

    def swap() -> None:
        named.rename(f"{named}-kept")
        named.symlink_to(other if way == "the book" else private)

    holder = Session(book)

    def swapped(_: float) -> None:
        if not named.is_symlink():
            assert as_stranger(swap) == ""
            holder.close()

    monkeypatch.setattr(time, "sleep", swapped)
    monkeypatch.chdir(tmp_path)
    shown, said = StringIO(), StringIO()
    data = BytesIO(b"change 1 moon sun\n")
    asked = [name, str(book), *words, "--wait", "20"]
    status = run_words(asked, Console(data, shown, said))
    assert (status, shown.getvalue()) == (Status.REFUSED, "")
    assert said.getvalue() == (
        f"A link was put in the place of “{book}”, or on the way to it, after that was first looked at. It"
        " may be another user's, and nothing was opened through it. Nothing was changed. See"
        " where it leads, and who put it there.\n"
    )
    assert sorted(os.listdir(private)) == [moon.name]
    assert not {"pages", "page.html", "copied"} & set(os.listdir(tmp_path))
