"""An import or an export that is told to end: what is said of it is what the files have."""

import os
import re
import signal
from io import BytesIO, StringIO
from pathlib import Path

import pytest

from braildesk import Session
import braildesk
import braildesk.making
from braildesk import workshop
from braildesk.desk.drafts import Drafts
from braildesk.desk.export import Job
from braildesk.desk.layout import PageSize

from scribe.cli import run_words
from scribe.words.console import WAITING, Console
from scribe.words.export import export_in_words
from scribe.words.status import Interrupted
from sitting import Sit
from stand_in import ANSWERED, HALF, KEPT, READ, SIGNAL, WAIT
from terminal import Open, once_free, standing_in
from tool import WAIT_SECONDS, Ran, scribe, wait_for_program

LINES = [f"Line number {number} of the moon." for number in range(1, 601)]
TOLD = re.compile(
    r"text\.txt is in the book up to line (\d+), which is the end of paragraph (\d+) of the book\."
)


@pytest.fixture
def text(book: Path) -> Path:
    """A text of many lines beside an empty book."""
    path = book.with_name("text.txt")
    path.write_text("\n".join(LINES))
    return path


def run(settings: dict[str, str], folder: Path, *words: str) -> Ran:
    """A run of scribe with settings of the environment."""
    return scribe(*words, folder=folder, before=wait_for_program, **settings)


def check_told(said: str, book: Path) -> None:
    """Looks at whether what is said to be in the book is what is there."""
    with once_free(book) as session:
        prints = [session.print_of(each.id) for each in session.paragraphs()]
    found = TOLD.search(said)
    count = int(found[1]) if found else 0
    assert prints == LINES[:count]
    if not found:
        assert "Nothing of text.txt was typed." in said
    if count < len(LINES):
        # what is noted of an import goes with a part that is in the book
        how = "--continue" if found else "--lines"
        assert f"go on by: scribe import {book.name} text.txt {how}" in said


@pytest.mark.parametrize(
    "number, far, name",
    [
        (1, READ, "SIGTERM"),
        (1, KEPT, "SIGHUP"),
        (7, READ, "SIGINT"),
        (7, HALF, "SIGTERM"),
        (7, KEPT, "SIGTERM"),
        (7, ANSWERED, "SIGHUP"),
        (600, READ, "SIGTERM"),
    ],
)
def test_an_import_that_is_told_to_end_says_what_is_in_the_book(
    book: Path, text: Path, number: int, far: str, name: str
) -> None:
    ran = run(
        standing_in(number, far, SIGNAL, name),
        book.parent,
        *("import", book.name, text.name, "--lines"),
    )
    assert ran.status == -signal.Signals[name]
    by = "" if name == "SIGINT" else f" by {name}"
    assert ran.said.startswith(f"Stopped{by}.\n") and ran.shown == ""
    check_told(ran.said, book)


def between(folder: Path, action: str, number: int) -> dict[str, str]:
    """The settings by which the program tells scribe to end before it does an action so often."""
    path = folder / "between"
    path.write_text(
        "#!/bin/sh\n"
        f'if [ "$1" = {action} ]; then\n'
        f"  echo >> '{folder}/often'\n"
        f"  if [ \"$(wc -l < '{folder}/often')\" = {number} ]; then kill -TERM $PPID; exec sleep {WAIT_SECONDS}; fi\n"
        "fi\n"
        f"exec '{braildesk.find()}' \"$@\"\n"
    )
    path.chmod(0o755)
    return {"BRAILDESK": str(path)}


def test_an_import_that_is_told_to_end_while_it_judges_has_typed_nothing(
    book: Path, text: Path
) -> None:
    settings = between(book.parent, "translate", 1)
    ran = run(settings, book.parent, "import", str(book), str(text), "--lines")
    assert (ran.status, ran.shown) == (-signal.SIGTERM, "")
    assert ran.said == "Stopped by SIGTERM. Nothing was typed.\n"
    assert braildesk.check(book) == 1


@pytest.fixture
def volumes(moon: Path) -> Path:
    """A book of three volumes, and a folder with older files of them."""
    with Session(moon) as session:
        session.set_begins_volume(2, True)
        session.set_begins_volume(3, True)
    folder = moon.with_name("pages")
    folder.mkdir()
    for number in (1, 2, 3):
        (folder / f"moon-{number}.brf").write_bytes(b"older")
    return moon


def test_an_export_that_is_told_to_end_while_it_reads_the_book_changes_no_file(
    volumes: Path,
) -> None:
    folder = volumes.parent
    ran = run(between(folder, "export", 2), folder, "export", str(volumes), "pages")
    assert (ran.status, ran.shown) == (-signal.SIGTERM, "")
    assert ran.said == "Stopped by SIGTERM. Nothing was exported.\n"
    assert [path.read_bytes() for path in (folder / "pages").iterdir()] == [
        b"older"
    ] * 3


@pytest.mark.parametrize(
    "call, is_renamed, told, new",
    [
        (1, False, " Volumes 1, 2 and 3 are as before.", 0),
        (1, True, " Volume 1 is new. Volumes 2 and 3 are as before.", 1),
        (2, False, " Volume 1 is new. Volumes 2 and 3 are as before.", 1),
        (3, True, " Volumes 1, 2 and 3 are new.", 3),
    ],
)
def test_an_export_that_is_told_to_end_while_it_writes_says_which_files_are_new(
    volumes: Path,
    monkeypatch: pytest.MonkeyPatch,
    call: int,
    is_renamed: bool,
    told: str,
    new: int,
) -> None:
    calls = 0
    replace = os.replace

    def replaced(one: str, other: str, **folders: int) -> None:
        nonlocal calls
        calls += 1
        if calls == call and not is_renamed:
            raise Interrupted(signal.SIGTERM)
        replace(one, other, **folders)
        if calls == call:
            raise Interrupted(signal.SIGTERM)

    monkeypatch.setattr(os, "replace", replaced)
    said = StringIO()
    folder = volumes.with_name("pages")
    job = Job(volumes, folder, PageSize(), wait=0)
    with pytest.raises(Interrupted) as stopped:
        export_in_words(job, Console(BytesIO(), StringIO(), said))
    assert stopped.value.is_said
    assert said.getvalue() == f"Stopped by SIGTERM.{told}\n"
    files = [folder / f"moon-{number}.brf" for number in (1, 2, 3)]
    is_new = [file.read_bytes() != b"older" for file in files]
    assert is_new == [number <= new for number in (1, 2, 3)]
    assert sorted(folder.iterdir()) == files


def test_an_export_that_is_told_to_end_says_that_its_folder_was_renamed(
    volumes: Path, monkeypatch: pytest.MonkeyPatch
) -> None:
    calls, replace, folder = 0, os.replace, volumes.with_name("pages")

    def replaced(one: str, other: str, **folders: int) -> None:
        nonlocal calls
        calls += 1
        replace(one, other, **folders)
        if calls == 2:
            folder.rename(folder.with_name("moved"))
            raise Interrupted(signal.SIGTERM)

    monkeypatch.setattr(os, "replace", replaced)
    said = StringIO()
    job = Job(volumes, folder, PageSize(), wait=0)
    with pytest.raises(Interrupted):
        export_in_words(job, Console(BytesIO(), StringIO(), said))
    assert said.getvalue() == (
        f"Stopped by SIGTERM. The folder {folder} isn't at that path any more. What was exported by then"
        " is in that folder, unless it was removed.\n"
    )


@pytest.mark.parametrize(
    "call, is_renamed", [(4, False), (3, True)], ids=["noted", "not noted yet"]
)
def test_an_export_that_is_told_to_end_says_which_file_of_changed_pages_is_new(
    volumes: Path, monkeypatch: pytest.MonkeyPatch, call: int, is_renamed: bool
) -> None:
    calls, replace = 0, os.replace

    def replaced(one: str, other: str, **folders: int) -> None:
        nonlocal calls
        calls += 1
        if calls == call and not is_renamed:
            raise Interrupted(signal.SIGTERM)
        replace(one, other, **folders)
        if calls == call:
            raise Interrupted(signal.SIGTERM)

    monkeypatch.setattr(os, "replace", replaced)
    said, folder = StringIO(), volumes.with_name("pages")
    job = Job(volumes, folder, PageSize(), wait=0, has_changed_pages=True)
    with pytest.raises(Interrupted):
        export_in_words(job, Console(BytesIO(), StringIO(), said))
    assert said.getvalue() == (
        "Stopped by SIGTERM. Volume 1 is new. Volumes 2 and 3 are as before."
        f" {folder / 'moon-2-changed.brf'} is new, with the pages that change in it.\n"
    )
    assert (folder / "moon-2-changed.brf").read_bytes() != b"older"
    assert (folder / "moon-2.brf").read_bytes() == b"older"


@pytest.mark.parametrize("number", [1, 2])
def test_a_file_that_had_its_pages_before_is_not_said_to_be_new_by_an_export_that_is_told_to_end(
    volumes: Path, monkeypatch: pytest.MonkeyPatch, number: int
) -> None:
    folder = volumes.with_name("pages")
    pages = braildesk.export(volumes, number)
    names = ("moon-1.brf", "moon-2-changed.brf")
    (folder / names[number - 1]).write_bytes(pages)

    def refuse(one: str, other: str, **folders: int) -> None:
        if other == names[number - 1]:
            raise Interrupted(signal.SIGTERM)
        os.rename(one, other, **folders)

    monkeypatch.setattr(os, "replace", refuse)
    said = StringIO()
    job = Job(volumes, folder, PageSize(), wait=0, has_changed_pages=True)
    with pytest.raises(Interrupted):
        export_in_words(job, Console(BytesIO(), StringIO(), said))
    assert said.getvalue() == (
        "Stopped by SIGTERM. Volumes 1, 2 and 3 are as before.\n"
        if number == 1
        else "Stopped by SIGTERM. Volume 1 is new. Volumes 2 and 3 are as before.\n"
    )


@pytest.mark.parametrize(
    "action, words",
    [("check", ()), ("export", ()), ("export", ("--page", "1", "--volume", "2"))],
)
def test_an_export_whose_program_is_killed_says_that_nothing_was_exported(
    volumes: Path, action: str, words: tuple[str, ...]
) -> None:
    folder = volumes.parent
    killed = folder / "killed"
    killed.write_text(
        f'#!/bin/sh\nif [ "$1" = {action} ]; then kill -KILL $$; fi\n'
        f"exec '{braildesk.find()}' \"$@\"\n"
    )
    killed.chmod(0o755)
    settings = {"BRAILDESK": str(killed)}
    ran = run(settings, folder, "export", str(volumes), "pages", *words)
    said = "braildesk was ended by signal 9 before it was done. Nothing was exported.\n"
    assert ran == Ran(3, "", said)
    files = [path.read_bytes() for path in (folder / "pages").iterdir()]
    assert files == [b"older"] * 3


@pytest.mark.parametrize(
    "is_there, is_renamed, told",
    [
        (False, False, "Nothing was made."),
        (False, True, "{} is new."),
        (True, False, "{} is as before."),
        (True, True, "{} is new."),
    ],
)
def test_an_export_of_single_pages_that_is_told_to_end_says_whether_they_are_there(
    volumes: Path,
    monkeypatch: pytest.MonkeyPatch,
    is_there: bool,
    is_renamed: bool,
    told: str,
) -> None:
    file = volumes.with_name("pages") / "moon-2-pages-1.brf"
    if is_there:
        file.write_bytes(b"older")
    replace = os.replace

    def replaced(one: str, other: str, **folders: int) -> None:
        if is_renamed:
            replace(one, other, **folders)
        raise Interrupted(signal.SIGTERM)

    monkeypatch.setattr(os, "replace", replaced)
    said = StringIO()
    words = ["export", str(volumes), str(file.parent), "--page", "1", "--volume", "2"]
    with pytest.raises(Interrupted) as stopped:
        run_words(words, Console(BytesIO(), StringIO(), said))
    assert stopped.value.is_said
    assert said.getvalue() == f"Stopped by SIGTERM. {told.format(file)}\n"
    assert file.exists() == (is_there or is_renamed)


@pytest.mark.parametrize(
    "there, told",
    [
        ((), " Volume 1 is new. Volumes 2 and 3 were not made."),
        ((3,), " Volume 1 is new. Volume 3 is as before. Volume 2 was not made."),
    ],
)
def test_of_volumes_without_a_file_an_export_that_is_told_to_end_says_so(
    volumes: Path, monkeypatch: pytest.MonkeyPatch, there: tuple[int, ...], told: str
) -> None:
    folder = volumes.with_name("pages")
    for number in {1, 2, 3}.difference(there):
        (folder / f"moon-{number}.brf").unlink()
    replace = os.replace

    def replaced(one: str, other: str, **folders: int) -> None:
        replace(one, other, **folders)
        raise Interrupted(signal.SIGTERM)

    monkeypatch.setattr(os, "replace", replaced)
    said = StringIO()
    job = Job(volumes, folder, PageSize(), wait=0)
    with pytest.raises(Interrupted):
        export_in_words(job, Console(BytesIO(), StringIO(), said))
    assert said.getvalue() == f"Stopped by SIGTERM.{told}\n"
    names = {f"moon-{number}.brf" for number in {1, *there}}
    assert {path.name for path in folder.iterdir()} == names


@pytest.mark.parametrize(
    "words, is_put, told",
    [
        ("new made", False, "Nothing was made."),
        ("new made", True, "made is a new book with the table ueb."),
        ("new empty", False, "empty has what it had."),
        ("new empty", True, "empty is a new book with the table ueb."),
        ("copy moon.braildesk made", False, "Nothing was made."),
        ("copy moon.braildesk made", True, "made is a copy of moon.braildesk."),
        ("copy moon.braildesk older --overwrite", False, "older is as it was."),
        (
            "copy moon.braildesk older --overwrite",
            True,
            "older is a copy of moon.braildesk.",
        ),
    ],
)
def test_who_stops_a_new_book_or_a_copy_is_told_whether_it_is_there(
    moon: Path, monkeypatch: pytest.MonkeyPatch, words: str, is_put: bool, told: str
) -> None:
    monkeypatch.chdir(moon.parent)
    Path("empty").touch()
    braildesk.new_book("older")
    before = Path("older").read_bytes()

    def put(name: str) -> None:
        its = getattr(workshop, name)

        def stopped(*words: object) -> None:
            if is_put:
                its(*words)
            raise Interrupted(signal.SIGINT)

        monkeypatch.setattr(braildesk.making, name, stopped)

    for name in ("put", "put_over"):
        put(name)
    said = StringIO()
    with pytest.raises(Interrupted) as ended:
        run_words(words.split(), Console(BytesIO(), StringIO(), said))
    assert ended.value.is_said and said.getvalue() == f"Stopped. {told}\n"
    assert Path("made").exists() == (is_put and "made" in words)
    assert (Path("empty").stat().st_size > 0) == (is_put and "empty" in words)
    is_older = Path("older").read_bytes() == before
    assert is_older == (not is_put or "older" not in words)


def test_work_beside_the_screen_ends_before_its_next_step(
    book: Path, text: Path, sit: Sit
) -> None:
    sat = sit(book)
    sat.press("i")
    sat.write(str(text))
    sat.press("enter")
    sat.desk.stop(signal.SIGTERM)
    # blank lines part the paragraphs here, so that the text is one
    text.write_text("\n\n".join(LINES))
    sat.state = sat.desk.away(sat.state, lambda line: None)
    pages = sat.state.pages
    assert pages is not None
    assert pages.lines[0] == "Stopped by SIGTERM."
    found = re.search("is in the book up to line ([0-9]+), which", pages.lines[1])
    assert found is not None
    count = (int(found[1]) + 1) // 2
    assert 1 <= count < len(LINES) and len(sat.state.book) == count


def test_an_export_beside_the_screen_ends_before_it_reads_the_next_volume(
    volumes: Path, sit: Sit
) -> None:
    sat = sit(volumes)
    sat.press("x")
    sat.write(str(volumes.with_name("pages")))
    sat.press("enter")
    sat.desk.stop(signal.SIGTERM)
    sat.state = sat.desk.away(sat.state, lambda line: None)
    assert sat.state.pages is not None
    assert sat.state.pages.lines == ("Stopped by SIGTERM. Nothing was exported.",)


@pytest.mark.parametrize("name", ["SIGTERM", "SIGINT"])
def test_an_import_of_the_screen_ends_at_a_signal_and_says_what_is_in_the_book(
    book: Path, text: Path, at: Open, name: str
) -> None:
    queue = book.with_name("queue")
    os.mkfifo(queue)
    text.write_text("\n\n".join(LINES))
    terminal = at(book, **standing_in(3, KEPT, WAIT, str(queue)))
    terminal.wait("? shows the keys.")
    terminal.keys("i", str(text), "enter")
    # until the third paragraph is kept, and then until the stand-in goes on
    queue.read_bytes()
    terminal.send_signal(signal.Signals[name])
    terminal.wait_left()
    queue.write_bytes(b"")
    assert terminal.ended() == -signal.Signals[name]
    by = "" if name == "SIGINT" else f" by {name}"
    # a slow machine says before it how far the import has come
    said = re.sub("(?m)^[0-9,]+ of [0-9,]+ .*\n", "", terminal.said)
    assert said.startswith(f"Stopped{by}.\n")
    # in lines of the terminal's width
    said = " ".join(said.split())
    found = re.search("is in the book up to line ([0-9]+), which", said)
    assert found is not None
    with once_free(book) as session:
        prints = [session.print_of(each.id) for each in session.paragraphs()]
    assert prints == LINES[: (int(found[1]) + 1) // 2]
    assert 3 <= len(prints) < len(LINES)


@pytest.mark.parametrize(
    "key, action, said",
    [
        ("x", "check", "Nothing was exported."),
        ("x", "export", "Nothing was exported."),
        ("i", "translate", "Nothing was typed."),
    ],
)
def test_a_program_that_was_stopped_keeps_no_work_of_the_screen_from_ending(
    volumes: Path, at: Open, key: str, action: str, said: str
) -> None:
    folder = volumes.parent
    queue, path = folder / "queue", folder / "stopping"
    os.mkfifo(queue)
    path.write_text(
        "#!/bin/sh\n"
        f'if [ "$1" = {action} ]; then echo $$ > "{queue}"; kill -STOP $$; fi\n'
        f"exec '{braildesk.find()}' \"$@\"\n"
    )
    path.chmod(0o755)
    text = folder / "text.txt"
    text.write_text("The sun\n")
    terminal = at(volumes, BRAILDESK=str(path))
    terminal.wait("? shows the keys.")
    terminal.keys(key, str(folder / "pages") if key == "x" else str(text), "enter")
    stopped = int(queue.read_text())
    terminal.send_signal(signal.SIGTERM)
    assert terminal.ended() == -signal.SIGTERM
    assert terminal.said == f"Stopped by SIGTERM. {said}\n"
    # and it isn't left behind
    assert not Path(f"/proc/{stopped}").exists()


@pytest.mark.usefixtures("hurried")
@pytest.mark.parametrize(
    "key, said",
    [
        ("x", "Nothing was exported.\n"),
        (
            "i",
            "braildesk didn't answer any more, and was ended. The book was opened again",
        ),
    ],
)
def test_a_session_that_was_stopped_keeps_no_work_of_the_screen_from_ending(
    volumes: Path, at: Open, key: str, said: str
) -> None:
    folder = volumes.parent
    path = folder / ("pages" if key == "x" else "text.txt")
    if key == "i":
        path.write_text("The sun\n")
    terminal = at(volumes)
    terminal.wait("? shows the keys.")
    terminal.keys(key, str(path))
    terminal.wait(path.name)
    terminal.settle()
    stopped = terminal.program()
    os.kill(stopped, signal.SIGSTOP)
    terminal.send("\r")
    terminal.wait(WAITING)
    terminal.send_signal(signal.SIGTERM)
    assert terminal.ended() == -signal.SIGTERM
    assert terminal.said.startswith(said)
    assert not Path(f"/proc/{stopped}").exists()
    assert (folder / "pages" / "moon-1.brf").read_bytes() == b"older"
    with once_free(volumes) as session:
        assert len(session.paragraphs()) == 3


def test_a_taking_back_of_the_screen_ends_at_a_signal_and_says_how_far_it_came(
    book: Path, at: Open
) -> None:
    queue = book.with_name("queue")
    os.mkfifo(queue)
    book.with_name("text.txt").write_text("One\n\nTwo\n\nThree\n")
    terminal = at(book, **standing_in(2, KEPT, WAIT, str(queue)))
    terminal.wait("? shows the keys.")
    terminal.keys("i", str(book.with_name("text.txt")), "enter")
    # the second paragraph that the import types, and then the second that is struck
    queue.read_bytes()
    queue.write_bytes(b"")
    terminal.wait("Escape goes back")
    terminal.keys("escape")
    terminal.wait("u undo")
    terminal.keys("u")
    terminal.wait("taken back? y is yes")
    terminal.keys("y")
    queue.read_bytes()
    terminal.send_signal(signal.SIGTERM)
    terminal.wait_left()
    queue.write_bytes(b"")
    assert terminal.ended() == -signal.SIGTERM
    assert terminal.said == "2 of 3 done.\n"
    # the next opening says it too
    assert (Drafts(book).taken_back() or (0, 0))[1] == 3
    with once_free(book) as session:
        assert [each.struck for each in session.paragraphs()].count(True) == 2
