"""What the tests of the desk share: the built program, and books made by it."""

import fcntl
import gc
import os
import shutil
import signal
from collections.abc import Iterator
from pathlib import Path
from tempfile import TemporaryDirectory

import pytest

import braildesk
from braildesk import Session, Typed, pipe
from braildesk.protocol.requests import Type

from scribe.screen.desk import Desk
from scribe.screen.state import Size
from sitting import Sat, Sit
from terminal import Open, Terminal
from tool import WAIT_SECONDS

# What the tests start is ended by signals, also if what runs the tests ignores them, as a shell does
# with SIGINT and SIGQUIT in the background, and nohup with SIGHUP.
signal.signal(signal.SIGINT, signal.default_int_handler)
for each in (signal.SIGHUP, signal.SIGTERM, signal.SIGQUIT):
    signal.signal(each, signal.SIG_DFL)

#: The folder in which processes that run the tests side by side say which files they have taken.
TAKEN = os.environ.get("TAKEN")
#: The file that takes longest, nearly all of it waiting: no process is to run it when the others are done.
LONGEST = "test_waiting.py"


def pytest_collection(session: pytest.Session) -> bool | None:
    """Reads no file before it is taken, if processes run the tests side by side."""
    return None if TAKEN is None or session.config.option.collectonly else True


def pytest_runtestloop(session: pytest.Session) -> bool | None:
    """Runs the tests of the files that no other process has taken."""
    if TAKEN is None or session.config.option.collectonly:
        return None
    items = taken(session, Path(TAKEN))
    item = next(items, None)
    while item is not None:
        # the next file is taken once the last test of this one is to begin
        following = next(items, None)
        item.config.hook.pytest_runtest_protocol(item=item, nextitem=following)
        if session.shouldfail:
            raise session.Failed(session.shouldfail)
        if session.shouldstop:
            raise session.Interrupted(session.shouldstop)
        item = following
    return True


def taken(session: pytest.Session, folder: Path) -> Iterator[pytest.Item]:
    """The tests of each file that this process is the first to take, which is read by then."""
    count = 0
    paths = sorted(Path(__file__).parent.glob("test_*.py"))
    for path in sorted(paths, key=lambda path: path.name != LONGEST):
        try:
            (folder / path.name).mkdir()
        except FileExistsError:
            continue
        items = session.perform_collect([str(path)])
        count += len(items)
        session.testscollected = count
        # what was imported stays, and isn't looked at again whenever garbage is
        gc.freeze()
        yield from items


SAMPLE = Path(__file__).resolve().parents[2] / "sample"


@pytest.fixture(scope="session", autouse=True)
def own_desk(tmp_path_factory: pytest.TempPathFactory) -> Iterator[None]:
    """Nothing is kept where a person's own is, and no window is shown by mistake."""
    with pytest.MonkeyPatch.context() as patched:
        patched.setenv("XDG_STATE_HOME", str(tmp_path_factory.mktemp("state")))
        for name in ("DISPLAY", "WAYLAND_DISPLAY", "QT_QPA_PLATFORM"):
            patched.delenv(name, raising=False)
        yield


@pytest.fixture(autouse=True)
def state_home(
    tmp_path_factory: pytest.TempPathFactory, monkeypatch: pytest.MonkeyPatch
) -> Path:
    """The folder in which a test keeps what isn't in a book yet."""
    home = tmp_path_factory.mktemp("state")
    monkeypatch.setenv("XDG_STATE_HOME", str(home))
    return home


@pytest.fixture(scope="session")
def program() -> str:
    """The path of the program that is tried."""
    return braildesk.find()


@pytest.fixture(scope="session")
def made_once(tmp_path_factory: pytest.TempPathFactory) -> Path:
    """A folder with an empty book, and one with the supplied table at version 1."""
    folder = tmp_path_factory.mktemp("made")
    braildesk.new_book(folder / "empty.braildesk")
    shutil.copyfile(folder / "empty.braildesk", folder / "supplied.braildesk")
    with Session(folder / "supplied.braildesk") as session:
        session.supply_table("en")
    return folder


@pytest.fixture
def empty_book(made_once: Path, tmp_path: Path) -> Path:
    """A new book."""
    return Path(
        shutil.copyfile(made_once / "empty.braildesk", tmp_path / "empty.braildesk")
    )


@pytest.fixture
def book(made_once: Path, tmp_path: Path) -> Path:
    """A book with the supplied table ``en``, at version 1."""
    return Path(
        shutil.copyfile(made_once / "supplied.braildesk", tmp_path / "book.braildesk")
    )


@pytest.fixture
def session(book: Path) -> Iterator[Session]:
    """A session with ``book``."""
    with Session(book) as opened:
        yield opened


@pytest.fixture(scope="session")
def moon_once(made_once: Path, tmp_path_factory: pytest.TempPathFactory) -> Path:
    """The book of the examples that help shows."""
    path = tmp_path_factory.mktemp("moon") / "moon.braildesk"
    shutil.copyfile(made_once / "supplied.braildesk", path)
    with Session(path) as session:
        session.put_table("plain", (SAMPLE / "plain.utb").read_bytes())
        session.add_paragraph("end", "en", "The mon is far away.")
        session.add_paragraph("end", "en", "The Tides")
        session.add_paragraph("end", "en", "Twice a day the sea comes up.")
        session.correct(1, 4, 3, "moon")
        session.add_mark(1, 5, 4, "spelled so?")
    return path


@pytest.fixture
def moon(moon_once: Path, tmp_path: Path) -> Path:
    """A copy of that book, at version 7, in a folder with the files of the sample."""
    shutil.copytree(SAMPLE, tmp_path, dirs_exist_ok=True)
    return Path(shutil.copyfile(moon_once, tmp_path / "moon.braildesk"))


@pytest.fixture(scope="session")
def big_book() -> Iterator[Path]:
    """A book of 20,000 paragraphs, of which each names its number, and which no test changes.

    Each is kept before the next one, which takes a disk minutes and a disk of memory seconds. Of the
    processes that run the tests side by side the first one that needs it makes it for all.
    """
    memory = "/dev/shm" if os.access("/dev/shm", os.W_OK) else None
    with TemporaryDirectory(prefix="scribe-big-", dir=memory) as folder:
        path = Path(folder, "big.braildesk")
        if TAKEN is None:
            make_big_book(path)
        else:
            made = Path(TAKEN).with_name(path.name)
            with open(made.with_suffix(".lock"), "w", encoding="utf-8") as lock:
                # the others wait here while it is made
                fcntl.flock(lock, fcntl.LOCK_EX)
                if not made.exists():
                    make_big_book(path)
                    shutil.copyfile(path, made)
            shutil.copyfile(made, path)
        yield path


def make_big_book(path: Path) -> None:
    """Makes that book."""
    braildesk.new_book(path)
    with Session(path) as session:
        session.supply_table("en")
        typed = session.each(
            Type("end", "en", f"Paragraph number {number} of the moon.")
            for number in range(1, 20_001)
        )
        assert all(isinstance(answer, Typed) for answer in typed)


@pytest.fixture
def at() -> Iterator[Open]:
    """Opens a book in a terminal, and closes it at the end."""
    terminals: list[Terminal] = []

    def opened(book: Path, columns: int = 80, lines: int = 24, **more: str) -> Terminal:
        terminals.append(Terminal(book, columns, lines, **more))
        return terminals[-1]

    yield opened
    for terminal in terminals:
        terminal.close()


@pytest.fixture
def hurried(monkeypatch: pytest.MonkeyPatch) -> None:
    """Has scribe at a terminal say that it waits for the program, and end without it, as it always does."""
    monkeypatch.setattr(Terminal, "is_hurried", True)


@pytest.fixture
def sit(monkeypatch: pytest.MonkeyPatch) -> Iterator[Sit]:
    """Opens a book as the screen does, and closes it at the end."""
    # that the program is waited for isn't said, as it is on a busy machine
    monkeypatch.setattr(pipe, "_LONG", 1_000 * WAIT_SECONDS)
    desks: list[Desk] = []

    def opened(path: Path, by: str | None = None, size: Size = Size(80, 24)) -> Sat:
        desks.append(Desk(path))
        return Sat(desks[-1], desks[-1].first_state(size, by, False))

    yield opened
    for desk in desks:
        try:
            desk.close()
        except braildesk.Lost:
            pass
