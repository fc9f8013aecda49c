"""What stands at a path that a person names, and is no file, or more than a machine holds."""

import io
import os
import signal
import socket
import stat
import subprocess
import sys
from collections.abc import Callable, Iterator
from functools import partial
from pathlib import Path

import pytest

import braildesk
from braildesk import CannotOpen, Why, opening
from braildesk.named_files import NoFile, TooLarge, open_file, read_file
from braildesk.opening import has_journal
from braildesk.protocol.asked import AskedOfFile, BookFile, TableFile
from braildesk.tables import text_at
from scribe.cli import run_words
from scribe.words.console import Console
from strangers import NEEDS_ROOT, in_time
from tool import WAIT_SECONDS, Ran, environment, scribe

PIPE = "it is a pipe and no file"


@pytest.fixture
def pipe(tmp_path: Path) -> Path:
    """A pipe to which nobody writes."""
    os.mkfifo(tmp_path / "pipe")
    return tmp_path / "pipe"


def test_a_file_is_read_up_to_its_most_bytes(tmp_path: Path) -> None:
    file = tmp_path / "text"
    file.write_bytes(b"moon")
    assert read_file(file, 4) == b"moon"
    with pytest.raises(TooLarge, match="it has more than 3 bytes") as caught:
        read_file(file, 3)
    # of which a sentence takes the name, as of a failure of the system
    assert caught.value.filename == str(file)


def test_a_file_with_holes_is_refused_by_its_size(tmp_path: Path) -> None:
    file = tmp_path / "text"
    with file.open("wb") as made:
        made.truncate(1 << 40)
    with pytest.raises(TooLarge):
        read_file(file, 1 << 27)


class Meanwhile(io.BufferedReader):
    """A file to which another program does something as its last bytes are read, once."""

    def __init__(
        self,
        does: Callable[[Path], object],
        path: Path,
    ) -> None:
        super().__init__(io.FileIO(path))
        self.left = [partial(does, path)]

    def read(self, size: int | None = -1) -> bytes:
        data = super().read(size)
        while self.left:
            self.left.pop()()
        return data


def grow(path: Path) -> None:
    """Adds a line to a text."""
    with open(path, "ab") as file:
        file.write(b"The tides\n")


def rewrite(path: Path) -> None:
    """Writes as many other bytes in the place of those of a text."""
    with open(path, "r+b") as file:
        file.write(b"The sun \n")
    touch(path)


def touch(path: Path) -> None:
    """Gives a text another time, as some file systems do each time that they are asked."""
    os.utime(path, (0, 0))


@pytest.mark.parametrize("does", [grow, rewrite])
def test_a_text_that_is_written_while_it_is_read_is_not_imported(
    book: Path, monkeypatch: pytest.MonkeyPatch, does: Callable[[Path], None]
) -> None:
    text = book.with_name("text.txt")
    text.write_text("The moon\n")
    with monkeypatch.context() as patched:
        opened = "braildesk.desk.manuscripts.open_file"
        patched.setattr(opened, lambda *_: Meanwhile(does, text))
        console = Console(io.BytesIO(), shown := io.StringIO(), said := io.StringIO())
        assert run_words(["import", str(book), str(text)], console) == 2
    assert (shown.getvalue(), said.getvalue()) == (
        "",
        f"{text} can't be read: it was changed while it was read. Nothing was typed.\n",
    )
    assert braildesk.check(book) == 1
    text.write_text("The moon\nThe tides\n")
    assert read_file(text, 99) == b"The moon\nThe tides\n"


def test_a_text_whose_time_alone_is_another_is_read(
    tmp_path: Path, monkeypatch: pytest.MonkeyPatch
) -> None:
    text = tmp_path / "text.txt"
    text.write_text("The moon\n")
    monkeypatch.setattr("braildesk.named_files.open_file", partial(Meanwhile, touch))
    assert read_file(text, 9) == b"The moon\n"
    with pytest.raises(TooLarge):
        read_file(text, 8)


def test_a_pipe_is_refused_and_not_waited_for(pipe: Path) -> None:
    with pytest.raises(NoFile, match=PIPE) as caught:
        read_file(pipe, 9)
    assert caught.value.filename == str(pipe)


@pytest.mark.parametrize("path", ["/dev/zero", "/dev/full"])
def test_a_device_is_refused(path: str) -> None:
    with pytest.raises(NoFile, match="it is a device and no file"):
        open_file(path)


def test_a_file_of_the_system_that_would_have_to_be_waited_for_is_refused(
    tmp_path: Path, monkeypatch: pytest.MonkeyPatch
) -> None:
    reader, writer = os.pipe()
    os.set_blocking(reader, False)
    # as of the system's log, which is a file by what is said of it
    given = open(reader, "rb")
    monkeypatch.setattr("braildesk.named_files.open_file", lambda path: given)
    with pytest.raises(NoFile, match="it would have to be waited for"):
        read_file(tmp_path / "kmsg", 10)
    os.close(writer)


def test_a_socket_is_refused(tmp_path: Path, monkeypatch: pytest.MonkeyPatch) -> None:
    # the system takes no long path for one
    monkeypatch.chdir(tmp_path)
    with socket.socket(socket.AF_UNIX) as made:
        made.bind("s")
        with pytest.raises(NoFile, match="it is a socket and no file"):
            open_file(tmp_path / "s")


def test_a_terminal_is_refused_also_by_the_name_of_what_is_handed_over() -> None:
    keys, terminal = os.openpty()
    os.set_inheritable(terminal, True)
    try:
        with pytest.raises(NoFile, match="it is a terminal and no file"):
            read_file(f"/dev/fd/{terminal}", 9)
    finally:
        os.close(keys)
        os.close(terminal)


def test_a_client_opens_no_pipe_in_place_of_a_book_or_a_table(
    book: Path, pipe: Path
) -> None:
    attempts: list[Callable[[], object]] = [
        lambda: braildesk.Session(pipe),
        lambda: braildesk.new_book(pipe),
        lambda: braildesk.check(pipe),
        lambda: braildesk.export(pipe, 1),
        lambda: braildesk.read_tables(pipe),
        lambda: braildesk.copy(pipe, pipe.with_name("copied")),
        lambda: braildesk.copy(book, pipe, overwrite=True),
        lambda: braildesk.translate(pipe, ["a"]),
        lambda: text_at(pipe),
    ]
    for attempt in attempts:
        with pytest.raises(CannotOpen) as caught:
            attempt()
        assert caught.value.why is Why.NO_FILE
        assert caught.value.sentence == (
            f"“{pipe}” is a pipe, a socket, a device or a part of the system, and no file. It was not"
            " opened. Give the path of a file."
        )
    assert stat.S_ISFIFO(pipe.lstat().st_mode)


@pytest.mark.parametrize("path", ["/proc/version", "/proc/kmsg", "/sys/power/state"])
def test_what_the_system_shows_as_a_file_is_not_opened(
    path: str, book: Path, tmp_path: Path
) -> None:
    if not os.path.isfile(path):
        pytest.skip(f"there is no {path} here")
    link = tmp_path / "link"
    link.symlink_to(path)
    attempts: list[Callable[[], object]] = [
        lambda: braildesk.Session(path),
        lambda: braildesk.new_book(path),
        lambda: braildesk.new_book(link),
        lambda: braildesk.check(path),
        lambda: braildesk.copy(path, tmp_path / "copied"),
        lambda: braildesk.copy(book, path, overwrite=True),
        lambda: braildesk.translate(path, ["a"]),
    ]
    for attempt in attempts:
        with pytest.raises(CannotOpen) as caught:
            attempt()
        assert caught.value.why is Why.NO_FILE


def test_no_book_is_opened_by_the_number_of_what_a_process_has_open(book: Path) -> None:
    empty = book.with_name("empty")
    with open(empty, "wb") as output, open(book, "rb") as file:
        attempts: list[Callable[[], object]] = [
            lambda: braildesk.new_book(f"/dev/fd/{output.fileno()}"),
            lambda: braildesk.Session(f"/proc/self/fd/{file.fileno()}"),
            lambda: braildesk.check(f"/dev/fd/{file.fileno()}"),
        ]
        for attempt in attempts:
            with pytest.raises(CannotOpen) as caught:
                attempt()
            assert caught.value.why is Why.NO_FILE
    assert empty.read_bytes() == b""


def test_a_link_to_what_is_handed_over_is_no_way_to_it(tmp_path: Path) -> None:
    link = tmp_path / "text"
    reader, writer = os.pipe()
    link.symlink_to(f"/proc/self/fd/{reader}")
    with pytest.raises(NoFile, match=PIPE):
        read_file(link, 9)
    os.set_inheritable(reader, True)
    os.write(writer, b"moon")
    os.close(writer)
    assert read_file(f"/dev/fd/{reader}", 4) == b"moon"
    os.close(reader)


@pytest.mark.parametrize(
    "words, said",
    [
        (
            ("import", "moon.braildesk", "pipe"),
            f"pipe can't be read: {PIPE}. Nothing was typed.\n",
        ),
        (
            ("table", "moon.braildesk", "en", "pipe"),
            f"The table pipe can't be read: {PIPE}. Nothing was changed.\n",
        ),
        (
            ("check-table", "pipe"),
            "“pipe” is a pipe, a socket, a device or a part of the system, and no file. It was not"
            " opened. Give the path of a file.\n",
        ),
        (
            ("try", "pipe"),
            "“pipe” is a pipe, a socket, a device or a part of the system, and no file. It was not"
            " opened. Give the path of a file.\n",
        ),
    ],
)
def test_each_command_says_that_a_text_is_no_file(
    words: tuple[str, ...], said: str, moon: Path
) -> None:
    os.mkfifo(moon.with_name("pipe"))
    ran = scribe(*words, folder=moon.parent, before=in_time)
    assert ran == Ran(2, "", said)


@pytest.mark.parametrize(
    "words",
    [
        ("new", "BOOK"),
        ("show", "BOOK"),
        ("run", "BOOK"),
        ("import", "BOOK", "moon.txt"),
        ("table", "BOOK", "en"),
        ("undo", "BOOK", "1"),
        ("pages", "BOOK"),
        ("export", "BOOK", "out"),
        ("copy", "BOOK", "copy.braildesk"),
        ("copy", "moon.braildesk", "BOOK"),
    ],
)
def test_no_command_waits_for_a_book_that_is_a_pipe(
    words: tuple[str, ...], moon: Path
) -> None:
    moon.with_name("moon.txt").write_text("The moon\n", encoding="utf-8")
    os.mkfifo(moon.with_name("pipe"))
    named = ["pipe" if word == "BOOK" else word for word in words]
    ran = scribe(*named, folder=moon.parent, before=in_time)
    assert ran.status == 2
    assert ran.said.startswith("“pipe” is ")
    assert sorted(path.name for path in moon.parent.glob("pipe*")) == ["pipe"]


@NEEDS_ROOT
def test_a_book_that_is_a_device_is_refused_and_stays_a_device(moon: Path) -> None:
    device = moon.with_name("null")
    os.mknod(device, stat.S_IFCHR | 0o666, os.makedev(1, 3))
    for command in ("new", "show"):
        ran = scribe(command, "null", folder=moon.parent, before=in_time)
        assert ran.said.startswith(
            "“null” is a pipe, a socket, a device or a part of the system, and no file."
        )
    assert stat.S_ISCHR(device.lstat().st_mode)


def test_what_the_shell_hands_over_is_imported(book: Path) -> None:
    for words in (
        'scribe import book.braildesk <(printf "The moon\\n")',
        'printf "The tides\\n" | scribe import book.braildesk /dev/stdin',
        'printf "The sand\\n" > sea.txt;'
        ' scribe import book.braildesk sea.txt --replace <(printf "sand\\tsea\\n")',
    ):
        done = subprocess.run(
            ["bash", "-c", words.replace("scribe", f"{sys.executable} -m scribe")],
            cwd=book.parent,
            env=environment(),
            capture_output=True,
            timeout=WAIT_SECONDS,
            check=True,
        )
        assert done.stdout.startswith(b"1 paragraph typed, number ")
    shown = scribe("show", book, "--print", folder=book.parent).shown
    assert all(text in shown for text in ("The moon\n", "The tides\n", "The sea\n"))


def test_requests_from_a_device_without_an_end_are_given_up(moon: Path) -> None:
    with open("/dev/zero", "rb") as endless:
        done = subprocess.run(
            [sys.executable, "-m", "scribe", "run", str(moon)],
            cwd=moon.parent,
            env=environment(),
            stdin=endless,
            capture_output=True,
            timeout=WAIT_SECONDS,
        )
    assert (done.returncode, done.stdout) == (3, b"")
    assert done.stderr.decode() == (
        "A line of standard input has over 33,554,432 bytes. No more is read.\n"
    )


@pytest.fixture
def alarm() -> Iterator[None]:
    """Ends by an exception what would wait for ever."""

    def late(number: int, frame: object) -> None:
        # which isn't taken for a failure of the system
        pytest.fail("it was waited for")

    before = signal.signal(signal.SIGALRM, late)
    signal.alarm(WAIT_SECONDS)
    yield
    signal.alarm(0)
    signal.signal(signal.SIGALRM, before)


@pytest.mark.usefixtures("alarm")
@pytest.mark.usefixtures("alarm")
def test_only_what_was_handed_over_is_read_by_its_number(tmp_path: Path) -> None:
    reader, writer = os.pipe()
    own = os.open(tmp_path, os.O_RDONLY)
    for path in (f"/dev/fd/{reader}", f"/proc/self/fd/{own}", f"/dev/fd/{10**30}"):
        with pytest.raises(FileNotFoundError):
            read_file(path, 9)
    # only what reads it could write to it
    os.set_inheritable(writer, True)
    with pytest.raises(NoFile, match=PIPE):
        read_file(f"/dev/fd/{writer}", 9)
    for each in (reader, writer, own):
        os.close(each)
    with pytest.raises(FileNotFoundError):
        read_file(f"/dev/fd/{own}", 9)


@pytest.mark.usefixtures("alarm")
def test_no_pipe_is_waited_for_that_is_put_at_a_path_after_it_was_looked_at(
    pipe: Path, monkeypatch: pytest.MonkeyPatch
) -> None:
    either: list[AskedOfFile] = [BookFile(str(pipe)), TableFile(str(pipe))]
    for asked in either:
        with monkeypatch.context() as patched:
            patched.setattr(opening, "_why_not_regular", lambda path: None)
            assert opening.why(asked) is Why.UNKNOWN
    journal = pipe.rename(f"{pipe}-journal")
    with monkeypatch.context() as patched:
        patched.setattr(stat, "S_ISREG", lambda mode: True)
        assert not has_journal(str(pipe))
    assert journal.is_fifo()
