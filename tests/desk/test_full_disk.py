"""Each command of scribe on a disk without room, or that can only be read: what is said is so."""

import json
import shutil
import subprocess
import sys
from dataclasses import dataclass
from pathlib import Path

import pytest

import braildesk
from braildesk import DeskError, Session
from tool import environment
from words import LOOKING, WORDS

#: Runs commands, each with a fresh copy of a folder on a disk of memory that refuses more then.
EACH = """\
import json, os, shutil, subprocess, sys
from io import BytesIO, StringIO
import braildesk
from scribe.cli import run_words
from scribe.words.console import Console

kind, small, sample = sys.argv[1:]
work, full = os.path.join(small, "work"), os.path.join(small, "full")
os.mkdir(work)
os.chdir("/")


def refuse():
    if kind == "read-only":
        subprocess.run(["mount", "-o", "remount,ro", small], check=True)
        return
    filler = os.open(full, os.O_WRONLY | os.O_CREAT)
    try:
        while os.write(filler, bytes(4096)):
            pass
    except OSError:
        os.close(filler)


def allow():
    if kind == "read-only":
        subprocess.run(["mount", "-o", "remount,rw", small], check=True)
    else:
        os.unlink(full)


for words in json.load(sys.stdin):
    shutil.rmtree(work)
    shutil.copytree(sample, work)
    refuse()
    os.chdir(work)
    shown, said = StringIO(), StringIO()
    status = run_words(words, Console(BytesIO(b"strike 2\\n"), shown, said))
    os.chdir("/")
    allow()
    files = sorted(set(os.listdir(work)) - set(os.listdir(sample)) - {"moon.braildesk-wal"})
    pages = os.path.join(work, "pages")
    files += os.listdir(pages) if os.path.isdir(pages) else []
    version = braildesk.check(os.path.join(work, "moon.braildesk"))
    print(json.dumps([status, shown.getvalue(), said.getvalue(), files, version]))
"""


SAMPLE = Path(__file__).resolve().parents[2] / "sample"
#: Mounts a disk of memory at a folder, which goes with the process, and goes on there.
MOUNTED = 'mount -t tmpfs -o size=2m none "$1" && shift && exec "$@"'
#: What comes of edit on a full disk is in test_screen_tired.py.
NAMES = [name for name in WORDS if name not in LOOKING]


@dataclass(frozen=True)
class Came:
    """What came of a command, the files that it left, and the version of the book after it."""

    status: int
    shown: str
    said: str
    files: list[str]
    version: int


@pytest.fixture(scope="module")
def sample(moon_once: Path, tmp_path_factory: pytest.TempPathFactory) -> Path:
    """The folder of the sample, with a book of which paragraph 3 is struck, and a text."""
    folder = tmp_path_factory.mktemp("sample")
    shutil.copytree(SAMPLE, folder, dirs_exist_ok=True)
    shutil.copyfile(moon_once, folder / "moon.braildesk")
    with Session(folder / "moon.braildesk") as session:
        session.strike(3)
    (folder / "text.txt").write_text("The sun\n")
    return folder


def may_mount(folder: Path) -> bool:
    """Whether a disk can be mounted at a folder here."""
    mounted = ["unshare", "-m", "sh", "-c", MOUNTED, "sh", str(folder), "true"]
    return subprocess.run(mounted, stderr=subprocess.DEVNULL).returncode == 0


def came_of(kind: str, sample: Path, small: Path) -> dict[str, Came]:
    """What comes of each command on a disk of a kind."""
    if not may_mount(small):
        pytest.skip("only root can mount a disk, and not in each container")
    done = subprocess.run(
        ["unshare", "-m", "sh", "-c", MOUNTED, "sh", str(small), sys.executable]
        + ["-c", EACH, kind, str(small), str(sample)],
        # the folder of the user's own is on another disk
        env=environment(XDG_STATE_HOME=str(sample.parent), TMPDIR=str(small)),
        input=json.dumps([[name, *WORDS[name]] for name in NAMES]).encode(),
        capture_output=True,
    )
    assert done.returncode == 0, done.stderr.decode()
    lines = done.stdout.splitlines()
    return {name: Came(*json.loads(line)) for name, line in zip(NAMES, lines)}


@pytest.fixture(scope="module")
def on_full(sample: Path, tmp_path_factory: pytest.TempPathFactory) -> dict[str, Came]:
    """What comes of each command on a disk that is full."""
    return came_of("full", sample, tmp_path_factory.mktemp("full"))


@pytest.fixture(scope="module")
def on_read_only(
    sample: Path, tmp_path_factory: pytest.TempPathFactory
) -> dict[str, Came]:
    """What comes of each command on a disk that can only be read."""
    return came_of("read-only", sample, tmp_path_factory.mktemp("read-only"))


#: Commands that write nothing.
READING = (
    *("check-table", "try", "show", "list", "history", "compare", "find", "marks"),
    *("next", "pages", "volumes", "bring"),
)
#: How that which could not be kept is named by the commands that change the book.
CHANGING = {
    "run": "The striking of paragraph 2",
    "talk": "What was typed last may not be in the book: strike 2 The striking of paragraph 2",
    "table": "The table own",
    "import": "The new paragraph “The sun”",
    "change": "The correction of paragraph 1",
    "change-all": "The correction of paragraph 1",
    "mark": "The mark “how far?” in paragraph 1",
    "undo": "The undo in paragraph 1",
    "resolve": "The resolving of mark 1",
    "strike": "The striking of paragraph 1",
    "restore": "The restoring of paragraph 3",
    "heading": "The style heading of paragraph 1",
    "body": "The style body of paragraph 1",
    "volume": "That paragraph 1 begins a volume",
    "move": "The move of paragraph 2",
    "retable": "The table plain of paragraph 2",
}
#: What the others say, which make files.
MAKING = {
    "new": "There is no room on the disk of “other.braildesk”. Nothing was changed. Make room there,"
    " and try again.",
    "export": "Volume 1 could not be written: there is no room on the disk. pages/moon-1.brf was not"
    " made.",
    "proof": "moon.html could not be written: there is no room on the disk.",
    "copy": "The copy “copy.braildesk” could not be written: there is no room on the disk.",
}


def test_each_command_is_tried_on_a_full_disk() -> None:
    assert sorted([*READING, *CHANGING, *MAKING]) == sorted(NAMES)


@pytest.mark.parametrize("name", READING)
def test_a_command_that_writes_nothing_needs_no_room(
    name: str, on_full: dict[str, Came]
) -> None:
    assert (on_full[name].status, on_full[name].version) == (0, 8)
    assert on_full[name].shown


@pytest.mark.parametrize("name", CHANGING)
def test_a_change_that_finds_no_room_is_said_not_to_be_kept_and_is_not(
    name: str, on_full: dict[str, Came]
) -> None:
    found = on_full[name]
    assert (found.status, found.version) == (3, 8)
    said = " ".join(found.said.split())
    assert said.startswith(
        f"{CHANGING[name]} was not reported as kept, since the file of the book could not be"
        " written or read. See to the disk: there is no room on it."
    )
    assert "kept" not in found.shown and "now" not in found.shown


@pytest.mark.parametrize("name", MAKING)
def test_a_file_that_finds_no_room_is_said_not_to_be_made_and_is_not(
    name: str, on_full: dict[str, Came]
) -> None:
    found = on_full[name]
    assert (found.status, found.shown) == (3, "")
    assert found.said.startswith(MAKING[name])
    assert found.files == []


#: Commands that open no book, and those that look at a copy of it.
WITHOUT_BOOK = ("check-table", "try", "bring")
OF_COPY = "show list history compare find marks next volumes pages".split()


@pytest.mark.parametrize("name", NAMES)
def test_a_disk_that_can_only_be_read_is_said(
    name: str, on_read_only: dict[str, Came]
) -> None:
    found = on_read_only[name]
    assert (found.files, found.version) == ([], 8)
    if name in (*WITHOUT_BOOK, *OF_COPY):
        assert found.status == 0 and found.shown + found.said
    elif name == "proof":
        assert (found.status, found.shown) == (3, "")
        assert found.said == "moon.html could not be written: Read-only file system.\n"
    elif name == "export":
        assert (found.status, found.shown) == (3, "")
        assert found.said == (
            "The folder pages can't be made: Read-only file system. Nothing was exported.\n"
        )
    elif name == "copy":
        assert found.said == (
            "The copy “copy.braildesk” could not be written: Read-only file system.\n"
        )
        assert found.status == 3
    else:
        file = "other.braildesk" if name == "new" else "moon.braildesk"
        assert (found.status, found.shown) == (3, "")
        # talk says it in lines of a width
        assert " ".join(found.said.split()) == (
            f"The disk of “{file}” can only be read, and a book is opened where it can be written."
            " Nothing was changed. Go on with a copy, or a new book, on another disk."
        )


@pytest.mark.parametrize(
    "size, failed",
    [
        ("40k", "takes no file"),
        ("320k", "could not keep all of it"),
        ("368k", "could not keep all of it"),
    ],
)
def test_a_new_book_says_that_the_temporary_folder_has_no_room(
    tmp_path: Path, size: str, failed: str
) -> None:
    small, book = tmp_path / "small", tmp_path / "new.braildesk"
    small.mkdir()
    if not may_mount(small):
        pytest.skip("only root can mount a disk, and not in each container")
    done = subprocess.run(
        ["unshare", "-m", "sh", "-c", MOUNTED.replace("2m", size), "sh", str(small)]
        + [sys.executable, "-m", "scribe", "new", str(book)],
        env=environment(TMPDIR=str(small), COLUMNS="400"),
        stdin=subprocess.DEVNULL,
        capture_output=True,
        text=True,
    )
    assert done.returncode == 3
    assert done.stderr == (
        f"The new book “{book}” could not be written, and there is none: {small}, the temporary"
        f" folder, {failed}. Let TMPDIR name a folder with room.\n"
    )
    assert not book.exists()


def test_a_place_of_the_system_is_not_said_to_have_no_room() -> None:
    for place in ("/proc/book", "/sys/book", "/dev/fd/book"):
        with pytest.raises(DeskError) as caught:
            braildesk.new_book(place)
        assert "no room" not in caught.value.sentence


@pytest.mark.parametrize("count", [100, 2000], ids=["its answer", "the document"])
def test_an_import_names_the_folder_for_temporary_files_that_has_no_room(
    count: int, sample: Path, tmp_path: Path
) -> None:
    if not may_mount(tmp_path):
        pytest.skip("only root can mount a disk, and not in each container")
    text = sample / "long.md"
    text.write_text("The moon is far from the sea.\n\n" * count)
    mounted = MOUNTED.replace("2m", "8k")
    done = subprocess.run(
        ["unshare", "-m", "sh", "-c", mounted, "sh", str(tmp_path), sys.executable]
        + ["-m", "scribe", "import", "moon.braildesk", "long.md", "--format"]
        + ["markdown"],
        cwd=sample,
        env=environment(TMPDIR=str(tmp_path), COLUMNS="400"),
        capture_output=True,
    )
    assert done.stderr.decode() == (
        f"long.md can't be read by pandoc: its temporary files are in “{tmp_path}”, and there is no room"
        " on the disk. Let TMPDIR name a folder with room. Nothing was typed.\n"
    )
