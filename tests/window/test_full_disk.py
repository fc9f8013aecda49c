"""A disk that gets full while a book is worked on in the window: nothing is said to be kept, or lost."""

import subprocess
from collections.abc import Callable
from pathlib import Path

import pytest

from braildesk import Session

from conftest import Open
from reader import Reader

#: Mounts a disk of memory at a folder, with a file on it, and goes on there as the same process.
MOUNTED = 'mount -t tmpfs -o size=2m none "$1" && cp "$2" "$1" && shift 2 && exec "$@"'
TYPED = "The Moon and"

Small = Callable[..., tuple[Reader, Path]]


@pytest.fixture
def small(moon: Path, at: Open, tmp_path: Path) -> Small:
    """Opens the book on a small disk, and gives the folder of that disk as others reach it."""
    (folder := tmp_path / "small").mkdir()
    under = ["unshare", "-m", "sh", "-c", MOUNTED, "sh", str(folder), str(moon)]
    tried = subprocess.run([*under, "true"], stderr=subprocess.DEVNULL)
    if tried.returncode:
        pytest.skip("only root can mount a disk, and not in each container")

    def opened(book: Path | None = None, **settings: str) -> tuple[Reader, Path]:
        window = at(book or folder / moon.name, under=under, **settings)
        return window, Path(f"/proc/{window.program.pid}/root{folder}")

    return opened


def _fill(disk: Path) -> None:
    with (disk / "full").open("wb", buffering=0) as file:
        try:
            while file.write(bytes(4096)):
                pass
        except OSError:
            pass


def _type(window: Reader) -> None:
    window.press("F2")
    window.focus("text", "Print")
    window.press("End")
    window.caret("Print", 8)
    window.type(" and")
    window.reads("Print", TYPED)


def test_a_change_that_finds_no_room_stays_typed_and_is_kept_once_there_is_room(
    small: Small,
) -> None:
    window, disk = small()
    _type(window)
    _fill(disk)
    window.press("Return")
    window.focus("text", "Message")
    window.says("The correction of paragraph 1 was not reported as kept")
    window.says("there is no room on it")
    assert "Kept" not in window.text("Message")
    window.reads("Print", TYPED)
    (disk / "full").unlink()
    window.press("Ctrl+o")
    window.says("The book is open")
    window.reads("Print", TYPED)
    window.press("F2")
    window.focus("text", "Print")
    window.press("Return")
    window.reads("Message", "Kept: correction 1 of paragraph 1.")
    kept = disk / "moon.braildesk"
    copy = disk / "copy.braildesk"
    window.press("Ctrl+q")
    assert not copy.exists() and kept
    assert window.end() == 0


def test_a_text_that_cannot_wait_is_said_not_to(small: Small, moon: Path) -> None:
    state = moon.parent / "small"
    window, disk = small(moon, XDG_STATE_HOME=str(state))
    _fill(disk)
    _type(window)
    window.says("there is no room on the disk")
    window.press("Return")
    window.reads("Message", "Kept: correction 1 of paragraph 1.")
    window.press("Ctrl+q")
    assert window.end() == 0
    with Session(moon) as session:
        assert session.print_of(1) == TYPED


def test_volumes_that_find_no_room_are_said_not_to_be_made(
    small: Small, moon: Path
) -> None:
    window, disk = small(moon)
    _fill(disk)
    window.press("Ctrl+e")
    title = "Export, pages of 25 lines of 40 cells"
    dialog = window.dialog(title)
    field = window.first("text", dialog)
    window.insert_in(field, str(moon.parent / "small"))
    window.click(window.part("push button", "OK", dialog))
    top = window.dialog("Export")
    report = window.part("text", "Export", top)
    said = "Volume 1 could not be written: there is no room on the disk."
    window.until(said, lambda: said in window.text_in(report))
    window.press("Escape")
    window.no_dialog()
    window.press("F2")
    window.focus("text", "Print")
    window.press("Ctrl+q")
    assert window.end() == 0
    with Session(moon) as session:
        assert session.print_of(1) == "The Moon"
