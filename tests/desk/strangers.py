"""Another person at the same machine, whom only root can play."""

import os
import signal
from collections.abc import Callable, Iterator
from contextlib import contextmanager
from pathlib import Path

import pytest

from braildesk import fenced

from tool import WAIT_SECONDS

# the numbers of nobody and nogroup, as on Debian
STRANGER = 65_534
NEEDS_ROOT = pytest.mark.skipif(
    os.geteuid() != 0, reason="only root can act as two persons"
)
NEEDS_FENCE = pytest.mark.skipif(
    not fenced.is_known(), reason="the system can't keep a program to some files"
)


def in_time() -> None:
    """Has this process end where it would wait for ever."""
    signal.alarm(WAIT_SECONDS)


def become_stranger(number: int = STRANGER) -> None:
    """Has this process be the stranger's, for good."""
    os.setgroups([])
    os.setgid(number)
    os.setuid(number)


def as_stranger(act: Callable[[], object], number: int = STRANGER) -> str:
    """The name of the exception that an act of the stranger ends by, or nothing."""
    return _ended(*_begun(act, number))


@contextmanager
def beside_stranger(act: Callable[[], object]) -> Iterator[None]:
    """A stranger who is there before what is done beside his act, and is seen to end well after it.

    One who began meanwhile would have, until he ends, what is open by then, with its locks.
    """
    begun = _begun(act, STRANGER)
    try:
        yield
    finally:
        how = _ended(*begun)
    assert how == ""


def _begun(act: Callable[[], object], number: int) -> tuple[int, int]:
    """A process in which the stranger acts, and where the name is read by which he ends."""
    reader, writer = os.pipe()
    child = os.fork()
    if child == 0:
        try:
            become_stranger(number)
            act()
        except BaseException as error:
            os.write(writer, type(error).__name__.encode())
        finally:
            os._exit(0)
    os.close(writer)
    return child, reader


def _ended(child: int, reader: int) -> str:
    """The name of the exception that an act ended by, or of the signal that ended it, or nothing."""
    with open(reader, "rb") as said:
        name = said.read().decode()
    _, how = os.waitpid(child, 0)
    return name or (
        signal.Signals(os.WTERMSIG(how)).name if os.WIFSIGNALED(how) else ""
    )


def lead_to(folder: Path) -> None:
    """Lets anybody come to a folder of a test, through those that only root may enter."""
    for each in (folder, *folder.parents):
        if each != Path("/") and each.stat().st_uid == os.geteuid():
            each.chmod(each.stat().st_mode | 0o711)
