"""A book that another program has open, looked at and copied meanwhile."""

import os
import shutil
import signal
import stat
import struct
import subprocess
import tempfile
import threading
from collections.abc import Callable
from concurrent.futures import ThreadPoolExecutor
from contextlib import AbstractContextManager, ExitStack, closing
from pathlib import Path
from typing import Any, BinaryIO

import pytest

from braildesk import (
    CannotOpen,
    Displaced,
    Failed,
    Lost,
    Session,
    SessionEnded,
    Why,
    check,
    program,
)
from braildesk import snapshot as own
from braildesk.desk.copied_book import copied_book, copied_session
from braildesk.desk.manuscripts import read_with_access
from braildesk.files import contents
from braildesk.held import copy_held, held
from braildesk.making import copy_open
from braildesk.opening import LOGS, MAGIC, has_work, take_shared
from braildesk.protocol.asked import BookFile
from braildesk.protocol.requests import Correct, Restore, Strike
from braildesk.snapshot import copied, snapshot

from scribe.cli.opened_book import without_log
from scribe.words.export import copy_of_open
from strangers import NEEDS_ROOT, STRANGER, as_stranger, lead_to
from tool import scribe

#: How many snapshots are taken beside a session that writes without a pause, and how many at once.
SNAPSHOTS, AT_ONCE = 200, 16
#: Whom an entry of a list of access is about that names nobody.
NOBODY = 2**32 - 1


class Writer(threading.Thread):
    """A session that corrects a paragraph without a pause, and counts what was acknowledged."""

    def __init__(self, book: Path) -> None:
        super().__init__()
        self._book = book
        self.version = 0
        self.is_to_end = False

    def run(self) -> None:
        with Session(self._book) as session:
            while not self.is_to_end:
                asked = (Correct(1, 0, 1, text) for text in "ab" * 50)
                for _ in session.each(asked):
                    self.version = session.last_version


def taken(book: Path, writer: Writer) -> tuple[int, int]:
    """The version of a snapshot, and the one that was acknowledged before it was begun.

    The program alone opens it, which checks it whole.
    """
    kept = writer.version
    with snapshot(book) as copied:
        words = [program.find(), "check", "--", str(copied)]
        done = subprocess.run(words, stdout=subprocess.PIPE, check=True)
    return int(done.stdout.removeprefix(b"ok ")), kept


def test_a_snapshot_has_every_command_that_was_kept_before_it(
    moon: Path, monkeypatch: pytest.MonkeyPatch
) -> None:
    if os.access("/dev/shm", os.W_OK):
        monkeypatch.setattr(tempfile, "tempdir", "/dev/shm")
    writer = Writer(moon)
    writer.start()
    try:
        while not writer.version:
            pass
        with ThreadPoolExecutor(AT_ONCE) as several:
            found = list(several.map(lambda _: taken(moon, writer), range(SNAPSHOTS)))
        # the log is emptied meanwhile, which happens at each 1,000 of its pages
        while writer.version <= 1_000:
            found.append(taken(moon, writer))
        assert all(copied >= kept for copied, kept in found), found
    finally:
        writer.is_to_end = True
        writer.join()


def test_a_book_is_copied_once_more_where_its_log_is_emptied_between_file_and_log(
    moon: Path, monkeypatch: pytest.MonkeyPatch
) -> None:
    emptied: list[bool] = []
    with Session(moon) as session:

        def at_the_log(log: str) -> bool:
            """Goes on to the log once it was emptied into the file, which has as many bytes as before."""
            if not emptied:
                size, front = moon.stat().st_size, own._header(log)
                while own._header(log) == front:
                    for _ in session.each([Strike(2), Restore(2)] * 50):
                        pass
                emptied.append(moon.stat().st_size == size)
            return has_work(log)

        # what the log alone has until then, on a page of the file that isn't written later
        session.correct(1, 0, 1, "t")
        monkeypatch.setattr("braildesk.held.has_work", at_the_log)
        with copied_session(moon) as (copied, _):
            assert copied.last_version == session.last_version
            assert copied.history_of(1) == session.history_of(1)
    assert emptied == [True]


def test_a_book_is_copied_once_more_however_long_a_copy_takes(
    moon: Path, monkeypatch: pytest.MonkeyPatch
) -> None:
    tried: list[bool] = []

    def taken_long(file: BinaryIO, log: str, made: Path) -> os.stat_result:
        """Copies a book whose log is emptied meanwhile, but for the last time."""
        found = copy_held(file, log, made)
        tried.append(True)
        if len(tried) < 3:
            os.utime(moon)
        return found

    monkeypatch.setattr(own, "_SECONDS", 0)
    monkeypatch.setattr(own, "copy_held", taken_long)
    with Session(moon) as session, snapshot(moon) as now:
        assert check(now) == session.last_version
    assert len(tried) == 3


def test_a_snapshot_leaves_nothing_and_changes_nothing(moon: Path) -> None:
    folder = moon.parent
    with Session(moon) as session:
        session.strike(2)
        there = {path.name: path.read_bytes() for path in folder.iterdir()}
        with snapshot(moon) as copied:
            assert check(copied) == session.last_version
        assert not copied.exists()
        assert {path.name: path.read_bytes() for path in folder.iterdir()} == there
        session.restore(2)


def test_a_snapshot_of_a_book_that_is_closed_is_that_book(moon: Path) -> None:
    with snapshot(moon) as copied:
        assert check(copied) == check(moon)


@pytest.mark.parametrize(
    "words",
    [
        *("show", "list", "history", "volumes", "marks", "next", "pages"),
        *("compare {} print.txt", "find {} moon"),
    ],
)
def test_a_book_is_looked_at_while_it_is_open(moon: Path, words: str) -> None:
    words = words if "{}" in words else f"{words} {{}}"
    asked = words.format(moon.name).split()
    before = scribe(*asked, folder=moon.parent)
    with Session(moon) as session:
        session.strike(2)
        session.restore(2)
        ran = scribe(*asked, folder=moon.parent)
        version = session.last_version
    assert (ran.status, ran.shown) == (0, before.shown)
    assert ran.said == (
        f"Another program has {moon.name} open. This is what it had kept a moment ago, at version"
        f" {version}.\n{before.said}"
    )


def test_a_book_is_copied_while_it_is_open(moon: Path) -> None:
    moon.chmod(0o640)
    with Session(moon) as session:
        session.strike(2)
        ran = scribe("copy", moon.name, "other", folder=moon.parent)
        version = session.last_version
    assert ran.status == 0
    assert ran.shown == f"other is a copy of {moon.name}, at version {version}.\n"
    assert ran.said == f"Another program has {moon.name} open, and goes on with it.\n"
    copied = moon.parent / "other"
    assert check(copied) == version
    assert stat.S_IMODE(copied.stat().st_mode) == 0o640
    assert not (moon.parent / "other-wal").exists() or check(copied) == version


def test_of_an_open_book_whose_log_was_removed_it_is_said_that_the_newest_may_be_missing(
    moon: Path,
) -> None:
    before = check(moon)
    missing = (
        "No log is beside the book, so what that program kept last may be missing."
    )
    with Session(moon) as session:
        session.strike(2)
        Path(f"{moon}-wal").unlink()
        shown = scribe("show", moon.name, folder=moon.parent, COLUMNS="400")
        copied = scribe("copy", moon.name, "other", folder=moon.parent, COLUMNS="400")
    assert shown.said == (
        f"Another program has {moon.name} open. {missing} This is what is there, at version"
        f" {before}.\n"
    )
    assert (copied.status, copied.said) == (
        0,
        f"Another program has {moon.name} open, and goes on with it. {missing}\n",
    )
    assert check(moon) == before + 1


@NEEDS_ROOT
@pytest.mark.parametrize("is_older", [False, True])
def test_of_an_open_book_whose_log_a_stranger_replaced_it_is_said_that_the_newest_may_be_missing(
    moon: Path, is_older: bool
) -> None:
    log, older = Path(f"{moon}-wal"), moon.with_name("older")
    moon.parent.chmod(0o777)
    lead_to(moon)

    def replace() -> None:
        log.rename(moon.with_name("aside"))
        older.rename(log) if is_older else log.touch()

    before = check(moon)
    missing = (
        "That program doesn't have the log open that is beside the book, so what it kept last may be"
        " missing."
    )
    with Session(moon) as session:
        session.strike(2)
        shutil.copyfile(log, older)
        session.restore(2)
        assert as_stranger(replace) == ""
        shown = scribe("show", moon.name, folder=moon.parent, COLUMNS="400")
        copied = scribe("copy", moon.name, "other", folder=moon.parent, COLUMNS="400")
    version = before + is_older
    assert shown.said == (
        f"Another program has {moon.name} open. {missing} This is what is there, at version {version}.\n"
    )
    assert (copied.status, copied.said) == (
        0,
        f"Another program has {moon.name} open, and goes on with it. {missing}\n",
    )


def test_of_a_book_that_a_program_only_reads_nothing_is_said_of_its_log(
    moon: Path,
) -> None:
    Path(f"{moon}-wal").touch()
    with open(moon, "rb") as file:
        assert take_shared(file)
        assert without_log(moon) == ""


def test_what_is_made_of_a_book_that_is_open_is_for_those_on_its_list_of_access(
    moon: Path,
) -> None:
    # another user may read and write, and the group nothing, also where the folder gives it more
    def packed(of_group: int) -> bytes:
        listed = (1, 6, NOBODY), (2, 6, 65_534), (4, of_group, NOBODY)
        entries = *listed, (16, 6, NOBODY), (32, 0, NOBODY)
        return b"".join(
            [struct.pack("<I", 2), *(struct.pack("<HHI", *each) for each in entries)]
        )

    folder = moon.with_name("folder")
    folder.mkdir()
    try:
        os.setxattr(moon, "system.posix_acl_access", packed(0))
        os.setxattr(folder, "system.posix_acl_default", packed(4))
    except OSError:
        pytest.skip("the file system keeps no such lists")
    with Session(moon):
        for words in (("copy", moon, "copy"), ("proof", moon, "page.html")):
            ran = scribe(*words, folder=folder)
            assert (ran.status, "has" in ran.said) == (0, True)
            made = folder / words[-1]
            assert os.getxattr(made, "system.posix_acl_access") == packed(0)


@NEEDS_ROOT
@pytest.mark.parametrize("may", [4, 6])
@pytest.mark.parametrize("is_open", [False, True])
def test_what_is_made_of_a_book_by_who_is_on_its_list_alone_is_for_its_group(
    moon: Path, may: int, is_open: bool
) -> None:
    shared, office = moon.with_name("shared"), 7
    book = shared / "moon.braildesk"
    shared.mkdir()
    os.chown(shared, -1, office)
    shared.chmod(0o2777)
    lead_to(shared)
    shutil.copyfile(moon, book)
    listed = (1, 6, NOBODY), (2, may, STRANGER), (4, 6, NOBODY), (16, 6, NOBODY)
    entries = [struct.pack("<HHI", *each) for each in (*listed, (32, 0, NOBODY))]
    try:
        names = b"".join([struct.pack("<I", 2), *entries])
        os.setxattr(book, "system.posix_acl_access", names)
    except OSError:
        pytest.skip("the file system keeps no such lists")
    words = ["copy {} other.braildesk", "proof {} page.html", "export {} pages"]
    words.append("export {} pages --page 1")

    def make() -> None:
        os.umask(0o002)
        # a book that is open isn't exported
        for each in words[: 2 if is_open else 4]:
            assert scribe(*each.format(book).split(), folder=shared).status == 0
        _, access = read_with_access(book)
        assert (access.mode, access.group) == (0o660, office)

    with ExitStack() as opened:
        if is_open:
            opened.enter_context(Session(book))
        assert as_stranger(make) == ""
    ending = ".html", ".brf"
    made = [each for each in shared.rglob("*.*") if each.suffix in ending]
    assert len(made) == (1 if is_open else 3)
    made.append(shared / "other.braildesk")
    for each in made:
        found = each.stat()
        assert (found.st_uid, found.st_gid) == (STRANGER, office)
        assert stat.S_IMODE(found.st_mode) == 0o660


@NEEDS_ROOT
@pytest.mark.parametrize("mode", [0o640, 0o460])
def test_a_copy_of_an_open_book_has_the_owner_of_the_book_where_he_may_be_given(
    moon: Path, mode: int
) -> None:
    os.chown(moon, STRANGER, 7)
    moon.chmod(mode)
    with Session(moon):
        ran = scribe("copy", moon.name, "other", folder=moon.parent)
        with copied_book(moon) as copy, open(copy.path, "rb") as file:
            assert copy.access_of(file.fileno()) is copy.access
    assert ran.status == 0
    found = moon.with_name("other").stat()
    assert (found.st_uid, found.st_gid) == (STRANGER, 7)
    assert stat.S_IMODE(found.st_mode) == mode


def test_what_is_put_in_the_place_of_a_copy_of_an_open_book_is_not_copied(
    moon: Path, monkeypatch: pytest.MonkeyPatch
) -> None:
    private, other = moon.with_name("private"), moon.with_name("other")
    shutil.copyfile(moon, private)
    monkeypatch.setattr(tempfile, "tempdir", str(moon.parent))

    def swapped(*given: Any) -> AbstractContextManager[BinaryIO]:
        (made,) = moon.parent.glob(".braildesk-*/made-by-braildesk")
        # as others may do in a temporary folder in which they may write
        private.replace(made)
        return held(*given)

    monkeypatch.setattr("braildesk.making.held", swapped)
    with pytest.raises(Failed) as caught:
        copy_open(moon, other)
    assert "another program put something else in the place" in caught.value.sentence
    assert not other.exists()


def test_what_is_put_in_the_place_of_a_copy_gives_what_is_read_of_it_its_own_access(
    moon: Path,
) -> None:
    private = moon.with_name("private")
    shutil.copyfile(moon, private)
    moon.chmod(0o664)
    private.chmod(0o600)
    with copied_book(moon) as copy:
        for wanted in (0o664, 0o600):
            with open(copy.path, "rb") as file, Session(copy.path) as session:
                its = copy.access_of(file.fileno()), copy.access_by(session)
            assert [each.mode for each in its] == [wanted, wanted]
            if private.exists():
                # as others may do in a temporary folder in which they may write
                private.replace(copy.path)


@NEEDS_ROOT
def test_what_a_screen_exports_of_an_open_book_is_for_the_group_of_the_book(
    moon: Path,
) -> None:
    shutil.chown(moon, STRANGER, 7)
    moon.chmod(0o660)
    lead_to(moon.parent)
    moon.parent.chmod(0o777)

    def copy() -> None:
        with Session(moon) as session:
            with copy_of_open(session, moon, lambda: None) as copied:
                assert copied is not None
                assert (copied.access.mode, copied.access.group) == (0o660, 7)

    assert as_stranger(copy) == ""


@NEEDS_ROOT
@pytest.mark.parametrize("has_page", [False, True])
def test_a_book_is_looked_at_where_a_log_that_its_owner_may_not_read_has_no_work(
    moon: Path, has_page: bool
) -> None:
    folder, log = moon.parent, Path(f"{moon}-wal")
    if has_page:
        with Session(moon) as session:
            session.strike(2)
            os.kill(session.pid, signal.SIGKILL)
            with pytest.raises(SessionEnded):
                session.version()
    else:
        # as a session of somebody in the group of the book may leave it
        log.touch()
    for path, owner in ((moon, STRANGER), (log, STRANGER - 1)):
        os.chown(path, owner, STRANGER - 2)
        path.chmod(0o660)
    lead_to(folder)
    folder.chmod(0o1777)
    words = "show {}", "export {} out", "proof {} page.html"

    def look() -> None:
        asked = [each.format(moon).split() for each in words]
        ran = [scribe(*each, folder=folder).status for each in asked]
        assert ran == [2 if has_page else 0] * 3

    assert as_stranger(look) == ""


def test_a_pipe_at_the_path_is_no_book(tmp_path: Path) -> None:
    os.mkfifo(tmp_path / "pipe")
    with pytest.raises(CannotOpen):
        with snapshot(tmp_path / "pipe"):
            pass


def killed_in(deed: Callable[[], object]) -> None:
    """Has a copy of this process do something in which it kills itself."""
    child = os.fork()
    if child == 0:
        try:
            deed()
        finally:
            os._exit(1)
    assert os.waitpid(child, 0)[1] == signal.SIGKILL


def kill_self(*_: object) -> None:
    os.kill(os.getpid(), signal.SIGKILL)


def in_snapshot(book: Path) -> None:
    with snapshot(book):
        kill_self()


def in_tables(book: Path) -> None:
    with contents(BookFile(str(book))) as database:
        database.execute("SELECT count(*) FROM tab").fetchall()
        kill_self()


def in_judging(book: Path) -> None:
    def fault_in(path: Path, is_alone: bool) -> None:
        if not is_alone:
            kill_self()

    setattr(program, "fault_in", fault_in)
    program.judge(BookFile(str(book)), program.find())


@pytest.mark.parametrize("deed", [in_snapshot, in_tables, in_judging])
def test_a_copy_that_a_killed_reader_left_is_cleared_away_by_the_next_one(
    moon: Path, monkeypatch: pytest.MonkeyPatch, deed: Callable[[Path], None]
) -> None:
    session = Session(moon)
    session.strike(2)
    os.kill(session.pid, signal.SIGKILL)
    with pytest.raises(Lost), closing(session):
        session.version()
    temporary = moon.parent / "temporary"
    temporary.mkdir()
    monkeypatch.setattr(tempfile, "tempdir", str(temporary))
    killed_in(lambda: deed(moon))
    left = list(temporary.iterdir())
    assert left and all(stat.S_IMODE(each.stat().st_mode) == 0o700 for each in left)
    with snapshot(moon):
        pass
    assert not list(temporary.iterdir())


def test_a_link_in_place_of_a_snapshot_gives_no_file_another_mode(
    moon: Path, monkeypatch: pytest.MonkeyPatch
) -> None:
    moon.chmod(0o666)
    private, shared = moon.parent / "private", moon.parent / "shared"
    private.write_text("mine")
    private.chmod(0o600)
    shared.mkdir()
    monkeypatch.setattr(tempfile, "tempdir", str(shared))

    def copied(file: BinaryIO, log: str, made: Path) -> os.stat_result:
        found = copy_held(file, log, made)
        # as somebody may who writes in the folder that TMPDIR names
        made.parent.rename(shared / "moved")
        made.parent.mkdir()
        made.symlink_to(private)
        return found

    monkeypatch.setattr(own, "copy_held", copied)
    with pytest.raises(Failed) as caught:
        with snapshot(moon):
            pass
    assert "another program put something else in the place" in caught.value.sentence
    assert stat.S_IMODE(private.stat().st_mode) == 0o600


def test_a_book_that_is_replaced_meanwhile_is_looked_at_as_it_is_then(
    moon: Path, made_once: Path, monkeypatch: pytest.MonkeyPatch
) -> None:
    other = Path(shutil.copyfile(made_once / "empty.braildesk", moon.parent / "other"))

    def copied(file: BinaryIO, log: str, made: Path) -> os.stat_result:
        found = copy_held(file, log, made)
        if other.exists():
            other.rename(moon)
        return found

    monkeypatch.setattr(own, "copy_held", copied)
    with snapshot(moon) as now:
        assert check(now) == 0
    moon.unlink()
    with pytest.raises(CannotOpen) as caught:
        with snapshot(moon):
            pass
    assert caught.value.why is Why.MISSING


@pytest.mark.parametrize("is_away", [False, True])
def test_no_log_of_another_book_is_copied_that_has_the_name_of_its_own_for_a_moment(
    tmp_path: Path, monkeypatch: pytest.MonkeyPatch, is_away: bool
) -> None:
    book, log, other, aside = (tmp_path / it for it in ("b", "b-wal", "o-wal", "a-wal"))
    book.write_bytes(MAGIC + bytes(84))
    log.write_bytes(LOGS[0] + b"its own".ljust(100))
    other.write_bytes(LOGS[0] + b"another".ljust(100))
    names = [(log, aside), (other, log)][: 1 if is_away else 2]

    def copied(file: BinaryIO, path: str, made: Path) -> os.stat_result:
        changed = list(reversed(names))
        while names:
            os.rename(*names.pop(0))
        found = copy_held(file, path, made)
        for name, by_then in changed:
            by_then.rename(name)
        return found

    monkeypatch.setattr(own, "copy_held", copied)
    with snapshot(book) as copy:
        assert Path(f"{copy}-wal").read_bytes() == log.read_bytes()
    assert b"its own" in log.read_bytes()


def test_no_other_book_is_copied_in_place_of_an_open_one(tmp_path: Path) -> None:
    book, other = tmp_path / "book", tmp_path / "other"
    for path in (book, other):
        path.write_bytes(MAGIC + bytes(84))
    with open(book, "rb") as file:
        with copied(book, file.fileno()) as (copy, made):
            assert copy.read_bytes() == book.read_bytes()
            assert os.path.samestat(copy.stat(), made)
        other.replace(book)
        with pytest.raises(CannotOpen), copied(book, file.fileno()):
            pass


def test_an_open_book_is_not_exported_from_another_at_its_path_meanwhile(
    moon: Path, monkeypatch: pytest.MonkeyPatch
) -> None:
    other, aside = moon.with_name("other"), moon.with_name("aside")
    shutil.copyfile(moon, other)
    copy_of = own._copy

    def swapped(*words: Any) -> None:
        moon.rename(aside)
        other.rename(moon)
        try:
            copy_of(*words)
        finally:
            moon.rename(other)
            aside.rename(moon)

    with copied_book(moon) as closed:
        assert closed.access.mode == stat.S_IMODE(moon.stat().st_mode)
    with Session(moon) as session:
        with copy_of_open(session, moon, lambda: None) as copy:
            assert copy is not None
        monkeypatch.setattr(own, "_copy", swapped)
        with pytest.raises(CannotOpen), copied_book(moon):
            pass
        with copy_of_open(session, moon, lambda: None) as copy:
            assert copy is None
        other.replace(moon)
        monkeypatch.undo()
        with pytest.raises(Displaced):
            with copy_of_open(session, moon, lambda: None):
                pass
