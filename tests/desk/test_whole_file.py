"""Files that are written whole or not at all, also where somebody else may write in the folder."""

import errno
import os
import shutil
import sqlite3
import stat
import struct
from contextlib import closing
from pathlib import Path

import pytest

from braildesk import Session
from braildesk.desk.export import Files, NotWritten
from braildesk.desk.whole_file import (
    Access,
    AnotherIsThere,
    NoPlaceForAFile,
    write_whole,
)
from braildesk.workshop import MayNotLast, Swapped

from scribe.words.export import not_written
from scribe.words.status import left_there, may_not_last
from strangers import NEEDS_ROOT, STRANGER, as_stranger, lead_to
from tool import scribe


#: The number of an entry that is about nobody by a number, and two entries of a list of access.
NOBODY = 0xFFFFFFFF
OWNER, OTHERS = (1, 6, NOBODY), (32, 0, NOBODY)


def mode(file: Path) -> int:
    """The permissions of what stands at a path, with those that run or set an owner."""
    return stat.S_IMODE(file.lstat().st_mode)


def test_a_file_of_ones_own_gets_other_bytes_and_keeps_its_permissions(
    tmp_path: Path,
) -> None:
    file = tmp_path / "pages.brf"
    file.write_bytes(b"older and longer")
    file.chmod(0o640)
    write_whole(file, b"newer")
    assert file.read_bytes() == b"newer"
    assert mode(file) == 0o640
    assert os.listdir(tmp_path) == ["pages.brf"]


@NEEDS_ROOT
def test_a_file_of_ones_own_keeps_its_group_or_gives_another_one_nothing(
    tmp_path: Path, monkeypatch: pytest.MonkeyPatch
) -> None:
    file = tmp_path / "pages.brf"
    file.write_bytes(b"older")
    os.chown(file, -1, STRANGER)
    file.chmod(0o664)
    write_whole(file, b"newer")
    assert (file.stat().st_gid, mode(file)) == (STRANGER, 0o664)

    def refuse(file: int, owner: int, group: int) -> None:
        raise PermissionError(errno.EPERM, "Operation not permitted")

    monkeypatch.setattr(os, "fchown", refuse)
    write_whole(file, b"newest")
    assert (file.stat().st_gid, mode(file)) == (os.getegid(), 0o644)
    # whom the group was refused is one of the others by now
    file.chmod(0o604)
    monkeypatch.undo()
    os.chown(file, -1, STRANGER)
    monkeypatch.setattr(os, "fchown", refuse)
    write_whole(file, b"newest")
    assert (file.stat().st_gid, mode(file)) == (os.getegid(), 0o600)


def packed(*listed: tuple[int, int, int]) -> bytes:
    """A list of access, as the system keeps it: whom each entry is about, what for, and a number."""
    entries = [struct.pack("<HHI", *each) for each in listed]
    return b"".join([struct.pack("<I", 2), *entries])


def give_list(path: Path, kind: str, listed: bytes) -> None:
    try:
        os.setxattr(path, f"system.posix_acl_{kind}", listed)
    except OSError:
        pytest.skip("the file system keeps no such lists")


@pytest.mark.parametrize("group, gives", [(0, False), (0, True), (7, False)])
def test_a_file_of_ones_own_keeps_its_list_of_access_and_gives_its_group_no_more(
    tmp_path: Path, group: int, gives: bool
) -> None:
    file = tmp_path / "pages.brf"
    file.write_bytes(b"older")
    # another user may read it, and the group nothing, or no more than the most that is listed
    named = (2, 6, STRANGER), (4, group, NOBODY), (16, 4, NOBODY)
    listed = packed(OWNER, *named, OTHERS)
    give_list(file, "access", listed)
    if gives:
        others = (2, 6, 7), (4, 7, NOBODY), (16, 6, NOBODY)
        give_list(tmp_path, "default", packed(OWNER, *others, OTHERS))
    write_whole(file, b"newer")
    assert os.getxattr(file, "system.posix_acl_access") == listed
    assert (file.read_bytes(), mode(file)) == (b"newer", 0o640)


def test_a_file_of_ones_own_without_a_list_gets_none_from_its_folder(
    tmp_path: Path,
) -> None:
    file = tmp_path / "pages.brf"
    file.write_bytes(b"older")
    file.chmod(0o640)
    others = (2, 6, STRANGER), (4, 6, NOBODY), (16, 6, NOBODY)
    give_list(tmp_path, "default", packed(OWNER, *others, OTHERS))
    write_whole(file, b"newer")
    assert (os.listxattr(file), mode(file)) == ([], 0o640)


@NEEDS_ROOT
def test_a_group_that_a_file_with_a_list_may_not_keep_is_limited_in_that(
    tmp_path: Path, monkeypatch: pytest.MonkeyPatch
) -> None:
    file = tmp_path / "pages.brf"
    file.write_bytes(b"older")
    os.chown(file, -1, STRANGER)
    more = (2, 6, STRANGER), (4, 4, NOBODY), (16, 6, NOBODY), OTHERS
    give_list(file, "access", packed(OWNER, *more))

    def refuse(file: int, owner: int, group: int) -> None:
        raise PermissionError(errno.EPERM, "Operation not permitted")

    monkeypatch.setattr(os, "fchown", refuse)
    write_whole(file, b"newer")
    limited = packed(OWNER, more[0], (4, 0, NOBODY), *more[2:])
    assert os.getxattr(file, "system.posix_acl_access") == limited
    assert (file.stat().st_gid, mode(file)) == (os.getegid(), 0o660)


def test_no_file_that_is_written_can_be_run_or_takes_its_owners_rights(
    tmp_path: Path,
) -> None:
    file = tmp_path / "pages.brf"
    file.write_bytes(b"older")
    file.chmod(0o4777)
    write_whole(file, b"newer")
    assert mode(file) == 0o666


@NEEDS_ROOT
def test_a_file_of_another_person_gives_nothing_to_the_one_that_replaces_it(
    tmp_path: Path,
) -> None:
    file = tmp_path / "pages.brf"
    file.write_bytes(b"theirs")
    os.chown(file, STRANGER, STRANGER)
    file.chmod(0o4777)
    before = os.umask(0o027)
    try:
        write_whole(file, b"newer")
    finally:
        os.umask(before)
    assert (mode(file), file.stat().st_uid) == (0o640, os.geteuid())


@NEEDS_ROOT
@pytest.mark.parametrize(
    "owner, folder, may_rename",
    [
        *((STRANGER, 0o755, True), (STRANGER, 0o1777, True), (0, 0o777, True)),
        *((0, 0o2775, True), (0, 0o755, False)),
    ],
)
def test_a_file_to_which_a_stranger_may_give_the_name_keeps_no_more_than_a_new_one_gets(
    tmp_path: Path, owner: int, folder: int, may_rename: bool
) -> None:
    out = tmp_path / "out"
    out.mkdir()
    os.chown(out, owner, STRANGER)
    out.chmod(folder)
    lead_to(tmp_path)
    public, pages = out / "public.brf", out / "pages.brf"
    public.write_bytes(b"for all")
    public.chmod(0o644)
    said = as_stranger(lambda: public.rename(pages))
    assert said == ("" if may_rename else "PermissionError")
    if not may_rename:
        public.rename(pages)
    write_whole(pages, b"private", Access(0o600, os.getegid()))
    assert (pages.read_bytes(), mode(pages)) == (
        b"private",
        0o600 if may_rename else 0o644,
    )
    assert os.listdir(out) == ["pages.brf"]


@NEEDS_ROOT
@pytest.mark.parametrize("folder", [0o1777, 0o3775])
def test_a_file_that_a_stranger_brings_from_elsewhere_keeps_no_more_than_a_new_one_gets(
    tmp_path: Path, folder: int
) -> None:
    out, shared = tmp_path / "out", tmp_path / "shared"
    for each, allowed in ((out, folder), (shared, 0o777)):
        each.mkdir()
        os.chown(each, -1, STRANGER)
        each.chmod(allowed)
    lead_to(tmp_path)
    public, pages = shared / "public.brf", out / "pages.brf"
    public.write_bytes(b"for all")
    public.chmod(0o644)
    assert as_stranger(lambda: public.rename(pages)) == ""
    write_whole(pages, b"private", Access(0o600, os.getegid()))
    assert (pages.read_bytes(), mode(pages)) == (b"private", 0o600)


@NEEDS_ROOT
@pytest.mark.parametrize("shared, wanted", [(0o777, 0o600), (0o1777, 0o644)])
def test_a_file_in_a_folder_that_a_stranger_may_put_there_keeps_no_more_than_a_new_one_gets(
    tmp_path: Path, shared: int, wanted: int
) -> None:
    folder = tmp_path / "shared"
    out, public = folder / "out", folder / "public"
    for each in (folder, out, public):
        each.mkdir()
    folder.chmod(shared)
    lead_to(tmp_path)
    (public / "pages.brf").write_bytes(b"for all")
    (public / "pages.brf").chmod(0o644)

    def swap() -> None:
        out.rename(folder / "aside")
        public.rename(out)

    may_swap = as_stranger(swap) == ""
    assert may_swap == (wanted == 0o600)
    if not may_swap:
        swap()
    pages = out / "pages.brf"
    write_whole(pages, b"private", Access(0o600, os.getegid()))
    assert (pages.read_bytes(), mode(pages)) == (b"private", wanted)


@NEEDS_ROOT
def test_a_file_to_which_a_stranger_gives_a_second_name_keeps_no_more_than_a_new_one_gets(
    tmp_path: Path,
) -> None:
    out = tmp_path / "out"
    out.mkdir()
    out.chmod(0o1777)
    lead_to(tmp_path)
    public, pages = tmp_path / "public.brf", out / "pages.brf"
    public.write_bytes(b"for all")
    # others may write it, so that a system that protects hard links allows another name
    public.chmod(0o666)
    assert as_stranger(lambda: os.link(public, pages)) == ""
    write_whole(pages, b"private", Access(0o600, os.getegid()))
    assert (pages.read_bytes(), mode(pages)) == (b"private", 0o600)
    assert (public.read_bytes(), mode(public)) == (b"for all", 0o666)


@NEEDS_ROOT
@pytest.mark.parametrize(
    "older, of_older, book, wanted",
    [
        *((0o640, 7, 0o644, 0o640), (0o644, 7, 0o640, 0o640)),
        *((0o440, 7, 0o640, 0o440), (0o600, 7, 0o644, 0o600)),
        # in both groups is nobody who is known
        *((0o640, 8, 0o640, 0o600), (0o644, 8, 0o640, 0o640)),
        *((0o604, 8, 0o644, 0o600), (0o644, 8, 0o644, 0o644)),
    ],
)
def test_there_nobody_may_do_more_with_it_than_with_both_the_older_and_a_new_one(
    tmp_path: Path, older: int, of_older: int, book: int, wanted: int
) -> None:
    tmp_path.chmod(0o777)
    pages = tmp_path / "pages.brf"
    pages.write_bytes(b"older")
    os.chown(pages, -1, of_older)
    pages.chmod(older)
    write_whole(pages, b"newer", Access(book, 7))
    assert (pages.stat().st_gid, mode(pages)) == (7, wanted)


@pytest.mark.parametrize("may", [6, 0])
@pytest.mark.parametrize("gives", [False, True])
def test_there_neither_the_list_of_the_older_nor_that_of_the_folder_gives_or_takes_more(
    tmp_path: Path, may: int, gives: bool
) -> None:
    tmp_path.chmod(0o777)
    pages = tmp_path / "pages.brf"
    pages.write_bytes(b"older")
    of_older = (2, may, STRANGER), (4, 4, NOBODY), (16, 6, NOBODY), OTHERS
    give_list(pages, "access", packed(OWNER, *of_older))
    if gives:
        of_folder = (2, 6, STRANGER), (4, 6, NOBODY), (16, 6, NOBODY), (32, 4, NOBODY)
        give_list(tmp_path, "default", packed(OWNER, *of_folder))
    write_whole(pages, b"newer", Access(0o604, os.getegid()))
    # others may not read the older, and the group may not read a new one
    assert mode(pages) == 0o600
    assert gives or os.listxattr(pages) == []


@pytest.mark.parametrize("others", [0, 4])
def test_there_those_whom_the_folder_lists_keep_what_they_may_do_when_it_is_written_again(
    tmp_path: Path, others: int
) -> None:
    tmp_path.chmod(0o777)
    named = (2, 6, STRANGER), (4, 4, NOBODY), (8, 6, 7), (16, 6, NOBODY)
    listed = packed(OWNER, *named, (32, others, NOBODY))
    give_list(tmp_path, "default", listed)
    pages, access = tmp_path / "pages.brf", Access(0o664, os.getegid(), 0o060)
    for _ in range(3):
        write_whole(pages, b"pages", access)
        assert os.getxattr(pages, "system.posix_acl_access") == listed
    # what its owner allows by now is kept
    for allowed in (0o640, 0o600):
        pages.chmod(allowed)
        write_whole(pages, b"pages", access)
        assert mode(pages) == allowed


@NEEDS_ROOT
@pytest.mark.parametrize(
    "older, others, group, wanted",
    [
        # whom it lists and who is in its group by the same number may do what that allows
        (((2, 4, STRANGER), (4, 6, NOBODY), (16, 6, NOBODY)), 0, 7, (4, 6, 0)),
        (((2, 6, STRANGER), (4, 6, NOBODY), (16, 4, NOBODY)), 0, 7, (4, 4, 0)),
        (
            ((2, 6, STRANGER), (4, 0, NOBODY), (8, 6, 7), (16, 6, NOBODY)),
            0,
            8,
            (6, 6, 0),
        ),
        # whom it doesn't list may be in any of its groups, or in none
        (((4, 6, NOBODY),), 0, 7, (0, 6, 0)),
        (((4, 6, NOBODY),), 4, 7, (4, 6, 4)),
        (((4, 4, NOBODY),), 6, 8, (4, 4, 4)),
        # who is listed there alone is one of the others, and of a group in which that one may be
        (((2, 0, 8), (4, 6, NOBODY), (16, 6, NOBODY)), 4, 7, (4, 6, 0)),
        (((2, 4, 99_999), (4, 6, NOBODY), (16, 6, NOBODY)), 0, 7, (0, 4, 0)),
        (((4, 6, NOBODY), (8, 0, 8), (16, 6, NOBODY)), 4, 7, (0, 6, 0)),
    ],
)
def test_there_nobody_whom_the_folder_lists_may_do_more_than_with_an_older_one(
    tmp_path: Path,
    older: tuple[tuple[int, int, int], ...],
    others: int,
    group: int,
    wanted: tuple[int, int, int],
) -> None:
    tmp_path.chmod(0o777)
    lead_to(tmp_path)
    pages = tmp_path / "pages.brf"
    pages.write_bytes(b"older")
    os.chown(pages, -1, group)
    give_list(pages, "access", packed(OWNER, *older, (32, others, NOBODY)))
    of_folder = (2, 6, STRANGER), (4, 6, NOBODY), (16, 6, NOBODY), (32, 4, NOBODY)
    give_list(tmp_path, "default", packed(OWNER, *of_folder))

    def may_do() -> set[str]:
        opened = {
            how: as_stranger(lambda: pages.open(how).close()) for how in ("rb", "ab")
        }
        return {how for how, said in opened.items() if not said}

    before = may_do()
    write_whole(pages, b"newer", Access(0o664, 7, 0o060))
    found = os.getxattr(pages, "system.posix_acl_access")
    may = {tag: may for tag, may, _ in struct.iter_unpack("<HHI", found[4:])}
    assert (may[2] & may[16], may[4] & may[16], may[32]) == wanted
    assert may_do() <= before


@pytest.mark.parametrize(
    "book, umask, wanted",
    [(0o600, 0o022, 0o600), (0o664, 0o002, 0o664), (0o644, 0o077, 0o600)],
)
def test_a_new_file_has_what_both_the_book_and_the_umask_allow(
    book: int, umask: int, wanted: int, tmp_path: Path
) -> None:
    before = os.umask(umask)
    try:
        write_whole(tmp_path / "pages.brf", b"new", Access(book))
    finally:
        os.umask(before)
    assert mode(tmp_path / "pages.brf") == wanted


@NEEDS_ROOT
@pytest.mark.parametrize("folder, group", [(0o755, STRANGER), (0o2755, 7)])
def test_a_new_file_is_for_the_group_of_the_book_or_that_of_the_folder(
    folder: int, group: int, tmp_path: Path
) -> None:
    out, book = tmp_path / "out", tmp_path / "book"
    out.mkdir()
    os.chown(out, -1, 7)
    out.chmod(folder)
    book.touch()
    os.chown(book, -1, STRANGER)
    book.chmod(0o660)
    before = os.umask(0o002)
    try:
        write_whole(out / "pages.brf", b"new", Access.of(book))
    finally:
        os.umask(before)
    assert (out / "pages.brf").stat().st_gid == group
    assert mode(out / "pages.brf") == 0o660


@NEEDS_ROOT
@pytest.mark.parametrize(
    "book, wanted", [(0o660, 0o600), (0o664, 0o644), (0o604, 0o600), (0o646, 0o644)]
)
def test_a_group_that_is_not_the_books_gets_no_more_than_others_nor_they_than_the_books(
    book: int, wanted: int, tmp_path: Path
) -> None:
    out = tmp_path / "out"
    out.mkdir()
    out.chmod(0o777)
    lead_to(out)

    def write() -> None:
        os.umask(0o002)
        write_whole(out / "pages.brf", b"new", Access(book, 7))

    assert as_stranger(write) == ""
    assert mode(out / "pages.brf") == wanted


@NEEDS_ROOT
def test_others_get_no_more_than_the_group_of_the_book_where_a_folder_gives_another(
    tmp_path: Path,
) -> None:
    os.chown(tmp_path, -1, 7)
    tmp_path.chmod(0o2755)
    write_whole(tmp_path / "pages.brf", b"new", Access(0o604, STRANGER))
    assert mode(tmp_path / "pages.brf") == 0o600
    write_whole(tmp_path / "own.brf", b"new", Access(0o604, 7))
    assert mode(tmp_path / "own.brf") == 0o604


@NEEDS_ROOT
@pytest.mark.parametrize("why", [0, errno.EPERM, errno.EINVAL])
def test_a_new_file_is_for_nobody_else_until_it_has_its_group(
    tmp_path: Path, monkeypatch: pytest.MonkeyPatch, why: int
) -> None:
    chown, found = os.fchown, []

    def give(file: int, owner: int, group: int) -> None:
        found.append(stat.S_IMODE(os.fstat(file).st_mode))
        if why:
            # the second is said of a group that a container doesn't have
            raise OSError(why, os.strerror(why))
        chown(file, owner, group)

    monkeypatch.setattr(os, "fchown", give)
    before = os.umask(0o002)
    try:
        write_whole(tmp_path / "pages.brf", b"new", Access(0o660, STRANGER))
    finally:
        os.umask(before)
    assert found == [0o600]
    assert mode(tmp_path / "pages.brf") == (0o600 if why else 0o660)
    assert os.listdir(tmp_path) == ["pages.brf"]


@NEEDS_ROOT
def test_in_a_folder_with_a_list_a_group_that_is_not_the_books_alone_gets_no_more(
    tmp_path: Path,
) -> None:
    out = tmp_path / "out"
    out.mkdir()
    out.chmod(0o777)
    lead_to(out)
    # a group has the folder to itself, and reads and writes what is made there
    of_folder = (4, 6, NOBODY), (8, 6, 7), (16, 6, NOBODY)
    give_list(out, "default", packed(OWNER, *of_folder, OTHERS))

    def write() -> None:
        write_whole(out / "pages.brf", b"new", Access(0o660, 7, 0o060))

    assert as_stranger(write) == ""
    limited = packed(OWNER, (4, 0, NOBODY), *of_folder[1:], OTHERS)
    assert os.getxattr(out / "pages.brf", "system.posix_acl_access") == limited


def test_the_mode_limits_a_list_that_a_folder_gives_where_no_list_can_be_changed(
    tmp_path: Path, monkeypatch: pytest.MonkeyPatch
) -> None:
    named = (2, 6, STRANGER), (4, 6, NOBODY), (16, 6, NOBODY)
    give_list(tmp_path, "default", packed(OWNER, *named, OTHERS))

    def refuse(*_: object) -> None:
        raise OSError(errno.EOPNOTSUPP, os.strerror(errno.EOPNOTSUPP))

    monkeypatch.setattr(os, "setxattr", refuse)
    # the book is for one user on its list, and its group may do nothing
    write_whole(tmp_path / "pages.brf", b"new", Access(0o600, os.getegid(), 0o040))
    assert mode(tmp_path / "pages.brf") == 0o600


@pytest.mark.parametrize("target", ["there.txt", "missing.txt", "."])
def test_a_link_is_replaced_and_what_it_led_to_stays(
    target: str, tmp_path: Path
) -> None:
    (tmp_path / "there.txt").write_bytes(b"mine")
    link = tmp_path / "pages.brf"
    link.symlink_to(target)
    write_whole(link, b"newer")
    assert not link.is_symlink() and link.read_bytes() == b"newer"
    assert sorted(os.listdir(tmp_path)) == ["pages.brf", "there.txt"]
    assert (tmp_path / "there.txt").read_bytes() == b"mine"


def test_a_pipe_of_that_name_is_replaced_and_never_opened(tmp_path: Path) -> None:
    pipe = tmp_path / "pages.brf"
    os.mkfifo(pipe)
    write_whole(pipe, b"newer")
    assert stat.S_ISREG(pipe.lstat().st_mode) and pipe.read_bytes() == b"newer"


@pytest.mark.parametrize("target", ["/dev/null", "/proc/self/fd/1", "/dev/stdout"])
def test_a_link_of_the_system_to_a_device_or_an_open_file_is_not_replaced(
    target: str, tmp_path: Path
) -> None:
    link = tmp_path / "out"
    link.symlink_to(target)
    with pytest.raises(NoPlaceForAFile):
        write_whole(link, b"newer")
    assert os.readlink(link) == target
    assert os.listdir(tmp_path) == ["out"]


@NEEDS_ROOT
def test_a_device_is_not_replaced(tmp_path: Path) -> None:
    device = tmp_path / "null"
    os.mknod(device, stat.S_IFCHR | 0o666, os.makedev(1, 3))
    with pytest.raises(NoPlaceForAFile):
        write_whole(device, b"newer")
    assert stat.S_ISCHR(device.lstat().st_mode)


def test_a_file_that_cannot_be_replaced_stays_as_it_was(
    tmp_path: Path, monkeypatch: pytest.MonkeyPatch
) -> None:
    file = tmp_path / "pages.brf"
    file.write_bytes(b"older")

    def refuse(*_: object) -> None:
        raise OSError(errno.ENOSPC, "no space left")

    monkeypatch.setattr(os, "fsync", refuse)
    with pytest.raises(OSError, match="no space left"):
        write_whole(file, b"newer")
    assert file.read_bytes() == b"older"
    assert os.listdir(tmp_path) == ["pages.brf"]


def no_folder_is_synced(number: int, monkeypatch: pytest.MonkeyPatch) -> None:
    """Has each sync of a folder fail with the number of an error."""
    sync = os.fsync

    def refuse_folders(descriptor: int) -> None:
        if stat.S_ISDIR(os.fstat(descriptor).st_mode):
            raise OSError(number, "no sync")
        sync(descriptor)

    monkeypatch.setattr(os, "fsync", refuse_folders)


def test_a_folder_that_cannot_be_synced_has_the_new_file_and_that_is_said(
    tmp_path: Path, monkeypatch: pytest.MonkeyPatch
) -> None:
    file = tmp_path / "pages.brf"
    file.write_bytes(b"older")
    no_folder_is_synced(errno.EIO, monkeypatch)
    with pytest.raises(MayNotLast) as failed:
        write_whole(file, b"newer")
    assert file.read_bytes() == b"newer"
    assert may_not_last(file, failed.value) == (
        f"{file} is written, but its folder could not be brought to the disk: no sync. After"
        " a loss of power the older file may be there."
    )


def test_a_file_is_written_where_no_folder_can_be_synced_at_all(
    tmp_path: Path, monkeypatch: pytest.MonkeyPatch
) -> None:
    no_folder_is_synced(errno.EINVAL, monkeypatch)
    write_whole(tmp_path / "pages.brf", b"new")
    assert (tmp_path / "pages.brf").read_bytes() == b"new"


@NEEDS_ROOT
def test_in_a_folder_that_cannot_be_read_nothing_is_replaced(tmp_path: Path) -> None:
    lead_to(tmp_path)
    folder = tmp_path / "drop"
    folder.mkdir()
    (folder / "pages.brf").write_bytes(b"older")
    folder.chmod(0o333)
    assert as_stranger(lambda: write_whole(folder / "pages.brf", b"newer")) == (
        "PermissionError"
    )
    assert (folder / "pages.brf").read_bytes() == b"older"
    assert os.listdir(folder) == ["pages.brf"]


def test_a_folder_is_no_file(tmp_path: Path) -> None:
    with pytest.raises(IsADirectoryError):
        write_whole(tmp_path, b"pages")


def test_a_book_is_not_replaced_by_what_is_written_about_it(moon: Path) -> None:
    before = moon.read_bytes()
    with pytest.raises(OSError) as caught:
        write_whole(moon, b"pages")
    assert caught.value.strerror == "a book is there, which was left as it is"
    ran = scribe("proof", moon.name, moon.name, folder=moon.parent)
    assert (ran.status, ran.said) == (
        2,
        f"{moon.name} could not be written: a book is there, which was left as it is.\n",
    )
    assert moon.read_bytes() == before


def test_a_database_of_something_else_is_not_replaced_and_not_called_a_book(
    tmp_path: Path,
) -> None:
    letters = tmp_path / "letters"
    with closing(sqlite3.connect(letters)) as database:
        database.execute("CREATE TABLE letters (text)")
    before = letters.read_bytes()
    with pytest.raises(NoPlaceForAFile) as caught:
        write_whole(letters, b"pages")
    assert caught.value.strerror == "a database is there, which was left as it is"
    assert letters.read_bytes() == before


@pytest.mark.parametrize("kind", ["book", "device", "folder"])
def test_what_is_not_replaced_is_refused_by_one_status(moon: Path, kind: str) -> None:
    folder = moon.parent
    (folder / "pages").mkdir()
    (folder / "text.txt").write_text("The sun\n")
    for place in (folder / "place", folder / "pages" / "moon-1.brf"):
        match kind:
            case "book":
                shutil.copyfile(moon, place)
            case "device":
                place.symlink_to("/dev/null")
            case "folder":
                place.mkdir()
    for words in (
        ("proof", moon.name, "place", "--overwrite"),
        ("import", moon.name, "text.txt", "--report", "place"),
        ("export", moon.name, "pages"),
        ("copy", moon.name, "place"),
        ("new", "place"),
    ):
        ran = scribe(*words, folder=folder)
        assert (words[0], ran.status) == (words[0], 2), ran


def test_a_log_is_not_replaced_since_it_may_have_what_its_book_lacks(
    moon: Path,
) -> None:
    with Session(moon) as session:
        session.add_paragraph("end", "en", "In the log alone.")
        log = Path(f"{moon}-wal")
        before = log.read_bytes()
        with pytest.raises(NoPlaceForAFile) as caught:
            write_whole(log, b"pages")
        assert caught.value.strerror == (
            "the log of a book is there, which was left as it is"
        )
        assert log.read_bytes() == before


ENDINGS = ("-wal", "-shm", "-journal")


@pytest.mark.parametrize("ending", ENDINGS)
@pytest.mark.parametrize("is_empty", [True, False])
def test_no_file_gets_a_name_by_which_a_program_looks_for_what_belongs_to_a_book(
    tmp_path: Path, ending: str, is_empty: bool
) -> None:
    book, file = tmp_path / "moon", tmp_path / f"moon{ending}"
    book.write_bytes(b"SQLite format 3\0 and more")
    if is_empty:
        file.touch()
    with pytest.raises(NoPlaceForAFile) as caught:
        write_whole(file, b"pages")
    assert caught.value.strerror == (
        "a file of that name would be taken for a part of the book moon"
    )
    assert file.exists() == is_empty and not (is_empty and file.read_bytes())
    assert len(os.listdir(tmp_path)) == 1 + is_empty


@pytest.mark.parametrize("kind", ["nothing", "text", "folder", "link"])
def test_a_file_gets_such_a_name_where_no_book_has_it_besides(
    tmp_path: Path, kind: str
) -> None:
    other = tmp_path / "moon"
    match kind:
        case "text":
            other.write_text("The moon\n")
        case "folder":
            other.mkdir()
        case "link":
            # beside which nothing is looked for
            (tmp_path / "book").write_bytes(b"SQLite format 3\0")
            other.symlink_to("book")
    for ending in ENDINGS:
        file = tmp_path / f"moon{ending}"
        write_whole(file, b"pages")
        assert file.read_bytes() == b"pages"


def test_no_command_puts_a_file_where_the_log_of_a_book_would_be(moon: Path) -> None:
    other = moon.with_name("other.braildesk")
    shutil.copyfile(moon, other)
    moon.with_name("text.txt").write_text("The sun\n")
    before = sorted(os.listdir(moon.parent))
    why = "a file of that name would be taken for a part of the book other.braildesk."
    for ending in ENDINGS:
        name = f"other.braildesk{ending}"
        for words, said in (
            (("proof", moon.name, name), f"{name} could not be written: {why}"),
            (
                ("import", moon.name, "text.txt", "--report", name),
                f"The report can't be written to {name}: {why} Nothing was typed.",
            ),
        ):
            found = scribe(*words, folder=moon.parent)
            assert (found.status, found.shown, found.said) == (2, "", f"{said}\n")
        for command in (("new", name), ("copy", moon.name, name)):
            found = scribe(*command, folder=moon.parent)
            assert found.status == 2 and " would be that book." in found.said
    assert set(os.listdir(moon.parent)) - {f"{moon.name}-wal"} == set(before)


@pytest.mark.parametrize("more", [(), ("--overwrite",)])
def test_a_path_that_gets_no_file_is_refused_before_one_is_made(
    moon: Path, more: tuple[str, ...]
) -> None:
    moon.with_name("no.ctb").write_text("what no table has\n")
    moon.with_name("folder").mkdir()
    for name, why in (
        (
            f"{moon.name}-wal",
            f"a file of that name would be taken for a part of the book {moon.name}",
        ),
        ("folder", "Is a directory"),
        (moon.name, "a book is there, which was left as it is"),
    ):
        # neither a program that opens books is there nor a table that can be brought over
        for words in (("proof", moon.name, name), ("bring", "./no.ctb", name)):
            ran = scribe(*words, *more, folder=moon.parent, BRAILDESK="/dev/null")
            assert (ran.status, ran.shown) == (2, "")
            assert ran.said == f"{name} could not be written: {why}.\n"


@NEEDS_ROOT
def test_a_file_that_can_not_be_read_may_be_a_book_and_is_not_replaced(
    tmp_path: Path,
) -> None:
    book = tmp_path / "book"
    book.write_bytes(b"SQLite format 3\0 of another person")
    book.chmod(0o600)
    tmp_path.chmod(0o777)
    lead_to(tmp_path)

    def write() -> None:
        with pytest.raises(NoPlaceForAFile) as caught:
            write_whole(book, b"pages")
        assert caught.value.strerror == (
            "what is there can't be read (Permission denied), and may be a book"
        )

    assert as_stranger(write) == ""
    assert book.read_bytes() == b"SQLite format 3\0 of another person"


@NEEDS_ROOT
@pytest.mark.parametrize("is_before", [True, False])
def test_what_another_user_puts_in_place_of_a_written_file_is_not_taken_for_it(
    tmp_path: Path, monkeypatch: pytest.MonkeyPatch, is_before: bool
) -> None:
    tmp_path.chmod(0o777)
    lead_to(tmp_path)
    replace = os.replace

    def swap(name: str) -> None:
        (tmp_path / name).unlink()
        (tmp_path / name).symlink_to("elsewhere")

    def replaced(source: str, target: str, **folders: int) -> None:
        if is_before:
            assert as_stranger(lambda: swap(source)) == ""
        replace(source, target, **folders)
        if not is_before:
            assert as_stranger(lambda: swap(target)) == ""

    monkeypatch.setattr(os, "replace", replaced)
    with pytest.raises(Swapped) as swapped:
        write_whole(tmp_path / "moon-1.brf", b"pages")
    assert os.listdir(tmp_path) == ["moon-1.brf"]
    fault = NotWritten(1, Path("moon-1.brf"), swapped.value, True, Files((), (), ()))
    assert not_written(fault) == (
        "Volume 1 could not be written: another program put something else in the place of what was"
        " made. moon-1.brf isn't what was exported."
    )


def test_an_empty_file_is_replaced_and_a_link_and_a_pipe_are_named_and_left(
    tmp_path: Path,
) -> None:
    place = tmp_path / "page.html"
    place.touch(0o600)
    write_whole(place, b"page", replaces=lambda _: False)
    assert (place.read_bytes(), place.stat().st_mode & 0o777) == (b"page", 0o600)
    (tmp_path / "empty").touch()
    (tmp_path / "link").symlink_to("empty")
    os.mkfifo(tmp_path / "pipe")
    # text, also of blanks alone, is somebody's
    (tmp_path / "blank").write_bytes(b"\n")
    its = {
        "link": "link is a link to empty, and was left as it is; --overwrite puts a file in place of"
        " the link, and leaves what it leads to.",
        "pipe": "pipe is a pipe, so it was left as it is; --overwrite replaces it.",
        "blank": "blank is there already and is no proof, so it was left as it is; --overwrite"
        " replaces it.",
    }
    for name, said in its.items():
        before = (tmp_path / name).lstat().st_ino
        with pytest.raises(AnotherIsThere) as left:
            write_whole(tmp_path / name, b"page", replaces=lambda _: False)
        assert left_there(Path(name), left.value, "proof") == said
        assert (tmp_path / name).lstat().st_ino == before


def test_what_a_killed_writer_left_beside_a_file_is_taken_away_once_it_is_old(
    tmp_path: Path,
) -> None:
    old, new = tmp_path / f".scribe-{16 * '0'}", tmp_path / f".scribe-{16 * '1'}"
    mine, link = tmp_path / ".scribe-notes", tmp_path / f".scribe-{16 * '2'}"
    for each in (old, new, mine):
        each.touch()
    link.symlink_to(mine)
    for each in (old, mine):
        os.utime(each, (0, 0))
    os.utime(link, (0, 0), follow_symlinks=False)
    write_whole(tmp_path / "pages", b"pages")
    assert {each.name for each in tmp_path.iterdir()} == {
        "pages",
        new.name,
        mine.name,
        link.name,
    }
