"""scribe export and scribe copy: what leaves a book."""

import errno
import os
import resource
import shutil
import stat
import tracemalloc
from io import BytesIO, StringIO
from pathlib import Path
from typing import Any

import pytest
from hypothesis import given
from hypothesis import strategies as st

from braildesk import Session
import braildesk
from braildesk.desk import export
from braildesk.desk.layout import PageSize
from braildesk.desk.ranges import PageRange
from braildesk.desk.whole_file import Access, write_whole
from braildesk.workshop import MayNotLast

from scribe.cli import run_words
from scribe.words.console import Console
from scribe.words.export import (
    export_in_words,
    no_folder,
    not_written,
    numbers_in_words,
)
from scribe.words.status import Status, Stop, in_sentences
from strangers import NEEDS_ROOT, as_stranger, in_time, lead_to
from tool import Ran, scribe

MOON = b"""\
  ,THE MOON IS FAR AWAY4\r
\r
\r
\r
                      #A\r
\x0c"""
SIZES = ["--width", "24", "--lines", "5"]


def files(folder: Path) -> list[str]:
    return sorted(path.name for path in folder.iterdir())


def test_all_volumes_are_written_and_described(moon: Path) -> None:
    scribe("volume", moon, "2", "on", folder=moon.parent)
    assert scribe("export", moon, "out", *SIZES, folder=moon.parent) == Ran(
        0,
        "out/moon-1.brf: volume 1, 1 page, 18 cells with dots.\n"
        "out/moon-2.brf: volume 2, 1 page, 34 cells with dots.\n",
        "",
    )
    assert files(moon.parent / "out") == ["moon-1.brf", "moon-2.brf"]
    assert (moon.parent / "out" / "moon-1.brf").read_bytes() == MOON


def test_volumes_are_said_to_be_new_where_what_is_shown_of_them_can_not_be_written(
    moon: Path,
) -> None:
    def fill() -> None:
        os.dup2(os.open("/dev/full", os.O_WRONLY), 1)

    scribe("volume", moon, "2", "on", folder=moon.parent)
    ran = scribe("export", moon, "out", *SIZES, folder=moon.parent, before=fill)
    assert ran == Ran(
        3,
        "",
        "Standard output could not be written: there is no room on the disk.\n"
        "Volumes 1 and 2 are new.\n",
    )
    assert files(moon.parent / "out") == ["moon-1.brf", "moon-2.brf"]


def test_a_file_of_single_pages_is_said_to_be_new_where_that_can_not_be_shown(
    moon: Path,
) -> None:
    def fill() -> None:
        os.dup2(os.open("/dev/full", os.O_WRONLY), 1)

    words: list[str | Path] = ["export", moon, "out", *SIZES, "--page", "1"]
    assert scribe(*words, folder=moon.parent, before=fill) == Ran(
        3,
        "",
        "Standard output could not be written: there is no room on the disk.\n"
        "out/moon-1-pages-1.brf is new.\n",
    )
    assert files(moon.parent / "out") == ["moon-1-pages-1.brf"]


def test_cells_are_counted_without_the_numbers_of_pages(moon: Path) -> None:
    with Session(moon) as session:
        for _ in range(12):
            session.add_paragraph("end", "en", "a")
    ran = scribe("export", moon, "out", *SIZES, folder=moon.parent)
    # 18, 10 and 24 of the paragraphs that were there, on four lines, and 12 on as many
    assert ran.shown == "out/moon-1.brf: volume 1, 4 pages, 64 cells with dots.\n"


def test_one_cell_is_said_to_be_one(book: Path) -> None:
    with Session(book) as session:
        session.add_paragraph("end", "en", "a")
    ran = scribe("export", book, "out", folder=book.parent)
    assert ran.shown == "out/book-1.brf: volume 1, 1 page, 1 cell with dots.\n"


def test_a_volume_that_is_refused_leaves_the_older_file(moon: Path) -> None:
    scribe("volume", moon, "2", "on", folder=moon.parent)
    out = moon.parent / "out"
    out.mkdir()
    (out / "moon-1.brf").write_bytes(b"older")
    with Session(moon) as session:
        session.put_table("dots", b"space \\s 0\nletter a 7\n")
        session.add_paragraph("front", "dots", "a a")
    ran = scribe("export", moon, "out", *SIZES, folder=moon.parent)
    assert ran == Ran(
        2,
        "out/moon-2.brf: volume 2, 1 page, 34 cells with dots.\n",
        "Volume 1: Cell 1 of paragraph 4 has dot 7 or 8, which pages for embossers can't"
        " have. Correct the table of that paragraph."
        " out/moon-1.brf is as it was.\n",
    )
    assert (out / "moon-1.brf").read_bytes() == b"older"


def test_files_of_volumes_that_are_no_more_are_named_and_left(moon: Path) -> None:
    out = moon.parent / "out"
    out.mkdir()
    for name in ("moon-2.brf", "moon-10.brf", "moon-02.brf", "moons-3.brf"):
        (out / name).write_bytes(b"older")
    ran = scribe("export", moon, "out", folder=moon.parent)
    assert ran.status == 0
    assert ran.said == (
        "Left from an earlier export, of volumes that the book has no more:"
        " out/moon-2.brf, out/moon-10.brf.\n"
    )
    assert (out / "moon-10.brf").read_bytes() == b"older"


def test_files_of_pages_that_are_not_written_anew_are_named_and_left(
    moon: Path,
) -> None:
    words: list[str | Path] = ["export", moon, "out", *SIZES]
    scribe(*words, folder=moon.parent)
    scribe(*words, "--page", "1", folder=moon.parent)
    out = moon.parent / "out"
    for name in ("moon-10-changed.brf", "moon-2-changed.brf", "moons-1-changed.brf"):
        (out / name).write_bytes(b"older")
    (out / "moon-1-pages-a-1.brf").write_bytes(b"of another book")
    left = "out/moon-1-pages-1.brf, out/moon-2-changed.brf, out/moon-10-changed.brf"
    said = f"Left from an earlier export, of single pages: {left}.\n"
    with Session(moon) as session:
        session.correct(1, 0, 3, "Our")
    ran = scribe(*words, "--only-changed", folder=moon.parent)
    assert ran.shown.endswith("the changed pages of volume 1 alone.\n")
    assert (ran.status, ran.said) == (0, said)
    # no page differs now, so that the file of those that did is of an earlier export
    ran = scribe(*words, "--only-changed", folder=moon.parent)
    changed = "pages: out/moon-1-changed.brf, "
    assert (ran.status, ran.said) == (0, said.replace("pages: ", changed))
    assert (out / "moon-2-changed.brf").read_bytes() == b"older"


def test_a_link_of_a_volumes_name_is_not_called_a_file_of_an_earlier_export(
    moon: Path,
) -> None:
    out = moon.with_name("out")
    out.mkdir()
    (out / "moon-2.brf").write_bytes(b"older")
    for name in ("moon-3.brf", "moon-1-changed.brf"):
        (out / name).symlink_to("moon-2.brf")
    os.mkfifo(out / "moon-4.brf")
    ran = scribe("export", moon, "out", folder=moon.parent)
    assert (ran.status, ran.said) == (
        0,
        "Left from an earlier export, of volumes that the book has no more:"
        " out/moon-2.brf.\n"
        "In the folder by the name of a file of pages, but no file: out/moon-1-changed.brf,"
        " out/moon-3.brf, out/moon-4.brf.\n",
    )


def test_a_book_without_volumes_writes_none(book: Path) -> None:
    ran = scribe("export", book, "out", folder=book.parent)
    assert ran == Ran(
        0, "", "The book has no volume: each paragraph is struck, or there is none.\n"
    )


@pytest.mark.parametrize("is_there", [False, True])
def test_a_folder_that_an_export_made_goes_again_where_nothing_was_written_there(
    moon: Path, is_there: bool
) -> None:
    with Session(moon) as session:
        session.put_table("dots", b"space \\s 0\nletter a 7\n")
        session.add_paragraph("front", "dots", "a a")
    out = moon.with_name("out")
    if is_there:
        out.mkdir()
    ran = scribe("export", moon, "out", folder=moon.parent)
    assert (ran.status, ran.shown) == (2, "")
    assert ran.said == (
        "Volume 1: Cell 1 of paragraph 4 has dot 7 or 8, which pages for embossers can't"
        " have. Correct the table of that paragraph."
        " out/moon-1.brf was not made.\n"
    )
    assert out.exists() is is_there


def test_a_folder_that_an_export_made_goes_again_where_its_disk_took_no_pages(
    moon: Path,
) -> None:
    def hold_no_more_than_a_hundred_bytes() -> None:
        resource.setrlimit(resource.RLIMIT_FSIZE, (100, 100))

    for words in ((), ("--page", "1")):
        ran = scribe(
            "export",
            moon,
            "out",
            *words,
            folder=moon.parent,
            before=hold_no_more_than_a_hundred_bytes,
        )
        assert (ran.status, "File too large" in ran.said) == (3, True)
        assert not moon.with_name("out").exists()


@pytest.mark.parametrize("width", ["9", "61", "x", "-1"])
def test_a_width_that_no_page_has_is_refused(width: str, moon: Path) -> None:
    ran = scribe("export", moon, "out", f"--width={width}", folder=moon.parent)
    assert ran.status == 1 and "--width" in ran.said
    assert not (moon.parent / "out").exists()


def test_a_folder_that_is_a_file_is_refused(moon: Path) -> None:
    ran = scribe("export", moon, "plain.utb", folder=moon.parent)
    assert ran == Ran(2, "", "plain.utb is no folder. Nothing was exported.\n")


def test_a_full_disk_leaves_the_older_file_and_nothing_beside_it(moon: Path) -> None:
    out = moon.parent / "out"
    out.mkdir()
    (out / "moon-1.brf").write_bytes(b"older")

    def hold_no_more_than_a_hundred_bytes() -> None:
        resource.setrlimit(resource.RLIMIT_FSIZE, (100, 100))

    ran = scribe(
        "export",
        moon,
        "out",
        folder=moon.parent,
        before=hold_no_more_than_a_hundred_bytes,
    )
    assert (ran.status, ran.shown) == (3, "")
    assert ran.said == (
        "Volume 1 could not be written: File too large. out/moon-1.brf is as it was.\n"
    )
    assert files(out) == ["moon-1.brf"]
    assert (out / "moon-1.brf").read_bytes() == b"older"


def test_a_new_file_has_the_permissions_of_any_new_file(moon: Path) -> None:
    scribe(
        "export",
        moon,
        "out",
        folder=moon.parent,
        before=lambda: os.umask(0o027),
    )
    assert (moon.parent / "out" / "moon-1.brf").stat().st_mode & 0o777 == 0o640


def of_volumes(moon: Path) -> None:
    """Gives the book three volumes."""
    with Session(moon) as session:
        session.set_begins_volume(2, True)
        session.set_begins_volume(3, True)


def exported(moon: Path) -> tuple[list[str], list[str]]:
    """What an export to the folder out shows and says."""
    shown, said = StringIO(), StringIO()
    job = export.Job(moon, moon.with_name("out"), PageSize(24, 5), wait=0)
    console = Console(BytesIO(), shown, said)
    with in_sentences():
        assert export_in_words(job, console) is Status.DONE
    return shown.getvalue().splitlines(), said.getvalue().splitlines()


def changed_after(
    volume: int, times: int, moon: Path, monkeypatch: pytest.MonkeyPatch
) -> None:
    """Has another session type a paragraph each time that a volume was read, so many times."""
    left = [times]

    def read(path: Path, number: int, width: int, lines: int, **more: Any) -> bytes:
        pages = braildesk.export(path, number, width, lines)
        if number == volume and left[0]:
            left[0] -= 1
            with Session(moon) as session:
                session.add_paragraph("end", "en", "x")
        return pages

    monkeypatch.setattr(export, "export", read)


def test_all_volumes_are_of_one_version_where_another_session_changes_the_book(
    moon: Path, monkeypatch: pytest.MonkeyPatch
) -> None:
    of_volumes(moon)
    changed_after(1, 1, moon, monkeypatch)
    shown, said = exported(moon)
    assert [line.partition(":")[0] for line in shown] == [
        str(moon.with_name("out") / f"moon-{volume}.brf") for volume in (1, 2, 3)
    ]
    assert said == []
    assert b"X" in (moon.with_name("out") / "moon-3.brf").read_bytes()


def test_all_volumes_are_of_one_book_where_a_copy_of_another_replaces_it(
    moon: Path, monkeypatch: pytest.MonkeyPatch
) -> None:
    of_volumes(moon)
    other = moon.with_name("other")
    shutil.copyfile(moon, other)
    with Session(moon) as session:
        session.strike(1)
    with Session(other) as session:
        session.correct(3, 0, 5, "Once")
    assert braildesk.check(moon) == braildesk.check(other)
    export_one = braildesk.export

    def read(path: Path, number: int, width: int, lines: int, **more: Any) -> bytes:
        pages = export_one(path, number, width, lines)
        if number == 1 and other.exists():
            other.replace(moon)
        return pages

    monkeypatch.setattr(export, "export", read)
    exported(moon)
    first = (moon.with_name("out") / "moon-1.brf").read_bytes()
    assert first == export_one(moon, 1, 24, 5) != b""


def test_nothing_is_written_while_the_book_never_stays_at_one_version(
    moon: Path, monkeypatch: pytest.MonkeyPatch
) -> None:
    of_volumes(moon)
    changed_after(2, 9, moon, monkeypatch)
    with pytest.raises(Stop) as stopped:
        exported(moon)
    assert stopped.value.status is Status.FAILED
    assert stopped.value.sentence == (
        "Another program changes the book: it is at version 12 by now. Nothing was exported,"
        f" and the files in {moon.with_name('out')} are as they were. Export it again once"
        " nobody works on it."
    )
    assert not moon.with_name("out").exists()


def test_where_a_volume_fails_it_is_said_which_files_are_new_and_which_older(
    moon: Path, monkeypatch: pytest.MonkeyPatch
) -> None:
    of_volumes(moon)
    out = moon.with_name("out")
    out.mkdir()
    (out / "moon-2.brf").mkdir()
    with pytest.raises(Stop) as failed:
        exported(moon)
    assert failed.value.status is Status.REFUSED
    assert failed.value.sentence == (
        f"Volume 2 could not be written: Is a directory. {out}/moon-2.brf is as it was."
        " Volume 1 is new. Volume 3 was not made."
    )
    assert files(out) == ["moon-1.brf", "moon-2.brf"]


@pytest.mark.parametrize(
    "words, written, told",
    [
        ((), "moon-1.brf", " Volume 1 is new. Volume 2 is as before."),
        (
            ("--only-changed",),
            "moon-1-changed.brf",
            " Volumes 1 and 2 are as before.",
        ),
        (("--page", "1", "--volume", "2"), "moon-2-pages-1.brf", ""),
    ],
)
def test_where_a_folder_can_not_be_brought_to_the_disk_it_is_said_which_files_are_new(
    moon: Path,
    monkeypatch: pytest.MonkeyPatch,
    words: tuple[str, ...],
    written: str,
    told: str,
) -> None:
    scribe("volume", moon, "2", "on", folder=moon.parent)
    out = moon.with_name("out")
    out.mkdir()
    for number in (1, 2):
        (out / f"moon-{number}.brf").write_bytes(b"older")
    sync = os.fsync

    def synced(descriptor: int) -> None:
        if os.path.samestat(os.fstat(descriptor), out.stat()):
            raise OSError(errno.EIO, "no sync")
        sync(descriptor)

    monkeypatch.setattr(os, "fsync", synced)
    said = StringIO()
    console = Console(BytesIO(), StringIO(), said)
    assert run_words(["export", str(moon), str(out), *words], console) == 3
    assert said.getvalue() == (
        f"{out / written} is written, but its folder could not be brought to the disk: no sync."
        f" After a loss of power the older file may be there.{told}\n"
    )


def test_a_link_in_a_shared_folder_leads_an_export_nowhere(moon: Path) -> None:
    out = moon.with_name("out")
    out.mkdir()
    (moon.parent / "profile").write_bytes(b"mine")
    (out / "moon-1.brf").symlink_to("../profile")
    ran = scribe("export", moon, "out", *SIZES, folder=moon.parent)
    assert ran.status == 0
    assert (moon.parent / "profile").read_bytes() == b"mine"
    assert not (out / "moon-1.brf").is_symlink()


@NEEDS_ROOT
def test_of_a_folder_that_may_not_be_entered_no_volume_is_said_not_to_be_there(
    moon: Path,
) -> None:
    out = moon.with_name("out")
    out.mkdir()
    lead_to(out)
    out.chmod(0o744)

    def enter() -> None:
        try:
            with export.Export(export.Job(moon, out, PageSize(), 0)).made_folder():
                pass
        except export.NoFolder as none:
            assert no_folder(none) == (
                f"The folder {out} can't be entered: Permission denied. Nothing was exported."
            )
            raise

    assert as_stranger(enter) == "NoFolder"


@NEEDS_ROOT
def test_nothing_that_a_stranger_puts_in_a_shared_folder_is_written_to(
    moon: Path,
) -> None:
    of_volumes(moon)
    out, mine = moon.with_name("out"), moon.with_name("profile")
    out.mkdir()
    out.chmod(0o777)
    lead_to(out)
    mine.write_bytes(b"mine")
    link, pipe, theirs = (out / f"moon-{volume}.brf" for volume in (1, 2, 3))

    def plant() -> None:
        link.symlink_to("../profile")
        os.mkfifo(pipe)
        theirs.write_bytes(b"theirs")
        theirs.chmod(0o4777)

    def begin() -> None:
        os.umask(0o022)
        in_time()

    assert as_stranger(plant) == ""
    held = os.open(theirs, os.O_RDWR)
    ran = scribe("export", moon, "out", folder=moon.parent, before=begin)
    assert (ran.status, ran.said) == (0, "")
    for file in (link, pipe, theirs):
        found = file.lstat()
        assert stat.S_ISREG(found.st_mode) and found.st_uid == 0
        assert stat.S_IMODE(found.st_mode) == 0o644
    assert mine.read_bytes() == b"mine"
    # whoever held the older file open has that one
    assert os.pread(held, 99, 0) == b"theirs"
    os.close(held)


@NEEDS_ROOT
@pytest.mark.parametrize("is_open", [False, True])
def test_pages_that_a_stranger_swaps_as_they_are_compared_are_not_said_to_be_unchanged(
    moon: Path, monkeypatch: pytest.MonkeyPatch, is_open: bool
) -> None:
    assert scribe("export", moon, "out", folder=moon.parent).status == 0
    file, private = moon.with_name("out") / "moon-1.brf", moon.with_name("private")
    shutil.copyfile(file, private)
    if not is_open:
        file.write_bytes(b"older")
    file.parent.chmod(0o777)
    lead_to(file.parent)
    opened, left = os.open, [True]

    def swap() -> None:
        file.unlink()
        file.symlink_to(private)

    def swapped(path: Any, *words: Any, **more: Any) -> int:
        is_first = path == file.name and bool(left) and left.pop()
        if is_first and not is_open:
            assert as_stranger(swap) == ""
        found = opened(path, *words, **more)
        if is_first and is_open:
            assert as_stranger(swap) == ""
        return found

    monkeypatch.setattr(os, "open", swapped)
    job = export.Job(moon, file.parent, PageSize(), 0, has_changed_pages=True)
    (written,) = export.Export(job).run()
    assert isinstance(written, export.Written) and not left
    assert (written.differences, written.changed_file) == (None, None)
    assert file.read_bytes() == private.read_bytes()
    assert not file.is_symlink()


def gone(out: Path) -> str:
    """What is said of a folder that isn't at its path any more."""
    return (
        f"The folder {out} isn't at that path any more. What was exported by then is in that folder,"
        " unless it was removed."
    )


@pytest.mark.parametrize("moment", ["between", "at the disk's end", "at its end"])
@pytest.mark.parametrize("is_replaced", [False, True])
def test_nothing_is_said_to_be_in_a_folder_that_is_renamed_during_an_export(
    moon: Path, monkeypatch: pytest.MonkeyPatch, moment: str, is_replaced: bool
) -> None:
    of_volumes(moon)
    out, moved = moon.with_name("out"), moon.with_name("moved")

    def rename() -> None:
        out.rename(moved)
        if is_replaced:
            out.mkdir()

    def renamed(*words: Any, **more: Any) -> None:
        write_whole(*words, **more)
        rename()
        if moment == "at the disk's end":
            raise MayNotLast(errno.EIO, "no sync")

    made = export.Export(export.Job(moon, out, PageSize(), 0)).run()
    assert isinstance(next(made), export.Written)
    if moment == "between":
        rename()
    else:
        monkeypatch.setattr(export, "write_whole", renamed)
    with pytest.raises(export.NotWritten) as failed:
        next(made)
    assert not_written(failed.value) == (
        f"Volume 2 isn't at {out}/moon-2.brf. {gone(out)}"
    )
    assert files(moved) == ["moon-1.brf", "moon-2.brf"][: 1 + (moment != "between")]


@NEEDS_ROOT
@pytest.mark.parametrize("is_between", [True, False])
def test_no_volume_comes_into_a_folder_that_a_stranger_puts_in_the_place_of_that_of_the_first(
    moon: Path, monkeypatch: pytest.MonkeyPatch, is_between: bool
) -> None:
    of_volumes(moon)
    out, private = shared_and_private(moon)
    out.mkdir()
    made = export.Export(export.Job(moon, out, PageSize(), 0)).run()
    assert isinstance(next(made), export.Written)

    def swapped(*words: Any, **more: Any) -> None:
        assert as_stranger(lambda: put_link(out, private)) == ""
        write_whole(*words, **more)

    if is_between:
        assert as_stranger(lambda: put_link(out, private)) == ""
    else:
        monkeypatch.setattr(export, "write_whole", swapped)
    with pytest.raises(export.NotWritten) as failed:
        next(made)
    assert not_written(failed.value) == (
        f"Volume 2 isn't at {out}/moon-2.brf. {gone(out)}"
    )
    assert files(private) == ["moon-2.brf"]
    assert (private / "moon-2.brf").read_bytes() == b"mine"
    later = [] if is_between else ["moon-2.brf"]
    assert files(out.with_name("aside")) == ["moon-1.brf", *later]


@NEEDS_ROOT
@pytest.mark.parametrize("is_there", [True, False])
def test_a_link_that_a_stranger_puts_in_the_place_of_the_folder_leads_an_export_nowhere(
    moon: Path, monkeypatch: pytest.MonkeyPatch, is_there: bool
) -> None:
    out, private = shared_and_private(moon)
    if is_there:
        out.mkdir()
    made = export.Export(export.Job(moon, out, PageSize(), 0))
    make = made.make_folder

    def swapped() -> bool:
        is_new = make()
        assert as_stranger(lambda: put_link(out, private)) == ""
        return is_new

    monkeypatch.setattr(made, "make_folder", swapped)
    with pytest.raises(export.NoFolder):
        list(made.run())
    assert files(private) == ["moon-2.brf"]


@NEEDS_ROOT
@pytest.mark.parametrize("way", ["the folder", "in its path", "a link of one's own"])
def test_no_pages_are_written_through_a_link_of_another_user(
    tmp_path: Path, way: str
) -> None:
    link, private = shared_and_private(tmp_path / "moon")
    assert as_stranger(lambda: link.symlink_to(private)) == ""
    own, direct = tmp_path / "own", tmp_path / "direct"
    own.symlink_to(link)
    direct.symlink_to(private)
    path = {"the folder": link, "in its path": link / "out"}.get(way, own)
    made = export.Export(export.Job(tmp_path / "moon", path, PageSize(), 0))
    with pytest.raises(export.NoFolder) as caught, made.made_folder():
        made.write(1, made.job.file(1), b"", Access())
    assert no_folder(caught.value) == (
        f"The link “{link}” is another user's, and no pages are written through it. Take the path to"
        " which it leads, if that is what you mean, or another one. Nothing was exported."
    )
    assert files(private) == ["moon-2.brf"]
    made = export.Export(export.Job(tmp_path / "moon", direct, PageSize(), 0))
    with made.made_folder():
        made.write(1, made.job.file(1), b"", Access())
    assert files(private) == ["moon-1.brf", "moon-2.brf"]


@NEEDS_ROOT
def test_no_folder_is_removed_through_a_link_that_a_stranger_puts_in_the_path(
    moon: Path, monkeypatch: pytest.MonkeyPatch
) -> None:
    shared, private = shared_and_private(moon)
    shared.mkdir()
    (private / "pages").mkdir()
    made = export.Export(export.Job(moon, shared / "pages", PageSize(), 0))
    make = made.make_folder

    def swapped() -> bool:
        is_new = make()
        assert as_stranger(lambda: put_link(shared, private)) == ""
        return is_new

    monkeypatch.setattr(made, "make_folder", swapped)
    with pytest.raises(export.NoFolder):
        list(made.run())
    assert (private / "pages").is_dir()


def shared_and_private(moon: Path) -> tuple[Path, Path]:
    """The path of a folder in one where a stranger may write, and a folder with a file of one's own."""
    shared, private = moon.with_name("shared"), moon.with_name("private")
    for each in (shared, private):
        each.mkdir()
    shared.chmod(0o777)
    lead_to(shared)
    (private / "moon-2.brf").write_bytes(b"mine")
    return shared / "out", private


def put_link(out: Path, private: Path) -> None:
    """Puts a link to another folder in the place of one."""
    out.rename(out.with_name("aside"))
    out.symlink_to(private)


def test_an_export_opens_no_pipe_of_a_volumes_name(moon: Path) -> None:
    out = moon.with_name("out")
    out.mkdir()
    os.mkfifo(out / "moon-1.brf")
    ran = scribe("export", moon, "out", folder=moon.parent, before=in_time)
    assert ran.status == 0
    assert stat.S_ISREG((out / "moon-1.brf").lstat().st_mode)


@pytest.mark.parametrize(
    "book, umask, wanted",
    [(0o600, 0o022, 0o600), (0o660, 0o002, 0o660), (0o444, 0o022, 0o644)],
)
def test_an_exported_volume_is_for_those_whom_the_book_is_for(
    book: int, umask: int, wanted: int, moon: Path
) -> None:
    moon.chmod(book)
    ran = scribe(
        "export", moon, "out", folder=moon.parent, before=lambda: os.umask(umask)
    )
    assert ran.status == 0
    found = moon.with_name("out") / "moon-1.brf"
    assert stat.S_IMODE(found.stat().st_mode) == wanted


@pytest.mark.parametrize("is_replaced", [True, False])
def test_whatever_stands_at_the_path_by_then_volumes_are_for_those_of_the_book_that_was_read(
    moon: Path, monkeypatch: pytest.MonkeyPatch, is_replaced: bool
) -> None:
    moon.chmod(0o600)
    made = export.Export(export.Job(moon, moon.with_name("out"), PageSize(), 0))

    def swap() -> None:
        made.job.folder.mkdir()
        moon.rename(f"{moon}-kept")
        if is_replaced:
            moon.touch()
            moon.chmod(0o666)

    monkeypatch.setattr(made, "make_folder", swap)
    assert len(list(made.run())) == 1
    assert stat.S_IMODE(made.job.file(1).stat().st_mode) == 0o600


@NEEDS_ROOT
@pytest.mark.parametrize("is_whole", [True, False])
def test_pages_of_a_book_that_strangers_swap_as_it_is_read_are_for_nobody_else(
    moon: Path, monkeypatch: pytest.MonkeyPatch, is_whole: bool
) -> None:
    shared = moon.with_name("shared")
    shared.mkdir()
    shared.chmod(0o777)
    lead_to(shared)
    public, private, kept = (shared / each for each in ("book", "private", "kept"))
    for book, mode in ((public, 0o644), (private, 0o600)):
        shutil.copyfile(moon, book)
        book.chmod(mode)
        with Session(book) as session:
            session.correct(1, 0, 3, "Our" if book is private else "One")
    read = braildesk.export

    def renamed(*names: tuple[Path, Path]) -> None:
        for name, other in names:
            name.rename(other)

    def swapped(*words: Any, **more: Any) -> bytes:
        assert as_stranger(lambda: renamed((public, kept), (private, public))) == ""
        try:
            return read(*words, **more)
        finally:
            assert as_stranger(lambda: renamed((public, private), (kept, public))) == ""

    monkeypatch.setattr(export, "export", swapped)
    job = export.Job(public, moon.with_name("out"), PageSize(), 0)
    if is_whole:
        assert len(list(export.Export(job).run())) == 1
    else:
        export.export_pages(job, 1, [PageRange(1, 1)])
    (file,) = job.folder.iterdir()
    is_private = b",OUR" in file.read_bytes()
    is_for_all = file.stat().st_mode & 0o004 != 0
    assert (is_private, is_for_all) in ((True, False), (False, True))


def test_a_book_that_is_another_one_whenever_it_was_read_is_not_exported(
    moon: Path, monkeypatch: pytest.MonkeyPatch
) -> None:
    read = braildesk.export

    def swapped(*words: Any, **more: Any) -> bytes:
        pages = read(*words, **more)
        other = shutil.copyfile(moon, moon.with_name("other"))
        os.replace(other, moon)
        return pages

    monkeypatch.setattr(export, "export", swapped)
    job = export.Job(moon, moon.with_name("out"), PageSize(), 0)
    with pytest.raises(export.BookChanges):
        export.export_pages(job, 1, [])
    assert not job.folder.exists()


def test_a_copy_opens_as_the_same_book(moon: Path) -> None:
    ran = scribe("copy", moon, "my copy.braildesk", folder=moon.parent)
    assert ran == Ran(0, f"my copy.braildesk is a copy of {moon}, at version 7.\n", "")
    copied = moon.with_name("my copy.braildesk")
    given = "list\nprint 1\nmarks 1\n"
    assert (
        scribe("run", copied, folder=moon.parent, given=given).shown
        == scribe("run", moon, folder=moon.parent, given=given).shown
    )


def test_a_copy_replaces_no_file(moon: Path) -> None:
    ran = scribe("copy", moon, "plain.utb", folder=moon.parent)
    assert ran.status == 2 and "is there already" in ran.said
    assert braildesk.check(moon) == 7


def test_pages_that_differ_from_the_older_file_are_named(moon: Path) -> None:
    with Session(moon) as session:
        for number in range(40):
            session.add_paragraph("end", "en", f"star {number}")
    first = scribe("export", moon, "out", *SIZES, folder=moon.parent)
    assert first.shown == "out/moon-1.brf: volume 1, 11 pages, 322 cells with dots.\n"
    again = scribe("export", moon, "out", *SIZES, folder=moon.parent)
    assert again.shown == first.shown + "Changed in volume 1: no page of 11.\n"
    # a page has four lines, and paragraph 3 takes two: 12 is on page 4, 43 on page 11
    with Session(moon) as session:
        session.correct(12, 0, 4, "moon")
        session.correct(43, 0, 4, "moon")
    ran = scribe("export", moon, "out", *SIZES, "--only-changed", folder=moon.parent)
    assert ran.shown.splitlines()[1:] == [
        "Changed in volume 1: pages 4 and 11 of 11.",
        "out/moon-1-changed.brf: the changed pages of volume 1 alone.",
    ]
    pages = (moon.parent / "out" / "moon-1.brf").read_bytes().split(b"\f")
    changed = (moon.parent / "out" / "moon-1-changed.brf").read_bytes()
    assert changed == pages[3] + b"\f" + pages[10] + b"\f"
    with Session(moon) as session:
        session.correct(12, 0, 4, "star")
    limit = len(changed), len(changed)
    cut = scribe(
        "export",
        moon,
        "out",
        *SIZES,
        "--only-changed",
        folder=moon.parent,
        before=lambda: resource.setrlimit(resource.RLIMIT_FSIZE, limit),
    )
    assert cut.status == 3 and cut.said == (
        "Volume 1 could not be written: File too large. out/moon-1.brf is as it was."
        " out/moon-1-changed.brf is new, with the pages that change in it.\n"
    )
    with Session(moon) as session:
        session.correct(12, 0, 4, "moon")
        for number in range(20, 44):
            session.strike(number)
    ran = scribe("export", moon, "out", *SIZES, folder=moon.parent)
    assert ran.shown.splitlines()[1] == (
        "Changed in volume 1: no page of 5. There were 11 pages before."
    )
    wide = ("--width", "60", "--lines", "40")
    assert scribe("export", moon, "out", *wide, folder=moon.parent).status == 0
    ran = scribe("export", moon, "out", *SIZES, folder=moon.parent)
    assert ran.shown.splitlines()[1].endswith(" There was 1 page before.")


def test_single_pages_are_written_beside_the_volumes(moon: Path) -> None:
    with Session(moon) as session:
        for number in range(10):
            session.add_paragraph("end", "en", f"star {number}")
    scribe("export", moon, "out", *SIZES, folder=moon.parent)
    pages = (moon.parent / "out" / "moon-1.brf").read_bytes().split(b"\f")
    words: list[str | Path] = ["export", moon, "out", *SIZES, "--page", "2-3,1"]
    assert scribe(*words, folder=moon.parent) == Ran(
        0, "out/moon-1-pages-2-3,1.brf: 3 pages of volume 1.\n", ""
    )
    found = (moon.parent / "out" / "moon-1-pages-2-3,1.brf").read_bytes()
    assert found == b"".join(pages[n] + b"\f" for n in (1, 2, 0))
    assert scribe("export", moon, "out", *SIZES, "--page", "9", folder=moon.parent) == (
        Ran(2, "", "There is no page 9: volume 1 has 4 pages. Nothing was exported.\n")
    )
    of_volumes(moon)
    assert scribe(*words, folder=moon.parent).said == (
        "The book has more than one volume: say which by --volume. Nothing was exported.\n"
    )
    assert scribe(*words[:-1], "1", "--volume", "2", folder=moon.parent).shown == (
        "out/moon-2-pages-1.brf: 1 page of volume 2.\n"
    )
    ran = scribe(*words[:-1], "1", "--volume", "7", folder=moon.parent)
    assert ran == Ran(2, "", "There is no volume 7. Nothing was exported.\n")


@pytest.mark.parametrize(
    "words", [("--page", "x"), ("--page", ""), ("--volume", "1"), ("--page", "0")]
)
def test_pages_that_are_none_are_refused(moon: Path, words: tuple[str, ...]) -> None:
    ran = scribe("export", moon, "out", *words, folder=moon.parent)
    assert ran.status in (1, 2) and not ran.shown
    assert not (moon.parent / "out").exists()


def test_a_range_of_pages_that_goes_backwards_is_refused(moon: Path) -> None:
    ran = scribe("export", moon, "out", *SIZES, "--page", "1,3-2", folder=moon.parent)
    assert (ran.status, ran.shown) == (1, "")
    assert ran.said.startswith("Argument --page: 2 comes before 3: ask for 2-3.\n")
    assert not (moon.parent / "out").exists()


PAGES = st.lists(st.sampled_from([b"A\r\n\f", b"B\r\n\f", b"\r\n\f"]), max_size=8)


@given(PAGES, PAGES)
def test_the_changed_pages_make_the_new_file_of_the_older_one(
    before: list[bytes], now: list[bytes]
) -> None:
    older, newer = b"".join(before), b"".join(now)
    found = export.Differences.of(older, newer)
    assert (found.before, found.count) == (len(before), len(now))
    made = [*before, *[b""] * len(now)][: len(now)]
    for number in found.pages:
        assert made[number - 1] != now[number - 1]
        made[number - 1] = now[number - 1]
    assert b"".join(made) == newer


@pytest.mark.parametrize(
    "numbers, words",
    [
        ((6,), "6"),
        ((6, 10), "6 and 10"),
        ((1, 2, 3), "1 to 3"),
        ((1, 2, 3, 6, 8, 9), "1 to 3, 6 and 8 to 9"),
    ],
)
def test_pages_are_listed_as_a_person_does(
    numbers: tuple[int, ...], words: str
) -> None:
    assert numbers_in_words(numbers) == words


def test_an_older_file_of_very_many_pages_takes_little_memory() -> None:
    older = b"a\f" * 2**20
    tracemalloc.start()
    try:
        found = export.Differences.of(older, b"a\fb\f")
        _, most = tracemalloc.get_traced_memory()
    finally:
        tracemalloc.stop()
    assert found == export.Differences((2,), 2, 2**20)
    assert most < 2 * len(older)
