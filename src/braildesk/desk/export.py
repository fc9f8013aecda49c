"""An export: all volumes of a book as pages for an embosser, each in a file of a folder."""

import errno
import os
import re
from collections.abc import Callable, Iterable, Iterator, Sequence
from contextlib import contextmanager, suppress
from dataclasses import dataclass, replace
from functools import partial
from pathlib import Path
from typing import TypeVar

from braildesk import Code, NotFound, Refused, check, export
from braildesk.desk import Problem
from braildesk.desk.copied_book import CopiedBook, copied_book
from braildesk.desk.layout import PageSize
from braildesk.desk.ranges import PageRange
from braildesk.desk.whole_file import Access, write_whole
from braildesk.fenced import may_be_replaced
from braildesk.held import held, is_at_path, open_file
from braildesk.named_files import read_file_there
from braildesk.opening import waited
from braildesk.protocol.asked import BookFile
from braildesk.workshop import (
    MayNotLast,
    OthersLink,
    Place,
    own_path,
    place_of,
)

# how often the volumes are read until all are of one version
TRIES = 3
#: How many bytes of an older file are compared: more than those of any volume.
MOST_BYTES = 1 << 28
_Found = TypeVar("_Found")
#: How the name of a file of single pages goes on after the number of its volume.
_OF_PAGES = "-(?:changed|pages-[0-9,-]+)"


@dataclass(frozen=True)
class Job:
    """A book whose volumes are written to a folder, and the size of their pages."""

    book: Path
    folder: Path
    page_size: PageSize
    #: How many seconds a book is waited for that another program has open.
    wait: float
    #: Whether the pages that differ from those of the older file are written beside it too.
    has_changed_pages: bool = False
    #: A copy of the book, where that may only be read.
    copy: CopiedBook | None = None

    @property
    def read_at(self) -> Path:
        """Where the book is read."""
        return self.copy.path if self.copy else self.book

    @property
    def name(self) -> str:
        """What the names of the files begin with."""
        return self.book.name.removesuffix(".braildesk")

    def file(self, volume: int) -> Path:
        """The file of a volume."""
        return self.folder / f"{self.name}-{volume}.brf"

    def changed_file(self, volume: int) -> Path:
        """The file of the pages of a volume that differ from those of the older file."""
        return self.folder / f"{self.name}-{volume}-changed.brf"

    def pages_file(self, volume: int, wanted: Sequence[PageRange]) -> Path:
        """The file of some pages of a volume alone."""
        name = ",".join(each.name for each in wanted)
        return self.folder / f"{self.name}-{volume}-pages-{name}.brf"

    def later_files(self, volumes: int) -> list[Path]:
        """Files of volumes that the book doesn't have, in their order."""
        found = {number: path for number, path in self._named("") if _is_file(path)}
        return [found[volume] for volume in sorted(found) if volume > volumes]

    def files_of_pages(self) -> list[Path]:
        """Files of single pages of any volumes, in their order."""
        its = self._named(_OF_PAGES)
        found = {(number, path.name): path for number, path in its if _is_file(path)}
        return [found[key] for key in sorted(found)]

    def no_files(self) -> list[Path]:
        """What has the name of such a file and is none, as a link that somebody else put there."""
        its = self._named(f"(?:{_OF_PAGES})?")
        return sorted(path for _, path in its if not _is_file(path))

    def _named(self, ending: str) -> Iterator[tuple[int, Path]]:
        """What has the name of a volume with such an ending, and the number of that."""
        form = re.compile(re.escape(self.name) + rf"-([1-9][0-9]{{0,4}}){ending}\.brf")
        # where no volume was written the folder may not be there
        with suppress(FileNotFoundError):
            for path in self.folder.iterdir():
                if match := form.fullmatch(path.name):
                    yield int(match[1]), path


def _is_file(path: Path) -> bool:
    """Whether it is a file, and no link to one."""
    return not path.is_symlink() and path.is_file()


@dataclass(frozen=True)
class Differences:
    """The pages of a volume that aren't as in the file that it replaced, counted from 1."""

    pages: tuple[int, ...]
    count: int
    #: How many pages the older file had.
    before: int

    @classmethod
    def of(cls, older: bytes, newer: bytes) -> "Differences":
        """What differs between two files of pages."""
        now = _parted(newer)
        # somebody else may have put a file of any number of pages there
        before = _parted(older, len(now))
        pages = tuple(
            number
            for number, page in enumerate(now, 1)
            if number > len(before) or before[number - 1] != page
        )
        has_rest = bool(older) and not older.endswith(b"\f")
        return cls(pages, len(now), older.count(b"\f") + has_rest)


@dataclass(frozen=True)
class Written:
    """A volume that is in its file: its pages, and its cells with dots but for the pages' numbers.

    If it replaced an older file, it is said what differs from that, and where those pages are.
    """

    volume: int
    file: Path
    pages: int
    cells: int
    differences: Differences | None = None
    changed_file: Path | None = None


@dataclass(frozen=True)
class WrittenPages:
    """Pages of a volume that are in a file of their own."""

    volume: int
    file: Path
    pages: int


class WhichVolume(Problem):
    """Pages are to be exported of a book of several volumes, or of a volume that it doesn't have."""

    def __init__(self, volume: int | None) -> None:
        super().__init__(volume)
        self.volume = volume


@dataclass(frozen=True)
class LeftOut:
    """A volume that is refused: its file is as it was, if there was one."""

    volume: int
    file: Path
    refused: Refused
    is_there: bool


@dataclass(frozen=True)
class Files:
    """What the files of the volumes have if an export ended before its end."""

    new: tuple[int, ...]
    as_before: tuple[int, ...]
    #: The volumes that have no file.
    not_made: tuple[int, ...]


class BookChanges(Problem):
    """Another program changes the book while its volumes are read, and none was written."""

    def __init__(self, version: int, folder: Path) -> None:
        super().__init__(version, folder)
        self.version = version
        self.folder = folder


class NoFolder(Problem):
    """The folder of the volumes isn't one and can't be made, by its cause; none was written.

    Nor is one taken to which a link of another user leads.
    """

    def __init__(self, folder: Path, cause: OSError | ValueError | OthersLink) -> None:
        super().__init__(folder, cause)
        self.folder = folder
        self.cause = cause


class FolderGone(OSError):
    """The folder of the volumes isn't at its path any more, and has what was written so far."""

    def __init__(self) -> None:
        super().__init__(errno.ESTALE, "its folder isn't at that path any more")


class NotWritten(Problem):
    """The file of a volume couldn't be written, `MayNotLast` or `FolderGone`; the files of the others.

    Its changed pages may have been written to a file of their own.
    """

    def __init__(
        self,
        volume: int,
        file: Path,
        cause: OSError,
        is_there: bool,
        files: Files,
        changed: Path | None = None,
    ) -> None:
        super().__init__(volume, file, cause)
        self.volume = volume
        self.file = file
        self.cause = cause
        self.is_there = is_there
        self.files = files
        self.changed = changed


class Export:
    """An export that is made, and what it has done so far.

    The check is called between any two of its steps, and while the program is waited for, and ends it
    by what it raises.
    """

    def __init__(self, job: Job, check: Callable[[], None] = lambda: None) -> None:
        self.job = job
        self._check = check
        self._volumes: list[bytes | Refused] = []
        self._written: list[int] = []
        #: That of the file from which the volumes were read.
        self._access = Access(0o600)
        #: The folder, which is held open while files are written, so that they come into no other.
        self._folder = -1
        #: Whether that wasn't at its path any more when it was let go.
        self.is_folder_gone = False
        #: The files of pages that differ which were written.
        self.changed_files: list[Path] = []
        #: The file that was begun last, with its pages, unless it had these before.
        self._begun: tuple[Path, bytes] | None = None

    @property
    def volumes(self) -> int:
        """How many volumes the book has, once they were read."""
        return len(self._volumes)

    @property
    def is_whole(self) -> bool:
        """Whether each volume is in its file."""
        return len(self._written) == self.volumes

    def run(self) -> Iterator[Written | LeftOut]:
        """Reads all volumes, then writes each that isn't refused.

        Raises `BookChanges`, `NoFolder` and `NotWritten`, and what the client raises of the book.
        """
        with _apart(self.job) as job:
            read = partial(self._of_one_version, job)
            self._volumes, self._access = _with_access(job, read)
        with self.made_folder():
            for volume, pages in enumerate(self._volumes, 1):
                self._check()
                file = self.job.file(volume)
                if isinstance(pages, Refused):
                    yield LeftOut(volume, file, pages, os.path.lexists(file))
                    continue
                differences, changed = self._compared(volume, pages)
                self.write(volume, file, pages, self._access, changed)
                self._written.append(volume)
                yield Written(volume, file, *_size(pages), differences, changed)

    def so_far(self) -> Files | None:
        """What the files have if this was ended; none if no volume was to be written yet."""
        if not self._volumes:
            return None
        rest = [n for n in self._wanted if n not in self._written]
        # the file that was begun last may have its pages and not be noted yet
        if self._begun is not None and _has(*self._begun):
            file, _ = self._begun
            if rest and file == self.job.file(rest[0]):
                return self._files((*self._written, rest[0]), rest[1:])
            if rest and file == self.job.changed_file(rest[0]):
                self.changed_files.append(file)
        return self._files(self._written, rest)

    def _files(self, new: Iterable[int], others: Iterable[int]) -> Files:
        """What the files have: some volumes are new in theirs, and of others some may have none."""
        there: dict[bool, list[int]] = {True: [], False: []}
        for number in others:
            there[os.path.lexists(self.job.file(number))].append(number)
        return Files(tuple(new), tuple(there[True]), tuple(there[False]))

    @property
    def _wanted(self) -> dict[int, bytes]:
        """The pages of each volume that isn't refused."""
        pairs = enumerate(self._volumes, 1)
        return {number: each for number, each in pairs if isinstance(each, bytes)}

    def _of_one_version(self, job: Job) -> list[bytes | Refused]:
        """The pages of each volume, or why it is refused, all read while the book was at one version."""
        version = _version(job, self._check)
        for _ in range(TRIES):
            volumes = list(self._read(job))
            before, version = version, _version(job, self._check)
            if before == version:
                return volumes
        raise BookChanges(version[0], job.folder)

    def _read(self, job: Job) -> Iterator[bytes | Refused]:
        """The pages of each volume, or why it is refused."""
        volume = 1
        while True:
            self._check()
            try:
                yield _pages_of(job, volume, self._check)
            except NotFound:
                return
            except Refused as refused:
                if refused.code != Code.NOT_FOR_EMBOSSERS:
                    raise
                yield refused
            volume += 1

    @contextmanager
    def made_folder(self) -> Iterator[None]:
        """Makes the folder of the files, which goes again if none was written; raises `NoFolder`."""
        is_new = self.make_folder()
        try:
            with self._held_folder():
                yield
        finally:
            if is_new:
                # a folder with anything in it isn't removed by that
                with suppress(OSError, OthersLink), self._place() as place:
                    os.rmdir(place.name, dir_fd=place.folder)

    def make_folder(self) -> bool:
        """Makes the folder of the files, and says whether it wasn't there; raises `NoFolder`."""
        try:
            with self._place() as place:
                os.mkdir(place.name, dir_fd=place.folder)
            return True
        except FileExistsError as cause:
            if self.job.folder.is_dir():
                return False
            raise NoFolder(self.job.folder, cause) from cause
        except (OSError, ValueError, OthersLink) as cause:
            raise NoFolder(self.job.folder, cause) from cause

    @contextmanager
    def _place(self) -> Iterator[Place]:
        """The place of the folder of the files, to which links of this user and of root alone lead."""
        above, name = os.path.split(os.fspath(self.job.folder))
        with place_of(os.path.join(own_path(above), name or ".")) as place:
            yield place

    @contextmanager
    def _held_folder(self) -> Iterator[None]:
        """Holds the folder of the files open; raises `NoFolder`.

        Where others may rename it they may put any other of this user in its place, or a link to one. No
        link of theirs is followed, whenever they put it there.
        """
        try:
            path = own_path(os.fspath(self.job.folder))
            with place_of(os.path.join(path, "")) as place:
                # what is in a folder that one may not enter isn't seen
                os.stat(".", dir_fd=place.folder)
                self._folder = os.dup(place.folder)
        except (OSError, OthersLink) as cause:
            raise NoFolder(self.job.folder, cause) from cause
        try:
            yield
        finally:
            self.is_folder_gone = not self._has_folder()
            os.close(self._folder)

    def _has_folder(self) -> bool:
        """Whether the folder that is held open is at its path still."""
        try:
            found = os.stat(self.job.folder)
        except OSError:
            return False
        return os.path.samestat(found, os.fstat(self._folder))

    def _compared(
        self, volume: int, pages: bytes
    ) -> tuple[Differences | None, Path | None]:
        """What of a volume differs from its older file, and the file with these pages alone.

        That is written first: if the volume can't be, it is the same the next time.
        """
        older = _read(self.job.file(volume).name, self._folder)
        if older is None:
            return None, None
        differences = Differences.of(older, pages)
        if not (self.job.has_changed_pages and differences.pages):
            return differences, None
        file, parted = self.job.changed_file(volume), _parted(pages)
        changed = b"".join(parted[number - 1] for number in differences.pages)
        self.write(volume, file, changed, self._access)
        self.changed_files.append(file)
        return differences, file

    def write(
        self,
        volume: int,
        file: Path,
        pages: bytes,
        access: Access,
        changed: Path | None = None,
    ) -> None:
        """Writes a volume, or pages of it, after some others; raises `NotWritten`.

        Its changed pages may have been written to a file of their own.
        """
        is_there = os.path.lexists(file)
        self._begun = None if _has(file, pages) else (file, pages)
        try:
            if self._has_folder():
                write_whole(file, pages, access, held=self._folder)
            if not self._has_folder():
                raise FolderGone
        except OSError as failed:
            cause = failed if self._has_folder() else FolderGone()
            files = self._beside(volume, file, cause)
            raise NotWritten(volume, file, cause, is_there, files, changed) from failed

    def _beside(self, volume: int, file: Path, cause: OSError) -> Files:
        """What the files of the volumes have if one wasn't written, or only pages of a volume weren't."""
        if file != self.job.file(volume):
            return self._files(self._written, range(volume, self.volumes + 1))
        new = (volume,) if isinstance(cause, MayNotLast) else ()
        others = range(volume + 1, self.volumes + 1)
        return self._files((*self._written, *new), others)


def export_pages(
    job: Job, volume: int | None, wanted: Sequence[PageRange]
) -> WrittenPages:
    """Writes some pages of a volume to a file of their own, and leaves that of the volume as it is.

    Without a volume they are those of the only one. Raises `WhichVolume`, `NoPage`, `NoFolder` and
    `NotWritten`, and what the client raises of the book.
    """
    with _apart(job) as its:
        number = _only_volume(its) if volume is None else volume
        try:
            read, access = _with_access(its, lambda: _pages_of(its, number))
        except NotFound as missing:
            raise WhichVolume(number) from missing
    pages = _parted(read)
    found = b"".join(page for each in wanted for page in each.of(number, pages))
    file = job.pages_file(number, wanted)
    made = Export(job)
    with made.made_folder():
        made.write(number, file, found, access)
    return WrittenPages(number, file, len(_parted(found)))


@contextmanager
def _apart(job: Job) -> Iterator[Job]:
    """A job that reads a copy, where others may put another book in the place of its own meanwhile.

    Else the pages of that one might get the access of this. A book that is open isn't copied.
    """
    book = BookFile.of(job.book)
    if job.copy is not None or not may_be_replaced(book):
        yield job
        return
    waited(partial(_judge_closed, book), job.wait)
    with copied_book(job.book) as copy:
        yield replace(job, copy=copy)


def _judge_closed(book: BookFile) -> None:
    with held(book):
        pass


def _with_access(job: Job, read: Callable[[], _Found]) -> tuple[_Found, Access]:
    """What is read of a book, and the access of the file that has its path before and after that.

    If a copy is read, that is the access of the book that was copied.
    """
    book = BookFile.of(job.read_at)
    for _ in range(TRIES):
        with open_file(book) as file:
            found = read()
            if is_at_path(book, file):
                access_of = job.copy.access_of if job.copy else Access.of
                return found, access_of(file.fileno())
    raise BookChanges(check(job.read_at), job.folder)


def _only_volume(job: Job) -> int:
    try:
        _pages_of(job, 2)
    except NotFound:
        return 1
    except Refused as refused:
        if refused.code != Code.NOT_FOR_EMBOSSERS:
            raise
    raise WhichVolume(None)


def _pages_of(job: Job, volume: int, check: Callable[[], None] = lambda: None) -> bytes:
    size = job.page_size
    sizes = size.width, size.lines
    return export(job.read_at, volume, *sizes, timeout=job.wait, while_waiting=check)


def _parted(pages: bytes, most: int = -1) -> list[bytes]:
    """The pages of a file, or so many of them, each with the form feed that ends it."""
    *whole, rest = pages.split(b"\f", most)
    found = [page + b"\f" for page in whole]
    return [*found, rest] if rest and len(found) != most else found


def _read(name: str, folder: int) -> bytes | None:
    """The bytes of an older file; none if it is no file, can't be read, or isn't there any more."""
    try:
        return read_file_there(name, MOST_BYTES, folder)
    except OSError:
        return None


def _version(job: Job, while_waiting: Callable[[], None]) -> tuple[int, int, int]:
    """The version of the book, and the device and inode of its file: a copy may replace that."""
    version = check(job.read_at, timeout=job.wait, while_waiting=while_waiting)
    found = job.read_at.stat()
    return version, found.st_dev, found.st_ino


def _size(pages: bytes) -> tuple[int, int]:
    """How much a volume is: its pages, and its cells that have dots but for the pages' numbers."""
    numbered = pages.split(b"\f")[:-1]
    cells = sum(_cells_with_dots(line) for page in numbered for line in _texts(page))
    return len(numbered), cells


def _texts(page: bytes) -> list[bytes]:
    """The lines of a page without the last one, which has its number."""
    return page.removesuffix(b"\r\n").split(b"\r\n")[:-1]


def _cells_with_dots(line: bytes) -> int:
    return len(line) - line.count(b" ")


def _has(file: Path, pages: bytes) -> bool:
    try:
        return read_file_there(file, len(pages)) == pages
    except OSError:
        return False
