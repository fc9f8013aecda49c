"""An export in words: what became of each volume."""

import os
from collections.abc import Callable, Iterator, Sequence
from contextlib import ExitStack, contextmanager, suppress
from pathlib import Path

from braildesk import (
    CannotOpen,
    DeskError,
    Displaced,
    Failed,
    Lost,
    Session,
    check,
)
from braildesk.desk.copied_book import CopiedBook, copied_book
from braildesk.desk.export import (
    BookChanges,
    Differences,
    Export,
    Files,
    FolderGone,
    Job,
    LeftOut,
    NoFolder,
    NotWritten,
    WhichVolume,
    Written,
    export_pages,
)
from braildesk.desk.ranges import NoPage, PageRange
from braildesk.opening import is_of_system
from braildesk.protocol.sentences import of_failure
from braildesk.workshop import MayNotLast, OthersLink, Swapped

from scribe.words.console import Console, OutputFailed
from scribe.words.paragraph import counted
from scribe.words.status import Interrupted, Status, may_not_last, stopped_by


def may_be_of_other(path: Path, lost: Lost) -> tuple[str, ...]:
    """What is said of files that were made while the book was closed, if another is at its path by now."""
    if not isinstance(lost, Displaced) or not os.path.lexists(path):
        return ()
    return ("What was written may be of another file that was at the book's path.",)


@contextmanager
def copy_of_open(
    session: Session, path: Path, judge: Callable[[], None]
) -> Iterator[CopiedBook | None]:
    """A copy of a book that a session has open, to be exported from; none where none can be made.

    Nor is there one if that is stopped. Raises `Lost` where the session has ended, or another file is at the path.
    """
    copy = made = None
    with ExitStack() as stack:
        try:
            with suppress(CannotOpen):
                # where another one stands at the path, it is seen below whether it does so still
                made = stack.enter_context(copied_book(path, session.fileno()))
            version = session.version()
            session.tables()
            # it has all of the book, where its log wasn't taken away
            if made is not None and check(made.path, while_waiting=judge) == version:
                copy = made
        except Lost:
            raise
        except (DeskError, OSError, ValueError, Interrupted):
            # as if the temporary folder has no room: others may have the book then
            pass
        yield copy


def export_in_words(job: Job, console: Console) -> Status:
    """Exports a book, and says what became of each volume; raises what `Export.run` does."""
    made = Export(job, console.check)
    try:
        for volume in made.run():
            if isinstance(volume, Written):
                console.show(*_written(volume))
            else:
                console.say(_left_out(volume))
        console.say(*_ending(job, made))
    except KeyboardInterrupt as cause:
        console.say(stopped_by(cause) + _so_far(made))
        raise Interrupted.after(cause) from cause
    except Failed as failed:
        # as where the program was killed that reads the volumes
        raise Failed(f"{failed.sentence}{_so_far(made)}") from failed
    except OutputFailed as failed:
        # the files are written all the same
        failed.add_note(_so_far(made).lstrip())
        raise
    return Status.DONE if made.is_whole else Status.REFUSED


def _written(volume: Written) -> Iterator[str]:
    pages = counted(volume.pages, "page")
    cells = counted(volume.cells, "cell")
    yield f"{volume.file}: volume {volume.volume}, {pages}, {cells} with dots."
    if volume.differences is not None:
        yield changed_pages(volume.volume, volume.differences)
    if volume.changed_file is not None:
        yield f"{volume.changed_file}: the changed pages of volume {volume.volume} alone."


def changed_pages(volume: int, its: Differences) -> str:
    """Which pages of a volume aren't as they were, as in “volume 1: pages 6 and 10 of 71”."""
    more = ""
    if its.before != its.count:
        verb = "was" if its.before == 1 else "were"
        more = f" There {verb} {counted(its.before, 'page')} before."
    if not its.pages:
        return f"Changed in volume {volume}: no page of {its.count:,}.{more}"
    if len(its.pages) == its.count > 1:
        return f"Changed in volume {volume}: all of its {counted(its.count, 'page')}.{more}"
    pages = numbers_in_words(its.pages)
    word = "page" if len(its.pages) == 1 else "pages"
    return f"Changed in volume {volume}: {word} {pages} of {its.count:,}.{more}"


def numbers_in_words(numbers: Sequence[int]) -> str:
    """Ascending numbers as a person lists them: those that follow one another from one to another."""
    runs: list[list[int]] = []
    for number in numbers:
        if runs and runs[-1][-1] == number - 1:
            runs[-1].append(number)
        else:
            runs.append([number])
    parts = []
    for run in runs:
        parts += [str(run[0])] if len(run) == 1 else [f"{run[0]} to {run[-1]}"]
    *others, last = parts
    return f"{', '.join(others)} and {last}" if others else last


def pages_in_words(job: Job, volume: int | None, wanted: Sequence[PageRange]) -> str:
    """Exports some pages of a volume, and says where they are; raises what `export_pages` does."""
    try:
        made = export_pages(job, volume, wanted)
    except Failed as failed:
        # as above
        raise Failed(f"{failed.sentence} Nothing was exported.") from failed
    pages = counted(made.pages, "page")
    return f"{made.file}: {pages} of volume {made.volume}."


def no_page(none: NoPage) -> str:
    """The sentence for a page that a volume doesn't have."""
    has = counted(none.count, "page")
    return f"There is no page {none.page}: volume {none.volume} has {has}. Nothing was exported."


def which_volume(fault: WhichVolume) -> str:
    """The sentence if it isn't clear of which volume pages are wanted."""
    if fault.volume is None:
        return "The book has more than one volume: say which by --volume. Nothing was exported."
    return f"There is no volume {fault.volume}. Nothing was exported."


def _left_out(volume: LeftOut) -> str:
    left = "is as it was" if volume.is_there else "was not made"
    # the other volumes are exported all the same
    why = volume.refused.sentence.replace(" Nothing was exported.", "")
    return f"Volume {volume.volume}: {why} {volume.file} {left}."


def book_changes(changes: BookChanges) -> str:
    """The sentence for a book that never stayed as it was while its volumes were read."""
    return (
        "Another program changes the book: it is at version"
        f" {changes.version:,} by now. Nothing was exported, and the files in"
        f" {changes.folder} are as they were. Export it again once nobody works on it."
    )


def no_folder(none: NoFolder) -> str:
    """The sentence for a folder that can't be made."""
    return f"{_why_no_folder(none)} Nothing was exported."


def _why_no_folder(none: NoFolder) -> str:
    if isinstance(none.cause, OthersLink):
        return (
            f"The link “{none.cause.link}” is another user's, and no pages are written through it. Take"
            " the path to which it leads, if that is what you mean, or another one."
        )
    if isinstance(none.cause, FileExistsError):
        return f"{none.folder} is no folder."
    if isinstance(none.cause, OSError) and is_of_system(str(none.folder)):
        return (
            f"{none.folder} is where the system shows what it has itself, as in /proc and /sys, and no"
            " folder is made there. Take another path for the folder."
        )
    if isinstance(none.cause, OSError):
        done = "entered" if os.path.isdir(none.folder) else "made"
        return f"The folder {none.folder} can't be {done}: {of_failure(none.cause)}."
    return f"{none.folder} can't be a path, which has no character U+0000."


def not_written(fault: NotWritten) -> str:
    """What is said of a volume that couldn't be written, and of the others."""
    if isinstance(fault.cause, FolderGone):
        moved = _of_folder_gone(fault.file.parent)
        return f"Volume {fault.volume} isn't at {fault.file}.{moved}"
    if isinstance(fault.cause, MayNotLast):
        return may_not_last(fault.file, fault.cause) + _files(fault.files)
    left = "is as it was" if fault.is_there else "was not made"
    if isinstance(fault.cause, Swapped):
        left = "isn't what was exported"
    pages = "" if fault.changed is None else _of_changed_pages(fault.changed)
    return (
        f"Volume {fault.volume} could not be written: {of_failure(fault.cause)}. {fault.file}"
        f" {left}.{pages}{_files(fault.files)}"
    )


def _so_far(made: Export) -> str:
    """What an export has done that was ended, after a blank."""
    files = made.so_far()
    if files is None:
        return " Nothing was exported."
    if made.is_folder_gone:
        return _of_folder_gone(made.job.folder)
    changed = map(made.job.changed_file, files.as_before)
    pages = [_of_changed_pages(file) for file in changed if file in made.changed_files]
    return _files(files) + "".join(pages)


def _of_folder_gone(folder: Path) -> str:
    """Where what was exported is if its folder isn't at its path any more, after a blank."""
    return (
        f" The folder {folder} isn't at that path any more. What was exported by then is in that folder,"
        " unless it was removed."
    )


def _of_changed_pages(file: Path) -> str:
    """That the file of the pages in which a volume changes is there, and not yet that of the volume."""
    return f" {file} is new, with the pages that change in it."


def _files(files: Files) -> str:
    """What became of some volumes, if there are any."""
    said = (
        _numbered(files.new, "is", "are", "new"),
        _numbered(files.as_before, "is", "are", "as before"),
        _numbered(files.not_made, "was", "were", "not made"),
    )
    return "".join(said)


def _numbered(volumes: Sequence[int], one: str, more: str, what: str) -> str:
    """A sentence of some volumes, after a blank; nothing if there are none."""
    if not volumes:
        return ""
    *others, last = map(str, volumes)
    if not others:
        return f" Volume {last} {one} {what}."
    return f" Volumes {', '.join(others)} and {last} {more} {what}."


def _ending(job: Job, made: Export) -> list[str]:
    """What is said after all volumes were written."""
    sentences = []
    if made.volumes == 0:
        sentences.append(
            "The book has no volume: each paragraph is struck, or there is none."
        )
    try:
        later = [str(path) for path in job.later_files(made.volumes)]
        older = [
            str(path) for path in job.files_of_pages() if path not in made.changed_files
        ]
        others = [str(path) for path in job.no_files()]
    except OSError as error:
        later = older = others = []
        sentences.append(f"The folder {job.folder} can't be listed: {error.strerror}.")
    if later:
        sentences.append(
            "Left from an earlier export, of volumes that the book has no more:"
            f" {', '.join(later)}."
        )
    if older:
        sentences.append(
            f"Left from an earlier export, of single pages: {', '.join(older)}."
        )
    if others:
        sentences.append(
            f"In the folder by the name of a file of pages, but no file: {', '.join(others)}."
        )
    return sentences
