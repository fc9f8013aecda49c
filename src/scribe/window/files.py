"""Texts that come into the book at work, and the volumes and proofs that go out of it."""

import signal
from collections.abc import Callable, Iterator, Sequence
from contextlib import contextmanager
from dataclasses import dataclass, replace
from functools import partial
from io import BytesIO
from pathlib import Path
from typing import Any

from braildesk import After, DeskError, Displaced, Lost
from braildesk.desk import USUAL_WAIT
from braildesk.desk.copied_book import CopiedBook
from braildesk.desk.earlier import Undecided, Way
from braildesk.desk.export import Job
from braildesk.desk.import_text import Import
from braildesk.desk.intake import Intake
from braildesk.desk.proof import open_marks, proof_pages
from braildesk.desk.whole_file import Access, write_whole
from braildesk.protocol.requests import Command
from braildesk.protocol.sentences import of_failure
from braildesk.session import HeldFile, held_file
from braildesk.workshop import MayNotLast

from scribe.window import dialogs
from scribe.window.book import LEFT, Contents, NoAnswer
from scribe.window.desk import Desk
from scribe.window.dialogs import IsStopped, Say
from scribe.words.console import Console, Heard
from scribe.words.deeds import changed_between
from scribe.words.export import copy_of_open, export_in_words, may_be_of_other
from scribe.words.status import (
    Interrupted,
    Stop,
    in_sentences,
    may_not_last,
    of_system,
)
from scribe.words.import_text import import_in_words, question
from scribe.words.pages import described, not_exported
from scribe.words.paragraph import counted
from scribe.words.proof_html import Proof, elsewhere
from scribe.words.typed import typed_path

_TEXTS = (
    "Manuscripts (*.txt *.docx *.odt *.epub *.html *.htm *.xhtml *.md *.markdown *.rtf *.doc)"
    ";;All files (*)"
)
_ASKED = "The &folder to which the volumes go, which is made if it isn't there:"
_AGAIN = "Import it again to have the rest typed too."
_PAGES = "pages"
_SEVERAL = "{} files were {}, and nothing was typed. Ctrl+I imports one at a time."
#: What is said where something was pasted that is neither text nor files.
NO_TEXT = "There is no text to put in, so nothing was typed."


@dataclass(frozen=True)
class _Beside(Console):
    """What is said of work: how far it is stands in its dialog alone, and not in the report."""

    tell: Say = lambda line: None

    def progress(self, what: str) -> Callable[[int, int], None]:
        """A function of how many are done, of how many, that says so."""

        def report(done: int, total: int) -> None:
            self.check()
            self.tell(f"{done:,} of {total:,} {what}.")

        return report


class Files:
    """What is imported, exported and proofed, by dialogs."""

    def __init__(self, desk: Desk) -> None:
        self.desk = desk
        self._folder: Path | None = None

    def import_text(self) -> None:
        """Asks for a text, and types its paragraphs after the chosen one."""
        desk = self.desk
        path = dialogs.file_to_read(desk.window, "Import a text", desk.path, _TEXTS)
        if path is not None:
            self.imported(path)

    def export(self) -> None:
        """Asks for a folder, and writes the volumes there."""
        desk = self.desk
        if not desk.settle():
            return
        title = f"Export, pages of {described(desk.page_size)}"
        first = str(self._folder or desk.path.absolute().parent / _PAGES)
        its = desk.window, title, _ASKED
        ask = lambda why, typed: dialogs.folder(*its, typed, why)
        desk.until_taken(ask, first, self._exported)

    def _exported(self, typed: str) -> None:
        """Writes the volumes to a folder that was typed."""
        desk = self.desk
        if not typed.strip():
            raise NoAnswer("No folder was typed, so nothing was exported.")
        folder = desk.path.absolute().parent / typed_path(typed)
        self._folder = folder
        job = Job(desk.path, folder, desk.page_size, USUAL_WAIT)

        def act(console: Console, copy: CopiedBook | None = None) -> int:
            export_in_words(replace(job, copy=copy), console)
            return 0

        if not self._from_copy("Export", act):
            self._aside("Export", lambda console, _: act(console), 0)

    def proof(self) -> None:
        """Asks for a file, and writes a proof there."""
        desk = self.desk
        if not desk.settle():
            return
        name = desk.path.name.removesuffix(".braildesk")
        first = desk.path.absolute().with_name(f"{name}.html")
        path = dialogs.file_to_write(desk.window, "Write a proof", first)
        if path is None:
            return
        page_size = desk.page_size
        proof = Proof(title=name, page_size=page_size)

        file = path

        def act(say: Say, is_stopped: IsStopped) -> tuple[str, ...]:
            session, pages = desk.book.session, []
            for page in proof_pages(session, page_size):
                if is_stopped():
                    raise Stop("The proof was stopped. Nothing was written.")
                pages.append(page)
                say(f"{counted(len(pages), 'page')} laid out.")
            if not pages:
                raise Stop("The book has no page, so no proof was written.")
            left = open_marks(session) - sum(each.open_marks for each in pages)
            text = "".join(proof.html(pages)).encode()
            try:
                write_whole(file, text, Access.of_session(session))
            except MayNotLast as failed:
                raise Stop(may_not_last(file, failed)) from failed
            except OSError as failed:
                raise Stop(
                    f"{file} could not be written: {of_failure(failed)}."
                ) from failed
            said = f"{file}: {counted(len(pages), 'page')}."
            eight_dots = not_exported((each.volume, each.eight_dots) for each in pages)
            return (said, *([elsewhere(left)] if left else []), *eight_dots)

        desk.say(" ".join(desk.long("Proof", act)))

    def pasted(self, paths: Sequence[Path]) -> None:
        """Asks whether a file that was pasted is imported; its path is no text."""
        desk = self.desk
        if len(paths) > 1:
            desk.refuse_until_typed(_SEVERAL.format(len(paths), "pasted"))
            return
        (path,) = paths
        number = desk.number
        where = "" if number is None else f" after paragraph {number}"
        asked = f"{path.name} was pasted. Shall its text be imported{where}?"
        if desk.answer("Import", asked, ("&Yes", "&No")):
            desk.say("Nothing was typed.")
            desk.until_typed()
        else:
            self.imported(path)

    def dropped(self, path: Path) -> None:
        """Imports a file that was dropped, unless something else is being done."""
        if self.desk.is_acting:
            self.desk.say_after(
                f"{path.name} was dropped while something else was being done, and wasn't imported."
            )
            return
        self.desk.acting(lambda: self.imported(path))

    def several_dropped(self, count: int) -> None:
        """Says that of several files that were dropped none is imported."""
        desk, said = self.desk, _SEVERAL.format(count, "dropped")
        (desk.say_after if desk.is_acting else desk.refuse_until_typed)(said)

    def imported(self, path: Path, way: Way = Way.ASK) -> None:
        """Types the paragraphs of a text after the chosen one."""
        desk = self.desk
        if not desk.settle():
            return
        if desk.is_closed:
            # its file may be gone, which isn't looked at then
            raise Stop(desk.closed)
        after: After = desk.number if desk.number is not None else "end"
        table = desk.table_of_new()
        job = Import(
            desk.path, path, table=table, after=after, way=way, wait=USUAL_WAIT
        )
        if way is Way.GO_ON:
            job = replace(job, table=None, after="end")
        lacking = list[Command[Any]]()

        def begun(intake: Intake) -> None:
            lacking.extend(intake.lacking)

        def act(console: Console, held: HeldFile) -> int | None:
            its = replace(job, held=held)
            return import_in_words(its, console, None, _AGAIN, begun).count

        try:
            self._aside("Import", act, None, lacking)
        except Undecided as undecided:
            self.decide(path, undecided)

    def decide(self, path: Path, undecided: Undecided, is_offer: bool = False) -> None:
        """Asks what is done about an earlier import of a text, also where no key has asked for it."""
        desk, note = self.desk, undecided.note
        answers = (
            ["&Yes", "&No"]
            if note is None
            else ["&Yes", "Leave the &rest out", "&Later"]
        )
        asked = question(undecided)
        if is_offer:
            answer = desk.offered("Import", asked, answers)
        else:
            answer = desk.answer("Import", asked, answers)
        if answer == 0:
            self.imported(path, undecided.way)
        elif note is not None and answer == 1:
            desk.drafts.end_import(note)
            desk.say(
                f"The rest of {note.name} is left out. What is in the book stays there."
            )

    def _from_copy(self, title: str, act: Callable[..., int]) -> bool:
        """Does something with a copy, while nobody else has the book, and shows what was said of it.

        If none can be made, nothing is done, unless that was stopped.
        """
        desk = self.desk

        def whole(say: Say, is_stopped: IsStopped) -> list[str] | None:
            heard = Heard(say)
            check = _until(is_stopped)
            console = _Beside(BytesIO(), heard, heard, check, tell=say)
            with copy_of_open(desk.book.session, desk.path, check) as copy:
                if copy is None:
                    return ["Stopped. Nothing was exported."] if is_stopped() else None
                _told(partial(act, copy=copy), console, [], 0)
            return heard.getvalue().splitlines()

        try:
            lines = desk.long(title, whole)
        except Lost as lost:
            self._lost(title, [f"{title}: nothing was done."], lost)
            return True
        if lines is None:
            return False
        desk.say(lines[-1] if lines else f"{title}: done.")
        desk.report(title, lines)
        return True

    def _aside(
        self,
        title: str,
        act: Callable[[Console, HeldFile], int | None],
        cut: int | None,
        lacking: Sequence[Command[Any]] = (),
    ) -> None:
        """Does something with the session closed, and shows what was said of it.

        That gives how many paragraphs the book has by it, if that is known, and if it is cut short
        they are so many. By then it is known what an earlier part of them lacked.
        """
        desk, before, deeds = self.desk, self.desk.contents, self.desk.book.deeds
        problems, done = list[Undecided](), [f"{title}: nothing was done."]
        desk.unwatch()

        def whole(say: Say, is_stopped: IsStopped) -> tuple[Contents, tuple[str, ...]]:
            with held_file(desk.book.session) as held:
                desk.book.close()
                with _noting(done, say, is_stopped) as console:
                    count = _told(lambda to: act(to, held), console, problems, cut)
                its = count, lacking
                now = desk.book.imported(before, *its, held)
            return now, (*_changed(before, now, *its, bool(deeds)), *done)

        try:
            contents, lines = desk.long(title, whole)
        except Lost as lost:
            others = may_be_of_other(desk.path, lost) if title != "Import" else ()
            self._lost(title, [*done, *others], lost)
            return
        except (DeskError, OSError) as failed:
            raise self._closed(title, done, failed) from failed
        desk.watch()
        desk.window.model.all_unread()
        desk.show(contents, None)
        if problems:
            raise problems[0]
        desk.say(lines[-1] if lines else f"{title}: done.")
        desk.report(title, lines)

    def _lost(self, title: str, done: Sequence[str], lost: Lost) -> None:
        """Shows what was done before the session in which the book was opened again ended."""
        self.desk.is_closed = True
        self.desk.after_loss(lost)
        said = self.desk.window.message.text
        self.desk.report(title, [*done, said])

    def _closed(
        self, title: str, done: Sequence[str], failed: DeskError | OSError
    ) -> Stop:
        """Shows what was done before the book could not be opened again; what the message says."""
        desk = self.desk
        why = failed.reason if isinstance(failed, DeskError) else of_system(failed)
        desk.is_closed, desk.loss = True, " ".join([*done, why])
        if done:
            desk.report(title, [*done, why])
        return Stop(" ".join([*done[-1:], why]))


@contextmanager
def _noting(done: list[str], say: Say, is_stopped: IsStopped) -> Iterator[Console]:
    """What says what was done, which is noted also if another file is at the path of the book by then."""
    done.clear()
    heard = Heard(say)
    try:
        yield _Beside(BytesIO(), heard, heard, _until(is_stopped), tell=say)
    finally:
        done.extend(heard.getvalue().splitlines())


def _until(is_stopped: IsStopped) -> Callable[[], None]:
    """A check that ends what is being done once it is stopped."""

    def check() -> None:
        if is_stopped():
            raise Interrupted(signal.SIGINT)

    return check


def _changed(
    before: Contents,
    now: Contents,
    count: int | None,
    lacking: Sequence[Command[Any]],
    are_deeds: bool,
) -> tuple[str, ...]:
    """What is said if others changed the book, too, and if something isn't taken back by that."""
    books, commands = (before.paragraphs, now.paragraphs), now.version - before.version
    found = changed_between(*books, now.version, commands, count, lacking)
    is_left = are_deeds or count != 0
    return tuple(f"{each} {LEFT}" if is_left else each for each in found)


def _told(
    act: Callable[[Console], int | None],
    console: Console,
    problems: list[Undecided],
    cut: int | None,
) -> int | None:
    """Does something, and has what came of it said; what a person has to decide is put aside.

    Gives what that gives, or this if it is cut short.
    """
    try:
        with in_sentences():
            try:
                return act(console)
            except Undecided as undecided:
                problems.append(undecided)
                return 0
    except Stop as stop:
        console.say(*stop.lines)
        return 0
    except Displaced:
        # the window goes on in no other file, as if that were its book
        raise
    except DeskError as failed:
        console.say(failed.sentence)
    except Interrupted:
        # it was said what became of it
        pass
    return cut
