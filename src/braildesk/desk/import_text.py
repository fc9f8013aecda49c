"""An import: the paragraphs of a manuscript, judged and typed into a book, and noted until it is done."""

import os
from collections.abc import Callable, Collection, Sequence
from contextlib import AbstractContextManager, ExitStack, nullcontext
from dataclasses import dataclass, replace
from functools import cached_property
from pathlib import Path
from types import TracebackType
from typing import TYPE_CHECKING, Self

from braildesk import After, Refused, Session, translate
from braildesk.desk.documents.kinds import ManuscriptKind, is_of_kind, kind_of
from braildesk.desk.documents.options import BRACKETS, BULLET, ReadingOptions
from braildesk.desk.drafts import Drafts, NotKept
from braildesk.desk.earlier import (
    AllThere,
    NoneCutShort,
    PartIsThere,
    PartUnseen,
    StandsThere,
    Way,
    note_of_text,
)
from braildesk.desk.import_note import How, ImportNote, Pairs
from braildesk.desk.intake import (
    Intake,
    NotImported,
    check_goes_on,
    paragraph_before,
    parted_at,
    settings,
    table_for,
)
from braildesk.desk.manuscript import Passage, UnreadableText
from braildesk.desk.manuscripts import Taken, read_bytes, taken
from braildesk.desk.origin import came_from, standing
from braildesk.desk.replacements import read_replacements
from braildesk.desk.typist import CutShort, look_for, type_all
from braildesk.desk.unfinished import NotSeen, digest_of, unfinished
from braildesk.desk.validation import are_plain, faults
from braildesk.desk.whole_file import Access
from braildesk.named_files import is_handed_over
from braildesk.protocol.value import Value
from braildesk.session import HeldFile, session_beside
from braildesk.text import limits
from braildesk.text.characters import characters_in
from braildesk.workshop import OthersLink


if TYPE_CHECKING:
    from braildesk.desk.tables import Made
    from braildesk.desk.text_faults import TextFault


@dataclass(frozen=True, eq=False, repr=False)
class Import(Value):
    """A text that is to be typed into a book, and how."""

    book: Path
    text: Path
    #: Whether each line is a paragraph, and not what stands between blank lines.
    by_lines: bool = False
    #: The name of the table; else it is that of the paragraph before, or the book's only one.
    table: str | None = None
    after: After = "end"
    #: The line of the text at which it begins, if that is said.
    line: int | None = None
    #: What is done about an earlier import of the text.
    way: Way = Way.ASK
    #: How many seconds a book is waited for that another program has open.
    wait: float = 0.0
    #: How it is read. If a document isn't said to be one, its kind is found.
    how: How = How(ReadingOptions())
    #: The file of characters that stand in place of others; else those that were kept for the book.
    replacements: Path | None = None
    #: What is called each second in which the program doesn't answer.
    while_waiting: Callable[[], None] = lambda: None
    #: Raises what ends the import, and is called while a document is read and a table is asked for its
    #: braille.
    check: Callable[[], None] = lambda: None
    #: The file that a screen had open until now. Nobody else is to have it from the first moment on.
    held: HeldFile | None = None

    @property
    def kind(self) -> ManuscriptKind:
        """Which kind the manuscript is, once that is known."""
        return self.how.reading.kind or ManuscriptKind.TEXT

    def opened(self) -> Session:
        """A session with the book."""
        return Session(self.book, timeout=self.wait, while_waiting=self.while_waiting)

    def opened_beside(self) -> AbstractContextManager[Callable[[], Session]]:
        """The same, which is opened while something else is done."""
        return session_beside(
            self.book, timeout=self.wait, while_waiting=self.while_waiting
        )


@dataclass(frozen=True, eq=False, repr=False)
class TypedText(Value):
    """Paragraphs that were typed: the number of the first, how many, and the name of their table."""

    first: int
    count: int
    table: str


class CantRead(NotImported):
    """The file of the text can't be read, or isn't, since a link of another user leads to it."""

    def __init__(self, path: Path, cause: OSError | OthersLink) -> None:
        super().__init__(path, cause)
        self.path = path
        self.cause = cause


class NoText(NotImported):
    """The file has no paragraphs for a book: it can't be read as a text, or is blank."""

    def __init__(self, path: Path, cause: UnreadableText | None) -> None:
        super().__init__(path, cause)
        self.path = path
        self.cause = cause


class OfTexts(NotImported):
    """A document has paragraphs of its own, and its lines are none."""

    def __init__(self, path: Path, kind: ManuscriptKind) -> None:
        super().__init__(path, kind)
        self.path = path
        self.kind = kind


class OfDocuments(NotImported):
    """A text has neither notes nor headings of which something could be said."""

    def __init__(self, path: Path) -> None:
        super().__init__(path)
        self.path = path


class Faulty(NotImported):
    """Something of the text would be refused, or there are more paragraphs than a book has."""

    def __init__(
        self,
        path: Path,
        found: "Sequence[TextFault]",
        there: int,
        count: int,
        made: "Made | None",
    ) -> None:
        super().__init__(path, found, there, count, made)
        self.path = path
        self.faults = found
        self.there = there
        self.count = count
        #: How the table was made, if that was from one of liblouis.
        self.made = made

    @property
    def over(self) -> int:
        """How many paragraphs there would be too many."""
        return max(0, self.there + self.count - limits.PARAGRAPHS)


class Importer:
    """Imports a text step by step: `prepare` judges all of it, and then `type_text` types it.

    From the judging on nobody else has the book, until the end of the `with` block or of the typing,
    or until it is let go; then `hold_again` comes before the typing. One that a screen had open is held
    from the beginning, and isn't let go.
    It is noted until it is done. If that can't be, this is reported, and the import goes on.
    """

    def __init__(self, job: Import, report: Callable[[NotKept], None]) -> None:
        self.job = job
        self._drafts = Drafts(job.book)
        self._report_it = report
        self._reported: set[str] = set()
        self._is_noted = False
        #: What was noted of the text before.
        self._earlier: ImportNote | None = None
        #: What was read of the manuscript, once it was.
        self.taken: Taken | None = None
        self._data = b""
        #: Those of a text of which nothing was replaced.
        self._characters: set[str] = set()
        self._open = ExitStack()
        self._is_let_go = False
        #: Whether the session is open from the beginning.
        self._is_held = False

    def __enter__(self) -> Self:
        return self

    def __exit__(
        self,
        kind: type[BaseException] | None,
        error: BaseException | None,
        trace: TracebackType | None,
    ) -> None:
        if self._is_held:
            # what a screen kept is at stake, so that its loss comes before what else ends the import
            kind = error = trace = None
        self._open.__exit__(kind, error, trace)

    def prepare(self) -> Intake:
        """What is to be typed, once nothing stands in its way; raises `NotImported`."""
        self._hold()
        data = self._data = bytes_of(self.job.text)
        self._earlier = self._noted()
        self.job = self._decided(self._earlier, self._opened)
        if self.job.way is not Way.GO_ON:
            self.job = self._chosen(data)
        whole = self.taken = _taken(self.job, data)
        self._parts = before, _ = _parted(self.job, whole.passages)
        if not before and self.job.way is Way.ASK and self.job.line not in (None, 1):
            # lines without a paragraph may stand before the first one
            self.job = replace(self.job, line=None)
            self.job = self._decided(self._earlier, self._opened)
        # a book may be changed by being opened, so that its text is read before
        with self._opened_beside() as opened:
            self._characters = characters_in(whole.data)
            self._session = self._open.enter_context(opened())
        return self._judged()

    def _hold(self) -> None:
        """Opens a book that a screen had open, before anything is read; raises `Displaced` for another."""
        job = self.job
        if job.held is None:
            return
        session = self._open.enter_context(job.opened())
        session.guard(job.held)
        self._session, self._is_held = session, True

    def _opened(self) -> AbstractContextManager[Session]:
        """The session by which the book is held from the beginning, or another one."""
        if self._is_held:
            return nullcontext(self._session)
        return self.job.opened()

    def _opened_beside(self) -> AbstractContextManager[Callable[[], Session]]:
        """The same, which is opened while something else is done."""
        if self._is_held:
            return nullcontext(lambda: self._session)
        return self.job.opened_beside()

    @property
    def job_again(self) -> Import:
        """The import as it is to be asked for again: without the kind of a text that is found to be one."""
        job, reading = self.job, self.job.how.reading
        text = ManuscriptKind.TEXT
        if reading.kind is text and is_of_kind(job.text.name, self._data, text):
            reading = replace(reading, kind=None)
        return replace(job, how=replace(job.how, reading=reading))

    @property
    def access(self) -> Access:
        """That of the file of the book, while it is open."""
        return Access.of_session(self._session)

    def let_go(self) -> None:
        """Lets others have the book, as while a person reads what is lost of the text.

        One that is held from the beginning isn't let go.
        """
        if not self._is_held:
            self._open.close()
            self._is_let_go = True

    def hold_again(self, intake: Intake) -> Intake:
        """What is to be typed, judged anew if the book was let go, since it may be another now.

        Somebody else may have begun to import the text meanwhile.
        """
        if self.taken is None or not self._is_let_go:
            return intake
        self._session = held = self._open.enter_context(self.job.opened())
        self._is_let_go = False
        self._earlier = self._noted()
        self.job = self._decided(self._earlier, lambda: nullcontext(held))
        return self._judged()

    def _judged(self) -> Intake:
        self._drafts.see_file()
        # beside the program, which takes as long for the characters
        beside: Callable[[], object] = lambda: self._digest
        return _intake(self.job, self._session, *self._parts, self._characters, beside)

    @cached_property
    def _digest(self) -> str:
        """By which the text is known again."""
        return digest_of(self._data)

    def type_text(
        self, intake: Intake, progress: Callable[[int, int], None]
    ) -> TypedText:
        """Types all paragraphs; raises `CutShort`."""
        job, count = self.job, len(intake.passages)
        whole = os.path.abspath(job.text)
        note = intake.noted(whole, self._digest, job.by_lines, job.how)
        self._keep_replacements()
        try:
            type_all(
                self._session,
                intake,
                lambda done: progress(done, count),
                lambda: self._begin(note),
            )
        except CutShort as cut:
            its = cut.saved if cut.is_displaced else job.book
            if its is not None:
                look_for(its, intake, job.wait, cut)
            if cut.kept == 0 and not job.line:
                self._end(note)
                self._put_back()
            if cut.saved is not None:
                # by which the same text is known there too
                self._drafts.copy_to(cut.saved)
            is_known = not (cut.is_displaced or is_handed_over(job.text))
            cut.is_noted = self._is_noted and is_known
            raise
        self._end(note)
        return TypedText(intake.there + 1, count, intake.table.name)

    def _chosen(self, data: bytes) -> Import:
        """The import with the kind of its manuscript, and with what else is chosen for it."""
        job = self.job
        try:
            kind = job.how.reading.kind or kind_of(job.text.name, data)
        except UnreadableText as cause:
            raise NoText(job.text, cause) from cause
        reading = replace(job.how.reading, kind=kind)
        if kind.is_document:
            if job.by_lines:
                raise OfTexts(job.text, kind)
            reading = self._signs_for(reading)
        elif job.how.volumes is not None or reading.notes_at_end:
            raise OfDocuments(job.text)
        how = replace(job.how, reading=reading, replacements=self._replacements())
        return replace(job, how=how)

    def _signs_for(self, reading: ReadingOptions) -> ReadingOptions:
        """The reading with signs that the table has: another bullet and brackets if it lacks the usual."""
        job = self.job
        with self._opened() as session:
            anchor = paragraph_before(session.paragraphs(), job.after)
            table = table_for(session.tables(), anchor, job.table)
        bullet, *brackets = translate(
            table, [BULLET, *BRACKETS], while_waiting=job.check
        )
        if isinstance(bullet, Refused):
            reading = replace(reading, bullet="-")
        if any(isinstance(each, Refused) for each in brackets):
            reading = replace(reading, brackets="()")
        return reading

    def _replacements(self) -> Pairs:
        """The characters of the file that stand in place of others, or those that were kept."""
        if self.job.replacements is not None:
            return read_replacements(self.job.replacements)
        try:
            return self._drafts.replacements()
        except NotKept as fault:
            self._report(fault)
            return ()

    def _keep_replacements(self) -> None:
        if self.job.replacements is None:
            return
        try:
            self._drafts.keep_replacements(self.job.how.replacements)
        except NotKept as fault:
            self._report(fault)

    def _noted(self) -> ImportNote | None:
        """What is noted of an import of the text that hasn't come to its end."""
        self._drafts.adopt()
        try:
            notes = self._drafts.imports()
        except NotKept as fault:
            self._report(fault)
            return None
        return note_of_text(notes, self.job.text, self._digest) if notes else None

    def _report(self, fault: NotKept) -> None:
        """Reports what is in the way, once."""
        if repr(fault) not in self._reported:
            self._reported.add(repr(fault))
            self._report_it(fault)

    def _begin(self, note: ImportNote | None) -> None:
        """Notes the import before its first paragraph is typed."""
        if note is None:
            self._is_noted = True
            return
        try:
            self._drafts.begin_import(note)
            self._is_noted = True
        except NotKept as fault:
            self._report(fault)

    def _end(self, note: ImportNote | None) -> None:
        """Takes away what was noted of the import."""
        try:
            if note := note or self._noted():
                self._drafts.end_import(note)
            self._is_noted = False
        except NotKept as fault:
            self._report(fault)

    def _put_back(self) -> None:
        """Notes again what was noted of the text before, since nothing was typed."""
        try:
            if self._earlier is not None:
                self._drafts.begin_import(self._earlier)
        except NotKept as fault:
            self._report(fault)

    def _decided(
        self,
        note: ImportNote | None,
        opened: Callable[[], AbstractContextManager[Session]],
    ) -> Import:
        """The import with that by which it goes on; raises `Undecided` if a person has to say."""
        job = self.job
        if note is None:
            if job.way is Way.GO_ON:
                raise NoneCutShort(job.text)
            return job
        # from its first line on, a text begins as if none were said
        if job.way is Way.AGAIN or job.line not in (None, 1):
            return job
        with opened() as session:
            try:
                its = unfinished(session, session.paragraphs(), note)
            except NotSeen as fault:
                raise PartUnseen(fault) from fault
        if job.way is Way.GO_ON:
            if not its.has_before:
                raise NoneCutShort(job.text)
            if its.is_all_there:
                raise AllThere(note)
            how = replace(job, by_lines=note.by_lines, table=note.table, how=note.how)
            return replace(how, after=its.after, line=its.line)
        if its.is_to_go_on:
            raise PartIsThere(its)
        return job


def bytes_of(path: Path) -> bytes:
    """The bytes of a manuscript; raises `CantRead`."""
    try:
        return read_bytes(path)
    except (OSError, OthersLink) as cause:
        raise CantRead(path, cause) from cause


def _intake(
    job: Import,
    session: Session,
    before: tuple[Passage, ...],
    rest: tuple[Passage, ...],
    characters: Collection[str],
    beside: Callable[[], object],
) -> Intake:
    """What is to be typed of a text, all of it judged."""
    book = session.paragraphs()
    anchor = paragraph_before(book, job.after)
    stored = session.print_of(anchor.id) if anchor and before else None
    version = session.last_version
    # where an import goes on, the paragraph before may have been corrected since
    is_its = (
        job.way is Way.GO_ON and anchor and came_from(session, [anchor.id], before[-1:])
    )
    if rest and not is_its:
        check_goes_on(stored, before, rest)
    # where an import goes on, it was seen how much of the text is there
    if rest and job.way not in (Way.AGAIN, Way.GO_ON):
        if numbers := standing(session, book, job.after, rest, before[-1:]):
            raise StandsThere(job.text, numbers)
    table = table_for(session.tables(), anchor, job.table)
    found_faults = faults(rest, table, job.check, characters, beside)
    if found_faults or len(book) + len(rest) > limits.PARAGRAPHS:
        # imported here, since few texts are at fault
        from braildesk.desk.tables import made_from

        made = made_from(table.text)
        raise Faulty(job.text, found_faults, len(book), len(rest), made)
    lacking = settings(before[-1], anchor.id, anchor) if before and anchor else ()
    is_composed = are_plain(characters)
    return Intake(
        version, len(book), rest, job.after, table, tuple(lacking), is_composed
    )


def _parted(
    job: Import, whole: Sequence[Passage]
) -> tuple[tuple[Passage, ...], tuple[Passage, ...]]:
    """The paragraphs of a text before those that are typed, and these.

    There are none of these if the import was cut short after the last one.
    """
    line = job.line or 1
    if job.way is Way.GO_ON and line > whole[-1].last_line:
        return tuple(whole), ()
    return parted_at(whole, line)


def _taken(job: Import, data: bytes) -> Taken:
    """What is read of a manuscript."""
    try:
        found = taken(data, job.by_lines, job.how, job.text.name, job.check)
    except UnreadableText as cause:
        raise NoText(job.text, cause) from cause
    if not found.passages:
        raise NoText(job.text, None)
    return found
