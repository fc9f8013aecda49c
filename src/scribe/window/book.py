"""The session with a book, and what was done to the book in this window.

All of it runs in the thread that opened the session. Nothing here knows a window.
"""

from collections.abc import Callable, Iterator, Sequence
from contextlib import contextmanager
from dataclasses import dataclass, replace
from pathlib import Path
from typing import Any

from braildesk import (
    CannotOpen,
    Code,
    Displaced,
    Lost,
    Paragraph,
    Refused,
    Session,
    requests,
)
from braildesk.desk import search
from braildesk.desk.around_marks import corrections, prints_between
from braildesk.desk.change import Change, change_place
from braildesk.desk.change_all import NotChanged, Passed, Proposal, Replacement
from braildesk.desk.changed_so_far import Further
from braildesk.desk.correction import with_typed
from braildesk.desk.draft import Aim, Draft
from braildesk.desk.find import alike
from braildesk.desk.highlighting import (
    Highlighted,
    cell_on_line,
    cells_of_marks,
    highlighted_by_cell,
    highlighted_by_character,
)
from braildesk.desk.history import newest_correction
from braildesk.desk.identity import Identity, identity_of
from braildesk.desk.kept_lines import (
    lines_kept,
    lines_left,
    mark_kept,
    reads_the_same,
)
from braildesk.desk.layout import PageSize
from braildesk.desk.places import cells_of, words_of
from braildesk.desk.readings import ParagraphReading, answers
from braildesk.desk.tables import table_request
from braildesk.opening import waited
from braildesk.protocol.requests import Command, Request
from braildesk.session import HeldFile
from braildesk.text.cells import braille_patterns
from braildesk.text.excerpt import opening
from braildesk.text.sequences import composed
from braildesk.text.spans import Span

from scribe.words import deeds, pagelook
from scribe.words.aftermath import deed_found, kept_alone, opened_again
from scribe.words.change_all import REST_STAYS, Count
from scribe.words.changes import edit_in_part
from scribe.words.deeds import Deed, kept, kept_parts
from scribe.words.drafts import as_paragraphs, not_kept
from scribe.words.pages import on_no_page
from scribe.words.paragraph import counted, part_of, quoted
from scribe.words.preview import Tables
from scribe.words.status import Stop

# the first words of a listed paragraph
_WORDS = 120
# why a text is refused that was typed, whatever else is so of the book
_OF_TEXTS = frozenset((Code.BARRED_CHARACTER, Code.UNDEFINED, Code.TOO_LONG))
_AS_IT_WAS = "Stopped. The book is as it was."
#: What is said where the book is open again and others changed it.
LEFT = "Ctrl+Z no longer takes back what was done before it was opened again."
_LONG = (
    "The volume is long, and isn't laid out by itself: Ctrl+P, twice, has that done."
)


@dataclass(frozen=True)
class Contents:
    """The paragraphs of a book, its version, and the names of its tables."""

    version: int
    paragraphs: tuple[Paragraph, ...]
    tables: tuple[str, ...]

    def place(self, number: int | None) -> int | None:
        """Where a paragraph stands in the book, if it is there."""
        places = (n for n, each in enumerate(self.paragraphs) if each.id == number)
        return next(places, None)


@dataclass(frozen=True)
class Opening:
    """The first words of a listed paragraph, and how many of its marks are open."""

    words: str
    open_marks: int


@dataclass(frozen=True)
class ChosenParagraph:
    """The chosen paragraph, with the cells of its open marks."""

    its: ParagraphReading
    marked_cells: tuple[Span, ...]


@dataclass(frozen=True)
class Done:
    """The book after commands, what was kept by the last one, and the paragraph to show."""

    contents: Contents
    said: str
    paragraph: int | None


class NoAnswer(Stop):
    """What was answered in a dialog is refused, which asks for something else, and says why first."""


@contextmanager
def of_answer() -> Iterator[None]:
    """Refuses an answer where the book refuses a text because of what was answered."""
    try:
        yield
    except Refused as refused:
        if refused.code not in _OF_TEXTS:
            raise
        raise NoAnswer(refused.sentence) from refused


class NotAll(Exception):
    """Some commands were carried out, and then one was refused or the work was stopped."""

    def __init__(self, done: int, cause: BaseException) -> None:
        super().__init__(done, cause)
        self.done = done
        self.cause = cause


class PartKept(Exception):
    """Some corrections of an edit are kept, and then one was refused."""

    def __init__(self, done: int, cause: Refused) -> None:
        super().__init__(done, cause)
        self.done = done
        self.cause = cause

    @property
    def sentence(self) -> str:
        """What a person reads."""
        return edit_in_part(self.done, self.cause)


class _StoppedHere(Exception):
    """A person stopped the changing of words before the next place."""


class NothingToTakeBack(Exception):
    """There is nothing that was done in this window and could be taken back by itself."""


class OpenBook:
    """A book that is open in a window."""

    def __init__(
        self,
        path: Path,
        by: str | None,
        wait: float,
        while_waiting: Callable[[], None] = lambda: None,
        see_file: Callable[[], None] = lambda: None,
    ) -> None:
        self.path = path
        self._by = by
        self._wait = wait
        self._while_waiting = while_waiting
        # what is called at each opening, once the file is known to be the book's
        self._see_file = see_file
        #: By these what is typed is translated before the book has it.
        self.tables = Tables(while_waiting)
        self._session: Session
        self._was_open = False
        self._deeds: tuple[Deed, ...] = ()
        # what was last sent takes back the last deed; or it resolves a mark, or takes back a correction
        self._is_taking_back = False
        self._under_way: Deed | None = None
        self._is_displaced = False
        # by which the file is known that was last open
        self._file: Identity | None = None
        # the paragraphs as they were listed last: a long book takes a while to list
        self._known: tuple[Paragraph, ...] = ()
        self._laid: pagelook.VolumeLines | None = None

    @property
    def session(self) -> Session:
        """The session."""
        return self._session

    @property
    def by(self) -> str | None:
        """The name that corrections keep."""
        return self._by

    @property
    def deeds(self) -> tuple[Deed, ...]:
        """What was done in this window and wasn't taken back, the newest last."""
        return self._deeds

    @property
    def last_deed(self) -> Deed | None:
        """What was done last in this window."""
        return self._deeds[-1] if self._deeds else None

    @property
    def is_displaced(self) -> bool:
        """Whether another file may stand in the place of the book."""
        now = identity_of(self.path)
        return self._is_displaced or now not in (None, self._file)

    @property
    def pid(self) -> int:
        """The number of the process of the session."""
        return self._session.pid

    def opened(self, held: HeldFile | None = None) -> Contents:
        """Opens the session, and reads the tables that the book has.

        Raises `Displaced` if the file that the session before had is held, and another is there now.
        """
        look = self._while_waiting

        def attempt() -> Session:
            try:
                return Session(self.path, while_waiting=look)
            except CannotOpen:
                # another program may have it, for which a window that is to end doesn't wait
                look()
                raise

        session = waited(attempt, self._wait)
        try:
            return self._with(session, held)
        except BaseException:
            session.close()
            raise

    def opened_again(self) -> Contents:
        """Opens the book after its session ended; only what nobody else changed is taken back."""
        before, is_displaced = self._session.last_version, self.is_displaced
        found = self.opened()
        if found.version != before or is_displaced:
            self._deeds = ()
        self._is_displaced = False
        return found

    def open_after(
        self, lost: Lost, begun: int, shown: int | None = None
    ) -> tuple[Contents | None, list[str]]:
        """Opens the book again after its session was lost, and says what the book has.

        What was being done began at a version, and what it did may have been shown up to another.
        """
        if isinstance(lost, Displaced):
            # in what stands there now something else would be taken back
            self._is_displaced = True
            return None, [lost.sentence]
        look = self._while_waiting
        session, said = opened_again(self.path, lost, shown, begun, look)
        if session is None:
            return None, said
        known = self._known
        found = self._with(session)
        if found.version != lost.version:
            command = kept_alone(self._session, lost)
            if command is None and self._deeds:
                said.append(LEFT)
            self._deeds = self._deeds_found(command, known)
        self._is_taking_back = False
        return found, said

    def _deeds_found(
        self, command: Command[Any] | None, before: Sequence[Paragraph]
    ) -> tuple[Deed, ...]:
        """The deeds with that of the one command that was not answered and is in the book.

        There are none if others changed it.
        """
        if command is None:
            return ()
        kinds = requests.Resolve, requests.Undo
        done = self._under_way if isinstance(command, kinds) else None
        if not self._is_taking_back:
            done = done or deed_found(self._session, command, before)
            return (*self._deeds, done) if done else self._deeds
        *earlier, deed = self._deeds
        if len(deed.back) > 1:
            rest = replace(deed, back=deed.back[1:], taken=deed.taken + 1)
            return (*earlier, rest)
        done = deed_found(self._session, command, before)
        return deeds.without(deed, earlier, done or deed)

    def close(self) -> None:
        """Ends the session; what was kept is in the book."""
        try:
            self._session.close()
        except Displaced:
            self._is_displaced = True
            raise

    def contents(self) -> Contents:
        """The book as it is now."""
        found = self._session.paragraphs()
        self._known = found
        return Contents(self._session.last_version, found, self.tables.names)

    def openings(self, numbers: Sequence[int]) -> dict[int, Opening]:
        """What is listed of paragraphs."""
        asked: list[Request[Any]] = []
        for number in numbers:
            asked += [requests.Print(number), requests.Marks(number)]
        found = answers(self._session, asked)
        return {
            number: Opening(
                opening(next(found), _WORDS),
                sum(not mark.resolved for mark in next(found)),
            )
            for number in numbers
        }

    def reading(self, paragraph: Paragraph) -> ChosenParagraph:
        """All that is shown of a paragraph."""
        number = paragraph.id
        asked: list[Request[Any]] = [
            requests.Print(number),
            requests.Braille(number),
            requests.Marks(number),
        ]
        its = ParagraphReading(paragraph, *answers(self._session, asked))
        return ChosenParagraph(its, cells_of_marks(self._session, its))

    def by_character(self, reading: ChosenParagraph, place: int) -> Highlighted:
        """The cells that belong to a character."""
        place = max(0, min(place, len(reading.its.text) - 1))
        return highlighted_by_character(self._session, reading.its, place)

    def by_cell(self, reading: ChosenParagraph, cell: int) -> Highlighted:
        """The characters that belong to a cell."""
        cell = max(0, min(cell, len(reading.its.braille) - 1))
        return highlighted_by_cell(self._session, reading.its, cell)

    def cell_on_line(
        self, reading: ChosenParagraph, its: Highlighted, by_cell: bool
    ) -> int:
        """The cell at the caret, or one on the line of its character."""
        if by_cell:
            return its.cells.start
        return cell_on_line(self._session, reading.its, its)

    def words_of(self, reading: ChosenParagraph, cells: Span) -> tuple[Span, Span]:
        """Where the words stand that cells stand for, and all cells of these."""
        its = reading.its
        number = its.paragraph.id
        words = words_of(self._session, number, cells, its.text, its.braille)
        if words.start < words.stop:
            first = self.by_character(reading, words.start).cells
            cells = Span(
                first.start, self.by_character(reading, words.stop - 1).cells.stop
            )
        return words, cells

    def cells_of(self, paragraph: int, words: Span) -> Span:
        """The cells on which a mark on words stands."""
        return cells_of(self._session, paragraph, words)

    def corrected(self, reading: ChosenParagraph, text: str) -> Done | None:
        """Makes a print what was typed, by the smallest corrections; nothing where it is that.

        It is one, or more where marks between stay on their words; raises `PartKept` where one of
        these isn't kept.
        """
        parts, answers = self._corrections(reading.its, text), list[Any]()
        before = self._deeds
        for part in parts:
            try:
                answers.append(self._sent(part))
            except Refused as refused:
                if not answers:
                    raise
                raise PartKept(len(answers), refused) from refused
        if not answers:
            return None
        if len(answers) > 1:
            self._deeds = (*before, deeds.together(self._deeds[len(before) :]))
        done = self._after(parts[-1], answers[-1])
        return replace(done, said=kept_parts(parts, answers))

    def _corrections(
        self, its: ParagraphReading, text: str
    ) -> Sequence[requests.Correct]:
        """The requests that make a print what was typed, in the order in which they are sent."""
        old, now = its.text, with_typed(its.text, text)
        found = corrections(old, now, its.marks)
        prints = [*prints_between(old, found), now]
        if len(found) > 1 and self.tables.first_fault(its.paragraph.table, prints):
            # it is refused, or kept, as a whole
            found = corrections(old, now, ())
        its_words = [
            (its.paragraph.id, each.start, each.count, each.text) for each in found
        ]
        if self._by is None:
            return [requests.Correct(*words) for words in its_words]
        return [requests.CorrectBy(*words, who=self._by) for words in its_words]

    def done(self, command: Command[Any]) -> Done:
        """Carries out a command, and notes how it is taken back."""
        return self._after(command, self._sent(command))

    def resolved(self, reading: ChosenParagraph, mark: int) -> Done:
        """Resolves a mark of a paragraph, and notes how it is put again."""
        command = requests.Resolve(mark)
        answer = self._sent(command, self._resolved(reading.its, mark))
        number = reading.its.paragraph.id
        return replace(self._after(command, answer), paragraph=number)

    def _resolved(self, its: ParagraphReading, number: int) -> Deed:
        """That a mark was resolved, which is put again on the cells of its words as they are now."""
        (mark,) = (each for each in its.marks if each.id == number)
        return deeds.resolved(self._session, its, mark)

    def with_table(
        self,
        paragraph: int | None,
        name: str,
        path: Path | None,
        go_on: Callable[[str], bool],
    ) -> Done:
        """Gives a paragraph, or new ones, a table, which is put into the book where it isn't there.

        It may be that of a file. What the book makes of its text is for the book to say. Each step is
        said before it is done, and is done where it goes on; raises `Stop` where none was done, and
        `NotAll` where the paragraph is refused the table that was put into the book.
        """
        done = None
        if name not in self.tables.names or path is not None:
            done = self._with_new_table(name, path, go_on)
        if paragraph is None:
            said = f"New paragraphs have the table {name}."
            return Done(self.contents(), said, None)
        if go_on(f"Paragraph {paragraph} is given the table {name}."):
            try:
                return self.done(requests.Retable(paragraph, name))
            except Refused as refused:
                if done is None:
                    raise
                raise NotAll(1, refused) from refused
        if done is None:
            raise Stop(_AS_IT_WAS)
        stopped = f"{done.said}. Stopped before paragraph {paragraph} was given it."
        return replace(done, said=stopped)

    def _with_new_table(
        self, name: str, path: Path | None, go_on: Callable[[str], bool]
    ) -> Done:
        """Puts a table into the book, unless that is stopped before."""
        is_wanted = go_on(f"The table {name} is read.")
        request = table_request(name, path) if is_wanted else None
        if request is None or not go_on(f"The table {name} is put into the book."):
            raise Stop(_AS_IT_WAS)
        text = request.text if isinstance(request, requests.Table) else None
        answer = self._sent(request)
        self.tables.put(name, text)
        return self._after(request, answer)

    def typed_all(
        self,
        commands: Sequence[Callable[[int | None], Command[Any]]],
        report: Callable[[int, int | None], None],
        before: tuple[Deed, ...],
    ) -> Done:
        """Carries out commands, each with the number of the paragraph that was typed before it.

        How many are done is reported before each, with that number. They are taken back together,
        with what was done since there were other deeds. Raises `NotAll`.
        """
        newest, done = None, 0
        last: tuple[Command[Any], Any] | None = None
        cause: BaseException | None = None
        for command in commands:
            try:
                report(done, newest)
                asked = command(newest)
                last = (asked, self._sent(asked))
            except (Refused, KeyboardInterrupt) as stopped:
                cause = stopped
                break
            done += 1
            newest = getattr(last[1], "id", newest)
        if len(since := self._deeds[len(before) :]) > 1:
            self._deeds = (*before, deeds.together(since))
        if cause is not None:
            raise NotAll(done, cause)
        assert last is not None
        return self._after(*last)

    def all_done(
        self,
        commands: Sequence[Command[Any]],
        what: Callable[[int], str],
        go_on: Callable[[int], bool],
    ) -> Done:
        """Carries out commands that are taken back together, by their count in words; raises `NotAll`."""
        before = self._deeds
        try:
            for count, command in enumerate(commands):
                if not go_on(count):
                    raise NotAll(count, KeyboardInterrupt())
                try:
                    self._sent(command)
                except Refused as refused:
                    raise NotAll(count, refused) from refused
        finally:
            self._gather(before, what(len(self._deeds) - len(before)))
        return Done(self.contents(), f"kept: {what(len(commands))}", None)

    def changed_at(self, its: Proposal, by: str | None) -> Change:
        """Changes one place of words, and notes how that is taken back."""
        session, number = self._session, its.paragraph
        begun = session.last_version
        try:
            return change_place(session, number, its.text, its.place, its.new, by)
        finally:
            # it may be kept also where the session ends before all of it is seen
            if session.last_version > begun:
                deed = Deed(
                    f"paragraph {number} was corrected", (requests.Undo(number),)
                )
                self._deeds = (*self._deeds, deed)

    def changed_all(
        self,
        further: Further,
        found: Sequence[Proposal],
        count: Count,
        go_on: Callable[[int], bool],
        width: int,
    ) -> tuple[list[str], list[str]]:
        """Changes places of words, and gives what is said of all of them, and lines of each.

        Those that are counted already were changed one by one, and are taken back with these.
        """
        session, lines, said = self._session, list[str](), list[str]()
        before = self._deeds[: len(self._deeds) - count.changed]
        backs: list[Command[Any]] = []
        last: list[int] = []

        def is_wanted(its: Proposal) -> bool:
            if not go_on(count.changed):
                raise _StoppedHere
            last[:] = [its.paragraph]
            return True

        begun = session.last_version
        try:
            changed = further.changed(
                found, is_wanted, lambda fault: said.append(not_kept(fault))
            )
            for each in count.lines(_with_backs(changed, backs), width):
                lines += each
        except _StoppedHere:
            said.append(REST_STAYS)
        finally:
            # as above, of the last one
            is_more = session.last_version > begun + len(backs)
            its = [requests.Undo(number) for number in last if is_more]
            self._note_changed(before, further.wanted, [*its, *backs])
        return [*count.sentences(session.last_version), *said], lines

    def _note_changed(
        self,
        before: tuple[Deed, ...],
        wanted: Replacement,
        backs: Sequence[Command[Any]],
    ) -> None:
        """Has words that were changed be taken back together with those changed since then."""
        since = reversed(self._deeds[len(before) :])
        backs = (*backs, *(command for each in since for command in each.back))
        if backs:
            became = "replaced in" if wanted.new else "taken out of"
            places = counted(len(backs), "place")
            what = f"{quoted(wanted.old)} was {became} {places}"
            self._deeds = (*before, Deed(what, backs, wanted=wanted))

    def taken_back(self, report: Callable[[int, int], None]) -> Done:
        """Takes back what was done last in this window.

        Raises `NothingToTakeBack`, and `NotAll` where it takes many commands and one isn't done.
        """
        if not self._deeds:
            raise NothingToTakeBack
        *earlier, deed = self._deeds
        if deed.mark is not None:
            # a correction may have been taken back by itself since
            (its,) = (p for p in self._known if p.id == deed.paragraph)
            deed = self._resolved(self.reading(its).its, deed.mark)
        if not deed.back:
            self._deeds = tuple(earlier)
            said = f"{deed.what[:1].upper()}{deed.what[1:]}, which stays."
            return Done(self.contents(), said, None)
        self._is_taking_back = True
        for done, command in enumerate(deed.back):
            try:
                report(done, len(deed.back))
                answer = self._ask(command)
            except (Refused, KeyboardInterrupt, Lost) as stopped:
                rest = replace(deed, back=deed.back[done:], taken=deed.taken + done)
                self._deeds = (*earlier, rest)
                self._is_taking_back = isinstance(stopped, Lost)
                if len(deed.back) == 1 or isinstance(stopped, Lost):
                    raise
                raise NotAll(done, stopped) from stopped
        self._deeds, self._is_taking_back = tuple(earlier), False
        if deed.mark is not None:
            # it has another number now, by which it was resolved before
            again = deeds.deed_of(command, answer, ())
            assert again is not None
            self._deeds = deeds.without(deed, earlier, again)
        number = deed.paragraph or getattr(deed.back[-1], "paragraph", None)
        return Done(self.contents(), deed.sentence, number)

    def imported(
        self,
        before: Contents,
        count: int | None,
        lacking: Sequence[Command[Any]] = (),
        held: HeldFile | None = None,
    ) -> Contents:
        """The book after an import, which is taken back at once if nothing else changed it.

        It had so many paragraphs, if that is known, and first did what an earlier part of it lacked.
        """
        now = self.opened(held)
        commands = now.version - before.version
        of_import = commands, count, lacking
        deed = deeds.imported(before.paragraphs, now.paragraphs, *of_import)
        if deed is not None:
            self._deeds = (*self._deeds, deed)
        elif now.version != before.version:
            self._deeds = ()
        return now

    def next_words(
        self, contents: Contents, here: search.Spot, sought: str, is_alike: bool
    ) -> search.Found | None:
        """The next place of words."""
        book = contents.paragraphs
        form = alike if is_alike else composed
        return search.next_words(self._session, book, here, sought, form)

    def next_cells(
        self, contents: Contents, here: search.Spot, sought: str
    ) -> search.Found | None:
        """The next place of cells; raises `NotCells`."""
        cells = braille_patterns(sought)
        return search.next_cells(self._session, contents.paragraphs, here, cells)

    def next_mark(
        self, contents: Contents, here: search.Spot, is_back: bool
    ) -> search.Found | None:
        """The next open mark, or the one before."""
        return search.next_mark(self._session, contents.paragraphs, here, is_back)

    def page(
        self,
        contents: Contents,
        page_size: PageSize,
        sought: pagelook.Sought,
        is_asked: bool,
    ) -> pagelook.Page:
        """The page on which a cell stands. Its volume is laid out once for each version.

        One that is long isn't, unless that is asked for.
        """
        its, version = sought.paragraph, contents.version
        volume = pagelook.volume_of(contents.paragraphs, version, page_size, its)
        if volume is None:
            return pagelook.Page(on_no_page(its.id))
        is_laid = self._laid is not None and self._laid.is_of(volume)
        if volume.is_long and not is_asked and not is_laid:
            return pagelook.Page(_LONG)
        laid = self._laid_out(volume, lambda *_: None)
        return pagelook.page_of(self._session, laid, sought)

    def line(
        self,
        contents: Contents,
        page_size: PageSize,
        wanted: pagelook.WantedLine,
        here: Paragraph,
        say: Callable[[str], None],
        is_stopped: Callable[[], bool],
    ) -> tuple[int, int]:
        """The paragraph and the character at which a line of a page begins.

        Raises `NoAnswer` where it isn't there.
        """
        book, version = contents.paragraphs, contents.version
        volumes = pagelook.volumes_of(book, version, page_size)
        number = wanted.volume
        if number is None:
            volume = next((v for v in volumes if here in v.paragraphs), None)
            if volume is None and len(volumes) == 1:
                (volume,) = volumes
            if volume is None:
                raise Stop(on_no_page(here.id))
        elif 1 <= number <= len(volumes):
            volume = volumes[number - 1]
        else:
            said = f"There is no volume {number}: the book has {len(volumes)}."
            raise NoAnswer(said)

        def report(done: int, count: int) -> None:
            say(f"{part_of(done, count, 'paragraph')} laid out.")
            if is_stopped():
                raise Stop("The pages aren't laid out. The caret stays where it was.")

        laid = self._laid_out(volume, report)
        try:
            return pagelook.start_of(self._session, laid, wanted.page, wanted.line)
        except pagelook.NotThere as fault:
            said = f"{fault.sentence} The caret stays where it was."
            raise NoAnswer(said) from fault

    def place_said(
        self,
        contents: Contents,
        page_size: PageSize,
        here: tuple[Paragraph, int],
        say: Callable[[str], None],
        is_stopped: Callable[[], bool],
    ) -> str:
        """The page and line of a cell of a paragraph, as a sentence."""
        (its, cell), book, version = here, contents.paragraphs, contents.version
        volume = pagelook.volume_of(book, version, page_size, its)
        if volume is None:
            return on_no_page(its.id)
        count = len(pagelook.volumes_of(book, version, page_size))

        def report(done: int, whole: int) -> None:
            say(f"{part_of(done, whole, 'paragraph')} laid out.")
            if is_stopped():
                raise Stop("The pages aren't laid out.")

        try:
            laid = self._laid_out(volume, report)
        except Stop as stop:
            return stop.sentence
        return pagelook.place_said(self._session, laid, its, cell, count)

    def _laid_out(
        self, volume: pagelook.VolumeLines, report: Callable[[int, int], None]
    ) -> pagelook.VolumeLines:
        """A volume that is laid out, if need be now."""
        if self._laid is None or not self._laid.is_of(volume):
            self._laid = pagelook.laid_out(self._session, volume, report)
        return self._laid

    def unkept(self, contents: Contents, draft: Draft) -> Draft | None:
        """What of a text that waits isn't in the book: all, the lines after the first, or nothing."""
        if not self.where_kept(contents, draft):
            return draft
        numbers = [each.id for each in contents.paragraphs]
        return lines_left(self._session, draft, contents.version, numbers)

    def unkept_in(self, saved: Path, draft: Draft) -> tuple[Contents, Draft | None]:
        """The file that has all of a book which is gone, and what of a text that waits isn't in it."""
        ended = self._session
        try:
            look = self._while_waiting
            with Session(saved, while_waiting=look) as self._session:
                book, version = self._session.paragraphs(), self._session.last_version
                contents = Contents(version, book, self.tables.names)
                return contents, self.unkept(contents, draft)
        finally:
            self._session = ended

    def where_kept(self, contents: Contents, draft: Draft) -> str:
        """Where a text that waits, or its first line, is in the book, in words; or nothing.

        It may be there where the session ended after it was kept, and before that was reported.
        """
        if draft.version is None or contents.version <= draft.version:
            return ""
        numbers = [each.id for each in contents.paragraphs]
        if draft.aim.is_new:
            count = lines_kept(self._session, draft, contents.version, numbers)
            where, newest = as_paragraphs(numbers, count), sorted(numbers)[-count:]
            return where and where + _which_is_struck(contents, newest)
        number = draft.paragraph if draft.paragraph in numbers else None
        if number is None:
            return ""
        if draft.aim is Aim.NOTE:
            mark = mark_kept(self._session, draft)
            return f"as mark {mark.id}" if mark is not None else ""
        text = composed(draft.first_line)
        if composed(self._session.print_of(number)) != text:
            return ""
        return f"in paragraph {number}{_which_is_struck(contents, [number])}"

    def reads_the_same(self, contents: Contents, draft: Draft) -> int | None:
        """The paragraph that reads as a text that waits, if the book got one since."""
        numbers = [each.id for each in contents.paragraphs]
        return reads_the_same(self._session, draft, contents.version, numbers)

    def _gather(self, before: tuple[Deed, ...], what: str) -> None:
        """Makes one deed, in words, of those since then."""
        deeds_since = reversed(self._deeds[len(before) :])
        backs = tuple(command for each in deeds_since for command in each.back)
        if backs:
            self._deeds = (*before, Deed(what, backs))

    def _with(self, session: Session, held: HeldFile | None = None) -> Contents:
        self._session, self._file = session, identity_of(self.path)
        # another file may be at the same version
        self._laid = None
        if self._was_open:
            # what was kept before is at stake in this session as well
            session.guard(held)
        self._see_file()
        self._was_open = True
        self.tables.read(session.tables())
        return self.contents()

    def _sent(self, command: Command[Any], deed: Deed | None = None) -> Any:
        """Sends a command to the book as it is known, and notes what it did."""
        before = self._known
        if isinstance(command, requests.OfParagraph):
            if not any(each.id == command.paragraph for each in before):
                before = self.contents().paragraphs
        if isinstance(command, requests.Undo):
            deed = self._undone(command.paragraph)
        self._is_taking_back, self._under_way = False, deed
        answer = self._ask(command)
        noted = deed or deeds.deed_of(command, answer, before)
        if noted:
            self._deeds = (*self._deeds, noted)
        return answer

    def _undone(self, number: int) -> Deed | None:
        """That the newest correction of a paragraph is taken back by itself; none if it has none."""
        its = newest_correction(self._session.history_of(number))
        if its is None:
            return None
        words = number, its.start, its.count, its.text
        again = requests.Correct(*words)
        if its.who is not None:
            again = requests.CorrectBy(*words, who=its.who)
        what = f"correction {its.seq} of paragraph {number} was taken back"
        return Deed(what, (again,), "It was made anew.", number)

    def _ask(self, command: Command[Any]) -> Any:
        session = self._session
        return session.ask(replace(command, expect=session.last_version))

    def _after(self, command: Command[Any], answer: Any) -> Done:
        number = getattr(command, "paragraph", None)
        if isinstance(command, requests.Type):
            number = answer.id
        return Done(self._contents_after(command), kept(command, answer), number)

    def _contents_after(self, command: Command[Any]) -> Contents:
        """The book after a command that was kept.

        A long book takes a while to list, so it isn't listed where one paragraph alone is another.
        """
        places = [
            place
            for place, each in enumerate(self._known)
            if each.id == getattr(command, "paragraph", None)
        ]
        its = self._known[places[0]] if places else None
        now = None if its is None else self._changed(its, command)
        if now is None:
            return self.contents()
        before, (place,) = self._known, places
        self._known = (*before[:place], now, *before[place + 1 :])
        return Contents(self._session.last_version, self._known, self.tables.names)

    def _changed(self, its: Paragraph, command: Command[Any]) -> Paragraph | None:
        """A paragraph after a command; none where more than it may be another."""
        match command:
            case requests.Correct() | requests.Undo():
                return replace(its, length=len(self._session.print_of(its.id)))
            case requests.Mark():
                return its
            case requests.Strike():
                return replace(its, struck=True)
            case requests.Restore():
                return replace(its, struck=False)
            case requests.Style():
                return replace(its, style=command.style)
            case requests.Volume():
                return replace(its, begins_volume=command.begins)
            case requests.Retable():
                return replace(its, table=command.table)
        return None


def _with_backs(
    found: Iterator[Change | NotChanged | Passed], backs: list[Command[Any]]
) -> Iterator[Change | NotChanged | Passed]:
    """What became of places, each with what takes it back put before that of the others."""
    for each in found:
        if isinstance(each, Change):
            backs.insert(0, requests.Undo(each.paragraph))
        yield each


def _which_is_struck(contents: Contents, numbers: Sequence[int]) -> str:
    """That paragraphs are struck which have a text, after where that is; or nothing."""
    their = [each.struck for each in contents.paragraphs if each.id in numbers]
    if not any(their):
        return ""
    if len(their) == 1:
        return ", which is struck"
    return ", which are struck" if all(their) else ", some of which are struck"
