"""A book that is open on the screen: keys are carried out, and the state after them is given."""

import signal
from collections.abc import Callable, Sequence
from contextlib import suppress
from dataclasses import replace
from functools import partial
from pathlib import Path
from typing import Any

from braildesk import (
    DeskError,
    Displaced,
    Lost,
    Refused,
    Session,
    VersionConflict,
    requests,
)
from braildesk.desk import aftermath
from braildesk.desk.around_marks import corrections, prints_between
from braildesk.desk.change_all import Replacement
from braildesk.desk.changed_so_far import end_taken_back
from braildesk.desk.correction import Correction, place_kept, smallest_correction
from braildesk.desk.draft import Aim, Draft, Unread
from braildesk.desk.drafts import Drafts, LeftAt, NotKept
from braildesk.desk.history import newest_corrector
from braildesk.desk.identity import Identity, identity_of
from braildesk.desk.import_note import ImportNote
from braildesk.desk.kept_lines import reads_the_same
from braildesk.desk.tables import NoSuchTable, table_request
from braildesk.protocol.requests import Command
from braildesk.session import HeldFile, held_file
from braildesk.text.characters import visible

from scribe.screen import (
    by_pages,
    finding,
    keys,
    lists,
    pager,
    pasted_lines,
    question_rows,
    typing_keys,
    whole_book,
)
from scribe.screen.actions import (
    Action,
    AskForNote,
    BringBack,
    BringTyped,
    ByPages,
    ChangePlaces,
    ExportTo,
    FindPlaces,
    GiveTable,
    GiveUp,
    GoOn,
    ImportFrom,
    LeaveChange,
    LeaveImport,
    ListHeadings,
    ListMarks,
    ListVolumes,
    OfWholeBook,
    OpenAgain,
    PutBy,
    PutOff,
    Quit,
    SayPage,
    SetVolumes,
    ShowHistory,
    ShowPage,
    TakeBack,
    ToFound,
    ToMark,
    ToPage,
    TypeAll,
)
from scribe.screen.at_opening import (
    SHOWS_KEYS,
    asking,
    elsewhere,
    reminded,
    where_left,
    with_answers,
    with_changes,
    with_cut,
)
from scribe.screen.background import ActionResult, done_in_background
from scribe.screen.drawn import refreshed
from scribe.screen.field import Field, Purpose
from scribe.screen.in_hand import (
    asked_for_note,
    at_words_of,
    left_here,
    with_mark_in_hand,
)
from scribe.screen.lines_typed import LinesTyped
from scribe.screen.state import (
    Pages,
    Pane,
    Size,
    State,
    Step,
    answered_with,
    at_paragraph,
    done_by_one_key,
    draft_of,
    lines_typed,
    listed_places,
    saying_first,
    so_far,
    with_imported,
    without_typed,
    words_of,
)
from scribe.screen.waiting import (
    asked_about,
    left_or_asked,
    unkept,
    where_kept,
    with_text,
    with_typed_last,
)
from scribe.words import deeds, pagelook
from scribe.words.aftermath import deed_found, found_again, is_gone, kept_alone
from scribe.words.change_all import STAY
from scribe.words.changes import edit_in_part, left_behind, not_given
from scribe.words.deeds import Deed, kept, kept_parts
from scribe.words.drafts import (
    Unsent,
    is_in_book,
    not_kept,
    taken_back_in_part,
    typed_before,
    typed_by_others,
    where_typed,
)
from scribe.words.export import copy_of_open, may_be_of_other
from scribe.words.import_text import read_again
from scribe.words.links import led
from scribe.words.paragraph import counted, part_of
from scribe.words.preview import Preview, Tables
from scribe.words.status import Interrupted, Stop, in_sentences, of_system
from scribe.words.typed_last import TypedLast

_OPEN_AGAIN = "The book is open again."
# of where all of a book that is gone was saved, before what was reported of that
_NO_FILE = "No file is at “{}” any more. While one was there, this was reported:"
# what was kept last if that isn't of this screen, and what becomes of what is
_OF_OTHERS = "kept: another program's change"
_LEFT = "Of what was done until now, u takes back only corrections."
_OPEN_INSTEAD = "The file that is at the path now is open."
_TYPE_ON = "What is typed is still here: type on."
# the keys that leave the places of a list as they are; Enter goes to one of them
_LEAVE = ("escape", "q")
_ENDED = "What is typed is still here. Enter sends it again, and what is typed on is another line."


class _Interrupted(Exception):
    """The session failed in the middle of a step, or scribe is to end, with the state then."""

    def __init__(
        self,
        state: State,
        cause: Lost | Refused | Interrupted,
        begun: int | None = None,
    ) -> None:
        super().__init__()
        self.state = state
        self.cause = cause
        #: The version at which an edit of more than one correction began.
        self.begun = begun


class Desk:
    """The session with a book, and the texts of its tables."""

    def __init__(
        self,
        path: Path,
        wait: float = 0.0,
        while_waiting: Callable[[], None] = lambda: None,
    ) -> None:
        self.path = path
        #: What is called each second in which the program doesn't answer.
        self.while_waiting = while_waiting
        #: How many seconds the book is waited for if another program has it open.
        self._wait = wait
        self.drafts = Drafts(path)
        self.tables = Tables()
        self._session: Session
        #: By which the file of the book is known.
        self._file: Identity | None = None
        #: The same while it is held, until it is opened again: no other one is to be taken for it.
        self._held: HeldFile | None = None
        self._unsent = Unsent(self.drafts)
        #: What keys typed last, whatever they did.
        self.typed_last = TypedLast(self.drafts)
        #: What was last said to be in the way of keeping what is typed.
        self._fault = ""
        #: Where the book would be left, as it was kept last.
        self._left: LeftAt | None = None
        #: The signal by which the work with the session closed is to end.
        self._stopped_by: signal.Signals | None = None
        #: The volumes that were laid out.
        self._layouts = pagelook.Layouts()
        #: Where all of a book that is gone was saved.
        self._saved: Path | None = None
        #: Whether people were told at the opening to wait, before anything of the book was seen.
        self.was_waited_for = False
        self._open(self._wait)
        self.drafts.see_file()
        # whoever had the book open until now may have typed on
        self._notices = self._take_up()
        self.typed_last.begin()

    @property
    def pid(self) -> int:
        """The number of the process of the session."""
        return self._session.pid

    @property
    def strayed(self) -> str:
        """What became of the file of a book in which nothing was kept, once it is closed."""
        return self._session.strayed

    @property
    def has_waiting(self) -> bool:
        """Whether a text is kept that the book doesn't have, to be offered at the next opening."""
        return self._unsent.waiting is not None

    @property
    def kept_cut(self) -> str:
        """What was cut out of a text, as it is kept."""
        return self._unsent.cut

    @property
    def unkept(self) -> tuple[str, ...]:
        """The texts that were given up and are kept nowhere."""
        return self._unsent.unkept

    def take_over(self) -> None:
        """Has the session belong to the thread that calls this, before or after work aside."""
        self._session.take_over()

    def close(self) -> None:
        """Ends the session; what was kept is in the book."""
        try:
            try:
                self._session.close()
            except Interrupted as stop:
                # all of a book that is gone may be saved by then
                if isinstance(self._session.lost, Displaced):
                    raise self._session.lost from stop
                raise
        except Displaced as lost:
            self._follow(lost)
            raise

    def first_state(
        self,
        size: Size,
        by: str | None,
        is_ascii: bool,
        tell: Callable[[str], None] = lambda sentence: None,
    ) -> State:
        """The screen as it is at the opening, with the text that waits from before.

        What takes long is told before that.
        """

        def reading(note: ImportNote) -> None:
            self.was_waited_for = True
            tell(read_again(note))

        book = self._session.paragraphs()
        numbers = {each.id for each in book}
        self._unsent.look_elsewhere(
            lambda its: self._session.print_of(its) if its in numbers else None
        )
        state = State(
            self.path.name,
            self._session.last_version,
            book,
            self.tables.names,
            size,
            by=by,
            is_ascii=is_ascii,
            message=self._greeting(),
        )
        state = with_cut(self._unsent, where_left(self.drafts, state))
        state = with_answers(self._unsent, state)
        state = elsewhere(state, self._first_offered(state))
        state = reminded(self.drafts, self._session, state, reading)
        state = asking(with_changes(self.drafts, self._session, state))
        back = taken_back_in_part(self.drafts, state.version)
        state = saying_first(led(self.path), state.saying_too(back))
        return refreshed(self._session, state)

    def press(self, state: State, key: str) -> State:
        """The state after a key, once what it asks for was answered."""
        looked = question_rows.moved(state, key)
        if looked is not None:
            # what was said is among what is looked at
            return looked
        saved = state.question.saved if state.question else None
        found = self._taken(keys.step(state, key))
        if saved is not None and found.typed is not None:
            found = self._taken_up(found, saved)
        listed = listed_places(state)
        if key in _LEAVE and listed is not None and listed_places(found) is None:
            self._end_change(listed.wanted)
        return found.after(state)

    def paste(self, state: State, text: str, is_keys: bool = False) -> State:
        """The state after text was pasted, with what its table lacks before it is sent.

        It may have come as keys, all at once.
        """
        step = pasted_lines.pasted(state.saying(""), text, is_keys)
        question, before = step.state.question, state.question
        is_new = before is None or question and question.sentence != before.sentence
        if question is not None and question.lines and is_new:
            fault = self.tables.first_fault(state.table or "", question.lines)
            if fault:
                sentence = f"{fault} {question.sentence}"
                question = replace(question, sentence=sentence)
                step = Step(replace(step.state, question=question))
        return self._taken(step).after(state)

    def set_aside(self, state: State, text: str, is_last: bool) -> State:
        """The state after text that isn't of what is typed was kept, for U to bring back."""
        return self._taken(Step(state, PutBy(text, is_last)))

    def keep_unread(self, unread: Unread | None) -> str:
        """Keeps what came while nothing can be done with it, and gives what is in the way of that."""
        try:
            self._unsent.keep_unread(unread)
        except NotKept as fault:
            return not_kept(fault)
        self._copy_kept()
        return ""

    def resized(self, state: State, size: Size) -> State:
        """The state on a terminal of another size."""
        place, span = state.place, state.anchor
        pages = state.pages and pager.resized(state.pages, state.size, size)
        state = replace(state, size=size, pages=pages).at(state.chosen, place)
        return self._taken(Step(replace(state, anchor=span)))

    def previewed(self, state: State) -> State:
        """The state with the braille of what is typed."""
        typed = state.shown
        if typed is None or not typed.purpose.is_print:
            return state
        return replace(state, preview=self.tables.preview(*preview_of(state, typed)))

    def lost(self, state: State) -> State:
        """The state if the session was seen to end: nothing else is sent."""
        try:
            self._session.version()
        except Lost as lost:
            return self._after_loss(state, lost)
        return state

    def save_draft(self, state: State) -> State:
        """Keeps what is typed until the book has it, and takes it away once nothing waits.

        What is in the way is said once, and again when it is another thing; it stands where nothing
        else is said.
        """
        fault = self._keep(state)
        if fault != state.unkept:
            state = replace(state, unkept=fault)
        if not fault or fault == self._fault:
            return state
        self._fault = fault
        # tried again each second, which must not hide what is said
        return state.saying_too(fault)

    def saved(self, state: State) -> State:
        """Does the same, and says what is in the way also where it was said before."""
        self._unsent.see_kept()
        fault = self._keep(state)
        return state.saying_too(fault) if fault else state

    def keep_so_far(self, state: State) -> None:
        """Keeps what is typed before all of it came; what is in the way is said once that is there."""
        self._keep(state)

    def _keep(self, state: State) -> str:
        """Keeps what is typed and what was cut, or nothing, and gives what is in the way of it."""
        if state.question is not None and state.question.draft is not None:
            return ""
        before = self._unsent.waiting, self._unsent.cut
        try:
            try:
                cut = state.cut_kept
                self._unsent.keep_cut(cut.text if cut else "")
                answers = answered_with(state, state.typed).answers
                names = {each.name: text for each, text in answers.items()}
                self._unsent.keep_answers(names, words_of(state))
            finally:
                self._unsent.keep(draft_of(state))
        except NotKept as fault:
            return not_kept(fault)
        if before != (self._unsent.waiting, self._unsent.cut):
            self._fault = ""
            self._copy_kept()
        return ""

    def away(self, state: State, report: Callable[[str], None]) -> State:
        """Does what takes long or needs the session closed, in a thread of its own."""
        self.take_over()
        action = state.away
        assert action is not None
        state = replace(state, away=None, message="")
        if isinstance(action, TakeBack):
            return self._all_taken_back(state, report)
        if isinstance(action, ShowPage | ListMarks | ListHeadings | ToPage | SayPage):
            return self._laid_out(state, action, report)
        if isinstance(action, FindPlaces | ChangePlaces | ListVolumes | SetVolumes):
            return self._done_in_whole(state, action, report)
        if isinstance(action, TypeAll):
            return self._taken(Step(state, action), self._told(report))
        found = None
        if isinstance(action, ExportTo):
            found = self._exported(state, action, report)
        return found or self._done_while_closed(state, action, report)

    def _exported(
        self, state: State, action: ExportTo, report: Callable[[str], None]
    ) -> State | None:
        """Exports from a copy, while nobody else has the book; none if none can be made."""
        try:
            with copy_of_open(self._session, self.path, self._check) as copy:
                if copy is None:
                    return None
                its = self.path, action, report, self._check
                ending = done_in_background(*its, copy=copy)
        except Lost as lost:
            none = ActionResult("Export.", ("Nothing was exported.",))
            return _with_report(self._after_loss(state, lost), none)
        except OSError as failure:
            # the book is open as it was
            return state.saying(of_system(failure))
        return self._drawn(_after_closed(state, state, ending))

    def _done_while_closed(
        self,
        state: State,
        action: ExportTo | ImportFrom,
        report: Callable[[str], None],
    ) -> State:
        """Exports, while which others may have the book, or imports, and opens the book again."""
        ending = ActionResult("", ())
        try:
            with held_file(self._session) as held:
                self._session.close()
                its = self.path, action, report, self._check
                ending = done_in_background(*its, held)
                if ending.kept:
                    # also if the book can't be opened again
                    state = replace(state, kept=f"kept: {ending.kept}")
                if ending.lost is not None:
                    raise ending.lost
                self._held = held
                meanwhile = self._open_further()
            before = state
            state = self._opened_again(state)
        except Lost as lost:
            if isinstance(action, ExportTo):
                others = may_be_of_other(self.path, lost)
                ending = replace(ending, lines=(*ending.lines, *others))
            return _with_report(self._after_loss(state, lost), ending)
        except DeskError as failed:
            return _closed(state, failed.reason, ending.lines)
        except OSError as failure:
            # whether the book is where it was isn't known
            return _closed(state, of_system(failure, ""), ending.lines)
        return self._drawn(_after_closed(before, state, ending).saying_too(meanwhile))

    def keep_place(self, state: State) -> None:
        """Keeps where the book is left, so that it opens there again."""
        if state.paragraph is None:
            return
        left = LeftAt(
            state.paragraph.id,
            state.place,
            state.pane is Pane.CELLS,
            state.is_quiet,
            state.has_dots,
            state.version,
        )
        if left != self._left:
            self._left = left
            self.drafts.leave_at(left)

    def stop(self, number: signal.Signals) -> None:
        """Has the work with the session closed end before its next step."""
        self._stopped_by = number

    def hasten(self) -> None:
        """Has a program that doesn't answer be waited for no longer than for a while."""
        self._session.hasten()

    def _check(self) -> None:
        if self._stopped_by is not None:
            raise Interrupted(self._stopped_by)

    def _take_up(self) -> tuple[str, ...]:
        """Reads what waits from before, and says what of it can't be read."""
        notices = []
        try:
            self.drafts.take_in()
        except NotKept as fault:
            notices.append(not_kept(fault))
        notices += map(not_kept, self._unsent.read())
        if self._unsent.came_last:
            notices.append(f"{self._unsent.came_last} U brings it back.")
        return tuple(notices)

    def _greeting(self) -> str:
        found = " ".join(self._notices)
        return found or ("" if self._unsent.waiting else SHOWS_KEYS)

    def _open(self, wait: float) -> None:
        """Opens the session, and reads the tables that the book has."""
        session = Session(
            self.path, timeout=wait, while_waiting=lambda: self.while_waiting()
        )
        try:
            found = session.tables()
        except BaseException:
            session.close()
            raise
        self._session = session
        self._file = identity_of(self.path)
        # another file may be at the same version
        self._layouts = pagelook.Layouts()
        self.tables.read(found)

    def _opened_by_key(self, state: State) -> State:
        """Opens the book again, or says that another file is at its path than when it was last open."""
        is_another = identity_of(self.path) not in (None, self._file)
        state = replace(state, is_displaced=state.is_displaced or is_another)
        said = _OPEN_INSTEAD if state.is_displaced else _OPEN_AGAIN
        return self._opened_anew(state, said)

    def _open_further(self) -> str:
        """Opens another session, in which what was kept before is at stake as well.

        What is left of the one before may have the book for another moment. It is said what was typed
        elsewhere since that one.
        """
        held, self._held = self._held, None
        self._open(max(self._wait, aftermath.PATIENCE))
        # what is typed isn't kept for another file that is there
        self._session.guard(held)
        self.drafts.see_file()
        self.typed_last.begin()
        found = self._unsent.others()
        if found is None:
            return ""
        draft, how = found
        return f"{typed_by_others(draft.joined)} {how or 'U brings it back.'}"

    def _opened_again(self, state: State) -> State:
        book, version = self._session.paragraphs(), self._session.last_version
        number = state.paragraph.id if state.paragraph else None
        # what was kept isn't in an earlier copy, nor in another book
        is_there = version >= state.version and not state.is_displaced
        state = replace(
            state,
            version=version,
            book=book,
            tables=self.tables.names,
            openings={},
            reading=None,
            kept=state.kept if is_there else "",
            # what others did may be in the way of taking back what was done here
            deeds=state.deeds if is_there and version == state.version else (),
            is_displaced=False,
        )
        places = [n for n, each in enumerate(book) if each.id == number]
        return state.at(places[0], state.place) if places else state.at(0)

    def _first_offered(self, state: State) -> State:
        """Asks about the first text that waits and isn't in the book: others were left for later."""
        saved: Draft | None = None
        while state.question is None and self._unsent.waiting not in (None, saved):
            saved = self._unsent.waiting
            state = self._offered(state, saved)
        return state

    def _offered(self, state: State, saved: Draft | None) -> State:
        """Asks whether a text that waits is taken up, unless the book has it by now."""
        if saved is None:
            return state
        where = where_kept(self._session, state, saved)
        if where:
            rest = unkept(self._session, state, saved)
            if rest is None:
                said = is_in_book(saved, where, [each.id for each in state.book])
                said = f"{state.message} {said}" if state.message else said
                return self.save_draft(state.saying(said))
            saved = rest
        if not self._unsent.waits(saved):
            # it couldn't be kept, and is asked about until it is answered
            self._unsent.put_by(saved)
        numbers = [each.id for each in state.book]
        same = reads_the_same(self._session, saved, state.version, numbers)
        its = typed_before(same), where_typed(self._unsent.typed_at)
        return asked_about(self._session, state, saved, *its)

    def _taken(self, step: Step, tell: whole_book.Report | None = None) -> State:
        """The state after a step: what it asks for is sent, and what is drawn is asked for.

        If that is done beside the screen, it is told how far it has come.
        """
        state = step.state
        try:
            with in_sentences():
                state = self._done(state, step.asked, tell)
        except _Interrupted as interrupted:
            if isinstance(interrupted.cause, Interrupted):
                # the book is asked for nothing more, and nothing is drawn
                return interrupted.state
            state, cause = interrupted.state, interrupted.cause
            found = self._after_failure(state, cause, True, interrupted.begun)
            state = self._with_deed_found(found, state, cause, step.asked)
            if _is_gone_on_from(step.asked):
                state = self._begun_where_typed(state)
        except Stop as stop:
            state = state.saying(stop.sentence)
        except (Lost, Refused) as failed:
            found = self._after_failure(state, failed)
            state = self._with_deed_found(found, state, failed, step.asked)
        if not (state.is_lost or state.is_over or state.away):
            state = self._drawn(state)
        return state if state.typed else self.save_draft(state)

    def _done(
        self,
        state: State,
        asked: Command[Any] | Action | None,
        tell: whole_book.Report | None,
    ) -> State:
        if isinstance(asked, requests.Undo):
            who = newest_corrector(self._session.history_of(asked.paragraph))
            by = "" if who is None else f", by {visible(who)}"
            its = f"the newest correction of paragraph {asked.paragraph}{by}"
            return saying_first(f"Taken back: {its}.", self._sent(state, asked))
        if isinstance(asked, requests.Resolve):
            found = self._sent(state, asked)
            said = f"Mark {asked.mark} is resolved." if found.message else ""
            return saying_first(said, found)
        if isinstance(asked, Command):
            sent = self._sent(state, asked)
            return self._begun(sent) if _is_gone_on_from(asked) else sent
        return state if asked is None else self._run(state, asked, tell)

    def _begun(self, state: State, text: str = "") -> State:
        """The state in which another paragraph is typed after the one that was kept."""
        return self.save_draft(
            replace(state, typed=Field(Purpose.AFTER, text, len(text)))
        )

    def _begun_where_typed(self, state: State) -> State:
        """The state after a paragraph was found in the book: the next one is typed, as after Enter."""
        if state.is_lost or state.typed is not None or state.question is not None:
            return state
        newest = max(each.id for each in state.book)
        return self._begun(refreshed(self._session, at_paragraph(state, newest)))

    def _gone_on(self, state: State, action: GoOn) -> State:
        """Keeps the first part of a text that is too long, and goes on with the rest."""
        typed, before = state.typed, state
        assert typed is not None
        asked = typing_keys.entered(state, replace(typed, text=action.first)).asked
        if isinstance(asked, Command):
            # until the book has the first part, both wait as lines
            about = pasted_lines.about_lines(typed.purpose, (action.first, action.rest))
            waiting = replace(state, question=about)
            try:
                state = replace(self._sent(waiting, asked), question=None)
            except _Interrupted as interrupted:
                if isinstance(interrupted.cause, Refused):
                    interrupted.state = replace(interrupted.state, question=None)
                raise
            except Interrupted as stop:
                # the book may get the first part yet
                raise _Interrupted(waiting, stop) from stop
        state = _saying_left_behind(state, before, state)
        return self._begun(state, action.rest)

    def _drawn(self, state: State) -> State:
        try:
            return refreshed(self._session, state)
        except (Lost, Refused) as failed:
            return self._after_failure(state, failed)

    def _after_failure(
        self,
        state: State,
        failed: Lost | Refused,
        is_sent: bool = False,
        begun: int | None = None,
    ) -> State:
        if isinstance(failed, Lost):
            return self._after_loss(state, failed, begun, is_sent)
        if isinstance(failed, VersionConflict):
            said = "Another program changed the book, so it was opened again."
            newest = "" if state.kept == "" else _OF_OTHERS
            return replace(self._opened_anew(state, said, newest), failure=said)
        if begun is not None and begun < state.version:
            return state.failing(edit_in_part(state.version - begun, failed))
        return state.failing(failed.sentence)

    def _opened_anew(self, state: State, said: str, newest: str | None = None) -> State:
        """The book as it is now, in another session, with what was typed offered again.

        What was kept last in a newer version is given if it is known.
        """
        waits = draft_of(state) or self._unsent.waiting
        try:
            self._session.close()
            others = self._open_further()
            self._saved = None
            found = replace(without_typed(state), question=None, pages=None)
            found = self._opened_again(replace(found, is_lost=False))
            is_same = found.version == state.version
            now = f"It is at version {found.version:,}" + (
                ", as the screen said last."
                if is_same
                else f" now; the screen said {state.version:,} last."
            )
            if found.version > state.version and not state.is_displaced:
                # it may be of this screen, or of another program
                found = replace(found, kept=newest)
            left = _LEFT if state.deeds and not found.deeds else ""
            found = found.saying(_joined(said, now, left, others))
            found = self._offered(found, waits)
            return with_changes(self.drafts, self._session, found)
        except Displaced as lost:
            return self._displaced(state, lost)
        except Lost as lost:
            return self._ended(state, lost.sentence)
        except DeskError as failed:
            return _closed(state, failed.reason)
        except OSError as failure:
            return _closed(state, of_system(failure))

    def _after_loss(
        self,
        state: State,
        lost: Lost,
        begun: int | None = None,
        is_sent: bool = False,
    ) -> State:
        """The book opened again after its session ended by itself, and what it has is said.

        Work of many commands began at a version. What is typed was sent, if a command was.
        """
        state = _kept_since(self.saved(state.saying("")), begun, lost.version)
        if isinstance(lost, Displaced):
            return self._displaced(state, lost)
        waits = draft_of(state) or self._unsent.waiting
        unsaved = state.message if waits != self._unsent.waiting else ""
        try:
            others = self._open_further()
            there = aftermath.found_again(self._session, lost)
            found_words = found_again(there, begun)
            left = _LEFT if there.kept is None and state.deeds else ""
            said = _joined(lost.cause, found_words, left, unsaved, others)
            kept_to = lost.version + (there.kept or 0)
            since = lost.version if begun is None else begun
            found = _kept_since(state.failing(said), since, kept_to)
            is_same = state.version == self._session.last_version
            is_about_lines = state.question is None or bool(state.question.lines)
            if is_same and state.typed is not None and is_about_lines:
                return refreshed(self._session, _still_typed(found, is_sent))
            found = replace(without_typed(found), question=None)
            found = self._opened_again(replace(found, version=lost.version))
            if there.kept is None and found.kept:
                # the version beside it isn't that of what was kept here
                found = replace(found, kept=_OF_OTHERS)
            found = found if is_same else self._looked_at_anew(found)
            return refreshed(self._session, self._offered(found, waits))
        except DeskError as failed:
            return self._ended(state, lost.sentence, failed.reason)
        except OSError as failure:
            return self._ended(state, lost.sentence, of_system(failure))

    def _with_deed_found(
        self,
        state: State,
        before: State,
        cause: Lost | Refused,
        asked: Command[Any] | Action | None,
    ) -> State:
        """The state in which u takes back what a command did that a lost session did not answer.

        If that took something back itself, it takes back what was done before.
        """
        if state.is_lost or not isinstance(cause, Lost):
            return state
        try:
            command = kept_alone(self._session, cause)
            if command is None:
                return state
            done = self._resolving(before, command)
            done = done or deed_found(self._session, command, before.book)
        except Lost as lost:
            return self._after_loss(state, lost)
        if isinstance(asked, TakeBack):
            *earlier, deed = before.deeds
            left = deeds.without(deed, earlier, done or deed)
        else:
            left = (*before.deeds, *([done] if done else ()))
        return replace(state, deeds=left)

    def _looked_at_anew(self, state: State) -> State:
        """The state without the lines that were looked at, or with places as they are by now."""
        offer = state.pages.offer if state.pages else None
        state = replace(state, pages=None)
        if not isinstance(offer, ChangePlaces):
            return state
        return whole_book.listed_anew(self._session, state, offer)

    def _displaced(self, state: State, lost: Displaced) -> State:
        """What the screen says if what was kept isn't in the file that stands at the path now."""
        state, said = replace(state, is_displaced=True), [lost.sentence]
        if lost.saved is not None and self._is_in(Path(lost.saved), state):
            # it waits neither here nor there, whatever was in the way of that
            state = replace(without_typed(state), question=None)
            state = self.saved(state.saying(""))
            said.append("What was typed by then is in it.")
        self._follow(lost)
        return self._ended(state, *said, is_saved=lost.saved is not None)

    def _is_in(self, saved: Path, state: State) -> bool:
        """Whether the file that has all of a book which is gone has all that is typed, too."""
        draft = draft_of(state)
        if draft is None:
            return False
        look = partial(Session, saved, while_waiting=lambda: self.while_waiting())
        try:
            # what is left of the session before may have the file for another moment
            with look(timeout=max(self._wait, aftermath.PATIENCE)) as session:
                book, version = session.paragraphs(), session.last_version
                found = replace(state, book=book, version=version)
                is_there = bool(where_kept(session, found, draft))
                return is_there and unkept(session, found, draft) is None
        except (DeskError, OSError):
            return False

    def _follow(self, lost: Displaced) -> None:
        """Has what isn't in the book be offered where all of the book was saved."""
        if lost.saved is not None:
            self._saved = Path(lost.saved)
            self._copy_kept()

    @property
    def not_so_any_more(self) -> tuple[str, ...]:
        """What isn't so of what was said of a book that is gone: the file with all of it may be gone too."""
        if self._saved is None or not is_gone(self._saved):
            return ()
        return (_NO_FILE.format(self._saved),)

    def _copy_kept(self) -> None:
        """Has what is kept by now be found where all of a book that is gone was saved, too."""
        if self._saved is not None:
            self.drafts.copy_to(self._saved)

    def _ended(self, state: State, *sentences: str, is_saved: bool = False) -> State:
        """What the screen says if the session ended and the book could not be opened again."""
        lines = list(sentences)
        if typed := lines_typed(state):
            lines.append("This was typed, and was not reported as kept:")
            lines += map(visible, typed)
        waiting = self._unsent.waiting
        if waiting is not None and waiting == draft_of(state):
            when = "that file is opened" if is_saved else "the book is opened again"
            lines.append(
                f"It is kept, and is offered when {when}. Until then it is in {self.drafts.place}."
            )
        elif state.message:
            lines.append(state.message)
        pages = Pages("The session ended.", tuple(lines))
        return replace(state, is_lost=True, pages=pages)

    def _sent(self, state: State, command: Command[Any]) -> State:
        """Sends a command; only what its `ok` says is said to be kept."""
        # what is sent is kept until the book has it; what is in the way is said if it has not
        self._keep(state)
        before, begun = state, state.version
        parts: tuple[Command[Any], ...] = (command,)
        try:
            resolving = self._resolving(state, command)
            parts, answers = self._parts(state, command), list[Any]()
            for part in parts:
                answers.append(self._session.ask(part))
                version = self._session.last_version
                deed = resolving or deeds.deed_of(part, answers[-1], state.book)
                state = _with_done(state, version, kept_parts(parts, answers), deed)
            state = replace(state, typed=None, preview=None)
            if len(parts) > 1:
                state = done_by_one_key(state, len(before.deeds))
            return self._shown_after(state, command, answers[-1], before)
        except Lost as lost:
            # what is typed is looked for in the book, so that what comes after it isn't forgotten
            still = replace(before, kept=state.kept, deeds=state.deeds)
            raise _Interrupted(still, lost, begun if len(parts) > 1 else None) from lost
        except Refused as refused:
            if state.version > begun:
                state = self._read_anew(state)
            raise _Interrupted(state, refused, begun) from refused

    def _read_anew(self, state: State) -> State:
        """The state after a part of an edit was kept, with the rest typed still."""
        book = self._session.paragraphs()
        state = replace(state, book=book, openings={}, reading=None, highlighted=None)
        return refreshed(self._session, state)

    def _parts(self, state: State, command: Command[Any]) -> tuple[Command[Any], ...]:
        """A command, or the corrections by which an edit leaves marks on their words.

        They are sent one after the other, if the table has cells for each print on the way.
        """
        its = state.reading
        if not isinstance(command, requests.Correct) or its is None:
            return (command,)
        whole = Correction(command.start, command.count, command.text)
        now = whole.applied(its.text)
        found = corrections(its.text, now, its.marks)
        prints = [*prints_between(its.text, found), now]
        if not found or self.tables.first_fault(its.paragraph.table, prints):
            return (command,)
        return tuple(
            replace(
                command,
                start=part.start,
                count=part.count,
                text=part.text,
                expect=state.version + nth,
            )
            for nth, part in enumerate(found)
        )

    def _shown_after(
        self, state: State, command: Command[Any], answer: Any, before: State
    ) -> State:
        """The state once a command was kept, at the paragraph that it is about."""
        typed = before.typed
        number = getattr(command, "paragraph", None)
        if isinstance(command, requests.Type):
            number = answer.id
        elif isinstance(command, requests.Resolve) and before.reading:
            number = before.reading.paragraph.id
        elif typed is not None and typed.purpose is Purpose.EDIT:
            kept_as = typing_keys.print_of(before, typed)
            place = place_kept(typed.text, kept_as, typed.place)
            state = replace(state, pane=Pane.PRINT, place=place)
        state = self._changed(state, number, before)
        if not isinstance(command, requests.Resolve):
            return state
        # u takes back also what was put where the cursor isn't
        is_here = any(mark.id == command.mark for mark in before.marks_here)
        return left_here(state) if is_here else state

    def _resolving(self, state: State, command: Command[Any]) -> Deed | None:
        """How a mark that is about to be resolved is put again; its cells are found before."""
        its = state.reading
        if its is None or not isinstance(command, requests.Resolve):
            return None
        for mark in its.marks:
            if mark.id == command.mark and not mark.resolved:
                return deeds.resolved(self._session, its, mark)
        return None

    def _taking_back(self, state: State, action: TakeBack) -> State:
        """Takes back what a key last did; what takes many commands is done beside the screen."""
        *earlier, deed = state.deeds
        first = deed.back[0]
        if deed.paragraph is not None:
            found = at_paragraph(state, deed.paragraph)
            if found.chosen != state.chosen:
                found = at_words_of(self._session, found, first)
            state = refreshed(self._session, found)
        if len(deed.back) > 1:
            return replace(state, away=action, message="Please wait.")
        command = replace(first, expect=state.version)
        try:
            state = self._sent(state, command)
        except _Interrupted as interrupted:
            # it may have been answered before the session was lost
            if self._session.last_version != command.expect:
                found = interrupted.state
                left = deeds.without(deed, earlier, found.deeds[-1])
                interrupted.state = replace(found, deeds=left)
            raise
        self._end_taken_back(deed)
        left = deeds.without(deed, earlier, state.deeds[-1])
        return saying_first(deed.sentence, replace(state, deeds=left))

    def _all_taken_back(self, state: State, report: Callable[[str], None]) -> State:
        """Takes back what a key did by many commands, as far as none is refused."""
        deed, before = state.deeds[-1], state
        said, done, count = deed.sentence, 0, len(deed.back)
        begun = state.version
        self._note_back(state, count)
        try:
            for command in deed.back:
                self._check()
                asked = replace(command, expect=state.version)
                answer = self._session.ask(asked)
                done += 1
                version = self._session.last_version
                state = replace(state, version=version, kept=kept(asked, answer))
                report(f"{done:,} of {count:,} done.")
        except Lost as lost:
            self._note_back(state, 0)
            found = self._after_loss(so_far(state, done), lost, begun)
            if found.is_lost or kept_alone(self._session, lost) is None:
                return found
            return replace(found, deeds=so_far(state, done + 1).deeds)
        except Refused as refused:
            said = f"{done:,} of {count:,} done. {refused.reason}"
        except Interrupted:
            # nobody may read it, so it is said at the next opening too
            return so_far(state, done).saying(f"{done:,} of {count:,} done.")
        self._note_back(state, 0)
        book = self._session.paragraphs()
        state = replace(state, book=book, openings={}, reading=None, highlighted=None)
        state = so_far(state, done)
        if done < count:
            return self._drawn(state.failing(said))
        self._end_taken_back(deed)
        found = self._drawn(state.saying(said))
        if deed.paragraph is None or found.is_lost:
            return found
        return self._drawn(_at_change(found, before))

    def _end_taken_back(self, deed: Deed) -> None:
        """Takes away what is noted of words that were being changed, all of which was taken back."""
        if deed.wanted is not None:
            # what was taken back is so whatever becomes of the session
            with suppress(Lost):
                end_taken_back(self._session, self.drafts, deed.wanted)

    def _note_back(self, state: State, count: int) -> None:
        """Notes how many changes are to be taken back, or that nobody has to hear how many were."""
        with suppress(NotKept):
            self.drafts.take_back(state.version, count)

    def _changed(self, state: State, number: int | None, before: State) -> State:
        """The state after a paragraph was changed, with that one chosen."""
        openings = {k: v for k, v in state.openings.items() if k != number}
        book = self._session.paragraphs()
        state = replace(
            state, book=book, openings=openings, reading=None, highlighted=None
        )
        places = [n for n, each in enumerate(book) if each.id == number]
        chosen = places[0] if places else state.chosen
        was = before.reading
        place = state.place if was and was.paragraph.id == number else 0
        state = refreshed(self._session, state.at(chosen, place))
        if before.typed is None:
            state = refreshed(self._session, _at_change(state, before))
        return with_mark_in_hand(state, before)

    def _run(
        self, state: State, action: Action, tell: whole_book.Report | None
    ) -> State:
        match action:
            case Quit():
                return left_or_asked(self._unsent, state, action)
            case ToFound():
                found = finding.to_found(self._session, state, action)
                return self._with_page_said(state, found)
            case ToMark():
                found = finding.to_mark(self._session, state, action)
                return self._with_page_said(state, found)
            case AskForNote():
                return asked_for_note(self._session, state, action.cells)
            case ShowHistory():
                return lists.with_history(self._session, state)
            case ShowPage() | ListMarks() | ListHeadings() | ToPage() | SayPage():
                return self._by_pages(state, action)
            case FindPlaces() | ChangePlaces() | ListVolumes() | SetVolumes():
                if whole_book.takes_long(state, action):
                    return replace(state, away=action, message="Please wait.")
                return self._done_or_lost(state, action, lambda *_: None)
            case TypeAll():
                return self._lines_typed(state, action, tell)
            case GiveTable():
                return self._with_table(state, action.name)
            case GoOn():
                return self._gone_on(state, action)
            case ExportTo() | ImportFrom():
                return replace(state, away=action, message="Please wait.")
            case LeaveImport() | LeaveChange():
                return self._left_out(state, action)
            case TakeBack():
                return self._taking_back(state, action)
            case GiveUp() | PutOff() | BringBack() | BringTyped() | PutBy():
                return self._with_text(state, action)
            case OpenAgain():
                return self._opened_by_key(state)

    def _with_text(
        self, state: State, action: GiveUp | PutOff | BringBack | BringTyped | PutBy
    ) -> State:
        if isinstance(action, BringTyped):
            return with_typed_last(state, self.typed_last.bring())
        its = self._unsent, state, action, self.typed_last.has
        state = with_text(self._session, *its)
        self._copy_kept()
        return state

    def _left_out(self, state: State, action: LeaveImport | LeaveChange) -> State:
        if isinstance(action, LeaveChange):
            self.drafts.end_change(action.wanted)
            return state.saying(STAY)
        self.drafts.end_import(action.note)
        said = f"The rest of {action.note.name} is left out. What is in the book stays there."
        return state.saying(said)

    def _taken_up(self, state: State, saved: Draft) -> State:
        """The state in which a text is typed further, which waits from now on."""
        draft = draft_of(state)
        if draft is None:
            return state
        self.typed_last.note_again(draft)
        try:
            self._unsent.take_up(draft, saved)
        except NotKept as fault:
            return state.saying(not_kept(fault))
        return state

    def _with_page_said(self, before: State, found: State) -> State:
        """What was gone to, with its page and line where these are said."""
        here = (before.chosen, before.place, before.pane)
        is_there = (found.chosen, found.place, found.pane) == here
        is_held = found.in_hand is not None and found.in_hand != before.in_hand
        if not found.says_pages or is_there and not is_held:
            return found
        return self._by_pages(refreshed(self._session, found), SayPage(found.message))

    def _by_pages(self, state: State, action: ByPages) -> State:
        """What needs the pages of volumes, and is done aside if these are long."""
        volumes = by_pages.volumes_for(state, action)
        if not volumes:
            return by_pages.without_volume(state, action)
        if not self._layouts.are_soon(volumes):
            return replace(state, away=action, message="Please wait.")
        return by_pages.shown(
            self._session, self._layouts, state, action, lambda *_: None
        )

    def _laid_out(
        self,
        state: State,
        action: ByPages,
        report: Callable[[str], None],
    ) -> State:
        """Lays out the volumes that an action needs, and does it."""

        def tell(done: int, count: int) -> None:
            self._check()
            report(f"{part_of(done, count, 'paragraph')} laid out.")

        try:
            found = by_pages.shown(self._session, self._layouts, state, action, tell)
            return self._drawn(found)
        except (Lost, Refused) as failed:
            return self._after_failure(state, failed)
        except Interrupted:
            return state

    def _told(self, report: Callable[[str], None]) -> whole_book.Report:
        """What tells how far the work beside the screen has come, unless it is to end."""

        def tell(done: int, count: int) -> None:
            self._check()
            report(f"{done:,} of {count:,} done.")

        return tell

    def _done_in_whole(
        self, state: State, action: OfWholeBook, report: Callable[[str], None]
    ) -> State:
        """Does what concerns the whole book, and takes long."""
        try:
            with in_sentences():
                state = self._done_or_lost(state, action, self._told(report))
        except Stop as stop:
            state = state.saying(stop.sentence)
        except Refused as refused:
            return self._after_failure(state, refused)
        except Interrupted:
            return state
        return state if state.is_lost else self._drawn(state)

    def _done_or_lost(
        self, state: State, action: OfWholeBook, tell: whole_book.Report
    ) -> State:
        """Does what concerns the whole book, or opens it again if the session is lost meanwhile."""
        said = ""
        if isinstance(action, ChangePlaces) and action.nth is None:
            said, tell = self._noting(state, action, tell)
        elif isinstance(action, FindPlaces) and action.answered is None:
            wanted = action.wanted
            action = whole_book.going_on(self._session, self.drafts, wanted)
        changed: list[int] = []
        try:
            found = whole_book.done(self._session, state, action, tell, changed)
            return found.saying_too(said)
        except Lost as lost:
            found = self._after_loss(state, lost, state.version)
            found = self._with_part_found(found, state, lost, action, changed)
            return found.saying_too(said)

    def _with_part_found(
        self,
        state: State,
        before: State,
        lost: Lost,
        action: OfWholeBook,
        changed: Sequence[int],
    ) -> State:
        """The state in which u takes back what a lost session did for the whole book, all of it.

        The last of the changes may not be among those that were seen, nor answered.
        """
        if state.is_lost:
            return state
        is_more = lost.version > before.version + len(changed)
        its: list[object] = [lost.acknowledged] if is_more else []
        try:
            its.append(kept_alone(self._session, lost))
        except Lost as again:
            return self._after_loss(state, again)
        last = [
            each.paragraph for each in its if isinstance(each, requests.OfParagraph)
        ]
        done = [*changed, *last]
        if self._session.last_version != before.version + len(done):
            # what others did may be in the way
            return replace(state, deeds=())
        found = [whole_book.deed_of(action, done)] if done else []
        return replace(state, deeds=(*before.deeds, *found))

    def _noting(
        self, state: State, action: ChangePlaces, tell: whole_book.Report
    ) -> tuple[str, whole_book.Report]:
        """Notes the places that are to be changed, until the last of them is done.

        The result is what is in the way of that, and what tells how far the work has come.
        """
        fault = ""
        try:
            self.drafts.begin_change(whole_book.noted(action, state.version))
        except NotKept as not_noted:
            fault = not_kept(not_noted)

        def told(done: int, count: int) -> None:
            tell(done, count)
            if done == count:
                self._end_change(action.wanted)

        return fault, told

    def _end_change(self, wanted: Replacement) -> None:
        """Takes away what is noted of words that were being changed, if anything is."""
        with suppress(NotKept):
            self.drafts.end_change(wanted)

    def _with_table(self, state: State, name: str) -> State:
        """Puts an installed table into the book if it has none of that name, then gives it."""
        is_new = name not in state.tables
        if is_new:
            request = _table_put_in(state, name)
            text = request.text if isinstance(request, requests.Table) else None
            answer = self._session.ask(replace(request, expect=state.version))
            self.tables.put(name, text)
            deed = deeds.deed_of(request, answer, state.book)
            state = replace(
                state,
                version=self._session.last_version,
                kept=kept(request, answer),
                tables=self.tables.names,
                deeds=(*state.deeds, deed) if deed else state.deeds,
            )
        if state.paragraph is None:
            said = f"New paragraphs have the table {name}. o types the first one."
            return replace(state, table=name).saying(said)
        number = state.paragraph.id
        try:
            command = requests.Retable(number, name, expect=state.version)
            return self._sent(state, command)
        except _Interrupted as interrupted:
            if not is_new or not isinstance(interrupted.cause, Refused):
                raise
            said = not_given(name, number, interrupted.cause)
            return interrupted.state.failing(said)

    def _lines_typed(
        self, state: State, action: TypeAll, tell: whole_book.Report | None
    ) -> State:
        """Types paragraphs at once, or beside the screen if they are many."""
        if tell is None and whole_book.takes_long(state, action):
            return replace(state, away=action, message="Please wait.")
        return self._typed_all(state, action, tell or (lambda *_: None))

    def _typed_all(
        self, state: State, action: TypeAll, tell: whole_book.Report
    ) -> State:
        """Types paragraphs until one is refused, which stays typed; U brings back those after it."""
        before, version = len(state.deeds), state.version
        try:
            for count, line in enumerate(action.lines):
                purpose = Purpose.AFTER if count else action.purpose
                field = Field(purpose, line, len(line))
                asked = typing_keys.entered(state, field).asked
                # a first line may leave its paragraph as it is
                if isinstance(asked, Command):
                    lines = action.lines[count:]
                    state = self._lines_sent(state, purpose, lines, asked, tell)
                    break
        except _Interrupted as interrupted:
            state = done_by_one_key(interrupted.state, before)
            if not isinstance(interrupted.cause, Refused) or state.typed is None:
                interrupted.state = state
                raise
            left = state.question.lines if state.question else ()
            said = f"{len(lines) - len(left)} typed. {interrupted.cause.reason}"
            if len(left) == len(lines) and state.version > version:
                said = edit_in_part(state.version - version, interrupted.cause)
            return self._refused_among(state.failing(said), left)
        state = replace(state, typed=None, preview=None)
        return done_by_one_key(
            self._begun(state) if _is_gone_on_from(action) else state, before
        )

    def _lines_sent(
        self,
        state: State,
        purpose: Purpose,
        lines: Sequence[str],
        first: Command[Any],
        tell: whole_book.Report,
    ) -> State:
        """Types lines, the first of them by a command; all others are listed and drawn at once."""
        waiting = pasted_lines.waiting(state, purpose, lines)
        try:
            tell(0, len(lines))
            state = replace(self._sent(waiting, first), question=None)
        except Interrupted as stop:
            raise _Interrupted(waiting, stop) from stop
        typed = LinesTyped(self._session, self._unsent, state, lines[1:])
        refusal: Refused | None = None
        try:
            try:
                typed.go_on(tell, 1)
            except Refused as refused:
                refusal = refused
            found = typed.state
            if typed.newest is not None:
                found = self._changed(found, typed.newest, state)
                found = _saying_left_behind(found, waiting, state)
        except (Lost, Interrupted) as stop:
            # those that are left wait
            raise _Interrupted(typed.state, stop) from stop
        if refusal is not None:
            raise _Interrupted(found, refusal) from refusal
        return found

    def _refused_among(self, state: State, lines: Sequence[str]) -> State:
        """The state in which the first of some lines is typed further, and the others are set aside."""
        assert state.typed is not None
        line, *others = lines
        field = replace(state.typed, text=line, place=len(line))
        state = replace(state, typed=field, question=None)
        if not others:
            return state
        # no paragraph is named, so that they come after the one that is chosen by then
        text = "\n".join(others)
        fault = self._unsent.put_by(
            Draft(Aim.AFTER, None, state.table, "", text, None, state.version)
        )
        what = "line" if len(others) == 1 else f"{len(others)} lines"
        back = (
            f"Once nothing is typed any more, U brings back the {what} after this one."
        )
        return self.saved(state.saying_too(f"{back} {fault}".rstrip()))


def _saying_left_behind(state: State, before: State, after: State) -> State:
    """The state with the marks said that were touched in a paragraph before another was begun."""
    if before.reading is None or after.reading is None:
        return state
    was, now = before.reading, after.reading
    said = left_behind(was.marks, now.marks, now.paragraph.id)
    return state.saying(said) if said else state


def _with_done(state: State, version: int, said: str, deed: Deed | None) -> State:
    """The state after a command was kept, which is said, and brought the book to a version."""
    done = (*state.deeds, deed) if deed else state.deeds
    return replace(state, version=version, kept=said, deeds=done)


def _table_put_in(state: State, name: str) -> requests.Table | requests.Supply:
    """The request that puts an installed table into the book; Stop if there is none of that name."""
    try:
        return table_request(name, None)
    except NoSuchTable as none:
        raise Stop(typing_keys.no_such_table(state, none)) from none


def preview_of(state: State, typed: Field) -> tuple[str, str, str]:
    """The table by which print that is typed is translated, the text as typed, and its print."""
    table = state.table
    if typed.purpose is Purpose.EDIT and state.paragraph:
        table = state.paragraph.table
    return table or "", typed.text, typing_keys.print_of(state, typed)


def with_preview(state: State, asked: State, preview: Preview) -> State:
    """The state with the braille of what was typed when it was asked for, if that is typed still."""
    before, now = asked.typed, state.typed
    if before is None or now is None:
        return state
    was, there = (asked.version, asked.chosen), (state.version, state.chosen)
    if (there, now.purpose) != (was, before.purpose):
        # another text, under which it would be untrue
        return state
    return replace(state, preview=preview)


def _at_change(state: State, before: State) -> State:
    """The state with the cursor where the print of its paragraph isn't as before, or the cells."""
    was, now = before.reading, state.reading
    if was is None or now is None or was.paragraph.id != now.paragraph.id:
        return state
    change = smallest_correction(was.text, now.text)
    if change is not None and state.pane is Pane.CELLS:
        change = smallest_correction(was.braille, now.braille)
    if change is None:
        return state
    return replace(state, place=change.start, highlighted=None)


def _is_gone_on_from(asked: Command[Any] | Action | None) -> bool:
    """Whether another new paragraph is typed after what a key asked for."""
    is_of_new = isinstance(asked, TypeAll) and asked.purpose.is_new
    return is_of_new or isinstance(asked, requests.Type)


def _kept_since(state: State, begun: int | None, version: int) -> State:
    """The state in which the changes since work of many began were kept last, if there are any."""
    if begun is None or version <= begun:
        return state
    return replace(state, kept=f"kept: {counted(version - begun, 'change')}")


def _still_typed(state: State, is_sent: bool) -> State:
    """The state for who types on meanwhile into the same text, and gives no commands."""
    assert state.typed is not None
    if is_sent and state.question is None:
        return _with_end(state, state.typed)
    if is_sent:
        # where the lines are given up, they aren't typed as well
        typed = pasted_lines.beside_lines(state, state.typed)
        state = replace(state, typed=typed)
    return state.saying_too(_TYPE_ON) if lines_typed(state) else state


def _with_end(state: State, typed: Field) -> State:
    """The state in which Enter ended what is still typed: hands that type on don't go on in it."""
    ended = replace(typed, place=len(typed.text))
    is_line = typed.purpose.is_print and typed.text.strip()
    said = _ENDED if is_line else _TYPE_ON
    return replace(state, typed=ended, ended=ended).saying_too(said)


def _after_closed(before: State, state: State, ending: ActionResult) -> State:
    """The state after something was done with the session closed, and what others did to the book meanwhile."""
    new = len(state.book) - len(before.book)
    if ending.count is None and new > 0:
        # an import that was cut short
        what = f"{counted(new, 'paragraph')} of the import"
        state = replace(state, kept=f"kept: {what}")
    if ending.question:
        state = replace(state, question=ending.question)
    of_import = ending.count, ending.lacking
    state = with_imported(before, state, *of_import)
    commands = state.version - before.version
    more = deeds.changed_between(
        before.book, state.book, state.version, commands, *of_import
    )
    if more and state.kept != "":
        # what was imported may have been kept before that, or after it
        is_imported = ending.kept or ending.count is None
        state = replace(state, kept=None if is_imported else _OF_OTHERS)
    left = (_LEFT,) if before.deeds and not state.deeds else ()
    lines = (*more, *left, *ending.lines)
    return replace(state, pages=Pages(ending.title, lines)) if lines else state


def _with_report(state: State, ending: ActionResult) -> State:
    """The state after a loss, with what was done before it."""
    if ending.question and not state.is_lost and state.question is None:
        state = replace(state, question=ending.question)
    if not ending.lines:
        return state
    after = state.pages.lines if state.is_lost and state.pages else ()
    title = state.pages.title if state.is_lost and state.pages else ending.title
    return replace(state, pages=Pages(title, (*ending.lines, *after)))


def _joined(*sentences: str) -> str:
    """Sentences, of which some may be none."""
    return " ".join(filter(None, sentences))


def _closed(state: State, sentence: str, done: Sequence[str] = ()) -> State:
    """The state if the book could not be opened again, after what was done before that."""
    before = state.pages.lines if state.is_lost and state.pages else ()
    # what was said before is still true, and is said once
    lines = dict.fromkeys((*done, *sentence.split("\n"), *before))
    return replace(
        state, is_lost=True, pages=Pages("The book is closed.", tuple(lines))
    )
