"""A book at work in its window: what is chosen and typed, what is kept of it, and what is shown."""

import os
import signal
from collections.abc import Callable, Iterator, Sequence
from concurrent.futures import Future
from contextlib import contextmanager, suppress
from dataclasses import dataclass, replace
from functools import partial
from pathlib import Path
from typing import NoReturn, TypeVar

from PyQt6.QtCore import QModelIndex, QSocketNotifier, QTimer
from PyQt6.QtGui import QGuiApplication
from PyQt6.QtWidgets import QWidget
from PyQt6.sip import voidptr

from braildesk import (
    After,
    DeskError,
    Displaced,
    Lost,
    Mark,
    Paragraph,
    Refused,
    requests,
)
from braildesk.desk.correction import place_before, place_kept, with_typed
from braildesk.desk.draft import Aim, Draft, Unread
from braildesk.desk.drafts import Drafts, LeftAt, NotKept
from braildesk.desk.highlighting import Highlighted
from braildesk.desk.layout import PageSize
from braildesk.protocol.requests import Command
from braildesk.text.cells import EMPTY_CELL, braille_ascii, braille_patterns
from braildesk.text.characters import code_and_name, visible
from braildesk.text.sequences import composed
from braildesk.text.spans import Span
from braildesk.text.wrapping import wrap

from scribe.window import dialogs, typed_on
from scribe.window.book import (
    Contents,
    Done,
    NoAnswer,
    NotAll,
    OpenBook,
    Opening,
    ChosenParagraph,
    PartKept,
)
from scribe.window.dialogs import IsStopped, Say, ask, offer
from scribe.window.fields import LINE_END
from scribe.window.held import Held
from scribe.window.menus import MENUS
from scribe.window.taken_back import TakenBack
from scribe.window.window import Window
from scribe.window.worker import Worker
from scribe.words import pagelook
from scribe.words.aftermath import is_gone, unchanged
from scribe.words.console import WAITING
from scribe.words.drafts import (
    Unsent,
    came_last,
    changed_since,
    not_kept,
    typed_at_offer,
    typed_at_lines,
    typed_and_taken_back,
    typed_below,
    typed_by_others,
    typed_meanwhile,
    typed_there,
    what_for,
)
from scribe.words.pages import no_line, on_no_page
from scribe.words.paragraph import counted, mark_line, quoted, title
from scribe.words.preview import Preview
from scribe.words.status import Interrupted, Stop, in_sentences
from scribe.words.typed_last import TypedLast

Result = TypeVar("Result")
Answer = TypeVar("Answer")
#: What is said where an action needs a paragraph, where that has to be one that isn't struck, and where
#: the book isn't open any more.
NO_PARAGRAPH = "The book has no paragraph yet. Ctrl+Enter begins one."
STRUCK = "is struck. Ctrl+D restores it, so that it can be changed."
CLOSED = "The book is closed: Open the book again, in the menu Book, opens it."
_ON_NO_PAGE = "The new paragraph isn't in the book yet, so it is on no page."
_NO_WORDS_YET = "Paragraph {} has no words in the book yet, so it is on no page."
_GONE = "The book is closed: Its file isn't at “{path}” any more. {then}"
_THEN = "Open the book again, in the menu Book, opens it once it is there again."
_LAST_IS_IN_IT = "What was typed last is in it."
_LAST_WAS_IN_IT = "What was typed last was in it."
_SAVED = "All of the book is in “{saved}”, which scribe window opens."
_WAS_SAVED = "All of the book was in “{saved}”, where no file is any more."
_IS_BACK = "A file is at “{path}” again."
_NOT_PASTED = "Nothing was pasted: a text goes into the print. F2 goes there."
_NOT_TYPED = "Nothing is typed here: a text goes into the print. F2 goes there."
_NOTHING = "Nothing was typed."
_TYPED_IS_BACK = "Taken back: what was typed last."
_NOT_SHOWN = "has a character that a window can't show. scribe edit changes it."
_ONLY_HERE = (
    "What is typed can't be kept elsewhere: it is lost if the window is closed."
)
# what is answered where it is asked whether the window is closed, and what Enter answers if a text is
# lost by that
_OF_CLOSING = "&Close", "&Stay"
_STAYS = 1
# others may be among those that were given up, or were typed where no key types anything
_WAITS = "A text that was typed and isn't in the book is kept, and is offered when the book is next opened."
_IS_ASIDE = (
    "What was typed last isn't in the book. It is kept, and can be brought back when the book is next"
    " opened."
)
_UNKEPT = "This was typed, and could not be kept:"
# so many letters are no text where letters are keys
_FEW = 3
# for so long at most the session is ended once nothing can be shown
_ENDING_SECONDS = 60.0
# how often it is kept where the window is, if that is another place by then
_REST_MILLISECONDS = 1_000


class _Told(Exception):
    """What is in the way of an action stands in the message already."""


@dataclass(frozen=True)
class New:
    """A new paragraph that is typed: before or after which one, and by which table."""

    aim: Aim
    paragraph: int | None
    table: str

    @property
    def title(self) -> str:
        """What it is."""
        where = "at the end of the book"
        if self.paragraph is not None:
            way = "after" if self.aim is Aim.AFTER else "before"
            where = f"{way} paragraph {self.paragraph}"
        return f"A new paragraph {where}, table {self.table}"


class Desk:
    """A book that is open in a window."""

    #: The page and line are said of marks and words that are gone to.
    says_pages = False
    #: The book can't be worked on, since its session ended and none could be opened.
    is_closed = False
    #: How the session ended, in sentences, until the book is open again.
    loss = ""
    #: It ends by a signal or a fault, so that what is typed waits.
    is_ending = False
    # the book is being opened after its session ended
    _is_opening_again = False
    # where the book would be left, as it was kept last
    _left: LeftAt | None = None
    # what the caret stands on, with its cells; and the braille of what is typed
    _light: Highlighted | None = None
    _preview: Preview | None = None
    # what had the focus before the program was waited for, while that is said
    _waits_from: QWidget | None = None
    #: What is said where the window waits for long, if that isn't for the program.
    waits_for = WAITING
    _said_waiting = ""
    # whether what is being done, or was done last, said something
    _is_said = False
    # the name of what is being done, or was done last, if it is of the menus
    _doing = ""
    # what was kept before something else is done, with what becomes of which it is said
    _kept_first = ""
    # the print as it was before a dialog was opened, with its caret
    _beneath = "", 0, 0
    # others than hands type where nothing can be typed
    _is_typed_nowhere = False
    # the text that was put into the print last by no hands, and the print from which it was typed
    _put_in = ""
    _put_in_from: str | None = None
    # what was said as it was given up by being taken back
    _said_of_put_in = ""
    # the print from which what is typed was typed, where that was another one
    _typed_from: str | None = None
    # the table that was chosen for new paragraphs while the book has none
    _table_chosen: str | None = None
    # what is said to be in the way of keeping what is typed
    _unkept = ""
    # the same of a text that is held while the window waits
    _unheld = ""
    # what the message says of what is typed, which is so until that changes
    _of_typed = ""
    # what was said then of where all of a book that is gone was saved, and whether no file was at its path
    _said_saved, _was_away = "", False
    # something is asked for which no key has asked, and the text that is typed there
    _is_offering = False
    _at_offer: Unread | None = None
    # whether an answer that was refused is asked for again
    _is_asked_again = False

    def __init__(
        self,
        path: Path,
        by: str | None,
        wait: float,
        page_size: PageSize,
        held: Held | None = None,
    ) -> None:
        self.path = path
        self.page_size = page_size
        #: The threads of the session, of the texts that wait, and of what is translated ahead.
        self.held = held or Held()
        self.work, self.aside, self.ahead = (Worker(self.held) for _ in range(3))
        self.drafts = Drafts(path)
        its = self._look_at_end, self.drafts.see_file
        self.book = OpenBook(path, by, wait, *its)
        self.unsent, self.typed_last = Unsent(self.drafts), TypedLast(self.drafts)
        self.contents = Contents(0, (), ())
        self.row = -1
        self.reading: ChosenParagraph | None = None
        self.new: New | None = None
        #: What is typed and isn't in the print: a note, or lines that are to be paragraphs.
        self.beside: Draft | None = None
        self.in_hand: int | None = None
        self.is_ascii = False
        self._saved: Path | None = None  # where all of a book that is gone was saved
        self.acts: dict[str, Callable[[], None]] = {}
        self._taken_back = TakenBack()
        # what of that was given up in this print, by how it reads, and what is said of it
        self._given_up: dict[str, tuple[Draft, str]] = {}
        self._is_showing = self._is_acting = False
        # what had the focus before the message, and whether that took it by itself
        self._came_from: QWidget | None = None
        self._is_refused = False
        self._watched: QSocketNotifier | None = None
        # what the message said before the program was waited for; and what is said at last of a text
        # that is given up since something else is shown
        self._said_before = self._meanwhile = ""
        self.window = self._made_window()
        self._connect()

    def _made_window(self) -> Window:
        names = [each.name for items in MENUS.values() for each in items if each]
        acts = {name: partial(self.act, name) for name in names}
        return Window(self.path.name, self._ask_for, acts, self._may_close)

    def _connect(self) -> None:
        self.work.waits.connect(self._say_waiting)
        self.held.changed.connect(self._keep_held)
        self.held.note = self.typed_last.note
        self.held.unanswered.connect(self._put_by_held)
        chosen = self.window.table.selectionModel()
        assert chosen is not None
        window = self.window
        self._resting = QTimer(window)
        self._resting.timeout.connect(self._note_place)
        self._resting.timeout.connect(self._keep_again)
        self._resting.timeout.connect(self._keep_typed_last)
        chosen.currentChanged.connect(self._chosen)
        window.print.textChanged.connect(self._typed)
        window.print.text_came.connect(self.typed_last.note)
        window.print.cursorPositionChanged.connect(self._in_print)
        window.cells.cursorPositionChanged.connect(self._in_cells)
        window.print.entered.connect(lambda: self.act("keep"))
        window.print.left.connect(lambda: self.act("give_up"))
        for field in (window.message, window.here, window.marks, window.cells):
            field.left.connect(self.go_back)
        window.message.entered.connect(self.go_back)
        window.message.typed_on.connect(self._type_on)
        window.print.typed_on.connect(lambda _: self._refuse_to_type())
        for field in (window.here, window.marks, window.page):
            field.typed_on.connect(self._refuse_where_read)
        # Enter is where the print is typed, as on the screen
        window.table.activated.connect(lambda _: self.act("to_print"))
        window.table.entered_empty.connect(self._enter_empty)
        window.covered.connect(self._cover)
        window.pasted.connect(lambda: self.refuse_until_typed(_NOT_PASTED))
        window.cells.entered.connect(lambda: self.act("to_print"))

    def _look_at_end(self) -> None:
        """Stops waiting for a program that doesn't answer, in any thread, once the window is to end."""
        if self.is_ending:
            raise Interrupted(signal.SIGTERM)

    def begin(self) -> None:
        """Opens the book and shows it; raises what the client raises."""
        self.contents = self.work.result(self.book.opened)
        self.watch()
        self.show(self.contents, None)
        self._go_where_left()
        # in case the window doesn't end in order
        self._resting.start(_REST_MILLISECONDS)

    def close(self) -> None:
        """Ends the session and the threads, once what is typed was kept as what waits."""
        self.unwatch()
        self._resting.stop()
        self.keep_place()
        self._keep_typed_last()
        was_closed, self.is_closed, self._is_acting = self.is_closed, True, True
        try:
            try:
                if not was_closed:
                    self.work.result(self.book.close)
            finally:
                # what others than hands typed until now is kept too
                if self._is_typed_nowhere:
                    self._give_up_where_none_is_typed()
                self._keep_taken_back()
                self.aside.stop()
        except Lost as lost:
            self._follow(lost)
            raise
        finally:
            self.work.stop()
            self.ahead.stop()
            self.held.stop()

    def _go_where_left(self) -> None:
        """Goes to the place at which the book was left, if that is there still."""
        self._left = left = self.drafts.left_at()
        row = self.contents.place(left.paragraph) if left is not None else None
        if left is None or row is None or (row, left.place) == (0, 0):
            return
        self.choose(row)
        if not left.is_in_cells:
            self.window.print.put_caret(min(left.place, len(self.window.print.text)))
        elif self.reading is not None:
            light = self.asked(partial(self.book.by_cell, self.reading, left.place))
            self.window.print.put_caret(light.words.start)
        if left.version == self.contents.version:
            # by a change something else may stand there
            self.say("The book is open where it was left.")

    def keep_place(self) -> None:
        """Keeps where the book is left, so that it opens there again, here and in a terminal."""
        if (now := self._place_now()) is not None:
            self.aside.result(partial(self.drafts.leave_at, now), is_first=False)

    def _note_place(self) -> None:
        """Keeps where the window is now, if that is another place than before."""
        now = self._place_now()
        if now is not None and now != self._left:
            self._left = now
            keep = partial(self.drafts.leave_at, now)
            self.aside.latest("place", keep, lambda future: None)

    def _keep_typed_last(self) -> None:
        """Keeps what keys typed last, for which nothing waits."""
        if not self.typed_last.is_kept:
            keep = self.typed_last.keep
            self.aside.latest("typed last", keep, lambda future: None)

    def _place_now(self) -> LeftAt | None:
        """Where the window is, unless nothing is chosen or a new paragraph is typed."""
        if self.number is None or self.new is not None:
            return None
        in_cells = self.is_in_cells
        place = self.window.cells.place if in_cells else self.window.print.place
        before = self._left or LeftAt(self.number, 0)
        now = replace(before, paragraph=self.number, version=self.contents.version)
        return replace(now, place=place, is_in_cells=in_cells)

    # what is done, and what becomes of failures

    def act(self, name: str) -> None:
        """Does what a menu or a key asks for."""
        self.acting(self.acts[name], name)

    @property
    def is_acting(self) -> bool:
        """Whether something is being done, so that nothing else is."""
        return self._is_acting

    def acting(self, act: Callable[[], None], name: str = "") -> None:
        """Does something, unless something else is being done."""
        if self._is_acting:
            return
        self.take_begun_word()
        self._is_acting, self._is_said, self._doing = True, False, name
        self._kept_first = ""
        with self.window.spoken.of_changes():
            try:
                with self.failures():
                    act()
                self._say_kept_again()
            finally:
                self._is_acting, self._kept_first = False, ""
                if self._watched is not None:
                    self._watched.setEnabled(True)
            self.say_meanwhile()

    def _say_kept_again(self) -> None:
        """Says what was kept where a part took the focus after that, and nothing else was said."""
        kept = self._kept_first
        if kept and self.window.spoken.is_moved and kept == self.window.message.text:
            self.window.tell(kept, is_besides=True)

    def _after_kept(self, sentence: str) -> str:
        """What is said of what is being done, after what was kept first."""
        kept = self._kept_first if self._is_acting else ""
        return sentence if kept in sentence else f"{kept} {sentence}".rstrip()

    def say_meanwhile(self) -> None:
        """Says what was given up since something else was shown or asked.

        It comes after what the same action said, and in place of what an earlier one did.
        """
        if self._meanwhile:
            # what is given up doesn't wait
            self.keep_draft(self.draft())
            if self._is_said:
                self.say_too(self._meanwhile)
            else:
                self._have_stand(self._meanwhile, is_besides=True)
            self._meanwhile = ""

    def say_after(self, sentence: str) -> None:
        """Says something once what is being done has said what became of it."""
        self._meanwhile = f"{self._meanwhile} {sentence}".lstrip()

    @contextmanager
    def failures(self) -> Iterator[None]:
        """Shows what wasn't done, and sees to a session that was lost."""
        try:
            with in_sentences():
                yield
        except Stop as stop:
            self.refuse(stop.sentence)
        except _Told:
            pass
        except Lost as lost:
            self.after_loss(lost)
        except DeskError as refused:
            self.refuse(refused.sentence)
        except PartKept as part:
            with self.failures():
                more = self.taken_again(self.asked(self.book.contents))
                self.refuse(f"{part.sentence} {more}".rstrip())
        except NotAll as part:
            cause = part.cause
            why = cause.reason if isinstance(cause, Refused) else "Stopped."
            with self.failures():
                self.show(self.asked(self.book.contents), None)
                self.refuse(f"{part.done:,} done. {why}")

    def asked(self, act: Callable[[], Result]) -> Result:
        """What comes of something in the thread of the session."""
        if self.is_closed:
            raise Stop(self.closed)
        return self.work.result(act)

    def long(self, title: str, act: Callable[[Say, IsStopped], Result]) -> Result:
        """The same of something that takes long, with its progress shown, and a button that ends it."""
        if self.is_closed:
            raise Stop(self.closed)

        keep = partial(self._keep_at_offer, is_asked=False)
        try:
            return dialogs.long(self.window, self.work, title, act, keep)
        finally:
            if not self.is_ending:
                self._put_by_at_offer()

    def _say_waiting(self, is_waiting: bool) -> None:
        """Says that the program doesn't answer, or what else is waited for, until that is over.

        The message has the focus meanwhile, so that it is heard; what is pressed is held in any case.
        """
        message = self.window.message
        if is_waiting:
            self._said_before = message.text
            self._waits_from = self.window.focusWidget()
            self._said_waiting = visible(self.waits_for)
            if self._waits_from is message:
                self._have_stand(self._said_waiting)
            else:
                message.setFocus()
                self.window.tell(self._said_waiting)
            return
        before, self._waits_from = self._waits_from, None
        if before is not None and self.window.focusWidget() is message:
            before.setFocus()
        if message.text == self._said_waiting:
            self._have_stand(self._said_before)

    def say(self, sentence: str) -> None:
        """Has something stand in the message, where it is heard if the message has the focus."""
        self._is_said = True
        self._have_stand(self._after_kept(sentence))

    def _have_stand(self, sentence: str, is_besides: bool = False) -> None:
        before = self.window.message.text
        self.window.tell(visible(sentence), is_besides)
        if self.window.focusWidget() is self.window.message:
            self._have_news_read(before)

    def _have_news_read(self, before: str) -> None:
        """Has the message be read, unless it takes the focus, or only just took it, and is read by that."""
        message = self.window.message
        if not message.hasFocus() or self.window.spoken.is_just_moved:
            QTimer.singleShot(0, self._have_all_read)
        elif self._doing != "take_back":
            self._have_read()
        elif message.text == before:
            # after Ctrl+Z Orca reads what comes in by itself, and says of what is selected only that it is
            message.setPlainText(before)

    def _have_read(self) -> None:
        """Has the message be read anew, of which a screen reader reads only what is selected.

        Of what is selected already it reads what comes to be there, as if it came just now.
        """
        message = self.window.message
        text, whole = message.text, Span(0, len(message.text))
        if message.selected == whole:
            message.setPlainText(text)
        message.select(whole)

    def unsay(self, sentence: str) -> None:
        """Has it said no more that something can't be kept, unless it is so of something else."""
        message = self.window.message.text
        is_so = sentence in (self._unkept, self._unheld)
        if sentence and sentence in message and not is_so:
            rest = message.replace(f" {sentence}", "").replace(sentence, "")
            self._have_stand(rest.strip())

    def until_typed(self) -> None:
        """What the message says is so until something else is typed."""
        self._of_typed = self.window.message.text

    def _say_besides(self, sentence: str) -> None:
        """Says something after what was refused, if that is being read."""
        message = self.window.message
        if self._is_refused and self.window.focusWidget() is message:
            said = message.text
            sentence = said if sentence in said else f"{said} {sentence}"
        self.say(sentence)

    def refuse(self, sentence: str) -> None:
        """Has something stand in the message, which takes the focus, so that it is heard."""
        message, before = self.window.message, self.window.message.text
        sentence = self._after_kept(sentence)
        if visible(sentence) == before:
            sentence = f"Again: {sentence}"
        focused = self.window.focusWidget()
        if focused is not None and focused is not message:
            self._came_from = focused
        self._is_refused = self._is_said = True
        # a screen reader that hears of the text or the caret first says nothing of the message
        message.setFocus()
        self.window.tell(visible(sentence))
        if focused is message:
            self._have_news_read(before)
        else:
            message.put_caret(0)
            QTimer.singleShot(0, self._have_all_read)

    def refuse_until_typed(self, sentence: str) -> None:
        """Refuses what would be typed, which is so until something is."""
        self.refuse(sentence)
        self.until_typed()

    def _have_all_read(self) -> None:
        """Has a message of several lines be read, of which a screen reader reads the first one at its focus."""
        message = self.window.message
        if self.window.focusWidget() is message and message.lines > 1:
            self._have_read()

    def go_to(self, field: QWidget) -> None:
        """Gives a part of the window the focus; Escape goes back. The message is read again there."""
        focused = self.window.focusWidget()
        if focused is not field:
            self._came_from, self._is_refused = focused, False
            field.setFocus()
            QTimer.singleShot(0, self._have_all_read)
        elif field is self.window.message:
            self._have_read()

    def go_back(self) -> None:
        """Gives the focus back to what had it before the message."""
        before, self._came_from = self._came_from, None
        (before or self.window.table).setFocus()

    def _type_on(self, typed: str) -> None:
        """Types on in the print, by hands that don't know yet that the message took the focus."""
        field = self.window.print
        may_be = (
            self._is_refused and self._came_from is field and not field.isReadOnly()
        )
        if typed and may_be:
            self.go_back()
            field.textCursor().insertText(typed)
        elif not typed.isspace():
            # where nothing can be typed in the print either, it would be of no use to go there
            said = self._nothing_typed if field.isReadOnly() else _NOT_TYPED
            shown = self.window.message.text
            if not shown.endswith(visible(said)):
                # why is said once, also where the message has it
                is_why = shown.endswith(visible(said.removesuffix(f" {_NOTHING}")))
                self.say_too(_NOTHING if is_why else said)

    def _enter_empty(self) -> None:
        """Goes to the paragraph that is typed in a book without one, or says that there is none."""
        if self.new is not None:
            self.act("to_print")
        else:
            self.refuse(self.no_paragraph)

    def _refuse_where_read(self, typed: str) -> None:
        """Says that nothing is typed where something is only read; Space goes on there."""
        if not typed.isspace():
            self.refuse(_NOT_TYPED)

    def _refuse_to_type(self) -> None:
        """Says why nothing can be typed in the print, to hands that type there."""
        self.refuse(self._nothing_typed)

    @property
    def _nothing_typed(self) -> str:
        """That nothing was typed in the print, and why."""
        return f"{self._why_not_typed} {_NOTHING}"

    @property
    def _why_not_typed(self) -> str:
        """Why nothing can be typed in the print."""
        if self.is_closed or self.reading is None:
            return self.no_paragraph
        its = self.reading.its.paragraph
        return f"Paragraph {its.id} {STRUCK if its.struck else _NOT_SHOWN}"

    @property
    def no_paragraph(self) -> str:
        """Why there is no paragraph with which something could be done."""
        return self.closed if self.is_closed else NO_PARAGRAPH

    @property
    def closed(self) -> str:
        """What is said where the book isn't open any more, also where its file is gone."""
        saved = self._saved
        look = lambda: (is_gone(self.path), saved is not None and not is_gone(saved))
        is_away, is_saved = self.work.result(look)
        if not is_away:
            return CLOSED
        then = _SAVED.format(saved=saved) if is_saved else _THEN
        return _GONE.format(path=self.path, then=then)

    def so_now(self, said: str) -> str:
        """What was said of a book that is closed, as it is so now.

        The file with all of it may be gone, and one may be at its path again.
        """
        saved, kept = self._saved, self._said_saved
        if saved is None:
            return said
        if is_gone(saved):
            was = _WAS_SAVED.format(saved=saved)
            said = said.replace(kept, was).replace(visible(kept), visible(was))
            said = said.replace(_LAST_IS_IN_IT, _LAST_WAS_IN_IT)
        is_back = said and self._was_away and not is_gone(self.path)
        return f"{said} {_IS_BACK.format(path=self.path)}" if is_back else said

    # what is chosen and shown

    @property
    def number(self) -> int | None:
        """The number of the chosen paragraph."""
        return self.reading.its.paragraph.id if self.reading else None

    @property
    def chosen(self) -> Paragraph:
        """The chosen paragraph, of a book that has one."""
        assert self.reading is not None
        return self.reading.its.paragraph

    @property
    def is_in_cells(self) -> bool:
        """Whether keys are those of the cells, also where a dialog has only just given them back."""
        return self.window.focusWidget() is self.window.cells

    @property
    def place(self) -> int:
        """The character at the caret, or that of the cell at the caret."""
        if self.is_in_cells and self._light is not None:
            return self._light.words.start
        return self.window.print.place

    @property
    def cell(self) -> int | None:
        """The cell at the caret, or one on the line of its character; none where none is lit."""
        reading, light = self.reading, self._light
        if reading is None or light is None:
            return None
        seek = self.book.cell_on_line
        return self.asked(partial(seek, reading, light, self.is_in_cells))

    def show(self, contents: Contents, number: int | None) -> None:
        """Shows the book as it is now, with a paragraph chosen, of which something changed."""
        self.contents = contents
        wanted = contents.place(number if number is not None else self.number)
        if wanted is None:
            wanted = max(0, min(self.row, len(contents.paragraphs) - 1))
        self._is_showing = True
        try:
            self.window.model.show(contents.paragraphs, number)
            if contents.paragraphs:
                self.window.choose(wanted)
        finally:
            self._is_showing = False
        self.show_row(wanted)

    def show_done(self, done: Done) -> None:
        """Shows what was kept, and only now says so."""
        self.show(done.contents, done.paragraph)
        self.type_anew()
        said = done.said[:1].upper() + done.said[1:]
        self.say(said if said.endswith(".") else f"{said}.")

    def do(self, command: Command[object]) -> None:
        """Carries out a command, and shows what it did."""
        with self._giving_up_meanwhile():
            done = self.asked(lambda: self.book.done(command))
        self.show_done(done)

    @contextmanager
    def _giving_up_meanwhile(self) -> Iterator[None]:
        """Gives up what others than hands type in the print while it waits to show another text."""
        was, before = self.reading, self.window.print.text
        try:
            yield
        finally:
            self._give_up_typed(was, before, typed_meanwhile)

    def _give_up_typed(
        self, was: ChosenParagraph | None, before: str, said: Callable[[str], str]
    ) -> None:
        """Gives up what the print has, unless that is what it had before, at a paragraph."""
        text, new = self.window.print.text, self.new
        if not text.strip() or text == before:
            return
        draft = self._of_new(text)
        if new is not None:
            draft = replace(draft, aim=new.aim, paragraph=new.paragraph)
        elif was is not None:
            its = was.its.paragraph
            what = Draft(Aim.EDIT, its.id, its.table, was.its.text, text)
            draft = replace(what, version=self.contents.version)
        how = self.aside.result(lambda: self.unsent.put_by(draft), False)
        how = how or "Ctrl+B brings it back."
        self.say_after(f"{said(text)} {how}")

    def _cover(self, is_covered: bool) -> None:
        """Gives up what others than hands type in the print below a dialog.

        What is done once the dialog is answered is about the print as it was.
        """
        field = self.window.print
        cursor = field.textCursor()
        if is_covered:
            self._beneath = field.text, cursor.anchor(), cursor.position()
            return
        self.held.stand_still()
        before, anchor, position = self._beneath
        if field.text == before or self.is_ending:
            return
        self._give_up_typed(self.reading, before, typed_below)
        self._is_showing = True
        try:
            field.show_text(before)
            field.select_from(anchor, position)
        finally:
            self._is_showing = False
        self.keep_draft(self.draft())

    def show_row(self, row: int, is_shown: bool = True) -> None:
        """Shows the print and the braille of a paragraph, unless others come in their place at once."""
        before = self.number
        self.row, self.new, self._preview = row, None, None
        paragraphs = self.contents.paragraphs
        with self._giving_up_meanwhile():
            self.reading = None
            if paragraphs:
                its = paragraphs[row]
                self.reading = self.asked(lambda: self.book.reading(its))
        if self.number != before:
            self.in_hand = None
            # also where this one reads the same
            self.type_anew()
        if is_shown:
            self.show_reading(0 if self.number != before else self.window.print.place)

    def show_reading(self, place: int) -> None:
        """Shows the paragraph as it is in the book."""
        reading, window = self.reading, self.window
        window.print.setReadOnly(reading is None or reading.its.paragraph.struck)
        if reading is None:
            self.say(NO_PARAGRAPH)
        window.print_label.setText(self._head)
        window.print.describe(title(reading.its.paragraph, False) if reading else "")
        text = reading.its.text if reading else ""
        marks = reading.its.marks if reading else ()
        cells = self.shown(reading.its.braille if reading else "")
        # in other ones no caret stands yet
        is_by_print = cells != window.cells.text
        self._is_showing = True
        try:
            window.print.show_text(text)
            if window.print.text != text:
                # Qt ends a line at two characters that no text should have
                window.print.setReadOnly(True)
            window.print.put_caret(min(place, len(text)))
            window.cells.show_text(cells)
            window.marks.show_text("\n".join(mark_line(mark, text) for mark in marks))
        finally:
            self._is_showing = False
        self.link(is_by_print=is_by_print)

    @property
    def _head(self) -> str:
        """What stands above the print of the chosen paragraph."""
        if self.reading is None:
            return "Print"
        its = self.reading.its.paragraph
        may_be_restored = its.struck and not self.is_closed
        return f"{title(its, True)}{'; restore it to type in it' * may_be_restored}"

    def show_cells(self) -> None:
        """Shows the cells of the paragraph, or of what is typed, as they are shown now."""
        cells, text = self.window.cells, self.shown(self.braille)
        place, cursor = cells.place, cells.textCursor()
        anchor, position = cursor.anchor(), cursor.position()
        is_selected = anchor != position and len(text) == len(cells.text)
        self._is_showing = True
        cells.show_text(text)
        cells.put_caret(place)
        self._is_showing = False
        self.link()
        if is_selected:
            self._is_showing = True
            cells.select_from(anchor, position)
            self._is_showing = False

    @property
    def braille(self) -> str:
        """The cells of the paragraph, or of what is typed."""
        text, table = self.typed_text(), self.table_of_typed()
        if self.new is None and not self.is_typed() or table is None:
            return self.reading.its.braille if self.reading else ""
        if self._preview is None or self._preview.text != text:
            look = partial(self.book.tables.preview, table, text, self.print_of(text))
            self._preview = self.ahead.result(look)
        return self._preview.braille

    def shown(self, cells: str) -> str:
        """Cells as they are shown: Unicode, or Braille ASCII."""
        return braille_ascii(cells) if self.is_ascii else cells

    def _chosen(self, there: QModelIndex, before: QModelIndex) -> None:
        """Another paragraph was chosen in the table: what was typed is kept first."""
        if self._is_showing or not there.isValid():
            return
        if self._is_acting:
            # what is typed later goes where it is said to
            QTimer.singleShot(0, self._choose_again)
            return
        number = self.contents.paragraphs[there.row()].id

        def act() -> None:
            if self.is_closed:
                raise Stop(self.closed)
            if not self.settle():
                QTimer.singleShot(0, self._choose_again)
                return
            row = self.contents.place(number)
            if row is not None:
                self.choose(row)

        self.acting(act)

    def choose(self, row: int, place: int = 0, is_shown: bool = True) -> None:
        """Chooses a paragraph, and puts the carets on a character of it.

        It isn't shown where a new one is begun at it at once: a screen reader may read what comes in.
        """
        self._is_showing = True
        try:
            self.window.choose(row)
        finally:
            self._is_showing = False
        if row != self.row or self.new is not None:
            self.show_row(row, is_shown)
        if is_shown:
            self.window.print.put_caret(place)

    def _choose_again(self) -> None:
        """The paragraph stays chosen in which something is typed that wasn't kept."""
        self._is_showing = True
        try:
            if 0 <= self.row < len(self.contents.paragraphs):
                self.window.choose(self.row)
        finally:
            self._is_showing = False

    def _ask_for(self, numbers: Sequence[int]) -> None:
        """Has paragraphs read that are listed."""
        if self.is_closed or not numbers:
            return
        model = self.window.model
        turn = model.turn

        def take(found: "Future[dict[int, Opening]]") -> None:
            # where the session was lost or is closed for a while, it is seen to elsewhere
            with suppress(DeskError, RuntimeError):
                model.take(found.result(), turn)

        self.work.post(lambda: self.book.openings(numbers), take)

    # the carets of print and braille, which go with each other

    def _in_print(self) -> None:
        if not self._is_showing and not self.is_in_cells:
            self.link(True)

    def _in_cells(self) -> None:
        if not self._is_showing and self.is_in_cells:
            self.link(True)

    def link(self, is_moved: bool = False, is_by_print: bool = False) -> None:
        """Has the caret of the other text stand where this one's does, and says where that is.

        This one is that with the focus, or the print. A caret that was moved off the mark in hand lets
        go of it.
        """
        reading, window = self.reading, self.window
        if self.is_closed or reading is None or self.new or self.is_typed():
            self._light = None
            self._unlinked()
            return
        by_cell = self.is_in_cells and not is_by_print
        place = window.cells.place if by_cell else window.print.place
        seek = self.book.by_cell if by_cell else self.book.by_character
        with self.failures():
            self._light = self.asked(partial(seek, reading, place))
        if self._light is None:
            return
        words, cells = self._light.words, self._light.cells
        if is_moved and not any(m.id == self.in_hand for m in self._marks_at_caret()):
            self.in_hand = None
        marks = [Span(m.start, m.stop) for m in reading.its.marks if not m.resolved]
        self._is_showing = True
        try:
            if by_cell:
                window.print.put_caret(words.start)
            else:
                at_end = place >= len(reading.its.text)
                window.cells.put_caret(cells.stop if at_end else cells.start)
        finally:
            self._is_showing = False
        window.print.light(marks, words)
        window.cells.light(reading.marked_cells, cells)
        window.here.show_text(self._described(reading, place, by_cell))
        self.update_page(False)

    def _described(self, reading: ChosenParagraph, place: int, by_cell: bool) -> str:
        """The place in words: the characters, their cells, and the marks there."""
        assert self._light is not None
        words, cells = self._light.words, self._light.cells
        text, braille = reading.its.text, reading.its.braille
        whole = braille if by_cell else text
        if place >= len(whole):
            what = "cell" if by_cell else "character"
            said = f"The end, after {counted(len(whole), what)}."
        else:
            sign = text[words.start : words.stop]
            its = f"“{sign}”" if visible(sign) == sign else code_and_name(sign[0])
            shown = self.shown(braille[cells.start : cells.stop])
            said = (
                f"{its} {shown}, {words.counted('character')}, {cells.counted('cell')}."
            )
        marks = (mark_line(mark, text) for mark in self.marks_here())
        return "\n".join([said, *marks])

    def _unlinked(self) -> None:
        """What is seen of a text that isn't in the book yet."""
        window = self.window
        window.print.light((), None)
        window.cells.light((), None)
        text, place = window.print.text, window.print.place
        if not self.is_typed() and self.new is None:
            window.here.show_text("")
            return
        is_on_page = window.dock.isVisible() and self.new is None
        if is_on_page and not self.is_closed and (why := self.why_no_page):
            # that it has no words may be said there, which is so of the book alone now
            self._show_why(why)
        # nothing is at fault where nothing stands, as after what stood there was given up
        fault = self._preview.fault if self._preview and text else ""
        count = f"{counted(len(text), 'character')}, not in the book yet."
        where = f"Character {place + 1:,}" if place < len(text) else "The end"
        said = f"{where} of {count}"
        keeps = "Escape gives it up."
        if self.new is not None and not text.strip():
            keeps = "Enter and Escape leave it."
        elif not self.is_closed:
            keeps = f"Enter keeps it, {keeps}"
        window.here.show_text(" ".join(filter(None, [fault, said, keeps])))

    def marks_here(self) -> list[Mark]:
        """The marks at the caret, and the one in hand; open ones first."""
        found = {mark.id: mark for mark in self._marks_at_caret()}
        held = self.held_mark
        if held is not None:
            found[held.id] = held
        order = found.values()
        return sorted(order, key=lambda m: (m.resolved, m.id != self.in_hand, m.id))

    @property
    def held_mark(self) -> Mark | None:
        """The mark in hand, which is one of the chosen paragraph."""
        marks = self.reading.its.marks if self.reading else ()
        return next((mark for mark in marks if mark.id == self.in_hand), None)

    def _marks_at_caret(self) -> list[Mark]:
        """The marks on what the caret stands on."""
        if self.reading is None:
            return []
        last = max(0, len(self.reading.its.text) - 1)
        words = self._light.words if self._light else Span(self.place, self.place + 1)
        return [
            mark
            for mark in self.reading.its.marks
            if min(mark.start, last) < max(words.stop, words.start + 1)
            and words.start < max(mark.stop, mark.start + 1)
        ]

    # the page of the caret

    def update_page(self, is_asked: bool) -> None:
        """Has the page of the caret shown, where pages are shown.

        If it is asked for, that is shown too while something is typed, or why there is none.
        """
        reading, light = self.reading, self._light
        if not self.window.dock.isVisible():
            return
        if is_asked and light is None:
            if why := self.why_no_page:
                self._show_why(why)
                return
            light = self._light_in_book()
        if reading is None or light is None:
            return
        its = reading.its.paragraph
        says = f"character {light.words.start + 1}"
        cell = partial(self.book.cell_on_line, reading, light, self.is_in_cells)
        contents, page_size = self.contents, self.page_size

        def look() -> pagelook.Page | None:
            # another book by then has its page asked for by itself
            if self.book.session.last_version != contents.version:
                return None
            sought = pagelook.Sought(its, cell(), says)
            return self.book.page(contents, page_size, sought, is_asked)

        def take(found: "Future[pagelook.Page | None]") -> None:
            with suppress(DeskError, RuntimeError):
                page = found.result()
                if page is None:
                    return
                lines = [self.shown_page(line) for line in page.lines]
                self.window.show_page(self._wrapped(page.title), lines, page.line)

        self.work.latest("page", look, take)

    @property
    def why_no_page(self) -> str:
        """Why there is no page of the caret, or nothing."""
        if self.new is not None and not self.is_closed:
            return _ON_NO_PAGE
        if self.is_closed or self.reading is None:
            return self.no_paragraph
        its = self.reading.its
        number = its.paragraph.id
        if its.paragraph.struck:
            return on_no_page(number)
        if its.braille.strip(EMPTY_CELL):
            return ""
        return _NO_WORDS_YET.format(number) if self.is_typed() else no_line(number)

    def _show_why(self, why: str) -> None:
        """Has it stand in place of a page why there is none, also if one is being laid out."""
        show = lambda _: self.window.show_page(self._wrapped(why), (), None)
        self.work.latest("page", lambda: None, show)

    def _wrapped(self, title: str) -> list[str]:
        """What stands above a page, in lines."""
        return wrap(title, max(20, self.page_size.width * 5 // 6))

    def _light_in_book(self) -> Highlighted | None:
        """What the caret would stand on in the print as the book has it."""
        if self.reading is None:
            return None
        place = self.as_before(self.window.print.place)
        return self.asked(partial(self.book.by_character, self.reading, place))

    def shown_page(self, line: str) -> str:
        """A line of a page, which is in Braille ASCII, as cells are shown."""
        return line if self.is_ascii else braille_patterns(line)

    # what is typed, and what is kept of it

    def take_begun_word(self) -> None:
        """Has the print take what an input method shows there and hasn't handed over yet."""
        method = QGuiApplication.inputMethod()
        if method is not None:
            method.commit()

    def typed_text(self) -> str:
        """What is typed, in one line: what else made lines of it is as a blank."""
        text, before = self.window.print.text, self.before()
        return text if LINE_END in before else text.replace(LINE_END, " ")

    def before(self) -> str:
        """The print in which something may be typed, as the book has it."""
        return "" if self.new is not None or not self.reading else self.reading.its.text

    def print_of(self, text: str) -> str:
        """The print that a text will be once it is kept."""
        return (
            composed(text) if self.new is not None else with_typed(self.before(), text)
        )

    def as_kept(self, place: int) -> int:
        """Where a place of what is typed is once that is kept."""
        text = self.typed_text()
        return place_kept(text, self.print_of(text), place)

    def as_before(self, place: int) -> int:
        """Where a place of what is typed is in the print as the book has it."""
        return place_before(self.before(), self.typed_text(), place)

    def is_typed(self) -> bool:
        """Whether a text is typed that the book doesn't have.

        None is while no paragraph is shown, and none where nothing can be typed.
        """
        is_shown = self.reading is not None or self.new is not None
        may_be = is_shown and not self.window.print.isReadOnly()
        return may_be and self.typed_text() != self.before()

    def draft(self) -> Draft | None:
        """What is typed and not in the book yet."""
        return self._typed_in_print() if self.beside is None else self.beside

    def _typed_in_print(self) -> Draft | None:
        text = self.typed_text()
        if not self.is_typed() or not text:
            return None
        version = self.contents.version
        if self.new is not None:
            new = self.new
            return Draft(new.aim, new.paragraph, new.table, "", text, None, version)
        assert self.reading is not None
        its = self.reading.its
        table = its.paragraph.table
        before = self.typed_from()
        return Draft(Aim.EDIT, self.number, table, before, text, None, version)

    def keep_draft(self, draft: Draft | None) -> None:
        """Has a text wait until the book has it, or nothing."""
        self._keep(draft, self._say_besides)

    def _keep_again(self) -> None:
        """Tries again to keep what couldn't be kept, of which is said only that it is by now."""
        if self._unkept and not self._is_acting:
            self._keep(self.draft(), lambda sentence: None)
        if self._unheld and not self._is_acting:
            self._keep_held(is_again=True)
        if self.unsent.unkept_said and not self._is_acting:
            again = self.unsent.keep_again
            self.aside.latest("given up", again, self._unsay_given_up)

    def _unsay_given_up(self, found: "Future[str]") -> None:
        """Has it said no more that what was given up can't be kept, once it is."""
        self.unsay(visible(found.result()))

    def _keep(self, draft: Draft | None, say: Callable[[str], None]) -> None:
        """Does the same, and has it said what is in the way of that as long as that is so."""

        def look(found: "Future[None]") -> None:
            try:
                found.result()
            except NotKept as fault:
                # what the book has by now need not wait
                if draft is not None and self.draft() is not None:
                    self._unkept = visible(not_kept(fault))
                    say(self._unkept)
                    return
            before, self._unkept = self._unkept, ""
            self.unsay(before)
            self.unsay(_ONLY_HERE)

        saved = self._saved

        def keep() -> None:
            before = self.unsent.waiting
            self.unsent.keep(draft)
            if saved is not None:
                self.drafts.copy_to(saved, before)

        self.aside.latest("draft", keep, look)

    def have_wait(self, beside: Draft | None) -> None:
        """Has what is typed elsewhere than in the print wait, or nothing."""
        self.beside = beside
        self.keep_draft(beside)

    def put_by(self, draft: Draft) -> str:
        """Gives up a text that waits, and says how it is brought back."""
        fault = self.aside.result(lambda: self.unsent.put_by(draft), False)
        self.have_wait(None)
        return fault or "Ctrl+B brings it back."

    def keep_unopened(self, text: str) -> None:
        """Keeps a text that is typed where the book can't be opened, until that is given up; or nothing."""
        its = Draft(Aim.AFTER, None, None, "", text)
        self._at_offer = Unread("", its, is_at_offer=True) if text else None
        with suppress(NotKept):
            self.unsent.keep_unread(self._at_offer)

    def put_by_unopened(self) -> str:
        """Gives up a text that was typed where the book can't be opened, and says so if it isn't kept."""
        typed, self._at_offer = self._at_offer, None
        if typed is None:
            return ""
        self.unsent.put_by(typed.rest)
        if unkept := " ".join(self.unsent.unkept).replace("\n", " "):
            return f"{_UNKEPT} {unkept}"
        self.keep_unopened("")
        return ""

    def is_waiting(self) -> bool:
        """Whether what is typed is kept as what waits, if anything is typed."""
        draft = self.draft()
        self.keep_draft(draft)
        self.wait_for_draft()
        return draft is None or self.unsent.waiting == draft

    def keep_anew(self) -> None:
        """Keeps what is typed, and what waits, also where others took away what that was kept in."""
        self.aside.post(self.unsent.see_kept, lambda future: None)
        self.keep_draft(self.draft())

    def waits_at_once(self) -> str:
        """Keeps what is typed as what waits, once nothing can be shown, and says so if anything is."""
        draft, held = self.draft(), self._text_elsewhere()
        self.keep_anew()
        self._keep_typed_last()
        self._keep_taken_back()
        # nothing more is done beside the window, which isn't drawn while that is waited for
        self.aside.stop()
        unkept = [*self.unsent.unkept]
        if draft is not None and self.unsent.waiting != draft:
            unkept.append(draft.text)
        try:
            self.unsent.keep_unread(held)
        except NotKept:
            unkept.append(held.text_of_all if held is not None else "")
        if unkept:
            return f"{_UNKEPT} {visible(' '.join(unkept))}"
        if draft or self._is_offering and self.unsent.waiting:
            return _WAITS
        return _IS_ASIDE if held else ""

    @property
    def strayed(self) -> str:
        """What became of the file of a book in which nothing was kept, once its session is closed."""
        strayed = self.book.session.strayed
        return unchanged(strayed) if strayed else ""

    def end_at_once(self) -> str:
        """Ends the session once nothing can be shown, and says what is so of a book that was lost."""
        self.is_ending = True
        said = [self.so_now(self.loss)]

        def end() -> None:
            with suppress(Lost, Interrupted):
                self.book.close()
            session = self.book.session
            if session.lost is not None:
                self._follow(session.lost)
                said.append(session.lost.sentence)
            else:
                said.append(self.strayed)

        if not self.loss:
            self.work.at_once(end, _ENDING_SECONDS)
        return " ".join(filter(None, said))

    def _text_held(self) -> Unread | None:
        """The text that was typed while the window waits: lines after a new paragraph, or one by itself."""
        text, field = self.held.text.strip(), self.window.print
        focused = self._waits_from or self.window.focusWidget()
        is_in_print = focused is field and not field.isReadOnly()
        if not text or not is_in_print and len(text) <= _FEW:
            return None
        draft = self.draft()
        is_new = draft is not None and draft.aim.is_new and self.beside is None
        lines, text = (text, "") if is_new else ("", text)
        return Unread(lines, self._of_new(text))

    def _of_new(self, text: str) -> Draft:
        """A text that came where none is typed, for a new paragraph."""
        aside = Draft(Aim.AFTER, self.number, self.table_of_typed(), "", text)
        return replace(aside, version=self.contents.version)

    def _text_elsewhere(self) -> Unread | None:
        """The text that was typed in a dialog, and after it what is held while the window waits."""
        held, typed = self._text_held(), self._at_offer
        if held is None or typed is None:
            return held or typed
        text = f"{typed.rest.text}\n{held.text_of_all}"
        return replace(typed, rest=replace(typed.rest, text=text))

    def _keep_held(self, is_again: bool = False) -> None:
        """Keeps the text that is typed elsewhere than in its place until it is there, or nothing."""
        held = self._text_elsewhere()

        def look(found: "Future[None]") -> None:
            try:
                found.result()
            except NotKept as fault:
                self._unheld = visible(not_kept(fault))
                if not is_again:
                    self._say_besides(self._unheld)
                return
            before, self._unheld = self._unheld, ""
            self.unsay(before)

        # as long as something is being done others see to what waits
        typed = self.draft() if held is None and not self._is_acting else None

        def keep() -> None:
            if typed is not None:
                try:
                    self.unsent.keep(typed)
                except NotKept:
                    # which is said elsewhere; what was held stays where it is found
                    return
            self.unsent.keep_unread(held)

        self.aside.latest("held", keep, look)

    def offered(
        self, title: str, asked: str, answers: Sequence[str], *by_enter: int
    ) -> int:
        """The answer to what no key has asked for; a text that was typed there is given up."""
        self._is_offering = True
        self.work.wait_for_pause()
        its = self.window, title, asked, answers, self._keep_at_offer
        answer = offer(*its, *by_enter, holding=self.held.holding)
        if not self.is_ending:
            self._is_offering = False
            self._put_by_at_offer()
        return answer

    def answer(
        self, title: str, asked: str, answers: Sequence[str], *by_enter: int
    ) -> int:
        """The answer to what a key has asked for; a text that was typed on there is given up."""
        its = self.window, title, asked, answers, self._keep_at_offer
        answer = ask(*its, self.held.holding, *by_enter)
        if not self.is_ending:
            self._put_by_at_offer()
        return answer

    def line(
        self,
        title: str,
        asked: str,
        act: Callable[[str], None],
        first: str = "",
        changed: Callable[[str], None] | None = None,
    ) -> str | None:
        """Does something with a line that is asked for, and gives the same as below."""
        its = self.window, title, asked
        ask = lambda why, line: dialogs.text(*its, line, changed, why)
        return self.until_taken(ask, first, act)

    def until_taken(
        self,
        ask: Callable[[str, Answer], Answer | None],
        answer: Answer,
        act: Callable[[Answer], None],
    ) -> str | None:
        """Does something with what is answered in a dialog, which has an answer to begin with.

        Where that is refused, it is asked again, and said first why. Nothing is given once it is
        done; where it is given up, why it was refused last, if it was, which is in the message then.
        """
        why = ""
        while (found := self._answered(ask, why, answer)) is not None:
            try:
                act(found)
                return None
            except NoAnswer as refused:
                why, answer = refused.sentence, found
            # what is typed on is no answer to a dialog of which nobody knows yet
            self.held.expect_text()
            self.work.wait_for_pause()
        if why:
            self.say(why)
        return why

    def _answered(
        self, ask: Callable[[str, Answer], Answer | None], why: str, answer: Answer
    ) -> Answer | None:
        """What is answered; a text that was typed on before it was asked again is given up after that."""
        self._is_asked_again = bool(why)
        try:
            return ask(why, answer)
        finally:
            self._is_asked_again = False
            if not self.is_ending:
                self._put_by_at_offer()

    def one_of(
        self, title: str, asked: str, names: Sequence[str], first: int | None = None
    ) -> str | None:
        """One of several names, none where it is given up; as is a text that was typed on there.

        If one is chosen at first, letters look for others.
        """
        keep, holding = self._keep_at_offer, self.held.holding
        taking = typed_on.taking_at_names(keep, holding)
        if first is not None:
            taking = typed_on.taking_at_search(keep, names, holding)
        with taking:
            name = dialogs.one_of(self.window, title, asked, names, first or 0)
        if not self.is_ending:
            self._put_by_at_offer()
        return name

    def _keep_at_offer(self, text: str, is_asked: bool = True) -> None:
        """Keeps a text that is typed in a dialog until that is answered, or what takes long is over."""
        its = self._of_new(text)
        self._at_offer = Unread("", its, is_at_offer=is_asked) if text else None
        self._keep_held()

    def report(self, title: str, lines: Sequence[str]) -> None:
        """Shows lines that no key has asked for, once nobody types."""
        self.work.wait_for_pause()
        self.show_lines(title, lines)
        # a screen reader read the first of them, and reads what came of it where the focus goes back to
        self.window.tell(self.window.message.text)

    def show_lines(self, title: str, lines: Sequence[str]) -> None:
        """Shows lines that can be read one by one; a text that was typed on there is given up."""
        with self._taking_at_lines():
            dialogs.report(self.window, title, lines)

    def line_of(self, title: str, lines: Sequence[str], first: int) -> int | None:
        """Shows such lines, and gives the place of the one that is gone to, if one is."""
        with self._taking_at_lines():
            return dialogs.line_of(self.window, title, lines, first)

    @contextmanager
    def _taking_at_lines(self) -> Iterator[None]:
        with typed_on.taking_at_lines(self._keep_at_offer, self.held.holding):
            yield
        if not self.is_ending:
            self._put_by_at_offer(typed_at_lines)

    def _put_by_at_offer(self, at: Callable[[str], str] = typed_at_offer) -> None:
        """Gives up a text that was typed in a dialog, and says so."""
        typed, self._at_offer = self._at_offer, None
        if typed is None:
            return
        draft, held = typed.rest, self._text_held()

        def put_by() -> str:
            how = self.unsent.put_by(draft)
            with suppress(NotKept):
                self.unsent.keep_unread(held)
            return how or "Ctrl+B brings it back."

        how = self.aside.result(put_by, False)
        said = at if typed.is_at_offer else came_last
        # also where what was answered is refused
        self.say_after(f"{said(draft.text)} {how}")

    def say_too(self, sentence: str) -> None:
        """Says something after what is said already."""
        if sentence:
            self.say(f"{self.window.message.text} {sentence}".lstrip())

    def _put_by_held(self) -> None:
        """Gives up a text that was typed before a dialog opened, which it doesn't answer."""
        held = self._text_held()
        if held is None:
            return
        draft = replace(held.rest, text=held.text_of_all)
        if self._is_asked_again:
            # it is kept as what came last, and said once that is answered
            self._at_offer = Unread("", draft)
            return

        def look(found: "Future[str]") -> None:
            how = found.result() or "Ctrl+B brings it back."
            said = f"{came_last(draft.text)} {how}"
            # what is being done says something else, which would come in its place
            (self.say_after if self._is_acting else self.say)(said)

        self.aside.post(lambda: self.unsent.put_by(draft), look)

    def wait_for_draft(self) -> None:
        """Waits until what is typed is kept as what waits."""
        self.aside.result(lambda: None, is_first=False)

    def _typed(self) -> None:
        if self._is_showing:
            return
        if self.window.print.isReadOnly():
            if not self._is_typed_nowhere:
                # once all of it is there: it comes in parts
                self._is_typed_nowhere = True
                QTimer.singleShot(0, self._give_up_where_none_is_typed)
            return
        if self.is_closed and self.beside is not None:
            # what is typed on in the print has to wait by itself
            self.put_by(self.beside)
        before, self._of_typed = self._of_typed, ""
        self.unsay(before)
        text, table = self.typed_text(), self.table_of_typed()
        self._see_put_in(text)
        is_more = self.window.print.may_be_typed_again
        self._set_aside(self._taken_back.see(text, self._typed_in_print(), is_more))
        self.keep_draft(self.draft())
        if not self.is_typed():
            self._preview = None
            if self.reading is not None and self.new is None:
                self.show_reading(self.window.print.place)
            return
        if table is None:
            return

        def take(found: "Future[Preview]") -> None:
            preview = found.result()
            if preview.text == self.typed_text() and self.is_typed():
                self._preview = preview
                self._is_showing = True
                self.window.cells.show_text(self.shown(preview.braille))
                self._is_showing = False
                self._unlinked()

        tables, now = self.book.tables, self.print_of(text)
        self.ahead.latest("preview", partial(tables.preview, table, text, now), take)
        self._unlinked()

    def _see_put_in(self, text: str) -> None:
        """Sees whether a text that was put in, or taken back, is typed, which isn't given up any more then."""
        if not self.is_typed():
            self._typed_from = None
        elif text == self._put_in:
            self._typed_from = self._put_in_from
            # it stands there again
            self.unsay(self._said_of_put_in)
        draft = self.draft()
        if draft is not None and text in self._given_up:
            taken, said = self._given_up.pop(text)
            self.unsay(said)
            take_up = partial(self.unsent.take_up, draft, taken)
            # what can't be kept is said where it is kept as what waits
            with suppress(NotKept):
                self.aside.result(take_up, False)

    def _give_up_where_none_is_typed(self) -> None:
        """Gives up what others than hands type in the print where nothing can be typed, and says so."""
        self._is_typed_nowhere = False
        text = self.window.print.text
        draft = self._of_new(text)
        self.show_reading(0)
        if text.strip():
            how = self.aside.result(lambda: self.unsent.put_by(draft), False)
            said = f"{typed_there(text)} {how or 'Ctrl+B brings it back.'}"
            if self._is_acting:
                # what is being done says something else first
                self.say_after(said)
            else:
                self.refuse(f"{self._why_not_typed} {said}")

    def table_of_typed(self) -> str | None:
        """The table of the print that is typed."""
        if self.new is not None:
            return self.new.table
        return self.reading.its.paragraph.table if self.reading else None

    def typed_from(self) -> str:
        """The print from which a text was typed, which may be another one by now."""
        before = self.before()
        return before if self._typed_from is None else self._typed_from

    def type_anew(self) -> None:
        """What is typed from now on is typed from the print as it is now, and nothing before is taken back."""
        self.window.print.have_kept()
        self.give_up_taken_back()
        self._typed_from = self._put_in_from = None
        self._given_up = {}

    def put_in(self, text: str, before: str | None = None) -> None:
        """Has a text be in the print in place of what is there, typed before from a print."""
        self._put_in = text
        self._put_in_from = self._typed_from if before is None else before
        self.window.print.selectAll()
        self.window.print.put_in(text)
        self._given_up = {}

    def take_typed_back(self) -> None:
        """Takes back what was typed last. A text that was put in isn't lost by that."""
        before, field = self.draft(), self.window.print
        field.undo()
        if before is None or self.draft() is not None or before.text != self._put_in:
            if self.window.focusWidget() is not field:
                # else a screen reader says what goes from the print
                self.say(_TYPED_IS_BACK)
                self.until_typed()
            return
        said = self.given_up(before)
        self._said_of_put_in = visible(said)
        self.say(said)

    def given_up(self, draft: Draft) -> str:
        """Gives up what is typed, with what was taken back of it, and gives what is said of that."""
        whole = self._taken_back.whole(draft)
        has = partial(self.typed_last.has, whole.text)
        if whole.aim is Aim.AFTER and self.aside.result(has, False):
            # it is kept as all that was typed last
            self.have_wait(None)
            return "Given up. The book is as it was. Ctrl+Shift+B brings it back."
        said = f"Given up. The book is as it was. {self.put_by(whole)}"
        self._given_up[whole.text] = whole, visible(said)
        return said

    def give_up_taken_back(self) -> None:
        """Gives up what was typed and taken back, which no key types again once another print is shown."""
        self._set_aside(self._taken_back.end())

    def _keep_taken_back(self) -> None:
        """Does the same as the window ends, where nobody is told any more."""
        for draft in self._taken_back.end():
            self.aside.post(partial(self.unsent.put_by, draft), lambda future: None)

    def _set_aside(self, texts: Sequence[Draft]) -> None:
        """Gives up texts that were taken back, unless they are given up already, and says so."""
        known = tuple(self._given_up)
        new = [t for t in texts if not any(t.text in each for each in known)]
        said = " ".join(map(self._put_by_taken_back, new))
        if said:
            (self.say_after if self._is_acting else self.say)(said)

    def _put_by_taken_back(self, draft: Draft) -> str:
        how = self.aside.result(partial(self.unsent.put_by, draft), False)
        how = how or "Ctrl+B brings it back."
        said = f"{typed_and_taken_back(draft)} {how}"
        self._given_up[draft.text] = draft, visible(said)
        return said

    def settle(self) -> bool:
        """Keeps what is typed; whether nothing is typed any more that the book doesn't have."""
        new, text = self.new, self.typed_text()
        if new is None and not self.is_typed():
            return True
        if new is not None and not text.strip():
            self.leave_new()
            return True
        self.keep_draft(self.draft())
        self.wait_for_draft()
        reading, place = self.reading, self.as_kept(self.window.print.place)
        is_kept = False
        with self.failures():
            if new is None:
                assert reading is not None
                done = self.asked(partial(self.book.corrected, reading, text))
            else:
                done = self._typed_new(new, text)
            is_kept = True
        if not is_kept:
            # if it can't wait either, that is said after the refusal
            self.keep_draft(self.draft())
            is_settled = not self.is_typed() and self.new is None
            return is_settled and not self.is_closed
        # what others than hands typed meanwhile
        later = self.typed_text()
        self._show_settled(done, min(place, len(text)))
        if later == text:
            return True
        self.put_in(later)
        return self.settle()

    def _show_settled(self, done: Done | None, place: int) -> None:
        """Shows what was typed as it was kept, with the caret at a place."""
        self.keep_draft(None)
        self.new = None
        self.type_anew()
        self._is_showing = True
        self.window.print.put_caret(place)
        self._is_showing = False
        if done is None:
            self.show_reading(place)
        else:
            self.show_done(done)
            self._kept_first = self.window.message.text

    def settled(self) -> int:
        """The number of the chosen paragraph, once what was typed is kept."""
        if not self.settle():
            raise _Told
        if self.is_closed or self.number is None:
            raise Stop(self.no_paragraph)
        return self.number

    def _typed_new(self, new: New, text: str) -> Done:
        after = self.after(new)
        command = requests.Type(after, new.table, composed(text))
        return self.asked(lambda: self.book.done(command))

    def table_of_new(self) -> str:
        """The table of a new paragraph: that of the chosen one, or else a chosen one, or the book's first."""
        there, chosen = self.contents.tables, self._table_chosen
        if self.reading is not None:
            return self.reading.its.paragraph.table
        if not there:
            raise Stop("The book has no table yet. Ctrl+L puts one into it.")
        return chosen if chosen in there else there[0]

    def have_new_by(self, table: str, done: Done) -> None:
        """Has new paragraphs of a book that has none be by a table, also one that is being typed."""
        self._table_chosen = table
        if self.new is None:
            said = f"{done.said} Ctrl+Enter begins the first one."
            self.show_done(replace(done, said=said))
            return
        self.contents, self.new = done.contents, replace(self.new, table=table)
        self.window.print.describe(self.new.title)
        self.window.print_label.setText(self.new.title)
        self._preview = None
        self._typed()
        self.say(done.said)

    def after(self, new: New) -> After:
        """Where a new paragraph goes."""
        place = self.contents.place(new.paragraph)
        if place is None:
            return "end"
        if new.aim is Aim.AFTER:
            return self.contents.paragraphs[place].id
        return self.contents.paragraphs[place - 1].id if place else "front"

    def begin_new(self, new: New, text: str = "") -> None:
        """Has a new paragraph be typed."""
        self.new, self._light = new, None
        self.type_anew()
        window = self.window
        if not self.contents.paragraphs:
            # that there is none is no news any more
            self.say("")
        window.print.describe(new.title)
        window.print_label.setText(new.title)
        window.print.setReadOnly(False)
        if not text:
            # a screen reader that hears of the caret first says nothing of the print
            window.print.setFocus()
        self._is_showing = True
        try:
            window.print.show_text("")
            window.cells.show_text("")
            window.marks.show_text("")
        finally:
            self._is_showing = False
        if text:
            self.put_in(text)
            # a screen reader may read once more what comes in after that
            window.print.setFocus()
        self._unlinked()

    def leave_new(self) -> None:
        """Goes back to the paragraph beside which nothing was typed."""
        self.new = None
        self.type_anew()
        self.keep_draft(None)
        self.show_reading(0)

    # the session, which may end by itself

    def watch(self) -> None:
        """Watches the session, so that its end is seen when it comes."""
        self.unwatch()
        its = QSocketNotifier(
            voidptr(os.pidfd_open(self.book.pid)), QSocketNotifier.Type.Read
        )
        its.activated.connect(self._seen_to_end)
        self._watched = its

    def unwatch(self) -> None:
        """Watches it no more."""
        its, self._watched = self._watched, None
        if its is not None:
            its.setEnabled(False)
            os.close(int(its.socket()))

    def _seen_to_end(self) -> None:
        """The session ended, which is seen to once nothing else is being done."""
        if self._is_acting and self._watched is not None:
            self._watched.setEnabled(False)
        self.acting(self._ended)

    def _ended(self) -> None:
        self.unwatch()
        if not self.is_closed:
            self.asked(lambda: self.book.session.version())

    def lost_among(self, lost: Lost) -> NoReturn:
        """Sees to a session that was lost among many changes, which are said where it stopped."""
        self.after_loss(lost, lost.version)
        raise _Told

    def after_loss(self, lost: Lost, shown: int | None = None) -> None:
        """Opens the book again, and says what it has. What is typed stays typed.

        What was done may have been shown up to a version.
        """
        self.unwatch()
        if self._is_opening_again:
            # it ended again before all was shown, and would at each further time
            raise lost
        self.wait_for_draft()
        self._is_opening_again = True
        try:
            begun = self.contents.version
            look = partial(self.book.open_after, lost, begun, shown)
            found, said = self.work.result(look)
            if found is not None:
                said.append(self.taken_again(found))
        except (DeskError, OSError) as failed:
            found, said = None, [lost.sentence, str(failed)]
        finally:
            self._is_opening_again = False
        if found is None:
            self._be_closed(lost, said)
        else:
            self.refuse(" ".join(filter(None, said)))

    def _be_closed(self, lost: Lost, said: Sequence[str]) -> None:
        """Says why the book isn't open any more, and where what is typed is."""
        self.unwatch()
        self.is_closed, self.loss = True, " ".join(said)
        more = self._what_is_typed(lost)
        self._follow(lost)
        if self.reading is None and self.new is None:
            # it ended before a paragraph was shown, and nothing could be typed in this one
            self.show_reading(0)
        elif self.new is None:
            self.window.print_label.setText(self._head)
        # the place says no more of the book, and of what is typed not that Enter keeps it
        self.link()
        self.refuse(" ".join([*said, *more]))
        if _LAST_IS_IN_IT in more:
            # until more is typed
            self._of_typed = _LAST_IS_IN_IT

    def _what_is_typed(self, lost: Lost) -> Sequence[str]:
        """Says where what is typed is, if anything is, once the book is closed."""
        draft = self.draft()
        if draft is None:
            return ()
        if isinstance(lost, Displaced) and lost.saved is not None:
            look = partial(self.book.unkept_in, Path(lost.saved), draft)
            with suppress(DeskError, OSError):
                contents, rest = self.work.result(look)
                if rest is None:
                    self._have_kept(contents)
                    return (_LAST_IS_IN_IT,)
        if self.is_waiting():
            return (f"What is typed is kept in {self.drafts.place}.",)
        return (_ONLY_HERE,)

    def _have_kept(self, contents: Contents) -> None:
        """What is typed is in the book, which is elsewhere by now, and isn't typed any more."""
        reading, new, is_beside = self.reading, self.new, self.beside is not None
        self.contents = replace(self.contents, version=contents.version)
        if new is not None:
            newest = max(each.id for each in contents.paragraphs)
            self.begin_new(New(Aim.AFTER, newest, new.table))
        elif reading is not None and not is_beside:
            its = replace(reading.its, text=self.typed_text(), braille=self.braille)
            self.reading = replace(reading, its=its)
            self.type_anew()
        self.have_wait(None)
        self.wait_for_draft()

    def _follow(self, lost: Lost) -> None:
        """Has what isn't in the book be offered where all of a book that is gone was saved."""
        if isinstance(lost, Displaced) and lost.saved is not None:
            self._saved, self._said_saved = Path(lost.saved), lost.kept
            self._was_away = is_gone(self.path)
            self.drafts.copy_to(self._saved)

    def taken_again(self, contents: Contents) -> str:
        """Shows a book that was opened again; what is typed and isn't in it stays typed.

        If it was typed elsewhere than in the print, or others changed that, it is given up, which is
        said.
        """
        self.is_closed, self.loss, self._saved = False, "", None
        self.watch()
        others = self._of_others()
        draft, new, number = self.draft(), self.new, self.number
        place, beside = self.window.print.place, self.beside
        before = self.before()
        if draft is not None:
            draft = self.asked(partial(self.book.unkept, contents, draft))
        # the session may end again before this is in its place
        self.beside = draft
        self.window.model.all_unread()
        self.show(contents, number)
        self.beside = None
        if draft is None:
            self.keep_draft(None)
            return others
        is_same = self.number != number or self.before() == before
        changed = "" if is_same else changed_since(draft, self.before())
        if beside is not None or changed:
            its = f"{what_for(draft)} isn't in the book.{changed} {self.put_by(draft)}"
            return f"{its} {others}".rstrip()
        if new is not None:
            self.begin_new(new, draft.text)
        elif self.number == number:
            self.put_in(draft.text)
        else:
            table = draft.table or contents.tables[0]
            self.begin_new(New(Aim.AFTER, self.number, table), draft.text)
        self.window.print.put_caret(place)
        return others

    def _of_others(self) -> str:
        """Gives up what waits of another session since the book was open here, and says so."""
        self.aside.result(self.typed_last.begin, False)
        found = self.aside.result(self.unsent.others, False)
        if found is None:
            return ""
        draft, how = found
        return f"{typed_by_others(draft.joined)} {how or 'Ctrl+B brings it back.'}"

    def _may_close(self) -> bool:
        """Whether the window may go: what is typed is kept in the book, or waits."""
        if self._is_acting:
            return False
        self.take_begun_word()
        self._is_acting, self._is_said = True, False
        try:
            may_close = self.is_waiting() if self.is_closed else self.settle()
            self.give_up_taken_back()
        finally:
            self._is_acting = False
        if not may_close and not self.is_left():
            self.say_meanwhile()
            return False
        if self.unsent.unkept_said:
            self.unsay(visible(self.aside.result(self.unsent.keep_again, False)))
        if self.unsent.unkept and not self._is_given_up(self.unsent.unkept):
            self.say_meanwhile()
            return False
        self.held.end()
        return True

    def _is_given_up(self, texts: Sequence[str]) -> bool:
        """Asks whether the window goes while texts that were given up are kept nowhere."""
        what, goes = (
            f"A text, {quoted(texts[0])},",
            "It is lost if the window is closed",
        )
        how = "Ctrl+B brings it back."
        if len(texts) > 1:
            what = (
                f"{counted(len(texts), 'text')}, the last of them {quoted(texts[0])},"
            )
            goes, how = (
                "They are lost if the window is closed",
                "Ctrl+B brings one back.",
            )
        said = f"{what} can't be kept elsewhere after being given up. {goes}. {how}"
        # nor does a letter close it, which hands may type on that asked for nothing
        return self.offered("Not kept", said, _OF_CLOSING, _STAYS) == 0

    def is_left(self) -> bool:
        """Asks whether the window goes while something is typed that wasn't kept."""
        said = self.work.result(partial(self.so_now, self.window.message.text))
        if self.draft() is None:
            # all is in the book, which is elsewhere by now
            return self.answer("Closed", said, _OF_CLOSING) == 0
        if not self.is_waiting():
            # it is said once, also where the message has it
            said = f"{said.replace(_ONLY_HERE, '').rstrip()}\n\n{_ONLY_HERE}"
            return self.offered("Not kept", said, _OF_CLOSING, _STAYS) == 0
        waits = "What is typed waits, and is offered when the book is opened again."
        return self.answer("Not kept", f"{said}\n\n{waits}", _OF_CLOSING) == 0
