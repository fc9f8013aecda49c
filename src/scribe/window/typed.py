"""What is typed: it is kept, given up, brought back and taken back, also where it has many lines."""

import signal
from collections.abc import Callable, Sequence
from contextlib import suppress
from dataclasses import replace
from typing import Any

from PyQt6.QtCore import QTimer

from braildesk import After, Kind, Refused, requests
from braildesk.desk.changed_so_far import end_taken_back
from braildesk.desk.draft import Aim, Draft
from braildesk.desk.drafts import NotKept
from braildesk.desk.kept_lines import LinesLeft
from braildesk.protocol.requests import Command
from braildesk.text import limits
from braildesk.text.sequences import composed, parted

from scribe.window.book import Done, NotAll, NothingToTakeBack, ChosenParagraph
from scribe.window.desk import Desk, New
from scribe.window.dialogs import IsStopped, Say
from scribe.window.fields import MOST_OF_LINES, MOST_OF_ONE
from scribe.words.changes import left_behind
from scribe.words.deeds import Deed
from scribe.words.drafts import (
    beside_struck,
    changed_since,
    in_short,
    not_kept,
    what_for,
    while_struck,
    without_paragraph,
)
from scribe.words.paragraph import part_of, quoted
from scribe.words.status import Interrupted, Stop
from scribe.words.typed_last import BROUGHT, NOTHING

_NOT_YET = (
    "Nothing was taken back: what is typed isn't in the book yet. Enter keeps it, and Escape gives it"
    " up."
)
_NOT_ADDED = "This paragraph was empty, and wasn't added."
# what lines may be
_PARAGRAPHS, _ONE = "&Paragraphs", "&One paragraph"
_OF_LINES = (_PARAGRAPHS, _ONE, "&Neither")


class Typed:
    """What becomes of what is typed."""

    def __init__(self, desk: Desk, noted: Callable[[Draft], None]) -> None:
        self.desk = desk
        self._noted = noted
        self._lines = LinesLeft(None)

    def take_back(self) -> None:
        """Takes back what was typed last, or else what was done last."""
        desk, field = self.desk, self.desk.window.print
        document = field.document()
        assert document is not None
        # what was typed and taken away again may be wanted too, by who is in the print
        is_there = desk.is_typed() or desk.new or desk.window.focusWidget() is field
        if is_there and document.isUndoAvailable():
            desk.take_typed_back()
            return
        if desk.draft() is not None:
            # the book would have it for a moment, and nobody after that
            self.give_up()
            return
        if not desk.settle() or not self._is_taken_back():
            return

        try:
            desk.show_done(desk.long("Take back", self._back))
            desk.window.model.all_unread()
            # a mark in hand may stand elsewhere now than the caret, which wasn't moved
            desk.link(True)
        except NothingToTakeBack:
            said = "There is nothing that Ctrl+Z could take back."
            if self._is_corrected():
                said += (
                    " Ctrl+Shift+Z takes back the newest correction of the paragraph."
                )
            desk.refuse(said)
            desk.until_typed()

    def _is_corrected(self) -> bool:
        """Whether the chosen paragraph has a correction that wasn't taken back."""
        desk = self.desk
        if desk.reading is None:
            return False
        number = desk.chosen.id
        history = desk.asked(lambda: desk.book.session.history_of(number))
        return 2 * sum(each.kind is Kind.UNDO for each in history) < len(history)

    def _back(self, say: Say, is_stopped: IsStopped) -> Done:
        """Takes back what was done last; words that were being changed aren't any more then."""
        desk, deed = self.desk, self.desk.book.last_deed
        done = self._noted_back(say, is_stopped)
        if deed is not None and deed.wanted is not None:
            end_taken_back(desk.book.session, desk.drafts, deed.wanted)
        return done

    def _noted_back(self, say: Say, is_stopped: IsStopped) -> Done:
        """Takes back what was done last, and notes how far that is where it takes many commands."""
        desk = self.desk

        def report(done: int, count: int) -> None:
            say(f"{done:,} of {count:,} done.")
            if is_stopped():
                raise Interrupted(signal.SIGINT)

        deed, version = desk.book.last_deed, desk.book.session.last_version
        if deed is None or len(deed.back) < 2:
            return desk.book.taken_back(report)
        with suppress(NotKept):
            desk.drafts.take_back(version, len(deed.back))
        try:
            return desk.book.taken_back(report)
        finally:
            # else nobody reads how far it came
            if not desk.is_ending:
                with suppress(NotKept):
                    desk.drafts.take_back(version, 0)

    def _is_taken_back(self) -> bool:
        """Whether what was done last is taken back: of much it is asked first."""
        desk, deed = self.desk, self.desk.book.last_deed
        if deed is None or len(deed.back) < 2 or deed.is_edit:
            return True
        asked = f"The last action did this: {deed.what}. Shall all of it be taken back?"
        if deed.taken:
            asked = deed.question
        answer = desk.answer("Take back", asked, ("&Yes", "&No"))
        if answer:
            desk.say("Nothing was taken back.")
        return answer == 0

    def keep(self) -> None:
        """Keeps what is typed; after a new paragraph another one is begun."""
        if self._is_parted():
            return
        desk, new = self.desk, self.desk.new
        if new is None and not desk.is_typed():
            desk.say("The print reads as before, so there is nothing to keep.")
            desk.until_typed()
            return
        is_empty = not desk.typed_text().strip()
        if not desk.settle() or new is None:
            return
        if is_empty:
            desk.say(_NOT_ADDED)
        else:
            desk.begin_new(New(Aim.AFTER, desk.number, desk.table_of_new()))

    def _is_parted(self) -> bool:
        """Whether what is typed is too long for a paragraph, and was typed as several."""
        desk, text, most = self.desk, self.desk.typed_text(), limits.PRINT_CHARACTERS
        if not desk.is_typed() or len(desk.print_of(text)) <= most:
            return False
        lines = _pieces(text)
        if len(lines) < 2:
            return False
        asked = (
            f"A paragraph has at most {most:,} characters, and this one has {len(text):,}."
            f" Shall it go on in a new paragraph from {quoted(lines[1])} on?"
        )
        answers = ("&Yes", "&No")
        if desk.answer("A long paragraph", asked, answers):
            desk.say("It stays as it is typed. Enter asks again.")
            desk.until_typed()
        else:
            self.typed_lines(lines)
        desk.window.print.setFocus()
        return True

    def undo_here(self) -> None:
        """Takes back the newest correction of the chosen paragraph, whoever made it.

        What was typed and taken back is typed again first, as the key does by itself in the print.
        """
        desk, field = self.desk, self.desk.window.print
        if field.may_be_typed_again and desk.window.focusWidget() is not field:
            field.redo()
            # a screen reader may read once more what comes in after that
            desk.go_to(field)
            desk.say("Typed again: what was taken back last.")
            desk.until_typed()
            return
        if desk.draft() is not None:
            # it would be that correction
            desk.refuse(_NOT_YET)
            desk.until_typed()
            return
        number = desk.settled()
        try:
            desk.do(requests.Undo(number))
        except Refused as refused:
            desk.refuse(refused.sentence)
            desk.until_typed()
            return
        # as above
        desk.link(True)

    def give_up(self) -> None:
        """Gives up what is typed, which can be brought back."""
        desk = self.desk
        draft, focused = desk.draft(), desk.window.focusWidget()
        if draft is None and desk.new is not None:
            desk.leave_new()
            desk.say(_NOT_ADDED)
            return
        if draft is None:
            if desk.is_typed():
                # all of it was taken away, which is over
                desk.type_anew()
            desk.show_reading(desk.window.print.place)
            if focused is not desk.window.print:
                desk.go_back()
            return
        # of a new paragraph the print is another one
        place = 0 if desk.new else desk.as_before(desk.window.print.place)
        said = desk.given_up(draft)
        desk.new = None
        desk.type_anew()
        desk.show_reading(place)
        desk.say(said)

    def bring_back(self) -> None:
        """Asks which text that was given up is typed further."""
        desk = self.desk
        if not desk.settle():
            return
        # before it may be so no more
        desk.say_meanwhile()
        texts = desk.aside.result(desk.unsent.texts, False)
        if not texts:
            raise Stop("No text is set aside in this book.")
        names = [f"{n}. {what_for(t)}: {in_short(t)}" for n, t in enumerate(texts, 1)]
        asked = "Which text shall be typed further?"
        name = desk.one_of("Bring back a text", asked, names)
        if name is not None:
            draft = texts[names.index(name)]
            changed = self.changed_since(draft)
            # that it was given up is so no more
            desk.say("")
            try:
                desk.aside.result(lambda: desk.unsent.take_up(draft, draft), False)
            except NotKept as fault:
                # it is typed further, as anything is that can't be kept meanwhile
                desk.say(not_kept(fault))
            self.type_further(draft)
            if desk.is_typed():
                desk.say_too(changed.lstrip())

    def bring_typed(self) -> None:
        """Has a new paragraph be typed with all that keys typed last."""
        desk = self.desk
        text = desk.typed_last.bring()
        if not text:
            raise Stop(NOTHING)
        # what was said of another text isn't so of this one
        desk.say("")
        if desk.settle():
            table = desk.table_of_new()
            self.type_further(Draft(Aim.AFTER, desk.number, table, "", text))
            desk.say_too(BROUGHT)

    def changed_since(self, draft: Draft) -> str:
        """That the print at which a text was typed is another since, struck or gone; or nothing."""
        desk, row = self.desk, self.desk.contents.place(draft.paragraph)
        if row is None:
            return without_paragraph(draft)
        session, its = desk.book.session, desk.contents.paragraphs[row]
        if its.struck and draft.aim is Aim.EDIT:
            return beside_struck(its.id)
        reading, is_note = desk.reading, draft.aim is Aim.NOTE
        if reading is not None and its.id == desk.number and not is_note:
            # a text goes in there also where the book is closed
            now = reading.its.text
        else:
            now = desk.asked(lambda: session.print_of(its.id))
        changed = changed_since(draft, now)
        is_kept_out = its.struck and is_note
        return changed + while_struck(its.id) if is_kept_out else changed

    def type_further(self, draft: Draft) -> None:
        """Has a text be typed further that waits or was given up."""
        desk = self.desk
        desk.typed_last.note_again(draft)
        # until it is in its place it waits as it is
        desk.have_wait(draft)
        try:
            new = self._gone_to(draft)
        except (Refused, Stop) as stopped:
            raise Stop(f"{stopped.sentence} {desk.put_by(draft)}") from stopped
        if new is None and draft.aim is Aim.NOTE:
            self._noted(draft)
            return
        lines = [each for each in draft.text.split("\n") if each.strip()]
        if len(lines) > 1:
            self._lines_further(draft, new, lines)
            return
        desk.beside = None
        self._put_in(new, draft.text, draft.before)

    def _gone_to(self, draft: Draft) -> New | None:
        """Goes to the paragraph of a text, and gives the new one that it will be; none if it isn't."""
        desk = self.desk
        row = desk.contents.place(draft.paragraph)
        is_begun = draft.aim.is_new and "\n" not in draft.text
        if row is not None:
            desk.choose(row, is_shown=not is_begun)
        is_of_it = row is not None and not draft.aim.is_new
        if is_of_it and (draft.aim is Aim.NOTE or not desk.window.print.isReadOnly()):
            return None
        aim = draft.aim if draft.aim.is_new else Aim.AFTER
        table = draft.table if draft.table in desk.contents.tables else None
        return New(aim, desk.number, table or desk.table_of_new())

    def _put_in(self, new: New | None, text: str, before: str) -> None:
        """Has a text be typed in the chosen paragraph, from a print of it, or as a new one."""
        desk = self.desk
        if new is not None:
            desk.begin_new(new, text)
        else:
            desk.put_in(text, before)
            # a screen reader may read once more what comes in after that
            desk.window.print.setFocus()

    def _lines_further(
        self, draft: Draft, new: New | None, lines: Sequence[str]
    ) -> None:
        """Asks what lines are that wait or were given up, which wait until that is answered."""
        desk, joined = self.desk, " ".join(lines)
        if desk.is_closed:
            raise Stop(f"{desk.closed} {desk.put_by(draft)}")
        asked = f"What was typed has {len(lines):,} lines. Are they paragraphs?"
        if new is None:
            asked += f" The first goes on in paragraph {desk.number}."
        answers = [_PARAGRAPHS, _ONE, "&Give them up"]
        if len(joined) > MOST_OF_ONE:
            answers.remove(_ONE)
        answer = answers[desk.answer("Typed lines", asked, answers)]
        if desk.is_ending:
            return
        if answer == _ONE:
            desk.beside = None
            self._put_in(new, joined, draft.before)
        elif answer == _PARAGRAPHS:
            # until they are typed the first doesn't wait without the others
            self._put_in(new, lines[0], draft.before)
            self.typed_lines(lines)
        else:
            desk.say(f"Given up. The book is as it was. {desk.put_by(draft)}")

    def take_lines(self, lines: Sequence[str], is_dropped: bool = False) -> None:
        """Asks about lines that were pasted or dropped, unless something else is being done by then."""
        desk = self.desk
        if desk.is_acting:
            desk.say_after(self._put_dropped_by(lines))
        else:
            desk.acting(lambda: self.pasted(lines, is_dropped))

    def take_dropped(self, lines: Sequence[str]) -> None:
        """Asks where lines were dropped what they are, for which their program doesn't wait."""
        desk, field = self.desk, self.desk.window.print
        there, caret = (desk.number, desk.new), field.textCursor()

        def take() -> None:
            if desk.is_acting:
                self.take_lines(lines, True)
            elif (desk.number, desk.new) != there or field.isReadOnly():
                desk.refuse(self._put_dropped_by(lines))
            else:
                field.setTextCursor(caret)
                self.take_lines(lines, True)

        QTimer.singleShot(0, take)

    def _put_dropped_by(self, lines: Sequence[str]) -> str:
        """Gives up lines that can't be asked about, and says so."""
        said = "Lines were dropped while something else was being done."
        return f"{said} {self._put_lines_by(lines)}"

    def keep_dropped(self, lines: Sequence[str]) -> None:
        """Keeps lines that were dropped and are too much, as what was given up, where there is room.

        A program that was told of no copy yet takes them away from where they were, by its own guess.
        """
        desk = self.desk
        if sum(map(len, lines)) > MOST_OF_LINES:
            return
        look = lambda: [each for line in lines for each in _pieces(line) if each]
        pieces = desk.aside.result(look, False)
        if pieces:
            said = self._put_lines_by(pieces)
            (desk.say_after if desk.is_acting else desk.say_too)(said)

    def pasted(self, lines: Sequence[str], is_dropped: bool = False) -> None:
        """Asks what lines are that were pasted, or dropped, where the caret is.

        The last one is empty if the one before it was ended.
        """
        desk, field = self.desk, self.desk.window.print
        if field.isReadOnly():
            return
        table = desk.table_of_typed() or ""
        tables = desk.book.tables
        fault = desk.ahead.result(lambda: tables.first_fault(table, lines))
        how = "dropped" if is_dropped else "pasted"
        asked = f"{sum(map(bool, lines)):,} lines were {how}. Are they paragraphs?"
        said = f"{fault} {asked}".strip()
        whole, selected = desk.typed_text(), field.selected
        front, back = whole[: selected.start], whole[selected.stop :]
        is_before = self._is_before(front, lines, back)
        paragraphs = lines[:-1] if is_before else _between(front, lines, back)
        # until that is answered the lines wait as paragraphs
        self._wait(self._draft_of(paragraphs, Aim.BEFORE if is_before else None))
        answer = desk.answer(f"{how.title()} lines", said, _OF_LINES)
        if desk.is_ending:
            return
        desk.beside = None
        if answer == 0:
            if is_before:
                desk.begin_new(New(Aim.BEFORE, desk.number, desk.table_of_new()))
            self.typed_lines(paragraphs, "" if is_before else _behind(lines, back))
            return
        joined = " ".join(lines)
        count = len(front) + len(joined) + len(back)
        if answer == 1 and count <= MOST_OF_ONE:
            if not back[:1].strip():
                joined = joined.rstrip()
            field.put_in(joined)
        desk.keep_draft(desk.draft())
        if answer == 1 and count > MOST_OF_ONE:
            desk.refuse_until_typed(too_much(count, MOST_OF_ONE, is_dropped))
        if answer == 2:
            desk.say(self._put_lines_by(lines))

    def _put_lines_by(self, lines: Sequence[str]) -> str:
        """Gives up pasted lines, as paragraphs, and says so."""
        desk = self.desk
        table, text = desk.table_of_typed(), "\n".join(filter(str.strip, lines))
        draft = Draft(Aim.AFTER, desk.number, table, "", text)
        fault = desk.aside.result(lambda: desk.unsent.put_by(draft), False)
        how = fault or "Ctrl+B brings them back."
        return f"The lines aren't in the book. {how}"

    def _is_before(self, front: str, lines: Sequence[str], back: str) -> bool:
        """Whether pasted lines are before a whole paragraph, which stays as it is, with its marks."""
        is_whole = self.desk.new is None and not front and back == self.desk.before()
        return is_whole and bool(back) and not lines[-1]

    def _draft_of(self, lines: Sequence[str], aim: Aim | None = None) -> Draft:
        """Lines that become paragraphs: the first is what is typed, unless they go before that."""
        desk, new = self.desk, self.desk.new
        table, text = desk.table_of_typed() or desk.table_of_new(), "\n".join(lines)
        if aim is not None:
            return Draft(aim, desk.number, table, "", text)
        its = (new.aim, new.paragraph) if new else (Aim.EDIT, desk.number)
        before = desk.before() if new else desk.typed_from()
        return Draft(*its, table, before, text)

    def typed_lines(self, lines: Sequence[str], behind: str = "") -> None:
        """Types paragraphs: the first is what is typed, the others come after it.

        The caret is at the end of the last one then, or before what was there behind the others.
        """
        desk = self.desk
        reading, new, number = desk.reading, desk.new, desk.number
        table = desk.table_of_typed() or desk.table_of_new()
        whole = self._draft_of(lines)
        if desk.is_closed:
            # what is typed on in the print has to wait by itself
            said = f"{desk.closed} {what_for(whole)} isn't in the book. {desk.put_by(whole)}"
            desk.keep_draft(desk.draft())
            raise Stop(said)
        self._wait(whole)
        done, left = desk.book.deeds, ""
        commands: list[Callable[[int | None], Command[Any]]] = []
        if new is not None:
            after = desk.after(new)
            commands.append(
                lambda newest: requests.Type(after, table, composed(lines[0]))
            )
        elif reading is not None:
            others = whole.after_first_line(reading.its.paragraph.id)
            left = self._corrected_first(reading, lines[0], others)
            self._wait(others)
        commands += [_typed_after(number, table, line) for line in lines[1:]]
        self._typed_all(commands, done)
        desk.say_too(left)
        text = desk.window.print.text
        desk.window.print.put_caret(len(text.removesuffix(behind)))

    def _wait(self, lines: Draft | None) -> None:
        """Has lines wait until the book has them, which lacks them as it is now."""
        desk, version = self.desk, self.desk.contents.version
        desk.have_wait(lines and replace(lines, version=version))
        self._lines = LinesLeft(desk.beside)
        desk.wait_for_draft()

    def _corrected_first(
        self, reading: ChosenParagraph, line: str, others: Draft | None
    ) -> str:
        """Makes the chosen paragraph the first of some lines, which stays typed if it is refused.

        Gives what is said of the marks that this touched.
        """
        desk = self.desk
        try:
            done = desk.asked(lambda: desk.book.corrected(reading, line))
        except Refused as refused:
            desk.put_in(line)
            more = ""
            if others is not None:
                more = f"What comes after it was given up. {desk.put_by(others)}"
            desk.have_wait(None)
            desk.keep_draft(desk.draft())
            raise Stop(f"{refused.sentence} {more}".rstrip()) from refused
        if done is not None:
            desk.show_done(done)
        now = desk.reading or reading
        return left_behind(reading.its.marks, now.its.marks, now.its.paragraph.id)

    def _typed_all(
        self,
        commands: Sequence[Callable[[int | None], Command[Any]]],
        before: tuple[Deed, ...],
    ) -> None:
        """Types the lines that wait, each of which waits until the book has it.

        They are taken back together, with what was done since there were other deeds.
        """
        desk = self.desk

        def act(say: Say, is_stopped: IsStopped) -> Done:
            def report(done: int, newest: int | None) -> None:
                say(f"{part_of(done, len(commands), 'paragraph')} typed.")
                if newest is not None:
                    self._line_typed(newest)
                if is_stopped():
                    raise Interrupted(signal.SIGINT)

            return desk.book.typed_all(commands, report, before)

        try:
            done = desk.long("Paragraphs", act)
        except NotAll as part:
            raise Stop(f"{part.done:,} typed. {self._left_of(part.cause)}") from part
        desk.have_wait(None)
        desk.new = None
        desk.show_done(done)

    def _left_of(self, cause: BaseException) -> str:
        """Says why not all lines were typed, and what becomes of those that are left."""
        desk, left = self.desk, self._lines.left()
        assert left is not None
        desk.new = None
        desk.show(desk.asked(desk.book.contents), left.paragraph)
        if isinstance(cause, Refused) and not desk.is_ending:
            return f"{cause.reason} {self._first_stays(left)}"
        if not desk.is_ending:
            desk.put_by(left)
        why = getattr(cause, "sentence", "Stopped.")
        return f"{why} The others can be brought back: Ctrl+B."

    def _first_stays(self, left: Draft) -> str:
        """Has the first of some lines stay typed, which was refused, and the others be given up."""
        desk = self.desk
        first, _, others = left.text.partition("\n")
        said = "The line stays typed."
        if others:
            # no paragraph is named, so that they come after the one that is chosen by then
            rest = replace(left, aim=Aim.AFTER, paragraph=None, before="", text=others)
            said += f" What comes after it was given up. {desk.put_by(rest)}"
        desk.have_wait(None)
        table = left.table or desk.table_of_new()
        desk.begin_new(New(left.aim, left.paragraph, table), first)
        desk.keep_draft(desk.draft())
        return said

    def _line_typed(self, newest: int) -> None:
        """Has lines wait without the first of them, which is the newest paragraph now.

        It is in the thread of the session, while the window keeps nothing else.
        """
        desk = self.desk
        left = self._lines.one_typed(newest, desk.book.session.last_version)
        if left is not None:
            desk.beside = left
            with suppress(NotKept):
                desk.unsent.keep(left)


def _pieces(text: str) -> list[str]:
    """A text in pieces, of which each may be a paragraph."""
    pieces, rest = [], text
    while rest:
        first, rest = parted(rest, limits.PRINT_CHARACTERS)
        pieces.append(first)
    return pieces


def too_much(count: int, most: int, is_dropped: bool) -> str:
    """What is said where more is pasted, or dropped, than may be."""
    what, how = ("dropped", "dropped") if is_dropped else ("copied", "pasted")
    return (
        f"With what was {what} this would have {count:,} characters, and at most {most:,} can be {how}"
        " here. Nothing was typed. Save the text as a document, such as .odt or .docx: Ctrl+I imports"
        " it, with long paragraphs parted."
    )


def _between(front: str, lines: Sequence[str], back: str) -> list[str]:
    """Pasted lines between what stands before the caret and what stands after it."""
    first, *others, last = lines
    rest = last + back if last and back else last.rstrip() or back.lstrip()
    return [front + first, *others, *([rest] if rest.strip() else [])]


def _behind(lines: Sequence[str], back: str) -> str:
    """What stands after pasted lines, without its first blanks where the last line is ended."""
    return composed(back if lines[-1] else back.lstrip())


def _typed_after(
    number: int | None, table: str, line: str
) -> Callable[[int | None], Command[Any]]:
    """A new paragraph after the one that was typed last, or after another one."""

    def command(newest: int | None) -> Command[Any]:
        before = newest if newest is not None else number
        after: After = "end" if before is None else before
        return requests.Type(after, table, composed(line))

    return command
