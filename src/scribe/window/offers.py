"""What waits from before a book was opened: a text that was typed, and what was cut short."""

from collections.abc import Sequence
from pathlib import Path

from braildesk import Paragraph
from braildesk.desk.change_note import Became, ChangeNote
from braildesk.desk.changed_so_far import left_open, wanted_by
from braildesk.desk.draft import Draft
from braildesk.desk.drafts import NotKept
from braildesk.desk.earlier import PartIsThere, to_go_on
from braildesk.desk.import_note import ImportNote
from braildesk.desk.unfinished import NotSeen, Unfinished
from braildesk.text.characters import visible

from scribe.window.changing import Changing
from scribe.window.desk import Desk
from scribe.window.files import Files
from scribe.window.typed import Typed
from scribe.words.change_all import STAY, cut_short
from scribe.words.drafts import (
    in_short,
    is_in_book,
    not_kept,
    taken_back_in_part,
    typed_before,
    what_for,
    where_typed,
    words_wait,
)
from scribe.words.console import WAITING
from scribe.words.import_text import came_to, not_seen_yet, read_again
from scribe.words.links import led


class Offers:
    """Asks about what waits, at the opening."""

    def __init__(
        self, desk: Desk, typed: Typed, files: Files, changing: Changing
    ) -> None:
        self.desk = desk
        self._changing = changing
        self._typed = typed
        self._files = files

    def offer(self) -> None:
        """Asks about a text that waits from before, and about imports that were cut short."""
        desk, notices = self.desk, self._read()
        if notices:
            desk.say(notices)
        # until it is answered, whatever comes between
        desk.unsent.put_off()
        contents, session = desk.contents, desk.book.session
        numbers = {each.id for each in contents.paragraphs}
        desk.asked(
            lambda: desk.unsent.look_elsewhere(
                lambda its: session.print_of(its) if its in numbers else None
            )
        )
        desk.unsent.put_off()
        waiting = desk.unsent.waiting
        if waiting is not None:
            self._offer_first(waiting)
        contents = desk.contents
        for each in self._to_go_on(contents.paragraphs):
            match each:
                case Unfinished():
                    desk.say_too(came_to(each))
                    self._files.decide(Path(each.note.text), PartIsThere(each), True)
                case NotSeen():
                    desk.say_too(not_seen_yet(each, "Ctrl+I"))
                case NotKept():
                    desk.say_too(not_kept(each))
        self._offer_changes()
        if visible(notices) not in desk.window.message.text:
            # something was asked, and what became of that stands there
            desk.say_too(notices)

    def _to_go_on(
        self, book: Sequence[Paragraph]
    ) -> Sequence[Unfinished | NotSeen | NotKept]:
        """The imports that were cut short; a document of which one was is read again, which is said."""
        desk = self.desk

        def reading(note: ImportNote) -> None:
            desk.waits_for = read_again(note)

        try:
            return desk.asked(
                lambda: to_go_on(desk.drafts, desk.book.session, book, reading)
            )
        finally:
            desk.waits_for = WAITING

    def _read(self) -> str:
        """Reads what waits from before, and gives what is said of it before anything is asked."""
        desk = self.desk
        said = [led(desk.path)] if led(desk.path) else []
        # at once, before anything is kept of what is pressed meanwhile
        try:
            desk.aside.result(desk.drafts.take_in)
        except NotKept as fault:
            said.append(not_kept(fault))
        said += map(not_kept, desk.aside.result(desk.unsent.read))
        desk.typed_last.begin()
        if desk.unsent.came_last:
            said.append(f"{desk.unsent.came_last} Ctrl+B brings it back.")
        words = desk.aside.result(desk.drafts.words)
        if words is not None and all(words):
            said.append(f"{words_wait(words)} Ctrl+H has the words still.")
        return " ".join(said)

    def _offer_changes(self) -> None:
        """Asks about words whose change was cut short, and says how far a taking back came that was."""
        desk = self.desk
        for note, places in desk.asked(
            lambda: left_open(desk.book.session, desk.drafts)
        ):
            self._offer_change(note, [became for _, became in places])
        desk.say_too(taken_back_in_part(desk.drafts, desk.contents.version))

    def _offer_change(self, note: ChangeNote, now: Sequence[Became]) -> None:
        """Asks about words of which not all places were changed."""
        desk = self.desk
        asked = f"{cut_short(note, now)} Shall the others be changed?"
        answers = ("&Yes", "Leave the &rest", "&Later")
        answer = desk.offered("Change everywhere", asked, answers)
        if answer == 0:
            self._changing.go_on(wanted_by(note, desk.book.by))
        elif answer == 1:
            desk.drafts.end_change(note)
            desk.say(STAY)

    def _offer_first(self, waiting: Draft, said: str = "") -> None:
        """Asks about the first text that waits and isn't in the book: others were left for later."""
        desk, contents = self.desk, self.desk.contents
        # until it is answered, whatever comes between
        desk.unsent.put_off()
        where = desk.asked(lambda: desk.book.where_kept(contents, waiting))
        rest: Draft | None = waiting
        if where:
            rest = desk.asked(lambda: desk.book.unkept(contents, waiting))
        if rest is not None:
            self._offer_text(waiting, rest, said)
            return
        desk.unsent.take_on(waiting)
        desk.keep_draft(None)
        desk.wait_for_draft()
        numbers = [each.id for each in contents.paragraphs]
        said = f"{said} {is_in_book(waiting, where, numbers)}".lstrip()
        following = desk.unsent.waiting
        if following is None or following == waiting:
            desk.say(said)
        else:
            self._offer_first(following, said)

    def _offer_text(self, offered: Draft, waiting: Draft, said: str) -> None:
        """Asks about a text that waits, of which some may be in the book, after something is said."""
        desk = self.desk
        same = desk.asked(lambda: desk.book.reads_the_same(desk.contents, waiting))
        asked = (
            f"{said} {what_for(waiting)} {typed_before(same)}: {in_short(waiting)}."
            f"{where_typed(desk.unsent.typed_at)}{self._typed.changed_since(waiting)}"
            " Shall it be typed further?"
        ).lstrip()
        answers = ("&Type it further", "&Give it up", "&Later")
        answer = desk.offered("Unsent text", asked, answers)
        if answer < 2:
            desk.unsent.take_on(offered)
        if answer == 0:
            self._typed.type_further(waiting)
        elif answer == 1:
            desk.say(f"Given up. The book is as it was. {desk.put_by(waiting)}")
        else:
            if waiting != offered:
                # the lines that the book has don't wait any more
                desk.unsent.take_on(offered)
                desk.keep_draft(waiting)
                desk.wait_for_draft()
                desk.unsent.put_off()
            desk.say(
                "The text waits. Ctrl+B asks about it, and so does an opening at which no newer"
                " one waits."
            )
