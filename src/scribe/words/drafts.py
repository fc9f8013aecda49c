"""What a person began and the book doesn't have yet, in words, what becomes of it, and why it isn't kept."""

from collections.abc import Callable, Iterable, Sequence
from contextlib import suppress
from dataclasses import replace
from os.path import commonprefix
from pathlib import Path
from time import time_ns

from braildesk.desk.draft import Aim, Draft, Unread, written
from braildesk.desk.drafts import (
    Begun,
    Drafts,
    NotAsKept,
    NotKept,
    NotRead,
    NotSaved,
    NotTaken,
)
from braildesk.protocol.sentences import of_failure
from braildesk.text import limits
from braildesk.text.characters import visible

from scribe.words.paragraph import counted, quoted

_BEGUN = {
    Begun.WAITING: "What is typed",
    Begun.LATER: "What is left for later",
    Begun.GIVEN_UP: "What is given up",
    Begun.IMPORTS: "How far the import comes",
    Begun.REPLACEMENTS: "What stands in the place of other characters",
    Begun.LEFT_AT: "Where the book is left",
    Begun.CUT: "What is cut out of it",
    Begun.UNREAD: "What is typed meanwhile",
    Begun.WORDS: "What is typed to change words",
    Begun.ANSWERS: "What is typed as an answer",
    Begun.LINES: "What is typed at the prompt",
    Begun.CHANGES: "How far the change of words comes",
    Begun.BACK: "How far the taking back comes",
    Begun.TYPED_LAST: "What is typed last",
}
# where a text is that can't be kept among those given up
_HERE_ONLY = "It is here only until scribe ends."
_WAITS_ON = "It waits still, and the next opening asks about it."


def taken_back_in_part(drafts: Drafts, version: int) -> str:
    """How far the taking back of many changes came that was cut short, in a book of a version.

    Something else may have changed the book since. It is said once, or nothing if nothing is known.
    """
    begun, count = drafts.taken_back() or (version, 0)
    done = version - begun
    # an older file may be there for a while, as one from a backup
    if not count or done < 0:
        return ""
    with suppress(NotKept):
        drafts.take_back(version, 0)
    if done >= count:
        return ""
    were = "was" if done == 1 else "were"
    most = f"at most {done:,} of them {were}" if done else "none of them was"
    return f"Taking back {count:,} changes was cut short: {most} taken back."


def what_for(draft: Draft) -> str:
    """What a text was typed for."""
    if draft.aim is Aim.NOTE:
        return f"A note for a mark in paragraph {draft.paragraph}"
    if draft.aim.is_new:
        return "A text of a new paragraph"
    return f"A text of paragraph {draft.paragraph}" if draft.paragraph else "A text"


def in_short(draft: Draft) -> str:
    """The first words of a text, or those from where it isn't as the print where it was typed was.

    Of two texts of a long paragraph the first words are the same.
    """
    text = draft.joined
    first, same = quoted(text), len(commonprefix((text, draft.before)))
    is_seen = first == f"“{visible(text)}”" or same < len(first) - len("“…”")
    if draft.aim is not Aim.EDIT or is_seen:
        return first
    # a word that is another one in its middle is told whole
    return quoted(f"… {text[text.rfind(' ', 0, same) + 1 :]}")


def changed_since(draft: Draft, now: str) -> str:
    """That a print has been changed since a text was typed there, after a blank; or nothing.

    Of a note nothing is said if its words are there still; else they are named.
    """
    if draft.aim.is_new or now == draft.before or draft.words_in(now):
        return ""
    its = draft.words
    words = draft.before[its.start : its.stop] if its else ""
    was_for = f" The note was typed for {quoted(words)}." if words else ""
    return f" The print there has been changed since.{was_for}"


def without_paragraph(draft: Draft) -> str:
    """What becomes of a text whose paragraph the book doesn't have, after a blank; or nothing."""
    if draft.aim.is_new:
        return ""
    number = draft.paragraph
    why = f"The book has no paragraph {number}, so it" if number else "It"
    return f" {why} would be a new paragraph."


def beside_struck(number: int) -> str:
    """What becomes of a text whose paragraph is struck by now, after a blank."""
    return f" Paragraph {number} is struck, so it would be a new paragraph."


def typed_before(same: int | None) -> str:
    """What became of a text that waits: the book doesn't have it, or a paragraph reads the same."""
    if same is None:
        return "was typed and isn't in the book"
    return f"was typed, and paragraph {same} reads the same"


def while_struck(number: int) -> str:
    """That a paragraph for which a text was typed is struck by now, after a blank."""
    return (
        f" Paragraph {number} is struck, so nothing goes in there until it is restored."
    )


def as_paragraphs(numbers: Sequence[int], count: int) -> str:
    """That a text is in the book as so many of its newest paragraphs, of these numbers; or nothing."""
    newest = sorted(numbers)[-count:] if count else []
    if len(newest) < 2:
        return f"as paragraph {newest[0]}" if newest else ""
    return f"as the paragraphs {newest[0]} to {newest[-1]}"


def is_in_book(draft: Draft, where: str, numbers: Sequence[int]) -> str:
    """That what was typed last is in the book: where, and what came after the print of a paragraph."""
    more = 0 if draft.aim.is_new else draft.text.count("\n")
    after = f", and {as_paragraphs(numbers, more)}" if more else ""
    text = quoted(draft.joined)
    return f"What was typed last is in the book, {where}{after}: {text}."


def came_last(text: str) -> str:
    """That a text which came while nothing could be done with it is among those given up."""
    joined = text.replace("\n", " ")
    return f"What was typed while scribe was busy is set aside: {quoted(joined)}."


def typed_by_others(text: str) -> str:
    """That a text which was typed in another session of the book is among those given up."""
    return f"What was typed elsewhere meanwhile is set aside: {quoted(text)}."


def typed_at_offer(text: str) -> str:
    """That a text which was typed where something was asked is among those given up."""
    joined = text.replace("\n", " ")
    return f"What was typed at the question is set aside: {quoted(joined)}."


def typed_unasked(text: str) -> str:
    """That a text is given up which was typed at a question, or where lines were read, before a kill.

    Which of these it was isn't known any more.
    """
    joined = text.replace("\n", " ")
    return f"What was typed where no text was asked for is set aside: {quoted(joined)}."


def typed_at_lines(text: str) -> str:
    """That a text which was typed where lines were read is among those given up."""
    joined = text.replace("\n", " ")
    return f"What was typed where lines were read is set aside: {quoted(joined)}."


def typed_meanwhile(text: str) -> str:
    """That a text which another program typed before another paragraph was shown is given up."""
    return f"What was typed before this was shown is set aside: {quoted(text)}."


def typed_and_taken_back(draft: Draft) -> str:
    """That a text which was typed and taken back is given up, since no key types it again."""
    return f"What was typed and taken back is set aside: {in_short(draft)}."


def typed_below(text: str) -> str:
    """That a text which another program typed while a dialog was open over its place is given up."""
    return f"What was typed below the dialog is set aside: {quoted(text)}."


def typed_there(text: str) -> str:
    """That a text which another program typed where nothing can be typed is given up."""
    return f"What was typed there is set aside: {quoted(text)}."


def words_wait(words: tuple[str, str]) -> str:
    """That words were typed to take the place of others, of which nothing was said after that."""
    old, new = words
    what = f" to {quoted(new)}" if new else ""
    return f"{quoted(old)} was to be changed{what}, which may not be done."


def where_typed(book: Path | None) -> str:
    """What is said of a text that was typed while its book was elsewhere; nothing if it was here."""
    return f" It was typed when the book was {book}." if book else ""


def not_kept(fault: NotKept) -> str:
    """The sentence for what can't be kept, or can't be read."""
    match fault:
        case NotTaken(path=path, why=why):
            return (
                f"{path} isn't taken as a text that waits for the book: {why}. It was left as it"
                " is. If you don't need it, remove it."
            )
        case NotAsKept(path=path, aside=aside):
            kept = f"It is kept as {aside}."
            if isinstance(aside, OSError):
                kept = f"It can't be set aside: {of_failure(aside)}."
            return (
                f"{path} can't be read as what scribe kept there for the book. {kept} The book is"
                " as it was."
            )
        case NotRead(path=path, cause=cause):
            return f"{path} can't be read: {cause.strerror}."
        case NotSaved():
            return _not_saved(fault)
    raise TypeError(f"no sentence for {fault!r}")


def _not_saved(fault: NotSaved) -> str:
    what, folder, why = _BEGUN[fault.what], fault.folder, of_failure(fault.cause)
    if fault.is_out:
        return f"{what} can't be taken out of {folder}: {why}."
    where = f" in {folder}" if folder.is_absolute() else ""
    return f"{what} can't be kept{where}: {why}."


class Unsent:
    """What is kept of texts while they are typed, and once they aren't typed further."""

    def __init__(self, drafts: Drafts) -> None:
        self._drafts = drafts
        #: The text that waits, which is offered at the next opening.
        self.waiting: Draft | None = None
        #: Where the book was as that was kept, if it was moved since.
        self.typed_at: Path | None = None
        #: What was last cut out of a text that was typed, which is put in again by a key.
        self.cut = ""
        #: What was last typed where something is asked, by its name, and words that were to be changed.
        self.answers: dict[str, str] = {}
        self.words: tuple[str, str] = ("", "")
        #: That what came before the last end while nothing could be done with it is given up now.
        self.came_last = ""
        self._unread: Unread | None = None
        # the texts that were left for later, the newest first, which waits again once no other one does
        self._later: tuple[Draft, ...] = ()
        # those of them that don't wait by now
        self._put_off: tuple[Draft, ...] = ()
        # whether a text waits that can't be read, in the place of which none is put that isn't typed
        self._is_hidden = False
        # what was given up and couldn't be kept, the newest first
        self._here: list[Draft] = []
        # when a text was last given up or left for later
        self._left = 0
        #: What was said of that, until it isn't so any more.
        self.unkept_said = ""
        # what was given up before and had no room any more, the newest first
        self._older: tuple[Draft, ...] = ()
        # what is typed further and wasn't taken out of those given up yet
        self._taken_up: list[Draft] = []

    def read(self) -> tuple[NotKept, ...]:
        """Reads what waits from before, and gives what of it can't be read."""
        self.cut = self._drafts.cut()
        self.answers = self._drafts.answers()
        self.words = self._drafts.words() or ("", "")
        faults: list[NotKept] = []
        for each in (self._read_waiting, self._read_later, self._read_unread):
            try:
                each()
            except NotKept as fault:
                # of a folder that can't be read it is said once
                is_known = any(isinstance(its, NotRead) for its in faults)
                if not (is_known and isinstance(fault, NotRead)):
                    faults.append(fault)
        return tuple(faults)

    def _read_waiting(self) -> None:
        try:
            self.waiting = self._drafts.waiting()
        except NotRead:
            self._is_hidden = True
            raise
        self.typed_at = self._drafts.typed_at()

    def _read_later(self) -> None:
        self._put_off = self._drafts.later()
        self._later = tuple(each for each in self._put_off if each != self.waiting)
        self._left = max((each.left or 0 for each in self._put_off), default=0)

    def others(self) -> tuple[Draft, str] | None:
        """Gives up the text that another session had wait while the book wasn't open here, if one did.

        It is given with what is in the way of that. What waits here is kept anew in its place.
        """
        its = self.waiting
        with suppress(NotKept):
            found = self._drafts.waiting()
            if found == its or found and its and found.is_same_as(its):
                return None
            is_left = found in (*self._later, *self._put_off)
            # until what waits here is kept in its place
            self.waiting = found
            # what is left for later only here was typed further, or given up, in the other session
            self._read_later()
            if found and is_left:
                self._later = tuple(dict.fromkeys((found, *self._later)))
            theirs = None if is_left else found
            how = self.put_by(theirs, is_theirs=True) if theirs else ""
            with suppress(NotKept):
                self.keep(its)
            return (theirs, how) if theirs else None
        # what can't be read or kept is said where something is kept
        return None

    def look_elsewhere(self, print_of: Callable[[int], str | None]) -> None:
        """Has a text wait that was typed at a print of this book, where no book is any more."""

        def is_of_book(draft: Draft) -> bool:
            number, before = draft.paragraph, draft.before
            return bool(before) and number is not None and print_of(number) == before

        with suppress(NotKept, OSError):
            if self.waiting is None:
                self._drafts.adopt_if(is_of_book)
                self.waiting = self._drafts.waiting()
                self.typed_at = self._drafts.typed_at()

    def _read_unread(self) -> None:
        """Has what came last go on after the text that waits, or else be among those given up."""
        unread = self._drafts.unread()
        if unread is None:
            return
        text, waiting = unread.text_of_all, self.waiting
        if waiting is not None and waiting.aim is not Aim.NOTE and unread.lines:
            whole = replace(waiting, text=f"{waiting.text}\n{unread.lines}")
            self._drafts.save(whole)
            self.waiting, text = whole, unread.rest.text
        if text:
            draft = self._left_now(replace(unread.rest, text=text))
            try:
                self._older = self._drafts.put_by(draft)
            except NotKept:
                # it stays where it came, too, without the lines that go on
                self._here.insert(0, draft)
                self._drafts.keep_unread(replace(unread, lines="", rest=draft))
                raise
            said = typed_unasked if unread.is_at_offer else came_last
            self.came_last = said(text)
        self._unread = unread
        self.keep_unread(None)

    def keep_unread(self, unread: Unread | None) -> None:
        """Keeps what came while nothing can be done with it, or nothing; may raise `NotKept`."""
        if unread != self._unread:
            if self._unread is None:
                self._give_up_unread()
            self._drafts.keep_unread(unread)
            self._unread = unread

    def _give_up_unread(self) -> None:
        """Gives up what came in another session of the book, which ended before it took that in."""
        # nothing else is done about what can't be read
        with suppress(NotKept):
            its = self._drafts.unread()
            if its is not None:
                self.put_by(replace(its.rest, text=its.text_of_all))

    def keep(self, typed: Draft | None) -> None:
        """Has what is typed wait, or what was left for later, or nothing; may raise `NotKept`."""
        self._keep_here()
        if typed not in (None, self.waiting) and self.waiting in self._here:
            # what couldn't be kept elsewhere waits on, also where another text comes in its place
            self._later = (self.waiting, *_without(self.waiting, self._later))
        wanted, its = typed or self._next(), self.waiting
        is_moved = wanted and its and wanted.place != its.place
        if wanted != its or is_moved:
            self._have_wait(wanted)
        # after that: one that waits by now is among them until it does
        self._keep_later(each for each in self._later if each != wanted)
        with suppress(NotKept):
            self._take_out()

    def see_kept(self) -> None:
        """Has what waits be kept again at the next keeping, if others took away what it was kept in."""
        if self._is_hidden or self.waiting in self._here:
            return
        with suppress(NotKept):
            if self._drafts.waiting() is None:
                self.waiting = None

    def _next(self) -> Draft | None:
        """The text that waits once nothing is typed: of those that were left for later the newest."""
        if self._is_hidden or self.waiting in self._here:
            # what couldn't be kept elsewhere waits on
            return self.waiting
        return next(iter(self._later), None)

    def _have_wait(self, wanted: Draft | None) -> None:
        """Has a text wait in place of the one that did, or none; may raise `NotKept`."""
        before = self.waiting
        self._give_up_others(before, wanted)
        if wanted is None:
            self._drafts.clear()
        else:
            if before in self._later and before not in self._put_off:
                self._keep_beside(before)
            self._drafts.save(wanted)
        self.waiting, self.typed_at, self._is_hidden = wanted, None, False

    def _give_up_others(self, *own: Draft | None) -> None:
        """Gives up a text that another session has wait by now, before it is written over.

        So it is where one of the two was lost, and more is typed in both.
        """
        known = [each for each in (*own, *self._later, *self._put_off) if each]
        found = self._drafts.seen_waiting()
        if found and found.text not in (written(each.text) for each in known):
            self.put_by(found, is_theirs=True)

    def _keep_beside(self, draft: Draft) -> None:
        """Keeps a text that is left for later where it is found if the machine stops before it waits again.

        Where those that are have no room for it, it is among those given up; may raise `NotKept`.
        """
        try:
            self._keep_later([draft, *self._put_off])
        except NotSaved as fault:
            try:
                older = self._drafts.put_by(draft)
            except NotKept:
                # what comes in its place isn't kept either
                of_typed = Begun.WAITING, fault.folder, fault.cause, fault.is_out
                raise NotSaved(*of_typed) from fault
            self._older = (*older, *self._older)

    def _keep_later(self, texts: Iterable[Draft]) -> None:
        """Keeps the texts that were left for later and don't wait; may raise `NotKept`."""
        put_off = tuple(texts)
        if put_off != self._put_off:
            self._drafts.keep_later(put_off)
            self._put_off = put_off

    def _keep_here(self) -> None:
        """Tries again to keep what was given up and couldn't be kept, the oldest first."""
        while self._here:
            try:
                older = self._drafts.put_by(self._here[-1])
            except NotKept:
                return
            self._older = (*older, *self._older)
            self._forget(self._here.pop())

    def keep_again(self) -> str:
        """Tries again to keep what was given up, and gives what was said of it and isn't so any more."""
        self._keep_here()
        if self._here:
            return ""
        said, self.unkept_said = self.unkept_said, ""
        return said

    @property
    def unkept(self) -> tuple[str, ...]:
        """The texts that were given up and are kept nowhere, the newest first."""
        # one that waits is where it was kept before, or among those left for later
        elsewhere = (self.waiting, *self._put_off)
        return tuple(each.text for each in self._here if each not in elsewhere)

    def keep_cut(self, text: str) -> None:
        """Keeps what was last cut out of a text, or nothing; may raise `NotKept`."""
        if text != self.cut:
            self._drafts.keep_cut(text)
            self.cut = text

    def keep_answers(self, answers: dict[str, str], words: tuple[str, str]) -> None:
        """Keeps what was typed where something is asked, and words that are to be changed.

        May raise `NotKept`.
        """
        if answers != self.answers:
            self._drafts.keep_answers(answers)
            self.answers = answers
        if words != self.words:
            self._drafts.keep_words(*words)
            self.words = words

    def waits(self, draft: Draft) -> bool:
        """Whether a text is the one that waits, or lines at its end."""
        its = self.waiting
        is_end = its is not None and its.text.endswith(f"\n{draft.text}")
        return is_end or its is not None and its.is_same_as(draft)

    def put_by(self, draft: Draft, is_theirs: bool = False) -> str:
        """Keeps a text as the newest of those given up, and says what is in the way of that.

        That which another session types takes the place of its own earlier state there.
        """
        draft = self._left_now(draft)
        self._forget(draft)
        self._here = _without(draft, self._here)
        self._taken_up = _without(draft, self._taken_up)
        its = self._drafts
        try:
            older = its.put_by_theirs(draft) if is_theirs else its.put_by(draft)
        except NotKept as fault:
            self._here.insert(0, draft)
            where = _WAITS_ON if draft == self.waiting else _HERE_ONLY
            self.unkept_said = f"{not_kept(fault)} {where}"
            return self.unkept_said
        self._older = (*older, *self._older)
        if not older:
            return ""
        count, is_are = counted(len(older), "text"), "is" if len(older) == 1 else "are"
        return (
            f"It is kept. {count} given up before {is_are} kept no more for lack of room, and"
            f" {is_are} here only until scribe ends."
        )

    def put_off(self) -> None:
        """Leaves the text that waits for later."""
        if self.waiting is not None:
            others = (each for each in self._later if each != self.waiting)
            self.waiting = self._left_now(self.waiting)
            self._later = (self.waiting, *others)

    def _left_now(self, draft: Draft) -> Draft:
        """A text as it is given up or left for later now, which is after all that are known here."""
        self._left = min(max(self._left + 1, time_ns() // 1_000_000), limits.NUMBER)
        return replace(draft, left=self._left)

    def take_on(self, draft: Draft) -> None:
        """A text that was left for later isn't any more: it is typed further, or nobody wants it."""
        self._forget(draft)

    def take_up(self, draft: Draft, before: Draft) -> None:
        """Has a text be typed further, which was given up or left for later; may raise `NotKept`.

        It may be for another place by now than it was before.
        """
        self._forget(before)
        # it isn't given up any more, whether or not it can be kept while it is typed
        self._here = _without(before, self._here)
        self._older = tuple(_without(before, self._older))
        self._taken_up = [before, *_without(before, self._taken_up)]
        self.keep(draft)
        self._take_out()

    def _take_out(self) -> None:
        """Takes what is typed further out of those given up, while all are kept; may raise `NotKept`."""
        for draft in () if self._here else tuple(self._taken_up):
            self._drafts.take_out(draft)
            self._taken_up = _without(draft, self._taken_up)

    def _forget(self, draft: Draft) -> None:
        """A text that was left for later isn't any more."""
        self._later = tuple(_without(draft, self._later))

    def texts(self) -> tuple[Draft, ...]:
        """The texts that are left for later, and those given up: what was done last with one first."""
        first = [*self._later, *self._here]
        try:
            kept = self._drafts.given_up()
        except NotKept:
            if not first:
                raise
            kept = ()
        found: dict[object, Draft] = {}
        out = {each.known_by for each in self._taken_up}
        kept = tuple(each for each in kept if each.known_by not in out)
        texts = (*first, *kept, *self._older)
        for each in sorted(texts, key=lambda its: -(its.left or 0)):
            # of those that are the same it is the newest
            found.setdefault(each.known_by, each)
        return tuple(found.values())


def _without(draft: Draft, texts: Iterable[Draft]) -> list[Draft]:
    """Texts without those that are the same as another one."""
    return [each for each in texts if not each.is_same_as(draft)]
