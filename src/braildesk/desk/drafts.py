"""What a person began for a book and the book doesn't have yet, kept in a folder of their own.

The folder is `braildesk` under `XDG_STATE_HOME`, else under `~/.local/state`, and not beside the
book: a book may come from anybody and lie where others write. Files there are named by the book's
path; they say that path, and the identity of the book's file.
"""

import json
import os
from collections.abc import Callable, Mapping, Sequence
from contextlib import suppress
from dataclasses import asdict, dataclass, replace
from enum import Enum
from itertools import chain, count
from pathlib import Path
from typing import TYPE_CHECKING, TypeVar

from braildesk.desk import Problem
from braildesk.desk.change_note import ChangeNote, change_note_in
from braildesk.desk.draft import Draft, Unread, draft_in, unread_in, written
from braildesk.desk.identity import Identity, identity_of
from braildesk.desk.import_note import ImportNote, Pairs, note_in, pairs_in, values_of
from braildesk.desk.own_folder import (
    MOST_BYTES,
    IsFolder,
    OthersFolder,
    OwnFolder,
    TooLong,
    Unfit,
    bytes_of,
    opened,
    state_folder,
)
from braildesk.desk.record import NotSuch, Record
from braildesk.protocol.asked import BookFile
from braildesk.protocol.value import Value

if TYPE_CHECKING:
    from braildesk.desk.change_all import Replacement

try:
    # which is loaded in less time than what has all digests, as the library's own random does it
    from _sha256 import sha256  # type: ignore[import]
except ImportError:
    from hashlib import sha256

#: How many texts that were given up are kept for a book.
MOST_GIVEN_UP = 10
#: How many lines that were broken off are kept for a book beside those that were broken off last.
MOST_LINES = 10
#: How many characters are kept of what was typed last.
MOST_TYPED_LAST = 10_000
_Kept = TypeVar("_Kept")


class Begun(Enum):
    """What is kept for a book: each has a file, whose name ends so."""

    WAITING = "unsent"
    LATER = "later"
    GIVEN_UP = "given-up"
    IMPORTS = "imports"
    REPLACEMENTS = "replacements"
    LEFT_AT = "left-at"
    CUT = "cut"
    UNREAD = "unread"
    WORDS = "words"
    ANSWERS = "answers"
    LINES = "lines"
    CHANGES = "changes"
    BACK = "back"
    TYPED_LAST = "typed-last"


@dataclass(frozen=True, eq=False, repr=False)
class LeftAt(Value):
    """Where a book was left: the character or the cell of the cursor, and how the screen was.

    The book was at a version then, which a scribe of before didn't note.
    """

    paragraph: int
    place: int
    is_in_cells: bool = False
    is_quiet: bool = False
    has_dots: bool = False
    version: int | None = None


class NotKept(Problem):
    """Something can't be kept, or what was kept can't be read."""


class NotTaken(NotKept):
    """A file beside the book, which an older scribe may have left, stays where it is, and why."""

    def __init__(self, path: Path, why: str) -> None:
        super().__init__(path, why)
        self.path = path
        self.why = why


class NotRead(NotKept):
    """What was kept in a file, or in the folder of another user, can't be read by its cause."""

    def __init__(self, path: Path, cause: OSError) -> None:
        super().__init__(path, cause)
        self.path = path
        self.cause = cause


class NotAsKept(NotKept):
    """A file has something else than was kept there; it is set aside by a name, or can't be."""

    def __init__(self, path: Path, aside: str | OSError) -> None:
        super().__init__(path, aside)
        self.path = path
        self.aside = aside


class NotSaved(NotKept):
    """Something can't be kept in a folder, if one is known, or can't be taken out of it."""

    def __init__(self, what: Begun, folder: Path, cause: OSError, is_out: bool) -> None:
        super().__init__(what, folder, cause, is_out)
        self.what = what
        self.folder = folder
        self.cause = cause
        self.is_out = is_out


class Drafts:
    """What is kept for one book: texts that wait or were given up, and what is noted of imports."""

    def __init__(self, book: Path) -> None:
        self.book = Path(BookFile.of(book).real)
        self._key = sha256(os.fsencode(self.book)).hexdigest()[:32]
        self._folder = OwnFolder(state_folder())
        # what is kept is known by this, also once the book is moved away, or another file put there
        self._file = identity_of(self.book)
        #: The text that waits and was copied for another book.
        self._copied: Draft | None = None
        # those that are left for later and were copied so
        self._copied_later: tuple[Draft, ...] = ()
        # what is kept for other books as it was copied, by the names of its files
        self._as_copied: dict[str, bytes | None] = {}
        # the books for which this was copied, as they were then: they may be moved on
        self._others: dict[Path, Drafts] = {}
        # what another session typed, as it was given up here last
        self._theirs: Draft | None = None

    def see_file(self) -> None:
        """Sees which file the book is, once that is opened: what is kept from now on is kept for it."""
        self._file = identity_of(self.book) or self._file

    @property
    def place(self) -> Path:
        """The file of the text that waits."""
        return self._folder.path / self._name(Begun.WAITING)

    def waiting(self) -> Draft | None:
        """The text that waits, none if there is none."""
        return self._read(Begun.WAITING, draft_in)

    def seen_waiting(self) -> Draft | None:
        """The same, where what can't be read is no fault, and stays where it is."""
        try:
            kept = self._folder.read(self._name(Begun.WAITING))
            return None if kept is None else draft_in(Record.of(kept))
        except (NotSuch, OSError):
            return None

    def typed_at(self) -> Path | None:
        """Where the book was as the text that waits was kept, if that isn't where it is now."""
        try:
            kept = self._folder.read(self._name(Begun.WAITING))
            path = None if kept is None else Path(Record.of(kept).path("book"))
        except (NotSuch, OSError):
            return None
        return None if path == self.book else path

    def save(self, draft: Draft) -> None:
        """Has a text wait, in place of the one that did."""
        self._write(Begun.WAITING, draft.values())

    def clear(self) -> None:
        """Takes away the text that waits: the book has it, or nobody wants it."""
        self._remove(Begun.WAITING)

    def later(self) -> tuple[Draft, ...]:
        """The texts that wait until no other one does, the newest first."""
        return self._read(Begun.LATER, _drafts_in) or ()

    def keep_later(self, texts: Sequence[Draft]) -> None:
        """Has texts wait so, in place of those that did."""
        if texts:
            self._write(Begun.LATER, {"texts": [each.values() for each in texts]})
        else:
            self._remove(Begun.LATER)

    def put_by(self, draft: Draft, earlier: Draft | None = None) -> tuple[Draft, ...]:
        """Keeps a text as the newest of the last ten given up; the one that waits stays.

        An earlier state of it is kept no more, unless it was given up by itself since. Those of the ten
        for which there is no room aren't kept any more either, and are the result.
        """
        others = [
            each
            for each in self.given_up()
            if not each.is_same_as(draft)
            if earlier is None or (each, each.left) != (earlier, earlier.left)
        ]
        texts = (draft, *others)[:MOST_GIVEN_UP]
        values = [each.values() for each in texts]
        while len(values) > 1 and len(json.dumps(values)) > MOST_BYTES // 2:
            values.pop()
        self._write(Begun.GIVEN_UP, {"texts": values})
        return texts[len(values) :]

    def put_by_theirs(self, draft: Draft) -> tuple[Draft, ...]:
        """Keeps so what another session typed, in place of that from which it was typed on there."""
        is_known = any(each.is_same_as(draft) for each in self.given_up())
        before = self._theirs
        is_on = before is not None and draft.is_typed_on_from(before)
        older = self.put_by(draft, before if is_on else None)
        # what was given up before by itself stays
        self._theirs = None if is_known else draft
        return older

    def take_out(self, draft: Draft) -> None:
        """Takes a text out of those given up: it is typed further, and waits until it is sent."""
        texts = self.given_up()
        others = [each.values() for each in texts if not each.is_same_as(draft)]
        if len(others) < len(texts):
            self._write(Begun.GIVEN_UP, {"texts": others})

    def given_up(self) -> tuple[Draft, ...]:
        """The texts that were given up, the newest first."""
        return self._read(Begun.GIVEN_UP, _drafts_in) or ()

    def imports(self) -> tuple[ImportNote, ...]:
        """The imports that were begun and haven't come to their end, the newest first."""
        return self._read(Begun.IMPORTS, _notes_in) or ()

    def left_at(self) -> LeftAt | None:
        """Where the book was left, none if that isn't known; what can't be read is no fault."""
        try:
            data = self._folder.read(self._name(Begun.LEFT_AT))
            if data is None:
                return None
            kept = Record.of(data)
            found, identity = _left_at_in(kept), identity_of(self.book)
        except (NotSuch, OSError):
            return None
        # in another file the same version may be of something else
        is_its = identity is not None and identity.is_in(kept)
        return found if is_its else replace(found, version=None)

    def leave_at(self, place: LeftAt) -> None:
        """Keeps where the book is left; where that can't be kept, it isn't known where it was."""
        try:
            self._write(Begun.LEFT_AT, asdict(place))
        except NotSaved:
            # the place from before isn't that at which it was left
            with suppress(NotKept):
                self._remove(Begun.LEFT_AT)

    def cut(self) -> str:
        """What was cut out of a text and not put in again; what can't be read is no fault."""
        try:
            data = self._folder.read(self._name(Begun.CUT))
            return "" if data is None else Record.of(data).text("text")
        except (NotSuch, OSError):
            return ""

    def keep_cut(self, text: str) -> None:
        """Keeps what was cut out of a text, in place of what was; nothing is kept of no text."""
        if text:
            self._write(Begun.CUT, {"text": written(text)})
        else:
            self._remove(Begun.CUT)

    def typed_last(self) -> str:
        """What keys typed last, whatever became of it; what can't be read is no fault."""
        try:
            data = self._folder.read(self._name(Begun.TYPED_LAST))
            text = "" if data is None else Record.of(data).text("text")
            return text[-MOST_TYPED_LAST:]
        except (NotSuch, OSError):
            return ""

    def keep_typed_last(self, text: str) -> None:
        """Keeps what keys typed last, in place of what was."""
        self._write(Begun.TYPED_LAST, {"text": written(text)})

    def unread(self) -> Unread | None:
        """What came while nothing could be done with it, none if nothing did."""
        return self._read(Begun.UNREAD, unread_in)

    def keep_unread(self, unread: Unread | None) -> None:
        """Keeps what came while nothing can be done with it, or takes away what was kept."""
        if unread is not None:
            self._write(Begun.UNREAD, unread.values())
        else:
            self._remove(Begun.UNREAD)

    def words(self) -> tuple[str, str] | None:
        """Words that were to be changed, and those in their place; what can't be read is no fault."""
        try:
            data = self._folder.read(self._name(Begun.WORDS))
            if data is None:
                return None
            kept = Record.of(data)
            return kept.text("old"), kept.text("new")
        except (NotSuch, OSError):
            return None

    def keep_words(self, old: str, new: str) -> None:
        """Keeps words that are to be changed, and those in their place; nothing is kept of none."""
        if old or new:
            self._write(Begun.WORDS, {"old": written(old), "new": written(new)})
        else:
            self._remove(Begun.WORDS)

    def changes(self) -> tuple[ChangeNote, ...]:
        """Words that were being changed wherever they stand, the newest first.

        What can't be read is no fault.
        """
        try:
            data = self._folder.read(self._name(Begun.CHANGES))
            return () if data is None else _changes_in(Record.of(data))
        except (NotSuch, OSError):
            return ()

    def has_changes_of_file(self) -> bool:
        """Whether such words were noted for the file at the path, and not for one that was there before."""
        identity = identity_of(self.book)
        try:
            kept = Record.of(self._folder.read(self._name(Begun.CHANGES)) or b"")
            return identity is not None and identity.is_in(kept)
        except (NotSuch, OSError):
            return False

    def begin_change(self, note: ChangeNote) -> None:
        """Notes words before the first place is changed, in place of what was noted of the same places.

        They don't wait any more then, as they were typed.
        """
        self._note_changes((note, *self._changes_beside(note)))
        if self.words() == (note.old, note.new):
            self.keep_words("", "")

    def end_change(self, its: "ChangeNote | Replacement") -> None:
        """Takes away what is noted of the places of words: all are done, or nobody goes on with them."""
        others = self._changes_beside(its)
        if len(others) < len(self.changes()):
            self._note_changes(others)

    def drop_change(self, note: ChangeNote) -> None:
        """Takes away what is noted of words whose places are all done, and nothing else."""
        others = tuple(each for each in self.changes() if each != note)
        if len(others) < len(self.changes()):
            self._note_changes(others)

    def taken_back(self) -> tuple[int, int] | None:
        """At which version many changes were begun to be taken back, and how many, until all are.

        What can't be read is no fault.
        """
        try:
            data = self._folder.read(self._name(Begun.BACK))
            if data is None:
                return None
            kept = Record.of(data)
            return kept.number("version"), kept.number("count")
        except (NotSuch, OSError):
            return None

    def take_back(self, version: int, count: int) -> None:
        """Notes how many changes are to be taken back; nothing is noted any more of none."""
        if count:
            self._write(Begun.BACK, {"version": version, "count": count})
        else:
            self._remove(Begun.BACK)

    def answers(self) -> dict[str, str]:
        """What was last typed where something is asked, by its name; what can't be read is no fault."""
        try:
            data = self._folder.read(self._name(Begun.ANSWERS))
            return {} if data is None else Record.of(data).texts("answers")
        except (NotSuch, OSError):
            return {}

    def keep_answers(self, answers: Mapping[str, str]) -> None:
        """Keeps what was last typed where something is asked."""
        values = {name: written(text) for name, text in answers.items()}
        self._write(Begun.ANSWERS, {"answers": values})

    def lines(self) -> tuple[str, ...]:
        """Lines of a conversation that were broken off; what can't be read is no fault."""
        try:
            data = self._folder.read(self._name(Begun.LINES))
            return (
                () if data is None else tuple(Record.of(data).text("lines").split("\n"))
            )
        except (NotSuch, OSError):
            return ()

    def keep_lines(self, lines: Sequence[str]) -> None:
        """Keeps such lines, in place of those that were; nothing is kept of none."""
        if lines:
            self._write(Begun.LINES, {"lines": written("\n".join(lines))})
        else:
            self._remove(Begun.LINES)

    def begin_import(self, note: ImportNote) -> None:
        """Notes an import before its first paragraph is typed, in place of others of its text."""
        try:
            noted = self.imports()
        except NotRead as fault:
            # whoever reads that alone doesn't know that the import isn't noted
            place = self._folder.path
            raise NotSaved(Begun.IMPORTS, place, fault.cause, False) from fault
        others = (each for each in noted if not each.is_of(note))
        self._note((note, *others))

    def end_import(self, note: ImportNote) -> None:
        """Takes away what is noted of an import: it is done, or nobody goes on with it."""
        noted = self.imports()
        others = tuple(each for each in noted if not each.is_of(note))
        if len(others) < len(noted):
            self._note(others)

    def replacements(self) -> Pairs:
        """The characters that stand in the place of others where a manuscript is imported."""
        return self._read(Begun.REPLACEMENTS, pairs_in) or ()

    def keep_replacements(self, pairs: Pairs) -> None:
        """Keeps such characters, in place of those that were."""
        if pairs:
            self._write(Begun.REPLACEMENTS, {"replacements": values_of(pairs)})
        else:
            self._remove(Begun.REPLACEMENTS)

    def take_in(self) -> None:
        """Moves in what an older scribe left beside the book.

        It is read if it is a regular file of one's own, with one name and of a moderate size, and
        is a draft; else it stays where it is, which `NotKept` says.
        """
        self._clear_left()
        self.adopt(is_open=True)
        for what in (Begun.LATER, Begun.GIVEN_UP):
            # what can't be taken over stays where it is
            with suppress(NotSuch, OSError, NotKept):
                self._adopt_texts(what)
        with suppress(NotSuch, OSError):
            self._adopt_typed_last()
        beside = self.book.name + "-unsent"
        try:
            with opened(self.book.parent) as folder:
                found = draft_in(Record.of(bytes_of(folder, beside)))
                if not os.access(".", os.W_OK, dir_fd=folder):
                    raise Unfit("its folder can't be written")
                if self.waiting() is None:
                    self.save(found)
                else:
                    self.put_by(found)
                os.unlink(beside, dir_fd=folder)
        except FileNotFoundError:
            return
        except NotSuch as cause:
            raise NotTaken(self.book.with_name(beside), "it is no such text") from cause
        except OSError as cause:
            raise NotTaken(self.book.with_name(beside), cause.strerror) from cause

    def adopt(self, is_open: bool = False) -> None:
        """Takes over what was kept for this book at a path where it is found no more: it was moved.

        If it is open here, so is what was kept by another way to it, as where capitals make no
        difference: nobody else is typing there then.
        """
        identity = identity_of(self.book)
        try:
            names = self._folder.names() if identity else []
            missing = {each.value for each in Begun if self._name(each) not in names}
            for name in names:
                what = name.partition(".")[2]
                if (
                    what in missing
                    and identity
                    and self._is_of(name, identity, is_open)
                ):
                    self._folder.rename(name, self._name(Begun(what)))
                    missing.discard(what)
            if identity:
                self._adopt_place(names, identity, is_open)
        except OSError:
            # what can't be read is said where it is asked for
            pass

    def _adopt_place(
        self, names: Sequence[str], identity: Identity, is_open: bool
    ) -> None:
        """Takes over where this book was left, where another one had been left at its path before."""
        its = self._name(Begun.LEFT_AT)
        if its not in names or self._is_of(its, identity, is_open=True):
            return
        for name in names:
            is_place = name.partition(".")[2] == Begun.LEFT_AT.value
            if is_place and self._is_of(name, identity, is_open):
                self._folder.rename(name, its)
                return

    def _adopt_texts(self, what: Begun) -> None:
        """Takes over the texts of this book, where those of another one were kept for its path before."""
        identity, its = identity_of(self.book), self._name(what)
        names = self._folder.names()
        if identity is None or its not in names:
            return
        for name in names:
            is_such = name != its and name.partition(".")[2] == what.value
            if is_such and self._is_of(name, identity, is_open=True):
                self._add_texts(what, name, identity)
                self._folder.remove(name)

    def _add_texts(self, what: Begun, name: str, identity: Identity) -> None:
        """Keeps the texts of a file of this book beside those that are kept for its path."""
        data = self._folder.read(self._name(what)) or b""
        kept, found = Record.of(data), Record.of(self._folder.read(name) or b"")
        texts = (*_drafts_in(found), *_drafts_in(kept))
        if not identity.is_in(kept):
            # a book that was moved away from here finds them still, by a name that no path has
            self._folder.write(f"{sha256(data).hexdigest()[:32]}.{what.value}", data)
        whole: dict[object, Draft] = {}
        for each in sorted(texts, key=lambda its: -(its.left or 0)):
            whole.setdefault(each.known_by, each)
        self._write(what, {"texts": [each.values() for each in whole.values()]})

    def _adopt_typed_last(self) -> None:
        """Takes over what was typed last for this book, where that of another one was kept for its path before.

        That stays, too, for a book that was moved away from here, by a name that no path has.
        """
        what = Begun.TYPED_LAST
        identity, its = identity_of(self.book), self._name(what)
        data = self._folder.read(its)
        if identity is None or data is None or identity.is_in(Record.of(data)):
            return
        aside = sha256(os.fsencode(self.book) + b"\0").hexdigest()[:32]
        own = [
            name
            for name in self._folder.names()
            if name != its and name.partition(".")[2] == what.value
            if self._is_of(name, identity, is_open=True)
        ]
        # one for each path
        self._folder.write(f"{aside}.{what.value}", data)
        for name in own[:1]:
            self._folder.rename(name, its)
        for name in own[1:]:
            self._folder.remove(name)

    def adopt_if(self, is_of_book: Callable[[Draft], bool]) -> None:
        """Takes over a text that waits for a book which isn't at its path any more, if none waits here.

        So a book from a backup or on another disk has it, whose file is another; and a book that is at
        its path again has what another one took. May raise `OSError`.
        """
        names, its = self._folder.names(), self._name(Begun.WAITING)
        for name in () if its in names else names:
            if name.partition(".")[2] != Begun.WAITING.value:
                continue
            with suppress(NotSuch, OSError):
                kept = Record.of(self._folder.read(name) or b"")
                draft, path = draft_in(kept), kept.path("book")
                is_free = path == str(self.book) or not os.path.lexists(path)
                if is_free and is_of_book(draft):
                    self._folder.rename(name, its)
                    return

    def copy_to(self, book: Path, before: Draft | None = None) -> None:
        """Keeps for another book all that is kept for this one, which was saved there.

        The text that waited before, and was copied, doesn't wait there once it doesn't here. If the
        book was moved there, it takes all over by itself as it is opened.
        """
        other = self._others.setdefault(book, Drafts(book))
        if self._file is not None and other._file == self._file:
            return
        with suppress(NotKept):
            if before and not self.waiting() and other.waiting() == before:
                other.clear()
        self._add_to(other, before)
        for what in Begun:
            # what can't be read or kept there is kept for this book still
            with suppress(NotSuch, OSError, NotKept):
                is_among_theirs = what is Begun.GIVEN_UP and other.given_up()
                if is_among_theirs or what is Begun.LATER:
                    continue
                is_text = what in (Begun.WAITING, Begun.GIVEN_UP)
                if not is_text and self._is_theirs(other, what):
                    continue
                data = self._folder.read(self._name(what))
                if data is not None:
                    other._write(
                        what, Record.of(data).without("book", "file", "generation")
                    )
                name = other._name(what)
                if data is None and what is Begun.UNREAD and self._as_copied.get(name):
                    # what was copied before is elsewhere by now
                    other._folder.remove(name)
                self._as_copied[name] = other._folder.read(name)
        self._take_from(other)

    def _is_theirs(self, other: "Drafts", what: Begun) -> bool:
        """Whether what is kept for another book is another session's since this one's was copied there."""
        name = other._name(what)
        is_copied = name in self._as_copied
        return is_copied and other._folder.read(name) != self._as_copied[name]

    def _add_to(self, other: "Drafts", before: Draft | None) -> None:
        """Gives up, for another book, the texts of this one beside those that were typed there meanwhile."""
        with suppress(NotKept):
            ours, waiting = self.waiting(), other.waiting()
            if ours and waiting and waiting not in (ours, before, self._copied):
                other.put_by_theirs(waiting)
            self._copied = ours
        with suppress(NotKept):
            theirs = other.given_up()
            for each in reversed(self.given_up() if theirs else ()):
                if not any(each.is_same_as(its) for its in theirs):
                    other.put_by(each)
        with suppress(NotKept):
            # before another text waits there
            later, of_other = self.later(), other.later()
            whole = (*later, *(each for each in of_other if each not in later))
            if whole != of_other:
                other.keep_later(whole)

    def _take_from(self, other: "Drafts") -> None:
        """Takes away, for another book, what was copied as left for later and isn't that any more.

        It waits there by now, or is among those given up.
        """
        with suppress(NotKept):
            later, theirs = self.later(), other.later()
            gone = [each for each in self._copied_later if each not in later]
            if any(each in gone for each in theirs):
                other.keep_later([each for each in theirs if each not in gone])
            self._copied_later = later

    def _is_of(self, name: str, identity: Identity, is_open: bool) -> bool:
        """Whether a file was kept for this book, at a path where it isn't looked for any more.

        Another file is there, or none, or the path leads through a link by now, or nobody else can
        be at it, since the book is open here.
        """
        try:
            kept = Record.of(self._folder.read(name) or b"")
            path = Path(kept.path("book"))
        except NotSuch:
            return False
        if not identity.is_in(kept):
            return False
        is_looked_for = os.path.realpath(path) == str(path)
        return is_open or not is_looked_for or identity_of(path) != identity

    def _note(self, notes: tuple[ImportNote, ...]) -> None:
        if notes:
            values = [each.values() for each in notes]
            self._write(Begun.IMPORTS, {"imports": values})
        else:
            self._remove(Begun.IMPORTS)

    def _changes_beside(
        self, its: "ChangeNote | Replacement"
    ) -> tuple[ChangeNote, ...]:
        """What is noted of places that aren't among those of some words."""
        return tuple(each for each in self.changes() if not each.is_within(its))

    def _note_changes(self, notes: tuple[ChangeNote, ...]) -> None:
        if notes:
            values = [each.values() for each in notes]
            self._write(Begun.CHANGES, {"changes": values})
        else:
            self._remove(Begun.CHANGES)

    def _clear_left(self) -> None:
        try:
            self._folder.clear_left()
        except OSError:
            # what matters is said where something is read or kept
            pass

    def _name(self, what: Begun) -> str:
        return f"{self._key}.{what.value}"

    def _read(self, what: Begun, taken: Callable[[Record], _Kept]) -> _Kept | None:
        """What was kept, none if nothing was.

        What isn't such a thing is set aside, so that nothing is written over it.
        """
        path = self._folder.path / self._name(what)
        try:
            data = self._folder.read(path.name)
            return None if data is None else taken(Record.of(data))
        except (NotSuch, IsFolder, TooLong) as cause:
            raise NotAsKept(path, self._set_aside(path)) from cause
        except OthersFolder as cause:
            # whether the file is there isn't looked for
            raise NotRead(path.parent, cause) from cause
        except OSError as cause:
            raise NotRead(path, cause) from cause

    def _set_aside(self, path: Path) -> str | OSError:
        """The name that a file gets, which nothing has that was set aside before; or why it stays."""
        first = path.name + ".unreadable"
        try:
            names = self._folder.names()
            others = (f"{first}-{number}" for number in count(2))
            aside = next(each for each in chain([first], others) if each not in names)
            self._folder.rename(path.name, aside)
        except OSError as cause:
            return cause
        return aside

    def _write(self, what: Begun, values: dict[str, object]) -> None:
        identity = self._file or identity_of(self.book)
        known = identity.values() if identity else {"file": None}
        of_book: dict[str, object] = {"book": str(self.book), **known}
        whole: dict[str, object] = {**of_book, **values}
        data = json.dumps(whole, ensure_ascii=True, indent=1) + "\n"
        try:
            self._folder.write(self._name(what), data.encode())
        except OSError as cause:
            raise NotSaved(what, self._folder.path, cause, False) from cause

    def _remove(self, what: Begun) -> None:
        try:
            self._folder.remove(self._name(what))
        except OSError as cause:
            raise NotSaved(what, self._folder.path, cause, True) from cause


def _left_at_in(kept: Record) -> LeftAt:
    return LeftAt(
        kept.number("paragraph", least=1),
        kept.number("place"),
        kept.truth("is_in_cells"),
        kept.truth("is_quiet"),
        kept.truth("has_dots"),
        kept.number_or_none("version"),
    )


def _drafts_in(kept: Record) -> tuple[Draft, ...]:
    return tuple(map(draft_in, kept.records("texts")))


def _notes_in(kept: Record) -> tuple[ImportNote, ...]:
    return tuple(map(note_in, kept.records("imports")))


def _changes_in(kept: Record) -> tuple[ChangeNote, ...]:
    return tuple(map(change_note_in, kept.records("changes")))
