"""The sentence of a refusal, filled from what was asked and what was answered."""

import os
import unicodedata
from collections.abc import Callable

from braildesk.protocol import requests
from braildesk.protocol.asked import (
    Asked,
    AskedOfFile,
    BookFile,
    PrintLine,
    NewBook,
    Pages,
    Refusal,
    TableFile,
    held,
    is_left_out,
    journal_path,
    log_path,
    own_barred,
    own_closed,
    real_path,
)
from braildesk.protocol.codes import Code
from braildesk.protocol.fields import plain
from braildesk.protocol.sentences import (
    CAUSES,
    LIMITS,
    PARTS,
    SENTENCES,
    STRUCK_ALREADY,
    UNOPENED,
    UNREAD,
    Why,
    remedy,
)
from braildesk.text import limits
from braildesk.text.characters import (
    around,
    code_point,
    named,
    shortened,
)
from braildesk.text.wrapping import Offered


def worded(refusal: Refusal) -> str:
    """The sentence of a refusal."""
    fields, form = _Fields(refusal), _form(refusal)
    return _filled(form if fields.nothing else _alone(form), fields)


def reason(refusal: Refusal) -> str:
    """The sentence without what the refusal means for the book, which was changed before."""
    return _filled(_alone(_form(refusal)), _Fields(refusal))


def _filled(form: str, fields: "_Fields") -> str:
    """A sentence, which is ``Offered`` if it ends in a command."""
    sentence = form.format_map(fields)
    if fields.offered:
        return Offered(sentence.removesuffix(fields.offered).rstrip(), fields.offered)
    return sentence


def _form(refusal: Refusal) -> str:
    unknown = f"braildesk refused this by a code that isn't known here: {refusal.code}."
    form = SENTENCES.get(refusal.code, unknown)
    if refusal.code == Code.STRUCK and isinstance(refusal.asked, requests.Strike):
        form = STRUCK_ALREADY
    return form.replace("{unopened}", _unopened(refusal))


def _unopened(refusal: Refusal) -> str:
    """What is said of a file that can't be opened, by what it was to be opened for."""
    asked, said = refusal.asked, UNOPENED[refusal.why]
    is_read = isinstance(asked, AskedOfFile) and asked.is_read
    return UNREAD.get(refusal.why, said) if is_read else said


def _alone(form: str) -> str:
    return form.replace(" {nothing}", "")


#: What was asked with a number, and what a sentence has if it wasn't.
_GIVEN = {
    "mark": "of this number",
    "expect": "the one that was expected",
    "volume": "of this number",
    "width": "so many",
    "lines": "so many",
}

#: The refusals of a file that is opened.
_OF_FILES = (
    Code.CANNOT_OPEN,
    Code.NOT_A_BOOK,
    Code.DAMAGED,
    Code.NEWER_FORMAT,
)


class _Fields:
    """What fills the fields of sentences, each when it is asked for."""

    def __init__(self, refusal: Refusal) -> None:
        self._refusal = refusal
        self._asked = refusal.asked
        #: The command with which the sentence ends, once it is filled; nothing if it doesn't.
        self.offered = ""

    def __getitem__(self, name: str) -> str:
        if name in _GIVEN:
            given = getattr(self._asked, name, None)
            return _GIVEN[name] if given is None else str(given)
        known = self._refusal if name in ("line", "version") else self
        return str(getattr(known, name))

    @property
    def nothing(self) -> str:
        """What it means for the book."""
        match self._asked:
            case requests.Type():
                return "Nothing was added."
            case requests.Mark():
                return "No mark was put."
            case requests.Command():
                return "Nothing was changed."
            case PrintLine():
                return "This line was not translated."
            case AskedOfFile() if self._refusal.code in _OF_FILES:
                return "Nothing was changed."
        return ""

    @property
    def paragraph(self) -> str:
        """The paragraph that is spoken of: the one that was answered, or that was asked for."""
        match self._asked:
            case _ if self._refusal.paragraph is not None:
                return str(self._refusal.paragraph)
            case requests.Type(after=int(after)):
                return str(after)
            case requests.Move(
                paragraph=paragraph, after=int(after)
            ) if after != paragraph:
                return self._of_two(paragraph, after)
            case requests.OfParagraph(paragraph=paragraph):
                return str(paragraph)
        return "of this number"

    def _of_two(self, first: int, second: int) -> str:
        """Which of two paragraphs the book lacks, if it was looked up which it has."""
        count = self._refusal.count
        known = range(1, count + 1) if count is not None else ()
        lacking = [str(each) for each in (first, second) if each not in known]
        either = " and" if count is not None else ", or"
        return f"{either} no paragraph ".join(lacking)

    @property
    def there(self) -> str:
        """Which paragraphs the book has, after what it doesn't have."""
        match self._refusal.count:
            case None:
                return ""
            case 0:
                return ": it has none yet"
            case 1:
                return ": it has paragraph 1 alone"
        return f": it has the paragraphs 1 to {self._refusal.count}"

    @property
    def look(self) -> str:
        """By what it is seen which paragraphs the book has, if that isn't said."""
        if self._refusal.count is not None:
            return ""
        return " The request list shows which there are."

    @property
    def table(self) -> str:
        """The table that is spoken of, by its name or its file."""
        match self._asked:
            case requests.Table(table=name) | requests.Supply(table=name):
                return plain(name)
            case requests.Type(table=name) | requests.Retable(table=name):
                return plain(name)
            case PrintLine(table=path) | TableFile(path=path):
                return path if path == "@en" else shortened(path, len(path))
            case requests.OfParagraph():
                return f"of paragraph {self.paragraph}"
        return "of this name"

    @property
    def command(self) -> str:
        """The request that was sent, at the front of a sentence."""
        asked = self._asked
        if not isinstance(asked, requests.Request):
            return "This"
        words = asked.in_words()
        return words[:1].upper() + words[1:]

    @property
    def who(self) -> str:
        """The name of a proofreader that was given."""
        return (
            shortened(self._asked.who)
            if isinstance(self._asked, requests.CorrectBy)
            else "This"
        )

    @property
    def path(self) -> str:
        """The path of a file."""
        match self._asked:
            case Pages(path=path) | TableFile(path=path):
                return shortened(path, len(path))
            case BookFile(path=path) | NewBook(path=path):
                if self._refusal.why is Why.MISSING and os.path.exists(path):
                    # it leads elsewhere by now
                    path = self._asked.real
                return shortened(path, len(path))
        return "This file"

    @property
    def leave(self) -> str:
        """Who is asked for leave to use a file, or how one's own is used again."""
        named = self._asked.path if isinstance(self._asked, AskedOfFile) else ""
        if kept := held(named):
            what = "it" if kept == real_path(named) else "its folder"
            return (
                f"The system lets nobody change {what}, whatever its permissions are: perhaps it was"
                " made immutable. An administrator can take that away."
            )
        closed, barred = own_closed(named), own_barred(named)
        if barred is not None:
            return self._own_barred(barred)
        if closed is None:
            return "Ask who owns it for leave to read and write it and to write in its folder."
        if closed == real_path(named):
            return self._own_closed("The file", "read and write it", "u+rw", closed)
        return self._own_closed("Its folder", "read and write in it", "u+rwx", closed)

    @property
    def leave_to_read(self) -> str:
        """The same of a file that is read alone."""
        named = self._asked.path if isinstance(self._asked, AskedOfFile) else ""
        closed, file = own_closed(named, 0o100, 0o400), real_path(named)
        if (barred := own_barred(named)) is not None:
            return self._own_barred(barred)
        if closed == file:
            return self._own_closed("The file", "read it", "u+r", closed)
        if closed is not None:
            return self._own_closed("Its folder", "enter it", "u+x", closed)
        if not os.access(os.path.dirname(file), os.X_OK):
            return "Ask who owns its folder for leave to enter that."
        return "Ask who owns it for leave to read it."

    @property
    def leave_of_log(self) -> str:
        """The same of the log beside the file of a book."""
        path = self._asked.path if isinstance(self._asked, AskedOfFile) else ""
        log = log_path(path)
        if own_closed(log) == log:
            return self._own_closed("That file", "read and write it", "u+rw", log)
        return self._leave_of_others_log(path)

    @property
    def leave_to_read_log(self) -> str:
        """The same of a log that is read alone."""
        path = self._asked.path if isinstance(self._asked, AskedOfFile) else ""
        log = log_path(path)
        if own_closed(log, 0o100, 0o400) == log:
            return self._own_closed("That file", "read it", "u+r", log)
        return self._leave_of_others_log(path)

    def _leave_of_others_log(self, path: str) -> str:
        if is_left_out(path):
            return (
                f"{self.log} is for the group of {self.path}, which is your own, and you aren't in that"
                " group. Ask an administrator to put you into it, and log in again."
            )
        return f"Ask who owns {self.log}, or an administrator, for leave to do so."

    def _own_barred(self, path: str) -> str:
        """The same of a folder above that of a file."""
        what = f"The folder {shortened(path, len(path))}"
        return self._own_closed(what, "enter it", "u+x", path)

    def _own_closed(self, what: str, do: str, mode: str, path: str) -> str:
        """That a file or a folder of one's own is kept from one by its mode, and how that is changed."""
        from braildesk.text.shell_words import command_line  # which few refusals need

        self.offered = command_line(["chmod", mode, "--", path])
        its = f"{what} is your own, and its permissions don't let you {do}."
        return f"{its} This lets you: {self.offered}"

    @property
    def log(self) -> str:
        """The path of the log beside the file of a book."""
        return self._beside(log_path)

    @property
    def log_owner(self) -> str:
        """The name of the user to whom the log belongs, or the number of one without a name."""
        # imported here, since few refusals need it
        import pwd

        path = self._asked.path if isinstance(self._asked, AskedOfFile) else ""
        try:
            number = os.lstat(log_path(path)).st_uid
        except OSError:
            return "another user"
        try:
            return shortened(pwd.getpwuid(number).pw_name)
        except KeyError:
            return f"user {number}"

    @property
    def take_log(self) -> str:
        """The command that puts a copy which nobody else may write in the place of the log."""
        # imported here, since few refusals need it
        from braildesk.text.shell_words import command_line

        path = self._asked.path if isinstance(self._asked, AskedOfFile) else "BOOK"
        log = log_path(path)
        own = f"{log}-own"
        copied = command_line(["install", "-m", "600", "--", log, own])
        self.offered = f"{copied} && {command_line(['mv', '-f', '--', own, log])}"
        return self.offered

    @property
    def journal(self) -> str:
        """The path of the journal beside the file of a book."""
        return self._beside(journal_path)

    def _beside(self, named: Callable[[str], str]) -> str:
        match self._asked:
            case Pages(path=path) | BookFile(path=path) | NewBook(path=path):
                beside = named(path)
                return shortened(beside, len(beside))
        return "beside this file"

    @property
    def kind(self) -> str:
        """What a text is."""
        match self._asked:
            case requests.Mark():
                return "note"
            case PrintLine():
                return "line"
        return "text"

    @property
    def character(self) -> str:
        """The character at the place that was answered."""
        text, place = self._text_with_place()
        return named(text[place]) if place < len(text) else "a character of it"

    @property
    def around(self) -> str:
        """The text around that character."""
        text, place = self._text_with_place()
        return f": {around(text, place)}" if place < len(text) else ""

    @property
    def number(self) -> str:
        """Which character that is, counted from 1."""
        return str(self._text_with_place()[1] + 1)

    def _text_with_place(self) -> tuple[str, int]:
        """The text that is known, and the place in it; the place is outside of an unknown text."""
        place = self._refusal.place or 0
        if self._refusal.shown is not None:
            return self._refusal.shown, place
        text = _text(self._asked)
        if self._refusal.code != Code.UNDEFINED:
            return text, place
        stored = unicodedata.normalize("NFC", text)
        match self._asked:
            case requests.Correct(start=start) if start <= place < start + len(stored):
                return stored, place - start
            case requests.Type():
                return stored, place
            case PrintLine():
                return text, place
        return "", place

    @property
    def where(self) -> str:
        """In which text a character stands that a table lacks."""
        match self._asked:
            case requests.Type():
                return "the text"
            case PrintLine():
                return "the line"
            case requests.Correct() if self._text_with_place()[0]:
                return "the new text"
            case requests.Undo():
                return "the print as it was before"
        return f"paragraph {self.paragraph}"

    @property
    def cell(self) -> str:
        """Which cell is spoken of, counted from 1."""
        return str((self._refusal.cell or 0) + 1)

    @property
    def cause(self) -> str:
        """What is wrong with a line of a table."""
        return CAUSES.get(self._refusal.cause or 0, f"by cause {self._refusal.cause}")

    @property
    def line_shown(self) -> str:
        """What stands on that line of the table."""
        number = self._refusal.line or 0
        match self._asked:
            case requests.Table(text=text) | TableFile(text=text):
                lines = text.split(b"\n")
                if 1 <= number <= len(lines):
                    line = (
                        lines[number - 1].removesuffix(b"\r").decode(errors="replace")
                    )
                    return f" It reads {shortened(line, 80)}."
        return ""

    @property
    def limit(self) -> str:
        """What is full."""
        sentence = LIMITS.get(
            self._refusal.limit or 0, "The book holds no more of that."
        )
        return sentence.format_map(self)

    @property
    def part(self) -> str:
        """In which rows of a file something is damaged."""
        part = PARTS.get(self._refusal.table or 0, f"table {self._refusal.table}")
        return part.format_map({"id": self._refusal.id})

    @property
    def remedy(self) -> str:
        """What is done where the file of a book can't be written or read."""
        return remedy(self._refusal.why, self._refusal.room)

    @property
    def length(self) -> str:
        """What is too long, and how long it may be."""
        text = _text(self._asked)
        most = (
            limits.NOTE_CHARACTERS if self.kind == "note" else limits.PRINT_CHARACTERS
        )
        if self.kind == "text":
            text = unicodedata.normalize("NFC", text)
        if len(text) > most:
            return (
                f"The {self.kind} has {len(text):,} characters, and may have {most:,}."
            )
        return f"The print of paragraph {self.paragraph} would have over {most:,} characters."

    @property
    def shorter(self) -> str:
        """What to do about a text that is too long."""
        if self.kind == "text":
            return "Cut it, or type the rest as a paragraph of its own."
        return "Cut it."

    @property
    def unreadable(self) -> str:
        """Why the request can't be sent, or isn't in the language of the program."""
        place = self._refusal.place
        text = _text(self._asked)
        if place is not None and place < len(text):
            return (
                f"Character {place + 1} of the {self.kind} is {code_point(text[place])}, which is"
                f" only half of a character and can't be kept: {around(text, place)}."
            )
        if isinstance(self._asked, PrintLine):
            return f"The line has over {limits.LINE_BYTES:,} bytes."
        return (
            "This is no request that braildesk knows. Its numbers go from 0 to"
            f" {limits.NUMBER:,}, and a paragraph is put at the front, at the end or after another."
        )

    @property
    def span(self) -> str:
        """Which characters or cells aren't there."""
        match self._asked:
            case requests.Mark(count=0):
                return "A mark has to stand on one cell at least."
            case requests.Mark(cell=first, count=count):
                return self._missing("cell", first, count)
            case requests.Correct(start=first, count=count):
                return self._missing("character", first, count)
            case requests.Where(place=place):
                return self._missing("character", place, 1)
            case requests.Whence(cell=cell):
                return self._missing("cell", cell, 1)
        return "The characters or cells are not all there."

    def _missing(self, what: str, first: int, count: int) -> str:
        if count > 1:
            asked = f"the {what}s {first + 1} to {first + count}"
        elif count == 1:
            asked = f"{what} {first + 1}"
        else:
            asked = f"a place after {what} {first}"
        sentence = f"Paragraph {self.paragraph} doesn't have {asked}"
        if self._refusal.shown is None:
            return f"{sentence}."
        has = len(self._refusal.shown)
        return f"{sentence}: it has {has:,} {what}{'' if has == 1 else 's'}."


def _text(asked: Asked) -> str:
    """The text or the note that was given."""
    match asked:
        case requests.Type(text=text) | requests.Correct(text=text) | PrintLine(
            text=text
        ):
            return text
        case requests.Mark(note=note):
            return note
    return ""
