"""One sentence for each code by which something is refused.

What stands in braces is filled by ``wording.py`` from what was asked and what was answered.
"""

import errno
import signal
from collections.abc import Mapping
from enum import StrEnum
from types import MappingProxyType

from braildesk.protocol.codes import Code
from braildesk.text import limits


class Why(StrEnum):
    """Why a file can't be opened (98)."""

    MISSING = "not there"
    NO_FOLDER = "no folder"
    FOLDER = "a folder"
    NO_FILE = "no file"
    DENIED = "not permitted"
    LOG_DENIED = "log not permitted"
    LOG_OPEN = "log open to others"
    LOG_OPEN_TO_READ = "log open to others than this reader"
    LOG_STAYS = "log open to others and held by its folder"
    LOG_READ = "log read by others"
    NO_DATABASE = "no database"
    READ_ONLY = "read-only"
    NO_ROOM = "no room"
    OVER_QUOTA = "over quota"
    IN_USE = "in use"
    LINKED = "linked"
    LED_AWAY = "led away"
    REPLACED = "replaced"
    OTHER_LOG = "log of another"
    LOG_IN_USE = "log in use"
    NO_LOG = "no log"
    LONG_NAME = "long name"
    JOURNAL = "journal"
    NO_LOCKS = "no locks"
    COMPUTED = "computed"
    NO_SCHEMA = "no schema"
    TOO_LONG = "too long"
    CUT_SHORT = "cut short"
    TOO_LARGE = "too large"
    TOO_LARGE_FOR_BOOK = "too large for a book"
    NO_PATH = "no path"
    UNKNOWN = "unknown"


#: Why a book isn't opened of which a copy may be looked at.
LOOKED_AT_BY_COPY = (Why.DENIED, Why.LOG_DENIED, Why.LOG_READ, Why.READ_ONLY)


#: What a person reads of each code.
SENTENCES: Mapping[int, str] = MappingProxyType(
    {
        Code.NO_REQUEST: "{unreadable} {nothing}",
        Code.NO_PARAGRAPH: "The book has no paragraph {paragraph}{there}. {nothing}{look}",
        Code.NO_TABLE: "The book has no table {table}. {nothing} Add that table first, or name one that is"
        " there.",
        Code.NO_MARK: "The book has no mark {mark}. {nothing} The request marks shows those of a paragraph.",
        Code.OUT_OF_RANGE: "{span} {nothing}",
        Code.BARRED_CHARACTER: "A {kind} can't have {character}, which is character {number} of this one{around}."
        " {nothing} Take it out.",
        Code.UNDEFINED: "The table {table} has no cells for {character}, character {number} of"
        " {where}{around}. {nothing}",
        Code.BAD_TABLE: "Line {line} of the table {table} is refused: {cause}.{line_shown} {nothing}",
        Code.UNDEFINED_IN_PRINT: "The new text of the table {table} has no cells for {character}, character {number} of"
        " paragraph {paragraph}, which uses that table{around}. {nothing} Keep a definition of"
        " it, or give that paragraph another table first.",
        Code.NOTHING_TO_UNDO: "Paragraph {paragraph} has no correction that could be taken back. {nothing}",
        Code.STRUCK: "Paragraph {paragraph} is struck. {nothing} Restore it first.",
        Code.NOT_STRUCK: "Paragraph {paragraph} isn't struck, so there is nothing to restore.",
        Code.RESOLVED: "Mark {mark} is resolved already.",
        Code.TOO_LONG: "{length} {nothing} {shorter}",
        Code.FULL: "{limit} {nothing} Begin another book.",
        Code.VERSION_CONFLICT: "The book is at version {version} and not at {expect}: another command came first."
        " {nothing} Look at the book as it is now, and ask again.",
        Code.BAD_TABLE_NAME: "{table} can't be the name of a table. {nothing} A name has 1 to"
        f" {limits.NAME_CHARACTERS} of the characters a to z, 0 to 9, _ and -.",
        Code.BAD_PROOFREADER: "{who} can't be the name of a proofreader. {nothing} A name has 1 to"
        f" {limits.WHO_CHARACTERS} characters, none of them a blank.",
        Code.NO_MEMORY: "There was no memory for this. {nothing} Close other programs, and ask again.",
        Code.NOT_KEPT: "{command} was not reported as kept, since the file of the book could not be written or"
        " read. {remedy}",
        Code.NOT_A_BOOK: "{path} is no book. {nothing} Check that the path is right.",
        Code.DAMAGED: "The book {path} is damaged: its file has a wrong row in {part}. {nothing}"
        " Keep the file as it is, and go on with an earlier copy.",
        Code.NEWER_FORMAT: "The book {path} was made by a newer braildesk than this one. {nothing}"
        " Use that one, or a newer.",
        Code.NOT_FOR_EMBOSSERS: "Cell {cell} of paragraph {paragraph} has dot 7 or 8, which pages for embossers can't"
        " have. Nothing was exported. Correct the table of that paragraph.",
        Code.NO_VOLUME: "The book has no volume {volume}. Nothing was exported. Take a smaller number, from 1"
        " on; a book of which each paragraph is struck has no volume at all.",
        Code.BAD_PAGE_SIZE: "A page can't be {width} wide and {lines} long. Nothing was exported. Take"
        f" {limits.WIDTHS[0]} to {limits.WIDTHS[1]} cells and {limits.PAGE_LINES[0]} to"
        f" {limits.PAGE_LINES[1]} lines.",
        Code.CANNOT_OPEN: "{unopened}",
        Code.BOOK_THERE: "{path} holds a book at version {version} already, which stays as it is. Use that"
        " one, or take another path for the new one.",
    }
)

#: The same of a paragraph that is to be struck (11).
STRUCK_ALREADY = "Paragraph {paragraph} is struck already."

#: What is full (15), by LIMIT.
LIMITS = MappingProxyType(
    {
        1: f"The book has {limits.TABLES} tables, and holds no more.",
        2: f"The book has {limits.PARAGRAPHS:,} paragraphs with the struck ones, and holds no"
        " more.",
        3: f"The history of paragraph {{paragraph}} has {limits.ENTRIES:,} entries, and holds no"
        " more.",
        4: f"The book has {limits.MARKS:,} marks with the resolved ones, and holds no more.",
        5: f"The book is at version {limits.NUMBER:,}, which is the last one.",
    }
)

#: What is wrong with a line of a table (8), by CAUSE.
CAUSES = MappingProxyType(
    {
        1: "it begins with a word that is no opcode of braildesk",
        2: "an operand is missing",
        3: "its characters are written with an escape that there isn't, or are not as many as the"
        " opcode takes (one, or two after uplow)",
        4: "its dots are none that the opcode takes",
        5: "a character is defined already, by an earlier line or twice by this one",
        6: "this sign, or these characters, were given by an earlier line already",
        7: "it has a character that no line of the table defines",
        8: "it is too long, or has too many characters or cells, or the table has over"
        f" {limits.TABLE_LINES:,} lines",
        9: "it is not UTF-8",
    }
)

#: In which rows of a damaged book something is wrong (93), by TABLE.
PARTS = MappingProxyType(
    {
        1: "the table book",
        2: "the table tab, number {id} in the order of the names of tables",
        3: "the table para, of paragraph {id}",
        4: "the table corr, in the history of paragraph {id}",
        5: "the table mark, of mark {id}",
        6: "the table cache, of paragraph {id}",
        7: "the table corr2, in the history of paragraph {id}",
    }
)

#: The limits of a process that the system keeps up by a signal, by its number.
ENDED_BY: Mapping[int, str] = MappingProxyType(
    {
        signal.SIGXFSZ: "the limit on the size of files (ulimit -f)",
        signal.SIGXCPU: "the limit on processor time (ulimit -t)",
    }
)

#: Why a file can't be opened (98).
UNOPENED = MappingProxyType(
    {
        Why.MISSING: "There is no file {path}. Check that the path is right.",
        Why.NO_FOLDER: "There is no folder in which {path} could be made. Check that the path is"
        " right.",
        Why.FOLDER: "{path} is a folder and no file. Give the path of a file in it.",
        Why.NO_FILE: "{path} is a pipe, a socket, a device or a part of the system, and no file. It was"
        " not opened. Give the path of a file.",
        Why.DENIED: "You aren't permitted to open {path}. {nothing} {leave}",
        Why.LOG_DENIED: "You aren't permitted to read and write {log}, in which the newest work of"
        " {path} is looked for. {nothing} {leave_of_log}",
        Why.LOG_OPEN: "{log}, in which the newest work of {path} is looked for, may be written by people"
        " who may not write the book, as after a change of its permissions. They may have put"
        " something else there. {nothing} If you don't know that the work is yours, move {log} away, and"
        " go on without it. If you do, open the book again after this command: {take_log}",
        Why.LOG_OPEN_TO_READ: "{log}, in which the newest work of {path} is looked for, may be written by"
        " people who may not write the book, as after a change of its permissions. They may have put"
        " something else there. {nothing} Ask somebody who may write {path} to open it.",
        Why.LOG_STAYS: "{log}, in which the newest work of {path} is looked for, may be written by people"
        " who may not write the book, as after a change of its permissions. They may have put"
        " something else there, and its folder lets nobody move it away but its owner, the owner of"
        " the folder and an administrator. {nothing} If you know that the work is yours, ask an"
        " administrator to make {log} yours, with the mode 600, and open the book again. If you don't,"
        " ask for it to be moved away, and go on without it.",
        Why.LOG_READ: "{log} may be read by people who may not read {path}, and what is kept would stand there"
        " first. It belongs to {log_owner}, and no other could be put in its place: its folder doesn't let"
        " you, or its disk has no room. {nothing} Ask {log_owner} to open the book once, by which that file"
        " gets its permissions, or ask an administrator to do so.",
        Why.READ_ONLY: "The disk of {path} can only be read, and a book is opened where it can be"
        " written. {nothing} Go on with a copy, or a new book, on another disk.",
        Why.NO_ROOM: "There is no room on the disk of {path}. {nothing} Make room there,"
        " and try again.",
        Why.OVER_QUOTA: "What you may use of the disk of {path} is used up (a quota). {nothing}"
        " Remove files of yours there, or ask for more room, and try again.",
        Why.NO_DATABASE: "{path} is no book, since it isn't even a database. {nothing}"
        " Check that the path is right.",
        Why.IN_USE: "Another program has {path} open. {nothing} That one must end first.",
        Why.LINKED: "The file {path} has another name too (a hard link). By each name its newest"
        " work would be looked for in another place, so it is opened by none. {nothing}"
        " Remove the other name; if one of them has a file ending in -wal beside it, keep that one.",
        Why.LED_AWAY: "A link was put in the place of {path}, or on the way to it, after that was first"
        " looked at. It may be another user's, and nothing was opened through it. {nothing} See where"
        " it leads, and who put it there.",
        Why.REPLACED: "{path} was replaced by another file just as it was opened, or was away for a moment."
        " {nothing} See which program does that, and try again.",
        Why.OTHER_LOG: "The file {log} isn't that of {path} as it is: {path} is whole without it,"
        " and with it would be damaged or lose what it has. It may be that another file was put in"
        " the place of the book. {nothing} Keep both files; to go on with {path} as it"
        " is, move {log} away.",
        Why.LOG_IN_USE: "Another program has {log} open, but not {path}. So that log belongs to another"
        " book, perhaps to one that stood at {path} before. {nothing} That program must end first.",
        Why.NO_LOG: "What stands at {log} is no log of its own, but a link, a folder, a pipe, a book"
        " or another file, and the newest work of {path} would be looked for there. {nothing}"
        " Move it away, or ask an administrator to do so where its folder doesn't let you.",
        Why.LONG_NAME: "The path {path} is too long for a book: those of the files beside it, which end in"
        " -wal and -journal besides, can't all be looked for. {nothing} Give the file a shorter name.",
        Why.JOURNAL: "Beside {path} lies {journal}, which braildesk never makes: another program"
        " was stopped while it changed that file, or somebody put it there. {nothing}"
        " Keep both files, and go on with an earlier copy.",
        Why.NO_LOCKS: "The file system of {path} lets two programs have the lock of one file, so that"
        " two could change the book at once. {nothing} Move the book to another disk.",
        Why.COMPUTED: "{path} was not opened, since it isn't made as books are: one of its tables"
        " is a view or has another part that is computed, and may have no end. {nothing}"
        " Ask whoever made it for the book itself.",
        Why.TOO_LONG: "{path} was not opened, since it isn't made as books are: a text in it is longer"
        " than any of a book, or its rows have no end. {nothing} Ask whoever made it for"
        " the book itself.",
        Why.NO_SCHEMA: "The list of the tables in {path} can't be read. {nothing} Keep"
        " the file as it is, and go on with an earlier copy.",
        Why.CUT_SHORT: "The book {path} is cut short: its end is missing. {nothing}"
        " Keep the file as it is, and go on with an earlier copy.",
        Why.TOO_LARGE: f"{{path}} is too large for a table, which has at most"
        f" {limits.TABLE_BYTES:,} bytes.",
        Why.TOO_LARGE_FOR_BOOK: f"{{path}} has more than {limits.BOOK_BYTES:,} bytes, which is more"
        " than a book has. It was not opened, and nothing was changed. Check that it is the right"
        " file; if it is, braildesk itself opens books of any size.",
        Why.NO_PATH: "{path} can't be a path for braildesk, which takes those in UTF-8 alone.",
        Why.UNKNOWN: "{path} could not be opened. Check that the path is right, that the file may"
        " be read and written, that its folder may be written in, that there is room on the disk,"
        " and that no other program has the file open. If all of that is so, it has a form that"
        " braildesk doesn't read: ask whoever made it, or go on with an earlier copy.",
    }
)

#: The same of a file that was to be read alone, where that says more.
UNREAD = MappingProxyType(
    {
        Why.DENIED: "You aren't permitted to read {path}. {nothing} {leave_to_read}",
        Why.LOG_DENIED: "You aren't permitted to read {log}, in which the newest work of {path} is looked"
        " for. {nothing} {leave_to_read_log}",
    }
)


#: What is said of a disk that takes no more, in place of the words of the system.
_OF_FULL_DISK = MappingProxyType(
    {
        errno.ENOSPC: "there is no room on the disk",
        errno.EDQUOT: "what you may use of the disk is used up (a quota)",
    }
)


# what Python says where no folder takes files for a while, and what is said in place of that
_NO_FOLDER = "No usable temporary directory"
_NO_FOLDER_SAID = "no folder for temporary files can be written to, such as /tmp. Set TMPDIR to one that can be"


def of_failure(failure: OSError) -> str:
    """Why the system failed, in its own words unless a disk is full; to stand after a colon."""
    if str(failure.strerror).startswith(_NO_FOLDER):
        return _NO_FOLDER_SAID
    said = _OF_FULL_DISK.get(failure.errno or 0)
    return said or failure.strerror or str(failure)


#: What is said of a disk of which a quota leaves somebody little or nothing.
_OF_QUOTA = ": little or nothing is left of what you may use of it (a quota)"
#: What is said of a file where the disk needn't be why.
_ADDED_TO = (
    "One of its tables has an index that no book has by itself, and that may be why. Ask whoever made"
    " the file, or go on with an earlier copy."
)


def remedy(why: Why, room: int | None, also: str = "") -> str:
    """What is done where a file can't be written or read: its disk is seen to, unless another cause is seen."""
    if why is Why.COMPUTED:
        return _ADDED_TO
    said = _OF_QUOTA if why is Why.OVER_QUOTA else _said_of_room(room)
    return f"See to the disk{also}{said}."


def _said_of_room(room: int | None) -> str:
    """That there is little room on a disk, to stand after what is said of it.

    It isn't said for how many bytes: the program has emptied its log since something was too many.
    """
    if room is None:
        return ""
    return f": there is {'little' if room else 'no'} room on it"
