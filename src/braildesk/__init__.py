"""A client of braildesk: books of a braille transcribing office, from Python.

    from braildesk import Session, new_book

    new_book("moon.braildesk")
    with Session("moon.braildesk") as session:
        session.supply_table("en")
        typed = session.add_paragraph("end", "en", "The moon is far away.")
        print(session.braille_of(typed.id))

Nothing is done to a book but by requests to the program. ``docs/CLIENT.md`` describes each call.

No module uses one that is named after it here. In ``braildesk/text``, ``limits`` are numbers,
``characters`` names characters and shows those that nobody sees; ``sequences`` parts a text into
combining sequences, ``spans`` finds words in it, ``cells`` reads and writes cells, ``wrapping``
makes lines of a width, ``shell_words`` writes commands, and ``excerpt`` takes a few words of a text. In ``braildesk/protocol``,
``value`` is what dataclasses that never change have in common, ``values`` are some of these,
``codes`` are the codes of refusals, and ``fields`` writes and reads each kind of field that a
request has; ``replies`` reads replies, ``answers`` makes values of these, and ``requests`` is the
table of all requests; ``sentences`` has one sentence for each code,
``asked`` lists what may be refused besides requests, and says where a book's file and its log lie,
and ``wording`` fills in the sentences. Beside these folders, ``version`` reads the version, and
``refusals`` has the exceptions. ``named_files`` reads files that a person names, and nothing that
is no file. ``confined`` runs programs that others wrote within limits of time and memory.
``opening`` finds out why a file can't be opened, by its lock, its log and a stranger's tables, and
tries again while it is in use. ``workshop`` makes files whole before they get their names,
``writers`` says who may write a file, and ``held`` keeps a closed book from being opened.
``fenced`` keeps the program to the files of its book where other users may write, ``program`` finds
and runs the program, ``files`` reads tables and versions of books, and ``pipe`` moves bytes to and
from a session of the program. ``watch`` tells that another program had a file open for writing,
``openfile`` sees to the file of a session, ``beginning`` starts its program, ``rescue`` says what
became of the file and saves the book from it, ``asking`` has a method for each request, and
``session`` is the session. ``snapshot`` copies a book that another program has open, and ``making``
makes new books and copies.
"""

from importlib import import_module
from typing import TYPE_CHECKING, Any

if TYPE_CHECKING:
    from braildesk.files import read_tables
    from braildesk.making import NotCopied, NotMade, copy, new_book
    from braildesk.program import NoProgram, check, export, find, translate
    from braildesk.protocol import requests
    from braildesk.protocol.codes import Code
    from braildesk.protocol.sentences import Why
    from braildesk.protocol.values import (
        After,
        Corrected,
        Done,
        Entry,
        Kind,
        Mark,
        Marked,
        Paragraph,
        Style,
        Table,
        Typed,
    )
    from braildesk.refusals import (
        BadTable,
        CannotOpen,
        Damaged,
        DeskError,
        Displaced,
        Failed,
        Full,
        Lost,
        NewerFormat,
        NoMemory,
        NotABook,
        NotFound,
        OutOfRange,
        Refused,
        SessionEnded,
        TooLong,
        Undefined,
        Unopened,
        VersionConflict,
    )
    from braildesk.session import Session
    from braildesk.text import limits

    __version__: str

#: The modules of this package, each with what is taken from it. A module is imported when something
#: of it is asked for, so that a short program doesn't wait for what it never uses.
_MODULES = {
    "files": ("read_tables",),
    "making": (
        "NotCopied",
        "NotMade",
        "copy",
        "new_book",
    ),
    "program": (
        "NoProgram",
        "check",
        "export",
        "find",
        "translate",
    ),
    "protocol.codes": ("Code",),
    "protocol.sentences": ("Why",),
    "protocol.values": (
        "After",
        "Corrected",
        "Done",
        "Entry",
        "Kind",
        "Mark",
        "Marked",
        "Paragraph",
        "Style",
        "Table",
        "Typed",
    ),
    "refusals": (
        "BadTable",
        "CannotOpen",
        "Damaged",
        "DeskError",
        "Displaced",
        "Failed",
        "Full",
        "Lost",
        "NewerFormat",
        "NoMemory",
        "NotABook",
        "NotFound",
        "OutOfRange",
        "Refused",
        "SessionEnded",
        "TooLong",
        "Undefined",
        "Unopened",
        "VersionConflict",
    ),
    "session": ("Session",),
}
_WHOLE_MODULES = {
    "limits": "text.limits",
    "requests": "protocol.requests",
}

__all__ = [
    "After",
    "BadTable",
    "CannotOpen",
    "Code",
    "Corrected",
    "Damaged",
    "DeskError",
    "Displaced",
    "Done",
    "Entry",
    "Failed",
    "Full",
    "Kind",
    "Lost",
    "Mark",
    "Marked",
    "NewerFormat",
    "NoMemory",
    "NoProgram",
    "NotABook",
    "NotCopied",
    "NotFound",
    "NotMade",
    "OutOfRange",
    "Paragraph",
    "Refused",
    "Session",
    "SessionEnded",
    "Style",
    "Table",
    "TooLong",
    "Typed",
    "Undefined",
    "Unopened",
    "VersionConflict",
    "Why",
    "__version__",
    "check",
    "copy",
    "export",
    "find",
    "limits",
    "new_book",
    "read_tables",
    "requests",
    "translate",
]


def __getattr__(name: str) -> Any:
    """What is asked for, from the module that has it."""
    if name == "__version__":
        return import_module(f"{__name__}.version").version()
    if name in _WHOLE_MODULES:
        return import_module(f"{__name__}.{_WHOLE_MODULES[name]}")
    for module, names in _MODULES.items():
        if name in names:
            return getattr(import_module(f"{__name__}.{module}"), name)
    raise AttributeError(f"module {__name__!r} has no attribute {name!r}")


def __dir__() -> list[str]:
    """All that may be asked for."""
    return sorted({*globals(), *__all__})
