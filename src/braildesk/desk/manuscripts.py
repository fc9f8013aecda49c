"""Manuscripts of any kind, read as the paragraphs of a book: documents, texts, and books."""

import errno
import os
from collections.abc import Callable, Iterator
from dataclasses import dataclass, replace
from itertools import takewhile
from os import fspath
from pathlib import Path
from typing import TYPE_CHECKING, BinaryIO

from braildesk import CannotOpen, Failed, Lost, Session, Style, Why
from braildesk.desk.documents.kinds import (
    ManuscriptKind,
    NoDocument,
    WhyNot,
    is_container,
    is_of_kind,
    kind_of,
)
from braildesk.desk.documents.options import ReadingOptions
from braildesk.desk.manuscript import (
    DocumentPassage,
    TextLine,
    Passage,
    Position,
    UnreadableText,
    passages,
)
from braildesk.desk.import_note import How
from braildesk.desk.readings import prints
from braildesk.desk.replacements import Replaced, Replacer
from braildesk.desk.whole_file import Access
from braildesk.named_files import (
    is_descriptor,
    is_handed_over,
    open_file,
    opened,
    read_opened,
)
from braildesk.protocol.sentences import LOOKED_AT_BY_COPY
from braildesk.protocol.value import Value
from braildesk.text import limits
from braildesk.text.characters import shortened
from braildesk.workshop import OthersLink, own_path, place_of

if TYPE_CHECKING:
    from braildesk.desk.documents.reading import Manuscript

_BOOK = b"SQLite format 3\0"


class UnreadableFile(UnreadableText):
    """The file of a manuscript can't be read."""

    def __init__(self, cause: OSError) -> None:
        super().__init__(cause)
        self.cause = cause


def read_manuscript(
    path: Path, reading: ReadingOptions = ReadingOptions(), wait: float = 0.0
) -> "Manuscript":
    """The paragraphs of a document, of a text, or of a book, there those aside that are struck.

    `UnreadableText` if the file can't be read or is no manuscript, and what a session raises if
    it is a book that can't be opened. In a text blank lines part the paragraphs. If nothing parts
    them, so that one is longer than any of a book, each of its lines is a paragraph.
    """
    return read_with_access(path, reading, wait)[0]


def read_with_access(
    path: Path, reading: ReadingOptions = ReadingOptions(), wait: float = 0.0
) -> tuple["Manuscript", Access]:
    """The same, and the access of the file that was read: another one may be at its path by then."""
    try:
        data, access = _contents(path, reading)
    except OSError as cause:
        raise UnreadableFile(cause) from cause
    if data is None:
        return _of_book(path, wait)
    kind = reading.kind or kind_of(path.name, data)
    return manuscript_of(data, kind, reading, path.name), access


def _contents(path: Path, reading: ReadingOptions) -> tuple[bytes | None, Access]:
    """The bytes of a manuscript, none if it is a book, and the access of its file."""
    with opened(path) as file:
        access = Access.of(file.fileno())
        if is_handed_over(path):
            return read_opened(file, path, limits.TEXT_BYTES), access
        front = _seen(file.fileno())
        if reading.kind is None and front == _BOOK:
            return None, access
        is_document = is_container(front)
        most = limits.DOCUMENT_BYTES if is_document else limits.TEXT_BYTES
        return read_opened(file, path, most), access


def manuscript_of(
    data: bytes, kind: ManuscriptKind, reading: ReadingOptions, name: str
) -> "Manuscript":
    """The paragraphs of the bytes of a document of some name or of a text; raises `UnreadableText`."""
    # imported here, since a text that is typed needs nothing of what reads documents
    from braildesk.desk.documents.reading import Manuscript, Part

    if kind.is_document:
        from braildesk.desk.documents.document import read_document

        return read_document(data, kind, reading, name)
    texts = (text for each in passages(data, by_lines=False) for text in _texts(each))
    return Manuscript(kind, tuple(Part(text) for text in texts if text))


@dataclass(frozen=True, eq=False, repr=False)
class Taken(Value):
    """A manuscript on its way into a book."""

    passages: tuple[Passage, ...]
    replaced: tuple[Replaced, ...]
    #: The document that it is, if it is no text.
    document: "Manuscript | None" = None
    #: The bytes of a text of which nothing was replaced, so that they have all its characters.
    data: bytes = b""


def taken(
    data: bytes,
    by_lines: bool,
    how: How,
    name: str,
    check: Callable[[], None] = lambda: None,
) -> Taken:
    """The paragraphs of the bytes of a document of some name or of a text, as they are typed.

    Raises `UnreadableText`. What the check raises ends the reading of a document.
    """
    kind = how.reading.kind or ManuscriptKind.TEXT
    replacer = Replacer(how.replacements)
    if not kind.is_document:
        found = replacer.passages(passages(data, by_lines))
        kept = b"" if how.replacements else data
        return Taken(found, replacer.counts, data=kept)
    # imported here, since a text needs nothing of what reads documents
    from braildesk.desk.documents.document import read_document

    try:
        document = read_document(data, kind, how.reading, name, check)
    except NoDocument as fault:
        if fault.why is WhyNot.DAMAGED and not is_of_kind(name, data, kind):
            raise NoDocument(WhyNot.OTHER_KIND) from fault
        raise
    document = replace(document, parts=replacer.parts(document.parts))
    return Taken(_passages_of(document, how.volumes), replacer.counts, document)


def _passages_of(
    manuscript: "Manuscript", volumes: int | None
) -> tuple[DocumentPassage, ...]:
    """The paragraphs of a document as they are typed; volumes begin at headings of a level.

    What stands before the text, as its title, is in one volume with the first of these.
    """
    parts = manuscript.parts
    fronts = len(list(takewhile(lambda part: part.is_front, parts)))
    levels = [part.level for part in parts]
    begin = {n for n, level in enumerate(levels) if volumes and level == volumes}
    if fronts in begin:
        begin = begin - {fronts} | {0}
    return tuple(
        DocumentPassage(
            (TextLine(part.text, Position(number + 1, 1)),),
            Style.HEADING if part.is_heading else Style.BODY,
            number in begin,
        )
        for number, part in enumerate(parts)
    )


def read_bytes(path: Path) -> bytes:
    """The bytes of a manuscript, of which documents may have more than texts.

    Raises `OSError`, and `OthersLink` where a link of another user leads to it.
    """
    with _opened_by_own_links(path) as file:
        most = limits.TEXT_BYTES
        if not is_handed_over(path) and is_container(_seen(file.fileno())):
            most = limits.DOCUMENT_BYTES
        return read_opened(file, path, most)


def read_again(path: Path) -> bytes:
    """The bytes of a manuscript that was read before, never what is handed over now by its name.

    Raises `OSError`, also where a link of another user leads to it.
    """
    try:
        with place_of(own_path(fspath(path))) as place:
            file = open_file(place.name or ".", os.O_NOFOLLOW, place.folder)
    except OthersLink as its:
        why = f"the link “{its.link}” is another user's"
        raise OSError(errno.ELOOP, why, fspath(path)) from its
    with file:
        return read_opened(file, path, limits.DOCUMENT_BYTES)


def _opened_by_own_links(path: Path) -> BinaryIO:
    """A manuscript, open for reading, to which no link of another user leads, whenever it is put there."""
    named = fspath(path)
    if is_descriptor(path) or "\0" in named:
        return opened(path)
    with place_of(own_path(named)) as place:
        return open_file(place.name or ".", os.O_NOFOLLOW, place.folder)


def _seen(file: int) -> bytes:
    """How an open file begins, of which nothing is read by that; nothing where it isn't seen."""
    try:
        return os.pread(file, len(_BOOK), 0)
    except OSError:
        # as of what the system says in a file
        return b""


def _of_book(path: Path, wait: float) -> tuple["Manuscript", Access]:
    """A book as it is read; `Failed` if its session is lost, which isn't that of any other book."""
    try:
        return _of_open_book(path, wait)
    except Lost as lost:
        name = shortened(str(path), len(str(path)))
        said = f"The book {name} was not read to its end. {lost.sentence}"
        raise Failed(said) from lost


def _of_open_book(path: Path, wait: float) -> tuple["Manuscript", Access]:
    """A book, or a copy of it where it can't be opened: what another program had kept a moment ago."""
    try:
        session = Session(path, timeout=wait)
    except CannotOpen as refusal:
        if refusal.why not in (Why.IN_USE, *LOOKED_AT_BY_COPY):
            raise
        # imported here, since few books are such
        from braildesk.desk.copied_book import copied_session

        with copied_session(path) as (session, copy):
            found = _of_session(session)
            is_used = refusal.why is Why.IN_USE
            kept_at = session.last_version if is_used else None
            return replace(found, kept_at=kept_at), copy.access_by(session)
    with session:
        return _of_session(session), Access.of_session(session)


def _of_session(session: Session) -> "Manuscript":
    from braildesk.desk.documents.reading import Manuscript, Part

    book = [each for each in session.paragraphs() if not each.struck]
    parts = tuple(
        Part(text, 1 if each.style is Style.HEADING else None)
        for each, text in zip(book, prints(session, book))
    )
    return Manuscript(ManuscriptKind.BOOK, parts)


def _texts(passage: Passage) -> Iterator[str]:
    if len(passage.text) <= limits.PRINT_CHARACTERS:
        yield passage.text
        return
    for line in passage.lines:
        yield Passage((line,)).text
