"""Which kind of manuscript a file is, by what it begins with and what it contains."""

import zlib
from collections.abc import Iterator, Sequence
from contextlib import contextmanager, suppress
from enum import Enum, auto
from io import BytesIO
from pathlib import PurePath
from posixpath import normpath
from typing import TYPE_CHECKING

from braildesk.desk.manuscript import UnreadableText

if TYPE_CHECKING:
    from xml.etree.ElementTree import Element
    from zipfile import ZipFile


class ManuscriptKind(Enum):
    """A kind of manuscript, by the name that pandoc has for it where it reads that kind."""

    TEXT = "text"
    MARKDOWN = "markdown"
    HTML = "html"
    DOCX = "docx"
    ODT = "odt"
    EPUB = "epub"
    RTF = "rtf"
    DOC = "doc"
    BOOK = "book"

    @property
    def is_document(self) -> bool:
        """Whether another program reads it."""
        return self not in (ManuscriptKind.TEXT, ManuscriptKind.BOOK)


class WhyNot(Enum):
    """Why a file isn't read as a document."""

    OTHER = auto()
    PDF = auto()
    DAMAGED = auto()
    OTHER_KIND = auto()
    TOO_LARGE = auto()
    TOO_DEEP = auto()
    TABLES = auto()
    ENCRYPTED = auto()
    COPY_PROTECTED = auto()
    BOOK = auto()
    STYLES = auto()


class NoDocument(UnreadableText):
    """A file isn't read as a document, and why."""

    def __init__(self, why: WhyNot) -> None:
        super().__init__(why)
        self.why = why


class NoConverter(UnreadableText):
    """The program that reads a kind of document isn't installed."""

    def __init__(self, kind: ManuscriptKind, name: str, package: str) -> None:
        super().__init__(kind, name, package)
        self.kind = kind
        #: The program, and Debian's package of it.
        self.name = name
        self.package = package


class NotConverted(UnreadableText):
    """A document that a program can't read, with what it said of that, if it did."""

    def __init__(self, name: str, said: str) -> None:
        super().__init__(name, said)
        self.name = name
        self.said = said


class Spent(Enum):
    """What a program takes more of for a document than for any book."""

    TIME = auto()
    MEMORY = auto()


class BrokenOff(UnreadableText):
    """A program takes more time or memory for a document than for any book."""

    def __init__(self, name: str, spent: Spent) -> None:
        super().__init__(name, spent)
        self.name = name
        self.spent = spent


class NotRead(UnreadableText):
    """What pandoc makes of a document isn't what is known of it."""


#: How many bytes of the text of a container are read at most, unpacked.
MOST_BYTES = 256 << 20
#: How many signs that begin a tag these have at most: each element takes time, and memory many times
#: its bytes.
MOST_TAGS = 16 << 20
#: Pictures, sounds and fonts, which aren't unpacked.
_MEDIA = frozenset(
    ".png .jpg .jpeg .gif .emf .wmf .tif .tiff .bmp .webp .mp3 .m4a .mp4 .ogg .ttf .otf .woff .woff2"
    " .bin".split()
)

#: How deeply the elements of a part stand within each other at most; in most manuscripts that is 30.
_LEVELS = 300
#: How many bytes of the front of a file are looked at.
_FRONT = 1024
_ZIP = b"PK\x03\x04"
_OLE = b"\xd0\xcf\x11\xe0\xa1\xb1\x1a\xe1"
_BOOK = b"SQLite format 3\0"
_MARK = b"\xef\xbb\xbf"
_HTML = (b"<!doctype html", b"<html", b"<?xml", b"<!--")
_MIME = {
    b"application/epub+zip": ManuscriptKind.EPUB,
    b"application/vnd.oasis.opendocument.text": ManuscriptKind.ODT,
    b"application/vnd.oasis.opendocument.text-template": ManuscriptKind.ODT,
    b"application/vnd.oasis.opendocument.text-web": ManuscriptKind.ODT,
}
_BY_NAME = {
    ".md": ManuscriptKind.MARKDOWN,
    ".markdown": ManuscriptKind.MARKDOWN,
    ".mkd": ManuscriptKind.MARKDOWN,
    ".html": ManuscriptKind.HTML,
    ".htm": ManuscriptKind.HTML,
    ".xhtml": ManuscriptKind.HTML,
}
#: How the fonts of a book in EPUB are hidden, which keeps nobody from reading it.
_HIDDEN_FONTS = frozenset(
    {"http://www.idpf.org/2008/embedding", "http://ns.adobe.com/pdf/enc#RC"}
)
_ENCRYPTED_FLAG, _UTF8_FLAG = 1, 0x800
_TAG = b"<"
#: The part that a text in ODT has, and the part of its styles, which is all that some templates have.
_ODT_TEXT, _ODT_STYLES = "content.xml", "styles.xml"
#: The parts by which a container is known, of which a folder around all others is found.
_KNOWN = ("mimetype", "META-INF/container.xml", "[Content_Types].xml")

#: What is raised for containers that are damaged, or made to do damage.
_FAULTS = (
    zlib.error,
    NotImplementedError,
    RuntimeError,
    EOFError,
    LookupError,
    ValueError,
    OSError,
)


def kind_of(name: str, data: bytes) -> ManuscriptKind:
    """The kind of a file of some bytes, whose name tells Markdown and parts of HTML from text.

    Raises `NoDocument`.
    """
    if data.startswith(_BOOK):
        raise NoDocument(WhyNot.BOOK)
    if data.startswith(_ZIP):
        return _kind_of_zip(data)
    if data.startswith(_OLE):
        return _kind_of_ole(data)
    if data.startswith(b"{\\rtf"):
        return ManuscriptKind.RTF
    if data.startswith(b"%PDF-"):
        raise NoDocument(WhyNot.PDF)
    front = data.removeprefix(_MARK)[:_FRONT].lstrip().lower()
    if front.startswith(_HTML) and b"<html" in front:
        return ManuscriptKind.HTML
    return _BY_NAME.get(PurePath(name).suffix.lower(), ManuscriptKind.TEXT)


def is_of_kind(name: str, data: bytes, kind: ManuscriptKind) -> bool:
    """Whether a file that can't be read as a document of a kind is one by its bytes or its name."""
    try:
        return kind_of(name, data) is kind
    except NoDocument as fault:
        return fault.why is WhyNot.DAMAGED


def is_container(front: bytes) -> bool:
    """Whether a file that begins so may have more than text, as pictures."""
    return front.startswith((_ZIP, _OLE, b"{\\rtf"))


@contextmanager
def unpacked(data: bytes) -> Iterator["ZipFile"]:
    """The container that some bytes are; `NoDocument` if it can't be read, or has too much."""
    # imported here, since a text needs none of it
    from xml.etree.ElementTree import ParseError
    from zipfile import BadZipFile, ZipFile

    try:
        with ZipFile(BytesIO(data)) as container:
            sizes = [
                entry.file_size
                for entry in container.infolist()
                if not is_media(entry.filename)
            ]
            if sum(sizes) > MOST_BYTES:
                raise NoDocument(WhyNot.TOO_LARGE)
            yield container
    except RecursionError as fault:
        raise NoDocument(WhyNot.TOO_DEEP) from fault
    except (BadZipFile, ParseError, *_FAULTS) as fault:
        raise NoDocument(WhyNot.DAMAGED) from fault


def repacked(data: bytes) -> bytes:
    """A container whose parts have the names that its standard wants, if it can be read; else `NoDocument`.

    Some are packed with a folder around all of them, with names in UTF-8 that aren't said to be, or with
    strokes of another system. One that is packed anew has no pictures any more, which aren't looked at.
    """
    # imported here, since a text needs none of it
    from zipfile import ZipFile

    with unpacked(data) as container:
        entries = [each for each in container.infolist() if not each.is_dir()]
        named = [_usual_name(each.filename, each.flag_bits) for each in entries]
        folder = _folder_around(named)
        names = [each.removeprefix(folder) for each in named]
        if any(each.flag_bits & _ENCRYPTED_FLAG for each in entries):
            return data
        _judge_tags(container)
        # one of many parts with one name would be read for each of them
        is_each_one = len({*names}) == len(names)
        if is_each_one and names == [each.filename for each in entries]:
            return data
        made = BytesIO()
        with ZipFile(made, "w") as other:
            # of parts with one name the last one counts, as where they are read
            for name, entry in dict(zip(names, entries)).items():
                # a part that wasn't counted by its own name isn't unpacked
                is_uncounted = is_media(entry.filename) or is_media(name)
                part = b"" if is_uncounted else part_of(container, entry.filename)
                other.writestr(name, part)
    return made.getvalue()


def _judge_tags(container: "ZipFile") -> None:
    """`NoDocument` if a container has more tags than any manuscript."""
    from zipfile import BadZipFile  # as above

    # of parts with one name the last one counts, as where they are read
    sizes = {each.filename: each.file_size for each in container.infolist()}
    texts = [name for name in sizes if not is_media(name)]
    if sum(sizes[name] for name in texts) <= MOST_TAGS:
        return
    count = 0
    for name in texts:
        # what is damaged may be a part that nobody reads
        with suppress(BadZipFile, *_FAULTS):
            count += part_of(container, name).count(_TAG)
    if count > MOST_TAGS:
        raise NoDocument(WhyNot.TOO_LARGE)


def _usual_name(name: str, flags: int) -> str:
    """The name of a part, with plain strokes and all its characters."""
    if not flags & _UTF8_FLAG:
        with suppress(UnicodeError):
            name = name.encode("cp437").decode("utf-8")
    return normpath(name.replace("\\", "/")).lstrip("/")


def _folder_around(names: Sequence[str]) -> str:
    """The folder in which all is that a container is known by, with a stroke, if there is one."""
    if not any(known in names for known in _KNOWN):
        for known in _KNOWN:
            found = [each for each in names if each.endswith(f"/{known}")]
            if found:
                return found[0].removesuffix(known) if len(found) == 1 else ""
    return ""


def is_media(name: str) -> bool:
    """Whether a part of a container is a picture, a sound or a font."""
    return PurePath(name).suffix.lower() in _MEDIA


def part_of(container: "ZipFile", name: str) -> bytes:
    """The bytes of a part, of which no more is unpacked than any manuscript has."""
    with container.open(name) as part:
        return part.read(MOST_BYTES)


def root_of(part: bytes) -> "Element":
    """The elements of a part in XML; `NoDocument` if they are too many, or stand too deeply within
    each other.

    What is asked of each with all that it has would take for ever.
    """
    # imported here, since a text needs none of it
    from xml.etree import ElementTree

    if part.count(_TAG) > MOST_TAGS:
        raise NoDocument(WhyNot.TOO_LARGE)
    root = ElementTree.fromstring(part)
    row = [root]
    for _ in range(_LEVELS):
        row = [inner for element in row for inner in element]
        if not row:
            return root
    raise NoDocument(WhyNot.TOO_DEEP)


def _kind_of_zip(data: bytes) -> ManuscriptKind:
    with unpacked(repacked(data)) as container:
        names = frozenset(container.namelist())
        if any(each.flag_bits & _ENCRYPTED_FLAG for each in container.infolist()):
            raise NoDocument(WhyNot.ENCRYPTED)
        kind = None
        if "mimetype" in names:
            with container.open("mimetype") as part:
                kind = _MIME.get(part.read(_FRONT).removeprefix(_MARK).strip())
        elif "[Content_Types].xml" in names:
            if any(name.startswith("word/document") for name in names):
                kind = ManuscriptKind.DOCX
        elif "META-INF/container.xml" in names:
            kind = ManuscriptKind.EPUB
        if kind is None:
            raise NoDocument(WhyNot.OTHER)
        _judge_open(container, kind, names)
    return kind


def _judge_open(
    container: "ZipFile", kind: ManuscriptKind, names: frozenset[str]
) -> None:
    """`NoDocument` if the parts of a container are encrypted each by itself."""
    manifest, rights = "META-INF/manifest.xml", "META-INF/encryption.xml"
    if kind is ManuscriptKind.ODT and _ODT_TEXT not in names and _ODT_STYLES in names:
        raise NoDocument(WhyNot.STYLES)
    if kind is ManuscriptKind.ODT and manifest in names:
        if _is_encrypted(part_of(container, manifest)):
            raise NoDocument(WhyNot.ENCRYPTED)
    if kind is ManuscriptKind.EPUB and rights in names:
        root = root_of(part_of(container, rights))
        for data in root.iterfind("{*}EncryptedData"):
            method = data.find("{*}EncryptionMethod")
            if method is None or method.get("Algorithm") not in _HIDDEN_FONTS:
                raise NoDocument(WhyNot.COPY_PROTECTED)


def _is_encrypted(manifest: bytes) -> bool:
    """Whether the list of the parts of a text in ODT says so, of which LibreOffice reads some without an
    address for their prefix."""
    # imported here, since a text needs none of it
    from xml.etree.ElementTree import ParseError
    from xml.parsers.expat import errors

    try:
        found = root_of(manifest).iterfind(".//{*}encryption-data")
        return next(found, None) is not None
    except ParseError as fault:
        if fault.code != errors.codes[errors.XML_ERROR_UNBOUND_PREFIX]:
            raise
    return b"encryption-data" in manifest


def _kind_of_ole(data: bytes) -> ManuscriptKind:
    """The kind of a file of older programs, or of one that newer ones have encrypted."""
    if "EncryptedPackage".encode("utf-16-le") in data:
        raise NoDocument(WhyNot.ENCRYPTED)
    if "WordDocument".encode("utf-16-le") in data:
        return ManuscriptKind.DOC
    raise NoDocument(WhyNot.OTHER)
