"""The text of a document in DOC as the file has it, and its fields as LibreOffice shows them as they are.

It works out the results of many fields anew: it shows the day of today, what it knows of the file and of other places,
or a fault, in place of what stands there; and drops results, or what is after them, where fields stand in fields.
"""

import re
import struct
from collections.abc import Iterator, Sequence, Sized
from dataclasses import dataclass, field
from itertools import pairwise
from xml.etree.ElementTree import Element

from braildesk.desk.documents.field_codes import formula_of_code
from braildesk.desk.documents.kinds import part_of, root_of, unpacked
from braildesk.desk.documents.streams import DAMAGED, streams_of

_STREAMS = ("WordDocument", "0Table", "1Table")
#: What a text of Word since 1997 begins with, what says that it is encrypted, and which of two streams has its tables.
_MAGIC, _IS_ENCRYPTED, _IS_SECOND = 0xA5EC, 0x0100, 0x0200
#: Which of the tables say where the text is, and where the fields of each of its stories are.
_PIECES, _FIELDS = 33, (16, 17, 18, 19, 48, 57, 59)
#: The lengths of the stories, and that of what stands at the edges of pages, which isn't looked at.
_STORIES, _EDGES = range(3, 11), 5
#: Where a piece of the text has one byte for each character.
_IS_NARROW = 1 << 30
#: The signs around the code and the result of a field.
_BEGIN, _RESULT, _END = 0x13, 0x14, 0x15
_SIGNS = re.compile("[\x13-\x15]|[^\x13-\x15]+")
#: How many fields may be open at once, which is far more than those of any text are.
_DEEPEST = 100
#: The kinds of fields whose results are to be shown as they are, as dates, references, numbers and conditions.
_SHOWN = frozenset((3, 5, 7, 10, 12, *range(14, 36), 37, 39, 40, 44, 59, 60, 61, 62))
_SHOWN |= {64, 65, 66, 68, 72, 75, 79, 80, 85, 93, 94, 95}
#: The kinds that LibreOffice shows so: whatever fields are in their results, and in their codes.
_WITH_FIELDS, _WITH_FIELDS_IN_CODE = 89, 10
#: Fields whose results nobody sees.
_UNSEEN = re.compile(r"\s*(SET|ASK)\b", re.IGNORECASE)
#: What ends a paragraph, and what is no character of it: numbers of notes and pictures part words.
_ENDS = re.compile("[\r\x07\x0c\x0e]")
_CHARACTERS = str.maketrans(
    {**dict.fromkeys("\x01\x02\x0b", " "), "\x1e": "\u2011", "\x1f": None, "\x05": None}
)
_W = "{http://schemas.openxmlformats.org/wordprocessingml/2006/main}"
_DOCX_TEXT = "word/document.xml"


class _File:
    """A text in DOC: where its parts are; raises what `DAMAGED` has."""

    def __init__(self, data: bytes) -> None:
        streams = streams_of(data, _STREAMS)
        self._front = streams[_STREAMS[0]].of(data)
        magic, flags = struct.unpack_from("<H8xH", self._front)
        if magic != _MAGIC:
            raise ValueError(magic)
        self.is_encrypted = bool(flags & _IS_ENCRYPTED)
        self.tables = streams[_STREAMS[1 + bool(flags & _IS_SECOND)]]
        self._table = self.tables.of(data)
        (count,) = struct.unpack_from("<H", self._front, 32)
        self._lengths = 34 + 2 * count
        (count,) = struct.unpack_from("<H", self._front, self._lengths)
        self._places = self._lengths + 2 + 4 * count

    def table(self, number: int) -> tuple[int, bytes]:
        """Where in the stream of tables one begins, and its bytes."""
        (count,) = struct.unpack_from("<H", self._front, self._places)
        if number >= count:
            return 0, b""
        start, size = struct.unpack_from(
            "<II", self._front, self._places + 2 + 8 * number
        )
        return start, self._table[start : start + size]

    def fields(self) -> list[tuple[int, bytes]]:
        """Where in the stream of tables those of fields begin, and their bytes, none of which two have."""
        found = [self.table(number) for number in _FIELDS]
        if sum(len(table) for _, table in found) > len(self._table):
            raise ValueError(found)
        return found

    def stories(self) -> Iterator[str]:
        """The text, its notes, its comments and its text boxes."""
        # a pair of signs that is one character counts as two
        text = b"".join(self._pieces())
        start = 0
        for number in _STORIES:
            place = self._lengths + 2 + 4 * number
            (length,) = struct.unpack_from("<I", self._front, place)
            stop = start + 2 * length
            if number != _EDGES:
                yield text[start:stop].decode("utf-16-le", "replace")
            start = stop

    def _pieces(self) -> Iterator[bytes]:
        """The pieces of the text, with two bytes for each sign."""
        _, table = self.table(_PIECES)
        place = 0
        # what stands ahead says how texts look
        while table[place] == 1:
            place += 3 + struct.unpack_from("<H", table, place + 1)[0]
        count = (struct.unpack_from("<I", table, place + 1)[0] - 4) // 12
        places = struct.unpack_from(f"<{count + 1}I", table, place + 5)
        if [*places] != sorted(places) or places[-1] > len(self._front):
            raise ValueError(places)
        front = place + 5 + 4 * (count + 1)
        for number, (first, last) in enumerate(pairwise(places)):
            (where,) = struct.unpack_from("<I", table, front + 8 * number + 2)
            if where & _IS_NARROW:
                start = (where ^ _IS_NARROW) // 2
                text = self._front[start : start + last - first]
                yield text.decode("cp1252", "replace").encode("utf-16-le")
            else:
                yield self._front[where : where + 2 * (last - first)]


def is_encrypted(data: bytes) -> bool:
    """Whether a text in DOC says that a password is needed to read it."""
    try:
        return _File(data).is_encrypted
    except DAMAGED:
        return False


def as_shown(data: bytes) -> bytes:
    """A text in DOC whose fields LibreOffice shows as they are in it; the same if it is damaged."""
    made = bytearray(data)
    try:
        file = _File(data)
        for start, table in file.fields():
            for offset, kind in _kinds(table):
                made[file.tables.place(start + offset)] = kind
    except DAMAGED:
        return data
    return bytes(made)


def _kinds(table: bytes) -> Iterator[tuple[int, int]]:
    """The places in a table of fields where another kind is to stand, with that."""
    count = max(len(table) - 4, 0) // 6
    front = 4 * (count + 1)
    #: The fields that are open: where their kinds are, whether their results have begun, and there are fields in
    #: their codes.
    opened: list[list[int]] = []
    for place in range(front, front + 2 * count, 2):
        match table[place] & 0x1F:
            case sign if sign == _BEGIN:
                if opened and not opened[-1][1]:
                    opened[-1][2] = True
                opened.append([place + 1, False, False])
                _check_depth(opened)
            case sign if sign == _RESULT and opened:
                opened[-1][1] = True
            case sign if sign == _END and opened:
                its, has_result, has_fields = opened.pop()
                if has_result and has_fields:
                    yield its, _WITH_FIELDS_IN_CODE
                elif has_result and table[its] in _SHOWN:
                    yield its, _WITH_FIELDS


def _check_depth(opened: Sized) -> None:
    """Raises `ValueError` if more fields are open than may be."""
    if len(opened) > _DEEPEST:
        raise ValueError(len(opened))


def passages_of(data: bytes) -> list[str] | None:
    """The paragraphs of a text in DOC; None if it is damaged, or of the form before that of 1997."""
    try:
        texts = ["".join(_print(story)) for story in _File(data).stories()]
    except DAMAGED:
        return None
    shown = (text.translate(_CHARACTERS) for text in texts)
    return [each for text in shown for each in _ENDS.split(text) if each.strip()]


@dataclass(slots=True)
class _Field:
    """A field that is open: the pieces of its code and of its result where nothing is seen, and whether this has
    begun, and nothing of it is seen here."""

    code: list[str] = field(default_factory=list)
    result: list[str] = field(default_factory=list)
    has_result: bool = False
    is_unseen: bool = True

    def add(self, pieces: Sequence[str]) -> None:
        """Adds what stands in it."""
        (self.result if self.has_result else self.code).extend(pieces)

    def shown(self) -> Sequence[str]:
        """What is seen of it: its result, or the parts of a formula that has none."""
        if not self.has_result:
            return [formula_of_code("".join(self.code))]
        return [] if self.is_unseen else self.result

    def begin_result(self) -> bool:
        """Begins its result, and says whether that is seen, of which nothing was until here."""
        # its sign may stand there again
        if not self.has_result:
            self.has_result = True
            self.is_unseen = _UNSEEN.match("".join(self.code)) is not None
            return not self.is_unseen
        return False


def _print(story: str) -> Iterator[str]:
    """What is seen of a story: all but the codes of its fields, and of some their results."""
    opened: list[_Field] = []
    #: Of how many of these nothing is seen here.
    hidden = 0
    for piece in (found[0] for found in _SIGNS.finditer(story)):
        match piece:
            case "\x13":
                opened.append(_Field())
                hidden += 1
                _check_depth(opened)
            case "\x14" if opened:
                hidden -= opened[-1].begin_result()
            case "\x15" if opened:
                its = opened.pop()
                hidden -= its.is_unseen
                if hidden:
                    # it may be a part of a formula
                    opened[-1].add(its.shown())
                elif not its.has_result:
                    yield from its.shown()
            case _ if not hidden:
                yield piece
            case _:
                opened[-1].add([piece])


def letters_of(container: bytes) -> list[str]:
    """The characters of symbols in the DOCX that LibreOffice makes of a text, which has letters of a font there."""
    with unpacked(container) as made:
        root = root_of(part_of(made, _DOCX_TEXT))
    return [
        "".join(map(_letter, paragraph.iter()))
        for paragraph in root.iter(f"{_W}p")
        if next(paragraph.iter(f"{_W}sym"), None) is not None
    ]


def _letter(element: Element) -> str:
    """The letter that a symbol has; else what parts it from others."""
    if element.tag == f"{_W}sym":
        number = re.fullmatch("[fF]0([0-9a-fA-F]{2})", element.get(f"{_W}char", ""))
        return chr(int(number[1], 16)) if number else ""
    return " " if element.tag == f"{_W}t" else ""
