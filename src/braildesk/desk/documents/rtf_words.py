"""The words of a text in RTF as its groups have them, whatever LibreOffice makes of them."""

import codecs
import re
from dataclasses import dataclass, replace

from braildesk.desk.documents.field_codes import formula_of_code

_SIGNS = re.compile(
    rb"\\bin(?P<count>[0-9]{1,9}) ?|\\'(?P<byte>[0-9a-fA-F]{2})|\\(?P<word>[a-zA-Z]+)(?P<number>-?[0-9]{1,9})? ?"
    rb"|\\(?P<sign>.)|(?P<group>[{}])|(?P<text>[^\\{}\r\n]+)|[\r\n]+|\\",
    re.DOTALL,
)
#: Groups without print; of those that other programs may pass over, these have some.
_SILENT = frozenset(
    b"fonttbl colortbl stylesheet info pict listtext pntext shprslt nonshppict objdata sp ftnsep ftnsepc"
    b" ftncn aftnsep aftnsepc aftncn xe tc txe rxe filetbl nonesttables private template background upr mmath"
    b" header headerl headerr headerf footer footerl footerr footerf objclass objname".split()
)
_WITH_PRINT = frozenset(b"fldinst shpinst shptxt ud".split())
#: The code of a field, of which print shows little.
_CODE = b"fldinst"
#: What is said of a picture by its name, as what describes it and its title, and the groups in which that stands.
_DESCRIPTION, _TITLE = b"wzDescription", b"wzName"
#: The groups of what is said of a picture, and its name if a program gave it that: a title ends otherwise.
_PROPERTIES = frozenset((b"sp", b"sn", b"sv"))
_NUMBERED = re.compile(r".*\d\s*", re.DOTALL)
_OF_PICTURES = frozenset((b"pict", b"sp"))
#: What describes one, or is its name: LibreOffice writes its title so, others a word with a number.
_DESCRIBED = re.compile(
    rb"\{\\sn\s*wz(?:Description|Name(?!\}\s*\{\\sv\s[^{}]*\s\d+\s*\}))\}\s*\{\\sv\s+[^\s}]"
)
#: Groups whose print stands elsewhere, as that of a note does.
_APART = frozenset((b"footnote", b"shptxt"))
#: What ends a paragraph, and what parts words.
_ENDS = frozenset(b"par cell row sect page nestcell nestrow line column".split())
_PARTING = frozenset(
    b"tab emdash endash bullet emspace enspace qmspace lquote ldblquote rdblquote chftn chpgn chdate chtime".split()
)
_SAID = {b"rquote": "\u2019", b"~": " ", b"_": "\u2011"}
#: The code pages of the character sets of fonts; that of symbols has no characters.
_SYMBOLS = 2
_LATIN = "cp1252"
_SYSTEMS = {b"mac": "mac_roman", b"pc": "cp437", b"pca": "cp850"}
_PAGES = {
    77: "mac_roman",
    128: "cp932",
    129: "cp949",
    134: "cp936",
    136: "cp950",
    161: "cp1253",
    162: "cp1254",
}
_PAGES |= {
    163: "cp1258",
    177: "cp1255",
    178: "cp1256",
    186: "cp1257",
    204: "cp1251",
    222: "cp874",
    238: "cp1250",
}


@dataclass(frozen=True, slots=True)
class _Group:
    """What holds in a group: whether it has print, its font, and how many characters stand for one of Unicode
    where that isn't known.
    """

    is_silent: bool = False
    is_begun: bool = True
    is_passed_over: bool = False
    is_in_fonts: bool = False
    is_apart: bool = False
    is_deleted: bool = False
    #: Whether it has the name of what is said of a picture; and no picture in it is seen.
    is_name: bool = False
    is_away: bool = False
    #: Whether it is of what is said of a picture; of what describes one or is its title, how many pieces of text stood
    #: before it.
    is_property: bool = False
    said: int | None = None
    #: Of the code of a field, how many pieces of text stood before it, if it is one and these are whole.
    before: int | None = None
    font: int = 0
    beside: int = 1

    @property
    def is_print(self) -> bool:
        """Whether its text is print, and wasn't deleted."""
        return not (self.is_silent or self.is_deleted)


class _Reader:
    """What reads the signs of a text in RTF."""

    def __init__(self) -> None:
        self.passages: list[str] = []
        self._pieces: list[bytes] = []
        self._text: list[str] = []
        self._group = _Group()
        self._outer: list[_Group] = []
        self._fonts: dict[int, int] = {}
        self._page = _LATIN
        self._usual = 0
        self._skipped = 0
        #: The name of what is said next of a picture; its title, and whether something else describes it.
        self._name = b""
        self._title = ""
        self._is_described = False

    def read(self, data: bytes) -> None:
        """Reads all signs of a text."""
        place = 0
        while found := _SIGNS.match(data, place):
            place = found.end() + int(found["count"] or 0)
            if found["group"]:
                self._turn(found["group"])
            elif found["word"]:
                self._word(found["word"], found["number"])
            elif found["byte"]:
                self._add(bytes([int(found["byte"], 16)]))
            elif found["sign"]:
                self._sign(found["sign"])
            elif found["text"]:
                self._add(found["text"])
        self._end()

    def _turn(self, sign: bytes) -> None:
        self._decode()
        self._skipped = 0
        if sign == b"{":
            self._outer.append(self._group)
            self._group = replace(self._group, is_begun=False, is_apart=False)
        elif self._outer:
            self._text += [" "] if self._group.is_apart else []
            its, self._group = self._group, self._outer.pop()
            if its.before is not None and self._group.before is None:
                code = "".join(self._text[its.before :])
                self._text[its.before :] = (
                    [shown] if (shown := formula_of_code(code)) else []
                )
            self._end_property(its)

    def _end_property(self, its: _Group) -> None:
        """Notes what a group says of a picture; after all that is said of one, writes its title if nothing describes it."""
        if its.said is not None and self._group.said is None:
            words = "".join(self._text[its.said :])
            if self._name.strip() == _TITLE:
                del self._text[its.said :]
                self._title = "" if _NUMBERED.fullmatch(words) else words
            else:
                self._is_described |= bool(words.strip())
        elif not its.is_property:
            is_shown = self._title and not self._is_described
            self._text += [f" {self._title} "] if is_shown else []
            self._title, self._is_described = "", False

    def _word(self, word: bytes, number: bytes | None) -> None:
        self._decode()
        value = int(number or 0)
        group = self._group
        if not group.is_begun:
            self._begin(word)
        match word:
            case b"u" if number:
                if group.is_print:
                    shown = " " if self._is_symbol else chr(value % 0x10000)
                    self._text.append(shown)
                self._skipped = group.beside
            case b"uc":
                self._group = replace(self._group, beside=value)
            case b"f" | b"plain":
                font = value if word == b"f" else self._usual
                self._group = replace(self._group, font=font)
                if word == b"plain":
                    self._group = replace(self._group, is_deleted=False)
            case b"deleted":
                self._group = replace(self._group, is_deleted=number != b"0")
            case b"deff":
                self._usual = value
            case b"fcharset" if self._group.is_in_fonts:
                self._fonts[self._group.font] = value
            case _ if word in _SYSTEMS:
                self._page = _SYSTEMS[word]
            case b"ansicpg":
                self._page = _known(f"cp{value}")
            case _ if self._group.is_silent:
                pass
            case _ if word in _ENDS and group.before is not None:
                self._text.append(" ")
            case _ if word in _ENDS:
                self._end()
            case _ if word in _PARTING:
                self._text.append(" ")
            case _ if word in _SAID and self._group.is_print:
                self._text.append(_SAID[word])

    def _begin(self, word: bytes) -> None:
        """Notes by its first word what a group is."""
        group = self._group
        is_silent = group.is_silent or word in _SILENT
        is_silent |= group.is_passed_over and word not in _WITH_PRINT
        is_away = group.is_away or word in _SILENT - _OF_PICTURES
        names = (_DESCRIPTION, _TITLE)
        is_description = word == b"sv" and self._name.strip() in names
        is_silent &= is_away or not is_description
        if word == b"sn":
            self._name = b""
        if word == b"ud":
            # this one stands in one that has the same in other characters, and is as that around both
            is_silent = any(each.is_silent for each in self._outer[-2:-1])
        self._group = replace(
            group,
            is_silent=is_silent,
            is_begun=True,
            is_passed_over=False,
            is_in_fonts=group.is_in_fonts or word == b"fonttbl",
            is_apart=word in _APART or is_description,
            is_name=word == b"sn",
            is_away=is_away,
            is_property=word in _PROPERTIES,
            said=len(self._text) if is_description else group.said,
            before=self._before(word),
        )
        if self._group.is_apart:
            self._text.append(" ")

    def _before(self, word: bytes) -> int | None:
        """Of the outermost code of a field, which may begin with a word, how many pieces stand before it."""
        is_code = word == _CODE and self._group.before is None
        return len(self._text) if is_code else self._group.before

    def _sign(self, sign: bytes) -> None:
        if sign == b"*":
            self._group = replace(self._group, is_passed_over=True)
        elif sign in b"\r\n" and self._group.before is None:
            self._end()
        elif sign in b"{}\\":
            self._add(sign)
        elif sign in _SAID and self._group.is_print:
            self._decode()
            self._text.append(_SAID[sign])

    def _add(self, text: bytes) -> None:
        self._group = replace(self._group, is_begun=True)
        count = min(self._skipped, len(text))
        self._skipped -= count
        # of a long name, which is none of these, not all is copied at each piece
        if self._group.is_name and len(self._name) <= len(_DESCRIPTION):
            self._name = (self._name + text).lstrip()
        if self._group.is_print:
            self._pieces.append(b" " if self._is_symbol else text[count:])

    @property
    def _is_symbol(self) -> bool:
        return self._fonts.get(self._group.font) == _SYMBOLS

    def _decode(self) -> None:
        if self._pieces:
            charset = self._fonts.get(self._group.font, 0)
            page = _PAGES.get(charset, self._page)
            text = b"".join(self._pieces)
            self._pieces = []
            self._text.append(text.decode(page, "replace"))

    def _end(self) -> None:
        self._decode()
        text = "".join(self._text).encode("utf-16", "surrogatepass")
        self._text = []
        if text:
            self.passages.append(text.decode("utf-16", "replace"))


def _known(page: str) -> str:
    """A code page, if it is known, else the usual one."""
    try:
        return codecs.lookup(page).name
    except LookupError:
        return _LATIN


def passages_of(data: bytes) -> list[str]:
    """The paragraphs of a text in RTF."""
    reader = _Reader()
    reader.read(data)
    return reader.passages


def has_descriptions(data: bytes) -> bool:
    """Whether a text in RTF describes a picture or a shape, or may by its name."""
    return _DESCRIBED.search(data) is not None
