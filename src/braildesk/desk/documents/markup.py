"""The tags of a page of HTML, and the characters of the bytes that it is."""

import codecs
import re
from collections.abc import Iterable, Mapping
from contextlib import suppress
from html import unescape
from html.parser import HTMLParser

from braildesk.desk.documents.kinds import NoDocument, WhyNot
from braildesk.desk.documents.reading import plain
from braildesk.desk.manuscript import decoded

#: Where a page says in what it is encoded; else its front does, or it is of an older system.
_CHARSET = re.compile(rb"(?:charset|encoding)\s*=\s*[\"']?([A-Za-z0-9_.-]+)")
_FRONT = 1024
#: Encodings with more characters than those by whose names pages call them.
_WIDER = {
    "gb2312": "gb18030",
    "gbk": "gb18030",
    "shift_jis": "cp932",
    "euc_kr": "cp949",
}
#: Encodings in which no page can say what it is encoded in, and some that are Python's own.
_OF_NO_PAGE = re.compile(
    r"utf[-_]?(7|16|32).*|undefined|idna|punycode|(raw[-_])?unicode[-_]escape"
)
#: Encodings that many pages name from of old which are in UTF-8: no text in them is that by chance.
_OF_ONE_BYTE = re.compile(r"(iso[-_]?8859|windows[-_]?125|cp125|latin).*")
#: In which many pages are that say nothing of it.
_USUAL = "cp1252"
_MARKS = ((b"\xff\xfe", "utf-16"), (b"\xfe\xff", "utf-16"), (b"", "utf-8-sig"))

#: The elements that part paragraphs, as pandoc has them: all others stand within a line.
BLOCKS = frozenset(
    "address applet area article aside audio blockquote body br button canvas caption case"
    " caution center col colgroup dd default details dialog dir div dl dt embed epigraph equation"
    " example fieldset figcaption figure footer form formalpara frameset h1 h2 h3 h4 h5 h6 head"
    " header hgroup hr html iframe important isindex li main map menu meta nav noframes noscript"
    " note object ol output p para pre procedure progress screen script search section sidebar simpara"
    " source style summary svg switch synopsis table task tbody td textarea tfoot th"
    " thead tip title tr ul video warning".split()
)
#: What parts words and no paragraphs: what stands in a list to choose from, and the title of some fields.
PARTED = frozenset({"legend", "optgroup", "option"})
#: What of a page stands for something else, and what takes tags out of a page that is written in another.
_BESIDE = {"area": "alt", "iframe": "srcdoc", "textarea": "placeholder"}
_ANY_TAG = re.compile("<[^<>]*>")
#: The fields of forms in which no words are seen.
_WORDLESS = frozenset("hidden checkbox radio password file color range image".split())


class Tags(HTMLParser):
    """What finds the tags of a page, whatever their attributes have.

    One that nothing ends is text of the page up to the next end of a tag. `NoDocument` if there are many:
    each is looked for up to the end of the page. All of the page is fed at once.
    """

    #: How many tags and comments of a page nothing may end.
    _MOST_OPEN = 20
    _open_count = 0
    #: Where the tag begins that was found.
    _front = 0

    def parse_starttag(self, i: int) -> int:
        self._front = i
        return self._ended(i, super().parse_starttag(i))

    def parse_endtag(self, i: int) -> int:
        return self._ended(i, super().parse_endtag(i))

    def parse_comment(self, i: int, report: int = 1) -> int:
        return self._ended(i, super().parse_comment(i, bool(report)))

    def parse_pi(self, i: int) -> int:
        return self._ended(i, super().parse_pi(i))

    def parse_html_declaration(self, i: int) -> int:
        return self._ended(i, super().parse_html_declaration(i))

    def parse_marked_section(self, i: int, report: int = 1) -> int:
        # the reader of the library fails at those that it doesn't know
        if self.rawdata.startswith("<![CDATA[", i):
            return super().parse_marked_section(i, bool(report))
        return self.parse_bogus_comment(i)

    def group_words(self, tag: str, attributes: Mapping[str, str | None]) -> str:
        """The words that stand above some of those from which there is to choose in a form, or in place of one."""
        words = (attributes.get("label") or "").strip()
        if tag != "option" or not words:
            return words if tag == "optgroup" else ""
        start = self._front + len(self.get_starttag_text() or "")
        stop = self.rawdata.find("<", start)
        own = self.rawdata[start : stop if stop >= 0 else None]
        return "" if plain(unescape(own)) == plain(words) else words

    def _ended(self, i: int, end: int) -> int:
        """Where a tag ends that begins at a place; or where text ends that it is, since nothing ends it."""
        if end >= 0:
            return end
        self._open_count += 1
        if self._open_count > self._MOST_OPEN:
            raise NoDocument(WhyNot.DAMAGED)
        # some versions of the library drop all that stands after it
        stop = self.rawdata.find(">", i + 1) + 1 or self.rawdata.find("<", i + 1)
        text = self.rawdata[i : stop if stop > 0 else i + 1]
        is_plain = self.convert_charrefs and not self.cdata_elem
        self.handle_data(unescape(text) if is_plain else text)
        return i + len(text)


def field_words(tag: str, attributes: Mapping[str, str | None]) -> str:
    """The words that a field of a form shows, as a button does, or one that is to be filled in."""
    if tag != "input":
        return ""
    kind = (attributes.get("type") or "").lower()
    names = [] if kind in _WORDLESS else ["value", "placeholder"]
    names += {"password": ["placeholder"], "image": ["alt"]}.get(kind, [])
    shown = ((attributes.get(name) or "").strip() for name in names)
    return next(filter(None, shown), "")


def description(attributes: Mapping[str, str | None]) -> str:
    """The words that describe a picture of a page: its own description, or its title."""
    said = ((attributes.get(name) or "").strip() for name in ("alt", "title"))
    return next(filter(None, said), "")


def words_beside(tag: str, attributes: Mapping[str, str | None]) -> str:
    """The words of an element that are shown and that no program types, as of a part of a picture."""
    return _ANY_TAG.sub(" ", attributes.get(_BESIDE.get(tag, "")) or "")


def characters_of_page(data: bytes) -> str:
    """The characters of a page, as it says or is read; raises `UnreadableText`.

    pandoc takes what isn't UTF-8 for Latin 1, with a warning.
    """
    return _said(data) or _strictly(data, [_USUAL]) or decoded(data)


def is_guessed(data: bytes) -> bool:
    """Whether a page is read in an encoding that it doesn't name, and isn't in UTF-8."""
    return not data.isascii() and not _said(data)


def _said(data: bytes) -> str | None:
    """The characters of a page in an encoding that it names, or in UTF-8."""
    names = [_own_name(data)]
    if named := _said_name(data):
        place = len(names) if _OF_ONE_BYTE.fullmatch(named) else 0
        names.insert(place, _WIDER.get(named, named))
    return _strictly(data, names) or _mostly(data, names)


def characters_of_text(data: bytes) -> str:
    """The characters of a text by the mark at its front, else in UTF-8; raises `UnreadableText`."""
    return _strictly(data, [_own_name(data)]) or decoded(data)


def _said_name(data: bytes) -> str | None:
    """What the front of a page says that it is encoded in, by the name that Python has for that."""
    if not (said := _CHARSET.search(data[:_FRONT])):
        return None
    try:
        # which takes strokes at either end for nothing
        named = codecs.lookup(said[1].decode()).name
    except LookupError:
        return None
    return None if _OF_NO_PAGE.fullmatch(named) else named


def _own_name(data: bytes) -> str:
    return next(name for mark, name in _MARKS if data.startswith(mark))


def _strictly(data: bytes, names: Iterable[str]) -> str | None:
    """The characters by the first of some encodings in which all of them are."""
    for name in names:
        with suppress(UnicodeDecodeError, LookupError):
            return data.decode(name)
    return None


def _mostly(data: bytes, names: Iterable[str]) -> str | None:
    """The characters by the first of some encodings in which most are that aren't ASCII.

    What stands for the others has no cells, so that their places are said.
    """
    for name in names:
        with suppress(LookupError):
            found = data.decode(name, errors="replace")
            bad = found.count("\N{REPLACEMENT CHARACTER}")
            if sum(character > "\x7f" for character in found) > 2 * bad:
                return found
    return None
