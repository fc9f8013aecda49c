"""Pages of HTML written so that pandoc keeps the names to which their links lead.

pandoc drops the names of paragraphs and terms, what fields of forms show, and the description of a
picture that has a caption or no address. It doesn't know where an aside ends, nor that a cell ends where
the next one begins, nor that a link leads to another folder of a book in EPUB, reads no page with keys
that nothing ends, and leaves out the title pages of a book, and each CR, also where no LF follows. It
takes templates for print, and parts no characters from their reading: that gets brackets, which print
doesn't need. A page of a book that isn't UTF-8 is written so.
"""

import re
from bisect import bisect_left
from collections import Counter
from collections.abc import Mapping, Sequence
from contextlib import suppress
from dataclasses import dataclass
from html import escape
from io import BytesIO
from pathlib import PurePosixPath
from urllib.parse import unquote
from zipfile import ZipFile

from braildesk.desk.documents.kinds import is_media, part_of, unpacked
from braildesk.desk.documents.markup import (
    BLOCKS,
    PARTED,
    Tags,
    characters_of_page,
    description,
    field_words,
)
from braildesk.desk.documents.package import Package
from braildesk.desk.documents.quotations import QUOTATION, Quotations
from braildesk.desk.documents.reading import whole
from braildesk.desk.documents.table_places import Places, TableSize
from braildesk.desk.manuscript import UnreadableText

_LINE_END = re.compile(r"\r\n?")
#: What begins as a character does that is written by its number, and what is none, or ends without a sign:
#: after two of these the reader of the library takes the rest of a page for print.
_BY_NUMBER = re.compile("&#(?:([0-9]+)(?=[a-fA-F])|(?![0-9]|[xX][0-9a-fA-F]))")
_TITLE_PAGE = re.compile(r"""(epub:type\s*=\s*["'][^"']*)titlepage""")
#: The folders in a link to another page of the same book.
_FOLDERS = re.compile(r"""(\shref\s*=\s*["'])[^"'#:?<>]*/(([^"'#:?<>/]+)#)""")
#: Elements that are written as others. Of those within a line pandoc reads no page if a block ends them.
_WRITTEN = {
    **dict.fromkeys(("aside", "dialog", "figure", "figcaption", "search"), "div"),
    **dict.fromkeys(("dfn", "kbd", "mark", "q"), "span"),
}
#: What a program that saved a page says of its address, and where a link leads.
_SAVED = re.compile(r"saved (?:from url=\([0-9]+\)|with SingleFile\s+url: )([^\s#]+)")
_LINK = re.compile(
    r"""(?<![\w:-])href\s*=\s*(?:"[^"]*"|'[^']*'|[^\s"'>]*)""", re.IGNORECASE
)
#: Elements whose names pandoc drops.
_NAMELESS = frozenset({"dt", "p", "sup"})
#: What says how wide columns are, after which pandoc leaves out cells of columns that it doesn't name.
_COLUMNS = frozenset({"col", "colgroup"})
#: The parts of a table, by how deep they are in it.
_PARTS = {"thead": 0, "tbody": 0, "tfoot": 0, "tr": 1, "td": 2, "th": 2}
_CELLS = frozenset({"td", "th"})
#: The most columns and rows over which a cell goes on where pages are shown, and a width in a tag.
_WIDEST, _HIGHEST = 1_000, 65_534
_WIDTH = re.compile(
    r"""(?<![\w:-])colspan\s*=\s*(?:"[^"]*"|'[^']*'|[^\s"'>]*)""", re.IGNORECASE
)
#: Characters with a reading, and what ends one that isn't ended itself.
_RUBY, _READING = "ruby", "rt"
_AFTER_READING = frozenset({"rt", "rp", "rb", "rtc"})
#: Where a reading ends that nothing ends before; a line may end within one.
_AROUND_READING = BLOCKS - {"br"}
_BRACKET = re.compile("<rp[\\s>]", re.IGNORECASE)
_RUBY_END = re.compile("</ruby", re.IGNORECASE)
_TAG_END = re.compile(r"\s*</")
#: Lines that are shown as they are written, in which a block, as a button, parts no words for pandoc.
_LINES = "pre"
#: What print doesn't show, with all that it has.
_TEMPLATE = "template"


#: Lists, and what pandoc doesn't read beside the items of one: paragraphs, and lists, with which it ends the other.
#: Nor does it read text there, which a line end parts from that before it.
_LISTS, _ITEM = frozenset({"ol", "ul"}), "li"
_BESIDE_ITEMS = _LISTS | frozenset("dl h1 h2 h3 h4 h5 h6 p pre".split())
_LINE_BREAK = "<br/>"


@dataclass(slots=True)
class _List:
    """A list of a page that is written anew: its tag, and the pieces that are this and the end of the last item."""

    tag: str
    front: int
    last_end: int = 0
    is_in_item: bool = False
    #: Whether its tag isn't written yet, since something stands before its first item.
    is_put_off: bool = False


def with_line_feeds(text: str) -> str:
    """A text in which an LF ends each line."""
    return _LINE_END.sub("\n", text)


def readable_page(page: str) -> str:
    """A page whose asides and figures are divisions, its paragraphs and terms with their names inside."""
    return _Rewriting(page, Places()).whole()


def readable_book(data: bytes) -> bytes:
    """A book in EPUB of such pages, all of which are read, and whose title pages aren't called so.

    It has no pictures any more, which aren't looked at.
    """
    with unpacked(data) as container:
        found = dict.fromkeys(container.namelist())
        names = [each for each in found if not each.endswith("/")]
        parts = {name: part_of(container, name) for name in names if not is_media(name)}
        package = Package(container)
        pages = frozenset(page.part for page in package.pages())
        parts[package.part] = package.whole()
    paths = package.paths()
    counts = Counter(PurePosixPath(name).name for name in names)
    places = Places()
    made = BytesIO()
    with ZipFile(made, "w") as other:
        for name in names:
            part = parts.get(name, b"")
            if name in pages:
                page = ""
                with suppress(UnreadableText):
                    page = with_line_feeds(characters_of_page(part))
                part = _Rewriting(page, places, counts).whole().encode()
            other.writestr(name, part)
            if name in paths:
                other.writestr(paths[name], part)
    return made.getvalue()


class _Rewriting(Tags):
    """What writes a page anew; of one of a book, it is counted how many parts there have each name.

    The empty places of its tables are counted with others.
    """

    def __init__(
        self, page: str, places: Places, counts: Mapping[str, int] | None = None
    ) -> None:
        super().__init__(convert_charrefs=False)
        self._page = page = _BY_NUMBER.sub(_ended, page)
        self._counts = counts
        self._fronts = [0, *(end.end() for end in re.finditer("\n", page))]
        self._pieces: list[str] = []
        self._done = 0
        #: Whether the characters that are open have no brackets around their reading, and it is open.
        self._is_bare = self._is_in_reading = False
        #: Whether lines are open that are shown as they are written.
        self._is_in_lines = False
        # they are looked for once: a search from each tag would go on to the end where nothing is found
        self._brackets = [each.start() for each in _BRACKET.finditer(page)]
        self._ruby_ends = [each.start() for each in _RUBY_END.finditer(page)]
        #: The parts of each table that are open, from the outermost on.
        self._tables: list[list[str]] = []
        self._sizes: list[TableSize] = []
        self._places = places
        self._quotations = Quotations(self._pieces, self._put)
        #: The lists that are open.
        self._lists: list[_List] = []
        #: The addresses that the page has itself.
        self._addresses: set[str] = set()
        #: Where the templates begin that are open.
        self._templates: list[int] = []

    def whole(self) -> str:
        """The page as it is written anew."""
        self.feed(self._page)
        self.close()
        self._quotations.end_all(len(self._page))
        end = ")" * self._is_in_reading
        return "".join((*self._pieces, self._page[self._done :], end))

    def handle_starttag(self, tag: str, attrs: list[tuple[str, str | None]]) -> None:
        if tag == _TEMPLATE:
            self._templates.append(self._start())
        self._end_block(tag)
        if tag in BLOCKS and not self._templates:
            self._quotations.begin_block(tag, self._start())
        self._is_in_lines |= tag == _LINES
        if tag == "link" and (dict(attrs).get("rel") or "").lower() == "canonical":
            self._addresses.add((dict(attrs).get("href") or "").partition("#")[0])
        if self._lists and not self._templates:
            self._begin_in_list(tag, self._lists[-1])
        self._begin_part(tag)
        self._measure(tag, dict(attrs))
        if tag in PARTED:
            self._put(self._start(), self._start(), " ")
        after = ""
        if tag in _NAMELESS and (name := dict(attrs).get("id")):
            after = f'<span id="{escape(name)}"></span>'
        elif words := self.group_words(tag, dict(attrs)):
            after = f" {escape(words)} "
        self._rewrite(tag, attrs, after + self._before_reading(tag))
        if tag == QUOTATION and not self._templates:
            stop = self._start() + len(self.get_starttag_text() or "")
            self._quotations.begin(stop)
        elif tag in _LISTS and not self._templates:
            found = self.get_starttag_text() or ""
            self._put(self._start(), self._start() + len(found), found)
            self._lists.append(_List(found, len(self._pieces) - 1))

    def handle_startendtag(self, tag: str, attrs: list[tuple[str, str | None]]) -> None:
        self._rewrite(tag, attrs, "")

    def handle_endtag(self, tag: str) -> None:
        start = self._start()
        self._end_block(tag)
        self._is_in_lines &= tag != _LINES
        self._end_parts(tag)
        if tag in (_READING, _RUBY):
            self._end_reading()
            self._is_bare &= tag != _RUBY
        stop = self._page.find(">", start) + 1 or len(self._page)
        if tag in PARTED:
            self._put(start, start, " ")
        if tag == QUOTATION and not self._templates:
            self._quotations.end(start)
        elif tag in BLOCKS and not self._templates:
            self._quotations.end_block(tag, start)
        if tag in _WRITTEN:
            name = start + len("</")
            self._put(name, name + len(tag), _WRITTEN[tag])
        elif tag in _COLUMNS:
            self._put(start, stop, "")
        elif tag == "br":
            # an end of nothing, which browsers take for the end of a line too
            self._put(start, stop, _LINE_BREAK)
        elif tag == _TEMPLATE and self._templates:
            self._put(self._templates.pop(), stop, "")
        elif self._lists and not self._templates:
            self._end_in_list(tag, start, stop)

    def handle_comment(self, data: str) -> None:
        if saved := _SAVED.search(data):
            self._addresses.add(saved[1])

    def handle_data(self, data: str) -> None:
        # no script or sheet is print
        if data.strip() and not self.cdata_elem:
            front = self._start() + len(data) - len(data.lstrip())
            self._show(front, front + len(data.strip()))

    def handle_charref(self, name: str) -> None:
        self._show(self._start(), self._start() + len(f"&#{name}"))

    def handle_entityref(self, name: str) -> None:
        if name != "nbsp":
            self._show(self._start(), self._start() + len(f"&{name}"))

    def _show(self, start: int, stop: int) -> None:
        """Notes a part of the page that is print, with the sign at its end."""
        if self._lists and not (self._lists[-1].is_in_item or self._templates):
            self._go_on(self._lists[-1], _LINE_BREAK)
        if self._quotations.are_open and not self._templates:
            is_sign = self._page.startswith("&", start)
            stop += is_sign and self._page.startswith(";", stop)
            self._quotations.show(start, stop)

    def _begin_in_list(self, tag: str, its: _List) -> None:
        """Writes no list before paragraphs that stand ahead of its items, and has an item go on with those after it."""
        if tag == _ITEM:
            self._put(self._start(), self._start(), its.tag * its.is_put_off)
            its.is_in_item, its.is_put_off = True, False
        elif tag in _BESIDE_ITEMS and not its.is_in_item:
            self._go_on(its, "")

    def _go_on(self, its: _List, parting: str) -> None:
        """Has the last item go on beside which something stands; ahead of all items, no list is written yet."""
        place = its.last_end or its.front
        if self._pieces[place] != _LINE_BREAK:
            self._pieces[place] = parting
        its.is_put_off = not its.last_end

    def _end_in_list(self, tag: str, start: int, stop: int) -> None:
        """Notes the end of an item, and that of a list, which isn't written if the list isn't."""
        its = self._lists[-1]
        if tag == _ITEM and its.is_in_item:
            self._put(start, stop, self._page[start:stop])
            its.is_in_item, its.last_end = False, len(self._pieces) - 1
        elif tag in _LISTS:
            self._lists.pop()
            parting = _LINE_BREAK * (self._pieces[its.front] == _LINE_BREAK)
            end = parting if its.is_put_off else self._page[start:stop]
            self._put(start, stop, end)

    def _begin_part(self, tag: str) -> None:
        """Ends the parts of a table that end where another begins, and notes that one."""
        if tag == "table":
            self._tables.append([])
            self._sizes.append(TableSize(self._places))
        elif tag in _PARTS and self._tables:
            self._close_parts(_PARTS[tag])
            self._tables[-1].append(tag)

    def _measure(self, tag: str, attributes: Mapping[str, str | None]) -> None:
        """Counts the places of a row or a cell that begins; raises `NoDocument` if there are too many."""
        if tag == "tr" and self._sizes:
            self._sizes[-1].begin_row()
        elif tag in _CELLS and self._sizes:
            height = max(whole((attributes.get("rowspan") or "").strip(), 1), 1)
            self._sizes[-1].add_cell(_width(attributes), min(height, _HIGHEST))

    def _end_parts(self, tag: str) -> None:
        """Ends the parts of a table that end with the one around them."""
        if tag == "table" and self._tables:
            self._close_parts(0)
            self._tables.pop()
            self._sizes.pop()
        elif tag in _PARTS and self._tables and tag in self._tables[-1]:
            self._close_parts(_PARTS[tag] + 1)
            self._tables[-1].remove(tag)

    def _close_parts(self, depth: int) -> None:
        """Writes the ends of the parts that are open, from some depth on."""
        parts = self._tables[-1]
        while parts and _PARTS[parts[-1]] >= depth:
            self._put(self._start(), self._start(), f"</{parts.pop()}>")

    def _before_reading(self, tag: str) -> str:
        """What parts characters from their reading that begins with a tag, if it is one without brackets."""
        stop = self._start() + len(self.get_starttag_text() or "")
        if tag == _RUBY:
            end, bracket = self._first(self._ruby_ends), self._first(self._brackets)
            self._is_bare = bracket >= end
        elif tag in _AFTER_READING:
            self._end_reading()
            is_empty = _TAG_END.match(self._page, stop)
            self._is_in_reading = self._is_bare and tag == _READING and not is_empty
            return "(" if self._is_in_reading else ""
        return ""

    def _first(self, places: Sequence[int]) -> int:
        """The first of some places after the tag that was found, else the end of the page."""
        found = bisect_left(places, self._start())
        return places[found] if found < len(places) else len(self._page)

    def _end_block(self, tag: str) -> None:
        """Ends characters that are still open where a block begins or ends, with their reading; and a
        line of those that are shown as they are written."""
        if tag in _AROUND_READING:
            self._end_reading()
            self._is_bare = False
            if self._is_in_lines and tag != _LINES:
                self._put(self._start(), self._start(), "\n")

    def _end_reading(self) -> None:
        if self._is_in_reading:
            self._put(self._start(), self._start(), ")")
            self._is_in_reading = False

    def _rewrite(
        self, tag: str, attrs: list[tuple[str, str | None]], after: str
    ) -> None:
        found = written = self.get_starttag_text() or ""
        start = self._start()
        words = field_words(tag, dict(attrs))
        is_print = words or tag == "img" and description(dict(attrs))
        if is_print:
            self._show(start, start)
        if tag in _WRITTEN:
            written = f"<{_WRITTEN[tag]}{written[1 + len(tag) :]}"
        if tag in _COLUMNS:
            written = ""
        if tag in _CELLS and "colspan" in dict(attrs):
            # as it was counted, however it is written; the blank parts it from what comes after it
            written = _WIDTH.sub(f"colspan={_width(dict(attrs))} ", written)
        if words:
            written = f" {escape(words)} "
        if tag == "img" and "src" not in dict(attrs):
            # it has its address elsewhere, or shows its description, or nothing
            names = ("alt", "title", "srcset", "data-src")
            is_shown = any(map(dict(attrs).get, names))
            written = f'<img src=""{written[1 + len(tag) :]}' if is_shown else ""
        address, has_name, name = (dict(attrs).get("href") or "").partition("#")
        if tag == "a" and has_name and address in self._addresses:
            # as a browser writes a link within a page that it saves
            written = _LINK.sub(lambda _: f'href="#{escape(name)}" ', written)
        if self._counts is not None:
            if "titlepage" in (dict(attrs).get("epub:type") or ""):
                written = _TITLE_PAGE.sub(r"\1front", written)
            if tag == "a":
                written = _FOLDERS.sub(self._without_folders, written)
        if after or written != found:
            self._put(start, start + len(found), written + after)
        if is_print:
            self._show(start + len(found), start + len(found))

    def _without_folders(self, link: re.Match[str]) -> str:
        # of two pages with one name it would lead to the first
        assert self._counts is not None
        return (
            link[0] if self._counts.get(unquote(link[3]), 0) > 1 else link[1] + link[2]
        )

    def _start(self) -> int:
        """Where in the page the tag begins that was found."""
        line, offset = self.getpos()
        return self._fronts[line - 1] + offset

    def _put(self, start: int, stop: int, written: str) -> None:
        if self._templates:
            return
        self._pieces += (self._page[self._done : start], written)
        self._done = stop


def _ended(begun: re.Match[str]) -> str:
    """A character by its number with the sign that ends it, or signs that are print."""
    return f"&#{begun[1]};" if begun[1] else "&amp;#"


def _width(attributes: Mapping[str, str | None]) -> int:
    """Over how many columns a cell goes on."""
    width = (attributes.get("colspan") or "").strip()
    return min(max(whole(width, 1), 1), _WIDEST)
