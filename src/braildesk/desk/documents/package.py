"""The pages of a book in EPUB, of which some may be outside of the order in which it is read.

Notes and answers are often there, and links lead to them; pandoc leaves them out.
"""

from collections import Counter
from collections.abc import Iterator
from dataclasses import dataclass
from pathlib import PurePosixPath
from posixpath import normpath
from urllib.parse import unquote
from xml.etree import ElementTree
from xml.etree.ElementTree import Element, SubElement
from zipfile import ZipFile

from braildesk.desk.documents.kinds import part_of, root_of

_PAGE = "application/xhtml+xml"


@dataclass(frozen=True, slots=True)
class Page:
    """A page: its part of the container, and whether the order of reading has it."""

    part: str
    is_in_order: bool
    #: Whether it is the list by which a program finds the pages.
    is_list: bool


class Package:
    """The part of a book that says which pages it has."""

    def __init__(self, container: ZipFile) -> None:
        rootfile = _root(container, "META-INF/container.xml").find(".//{*}rootfile")
        self.part = "" if rootfile is None else rootfile.get("full-path", "")
        self._root = _root(container, self.part)
        self._parts = frozenset(container.namelist())
        self._items = {
            item.get("id"): item for item in self._root.iterfind(".//{*}item")
        }
        parts: list[str] = []
        firsts: dict[str, Element] = {}
        absent: dict[str, None] = {}
        for each in self._root.iterfind(".//{*}itemref"):
            if each.get("idref") not in self._items:
                continue
            part = self._part_of(self._items[each.get("idref")])
            if part not in self._parts:
                absent[part] = None
                continue
            parts.append(part)
            firsts.setdefault(part, each)
        #: The parts that the order of reading has and the container lacks.
        self.absent = tuple(absent)
        #: The references to pages, each page at its first place.
        self._order = list(firsts.values())
        counts = Counter(parts)
        #: The parts that the order of reading has more than once.
        self.repeated = frozenset(each for each in counts if counts[each] > 1)

    def pages(self) -> Iterator[Page]:
        """All pages, those at the end to which no order of reading leads, with the list for programs."""
        for reference in self._order:
            item = self._items[reference.get("idref")]
            yield self._page(item, reference.get("linear") != "no")
        for item in (*self._outside(), *self._outside(are_lists=True)):
            yield self._page(item, False)

    def whole(self) -> bytes:
        """It itself, with each page once in the order of reading but the list for programs."""
        for reference in self._order:
            if not _is_list(self._items[reference.get("idref")]):
                reference.attrib.pop("linear", None)
        for item in self._items.values():
            item.set("href", item.get("href", "").partition("#")[0])
        spine = self._root.find(".//{*}spine")
        if spine is not None:
            spine[:] = self._order
            name = spine.tag.removesuffix("spine") + "itemref"
            for item in self._outside():
                SubElement(spine, name, idref=item.get("id", ""))
        return ElementTree.tostring(self._root)

    def _outside(self, *, are_lists: bool = False) -> list[Element]:
        # a page may have two names
        found = {self._part_of(item): item for item in self._items.values()}
        there = {
            self._part_of(self._items[reference.get("idref")])
            for reference in self._order
        }
        return [
            item
            for part, item in found.items()
            if part not in there
            and item.get("media-type") == _PAGE
            and _is_list(item) == are_lists
            and part in self._parts
        ]

    def _page(self, item: Element, is_in_order: bool) -> Page:
        return Page(self._part_of(item), is_in_order, _is_list(item))

    def paths(self) -> dict[str, str]:
        """The paths by which pandoc looks for pages in other folders, by their parts."""
        items = [self._items[each.get("idref")] for each in self._order]
        paths = map(self._path_of, items + self._outside())
        return {normpath(path): path for path in paths if ".." in path}

    def _part_of(self, item: Element) -> str:
        return normpath(self._path_of(item))

    def _path_of(self, item: Element) -> str:
        folder = PurePosixPath(self.part).parent
        # some programs name a place of a page here
        page = item.get("href", "").partition("#")[0]
        return str(folder / unquote(page))


def _is_list(item: Element) -> bool:
    return "nav" in item.get("properties", "").split()


def _root(container: ZipFile, part: str) -> Element:
    return root_of(part_of(container, part))
