"""The tables of a text in ODT: their heads, and the places of cells that go on over several rows.

pandoc leaves out the rows of a head, each cell that another one covers, and all but one of empty cells
that are written once, so that those after it would stand under another head.
"""

from bisect import bisect_left
from collections.abc import Iterator
from xml.etree.ElementTree import Element

from braildesk.desk.documents.reading import Loss, LossKind, plain, whole
from braildesk.desk.documents.table_places import Places, TableSize

_TABLE = "{urn:oasis:names:tc:opendocument:xmlns:table:1.0}"
_TEXT = "{urn:oasis:names:tc:opendocument:xmlns:text:1.0}"
_DRAWING = "urn:oasis:names:tc:opendocument:xmlns:drawing:1.0"
_ROW, _CELL = f"{_TABLE}table-row", f"{_TABLE}table-cell"
#: What stands in place of cells that another one covers.
COVERED = f"{_TABLE}covered-table-cell"
#: What stands around rows, and can be left out.
AROUND_ROWS = frozenset(
    f"{_TABLE}table-{name}" for name in ("header-rows", "rows", "row-group")
)
#: The prefixes by which the place of a cell is written.
PREFIXES = {_TABLE[1:-1]: "table", _TEXT[1:-1]: "text"}
_PLACE = "<table:table-cell><text:p/></table:table-cell>"
#: The most columns and rows of a table that are counted.
_MOST = 1_000


class Spans:
    """The cells of a text that go on over rows, or stand for several; raises `NoDocument` for too many empty places."""

    def __init__(self, root: Element) -> None:
        #: What stands ahead of elements, by their identities.
        self.ahead: dict[int, str] = {}
        self.losses: list[Loss] = []
        places = Places()
        for table in root.iter(f"{_TABLE}table"):
            self._read(table, TableSize(places))

    def _read(self, table: Element, size: TableSize) -> None:
        # how many rows more the cell that begins at a column has
        going_on: dict[int, int] = {}
        for row in _rows(table):
            self._note_same(row, "rows")
            begun: dict[int, int] = {}
            column = 0
            covered = sorted(going_on)
            size.begin_row()
            for cell in row:
                if cell.tag not in (_CELL, COVERED):
                    continue
                stop = column + _count(cell, "number-columns-repeated")
                height = _count(cell, "number-rows-spanned")
                if cell.tag == COVERED:
                    places = bisect_left(covered, stop) - bisect_left(covered, column)
                    size.add_empty(places)
                    self.ahead[id(cell)] = _PLACE * places
                else:
                    size.add_cell()
                    self._note_same(cell, "columns")
                    if height > 1:
                        begun[column] = height
                        self._note(LossKind.SPAN, cell)
                column = stop
            for cell, count in _repeated(row):
                size.add_empty(count)
                self.ahead[id(cell)] = _PLACE * count
            going_on = {each: left - 1 for each, left in going_on.items()} | begun
            going_on = {each: left for each, left in going_on.items() if left > 1}

    def _note_same(self, element: Element, name: str) -> None:
        """Notes a row or a cell that stands for several, of which pandoc reads one."""
        if _count(element, f"number-{name}-repeated") > 1:
            self._note(LossKind.SAME, element)

    def _note(self, what: LossKind, element: Element) -> None:
        texts = ("".join(each.itertext()) for each in element.iter(f"{_TEXT}p"))
        if words := plain(" ".join(texts).replace("\n", " ")):
            self.losses.append(Loss(what, words, words))


def _rows(table: Element) -> Iterator[Element]:
    """The rows of a table, those of its head too."""
    for child in table:
        if child.tag == _ROW:
            yield child
        elif child.tag in AROUND_ROWS:
            yield from _rows(child)


def _repeated(row: Element) -> Iterator[tuple[Element, int]]:
    """The empty cells of a row before others that stand for several, and for how many more than one."""
    is_at_end = True
    for cell in reversed(row):
        if cell.tag not in (_CELL, COVERED):
            continue
        if not _is_empty(cell):
            is_at_end = False
        elif cell.tag == _CELL and not is_at_end:
            yield cell, _count(cell, "number-columns-repeated") - 1


def _is_empty(cell: Element) -> bool:
    """Whether a cell has neither text nor a picture."""
    has_text = any(text.strip() for text in cell.itertext())
    return not has_text and not any(_DRAWING in each.tag for each in cell.iter())


def _count(cell: Element, name: str) -> int:
    return min(max(whole(cell.get(f"{_TABLE}{name}"), 1), 1), _MOST)
