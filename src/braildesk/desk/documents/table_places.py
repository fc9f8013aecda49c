"""How many places the tables of a document have in which no cell begins.

A cell that goes on over rows and columns, and a row that is shorter than others, has many of them in few
characters, and each is a cell for pandoc and for what reads its tree.
"""

from collections import Counter

from braildesk.desk.documents.kinds import NoDocument, WhyNot

#: The most of such places that a document has, in all its tables.
MOST_EMPTY = 100_000


class Places:
    """The empty places of all tables of a document."""

    def __init__(self) -> None:
        self._empty = 0

    def add(self, count: int) -> None:
        """Counts so many more; raises `NoDocument` if there are too many."""
        self._empty += count
        if self._empty > MOST_EMPTY:
            raise NoDocument(WhyNot.TABLES)


class TableSize:
    """A table that is read row by row, whose empty places are counted."""

    def __init__(self, places: Places) -> None:
        self._places = places
        self._rows = self._widest = self._cells = self._empty = 0
        #: The columns of the row that are taken, and those of the next one by cells that go on.
        self._column = self._covered = 0
        #: The columns that are free from a row on.
        self._ending: Counter[int] = Counter()

    def begin_row(self) -> None:
        """Goes on with the next row."""
        self._rows += 1
        self._covered -= self._ending.pop(self._rows, 0)
        self._column = 0
        self.add_empty(self._covered)

    def add_cell(self, width: int = 1, height: int = 1) -> None:
        """Adds a cell that goes on over some columns and rows."""
        if not self._rows:
            self.begin_row()
        self._cells += 1
        if height > 1:
            self._covered += width
            self._ending[self._rows + height] += width
        self.add_empty(width)

    def add_empty(self, count: int) -> None:
        """Adds so many places to the row."""
        self._column += count
        self._widest = max(self._widest, self._column)
        empty = self._rows * self._widest - self._cells
        self._places.add(empty - self._empty)
        self._empty = empty
