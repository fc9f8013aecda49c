"""Table texts read and prints taken to pieces, with the lines and the reasons.

The program says whether a table is accepted, or its first fault, and the braille of a print. People
who write tables ask for more: all faults, and which line each cell came from. This package answers
that by ``docs/FORMATS.md`` alone.

``operands`` reads characters and dots, ``entries`` are what lines give, and ``faults`` are what is
bad in them; ``table`` is what all entries mean, ``reading`` reads a text, ``tiling`` chooses a rule
at each place of a print, ``warnings`` finds what is rarely meant, and ``beside`` compares all that
with what the program answers.
"""

from braildesk.tables.beside import Disagreement, TableText, text_at
from braildesk.tables.entries import Definition, Rule, Sign
from braildesk.tables.faults import Cause, Fault
from braildesk.tables.reading import Reading, read
from braildesk.tables.table import Table
from braildesk.tables.tiling import Piece, braille, pieces, undefined_place
from braildesk.tables.warnings import Warning, warnings

__all__ = [
    "Cause",
    "Definition",
    "Disagreement",
    "Fault",
    "Piece",
    "Reading",
    "Rule",
    "Sign",
    "Table",
    "TableText",
    "Warning",
    "braille",
    "pieces",
    "read",
    "text_at",
    "undefined_place",
    "warnings",
]
