"""The tables of a text in Markdown, in which a line of few characters may be a row of many columns.

How many columns there are is said by rules, lines of dashes: below a head, above each row, or above and
below all of them. Of a row with strokes pandoc leaves out all cells beyond these, and it parts words that
stand across the front of a column.
"""

import re
from bisect import bisect_left
from collections.abc import Iterator, Sequence

from braildesk.desk.documents.table_places import Places

#: What parts tables, and the rows of those that begin with a rule: blank lines, also in quotations.
_BLANK_LINES = re.compile(r"\n(?:[ \t>]*\n)+")
#: What stands before a table in a quotation or in an item of a list.
_BEFORE = re.compile(r"(?:[ \t>]|[*~](?=[ \t])|\(?[\w#@]{1,9}[.)](?=[ \t]))*")
#: A rule, and what it has in each column.
_RULE, _COLUMN = re.compile(r"[-=:|+ \t]*"), re.compile("[-=]+")
_STROKE = re.compile(r"(?<!\\)\|")


def check_tables(text: str) -> None:
    """Raises `NoDocument` if the tables of a text have too many empty places."""
    places = Places()
    columns, is_parted = 0, False
    for block in _BLANK_LINES.split(text):
        lines = block.split("\n")
        rules = [*map(_columns, lines)]
        if not is_parted:
            columns, is_parted = 0, rules[0] > 0
        for line, count in zip(lines, rules):
            columns = max(columns, count)
            if not count:
                cells = max(len(line.split()), line.count("|"))
                places.add(max(columns - cells, 0))
        # with a rule before a blank line it ends
        is_parted &= rules[-1] == 0


def doubtful_rows(text: str) -> Iterator[str]:
    """The rows of tables that may lose words: those with more cells than their tables have columns, and those
    with words that stand across the front of a column."""
    for block in _BLANK_LINES.split(text):
        lines = block.split("\n")
        rules = [_columns(line) if line.count("|") else 0 for line in lines]
        place = next((n for n, count in enumerate(rules) if count and n), None)
        if place is not None:
            rows = (*lines[place - 1 : place], *lines[place + 1 :])
            yield from (row for row in rows if _cells(row) > rules[place])
            continue
        rule = next((line for line in lines if _columns(line) > 1), "")
        fronts = [each.start() for each in _COLUMN.finditer(rule)][1:]
        yield from (row for row in lines if _is_cut(row, fronts))


def _is_cut(row: str, fronts: Sequence[int]) -> bool:
    """Whether a word of a row stands across one of the fronts of columns, as many as it is long enough for."""
    reached = fronts[: bisect_left(fronts, len(row))]
    return any(row[n - 1 : n + 1].isalnum() for n in reached)


def _cells(row: str) -> int:
    """How many cells a row has, if none has a stroke."""
    return len(_STROKE.findall(row.strip(" \t>").strip("|"))) + 1


def _columns(line: str) -> int:
    """How many columns a line has that is a rule; else none."""
    before = _BEFORE.match(line)
    start = before.end() if before else 0
    return len(_COLUMN.findall(line, start)) if _RULE.fullmatch(line, start) else 0
