"""A book at every limit at once: it is opened, changed, exported and copied.

It has 16 tables of 20,000 lines, 20,000 paragraphs, of which about a hundred have 4,000 characters
of three bytes and two cells each, 100,000 marks, of which 70,000 are in one paragraph, and one
history of 10,000 entries. All but the last of each are rows that are written into the file; the
last one is made by a request, and the next one has to be refused. What each reply and each page has
to be is worked out here, from the rows that were written.
"""

import argparse
import itertools
import pathlib
import sqlite3
import subprocess
import time
from collections.abc import Iterable
from dataclasses import dataclass, field

import braildesk
from braildesk import limits

#: The longest that one run of the program may take, in seconds.
MOST_SECONDS = 600
#: Of so many paragraphs, the first is as long as a print may be.
LONG_EVERY = 199
#: The marks of the first paragraph.
MARKS_OF_FIRST = 70_000
#: The paragraph with the long history, and who corrected it.
CORRECTED, WHO = 2, "anna"
#: A character of three bytes, and the dots of its two cells.
WIDE, WIDE_DOTS = "€", ("4", "15")
LONG = WIDE * limits.PRINT_CHARACTERS
#: The lines of a page with that of its number, and the cells of a line.
PAGE_LINES, WIDTH = 25, 40
BRAILLE_ASCII = " A1B'K2L@CIF/MSP\"E3H9O6R^DJG>NTQ,*5<-U8V.%[$+X!&;:4\\0Z7(_?W]#Y)="


class Wrong(Exception):
    """What was found is wrong."""


@dataclass
class Mark:
    start: int
    stop: int
    note: str
    is_touched: bool = False

    def shown(self, number: int) -> str:
        touched = "touched" if self.is_touched else "kept"
        return f"| {number} {self.start} {self.stop} open {touched} {self.note}"


@dataclass
class Paragraph:
    number: int
    table: int
    text: str
    marks: dict[int, Mark] = field(default_factory=dict)

    @property
    def masks(self) -> bytes:
        """The masks of the cells of its braille."""
        wide = bytes(mask_of(dots) for dots in WIDE_DOTS)
        of = {" ": b"\0", "a": b"\1", "b": bytes([self.table]), WIDE: wide}
        return b"".join(of[each] for each in self.text)

    @property
    def braille(self) -> str:
        return "".join(chr(0x2800 + mask) for mask in self.masks)

    @property
    def shown(self) -> str:
        """Its line in the answer to `list`."""
        return f"| {self.number} {table_name(self.table)} body - live {len(self.text)}"


def mask_of(dots: str) -> int:
    return sum(1 << int(dot) - 1 for dot in dots)


def table_name(number: int) -> str:
    return f"t{number:02}"


def table_text(number: int) -> str:
    """A text of 20,000 lines, by which the letter b has the cell whose mask is the table's number."""
    dots = "".join(str(dot) for dot in range(1, 7) if mask_of(str(dot)) & number)
    lines = ["space \\s 0", "letter a 1", f"letter b {dots}"]
    lines += [f"letter {WIDE} {'-'.join(WIDE_DOTS)}"]
    lines += [f"letter {each} 123456" for each in "xyzw"]
    rules = map("".join, itertools.product("xyzw", repeat=8))
    room = limits.TABLE_LINES - len(lines)
    lines += [f"always {rule} 12" for rule in itertools.islice(rules, room)]
    return "".join(f"{line}\n" for line in lines)


def first_paragraphs() -> list[Paragraph]:
    """All paragraphs but the last, with all marks but the last."""
    book = []
    for number in range(1, limits.PARAGRAPHS):
        text = LONG if number % LONG_EVERY == 1 else f"{'ab' * (number % 5 + 1)} b"
        book.append(Paragraph(number, number % (limits.TABLES - 1) + 1, text))
    for number in range(1, limits.MARKS):
        its = book[0] if number <= MARKS_OF_FIRST else book[number % 97 + CORRECTED]
        start = number % (len(its.text) - 1)
        its.marks[number] = Mark(start, start + 1, f"look {number}")
    book[CORRECTED - 1].text = "a"
    return book


def entry(number: int) -> tuple[int, int, int, int, int, str, str]:
    """An entry of the long history, by which the print is now a and now b again."""
    if number % 2:
        return (CORRECTED, number, 0, 0, 1, "a", WHO)
    return (CORRECTED, number, 1, number - 1, 0, "", "")


def write_rows(path: pathlib.Path, book: list[Paragraph]) -> None:
    """Fills the tables of an empty book's file up to one less than each limit."""
    marks = [
        (number, its.number, mark) for its in book for number, mark in its.marks.items()
    ]
    rows: dict[str, Iterable[tuple[object, ...]]] = {
        "tab VALUES (?, ?)": (
            (table_name(n), table_text(n).encode()) for n in range(1, limits.TABLES)
        ),
        "para VALUES (?, ?, ?, ?, ?, 0, 0, 0)": (
            (its.number, its.number, table_name(its.table), original_of(its), its.text)
            for its in book
        ),
        "cache VALUES (?, ?)": ((its.number, its.masks) for its in book),
        "mark (id, para, start, stop, note, touched, resolved) VALUES (?, ?, ?, ?, ?, 0, 0)": (
            (number, its, mark.start, mark.stop, mark.note)
            for number, its, mark in marks
        ),
        "corr2 (para, seq, kind, start, len, body, who) VALUES (?, ?, ?, ?, ?, ?, ?)": map(
            entry, range(1, limits.ENTRIES)
        ),
    }
    database = sqlite3.connect(path)
    with database:
        for statement, values in rows.items():
            database.executemany(f"INSERT INTO {statement}", values)
    database.close()


def original_of(its: Paragraph) -> str:
    return "b" if its.number == CORRECTED else its.text


@dataclass(frozen=True)
class Program:
    """The program, and the book that it is tried on."""

    program: str
    path: pathlib.Path

    def run(self, *words: str, given: str = "") -> bytes:
        """What a run writes; it has to end well, and its time and its memory are said."""
        began = time.monotonic()
        done = subprocess.run(
            [self.program, *words],
            input=given.encode(),
            capture_output=True,
            timeout=MOST_SECONDS,
        )
        if done.returncode or done.stderr:
            raise Wrong(f"{words[0]}: status {done.returncode}, {done.stderr!r}")
        print(f"  {words[0]}: {time.monotonic() - began:.1f} s")
        return done.stdout

    def session(self, rows: list[tuple[str, str]]) -> None:
        """Sends the requests of rows, and compares the reply to each with the row's."""
        given = "".join(f"{request}\n" for request, _ in rows)
        found = self.run("session", str(self.path), given=given).decode()
        for request, reply in rows:
            if not found.startswith(f"{reply}\n"):
                raise Wrong(f"{request[:60]}: {cut(reply)} wanted, found {cut(found)}")
            found = found.removeprefix(f"{reply}\n")
        if found:
            raise Wrong(f"a session says more: {cut(found)}")


def cut(text: str) -> str:
    return repr(text if len(text) < 200 else f"{text[:150]}.. {len(text)} characters")


def answered(lines: Iterable[str], version: int) -> str:
    """The reply to a query."""
    return "\n".join([*lines, f"end {version}"])


def last_of_each(book: list[Paragraph]) -> list[tuple[str, str]]:
    """Requests that fill the book, each with one that is refused, since it is full."""
    last = Paragraph(limits.PARAGRAPHS, limits.TABLES, LONG)
    book.append(last)
    book[CORRECTED - 1].text = "b"
    book[0].marks[limits.MARKS] = Mark(0, 1, "the last")
    table = f"table {table_name(limits.TABLES)} {limits.TABLE_LINES}\n"
    return [
        (f"{table}{table_text(limits.TABLES)}".rstrip("\n"), "ok 1"),
        ("table more 0", "no 15 1"),
        (f"type end {table_name(limits.TABLES)} {LONG}", f"ok 2 {last.number}"),
        ("type end t01 b", "no 15 2"),
        (f"undo {CORRECTED}", f"ok 3 {limits.ENTRIES}"),
        (f"correct {CORRECTED} 0 1 a", "no 15 3"),
        ("mark 1 0 1 the last", f"ok 4 {limits.MARKS}"),
        ("mark 1 0 1 no more", "no 15 4"),
        (f"correct 1 0 0 {WIDE}", "no 14"),
    ]


def queries(book: list[Paragraph], version: int) -> list[tuple[str, str]]:
    """Queries of the whole book, and of its largest parts."""
    by_number = sorted(book, key=lambda its: its.number)
    first, last = by_number[0], by_number[-1]
    history = [
        f"| {n} undo {n - 1}" if n % 2 == 0 else f"| {n} correct-by {WHO} 0 1 a"
        for n in range(1, limits.ENTRIES + 1)
    ]
    marks = [mark.shown(number) for number, mark in sorted(first.marks.items())]
    far = limits.PRINT_CHARACTERS - 2
    return [
        ("list", answered((its.shown for its in book), version)),
        ("marks 1", answered(marks, version)),
        (f"history {CORRECTED}", answered(history, version)),
        (f"print {last.number}", answered([f"| {last.text}"], version)),
        (f"braille {last.number}", answered([f"| {last.braille}"], version)),
        ("braille 1", answered([f"| {first.braille}"], version)),
        (f"where 1 {far}", answered([f"| {2 * far}"], version)),
        (f"whence 1 {2 * far + 1}", answered([f"| {far}"], version)),
    ]


def changes(book: list[Paragraph]) -> list[tuple[str, str]]:
    """Requests that change as many rows as one can, over the full book."""
    first, last = book[0], book[-1]
    first.text = first.text[1:]
    for mark in first.marks.values():
        is_cut = mark.start == 0
        mark.is_touched = is_cut
        mark.start = 0 if is_cut else mark.start - 1
        mark.stop -= 1
    book.insert(0, book.pop())
    last.table = 1
    return [
        ("correct-by anna 1 0 1 ", "ok 5 1"),
        (f"move {last.number} front", "ok 6"),
        (f"retable {last.number} {table_name(1)}", "ok 7"),
        (
            f"table {table_name(2)} {limits.TABLE_LINES}\n{table_text(2)}".rstrip("\n"),
            "ok 8",
        ),
    ]


def printed(pages: bytes) -> str:
    """The cells with dots of the lines of text of pages, one after another."""
    lines = []
    for page in pages.decode("ascii").split("\f")[:-1]:
        found = page.split("\r\n")
        if len(found) != PAGE_LINES + 1 or max(map(len, found)) > WIDTH:
            raise Wrong(
                f"a page has {len(found) - 1} lines, the longest of {max(map(len, found))}"
            )
        lines += found[: PAGE_LINES - 1]
    return "".join(lines).replace(" ", "")


def exported(book: list[Paragraph], pages: bytes) -> None:
    """Compares pages with the braille of all paragraphs, blanks and the ends of lines aside."""
    wanted = "".join(BRAILLE_ASCII[mask] for its in book for mask in its.masks)
    if printed(pages) != wanted.replace(" ", ""):
        raise Wrong("the pages have other cells than the paragraphs")
    print(f"  {pages.count(bytes([12])):,} pages, {len(pages):,} bytes")


def main() -> None:
    parser = argparse.ArgumentParser()
    parser.add_argument("program")
    parser.add_argument("folder", type=pathlib.Path)
    arguments = parser.parse_args()
    path = arguments.folder / "full.braildesk"
    tried = Program(arguments.program, path)
    tried.run("new", str(path))
    book = first_paragraphs()
    write_rows(path, book)
    tried.session(last_of_each(book))
    tried.session(queries(book, 4))
    tried.session(changes(book) + queries(book, 8))
    if tried.run("check", str(path)) != b"ok 8\n":
        raise Wrong("check says another version")
    sizes = ("--width", str(WIDTH), "--lines", str(PAGE_LINES))
    exported(book, tried.run("export", str(path), "1", *sizes))
    copied = arguments.folder / "copy.braildesk"
    braildesk.copy(path, copied, program=arguments.program)
    Program(arguments.program, copied).session(queries(book, 8))
    print(f"ok  a book at every limit, of {path.stat().st_size:,} bytes")


if __name__ == "__main__":
    main()
