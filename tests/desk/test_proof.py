"""Proofs of a book for those who read print: what stands on which page, and the page of HTML."""

import os
import re
import shutil
from html.parser import HTMLParser
from io import BytesIO, StringIO
from pathlib import Path
from stat import S_IMODE
from xml.etree import ElementTree

import pytest

from braildesk import Session, Style, beginning, find
from braildesk.desk.layout import PageSize
from braildesk.desk.page_places import PageMap
from braildesk.desk.proof import ProofLine, ProofPage, ProofWord, proof_pages
from braildesk.openfile import OpenFile
from braildesk.text.cells import EMPTY_CELL

from scribe.cli import run_words
from scribe.cli.commands import proof
from scribe.words.console import Console
from scribe.words.proof_html import Proof
from scribe.words.status import Status
from tool import ROOT, Ran, scribe


class Read(HTMLParser):
    """What is read of a page in the order of the text, without what is hidden from speech."""

    def __init__(self) -> None:
        super().__init__()
        self.said: list[str] = []
        self.lines: list[list[str]] = []
        self._hidden = 0
        self._open: list[bool] = []

    def handle_starttag(self, tag: str, attrs: list[tuple[str, str | None]]) -> None:
        if tag == "meta":
            return
        is_hidden = ("aria-hidden", "true") in attrs or tag == "style"
        self._open.append(is_hidden)
        self._hidden += is_hidden
        if ("class", "line") in attrs or ("class", "line heading") in attrs:
            self.lines.append([])

    def handle_endtag(self, tag: str) -> None:
        self._hidden -= self._open.pop()

    def handle_data(self, data: str) -> None:
        if not self._hidden and data.strip():
            self.said.append(data.strip())
            if self.lines:
                self.lines[-1].append(data.strip())


def pages_of(book: Path, page_size: PageSize = PageSize(20, 10)) -> list[ProofPage]:
    with Session(book) as session:
        return list(proof_pages(session, page_size))


def words_of(pages: list[ProofPage]) -> list[ProofWord]:
    return [word for page in pages for line in page.lines for word in line.words]


def read(text: str) -> Read:
    found = Read()
    found.feed(text)
    return found


def test_each_word_stands_under_its_cells(moon: Path) -> None:
    (page,) = pages_of(moon)
    shown = [[(each.column, each.text) for each in line.words] for line in page.lines]
    assert shown[0] == [(2, "The"), (7, "moon"), (12, "is"), (15, "far")]
    assert shown[1] == [(0, "away.")]
    assert [line.number for line in page.lines] == [1, 2, 3, 4, 5]
    assert [line.begins for line in page.lines] == [1, None, 2, 3, None]


def test_all_cells_of_the_pages_stand_in_the_proof(moon: Path) -> None:
    with Session(moon) as session:
        brailles = [session.braille_of(each.id) for each in session.paragraphs()]
    whole = "".join(brailles).replace("\u2800", "")
    assert "".join(each.cells for each in words_of(pages_of(moon))) == whole


def test_a_mark_stands_at_the_line_of_its_first_word(moon: Path) -> None:
    (page,) = pages_of(moon)
    marks = {line.number: [mark.note for mark in line.marks] for line in page.lines}
    assert marks == {1: ["spelled so?"], 2: [], 3: [], 4: [], 5: []}
    marked = [each.text for each in words_of([page]) if each.is_marked]
    assert marked == ["moon"]
    with Session(moon) as session:
        session.resolve_mark(1)
    assert not any(each.is_marked for each in words_of(pages_of(moon)))


def test_a_mark_that_begins_within_a_sign_for_a_blank_and_a_letter_stands_where_marks_says(
    moon: Path,
) -> None:
    table = (ROOT / "sample" / "plain.utb").read_bytes()
    # with the first rule there are fewer words in the cells than in the print
    table += b"always a\\sb 1-12\nalways \\sf 0-124\nalways s\\so 234-0-135\n"
    size = PageSize(12, 10)
    with Session(moon) as session:
        session.put_table("own", table)
        number = session.add_paragraph("front", "own", "a b moon is far").id
        session.add_mark(number, 10, 2, "so?")
        places = PageMap(session, size)
        (mark,) = session.marks_of(number)
        there = places.of_character(number, mark.start, "a b moon is far")
    # the blank was made as one with the front of the word that is on the next line
    assert mark.start == 11 and there is not None and there.line == 2
    lines = pages_of(moon, size)[0].lines
    assert [len(line.marks) for line in lines[:2]] == [0, 1]
    assert [word.text for word in lines[1].words] == ["far"]
    with Session(moon) as session:
        # the sign stands for the end of one word as well, and the front of the next one
        session.correct(number, 11, 4, " off")
        session.add_mark(number, 9, 3, "and so?")
        places = PageMap(session, size)
        there = places.of_character(number, 10, "a b moon is off")
    assert there is not None and there.line == 1
    lines = pages_of(moon, size)[0].lines
    assert [len(line.marks) for line in lines[:2]] == [2, 0]
    assert [word.text for word in lines[1].words] == ["off"]


def test_a_mark_on_a_blank_or_after_all_words_stands_at_a_line_too(moon: Path) -> None:
    with Session(moon) as session:
        blanks = [
            n for n, cell in enumerate(session.braille_of(1)) if cell == EMPTY_CELL
        ]
        # the last one is where the line ends
        session.add_mark(1, blanks[0], 1, "a word?")
        session.add_mark(1, blanks[-1], 1, "and here?")
        session.add_mark(1, blanks[-1] + 1, 5, "gone?")
    (page,) = pages_of(moon)
    marks = [[mark.note for mark in line.marks] for line in page.lines]
    assert marks[:2] == [["spelled so?", "a word?", "and here?"], ["gone?"]]
    with Session(moon) as session:
        session.correct(1, 15, 6, "")
    (page,) = pages_of(moon)
    marks = [[mark.note for mark in line.marks] for line in page.lines]
    assert marks[:2] == [["spelled so?", "a word?", "and here?", "gone?"], []]
    assert page.has_open_mark


def test_a_word_that_is_cut_has_its_print_under_its_front(book: Path) -> None:
    with Session(book) as session:
        session.add_paragraph("end", "en", "a" * 25 + " b")
    (page,) = pages_of(book)
    shown = [[each.text for each in line.words] for line in page.lines]
    assert shown == [["a" * 25], ["", "b"]]


def test_a_mark_within_a_word_that_is_cut_stands_where_marks_says(book: Path) -> None:
    with Session(book) as session:
        session.add_paragraph("end", "en", "a" * 50 + " b")
        for cell in (17, 18, 38, 51):
            session.add_mark(1, cell, 1, f"cell {cell}")
        places = PageMap(session, PageSize(20, 5))
        text = session.print_of(1)
        there = [places.of_character(1, n, text) for n in (17, 18, 38, 51)]
    assert [each and each.line for each in there] == [1, 2, 3, 3]
    (page,) = pages_of(book, PageSize(20, 5))
    assert [[mark.note for mark in line.marks] for line in page.lines] == [
        ["cell 17"],
        ["cell 18"],
        ["cell 38", "cell 51"],
    ]


def test_the_last_word_is_whole_if_a_sign_parts_its_cells(book: Path) -> None:
    table = (
        b"space \\s 0\nletter m 134\nletter n 1345\nletter o 135\nalways oo 135-0-135\n"
    )
    with Session(book) as session:
        session.put_table("parting", table)
        session.add_paragraph("end", "parting", "no moon")
    (page,) = pages_of(book)
    shown = [(each.cells, each.text) for each in page.lines[0].words]
    assert shown == [("⠝⠕", "no"), ("⠍⠕", "moon"), ("⠕⠝", "")]


def test_words_that_cells_join_are_found_by_the_book(book: Path) -> None:
    table = b"space \\s 0\nletter a 1\nletter b 12\nalways a\\sb 1-12\n"
    with Session(book) as session:
        session.put_table("joined", table)
        session.add_paragraph("end", "joined", "a b a")
    (page,) = pages_of(book)
    assert [each.text for each in page.lines[0].words] == ["a b", "a"]


def test_as_many_words_as_runs_of_cells_are_no_sign_that_these_are_theirs(
    book: Path,
) -> None:
    table = (ROOT / "sample" / "plain.utb").read_bytes()
    # of the signs one joins two words, one parts a word, one has no cells that are seen, and one
    # begins with an empty cell
    table += b"always a\\sb 1-12\nalways oo 135-0-135\n"
    table += b"punctuation \\x00b7 0\npunctuation = 0-2356\n"
    with Session(book) as session:
        session.put_table("own", table)
        session.add_paragraph("end", "own", "a b moon sun")
        session.add_paragraph("end", "own", "a \u00b7 b=c so")
        session.add_mark(1, 3, 1, "on moon")
        session.add_mark(2, session.output_position(2, 5), 2, "on =")
    (page,) = pages_of(book, PageSize(40, 10))
    shown = [[(each.cells, each.text) for each in line.words] for line in page.lines]
    assert shown == [
        [("⠁⠃", "a b"), ("⠍⠕", "moon"), ("⠕⠝", ""), ("⠎⠥⠝", "sun")],
        [("⠁", "a ·"), ("⠃", "b"), ("⠶⠉", "=c"), ("⠎⠕", "so")],
    ]
    marked = [each.text for each in words_of([page]) if each.is_marked]
    assert marked == ["moon", "=c"]


def test_words_made_into_cells_as_one_stand_each_under_its_own_cells(
    book: Path,
) -> None:
    table = b"space \\s 0\nletter a 1\nletter b 12\nletter c 14\nletter f 124\n"
    table += (
        b"always c\\sf\\sa 14-0-124-0-1\nalways ba 0-14-14-14\nalways f\\sc 124-0\n"
    )
    with Session(book) as session:
        session.put_table("own", table)
        session.add_paragraph("end", "own", "b c f a c")
        session.add_mark(1, 4, 1, "on all")
        session.add_paragraph("end", "own", "f ba cb")
        session.add_paragraph("end", "own", "a f c b")
    (page,) = pages_of(book, PageSize(40, 10))
    shown = [[(each.cells, each.text) for each in line.words] for line in page.lines]
    assert shown == [
        [("⠃", "b"), ("⠉", "c"), ("⠋", "f"), ("⠁", "a"), ("⠉", "c")],
        [("⠋", "f"), ("⠉⠉⠉", "ba"), ("⠉⠃", "cb")],
        [("⠁", "a"), ("⠋", "f c"), ("⠃", "b")],
    ]
    marked = [each.text for each in page.lines[0].words if each.is_marked]
    assert marked == ["c", "f", "a"]


def test_struck_paragraphs_and_empty_volumes_have_no_place(moon: Path) -> None:
    with Session(moon) as session:
        session.set_begins_volume(3, True)
        session.strike(1)
    pages = pages_of(moon)
    assert [(page.volume, page.number) for page in pages] == [(1, 1), (2, 1)]
    assert [page.lines[0].begins for page in pages] == [2, 3]


def test_the_page_is_read_in_the_order_of_the_text(moon: Path) -> None:
    with Session(moon) as session:
        session.set_style(2, Style.HEADING)
    ran = scribe("proof", moon.name, "moon.html", "--width", "20", folder=moon.parent)
    assert (ran.status, ran.shown, ran.said) == (0, "moon.html: 1 page.\n", "")
    found = read((moon.parent / "moon.html").read_text(encoding="utf-8"))
    assert " ".join(found.said) == (
        "Proof of moon Proof of moon Volume 1, page 1 1 . The moon is far Mark 1, open , on"
        " “moon” : spelled so? away. 2 . The Tides 3 . Twice a day the sea comes up. 1"
    )


def test_the_page_needs_nothing_else_and_is_well_formed(moon: Path) -> None:
    with Session(moon) as session:
        session.put_table("ueb", (ROOT / "src/braildesk/tables/ueb.utb").read_bytes())
        session.add_paragraph("end", "ueb", "<b> & \"quoted\" 'so'")
    (page,) = pages_of(moon)
    text = "".join(Proof("a <book>", PageSize(20, 10)).html([page]))
    assert text.startswith("<!DOCTYPE html>\n")
    for reference in ("http", "src=", "href=", "url(", "<script"):
        assert reference not in text
    ElementTree.fromstring(
        text.removeprefix("<!DOCTYPE html>").replace('<meta charset="utf-8">', "")
    )
    assert "<b>" in " ".join(read(text).said)


def print_of_line(*words: tuple[int, str]) -> list[tuple[str, float]]:
    """The size of each word of a line of one-cell words, and how far it is shifted."""
    shown = tuple(ProofWord(column, "\u2811", text, False) for column, text in words)
    page = ProofPage(1, 1, (ProofLine(1, 1, False, shown, ()),))
    text = "".join(Proof("x", PageSize(20, 5)).html([page]))
    found = re.findall(r'class="print (s[0-9])"(?: style="left:([0-9.]+)em")?', text)
    return [(size, float(shift or 0)) for size, shift in found]


def test_print_that_is_wider_than_its_cells_moves_what_comes_after_it() -> None:
    # a character is 0.62 of its size wide, and that is 0.62 of a cell: 9 of them take 3.46 cells
    assert print_of_line((0, "knowledge"), (4, "of"), (6, "it")) == [("s0", 0)] * 3
    (first, one), (_, two), (_, three) = print_of_line(
        (0, "knowledge"), (3, "of"), (10, "it")
    )
    assert (first, one, three) == ("s0", 0, 0)
    assert two * 0.62 == pytest.approx(3.46 + 0.25 - 3, abs=0.01)


def test_print_that_would_be_far_from_its_cells_is_smaller() -> None:
    line = [(column, "knowledge") for column in range(0, 12, 2)]
    sizes = {size for size, _ in print_of_line(*line)}
    # of the size 0.36 a word takes 2.26 cells, so that the sixth is 1.3 cells from its own
    assert sizes == {"s4"}
    # one word alone has the room of the line after it, here 3 cells, but no more
    assert print_of_line((0, "knowledge")) == [("s0", 0)]
    assert print_of_line((18, "knowledge")) == [("s2", 0)]


@pytest.mark.parametrize(
    "word, has",
    [
        ("--ascii", ">MOON<"),
        ("--print-first", '<span class="word marked" style="grid-column:8/span 5"><sp'),
        ("--speak-cells", '<span class="cells">'),
        ("--language=en", '<html lang="en">'),
    ],
)
def test_a_word_of_the_command_line_changes_the_page(
    moon: Path, word: str, has: str
) -> None:
    scribe("proof", moon.name, "one.html", folder=moon.parent)
    ran = scribe("proof", moon.name, "two.html", word, folder=moon.parent)
    assert ran.status == 0
    assert has in (moon.parent / "two.html").read_text(encoding="utf-8")
    if word != "--print-first":
        assert has not in (moon.parent / "one.html").read_text(encoding="utf-8")


def test_only_pages_with_open_marks(moon: Path) -> None:
    words = ["proof", moon.name, "moon.html", "--width", "12", "--lines", "5"]
    assert scribe(*words, folder=moon.parent).shown == "moon.html: 2 pages.\n"
    ran = scribe(*words, "--marks-only", folder=moon.parent)
    assert ran.shown == "moon.html: 1 page.\n"
    with Session(moon) as session:
        session.resolve_mark(1)
    ran = scribe(*words, "--marks-only", folder=moon.parent)
    assert (ran.status, ran.shown) == (2, "")
    assert ran.said == "No page has an open mark, so no proof was written.\n"


def test_a_page_on_which_a_mark_goes_on_has_an_open_mark(moon: Path) -> None:
    with Session(moon) as session:
        session.add_mark(1, 12, 9, "which way?")
        session.resolve_mark(1)
    # “far” is the last word of a page, and “away” the first one of the next
    pages = pages_of(moon, PageSize(20, 2))
    marked = [
        [each.text for each in words_of([page]) if each.is_marked] for page in pages
    ]
    assert marked == [["far"], ["away."], [], [], []]
    assert [page.has_open_mark for page in pages] == [True, True, False, False, False]


def test_open_marks_that_no_page_has_are_counted(moon: Path) -> None:
    with Session(moon) as session:
        session.add_mark(2, 0, 3, "so?")
        session.correct(2, 0, 9, "")
    words = ["proof", moon.name, "moon.html"]
    assert scribe(*words, folder=moon.parent).said == (
        "1 open mark is on no page: its paragraph is struck or has no words.\n"
    )
    with Session(moon) as session:
        session.strike(1)
    assert scribe(*words, folder=moon.parent).said == (
        "2 open marks are on no page: their paragraphs are struck or have no words.\n"
    )
    assert scribe(*words, "--marks-only", folder=moon.parent).said == (
        "No page has an open mark, so no proof was written.\n"
        "2 open marks are on no page: their paragraphs are struck or have no words.\n"
    )
    with Session(moon) as session:
        for paragraph in session.paragraphs():
            if not paragraph.struck:
                session.strike(paragraph.id)
    assert scribe(*words, folder=moon.parent).said == (
        "The book has no page, so no proof was written.\n"
        "2 open marks are on no page: their paragraphs are struck or have no words.\n"
    )


def test_a_proof_that_cannot_be_written_leaves_the_older_one(moon: Path) -> None:
    ran = scribe("proof", moon.name, "nowhere/moon.html", folder=moon.parent)
    assert ran.status == 3
    assert ran.said.startswith("nowhere/moon.html could not be written: ")


def test_a_proof_replaces_an_older_one_and_no_other_file_unless_that_is_asked(
    moon: Path,
) -> None:
    page = moon.with_name("page.html")
    words = ("proof", moon.name, page.name)
    mine = b"<!DOCTYPE html>\n<html>\n<head>\n<title>Proof of mine</title>\n"
    page.write_bytes(mine)
    ran = scribe(*words, folder=moon.parent)
    assert (ran.status, ran.shown, ran.said) == (
        2,
        "",
        "page.html is there already and is no proof that scribe wrote, so it was left as it is;"
        " --overwrite replaces it.\n",
    )
    assert page.read_bytes() == mine
    ran = scribe(*words, "--overwrite", folder=moon.parent)
    assert (ran.status, ran.shown) == (0, "page.html: 1 page.\n")
    options = ("", "--language en", "--print-first --ascii", "")
    for more in map(str.split, options):
        page.write_bytes(page.read_bytes() + b"<!-- older -->")
        assert scribe(*words, *more, folder=moon.parent).status == 0
        assert not page.read_bytes().endswith(b"<!-- older -->")
    # a name that leads elsewhere is no proof either
    page.rename(moon.with_name("elsewhere.html"))
    page.symlink_to("elsewhere.html")
    ran = scribe(*words, folder=moon.parent)
    assert (ran.status, ran.said) == (
        2,
        "page.html is a link to elsewhere.html, and was left as it is; --overwrite puts a file in"
        " place of the link, and leaves what it leads to.\n",
    )
    assert page.is_symlink()
    # an empty file, as mktemp makes one, has nothing to lose
    page.unlink()
    page.touch(0o600)
    assert scribe(*words, folder=moon.parent).status == 0
    assert (page.stat().st_mode & 0o777, page.stat().st_size > 0) == (0o600, True)


@pytest.mark.parametrize(
    "code", ["", "caf\udce9", 'en"><script>', "en\n", "English text"]
)
def test_what_is_no_code_of_a_language_is_refused(moon: Path, code: str) -> None:
    ran = scribe(
        "proof", moon.name, "moon.html", "--language", code, folder=moon.parent
    )
    assert (ran.status, ran.shown) == (1, "")
    assert "is no code of a language, as en, de or pt-BR are" in ran.said
    assert not moon.with_name("moon.html").exists()


@pytest.mark.parametrize("is_replaced", [True, False])
def test_whatever_stands_at_the_path_by_then_a_proof_is_for_those_of_the_book_that_was_read(
    moon: Path, monkeypatch: pytest.MonkeyPatch, is_replaced: bool
) -> None:
    moon.chmod(0o600)

    def wanted(found: list[ProofPage], marks_only: bool) -> list[ProofPage]:
        moon.rename(f"{moon}-kept")
        if is_replaced:
            moon.touch()
            moon.chmod(0o666)
        return found

    monkeypatch.setattr(proof, "_wanted", wanted)
    shown, said = StringIO(), StringIO()
    made = moon.with_name("moon.html")
    words = ["proof", str(moon), str(made)]
    assert run_words(words, Console(BytesIO(), shown, said)) is Status.DONE
    assert S_IMODE(made.stat().st_mode) == 0o600


@pytest.mark.parametrize("is_other, mode", [(True, 0o600), (False, 0o644)])
def test_a_proof_is_its_owners_alone_where_the_program_has_another_book_open(
    moon: Path, is_other: bool, mode: int
) -> None:
    moon.chmod(0o666)
    other = shutil.copyfile(moon, moon.with_name("other")) if is_other else moon
    # as where others put one book in the place of the other while the program opens it
    program = moon.with_name("program")
    program.write_text(
        f'#!/bin/sh\n[ "$1" != session ] || set session -- "{other}"\n'
        f'exec "{find()}" "$@"\n'
    )
    program.chmod(0o755)
    ran = scribe(
        *("proof", moon.name, "moon.html"),
        folder=moon.parent,
        before=lambda: os.umask(0o022),
        BRAILDESK=str(program),
    )
    assert ran == Ran(0, "moon.html: 1 page.\n", "")
    assert S_IMODE(moon.with_name("moon.html").stat().st_mode) == mode


@pytest.mark.parametrize(
    "words, made",
    [(("proof",), "made.html"), (("import", "text.md", "--report"), "made.txt")],
)
def test_what_is_made_of_a_book_that_is_not_held_beside_the_program_is_its_owners_alone(
    moon: Path, monkeypatch: pytest.MonkeyPatch, words: tuple[str, ...], made: str
) -> None:
    moon.chmod(0o666)
    monkeypatch.chdir(moon.parent)
    Path("text.md").write_text("One *two*.\n")

    def held(path: str) -> OpenFile:
        # others put a link in the place of the book in this moment, and the book in that of the link
        os.symlink(moon.rename(f"{path}-kept"), path)
        file = OpenFile(path)
        os.replace(f"{path}-kept", path)
        return file

    monkeypatch.setattr(beginning, "OpenFile", held)
    command, *more = words
    asked = [command, moon.name, *more, made]
    assert run_words(asked, Console(BytesIO(), StringIO(), StringIO())) is Status.DONE
    assert S_IMODE(os.stat(made).st_mode) == 0o600
