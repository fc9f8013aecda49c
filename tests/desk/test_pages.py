"""`scribe pages`: which paragraph stands on which page and line, and what stands on a page."""

import stat
from pathlib import Path

import pytest
from hypothesis import HealthCheck, given, settings
from hypothesis import strategies as st
from tool import Ran, scribe

from braildesk import Session, new_book
from braildesk.desk.layout import PageSize, parted, volume
from braildesk.desk.page_places import PageMap, printed
import braildesk

SIZE = ("--width", "24", "--lines", "8")


def pages(book: Path, *words: str) -> Ran:
    return scribe("pages", book, *words, folder=book.parent)


@pytest.fixture
def moon(book: Path) -> Path:
    """The book of the tutorial, with a struck paragraph and one without words."""
    with Session(book) as session:
        session.add_paragraph("end", "en", "On 20 July 1969 two men stood on the moon.")
        session.add_paragraph("front", "en", "The Moon")
        session.set_style(2, "heading")
        session.add_paragraph("end", "en", "Not for the embosser.")
        session.strike(3)
        session.add_paragraph("end", "en", "The Tides")
        session.set_style(4, "heading")
        session.set_begins_volume(4, True)
        session.add_paragraph(
            "end", "en", "Twice a day the sea comes up, and twice it goes."
        )
        session.add_paragraph("end", "en", " ")
    return book


def test_each_paragraph_is_shown_with_its_page_and_lines(moon: Path) -> None:
    # the first of the pages stands in docs/FORMATS.md
    assert pages(moon, *SIZE) == Ran(
        0,
        "Volume 1: 1 page of 8 lines of 24 cells.\n"
        "Page 1, line 1, paragraph 2: The Moon\n"
        "Page 1, lines 2 to 4, paragraph 1: On 20 July 1969 two men stood on the…\n"
        "Volume 2: 1 page of 8 lines of 24 cells.\n"
        "Page 1, line 1, paragraph 4: The Tides\n"
        "Page 1, lines 2 to 4, paragraph 5: Twice a day the sea comes up, and twice…\n"
        "No line, paragraph 6:\n",
        "",
    )


def test_one_volume_is_shown_alone(moon: Path) -> None:
    assert pages(moon, "2", *SIZE).shown.split("\n")[:2] == [
        "Volume 2: 1 page of 8 lines of 24 cells.",
        "Page 1, line 1, paragraph 4: The Tides",
    ]


def test_a_page_is_shown_line_by_line_with_its_print(moon: Path) -> None:
    assert pages(moon, "1", "--page", "1", *SIZE).shown == (
        "Volume 1: 1 page of 8 lines of 24 cells.\n"
        "Page 1, line 1, paragraph 2, character 1: The Moon\n"
        "Page 1, line 2, paragraph 1, character 1: On 20 July 1969\n"
        "Page 1, line 3, paragraph 1, character 17: two men stood on the\n"
        "Page 1, line 4, paragraph 1, character 38: moon.\n"
    )


def test_one_line_of_a_page_is_shown_with_its_words(moon: Path) -> None:
    assert pages(moon, "--page", "1", "--line", "3", *SIZE).shown == (
        "Volume 1: 1 page of 8 lines of 24 cells.\n"
        "Page 1, line 3, paragraph 1, character 17: two men stood on the\n"
        "Volume 2: 1 page of 8 lines of 24 cells.\n"
        "Page 1, line 3, paragraph 5, character 21: comes up, and twice it\n"
    )
    assert pages(moon, "1", "--page", "1", "--line", "7", *SIZE) == Ran(
        2, "", "Line 7 of page 1 has no words in volume 1.\n"
    )
    assert pages(moon, "1", "--page", "2", "--line", "7", *SIZE).said == (
        "Volume 1 has no page 2.\n"
    )
    ran = pages(moon, "--line", "7")
    assert (ran.status, ran.said.splitlines()[0]) == (
        1,
        "Argument --line: say the page by --page.",
    )
    for line in ("0", "9"):
        ran = pages(moon, "--page", "1", "--line", line, *SIZE)
        assert (ran.status, ran.said.splitlines()[0]) == (
            1,
            "Argument --line: a page has the lines 1 to 8.",
        )


def test_words_and_marks_are_found_with_their_pages(moon: Path) -> None:
    size = ("--pages", "--page-width", "24", "--page-lines", "8", "--width", "200")
    first, last = (
        "Paragraph 1, volume 1, page 1, line 3",
        "Paragraph 5, volume 2, page 1",
    )
    struck = "Paragraph 3, struck, on no page"
    assert scribe("find", moon, "t", *size, folder=moon.parent).shown.splitlines() == [
        f"{first}, character 17: On 20 July 1969 [t]wo men stood on the moon.",
        f"{first}, character 26: On 20 July 1969 two men s[t]ood on the moon.",
        f"{first}, character 34: On 20 July 1969 two men stood on [t]he moon.",
        f"{struck}, character 3: No[t] for the embosser.",
        f"{struck}, character 9: Not for [t]he embosser.",
        f"{last}, line 2, character 13: Twice a day [t]he sea comes up, and twice it goes.",
        f"{last}, line 3, character 35: Twice a day the sea comes up, and [t]wice it goes.",
        f"{last}, line 3, character 42: Twice a day the sea comes up, and twice i[t] goes.",
    ]
    ran = scribe("find", moon, "--braille", "MOON4", *size[:5], folder=moon.parent)
    assert ran.shown.startswith("Paragraph 1, volume 1, page 1, line 4, cell 42: ")
    with Session(moon) as session:
        session.add_mark(1, 41, 4, "spelled so?")
        session.add_mark(6, 0, 1, "")
    ran = scribe("marks", moon, *size[:5], folder=moon.parent)
    assert ran.shown == (
        "Mark 1, open, volume 1, page 1, line 4, paragraph 1, on “moon”: spelled so?\n"
        "Mark 2, open, on no page, paragraph 6, on “ ”.\n"
    )


def test_why_a_volume_is_not_laid_out_is_said_once_and_only_of_what_stands_in_it(
    moon: Path,
) -> None:
    with Session(moon) as session:
        session.put_table("dots", b"space \\s 0\nletter a 7\n")
        session.add_paragraph("front", "dots", "a a")
        session.add_mark(1, 20, 3, "who?")
        session.add_mark(7, 0, 1, "")
        session.add_mark(6, 0, 1, "")
    why = (
        "Cell 1 of paragraph 7 has dot 7 or 8, which pages for embossers can't have, so volume 1"
        " can't be exported. Correct the table of that paragraph.\n"
    )
    words = ("--pages", "--width", "200")
    ran = scribe("find", moon, "men", *words, folder=moon.parent)
    assert ran == Ran(
        0,
        "Paragraph 1, volume 1, not laid out, character 21: On 20 July 1969 two [men] stood on the"
        " moon.\n",
        f"Found “men” once.\n{why}",
    )
    ran = scribe("find", moon, "--braille", "TIDES", *words, folder=moon.parent)
    assert ran.shown.startswith("Paragraph 4, volume 2, page 1, line 1, cell 7: ")
    assert ran.said == "Found “TIDES” once.\n"
    ran = scribe("find", moon, "--braille", "JULY", *words, folder=moon.parent)
    assert ran.shown.startswith("Paragraph 1, volume 1, not laid out, cell ")
    assert ran.said == f"Found “JULY” once.\n{why}"
    ran = scribe("marks", moon, *words, folder=moon.parent)
    assert ran == Ran(
        0,
        "Mark 2, open, volume 1, not laid out, paragraph 7, on “a”.\n"
        "Mark 1, open, volume 1, not laid out, paragraph 1, on “two”: who?\n"
        "Mark 3, open, on no page, paragraph 6, on “ ”.\n",
        f"The book has 3 open marks.\n{why}",
    )
    given = "find Tides --pages\nmarks 7 --pages\n"
    ran = scribe("talk", moon, "--width", "200", folder=moon.parent, given=given)
    assert ran.shown.splitlines()[1:3] == [
        "Paragraph 4, volume 2, page 1, line 1, character 5: The [Tides]",
        "Mark 2, open, volume 1, not laid out, paragraph 7, on “a”.",
    ]
    assert ran.said == f"Found “Tides” once.\nParagraph 7 has 1 open mark.\n{why}"


def test_where_cells_can_not_go_on_pages_nothing_is_said_to_be_shown(
    moon: Path,
) -> None:
    with Session(moon) as session:
        session.put_table("dots", b"space \\s 0\nletter a 7\n")
        session.add_paragraph("end", "dots", "a a")
    refused = Ran(
        2,
        "",
        "Cell 1 of paragraph 7 has dot 7 or 8, which pages for embossers can't have. Nothing is"
        " shown. Correct the table of that paragraph.\n",
    )
    assert pages(moon) == pages(moon, "2") == refused
    assert pages(moon, "--page", "1") == pages(moon, "--paragraph", "4") == refused
    assert pages(moon, "1").status == 0
    given = "pages 2\n"
    ran = scribe("talk", moon, "--width", "200", folder=moon.parent, given=given)
    assert ran.said == refused.said


def test_a_talk_says_what_stands_on_a_page(moon: Path) -> None:
    given = "pages --page 1 --line 2\npages --page 9\npages --line 2\n"
    ran = scribe("talk", moon, "--width", "80", folder=moon.parent, given=given)
    assert ran.shown.splitlines()[1:3] == [
        "Volume 1: 1 page of 25 lines of 40 cells.",
        "Page 1, line 2, paragraph 1, character 1: On 20 July 1969 two men stood on",
    ]
    assert ran.said.startswith(
        "No volume has page 9.\nArgument --line: say the page by --page.\nIt is typed as: pages "
    )
    assert ran.status == 0


def test_a_paragraph_is_shown_line_by_line_over_its_pages(moon: Path) -> None:
    ran = pages(moon, "--paragraph", "5", "--width", "12", "--lines", "5")
    # ,THE / ,TIDES and then ,TWICE A / DAY THE SEA / COMES UP1 / AND TWICE IT / GOES4
    assert ran.shown == (
        "Volume 2: 2 pages of 5 lines of 12 cells.\n"
        "Page 1, line 3, paragraph 5, character 1: Twice a\n"
        "Page 1, line 4, paragraph 5, character 9: day the sea\n"
        "Page 2, line 1, paragraph 5, character 21: comes up,\n"
        "Page 2, line 2, paragraph 5, character 31: and twice it\n"
        "Page 2, line 3, paragraph 5, character 44: goes.\n"
    )


def test_a_paragraph_on_two_pages_is_shown_from_one_to_the_other(moon: Path) -> None:
    lines = pages(moon, "1", "--width", "12", "--lines", "5").shown.split("\n")
    assert lines[0] == "Volume 1: 2 pages of 5 lines of 12 cells."
    # ,THE / ,MOON and then ,ON #BJ / ,JULY #AIFI / TWO MEN / STOOD ON THE / MOON4
    assert lines[1] == "Page 1, lines 1 to 2, paragraph 2: The Moon"
    assert lines[2].startswith("Page 1 line 3 to page 2 line 3, paragraph 1: On 20")


@pytest.mark.parametrize(
    "words, sentence",
    [
        (("3",), "There is no volume 3: the book has 2."),
        (("1", "--page", "2"), "Volume 1 has no page 2."),
        (("--paragraph", "3"), "No volume has paragraph 3."),
        (("1", "--paragraph", "6"), "Volume 1 has no paragraph 6."),
        # it is in the second volume, as the list of that has it too
        (("--paragraph", "6"), "Paragraph 6 has no words, and takes no line."),
        (("2", "--paragraph", "6"), "Paragraph 6 has no words, and takes no line."),
        (("1", "--page", "0", "--line", "1"), "Volume 1 has no page 0."),
    ],
)
def test_what_is_not_there_is_refused(
    moon: Path, words: tuple[str, ...], sentence: str
) -> None:
    assert pages(moon, *words) == Ran(2, "", sentence + "\n")


def test_a_book_of_struck_paragraphs_has_no_volume(book: Path) -> None:
    assert pages(book).status == 2
    with Session(book) as session:
        session.add_paragraph("end", "en", "Moon")
        session.strike(1)
    assert pages(book) == Ran(
        2, "", "The book has no volume, since it has no paragraph to show.\n"
    )


@pytest.mark.parametrize("words", [("--width", "9"), ("--lines", "41"), ("x",)])
def test_sizes_that_no_page_has_are_refused(book: Path, words: tuple[str]) -> None:
    assert pages(book, *words).status == 1


def test_a_cell_that_pages_can_not_have_is_refused(empty_book: Path) -> None:
    with Session(empty_book) as session:
        session.put_table("own", b"letter a 1\nletter b 17\n")
        session.add_paragraph("end", "own", "ab")
    ran = pages(empty_book)
    assert (ran.status, ran.shown) == (2, "")
    assert "paragraph 1" in ran.said


def test_nothing_is_shown_where_export_writes_something_else(
    moon: Path, program: str
) -> None:
    other = moon.parent / "other"
    other.write_text(
        '#!/bin/sh\n[ "$1" = export ] || exec "$PROGRAM" "$@"\n'
        '"$PROGRAM" "$@" | sed "s/MOON/MOAN/"\n'
    )
    other.chmod(other.stat().st_mode | stat.S_IXUSR)
    words = ("pages", moon)
    assert scribe(
        *words, folder=moon.parent, BRAILDESK=str(other), PROGRAM=program
    ) == Ran(
        3,
        "",
        "The pages of volume 1 were laid out otherwise than export writes them, so nothing"
        " is shown. The book is as it was.\n",
    )


WORDS = st.lists(st.text("abc", max_size=14), max_size=12).map(" ".join)
PARAGRAPHS = st.lists(
    st.tuples(WORDS, st.booleans(), st.booleans(), st.booleans()),
    min_size=1,
    max_size=9,
)


@settings(
    max_examples=30,
    deadline=None,
    suppress_health_check=[HealthCheck.function_scoped_fixture],
)
@given(PARAGRAPHS, st.integers(10, 24), st.integers(5, 9))
def test_volumes_are_laid_out_as_export_writes_them(
    tmp_path: Path,
    paragraphs: list[tuple[str, bool, bool, bool]],
    width: int,
    lines: int,
) -> None:
    path = tmp_path / "random.braildesk"
    path.unlink(missing_ok=True)
    new_book(path)
    with Session(path) as session:
        session.supply_table("en")
        for text, is_heading, begins_volume, is_struck in paragraphs:
            number = session.add_paragraph("end", "en", text).id
            if is_heading:
                session.set_style(number, "heading")
            if begins_volume:
                session.set_begins_volume(number, True)
            if is_struck:
                session.strike(number)
        parts = parted(session.paragraphs())
        page_size = PageSize(width, lines)
        laid = [volume(session, n, part, page_size) for n, part in enumerate(parts, 1)]
    for each in laid:
        written = braildesk.export(path, each.number, width, lines)
        assert each.layout.brf() == written
    with pytest.raises(braildesk.Refused):
        braildesk.export(path, len(laid) + 1, width, lines)


#: Letters whose cells are those of Braille ASCII, and rules for groups of them with a blank.
ACROSS = (
    b"space \\s 0\nletter a 1\nletter b 12\nletter c 14\nletter f 124\n"
    b"always a\\sb 1-0-12\nalways c\\sf\\sa 14-0-124-0-1\nalways \\sc 0-14\n"
    b"always b\\s\\sb 12-0-12\nalways bf\\sca 12-124-0-14-1\n"
)
PARTED = st.lists(
    st.tuples(st.sampled_from([" ", "  "]), st.text("abcf", min_size=1, max_size=5)),
    max_size=20,
).map(lambda its: "".join(map("".join, its))[1:])


@settings(
    max_examples=60,
    deadline=None,
    suppress_health_check=[HealthCheck.function_scoped_fixture],
)
@given(st.lists(PARTED, min_size=1, max_size=3), st.integers(10, 24), st.booleans())
def test_each_word_stands_on_the_line_on_which_its_own_cells_are_embossed(
    tmp_path: Path, texts: list[str], width: int, are_headings: bool
) -> None:
    path, page_size = tmp_path / "random.braildesk", PageSize(width, 5)
    path.unlink(missing_ok=True)
    new_book(path)
    with Session(path) as session:
        session.put_table("across", ACROSS)
        numbers = [session.add_paragraph("end", "across", each).id for each in texts]
        for number in numbers if are_headings else []:
            session.set_style(number, "heading")
        its = volume(session, 1, parted(session.paragraphs())[0], page_size)
        rows = list(printed(session, its, its.layout.rows))
        places = PageMap(session, page_size)
        for number, text in zip(numbers, texts):
            its_rows = [each for each in rows if each.row.paragraph == number]
            words = [each.words.upper().split() for each in its_rows]
            assert words == [each.row.shown.split() for each in its_rows]
            assert sum(words, []) == text.upper().split()
            for each in its_rows:
                for place in range(*each.place):
                    there = places.of_character(number, place, text)
                    assert there is not None
                    assert (there.page, there.line) == (each.row.page, each.row.line)


def embossed_places(path: Path, page_size: PageSize) -> list[tuple[int, int]]:
    """The page and line of each cell with dots of an exported volume, in their order."""
    written = braildesk.export(path, 1, page_size.width, page_size.lines).decode()
    return [
        (page, line)
        for page, text in enumerate(written.split("\f")[:-1], 1)
        for line, cells in enumerate(text.split("\r\n")[: page_size.text_lines], 1)
        for _ in cells.replace(" ", "")
    ]


def neighbour(session: Session, number: int, text: str, place: int) -> int:
    """The letter on whose line a character is: itself, or for a blank one beside it.

    That is the one before, unless the blank was made into cells as one with the one after it alone.
    """
    if text[place] != " ":
        return place
    before = [n for n in range(place) if text[n] != " "]
    after = [n for n in range(place, len(text)) if text[n] != " "]
    cell = session.output_position(number, place)
    is_own = [n for n in before[-1:] if session.output_position(number, n) == cell]
    goes_on = [n for n in after[:1] if session.output_position(number, n) == cell]
    return [*is_own, *goes_on, *before[-1:], *after][0]


@settings(
    max_examples=60,
    deadline=None,
    suppress_health_check=[HealthCheck.function_scoped_fixture],
)
@given(st.lists(PARTED, min_size=1, max_size=3), st.integers(10, 24))
def test_each_character_is_said_to_be_where_its_word_is_embossed(
    tmp_path: Path, texts: list[str], width: int
) -> None:
    path, page_size = tmp_path / "random.braildesk", PageSize(width, 5)
    path.unlink(missing_ok=True)
    new_book(path)
    found, wanted, letters = [], [], 0
    with Session(path) as session:
        session.put_table("across", ACROSS)
        for text in texts:
            number = session.add_paragraph("end", "across", text).id
            places = PageMap(session, page_size)
            for place in range(len(text)) if text.strip() else ():
                its = neighbour(session, number, text, place)
                wanted.append(letters + len(text[:its].replace(" ", "")))
                found.append(places.of_character(number, place, text))
            letters += len(text.replace(" ", ""))
    there = embossed_places(path, page_size)
    assert len(there) == letters
    assert [each and (each.page, each.line) for each in found] == [
        there[nth] for nth in wanted
    ]


def test_a_mark_on_a_word_made_as_one_with_the_blank_before_it_is_on_the_words_line(
    empty_book: Path,
) -> None:
    with Session(empty_book) as session:
        session.put_table("across", ACROSS)
        session.add_paragraph("end", "across", "f f f f ca")
        # on the blank, which has no line, and on the cell of the letter after it
        session.add_mark(1, 7, 2, "so?")
        assert [mark.start for mark in session.marks_of(1)] == [7]
    assert braildesk.export(empty_book, 1, 10, 5).startswith(b"  F F F F\r\nCA\r\n")
    size = ("--pages", "--page-width", "10", "--page-lines", "5")
    there = "volume 1, page 1, line 2"
    ran = scribe("marks", empty_book, *size, folder=empty_book.parent)
    assert ran.shown == f"Mark 1, open, {there}, paragraph 1, on “ c”: so?\n"
    for words in ("ca", " ca"):
        ran = scribe("find", empty_book, words, *size, folder=empty_book.parent)
        assert ran.shown.startswith(f"Paragraph 1, {there}, character ")
    ran = scribe("find", empty_book, "f c", *size, folder=empty_book.parent)
    assert ran.shown.startswith("Paragraph 1, volume 1, page 1, line 1, character 7:")


@pytest.mark.parametrize(
    "rule, width, shown, lines",
    [
        # the cells have no blank, or fewer than the print, or more, or one at their front
        (b"a\\sc 14", 10, ["f f f", "ba cb"], [2, 2]),
        (b"a\\sc\\sb 14-0-14-14-14", 10, ["f f f ba", "c b"], [1, 2]),
        (b"a\\sc 14-0-14-0-14-14-14", 10, ["f f f ba", "cb"], [1, 2]),
        (b"a\\sc 14-0-14-0-14-14-14", 12, ["f f f ba c", "cb"], [1, 1]),
        (b"ba 0-14-14-14", 10, ["f f f", "ba cb"], [2, 2]),
    ],
)
def test_a_word_is_shown_on_its_line_where_its_cells_are_parted_otherwise_than_the_print(
    empty_book: Path, rule: bytes, width: int, shown: list[str], lines: list[int]
) -> None:
    text = "f f f ba c b" if rule.count(b"\\s") > 1 else "f f f ba cb"
    page_size = PageSize(width, 5)
    with Session(empty_book) as session:
        session.put_table("across", ACROSS + b"always " + rule + b"\n")
        number = session.add_paragraph("end", "across", text).id
        its = volume(session, 1, session.paragraphs(), page_size)
        rows = list(printed(session, its, its.layout.rows))
        assert [each.words for each in rows] == shown
        places = PageMap(session, page_size)
        found = [places.of_character(number, place, text) for place in (7, 9)]
    assert [each and each.line for each in found] == lines


def test_pages_of_20_000_paragraphs_are_found(big_book: Path) -> None:
    # each paragraph takes one line of 40 cells, and a page has 24 of them
    lines = pages(big_book).shown.split("\n")
    assert lines[0] == "Volume 1: 834 pages of 25 lines of 40 cells."
    assert lines[-2].startswith("Page 834, line 8, paragraph 20000: Paragraph number")


def test_nobody_changes_a_book_while_its_pages_are_compared(
    moon: Path, program: str
) -> None:
    other = moon.parent / "other"
    # the book is changed when it was judged, which holds it, and before it is opened
    other.write_text(
        '#!/bin/sh\ncase "$1" in\n'
        "export) while [ ! -e judged ]; do sleep 0.02; done\n"
        'echo "style 1 heading" | "$PROGRAM" session "$BOOK" >> changed\n'
        "touch tried;;\n"
        "session) touch judged; while [ ! -e tried ]; do sleep 0.02; done;;\n"
        'esac\nexec "$PROGRAM" "$@"\n'
    )
    other.chmod(other.stat().st_mode | stat.S_IXUSR)
    version, before = braildesk.check(moon), pages(moon)
    ran = scribe(
        "pages",
        moon,
        folder=moon.parent,
        BRAILDESK=str(other),
        PROGRAM=program,
        BOOK=str(moon),
    )
    assert (moon.parent / "changed").read_text() == f"ok {version + 1}\n"
    assert braildesk.check(moon) == version + 1
    assert ran == pages(moon) != before and ran.status == 0
