"""`scribe show`: the book as a person reads it."""

from pathlib import Path

import pytest
from tool import Ran, scribe

from braildesk import Session
from braildesk.text.cells import Notation

# letters of several scripts, each a cell of its own, and a control character
LETTERS = "".join(
    f"letter {character} {dots}\n"
    for character, dots in [
        ("a", "1"),
        ("q", "12345"),
        (r"\x0307", "4"),
        ("月", "134"),
        ("海", "125"),
        ("ש", "146"),
        ("ל", "123"),
        ("ו", "2456"),
        ("ם", "13456"),
        (r"\e", "36"),
    ]
)
TABLE = f"space \\s 0\nalways aa 1-0-1\n{LETTERS}".encode()


def show(book: Path, *words: str) -> Ran:
    return scribe("show", book, *words, folder=book.parent)


@pytest.fixture
def moon(book: Path) -> Path:
    """Four paragraphs, of which the last typed stands first, with two marks."""
    with Session(book) as session:
        session.add_paragraph("end", "en", "The moon is far away.")
        session.add_paragraph("end", "en", "Tides")
        session.add_paragraph("end", "en", "Twice a day.")
        session.add_paragraph("front", "en", "Moon book")
        session.set_style(2, "heading")
        session.set_begins_volume(2, True)
        session.strike(3)
        session.set_style(4, "heading")
        session.add_mark(1, 5, 4, "which moon?")
        session.add_mark(1, 13, 3, "")
        session.correct(1, 4, 4, "sun")
        session.resolve_mark(1)
    return book


def test_print_and_braille_stand_under_one_another_in_the_order_of_the_book(
    moon: Path,
) -> None:
    assert show(moon, "--width", "60") == Ran(
        0,
        "Paragraph 4, heading\n"
        "Moon book\n"
        "⠠⠍⠕⠕⠝⠀⠃⠕⠕⠅\n"
        "\n"
        "Paragraph 1, body\n"
        "The sun is far away.\n"
        "⠠⠞⠓⠑⠀⠎⠥⠝⠀⠊⠎⠀⠋⠁⠗⠀⠁⠺⠁⠽⠲\n"
        "Mark 1, resolved, touched, on “sun”: which moon?\n"
        "Mark 2, open, on “far”.\n"
        "\n"
        "Paragraph 2, heading, begins a volume\n"
        "Tides\n"
        "⠠⠞⠊⠙⠑⠎\n"
        "\n"
        "Paragraph 3, body, struck\n"
        "Twice a day.\n"
        "⠠⠞⠺⠊⠉⠑⠀⠁⠀⠙⠁⠽⠲\n",
        "",
    )


def test_lines_are_broken_between_the_same_words(moon: Path) -> None:
    ran = show(moon, "--paragraphs", "1", "--width", "14")
    assert ran.shown == (
        "Paragraph 1,\n"
        "  body\n"
        "The sun is\n"
        "⠠⠞⠓⠑⠀⠎⠥⠝⠀⠊⠎\n"
        "far away.\n"
        "⠋⠁⠗⠀⠁⠺⠁⠽⠲\n"
        "Mark 1,\n"
        "  resolved,\n"
        "  touched, on\n"
        "  “sun”: which\n"
        "  moon?\n"
        "Mark 2, open,\n"
        "  on “far”.\n"
    )


def test_only_the_print_or_only_the_braille_is_shown(moon: Path) -> None:
    shown = show(moon, "--paragraphs", "2", "--print").shown
    assert shown == "Paragraph 2, heading, begins a volume\nTides\n"
    shown = show(moon, "--paragraphs", "2", "--braille").shown
    assert shown == "Paragraph 2, heading, begins a volume\n⠠⠞⠊⠙⠑⠎\n"


def test_cells_are_shown_in_braille_ascii(moon: Path) -> None:
    shown = show(moon, "--paragraphs", "1", "--ascii", "--width", "60").shown
    assert shown.split("\n")[1:3] == ["The sun is far away.", ",THE SUN IS FAR AWAY4"]


@pytest.mark.parametrize(
    "asked, numbers",
    [("1-2", "12"), ("4-1", "41"), ("2-", "23"), ("-1", "41"), ("3,4-1", "341")],
)
def test_a_range_is_in_the_order_of_the_book(
    moon: Path, asked: str, numbers: str
) -> None:
    lines = show(moon, "--paragraphs", asked, "--print").shown.split("\n")
    titles = [line for line in lines if line.startswith("Paragraph")]
    assert "".join(title.split(" ")[1][0] for title in titles) == numbers


def test_a_range_that_goes_back_is_refused(moon: Path) -> None:
    assert show(moon, "--paragraphs", "1-4") == Ran(
        2, "", "Paragraph 4 stands before paragraph 1 in the book: ask for 4-1.\n"
    )


def test_a_paragraph_that_is_not_there_is_named(moon: Path) -> None:
    assert show(moon, "--paragraphs", "3-9") == Ran(
        2, "", "There is no paragraph 9: the book has the paragraphs 1 to 4.\n"
    )


def test_paragraphs_are_named_in_one_way_or_the_other(moon: Path) -> None:
    ran = show(moon, "2", "--paragraphs", "3")
    assert (ran.status, ran.shown) == (1, "")
    assert ran.said.startswith(
        "Argument --paragraphs: not allowed with argument PARAS.\n"
    )


def test_a_book_without_paragraphs_is_said_to_be_so(book: Path) -> None:
    assert show(book) == Ran(0, "", "The book has no paragraphs.\n")
    assert show(book, "--paragraphs", "1") == Ran(
        2, "", "There is no paragraph 1: the book has none.\n"
    )


def test_cells_of_other_words_never_stand_under_a_line(book: Path) -> None:
    # of the signs one joins two words and one parts a word, so that runs of cells are as many;
    # one goes over a blank
    table = TABLE + b"letter b 12\nalways b\\sq 1-12\nalways b\\sa 12-0-1\n"
    with Session(book) as session:
        session.put_table("own", table)
        session.add_paragraph("end", "own", "qqb b q qbq qaaq qqq qqq")
        session.add_paragraph("end", "own", "qqq qbq qq qb")
        session.add_paragraph("end", "own", "qqq qqqqb aqq")
    assert show(book, "--width", "10").shown.splitlines() == [
        *("Paragraph", "  1, body"),
        *("qqb b q", "qbq qaaq", "qqq qqq"),
        *("⠟⠟⠃⠀⠁⠃⠀⠟⠃⠟", "⠟⠁⠀⠁⠟⠀⠟⠟⠟", "⠟⠟⠟"),
        "",
        *("Paragraph", "  2, body"),
        *("qqq qbq qq", "⠟⠟⠟⠀⠟⠃⠟⠀⠟⠟", "qb", "⠟⠃"),
        "",
        *("Paragraph", "  3, body"),
        *("qqq qqqqb", "⠟⠟⠟⠀⠟⠟⠟⠟⠃", "aqq", "⠁⠟⠟"),
    ]


@pytest.mark.parametrize("word", ["x", "3-9-12", "", "-", "3,", "٣"])
def test_what_is_no_range_is_refused(book: Path, word: str) -> None:
    ran = show(book, "--paragraphs=" + word)
    assert ran.status == 1 and ran.shown == ""
    assert "is no paragraph and no range such as 3-9." in ran.said


@pytest.mark.parametrize("word", ["12345678901234567", "1-12345678901234567"])
def test_a_number_of_very_many_digits_is_said_as_it_was_typed(
    book: Path, word: str
) -> None:
    ran = show(book, "--paragraphs", word)
    assert ran.status == 1 and ran.shown == ""
    assert "--paragraphs: 12345678901234567 is too large a number." in ran.said


def test_noughts_in_front_of_a_number_say_nothing(moon: Path) -> None:
    assert show(moon, "--paragraphs", f"{3:020}") == show(moon, "--paragraphs", "3")


def test_the_table_is_named_where_paragraphs_have_several(moon: Path) -> None:
    with Session(moon) as session:
        session.put_table("own", TABLE)
        session.add_paragraph("end", "own", "qa")
    lines = show(moon, "--paragraphs", "3-5", "--print").shown.split("\n")
    assert lines[0] == "Paragraph 3, body, struck, table en"
    assert lines[3] == "Paragraph 5, body, table own"


@pytest.fixture
def letters(empty_book: Path) -> Path:
    with Session(empty_book) as session:
        session.put_table("own", TABLE)
        session.add_paragraph("end", "own", "月海月 海月")
        session.add_paragraph(
            "end", "own", "q\u0307q\u0307q\u0307q\u0307q\u0307q\u0307"
        )
        session.add_paragraph("end", "own", "שלום לום")
        session.add_paragraph("end", "own", "a\x1ba")
        session.add_paragraph("end", "own", "aa q")
        session.add_paragraph("end", "own", "")
    return empty_book


def test_characters_of_other_scripts_take_their_columns(letters: Path) -> None:
    def body(number: int, width: int) -> list[str]:
        ran = show(letters, "--paragraphs", str(number), "--width", str(width))
        lines = ran.shown.removesuffix("\n").split("\n")
        return [
            line for line in lines if "Paragraph" not in line and "body" not in line
        ]

    assert body(1, 10) == ["月海月", "⠍⠓⠍", "海月", "⠓⠍"]
    assert body(1, 11) == ["月海月 海月", "⠍⠓⠍⠀⠓⠍"]
    # six letters with a dot above each take six columns, and twelve cells
    assert body(2, 10) == ["q\u0307" * 6, "⠟⠈" * 5, "⠟⠈"]
    assert body(3, 10) == ["שלום לום", "⠩⠇⠺⠽⠀⠇⠺⠽"]
    assert body(4, 20) == ["a<U+001B>a", "⠁⠤⠁"]
    # the braille of the first word has two words, so all print comes first
    assert body(5, 10) == ["aa q", "⠁⠀⠁⠀⠟"]
    assert body(6, 20) == ["", ""]


def test_a_mark_whose_words_are_gone_says_where_it_is(moon: Path) -> None:
    with Session(moon) as session:
        session.correct(1, 10, 4, "")
    lines = show(moon, "--paragraphs", "1", "--width", "80").shown.split("\n")
    assert lines[4] == "Mark 2, open, touched, on no words, at character 11."


@pytest.mark.parametrize(
    "locale, words, cells",
    [
        ("C.UTF-8", (), "⠠⠞⠓⠑⠀⠠⠞⠊⠙⠑⠎"),
        ("de_DE.utf8", (), "⠠⠞⠓⠑⠀⠠⠞⠊⠙⠑⠎"),
        ("C", (), ",THE ,TIDES"),
        ("de_DE.ISO-8859-1", (), ",THE ,TIDES"),
        ("C", ("--unicode",), "⠠⠞⠓⠑⠀⠠⠞⠊⠙⠑⠎"),
        ("C.UTF-8", ("--ascii",), ",THE ,TIDES"),
        ("C", ("--ascii-small",), ",the ,tides"),
    ],
)
def test_cells_are_written_as_the_locale_or_the_words_say(
    book: Path, locale: str, words: tuple[str, ...], cells: str
) -> None:
    with Session(book) as session:
        session.add_paragraph("end", "en", "The Moon")
        session.add_paragraph("end", "en", "The Tides")
    asked: tuple[str | Path, ...] = ("show", book, "2", *words)
    ran = scribe(*asked, folder=book.parent, LC_ALL=locale)
    assert ran.shown.splitlines()[-1] == cells
    talked = scribe(
        "talk", book, *words, folder=book.parent, given="braille 2\n", LC_ALL=locale
    )
    assert talked.shown.splitlines()[1] == cells


def test_each_cell_has_a_small_letter_without_dot_7() -> None:
    cells = "".join(chr(0x2800 + mask) for mask in range(64))
    # from docs/FORMATS.md, with small letters, and ` { | } ~ for @ [ \\ ] ^
    wanted = " a1b'k2l`cif/msp\"e3h9o6r~djg>ntq,*5<-u8v.%{$+x!&;:4|0z7(_?w}#y)="
    assert Notation.SMALL.write(cells) == wanted
    assert Notation.SMALL.write("⠁⡁") == "a⡁"
