"""`scribe find`: where words or cells stand in a book."""

from pathlib import Path
from unicodedata import normalize

import pytest
from tool import Ran, scribe

from braildesk import Session
from braildesk.desk.find import alike, unlike
from braildesk.desk.tables import FOLDER
from braildesk.text.sequences import is_plain

# a contraction of two letters, which has one cell, and a letter without a composed form
TABLE = b"space \\s 0\nletter a 1\nletter n 1345\nletter q 12345\nletter \\x0307 4\nalways an 2\n"


def find(book: Path, *words: str) -> Ran:
    return scribe("find", book, *words, folder=book.parent)


@pytest.fixture
def moon(book: Path) -> Path:
    with Session(book) as session:
        session.add_paragraph("end", "en", "On 20 July 1969 two men stood on the moon.")
        session.add_paragraph("end", "en", "The tides come twice a day.")
        session.add_paragraph("front", "en", "Moon, moon, moonlight")
        session.strike(2)
    return book


def test_each_place_is_shown_with_the_words_around_it(moon: Path) -> None:
    assert find(moon, "moon", "--width", "70") == Ran(
        0,
        "Paragraph 3, character 7: Moon, [moon], moonlight\n"
        "Paragraph 3, character 13: Moon, moon, [moon]light\n"
        "Paragraph 1, character 38: …20 July 1969 two men stood on the [moon].\n",
        "Found “moon” 3 times, in 2 paragraphs.\n",
    )


def test_a_place_in_a_struck_paragraph_is_said_to_be_there(moon: Path) -> None:
    assert find(moon, "tides") == Ran(
        0,
        "Paragraph 2, struck, character 5: The [tides] come twice a day.\n",
        "Found “tides” once.\n",
    )


def test_words_that_stand_nowhere_are_said_to(moon: Path) -> None:
    assert find(moon, "sun") == Ran(0, "", "“sun” isn't in the print of the book.\n")


def test_words_that_are_otherwise_in_the_book_are_said_to_be_and_shown(
    moon: Path,
) -> None:
    assert find(moon, "MOON") == Ran(
        0,
        "",
        "“MOON” isn't in the print of the book as typed. With other capitals it is there 4 times, in 2"
        " paragraphs; --alike shows where.\n",
    )
    assert find(moon, "moon,", "--alike") == Ran(
        0,
        "Paragraph 3, character 1: [Moon,] moon, moonlight\n"
        "Paragraph 3, character 7: Moon, [moon,] moonlight\n",
        "Found “moon,” 2 times, in one paragraph, with other capitals too.\n",
    )
    assert find(moon, "moon.", "--alike").said == ("Found “moon.” once.\n")
    assert find(moon, "Mond", "--alike").said == (
        "“Mond” isn't in the print of the book.\n"
    )
    assert find(moon, "moon", "--alike", "--braille").status == 1


def test_letters_that_are_written_otherwise_are_not_said_to_be_capitals(
    empty_book: Path,
) -> None:
    with Session(empty_book) as session:
        session.put_table("ueb", (FOLDER / "ueb.utb").read_bytes())
        session.add_paragraph("end", "ueb", "Die Straße, die Maße")
    nowhere = "“{}” isn't in the print of the book as typed. With {} it is there once; --alike shows where.\n"
    for sought, how in (
        ("Strasse", "a letter written otherwise"),
        ("STRASSE", "other capitals and a letter written otherwise"),
        ("straße", "other capitals"),
        ("STRAẞE", "other capitals"),
    ):
        assert find(empty_book, sought) == Ran(0, "", nowhere.format(sought, how))
    assert find(empty_book, "Masse", "--alike") == Ran(
        0,
        "Paragraph 1, character 17: Die Straße, die [Maße]\n",
        "Found “Masse” once, with a letter written otherwise.\n",
    )


@pytest.mark.parametrize(
    "words, others, kinds",
    [
        ("moon", "Moon", ["CAPITALS"]),
        ("fin", "ﬁn", ["LETTERS"]),
        ("ΣΟΦΟΣ", "σοφος", ["CAPITALS"]),
        ("σοφοσ", "σοφος", ["LETTERS"]),
        ("Ꭰ", "ꭰ", ["CAPITALS"]),
        ("ᾈ", "ᾀ", ["CAPITALS"]),
        ("'n", "ŉ", ["LETTERS", "APOSTROPHE"]),
        # quotation marks that stand single count as apostrophes
        ("'n'", "‹n›", ["APOSTROPHE"]),
        ("a b c d", "a\u1680b\u2000c\u2001d", ["BLANK"]),
        ("a b c d", "a\u2004b\u2005c\u2006d", ["BLANK"]),
        ("a b c d e", "a\u2008b\u200ac\u205fd\u3000e", ["BLANK"]),
    ],
)
def test_texts_that_are_alike_differ_by_something_that_is_named(
    words: str, others: str, kinds: list[str]
) -> None:
    assert alike(words) == alike(others)
    assert [kind.name for kind in unlike(words, others)] == kinds


def test_the_letters_i_of_turkish_are_alike_as_in_other_languages() -> None:
    assert alike("I") == alike("i")
    assert len({alike(letter) for letter in "iıİ"}) == 3


def test_cells_are_found_and_the_print_that_they_stand_for(moon: Path) -> None:
    wanted = Ran(
        0,
        "Paragraph 3, cell 1: [⠠⠍]⠕⠕⠝⠂⠀⠍⠕⠕⠝⠂⠀⠍⠕⠕⠝⠇⠊⠛⠓⠞\n"
        "  character 1: [M]oon, moon, moonlight\n",
        "Found “,M” once.\n",
    )
    assert find(moon, "--braille", ",M") == wanted
    assert find(moon, "--braille", "⠠⠍").shown == wanted.shown
    assert find(moon, "--braille", ",m").shown == wanted.shown
    assert find(moon, ",M").said == "“,M” isn't in the print of the book.\n"
    none = "“zzz” isn't in the cells of the book.\n"
    assert find(moon, "--braille", "zzz") == Ran(0, "", none)


def test_the_sign_of_a_number_stands_for_its_first_digit(moon: Path) -> None:
    shown = find(moon, "--braille", "#BJ ,J", "--width", "50").shown
    assert shown == (
        "Paragraph 1, cell 5: ⠠⠕⠝⠀[⠼⠃⠚⠀⠠⠚]⠥⠇⠽⠀⠼⠁⠊⠋⠊⠀⠞⠺⠕…\n"
        "  character 4: On [20 J]uly 1969 two men stood on…\n"
    )


def test_cells_of_a_contraction_stand_for_all_of_it(empty_book: Path) -> None:
    with Session(empty_book) as session:
        session.put_table("own", TABLE)
        session.add_paragraph("end", "own", "nana")
        session.add_paragraph("end", "own", "qan an")
    assert find(empty_book, "--braille", "1").shown == (
        "Paragraph 1, cell 2: ⠝[⠂]⠁\n"
        "  character 2: n[an]a\n"
        "Paragraph 2, cell 2: ⠟[⠂]⠀⠂\n"
        "  character 2: q[an] an\n"
        "Paragraph 2, cell 4: ⠟⠂⠀[⠂]\n"
        "  character 5: qan [an]\n"
    )


def test_plain_characters_are_in_normal_form_c_wherever_they_stand() -> None:
    every = list(map(chr, range(0x30000)))
    plain = {each for each in every if is_plain(each)}
    joining = {each for its in every for each in normalize("NFD", its)[1:]}
    assert {"a", "é", "’", "⠁"} <= plain
    assert all(normalize("NFC", each) == each for each in plain)
    assert not plain & joining


def test_words_are_found_in_normal_form_c(empty_book: Path) -> None:
    table = TABLE + "letter é 123456\nletter \\x0301 5\nletter e 15\n".encode()
    with Session(empty_book) as session:
        session.put_table("own", table)
        session.add_paragraph("end", "own", "ané ane\u0301 q\u0307n")
        session.add_paragraph("end", "own", "ae")
        session.correct(2, 2, 0, "\u0301")  # two characters, side by side in the print
    for sought in ("é", "e\u0301"):
        assert find(empty_book, sought).shown == (
            "Paragraph 1, character 3: an[é] ané q\u0307n\n"
            "Paragraph 1, character 7: ané an[é] q\u0307n\n"
            "Paragraph 2, character 2: a[e\u0301]\n"
        )
    assert find(empty_book, "q").said == "“q” isn't in the print of the book.\n"
    assert find(empty_book, "q\u0307").shown.startswith("Paragraph 1, character 9: ")


@pytest.mark.parametrize(
    "words, sentence",
    [
        (("",), "Argument TEXT: it is empty, and nothing can be looked for."),
        (
            ("--braille", "THÉ"),
            "Argument TEXT: U+00C9 LATIN CAPITAL LETTER E WITH ACUTE is no cell in"
            " Braille ASCII or Unicode.",
        ),
    ],
)
def test_what_cannot_be_looked_for_is_refused(
    moon: Path, words: tuple[str, ...], sentence: str
) -> None:
    ran = find(moon, *words)
    assert (ran.status, ran.shown) == (1, "")
    assert ran.said.startswith(sentence + "\nusage: scribe find")


def test_a_word_is_found_among_20_000_paragraphs(big_book: Path) -> None:
    assert find(big_book, "number 17771") == Ran(
        0,
        "Paragraph 17771, character 11: Paragraph [number 17771] of the moon.\n",
        "Found “number 17771” once.\n",
    )
