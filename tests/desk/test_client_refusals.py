"""Each code by which something is refused, and its sentence."""

import re
import shutil
import sqlite3
import string
from collections.abc import Callable, Iterator
from contextlib import closing
from pathlib import Path
from typing import Any

import pytest

import braildesk
from braildesk import (
    CannotOpen,
    Damaged,
    NewerFormat,
    NoMemory,
    NotABook,
    Refused,
    Session,
    Style,
    requests,
)
from braildesk.protocol.asked import BookFile, Refusal
from braildesk.protocol.requests import Request
from braildesk.protocol.sentences import CAUSES, LIMITS, PARTS, SENTENCES, UNOPENED
from braildesk.protocol.wording import worded
from braildesk.refusals import refused
from braildesk.text.characters import around, named

FORMATS = Path(__file__).parents[2] / "docs" / "FORMATS.md"


def numbers_of_rows(heading: str, column: int = 0) -> set[int]:
    """The numbers in a column of the first table of docs/FORMATS.md with this head."""
    rows = FORMATS.read_text().split(heading, 1)[1].split("\n\n", 1)[0]
    columns = [line.split("|")[1 + column] for line in rows.splitlines()[1:]]
    return {int(number) for text in columns for number in re.findall(r"\d+", text)}


def test_each_code_of_the_formats_has_a_sentence() -> None:
    codes = numbers_of_rows("| code | when | what to do |\n")
    assert codes == {*range(1, 19), *range(90, 100)}
    assert codes == set(SENTENCES)


def test_each_cause_of_the_formats_has_words() -> None:
    causes = numbers_of_rows("| cause | when |\n")
    assert causes == set(range(1, 10)) == set(CAUSES)


def test_each_limit_of_the_formats_has_a_sentence() -> None:
    row = re.search(r"^\| refused by 15 \| .*$", FORMATS.read_text(), re.MULTILINE)
    assert row is not None
    limits = {int(n) for n in re.findall(r"[:;] (\d) the", row[0])}
    assert limits == set(range(1, 6)) == set(LIMITS)


def test_each_table_of_a_file_has_words() -> None:
    parts = numbers_of_rows("| number | table | damaged if | id |\n")
    assert parts | {1} == set(range(1, 8)) == set(PARTS)


@pytest.fixture(scope="module")
def shelf(made_once: Path, tmp_path_factory: pytest.TempPathFactory) -> Path:
    """A book with two tables, three paragraphs, of which 2 is struck, and a resolved mark."""
    path = tmp_path_factory.mktemp("shelf") / "shelf.braildesk"
    shutil.copyfile(made_once / "supplied.braildesk", path)
    with Session(path) as session:
        session.put_table("few", b"space \\s 0\nletter a 1\nletter b 12\n")
        session.add_paragraph("end", "en", "The moon is far away.")
        session.add_paragraph("end", "en", "")
        session.strike(2)
        session.add_paragraph("end", "few", "ab ba")
        session.add_mark(1, 0, 1)
        session.resolve_mark(1)
        session.correct(3, 0, 0, "b")
        assert session.version() == 9
    return path


@pytest.fixture(scope="module")
def asked(shelf: Path) -> Iterator[Session]:
    """A session with a copy of that book, which refusals leave as it is."""
    with Session(shutil.copyfile(shelf, shelf.with_name("asked"))) as session:
        yield session
        assert session.version() == 9


#: What is asked, the code and the numbers that come, and the sentence.
SAID: list[tuple[Request[Any], int, dict[str, int], str]] = [
    (
        requests.Print(-1),
        1,
        {},
        "This is no request that braildesk knows. Its numbers go from 0 to"
        " 9,007,199,254,740,992, and a paragraph is put at the front, at the end or after"
        " another.",
    ),
    (
        requests.Type("end", "en", "The moon\udc80 is far"),
        1,
        {"place": 8},
        "Character 9 of the text is U+DC80, which is only half of a character and can't be kept:"
        " “The moon<U+DC80> is far”. Nothing was added.",
    ),
    (
        requests.Print(9),
        2,
        {},
        "The book has no paragraph 9: it has the paragraphs 1 to 3.",
    ),
    (
        requests.Type(7, "en", "a"),
        2,
        {},
        "The book has no paragraph 7: it has the paragraphs 1 to 3. Nothing was added.",
    ),
    (
        requests.Move(1, 8),
        2,
        {},
        "The book has no paragraph 8: it has the paragraphs 1 to 3. Nothing was changed.",
    ),
    (
        requests.Move(9, 1),
        2,
        {},
        "The book has no paragraph 9: it has the paragraphs 1 to 3. Nothing was changed.",
    ),
    (
        requests.Move(9, 8),
        2,
        {},
        "The book has no paragraph 9 and no paragraph 8: it has the paragraphs 1 to 3. Nothing was"
        " changed.",
    ),
    (
        requests.Type("end", "De", "a"),
        3,
        {},
        "The book has no table “De”. Nothing was added. Add that table first, or name one that is"
        " there.",
    ),
    (
        requests.Retable(1, "de"),
        3,
        {},
        "The book has no table de. Nothing was changed. Add that table first, or name one that is"
        " there.",
    ),
    (
        requests.Resolve(2),
        4,
        {},
        "The book has no mark 2. Nothing was changed. The request marks shows those of a"
        " paragraph.",
    ),
    (
        requests.Correct(1, 20, 3, "x"),
        5,
        {},
        "Paragraph 1 doesn't have the characters 21 to 23: it has 21 characters. Nothing was"
        " changed.",
    ),
    (
        requests.Correct(2, 1, 0, "x"),
        11,
        {},
        "Paragraph 2 is struck. Nothing was changed. Restore it first.",
    ),
    (
        requests.Correct(1, 22, 0, "x"),
        5,
        {},
        "Paragraph 1 doesn't have a place after character 22: it has 21 characters. Nothing was"
        " changed.",
    ),
    (
        requests.Mark(1, 22, 1),
        5,
        {},
        "Paragraph 1 doesn't have cell 23: it has 22 cells. No mark was put.",
    ),
    (
        requests.Mark(1, 3, 0),
        5,
        {},
        "A mark has to stand on one cell at least. No mark was put.",
    ),
    (
        requests.Where(1, 21),
        5,
        {},
        "Paragraph 1 doesn't have character 22: it has 21 characters.",
    ),
    (
        requests.Whence(1, 30),
        5,
        {},
        "Paragraph 1 doesn't have cell 31: it has 22 cells.",
    ),
    (
        requests.Type("end", "en", "two\nlines"),
        6,
        {"place": 3},
        "A text can't have U+000A LINE FEED, which is character 4 of this one:"
        " “two<U+000A>lines”. Nothing was added. Take it out.",
    ),
    (
        requests.Mark(1, 0, 1, "\0"),
        6,
        {"place": 0},
        "A note can't have U+0000 NULL, which is character 1 of this one: “<U+0000>”. No mark was"
        " put. Take it out.",
    ),
    (
        requests.Type(
            "end", "en", "When all was said and done, so it ended… and then came more."
        ),
        7,
        {"place": 39},
        "The table en has no cells for “…” (U+2026 HORIZONTAL ELLIPSIS), character 40 of the text:"
        " “done, so it ended… and then came more.”. Nothing was added.",
    ),
    (
        # the first four characters are two in normal form C, in which places are counted
        requests.Type("end", "few", "e\u0301e\u0301"),
        7,
        {"place": 0},
        "The table few has no cells for “é” (U+00E9 LATIN SMALL LETTER E WITH ACUTE), character 1"
        " of the text: “éé”. Nothing was added.",
    ),
    (
        requests.Type("end", "few", "ab\u0301"),
        7,
        {"place": 2},
        "The table few has no cells for U+0301 COMBINING ACUTE ACCENT, character 3 of the text:"
        " “ab\u0301”. Nothing was added.",
    ),
    (
        requests.Correct(3, 2, 1, "a\u00adb"),
        7,
        {"place": 3},
        "The table of paragraph 3 has no cells for U+00AD SOFT HYPHEN, character 2 of the new"
        " text: “a<U+00AD>b”. Nothing was changed.",
    ),
    (
        requests.Retable(1, "few"),
        7,
        {"place": 0},
        "The table few has no cells for “T” (U+0054 LATIN CAPITAL LETTER T), character 1 of"
        " paragraph 1: “The moon is far away.”. Nothing was changed.",
    ),
    (
        requests.Table("few", b"space \\s 0\nletter a 1\n"),
        9,
        {"paragraph": 3, "place": 0},
        "The new text of the table few has no cells for “b” (U+0062 LATIN SMALL LETTER B),"
        " character 1 of paragraph 3, which uses that table: “bab ba”. Nothing was changed. Keep a"
        " definition of it, or give that paragraph another table first.",
    ),
    (
        requests.Undo(1),
        10,
        {},
        "Paragraph 1 has no correction that could be taken back. Nothing was changed.",
    ),
    (
        requests.Strike(2),
        11,
        {},
        "Paragraph 2 is struck already.",
    ),
    (
        requests.Restore(1),
        12,
        {},
        "Paragraph 1 isn't struck, so there is nothing to restore.",
    ),
    (requests.Resolve(1), 13, {}, "Mark 1 is resolved already."),
    (
        requests.Type("end", "en", "x" * 4_001),
        14,
        {},
        "The text has 4,001 characters, and may have 4,000. Nothing was added. Cut it, or type the"
        " rest as a paragraph of its own.",
    ),
    (
        requests.Correct(1, 0, 0, "x" * 3_980),
        14,
        {},
        "The print of paragraph 1 would have over 4,000 characters. Nothing was changed. Cut it,"
        " or type the rest as a paragraph of its own.",
    ),
    (
        requests.Mark(1, 0, 1, "x" * 501),
        14,
        {},
        "The note has 501 characters, and may have 500. No mark was put. Cut it.",
    ),
    (
        requests.Style(1, Style.HEADING, expect=8),
        16,
        {"version": 9},
        "The book is at version 9 and not at 8: another command came first. Nothing was changed."
        " Look at the book as it is now, and ask again.",
    ),
    (
        requests.Supply("En"),
        17,
        {},
        "“En” can't be the name of a table. Nothing was changed. A name has 1 to 32 of the"
        " characters a to z, 0 to 9, _ and -.",
    ),
    (
        requests.CorrectBy(1, 0, 0, "a", who="x" * 41),
        18,
        {},
        "“xxxxxxxxxxxxxxxxxxxxxxxxxxxxxxxxxxxxxxxxx” can't be the name of a proofreader. Nothing"
        " was changed. A name has 1 to 40 characters, none of them a blank.",
    ),
]


@pytest.mark.parametrize(
    "count, there",
    [(0, "it has none yet"), (1, "it has paragraph 1 alone")],
)
def test_a_paragraph_that_is_not_in_a_small_book_is_refused(
    count: int, there: str, book: Path
) -> None:
    with Session(book) as session:
        for _ in range(count):
            session.add_paragraph("end", "en", "The moon")
        with pytest.raises(Refused) as caught:
            session.strike(2)
    assert caught.value.sentence == (
        f"The book has no paragraph 2: {there}. Nothing was changed."
    )


def test_a_paragraph_that_is_asked_for_among_others_is_refused(book: Path) -> None:
    with Session(book) as session:
        (refused_,) = session.each([requests.Strike(2)])
    assert isinstance(refused_, Refused)
    assert refused_.sentence == (
        "The book has no paragraph 2. Nothing was changed. The request list shows which there"
        " are."
    )


#: Commands, and the words by which a person reads of one that could not be kept.
NAMED: list[tuple[Request[Any], str]] = [
    (requests.Table("own", b"letter a 1\n"), "The table own"),
    (requests.Supply("en"), "The supplied table as en"),
    (requests.Type(1, "en", "The moon"), "The new paragraph “The moon”"),
    (requests.Correct(1, 0, 0, "aa", expect=712), "The correction of paragraph 1"),
    (requests.CorrectBy(3, 0, 0, "a", who="anna"), "The correction of paragraph 3"),
    (requests.Undo(2), "The undo in paragraph 2"),
    (requests.Mark(2, 0, 1, "so?"), "The mark “so?” in paragraph 2"),
    (requests.Resolve(4), "The resolving of mark 4"),
    (requests.Strike(2), "The striking of paragraph 2"),
    (requests.Restore(2), "The restoring of paragraph 2"),
    (requests.Style(2, Style.HEADING), "The style heading of paragraph 2"),
    (requests.Volume(2, True), "That paragraph 2 begins a volume"),
    (requests.Volume(2, False), "That paragraph 2 begins no volume"),
    (requests.Retable(2, "own"), "The table own of paragraph 2"),
    (requests.Move(2, "front"), "The move of paragraph 2"),
]


def test_each_command_has_its_words() -> None:
    assert {type(request) for request, _ in NAMED} == {
        kind for kind in requests.REQUESTS if issubclass(kind, requests.Command)
    }


@pytest.mark.parametrize("request_, words", NAMED, ids=lambda v: repr(v)[:40])
def test_a_command_that_could_not_be_kept_is_named_in_words(
    request_: Request[Any], words: str
) -> None:
    sentence = refused(91, request_).sentence
    assert sentence.startswith(
        f"{words} was not reported as kept, since the file of the book"
    )


@pytest.mark.parametrize(
    ("request_", "code", "numbers", "sentence"), SAID, ids=lambda v: repr(v)[:40]
)
def test_a_refusal_says_what_happened_and_where(
    asked: Session,
    request_: Request[Any],
    code: int,
    numbers: dict[str, int],
    sentence: str,
) -> None:
    with pytest.raises(Refused) as caught:
        asked.ask(request_)
    refusal = caught.value
    assert (refusal.code, refusal.sentence) == (code, sentence)
    assert str(refusal) == sentence
    named = (
        "place",
        "line",
        "cause",
        "paragraph",
        "limit",
        "version",
        "cell",
        "table",
        "id",
    )
    found = {name: getattr(refusal, name) for name in named}
    assert {name: n for name, n in found.items() if n is not None} == numbers
    assert refusal.asked == request_


#: A line of a table, its cause, and what is said of it.
BAD_LINES = [
    (b"lettr a 1", 1, "it begins with a word that is no opcode of braildesk"),
    (b"letter a", 2, "an operand is missing"),
    (
        b"letter \\q 1",
        3,
        "its characters are written with an escape that there isn't, or are not as many as the"
        " opcode takes (one, or two after uplow)",
    ),
    (b"letter a 19", 4, "its dots are none that the opcode takes"),
    (
        b"digit a 1",
        5,
        "a character is defined already, by an earlier line or twice by this one",
    ),
    (
        b"numsign 3456",
        6,
        "this sign, or these characters, were given by an earlier line already",
    ),
    (b"always z 1", 7, "it has a character that no line of the table defines"),
    (
        b"always " + b"a" * 61 + b" 1",
        8,
        "it is too long, or has too many characters or cells, or the table has over 20,000 lines",
    ),
    (b"letter \xff 1", 9, "it is not UTF-8"),
]


@pytest.mark.parametrize(
    ("line", "cause", "said"), BAD_LINES, ids=lambda v: repr(v)[:20]
)
def test_a_bad_line_of_a_table_is_shown_with_its_cause(
    asked: Session, tmp_path: Path, line: bytes, cause: int, said: str
) -> None:
    text = b"letter a 1\nnumsign 3456\n" + line + b"\r\nletter y 1\n"
    shown = line.decode(errors="replace")
    with pytest.raises(Refused) as caught:
        asked.put_table("new", text)
    refusal = caught.value
    assert (refusal.code, refusal.line, refusal.cause) == (8, 3, cause)
    assert refusal.sentence == (
        f"Line 3 of the table new is refused: {said}. It reads “{shown}”. Nothing was changed."
    )


def changed(shelf: Path, path: Path, *statements: str) -> Path:
    """A copy of a book with its file changed by SQLite."""
    shutil.copyfile(shelf, path)
    with closing(sqlite3.connect(path)) as database:
        database.executescript(";".join(statements))
        database.execute("PRAGMA wal_checkpoint(TRUNCATE)")
    return path


#: How many of each a book holds, made by SQLite: LIMIT, statements, what is asked, what is said.
FULL = [
    (
        1,
        "WITH n(i) AS (SELECT 1 UNION ALL SELECT i + 1 FROM n WHERE i < 14)"
        " INSERT INTO tab SELECT 't' || i, body FROM n, tab WHERE name = 'en'",
        requests.Supply("one-more"),
        "The book has 16 tables, and holds no more. Nothing was changed. Begin another book.",
    ),
    (
        2,
        "WITH n(i) AS (SELECT 4 UNION ALL SELECT i + 1 FROM n WHERE i < 20000)"
        " INSERT INTO para SELECT i, i, 'en', '', '', 0, 0, 0 FROM n;"
        "INSERT INTO cache SELECT id, x'' FROM para WHERE id > 3",
        requests.Type("end", "en", "a"),
        "The book has 20,000 paragraphs with the struck ones, and holds no more. Nothing was"
        " added. Begin another book.",
    ),
    (
        3,
        "WITH n(i) AS (SELECT 1 UNION ALL SELECT i + 1 FROM n WHERE i < 10000)"
        " INSERT INTO corr2 SELECT 1, i, 0, 0, 0, '', '' FROM n",
        requests.Correct(1, 0, 0, "a"),
        "The history of paragraph 1 has 10,000 entries, and holds no more. Nothing was changed."
        " Begin another book.",
    ),
    (
        4,
        "WITH n(i) AS (SELECT 2 UNION ALL SELECT i + 1 FROM n WHERE i < 100000)"
        " INSERT INTO mark SELECT i, 1, 0, 1, '', 0, 1 FROM n",
        requests.Mark(1, 0, 1),
        "The book has 100,000 marks with the resolved ones, and holds no more. No mark was put."
        " Begin another book.",
    ),
    (
        5,
        "UPDATE book SET version = 9007199254740992",
        requests.Strike(1),
        "The book is at version 9,007,199,254,740,992, which is the last one. Nothing was"
        " changed. Begin another book.",
    ),
]


@pytest.mark.parametrize(
    ("limit", "statements", "request_", "sentence"),
    FULL,
    ids=["tables", "paragraphs", "entries", "marks", "versions"],
)
def test_a_full_book_says_what_is_full(
    shelf: Path,
    tmp_path: Path,
    limit: int,
    statements: str,
    request_: Request[Any],
    sentence: str,
) -> None:
    with Session(changed(shelf, tmp_path / "full", statements)) as session:
        with pytest.raises(Refused) as caught:
            session.ask(request_)
    refusal = caught.value
    assert (refusal.code, refusal.limit) == (15, limit)
    assert refusal.sentence == sentence


#: Statements that damage a file, with the TABLE and ID that are reported, and what is said.
DAMAGED = [
    ("UPDATE book SET version = -1", 1, 1, "the table book"),
    (
        "UPDATE tab SET body = x'ff' WHERE name = 'few'",
        2,
        2,
        "the table tab, number 2 in the order of the names of tables",
    ),
    (
        "UPDATE para SET struck = 2 WHERE id = 3",
        3,
        3,
        "the table para, of paragraph 3",
    ),
    (
        "UPDATE cache SET para = -3 WHERE para = 3",
        6,
        -3,
        "the table cache, of paragraph -3",
    ),
    (
        "UPDATE mark SET stop = 22",
        5,
        1,
        "the table mark, of mark 1",
    ),
    (
        "UPDATE cache SET cells = x'01' WHERE para = 1",
        6,
        1,
        "the table cache, of paragraph 1",
    ),
    (
        "UPDATE corr2 SET body = 'a'",
        7,
        3,
        "the table corr2, in the history of paragraph 3",
    ),
]


@pytest.mark.parametrize(
    ("statement", "table", "id_", "part"),
    DAMAGED,
    ids=["book", "tab", "para", "negative", "mark", "cache", "corr2"],
)
def test_a_damaged_book_is_refused_with_what_is_wrong_in_it(
    shelf: Path, tmp_path: Path, statement: str, table: int, id_: int, part: str
) -> None:
    path = changed(shelf, tmp_path / "damaged", statement)
    with pytest.raises(Damaged) as caught:
        Session(path)
    damaged = caught.value
    assert (damaged.code, damaged.table, damaged.id) == (93, table, id_)
    assert damaged.sentence == (
        f"The book “{path}” is damaged: its file has a wrong row in {part}. Nothing was changed."
        " Keep the file as it is, and go on with an earlier copy."
    )


def test_a_damaged_history_of_the_first_format_is_refused(
    tmp_path: Path, shelf: Path
) -> None:
    path = changed(
        shelf,
        tmp_path / "first",
        "UPDATE book SET format = 1",
        "CREATE TABLE corr (para INTEGER NOT NULL, seq INTEGER NOT NULL, kind INTEGER NOT NULL,"
        " start INTEGER NOT NULL, len INTEGER NOT NULL, body TEXT NOT NULL,"
        " PRIMARY KEY (para, seq)) STRICT",
        "INSERT INTO corr VALUES (3, 2, 0, 0, 0, 'b')",
        "DROP TABLE corr2",
    )
    with pytest.raises(Damaged) as caught:
        braildesk.check(path)
    assert (caught.value.table, caught.value.id) == (4, 3)
    assert "the table corr, in the history of paragraph 3" in caught.value.sentence


def test_a_book_of_a_newer_format_is_refused(shelf: Path, tmp_path: Path) -> None:
    path = changed(shelf, tmp_path / "newer", "UPDATE book SET format = 3")
    with pytest.raises(NewerFormat) as caught:
        Session(path)
    assert caught.value.code == 94
    assert caught.value.sentence == (
        f"The book “{path}” was made by a newer braildesk than this one. Nothing was changed. Use"
        " that one, or a newer."
    )


def test_a_database_without_a_book_is_refused(tmp_path: Path) -> None:
    path = tmp_path / "other.db"
    with closing(sqlite3.connect(path)) as database:
        database.execute("CREATE TABLE birds (name TEXT)")
    with pytest.raises(NotABook) as caught:
        Session(path)
    assert caught.value.code == 92
    assert caught.value.sentence == (
        f"“{path}” is no book. Nothing was changed. Check that the path is right."
    )


def test_a_cell_that_pages_cannot_have_is_refused(book: Path) -> None:
    with Session(book) as session:
        session.put_table("eight", b"letter a 1\nletter b 17\n")
        session.add_paragraph("end", "eight", "aab")
    with pytest.raises(Refused) as caught:
        braildesk.export(book, 1)
    assert (caught.value.code, caught.value.paragraph, caught.value.cell) == (95, 1, 2)
    assert caught.value.sentence == (
        "Cell 3 of paragraph 1 has dot 7 or 8, which pages for embossers can't have. Nothing was"
        " exported. Correct the table of that paragraph."
    )


def test_a_volume_that_is_not_there_is_refused(shelf: Path) -> None:
    for volume in (2, 0, -1, 20_001):
        with pytest.raises(Refused) as caught:
            braildesk.export(shelf, volume)
        assert caught.value.code == 96
        assert caught.value.sentence == (
            f"The book has no volume {volume}. Nothing was exported. Take a smaller number, from 1"
            " on; a book of which each paragraph is struck has no volume at all."
        )


@pytest.mark.parametrize(("width", "lines"), [(9, 25), (61, 25), (40, 4), (40, 41)])
def test_a_page_of_another_size_is_refused(shelf: Path, width: int, lines: int) -> None:
    with pytest.raises(Refused) as caught:
        braildesk.export(shelf, 1, width, lines)
    assert caught.value.code == 97
    assert caught.value.sentence == (
        f"A page can't be {width} wide and {lines} long. Nothing was exported. Take 10 to 60"
        " cells and 5 to 40 lines."
    )


def test_a_new_book_is_refused_where_one_is(shelf: Path) -> None:
    with pytest.raises(Refused) as caught:
        braildesk.new_book(shelf)
    assert (caught.value.code, caught.value.version) == (99, 9)
    assert caught.value.sentence == (
        f"“{shelf}” holds a book at version 9 already, which stays as it is. Use that one, or take"
        " another path for the new one."
    )


def test_a_file_that_is_not_there_is_refused(tmp_path: Path) -> None:
    with pytest.raises(CannotOpen) as caught:
        Session(tmp_path / "none")
    assert caught.value.code == 98
    assert caught.value.sentence == (
        f"There is no file “{tmp_path / 'none'}”. Check that the path is right."
    )
    assert not (tmp_path / "none").exists()


def test_each_field_of_a_sentence_can_be_filled() -> None:
    fields = {
        field
        for sentence in (*SENTENCES.values(), *LIMITS.values(), *UNOPENED.values())
        for _, field, _, _ in string.Formatter().parse(sentence)
        if field is not None
    }
    words = {
        code: worded(Refusal(code, BookFile("moon.braildesk"))) for code in SENTENCES
    }
    assert {"nothing", "character", "around", "path"} < fields
    assert all(word and "{" not in word for word in words.values())
    assert len(set(words.values())) == len(words)


@pytest.mark.parametrize(
    ("character", "shown"),
    [
        ("a", "“a” (U+0061 LATIN SMALL LETTER A)"),
        ("…", "“…” (U+2026 HORIZONTAL ELLIPSIS)"),
        ("月", "“月” (U+6708 CJK UNIFIED IDEOGRAPH-6708)"),
        ("\U0001f319", "“\U0001f319” (U+1F319 CRESCENT MOON)"),
        (" ", "U+0020 SPACE"),
        ("\u00a0", "U+00A0 NO-BREAK SPACE"),
        ("\t", "U+0009 TAB"),
        ("\x01", "U+0001 START OF HEADING"),
        ("\u0301", "U+0301 COMBINING ACUTE ACCENT"),
        ("\u200d", "U+200D ZERO WIDTH JOINER"),
        ("\ue000", "U+E000 a private character"),
        ("\ud800", "U+D800 half of a character"),
        ("\u0378", "U+0378 no character of Unicode that is known here"),
    ],
)
def test_a_character_is_named_and_shown_where_it_can_be_seen(
    character: str, shown: str
) -> None:
    assert named(character) == shown


@pytest.mark.parametrize(
    ("text", "place", "shown"),
    [
        ("…", 0, "“…”"),
        ("The moon… is far.", 8, "“The moon… is far.”"),
        ("x" * 30 + "…" + "y" * 30, 30, f"“{'x' * 20}…{'y' * 20}”"),
        (
            "It was late when the bells rang… and nobody had heard them.",
            31,
            "“when the bells rang… and nobody had”",
        ),
        ("a\tb\u00adc…", 5, "“a<U+0009>b<U+00AD>c…”"),
    ],
)
def test_the_words_around_a_character_are_shown_whole(
    text: str, place: int, shown: str
) -> None:
    assert around(text, place) == shown


def scripted(folder: Path, lines: str) -> Path:
    """A program that answers as it is told, whatever it is asked."""
    program = folder / "program"
    program.write_text(f"#!/bin/sh\n{lines}\n")
    program.chmod(0o755)
    return program


def test_want_of_memory_is_said_of_a_request_and_the_session_goes_on(
    tmp_path: Path,
) -> None:
    program = scripted(
        tmp_path,
        "read line; echo end 1; read line; echo no 90; read line; echo end 1; cat > /dev/null",
    )
    with Session("any", program) as session:
        with pytest.raises(NoMemory) as caught:
            session.add_paragraph("end", "en", "a")
        assert session.version() == 1
    assert caught.value.code == 90
    assert caught.value.sentence == (
        "There was no memory for this. Nothing was added. Close other programs, and ask again."
    )


def test_want_of_memory_is_said_of_a_file(tmp_path: Path) -> None:
    program = scripted(tmp_path, "echo braildesk: no 90 >&2; exit 2")
    attempts: list[Callable[[], object]] = [
        lambda: Session("any", program),
        lambda: braildesk.new_book("any", program=program),
        lambda: braildesk.check("any", program=program),
    ]
    for attempt in attempts:
        with pytest.raises(NoMemory) as caught:
            attempt()
        assert caught.value.sentence == (
            "There was no memory for this. Close other programs, and ask again."
        )
