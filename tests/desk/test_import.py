"""`scribe import`: the paragraphs of a text file, typed into a book."""

import re
import resource
import sqlite3
import subprocess
import sys
from contextlib import closing
from pathlib import Path

import pytest

import braildesk
from braildesk import Session
from braildesk.desk import manuscripts
from braildesk.desk.import_text import CantRead, bytes_of
from braildesk.workshop import own_path

from scribe.words.import_text import not_imported
from strangers import NEEDS_ROOT, as_stranger, lead_to
from tool import Ran, environment, scribe

TEXT = "The moon\nis far away.\n\nTides\n\n\tTwice a day.\n"


def put(book: Path, text: str | bytes, *words: str, name: str = "text.txt") -> Ran:
    """Imports a text that is written beside the book."""
    data = text.encode() if isinstance(text, str) else text
    (book.parent / name).write_bytes(data)
    return scribe("import", book, name, *words, folder=book.parent)


def prints(book: Path) -> list[str]:
    with Session(book) as session:
        return [session.print_of(paragraph.id) for paragraph in session.paragraphs()]


def version(book: Path) -> int:
    return braildesk.check(book)


def test_paragraphs_are_typed_at_the_end_of_the_book(book: Path) -> None:
    with Session(book) as session:
        session.add_paragraph("end", "en", "Moon book")
    assert put(book, TEXT) == Ran(
        0, "3 paragraphs typed, numbers 2 to 4, by the table en.\n", ""
    )
    assert prints(book) == [
        "Moon book",
        "The moon is far away.",
        "Tides",
        "Twice a day.",
    ]


def test_each_line_is_typed_by_lines(book: Path) -> None:
    assert put(book, TEXT, "--lines").shown == (
        "4 paragraphs typed, numbers 1 to 4, by the table en.\n"
    )
    assert prints(book) == ["The moon", "is far away.", "Tides", "Twice a day."]


def test_a_mark_at_the_front_and_ends_of_other_systems_are_no_text(book: Path) -> None:
    assert put(book, "\ufeffThe moon\r\nis far.\r\n\r\nTides\r\n").status == 0
    assert prints(book) == ["The moon is far.", "Tides"]


@pytest.mark.parametrize(
    "option, things", [("--from", "lines and paragraphs"), ("--volumes", "levels")]
)
def test_nothing_is_counted_from_0(book: Path, option: str, things: str) -> None:
    ran = put(book, TEXT, option, "0")
    assert (ran.status, ran.said.splitlines()[0]) == (
        1,
        f"Argument {option}: {things} are counted from 1.",
    )
    assert version(book) == 1


def test_a_dry_run_types_nothing(book: Path) -> None:
    assert put(book, TEXT, "--dry-run") == Ran(
        0, "3 paragraphs would be typed, by the table en.\n", ""
    )
    assert version(book) == 1


def test_all_that_would_be_refused_is_reported_before_anything_is_typed(
    book: Path,
) -> None:
    text = (
        "The sea…\n\n  Zdeněk is far… ě\na\x0bb\n\n" + "x" * 4001 + "\n\n" + "y" * 4000
    )
    assert put(book, text) == Ran(
        2,
        "",
        "text.txt, line 1, column 8: “…” (U+2026 HORIZONTAL ELLIPSIS) has no cells by"
        " the table en. It stands in the text 2 times.\n"
        "text.txt, line 3, column 7: “ě” (U+011B LATIN SMALL LETTER E WITH CARON) has no"
        " cells by the table en. It stands in the text 2 times.\n"
        "text.txt, line 4, column 2: U+000B VERTICAL TAB is a control character. It"
        " stands in the text once.\n"
        "text.txt, line 6, column 4001: The paragraph of line 6 has 4,001 characters, and"
        " a paragraph has at most 4,000. This is the first beyond.\n"
        "Nothing was typed.\n",
    )
    assert version(book) == 1


OF_LIBLOUIS = """\
# Greek braille: el.ctb of liblouis 3.24.0, brought over to the profile of
#   braildesk by scribe bring.
"""
MORE_LINES = (
    "The table own was made from el.ctb of liblouis. With lines of your own that give"
    " these characters cells, it is made anew by: scribe bring el.ctb FILE{} --add LINES"
)


@pytest.mark.parametrize(
    ("head", "said"),
    [
        (OF_LIBLOUIS, [MORE_LINES.format("")]),
        (
            OF_LIBLOUIS + "# 5 rules were learned from the\n#   manuscript.\n",
            [MORE_LINES.format(" --for MANUSCRIPT")],
        ),
        ("# el.ctb of liblouis has more.\n", []),
        ("space \\t 0\n" + OF_LIBLOUIS, []),
    ],
)
def test_a_table_made_from_one_of_liblouis_is_told_how_it_gets_more_lines(
    head: str, said: list[str], empty_book: Path
) -> None:
    table = head + "space \\s 0\nletter α 1\n"
    with Session(empty_book) as session:
        session.put_table("own", table.encode())
    first, *more = put(empty_book, "α — α").said.splitlines()
    assert "(U+2014 EM DASH) has no cells by the table own." in first
    assert more == [*said, "Nothing was typed."]


def test_columns_count_characters_of_the_file(empty_book: Path) -> None:
    table = "space \\s 0\nletter ש 146\nletter é 123456\nletter 月 134\n"
    with Session(empty_book) as session:
        session.put_table("own", table.encode())
    ran = put(empty_book, "שש e\u0301e\u0301 月?\n月q\u0307 ש")
    assert [line[:46] for line in ran.said.split("\n")[:3]] == [
        "text.txt, line 1, column 10: “?” (U+003F QUEST",
        "text.txt, line 2, column 2: U+0307 COMBINING D",
        "text.txt, line 2, column 2: “q” (U+0071 LATIN ",
    ]


@pytest.mark.parametrize("text", ["ab\tab", "ab\fab", "ab\nab", "ab\r\nab", "ab ab"])
def test_a_table_without_a_blank_is_judged_by_the_blanks_of_the_paragraphs(
    empty_book: Path, text: str
) -> None:
    with Session(empty_book) as session:
        session.put_table("own", b"letter a 1\nletter b 12\n")
    ran = put(empty_book, f"ab\n\n{text}\n", "--dry-run")
    assert (ran.status, ran.shown) == (2, "")
    assert ran.said.startswith("text.txt, line 3, column 3: U+0020 SPACE has")
    assert put(empty_book, "ab\n\nba\n", "--dry-run").status == 0


def test_a_print_has_4_000_characters_once_it_is_in_normal_form_c(
    empty_book: Path,
) -> None:
    with Session(empty_book) as session:
        session.put_table("own", "letter é 123456\n".encode())
    assert put(empty_book, "e\u0301" * 4000).status == 0
    with Session(empty_book) as session:
        assert session.paragraphs()[0].length == 4000


def test_a_book_that_would_be_too_large_is_refused(big_book: Path) -> None:
    assert put(big_book, "The moon\n\nThe sea") == Ran(
        2,
        "",
        "The book has 20,000 paragraphs and the text 2. That is 2 too many: a book has at"
        " most 20,000.\n"
        "Nothing was typed.\n",
    )


UNREADABLE = [
    (
        "one\ncaf\xe9".encode("latin-1"),
        "text.txt isn't UTF-8: line 2, column 4 has the",
    ),
    ("one".encode("utf-16"), "text.txt is UTF-16. Save it as UTF-8"),
    (b"\n \n\f\n", "text.txt has no paragraph, so nothing was typed."),
]


@pytest.mark.parametrize("data, sentence", UNREADABLE)
def test_a_file_that_is_no_text_is_refused(
    book: Path, data: bytes, sentence: str
) -> None:
    ran = put(book, data)
    assert (ran.status, ran.shown) == (2, "")
    assert ran.said.startswith(sentence)
    assert version(book) == 1


@pytest.fixture
def first_format(book: Path) -> Path:
    """A book of the first format, which is another file once it was opened."""
    with closing(sqlite3.connect(book)) as database:
        database.executescript(
            "UPDATE book SET format = 1; CREATE TABLE corr (para INTEGER NOT NULL,"
            " seq INTEGER NOT NULL, kind INTEGER NOT NULL, start INTEGER NOT NULL,"
            " len INTEGER NOT NULL, body TEXT NOT NULL, PRIMARY KEY (para, seq)) STRICT;"
            " DROP TABLE corr2;"
        )
    return book


def files_of(folder: Path) -> dict[str, bytes]:
    """What stands in a folder."""
    return {each.name: each.read_bytes() for each in folder.iterdir()}


@pytest.mark.parametrize(
    "data, words",
    [
        (b"One.\n\nTw\xffo.\n", []),
        (b"One.\n\nTw\xffo.\n", ["--dry-run"]),
        ("One.\n".encode("utf-16"), []),
        (b" \t\n\r\n\f\n", []),
        (b"a\n\n" * 100_001, []),
        (b"One.\n", ["--from", "9"]),
    ],
    ids=["bytes", "dry-run", "utf-16", "blank", "many", "from"],
)
def test_a_text_that_is_not_read_leaves_the_files_of_the_book_as_they_were(
    first_format: Path, data: bytes, words: list[str]
) -> None:
    (first_format.parent / "text.txt").write_bytes(data)
    before = files_of(first_format.parent)
    assert put(first_format, data, *words).status == 2
    assert files_of(first_format.parent) == before


@pytest.mark.parametrize("ending", ["", "-wal", "-journal"])
def test_a_report_takes_the_place_of_no_file_of_the_book(
    book: Path, ending: str
) -> None:
    report = f"{book}{ending}"
    assert put(book, "Text.\n", "--report", report) == Ran(
        2, "", f"The report would take the place of {report}. Nothing was typed.\n"
    )
    assert put(book, "Text.\n").status == 0


def test_a_file_that_is_not_there_is_refused(book: Path) -> None:
    assert scribe("import", book, "none.txt", folder=book.parent) == Ran(
        2, "", "none.txt can't be read: No such file or directory. Nothing was typed.\n"
    )


@NEEDS_ROOT
@pytest.mark.parametrize("way", ["the text", "its folder", "a link of one's own"])
def test_no_text_is_read_through_a_link_of_another_user(
    tmp_path: Path, way: str
) -> None:
    private, link = shared_and_private(tmp_path)
    own, direct = tmp_path / "own", tmp_path / "direct"
    to = private.parent if way == "its folder" else private
    assert as_stranger(lambda: link.symlink_to(to)) == ""
    own.symlink_to(link)
    direct.symlink_to(private)
    path = {"the text": link, "its folder": link / private.name}.get(way, own)
    with pytest.raises(CantRead) as caught:
        bytes_of(path)
    assert not_imported(caught.value).sentence == (
        f"The link “{link}” is another user's, and no text is read through it. Take the path to which"
        " it leads, if that is what you mean, or another one. Nothing was typed."
    )
    assert bytes_of(private) == bytes_of(direct) == b"Mine\n"


@NEEDS_ROOT
def test_no_link_is_followed_that_a_stranger_puts_in_the_place_of_a_text(
    tmp_path: Path, monkeypatch: pytest.MonkeyPatch
) -> None:
    private, text = shared_and_private(tmp_path)

    def swap() -> None:
        text.unlink()
        text.symlink_to(private)

    def swapped(path: str) -> str:
        found = own_path(path)
        assert as_stranger(swap) == ""
        return found

    assert as_stranger(lambda: text.write_text("Theirs\n")) == ""
    assert bytes_of(text) == b"Theirs\n"
    monkeypatch.setattr(manuscripts, "own_path", swapped)
    with pytest.raises(CantRead):
        bytes_of(text)


def shared_and_private(folder: Path) -> tuple[Path, Path]:
    """A text of one's own, and the path of one in a folder where a stranger may write."""
    shared, private = folder / "shared", folder / "private"
    for each in (shared, private):
        each.mkdir()
    shared.chmod(0o777)
    lead_to(shared)
    (private / "text.txt").write_text("Mine\n")
    return private / "text.txt", shared / "text.txt"


@pytest.fixture
def tables(book: Path) -> Path:
    """A book with two tables, of which its last paragraph has the second."""
    with Session(book) as session:
        session.supply_table("second")
        session.add_paragraph("end", "en", "First")
        session.add_paragraph("end", "second", "Last")
    return book


@pytest.mark.parametrize(
    "words, table, order",
    [
        ([], "second", "1 2 3"),
        (["--after", "end"], "second", "1 2 3"),
        (["--after", "1"], "en", "1 3 2"),
        (["--table", "en"], "en", "1 2 3"),
        (["--table", "en", "--after", "front"], "en", "3 1 2"),
    ],
)
def test_the_table_is_that_of_the_paragraph_before(
    tables: Path, words: list[str], table: str, order: str
) -> None:
    assert put(tables, "Next", *words) == Ran(
        0, f"1 paragraph typed, number 3, by the table {table}.\n", ""
    )
    with Session(tables) as session:
        assert " ".join(str(each.id) for each in session.paragraphs()) == order


@pytest.mark.parametrize(
    "words, sentence",
    [
        (
            ["--after", "front"],
            "The book has the tables en, second. Say which by --table.",
        ),
        (["--table", "own"], "The book has no table own, it has en, second."),
        (
            ["--after", "7"],
            "There is no paragraph 7: the book has the paragraphs 1 to 2.",
        ),
    ],
)
def test_a_text_without_a_table_or_a_place_is_refused(
    tables: Path, words: list[str], sentence: str
) -> None:
    assert put(tables, "Next", *words) == Ran(2, "", f"{sentence} Nothing was typed.\n")


def test_a_book_without_tables_is_refused(empty_book: Path) -> None:
    assert put(empty_book, "Next") == Ran(
        2,
        "",
        "The book has no table, so nothing was typed. Put one into it by scribe table.\n",
    )


def test_the_paragraphs_follow_one_another_wherever_they_go(book: Path) -> None:
    put(book, "one\n\nfour")
    assert put(book, "two\n\nthree", "--after", "1").status == 0
    assert put(book, "a\n\nb\n\nc", "--after", "front").status == 0
    assert prints(book) == ["a", "b", "c", "one", "two", "three", "four"]


def test_from_goes_on_at_a_line(book: Path) -> None:
    put(book, "The moon\nis far away.\n")
    assert put(book, TEXT, "--from", "4").shown == (
        "2 paragraphs typed, numbers 2 to 3, by the table en.\n"
    )
    assert prints(book) == ["The moon is far away.", "Tides", "Twice a day."]


def test_from_a_blank_line_goes_on_at_the_next_paragraph(book: Path) -> None:
    put(book, "The moon\nis far away.\n")
    assert put(book, TEXT, "--from", "3").shown.startswith("2 paragraphs typed")


def test_from_is_refused_where_the_paragraph_before_differs(book: Path) -> None:
    put(book, "The moon\nis far away.\n")
    assert put(book, TEXT, "--from", "6") == Ran(
        2,
        "",
        "The text can't go on from line 6: before it comes the paragraph of line 4,"
        " “Tides”. The paragraph before in the book is “The moon is far away.”. That is"
        " lines 1 to 2: say --from 4. Nothing was typed.\n",
    )
    put(book, TEXT, "--from", "4")
    ran = put(book, TEXT, "--from", "4")
    assert ran.said.endswith(
        "That is line 6, the last of the text: all of it seems to be there. Nothing was"
        " typed.\n"
    )
    assert version(book) == 4


def test_from_looks_at_the_paragraph_after_which_the_text_goes(book: Path) -> None:
    put(book, "The moon is far away.\n\nThe end")
    assert put(book, TEXT, "--from", "4").status == 2
    assert put(book, TEXT, "--from", "4", "--after", "front").status == 2
    assert put(book, TEXT, "--from", "4", "--after", "1").status == 0
    assert prints(book) == ["The moon is far away.", "Tides", "Twice a day.", "The end"]
    shown = " ".join(scribe("import", "--help", folder=book.parent).shown.split())
    assert (
        "--from LINE begin at this line, or this paragraph of a document; the paragraph before it has"
        " to be in the book already, right before where the text goes"
    ) in shown


def test_from_within_a_paragraph_or_past_the_last_is_refused(book: Path) -> None:
    assert put(book, TEXT, "--from", "2").said == (
        "Line 2 is within the paragraph of lines 1 to 2. Say --from 1 to begin with that"
        " paragraph. Nothing was typed.\n"
    )
    assert put(book, TEXT, "--from", "7").said == (
        "The text has no paragraph from line 7 on. Nothing was typed.\n"
    )


@pytest.mark.parametrize(
    "is_noted, goes_on", [(True, "--continue"), (False, r"--from \d+")]
)
def test_a_file_that_can_not_grow_leaves_what_is_said_and_the_words_there_go_on(
    book: Path, is_noted: bool, goes_on: str
) -> None:
    state = {} if is_noted else {"XDG_STATE_HOME": "/dev/null"}
    lines = [f"Line number {number} of the moon." for number in range(1, 61)]
    (book.parent / "text.txt").write_text("\n\n".join(lines))

    def limit() -> None:
        resource.setrlimit(resource.RLIMIT_FSIZE, (400_000, 400_000))

    words = ("import", book, "text.txt")
    ran = scribe(*words, folder=book.parent, before=limit, **state)
    assert (ran.status, ran.shown) == (3, "")
    found = re.search(
        r"^text\.txt is in the book up to line (\d+), which is the end of paragraph"
        r" (\d+) of the book\.\nWhen nothing stands in the way any more, go on by: scribe"
        rf" import {re.escape(str(book))} text\.txt {goes_on}\n$",
        ran.said,
        re.MULTILINE,
    )
    assert found is not None
    last, paragraph = map(int, found.groups())
    assert 1 <= paragraph < 60 and last == 2 * paragraph - 1
    assert prints(book) == lines[:paragraph]
    said = ran.said.split("\n")[-2].split()
    if not is_noted:
        assert said[-1] == str(2 * paragraph + 1)
    assert scribe(*said[said.index("import") :], folder=book.parent).status == 0
    assert prints(book) == lines


# A program between scribe and braildesk, which ends one of them once five paragraphs are kept.
ENDING = """#!{python}
import os, shutil, signal, subprocess, sys, threading
program, words = os.environ["PROGRAM"], sys.argv[1:]
if words[0] != "session":
    os.execv(program, [program, *words])
PIPE = subprocess.PIPE
session = subprocess.Popen([program, *words], stdin=PIPE, stdout=PIPE, bufsize=0)


def pass_on():
    try:
        while data := os.read(0, 4096):
            session.stdin.write(data)
        session.stdin.close()
    except BrokenPipeError:
        pass


threading.Thread(target=pass_on, daemon=True).start()
kept = 0
for line in session.stdout:
    os.write(1, line)
    kept += line.startswith(b"ok")
    if kept == 5:
        kept += 1
        os.kill({process}, signal.{signal})
status = session.wait()
if status < 0:
    os.kill(os.getpid(), -status)
sys.exit(status)
"""


def ending(book: Path, process: str, signal: str) -> Path:
    """A program beside a book that stands for braildesk, and ends a process by a signal."""
    between = book.parent / "between"
    between.write_text(
        ENDING.format(python=sys.executable, process=process, signal=signal)
    )
    between.chmod(0o755)
    return between


@pytest.mark.parametrize(
    "process, signal, sentence, status",
    [
        ("os.getppid()", "SIGINT", "Stopped.\n", -2),
        ("os.getppid()", "SIGTERM", "Stopped by SIGTERM.\n", -15),
        ("os.getppid()", "SIGHUP", "Stopped by SIGHUP.\n", -1),
        ("session.pid", "SIGKILL", "The session was ended", 3),
    ],
)
def test_an_import_that_is_cut_short_says_what_is_in_the_book(
    book: Path, program: str, process: str, signal: str, sentence: str, status: int
) -> None:
    between = ending(book, process, signal)
    lines = [f"Line number {number} of the moon." for number in range(1, 2001)]
    (book.parent / "text.txt").write_text("\n".join(lines))
    put(book, "front\n\nend", name="other.txt")
    ran = scribe(
        *("import", book, "text.txt", "--lines", "--after", "1"),
        folder=book.parent,
        BRAILDESK=str(between),
        PROGRAM=program,
    )
    assert (ran.status, ran.shown) == (status, "")
    assert ran.said.startswith(sentence)
    assert "Open the book again" not in ran.said
    assert ran.said.endswith(f" go on by: scribe import {book} text.txt --continue\n")
    found = re.search(r"up to line (\d+),.* end of paragraph (\d+) of", ran.said)
    assert found is not None
    line, paragraph = map(int, found.groups())
    assert paragraph == line + 2  # two were there before
    assert prints(book) == ["front", *lines[:line], "end"]
    words = ("import", book, "text.txt", "--continue")
    assert scribe(*words, folder=book.parent).status == 0
    assert prints(book) == ["front", *lines, "end"]


def test_an_import_of_what_the_shell_handed_over_goes_on_from_a_file(
    book: Path, program: str
) -> None:
    lines = [f"Line number {number} of the moon." for number in range(1, 2001)]
    (book.parent / "text.txt").write_text("\n".join(lines))
    (book.parent / "pairs").write_text("moon\tearth\n")
    words = (
        f"{sys.executable} -m scribe import {book} <(cat text.txt) --lines --replace"
        " <(cat pairs)"
    )
    between = ending(book, "session.pid", "SIGKILL")
    ran = subprocess.run(
        ["bash", "-c", words],
        cwd=book.parent,
        env=environment(BRAILDESK=str(between), PROGRAM=program),
        capture_output=True,
    )
    found = re.search(
        "any more, write the whole text to a file, here FILE, and write the pairs to a file, here"
        rf" PAIRS, and go on by: scribe import {book} FILE --replace PAIRS --lines --from (\d+)\n$",
        ran.stderr.decode(),
    )
    assert ran.returncode == 3 and found is not None
    again = ("--replace", "pairs", "--lines", "--from", found[1])
    assert put(book, "\n".join(lines), *again).status == 0
    assert prints(book) == [line.replace("moon", "earth") for line in lines]
