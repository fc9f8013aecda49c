"""Documents of publishers imported: what is said of them, and what is in the book."""

import hashlib
import os
import resource
import signal
import stat
from collections.abc import Callable
from io import BytesIO, StringIO
from pathlib import Path

import pytest

from braildesk import Session, SessionEnded, Style
from braildesk.desk.documents.kinds import ManuscriptKind
from braildesk.desk.documents.options import ReadingOptions
from braildesk.desk.documents.reading import Part
from braildesk.desk.drafts import Drafts
from braildesk.desk.import_note import How, ImportNote, note_in
from braildesk.desk.manuscript import TextLine, Passage, Position
from braildesk.desk.record import Record
from braildesk.desk.replacements import Replacer

from handmade import deleted, docx, note, paragraph, run, symbol, table, text_box
from scribe.cli import run_words
from scribe.screen.desk import Desk
from scribe.screen.state import Size
from scribe.words.console import Console
from scribe.words.status import Interrupted
from sitting import Sit
from stand_in import ANSWERED, KEPT, KILL_BOTH, KILL_PROGRAM, READ
from terminal import standing_in
from test_import import prints, version
from tool import Ran, scribe

MARKDOWN = """\
---
title: The Moon
---

# The Tides

Twice a day the *sea* comes up.[^1]

- one

## The sea

It is salt.

# The end

[^1]: And goes.
"""
#: The paragraphs that come of it by a table without bullets and square brackets: their print, and h for a heading, v where a volume begins.
PARTS = [
    ("The Moon", "hv"),
    ("The Tides", "h"),
    ("Twice a day the sea comes up.(1)", ""),
    ("(1: And goes.)", ""),
    ("- one", ""),
    ("The sea", "h"),
    ("It is salt.", ""),
    ("The end", "hv"),
]
REPORT = [
    "moon.md is read as Markdown: 8 paragraphs, 4 of them headings.",
    "1 emphasis, as by italics, is lost:",
    "- “sea” in “Twice a day the sea comes up.(1)”",
    "1 heading is below the first level, and a book has only one:",
    "- “The sea”",
]


@pytest.fixture(autouse=True)
def folder(tmp_path: Path, monkeypatch: pytest.MonkeyPatch) -> None:
    """Has the tests work where the manuscript is, which is there."""
    monkeypatch.chdir(tmp_path)
    Path("moon.md").write_text(MARKDOWN)


def ran(*words: str | Path) -> Ran:
    """What comes of a command."""
    console = Console(BytesIO(), shown := StringIO(), said := StringIO())
    status = run_words(list(map(str, words)), console)
    return Ran(status, shown.getvalue(), said.getvalue())


def put(book: Path, *words: str) -> Ran:
    return ran("import", book, "moon.md", *words)


def parts(book: Path) -> list[tuple[str, str]]:
    with Session(book) as session:
        return [
            (
                session.print_of(each.id),
                "h" * (each.style is Style.HEADING) + "v" * each.begins_volume,
            )
            for each in session.paragraphs()
        ]


def lines(*sentences: str) -> str:
    return "".join(f"{sentence}\n" for sentence in sentences)


def test_headings_and_volumes_come_with_the_paragraphs(book: Path) -> None:
    typed = "8 paragraphs typed, numbers 1 to 8, by the table en.\n"
    assert put(book, "--volumes", "1") == Ran(0, typed, lines(*REPORT))
    assert parts(book) == PARTS
    assert Drafts(book).imports() == ()
    again = put(book, "--volumes", "1")
    assert (again.status, again.said) == (
        2,
        "moon.md was typed there already, from paragraph 1 to paragraph 8.\n"
        "--again types it once more. Nothing was typed.\n",
    )


def test_from_past_the_last_paragraph_of_a_document_is_refused(book: Path) -> None:
    assert put(book, "--from", "9") == Ran(
        2, "", "The document has 8 paragraphs, and no paragraph 9. Nothing was typed.\n"
    )


def test_volumes_begin_at_the_level_that_is_said(book: Path) -> None:
    assert put(book, "--volumes", "2", "--notes", "end").status == 0
    assert [flags for _, flags in parts(book)] == ["h", "h", "", "", "", "hv", "", "h"]
    assert prints(book)[2:5] == [
        "Twice a day the sea comes up.(1)",
        "- one",
        "(1: And goes.)",
    ]


def test_a_dry_run_shows_what_is_lost_and_types_nothing(book: Path) -> None:
    would = "8 paragraphs would be typed, by the table en."
    assert put(book, "--dry-run") == Ran(0, lines(*REPORT, would), "")
    assert version(book) == 1


def test_a_report_has_all_places_and_the_terminal_a_few(book: Path) -> None:
    words = "one two three four five six seven"
    starred = "\n\n".join(f"*{word}*" for word in words.split())
    Path("moon.md").write_text(f"{starred}\n\n*seven*\n")
    found = put(book, "--report", "lost.txt", "--dry-run").shown
    head = [
        "moon.md is read as Markdown: 8 paragraphs, no headings.",
        "8 emphases, as by italics, are lost:",
    ]
    listed = [f"- “{word}”" for word in words.split()]
    assert found == lines(
        *head,
        *listed[:5],
        "- and 3 more",
        "All places are in lost.txt.",
        "8 paragraphs would be typed, by the table en.",
    )
    assert Path("lost.txt").read_text() == lines(
        *head, *listed[:6], "- “seven”, 2 times"
    )
    assert (
        "scribe import --report FILE writes all places to a file.\n" in put(book).said
    )
    assert put(book, "--report", "moon.md", "--again") == Ran(
        2, "", "The report would take the place of moon.md. Nothing was typed.\n"
    )
    assert Path("moon.md").read_text().startswith("*one*")
    assert put(book, "--report", "none/lost.txt", "--again") == Ran(
        3,
        "",
        "The report can't be written to none/lost.txt: No such file or directory. Nothing was"
        " typed.\n",
    )


@pytest.mark.parametrize("words", [(), ("--dry-run",)])
def test_a_report_leaves_a_file_that_is_no_report(
    book: Path, words: tuple[str, ...]
) -> None:
    Path("notes.txt").write_text("Typed by hand.\n")
    Path("link.txt").symlink_to("notes.txt")
    there = "is there already, and doesn't begin as a report does"
    for name, its in (("notes.txt", there), ("link.txt", "is a link to notes.txt")):
        assert put(book, "--report", name, *words) == Ran(
            2,
            "",
            f"{name} {its}, so it was left as it is. Nothing was typed. Take another path for the"
            " report.\n",
        )
    assert Path("notes.txt").read_text() == "Typed by hand.\n"
    assert version(book) == 1


def test_a_report_leaves_the_log_of_another_book(book: Path) -> None:
    other = book.with_name("other.braildesk")
    other.write_bytes(book.read_bytes())
    with Session(other) as session:
        session.add_paragraph("end", "en", "In the log alone.")
        os.kill(session.pid, signal.SIGKILL)
        with pytest.raises(SessionEnded):
            session.version()
    log = f"{other}-wal"
    assert put(book, "--report", log) == Ran(
        2,
        "",
        f"The report can't be written to {log}: the log of a book is there, which was left as it"
        " is. Nothing was typed.\n",
    )
    assert prints(other) == ["In the log alone."]


@pytest.mark.parametrize(
    "text, pairs",
    [
        ("*One* two.\n", None),
        ("# One\n", None),
        ("# One\n\nTwo.\n", None),
        ("One two.\n", "two\ttoo\n"),
        ("One two.\n", None),
    ],
    ids=["document", "heading", "one heading", "pairs", "text"],
)
def test_a_report_replaces_an_empty_file_and_an_older_report(
    book: Path, text: str, pairs: str | None
) -> None:
    Path("lost.txt").touch()
    words = ["--dry-run", "--report", "lost.txt"]
    if pairs is not None:
        Path("pairs.tsv").write_text(pairs)
        words += ["--replace", "pairs.tsv"]
    name = "text.md" if text.startswith(("*", "#")) else "text.txt"
    Path(name).write_text(text)
    for _ in range(2):
        assert scribe("import", book, name, *words, folder=book.parent).status == 0
        assert Path("lost.txt").read_text()


@pytest.mark.parametrize("text", ["One *two*.\n", "One {two}.\n"])
@pytest.mark.parametrize("mode", [0o600, 0o640, 0o644])
def test_a_report_is_for_those_for_whom_the_book_is(
    book: Path, text: str, mode: int
) -> None:
    book.chmod(mode)
    Path("text.md").write_text(text)
    scribe("import", book, "text.md", "--report", "lost.txt", folder=book.parent)
    assert stat.S_IMODE(os.stat("lost.txt").st_mode) == mode


class Reader(StringIO):
    """One who has others work on the book before each line is read."""

    def __init__(self, work: Callable[[], object]) -> None:
        super().__init__()
        self.work = work

    def write(self, line: str) -> int:
        self.work()
        return super().write(line)


@pytest.mark.parametrize("words", [(), ("--dry-run",), ("--report", "lost.txt")])
def test_others_have_the_book_while_what_is_lost_is_read(
    book: Path, words: tuple[str, ...]
) -> None:
    versions: list[int] = []

    def work() -> None:
        with Session(book) as session:
            versions.append(
                session.add_paragraph("end", "en", "Typed meanwhile").version
            )

    reader = Reader(work)
    console = Console(BytesIO(), reader, reader)
    job = ["import", str(book), "moon.md", "--volumes", "1"]
    assert run_words([*job, *words], console) == 0
    assert len(versions) > 1
    typed = [] if words == ("--dry-run",) else PARTS
    meanwhile = [("Typed meanwhile", "")]
    read = len(parts(book)) - len(typed)
    # what is said at the end comes after all that was typed
    assert parts(book) == [*meanwhile * (read - 1), *typed, *meanwhile]


def test_a_text_that_another_imports_while_what_is_lost_is_read_is_typed_once(
    book: Path,
) -> None:
    others: list[int] = []

    def work() -> None:
        if not others:
            others.append(put(book, "--volumes", "1").status)

    console = Console(BytesIO(), StringIO(), said := Reader(work))
    assert run_words(["import", str(book), "moon.md"], console) == 2
    assert others == [0]
    assert said.getvalue().endswith(
        "moon.md was typed there already, from paragraph 1 to paragraph 8.\n"
        "--again types it once more. Nothing was typed.\n"
    )
    assert parts(book) == PARTS


def test_a_text_of_which_another_types_a_part_while_what_is_lost_is_read_is_not_begun_again(
    book: Path,
) -> None:
    killed = standing_in(5, READ, KILL_BOTH)
    words = ("import", book, "moon.md", "--volumes", "1")
    others: list[int] = []

    def work() -> None:
        if not others:
            done = scribe(*words, folder=book.parent, given="", before=None, **killed)
            others.append(done.status)

    console = Console(BytesIO(), StringIO(), said := Reader(work))
    assert run_words(["import", str(book), "moon.md"], console) == 2
    assert others == [-signal.SIGKILL]
    assert "was cut short" in said.getvalue() and "--continue" in said.getvalue()
    assert prints(book) == [text for text, _ in PARTS[:2]]
    assert put(book, "--continue").status == 0
    assert parts(book) == PARTS


def test_who_stops_an_import_while_what_is_lost_is_read_is_told_that_nothing_was_typed(
    book: Path,
) -> None:
    left = [Interrupted(signal.SIGINT)]

    def work() -> None:
        while left:
            raise left.pop()

    console = Console(BytesIO(), StringIO(), said := Reader(work))
    with pytest.raises(Interrupted) as caught:
        run_words(["import", str(book), "moon.md"], console)
    assert caught.value.is_said
    assert said.getvalue() == "Stopped. Nothing was typed.\n"
    assert prints(book) == []


def test_each_word_of_a_file_is_in_the_book_or_in_the_report(book: Path) -> None:
    body = (
        paragraph(run("One"), style="Heading1")
        + paragraph(run("The moon "), run("rises", "<w:b/>"), run("."), text_box("Box"))
        + paragraph(run("Kept "), deleted("gone "), run("veiled", "<w:vanish/>"))
        + paragraph(run("Here "), symbol("Wingdings", "F04A"), run("it is."))
        + table((paragraph(run("a"), note(1)), paragraph(run("b"))))
    )
    docx(tmp := Path("moon.docx"), body, [(1, "A note.")], "Running header")
    found = ran("import", book, tmp)
    assert found == Ran(
        0,
        "6 paragraphs typed, numbers 1 to 6, by the table en.\n",
        lines(
            "moon.docx is read as DOCX: 6 paragraphs, 1 of them a heading.",
            "4 words of the file will be in no paragraph:",
            "- “Box”",
            "- “Wingdings_F04A”, after “Here” and before “it is”",
            "- “Running header”",
            "1 piece of text that is hidden in the document is typed too:",
            "- “veiled”",
            "1 deletion that was tracked is left out:",
            "- “gone”",
            "1 table is typed row by row, with semicolons between the cells:",
            "- “a(1); b”",
            "1 emphasis, as by italics, is lost:",
            "- “rises” in “The moon rises.”",
        ),
    )
    assert prints(book) == [
        "One",
        "The moon rises.",
        "Kept veiled",
        "Here it is.",
        "a(1); b",
        "(1: A note.)",
    ]


def test_a_document_of_a_heading_alone_is_said_to_have_one(book: Path) -> None:
    Path("moon.md").write_text("# Moon\n")
    assert put(book, "--dry-run").shown.startswith(
        "moon.md is read as Markdown: 1 paragraph, a heading.\n"
    )


def test_characters_that_the_table_lacks_are_shown_once_each_with_what_is_lost(
    book: Path,
) -> None:
    Path("moon.md").write_text("# Moon → sea\n\nTo → *and* → back…\n")
    arrow = "“→” (U+2192 RIGHTWARDS ARROW) has no cells by the table en."
    dots = "“…” (U+2026 HORIZONTAL ELLIPSIS) has no cells by the table en."
    found = put(book)
    assert found == Ran(
        2,
        "",
        lines(
            "moon.md is read as Markdown: 2 paragraphs, 1 of them a heading.",
            "1 emphasis, as by italics, is lost:",
            "- “and” in “To → and → back…”",
            f"moon.md, paragraph 1, Moon [→] sea: {arrow} It stands in the text 3 times.",
            f"moon.md, paragraph 2, To → and → back[…]: {dots} It stands in the text once.",
            "Where nobody has the book open, scribe import --replace PAIRS puts other characters in"
            " their place.",
            "Nothing was typed.",
        ),
    )
    assert version(book) == 1


def test_characters_are_replaced_and_counted_and_kept_for_the_next_manuscript(
    book: Path,
) -> None:
    Path("moon.md").write_text("# Moon → sea\n\nTo → and → back…\n")
    Path("pairs").write_text("→\tto\n\n…\t...\n€\tEUR\n")
    found = put(book, "--replace", "pairs", "--dry-run")
    counted = (
        "“→” is replaced by “to” 3 times.",
        "“…” is replaced by “...” once.",
        "“€” stands nowhere, and isn't replaced.",
    )
    assert [*counted] == found.shown.splitlines()[-4:-1]
    assert put(book).status == 2, "a dry run keeps nothing"
    assert put(book, "--replace", "pairs").status == 0
    assert prints(book) == ["Moon to sea", "To to and to back..."]
    Path("text.txt").write_text("Once → more.\n")
    found = ran("import", book, "text.txt")
    assert found.said == "“→” is replaced by “to” once.\n"
    assert prints(book)[-1] == "Once to more."
    Path("pairs").write_text("")
    assert ran("import", book, "text.txt", "--replace", "pairs", "--again").status == 2


@pytest.mark.parametrize(
    "data, why",
    [
        (
            b"a\tb\nab\n",
            "line 2: a line has the characters that are replaced, a tab, and",
        ),
        (
            b"a\tb\na\tc\n",
            "line 2: a line has the characters that are replaced, a tab,",
        ),
        (b"\tb\n", "line 1: a line has the characters that are replaced, a tab, and"),
        (
            b"a\tb\tc\n",
            "line 1: a line has the characters that are replaced, a tab, and",
        ),
        (b"a\t\xff\n", "isn't UTF-8: line 1, column 3 has the byte 0xff."),
    ],
)
def test_a_file_of_other_lines_replaces_nothing(
    book: Path, data: bytes, why: str
) -> None:
    Path("pairs").write_bytes(data)
    found = put(book, "--replace", "pairs")
    assert found.status == 2 and why in found.said
    assert found.said.endswith(" Nothing was typed.\n")
    assert version(book) == 1


def test_what_is_no_file_replaces_nothing_and_is_not_said_to_be_missing(
    book: Path,
) -> None:
    for name, why in ((".", ". is there, but is no file"), ("x", "there is no file x")):
        found = put(book, "--replace", name)
        assert found.status == 1 and f"Argument --replace: {why}." in found.said


def test_places_of_a_text_are_those_of_its_file_after_characters_were_replaced() -> (
    None
):
    text = Passage((TextLine("a→b → c", Position(3, 5)), TextLine("→", Position(4, 1))))
    replacer = Replacer((("→", "to"), ("b ", "")))
    (made,) = replacer.passages([text])
    assert made.text == "atoto c to"
    places = [made.position(place) for place in range(len(made.text))]
    assert places == [
        *(Position(3, column) for column in (5, 6, 6, 9, 9, 10, 11, 12)),
        *(Position(4, column) for column in (1, 1)),
    ]
    assert [each.count for each in replacer.counts] == [3, 1]


def test_characters_for_which_a_book_has_others_are_replaced_as_those() -> None:
    # the signs of ohm and kelvin, of which print has the letters
    line = TextLine("10 \u2126, 3 \u212a, é e\u0301", Position(1, 1))
    replacer = Replacer((("\u03a9", "Ohm"), ("K", "Kelvin")))
    (made,) = replacer.passages([Passage((line,))])
    assert made.text == "10 Ohm, 3 Kelvin, é é"
    assert [each.count for each in replacer.counts] == [1, 1]


def test_characters_are_replaced_also_where_a_file_has_them_taken_apart() -> None:
    # as other systems write names and texts
    line = TextLine("e\u0301 Zdene\u030ck q\u0307.", Position(1, 5))
    replacer = Replacer((("é", "ee"), ("ě", "e"), ("\u0307", "")))
    (made,) = replacer.passages([Passage((line,))])
    assert made.text == "ee Zdenek q."
    assert [each.count for each in replacer.counts] == [1, 1, 1]
    assert [made.position(place).column for place in range(len(made.text))] == [
        *(5, 5, 7, 8, 9, 10, 11, 12, 14, 15, 16, 18)
    ]
    (part,) = replacer.parts([Part(line.text)])
    assert part.text == "ee Zdenek q."


@pytest.mark.parametrize(
    "name, data, words, said",
    [
        (
            "a.docx",
            b"PK\x03\x04 none",
            "",
            "a.docx is damaged: it begins as a document",
        ),
        ("a.pdf", b"%PDF-1.7", "", "a.pdf is PDF, which has places on pages"),
        ("a.md", b"\n", "", "a.md has no paragraph, so nothing was typed."),
        ("a.md", b"a", "--lines", "a.md is Markdown, which has paragraphs of its own:"),
        ("a.txt", b"a", "--volumes 1", "a.txt is a text, without headings and notes:"),
        ("a.txt", b"a", "--notes end", "a.txt is a text, without headings and notes:"),
        (
            "a.txt",
            b"a",
            "--format docx",
            "a.txt isn't of the kind that --format names.",
        ),
        ("a.epub", b"PK\x03\x04 none", "--format epub", "a.epub is damaged: it begins"),
        ("a.md", b"a\xff", "", "a.md isn't UTF-8: line 1, column 2 has the byte 0xff."),
    ],
)
def test_what_is_no_manuscript_is_refused_in_words(
    book: Path, name: str, data: bytes, words: str, said: str
) -> None:
    Path(name).write_bytes(data)
    found = ran("import", book, name, *words.split())
    assert (found.status, found.shown) == (2, "")
    assert found.said.startswith(said)
    assert version(book) == 1


def test_programs_that_are_missing_are_named_with_their_packages(
    book: Path, monkeypatch: pytest.MonkeyPatch
) -> None:
    monkeypatch.setenv("PATH", "/none")
    assert put(book) == Ran(
        2,
        "",
        "moon.md is Markdown, which pandoc reads, and pandoc is not installed. Debian has it as"
        " pandoc. Nothing was typed.\n",
    )
    Path("moon.rtf").write_bytes(b"{\\rtf1 moon}")
    assert ran("import", book, "moon.rtf").said == (
        "moon.rtf is RTF, which LibreOffice reads, and LibreOffice is not installed. Debian has it"
        " as libreoffice-writer-nogui. Nothing was typed.\n"
    )
    Path("moon.md").write_text("The moon")
    assert put(book, "--format", "text").status == 0, "a text needs neither"


#: Moments of that import, which is 14 commands: each heading has one more than its paragraph, and where
#: a volume begins there is another. With each the paragraphs that are in the book then.
MOMENTS = [
    (1, KEPT, 1),
    (2, READ, 1),
    (3, READ, 1),
    (3, KEPT, 1),
    (4, KEPT, 2),
    (5, READ, 2),
    (6, ANSWERED, 3),
    (9, KEPT, 6),
    (13, READ, 8),
    (14, READ, 8),
]


@pytest.mark.parametrize("number, far, kept", MOMENTS)
def test_an_import_that_is_killed_goes_on_with_headings_and_volumes(
    book: Path,
    monkeypatch: pytest.MonkeyPatch,
    number: int,
    far: str,
    kept: int,
) -> None:
    with monkeypatch.context() as patched:
        for name, value in standing_in(number, far, KILL_BOTH).items():
            patched.setenv(name, value)
        words = ("import", book, "moon.md", "--volumes", "1")
        done = scribe(*words, folder=book.parent)
    assert done.status == -signal.SIGKILL
    assert len(prints(book)) == kept
    found = put(book)
    assert found.status == 2 and "was cut short" in found.said
    assert put(book, "--continue").status == 0
    assert parts(book) == PARTS
    assert Drafts(book).imports() == ()


@pytest.mark.parametrize("name, how", [("poem.md", "--format text "), ("poem.txt", "")])
def test_a_text_of_which_nothing_is_noted_goes_on_as_it_was_read(
    book: Path, name: str, how: str
) -> None:
    book.with_name(name).write_text("The moon\n\nThe sun\n\nThe star\n")
    book.with_name("pairs").write_text("moon\tearth\nstar\tsky\n")
    words = ("import", book, name, "--format", "text", "--replace", "pairs")
    nowhere = {"XDG_STATE_HOME": "/dev/null"}
    settings = {**standing_in(2, READ, KILL_PROGRAM), **nowhere}
    done = scribe(*words, folder=book.parent, given="", before=None, **settings)
    goes_on = f"import {book} {name} {how}--replace pairs --from 3"
    assert done.status == 3 and done.said.endswith(
        f"When nothing stands in the way any more, go on by: scribe {goes_on}\n"
    )
    done = scribe(
        *goes_on.split(), folder=book.parent, XDG_STATE_HOME=nowhere["XDG_STATE_HOME"]
    )
    assert done.status == 0
    assert prints(book) == ["The earth", "The sun", "The sky"]


def test_a_document_of_which_nothing_is_noted_goes_on_by_its_paragraphs(
    book: Path,
) -> None:
    words = ("import", book, "moon.md", "--volumes", "1")
    nowhere = {"XDG_STATE_HOME": "/dev/null"}
    settings = {**standing_in(5, READ, KILL_PROGRAM), **nowhere}
    done = scribe(*words, folder=book.parent, given="", before=None, **settings)
    goes_on = f"import {book} moon.md --format markdown --volumes 1 --from 3"
    assert done.status == 3 and done.said.endswith(
        "moon.md is in the book up to its paragraph 2, which is paragraph 2 of the book.\n"
        f"When nothing stands in the way any more, go on by: scribe {goes_on}\n"
    )
    settings = {**standing_in(10, READ, KILL_PROGRAM), **nowhere}
    again = goes_on.split()
    done = scribe(*again, folder=book.parent, given="", before=None, **settings)
    assert done.status == 3 and done.said.endswith(
        "Paragraph 8 isn't a heading yet, or begins no volume, as it was to: scribe heading and scribe"
        " volume do that.\n"
    )
    assert parts(book) == [*PARTS[:7], ("The end", "h")]


class Followed(StringIO):
    """Standard error that a person follows."""

    def isatty(self) -> bool:
        return True


def test_that_a_document_is_read_again_is_said_before_it_is_read(book: Path) -> None:
    note = begun(book)
    said = (
        f"{note.text} is read again, to see how much of it is in the book. Please wait."
    )
    Drafts(book).begin_import(note)
    with Session(book) as session:
        session.add_paragraph("end", "en", PARTS[0][0])
    cut = "The import of moon.md was cut short: 1 of its 8 paragraphs is in the book."
    errors = Followed()
    console = Console(BytesIO(), StringIO(), errors)
    assert run_words(["show", str(book)], console) == 0
    assert errors.getvalue().splitlines()[:2] == [said, cut]
    assert ran("show", book).said.startswith(cut)
    desk, told = Desk(book), list[str]()
    try:
        state = desk.first_state(Size(80, 24), None, False, told.append)
    finally:
        desk.close()
    assert told == [said]
    assert state.question and state.question.sentence.startswith(cut)


def begun(book: Path) -> ImportNote:
    """What is noted of that import before its first paragraph is typed."""
    path = Path("moon.md").absolute()
    digest = hashlib.sha256(path.read_bytes()).hexdigest()
    how = How(
        ReadingOptions(ManuscriptKind.MARKDOWN, False, "-", "()"), (("&", "and"),), 1
    )
    return ImportNote(str(path), digest, False, 1, 8, "en", "end", 1, 0, how)


def test_what_is_said_of_an_import_of_a_document_that_was_cut_short(
    book: Path, monkeypatch: pytest.MonkeyPatch
) -> None:
    note = begun(book)
    Drafts(book).begin_import(note)
    assert Drafts(book).imports() == (note,)
    cut = "The import of moon.md was cut short:"
    with Session(book) as session:
        session.add_paragraph("end", "en", PARTS[0][0])
    assert f"{cut} 1 of its 8 paragraphs is in the book." in put(book).said
    with Session(book) as session:
        session.add_paragraph("end", "en", PARTS[1][0])
    assert put(book).said == lines(
        f"{cut} 2 of its 8 paragraphs are in the book.",
        "--continue goes on with paragraph 3, --again types all of it once more, and --leave leaves"
        " the rest out. Nothing was typed.",
    )
    with monkeypatch.context() as patched:
        patched.setenv("PATH", "/none")
        assert ran("show", book).said.startswith(
            f"The import of moon.md was cut short, and {note.text} is Markdown, which pandoc reads,"
            " and pandoc is not installed. Debian has it as pandoc. So how much of it is in the"
            " book can't be seen: the book had 0 paragraphs before, and the text 8.\n"
        )
    with Session(book) as session:
        for text, _ in PARTS[2:]:
            session.add_paragraph("end", "en", text)
        session.set_style(8, Style.HEADING)
    assert put(book).said == lines(
        f"{cut} all of it is in the book, but its last paragraph isn't a heading, or begins no"
        " volume, as it was to be.",
        "--continue makes it one, --again types all of it once more, and --leave leaves it as it is."
        " Nothing was typed.",
    )
    assert put(book, "--continue") == Ran(0, "All of moon.md is in the book now.\n", "")
    assert parts(book)[-1] == PARTS[-1]
    assert put(book, "--continue").said == (
        "No import of moon.md is known that was cut short. Nothing was typed.\n"
    )


def test_what_an_older_scribe_noted_of_a_text_is_read(book: Path) -> None:
    kept = begun(book).values()
    for name in (
        "kind",
        "notes_at_end",
        "bullet",
        "brackets",
        "replacements",
        "volumes",
    ):
        del kept[name]
    assert note_in(Record(kept)).how == How(ReadingOptions(ManuscriptKind.TEXT))


def test_a_document_is_imported_on_the_screen_with_what_is_lost(
    moon: Path, sit: Sit
) -> None:
    sat = sit(moon)
    sat.press("c-end", "i")
    sat.write(str(Path("moon.md").absolute()))
    sat.press("enter")
    said: list[str] = []
    sat.state = sat.desk.away(sat.state, said.append)
    assert "1 emphasis, as by italics, is lost:" in said
    assert said[-1].startswith("8 paragraphs typed, numbers 4 to 11, by the table ")
    assert "Another program" not in " ".join(sat.lines)
    assert sat.state.deeds[-1].what == "8 paragraphs were imported, 4 to 11"
    sat.desk.close()
    assert [flags for _, flags in parts(moon)][3:] == [
        "h",
        "h",
        "",
        "",
        "",
        "h",
        "",
        "h",
    ]


# what pandoc reads is more than the first one, and what it writes more than the other
@pytest.mark.parametrize("most", [600 << 10, 1500 << 10])
def test_a_limit_on_the_size_of_files_that_a_document_needs_more_than_is_named(
    moon: Path, most: int
) -> None:
    moon.with_name("long.md").write_text("The moon is far.\n\n" * 40_000)
    ran = scribe(
        *("import", moon.name, "long.md", "--format", "markdown"),
        folder=moon.parent,
        before=lambda: resource.setrlimit(resource.RLIMIT_FSIZE, (most, most)),
    )
    assert ran == Ran(
        2,
        "",
        "long.md can't be read by pandoc: the limit on the size of files (ulimit -f) is too low. Set a"
        " higher one, and try again. Nothing was typed.\n",
    )


def test_a_limit_on_processor_time_that_a_document_needs_more_than_is_named(
    moon: Path, tmp_path: Path
) -> None:
    moon.with_name("long.md").write_text("The moon is far.\n")
    busy = tmp_path / "busy"
    busy.mkdir()
    busy.joinpath("pandoc").write_text("#!/bin/sh\nwhile :; do :; done\n")
    busy.joinpath("pandoc").chmod(0o755)
    ran = scribe(
        *("import", moon.name, "long.md", "--format", "markdown"),
        folder=moon.parent,
        before=lambda: resource.setrlimit(resource.RLIMIT_CPU, (2, 2)),
        PATH=f"{busy}:{os.environ['PATH']}",
    )
    assert ran == Ran(
        2,
        "",
        "long.md can't be read by pandoc: the limit on processor time (ulimit -t) is too low. Set a"
        " higher one, and try again. Nothing was typed.\n",
    )
