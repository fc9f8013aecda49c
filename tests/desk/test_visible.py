"""Characters that nobody sees: refused in what is typed, made visible in what is shown."""

import os
import subprocess
from io import BytesIO, StringIO
from pathlib import Path

import pytest

from braildesk.tables.convert.draft import comment_lines
from braildesk.text.characters import characters_of, control_refused, near, visible
from braildesk.text.shell_words import command_line

from scribe.words.console import Console
from tool import scribe


@pytest.mark.parametrize(
    "text, wanted",
    [
        ("The moon, ⠍⠕⠕⠝ and é", "The moon, ⠍⠕⠕⠝ and é"),
        ("a\tb\u00a0c", "a\tb\u00a0c"),
        ("\x1b[2J", "<U+001B>[2J"),
        ("\x00\x7f\x9b", "<U+0000><U+007F><U+009B>"),
        ("a\u00adb\u200dc\u202ed", "a<U+00AD>b<U+200D>c<U+202E>d"),
        ("line\u2028feed\ufeff", "line<U+2028>feed<U+FEFF>"),
    ],
)
def test_what_cannot_be_seen_is_written_out(text: str, wanted: str) -> None:
    assert visible(text) == wanted


@pytest.mark.parametrize(
    "word",
    [
        *(
            "moon",
            "the moon",
            "it's",
            "",
            "$HOME",
            "sun\nmoon",
            "it's\t\\1",
            "\x1b[2J",
            "\x010",
        ),
        *("caf\u00e9\r", "a\u202eb", "a\u00a0b", "\u2028", "\udcff"),
    ],
)
def test_a_command_is_seen_as_a_shell_reads_it(word: str) -> None:
    line = command_line(["printf", "%s", word])
    assert visible(line).isprintable() and visible(line) == line
    done = subprocess.run(["bash", "-c", line], capture_output=True, check=True)
    assert done.stdout == os.fsencode(word)


@pytest.mark.parametrize(
    "text, wanted",
    [
        ("", set()),
        ("moon\n", {"m", "o", "n", "\n"}),
        # the last of them stand nowhere at the front
        ("a月" * 5_000 + "\x00bé\udcff\U0001f319", set("a月\x00bé\udcff\U0001f319")),
    ],
)
def test_all_characters_of_a_text_are_found(text: str, wanted: set[str]) -> None:
    assert characters_of(text) == wanted


def test_a_console_writes_out_what_would_move_the_cursor_or_end_a_line() -> None:
    shown, said = StringIO(), StringIO()
    console = Console(BytesIO(), shown, said)
    console.show("the book \x1b]0;mine\x07", "a\tb\u00a0c")
    console.say("moon\nAll was exported.", "\udcff \x9b2J \u202e")
    assert shown.getvalue() == "the book <U+001B>]0;mine<U+0007>\na\tb\u00a0c\n"
    assert said.getvalue() == (
        "moon<U+000A>All was exported.\n<U+DCFF> <U+009B>2J <U+202E>\n"
    )


def test_a_path_with_a_line_feed_forges_no_line(moon: Path) -> None:
    folder = "pages\nAll was exported."
    ran = scribe("export", moon, folder, folder=moon.parent)
    assert ran.status == 0
    assert len(ran.shown.splitlines()) == 1
    assert ran.shown.startswith("pages<U+000A>All was exported./moon-1.brf: volume 1")


def test_no_command_sends_a_name_with_escapes_to_the_terminal(moon: Path) -> None:
    name = "\x1b]0;mine\x07\x1b[2J.txt"
    book = Path(os.fsencode(moon.parent).decode(), "\x1b[2J.braildesk")
    moon.rename(book)
    commands: tuple[tuple[str | Path, ...], ...] = (
        ("show", book),
        ("show", name),
        ("import", book, name),
        ("table", book, "en", name),
        ("check-table", name),
        ("try", name),
        ("copy", book, "copy\x1b[2J"),
        ("export", book, "out\x1b[2J"),
        ("bring", name),
        ("new", "new\x1b[2J"),
        (name,),
        ("edit", book, name),
    )
    for words in commands:
        ran = scribe(*words, folder=book.parent)
        assert "\x1b" not in ran.shown + ran.said, words


def test_a_report_shows_a_name_with_escapes_or_bytes_that_are_no_text(
    moon: Path,
) -> None:
    name, report = "\x1b[2J\nAll was typed\udce9.txt", moon.with_name("lost.txt")
    moon.with_name(name).write_text("The sun\n")
    words = ("import", moon.name, name, "--report", report.name)
    assert scribe(*words, folder=moon.parent).status == 0
    assert (
        report.read_text()
        == "<U+001B>[2J<U+000A>All was typed<U+DCE9>.txt is a text.\n"
    )


def test_a_title_and_a_licence_of_a_table_are_comments_without_escapes(
    tmp_path: Path,
) -> None:
    assert comment_lines("The licence is \x1b[2JGPL.") == [
        "# The licence is <U+001B>[2JGPL."
    ]
    head = "#-display-name: mooon \x1b[2J\nspace \\s 0\nletter a 1\n"
    (tmp_path / "mooon.utb").write_text(head, encoding="utf-8")
    ran = scribe("bring", "moon", folder=tmp_path, LOUIS_TABLEPATH=str(tmp_path))
    assert ran.status == 2
    assert "  mooon.utb                mooon <U+001B>[2J\n" in ran.said


@pytest.mark.parametrize("code", [*range(9), *range(10, 32), *range(127, 160)])
def test_each_control_character_is_refused(code: int) -> None:
    sentence = control_refused(f"é {chr(code)}".encode())
    assert sentence is not None
    assert sentence.startswith(f"Character 3 of the line is U+{code:04X}")


@pytest.mark.parametrize("text", ["\t", "\u00a0", "\u00ad", "\u202e", "ÂÀ", "😀", ""])
def test_other_characters_are_not_refused(text: str) -> None:
    assert control_refused(text.encode()) is None


@pytest.mark.parametrize(
    "word, asked",
    [
        ("stryke", " Did you mean strike?"),
        ("lettre", " Did you mean letter?"),
        # an opcode of liblouis that means something else
        ("lowword", ""),
        ("include", ""),
    ],
)
def test_a_name_is_offered_for_a_word_that_is_much_like_it(
    word: str, asked: str
) -> None:
    assert near(word, ["letter", "strike", "word"]) == asked
