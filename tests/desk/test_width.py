"""No line that is shown or said is over the width, of any command and any answer."""

from collections.abc import Iterator
from io import BytesIO, StringIO
from pathlib import Path

import pytest

from braildesk import Why
from braildesk.protocol.asked import BookFile
from braildesk.refusals import cannot_open
from braildesk.text.wrapping import columns
from scribe.cli import run_words
from scribe.cli.commands import AT_PROMPT, COMMANDS
from scribe.cli.prompt_words import names
from scribe.words.console import Console
from tool import scribe
from words import WORDS

WIDTHS = [20, 40, 80]
LONG = "It rises in the east-north-east of all the places and skies, " * 3
#: What is typed at a prompt: each command and each request, what refuses it, and its help.
TYPED = [
    "show",
    "find moon",
    "find 'east-north-east of all the places and skies, It rises in the east'",
    "find --braille ',THE'",
    "find nowhere",
    "find TIDES",
    "find TIDES --alike",
    f"type end en {LONG}",
    f"mark 4 'of all the places and skies, It rises' '{LONG}'",
    "mark 4 It why?",
    "9",
    "1",
    "marks",
    "marks --open",
    "marks 2",
    "next",
    "next 99",
    "change",
    "moon",
    f"{LONG}",
    "change 4 places sites",
    "2",
    "change 1 nothing something",
    "resolve",
    "resolve 99",
    "undo 1",
    "undo 99",
    "strike 2",
    "restore 2",
    "heading 4",
    "body 4",
    "volume 2 on",
    "volume 2 perhaps",
    "move 4 front",
    "move 4 nowhere",
    "retable 4 plain",
    "retable 4 none",
    "table own plain.utb",
    f"table own {'no/such/folder/' * 8}plain.utb",
    "pages",
    "pages --page 1 --width 10 --lines 5",
    "pages 9",
    "print 4",
    "braille 4",
    "history 1",
    "where 4 9",
    "whence 4 9",
    "list",
    "version",
    "supply two",
    "style 4 heading",
    "correct 4 999 2 x",
    "correct",
    "correct-by anna 1 0 0 Oh, ",
    "request mark 1 0 2 so?",
    "@3 strike 1",
    "request",
    "strke 1",
    "export",
    "short",
    "change",
    "99",
    "",
    "long",
    "request table t 2",
    "space \\s 0",
    "letter a 19",
    "help",
    *(f"help {name}" for name in names()),
    *(f"{name} --help" for name in AT_PROMPT),
    *(f"{name} 1 2 3 4 5" for name in AT_PROMPT),
    "quit",
]


@pytest.fixture
def here(moon: Path, monkeypatch: pytest.MonkeyPatch) -> Iterator[Path]:
    """The folder of the book, in which one is for as long as a test takes."""
    monkeypatch.chdir(moon.parent)
    yield moon.parent


def longest(words: list[str], width: int, given: str = "") -> tuple[int, int]:
    """The columns of the longest line of a command, and how many lines it writes."""
    shown, said = StringIO(), StringIO()
    console = Console(BytesIO(given.encode()), shown, said, width=width)
    run_words(words, console)
    lines = (shown.getvalue() + said.getvalue()).splitlines()
    return max(map(columns, lines), default=0), len(lines)


@pytest.mark.parametrize("width", WIDTHS)
def test_no_line_of_talk_is_over_the_width(here: Path, width: int) -> None:
    # long words and paths too are cut at the width, so that there is no exception
    most, count = longest(["talk", "moon.braildesk"], width, "\n".join(TYPED))
    assert most <= width and count > len(TYPED)


@pytest.mark.parametrize("width", WIDTHS)
def test_no_line_of_a_command_is_over_the_width(
    here: Path, width: int, monkeypatch: pytest.MonkeyPatch
) -> None:
    monkeypatch.setenv("COLUMNS", str(width))
    (here / "text.txt").write_text(f"{LONG}\n\nThe stars…\n")
    wide = {}
    for name, words in WORDS.items():
        asked = [[name, *words], [name, "--help"], [name, "x" * 99, "y"], [name]]
        # replies are for another program, and a table is a file
        for each in asked[1:] if name in ("run", "bring") else asked:
            most, count = longest(each, width)
            if most > width or not count:
                wide[" ".join(each)[:60]] = most
    assert wide == {}
    assert longest(["--help"], width)[0] <= width
    assert len(WORDS) == len(COMMANDS) - 1


@pytest.mark.parametrize("width", WIDTHS)
def test_a_process_takes_the_width_of_its_environment(moon: Path, width: int) -> None:
    ran = scribe(
        *("change", moon, "9", "The moon", "x"), folder=moon.parent, COLUMNS=str(width)
    )
    lines = ran.said.splitlines()
    assert " ".join(lines) == (
        "The book has no paragraph 9: it has the paragraphs 1 to 3."
    )
    assert max(map(len, lines)) <= width and (len(lines) > 1 or width == 80)


@pytest.mark.parametrize("why", [Why.LOG_OPEN, Why.DENIED, Why.LOG_DENIED])
def test_a_command_by_which_a_book_is_opened_again_is_not_broken(
    tmp_path: Path, monkeypatch: pytest.MonkeyPatch, why: Why
) -> None:
    book, log = tmp_path / "the moon", tmp_path / "the moon-wal"
    closed = log if why is Why.LOG_DENIED else book
    # nobody's mode keeps root from a file
    monkeypatch.setattr(
        "braildesk.protocol.wording.own_closed", lambda path: str(closed)
    )
    console = Console(BytesIO(), StringIO(), said := StringIO(), width=20)
    console.say(cannot_open(BookFile.of(book), why).sentence)
    *others, last = said.getvalue().splitlines()
    assert (
        last
        == {
            Why.LOG_OPEN: f"install -m 600 -- '{log}' '{log}-own' && mv -f -- '{log}-own' '{log}'",
            Why.DENIED: f"chmod u+rw -- '{book}'",
            Why.LOG_DENIED: f"chmod u+rw -- '{log}'",
        }[why]
    )
    assert all(columns(line) <= 20 for line in others)


def test_what_another_program_reads_is_never_wrapped(moon: Path) -> None:
    given = f"type end en {LONG}\nprint 4\n"
    ran = scribe("run", moon, folder=moon.parent, given=given, COLUMNS="20")
    assert ran.shown == f"ok 8 4\n| {LONG}\nend 8\n"


def test_for_another_program_a_sentence_stays_whole(moon: Path) -> None:
    ran = scribe("mark", moon, "1", "moon", LONG, folder=moon.parent)
    assert ran.shown.splitlines()[0] == f"Mark 2, open, on “moon”: {LONG}"
