"""How much work a command is: what it imports, how often the program is started, what is asked."""

import os
import subprocess
import sys
from collections.abc import Iterator
from dataclasses import dataclass, field
from io import BytesIO, StringIO
from pathlib import Path
from typing import Any

import pytest

from braildesk import Paragraph, Session
from braildesk.pipe import Pipe
from braildesk.protocol.requests import Mark, Type
from scribe.cli import run_words
from scribe.cli.commands import COMMANDS
from scribe.words.console import Console
from scribe.words.status import Status
from sitting import Sit
from tool import environment

COUNT = 600
#: What each paragraph of the book has, once.
WORDS = "far away"
#: How many of our modules are imported, and how many in all, at most.
MODULES = {
    "--help": (20, 101),
    "show": (59, 155),
    "marks": (56, 153),
    "find": (57, 154),
    "import": (74, 181),
}
#: Modules that take as long as all of a short command, and are needed by few.
DEAR = {
    "ast",
    "braildesk.desk.drafts",
    "braildesk.files",
    "braildesk.making",
    "braildesk.tables",
    "ctypes",
    "difflib",
    "importlib.resources",
    "json",
    "prompt_toolkit",
    "random",
    "readline",
    "scribe.prompt",
    "scribe.screen",
    "shutil",
    "tempfile",
    "traceback",
}
IMPORTED = """
import sys
from scribe.cli import main
sys.argv[0] = "scribe"
main()
print(*sorted(sys.modules), file=sys.stderr)
"""


#: Runs a command, and names the modules that are imported when the program is started.
BEGUN = """
import subprocess, sys
class Begun(subprocess.Popen):
    def __init__(self, *words, **more):
        print(*sys.modules, file=sys.stderr)
        super().__init__(*words, **more)
subprocess.Popen = Begun
from scribe.cli import main
main()
"""
#: What a session needs, and what answers, which are imported while the program opens the book.
BESIDE = {
    "braildesk.protocol.requests",
    "braildesk.session",
    "scribe.cli.answers",
    "scribe.cli.opened_book",
}


@dataclass
class Work:
    """How often the program was started, and what it was asked."""

    started: int = 0
    asked: list[bytes] = field(default_factory=list)

    @property
    def names(self) -> list[str]:
        """The names of the requests."""
        words = (request.decode().split() for request in self.asked)
        return [its[1] if its[0].startswith("@") else its[0] for its in words]


@pytest.fixture
def work(monkeypatch: pytest.MonkeyPatch) -> Iterator[Work]:
    """What is done from now on."""
    found = Work()
    popen, send = subprocess.Popen.__init__, Pipe.send

    def started(process: "subprocess.Popen[Any]", *words: Any, **more: Any) -> None:
        found.started += 1
        popen(process, *words, **more)

    def asked(pipe: Pipe, request: bytes) -> None:
        found.asked.append(request)
        send(pipe, request)

    monkeypatch.setattr(subprocess.Popen, "__init__", started)
    monkeypatch.setattr(Pipe, "send", asked)
    yield found


@pytest.fixture(scope="module")
def long_once(made_once: Path, tmp_path_factory: pytest.TempPathFactory) -> Path:
    """A book of many paragraphs, of which each has a mark."""
    path = tmp_path_factory.mktemp("long") / "long.braildesk"
    path.write_bytes((made_once / "supplied.braildesk").read_bytes())
    with Session(path) as session:
        texts = (f"Paragraph {n} of a moon that is {WORDS}." for n in range(COUNT))
        list(session.each(Type("end", "en", text) for text in texts))
        list(session.each(Mark(n, 0, 4, "spelled so?") for n in range(1, COUNT + 1)))
    return path


@pytest.fixture
def long(long_once: Path, tmp_path: Path) -> Path:
    """A copy of that book."""
    path = tmp_path / "long.braildesk"
    path.write_bytes(long_once.read_bytes())
    return path


def run(*words: str | int | Path) -> list[str]:
    """The lines that a command shows, which has to end well."""
    shown, said = StringIO(), StringIO()
    console = Console(BytesIO(), shown, said)
    assert run_words([str(word) for word in words], console) == 0, said.getvalue()
    return shown.getvalue().splitlines()


def imported(moon: Path, *words: str) -> set[str]:
    """The modules that a command imports."""
    return said(moon, IMPORTED, *words)


def said(moon: Path, script: str, *words: str) -> set[str]:
    """The names in the last line that a command writes as an error, run by a script."""
    done = subprocess.run(
        [sys.executable, "-c", script, *words],
        # nothing that other tests left there is asked about
        env=environment(XDG_STATE_HOME=str(moon.parent / "state")),
        capture_output=True,
        check=True,
    )
    return set(done.stderr.decode().splitlines()[-1].split())


@pytest.mark.parametrize("words", [["--help"], ["show"], ["marks"], ["find", "moon"]])
def test_a_short_command_imports_what_it_needs(moon: Path, words: list[str]) -> None:
    command, *others = words
    book = [] if command == "--help" else [str(moon)]
    found = imported(moon, command, *book, *others)
    assert not DEAR & found
    own = {each for each in found if each.split(".")[0] in ("braildesk", "scribe")}
    most_own, most = MODULES[command]
    assert len(own) <= most_own and len(found) <= most, sorted(found)
    modules = {f"scribe.cli.commands.{module}" for module, _ in COMMANDS.values()}
    assert modules & found <= {f"scribe.cli.commands.{command}"}


@pytest.mark.parametrize("words", [["show"], ["heading", "1"]])
def test_the_program_opens_the_book_while_most_is_imported(
    moon: Path, words: list[str]
) -> None:
    command, *others = words
    found = said(moon, BEGUN, command, str(moon), *others, "--width", "400")
    assert "braildesk.beginning" in found
    assert not BESIDE & found


@pytest.mark.parametrize(
    "words",
    [
        ["pages", "--line", "2"],
        ["volumes", "--set"],
        ["find", "--braille", "é"],
    ],
    ids=lambda words: str(words[0]),
)
def test_words_that_do_not_go_together_begin_nothing(
    moon: Path, words: list[str], monkeypatch: pytest.MonkeyPatch
) -> None:
    begun: list[object] = []
    # which is asked before a program is started
    monkeypatch.setattr("braildesk.program.find", begun.append)
    command, *others = words
    console = Console(BytesIO(), StringIO(), said := StringIO())
    status = run_words([command, str(moon), *others], console)
    assert (status, begun) == (Status.WORDS_REFUSED, [])
    assert said.getvalue().startswith("Argument ")
    # whatever is at the path
    gone = str(moon.with_name("gone"))
    again = Console(BytesIO(), StringIO(), said_again := StringIO())
    assert run_words([command, gone, *others], again) == Status.WORDS_REFUSED
    assert said_again.getvalue() == said.getvalue()


def test_what_stands_for_a_module_gives_all_that_it_has() -> None:
    lines = (
        "import scribe.cli, inspect, sys",
        "assert 'ast' not in sys.modules",
        "from inspect import unwrap",
        "assert inspect.unwrap is unwrap is sys.modules['inspect'].unwrap",
        "assert not hasattr(inspect, 'none')",
    )
    subprocess.run(
        [sys.executable, "-c", "\n".join(lines)], env=environment(), check=True
    )


def test_an_import_of_a_text_imports_nothing_that_reads_documents(moon: Path) -> None:
    text = moon.with_name("text.txt")
    text.write_text("The sun is farther away.\n")
    found = imported(moon, "import", str(moon), str(text))
    own = {each for each in found if each.split(".")[0] in ("braildesk", "scribe")}
    most_own, most = MODULES["import"]
    assert len(own) <= most_own and len(found) <= most, sorted(found)
    documents = {each for each in found if each.startswith("braildesk.desk.documents.")}
    assert documents == {
        "braildesk.desk.documents.kinds",
        "braildesk.desk.documents.options",
    }


#: Each command with its words after the book, and the requests that it sends: a version with each
#: session, and one request of a kind for each paragraph that is shown.
ASKED = {
    "show of one": (
        ["show", "--paragraphs", "300"],
        ["version", "list", "print", "braille", "marks"],
    ),
    "change": (
        ["change", "300", WORDS, "near"],
        ["version", "print", "marks", "correct", "print", "marks"],
    ),
    "heading": (["heading", "300"], ["version", "list", "style", "print"]),
    "strike": (["strike", "300"], ["version", "list", "strike", "print"]),
    "find": (["find", WORDS], ["version", "list", *["print"] * COUNT]),
    "show of all": (
        ["show"],
        ["version", "list", *["print", "braille", "marks"] * COUNT],
    ),
    "marks": (
        ["marks"],
        ["version", "list", *["marks"] * COUNT, *["print"] * COUNT],
    ),
}


@pytest.mark.parametrize("name", ASKED)
def test_a_command_opens_the_book_once_and_asks_each_thing_once(
    long: Path, work: Work, name: str
) -> None:
    (command, *words), wanted = ASKED[name]
    run(command, long, *words)
    assert work.started == 1
    assert work.names == wanted


@pytest.mark.parametrize("command", ["heading", "show", "strike"])
def test_a_command_on_a_paragraph_reads_no_other_line_of_the_list(
    long: Path, command: str, tmp_path: Path, monkeypatch: pytest.MonkeyPatch
) -> None:
    # without what other tests noted of files that had the same number on the disk
    monkeypatch.setenv("XDG_STATE_HOME", str(tmp_path / "state"))
    read = []

    def counted(*fields: Any) -> Paragraph:
        read.append(fields)
        return Paragraph(*fields)

    monkeypatch.setattr("braildesk.protocol.answers.Paragraph", counted)
    run(command, long, COUNT // 2)
    assert [fields[0] for fields in read] == [COUNT // 2]


@pytest.mark.parametrize("page, asked", [(1, 64), (20, 256), (50, COUNT)])
def test_a_page_is_shown_with_an_export_and_what_stands_on_it_and_before(
    long: Path, work: Work, page: int, asked: int
) -> None:
    lines = run("pages", long, "--page", page)
    assert len(lines) == 1 + 24
    # the session, and the export with which the page is compared
    assert work.started == 2
    # each of these paragraphs takes two lines, and their cells are asked for in groups
    assert work.names.count("print") == 12
    assert work.names.count("braille") == asked


def test_a_copy_that_nobody_keeps_is_not_waited_for_until_it_is_on_the_disk(
    long: Path, monkeypatch: pytest.MonkeyPatch
) -> None:
    synced: list[int] = []
    monkeypatch.setattr(os, "fsync", synced.append)
    run("pages", long, "--page", 1)
    assert not synced
    run("copy", long, long.with_name("copy.braildesk"))
    assert synced


def test_the_number_of_pages_is_said_though_no_more_are_laid_out(long: Path) -> None:
    title, *_ = run("pages", long)
    for page in (1, 20, 50):
        assert run("pages", long, "--page", page)[0] == title


def test_an_import_opens_the_book_once_and_sends_each_paragraph_once(
    long: Path, work: Work
) -> None:
    count = 500
    text = long.with_name("text.txt")
    text.write_text("".join(f"It is day {n}.\n" for n in range(count)))
    run("import", long, text, "--lines")
    assert work.names.count("type") == count
    assert len(work.asked) <= count + 10
    # the session, and the program once for the characters of the text
    assert work.started == 2
    assert work.names.count("version") == 1


def test_the_screen_opens_a_book_once(long: Path, sit: Sit, work: Work) -> None:
    sit(long)
    assert work.started == 1
    assert work.names.count("list") == 1


def test_the_pages_of_a_volume_are_laid_out_once(
    long: Path, sit: Sit, work: Work
) -> None:
    sat = sit(long)
    work.asked.clear()
    sat.press("p")
    assert sat.state.pages is not None
    assert work.names.count("braille") >= COUNT
    sat.press("escape", *["down"] * 40)
    work.asked.clear()
    sat.press("p")
    assert sat.state.pages is not None
    # what is new on the page
    assert len(work.asked) <= 30
