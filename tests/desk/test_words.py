"""The words of the command line, and what becomes of them."""

import os
import shlex
import shutil
import signal
import subprocess
import sys
from pathlib import Path

import pytest

import braildesk
from braildesk import Session
from braildesk.protocol.requests import BY_NAME
from braildesk.tables.convert import words as word_lists
from scribe.cli.commands import COMMANDS
from scribe.cli.parser import unknown_command
from scribe.cli import prompt_words
from scribe.prompt.grammar import unknown_request
from scribe.words.elsewhere import AMONG_REQUESTS, AT_PROMPT, AT_SHELL
from tool import ROOT, Ran, environment, scribe
from words import LOOKING, WORDS

NAMES = list(COMMANDS)
#: The commands of the desk.
ALL = (
    "new edit window run talk import table check-table try show list history compare find change change-all"
    " undo resolve strike restore heading body volume volumes move retable mark marks next pages"
    " export proof copy bring tune"
).split()


def test_each_command_is_there() -> None:
    assert sorted(NAMES) == sorted(ALL) == sorted([*WORDS, "tune"])


def examples(help_text: str) -> list[str]:
    """The lines of the example that help shows."""
    _, _, rest = help_text.partition("\nexample:\n")
    lines = rest.split("\n\n")[0].splitlines()
    return [line.removeprefix("  ") for line in lines]


@pytest.fixture
def path(tmp_path_factory: pytest.TempPathFactory) -> str:
    """A path of commands on which scribe is."""
    folder = tmp_path_factory.mktemp("bin")
    (folder / "scribe").symlink_to(ROOT / "bin" / "scribe")
    (folder / "python3").symlink_to(sys.executable)
    return f"{folder}:{os.environ['PATH']}"


# edit needs a terminal, in which test_screen_terminal.py runs it, and window a screen, as tests/window has it
@pytest.mark.parametrize("name", [name for name in ALL if name not in LOOKING])
def test_the_example_of_each_command_works_as_it_stands(
    name: str, moon: Path, path: str, monkeypatch: pytest.MonkeyPatch
) -> None:
    # the same words on any machine, and fewer of them than in a list that is installed
    lists = moon.parent / "lists"
    lists.mkdir()
    (lists / "british-english").write_text("moon\ntide\nsea\naway\n")
    monkeypatch.setattr(word_lists, "LISTS", lists)
    help_text = scribe(name, "--help", folder=moon.parent)
    assert (help_text.status, help_text.said) == (0, "")
    lines = examples(help_text.shown)
    assert lines and any(f"scribe {name} " in line for line in lines)
    for line in lines:
        ran = of_line(line, moon.parent, path)
        assert ran.status == 0, (line, ran.said)
        assert ran.shown or ran.said, line


def of_line(line: str, folder: Path, path: str) -> Ran:
    """Runs a line of the shell, which needs none where it is the words of one command."""
    parts = shlex.shlex(line, posix=True, punctuation_chars=True)
    parts.whitespace_split = True
    command, *words = parts
    if command == "scribe" and not {"|", "&&", ">"} & {*words}:
        return scribe(*words, folder=folder)
    done = subprocess.run(
        ["sh", "-c", line],
        cwd=folder,
        env=environment(PATH=path, BRAILDESK=braildesk.find()),
        capture_output=True,
    )
    return Ran(done.returncode, done.stdout.decode(), done.stderr.decode())


def test_a_window_needs_a_screen(moon: Path) -> None:
    ran = scribe("window", moon.name, folder=moon.parent)
    assert (ran.status, ran.shown) == (2, "")
    assert ran.said == (
        "scribe window needs a screen with windows, and none is known here (DISPLAY and"
        " WAYLAND_DISPLAY aren't set). scribe edit shows a book in a terminal.\n"
    )


@pytest.mark.parametrize(
    "missing, said",
    [
        (
            "ModuleNotFoundError('there is none', name='PyQt6')",
            "scribe window needs PyQt6, which is not installed. Debian has it as python3-pyqt6."
            " scribe edit shows a book in a terminal without it.\n",
        ),
        (
            "ImportError('libQt6Core.so.6: cannot allocate memory')",
            "What is needed here can't be loaded (libQt6Core.so.6: cannot allocate memory).\n",
        ),
        (
            "ModuleNotFoundError('No module named scribe.window.desk', name='scribe.window.desk')",
            "What is needed here can't be loaded (No module named scribe.window.desk).\n",
        ),
    ],
)
def test_a_window_needs_pyqt6(
    missing: str, said: str, moon: Path, tmp_path: Path
) -> None:
    (tmp_path / "PyQt6").mkdir()
    (tmp_path / "PyQt6" / "__init__.py").write_text(f"raise {missing}")
    modules = f"{tmp_path}:{ROOT / 'src'}"
    ran = scribe(
        "window", moon.name, folder=moon.parent, DISPLAY=":9", PYTHONPATH=modules
    )
    assert ran == Ran(3, "", said)


def test_help_names_all_commands(tmp_path: Path) -> None:
    ran = scribe("--help", folder=tmp_path)
    assert ran.status == 0
    listed = [line.split()[0] for line in ran.shown.splitlines() if line[4:5].strip()]
    assert all(name in listed for name in ALL)


@pytest.mark.parametrize("name, key", [("edit", "U"), ("window", "Ctrl+B")])
def test_help_says_which_of_several_texts_is_offered_at_the_next_opening(
    name: str, key: str, tmp_path: Path
) -> None:
    ran = scribe(name, "--help", folder=tmp_path)
    said = " ".join(ran.shown.split())
    assert (
        "is offered at the next opening; of several texts the newest is, and"
        f" {key} asks about the others."
    ) in said


def test_the_version_is_shown(tmp_path: Path) -> None:
    version = braildesk.__version__
    ran = scribe("--version", folder=tmp_path)
    assert (ran.status, ran.shown, ran.said) == (0, f"scribe {version}\n", "")


@pytest.mark.parametrize(
    "words, sentence",
    [
        ([], "The following arguments are required: COMMAND."),
        (["undo"], "The following arguments are required: FILE, PARA."),
        (["undo", "m", "x"], "Argument PARA: “x” is not a number."),
        *(
            (
                ["undo", "m", word],
                f"Argument PARA: “{word}” is not a number in the digits 0 to 9 alone.",
            )
            for word in ("-3", "+1", "1.5", "1,000", "٣")
        ),
        (["show", ""], "Argument FILE: it is empty, which is no path."),
        (["copy", "m", ""], "Argument TO: it is empty, which is no path."),
        (["import", "m", ""], "Argument TEXT: it is empty, which is no path."),
        (["compare", "m", ""], "Argument TEXT: it is empty, which is no path."),
        (["table", "m", "en", ""], "Argument TEXT: it is empty, which is no path."),
        (["undo", "m", "1", "2"], "There are too many words: 2."),
        (["run", "m", ""], "There are too many words: ''."),
        (["copy", "m", "n", "", "o"], "There are too many words: '' o."),
        (["export", "m", "o", "--lin", "9"], "Unrecognized arguments: --lin 9."),
        (
            ["volume", "m", "1", "yes"],
            "Argument on|off: “yes” is neither on nor off.",
        ),
        (
            ["move", "m", "1", "last"],
            "Argument AFTER: “last” is none of front, end and the number of a paragraph.",
        ),
    ],
)
def test_words_that_are_refused_are_explained(
    words: list[str], sentence: str, tmp_path: Path
) -> None:
    ran = scribe(*words, folder=tmp_path)
    first, usage = ran.said.splitlines()[:2]
    assert (ran.status, ran.shown, first) == (1, "", sentence)
    assert usage.startswith(" ".join(["usage: scribe", *words[:1]]))


def test_a_word_that_may_be_left_out_is_taken_after_an_option(book: Path) -> None:
    with Session(book) as session:
        session.add_paragraph("end", "en", "Two men.")
    for words in ("show {} --print 1", "show --print {} 1", "show {} 1 --print"):
        ran = scribe(*words.format(book).split(), folder=book.parent)
        assert ran == Ran(0, "Paragraph 1, body\nTwo men.\n", "")
    ran = scribe("show", book, "--paragraphs", "1", "1", folder=book.parent)
    assert (ran.status, ran.said.splitlines()[0]) == (
        1,
        "Argument PARAS: not allowed with argument --paragraphs.",
    )


@pytest.mark.parametrize(
    "words, shown",
    [
        ("find {} -- --", "Paragraph 1, character 9: Two men [--] one."),
        ("mark {} 1 -- -- why?", "Mark 1, open, on “--”: why?"),
        ("mark {} 1 -- men --", "Mark 1, open, on “men”: --"),
        ("mark {} -- 1 -- --", "Mark 1, open, on “--”: --"),
        ("change {} 1 -- -- ,", "Paragraph 1: Two men [,] one."),
    ],
)
def test_two_hyphens_are_words_after_those_that_end_the_options(
    words: str, shown: str, book: Path
) -> None:
    with Session(book) as session:
        session.add_paragraph("end", "en", "Two men -- one.")
    ran = scribe(*words.format(book).split(), folder=book.parent)
    assert (ran.status, ran.shown.splitlines()[0]) == (0, shown)


def test_an_option_after_two_hyphens_is_no_text_to_be_put_in(book: Path) -> None:
    with Session(book) as session:
        session.add_paragraph("end", "en", "Two men - one.")
    words = ["change-all", str(book), "--", "-", "--dry-run"]
    ran = scribe(*words, folder=book.parent)
    assert (ran.status, ran.said.splitlines()[0]) == (
        1,
        "--dry-run stands after --, and isn't taken as an option there. Put it before --.",
    )
    assert scribe(*words[:3], "-", "-h", folder=book.parent).status == 0


@pytest.mark.parametrize("option", ["--by anna", "--by=anna"])
def test_an_option_after_two_hyphens_is_said_to_stand_there(
    option: str, tmp_path: Path
) -> None:
    words = f"change m 1 -- -ing -ed {option}".split()
    ran = scribe(*words, folder=tmp_path)
    assert (ran.status, ran.said.splitlines()[0]) == (
        1,
        "--by stands after --, and isn't taken as an option there. Put it before --.",
    )


def test_two_hyphens_are_words_at_a_prompt(book: Path) -> None:
    with Session(book) as session:
        session.add_paragraph("end", "en", "Two men -- one.")
    given = "change 1 -- -- ,\nvolume 1 -- --\n"
    ran = scribe("talk", book, folder=book.parent, given=given)
    assert "Paragraph 1: Two men [,] one." in ran.shown.splitlines()
    assert "Argument on|off: “--” is neither on nor off." in ran.said.splitlines()


def test_a_text_that_is_taken_for_an_option_is_said_to_come_after_two_hyphens(
    tmp_path: Path,
) -> None:
    said = "A word that begins with a hyphen, and is no option, comes after --."
    ran = scribe("change", "m", "1", "-ing", "ed", folder=tmp_path)
    assert (ran.status, ran.said.splitlines()[1]) == (1, said)
    for words in (["change", "m", "--nth", "2"], ["find", "m", "--", "--"], ["-V"]):
        assert said not in scribe(*words, folder=tmp_path).said


def test_a_text_of_an_option_that_is_taken_for_one_is_said_to_be_joined_to_it(
    tmp_path: Path,
) -> None:
    words = ["change", "m", "1", "--by", "-x", "men", "women"]
    ran = scribe(*words, folder=tmp_path)
    assert (ran.status, ran.said.splitlines()[:2]) == (
        1,
        [
            "Argument --by: expected one argument.",
            "A word that begins with a hyphen is joined to --by by =, as in --by=-x.",
        ],
    )
    assert scribe("change", "m", "1", "a", "b", "--by=-x", folder=tmp_path).status == 2
    for words in (["--by"], ["--by", "--nth", "2"]):
        ran = scribe("change", "m", "1", "a", "b", *words, folder=tmp_path)
        assert "expected one argument" in ran.said and "joined" not in ran.said


@pytest.mark.parametrize("name", ["anna b", "", "x" * 41])
@pytest.mark.parametrize(
    "words", ["change m 1 a b", "change-all m a b", "edit m", "talk m", "window m"]
)
def test_a_name_that_no_proofreader_has_is_refused_before_anything_is_done(
    words: str, name: str, tmp_path: Path
) -> None:
    ran = scribe(*words.split(), "--by", name, folder=tmp_path)
    assert (ran.status, ran.said.splitlines()[0]) == (
        1,
        f"Argument --by: “{name}” can't be the name of a proofreader. Nothing was changed. A name"
        " has 1 to 40 characters, none of them a blank.",
    )


def test_a_name_that_no_proofreader_has_is_refused_at_a_prompt_too(book: Path) -> None:
    given = "change 1 --by 'anna b'\n"
    ran = scribe("talk", book, folder=book.parent, given=given)
    assert ran.said.startswith("Argument --by: “anna b” can't be the name of a")


def test_a_word_that_is_nearly_a_command_is_guessed(tmp_path: Path) -> None:
    ran = scribe("unod", "m", "1", folder=tmp_path)
    assert ran.status == 1
    assert ran.said.startswith(
        "There is no command unod. Did you mean undo? The commands"
    )


@pytest.mark.parametrize(
    "word, sentence",
    [
        ("zebra", "There is no command zebra. The commands are new, edit,"),
        (
            "where",
            "There is no command where. where is a request of scribe talk. scribe edit shows the"
            " cells of each character. The commands are",
        ),
        (
            "type",
            "There is no command type. scribe import types the paragraphs of a text, and type is"
            " a request of scribe talk. The commands are",
        ),
        ("exprot", "There is no command exprot. Did you mean export? The commands"),
    ],
)
def test_a_word_is_guessed_only_where_it_is_near_and_named_where_it_is_known(
    word: str, sentence: str
) -> None:
    assert unknown_command(word, NAMES).startswith(sentence)


def test_a_word_of_another_place_is_named_at_a_prompt_and_among_requests(
    moon: Path,
) -> None:
    given = "import moon.txt\nhistroy 1\nhelp export\n"
    ran = scribe("talk", moon, "--width", "200", folder=moon.parent, given=given)
    assert ran.said.splitlines() == [
        "There is no import. import is a command of the shell, where scribe import --help says"
        " more. End this first, since the book is in use here. help says what can be typed.",
        "There is no histroy. Did you mean history? help says what can be typed.",
        "There is no export. export is a command of the shell, where scribe export --help says"
        " more. End this first, since the book is in use here. help says what can be typed.",
    ]
    assert unknown_request("pages") == (
        "There is no request “pages”. scribe pages says what stands on which page and line."
    )


def test_each_word_of_another_place_is_known() -> None:
    requests, prompt = set(BY_NAME), set(prompt_words.names())
    assert set(AT_SHELL) - set(NAMES) == prompt - set(NAMES)
    assert set(AT_PROMPT) == set(NAMES) - prompt
    assert set(AMONG_REQUESTS) == (set(NAMES) | prompt) - requests


def test_a_file_that_is_not_there_is_refused(tmp_path: Path) -> None:
    ran = scribe("undo", "no book", "1", folder=tmp_path)
    assert ran == Ran(
        2, "", "There is no file “no book”. Check that the path is right.\n"
    )


def test_a_file_that_is_no_book_is_refused(tmp_path: Path) -> None:
    (tmp_path / "letter.txt").write_text("Dear reader,\n" * 100)
    ran = scribe("undo", "letter.txt", "1", folder=tmp_path)
    assert (ran.status, ran.shown) == (2, "")
    assert ran.said.startswith("letter.txt is no book") or ran.said.startswith(
        "“letter.txt” is no book"
    )


def test_a_book_that_is_in_use_is_refused(moon: Path) -> None:
    with Session(moon):
        ran = scribe("undo", moon, "1", folder=moon.parent)
    assert ran == Ran(
        2,
        "",
        f"Another program has “{moon}” open. Nothing was changed. That one must end first.\n",
    )


def test_a_program_that_is_not_there_is_said(moon: Path) -> None:
    ran = scribe("undo", moon, "1", folder=moon.parent, BRAILDESK="/none")
    assert (ran.status, ran.shown) == (3, "")
    assert "“/none”" in ran.said


@pytest.mark.parametrize(
    "words, kept",
    [
        (("--help",), ""),
        (("show", "moon.braildesk"), ""),
        (
            ("strike", "moon.braildesk", "1"),
            " What was changed in a book before that is kept.",
        ),
        (("proof", "moon.braildesk", "moon.html"), "\nmoon.html is written."),
        (
            ("copy", "moon.braildesk", "other"),
            " What was changed in a book before that is kept.\nother is a copy of moon.braildesk, at"
            " version 7.",
        ),
        (
            ("new", "other"),
            " What was changed in a book before that is kept.\nother is a new book with the table ueb.",
        ),
    ],
)
def test_a_full_output_is_said_and_ends_with_3(
    moon: Path, words: tuple[str, ...], kept: str
) -> None:
    with open("/dev/full", "w") as full:
        done = subprocess.run(
            [sys.executable, "-m", "scribe", *words],
            cwd=moon.parent,
            stdout=full,
            stderr=subprocess.PIPE,
            env=environment(),
        )
    assert done.returncode == 3
    said = (
        f"Standard output could not be written: there is no room on the disk.{kept}\n"
    )
    assert done.stderr.decode() == said


def test_a_reader_that_left_is_no_cause_for_words(moon: Path) -> None:
    done = subprocess.run(
        ["sh", "-c", f"'{sys.executable}' -m scribe --help | true"],
        stderr=subprocess.PIPE,
        env=environment(),
    )
    assert done.stderr == b""


def test_a_name_that_is_not_utf8_is_refused_in_words(tmp_path: Path) -> None:
    done = subprocess.run(
        [sys.executable, "-m", "scribe", "undo", b"caf\xe9", "1"],
        cwd=tmp_path,
        stderr=subprocess.PIPE,
        env=environment(),
    )
    assert done.returncode == 2
    assert b"can't be a path for braildesk" in done.stderr


def test_what_is_shown_is_utf8_in_any_locale(moon: Path) -> None:
    given = "braille 2\n"
    ran = scribe("run", moon, folder=moon.parent, given=given, LC_ALL="C", LANG="C")
    assert ran.shown == "| ⠠⠞⠓⠑⠀⠠⠞⠊⠙⠑⠎\nend 7\n"


def test_the_command_works_where_it_is_installed(moon: Path, tmp_path: Path) -> None:
    share = tmp_path / "share" / "braildesk"
    shutil.copytree(ROOT / "src", share / "python")
    (tmp_path / "bin").mkdir()
    shutil.copy(ROOT / "bin" / "scribe", tmp_path / "bin")
    (tmp_path / "bin" / "braildesk").symlink_to(braildesk.find())
    bare = {"PATH": "/usr/bin:/bin"}
    words: list[str | Path] = [
        sys.executable,
        tmp_path / "bin" / "scribe",
        "strike",
        moon,
        "2",
    ]
    done = subprocess.run(words, env=bare, capture_output=True, check=True)
    assert done.stdout.startswith(b"Paragraph 2: struck now")


@pytest.fixture
def installed(tmp_path: Path) -> Path:
    """The command, beside which there is a folder of packages with nothing of scribe in it yet."""
    (tmp_path / "bin").mkdir()
    (tmp_path / "src" / "scribe").mkdir(parents=True)
    (tmp_path / "src" / "scribe" / "__init__.py").touch()
    return Path(shutil.copy(ROOT / "bin" / "scribe", tmp_path / "bin"))


def test_a_command_that_is_not_installed_whole_says_so(installed: Path) -> None:
    (installed.parents[1] / "src" / "scribe" / "cli.py").write_text("import scribe.x")
    done = subprocess.run(
        [sys.executable, installed, "show", "moon.braildesk"],
        env={"PATH": "/usr/bin:/bin"},
        capture_output=True,
    )
    assert done.returncode == 3
    assert done.stderr == (
        b"scribe can't be started, since it isn't installed whole (ModuleNotFoundError: No module"
        b" named 'scribe.x'). Install it again.\n"
    )


def test_ctrl_c_while_scribe_starts_ends_it_without_a_word(installed: Path) -> None:
    (installed.parents[1] / "src" / "scribe" / "cli.py").write_text(
        "import time\nprint('begun', flush=True)\ntime.sleep(60)\n"
    )
    process = subprocess.Popen(
        [sys.executable, installed, "show", "moon.braildesk"],
        env={"PATH": "/usr/bin:/bin"},
        stdout=subprocess.PIPE,
        stderr=subprocess.PIPE,
    )
    assert process.stdout is not None
    assert process.stdout.readline() == b"begun\n"
    process.send_signal(signal.SIGINT)
    _, said = process.communicate()
    assert (process.returncode, said) == (-signal.SIGINT, b"")


@pytest.mark.parametrize("name", ALL)
def test_the_manual_page_has_each_command(name: str) -> None:
    page = (ROOT / "docs" / "scribe.1").read_text()
    assert f'"scribe {name} ' in page or f"\\fBscribe {name} " in page


@pytest.mark.parametrize("name", ["change-all", "show", "list"])
def test_help_and_the_manual_page_say_in_which_order_a_range_of_paragraphs_is(
    name: str, tmp_path: Path
) -> None:
    shown = " ".join(scribe(name, "--help", folder=tmp_path).shown.split())
    assert "from one to the other as they stand in the book" in shown
    page = (ROOT / "docs" / "scribe.1").read_text().replace("\n", " ")
    assert page.count("from the first to the last as they stand in the book") == 2
