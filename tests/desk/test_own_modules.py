"""Books that are open while scribe is installed anew: what is imported then is of the version that runs."""

import shutil
import subprocess
import sys
from collections.abc import Callable
from pathlib import Path

import pytest

from braildesk import Session

from scribe.cli import endings
from scribe.cli.own_modules import hold_modules
from prompted import Prompted
from terminal import Open
from tool import ROOT, WAIT_SECONDS, at_end, at_terminal, environment


@pytest.fixture
def modules(tmp_path: Path) -> Path:
    """A folder with the modules of scribe, as it is installed."""
    place = tmp_path / "modules"
    return Path(
        shutil.copytree(
            ROOT / "src", place, ignore=shutil.ignore_patterns("__pycache__")
        )
    )


def install_anew(modules: Path) -> None:
    """Puts modules in place that fit no others of those."""
    for path in modules.rglob("*.py"):
        path.write_text("raise ImportError('of another version')\n", encoding="utf-8")


def take_away(modules: Path) -> None:
    """Takes all modules away."""
    shutil.rmtree(modules)


@pytest.mark.parametrize("change", [install_anew, take_away])
def test_the_screen_saves_a_book_that_is_gone_from_its_path(
    change: Callable[[Path], None], moon: Path, at: Open, modules: Path
) -> None:
    terminal = at(moon, 160, PYTHONPATH=str(modules))
    terminal.wait("? shows the keys.")
    terminal.keys("s")
    terminal.wait("kept: paragraph 1 struck")
    change(modules)
    moon.unlink()
    terminal.keys("down", "s")
    terminal.wait("Enter opens what is at the path  q ends")
    terminal.answer("q")
    assert terminal.ended() == 3
    saved = moon.with_name("moon.braildesk-saved-1")
    # a path may be parted at the end of a line
    assert f"isinthenewfile“{saved}”." in "".join(terminal.said.split())
    with Session(saved) as session:
        assert [each.id for each in session.paragraphs() if each.struck] == [1, 2]


@pytest.mark.parametrize("change", [install_anew, take_away])
def test_all_that_can_be_asked_at_a_prompt_is_answered(
    change: Callable[[Path], None], moon: Path, modules: Path
) -> None:
    text = "# The tides\n\nTwice a day the sea comes up.\n"
    moon.with_name("tides.md").write_text(text, encoding="utf-8")
    talk = Prompted("talk", str(moon), folder=moon.parent, PYTHONPATH=str(modules))
    change(modules)
    # the modules by which other programs run are as they were too
    assert "1 paragraph is in the book alone." in talk.type("compare tides.md")
    assert talk.type("heading 1")[-1] == "The book is at version 8."
    assert talk.type("heading 9") == [
        "The book has no paragraph 9: it has the paragraphs 1 to 3. Nothing was changed."
    ]
    assert talk.type("find far")[-1] == "Found “far” once."
    assert talk.end("quit\r").status == 0


@pytest.mark.parametrize("change", [install_anew, take_away])
def test_what_was_changed_while_somebody_was_asked_is_saved(
    change: Callable[[Path], None], moon: Path, modules: Path
) -> None:
    words = ["-m", "scribe", "change-all", str(moon), "a", "o", "--ask"]
    settings = environment(PYTHONPATH=str(modules))
    child = at_terminal(sys.executable, *words, settings=settings)
    for answer in ("yes\r", "yes\r"):
        child.expect("\n: ")
        child.send(answer)
    child.expect("\n: ")
    change(modules)
    moon.unlink()
    child.send("yes\r")
    assert at_end(child) == 3
    saved = moon.with_name("moon.braildesk-saved-1")
    with Session(saved) as session:
        assert session.print_of(1) == "The moon is for owoy."


@pytest.mark.parametrize("change", [install_anew, take_away])
def test_a_command_that_runs_meanwhile_says_so(
    change: Callable[[Path], None], moon: Path, modules: Path
) -> None:
    with subprocess.Popen(
        [sys.executable, "-m", "scribe", "run", moon],
        env=environment(PYTHONPATH=str(modules)),
        stdin=subprocess.PIPE,
        stdout=subprocess.PIPE,
        stderr=subprocess.PIPE,
        encoding="utf-8",
    ) as run:
        assert run.stdin and run.stdout
        run.stdin.write("style 1 heading\n")
        run.stdin.flush()
        assert run.stdout.readline() == "ok 8\n"
        change(modules)
        _, said = run.communicate("style 9 heading\n", WAIT_SECONDS)
    assert run.returncode == 3
    assert said.startswith(
        "scribe was installed anew or taken away while it ran, and stopped ("
    )
    assert said.endswith(
        "What was reported as kept is in the book, and what was asked after that may be there too."
        " Try again.\n"
    )


def test_a_fault_is_one_where_the_modules_of_the_beginning_are_held(
    monkeypatch: pytest.MonkeyPatch,
) -> None:
    monkeypatch.setattr(endings, "_BEGAN", 0.0)
    monkeypatch.setattr(sys, "meta_path", [*sys.meta_path])
    assert endings.of_fault(KeyError("x"), "Done.") == (
        "scribe was installed anew or taken away while it ran, and stopped (KeyError). Done. Try"
        " again."
    )
    hold_modules()
    assert "has a fault of its own" in endings.of_fault(KeyError("x"), "Done.")


def test_a_fault_is_kept_where_the_modules_lie_in_an_archive(
    monkeypatch: pytest.MonkeyPatch, tmp_path: Path
) -> None:
    archive = tmp_path / "scribe.zip"
    archive.touch()
    monkeypatch.setenv("XDG_STATE_HOME", str(tmp_path))
    monkeypatch.setattr(endings, "__file__", str(archive / "endings.py"))
    said = endings.of_fault(KeyError("x"), "Done.")
    assert "Please report it with its details, which are in" in said
