"""scribe try, by what a person sees at a terminal."""

import os
import signal
import sys
import time
from collections.abc import Iterator
from pathlib import Path

import pytest

from scribe.prompt import trial, typed_lines
from prompted import LOOKING_OFTEN, OF_SHELL, Prompted, child_of
from tool import (
    WAIT_SECONDS,
    Ran,
    at_terminal,
    end,
    environment,
    put_in_place,
    scribe,
)

TABLE = """\
space \\s 0
punctuation . 256
digit 5 15
uplow Aa 1
uplow Hh 125
uplow Ee 15
uplow Tt 2345
letter \\x00e9 123456
numsign 3456
capsletter 6
word the 2346 the contraction
always he 1-2
"""


# how often it is looked for whether the file was saved, and how long that is waited for
_TICK, _TICKS = 0.05, 8


def look_often() -> None:
    """Has scribe look for the file more often than somebody who types would need."""
    typed_lines._TICK = _TICK


def try_table(path: Path) -> Prompted:
    """A person at a terminal at which a table is tried."""
    return Prompted("try", path.name, folder=path.parent, before=look_often)


@pytest.fixture
def own(tmp_path: Path) -> Path:
    """The file of a table."""
    path = tmp_path / "own.utb"
    path.write_text(TABLE)
    return path


@pytest.fixture
def trying(own: Path) -> Iterator[Prompted]:
    """A person who tries that table."""
    opened = try_table(own)
    yield opened
    opened.close()


def test_print_is_answered_by_braille_and_the_lines_that_made_it(
    trying: Prompted,
) -> None:
    assert trying.greeting == [
        "own.utb: 12 lines, accepted.",
        "Type print, or quit to end.",
    ]
    assert trying.type("The heat. 5") == [
        "⠠⠮⠀⠁⠂⠁⠞⠲⠀⠼⠑",
        "“The” ⠠⠮: line 11, word the 2346, after line 10, capsletter 6",
        "“ ” ⠀: line 1, space \\s 0",
        "“he” ⠁⠂: line 12, always he 1-2",
        "“at. ” ⠁⠞⠲⠀: each by itself, lines 4, 7, 2 and 1",
        "“5” ⠼⠑: line 3, digit 5 15, after line 9, numsign 3456",
    ]


def test_a_file_that_was_saved_is_read_again_by_itself(
    trying: Prompted, own: Path
) -> None:
    assert trying.type("the")[0] == "⠮"
    # an editor may empty a file before it writes it, and what stands there meanwhile may be read
    own.write_text(TABLE.replace("word the 2346", "word the 1-1"))
    while (lines := trying.wait())[-1] != "“the” ⠁⠁: line 11, word the 1-1":
        assert lines[0] == "The file was saved, and is read again."
    assert lines[:-1] == [
        "The file was saved, and is read again.",
        "own.utb: 12 lines, accepted.",
        "⠁⠁",
    ]
    put_in_place(own, "# mine\n" + TABLE)
    assert trying.wait() == [
        "The file was saved, and is read again.",
        "own.utb: 13 lines, accepted.",
        "⠮",
        "“the” ⠮: line 12, word the 2346",
    ]


def test_a_file_that_is_saved_while_a_line_is_typed_is_read_with_the_line(
    trying: Prompted, own: Path
) -> None:
    trying.shown_keys("th")
    put_in_place(own, TABLE.replace("word the 2346", "word the 1-1"))
    time.sleep(_TICK * _TICKS)
    assert trying.type("e") == [
        "The file was saved, and is read again.",
        "own.utb: 12 lines, accepted.",
        "⠁⠁",
        "“the” ⠁⠁: line 11, word the 1-1",
    ]


def test_a_file_that_is_saved_as_it_was_is_no_matter(
    trying: Prompted, own: Path
) -> None:
    put_in_place(own, TABLE)
    time.sleep(_TICK * _TICKS)
    assert trying.type("the")[0] == "⠮"


def test_a_file_that_an_editor_has_emptied_is_read_once_it_is_filled(
    own: Path,
) -> None:
    def wait_long() -> None:
        look_often()
        trial._FILLING = WAIT_SECONDS

    trying = Prompted("try", own.name, folder=own.parent, before=wait_long)
    own.write_text("")
    trying.keys("the\r")
    trying.wait_for("the\r\n")
    put_in_place(own, TABLE.replace("word the 2346", "word the 1-1"))
    # after the first line, by which it is said that the file was saved
    assert trying.wait() == [
        "own.utb: 12 lines, accepted.",
        "⠁⠁",
        "“the” ⠁⠁: line 11, word the 1-1",
    ]
    trying.close()


def test_a_file_that_was_emptied_is_left_alone_for_a_while(
    own: Path, monkeypatch: pytest.MonkeyPatch
) -> None:
    now = 100.0
    monkeypatch.setattr(time, "monotonic", lambda: now)
    tried = trial.Trial(own)
    own.write_text("")
    assert [tried.is_saved(), tried.is_saved(), tried.is_saved()] == 3 * [False]
    now += 60
    assert tried.is_saved() and tried.reread()
    assert tried.state() == ["own.utb is empty, and defines no character."]
    put_in_place(own, TABLE)
    assert [tried.is_saved(), tried.is_saved()] == [False, True]


def test_a_file_that_stays_empty_is_said_to_be_empty(own: Path) -> None:
    own.write_text("")
    ran = scribe("try", own.name, folder=own.parent, given="")
    assert ran.shown.startswith("own.utb is empty, and defines no character.\n")


def test_a_fault_is_shown_until_it_is_gone(trying: Prompted, own: Path) -> None:
    put_in_place(own, TABLE + "always the 9\nalways x 1\n")
    refused = [
        "Line 13: “9” is no cell: a cell is 0, or some of the digits 1 to 8. It reads “always"
        " the 9”.",
        "own.utb is refused, so nothing can be translated. It has 1 other fault: scribe"
        " check-table shows all. Save it corrected, and go on here.",
    ]
    assert trying.wait() == ["The file was saved, and is read again.", *refused]
    assert trying.type("the") == refused
    put_in_place(own, TABLE)
    assert trying.wait()[-1] == "“the” ⠮: line 11, word the 2346"


def test_a_table_with_a_fault_may_be_corrected_at_the_prompt(own: Path) -> None:
    own.write_text("letter a\n")
    trying = try_table(own)
    assert trying.greeting[0].startswith("Line 1: An operand is missing.")
    put_in_place(own, "letter a 1\n")
    assert trying.wait()[-1] == "own.utb: 1 line, accepted."
    assert trying.type("a")[-1] == "“a” ⠁: line 1, letter a 1"
    assert trying.end("quit\r").status == 0


def test_a_file_that_is_gone_is_said(trying: Prompted, own: Path) -> None:
    own.rename(own.with_name("other"))
    assert trying.type("the") == [
        "There is no file “own.utb”. Check that the path is right."
    ]
    own.with_name("other").rename(own)
    assert trying.type("")[0] == "⠮"


def test_a_character_that_is_not_defined_is_named(trying: Prompted) -> None:
    assert trying.type("the cat") == [
        "The table “own.utb” has no cells for “c” (U+0063 LATIN SMALL LETTER C), character 5 of"
        " the line: “the cat”. This line was not translated."
    ]
    assert trying.end("\x04").status == 2


def test_print_is_taken_in_normal_form_c(trying: Prompted) -> None:
    assert trying.type("e\u0301")[0] == "⠿"


def test_ctrl_c_gives_up_the_line_and_not_the_trial(trying: Prompted) -> None:
    trying.shown_keys("the")
    assert trying.give_up() == ["Given up."]
    assert trying.type("a")[0] == "⠁"


@pytest.mark.parametrize("name", ["SIGTERM", "SIGHUP"])
@pytest.mark.parametrize(
    "before",
    [
        *("", "stty tostop; "),
        "bg; until jobs -l | grep -q output; do sleep 0.1; done; ",
    ],
)
def test_a_trial_that_is_told_to_end_while_it_is_stopped_ends(
    own: Path, name: str, before: str
) -> None:
    settings = environment(**OF_SHELL)
    shell = at_terminal("bash", "--norc", "--noprofile", "-i", settings=settings)
    shell.expect_exact("$ ")
    shell.sendline(f"'{sys.executable}' -c '{LOOKING_OFTEN}' try '{own}'")
    shell.expect_exact("> ")
    shell.send("the")
    shell.expect_exact("the")
    shell.send("\x1a")
    shell.expect_exact("Stopped")
    shell.expect_exact("$ ")
    # the shell has it go on by that, and keeps the terminal
    shell.sendline(f"{before}kill -{name} %1; wait -f %1")
    shell.expect_exact(f"Stopped by {name}. No book was changed.")
    shell.expect_exact("$ ")
    end(shell)


def test_what_was_pasted_and_not_read_as_a_trial_is_told_to_end_is_carried_out_by_no_shell(
    own: Path,
) -> None:
    settings = environment(**OF_SHELL)
    words = ["--norc", "--noprofile", "-i"]
    shell = at_terminal("bash", *words, settings=settings, folder=own.parent)
    shell.expect_exact("$ ")
    shell.sendline(f"'{sys.executable}' -m scribe try '{own}'")
    shell.expect_exact("> ")
    trial = child_of(shell.pid)
    # of which most is still to be read
    shell.send("echo far > shell\r" * 150)
    shell.expect_exact("echo far > shell")
    os.kill(trial, signal.SIGTERM)
    shell.expect_exact("Stopped by SIGTERM.")
    shell.expect_exact("$ ")
    end(shell)
    assert not own.with_name("shell").exists()


def test_the_line_before_comes_back(trying: Prompted) -> None:
    trying.type("the")
    trying.type("a")
    assert trying.type("\x1b[A\x1b[A")[0] == "⠮"


def test_quit_and_the_end_of_the_input_end_it(trying: Prompted, own: Path) -> None:
    assert trying.end("quit\r").status == 0
    assert try_table(own).end("\x04").status == 0


def test_lines_come_from_a_pipe_too(own: Path) -> None:
    ran = scribe("try", "own.utb", folder=own.parent, given="the\r\n\nx")
    answer = "⠮\n“the” ⠮: line 11, word the 2346\n"
    assert ran.shown == (
        f"own.utb: 12 lines, accepted.\nType print, or quit to end.\n{answer}{answer}"
    )
    assert ran.status == 2 and ran.said.startswith(
        "The table “own.utb” has no cells for"
    )


def test_a_blank_alone_is_a_cell_without_dots(own: Path) -> None:
    shown = scribe("try", "own.utb", folder=own.parent, given=" \n").shown
    assert shown.splitlines()[2:] == ["⠀", "“ ” ⠀: line 1, space \\s 0"]


def test_no_line_is_over_the_width_and_nothing_moves_the_cursor(own: Path) -> None:
    given = "The heat. " * 20 + "\nthe cat\n"
    ran = scribe("try", "own.utb", "--width", "24", folder=own.parent, given=given)
    lines = (ran.shown + ran.said).splitlines()
    assert len(lines) > 60 and max(map(len, lines)) <= 24
    assert "\x1b" not in ran.shown + ran.said


@pytest.mark.parametrize("cells", ["⠁⠁", "no 14"])
def test_a_difference_is_reported_and_is_no_answer(own: Path, cells: str) -> None:
    program = own.with_name("otherwise")
    program.write_text(f"#!/bin/sh\nif read -r line; then echo '{cells}'; fi\n")
    program.chmod(0o755)
    ran = scribe("try", own, folder=own.parent, given="the\n", BRAILDESK=str(program))
    assert (ran.status, len(ran.shown.splitlines())) == (3, 2)
    assert "differ on the table" in ran.said and "this is no answer" in ran.said


def test_a_file_that_is_not_there_is_refused(tmp_path: Path) -> None:
    ran = scribe("try", "none.utb", folder=tmp_path, given="the\n")
    assert ran == Ran(
        2, "", "There is no file “none.utb”. Check that the path is right.\n"
    )
