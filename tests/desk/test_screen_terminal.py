"""A book in a terminal that a program reads: what stands on the screen, line by line."""

import os
import re
import signal
import sys
import termios
from pathlib import Path

import pytest

from braildesk.desk.drafts import Drafts
from prompted import OF_SHELL
from terminal import Open, once_free
from tool import at_end, at_terminal, end, environment, scribe_in_copy

#: What sets a colour of letters or of what is behind them.
COLOURS = re.compile(rb"\x1b\[(?:[0-9]+;)*(?:3[0-8]|4[0-8]|9[0-7]|10[0-7])[;m]")


def test_the_book_is_opened_corrected_marked_undone_and_exported(
    moon: Path, at: Open
) -> None:
    terminal = at(moon)
    lines = terminal.wait("? shows the keys.")
    assert lines[:3] == [
        "moon.braildesk, version 7, table en, nothing kept yet",
        ">    1 body, 1 open mark: The moon is far away.",
        "     2 body: The Tides",
    ]
    assert lines[8:10] == [
        "The moon is far away.",
        "⠠⠞⠓⠑⠀⠍⠕⠕⠝⠀⠊⠎⠀⠋⠁⠗⠀⠁⠺⠁⠽⠲",
    ]
    assert terminal.cursor == (8, 0)
    terminal.keys("c-right", "enter", "delete", "M")
    terminal.wait("⠠⠞⠓⠑⠀⠠⠍⠕⠕⠝")
    terminal.keys("enter")
    lines = terminal.wait("kept: correction 2 of paragraph 1")
    assert lines[8] == "The Moon is far away."
    assert terminal.cursor == (8, 5)
    terminal.keys("tab", "m", "why?", "enter")
    terminal.wait("kept: mark 2")
    terminal.keys("u")
    terminal.wait("kept: mark 2 resolved")
    terminal.keys("u")
    terminal.wait("kept: the print of paragraph 1 as it was before")
    terminal.keys("x", "pages", "enter")
    lines = terminal.wait("Export. Lines 1 to 1 of 1.")
    assert lines[2] == "pages/moon-1.brf: volume 1, 1 page, 52 cells with dots."
    assert not COLOURS.search(terminal.written)
    terminal.keys("q", "q")
    assert terminal.ended() == 0
    assert (moon.parent / "pages" / "moon-1.brf").exists()


def test_a_killed_session_leaves_what_the_screen_said_was_kept(
    moon: Path, at: Open
) -> None:
    terminal = at(moon, 40, 12)
    terminal.wait("? shows the keys.")
    terminal.keys("down", "s")
    terminal.wait("     1 body, 1 open mark")
    terminal.wait(">    2 body, struck: The Tides")
    terminal.keys("o", "It rose.")
    terminal.wait("It rose.")
    os.kill(terminal.program(), signal.SIGKILL)
    terminal.wait("here: type on.")
    terminal.hang_up()
    assert terminal.left() == 3
    with once_free(moon) as session:
        assert session.last_version == 8 and session.paragraphs()[1].struck
    waits = Drafts(moon).waiting()
    assert waits and waits.text == "It rose."


def test_a_terminal_that_is_closed_leaves_the_text_which_is_offered_again(
    moon: Path, at: Open
) -> None:
    terminal = at(moon)
    terminal.wait("? shows the keys.")
    terminal.keys("enter", "Oh, ")
    terminal.wait("Oh, The moon is far away.")
    terminal.hang_up()
    terminal.left()
    waits = Drafts(moon).waiting()
    assert waits and waits.text == "Oh, The moon is far away."
    again = at(moon, LC_ALL="C", TERM="linux")
    again.wait("further? y is yes, n is no.")
    again.answer("y")
    again.wait("Oh, The moon is far away.")
    again.keys("enter")
    lines = again.wait("kept: correction 2 of paragraph 1")
    assert lines[9] == ",OH1 ,THE MOON IS FAR AWAY4"


def test_the_screen_is_drawn_anew_after_a_shell_had_the_terminal(
    moon: Path, at: Open
) -> None:
    terminal = at(moon)
    terminal.wait("? shows the keys.")
    terminal.keys("o", *"Soon")
    before = terminal.wait("⠠⠎⠕⠕⠝")
    of_shell = termios.ICANON | termios.ECHO
    with terminal.stopped() as end:
        mode = termios.tcgetattr(end)
        mode[3] |= of_shell
        termios.tcsetattr(end, termios.TCSANOW, mode)
        os.write(end, b"\x1b[2;1H[1]+  Stopped\r\n$ fg\r\n")
        terminal.wait("$ fg")
        terminal.send_signal(signal.SIGCONT)
        terminal.wait_for(before, (8, 4), "as before")
        assert not termios.tcgetattr(end)[3] & of_shell
    terminal.keys("!", "enter")
    terminal.wait("kept: paragraph 4")
    terminal.keys("escape", "q")
    assert terminal.ended() == 0


@pytest.mark.parametrize("is_begun_there", [True, False])
def test_the_screen_comes_from_the_background_once_a_shell_has_it_in_front(
    moon: Path, is_begun_there: bool
) -> None:
    settings = environment(**OF_SHELL)
    words = ["--norc", "--noprofile", "-i"]
    shell = at_terminal("bash", *words, settings=settings, folder=moon.parent)
    shell.expect_exact("$ ")
    line = f"'{sys.executable}' -m scribe edit moon.braildesk"
    # it asks for the terminal, and is stopped by that
    until_stopped = "until jobs -l | grep -q output; do sleep 0.1; done"
    if is_begun_there:
        shell.sendline(f"{line} & {until_stopped}")
    else:
        shell.sendline(line)
        shell.expect_exact("? shows the keys.")
        children = Path(f"/proc/{shell.pid}/task/{shell.pid}/children")
        os.kill(int(children.read_text()), signal.SIGSTOP)
        shell.expect_exact("Stopped")
        shell.expect_exact("$ ")
        shell.sendline(f"bg; {until_stopped}")
    shell.expect_exact("$ ")
    shell.sendline("fg")
    shell.expect_exact("? shows the keys.")
    shell.send("q")
    shell.expect_exact("moon.braildesk is at version 7.")
    shell.expect_exact("$ ")
    # the shell has the terminal in the mode in which it gave it
    shell.sendline("stty -a")
    shell.expect_exact("isig icanon iexten echo ")
    end(shell)


@pytest.mark.parametrize("how", ["begun there", "stopped", "stopped and begun there"])
def test_the_screen_ends_in_the_background_by_a_signal_and_leaves_the_terminal_to_the_shell(
    moon: Path, how: str
) -> None:
    settings = environment(**OF_SHELL)
    words = ["--norc", "--noprofile", "-i"]
    shell = at_terminal("bash", *words, settings=settings, folder=moon.parent)
    shell.expect_exact("$ ")
    line = f"'{sys.executable}' -m scribe edit moon.braildesk"
    until_stopped = "until jobs -l | grep -q output; do sleep 0.1; done"
    if how == "begun there":
        shell.sendline(f"{line} & {until_stopped}")
    else:
        shell.sendline(line)
        shell.expect_exact("? shows the keys.")
        children = Path(f"/proc/{shell.pid}/task/{shell.pid}/children")
        os.kill(int(children.read_text()), signal.SIGSTOP)
        shell.expect_exact("Stopped")
    if how == "stopped and begun there":
        shell.expect_exact("$ ")
        shell.sendline(f"bg; {until_stopped}")
    shell.expect_exact("$ ")
    # bash has one that is stopped go on as well
    shell.sendline("kill %1")
    shell.expect_exact("moon.braildesk is at version 7.")
    shell.sendline("while jobs %1; do sleep 0.1; done; stty -a")
    shell.expect_exact("Terminated")
    shell.expect_exact("isig icanon iexten echo ")
    end(shell)


def test_a_dumb_terminal_is_refused_and_talk_is_named(moon: Path) -> None:
    words = ["edit", "moon.braildesk"]
    settings = environment(TERM="dumb")
    child = at_terminal(
        sys.executable,
        "-m",
        "scribe",
        *words,
        settings=settings,
        folder=moon.parent,
        begin=scribe_in_copy(words, settings),
    )
    assert at_end(child) == 2
    assert child.before == (
        "scribe edit needs a terminal on which the cursor moves, and TERM says that this one is"
        " dumb. Nothing was changed. This works here: scribe talk moon.braildesk\r\n"
    )
