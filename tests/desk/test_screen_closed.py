"""A terminal that is closed, and scribe that is told to end, in the middle of the work."""

import errno
import os
import signal
from pathlib import Path
from typing import TextIO

import pytest

from braildesk.desk.drafts import Drafts

from scribe.screen.terminal import HungUp, Output, TerminalFailed
from stand_in import KEPT, READ, SEND, WAIT
from terminal import Open, Terminal, once_free, standing_in
from tool import ROOT


WAITS = "A text that was typed and isn't in the book is kept, and is offered when the book is next opened. "
HUNG_UP, SIGNALS = "hung up", ["SIGHUP", "SIGTERM", "SIGQUIT", "SIGHUP SIGTERM"]
WAYS = [HUNG_UP, *SIGNALS]


def close(terminal: Terminal, way: str) -> None:
    """Closes the terminal in one of the ways."""
    if way == HUNG_UP:
        terminal.hang_up()
        return
    for name in way.split():
        terminal.send_signal(signal.Signals[name])


def check_has_ended(terminal: Terminal, way: str, waits: str = "") -> None:
    """Waits until scribe has ended by itself, without what nobody understands.

    Who can still read it reads whether a text waits.
    """
    if way == HUNG_UP:
        assert (terminal.left(), terminal.said) == (3, "")
    else:
        # by either of two signals, since the system may hand the later one to another thread of scribe
        # that is sooner, and to a person it is the same which of two that come at once ends it
        assert -terminal.ended() in [signal.Signals[name] for name in way.split()]
        assert terminal.said.replace("\n", " ") == waits
    assert b"Traceback" not in terminal.written
    assert b"Unhandled" not in terminal.written


@pytest.mark.parametrize("way", WAYS)
def test_print_that_is_edited_is_offered_again(moon: Path, at: Open, way: str) -> None:
    terminal = at(moon)
    terminal.wait("? shows the keys.")
    terminal.keys("s")
    terminal.wait("kept: paragraph 1 struck")
    terminal.keys("down", "enter", "Oh, ")
    terminal.wait("Oh, The Tides")
    close(terminal, way)
    check_has_ended(terminal, way, WAITS)
    with once_free(moon) as session:
        assert session.last_version == 8 and session.print_of(2) == "The Tides"
    again = at(moon)
    again.wait("further? y is yes, n is no.")
    again.answer("y")
    again.wait("Oh, The Tides")
    again.keys("enter")
    again.wait("kept: correction 1 of paragraph 2")
    assert Drafts(moon).waiting() is None


@pytest.mark.parametrize("way", WAYS)
@pytest.mark.parametrize("far", [READ, KEPT])
def test_a_command_that_waits_for_its_reply_is_kept(
    moon: Path, at: Open, far: str, way: str
) -> None:
    queue = moon.parent / "queue"
    os.mkfifo(queue)
    terminal = at(moon, **standing_in(1, far, WAIT, str(queue)))
    terminal.wait("? shows the keys.")
    terminal.keys("enter", "Oh, ", "enter")
    # until the command is under way, and then until the stand-in goes on
    queue.read_bytes()
    close(terminal, way)
    queue.write_bytes(b"")
    check_has_ended(terminal, way)
    with once_free(moon) as session:
        assert (
            session.last_version == 8
            and session.print_of(1) == "Oh, The moon is far away."
        )
    again = at(moon)
    lines = again.wait("? shows the keys.")
    assert lines[0] == "moon.braildesk, version 8, table en, nothing kept yet"


def test_a_note_that_is_typed_is_offered_again_on_its_cells(
    moon: Path, at: Open
) -> None:
    terminal = at(moon)
    terminal.wait("? shows the keys.")
    terminal.keys("down", " ", "right", "right", "m", "which?")
    terminal.wait("Note of the mark: which?")
    terminal.hang_up()
    check_has_ended(terminal, HUNG_UP)
    again = at(moon)
    lines = again.wait("further? y is yes, n is no.")
    assert (
        "A note for a mark in paragraph 2 was typed and isn't in the book: “which?”."
        in (" ".join(lines))
    )
    again.answer("y")
    again.wait("Note of the mark: which?")
    again.keys("enter")
    again.wait("kept: mark 2")
    again.keys("q")
    assert again.ended() == 0
    with once_free(moon) as session:
        (mark,) = session.marks_of(2)
        assert session.print_of(2)[mark.start : mark.stop] == "Th"


@pytest.mark.parametrize("way", WAYS)
def test_what_was_cut_out_of_a_print_that_is_kept_is_put_in_elsewhere_after_the_end(
    moon: Path, at: Open, way: str
) -> None:
    terminal = at(moon)
    terminal.wait("? shows the keys.")
    terminal.keys("down", "enter", "end", "c-w")
    terminal.wait("“Tides” was cut. Ctrl-Y puts it in.")
    terminal.keys("enter")
    terminal.wait("kept: correction 1 of paragraph 2")
    close(terminal, way)
    check_has_ended(terminal, way)
    # as often as it is wanted, until something else is cut
    for _ in range(2):
        again = at(moon)
        again.wait("? shows the keys.")
        again.keys("o", "c-y")
        again.wait("Tides")
        again.keys("escape", "q")
        assert again.ended() == 0


def test_what_was_cut_is_put_in_also_after_an_end_by_a_key(
    moon: Path, at: Open
) -> None:
    terminal = at(moon)
    terminal.wait("? shows the keys.")
    terminal.keys("o", "It rose.")
    terminal.wait("It rose.")
    terminal.keys("c-w")
    terminal.wait("“rose.” was cut. Ctrl-Y puts it in.")
    terminal.keys("escape", "q")
    assert terminal.ended() == 0
    again = at(moon)
    again.wait("? shows the keys.")
    again.keys("o", "c-y")
    again.wait("rose.")
    again.keys("escape", "q")
    assert again.ended() == 0


def test_what_was_cut_is_kept_also_where_a_text_is_asked_about_first(
    moon: Path, at: Open
) -> None:
    terminal = at(moon)
    terminal.wait("? shows the keys.")
    terminal.keys("o", "It rose.")
    terminal.wait("It rose.")
    terminal.keys("c-w", "Yes")
    terminal.wait("It Yes")
    terminal.hang_up()
    check_has_ended(terminal, HUNG_UP)
    again = at(moon)
    again.wait("further? y is yes, n is no.")
    again.answer("n")
    again.wait("Given up")
    again.keys("q")
    assert again.ended() == 0
    assert Drafts(moon).cut() == "rose."


def test_lines_that_were_pasted_and_not_answered_for_are_asked_about_again(
    moon: Path, at: Open
) -> None:
    terminal = at(moon)
    terminal.wait("? shows the keys.")
    terminal.keys("o")
    terminal.wait("New paragraph after paragraph 1")
    terminal.paste("It rose.\nIt set.\n")
    terminal.wait("Are they 2 paragraphs? y is yes, n is no.")
    terminal.hang_up()
    check_has_ended(terminal, HUNG_UP)
    again = at(moon)
    again.wait("further? y is yes, n is no.")
    again.answer("y")
    again.wait("Are they 2 paragraphs? y is yes, n is no.")
    again.answer("y")
    again.wait("kept: paragraph 5")
    again.keys("escape", "q")
    assert again.ended() == 0
    with once_free(moon) as session:
        prints = [session.print_of(each.id) for each in session.paragraphs()]
    assert prints[1:3] == ["It rose.", "It set."]


def test_a_question_about_a_text_stays_where_it_isnt_answered(
    moon: Path, at: Open
) -> None:
    terminal = at(moon)
    terminal.wait("? shows the keys.")
    terminal.keys("enter", "Oh, ")
    terminal.wait("Oh, The moon is far away.")
    terminal.hang_up()
    check_has_ended(terminal, HUNG_UP)
    for way in WAYS:
        again = at(moon)
        again.wait("further? y is yes, n is no.")
        close(again, way)
        check_has_ended(again, way, WAITS)
    again = at(moon)
    again.wait("further? y is yes, n is no.")
    os.kill(again.program(), signal.SIGKILL)
    again.wait("The book was opened again")
    close(again, HUNG_UP)
    check_has_ended(again, HUNG_UP)
    waits = Drafts(moon).waiting()
    assert waits and waits.text == "Oh, The moon is far away."


def failing(folder: Path, failure: str) -> dict[str, str]:
    """The settings by which text that is pasted fails in a way that nobody foresaw."""
    (folder / "sitecustomize.py").write_text(
        "import errno, os\n"
        "from scribe.screen.desk import Desk\n\n"
        "def paste(self, state, text, is_keys=False):\n"
        f"    raise {failure}\n\n"
        "Desk.paste = paste\n"
    )
    return {"PYTHONPATH": f"{folder}:{ROOT / 'src'}"}


@pytest.mark.parametrize("code", ["ENOSPC", "EIO"])
def test_what_the_system_refuses_is_said_and_the_screen_stays(
    moon: Path, at: Open, code: str
) -> None:
    failure = f"OSError(errno.{code}, os.strerror(errno.{code}))"
    terminal = at(moon, **failing(moon.parent, failure))
    terminal.wait("? shows the keys.")
    terminal.paste("The sun")
    terminal.wait("The system failed: ")
    terminal.keys("s")
    terminal.wait("kept: paragraph 1 struck")
    # what came with it isn't lost
    terminal.keys("U")
    terminal.wait("set aside: “The sun”.")
    terminal.keys("n")
    terminal.wait("It stays set")
    terminal.keys("q")
    assert terminal.ended() == 0
    assert terminal.said == ""


@pytest.mark.parametrize("code", ["ENOSPC", "EIO"])
def test_what_the_system_refuses_beside_the_keys_is_said_and_the_screen_stays(
    moon: Path, at: Open, code: str
) -> None:
    folder = moon.parent
    # the place is kept once the cursor rests, and then again
    (folder / "sitecustomize.py").write_text(
        "import errno, os\n"
        "from scribe.screen.desk import Desk\n\n"
        "kept = Desk.keep_place\n\n"
        "def keep_place(self, state):\n"
        "    Desk.keep_place = kept\n"
        f"    raise OSError(errno.{code}, os.strerror(errno.{code}))\n\n"
        "Desk.keep_place = keep_place\n"
    )
    terminal = at(moon, PYTHONPATH=f"{folder}:{ROOT / 'src'}")
    terminal.wait("The system failed: ")
    terminal.keys("s")
    terminal.wait("kept: paragraph 1 struck")
    terminal.keys("q")
    assert terminal.ended() == 0
    assert terminal.said == ""


def test_a_fault_of_scribe_ends_the_screen_in_words_and_keeps_what_is_typed(
    moon: Path, at: Open
) -> None:
    settings = failing(moon.parent, "KeyError('moon')")
    terminal = at(moon, XDG_STATE_HOME=str(moon.parent / "state"), **settings)
    terminal.wait("? shows the keys.")
    terminal.keys("enter", *"Oh, ")
    terminal.wait("Oh, The moon is far away.")
    terminal.paste("The sun")
    assert terminal.ended() == 3
    assert terminal.said.replace("\n", " ").startswith(
        "scribe has a fault of its own and stopped (KeyError, sitecustomize.py line 5). What was"
        " reported as kept is in the book,"
    )
    assert b"Traceback" not in terminal.written
    again = at(moon, XDG_STATE_HOME=str(moon.parent / "state"))
    again.wait("further? y is yes, n is no.")


def test_a_fault_of_scribe_beside_the_screen_keeps_what_was_pasted_meanwhile(
    moon: Path, at: Open
) -> None:
    folder = moon.parent
    (folder / "sitecustomize.py").write_text(
        "import os, time\n"
        "from scribe.screen.desk import Desk\n\n"
        "def away(self, state, report):\n"
        "    while not os.path.exists('go'):\n"
        "        time.sleep(0.01)\n"
        "    raise KeyError('moon')\n\n"
        "Desk.away = away\n"
    )
    # the text is kept nowhere before the end
    terminal = at(
        moon,
        PYTHONPATH=f"{folder}:{ROOT / 'src'}",
        XDG_STATE_HOME="/proc/nowhere",
    )
    terminal.wait("? shows the keys.")
    terminal.keys("x", "pages", "enter")
    terminal.wait("Please wait.")
    terminal.paste("The sun")
    terminal.await_read()
    (folder / "go").touch()
    assert terminal.ended() == 3
    said = terminal.said.replace("\n", " ")
    assert "This was given up, and is kept nowhere: The sun" in said
    assert "scribe has a fault of its own and stopped" in said


def test_a_text_that_can_not_be_kept_is_said_also_where_scribe_has_a_fault(
    moon: Path, at: Open
) -> None:
    settings = failing(moon.parent, "KeyError('moon')")
    terminal = at(moon, XDG_STATE_HOME="/proc/nowhere", **settings)
    terminal.wait("? shows the keys.")
    terminal.keys("enter", *"Oh, ")
    terminal.wait("Oh, The moon is far away.")
    terminal.paste("The sun")
    assert terminal.ended() == 3
    said = terminal.said.replace("\n", " ")
    assert "This was typed: Oh, The moon is far away. scribe has a fault" in said


def test_a_text_that_can_not_be_kept_at_the_end_is_said(moon: Path, at: Open) -> None:
    terminal = at(moon, XDG_STATE_HOME="/proc/nowhere")
    terminal.wait("? shows the keys.")
    terminal.keys("enter", "Oh, ")
    terminal.wait("Oh, The moon is far away.")
    # without another key
    terminal.wait("What is typed can't be kept in /proc/nowhere/braildesk: ")
    terminal.send_signal(signal.SIGTERM)
    assert terminal.ended() == -signal.SIGTERM
    said = terminal.said.replace("\n", " ")
    assert said.startswith("What is typed can't be kept in /proc/nowhere/braildesk: ")
    assert said.endswith(" This was typed: Oh, The moon is far away. ")


@pytest.mark.parametrize("is_by_key", [True, False])
def test_what_was_cut_and_can_not_be_kept_at_the_end_is_said(
    moon: Path, at: Open, is_by_key: bool
) -> None:
    terminal = at(moon, XDG_STATE_HOME="/proc/nowhere")
    terminal.wait("? shows the keys.")
    terminal.keys("down", "enter", "end", "c-w")
    terminal.wait("“Tides” was cut. Ctrl-Y puts it in.")
    terminal.keys("enter")
    terminal.wait("kept: correction 1 of paragraph 2")
    if is_by_key:
        terminal.keys("q")
        assert terminal.ended() == 0
    else:
        terminal.send_signal(signal.SIGTERM)
        assert terminal.ended() == -signal.SIGTERM
    said = terminal.said.replace("\n", " ")
    assert "What is cut out of it can't be kept in /proc/nowhere/braildesk: " in said
    assert said.endswith(" This was cut: Tides ")


def test_what_was_cut_is_said_after_what_is_typed_where_neither_can_be_kept(
    moon: Path, at: Open
) -> None:
    terminal = at(moon, XDG_STATE_HOME="/proc/nowhere")
    terminal.wait("? shows the keys.")
    terminal.keys("down", "enter", "end", "c-w")
    terminal.wait("“Tides” was cut. Ctrl-Y puts it in.")
    terminal.send_signal(signal.SIGTERM)
    assert terminal.ended() == -signal.SIGTERM
    assert terminal.said.endswith("This was typed:\nThe \nThis was cut:\nTides\n")


def test_pasted_lines_that_can_not_be_kept_at_the_end_are_said(
    moon: Path, at: Open
) -> None:
    terminal = at(moon, XDG_STATE_HOME="/proc/nowhere")
    terminal.wait("? shows the keys.")
    terminal.keys("o")
    terminal.wait("New paragraph after paragraph 1")
    terminal.paste("It rose.\nIt set.")
    terminal.wait("Are they 2 paragraphs? y is yes, n is no.")
    terminal.send_signal(signal.SIGTERM)
    assert terminal.ended() == -signal.SIGTERM
    assert terminal.said.endswith("This was typed:\nIt rose.\nIt set.\n")


@pytest.mark.parametrize("is_seen", [True, False])
def test_a_text_that_can_not_be_kept_is_said_beside_where_a_book_was_saved_without_it(
    moon: Path, at: Open, is_seen: bool
) -> None:
    terminal = at(moon, XDG_STATE_HOME="/proc/nowhere")
    terminal.wait("? shows the keys.")
    terminal.keys("s")
    terminal.wait("kept: paragraph 1 struck")
    terminal.keys("down", "enter", "Oh, ")
    terminal.wait("Oh, The Tides")
    moon.unlink()
    if is_seen:
        terminal.keys("enter")
        terminal.wait("Enter opens what is at the path")
    terminal.send_signal(signal.SIGTERM)
    assert terminal.ended() == 3
    # a path may be parted at the end of a line
    said = "".join(terminal.said.split())
    assert f"isinthenewfile“{moon}-saved-1”." in said
    assert said.count("Oh,TheTides") == (0 if is_seen else 1)
    assert ("Whatwastypedbythenisinit." in said) is is_seen
    assert ("can'tbekept" in said) is not is_seen


def test_of_a_file_where_all_of_a_book_was_saved_it_is_said_at_the_end_if_it_is_gone(
    moon: Path, at: Open
) -> None:
    terminal = at(moon, 160)
    terminal.wait("? shows the keys.")
    moon.unlink()
    terminal.keys("s")
    terminal.wait("Enter opens what is at the path  q ends")
    saved = moon.with_name(f"{moon.name}-saved-1")
    # as who goes on with it does
    saved.rename(moon)
    terminal.answer("q")
    assert terminal.ended() == 3
    # a path may be parted at the end of a line
    now, before = "".join(terminal.said.split()).split("thiswasreported:")
    assert now.endswith(f"Nofileisat“{saved}”anymore.Whileonewasthere,")
    assert f"isinthenewfile“{saved}”." in before


def test_who_types_on_where_the_session_ends_does_not_end_scribe(
    moon: Path, at: Open
) -> None:
    terminal = at(moon, 160)
    terminal.wait("? shows the keys.")
    terminal.keys("o", "It rose.")
    terminal.wait("It rose.")
    moon.unlink()
    terminal.send("\rq")
    terminal.wait("Enter opens what is at the path  q ends")
    terminal.wait(
        "That key came before the question could be read, and was no answer to it."
    )
    terminal.answer("q")
    assert terminal.ended() == 3
    # a path may be parted at the end of a line
    assert f"isinthenewfile“{moon}-saved-1”." in "".join(terminal.said.split())


def test_what_is_typed_on_where_the_session_ends_is_kept_from_its_first_letter_on(
    moon: Path, at: Open
) -> None:
    terminal = at(moon, 160)
    terminal.wait("? shows the keys.")
    terminal.keys("o", "It rose.")
    terminal.wait("It rose.")
    moon.unlink()
    # over a network keys may come together
    terminal.send("\rI")
    terminal.type_on("t set.")
    terminal.wait("Enter opens what is at the path  q ends")
    terminal.wait("No key of that text was obeyed.")
    assert [each.text for each in Drafts(moon).given_up()] == ["It set."]


def test_what_is_typed_on_where_a_text_is_offered_is_kept_from_its_first_letter_on(
    moon: Path, at: Open
) -> None:
    terminal = at(moon, 160, **standing_in(1, READ, SEND, "strike", "2"))
    terminal.wait("? shows the keys.")
    terminal.keys("o", "It rose.")
    terminal.wait("It rose.")
    terminal.send("\rI")
    terminal.type_on("t set.")
    terminal.wait("What was typed at the question is set aside: “It set.”.")
    terminal.wait("Shall it be typed further? y is yes, n is no.")
    waiting = Drafts(moon).waiting()
    assert waiting and waiting.text == "It rose."


def written(file: TextIO) -> None:
    """Writes to a terminal, and then has what is left written where nothing is refused."""
    output = Output.from_pty(file, term="xterm")
    output.write_raw("x")
    try:
        output.flush()
    finally:
        with open(os.devnull, "w") as nothing:
            os.dup2(nothing.fileno(), file.fileno())


def test_a_terminal_hung_up_only_where_writing_it_says_so() -> None:
    master, slave = os.openpty()
    os.close(master)
    with open(slave, "w") as closed, pytest.raises(HungUp):
        written(closed)
    with open("/dev/full", "w") as full, pytest.raises(TerminalFailed) as failed:
        written(full)
    assert failed.value.failure.errno == errno.ENOSPC
