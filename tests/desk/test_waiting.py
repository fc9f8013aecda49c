"""What is said while the program of a session doesn't answer, and what becomes of keys meanwhile."""

import os
import signal
import time
from io import BytesIO, StringIO
from pathlib import Path
from threading import Event, Thread

import pytest

from braildesk import Session
from braildesk.desk.draft import Aim, Draft
from braildesk.desk.drafts import Drafts

from scribe.cli import run_words
from scribe.screen.actions import ImportFrom
from scribe.screen.background import done_in_background
from scribe.screen.desk import Desk
from scribe.words.console import Console
from terminal import Open, Terminal, once_free
from tool import WAIT_SECONDS

pytestmark = pytest.mark.usefixtures("hurried")

WAITING = "Waiting for braildesk to answer."


class Followed(StringIO):
    """Standard error that a person follows."""

    def isatty(self) -> bool:
        return True


@pytest.fixture
def slow(moon: Path, program: str, monkeypatch: pytest.MonkeyPatch) -> Path:
    """A book whose program takes more than two seconds to begin."""
    path = moon.with_name("slow")
    path.write_text(f'#!/bin/sh\nsleep 2.5\nexec "{program}" "$@"\n')
    path.chmod(0o755)
    monkeypatch.setenv("BRAILDESK", str(path))
    return moon


@pytest.mark.parametrize("words", [["show"], ["strike", "1"], ["run"], ["talk"]])
@pytest.mark.parametrize("errors, wanted", [(Followed, 1), (StringIO, 0)])
def test_a_command_says_once_that_it_waits_if_a_person_follows_it(
    slow: Path, words: list[str], errors: type[StringIO], wanted: int
) -> None:
    name, *others = words
    said = errors()
    console = Console(BytesIO(b""), StringIO(), said)
    assert run_words([name, str(slow), *others], console) == 0
    assert said.getvalue().splitlines().count(WAITING) == wanted


def test_an_import_says_that_it_waits(slow: Path) -> None:
    text = slow.with_name("text.txt")
    text.write_text("The sun\n")
    errors = Followed()
    console = Console(BytesIO(b""), StringIO(), errors)
    assert run_words(["import", str(slow), str(text)], console) == 0
    assert errors.getvalue().splitlines().count(WAITING) == 1


def test_what_is_said_of_an_import_beside_the_screen_is_no_more_that_it_waits(
    slow: Path,
) -> None:
    text = slow.with_name("text.txt")
    text.write_text("The sun\n")
    heard: list[str] = []
    wanted = ImportFrom(text, "end", "en")
    done = done_in_background(slow, wanted, heard.append, lambda: None)
    assert done.lines == ("1 paragraph typed, number 4, by the table en.",)
    assert WAITING in heard


def test_what_is_said_of_an_import_beside_the_screen_is_no_more_how_far_it_was(
    moon: Path, monkeypatch: pytest.MonkeyPatch
) -> None:
    monkeypatch.setattr("scribe.words.console.PROGRESS_SECONDS", 0.0)
    text = moon.with_name("text.txt")
    text.write_text("The sun\n\nThe sea\n")
    heard: list[str] = []
    wanted = ImportFrom(text, "end", "en")
    done = done_in_background(moon, wanted, heard.append, lambda: None)
    assert done.lines == ("2 paragraphs typed, numbers 4 to 5, by the table en.",)
    assert "1 of 2 paragraphs typed." in heard


def test_what_others_typed_while_the_screen_waited_for_the_book_is_taken_up(
    moon: Path,
) -> None:
    is_open = Event()

    def type_and_leave() -> None:
        with Session(moon):
            is_open.set()
            time.sleep(0.5)
            Drafts(moon).save(Draft(Aim.AFTER, 1, "plain.utb", "", "It rose."))

    other = Thread(target=type_and_leave)
    other.start()
    is_open.wait()
    desk = Desk(moon, WAIT_SECONDS)
    other.join()
    try:
        assert desk.has_waiting
    finally:
        desk.close()


def test_the_screen_says_that_it_waits_and_keeps_the_keys(moon: Path, at: Open) -> None:
    terminal = at(moon, 40, 12)
    terminal.wait("? shows the keys.")
    program = terminal.program()
    os.kill(program, signal.SIGSTOP)
    terminal.keys("down")
    lines = terminal.wait(WAITING)
    assert WAITING in lines
    # Ctrl-C is a key here that does nothing
    terminal.send("\x03")
    terminal.keys("down", "enter")
    terminal.type_on("No, ")
    os.kill(program, signal.SIGCONT)
    lines = terminal.wait("No, Twice a day the sea comes up.")
    assert WAITING not in " ".join(lines)


def test_a_screen_that_is_made_smaller_says_that_it_waits_and_takes_escape_as_that_key(
    moon: Path, at: Open
) -> None:
    terminal = at(moon)
    terminal.wait("? shows the keys.")
    terminal.keys("o", *"It rose.")
    terminal.wait("It rose.")
    terminal.settle()
    program = terminal.program()
    os.kill(program, signal.SIGSTOP)
    # no key was read by which the terminal would be read to its end
    terminal.resize(70, 20)
    terminal.wait(WAITING)
    terminal.send("\x1b")
    terminal.await_read()
    os.kill(program, signal.SIGCONT)
    terminal.wait("Given up. The book is as it was.")


def test_a_signal_ends_the_screen_while_it_waits_and_what_is_typed_is_kept(
    moon: Path, at: Open
) -> None:
    terminal = at(moon)
    terminal.wait("? shows the keys.")
    terminal.keys("enter", *"Oh, ")
    terminal.wait("Oh, The moon is far away.")
    os.kill(terminal.program(), signal.SIGSTOP)
    terminal.keys("enter")
    terminal.wait(WAITING)
    terminal.send_signal(signal.SIGTERM)
    assert terminal.ended() == 3
    said = " ".join(terminal.said.split())
    assert said.startswith("braildesk didn't answer any more, and was ended.")
    assert said.endswith("is offered when the book is next opened.")
    waits = Drafts(moon).waiting()
    assert waits and waits.text == "Oh, The moon is far away."
    once_free(moon).close()


def end(terminal: Terminal, is_closed: bool) -> None:
    """Closes the terminal of a scribe that waits, once it has read the keys, or tells it to end."""
    terminal.await_read()
    if is_closed:
        terminal.hang_up()
        assert terminal.left() == 3
    else:
        terminal.send_signal(signal.SIGTERM)
        assert terminal.ended() == 3


@pytest.mark.parametrize("typed_on", ["It stood.\rIt set.", "ab\r"])
@pytest.mark.parametrize("is_closed", [False, True])
def test_what_is_typed_on_after_enter_while_the_screen_waits_is_kept_as_other_paragraphs(
    moon: Path, at: Open, typed_on: str, is_closed: bool
) -> None:
    terminal = at(moon)
    terminal.wait("? shows the keys.")
    terminal.keys("o", *"It rose.")
    terminal.wait("It rose.")
    os.kill(terminal.program(), signal.SIGSTOP)
    terminal.keys("enter")
    terminal.wait(WAITING)
    terminal.send(typed_on)
    end(terminal, is_closed)
    waits = Drafts(moon).waiting()
    assert waits and waits.text.split("\n") == [
        "It rose.",
        *typed_on.strip().split("\r"),
    ]
    once_free(moon).close()


@pytest.mark.parametrize("keys", [["down"], ["enter", *"Oh, ", "enter"]])
@pytest.mark.parametrize("is_closed", [False, True])
def test_what_is_typed_for_a_new_paragraph_while_the_screen_waits_is_set_aside(
    moon: Path, at: Open, keys: list[str], is_closed: bool
) -> None:
    terminal = at(moon)
    terminal.wait("? shows the keys.")
    *first, last = keys
    terminal.keys(*first)
    terminal.settle()
    os.kill(terminal.program(), signal.SIGSTOP)
    terminal.keys(last)
    terminal.wait(WAITING)
    terminal.send("oThe sun rose.\r")
    end(terminal, is_closed)
    drafts = Drafts(moon)
    assert [each.text for each in drafts.given_up()] == ["oThe sun rose."]
    waits = drafts.waiting()
    assert (waits.text if waits else "") == (
        "Oh, The moon is far away." if first else ""
    )
    once_free(moon).close()


def await_kept(drafts: Drafts, text: str) -> None:
    """Waits until a text that came while the screen waits is kept."""
    end_at = time.monotonic() + WAIT_SECONDS
    while (kept := drafts.unread()) is None or text not in kept.text_of_all:
        assert time.monotonic() < end_at, kept
        time.sleep(0.05)


def killed_while_waiting(moon: Path, at: Open, typed_on: str, *keys: str) -> None:
    """Presses keys of which the last is not answered, types on, and kills scribe once that is kept."""
    terminal = at(moon)
    terminal.wait("? shows the keys.")
    *first, last = keys
    terminal.keys(*first)
    terminal.settle()
    program = terminal.program()
    os.kill(program, signal.SIGSTOP)
    try:
        terminal.keys(last)
        terminal.wait(WAITING)
        terminal.send(typed_on)
        await_kept(Drafts(moon), typed_on.strip().replace("\r", "\n"))
        terminal.send_signal(signal.SIGKILL)
        terminal.left()
    finally:
        os.kill(program, signal.SIGKILL)


def test_what_is_typed_on_while_the_screen_waits_outlives_a_kill_as_other_paragraphs(
    moon: Path, at: Open
) -> None:
    keys = ("o", *"It rose.", "enter")
    killed_while_waiting(moon, at, "It stood.\rIt set.", *keys)
    once_free(moon).close()
    again = at(moon)
    asked = " ".join(" ".join(again.wait("l leaves it for later.")).split())
    assert "“It rose. It stood. It set.”" in asked
    again.answer("y")
    again.wait("What is typed has 3 lines.")
    again.answer("y")
    again.wait("last kept: paragraph 6")
    again.keys("escape", "q")
    assert again.ended() == 0
    with once_free(moon) as session:
        prints = [session.print_of(each.id) for each in session.paragraphs()]
    assert prints[1:4] == ["It rose.", "It stood.", "It set."]
    assert (Drafts(moon).waiting(), Drafts(moon).unread()) == (None, None)


@pytest.mark.parametrize("keys", [["down"], ["enter", *"Oh, ", "enter"]])
def test_what_is_typed_for_a_new_paragraph_while_the_screen_waits_outlives_a_kill(
    moon: Path, at: Open, keys: list[str]
) -> None:
    killed_while_waiting(moon, at, "oThe sun rose.\r", *keys)
    once_free(moon).close()
    again = at(moon)
    lines = " ".join(again.wait("set aside: "))
    said = "What was typed while scribe was busy is set aside: “oThe sun rose.”."
    assert said in " ".join(lines.split())
    assert [each.text for each in Drafts(moon).given_up()] == ["oThe sun rose."]
    waits = Drafts(moon).waiting()
    assert (waits.text if waits else "") == (
        "Oh, The moon is far away." if keys[1:] else ""
    )


def test_what_came_while_the_screen_waited_is_kept_no_more_once_it_is_taken_in(
    moon: Path, at: Open
) -> None:
    terminal = at(moon)
    terminal.wait("? shows the keys.")
    terminal.keys("o", *"It rose.")
    terminal.settle()
    program = terminal.program()
    os.kill(program, signal.SIGSTOP)
    terminal.keys("enter")
    terminal.wait(WAITING)
    terminal.type_on("It set.")
    drafts = Drafts(moon)
    await_kept(drafts, "It set.")
    os.kill(program, signal.SIGCONT)
    terminal.wait("It set.")
    terminal.keys("enter")
    terminal.wait("last kept: paragraph 5")
    assert (drafts.unread(), drafts.waiting(), drafts.given_up()) == (None, None, ())


@pytest.mark.parametrize(
    "letters, said",
    [
        ("n", "The last key wasn't obeyed: “n”."),
        ("nbv", "The last keys weren't obeyed: “nbv”."),
        (
            "jnbv",
            "The last keys weren't obeyed: “jnbv”. They are kept as a text, which U brings back.",
        ),
    ],
)
def test_keys_that_came_while_the_screen_waited_are_said_not_to_be_obeyed(
    moon: Path, at: Open, letters: str, said: str
) -> None:
    terminal = at(moon)
    terminal.wait("? shows the keys.")
    os.kill(terminal.program(), signal.SIGSTOP)
    terminal.keys("s")
    terminal.wait(WAITING)
    terminal.send(letters)
    terminal.await_read()
    terminal.send_signal(signal.SIGTERM)
    assert terminal.ended() == 3
    assert said in " ".join(terminal.said.split())
    assert "asted" not in terminal.said
    kept = [each.text for each in Drafts(moon).given_up()]
    assert kept == ([letters] if len(letters) > 3 else [])
    with once_free(moon) as session:
        assert [each.style.value for each in session.paragraphs()][1] == "body"


def test_what_has_to_be_said_is_said_also_if_the_book_is_slow_to_be_closed(
    moon: Path, at: Open
) -> None:
    terminal = at(moon)
    terminal.wait("? shows the keys.")
    os.kill(terminal.program(), signal.SIGSTOP)
    # the end of the paste never comes
    terminal.send("\x1b[200~It rose.")
    terminal.await_read()
    terminal.send_signal(signal.SIGTERM)
    assert terminal.ended() == -signal.SIGTERM
    assert "U brings it back" in terminal.said


def test_what_is_said_after_the_waiting_is_not_taken_away_by_keys_that_came_before(
    moon: Path, at: Open
) -> None:
    terminal = at(moon)
    terminal.wait("? shows the keys.")
    terminal.keys("o", *"It rose.")
    terminal.settle()
    program = terminal.program()
    os.kill(program, signal.SIGSTOP)
    terminal.keys("enter")
    terminal.wait(WAITING)
    terminal.type_on("It set.")
    terminal.await_read()
    os.kill(program, signal.SIGKILL)
    terminal.wait("It rose. It set.")
    terminal.settle()
    terminal.wait("The session was ended by signal 9.")
    # the next key takes it away, once that could be read
    time.sleep(0.5)
    terminal.keys("left")
    terminal.wait_gone("was ended")


def test_what_is_typed_on_while_enter_fails_is_another_line(
    moon: Path, at: Open
) -> None:
    terminal = at(moon)
    terminal.wait("? shows the keys.")
    terminal.keys("o", *"It rose.")
    terminal.settle()
    program = terminal.program()
    os.kill(program, signal.SIGSTOP)
    terminal.keys("enter")
    terminal.wait(WAITING)
    terminal.type_on("It set.")
    drafts = Drafts(moon)
    await_kept(drafts, "It set.")
    os.kill(program, signal.SIGKILL)
    terminal.wait("Are they 2 paragraphs?")
    terminal.keys("enter")
    terminal.settle()
    terminal.answer("y")
    terminal.wait("last kept: paragraph 5")
    terminal.keys("escape", "q")
    assert terminal.ended() == 0
    with once_free(moon) as session:
        assert [session.print_of(number) for number in (4, 5)] == [
            "It rose.",
            "It set.",
        ]


@pytest.mark.parametrize("typed_on", ["It was late.\r", "ab"])
@pytest.mark.parametrize("count", [0, 2])
def test_what_is_typed_on_after_a_few_pasted_lines_is_another_line_if_scribe_is_told_to_end(
    moon: Path, at: Open, typed_on: str, count: int
) -> None:
    terminal = at(moon)
    terminal.wait("? shows the keys.")
    lines = ["It rose.", "It stood.", "It set."]
    terminal.keys("o", "\n".join(lines))
    terminal.wait("Are they 3 paragraphs?")
    terminal.settle()
    # as long as it takes to read that
    time.sleep(0.5)
    os.kill(terminal.program(), signal.SIGSTOP)
    # some of it may be read with the answer
    terminal.send(f"y{typed_on[:count]}")
    terminal.wait(WAITING)
    terminal.send(typed_on[count:])
    terminal.await_read()
    terminal.send_signal(signal.SIGTERM)
    assert terminal.ended() != 0
    waits = Drafts(moon).waiting()
    assert waits and waits.text.split("\n") == [*lines, typed_on.strip()]
    once_free(moon).close()


def test_both_parts_of_a_text_that_is_too_long_wait_if_scribe_is_told_to_end(
    moon: Path, at: Open
) -> None:
    terminal = at(moon)
    terminal.wait("? shows the keys.")
    terminal.keys("o", " ".join(f"This is sentence {n}." for n in range(1, 251)))
    terminal.wait("This is sentence 250.")
    terminal.keys("enter")
    terminal.wait("and this one has")
    terminal.settle()
    # as long as it takes to read that
    time.sleep(0.5)
    os.kill(terminal.program(), signal.SIGSTOP)
    terminal.send("y")
    terminal.wait(WAITING)
    terminal.send("It set.")
    terminal.await_read()
    terminal.send_signal(signal.SIGTERM)
    assert terminal.ended() != 0
    waits = Drafts(moon).waiting()
    assert waits and len(waits.text) > 4_000
    first, rest, last = waits.text.split("\n")
    assert len(first) <= 4_000
    assert rest.endswith("This is sentence 250.")
    assert last == "It set."
    once_free(moon).close()


def test_what_keys_made_untrue_is_said_to_be_of_before(moon: Path, at: Open) -> None:
    terminal = at(moon)
    terminal.wait("? shows the keys.")
    program = terminal.program()
    os.kill(program, signal.SIGSTOP)
    terminal.keys("s")
    terminal.wait(WAITING)
    # Enter finds it struck, and the letter after that restores it
    for key in ("\r", "s"):
        terminal.send(key)
        time.sleep(0.06)
    terminal.await_read()
    os.kill(program, signal.SIGCONT)
    terminal.wait("paragraph 1 restored")
    terminal.settle()
    lines = " ".join(" ".join(terminal.lines).split())
    assert "Before the last keys this was said: Paragraph 1 is struck." in lines


@pytest.mark.parametrize("seconds, is_left", [(1_000.0, True), (0.0, False)])
def test_what_was_not_done_is_said_until_it_could_be_read(
    moon: Path,
    at: Open,
    monkeypatch: pytest.MonkeyPatch,
    seconds: float,
    is_left: bool,
) -> None:
    monkeypatch.setattr("scribe.screen.terminal.READING_SECONDS", seconds)
    terminal = at(moon)
    terminal.wait("? shows the keys.")
    refused = "has no correction that could be taken back."
    terminal.keys("down", "u")
    terminal.wait(refused)
    terminal.settle()
    terminal.keys("down")
    if is_left:
        terminal.wait("Before the last keys this was said: Paragraph 2")
        terminal.keys("up", "down")
        terminal.settle()
        assert refused in " ".join(" ".join(terminal.lines).split())
    else:
        terminal.wait_gone(refused)


REFUSED = "Paragraph 2 has no correction that could be taken back. Nothing was changed."


@pytest.mark.parametrize("size", [(80, 24), (40, 12), (40, 8), (40, 5), (40, 4)])
def test_what_was_not_done_is_said_before_what_the_next_key_says_until_it_could_be_read(
    moon: Path, at: Open, monkeypatch: pytest.MonkeyPatch, size: tuple[int, int]
) -> None:
    monkeypatch.setattr("scribe.screen.terminal.READING_SECONDS", 1_000.0)
    terminal = at(moon, *size)
    terminal.wait("? shows the keys.")
    terminal.keys("down", "u")
    terminal.wait("has no correction")
    terminal.settle()
    for _ in range(2):
        terminal.keys("f5")
        terminal.wait("key does nothing here" if size[1] > 4 else "has no correction")
        terminal.settle()
        said = " ".join(" ".join(terminal.lines).split())
        assert REFUSED.removesuffix(".") in said
        assert size[1] < 5 or f"{REFUSED} That key does nothing here." in said


@pytest.mark.parametrize("lines", [1, 2, 3])
def test_what_was_not_done_is_read_first_on_few_lines(
    moon: Path, at: Open, monkeypatch: pytest.MonkeyPatch, lines: int
) -> None:
    monkeypatch.setattr("scribe.screen.terminal.READING_SECONDS", 1_000.0)
    terminal = at(moon, 40, lines)
    terminal.wait("? shows the keys.")
    terminal.keys("down", "u")
    terminal.wait("Paragraph 2 has no correction that")
    terminal.settle()
    terminal.keys("f5")
    terminal.settle()
    terminal.wait("Paragraph 2 has no correction that")
    # what is said is read further by Down
    said = ""
    for _ in range(4):
        said += " ".join(terminal.lines)
        terminal.keys("down")
        terminal.settle()
    assert "That key does nothing here." in said


def test_what_was_not_done_is_said_of_before_where_the_next_keys_went_elsewhere(
    moon: Path, at: Open, monkeypatch: pytest.MonkeyPatch
) -> None:
    monkeypatch.setattr("scribe.screen.terminal.READING_SECONDS", 1_000.0)
    terminal = at(moon, 160)
    terminal.wait("? shows the keys.")
    terminal.keys("down", "u")
    terminal.wait(REFUSED)
    terminal.settle()
    before = f"Before the last keys this was said: {REFUSED}"
    terminal.keys("down")
    terminal.wait(before)
    terminal.keys("f5")
    terminal.wait(f"{before} Now: That key")
    # also where what is done is waited for
    terminal.keys("x", "pages", "enter")
    terminal.wait("Export. Lines")
    terminal.wait(before)


def test_what_was_done_is_said_until_the_next_key(
    moon: Path, at: Open, monkeypatch: pytest.MonkeyPatch
) -> None:
    monkeypatch.setattr("scribe.screen.terminal.READING_SECONDS", 1_000.0)
    terminal = at(moon)
    terminal.wait("? shows the keys.")
    terminal.keys("u")
    terminal.wait("Taken back: ")
    terminal.settle()
    terminal.keys("down")
    terminal.wait_gone("Taken back: ")
