"""Nothing that was typed is lost, and nothing is said to be kept that isn't, at any kill."""

import os
import signal
import subprocess
import sys
from collections.abc import Iterator
from contextlib import contextmanager
from pathlib import Path

import pytest
from PyQt6.QtCore import QTimer
from PyQt6.QtGui import QInputMethodEvent
from PyQt6.QtWidgets import QApplication, QPushButton, QWidget

from braildesk import DeskError, Session, Style
from braildesk.desk.draft import Aim, Draft
from braildesk.desk.drafts import Drafts

from scribe.window import dialogs
from scribe.words.console import WAITING

from conftest import Open, prints
from reader import PATIENCE_SECONDS, Reader
from test_cancelled import STAND_IN

# how what is said at the end of a window ends where something waits
_WAITS = "isn't in the book is kept, and is offered when the book is next opened."


def _waits(window: Reader, book: Path, text: str) -> None:
    """Waits until a text is kept as what waits."""

    def is_there() -> bool:
        found = Drafts(book).waiting()
        return found is not None and found.text == text

    window.until(f"“{text}” as what waits", is_there)


# after how many characters it is killed; after the last, Enter was pressed too
@pytest.mark.parametrize("typed", range(1, 11))
def test_killed_at_ten_moments(moon: Path, at: Open, typed: int) -> None:
    text = "A new one."
    window = at(moon)
    window.press("Ctrl+Return")
    window.focus("text", "Print")
    window.type(text[:typed])
    window.reads("Print", text[:typed])
    _waits(window, moon, text[:typed])
    if typed == len(text):
        window.press("Return")
    window.program.send_signal(signal.SIGKILL)
    window.program.wait()
    waiting = Drafts(moon).waiting()
    if text in (there := prints(moon)):
        assert typed == len(text) and there[1] == text
    else:
        version = 5
        its = Draft(Aim.AFTER, 1, "en", "", text[:typed], None, version)
        assert waiting == its


def test_a_killed_window_opens_where_it_was(moon: Path, at: Open) -> None:
    window = at(moon)
    window.press("F5", "Down", "F2", "End")
    window.caret("Print", len("The mon is far away."))

    def is_kept() -> bool:
        found = Drafts(moon).left_at()
        return found is not None and (found.paragraph, found.place) == (2, 20)

    window.until("where the window is", is_kept)
    window.program.send_signal(signal.SIGKILL)
    window.program.wait()
    again = at(moon)
    again.reads("Print", "The mon is far away.")
    again.reads("Message", "The book is open where it was left.")


def test_what_was_typed_is_offered_and_typed_further(moon: Path, at: Open) -> None:
    window = at(moon)
    window.press("F2")
    window.focus("text", "Print")
    window.press("End")
    window.caret("Print", 8)
    window.type(" and")
    _waits(window, moon, "The Moon and")
    window.program.send_signal(signal.SIGTERM)
    assert window.end() == -signal.SIGTERM
    assert prints(moon)[0] == "The Moon"

    again = at(moon, is_waited_for=False)
    again.top = again.dialog("Unsent text")
    asked = (
        "A text of paragraph 1 was typed and isn't in the book: “The Moon and”. Shall it be"
        " typed further?"
    )
    again.part("label", asked)
    again.press("Return")
    again.no_dialog()
    again.opened()
    again.reads("Print", "The Moon and")
    again.focus("text", "Print")
    again.press("Return")
    again.reads("Message", "Kept: correction 1 of paragraph 1.")
    again.until("nothing that waits", lambda: Drafts(moon).waiting() is None)
    again.press("Ctrl+q")
    assert again.end() == 0
    assert prints(moon)[0] == "The Moon and"


@pytest.mark.parametrize("text", ["Neu getippt", "gut", "later on", "to it"])
@pytest.mark.parametrize("end", [None, signal.SIGTERM, signal.SIGKILL])
def test_a_text_that_is_typed_at_an_offer_is_no_answer_to_it_and_is_set_aside(
    moon: Path, at: Open, text: str, end: signal.Signals | None
) -> None:
    soon = Draft(Aim.EDIT, 1, "en", "The Moon", "The Moon rose.", None, 5)
    Drafts(moon).save(soon)
    window = at(moon, is_waited_for=False)
    window.top = window.dialog("Unsent text")
    window.type(text)
    if end is None:
        # Enter belongs to the text, and a second one answers what does least
        window.press("Return")
        asked = (
            "A text of paragraph 1 was typed and isn't in the book: “The Moon rose.”. Shall it be"
            " typed further?"
        )
        no_answer = (
            "What is typed here is no answer. Tab goes to one, and Enter gives it."
        )
        window.part("label", f"{asked}\n\n{no_answer}")
        assert window.part("push button", "Later").get_description() == no_answer
        window.press("Return")
        window.no_dialog()
        window.opened()
        window.says(f" set aside: “{text}”. Ctrl+B brings it back.")
        window.press("Ctrl+q")
        assert window.end() == 0
    else:
        window.until("it is kept", lambda: _unread(moon) == text)
        window.program.send_signal(end)
        _, said = window.program.communicate(timeout=PATIENCE_SECONDS)
        assert window.program.returncode == -end
        assert (_WAITS in _joined(said)) == (end == signal.SIGTERM)
    window = at(moon, is_waited_for=False)
    window.top = window.dialog("Unsent text")
    window.press("Return")
    window.no_dialog()
    window.opened()
    if end is not None:
        is_typed = "What was typed where no text was asked for is set aside"
        window.says(f"{is_typed}: “{text}”. Ctrl+B brings it back.")
    window.reads("Print", "The Moon rose.")
    assert [each.text for each in Drafts(moon).given_up()] == [text]
    assert Drafts(moon).unread() is None


def test_a_text_that_is_asked_about_is_said_to_wait_where_a_signal_comes(
    moon: Path, at: Open
) -> None:
    soon = Draft(Aim.EDIT, 1, "en", "The Moon", "The Moon rose.", None, 5)
    Drafts(moon).save(soon)
    window = at(moon, is_waited_for=False)
    window.dialog("Unsent text")
    window.program.send_signal(signal.SIGTERM)
    _, said = window.program.communicate(timeout=PATIENCE_SECONDS)
    assert window.program.returncode == -signal.SIGTERM
    assert _joined(said).endswith(_WAITS)
    assert Drafts(moon).waiting() == soon


@pytest.mark.parametrize("is_typed", [False, True])
def test_what_waits_is_kept_again_at_the_end_where_its_folder_was_taken_away(
    moon: Path, at: Open, tmp_path: Path, is_typed: bool
) -> None:
    soon = Draft(Aim.EDIT, 1, "en", "The Moon", "The Moon rose.", None, 5)
    Drafts(moon).save(soon)
    window = at(moon, is_waited_for=False)
    window.dialog("Unsent text")
    window.press("Return" if is_typed else "Escape")
    window.no_dialog()
    window.opened()
    if is_typed:
        window.reads("Print", soon.text)
    else:
        window.says("The text waits.")
    (tmp_path / "state" / "braildesk").rename(tmp_path / "away")
    if is_typed:
        window.program.send_signal(signal.SIGTERM)
    else:
        window.press("Ctrl+q")
    assert window.end() == (-signal.SIGTERM if is_typed else 0)
    assert Drafts(moon).waiting() == soon


def _joined(said: bytes) -> str:
    return " ".join(said.decode().split())


def _unread(book: Path) -> str:
    found = Drafts(book).unread()
    return found.text_of_all if found is not None else ""


def test_an_offer_is_answered_by_keys_that_type_nothing(moon: Path, at: Open) -> None:
    soon = Draft(Aim.EDIT, 1, "en", "The Moon", "The Moon rose.", None, 5)
    for keys in (
        *(["Alt+g"], ["Tab", " "], ["x", "BackSpace", "Tab", "Return"]),
        # Space alone goes to the last answer
        [" ", "Tab", "Tab", "Return"],
    ):
        Drafts(moon).save(soon)
        window = at(moon, is_waited_for=False)
        window.top = window.dialog("Unsent text")
        window.press(*keys)
        window.no_dialog()
        window.opened()
        window.reads(
            "Message", "Given up. The book is as it was. Ctrl+B brings it back."
        )
        window.press("Ctrl+q")
        assert window.end() == 0
        assert [each.text for each in Drafts(moon).given_up()] == [soon.text]


def test_the_key_of_a_new_paragraph_is_no_answer_to_an_offer(
    moon: Path, at: Open
) -> None:
    soon = Draft(Aim.EDIT, 1, "en", "The Moon", "The Moon rose.", None, 5)
    Drafts(moon).save(soon)
    window = at(moon, is_waited_for=False)
    window.top = window.dialog("Unsent text")
    window.press("Ctrl+Return")
    window.type("It set. ")
    window.press("Return", "Return")
    window.no_dialog()
    window.opened()
    window.says(" set aside: “It set.”. Ctrl+B brings it back.")
    window.reads("Print", "The Moon")
    window.press("Ctrl+q")
    assert window.end() == 0
    waiting = Drafts(moon).waiting()
    assert waiting is not None and waiting.text == soon.text


def test_what_dead_keys_make_at_an_offer_belongs_to_the_text_typed_there(
    application: QApplication,
) -> None:
    typed: list[str] = []

    def type_there() -> None:
        button, box = application.focusWidget(), application.activeModalWidget()
        if box is None or not isinstance(button, QPushButton):
            QTimer.singleShot(10, type_there)
            return
        for part in ("caf", "é"):
            event = QInputMethodEvent()
            event.setCommitString(part)
            QApplication.sendEvent(button, event)
        box.close()

    QTimer.singleShot(0, type_there)
    answers = ("&Yes", "&Later")
    assert dialogs.offer(QWidget(), "Import", "Again?", answers, typed.append) == 1
    assert typed == ["caf", "café"]


def test_a_text_that_is_typed_at_the_offer_of_an_import_leaves_out_nothing_of_it(
    moon: Path, at: Open
) -> None:
    text = moon.with_name("text.txt")
    lines = [f"Line number {number} of the moon." for number in range(1, 601)]
    text.write_text("\n\n".join(lines))
    settings = {
        "BRAILDESK": str(STAND_IN),
        "STAND_IN_FOR": os.environ["BRAILDESK"],
        "STAND_IN_AT": "7 kept signal SIGTERM",
    }
    words = [sys.executable, "-m", "scribe", "import", str(moon), str(text)]
    ran = subprocess.run(words, env={**os.environ, **settings}, capture_output=True)
    assert ran.returncode == -signal.SIGTERM
    window = at(moon, is_waited_for=False)
    window.top = window.dialog("Import")
    window.type("rest")
    window.press("Return", "Return")
    window.no_dialog()
    window.opened()
    window.says("“rest”. Ctrl+B brings it back.")
    window.press("Ctrl+q")
    assert window.end() == 0
    # it is offered again, and what is said before that is said still once it is answered
    window = at(moon, is_waited_for=False)
    window.top = window.dialog("Import")
    window.type("It rose.")
    window.until("what was typed", lambda: _unread(moon) == "It rose.")
    window.program.send_signal(signal.SIGTERM)
    _, said = window.program.communicate(timeout=PATIENCE_SECONDS)
    assert " ".join(said.decode().split()).endswith(
        "What was typed last isn't in the book. It is kept, and can be brought back when the book is"
        " next opened."
    )
    window = at(moon, is_waited_for=False)
    window.top = window.dialog("Import")
    window.press("Alt+r")
    window.no_dialog()
    window.opened()
    window.says(
        "The rest of text.txt is left out. What is in the book stays there. What was typed where no text"
        " was asked for is set aside: “It rose.”. Ctrl+B brings it back."
    )


def test_a_session_that_was_killed_is_opened_again_and_the_text_stays(
    moon: Path, at: Open
) -> None:
    window = at(moon)
    window.press("F2")
    window.focus("text", "Print")
    window.press("End")
    window.caret("Print", 8)
    window.type("s")
    _waits(window, moon, "The Moons")
    os.kill(session_of(window), signal.SIGKILL)
    window.focus("text", "Message")
    window.reads(
        "Message",
        "The session was ended by signal 9. The book was opened again: it is at version 5, as"
        " before.",
    )
    window.reads("Print", "The Moons")
    window.press("F2")
    window.focus("text", "Print")
    window.press("Return")
    window.reads("Message", "Kept: correction 1 of paragraph 1.")
    window.press("Ctrl+q")
    assert window.end() == 0
    assert prints(moon)[0] == "The Moons"


def _cannot_be_opened(window: Reader, book: Path, sentence: str) -> None:
    """Waits until a dialog says why there is no window of a book, and closes it."""
    top = window.dialog(book.name)
    window.part("label", sentence, top)
    window.press("Return")
    _, said = window.program.communicate()
    assert (window.program.returncode, said.decode()) == (2, f"{sentence}\n")


def test_a_book_that_is_open_elsewhere_is_not_shown(moon: Path, at: Open) -> None:
    with Session(moon):
        sentence = f"Another program has “{moon}” open. Nothing was changed. That one must end first."
        _cannot_be_opened(at(moon, is_waited_for=False), moon, sentence)


@pytest.mark.parametrize("is_kept", [True, False])
def test_what_is_typed_where_a_book_is_not_shown_closes_nothing_and_is_set_aside(
    moon: Path, tmp_path: Path, at: Open, is_kept: bool
) -> None:
    if not is_kept:
        (tmp_path / "state" / "braildesk").write_text("")
    with Session(moon):
        with pytest.raises(DeskError) as refused:
            Session(moon)
        window = at(moon, is_waited_for=False)
        top = window.dialog(moon.name)
        window.type(" could be")
        window.press("Return")
        said = f"{refused.value.sentence}\n\nWhat is typed here is set aside. Enter closes this."
        window.part("label", said, top)
        window.press("Return")
        if not is_kept:
            unkept = "This was typed, and could not be kept: could be"
            window.part("label", unkept, window.dialog(moon.name, unkept))
            window.press("Escape")
        assert window.end() == 2
    if is_kept:
        assert [each.text for each in Drafts(moon).given_up()] == ["could be"]
        assert Drafts(moon).unread() is None


@pytest.mark.parametrize("end", [signal.SIGTERM, signal.SIGKILL])
def test_what_is_typed_where_a_book_is_not_shown_is_there_after_a_signal(
    moon: Path, at: Open, end: signal.Signals
) -> None:
    with Session(moon):
        window = at(moon, is_waited_for=False)
        window.dialog(moon.name)
        window.type(" could be")
        window.until("it is kept", lambda: _unread(moon) == "could be")
        window.program.send_signal(end)
        assert window.end() == -end
    again = at(moon)
    where = "What was typed where no text was asked for is set aside"
    again.says(f"{where}: “could be”. Ctrl+B brings it back.")
    assert [each.text for each in Drafts(moon).given_up()] == ["could be"]
    assert Drafts(moon).unread() is None


def test_a_file_that_is_no_book_is_not_shown(tmp_path: Path, at: Open) -> None:
    (path := tmp_path / "text.braildesk").write_text("The moon is far away.\n")
    with pytest.raises(DeskError) as refused:
        Session(path)
    window = at(path, is_waited_for=False)
    _cannot_be_opened(window, path, refused.value.sentence)


def test_a_terminal_alone_reads_why_a_book_is_not_shown(moon: Path) -> None:
    terminal, its_end = os.openpty()
    words = [sys.executable, "-m", "scribe", "window", str(moon)]
    with Session(moon):
        assert (
            subprocess.run(words, stderr=its_end, timeout=PATIENCE_SECONDS).returncode
            == 2
        )
    assert b"Another program has" in os.read(terminal, 1000)
    os.close(terminal)
    os.close(its_end)


@pytest.mark.parametrize("is_kept", [True, False])
def test_a_book_that_is_gone_is_not_said_to_be_at_a_version(
    moon: Path, at: Open, is_kept: bool
) -> None:
    window = at(moon)
    moon.unlink()
    if is_kept:
        window.press("Ctrl+t")
        window.focus("text", "Message")
    window.press("Ctrl+q")
    shown, said = window.program.communicate(timeout=PATIENCE_SECONDS)
    assert window.program.returncode == (3 if is_kept else 0)
    assert shown == b""
    assert " ".join(said.decode().split()).startswith(
        f"The file of the book is no longer at “{moon}”: it was removed or moved while it was open."
    )


AGAIN = (
    "braildesk didn't answer any more, and was ended. The book was opened again: it is at version 5,"
    " as before"
)


@pytest.mark.parametrize(
    "typed, key, message, said",
    [
        ("s", "", "", "Stopped by SIGTERM. What was reported as kept is in the book."),
        ("s", "Return", WAITING, f"{AGAIN}, and what was asked last is not in it."),
        ("", "Ctrl+p", "The page is shown beside the book.", f"{AGAIN}."),
    ],
)
def test_a_window_is_ended_also_while_the_program_does_not_answer(
    moon: Path, at: Open, typed: str, key: str, message: str, said: str
) -> None:
    window = at(moon)
    window.press("F2")
    window.focus("text", "Print")
    window.press("End")
    window.caret("Print", 8)
    if typed:
        window.type(typed)
        _waits(window, moon, f"The Moon{typed}")
    os.kill(session_of(window), signal.SIGSTOP)
    if key:
        window.press(key)
        window.reads("Message", message)
    window.program.send_signal(signal.SIGTERM)
    shown, errors = window.program.communicate(timeout=120)
    assert shown == b""
    waits = "A text that was typed and isn't in the book is kept, and is offered when the book is next opened."
    whole = f"{said} {waits}" if typed else said
    assert " ".join(errors.decode().split()) == whole
    assert window.program.returncode == (3 if key else -signal.SIGTERM)
    waiting = Drafts(moon).waiting()
    assert (waiting.text if waiting else "") == (f"The Moon{typed}" if typed else "")
    # and the file is free
    assert prints(moon)[0] == "The Moon"


def test_a_window_is_ended_also_while_the_book_is_being_opened(
    moon: Path, at: Open
) -> None:
    program = moon.with_name("program")
    program.write_text(
        '#!/bin/sh\nwhile [ "$1" = session ]; do sleep 1; done\n'
        f'exec "{os.environ["BRAILDESK"]}" "$@"\n'
    )
    program.chmod(0o755)
    window = at(moon, is_waited_for=False, BRAILDESK=str(program))
    session_of(window)
    window.program.send_signal(signal.SIGTERM)
    shown, said = window.program.communicate(timeout=120)
    assert " ".join(said.decode().split()) == (
        "Stopped by SIGTERM. What was reported as kept is in the book, and what was asked after that"
        " may be there too."
    )
    assert (window.program.returncode, shown) == (-signal.SIGTERM, b"")


def session_of(window: Reader) -> int:
    """The number of the process of the session of a window."""
    task = Path(f"/proc/{window.program.pid}/task")

    def look() -> int | None:
        found = [
            int(number)
            for thread in task.iterdir()
            for number in _read(thread / "children").split()
        ]
        return next((each for each in found if "session" in _words(each)), None)

    return window.until("the session", look)


def _words(process: int) -> list[str]:
    return _read(Path(f"/proc/{process}/cmdline")).split("\0")


def _read(path: Path) -> str:
    """What stands in a file of a process or a thread; nothing of one that has ended."""
    try:
        return path.read_text()
    except (FileNotFoundError, ProcessLookupError):
        return ""


@pytest.mark.parametrize("number", [signal.SIGTERM, signal.SIGKILL])
def test_words_that_come_in_place_of_others_are_there_again_after_the_end(
    moon: Path, at: Open, number: signal.Signals
) -> None:
    window = at(moon)
    window.press("Ctrl+h")
    window.dialog("Change words")
    window.type("sea")
    window.press("Return")
    asked = "What comes in place of “sea” in paragraph 3:"
    window.dialog("Change words", asked)
    window.type("ocean")
    drafts = Drafts(moon)
    window.until("the words", lambda: drafts.words() == ("sea", "ocean"))
    window.program.send_signal(number)
    assert window.end() == -number
    again = at(moon)
    again.reads(
        "Message",
        "“sea” was to be changed to “ocean”, which may not be done. Ctrl+H has the words still.",
    )
    again.press("Ctrl+h")
    again.dialog("Change words")
    again.press("Return")
    again.dialog("Change words", asked)
    again.press("Return")
    again.reads("Print", "Twice a day the ocean comes up.")
    again.until("no words", lambda: drafts.words() is None)
    again.press("Ctrl+q")
    assert again.end() == 0


def test_places_that_were_changed_one_by_one_are_in_the_book_after_a_kill(
    moon: Path, at: Open
) -> None:
    window = at(moon)
    window.press("Ctrl+Shift+H")
    window.dialog("Change everywhere")
    window.type("o")
    window.press("Tab")
    window.type("u")
    window.press("Return")
    window.dialog("Change everywhere")
    window.press("Alt+p")
    for lines, key in (
        ("Place 1 of 4, paragraph 1: The M[o]on\nAfter: The M[u]on", "Return"),
        ("Place 2 of 4, paragraph 1: The Mu[o]n\nAfter: The Mu[u]n", "Alt+l"),
    ):
        window.dialog("Change everywhere", lines)
        window.press(key)
    there = "The m[o]n is far away.\nAfter: The m[u]n is far away."
    window.dialog("Change everywhere", f"Place 3 of 4, paragraph 2: {there}")
    window.program.send_signal(signal.SIGKILL)
    window.program.wait()
    assert prints(moon)[:2] == ["The Muon", "The mon is far away."]
    again = at(moon, is_waited_for=False)
    again.top = again.dialog("Change everywhere")
    said = "Changing “o” to “u” was cut short: 1 of 3 places is changed."
    again.part("label", f"{said} Shall the others be changed?")


@contextmanager
def _screen() -> Iterator[str]:
    """The name of a screen whose X server ends after that."""
    reading, writing = os.pipe()
    words = ["Xvfb", "-displayfd", str(writing), "-noreset"]
    quiet = subprocess.DEVNULL
    with subprocess.Popen(words, pass_fds=[writing], stderr=quiet) as server:
        try:
            yield f":{os.read(reading, 100).decode().strip()}"
        finally:
            server.kill()
    os.close(reading)
    os.close(writing)


_SCREEN_GONE = "The screen is gone: its X server or its compositor ended."


@pytest.mark.parametrize("typed", ["", "The Moon and"])
def test_where_the_x_server_ends_what_is_typed_is_kept_and_that_is_said(
    moon: Path, at: Open, typed: str
) -> None:
    with _screen() as display:
        window = at(moon, DISPLAY=display)
        if typed:
            window.insert("Print", typed)
            window.reads("Print", typed)
    shown, said = window.program.communicate(timeout=PATIENCE_SECONDS)
    assert (window.program.returncode, shown) == (3, b"")
    sentence = f"{_SCREEN_GONE} What was reported as kept is in the book."
    waits = " A text that was typed and isn't in the book is kept, and is offered when the book is next opened."
    assert (sentence + waits * bool(typed)) in " ".join(said.decode().split())
    waiting = Drafts(moon).waiting()
    assert (waiting.text if waiting else "") == typed
    assert prints(moon)[0] == "The Moon"


@pytest.mark.parametrize("is_typed", [False, True])
def test_where_the_x_server_ends_what_waits_is_kept_again_if_its_folder_was_taken_away(
    moon: Path, at: Open, tmp_path: Path, is_typed: bool
) -> None:
    soon = Draft(Aim.EDIT, 1, "en", "The Moon", "The Moon rose.", None, 5)
    Drafts(moon).save(soon)
    with _screen() as display:
        window = at(moon, is_waited_for=False, DISPLAY=display)
        answer = "Type it further" if is_typed else "Later"
        window.top = window.dialog("Unsent text")
        window.click(window.part("push button", answer))
        window.no_dialog()
        window.opened()
        if is_typed:
            window.reads("Print", soon.text)
        else:
            window.says("The text waits.")
        (tmp_path / "state" / "braildesk").rename(tmp_path / "away")
    window.program.communicate(timeout=PATIENCE_SECONDS)
    assert window.program.returncode == 3
    assert Drafts(moon).waiting() == soon


@pytest.mark.parametrize(
    "is_kept, is_noticed", [(False, False), (True, False), (True, True)]
)
def test_where_the_x_server_ends_once_the_book_is_gone_it_is_saved_and_said_where(
    moon: Path, at: Open, is_kept: bool, is_noticed: bool
) -> None:
    with _screen() as display:
        window = at(moon, DISPLAY=display)
        if is_kept:
            window.click(window.part("menu item", "Heading or body"))
            window.reads("Message", "Kept: paragraph 1 a heading.")
        moon.unlink()
        if is_noticed:
            window.click(window.part("menu item", "Strike or restore"))
            window.says("is in the new file")
        elif is_kept:
            window.insert("Print", "The Moon and")
            window.reads("Print", "The Moon and")
    _, said = window.program.communicate(timeout=PATIENCE_SECONDS)
    assert window.program.returncode == 3
    cause = f"The file of the book is no longer at “{moon}”: it was removed or moved while it was open."
    saved = moon.with_name(f"{moon.name}-saved-1")
    so = "Nothing was changed in it here."
    if is_kept:
        so = f"All of the book, with what was kept last, is in the new file “{saved}”."
    assert f"{_SCREEN_GONE} {cause} {so}" in _joined(said)
    assert "What was reported as kept is in the book." not in _joined(said)
    assert saved.exists() == is_kept
    if is_kept:
        with Session(saved) as session:
            assert session.paragraphs()[0].style is Style.HEADING
        waiting = Drafts(saved).waiting()
        typed = "" if is_noticed else "The Moon and"
        assert (waiting.text if waiting else "") == typed


def test_a_screen_that_is_not_there_is_said(moon: Path) -> None:
    words = [sys.executable, "-m", "scribe", "window", str(moon)]
    its = {**os.environ, "DISPLAY": ":12345"}
    ended = subprocess.run(
        words, env=its, capture_output=True, timeout=PATIENCE_SECONDS
    )
    assert ended.returncode == 3
    assert " ".join(ended.stderr.decode().split()).endswith(
        "The screen that DISPLAY or WAYLAND_DISPLAY names can't be reached. Nothing was changed."
        " scribe edit shows a book in a terminal."
    )


def _with_two_places(window: Reader) -> None:
    """Changes the front and the end of the paragraph with the mark, and ends that."""
    window.press("Down")
    window.press("F2")
    window.focus("text", "Print")
    window.press("Home")
    window.type("X")
    window.press("End")
    window.type(" Yes.")
    window.reads("Print", "XThe mon is far away. Yes.")
    window.press("Return")


def _marked_words(book: Path) -> str:
    """The words of the mark, which is untouched."""
    with Session(book) as session:
        (mark,) = session.marks_of(2)
        assert not mark.touched
        return session.print_of(2)[mark.start : mark.stop]


def test_an_edit_at_two_places_leaves_a_mark_between_and_is_taken_back_as_one(
    moon: Path, at: Open
) -> None:
    window = at(moon)
    _with_two_places(window)
    window.says("Kept: corrections 1 and 2 of paragraph 2.")
    window.press("Ctrl+z")
    window.says("Taken back: paragraph 2 was corrected.")
    window.press("Ctrl+q")
    assert window.end() == 0
    assert prints(moon)[1] == "The mon is far away."
    assert _marked_words(moon) == "mon"


def test_an_edit_of_which_a_part_is_refused_is_brought_back_and_kept_whole(
    moon: Path, at: Open
) -> None:
    window = at(
        moon,
        BRAILDESK=str(STAND_IN),
        STAND_IN_FOR=os.environ["BRAILDESK"],
        STAND_IN_AT="2 read reply no 90",
    )
    _with_two_places(window)
    window.says("1 correction of this edit is kept, and the rest isn't.")
    window.says("Ctrl+B brings it back.")
    window.press("Ctrl+q")
    assert window.end() == 0
    assert prints(moon)[1] == "The mon is far away. Yes."
    assert _marked_words(moon) == "mon"
