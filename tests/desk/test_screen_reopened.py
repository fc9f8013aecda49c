"""The book that is opened again: after its session ended by itself, or was of another version."""

import errno
import os
import shutil
import signal
from dataclasses import replace
from pathlib import Path

import pytest

from braildesk import Displaced, Session, pipe
from braildesk.desk.draft import Aim, Draft, Unread
from braildesk.desk.drafts import Drafts
from braildesk.desk.own_folder import OwnFolder

from scribe.screen.desk import Desk
from scribe.screen.state import Size
from scribe.words.status import Interrupted
from sitting import Sat, Sit
from stand_in import ANSWERED, HALF, KEPT, KILL_PROGRAM, READ, REPLY, SEND
from terminal import Open, once_free, standing_in

STAYS_NOTE = "What is typed is still here: type on."
STAYS = "What is typed is still here. Enter sends it again, and what is typed on is another line."


def killed(sat: Sat) -> None:
    """Kills the session, and lets the screen see it."""
    os.kill(sat.desk.pid, signal.SIGKILL)
    sat.state = sat.desk.lost(sat.state)


def stopped_once(
    book: Path, sit: Sit, patch: pytest.MonkeyPatch, number: int, far: str
) -> Sat:
    """A desk whose session is killed when a command has come so far; the next one isn't."""
    with patch.context() as patched:
        for name, value in standing_in(number, far, KILL_PROGRAM).items():
            patched.setenv(name, value)
        return sit(book)


def no_room(*_: object) -> None:
    raise OSError(errno.ENOSPC, os.strerror(errno.ENOSPC))


def prints(sat: Sat) -> list[str]:
    """The print of all paragraphs, by another session."""
    sat.desk.close()
    with Session(sat.desk.path) as session:
        return [session.print_of(each.id) for each in session.paragraphs()]


def test_the_book_opens_again_by_itself_with_what_was_typed(
    moon: Path, sit: Sit
) -> None:
    sat = sit(moon)
    sat.press("s", "down", "enter")
    sat.write("Oh, ")
    killed(sat)
    assert sat.lines[-3:] == [
        "The session was ended by signal 9. The book was opened again: it is at version",
        "8, as before. What is typed is still here: type on.",
        "Enter keeps it  Escape doesn't  F1 keys",
    ]
    sat.write("so ")
    sat.press("enter")
    assert sat.state.kept == "kept: correction 1 of paragraph 2"
    assert prints(sat)[1] == "Oh, so The Tides"
    assert sat.desk.drafts.waiting() is None


@pytest.mark.parametrize("typed", ["", "It rose,"])
def test_who_types_on_where_the_session_ends_gives_no_commands(
    moon: Path, sit: Sit, typed: str
) -> None:
    sat = sit(moon)
    sat.press("o")
    sat.write(typed)
    killed(sat)
    sat.write("no sun: my last hymn, seen so.")
    sat.press("enter")
    assert prints(sat)[1] == f"{typed}no sun: my last hymn, seen so."
    assert (sat.state.version, len(sat.desk.drafts.given_up())) == (8, 0)


def test_who_types_on_after_pasted_lines_where_the_session_ends_gives_no_commands(
    moon: Path, sit: Sit
) -> None:
    sat = sit(moon)
    sat.press("o")
    sat.state = sat.desk.paste(sat.state, "It rose.\nIt s")
    killed(sat)
    sat.write("et: no sun, my last hymn.")
    sat.press("enter", "y")
    assert prints(sat)[1:3] == ["It rose.", "It set: no sun, my last hymn."]
    assert len(sat.desk.drafts.given_up()) == 0


@pytest.mark.parametrize("is_at_once", [False, True])
@pytest.mark.parametrize("keys", ["", "home right right"])
def test_what_is_typed_on_after_enter_failed_is_another_line(
    moon: Path, sit: Sit, monkeypatch: pytest.MonkeyPatch, is_at_once: bool, keys: str
) -> None:
    sat = stopped_once(moon, sit, monkeypatch, 1, READ)
    sat.press("o", *"It rose.", *keys.split(), "enter")
    assert sat.state.message.endswith(STAYS)
    if is_at_once:
        sat.state = sat.desk.paste(sat.state, "It set.\n", True)
    else:
        sat.press(*"It set.", "enter")
    assert sat.state.question and sat.state.question.lines[:2] == (
        "It rose.",
        "It set.",
    )
    # no hands pasted them
    assert sat.state.question.sentence == (
        "What is typed has 2 lines. Are they 2 paragraphs?"
    )
    sat.press("y")
    assert sat.state.typed and sat.state.typed.text == ""
    assert prints(sat)[1:3] == ["It rose.", "It set."]


@pytest.mark.parametrize("is_at_once", [False, True])
def test_what_is_typed_on_after_a_note_failed_is_parted_by_a_blank(
    moon: Path, sit: Sit, monkeypatch: pytest.MonkeyPatch, is_at_once: bool
) -> None:
    sat = stopped_once(moon, sit, monkeypatch, 1, READ)
    sat.press("m", *"why?", "enter")
    if is_at_once:
        sat.state = sat.desk.paste(sat.state, "no sun", True)
    else:
        sat.press(*"no sun")
    assert sat.state.typed and sat.state.typed.text == "why? no sun"


def test_what_enter_could_not_send_is_changed_before_it_is_sent_again(
    moon: Path, sit: Sit, monkeypatch: pytest.MonkeyPatch
) -> None:
    sat = stopped_once(moon, sit, monkeypatch, 1, READ)
    sat.press("o", *"It rose.", "enter", "left", *" up", "enter")
    assert sat.state.kept == "kept: paragraph 4"
    assert prints(sat)[1] == "It rose up."


@pytest.mark.parametrize("far", [KEPT, ANSWERED])
def test_after_a_paragraph_that_the_book_has_the_next_one_is_typed(
    moon: Path, sit: Sit, monkeypatch: pytest.MonkeyPatch, far: str
) -> None:
    sat = stopped_once(moon, sit, monkeypatch, 1, far)
    sat.press("o")
    sat.write("It rose.")
    sat.press("enter")
    assert sat.state.message.endswith(
        "What was typed last is in the book, as paragraph 4: “It rose.”."
    )
    sat.write("no sun.")
    sat.press("enter")
    assert prints(sat)[:3] == ["The moon is far away.", "It rose.", "no sun."]


@pytest.mark.parametrize(
    "draft, where",
    [
        (
            Draft(Aim.AFTER, 1, "en", "", "It rose.\nIt set.", None, 7),
            "as the paragraphs 4 to 5: “It rose. It set.”.",
        ),
        (
            Draft(
                Aim.EDIT, 2, "en", "The Tide", "The Tides\nIt rose.\nIt set.", None, 6
            ),
            "in paragraph 2, and as the paragraphs 4 to 5: “The Tides It rose. It set.”.",
        ),
        (
            Draft(Aim.EDIT, 2, "en", "The Tide", "The Tides\nIt set.", None, 6),
            "in paragraph 2, and as paragraph 5: “The Tides It set.”.",
        ),
    ],
)
def test_of_lines_that_the_book_has_it_is_said_where_each_of_them_is(
    moon: Path, sit: Sit, draft: Draft, where: str
) -> None:
    Drafts(moon).save(draft)
    with Session(moon) as session:
        for text in ("It rose.", "It set."):
            session.add_paragraph("end", "en", text)
    sat = sit(moon)
    assert sat.state.message == f"What was typed last is in the book, {where}"
    assert sat.state.question is None


@pytest.mark.parametrize("far, keys", [(READ, "y y"), (KEPT, "y"), (ANSWERED, "y")])
def test_the_rest_of_a_paragraph_that_was_too_long_is_offered_alone(
    moon: Path, sit: Sit, monkeypatch: pytest.MonkeyPatch, far: str, keys: str
) -> None:
    text = " ".join(f"This is sentence {n}." for n in range(1, 251))
    sat = stopped_once(moon, sit, monkeypatch, 1, far)
    sat.press("o")
    sat.state = sat.desk.paste(sat.state, text)
    sat.press("enter", "y")
    waits = sat.desk.drafts.waiting()
    assert waits and waits.text.endswith("This is sentence 250.")
    sat.press(*keys.split(), "enter", "escape")
    assert " ".join(prints(sat)[1:3]) == text


def test_the_rest_of_a_paragraph_that_was_too_long_is_kept_at_once(
    moon: Path, sit: Sit
) -> None:
    sat = sit(moon)
    sat.press("o")
    sat.state = sat.desk.paste(sat.state, "It rose. " * 500)
    sat.press("enter", "y")
    waits = sat.desk.drafts.waiting()
    assert waits and sat.state.typed and waits.text == sat.state.typed.text


@pytest.mark.parametrize("far, version", [(READ, 7), (HALF, 7), (KEPT, 8)])
@pytest.mark.parametrize(
    "keys, typed, kept, where",
    [
        (
            "enter O h , enter",
            "Oh,The moon is far away.",
            "kept: correction 2 of paragraph 1",
            "in paragraph 1: “Oh,The moon is far away.”.",
        ),
        (
            "O S o o n . enter",
            "Soon.",
            "kept: paragraph 4",
            "as paragraph 4: “Soon.”.",
        ),
        (
            "m w h y ? enter",
            "why?",
            "kept: mark 2",
            "as mark 2: “why?”.",
        ),
    ],
)
def test_a_command_that_was_under_way_is_found_in_the_book_or_still_typed(
    moon: Path,
    sit: Sit,
    monkeypatch: pytest.MonkeyPatch,
    far: str,
    version: int,
    keys: str,
    typed: str,
    kept: str,
    where: str,
) -> None:
    with monkeypatch.context() as patched:
        for name, value in standing_in(1, far, KILL_PROGRAM).items():
            patched.setenv(name, value)
        sat = sit(moon)
        sat.press(*keys.split())
    assert (sat.state.version, sat.state.is_lost) == (version, False)
    if far == KEPT:
        assert sat.state.message == (
            "The session was ended by signal 9. The book was opened again: it is at version 8, and"
            f" what was asked last is in it. What was typed last is in the book, {where}"
        )
        assert "last kept: 1 change" in sat.lines[0]
        assert sat.state.question is None and sat.desk.drafts.waiting() is None
        return
    assert sat.state.message == (
        "The session was ended by signal 9. The book was opened again: it is at version 7, as"
        f" before, and what was asked last is not in it. {STAYS_NOTE if typed == 'why?' else STAYS}"
    )
    # the stand-in is still there once more
    for _ in range(2):
        assert sat.state.typed and sat.state.typed.text == typed
        sat.press("enter")
    assert sat.state.kept == kept


@pytest.mark.parametrize("far, keys", [(KEPT, "y y"), (ANSWERED, "y")])
def test_lines_that_were_cut_short_go_on_where_the_book_ends(
    moon: Path, sit: Sit, monkeypatch: pytest.MonkeyPatch, far: str, keys: str
) -> None:
    sat = stopped_once(moon, sit, monkeypatch, 2, far)
    sat.press("o")
    sat.state = sat.desk.paste(sat.state, "One.\nTwo.\nThree.\nFour.")
    # what wasn't answered is looked for in the book, and the rest is offered
    sat.press(*keys.split())
    waits = sat.desk.drafts.waiting()
    assert waits and waits.text == "Three.\nFour."
    assert sat.state.question and sat.state.question.lines == ("Three.", "Four.")
    sat.press("y")
    found = ["The moon is far away.", "One.", "Two.", "Three.", "Four."]
    assert prints(sat)[:5] == found


@pytest.mark.parametrize(
    "number, keys, lines, typed, left",
    [
        (1, "o", "It rose.\nIt set.", "", "It rose.\nIt set."),
        (2, "o", "It rose.\nIt stood.\nIt set.", "", "It stood.\nIt set."),
        (
            1,
            "down enter end",
            " of\nthe sea.",
            "The Tides",
            "The Tides of\nthe sea.",
        ),
    ],
)
def test_lines_that_are_given_up_where_the_session_ended_are_not_typed_as_well(
    moon: Path,
    sit: Sit,
    monkeypatch: pytest.MonkeyPatch,
    number: int,
    keys: str,
    lines: str,
    typed: str,
    left: str,
) -> None:
    sat = stopped_once(moon, sit, monkeypatch, number, READ)
    sat.press(*keys.split())
    sat.state = sat.desk.paste(sat.state, lines)
    sat.press("y")
    assert sat.state.question and sat.state.question.lines == (*left.split("\n"),)
    assert sat.state.message.endswith(STAYS_NOTE)
    sat.press("escape")
    assert [each.text for each in sat.desk.drafts.given_up()] == [left]
    assert sat.state.typed and sat.state.typed.text == typed
    sat.press("enter")
    assert sat.state.version == 6 + number
    sat.press("U", "y", "y", "escape")
    its = "\n".join(prints(sat))
    assert all(its.count(each) == 1 for each in left.split("\n"))


def test_a_text_too_long_that_is_given_up_where_the_session_ended_is_not_typed_as_well(
    moon: Path, sit: Sit, monkeypatch: pytest.MonkeyPatch
) -> None:
    text = " ".join(f"This is sentence {n}." for n in range(1, 251))
    sat = stopped_once(moon, sit, monkeypatch, 1, READ)
    sat.press("o")
    sat.state = sat.desk.paste(sat.state, text)
    sat.press("enter", "y", "escape")
    (given_up,) = sat.desk.drafts.given_up()
    assert given_up.text.endswith("This is sentence 250.")
    assert sat.state.typed and sat.state.typed.text == ""


@pytest.mark.parametrize("typed, left", [(2, "Three.\nFour."), (3, "Four."), (4, "")])
def test_lines_after_an_edit_that_are_in_the_book_are_not_offered_where_none_could_be_kept(
    moon: Path, sit: Sit, typed: int, left: str
) -> None:
    sat = sit(moon)
    sat.press("enter", "end")
    lines = ["One.", "Two.", "Three.", "Four."]
    sat.state = sat.desk.paste(sat.state, "\n".join(["", *lines]))
    sat.state = sat.desk.save_draft(sat.state)
    waits = sat.desk.drafts.waiting()
    assert waits and waits.aim is Aim.EDIT
    sat.press("escape", "escape", "enter", "end")
    sat.state = sat.desk.paste(sat.state, "\n".join(["", *lines[:typed]]))
    sat.press("y", "escape")
    sat.desk.close()
    # what was kept last, as on a disk that was full from then on
    Drafts(moon).save(waits)
    sat = sit(moon)
    asked = sat.state.question
    assert (asked.draft.text if asked and asked.draft else "") == left
    assert left or sat.state.message.startswith("What was typed last is in the book")


@pytest.mark.parametrize(
    "reply, said",
    [
        (
            "no 91",
            "The correction of paragraph 1 was not reported as kept, since the file of the book could"
            " not be written or read. See to the disk.",
        ),
        ("what", "This is no line of a reply of braildesk: b'what'."),
    ],
    ids=["a full disk", "nonsense"],
)
def test_a_session_that_fails_or_answers_nonsense_is_left_in_words(
    moon: Path, sit: Sit, monkeypatch: pytest.MonkeyPatch, reply: str, said: str
) -> None:
    with monkeypatch.context() as patched:
        for name, value in standing_in(1, READ, REPLY, reply).items():
            patched.setenv(name, value)
        sat = sit(moon)
        sat.press("enter", "O", "h", ",", "enter")
    assert sat.state.message == (
        f"{said} The book was opened again: it is at version 7, as before, and what was asked last is"
        f" not in it. {STAYS}"
    )
    # the stand-in is still there once more
    for _ in range(2):
        assert sat.state.typed and sat.state.typed.text == "Oh,The moon is far away."
        sat.press("enter")
    assert sat.state.kept == "kept: correction 2 of paragraph 1"


def test_what_was_typed_is_still_there_where_it_could_not_be_kept_in_a_file(
    moon: Path, sit: Sit, monkeypatch: pytest.MonkeyPatch
) -> None:
    monkeypatch.setenv("XDG_STATE_HOME", str(moon))
    sat = sit(moon)
    sat.press("down", "enter")
    sat.write("Oh, ")
    killed(sat)
    assert sat.state.message == (
        "The session was ended by signal 9. The book was opened again: it is at version 7, as before."
        f" What is typed can't be kept in {moon}/braildesk: Not a directory."
        " What is typed is still here: type on."
    )
    sat.press("enter")
    assert sat.state.kept == "kept: correction 1 of paragraph 2"


def test_a_book_that_cannot_be_opened_again_says_why_until_it_can(
    moon: Path, sit: Sit
) -> None:
    sat = sit(moon)
    sat.press("o")
    sat.write("Soon.")
    os.kill(sat.desk.pid, signal.SIGKILL)
    with once_free(moon):
        sat.state = sat.desk.lost(sat.state)
        assert sat.state.is_lost and sat.state.pages
        in_use = f"Another program has “{moon}” open. That one must end first."
        assert sat.state.pages.lines[:2] == (
            "The session was ended by signal 9. Nothing was changed by this session.",
            in_use,
        )
        sat.press("enter")
        assert sat.state.is_lost and sat.state.pages
        assert sat.state.pages.lines[0] == in_use
        assert "Soon." in sat.state.pages.lines
        sat.press("enter")
        assert len(set(sat.state.pages.lines)) == len(sat.state.pages.lines)
        sat.press("s", "down")
        assert sat.state.is_lost and not sat.state.is_over
    sat.press("enter", "y", "enter")
    assert sat.state.kept == "kept: paragraph 4"


def test_a_book_that_another_program_took_is_not_said_to_be_unchanged(
    moon: Path, sit: Sit
) -> None:
    sat = sit(moon)
    sat.press("s")
    os.kill(sat.desk.pid, signal.SIGKILL)
    with once_free(moon):
        sat.state = sat.desk.lost(sat.state)
        assert sat.state.pages and sat.state.pages.lines == (
            "The session was ended by signal 9. The last command that was reported as kept is the striking of"
            " paragraph 1, by which the book came to version 8. All up to it is in the book.",
            f"Another program has “{moon}” open. That one must end first.",
        )
        sat.press("enter")
        assert "Nothing was changed" not in " ".join(sat.lines)


@pytest.mark.parametrize("size", [(80, 24), (40, 12), (40, 1)])
def test_what_was_kept_last_is_not_said_of_a_book_that_was_opened_again_after_another_had_it(
    moon: Path, sit: Sit, size: tuple[int, int]
) -> None:
    sat = sit(moon, size=Size(*size))
    sat.press("s")
    os.kill(sat.desk.pid, signal.SIGKILL)
    with once_free(moon) as session:
        sat.state = sat.desk.lost(sat.state)
        session.set_style(2, "body")
    sat.press("enter")
    assert sat.state.message == (
        "The book is open again. It is at version 9 now; the screen said 8 last. Of what was done"
        " until now, u takes back only corrections."
    )
    assert (sat.state.version, sat.state.deeds) == (9, ())
    assert "kept" not in " ".join(sat.lines)
    sat.press("s")
    assert sat.state.kept == "kept: paragraph 1 restored"


def test_who_types_goes_on_where_the_log_of_the_book_was_removed(
    moon: Path, sit: Sit
) -> None:
    log = Path(f"{moon}-wal")
    sat = sit(moon)
    sat.press("s", "o")
    sat.write("Soon.")
    log.unlink()
    sat.press("enter")
    assert sat.state.message == (
        f"The log of the book, “{log}”, was removed or replaced while it was open. So the session was"
        " ended, by which what was in the log came into the book's file. The book was opened again:"
        f" it is at version 8, as before, and what was asked last is not in it. {STAYS}"
    )
    sat.press("enter")
    assert sat.state.kept == "kept: paragraph 4"
    sat.press("escape", "s")
    sat.desk.close()
    with Session(moon) as session:
        assert session.last_version == 10


def test_nothing_is_said_to_be_kept_in_a_file_into_which_another_book_was_copied(
    moon: Path, sit: Sit
) -> None:
    other = moon.with_name("other.braildesk")
    shutil.copyfile(moon, other)
    with Session(other) as session:
        session.add_paragraph("end", "en", "Of the other book. " * 200)
    sat = sit(moon)
    sat.press("s", "O")
    sat.write("Soon.")
    shutil.copyfile(other, moon)
    sat.press("enter")
    assert sat.state.kept == "kept: paragraph 1 struck"
    saved = f"{moon}-saved-1.txt"
    assert sat.state.is_lost and sat.state.pages
    assert sat.state.pages.lines[:3] == (
        f"Another program wrote into the file of the book, “{moon}”, while it was open: it isn't"
        " that book any more. The print of all paragraphs, with what was kept last, is in the new"
        f" file “{saved}”. Go on with a copy of the book, and import from that file what it lacks. The"
        f" log of what stood there before is now “{moon}-saved-1.log”.",
        "This was typed, and was not reported as kept:",
        "Soon.",
    )
    waits = sat.desk.drafts.waiting()
    assert waits and waits.text == "Soon."
    assert moon.read_bytes() == other.read_bytes()


def test_a_command_to_a_book_that_is_gone_from_its_path_is_not_shown_as_kept(
    moon: Path, sit: Sit
) -> None:
    sat = sit(moon)
    sat.press("s")
    assert sat.state.kept == "kept: paragraph 1 struck"
    moon.unlink()
    sat.press("O")
    sat.write("Soon.")
    sat.press("enter")
    assert sat.state.kept == "kept: paragraph 1 struck"
    saved = moon.with_name("moon.braildesk-saved-1")
    assert sat.state.is_lost and sat.state.pages
    assert sat.state.pages.lines == (
        f"The file of the book is no longer at “{moon}”: it was removed or moved while it was open."
        " All of the book, with what was kept last, is in the new file"
        f" “{saved}”. Go on with that one, or look first what is at the old path by now.",
        "What was typed by then is in it.",
    )
    with Session(saved) as session:
        assert session.print_of(4) == "Soon."


def another(moon: Path, texts: int) -> Path:
    """A book made of a copy, by so many commands."""
    other = moon.with_name("other.braildesk")
    shutil.copyfile(moon, other)
    with Session(other) as session:
        for _ in range(texts):
            session.correct(1, 0, 3, "Our")
    return other


def test_another_book_has_no_table_of_the_one_before(
    moon: Path, book: Path, sit: Sit
) -> None:
    sat = sit(moon)
    sat.press("s")
    book.rename(moon)
    sat.press("b", "enter")
    assert sat.state.message.startswith("The file that is at the path now is open.")
    assert (sat.state.tables, sat.desk.tables.names) == (("en",), ("en",))
    sat.press("t", *"none", "enter")
    assert " Nothing was changed. The book has the table en. " in sat.state.message


@pytest.mark.parametrize("commands", [0, 1, 2])
def test_another_book_is_not_shown_with_what_was_kept_in_the_one_before(
    moon: Path, sit: Sit, commands: int
) -> None:
    other = another(moon, commands)
    sat = sit(moon)
    sat.press("enter", "x", "enter")
    assert sat.state.kept == "kept: correction 2 of paragraph 1"
    other.rename(moon)
    sat.press("b", "enter")
    version = 7 + commands
    assert sat.state.message.startswith(
        "The file that is at the path now is open. It is at"
    )
    assert (
        sat.lines[0] == f"moon.braildesk, version {version}, table en, nothing kept yet"
    )
    # nor is what another did there taken back as what was done here
    sat.press("u")
    assert "was corrected" not in sat.state.message


def test_the_page_is_that_of_the_file_that_is_at_the_path_now(
    moon: Path, sit: Sit
) -> None:
    other = another(moon, 0)
    with Session(other) as session:
        session.correct(1, 0, 0, "Mars " * 30)
    sat = sit(moon)
    sat.press("b", "down", "p")
    assert "Paragraph 2, character 1: volume 1, page 1, line 2" in sat.lines[1]
    sat.press("escape")
    other.rename(moon)
    sat.press("b", "enter", "p")
    assert sat.state.version == 8
    assert "Paragraph 2, character 1: volume 1, page 1, line 7" in sat.lines[1]


def test_an_earlier_copy_that_is_there_after_a_session_ended_has_nothing_kept(
    moon: Path, sit: Sit
) -> None:
    other = another(moon, 0)
    sat = sit(moon)
    sat.press("s")
    os.kill(sat.desk.pid, signal.SIGKILL)
    once_free(moon).close()
    other.rename(moon)
    sat.state = sat.desk.lost(sat.state)
    assert sat.state.is_lost
    sat.press("enter")
    assert sat.state.message.startswith("The file that is at the path now is open.")
    assert sat.lines[0].endswith("version 7, table en, nothing kept yet")
    with Session(f"{moon}-saved-1") as session:
        assert session.paragraphs()[0].struck


@pytest.mark.parametrize("is_kept", [False, True])
def test_another_book_that_is_there_as_a_session_ends_is_not_taken_for_this_one(
    moon: Path, sit: Sit, is_kept: bool
) -> None:
    other = another(moon, 2)
    sat = sit(moon)
    sat.press(*("s" * is_kept), "o")
    sat.write("Es war")
    sat.state = sat.desk.save_draft(sat.state)
    other.rename(moon)
    killed(sat)
    saved = Path(f"{moon}-saved-1")
    assert sat.state.is_lost and sat.state.pages
    assert sat.state.pages.lines == (
        f"The session was ended by signal 9. The file of the book is no longer at “{moon}”: another"
        " one was put there while it was open. All of the book, with what was kept last, is in the"
        f" new file “{saved}”. Go on with that one, or look first what is at the old path by now.",
        "This was typed, and was not reported as kept:",
        "Es war",
        "It is kept, and is offered when that file is opened. Until then it is in"
        f" {sat.desk.drafts.place}.",
    )
    again = sit(saved)
    again.press("y", "enter")
    assert again.state.book[0].struck is is_kept
    assert prints(again)[1] == "Es war"
    # it goes with the book that is gone
    Path(f"{moon}-wal").unlink(missing_ok=True)
    with Session(moon) as session:
        assert (session.last_version, len(session.paragraphs())) == (9, 3)


@pytest.mark.parametrize("is_whole", [True, False])
def test_a_book_that_is_gone_as_its_session_ends_is_said_to_be_where_all_of_it_is(
    moon: Path, sit: Sit, is_whole: bool
) -> None:
    sat = sit(moon)
    sat.press("s", "o", *"Es war")
    sat.state = sat.desk.save_draft(sat.state)
    moon.unlink()
    if is_whole:
        Path(f"{moon}-wal").unlink()
    killed(sat)
    saved = Path(f"{moon}-saved-1")
    assert sat.state.is_lost and sat.state.pages
    assert sat.state.pages.lines == (
        f"The session was ended by signal 9. The file of the book is no longer at “{moon}”: it was"
        " removed or moved while it was open. All of the book, with what was kept last, is in the new"
        f" file “{saved}”. Go on with that one, or look first what is at the old path by now.",
        "This was typed, and was not reported as kept:",
        "Es war",
        "It is kept, and is offered when that file is opened. Until then it is in"
        f" {sat.desk.drafts.place}.",
    )
    again = sit(saved)
    again.press("y", "enter")
    assert again.state.book[0].struck
    assert prints(again)[1] == "Es war"


def test_a_book_that_is_gone_is_saved_where_its_program_does_not_answer_at_the_end(
    moon: Path, sit: Sit, monkeypatch: pytest.MonkeyPatch
) -> None:
    def told_to_end() -> None:
        raise Interrupted(signal.SIGTERM)

    sat = sit(moon)
    sat.press("s", "o", *"Es war")
    sat.state = sat.desk.saved(sat.state)
    moon.unlink()
    os.kill(sat.desk.pid, signal.SIGSTOP)
    sat.desk.while_waiting = told_to_end
    with monkeypatch.context() as patched, pytest.raises(Displaced) as caught:
        patched.setattr(pipe, "_LONG", 10)
        sat.desk.close()
    assert caught.value.saved == f"{moon}-saved-1"
    again = sit(Path(caught.value.saved))
    again.press("y", "enter")
    assert again.state.book[0].struck
    assert prints(again)[1] == "Es war"


def test_another_book_that_came_after_a_session_ended_is_not_said_to_be_this_one(
    moon: Path, sit: Sit
) -> None:
    other = another(moon, 0)
    sat = sit(moon)
    sat.press("s")
    moon.rename(moon.with_name("away.braildesk"))
    killed(sat)
    assert sat.state.is_lost
    moon.with_name("moon.braildesk-wal").unlink()
    other.rename(moon)
    sat.press("enter")
    assert sat.state.message.startswith("The file that is at the path now is open.")
    assert sat.lines[0].endswith("version 7, table en, nothing kept yet")


@pytest.mark.parametrize("ended", ["by a kill", "for an export"])
def test_what_was_kept_before_a_session_ended_is_saved_from_the_next_one(
    moon: Path, sit: Sit, ended: str
) -> None:
    other = another(moon, 0)
    sat = sit(moon)
    sat.press("O")
    sat.write("Soon.")
    sat.press("enter", "escape")
    assert sat.state.kept == "kept: paragraph 4"
    if ended == "by a kill":
        killed(sat)
    else:
        sat.press("x")
        sat.write(str(moon.parent / "pages"))
        sat.press("enter")
        sat.state = sat.desk.away(sat.state, lambda said: None)
    other.rename(moon)
    with pytest.raises(Displaced):
        sat.desk.close()
    with Session(moon.with_name("moon.braildesk-saved-1")) as session:
        assert session.print_of(4) == "Soon."


def test_a_change_by_another_program_meanwhile_is_said(
    moon: Path, sit: Sit, monkeypatch: pytest.MonkeyPatch
) -> None:
    # where no copy can be made, others may have the book during an export
    monkeypatch.setattr("tempfile.tempdir", str(moon.parent / "nowhere"))
    sat = sit(moon)

    def corrected(line: str) -> None:
        with Session(moon) as session:
            session.correct(2, 4, 5, "Tide")

    sat.press("down", "x")
    sat.write(str(moon.parent / "pages"))
    sat.press("enter")
    sat.state = sat.desk.away(sat.state, corrected)
    assert sat.state.pages and sat.state.pages.lines[0] == (
        "Another program changed the book meanwhile. It is at version 8 now, and is shown as it"
        " is."
    )
    sat.press("escape")
    assert sat.lines[0] == "moon.braildesk, version 8, table en, nothing kept yet"
    assert sat.lines[2] == ">    2 body: The Tide" and sat.lines[8] == "The Tide"


def test_a_command_for_another_version_is_not_carried_out_and_the_book_is_shown_anew(
    moon: Path, sit: Sit, monkeypatch: pytest.MonkeyPatch
) -> None:
    with monkeypatch.context() as patched:
        for name, value in standing_in(1, READ, SEND, "correct 1 0 3 A").items():
            patched.setenv(name, value)
        sat = sit(moon)
    sat.press("enter")
    sat.write("Oh, ")
    sat.press("enter")
    assert (sat.state.version, sat.state.kept, sat.state.is_lost) == (8, "", False)
    assert sat.lines[8] == "A moon is far away."
    assert sat.state.message == (
        "Another program changed the book, so it was opened again. It is at version 8 now; the"
        " screen said 7 last."
    )
    assert (
        sat.state.question and "has been changed since" in sat.state.question.sentence
    )
    sat.press("n", "s")
    assert sat.state.kept == "kept: paragraph 1 struck"


@pytest.mark.parametrize("key", ["l", "n", "y", "killed"])
def test_a_text_that_could_not_be_kept_is_not_lost_where_another_program_changed_the_book(
    moon: Path, sit: Sit, monkeypatch: pytest.MonkeyPatch, key: str
) -> None:
    with monkeypatch.context() as patched:
        for name, value in standing_in(1, READ, SEND, "correct 1 0 3 A").items():
            patched.setenv(name, value)
        sat = sit(moon)
    monkeypatch.setattr(OwnFolder, "write", no_room)
    sat.press("down", "enter", *"Oh, ", "enter")
    text = "Oh, The Tides"
    assert sat.state.question and sat.state.question.draft
    assert sat.desk.unkept == (text,)
    if key == "killed":
        killed(sat)
        assert sat.desk.unkept == (text,)
        return
    sat.press(key)
    if key == "y":
        assert sat.state.typed and sat.state.typed.text == text
        sat.press("escape")
    assert sat.desk.unkept == (text,)
    if key == "l":
        assert sat.state.message == (
            "The text couldn't be kept to wait. U brings it back."
        )
    sat.press("U")
    assert sat.state.question and f"“{text}”" in sat.state.question.sentence


@pytest.mark.parametrize("is_known", [True, False])
def test_a_change_of_another_program_between_two_keys_is_said_to_be_kept_last(
    moon: Path, sit: Sit, monkeypatch: pytest.MonkeyPatch, is_known: bool
) -> None:
    with monkeypatch.context() as patched:
        for name, value in standing_in(2, READ, SEND, "correct 3 0 5 A").items():
            patched.setenv(name, value)
        sat = sit(moon)
    sat.press("s")
    if not is_known:
        # as after an opening before which others had the book
        sat.state = replace(sat.state, kept=None)
    sat.press("down", "enter", *"Oh, ", "enter")
    assert sat.state.message == (
        "Another program changed the book, so it was opened again. It is at version 9 now; the"
        " screen said 8 last. Of what was done until now, u takes back only corrections."
    )
    assert sat.lines[0].endswith("last kept: another program's change")


def test_the_book_is_opened_again_at_the_terminal(moon: Path, at: Open) -> None:
    terminal = at(moon)
    terminal.wait("? shows the keys.")
    for number in (1, 2):
        os.kill(terminal.program(), signal.SIGKILL)
        terminal.wait("The book was opened again")
        terminal.keys("s")
        terminal.wait(f"version {7 + number}, ")
    terminal.keys("q")
    assert terminal.ended() == 0


@pytest.mark.parametrize(
    "is_replaced, what",
    [(False, "it was removed or moved"), (True, "another one was put there")],
)
def test_a_book_that_is_gone_is_not_said_to_be_at_a_version(
    moon: Path, at: Open, is_replaced: bool, what: str
) -> None:
    terminal = at(moon)
    terminal.wait("? shows the keys.")
    if is_replaced:
        another(moon, 1).rename(moon)
    else:
        moon.unlink()
    terminal.keys("q")
    assert terminal.ended() == 0
    said = (
        f"The file of the book is no longer at “{moon}”: {what} while it was open. Nothing was"
        " changed in it here."
    )
    # a path may be parted at the end of a line
    assert "".join(terminal.said.split()) == "".join(said.split())


def in_places(sat: Sat) -> None:
    """Looks at the places of words that are to be changed."""
    sat.press("c")
    sat.write("a")
    sat.press("enter")
    sat.write("b")
    sat.press("enter")
    assert sat.state.pages and sat.state.pages.title.startswith("6 places of “a”")


def test_a_list_of_places_is_there_again_after_its_session_ended(
    moon: Path, sit: Sit
) -> None:
    sat = sit(moon)
    in_places(sat)
    sat.press("n")
    before = sat.state.pages
    killed(sat)
    assert sat.state.message == (
        "The session was ended by signal 9. The book was opened again: it is at version 7, as"
        " before."
    )
    assert sat.state.pages == before
    sat.press("y")
    assert sat.state.message == "Paragraph 1 is changed. 4 more places."
    assert prints(sat)[0] == "The moon is far bway."


@pytest.mark.parametrize("far", [READ, ANSWERED])
def test_a_list_of_places_of_which_one_was_being_changed_as_its_session_ended_is_anew(
    moon: Path, sit: Sit, monkeypatch: pytest.MonkeyPatch, far: str
) -> None:
    sat = stopped_once(moon, sit, monkeypatch, 1, far)
    in_places(sat)
    sat.press("y")
    is_done = far == ANSWERED
    assert sat.state.message.startswith("The session was ended by signal 9.")
    assert sat.state.pages
    count = 5 if is_done else 6
    assert sat.state.pages.title.startswith(f"{count} places of “a”")
    sat.press("y")
    assert sat.state.kept == "kept: a correction of paragraph 1"
    assert sat.state.version == 8 + is_done


def test_a_list_of_marks_is_there_again_after_its_session_ended(
    moon: Path, sit: Sit
) -> None:
    sat = sit(moon)
    sat.press("M")
    before = sat.state.pages
    assert before and before.title == "1 open mark."
    killed(sat)
    assert sat.state.pages == before
    assert sat.state.message.endswith("as before.")


@pytest.mark.parametrize("is_lost", [False, True])
def test_an_import_is_reported_where_the_session_ends_that_comes_after_it(
    moon: Path, sit: Sit, monkeypatch: pytest.MonkeyPatch, is_lost: bool
) -> None:
    text = moon.with_name("more.txt")
    text.write_text("One paragraph.\n\nAnd another.\n")
    sat = sit(moon)
    sat.press("i")
    sat.write(str(text))
    sat.press("enter")
    open_further = Desk._open_further

    def opened_and_killed(desk: Desk) -> str:
        monkeypatch.setattr(Desk, "_open_further", open_further)
        said = open_further(desk)
        os.kill(desk.pid, signal.SIGKILL)
        if is_lost:
            once_free(moon).close()
            moon.rename(moon.with_name("away"))
        return said

    monkeypatch.setattr(Desk, "_open_further", opened_and_killed)
    sat.state = sat.desk.away(sat.state, lambda said: None)
    assert sat.state.pages is not None and sat.state.is_lost is is_lost
    lines = sat.state.pages.lines
    assert "2 paragraphs typed, numbers 4 to 5, by the table en." in lines
    said = " ".join((*lines, sat.state.message))
    assert "The session was ended by signal 9." in said
    assert is_lost or "it is at version 9" in said


def gone(book: Path, is_moved: bool) -> Path:
    """Removes a book, or renames its folder, and gives the file in which it is by then."""
    if is_moved:
        return book.parent.rename(book.parent.with_name("older")) / book.name
    book.unlink()
    return book.with_name(f"{book.name}-saved-1")


@pytest.mark.parametrize("is_moved", [True, False])
@pytest.mark.parametrize("begun", ["enter", "o", "m"])
def test_what_is_in_a_book_that_is_gone_is_said_to_be_and_does_not_wait(
    moon: Path, sit: Sit, begun: str, is_moved: bool
) -> None:
    (folder := moon.with_name("books")).mkdir()
    moon = moon.rename(folder / moon.name)
    sat = sit(moon)
    sat.press("s", "down", begun)
    sat.write("Es war ")
    sat.state = sat.desk.save_draft(sat.state)
    there = gone(moon, is_moved)
    sat.press("enter")
    assert sat.state.is_lost and sat.state.pages
    assert sat.state.pages.lines[1:] == ("What was typed by then is in it.",)
    assert not sat.desk.has_waiting and sat.desk.drafts.waiting() is None
    again = sit(there)
    assert again.state.question is None and again.desk.drafts.waiting() is None
    assert again.state.version == 9


def test_enter_opens_what_is_at_the_path_of_a_book_whose_folder_was_renamed(
    moon: Path, sit: Sit
) -> None:
    (folder := moon.with_name("books")).mkdir()
    moon = moon.rename(folder / moon.name)
    sat = sit(moon)
    sat.press("s")
    there = gone(moon, is_moved=True)
    sat.press("b")
    assert sat.state.pages and f" It is at “{there}” now," in sat.state.pages.lines[0]
    said = sat.state.pages.lines
    for _ in range(2):
        hint = "Enter opens what is at the path  q ends  Up, Down look further"
        assert sat.lines[-1] == hint
        sat.press("enter")
        no_file = f"There is no file “{moon}”. Check that the path is right."
        assert sat.state.pages.lines == (no_file, *said)
    there.parent.rename(folder)
    sat.press("enter")
    # what was sent as it was seen to be gone is there, too
    assert sat.state.message.startswith(
        "The file that is at the path now is open. It is at version 9 now;"
    )
    assert sat.state.book[0].struck


def test_what_was_typed_is_offered_in_the_file_in_which_a_book_was_saved_that_is_gone(
    moon: Path, sit: Sit
) -> None:
    sat = sit(moon)
    sat.press("s", "o")
    sat.write("Es war")
    sat.state = sat.desk.save_draft(sat.state)
    saved = gone(moon, is_moved=False)
    with pytest.raises(Displaced):
        sat.desk.close()
    again = sit(saved)
    asked = again.state.question
    assert asked and "isn't in the book: “Es war”." in asked.sentence
    again.press("y", "enter")
    assert prints(again)[1] == "Es war"


def test_what_is_typed_once_a_book_is_gone_is_brought_back_where_all_of_it_was_saved(
    moon: Path, sit: Sit
) -> None:
    sat = sit(moon)
    sat.press("o")
    sat.write("Es war")
    saved = gone(moon, is_moved=False)
    sat.press("enter")
    assert sat.state.is_lost
    sat.state = sat.desk.paste(sat.state, " einmal ein Mond", True)
    assert sat.state.message == (
        "No key of that text was obeyed. Once the book is open again, U brings it back, for a new"
        " paragraph."
    )
    again = sit(saved)
    again.press("U")
    asked = again.state.question
    assert asked and "was set aside: “einmal ein Mond”." in asked.sentence


def test_what_comes_once_a_book_is_gone_is_kept_where_all_of_it_was_saved_and_once(
    moon: Path, sit: Sit
) -> None:
    sat = sit(moon)
    sat.press("o")
    sat.write("Es war")
    saved = gone(moon, is_moved=False)
    sat.press("enter")
    assert sat.state.is_lost
    so_far = Unread("", Draft(Aim.AFTER, None, None, "", "einmal ein"))
    sat.desk.keep_unread(so_far)
    assert Drafts(saved).unread() == so_far
    sat.state = sat.desk.paste(sat.state, "einmal ein Mond", True)
    sat.desk.keep_unread(None)
    assert Drafts(saved).unread() is None
    assert [each.text for each in Drafts(saved).given_up()] == ["einmal ein Mond"]


@pytest.mark.parametrize("is_moved", [True, False])
def test_lines_that_a_book_lacks_that_is_gone_are_offered_where_it_is(
    moon: Path, sit: Sit, is_moved: bool
) -> None:
    (folder := moon.with_name("books")).mkdir()
    moon = moon.rename(folder / moon.name)
    sat = sit(moon)
    sat.press("o")
    sat.state = sat.desk.paste(sat.state, "It rose.\nIt set.")
    there = gone(moon, is_moved)
    sat.press("y")
    assert sat.state.is_lost and sat.state.pages
    said = sat.state.pages.lines[-1]
    assert said.startswith("It is kept, and is offered when that file is opened.")
    again = sit(there)
    asked = again.state.question
    assert asked and "isn't in the book: “It set.”." in asked.sentence
    again.press("y", "enter")
    assert prints(again)[1:3] == ["It rose.", "It set."]


@pytest.mark.parametrize("is_kept", [True, False])
def test_of_a_text_that_waits_it_is_said_which_paragraph_before_the_newest_reads_so(
    moon: Path, sit: Sit, is_kept: bool
) -> None:
    draft = Draft(Aim.AFTER, 1, "en", "", "Es war", version=7)
    Drafts(moon).save(draft)
    with Session(moon) as session:
        # scribe was killed as it was kept, and others went on
        session.add_paragraph(1, "en", "Es war" if is_kept else "Es ist")
        session.add_paragraph("end", "en", "Noon.")
    question = sit(moon).state.question
    became = "was typed and isn't in the book"
    if is_kept:
        became = "was typed, and paragraph 4 reads the same"
    assert question is not None and question.sentence == (
        f"A text of a new paragraph {became}: “Es war”. Shall it be typed further?"
    )


@pytest.mark.parametrize("aim", [Aim.AFTER, Aim.BEFORE])
def test_a_text_that_waits_is_not_taken_for_the_paragraph_beside_which_it_was_typed(
    moon: Path, sit: Sit, aim: Aim
) -> None:
    with Session(moon) as session:
        version, text = session.last_version, session.print_of(3)
        Drafts(moon).save(Draft(aim, 3, "en", "", text, version=version))
        # somebody else went on
        session.add_mark(1, 0, 1, "why?")
    question = sit(moon).state.question
    assert question is not None and question.sentence.startswith(
        "A text of a new paragraph was typed and isn't in the book: "
    )


def typed_elsewhere(moon: Path) -> Drafts:
    """Another session of the book, as of another terminal, has a text wait, and is gone."""
    drafts = Drafts(moon)
    drafts.save(Draft(Aim.AFTER, 1, "en", "", "It set."))
    drafts.keep_typed_last(f"{drafts.typed_last()}It set.")
    return drafts


@pytest.mark.parametrize("is_at_once", [True, False])
def test_what_was_typed_elsewhere_since_a_session_ended_is_set_aside_and_said(
    moon: Path, sit: Sit, monkeypatch: pytest.MonkeyPatch, is_at_once: bool
) -> None:
    sat = sit(moon)
    sat.desk.typed_last.note("It rose.")
    sat.desk.typed_last.keep()
    if is_at_once:
        drafts = typed_elsewhere(moon)
        killed(sat)
    else:
        monkeypatch.setattr("braildesk.desk.aftermath.PATIENCE", 0.0)
        os.kill(sat.desk.pid, signal.SIGKILL)
        with once_free(moon):
            sat.state = sat.desk.lost(sat.state)
            assert sat.state.is_lost
            drafts = typed_elsewhere(moon)
        sat.press("enter")
    assert not sat.state.is_lost
    said = (
        "What was typed elsewhere meanwhile is set aside: “It set.”. U brings it back."
    )
    assert said in sat.state.message
    assert [each.text for each in drafts.given_up()] == ["It set."]
    assert drafts.waiting() is None
    assert sat.desk.typed_last.text == "It rose.It set."
    sat.press("o")
    sat.write("Noon.")
    sat.state = sat.desk.save_draft(sat.state)
    waiting = drafts.waiting()
    assert waiting is not None and waiting.text == "Noon."
