"""What keys typed last comes back by a key, in the order in which it came, whatever became of it."""

import errno
import json
import os
import signal
import stat
import time
from collections.abc import Callable
from pathlib import Path
from threading import Thread

import pytest

from braildesk import Session
from braildesk.desk.draft import Aim, Draft
from braildesk.desk.drafts import MOST_TYPED_LAST, Begun, Drafts
from braildesk.desk.own_folder import OwnFolder

from scribe.words import typed_last
from scribe.words.typed_last import BROUGHT, NOTHING, PARTED, TypedLast
from sitting import Sit
from terminal import Open, Terminal

#: After so many seconds what is typed is kept.
KEPT_SECONDS = 2.5


@pytest.fixture
def file(tmp_path: Path) -> Path:
    """A file that stands for a book, which isn't opened."""
    path = tmp_path / "book.braildesk"
    path.write_bytes(b"a book")
    return path


@pytest.fixture
def kept_at(file: Path) -> Path:
    """Where it is kept what was typed last for that book."""
    waiting = Drafts(file).place
    waiting.parent.mkdir()
    return waiting.with_suffix(f".{Begun.TYPED_LAST.value}")


def begun(book: Path) -> TypedLast:
    """What was typed last for a book, as at its opening."""
    found = TypedLast(Drafts(book))
    found.begin()
    return found


def test_what_is_typed_is_kept_in_its_order_up_to_so_many_characters(
    file: Path, kept_at: Path
) -> None:
    typed = begun(file)
    for text in ("It", " rose.", "\n", "It\r\nset.\x07", "\udcff", "\t!"):
        typed.note(text)
    typed.keep()
    assert stat.S_IMODE(kept_at.stat().st_mode) == 0o600
    whole = "It rose. It set. \N{REPLACEMENT CHARACTER} !"
    assert begun(file).text == typed.text == whole
    again = begun(file)
    again.note("b" * (MOST_TYPED_LAST - 1))
    again.keep()
    assert begun(file).text == "!" + "b" * (MOST_TYPED_LAST - 1)


def test_what_is_typed_before_it_is_known_what_was_typed_before_comes_after_that(
    file: Path, kept_at: Path
) -> None:
    typed = begun(file)
    typed.note("It rose.")
    typed.keep()
    again = TypedLast(Drafts(file))
    again.note(" It set.")
    again.keep()
    again.begin()
    assert again.text == "It rose. It set."


def test_what_was_typed_for_a_book_goes_with_it_and_is_not_offered_for_another_one(
    file: Path, kept_at: Path
) -> None:
    typed = begun(file)
    typed.note("It rose.")
    typed.keep()
    other = file.with_name("other.braildesk")
    other.write_bytes(b"another book")
    assert begun(other).text == ""
    moved = Path(file.rename(file.with_name("moved.braildesk")))
    drafts = Drafts(moved)
    drafts.take_in()
    assert TypedLast(drafts).text == ""
    assert begun(moved).text == "It rose."


def test_what_was_typed_goes_with_a_book_that_is_moved_in_the_place_of_another(
    file: Path, kept_at: Path
) -> None:
    other = file.with_name("other.braildesk")
    other.write_bytes(b"another book")
    for path, text in ((file, "It rose."), (other, "It set.")):
        typed = begun(path)
        typed.note(text)
        typed.keep()
    away = file.rename(file.with_name("away.braildesk"))
    here = other.rename(file)
    for path, text in ((here, "It set."), (away, "It rose.")):
        Drafts(path).take_in()
        assert begun(path).text == text


def test_what_was_typed_for_a_book_that_was_moved_away_stays_where_another_is_made(
    file: Path, kept_at: Path
) -> None:
    typed = begun(file)
    typed.note("It rose.")
    typed.keep()
    away = file.rename(file.with_name("away.braildesk"))
    file.write_bytes(b"a new book")
    Drafts(file).take_in()
    typed = begun(file)
    typed.note(" It set.")
    typed.keep()
    Drafts(away).take_in()
    assert begun(away).text == "It rose."


def test_what_others_typed_meanwhile_comes_before_what_is_typed_since(
    file: Path, kept_at: Path
) -> None:
    typed, other = begun(file), begun(file)
    typed.note("It rose.")
    typed.keep()
    other.begin()
    other.note(" It set.")
    other.keep()
    typed.note(" Noon.")
    typed.begin()
    assert typed.text == "It rose. It set. Noon."
    # also where there is more than is kept
    other.begin()
    other.note("b" * (MOST_TYPED_LAST - 21))
    other.keep()
    typed.begin()
    typed.keep()
    other.note(" Then")
    other.keep()
    typed.note(" Now")
    typed.begin()
    assert typed.text.endswith("bb Noon. Then Now")
    assert "Now" not in typed.text[:-3] and len(typed.text) == MOST_TYPED_LAST
    whole = typed.text
    # where it can't be read, what is known of it stays
    kept_at.write_text("")
    typed.begin()
    assert typed.text == whole


def test_of_two_that_are_open_at_one_time_neither_takes_away_what_was_typed_in_the_other(
    file: Path, kept_at: Path
) -> None:
    typed, other = begun(file), begun(file)
    for each, text in ((typed, "It rose."), (other, " It set."), (typed, " Noon.")):
        each.note(text)
        each.keep()
    assert begun(file).text == typed.text == "It rose. It set. Noon."
    # what can't be read takes away nothing either
    kept_at.write_text("")
    typed.note(" Night.")
    typed.keep()
    assert begun(file).text == "It rose. It set. Noon. Night."


def test_what_is_typed_as_it_is_seen_what_others_typed_comes_after_that(
    file: Path, kept_at: Path, monkeypatch: pytest.MonkeyPatch
) -> None:
    typed, other = begun(file), begun(file)
    other.note("It rose.")
    other.keep()
    key = Thread(target=typed.note, args=[" Noon."])
    after = typed_last._after

    def while_a_key_comes(before: str, text: str) -> str:
        key.start()
        key.join(0.2)
        return after(before, text)

    monkeypatch.setattr(typed_last, "_after", while_a_key_comes)
    typed.begin()
    key.join()
    assert typed.text == "It rose. Noon."


def test_keys_that_type_nothing_push_nothing_out(file: Path, kept_at: Path) -> None:
    typed = begun(file)
    typed.note("It rose.")
    for _ in range(MOST_TYPED_LAST):
        typed.note(PARTED)
        typed.note("\n")
    typed.note("It set.")
    assert typed.text == "It rose. It set."


FORGED: dict[str, Callable[[Path, Path], object]] = {
    "a link": lambda path, own: path.symlink_to(own),
    "a second name": lambda path, own: path.hardlink_to(own),
    "a FIFO": lambda path, own: os.mkfifo(path),
    "a folder": lambda path, own: path.mkdir(),
    "10 GB": lambda path, own: os.truncate(os.open(path, os.O_CREAT | 2), 10 * 2**30),
    "no text": lambda path, own: path.write_text(json.dumps({"text": 1})),
    "half a character": lambda path, own: path.write_text('{"text": "\\ud800"}'),
    "deep JSON": lambda path, own: path.write_text("[" * 100_000),
}


@pytest.mark.parametrize("what", FORGED)
def test_nothing_is_read_of_what_was_not_kept_there_and_no_other_file_is_written(
    file: Path, kept_at: Path, tmp_path: Path, what: str
) -> None:
    own = tmp_path / "own"
    before = json.dumps({"text": "Of another file."})
    own.write_text(before)
    FORGED[what](kept_at, own)
    typed = begun(file)
    assert typed.text == ""
    typed.note("It rose.")
    typed.keep()
    assert own.read_text() == before
    assert typed.text == "It rose."
    if what != "a folder":
        assert begun(file).text == "It rose."


def test_nothing_is_said_where_it_can_not_be_kept_and_it_is_kept_once_it_can_be(
    file: Path, kept_at: Path, monkeypatch: pytest.MonkeyPatch
) -> None:
    typed = begun(file)
    typed.note("It rose.")

    def full(folder: OwnFolder, name: str, data: bytes) -> None:
        raise OSError(errno.ENOSPC, os.strerror(errno.ENOSPC))

    with monkeypatch.context() as patched:
        patched.setattr(OwnFolder, "write", full)
        typed.keep()
    assert (begun(file).text, typed.is_kept) == ("", False)
    typed.keep()
    assert (begun(file).text, typed.is_kept) == ("It rose.", True)


def test_it_is_typed_as_a_new_paragraph_which_is_kept_or_given_up(
    moon: Path, sit: Sit
) -> None:
    sat = sit(moon)
    sat.press("a-y")
    assert (sat.state.message, sat.state.typed) == (NOTHING, None)
    sat.desk.typed_last.note("It rose.\nIt set.")
    sat.press("a-y")
    assert sat.state.message == BROUGHT
    assert sat.state.typed and sat.state.typed.text == "It rose. It set."
    sat.press("escape")
    # it is kept as that, and no other text gives up its place for it
    given_up = "Given up. The book is as it was. Alt-Y brings it back."
    assert sat.state.message == given_up
    assert sat.desk.drafts.given_up() == ()
    # which one more of that key doesn't hide
    sat.press("escape")
    assert sat.state.message.startswith(f"{given_up} That key does nothing here.")
    sat.press("a-y", "enter")
    assert sat.state.kept == "kept: paragraph 4"
    assert [each.id for each in sat.state.book] == [1, 4, 2, 3]


def test_a_text_that_is_all_that_was_typed_is_given_up_as_any_other(
    moon: Path, sit: Sit
) -> None:
    sat = sit(moon)
    sat.desk.typed_last.note("It rose.")
    sat.press("o")
    sat.write("It rose.")
    sat.press("escape")
    assert sat.state.message == "Given up. The book is as it was. U brings it back."
    assert [each.text for each in sat.desk.drafts.given_up()] == ["It rose."]


def test_what_was_brought_back_and_can_not_be_kept_is_given_up_as_any_other(
    moon: Path, sit: Sit, monkeypatch: pytest.MonkeyPatch
) -> None:
    def full(folder: OwnFolder, name: str, data: bytes) -> None:
        raise OSError(errno.ENOSPC, os.strerror(errno.ENOSPC))

    sat = sit(moon)
    sat.desk.typed_last.note("It rose.")
    monkeypatch.setattr(OwnFolder, "write", full)
    sat.press("a-y", "escape")
    assert "can't be kept" in sat.state.message
    assert sat.desk.unkept == ("It rose.",)


def test_of_a_book_that_was_moved_it_is_not_said_that_it_was_typed_at_this_path(
    moon: Path, sit: Sit
) -> None:
    sat = sit(moon)
    sat.desk.typed_last.note("It rose.")
    sat.desk.typed_last.keep()
    sat.desk.close()
    again = sit(moon.rename(moon.with_name("moved.braildesk")))
    again.press("a-y")
    assert again.state.typed and again.state.typed.text == "It rose."
    assert again.state.message == (
        "All that is noted as typed in this file or at its path is here, kept or not."
    )


#: Keys by which a text that is typed further is in no other place than this at last.
TAKEN_OUT = {
    "cut": "c-u escape o S e a c-w escape",
    "cut word by word": "c-w home c-k escape o S e a c-w escape",
    "erased": "backspace " * 13 + "escape",
}


@pytest.mark.parametrize("keys", TAKEN_OUT.values(), ids=TAKEN_OUT)
@pytest.mark.parametrize("key", ["U", ""])
def test_a_text_that_was_brought_back_is_there_whatever_keys_take_out_of_it(
    moon: Path, sit: Sit, keys: str, key: str
) -> None:
    drafts = Drafts(moon)
    text = Draft(
        Aim.AFTER, 1, "en", "", "Dawn.\nIt rose" if not key else "It rose early"
    )
    others = [Draft(Aim.AFTER, 1, "en", "", f"Text {n}.") for n in range(9)]
    for each in (*others, *([text] if key else ())):
        drafts.put_by(each)
    if not key:
        drafts.save(text)
    sat = sit(moon)
    sat.press(*key, "y", *([] if key else ["n"]), *keys.split())
    assert sat.state.typed is None
    assert sat.desk.typed_last.text == text.joined
    # no other one gives up its place for it
    assert drafts.given_up() == tuple(reversed(others))


def test_of_a_print_that_is_typed_further_it_is_there_what_is_new_and_once(
    moon: Path, sit: Sit
) -> None:
    sat = sit(moon)
    sat.press("enter", "home", *"Again ", "escape")
    for _ in range(2):
        sat.press("U", "y", "escape")
        assert sat.desk.typed_last.text == "Again"


def test_it_has_no_place_where_no_table_is_known(empty_book: Path, sit: Sit) -> None:
    sat = sit(empty_book)
    sat.desk.typed_last.note("It rose.")
    sat.press("a-y")
    assert sat.state.message == "The book has no table yet. t chooses one."
    assert sat.state.typed is None


def brought(terminal: Terminal, text: str) -> None:
    """Waits until a text is brought back as one that is typed, and gives it up."""
    terminal.keys("a-y")
    terminal.wait(BROUGHT)
    assert any(line.rstrip() == text for line in terminal.lines), terminal.lines
    terminal.keys("escape")
    terminal.wait("Given up. The book is as it was.")


#: Keys by which a text is in no other place than this at last, and all that they typed.
LOST = {
    "at a list": ("? D a w n . escape", "?Dawn."),
    "where nothing takes it": ("e f l y", "efly"),
    "a cut text": ("o D a w n c-w escape o S e a c-w escape", "oDawn oSea"),
    "in two places": ("o D a w n escape o S e a escape", "oDawn oSea"),
    "corrected": ("o D a w n n backspace s escape", "oDawnns"),
    "erased": ("o D a w n backspace backspace backspace backspace escape", "oDawn"),
    "pasted": ("o [Dawn.] c-w escape", "oDawn."),
    "at a prompt": ("g 9 9 enter", "g99"),
}


@pytest.mark.parametrize("how", LOST)
def test_what_was_typed_comes_back_whatever_became_of_it(
    moon: Path, at: Open, how: str
) -> None:
    keys, text = LOST[how]
    terminal = at(moon)
    terminal.wait("? shows the keys.")
    for key in keys.split():
        if key.startswith("["):
            terminal.paste(key.strip("[]"))
        else:
            terminal.keys(key)
    brought(terminal, text)
    terminal.keys("q")
    assert terminal.ended() == 0
    # what was typed to the end comes after it
    again = at(moon)
    again.wait("The moon is far away.")
    brought(again, f"{text} q")
    again.keys("q")
    assert again.ended() == 0


@pytest.mark.parametrize("number", [signal.SIGKILL, signal.SIGTERM, signal.SIGHUP])
def test_what_was_typed_comes_back_after_a_signal(
    moon: Path, at: Open, number: signal.Signals
) -> None:
    terminal = at(moon)
    terminal.wait("? shows the keys.")
    terminal.keys(*"?Dawn")
    terminal.wait("That key does nothing here. Escape goes back.")
    if number == signal.SIGKILL:
        time.sleep(KEPT_SECONDS)
    terminal.send_signal(number)
    assert terminal.ended() != 0
    again = at(moon)
    again.wait("The moon is far away.")
    brought(again, "?Dawn")
    again.keys("q")
    assert again.ended() == 0


def test_what_comes_as_scribe_ends_is_noted_too(moon: Path, at: Open) -> None:
    terminal = at(moon)
    terminal.wait("? shows the keys.")
    with terminal.stopped():
        terminal.send("Dawn")
        terminal.send_signal(signal.SIGTERM)
        terminal.send_signal(signal.SIGCONT)
    terminal.ended()
    assert begun(moon).text == "Dawn"
    with Session(moon) as session:
        assert session.last_version == 7
