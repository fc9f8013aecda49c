"""Texts that wait for a book: where they are kept, and what is never read as one or written over."""

import errno
import json
import os
import shutil
import signal
import stat
import tempfile
from collections.abc import Callable, Iterator
from dataclasses import replace
from functools import partial
from pathlib import Path

import pytest
from hypothesis import HealthCheck, given, settings, strategies as st

from braildesk.desk import own_folder
from braildesk.desk.draft import Aim, Draft, Unread, draft_in
from braildesk.desk.drafts import Begun, Drafts, NotKept, NotSaved
from braildesk.desk.import_note import note_in
from braildesk.desk.own_folder import MOST_BYTES, OwnFolder
from braildesk.desk.record import NotSuch, Record
from braildesk.protocol.asked import seen
from braildesk.text.spans import Span

from scribe.words.drafts import Unsent, not_kept, taken_back_in_part
from sitting import Sit
from strangers import NEEDS_ROOT, STRANGER, as_stranger
from terminal import once_free

NOTE = Draft(Aim.NOTE, 3, "en", "The Tides", "which?\nwhy?", Span(2, 4), 9, Span(1, 3))
FORGED = {
    "purpose": "EDIT",
    "paragraph": 2,
    "table": "en",
    "before": "The Tides",
    "text": "The Tide",
    "cells": None,
    "words": None,
    "version": 7,
    "place": None,
}


@pytest.fixture
def store(tmp_path: Path, monkeypatch: pytest.MonkeyPatch) -> Path:
    """The folder of the drafts of this test, which isn't made yet."""
    monkeypatch.setenv("XDG_STATE_HOME", str(tmp_path / "home" / "state"))
    return tmp_path / "home" / "state" / "braildesk"


@pytest.fixture
def beside(moon: Path, store: Path) -> Path:
    """Where an older scribe kept the text that waits for the book `moon`."""
    return moon.with_name("moon.braildesk-unsent")


@pytest.fixture
def shared(moon_once: Path, store: Path) -> Iterator[Path]:
    """A book in a folder in which everybody may write, and that isn't sticky."""
    with tempfile.TemporaryDirectory() as folder:
        os.chmod(folder, 0o777)
        yield Path(shutil.copyfile(moon_once, Path(folder, "moon.braildesk")))


def modes(*paths: Path) -> list[str]:
    return [oct(stat.S_IMODE(path.stat().st_mode)) for path in paths]


def test_a_draft_is_kept_in_a_file_that_nobody_else_reads(
    moon: Path, store: Path
) -> None:
    mask = os.umask(0o002)
    try:
        Drafts(moon).save(NOTE)
    finally:
        os.umask(mask)
    assert modes(store.parent, store, Drafts(moon).place) == ["0o700", "0o700", "0o600"]
    assert [each.name for each in store.iterdir()] == [Drafts(moon).place.name]
    assert not moon.with_name("moon.braildesk-unsent").exists()


def test_a_folder_that_others_could_read_is_closed_to_them(
    moon: Path, store: Path
) -> None:
    store.mkdir(parents=True)
    store.chmod(0o777)
    Drafts(moon).save(NOTE)
    assert modes(store) == ["0o700"]


def test_a_draft_is_read_back_as_it_was_and_by_each_way_to_the_book(
    moon: Path, store: Path, monkeypatch: pytest.MonkeyPatch
) -> None:
    drafts = Drafts(moon)
    assert drafts.waiting() is None
    drafts.save(NOTE)
    assert drafts.waiting() == NOTE
    link = moon.with_name("link")
    link.symlink_to(moon)
    monkeypatch.chdir(moon.parent)
    for path in (link, Path("moon.braildesk"), Path("../", moon.parent.name, link)):
        assert Drafts(path).waiting() == NOTE
    assert Drafts(moon.with_name("other")).waiting() is None
    drafts.clear()
    drafts.clear()
    assert drafts.waiting() is None


def test_a_draft_goes_with_a_book_that_is_moved_and_not_with_a_copy(
    moon: Path, store: Path
) -> None:
    Drafts(moon).put_by(NOTE)
    Drafts(moon).save(NOTE)
    copy = Path(shutil.copyfile(moon, moon.with_name("copy.braildesk")))
    Drafts(copy).take_in()
    assert Drafts(copy).waiting() is None
    moved = moon.rename(moon.parent / "moved.braildesk")
    Drafts(moved).take_in()
    assert Drafts(moved).waiting() == NOTE and Drafts(moved).given_up() == (NOTE,)
    assert Drafts(moon).waiting() is None


@pytest.fixture
def in_folder(moon: Path, store: Path) -> Path:
    """A book in a folder that is renamed."""
    folder = moon.with_name("books")
    folder.mkdir()
    return moon.rename(folder / "moon.braildesk")


def test_a_text_that_was_typed_before_or_while_its_folder_was_renamed_is_offered(
    in_folder: Path, sit: Sit
) -> None:
    drafts = Drafts(in_folder)
    drafts.save(NOTE)
    for count in (2, 3):
        was, renamed = in_folder.parent, in_folder.parent.with_name(f"books{count}")
        was.rename(renamed)
        if count == 3:
            # who types on where the folder was renamed
            drafts.save(replace(NOTE, text="On."))
        in_folder = renamed / in_folder.name
        sat = sit(in_folder)
        assert sat.state.question is not None
        assert f"It was typed when the book was {was / in_folder.name}." in (
            sat.state.question.sentence
        )
        sat.desk.close()
        drafts = Drafts(in_folder)
    waits = drafts.waiting()
    assert waits and waits.text == "On."


@pytest.mark.parametrize("is_at_once", [False, True])
def test_a_text_is_offered_where_a_book_was_moved_before_another_was_put_at_its_path(
    moon: Path, store: Path, sit: Sit, is_at_once: bool
) -> None:
    sat = sit(moon)
    sat.press("o", *"It rose.")
    if not is_at_once:
        sat.state = sat.desk.save_draft(sat.state)
    moved = moon.rename(moon.with_name("moved.braildesk"))
    shutil.copyfile(moved, moon)
    sat.press(*" It set.")
    sat.state = sat.desk.save_draft(sat.state)
    # as where scribe is killed, too
    os.kill(sat.desk.pid, signal.SIGKILL)
    once_free(moved).close()
    question = sit(moved).state.question
    assert question is not None and question.sentence.startswith(
        "A text of a new paragraph was typed and isn't in the book: “It rose. It set.”."
    )


def test_a_text_is_kept_for_the_file_that_was_opened_at_the_path_by_a_key(
    moon: Path, store: Path, sit: Sit
) -> None:
    sat = sit(moon)
    away = moon.rename(moon.with_name("away.braildesk"))
    shutil.copyfile(away, moon)
    # the session sees that the file is gone
    sat.press("s", "enter", "o", *"It rose.")
    assert not sat.state.is_lost and sat.state.typed
    sat.state = sat.desk.save_draft(sat.state)
    moved = moon.rename(moon.with_name("moved.braildesk"))
    os.kill(sat.desk.pid, signal.SIGKILL)
    once_free(moved).close()
    for path in (away, moved):
        drafts = Drafts(path)
        drafts.take_in()
        waits = drafts.waiting()
        assert (waits.text if waits else "") == ("It rose." if path == moved else "")


def test_a_text_is_kept_for_the_book_that_is_opened_and_not_for_the_one_before(
    moon: Path, store: Path
) -> None:
    drafts = Drafts(moon)
    # as while another program has it open, and is waited for
    Path(shutil.copyfile(moon, moon.with_name("other.braildesk"))).replace(moon)
    drafts.see_file()
    drafts.save(NOTE)
    moved = moon.rename(moon.with_name("moved.braildesk"))
    Drafts(moved).take_in()
    assert Drafts(moved).waiting() == NOTE


def test_a_text_is_kept_once_for_a_book_whose_folder_was_renamed_while_it_was_open(
    in_folder: Path,
) -> None:
    drafts = Drafts(in_folder)
    drafts.save(NOTE)
    folder = in_folder.parent.rename(in_folder.parent.with_name("books2"))
    moved = folder / in_folder.name
    drafts.copy_to(moved)
    # who types on after that
    drafts.save(replace(NOTE, text="On."))
    again = Drafts(moved)
    again.take_in()
    waits = again.waiting()
    assert waits and waits.text == "On."
    again.clear()
    again.take_in()
    assert again.waiting() is None


def test_a_text_is_not_offered_for_a_copy_in_another_folder(
    in_folder: Path, sit: Sit
) -> None:
    Drafts(in_folder).save(NOTE)
    copied = Path(shutil.copytree(in_folder.parent, in_folder.parent.with_name("copy")))
    sat = sit(copied / in_folder.name)
    assert sat.state.question is None
    assert Drafts(in_folder).waiting() == NOTE


@pytest.mark.parametrize(
    "number, before, is_offered",
    [(2, "The Tides", True), (2, "The tides", False), (9, "The Tides", False)],
)
def test_a_text_is_offered_for_a_book_from_a_backup_that_has_the_print_where_it_was_typed(
    in_folder: Path, sit: Sit, number: int, before: str, is_offered: bool
) -> None:
    draft = Draft(Aim.AFTER, number, "en", before, "It rose.", None, 9)
    Drafts(in_folder).save(draft)
    restored = in_folder.parent.with_name("restored.braildesk")
    shutil.copyfile(in_folder, restored)
    in_folder.unlink()
    sat = sit(restored)
    asked = sat.state.question.sentence if sat.state.question else ""
    assert (
        asked.startswith(
            f"A text of a new paragraph was typed and isn't in the book: “It rose.”. It was"
            f" typed when the book was {in_folder}."
        )
        is is_offered
    )
    kept = Drafts(restored if is_offered else in_folder)
    assert kept.waiting() == draft


def test_a_text_that_was_offered_elsewhere_waits_where_its_disk_is_connected_again(
    in_folder: Path, sit: Sit
) -> None:
    draft = Draft(Aim.AFTER, 2, "en", "The Tides", "It rose.", None, 9)
    Drafts(in_folder).save(draft)
    copy = in_folder.parent.with_name("copy.braildesk")
    shutil.move(in_folder, copy)
    sit(copy).desk.close()
    assert Drafts(copy).waiting() == draft
    # another file by its number, as each is on a disk that the system numbers anew
    shutil.copyfile(copy, in_folder)
    sit(in_folder).desk.close()
    assert Drafts(in_folder).waiting() == draft and Drafts(copy).waiting() is None


@pytest.mark.parametrize("is_typed_further", [False, True])
def test_a_text_that_a_copy_was_offered_goes_with_the_moved_book_until_it_is_typed_further(
    in_folder: Path, sit: Sit, is_typed_further: bool
) -> None:
    draft = Draft(Aim.AFTER, 2, "en", "The Tides", "It rose.", None, 9)
    Drafts(in_folder).save(draft)
    copy, moved = (in_folder.with_name(f"{name}.braildesk") for name in ("a", "b"))
    shutil.copyfile(in_folder, copy)
    in_folder.rename(moved)
    sat = sit(copy)
    if is_typed_further:
        sat.press("y")
        sat.state = sat.desk.save_draft(sat.state)
    sat.desk.close()
    sit(moved).desk.close()
    waits, other = Drafts(moved), Drafts(copy)
    if is_typed_further:
        waits, other = other, waits
    found = waits.waiting()
    assert found and found.text == "It rose." and other.waiting() is None


def test_a_book_is_known_again_by_a_number_of_any_size(
    in_folder: Path, monkeypatch: pytest.MonkeyPatch
) -> None:
    stat_of = Path.stat

    def large(path: Path, **more: bool) -> os.stat_result:
        found = stat_of(path, **more)
        return os.stat_result((found[0], found.st_ino + 2**62, *found[2:]))

    monkeypatch.setattr(Path, "stat", large)
    Drafts(in_folder).save(NOTE)
    moved = in_folder.rename(in_folder.with_name("moved.braildesk"))
    Drafts(moved).take_in()
    assert Drafts(moved).waiting() == NOTE


def test_a_text_is_offered_where_a_link_leads_to_the_folder_that_was_renamed(
    in_folder: Path,
) -> None:
    Drafts(in_folder).save(NOTE)
    folder = in_folder.parent
    folder.symlink_to(folder.rename(folder.with_name("renamed")))
    Drafts(in_folder).take_in()
    assert Drafts(in_folder).waiting() == NOTE


def test_a_text_is_offered_by_another_way_to_the_book_once_that_is_open(
    moon: Path, store: Path
) -> None:
    Drafts(moon).save(NOTE)
    # as where capitals make no difference, or a folder is mounted twice
    other = moon.with_name("Moon.braildesk")
    other.hardlink_to(moon)
    Drafts(other).adopt()
    assert Drafts(other).waiting() is None and Drafts(moon).waiting() == NOTE
    Drafts(other).take_in()
    assert Drafts(other).waiting() == NOTE


def test_a_later_file_that_gets_the_inode_of_a_replaced_book_gets_none_of_its_texts(
    moon: Path, store: Path, monkeypatch: pytest.MonkeyPatch
) -> None:
    generation = 1
    monkeypatch.setattr(
        "braildesk.desk.identity.generation_of", lambda path: generation
    )
    Drafts(moon).save(NOTE)
    later = moon.rename(moon.with_name("later.braildesk"))
    shutil.copyfile(later, moon)
    generation = 2
    Drafts(later).take_in()
    assert Drafts(later).waiting() is None
    assert Drafts(moon).waiting() == NOTE


def test_of_two_drafts_that_a_moved_book_finds_none_is_lost(
    moon: Path, store: Path
) -> None:
    one, two = replace(NOTE, text="One."), replace(NOTE, text="Two.")
    Drafts(moon).save(one)
    moved = moon.rename(moon.parent / "moved.braildesk")
    Drafts(moved).save(two)
    again = moved.rename(moon.parent / "again.braildesk")
    Drafts(again).take_in()
    found = (Drafts(moon), Drafts(moved), Drafts(again))
    kept = {draft.text for each in found if (draft := each.waiting())}
    assert kept == {"One.", "Two."} and Drafts(again).waiting()


def test_texts_of_a_book_that_is_moved_to_where_another_one_had_some_are_found(
    moon: Path, store: Path
) -> None:
    other = Path(shutil.copyfile(moon, moon.with_name("other.braildesk")))
    one, two, three, four = (
        replace(NOTE, text=text, left=left)
        for left, text in enumerate(("One.", "Two.", "Three.", "Four."), 1)
    )
    for its, texts in ((Drafts(moon), (one, three)), (Drafts(other), (two, four))):
        for each in texts:
            its.put_by(each)
        its.keep_later([texts[0]])
    away = moon.rename(moon.with_name("away.braildesk"))
    other.rename(moon)
    for _ in range(2):
        its = Drafts(moon)
        its.take_in()
        assert its.given_up() == (four, three, two, one)
        assert its.later() == (two, one)
    # nor does the one that was there before lose any
    Drafts(away).take_in()
    assert Drafts(away).given_up() == (three, one)
    assert Drafts(away).later() == (one,)
    assert Drafts(other).given_up() == Drafts(other).later() == ()


@pytest.mark.parametrize("at", range(1, 7))
def test_no_text_of_a_moved_book_is_lost_where_the_machine_stops_meanwhile(
    moon: Path, store: Path, monkeypatch: pytest.MonkeyPatch, at: int
) -> None:
    other = Path(shutil.copyfile(moon, moon.with_name("other.braildesk")))
    one, two = replace(NOTE, text="One."), replace(NOTE, text="Two.")
    for its, each in ((Drafts(moon), one), (Drafts(other), two)):
        its.put_by(each)
        its.keep_later([each])
    other.rename(moon)
    left = iter([False] * (at - 1) + [True] * 9)

    def stops(deed: Callable[..., None]) -> Callable[..., None]:
        def done(*given: object) -> None:
            if next(left):
                raise KeyboardInterrupt
            deed(*given)

        return done

    with monkeypatch.context() as patched:
        for name in ("write", "remove"):
            patched.setattr(OwnFolder, name, stops(getattr(OwnFolder, name)))
        with pytest.raises(KeyboardInterrupt):
            Drafts(moon).take_in()
    its = Drafts(moon)
    its.take_in()
    assert {*its.given_up()} == {*its.later()} == {one, two}


def test_a_draft_stays_with_the_path_where_the_file_of_the_book_is_replaced(
    moon: Path, store: Path
) -> None:
    Drafts(moon).save(NOTE)
    new = Path(shutil.copyfile(moon, moon.with_name("new")))
    new.rename(moon)
    Drafts(moon).take_in()
    assert Drafts(moon).waiting() == NOTE


def test_the_last_ten_texts_that_were_given_up_are_kept(
    moon: Path, store: Path
) -> None:
    drafts = Drafts(moon)
    for number in range(12):
        drafts.put_by(Draft(Aim.AFTER, 1, "en", "", f"Text {number}."))
    texts = [each.text for each in Drafts(moon).given_up()]
    assert texts == [f"Text {number}." for number in range(11, 1, -1)]


def test_a_text_that_is_given_up_twice_is_kept_once_as_the_newest(
    moon: Path, store: Path
) -> None:
    drafts = Drafts(moon)
    for text in ("One.", "Two.", "One."):
        drafts.put_by(Draft(Aim.AFTER, 1, "en", "", text))
    assert [each.text for each in drafts.given_up()] == ["One.", "Two."]


def test_texts_that_were_kept_without_when_they_were_left_come_after_all_others(
    moon: Path, store: Path, monkeypatch: pytest.MonkeyPatch
) -> None:
    one, two, three, four = (
        Draft(Aim.AFTER, 1, "en", "", text) for text in ("One.", "Two.", "3.", "4.")
    )
    drafts = Drafts(moon)
    drafts.put_by(one)
    drafts.keep_later([two])
    unsent = Unsent(drafts)
    unsent.read()
    unsent.put_by(three)
    # also where the clock is set back
    monkeypatch.setattr("scribe.words.drafts.time_ns", lambda: 0)
    unsent.put_by(four)
    assert unsent.texts() == (four, three, two, one)


def test_texts_that_read_the_same_and_are_for_other_places_are_kept_each(
    moon: Path, store: Path
) -> None:
    others = (
        replace(NOTE, aim=Aim.AFTER),
        replace(NOTE, paragraph=2),
        replace(NOTE, words=Span(4, 9)),
        replace(NOTE, words=None),
        replace(NOTE, words=None, cells=Span(3, 4)),
        replace(NOTE, before="At Tides"),
    )
    unsent = Unsent(Drafts(moon))
    for each in (*others, NOTE, replace(NOTE, version=10), replace(NOTE, table="de")):
        unsent.put_by(each)
    newest = replace(NOTE, table="de")
    found = (newest, *reversed(others))
    assert unsent.texts() == Drafts(moon).given_up() == found
    unsent.take_up(replace(NOTE, text="whence?"), NOTE)
    assert unsent.texts() == Drafts(moon).given_up() == found[1:]


def test_long_texts_that_were_given_up_make_room_for_the_newest(
    moon: Path, store: Path
) -> None:
    texts = [Draft(Aim.AFTER, 1, "en", "", letter * 900_000) for letter in "abc"]
    unsent = Unsent(Drafts(moon))
    assert [unsent.put_by(each) for each in texts] == [
        "",
        "",
        "It is kept. 1 text given up before is kept no more for lack of room, and is here only"
        " until scribe ends.",
    ]
    assert [each.text[0] for each in unsent.texts()] == ["c", "b", "a"]
    assert [each.text[0] for each in Unsent(Drafts(moon)).texts()] == ["c", "b"]
    unsent.take_up(texts[0], texts[0])
    assert [each.text[0] for each in unsent.texts()] == ["c", "b"]


def test_a_text_that_is_kept_later_takes_no_older_one_away(
    moon: Path, store: Path, monkeypatch: pytest.MonkeyPatch
) -> None:
    texts = [Draft(Aim.AFTER, 1, "en", "", letter * 900_000) for letter in "abc"]
    unsent = Unsent(Drafts(moon))
    for each in texts[:2]:
        unsent.put_by(each)

    def full(drafts: Drafts, draft: Draft) -> tuple[Draft, ...]:
        cause = OSError(errno.ENOSPC, "No space left on device")
        raise NotSaved(Begun.GIVEN_UP, store, cause, False)

    with monkeypatch.context() as patched:
        patched.setattr(Drafts, "put_by", full)
        assert "can't be kept" in unsent.put_by(texts[2])
    unsent.keep(None)
    assert unsent.unkept == ()
    assert [each.text[0] for each in unsent.texts()] == ["c", "b", "a"]


def test_a_text_that_waits_and_finds_no_room_as_it_is_given_up_is_said_to_wait_still(
    moon: Path, store: Path, monkeypatch: pytest.MonkeyPatch
) -> None:
    Unsent(Drafts(moon)).keep(NOTE)
    unsent = Unsent(Drafts(moon))
    unsent.read()

    def full(folder: OwnFolder, name: str, data: bytes) -> None:
        raise OSError(errno.ENOSPC, os.strerror(errno.ENOSPC))

    with monkeypatch.context() as patched:
        patched.setattr(OwnFolder, "write", full)
        said = unsent.put_by(NOTE)
        unsent.keep(None)
        assert said.endswith("It waits still, and the next opening asks about it.")
        assert unsent.unkept == ()
    assert Drafts(moon).waiting() == NOTE


def test_of_texts_that_read_the_same_the_one_that_was_given_up_last_is_brought_back(
    moon: Path, store: Path, monkeypatch: pytest.MonkeyPatch
) -> None:
    unsent = Unsent(Drafts(moon))
    unsent.put_by(replace(NOTE, before="The tides"))

    def full(folder: OwnFolder, name: str, data: bytes) -> None:
        raise OSError(errno.ENOSPC, os.strerror(errno.ENOSPC))

    with monkeypatch.context() as patched:
        patched.setattr(OwnFolder, "write", full)
        assert "It is here only" in unsent.put_by(NOTE)
        assert unsent.texts() == (NOTE,)
    unsent.keep_again()
    assert Unsent(Drafts(moon)).texts() == unsent.texts() == (NOTE,)


def test_what_is_typed_is_kept_also_where_those_left_for_later_have_no_room_for_another(
    moon: Path, store: Path
) -> None:
    texts = [Draft(Aim.AFTER, 1, "en", "", letter * 1_500_000) for letter in "abc"]
    unsent = Unsent(Drafts(moon))
    for each in texts:
        unsent.keep(each)
        unsent.put_off()
    with pytest.raises(NotKept) as told:
        unsent.keep(NOTE)
    assert not_kept(told.value) == (
        f"What is left for later can't be kept in {store}: it has more than 4,194,304 bytes."
    )
    its = Drafts(moon)
    assert (its.waiting(), its.later()) == (NOTE, (texts[1], texts[0]))
    assert its.given_up() == (texts[2],)


def test_that_what_is_typed_is_not_kept_is_said_where_another_text_waits_in_its_place(
    moon: Path, store: Path, monkeypatch: pytest.MonkeyPatch
) -> None:
    first = Draft(Aim.AFTER, 1, "en", "", "It rose.")
    unsent = Unsent(Drafts(moon))
    unsent.keep(first)
    unsent.put_off()

    def full(folder: OwnFolder, name: str, data: bytes) -> None:
        raise OSError(errno.ENOSPC, os.strerror(errno.ENOSPC))

    with monkeypatch.context() as patched:
        patched.setattr(OwnFolder, "write", full)
        with pytest.raises(NotKept) as told:
            unsent.keep(NOTE)
    assert not_kept(told.value) == (
        f"What is typed can't be kept in {store}: there is no room on the disk."
    )
    assert Drafts(moon).waiting() == first
    unsent.keep(NOTE)
    assert (Drafts(moon).waiting(), Drafts(moon).later()) == (NOTE, (first,))


def test_a_text_that_is_typed_further_is_given_up_no_more_also_where_it_can_not_be_kept_yet(
    moon: Path, store: Path, monkeypatch: pytest.MonkeyPatch
) -> None:
    other = Draft(Aim.AFTER, 1, "en", "", "It rose.")
    unsent, its = Unsent(Drafts(moon)), Drafts(moon)
    for each in (other, NOTE):
        unsent.put_by(each)

    def full(folder: OwnFolder, name: str, data: bytes) -> None:
        raise OSError(errno.ENOSPC, os.strerror(errno.ENOSPC))

    with monkeypatch.context() as patched:
        patched.setattr(OwnFolder, "write", full)
        with pytest.raises(NotKept):
            unsent.take_up(NOTE, NOTE)
        # where it is kept until it is kept elsewhere
        assert (unsent.texts(), its.given_up()) == ((other,), (NOTE, other))
        further = replace(NOTE, text="which?\nwhy? So.")
        unsent.put_by(further)
        assert unsent.texts() == (further, other)
    unsent.keep(None)
    assert unsent.texts() == its.given_up() == (further, other)


def test_a_text_that_was_given_up_and_can_not_be_kept_waits_on_before_one_left_for_later(
    moon: Path, store: Path
) -> None:
    text = Draft(Aim.AFTER, 1, "en", "", "It rose.")
    unsent, its = Unsent(Drafts(moon)), Drafts(moon)
    unsent.keep(text)
    unsent.put_off()
    unsent.keep(NOTE)
    its.place.with_suffix(".given-up").symlink_to(moon)
    assert unsent.put_by(NOTE).endswith("and the next opening asks about it.")
    unsent.keep(None)
    assert (its.waiting(), its.later()) == (NOTE, (text,))
    its.place.with_suffix(".given-up").unlink()
    unsent.keep(None)
    assert (its.waiting(), its.later(), its.given_up()) == (text, (), (NOTE,))


def test_a_text_that_was_given_up_and_is_said_to_wait_still_does_once_another_one_is_typed(
    moon: Path, store: Path
) -> None:
    other = Draft(Aim.AFTER, 1, "en", "", "It rose.")
    unsent, its = Unsent(Drafts(moon)), Drafts(moon)
    unsent.keep(NOTE)
    its.place.with_suffix(".given-up").symlink_to(moon)
    assert unsent.put_by(NOTE).endswith("and the next opening asks about it.")
    unsent.keep(None)
    for typed in (other, replace(other, text="It rose. It set.")):
        unsent.keep(typed)
        assert (its.waiting(), its.later(), unsent.unkept) == (typed, (NOTE,), ())
    unsent.keep(None)
    assert (its.waiting(), its.later(), unsent.unkept) == (NOTE, (), ())
    unsent.keep(other)
    its.place.with_suffix(".given-up").unlink()
    unsent.keep(None)
    assert (its.waiting(), its.later(), its.given_up()) == (None, (), (NOTE,))


@pytest.mark.parametrize("kind", [Begun.WAITING, Begun.LATER])
def test_what_comes_after_what_can_not_be_read_is_read(
    moon: Path, store: Path, kind: Begun
) -> None:
    drafts = Drafts(moon)
    waits, later, last = (
        Draft(Aim.AFTER, 1, "en", "", text) for text in ("Waits.", "Later.", "Last.")
    )
    drafts.save(waits)
    drafts.keep_later([later])
    drafts.keep_unread(Unread("", last))
    drafts.place.with_suffix(f".{kind.value}").write_bytes(b"none")
    unsent = Unsent(Drafts(moon))
    assert [each.args[0].suffix for each in unsent.read()] == [f".{kind.value}"]
    assert unsent.came_last.endswith("“Last.”.")
    unsent.keep_unread(Unread("", NOTE))
    unsent.put_off()
    unsent.keep(None)
    unsent.keep(NOTE)
    left = later if kind is Begun.WAITING else waits
    its = Drafts(moon)
    assert (its.waiting(), its.later(), its.given_up()) == (NOTE, (left,), (last,))


def test_nothing_that_is_not_typed_comes_in_the_place_of_what_waits_and_can_not_be_read(
    moon: Path, store: Path
) -> None:
    drafts, unsent = Drafts(moon), Unsent(Drafts(moon))
    drafts.keep_later([NOTE])
    drafts.place.symlink_to(moon)
    (fault,) = unsent.read()
    assert not_kept(fault) == f"{drafts.place} can't be read: it is a link."
    unsent.keep(None)
    assert drafts.place.is_symlink() and drafts.later() == (NOTE,)
    unsent.keep(replace(NOTE, text="It rose."))
    unsent.keep(None)
    assert (drafts.waiting(), drafts.later()) == (NOTE, ())


def test_what_came_last_and_can_not_be_kept_stays_where_it_came(
    moon: Path, store: Path
) -> None:
    drafts, first = Drafts(moon), Draft(Aim.AFTER, 1, "en", "", "It rose.")
    drafts.save(first)
    drafts.keep_unread(Unread("It set.", NOTE))
    drafts.place.with_suffix(".given-up").symlink_to(moon)
    for _ in range(2):
        unsent = Unsent(Drafts(moon))
        assert len(unsent.read()) == 1
        unsent.keep_unread(None)
        assert unsent.unkept == (NOTE.text,)
        assert drafts.unread() == Unread("", NOTE)
        assert drafts.waiting() == replace(first, text="It rose.\nIt set.")


def test_a_text_that_is_too_long_is_not_kept_and_the_one_before_it_stays(
    moon: Path, store: Path
) -> None:
    drafts = Drafts(moon)
    drafts.save(NOTE)
    with pytest.raises(NotKept) as told:
        drafts.save(Draft(Aim.AFTER, 1, "en", "", "a" * MOST_BYTES))
    assert not_kept(told.value) == (
        f"What is typed can't be kept in {store}: it has more than 4,194,304 bytes."
    )
    assert drafts.waiting() == NOTE


def test_bytes_that_are_no_text_are_kept_as_characters_that_say_so(
    moon: Path, store: Path
) -> None:
    Drafts(moon).save(Draft(Aim.AFTER, 1, "en", "", "a\udc80b"))
    waits = Drafts(moon).waiting()
    assert waits and waits.text == "a\N{REPLACEMENT CHARACTER}b"


def test_what_a_killed_writer_left_is_taken_away_once_it_is_old(
    moon: Path, store: Path
) -> None:
    Drafts(moon).save(NOTE)
    old, new = store / ".x.unsent.00", store / ".y.unsent.00"
    old.touch()
    os.utime(old, (0, 0))
    new.touch()
    Drafts(moon).take_in()
    assert not old.exists() and new.exists() and Drafts(moon).waiting() == NOTE


def test_what_an_older_scribe_left_beside_the_book_is_moved_in(
    moon: Path, beside: Path, sit: Sit
) -> None:
    beside.write_text(json.dumps(FORGED))
    sat = sit(moon)
    assert " ".join(sat.lines[-2:]) == (
        "A text of paragraph 2 was typed and isn't in the book: “The Tide”. Shall it be typed"
        " further? y is yes, n is no. l leaves it for later."
    )
    assert not beside.exists()
    assert Drafts(moon).waiting() == Draft(
        Aim.EDIT, 2, "en", "The Tides", "The Tide", None, 7
    )


def test_a_text_beside_the_book_does_not_take_the_place_of_the_one_that_waits(
    moon: Path, beside: Path
) -> None:
    Drafts(moon).save(NOTE)
    beside.write_text(json.dumps(FORGED))
    Drafts(moon).take_in()
    assert Drafts(moon).waiting() == NOTE
    assert [each.text for each in Drafts(moon).given_up()] == ["The Tide"]


def forged(**more: object) -> str:
    return json.dumps(FORGED | more)


def _link(path: Path) -> None:
    path.with_name("real").write_text(forged())
    path.symlink_to("real")


def _second_name(path: Path) -> None:
    path.write_text(forged())
    os.link(path, path.with_name("real"))


def _sparse(path: Path) -> None:
    with open(path, "wb") as file:
        file.truncate(10 * 2**30)


def _written(text: str) -> Callable[[Path], object]:
    return lambda path: path.write_text(text)


ATTACKS: dict[str, tuple[Callable[[Path], object], str]] = {
    "a link": (_link, "it is a link"),
    "a link to nothing": (lambda path: path.symlink_to("none"), "it is a link"),
    "a second name": (_second_name, "it has another name too"),
    "a FIFO": (os.mkfifo, "it is no regular file"),
    "a folder": (Path.mkdir, "it is a folder"),
    "10 GB": (_sparse, "it has more than 4,194,304 bytes"),
    "deep JSON": (_written("[" * 100_000), "it is no such text"),
    "an export": (_written(forged(purpose="FOLDER")), "it is no such text"),
    "a search": (_written(forged(purpose="WORDS")), "it is no such text"),
    "no purpose": (_written(forged(purpose=1)), "it is no such text"),
    "no text": (_written(forged(text=None)), "it is no such text"),
    "half a character": (_written(forged(text="\ud800")), "it is no such text"),
    "a path as the table": (_written(forged(table="/" * 40)), "it is no such text"),
    "true as a number": (_written(forged(paragraph=True)), "it is no such text"),
    "a list": (_written("[]"), "it is no such text"),
    "not UTF-8": (lambda path: path.write_bytes(b"\xff"), "it is no such text"),
}


@pytest.mark.parametrize("what", ATTACKS)
def test_what_lies_beside_the_book_and_is_no_text_of_ones_own_stays_as_it_is(
    moon: Path, beside: Path, store: Path, sit: Sit, what: str
) -> None:
    put, why = ATTACKS[what]
    put(beside)
    before = beside.lstat()
    sat = sit(moon)
    assert sat.state.message == (
        f"{beside} isn't taken as a text that waits for the book: {why}. It was left as it is."
        " If you don't need it, remove it."
    )
    sat.press("enter", "O")
    sat.state = sat.desk.save_draft(sat.state)
    waits = sat.desk.drafts.waiting()
    assert waits and waits.text == "OThe moon is far away."
    after = beside.lstat()
    assert (after.st_ino, after.st_size, after.st_mtime_ns) == (
        before.st_ino,
        before.st_size,
        before.st_mtime_ns,
    )


def test_a_link_that_is_put_there_as_a_text_is_opened_is_not_followed(
    moon: Path, beside: Path, store: Path, monkeypatch: pytest.MonkeyPatch
) -> None:
    other = moon.with_name("other")
    for path in (beside, other):
        path.write_text(forged())
    judge = own_folder._refuse

    def judged(found: os.stat_result) -> None:
        judge(found)
        if not beside.is_symlink():
            beside.unlink()
            beside.symlink_to(other)

    monkeypatch.setattr(own_folder, "_refuse", judged)
    with pytest.raises(NotKept):
        Drafts(moon).take_in()
    assert beside.is_symlink() and other.read_text() == forged()
    assert Drafts(moon).waiting() is None


def test_a_folder_in_the_place_of_a_text_that_waits_is_set_aside(
    moon: Path, store: Path, sit: Sit
) -> None:
    place = Drafts(moon).place
    place.mkdir(parents=True)
    (place / "photo").write_text("mine")
    sat = sit(moon)
    aside = f"{place.name}.unreadable"
    assert sat.state.message == (
        f"{place} can't be read as what scribe kept there for the book. It is kept as {aside}. The"
        " book is as it was."
    )
    assert (store / aside / "photo").read_text() == "mine"
    sat.press("enter", "O")
    sat.state = sat.desk.save_draft(sat.state)
    waits = sat.desk.drafts.waiting()
    assert waits and waits.text == "OThe moon is far away."


def test_nothing_is_written_over_texts_that_were_left_for_later_and_cannot_be_read(
    tmp_path: Path, store: Path
) -> None:
    book = tmp_path / "moon.braildesk"
    book.touch()
    drafts, text = Drafts(book), Draft(Aim.AFTER, 1, "en", "", "The sun")
    place = drafts.place.with_suffix(".later")
    found = []
    for aside in (f"{place.name}.unreadable", f"{place.name}.unreadable-2"):
        drafts.keep_later([text])
        place.unlink()
        place.write_bytes(b"a" * (MOST_BYTES + 1))
        found.append(place.lstat().st_ino)
        with pytest.raises(NotKept) as caught:
            Drafts(book).later()
        assert not_kept(caught.value) == (
            f"{place} can't be read as what scribe kept there for the book. It is kept as {aside}."
            " The book is as it was."
        )
        drafts.keep_later([text])
        assert Drafts(book).later() == (text,)
        assert (store / aside).lstat().st_ino == found[-1]
    assert (store / f"{place.name}.unreadable").lstat().st_ino == found[0]


def test_a_folder_that_comes_there_while_a_text_is_typed_is_named(
    moon: Path, store: Path, sit: Sit
) -> None:
    sat = sit(moon)
    place = Drafts(moon).place
    place.mkdir(parents=True)
    sat.press("enter", "O")
    sat.state = sat.desk.save_draft(sat.state)
    assert sat.state.message == (
        f"What is typed can't be kept in {store}: {place.name} is a folder there."
    )


def test_a_link_from_a_tar_leads_no_text_into_another_file(
    moon: Path, beside: Path, sit: Sit
) -> None:
    aliases = moon.parent / ".bash_aliases"
    aliases.write_text("alias ll='ls -l'\n")
    beside.symlink_to(aliases)
    sat = sit(moon)
    sat.press("enter", "O")
    sat.state = sat.desk.save_draft(sat.state)
    sat.press("enter")
    assert sat.state.kept == "kept: correction 2 of paragraph 1"
    assert aliases.read_text() == "alias ll='ls -l'\n" and beside.is_symlink()


@NEEDS_ROOT
@pytest.mark.parametrize("kind", ["a link", "a FIFO"])
def test_what_another_user_puts_beside_a_book_while_it_is_typed_gets_no_text(
    shared: Path, sit: Sit, tmp_path: Path, kind: str
) -> None:
    mine, beside = tmp_path / ".bash_aliases", Path(f"{shared}-unsent")
    mine.write_text("alias ll='ls -l'\n")
    sat = sit(shared)
    sat.press("enter", "O")
    put = (
        partial(beside.symlink_to, mine)
        if kind == "a link"
        else partial(os.mkfifo, beside)
    )
    assert as_stranger(put) == ""
    sat.state = sat.desk.save_draft(sat.state)
    sat.press("enter")
    assert sat.state.kept == "kept: correction 2 of paragraph 1"
    assert mine.read_text() == "alias ll='ls -l'\n"


@NEEDS_ROOT
@pytest.mark.parametrize(
    "put, why",
    [
        (lambda path: path.write_text(forged()), "it belongs to another user"),
        (lambda path: os.mkfifo(path, 0o666), "it is no regular file"),
    ],
    ids=["a draft", "a FIFO"],
)
def test_nobody_is_offered_what_another_user_left_beside_the_book(
    shared: Path, sit: Sit, put: Callable[[Path], object], why: str
) -> None:
    beside = shared.with_name("moon.braildesk-unsent")
    assert as_stranger(lambda: put(beside)) == ""
    sat = sit(shared)
    assert sat.state.question is None
    assert sat.state.message == (
        f"{beside} isn't taken as a text that waits for the book: {why}. It was left as it is."
        " If you don't need it, remove it."
    )
    assert beside.lstat().st_uid == STRANGER


@NEEDS_ROOT
@pytest.mark.parametrize(
    "put, why",
    [
        (lambda path: path.mkdir(0o777), "it belongs to another user"),
        (lambda path: path.symlink_to("/root"), "Not a directory"),
    ],
    ids=["a folder", "a link"],
)
def test_what_another_user_put_in_place_of_the_folder_of_drafts_is_not_used(
    moon: Path,
    shared: Path,
    monkeypatch: pytest.MonkeyPatch,
    put: Callable[[Path], object],
    why: str,
) -> None:
    monkeypatch.setenv("XDG_STATE_HOME", str(shared.parent))
    assert as_stranger(lambda: put(shared.parent / "braildesk")) == ""
    with pytest.raises(NotKept) as told:
        Drafts(moon).save(NOTE)
    assert not_kept(told.value) == (
        f"What is typed can't be kept in {shared.parent}/braildesk: {why}."
    )
    # no file is there, of which it could be said whose it is
    unread = []
    for read in (Drafts(moon).imports, Drafts(moon).replacements):
        try:
            read()
        except NotKept as fault:
            unread.append(not_kept(fault))
    assert set(unread) <= {f"{shared.parent}/braildesk can't be read: {why}."}


@NEEDS_ROOT
def test_no_folder_is_made_in_the_home_of_another_user(
    moon: Path, tmp_path: Path, monkeypatch: pytest.MonkeyPatch
) -> None:
    # as for root where the environment is still that of the user
    home = tmp_path / "home"
    home.mkdir()
    os.chown(home, STRANGER, STRANGER)
    monkeypatch.setenv("HOME", str(home))
    monkeypatch.delenv("XDG_STATE_HOME")
    with pytest.raises(NotKept) as told:
        Drafts(moon).save(NOTE)
    assert not_kept(told.value) == (
        f"What is typed can't be kept in {home}/.local/state/braildesk: the folder above it belongs"
        " to another user."
    )
    assert not list(home.iterdir())


def test_a_draft_is_kept_where_the_file_system_can_sync_no_folder(
    moon: Path, store: Path, monkeypatch: pytest.MonkeyPatch
) -> None:
    sync = os.fsync

    def refuse_folders(number: int) -> None:
        if stat.S_ISDIR(os.fstat(number).st_mode):
            raise OSError(errno.EINVAL, "Invalid argument")
        sync(number)

    monkeypatch.setattr(os, "fsync", refuse_folders)
    Drafts(moon).save(NOTE)
    assert Drafts(moon).waiting() == NOTE
    Drafts(moon).clear()
    assert Drafts(moon).waiting() is None


def test_a_draft_that_is_unreadable_is_set_aside_and_the_book_is_opened(
    moon: Path, store: Path, sit: Sit
) -> None:
    Drafts(moon).save(NOTE)
    place = Drafts(moon).place
    place.write_text(forged(purpose="FOLDER"))
    sat = sit(moon)
    assert sat.state.question is None
    assert sat.state.message == (
        f"{place} can't be read as what scribe kept there for the book. It is kept as"
        f" {place.name}.unreadable. The book is as it was."
    )
    sat.press("s")
    assert sat.state.kept == "kept: paragraph 1 struck"
    assert (store / f"{place.name}.unreadable").read_text() == forged(purpose="FOLDER")


def test_the_desk_goes_on_where_no_home_is_known(
    moon: Path, sit: Sit, monkeypatch: pytest.MonkeyPatch
) -> None:
    def unknown(number: int) -> None:
        raise KeyError(number)

    monkeypatch.delenv("XDG_STATE_HOME")
    monkeypatch.delenv("HOME")
    monkeypatch.setattr("pwd.getpwuid", unknown)
    sat = sit(moon)
    sat.press("enter", "O")
    sat.state = sat.desk.save_draft(sat.state)
    assert sat.state.message == "What is typed can't be kept: no home folder is known."
    sat.press("enter")
    assert sat.state.kept == "kept: correction 2 of paragraph 1"


def test_the_store_lies_in_the_home_folder_where_nothing_else_is_said(
    moon: Path, tmp_path: Path, monkeypatch: pytest.MonkeyPatch
) -> None:
    monkeypatch.setenv("HOME", str(tmp_path))
    for value in ("", "relative"):
        monkeypatch.setenv("XDG_STATE_HOME", value)
        assert Drafts(moon).place.parent == tmp_path / ".local" / "state" / "braildesk"


#: Few cases, however long they take on a machine that does other work.
RANDOM = settings(
    max_examples=40, deadline=None, suppress_health_check=[HealthCheck.too_slow]
)
ANY = st.recursive(
    st.none()
    | st.booleans()
    | st.integers()
    | st.floats()
    | st.text()
    | st.sampled_from(["EDIT", "NOTE", "FOLDER", "en", "\ud800", "a\nb"]),
    lambda inner: st.lists(inner, max_size=3)
    | st.dictionaries(st.text(), inner, max_size=3),
    max_leaves=6,
)


@RANDOM
@given(st.dictionaries(st.sampled_from(list(FORGED)), ANY))
def test_only_values_of_the_right_types_are_read_as_a_draft(
    changed: dict[str, object]
) -> None:
    data = json.dumps(FORGED | changed).encode()
    try:
        found = draft_in(Record.of(data))
    except NotSuch:
        return
    assert isinstance(found.aim, Aim)
    assert found.paragraph is None or type(found.paragraph) is int
    assert found.version is None or type(found.version) is int
    assert found.place is None or type(found.place) is int and found.place >= 0
    for text in (found.before, found.text, found.table or ""):
        text.encode()
    for places in (found.cells, found.words):
        assert places is None or 0 <= places.start < places.stop
    assert draft_in(Record.of(json.dumps(found.values()).encode())) == found


BEGUN = {
    "text": "/srv/texts/text.txt",
    "digest": "0" * 64,
    "by_lines": False,
    "line": 1,
    "count": 4,
    "table": "en",
    "after": "end",
    "version": 7,
    "there": 3,
}


def test_a_text_is_kept_for_the_book_to_which_its_path_led_as_that_was_opened(
    moon: Path,
) -> None:
    other = Path(shutil.copyfile(moon, moon.with_name("other.braildesk")))
    link = moon.with_name("link")
    link.symlink_to(moon)
    path = seen(link)
    link.unlink()
    link.symlink_to(other)
    Drafts(path).save(NOTE)
    assert (Drafts(moon).waiting(), Drafts(other).waiting()) == (NOTE, None)


@RANDOM
@given(st.dictionaries(st.sampled_from(list(BEGUN)), ANY))
def test_only_values_of_the_right_types_are_read_as_a_note_of_an_import(
    changed: dict[str, object]
) -> None:
    data = json.dumps(BEGUN | changed).encode()
    try:
        found = note_in(Record.of(data))
    except NotSuch:
        return
    numbers = (found.line, found.count, found.version, found.there)
    assert all(type(number) is int and number >= 0 for number in numbers)
    assert found.after in ("front", "end") or type(found.after) is int
    os.fsencode(found.text)
    assert note_in(Record.of(json.dumps(found.values()).encode())) == found


@RANDOM
@given(st.binary(max_size=200) | ANY.map(lambda value: json.dumps(value).encode()))
def test_any_bytes_are_read_as_a_draft_or_refused(data: bytes) -> None:
    try:
        draft_in(Record.of(data))
    except NotSuch:
        pass


@pytest.mark.parametrize(
    "data",
    [b"[]", b"{", b"\xff", b"[" * 100_000],
    ids=["list", "cut", "bytes", "deep"],
)
def test_what_is_kept_is_kept_for_another_book_but_for_what_can_not_be_read(
    moon: Path, data: bytes
) -> None:
    own, other = Drafts(moon), Drafts(moon.with_name("other.braildesk"))
    own.save(NOTE)
    own.put_by(NOTE)
    own.keep_cut("far away")
    own.place.write_bytes(data)
    own.copy_to(other.book)
    assert other.waiting() is None
    assert other.given_up() == (NOTE,)
    assert other.cut() == "far away"


def test_what_is_typed_on_at_a_lost_book_replaces_nothing_that_others_type_where_it_was_saved(
    moon: Path,
) -> None:
    own, other = Drafts(moon), Drafts(moon.with_name("other.braildesk"))
    first, on, theirs, next_of_theirs = (
        replace(NOTE, text=text) for text in ("One.", "One, two.", "Theirs.", "Next.")
    )
    own.put_by(NOTE)
    own.save(first)
    own.copy_to(other.book)
    assert (other.waiting(), other.given_up()) == (first, (NOTE,))
    own.save(on)
    own.copy_to(other.book)
    assert (other.waiting(), other.given_up()) == (on, (NOTE,))
    other.put_by(theirs)
    other.save(next_of_theirs)
    own.put_by(first)
    own.copy_to(other.book)
    assert other.waiting() == on
    assert set(other.given_up()) == {first, theirs, NOTE, next_of_theirs}


def test_what_came_unread_is_taken_away_where_it_was_copied_once_it_is_elsewhere(
    moon: Path,
) -> None:
    own, other = Drafts(moon), Drafts(moon.with_name("other.braildesk"))
    ours, theirs = (Unread("", replace(NOTE, text=text)) for text in ("Ours", "Theirs"))
    for kept, left in ((ours, None), (theirs, theirs)):
        own.keep_unread(ours)
        own.copy_to(other.book)
        assert other.unread() == ours
        other.keep_unread(kept)
        own.keep_unread(None)
        own.copy_to(other.book)
        assert other.unread() == left
    own.copy_to(other.book)
    assert other.unread() == theirs


def test_what_is_typed_on_at_a_lost_book_is_found_where_its_saved_file_was_moved_on(
    moon: Path,
) -> None:
    own, saved = Drafts(moon), moon.with_name("saved.braildesk")
    shutil.copyfile(moon, saved)
    own.copy_to(saved)
    there = saved.rename(moon.with_name("moved.braildesk"))
    new = Draft(Aim.AFTER, 1, "en", "", "It rose.")
    own.save(new)
    own.copy_to(saved)
    drafts = Drafts(there)
    drafts.take_in()
    assert drafts.waiting() == new
    assert Drafts(saved).waiting() is None


def test_texts_of_a_lost_book_are_kept_where_one_that_waits_is_the_first_that_is_given_up(
    moon: Path,
) -> None:
    own, other = Drafts(moon), Drafts(moon.with_name("other.braildesk"))
    theirs, last = replace(NOTE, text="Theirs."), replace(NOTE, text="Last.")
    other.save(theirs)
    own.put_by(NOTE)
    own.save(last)
    own.copy_to(other.book)
    assert (other.waiting(), other.given_up()) == (last, (NOTE, theirs))


def test_texts_that_are_left_for_later_at_a_lost_book_stand_beside_those_where_it_was_saved(
    moon: Path,
) -> None:
    own, other = Drafts(moon), Drafts(moon.with_name("other.braildesk"))
    first, second, theirs = (
        replace(NOTE, text=text) for text in ("One.", "Two.", "Theirs.")
    )
    own.keep_later([first])
    own.copy_to(other.book)
    assert other.later() == (first,)
    other.keep_later([theirs, first])
    own.keep_later([second, first])
    own.copy_to(other.book)
    assert other.later() == (second, first, theirs)


def test_a_text_that_is_left_for_later_no_more_at_a_lost_book_is_not_where_it_was_saved(
    moon: Path,
) -> None:
    own, other = Drafts(moon), Drafts(moon.with_name("other.braildesk"))
    first, second, theirs = (
        replace(NOTE, text=text) for text in ("One.", "Two.", "Theirs.")
    )
    own.keep_later([second, first])
    own.copy_to(other.book)
    other.keep_later([theirs, *other.later()])
    own.put_by(first)
    own.keep_later([second])
    own.copy_to(other.book)
    assert (other.later(), other.given_up()) == ((second, theirs), (first,))
    own.save(second)
    own.keep_later([])
    own.copy_to(other.book)
    assert (other.later(), other.waiting()) == ((theirs,), second)


def test_what_others_cut_and_typed_where_a_lost_book_was_saved_is_not_written_over(
    moon: Path,
) -> None:
    own, other = Drafts(moon), Drafts(moon.with_name("other.braildesk"))
    own.keep_typed_last("Ours.")
    own.copy_to(other.book)
    for text in ("ours", "ours since"):
        own.keep_cut(text)
        own.copy_to(other.book)
        assert (other.cut(), other.typed_last()) == (text, "Ours.")
    other.keep_cut("theirs")
    other.keep_typed_last("Ours. Theirs.")
    other.keep_answers({"WORDS": "theirs"})
    own.keep_typed_last("Ours. Since.")
    own.keep_answers({"WORDS": "ours"})
    own.put_by(NOTE)
    own.copy_to(other.book)
    assert (other.cut(), other.typed_last()) == ("theirs", "Ours. Theirs.")
    assert other.answers() == {"WORDS": "theirs"}
    assert other.given_up() == (NOTE,)
    another = Drafts(moon.with_name("another.braildesk"))
    own.copy_to(another.book)
    assert (another.cut(), another.typed_last()) == ("ours since", "Ours. Since.")


@pytest.mark.parametrize(
    "done, said",
    [
        (0, "none of them was"),
        (1, "at most 1 of them was"),
        (2, "at most 2 of them were"),
    ],
)
def test_how_much_was_taken_back_is_said_of_one_and_of_many(
    moon: Path, done: int, said: str
) -> None:
    drafts = Drafts(moon)
    drafts.take_back(4, 3)
    assert taken_back_in_part(drafts, 4 + done) == (
        f"Taking back 3 changes was cut short: {said} taken back."
    )


def test_what_another_session_left_for_later_stays_among_what_waits(
    moon: Path, store: Path
) -> None:
    drafts = Drafts(moon)
    texts = [Draft(Aim.AFTER, 1, "en", "", f"Text {n}.") for n in range(3)]
    here, other = Unsent(drafts), Unsent(drafts)
    for unsent in (here, other):
        unsent.read()
    other.keep(texts[0])
    other.put_off()
    other.keep(texts[1])
    found = here.others()
    assert found is not None and (found[0].text, found[1]) == ("Text 1.", "")
    here.keep(texts[2])
    here.keep(None)
    assert [each.text for each in drafts.given_up()] == ["Text 1."]
    waiting = drafts.waiting()
    assert waiting is not None and waiting.text == "Text 0."


def test_what_is_left_for_later_here_waits_on_after_another_session_had_its_text_wait(
    moon: Path, store: Path
) -> None:
    drafts = Drafts(moon)
    ours, theirs = (
        Draft(Aim.AFTER, 1, "en", "", text) for text in ("Ours.", "Theirs.")
    )
    here = Unsent(drafts)
    here.read()
    here.keep(ours)
    here.put_off()
    here.keep(None)
    # in whose place it is left for later there too
    drafts.keep_later([ours])
    drafts.save(theirs)
    assert here.others() == (theirs, "")
    for _ in range(2):
        here.keep(None)
        assert (drafts.waiting(), drafts.given_up()) == (ours, (theirs,))
    assert here.texts() == (theirs, ours)


def test_what_was_left_for_later_here_and_waits_since_another_session_is_none_of_its_own(
    moon: Path, store: Path
) -> None:
    drafts = Drafts(moon)
    later, typed = (
        Draft(Aim.AFTER, 1, "en", "", text) for text in ("Later.", "Typed.")
    )
    here = Unsent(drafts)
    here.read()
    here.keep(later)
    here.put_off()
    here.keep(typed)
    # as where what is typed here was given up there
    drafts.keep_later([])
    drafts.save(later)
    assert here.others() is None
    assert (drafts.waiting(), drafts.later()) == (typed, (later,))
    assert drafts.given_up() == ()


def test_what_came_last_in_another_session_is_given_up_where_other_text_comes(
    moon: Path, store: Path
) -> None:
    drafts = Drafts(moon)
    here = Unsent(drafts)
    here.read()
    theirs = Draft(Aim.AFTER, 1, "en", "", "It set.")
    # that session was killed before it took it in
    drafts.keep_unread(Unread("It rose.", theirs))
    here.keep_unread(None)
    assert drafts.unread() is not None
    for text in ("Noon.", "Noon. Night."):
        here.keep_unread(Unread("", replace(theirs, text=text)))
        assert [each.text for each in drafts.given_up()] == ["It rose.\nIt set."]
    here.keep_unread(None)
    assert drafts.unread() is None


def test_what_others_typed_is_said_also_where_what_waits_here_can_not_be_kept_after_it(
    moon: Path, store: Path, monkeypatch: pytest.MonkeyPatch
) -> None:
    drafts = Drafts(moon)
    ours, theirs = (
        Draft(Aim.AFTER, 1, "en", "", text) for text in ("Ours.", "Theirs.")
    )
    here = Unsent(drafts)
    here.read()
    here.keep(ours)
    drafts.save(theirs)
    write = OwnFolder.write

    def full(folder: OwnFolder, name: str, data: bytes) -> None:
        if name.endswith(Begun.WAITING.value):
            raise OSError(errno.ENOSPC, os.strerror(errno.ENOSPC))
        write(folder, name, data)

    with monkeypatch.context() as patched:
        patched.setattr(OwnFolder, "write", full)
        assert here.others() == (theirs, "")
        # it is said of what is typed that it isn't kept
        with pytest.raises(NotSaved):
            here.keep(ours)
    here.keep(ours)
    assert (drafts.waiting(), drafts.given_up()) == (ours, (theirs,))


@pytest.mark.parametrize("is_taken_up", [False, True])
def test_what_was_left_for_later_waits_on_once_another_session_ended(
    store: Path, tmp_path: Path, is_taken_up: bool
) -> None:
    book = tmp_path / "book.braildesk"
    book.write_bytes(b"a book")
    drafts = Drafts(book)
    first, second = (Draft(Aim.AFTER, 1, "en", "", f"Text {n}.") for n in (1, 2))
    drafts.save(first)
    here, other = Unsent(drafts), Unsent(drafts)
    for unsent in (here, other):
        unsent.read()
        unsent.put_off()
    if is_taken_up:
        other.take_on(first)
    other.keep(second)
    assert here.others() == (second, "")
    here.keep(None)
    assert drafts.waiting() == (None if is_taken_up else first)
    here.keep(second)
    here.keep(None)
    assert drafts.waiting() == (None if is_taken_up else first)
    assert [each.text for each in drafts.given_up()] == ["Text 2."]


def test_a_text_of_another_session_is_given_up_where_one_of_this_is_kept_in_its_place(
    store: Path, tmp_path: Path
) -> None:
    book = tmp_path / "book.braildesk"
    book.write_bytes(b"a book")
    drafts = Drafts(book)
    ours, more, theirs = (
        Draft(Aim.AFTER, 1, "en", "", text) for text in ("Ours", "Ours, too", "Theirs")
    )
    here, other = Unsent(drafts), Unsent(drafts)
    # as where the session of this one was lost, and more is typed in both
    here.keep(ours)
    other.keep(theirs)
    assert (drafts.waiting(), drafts.given_up()) == (theirs, (ours,))
    here.keep(more)
    assert (drafts.waiting(), drafts.given_up()) == (more, (theirs, ours))
    # the book has it, and not what waits in its place
    other.keep(None)
    assert (drafts.waiting(), drafts.given_up()) == (None, (more, theirs, ours))


def typing(store: Path, tmp_path: Path) -> tuple[Drafts, Callable[[str], None]]:
    """Where a lost session keeps what is typed there in turn with another one, and what types in that."""
    book = tmp_path / "book.braildesk"
    book.write_bytes(b"a book")
    here, other = Unsent(Drafts(book)), Unsent(Drafts(book))
    turns = list[str]()

    def typed(text: str) -> None:
        other.keep(Draft(Aim.AFTER, 1, "en", "", text))
        turns.append("o")
        here.keep(Draft(Aim.AFTER, 2, "en", "", "".join(turns)))

    return Drafts(book), typed


def test_a_text_that_is_typed_on_in_another_session_takes_the_place_of_what_it_was(
    store: Path, tmp_path: Path
) -> None:
    drafts, typed = typing(store, tmp_path)
    drafts.put_by(NOTE)
    for length in range(1, 15):
        typed("The sun rose again."[:length])
    texts = [each.text for each in drafts.given_up()]
    assert texts == ["The sun rose a", "o" * 13, NOTE.text]


def test_a_text_of_another_session_takes_the_place_of_no_other_one(
    store: Path, tmp_path: Path
) -> None:
    drafts, typed = typing(store, tmp_path)
    # one that was given up before reads as the front of it
    drafts.put_by(Draft(Aim.AFTER, 1, "en", "", "The", left=1))
    for text in ("The", "The sun", "The moon", "The moon rose", "The moon"):
        typed(text)
    found = [each.text for each in drafts.given_up() if each.paragraph == 1]
    assert found == ["The moon", "The moon rose", "The sun", "The"]
    # and one that was given up since
    drafts.put_by(Draft(Aim.AFTER, 1, "en", "", "The moon", left=2**40))
    typed("The moon set")
    found = [each.text for each in drafts.given_up() if each.paragraph == 1]
    assert found[:2] == ["The moon set", "The moon"]


def test_no_text_of_this_session_is_given_up_as_one_of_another(
    store: Path, tmp_path: Path
) -> None:
    book = tmp_path / "book.braildesk"
    book.write_bytes(b"a book")
    drafts = Drafts(book)
    here = Unsent(drafts)
    # what came in bytes that aren't UTF-8 has no character where it is kept
    for text in ("M", "M\udcff", "M\udcffn", ""):
        here.keep(Draft(Aim.AFTER, 1, "en", "", text) if text else None)
    assert (drafts.waiting(), drafts.given_up()) == (None, ())


def test_what_waits_is_kept_again_at_the_end_where_its_folder_was_taken_away(
    moon: Path, store: Path, sit: Sit
) -> None:
    sat = sit(moon)
    sat.press("o", *"It rose.")
    sat.state = sat.desk.save_draft(sat.state)
    waiting = Drafts(moon).waiting()
    assert waiting is not None and waiting.text == "It rose."
    shutil.rmtree(store)
    # as where it is told to end
    sat.state = sat.desk.saved(sat.state)
    assert Drafts(moon).waiting() == waiting
