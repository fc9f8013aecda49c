"""What concerns the whole book on the screen: words that are changed everywhere, and its volumes."""

import os
import signal
from dataclasses import replace
from pathlib import Path

import pytest

import braildesk
from braildesk import Done, Session
from braildesk.desk.change_note import Became, ChangeNote, NotedPlace
from braildesk.desk.draft import Aim, Draft
from braildesk.desk.drafts import Drafts
from braildesk.desk.layout import PageSize
from braildesk.desk.own_folder import OwnFolder, Unfit, state_folder
from braildesk.desk.ranges import ParagraphRange
from braildesk.pipe import Pipe

from scribe.screen import whole_book
from scribe.screen.field import Field, Purpose
from scribe.screen.state import HEAD_LINE, Size
from sitting import Sat, Sit
from stand_in import ANSWERED, KEPT, KILL_PROGRAM, KILL_SCRIBE, READ, WAIT
from terminal import Open, once_free, standing_in

TIDES = "The tide comes, and the Tide goes; no tideway is as it was."


@pytest.fixture
def tides(book: Path) -> Path:
    """A book in which the tide stands in three paragraphs, once with a capital and once in a word."""
    with Session(book) as session:
        for text in ("The tide", TIDES, "A struck page", "The end"):
            session.add_paragraph("end", "en", text)
        session.strike(3)
        session.add_mark(2, 5, 4, "which?")
    return book


def asked(sat: Sat, old: str, new: str) -> None:
    """Asks for words and for what comes in their place."""
    sat.press("c", *old, "enter", *new, "enter")


def prints(book: Path) -> list[str]:
    """The prints of a book's first two paragraphs."""
    with Session(book) as session:
        return [session.print_of(1), session.print_of(2)]


def test_each_place_is_shown_before_and_after_and_nothing_is_changed_yet(
    tides: Path, sit: Sit
) -> None:
    sat = sit(tides)
    sat.press("c")
    assert sat.lines[-1].rstrip() == "Words to change:"
    assert sat.state.heard == "Each place is shown as it is asked about."
    sat.press(*"tide", "enter")
    assert sat.lines[-1].rstrip() == "In their place:"
    assert sat.state.heard == (
        "Enter alone takes “tide” out. Each place is shown as it is asked about."
    )
    version = sat.state.version
    sat.press(*"flood", "enter")
    pages = sat.state.pages
    assert pages is not None
    assert pages.title == "3 places of “tide”, to be “flood”."
    assert pages.lines == (
        "Place 1 of 3, paragraph 1: The [tide]",
        "After: The [flood]",
        "Place 2 of 3, paragraph 2: The [tide] comes, and the Tide goes; no tideway is…",
        "After: The [flood] comes, and the Tide goes; no tideway is as it was.",
        "Place 3 of 3, paragraph 2: …comes, and the Tide goes; no [tide]way is as it was.",
        "After: The tide comes, and the Tide goes; no [flood]way is as it was.",
    )
    assert sat.lines[-1].startswith("y changes it  n leaves it  a all  ? keys")
    sat.press("escape")
    assert sat.state.pages is None and sat.state.version == version
    assert sat.state.message == "The other places stay as they are."


def test_all_places_are_changed_by_one_key_and_taken_back_by_one(
    tides: Path, sit: Sit
) -> None:
    sat = sit(tides, by="anna")
    asked(sat, "tide", "flood")
    sat.press("a")
    pages = sat.state.pages
    assert pages is not None and pages.lines == (
        "“tide” was replaced by “flood” in 3 places of 2 paragraphs.",
        f"The book is at version {sat.state.version}.",
        "This touched mark 1.",
    )
    assert sat.state.kept == "kept: 3 corrections"
    sat.press("escape")
    assert "The flood" in "\n".join(sat.lines)
    sat.press("u")
    assert sat.state.question is not None
    assert sat.state.question.sentence == (
        "This was done last and isn't taken back: “tide” was replaced by “flood” in 3 places of 2"
        " paragraphs. Shall all of it be taken back?"
    )
    sat.press("y")
    sat.state = sat.desk.away(sat.state, lambda _: None)
    sat.desk.close()
    assert prints(tides) == ["The tide", TIDES]
    with Session(tides) as session:
        assert [each.who for each in session.history_of(2)][:2] == ["anna", "anna"]


def test_places_are_changed_and_left_one_by_one(tides: Path, sit: Sit) -> None:
    sat = sit(tides)
    asked(sat, "tide", "flood")
    sat.press("down", "n")
    assert sat.state.message == "It stays as it is. 2 more places."
    sat.press("y")
    assert sat.state.message == (
        "Paragraph 2 is changed. This touched mark 1. 1 more place."
    )
    assert sat.state.pages and sat.state.pages.lines == (
        "Place 1 of 3, left, paragraph 1: The [tide]",
        "After: The [flood]",
        "Place 2 of 3, changed, paragraph 2: The [flood] comes, and the Tide goes; no…",
        "Before: The [tide] comes, and the Tide goes; no tideway is as it was.",
        "Place 3 of 3, paragraph 2: …comes, and the Tide goes; no [tide]way is as it was.",
        "After: The flood comes, and the Tide goes; no [flood]way is as it was.",
    )
    # the cursor is on the one that is left, and a place is changed once
    sat.press("y")
    assert sat.state.message == "Paragraph 2 is changed. No more places."
    version = sat.state.version
    sat.press("y", "a")
    assert sat.state.version == version
    assert sat.state.message == "There are no more places to change in this list."
    sat.press("escape", "u")
    assert sat.state.message == "Taken back: paragraph 2 was corrected."
    sat.desk.close()
    assert prints(tides) == ["The tide", TIDES.replace("The tide", "The flood")]


@pytest.mark.parametrize("last", ["y", "a"])
def test_the_cursor_is_on_the_place_at_which_one_change_is_taken_back(
    tides: Path, sit: Sit, last: str
) -> None:
    sat = sit(tides)
    asked(sat, "tide", "flood")
    sat.press("n", "n", last, "escape")
    assert (sat.state.chosen, sat.state.place) == (0, 0)
    sat.press("u")
    assert (sat.state.chosen, sat.state.place) == (1, TIDES.index("tideway"))
    assert sat.state.message.startswith("Taken back: ") and not sat.state.deeds
    sat.desk.close()
    assert prints(tides) == ["The tide", TIDES]


def test_what_was_done_last_is_said_also_once_something_later_was_taken_back(
    tides: Path, sit: Sit
) -> None:
    sat = sit(tides)
    for old, new in (("tide", "flood"), ("flood", "sea")):
        asked(sat, old, new)
        sat.press("a", "escape")
    sat.press("u", "y")
    sat.state = sat.desk.away(sat.state, lambda _: None)
    sat.press("u")
    assert sat.state.question is not None
    assert sat.state.question.sentence == (
        "This was done last and isn't taken back: “tide” was replaced by “flood” in 3 places of 2"
        " paragraphs. Shall all of it be taken back?"
    )


def test_places_that_were_changed_or_left_before_all_the_others_are_counted_too(
    tides: Path, sit: Sit
) -> None:
    sat = sit(tides)
    asked(sat, "tide", "flood")
    sat.press("down", "n", "y", "a")
    assert sat.state.pages and sat.state.pages.lines == (
        "“tide” was replaced by “flood” in 2 places of 1 paragraph.",
        "1 place stays as before.",
        f"The book is at version {sat.state.version}.",
    )
    # and what the last key did is taken back alone
    sat.press("escape", "u")
    assert sat.state.message == (
        "Taken back: “tide” was replaced by “flood” in 1 place of 1 paragraph."
    )
    sat.desk.close()
    assert prints(tides) == ["The tide", TIDES.replace("The tide", "The flood")]


def test_places_that_were_changed_in_another_list_of_the_words_are_counted_too(
    tides: Path, sit: Sit
) -> None:
    sat = sit(tides)
    asked(sat, "tide", "flood")
    sat.press("down", "y", "w", "a")
    assert sat.state.pages and sat.state.pages.lines[0] == (
        "“tide” was replaced by “flood” in 2 places of 2 paragraphs."
    )


def test_a_thousand_places_are_counted_as_other_things_are(
    book: Path, sit: Sit
) -> None:
    with Session(book) as session:
        session.add_paragraph("end", "en", "a " * 999 + "a")
    sat = sit(book)
    asked(sat, "a", "b")
    sat.press("down", "y")
    assert sat.state.pages
    first, _, second, _ = sat.state.pages.lines[:4]
    assert first.startswith("Place 1 of 1,000, changed, paragraph 1: [b] a a ")
    assert second.startswith("Place 2 of 1,000, paragraph 1: b [a] a ")


@pytest.mark.parametrize("size", [Size(24, 16), Size(200, 60)])
def test_a_terminal_of_another_size_has_the_same_place_under_the_cursor(
    tides: Path, sit: Sit, size: Size
) -> None:
    sat = sit(tides)
    asked(sat, "tide", "flood")
    sat.press("down", "n", "?")
    sat.state = sat.desk.resized(sat.state, size)
    sat.press("escape", "y")
    assert sat.state.message.startswith("Paragraph 2 is changed. This touched mark 1.")
    sat.state = sat.desk.resized(sat.state, Size(80, 24))
    sat.press("y", "home")
    sat.state = sat.desk.resized(sat.state, size)
    assert sat.state.pages and sat.state.pages.place == HEAD_LINE
    sat.desk.close()
    assert prints(tides) == ["The tide", TIDES.replace("tide", "flood")]


def test_the_keys_of_both_lists_name_those_that_move_in_it(
    tides: Path, sit: Sit
) -> None:
    for keys, first in (
        (("c", *"tide", "enter", "enter"), "y: changes this place"),
        (("V",), "v: proposes volumes of at most so many pages"),
    ):
        sat = sit(tides)
        sat.press(*keys, "?")
        assert sat.state.pages and sat.state.pages.lines[0] == first
        assert sat.state.pages.lines[-4:-1] == (
            "Up, Down: to the line before, after",
            "Page Up, Page Down: a screen back, on",
            "Home, End: to the first line, to the last",
        )
        sat.desk.close()


def test_words_that_stand_side_by_side_are_taken_out_one_by_one(
    book: Path, sit: Sit
) -> None:
    with Session(book) as session:
        session.add_paragraph("end", "en", "ababab.")
    sat = sit(book)
    asked(sat, "ab", "")
    sat.press("down", "y", "y", "y")
    assert sat.state.message == "Paragraph 1 is changed. No more places."
    sat.desk.close()
    with Session(book) as session:
        assert session.print_of(1) == "."


def test_a_place_that_is_changed_says_by_which_keys_the_newest_change_goes(
    tides: Path, sit: Sit
) -> None:
    sat = sit(tides)
    asked(sat, "tide", "flood")
    # the second place is changed last, and the first one is looked at
    sat.press("down", "y", "y", "home", "down", "y")
    assert sat.state.message == (
        "This place is changed already. Escape, then u, takes back the newest change."
    )
    sat.press("escape", "u")
    sat.desk.close()
    assert prints(tides) == ["The flood", TIDES]


def test_whole_words_and_other_capitals_are_chosen_in_the_list(
    tides: Path, sit: Sit
) -> None:
    sat = sit(tides)
    asked(sat, "tide", "flood")
    sat.press("w")
    assert sat.state.pages
    assert sat.state.pages.title == "2 places of “tide”, as whole words, to be “flood”."
    sat.press("c")
    assert sat.state.pages.title == (
        "3 places of “tide”, as whole words, whatever the capitals, to be “flood”."
    )
    sat.press("w", "a", "escape")
    sat.desk.close()
    assert prints(tides)[1] == (
        "The flood comes, and the Flood goes; no floodway is as it was."
    )


@pytest.mark.parametrize("keys", ["ww", "cc", "c", "cwwc"])
def test_what_was_left_stays_left_in_other_lists_of_the_same_words(
    tides: Path, sit: Sit, keys: str
) -> None:
    sat = sit(tides)
    asked(sat, "tide", "the flood")
    # the third is a part of a word, and the text before it becomes longer
    sat.press("down", "n", "down", "down", "down", "down", "n", "y", *keys)
    pages = sat.state.pages
    assert pages is not None
    assert [line for line in pages.lines if ", left, " in line] == [
        f"Place 1 of {len(pages.lines) // 2}, left, paragraph 1: The [tide]",
        f"Place {len(pages.lines) // 2} of {len(pages.lines) // 2}, left, paragraph 2:"
        " …and the Tide goes; no [tide]way is as it was.",
    ]
    sat.press("a", "escape")
    sat.desk.close()
    gone = TIDES.replace("The tide", "The the flood")
    if keys == "c":
        gone = gone.replace("the Tide", "the The flood")
    assert prints(tides) == ["The tide", gone]


def test_what_was_put_in_is_no_place_of_other_lists_of_the_same_words(
    tides: Path, sit: Sit
) -> None:
    sat = sit(tides)
    asked(sat, "tide", "tides")
    sat.press("down", "y", "y", "y", "c")
    assert sat.state.pages and sat.state.pages.lines == (
        "Place 1 of 1, paragraph 2: …tides comes, and the [Tide] goes; no tidesway is as…",
        "After: The tides comes, and the [Tides] goes; no tidesway is as it was.",
    )
    sat.press("a", "escape")
    asked(sat, "comes", "comes in")
    sat.press("down", "y", "c")
    assert sat.state.message == "There are no more places to change."
    sat.desk.close()
    tides_come = TIDES.replace("tide", "tides").replace("Tide", "Tides")
    assert prints(tides) == ["The tides", tides_come.replace("comes", "comes in")]


def test_it_is_said_as_what_no_place_is_left_to_change(tides: Path, sit: Sit) -> None:
    sat = sit(tides)
    asked(sat, "tide", "tides")
    sat.press("down", "y", "y", "w")
    assert sat.state.message == "There are no more places to change as whole words."
    # the list is as it was, with the place in a longer word
    assert sat.state.pages and sat.state.pages.title.startswith(
        "3 places of “tide”, to"
    )
    sat.press("escape")
    asked(sat, "THE END", "The rest")
    sat.press("y", "c")
    assert sat.state.pages and sat.state.pages.title.startswith("1 place")
    assert (
        sat.state.message == "There are no more places to change with these capitals."
    )


def test_words_that_stand_nowhere_are_said_and_those_with_other_capitals_are_shown(
    tides: Path, sit: Sit
) -> None:
    sat = sit(tides)
    asked(sat, "ebb", "flood")
    assert sat.state.pages is None
    assert (
        sat.state.message
        == "“ebb” isn't in the print of the book. Nothing was changed."
    )
    asked(sat, "THE END", "the rest")
    assert sat.state.message == ("These have other capitals. After shows what comes.")
    asked_for = sat.state.pages
    assert asked_for and asked_for.lines[1] == "After: [The rest]"
    sat.press("escape")
    asked(sat, "tide", "tide")
    assert sat.state.pages is None and "the same" in sat.state.message


def test_what_the_book_refuses_stays_and_is_said_with_the_reason(
    tides: Path, sit: Sit
) -> None:
    sat = sit(tides)
    asked(sat, "tide", "tide☃")
    sat.press("down", "y")
    assert "has no cells for “☃”" in sat.state.message
    assert sat.state.pages and len(sat.state.pages.lines) == 6
    sat.press("a")
    assert sat.state.pages.title == "Nothing was changed."
    lines = sat.state.pages.lines
    assert lines[:2] == (
        "“tide” was replaced by “tide☃” nowhere.",
        "3 places were refused and stay as before.",
    )
    assert lines[3].startswith(
        "Refused in paragraph 1, character 5: The table of paragraph 1 has no"
    )
    assert sat.state.deeds == ()


def test_many_places_are_changed_beside_the_screen(
    tides: Path, sit: Sit, monkeypatch: pytest.MonkeyPatch
) -> None:
    monkeypatch.setattr(whole_book, "_FEW", 2)
    sat = sit(tides)
    asked(sat, "tide", "flood")
    sat.press("a")
    assert sat.state.message == "Please wait." and sat.state.away
    said: list[str] = []
    sat.state = sat.desk.away(sat.state, said.append)
    assert said == [f"{n} of 3 done." for n in (1, 2, 3)]
    assert sat.state.pages and sat.state.pages.title == "Changed."


@pytest.fixture
def chapters(book: Path) -> Path:
    """A book of one volume with three chapters, each of a heading and a paragraph."""
    with Session(book) as session:
        for name in ("The Moon", "The Tides", "The End"):
            number = session.add_paragraph("end", "en", name).id
            session.set_style(number, "heading")
            session.add_paragraph("end", "en", "The sea comes up and goes. " * 20)
    return book


def test_many_pasted_lines_are_typed_beside_the_screen_up_to_a_signal(
    tides: Path, sit: Sit
) -> None:
    sat, heard = sit(tides), list[str]()
    lines = [f"Line {number}." for number in range(1, 31)]
    sat.press("c-end", "o")
    sat.state = sat.desk.paste(sat.state, "\n".join(lines))
    sat.press("y")
    count, version = len(sat.state.book), sat.state.version
    assert sat.state.away and sat.state.message == "Please wait."

    def report(line: str) -> None:
        heard.append(line)
        if line == "11 of 30 done.":
            sat.desk.stop(signal.SIGTERM)

    sat.state = sat.desk.away(sat.state, report)
    assert heard[-1] == "11 of 30 done."
    assert (len(sat.state.book), sat.state.version) == (count + 12, version + 12)
    sat.state = sat.desk.saved(sat.state)
    sat.desk.close()
    sat = sit(tides)
    sat.press("y", "y")
    # so few are typed at once
    assert sat.state.away is None and sat.state.typed == Field(Purpose.AFTER)
    sat.desk.close()
    with Session(tides) as session:
        assert [session.print_of(number) for number in range(5, 35)] == lines


def test_pasted_lines_take_time_that_grows_with_them_and_not_with_the_square(
    tides: Path, sit: Sit, monkeypatch: pytest.MonkeyPatch
) -> None:
    sent, kept = list[bytes](), list[int]()
    send, write = Pipe.send, OwnFolder.write

    def counted(pipe: Pipe, data: bytes) -> None:
        sent.append(data)
        send(pipe, data)

    def measured(folder: OwnFolder, name: str, data: bytes) -> None:
        kept.append(len(data))
        write(folder, name, data)

    sat = sit(tides)
    lines = [f"Line {number}." for number in range(1, 401)]
    sat.press("o")
    sat.state = sat.desk.paste(sat.state, "\n".join(lines))
    sat.press("y")
    monkeypatch.setattr(Pipe, "send", counted)
    monkeypatch.setattr(OwnFolder, "write", measured)
    sat.state = sat.desk.away(sat.state, lambda line: None)
    typed = [data for data in sent if b"type " in data]
    assert len(typed) == 400
    # what is listed and drawn after the first of them, and after the last one
    assert len(sent) - 400 < 80
    assert sent.count(b"list\n") == 2
    # what waits is kept in steps, each of which is by an eighth smaller than the one before
    assert 20 < len(kept) < 60
    assert sum(kept) < 12 * kept[0]
    assert sat.state.typed == Field(Purpose.AFTER) and sat.state.question is None
    assert [len(deed.back) for deed in sat.state.deeds] == [400]
    assert sat.desk.drafts.waiting() is None
    sat.desk.close()
    with Session(tides) as session:
        numbers = [each.id for each in session.paragraphs()]
        assert numbers == [1, *range(5, 405), 2, 3, 4]
        assert [session.print_of(number) for number in numbers[1:-3]] == lines


@pytest.mark.parametrize("is_ended", [False, True])
def test_what_is_typed_while_pasted_lines_are_typed_is_kept(
    tides: Path, at: Open, is_ended: bool
) -> None:
    queue = tides.with_name("queue")
    os.mkfifo(queue)
    lines = [f"Line {number}." for number in range(1, 31)]
    terminal = at(tides, **standing_in(3, KEPT, WAIT, str(queue)))
    terminal.wait("? shows the keys.")
    terminal.keys("o", "\n".join(lines))
    terminal.wait("Are they 30 paragraphs?")
    terminal.answer("y")
    queue.read_bytes()
    # so few letters at once are no paste
    terminal.send("Go")
    terminal.await_read()
    if is_ended:
        terminal.send_signal(signal.SIGTERM)
        terminal.wait_left()
    queue.write_bytes(b"")
    if is_ended:
        assert terminal.ended() == -signal.SIGTERM
    else:
        terminal.wait("New paragraph after paragraph 34")
        shown = terminal.wait("Go")
        assert not any("Please wait." in line for line in shown)
        terminal.keys("enter", "escape", "q")
        assert terminal.ended() == 0
    with once_free(tides) as session:
        count = len(session.paragraphs())
        there = [session.print_of(number) for number in range(5, count + 1)]
    waiting = Drafts(tides).waiting()
    left = waiting.text.split("\n") if waiting else []
    assert [*there, *left] == [*lines, "Go"]
    assert bool(left) is is_ended


def test_volumes_are_listed_with_their_pages_and_gone_to(
    chapters: Path, sit: Sit
) -> None:
    count = braildesk.export(chapters, 1, 28, 8).count(b"\f")
    sat = sit(chapters)
    sat.state = replace(sat.state, page_size=PageSize(28, 8))
    sat.press("c-end", "V")
    pages = sat.state.pages
    assert pages is not None
    assert pages.title == f"1 volume, {count} pages of 8 lines of 28 cells."
    assert pages.lines == (
        f"Volume 1: {count} pages, from paragraph 1, heading: The Moon",
    )
    sat.press("down", "enter")
    assert (sat.state.chosen, sat.state.pages) == (0, None)


def test_volumes_are_proposed_set_and_taken_back(chapters: Path, sit: Sit) -> None:
    sat = sit(chapters)
    sat.state = replace(sat.state, page_size=PageSize(28, 8))
    sat.press("V", "v")
    assert sat.lines[-1].rstrip() == "Most pages of a volume:"
    sat.press(*"0", "enter")
    assert sat.state.message == "That is no number of pages, such as 80."
    sat.press("backspace", *"4", "enter")
    pages = sat.state.pages
    assert pages is not None
    assert pages.title == "Proposed: 3 volumes, 12 pages of 8 lines of 28 cells."
    assert pages.lines == (
        "Paragraphs 3 and 5 would begin a volume; y does it.",
        "Volume 1: 4 pages, from paragraph 1, heading: The Moon",
        "Volume 2: 4 pages, from paragraph 3, heading: The Tides",
        "Volume 3: 4 pages, from paragraph 5, heading: The End",
    )
    assert not any(each.begins_volume for each in sat.state.book)
    sat.press("y")
    assert sat.state.message == (
        f"Paragraphs 3 and 5 begin a volume now. The book is at version {sat.state.version}."
    )
    assert sat.state.pages and sat.state.pages.title.startswith("3 volumes, 12 pages")
    assert [each.id for each in sat.state.book if each.begins_volume] == [3, 5]
    sat.press("escape", "u", "y")
    sat.state = sat.desk.away(sat.state, lambda _: None)
    assert not any(each.begins_volume for each in sat.state.book)


def test_volumes_that_were_set_before_one_was_refused_are_said_and_taken_back(
    chapters: Path, sit: Sit, monkeypatch: pytest.MonkeyPatch
) -> None:
    set_begins_volume = Session.set_begins_volume

    def refusing(session: Session, number: int, begins: bool) -> Done:
        return set_begins_volume(session, 99 if number == 5 else number, begins)

    sat = sit(chapters)
    sat.state = replace(sat.state, page_size=PageSize(28, 8))
    sat.press("V", "v", "4", "enter")
    monkeypatch.setattr(Session, "set_begins_volume", refusing)
    sat.press("y")
    assert sat.state.message == (
        "The book has no paragraph 99: it has the paragraphs 1 to 6. Paragraph 3 begins a volume"
        f" now. The book is at version {sat.state.version}."
    )
    monkeypatch.undo()
    sat.press("escape", "u")
    assert sat.state.message == "Taken back: volumes were set at 1 paragraph."
    assert not any(each.begins_volume for each in sat.state.book)


def test_the_volumes_stay_in_sight_while_a_number_is_typed(
    chapters: Path, sit: Sit
) -> None:
    sat = sit(chapters)
    sat.press("V")
    listed = sat.lines[1:4]
    assert listed[0].startswith("1 volume, ")
    sat.press("v", "f1")
    assert sat.lines[1].startswith("Keys while typing.")
    sat.press("escape", "1")
    sat.state = sat.desk.paste(sat.state, "2")
    assert (sat.lines[1:4], sat.lines[-1]) == (listed, "Most pages of a volume: 12")
    sat.press("escape")
    assert (sat.lines[1:4], sat.state.typed) == (listed, None)
    assert sat.state.message == "Given up. The book is as it was."
    sat.press("escape")
    assert sat.state.pages is None


def test_a_paragraph_that_no_volume_can_have_is_said(chapters: Path, sit: Sit) -> None:
    sat = sit(chapters)
    sat.state = replace(sat.state, page_size=PageSize(28, 8))
    sat.press("V", "v", *"1", "enter")
    assert sat.state.pages and sat.state.pages.title.startswith("1 volume, ")
    assert sat.state.message.startswith("Paragraph 2 has ")
    assert sat.state.message.endswith("Nothing was changed.")


def test_words_are_changed_on_a_small_terminal_as_they_are_heard(
    tides: Path, at: Open
) -> None:
    screen = at(tides, 40, 12)
    screen.wait("? shows the keys.")
    screen.keys("c", "tide", "enter", "flood", "enter")
    lines = screen.wait("3 places of")
    assert lines[1].startswith("3 places of “tide”, to be “flood”.")
    assert lines[-1].startswith("y changes it  n leaves it  a all")
    screen.keys("down", "y")
    screen.wait("Paragraph 1 is changed. 2 more places.")
    screen.keys("a")
    screen.wait("Changed. Lines 1 to")
    screen.keys("escape", "q")
    assert screen.ended() == 0
    assert prints(tides)[1].count("flood") == 2


@pytest.mark.parametrize(
    "far, changes", [(READ, "1 change"), (KEPT, "2 changes"), (ANSWERED, "2 changes")]
)
def test_a_change_that_was_cut_short_is_taken_back_and_then_what_was_done_before(
    tides: Path, sit: Sit, monkeypatch: pytest.MonkeyPatch, far: str, changes: str
) -> None:
    # the session ends before the second of the places is changed, or before that is seen
    with monkeypatch.context() as patched:
        for name, value in standing_in(3, far, KILL_PROGRAM).items():
            patched.setenv(name, value)
        sat = sit(tides)
    sat.press("enter", "O", " ", "enter")
    version = sat.state.version
    asked(sat, "tide", "sea")
    sat.press("a")
    assert sat.state.message == (
        "The session was ended by signal 9. The book was opened again: it is at version"
        f" {version + int(changes[0])}. What was being done was stopped after {changes}. The places"
        " are listed as they are now."
    )
    assert f"last kept: {changes}" in sat.lines[0]
    sat.press("escape", "u")
    places = "1 place of 1 paragraph" if far == READ else "2 places of 2 paragraphs"
    done = f"“tide” was replaced by “sea” in {places}"
    if far != READ:
        assert sat.state.question and done in sat.state.question.sentence
        sat.press("y")
        sat.state = sat.desk.away(sat.state, print)
    assert sat.state.message == f"Taken back: {done}."
    assert sat.state.openings[1].words == "O The tide"
    sat.press("u")
    assert sat.state.message == "Taken back: paragraph 1 was corrected."
    sat.desk.close()
    assert prints(tides) == ["The tide", TIDES]


@pytest.mark.parametrize("far", [READ, KEPT])
def test_a_change_that_was_cut_short_and_taken_back_is_not_asked_about_again(
    tides: Path, sit: Sit, monkeypatch: pytest.MonkeyPatch, far: str
) -> None:
    # as above, and a place is gone to, so that the list is there no more and nothing was left
    with monkeypatch.context() as patched:
        for name, value in standing_in(2, far, KILL_PROGRAM).items():
            patched.setenv(name, value)
        sat = sit(tides)
    asked(sat, "tide", "sea")
    sat.press("a", "enter")
    assert len(Drafts(tides).changes()) == 1
    sat.press("u")
    if far != READ:
        sat.press("y")
        sat.state = sat.desk.away(sat.state, print)
    assert sat.state.message.startswith("Taken back: “tide” was replaced by “sea”")
    assert Drafts(tides).changes() == ()


@pytest.mark.parametrize("far", [READ, KEPT, ANSWERED])
def test_a_place_that_was_changed_as_the_session_ended_is_taken_back(
    tides: Path, sit: Sit, monkeypatch: pytest.MonkeyPatch, far: str
) -> None:
    with monkeypatch.context() as patched:
        for name, value in standing_in(2, far, KILL_PROGRAM).items():
            patched.setenv(name, value)
        sat = sit(tides)
    sat.press("enter", "O", " ", "enter")
    asked(sat, "tide", "sea")
    sat.press("y", "escape", "u")
    assert sat.state.message == "Taken back: paragraph 1 was corrected."
    sat.desk.close()
    assert prints(tides) == ["The tide" if far == READ else "O The tide", TIDES]


def test_volumes_of_which_some_were_set_as_the_session_ended_are_taken_back(
    chapters: Path, sit: Sit, monkeypatch: pytest.MonkeyPatch
) -> None:
    # the session ends before the second of the paragraphs is set
    with monkeypatch.context() as patched:
        for name, value in standing_in(3, READ, KILL_PROGRAM).items():
            patched.setenv(name, value)
        sat = sit(chapters)
    sat.press("enter", "O", " ", "enter")
    sat.state = replace(sat.state, page_size=PageSize(28, 8))
    sat.press("V", "v", *"4", "enter", "y", "escape", "u")
    assert sat.state.message == "Taken back: volumes were set at 1 paragraph."
    assert not any(each.begins_volume for each in sat.state.book)
    sat.press("u")
    assert sat.state.message == "Taken back: paragraph 1 was corrected."


@pytest.mark.parametrize("left", ["first", "second"])
def test_what_was_left_stays_left_after_a_change_that_was_cut_short(
    tides: Path, sit: Sit, monkeypatch: pytest.MonkeyPatch, left: str
) -> None:
    # the session ends before the second of the places is changed
    for name, value in standing_in(3, READ, KILL_PROGRAM).items():
        monkeypatch.setenv(name, value)
    sat = sit(tides)
    sat.press("enter", "O", " ", "enter")
    asked(sat, "tide", "the sea")
    sat.press("down", *(["down", "down"] if left == "second" else []), "n", "a")
    assert "was stopped after 1 change. The places are listed" in sat.state.message
    sat.press("a", "escape")
    sat.desk.close()
    places = [("O The tide", "O The the sea"), ("The tide", "The the sea")]
    first, second = (places[n][(left == "second") is (n == 0)] for n in (0, 1))
    gone = TIDES.replace("The tide", second).replace("tideway", "the seaway")
    assert prints(tides) == [first, gone]


@pytest.mark.parametrize("far", [READ, KEPT])
def test_what_was_changed_before_the_session_ended_is_changed_once(
    tides: Path, sit: Sit, monkeypatch: pytest.MonkeyPatch, far: str
) -> None:
    # the session ends before the second of the places is changed, or before that is reported
    for name, value in standing_in(3, far, KILL_PROGRAM).items():
        monkeypatch.setenv(name, value)
    sat = sit(tides)
    sat.press("enter", "O", " ", "enter")
    asked(sat, "tide", "tides")
    sat.press("a")
    assert "was stopped after " in sat.state.message
    left = 2 if far == READ else 1
    assert sat.state.pages and len(sat.state.pages.lines) == 2 * left
    sat.press("a", "escape")
    sat.desk.close()
    assert prints(tides) == ["O The tides", TIDES.replace("tide", "tides")]
    assert Drafts(tides).changes() == ()


def test_a_change_of_all_places_that_was_killed_is_asked_about_until_it_is_done_or_left(
    tides: Path, at: Open, sit: Sit
) -> None:
    # the session ends after the first of the two places that are changed
    terminal = at(tides, **standing_in(1, KEPT, KILL_SCRIBE))
    terminal.wait("? shows the keys.")
    terminal.keys("c", "tide", "enter", "tides", "enter")
    terminal.wait("3 places of")
    terminal.keys("down", "n")
    terminal.wait("2 more places.")
    terminal.keys("a")
    assert terminal.ended() == -signal.SIGKILL
    once_free(tides).close()
    (note,) = Drafts(tides).changes()
    stay = "The other places stay as they are."
    for keys, said in (
        ("l", "Nothing was changed. It is asked again when the book is opened."),
        # neither other words nor a look at a place ends it
        ("y enter", ""),
        ("l c e n d enter x enter q", stay),
        ("n", stay),
        ("y q", stay),
        ("l c t i d e enter t i d e s enter a", ""),
    ):
        Drafts(tides).begin_change(note)
        sat = sit(tides)
        assert sat.state.question and sat.state.question.sentence == (
            "Changing “tide” to “tides” was cut short: 1 of 2 places is changed. Shall the others"
            " be listed?"
        )
        sat.press(*keys.split())
        assert sat.state.message == said
        sat.desk.close()
        is_kept = keys[0] == "l" and keys[-1] != "a" or keys == "y enter"
        assert Drafts(tides).changes() == ((note,) if is_kept else ())
    assert prints(tides) == ["The tide", TIDES.replace("tide", "tides")]
    # all of it is in the book
    Drafts(tides).begin_change(note)
    sat = sit(tides)
    assert sat.state.question is None and Drafts(tides).changes() == ()


def test_the_same_words_go_on_in_the_form_and_the_paragraphs_of_what_was_cut_short(
    tides: Path, sit: Sit
) -> None:
    places = (NotedPlace(1, 8, 4, "tide", Became.OPEN),)
    ranges = (ParagraphRange(1, 1),)
    note = ChangeNote("tide", "tides", True, True, 1, places, ranges)
    Drafts(tides).begin_change(note)
    sat = sit(tides)
    sat.press("l")
    asked(sat, "tide", "tides")
    assert sat.state.message == "The change that was cut short goes on."
    assert sat.state.pages and sat.state.pages.title == (
        "1 place of “tide”, as whole words, whatever the capitals, in paragraph 1, to be “tides”."
    )
    # what a key chooses there holds
    sat.press("w")
    assert sat.state.pages.title == (
        "1 place of “tide”, whatever the capitals, in paragraph 1, to be “tides”."
    )
    assert sat.state.message == ""
    sat.press("a", "escape")
    sat.desk.close()
    assert prints(tides) == ["The tides", TIDES]
    assert Drafts(tides).changes() == ()


def test_a_change_of_all_places_that_can_not_be_noted_is_made_and_that_is_said(
    tides: Path, sit: Sit, monkeypatch: pytest.MonkeyPatch
) -> None:
    sat = sit(tides)
    asked(sat, "tide", "flood")
    write = OwnFolder.write

    def refusing(folder: OwnFolder, name: str, data: bytes) -> None:
        if name.endswith(".changes"):
            raise Unfit("it has more than 4,194,304 bytes")
        write(folder, name, data)

    monkeypatch.setattr(OwnFolder, "write", refusing)
    sat.press("a")
    assert sat.state.pages and sat.state.pages.title == "Changed."
    assert sat.state.message == (
        f"How far the change of words comes can't be kept in {state_folder()}: it has more than"
        " 4,194,304 bytes."
    )


@pytest.mark.parametrize(
    "old, new, before, now, after",
    [
        ("  ", " ", "Tide    tide", "Tide   tide", "Tide  tide"),
        ("aa", "aba", "b aaaa", "b abaaa", "b abaaba"),
    ],
)
def test_what_was_put_in_hides_no_place_beside_it_that_was_listed(
    book: Path, sit: Sit, old: str, new: str, before: str, now: str, after: str
) -> None:
    with Session(book) as session:
        session.add_paragraph("end", "en", now)
        session.add_paragraph("end", "en", "End")
    first = before.index(old)
    places = tuple(
        NotedPlace(1, len(before), first + n, old, Became.OPEN) for n in (0, len(old))
    )
    Drafts(book).begin_change(ChangeNote(old, new, False, False, 1, places))
    sat = sit(book)
    assert sat.state.question and "1 of 2 places is" in sat.state.question.sentence
    sat.press("y", "a")
    sat.desk.close()
    assert prints(book) == [after, "End"]


def test_what_is_asked_first_hides_nothing_of_a_change_that_was_cut_short(
    tides: Path, sit: Sit
) -> None:
    place = NotedPlace(1, 8, 4, "tide", Became.OPEN)
    drafts = Drafts(tides)
    drafts.begin_change(ChangeNote("tide", "", False, False, 1, (place,)))
    drafts.save(Draft(Aim.EDIT, 1, "en", "The tide", "The tides", None, 5))
    sat = sit(tides)
    assert sat.state.question and sat.state.question.draft
    assert sat.state.message == (
        "Taking out “tide” was cut short: none of 1 place is changed. c and the same words go on."
    )
