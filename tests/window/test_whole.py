"""Words that are changed in the whole book, its volumes, and the ways to a place, without a window seen."""

import os
import signal
from collections.abc import Sequence
from pathlib import Path

import pytest
from PyQt6.QtGui import QFont
from PyQt6.QtWidgets import QApplication

from braildesk import Style, new_book, requests
from braildesk.desk.change_note import Became, ChangeNote, NotedPlace
from braildesk.desk.drafts import Drafts
from braildesk.desk.layout import PageSize
from braildesk.desk.own_folder import OwnFolder, Unfit, state_folder
from braildesk.text.spans import Span

from scribe.window import dialogs
from scribe.window.actions import Actions
from scribe.window.book import NotAll
from scribe.window.desk import Desk

from conftest import Answers, wait


def prints_of(desk: Desk) -> list[str]:
    """The prints of the book at work."""
    session, book = desk.book.session, desk.asked(desk.book.contents).paragraphs

    def prints() -> list[str]:
        return [session.print_of(each.id) for each in book]

    return desk.asked(prints)


def test_words_are_changed_everywhere_and_that_is_taken_back(
    desk: Desk, given: Answers
) -> None:
    given["fields"] = ["a", "one"], [True, False]
    given["choices"] = [0]
    desk.act("change_all")
    assert given["said"][0].startswith(
        "“a” would be changed in 1 place of 1 paragraph, unless the book refuses a place."
        " The first one:\n\nPlace 1 of 1"
    )
    assert given["by_enter"] == "Change &all"
    assert prints_of(desk)[2] == "Twice one day the sea comes up."
    said = (
        "“a” was replaced by “one” in 1 place of 1 paragraph. The book is at version 6."
    )
    assert desk.window.message.text == said
    assert desk.window.print.text == "The Moon"
    desk.act("take_back")
    assert prints_of(desk)[2] == "Twice a day the sea comes up."
    assert desk.window.message.text == "Taken back: “a” was replaced in 1 place."


def test_words_that_were_taken_out_are_not_said_to_be_replaced(
    desk: Desk, given: Answers
) -> None:
    given["fields"] = ["Twice ", ""], [False, False]
    given["choices"] = [0]
    desk.act("change_all")
    assert given["said"][0].startswith(
        "“Twice ” would be taken out of 1 place of 1 paragraph, unless the book refuses a place."
    )
    # Enter may have come to these words by who meant that others be asked for
    assert given["by_enter"] == "&Cancel"
    assert prints_of(desk)[2] == "a day the sea comes up."
    desk.act("take_back")
    assert desk.window.message.text == "Taken back: “Twice ” was taken out of 1 place."


def test_words_are_changed_everywhere_also_where_that_can_not_be_noted(
    desk: Desk, given: Answers, monkeypatch: pytest.MonkeyPatch
) -> None:
    write = OwnFolder.write

    def refusing(folder: OwnFolder, name: str, data: bytes) -> None:
        if name.endswith(".changes"):
            raise Unfit("it has more than 4,194,304 bytes")
        write(folder, name, data)

    monkeypatch.setattr(OwnFolder, "write", refusing)
    given["fields"] = ["a", "one"], [True, False]
    given["choices"] = [0]
    desk.act("change_all")
    assert desk.window.message.text == (
        "“a” was replaced by “one” in 1 place of 1 paragraph. The book is at version 6. How far"
        f" the change of words comes can't be kept in {state_folder()}: it has more than 4,194,304"
        " bytes."
    )


def test_places_that_are_left_are_not_said_to_be_none_where_only_words_are_looked_for(
    desk: Desk, given: Answers
) -> None:
    places = (
        NotedPlace(1, 8, 5, "oo", Became.CHANGED),
        NotedPlace(2, 20, 5, "o", Became.OPEN),
    )
    note = ChangeNote("o", "oo", False, False, 1, places)
    desk.drafts.begin_change(note)
    given["fields"] = ["o", "oo"], [True, False]
    desk.act("change_all")
    assert desk.window.message.text == (
        "“o” isn't in the print of the book as whole words. Nothing was changed."
    )
    assert desk.drafts.changes() == (note,)


def test_paragraphs_of_which_it_is_not_seen_what_was_changed_are_said_before(
    desk: Desk, given: Answers
) -> None:
    # the print was longer than it is by now
    place = NotedPlace(2, 21, 5, "o", Became.OPEN)
    desk.drafts.begin_change(ChangeNote("o", "oo", False, False, 1, (place,)))
    given["fields"] = ["o", "oo"], [False, False]
    given["choices"] = [2]
    desk.act("change_all")
    assert given["said"][0].startswith(
        "Changing “o” to “oo” was cut short, and it isn't seen how far it came. Paragraph 2 was"
        " changed otherwise since, so it isn't seen which of its places are changed. “o” would be"
    )


def test_each_place_is_asked_about_and_the_rest_stay(
    desk: Desk, given: Answers
) -> None:
    given["fields"] = ["o", "u"], [False, False]
    # all places one by one: the first isn't changed, the second is, and there it is stopped
    given["choices"] = [1, 1, 0, 3]
    desk.act("change_all")
    assert prints_of(desk)[:2] == ["The Moun", "The mon is far away."]
    assert desk.window.message.text.startswith("“o” was replaced by “u” in 1 place")
    assert "3 places stay as before." in desk.window.message.text


def _asked_at(
    monkeypatch: pytest.MonkeyPatch, desk: Desk, answers: Sequence[int | None]
) -> list[str]:
    """What is asked: each answer is given to one question, and at none the program is killed."""
    asked: list[str] = []
    left = [*answers]

    def choice(over: object, title: str, said: str, names: object) -> int:
        asked.append(said)
        answer = left.pop(0)
        if answer is None:
            os.kill(desk.book.pid, signal.SIGKILL)
            os.waitid(os.P_PID, desk.book.pid, os.WEXITED | os.WNOWAIT)
        return answer or 0

    monkeypatch.setattr(dialogs, "choice", choice)
    return asked


def test_each_answer_is_in_the_book_before_the_next_place_is_asked_about(
    desk: Desk, given: Answers, monkeypatch: pytest.MonkeyPatch
) -> None:
    given["fields"] = ["o", "oo"], [False, False]
    asked = _asked_at(monkeypatch, desk, [1, 0, 1, None])
    desk.act("change_all")
    # the second place is shown as it is by then
    assert asked[1:3] == [
        "Place 1 of 4, paragraph 1: The M[o]on\nAfter: The M[oo]on",
        "Place 2 of 4, paragraph 1: The Moo[o]n\nAfter: The Moo[oo]n",
    ]
    assert desk.window.message.text == (
        "The session was ended by signal 9. The book was opened again: it is at version 6. What"
        " was being done was stopped after 1 change."
    )
    assert prints_of(desk)[0] == "The Mooon"
    (note,) = Drafts(desk.path).changes()
    places = [(each.paragraph, each.start, each.became) for each in note.places]
    left, opened = Became.LEFT, Became.OPEN
    changed = (1, 5, Became.CHANGED)
    assert places == [changed, (1, 7, left), (2, 5, opened), (3, 21, opened)]
    # those that were left aren't asked about again
    asked = _asked_at(monkeypatch, desk, [0, 1, 0, 3])
    desk.acting(Actions(desk).offer)
    assert asked[0] == (
        "Changing “o” to “oo” was cut short: 1 of 3 places is changed. Shall the others be changed?"
    )
    assert asked[2].startswith("Place 1 of 2, paragraph 2: ")
    assert prints_of(desk) == [
        "The Mooon",
        "The moon is far away.",
        "Twice a day the sea comes up.",
    ]
    assert Drafts(desk.path).changes() == ()
    assert desk.window.message.text.startswith("“o” was replaced by “oo” in 1 place")
    assert "2 places stay as before." in desk.window.message.text


@pytest.mark.parametrize(
    "answers, prints, said",
    [
        ([0, 0, 0, 0], ["The Muun", "The mun is far away."], "in 4 places of 3 "),
        ([0, 1, 2], ["The Muon", "The mun is far away."], "in 3 places of 3 "),
        ([1, 0, 3], ["The Moun", "The mon is far away."], "in 1 place of 1 "),
    ],
)
def test_places_that_were_asked_about_are_taken_back_together(
    desk: Desk, given: Answers, answers: list[int], prints: list[str], said: str
) -> None:
    desk.do(requests.Style(1, Style.HEADING))
    before = prints_of(desk)
    given["fields"] = ["o", "u"], [False, False]
    given["choices"] = [1, *answers, 0]
    desk.act("change_all")
    assert prints_of(desk)[:2] == prints
    assert said in desk.window.message.text
    assert sum(each.startswith("Before: ") for each in given["said"]) == int(said[3])
    assert Drafts(desk.path).changes() == ()
    desk.act("take_back")
    assert desk.window.message.text.startswith("Taken back: “o” was replaced in ")
    assert prints_of(desk) == before
    desk.act("take_back")
    assert desk.window.message.text == "Taken back: paragraph 1 was made a heading."


def test_a_place_that_the_book_refuses_is_said_at_the_end_and_stays(
    desk: Desk, given: Answers
) -> None:
    given["fields"] = ["o", "#"], [False, False]
    given["choices"] = [1, 0, 1, 3]
    desk.act("change_all")
    said = desk.window.message.text
    assert (
        "Refused in paragraph 1, character 6: The table of paragraph 1 has no" in said
    )
    assert "1 place was refused and stays as before. 3 places stay as before." in said
    assert prints_of(desk)[0] == "The Moon"


def test_places_where_the_new_words_stand_already_are_not_asked_about(
    desk: Desk, given: Answers
) -> None:
    given["fields"] = ["m", "M"], [False, True]
    given["choices"] = [1, 1, 0, 1]
    desk.act("change_all")
    asked, *places = given["said"][:3]
    assert asked.startswith("“m” would be changed in 2 places of 2 paragraphs, ")
    assert [each.split(":")[0] for each in places] == [
        "Place 1 of 2, paragraph 2",
        "Place 2 of 2, paragraph 3",
    ]
    assert prints_of(desk) == [
        "The Moon",
        "The mon is far away.",
        "Twice a day the sea coMes up.",
    ]


def test_places_that_are_refused_are_said_and_stay(desk: Desk, given: Answers) -> None:
    given["fields"] = ["moon", "#"], [False, True]
    given["choices"] = [0]
    desk.act("change_all")
    assert prints_of(desk)[0] == "The Moon"
    assert (
        "Refused in paragraph 1, character 5: The table of paragraph 1 has no cells"
        in (desk.window.message.text)
    )


@pytest.mark.parametrize(
    "fields, said",
    [
        (["sun", "x"], "“sun” isn't in the print of the book."),
        (
            ["MOON", "x"],
            "“MOON” isn't in the print of the book as typed. With other capitals it is there once. Nothing",
        ),
        (
            ["Moon", "Moon"],
            "The new words are the same as the old. Nothing was changed.",
        ),
        (["", "x"], "No words to change were typed. Nothing was changed."),
    ],
)
def test_what_changes_nothing_is_said(
    desk: Desk, given: Answers, fields: list[str], said: str
) -> None:
    given["fields"] = fields, [False, False]
    desk.act("change_all")
    assert desk.window.message.text.startswith(said)
    assert prints_of(desk)[0] == "The Moon"


def test_what_is_given_up_changes_nothing(desk: Desk, given: Answers) -> None:
    given["fields"] = None
    desk.act("change_all")
    assert desk.window.message.text == ""
    given["fields"] = ["o", "u"], [False, False]
    given["choices"] = [2]
    desk.act("change_all")
    assert desk.window.message.text == "Nothing was changed."


def test_the_book_is_parted_into_volumes(desk: Desk, given: Answers) -> None:
    desk.page_size = PageSize(10, 4)
    for number in (1, 3):
        desk.do(requests.Style(number, Style.HEADING))
    given["text"], given["choices"] = "2", [0]
    desk.act("part")
    assert given["said"][0].endswith(
        "Paragraph 3 would begin a volume.\nShall the volumes be set so?"
    )
    assert desk.window.message.text == "Kept: volumes set at 1 paragraph."
    assert [each.begins_volume for each in desk.contents.paragraphs][2]
    given["line"] = 1
    desk.act("volumes")
    assert given["said"][1:] == [
        "Volumes: 2 volumes, 4 pages of 4 lines of 10 cells.",
        "Volume 1: 2 pages, from paragraph 1, heading: The Moon",
        "Volume 2: 2 pages, from paragraph 3, heading: Twice a day the sea comes up.",
    ]
    assert desk.number == 3
    given["choices"] = [0]
    desk.act("part")
    assert desk.window.message.text.startswith("The volumes begin there already: 2 vol")
    desk.act("take_back")
    assert desk.window.message.text == "Taken back: volumes set at 1 paragraph."


def test_as_many_volumes_are_said_to_be_set_as_were_before_that_was_stopped(
    desk: Desk,
) -> None:
    commands = [requests.Volume(number, True) for number in (2, 3)]
    what, is_first = "volumes set at {} of them".format, (True, False)
    with pytest.raises(NotAll):
        desk.asked(lambda: desk.book.all_done(commands, what, is_first.__getitem__))
    assert desk.book.deeds[-1].what == "volumes set at 1 of them"


def test_volumes_of_a_count_of_pages_with_very_many_digits(
    desk: Desk, given: Answers
) -> None:
    given["text"] = "1" * 5000
    desk.act("part")
    assert desk.window.message.text.startswith("The volumes begin there already: 1 vol")


@pytest.mark.parametrize("typed", ["", "0", "00", "many", "-1"])
def test_what_is_no_count_of_pages_is_said(
    desk: Desk, given: Answers, typed: str
) -> None:
    given["text"] = typed
    desk.act("part")
    said = "A volume has at least 1 page: type how many, as in 80."
    assert desk.window.message.text == said


def test_a_volume_that_cannot_be_so_short_is_said(desk: Desk, given: Answers) -> None:
    desk.page_size = PageSize(10, 2)
    given["text"] = "1"
    desk.act("part")
    assert "no volume of at most 1 page can have it" in desk.window.message.text


@pytest.mark.parametrize(
    "typed, number, place, said",
    [
        ("3", 3, 0, "Paragraph 3, character 1."),
        ("page 1 line 2", 1, 4, "Paragraph 1, character 5."),
        ("v1 p1 l3", 2, 0, "Paragraph 2, character 1."),
        ("sea", 3, 16, "Paragraph 3, character 17."),
        ("9", 1, 0, "There is no paragraph 9 in the book."),
        ("1" * 5000, 1, 0, f"There is no paragraph {'1' * 59}… in the book."),
        (
            "page 9",
            1,
            0,
            "Volume 1 has 2 pages of 6 lines of 10 cells. The caret stays",
        ),
        ("page 2 line 5", 1, 0, "Page 2 has nothing on line 5. The caret stays where"),
        ("volume 2 page 1", 1, 0, "There is no volume 2: the book has 1."),
    ],
)
def test_a_place_is_gone_to(
    desk: Desk, given: Answers, typed: str, number: int, place: int, said: str
) -> None:
    desk.page_size = PageSize(10, 6)
    given["text"] = typed
    desk.act("go_to")
    assert (desk.number, desk.window.print.place) == (number, place)
    assert desk.window.message.text.startswith(said)


def test_a_line_of_the_one_volume_is_gone_to_from_a_struck_paragraph(
    desk: Desk, given: Answers
) -> None:
    desk.choose(2)
    desk.act("strike")
    given["text"] = "page 1 line 1"
    desk.act("go_to")
    assert desk.window.message.text == "Paragraph 1, character 1."


def test_of_a_place_that_is_gone_to_it_isnt_said_that_the_caret_stays(
    desk: Desk, given: Answers
) -> None:
    given |= {"text": "page 9", "line": 0}
    desk.do(requests.Style(3, Style.HEADING))
    for to, said in (
        ("go_to", "Paragraph 1, character 1."),
        ("headings", "Paragraph 3, character 1."),
    ):
        given["text"] = "page 9 line 1"
        desk.act("go_to")
        assert desk.window.message.text.endswith("The caret stays where it was.")
        given["text"] = "page 1 line 1"
        desk.act(to)
        assert desk.window.message.text == said


def test_words_that_are_there_otherwise_are_said_to_be_until_they_are_not(
    desk: Desk, given: Answers
) -> None:
    there = "Paragraph 3, character 17. It stands there otherwise than as it was typed."
    given["text"] = "SEA"
    desk.act("find")
    assert desk.window.message.text == there
    desk.choose(2, 20)
    desk.act("find")
    assert desk.window.message.text == (
        f"{there} This is the first in the print of the book: there is none further on."
    )
    desk.act("find")
    assert desk.window.message.text == (
        f"{there} It stands nowhere else in the print of the book."
    )
    # from now on the words stand there as they were typed
    desk.do(requests.Correct(3, 16, 3, "SEA"))
    desk.act("find_next")
    assert (
        desk.window.message.text
        == "“SEA” stands nowhere else in the print of the book."
    )
    desk.choose(2, 20)
    desk.act("find_next")
    assert desk.window.message.text == (
        "Paragraph 3, character 17. This is the first in the print of the book: there is none further on."
    )


def test_headings_and_marks_are_gone_to_by_their_lists(
    desk: Desk, given: Answers
) -> None:
    desk.do(requests.Style(3, Style.HEADING))
    given["line"] = 0
    desk.act("headings")
    assert given["said"] == [
        "Headings: 1 heading",
        "Twice a day the sea comes up., volume 1, page 1, line 4, paragraph 3",
    ]
    assert desk.number == 3
    given["said"].clear()
    desk.act("all_marks")
    assert given["said"] == [
        "All marks",
        "Mark 1, open, volume 1, page 1, line 2, paragraph 2, on “mon”: spelled so?",
    ]
    assert (desk.number, desk.window.print.place, desk.in_hand) == (2, 4, 1)
    assert desk.window.message.text == "Mark 1, open, on “mon”: spelled so?"
    desk.do(requests.Strike(2))
    desk.act("all_marks")
    assert given["said"][-1] == (
        "Mark 1, open, on no page, paragraph 2, struck, on “mon”: spelled so?"
    )


def test_why_a_volume_is_not_laid_out_is_said_once_in_a_list(
    desk: Desk, given: Answers
) -> None:
    with_seven = b"space \\s 0\nletter m 134\nletter o 135\nletter n 13457\n"
    desk.do(requests.Table("seven", with_seven))
    desk.do(requests.Type("end", "seven", "mon"))
    desk.do(requests.Style(4, Style.HEADING))
    why = (
        "Cell 3 of paragraph 4 has dot 7 or 8, which pages for embossers can't have, so volume 1"
        " can't be exported. Correct the table of that paragraph."
    )
    given["line"] = 0
    desk.act("headings")
    desk.act("all_marks")
    assert given["said"] == [
        f"Headings: 1 heading. {why}",
        "mon, volume 1, not laid out, paragraph 4",
        f"All marks. {why}",
        "Mark 1, open, volume 1, not laid out, paragraph 2, on “mon”: spelled so?",
    ]


def test_a_mark_is_in_hand_until_the_caret_is_moved_off_it(desk: Desk) -> None:
    window = desk.window
    desk.do(requests.Mark(2, 16, 4, "why?"))
    desk.choose(1)
    desk.act("next_mark")
    # an edit that ends beyond its words keeps it in hand
    window.print.put_caret(6)
    window.print.textCursor().insertText("o")
    window.print.put_caret(12)
    assert desk.settle()
    marks_here = window.here.text.split("\u2029")[1:]
    assert marks_here == ["Mark 1, open, touched, on “moon”: spelled so?"]
    window.print.put_caret(17)
    marks_here = window.here.text.split("\u2029")[1:]
    assert marks_here == ["Mark 2, open, on “away”: why?"]
    desk.act("resolve")
    assert window.message.text == "Kept: mark 2 resolved."


def test_a_mark_at_the_caret_is_come_to_after_another_one_was_in_hand(
    desk: Desk,
) -> None:
    desk.do(requests.Mark(2, 0, 1, "why?"))
    desk.choose(1)
    desk.act("next_mark")
    assert desk.in_hand == 2
    desk.window.print.put_caret(4)
    desk.act("next_mark")
    assert desk.window.message.text == "Mark 1, open, on “mon”: spelled so?"


def test_where_there_is_no_open_mark_none_is_resolved(desk: Desk) -> None:
    there_is_none = "There is no open mark here. F4 looks for the next one."
    desk.choose(1)
    desk.act("resolve")
    assert desk.window.message.text == there_is_none
    desk.act("next_mark")
    desk.act("resolve")
    assert desk.window.message.text == "Kept: mark 1 resolved."
    version = desk.contents.version
    desk.act("resolve")
    assert desk.window.message.text == there_is_none
    assert desk.contents.version == version


def _give_accents(desk: Desk) -> None:
    """Gives paragraph 2 a table with a letter that an accent may be typed after."""
    table = desk.asked(desk.book.session.tables)[0].text + b"\nletter \\x00e9 15-1\n"
    desk.do(requests.Table("own", table))
    desk.book.tables.put("own", table)
    desk.do(requests.Retable(2, "own"))


def test_a_mark_is_put_on_the_words_that_are_selected_while_others_become_composed(
    desk: Desk, monkeypatch: pytest.MonkeyPatch
) -> None:
    _give_accents(desk)
    monkeypatch.setattr(dialogs, "text_further", lambda *_: "so?")
    desk.choose(1)
    desk.window.print.textCursor().insertText("e\u0301e\u0301 ")
    desk.window.print.select(Span(9, 12))
    desk.act("mark")
    assert desk.window.print.text == "éé The mon is far away."
    assert desk.reading is not None
    mark = desk.reading.its.marks[-1]
    assert (mark.start, mark.stop) == (7, 10)


def test_the_caret_stays_where_it_is_while_what_is_typed_becomes_composed(
    desk: Desk,
) -> None:
    _give_accents(desk)
    desk.choose(1)
    desk.window.print.textCursor().insertText("e\u0301e\u0301 ")
    desk.act("keep")
    assert desk.window.print.text == "éé The mon is far away."
    assert desk.window.print.place == 3


def test_the_place_of_cells_that_are_found_is_said_and_marked_there(
    desk: Desk, given: Answers, monkeypatch: pytest.MonkeyPatch
) -> None:
    desk.choose(2)
    assert desk.reading is not None
    cells = desk.asked(lambda: desk.book.cells_of(3, Span(16, 19)))
    given["text"] = desk.reading.its.braille[cells.start : cells.stop]
    # keys are those of the cells before the window is in front again
    desk.window.cells.setFocus()
    desk.act("find")
    assert desk.window.message.text == "Paragraph 3, cell 18."
    assert "character 17, cell 18." in desk.window.here.text
    desk.window.cells.setFocus()
    desk.act("find_next")
    alone = f"“{given['text']}” stands nowhere else in the cells of the book."
    assert desk.window.message.text == alone
    asked = list[str]()

    def further(over: object, title: str, sentence: str, *_: object) -> str:
        asked.append(sentence)
        return "so?"

    monkeypatch.setattr(dialogs, "text_further", further)
    desk.act("mark")
    # a mark on a sign is one on its letter too
    desk.window.cells.select(Span(0, 1))
    desk.act("mark")
    assert asked == [
        "The note of a mark on “sea”, cells 18 to 20:",
        "The note of a mark on “T”, cells 1 to 2:",
    ]


def test_page_and_line_are_said_of_what_is_gone_to(desk: Desk, given: Answers) -> None:
    desk.page_size = PageSize(10, 3)
    desk.act("pages_said")
    desk.act("next_mark")
    mark = "Mark 1, open, on “mon”: spelled so?"
    assert desk.window.message.text == f"{mark} Page 2 line 1."
    given["text"] = "sea"
    desk.act("find")
    assert desk.window.message.text == "Paragraph 3, character 17. Page 4 line 2."
    desk.do(requests.Volume(3, True))
    given["text"] = "day"
    desk.act("find")
    there = "Paragraph 3, character 9. This is the first in the print of the book: there is none further on."
    assert desk.window.message.text == f"{there} Volume 2, page 1 line 2."
    desk.act("pages_said")
    assert desk.window.message.text == "Now F4, Ctrl+F and F3 say no page and line."
    desk.act("find_next")
    assert (
        desk.window.message.text
        == "“day” stands nowhere else in the print of the book."
    )
    # a note need not end with a stop
    desk.act("pages_said")
    desk.do(requests.Mark(3, 0, 1, "hour"))
    desk.act("last_mark")
    mark = "Mark 2, open, on “T”: hour."
    assert desk.window.message.text == f"{mark} Volume 2, page 1 line 1."


def test_a_word_made_as_one_with_the_end_of_the_word_before_has_its_own_line(
    application: QApplication, desk: Desk, given: Answers
) -> None:
    table = b"space \\s 0\nletter a 1\nletter b 12\nletter c 14\nalways a\\sb 1-0-12\n"
    desk.page_size = PageSize(10, 5)
    desk.do(requests.Table("across", table))
    desk.do(requests.Type("front", "across", "a a cca bc c"))
    desk.window.show()
    desk.act("page")
    desk.act("pages_said")
    given["text"] = "bc"
    desk.act("find")
    there = "Paragraph 4, character 9. Page 1 line 2."
    assert desk.window.message.text == there
    page = desk.window.page
    title = "Paragraph 4, character 9: volume 1, page 1, line 2, of "
    assert wait(application, 60, lambda: title in " ".join(page.text.split()))
    desk.choose(1, 0)
    given["text"] = "page 1 line 2"
    desk.act("go_to")
    assert (desk.number, desk.place) == (4, 8)
    desk.window.hide()


def test_a_proof_says_how_many_open_marks_are_on_none_of_its_pages(
    desk: Desk, moon: Path, monkeypatch: pytest.MonkeyPatch
) -> None:
    proof = moon.with_name("moon.html")
    monkeypatch.setattr(dialogs, "file_to_write", lambda *_: proof)
    desk.act("proof")
    assert desk.window.message.text == f"{proof}: 1 page."
    desk.do(requests.Strike(2))
    desk.act("proof")
    assert desk.window.message.text == (
        f"{proof}: 1 page. 1 open mark is on no page: its paragraph is struck or has no words."
    )


def test_a_text_that_is_too_long_goes_on_in_a_new_paragraph(
    desk: Desk, given: Answers
) -> None:
    desk.act("new_after")
    desk.window.print.insertPlainText("Far away. " * 450)
    given["choices"] = [1]
    desk.act("keep")
    assert "A paragraph has at most 4,000 characters, and this one has 4,500" in (
        given["said"][0]
    )
    assert desk.window.message.text == "It stays as it is typed. Enter asks again."
    assert desk.is_typed()
    given["choices"] = [0]
    desk.act("keep")
    assert [len(each) for each in prints_of(desk)[:3]] == [8, 3999, 499]
    assert not desk.is_typed()


def test_the_book_opens_where_it_was_left(desk: Desk, moon: Path) -> None:
    desk.choose(2, 5)
    desk.keep_place()
    desk.unwatch()
    desk.asked(desk.book.close)
    desk.is_closed = True
    again = Desk(moon, None, 0.0, PageSize())
    again.begin()
    try:
        assert (again.number, again.window.print.place) == (3, 5)
        assert again.window.message.text == "The book is open where it was left."
    finally:
        again.close()


def test_the_font_of_the_braille_is_chosen_and_remembered(
    desk: Desk, given: Answers, moon: Path
) -> None:
    given["font"] = None
    desk.act("fonts")
    assert desk.window.message.text == ""
    given["font"] = QFont("DejaVu Sans", 31)
    desk.act("fonts")
    assert desk.window.message.text == "Braille is in DejaVu Sans, 31 points."
    desk.window.remember()
    again = Desk(moon, None, 0.0, PageSize())
    again.is_closed = True
    its = again.window.cells.font()
    assert (its.family(), its.pointSize()) == ("DejaVu Sans", 31)
    again.close()


def test_the_print_of_a_book_without_paragraphs_has_its_name_over_it(
    application: QApplication, tmp_path: Path
) -> None:
    new_book(book := tmp_path / "empty.braildesk")
    desk = Desk(book, None, 0.0, PageSize())
    desk.begin()
    assert desk.window.print_label.text() == "Print"
    desk.close()


def test_a_table_is_given_and_taken_back(desk: Desk, given: Answers) -> None:
    given["one_of"] = "ueb"
    desk.act("table")
    assert desk.window.message.text == "Kept: paragraph 1 with table ueb."
    assert desk.contents.tables == ("en", "ueb")
    assert desk.contents.paragraphs[0].table == "ueb"
    assert desk.window.print_label.text() == "Paragraph 1, body, table ueb"
    desk.act("take_back")
    assert desk.contents.paragraphs[0].table == "en"


def test_a_table_that_a_paragraph_is_not_given_is_said_to_be_in_the_book(
    desk: Desk, given: Answers, tmp_path: Path
) -> None:
    given["one_of"], given["file"] = "From a file…", tmp_path / "own.utb"
    given["file"].write_text("letter a 1\n")
    desk.act("table")
    assert desk.window.message.text == (
        "The table own has no cells for “T” (U+0054 LATIN CAPITAL LETTER T), character 1 of"
        " paragraph 1: “The Moon”. Table own is in the book now, and paragraph 1 wasn't given it."
    )
    assert desk.contents.tables == ("en", "own")
    assert desk.contents.version == desk.asked(desk.book.session.version)


@pytest.mark.parametrize(
    "text, said",
    [
        ("letter a 1\nletter b 12\n", "The table own has no cells for"),
        ("nonsense\n", "Line 1 of the table own is refused"),
        (None, "own.utb"),
    ],
)
def test_a_table_of_a_file_that_is_no_good_changes_nothing(
    desk: Desk, given: Answers, tmp_path: Path, text: str | None, said: str
) -> None:
    given["one_of"], given["file"] = "From a file…", tmp_path / "own.utb"
    if text is not None:
        given["file"].write_text(text)
    desk.act("table")
    assert said in desk.window.message.text
    assert desk.window.cells.text == "⠠⠞⠓⠑⠀⠠⠍⠕⠕⠝"
    assert desk.contents.paragraphs[0].table == "en"


def test_a_table_of_a_file_is_put_into_the_book_and_given(
    desk: Desk, given: Answers, tmp_path: Path
) -> None:
    signs = "".join(f"letter {each} 1\n" for each in "TheMoon")
    given["one_of"], given["file"] = "From a file…", tmp_path / "own.utb"
    given["file"].write_text(
        "space \\s 0\n" + "".join(sorted({*signs.splitlines(True)}))
    )
    desk.act("table")
    assert desk.window.message.text == "Kept: paragraph 1 with table own."
    assert desk.window.cells.text == "⠁⠁⠁⠀⠁⠁⠁⠁"


@pytest.mark.parametrize("answer", [0, 1])
def test_it_is_asked_before_a_table_of_the_book_gets_the_text_of_a_file(
    desk: Desk, given: Answers, tmp_path: Path, answer: int
) -> None:
    signs = sorted({*"".join(prints_of(desk))} - {" "})
    given["one_of"], given["file"] = "From a file…", tmp_path / "en.utb"
    letters = "".join(f"letter {each} 1\n" for each in signs)
    given["file"].write_text(f"space \\s 0\n{letters}")
    given["choices"] = [answer]
    version, cells = desk.contents.version, desk.window.cells.text
    desk.act("table")
    assert given["said"] == [
        "The book has a table en. 3 paragraphs have it. Shall it have the text of the file from now on,"
        " and give other braille? Ctrl+Z doesn't take that back."
    ]
    if answer:
        assert desk.window.message.text == "The table en is as it was."
        assert (desk.contents.version, desk.window.cells.text) == (version, cells)
    else:
        assert desk.window.message.text == "Kept: paragraph 1 with table en."
        assert desk.window.cells.text == "⠁⠁⠁⠀⠁⠁⠁⠁"
