"""Notes and lines, which are typed elsewhere than in the print: none is lost, and none typed twice."""

import os
import signal
from collections.abc import Callable, Iterator, Sequence
from contextlib import AbstractContextManager, contextmanager
from functools import partial
from pathlib import Path
from typing import Any

import pytest
from PyQt6.QtCore import QTimer
from PyQt6.QtWidgets import QApplication, QInputDialog, QLineEdit

from braildesk import Paragraph, Session, Style, requests
from braildesk.desk.draft import Aim, Draft
from braildesk.desk.drafts import Drafts
from braildesk.desk.layout import PageSize
from braildesk.text.spans import Span

from scribe.window import dialogs
from scribe.window.actions import Actions
from scribe.window.book import ChosenParagraph, Done
from scribe.window.desk import Desk, New
from scribe.window.marking import Marking

from conftest import Answers, Open, prints, wait
from test_cancelled import STAND_IN

Note = Callable[[str, str | None], None]
Opened = Callable[..., AbstractContextManager[Desk]]


@pytest.fixture
def noted(monkeypatch: pytest.MonkeyPatch) -> Note:
    """Has a note be typed, and then entered, or given up where nothing is."""

    def note(typed: str, entered: str | None) -> None:
        def text(
            over: object,
            title: str,
            asked: str,
            first: str = "",
            changed: Callable[[str], None] = lambda _: None,
        ) -> str | None:
            changed(first + typed)
            return entered

        monkeypatch.setattr(dialogs, "text_further", text)

    return note


@pytest.fixture
def opened(
    application: QApplication, moon: Path, monkeypatch: pytest.MonkeyPatch
) -> Opened:
    """Opens the book, with its program ended at a command."""

    @contextmanager
    def at(moment: str = "") -> Iterator[Desk]:
        program = os.environ["BRAILDESK"]
        if moment:
            monkeypatch.setenv("BRAILDESK", str(STAND_IN))
            monkeypatch.setenv("STAND_IN_FOR", program)
            monkeypatch.setenv("STAND_IN_AT", f"{moment} kill-program")
        desk = Desk(moon, None, 0.0, PageSize())
        desk.acts = Actions(desk).by_name
        desk.begin()
        monkeypatch.setenv("BRAILDESK", program)
        yield desk
        desk.close()

    return at


def _given_up(book: Path) -> list[str]:
    return [each.text for each in Drafts(book).given_up()]


def _waiting(desk: Desk) -> Draft | None:
    desk.wait_for_draft()
    return Drafts(desk.path).waiting()


def test_of_a_note_that_is_given_up_it_is_said_what_was_kept_before(
    desk: Desk, noted: Note
) -> None:
    desk.window.print.insertPlainText("O ")
    noted("who?", None)
    desk.act("mark")
    said = "Given up. No mark was put. Ctrl+B brings it back."
    assert desk.window.message.text == f"Kept: correction 1 of paragraph 1. {said}"


def test_a_note_that_is_given_up_is_brought_back(
    desk: Desk, noted: Note, monkeypatch: pytest.MonkeyPatch
) -> None:
    noted("who?", None)
    desk.act("mark")
    said = "Given up. No mark was put. Ctrl+B brings it back."
    assert desk.window.message.text == said
    assert (_given_up(desk.path), _waiting(desk)) == (["who?"], None)
    name = "1. A note for a mark in paragraph 1: “who?”"
    monkeypatch.setattr(dialogs, "one_of", lambda *_: name)
    noted("", "who?")
    desk.act("bring_back")
    assert desk.window.message.text == "Kept: mark 2."
    assert (_given_up(desk.path), _waiting(desk)) == ([], None)


def test_a_note_that_the_book_refuses_is_brought_back(desk: Desk, noted: Note) -> None:
    note = "why? " * 120
    noted(note, note)
    desk.act("mark")
    assert desk.window.message.text.endswith(" Ctrl+B brings it back.")
    # what is typed next takes the place of what waits
    desk.window.print.textCursor().insertText("A")
    assert desk.settle()
    assert (_given_up(desk.path), _waiting(desk)) == ([note], None)


def test_the_lines_of_a_note_are_joined(moon: Path, at: Open) -> None:
    window = at(moon)
    window.press("Ctrl+m")
    top = window.dialog("Mark in paragraph 1")
    window.insert_in(window.first("text", top), "who?\nand why?")
    window.press("Return")
    window.no_dialog()
    window.reads("Message", "Kept: mark 2.")
    window.press("Ctrl+q")
    assert window.end() == 0
    with Session(moon) as session:
        assert [mark.note for mark in session.marks_of(1)] == ["who? and why?"]


@pytest.mark.parametrize("how", ["read", "kept"])
def test_a_note_is_not_lost_with_the_session(
    opened: Opened, noted: Note, how: str
) -> None:
    noted("who?", "who?")
    with opened(f"1 {how}") as desk:
        desk.act("mark")
        said = desk.window.message.text
        assert said.startswith("The session was ended by signal 9.")
        back = (
            "A note for a mark in paragraph 1 isn't in the book. Ctrl+B brings it back."
        )
        assert said.endswith(back) is (how == "read")
        marks = desk.asked(lambda: desk.book.session.marks_of(1))
        assert len(marks) + len(_given_up(desk.path)) == 1
        assert _waiting(desk) is None


def test_a_note_waits_if_the_window_is_ended(moon: Path, at: Open) -> None:
    def is_there() -> bool:
        found = Drafts(moon).waiting()
        return found is not None and (found.aim, found.text) == (Aim.NOTE, "who?")

    window = at(moon)
    window.press("Ctrl+m")
    window.dialog("Mark in paragraph 1")
    window.type("who?")
    window.until("the note as what waits", is_there)
    window.program.send_signal(signal.SIGTERM)
    assert window.end() == -signal.SIGTERM
    assert is_there()


def test_a_note_whose_cells_are_gone_is_not_lost(
    desk: Desk, noted: Note, monkeypatch: pytest.MonkeyPatch
) -> None:
    note = Draft(Aim.NOTE, 1, "en", "The Moon", "who?", Span(6, 9), 6)
    monkeypatch.setattr(dialogs, "one_of", lambda _, t, a, names, f: names[0])
    desk.do(requests.Correct(1, 3, 5, ""))
    desk.put_by(note)
    noted("", None)
    # on the first cell, as on the screen
    desk.act("bring_back")
    assert (_given_up(desk.path), _waiting(desk)) == (["who?"], None)
    # and no mark can be put on a paragraph without cells
    desk.do(requests.Correct(1, 0, 3, ""))
    desk.act("bring_back")
    assert desk.window.message.text.endswith(" Ctrl+B brings it back.")
    assert (_given_up(desk.path), _waiting(desk)) == (["who?"], None)


def _note_on_far(desk: Desk, monkeypatch: pytest.MonkeyPatch) -> Draft:
    """A note that was typed for the word “far”, as it waited, and was given up."""
    kept: list[Draft | None] = []

    def text(*its: Any) -> None:
        its[-1]("how far?")
        kept.append(_waiting(desk))

    monkeypatch.setattr(dialogs, "text_further", text)
    desk.choose(1)
    desk.window.print.select(Span(11, 14))
    desk.act("mark")
    (draft,) = kept
    assert draft is not None and _given_up(desk.path) == ["how far?"]
    return draft


@pytest.mark.parametrize(
    "old, new, cells",
    [
        ("The mon", "In the night the mon", "26 to 28"),
        ("away", "off", "13 to 15"),
        ("The mon is far away.", "So far it was never.", "5 to 7"),
    ],
)
def test_a_note_is_for_its_words_where_others_were_changed(
    desk: Desk,
    given: Answers,
    monkeypatch: pytest.MonkeyPatch,
    old: str,
    new: str,
    cells: str,
) -> None:
    draft, asked = _note_on_far(desk, monkeypatch), list[str]()
    start = "The mon is far away.".index(old)
    desk.do(requests.Correct(2, start, len(old), new))

    def further(over: object, title: str, sentence: str, *_: object) -> str:
        asked.append(sentence)
        return "how far?"

    monkeypatch.setattr(dialogs, "text_further", further)
    monkeypatch.setattr(dialogs, "one_of", lambda _, t, a, names, f: names[0])
    desk.act("bring_back")
    assert asked == [f"The note of a mark on “far”, cells {cells}:"]
    assert desk.window.marks.text.endswith(", open, on “far”: how far?")
    desk.wait_for_draft()
    Drafts(desk.path).save(draft)
    given["choices"] = [2]
    desk.acting(Actions(desk).offer)
    assert "“how far?”. Shall it be typed further?" in given["said"][-1]


@pytest.mark.parametrize("new", ["near", "farther", "the sea"])
def test_that_the_words_of_a_note_were_changed_is_said_and_which_they_were(
    desk: Desk,
    given: Answers,
    monkeypatch: pytest.MonkeyPatch,
    new: str,
) -> None:
    draft, asked = _note_on_far(desk, monkeypatch), list[str]()
    desk.do(requests.Correct(2, 11, 3, new))
    said = "The print there has been changed since. The note was typed for “far”."

    def further(over: object, title: str, sentence: str, *_: object) -> None:
        asked.append(sentence)

    monkeypatch.setattr(dialogs, "text_further", further)
    monkeypatch.setattr(dialogs, "one_of", lambda _, t, a, names, f: names[0])
    desk.act("bring_back")
    assert asked[0].startswith(f"{said} The note of a mark on “")
    # the window keeps there that nothing waits any more
    desk.wait_for_draft()
    Drafts(desk.path).save(draft)
    given["choices"] = [2]
    desk.acting(Actions(desk).offer)
    assert given["said"][-1].endswith(f"“how far?”. {said} Shall it be typed further?")


def test_that_the_paragraph_of_a_note_is_struck_is_said_where_it_is_typed_further(
    desk: Desk, given: Answers, monkeypatch: pytest.MonkeyPatch
) -> None:
    draft, asked = _note_on_far(desk, monkeypatch), list[str]()
    desk.do(requests.Strike(2))

    def further(over: object, title: str, sentence: str, *_: object) -> str:
        asked.append(sentence)
        return "how far?"

    monkeypatch.setattr(dialogs, "text_further", further)
    monkeypatch.setattr(dialogs, "one_of", lambda _, t, a, names, f: names[0])
    said = "Paragraph 2 is struck, so nothing goes in there until it is restored."
    desk.act("bring_back")
    assert asked == [f"{said} The note of a mark on “far”, cells 13 to 15:"]
    assert desk.window.message.text == (
        "Paragraph 2 is struck. No mark was put. Restore it first. Ctrl+B brings it back."
    )
    assert (_given_up(desk.path), _waiting(desk)) == (["how far?"], None)
    Drafts(desk.path).save(draft)
    given["choices"] = [2]
    desk.acting(Actions(desk).offer)
    assert given["said"][-1].endswith(f"“how far?”. {said} Shall it be typed further?")
    # nothing of that is said of a note once it is restored
    desk.do(requests.Restore(2))
    desk.act("bring_back")
    assert asked[1:] == ["The note of a mark on “far”, cells 13 to 15:"]
    assert desk.window.message.text == "Kept: mark 2."


def test_while_a_note_is_typed_the_end_of_the_session_is_not_looked_at_again_and_again(
    application: QApplication, desk: Desk, monkeypatch: pytest.MonkeyPatch
) -> None:
    looks: list[None] = []
    acting = desk.acting

    def counted(act: Callable[[], None]) -> None:
        looks.append(None)
        acting(act)

    def text(*_: object) -> None:
        monkeypatch.setattr(desk, "acting", counted)
        os.kill(desk.book.pid, signal.SIGKILL)
        assert wait(application, 60, lambda: bool(looks))
        for turn in range(100):
            application.processEvents()

    monkeypatch.setattr(dialogs, "text_further", text)
    desk.act("mark")
    assert len(looks) == 1
    assert wait(application, 60, lambda: bool(desk.window.message.text))
    assert desk.window.message.text.startswith("The session was ended by signal 9.")


def test_what_others_changed_is_not_taken_back_by_what_was_typed_before(
    desk: Desk, moon: Path
) -> None:
    desk.window.print.textCursor().insertText("So: ")
    os.kill(desk.book.pid, signal.SIGKILL)
    with Session(moon, timeout=60) as session:
        session.correct(1, 4, 4, "Mond")
    desk.act("keep")
    assert desk.window.message.text.endswith(
        "A text of paragraph 1 isn't in the book. The print there has been changed since."
        " Ctrl+B brings it back."
    )
    assert (desk.window.print.text, desk.is_typed()) == ("The Mond", False)
    assert (_given_up(moon), _waiting(desk)) == (["So: The Moon"], None)


def test_the_session_may_end_while_another_paragraph_is_gone_to(desk: Desk) -> None:
    os.kill(desk.book.pid, signal.SIGKILL)
    desk.acting(lambda: desk.choose(2))
    assert desk.window.message.text.startswith("The session was ended by signal 9.")
    assert (desk.number, desk.is_typed(), _waiting(desk)) == (3, False, None)


def test_what_is_in_the_book_is_not_typed_where_the_session_ends_before_it_is_shown(
    desk: Desk, monkeypatch: pytest.MonkeyPatch
) -> None:
    desk.act("new_after")
    desk.window.print.textCursor().insertText("One.")
    reading = desk.book.reading

    def killed(paragraph: Paragraph) -> ChosenParagraph:
        monkeypatch.setattr(desk.book, "reading", reading)
        os.kill(desk.book.pid, signal.SIGKILL)
        return reading(paragraph)

    monkeypatch.setattr(desk.book, "reading", killed)
    desk.act("keep")
    assert desk.window.message.text.startswith("The session was ended by signal 9.")
    assert not desk.is_typed()
    assert prints_of(desk)[:3] == ["The Moon", "One.", "The mon is far away."]


@pytest.mark.parametrize("how", ["read", "kept"])
@pytest.mark.parametrize("command", range(1, 5))
@pytest.mark.parametrize("is_new", [True, False])
def test_of_lines_none_is_lost_with_the_session_and_none_typed_twice(
    opened: Opened,
    moon: Path,
    asked: dict[str, int],
    monkeypatch: pytest.MonkeyPatch,
    is_new: bool,
    command: int,
    how: str,
) -> None:
    monkeypatch.setattr(dialogs, "one_of", lambda _, t, a, names, f: names[0])
    asked["Pasted lines"] = asked["Typed lines"] = 0
    with opened(f"{command} {how}") as desk:
        if is_new:
            desk.act("new_after")
        else:
            desk.window.print.put_caret(8)
        desk.window.print.pasted.emit(["s", "One.", "Two.", "Three."])
        assert desk.window.message.text.startswith("The session was ended by signal 9.")
        assert (desk.is_typed(), desk.new, _waiting(desk)) == (False, None, None)
        if (command, how) != (4, "kept"):
            desk.act("bring_back")
            # one line alone is typed further, and not sent yet
            assert desk.settle()
        assert (_given_up(moon), _waiting(desk)) == ([], None)
    lines = ["The Moon", "s"] if is_new else ["The Moons"]
    assert prints(moon)[: len(lines) + 3] == [*lines, "One.", "Two.", "Three."]


def test_of_lines_one_that_is_refused_stays_typed_after_those_before(
    desk: Desk, asked: dict[str, int]
) -> None:
    asked["Pasted lines"] = 0
    desk.act("new_after")
    desk.window.print.pasted.emit(["One.", "#", "Two."])
    assert desk.new == New(Aim.AFTER, 4, "en") and desk.typed_text() == "#"
    (left,) = Drafts(desk.path).given_up()
    # it comes after the paragraph that is chosen by then
    assert (left.paragraph, left.text) == (None, "Two.")
    assert desk.number == 4


def test_lines_of_which_the_first_is_in_the_book_go_on_after_it(
    desk: Desk, asked: dict[str, int]
) -> None:
    draft = Draft(Aim.AFTER, 1, "en", "", "One.\nTwo.\nThree.", None, 5)
    desk.do(requests.Type(1, "en", "One."))
    desk.choose(3)
    Drafts(desk.path).save(draft)
    asked["Unsent text"] = asked["Typed lines"] = 0
    desk.acting(Actions(desk).offer)
    assert prints_of(desk)[:5] == [
        "The Moon",
        "One.",
        "Two.",
        "Three.",
        "The mon is far away.",
    ]


def test_it_is_said_if_the_print_was_changed_since_a_text_was_typed(
    desk: Desk, monkeypatch: pytest.MonkeyPatch
) -> None:
    said: list[str] = []

    def choice(over: object, title: str, asked: str, answers: Sequence[str]) -> int:
        said.append(asked)
        return 2

    monkeypatch.setattr(dialogs, "choice", choice)
    draft = Draft(Aim.EDIT, 1, "en", "The Mon", "The Mon.", None, 5)
    Drafts(desk.path).save(draft)
    desk.acting(Actions(desk).offer)
    assert said == [
        "A text of paragraph 1 was typed and isn't in the book: “The Mon.”. The print there has"
        " been changed since. Shall it be typed further?"
    ]


def prints_of(desk: Desk) -> list[str]:
    """The prints of the book at work."""
    session, book = desk.book.session, desk.asked(desk.book.contents).paragraphs
    return desk.asked(lambda: [session.print_of(each.id) for each in book])


def test_words_whose_change_was_cut_short_are_taken_back_and_no_earlier_change_is(
    opened: Opened, given: Answers
) -> None:
    given["fields"] = ["a", "e"], [False, False]
    given["choices"] = [0, 0]
    with opened("4 read") as desk:
        desk.do(requests.Correct(2, 0, 0, "So, "))
        desk.act("change_all")
        assert desk.window.message.text == (
            "The session was ended by signal 9. The book was opened again: it is at version 8."
            " What was being done was stopped after 2 changes."
        )
        assert prints_of(desk)[1] == "So, The mon is fer eway."
        desk.act("take_back")
        assert given["said"][-1] == (
            "The last action did this: “a” was replaced in 2 places. Shall all of it be taken back?"
        )
        assert desk.window.message.text == ("Taken back: “a” was replaced in 2 places.")
        assert prints_of(desk)[1] == "So, The mon is far away."
        desk.act("take_back")
        assert prints_of(desk)[1] == "The mon is far away."


@pytest.mark.parametrize(
    "far, said, text",
    [
        # nobody answered that the last one was kept
        ("kept", "Taken back: paragraph 2 was", "So, The mon is fer eway."),
        ("answered", "Taken back: “a” was replaced in 3", "So, The mon is far away."),
    ],
)
def test_where_words_that_were_changed_are_not_all_seen_no_earlier_change_is_taken_back(
    opened: Opened, given: Answers, far: str, said: str, text: str
) -> None:
    given["fields"] = ["a", "e"], [False, False]
    given["choices"] = [0, 0]
    with opened(f"4 {far}") as desk:
        desk.do(requests.Correct(2, 0, 0, "So, "))
        desk.act("change_all")
        assert desk.window.message.text.endswith("was stopped after 3 changes.")
        assert prints_of(desk)[1] == "So, The mon is fer ewey."
        desk.act("take_back")
        assert desk.window.message.text.startswith(said)
        assert prints_of(desk)[1] == text


@pytest.mark.parametrize("is_resolved", [False, True])
def test_what_is_in_the_book_though_its_session_ended_is_taken_back(
    opened: Opened, is_resolved: bool
) -> None:
    with opened("2 kept") as desk:
        desk.do(requests.Style(2, Style.HEADING))
        if is_resolved:
            desk.choose(1, 5)
            desk.act("resolve")
        else:
            desk.acting(partial(desk.do, requests.Strike(2)))
        assert desk.window.message.text.startswith("The session was ended by signal 9.")
        desk.act("take_back")
        said = "mark 1 was resolved" if is_resolved else "paragraph 2 was struck"
        assert desk.window.message.text.startswith(f"Taken back: {said}.")
        desk.act("take_back")
        assert desk.window.message.text == "Taken back: paragraph 2 was made a heading."


def test_what_was_taken_back_and_not_answered_is_not_taken_back_twice(
    opened: Opened,
) -> None:
    with opened("3 kept") as desk:
        desk.do(requests.Style(2, Style.HEADING))
        desk.do(requests.Strike(2))
        desk.act("take_back")
        assert desk.window.message.text.startswith("The session was ended by signal 9.")
        assert not desk.contents.paragraphs[1].struck
        desk.act("take_back")
        assert desk.window.message.text == "Taken back: paragraph 2 was made a heading."


@pytest.mark.parametrize("moment", ["", "5 kept"])
def test_what_is_left_of_much_that_is_taken_back_is_asked_about(
    opened: Opened, given: Answers, moment: str
) -> None:
    stops = [] if moment else [0, 1]
    given["choices"] = [0, 0]

    def report(done: int, count: int) -> None:
        if stops and stops.pop(0):
            raise KeyboardInterrupt

    with opened(moment) as desk:
        commands = [partial(_typed, text) for text in ("One.", "Two.", "Three.")]
        desk.asked(
            partial(desk.book.typed_all, commands, lambda *_: None, desk.book.deeds)
        )
        with desk.failures():
            desk.asked(partial(desk.book.taken_back, report))
        desk.act("take_back")
        if moment:
            # one that is left isn't asked about
            assert given["said"] == []
        else:
            assert given["said"] == [
                "This was done last: 3 paragraphs were typed, 4 to 6. 1 of its 3 changes is taken"
                " back. Shall the rest be taken back?"
            ]
        assert [each.struck for each in desk.contents.paragraphs[3:]] == [True] * 3


def _typed(text: str, newest: int | None) -> requests.Type:
    return requests.Type("end", "en", text)


@pytest.mark.parametrize("moment", ["3 read", ""])
def test_words_whose_change_was_cut_short_are_asked_about_until_all_are_changed_or_left(
    opened: Opened, given: Answers, monkeypatch: pytest.MonkeyPatch, moment: str
) -> None:
    given["fields"] = ["o", "oo"], [False, False]
    given["choices"] = [0]
    long: Callable[..., object] = dialogs.long
    with opened(moment) as desk:
        if not moment:
            # a person stops it before the third place
            look = [False, False, True]
            monkeypatch.setattr(
                dialogs,
                "long",
                lambda over, worker, title, act, *more: long(
                    *(over, worker, title),
                    lambda say, _: act(say, lambda: look.pop(0)),
                    *more,
                ),
            )
        desk.act("change_all")
        if not moment:
            assert desk.window.message.text.endswith(" The rest stays as it was.")
        (note,) = Drafts(desk.path).changes()
    monkeypatch.setattr(dialogs, "long", long)
    said = "Changing “o” to “oo” was cut short: 2 of 4 places are changed"
    with opened() as desk:
        given["said"], given["choices"] = [], [2, 0, 0]
        desk.acting(Actions(desk).offer)
        assert Drafts(desk.path).changes() == (note,)
        desk.acting(Actions(desk).offer)
        assert given["said"][:2] == [f"{said}. Shall the others be changed?"] * 2
        start = f"{said} already. “o” would be changed in 2 places of 2 paragraphs"
        assert given["said"][2].startswith(start)
        assert prints_of(desk) == [
            "The Moooon",
            "The moon is far away.",
            "Twice a day the sea coomes up.",
        ]
        assert Drafts(desk.path).changes() == ()
        given["choices"] = [0, 1]
        version, notes = desk.contents.version, list[object]()
        monkeypatch.setattr(
            dialogs,
            "long",
            lambda over, worker, title, act, *more: long(
                *(over, worker, title),
                lambda _, is_stopped: act(
                    lambda _: notes.append(desk.drafts.taken_back()), is_stopped
                ),
                *more,
            ),
        )
        desk.act("take_back")
        assert notes == [(version, 2)] * 2 and desk.drafts.taken_back() is None
        # as the next opening finds it where that was killed
        desk.drafts.take_back(version, 7)
        desk.drafts.begin_change(note)
        desk.acting(Actions(desk).offer)
        assert desk.window.message.text == (
            "The other places stay as they are. Taking back 7 changes was cut short: at most 2 of"
            " them were taken back."
        )
        assert Drafts(desk.path).changes() == ()


def test_words_are_not_asked_about_again_once_all_that_was_changed_is_taken_back(
    opened: Opened, given: Answers
) -> None:
    given["fields"] = ["o", "oo"], [False, False]
    for choices, left in (([0, 0], 0), ([0], 1)):
        given["choices"] = choices
        with opened("3 read") as desk:
            desk.act("change_all")
            assert len(Drafts(desk.path).changes()) == 1
            if not left:
                desk.act("take_back")
                assert desk.window.message.text == (
                    "Taken back: “o” was replaced in 2 places."
                )
            assert len(Drafts(desk.path).changes()) == left
    # what was changed before that stays changed, and is asked about
    given["choices"] = [0, 0]
    with opened("2 read") as desk:
        desk.acting(Actions(desk).offer)
        desk.act("take_back")
        assert desk.window.message.text == "Taken back: “o” was replaced in 1 place."
        assert len(Drafts(desk.path).changes()) == 1


def test_of_many_that_are_taken_back_once_the_session_ended_meanwhile_none_is_twice(
    opened: Opened, monkeypatch: pytest.MonkeyPatch
) -> None:
    wanted = ["a", "e"], [False, False]
    monkeypatch.setattr(dialogs, "fields", lambda *_: wanted)
    monkeypatch.setattr(dialogs, "choice", lambda *_: 0)
    monkeypatch.setattr(dialogs, "report", lambda *_: None)
    with opened("10 read") as desk:
        desk.do(requests.Correct(3, 0, 0, "So, "))
        desk.act("change_all")
        before = prints_of(desk)
        desk.act("take_back")
        assert desk.window.message.text.endswith(
            "What was being done was stopped after 2 changes."
        )
        desk.act("take_back")
        assert desk.window.message.text.startswith("Taken back: ")
        assert prints_of(desk)[1:] == [
            "The mon is far away.",
            "So, Twice a day the sea comes up.",
        ]
        assert before[1] == "The mon is fer ewey."


def test_what_is_kept_of_lines_while_they_are_typed_grows_as_the_lines(
    desk: Desk, asked: dict[str, int], monkeypatch: pytest.MonkeyPatch
) -> None:
    asked["Pasted lines"] = 0
    lines = [f"This is line {number}." for number in range(2_000)]
    kept: list[int] = []

    def typed_all(
        commands: Sequence[object],
        report: Callable[[int, int | None], None],
        before: object,
    ) -> Done:
        for number in range(len(commands)):
            report(number, number + 4 if number else None)
        return Done(desk.contents, "kept: paragraph 3", 3)

    save = Drafts.save

    def saved(drafts: Drafts, draft: Draft) -> None:
        kept.append(len(draft.text))
        save(drafts, draft)

    monkeypatch.setattr(desk.book, "typed_all", typed_all)
    monkeypatch.setattr(Drafts, "save", saved)
    desk.act("new_after")
    desk.window.print.pasted.emit(lines)
    assert sum(kept) < 20 * len("\n".join(lines))
    assert _waiting(desk) is None


@pytest.mark.parametrize("far", ["read", "kept", "answered"])
@pytest.mark.parametrize("number", [2, 13, 40])
def test_of_many_lines_none_is_lost_with_the_session_and_none_typed_twice(
    opened: Opened, asked: dict[str, int], far: str, number: int
) -> None:
    asked["Pasted lines"] = 0
    lines = [f"Line {n % 3}." for n in range(40)]
    with opened(f"{number} {far}") as desk:
        desk.act("new_after")
        desk.window.print.pasted.emit(lines)
        book = desk.asked(desk.book.contents).paragraphs
        session = desk.book.session
        there = desk.asked(lambda: [session.print_of(p.id) for p in book if p.id > 3])
        assert len(there) == number - (far == "read")
        left = [line for text in _given_up(desk.path) for line in text.split("\n")]
        assert [*there, *left] == lines
        assert _waiting(desk) is None


def test_a_note_that_is_typed_further_keeps_what_was_typed_of_it_before(
    desk: Desk,
) -> None:
    def type_on() -> None:
        dialog = QApplication.activeModalWidget()
        line = dialog.focusWidget() if dialog is not None else None
        if not (isinstance(dialog, QInputDialog) and isinstance(line, QLineEdit)):
            # the book is asked before the dialog is there
            QTimer.singleShot(10, type_on)
            return
        # in place of what is selected, as a key does
        line.insert("it")
        dialog.accept()

    QTimer.singleShot(0, type_on)
    Marking(desk).noted(Span(0, 1), "Is ")
    assert desk.reading is not None
    assert [mark.note for mark in desk.reading.its.marks] == ["Is it"]
