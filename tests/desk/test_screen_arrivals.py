"""Keys that come faster than hands type: by times that are written here, without waiting."""

import os
import random
import signal
import time
from pathlib import Path

import pytest

import braildesk
from braildesk import Session
from braildesk.desk.change_note import Became, ChangeNote, NotedPlace
from braildesk.desk.documents.kinds import ManuscriptKind
from braildesk.desk.documents.options import ReadingOptions
from braildesk.desk.draft import Aim, Draft
from braildesk.desk.drafts import Drafts
from braildesk.desk.import_note import How, ImportNote

from scribe.screen.arrivals import UNREAD, Arrivals, Lull, ToBeRead
from scribe.screen.keyboard import Keyboard, Pasted, Stroke
from scribe.words.drafts import Unsent
from stand_in import READ, WAIT
from terminal import Open, Terminal, once_free, standing_in
from tool import WAIT_SECONDS


def done_with(*came: tuple[float, str]) -> list[Stroke]:
    """What is done with characters that came at these times, up to a second after the last."""
    arrivals, keyboard = Arrivals(), Keyboard()
    done: list[Stroke] = []
    for at, text in came:
        done += arrivals.let_go(at)
        done += arrivals.came(keyboard.strokes(text), at)
    return done + arrivals.let_go(came[-1][0] + 1)


def test_a_line_that_comes_at_once_is_pasted_text_and_no_letter_acts() -> None:
    assert done_with((0.0, "strike bit.\r")) == [Pasted("strike bit.\n", is_keys=True)]


def test_lines_that_come_in_pieces_are_one_pasted_text() -> None:
    text = "The moon is far.\rTwice a day\tthe sea comes up.\r"
    one_by_one = [(n / 1000, each) for n, each in enumerate(text)]
    wanted = [Pasted(text.replace("\r", "\n"), is_keys=True)]
    assert done_with(*one_by_one) == wanted
    assert done_with((0.0, text[:20]), (0.03, text[20:30]), (0.07, text[30:])) == wanted


@pytest.mark.parametrize(
    "text", ["s", "sb", "sbv", "nnnnnnnn", "nnnnnnr", "\r\r\r\r\r", "    "]
)
def test_three_keys_and_a_key_that_is_held_down_are_typed(text: str) -> None:
    keys = ["enter" if each == "\r" else each for each in text]
    assert done_with((0.0, text)) == keys


@pytest.mark.parametrize("gap", [0.02, 0.033, 0.1])
def test_letters_that_hands_type_are_keys(gap: float) -> None:
    came = [(n * gap, each) for n, each in enumerate("snbvti")]
    assert done_with(*came) == list("snbvti")


def test_other_keys_are_never_held_and_part_what_comes_before_them() -> None:
    arrivals = Arrivals()
    assert arrivals.came(["down"] * 50, 0.0) == ["down"] * 50
    assert arrivals.due is None
    assert arrivals.came(["s"], 0.0) == []
    assert arrivals.came(["a-up", "escape", "b"], 0.001) == ["s", "a-up", "escape"]
    assert arrivals.due == pytest.approx(0.016)
    assert arrivals.came([Pasted("text")], 0.002) == ["b", Pasted("text")]
    assert arrivals.came(["one", "unknown"], 0.01) == ["one", "unknown"]


def test_a_key_acts_within_a_fiftieth_of_a_second() -> None:
    arrivals = Arrivals()
    assert arrivals.came(["s"], 5.0) == []
    assert arrivals.let_go(5.001) == []
    assert arrivals.let_go(5.02) == ["s"]
    assert arrivals.let_go(6.0) == []


@pytest.mark.parametrize(
    "busy, keys, is_text",
    [
        (1.0, "snbr", False),
        (1.0, "snbrtv", False),
        (0.05, "snbr", True),
        (0.3, "snnnnnnnnnnnrb", False),
    ],
)
def test_keys_that_waited_while_the_desk_was_busy_were_typed_if_there_was_time(
    busy: float, keys: str, is_text: bool
) -> None:
    arrivals = Arrivals()
    done = arrivals.came([*keys], 10.0, 10.0 - busy) + arrivals.let_go(11.0)
    wanted: list[Stroke] = [*keys]
    assert done == ([Pasted(keys, is_keys=True)] if is_text else wanted)


def test_a_line_is_pasted_text_also_where_the_desk_was_busy_for_a_second() -> None:
    arrivals = Arrivals()
    line = "Twice a day the sea comes up."
    assert arrivals.came([*line], 10.0, 9.0) + arrivals.let_go(11.0) == [
        Pasted(line, is_keys=True)
    ]


def test_what_comes_is_done_once_and_in_its_order_however_it_comes() -> None:
    chance = random.Random(58)
    for _ in range(300):
        text = "".join(chance.choices("ab \r\t\x1b", k=30)).replace("\x1b", "\x1b[A")
        came, at, rest = [], 0.0, text
        while rest:
            count = chance.randint(1, 6)
            came.append((at, rest[:count]))
            rest, at = rest[count:], at + chance.choice([0, 0.001, 0.02, 0.2])
        written = {"enter": "\r", "tab": "\t", "up": "\x1b[A"}
        done = [
            each.text.replace("\n", "\r")
            if isinstance(each, Pasted)
            else written.get(each, each)
            for each in done_with(*came)
        ]
        assert "".join(done) == text


def test_a_paste_is_over_once_for_three_seconds_keys_come_one_by_one_or_nothing() -> (
    None
):
    lull = Lull()
    lull.came(200, True, 10.0)
    lull.came(1_000, True, 12.5)
    # over a slow line characters come one by one, and faster than hands type them
    for hundredth in range(0, 400, 3):
        lull.came(1, True, 12.51 + hundredth / 100)
    assert lull.due == pytest.approx(19.5)
    for at in (17.0, 17.5, 19.0):
        lull.came(1, True, at)
        assert not lull.is_over(at)
    assert lull.is_over(19.51)
    lull.came(6, False, 19.6)
    assert (lull.due, lull.is_over(100.0)) == (None, False)


def test_a_question_is_read_once_it_stood_for_a_third_of_a_second_without_keys() -> (
    None
):
    question = ToBeRead()
    question.came("Lines?", 10.0, 5.0)
    assert not question.is_read_of("Lines?")  # it isn't drawn yet
    question.drawn("Lines?", 10.1)
    question.drawn("Lines?", 10.3)
    for pressed_at, before, is_read in (
        (10.05, 9.0, False),
        (10.3, 9.0, False),
        (10.41, 9.0, True),
        (10.41, 10.2, False),
        (10.51, 10.2, True),
    ):
        question.came("Lines?", pressed_at, before)
        assert question.is_read_of("Lines?") is is_read, pressed_at
    # what a key before it in the same moment has asked wasn't there to be read
    assert not question.is_read_of("Other lines?")
    question.came("Other lines?", 20.0, 10.6)
    assert not question.is_read_of("Other lines?")


@pytest.mark.parametrize(
    "text, wanted",
    [
        ("n", UNREAD),
        ("nnn", UNREAD),
        ("n\r", UNREAD),
        ("no", Pasted("no", is_keys=True)),
        ("The moon\r", Pasted("The moon\n", is_keys=True)),
    ],
)
@pytest.mark.parametrize("gap", [0.0, 0.2])
def test_keys_before_an_offer_was_read_are_one_text_or_answer_nothing(
    text: str, wanted: Stroke, gap: float
) -> None:
    arrivals, keyboard, now = Arrivals(is_unread=True), Keyboard(), 10.0
    for key in text:
        now += gap
        assert arrivals.came(keyboard.strokes(key), now, now - gap) == []
    # hands that type on stop for longer between two words
    pause = 0.3 if wanted == UNREAD else 1.0
    assert arrivals.due == pytest.approx(now + pause)
    assert arrivals.let_go(now + pause - 0.01) == []
    assert arrivals.let_go(now + pause + 0.01) == [wanted]


def test_a_text_before_an_offer_was_read_goes_on_after_a_pause_between_its_words() -> (
    None
):
    arrivals, keyboard, now = Arrivals(is_unread=True), Keyboard(), 10.0
    for key, gap in zip("The moon", (0.0, 0.1, 0.1, 0.1, 0.8, 0.1, 0.9, 0.2)):
        now += gap
        assert arrivals.came(keyboard.strokes(key), now) == []
    assert arrivals.let_go(now + 1.01) == [Pasted("The moon", is_keys=True)]


SOON = Draft(Aim.EDIT, 1, "en", "The moon is far away.", "The moon is near.")


def pressed_before(book: Path, at: Open, keys: str) -> Terminal:
    """A terminal whose keys are pressed before its screen is there: the book is opened after that."""
    program = book.with_name("program")
    program.write_text(
        "#!/bin/sh\nuntil [ -e pressed ]; do sleep 0.01; done\n"
        f"exec '{braildesk.find()}' \"$@\"\n"
    )
    program.chmod(0o755)
    terminal = at(book, 160, BRAILDESK=str(program))
    terminal.send(keys)
    book.with_name("pressed").touch()
    return terminal


@pytest.mark.parametrize("key", ["y", "n", "l"])
def test_a_key_before_the_screen_is_there_answers_no_offer_of_a_text(
    moon: Path, at: Open, key: str
) -> None:
    Drafts(moon).save(SOON)
    terminal = pressed_before(moon, at, key)
    terminal.wait(
        "That key came before the question could be read, and was no answer to it."
    )
    terminal.wait("Shall it be typed further? y is yes, n is no.")
    assert Drafts(moon).waiting() == SOON and not Drafts(moon).given_up()
    terminal.answer("y")
    terminal.wait("You are editing paragraph 1.")
    terminal.keys("enter")
    terminal.wait("kept: correction 2 of paragraph 1")


def test_a_line_before_the_screen_is_there_is_kept_and_answers_no_offer(
    moon: Path, at: Open
) -> None:
    Drafts(moon).save(SOON)
    terminal = pressed_before(moon, at, "no\r")
    terminal.wait("What was typed at the question is set aside: “no”.")
    terminal.wait("Shall it be typed further? y is yes, n is no.")
    assert Drafts(moon).waiting() == SOON
    assert [each.text for each in Drafts(moon).given_up()] == ["no"]


def test_a_line_before_the_screen_is_there_is_kept_and_not_said_to_be_pasted(
    moon: Path, at: Open
) -> None:
    terminal = pressed_before(moon, at, "strike bits.\r")
    terminal.wait("Keys that come all at once are taken as a text")
    assert [each.text for each in Drafts(moon).given_up()] == ["strike bits."]


def cut_short(book: Path) -> None:
    """Has an import of a page into a book be cut short, whose text is another one by now."""
    page = book.with_name("page.html")
    page.write_text("<p>One.</p>")
    how = How(ReadingOptions(ManuscriptKind.HTML))
    its = ImportNote(str(page), "0" * 64, False, 1, 1, "en", "end", 1, 0, how)
    Drafts(book).begin_import(its)


@pytest.mark.parametrize("keys", ["s", "\x1b[1;3B", "s\x1b[1;3Bs"])
def test_keys_that_were_pressed_while_the_page_of_an_import_was_read_again_do_nothing(
    moon: Path, at: Open, keys: str
) -> None:
    cut_short(moon)
    terminal = pressed_before(moon, at, keys)
    terminal.wait("The import of page.html was cut short")
    if keys[0] == "s":
        terminal.wait("That key came before this could be seen, and did nothing.")
    # a key that comes with those is one of them
    terminal.await_read()
    terminal.answer("v")
    terminal.wait("kept: paragraph 1 begins a volume")
    terminal.keys("q")
    assert terminal.ended() == 0
    with Session(moon) as session:
        assert session.version() == 8


def test_a_text_that_was_typed_while_the_page_of_an_import_was_read_again_is_kept(
    moon: Path, at: Open
) -> None:
    cut_short(moon)
    terminal = pressed_before(moon, at, "so\r")
    terminal.wait("Keys that come all at once are taken as a text")
    assert [each.text for each in Drafts(moon).given_up()] == ["so"]
    terminal.keys("q")
    assert terminal.ended() == 0
    with Session(moon) as session:
        assert session.version() == 7


def test_a_text_whose_first_letter_answers_no_offer_is_kept_from_that_letter_on(
    moon: Path, at: Open
) -> None:
    Drafts(moon).save(SOON)
    terminal = at(moon, 160)
    terminal.wait("Shall it be typed further? y is yes, n is no.")
    terminal.answer("N")
    terminal.wait("That key is no answer to the question.")
    # with a pause that there is before an answer
    terminal.settle()
    time.sleep(0.5)
    terminal.send("Oh")
    terminal.wait("What was typed at the question is set aside: “Oh”.")
    assert Drafts(moon).waiting() == SOON
    assert [each.text for each in Drafts(moon).given_up()] == ["Oh"]


#: Hands that make no pause.
NO_PAUSE = 1_000.0


def typed_at_offer(book: Path, at: Open, text: str) -> Terminal:
    """A terminal in which a text is typed at an offer, without a pause, and is kept by now."""
    Drafts(book).save(SOON)
    terminal = at(book, 160)
    terminal.wait("Shall it be typed further? y is yes, n is no.")
    terminal.send(text)
    end = time.monotonic() + WAIT_SECONDS
    while Drafts(book).unread() is None:
        assert time.monotonic() < end
        time.sleep(0.01)
    return terminal


def test_a_text_that_is_typed_at_an_offer_is_there_once_if_scribe_is_killed_meanwhile(
    moon: Path, at: Open, monkeypatch: pytest.MonkeyPatch
) -> None:
    monkeypatch.setattr("scribe.screen.arrivals._PAUSE_SECONDS", NO_PAUSE)
    terminal = typed_at_offer(moon, at, "The sea")
    terminal.send_signal(signal.SIGKILL)
    assert terminal.ended() == -signal.SIGKILL
    again = at(moon, 160)
    again.wait("What was typed where no text was asked for is set aside: “The sea”.")
    again.wait("Shall it be typed further? y is yes, n is no.")
    assert Drafts(moon).waiting() == SOON
    assert [each.text for each in Drafts(moon).given_up()] == ["The sea"]


def test_a_text_that_was_typed_at_an_offer_is_there_once_if_scribe_is_killed_then(
    moon: Path, at: Open, monkeypatch: pytest.MonkeyPatch
) -> None:
    put_by = Unsent.put_by

    def killed(unsent: Unsent, draft: Draft) -> str:
        put_by(unsent, draft)
        os.kill(os.getpid(), signal.SIGKILL)
        return ""

    with monkeypatch.context() as patched:
        patched.setattr("scribe.screen.arrivals._PAUSE_SECONDS", NO_PAUSE)
        patched.setattr(Unsent, "put_by", killed)
        terminal = typed_at_offer(moon, at, "The sea")
        terminal.send(" rises")
        # what no text can have in it ends it
        terminal.keys("f5")
        assert terminal.ended() == -signal.SIGKILL
    again = at(moon, 160)
    again.wait("Shall it be typed further? y is yes, n is no.")
    assert [each.text for each in Drafts(moon).given_up()] == ["The sea rises"]


def test_a_text_that_was_set_aside_at_an_offer_is_not_set_aside_again_after_a_kill(
    moon: Path, at: Open, monkeypatch: pytest.MonkeyPatch
) -> None:
    monkeypatch.setattr("scribe.screen.arrivals._PAUSE_SECONDS", NO_PAUSE)
    terminal = typed_at_offer(moon, at, "The sea")
    terminal.keys("f5")
    terminal.wait("That key is no answer to the question.")
    assert Drafts(moon).unread() is None
    assert [each.text for each in Drafts(moon).given_up()] == ["The sea"]


def test_letters_of_a_text_that_was_begun_at_an_offer_are_no_keys_once_that_is_gone(
    moon: Path, at: Open, monkeypatch: pytest.MonkeyPatch
) -> None:
    monkeypatch.setattr("scribe.screen.arrivals._PAUSE_SECONDS", NO_PAUSE)
    monkeypatch.setattr("scribe.screen.arrivals.READING_SECONDS", NO_PAUSE)
    place = NotedPlace(1, 21, 4, "moon", Became.OPEN)
    Drafts(moon).begin_change(ChangeNote("moon", "sun", False, False, 7, (place,)))
    terminal = at(moon, 160)
    terminal.wait("Shall the others be listed?")
    terminal.send("s")
    terminal.await_read()
    os.kill(terminal.program(), signal.SIGKILL)
    terminal.wait("The book was opened again")
    terminal.send("o")
    terminal.await_read()
    # longer than a key is held that is a command
    time.sleep(0.1)
    terminal.keys("f5")
    terminal.wait("does nothing here")
    assert [each.text for each in Drafts(moon).given_up()] == ["so"]
    terminal.keys("q")
    assert terminal.ended() == 0
    with once_free(moon) as session:
        assert session.last_version == 7


def test_letters_that_are_typed_on_after_keys_that_came_at_once_answer_no_question(
    moon: Path, at: Open
) -> None:
    terminal = at(moon, 160)
    terminal.wait("? shows the keys.")
    terminal.keys("o")
    terminal.wait("-- New paragraph after paragraph 1")
    terminal.send("It rose.\rIt must\r")
    terminal.await_read()
    time.sleep(0.1)
    terminal.send("n")
    terminal.wait("Are they 3 paragraphs? Enter ends the last line")
    terminal.type_on("ight")
    terminal.wait("It rose. It must night")
    terminal.keys("enter")
    terminal.wait("Are they 3 paragraphs? y is yes, n is no.")
    terminal.answer("y")
    terminal.wait("version 10, table en, last kept: paragraph 6")
    terminal.keys("escape", "q")
    assert terminal.ended() == 0
    with Session(moon) as session:
        assert [session.print_of(each) for each in (4, 5, 6)] == [
            "It rose.",
            "It must",
            "night",
        ]


def test_keys_act_again_where_the_end_of_a_paste_never_comes(
    moon: Path, at: Open
) -> None:
    terminal = at(moon, 160)
    terminal.wait("? shows the keys.")
    terminal.keys("o")
    terminal.wait("-- New paragraph after paragraph 1")
    terminal.send("\x1b[200~It rose.")
    terminal.wait(
        "The end of the pasted text didn't come. All that came is taken as pasted"
    )
    terminal.keys("enter")
    terminal.wait("version 8, table en, last kept: paragraph 4")
    terminal.keys("escape", "q")
    assert terminal.ended() == 0
    with Session(moon) as session:
        assert session.print_of(4) == "It rose."


def slowly_pasted(
    book: Path, at: Open, monkeypatch: pytest.MonkeyPatch, typed: str
) -> Terminal:
    """A terminal in which a text is pasted whose end hasn't come, and what came is kept by now."""
    monkeypatch.setattr("scribe.screen.arrivals._LULL_SECONDS", NO_PAUSE)
    terminal = at(book, 160)
    terminal.wait("? shows the keys.")
    terminal.keys(*(["o", *typed] if typed else []))
    terminal.send("\x1b[200~It rose.\rIt se")
    drafts, end = Drafts(book), time.monotonic() + WAIT_SECONDS
    while "It se" not in str([drafts.waiting(), drafts.unread()]):
        assert time.monotonic() < end
        time.sleep(0.01)
    return terminal


@pytest.mark.parametrize(
    "typed, said",
    [
        ("Oh: ", "was typed and isn't in the book: “Oh: It rose. It se”."),
        ("", "typed where no text was asked for is set aside: “It rose. It se”."),
    ],
)
def test_what_came_of_a_paste_is_there_if_scribe_is_killed_before_its_end(
    moon: Path, at: Open, monkeypatch: pytest.MonkeyPatch, typed: str, said: str
) -> None:
    terminal = slowly_pasted(moon, at, monkeypatch, typed)
    terminal.send_signal(signal.SIGKILL)
    assert terminal.ended() == -signal.SIGKILL
    at(moon, 160).wait(said)
    given_up = [each.text for each in Drafts(moon).given_up()]
    assert given_up == ([] if typed else ["It rose.\nIt se"])


@pytest.mark.parametrize("typed", ["Oh: ", ""])
def test_a_paste_of_which_a_part_was_kept_goes_in_once_at_its_end(
    moon: Path, at: Open, monkeypatch: pytest.MonkeyPatch, typed: str
) -> None:
    terminal = slowly_pasted(moon, at, monkeypatch, typed)
    assert not any("It se" in line for line in terminal.lines)
    terminal.send("t.\x1b[201~")
    if typed:
        terminal.wait("Are they 2 paragraphs?")
        terminal.answer("y")
        terminal.wait("last kept: paragraph 5")
        terminal.keys("escape")
    else:
        terminal.wait("Pasted text goes in after Enter or o.")
    terminal.keys("q")
    assert terminal.ended() == 0
    given_up = [each.text for each in Drafts(moon).given_up()]
    assert given_up == ([] if typed else ["It rose.\nIt set."])
    assert (Drafts(moon).waiting(), Drafts(moon).unread()) == (None, None)
    with Session(moon) as session:
        prints = [session.print_of(each) for each in range(4, 6)] if typed else []
    assert prints == (["Oh: It rose.", "It set."] if typed else [])


def test_that_lines_whose_paste_was_slow_can_not_be_kept_is_said_at_their_end(
    moon: Path, at: Open, monkeypatch: pytest.MonkeyPatch
) -> None:
    monkeypatch.setattr("scribe.screen.arrivals._LULL_SECONDS", NO_PAUSE)
    monkeypatch.setattr("scribe.screen.terminal._SAVE_SECONDS", 0.1)
    terminal = at(moon, 160, XDG_STATE_HOME="/proc/nowhere")
    terminal.wait("? shows the keys.")
    terminal.keys("o")
    terminal.wait("-- New paragraph after paragraph 1")
    terminal.send("\x1b[200~It rose.\rIt se")
    terminal.await_read()
    # longer than until what came is to be kept
    time.sleep(0.5)
    terminal.send("t.\x1b[201~")
    terminal.wait("Are they 2 paragraphs?")
    terminal.wait("What is typed can't be kept in /proc/nowhere")


def test_keys_that_were_typed_while_a_command_was_under_way_act_one_by_one(
    moon: Path, at: Open
) -> None:
    queue = moon.parent / "queue"
    os.mkfifo(queue)
    terminal = at(moon, **standing_in(1, READ, WAIT, str(queue)))
    terminal.wait("? shows the keys.")
    terminal.keys("s")
    queue.read_bytes()
    terminal.type_on("bvbs")
    queue.write_bytes(b"")
    terminal.wait("version 12, ")
    terminal.keys("q")
    assert terminal.ended() == 0
