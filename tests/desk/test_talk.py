"""scribe talk, by what a person sees at a terminal."""

import os
import shutil
import signal
import sys
import time
from collections.abc import Iterator
from pathlib import Path

import pytest

import braildesk
from braildesk import pipe
from scribe.cli.commands import AT_PROMPT
from scribe.words.typed import InvalidInput, words_of
from prompted import LOOKING_OFTEN, OF_SHELL, Prompted, child_of
from terminal import once_free
from tool import at_end, at_terminal, end, environment, scribe

#: Longer than what a terminal that collects lines gives to a program.
PASTED_BYTES = 20_000

COMES_BACK = (
    "Up brings back what was typed as a talk was broken off, and Ctrl-C gives it up:"
)


def talk_about(book: Path, *words: str, **more: str) -> Prompted:
    """A person at a terminal at which scribe talks about a book."""
    spoken = ("talk", str(book), *words)
    return Prompted(*spoken, folder=book.parent, before=None, **more)


@pytest.fixture
def talk(moon: Path) -> Iterator[Prompted]:
    """A person who talks about the book of the examples, in lines of 40."""
    talk = talk_about(moon, "--width", "40")
    yield talk
    talk.close()


def test_the_book_is_named_first(talk: Prompted) -> None:
    assert talk.greeting == [
        "moon.braildesk: version 7, 3 paragraphs.",
        "  Type help, or quit to end.",
    ]


def test_each_answer_begins_with_what_changed(talk: Prompted) -> None:
    assert talk.type("correct 1 12 3 not so far") == [
        "Paragraph 1: …moon is [not so far] away.",
        "Before: The moon is [far] away.",
        "Correction 2 of paragraph 1. The book is",
        "  at version 8.",
    ]
    assert talk.type("strike 2") == [
        "Paragraph 2: struck now, in the volumes",
        "  before.",
        "The Tides",
        "The book is at version 9.",
    ]
    assert talk.type("type 2 en The sea.") == [
        "Paragraph 4, after paragraph 2: The sea.",
        "The book is at version 10.",
    ]


def test_queries_are_answered_in_words(talk: Prompted) -> None:
    assert talk.type("print 1") == ["The moon is far away."]
    assert talk.type("braille 2") == ["⠠⠞⠓⠑⠀⠠⠞⠊⠙⠑⠎"]
    assert talk.type("where 1 4") == [
        "The first cell for character 5 is cell 6",
        "  (in requests, place 4 and cell 5).",
    ]
    assert talk.type("whence 1 5") == [
        "The first character for cell 6 is",
        "  character 5 (in requests, cell 5 and",
        "  place 4).",
    ]
    assert talk.type("request marks 1") == ["Mark 1, open, on “moon”: spelled so?"]
    assert talk.type("request marks 2") == ["Paragraph 2 has no marks."]
    assert talk.type("request history 1") == ["1: “moon” for characters 5 to 7"]
    assert talk.type("history 1") == [
        "Paragraph 1, correction 1, for 3",
        "  characters:",
        "The [moon] is far away.",
    ]
    assert talk.type("history 2") == [
        "Nothing was corrected in paragraph 2",
        "yet.",
    ]
    assert talk.type("version") == ["The book is at version 7."]
    assert talk.type("list") == [
        "Paragraph 1, body, 21 characters:",
        "The moon is far away.",
        "Paragraph 2, body, 9 characters:",
        "The Tides",
        "Paragraph 3, body, 29 characters:",
        "Twice a day the sea comes up.",
    ]


def test_a_refusal_is_a_sentence_and_the_talk_goes_on(talk: Prompted) -> None:
    assert talk.type("undo 9") == [
        "The book has no paragraph 9: it has the",
        "paragraphs 1 to 3. Nothing was changed.",
    ]
    assert talk.type("correct 1") == [
        "The request correct is written as:",
        "correct PARA START COUNT TEXT. START is",
        "counted from 0. One blank stands between",
        "fields, and none at the end. Nothing was",
        "changed.",
    ]
    assert talk.type("style 1 title") == [
        "The request style is written as: style",
        "PARA STYLE. STYLE is body or heading.",
        "One blank stands between fields, and",
        "none at the end. Nothing was changed.",
    ]
    assert talk.type("stryke 1") == [
        "There is no stryke. Did you mean strike?",
        "help says what can be typed.",
    ]
    assert talk.type("version") == ["The book is at version 7."]


def test_words_count_from_1_and_say_that_requests_do_not(talk: Prompted) -> None:
    assert " ".join(talk.type("correct 1 30 2 x")) == (
        "Paragraph 1 doesn't have the characters 31 to 32: it has 21 characters. Nothing was"
        " changed. Requests count from 0, sentences from 1."
    )
    overview = " ".join(" ".join(talk.type("help")).split())
    assert "requests, which count places and cells from 0, while all" in overview
    talk.type("correct 1 0 0 Oh, ")
    talk.type("correct 1 7 1 ")
    assert talk.type("history 1") == [
        "Paragraph 1, correction 3, for",
        "  “The…moon”:",
        "Oh, [Themoon] is far away.",
        "Paragraph 1, correction 2, for “The”:",
        "[Oh, The]…moon is far away.",
        "Paragraph 1, correction 1, for 3",
        "  characters:",
        "The…[moon] is far away.",
    ]


def test_words_that_stand_otherwise_are_shown(talk: Prompted) -> None:
    assert talk.type("find MOON") == [
        "“MOON” isn't in the print of the book as",
        "typed. With other capitals it is there",
        "once; --alike shows where.",
    ]
    talk.type("change 1", ": ")
    assert talk.type("FAR", ": ")[:3] == [
        "“FAR” isn't in paragraph 1 as typed;",
        "with other capitals it is “far”.",
        "Which words go? An empty line gives up.",
    ]
    talk.type("")


def test_help_names_each_thing_that_can_be_typed(talk: Prompted) -> None:
    overview = " ".join(talk.type("help"))
    for name in (*AT_PROMPT, "correct-by", "whence", "quit"):
        assert name in overview
    assert talk.type("help undo") == [
        "undo PARA [--width N]",
        "Takes back the newest correction of a",
        "  paragraph.",
        "Nothing is erased: the history keeps the",
        "  correction and that it was taken back.",
        "For example: undo 1",
    ]
    assert talk.type("help request undo") == [
        "undo PARA: Takes back the newest",
        "  correction of a paragraph that is in",
        "  force.",
        "For example: undo 1",
        "@12 undo 1 does the same only if the",
        "  book is at version 12.",
    ]


def test_help_names_commands_as_they_are_typed_there(moon: Path) -> None:
    given = "".join(f"help {name}\n" for name in AT_PROMPT)
    shown = scribe("talk", moon, "--width", "999", folder=moon.parent, given=given)
    lines = shown.shown.splitlines()
    examples = [each for each in lines if each.startswith("For example: ")]
    assert [each.split()[2] for each in examples] == [*AT_PROMPT]
    of_shell = {f"scribe {name}" for name in AT_PROMPT}
    assert not [each for each in lines if any(name in each for name in of_shell)]
    assert "It stays in the book, and restore puts it back." in lines


def test_a_command_and_a_request_of_one_name_are_told_apart(talk: Prompted) -> None:
    assert talk.type("mark 1 moon so?")[0] == "Mark 2, open, on “moon”: so?"
    assert talk.type("request mark 1 5 4 so?")[0] == (
        "Mark 3, open, paragraph 1, on “moon”:"
    )
    assert talk.type("@9 mark 1 5 4 so?")[0] == "Mark 4, open, paragraph 1, on “moon”:"


@pytest.mark.parametrize("line", ["quit", "q ", " exit"])
def test_a_talk_ends_by_each_of_its_words(talk: Prompted, line: str) -> None:
    assert talk.end(f"{line}\r").status == 0


def test_the_word_that_ends_a_talk_takes_no_others(talk: Prompted) -> None:
    said = "quit takes no words. Type quit alone to end."
    assert " ".join(talk.type("quit now")) == said


def test_a_blank_at_the_end_or_the_front_of_a_line_is_taken(talk: Prompted) -> None:
    assert talk.type("  ") == []
    assert talk.type(" help quit ")[0] == "quit, q or exit ends the conversation."
    assert talk.type("print 1 ") == ["The moon is far away."]
    assert talk.type(" strike 2 ")[-1] == "The book is at version 8."
    talk.type("change", ": ")
    assert talk.type("3 ", ": ")[0] == "Paragraph 3: Twice a day the sea comes…"
    talk.type("")
    assert talk.type("\t") == []
    assert talk.type("\thelp quit\t")[0] == "quit, q or exit ends the conversation."
    assert talk.type(" \trestore 2\t ")[-1] == "The book is at version 9."
    assert talk.type("version\t") == ["The book is at version 9."]
    assert talk.type("\tfind sea\t")[-1] == "Found “sea” once."
    assert talk.type("find\tsea")[-1] == "Found “sea” once."
    assert talk.type("help\tquit")[0] == "quit, q or exit ends the conversation."
    assert talk.type("print\t2") == ["The Tides"]
    assert talk.type("request\tprint 2") == ["The Tides"]
    # the text of a request is taken with its blanks
    talk.type("correct 1 8 0  ")
    assert talk.type("request history 1")[-1] == "2: “ ” put in after character 8"


@pytest.mark.parametrize(
    "line, answer",
    [
        (
            "find far away",
            "The line has too many words: “away”. Put words with blanks between them in quotation"
            " marks, as in 'far away'. It is typed as: find TEXT [--braille | --alike] [--pages]"
            " [--page-width N] [--page-lines N] [--width N]",
        ),
        (
            "find 'far",
            "The quotation mark ' is opened and not closed. Nothing was changed.",
        ),
        (
            r'find "C:\dir\"',
            "The quotation mark \" is opened and not closed. One after a backslash doesn't close it;"
            " two backslashes stand for one. Nothing was changed.",
        ),
        (
            "list -ing",
            "Unrecognized arguments: -ing. A word that begins with a hyphen stands in quotation"
            " marks, as '-ing'. It is typed as: list [PARAS] [--paragraphs PARAS] [--headings]"
            " [--width N]",
        ),
        (
            "change x",
            "Argument PARA: “x” is not a number. It is typed as: change PARA OLD NEW [--nth N]"
            " [--by WHO] [--width N]",
        ),
        ("find don't", "“don't” isn't in the print of the book."),
        (
            "find --braille é",
            "Argument TEXT: U+00E9 LATIN SMALL LETTER E WITH ACUTE is no cell in Braille ASCII or"
            " Unicode. It is typed as: find TEXT [--braille | --alike] [--pages] [--page-width N]"
            " [--page-lines N] [--width N]",
        ),
    ],
)
def test_words_that_are_refused_say_how_the_line_is_typed(
    talk: Prompted, line: str, answer: str
) -> None:
    assert " ".join(" ".join(talk.type(line)).split()) == answer


@pytest.mark.parametrize(
    "line, words",
    [
        ("", []),
        ("  1  far   near ", ["1", "far", "near"]),
        ("1 'far away' near", ["1", "far away", "near"]),
        ('1 "far away" near', ["1", "far away", "near"]),
        ("1 don't l'été l'hiver", ["1", "don't", "l'été", "l'hiver"]),
        ("1 far ''", ["1", "far", ""]),
        (r'"she said \"no\"" it\'s a\ b', ['she said "no"', "it's", "a b"]),
        (r"'a\b' c\\d", [r"a\b", r"c\d"]),
        (r'C:\temp\x "C:\dir"', [r"C:\temp\x", r"C:\dir"]),
        (r'"a\\b\"" a\"b a\ b\ ' + "\\", [r'a\b"', 'a"b', "a b " + "\\"]),
        ('"a\\ b" a\\', ["a b", "a\\"]),
        ("\t1 far\t", ["1", "far"]),
        ("“far away”", ["“far", "away”"]),
        ("5 o'clock\tsharp", ["5", "o'clock\tsharp"]),
    ],
)
def test_a_line_is_parted_into_words(line: str, words: list[str]) -> None:
    assert words_of(line) == words


@pytest.mark.parametrize("line", ["'far", '1 "far away', "'tis far", "a 'b'c"])
def test_a_quotation_mark_that_is_not_closed_is_refused(line: str) -> None:
    with pytest.raises(InvalidInput):
        words_of(line)


def test_words_are_changed_without_counting(moon: Path) -> None:
    talk = talk_about(moon, "--width", "40", "--by", "anna")
    assert talk.type("change", ": ") == [
        "Which paragraph? Type its number. An",
        "  empty line gives up.",
    ]
    assert talk.type("9", ": ")[:2] == [
        "The book has no paragraph 9: it has the",
        "paragraphs 1 to 3.",
    ]
    assert talk.type("3", ": ") == [
        "Paragraph 3: Twice a day the sea comes…",
        "Which words go? An empty line gives up.",
    ]
    assert talk.type("the ocean", ": ")[0] == "“the ocean” isn't in paragraph 3."
    assert talk.type("e", ": ") == [
        "1: Twic[e] a day the sea comes up.",
        "2: Twice a day th[e] sea comes up.",
        "3: Twice a day the s[e]a comes up.",
        "4: Twice a day the sea com[e]s up.",
        "Which of these places? Type its number.",
        "  An empty line gives up.",
    ]
    assert talk.type("5", ": ")[0] == "The places are 1 to 4."
    assert talk.type("2", ": ") == [
        "What comes in their place? Type '' to",
        "  take them out. An empty line gives up.",
    ]
    now, before, *_ = talk.type("at")
    assert now.startswith("Paragraph 3: ") and "th[at] sea" in now
    assert before.startswith("Before: ") and "th[e] sea" in before
    assert talk.type("history 3") == [
        "Paragraph 3, correction 1, by anna, for",
        "  “th…”:",
        "Twice a day [that] sea comes up.",
    ]
    talk.close()


def test_words_are_taken_out(talk: Prompted) -> None:
    talk.type("change 1 ' far'", ": ")
    assert talk.type("''")[0] == "Paragraph 1: The moon is[] away."
    assert talk.type("change 1 ' is' ''")[0] == "Paragraph 1: The moon[] away."


def test_words_in_quotation_marks_are_no_options(talk: Prompted) -> None:
    assert talk.type("change 1 far '-h'")[0] == "Paragraph 1: The moon is [-h] away."
    assert talk.type('find "-h"')[-1] == "Found “-h” once."
    assert talk.type(r"change 1 \-h '--'")[0] == "Paragraph 1: The moon is [--] away."
    shown = talk.type("change-all '--' far --dry-run")
    assert "After: The moon is [far] away." in shown
    assert talk.type("mark 1 '--' '-why?'")[0] == "Mark 2, open, on “--”: -why?"
    assert "The book is at version 10." in talk.end("quit\r").shown


def test_words_of_a_line_that_stand_more_than_once_are_asked_about(
    talk: Prompted,
) -> None:
    assert talk.type("change 1 a o", ": ")[:3] == [
        "1: The moon is f[a]r away.",
        "2: The moon is far [a]way.",
        "3: The moon is far aw[a]y.",
    ]
    assert talk.type("1")[0] == "Paragraph 1: The moon is f[o]r away."
    assert (
        talk.type("change 1 a o --nth 1")[0] == "Paragraph 1: The moon is for [o]way."
    )
    assert talk.type("change 1 o a --nth 9")[:2] == [
        "Paragraph 1 has “o” 4 times. There is no",
        "place 9. Nothing was changed.",
    ]


@pytest.mark.parametrize(
    "line, nothing",
    [
        ("mark 1", "No mark was put."),
        ("mark 1 a x", "No mark was put."),
        ("mark\n1", "No mark was put."),
        ("change 1", "Nothing was changed."),
        ("change 1 a", "Nothing was changed."),
        ("retable 1", "Nothing was changed."),
    ],
)
def test_of_a_struck_paragraph_nothing_is_asked_that_is_refused(
    moon: Path, line: str, nothing: str
) -> None:
    with braildesk.Session(moon) as session:
        session.strike(1)
    given = f"{line}\nversion\n"
    ran = scribe("talk", moon.name, "--width", "80", folder=moon.parent, given=given)
    assert ran.said == f"Paragraph 1 is struck. {nothing} Restore it first.\n"
    _, *shown = ran.shown.splitlines()
    # the answer to version, and the end
    assert shown[-2:] == ["The book is at version 8."] * 2
    assert shown[:-2] in (
        [],
        ["Which paragraph? Type its number. An empty line gives up."],
    )


@pytest.mark.parametrize(
    "line, first",
    [
        ("mark 1 zz", "“zz” isn't in paragraph 1. Nothing was changed."),
        ("change 1 zz", "“zz” isn't in paragraph 1. Nothing was changed."),
        (
            "change 1 a --nth 9",
            "Paragraph 1 has “a” 3 times. There is no place 9. Nothing was changed.",
        ),
    ],
)
def test_of_words_that_do_not_stand_there_nothing_more_is_asked(
    moon: Path, line: str, first: str
) -> None:
    given = f"{line}\nversion\n"
    ran = scribe("talk", moon.name, "--width", "80", folder=moon.parent, given=given)
    assert ran.said.splitlines()[0] == first
    assert ran.shown.splitlines()[1:] == [
        "Paragraph 1: The moon is far away.",
        "The book is at version 7.",
        "The book is at version 7.",
    ]


def test_a_mark_is_put_on_words(talk: Prompted) -> None:
    talk.type("mark 2", ": ")
    talk.type("Tides", ": ")
    assert talk.type("a capital?") == [
        "Mark 2, open, on “Tides”: a capital?",
        "Paragraph 2: The [Tides]",
        "The book is at version 8.",
    ]
    assert talk.type("marks") == [
        "Mark 1, open, paragraph 1, on “moon”:",
        "  spelled so?",
        "Mark 2, open, paragraph 2, on “Tides”: a",
        "  capital?",
        "The book has 2 open marks.",
    ]


def test_change_means_the_paragraph_of_the_mark_in_hand_if_it_names_none(
    talk: Prompted,
) -> None:
    # before a mark is shown no paragraph is meant
    assert talk.type("change far near")[0] == "Argument PARA: “far” is not a number."
    talk.type("next")
    assert talk.type("change far near")[:2] == [
        "Paragraph 1: The moon is [near] away.",
        "Before: The moon is [far] away.",
    ]
    # a number is that of a paragraph, as ever
    assert talk.type("change 2 Tides Tide")[0] == "Paragraph 2: The [Tide]"
    missing = [
        "The book has no paragraph 2006: it has",
        "the paragraphs 1 to 3.",
    ]
    assert talk.type("change 2006 2007") == [
        *missing,
        "To change a number in paragraph 1, begin",
        "with that of the paragraph: change 1 OLD",
        "NEW.",
    ]
    assert talk.type("change 2006 far near") == missing
    talk.type("resolve")
    assert talk.type("change near far")[0] == "Argument PARA: “near” is not a number."


def test_paragraphs_are_shown_and_words_found(talk: Prompted) -> None:
    assert talk.type("show --paragraphs 2") == [
        "Paragraph 2, body",
        "The Tides",
        "⠠⠞⠓⠑⠀⠠⠞⠊⠙⠑⠎",
    ]
    assert talk.type("find sea") == [
        "Paragraph 3, character 17:",
        "Twice a day the [sea] comes up.",
        "Found “sea” once.",
    ]


def test_an_empty_line_gives_up_what_was_asked_for(talk: Prompted) -> None:
    talk.type("change 1", ": ")
    assert talk.type("") == ["Given up. Nothing was changed."]
    assert talk.type("version") == ["The book is at version 7."]


def test_a_command_that_is_no_answer_gives_up_the_question(talk: Prompted) -> None:
    talk.type("change 1", ": ")
    assert talk.type("strike 2") == [
        "“strike 2” isn't in paragraph 1.",
        "Given up. Nothing was changed.",
    ]
    assert talk.type("version") == ["The book is at version 7."]
    talk.type("change 1", ": ")
    talk.type("moon", ": ")
    # what can be an answer is one
    assert talk.type("list of")[0] == "Paragraph 1: The [list of] is far away."


def test_a_command_at_a_short_question_is_told_no_way_out_of_what_is_given_up(
    talk: Prompted,
) -> None:
    talk.type("short")
    talk.type("change", "paragraph: ")
    assert talk.type("three", "paragraph: ") == [
        "“three” is not a number. An empty line",
        "gives up.",
    ]
    assert talk.type("next") == [
        "“next” is not a number.",
        "Given up. Nothing was changed.",
    ]


def test_a_table_is_put_into_the_book_from_a_file(talk: Prompted, moon: Path) -> None:
    assert talk.type(f"table own {moon.with_name('plain.utb')}") == [
        "Table own is in the book. No paragraph",
        "  has it yet.",
        "The book is at version 8.",
    ]


def test_of_a_table_that_is_not_installed_it_is_said_how_it_is_typed_there(
    moon: Path,
) -> None:
    ran = scribe("talk", moon, folder=moon.parent, given="table klingon\n")
    said = " ".join(ran.said.split())
    assert said.startswith("There is no table klingon in ")
    assert said.endswith(" Another is put into a book by: table NAME FILE")


def test_the_lines_of_a_table_are_asked_for(talk: Prompted) -> None:
    assert talk.type("request table own 2", "1 of 2: ") == [
        "Now the 2 lines of the table own. Ctrl-C",
        "  gives it up.",
    ]
    talk.type("space \\s 0", "2 of 2: ")
    assert talk.type("letter a 19") == [
        "Line 2 of the table own is refused: its",
        "dots are none that the opcode takes. It",
        "reads “letter a 19”. Nothing was",
        "changed.",
    ]


def test_what_was_answered_for_a_line_that_is_refused_comes_back(
    talk: Prompted,
) -> None:
    talk.type("request table own 2", "1 of 2: ")
    talk.type("space \\s 0", "2 of 2: ")
    talk.type("letter a 19")
    up = "\x1b[A"
    assert talk.type(up * 2)[0].startswith("There is no space. ")
    talk.type("find --braille", ": ")
    assert talk.type("sea ä")[0].startswith("Argument TEXT: U+00E4")
    assert talk.type(up)[0].startswith("There is no sea. ")


def test_the_only_line_of_a_table_is_asked_for(talk: Prompted) -> None:
    assert talk.type("request table own 1", "1 of 1: ") == [
        "Now the 1 line of the table own. Ctrl-C",
        "  gives it up.",
    ]


def test_arrow_keys_never_get_into_a_note(talk: Prompted) -> None:
    talk.keys("request mark 1 0 4 ac\x1b[D")
    talk.keys("b")
    talk.type("\x1b[C\x1b[C")
    assert talk.type("request marks 1")[-1] == "Mark 2, open, on “The”: abc"


def test_the_line_before_comes_back(talk: Prompted) -> None:
    talk.type("version")
    assert talk.type("\x1b[A") == ["The book is at version 7."]


def test_an_answer_that_is_refused_comes_back(talk: Prompted, moon: Path) -> None:
    talk.type("mark 1", ": ")
    talk.type("The moon is fur", ": ")
    talk.type("\x1b[A\x7f\x7far", ": ")
    assert "501 characters" in " ".join(talk.type("x" * 501))
    talk.type("mark 1 moon", ": ")
    talk.type("\x1b[A\x1b[A\x7f")
    assert talk.type("version") == ["The book is at version 8."]
    talk.end("quit\r")
    with braildesk.Session(moon) as session:
        assert session.marks_of(1)[-1].note == "x" * 500


def test_a_control_character_is_refused(talk: Prompted) -> None:
    assert talk.type("request mark 1 0 3 a\x16\x1bb") == [
        "Character 13 of the line is U+001B",
        "ESCAPE, a control character. Texts,",
        "notes and names can't have one here.",
        "Nothing was changed.",
    ]


def test_a_tab_is_a_character_of_a_note(talk: Prompted, moon: Path) -> None:
    talk.type("mark 1 The a\tb")
    talk.end("quit\r")
    with braildesk.Session(moon) as session:
        assert session.marks_of(1)[-1].note == "a\tb"


def test_a_long_line_that_is_pasted_is_kept_whole(talk: Prompted, moon: Path) -> None:
    talk.paste("type end en " + "’" * 4_000 + "\r")
    talk.wait_for("The book is at version 8.")
    talk.end("quit\r")
    with braildesk.Session(moon) as session:
        assert session.print_of(4) == "’" * 4_000


def test_each_line_of_a_paste_whose_ends_the_terminal_tells_is_answered(
    talk: Prompted,
) -> None:
    pasted = talk.type('\x1b[200~mark 1 "far" "a note"\nrequest marks 1\x1b[201~')
    assert pasted[0] == "Mark 2, open, on “far”: a note"
    assert pasted[-1] == "The book is at version 8."
    assert talk.wait()[-1] == "Mark 2, open, on “far”: a note"
    assert talk.type("\x1b[200~strike 2\x1b[201~")[-1] == "The book is at version 9."


def test_no_line_of_a_paste_is_cut(talk: Prompted) -> None:
    line = "type end en " + "a" * (PASTED_BYTES - 12)
    talk.paste(f"strike 1\r{line}\rstrike 2\r{line}\rversion\r")
    talk.wait_for("The text has 19,988 characters, and may")
    talk.wait_for("The text has 19,988 characters, and may")
    talk.wait_for("The book is at version 9.")


def test_ctrl_c_gives_up_the_line_and_not_the_talk(talk: Prompted) -> None:
    talk.shown_keys("strike 1")
    assert talk.give_up() == ["Given up. Nothing was changed."]
    assert talk.type("version") == ["The book is at version 7."]


def test_a_line_that_ctrl_z_interrupts_is_not_cut_and_goes_on_after_it(
    moon: Path,
) -> None:
    settings = environment(**OF_SHELL)
    words = ["--norc", "--noprofile", "-i"]
    shell = at_terminal("bash", *words, settings=settings)
    shell.expect_exact("$ ")
    shell.sendline(f"'{sys.executable}' -m scribe talk '{moon}'")
    shell.expect_exact("> ")
    shell.send("type end en It is ")
    shell.expect_exact("type end en It is ")
    shell.send("\x1a")
    shell.expect_exact("Stopped")
    shell.expect_exact("$ ")
    shell.sendline("fg")
    shell.expect_exact("> type end en It is ")
    # more bytes than a terminal that collects lines lets through
    shell.send(2000 * "\N{RIGHT SINGLE QUOTATION MARK}" + "\r")
    shell.expect_exact("The book is at version 8.")
    shell.send("quit\r")
    shell.expect_exact("$ ")
    end(shell)
    with braildesk.Session(moon) as session:
        assert (
            session.print_of(4) == "It is " + 2000 * "\N{RIGHT SINGLE QUOTATION MARK}"
        )


@pytest.mark.parametrize("name", ["SIGTERM", "SIGHUP"])
def test_a_talk_that_is_told_to_end_while_it_is_stopped_ends(
    moon: Path, name: str
) -> None:
    settings = environment(**OF_SHELL)
    words = ["--norc", "--noprofile", "-i"]
    shell = at_terminal("bash", *words, settings=settings)
    shell.expect_exact("$ ")
    shell.sendline(f"'{sys.executable}' -c '{LOOKING_OFTEN}' talk '{moon}'")
    shell.expect_exact("> ")
    shell.send("type end en It is ")
    shell.expect_exact("type end en It is ")
    shell.send("\x1a")
    shell.expect_exact("Stopped")
    shell.expect_exact("$ ")
    # the shell has it go on by that, and keeps the terminal
    shell.sendline(f"kill -{name} %1; wait -f %1")
    shell.expect_exact(f"Stopped by {name}. What was reported as kept is in the book,")
    shell.expect_exact("$ ")
    end(shell)
    assert talk_about(moon).greeting[-1] == "type end en It is "


def test_what_was_pasted_and_not_read_as_a_talk_is_told_to_end_is_carried_out_by_no_shell(
    moon: Path,
) -> None:
    settings = environment(**OF_SHELL)
    words = ["--norc", "--noprofile", "-i"]
    shell = at_terminal("bash", *words, settings=settings, folder=moon.parent)
    shell.expect_exact("$ ")
    shell.sendline(f"'{sys.executable}' -m scribe talk moon.braildesk")
    shell.expect_exact("> ")
    talk, program = map(child_of, (shell.pid, child_of(shell.pid)))
    # so that no line is answered before the end
    os.kill(program, signal.SIGSTOP)
    lines = ["type end en It is far.", "echo far > shell", "print 1"]
    shell.send("\r".join([*lines, "strike"]))
    shell.expect_exact(lines[0])
    time.sleep(0.2)
    os.kill(talk, signal.SIGTERM)
    shell.expect_exact("Stopped by SIGTERM.")
    shell.expect_exact("$ ")
    end(shell)
    assert not moon.with_name("shell").exists()
    once_free(moon).close()
    assert talk_about(moon).greeting[-4:] == [*lines, "strike"]


def test_what_was_pasted_as_a_session_is_lost_for_good_is_carried_out_by_no_shell(
    moon: Path,
) -> None:
    settings = environment(**OF_SHELL)
    words = ["--norc", "--noprofile", "-i"]
    shell = at_terminal("bash", *words, settings=settings, folder=moon.parent)
    shell.expect_exact("$ ")
    shell.sendline(f"'{sys.executable}' -m scribe talk moon.braildesk")
    shell.expect_exact("> ")
    program = child_of(child_of(shell.pid))
    os.kill(program, signal.SIGSTOP)
    lines = ["type end en It is far.", "echo far > shell", "print 1"]
    shell.send("\r".join([*lines, "strike"]))
    shell.expect_exact(lines[0])
    time.sleep(0.2)
    away = moon.rename(moon.with_name("away"))
    os.kill(program, signal.SIGKILL)
    shell.expect_exact("may not be in the book")
    shell.expect_exact("$ ")
    end(shell)
    assert not moon.with_name("shell").exists()
    away.rename(moon)
    once_free(moon).close()
    assert talk_about(moon).greeting[-4:] == [*lines, "strike"]


def test_the_end_of_the_input_ends_the_talk(talk: Prompted, moon: Path) -> None:
    ran = talk.end("\x04")
    assert ran.status == 0
    assert ran.shown.endswith("The book is at version 7.\r\n")


def test_a_lost_session_says_what_was_kept_and_what_was_not_and_talks_on(
    talk: Prompted, moon: Path
) -> None:
    talk.type("strike 1")
    os.kill(talk.program(), signal.SIGKILL)
    said = " ".join(" ".join(talk.type("type end en All that I typed.")).split())
    assert "may not be in the book: type end en All that I typed. The session" in said
    assert (
        "The book was opened again: it is at version 8, as before, and what was asked last is not in"
        " it."
    ) in said
    assert talk.type("strike 2")[-1] == "The book is at version 9."
    assert talk.end("quit\r").status == 0
    assert braildesk.check(moon) == 9


def test_what_was_answered_for_a_line_that_may_not_be_in_the_book_comes_back(
    talk: Prompted,
) -> None:
    talk.type("change 1 moon", ": ")
    os.kill(talk.program(), signal.SIGKILL)
    assert "change 1 moon" in talk.type("sea and the tides")
    talk.type("change 1 moon", ": ")
    assert "[sea and the tides]" in " ".join(talk.type("\x1b[A\x1b[A"))


def test_a_line_that_was_not_begun_is_not_taken_for_what_was_changed_last(
    talk: Prompted, moon: Path
) -> None:
    talk.type("strike 1")
    os.kill(talk.program(), signal.SIGKILL)
    said = " ".join(" ".join(talk.type("change 2 Tides Moon")).split())
    assert "may not be in the book: change 2 Tides Moon The session was ended" in said
    assert said.endswith("opened again: it is at version 8, as before.")
    talk.type("strike 2")
    Path(f"{moon}-wal").unlink()
    said = " ".join(" ".join(talk.type("change 3 sea moon")).split())
    assert said.endswith("opened again: it is at version 9, as before.")
    assert talk.type("change 3 sea moon")[-1] == "The book is at version 10."


@pytest.mark.parametrize(
    "line",
    [
        *("next", "list", "find moon", "volumes --pages 9", "print 1"),
        "change-all far near --dry-run",
    ],
)
def test_of_a_line_that_only_looks_it_is_not_said_that_the_book_may_lack_it(
    talk: Prompted, line: str
) -> None:
    os.kill(talk.program(), signal.SIGKILL)
    said = " ".join(" ".join(talk.type(line)).split())
    assert said == (
        "The session was ended by signal 9. The book was opened again: it is at version 7, as before."
    )


@pytest.mark.parametrize("kept", [True, False])
def test_a_talk_whose_book_is_gone_says_no_version_of_it(
    talk: Prompted, moon: Path, kept: bool
) -> None:
    if kept:
        talk.type("strike 1")
    moon.unlink()
    ran = talk.end("quit\r")
    assert ran.status == (3 if kept else 0)
    said = " ".join(ran.shown.split())
    assert "while it was open." in said and "at version" not in said
    saved = moon.with_name("moon.braildesk-saved-1")
    assert saved.exists() is kept


def test_a_talk_that_is_told_to_end_says_of_a_book_that_is_gone_that_nothing_was_changed(
    talk: Prompted, moon: Path
) -> None:
    talk.type("list")
    moon.unlink()
    ran = talk.stop_by(signal.SIGTERM)
    assert ran.status == -signal.SIGTERM
    said = ran.shown.replace("\r", "").partition("Stopped by ")[2]
    # in lines of the terminal's width, which part the path too
    assert "".join(said.split()) == "".join(
        f"SIGTERM. The file of the book is no longer at “{moon}”: it was removed or moved while it was"
        " open. Nothing was changed in it here.".split()
    )


def test_a_talk_goes_on_where_the_mark_in_hand_is_no_more(
    talk: Prompted, moon: Path, made_once: Path
) -> None:
    talk.type("next")
    os.kill(talk.program(), signal.SIGKILL)
    Path(f"{moon}-wal").unlink()
    # written over in place, so that it is the same file
    shutil.copyfile(made_once / "supplied.braildesk", moon)
    said = " ".join(" ".join(talk.type("list")).split())
    assert "another program changed it meanwhile" in said
    assert talk.type("type end en The sun")[-1] == "The book is at version 2."
    assert talk.type("heading 1")[-1] == "The book is at version 3."


@pytest.mark.parametrize("is_gone", [True, False])
def test_what_was_kept_before_the_session_of_a_talk_ended_is_saved_at_its_end(
    talk: Prompted, moon: Path, is_gone: bool
) -> None:
    talk.type("strike 1")
    os.kill(talk.program(), signal.SIGKILL)
    talk.type("list")
    if is_gone:
        moon.unlink()
    assert talk.end("quit\r").status == (3 if is_gone else 0)
    assert moon.with_name("moon.braildesk-saved-1").exists() is is_gone


def test_a_talk_whose_book_can_not_be_opened_again_ends(
    talk: Prompted, moon: Path
) -> None:
    os.kill(talk.program(), signal.SIGKILL)
    moon.rename(moon.with_name("moved"))
    ran = talk.end("strike 1\r")
    assert ran.status == 3
    assert "There is no file" in " ".join(ran.shown.split())


def test_a_talk_goes_on_where_the_program_is_not_there_for_another_book(
    moon: Path, tmp_path: Path
) -> None:
    program = Path(shutil.copy(braildesk.find(), tmp_path / "program"))
    other = shutil.copy(moon, tmp_path / "other.braildesk")
    talk = talk_about(moon, BRAILDESK=str(program))
    talk.type("strike 1")
    program.unlink()
    said = " ".join(talk.type(f"compare {other}"))
    # which bin/scribe sets where nobody has set it
    assert said.endswith(
        "that BRAILDESK names, or else the one that belongs beside scribe."
    )
    assert talk.type("strike 2")[-1] == "The book is at version 9."
    assert talk.end("quit\r").status == 0


def break_off(moon: Path, keys: str, number: signal.Signals | None) -> None:
    """Types keys at a talk, and ends it by a signal, or by closing the terminal."""
    talk = talk_about(moon)
    talk.shown_keys(keys)
    if number is not None:
        talk.stop_by(number)
    else:
        talk.wait_for_ticks()
        talk.hang_up()


@pytest.mark.parametrize(
    "number", [signal.SIGTERM, signal.SIGHUP, signal.SIGQUIT, None]
)
def test_a_line_that_was_broken_off_comes_back_at_the_next_talk(
    moon: Path, number: signal.Signals | None
) -> None:
    break_off(moon, "type end en It is “far” and", number)
    # what is read from a pipe neither says nor takes it
    ran = scribe("talk", moon, folder=moon.parent, given="print 1\n")
    assert (ran.status, ran.said) == (0, "")
    break_off(moon, "strike 1", signal.SIGTERM)
    # such a short one is typed anew
    break_off(moon, "che", signal.SIGTERM)
    talk = talk_about(moon)
    assert talk.greeting[1:] == [
        COMES_BACK,
        "type end en It is “far” and",
        "strike 1",
    ]
    assert talk.type("\x1b[A\x1b[A away.")[0] == (
        "Paragraph 4, at the end of the book: It is “far” and away."
    )
    assert talk.end("quit\r").status == 0
    # what wasn't answered comes back until it is given up
    talk = talk_about(moon)
    assert talk.greeting[1:] == [COMES_BACK, "strike 1"]
    assert talk.end("quit\r").status == 0
    talk = talk_about(moon)
    talk.keys("\x1b[A")
    talk.wait_for("strike 1")
    assert talk.give_up() == ["Given up. Nothing was changed."]
    assert talk.end("quit\r").status == 0
    talk = talk_about(moon)
    assert len(talk.greeting) == 1
    assert talk.end("quit\r").status == 0


@pytest.mark.parametrize("end", ["\r", signal.SIGTERM, None])
def test_a_line_whose_book_is_gone_comes_back_where_all_of_that_was_saved(
    talk: Prompted, moon: Path, end: str | signal.Signals | None
) -> None:
    line = "type end en It is far."
    talk.type("strike 1")
    moon.unlink()
    if isinstance(end, str):
        talk.end(line + end)
    else:
        talk.shown_keys(line)
        talk.wait_for_ticks()
        talk.stop_by(end) if end is not None else talk.hang_up()
    saved = talk_about(moon.with_name(f"{moon.name}-saved-1"))
    assert saved.greeting[1:] == [COMES_BACK, line]
    assert saved.end("quit\r").status == 0


def test_a_line_that_came_back_and_was_answered_comes_back_no_more(
    moon: Path,
) -> None:
    for keys in ("mark 1 far 'how far?'", "type end en It is", "strike 2"):
        break_off(moon, keys, signal.SIGTERM)
    talk = talk_about(moon)
    up = "\x1b[A"
    talk.type(up * 3)
    # it was typed further
    assert talk.type(f"{up * 3} far.")[-1] == "The book is at version 9."
    talk.shown_keys("restore 1")
    talk.stop_by(signal.SIGTERM)
    talk = talk_about(moon)
    assert talk.greeting[2:] == ["strike 2", "restore 1"]
    talk.type("strike 2")
    # nor if scribe is killed
    talk.stop_by(signal.SIGKILL)
    talk = talk_about(moon)
    assert talk.greeting[2:] == ["restore 1"]
    assert talk.end("quit\r").status == 0


def test_a_line_comes_back_until_it_is_answered_itself_and_not_one_that_begins_with_it(
    moon: Path,
) -> None:
    for keys in ("strike 1", "type end en It is"):
        break_off(moon, keys, signal.SIGTERM)
    talk = talk_about(moon)
    talk.type("type end en It is far.")
    talk.keys("strike 12")
    talk.wait_for("strike 12")
    talk.give_up()
    assert talk.end("quit\r").status == 0
    talk = talk_about(moon)
    assert talk.greeting[1:] == [COMES_BACK, "strike 1", "type end en It is"]
    # nor is it once it came back, was refused as it was typed on, and was typed on anew
    talk.type("\x1b[A ☃")
    talk.type("\x1b[A\x7ffar.")
    assert talk.end("quit\r").status == 0
    talk = talk_about(moon)
    assert talk.greeting[1:] == [COMES_BACK, "strike 1"]
    assert talk.end("quit\r").status == 0


def test_a_short_answer_that_was_broken_off_comes_back_with_its_command(
    moon: Path,
) -> None:
    talk = talk_about(moon)
    talk.type("change 1", ": ")
    talk.type("far", ": ")
    talk.shown_keys("Noe")
    talk.stop_by(signal.SIGTERM)
    talk = talk_about(moon)
    assert talk.greeting[1:] == [
        COMES_BACK,
        *("change 1", "far", "Noe"),
    ]
    assert talk.end("quit\r").status == 0


def test_all_lines_of_a_table_that_was_broken_off_come_back(moon: Path) -> None:
    talk = talk_about(moon)
    talk.type("request table own 20", "1 of 20: ")
    lines = [f"# line {number}" for number in range(1, 13)]
    for number, line in enumerate(lines, 2):
        talk.type(line, f"{number} of 20: ")
    talk.stop_by(signal.SIGTERM)
    talk = talk_about(moon)
    assert talk.greeting[2:] == ["request table own 20", *lines]
    assert talk.end("quit\r").status == 0


def test_answers_for_places_that_were_changed_do_not_come_back(moon: Path) -> None:
    talk = talk_about(moon)
    line = "change-all e a --ask"
    talk.type(line, ": ")
    for _ in range(3):
        talk.type("y", ": ")
    talk.stop_by(signal.SIGTERM)
    talk = talk_about(moon)
    assert talk.greeting[2:] == [line]
    assert talk.end("quit\r").status == 0


def wait_as_usual() -> None:
    """Has scribe end without a program that does nothing, as it does where no test has work."""
    pipe._LONG = 100


@pytest.mark.parametrize("number", [signal.SIGTERM, signal.SIGQUIT, None])
def test_lines_that_were_entered_and_not_answered_come_back_too(
    moon: Path, number: signal.Signals | None
) -> None:
    talk = Prompted("talk", str(moon), folder=moon.parent, before=wait_as_usual)
    talk.type("change 1", ": ")
    talk.type("moon is", ": ")
    talk.stop_program()
    talk.keys("sea and the tides are\r")
    talk.wait_for_request()
    if number is not None:
        talk.stop_by(number)
    else:
        talk.hang_up()
    talk = talk_about(moon)
    assert talk.greeting[1:] == [
        COMES_BACK,
        *("change 1", "moon is", "sea and the tides are"),
    ]
    assert talk.end("quit\r").status == 0


@pytest.mark.parametrize("number", [signal.SIGTERM, signal.SIGHUP])
def test_a_talk_whose_program_does_nothing_ends_at_its_prompt_by_a_signal(
    moon: Path, number: signal.Signals
) -> None:
    talk = Prompted("talk", str(moon), folder=moon.parent, before=wait_as_usual)
    talk.stop_program()
    talk.shown_keys("strike 1")
    ran = talk.stop_by(number)
    assert ran.status == -number
    assert " ".join(ran.shown.split()).endswith(
        f"Stopped by {number.name}. braildesk didn't answer any more, and was ended. Nothing was"
        " changed by this session."
    )
    assert talk_about(moon).greeting[-1] == "strike 1"


def test_a_line_that_was_broken_off_and_can_not_be_kept_is_said(moon: Path) -> None:
    home = moon.with_name("file")
    home.write_text("mine")
    talk = talk_about(moon, XDG_STATE_HOME=str(home))
    talk.shown_keys("strike 1")
    said = " ".join(talk.stop_by(signal.SIGTERM).shown.split())
    assert "What is typed at the prompt can't be kept" in said


@pytest.mark.parametrize("typed", ["", "strike"])
def test_a_talk_whose_terminal_is_closed_ends_without_a_fault(
    moon: Path, typed: str
) -> None:
    home = moon.parent / "state"
    talk = talk_about(moon, XDG_STATE_HOME=str(home))
    talk.type("strike 1")
    talk.keys(typed)
    assert talk.hang_up() in (3, -signal.SIGHUP)
    assert not list(home.rglob("fault.txt"))
    with once_free(moon) as session:
        assert session.last_version == 8


def test_no_line_is_over_the_width_and_nothing_moves_the_cursor(moon: Path) -> None:
    text = "It rises in the east-north-east of all the places and skies " * 3
    given = f"type end en {text}\nshow\nhelp\nhelp mark\nlist\nundo 99\nbraille 4\n"
    ran = scribe("talk", moon, "--width", "20", folder=moon.parent, given=given)
    lines = (ran.shown + ran.said).splitlines()
    assert max(map(len, lines)) <= 20 and len(lines) > 60
    assert "\x1b" not in ran.shown + ran.said
    assert "\r" not in ran.shown + ran.said


def test_letters_of_all_languages_are_typed_in_any_locale(moon: Path) -> None:
    talk = talk_about(moon, LC_ALL="C")
    talk.type("request mark 1 0 4 Zdeňkův ⠍")
    assert talk.type("\x1b[A")[0].endswith("on “The”: Zdeňkův ⠍")
    talk.end("quit\r")
    with braildesk.Session(moon) as session:
        assert session.marks_of(1)[-1].note == "Zdeňkův ⠍"


def test_the_terminal_is_left_as_it_was(moon: Path) -> None:
    line = f"stty -g; '{sys.executable}' -m scribe talk '{moon}'; stty -g"
    child = at_terminal("sh", "-c", line, settings=environment())
    child.expect_exact("> ")
    before = child.before.split()[0]
    child.send("quit\r")
    at_end(child)
    assert child.before.split()[-1] == before


def test_a_talk_takes_lines_from_a_pipe_too(moon: Path) -> None:
    given = "change 1\nfar\nnear\n"
    ran = scribe("talk", moon, "--width", "60", folder=moon.parent, given=given)
    assert ran.status == 0
    assert ran.shown.splitlines()[-4:] == [
        "Paragraph 1: The moon is [near] away.",
        "Before: The moon is [far] away.",
        "The book is at version 8.",
        "The book is at version 8.",
    ]


def test_lines_from_a_pipe_may_end_in_cr_lf(moon: Path) -> None:
    given = "change 1\r\nfar\r\nnear\r\nversion\r\nquit\r\n"
    ran = scribe("talk", moon, "--width", "60", folder=moon.parent, given=given)
    assert (ran.status, ran.said) == (0, "")
    assert ran.shown.splitlines()[-5:] == [
        "Paragraph 1: The moon is [near] away.",
        "Before: The moon is [far] away.",
        *("The book is at version 8.",) * 3,
    ]


@pytest.mark.parametrize("given", ["change 1\nfar\n", "request table own 2\n# a\n"])
def test_a_line_of_which_the_rest_never_comes_is_given_up(
    given: str, moon: Path
) -> None:
    ran = scribe("talk", moon, folder=moon.parent, given=given)
    assert ran.shown.splitlines()[-2:] == [
        "Given up. Nothing was changed.",
        "The book is at version 7.",
    ]


@pytest.mark.parametrize("name", ["SIGTERM", "SIGHUP", "SIGQUIT"])
def test_a_talk_that_is_told_to_end_says_so_and_leaves_the_terminal_as_it_was(
    moon: Path, name: str
) -> None:
    line = (
        f"stty -g; '{sys.executable}' -m scribe talk '{moon}'; echo status $?; stty -g"
    )
    child = at_terminal("sh", "-c", line, settings=environment())
    child.expect_exact("> ")
    before = child.before.split()[0]
    child.send("strike 1\r")
    child.expect_exact("The book is at version 8.\r\n> ")
    children = Path(f"/proc/{child.pid}/task/{child.pid}/children").read_text()
    os.kill(int(children.split()[0]), signal.Signals[name])
    at_end(child)
    assert f"Stopped by {name}. What was reported as kept is in the book," in (
        child.before
    )
    assert f"status {128 + signal.Signals[name]}\r\n" in child.before
    assert child.before.split()[-1] == before
    assert braildesk.check(moon) == 8
