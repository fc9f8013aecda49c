"""The size of a page, by words and as it is typed."""

import pytest

from braildesk.desk.layout import PageSize

from scribe.cli import make_parser
from scribe.cli.page_size import page_size_of
from scribe.cli.parser import WordsRefused
from scribe.words.pages import NoSize, described, typed_page_size

COMMANDS = {
    "pages": ["pages", "m"],
    "export": ["export", "m", "out"],
    "edit": ["edit", "m"],
}


@pytest.mark.parametrize("name", COMMANDS)
def test_each_command_takes_a_size_and_has_the_same_usual_one(name: str) -> None:
    parser = make_parser()
    assert page_size_of(parser.parse_args(COMMANDS[name])) == PageSize(40, 25)
    words = [*COMMANDS[name], "--width", "10", "--lines", "40"]
    assert page_size_of(parser.parse_args(words)) == PageSize(10, 40)


@pytest.mark.parametrize("name", COMMANDS)
@pytest.mark.parametrize(
    "word, value, sentence",
    [
        ("--width", "9", "Argument --width: 9 is not between 10 and 60."),
        ("--width", "61", "Argument --width: 61 is not between 10 and 60."),
        ("--lines", "4", "Argument --lines: 4 is not between 5 and 40."),
        ("--lines", "41", "Argument --lines: 41 is not between 5 and 40."),
        ("--lines", "x", "Argument --lines: “x” is not a number."),
    ],
)
def test_each_command_refuses_a_size_by_the_same_sentence(
    name: str, word: str, value: str, sentence: str
) -> None:
    parser = make_parser()
    with pytest.raises(WordsRefused) as refused:
        parser.parse_args([*COMMANDS[name], word, value])
    assert refused.value.sentence == sentence


@pytest.mark.parametrize(
    "text, page_size",
    [
        ("40 25", PageSize(40, 25)),
        (" 10  5 ", PageSize(10, 5)),
        ("60\t40", PageSize(60, 40)),
    ],
)
def test_a_size_is_typed_as_two_numbers(text: str, page_size: PageSize) -> None:
    assert typed_page_size(text) == page_size


@pytest.mark.parametrize("text", ["", "40", "9 25", "61 25", "40 4", "40 41", "a b"])
def test_what_is_no_size_is_said_with_all_that_are(text: str) -> None:
    with pytest.raises(NoSize) as fault:
        typed_page_size(text)
    assert fault.value.sentence == (
        "A line of a page has 10 to 60 cells, and a page 5 to 40 lines. Type both numbers with a"
        " blank between them, as in 40 25."
    )


def test_a_size_is_described_in_words() -> None:
    assert described(PageSize(30, 10)) == "10 lines of 30 cells"
