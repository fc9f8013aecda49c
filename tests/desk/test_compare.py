"""`scribe compare`: the print of a book beside a manuscript, word by word."""

import shutil
from itertools import pairwise
from pathlib import Path
from random import Random

import pytest
from hypothesis import given
from hypothesis import strategies as st
from tool import Ran, scribe

import braildesk
from braildesk import Session
from braildesk.desk.documents.kinds import ManuscriptKind
from braildesk.desk.documents.reading import Manuscript, Missing
from braildesk.desk.compare import (
    Difference,
    LackingParagraph,
    LackingWords,
    OtherWords,
    ParagraphAlone,
    differences,
)
from scribe.words.compare import left_out


def compared(book: Path, text: str, *words: str) -> Ran:
    (book.parent / "text.txt").write_text(text, encoding="utf-8")
    return scribe("compare", book, "text.txt", *words, folder=book.parent)


def test_each_word_that_differs_has_a_line(moon: Path) -> None:
    text = "The moon was near.\n\nThe Tides\n\nTwice a day all the sea comes up.\n"
    assert compared(moon, text, "--width", "70") == Ran(
        0,
        "Paragraph 1, character 10: “is far away.”\n"
        "  in the manuscript: “was near.”\n"
        "Paragraph 3, after “day”, in the manuscript alone: all\n",
        "2 places of 2 paragraphs differ.\n",
    )


def test_the_same_words_are_said_to_be_the_same(moon: Path) -> None:
    with Session(moon) as session:
        session.add_paragraph("front", "en", "Not for the embosser.")
        session.strike(4)
    text = "The moon is\nfar away. The\n\n\nTides Twice  a day\n\nthe sea comes up.\n"
    assert compared(moon, text) == Ran(
        0, "", "The book and the manuscript have the same words.\n"
    )


def test_paragraphs_of_one_side_alone_are_shown_by_their_first_words(
    moon: Path,
) -> None:
    text = (
        "By nobody\n\nThe moon is far away.\n\nTwice a day the sea comes up.\n\nThe End"
    )
    assert compared(moon, text).shown == (
        "At the front of the book, a paragraph in the manuscript alone: By nobody\n"
        "Paragraph 2, in the book alone: The Tides\n"
        "After paragraph 3, a paragraph in the manuscript alone: The End\n"
    )
    assert compared(moon, text).said == (
        "1 paragraph is in the book alone.\n"
        "2 paragraphs are in the manuscript alone.\n"
    )


def test_words_that_a_paragraph_lacks_at_its_front_are_shown_there(moon: Path) -> None:
    text = "The moon is far away.\n\nOf The Tides\n\nTwice a day the sea comes up.\n"
    assert compared(moon, text) == Ran(
        0,
        "Paragraph 2, at its front, in the manuscript alone: Of\n",
        "1 place of 1 paragraph differs.\n",
    )
    text = "So The moon is far away.\n\nBy nobody\n\nTwice a day the sea comes up.\n"
    assert compared(moon, text).shown == (
        "Paragraph 1, at its front, in the manuscript alone: So\n"
        "Paragraph 2, character 1: “The”, in the manuscript “By”\n"
        "Paragraph 2, character 5: “Tides”, in the manuscript “nobody”\n"
    )


@pytest.mark.parametrize("width", [20, 40])
def test_no_line_is_over_the_width(moon: Path, width: int) -> None:
    text = "By nobody\n\nThe sun is further away.\n\nThe Tides of the sea\n"
    lines = compared(moon, text, "--width", str(width)).shown.splitlines()
    assert lines and max(map(len, lines)) <= width


@pytest.mark.parametrize(
    "text, sentence",
    [
        (b"a\xff", "text.txt isn't UTF-8: line 1, column 2 has the byte 0xff."),
        (b"\xff\xfea\0", "text.txt is UTF-16."),
    ],
)
def test_a_text_that_is_none_is_refused(moon: Path, text: bytes, sentence: str) -> None:
    (moon.parent / "text.txt").write_bytes(text)
    ran = scribe("compare", moon, "text.txt", folder=moon.parent)
    assert (ran.status, ran.shown) == (2, "")
    assert ran.said.startswith(sentence)
    assert ran.said.endswith("Save it as UTF-8. Nothing was compared.\n")


@pytest.mark.parametrize(
    "text, why",
    [
        ("none.txt", "No such file or directory"),
        (".", "Is a directory"),
        ("/dev/null", "it is a device and no file"),
    ],
)
def test_a_manuscript_that_cannot_be_read_is_refused(
    moon: Path, text: str, why: str
) -> None:
    said = f"{text} can't be read: {why}. Nothing was compared.\n"
    ran = scribe("compare", moon, text, folder=moon.parent)
    assert ran == Ran(2, "", said)
    ran = scribe("talk", moon, folder=moon.parent, given=f"compare {text}\n")
    assert ran.said == said


def test_a_book_is_compared_with_another_book(moon: Path) -> None:
    scribe("copy", moon, "other", folder=moon.parent)
    with Session(moon) as session:
        session.correct(2, 4, 5, "Tide")
    ran = scribe("compare", moon, "other", folder=moon.parent)
    assert ran.shown == (
        "Paragraph 2, character 5: “Tide”, in the manuscript “Tides”\n"
    )
    assert ran.said == "1 place of 1 paragraph differs.\n"


def test_a_book_that_another_program_has_open_is_compared_as_it_was_kept(
    moon: Path,
) -> None:
    shutil.copy(moon, moon.parent / "other.braildesk")
    with Session(moon) as session:
        session.correct(1, 4, 4, "sun")
        ran = scribe("compare", "other.braildesk", moon.name, folder=moon.parent)
        version = session.last_version
    assert ran == Ran(
        0,
        "Paragraph 1, character 5: “moon”, in the manuscript “sun”\n",
        f"Another program has {moon.name} open. This is what it had kept a moment ago, at version"
        f" {version}.\n1 place of 1 paragraph differs.\n",
    )


def test_a_book_that_is_compared_with_itself_is_open_in_no_other_program(
    moon: Path,
) -> None:
    ran = scribe("compare", moon, moon.name, folder=moon.parent)
    assert ran == Ran(0, "", "The book and the manuscript have the same words.\n")


def test_a_talk_compares_by_the_same_word(moon: Path) -> None:
    (moon.parent / "text.txt").write_text("The moon is far away.\n\nThe Tide\n")
    given = f"compare {moon.parent / 'text.txt'}\n"
    ran = scribe("talk", moon, "--width", "80", folder=moon.parent, given=given)
    assert ran.shown.splitlines()[1:-1] == [
        "Paragraph 2, character 5: “Tides”, in the manuscript “Tide”",
        "Paragraph 3, in the book alone: Twice a day the sea comes up.",
    ]
    assert ran.said == (
        "1 place of 1 paragraph differs.\n1 paragraph is in the book alone.\n"
    )


def test_a_document_is_compared_by_its_paragraphs(moon: Path) -> None:
    (moon.parent / "moon.html").write_text(
        "<html><body><p>The <i>moon</i> is far away.</p><h2>The Tide</h2>"
        "<p>Twice a day the sea comes up.</p></body></html>"
    )
    assert scribe("compare", moon, "moon.html", folder=moon.parent) == Ran(
        0,
        "Paragraph 2, character 5: “Tides”, in the manuscript “Tide”\n",
        "1 place of 1 paragraph differs.\n",
    )


def test_words_that_no_paragraph_of_a_document_has_are_counted() -> None:
    missing = (Missing("two words", "", ""), Missing("one", "", ""))
    assert [*left_out(Manuscript(ManuscriptKind.DOCX, (), (), missing))] == [
        "3 words of the file are in no paragraph, and were not compared: scribe import --dry-run"
        " shows them."
    ]
    assert not [*left_out(Manuscript(ManuscriptKind.DOCX, ()))]


@pytest.mark.parametrize(
    "mine, others, wanted",
    [
        (
            ["He said yes", "yes it is"],
            ["He said", "yes it was"],
            [OtherWords(1, 8, "yes", ""), OtherWords(2, 7, "is", "was")],
        ),
        (
            ["He said", "yes it was"],
            ["He said yes", "yes it is"],
            [LackingWords(1, "said", "yes"), OtherWords(2, 7, "was", "is")],
        ),
        (
            ["he went to the", "the old house"],
            ["he went to", "the new house"],
            [OtherWords(1, 11, "the", ""), OtherWords(2, 4, "old", "new")],
        ),
        (
            ["up and in", "in by the sea"],
            ["up and out", "by the sea"],
            [OtherWords(1, 7, "in", "out"), OtherWords(2, 0, "in", "")],
        ),
        (
            ["he was in", "by the sea"],
            ["she was in", "in by the sea"],
            [OtherWords(1, 0, "he", "she"), LackingWords(2, "", "in")],
        ),
    ],
)
def test_a_word_that_the_paragraph_beside_has_too_is_that_of_its_own_paragraph(
    mine: list[str], others: list[str], wanted: list[Difference]
) -> None:
    assert [*differences([*enumerate(mine, 1)], others)] == wanted


@pytest.mark.parametrize(
    "mine, others, wanted",
    [
        (["up in", "up", "in"], ["up", "in", "up in"], []),
        (
            ["The sea rose", "by night.", "* * *", "It fell by", "the day."],
            ["The sea", "rose by night.", "* * *", "It fell", "by the", "day."],
            [],
        ),
        (
            ["The sea rose", "and fell by night.", "* * *", "It was", "calm by day."],
            [
                "The sea",
                "rose",
                "* * *",
                "and fell",
                "by night.",
                "* * *",
                "It was calm",
            ],
            [LackingParagraph(1, "* * *"), OtherWords(5, 5, "by day.", "")],
        ),
    ],
)
def test_words_are_the_same_wherever_a_short_paragraph_stands_again(
    mine: list[str], others: list[str], wanted: list[Difference]
) -> None:
    assert [*differences([*enumerate(mine, 1)], others)] == wanted


def parted(words: list[str], most: int, chance: Random) -> list[str]:
    """Paragraphs of some words, each of so many at most."""
    ends = [0]
    while ends[-1] < len(words):
        ends.append(ends[-1] + chance.randint(1, most))
    return [" ".join(words[start:stop]) for start, stop in pairwise(ends)]


def test_a_long_text_that_is_parted_otherwise_differs_by_its_other_words_alone() -> (
    None
):
    chance = Random(7)
    words = [f"word{int(chance.paretovariate(0.6)) % 900}" for _ in range(20_000)]
    others = [*words]
    for place in range(150, 20_000, 300):
        others[place] = "other"
    book = enumerate(parted(words, 30, chance), 1)
    found = list(differences([*book], parted(others, 30, chance)))
    gone, come = sides(found)
    assert come == ["other"] * 67
    assert len(gone) == 67 and len(found) < 75


WORD = st.sampled_from(["a", "b", "c", "d"])
PARAGRAPH = st.lists(WORD, min_size=1, max_size=5)


@given(st.lists(PARAGRAPH, max_size=5), st.lists(PARAGRAPH, max_size=5))
def test_the_words_that_differ_make_one_text_of_the_other(
    mine: list[list[str]], others: list[list[str]]
) -> None:
    book = [(number, " ".join(words)) for number, words in enumerate(mine, 1)]
    found = list(differences(book, [" ".join(words) for words in others]))
    ours = [word for words in mine for word in words]
    theirs = [word for words in others for word in words]
    assert (found == []) is (ours == theirs)
    gone, come = sides(found)
    # what differs, taken from the one and put into the other, leaves as many of each word
    for word in "abcd":
        left = ours.count(word) - gone.count(word) + come.count(word)
        assert left == theirs.count(word)
    for each in found:
        if isinstance(each, OtherWords):
            text = dict(book)[each.paragraph]
            assert text[each.place :].startswith(each.words)


def sides(found: list[Difference]) -> tuple[list[str], list[str]]:
    """The words that the book has alone, and those of the manuscript."""
    gone: list[str] = []
    come: list[str] = []
    for each in found:
        match each:
            case OtherWords(words=words, others=others):
                gone += words.split()
                come += others.split()
            case LackingWords(others=others):
                come += others.split()
            case LackingParagraph(text=text):
                come += text.split()
            case ParagraphAlone(text=text):
                gone += text.split()
    return gone, come


def test_a_long_text_of_other_words_is_parted_at_words_that_stand_once() -> None:
    words = [f"word{number}" for number in range(20_000)]
    book = [(n, " ".join(words[n : n + 40])) for n in range(0, 20_000, 40)]
    texts = [text.replace("7 ", "8 ") for _, text in book]
    found = list(differences(book, texts))
    # each tenth word differs, but for those at the end of a paragraph, and is found by itself
    wanted = sum(text.count("7 ") for _, text in book)
    assert len(found) == wanted > 1_000
    assert all(isinstance(each, OtherWords) for each in found)


def test_a_book_of_which_the_session_ends_is_not_taken_for_the_one_it_is_compared_with(
    moon: Path,
) -> None:
    shutil.copyfile(moon, moon.with_name("other.braildesk"))
    program, found = moon.with_name("cut short"), braildesk.find()
    program.write_text(
        "#!/bin/sh\n"
        f'[ "$1 $3" = "session other.braildesk" ] || exec \'{found}\' "$@"\n'
        f"head -n 1 | '{found}' \"$@\"\nkill -9 $$\n"
    )
    program.chmod(0o755)

    def ran(*words: str | Path, given: str = "") -> Ran:
        its = str(program)
        return scribe(*words, folder=moon.parent, given=given, BRAILDESK=its)

    said = (
        "The book “other.braildesk” was not read to its end. The session was ended by"
        " signal 9. Nothing was changed by this session.\n"
    )
    assert ran("compare", moon, "other.braildesk") == Ran(3, "", said)
    talk = ran(
        "talk", moon, "--width", "200", given="compare other.braildesk\nversion\n"
    )
    assert (talk.status, talk.said) == (0, said)
    assert talk.shown.endswith("The book is at version 7.\n" * 2)
    assert ran("bring", "fi.utb", "--for", "other.braildesk") == Ran(3, "", said)
