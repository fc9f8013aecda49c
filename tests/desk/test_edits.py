"""The commands that send one request each, by what a person sees."""

from pathlib import Path

import pytest

from tool import Ran, scribe


def refused(sentence: str) -> Ran:
    return Ran(2, "", sentence + "\n")


def shown(*lines: str) -> Ran:
    return Ran(0, "".join(line + "\n" for line in lines), "")


CASES = {
    "an undo shows the line before and after": (
        ["undo", "1"],
        shown(
            "Paragraph 1: The [mon] is far away.",
            "Before: The [moon] is far away.",
            "Mark 1, open, touched, on “mon”: spelled so?",
            "Correction 1 of paragraph 1 is taken back. The book is at version 8.",
        ),
    ),
    "an undo on a short line shows what came back on a line of its own": (
        ["undo", "1", "--width", "14"],
        shown(
            "Paragraph 1:",
            "The [mon] is…",
            "Before:",
            "The [moon] is…",
            "Mark 1, open,",
            "  touched, on",
            "  “mon”:",
            "  spelled so?",
            "Correction 1",
            "  of paragraph",
            "  1 is taken",
            "  back. The",
            "  book is at",
            "  version 8.",
        ),
    ),
    "an undo of nothing is refused": (
        ["undo", "2"],
        refused(
            "Paragraph 2 has no correction that could be taken back. Nothing was changed."
        ),
    ),
    "a mark is resolved": (
        ["resolve", "1"],
        shown(
            "Mark 1, resolved, paragraph 1, on “moon”: spelled so?",
            "Before, it was open. The book is at version 8.",
        ),
    ),
    "a paragraph is struck": (
        ["strike", "2"],
        shown(
            "Paragraph 2: struck now, in the volumes before.",
            "The Tides",
            "The book is at version 8.",
        ),
    ),
    "a paragraph in the volumes can't be restored": (
        ["restore", "2"],
        refused("Paragraph 2 isn't struck, so there is nothing to restore."),
    ),
    "a heading is made": (
        ["heading", "2"],
        shown(
            "Paragraph 2: a heading now, body text before.",
            "The Tides",
            "The book is at version 8.",
        ),
    ),
    "body text stays body text, which is said": (
        ["body", "2"],
        shown(
            "Paragraph 2: body text, as before.",
            "The Tides",
            "The book is at version 8.",
        ),
    ),
    "a volume begins": (
        ["volume", "2", "on"],
        shown(
            "Paragraph 2: begins a volume now, begins no volume before.",
            "The Tides",
            "The book is at version 8.",
        ),
    ),
    "the first paragraph begins a volume in any case": (
        ["volume", "1", "off"],
        shown(
            "Paragraph 1: begins no volume, as before.",
            "The moon is far away.",
            "It begins volume 1 in any case, as the first that isn't struck.",
            "The book is at version 8.",
        ),
    ),
    "a paragraph is moved to the front": (
        ["move", "2", "front"],
        shown(
            "Paragraph 2: at the front of the book now, after paragraph 1 before.",
            "The Tides",
            "The book is at version 8.",
        ),
    ),
    "a paragraph that isn't there can't be moved": (
        ["move", "9", "end"],
        refused(
            "The book has no paragraph 9: it has the paragraphs 1 to 3. Nothing was changed."
        ),
    ),
    "a paragraph gets another table, and its cells are shown": (
        ["retable", "1", "plain", "--width", "40"],
        shown(
            "Paragraph 1: table plain now, table en",
            "  before.",
            "Its braille is as before.",
            "The book is at version 8.",
        ),
    ),
    "a table that isn't there is refused": (
        ["retable", "1", "ueb"],
        refused(
            "The book has no table ueb. Nothing was changed. Add that table first, or name"
            " one that is there."
        ),
    ),
}


@pytest.mark.parametrize("name", CASES)
def test_what_is_seen(name: str, moon: Path) -> None:
    (command, *rest), expected = CASES[name]
    assert scribe(command, moon, *rest, folder=moon.parent) == expected


def test_a_struck_paragraph_is_said_to_begin_no_volume_until_it_is_restored(
    moon: Path,
) -> None:
    def volume(word: str) -> list[str]:
        done = scribe("volume", moon, "2", word, folder=moon.parent)
        return done.shown.splitlines()

    scribe("strike", moon, "2", folder=moon.parent)
    assert volume("on") == [
        "Paragraph 2: begins a volume now, begins no volume before.",
        "The Tides",
        "It is struck, and begins none until it is restored.",
        "The book is at version 9.",
    ]
    assert volume("off") == [
        "Paragraph 2: begins no volume now, begins a volume before.",
        "The Tides",
        "The book is at version 10.",
    ]


def test_a_number_that_no_request_has_is_too_large(moon: Path) -> None:
    most = 2**53
    ran = scribe("strike", moon, str(most + 1), folder=moon.parent)
    assert (ran.status, ran.shown) == (1, "")
    assert ran.said.startswith(f"Argument PARA: {most + 1} is too large a number.\n")
    assert scribe("strike", moon, str(most), folder=moon.parent) == refused(
        f"The book has no paragraph {most}: it has the paragraphs 1 to 3. Nothing was changed."
    )


def test_a_mark_that_is_not_there_is_refused_with_the_command_that_shows_them(
    moon: Path,
) -> None:
    assert scribe("resolve", moon.name, "2", folder=moon.parent) == refused(
        "The book has no mark 2. Nothing was changed. This shows which there are: scribe marks"
        " moon.braildesk"
    )
    named = moon.with_name("the moon and all of the tides.braildesk")
    moon.rename(named)
    ran = scribe("resolve", named.name, "2", folder=moon.parent, COLUMNS="40")
    assert ran.said.splitlines() == [
        "The book has no mark 2. Nothing was",
        "changed. This shows which there are:",
        "scribe marks 'the moon and all of the tides.braildesk'",
    ]


def test_a_restored_paragraph_is_shown_with_what_it_was(moon: Path) -> None:
    scribe("strike", moon, "3", folder=moon.parent)
    assert scribe("restore", moon, "3", folder=moon.parent) == shown(
        "Paragraph 3: in the volumes now, struck before.",
        "Twice a day the sea comes up.",
        "The book is at version 9.",
    )


def test_what_differs_in_braille_stands_in_brackets(moon: Path) -> None:
    own = moon.with_name("plain.utb").read_text() + "word far 124-345\n"
    moon.with_name("own.utb").write_text(own)
    scribe("table", moon, "own", "own.utb", folder=moon.parent)
    assert scribe("retable", moon, "1", "own", folder=moon.parent) == shown(
        "Paragraph 1: table own now, table en before.",
        "Its braille: ⠠⠞⠓⠑⠀⠍⠕⠕⠝⠀⠊⠎⠀[⠋⠜]⠀⠁⠺⠁⠽⠲",
        "Before: ⠠⠞⠓⠑⠀⠍⠕⠕⠝⠀⠊⠎⠀[⠋⠁⠗]⠀⠁⠺⠁⠽⠲",
        "The book is at version 9.",
    )
