"""The commands that send one request each, and show what it changed."""

from collections.abc import Callable
from typing import TYPE_CHECKING

from scribe.cli.book_command import Answer, BookCommand
from scribe.cli.parser import Parser, add_paragraph, add_width
from scribe.words.typed import after, number, switch, words

if TYPE_CHECKING:
    from braildesk.protocol.requests import Retable


def edit(
    name: str, example: str, add_words: Callable[[Parser], None], more: str = ""
) -> BookCommand:
    """A command of the command line that is one request of a book, which `answers.edits` has."""

    def add_all(parser: Parser) -> None:
        add_words(parser)
        add_width(parser)

    def answering() -> Answer:
        from scribe.cli.answers.edits import answer_of

        return answer_of(name)

    return BookCommand(name, example, add_all, answering, more)


def _add_mark(parser: Parser) -> None:
    parser.add_asked(
        "mark",
        "MARK",
        number,
        "the number of the mark",
        "Which mark? Type its number.",
        in_hand=True,
    )


def _add_switch(parser: Parser) -> None:
    add_paragraph(parser)
    parser.add_asked(
        "begins",
        "on|off",
        switch,
        "whether it begins a volume",
        "Does it begin a volume? Type on or off.",
        "on or off",
    )


def _add_after(parser: Parser) -> None:
    add_paragraph(parser)
    parser.add_asked(
        "after",
        "AFTER",
        after,
        "front, end, or the number of the paragraph after which it comes",
        "After which paragraph? Type its number, front or end.",
    )


def _retabled(number: int) -> "Retable":
    # imported here, since a shell has no need of it
    from braildesk.protocol.requests import Retable

    return Retable(number, "")


def _add_table(parser: Parser) -> None:
    add_paragraph(parser, if_struck=_retabled)
    parser.add_asked(
        "table",
        "NAME",
        words,
        "the name of a table of the book",
        "Which table? Type its name.",
    )


_EDITS = (
    edit(
        "undo",
        "scribe undo moon.braildesk 1",
        add_paragraph,
        "Nothing is erased: the history keeps the correction and that it was taken back.",
    ),
    edit(
        "resolve",
        "scribe resolve moon.braildesk 1",
        _add_mark,
        "scribe marks shows the numbers of marks.",
    ),
    edit(
        "strike",
        "scribe strike moon.braildesk 2",
        add_paragraph,
        "It stays in the book, and scribe restore puts it back.",
    ),
    edit(
        "restore",
        "scribe strike moon.braildesk 2\nscribe restore moon.braildesk 2",
        add_paragraph,
    ),
    edit(
        "heading",
        "scribe heading moon.braildesk 2",
        add_paragraph,
    ),
    edit(
        "body",
        "scribe body moon.braildesk 2",
        add_paragraph,
    ),
    edit(
        "volume",
        "scribe volume moon.braildesk 2 on",
        _add_switch,
        "The first paragraph that isn't struck begins volume 1 in any case.",
    ),
    edit(
        "move",
        "scribe move moon.braildesk 2 front",
        _add_after,
        "It keeps its number.",
    ),
    edit(
        "retable",
        "scribe retable moon.braildesk 2 plain",
        _add_table,
        "The table has to be in the book: scribe table puts it there.",
    ),
)

#: The commands by their names.
EDITS = {each.name: each for each in _EDITS}
