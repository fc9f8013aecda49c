"""`scribe show`: the book as a person reads it."""

from scribe.cli.book_command import Answer, BookCommand
from scribe.cli.parser import Parser, add_cells, add_paragraphs, add_width

MORE = """\
Print and braille stand under one another, and after them the marks with their notes.
With PARAS as in 3-9 this is what the book has from paragraph 3 to paragraph 9, in its
own order; 3- goes on to its end, -9 begins at its front, and 3-9,12 shows both. An import
that was cut short, so that the book has a part of its text, is named at the end, unless
another program has the book open."""
EXAMPLE = "scribe show moon.braildesk 1-2"


def add_words(parser: Parser) -> None:
    """Adds the words of `show`."""
    add_paragraphs(parser)
    parser.add_argument(
        "--print", action="store_true", help="the print without its braille"
    )
    parser.add_argument(
        "--braille", action="store_true", help="the braille without its print"
    )
    add_cells(parser)
    add_width(parser)


def _answering() -> Answer:
    from scribe.cli.answers.show import answer

    return answer


COMMAND = BookCommand("show", EXAMPLE, add_words, _answering, MORE, looks=True)
