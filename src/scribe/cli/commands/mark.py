"""`scribe mark`: a mark on the cells of words."""

from argparse import Namespace

from braildesk import Session
from braildesk.desk.marks import mark_words
from braildesk.desk.places import Words
from braildesk.protocol.requests import Mark
from braildesk.text.excerpt import excerpt_lines

from scribe.cli.book_command import BookCommand, add_nth
from scribe.cli.parser import Parser, add_paragraph, add_width
from scribe.words.changes import at_version, wider
from scribe.words.console import Console
from scribe.words.paragraph import mark_line
from scribe.words.typed import text, words

MORE = """\
WORDS have to be in the print of the paragraph just once; if they are there more often,
--nth says which place is meant. If they share their cells with what is beside them, as
in a contraction, the mark is on all of that, which is said."""
EXAMPLE = "scribe mark moon.braildesk 1 far 'how far?'"


def add_words(parser: Parser) -> None:
    """Adds the words of `mark`."""
    add_paragraph(parser, if_struck=lambda number: Mark(number, 0, 0, ""))
    parser.add_asked(
        "words",
        "WORDS",
        words,
        "the words that it stands on",
        "Which words are marked?",
        stands=True,
    )
    parser.add_asked("note", "NOTE", text, "what is asked or said", "Which note?")
    add_nth(parser, "WORDS")
    add_width(parser)


def answer(session: Session, arguments: Namespace, console: Console) -> None:
    """Puts the mark, and shows where it stands."""
    number = arguments.paragraph
    where = Words(number, arguments.words, arguments.nth)
    marked = mark_words(session, where, arguments.note)
    mark, head = marked.mark, f"Paragraph {number}: "
    width = console.columns
    console.show(
        mark_line(mark, marked.text),
        *excerpt_lines(head, marked.text, mark.start, mark.stop, width),
        at_version(marked.version),
    )
    if marked.is_wider:
        console.say(wider(marked))


COMMAND = BookCommand("mark", EXAMPLE, add_words, lambda: answer, MORE)
