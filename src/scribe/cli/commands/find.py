"""`scribe find`: where words or cells stand in a book."""

from argparse import Namespace
from collections.abc import Callable, Iterable, Iterator
from typing import TYPE_CHECKING

from braildesk import Session
from braildesk.desk.find import (
    Hit,
    Tally,
    alike,
    find_cells,
    find_words,
    print_of,
    tallied,
)
from braildesk.text.cells import NotCells, braille_patterns
from braildesk.text.characters import code_and_name
from braildesk.text.sequences import composed

from scribe.cli.book_command import BookCommand
from scribe.cli.page_size import add_pages, not_laid_out, page_map
from scribe.cli.parser import Parser, WordsRefused, add_width
from scribe.words.console import Console
from scribe.words.find import cell_lines, found_summary, word_lines
from scribe.words.typed import words

if TYPE_CHECKING:
    from braildesk.desk.page_places import PageMap

MORE = """\
Each place is shown by its paragraph, its first character, counted from 1, and the words
around it. With --braille TEXT is cells, in Braille ASCII or as Unicode characters, and
the print that they stand for is shown after them. With --alike, words are found too that
have other capitals, a letter written otherwise, as ss for a sharp s, or an apostrophe,
quotation mark, dash or blank of another shape. With --pages the volume, page and line of
each place is said, on pages of --page-width cells and --page-lines lines."""
EXAMPLE = """\
scribe find moon.braildesk moon
scribe find moon.braildesk --alike 'the moon'
scribe find moon.braildesk --braille ',THE MOON'"""
_OFFER = "; --alike shows where."


def add_words(parser: Parser) -> None:
    """Adds the words of `find`."""
    parser.add_asked(
        "text",
        "TEXT",
        words,
        "the words, or cells, to look for",
        "Which words are looked for?",
        "words",
    )
    which = parser.add_mutually_exclusive_group()
    which.add_argument(
        "--braille", action="store_true", help="look for cells in the braille"
    )
    which.add_argument(
        "--alike",
        action="store_true",
        help="whatever the capitals, and the shapes of a few signs",
    )
    add_pages(parser)
    add_width(parser)
    parser.set_defaults(usage=parser.format_usage().strip())


def judge(arguments: Namespace) -> None:
    """Refuses cells that are none."""
    if arguments.braille:
        cells(arguments)


def answer(session: Session, arguments: Namespace, console: Console) -> None:
    """Shows where the words or cells stand, and how often."""
    text, width = arguments.text, console.columns
    tally = others = Tally()
    pages = page_map(arguments, session)
    if arguments.braille:
        for hit in find_cells(session, cells(arguments)):
            tally = tally.with_hit(hit)
            found, where = print_of(session, hit), _of_cells(pages, hit)
            console.show(*cell_lines(hit, *found, width, console.cells, where))
    else:
        form = alike if arguments.alike else composed
        for hit, at in _of_words(pages, find_words(session, text, form)):
            is_alike = arguments.alike
            tally = tally.with_alike(hit, text) if is_alike else tally.with_hit(hit)
            console.show(*word_lines(hit, width, at))
        if not (tally.count or arguments.alike):
            others = tallied(find_words(session, text, alike), text)
    # the cells may have what the print has not, and the print what they have not
    its = f"the {'cells' if arguments.braille else 'print'} of the book"
    summary = found_summary(text, tally, others, _OFFER, its)
    console.say(summary, *not_laid_out(pages))


def _of_words(
    pages: "PageMap | None", hits: Iterable[Hit]
) -> Iterator[tuple[Hit, Callable[[int], str] | None]]:
    """Hits with what is said of where each of their places is on the pages, if this was asked for."""
    if pages is None:
        yield from ((hit, None) for hit in hits)
        return
    # imported here, since it is seldom asked for
    from scribe.words.pages import page_place

    # while these are being found, nothing else can be asked
    found = list(hits)
    asked = [(hit.paragraph.id, at, hit.text) for hit in found for at, _ in hit.places]
    said = map(page_place, pages.of_characters(asked))
    for hit in found:
        where = {start: f", {next(said)}" for start, _ in hit.places}
        yield hit, where.__getitem__


def _of_cells(pages: "PageMap | None", hit: Hit) -> Callable[[int], str]:
    """What is said of where a cell stands on the pages: nothing if none were asked for."""
    if pages is None:
        return lambda _: ""
    from scribe.words.pages import page_place

    its, number = pages, hit.paragraph.id
    return lambda cell: f", {page_place(its.of_cell(number, cell))}"


def cells(arguments: Namespace) -> str:
    """The cells to look for."""
    try:
        return braille_patterns(arguments.text)
    except NotCells as fault:
        character = code_and_name(str(fault))
        raise WordsRefused(
            f"Argument TEXT: {character} is no cell in Braille ASCII or Unicode.",
            arguments.usage,
        ) from fault


COMMAND = BookCommand(
    "find", EXAMPLE, add_words, lambda: answer, MORE, looks=True, judge=judge
)
