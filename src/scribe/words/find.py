"""What was looked for and found, or found otherwise, in words."""

from collections.abc import Callable, Iterator, Sequence

from braildesk.desk.find import Hit, Variant, Tally, alike, unlike
from braildesk.text.cells import Notation
from braildesk.text.excerpt import Excerpts
from braildesk.text.spans import Span, find_spans

from scribe.words.paragraph import quoted

_KINDS = {
    Variant.CAPITALS: "other capitals",
    Variant.LETTERS: "a letter written otherwise",
    Variant.APOSTROPHE: "another apostrophe",
    Variant.QUOTATION_MARKS: "other quotation marks",
    Variant.DASH: "another dash",
    Variant.BLANK: "another kind of blank",
}


def in_words(kinds: Sequence[Variant]) -> str:
    """By what texts differ, as in “other capitals and another dash”."""
    *most, last = (_KINDS[kind] for kind in kinds)
    return f"{', '.join(most)} and {last}" if most else last


def instead(sought: str, text: str) -> str:
    """What stands in a text in place of words that don't, in the rest of a sentence; or nothing."""
    places = find_spans(text, sought, alike)
    if not places:
        return ""
    words = text[places[0].start : places[0].stop]
    return f" as typed; with {in_words(unlike(sought, words))} it is {quoted(words)}"


def word_lines(
    hit: Hit, width: int, where: Callable[[int], str] | None = None
) -> list[str]:
    """A line for each place of a print, or more if the words need them.

    It is said where that is on the pages, if this was asked for.
    """
    title, its = _title(hit), hit.places
    if where is None:
        heads = [f"{title}, character {start + 1}: " for start, _ in its]
    else:
        heads = [f"{title}{where(n)}, character {n + 1}: " for n, _ in its]
    return Excerpts(hit.text).lines_of_all(heads, its, width)


def cell_lines(
    hit: Hit,
    text: str,
    origins: Sequence[Span],
    width: int,
    cells: Notation,
    where: Callable[[int], str] = lambda _: "",
) -> Iterator[str]:
    """Two lines for each place of a braille: its cells, and the print that they stand for.

    There are more of them if the cells or the words need them.
    """
    title = _title(hit)
    brailles, prints = Excerpts(cells.write(hit.text)), Excerpts(text)
    for place, origin in zip(hit.places, origins):
        head = f"{title}{where(place.start)}, cell {place.start + 1}: "
        yield from brailles.lines(head, place.start, place.stop, width)
        head = f"  character {origin.start + 1}: "
        yield from prints.lines(head, origin.start, origin.stop, width)


def found_summary(
    text: str,
    tally: Tally,
    others: Tally,
    offer: str,
    where: str = "the print of the book",
) -> str:
    """What was found, in a sentence, or what else there is that is like it, after an offer.

    It is said where nothing was found: a note may have it.
    """
    if others.count:
        return (
            f"{quoted(text)} isn't in the print of the book as typed. With {in_words(others.kinds)} it is there"
            f" {_counted(others)}{offer}"
        )
    if not tally.count:
        return f"{quoted(text)} isn't in {where}."
    too = " too" if tally.has_same else ""
    how = f", with {in_words(tally.kinds)}{too}" if tally.kinds else ""
    return f"Found {quoted(text)} {_counted(tally)}{how}."


def _title(hit: Hit) -> str:
    struck = ", struck" if hit.paragraph.struck else ""
    return f"Paragraph {hit.paragraph.id}{struck}"


def _counted(tally: Tally) -> str:
    """How much was found."""
    if tally.count == 1:
        return "once"
    if tally.paragraphs == 1:
        return f"{tally.count:,} times, in one paragraph"
    return f"{tally.count:,} times, in {tally.paragraphs:,} paragraphs"
