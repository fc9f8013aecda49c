"""A book beside a manuscript in words: a line for each word that differs."""

from collections.abc import Iterator
from dataclasses import dataclass, field

from braildesk.desk.compare import (
    Difference,
    LackingParagraph,
    LackingWords,
    OtherWords,
    ParagraphAlone,
)
from braildesk.desk.documents.reading import Manuscript
from braildesk.text.characters import visible
from braildesk.text.excerpt import opening
from braildesk.text.wrapping import columns

from scribe.words.paragraph import counted, headed

_THERE = "in the manuscript"


@dataclass
class Count:
    """How much differs, so far."""

    places: int = 0
    alone: int = 0
    lacking: int = 0
    _paragraphs: set[int] = field(default_factory=set)

    def lines(self, found: Iterator[Difference], width: int) -> Iterator[list[str]]:
        """The lines of each difference, as it is counted."""
        for each in found:
            match each:
                case ParagraphAlone():
                    self.alone += 1
                case LackingParagraph():
                    self.lacking += 1
                case OtherWords(paragraph=number) | LackingWords(paragraph=number):
                    self.places += 1
                    self._paragraphs.add(number)
            yield difference_lines(each, width)

    def sentences(self) -> Iterator[str]:
        """How much differs in all."""
        if not (self.places or self.alone or self.lacking):
            yield "The book and the manuscript have the same words."
        if self.places:
            paragraphs = counted(len(self._paragraphs), "paragraph")
            yield f"{counted(self.places, 'place')} of {paragraphs} differ.".replace(
                "1 place of 1 paragraph differ.", "1 place of 1 paragraph differs."
            )
        if self.alone:
            verb = "is" if self.alone == 1 else "are"
            yield f"{counted(self.alone, 'paragraph')} {verb} in the book alone."
        if self.lacking:
            verb = "is" if self.lacking == 1 else "are"
            yield f"{counted(self.lacking, 'paragraph')} {verb} {_THERE} alone."


def left_out(manuscript: Manuscript) -> Iterator[str]:
    """That words of a document were not compared, since none of its paragraphs has them."""
    count = sum(len(each.words.split()) for each in manuscript.missing)
    if count:
        are, were, them = ("is", "was", "it") if count == 1 else ("are", "were", "them")
        yield (
            f"{counted(count, 'word')} of the file {are} in no paragraph, and {were} not compared:"
            f" scribe import --dry-run shows {them}."
        )


def difference_lines(found: Difference, width: int) -> list[str]:
    """What differs: the paragraph and the place, the words of the book, and those of the manuscript."""
    match found:
        case ParagraphAlone(paragraph=number, text=text):
            return _with_words(f"Paragraph {number}, in the book alone", text, width)
        case LackingParagraph(after=0, text=text):
            head = f"At the front of the book, a paragraph {_THERE} alone"
            return _with_words(head, text, width)
        case LackingParagraph(after=number, text=text):
            head = f"After paragraph {number}, a paragraph {_THERE} alone"
            return _with_words(head, text, width)
        case LackingWords(paragraph=number, after=after, others=others):
            where = f"after “{visible(after)}”" if after else "at its front"
            head = f"Paragraph {number}, {where}, {_THERE} alone"
            return _with_words(head, others, width)
        case OtherWords(paragraph=number, place=place, words=words, others=others):
            head = f"Paragraph {number}, character {place + 1}"
            if not others:
                return _with_words(f"{head}, in the book alone", words, width)
            ours, theirs = f"“{visible(words)}”", f"“{visible(others)}”"
            line = f"{head}: {ours}, {_THERE} {theirs}"
            if columns(line) <= width:
                return [line]
            return [
                *_with_words(head, ours, width),
                *_with_words(f"  {_THERE}", theirs, width),
            ]
    raise TypeError(f"no difference: {found!r}")


def _with_words(head: str, words: str, width: int) -> list[str]:
    return headed(head, lambda room: opening(visible(words), room), width)
