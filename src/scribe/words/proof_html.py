"""A proof of a book as one page of HTML, without script and without other files."""

import re
from collections.abc import Iterable, Iterator
from dataclasses import dataclass
from html import escape

from braildesk import Mark
from braildesk.desk.layout import PageSize
from braildesk.desk.proof import ProofLine, ProofPage, ProofWord
from braildesk.text.cells import braille_ascii
from braildesk.text.characters import visible
from braildesk.text.wrapping import columns

from scribe.words.paragraph import marked_words

#: The sizes of the print of a line, the largest first, in cells.
_SIZES = (0.62, 0.54, 0.47, 0.41, 0.36, 0.31)
#: The width of a character of print in its own size, and of one of a heading, which is bold.
_CHARACTER, _BOLD_CHARACTER = 0.62, 0.7
#: What is left free between two words of print, in cells.
_GAP = 0.25
#: How many cells at most the print of a word stands to the right of its cells.
_SHIFT = 1.5
#: The front of a proof up to its style.
_FRONT = re.compile(
    r'<!DOCTYPE html>\n<html( lang="[^"\n]*")?>\n<head>\n<meta charset="utf-8">\n'
    r"<title>Proof of [^<\n]*</title>\n<style>\n"
)


@dataclass(frozen=True, slots=True)
class Proof:
    """How a proof is shown."""

    title: str
    page_size: PageSize
    language: str = ""
    is_ascii: bool = False
    has_print_first: bool = False
    has_spoken_cells: bool = False

    def html(self, pages: Iterable[ProofPage]) -> Iterator[str]:
        """The text of the page, piece by piece."""
        language = f' lang="{escape(self.language)}"' if self.language else ""
        title = escape(visible(self.title))
        yield f'<!DOCTYPE html>\n<html{language}>\n<head>\n<meta charset="utf-8">\n'
        yield f"<title>Proof of {title}</title>\n<style>\n{self._style()}</style>\n</head>\n<body>\n"
        yield f"<h1>Proof of {title}</h1>\n"
        for page in pages:
            yield from self._page(page)
        yield "</body>\n</html>\n"

    def _page(self, page: ProofPage) -> Iterator[str]:
        name = f"Volume {page.volume}, page {page.number}"
        yield f'<section aria-label="{name}">\n<h2>{name}</h2>\n'
        yield '<div class="lines">\n'
        for line in page.lines:
            yield from self._line(line)
        yield f'</div>\n<p class="number">{page.number}</p>\n</section>\n'

    def _line(self, line: ProofLine) -> Iterator[str]:
        kind = "line heading" if line.is_heading else "line"
        size, shifts = _shifted(line, self.page_size.width)
        yield f'<div class="{kind}" style="grid-row:{line.number}">'
        if line.begins is not None:
            yield f'<span class="paragraph">{line.begins}<span class="aside">. </span></span>'
        for word, shift in zip(line.words, shifts):
            yield self._word(word, size, shift)
        if line.marks:
            notes = "<br/>".join(_note(mark, line.print) for mark in line.marks)
            yield f'<span class="notes">{notes}</span>'
        yield "</div>\n"

    def _word(self, word: ProofWord, size: int, shift: float) -> str:
        shown = braille_ascii(word.cells) if self.is_ascii else word.cells
        hidden = "" if self.has_spoken_cells else ' aria-hidden="true"'
        cells = f'<span class="cells"{hidden}>{escape(shown)}</span>'
        text = visible(word.text)
        aside = f' style="left:{shift / _SIZES[size]:.2f}em"' if shift else ""
        print_ = f'<span class="print s{size}"{aside}>{escape(text)} </span>'
        marked = " marked" if word.is_marked else ""
        both = print_ + cells if self.has_print_first else cells + print_
        column = f"{word.column + 1}/span {len(word.cells) + 1}"
        return f'<span class="word{marked}" style="grid-column:{column}">{both}</span>'

    def _style(self) -> str:
        sizes = "".join(
            f".s{number}{{font-size:{size:.2f}em}}\n"
            for number, size in enumerate(_SIZES)
        )
        style = _STYLE.replace("WIDTH", str(self.page_size.width + 1))
        return style.replace("LINES", str(self.page_size.text_lines)) + sizes


def _shifted(line: ProofLine, width: int) -> tuple[int, list[float]]:
    """The size of the print of a line, and how far each of its words is shifted to the right.

    Print that has more room than its cells moves what comes after it. It is as large as it can be so
    that none is far from its cells and all is on the line, or else of the smallest size.
    """
    character = _BOLD_CHARACTER if line.is_heading else _CHARACTER
    shifts: list[float] = []
    for number, size in enumerate(_SIZES):
        shifts, end = [], 0.0
        for word in line.words:
            start = max(float(word.column), end)
            shifts.append(start - word.column)
            if word.text:
                end = start + columns(visible(word.text)) * character * size + _GAP
        if max(shifts, default=0.0) <= _SHIFT and end <= width + 1:
            return number, shifts
    return len(_SIZES) - 1, shifts


def is_proof(head: bytes) -> bool:
    """Whether a file that begins so is a proof that was written here."""
    text = head.decode(errors="replace")
    found = _FRONT.match(text)
    return found is not None and text.startswith(_STYLE.split("{")[0], found.end())


def _note(mark: Mark, text: str) -> str:
    """What is said of a mark: to a screen reader also its words, which are framed for the eye."""
    state = "resolved" if mark.resolved else "open"
    words = f'<span class="aside">, {escape(marked_words(mark, text))}</span>'
    note = f": {escape(visible(mark.note))}" if mark.note else ""
    return f"Mark {mark.id}, {state}{words}{note}"


def elsewhere(count: int) -> str:
    """That so many open marks stand on no page, in a sentence."""
    if count == 1:
        return "1 open mark is on no page: its paragraph is struck or has no words."
    return (
        f"{count:,} open marks are on no page: their paragraphs are struck or have no"
        " words."
    )


_STYLE = """\
body{margin:1em 14em 1em 3em;font-family:"DejaVu Sans",sans-serif;font-size:10pt}
section{border:1px solid;padding:.5em 1em;margin:0 0 1em;width:max-content;position:relative}
h2{font-size:.8em;margin:0 0 .5em}
.lines{display:grid;grid-template-rows:repeat(LINES,2.1em)}
.line{display:grid;grid-template-columns:repeat(WIDTH,1em);position:relative}
.word{display:flex;flex-direction:column;white-space:nowrap;align-items:flex-start}
.cells{font-family:"DejaVu Serif","DejaVu Sans",monospace;font-size:1.3em;line-height:1}
.print{line-height:1;position:relative}
.heading .print{font-weight:bold}
.marked{outline:2px solid;outline-offset:-1px}
.paragraph{position:absolute;left:-5.6em;width:3.5em;text-align:right;font-size:.7em}
.aside{position:absolute;clip-path:inset(50%)}
.notes{position:absolute;left:calc(100% + 2em);width:14em;font-size:.7em}
.number{text-align:right;margin:0}
@page{margin:.8cm}
@media print{h1{display:none}body{margin:0 0 0 3em}section{break-after:page;break-inside:avoid;border:0;padding:0}}
"""
