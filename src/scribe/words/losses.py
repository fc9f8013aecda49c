"""What of a document a book can't hold, in words: by kind, with how often and where."""

import re
from collections import Counter
from collections.abc import Iterator, Sequence
from pathlib import Path

from braildesk.desk.documents.kinds import ManuscriptKind
from braildesk.desk.documents.reading import Loss, LossKind, Manuscript, Missing
from braildesk.desk.manuscripts import Taken
from braildesk.desk.replacements import Replaced
from braildesk.text.characters import visible

#: How many places of a kind are shown if not all of them are.
FEW = 5
#: What a report begins with, of a document and of a text, by what is written below.
_REPORT = re.compile(
    r"[^\n]+ is read as [^\n]+: [\d,]+ paragraphs?, [^\n]*headings?\.\n"
    r"|“[^\n]+” (is replaced by|is left out|stands nowhere)[^\n]*\.\n"
    r"|[^\n]+ is a text\.\n\Z"
)
#: What is said where none of what is looked for is lost.
_NOTHING_LOST = (
    "No word of its text is lost. Quotations, code and lists within lists become paragraphs like the others,"
    " and rules between these go."
)
#: How many bytes that has at most, with the longest path.
_FRONT_BYTES = 8_192
_NAMES = {
    ManuscriptKind.TEXT: "text",
    ManuscriptKind.MARKDOWN: "Markdown",
    ManuscriptKind.HTML: "HTML",
    ManuscriptKind.DOCX: "DOCX",
    ManuscriptKind.ODT: "ODT",
    ManuscriptKind.EPUB: "EPUB",
    ManuscriptKind.RTF: "RTF",
    ManuscriptKind.DOC: "DOC",
    ManuscriptKind.BOOK: "a book",
}
#: What is said of each kind, where it stands once, and where more often; the gravest first.
_SAID = {
    LossKind.EMBEDDED: (
        "1 embedded document is left out",
        "{} embedded documents are left out",
    ),
    LossKind.OTHER_FILE: (
        "1 document in a file of its own, which belongs in this one, is left out",
        "{} documents in files of their own, which belong in this one, are left out",
    ),
    LossKind.COMPUTED: (
        "1 number of a page or part of a date isn't typed, which a program computes where it stands",
        "{} numbers of pages or parts of dates aren't typed, which a program computes where they stand",
    ),
    LossKind.UNREAD: (
        "1 page of the file can't be read in any encoding, and is left out",
        "{} pages of the file can't be read in any encoding, and are left out",
    ),
    LossKind.GUESSED: (
        "1 page is neither in UTF-8 nor in an encoding that it names, and is read as windows-1252: its letters may be"
        " others",
        "{} pages are neither in UTF-8 nor in an encoding that they name, and are read as windows-1252: their letters"
        " may be others",
    ),
    LossKind.UNSEEN: (
        "1 document is of a form whose words can't be compared: some may be left out, and dates be new ones",
        "{} documents are of a form whose words can't be compared: some may be left out, and dates be new ones",
    ),
    LossKind.ABSENT: (
        "1 page that the order of reading names isn't in the file",
        "{} pages that the order of reading names aren't in the file",
    ),
    LossKind.PICTURE: (
        "1 picture without a description is left out",
        "{} pictures without a description are left out",
    ),
    LossKind.DESCRIBED: (
        "1 picture is left out, with its description if it has one",
        "{} pictures are left out, with their descriptions if they have some",
    ),
    LossKind.RAW: (
        "1 piece in the language of another program is left out",
        "{} pieces in the language of another program are left out",
    ),
    LossKind.NOTE: (
        "1 number of a note is typed whose note isn't found where it leads",
        "{} numbers of notes are typed whose notes aren't found where they lead",
    ),
    LossKind.NOTE_AGAIN: (
        "1 note to which several numbers lead is typed after each of them",
        "{} notes to which several numbers lead are typed after each of them",
    ),
    LossKind.NOTE_NUMBER: (
        "1 further number of a note is typed without brackets, as the document shows it",
        "{} further numbers of notes are typed without brackets, as the document shows them",
    ),
    LossKind.JOINED: (
        "1 blank isn't typed, where a style alone parts words",
        "{} blanks aren't typed, where styles alone part words",
    ),
    LossKind.INITIAL: (
        "1 drop cap is typed as one word with what follows it, and may be a word of its own",
        "{} drop caps are typed as one word with what follows them, and may be words of their own",
    ),
    LossKind.HIDDEN: (
        "1 piece of text that is hidden in the document is typed too",
        "{} pieces of text that are hidden in the document are typed too",
    ),
    LossKind.DELETED: (
        "1 deletion that was tracked is left out",
        "{} deletions that were tracked are left out",
    ),
    LossKind.COMMENT: ("1 comment is left out", "{} comments are left out"),
    LossKind.CONTENTS: (
        "1 table of contents of the file is left out",
        "{} tables of contents of the file are left out",
    ),
    LossKind.ASIDE: (
        "1 page outside of the order of reading is typed too",
        "{} pages outside of the order of reading are typed too",
    ),
    LossKind.REPEATED: (
        "1 page that the order of reading has more than once is typed once",
        "{} pages that the order of reading has more than once are typed once",
    ),
    LossKind.MATHEMATICS: (
        "1 formula is typed as it is written in TeX",
        "{} formulas are typed as they are written in TeX",
    ),
    LossKind.SUPERSCRIPT: (
        "1 superscript stands on the line",
        "{} superscripts stand on the line",
    ),
    LossKind.SUBSCRIPT: (
        "1 subscript stands on the line",
        "{} subscripts stand on the line",
    ),
    LossKind.TABLE: (
        "1 table is typed row by row, with semicolons between the cells",
        "{} tables are typed row by row, with semicolons between the cells",
    ),
    LossKind.SPAN: (
        "1 cell of a table goes on over several rows, and is typed in the first of them",
        "{} cells of tables go on over several rows, and are typed in the first of these",
    ),
    LossKind.SAME: (
        "1 cell or row of a table that print has several times is typed once",
        "{} cells or rows of tables that print has several times are typed once",
    ),
    LossKind.BOX: (
        "1 box of a form is typed as a sign",
        "{} boxes of forms are typed as signs",
    ),
    LossKind.LINK: (
        "1 link has lost its address",
        "{} links have lost their addresses",
    ),
    LossKind.EMPHASIS: (
        "1 emphasis, as by italics, is lost",
        "{} emphases, as by italics, are lost",
    ),
    LossKind.NUMBER: (
        "1 number of a list or of a heading isn't typed as it is in print",
        "{} numbers of lists or headings aren't typed as they are in print",
    ),
    LossKind.LIST: (
        "1 list is typed with numbers or bullets that its style hides or changes",
        "{} lists are typed with numbers or bullets that their styles hide or change",
    ),
    LossKind.SHEET: (
        "1 list may have other numbers in print, by a style sheet that isn't read",
        "{} lists may have other numbers in print, by style sheets that aren't read",
    ),
    LossKind.STYLES: (
        "1 style sheet that the page uses isn't read: words that it may hide are typed, and emphasis by it isn't noted",
        "{} style sheets that pages use aren't read: words that they may hide are typed, and emphasis by them isn't noted",
    ),
    LossKind.RULES: (
        "1 page has more rules of style than are read: words that the others may hide are typed, and emphasis by"
        " them isn't noted",
        "{} pages have more rules of style than are read: words that the others may hide are typed, and emphasis by"
        " them isn't noted",
    ),
    LossKind.LEVEL: (
        "1 heading is below the first level, and a book has only one",
        "{} headings are below the first level, and a book has only one",
    ),
    LossKind.LENGTH: (
        "1 paragraph is too long for a book, and is parted at its sentences",
        "{} paragraphs are too long for a book, and are parted at their sentences",
    ),
    LossKind.LONG_SENTENCE: (
        "1 paragraph is too long for a book, and is parted between words where no sentence ends",
        "{} paragraphs are too long for a book, and are parted between words where no sentence ends",
    ),
    LossKind.LONG_WORD: (
        "1 paragraph is too long for a book, and is parted where it has no blank",
        "{} paragraphs are too long for a book, and are parted where they have no blank",
    ),
}


def kind_name(kind: ManuscriptKind) -> str:
    """What people call a kind of manuscript."""
    return _NAMES[kind]


def is_report(head: bytes) -> bool:
    """Whether a file begins as a report does."""
    front = head[:_FRONT_BYTES].decode(errors="replace")
    return _REPORT.match(front) is not None


def report_lines(path: Path, taken: Taken, most: int | None = None) -> list[str]:
    """All that is said of what was read of a manuscript; of each kind so many places at most."""
    lines: list[str] = []
    if (document := taken.document) is not None:
        lines.append(_head(path, document))
        lines += _missing(document.missing, most)
        lines += _losses(document.losses, most)
        if not document.missing and not document.losses:
            lines.append(_NOTHING_LOST)
    lines += map(_replaced, taken.replaced)
    return lines


def _head(path: Path, document: Manuscript) -> str:
    headings = sum(part.is_heading for part in document.parts)
    count = len(document.parts)
    paragraphs = "1 paragraph" if count == 1 else f"{count:,} paragraphs"
    of_these = f", {headings:,} of them headings" if headings else ", no headings"
    if headings == 1:
        of_these = ", a heading" if count == 1 else ", 1 of them a heading"
    return f"{path} is read as {kind_name(document.kind)}: {paragraphs}{of_these}."


def _missing(found: Sequence[Missing], most: int | None) -> Iterator[str]:
    """The words that no paragraph has."""
    if not found:
        return
    count = sum(len(each.words.split()) for each in found)
    words = "1 word" if count == 1 else f"{count:,} words"
    yield f"{words} of the file will be in no paragraph:"
    yield from _places([_where(each) for each in found], most)


def _where(found: Missing) -> str:
    neighbours = [
        f"{word} “{visible(words)}”"
        for word, words in (("after", found.before), ("before", found.after))
        if words
    ]
    shown = f"“{visible(found.words)}”"
    return f"{shown}, {' and '.join(neighbours)}" if neighbours else shown


def _losses(losses: Sequence[Loss], most: int | None) -> Iterator[str]:
    """What a book can't hold, by kind."""
    for what, (once, often) in _SAID.items():
        found = [loss for loss in losses if loss.what is what]
        if found:
            count = len(found)
            said = once if count == 1 else often.format(f"{count:,}")
            yield f"{said}:"
            yield from _places([_around(loss) for loss in found], most)


def _around(loss: Loss) -> str:
    if loss.what in (LossKind.PICTURE, LossKind.DESCRIBED):
        return f"at “{visible(loss.around)}”" if loss.around else "at the front"
    if not loss.words or loss.words == loss.around:
        return f"“{visible(loss.around)}”"
    return f"“{visible(loss.words)}” in “{visible(loss.around)}”"


def _places(lines: Sequence[str], most: int | None) -> Iterator[str]:
    """Lines of places, each once with how often; so many at most, and how many more there are."""
    counted = Counter(lines)
    shown = list(counted)[:most]
    for line in shown:
        count = counted[line]
        yield f"- {line}" if count == 1 else f"- {line}, {count:,} times"
    left = len(lines) - sum(counted[line] for line in shown)
    if left:
        yield f"- and {left:,} more"


def _replaced(found: Replaced) -> str:
    times = "once" if found.count == 1 else f"{found.count:,} times"
    if not found.count:
        return f"“{visible(found.old)}” stands nowhere, and isn't replaced."
    if not found.new:
        return f"“{visible(found.old)}” is left out {times}."
    return f"“{visible(found.old)}” is replaced by “{visible(found.new)}” {times}."
