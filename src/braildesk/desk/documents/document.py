"""Manuscripts as publishers send them, read as the paragraphs of a book.

Documents are read by pandoc (`pages`, `package`, `numbers`, `word_print`, `numbers_of_odt`,
`tables_of_odt`, `pandoc`, `tree`, `notes`). What it leaves out without a sign is found by comparing the
words of its paragraphs with those that the file itself has (`contents`, `markdown_words`, `rtf_words`, `doc_text`).

RTF and DOC are turned into DOCX by LibreOffice first: pandoc loses print of the one without a word, and
doesn't read the other. ODT is where pandoc refuses it, or loses words of it, as those of a table of
contents, or numbers, if fewer are lost so: the text boxes that LibreOffice makes of frames are lost in their
turn.
"""

from dataclasses import replace

from braildesk.desk.documents import (
    contents,
    doc_text,
    markdown_words,
    pages,
    pandoc,
    rtf_words,
)
from braildesk.desk.documents.contents import Contents
from braildesk.desk.documents.kinds import (
    ManuscriptKind,
    NoDocument,
    NotConverted,
    NotRead,
    WhyNot,
    repacked,
)
from braildesk.desk.documents.markdown_front import with_one_front, with_plain_values
from braildesk.desk.documents.markdown_notes import (
    repeated,
    with_marks,
    without_marks,
)
from braildesk.desk.documents.markdown_tables import check_tables
from braildesk.desk.documents.markup import (
    characters_of_page,
    characters_of_text,
    is_guessed,
)
from braildesk.desk.documents.notes import with_notes
from braildesk.desk.documents.numbers import with_numbers
from braildesk.desk.documents.numbers_of_odt import with_odt_numbers
from braildesk.desk.documents.options import ReadingOptions
from braildesk.desk.documents.pandoc import Check
from braildesk.desk.documents.reading import (
    Loss,
    LossKind,
    Manuscript,
    Missing,
    Part,
    parting,
    short_enough,
)
from braildesk.desk.documents.tree import (
    FAULTS,
    Document,
    Node,
    document,
    said_beside,
)
from braildesk.desk.manuscript import UnreadableText

#: The kinds that are containers.
_PACKED = (ManuscriptKind.DOCX, ManuscriptKind.ODT, ManuscriptKind.EPUB)
#: The kinds in whose passages an LF is a line that ends by hand.
_WITH_LINES = (ManuscriptKind.DOCX, ManuscriptKind.ODT)
#: The kinds whose title, and what else is said about the whole, is a part of the print.
_WITH_FRONT = (ManuscriptKind.DOCX, ManuscriptKind.ODT, ManuscriptKind.MARKDOWN)
#: How many characters are shown of a paragraph that is parted.
_SHOWN = 60


def read_document(
    data: bytes,
    kind: ManuscriptKind,
    reading: ReadingOptions = ReadingOptions(),
    name: str = "",
    check: Check = lambda: None,
) -> Manuscript:
    """The manuscript that the bytes of a document of some name are; raises `UnreadableText`.

    What the check raises ends that.
    """
    is_guess = False
    if kind in _PACKED:
        data = repacked(data)
    if kind in (ManuscriptKind.RTF, ManuscriptKind.DOC):
        return _by_office(data, kind, reading, name, check)
    if kind is ManuscriptKind.DOCX:
        return _read_docx(data, reading, check)
    if kind in (ManuscriptKind.MARKDOWN, ManuscriptKind.HTML):
        is_page = kind is ManuscriptKind.HTML
        text = characters_of_page(data) if is_page else characters_of_text(data)
        is_guess = is_page and is_guessed(data)
        data = pages.with_line_feeds(text).encode()
    if kind is ManuscriptKind.ODT:
        return _read_odt(data, reading, name, check)
    own = contents.contents_of(data, kind)
    if is_guess:
        own.note_guess(own.passages)
    return _read(data, kind, own, reading, check)


def _by_office(
    data: bytes,
    kind: ManuscriptKind,
    reading: ReadingOptions,
    name: str,
    check: Check,
) -> Manuscript:
    """A text in RTF or DOC, with the words that LibreOffice leaves out."""
    if kind is ManuscriptKind.DOC and doc_text.is_encrypted(data):
        raise NoDocument(WhyNot.ENCRYPTED)
    made = pandoc.as_docx(data, kind, name, check)
    found = replace(_read_docx(made, reading, check), kind=kind)
    # what LibreOffice leaves out is in no part of what it makes
    own = contents.contents_of(made, ManuscriptKind.DOCX)
    texts = [*own.passages, *own.edges, *(loss.words for loss in own.losses)]
    losses = found.losses
    passages: list[str] | None
    if kind is ManuscriptKind.DOC:
        passages = doc_text.passages_of(data)
        texts += doc_text.letters_of(made)
    else:
        passages = rtf_words.passages_of(data)
        if rtf_words.has_descriptions(data):
            losses = tuple(map(_described, losses))
    if passages is None:
        first = next((part.text[:_SHOWN] for part in found.parts), "")
        losses = (*losses, Loss(LossKind.UNSEEN, "", first))
    missing = contents.missing(passages or [], texts)
    return replace(found, losses=losses, missing=(*found.missing, *missing))


def _described(loss: Loss) -> Loss:
    """What is lost of a document of which LibreOffice leaves out what describes its pictures."""
    is_picture = loss.what is LossKind.PICTURE
    return replace(loss, what=LossKind.DESCRIBED) if is_picture else loss


def _read_odt(
    data: bytes, reading: ReadingOptions, name: str, check: Check
) -> Manuscript:
    """A text in ODT, by DOCX if fewer words are lost so, or if pandoc refuses it."""
    numbered, losses = with_odt_numbers(data, reading.bullet, reading.brackets)
    own = replace(contents.contents_of(numbered, ManuscriptKind.ODT), numbers=losses)
    try:
        found = _read(numbered, ManuscriptKind.ODT, own, reading, check)
    except NotConverted:
        otherwise = _by_docx(data, reading, name, check)
        if otherwise is None:
            raise
        return otherwise
    if any(_lost(found)):
        otherwise = _by_docx(data, reading, name, check)
        return min(found, otherwise or found, key=_lost)
    return found


def _read_docx(
    data: bytes, reading: ReadingOptions, check: Check, own: Contents | None = None
) -> Manuscript:
    """A document in DOCX; what the file has is that of another one, if that was made into it."""
    numbered, losses = with_numbers(data, reading.bullet)
    # its numbers are print of its paragraphs, since one may be one word with what it stands before
    found = own or contents.contents_of(numbered, ManuscriptKind.DOCX)
    found = replace(found, numbers=losses)
    return _read(numbered, ManuscriptKind.DOCX, found, reading, check)


def _by_docx(
    data: bytes, reading: ReadingOptions, name: str, check: Check
) -> Manuscript | None:
    """A document in ODT as it is read from the DOCX that LibreOffice makes of it, if it does."""
    if not pandoc.office():
        return None
    # its numbers are those that LibreOffice gives it
    own = contents.contents_of(data, ManuscriptKind.ODT)
    try:
        made = pandoc.as_docx(data, ManuscriptKind.ODT, name, check)
        found = _read_docx(made, reading, check, own)
        return replace(found, kind=ManuscriptKind.ODT)
    except UnreadableText:
        return None


def _lost(manuscript: Manuscript) -> tuple[int, int]:
    """How many words are missing, and how many numbers aren't as in print."""
    words = sum(len(each.words.split()) for each in manuscript.missing)
    kinds = [loss.what for loss in manuscript.losses]
    return words, kinds.count(LossKind.NUMBER)


def _read(
    data: bytes,
    kind: ManuscriptKind,
    own: Contents,
    reading: ReadingOptions,
    check: Check,
) -> Manuscript:
    """What pandoc reads, compared with what the file has."""
    readable, unmarked = _readable(data, kind)
    tree, left_out = pandoc.tree(readable, kind, check)
    try:
        if kind is ManuscriptKind.MARKDOWN:
            tree = without_marks(tree)
            unmarked = repeated(tree, unmarked)
        noted = with_notes(tree)
        beside = said_beside(tree) if kind is ManuscriptKind.MARKDOWN else []
        is_text = kind is ManuscriptKind.MARKDOWN
        texts = markdown_words.texts_of(tree, data.decode()) if is_text else []
    except RecursionError as fault:
        raise NoDocument(WhyNot.TOO_DEEP) from fault
    except FAULTS as fault:
        raise NotRead from fault
    found = _printed(noted, kind, reading)
    passages = _compared(own, kind)
    if kind is ManuscriptKind.MARKDOWN:
        text = data.decode()
        keys = left_out | contents.keys_in_notes(text)
        passages = [*passages, *contents.notes_of(text, keys)]
        passages += contents.addresses_of(text) + contents.rows_of(text)
    missing = contents.missing(passages, [part.text for part in found.parts])
    if kind is ManuscriptKind.MARKDOWN:
        missing += markdown_words.missing_of(data.decode(), texts, missing)
    edges = (" ".join(contents.words_of(each)) for each in own.edges)
    missing += [Missing(text, "", "") for text in (*edges, *beside) if text]
    parts = tuple(each for part in found.parts for each in short_enough(part))
    losses = (*found.losses, *own.numbers, *_too_long(found.parts), *own.losses)
    losses += tuple(unmarked)
    return Manuscript(kind, parts, losses, tuple(missing))


def _printed(noted: Node, kind: ManuscriptKind, reading: ReadingOptions) -> Document:
    """The paragraphs of a document of some kind."""
    return document(
        noted,
        reading,
        with_front=kind in _WITH_FRONT,
        # of ODT, pandoc takes those alone for titles
        has_titles_below=kind is ManuscriptKind.ODT,
    )


def _compared(own: Contents, kind: ManuscriptKind) -> list[str]:
    """The passages of a file that are looked for among the paragraphs, with each line by itself."""
    is_lined = kind in _WITH_LINES
    return contents.lines_of(own.passages) if is_lined else own.passages


def _readable(data: bytes, kind: ManuscriptKind) -> tuple[bytes, list[Loss]]:
    """A document as pandoc reads all of it, and the lines that may be notes which are repeated."""
    if kind is ManuscriptKind.EPUB:
        return pages.readable_book(data), []
    if kind is ManuscriptKind.HTML:
        return pages.readable_page(data.decode()).encode(), []
    if kind is ManuscriptKind.MARKDOWN:
        text, unmarked = with_marks(data.decode())
        text = with_plain_values(with_one_front(text))
        check_tables(text)
        return text.encode(), unmarked
    return data, []


def _too_long(parts: tuple[Part, ...]) -> list[Loss]:
    """The paragraphs that are parted, each by its first words."""
    ways = ((part.text[:_SHOWN], parting(part.text)) for part in parts)
    return [
        Loss(way, "", front.rpartition(" ")[0] or front)
        for front, way in ways
        if way is not None
    ]
