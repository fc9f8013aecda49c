"""The words that the file of a document has, whatever a program makes of it.

They are read from the container itself, so that what a converter leaves out without a sign is seen.
"""

import re
import unicodedata
import zipfile
from collections import Counter, deque
from collections.abc import (
    Callable,
    Collection,
    Iterable,
    Iterator,
    Mapping,
    Sequence,
)
from contextlib import suppress
from dataclasses import dataclass, field
from functools import partial
from itertools import groupby, islice
from pathlib import PurePosixPath
from xml.etree.ElementTree import Element, ParseError

from braildesk.desk.documents import styles_of_odt, word_print, word_styles
from braildesk.desk.documents.field_codes import CODES, SIGNS, shown_of_code
from braildesk.desk.documents.kinds import (
    ManuscriptKind,
    NoDocument,
    WhyNot,
    part_of,
    root_of,
    unpacked,
)
from braildesk.desk.documents.markdown_notes import AHEAD, BEFORE_NOTE
from braildesk.desk.documents.markdown_tables import doubtful_rows
from braildesk.desk.documents.markup import (
    BLOCKS,
    PARTED,
    Tags,
    characters_of_page,
    description,
    field_words,
    is_guessed,
    words_beside,
)
from braildesk.desk.documents.notes import leads_back
from braildesk.desk.documents.package import Package
from braildesk.desk.documents.page_emphasis import Emphasized, PageEmphasis
from braildesk.desk.documents.quotations import QUOTATION
from braildesk.desk.documents.reading import Loss, LossKind, Missing, plain, whole
from braildesk.desk.documents.sheets import (
    Effort,
    PageElement,
    Rules,
    Sheet,
    Sheets,
    beside,
    imports_of,
    own_values,
    rules_of,
)
from braildesk.desk.documents.tree import words_around
from braildesk.desk.manuscript import UnreadableText

#: How many characters are shown of a table of contents, of a page, or of an item of a list.
_SHOWN = 60
_WORD = re.compile(r"\w+(?:[’'\u2010\u2011-]\w+)*")
_OTHER_LETTER = re.compile(r"[^\x00-\x7f\s]")
_NUMBERED = re.compile(r"([^_]*[^\W\d_])(\d{1,4})")
#: The numbers of lists that pandoc knows, by what a list says of its type; and those of style sheets.
_TYPES = {
    "1": "decimal",
    "a": "lower-alpha",
    "A": "upper-alpha",
    "i": "lower-roman",
    "I": "upper-roman",
}
_IS_NUMBER = re.compile("decimal.*|.*-(alpha|latin|roman|greek)")
#: Classes that many programs give to lists whose numbers are plain.
_PLAIN_CLASSES = frozenset("arabic decimal itemized ordered orderedlist simple".split())
#: Elements that end where another begins in place of them, if nothing else ends them.
_ENDED_BY: dict[str, tuple[str, ...]] = {
    **dict.fromkeys(("td", "th"), ("td", "th")),
    **dict.fromkeys(("dt", "dd"), ("dt", "dd")),
    **{tag: (tag,) for tag in ("p", "option")},
    "tr": ("tr", "td", "th"),
}
#: Headings and the heads of columns, which are bold as such.
_HEADS = ("th", "h1", "h2", "h3", "h4", "h5", "h6")
#: What is shown as it is written.
_AS_WRITTEN = ("pre", "code", "samp", "var")
_FOR_PRINT = re.compile(r"\b(all|print)\b", re.IGNORECASE)
#: In how many pieces of a text on either side of a place the words are looked for that run together there.
_BESIDE = 8
#: How a style shows what stands on lines of its own.
_APART = frozenset(
    "block flex flow-root grid list-item table table-cell table-row".split()
)
#: In how many places a passage is looked for, of which each word may stand nearly everywhere.
_MOST_TRIED = 1_000
#: How many words before and after missing ones are shown.
_NEIGHBOURS = 4

_W = "{http://schemas.openxmlformats.org/wordprocessingml/2006/main}"
_A = "{http://schemas.openxmlformats.org/drawingml/2006/main}"
_C = "{http://schemas.openxmlformats.org/drawingml/2006/chart}"
_R = "{http://schemas.openxmlformats.org/officeDocument/2006/relationships}"
_V = "{urn:schemas-microsoft-com:vml}"
#: What has names in a chart, beside its texts.
_CHART_NAMES = tuple(
    f"{_C}{name}" for name in ("tx", "strCache", "multiLvlStrCache", "strLit")
)
#: The elements of a drawing that have words beside their text, and the names by which they do.
_DESCRIPTIONS = {
    "{http://schemas.openxmlformats.org/drawingml/2006/wordprocessingDrawing}docPr": (
        "title",
        "descr",
    ),
    **dict.fromkeys((f"{_V}shape", f"{_V}rect", f"{_V}oval", f"{_V}group"), ("alt",)),
    f"{_V}textpath": ("string",),
}
_OFF = ("0", "false", "off")
#: What parts words: the number of a note is typed where it stands; and what ends a line.
_PARTING = ("tab", "ptab", "footnoteReference", "endnoteReference")
_LINE_ENDS = ("br", "cr")
_FALLBACK, _CHOICE = (
    f"{{http://schemas.openxmlformats.org/markup-compatibility/2006}}{name}"
    for name in ("Fallback", "Choice")
)
_TEXT = "{urn:oasis:names:tc:opendocument:xmlns:text:1.0}"
_OFFICE = "{urn:oasis:names:tc:opendocument:xmlns:office:1.0}"
_SVG = "{urn:oasis:names:tc:opendocument:xmlns:svg-compatible:1.0}"
_DOCX_TEXTS = re.compile(r"word/(document|footnotes|endnotes)\d*\.xml")
_DOCX_EDGES = re.compile(r"word/(header|footer)\d*\.xml")
_DOCX_DRAWINGS = re.compile(r"word/(charts/chart|diagrams/data)\d*\.xml")
_DOCX_COMMENTS, _DOCX_STYLES = "word/comments.xml", "word/styles.xml"
_EMBEDDED = re.compile(
    r"word/(embeddings|afchunk)[^/]*(/.+|\..+)|word/.*\.(mht|altchunk)"
)
_DELETED = (f"{_W}del", f"{_W}moveFrom")
_ODT_PARTING = tuple(f"{_TEXT}{name}" for name in ("s", "tab", "note-citation"))
_ODT_LINE_END = f"{_TEXT}line-break"
_ODT_DESCRIPTIONS = tuple(f"{_SVG}{name}" for name in ("title", "desc"))
#: What isn't one word with what stands before and after it: readings of characters, and what pictures have.
_ODT_APART = (
    *(f"{_TEXT}ruby-{name}" for name in ("base", "text")),
    *_ODT_DESCRIPTIONS,
)
_ODT_DELETED = f"{_TEXT}deletion"
#: Words that are shown where something holds, else an attribute alone has them.
_ODT_HIDDEN = f"{_TEXT}hidden-text"
_ANNOTATION = f"{_OFFICE}annotation"
_NUMBER = re.compile(r"[\W\d_]*")
#: The key of a note in Markdown and its first line, and what of a text there is no print: where links
#: lead, and marks of emphasis and of code.
_NOTE = re.compile(r"[ >]*\[\^([^]\s]+)\]:(.*)")
_MARKUP = re.compile(
    # neither is looked for again from within itself
    r"\]\((?:[^])\s]|\](?!\())*+\)|(?<!\w)_++|(?<!_)_++(?!\w)|[*`\\]"
)
#: What leads to a note, by its key.
_LEADING = re.compile(r"\[\^([^][\s]+)\]")

#: The key of a link in Markdown with what stands where its address does, after what lists have before it; and
#: an address with its title.
_KEY = re.compile(rf"({AHEAD})\[(?!\^)([^][]+)\]:(.*)")
_ADDRESS = re.compile(
    # blanks are taken all at once: of many, each number would be tried of each row of them
    r"""\s*+(?:<[^<>]*>|\S*)(?:\s++(?:"[^"]*"|'[^']*'|\([^()]*\)))?(?:\s*+\{[^{}]*\})?\s*+"""
)
_IN_BRACKETS = re.compile(r"\[([^][]+)\]")
#: What stands in a passage where a link to another part begins or ends: it may be the number of a note, which
#: is parted from the word before it, or some letters of a word.
_SEAM = "\ue0f2"


@dataclass
class Contents:
    """The paragraphs of a document as its file has them, and what no paragraph gets of it."""

    passages: list[str] = field(default_factory=list)
    #: What stands at the edges of its pages, which no paragraph has.
    edges: list[str] = field(default_factory=list)
    losses: list[Loss] = field(default_factory=list)
    #: The numbers of lists and headings that aren't typed as they are in print.
    numbers: list[Loss] = field(default_factory=list)
    #: The parts of the style sheets that aren't read.
    _unread: set[str] = field(default_factory=set)

    def lose(self, what: LossKind, words: str) -> None:
        """Notes words, if there are any."""
        if shown := plain(words.replace("\n", " ")):
            self.losses.append(Loss(what, shown, shown))

    def note_page(self, page: "_Html", part: str = "") -> None:
        """Notes the numbers of a page that is typed which aren't so in print, and the sheets that weren't read."""
        self.note_numbers(page.numbers)
        for words in page.joined:
            self.lose(LossKind.JOINED, words)
        for words in page.hidden:
            self.lose(LossKind.HIDDEN, words)
        self.losses += page.emphasized
        for words in page.restyled:
            self.numbers.append(Loss(LossKind.LIST, words, words))
        self.note_numbers(page.counted)
        for words in page.unsure:
            self.numbers.append(Loss(LossKind.SHEET, words, words))
        self.note_unread({beside(part, each): each for each in page.unread})
        if page.has_more_rules:
            first = _first(page.passages)
            self.losses.append(Loss(LossKind.RULES, first, first))

    def note_guess(self, passages: Sequence[str]) -> None:
        """Notes that the encoding of a page is guessed, by the first words that may be others, if there are any."""
        for text in (each.replace(_SEAM, "") for each in passages):
            if found := _OTHER_LETTER.search(text):
                around = words_around(text, found.start(), found.end())
                self.losses.append(Loss(LossKind.GUESSED, around, around))
                return

    def note_unread(self, sheets: Mapping[str, str]) -> None:
        """Notes the addresses of style sheets that weren't read, by their parts, each once."""
        for sheet, address in sheets.items():
            if sheet not in self._unread:
                self._unread.add(sheet)
                self.lose(LossKind.STYLES, address[:_SHOWN])

    def note_numbers(self, numbers: Iterable[str]) -> None:
        """Notes numbers that aren't typed as they are in print."""
        self.numbers += [Loss(LossKind.NUMBER, each, each) for each in numbers]

    def add_edge(self, passage: str) -> None:
        """Adds what stands at the edge of pages, unless it is no more than their number."""
        if not _NUMBER.fullmatch(passage):
            self.edges.append(passage)


def contents_of(data: bytes, kind: ManuscriptKind) -> Contents:
    """What the file of a document has, a page in UTF-8; nothing for the kinds that are text."""
    found = Contents()
    if kind is ManuscriptKind.HTML:
        # it is alone, without the sheets to which it links
        page = _page_of(data.decode(), lambda address: None, Effort())
        found.passages += page.passages
        found.note_page(page)
    if kind in _READERS:
        with unpacked(data) as container:
            _READERS[kind](container, found)
    return found


def lines_of(passages: Iterable[str]) -> list[str]:
    """The lines of some passages, of which each that ends by hand is a paragraph of a book."""
    return [line for passage in passages for line in passage.split("\n")]


def notes_of(text: str, keys: Collection[str]) -> list[str]:
    """The notes of some keys that a text in Markdown has, wherever their numbers are."""
    found: list[str] = []
    is_in = is_after_blank = False
    for line in text.split("\n"):
        begun = _NOTE.match(line)
        if begun:
            is_in = begun[1] in keys
            found += [begun[2]] if is_in else []
        elif is_in and is_after_blank and line.strip():
            # the paragraphs of a note after its first one are indented
            is_in = line.startswith(("    ", "\t"))
        if is_in and not begun:
            found[-1] += f" {line}"
        is_after_blank = not line.strip()
    return [_MARKUP.sub(" ", each) for each in found]


def keys_in_notes(text: str) -> set[str]:
    """The keys of notes to which other notes of a text in Markdown lead: pandoc leaves those out, if
    nothing else leads there, without a word."""
    keys = {begun[1] for begun in map(_NOTE.match, text.split("\n")) if begun}
    return {key for note in notes_of(text, keys) for key in _LEADING.findall(note)}


def addresses_of(text: str) -> list[str]:
    """What a text in Markdown has where the address of a link stands, if it is no address or no link
    leads there: pandoc leaves that out without a word."""
    keys: list[tuple[str, str]] = []
    is_front = True
    for line in text.split("\n"):
        key = _KEY.match(line)
        if key and (is_front or key[1].strip(" \t>")):
            keys.append((key[2], key[3]))
            is_front = True
        else:
            is_front = BEFORE_NOTE.fullmatch(line) is not None
    uses = Counter(map(_folded, _IN_BRACKETS.findall(text)))
    uses.subtract(_folded(key) for key, _ in keys)
    unused = [f"{key} {words}" for key, words in keys if uses[_folded(key)] <= 0]
    others = [
        words
        for key, words in keys
        if uses[_folded(key)] > 0 and not _ADDRESS.fullmatch(words)
    ]
    return [_MARKUP.sub(" ", each) for each in (*unused, *others)]


def rows_of(text: str) -> list[str]:
    """The rows of tables in a text in Markdown that pandoc may leave cells out of, or whose words it may part."""
    return [_MARKUP.sub(" ", row) for row in doubtful_rows(text)]


def _folded(key: str) -> str:
    """A key as it is compared: a line may end within it."""
    return " ".join(key.split()).casefold()


def missing(passages: Iterable[str], texts: Iterable[str]) -> list[Missing]:
    """The words of the passages of a file that the texts that were made of it don't have.

    A passage that stands whole in what is left of the texts is there, and that part is used up. Of the
    others, runs of words are used up so, and what is left then is compared word by word.
    """
    left = Counter(tuple(words_of(text)) for text in texts)
    others = []
    for passage in passages:
        forms = _forms(passage)
        words = next((each for each in forms if left[each] > 0), None)
        if words is None:
            others.append(forms)
        else:
            left[words] -= 1
    rest = _Rest(left)
    unseen = [forms for forms in others if not any(map(rest.take, forms))]
    there = rest.counts()
    likest = [_likest(forms, there) for forms in unseen]
    taken = _taken_in_runs(likest, rest)
    there = rest.counts()
    return [
        found
        for words, places in zip(likest, taken)
        for found in _missing(words, places, there)
    ]


def _forms(passage: str) -> list[tuple[str, ...]]:
    """The words of a passage, and those that it has if its links are parted from words."""
    forms = [tuple(words_of(passage.replace(_SEAM, "")))]
    return [*forms, tuple(words_of(passage))] if _SEAM in passage else forms


def _likest(forms: Iterable[Sequence[str]], there: Counter[str]) -> list[str]:
    """The words of a passage in that form of which the fewest aren't there."""
    parted = [_parted(words, there) for words in forms]
    return min(parted, key=lambda words: sum(there[word] <= 0 for word in words))


class _Rest:
    """The words of some texts, one text after another, of which parts are used up."""

    def __init__(self, texts: Counter[tuple[str, ...]]) -> None:
        #: None parts the texts, and stands where a word is used up.
        self.words: list[str | None] = []
        for words in texts.elements():
            self.words += (*words, None)
        # two words together stand in far fewer places than one
        self._places: dict[tuple[str | None, ...], deque[int]] = {}
        for place in range(len(self.words)):
            for count in (1, 2):
                pair = tuple(self.words[place : place + count])
                self._places.setdefault(pair, deque()).append(place)

    def counts(self) -> Counter[str]:
        """How often each word is left."""
        return Counter(word for word in self.words if word is not None)

    def take(self, words: Sequence[str]) -> bool:
        """Uses up words that stand there one after another, if they do."""
        if not words:
            return True
        offset, places = self._rarest(words)
        wanted = list(words)
        for place in islice(places, _MOST_TRIED):
            front = place - offset
            if front >= 0 and self.words[front : front + len(words)] == wanted:
                self.words[front : front + len(words)] = [None] * len(words)
                return True
        return False

    def _rarest(self, words: Sequence[str]) -> tuple[int, Collection[int]]:
        """The place among some words of the pair that stands in the fewest places, and these."""
        found: tuple[int, deque[int]] | None = None
        for offset in range(max(len(words) - 1, 1)):
            places = self._places.get(tuple(words[offset : offset + 2]), deque())
            # what was used up is mostly at the front
            while places and self.words[places[0]] is None:
                places.popleft()
            if found is None or len(places) < len(found[1]):
                found = offset, places
            if not places:
                break
        assert found is not None
        return found


def _parted(words: Iterable[str], there: Counter[str]) -> list[str]:
    """Some words, of which those that aren't there are parted from the number of a note after them, if they are then."""
    parted: list[str] = []
    for word in words:
        found = None if there[word] else _NUMBERED.fullmatch(word)
        parted += found.groups() if found and there[found[1]] > 0 else [word]
    return parted


def _taken_in_runs(passages: Sequence[Sequence[str]], rest: _Rest) -> list[set[int]]:
    """The places in each passage of the runs of words that stand in the rest, of which the longest are used up first.

    Else a passage that is missing would take words from another, which would be said to lack them.
    """
    there = rest.counts()
    runs: list[tuple[int, int, int]] = []
    for number, words in enumerate(passages):
        for is_there, run in groupby(range(len(words)), lambda n: there[words[n]] > 0):
            first, *others = run
            if is_there:
                runs.append((number, first, first + 1 + len(others)))
    taken: list[set[int]] = [set() for _ in passages]
    for number, start, stop in sorted(runs, key=lambda run: run[1] - run[2]):
        if rest.take(passages[number][start:stop]):
            taken[number].update(range(start, stop))
    return taken


def _missing(
    words: Sequence[str], taken: Collection[int], there: Counter[str]
) -> Iterator[Missing]:
    """The runs of words that aren't there any more, each of which is taken away once, but for those at some places."""
    start = 0
    while start < len(words):
        stop = start
        while stop < len(words) and stop not in taken and there[words[stop]] <= 0:
            stop += 1
        if stop > start:
            yield Missing(
                " ".join(words[start:stop]),
                " ".join(words[max(start - _NEIGHBOURS, 0) : start]),
                " ".join(words[stop : stop + _NEIGHBOURS]),
            )
        if stop < len(words) and stop not in taken:
            there[words[stop]] -= 1
        start = stop + 1


def words_of(text: str) -> list[str]:
    """The words of a text as they are compared."""
    return _WORD.findall(plain(unicodedata.normalize("NFC", text)))


def _root(container: zipfile.ZipFile, name: str) -> Element:
    return root_of(part_of(container, name))


def _of_docx(container: zipfile.ZipFile, found: Contents) -> None:
    hidden = frozenset(word_styles.hiding(_styles(container)))
    for name in container.namelist():
        if _DOCX_TEXTS.fullmatch(name):
            root = _root(container, name)
            found.passages += _paragraphs(root)
            found.passages += _drawn(root)
            found.passages += filter(None, map(shown_of_code, _codes(root)))
            _set_aside(root, hidden, found)
            found.losses += map(partial(Loss, LossKind.PICTURE, ""), _linked(root))
            for file in _other_files(container, name, root):
                found.lose(LossKind.OTHER_FILE, file)
        elif _DOCX_EDGES.fullmatch(name):
            root = _root(container, name)
            for passage in (*_paragraphs(root), *_drawn(root)):
                found.add_edge(passage)
        elif _DOCX_DRAWINGS.fullmatch(name):
            root = _root(container, name)
            found.passages += _drawn(root)
            found.passages += _named_in_chart(root)
        elif name == _DOCX_COMMENTS:
            for comment in _root(container, name).iter(f"{_W}comment"):
                found.lose(LossKind.COMMENT, "\n".join(_paragraphs(comment)))
        elif _EMBEDDED.fullmatch(name):
            found.lose(LossKind.EMBEDDED, PurePosixPath(name).name)


def _styles(container: zipfile.ZipFile) -> Element:
    """The styles of a document; none if they can't be read, which keeps nobody from reading the rest."""
    with suppress(KeyError, ParseError):
        return _root(container, _DOCX_STYLES)
    return Element("")


def _other_files(container: zipfile.ZipFile, part: str, root: Element) -> Iterator[str]:
    """The other files whose documents belong in a part, by their addresses or by what the part calls them."""
    named = [each.get(f"{_R}id", "") for each in root.iter(f"{_W}subDoc")]
    folder, _, name = part.rpartition("/")
    addresses: dict[str, str] = {}
    if named:
        with suppress(KeyError, ParseError):
            relations = _root(container, f"{folder}/_rels/{name}.rels")
            addresses = {
                each.get("Id", ""): each.get("Target", "") for each in relations
            }
    yield from (addresses.get(each, each) for each in named)


def _set_aside(root: Element, hidden: Collection[str], found: Contents) -> None:
    """Notes the print that a part of a document, or styles by their names, hide, and that which was deleted."""
    rows = list(word_styles.hidden_rows(root))
    for row in rows:
        found.lose(LossKind.HIDDEN, "\n".join(_paragraphs(row)))
    within = {id(run) for row in rows for run in row.iter(f"{_W}r")}
    for run in word_styles.hidden_runs(root, hidden):
        if id(run) not in within:
            found.lose(LossKind.HIDDEN, "".join(_runs(run, [])))
    found.losses += word_print.computed(root)
    for tag in _DELETED:
        for each in root.iter(tag):
            texts = (*each.iter(f"{_W}delText"), *each.iter(f"{_W}t"))
            found.lose(LossKind.DELETED, "".join(text.text or "" for text in texts))


def _linked(root: Element) -> Iterator[str]:
    """The words at each picture that another file has and nothing describes, of which pandoc says nothing."""
    gone = (_FALLBACK, *_DELETED)
    seen = {id(each) for tag in gone for part in root.iter(tag) for each in part.iter()}
    words = ""
    for paragraph in root.iter(f"{_W}p"):
        text = "".join(each.text or "" for each in paragraph.iter(f"{_W}t"))
        words = plain(text)[:_SHOWN] or words
        for drawing in paragraph.iter(f"{_W}drawing"):
            pictures = list(drawing.iter(f"{_A}blip"))
            is_linked = any(f"{_R}link" in each.attrib for each in pictures)
            is_linked &= not any(f"{_R}embed" in each.attrib for each in pictures)
            if is_linked and id(drawing) not in seen and not _is_described(drawing):
                yield words
            seen.add(id(drawing))


def _is_described(drawing: Element) -> bool:
    return any(map(_descriptions, drawing.iter()))


def _descriptions(element: Element) -> str:
    """The words that an element of a drawing has beside its text, each once."""
    its = (element.get(name, "") for name in _DESCRIPTIONS.get(element.tag, ()))
    return " ".join(dict.fromkeys(filter(str.strip, its)))


def _paragraphs(element: Element) -> Iterator[str]:
    """The paragraphs below an element; those of a text box stand for themselves."""
    initial = ""
    children = [element] if element.tag == f"{_W}p" else list(element)
    has_newer = element.find(_CHOICE) is not None
    for child in children:
        if child.tag == _FALLBACK and has_newer:
            continue
        if child.tag != f"{_W}p":
            yield from _paragraphs(child)
            continue
        inner: list[Element] = []
        text = initial + "".join(_runs(child, inner))
        initial = text if _is_drop_cap(child) else ""
        if text.strip() and not initial:
            yield text
        for box in inner:
            yield from _paragraphs(box)
    if initial.strip():
        # pandoc waits for what comes after it, and may leave it out
        yield initial


def _codes(root: Element) -> Iterator[str]:
    """The codes of the fields of a part that have no results, without the fields in them."""
    #: The fields that are open: their codes, none of those that have results, and which of these have begun.
    codes: list[list[str] | None] = []
    begun: list[bool] = []
    for element in root.iter():
        if element.tag in SIGNS:
            kind = element.get(f"{_W}fldCharType")
            if kind == "begin":
                codes.append([])
                begun.append(False)
            elif codes and kind == "separate":
                begun[-1] = True
            elif codes and kind == "end":
                begun.pop()
                yield "".join(codes.pop() or ())
        elif element.tag == f"{_W}fldSimple":
            if word_print.has_no_result(element):
                yield element.get(f"{_W}instr", "")
        elif element.tag in CODES:
            if codes and (code := codes[-1]) is not None:
                code.append(element.text or "")
        elif element.tag == f"{_W}t" and element.text:
            for nth in reversed(range(len(codes))):
                # a text in a result is one in those around it too, up to a code
                if codes[nth] is None or nth + 1 < len(codes) and not begun[nth]:
                    break
                codes[nth] = None


def _drawn(root: Element) -> Iterator[str]:
    """The texts of drawings that are no text boxes, as those of a chart or of a canvas that is locked."""
    for each in root.iter(f"{_A}p"):
        text = "".join(run.text or "" for run in each.iter(f"{_A}t"))
        if text.strip():
            yield text


def _named_in_chart(root: Element) -> Iterator[str]:
    """The names of the series of a chart and of what they count, each once: all series have the same."""
    names = (
        each.text or ""
        for tag in _CHART_NAMES
        for part in root.iter(tag)
        for each in part.iter(f"{_C}v")
    )
    yield from dict.fromkeys(filter(str.strip, names))


def _is_drop_cap(paragraph: Element) -> bool:
    """Whether a paragraph is the large first letter of the next one."""
    frame = paragraph.find(f"{_W}pPr/{_W}framePr")
    return frame is not None and frame.get(f"{_W}dropCap") in ("drop", "margin")


def _runs(element: Element, inner: list[Element]) -> Iterator[str]:
    """The print of a paragraph, without deleted text; what stands in text boxes is set aside."""
    has_newer = element.find(_CHOICE) is not None
    for child in element:
        tag = child.tag.removeprefix(_W)
        if child.tag == _FALLBACK and has_newer or child.tag in _DELETED:
            continue
        if tag == "t":
            yield child.text or ""
        elif tag in _PARTING:
            yield " "
        elif tag in _LINE_ENDS:
            yield "\n"
        elif tag == "ddList":
            yield _chosen(child)
        elif tag == "noBreakHyphen":
            yield "\u2011"
        elif tag == "sym":
            font, number = child.get(f"{_W}font", ""), child.get(f"{_W}char")
            # this font has characters for its symbols, which pandoc knows
            yield " " if font == "Symbol" else f" {font.replace(' ', '')}_{number} "
        elif tag == "txbxContent":
            inner.append(child)
        elif tag in ("rt", "rubyBase"):
            yield f" {''.join(_runs(child, inner))} "
        elif tag != "pPr":
            if described := _descriptions(child):
                yield f" {described} "
            yield from _runs(child, inner)


def _chosen(choices: Element) -> str:
    """What is chosen of a list in a form."""
    its = [each.get(f"{_W}val", "") for each in choices.iter(f"{_W}listEntry")]
    chosen = choices.find(f"{_W}result")
    number = 0 if chosen is None else whole(chosen.get(f"{_W}val"), 0)
    return f" {its[number]} " if 0 <= number < len(its) else ""


def _of_odt(container: zipfile.ZipFile, found: Contents) -> None:
    names = frozenset(container.namelist())
    root = _root(container, "content.xml")
    for body in root.iter(f"{_OFFICE}body"):
        found.passages += _odt_paragraphs(body)
    for deletion in root.iter(_ODT_DELETED):
        found.lose(LossKind.DELETED, "\n".join(_odt_paragraphs(deletion)))
    for annotation in root.iter(_ANNOTATION):
        found.lose(
            LossKind.COMMENT, "\n".join(_odt_paragraphs(annotation, is_whole=True))
        )
    styles = _root(container, "styles.xml") if "styles.xml" in names else Element("")
    hidden = frozenset(styles_of_odt.hiding(styles, root))
    for tag in ("span", "p", "h"):
        for each in root.iter(f"{_TEXT}{tag}"):
            if each.get(f"{_TEXT}style-name") in hidden:
                found.lose(LossKind.HIDDEN, "".join(_odt_runs(each, [])))
    for edges in styles.iter(f"{_OFFICE}master-styles"):
        for passage in _odt_paragraphs(edges):
            found.add_edge(passage)


def _odt_paragraphs(element: Element, is_whole: bool = False) -> Iterator[str]:
    if not is_whole and element.tag in (f"{_TEXT}tracked-changes", _ANNOTATION):
        return
    if element.tag in (f"{_TEXT}p", f"{_TEXT}h"):
        inner: list[Element] = []
        text = "".join(_odt_runs(element, inner))
        if text.strip():
            yield text
        for each in inner:
            yield from _odt_paragraphs(each)
        return
    for child in element:
        if child.tag == f"{_TEXT}span":
            yield "".join(_odt_runs(child, []))
        elif child.tag in _ODT_DESCRIPTIONS:
            yield child.text or ""
        else:
            yield from _odt_paragraphs(child)
        # no program shows what stands between paragraphs
        if child.tail and child.tail.strip():
            yield child.tail


def _odt_runs(element: Element, inner: list[Element]) -> Iterator[str]:
    yield element.text or ""
    for child in element:
        if child.tag in (f"{_TEXT}note-body", f"{_TEXT}p", f"{_TEXT}h"):
            inner.append(child)
        elif child.tag in _ODT_PARTING or _is_number_again(child):
            yield " "
        elif child.tag == _ODT_LINE_END:
            yield "\n"
        elif child.tag not in (_ANNOTATION, f"{_OFFICE}binary-data"):
            if child.tag == _ODT_HIDDEN and not child.text:
                yield f" {child.get(f'{_TEXT}string-value', '')} "
            around = " " if child.tag in _ODT_APART else ""
            yield around
            yield from _odt_runs(child, inner)
            yield around
        yield child.tail or ""


def _is_number_again(element: Element) -> bool:
    """Whether an element is a further number of a note, which is typed as that of the note is."""
    form = element.get(f"{_TEXT}reference-format", "text")
    return element.tag == f"{_TEXT}note-ref" and form == "text"


def _of_epub(container: zipfile.ZipFile, found: Contents) -> None:
    """The pages of a book, those at the end to which no order of reading leads."""
    package = Package(container)
    names = frozenset(container.namelist())

    def text_of(sheet: str) -> str | None:
        is_there = sheet in names
        return part_of(container, sheet).decode(errors="replace") if is_there else None

    effort = Effort()
    sheets = Sheets(text_of, effort)
    for part in package.absent:
        found.lose(LossKind.ABSENT, part)
    for page in package.pages():
        try:
            text = characters_of_page(data := part_of(container, page.part))
        except UnreadableText:
            found.lose(LossKind.UNREAD, page.part)
            continue
        read = _page_of(text, partial(sheets.linked, page.part), effort)
        if page.part in package.repeated:
            found.lose(LossKind.REPEATED, _first(read.passages) or page.part)
        found.passages += read.passages
        if page.is_list and not page.is_in_order:
            found.lose(LossKind.CONTENTS, _first(read.lists))
            continue
        found.passages += read.lists
        found.note_page(read, page.part)
        if is_guessed(data):
            found.note_guess(read.passages)
        if not page.is_in_order:
            found.lose(LossKind.ASIDE, _first(read.passages))
    found.note_unread(sheets.absent)


def _first(texts: Sequence[str]) -> str:
    return " ".join(" ".join(texts).replace(_SEAM, "").split())[:_SHOWN]


_READERS = {
    ManuscriptKind.DOCX: _of_docx,
    ManuscriptKind.ODT: _of_odt,
    ManuscriptKind.EPUB: _of_epub,
}


@dataclass
class _List:
    """A list on a page: where it begins, if it has numbers and that is said, and its items."""

    is_numbered: bool
    start: int | None
    is_reversed: bool
    #: What pandoc has before each item, and what is so in print unless an item says otherwise.
    typed: str
    shown: str
    own: list[int | None] = field(default_factory=list)
    #: The number of the text with which the first item begins that has another mark in print.
    restyled: int | None = None
    #: The number of the text with which it begins if a sheet that isn't read may say what its numbers are.
    unsure: int | None = None

    def note(self, shown: str, text: int) -> None:
        """Notes the mark of an item, with the number of the text with which it begins."""
        if not self.is_numbered:
            # the shape of a bullet is that of the book
            is_same = not _IS_NUMBER.fullmatch(shown) and shown != "none"
        else:
            is_same = shown == self.typed
        if not is_same and self.restyled is None:
            self.restyled = text

    def otherwise(self) -> Iterator[str]:
        """The numbers that pandoc counts otherwise, which knows only where a list begins."""
        first = shown = 1 if self.start is None else self.start
        if self.is_reversed and self.start is None:
            shown = len(self.own)
        for typed, own in enumerate(self.own, first):
            shown = shown if own is None else own
            if shown != typed:
                yield str(shown)
            shown += -1 if self.is_reversed else 1


class _Html(Tags):
    """The text of a page, parted where a block begins or ends."""

    # a formula is typed in another language, which is said of each
    _SILENT = frozenset({"script", "style", "title", "template", "math"})
    _LISTS = frozenset({"toc", "landmarks", "page-list"})
    #: What may stand within others of its kind, and how deep: nothing shows more, and pandoc would take
    #: minutes, or lose them.
    _NESTING = frozenset("article blockquote div dl ol section ul".split())
    _DEEPEST = 1_000
    _VOID = frozenset(
        "area base br col embed hr img input link meta param source track wbr".split()
    )

    def __init__(self, linked: Callable[[str], Rules | None], effort: Effort) -> None:
        super().__init__()
        self._linked = linked
        #: The addresses of the sheets for print that weren't read, each once.
        self.unread: dict[str, None] = {}
        #: The numbers of the texts before which a sheet counts.
        self._counted: list[int] = []
        self._sheet = Sheet(effort)
        #: Whether the sheet of the page itself that was begun last is for print.
        self._is_for_print = True
        #: The elements that are open.
        self._path: list[PageElement] = []
        #: How many of them have each tag.
        self._tags: Counter[str] = Counter()
        #: The pieces of each text, and of each of the lists by which a program finds the pages.
        self._texts: list[list[str]] = [[]]
        self._lists: list[list[str]] = [[]]
        self._found: list[_List] = []
        #: The lists that are open.
        self._open_lists: list[_List] = []
        self._silent = 0
        self._in_list = False
        #: Whether the reading of characters is open, and has something: "", "begun" or "read".
        self._reading = ""
        #: The first words of each element that isn't shown; and of that which is open, how many are open around it,
        #: and its first text and piece.
        self.hidden: list[str] = []
        self._unshown: tuple[int, int, int] | None = None
        #: How many elements are open around each that stands on lines of its own by its style alone; and before which
        #: piece of which text such a one begins or ends.
        self._apart: list[int] = []
        self._emphasis = PageEmphasis()
        self._seams: list[tuple[int, int]] = []
        #: The element that leads back from a note, and how many of its name are open in it.
        self._back, self._open = "", 0

    @property
    def passages(self) -> list[str]:
        """The texts that have print."""
        return [text for text in map("".join, self._texts) if text.strip()]

    @property
    def lists(self) -> list[str]:
        """The texts of the lists by which a program finds the pages."""
        return ["".join(pieces) for pieces in self._lists]

    @property
    def numbers(self) -> list[str]:
        """The numbers of items that aren't typed as a page shows them."""
        numbered = (each for each in self._found if each.is_numbered)
        return [number for each in numbered for number in each.otherwise()]

    @property
    def restyled(self) -> Iterator[str]:
        """The first words of each list that has other marks in print than those that are typed."""
        yield from self._firsts(each.restyled for each in self._found)

    @property
    def joined(self) -> Iterator[str]:
        """The words that run together at each place where a style alone parts them."""
        for text, place in dict.fromkeys(self._seams):
            front, pieces = max(place - _BESIDE, 0), self._texts[text]
            before = "".join(pieces[front:place]).replace(_SEAM, "")
            after = "".join(pieces[place : place + _BESIDE]).replace(_SEAM, "")
            if before[-1:].strip() and after[:1].strip():
                yield before.split()[-1] + after.split()[0]

    @property
    def counted(self) -> Iterator[str]:
        """The first words of what has a number in print that a sheet counts."""
        return self._firsts(self._counted)

    @property
    def unsure(self) -> Iterator[str]:
        """The first words of each list whose numbers a sheet may change that wasn't read."""
        if self.unread:
            lists = (each for each in self._found if each.restyled is None)
            yield from self._firsts(each.unsure for each in lists)

    @property
    def emphasized(self) -> Iterator[Loss]:
        """What its sheets alone emphasize, raise or lower."""
        return self._emphasis.losses(self._texts, _SEAM)

    @property
    def has_more_rules(self) -> bool:
        """Whether its sheets have more rules than were read, or tried for all of its elements."""
        return self._sheet.is_cut

    def _firsts(self, places: Iterable[int | None]) -> Iterator[str]:
        """The first words from each place on that there is."""
        known = [place for place in places if place is not None]
        if known:
            texts, lists = _first_words(self._texts), _first_words(self._lists)
            yield from (texts[place] or lists[place] for place in known)

    def handle_starttag(self, tag: str, attrs: list[tuple[str, str | None]]) -> None:
        self._silent += tag in self._SILENT
        types = (dict(attrs).get("epub:type") or "").split()
        if tag == "nav" and not self._LISTS.isdisjoint(types):
            self._in_list = True
        self._enter(tag, dict(attrs))
        if tag not in self._VOID and self._sheet.is_counted(self._path):
            self._counted.append(len(self._texts) - (tag not in BLOCKS))
        self._count(tag, dict(attrs))
        self._open += tag == self._back
        if not self._back and tag in ("a", "span") and _is_back(dict(attrs)):
            self._back, self._open = tag, 1
        self._describe(tag, attrs)
        self._part(tag)
        if words := self.group_words(tag, dict(attrs)):
            self._add(f"{words} ")
        if tag == "a" and "#" in (dict(attrs).get("href") or ""):
            self._add(_SEAM)
        elif tag == QUOTATION:
            # its marks part words
            self._add("\u201c")
        if tag in ("rt", "rp", "rb", "rtc"):
            self._end_reading()
            is_within = tag == "rt" and self._tags["ruby"] > 0
            self._reading = "begun" if is_within else ""

    def handle_startendtag(self, tag: str, attrs: list[tuple[str, str | None]]) -> None:
        # an element that ends at once has nothing to be silent about
        self._link(tag, dict(attrs))
        self._describe(tag, attrs)
        self._part(tag)

    def handle_endtag(self, tag: str) -> None:
        self._silent = max(self._silent - (tag in self._SILENT), 0)
        self._in_list = self._in_list and tag != "nav"
        if tag in ("ol", "ul") and self._open_lists:
            self._open_lists.pop()
        self._leave(tag)
        self._open -= tag == self._back
        if not self._open:
            self._back = ""
        self._part(tag)
        if tag == "a":
            self._add(_SEAM)
        elif tag == QUOTATION:
            self._add("\u201d")
        if tag in ("rt", "ruby"):
            self._end_reading()

    def handle_data(self, data: str) -> None:
        if self._path and self._path[-1].tag == "style" and self._is_for_print:
            for address in imports_of(data):
                self._add_sheet(address, "all")
            self._sheet.add(rules_of(data))
        if self._reading == "begun" and data.strip() and self._is_print:
            # it is parted from the characters by a bracket
            self._add(" ")
            self._reading = "read"
        self._add(data)

    @property
    def _is_as_written(self) -> bool:
        """Whether words are open of which pandoc knows no tags."""
        return any(self._tags[tag] for tag in _AS_WRITTEN)

    @property
    def _is_print(self) -> bool:
        return not self._silent and not self._back

    def _add(self, text: str) -> None:
        """Adds to the text that is open, if it is print."""
        if self._is_print:
            (self._lists if self._in_list else self._texts)[-1].append(text)

    def _enter(self, tag: str, attributes: dict[str, str | None]) -> None:
        """Notes an element that is open from here on, or that links to a sheet."""
        self._link(tag, attributes)
        if tag == "li" and self._tags["li"]:
            # an item ends where the next one of its list begins
            lists = (each.tag for each in reversed(self._path))
            if next((tag for tag in lists if tag in ("li", "ol", "ul")), "") == "li":
                self._leave("li")
        elif self._path and (last := self._path[-1].tag) in _ENDED_BY.get(tag, ()):
            self._leave(last)
        if tag in _HEADS:
            self._emphasis.note_heading(len(self._texts))
        if tag == "style":
            media = attributes.get("media") or "all"
            self._is_for_print = _FOR_PRINT.search(media) is not None
        if tag not in self._VOID:
            classes = frozenset((attributes.get("class") or "").split())
            self._path.append(PageElement(tag, attributes.get("id") or "", classes))
            self._look_at(tag, attributes)
            self._tags[tag] += 1
            if tag in self._NESTING and self._tags[tag] > self._DEEPEST:
                raise NoDocument(WhyNot.TOO_DEEP)

    def _look_at(self, tag: str, attributes: Mapping[str, str | None]) -> None:
        """Notes of an element that it isn't shown, or stands on lines of its own by its style alone."""
        own = attributes.get("style") or ""
        shown = self._sheet.shown_of(self._path, own)
        display = shown.get("display", "")
        text = len(self._texts) - 1
        if shown or self._is_as_written:
            self._note_emphasis(tag, attributes, shown)
        is_closed = tag == "dialog" and "open" not in attributes
        is_hidden = "hidden" in attributes or display == "none" or is_closed
        if self._unshown is None and is_hidden:
            self._unshown = len(self._path) - 1, text, len(self._texts[text])
        elif display in _APART and tag not in BLOCKS | PARTED:
            self._apart.append(len(self._path) - 1)
            self._seams.append((text, len(self._texts[text])))

    def _note_emphasis(
        self, tag: str, attributes: Mapping[str, str | None], shown: Mapping[str, str]
    ) -> None:
        """Notes of an element how it is shown."""
        classes = (attributes.get("class") or "").split()
        own = frozenset((*classes, *own_values(attributes.get("style") or "")))
        is_in_link = tag == "a" or self._tags["a"] > 0
        is_in_head = any(self._tags[head] for head in _HEADS)
        address = attributes.get("href") if tag == "a" else None
        its = is_in_link, is_in_head, self._is_as_written, address
        element = Emphasized(tag, shown, own, *its)
        self._emphasis.begin(element, len(self._path) - 1, self._texts, _SEAM)

    def _leave(self, tag: str) -> None:
        left = None if self._tags[tag] else tag
        while left != tag:
            left = self._path.pop().tag
            self._tags[left] -= 1
        while self._apart and len(self._path) <= self._apart[-1]:
            self._apart.pop()
            self._seams.append((len(self._texts) - 1, len(self._texts[-1])))
        self._emphasis.end(len(self._path), self._texts, _SEAM)
        if self._unshown and len(self._path) <= self._unshown[0]:
            _, text, piece = self._unshown
            self._unshown = None
            its = (self._texts[text][piece:], *self._texts[text + 1 :])
            joined = " ".join(map("".join, its)).replace(_SEAM, "")
            if words := plain(joined.replace("\n", " ")):
                self.hidden.append(words[:_SHOWN])

    def _link(self, tag: str, attributes: dict[str, str | None]) -> None:
        said = (attributes.get("rel") or "").lower().split()
        if tag == "link" and "stylesheet" in said and "alternate" not in said:
            address, media = attributes.get("href"), attributes.get("media")
            self._add_sheet(address or "", media or "all")

    def _add_sheet(self, address: str, media: str) -> None:
        """Adds the rules of a sheet for some media, if it is for print and is read."""
        if not _FOR_PRINT.search(media):
            return
        rules = self._linked(address)
        if rules is None and address:
            self.unread[address] = None
        if rules is not None:
            self._sheet.link(rules)

    def _count(self, tag: str, attributes: dict[str, str | None]) -> None:
        """Notes a list, or an item of the list that is open."""
        if tag not in ("ol", "ul", "li"):
            return
        said = self._sheet.mark_of(self._path, attributes.get("style") or "")
        if tag == "li":
            if self._open_lists:
                its = self._open_lists[-1]
                its.own.append(whole(attributes.get("value"), None))
                its.note(said or its.shown, len(self._texts))
            return
        is_numbered = tag == "ol"
        own = _TYPES.get(attributes.get("type") or "", "decimal")
        start = whole(attributes.get("start"), None)
        found = _List(
            is_numbered,
            start,
            "reversed" in attributes,
            _typed(attributes) or own,
            said or (own if is_numbered else "disc"),
        )
        if is_numbered and said is None and _is_styled(attributes):
            found.unsure = len(self._texts)
        self._found.append(found)
        self._open_lists.append(found)

    def _describe(self, tag: str, attrs: list[tuple[str, str | None]]) -> None:
        """Takes the description of a picture, and what is in a field of a form, for print."""
        its = dict(attrs)
        if tag == "img":
            words = description(its)
            is_shown = any(map(its.get, ("src", "srcset", "data-src")))
            if is_shown and not words and self._is_as_written and self._is_print:
                self._emphasis.note_picture(self._texts)
            self.handle_data(f" {words} ")
        elif words := field_words(tag, its) or words_beside(tag, its):
            self.handle_data(f" {words} ")

    def _end_reading(self) -> None:
        """Parts the reading of characters from what is after it, if there is one."""
        is_read, self._reading = self._reading == "read", ""
        if is_read:
            self.handle_data(" ")

    def _part(self, tag: str) -> None:
        if tag in BLOCKS:
            self._texts.append([])
            self._lists.append(["\n"])
            self._back, self._open = "", 0
        elif tag in PARTED:
            self._add(" ")


def _first_words(texts: Sequence[Sequence[str]]) -> list[str]:
    """The first words from each of some texts on, and none after the last one."""
    found = [""]
    for pieces in reversed(texts):
        words = plain("".join(pieces).replace(_SEAM, ""))[:_SHOWN]
        found.append(words or found[-1])
    return found[::-1]


def _is_back(attributes: dict[str, str | None]) -> bool:
    """Whether an element leads from a note back to its number, so that its text is no print."""
    said = (attributes.get(name) or "" for name in ("class", "role", "epub:type"))
    return leads_back(" ".join(said).split())


def _is_styled(attributes: dict[str, str | None]) -> bool:
    """Whether the numbers of a list may be said by a sheet: it has a name or a class that isn't usual."""
    classes = (attributes.get("class") or "").split()
    is_named = bool(attributes.get("id") or set(classes) - _PLAIN_CLASSES)
    return is_named and not attributes.get("type")


def _typed(attributes: dict[str, str | None]) -> str:
    """The numbers that pandoc takes from an attribute of a list, if it does."""
    if _TYPES.get(attributes.get("type") or ""):
        return ""
    # it takes a class of that name too, and looks no further where there is another one
    said = attributes.get("class")
    if said is None:
        own = (attributes.get("style") or "").split(";")
        values = {name.strip(): value.strip() for name, _, value in map(_halves, own)}
        said = values.get("list-style-type", values.get("list-style", ""))
    return said if said in _TYPES.values() else ""


def _halves(declaration: str) -> tuple[str, str, str]:
    return declaration.partition(":")


def _page_of(text: str, linked: Callable[[str], Rules | None], effort: Effort) -> _Html:
    page = _Html(linked, effort)
    page.feed(text)
    page.close()
    return page
