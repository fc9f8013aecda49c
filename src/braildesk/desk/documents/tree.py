"""The paragraphs of a document, from the tree that pandoc makes of it.

Each heading, paragraph, item of a list, line of a poem and row of a table is a paragraph. What the
print of a book can't hold is noted, each time with the words around it.
"""

import re
from collections import Counter
from collections.abc import Iterable, Iterator, Mapping, Sequence
from dataclasses import dataclass, field, replace
from typing import Any

from braildesk.desk.documents.kinds import NoDocument, NotRead, WhyNot
from braildesk.desk.documents.options import ReadingOptions
from braildesk.desk.documents.raw_html import RawHtml, RawTag
from braildesk.desk.documents.reading import Loss, LossKind, Part, plain
from braildesk.text.sequences import composed

#: A node of pandoc's tree: a dictionary with its kind as ``t`` and its contents as ``c``.
Node = dict[str, Any]

#: A node that pandoc's trees don't have: the number, as a text, of a note that isn't in the document.
UNKNOWN_NOTE = "UnknownNote"

#: How many characters before and after what is lost are shown at most.
_AROUND = 30
#: Where a line ends.
_LINE_END = re.compile("[\n\x85\u2028\u2029]")
#: What pandoc writes before the title of a picture that stands alone.
_OF_FIGURE = "fig:"
#: What pandoc takes out of the text of a document as something said about it.
_FRONT = ("title", "subtitle", "author", "date", "abstract")


@dataclass(frozen=True, slots=True)
class Document:
    """The paragraphs of a tree, and what of it they don't have."""

    parts: tuple[Part, ...]
    losses: tuple[Loss, ...]


#: What comes of a tree of another form.
FAULTS = (
    AttributeError,
    KeyError,
    IndexError,
    TypeError,
    ValueError,
)


def document(
    tree: Node,
    reading: ReadingOptions = ReadingOptions(),
    *,
    with_front: bool = False,
    has_titles_below: bool = False,
) -> Document:
    """The paragraphs of a tree; with its title and those who wrote it if these are print too.

    The titles of its tables may stand below them. Raises ``UnreadableText``.
    """
    reader = _Reader(reading, has_titles_below)
    try:
        if with_front:
            reader.front(tree["meta"])
        reader.blocks(tree["blocks"])
        reader.put_notes()
    except RecursionError as fault:
        raise NoDocument(WhyNot.TOO_DEEP) from fault
    except FAULTS as fault:
        raise NotRead from fault
    return Document(tuple(reader.parts), tuple(reader.losses))


def said_beside(tree: Node) -> list[str]:
    """What is said about a document that is no print of it; raises what `FAULTS` has."""
    reader = _Reader(ReadingOptions(), has_titles_below=False)
    reader.rest(tree["meta"])
    return [part.text for part in reader.parts]


@dataclass
class _Line:
    """A text while it is written, with the places of what can't be in it, and its notes."""

    pieces: list[str] = field(default_factory=list)
    length: int = 0
    spans: list[tuple[LossKind, int, int]] = field(default_factory=list)
    notes: list[tuple[str, list[Node]]] = field(default_factory=list)
    #: The tags of HTML that are open, each with its place.
    opened: list[tuple[str, int]] = field(default_factory=list)

    def add(self, text: str) -> None:
        self.pieces.append(text)
        self.length += len(text)

    def lose(self, what: LossKind, since: int) -> None:
        self.spans.append((what, since, self.length))

    def end_tags(self) -> None:
        """Ends the tags that are open with the text, if there is text after them."""
        for name, since in self.opened:
            if since < self.length:
                self.lose(_LOST_WITHIN[name], since)

    @property
    def text(self) -> str:
        return "".join(self.pieces)

    def losses(self) -> Iterator[Loss]:
        text = self.text
        for what, start, stop in self.spans:
            yield Loss(what, plain(text[start:stop]), words_around(text, start, stop))


class _Reader:
    """What reads the blocks of a tree, one after another."""

    def __init__(self, reading: ReadingOptions, has_titles_below: bool) -> None:
        self._reading = reading
        self._has_titles_below = has_titles_below
        self._count = 0
        self._waiting: list[tuple[str, list[Node]]] = []
        #: The numbers of notes to which more than one place may lead, by their names.
        self._numbers: dict[str, str] = {}
        #: How many elements of HTML with each name have begun and not ended.
        self._open: Counter[str] = Counter()
        #: The paragraph before those of a cell or a note.
        self._before = ""
        self.parts: list[Part] = []
        self.losses: list[Loss] = []

    def front(self, meta: dict[str, Node]) -> None:
        """Reads what is said about a document, whose title is a heading."""
        for name in _FRONT:
            if name in meta:
                self._said(meta[name])
        self.put_notes()
        self.parts = [replace(part, is_front=True) for part in self.parts]
        if "title" in meta and self.parts:
            self.parts[0] = replace(self.parts[0], level=0)

    def rest(self, meta: dict[str, Node]) -> None:
        """Reads what else is said about a document, but its language and how it is written."""
        for name in meta:
            if name not in (*_FRONT, "lang", "dir"):
                self._said(meta[name])

    def _said(self, node: Node) -> None:
        content: Any = node["c"]
        match node["t"]:
            case "MetaInlines":
                self._paragraph(content)
            case "MetaBlocks":
                self.blocks(content)
            case "MetaList" | "MetaMap" as kind:
                for each in content if kind == "MetaList" else content.values():
                    self._said(each)
            case "MetaString":
                self._lines(content)

    def blocks(self, nodes: Sequence[Node], before: str = "") -> None:
        """Reads blocks; what comes before them stands in their first paragraph, or alone if there is none."""
        for node in nodes:
            count = len(self.parts)
            self._block(node, before)
            if len(self.parts) > count:
                before = ""
        self._put(before)

    def put_notes(self) -> None:
        """Puts the notes that wait as paragraphs, in the order of their numbers, and then those of them."""
        while self._waiting:
            waiting, self._waiting = self._waiting, []
            for number, nodes in waiting:
                text = " ".join(self._texts_of(nodes))
                self._put(self._bracketed(f"{number}: {text}" if text else number))

    def _bracketed(self, text: str) -> str:
        brackets = self._reading.brackets
        return f"{brackets[0]}{text}{brackets[1]}"

    def _block(self, node: Node, before: str) -> None:
        content: Any = node.get("c")
        match node["t"]:
            case "Para" | "Plain":
                self._paragraph(content, before)
            case "LineBlock":
                for number, line in enumerate(content):
                    self._paragraph(line, "" if number else before)
            case "CodeBlock":
                self._lines(content[1], before)
            case "Header":
                self._heading(content[0], content[2], before)
            case "BlockQuote":
                self.blocks(content, before)
            case "Div":
                self.blocks(content[1], before)
            case "OrderedList" | "BulletList" | "DefinitionList" as kind:
                self._list(kind, content, before)
            case "Table":
                self._table(content, before)
            case "Figure":
                self.blocks(content[2], before)
                self.blocks(content[1][1])
            case "RawBlock":
                self._raw_block(content, before)
            case "HorizontalRule" | "Null":
                pass
            case _:
                raise NotRead

    def _list(self, kind: str, content: Any, before: str) -> None:
        match kind:
            case "OrderedList":
                for number, item in enumerate(content[1], start=content[0][0]):
                    self.blocks(item, before + _numbered(number, content[0]))
                    before = ""
            case "BulletList":
                for item in content:
                    self.blocks(item, f"{before}{self._reading.bullet} ")
                    before = ""
            case _:
                for term, definitions in content:
                    self._paragraph(term, before)
                    before = ""
                    for definition in definitions:
                        self.blocks(definition)

    def _heading(self, level: int, nodes: Sequence[Node], before: str) -> None:
        self.put_notes()
        line = self._line(nodes, before)
        self._take(line, level)
        words = plain(_LINE_END.sub(" ", line.text))
        if level > 1 and words:
            self.losses.append(Loss(LossKind.LEVEL, words, words))

    def _paragraph(self, nodes: Sequence[Node], before: str = "") -> None:
        self._take(self._line(nodes, before))

    def _take(self, line: _Line, level: int | None = None) -> None:
        """Puts what was written: of a heading as one paragraph, else one for each of its lines."""
        before = self._last
        line.end_tags()
        for loss in line.losses():
            # a picture that stands alone is found by the words before it
            around = loss.around or words_around(before, len(before), len(before))
            self.losses.append(replace(loss, around=around))
        text = line.text if level is None else _LINE_END.sub(" ", line.text)
        self._lines(text, level=level)
        self._waiting.extend(line.notes)
        if not self._reading.notes_at_end:
            self.put_notes()

    @property
    def _last(self) -> str:
        """The newest paragraph, by which is found what has no words itself."""
        return self.parts[-1].text if self.parts else self._before

    def _lines(self, text: str, before: str = "", level: int | None = None) -> None:
        for line in _LINE_END.split(text):
            self._put(before + line, level)
            before = ""

    def _put(self, text: str, level: int | None = None) -> None:
        text = composed(plain(text))
        if text:
            self.parts.append(Part(text, level))

    def _table(self, content: Sequence[Any], before: str) -> None:
        """Puts a paragraph for each row, and its title before or after them."""
        _, (_, title), _, (_, head), bodies, (_, foot) = content
        if title and not self._has_titles_below:
            self.blocks(title, before)
            before = ""
        texts: list[str] = []
        # a cell goes on no further than the part of the table in which it begins
        for rows in (head, *(rows for body in bodies for rows in body[2:]), foot):
            texts += self._rows(rows)
        for text in filter(None, texts):
            self._put(before + text)
            before = ""
        if self._has_titles_below:
            self.blocks(title)
        if not self._reading.notes_at_end:
            self.put_notes()
        if first := next((text for text in texts if text), ""):
            self.losses.append(Loss(LossKind.TABLE, first, first))

    def _rows(self, rows: Sequence[Any]) -> Iterator[str]:
        """The text of each row, in which a cell that goes on from the rows above has an empty place."""
        # how many rows more the cell at a column has, and of how many columns it is
        going_on: dict[int, tuple[int, int]] = {}
        for row in rows:
            cells: list[str] = []
            column = 0
            for _, _, height, width, content in row[1]:
                column = _passed(going_on, column, cells)
                text = " ".join(self._texts_of(content)) if content else ""
                cells.append(text)
                if height > 1:
                    going_on[column] = (height, width)
                    self.losses += [Loss(LossKind.SPAN, text, text)] if text else []
                column += width
            _passed(going_on, column, cells)
            going_on = {
                n: (left - 1, width)
                for n, (left, width) in going_on.items()
                if left > 1
            }
            yield "; ".join(cells) if any(cells) else ""

    def _texts_of(self, nodes: Sequence[Node]) -> list[str]:
        """The paragraphs of some blocks, which aren't put; what they lose and their notes are kept."""
        inner = _Reader(
            replace(self._reading, notes_at_end=True), self._has_titles_below
        )
        inner._count = self._count
        inner._numbers = self._numbers
        inner._open = self._open
        inner._before = self._last
        inner.blocks(nodes)
        self._count = inner._count
        self.losses += inner.losses
        self._waiting += inner._waiting
        return [part.text for part in inner.parts]

    def _raw_block(self, content: Sequence[str], before: str) -> None:
        """Puts what stands between other blocks, after what comes before it if it has print."""
        line = _Line()
        line.add(before)
        self._raw(content, line)
        has_print = plain(_LINE_END.sub(" ", line.text)) != plain(before)
        self._take(line if has_print else _Line(spans=line.spans))

    def _raw(self, content: Sequence[str], line: _Line) -> None:
        """Notes text in the language of another program; a page break, as in DOCX, is nothing."""
        words = plain(content[1].replace("\n", " "))
        found = RawHtml(content[1]) if content[0] == "html" else None
        if found is not None:
            for tag in found.tags:
                self._tag(tag, line)
        is_lone = found is not None and self._ends_alone(found.tags)
        is_left_out = found is None or found.is_left_out or is_lone
        if content[0] != "openxml" and words and is_left_out:
            self.losses.append(Loss(LossKind.RAW, words, words))

    def _ends_alone(self, tags: Iterable[RawTag]) -> bool:
        """Whether some of the tags, which are counted, are ends of what hasn't begun."""
        is_lone = False
        for tag in tags:
            # the end of a line is one also where it is written as that of an element
            is_lone |= tag.is_end and tag.name != "br" and not self._open[tag.name]
            self._open[tag.name] += -1 if tag.is_end else 1
            self._open[tag.name] = max(self._open[tag.name], 0)
        return is_lone

    def _tag(self, tag: RawTag, line: _Line) -> None:
        """Writes what a tag of HTML is for: the end of a line, a picture, or a form of print that is lost."""
        if tag.name == "br":
            line.add("\n")
        elif tag.name == "img":
            its = tag.attributes
            self._described(its.get("alt", its.get("title")) or "", line)
        elif tag.name in _LOST_WITHIN and not tag.is_end:
            line.opened.append((tag.name, line.length))
        elif line.opened and line.opened[-1][0] == tag.name:
            _, since = line.opened.pop()
            line.lose(_LOST_WITHIN[tag.name], since)

    def _line(self, nodes: Sequence[Node], before: str = "") -> _Line:
        line = _Line()
        line.add(before)
        self._inlines(nodes, line)
        return line

    def _inlines(self, nodes: Iterable[Node], line: _Line) -> None:
        for node in nodes:
            self._inline(node, line)

    def _inline(self, node: Node, line: _Line) -> None:
        content: Any = node.get("c")
        since = line.length
        match node["t"]:
            case "Str":
                line.add(content)
            case "Space" | "SoftBreak":
                line.add(" ")
            case "LineBreak":
                line.add("\n")
            case "Quoted":
                front, end = _QUOTES[content[0]["t"]]
                line.add(front)
                self._inlines(content[1], line)
                line.add(end)
            case "Cite" | "Span":
                self._inlines(content[1], line)
            case "Code" | "Math":
                line.add(content[1])
            case "RawInline":
                self._raw(content, line)
            case "Link":
                self._link(content, line)
            case "Image":
                self._picture(content, line)
            case "Note":
                self._note(node, line)
            case kind if kind == UNKNOWN_NOTE:
                line.add(self._bracketed(content))
            case kind if kind in _LOST_AROUND:
                self._inlines(content, line)
            case _:
                raise NotRead
        if lost := _LOST_AROUND.get(node["t"]):
            line.lose(lost, since)

    def _note(self, node: Node, line: _Line) -> None:
        """Writes the number of a note, its own or the next one; the note is put the first time."""
        number, name = node.get("label"), node.get("of")
        known = self._numbers.get(name) if name else None
        if not number and not known:
            self._count += 1
        number = number or known or f"{self._count}"
        line.add(self._bracketed(number))
        if known is None:
            line.notes.append((number, node["c"]))
        if name:
            self._numbers.setdefault(name, number)

    def _link(self, content: Sequence[Any], line: _Line) -> None:
        since, count = line.length, len(line.pieces)
        self._inlines(content[1], line)
        target = content[2][0]
        # of a line with many links not all is joined at each of them
        shown = "".join(line.pieces[count:])
        if not target.startswith("#") and shown not in (
            target,
            without_scheme(target),
        ):
            line.lose(LossKind.LINK, since)

    def _picture(self, content: Sequence[Any], line: _Line) -> None:
        title = content[2][1].removeprefix(_OF_FIGURE)
        self._described(self._line(content[1]).text.strip() or title, line)

    def _described(self, description: str, line: _Line) -> None:
        """Writes the description of a picture in brackets, or notes that there is none."""
        words = plain(description.replace("\n", " "))
        if words:
            line.add(self._bracketed(words))
        else:
            line.lose(LossKind.PICTURE, line.length)


#: What is lost of inline nodes whose text stays.
_LOST_AROUND = {
    "Emph": LossKind.EMPHASIS,
    "Strong": LossKind.EMPHASIS,
    "Underline": LossKind.EMPHASIS,
    "Strikeout": LossKind.EMPHASIS,
    "SmallCaps": LossKind.EMPHASIS,
    "Subscript": LossKind.SUBSCRIPT,
    "Superscript": LossKind.SUPERSCRIPT,
    "Math": LossKind.MATHEMATICS,
    UNKNOWN_NOTE: LossKind.NOTE,
}
#: What is lost of what stands between tags of HTML.
_LOST_WITHIN = {
    **dict.fromkeys(
        ("b", "del", "em", "i", "ins", "s", "small", "strong", "strike", "u"),
        LossKind.EMPHASIS,
    ),
    "sub": LossKind.SUBSCRIPT,
    "sup": LossKind.SUPERSCRIPT,
}
_QUOTES = {"SingleQuote": ("\u2018", "\u2019"), "DoubleQuote": ("\u201c", "\u201d")}


def _passed(
    going_on: Mapping[int, tuple[int, int]], column: int, cells: list[str]
) -> int:
    """The column after those of cells that go on from the rows above, each with an empty place."""
    while column in going_on:
        cells.append("")
        column += going_on[column][1]
    return column


def words_around(text: str, start: int, stop: int) -> str:
    """The words around a place of a text, whole words of at most so many characters on each side."""
    before = text[max(start - _AROUND - 1, 0) : start]
    after = text[stop : stop + _AROUND + 1]
    if len(before) > _AROUND:
        before = before[-_AROUND:].partition(" ")[2]
    if len(after) > _AROUND:
        after = after[:_AROUND].rpartition(" ")[0]
    return plain(f"{before}{text[start:stop]}{after}".replace("\n", " "))


def without_scheme(target: str) -> str:
    """The address to which a link leads as it is mostly written in print."""
    return re.sub(r"^(mailto:|https?://)", "", target).rstrip("/")


def _numbered(number: int, attributes: Sequence[Any]) -> str:
    """The number of an item as it stands in print."""
    _, style, delimiter = attributes
    match style["t"]:
        case "LowerAlpha" | "UpperAlpha" if number > 0:
            shown = letters(number)
        case "LowerRoman" | "UpperRoman" if 0 < number <= _MOST_ROMAN:
            shown = roman(number)
        case _:
            # pages show what isn't written so in digits
            shown = str(number)
    if style["t"].startswith("Lower"):
        shown = shown.lower()
    match delimiter["t"]:
        case "OneParen":
            return f"{shown}) "
        case "TwoParens":
            return f"({shown}) "
    return f"{shown}. "


def letters(number: int) -> str:
    """A number by letters, of which AA and AB come after Z."""
    shown = ""
    while number > 0:
        number, place = divmod(number - 1, 26)
        shown = chr(ord("A") + place) + shown
    return shown


#: The greatest number that is written on pages as Rome wrote it.
_MOST_ROMAN = 3_999
_ROMAN = (
    (1000, "M"), (900, "CM"), (500, "D"), (400, "CD"), (100, "C"), (90, "XC"), (50, "L"),
    (40, "XL"), (10, "X"), (9, "IX"), (5, "V"), (4, "IV"), (1, "I"),
)  # fmt: skip


def roman(number: int) -> str:
    """A number as Rome wrote it."""
    shown = ""
    for value, letters in _ROMAN:
        count, number = divmod(number, value)
        shown += letters * count
    return shown
