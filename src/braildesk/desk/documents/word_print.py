"""What Word shows in print that isn't text of a document in DOCX, as pandoc reads it, written as text.

These are the readings of characters, which stand above them, and the boxes of forms: older ones, which
have nothing in the text, and those of newer ones that are symbols of a font. Emphasis of which pandoc knows
nothing is written as another that it knows. It knows none of whole paragraphs either, no cells of a table of which nothing says how many columns it has, and not
that a row may begin at a later column than others.
"""

import re
from bisect import bisect_right
from collections.abc import Iterable, Iterator, Mapping, Sequence
from dataclasses import dataclass
from itertools import accumulate, pairwise
from xml.etree.ElementTree import Element
from xml.sax.saxutils import escape, quoteattr

from braildesk.desk.documents.field_codes import (
    UNSEEN,
    address_of_code,
    shown_of_code,
    unseen_fields,
)
from braildesk.desk.documents.reading import Loss, LossKind, emphases, plain, whole
from braildesk.desk.documents.table_places import Places
from braildesk.desk.documents.tree import without_scheme

_W = "{http://schemas.openxmlformats.org/wordprocessingml/2006/main}"
_W14 = "{http://schemas.microsoft.com/office/word/2010/wordml}"
_RUN, _RUBY = f"{_W}r", f"{_W}ruby"
_DESCRIPTION, _FIELD = f"{_W}tblDescription", f"{_W}fldSimple"
_TABLE, _ROW, _CELL = f"{_W}tbl", f"{_W}tr", f"{_W}tc"
_OFF = ("0", "false", "off")
#: Emphasis of which pandoc knows nothing, each with one that it knows, and what says that there is none.
_EMPHASIS = {
    "dstrike": "strike",
    "caps": "smallCaps",
    **dict.fromkeys(("em", "highlight", "bdr"), "i"),
}
_NO_EMPHASIS = (*_OFF, "none", "nil")
#: The line below words that pandoc knows, and that which is none.
_LINES = (None, "single", "none")
#: What isn't typed: what was deleted, is in a text box, or is for older programs.
GONE = (
    f"{_W}txbxContent",
    f"{_W}del",
    f"{_W}moveFrom",
    "{http://schemas.openxmlformats.org/markup-compatibility/2006}Fallback",
)
#: The boxes of forms, empty and crossed.
_EMPTY, _CROSSED = "\u2610", "\u2612"
_PROPERTIES = (f"{_W}rubyPr", f"{_W}rPr")
#: What stands in characters and their readings that can be written as text, beside their properties.
_TEXTS = frozenset(
    f"{_W}{name}"
    for name in ("r", "t", "lastRenderedPageBreak", "proofErr", "bookmarkStart")
) | {f"{_W}bookmarkEnd"}
#: What stands in a drop cap that can be written as text, and what of its letters is no matter for that.
_OF_INITIAL = {f"{_W}{name}" for name in ("pPr", "r", "rPr", "t", "proofErr")}
_LOOKS = ("color", "kern", "lang", "noProof", "position", "rFonts", "spacing")
_LOOKS_OF_INITIAL = {f"{_W}{name}" for name in (*_LOOKS, "sz", "szCs", "w")}
#: The names of the styles of headings, whose emphasis is that of headings.
_HEADING = re.compile("heading [1-9]|title$", re.IGNORECASE)
#: The style of the heads of columns, which are bold as headings are.
_TABLE_HEAD = re.compile("table heading", re.IGNORECASE)
#: The emphasis of whole paragraphs by their styles.
_BOLD = "b"
_WHOLE = ("i", _BOLD, "caps", "smallCaps")
#: What parts the words of a run.
_PARTING = tuple(f"{_W}{name}" for name in ("tab", "ptab", "br", "cr"))
#: Words that Word computes where they stand: the number of a page, and parts of a date.
_COMPUTED = (
    f"{_W}pgNum",
    *(
        f"{_W}{of}{form}"
        for of in ("day", "month", "year")
        for form in ("Long", "Short")
    ),
)
#: The most columns of a table that are written.
_WIDEST = 1_000
#: How many styles are looked at of those that one is based on.
_DEEPEST = 50
#: Fonts in which characters show symbols, which some programs write as text.
_SYMBOLIC = re.compile(
    r"Symbol|Wingdings( [23])?|Webdings|(ITC )?Zapf ?Dingbats|Monotype Sorts"
)
#: The characters that do, whose last two digits say which symbol they show.
_PLACES = re.compile("[ -\xff\uf020-\uf0ff]+")
#: The font of which pandoc knows the symbols, and those that are letters or digits, by its characters: pandoc
#: joins them with what stands beside them, as print does.
_KNOWN_FONT = "Symbol"
_LETTERS = {
    ord(first) + place: letter
    for first, letters in (
        ("0", "0123456789"),
        ("A", "ΑΒΧ"),
        ("E", "ΕΦΓΗΙϑΚΛΜΝΟΠΘΡΣΤΥςΩΞΨΖ"),
        ("a", "αβχδεφγηιϕκλμνοπθρστυϖωξψζ"),
    )
    for place, letter in enumerate(letters)
}
#: How Word names a character of such a font.
_NUMBER = re.compile("[fF0]0([0-9a-fA-F]{2})")
#: How many characters are shown of a paragraph.
_SHOWN = 60


@dataclass(frozen=True, slots=True)
class _Style:
    """A style of paragraphs: the one that it is based on, and what it says of emphasis, if it does."""

    is_heading: bool
    base: str
    said: Mapping[str, bool]


def texts_ahead(root: Element) -> dict[int, str]:
    """What stands in XML ahead of elements of a part, by their places in it; and see `replaced`."""
    found: dict[int, str] = {}
    symbols, grids = _letters(root) | _symbols(root), dict(_grids(root))
    emphasis = emphasis_ahead(root)
    lettered = dict(_lettered(root))
    initials = {id(first): text for _, first, text in _parted_initials(root)}
    for place, element in enumerate(root.iter()):
        if element.tag == _FIELD and has_no_result(element):
            found[place] = _field(element.get(f"{_W}instr", ""))
        if element.tag == _DESCRIPTION:
            # pandoc has it right after the title of the table
            value = element.get(f"{_W}val", "")
            found[place] = f"<w:tblDescription w:val={quoteattr(f' {value}')}/>"
        if id(element) in emphasis:
            found[place] = emphasis[id(element)]
        if id(element) in lettered:
            found[place] = "".join(
                _symbol(each, lettered[id(element)]) for each in element.text or ""
            )
        if id(element) in symbols:
            found[place] = _text(symbols[id(element)])
        if id(element) in grids:
            found[place] = grids[id(element)]
        if element.tag == _RUN:
            signs = "".join(map(_sign, _boxes(element)))
            if signs:
                found[place] = f"<w:r>{_text(signs)}</w:r>"
        elif element.tag == _RUBY and _is_replaced(element):
            base, reading = (_print(element, name) for name in ("rubyBase", "rt"))
            found[place] = _text(f"{base}({reading})" if reading else base)
        if id(element) in initials:
            initial = f"<w:r>{_text(initials[id(element)])}</w:r>"
            found[place] = initial + found.get(place, "")
    return found


def initials(root: Element) -> Iterator[Loss]:
    """The drop caps of which one word is made with what follows, though they may be a word of their own."""
    parted = {id(initial) for initial, _, _ in _parted_initials(root)}
    for initial, _, text, others in _initials(root):
        own, rest = text.strip(), others.strip()
        is_front = sum(map(str.isalpha, own)) < 2 and not _has_blank(text, others)
        is_joined = own[-1].isalpha() and rest[:1].isalpha()
        if id(initial) not in parted and is_joined and not is_front:
            yield Loss(LossKind.INITIAL, own, plain(f"{own}{rest}")[:_SHOWN])


def _parted_initials(root: Element) -> Iterator[tuple[Element, Element, str]]:
    """The drop caps that a blank parts from their paragraph, of which pandoc makes one word with what follows:
    each with the first element of that paragraph, and its own text.

    One that is emphasized, or hidden, isn't written anew, since that would be.
    """
    for initial, following, text, others in _initials(root):
        runs = list(initial.iterfind(_RUN))
        parts = {each.tag for run in runs for each in run}
        parts |= {each.tag for each in initial}
        looks = {each.tag for run in runs for each in run.iterfind(f"{_W}rPr/*")}
        first = next((each for each in following if each.tag != f"{_W}pPr"), None)
        is_plain = parts <= _OF_INITIAL and looks <= _LOOKS_OF_INITIAL
        if _has_blank(text, others) and first is not None and is_plain:
            yield initial, first, text


def _has_blank(text: str, others: str) -> bool:
    """Whether a blank parts a drop cap from its paragraph."""
    return text.endswith(" ") or others.startswith(" ")


def _initials(root: Element) -> Iterator[tuple[Element, Element, str, str]]:
    """The drop caps, each with the paragraph to which it belongs, and the texts of both."""
    known = {id(each) for each in root.iter(f"{_W}p") if _is_initial(each)}
    pairs = (pair for each in root.iter() if known for pair in pairwise(each))
    for initial, following in pairs:
        if id(initial) not in known or id(following) in known:
            continue
        text, others = ("".join(_own_texts(each)) for each in (initial, following))
        if following.tag == f"{_W}p" and text.strip():
            yield initial, following, text, others


def _is_initial(paragraph: Element) -> bool:
    """Whether a paragraph is the drop cap of the next one."""
    frame = paragraph.find(f"{_W}pPr/{_W}framePr")
    return frame is not None and frame.get(f"{_W}dropCap") in ("drop", "margin")


def _own_texts(element: Element) -> Iterator[str]:
    """The texts of a paragraph, without deleted ones."""
    for each in element.iter(f"{_W}t"):
        yield each.text or ""


def _field(code: str) -> str:
    """A field whose code stands in the text, of which pandoc shows nothing."""
    sign, name = UNSEEN.values()
    front, end = (f'<{sign} w:fldCharType="{kind}"/>' for kind in ("begin", "end"))
    text = f"<{name}>{escape(code)}</{name}>"
    return f"<w:r>{front}{text}{end}</w:r>" if shown_of_code(code) else ""


def has_no_result(field: Element) -> bool:
    """Whether a field that has its code as an attribute has no text."""
    return not any(each.text for each in field.iter(f"{_W}t"))


def emphasis_ahead(root: Element) -> dict[int, str]:
    """The emphasis that pandoc knows in place of other kinds, and what stands above or below the line, ahead
    of the first property of a run or of a style of characters, by the identity of that.
    """
    large = {
        id(run)
        for paragraph in root.iter(f"{_W}p")
        if paragraph.find(f"{_W}pPr/{_W}framePr[@{_W}dropCap]") is not None
        for run in paragraph.iter(_RUN)
    }
    # what is lowered is often a formula, which is a picture
    bearers = [
        run for run in root.iter(_RUN) if _has_text(run) and id(run) not in large
    ]
    bearers += root.iterfind(f"{_W}style[@{_W}type='character']")
    found: dict[int, str] = {}
    for bearer in bearers:
        properties = bearer.find(f"{_W}rPr")
        if properties is not None and (written := "".join(_known(properties))):
            found[id(properties[0])] = written
    return found


def _has_text(run: Element) -> bool:
    return any((each.text or "").strip() for each in run.iterfind(f"{_W}t"))


def _known(properties: Element) -> Iterator[str]:
    """What some properties have that pandoc doesn't know, as it does."""
    said = {each.tag.removeprefix(_W): each.get(f"{_W}val") for each in properties}
    for name, known in _EMPHASIS.items():
        if name in said and said[name] not in _NO_EMPHASIS:
            yield f"<w:{known}/>"
    if said.get("u") not in _LINES:
        yield '<w:u w:val="single"/>'
    height = whole(said.get("position"), 0)
    if height and said.get("vertAlign", "baseline") == "baseline":
        way = "superscript" if height > 0 else "subscript"
        yield f'<w:vertAlign w:val="{way}"/>'


def replaced(root: Element) -> frozenset[int]:
    """The places of elements that are left out, since a text ahead of them is all that they have."""
    symbols = {*_symbols(root), *_letters(root), *dict(_lettered(root))}
    symbols |= {id(initial) for initial, _, _ in _parted_initials(root)}
    return frozenset(
        place
        for place, element in enumerate(root.iter())
        if id(element) in symbols
        or element.tag == _DESCRIPTION
        or element.tag == _RUBY
        and _is_replaced(element)
    )


def signs(root: Element) -> Iterator[Loss]:
    """The boxes of a part, each by its sign and the first words of its paragraph."""
    # of paragraphs within others, as in text boxes, the inner ones come later
    around = {
        id(run): paragraph
        for paragraph in root.iter(f"{_W}p")
        for run in paragraph.iter(_RUN)
    }
    gone = {id(run) for tag in GONE for each in root.iter(tag) for run in each.iter()}
    symbols = _symbols(root)
    fronts = _Fronts()
    for run in root.iter(_RUN):
        if id(run) in around and id(run) not in gone:
            its = [*map(_sign, _boxes(run)), *(symbols.get(id(each)) for each in run)]
            signs = [each for each in its if each]
            words = fronts.of(around[id(run)]) if signs else ""
            yield from (Loss(LossKind.BOX, sign, words) for sign in signs)


def computed(root: Element) -> Iterator[Loss]:
    """The words of a part that Word computes where they stand, each by the first words of its paragraph."""
    gone = {id(each) for tag in GONE for part in root.iter(tag) for each in part.iter()}
    found = {id(each) for tag in _COMPUTED for each in root.iter(tag)} - gone
    fronts = _Fronts()
    for paragraph in root.iter(f"{_W}p") if found else ():
        for each in paragraph.iter():
            if id(each) in found:
                yield Loss(LossKind.COMPUTED, "", fronts.of(paragraph))
                found.remove(id(each))


def links(root: Element) -> Iterator[Loss]:
    """The words of a part that are fields which lead to other files, of which pandoc isn't shown that they do."""
    found = [(each.begin, each.address, each.shown) for each in unseen_fields(root)]
    for each in root.iter(_FIELD):
        if address := address_of_code(each.get(f"{_W}instr", "")):
            texts = (text.text or "" for text in each.iter(f"{_W}t"))
            found.append((each, address, "".join(texts)))
    parts = (part for tag in GONE if found for part in root.iter(tag))
    gone = {id(each) for part in parts for each in part.iter()}
    for begin, address, text in found:
        words = plain(text)
        is_said = words in (address, without_scheme(address))
        if address and words and not is_said and id(begin) not in gone:
            yield Loss(LossKind.LINK, words, words)


class _Fronts:
    """The first words of paragraphs, each of which is read once."""

    def __init__(self) -> None:
        self._known: dict[int, str] = {}

    def of(self, paragraph: Element) -> str:
        """The first words of a paragraph."""
        if id(paragraph) not in self._known:
            texts = (each.text or "" for each in paragraph.iter(f"{_W}t"))
            self._known[id(paragraph)] = plain("".join(texts))[:_SHOWN]
        return self._known[id(paragraph)]


def emphasized(root: Element, styles: Element) -> Iterator[Loss]:
    """The paragraphs of a part that are in italics, bold or capitals by their style, but headings and the words in them
    that are plain by themselves.
    """
    known = {
        each.get(f"{_W}styleId", ""): _style(each) for each in styles.iter(f"{_W}style")
    }
    their = {name: found for name in known if (found := _emphasis(name, known))}
    if not their:
        return
    gone = {id(each) for tag in GONE for part in root.iter(tag) for each in part.iter()}
    for paragraph in root.iter(f"{_W}p"):
        style = paragraph.find(f"{_W}pPr/{_W}pStyle")
        emphasis = None if style is None else their.get(style.get(f"{_W}val", ""))
        if emphasis and id(paragraph) not in gone:
            runs = (each for each in paragraph.iter(_RUN) if id(each) not in gone)
            yield from emphases(_texts(runs, emphasis))


def _texts(runs: Iterable[Element], emphasis: set[str]) -> Iterator[tuple[str, bool]]:
    """The texts of the runs of a paragraph, and whether each has any of its emphasis."""
    for run in runs:
        properties = run.find(f"{_W}rPr")
        said = [] if properties is None else [*properties]
        off = {each.tag for each in said if each.get(f"{_W}val") in _OFF}
        is_emphasized = any(f"{_W}{tag}" not in off for tag in emphasis)
        for each in run:
            if each.tag == f"{_W}t":
                yield each.text or "", is_emphasized
            elif each.tag in _PARTING:
                yield " ", is_emphasized


def _style(style: Element) -> _Style:
    """What a style says, whose parts are looked through once, though many may be based on it."""
    named, base = (
        "" if each is None else each.get(f"{_W}val", "")
        for each in (style.find(f"{_W}{tag}") for tag in ("name", "basedOn"))
    )
    said: dict[str, bool] = {}
    for tag in _WHOLE:
        if (own := style.find(f"{_W}rPr/{_W}{tag}")) is not None:
            said[tag] = own.get(f"{_W}val") not in _OFF
    if _TABLE_HEAD.fullmatch(named):
        said[_BOLD] = False
    return _Style(_HEADING.match(named) is not None, base, said)


def _emphasis(name: str, known: Mapping[str, _Style]) -> set[str]:
    """The emphasis of a style of paragraphs, or of the next one it is based on that says so."""
    said: dict[str, bool] = {}
    for _ in range(_DEEPEST):
        if name not in known:
            break
        if known[name].is_heading:
            return set()
        said = {**known[name].said, **said}
        name = known[name].base
    return {tag for tag, is_on in said.items() if is_on}


def _symbols(root: Element) -> dict[int, str]:
    """The signs of the newer boxes that are symbols of a font, by the identities of these."""
    found = {}
    for control in root.iter(f"{_W}sdt"):
        box = control.find(f"{_W}sdtPr/{_W14}checkbox")
        symbols = list(control.iterfind(f"{_W}sdtContent//{_W}sym"))
        if box is not None and len(symbols) == 1:
            checked = box.find(f"{_W14}checked")
            is_crossed = checked is not None and checked.get(f"{_W14}val") not in _OFF
            found[id(symbols[0])] = _CROSSED if is_crossed else _EMPTY
    return found


def _letters(root: Element) -> dict[int, str]:
    """The letters and digits that symbols of a font are, by the identities of these."""
    found = {}
    for symbol in root.iter(f"{_W}sym"):
        number = _NUMBER.fullmatch(symbol.get(f"{_W}char", ""))
        if number is None or symbol.get(f"{_W}font") != _KNOWN_FONT:
            continue
        if letter := _LETTERS.get(int(number[1], 16)):
            found[id(symbol)] = letter
    return found


def _lettered(root: Element) -> Iterator[tuple[int, str]]:
    """The fonts of texts whose characters stand for symbols, by the identities of these."""
    for run in root.iter(_RUN):
        fonts = run.find(f"{_W}rPr/{_W}rFonts")
        said = {} if fonts is None else fonts.attrib
        font = said.get(f"{_W}ascii", "")
        if _SYMBOLIC.fullmatch(font) and said.get(f"{_W}hAnsi", font) == font:
            for text in run.iterfind(f"{_W}t"):
                if _PLACES.fullmatch(text.text or ""):
                    yield id(text), font


def _symbol(character: str, font: str) -> str:
    """A character of such a font as Word writes it."""
    place = ord(character) & 0xFF
    if place == ord(" "):
        return _text(" ")
    if font == _KNOWN_FONT and place in _LETTERS:
        return _text(_LETTERS[place])
    return f'<w:sym w:font="{font}" w:char="F0{place:02X}"/>'


def _grids(root: Element) -> Iterator[tuple[int, str]]:
    """The columns of each table, by the identity of its first row: pandoc reads no cell beyond them; and
    empty cells, by that of the first cell of a row that begins at a later column than others.
    """
    places = Places()
    for table in root.iter(_TABLE):
        rows = [*_own(table, _ROW)]
        if rows:
            ends = [_ends(row) for row in rows]
            columns = min(max(its[-1] for its in ends), _WIDEST)
            grid = '<w:gridCol w:w="1"/>' * columns
            yield id(rows[0]), f"<w:tblGrid>{grid}</w:tblGrid>"
            yield from _ahead_of_rows(rows, ends, places)


def _ahead_of_rows(
    rows: Sequence[Element], ends: Sequence[Sequence[int]], places: Places
) -> Iterator[tuple[int, str]]:
    """As many empty cells ahead of a row as others have in the columns that it passes over.

    Raises `NoDocument` if there are too many of them.
    """
    most = {0: 0}
    for its in ends:
        most.update((end, max(n, most.get(end, 0))) for n, end in enumerate(its))
    columns, counts = sorted(most), [0]
    for column in columns:
        counts.append(max(counts[-1], most[column]))
    for row, (first, *_) in zip(rows, ends):
        count = counts[bisect_right(columns, first)]
        cell = next(_own(row, _CELL), None)
        if count and cell is not None:
            places.add(count)
            width = f'<w:tcPr><w:gridSpan w:val="{first - count + 1}"/></w:tcPr>'
            others = "<w:tc><w:p/></w:tc>" * (count - 1)
            yield id(cell), f"<w:tc>{width}<w:p/></w:tc>{others}"


def _ends(row: Element) -> list[int]:
    """The column before which the first cell of a row begins, and those with which its cells end."""
    before = row.find(f"{_W}trPr/{_W}gridBefore")
    first = whole(None if before is None else before.get(f"{_W}val"), 0)
    widths = map(_width, _own(row, _CELL))
    return [*accumulate(widths, initial=min(max(first, 0), _WIDEST))]


def _own(element: Element, tag: str) -> Iterator[Element]:
    """The rows of a table, or the cells of a row, without those of tables within it."""
    for child in element:
        if child.tag == tag:
            yield child
        elif child.tag not in (_TABLE, _ROW, _CELL):
            yield from _own(child, tag)


def _width(cell: Element) -> int:
    span = cell.find(f"{_W}tcPr/{_W}gridSpan")
    return max(whole(None if span is None else span.get(f"{_W}val"), 1), 1)


def _boxes(run: Element) -> Iterator[Element]:
    """The boxes of a form that begin in a run."""
    return run.iterfind(f"{_W}fldChar/{_W}ffData/{_W}checkBox")


def _sign(box: Element) -> str:
    """The sign of a box, crossed or not."""
    said = (box.find(f"{_W}{name}") for name in ("checked", "default"))
    found = next((each for each in said if each is not None), None)
    is_crossed = found is not None and found.get(f"{_W}val") not in _OFF
    return _CROSSED if is_crossed else _EMPTY


def _is_replaced(ruby: Element) -> bool:
    """Whether characters and their readings are nothing but text."""
    waiting = [each for name in ("rubyBase", "rt") for each in ruby.iterfind(_W + name)]
    while waiting:
        for child in waiting.pop():
            if child.tag in _TEXTS:
                waiting.append(child)
            elif child.tag not in _PROPERTIES:
                return False
    return True


def _print(ruby: Element, name: str) -> str:
    texts = ruby.iterfind(f"{_W}{name}//{_W}t")
    return "".join(each.text or "" for each in texts)


def _text(text: str) -> str:
    return f'<w:t xml:space="preserve">{escape(text)}</w:t>'
