"""The numbers and bullets that Word shows before paragraphs, written into those of a document in DOCX.

Word keeps them apart from the print: a paragraph or its style names a list and a level of it, and each level
has a form, such as “§ %1 (%2)”. pandoc knows few of these forms, and drops the numbers of headings.
"""

import re
from collections.abc import Callable, Iterator, Mapping, Sequence
from dataclasses import dataclass, field
from io import BytesIO
from xml.etree.ElementTree import Element, ParseError
from xml.sax.saxutils import escape
from zipfile import ZipFile

from braildesk.desk.documents import word_print
from braildesk.desk.documents.field_codes import UNSEEN, unseen_places
from braildesk.desk.documents.kinds import is_media, part_of, root_of, unpacked
from braildesk.desk.documents.reading import Loss, LossKind, plain, whole
from braildesk.desk.documents.tree import roman
from braildesk.desk.documents.word_notes import notes_again
from braildesk.desk.documents.xml_writing import Rewriting, rewritten, transitional

_W = "{http://schemas.openxmlformats.org/wordprocessingml/2006/main}"
_MC = "{http://schemas.openxmlformats.org/markup-compatibility/2006}"
_FALLBACK = f"{_MC}Fallback"
_MATH = "{http://schemas.openxmlformats.org/officeDocument/2006/math}"
_OOXML, _DRAWING = "http://schemas.openxmlformats.org", "drawingml/2006"
#: The prefixes by which pandoc knows elements and attributes, whichever a document has.
_PREFIXES = {
    _W[1:-1]: "w",
    _MC[1:-1]: "mc",
    _MATH[1:-1]: "m",
    f"{_OOXML}/officeDocument/2006/relationships": "r",
    f"{_OOXML}/{_DRAWING}/main": "a",
    f"{_OOXML}/{_DRAWING}/chart": "c",
    f"{_OOXML}/{_DRAWING}/diagram": "dgm",
    f"{_OOXML}/{_DRAWING}/picture": "pic",
    f"{_OOXML}/{_DRAWING}/wordprocessingDrawing": "wp",
    "urn:schemas-microsoft-com:vml": "v",
}
#: What stands around print, and where pandoc leaves that out.
_AROUND = frozenset(
    {f"{_W}{name}" for name in ("fldSimple", "customXml", "smartTag", "ins", "moveTo")}
    | {f"{_W}{name}" for name in ("bdo", "dir", "sdt", "sdtContent")}
    | {f"{_MC}AlternateContent", f"{_MC}Choice", _FALLBACK, f"{_MATH}oMathPara"}
)
#: What of a run is in print, unless it is within the code of a field.
_PRINT = frozenset(
    f"{_W}{name}"
    for name in ("t", "tab", "ptab", "br", "cr", "sym", "noBreakHyphen", "softHyphen")
)
#: What pandoc passes over, as if it parted no words.
_RENAMED = {f"{_W}cr": "w:br", f"{_W}ptab": "w:tab"}
_NUMBERING, _STYLES = "word/numbering.xml", "word/styles.xml"
_TEXTS = re.compile(r"word/(document|footnotes|endnotes)\d*\.xml")
#: Where the form of a level has the number of a level, from 1 on.
_PLACE = re.compile("%([1-9])")
_BULLET = "bullet"
#: The first number of a form that Word's later versions have: digits with so many zeros before them.
_PADDED = re.compile("(0*)1(?:,.*)?")
#: The greatest number of a list in Word, and the longest form of a number.
_MOST, _FORM = 32_767, 255
#: How many styles are based on each other at most, also where the last one is based on the first.
BASES = 100
#: What a paragraph has whose end is deleted or moved away.
_GONE = ("del", "moveFrom")
_OFF = ("0", "false", "off")
#: How many characters are shown of a paragraph whose number isn't written as it is in print.
_SHOWN = 60


def _letters(number: int) -> str:
    """A number as Word counts by letters: after Z come AA and BB, and A again after thirty Z; 0 has none."""
    times, place = divmod(number - 1, 26)
    return chr(ord("A") + place) * (times % 30 + 1) if number else ""


_FORMS: Mapping[str, Callable[[int], str]] = {
    "none": lambda number: "",
    "decimal": str,
    "decimalZero": "{:02}".format,
    "upperRoman": roman,
    "lowerRoman": lambda number: roman(number).lower(),
    "upperLetter": _letters,
    "lowerLetter": lambda number: _letters(number).lower(),
}


def with_numbers(data: bytes, bullet: str) -> tuple[bytes, list[Loss]]:
    """A document without lists, whose paragraphs begin with their numbers; and those not as in print,
    the signs of boxes, and the notes to which several numbers lead.

    Its texts have nothing around or in them of which pandoc knows nothing. It has no pictures any more,
    which aren't looked at. One whose lists can't be read, or whose tags aren't Word's, is left as it is.
    Raises `NoDocument`.
    """
    made = BytesIO()
    with unpacked(data) as container, ZipFile(made, "w") as other:
        parts = {
            name: b"" if is_media(name) else transitional(part_of(container, name))
            for name in container.namelist()
        }
        numbering = parts.pop(_NUMBERING, None)
        try:
            styles = root_of(parts.get(_STYLES) or b"<none/>")
            lists = _Lists(numbering or b"<none/>", styles, bullet)
        except ParseError:
            return data, []
        losses: list[Loss] = []
        roots: list[Element] = []
        for name, part in parts.items():
            if _TEXTS.fullmatch(name):
                root = root_of(part)
                if not root.tag.startswith(_W):
                    return data, []
                part = _numbered(part, root, iter(lists.labels(root)))
                losses += word_print.signs(root)
                losses += word_print.emphasized(root, styles)
                losses += word_print.links(root)
                losses += word_print.initials(root)
                roots.append(root)
            elif name == _STYLES:
                part = _restyled(part, styles)
            other.writestr(name, part)
    return made.getvalue(), [*lists.losses, *losses, *notes_again(roots)]


def _restyled(part: bytes, styles: Element) -> bytes:
    """The part of the styles, of whose emphasis pandoc knows all."""
    emphasis = word_print.emphasis_ahead(styles)
    ahead = (emphasis.get(id(each), "") for each in styles.iter())
    return rewritten(
        part, Rewriting(ahead_of=lambda name: next(ahead), prefixes=_PREFIXES)
    )


def _numbered(part: bytes, root: Element, labels: Iterator[str]) -> bytes:
    """A part with what stands at the front of each paragraph, and what Word shows beside its text."""
    unseen = _in_codes(root) | word_print.replaced(root) | _for_older(root)
    ahead, fields = word_print.texts_ahead(root), frozenset(unseen_places(root))
    has_titles = b"tblCaption" in part
    paragraphs = root.iter(f"{_W}p") if has_titles else ()
    texts = {plain("".join(each.itertext())) for each in paragraphs}
    place = -1

    def front_of(name: str) -> str:
        nonlocal place
        place += 1
        label = next(labels) if name == f"{_W}p" else ""
        run = f'<w:r><w:t xml:space="preserve">{escape(label)}</w:t></w:r>'
        return run if label else ""

    def is_left_out(name: str, attributes: Sequence[str]) -> bool:
        if name == f"{_W}tblCaption":
            # what describes a table is its title for pandoc, and may stand before it too
            return not texts.isdisjoint(map(plain, attributes))
        return place in unseen or _is_left_out(name, attributes)

    how = Rewriting(
        front_of,
        lambda name: ahead.get(place, ""),
        _AROUND,
        is_left_out,
        lambda name: (UNSEEN if place in fields else _RENAMED).get(name, ""),
        _PREFIXES,
    )
    return rewritten(part, how)


def _for_older(root: Element) -> frozenset[int]:
    """The places of what is for older programs, beside which something else is for newer ones."""
    found = {
        id(older)
        for both in root.iter(f"{_MC}AlternateContent")
        if both.find(f"{_MC}Choice") is not None
        for older in both.iterfind(_FALLBACK)
    }
    places = enumerate(root.iter()) if found else ()
    return frozenset(place for place, each in places if id(each) in found)


def _in_codes(root: Element) -> frozenset[int]:
    """The places of elements with print that are within the codes of fields, of which only the results
    are in print: another field has its own result there.

    A code that doesn't end in its paragraph, or has no result after it, is left alone.
    """
    unseen: list[int] = []
    #: The places of print since the last code that ended, and where among them each open field begins.
    found: list[int] = []
    begun: list[int | None] = []
    for place, element in enumerate(root.iter()):
        if element.tag == f"{_W}p":
            found, begun = [], []
        elif element.tag in _PRINT:
            found.append(place)
        elif element.tag == f"{_W}fldChar":
            match element.get(f"{_W}fldCharType"), begun:
                case "begin", _:
                    begun.append(len(found))
                case "separate", [*_, int(start)]:
                    unseen += found[start:]
                    del found[start:]
                    begun[-1] = None
                case "end", [*_, _]:
                    begun.pop()
    return frozenset(unseen)


def _is_left_out(name: str, attributes: Sequence[str]) -> bool:
    """Whether an element has pandoc put a paragraph before another table, or a row before those above it, or
    says how many columns a table has, which is said anew."""
    is_title = name == f"{_W}pStyle" and "Caption" in attributes
    return is_title or name in (f"{_W}tblGrid", f"{_W}tblHeader")


@dataclass(frozen=True, slots=True)
class _Level:
    """A level of a list: its form, and with which number it begins."""

    start: int
    kind: str
    text: str
    #: After which level, from 1 on, it begins anew; None after each that is above it.
    restart: int | None
    #: Whether the numbers of the levels above it are in digits here.
    is_legal: bool
    #: What stands between the number and the text.
    end: str
    style: str


@dataclass(frozen=True, slots=True)
class _List:
    """A list that paragraphs name: the one with which it shares its count, its levels, and where it begins."""

    counted: str
    levels: Mapping[int, _Level]
    starts: Mapping[int, int]


@dataclass(frozen=True, slots=True)
class _Style:
    """What a style of paragraphs says of their numbers, and the style from which it takes the rest."""

    base: str
    named: str
    level: str


@dataclass
class _Count:
    """How far the lists of a part are counted: by the list and the level."""

    counts: dict[str, dict[int, int]] = field(default_factory=dict)
    begun: set[tuple[str, int]] = field(default_factory=set)

    def go_on(self, name: str, found: _List, level: int) -> Mapping[int, int]:
        """The numbers of the levels at the next paragraph of a list."""
        counts = self.counts.setdefault(found.counted, {})
        if level in found.starts and (name, level) not in self.begun:
            counts.pop(level, None)
        self.begun.add((name, level))
        for lower in [each for each in counts if each > level]:
            restart = found.levels[lower].restart if lower in found.levels else None
            if restart is None or level < restart:
                del counts[lower]
        counts[level] = counts.get(level, _start(found, level) - 1) + 1
        for higher in found.levels:
            if higher < level:
                counts.setdefault(higher, _start(found, higher))
        return counts


def _start(found: _List, level: int) -> int:
    own = found.levels[level].start if level in found.levels else 0
    return found.starts.get(level, own)


class _Lists:
    """The lists of a document, and the styles whose paragraphs are in them."""

    def __init__(self, numbering: bytes, styles: Element, bullet: str) -> None:
        self._lists = dict(_lists(root_of(numbering)))
        self._styles = dict(_styles(styles))
        #: The style of the paragraphs that name none.
        self._usual = next(_usual(styles), "")
        self._bullet = bullet
        #: The numbers that are in digits, as words and others are only in print.
        self.losses: list[Loss] = []

    def labels(self, root: Element) -> list[str]:
        """What stands at the front of each paragraph of a part."""
        labels: dict[int, str] = {}
        firsts = dict(_joined(root))
        older = {id(each) for box in root.iter(_FALLBACK) for each in box.iter()}
        count = _Count()
        for paragraph in root.iter(f"{_W}p"):
            name, level = self._named(paragraph)
            found = self._lists.get(name)
            labels[id(paragraph)] = ""
            if found and level in found.levels and id(paragraph) not in older:
                numbers = count.go_on(name, found, level)
                first = firsts.get(id(paragraph), id(paragraph))
                labels[first] = self._label(paragraph, found, level, numbers)
        return list(labels.values())

    def _named(self, paragraph: Element) -> tuple[str, int]:
        """The list that a paragraph or its style names, and its level there."""
        properties = paragraph.find(f"{_W}pPr")
        if properties is None:
            properties = Element("")
        if _is_gone(paragraph):
            return "", 0
        said = [_style(properties, _value(properties, "pStyle") or self._usual)]
        names: list[str] = []
        while (base := said[-1].base) in self._styles and len(names) < BASES:
            names.append(base)
            said.append(self._styles[base])
        name = next((each.named for each in said if each.named), "")
        levels = self._lists[name].levels if name in self._lists else {}
        of_style = (str(n) for n, each in levels.items() if each.style in names)
        level = next((each.level for each in said if each.level), "")
        return name, whole(level or next(of_style, ""), 0)

    def _label(
        self, paragraph: Element, found: _List, level: int, numbers: Mapping[int, int]
    ) -> str:
        """What stands at the front of a paragraph, by the numbers of its list's levels."""
        own = found.levels[level]
        if own.kind == _BULLET:
            return f"{self._bullet} " if own.text.strip() else ""
        unknown = False

        def shown(place: re.Match[str]) -> str:
            nonlocal unknown
            there = int(place[1]) - 1
            if there not in numbers or there not in found.levels:
                return ""
            kind = found.levels[there].kind
            padded = _PADDED.fullmatch(kind)
            unknown |= kind not in _FORMS and not padded
            if padded and not own.is_legal:
                return f"{numbers[there]:0{len(padded[1]) + 1}}"
            return _FORMS.get("" if own.is_legal else kind, str)(numbers[there])

        label = _PLACE.sub(shown, own.text)
        if unknown:
            text = "".join(each.text or "" for each in paragraph.iter(f"{_W}t"))
            self.losses.append(
                Loss(LossKind.NUMBER, plain(label), plain(f"{label} {text}")[:_SHOWN])
            )
        return label and label + own.end


def _is_gone(paragraph: Element) -> bool:
    """Whether the end of a paragraph is deleted or moved away, so that the next one goes on with it."""
    ends = (paragraph.find(f"{_W}pPr/{_W}rPr/{_W}{tag}") for tag in _GONE)
    return any(end is not None for end in ends)


def _joined(root: Element) -> Iterator[tuple[int, int]]:
    """Each paragraph that goes on with others, and the first of these, at whose front its number stands."""
    for parent in root.iter():
        first = None
        for paragraph in parent.iterfind(f"{_W}p"):
            begun = first or id(paragraph)
            yield id(paragraph), begun
            first = begun if _is_gone(paragraph) else None


def _value(element: Element, name: str) -> str:
    child = element.find(f"{_W}{name}")
    return "" if child is None else child.get(f"{_W}val", "")


def _usual(root: Element) -> Iterator[str]:
    for style in root.iterfind(f"{_W}style[@{_W}type='paragraph']"):
        if style.get(f"{_W}default") in ("1", "true", "on"):
            yield style.get(f"{_W}styleId", "")


def _style(properties: Element | None, base: str) -> _Style:
    """What the properties of paragraphs say of their numbers."""
    found = None if properties is None else properties.find(f"{_W}numPr")
    if found is None:
        return _Style(base, "", "")
    return _Style(base, _value(found, "numId"), _value(found, "ilvl"))


def _styles(root: Element) -> Iterator[tuple[str, _Style]]:
    for style in root.iterfind(f"{_W}style"):
        properties = style.find(f"{_W}pPr")
        yield style.get(f"{_W}styleId", ""), _style(
            properties, _value(style, "basedOn")
        )


def _lists(root: Element) -> Iterator[tuple[str, _List]]:
    """The lists that paragraphs name; one that has its levels by a style takes those of another."""
    abstract = {
        each.get(f"{_W}abstractNumId", ""): each
        for each in root.iterfind(f"{_W}abstractNum")
    }
    by_style = {_value(each, "styleLink"): name for name, each in abstract.items()}
    for each in root.iterfind(f"{_W}num"):
        name = _value(each, "abstractNumId")
        if name not in abstract:
            continue
        name = by_style.get(_value(abstract[name], "numStyleLink") or " ", name)
        levels, starts = dict(_levels(abstract[name])), {}
        for override in each.iterfind(f"{_W}lvlOverride"):
            levels |= _levels(override)
            if start := _value(override, "startOverride"):
                starts[_at(override)] = _first(start)
        yield each.get(f"{_W}numId", ""), _List(name, levels, starts)


def _at(level: Element) -> int:
    return whole(level.get(f"{_W}ilvl", "0"), -1)


def _first(start: str) -> int:
    return min(max(whole(start, 1), 0), _MOST)


def _levels(element: Element) -> Iterator[tuple[int, _Level]]:
    for level in element.iterfind(f"{_W}lvl"):
        restart, legal = _value(level, "lvlRestart"), level.find(f"{_W}isLgl")
        yield _at(level), _Level(
            _first(_value(level, "start") or "0"),
            _form(level),
            _value(level, "lvlText")[:_FORM],
            whole(restart, _MOST) if restart else None,
            legal is not None and legal.get(f"{_W}val") not in _OFF,
            "" if _value(level, "suff") == "nothing" else " ",
            _value(level, "pStyle"),
        )


def _form(level: Element) -> str:
    """The form of a level's numbers: its name, or as it is given for later versions of Word."""
    later = level.find(f"{_MC}AlternateContent/{_MC}Choice/{_W}numFmt")
    found = level.find(f"{_W}numFmt") if later is None else later
    if found is None:
        return "decimal"
    return found.get(f"{_W}format", "") or found.get(f"{_W}val", "")
