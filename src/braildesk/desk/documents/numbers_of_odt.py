"""The numbers and bullets that LibreOffice shows before paragraphs, written into those of a text in ODT.

The text has lists and headings alone: how an item is numbered is said by the style of its list, or that of
the outline. pandoc knows few of these forms, no numbers of headings, and no list that goes on after others.
"""

import re
from collections.abc import Callable, Iterator, Mapping
from dataclasses import dataclass, field
from io import BytesIO
from xml.etree.ElementTree import Element
from xml.sax.saxutils import escape, quoteattr
from zipfile import ZipFile

from braildesk.desk.documents import tables_of_odt
from braildesk.desk.documents.kinds import is_media, part_of, root_of, unpacked
from braildesk.desk.documents.numbers import BASES
from braildesk.desk.documents.reading import Loss, LossKind, plain, whole
from braildesk.desk.documents.styles_of_odt import Styles, emphasized
from braildesk.desk.documents.tree import letters, roman
from braildesk.desk.documents.xml_writing import Rewriting, rewritten

_TEXT = "{urn:oasis:names:tc:opendocument:xmlns:text:1.0}"
_STYLE = "{urn:oasis:names:tc:opendocument:xmlns:style:1.0}"
_OFFICE = "{urn:oasis:names:tc:opendocument:xmlns:office:1.0}"
_LOEXT = "{urn:org:documentfoundation:names:experimental:office:xmlns:loext:1.0}"
_DRAW = "urn:oasis:names:tc:opendocument:xmlns:drawing:1.0"
_XLINK = "http://www.w3.org/1999/xlink"
_ID = "{http://www.w3.org/XML/1998/namespace}id"
_CONTENT, _STYLES = "content.xml", "styles.xml"
_LIST, _HEADING, _PARAGRAPH = f"{_TEXT}list", f"{_TEXT}h", f"{_TEXT}p"
_ITEMS = (f"{_TEXT}list-item", f"{_TEXT}list-header")
_ALONE = f"{_TEXT}numbered-paragraph"
#: What stands around paragraphs and isn't left: lists, once their items have their numbers, and sections,
#: whose text pandoc leaves out.
_AROUND = frozenset({_LIST, *_ITEMS, _ALONE, f"{_TEXT}section"})
#: What stands around characters, of which pandoc leaves out those that have a reading.
_AROUND_CHARACTERS = frozenset({f"{_TEXT}ruby", f"{_TEXT}ruby-base"})
_READING = f"{_TEXT}ruby-text"
_DELETED, _NOTE = f"{_TEXT}tracked-changes", f"{_TEXT}note-body"
_WHOLE_NOTE, _NOTE_AGAIN = f"{_TEXT}note", f"{_TEXT}note-ref"
#: What a text computes, and shows as it was last, which pandoc leaves out, with places to be filled in, whose
#: brackets it does.
_FIELDS = frozenset(
    f"{_TEXT}{name}"
    for name in "author-initials author-name chapter conditional-text creation-date creation-time creator"
    " database-display date description editing-cycles editing-duration expression file-name"
    " initial-creator keywords measure modification-date modification-time page-continuation"
    " page-count page-number page-variable-get paragraph-count placeholder print-date print-time printed-by"
    " sender-city sender-company sender-country sender-email sender-fax sender-firstname sender-initials"
    " sender-lastname sender-phone-private sender-phone-work sender-position sender-postal-code"
    " sender-state-or-province sender-street sender-title subject table-formula template-name text-input"
    " time title user-defined user-field-get user-field-input variable-get variable-input variable-set"
    " word-count".split()
)
_NO_STYLES = f'<office:document-styles xmlns:office="{_OFFICE[1:-1]}"/>'.encode()
#: Where the form of a number has the number of a level, from 1 on.
_PLACE = re.compile("%([1-9][0-9]?)%")
_OUTLINE = "outline-style"
#: The greatest number of a list and of a level.
_MOST, _LEVELS = 32_767, 10
#: How many characters are shown of a paragraph whose number isn't written as it is in print.
_SHOWN = 60


def _synchronous(number: int) -> str:
    """A number by letters, of which AA and BB come after Z."""
    times, place = divmod(number - 1, 26)
    return chr(ord("A") + place) * (times + 1) if number else ""


_FORMS: Mapping[tuple[str, bool], Callable[[int], str]] = {
    ("1", False): str,
    ("I", False): roman,
    ("i", False): lambda number: roman(number).lower(),
    ("A", False): letters,
    ("a", False): lambda number: letters(number).lower(),
    ("A", True): _synchronous,
    ("a", True): lambda number: _synchronous(number).lower(),
}


def with_odt_numbers(
    data: bytes, bullet: str, brackets: str
) -> tuple[bytes, list[Loss]]:
    """A text without lists, whose paragraphs begin with their numbers; and those not as in print, with
    the cells that go on over rows.

    Further numbers of a note are text, in brackets, as readings of characters are, and so are fields, as
    they are shown; styles of words have the emphasis of those that they are based on, and formulas are where
    pandoc looks for them. Its tables have no heads, and a place for each cell that goes on. It has no pictures
    any more, which aren't looked at. Raises `NoDocument`.
    """
    made = BytesIO()
    with unpacked(data) as container, ZipFile(made, "w") as other:
        parts = {
            name: b"" if is_media(name) else part_of(container, name)
            for name in container.namelist()
        }
        root = root_of(parts[_CONTENT])
        # pandoc reads no text that has none
        styles = root_of(parts.setdefault(_STYLES, _NO_STYLES) or _NO_STYLES)
        numbering = _Numbering((styles, root), bullet)
        labels = iter(numbering.labels(root))

        spans = tables_of_odt.Spans(root)
        words = Styles("text", styles, root)
        replaced = words.written(root) | _notes_again(root, brackets) | _fields(root)
        replaced |= _objects(root) | _readings(root)

        def front_of(name: str) -> str:
            return escape(next(labels)) if name in (_PARAGRAPH, _HEADING) else ""

        for name, part in parts.items():
            if name == _CONTENT:
                part = _rewritten(part, root, replaced, spans.ahead, front_of)
            elif name == _STYLES and (named := words.written(styles)):
                part = _rewritten(part, styles, named)
            other.writestr(name, part)
    losses = [*numbering.losses, *spans.losses, *emphasized(root, styles)]
    return made.getvalue(), losses


def _rewritten(
    part: bytes,
    root: Element,
    replaced: Mapping[int, str],
    ahead: Mapping[int, str] = {},
    front_of: Callable[[str], str] = lambda name: "",
) -> bytes:
    """A part with texts in place of elements and ahead of others, by their identities."""
    elements = map(id, root.iter())
    texts = {**ahead, **replaced}
    # the element that the parts of the rewriting are asked for
    found = 0

    def ahead_of(name: str) -> str:
        nonlocal found
        found = next(elements)
        return texts.get(found, "")

    how = Rewriting(
        front_of,
        ahead_of,
        _AROUND | _AROUND_CHARACTERS | tables_of_odt.AROUND_ROWS,
        # pandoc leaves covered cells out in a time that grows faster than their number
        lambda name, _: found in replaced or name == tables_of_odt.COVERED,
        prefixes=tables_of_odt.PREFIXES,
    )
    return rewritten(part, how)


def _fields(root: Element) -> dict[int, str]:
    """What is shown of each field that a text computes, by its identity."""
    return {
        id(each): escape(each.text or "")
        for each in root.iter()
        if each.tag in _FIELDS and not len(each)
        if each.get(f"{_TEXT}display") != "none"
    }


def _readings(root: Element) -> dict[int, str]:
    """What stands in place of each reading of characters, by its identity: it in brackets."""
    readings = {
        id(each): plain("".join(each.itertext())) for each in root.iter(_READING)
    }
    return {
        each: f"({escape(text)})" if text else "" for each, text in readings.items()
    }


def _objects(root: Element) -> dict[int, str]:
    """What stands in place of each object whose address ends in a stroke, by its identity.

    pandoc writes the addresses of formulas so, and doesn't find them there.
    """
    addresses = {
        id(each): each.get(f"{{{_XLINK}}}href", "")
        for each in root.iter(f"{{{_DRAW}}}object")
    }
    return {
        each: f'<draw:object xmlns:draw="{_DRAW}" xmlns:xlink="{_XLINK}"'
        f" xlink:href={quoteattr(address.rstrip('/'))}/>"
        for each, address in addresses.items()
        if address.endswith("/")
    }


def _notes_again(root: Element, brackets: str) -> dict[int, str]:
    """What stands in place of each further number of a note, by its identity."""
    gone = {id(note) for each in root.iter(_DELETED) for note in each.iter(_WHOLE_NOTE)}
    notes = [note for note in root.iter(_WHOLE_NOTE) if id(note) not in gone]
    numbers = {note.get(f"{_TEXT}id"): n for n, note in enumerate(notes, start=1)}
    found = {}
    for each in root.iter(_NOTE_AGAIN):
        text = "".join(each.itertext())
        number = numbers.get(each.get(f"{_TEXT}ref-name"))
        if number and each.get(f"{_TEXT}reference-format", "text") == "text":
            text = f"{brackets[0]}{number}{brackets[1]}"
        found[id(each)] = escape(text)
    return found


@dataclass(frozen=True, slots=True)
class _Level:
    """A level of a list: its form, or that it has a bullet, and with which number it begins."""

    is_bullet: bool
    kind: str
    is_synchronous: bool
    #: The form as a whole, with the places of numbers; else what stands around them, and of how many levels.
    text: str
    before: str
    after: str
    shown: int
    start: int
    #: What stands between the number and the text.
    end: str

    @property
    def form(self) -> Callable[[int], str] | None:
        """How its own number is written, if that is known."""
        return _FORMS.get((self.kind, self.is_synchronous and self.kind in "aA"))


#: What LibreOffice has for a level of which a style says nothing.
_UNSAID = _Level(False, "1", False, "", "", ".", 1, 1, " ")


@dataclass(slots=True)
class _Count:
    """How far a list is counted, and by which style it began."""

    style: str
    numbers: dict[int, int] = field(default_factory=dict)
    #: The number that was given last, of whatever level.
    last: int | None = None


@dataclass(frozen=True, slots=True)
class _Place:
    """Where a paragraph stands in a list: the list, its style there, and the level from 1 on."""

    count: _Count
    style: str
    level: int


class _Numbering:
    """The lists of a text and the numbers of its headings."""

    def __init__(self, roots: tuple[Element, ...], bullet: str) -> None:
        self._bullet = bullet
        self._levels: dict[tuple[str, int], _Level] = {}
        #: The styles of lists, and those whose levels are counted together.
        self._known: set[str] = set()
        self._joined: set[str] = set()
        #: Of the styles of paragraphs that the text has for itself: the list that one names, none by an
        #: empty name, and the style it is based on.
        self._styles: dict[str, tuple[str | None, str]] = {}
        for root in roots:
            self._note_styles(root)
        self._named: dict[str, _Count] = {}
        #: The newest list outside of notes, or in them while one is read; and that of the notes before.
        self._last: _Count | None = None
        self._last_of_notes: _Count | None = None
        self._outline = _Count(_OUTLINE)
        self._labels: dict[int, str] = {}
        #: The numbers that are otherwise in print.
        self.losses: list[Loss] = []

    def labels(self, root: Element) -> list[str]:
        """What stands at the front of each paragraph and heading of a text."""
        self._read(root)
        return [
            self._labels.get(id(each), "")
            for each in root.iter()
            if each.tag in (_PARAGRAPH, _HEADING)
        ]

    def _note_styles(self, root: Element) -> None:
        for style in root.iterfind(f"{_OFFICE}automatic-styles/{_STYLE}style"):
            own = style.get(f"{_STYLE}list-style-name")
            base = style.get(f"{_STYLE}parent-style-name", "")
            self._styles[style.get(f"{_STYLE}name", "")] = own, base
        for style in root.iter():
            name = style.get(f"{_STYLE}name", "")
            if style.tag == f"{_TEXT}outline-style":
                name = _OUTLINE
            elif style.tag != f"{_TEXT}list-style":
                continue
            if style.get(f"{_TEXT}consecutive-numbering") == "true":
                self._joined.add(name)
            self._known.add(name)
            for level in style:
                self._levels[name, _number(level, "level", 0)] = _level(level)

    def _read(self, element: Element) -> None:
        """Counts the lists and headings below an element, which is in no list."""
        for child in element:
            if child.tag == _LIST:
                self._list(child, None, is_anew=False)
            elif child.tag == _ALONE:
                self._alone(child)
            elif child.tag == _HEADING:
                self._heading(child)
                self._read(child)
            elif child.tag == _NOTE:
                self._note(child)
            elif child.tag != _DELETED:
                self._read(child)

    def _note(self, note: Element) -> None:
        """Counts the lists of a note, with which none outside of notes goes on."""
        outside, self._last = self._last, self._last_of_notes
        self._read(note)
        self._last_of_notes, self._last = self._last, outside

    def _list(self, found: Element, around: _Place | None, is_anew: bool) -> None:
        style = found.get(f"{_TEXT}style-name", around.style if around else "")
        count = around.count if around else self._counted(found, style)
        level = min(around.level + 1, _LEVELS) if around else 1
        if is_anew and found.get(f"{_TEXT}continue-numbering") != "true":
            count.numbers.pop(level, None)
        for item in found:
            if item.tag in _ITEMS:
                own = item.get(f"{_TEXT}style-override", style)
                self._item(item, _Place(count, style, level), own)

    def _counted(self, found: Element, style: str) -> _Count:
        """The list with which one goes on that is in no other, or a new one."""
        earlier = self._named.get(found.get(f"{_TEXT}continue-list", ""))
        last = self._last
        if earlier is None and found.get(f"{_TEXT}continue-numbering") == "true":
            earlier = last if last and last.style == style else None
        count = earlier or _Count(style)
        if name := found.get(_ID):
            self._named[name] = count
        self._last = count
        return count

    def _item(self, item: Element, place: _Place, style: str) -> None:
        is_numbered, lists = item.tag == _ITEMS[0], 0
        for child in item:
            if child.tag == _LIST:
                lists, is_numbered = lists + 1, False
                self._list(child, place, is_anew=lists > 1)
                continue
            if child.tag in (_PARAGRAPH, _HEADING) and is_numbered:
                start = item.get(f"{_TEXT}start-value")
                self._put(child, _Place(place.count, style, place.level), start)
                is_numbered = False
            self._read(child)

    def _alone(self, found: Element) -> None:
        """Counts a paragraph that names its list itself."""
        style = found.get(f"{_TEXT}style-name", "")
        name = found.get(f"{_TEXT}list-id", "")
        count = self._named.setdefault(name, _Count(style))
        place = _Place(count, style, _number(found, "level", 1))
        for child in found:
            if child.tag in (_PARAGRAPH, _HEADING):
                self._put(child, place, found.get(f"{_TEXT}start-value"))
            self._read(child)

    def _heading(self, heading: Element) -> None:
        """Counts a heading by the outline, unless its style names a list, or none."""
        style = heading.get(f"{_TEXT}style-name", "")
        is_header = heading.get(f"{_TEXT}is-list-header") == "true"
        if is_header or self._has_own_list(style):
            return
        place = _Place(self._outline, _OUTLINE, _number(heading, "outline-level", 1))
        start = None
        if heading.get(f"{_TEXT}restart-numbering") == "true":
            usual = self._start(_OUTLINE, place.level)
            start = heading.get(f"{_TEXT}start-value", f"{usual}")
        self._put(heading, place, start)

    def _has_own_list(self, style: str) -> bool:
        """Whether a style of headings, of the text's own, says that they are in a list, or in none."""
        for _ in range(BASES):
            own, style = self._styles.get(style, (None, ""))
            if own is not None:
                return True
            if not style:
                break
        return False

    def _put(self, paragraph: Element, place: _Place, start: str | None) -> None:
        """Counts a paragraph of a list, and notes what stands at its front."""
        numbers = place.count.numbers
        for lower in [each for each in numbers if each > place.level]:
            del numbers[lower]
        for level in range(1, place.level):
            numbers.setdefault(level, self._start(place.style, level))
        first = whole(start, None)
        if first is None:
            before = place.count.last if place.style in self._joined else None
            before = numbers.get(place.level) if before is None else before
            usual = self._start(place.style, place.level)
            first = usual if before is None else before + 1
        place.count.last = numbers[place.level] = min(max(first, 0), _MOST)
        self._labels[id(paragraph)] = self._label(paragraph, place)

    def _start(self, style: str, level: int) -> int:
        found = self._levels.get((style, level))
        return found.start if found else 1

    def _label(self, paragraph: Element, place: _Place) -> str:
        """What stands at the front of a paragraph, by the numbers of its list's levels."""
        own = self._levels.get((place.style, place.level))
        if own is None and place.style == _OUTLINE:
            return ""
        if own is None and place.style in self._known:
            own = _UNSAID
        if own is None or own.is_bullet:
            # LibreOffice has bullets where nothing is said
            return f"{self._bullet} "
        label, is_known = self._written(place, own)
        if not is_known:
            text = "".join(paragraph.itertext())
            words = plain(label)
            self.losses.append(
                Loss(LossKind.NUMBER, words, plain(f"{label} {text}")[:_SHOWN])
            )
        return label and label + own.end

    def _written(self, place: _Place, own: _Level) -> tuple[str, bool]:
        """The number of a paragraph, and whether it is so in print."""
        is_known = True

        def shown(level: int) -> str:
            nonlocal is_known
            found = self._levels.get((place.style, level), _UNSAID)
            if found.is_bullet or not found.kind:
                return ""
            is_known &= found.form is not None
            return (found.form or str)(place.count.numbers.get(level, found.start))

        if own.text:
            text = _PLACE.sub(lambda found: shown(int(found[1])), own.text)
            return text, is_known
        first = max(place.level - own.shown + 1, 1)
        numbers = (shown(level) for level in range(first, place.level + 1))
        joined = ".".join(number for number in numbers if number)
        return f"{own.before}{joined}{own.after}", is_known


def _number(element: Element, name: str, usual: int) -> int:
    found = whole(element.get(f"{_TEXT}{name}"), usual)
    return min(max(found, 0), _LEVELS)


def _level(level: Element) -> _Level:
    followed = next(_followed(level), "")
    text = (f"{names}num-list-format" for names in (_STYLE, _LOEXT))
    return _Level(
        level.tag
        in (f"{_TEXT}list-level-style-bullet", f"{_TEXT}list-level-style-image"),
        level.get(f"{_STYLE}num-format", "1"),
        level.get(f"{_STYLE}num-letter-sync") == "true",
        next(filter(None, map(level.get, text)), ""),
        level.get(f"{_STYLE}num-prefix", ""),
        level.get(f"{_STYLE}num-suffix", ""),
        _number(level, "display-levels", 1),
        min(max(whole(level.get(f"{_TEXT}start-value"), 1), 0), _MOST),
        "" if followed == "nothing" else " ",
    )


def _followed(level: Element) -> Iterator[str]:
    """What is said to follow the number of a level."""
    for each in level.iter(f"{_STYLE}list-level-label-alignment"):
        yield each.get(f"{_TEXT}label-followed-by", "")
