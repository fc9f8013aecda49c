"""Fields of texts by Word that have no result: what print shows of them stands in their codes; and those of DOCX that
pandoc doesn't understand."""

import re
from collections.abc import Iterator, Sequence
from dataclasses import dataclass, field
from xml.etree.ElementTree import Element

_W = "{http://schemas.openxmlformats.org/wordprocessingml/2006/main}"
_SIGN, _CODE, _RUN, _TEXT = (
    f"{_W}{name}" for name in ("fldChar", "instrText", "r", "t")
)
#: What is nothing of a run.
_BESIDE = (f"{_W}rPr", f"{_W}lastRenderedPageBreak")
#: What begins, parts and ends a field in DOCX, and has its code, by names that pandoc doesn't know too.
UNSEEN = {_SIGN: "w:fldCharUnseen", _CODE: "w:instrTextUnseen"}
SIGNS, CODES = (_SIGN, f"{_SIGN}Unseen"), (_CODE, f"{_CODE}Unseen")
#: A formula; how it is laid out; and a button, of which the name of a macro or of a place says what it does.
_FORMULA = re.compile(r"\s*EQ\b(.*)", re.IGNORECASE | re.DOTALL)
_LAYOUT = re.compile(r'\\\*\s*(?:"[^"]*"|\w+)|\\[a-z]+(?: ?\d+)?|\\(.)', re.IGNORECASE)
_BUTTON = re.compile(
    r"\s*(?:MACROBUTTON|GOTOBUTTON)\s+\S+(.*)", re.IGNORECASE | re.DOTALL
)


#: A link to another file, with its address, not to a place of the document.
_LINK = re.compile(r'\s*HYPERLINK\s+(?:"([^"]+)"|([^\s"\\]\S*))', re.IGNORECASE)
#: How many characters of a code and of a result are kept at least, if there are so many.
_KEPT = 1_000


@dataclass(slots=True)
class Field:
    """A field of a part, by the places of its signs and its codes, and the field in which it begins."""

    begin: Element
    around: "Field | None"
    is_in_code: bool
    is_inner: bool = False
    has_code: bool = False
    has_result: bool = False
    is_ended: bool = False
    is_alone: bool = True
    places: list[int] = field(default_factory=list)
    #: The fronts of its code and of what is shown of it.
    code: str = ""
    shown: str = ""

    @property
    def address(self) -> str:
        """The address to which it leads outside of the document, if it does so where it is shown."""
        is_shown = not self.is_inner and self.is_ended and self.has_result
        return address_of_code(self.code) if is_shown else ""

    def take(self, element: Element) -> None:
        """Takes the text of an element that is its code or is shown of it."""
        text = element.text or ""
        if element.tag == _CODE and len(self.code) < _KEPT:
            self.code += text[:_KEPT]
        elif element.tag == _TEXT and self.has_result and len(self.shown) < _KEPT:
            self.shown += text[:_KEPT]


def unseen_places(root: Element) -> Iterator[int]:
    """The places of the signs and codes of the fields of a part that pandoc isn't shown."""
    for each in unseen_fields(root):
        yield from each.places


def unseen_fields(root: Element) -> Iterator[Field]:
    """The fields of a part that pandoc isn't shown, since it doesn't see where they end: those without a code or a
    result, or in the code of others, and those with more in a run than a sign.
    """
    for each in _fields(root):
        if (outer := each.around) is not None:
            each.is_inner = outer.is_inner or each.is_in_code and outer.has_result
        is_whole = each.has_code and each.has_result and each.is_ended
        if each.is_inner or not is_whole or not each.is_alone:
            yield each


def _fields(root: Element) -> Sequence[Field]:
    """The fields of a part in the order in which they begin."""
    fields: list[Field] = []
    last: Field | None = None
    is_alone = True
    for place, element in enumerate(root.iter()):
        kind = element.get(f"{_W}fldCharType")
        if element.tag == _RUN:
            is_alone = sum(each.tag not in _BESIDE for each in element) == 1
        if element.tag == _SIGN and kind == "begin":
            is_in_code = last is not None and not last.has_result
            last = Field(element, last, is_in_code)
            fields.append(last)
        if last is not None:
            last.take(element)
        if last is None or element.tag not in UNSEEN:
            continue
        last.places.append(place)
        last.is_alone &= is_alone or element.tag == _CODE
        last.has_code |= element.tag == _CODE
        last.has_result |= kind == "separate"
        if kind == "end":
            last.is_ended = True
            if last.around is not None and last.around.has_result:
                last.around.shown += last.shown[:_KEPT]
            last = last.around
    return fields


def address_of_code(code: str) -> str:
    """The address of another file to which the code of a field is a link; nothing if it is none."""
    link = _LINK.match(code)
    return (link[1] or link[2]) if link else ""


def formula_of_code(code: str) -> str:
    """The parts of the formula that the code of a field is; nothing if it is none."""
    formula = _FORMULA.match(code)
    return _LAYOUT.sub(lambda found: found[1] or " ", formula[1]) if formula else ""


def shown_of_code(code: str) -> str:
    """What is shown of the code of a field that has no result: the parts of a formula, or what a button says."""
    button = _BUTTON.match(code)
    return button[1] if button else formula_of_code(code)
