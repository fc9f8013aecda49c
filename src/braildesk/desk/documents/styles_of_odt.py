"""The styles of a text in ODT, with what they have of those that they are based on.

pandoc finds emphasis of some kinds that a style of words has itself, and looks no further; it knows none of
styles that are based on each other, or on one that isn't there, and none of whole paragraphs.
"""

import re
from collections.abc import Collection, Iterator, Mapping
from copy import deepcopy
from xml.etree import ElementTree
from xml.etree.ElementTree import Element, SubElement

from braildesk.desk.documents.reading import Loss, emphases

_STYLE = "{urn:oasis:names:tc:opendocument:xmlns:style:1.0}"
_FO = "{urn:oasis:names:tc:opendocument:xmlns:xsl-fo-compatible:1.0}"
_TEXT = "{urn:oasis:names:tc:opendocument:xmlns:text:1.0}"
_OFFICE = "{urn:oasis:names:tc:opendocument:xmlns:office:1.0}"
#: What isn't typed.
_GONE = (f"{_TEXT}tracked-changes", f"{_OFFICE}annotation")
_SPAN = f"{_TEXT}span"
#: What isn't text of the paragraph in which it stands, and what parts words.
_INNER = (*(f"{_TEXT}{name}" for name in ("note", "p", "h")), *_GONE)
_PARTING = tuple(f"{_TEXT}{name}" for name in ("s", "tab", "line-break"))
_PARENT, _PROPERTIES = f"{_STYLE}parent-style-name", f"{_STYLE}text-properties"
_DISPLAY = f"{_TEXT}display"
#: How many styles are looked at of those that one is based on, for what they hide.
_DEEPEST = 50
#: The styles of headings and of heads of columns, which are bold as such.
_HEADS = re.compile(r"(.*_20_)?heading(_20_\d+)?|title", re.IGNORECASE)
_WEIGHT, _PLAIN = f"{_FO}font-weight", "normal"
#: What words that are emphasized, or stand above or below the line, have by their style.
_EMPHASIS = (
    *(f"{_FO}{name}" for name in ("font-style", "font-weight", "font-variant")),
    *(f"{_STYLE}text-{name}" for name in ("position", "underline-style")),
    *(f"{_STYLE}text-line-through-{name}" for name in ("style", "type")),
)
#: Emphasis of which pandoc knows nothing, with the values that are none, and the line below words that it knows.
_OTHER = {
    f"{_FO}font-variant": ("normal",),
    f"{_FO}text-transform": ("none", "lowercase", "capitalize"),
    f"{_FO}background-color": ("transparent", "#ffffff"),
    f"{_STYLE}text-emphasize": ("none",),
    f"{_STYLE}text-overline-style": ("none",),
}
_LINE = f"{_STYLE}text-underline-style"
#: What says of which font letters are: pandoc takes those of a typewriter for emphasized ones.
_LETTERS = (f"{_STYLE}font-name", f"{_STYLE}font-pitch")
#: Emphasis of whole paragraphs, with the values that are none.
_WHOLE: Mapping[str, Collection[str]] = {
    **_OTHER,
    f"{_FO}font-style": (_PLAIN,),
    _WEIGHT: (_PLAIN, "100", "200", "300", "400", "500"),
    _LINE: ("none",),
    f"{_STYLE}text-line-through-style": ("none",),
}
#: That of headings, which are bold and the like as such, and are struck out as any words are.
_OF_HEADINGS: Mapping[str, Collection[str]] = {
    f"{_STYLE}text-line-through-style": ("none",)
}


def emphasized(root: Element, *others: Element) -> Iterator[Loss]:
    """The paragraphs of a text that are emphasized by its styles or those of other parts, and the headings that are
    struck out, but the words in them that are plain by styles of their own.
    """
    styles, words = (Styles(family, *others, root) for family in ("paragraph", "text"))
    gone = {
        id(each) for tag in _GONE for part in root.iter(tag) for each in part.iter()
    }
    for tag, kinds in ((f"{_TEXT}p", _WHOLE), (f"{_TEXT}h", _OF_HEADINGS)):
        for paragraph in root.iter(tag):
            emphasis = styles.emphasis(paragraph.get(f"{_TEXT}style-name", ""))
            if id(paragraph) in gone or not _is_any(emphasis, kinds):
                continue
            yield from emphases(_texts(paragraph, emphasis, words, kinds))


def _texts(
    element: Element,
    emphasis: Mapping[str, str],
    words: "Styles",
    kinds: Mapping[str, Collection[str]],
) -> Iterator[tuple[str, bool]]:
    """The texts of a paragraph, without those of others in it, and whether each is emphasized by some kinds."""
    is_emphasized = _is_any(emphasis, kinds)
    yield " " if element.tag in _PARTING else element.text or "", is_emphasized
    for child in element:
        if child.tag not in _INNER:
            own = words.emphasis(child.get(f"{_TEXT}style-name", ""))
            its = {**emphasis, **own} if child.tag == _SPAN and own else emphasis
            yield from _texts(child, its, words, kinds)
        yield child.tail or "", is_emphasized


def hiding(*roots: Element) -> Iterator[str]:
    """The names of the styles of some parts that hide text, themselves or by one that they are based on."""
    known = {
        style.get(f"{_STYLE}name", ""): (
            # each is looked through once, though many may be based on it
            [each.get(_DISPLAY) for each in style if each.get(_DISPLAY)],
            style.get(_PARENT, ""),
        )
        for root in roots
        for style in root.iter(f"{_STYLE}style")
    }
    for name in known:
        base = name
        for _ in range(_DEEPEST):
            if base not in known:
                break
            said, base = known[base]
            if said:
                yield from [name] if "none" in said else ()
                break


class Styles:
    """The styles of a family that some parts of a text have, of which later parts go before others."""

    def __init__(self, family: str, *roots: Element) -> None:
        self._family = family
        self._styles = {
            style.get(f"{_STYLE}name", ""): style
            for root in roots
            for style in root.iter(f"{_STYLE}style")
            if style.get(f"{_STYLE}family") == family
        }
        #: The emphasis of styles that is known, by their identities.
        self._known: dict[int, dict[str, str]] = {}

    def written(self, root: Element) -> dict[int, str]:
        """What stands in place of each style of a part that is based on another, or has letters or emphasis of other
        kinds, by its identity.
        """
        return {
            id(style): _written(style, self._whole(style))
            for style in root.iter(f"{_STYLE}style")
            if style.get(f"{_STYLE}family") == self._family
            and (
                _PARENT in style.attrib
                or _has_letters(style)
                or _is_any(_emphasis(style), _OTHER)
            )
        }

    def emphasis(self, name: str) -> dict[str, str]:
        """The emphasis of a style by its name; none if there is no such style."""
        return self._whole(self._styles[name]) if name in self._styles else {}

    def _whole(self, style: Element) -> dict[str, str]:
        """The emphasis of a style, with that of those it is based on."""
        chain: dict[int, Element] = {}
        each: Element | None = style
        while (
            each is not None and id(each) not in chain and id(each) not in self._known
        ):
            chain[id(each)] = each
            each = self._styles.get(each.get(_PARENT, ""))
        styles = [*chain.values()]
        if each is not None and id(each) in chain:
            # they are based on each other, so that each has what all of them have
            styles += styles[[*chain].index(id(each)) :]
        found = self._known.get(id(each), {})
        for inner in reversed(styles):
            found = found | _emphasis(inner)
            self._known[id(inner)] = found
        return found


def _has_letters(style: Element) -> bool:
    """Whether a style says of which font its letters are."""
    properties = style.find(_PROPERTIES)
    return properties is not None and any(
        name in properties.attrib for name in _LETTERS
    )


def _emphasis(style: Element) -> dict[str, str]:
    properties = style.find(_PROPERTIES)
    own = {} if properties is None else properties.attrib
    names = (*_EMPHASIS, *_OTHER, _DISPLAY)
    found = {name: own[name] for name in names if name in own}
    is_whole = style.get(f"{_STYLE}family") == "paragraph"
    if is_whole and _HEADS.fullmatch(style.get(f"{_STYLE}name", "")):
        found[_WEIGHT] = _PLAIN
    return found


def _is_any(emphasis: Mapping[str, str], kinds: Mapping[str, Collection[str]]) -> bool:
    """Whether there is emphasis of some kinds, each with the values that are none."""
    return any(
        name in emphasis and emphasis[name].lower() not in values
        for name, values in kinds.items()
    )


def _written(style: Element, emphasis: dict[str, str]) -> str:
    """A style with some emphasis, based on none, as XML that stands anywhere."""
    made = deepcopy(style)
    made.tail = None
    made.attrib.pop(_PARENT, None)
    properties = made.find(_PROPERTIES)
    if properties is None:
        properties = SubElement(made, _PROPERTIES)
    for name in _LETTERS:
        properties.attrib.pop(name, None)
    properties.attrib.update(emphasis)
    if _is_any(emphasis, _OTHER):
        properties.set(_LINE, "solid")
    return ElementTree.tostring(made, encoding="unicode")
