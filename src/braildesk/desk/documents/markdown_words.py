"""The words of a text in Markdown beside those of the tree that pandoc makes of it.

Each word stands somewhere in the tree: as print, or in an address, a tag, a comment or what is said of a
block. Only keys and the numbers of items don't, and signs may part a word or may not.
"""

import re
from collections import Counter
from collections.abc import Iterable, Iterator, Mapping, Sequence
from html import unescape
from itertools import pairwise
from typing import Any

from braildesk.desk.documents.contents import missing, words_of
from braildesk.desk.documents.markdown_front import front_of, with_usual_switch
from braildesk.desk.documents.reading import Missing
from braildesk.desk.documents.tree import Node

#: The numbers and boxes of items, with what stands before them, and the word before the title of a table.
_NUMBERS = re.compile(
    r"(?:[ \t>]|[*+~:-](?=[ \t])|\[[xX]\](?=[ \t])"
    r"|\(?(?:[0-9]{1,9}|[a-zA-Z]|[ivxlcdm]+|[IVXLCDM]+|@[\w-]*)[.)](?=[ \t]|$))*"
    r"(?:[Tt]able:)?"
)
#: The key of a note; that of a link, where that is or before its address; and an address that is surely one.
_NOTE_KEY = re.compile(r"\[\^[^][\s]+\]:?")
_LINK_KEY = re.compile(
    r"(?<=\])\[([^][]+)\]|\[([^][]+)\]:(?:[ \t]*<?[a-z]+://\S*)?|(?<=\])\(<?[a-z]+://[^()\s]*"
)
#: What may be the key of a link; before a colon only after words or brackets, else its address follows.
_USE = re.compile(r"((?<=\])|(?<=\w ))?\[([^][]+)\](?(1)|(?!:))")
#: The label of an item, and what may be one where the number of that is shown.
_LABEL = re.compile(r"^[ \t>]*\(@([\w-]+)\)(?=[ \t])", re.MULTILINE)
_LABELLED = re.compile(r"(?<!\w)@([\w-]+)")
#: A sign that says that the next one is no markup, and markup that may stand within a word.
_ESCAPE = re.compile(r"\\([!-)+-/:-@\[\]_{|}])|\\[*~^`]?")
_PARTING = re.compile(r"[*~^`]+")
_EDGES = re.compile(r"(?<!\w)_++|(?<!_)_++(?!\w)")
_ID = re.compile(r"#([^\s{}]+)")
#: What stands below a heading.
_UNDERLINE = re.compile(r"[ \t>]*(?:=+|-+)[ \t]*")
_SEAM = "\ue0f2"
#: Nodes whose words may be parts of words; and what is written of elements of HTML that are nodes.
_WITHIN = frozenset("Cite Code Emph Strong Strikeout Superscript Subscript".split())
_ELEMENTS = {
    "Div": "div class id div",
    "Span": "span class id span",
    "SmallCaps": "span class smallcaps span",
    "Underline": "span class underline ul span",
}
_VERBATIM = frozenset("CodeBlock RawBlock RawInline Math".split())


def lines_of(text: str, tree: list[str]) -> Iterator[str]:
    """The words of each line of a text, parted as the texts of its tree have them."""
    keys = {_folded(found[2]) for found in _LINK_KEY.finditer(text) if found[2]}
    keys.update(map(_folded, _headings(text.split("\n"))))
    uses = {_folded(found[2]) for found in _USE.finditer(text)}

    def without_key(found: re.Match[str]) -> str:
        used, key = map(_folded, found.groups(""))
        is_text = used and used not in keys or key and key not in uses
        return found[0] if is_text else " "

    labels = frozenset(_LABEL.findall(text))

    def without_label(found: re.Match[str]) -> str:
        return " " if found[1] in labels else found[0]

    lines = _LINK_KEY.sub(without_key, text).split("\n")
    front = front_of(lines)
    parts: list[list[str]] = []
    for line in (*map(with_usual_switch, lines[:front]), *lines[front:]):
        line = _LABELLED.sub(without_label, _NUMBERS.sub("", line, count=1))
        line = _NOTE_KEY.sub(" ", unescape(line))
        line = _without_escapes(line)
        parts.append(_PARTING.sub(_SEAM, _plain(line)).split())
    left = _left_for_parts(parts, tree)
    return (" ".join(_whole(each, left) for each in line) for line in parts)


def _left_for_parts(
    lines: Iterable[Sequence[str]], tree: Iterable[str]
) -> Counter[str]:
    """How often the tree has each word, but for those of the lines that no sign within them may part."""
    left = Counter(word for each in tree for word in words_of(each))
    for part in (part for line in lines for part in line):
        joined, parted = _forms(part)
        if joined == parted:
            left.subtract(joined)
    return left


def _headings(lines: Sequence[str]) -> Iterator[str]:
    """What may be headings, which are keys of links too."""
    for line, below in pairwise([*lines, ""]):
        shown = line.strip(" \t>")
        if shown.startswith("#"):
            yield shown.partition("{")[0].strip("# \t")
        elif below.strip(" \t>") and _UNDERLINE.fullmatch(below):
            yield shown


def _without_escapes(text: str) -> str:
    return _ESCAPE.sub(lambda found: found[1] or " ", text)


def _forms(part: str) -> tuple[list[str], list[str]]:
    """The words of a part of a line if no sign parts them, and if all do."""
    return words_of(part.replace(_SEAM, "")), words_of(part.replace(_SEAM, " "))


def _whole(part: str, left: Counter[str]) -> str:
    """A part of a line as one word if one is left, which is used up then, else parted where signs stand."""
    joined, parted = _forms(part)
    if joined == parted:
        return part.replace(_SEAM, "")
    if any(left[word] <= 0 for word in joined):
        return part.replace(_SEAM, " ")
    left.subtract(joined)
    return part.replace(_SEAM, "")


def texts_of(tree: Node, text: str) -> list[str]:
    """The words of each block of the tree of a text, and of what is said of the whole."""
    walk = _Walk(frozenset(_ID.findall(text)))
    return [walk.text(each) for each in (tree["meta"], *tree["blocks"])]


class _Walk:
    """What writes the words of a tree, which has a name of its own for each heading that has none."""

    def __init__(self, names: frozenset[str]) -> None:
        self._names = names
        self._notes: set[str] = set()

    def text(self, value: Any) -> str:
        return _plain("".join(self._pieces(value)))

    def _pieces(self, value: Any) -> Iterator[str]:
        if isinstance(value, bool):
            yield str(value).lower()
        elif isinstance(value, str) and value:
            yield f" {value} "
        elif isinstance(value, list):
            for each in value:
                yield from self._pieces(each)
        elif isinstance(value, Mapping) and "t" in value:
            yield from self._node(value["t"], value.get("c"), value)
        elif isinstance(value, Mapping):
            for key, each in value.items():
                yield f" {key} "
                yield from self._pieces(each)

    def _node(self, kind: str, content: Any, node: Mapping[str, Any]) -> Iterator[str]:
        around = "" if kind in _WITHIN else " "
        match kind:
            case "Str":
                yield content
                return
            case "Quoted":
                around, content = '"', content[1]
            case "Cite":
                content = content[1]
            case "Header" if content[1][0] not in self._names:
                content = [content[1][1:], content[2]]
            case "Link" | "Image":
                content = _link(content)
            case "LineBlock":
                content = [[line, " "] for line in content]
            case "Note" if node.get("of") in self._notes:
                return
            case "Note" if "of" in node:
                self._notes.add(node["of"])
            case "Code":
                yield _without_escapes(unescape(content[1]))
                content = content[0]
            case kind if kind in _VERBATIM:
                content = [content[:-1], _without_escapes(unescape(content[-1]))]
            case kind if kind in _ELEMENTS:
                content = [_ELEMENTS[kind], content]
        yield around
        yield from self._pieces(content)
        yield around


def _link(content: list[Any]) -> list[Any]:
    """What is written of a link: its address only if that isn't its text."""
    attributes, inlines, (target, title) = content
    if attributes[1] in (["uri"], ["email"]):
        return [inlines]
    return [attributes, inlines, target, title.removeprefix("fig:")]


def _plain(text: str) -> str:
    # an address has another sign for a blank
    return _EDGES.sub("", text.replace("'", "’").replace("%20", " "))


def _folded(key: str) -> str:
    return " ".join(key.split()).casefold()


def missing_of(text: str, tree: list[str], known: Iterable[Missing]) -> list[Missing]:
    """The words of a text that neither its tree has nor what is known to be missing."""
    known_words = [_plain(each.words) for each in known]
    return missing(lines_of(text, tree), [*tree, *known_words])
