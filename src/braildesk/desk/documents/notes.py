"""Notes of pages of HTML, which are links to paragraphs elsewhere, made notes of the tree.

A link is the number of a note if it is said to be one (by its class or role), or if it has nothing
but a number or a sign and leads to a later paragraph that begins with a link of the same, or that leads
back to it. The paragraphs of the note are taken from where they stand, without their number and the link
back; Texinfo puts them below a heading that is the number. Of a number whose note isn't found, that is
noted.
"""

import re
from collections.abc import Collection, Iterable, Iterator, Mapping, Sequence
from dataclasses import dataclass
from typing import Any

from braildesk.desk.documents.nodes import (
    MARKS,
    label_of,
    name_of,
    nodes,
    target_of,
    texts,
)
from braildesk.desk.documents.tree import UNKNOWN_NOTE, Node
from braildesk.desk.documents.ways_back import WaysBack, is_bare, reached

_NUMBERS = frozenset(
    "footnote-ref footnote-reference footnote noteref doc-noteref endnote-ref fnref fnanchor"
    " sdfootnoteanc sdendnoteanc footref".split()
)
_NUMBER_IN_ORG = "footref"
#: What says of a link or a piece of text that it leads from a note back to its number.
_BACK = frozenset(
    "footnote-back fn-backref doc-backlink footnote-backref backlink".split()
)
#: What says of a division that it is one note.
_NOTES = frozenset(
    "footnote endnote note doc-footnote doc-endnote rearnote footdef".split()
)
#: What names a division that is one note, as Word and LibreOffice write them.
_NOTE_NAME = re.compile("(ftn|edn|sdfootnote|sdendnote)[0-9]+")
_HEAD_NAME = re.compile("(.*[^A-Za-z])?FOOT[0-9]+")
#: How many pieces of text a number at the front of a note has at most, with its brackets.
_PIECES = 6


@dataclass(frozen=True)
class _Place:
    """Where a note stands: its blocks, the part of the tree that is it, and its first words."""

    blocks: list[Node]
    part: Any
    front: list[Node]


def with_notes(tree: Node) -> Node:
    """The tree with each link that is the number of a note made that note."""
    blocks = _headed(tree["blocks"])
    links = [(n, node) for n, node in enumerate(nodes(blocks)) if _is_inner(node)]
    # a link without a name leads to the front of the page
    wanted = {target_of(link) for _, link in links} - {""}
    asides = [node for node in nodes(blocks) if _is_aside(node)]
    if not wanted and not asides:
        return tree
    places = dict(_places(blocks, wanted))
    numbers = _numbers(blocks, links, places)
    taken = {id(places[name].part) for name in numbers.values() if name in places}
    named = {name: _aside(each) for each in asides if (name := name_of(each))}
    taking = _Taking(places, numbers.keys(), taken, named)
    return {**tree, "blocks": taking.whole(blocks)}


def _numbers(
    blocks: list[Node], links: Sequence[tuple[int, Node]], places: dict[str, _Place]
) -> dict[int, str]:
    """The names of the notes to which numbers lead, by the identities of these."""
    order = {name: n for n, each in enumerate(nodes(blocks)) if (name := name_of(each))}
    ways = WaysBack(blocks, {id(place.part) for place in places.values()})
    later = {
        id(link): target_of(link)
        for n, link in links
        if target_of(link) in places and order[target_of(link)] > n
    }
    found = {
        id(link): target_of(link)
        for _, link in links
        if _is_number(link)
        or id(link) in later
        and (
            _is_bare_number(link, places)
            or ways.lead_to(link, places[target_of(link)].part)
        )
    }
    labels = {
        (target_of(link), label_of(link)) for _, link in links if id(link) in found
    }
    for _, link in links:
        is_known = (target_of(link), label_of(link)) in labels
        if id(link) in later and is_known and ways.is_marked(link):
            found[id(link)] = target_of(link)
    return _without_ways_back(found, ways, places)


def _without_ways_back(
    numbers: dict[int, str], ways: WaysBack, places: Mapping[str, _Place]
) -> dict[int, str]:
    """Those numbers that don't lead from a note to the text that has its number, and aren't in notes to which
    nothing leads but such notes."""
    leading = {
        each: id(places[name].part) for each, name in numbers.items() if name in places
    }
    around = ways.containers(numbers, {*leading.values()})
    texts_of: dict[int, set[int]] = {}
    for each, part in leading.items():
        texts_of.setdefault(part, set()).add(ways.text_of(each))
    kept = {
        each: name
        for each, name in numbers.items()
        if ways.text_with(name) not in texts_of.get(around.get(each, 0), ())
    }
    parts = reached({each: leading[each] for each in kept if each in leading}, around)
    return {
        each: name
        for each, name in kept.items()
        if name not in places or id(places[name].part) in parts
    }


def _headed(blocks: list[Node]) -> Any:
    """Some blocks in which each note that stands below a heading that is its number is a division."""
    links = [node for node in nodes(blocks) if _is_inner(node)]
    pairs = {(name_of(link), target_of(link)) for link in links}
    # such a number and that of the text lead to each other
    heads = {
        id(node)
        for node in nodes(blocks)
        if (link := _lone_link(node)) and (target_of(link), name_of(link)) in pairs
    }
    return _divided(blocks, heads) if heads else blocks


def _lone_link(block: Node) -> Node | None:
    """The number of a note, as Texinfo names it, that is all that a heading has, or a text of a block."""
    if block.get("t") not in ("Header", "Para", "Plain"):
        return None
    inlines = block["c"][2] if block["t"] == "Header" else block["c"]
    found = [each for each in inlines if each["t"] not in ("Space", "SoftBreak")]
    # the number of a part may lead back to the contents too
    is_lone = len(found) == 1 and _is_inner(found[0])
    return found[0] if is_lone and _HEAD_NAME.fullmatch(name_of(found[0])) else None


def _divided(value: Any, heads: set[int]) -> Any:
    """A part of the tree with a division of each of some headings and what stands below it."""
    if isinstance(value, dict):
        return {key: _divided(each, heads) for key, each in value.items()}
    if not isinstance(value, list):
        return value
    divided: list[Any] = []
    below = divided
    for each in value:
        if id(each) in heads and (link := _lone_link(each)):
            below = [{"t": "Plain", "c": [link]}]
            divided.append({"t": "Div", "c": [[name_of(link), [], []], below]})
            continue
        if isinstance(each, dict) and each.get("t") in ("Header", "HorizontalRule"):
            below = divided
        below.append(_divided(each, heads))
    return divided


def _is_inner(node: Node) -> bool:
    """Whether a node is a link to another part of the document that isn't said to lead back."""
    is_link = node.get("t") == "Link" and node["c"][2][0].startswith("#")
    return is_link and not leads_back(_said_of(node))


def leads_back(said: Iterable[str]) -> bool:
    """Whether what is said of something is that it leads back to a number; Org says so of that too."""
    found = frozenset(said)
    return not _BACK.isdisjoint(found) and _NUMBER_IN_ORG not in found


def _is_number(link: Node) -> bool:
    """Whether a link is said to be the number of a note."""
    return not _NUMBERS.isdisjoint(_said_of(link))


def _is_bare_number(link: Node, places: Mapping[str, _Place]) -> bool:
    """Whether a link is a note's number by what it has and what it leads to."""
    label = label_of(link)
    first = next(_links(places[target_of(link)].front), None)
    return is_bare(label) and first is not None and label_of(first) == label


def _is_aside(node: Node) -> bool:
    """Whether a node is a note that stands in the line itself, as AsciiDoc has it."""
    return node.get("t") == "Span" and "footnote" in node["c"][0][1]


def _said_of(node: Node) -> Iterator[str]:
    """The classes and roles of a node that has attributes."""
    _, classes, pairs = node["c"][0]
    yield from classes
    for name, value in pairs:
        if name in ("role", "type", "epub:type"):
            yield from value.split()


def _links(inlines: Sequence[Node]) -> Iterator[Node]:
    """The links with which a text begins, before any other word."""
    for node in nodes(inlines):
        if node.get("t") == "Link":
            yield node
        elif _is_word(node):
            return


def _is_word(node: Node) -> bool:
    """Whether a node is text that is more than a bracket."""
    is_text = node.get("t") in ("Str", "Code", "Math", "Image")
    return is_text and bool("".join(texts(node)).strip(MARKS))


def _places(blocks: Sequence[Node], wanted: set[str]) -> Iterator[tuple[str, _Place]]:
    """The parts of some blocks that links lead to and that may be notes, by their names."""
    for node in blocks:
        content = node.get("c")
        match node["t"]:
            case "Div":
                yield from _division(node, wanted)
            case "Para" | "Plain":
                yield from _named(wanted, _Place([node], node, node["c"]))
            case "BlockQuote":
                yield from _places(node["c"], wanted)
            case "OrderedList" | "BulletList" as kind:
                for item in node["c"][1] if kind == "OrderedList" else node["c"]:
                    yield from _places(item, wanted)
                    yield from _named(wanted, _Place(item, item, _front(item)))
            case "DefinitionList":
                for entry in content or ():
                    body = [block for each in entry[1] for block in each]
                    yield from _places(body, wanted)
                    yield from _named(wanted, _Place(body, entry, entry[0]))


def _division(node: Node, wanted: set[str]) -> Iterator[tuple[str, _Place]]:
    """The notes that a division has or is; one with a heading is a section."""
    content = node["c"][1]
    yield from _places(content, wanted)
    place = _Place(content, node, _front(content))
    if any(each["t"] == "Header" for each in content):
        return
    if node["c"][0][0] in wanted:
        yield node["c"][0][0], place
    if not _NOTES.isdisjoint(_said_of(node)) or _NOTE_NAME.fullmatch(node["c"][0][0]):
        yield from _named(wanted, place)


def _named(wanted: set[str], place: _Place) -> Iterator[tuple[str, _Place]]:
    """A place by each name that stands at its front."""
    for node in nodes(place.front):
        if (name := name_of(node)) in wanted and name:
            yield name, place
        if _is_word(node):
            return


def _front(blocks: Sequence[Node]) -> list[Node]:
    """The text of the first paragraph of some blocks."""
    for node in blocks:
        if node["t"] in ("Para", "Plain"):
            front: list[Node] = node["c"]
            return front
        if node["t"] == "Div":
            return [{"t": "Span", "c": [node["c"][0], _front(node["c"][1])]}]
        return []
    return []


class _Taking:
    """A tree from which the notes are taken, and put where their numbers stand."""

    def __init__(
        self,
        places: dict[str, _Place],
        numbers: Collection[int],
        taken: set[int],
        asides: dict[str, Node],
    ) -> None:
        #: The blocks of each note, and the numbers whose notes have none yet.
        self._blocks: dict[str, list[Node]] = {}
        self._waiting: list[tuple[str, str]] = []
        self._places = places
        self._numbers = numbers
        self._taken = taken
        self._asides = asides

    def whole(self, blocks: list[Node]) -> Any:
        """All blocks, with those of the notes in which there are numbers too."""
        found = self.of(blocks)
        while self._waiting:
            name, label = self._waiting.pop()
            place = self._places[name]
            # what is taken from its place is there alone
            is_part = [id(each) for each in place.blocks] == [id(place.part)]
            its = [self.of(place.part)] if is_part else self.of(place.blocks)
            its = _without_number(its, name, label)
            self._blocks[name] += _without_back(its)
        return found

    def of(self, value: Any) -> Any:
        """A part of the tree without the notes that were taken from it, and with those put there."""
        if isinstance(value, list):
            return _without_brackets(
                [kept for each in value for kept in self._kept(each)]
            )
        if not isinstance(value, dict) or "c" not in value:
            return value
        if id(value) in self._numbers:
            return self._note(value)
        if value["t"] == "Span" and "footnote" in value["c"][0][1]:
            return _aside(value)
        if value["t"] == "Span" and "footnoteref" in value["c"][0][1]:
            return self._again(value)
        return {**value, "c": self.of(value["c"])}

    def _kept(self, value: Any) -> Iterator[Any]:
        if self._is_gone(value):
            return
        match value.get("t") if isinstance(value, dict) else None:
            case "OrderedList":
                yield from self._list(value)
            case "Superscript" if _is_note(inner := self.of(value["c"])):
                yield from inner
            case _:
                yield self.of(value)

    def _list(self, node: Node) -> Iterator[Node]:
        """A list whose items keep their numbers where some of them are taken."""
        (start, *form), items = node["c"]
        if not any(id(item) in self._taken for item in items):
            yield {**node, "c": [node["c"][0], self.of(items)]}
            return
        for number, item in enumerate(items, start):
            if id(item) not in self._taken and not self._is_gone(item):
                yield {**node, "c": [[number, *form], [self.of(item)]]}

    def _is_gone(self, value: Any) -> bool:
        """Whether a part of the tree was taken, or has nothing but what was."""
        if id(value) in self._taken:
            return True
        if isinstance(value, list):
            return bool(value) and all(map(self._is_gone, value))
        match value.get("t") if isinstance(value, dict) else None:
            case "OrderedList":
                return self._is_gone(value["c"][1])
            case "BulletList" | "DefinitionList" | "BlockQuote":
                return self._is_gone(value["c"])
            case "Div":
                return self._is_gone(list(filter(_has_print, value["c"][1])))
        return False

    def _note(self, link: Node) -> Node:
        """What stands in place of a number: the note, or the number if that isn't found."""
        target, label = target_of(link), label_of(link)
        if target not in self._places:
            return {"t": UNKNOWN_NOTE, "c": label}
        if target not in self._blocks:
            self._blocks[target] = []
            self._waiting.append((target, label))
        return {"t": "Note", "c": self._blocks[target], "of": target, "label": label}

    def _again(self, span: Node) -> Node:
        """What stands in place of the number of a note that stands elsewhere in the line."""
        link = next((each for each in nodes(span["c"][1]) if _is_inner(each)), None)
        if link is None:
            return span
        if (name := target_of(link)) not in self._asides:
            return {"t": UNKNOWN_NOTE, "c": label_of(link)}
        return {**self._asides[name], "of": name}


def _is_note(inlines: Sequence[Node]) -> bool:
    """Whether some text is nothing but the number of a note, with its name."""
    kinds = [each["t"] for each in inlines if each["t"] != "Span" or each["c"][1]]
    return kinds in (["Note"], [UNKNOWN_NOTE])


def _without_brackets(nodes: list[Any]) -> list[Any]:
    """A text whose numbers of notes have no brackets around them, since they get some."""
    for place in range(1, len(nodes) - 1):
        before, node, after = nodes[place - 1 : place + 2]
        if not isinstance(node, dict) or node.get("t") not in ("Note", UNKNOWN_NOTE):
            continue
        if _ends(before, "[") and _begins(after, "]"):
            nodes[place - 1] = {"t": "Str", "c": before["c"][:-1]}
            nodes[place + 1] = {"t": "Str", "c": after["c"][1:]}
    return [each for each in nodes if each != {"t": "Str", "c": ""}]


def _ends(node: Any, text: str) -> bool:
    is_text = isinstance(node, dict) and node.get("t") == "Str"
    return is_text and node["c"].endswith(text)


def _begins(node: Any, text: str) -> bool:
    is_text = isinstance(node, dict) and node.get("t") == "Str"
    return is_text and node["c"].startswith(text)


def _has_print(node: Node) -> bool:
    """Whether a block is more than a line or a blank."""
    if node["t"] in ("Para", "Plain"):
        return any(each["t"] not in ("LineBreak", "Space") for each in node["c"])
    return bool(node["t"] != "HorizontalRule")


def _aside(span: Node) -> Node:
    """A note that stands in the line, without the brackets around it."""
    breaks = ("LineBreak", "Space", "SoftBreak")
    inlines = [dict(each) for each in span["c"][1] if each["t"] != "LineBreak"]
    while inlines and inlines[-1]["t"] in breaks:
        inlines.pop()
    if inlines and inlines[0]["t"] == inlines[-1]["t"] == "Str":
        inlines[0]["c"] = inlines[0]["c"].removeprefix("[")
        inlines[-1]["c"] = inlines[-1]["c"].removesuffix("]")
    note = {"t": "Note", "c": [{"t": "Para", "c": inlines}]}
    return {**note, "of": span["c"][0][0]} if span["c"][0][0] else note


def _without_number(blocks: list[Node], target: str, label: str) -> list[Node]:
    """The blocks of a note without the number with which they begin."""
    if not blocks:
        return blocks
    first, *rest = blocks
    if first["t"] == "Div":
        attributes, inner = first["c"]
        return [
            {**first, "c": [attributes, _without_number(inner, target, label)]},
            *rest,
        ]
    if first["t"] not in ("Para", "Plain"):
        return blocks
    inlines = first["c"]
    if inlines and inlines[0]["t"] == "Span" and inlines[0]["c"][0][0] == target:
        inlines = [*inlines[0]["c"][1], *inlines[1:]]
    number = re.compile(rf"[\[({{]?\s*({re.escape(label)})?\s*[\])}}]?[.:)]?")
    for count in range(min(len(inlines), _PIECES), 0, -1):
        if number.fullmatch("".join(texts(inlines[:count])).strip()):
            inlines = inlines[count:]
            break
    return [{**first, "c": inlines}, *rest]


def _without_back(value: Any) -> Any:
    """A part of a note without the links that lead back to its number."""
    if isinstance(value, list):
        return [_without_back(each) for each in value if not _is_back(each)]
    if isinstance(value, dict) and "c" in value and value["t"] != "Note":
        return {**value, "c": _without_back(value["c"])}
    return value


def _is_back(value: Any) -> bool:
    """Whether a part of a note leads back: it is said to, or is a link without a word."""
    if not isinstance(value, dict) or value.get("t") not in ("Link", "Span"):
        return False
    if leads_back(_said_of(value)):
        return True
    return _is_inner(value) and not re.search(r"\w", "".join(texts(value["c"][1])))
