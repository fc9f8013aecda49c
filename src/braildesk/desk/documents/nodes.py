"""Nodes of pandoc's trees: their words, and the names by which links lead to them."""

from collections.abc import Iterator
from typing import Any

from braildesk.desk.documents.tree import Node

#: What stands around the number of a note.
MARKS = " \u00a0[](){}"


def nodes(value: Any) -> Iterator[Node]:
    """All nodes of a tree, from its front on; of a note to which a link led it alone."""
    waiting = [value]
    while waiting:
        found = waiting.pop()
        if isinstance(found, dict):
            yield found
            if "label" not in found:
                waiting.append(found.get("c"))
        elif isinstance(found, list):
            waiting.extend(reversed(found))


def texts(value: Any) -> Iterator[str]:
    """The words of a part of the tree, in which a picture is a sign."""
    for node in nodes(value):
        match node.get("t"):
            case "Str":
                yield node["c"]
            case "Code" | "Math" | "RawInline":
                yield node["c"][1]
            case "Space" | "SoftBreak" | "LineBreak":
                yield " "
            case "Image":
                yield "\ufffc"


def target_of(link: Node) -> str:
    """The name to which a link leads, or its address."""
    target: str = link["c"][2][0]
    return target.removeprefix("#")


def name_of(node: Node) -> str:
    """The name by which links lead to a node; nothing if it has none."""
    if node.get("t") not in ("Div", "Span", "Link"):
        return ""
    name: str = node["c"][0][0]
    return name


def label_of(link: Node) -> str:
    """The number of a note as it is written, without what stands around it."""
    return "".join(texts(link["c"][1])).strip(MARKS)
