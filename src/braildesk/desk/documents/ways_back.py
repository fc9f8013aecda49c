"""Links that are numbers of notes, as the links say that lead back to them.

A page may have notes of which nothing else says so. A number and its note lead to each other: to what the one
has, or to a name right before it in its paragraph, nothing leads but the other.
"""

import re
from collections.abc import Collection, Iterable, Mapping
from dataclasses import dataclass
from typing import Any

from braildesk.desk.documents.nodes import label_of, name_of, target_of, texts
from braildesk.desk.documents.tree import Node

#: What a link has that is the number of a note though nothing says so; and one that is raised, or in brackets.
_BARE = re.compile(r"\d{1,4}|[*†‡§]{1,4}")
_MARKED = re.compile(r"[^\W_]{1,5}([ .\u00a0]?\d{1,4})?")
_LETTER = re.compile(r"[^\W\d_]")
_TEXTS = ("Para", "Plain", "Header")
_BLANKS = ("Space", "SoftBreak", "LineBreak")
#: How many names are looked at before a number.
_NEAR = 3


def is_bare(label: str) -> bool:
    """Whether a link with such a text may be the number of a note wherever it stands."""
    return _BARE.fullmatch(label) is not None


@dataclass(slots=True)
class _Link:
    """Where a link stands: its place in the tree, its text, and what is before it there."""

    place: int
    text: int
    #: The names right before it.
    near: tuple[str, ...]
    is_raised: bool
    #: Whether its text has words before it.
    is_after_words: bool
    #: Whether a blank is right before it.
    is_after_blank: bool


class WaysBack:
    """The places of the links of a tree, and of some of its parts, by which is known what leads back to what."""

    def __init__(self, blocks: list[Node], parts: Collection[int]) -> None:
        self._wanted = parts
        #: The first place of each part and the one after its last.
        self._spans: dict[int, tuple[int, int]] = {}
        self._links: dict[int, _Link] = {}
        #: The first and the last place from which links lead to each name, and the text that has it.
        self._uses: dict[str, tuple[int, int]] = {}
        self._texts: dict[str, int] = {}
        self._place = self._text = self._raised = 0
        self._near: list[str] = []
        self._has_words = self._is_after_blank = False
        self._walk(blocks)

    def _walk(self, blocks: list[Node]) -> None:
        waiting: list[tuple[Any, int]] = [(blocks, -1)]
        while waiting:
            found, start = waiting.pop()
            if start >= 0:
                self._end(found, start)
                continue
            is_node = isinstance(found, dict)
            if is_node:
                self._begin(found)
            if id(found) in self._wanted or is_node and found.get("t") == "Superscript":
                # a list begins at the first node in it
                waiting.append((found, self._place + (not is_node)))
            if is_node:
                waiting.append((found.get("c"), -1))
            elif isinstance(found, list):
                waiting += [(each, -1) for each in reversed(found)]

    def _begin(self, node: Node) -> None:
        self._place += 1
        # what is cited has none
        kind = node.get("t")
        if kind in _TEXTS:
            self._text += 1
            self._near = []
            self._has_words = False
        if name := name_of(node):
            self._texts.setdefault(name, self._text)
            self._near = [*self._near[1 - _NEAR :], name]
        if kind == "Str":
            self._has_words |= _LETTER.search(node["c"]) is not None
            self._is_after_blank = node["c"][-1:].isspace()
        elif kind in _BLANKS:
            self._is_after_blank = True
        elif kind == "Superscript":
            self._raised += 1
        elif kind == "Link":
            self._links[id(node)] = _Link(
                self._place,
                self._text,
                tuple(self._near),
                self._raised > 0,
                self._has_words,
                self._is_after_blank,
            )
            if node["c"][2][0].startswith("#"):
                first, _ = self._uses.get(target_of(node), (self._place, 0))
                self._uses[target_of(node)] = first, self._place

    def _end(self, found: Any, start: int) -> None:
        if id(found) in self._wanted:
            self._spans[id(found)] = start, self._place + 1
        if isinstance(found, dict) and found.get("t") == "Superscript":
            self._raised -= 1

    def is_marked(self, link: Node) -> bool:
        """Whether a link has nothing but a number or some letters, and is raised or in brackets."""
        label, its = label_of(link), self._links.get(id(link))
        is_raised = its is not None and its.is_raised
        is_raised |= [each["t"] for each in link["c"][1]] == ["Superscript"]
        is_apart = is_raised or "".join(texts(link["c"][1])).strip().startswith("[")
        return is_apart and bool(_MARKED.fullmatch(label) or is_bare(label))

    def lead_to(self, link: Node, part: Any) -> bool:
        """Whether a link to a part of the tree may be a number, to which that part alone leads back."""
        its = self._links.get(id(link))
        # those of parts stand alone
        if its is None or not its.is_after_words:
            return False
        label = label_of(link)
        # after a blank a number is a word, as that of a page or a chapter
        is_apart = is_bare(label) and not (its.is_after_blank and label.isdigit())
        if not (is_apart or self.is_marked(link)):
            return False
        start, stop = self._spans[id(part)]
        uses = (self._uses.get(name, (-1, -1)) for name in its.near)
        return any(start <= first and last < stop for first, last in uses)

    def containers(self, links: Iterable[int], parts: Iterable[int]) -> dict[int, int]:
        """The innermost of some parts in which each link stands that is in one."""
        spans = [(*self._spans[each], each) for each in parts]
        spans.sort(key=lambda span: (-span[0], span[1]))
        found: dict[int, int] = {}
        opened: list[tuple[int, int, int]] = []
        for place, link in sorted((self._links[each].place, each) for each in links):
            while spans and spans[-1][0] <= place:
                opened.append(spans.pop())
                while len(opened) > 1 and opened[-2][1] <= opened[-1][0]:
                    del opened[-2]
            while opened and opened[-1][1] <= place:
                opened.pop()
            if opened:
                found[link] = opened[-1][2]
        return found

    def text_of(self, link: int) -> int:
        """The number of the text in which a link stands."""
        return self._links[link].text

    def text_with(self, name: str) -> int:
        """The number of the text that has a name; 0 if none does."""
        return self._texts.get(name, 0)


def reached(leading: Mapping[int, int], containers: Mapping[int, int]) -> set[int]:
    """The parts to which links lead from outside of all, or from such parts: not from each other alone."""
    inner: dict[int, set[int]] = {}
    for link, part in leading.items():
        inner.setdefault(containers.get(link, 0), set()).add(part)
    waiting, found = [0], {0}
    while waiting:
        for part in inner.get(waiting.pop(), set()) - found:
            found.add(part)
            waiting.append(part)
    return found
