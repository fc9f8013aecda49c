"""What style sheets say of the marks of lists, of numbers that they count themselves, of what isn't shown, of
what stands on lines of its own, and of emphasis, as far as a plain reader of them can tell.

Rules are known whose selectors name elements, classes and identifiers, within others or not, for all
media or for print.
"""

import re
from collections.abc import Callable, Collection, Iterator, Mapping, Sequence
from dataclasses import dataclass
from itertools import islice
from pathlib import PurePosixPath
from posixpath import normpath
from urllib.parse import unquote

#: A comment, which goes on to the end where nothing ends it.
_COMMENT = re.compile(r"/\*.*?(?:\*/|\Z)", re.DOTALL)
_BRACE = re.compile("[{}]")
_FOR_PRINT = re.compile(r"@media\s+(?:only\s+)?(?:all|print)", re.IGNORECASE)
#: A sheet that another one has ahead of its own rules, with the media for which it does; and what else
#: may be said there.
_IMPORT = re.compile(
    r"""@import\s*(?:url\(\s*)?(?:"([^"]*)"|'([^']*)'|([^"')\s;]+))\s*\)?([^;]*)""",
    re.IGNORECASE,
)
_CONDITION = re.compile(r"\b(?:layer|supports)\b(?:\([^()]*\))?", re.IGNORECASE)
_PRINTED = re.compile(r"\b(?:all|print)\b", re.IGNORECASE)
#: How deep sheets import each other, how many one has with those that it imports, and how many rules.
_MOST_NESTED, _MOST_SHEETS, _MOST_RULES = 8, 100, 10_000
#: How much is tried of rules for the elements of a file, which takes some seconds.
_MOST_STEPS = 8_000_000
#: How many steps it takes to look at a rule, beside those of its selectors; and to order one by what it names.
_OF_RULE, _OF_ORDER = 4, 16
_SELECTOR = re.compile(r"([\w-]+|\*)?((?:[.#][\w-]+)*)")
#: How deep rules for some media are looked for within others.
_DEEPEST = 8
#: How many elements around each other are looked at, the innermost: programs that show pages nest no more.
_INNERMOST = 512
_TYPE, _DISPLAY = "list-style-type", "display"
_PLACES = ("inside", "outside")
#: What else is known of how words are shown, by the names for it, of which one says several things.
_SHAPES = {
    **{
        name: name
        for name in "font-style font-weight font-variant text-decoration text-transform vertical-align".split()
    },
    "font-variant-caps": "font-variant",
    "text-decoration-line": "text-decoration",
}
_FONT = {
    "italic": "font-style",
    "oblique": "font-style",
    "bold": "font-weight",
    "small-caps": "font-variant",
}
_SHOWN = frozenset((_DISPLAY, *_SHAPES.values()))
#: What stands in front of an element, and a number in it; rules say of the element that it is counted.
_BEFORE = re.compile("::?before$", re.IGNORECASE)
_CONTENT = re.compile(r"(?:^|[;\s])content\s*:([^;]*)", re.IGNORECASE)
_COUNTER = re.compile(r"\bcounters?\s*\(", re.IGNORECASE)
_COUNTED = "counted"
#: Whether declarations are important: first those that aren't.
_GRAVE = (False, True)
#: What only says where another value is taken from.
_ELSEWHERE = ("inherit", "initial", "unset", "revert", "revert-layer")


@dataclass(frozen=True, slots=True)
class PageElement:
    """An element of a page, as selectors name it."""

    tag: str
    name: str
    classes: frozenset[str]


@dataclass(frozen=True, slots=True)
class _Selector:
    """What is said of an element: its tag, its identifiers and its classes."""

    tag: str
    names: frozenset[str]
    classes: frozenset[str]

    @property
    def key(self) -> str:
        """One of the things that it names, which each element has that is such a one."""
        if self.names:
            return f"#{min(self.names)}"
        return f".{min(self.classes)}" if self.classes else self.tag

    def fits(self, element: PageElement) -> bool:
        """Whether an element is such a one."""
        return (
            self.tag in ("*", element.tag)
            and self.names <= {element.name}
            and self.classes <= element.classes
        )


@dataclass(frozen=True, slots=True)
class Rule:
    """What a sheet says of the elements that a selector names, within others before it."""

    selectors: tuple[_Selector, ...]
    #: Whether each but the first stands right within the one before it.
    is_child: tuple[bool, ...]
    values: Mapping[str, str]
    #: How grave it is beside others; those that are said to be important are graver than all others.
    weight: tuple[bool, int, int, int]

    @property
    def is_important(self) -> bool:
        """Whether it goes before what an element says itself."""
        return self.weight[0]

    def fits(self, path: Sequence[PageElement]) -> bool:
        """Whether it is for the last of some elements, each of which is within the one before it."""
        *outer, last = self.selectors
        # where the element may stand that each of the selectors names, the innermost first
        places = [len(path) - 1] if last.fits(path[-1]) else []
        for selector, is_child in zip(reversed(outer), reversed(self.is_child)):
            inner = places[0] if places else 0
            before = range(inner - 1, -1, -1)
            its = [place - 1 for place in places if place] if is_child else before
            places = [place for place in its if selector.fits(path[place])]
        return bool(places)


#: A rule with what it is ordered by, and what it names of elements around.
_Numbered = tuple[tuple[bool, int, int, int], int, frozenset[str], Rule]


class Effort:
    """How much may still be tried of the rules of a file, whose sheets aren't read any further then."""

    def __init__(self, steps: int = _MOST_STEPS) -> None:
        self._left = steps

    def take(self, steps: int) -> bool:
        """Takes some steps; whether there were so many."""
        self._left -= steps
        return self._left >= 0


class _Index:
    """Some rules by what their last selectors name, and by what those before them do."""

    def __init__(self) -> None:
        #: Each with its number and all that it names of elements around.
        self._rules: dict[str, dict[str, list[_Numbered]]] = {}

    def add(self, number: int, rule: Rule) -> None:
        """Adds a rule that comes after those of lower numbers."""
        *outer, last = (each.key for each in rule.selectors)
        groups = self._rules.setdefault(last, {})
        numbered = rule.weight, number, frozenset(outer), rule
        groups.setdefault(outer[-1] if outer else "", []).append(numbered)

    def groups_of(self, keys: Sequence[str]) -> list[dict[str, list[_Numbered]]]:
        """Those that may be for an element of which some keys are named, by what an element around it must have."""
        return [self._rules[key] for key in keys if key in self._rules]


class Rules:
    """Some rules in their order, which are found by what they say and what they name."""

    def __init__(self, rules: Sequence[Rule] = ()) -> None:
        self.rules: list[Rule] = []
        #: Those that say whether elements are counted; something of the marks of lists; or how elements are shown.
        self.counting, self.listing, self.showing = _Index(), _Index(), _Index()
        self.add(rules)

    def add(self, rules: Sequence[Rule]) -> None:
        """Adds rules after the others."""
        for number, rule in enumerate(rules, len(self.rules)):
            if _COUNTED in rule.values:
                self.counting.add(number, rule)
            if {_TYPE, _DISPLAY} & rule.values.keys():
                self.listing.add(number, rule)
            if not _SHOWN.isdisjoint(rule.values):
                self.showing.add(number, rule)
        self.rules += rules


class Sheet:
    """The rules of some style sheets, of which later ones come after the others."""

    def __init__(self, effort: Effort) -> None:
        self._effort = effort
        self._count = 0
        #: The rules of each sheet, of which those of the page itself that follow each other are one; and these if
        #: they are the last.
        self._all: list[Rules] = []
        self._own: Rules | None = None
        #: Some elements around others, and what they have that rules name.
        self._outer: tuple[PageElement, ...] = ()
        self._around = frozenset([""])
        #: Whether there is more to try of the rules than is tried; and whether that is so, or there are more rules.
        self._is_spent = self.is_cut = False

    def link(self, linked: Rules) -> None:
        """Adds the rules of a sheet, which others may link to, after the others."""
        if len(linked.rules) > _MOST_RULES - self._count:
            self.add(linked.rules)
        elif linked.rules and not self._is_spent:
            self._all.append(linked)
            self._own = None
            self._count += len(linked.rules)

    def add(self, rules: Sequence[Rule]) -> None:
        """Adds the rules of a sheet of the page itself after the others."""
        left = _MOST_RULES - self._count
        self.is_cut |= len(rules) > left
        rules = rules[:left]
        self._take(_OF_ORDER * len(rules))
        if not rules or self._is_spent:
            return
        if self._own is None:
            self._own = Rules()
            self._all.append(self._own)
        self._own.add(rules)
        self._count += len(rules)

    def mark_of(self, path: Sequence[PageElement], own: str) -> str | None:
        """What stands before an item of a list, or the items of one, if that is said.

        ``path`` is the element and those that it is within, ``own`` the style that it has itself.
        """
        said: tuple[dict[str, str], ...] = ({}, {})
        for rule in self._heaviest([each.listing for each in self._all], path):
            values = said[rule.is_important]
            if not rule.values.keys() <= values.keys() and self._fits(rule, path):
                values.update({**rule.values, **values})
        plain, important = said
        values = plain | _values(own, False) | important | _values(own, True)
        display = values.get(_DISPLAY, "list-item")
        if path[-1].tag == "li" and "list-item" not in display:
            return "none"
        return values.get(_TYPE)

    def is_counted(self, path: Sequence[PageElement]) -> bool:
        """Whether a number stands in front of an element that no page has, within those before it."""
        found = self._heaviest([each.counting for each in self._all], path)
        fit = next((rule for rule in found if self._fits(rule, path)), None)
        return fit is not None and bool(fit.values[_COUNTED])

    def shown_of(self, path: Sequence[PageElement], own: str) -> dict[str, str]:
        """How an element is shown, as far as that is said; ``path`` and ``own`` are as above."""
        plain, important = own_values(own), _values(own, True)
        for rule in self._heaviest([each.showing for each in self._all], path):
            values = important if rule.is_important else plain
            if not rule.values.keys() <= values.keys() and self._fits(rule, path):
                values.update({**rule.values, **values})
        return plain | important

    def _heaviest(
        self, indices: Sequence[_Index], path: Sequence[PageElement]
    ) -> Iterator[Rule]:
        """Those rules, the heaviest first, that may be for an element by what it and those around it have."""
        found: list[tuple[tuple[bool, int, int, int], int, int, Rule]] = []
        keys = _keys(path[-1]) if indices else []
        if keys:
            self._take(len(keys) * len(indices))
        for order, index in enumerate(indices):
            for groups in () if self._is_spent else index.groups_of(keys):
                around = self._keys_around(path)
                fewer: Collection[str] = min(groups, around, key=len)
                its = [groups[key] for key in fewer if key in groups and key in around]
                self._take(len(fewer) + _OF_RULE * sum(map(len, its)))
                found += (
                    (weight, order, number, rule)
                    for rules in its
                    for weight, number, named, rule in rules
                    if named <= around
                )
        found.sort(key=lambda each: each[:3], reverse=True)
        return (rule for *_, rule in found)

    def _keys_around(self, path: Sequence[PageElement]) -> frozenset[str]:
        """What rules may name of the elements around the last of some."""
        outer = tuple(path[-_INNERMOST:-1])
        if outer != self._outer:
            keys = [key for element in outer for key in _keys(element)]
            self._outer, self._around = outer, frozenset(["", *keys])
            self._take(len(keys))
        return self._around

    def _fits(self, rule: Rule, path: Sequence[PageElement]) -> bool:
        """Whether a rule is for the last of some elements; none is any more if too much was tried."""
        inner = path[-_INNERMOST:]
        self._take(len(inner) * len(rule.selectors))
        return not self._is_spent and rule.fits(inner)

    def _take(self, steps: int) -> None:
        self._is_spent |= not self._effort.take(steps)
        self.is_cut |= self._is_spent


class Sheets:
    """The style sheets of a container by their parts, each of which is read once."""

    def __init__(self, text_of: Callable[[str], str | None], effort: Effort) -> None:
        #: What the text of a part is; None of one that isn't there.
        self._text_of = text_of
        self._effort = effort
        self._own: dict[str, tuple[Mapping[str, str], tuple[Rule, ...]]] = {}
        self._whole: dict[str, Rules | None] = {}
        #: The addresses of those that others import and that aren't there, by their parts.
        self.absent: dict[str, str] = {}

    def linked(self, part: str, address: str) -> Rules | None:
        """The rules of the sheet to which a part links; None if it isn't there, or not all that it imports is read."""
        sheet = beside(part, address)
        if sheet not in self._whole:
            rules: list[Rule] = []
            is_whole = self._add(sheet, 1, set(), rules)
            is_read = is_whole and self._effort.take(_OF_ORDER * len(rules))
            self._whole[sheet] = Rules(rules) if is_read else None
        return self._whole[sheet]

    def _add(
        self,
        sheet: str,
        depth: int,
        seen: set[str],
        rules: list[Rule],
        address: str = "",
    ) -> bool:
        """Adds the rules of a sheet after those that it imports, each sheet once; whether that is all.

        One that another imports and that isn't there, as its address says, is noted as absent.
        """
        if sheet in seen:
            return True
        if depth > _MOST_NESTED or len(seen) == _MOST_SHEETS:
            return False
        seen.add(sheet)
        if sheet not in self._own:
            text = self._text_of(sheet)
            if text is None:
                if depth > 1:
                    self.absent.setdefault(sheet, address)
                return depth > 1
            imported: dict[str, str] = {}
            for each in imports_of(text):
                imported.setdefault(beside(sheet, each), each)
            self._own[sheet] = imported, rules_of(text)
        inner, own = self._own[sheet]
        is_whole = all(
            self._add(each, depth + 1, seen, rules, its) for each, its in inner.items()
        )
        rules += own
        return is_whole and len(rules) <= _MOST_RULES


def _keys(element: PageElement) -> list[str]:
    """All that a selector may name of an element."""
    keys = ["*", element.tag, *(f".{each}" for each in element.classes)]
    return [*keys, f"#{element.name}"] if element.name else keys


def imports_of(text: str) -> tuple[str, ...]:
    """The addresses of the sheets that a style sheet, or its front, imports for print."""
    front = _COMMENT.sub(" ", text).partition("{")[0]
    found = []
    for *addresses, media in _IMPORT.findall(front):
        media = _CONDITION.sub(" ", media).strip()
        if not media or _PRINTED.search(media):
            found.append("".join(addresses))
    return tuple(found)


def beside(part: str, address: str) -> str:
    """The part to which an address leads from another one."""
    return normpath(str(PurePosixPath(part).parent / unquote(address)))


def rules_of(text: str) -> tuple[Rule, ...]:
    """The rules of a style sheet that are known and say something of lists, or of how words are shown."""
    return tuple(islice(_rules(_COMMENT.sub(" ", text), 1), _MOST_RULES + 1))


def _rules(text: str, depth: int) -> Iterator[Rule]:
    for head, body in _blocks(text):
        if _FOR_PRINT.fullmatch(head):
            yield from _rules(body, depth + 1) if depth < _DEEPEST else ()
        elif not head.startswith("@"):
            both, counted = [_values(body, each) for each in _GRAVE], [_counted(body)]
            for selector in map(str.strip, head.split(",")):
                its = counted if _BEFORE.search(selector) else both
                for is_important, values in zip(_GRAVE, its):
                    name = _BEFORE.sub("", selector)
                    rule = _rule(name, values, is_important) if values else None
                    yield from [] if rule is None else [rule]


def _blocks(text: str) -> Iterator[tuple[str, str]]:
    """What stands in braces, each with what stands before it."""
    depth = front = place = 0
    for brace in _BRACE.finditer(text):
        if brace[0] == "{":
            if not depth:
                front = brace.end()
            depth += 1
        elif depth:
            depth -= 1
            if not depth:
                # statements, as of the encoding, end with a semicolon
                head = text[place : front - 1].rpartition(";")[2]
                yield head.strip(), text[front : brace.start()]
                place = brace.end()


def _rule(selector: str, values: Mapping[str, str], is_important: bool) -> Rule | None:
    """The rule of a selector; None of one that isn't known."""
    selectors: list[_Selector] = []
    is_child: list[bool] = []
    for word in selector.replace(">", " > ").split():
        if word == ">":
            is_child[len(selectors) - 1 :] = [True]
            continue
        known = _SELECTOR.fullmatch(word)
        if known is None:
            return None
        marks = re.findall(r"([.#])([\w-]+)", known[2])
        names = frozenset(name for mark, name in marks if mark == "#")
        classes = frozenset(name for mark, name in marks if mark == ".")
        if len(is_child) < len(selectors):
            is_child.append(False)
        selectors.append(_Selector((known[1] or "*").lower(), names, classes))
    if not selectors or len(is_child) != len(selectors) - 1:
        return None
    weight = is_important, *_weight(selectors)
    return Rule(tuple(selectors), tuple(is_child), values, weight)


def _weight(selectors: Sequence[_Selector]) -> tuple[int, int, int]:
    """How grave a rule is beside others: by identifiers, classes and tags."""
    names = sum(len(each.names) for each in selectors)
    classes = sum(len(each.classes) for each in selectors)
    tags = sum(each.tag != "*" for each in selectors)
    return names, classes, tags


def _counted(text: str) -> dict[str, str]:
    """Whether declarations for the front of an element say that it is a number."""
    found = _CONTENT.findall(text)
    return {_COUNTED: "yes" * bool(_COUNTER.search(found[-1]))} if found else {}


def own_values(text: str) -> dict[str, str]:
    """What an element says of itself that isn't important."""
    return _values(text, False)


def _values(text: str, is_important: bool) -> dict[str, str]:
    """What declarations say of the marks of lists, and of what is shown: those that are important, or the others."""
    values: dict[str, str] = {}
    for declaration in text.split(";"):
        name, _, value = declaration.partition(":")
        said, sign, _ = value.lower().partition("!")
        words, name = said.split(), name.strip().lower()
        if not words or words[0] in _ELSEWHERE or bool(sign) is not is_important:
            continue
        if name in (_TYPE, _DISPLAY):
            values[name] = words[0]
        elif name in _SHAPES:
            values[_SHAPES[name]] = " ".join(words)
        elif name == "font":
            values.update((_FONT[word], word) for word in words if word in _FONT)
        elif name == "list-style":
            types = [word for word in words if word not in _PLACES]
            values[_TYPE] = types[0] if types else "disc"
    return values
