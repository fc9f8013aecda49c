"""The text that Word hides, by its own properties or by a style."""

from collections.abc import Collection, Iterator
from xml.etree.ElementTree import Element

_W = "{http://schemas.openxmlformats.org/wordprocessingml/2006/main}"
_OFF = ("0", "false", "off")
#: How many styles are looked at of those that one is based on.
_DEEPEST = 50


def hiding(styles: Element) -> Iterator[str]:
    """The names of the styles that hide text, themselves or by one that they are based on."""
    known = {
        # each is looked through once, though many may be based on it
        each.get(f"{_W}styleId", ""): (_is_hidden(each), _named(each, "basedOn"))
        for each in styles.iter(f"{_W}style")
    }
    for name in known:
        base = name
        for _ in range(_DEEPEST):
            if base not in known:
                break
            is_hidden, base = known[base]
            if is_hidden is not None:
                yield from [name] if is_hidden else ()
                break


def hidden_runs(root: Element, styles: Collection[str]) -> Iterator[Element]:
    """The runs of a part that are hidden, by some styles too."""
    around = {
        id(run): is_hidden
        for paragraph in root.iter(f"{_W}p")
        for is_hidden in [_named(paragraph, f"pPr/{_W}pStyle") in styles]
        for run in paragraph.iter(f"{_W}r")
    }
    for run in root.iter(f"{_W}r"):
        is_hidden = _is_hidden(run)
        if is_hidden is None:
            by_its_own = _named(run, f"rPr/{_W}rStyle") in styles
            is_hidden = by_its_own or around.get(id(run), False)
        if is_hidden:
            yield run


def hidden_rows(root: Element) -> Iterator[Element]:
    """The rows of tables of a part that are hidden."""
    for row in root.iter(f"{_W}tr"):
        said = row.find(f"{_W}trPr/{_W}hidden")
        if said is not None and said.get(f"{_W}val") not in _OFF:
            yield row


def _named(element: Element, path: str) -> str:
    found = element.find(f"{_W}{path}")
    return "" if found is None else found.get(f"{_W}val", "")


def _is_hidden(element: Element) -> bool | None:
    """Whether the properties of a run or of a style hide text, if they say so."""
    said = element.find(f"{_W}rPr/{_W}vanish")
    return None if said is None else said.get(f"{_W}val") not in _OFF
