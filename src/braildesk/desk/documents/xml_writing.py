"""Parts of a document in XML, written anew as a parser reads them, so that pandoc reads all of them."""

import re
from collections.abc import Callable, Collection, Mapping, Sequence
from dataclasses import dataclass, field
from xml.parsers import expat
from xml.sax.saxutils import escape, quoteattr

#: What parts the address of a name, the name and its prefix, as the parser gives them.
_PARTS = " "
#: A tag, and an address in it by the standard's strict form, which has addresses of its own.
_TAG = re.compile(rb"<[^<>]*")
_STRICT = re.compile(rb"(=\s*[\"'])http://purl\.oclc\.org/ooxml/(\w+)/")
_USUAL = rb"\1http://schemas.openxmlformats.org/\2/2006/"


def _nothing_at(name: str) -> str:
    return ""


def _is_kept(name: str, attributes: Sequence[str]) -> bool:
    return False


@dataclass(frozen=True)
class Rewriting:
    """How a part is written anew; names are the addresses and names that ElementTree has."""

    #: What is put at the front of an element, asked once for each, in their order.
    front_of: Callable[[str], str] = _nothing_at
    #: What is put ahead of an element, asked after that, also of one that is left out itself.
    ahead_of: Callable[[str], str] = _nothing_at
    #: The elements of which what they have is left alone.
    unwrapped: Collection[str] = ()
    #: Whether an element with names and values of attributes is left out, with all that it has.
    is_left_out: Callable[[str, Sequence[str]], bool] = _is_kept
    #: The name that stands in place of that of an element, if one does.
    renamed: Callable[[str], str] = _nothing_at
    #: The prefixes by which pandoc knows addresses.
    prefixes: Mapping[str, str] = field(default_factory=dict)


def transitional(part: bytes) -> bytes:
    """A part of a document in DOCX with the addresses that Word writes unless it is told otherwise."""
    if b"//purl.oclc.org/ooxml/" not in part:
        return part
    return _TAG.sub(lambda tag: _STRICT.sub(_USUAL, tag[0]), part)


def rewritten(part: bytes, rewriting: Rewriting) -> bytes:
    """A part that can be read, written anew."""
    writer = _Writer(rewriting)
    parser = expat.ParserCreate(namespace_separator=_PARTS)
    parser.namespace_prefixes = True
    parser.ordered_attributes = True
    parser.buffer_text = True
    parser.StartNamespaceDeclHandler = writer.declare
    parser.StartElementHandler = writer.begin
    parser.EndElementHandler = writer.end
    parser.CharacterDataHandler = writer.text
    parser.Parse(part, True)
    return "".join(writer.pieces).encode()


class _Writer:
    """What writes the elements that a parser finds."""

    def __init__(self, rewriting: Rewriting) -> None:
        self.pieces: list[str] = []
        self._how = rewriting
        self._declared: dict[str, str] = {}
        #: The prefixes that hold within elements which aren't written.
        self._outer: list[dict[str, str]] = []
        #: What ends each of the elements that are open.
        self._ends: list[str] = []
        #: How many elements are open in one that is left out, with that one.
        self._left_out = 0

    def declare(self, prefix: str | None, address: str | None) -> None:
        """Notes the prefix that the next element gives to an address."""
        name = self._prefix(address or "", prefix or "")
        self._declared[f"xmlns:{name}" if name else "xmlns"] = address or ""

    def begin(self, name: str, attributes: list[str]) -> None:
        """Writes the tag with which an element begins, and what is put at its front."""
        found = _found(name)
        front, ahead = self._how.front_of(found), self._how.ahead_of(found)
        if not self._left_out:
            self.pieces.append(ahead)
        if self._left_out or self._how.is_left_out(found, attributes):
            self._left_out += 1
            self._declared = {}
            self._ends.append("")
            return
        if found in self._how.unwrapped:
            self._outer.append(self._declared)
            self._declared = {}
            self._ends.append("")
            return
        declared: dict[str, str] = {}
        for each in (*self._outer, self._declared):
            declared |= each
        self._declared = {}
        pairs = [*declared.items()]
        pairs += zip(map(self._name, attributes[::2]), attributes[1::2])
        written = "".join(f" {key}={quoteattr(value)}" for key, value in pairs)
        own = self._how.renamed(found) or self._name(name)
        self.pieces += (f"<{own}{written}>", front)
        self._ends.append(f"</{own}>")

    def end(self, name: str) -> None:
        """Writes the tag with which an element ends."""
        self.pieces.append(self._ends.pop())
        if self._left_out:
            self._left_out -= 1
        elif _found(name) in self._how.unwrapped:
            self._outer.pop()

    def text(self, text: str) -> None:
        """Writes the text between tags."""
        if not self._left_out:
            self.pieces.append(escape(text))

    def _name(self, name: str) -> str:
        """A name with its prefix, if it has one."""
        address, *rest = name.split(_PARTS)
        if not rest:
            return name
        prefix = self._prefix(address, "".join(rest[1:]))
        return f"{prefix}:{rest[0]}" if prefix else rest[0]

    def _prefix(self, address: str, own: str) -> str:
        """The prefix of an address: its own, unless pandoc knows that by another, or as another one's."""
        taken = own in self._how.prefixes.values()
        return self._how.prefixes.get(address, f"{own}_" if taken else own)


def _found(name: str) -> str:
    """A name as ElementTree has it."""
    if _PARTS not in name:
        return name
    address, local, *_ = name.split(_PARTS)
    return f"{{{address}}}{local}"
