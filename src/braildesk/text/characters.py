"""Characters and words as sentences and screens show them."""

import re
import unicodedata
from collections.abc import Callable, Iterable

#: How many characters at most a sentence shows on either side of the one that it speaks of.
_AROUND = 20

#: How like a word has to be to a name that may be meant by it.
_NEAR = 0.75

#: Names of the control characters up to U+001F, to which Unicode gives none.
_C0_NAMES = (
    "NULL, START OF HEADING, START OF TEXT, END OF TEXT, END OF TRANSMISSION, ENQUIRY, "
    "ACKNOWLEDGE, ALERT, BACKSPACE, TAB, LINE FEED, VERTICAL TAB, FORM FEED, CARRIAGE RETURN, "
    "SHIFT OUT, SHIFT IN, DATA LINK ESCAPE, DEVICE CONTROL ONE, DEVICE CONTROL TWO, "
    "DEVICE CONTROL THREE, DEVICE CONTROL FOUR, NEGATIVE ACKNOWLEDGE, SYNCHRONOUS IDLE, "
    "END OF TRANSMISSION BLOCK, CANCEL, END OF MEDIUM, SUBSTITUTE, ESCAPE, "
    "INFORMATION SEPARATOR FOUR, INFORMATION SEPARATOR THREE, INFORMATION SEPARATOR TWO, "
    "INFORMATION SEPARATOR ONE"
).split(", ")
_OTHER_NAMES = {"\x7f": "DELETE", "\x85": "NEXT LINE"}
#: What characters of other categories without a name are.
_NAMELESS = {
    "Cc": "a control character",
    "Cs": "half of a character",
    "Co": "a private character",
    "Cn": "no character of Unicode that is known here",
}
#: What a terminal acts on or shows nothing of: control and format characters, halves of
#: characters, and what parts lines and paragraphs.
_UNSEEN = frozenset({"Cc", "Cf", "Cs", "Zl", "Zp"})

# U+0000 to U+001F but the tab, and U+007F to U+009F, as UTF-8
_CONTROL = re.compile(rb"[\x00-\x08\x0a-\x1f\x7f]|\xc2[\x80-\x9f]")

#: So many bytes at the front of a text have nearly all that stand in the rest of it.
_FRONT = 4_096


def characters_of(text: str) -> set[str]:
    """The characters that a text has."""
    return characters_in(text.encode("utf-8", "surrogatepass"))


def characters_in(data: bytes) -> set[str]:
    """Those of a text in UTF-8, of which only those are looked at that its front hasn't."""
    known = bytes(each for each in set(data[:_FRONT]) if each < 128)
    rest = data.translate(None, known).decode("utf-8", "surrogatepass")
    return {*known.decode(), *rest}


def is_visible(character: str) -> bool:
    """Whether it is seen within a text: no control, and no blank but the space of every text."""
    return character == " " or unicodedata.category(character)[0] not in "CZ"


def is_shown(character: str) -> bool:
    """Whether it stands for itself on a screen: a tab, a blank of any width, all that is seen."""
    return character == "\t" or unicodedata.category(character) not in _UNSEEN


def code_point(character: str) -> str:
    """Its code point, as in ``U+2026``."""
    return f"U+{ord(character):04X}"


def own_name(character: str) -> str:
    """The name that it has, or nothing."""
    if ord(character) < len(_C0_NAMES):
        return _C0_NAMES[ord(character)]
    return unicodedata.name(character, "") or _OTHER_NAMES.get(character, "")


def name(character: str) -> str:
    """The name that it has, or what it is."""
    return own_name(character) or _NAMELESS.get(
        unicodedata.category(character), "a nameless character"
    )


def code_and_name(character: str) -> str:
    """Its code point, and the name that it has, if it has one."""
    return f"{code_point(character)} {own_name(character)}".rstrip()


def named(character: str) -> str:
    """A character with its code point and its name, itself only if it can be seen alone."""
    known = f"{code_point(character)} {name(character)}"
    if unicodedata.category(character)[0] in "CZM":
        return known
    return f"“{character}” ({known})"


def visible(text: str, stays: Callable[[str], bool] = is_shown) -> str:
    """A text in which what can't be seen stands as its code point, as in ``<U+001B>``.

    All that is shown or said goes through here, whatever it was taken from: a print, a note, a
    file's name, a table. What stays as it is depends on where it is shown.
    """
    if text.isprintable():
        return text
    return "".join(each if stays(each) else f"<{code_point(each)}>" for each in text)


def broken_after(count: int) -> str:
    """Where a line stops being UTF-8, after so many characters."""
    if not count:
        return "from its first character on"
    return f"after its first {'character' if count == 1 else f'{count:,} characters'}"


def control_refused(line: bytes, what: str = "line") -> str | None:
    """Why a line with a text or a note isn't sent: the control character that it has, or None.

    The tab isn't refused, nor are format characters, which texts of many languages need. What is a
    part of a line is called otherwise.
    """
    found = _CONTROL.search(line)
    if found is None:
        return None
    before = line[: found.start()].decode("utf-8", "replace")
    character = found.group().decode()
    return (
        f"Character {len(before) + 1} of the {what} is {code_and_name(character)}, a control"
        " character. Texts, notes and names can't have one here. Nothing was changed."
    )


def around(text: str, place: int) -> str:
    """The words around one of the characters of a text, in quotation marks."""
    start, stop = max(place - _AROUND, 0), place + 1 + _AROUND
    if start and " " in text[start - 1 : place]:
        start = text.index(" ", start - 1) + 1
    if " " in text[place + 1 : stop + 1] and stop < len(text):
        stop = text.rindex(" ", place + 1, stop + 1)
    return f"“{visible(text[start:stop], is_visible)}”"


def shortened(text: str, most: int = 60) -> str:
    """The front of a text, in quotation marks."""
    rest = "…" if len(text) > most else ""
    return f"“{visible(text[:most], is_visible)}{rest}”"


def near(word: str, names: Iterable[str]) -> str:
    """The question whether a name was meant by a word that is none, after a blank; or nothing."""
    import difflib  # which few words need

    found = difflib.get_close_matches(word, names, n=1, cutoff=_NEAR)
    return f" Did you mean {found[0]}?" if found else ""
