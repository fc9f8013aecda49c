"""What a terminal can show: its encoding, and texts in it."""

import os
from collections.abc import Mapping

from braildesk.text.wrapping import columns

# what stands in sentences, for a terminal that lacks it
_INSTEAD = {"“": '"', "”": '"', "…": "~"}
_LACKING = "?"


def first_environment() -> dict[str, str]:
    """The environment as scribe was started with it, before Python took another locale."""
    try:
        with open("/proc/self/environ", "rb") as file:
            words = file.read().decode(errors="replace").split("\0")
    except OSError:
        return dict(os.environ)
    return dict(word.split("=", 1) for word in words if "=" in word)


def is_utf8(environment: Mapping[str, str]) -> bool:
    """Whether the locale of an environment says that texts are UTF-8."""
    return _locale(environment).lower().replace("-", "").endswith("utf8")


def is_plain(environment: Mapping[str, str]) -> bool:
    """Whether a terminal shows no Unicode patterns: the locale isn't UTF-8, or TERM is linux."""
    return not is_utf8(environment) or environment.get("TERM") == "linux"


def encoding_of(environment: Mapping[str, str], usual: str) -> str:
    """The encoding that the locale of an environment names, installed or not; else the usual one.

    A locale without one, such as C, says nothing of the terminal.
    """
    found = _locale(environment).partition(".")[2].partition("@")[0]
    try:
        return found if found and "a".encode(found) == b"a" else usual
    except LookupError:
        return usual


def _locale(environment: Mapping[str, str]) -> str:
    names = ("LC_ALL", "LC_CTYPE", "LANG")
    return next((environment[name] for name in names if environment.get(name)), "")


def has(encoding: str, text: str) -> bool:
    """Whether an encoding has all characters of a text."""
    try:
        text.encode(encoding)
    except UnicodeEncodeError:
        return False
    return True


def in_encoding(encoding: str, text: str) -> str:
    """A text of as many columns in which each character that an encoding lacks is another one.

    Quotation marks and ellipses have signs of ASCII instead, and other characters question marks.
    Tabs and no-break spaces are blanks, since prompt_toolkit gives them colours.
    """
    text = text.replace("\u00a0", " ").replace("\t", " ")
    if has(encoding, text):
        return text
    return "".join(
        each if has(encoding, each) else _INSTEAD.get(each, _LACKING * columns(each))
        for each in text
    )
