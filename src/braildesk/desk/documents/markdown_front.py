"""What a text in Markdown says about itself at its front, between two lines of hyphens.

Where a text has that, pandoc takes what stands between such lines further on for the same, as what two speak
between two scenes: it leaves out all but the last of each name, and what is no name of something.
"""

import re
from collections.abc import Sequence

from braildesk.desk.documents.markdown_notes import AHEAD, BEFORE_NOTE, NO_NOTE

#: The line that begins what a text says about itself, and what ends it.
_HYPHENS = "---"
_ENDS = (_HYPHENS, "...")
#: Such a line further on, and one in which it isn't indented so far that it may be shown as it is written.
_BEGINNING = re.compile(rf"(?:[ \t>]*|.*>[ \t]*){_HYPHENS}[ \t]*")
_PLAIN = re.compile(rf"(?: {{0,3}}>)* {{0,3}}{_HYPHENS}[ \t]*")
#: A line that begins lines that are shown as they are written, or ends them if it has no other signs.
_FENCE = re.compile(rf"({AHEAD})(`{{3,}}+(?=[^`]*$)|~{{3,}})(.*)")
#: A name with a number, and one with a switch; pandoc drops zeros of the one, and takes print for the other.
_NUMBER = re.compile(r"([\w-]+:[ \t]+)([-+]?\.?[0-9][\w.+-]*)([ \t]*)")
_SWITCH = re.compile(
    r"([\w-]+:[ \t]+)(y|yes|on|true|n|no|off|false)([ \t]*)", re.IGNORECASE
)
_ON = ("y", "yes", "on", "true")
#: The names of what is print.
_PRINT = re.compile("(title|subtitle|author|date|abstract):")


def with_plain_values(text: str) -> str:
    """A text whose front says numbers, and words that are print, as they are written there."""
    lines = text.split("\n")
    for place, line in enumerate(lines[: front_of(lines)]):
        found = _NUMBER.fullmatch(line)
        if found is None and _PRINT.match(line):
            found = _SWITCH.fullmatch(line)
        if found:
            lines[place] = found.expand(r'\1"\2"\3')
    return "\n".join(lines)


def with_usual_switch(line: str) -> str:
    """A line of a front in which a switch that is no print has the usual word."""
    found = None if _PRINT.match(line) else _SWITCH.fullmatch(line)
    if found is None:
        return line
    return found[1] + ("true" if found[2].lower() in _ON else "false")


def with_one_front(text: str) -> str:
    """A text in which lines of hyphens after its front, which mean the same in print, have one more.

    Where they may be shown as they are written, or be a dash, they have a mark before them.
    """
    lines = text.split("\n")
    ended = _ended(lines)
    fence = ""
    for place in range(front_of(lines), len(lines) - 1):
        line = lines[place]
        fenced = _FENCE.match(line)
        if fenced and not fence and place in ended:
            fence = fenced[2]
        elif fenced and fenced[2].startswith(fence) and _is_end(fenced):
            fence = ""
        if lines[place + 1].strip(" \t>") and _BEGINNING.fullmatch(line):
            before = lines[max(place - 2, 0) : place]
            are_after = [BEFORE_NOTE.fullmatch(each) is not None for each in before]
            if not fence and are_after[-1:] == [True] and _PLAIN.fullmatch(line):
                lines[place] = f"{line.rstrip()}-"
            # what stands below one line makes a heading of it
            elif fence or are_after != [True, False]:
                lines[place] = f"{NO_NOTE}{_HYPHENS}".join(line.rsplit(_HYPHENS, 1))
    return "\n".join(lines)


def _ended(lines: Sequence[str]) -> set[int]:
    """The lines that begin what is shown as it is written which have one after them that ends it."""
    ended: set[int] = set()
    longest = {"`": 0, "~": 0}
    for place in reversed(range(len(lines))):
        if fenced := _FENCE.match(lines[place]):
            sign, length = fenced[2][0], len(fenced[2])
            if length <= longest[sign]:
                ended.add(place)
            if _is_end(fenced):
                longest[sign] = max(longest[sign], length)
    return ended


def _is_end(fenced: re.Match[str]) -> bool:
    """Whether a line may end what is shown as it is written."""
    return not fenced[1].strip(" \t>") and not fenced[3].strip()


def front_of(lines: Sequence[str]) -> int:
    """How many lines the front of a text has, with the blank ones before it and the one that ends it.

    Where a blank line is after the hyphens, what follows is print.
    """
    start = next((n for n, line in enumerate(lines) if line.strip()), 0)
    if lines[start].rstrip() != _HYPHENS or not "".join(lines[start + 1 :][:1]).strip():
        return start
    ends = (n for n, line in enumerate(lines) if n > start and line.rstrip() in _ENDS)
    return next(ends, start) + 1
