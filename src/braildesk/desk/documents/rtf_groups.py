"""Groups of RTF, of which LibreOffice reads nothing after the end of the outermost one.

Of text that is written twice, for older programs too, it types both, and what parts the notes of a page from its
text it types too.
"""

import re

#: What begins or ends a group, and what only looks so; of the bytes of a picture, how many they are.
_SIGNS = re.compile(rb"\\bin([0-9]{1,9}) ?|\\.|[{}]", re.DOTALL)
#: What may stand after the end of a text and is none.
_NOTHING = b"\0\x1a \t\r\n}"
#: Where what older programs read begins, of which those that know nothing of its name read nothing.
_OLDER = re.compile(rb"(?<!\\)((?:\\\\)*+)\\upr(?![a-zA-Z])\s*\{")
_UNKNOWN = rb"\1\\upr{\\*\\uprx "
#: Where that begins which parts the notes of a page from its text, and what no program knows in its place.
_PARTING = re.compile(rb"(?<!\\)((?:\\\\)*+\{\s*)(?:\\\*\s*)?\\ftnsep(?![a-zA-Z])")
_UNKNOWN_PARTING = rb"\1\\*\\ftnsepx"


def without_older(data: bytes) -> bytes:
    """A text in RTF of whose text that is written twice only that for newer programs is read."""
    return _OLDER.sub(_UNKNOWN, data)


def without_parting(data: bytes) -> bytes:
    """A text in RTF of which nothing is read that parts the notes of a page from its text."""
    return _PARTING.sub(_UNKNOWN_PARTING, data)


def as_one_group(data: bytes) -> bytes:
    """A text in RTF whose outermost group ends with the text, not before words of it."""
    last = len(data.rstrip(_NOTHING))
    pieces: list[bytes] = []
    depth = start = place = 0
    while found := _SIGNS.search(data, place):
        place = found.end() + int(found[1] or 0)
        if found.start() >= last:
            break
        if found[0] == b"}" and depth == 1:
            pieces.append(data[start : found.start()])
            start = found.end()
        elif found[0] in b"{}":
            depth += 1 if found[0] == b"{" else -1
    return b"".join([*pieces, data[start:last], b"}" * depth]) if pieces else data
