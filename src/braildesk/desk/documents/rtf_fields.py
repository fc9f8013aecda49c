"""Fields of RTF whose results are print, where LibreOffice would work them out anew.

It shows what it knows of the file, of the day and of other places in place of what stands there, or nothing, and
opens the file of a picture to which a field leads, wherever that is.
"""

import re

#: Where the code of a field begins, and what is no text of it.
_CODE = re.compile(rb"(?<!\\)((?:\\\\)*+)(?:\\\*\s*)?\\fldinst(?![a-zA-Z])")
_NO_TEXT = re.compile(rb"\\\*|\\[a-zA-Z]+(?:-?[0-9]+)? ?|[{}\"\r\n]")
#: What begins or ends a group, and what only looks so; and where the code of another field begins.
_GROUPS = re.compile(rb"\\fldinst|\\.|[{}]", re.DOTALL)
_NAME = re.compile(rb"[A-Za-z]*")
#: How much of a code has the name of its field.
_FRONT = 2_000
#: The code of a field that no program knows, and passes over.
_UNKNOWN = rb"\1\\*\\fldinsx"
_WORKED_OUT = frozenset(
    b"AUTHOR COMMENTS CREATEDATE DATE DOCPROPERTY EDITTIME FILENAME FILESIZE INCLUDEPICTURE INFO KEYWORDS"
    b" LASTSAVEDBY MERGEREC NUMCHARS NUMPAGES NUMWORDS PAGE PAGEREF PRINTDATE REF REVNUM SAVEDATE SUBJECT"
    b" TEMPLATE TIME TITLE USERADDRESS USERINITIALS USERNAME".split()
)


def as_shown(data: bytes) -> bytes:
    """A text in RTF in which the results of such fields stand without their codes."""
    return _CODE.sub(_kept, data)


def _kept(code: re.Match[bytes]) -> bytes:
    front, is_whole = _front(code.string, code.end())
    text = _NO_TEXT.sub(b"", front).lstrip()
    name = _NAME.match(text)
    assert name is not None
    # LibreOffice knows one too that begins later on
    is_known = is_whole or name.end() < len(text)
    if is_known and name[0].upper() not in _WORKED_OUT:
        return code[0]
    return code.expand(_UNKNOWN)


def _front(data: bytes, start: int) -> tuple[bytes, bool]:
    """The front of the code of a field, and whether it is all of it, up to the end of its group.

    There is none of one in which another one begins: LibreOffice takes what stands after that for print.
    """
    depth = 0
    for found in _GROUPS.finditer(data, start, start + _FRONT):
        if found[0] == rb"\fldinst":
            return b"", False
        depth += (found[0] == b"{") - (found[0] == b"}")
        if depth < 0:
            return data[start : found.start()], True
    return data[start : start + _FRONT], False
