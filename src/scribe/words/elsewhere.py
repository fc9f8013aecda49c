"""Words that are none of those that may stand in a place: what is near, and what they name elsewhere.

A word that names a thing of scribe in another place is answered by the name of that thing here.
"""

from collections.abc import Iterable, Mapping

from braildesk.protocol.requests import BY_NAME
from braildesk.text.characters import near

#: Requests, commands of scribe talk and keys, for somebody at a shell.
AT_SHELL: Mapping[str, str] = {
    **{name: f"{name} is a request of scribe talk." for name in BY_NAME},
    "type": "scribe import types the paragraphs of a text, and type is a request of scribe talk.",
    "correct": "scribe change puts words in place of others.",
    "correct-by": "scribe change puts words in place of others, and --by keeps who did it.",
    "supply": "scribe table puts a table into a book.",
    "style": "scribe heading and scribe body give a paragraph its style.",
    "print": "scribe show shows paragraphs, and with --print the print alone.",
    "braille": "scribe show shows paragraphs, and with --braille the braille alone.",
    "where": "where is a request of scribe talk. scribe edit shows the cells of each character.",
    "whence": "whence is a request of scribe talk. scribe edit shows the characters of each cell.",
    "version": "version is a request of scribe talk. scribe --version shows that of scribe.",
    "request": "request is a word of scribe talk, and scribe run answers requests.",
    "short": "scribe talk --short asks its questions in a word or two.",
    "long": "long is a word of scribe talk.",
    "help": "scribe --help lists the commands, and --help after one says more of it.",
    "quit": "quit ends scribe talk.",
}

_OF_SHELL = "is a command of the shell, where scribe {name} --help says more."
_CLOSED = "End this first, since the book is in use here."
#: Commands of the shell, for somebody at a prompt.
AT_PROMPT: Mapping[str, str] = {
    **{
        name: f"{name} {_OF_SHELL.format(name=name)} {_CLOSED}"
        for name in ("edit", "window", "run", "talk", "import", "export", "tune")
    },
    **{
        name: f"{name} {_OF_SHELL.format(name=name)}"
        for name in ("new", "proof", "copy", "check-table", "try", "bring")
    },
}

#: Commands of the shell and of scribe talk, among requests.
AMONG_REQUESTS: Mapping[str, str] = {
    **AT_PROMPT,
    "show": "print, braille and marks show a paragraph.",
    "find": "scribe find finds words.",
    "change": "correct puts text in place of characters.",
    "change-all": "scribe change-all puts words in place of others in the whole book.",
    "pages": "scribe pages says what stands on which page and line.",
    "volumes": "scribe volumes shows the volumes.",
    "compare": "scribe compare shows the words that differ from a manuscript.",
    "next": "scribe next shows the next open mark.",
    "heading": "style PARA heading makes a paragraph a heading.",
    "body": "style PARA body makes a paragraph body text.",
    **{
        name: f"{name} is a word of scribe talk."
        for name in ("help", "request", "short", "long")
    },
    "quit": "The end of the input ends the session.",
}


def hint(word: str, names: Iterable[str], elsewhere: Mapping[str, str]) -> str:
    """What to do about a word that is none of these names, with a blank before it; or nothing."""
    if word in elsewhere:
        return f" {elsewhere[word]}"
    return near(word, names)
