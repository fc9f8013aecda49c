"""Commands of a shell as sentences offer them, which it takes as they are seen."""

import os
from collections.abc import Iterable

from braildesk.text.characters import is_visible


def command_line(words: Iterable[str]) -> str:
    """The command that is these words, in which nobody types what can't be seen.

    What can't stands as bytes between ``$'`` and ``'``, as bash, ksh and zsh read them.
    """
    return " ".join(map(_quoted, words))


def _quoted(word: str) -> str:
    if all(map(is_visible, word)):
        import shlex  # which few sentences need

        return shlex.quote(word)
    return f"$'{''.join(map(_escaped, word))}'"


def _escaped(character: str) -> str:
    if character in "\\'":
        return f"\\{character}"
    if is_visible(character):
        return character
    return "".join(f"\\{byte:03o}" for byte in os.fsencode(character))
