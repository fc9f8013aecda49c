"""What keeps the paragraphs of a text file from being typed, all of it before any is typed."""

from collections.abc import Callable, Collection, Sequence
from typing import TYPE_CHECKING

from braildesk import Refused, Table
from braildesk.desk.manuscript import Passage
from braildesk.program import translate_beside
from braildesk.text import limits
from braildesk.text.sequences import is_plain

if TYPE_CHECKING:
    from braildesk.desk.text_faults import TextFault

#: What ends a line of a file, or is a blank there: no paragraph has it.
_NONE_IN_PRINT = "\n\t\f"


def faults(
    passages: Sequence[Passage],
    table: Table,
    while_waiting: Callable[[], None] = lambda: None,
    characters: Collection[str] = (),
    beside: Callable[[], object] = lambda: None,
) -> "list[TextFault]":
    """Each character that can't be typed with a table, and each paragraph that is too long.

    If all characters of the file are given and defined, the paragraphs aren't gone through for
    them. Beside that something else may be done.
    """
    if _are_defined(characters, table, while_waiting, beside):
        if all(each.length <= limits.PRINT_CHARACTERS for each in passages):
            return []
    # imported here, since few texts are at fault
    from braildesk.desk.text_faults import found_faults

    return found_faults(passages, table, while_waiting)


def are_plain(characters: Collection[str]) -> bool:
    """Whether all characters of a file are given, and none is joined in normal form C."""
    return bool(characters) and is_plain("".join(_in_print(characters)))


def _in_print(characters: Collection[str]) -> set[str]:
    """The characters of the paragraphs of a file."""
    # lines are joined by a blank, and other blanks become one
    return {*characters}.difference(_NONE_IN_PRINT).union(" ")


def _are_defined(
    characters: Collection[str],
    table: Table,
    while_waiting: Callable[[], None],
    beside: Callable[[], object],
) -> bool:
    """Whether a table has all characters of a file, of which none is joined in normal form C."""
    if not are_plain(characters):
        return False
    asked = sorted(_in_print(characters))
    answers = translate_beside(table, asked, beside, while_waiting=while_waiting)
    return not any(isinstance(answer, Refused) for answer in answers)
