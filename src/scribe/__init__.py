"""scribe: the tools by which people work on a braildesk book.

A command is a module of `scribe.cli.commands`. It adds its words to the parser, and runs as a function
of the parsed words and a `Console` that returns a `Status`. What a person asked for goes to
standard output, sentences go to standard error. Everything done to a book is done by its requests,
through the client `braildesk`, which knows nothing of these tools.
"""

import _signal  # type: ignore[import]
import sys


def left_to_system() -> None:
    """Has Ctrl-C end the process as the system does, until scribe ends in its own way.

    What Python does by itself is a traceback. What this needs is in Python itself, so that no import
    comes before it.
    """
    if _signal.getsignal(_signal.SIGINT) is _signal.default_int_handler:
        _signal.signal(_signal.SIGINT, _signal.SIG_DFL)


# `python3 -m scribe`, or the script of that name, and no program that only imports this
if sys.argv[:1] == ["-m"] or sys.argv and sys.argv[0].endswith("/scribe"):
    left_to_system()

from importlib import import_module
from types import ModuleType
from typing import Any


class _Later(ModuleType):
    """Stands for a module until something of it is asked for, by which that is imported."""

    def __getattr__(self, name: str) -> Any:
        if sys.modules.get(self.__name__) is self:
            del sys.modules[self.__name__]
        return getattr(import_module(self.__name__), name)


# `dataclasses` imports it for classes without a sentence, of which there are none here, and with all
# that it imports it takes a tenth of a short command
if "inspect" not in sys.modules:
    sys.modules["inspect"] = _Later("inspect")
