"""Another program run with no more time and memory than it needs, which ends with its starter.

What others made is given to programs that others wrote. The text of this module is run as a script,
in a process of its own: it has the system set the limits, and becomes that program.
"""

import ctypes
import os
import resource
import signal
import sys
from collections.abc import Sequence
from dataclasses import dataclass
from typing import Any, Final

_PR_SET_PDEATHSIG: Final = 1


@dataclass(frozen=True)
class Limits:
    """What a program may have at most, if that is limited."""

    #: The bytes of its addresses.
    memory: int
    #: The seconds of a processor.
    seconds: int | None = None
    #: The bytes of each file that it writes.
    written: int | None = None


def confined(words: Sequence[str], limits: Limits) -> list[str]:
    """The words of a command that becomes another one, within limits.

    It ends with the thread that started it, at the latest.
    """
    most = (limits.memory, limits.seconds, limits.written)
    given = ["-" if each is None else str(each) for each in most]
    # not the path, at which another text may stand by now, or none
    loader: Any = sys.modules[__name__].__loader__
    script = ["-c", loader.get_source(__name__), str(os.getpid())]
    return [sys.executable, "-I", "-S", *script, *given, *words]


def main() -> None:
    """Becomes the program that the words name, unless its starter has ended already."""
    starter, memory, seconds, written, *words = sys.argv[1:]
    if not _ends_with(int(starter)):
        return
    _allow_no_more(resource.RLIMIT_AS, memory)
    _allow_no_more(resource.RLIMIT_CPU, seconds)
    _allow_no_more(resource.RLIMIT_FSIZE, written)
    _allow_no_more(resource.RLIMIT_CORE, "0")
    # Python ignores these, and the program that it becomes would too
    for each in (signal.SIGPIPE, signal.SIGXFSZ):
        signal.signal(each, signal.SIG_DFL)
    os.execv(words[0], words)


def _ends_with(starter: int) -> bool:
    """Has the system end this process with the one that started it, unless that has ended already."""
    if sys.platform == "linux":
        ctypes.CDLL(None).prctl(_PR_SET_PDEATHSIG, signal.SIGKILL, 0, 0, 0)
    return os.getppid() == starter


def _allow_no_more(what: int, most: str) -> None:
    """Has the system give this process no more of something, which may be limited to less already."""
    if most == "-":
        return
    _, limit = resource.getrlimit(what)
    known = int(most) + 1 if limit == resource.RLIM_INFINITY else limit
    found = min(int(most), known)
    # beyond the second one of time it is killed without a word of why
    resource.setrlimit(what, (found, min(found + 1, known)))


if __name__ == "__main__":
    main()
