"""The program of a session, which is begun before all that the session needs is imported."""

from collections.abc import Callable
from contextlib import suppress
from types import TracebackType
from typing import Self

from braildesk import program as programs
from braildesk.openfile import OpenFile
from braildesk.pipe import Pipe
from braildesk.program import StrPath
from braildesk.protocol.asked import BookFile, seen
from braildesk.refusals import DeskError


def begun(
    book: BookFile, program: StrPath | None, while_waiting: Callable[[], None]
) -> tuple[Pipe, OpenFile]:
    """The pipes to the program, which begins to open a book, and the file that is held beside it."""
    words = programs.session_words(book, program)
    programs.judge(book, words[0], while_waiting)
    file = OpenFile(book.real)
    try:
        return Pipe(words, book, while_waiting), file
    except BaseException as error:
        file.close()
        if isinstance(error, OSError):
            raise programs.cannot_run(words[0], error) from error
        raise


class Beginning:
    """A program that opens a book beside other work, until a session takes it.

    What keeps it from being begun is left to that session. If none took it, it is ended at the end
    of the ``with`` block.
    """

    def __init__(self, path: StrPath, while_waiting: Callable[[], None]) -> None:
        self.path = seen(path)
        self.while_waiting = while_waiting
        self._begun: list[tuple[Pipe, OpenFile]] = []
        with suppress(DeskError):
            self._begun.append(begun(BookFile.of(self.path), None, while_waiting))

    def take(self) -> tuple[Pipe, OpenFile] | None:
        """What was begun, which is given once."""
        return self._begun.pop() if self._begun else None

    def __enter__(self) -> Self:
        return self

    def __exit__(
        self,
        kind: type[BaseException] | None,
        error: BaseException | None,
        trace: TracebackType | None,
    ) -> None:
        for pipe, file in self._begun:
            if isinstance(error, KeyboardInterrupt):
                # the file may be one at which the program looks for ever
                pipe.kill()
            pipe.close()
            file.close()
