"""Copies of books from which something is made for those for whom the books are."""

import os
from collections.abc import Iterator
from contextlib import ExitStack, contextmanager
from dataclasses import dataclass
from pathlib import Path

from braildesk import Session
from braildesk.desk.whole_file import Access
from braildesk.held import open_file
from braildesk.protocol.asked import BookFile
from braildesk.workshop import is_same


@dataclass(frozen=True)
class CopiedBook:
    """A copy of a book, and who may read and write what is made of that book.

    A copy has a group of its user, who need not be in that of the book.
    """

    path: Path
    access: Access
    #: What the copy was as it was made.
    made: os.stat_result

    def access_of(self, file: int) -> Access:
        """That of what an open file was read for: its own if it isn't the copy.

        Others may have put it in the place of that, where they may write in the temporary folder.
        """
        return self.access if is_same(os.fstat(file), self.made) else Access.of(file)

    def access_by(self, session: Session) -> Access:
        """The same of what is read in a session, and its owner's alone as `Access.of_session` says."""
        its = Access.of_session(session)
        return its if its.group is None else self.access_of(session.fileno())


@contextmanager
def copied_book(path: Path, like: int | None = None) -> Iterator[CopiedBook]:
    """A copy of a book, or of the open file that is said, whatever stands at the path for a moment."""
    # imported here, since few books are copied
    from braildesk.snapshot import copied

    with ExitStack() as stack:
        if like is None:
            like = stack.enter_context(open_file(BookFile.of(path))).fileno()
        copy, made = stack.enter_context(copied(path, like))
        yield CopiedBook(copy, Access.of(like), made)


@contextmanager
def copied_session(path: Path) -> Iterator[tuple[Session, CopiedBook]]:
    """A session with a copy of a book, and that copy; what is refused names the book itself."""
    with copied_book(path) as copy, Session(copy.path) as session:
        yield session, copy
