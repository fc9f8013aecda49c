"""Types the paragraphs of a text file into a book, and sees what is there if that is cut short."""

from collections.abc import Callable
from pathlib import Path

from braildesk import DeskError, Displaced, Lost, Session, Typed
from braildesk.desk import Problem
from braildesk.desk.intake import Intake, settings
from braildesk.desk.readings import answers


class CutShort(Problem):
    """The typing ended, by its cause, after some paragraphs were reported as kept."""

    def __init__(
        self,
        done: int,
        cause: DeskError | KeyboardInterrupt,
        lost: Lost | None = None,
    ) -> None:
        super().__init__(done, cause, lost)
        self.done = done
        self.cause = cause
        #: How the session was lost if the book isn't at its path, also if that was seen after the cause.
        self.displaced = lost if isinstance(lost, Displaced) else None
        #: How many of them are in the book, if that was looked for and could be seen there.
        self.kept: int | None = None
        #: Whether the last of them isn't as it was to be, as a heading.
        self.is_lacking = False
        #: Whether the import is noted, so that the text is known again by its path.
        self.is_noted = False

    @property
    def is_displaced(self) -> bool:
        """Whether what was typed isn't in what stands at the path of the book."""
        return self.displaced is not None

    @property
    def saved(self) -> Path | None:
        """The new file that has all of a book that was displaced, if there is one."""
        its = None if self.displaced is None else self.displaced.saved
        return None if its is None else Path(its)


def type_all(
    session: Session,
    intake: Intake,
    report: Callable[[int], None],
    begin: Callable[[], None] = lambda: None,
) -> None:
    """Types all paragraphs, or raises `CutShort`; the session is closed by that."""
    done = 0
    try:
        with session:
            begin()
            for answer in answers(session, intake.requests(), lambda _: report(done)):
                done += isinstance(answer, Typed)
            report(done)
    except (DeskError, KeyboardInterrupt) as cause:
        raise CutShort(done, cause, session.lost) from cause


def look_for(path: Path, intake: Intake, wait: float, cut: CutShort) -> None:
    """Looks how many of the paragraphs are in the book, and whether the last one is as it was to be."""
    try:
        with Session(path, timeout=wait) as session:
            book = session.paragraphs()
            kept = len(book) - intake.there
            if kept == 0:
                cut.kept = 0
                cut.is_lacking = session.last_version < intake.version + len(
                    intake.lacking
                )
            elif 0 < kept <= len(intake.passages):
                last, number = intake.passages[kept - 1], intake.there + kept
                if session.print_of(number) == last.text:
                    cut.kept = kept
                    (paragraph,) = (each for each in book if each.id == number)
                    cut.is_lacking = (
                        next(settings(last, number, paragraph), None) is not None
                    )
    except DeskError:
        return
