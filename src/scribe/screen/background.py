"""An export, from a copy if one can be made, and an import: what is done beside the screen."""

from collections.abc import Callable
from dataclasses import dataclass, replace
from io import BytesIO
from pathlib import Path
from typing import Any

from braildesk import DeskError, Displaced
from braildesk.desk import USUAL_WAIT
from braildesk.desk.copied_book import CopiedBook
from braildesk.desk.earlier import Undecided
from braildesk.desk.export import Job
from braildesk.desk.import_text import Import
from braildesk.protocol.requests import Command
from braildesk.session import HeldFile

from scribe.screen.actions import ExportTo, ImportFrom, LeaveImport
from scribe.screen.state import Question
from scribe.words.console import Console, Heard
from scribe.words.export import export_in_words
from scribe.words.import_text import import_in_words, question as import_question
from scribe.words.status import Interrupted, Stop, in_sentences


@dataclass(frozen=True)
class ActionResult:
    """What is shown of an action, and what was kept by it, if anything was."""

    title: str
    lines: tuple[str, ...]
    kept: str = ""
    #: How many paragraphs were imported, if that is known.
    count: int | None = None
    #: What an import first set of the paragraph before it, which an earlier part of it lacked.
    lacking: tuple[Command[Any], ...] = ()
    #: What is asked before a text is imported that was imported before.
    question: Question | None = None
    #: What is said if another file is at the path of the book by now.
    lost: Displaced | None = None


@dataclass(frozen=True)
class _Beside(Console):
    """What is said of work: how far it is, or that it waits, is said meanwhile, and not in the report."""

    tell: Callable[[str], None] = lambda line: None

    def _say_now(self, sentence: str) -> None:
        self.tell(sentence)


def done_in_background(
    path: Path,
    action: ExportTo | ImportFrom,
    report: Callable[[str], None],
    check: Callable[[], None],
    held: HeldFile | None = None,
    copy: CopiedBook | None = None,
) -> ActionResult:
    """Does an action as the command of the same name does, until the check has it end.

    An import types into the file that the screen had open, and into no other one. An export is made from
    a copy, if there is one.
    """
    shown, said = Heard(report), Heard(report)
    console = _Beside(BytesIO(), shown, said, check, tell=report)
    what = "Export." if isinstance(action, ExportTo) else "Import."
    ending, lacking = ActionResult(what, (), count=0), list[Command[Any]]()
    try:
        with in_sentences():
            if isinstance(action, ExportTo):
                job = Job(path, action.folder, action.page_size, USUAL_WAIT, copy=copy)
                export_in_words(job, console)
            else:
                ending = _imported(path, action, console, ending, lacking, held)
    except Displaced as lost:
        # the screen goes on in no other file, as if that were its book
        ending = replace(ending, lost=lost)
    except Stop as stop:
        console.show(*stop.lines)
    except (DeskError, Interrupted) as failed:
        # of what was stopped it was said what became of it
        console.say(*([failed.sentence] if isinstance(failed, DeskError) else ()))
        if isinstance(action, ImportFrom):
            ending = replace(ending, count=None)
    lines = (*shown.getvalue().splitlines(), *said.getvalue().splitlines())
    return replace(ending, lines=lines, lacking=tuple(lacking))


def _imported(
    path: Path,
    action: ImportFrom,
    console: Console,
    ending: ActionResult,
    lacking: list[Command[Any]],
    held: HeldFile | None,
) -> ActionResult:
    """The result with what was kept by an import, or what is asked before it is done.

    What it sets first of the paragraph before it is put among what is lacking.
    """
    job = Import(
        path,
        action.path,
        table=action.table,
        after=action.after,
        way=action.way,
        wait=USUAL_WAIT,
        held=held,
    )
    try:
        outcome = import_in_words(
            job, console, begun=lambda intake: lacking.extend(intake.lacking)
        )
    except Undecided as undecided:
        return replace(ending, question=question_about(undecided, action))
    return replace(ending, kept=outcome.kept, count=outcome.count)


def question_about(undecided: Undecided, action: ImportFrom) -> Question:
    """What is asked before a text is imported that was imported before, in part or whole."""
    yes = replace(action, way=undecided.way)
    asked = import_question(undecided)
    if undecided.note is None:
        return Question(asked, yes=yes)
    no = LeaveImport(undecided.note)
    return Question(asked, yes=yes, no=no, more="l leaves it for later.")
