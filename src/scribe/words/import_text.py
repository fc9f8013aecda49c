"""An import in words: what keeps a text from being typed, and what became of one that was begun."""

import stat
from collections.abc import Callable, Iterable, Iterator, Sequence
from contextlib import contextmanager
from dataclasses import dataclass, replace
from pathlib import Path
from typing import TYPE_CHECKING

from braildesk import Displaced, Lost, Refused
from braildesk.desk.documents.kinds import (
    BrokenOff,
    NoConverter,
    NoDocument,
    NotConverted,
    NotRead,
    Spent,
    WhyNot,
)
from braildesk.desk.drafts import NotKept
from braildesk.desk.earlier import (
    AllThere,
    NoneCutShort,
    PartIsThere,
    PartUnseen,
    StandsThere,
    Undecided,
    Way,
)
from braildesk.desk.import_note import ImportNote
from braildesk.desk.import_text import (
    CantRead,
    Faulty,
    Import,
    Importer,
    NoText,
    OfDocuments,
    OfTexts,
)
from braildesk.desk.intake import (
    BookHasNoTable,
    Intake,
    LineWithin,
    NoLine,
    NoParagraphBefore,
    NotContinuing,
    NotImported,
    WhichTable,
)
from braildesk.desk.manuscript import (
    DocumentPassage,
    NotUtf8,
    Passage,
    TooManyPassages,
    UnreadableText,
)
from braildesk.desk.manuscripts import UnreadableFile
from braildesk.desk.replacements import BadReplacements
from braildesk.desk.typist import CutShort
from braildesk.desk.unfinished import NotSeen, Unfinished
from braildesk.desk.whole_file import Access, AnotherIsThere, write_whole
from braildesk.named_files import is_handed_over, is_same_file
from braildesk.protocol.asked import journal_path, log_path, real_path
from braildesk.protocol.sentences import of_failure
from braildesk.text import characters, limits
from braildesk.text.characters import visible
from braildesk.text.excerpt import excerpt
from braildesk.text.wrapping import Offered
from braildesk.workshop import MayNotLast, OthersLink

from scribe.words.console import Console
from scribe.words.drafts import not_kept
from scribe.words.paragraph import no_paragraph, quoted
from scribe.words.status import (
    Interrupted,
    Status,
    Stop,
    may_not_last,
    status_of,
    stopped_by,
)
from scribe.words.typed import path_word

if TYPE_CHECKING:
    from braildesk.desk.text_faults import Barred, Lacking, TextFault, TooLongPassage

#: How long the words around a place of a document are.
_AROUND = 50


@dataclass(frozen=True)
class Outcome:
    """What became of an import: a command's status, and what was kept, if anything was."""

    status: Status
    kept: str
    #: How many paragraphs of it the book has, if that is known.
    count: int | None


def import_in_words(
    job: Import,
    console: Console,
    report: Path | None = None,
    again: str = "",
    begun: Callable[["Intake"], None] = lambda intake: None,
) -> Outcome:
    """Imports a text, and says what became of it.

    What a book can't hold of it is said before that, and all of it is written to a file, if one is
    named. If it was cut short, `again` says how to go on where that isn't by a command. `begun` is
    called before the first of it is typed. Raises `NotImported`.
    """
    with _importer(job, console) as importer:
        intake = prepared(importer, console, console.say, report)
        with _stopped_before_typing(console):
            intake = importer.hold_again(intake)
        begun(intake)
        try:
            typed = importer.type_text(intake, console.progress("paragraphs typed"))
        except CutShort as cut:
            left = _left(importer.job_again, intake, cut, again)
            return _part_typed(job, cut, left, console)
    if not typed.count:
        console.show(f"All of {job.text} is in the book now.")
        return Outcome(Status.DONE, f"the rest of {job.text.name}", 0)
    last = typed.first + typed.count - 1
    numbers = (
        f"number {last}" if typed.count == 1 else f"numbers {typed.first} to {last}"
    )
    kept = f"{_paragraphs(typed.count)} typed, {numbers}, by the table {typed.table}"
    console.show(f"{kept}.")
    return Outcome(Status.DONE, kept, typed.count)


def _part_typed(
    job: Import, cut: CutShort, left: Iterable[str], console: Console
) -> Outcome:
    """Says what became of an import that was cut short, and what is left of it.

    Raises `Displaced` where a screen had the book open, which says itself what became of that.
    """
    if job.held is not None and isinstance(cut.cause, Displaced):
        console.say(*left)
        raise cut.cause from None
    sentence, status = _cut_short(cut)
    besides = []
    if cut.displaced is not None and cut.displaced is not cut.cause:
        # its file was taken away before the session was closed
        besides.append(cut.displaced.sentence)
    console.say(sentence, *besides, *left)
    if isinstance(cut.cause, KeyboardInterrupt):
        raise Interrupted.after(cut.cause) from cut
    return Outcome(status, _part_kept(cut), cut.kept)


def _part_kept(cut: CutShort) -> str:
    """What was kept of an import that was cut short, if anything was in the file at the book's path."""
    count = cut.done if cut.kept is None else cut.kept
    is_there = count > 0 and not cut.is_displaced
    return f"{_paragraphs(count)} of the import" if is_there else ""


def trial_in_words(job: Import, console: Console, report: Path | None = None) -> Status:
    """Judges a text and types nothing, and says how much would be typed."""
    with _importer(job, console) as importer:
        intake = prepared(importer, console, console.show, report)
    count, table = _paragraphs(len(intake.passages)), intake.table.name
    console.show(f"{count} would be typed, by the table {table}.")
    return Status.DONE


def _importer(job: Import, console: Console) -> Importer:
    """What imports a text, and says what it waits for, and what is in the way of noting that."""
    job = replace(job, while_waiting=console.waiting(), check=console.check)
    return Importer(job, lambda fault: console.say(not_kept(fault)))


def prepared(
    importer: Importer,
    console: Console,
    show: Callable[..., None],
    report: Path | None,
) -> Intake:
    """What is to be typed, unless that is stopped. What is lost is reported with what is at fault.

    Others may have the book while that is reported, which waits for who reads it.
    """
    with _stopped_before_typing(console):
        try:
            intake = importer.prepare()
        except Faulty:
            _report(importer, show, report)
            raise
        _report(importer, show, report)
    return intake


@contextmanager
def _stopped_before_typing(console: Console) -> Iterator[None]:
    """Says that nothing was typed if that is stopped, or another file is at the path of the book."""
    try:
        yield
    except Displaced:
        console.say("Nothing was typed.")
        raise
    except KeyboardInterrupt as cause:
        console.say(f"{stopped_by(cause)} Nothing was typed.")
        raise Interrupted.after(cause) from cause


def _report(importer: Importer, show: Callable[..., None], report: Path | None) -> None:
    """Shows what of a document a book can't hold, and writes all of it to a file."""
    if importer.taken is None:
        return
    job, taken = importer.job, importer.taken
    if job.replacements is None:
        # of what was kept for the book, what stands in this manuscript is of interest
        used = tuple(each for each in taken.replaced if each.count)
        taken = replace(taken, replaced=used)
    if report is None and taken.document is None and not taken.replaced:
        return
    # imported here, since of a text nothing is lost
    from scribe.words.losses import FEW, report_lines

    if report is not None:
        lines = report_lines(job.text, taken)
        access = importer.access
        _write_report(job, report, lines or [f"{job.text} is a text."], access)
    if job.way is Way.GO_ON:
        return
    lines = report_lines(job.text, taken, FEW)
    importer.let_go()
    show(*lines)
    if report is not None:
        show(f"All places are in {report}.")
    elif any(line.startswith("- and ") for line in lines):
        show("scribe import --report FILE writes all places to a file.")


def _write_report(
    job: Import, report: Path, lines: Sequence[str], access: Access
) -> None:
    own = (job.book, job.text, job.replacements)
    # the log is in use by now, and no book is opened beside a journal
    beside = log_path(str(job.book)), journal_path(str(job.book))
    if real_path(str(report)) in beside or any(
        each is not None and is_same_file(report, each) for each in own
    ):
        raise Stop(f"The report would take the place of {report}. Nothing was typed.")
    # imported here, since few imports have a report
    from scribe.words.losses import is_report

    # the name of a file may have anything, and is read in a terminal too
    text = "".join(f"{visible(line)}\n" for line in lines)
    try:
        write_whole(report, text.encode(), access, is_report)
    except AnotherIsThere as cause:
        raise Stop(_no_report(report, cause)) from cause
    except MayNotLast as cause:
        said = f"{may_not_last(report, cause)} Nothing was typed."
        raise Stop(said, Status.FAILED) from cause
    except OSError as cause:
        raise Stop(
            f"The report can't be written to {report}: {of_failure(cause)}. Nothing was typed.",
            status_of(cause),
        ) from cause


def _no_report(report: Path, there: AnotherIsThere) -> str:
    """That what stands where a report would be written was left as it is."""
    its = "is there already, and doesn't begin as a report does"
    if there.leads_to is not None:
        its = f"is a link to {there.leads_to}"
    elif not stat.S_ISREG(there.mode):
        its = "is no file"
    return (
        f"{report} {its}, so it was left as it is. Nothing was typed. Take another path for the"
        " report."
    )


def _left(job: Import, intake: Intake, cut: CutShort, again: str) -> Iterator[str]:
    """What of the text is in the book, and how the rest gets there."""
    if cut.is_displaced and cut.saved is None:
        # it was said where the print is
        return
    # imported here, since few imports are cut short
    from braildesk.text.shell_words import command_line

    job = replace(job, book=cut.saved or job.book)
    kept, least = (cut.done, "at least ") if cut.kept is None else (cut.kept, "")
    if kept:
        last, number = intake.passages[kept - 1], intake.there + kept
        where = f"up to line {last.last_line}, which is the end of paragraph {number}"
        if isinstance(last, DocumentPassage):
            where = f"up to its paragraph {last.last_line}, which is paragraph {number}"
        yield f"{job.text} is in the book {least}{where} of the book."
    elif not cut.is_lacking:
        what = "Nothing more" if job.way is Way.GO_ON else "Nothing"
        done = "reported as kept" if cut.kept is None else "typed"
        yield f"{what} of {job.text} was {done}."
    is_all_typed = kept == len(intake.passages)
    if cut.is_lacking and is_all_typed and not cut.is_noted:
        yield (
            f"Paragraph {intake.there + kept} isn't a heading yet, or begins no volume, as it was to:"
            " scribe heading and scribe volume do that."
        )
    elif (cut.is_lacking or not is_all_typed) and again and cut.is_noted:
        yield again
    elif cut.is_lacking or not is_all_typed:
        then = "When nothing stands in the way any more,"
        if is_handed_over(job.text):
            # which is no way to it for another command
            job = replace(job, text=Path("FILE"))
            then += " write the whole text to a file, here FILE, and"
        pairs = None if cut.is_noted else job.replacements
        if pairs is not None and is_handed_over(pairs):
            job = replace(job, replacements=Path("PAIRS"))
            then += " write the pairs to a file, here PAIRS, and"
        words = command_line(_command_from(job, intake, kept, cut.is_noted))
        yield Offered(f"{then} go on by:", words)


def _command_from(job: Import, intake: Intake, kept: int, is_noted: bool) -> list[str]:
    """The words that go on after some paragraphs are in the book, by what is noted if it is."""
    words = ["scribe", "import", path_word(job.book), path_word(job.text)]
    if is_noted:
        return [*words, "--continue"]
    words += _choices(job)
    if job.by_lines:
        words.append("--lines")
    if job.table:
        words += ["--table", job.table]
    if intake.after != "end":
        words += ["--after", str(intake.there + kept if kept else intake.after)]
    if kept or job.line:
        words += ["--from", str(intake.passages[kept].first_line)]
    elif job.way is Way.AGAIN:
        words.append("--again")
    return words


def _choices(job: Import) -> Iterator[str]:
    """The words that say again how a manuscript is read."""
    if job.how.reading.kind is not None:
        yield from ("--format", job.kind.value)
    if job.kind.is_document:
        if job.how.reading.notes_at_end:
            yield from ("--notes", "end")
        if job.how.volumes is not None:
            yield from ("--volumes", str(job.how.volumes))
    if job.replacements is not None:
        yield from ("--replace", path_word(job.replacements))


def _paragraphs(count: int) -> str:
    return "1 paragraph" if count == 1 else f"{count:,} paragraphs"


def not_imported(problem: NotImported) -> Stop:
    """Why nothing of a text was typed."""
    match problem:
        case BookHasNoTable():
            return Stop(
                "The book has no table, so nothing was typed. Put one into it by scribe table."
            )
        case NoText(path=path, cause=None):
            return Stop(f"{path} has no paragraph, so nothing was typed.")
        case PartUnseen(fault=fault):
            kind = fault.note.how.reading.kind
            is_document = kind is not None and kind.is_document
            unit = "line of the text after its first paragraph"
            if is_document:
                unit = "paragraph of the document after the first"
            options = (
                f"--from goes on at a {unit}, --again types all of it, and --leave leaves the rest"
                " out."
            )
            return Stop(not_seen(fault), more=[f"{options} Nothing was typed."])
        case StandsThere():
            again = "--again types it once more."
            return Stop(_stands_there(problem), more=[f"{again} Nothing was typed."])
        case PartIsThere(its=its):
            unit = "paragraph" if is_of_document(its) else "line"
            options = (
                f"--continue goes on with {unit} {its.line}, --again types all of it once more, and"
                " --leave leaves the rest out."
            )
            if its.kept == len(its.rest):
                options = (
                    "--continue makes it one, --again types all of it once more, and --leave leaves"
                    " it as it is."
                )
            return Stop(came_to(its), more=[f"{options} Nothing was typed."])
        case Faulty():
            first, *others = _faulty(problem)
            return Stop(first, more=[*others, "Nothing was typed."])
    return Stop(f"{_why_not(problem)} Nothing was typed.")


def question(undecided: Undecided) -> str:
    """What is asked if a text was imported before, in part or whole."""
    match undecided:
        case StandsThere():
            return f"{_stands_there(undecided)} Shall it be typed once more?"
        case PartIsThere(its=its):
            return f"{came_to(its)} Shall the rest be typed now?"
        case PartUnseen(fault=fault):
            return f"{not_seen(fault)} Shall all of the text be typed, also what may be there already?"
    raise TypeError(f"no question for {undecided!r}")


def _stands_there(problem: StandsThere) -> str:
    first, last = problem.numbers[0], problem.numbers[-1]
    where = f"as paragraph {first}"
    if last != first:
        where = f"from paragraph {first} to paragraph {last}"
    return f"{problem.path} was typed there already, {where}."


def _faulty(problem: Faulty) -> list[str]:
    """All that would be refused of a text."""
    # imported here and below, since few texts are at fault
    from braildesk.desk.text_faults import Lacking

    sentences = fault_lines(str(problem.path), problem.faults)
    if any(
        isinstance(each.passage, DocumentPassage) and isinstance(each.what, Lacking)
        for each in problem.faults
    ):
        sentences.append(
            "Where nobody has the book open, scribe import --replace PAIRS puts other characters in"
            " their place."
        )
    sentences += _made_anew(problem)
    if problem.over:
        sentences.append(
            f"The book has {_paragraphs(problem.there)} and the text {problem.count:,}. That is"
            f" {problem.over:,} too many: a book has at most {limits.PARAGRAPHS:,}."
        )
    return sentences


def _made_anew(problem: Faulty) -> Iterator[str]:
    """How a table gets cells for the characters, if it was made from one of liblouis."""
    from braildesk.desk.text_faults import Lacking

    made = problem.made
    lacking = [each.what for each in problem.faults if isinstance(each.what, Lacking)]
    if made is None or not lacking:
        return
    manuscript = " --for MANUSCRIPT" if made.is_for_manuscript else ""
    yield Offered(
        f"The table {lacking[0].table} was made from {made.name} of liblouis. With lines of your own"
        " that give these characters cells, it is made anew by:",
        f"scribe bring {made.name} FILE{manuscript} --add LINES",
    )


def reminders(found: Unfinished | NotSeen | NotKept, book: Path) -> Iterator[str]:
    """What is said of an import that was cut short, with the commands that end this."""
    if isinstance(found, NotKept):
        yield not_kept(found)
        return
    from braildesk.text.shell_words import command_line  # as above

    its = path_word(book), path_word(found.note.text)
    words = command_line(["scribe", "import", *its])
    if isinstance(found, Unfinished):
        yield came_to(found)
        yield Offered("Go on by:", f"{words} --continue")
    else:
        yield not_seen(found)
    yield Offered("Leave the rest out by:", f"{words} --leave")


def _why_not(problem: NotImported) -> str:
    match problem:
        case CantRead():
            return _cant_read(problem)
        case NoText(path=path, cause=UnreadableText() as fault):
            return f"{path} {unreadable(fault)}."
        case NoneCutShort(path=path):
            return f"No import of {path} is known that was cut short."
        case AllThere(note=note):
            return f"All of {note.name} is in the book."
        case LineWithin(line=line, passage=passage):
            return (
                f"Line {line} is within the paragraph of {lines_of(passage)}. Say --from"
                f" {passage.first_line} to begin with that paragraph."
            )
        case NoLine(line=line, passages=[*_, DocumentPassage()] as its):
            return f"The document has {_paragraphs(len(its))}, and no paragraph {line}."
        case NoLine(line=line):
            return f"The text has no paragraph from line {line} on."
        case OfTexts(path=path, kind=kind):
            from scribe.words.losses import kind_name  # as above

            return f"{path} is {kind_name(kind)}, which has paragraphs of its own: --lines is for texts."
        case OfDocuments(path=path):
            return (
                f"{path} is a text, without headings and notes: --volumes and --notes are for"
                " documents. --format markdown reads it as Markdown."
            )
        case BadReplacements():
            return _bad_replacements(problem)
        case NoParagraphBefore(number=number, count=count):
            return no_paragraph(number, count)
        case WhichTable(names=names, wanted=None):
            return f"The book has the tables {', '.join(names)}. Say which by --table."
        case WhichTable(names=names, wanted=wanted):
            return f"The book has no table {wanted}, it has {', '.join(names)}."
        case NotContinuing():
            return _not_continuing(problem)
    raise TypeError(f"no sentence for {problem!r}")


def _cant_read(problem: CantRead) -> str:
    if isinstance(problem.cause, OthersLink):
        return (
            f"The link “{problem.cause.link}” is another user's, and no text is read through it. Take"
            " the path to which it leads, if that is what you mean, or another one."
        )
    return f"{problem.path} can't be read: {problem.cause.strerror}."


def _bad_replacements(problem: BadReplacements) -> str:
    path = problem.path
    match problem.cause:
        case OSError() as cause:
            return f"{path} can't be read: {cause.strerror}."
        case UnreadableText() as fault:
            return f"{path} {unreadable(fault)}."
    return (
        f"{path}, line {problem.line}: a line has the characters that are replaced, a tab, and those"
        " that stand in their place. The same characters are replaced once."
    )


def is_of_document(its: Unfinished) -> bool:
    """Whether an import is of a document, whose paragraphs are counted, and not of a text."""
    return isinstance(its.whole[0], DocumentPassage)


def lines_of(passage: Passage) -> str:
    """The lines of a text file on which a paragraph of it stands, or its number in a document."""
    if isinstance(passage, DocumentPassage):
        return f"number {passage.first_line}"
    if passage.first_line == passage.last_line:
        return f"line {passage.first_line}"
    return f"lines {passage.first_line} to {passage.last_line}"


def _not_continuing(problem: NotContinuing) -> str:
    line, last = problem.rest[0].first_line, problem.before[-1]
    found = "The text would go to the front of the book."
    if problem.stored is not None:
        found = f"The paragraph before in the book is {quoted(problem.stored)}."
    unit = "paragraph" if isinstance(last, DocumentPassage) else "line"
    return (
        f"The text can't go on from {unit} {line}: before it comes the paragraph of"
        f" {lines_of(last)}, {quoted(last.text)}. {found}{_hint(problem)}"
    )


def _hint(problem: NotContinuing) -> str:
    """From which line the text would go on after a print that the text has just once."""
    if problem.same is None:
        return ""
    whole = [*problem.before, *problem.rest]
    place = lines_of(whole[problem.same])
    if problem.same + 1 == len(whole):
        return f" That is {place}, the last of the text: all of it seems to be there."
    return f" That is {place}: say --from {whole[problem.same + 1].first_line}."


def unreadable(fault: UnreadableText) -> str:
    """Why the bytes of a text can't be read, after the name of its file."""
    match fault:
        case NoDocument(why=why):
            return _NO_DOCUMENT[why]
        case NoConverter(kind=kind, name=name, package=package):
            from scribe.words.losses import kind_name  # as above

            return (
                f"is {kind_name(kind)}, which {name} reads, and {name} is not installed. Debian has it"
                f" as {package}"
            )
        case BrokenOff(name=name, spent=spent):
            return f"takes {name} {_SPENT[spent]} than any book, and was given up. {_APART}"
        case NotConverted(name=name, said=said):
            why_not = f": {visible(said)}" if said else ", which doesn't say why"
            return f"can't be read by {name}{why_not.removesuffix('.')}"
        case UnreadableFile(cause=cause):
            return f"can't be read: {cause.strerror}"
        case NotRead():
            return "can't be read: pandoc says of it what scribe doesn't know"
        case TooManyPassages(most=most):
            return f"has over {most:,} paragraphs, and a book has at most {limits.PARAGRAPHS:,}"
        case NotUtf8(position=position, byte=byte):
            return (
                f"isn't UTF-8: line {position.line}, column {position.column} has the byte"
                f" {byte:#04x}. Save it as UTF-8, and import it again"
            )
    return "is UTF-16. Save it as UTF-8, and import it again"


_SPENT = {Spent.TIME: "more time", Spent.MEMORY: "more memory"}
_APART = "Take it apart, or leave out large tables and what is nested deeply, and import it again"
_NO_DOCUMENT = {
    WhyNot.OTHER: "is no text and no document that scribe reads: these are DOCX, ODT, EPUB, HTML,"
    " Markdown, RTF and DOC",
    WhyNot.PDF: "is PDF, which has places on pages and no paragraphs. Ask for the document of which it"
    " was made",
    WhyNot.DAMAGED: "is damaged: it begins as a document does, and its parts can't be read",
    WhyNot.OTHER_KIND: "isn't of the kind that --format names",
    WhyNot.TOO_LARGE: "unpacks to more than any book has",
    WhyNot.TOO_DEEP: "is nested too deeply: some of it, as an item of a list, stands within hundreds of"
    " others. Save it without these levels, and import it again",
    WhyNot.TABLES: "has tables with over 100,000 empty places, in rows shorter than others or under cells"
    " that go on over rows or columns. Take these tables out or apart, and import it again",
    WhyNot.ENCRYPTED: "is encrypted. Save it without a password, and import it again",
    WhyNot.COPY_PROTECTED: "is protected against copying. Ask the publisher for a file that isn't",
    WhyNot.BOOK: "is a book of braildesk, and no manuscript",
    WhyNot.STYLES: "is a template that has styles and no text",
}


def fault_lines(name: str, faults: "Iterable[TextFault]") -> list[str]:
    """A line for each fault of a text, in the order of their places."""
    placed = sorted(
        (fault.position, _fault(fault.what), _place(fault)) for fault in faults
    )
    return [f"{name}, {place}: {sentence}" for _, sentence, place in placed]


def _place(fault: "TextFault") -> str:
    """Where a fault is: by line and column, and in a document by the words around it."""
    line, column = fault.position.line, fault.position.column
    if isinstance(fault.passage, DocumentPassage):
        around = excerpt(fault.passage.text, column - 1, column, _AROUND)
        return f"paragraph {line}, {around}"
    return f"line {line}, column {column}"


def _fault(what: "Barred | Lacking | TooLongPassage") -> str:
    from braildesk.desk.text_faults import Barred, Lacking

    match what:
        case Barred(character=character, count=count):
            return f"{characters.code_and_name(character)} is a control character. {_often(count)}"
        case Lacking(character=character, count=count, table=table):
            named = characters.named(character)
            return f"{named} has no cells by the table {table}. {_often(count)}"
    return (
        f"The paragraph of {lines_of(what.passage)} has {len(what.passage.text):,} characters, and a"
        f" paragraph has at most {limits.PRINT_CHARACTERS:,}. This is the first beyond."
    )


def _often(count: int) -> str:
    times = "once" if count == 1 else f"{count:,} times"
    return f"It stands in the text {times}."


def _cut_short(cut: CutShort) -> tuple[str, Status]:
    """What cut the typing short, and the status of a command that it ends."""
    cause = cut.cause
    if isinstance(cause, KeyboardInterrupt):
        return stopped_by(cause), Status.FAILED
    if isinstance(cause, Refused):
        return cause.reason, Status.REFUSED
    if isinstance(cause, Lost) and not isinstance(cause, Displaced):
        # the book is looked at again, so that no more than the cause is to be said
        return cause.cause, Status.FAILED
    return cause.sentence, Status.FAILED


def read_again(note: ImportNote) -> str:
    """What is said before the document of an import that was cut short is read again."""
    return (
        f"{note.text} is read again, to see how much of it is in the book. Please wait."
    )


def not_seen(fault: NotSeen) -> str:
    """What is said of an import whose text isn't what it was."""
    note = fault.note
    why = "was changed since"
    if isinstance(fault.cause, UnreadableText):
        why = unreadable(fault.cause)
    elif fault.cause is not None:
        why = f"can't be read: {fault.cause.strerror}"
    return (
        f"The import of {note.name} was cut short, and {note.text} {why}. So how much of it is in"
        f" the book can't be seen: the book had {_paragraphs(note.there)} before, and the text"
        f" {note.count:,}."
    )


def not_seen_yet(fault: NotSeen, key: str) -> str:
    """The same where nobody asked for that text, with what is done about it by a key."""
    then = f"{key} and the name of that file ask what is done."
    if isinstance(fault.cause, OSError):
        then = "scribe import with --leave leaves the rest out."
    return f"{not_seen(fault)} {then}"


def came_to(its: Unfinished) -> str:
    """How far an import came that was cut short."""
    head = f"The import of {its.note.name} was cut short:"
    if not its.done:
        return f"{head} nothing of it is in the book."
    if its.kept == len(its.rest):
        return (
            f"{head} all of it is in the book, but its last paragraph isn't a heading, or begins no"
            " volume, as it was to be."
        )
    where = ""
    if not is_of_document(its):
        where = f", up to line {its.whole[its.done - 1].last_line} of the text"
    are = "is" if its.done == 1 else "are"
    return f"{head} {its.done:,} of its {_paragraphs(len(its.whole))} {are} in the book{where}."
