"""The program braildesk: where it is, and what it does without a session."""

import errno
import os
import re
import stat
import subprocess
from collections.abc import Callable, Iterable, Iterator
from contextlib import contextmanager, nullcontext
from dataclasses import replace
from functools import partial
from os import PathLike, fspath
from pathlib import Path
from subprocess import DEVNULL, PIPE, Popen
from typing import TYPE_CHECKING

from braildesk import opening
from braildesk.fenced import started
from braildesk.held import copy_held, fit_log, held
from braildesk.named_files import read_file
from braildesk.opening import (
    changes_in,
    fault_in,
    goes_on,
    has_work,
    is_of_others,
    waited,
)
from braildesk.protocol.asked import (
    AskedOfFile,
    BookFile,
    PrintLine,
    NewBook,
    Pages,
    Refusal,
    TableFile,
    seen,
)
from braildesk.protocol.codes import Code
from braildesk.protocol.sentences import ENDED_BY, Why, remedy
from braildesk.refusals import (
    CannotOpen,
    Damaged,
    DeskError,
    Failed,
    NewerFormat,
    NotABook,
    Refused,
    cannot_open,
    refused,
    refused_as,
)
from braildesk.text import limits
from braildesk.workshop import made_for_a_while

if TYPE_CHECKING:
    from braildesk.protocol.values import Table

StrPath = str | PathLike[str]

_CHECKOUT = Path(__file__).resolve().parents[2]
#: How long the program is waited for before it is asked whether it still is to be, in seconds.
_PAUSE = 0.2
#: The same while a book is judged that is to be opened.
_LONG_PAUSE = 1.0
#: What the program isn't asked of at all.
_NOT_A_BOOK = (Why.COMPUTED, Why.TOO_LONG)
#: Why a book isn't opened whose log can't be judged, or is to be judged once nobody else has the book.
_NOT_ASKED = (
    Why.LOG_OPEN,
    Why.LOG_OPEN_TO_READ,
    Why.LOG_STAYS,
    Why.LOG_READ,
    Why.IN_USE,
    Why.REPLACED,
    Why.LOG_IN_USE,
    Why.NO_LOG,
    Why.NO_LOCKS,
)
#: What the program says of a file that holds no book which it reads.
_OF_CONTENTS = (NotABook, Damaged, NewerFormat)
_CODE = re.compile(r"(?:braildesk: )?no ([0-9]+(?: -?[0-9]+)*)")
#: What it answers of a whole book.
_CHECKED = re.compile(rb"ok ([0-9]+)\n")


class NoProgram(DeskError):
    """The program braildesk isn't found."""


def find(program: StrPath | None = None) -> str:
    """The path of the program.

    It is the one that is named here, else the one that ``BRAILDESK`` names, else
    ``build/braildesk`` of the checkout in which this package stands, else the one on the path.
    """
    named = fspath(program) if program is not None else os.environ.get("BRAILDESK", "")
    if named:
        if found := _runnable(named):
            return found
        # bin/scribe sets what nobody has set
        source = (
            " It is the one that BRAILDESK names, or else the one that belongs beside scribe."
            if program is None
            else ""
        )
        raise NoProgram(
            f"The program “{named}” isn't there, or may not be run.{source}"
        )
    for candidate in (str(_CHECKOUT / "build" / "braildesk"), "braildesk"):
        if found := _runnable(candidate):
            return found
    raise NoProgram(
        "The program braildesk isn't found: it is neither on the path nor built in"
        f" {_CHECKOUT / 'build'}. Build it by make, or let BRAILDESK name it."
    )


def _runnable(named: str) -> str | None:
    """A program that may be run: at its path, or where the path of the shell finds a bare name."""
    if os.path.dirname(named):
        return named if os.access(named, os.X_OK) and not os.path.isdir(named) else None
    # imported here, since it imports much, and a path is known mostly
    import shutil

    return shutil.which(named)


def make_book(
    path: StrPath, program: StrPath | None = None, named: StrPath | None = None
) -> None:
    """Makes an empty book in a file, which is called by another name if it is refused."""
    asked = NewBook(fspath(path if named is None else named))
    _run(program, ["new", "--", _word(NewBook(fspath(path)))], asked)


def check(
    path: StrPath,
    program: StrPath | None = None,
    *,
    timeout: float = 0.0,
    while_waiting: Callable[[], None] = lambda: None,
) -> int:
    """The version of the book in a file.

    While another program has the book open, this is tried again for ``timeout`` seconds. While the
    program doesn't answer, ``while_waiting`` is called again and again, here and below.
    """
    asked = BookFile.of(path)
    words = ["check", "--", _word(asked)]
    answer = waited(
        lambda: _run(program, words, asked, while_waiting=while_waiting), timeout
    )
    if not (found := _CHECKED.fullmatch(answer)):
        raise strange(program, answer)
    return int(found[1])


def export(
    path: StrPath,
    volume: int,
    width: int = 40,
    lines: int = 25,
    program: StrPath | None = None,
    *,
    timeout: float = 0.0,
    while_waiting: Callable[[], None] = lambda: None,
) -> bytes:
    """The pages of a volume, in Braille Ready Format.

    While another program has the book open, this is tried again for ``timeout`` seconds.
    """
    asked, words = _of_export(path, volume, width, lines)
    return waited(
        lambda: _run(program, words, asked, while_waiting=while_waiting), timeout
    )


@contextmanager
def exporting(
    path: StrPath,
    volume: int,
    width: int = 40,
    lines: int = 25,
    program: StrPath | None = None,
) -> Iterator[Callable[[], bytes]]:
    """An export that goes on beside other work, and what waits for it and gives its pages."""
    asked, words = _of_export(path, volume, width, lines)
    with _begun(program, words, asked) as process:
        yield lambda: _answered_by(process, asked)


def _of_export(
    path: StrPath, volume: int, width: int, lines: int
) -> tuple[Pages, list[str]]:
    """What an export asks for, and its words."""
    asked = Pages(fspath(path), volume, width, lines, led_to=seen(path).led_to)
    if not 1 <= volume <= limits.PARAGRAPHS:
        raise refused(Code.NO_VOLUME, asked)
    if not (_is_within(width, limits.WIDTHS) and _is_within(lines, limits.PAGE_LINES)):
        raise refused(Code.BAD_PAGE_SIZE, asked)
    sizes = ["--width", str(width), "--lines", str(lines)]
    return asked, ["export", *sizes, "--", _word(asked), str(volume)]


def translate(
    table: "StrPath | Table",
    lines: Iterable[str],
    program: StrPath | None = None,
    *,
    while_waiting: Callable[[], None] = lambda: None,
) -> list[str | Refused]:
    """The braille of each line, or why it is refused.

    The table is the text in a file, a table of a book as ``tables`` gives it, or the supplied one
    where ``table`` is the string ``"@en"``.
    """
    return translate_beside(table, lines, lambda: None, program, while_waiting)


def translate_beside(
    table: "StrPath | Table",
    lines: Iterable[str],
    beside: Callable[[], object],
    program: StrPath | None = None,
    while_waiting: Callable[[], None] = lambda: None,
) -> list[str | Refused]:
    """The same, with something that is done while the program is at work."""
    asked = _table_asked(table)
    judged = [_judged(PrintLine(asked.path, line)) for line in lines]
    sent = b"".join(
        line.text.encode() + b"\r\n" for line in judged if isinstance(line, PrintLine)
    )
    if isinstance(table, (str, PathLike)):
        words = ["translate", "--", _word(asked)]
        output = _run(program, words, asked, sent, (), beside, while_waiting)
    else:
        output = _by_text(program, asked, sent, beside, while_waiting)
    lines = output.decode(errors="replace").split("\n")
    if len(lines) != 1 + sum(isinstance(line, PrintLine) for line in judged):
        raise strange(program, output)
    answers = iter(lines)
    return [_answered(line, answers) for line in judged]


def session_words(book: BookFile, program: StrPath | None = None) -> list[str]:
    """The words that start a session with the book in a file."""
    return [find(program), "session", "--", _word(book)]


def cannot_run(program: str, error: OSError) -> NoProgram:
    """Why a file that was found can't be run, which may lack something else of the system."""
    lacking = f"{error.filename}: " if error.filename == os.devnull else ""
    return NoProgram(
        f"The program “{program}” can't be run: {lacking}{error.strerror}."
    )


def strange(program: StrPath | None, answer: bytes) -> Failed:
    """What is said of a program that answers as braildesk of this version doesn't."""
    found, line = find(program), answer[:80].decode(errors="replace").partition("\n")[0]
    return Failed(
        f"The program “{found}” answers as braildesk doesn't: “{line}”. It may be another"
        " one of that name, or of another version. Let BRAILDESK name the one that belongs to this"
        " scribe."
    )


def judge(
    asked: AskedOfFile, program: str, while_waiting: Callable[[], None] = lambda: None
) -> None:
    """Refuses a book for what is seen of its files, before the program opens and changes them.

    What can't be judged here is left to the program. For each second in which that doesn't answer
    about a copy, ``while_waiting`` is called.
    """
    if isinstance(asked, TableFile):
        return
    if asked.is_led_away:
        raise cannot_open(asked, Why.LED_AWAY)
    _judge_file(asked)
    try:
        fault = _fault_of(asked, program, while_waiting)
        if fault is None:
            fit_log(_book_of(asked))
    except CannotOpen as refusal:
        fault = refusal.why if refusal.why in _NOT_ASKED else None
    except (OSError, ValueError):
        return
    if fault is not None:
        raise cannot_open(asked, fault)


def _book_of(asked: AskedOfFile) -> BookFile:
    return BookFile(asked.path, led_to=asked.led_to)


def _judge_file(asked: AskedOfFile) -> None:
    """Refuses a file of no bytes, of which the program would make a database without a book.

    It refuses one that is no database too, beside which the program would leave a log, and one of too
    many bytes, at which it would look for very long.
    """
    try:
        found = os.stat(asked.path)
        size = found.st_size if stat.S_ISREG(found.st_mode) else None
        is_alone = not has_work(asked.log)
    except (OSError, ValueError):
        return
    if size == 0 and is_alone and not isinstance(asked, NewBook):
        raise refused(Code.NOT_A_BOOK, asked)
    if size and is_alone and not opening.may_be_book(asked.path):
        raise cannot_open(asked, opening.why(asked))
    if size is not None and size > limits.BOOK_BYTES:
        raise cannot_open(asked, Why.TOO_LARGE_FOR_BOOK)


def _fault_of(
    asked: AskedOfFile, program: str, while_waiting: Callable[[], None]
) -> Why | None:
    """What is seen of the files of a book that keeps it from being opened."""
    path, log = asked.real, asked.log
    with held(_book_of(asked)):
        fault = fault_in(path, is_alone=True)
        is_foreign = fault is None and is_of_others(path)
    if fault not in _NOT_A_BOOK and has_work(log):
        look = partial(_refusal_of, program, asked, while_waiting)
        return _fault_with_log(asked, log, look)
    if is_foreign:
        # beside that the program would leave a log
        raise refused(Code.NOT_A_BOOK, asked)
    return fault


def _fault_with_log(
    asked: AskedOfFile, log: str, refusal_of: Callable[[Path], DeskError | None]
) -> Why | None:
    """The same if a log has work, which may be that of another book: copies of both are tried.

    What isn't a book with it is refused by that: the program would put the log into the file first.
    """
    with made_for_a_while() as both, made_for_a_while() as alone:
        with held(_book_of(asked)) as file:
            copy_held(file, log, both)
            copy_held(file, "", alone)
        changes = changes_in(f"{both}-wal")
        fault = fault_in(both, is_alone=False)
        if fault in _NOT_A_BOOK:
            return fault
        refusal = None if fault else refusal_of(both)
        is_whole = fault is None and refusal is None
        is_of_another = refusal_of(alone) is None and not (
            is_whole and goes_on(alone, both, changes)
        )
        is_foreign = fault is None and is_of_others(both)
    if is_of_another:
        return Why.OTHER_LOG
    if is_foreign:
        raise refused(Code.NOT_A_BOOK, asked)
    if isinstance(refusal, _OF_CONTENTS):
        raise refusal
    return fault


def _refusal_of(
    program: str, asked: AskedOfFile, while_waiting: Callable[[], None], path: Path
) -> DeskError | None:
    """Why the program finds no book in a copy of what is asked of, if it doesn't."""
    words = [program, "check", "--", str(path)]
    # nothing was seen of its files yet, and the program may make a log
    given = NewBook(str(path))
    with started(given, lambda: _piped(words, DEVNULL, ())) as check:
        try:
            _answered_by(check, asked, while_waiting, _LONG_PAUSE)
        except DeskError as refusal:
            return refusal
        finally:
            check.kill()
    return None


def unopened(status: int, errors: str, asked: AskedOfFile) -> DeskError:
    """Why the program ended with a status other than 0."""
    if status == 2 and (found := _CODE.search(errors)):
        code, *numbers = map(int, found[1].split())
        if code == Code.CANNOT_OPEN:
            return cannot_open(asked, opening.why(asked))
        if code == Code.BAD_TABLE and isinstance(asked, TableFile):
            asked = TableFile(asked.path, asked.text or _text_at(asked.path))
        return refused(code, asked, numbers)
    return Failed(_failure(status, errors, asked))


def of_signal(number: int) -> str:
    """What ended a program where a signal did, as after the word “by”."""
    return ENDED_BY.get(number, f"signal {number}")


def _failure(status: int, errors: str, asked: AskedOfFile) -> str:
    if status == 3:
        room = opening.little_room(asked.path)
        done = remedy(opening.why_unwritten(asked.path, room), room, ", and try again")
        return (
            "The file could not be written or read. What the book held is still in it."
            f" {done}"
        )
    if status < 0:
        more = " Set a higher one, and try again." if -status in ENDED_BY else ""
        return f"braildesk was ended by {of_signal(-status)} before it was done.{more}"
    said = f": {errors.strip()}" if errors.strip() else "."
    return f"braildesk ended with status {status}{said}"


def _table_asked(table: "StrPath | Table") -> TableFile:
    """What is asked of: a table by its file, or by its name and its text."""
    if not isinstance(table, (str, PathLike)):
        return TableFile(table.name, table.text)
    is_file_of_that_name = isinstance(table, PathLike) and fspath(table) == "@en"
    return TableFile("./@en" if is_file_of_that_name else fspath(table))


def _by_text(
    program: StrPath | None,
    asked: TableFile,
    sent: bytes,
    beside: Callable[[], object],
    while_waiting: Callable[[], None],
) -> bytes:
    """The answers to lines by a table whose text is handed over in memory, and in no file."""
    with _in_memory(asked.text, "text of a table") as descriptor:
        path = f"/dev/fd/{descriptor}"
        words = ["translate", "--", path]
        try:
            shared = (descriptor,)
            return _run(program, words, asked, sent, shared, beside, while_waiting)
        except CannotOpen as refused_by_program:
            is_linked = os.path.lexists(os.path.dirname(path))
            more = "/proc is mounted" if is_linked else "/dev/fd leads to /proc/self/fd"
            raise Failed(
                f"The text of the table {asked.path} could not be handed to braildesk, since it"
                f" can't open {path}. Nothing was translated. See that {more}."
            ) from refused_by_program


@contextmanager
def _in_memory(text: bytes, what: str) -> Iterator[int]:
    """The descriptor of a file in memory with a text, at its front."""
    try:
        descriptor = os.memfd_create("text")
    except OSError as error:
        raise _no_room(what, error) from error
    with open(descriptor, "wb") as file:
        try:
            file.write(text)
            file.seek(0)
        except OSError as error:
            raise _no_room(what, error) from error
        yield descriptor


def _no_room(what: str, error: OSError) -> Failed:
    is_limited = error.errno == errno.EFBIG
    limit = "Set a higher limit on the size of files (ulimit -f)"
    return Failed(
        f"The {what} could not be kept in memory: {error.strerror}. Nothing was"
        f" translated. {limit if is_limited else 'Close other programs'}, and try again."
    )


def _run(
    program: StrPath | None,
    words: list[str],
    asked: AskedOfFile,
    sent: bytes = b"",
    shared: tuple[int, ...] = (),
    beside: Callable[[], object] = lambda: None,
    while_waiting: Callable[[], None] = lambda: None,
) -> bytes:
    """What the program answers, beside which something else is done."""
    # from a pipe it might read so slowly that the writing had to be waited for
    given = _in_memory(sent, "print") if sent else nullcontext(DEVNULL)
    with given as source:
        its = words, asked, shared, source, while_waiting
        with _begun(program, *its) as process:
            beside()
            return _answered_by(process, asked, while_waiting)


@contextmanager
def _begun(
    program: StrPath | None,
    words: list[str],
    asked: AskedOfFile,
    shared: tuple[int, ...] = (),
    source: int = DEVNULL,
    while_waiting: Callable[[], None] = lambda: None,
) -> Iterator[Popen[bytes]]:
    """The program at work, which is ended by a signal if its end isn't waited for."""
    found = find(program)
    judge(asked, found, while_waiting)
    # what is asked may name another path than the program gets
    given = replace(asked, path=words[words.index("--") + 1])
    try:
        process = started(given, lambda: _piped([found, *words], source, shared))
    except OSError as error:
        raise cannot_run(found, error) from error
    with process:
        try:
            yield process
        finally:
            process.kill()


def _piped(words: list[str], source: int, shared: tuple[int, ...]) -> Popen[bytes]:
    """A program that is started, whose output and errors are read here."""
    return Popen(words, stdin=source, stdout=PIPE, stderr=PIPE, pass_fds=shared)


def _answered_by(
    process: Popen[bytes],
    asked: AskedOfFile,
    while_waiting: Callable[[], None] = lambda: None,
    pause: float = _PAUSE,
) -> bytes:
    """What the program answers, which comes to its end by that."""
    while True:
        try:
            output, errors = process.communicate(timeout=pause)
            break
        except subprocess.TimeoutExpired:
            while_waiting()
    if process.returncode:
        raise unopened(process.returncode, errors.decode(errors="replace"), asked)
    return output


def _word(asked: AskedOfFile) -> str:
    word = opening.word(asked.path)
    if word is None:
        raise cannot_open(asked, Why.NO_PATH)
    if asked.led_to and not _is_whole_path(word, asked.led_to):
        # what is put in the place of a link by now isn't followed
        word = opening.word(asked.led_to) or word
    # of what a process has open the number says so, and not where that leads
    if not all(map(opening.is_file_or_free, {asked.path, word})):
        raise cannot_open(asked, Why.NO_FILE)
    # SQLite takes such a path for an address, and another one for no file at all
    return f"./{word}" if word.startswith(("file:", ":")) else word


def _is_whole_path(word: str, path: str) -> bool:
    """Whether a word is a path without a link, as it is or from the folder in which this runs."""
    return word == path or not os.path.isabs(word) and path == f"{os.getcwd()}/{word}"


def _is_within(number: int, limit: tuple[int, int]) -> bool:
    return limit[0] <= number <= limit[1]


def _text_at(path: str) -> bytes:
    try:
        return read_file(path, limits.TABLE_BYTES)
    except OSError:
        return b""


def _judged(line: PrintLine) -> PrintLine | Refused:
    """A line that can be sent, or why it can't."""
    if line.text.isprintable():
        return line
    if lone := re.search("[\ud800-\udfff]", line.text):
        return refused_as(Refusal(Code.NO_REQUEST, line, place=lone.start()))
    if "\n" in line.text:
        return refused_as(
            Refusal(Code.BARRED_CHARACTER, line, place=line.text.index("\n"))
        )
    return line


def _answered(line: PrintLine | Refused, answers: Iterator[str]) -> str | Refused:
    """The answer to a line, which is the next one if the line was sent."""
    if isinstance(line, Refused):
        return line
    answer = next(answers)
    if not (found := _CODE.fullmatch(answer)):
        return answer
    code, *numbers = map(int, found[1].split())
    return refused(code, line, numbers)
