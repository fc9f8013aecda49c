"""A session with a book: requests go to the program, and values come back."""

import os
import sys
import threading
import warnings
from collections import deque
from collections.abc import Callable, Generator, Iterable, Iterator, Sequence
from contextlib import contextmanager
from dataclasses import dataclass, replace
from itertools import zip_longest
from types import TracebackType
from typing import TYPE_CHECKING, Any, Self, TypeVar

from braildesk import opening, program as programs
from braildesk.asking import Asking
from braildesk.beginning import Beginning, begun
from braildesk.openfile import OpenFile
from braildesk.opening import waited
from braildesk.pipe import Ending, Pace, Pipe
from braildesk.program import StrPath
from braildesk.protocol import requests
from braildesk.protocol.answers import Answer
from braildesk.protocol.asked import BookFile, Refusal
from braildesk.protocol.codes import Code
from braildesk.protocol.fields import Unwritable
from braildesk.protocol.replies import Reply, Unreadable
from braildesk.protocol.requests import Command, Request
from braildesk.protocol.values import Table
from braildesk.refusals import (
    CannotOpen,
    DeskError,
    Displaced,
    Lost,
    Refused,
    SessionEnded,
    refused,
    refused_as,
)

if TYPE_CHECKING:
    from braildesk.rescue import Rescue

#: How many requests are under way at most, and how many bytes of them wait to be written. More
#: would be no faster, and if somebody stops in the middle, the more would be carried out.
_AHEAD = 512
_AHEAD_BYTES = 1 << 16
#: How many are written at once if nothing has to be waited for.
_GROUP = 128

_Lost = TypeVar("_Lost", bound=Lost)


class Session(Asking):
    """One session of braildesk with the book in a file, which is opened at once.

    There is a method for each request of docs/FORMATS.md. A command is kept in the file before its
    method returns. ``expect`` is the version that the book has to be at.

    While another program has the book open, the session tries again for ``timeout`` seconds. For
    each second in which the program doesn't answer, ``while_waiting`` is called. The session
    belongs to the thread that opened it, and is closed by ``close`` or at the end of a ``with`` block.
    """

    # until it is opened
    _is_closed = True

    def __init__(
        self,
        path: StrPath,
        program: StrPath | None = None,
        *,
        timeout: float = 0.0,
        while_waiting: Callable[[], None] = lambda: None,
    ) -> None:
        self._book = BookFile.of(path)
        self._program = program
        self._while_waiting = while_waiting
        self._pipe, self._file, self._seen = waited(self._open, timeout)
        #: The requests of ``each`` whose answers weren't taken yet, in order.
        self._sent: deque[Request[Any] | Refused] = deque()
        self._is_streaming = False
        self._pace = Pace(_AHEAD)
        self._owner = _here()
        self._is_closed = False
        #: Whether the file isn't looked at any more, since what it held is being saved.
        self._is_saving = False
        self._lost: Lost | None = None
        #: The same where something else, as Ctrl-C, was raised in its place: ``close`` raises it.
        self._untold: Lost | None = None
        self._acknowledged: Request[Any] | None = None
        #: Whether what the file holds was kept by this session, or by one that it goes on for.
        self._is_at_stake = False
        self._strayed = ""
        self._answered = 0
        #: How many commands were kept.
        self._count_kept = 0
        #: Until which read of replies the file was looked at.
        self._judged = 0

    @property
    def _rescue(self) -> "Rescue":
        """What says what became of the book's file, and saves the book; few sessions need it."""
        from braildesk.rescue import Rescue

        return Rescue(self._book, self._file, self._program)

    def __del__(self) -> None:
        if not self._is_closed:
            message = f"unclosed session with {self._book.path}"
            warnings.warn(message, ResourceWarning, source=self)
            self._pipe.abandon()
            self._file.close()

    def __enter__(self) -> Self:
        return self

    def __exit__(
        self,
        kind: type[BaseException] | None,
        error: BaseException | None,
        trace: TracebackType | None,
    ) -> None:
        try:
            self.close()
        except Lost as lost:
            if error is None:
                raise
            error.add_note(lost.sentence)
        except KeyboardInterrupt as stopped:
            # it is closed in order all the same, and says what became of the book
            try:
                self.close()
            except Lost as lost:
                stopped.add_note(lost.sentence)
            raise
        if error is not None and self._strayed:
            error.add_note(f"{self._strayed} Nothing was changed in it here.")

    def close(self) -> None:
        """Ends the session. What was acknowledged is in the file.

        Of the requests that ``each`` sent ahead, those that were begun are carried out.
        """
        if self._is_closed:
            untold, self._untold = self._untold, None
            if untold is not None:
                raise untold
            return
        if isinstance(sys.exception(), KeyboardInterrupt):
            self._pipe.hasten()
        self._settle()
        # looked at while nobody else can have it: once the program has ended, anybody may replace it
        is_gone, is_foreign = not self._file.is_at_its_path, self._is_foreign
        if is_gone and self._is_at_stake:
            raise self._displaced()
        if is_foreign and self._is_at_stake or self._file.is_overwritten:
            raise self._overwritten()
        if is_gone or is_foreign:
            self._strayed = (
                self._rescue.gone() if is_gone else self._rescue.written_over()
            )
        self._is_closed = True
        if is_foreign:
            # at its end the program would empty the log that others may have put there
            self._pipe.kill()
        ending = self._pipe.close()
        if ending.status and not is_foreign:
            raise self._lose(SessionEnded, _ended(ending))
        self._file.close()

    def hasten(self) -> None:
        """Has a program that doesn't answer be waited for no longer than for a while, and then ended."""
        self._pipe.hasten()

    def _missed(self, held: "HeldFile") -> Lost:
        """The exception of a file that is held, and isn't at its path any more, with all of it saved."""
        self._file, self._seen = held.file, held.version
        return self._displaced()

    def _set_back(self, held: "HeldFile") -> Lost:
        """The exception of a file that is held, and was written over in place while it was closed."""
        self._is_closed = True
        self._pipe.close()
        cause, kept = self._rescue.set_back(self._seen, held.version)
        self._file.close()
        self._seen = held.version
        self._lost = lost = self._lost_as(Displaced, cause, kept)
        return lost

    def guard(self, held: "HeldFile | None" = None) -> None:
        """Has the session look after what an earlier one kept as after what it keeps itself.

        If the file that this one had is held still, and another is open here, ``Displaced`` is raised; so
        it is if others wrote an earlier version, or another book, into that file.
        """
        if held is not None and not held.file.is_same(self._file):
            self._file.close()
            raise self._missed(held)
        if held is not None and self._seen < held.version:
            raise self._set_back(held)
        self._is_at_stake = True

    @property
    def strayed(self) -> str:
        """What became of the file under a session that kept nothing, in a sentence, once it is closed.

        Nothing if the book is in its file as before.
        """
        return self._strayed

    @property
    def lost(self) -> Lost | None:
        """The exception by which the session ended too early, if it did."""
        return self._lost

    @property
    def last_version(self) -> int:
        """The version of the book that was last reported."""
        return self._seen

    @property
    def pid(self) -> int:
        """The number of the process in which the program runs."""
        return self._pipe.pid

    def fileno(self) -> int:
        """The descriptor of the file that the session has open, whatever stands at its path."""
        return self._file.fileno()

    def ask(self, request: Request[Answer]) -> Answer:
        """Sends a request, and gives what it is answered by; raises ``Refused`` or ``Lost``."""
        return request.result.read(self.reply(request))

    def reply(self, request: Request[Any]) -> Reply:
        """Sends a request, and gives the reply as it came; raises ``Refused`` or ``Lost``."""
        self._judge_free()
        data = _encoded(request)
        self._settle()
        self._send(request, data)
        reply = self._take(request)
        if reply.word == "no":
            raise self._explained(_refused(request, reply))
        return reply

    def each(
        self,
        asked: Iterable[Request[Answer]],
        progress: Callable[[int], None] | None = None,
    ) -> Generator[Answer | Refused, None, None]:
        """Sends many requests ahead of their replies, and gives the answers in order.

        The first of them are sent at once, and the others while the answers are taken. A refusal is
        a value among the answers, and the requests after it go on. ``progress`` is called with the
        number of answers so far. Until all are given, the session answers nothing else; if they
        aren't all taken, requests that were sent already are still carried out.
        """
        self._judge_free()
        self._settle()
        answers = self._answers(iter(asked), progress)
        next(answers)
        return answers

    def _answers(
        self, source: Iterator[Request[Any]], progress: Callable[[int], None] | None
    ) -> Generator[Any, None, None]:
        """Nothing once the first requests are sent, and then the answers."""
        self._is_streaming = True
        self._pace = Pace(_AHEAD)
        count = 0
        try:
            is_more = self._send_ahead(source)
            self._pipe.push()
            yield None
            while is_more:
                value = self._next_value()
                self._pace.answered()
                count += 1
                if progress is not None:
                    progress(count)
                yield value
                is_more = self._send_ahead(source)
        finally:
            self._is_streaming = False

    def take_over(self) -> None:
        """Has the session belong to the thread that calls this. No other one uses it by then."""
        self._owner = _here()

    def tables(self) -> tuple[Table, ...]:
        """The tables of the book, in the order of their names, with their texts as they are now."""
        # imported here, since few sessions need what reads them
        from braildesk.files import open_tables

        self._settle()
        try:
            with self._file.opened() as file:
                found = open_tables(self._book, file)
        except OSError:
            # as by a link that stands there by now
            if self._file.is_at_its_path:
                raise
            raise self._displaced() from None
        if not self._file.is_at_its_path:
            raise self._displaced()
        return found

    def _open(self) -> tuple[Pipe, OpenFile, int]:
        """The pipes to the program, the file that it has open, and the version of the book."""
        while True:
            pipe, file = self._begin()
            try:
                version = _first_version(pipe, self._book, self._program)
            except BaseException:
                file.close()
                raise
            if file.is_at_its_path and not self._book.is_led_away:
                file.note()
                file.note_log()
                return pipe, file, version
            # another file was put there while the program opened it
            pipe.close()
            file.close()

    def _begin(self) -> tuple[Pipe, OpenFile]:
        """The pipes to the program, which begins to open the book, and the file."""
        return begun(self._book, self._program, self._while_waiting)

    def _judge_free(self) -> None:
        """Whether the session can take a request."""
        self._judge_thread()
        if self._is_streaming:
            raise RuntimeError("the answers of each() are still being given")

    def _judge_thread(self) -> None:
        if (os.getpid(), threading.get_ident()) != self._owner:
            raise RuntimeError(
                "A session can be used by the thread that opened it alone. Nothing was sent. Open"
                " the book in the thread that uses it."
            )

    def _send_ahead(self, source: Iterator[Request[Any]]) -> bool:
        """Sends requests as far ahead as there is room, and says whether any answer is to come.

        There has to be room for a group of them, since few at a time take longer.
        """
        self._judge_open()
        ahead = self._pace.ahead
        if len(self._sent) > ahead - min(_GROUP, ahead // 2):
            return True
        while len(self._sent) < ahead and self._pipe.queued_bytes < _AHEAD_BYTES:
            request = next(source, None)
            if request is None:
                break
            try:
                data = _encoded(request)
            except Refused as refusal:
                self._sent.append(refusal)
            else:
                self._send(request, data)
        if self._pipe.queued >= _GROUP:
            self._pipe.push()
        return bool(self._sent)

    def _send(self, request: Request[Any], data: bytes) -> None:
        """Queues a request, whose reply is waited for after those of the earlier ones."""
        if self._is_at_rest:
            self._judge_file(request)
        self._pipe.is_of_commands = isinstance(request, Command)
        if self._pipe.is_of_commands:
            self._file.lend()
        with self._pipe.steps:
            self._sent.append(request)
            self._pipe.send(data)

    def _next_value(self) -> Any:
        """The answer to the first request that waits for one, or its refusal."""
        request = self._sent[0]
        if isinstance(request, Refused):
            self._sent.popleft()
            return request
        reply = self._take(request)
        if reply.word == "no":
            return _refused(request, reply)
        return request.result.read(reply)

    def _judge_open(self) -> None:
        """Whether the session can go on."""
        self._judge_thread()
        if self._lost is not None:
            raise self._lost
        if self._pipe.steps.are_interrupted:
            raise self._lose(SessionEnded, _ended(self._pipe.close()))
        if self._is_closed:
            raise RuntimeError("the session is closed")

    def _settle(self) -> None:
        """Drops requests of ``each`` that weren't begun, and takes the replies to the others."""
        self._judge_open()
        with self._pipe.steps:
            for _ in range(self._pipe.drop()):
                while isinstance(self._sent.pop(), Refused):
                    pass
        while self._sent:
            request = self._sent[0]
            if isinstance(request, Refused):
                self._sent.popleft()
            else:
                self._take(request)

    def _take(self, request: Request[Any]) -> Reply:
        """The reply to a request, which is the first that waits for one."""
        try:
            has_reply = self._pipe.has_reply()
        except Unreadable as error:
            self._pipe.kill()
            self._pipe.close()
            raise self._lose(SessionEnded, str(error)) from None
        if not has_reply:
            raise self._lose(SessionEnded, _ended(self._pipe.close()))
        with self._pipe.steps:
            reply = self._pipe.reply()
            self._note(request, reply)
        if _is_not_kept(reply):
            raise self._not_kept(request)
        if self._file.is_log_lent and self._is_at_rest:
            self._file.note_log(self._count_kept)
        if reply.word == "ok" and not self._is_saving:
            self._judge_kept()
        return reply

    def _not_kept(self, request: Request[Any]) -> Lost:
        """The exception of a session whose program could not keep a command, and has ended by that."""
        room = opening.little_room(self._book.path)
        # before the program has given up the room of its log
        why = opening.why_unwritten(self._book.path, room)
        self._pipe.close()
        if room == 0:
            # the program has given up the room of its log by now
            room = opening.room(self._book.path)
        refusal = refused_as(Refusal(Code.NOT_KEPT, request, why=why, room=room))
        if not self._file.is_at_its_path or self._rescue.has(self._seen):
            return self._lose(Lost, refusal.sentence)
        self._is_closed = True
        waiting = tuple(each for each in self._sent if isinstance(each, Command))
        from braildesk.rescue import NOT_ALL_THERE  # which few sessions need

        self._lost = self._lost_as(Displaced, refusal.sentence, NOT_ALL_THERE, waiting)
        self._file.close()
        return self._lost

    def _judge_kept(self) -> None:
        """Whether the file is there and holds what was reported as kept.

        It is looked at once for all replies that came at once.
        """
        is_new, self._judged = self._judged != self._pipe.reads, self._pipe.reads
        if is_new and not self._file.is_at_its_path:
            raise self._displaced()
        is_foreign = self._is_at_rest and self._is_foreign
        if is_foreign or is_new and self._file.is_overwritten:
            raise self._overwritten()
        if is_new and not self._file.has_its_log:
            raise self._without_log()

    @property
    def _is_at_rest(self) -> bool:
        """Whether the program waits for a request, since each that was sent is answered."""
        for each in self._sent:
            if not isinstance(each, Refused):
                return False
        return True

    @property
    def _is_foreign(self) -> bool:
        """Whether others wrote into the file, or into the log, while the program had it open.

        Once the program has ended, another session may have the book, and write into its file. Its
        end is looked for last, since it may come in between.
        """
        file = self._file
        is_changed = file.is_written_into or file.is_log_written_into
        if not is_changed and file.is_doubtful:
            is_changed = not self._is_in_its_file()
        return is_changed and file.is_used_further and self._pipe.is_running

    def _is_in_its_file(self) -> bool:
        """Whether all that the book has is in its file and its log; True if that can't be told."""
        # what each() gives later is put by
        before = self._sent, self._is_saving, self._is_streaming
        self._sent, self._is_saving, self._is_streaming = deque(), True, False
        try:
            with self._file.copied() as copied, Session(copied, self._program) as other:
                pairs = zip_longest(self._whole(), other._whole())
                return all(own == found for own, found in pairs)
        except Refused as refused:
            from braildesk.rescue import says_nothing  # which few sessions need

            return says_nothing(refused)
        except (OSError, DeskError):
            if self._lost is not None:
                raise
            return True
        finally:
            self._sent, self._is_saving, self._is_streaming = before

    def _whole(self) -> Iterator[object]:
        """All that the book has, piece by piece."""
        paragraphs = self.paragraphs()
        yield self.last_version, paragraphs
        numbers = [each.id for each in paragraphs]
        yield from self.each(requests.Print(number) for number in numbers)
        yield from self.each(requests.History(number) for number in numbers)
        yield from self.each(requests.Marks(number) for number in numbers)

    def _judge_file(self, request: Request[Any]) -> None:
        """Whether the file still holds what the program wrote there, which waits for a request.

        A session that only asks has nothing to lose there.
        """
        is_at_stake = self._is_at_stake or isinstance(request, Command)
        if is_at_stake and not self._is_saving:
            if self._is_foreign:
                raise self._overwritten()
            if not self._file.has_its_log and self._file.is_at_its_path:
                lost = self._without_log()
                if isinstance(request, Command):
                    lost.unsent = request
                raise lost

    def _note(self, request: Request[Any], reply: Reply) -> None:
        """Notes the reply to a request; a command that isn't kept stays among those sent."""
        self._answered += not self._is_saving
        if _is_not_kept(reply):
            return
        self._sent.popleft()
        if reply.word != "no":
            self._seen = reply.numbers[0]
            if reply.word == "ok":
                self._acknowledged, self._is_at_stake = request, True
                self._count_kept += 1

    def _explained(self, refusal: Refused) -> Refused:
        """The refusal with what the book shows, if its sentence needs that."""
        query = _query_about(refusal)
        try:
            if refusal.code == Code.NO_PARAGRAPH:
                count = len(self.ask(requests.List()))
                return refused_as(replace(refusal.refusal, count=count))
            if query is not None:
                return refused_as(replace(refusal.refusal, shown=self.ask(query)))
        except (Refused, Lost):
            pass
        return refusal

    def _lose(self, kind: type[Lost], cause: str) -> Lost:
        """The exception of a session that can't go on."""
        self._is_closed = True
        for _ in range(self._pipe.drop()):
            # what was never written to the program isn't in the book
            while isinstance(self._sent.pop(), Refused):
                pass
        waiting = tuple(each for each in self._sent if isinstance(each, Command))
        is_there = self._is_at_stake or os.path.lexists(self._file.path)
        if is_there and not self._file.is_at_its_path:
            # nor is another file that is there now to be taken for the book
            return self._displaced(f"{cause} ", waiting)
        kept = self._kept(waiting)
        self._lost = self._lost_as(kind, cause, kept, waiting)
        self._file.close()
        return self._lost

    def _lost_as(
        self,
        kind: type[_Lost],
        cause: str,
        kept: str,
        waiting: tuple[Command[Any], ...] = (),
    ) -> _Lost:
        return kind(
            cause, kept, self._acknowledged, self._answered, self._seen, waiting
        )

    def _displaced(
        self, ended: str = "", waiting: tuple[Command[Any], ...] = ()
    ) -> Lost:
        """The exception of a session whose file isn't at its path any more, with all of it saved.

        Its program may have ended before that by itself, with commands that weren't answered. What would
        stop the saving, as Ctrl-C, is raised once all is saved.
        """
        stops = list[KeyboardInterrupt]()
        try:
            self._pipe.drop()
            ending = self._pipe.close()
        except KeyboardInterrupt as stop:
            # the program has ended by then
            stops.append(stop)
            ending = self._pipe.close()
        self._is_closed = True
        lost = self._all_saved(ended, waiting, ending.status != 0, stops)
        self._file.close()
        if stops:
            raise stops[0]
        self._untold = None
        return lost

    def _all_saved(
        self,
        ended: str,
        waiting: tuple[Command[Any], ...],
        is_stopped: bool,
        stops: list[KeyboardInterrupt],
    ) -> Displaced:
        """The same, once all is saved; what would stop that is noted."""
        from braildesk.rescue import unstopped  # which few sessions need

        def save() -> Displaced:
            cause = f"{ended}{self._rescue.gone()}"
            saved, kept = self._rescue.all_saved(self._seen, is_stopped)
            if saved is not None and waiting:
                kept += " What was not reported as kept may be in it too."
            lost = self._lost_as(Displaced, cause, kept, waiting)
            lost.saved = saved
            self._lost = self._untold = lost
            return lost

        lost = unstopped(save, stops)
        if lost.saved is None and stops:
            # Ctrl-C at a terminal ends also the program that looks at what is saved
            lost = unstopped(save, stops)
        return lost

    def _overwritten(self) -> Lost:
        """The exception of a session whose file was written into by others, with the print saved.

        The program answers from what it has in memory, whatever stands in the file.
        """
        self._is_saving, self._is_streaming = True, False
        cause = self._rescue.written_over()
        kept = self._rescue.print_saved(self._all_print)
        self._is_closed = True
        self._pipe.drop()
        self._pipe.kill()
        self._pipe.close()
        self._file.close()
        self._lost = self._lost_as(Displaced, cause, kept)
        return self._lost

    def _without_log(self) -> Lost:
        """The exception of a session whose log isn't at its path any more.

        All of the book is in its file once the program has ended.
        """
        ending = self._pipe.close()
        cause = _ended(ending) if ending.status else self._rescue.without_log()
        return self._lose(SessionEnded, cause)

    def _all_print(self) -> str:
        """The print of all paragraphs, with an empty line between each and the next."""
        return "\n\n".join(self.print_of(each.id) for each in self.paragraphs()) + "\n"

    def _kept(self, waiting: Sequence[Command[Any]]) -> str:
        """What is in the book after all, and what may be."""
        if self._acknowledged is not None:
            known = (
                f"The last command that was reported as kept is {self._acknowledged.in_words()}, by"
                f" which the book came to version {self._seen}. All up to it is in the book."
            )
        elif waiting:
            known = "No command of this session was reported as kept."
        else:
            known = "Nothing was changed by this session."
        if not waiting:
            return known
        count = len(waiting) - 1
        others = "1 more command" if count == 1 else f"{count:,} more commands"
        more = f" and {others} are" if count else " is"
        return (
            f"{known} It is not known whether {waiting[0].in_words()}{more} in the book. Open the book again: if it is at"
            f" version {self._seen}, nothing more is in it, and each command more makes that greater"
            " by 1."
        )


def _here() -> tuple[int, int]:
    """The process and the thread that run this: a process that was forked has the pipes too."""
    return os.getpid(), threading.get_ident()


@dataclass(frozen=True)
class HeldFile:
    """The file that a session had open, and the version that its book had then."""

    file: OpenFile
    version: int


@contextmanager
def held_file(session: Session) -> Iterator[HeldFile]:
    """Holds the file of a session meanwhile, also once that is closed, so that no other is taken for it.

    Of a file that nobody holds, and that has no name any more, another one may get the number. Raises
    ``Displaced`` where a book can't be opened meanwhile since this file has its name no more.
    """
    held = HeldFile(session._file.again(), session.last_version)
    try:
        yield held
    except CannotOpen as refused:
        if held.file.is_at_its_path:
            raise
        raise session._missed(held) from refused
    finally:
        held.file.close()


class _Session(Session):
    """A session whose program was begun before it."""

    def __init__(self, beginning: Beginning, timeout: float) -> None:
        self._beginning = beginning
        its = beginning.while_waiting
        super().__init__(beginning.path, timeout=timeout, while_waiting=its)

    def _begin(self) -> tuple[Pipe, OpenFile]:
        return self._beginning.take() or super()._begin()


def session_of(beginning: Beginning, timeout: float = 0.0) -> Session:
    """A session whose program was begun, which is waited for as ``Session`` does."""
    return _Session(beginning, timeout)


@contextmanager
def session_beside(
    path: StrPath,
    *,
    timeout: float = 0.0,
    while_waiting: Callable[[], None] = lambda: None,
) -> Iterator[Callable[[], Session]]:
    """A session that is opened beside other work, and what waits for it, as ``Session`` does.

    What keeps it from being opened is raised by that. If nothing waited for it, it is ended.
    """
    with Beginning(path, while_waiting) as beginning:
        yield lambda: session_of(beginning, timeout)


def _first_version(pipe: Pipe, book: BookFile, program: StrPath | None) -> int:
    """Waits for the first reply, which comes if the book was opened."""
    version = requests.Version()
    try:
        pipe.send(version.encoded())
        has_reply = pipe.has_reply()
    except Unreadable as error:
        pipe.kill()
        pipe.close()
        raise programs.strange(program, error.line) from None
    except BaseException:
        # by Ctrl-C, while the program looks at a file that may never end
        pipe.kill()
        pipe.close()
        raise
    if not has_reply:
        ending = pipe.close()
        raise programs.unopened(ending.status, ending.errors, book)
    return version.result.read(pipe.reply())


def _is_not_kept(reply: Reply) -> bool:
    """Whether a command isn't kept, after which the program ends."""
    return reply.word == "no" and reply.numbers[0] == Code.NOT_KEPT


def _encoded(request: Request[Any]) -> bytes:
    """The bytes of a request; ``Refused`` if it can't be written."""
    try:
        return request.encoded()
    except Unwritable as fault:
        refusal = Refusal(
            fault.code, request, place=fault.place, line=fault.line, cause=fault.cause
        )
        raise refused_as(refusal) from None


def _refused(request: Request[Any], reply: Reply) -> Refused:
    code, *numbers = reply.numbers
    return refused(code, request, numbers)


def _query_about(refusal: Refused) -> Request[str] | None:
    """The query that shows what a refusal speaks of, if the request doesn't have it."""
    match refusal.code, refusal.asked:
        case 5, requests.Mark(paragraph=paragraph) | requests.Whence(
            paragraph=paragraph
        ):
            return requests.Braille(paragraph)
        case 5, requests.OfParagraph(paragraph=paragraph):
            return requests.Print(paragraph)
        case 7, requests.Retable(paragraph=paragraph):
            return requests.Print(paragraph)
        case 9, _ if refusal.paragraph is not None:
            return requests.Print(refusal.paragraph)
    return None


def _ended(ending: Ending) -> str:
    """How the program ended before it should have."""
    if ending.is_given_up:
        return "braildesk didn't answer any more, and was ended."
    if ending.status < 0:
        return f"The session was ended by {programs.of_signal(-ending.status)}."
    if ending.status == 3:
        return "The session ended, since the file of the book could not be written or read."
    return f"The session ended with status {ending.status}."
