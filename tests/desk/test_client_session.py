"""Sessions: many requests ahead of their replies, framing, and what is left of a killed one."""

import errno
import gc
import os
import re
import shutil
import signal
import subprocess
import sys
import threading
import time
import warnings
from collections.abc import Callable, Iterator
from contextlib import suppress
from pathlib import Path
from types import FrameType
from typing import Any, BinaryIO

import pytest

from braildesk import (
    CannotOpen,
    Displaced,
    Done,
    Failed,
    Lost,
    Refused,
    Session,
    SessionEnded,
    Typed,
    Why,
    requests,
)
from braildesk import openfile
from braildesk.held import copy_held
from braildesk.openfile import OpenFile
from braildesk.pipe import Ending, Pipe
from braildesk.protocol.replies import Reader, Reply, Unreadable
from braildesk import session as session_module
from braildesk.session import held_file, session_beside
from stand_in import KEPT, KILL_PROGRAM, READ, REPLY, WAIT
from strangers import NEEDS_ROOT
from terminal import once_free, standing_in
from tool import WAIT_SECONDS

PYTHON = str(Path(__file__).parents[2] / "src")


@pytest.fixture
def script(tmp_path: Path) -> Callable[[str], Path]:
    """Makes a program of the lines of a shell script."""

    def make(lines: str) -> Path:
        path = tmp_path / "program"
        path.write_text(f"#!/bin/sh\n{lines}\n")
        path.chmod(0o755)
        return path

    return make


def test_a_session_opens_beside_other_work_and_is_waited_for(book: Path) -> None:
    with session_beside(book) as opened:
        session = opened()
    with session:
        assert session.version() == 1
        with session_beside(book) as opened:
            with pytest.raises(CannotOpen) as refused:
                opened()
    assert refused.value.why is Why.IN_USE


@pytest.mark.parametrize("end", [ValueError, KeyboardInterrupt])
def test_a_session_that_nobody_waits_for_leaves_the_book_as_it_was_and_free(
    book: Path, end: type[BaseException]
) -> None:
    before = book.read_bytes()
    with pytest.raises(end):
        with session_beside(book):
            raise end
    Session(book).close()
    assert book.read_bytes() == before


def test_replies_are_read_however_their_bytes_are_cut() -> None:
    written = "| 1 a – b\n| \nend 7\nok 8 1\nno 8 2 9\n| ok 1\nend 8\n".encode()
    wanted = [
        Reply(("1 a – b", ""), "end", (7,)),
        Reply((), "ok", (8, 1)),
        Reply((), "no", (8, 2, 9)),
        Reply(("ok 1",), "end", (8,)),
    ]
    for size in (1, 2, 3, 7, len(written)):
        reader = Reader()
        found = []
        for start in range(0, len(written), size):
            reader.feed(written[start : start + size])
            while (reply := reader.pop()) is not None:
                found.append(reply)
        assert found == wanted, size


def test_a_reply_without_its_line_feed_is_none_yet() -> None:
    reader = Reader()
    reader.feed(b"ok 12")
    assert reader.pop() is None
    reader.feed(b"3 4\n")
    assert reader.pop() == Reply((), "ok", (123, 4))


@pytest.mark.parametrize(
    "line", [b"", b"hello", b"ok", b"ok x", b"|x", b"yes 1", b"\xff"]
)
def test_a_line_of_no_reply_is_refused(line: bytes) -> None:
    with pytest.raises(Unreadable):
        Reader().feed(line + b"\n")


def test_answers_to_many_requests_come_in_order_with_refusals_among_them(
    session: Session,
) -> None:
    counts: list[int] = []
    asked: list[requests.Request[Any]] = [
        requests.Type("end", "en", "one"),
        requests.Type("end", "en", "…"),
        requests.Type("end", "en", "t\nwo"),
        requests.Type("end", "en", "three"),
        requests.Print(2),
        requests.Print(3),
        requests.Strike(1),
    ]
    answers = list(session.each(asked, counts.append))
    refusals = [answers.pop(index) for index in (5, 2, 1)]
    assert answers == [Typed(2, 1), Typed(3, 2), "three", Done(4)]
    assert [r.code for r in refusals if isinstance(r, Refused)] == [2, 6, 7]
    assert counts == [1, 2, 3, 4, 5, 6, 7]
    assert session.version() == 4


def test_no_request_is_answered_by_no_answer(session: Session) -> None:
    assert list(session.each([])) == []
    assert session.version() == 1


def test_answers_are_given_while_requests_are_still_made(session: Session) -> None:
    made = 0

    def asked() -> Iterator[requests.Type]:
        nonlocal made
        for made in range(1, 5001):
            yield requests.Type("end", "en", "x" * 100)

    answers = session.each(asked())
    assert next(answers) == Typed(2, 1)
    assert 0 < made <= 513
    answers.close()


def test_requests_are_sent_before_an_answer_is_taken(session: Session) -> None:
    answers = session.each(requests.Type("end", "en", text) for text in ("a", "b"))
    answers.close()
    assert session.version() == 3
    session.each([requests.Strike(1), requests.Strike(2)])
    assert [each.struck for each in session.paragraphs()] == [True, True]


def test_while_answers_are_given_no_others_are(session: Session) -> None:
    answers = session.each([requests.Version()] * 2)
    with pytest.raises(RuntimeError, match="still being given"):
        session.each([requests.Version()])
    assert list(answers) == [1, 1]
    assert list(session.each([requests.Version()])) == [1]


def test_another_thread_is_refused(session: Session) -> None:
    said: list[str] = []

    def use(what: Callable[[], object]) -> None:
        with pytest.raises(RuntimeError) as caught:
            what()
        said.append(str(caught.value))

    answers = session.each([requests.Version()] * 600)
    assert next(answers) == 1
    uses: list[Callable[[], object]] = [
        session.version,
        session.close,
        lambda: session.each([]),
        lambda: list(answers),
    ]
    for what in uses:
        thread = threading.Thread(target=use, args=(what,))
        thread.start()
        thread.join()
    assert said == 4 * [
        "A session can be used by the thread that opened it alone. Nothing was sent. Open the book"
        " in the thread that uses it."
    ]
    assert session.version() == 1


def test_a_process_that_was_forked_takes_no_answer_of_the_session(book: Path) -> None:
    with Session(book) as session:
        child = os.fork()
        if child == 0:
            try:
                session.version()
            except RuntimeError:
                os._exit(7)
            finally:
                os._exit(0)
        _, status = os.waitpid(child, 0)
        assert os.waitstatus_to_exitcode(status) == 7
        assert session.version() == 1


def test_a_session_that_is_left_open_is_warned_of(book: Path) -> None:
    session = Session(book)
    with pytest.warns(
        ResourceWarning, match=re.escape(f"unclosed session with {book}")
    ):
        del session
        gc.collect()
    # the program ends by that, and the book can be opened
    with Session(book, timeout=WAIT_SECONDS) as session:
        session.version()
    with warnings.catch_warnings(record=True) as caught:
        del session
        gc.collect()
    assert not caught


def test_where_answers_are_left_the_session_goes_on_and_the_rest_is_dropped(
    session: Session,
) -> None:
    made: list[str] = []

    def asked() -> Iterator[requests.Type]:
        for number in range(10_000):
            made.append(f"{number} " + "x" * 3_000)
            yield requests.Type("end", "en", made[-1])

    answers = session.each(asked())
    assert next(answers) == Typed(2, 1)
    with pytest.raises(RuntimeError, match="still being given"):
        session.version()
    answers.close()
    typed = session.version() - 1
    assert 1 <= typed <= len(made) < 10_000
    assert [session.print_of(p.id) for p in session.paragraphs()] == made[:typed]


def test_what_fails_while_requests_are_made_leaves_the_session_whole(
    session: Session,
) -> None:
    def asked() -> Iterator[requests.Type]:
        yield requests.Type("end", "en", "one")
        raise KeyError("no more")

    with pytest.raises(KeyError):
        list(session.each(asked()))
    assert session.version() in (1, 2)
    assert session.add_paragraph("end", "en", "two").id == session.version() - 1


def test_megabytes_go_both_ways_at_once(book: Path) -> None:
    text = "The moon is far away. " * 180
    with Session(book) as session:
        typed = session.add_paragraph("end", "en", text)
        # a correction of nothing by nothing needs little, a history shows all of it
        asked: list[requests.Request[Any]] = []
        for _ in range(150):
            asked.append(requests.Correct(typed.id, 0, len(text), text))
            asked.append(requests.History(typed.id))
            asked.append(requests.Print(typed.id))
            asked.append(requests.Braille(typed.id))
        sent = sum(len(request.encoded()) for request in asked)
        received = 0
        for answer in session.each(asked):
            assert not isinstance(answer, Refused)
            if isinstance(answer, str):
                received += len(answer.encode())
            elif isinstance(answer, tuple):
                received += sum(len(entry.text) for entry in answer)
        assert sent > 500_000
        assert received > 40_000_000
        assert session.print_of(typed.id) == text


def test_a_table_of_megabytes_is_sent_whole(session: Session) -> None:
    lines = [f"# {n:05d} {'x' * 900}\n" for n in range(4_000)]
    text = "".join(["letter a 1\n", *lines, "letter b 12\n"]).encode()
    assert session.put_table("big", text) == Done(2)
    assert session.add_paragraph("end", "big", "ab").id == 1


def test_a_session_that_is_closed_answers_no_more(session: Session) -> None:
    answers = session.each([requests.Version()] * 3)
    assert next(answers) == 1
    session.close()
    session.close()
    with pytest.raises(RuntimeError, match="closed"):
        next(answers)
    with pytest.raises(RuntimeError, match="closed"):
        session.version()


def test_a_session_ends_well_and_leaves_all_in_the_file(book: Path) -> None:
    with Session(book) as session:
        session.add_paragraph("end", "en", "all of it")
    alone = book.with_name("alone")
    alone.write_bytes(book.read_bytes())
    with Session(alone) as session:
        assert session.print_of(1) == "all of it"


@pytest.mark.parametrize(
    "pages, then, said",
    [
        (0, 0, " See to the disk: there is no room on it."),
        # the log had it, which the program gives up as it ends
        (0, 33, " See to the disk: there is little room on it."),
        (0, 300, " See to the disk: there is little room on it."),
        (2, 33, " See to the disk: there is little room on it."),
        (1_000_000, 1_000_000, " See to the disk."),
    ],
)
def test_what_was_not_kept_says_how_little_room_there_is(
    book: Path,
    script: Callable[[str], Path],
    monkeypatch: pytest.MonkeyPatch,
    pages: int,
    then: int,
    said: str,
) -> None:
    found = [
        os.statvfs_result((4_096, 4_096, 2_000_000, free, free, 9, 9, 9, 0, 255))
        for free in (pages, then)
    ]
    program = script("read line; echo end 3; read line; echo no 91")
    with Session(book, program) as session:
        monkeypatch.setattr(os, "statvfs", lambda path: found.pop(0))
        with pytest.raises(Lost) as caught:
            session.strike(1)
    assert caught.value.cause == (
        "The striking of paragraph 1 was not reported as kept, since the file of the book could"
        f" not be written or read.{said}"
    )


@pytest.mark.parametrize(
    "number, said",
    [
        (
            errno.EDQUOT,
            ": little or nothing is left of what you may use of it (a quota).",
        ),
        (errno.EOPNOTSUPP, "."),
    ],
)
def test_what_was_not_kept_by_a_quota_says_so(
    book: Path,
    script: Callable[[str], Path],
    monkeypatch: pytest.MonkeyPatch,
    number: int,
    said: str,
) -> None:
    def refuse(file: int, start: int, count: int) -> None:
        raise OSError(number, os.strerror(number))

    monkeypatch.setattr(os, "posix_fallocate", refuse)
    program = script("read line; echo end 3; read line; echo no 91")
    with Session(book, program) as session:
        with pytest.raises(Lost) as kept:
            session.strike(1)
    assert kept.value.cause == (
        "The striking of paragraph 1 was not reported as kept, since the file of the book could"
        f" not be written or read. See to the disk{said}"
    )
    with pytest.raises(Failed) as begun, Session(book, script("exit 3")):
        pass
    assert begun.value.sentence.endswith(f" See to the disk, and try again{said}")


def test_who_waits_for_an_answer_is_called_each_second(
    book: Path, script: Callable[[str], Path]
) -> None:
    calls: list[float] = []
    # what is there once somebody is called while the book is opened, and while something is asked
    called = [book.with_name("opening"), book.with_name("asking")]

    def call() -> None:
        calls.append(time.monotonic())
        called[0].touch()

    answer = "read line; until [ -e '{}' ]; do sleep 0.01; done; echo end 3\n"
    program = script("".join(map(answer.format, called)))
    started = time.monotonic()
    with Session(book, program, while_waiting=call) as session:
        del called[0]
        opened = len(calls)
        assert session.version() == 3
    assert 1 <= opened < len(calls) <= time.monotonic() - started
    assert calls[0] - started >= 1


@pytest.mark.parametrize("is_many", [False, True])
def test_a_program_that_does_not_answer_is_ended_soon_after_ctrl_c(
    book: Path, is_many: bool
) -> None:
    def stop() -> None:
        raise KeyboardInterrupt

    with pytest.raises(KeyboardInterrupt) as caught:
        with Session(book, while_waiting=stop) as session:
            os.kill(session.pid, signal.SIGSTOP)
            started = time.monotonic()
            if is_many:
                list(session.each([requests.Supply("en")] * 2_000))
            session.strike(1)
    assert time.monotonic() - started < WAIT_SECONDS
    (note,) = caught.value.__notes__
    assert note.startswith(
        "braildesk didn't answer any more, and was ended. No command of this session was reported"
        " as kept."
    )
    # the file is free again
    with Session(book) as session:
        assert session.last_version == 1


def test_a_program_that_answers_something_else_is_ended(
    book: Path, script: Callable[[str], Path]
) -> None:
    program = script("read line; echo end 3; read line; echo hello; exec sleep 600")
    started = time.monotonic()
    with Session(book, program) as session:
        with pytest.raises(SessionEnded) as caught:
            session.version()
        with pytest.raises(SessionEnded):
            session.version()
    assert time.monotonic() - started < WAIT_SECONDS
    assert caught.value.sentence == (
        "This is no line of a reply of braildesk: b'hello'. Nothing was changed by this session."
    )


@pytest.mark.parametrize("after", [0, 1, 57, 400])
def test_of_a_killed_session_all_that_was_reported_as_kept_is_there(
    book: Path, after: int
) -> None:
    kept: list[Typed] = []
    with Session(book) as session:
        asked = (requests.Type("end", "en", f"line {n}") for n in range(5_000))
        with pytest.raises(SessionEnded) as caught:
            for answer in session.each(asked):
                assert isinstance(answer, Typed)
                kept.append(answer)
                if len(kept) == after + 1:
                    os.kill(session.pid, signal.SIGKILL)
    lost = caught.value
    assert after < len(kept) < 5_000
    assert kept == [Typed(n + 2, n + 1) for n in range(len(kept))]
    assert lost.acknowledged == requests.Type("end", "en", f"line {len(kept) - 1}")
    assert (lost.version, lost.answered) == (len(kept) + 1, len(kept))
    assert lost.sentence == (
        "The session was ended by signal 9. The last command that was reported as kept is"
        f" the new paragraph “line {len(kept) - 1}”, by which the book came to version {lost.version}."
        f" All up to it is in the book. It is not known whether the new paragraph “line {len(kept)}”"
        f" and {len(lost.unanswered) - 1} more commands are in the book. Open the book again: if it is"
        f" at version {lost.version}, nothing more is in it, and each command more makes that greater"
        " by 1."
    )
    assert lost.unanswered[0] == requests.Type("end", "en", f"line {len(kept)}")
    with Session(book) as session:
        # at most the command that was being kept is there beside those that were reported
        assert session.version() - lost.version in (0, 1)
        prints = list(session.each(requests.Print(p.id) for p in session.paragraphs()))
    assert prints == [f"line {n}" for n in range(len(prints))]
    assert len(prints) >= len(kept)


def test_one_more_command_is_said_to_be_one(book: Path) -> None:
    with Session(book) as session:
        os.kill(session.pid, signal.SIGSTOP)
        answers = session.each(requests.Type("end", "en", each) for each in "ab")
        os.kill(session.pid, signal.SIGKILL)
        with pytest.raises(SessionEnded) as caught:
            next(answers)
    assert "and 1 more command are in the book." in caught.value.sentence


def test_a_killed_session_says_so_at_each_request(book: Path) -> None:
    with Session(book) as session:
        os.kill(session.pid, signal.SIGKILL)
        for _ in range(2):
            with pytest.raises(SessionEnded) as caught:
                session.add_paragraph("end", "en", "a")
            assert caught.value.acknowledged is None
            assert caught.value.sentence == (
                "The session was ended by signal 9. No command of this session was reported as kept."
                " It is not known whether the new paragraph “a” is in the book. Open the book again:"
                " if it is at version 1, nothing more is in it, and each command more makes that"
                " greater by 1."
            )


def test_a_session_that_only_asked_changed_nothing(book: Path) -> None:
    with Session(book) as session:
        os.kill(session.pid, signal.SIGKILL)
        with pytest.raises(SessionEnded) as caught:
            session.paragraphs()
    assert caught.value.unanswered == ()
    assert caught.value.sentence == (
        "The session was ended by signal 9. Nothing was changed by this session."
    )


def test_a_command_that_was_kept_and_not_answered_may_be_in_the_book(
    book: Path, monkeypatch: pytest.MonkeyPatch
) -> None:
    with monkeypatch.context() as patched:
        for name, value in standing_in(1, KEPT, KILL_PROGRAM).items():
            patched.setenv(name, value)
        with Session(book) as session:
            with pytest.raises(SessionEnded) as caught:
                session.add_paragraph("end", "en", "It rose.")
    assert caught.value.unanswered == (requests.Type("end", "en", "It rose."),)
    assert "Nothing was changed" not in caught.value.sentence
    with Session(book) as session:
        assert (session.last_version, session.print_of(1)) == (2, "It rose.")


def test_a_killed_client_leaves_no_request_cut(book: Path) -> None:
    # each text ends in a full stop, and the client is killed with requests on their way
    client = (
        "import sys\n"
        "from braildesk import Session, requests\n"
        "texts = (f'line {n} ' + 'x' * (n * 37 % 3000) + '.' for n in range(20_000))\n"
        "with Session(sys.argv[1]) as session:\n"
        "    for answer in session.each(requests.Type('end', 'en', text) for text in texts):\n"
        "        print(answer.id, flush=True)\n"
    )
    environment = {**os.environ, "PYTHONPATH": PYTHON}
    with subprocess.Popen(
        [sys.executable, "-c", client, str(book)],
        stdout=subprocess.PIPE,
        text=True,
        env=environment,
    ) as running:
        assert running.stdout is not None
        for line in running.stdout:
            if int(line) == 50:
                break
        running.kill()
        last = [int(line) for line in running.stdout.read().split()[-2:-1]]
    with once_free(book) as session:
        prints = list(session.each(requests.Print(p.id) for p in session.paragraphs()))
    assert len(prints) >= max([50, *last])
    assert prints == [
        f"line {n} " + "x" * (n * 37 % 3000) + "." for n in range(len(prints))
    ]


def test_a_command_that_the_file_does_not_take_is_lost(
    book: Path, program: str, script: Callable[[str], Path]
) -> None:
    limited = script(f"trap '' XFSZ; ulimit -f 600; exec '{program}' \"$@\"")
    kept = 0
    with Session(book, limited) as session:
        with pytest.raises(Lost) as caught:
            for kept in range(1, 3_000):
                session.add_paragraph("end", "en", "x" * 3_000)
        assert session.last_version == kept
    lost = caught.value
    assert not isinstance(lost, SessionEnded)
    assert lost.acknowledged == requests.Type("end", "en", "x" * 3_000)
    assert lost.version == kept
    assert lost.unanswered == (requests.Type("end", "en", "x" * 3_000),)
    line = f"the new paragraph “{'x' * 60}…”"
    assert lost.sentence == (
        f"{line[:1].upper()}{line[1:]} was not reported as kept, since the file of the book could not"
        " be written or read. See to the disk. The last command that was reported as kept is"
        f" {line}, by which the book came to version {kept}. All up to it is in the book. It is not"
        f" known whether {line} is in the book. Open the book again: if it is at version {kept},"
        " nothing more is in it, and each command more makes that greater by 1."
    )
    with Session(book) as session:
        assert session.version() in (kept, kept + 1)


def test_ctrl_c_leaves_the_program_to_end_well(book: Path) -> None:
    client = (
        "import sys\n"
        "from braildesk import Session, requests\n"
        "with Session(sys.argv[1]) as session:\n"
        "    for answer in session.each(\n"
        "        requests.Type('end', 'en', f'line {n}.') for n in range(20_000)\n"
        "    ):\n"
        "        print(answer.id, flush=True)\n"
    )
    environment = {**os.environ, "PYTHONPATH": PYTHON}
    with subprocess.Popen(
        [sys.executable, "-c", client, str(book)],
        stdout=subprocess.PIPE,
        stderr=subprocess.PIPE,
        text=True,
        env=environment,
        start_new_session=True,
    ) as running:
        assert running.stdout is not None and running.stderr is not None
        for line in running.stdout:
            if int(line) == 20:
                break
        os.killpg(running.pid, signal.SIGINT)
        ids = [20, *map(int, running.stdout.read().split())]
        assert "KeyboardInterrupt" in running.stderr.read()
    with Session(book) as session:
        prints = list(session.each(requests.Print(p.id) for p in session.paragraphs()))
    assert len(prints) >= ids[-1]
    assert prints == [f"line {n}." for n in range(len(prints))]


STEPS_OF = ("session.py", "asking.py", "rescue.py", "pipe.py", "replies.py")


def interrupted_at(step: int, book: Path) -> bool:
    """Types by a session that an interrupt reaches at a step of the client, and says if it did.

    What the interrupt leaves has to end, and what was answered has to be in the book.
    """
    count = 0
    answered: list[int] = []

    def trace(frame: FrameType, event: str, _: object) -> Any:
        nonlocal count
        if not frame.f_code.co_filename.endswith(STEPS_OF):
            return None
        if event == "line" and not closing:
            count += 1
            if count == step:
                raise KeyboardInterrupt
        return trace

    closing = False
    texts = [f"line {n}." for n in range(8)]
    session = Session(book)
    try:
        sys.settrace(trace)
        for answer in session.each(requests.Type("end", "en", text) for text in texts):
            assert isinstance(answer, Typed)
            answered.append(answer.id)
    except KeyboardInterrupt:
        pass
    finally:
        sys.settrace(None)
        closing = True
        with suppress(Lost):
            session.close()
    with Session(book) as after:
        prints = list(after.each(requests.Print(p.id) for p in after.paragraphs()))
    assert len(prints) >= len(answered)
    assert prints == texts[: len(prints)]
    return count >= step


def test_an_interrupt_at_each_seventh_step_of_the_client_leaves_a_whole_book(
    book: Path,
) -> None:
    # at each step a client that waits for ever is ended, and the test with it
    signal.alarm(WAIT_SECONDS)
    try:
        step = 1
        while interrupted_at(step, shutil.copyfile(book, book.with_name(f"{step}"))):
            step += 7
            signal.alarm(WAIT_SECONDS)
        assert step > 100
    finally:
        signal.alarm(0)


def test_requests_that_wait_are_written_in_groups(
    book: Path, monkeypatch: pytest.MonkeyPatch
) -> None:
    written: list[int] = []
    write = os.write

    def noted(descriptor: int, data: bytes) -> int:
        written.append(len(data))
        return write(descriptor, data)

    texts = [f"Line {n} of a book about the moon and the tides." for n in range(600)]
    with Session(book) as session:
        monkeypatch.setattr(os, "write", noted)
        asked = (requests.Type("end", "en", text) for text in texts)
        assert all(isinstance(answer, Typed) for answer in session.each(asked))
        assert session.version() == 601
    # few at first, until it is known that they are answered soon, and then some seventy at once
    assert len(written) < 25
    assert sum(size > 3_500 for size in written) > 4


def removed(book: Path) -> None:
    book.unlink()


def renamed(book: Path) -> None:
    book.rename(book.with_name("elsewhere"))


def replaced(book: Path) -> None:
    shutil.copyfile(book, book.with_name("older"))
    book.with_name("older").rename(book)


def linked(book: Path) -> None:
    renamed(book)
    book.symlink_to("elsewhere")


def written_in(book: Path) -> None:
    with open(book, "r+b") as file:
        file.seek(-1, os.SEEK_END)
        file.write(b"!")


@pytest.mark.parametrize("moved", [removed, renamed, replaced, linked])
@pytest.mark.parametrize("moment", ["before a command", "before the end"])
def test_a_book_that_is_gone_from_its_path_is_saved_and_said(
    book: Path, moved: Callable[[Path], None], moment: str
) -> None:
    book.chmod(0o640)
    with pytest.raises(Displaced) as caught:
        with Session(book) as session:
            session.add_paragraph("end", "en", "One.")
            if moment == "before a command":
                moved(book)
            session.add_paragraph("end", "en", "Two.")
            assert moment == "before the end"
            moved(book)
    saved = Path(f"{book}-saved-1")
    what = "another one was put there"
    if moved in (removed, renamed):
        what = "it was removed or moved"
    assert caught.value.sentence == (
        f"The file of the book is no longer at “{book}”: {what} while it"
        " was open. All of the book, with what was kept last, is in the new file"
        f" “{saved}”. Go on with that one, or look first what is at the old path by now."
    )
    assert caught.value.version == 3
    assert saved.stat().st_mode & 0o777 == 0o640
    with Session(saved) as session:
        assert [session.print_of(1), session.print_of(2)] == ["One.", "Two."]


def test_of_a_book_whose_folder_was_renamed_it_is_said_where_it_was(
    book: Path, monkeypatch: pytest.MonkeyPatch
) -> None:
    folder = book.parent / "folder"
    folder.mkdir()
    book.rename(folder / "book")
    monkeypatch.chdir(folder)
    with pytest.raises(Displaced) as caught, Session("book") as session:
        folder.rename(book.parent / "other")
        session.add_paragraph("end", "en", "One.")
    # by the path that it was given it is found still
    assert Path("book").exists()
    assert caught.value.sentence.startswith(
        f"The file of the book is no longer at “{folder}/book”: it was removed or moved"
    )


def removed_with_its_log(book: Path) -> None:
    book.unlink()
    Path(f"{book}-wal").unlink()


@pytest.mark.parametrize(
    "moved, kept",
    [(replaced, 0)]
    + [
        (moved, kept)
        for moved in (replaced, removed, renamed, removed_with_its_log)
        for kept in (1, 300)
    ],
)
def test_a_book_is_saved_that_is_gone_as_its_program_ends(
    book: Path, moved: Callable[[Path], None], kept: int
) -> None:
    with pytest.raises(Displaced) as caught, Session(book) as session:
        texts = [f"Line {number}." for number in range(kept)]
        list(session.each(requests.Type("end", "en", text) for text in texts))
        moved(book)
        os.kill(session.pid, signal.SIGKILL)
        session.version()
    lost, saved = caught.value, f"{book}-saved-1"
    assert (lost.version, lost.unanswered, lost.saved) == (kept + 1, (), saved)
    what = "another one was put there"
    if moved is not replaced:
        what = "it was removed or moved"
    assert lost.sentence == (
        f"The session was ended by signal 9. The file of the book is no longer at “{book}”: {what}"
        " while it was open. All of the book, with what was kept last, is in the new file"
        f" “{saved}”. Go on with that one, or look first what is at the old path by now."
    )
    assert not Path(f"{saved}-wal").exists()
    with Session(saved) as session:
        assert [session.print_of(each.id) for each in session.paragraphs()] == texts


@pytest.mark.parametrize("moved", [removed, renamed])
def test_a_book_in_which_nothing_was_changed_is_not_saved_where_it_is_gone_as_its_program_ends(
    book: Path, moved: Callable[[Path], None]
) -> None:
    with pytest.raises(SessionEnded) as caught, Session(book) as session:
        moved(book)
        os.kill(session.pid, signal.SIGKILL)
        session.version()
    assert caught.value.kept == "Nothing was changed by this session."
    assert not list(book.parent.glob("*-saved-*"))


@pytest.mark.parametrize("moved", [removed, renamed, replaced])
def test_a_book_is_saved_that_is_gone_as_a_command_is_not_kept(
    book: Path, monkeypatch: pytest.MonkeyPatch, moved: Callable[[Path], None]
) -> None:
    with monkeypatch.context() as patched:
        for name, value in standing_in(2, READ, REPLY, "no 91").items():
            patched.setenv(name, value)
        session = Session(book)
    session.add_paragraph("end", "en", "One.")
    moved(book)
    with pytest.raises(Displaced) as caught:
        session.add_paragraph("end", "en", "Two.")
    lost = caught.value
    assert lost.cause.startswith("The new paragraph “Two.” was not reported as kept,")
    assert lost.unanswered == (requests.Type("end", "en", "Two."),)
    assert lost.saved == f"{book}-saved-1"
    with Session(lost.saved) as session:
        assert session.print_of(1) == "One."


def interrupting(
    monkeypatch: pytest.MonkeyPatch, is_ended: bool
) -> Callable[[], list[Path]]:
    """Has Ctrl-C come as a book that is gone is being saved; gives what was looked at."""
    looked_at, check = list[Path](), openfile._version

    def stopped(made: Path, program: str | None) -> int:
        looked_at.append(made)
        if len(looked_at) == 1:
            os.kill(os.getpid(), signal.SIGINT)
            # as at a terminal, where Ctrl-C ends the program too
            if is_ended:
                raise Failed("The program was ended.")
        return check(made, program)

    monkeypatch.setattr(openfile, "_version", stopped)
    return lambda: looked_at


@pytest.mark.parametrize("is_ended", [False, True])
@pytest.mark.parametrize("moment", ["before a command", "before the end"])
def test_ctrl_c_while_a_book_that_is_gone_is_saved_comes_once_that_is_done(
    book: Path, monkeypatch: pytest.MonkeyPatch, moment: str, is_ended: bool
) -> None:
    looked_at = interrupting(monkeypatch, is_ended)
    with pytest.raises(KeyboardInterrupt) as stopped, Session(book) as session:
        session.add_paragraph("end", "en", "One.")
        removed(book)
        if moment == "before a command":
            session.add_paragraph("end", "en", "Two.")
    assert len(looked_at()) == 1 + is_ended
    lost, saved = session.lost, Path(f"{book}-saved-1")
    assert isinstance(lost, Displaced) and lost.saved == str(saved)
    assert stopped.value.__notes__ == [lost.sentence]
    assert list(book.parent.glob("*-saved-*")) == [saved]
    with Session(saved) as session:
        assert session.print_of(1) == "One."


def test_ctrl_c_while_it_is_looked_at_the_file_at_the_end_leaves_no_book_unsaved(
    book: Path, monkeypatch: pytest.MonkeyPatch
) -> None:
    with pytest.raises(KeyboardInterrupt) as stopped, Session(book) as session:
        session.add_paragraph("end", "en", "One.")
        removed(book)
        look, stops = OpenFile.is_written_into, iter([True])

        def interrupted(file: OpenFile) -> bool:
            if next(stops, False):
                raise KeyboardInterrupt
            return bool(look.__get__(file))

        monkeypatch.setattr(OpenFile, "is_written_into", property(interrupted))
    lost = session.lost
    assert isinstance(lost, Displaced) and lost.saved == f"{book}-saved-1"
    assert stopped.value.__notes__ == [lost.sentence]
    with Session(lost.saved) as session:
        assert session.print_of(1) == "One."


def test_a_session_that_ctrl_c_stopped_as_its_book_was_saved_says_so_at_its_end(
    book: Path, monkeypatch: pytest.MonkeyPatch
) -> None:
    interrupting(monkeypatch, False)
    session = Session(book)
    removed(book)
    with pytest.raises(KeyboardInterrupt):
        session.add_paragraph("end", "en", "One.")
    with pytest.raises(Displaced) as caught:
        session.close()
    assert caught.value.saved == f"{book}-saved-1"
    session.close()


def test_ctrl_c_while_a_session_only_asked_says_what_became_of_the_file(
    book: Path,
) -> None:
    with pytest.raises(KeyboardInterrupt) as stopped, Session(book) as session:
        removed(book)
        raise KeyboardInterrupt
    assert stopped.value.__notes__ == [
        f"{session.strayed} Nothing was changed in it here."
    ]


def test_of_a_command_that_was_not_answered_as_a_book_was_replaced_it_is_said_so(
    book: Path, monkeypatch: pytest.MonkeyPatch
) -> None:
    with monkeypatch.context() as patched:
        for name, value in standing_in(2, KEPT, KILL_PROGRAM).items():
            patched.setenv(name, value)
        session = Session(book)
    session.add_paragraph("end", "en", "One.")
    replaced(book)
    with pytest.raises(Displaced) as caught:
        session.add_paragraph("end", "en", "Two.")
    session.close()
    lost = caught.value
    assert lost.unanswered == (requests.Type("end", "en", "Two."),)
    assert lost.kept.endswith(" What was not reported as kept may be in it too.")
    assert lost.saved is not None
    with Session(lost.saved) as session:
        assert [session.print_of(number) for number in (1, 2)] == ["One.", "Two."]


def test_a_book_is_saved_also_where_nothing_is_said_of_a_file_that_is_gone(
    book: Path, monkeypatch: pytest.MonkeyPatch
) -> None:
    def fail(file: int, like: int) -> None:
        raise FileNotFoundError(errno.ENOENT, "No such file or directory")

    monkeypatch.setattr("braildesk.openfile.give_access", fail)
    with pytest.raises(Displaced), Session(book) as session:
        session.add_paragraph("end", "en", "One.")
        removed(book)
    saved = Path(f"{book}-saved-1")
    assert saved.stat().st_mode & 0o777 == 0o600
    with Session(saved) as session:
        assert session.print_of(1) == "One."


def test_a_book_that_is_gone_while_answers_come_is_noticed_among_them(
    book: Path,
) -> None:
    texts, typed = [f"line {n}." for n in range(2_000)], 0
    with pytest.raises(Displaced), Session(book) as session:
        for answer in session.each(requests.Type("end", "en", text) for text in texts):
            assert isinstance(answer, Typed)
            typed = answer.id
            if typed == 100:
                removed(book)
    # what was on its way by then was answered, and all that was answered is saved
    assert 100 <= typed < 1_000
    with Session(Path(f"{book}-saved-1")) as session:
        prints = list(session.each(requests.Print(p.id) for p in session.paragraphs()))
    assert len(prints) >= typed and prints == texts[: len(prints)]


@pytest.mark.parametrize("moved", [removed, renamed, replaced, linked])
def test_what_an_earlier_session_kept_is_saved_by_a_later_one_that_only_asks(
    book: Path, moved: Callable[[Path], None]
) -> None:
    with Session(book) as session:
        session.add_paragraph("end", "en", "One.")
    with pytest.raises(Displaced):
        with Session(book) as session:
            session.guard()
            assert session.print_of(1) == "One."
            moved(book)
    with Session(Path(f"{book}-saved-1")) as session:
        assert session.print_of(1) == "One."


@pytest.mark.parametrize(
    "moved, said",
    [
        (lambda book: None, ""),
        (removed, "The file of the book is no longer at “{}”: it was removed or moved"),
        (
            replaced,
            "The file of the book is no longer at “{}”: another one was put there",
        ),
        (written_in, "Another program wrote into the file of the book, “{}”,"),
    ],
)
def test_a_session_that_only_asked_says_what_became_of_the_file_once_it_is_closed(
    book: Path, moved: Callable[[Path], None], said: str
) -> None:
    with Session(book) as session:
        moved(book)
    assert session.strayed.startswith(said.format(book))
    assert bool(session.strayed) is bool(said)
    assert not list(book.parent.glob("*-saved-*"))


def test_a_book_that_is_gone_with_its_folder_says_that_it_is_not_saved(
    book: Path, tmp_path: Path
) -> None:
    folder = tmp_path / "folder"
    folder.mkdir()
    book = book.rename(folder / "book")
    session = Session(book)
    shutil.rmtree(folder)
    with pytest.raises(Displaced) as caught:
        session.add_paragraph("end", "en", "One.")
    assert caught.value.sentence == (
        f"The file of the book is no longer at “{book}”: it was removed or moved while it was"
        " open. What was kept last isn't at that path, and it could not be saved in a new file: No"
        " such file or directory. Copy what you typed last."
    )


#: Types into a book on a disk of memory that is taken away meanwhile; the process alone has the disk.
ON_A_DISK_TAKEN_AWAY = """\
import shutil, subprocess, sys
from braildesk import Displaced, Session

book, folder = sys.argv[1:]
if subprocess.run(["mount", "-t", "tmpfs", "none", folder]).returncode:
    sys.exit(3)
with Session(shutil.copy(book, folder)) as session:
    subprocess.run(["umount", "-l", folder], check=True)
    try:
        session.add_paragraph("end", "en", "One.")
    except Displaced as lost:
        print(lost.sentence)
"""


@NEEDS_ROOT
def test_a_book_whose_disk_is_taken_away_says_so_and_where_it_is_saved_meanwhile(
    book: Path, tmp_path: Path
) -> None:
    folder = tmp_path / "disk"
    folder.mkdir()
    saved = folder / "book.braildesk-saved-1"
    words = [sys.executable, "-c", ON_A_DISK_TAKEN_AWAY, str(book), str(folder)]
    done = subprocess.run(["unshare", "-m", *words], capture_output=True, text=True)
    if done.returncode and "Traceback" not in done.stderr:
        pytest.skip("no disk can be mounted here")
    assert done.stdout == (
        f"The file of the book is no longer at “{folder}/book.braildesk”: its disk was taken"
        " away from there while it was open. All of the book, with what was kept last, is in the new"
        f" file “{saved}”, which isn't on that disk. Move it to another folder before you go on: it"
        " is hidden once that disk is there again.\n"
    )
    with Session(saved) as session:
        assert session.print_of(1) == "One."


@pytest.mark.parametrize("moment", ["before a command", "before the end"])
def test_a_book_whose_folder_is_renamed_is_said_to_be_there_with_all_that_was_kept(
    book: Path, tmp_path: Path, moment: str
) -> None:
    folder, renamed = tmp_path / "folder", tmp_path / "renamed"
    folder.mkdir()
    book = book.rename(folder / "book")
    with pytest.raises(Displaced) as caught:
        with Session(book) as session:
            session.add_paragraph("end", "en", "One.")
            if moment == "before a command":
                folder.rename(renamed)
            session.add_paragraph("end", "en", "Two.")
            assert moment == "before the end"
            folder.rename(renamed)
    assert caught.value.sentence == (
        f"The file of the book is no longer at “{book}”: it was removed or moved while it was"
        f" open. It is at “{renamed / 'book'}” now, and has all of the book, with what was kept last."
        " Go on there."
    )
    assert caught.value.saved == str(renamed / "book")
    with Session(renamed / "book") as session:
        assert [session.print_of(1), session.print_of(2)] == ["One.", "Two."]
    assert sorted(os.listdir(renamed)) == ["book", "book-wal"]


def test_a_book_that_is_moved_without_its_log_is_not_said_to_be_whole_there(
    book: Path, tmp_path: Path
) -> None:
    folder, renamed = tmp_path / "folder", tmp_path / "renamed"
    folder.mkdir()
    book = book.rename(folder / "book")
    with pytest.raises(Displaced) as caught:
        with Session(book) as session:
            session.add_paragraph("end", "en", "One.")
            folder.rename(renamed)
            (renamed / "book-wal").unlink()
            session.add_paragraph("end", "en", "Two.")
    assert caught.value.saved is None
    assert caught.value.sentence.endswith(
        "it could not be saved in a new file: No such file or directory. Copy what you typed last."
    )


def test_of_a_book_that_was_written_over_while_it_was_closed_it_is_said_that_it_was(
    book: Path, empty_book: Path
) -> None:
    with Session(book) as session:
        session.add_paragraph("end", "en", "One.")
        with held_file(session) as held:
            session.close()
            with Session(book) as again:
                again.guard(held)
                again.add_paragraph("end", "en", "Two.")
            book.write_bytes(empty_book.read_bytes())
            again = Session(book)
            with pytest.raises(Displaced) as caught:
                again.guard(held)
    assert (caught.value.sentence, caught.value.version) == (
        f"Another program wrote into the file of the book, “{book}”, while it was closed: it is at"
        " version 0 now, and was at 2 before. What was kept before isn't all there any more. Copy"
        " what you typed last, and look at what stands there before you go on.",
        2,
    )
    # nothing holds it
    once_free(book).close()


@pytest.mark.parametrize("moment", ["before a command", "among many", "before the end"])
@pytest.mark.parametrize("how", ["emptied", "overwritten", "cut", "copied over"])
def test_the_print_of_a_book_that_was_written_into_is_saved(
    book: Path, how: str, moment: str
) -> None:
    def write() -> None:
        with open(book, "r+b") as file:
            if how == "emptied":
                file.truncate(0)
            elif how == "cut":
                file.truncate(file.seek(0, os.SEEK_END) // 2)
            elif how == "copied over":
                # an older copy, which is a database as well
                front = file.read(4_096)
                file.truncate(0)
                file.seek(0)
                file.write(front)
            else:
                file.write(b"Dear Anna,\n")

    book.chmod(0o640)
    with pytest.raises(Displaced) as caught:
        with Session(book) as session:
            session.add_paragraph("end", "en", "One.")
            session.add_paragraph("end", "en", "Two.")
            write()
            if moment == "before a command":
                session.move(2, "front")
            elif moment == "among many":
                for _ in session.each([requests.Move(2, "front")] * 3):
                    pass
    saved = Path(f"{book}-saved-1.txt")
    assert caught.value.sentence == (
        f"Another program wrote into the file of the book, “{book}”, while it was open: it isn't that"
        " book any more. The print of all paragraphs, with what was kept last, is in the new file"
        f" “{saved}”. Go on with a copy of the book, and import from that file what it lacks. The log of"
        f" what stood there before is now “{book}-saved-1.log”."
    )
    # a command is not sent to such a file
    assert saved.read_text() == "One.\n\nTwo.\n"
    assert saved.stat().st_mode & 0o777 == 0o640


def written_over(other: Path, book: Path) -> None:
    """The bytes of another file in the place of a book's, in its own file, as `dd` puts them."""
    with open(book, "r+b") as file:
        file.write(other.read_bytes())


@pytest.mark.parametrize("put", [shutil.copyfile, written_over])
@pytest.mark.parametrize(
    "moment",
    [
        "before the first command",
        "before a command",
        "before many",
        "among many",
        "before the end",
    ],
)
def test_another_book_that_is_copied_into_the_file_of_an_open_one_is_noticed(
    book: Path, put: Callable[[Path, Path], object], moment: str
) -> None:
    other = book.with_name("other")
    shutil.copyfile(book, other)
    for path, text in ((book, "One."), (other, "Two.")):
        with Session(path) as session:
            session.add_paragraph("end", "en", text)
    # the two have the same size, and began with the same bytes
    assert book.read_bytes()[:100] == other.read_bytes()[:100]
    with pytest.raises(Displaced) as caught:
        with Session(book) as session:
            if moment != "before the first command":
                session.add_paragraph("end", "en", "Three.")
            if moment == "among many":
                answers = session.each([requests.Move(2, "front")] * 100)
                next(answers)
            put(other, book)
            # who looks at what was read before has nothing to lose
            if moment == "before the first command":
                assert session.print_of(1) == "One."
            if moment == "among many":
                list(answers)
            elif moment == "before many":
                list(session.each([requests.Move(2, "front")] * 3))
            elif moment != "before the end":
                session.add_paragraph("end", "en", "Four.")
    assert caught.value.cause == (
        f"Another program wrote into the file of the book, “{book}”, while it was open: it isn't that"
        " book any more."
    )
    texts = ["One."] if moment == "before the first command" else ["One.", "Three."]
    assert sorted(Path(f"{book}-saved-1.txt").read_text().split()) == texts
    # and what was copied there stays as it is, without the log of what stood there before
    assert book.read_bytes() == other.read_bytes()
    with Session(book) as session:
        assert [session.print_of(each.id) for each in session.paragraphs()] == ["Two."]


@pytest.fixture
def other(book: Path) -> Path:
    """Another book of the same size, which begins with the same bytes."""
    path = Path(shutil.copyfile(book, book.with_name("other")))
    for each, text in ((book, "One."), (path, "Two.")):
        with Session(each) as session:
            session.add_paragraph("end", "en", text)
    return path


@pytest.mark.parametrize("far", [READ, KEPT])
@pytest.mark.parametrize("number", [1, 2])
def test_another_book_that_is_copied_over_while_a_command_runs_is_noticed(
    book: Path, other: Path, monkeypatch: pytest.MonkeyPatch, far: str, number: int
) -> None:
    queue = book.with_name("queue")
    os.mkfifo(queue)
    for name, value in standing_in(number, far, WAIT, str(queue)).items():
        monkeypatch.setenv(name, value)

    def put() -> None:
        queue.read_bytes()
        shutil.copyfile(other, book)
        queue.write_bytes(b"")

    thread = threading.Thread(target=put)
    thread.start()
    with pytest.raises(Displaced):
        with Session(book) as session:
            for _ in range(number):
                session.add_paragraph("end", "en", "Three.")
    thread.join()
    assert Path(f"{book}-saved-1.txt").read_text().startswith("One.\n\nThree.")


#: The text of a table by which the log gets so long that the next command empties it into the file.
LONG = b"space \\s 0\n" + (b"# " + b"-" * 900 + b"\n") * 5_000


def while_it_runs(
    book: Path,
    monkeypatch: pytest.MonkeyPatch,
    moment: tuple[int, str],
    put: Callable[[], object],
) -> threading.Thread:
    """Has something done while a command runs, which is waited for by its session."""
    queue = book.with_name("queue")
    os.mkfifo(queue)
    number, far = moment
    for name, value in standing_in(number, far, WAIT, str(queue)).items():
        monkeypatch.setenv(name, value)

    def wait() -> None:
        queue.read_bytes()
        put()
        queue.write_bytes(b"")

    thread = threading.Thread(target=wait)
    thread.start()
    return thread


@pytest.mark.parametrize("far", [READ, KEPT])
def test_another_book_that_is_copied_over_while_the_log_is_emptied_is_noticed(
    book: Path, other: Path, monkeypatch: pytest.MonkeyPatch, far: str
) -> None:
    thread = while_it_runs(
        book, monkeypatch, (2, far), lambda: shutil.copyfile(other, book)
    )
    with pytest.raises(Displaced) as caught:
        with Session(book) as session:
            session.put_table("long", LONG)
            session.add_paragraph("end", "en", "Three.")
    thread.join()
    assert "wrote into the file of the book" in caught.value.cause
    assert Path(f"{book}-saved-1.txt").read_text() == "One.\n\nThree.\n"


def test_an_earlier_copy_of_the_book_that_is_copied_over_among_many_commands_is_noticed(
    book: Path,
) -> None:
    line = requests.Type("end", "en", "The moon is far away. " * 40)
    with Session(book) as session:
        list(session.each([line] * 100))
    earlier = Path(shutil.copyfile(book, book.with_name("earlier")))
    with Session(book) as session:
        session.correct(1, 0, 0, "Oh, ")
    with pytest.raises(Displaced):
        with Session(book) as session:
            # the log is emptied, and has nothing of the first paragraphs by then
            for number, _ in enumerate(session.each([line] * 400)):
                if number == 100:
                    shutil.copyfile(earlier, book)
    saved = Path(f"{book}-saved-1.txt").read_text()
    assert saved.startswith("Oh, The moon") and saved.count("\n\n") == 499


@pytest.mark.parametrize("number", [2, 3])
def test_a_program_that_tries_to_open_a_book_while_its_log_is_emptied_is_no_writer(
    book: Path, program: str, monkeypatch: pytest.MonkeyPatch, number: int
) -> None:
    def attempt() -> None:
        found = subprocess.run([program, "check", str(book)], capture_output=True)
        assert found.returncode == 2

    thread = while_it_runs(book, monkeypatch, (number, KEPT), attempt)
    with Session(book) as session:
        session.put_table("long", LONG)
        session.add_paragraph("end", "en", "Three.")
        session.correct(1, 0, 0, "Or ")
    thread.join()
    with Session(book) as session:
        assert session.print_of(1) == "Or Three."


def test_nobody_changes_a_book_while_it_is_seen_whether_it_has_what_was_kept(
    book: Path, program: str, monkeypatch: pytest.MonkeyPatch
) -> None:
    found = []

    def copy(source: BinaryIO, log: str, made: Path) -> os.stat_result:
        attempt = subprocess.run([program, "check", str(book)], capture_output=True)
        found.append(attempt.returncode)
        return copy_held(source, log, made)

    monkeypatch.setattr(openfile, "copy_held", copy)
    for name, value in standing_in(2, READ, REPLY, "no", "91").items():
        monkeypatch.setenv(name, value)
    with pytest.raises(Lost) as caught:
        with Session(book) as session:
            session.add_paragraph("end", "en", "One.")
            session.strike(1)
    assert found == [2] and not isinstance(caught.value, Displaced)


@pytest.fixture
def doubtful(book: Path, program: str) -> Iterator[Session]:
    """A session of three commands whose file is compared before the next one: others tried to open it."""
    own = shutil.copy(program, book.with_name("program"))
    with Session(book, own) as session:
        session.put_table("long", LONG)
        session.add_paragraph("end", "en", "One.")
        session.add_paragraph("end", "en", "Two.")
        found = subprocess.run([program, "check", str(book)], capture_output=True)
        assert found.returncode == 2
        yield session


def test_a_stream_gives_all_answers_though_the_file_is_compared_meanwhile(
    doubtful: Session,
) -> None:
    asked = [requests.Type("end", "en", text) for text in ("Two\nlines.", "Three.")]
    refused, typed = doubtful.each(asked)
    assert isinstance(refused, Refused) and isinstance(typed, Typed)
    doubtful._pipe.kill()
    with pytest.raises(Lost) as caught:
        doubtful.strike(1)
    assert caught.value.answered == 4


def test_a_file_that_can_not_be_compared_is_taken_for_the_book(
    doubtful: Session, book: Path
) -> None:
    book.with_name("program").unlink()
    doubtful.add_paragraph("end", "en", "Three.")
    assert doubtful.print_of(3) == "Three."


def test_a_copy_that_can_not_be_opened_for_a_cause_that_is_not_seen_is_taken_for_the_book(
    doubtful: Session, book: Path
) -> None:
    own = book.with_name("program")
    own.unlink()
    own.write_text("#!/bin/sh\necho 'braildesk: no 98' >&2\nexit 2\n")
    own.chmod(0o755)
    doubtful.add_paragraph("end", "en", "Three.")
    assert doubtful.print_of(3) == "Three."


def test_a_program_at_its_end_uses_a_book_no_further(
    book: Path, program: str, monkeypatch: pytest.MonkeyPatch
) -> None:
    file = openfile.OpenFile(str(book))
    with Session(book):
        assert file.is_used_further
    with subprocess.Popen(
        [program, "session", "--", str(book)],
        stdin=subprocess.PIPE,
        stdout=subprocess.PIPE,
    ) as process:
        assert process.stdin is not None and process.stdout is not None
        process.stdin.write(b"version\n")
        process.stdin.flush()
        assert process.stdout.readline() == b"end 1\n"
        assert file.is_used
        # a busy machine may take longer than one that isn't
        monkeypatch.setattr(openfile, "_LEAVING", WAIT_SECONDS)
        threading.Timer(0.1, process.stdin.close).start()
        assert not file.is_used_further
    file.close()


def test_a_command_that_is_written_in_several_parts_once_the_log_was_emptied_is_its_own(
    book: Path,
) -> None:
    with Session(book) as session:
        session.put_table("long", LONG)
        # more than is kept in memory before it goes to the log
        session.put_table("longer", LONG + LONG.partition(b"\n")[2])
        session.correct(session.add_paragraph("end", "en", "One.").id, 0, 0, "No. ")
    with Session(book) as session:
        assert session.print_of(1) == "No. One."


def test_an_interrupt_while_the_log_is_noted_makes_it_no_other_one(book: Path) -> None:
    step = count = 0

    def trace(frame: FrameType, event: str, _: object) -> Any:
        nonlocal count
        if frame.f_code.co_name != "note_log":
            return None
        if event == "line":
            count += 1
            if count == step:
                raise KeyboardInterrupt
        return trace

    with Session(book) as session:
        while count >= step:
            step, count = step + 1, 0
            sys.settrace(trace)
            with suppress(KeyboardInterrupt):
                session.add_paragraph("end", "en", "One.")
            sys.settrace(None)
            session.add_paragraph("end", "en", "Two.")
        assert step > 5 and session.version() == 2 * step + 1


@pytest.mark.parametrize("far", [READ, KEPT])
@pytest.mark.parametrize("how", ["of a backup", "an earlier state", "emptied"])
@pytest.mark.parametrize("is_emptied", [False, True])
def test_a_log_that_others_write_into_while_a_command_runs_is_noticed(
    book: Path,
    backup: Path,
    monkeypatch: pytest.MonkeyPatch,
    is_emptied: bool,
    how: str,
    far: str,
) -> None:
    copied = book.with_name("copied")

    def put() -> None:
        if how == "emptied":
            os.truncate(log_of(book), 0)
        else:
            earlier = copied if how == "an earlier state" else log_of(backup)
            shutil.copyfile(earlier, log_of(book))

    thread = while_it_runs(book, monkeypatch, (3, far), put)
    with pytest.raises(Displaced) as caught:
        with Session(book) as session:
            session.add_paragraph("end", "en", "Kept.")
            shutil.copyfile(log_of(book), copied)
            if is_emptied:
                session.put_table("long", LONG)
            else:
                session.strike(1)
            session.add_paragraph("end", "en", "Three.")
    thread.join()
    if is_emptied and far == READ:
        # the program could not read what it had there, and has ended
        assert caught.value.kept == (
            "What was reported as kept isn't all in the book's file and its log: another program"
            " wrote into them while the book was open. Copy what you typed last, and look at the book"
            " before you go on."
        )
    else:
        assert "wrote into the log of the book" in caught.value.cause
        saved = Path(f"{book}-saved-1.txt").read_text()
        assert saved.startswith("Of the backup.\n\nAfter it.\n\nKept.\n")


def test_another_book_that_is_copied_over_within_one_tick_of_the_clock_is_noticed(
    book: Path, other: Path, monkeypatch: pytest.MonkeyPatch
) -> None:
    tick = 2 * 10**9

    def coarse(descriptor: int) -> tuple[int, int, int]:
        found = os.fstat(descriptor)
        times = found.st_mtime_ns // tick * tick, found.st_ctime_ns // tick * tick
        return found.st_size, *times

    monkeypatch.setattr(openfile, "_state", coarse)
    # what comes now is done within the tick in which the file was written last
    time.sleep(2.05 - time.time() % 2)
    os.utime(book)
    with pytest.raises(Displaced):
        with Session(book) as session:
            session.add_paragraph("end", "en", "Three.")
            shutil.copyfile(other, book)
            session.add_paragraph("end", "en", "Four.")


def test_a_book_that_is_touched_and_written_by_its_own_program_is_no_other_book(
    book: Path,
) -> None:
    size = book.stat().st_size
    line = requests.Type("end", "en", "The moon is far away. " * 40)
    with Session(book) as session:
        for number in range(12):
            list(session.each([line] * 60))
            os.utime(book, (number, number))
            session.add_paragraph("end", "en", "One.")
            shutil.copyfile(book, book.with_name("elsewhere"))
            book.chmod(0o600 + number)
            session.add_paragraph("end", "en", "Two.")
        # the log was put into it meanwhile
        assert book.stat().st_size > size + 100_000
        # as also where somebody writes what is there already
        written_over(book, book)
        assert session.add_paragraph("end", "en", "Three.").version == 746


def log_of(book: Path) -> Path:
    return Path(f"{book}-wal")


@pytest.fixture
def backup(book: Path) -> Path:
    """A copy of the book and its log from while it was open, with a paragraph in the log."""
    copied = book.with_name("backup")
    with Session(book) as session:
        session.add_paragraph("end", "en", "Of the backup.")
        for path, to in ((book, copied), (log_of(book), log_of(copied))):
            shutil.copyfile(path, to)
        session.add_paragraph("end", "en", "After it.")
    return copied


@pytest.mark.parametrize(
    "moment", ["before a command", "before many", "before the end"]
)
@pytest.mark.parametrize("how", ["both restored", "its log alone", "emptied"])
def test_a_log_that_others_write_into_is_noticed(
    book: Path, backup: Path, how: str, moment: str
) -> None:
    with pytest.raises(Displaced) as caught:
        with Session(book) as session:
            session.add_paragraph("end", "en", "Kept.")
            if how == "both restored":
                shutil.copyfile(backup, book)
            if how == "emptied":
                os.truncate(log_of(book), 0)
            else:
                shutil.copyfile(log_of(backup), log_of(book))
            if moment == "before a command":
                session.strike(1)
            elif moment == "before many":
                list(session.each([requests.Strike(1)] * 3))
    assert caught.value.cause == (
        f"Another program wrote into the log of the book, “{log_of(book)}”, while it was open: what"
        " was kept last may not be there any more."
    )
    # a command is not sent to such a file
    saved = Path(f"{book}-saved-1.txt").read_text()
    assert saved == "Of the backup.\n\nAfter it.\n\nKept.\n"
    # and what was put there stays as it is
    texts = ["Of the backup."] + ["After it."] * (how != "both restored")
    if how == "emptied":
        log_of(book).unlink()
    if how == "its log alone":
        assert log_of(book).read_bytes() == log_of(backup).read_bytes()
        log_of(book).unlink()
    with Session(book) as session:
        assert [session.print_of(each.id) for each in session.paragraphs()] == texts


@pytest.mark.parametrize("moment", ["before a command", "before the end"])
def test_an_earlier_state_of_the_same_log_is_noticed(book: Path, moment: str) -> None:
    copied = book.with_name("copied")
    with pytest.raises(Displaced) as caught:
        with Session(book) as session:
            session.add_paragraph("end", "en", "Of the backup.")
            shutil.copyfile(log_of(book), copied)
            session.add_paragraph("end", "en", "Kept.")
            # it has the size and the front of the log that it takes the place of
            assert log_of(book).stat().st_size == copied.stat().st_size
            shutil.copyfile(copied, log_of(book))
            if moment == "before a command":
                session.strike(1)
    assert "wrote into the log of the book" in caught.value.cause
    saved = Path(f"{book}-saved-1.txt").read_text()
    assert saved == "Of the backup.\n\nKept.\n"
    assert log_of(book).read_bytes() == copied.read_bytes()


def test_a_session_that_only_asked_leaves_a_backup_with_its_log_as_it_is(
    book: Path, backup: Path
) -> None:
    with Session(book) as session:
        shutil.copyfile(backup, book)
        shutil.copyfile(log_of(backup), log_of(book))
        assert session.print_of(2) == "After it."
    assert session.strayed.startswith("Another program wrote into the log of the book")
    with Session(book) as session:
        assert [session.print_of(each.id) for each in session.paragraphs()] == [
            "Of the backup."
        ]


@pytest.mark.parametrize("is_replaced", [False, True])
@pytest.mark.parametrize("count", [0, 1, 3])
def test_what_is_in_a_log_that_is_removed_comes_into_the_file(
    book: Path, count: int, is_replaced: bool
) -> None:
    other = book.with_name("other")
    shutil.copyfile(book, other)
    with Session(book) as session:
        session.add_paragraph("end", "en", "One.")
        log_of(book).unlink()
        if is_replaced:
            shutil.copyfile(other, log_of(book))
        if count:
            with pytest.raises(SessionEnded) as caught:
                list(session.each([requests.Type("end", "en", "Two.")] * count))
            assert caught.value.sentence == (
                f"The log of the book, “{log_of(book)}”, was removed or replaced while it was open. So"
                " the session was ended, by which what was in the log came into the book's file. The"
                " last command that was reported as kept is the new paragraph “One.”, by which the book"
                " came to version 2. All up to it is in the book."
            )
    if is_replaced:
        log_of(book).unlink()
    # were it killed now, nothing would be lost
    shutil.copyfile(book, other)
    with Session(other) as session:
        assert [session.print_of(each.id) for each in session.paragraphs()] == ["One."]


@pytest.mark.parametrize(
    "go_on",
    [lambda s: s.add_paragraph("end", "en", "One."), Session.version, Session.close],
)
@pytest.mark.parametrize("is_killed", [False, True])
def test_a_disk_that_is_taken_away_ends_a_session_by_what_the_program_says(
    book: Path,
    go_on: Callable[[Session], object],
    is_killed: bool,
    monkeypatch: pytest.MonkeyPatch,
) -> None:
    session, close = Session(book), os.close
    session.add_paragraph("end", "en", "One.")

    def unreadable(*given: Any) -> Any:
        raise OSError(errno.ENOTCONN, os.strerror(errno.ENOTCONN))

    def closed(file: int) -> None:
        is_there = "book" in os.readlink(f"/proc/self/fd/{file}")
        close(file)
        if is_there:
            unreadable()

    # as of a file system whose server has ended
    for look in ("fstat", "pread"):
        monkeypatch.setattr(os, look, unreadable)
    monkeypatch.setattr(os, "close", closed)
    if is_killed:
        os.kill(session.pid, signal.SIGKILL)
        with pytest.raises(SessionEnded, match="All up to it is in the book."):
            go_on(session)
    else:
        go_on(session)
    monkeypatch.undo()
    session.close()
    with Session(book) as again:
        assert again.print_of(1) == "One."


@pytest.mark.parametrize("kind", ["folder", "pipe", "link"])
def test_what_is_put_in_place_of_a_log_as_it_is_opened_is_not_taken_for_it(
    book: Path, kind: str, monkeypatch: pytest.MonkeyPatch
) -> None:
    version_of, log = session_module._first_version, log_of(book)

    def swapped(*given: Any) -> int:
        found: int = version_of(*given)
        log.unlink()
        if kind == "folder":
            log.mkdir()
        elif kind == "pipe":
            os.mkfifo(log)
        else:
            log.symlink_to("elsewhere")
        return found

    with monkeypatch.context() as patched:
        patched.setattr(session_module, "_first_version", swapped)
        session = Session(book)
    assert session.version() == 1
    with pytest.raises(SessionEnded, match="was removed or replaced while it was open"):
        session.add_paragraph("end", "en", "lost if the program is killed")
    assert not log.with_name("elsewhere").exists()


def test_a_log_that_is_removed_while_many_commands_are_sent_costs_none_that_was_kept(
    book: Path,
) -> None:
    kept = 0
    with Session(book) as session:
        with pytest.raises(SessionEnded) as caught:
            for answer in session.each([requests.Type("end", "en", "Two.")] * 2_000):
                kept += isinstance(answer, Typed)
                if kept == 100:
                    log_of(book).unlink()
    with Session(book) as session:
        count = len(session.paragraphs())
        assert 100 <= kept < caught.value.version <= count + 1 < 2_001
        assert session.last_version == count + 1


@pytest.mark.parametrize("outlived", ["exec {}", "{}; read -r line; exit 1"])
@pytest.mark.parametrize(
    "go_on",
    [lambda s: s.add_paragraph("end", "en", "One."), Session.version, Session.close],
)
def test_what_another_session_kept_after_the_program_ended_is_no_other_book(
    book: Path,
    script: Callable[[str], Path],
    program: str,
    outlived: str,
    go_on: Callable[[Session], object],
) -> None:
    number = book.with_name("number")
    noting = 'echo $$ > "$0"; exec "$@"'
    noted = f"sh -c '{noting}' '{number}' '{program}' \"$@\""
    session = Session(book, script(outlived.format(noted)))
    session.guard()
    os.kill(int(number.read_text()), signal.SIGKILL)
    with Session(book, timeout=WAIT_SECONDS) as another:
        another.add_paragraph("end", "en", "Two.")
    with pytest.raises(SessionEnded):
        go_on(session)
    assert session.strayed == ""
    assert not list(book.parent.glob("*-saved-*"))
    with Session(book) as another:
        assert another.print_of(1) == "Two."


def test_a_session_that_asked_alone_does_not_mind_what_became_of_the_file(
    book: Path,
) -> None:
    with Session(book) as session:
        book.unlink()
        assert session.paragraphs() == ()


def test_a_book_that_is_replaced_while_it_is_opened_is_opened_anew(
    book: Path, script: Callable[[str], Path], program: str
) -> None:
    other = book.with_name("other")
    shutil.copyfile(book, other)
    with Session(other) as session:
        session.add_paragraph("end", "en", "of the other one")
    moving = script(f"mv '{other}' '{book}' 2> /dev/null; exec '{program}' \"$@\"")
    with Session(book, moving) as session:
        assert session.add_paragraph("end", "en", "One.").version == 3


def test_a_session_waits_for_a_book_that_is_in_use(
    book: Path, monkeypatch: pytest.MonkeyPatch
) -> None:
    first, waits = Session(book), []

    def wait(seconds: float) -> None:
        waits.append(seconds)
        if len(waits) == 3:
            first.add_paragraph("end", "en", "One.")
            first.close()

    monkeypatch.setattr(time, "sleep", wait)
    with Session(book, timeout=60) as session:
        assert (session.last_version, len(waits)) == (2, 3)


def test_a_session_waits_no_longer_than_it_may(
    book: Path, monkeypatch: pytest.MonkeyPatch
) -> None:
    now, waits = [0.0], []

    def wait(seconds: float) -> None:
        waits.append(seconds)
        now[0] += seconds

    monkeypatch.setattr(time, "sleep", wait)
    monkeypatch.setattr(time, "monotonic", lambda: now[0])
    with Session(book):
        with pytest.raises(CannotOpen) as caught:
            Session(book, timeout=1.5)
        assert caught.value.why == Why.IN_USE
        assert sum(waits) == pytest.approx(1.5)
        waits.clear()
        with pytest.raises(CannotOpen):
            Session(book)
        assert not waits


def test_a_file_that_is_replaced_once_its_session_has_ended_is_not_called_lost(
    book: Path, monkeypatch: pytest.MonkeyPatch
) -> None:
    other = Path(shutil.copyfile(book, book.with_name("other")))
    close = Pipe.close

    def closed(pipe: Pipe) -> Ending:
        ending = close(pipe)
        other.replace(book)
        return ending

    monkeypatch.setattr(Pipe, "close", closed)
    with Session(book) as session:
        session.add_paragraph("end", "en", "a")
    assert {path.name for path in book.parent.iterdir()} <= {
        book.name,
        f"{book.name}-wal",
    }


def test_tables_that_are_read_where_a_link_stands_by_now_end_the_session(
    book: Path,
) -> None:
    session = Session(book)
    book.rename(f"{book}-kept")
    book.symlink_to(f"{book}-kept")
    with pytest.raises(Displaced):
        session.tables()
