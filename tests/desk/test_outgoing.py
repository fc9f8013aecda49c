"""What goes out while a book is open: nothing waits for a reader, and nothing is lost or turned round."""

import fcntl
import os
import termios
from collections.abc import Iterator
from concurrent.futures import ThreadPoolExecutor, wait
from dataclasses import replace
from io import BytesIO, StringIO

import pytest

from scribe.words.console import OUTPUT, WAITING, Console, OutputFailed
from scribe.words.outgoing import Outgoing

LINES = [f"{number}: the moon is far away" for number in range(2_000)]
TEXT = "".join(f"{line}\n" for line in LINES).encode()


@pytest.fixture
def pipe() -> Iterator[tuple[int, int]]:
    """A pipe that takes a page."""
    ends = os.pipe()
    fcntl.fcntl(ends[1], fcntl.F_SETPIPE_SZ, 4_096)
    yield ends
    for each in ends:
        try:
            os.close(each)
        except OSError:
            pass


def read_all(end: int) -> bytes:
    with open(end, "rb", closefd=False) as file:
        return file.read()


def test_nothing_waits_for_a_reader_until_the_end(pipe: tuple[int, int]) -> None:
    reader, writer = pipe
    output = open(writer, "w", closefd=False)
    console = Console(BytesIO(), output, output)
    with ThreadPoolExecutor(1) as beside:
        with console.ahead() as ahead:
            ahead.show(*LINES[:1_000])
            # what is said comes where it was said
            ahead.say("Half of it.")
            ahead.show(*LINES[1_000:])
            ahead.flush()
            found = beside.submit(read_all, reader)
        os.close(writer)
        half = TEXT.index(b"1000:")
        assert found.result() == TEXT[:half] + b"Half of it.\n" + TEXT[half:]


@pytest.mark.parametrize("count", [10, 4_096])
def test_what_was_not_read_is_left_out_after_a_whole_line_where_work_is_told_to_end(
    pipe: tuple[int, int], count: int
) -> None:
    reader, writer = pipe
    output = open(writer, "w", closefd=False)
    with pytest.raises(KeyboardInterrupt):
        with Console(BytesIO(), output, output).ahead() as ahead:
            ahead.show(*LINES)
            ahead.flush()
            # so much is read by then, and as much again is written
            front = os.read(reader, count)
            raise KeyboardInterrupt
    os.close(writer)
    found = front + read_all(reader)
    assert TEXT.startswith(found) and len(found) < 3 * 4_096
    assert found.endswith(b"\n") or count == 10


def test_a_reader_that_left_ends_the_work(pipe: tuple[int, int]) -> None:
    reader, writer = pipe
    output = open(writer, "w", closefd=False)
    with pytest.raises(OutputFailed) as failed:
        with Console(BytesIO(), output, output).ahead() as ahead:
            os.close(reader)
            for line in LINES:
                ahead.show(line)
    assert failed.value.reader_left


def test_an_error_comes_after_what_was_shown_before_it(pipe: tuple[int, int]) -> None:
    reader, writer = pipe
    output = open(writer, "w", closefd=False)
    with pytest.raises(ValueError):
        with Console(BytesIO(), output, output).ahead() as ahead:
            ahead.show(LINES[0])
            raise ValueError
    assert os.read(reader, 100) == f"{LINES[0]}\n".encode()


def test_what_nobody_reads_in_another_process_goes_out_as_it_comes() -> None:
    console = Console(BytesIO(), StringIO(), StringIO())
    with console.ahead() as ahead:
        assert ahead is console
    with open(os.devnull, "w") as nowhere:
        with replace(console, output=nowhere, errors=nowhere).ahead() as ahead:
            assert ahead.output is nowhere


def test_a_reader_is_waited_for_also_where_writes_do_not_wait(
    pipe: tuple[int, int],
) -> None:
    reader, writer = pipe
    os.set_blocking(writer, False)
    outgoing = Outgoing()
    outgoing.stream(writer, OUTPUT).write(TEXT.decode())
    with ThreadPoolExecutor(1) as beside:
        found = beside.submit(read_all, reader)
        try:
            outgoing.end()
        finally:
            os.close(writer)
        assert found.result() == TEXT


def test_bytes_keep_their_order_however_much_is_read_at_once(
    pipe: tuple[int, int],
) -> None:
    reader, writer = pipe
    outgoing = Outgoing()
    for text in (TEXT[:6_000].decode(), "said\n"):
        stream = outgoing.stream(writer, OUTPUT)
        stream.write(text)
        stream.flush()
    found = b""
    while not found.endswith(b"said\n"):
        found += os.read(reader, 4_096)
        outgoing.pass_on()
    assert found == TEXT[:6_000] + b"said\n"


def test_what_fails_after_it_waited_is_called_by_its_name(
    pipe: tuple[int, int],
) -> None:
    reader, writer = pipe
    output = open(writer, "w", closefd=False)
    with open("/dev/full", "w") as errors:
        with pytest.raises(OutputFailed) as failed:
            with Console(BytesIO(), output, errors).ahead() as ahead:
                ahead.show(*LINES[:500])
                # not written yet, since what was shown before it isn't read
                ahead.say("Half of it.")
                for line in LINES[500:]:
                    os.read(reader, 4_096)
                    ahead.show(line)
                    ahead.flush()
    assert failed.value.sentence.startswith(
        "Standard error could not be written: there is no room on the disk."
    )


def test_no_work_waits_for_a_stopped_terminal_to_say_that_it_goes_on() -> None:
    reader, writer = os.openpty()
    termios.tcflow(writer, termios.TCOOFF)
    with open(writer, "w") as terminal, ThreadPoolExecutor(1) as beside:
        console = Console(BytesIO(), terminal, terminal)
        said = beside.submit(console.waiting())
        done, _ = wait([said], timeout=60)
        termios.tcflow(writer, termios.TCOON)
        assert done == {said}
        # and it is said where the terminal goes on
        console.waiting()()
        assert os.read(reader, 100) == f"{WAITING}\r\n".encode()
    os.close(reader)
