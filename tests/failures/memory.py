"""Runs of the program in which one growth of memory is refused, each in turn.

Of those while a session opens its book one of so many is refused, from one on that is chosen by
chance. What each run has to do is worked out by tests/plain:

- `translate` writes what it is to write, or there is fault 90 and nothing is written.
- A book that wasn't made is made when it is tried again.
- In a session, the command that found no memory is answered `no 90` and changes nothing: the other
  requests are answered as if it had never been sent, and the file holds the same book. Or the growth
  was needed while a command was kept: it is answered `no 91`, the session ends with status 3, and
  the file holds the book from before it or the one after. Or the book isn't opened: that is fault 90,
  or the file failed, and it is as it was.
- Only commands that ask for memory are answered `no 90`, and where each growth is refused, some
  growth of each such kind is.
"""

import argparse
import concurrent.futures
import hashlib
import os
import pathlib
import random
import shutil
import subprocess
import sys
import tempfile
from collections import Counter
from collections.abc import Iterator
from dataclasses import dataclass, field
from typing import Optional, Protocol

from built import FIRST_FORMAT, MOST_SECONDS, NO_BRAILLE, Wrong, replies_of
from plain.lines import translated
from plain.session import SUPPLIED, Session
from plain.table import read_table

# Requests of all kinds.
REQUESTS = """\
supply en
type end en The cat
mark 1 5 3 cat?
marks 1
correct 1 7 0 s
correct-by Ann 1 4 0 x
marks 1
table ab 3
space \\s 0
letter a 1
always ab 12

table ab 2
letter a 1
letter b 12
type front ab ab
correct 1 0 9
undo 1
print 1
braille 2
resolve 1
resolve 1
strike 2
restore 2
style 2 heading
volume 2 on
retable 2 en
move 2 end
supply ab
where 1 1
whence 1 1
history 1
list
@3 undo 1
print  1
version
"""

# Those over a book that others left.
LATER = "history 1\nundo 1\nversion\n"

# Queries that show the whole book.
ASKED = "list\nversion\n" + "".join(
    f"print {at}\nbraille {at}\nhistory {at}\nmarks {at}\n" for at in (1, 2, 3)
)

# The commands that ask for memory.
ASKING = set("table supply type correct correct-by undo mark retable move".split())

# A table with lines of each opcode, and what is translated by it.
TABLE = (
    SUPPLIED
    + b"""
# rules
always th 1456
word but 12
begword un 136-1345
midword ea 2
endword ing =
always x\\x2019x 12345678
"""
)
PRINT = "The thing, but UNREAD: 3.14 5a\n~\n\nheal\n"

NO_MEMORY = (2, b"", b"braildesk: no 90\n")

Run = tuple[int, bytes, bytes]


@dataclass(frozen=True)
class Program:
    """The program, with a library before it that refuses it growths of memory."""

    path: str
    library: str
    folder: pathlib.Path

    def run(self, words: list[str], given: bytes = b"", **settings: str) -> Run:
        done = subprocess.run(
            [self.path, *words],
            input=given,
            capture_output=True,
            timeout=MOST_SECONDS,
            env={**os.environ, **settings},
        )
        return done.returncode, done.stdout, done.stderr

    def refusing(self, number: int, words: list[str], given: bytes = b"") -> Run:
        return self.run(words, given, LD_PRELOAD=self.library, REFUSED=str(number))

    def growths(self, words: list[str], given: bytes = b"") -> int:
        """How many growths a run makes."""
        counted = self.folder / "counted"
        self.run(words, given, LD_PRELOAD=self.library, COUNTED=str(counted))
        return int(counted.read_text())

    def make(self, path: pathlib.Path) -> None:
        made = self.run(["new", str(path)])
        if made != (0, b"ok 0\n", b""):
            raise Wrong(f"new: {made}")

    def fresh(self, name: str) -> pathlib.Path:
        """The path of a book that isn't there."""
        path = self.folder / f"{name}.db"
        for file in self.folder.glob(f"{path.name}*"):
            file.unlink()
        return path


def digest(path: pathlib.Path) -> str:
    """What the two files of a book hold, as a key."""
    both = (path, path.with_name(f"{path.name}-wal"))
    held = [it.read_bytes() if it.exists() else None for it in both]
    return hashlib.sha256(
        repr([it and hashlib.sha256(it).digest() for it in held]).encode()
    ).hexdigest()


# A session that is asked nothing makes some growths after its book is opened: fewer than these.
AFTER_OPENING = 500


class Sweep(Protocol):
    """Runs of one kind, of which one growth each is refused."""

    def opening(self) -> int:
        """How many growths from the first on are made while a session opens its book."""

    def growths(self) -> int:
        """How many growths a run makes."""

    def refuse(self, number: int) -> str:
        """Refuses one growth, and answers to which end that came."""


@dataclass(frozen=True)
class Translating:
    """The reading of a table, and of lines by it."""

    program: Program
    table: str
    wanted: bytes

    def opening(self) -> int:
        return 0

    def growths(self) -> int:
        return self.program.growths(["translate", self.table], PRINT.encode())

    def refuse(self, number: int) -> str:
        run = self.program.refusing(number, ["translate", self.table], PRINT.encode())
        ends = {(0, self.wanted, b""): "not noticed", NO_MEMORY: "no memory"}
        if run not in ends:
            raise Wrong(str(run))
        return ends[run]


@dataclass(frozen=True)
class Making:
    """The making of books."""

    program: Program
    made_again: dict[str, bool] = field(default_factory=dict)

    def opening(self) -> int:
        return 0

    def growths(self) -> int:
        return self.program.growths(["new", str(self.program.fresh("counted"))])

    def refuse(self, number: int) -> str:
        path = self.program.fresh(f"new{number}")
        run = self.program.refusing(number, ["new", str(path)])
        ends = {
            (0, b"ok 0\n", b""): "not noticed",
            NO_MEMORY: "not made",
            (3, b"", b""): "failed",
        }
        if run not in ends:
            raise Wrong(str(run))
        left = digest(path)
        if left not in self.made_again:
            self.program.make(path)
            self.made_again[left] = True
        self.program.fresh(f"new{number}")
        return ends[run]


def requests_of(text: str) -> list[bytes]:
    """Each request, with the lines that it takes."""
    lines, requests = text.encode().splitlines(keepends=True), []
    while lines:
        head = lines.pop(0)
        taken = int(head.split()[2]) if head.startswith(b"table ") else 0
        requests.append(head + b"".join(lines[:taken]))
        del lines[:taken]
    return requests


@dataclass(frozen=True)
class Wanted:
    """The replies to a session's requests, and what the book answers then."""

    replies: list[bytes]
    book: bytes


class Answering:
    """Sessions over copies of the file of a book."""

    def __init__(
        self,
        program: Program,
        start: pathlib.Path,
        before: list[bytes],
        requests: list[bytes],
    ) -> None:
        self.program, self.start, self.before = program, start, before
        self.requests = requests
        self.whole = self.wanted(requests)
        # what is replied without each of the requests, and the book after each first part of them
        counts = range(len(requests) + 1)
        self.without = [
            self.wanted(requests[:at] + requests[at + 1 :]) for at in counts
        ]
        self.front = [self.wanted(requests[:at]).book for at in counts]
        self.seen: dict[str, bytes] = {}

    def wanted(self, requests: list[bytes]) -> Wanted:
        session = Session()
        session.replies(b"".join(self.before))
        replies = session.replies(b"".join(requests))
        return Wanted(replies, b"".join(session.replies(ASKED.encode())))

    def copy(self, name: str) -> pathlib.Path:
        path = self.program.fresh(name)
        shutil.copy(self.start, path)
        return path

    def opening(self) -> int:
        path = self.copy("counted")
        return max(0, self.program.growths(["session", str(path)]) - AFTER_OPENING)

    def growths(self) -> int:
        path = self.copy("counted")
        return self.program.growths(["session", str(path)], b"".join(self.requests))

    def shown(self, path: pathlib.Path) -> bytes:
        """What the book in a file answers."""
        left = digest(path)
        if left not in self.seen:
            status, output, errors = self.program.run(
                ["session", str(path)], ASKED.encode()
            )
            if status != 0:
                raise Wrong(f"the file can't be opened again: {status}, {errors!r}")
            self.seen[left] = output
        return self.seen[left]

    def refuse(self, number: int) -> str:
        path = self.copy(f"refused{number}")
        words = ["session", str(path)]
        run = self.program.refusing(number, words, b"".join(self.requests))
        end = self.judge(run, self.shown(path))
        self.program.fresh(f"refused{number}")
        return end

    def judge(self, run: Run, book: bytes) -> str:
        status, output, errors = run
        replies = replies_of(output)
        if b"".join(replies) != output:
            raise Wrong(f"the last reply isn't whole: {run}")
        if run == NO_MEMORY or run == (3, b"", b""):
            if book != self.front[0]:
                raise Wrong("the file has changed")
            return "not opened"
        if replies[-1:] == [b"no 91\n"]:
            return self.judge_lost(run, replies[:-1], book)
        if (status, errors) != (0, b""):
            raise Wrong(f"another end: {run}")
        if Wanted(replies, book) == self.whole:
            return "not noticed"
        return self.judge_refused(replies, book)

    def judge_lost(self, run: Run, replies: list[bytes], book: bytes) -> str:
        if (run[0], run[2]) != (3, b"") or replies != self.whole.replies[
            : len(replies)
        ]:
            raise Wrong(f"another end: {run}")
        if book not in self.front[len(replies) : len(replies) + 2]:
            raise Wrong(f"another book: {book!r}")
        return "lost"

    def judge_refused(self, replies: list[bytes], book: bytes) -> str:
        if b"no 90\n" not in replies:
            raise Wrong(f"other replies: {replies}")
        at = replies.index(b"no 90\n")
        kind = self.requests[at].split()[0].decode()
        if kind not in ASKING:
            raise Wrong(f"{self.requests[at]!r} found no memory")
        wanted = self.without[at]
        others = wanted.replies[:at] + [b"no 90\n"] + wanted.replies[at:]
        if (replies, book) != (others, wanted.book):
            raise Wrong(
                f"{self.requests[at]!r} without memory changed something: {replies}"
            )
        return f"no memory for {kind}"


def older(program: Program, start: pathlib.Path) -> pathlib.Path:
    """A file of the first format without braille, of the book that the requests make.

    Nobody is named in it.
    """
    path = program.fresh("older")
    shutil.copy(start, path)
    run = program.run(["session", str(path)], unnamed(REQUESTS))
    if run[0] != 0:
        raise Wrong(f"the older file: {run}")
    subprocess.run(["sqlite3", path, FIRST_FORMAT + NO_BRAILLE], check=True)
    return path


def unnamed(requests: str) -> bytes:
    return requests.replace("correct-by Ann ", "correct ").encode()


def sweeps(program: Program) -> Iterator[tuple[str, Sweep]]:
    """What is refused memory, with its name."""
    tables = (("the supplied table", "@en", SUPPLIED), ("a table", "table.utb", TABLE))
    for name, word, text in tables:
        path = program.folder / word
        path.write_bytes(text)
        wanted = translated(read_table(text), PRINT.encode())
        yield f"reading {name}", Translating(
            program, "@en" if word == "@en" else str(path), wanted
        )
    yield "making a book", Making(program)
    start = program.fresh("start")
    program.make(start)
    yield "requests of all kinds", Answering(program, start, [], requests_of(REQUESTS))
    before = [unnamed(REQUESTS)]
    later = Answering(program, older(program, start), before, requests_of(LATER))
    yield "bringing a book to the second format", later


@dataclass(frozen=True)
class Sample:
    """Which growths are refused: one of so many while a book is opened, and each other; or one alone."""

    every: int
    offset: int
    only: Optional[int]

    def of(self, sweep: Sweep) -> list[int]:
        if self.only is not None:
            return [self.only]
        opening = sweep.opening()
        rest = range(opening + 1, sweep.growths() + 1)
        return [*range(1 + self.offset, opening + 1, self.every), *rest]


def refused(sweep: Sweep, sample: Sample) -> Counter[str]:
    """How many growths came to which end."""

    def refuse(number: int) -> str:
        try:
            return sweep.refuse(number)
        except Wrong as wrong:
            raise Wrong(
                f"growth {number} (ONLY={number} refuses it alone): {wrong}"
            ) from wrong

    with concurrent.futures.ThreadPoolExecutor(os.cpu_count()) as pool:
        return Counter(pool.map(refuse, sample.of(sweep)))


def judge_all(program: Program, sample: Sample) -> None:
    asking: set[str] = set()
    for name, sweep in sweeps(program):
        ends = refused(sweep, sample)
        told = ", ".join(f"{end} {count}" for end, count in sorted(ends.items()))
        print(f"ok  {name}, {ends.total()} growths refused: {told}", flush=True)
        asking |= {end.removeprefix("no memory for ") for end in ends if "for " in end}
        is_told = any(
            it.startswith(("no memory", "not made", "not opened")) for it in ends
        )
        if sample.only is None and not is_told:
            raise Wrong(f"{name}: no refusal was noticed")
    if sample.only is None and asking != ASKING:
        raise Wrong(f"no growth was refused to {', '.join(sorted(ASKING - asking))}")


def main() -> None:
    words = argparse.ArgumentParser()
    words.add_argument("program")
    words.add_argument("library")
    words.add_argument("--every", type=int, default=8)
    words.add_argument("--offset", type=int)
    words.add_argument("--only", type=int)
    asked = words.parse_args()
    offset = random.randrange(asked.every) if asked.offset is None else asked.offset
    print(
        f"while a book is opened, one growth of EVERY={asked.every} is refused, OFFSET={offset}"
    )
    room = "/dev/shm" if os.access("/dev/shm", os.W_OK) else None
    folder = pathlib.Path(tempfile.mkdtemp(dir=room))
    program = Program(
        os.path.abspath(asked.program), os.path.abspath(asked.library), folder
    )
    try:
        judge_all(program, Sample(asked.every, offset, asked.only))
    except (Wrong, subprocess.TimeoutExpired) as wrong:
        sys.exit(f"tests/failures/memory.sh: {wrong}")
    finally:
        shutil.rmtree(folder)


if __name__ == "__main__":
    main()
