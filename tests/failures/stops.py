"""The program with its files stopped at each of their calls in turn, and the books that are found then.

From some call on, each write, cut and sync of the book's file and of its journal fails; a write that
is stopped is left out, or its first half is written. Then each file has what was written to it, or
what it had when it was last synced. Whichever of the two the database's file and the journal have,
the book that is opened has to be the one after the commands that were acknowledged, or after one
command more. What these books answer is worked out by tests/plain.
"""

import argparse
import itertools
import os
import pathlib
import subprocess
import sys
import tempfile
from collections.abc import Iterator
from dataclasses import dataclass
from typing import Optional

from built import FIRST_FORMAT, MOST_SECONDS, NO_BRAILLE, Wrong, is_accepted, replies_of
from plain.session import Session

MARKS = [
    "supply en",
    "type end en The cat",
    "mark 1 5 3 cat?",
    "correct 1 7 0 s",
    "correct 1 4 0 x",
    "correct 1 0 9 ",
    "undo 1",
    "resolve 1",
    "resolve 1",
    "style 1 heading",
    "volume 1 on",
    "type front en dog",
    "move 2 end",
    "strike 2",
    "restore 2",
    "table t 4\nspace \\s 0\nletter d 1\nletter o 2\nletter g 3",
    "retable 2 t",
]
# Names stand in the second format alone, and a book of the first has none.
NAMED = ["correct-by Ann 1 0 0 5"]
PARAGRAPHS = 300
MANY = ["supply t", *["type end t the cat 1"] * PARAGRAPHS]
REPLACED = [
    "table t 9\nspace \\s 0\nletter t 1\nletter h 2\nletter e 3\nletter c 4\nletter a 5\n"
    "digit 1 6\npunctuation . 7\nalways the 12",
    "version",
]

Held = Optional[bytes]


def bytes_of(requests: list[str]) -> bytes:
    return "".join(it + "\n" for it in requests).encode()


def questions(paragraphs: int) -> list[str]:
    """Queries that show the whole book."""
    shown = ("print", "braille", "history", "marks")
    each = [f"{it} {at}" for at in range(1, paragraphs + 1) for it in shown]
    return ["list", "version", *each]


def content(path: str) -> Held:
    return pathlib.Path(path).read_bytes() if os.path.exists(path) else None


@dataclass(frozen=True)
class Files:
    """The two files of a book, in memory: what each holds, or nothing where it isn't there."""

    base: Held
    journal: Held

    @staticmethod
    def read(base: str, ending: str = "") -> "Files":
        return Files(content(base + ending), content(f"{base}-wal{ending}"))

    def write(self, base: str) -> None:
        for path, held in ((base, self.base), (f"{base}-wal", self.journal)):
            for each in (path, f"{path}.synced"):
                pathlib.Path(each).unlink(missing_ok=True)
                if held is not None:
                    pathlib.Path(each).write_bytes(held)


@dataclass(frozen=True)
class Case:
    """A run of the program over files, what it has to reply, and what the book answers.

    The first book is the one before the run, and each next one that after an accepted command.
    """

    name: str
    start: Files
    words: list[str]
    requests: list[str]
    asked: list[str]
    replies: list[bytes]
    books: list[bytes]


def case(
    name: str, start: Files, before: list[str], requests: list[str], paragraphs: int
) -> Case:
    """Requests of a session over the book that others left."""
    session, asked = Session(), questions(paragraphs)
    session.replies(bytes_of(before))
    replies: list[bytes] = []
    books = [b"".join(session.replies(bytes_of(asked)))]
    for request in requests:
        replies += session.replies(bytes_of([request]))
        if is_accepted(replies[-1]):
            books.append(b"".join(session.replies(bytes_of(asked))))
    return Case(name, start, ["session"], requests, asked, replies, books)


@dataclass(frozen=True)
class Run:
    output: bytes
    status: int
    calls: str


class Stops:
    def __init__(self, program: str, library: str, folder: pathlib.Path) -> None:
        self.program, self.library, self.folder = program, library, folder
        self.base = str(folder / "book")
        self.count = 0

    def run(
        self,
        start: Files,
        words: list[str],
        requests: list[str],
        stop: int = 0,
        torn: bool = False,
    ) -> Run:
        """A run over these files. Its calls are letters, as the library writes them."""
        start.write(self.base)
        settings = {
            "LD_PRELOAD": self.library,
            "FILES": self.base,
            "STOP": str(stop),
            "TORN": str(int(torn)),
            "CALLS": str(self.folder / "calls"),
        }
        done = subprocess.run(
            [self.program, *words, self.base],
            input=bytes_of(requests),
            capture_output=True,
            timeout=MOST_SECONDS,
            env={**os.environ, **settings},
        )
        return Run(done.stdout, done.returncode, (self.folder / "calls").read_text())

    def left(self) -> Iterator[Files]:
        """What the two files may hold after a run: what was written, or what was synced, where a
        file that never was holds nothing."""
        written, synced = Files.read(self.base), Files.read(self.base, ".synced")
        pairs = ((written.base, synced.base), (written.journal, synced.journal))
        kinds = [
            {one, b"" if other is None and one is not None else other}
            for one, other in pairs
        ]
        return (Files(base, journal) for base, journal in itertools.product(*kinds))

    def asked(self, files: Files, words: list[str], asked: list[str]) -> bytes:
        """What a book answers, once it was made where that is tried again, or why it isn't opened."""
        files.write(self.base)
        if words == ["new"]:
            again = [self.program, "new", self.base]
            subprocess.run(
                again, check=True, stdout=subprocess.DEVNULL, timeout=MOST_SECONDS
            )
        done = subprocess.run(
            [self.program, "session", self.base],
            input=bytes_of(asked),
            capture_output=True,
            timeout=MOST_SECONDS,
        )
        return done.stdout if done.returncode == 0 else done.stderr

    def after(self, start: Files, words: list[str], requests: list[str]) -> Files:
        status = self.run(start, words, requests).status
        if status != 0:
            raise Wrong(f"a run that nothing stops ended with {status}")
        return Files.read(self.base)

    def sweep(self, case: Case) -> None:
        """Stops each call of a run, which shows one of these books after each command that it
        acknowledged."""
        whole = self.run(case.start, case.words, case.requests)
        if whole.status != 0 or replies_of(whole.output) != case.replies:
            raise Wrong(f"{case.name}: a run that nothing stops ended with {whole}")
        if len(set(whole.calls)) < 2:
            raise Wrong(f"{case.name}: its calls are {whole.calls}")
        seen: dict[Files, bytes] = {}
        for stop, kind in enumerate(whole.calls, 1):
            for torn in (False, True)[: 1 + (kind == "w")]:
                at = f"{case.name}: call {stop} of {len(whole.calls)} is stopped"
                self.stop(
                    f"{at}{' in its middle' if torn else ''}", case, stop, torn, seen
                )
        print(f"ok  {case.name}: {len(whole.calls)} calls stopped in turn")

    def stop(
        self, at: str, case: Case, stop: int, torn: bool, seen: dict[Files, bytes]
    ) -> None:
        run = self.run(case.start, case.words, case.requests, stop, torn)
        replies = replies_of(run.output)
        is_lost = replies[-1:] == [b"no 91\n"]
        given = replies[:-1] if is_lost else replies
        # a loss is reported once, and ends the session
        if run.status not in (0, 2, 3) or given != case.replies[: len(given)]:
            raise Wrong(
                f"{at}: status {run.status}, and the replies end with {replies[-2:]}"
            )
        if is_lost and run.status != 3:
            raise Wrong(f"{at}: a command was lost, and the status is {run.status}")
        acknowledged = sum(map(is_accepted, given))
        for files in self.left():
            if files not in seen:
                seen[files] = self.asked(files, case.words, case.asked)
            if seen[files] not in case.books[acknowledged : acknowledged + 2]:
                raise Wrong(
                    f"{at}, {acknowledged} commands were acknowledged, and another book is found: "
                    f"{seen[files][:200]!r}"
                )
            self.count += 1

    def all(self) -> None:
        none = Files(None, None)
        empty = b"".join(Session().replies(bytes_of(questions(0))))
        self.sweep(
            Case(
                "a new book", none, ["new"], [], questions(0), [b"ok 0\n"], [empty] * 2
            )
        )
        made = self.after(none, ["new"], [])
        self.sweep(case("commands of all kinds", made, [], MARKS + NAMED, 2))
        marked = self.after(made, ["session"], MARKS)
        for kind, sql in (
            ("a book of the first format", FIRST_FORMAT),
            ("a book without its braille", NO_BRAILLE),
        ):
            marked.write(self.base)
            statements = ["sqlite3", self.base, sql]
            subprocess.run(statements, check=True, stdout=subprocess.DEVNULL)
            self.sweep(case(kind, Files.read(self.base), MARKS, ["undo 1"], 2))
        many = self.after(made, ["session"], MANY)
        name = f"a table under {PARAGRAPHS} paragraphs"
        self.sweep(case(name, many, MANY, REPLACED, PARAGRAPHS))
        print(f"ok  {self.count} files opened again")


def main() -> None:
    words = argparse.ArgumentParser()
    words.add_argument("program")
    words.add_argument("library")
    asked = words.parse_args()
    with tempfile.TemporaryDirectory() as folder:
        try:
            Stops(
                os.path.abspath(asked.program), asked.library, pathlib.Path(folder)
            ).all()
        except (Wrong, subprocess.TimeoutExpired) as wrong:
            sys.exit(f"tests/failures/stops.sh: {wrong}")


if __name__ == "__main__":
    main()
