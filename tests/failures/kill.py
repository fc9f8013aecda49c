"""Sessions that are killed at a random moment, and the books that are found then.

A session is sent commands and queries of all kinds and killed by SIGKILL. The same requests as it
answered are answered by tests/plain; the one that it was killed in too, where the killed file's
version says that it was kept. Both have to give the same replies, and the file the same answers to
all queries then. So what is found is the book after a first part of what was sent, which holds all
that was acknowledged, and at most one command more. The next round goes on with the same file.

Where the files may grow no further, a session has to end with `no 91` and status 3, and what it
acknowledged has to be found again.
"""

import argparse
import os
import pathlib
import random
import resource
import shutil
import subprocess
import sys
import tempfile
import threading
import time
from dataclasses import dataclass
from typing import IO, Optional

from built import MOST_SECONDS, Wrong, is_accepted, replies_of
from plain.session import Session

# How many rounds go on with the same book.
ROUNDS_A_BOOK = 12
# How many requests a session is sent.
REQUESTS = 400

WORDS = "The cat sat on 25 mats O'Brien iPHONE TV 5a 3.14 (see below) x~y".split()
LETTERS = "abcdefghijklmnopqrstuvwxyz"


class Requests:
    """Makes requests, most of which are accepted."""

    def __init__(self, chance: random.Random) -> None:
        self.chance = chance
        self.paragraphs = 0
        self.marks = 0

    def text(self) -> str:
        return " ".join(
            self.chance.choice(WORDS) for _ in range(self.chance.randrange(6))
        )

    def paragraph(self) -> int:
        return self.chance.randrange(1, self.paragraphs + 2)

    def anchor(self) -> str:
        return self.chance.choice(["front", "end", "end", str(self.paragraph())])

    def table(self) -> str:
        name = self.chance.choice("abc")
        lines = ["space \\s 0"]
        lines += [
            f"uplow {c.upper()}{c} {self.chance.randrange(1, 7)}" for c in LETTERS
        ]
        lines += [f"digit {d} 245" for d in "0123456789"]
        lines += [f"punctuation {p} 36" for p in "'.()~"]
        lines += ["numsign 3456", "always the 2346"][: self.chance.randrange(3)]
        if self.chance.random() < 0.2:
            lines = lines[: self.chance.randrange(len(lines))]
        return "\n".join([f"table {name} {len(lines)}", *lines])

    def command(self) -> str:
        chance, para = self.chance, self.paragraph()
        count, start = chance.randrange(4), chance.randrange(12)
        kind = chance.randrange(24)
        if kind < 6:
            self.paragraphs += 1
            table = chance.choice(["en", "en", "a", "b"])
            return f"type {self.anchor()} {table} {self.text()}"
        if kind < 10:
            return f"correct {para} {start} {count} {self.text()}"
        if kind < 12:
            who = chance.choice(["Ann", "Bo"])
            return f"correct-by {who} {para} {start} {count} {self.text()}"
        if kind < 14:
            return f"undo {para}"
        if kind < 16:
            self.marks += 1
            return f"mark {para} {start} {count + 1} {self.text()}"
        return self.table() if kind == 16 else self.short_command(kind, para)

    def short_command(self, kind: int, para: int) -> str:
        chance = self.chance
        table, mark = chance.choice(["en", "a", "b"]), chance.randrange(
            1, self.marks + 2
        )
        return {
            17: f"supply {table}",
            18: f"resolve {mark}",
            19: f"{chance.choice(['strike', 'restore'])} {para}",
            20: f"style {para} {chance.choice(['body', 'heading'])}",
            21: f"volume {para} {chance.choice(['on', 'off'])}",
            22: f"retable {para} {table}",
            23: f"move {para} {self.anchor()}",
        }[kind]

    def query(self) -> str:
        para = self.paragraph()
        name = self.chance.choice(["print", "braille", "history", "marks"])
        queries = [
            f"{name} {para}",
            f"where {para} 1",
            f"whence {para} 1",
            "list",
            "version",
        ]
        return self.chance.choice(queries)

    def other(self) -> str:
        """One that is refused, or may be."""
        return self.chance.choice(
            ["print  1", "", "type", f"@{self.chance.randrange(9)} undo 1"]
        )

    def next(self) -> str:
        pick = self.chance.random()
        if pick < 0.15:
            return self.query()
        return self.other() if pick < 0.18 else self.command()

    def several(self, count: int) -> list[bytes]:
        tables = [b"supply en\n", b"supply a\n", b"supply b\n"]
        return tables + [f"{self.next()}\n".encode() for _ in range(count)]


def questions(paragraphs: int) -> list[bytes]:
    """Queries that show the whole book."""
    asked = [b"list\n", b"version\n"]
    for number in range(1, paragraphs + 1):
        shown = ("print", "braille", "history", "marks")
        asked += [f"{it} {number}\n".encode() for it in shown]
    return asked


class Book:
    """A book's file, and what is done with it."""

    def __init__(self, program: str, path: str) -> None:
        self.program = program
        self.path = path

    def call(
        self, *words: str, given: bytes = b"", limit: Optional[int] = None
    ) -> "subprocess.CompletedProcess[bytes]":
        def limit_files() -> None:
            if limit is not None:
                resource.setrlimit(resource.RLIMIT_FSIZE, (limit, limit))

        # SIGXFSZ is ignored here, and so it stays in the program: a write over the limit fails.
        return subprocess.run(
            [self.program, *words, self.path],
            input=given,
            capture_output=True,
            timeout=MOST_SECONDS,
            preexec_fn=limit_files,
            restore_signals=False,
        )

    def make(self) -> None:
        done = self.call("new")
        if (done.returncode, done.stdout) != (0, b"ok 0\n"):
            raise Wrong(f"new ended with {done.returncode}: {done.stderr!r}")

    def answers(self, requests: list[bytes], what: str) -> list[bytes]:
        done = self.call("session", given=b"".join(requests))
        replies = replies_of(done.stdout)
        if done.returncode != 0 or len(replies) != len(requests):
            raise Wrong(
                f"{what} ended with {done.returncode} after {len(replies)} of "
                f"{len(requests)} replies: {done.stderr!r}"
            )
        return replies

    def version(self) -> int:
        reply = self.answers([b"version\n"], "opening again")[0]
        return int(reply.split()[1])

    def shown(self, paragraphs: int) -> list[bytes]:
        return self.answers(questions(paragraphs), "asking for all")

    def killed(
        self, requests: list[bytes], wait_replies: int, wait_seconds: float
    ) -> bytes:
        """The output of a session that is killed so long after so many replies."""
        session = subprocess.Popen(
            [self.program, "session", self.path],
            stdin=subprocess.PIPE,
            stdout=subprocess.PIPE,
            stderr=subprocess.PIPE,
        )
        assert session.stdin and session.stdout and session.stderr
        errors: list[bytes] = []
        sender = threading.Thread(
            target=send, args=(session.stdin, requests), daemon=True
        )
        hearer = threading.Thread(
            target=hear, args=(session.stderr, errors), daemon=True
        )
        timer = threading.Timer(MOST_SECONDS, session.kill)
        for thread in (sender, hearer, timer):
            thread.start()
        output = b""
        while output.count(b"\n") < wait_replies:
            more = os.read(session.stdout.fileno(), 1 << 16)
            if not more:
                break
            output += more
        time.sleep(wait_seconds)
        early = session.poll()
        session.kill()
        output += session.stdout.read()
        session.wait()
        timer.cancel()
        sender.join(MOST_SECONDS)
        hearer.join(MOST_SECONDS)
        if early is not None:
            raise Wrong(f"the session ended by itself with {early}: {errors}")
        return output

    def judge_two_at_once(self) -> None:
        """While a session is open, the file is in use for another, and the session goes on."""
        words = [self.program, "session", self.path]
        with subprocess.Popen(
            words, stdin=subprocess.PIPE, stdout=subprocess.PIPE
        ) as session:
            assert session.stdin and session.stdout
            timer = threading.Timer(MOST_SECONDS, session.kill)
            timer.start()
            try:
                session.stdin.write(b"version\n")
                session.stdin.flush()
                first = session.stdout.readline()
                done = self.call("session", given=b"supply en\n")
                if (done.returncode, done.stdout, done.stderr) != (
                    2,
                    b"",
                    b"braildesk: no 98\n",
                ):
                    raise Wrong(f"a second session at once: {done}")
                session.stdin.write(b"version\n")
                session.stdin.close()
                if (first, session.stdout.read()) != (
                    b"end 0\n",
                    b"end 0\n",
                ) or session.wait():
                    raise Wrong("the first session of two at once doesn't go on")
            finally:
                session.kill()
                timer.cancel()


def send(stream: IO[bytes], requests: list[bytes]) -> None:
    """Sends requests until the session is killed."""
    try:
        for request in requests:
            stream.write(request)
            stream.flush()
    except OSError:
        pass


def hear(stream: IO[bytes], heard: list[bytes]) -> None:
    heard.append(stream.read())


@dataclass(frozen=True)
class Found:
    """How many commands were acknowledged, and how many besides are found."""

    acknowledged: int
    more: int


class Life:
    """A book over several sessions, and what it has to answer."""

    def __init__(
        self, program: str, folder: pathlib.Path, chance: random.Random
    ) -> None:
        self.chance = chance
        self.killed = Book(program, str(folder / "killed.db"))
        for path in folder.glob("*.db*"):
            path.unlink()
        self.make_killed(program)
        self.plain = Session()
        self.requests = Requests(chance)

    def make_killed(self, program: str) -> None:
        """Makes the file, after a first try that is killed."""
        words, nothing = [program, "new", self.killed.path], subprocess.DEVNULL
        first = subprocess.Popen(words, stdout=nothing, stderr=nothing)
        time.sleep(self.chance.random() * 0.01)
        first.kill()
        first.wait()
        self.killed.make()

    def after(self, requests: list[bytes], output: bytes) -> Found:
        """Judges what is found after a session."""
        base = self.plain.book.version
        replies = replies_of(output)
        acknowledged = sum(map(is_accepted, replies))
        found = self.killed.version() - base
        if found not in (acknowledged, acknowledged + 1):
            raise Wrong(
                f"{acknowledged} commands were acknowledged, and {found} are found"
            )
        more = found - acknowledged
        kept = requests[: len(replies) + more]
        wanted = self.plain.replies(b"".join(kept))
        for request, one, other in zip(kept, wanted, replies):
            if one != other:
                raise Wrong(
                    f"to {request!r} the reply was {other!r} in place of {one!r}"
                )
        if more and not is_accepted(wanted[-1]):
            raise Wrong(
                f"{kept[-1]!r} was kept, which is to be answered {wanted[-1]!r}"
            )
        asked = questions(self.requests.paragraphs)
        if self.killed.shown(self.requests.paragraphs) != self.plain.replies(
            b"".join(asked)
        ):
            raise Wrong("another book is found")
        return Found(acknowledged, more)

    def kill(self) -> Found:
        requests = self.requests.several(REQUESTS)
        wait = self.chance.choice([0, 0, 1, 3, 10, 30, 100])
        seconds = self.chance.random() * self.chance.choice([0.001, 0.01, 0.05])
        return self.after(requests, self.killed.killed(requests, wait, seconds))

    def fill(self) -> tuple[Found, bool]:
        """A session whose files may grow no further than by a few pages, and whether they did."""
        requests = self.requests.several(REQUESTS)
        limit = os.path.getsize(self.killed.path) + self.chance.randrange(1, 200_000)
        done = self.killed.call("session", given=b"".join(requests), limit=limit)
        output = done.stdout.removesuffix(b"no 91\n")
        is_told = output != done.stdout or not output
        was_full = done.returncode == 3 and done.stderr == b"" and is_told
        if done.returncode != 0 and not was_full:
            raise Wrong(
                f"with full files a session ended with {done.returncode}: {done.stderr!r}"
            )
        return self.after(requests, output), was_full


def rounds(program: str, folder: pathlib.Path, count: int, seed: str) -> None:
    acknowledged = more = full = 0
    life: Optional[Life] = None
    for number in range(count):
        at = f"round {number + 1} of {count}, SEED={seed} KILLS={number + 1}"
        print(at, end=": ", flush=True)
        if life is None or number % ROUNDS_A_BOOK == 0:
            life = Life(program, folder, random.Random(f"{seed} {number}"))
        if number % 6 == 5:
            found, was_full = life.fill()
            full += was_full
            told = ", full" if was_full else ", not full"
        else:
            found, told = life.kill(), ""
            more += found.more
        acknowledged += found.acknowledged
        print(
            f"{found.acknowledged} commands acknowledged, {found.more} more found{told}"
        )
    if count >= ROUNDS_A_BOOK and not (acknowledged and full):
        raise Wrong(
            f"{acknowledged} commands were acknowledged, and {full} sessions met full files"
        )
    print(
        f"ok  {count} sessions: {more} kept a command that they didn't acknowledge, "
        f"{full} met full files"
    )


def two_at_once(program: str, folder: pathlib.Path) -> None:
    book = Book(program, str(folder / "two.db"))
    book.make()
    book.judge_two_at_once()
    print("ok  a second session at once is refused, and the first goes on")


def main() -> None:
    words = argparse.ArgumentParser()
    words.add_argument("program")
    words.add_argument("--kills", type=int, default=60)
    words.add_argument("--seed", default=str(time.time_ns() % 1_000_000))
    asked = words.parse_args()
    program = os.path.abspath(asked.program)
    folder = pathlib.Path(tempfile.mkdtemp())
    try:
        two_at_once(program, folder)
        rounds(program, folder, asked.kills, asked.seed)
    except (Wrong, subprocess.TimeoutExpired) as wrong:
        print(f"\ntests/failures/kill.sh: {wrong}", file=sys.stderr)
        sys.exit(1)
    finally:
        shutil.rmtree(folder)


if __name__ == "__main__":
    main()
