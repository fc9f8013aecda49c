"""Rows of what goes into the program and what has to come out of it, byte for byte, and whole helps.

Each wrong one names itself. The rows of sessions over the first book have to hold of tests/plain too,
from which other tests take what they want.
"""

import argparse
import contextlib
import itertools
import os
import pathlib
import re
import shutil
import subprocess
import sys
import tempfile
from collections.abc import Callable
from dataclasses import dataclass, field
from typing import Any, Optional

from plain.session import Session

MOST_SECONDS = 120

SIGNS = {"¶": b"\n", "←": b"\r", "␌": b"\f", "~": b"\xff"}

# The requests that make the book which most rows are about.
BOOK = "supply en¶type end en Hello¶"

# The codes that the help of a command has, and of the program as a whole.
HELP = {
    "": {98},
    "new": {90, 92, 93, 94, 98, 99},
    "session": {90, 92, 93, 94, 98},
    "export": {90, 92, 93, 94, 95, 96, 98},
    "translate": {1, 7, 8, 14, 90, 98},
    "check": {90, 92, 93, 94, 98},
}

ENDS = {"input": 0, "output": 1, "errors": 2}

Run = tuple[int, bytes, bytes]


def bytes_of(written: str) -> bytes:
    """The bytes that a row writes."""
    text = re.sub(r"\{(.*?)×(\d+)\}", lambda it: it[1] * int(it[2]), written)
    return b"".join(SIGNS.get(it) or it.encode() for it in text)


def lines_of(path: pathlib.Path) -> list[tuple[int, str]]:
    """The lines of a file of rows with their numbers, without comments."""
    lines = path.read_text(encoding="utf-8").split("\n")
    return [(at, it) for at, it in enumerate(lines, 1) if not it.startswith("#")]


def cut(it: object) -> str:
    text = repr(it)
    return text if len(text) < 300 else f"{text[:200]}.. {text[-90:]}"


@dataclass(frozen=True)
class Wanted:
    """What a row of words wants: a status, and what is written to output and to errors."""

    status: int
    output: str
    errors: str

    @staticmethod
    def read(at: str, written: str) -> "Wanted":
        found = re.fullmatch(r"(\d)(?: > (.+?))?(?: ! (.+))?", written)
        if not found:
            sys.exit(f"{at}: it is no row")
        wanted = Wanted(int(found[1]), found[2] or "", found[3] or "")
        if any(it and matches(it, b"") for it in (wanted.output, wanted.errors)):
            sys.exit(f"{at}: what it wants may be nothing")
        return wanted

    def holds_of(self, run: Run) -> bool:
        status, output, errors = run
        is_written = matches(self.output, output) and matches(self.errors, errors)
        return status == self.status and is_written


def matches(pattern: str, found: bytes) -> bool:
    """Whether bytes are those of a pattern, in which … stands for any."""
    parts = [re.escape(bytes_of(it)) for it in pattern.split("…")]
    return re.fullmatch(b".*".join(parts), found, re.DOTALL) is not None


def closed_pipe(stack: contextlib.ExitStack) -> int:
    """The end of a pipe that nobody reads."""
    reading, writing = os.pipe()
    os.close(reading)
    stack.callback(os.close, writing)
    return writing


def hung_terminal(stack: contextlib.ExitStack) -> int:
    """A terminal whose other side is gone."""
    other, terminal = os.openpty()
    os.close(other)
    stack.callback(os.close, terminal)
    return terminal


def folder(stack: contextlib.ExitStack) -> int:
    """A folder, of which no byte can be read."""
    found = os.open("/", os.O_RDONLY)
    stack.callback(os.close, found)
    return found


def full_device(stack: contextlib.ExitStack) -> int:
    """A device that has no room."""
    found = os.open("/dev/full", os.O_WRONLY)
    stack.callback(os.close, found)
    return found


FAILING: dict[str, Callable[[contextlib.ExitStack], int]] = {
    "broken": closed_pipe,
    "hung": hung_terminal,
    "folder": folder,
    "full": full_device,
}


@dataclass
class Rows:
    program: str
    folder: pathlib.Path
    wrong: list[str] = field(default_factory=list)
    count: int = 0

    def run(self, words: list[bytes], given: bytes = b"", **ends: Any) -> Run:
        """The exit status of the program, and what it wrote to standard output and to errors."""
        ends = {
            "stdin": subprocess.PIPE,
            "stdout": subprocess.PIPE,
            "stderr": subprocess.PIPE,
        } | ends
        given_bytes = given if ends["stdin"] == subprocess.PIPE else None
        with subprocess.Popen(
            [self.program.encode(), *words], cwd=self.folder, **ends
        ) as running:
            try:
                output, errors = running.communicate(given_bytes, MOST_SECONDS)
            except subprocess.TimeoutExpired:
                running.kill()
                return 0, b"", f"still running after {MOST_SECONDS} seconds".encode()
        return running.returncode, output or b"", errors or b""

    def judge(self, name: str, wanted: object, found: object) -> None:
        """Takes down a row that is wrong."""
        self.judge_that(wanted == found, name, wanted, found)

    def judge_that(self, holds: bool, name: str, wanted: object, found: object) -> None:
        self.count += 1
        if not holds:
            self.wrong.append(
                f"{name}:\n    wanted {cut(wanted)}\n    found  {cut(found)}"
            )

    def copy(self, base: str) -> None:
        """The file `copied`, of a book that no run has changed."""
        for old in self.folder.glob("copied*"):
            old.unlink()
        shutil.copy(self.folder / base, self.folder / "copied")

    # ---- sessions

    def sessions(self, path: pathlib.Path) -> None:
        """Each group of rows is a session over a copy of a book."""
        group: list[tuple[int, str, bytes]] = []
        base = "book"
        for at, line in [*lines_of(path), (0, "")]:
            if line.startswith("over "):
                base = line.removeprefix("over ")
            elif line:
                request, is_row, reply = line.partition(" => ")
                if not is_row:
                    sys.exit(f"{path}:{at}: a row has no reply")
                group.append((at, request, bytes_of(reply + "¶")))
            elif group:
                self.session(path.name, group, base)
                group, base = [], "book"

    def session(
        self, name: str, group: list[tuple[int, str, bytes]], base: str
    ) -> None:
        requests = [
            it.removesuffix("∎") + "¶" * (not it.endswith("∎")) for _, it, _ in group
        ]
        given = b"".join(map(bytes_of, requests))
        self.copy(base)
        status, replies, errors = self.run([b"session", b"copied"], given)
        for at, request, reply in group:
            # a reply goes up to its line that begins with no bar
            found = re.match(rb"(\| .*\n)*.*\n?", replies)
            replied = found[0] if found else b""
            replies = replies[len(replied) :]
            self.judge(f"{name}:{at}: {request[:60]}", reply, replied)
        end = f"{name}:{group[0][0]}: the end of its session"
        self.judge(end, (0, b"", b""), (status, replies, errors))
        if base == "book":
            plain = Session()
            plain.replies(bytes_of(BOOK))
            wanted = [reply for _, _, reply in group]
            self.judge(
                f"{name}:{group[0][0]}: by tests/plain", wanted, plain.replies(given)
            )

    # ---- words

    def words(self, path: pathlib.Path) -> None:
        """Each row is a command."""
        for at, line in lines_of(path):
            made = re.match(r"(file|book|copy|base) (\S+): (.*)", line)
            if made:
                self.make(*made.groups())
            elif line:
                words, _, wanted = line.partition(" => ")
                row = Wanted.read(f"{path}:{at}", wanted)
                run = self.run([bytes_of(it) for it in words.split()])
                self.judge_that(
                    row.holds_of(run), f"{path.name}:{at}: {line}", row, run
                )
        is_made = (self.folder / "none").exists()
        self.judge(f"{path.name}: no command but new makes a file", False, is_made)

    def make(self, kind: str, name: str, text: str) -> None:
        """Makes a file that commands name."""
        path = self.folder / name
        if kind == "file":
            path.write_bytes(bytes_of(text))
        elif kind == "book":
            self.run([b"new", name.encode()])
            self.run([b"session", name.encode()], bytes_of(text))
        else:
            if kind == "copy":
                shutil.copy(self.folder / "book", path)
            subprocess.run(
                ["sqlite3", path, text], check=True, stdout=subprocess.DEVNULL
            )

    # ---- ends

    def ends(self, path: pathlib.Path) -> None:
        """Each row is a command over a copy of the book, some of whose ends fail."""
        for at, line in lines_of(path):
            found = re.fullmatch(r"(.+) \| (.+) => (.+)", line)
            if found:
                failing = [it.split() for it in found[1].split(", ")]
                row = Wanted.read(f"{path}:{at}", found[3])
                self.copy("book")
                run = self.run_over(
                    {end: how for end, how in failing}, found[2].encode().split()
                )
                self.judge_that(
                    row.holds_of(run), f"{path.name}:{at}: {line}", row, run
                )
                kept = self.run([b"check", b"copied"])
                self.judge(
                    f"{path.name}:{at}: the book then", (0, b"ok 2\n", b""), kept
                )
            elif line:
                sys.exit(f"{path}:{at}: it is no row")

    def run_over(self, failing: dict[str, str], words: list[bytes]) -> Run:
        """A run with some of its ends closed, or failing in another way."""
        closed = [ENDS[end] for end, how in failing.items() if how == "closed"]

        def close() -> None:
            for end in closed:
                os.close(end)

        ends: dict[str, Optional[int]] = {}
        stack = contextlib.ExitStack()
        with stack:
            for end, how in failing.items():
                name = ["stdin", "stdout", "stderr"][ENDS[end]]
                ends[name] = None if how == "closed" else FAILING[how](stack)
            run = self.run(words, b"version\n", preexec_fn=close, **ends)
        return run

    # ---- helps

    def help(self, folder: pathlib.Path) -> None:
        """The help of the program and of each command is that of its file, by either flag, and has
        its codes and statuses, and an example that works."""
        names = {it or "braildesk" for it in HELP}
        self.judge("the files of helps", names, {it.name for it in folder.iterdir()})
        for command, codes in HELP.items():
            wanted = (folder / (command or "braildesk")).read_bytes().decode()
            for flag in ("--help", "-h"):
                name = f"{command} {flag}".strip()
                status, written, errors = self.run(name.encode().split())
                self.judge(name, (0, b""), (status, errors))
                self.judge_text(name, wanted, written.decode())
                self.judge_help(name, command, codes, written.decode())

    def judge_text(self, name: str, wanted: str, found: str) -> None:
        """Takes down the first line in which a text is wrong."""
        lines = itertools.zip_longest(wanted.split("\n"), found.split("\n"))
        wrong = [it for it in enumerate(lines, 1) if it[1][0] != it[1][1]]
        at, (line, other) = wrong[0] if wrong else (0, ("", ""))
        self.judge(f"line {at} of {name}" if wrong else name, line, other)

    def judge_help(self, name: str, command: str, codes: set[int], text: str) -> None:
        found = {int(it) for it in re.findall(r"\bno (\d+)", text)}
        self.judge(f"the codes of {name}", codes, found)
        statuses = re.findall(
            r"^  ([0-3])  \S", text.partition("Exit status:\n")[2], re.M
        )
        self.judge(f"the statuses of {name}", ["0", "1", "2", "3"], statuses)
        example = re.search(r"^Example:\n((?:  \S.*\n)+)", text, re.M)
        self.judge(f"the example of {name}", True, bool(example))
        if example:
            self.paste(name, command, example[1])

    def paste(self, name: str, command: str, example: str) -> None:
        with tempfile.TemporaryDirectory(dir=self.folder) as place:
            os.symlink(self.program, f"{place}/braildesk")
            if command not in ("", "new"):
                shutil.copy(self.folder / "book", f"{place}/book.braildesk")
            ran = subprocess.run(
                ["bash", "-e", "-o", "pipefail", "-c", example],
                cwd=place,
                timeout=MOST_SECONDS,
                env={**os.environ, "PATH": f"{place}:{os.environ['PATH']}"},
                capture_output=True,
            )
            self.judge(
                f"the example of {name} works", (0, b""), (ran.returncode, ran.stderr)
            )


def main() -> None:
    parser = argparse.ArgumentParser()
    parser.add_argument("program", type=pathlib.Path)
    parser.add_argument("rows", type=pathlib.Path)
    given = parser.parse_args()
    with tempfile.TemporaryDirectory() as scratch:
        rows = Rows(str(given.program.resolve()), pathlib.Path(scratch))
        rows.make("book", "book", BOOK)
        rows.words(given.rows / "words")
        rows.sessions(given.rows / "sessions")
        rows.ends(given.rows / "ends")
        rows.help(given.rows / "helps")
    for it in rows.wrong:
        print(f"tests/program/rows.sh: {it}", file=sys.stderr)
    if rows.wrong:
        sys.exit(1)
    print(f"ok  {rows.count} rows of requests, words, ends and helps")


if __name__ == "__main__":
    main()
