"""Asking liblouis for cells, in a process of its own with a time limit.

Some tables crash liblouis or keep it busy for ever; then one question is lost and no more. One
process reads all the tables that are asked about, since it takes longer to start than to answer.
"""

from __future__ import annotations

import json
import select
import subprocess
import sys
import time
from collections import Counter, deque
from collections.abc import Iterable, Iterator, Sequence
from dataclasses import dataclass
from pathlib import Path
from types import TracebackType
from typing import Any, Final

from braildesk.confined import Limits, confined
from braildesk.tables.operands import Cells

FIRST_SECONDS: Final = 30.0
"""How long the reading of a table may take on a busy machine; the system ends the process well before."""

SECONDS: Final = 20.0
"""How long an answer may take on a busy machine; the process ends itself well before."""

PARCEL: Final = 1_000
"""How many questions are asked at once."""

MEMORY: Final = 1 << 30
"""The addresses that the process may have; after reading the largest table it has 22 million."""

_WORKER: Final = Path(__file__).with_name("worker.py")

Piece = tuple[str, Cells]
"""Print that liblouis takes together, with its cells."""


class NoLiblouis(Exception):
    """liblouis is not there, or does not read the table."""


class _Silent(Exception):
    """The process gave no answer in time, or ended."""


class Liblouis:
    """A table as liblouis reads it. What was asked once is remembered."""

    def __init__(self, table: Path, process: _Process | None = None) -> None:
        self.table: Final = table
        self._process: Final = process if process is not None else _Process()
        self._known: dict[str, Cells | None] = {}
        self.lost: Final[list[str]] = []
        try:
            self.version: Final = self._process.read(table)
        except BaseException:
            if process is None:
                self.close()
            raise

    def __enter__(self) -> Liblouis:
        return self

    def __exit__(
        self,
        kind: type[BaseException] | None,
        error: BaseException | None,
        trace: TracebackType | None,
    ) -> None:
        self.close()

    def close(self) -> None:
        """Ends the process, which another question would start again."""
        self._process.close()

    def beside(self, table: Path) -> Liblouis:
        """Another table, as the same process reads it."""
        return Liblouis(table, self._process)

    def cells(self, text: str) -> Cells | None:
        """The cells of a text, or None if liblouis gives none."""
        if text not in self._known:
            self.ask([text])
        return self._known[text]

    def ask(self, texts: Iterable[str]) -> list[Cells | None]:
        """The cells of several texts, which takes far less time than to ask for each."""
        wanted = list(texts)
        new = [text for text in dict.fromkeys(wanted) if text not in self._known]
        for text, answer in self._answers("cells", new):
            self._known[text] = None if answer is None else _cells(answer)
        return [self._known[text] for text in wanted]

    def pieces(self, texts: Iterable[str]) -> list[list[Piece]]:
        """The pieces of print that liblouis takes together in each text."""
        return [
            [(piece, _cells(braille)) for piece, braille in answer or ()]
            for _, answer in self._answers("pieces", list(texts))
        ]

    def _answers(self, kind: str, texts: Sequence[str]) -> Iterator[tuple[str, Any]]:
        """Each text with its answer. The one at which the process ends has none, and the next one goes on."""
        place = 0
        careful = False
        while place < len(texts):
            parcel = texts[place : place + PARCEL]
            answers = self._process.answers(self.table, kind, parcel, careful)
            try:
                for answer in answers:
                    yield texts[place], answer
                    place += 1
            except _Silent:
                if careful:
                    self.lost.append(texts[place])
                    yield texts[place], None
                    place += 1
                careful = not careful


class _Process:
    """The process, which is started when it is needed and has ended.

    It ends with the thread that started it, at the latest.
    """

    def __init__(self) -> None:
        self._running: subprocess.Popen[bytes] | None = None
        self._unread = b""
        #: The answers that came and weren't taken yet.
        self._came: deque[Any] = deque()
        self._read: set[Path] = set()

    def close(self) -> None:
        if self._running is not None:
            self._running.kill()
            self._running.communicate()
        self._running = None
        self._unread = b""
        self._came.clear()
        self._read.clear()

    def read(self, table: Path) -> str:
        """Has liblouis read a table, and says the version of liblouis."""
        if "," in str(table):
            raise NoLiblouis(
                f"liblouis can't be asked about {table}: it takes a comma for the end of a name. Give the"
                " file, or its folder, a name without a comma."
            )
        try:
            self._send({"table": str(table)})
            answer = self._answer(FIRST_SECONDS)
        except _Silent as silent:
            raise NoLiblouis(
                f"liblouis gives no answer for {table}: it breaks off on this table, or takes more"
                " time or memory than any of its own tables."
            ) from silent
        if "fault" in answer:
            raise NoLiblouis(str(answer["fault"]))
        self._read.add(table)
        return str(answer["version"])

    def answers(
        self, table: Path, kind: str, texts: Sequence[str], careful: bool
    ) -> Iterator[Any]:
        """The answers to texts. Careful, each comes at once, so that none is lost but that of the end."""
        if table not in self._read:
            self.read(table)
        self._send({"table": str(table), kind: list(texts), "careful": careful})
        for _ in texts:
            yield self._answer(SECONDS)

    def _send(self, question: dict[str, object]) -> None:
        if self._running is None:
            self._running = subprocess.Popen(
                confined([sys.executable, "-I", str(_WORKER)], Limits(MEMORY)),
                stdin=subprocess.PIPE,
                stdout=subprocess.PIPE,
                stderr=subprocess.DEVNULL,
            )
        assert self._running.stdin is not None
        try:
            self._running.stdin.write(json.dumps(question).encode() + b"\n")
            self._running.stdin.flush()
        except BrokenPipeError as error:
            self.close()
            raise _Silent from error

    def _answer(self, seconds: float) -> Any:
        if not self._came:
            # each stands on a line of its own, and many are read faster together
            lines = self._lines(seconds).replace(b"\n", b",")
            self._came.extend(json.loads(b"[" + lines + b"]"))
        return self._came.popleft()

    def _lines(self, seconds: float) -> bytes:
        """The lines that have come to their ends, once there is one."""
        assert self._running is not None and self._running.stdout is not None
        stream = self._running.stdout
        end = time.monotonic() + seconds
        while b"\n" not in self._unread:
            left = end - time.monotonic()
            ready = left > 0 and select.select([stream], [], [], left)[0]
            more = stream.read1(1 << 20) if ready else b""  # type: ignore[attr-defined]
            if not more:
                self.close()
                raise _Silent
            self._unread += more
        lines, _, self._unread = self._unread.rpartition(b"\n")
        return lines


def _cells(braille: str) -> Cells:
    """The cells of braille. The dots that no page has are masked, as liblouis masks them."""
    return tuple(braille.encode("utf-16-le", "surrogatepass")[::2])


@dataclass(frozen=True)
class Frame:
    """Print with what stands before and after it."""

    left: str
    middle: str
    right: str

    @property
    def texts(self) -> tuple[str, str, str]:
        """What is asked for to know the cells of the middle: the whole, and what stands around."""
        return self.left + self.middle + self.right, self.left, self.right


def ask_frames(liblouis: Liblouis, frames: Iterable[Frame]) -> None:
    """Asks at once for what `between` then finds remembered."""
    liblouis.ask(text for frame in frames for text in frame.texts)


def between(liblouis: Liblouis, frame: Frame) -> Cells | None:
    """The cells of the middle, or None if those of the left or the right change beside it."""
    whole, before, after = liblouis.ask(frame.texts)
    if whole is None or before is None or after is None:
        return None
    return stripped(whole, before, after)


def stripped(whole: Cells, before: Cells, after: Cells) -> Cells | None:
    """The whole without what it begins with and ends with, or None if it doesn't."""
    end = len(whole) - len(after)
    if end < len(before) or whole[: len(before)] != before or whole[end:] != after:
        return None
    return whole[len(before) : end]


def most_common(found: Iterable[Cells | None], share: float = 0.5) -> Cells | None:
    """What at least this share of those that were found have, if any has."""
    known = [cells for cells in found if cells is not None]
    if not known:
        return None
    cells, count = Counter(known).most_common(1)[0]
    return cells if count >= share * len(known) else None
