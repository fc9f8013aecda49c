"""Has Orca listen while a book is worked on in the window, and writes what it says at each step."""

import os
import re
import subprocess
import sys
import time
from collections.abc import Iterator
from datetime import datetime
from pathlib import Path

from reader import Reader

from steps import STEPS, moon_book

_LINE = re.compile(r"^(?=\d\d:\d\d:\d\d\.\d+ - )", re.MULTILINE)
_SAID = re.compile(r"SPEECH OUTPUT: '(.*?)'(?: voice=\w+)? ?[\[{]", re.DOTALL)
# what is said of a step is said by then, also on a machine that has other work
_STEP_SECONDS = float(os.environ.get("STEP", "4"))
# the log is written in pieces: so many keys more, and all that counts was written
_MORE_KEYS = 12


class Orca:
    """Orca with its log."""

    def __init__(self, folder: Path) -> None:
        self._log = folder / "orca.log"
        environment = {**os.environ, "PYTHONPATH": os.environ["SILENT"], "TZ": "UTC"}
        command = ["orca", "--replace", f"--debug-file={self._log}"]
        with (folder / "orca.out").open("wb") as out:
            self.program = subprocess.Popen(
                command, env=environment, stdout=out, stderr=out
            )

    def is_there(self) -> bool:
        """Whether it listens."""
        return self._log.exists() and "registering listener" in self.log()

    def log(self) -> str:
        """Its log, as far as it was written."""
        return self._log.read_text(errors="replace")

    def end(self) -> None:
        """Ends it at once: it has its own way with other signals, which may take long."""
        self.program.kill()
        self.program.wait()


def said_at(log: str) -> Iterator[tuple[str, str]]:
    """When something was said, and what."""
    for line in _LINE.split(log):
        found = _SAID.search(line)
        if found and found[1].strip():
            yield line.split(" ")[0], " ".join(found[1].split())


def _now() -> str:
    return datetime.utcnow().strftime("%H:%M:%S.%f")


def _wait() -> None:
    time.sleep(_STEP_SECONDS)


def _worked(window: Reader) -> list[tuple[str, str]]:
    """Does each step, and gives when it began."""
    began = [(_now(), "opening")]
    window.opened()
    _wait()
    for name, does in STEPS.items():
        began.append((_now(), name))
        does(window)
        _wait()
    began.append((_now(), ""))
    for _ in range(_MORE_KEYS):
        window.press("F2", "F5")
        time.sleep(_STEP_SECONDS / 8)
    return began


def _parts(began: list[tuple[str, str]], log: str) -> Iterator[str]:
    """What was said from the beginning of each step to that of the next one."""
    for (start, name), (stop, _) in zip(began, began[1:]):
        said = [words for when, words in said_at(log) if start <= when < stop]
        yield "".join(f"{line}\n" for line in (f"# {name}", *said))


def main() -> None:
    """Does each step, and writes what is said of it."""
    folder, written = map(Path, sys.argv[1:])
    orca = Orca(folder)
    try:
        while not orca.is_there():
            time.sleep(_STEP_SECONDS / 8)
        book = folder / "moon.braildesk"
        moon_book(book)
        window = Reader(book, "--by", "anna")
        try:
            began = _worked(window)
        finally:
            window.kill()
    finally:
        orca.end()
    if "LOG" in os.environ:
        Path(os.environ["LOG"]).write_text(orca.log())
    parts = "\n".join(_parts(began, orca.log()))
    written.write_text(parts.replace(str(folder), "/books"), encoding="utf-8")


if __name__ == "__main__":
    main()
