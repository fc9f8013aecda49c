"""Measures commands of scribe, and keys of its screen, on books of several sizes. desk.sh runs it."""

import os
import resource
import shutil
import subprocess
import sys
import time
from collections.abc import Callable, Iterator, Sequence
from dataclasses import dataclass
from itertools import cycle, islice
from pathlib import Path

from braildesk import Session, find, new_book
from braildesk.protocol.requests import Mark, Type
from scribe.screen.desk import Desk
from scribe.screen.drawing import draw
from scribe.screen.state import Size, State

ROOT = Path(__file__).resolve().parents[2]
PROSE = ROOT / "bench" / "prose.txt"
SCRIBE = (sys.executable, "-I", str(ROOT / "bin" / "scribe"))
CHARACTERS, MARKS, WORD = 500, 5, "the"
IMPORTED = 5_000
SIZE = Size(80, 24)


@dataclass(frozen=True)
class Taken:
    """Seconds by the clock, and of a processor, with those of the processes that were started."""

    clock: float
    processor: float

    def __str__(self) -> str:
        return f"{self.clock:8.3f} {self.processor:8.3f}"


def texts(count: int) -> Iterator[str]:
    """Paragraphs of prose, each of 500 characters."""
    prose = " ".join(PROSE.read_text(encoding="utf-8").split())
    starts = cycle(range(0, len(prose) - CHARACTERS, 97))
    for start in islice(starts, count):
        yield prose[start : start + CHARACTERS].strip().ljust(CHARACTERS, ".")


def make_book(path: Path, count: int) -> None:
    """A book of so many paragraphs with five marks each, by the supplied table."""
    new_book(path)
    with Session(path) as session:
        session.supply_table("en")
        for _ in session.each(Type("end", "en", text) for text in texts(count)):
            pass
        for _ in session.each(
            Mark(number, 20 * place, 5, "spelled so?")
            for number in range(1, count + 1)
            for place in range(MARKS)
        ):
            pass
        assert session.last_version == 1 + count * (1 + MARKS)


def spent() -> float:
    """Seconds of a processor until now, with those of processes that have ended."""
    kinds = (resource.RUSAGE_SELF, resource.RUSAGE_CHILDREN)
    found = map(resource.getrusage, kinds)
    return sum(each.ru_utime + each.ru_stime for each in found)


def taken(act: Callable[[], object]) -> Taken:
    """What an act takes."""
    began, before = time.perf_counter(), spent()
    act()
    return Taken(time.perf_counter() - began, spent() - before)


def run(*words: str | Path, given: bytes = b"") -> None:
    """Runs a program, which has to end well."""
    done = subprocess.run(list(words), input=given, capture_output=True)
    if done.returncode:
        sys.exit(f"{words} ended with {done.returncode}: {done.stderr.decode()}")


def best(runs: int, act: Callable[[], object], before: Callable[[], object]) -> Taken:
    """The least that an act takes, each time after what is done before it."""
    found = []
    for _ in range(runs):
        before()
        found.append(taken(act))
    return Taken(min(each.clock for each in found), min(e.processor for e in found))


def commands(book: Path, count: int) -> Iterator[tuple[str, Sequence[str | Path]]]:
    """The commands that are measured on a book, each with its words."""
    middle = str((count + 1) // 2)
    yield "braildesk check", [find(), "check", book]
    yield "--help", [*SCRIBE, "--help"]
    yield "show of one paragraph", [*SCRIBE, "show", book, "--paragraphs", middle]
    yield "change", [*SCRIBE, "change", book, middle, WORD, "these", "--nth", "1"]
    yield "heading", [*SCRIBE, "heading", book, middle]
    yield "marks", [*SCRIBE, "marks", book]
    yield f"find “{WORD}”", [*SCRIBE, "find", book, WORD]
    yield "show of all", [*SCRIBE, "show", book]
    yield "pages", [*SCRIBE, "pages", book]
    yield "pages --page 1", [*SCRIBE, "pages", book, "--page", "1"]


def measure_commands(folder: Path, made: Path, count: int, runs: int) -> None:
    """Measures each command on a copy of a book."""
    book = folder / "book.braildesk"
    for name, words in commands(book, count):
        found = best(runs, lambda: run(*words), lambda: shutil.copyfile(made, book))
        tell(count, name, found)
    lines = list(texts(IMPORTED))
    text = folder / "text.txt"
    text.write_text("\n".join(lines), encoding="utf-8")
    requests = "".join(f"type end en {line}\n" for line in lines).encode()
    ways: tuple[tuple[str, Sequence[str | Path], bytes], ...] = (
        ("a piped session of 5,000", [find(), "session", book], requests),
        ("import of 5,000", [*SCRIBE, "import", book, text, "--lines"], b""),
    )
    for name, words, given in ways:
        if count + IMPORTED <= 20_000:
            found = best(
                runs,
                lambda: run(*words, given=given),
                lambda: shutil.copyfile(made, book),
            )
            tell(count, name, found)


class Sitting:
    """Somebody at the screen of a book: keys are pressed, and the screen is drawn after each."""

    def __init__(self, book: Path) -> None:
        self.desk = Desk(book)
        self.state: State = self.desk.first_state(SIZE, None, False)
        draw(self.state)

    def press(self, *keys: str) -> None:
        """Presses keys."""
        for key in keys:
            self.state = self.desk.press(self.state, key)
            if self.state.away:
                self.state = self.desk.away(self.state, lambda line: None)
            draw(self.state)


#: What is measured of the screen: the keys before it, and those of which the last is measured.
KEYS: tuple[tuple[str, tuple[str, ...], str], ...] = (
    ("down", (), "down"),
    ("page down", (), "pagedown"),
    ("right", (), "right"),
    ("tab, to the cells", (), "tab"),
    ("n, to the next mark", (), "n"),
    ("/, Enter, to words", ("/", *"far away"), "enter"),
    ("p, the first time", (), "p"),
    ("p, once pages are known", ("up",), "p"),
    ("Enter, which corrects", ("enter", "x"), "enter"),
    ("s, which strikes", (), "s"),
)


def measure_keys(folder: Path, made: Path, count: int, runs: int) -> None:
    """Measures the opening of the screen and some keys, on copies of a book."""
    book = folder / "book.braildesk"
    opening = []
    found: dict[str, list[Taken]] = {name: [] for name, _, _ in KEYS}
    for _ in range(runs):
        shutil.copyfile(made, book)
        sittings: list[Sitting] = []
        opening.append(taken(lambda: sittings.append(Sitting(book))))
        sitting = sittings[0]
        for name, before, key in KEYS:
            sitting.press("c-end" if count > 1 else "c-home", "home", "up", *before)
            found[name].append(taken(lambda: sitting.press(key)))
            sitting.press("escape")
        sitting.desk.close()
    tell(count, "the screen opens", least(opening))
    for name, its in found.items():
        tell(count, name, least(its))


def least(found: Sequence[Taken]) -> Taken:
    return Taken(min(each.clock for each in found), min(e.processor for e in found))


def tell(count: int, name: str, found: Taken) -> None:
    print(f"{count:7,} paragraphs  {name:26} {found}", flush=True)


def main() -> None:
    folder, runs, *sizes = sys.argv[1:]
    for size in map(int, sizes):
        made = Path(folder) / f"{size}.braildesk"
        if not made.exists():
            make_book(made, size)
        measure_commands(Path(folder), made, size, int(runs))
        measure_keys(Path(folder), made, size, int(runs))


if __name__ == "__main__":
    os.environ["XDG_STATE_HOME"] = sys.argv[1]
    main()
