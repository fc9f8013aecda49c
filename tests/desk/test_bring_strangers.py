"""Tables of strangers: none takes more time and memory than the best of liblouis's own."""

import os
import re
import resource
import signal
import subprocess
import sys
import time
from collections.abc import Callable
from pathlib import Path

import pytest

from braildesk.confined import Limits, confined
from braildesk.desk.own_folder import OwnFolder
from braildesk.tables.convert import oracle, source
from braildesk.tables.convert.draft import TableDraft
from braildesk.tables.convert.learning import Learned
from braildesk.tables.convert.oracle import Liblouis, NoLiblouis
from braildesk.tables.convert.source import NoTable, read_source
from braildesk.tables.convert.word_list import keep, kept
from strangers import NEEDS_ROOT, STRANGER
from tool import environment, scribe

# far less than a table of this kind takes that nothing stops
SECONDS = 120
BRINGS = """
import sys
from pathlib import Path
from braildesk.tables.convert.oracle import Liblouis
Liblouis(Path(sys.argv[1]))
"""


def doubling(folder: Path, ending: str, levels: int = 30) -> Path:
    """A table of a few small files, each of which includes the next one twice."""
    for level in range(levels):
        text = f"include level{level + 1}{ending}\n" * 2
        (folder / f"level{level}{ending}").write_text(text, encoding="utf-8")
    (folder / f"level{levels}{ending}").write_text("letter a 1\n", encoding="utf-8")
    table = folder / "doubling.utb"
    table.write_text(f"include level0{ending}\nletter b 12\n", encoding="utf-8")
    return table


def children(process: int) -> list[int]:
    """The processes that a process started and that are still there."""
    try:
        listed = Path(f"/proc/{process}/task/{process}/children").read_text()
    except FileNotFoundError:
        return []
    return list(map(int, listed.split()))


def is_running(process: int) -> bool:
    try:
        state = Path(f"/proc/{process}/stat").read_text().rpartition(") ")[2][0]
    except FileNotFoundError:
        return False
    return state not in "ZX"


def test_a_table_that_includes_ever_more_files_is_refused(tmp_path: Path) -> None:
    with pytest.raises(NoTable, match="With all that it includes the table is more"):
        read_source(doubling(tmp_path, ".uti", levels=15))


def test_a_table_of_too_many_lines_is_refused(
    tmp_path: Path, monkeypatch: pytest.MonkeyPatch
) -> None:
    monkeypatch.setattr(source, "MOST_LINES", 99, raising=False)
    (tmp_path / "many.uti").write_text("letter a 1\n" * 25, encoding="utf-8")
    table = tmp_path / "many.utb"
    table.write_text("include many.uti\n" * 4, encoding="utf-8")
    with pytest.raises(NoTable, match="more than 99 lines"):
        read_source(table)


@pytest.mark.parametrize("ending", [".uti", ".dis"])
def test_no_pipe_that_a_table_includes_is_waited_for(
    ending: str, tmp_path: Path
) -> None:
    os.mkfifo(tmp_path / f"pipe{ending}")
    table = tmp_path / "own.utb"
    table.write_text(f"include pipe{ending}\nletter a 1\n", encoding="utf-8")
    with pytest.raises(NoTable, match=f"includes pipe{ending}, which is no file"):
        read_source(table)


def test_bring_ends_with_a_sentence_where_liblouis_alone_would_loop(
    tmp_path: Path,
) -> None:
    # files for screens aren't read here, since they have no braille, but are by liblouis
    table = doubling(tmp_path, ".dis")
    began = time.monotonic()
    ran = scribe("bring", "doubling.utb", "own.utb", folder=tmp_path)
    assert time.monotonic() - began < SECONDS
    assert (ran.status, ran.shown, ran.said) == (
        2,
        "",
        f"liblouis gives no answer for {table.name}: it breaks off on this table, or takes more"
        " time or memory than any of its own tables.\n",
    )
    assert not (tmp_path / "own.utb").exists()


def test_what_asks_liblouis_ends_with_the_one_that_started_it(tmp_path: Path) -> None:
    table = doubling(tmp_path, ".dis")
    starter = subprocess.Popen(
        [sys.executable, "-c", BRINGS, str(table)], env=environment()
    )
    end = time.monotonic() + SECONDS
    while not (found := children(starter.pid)) and time.monotonic() < end:
        time.sleep(0.05)
    (worker,) = found
    # once it reads the table, it doesn't look whether somebody still asks
    while "louis" not in Path(f"/proc/{worker}/maps").read_text():
        time.sleep(0.05)
    starter.send_signal(signal.SIGKILL)
    starter.wait()
    while is_running(worker) and time.monotonic() < end:
        time.sleep(0.05)
    assert not is_running(worker)


def worker_words() -> list[str]:
    """The words of the command that asks liblouis for this process."""
    worker = Path(oracle.__file__).with_name("worker.py")
    return confined([sys.executable, "-I", str(worker)], Limits(oracle.MEMORY))


#: Says which signal a program gets as its starter ends (PR_GET_PDEATHSIG), and what it may have at most.
TELLS = """
import ctypes, resource
number = ctypes.c_int()
ctypes.CDLL(None).prctl(2, ctypes.byref(number), 0, 0, 0)
most = (resource.RLIMIT_AS, resource.RLIMIT_CPU, resource.RLIMIT_FSIZE, resource.RLIMIT_CORE)
print(number.value, *(resource.getrlimit(each)[0] for each in most))
"""


def test_a_confined_program_has_its_limits_and_is_ended_with_its_starter() -> None:
    limits = Limits(1 << 29, 7, 1 << 20)
    words = confined([sys.executable, "-I", "-c", TELLS], limits)
    done = subprocess.run(words, capture_output=True, text=True, timeout=SECONDS)
    assert done.stdout == f"{signal.SIGKILL:d} {1 << 29} 7 {1 << 20} 0\n"


def test_what_asks_liblouis_may_have_no_more_than_a_table_takes(tmp_path: Path) -> None:
    table = tmp_path / "own.utb"
    table.write_text("letter a 1\n", encoding="utf-8")
    with Liblouis(table) as liblouis:
        running = liblouis._process._running
        assert running is not None
        listed = Path(f"/proc/{running.pid}/limits").read_text()
    found = dict(re.findall(r"(?m)^Max (cpu time|address space) +(\d+) ", listed))
    assert int(found["address space"]) <= oracle.MEMORY
    # those of the reading, and what it had taken before
    assert 0 < int(found["cpu time"]) < SECONDS


def test_a_worker_whose_starter_has_ended_asks_nothing() -> None:
    words = worker_words()
    words[words.index(str(os.getpid()))] = "1"
    done = subprocess.run(
        words,
        input=b'{"table": "none.utb"}\n',
        capture_output=True,
        timeout=SECONDS,
    )
    assert (done.returncode, done.stdout) == (0, b"")


def test_a_worker_that_may_have_less_already_answers() -> None:
    def limit_itself() -> None:
        resource.setrlimit(resource.RLIMIT_AS, (600 << 20, 600 << 20))
        resource.setrlimit(resource.RLIMIT_CPU, (2, 2))

    done = subprocess.run(
        worker_words(),
        input=b'{"table": "none.utb"}\n',
        capture_output=True,
        preexec_fn=limit_itself,
        timeout=SECONDS,
    )
    assert done.stdout == b'{"fault": "liblouis refuses the table none.utb."}\n'


@pytest.mark.parametrize("cause", [KeyboardInterrupt, SystemExit, MemoryError])
def test_no_process_is_left_where_the_reading_of_a_table_is_broken_off(
    cause: type[BaseException], tmp_path: Path, monkeypatch: pytest.MonkeyPatch
) -> None:
    def breaks_off(stream: object, seconds: float) -> bytes:
        raise cause

    before = {*children(os.getpid())}
    monkeypatch.setattr(oracle._Process, "_lines", breaks_off)
    with pytest.raises(cause):
        Liblouis(tmp_path / "any.utb")
    # of those before, some may end meanwhile
    assert before.issuperset(children(os.getpid()))


def test_what_asks_liblouis_takes_no_module_of_the_folder_it_is_started_in(
    tmp_path: Path, monkeypatch: pytest.MonkeyPatch
) -> None:
    # of what it imports itself, and of what it is begun by
    for name in ("json", "louis", "ctypes", "dataclasses", "resource"):
        strange = tmp_path / f"{name}.py"
        strange.write_text("raise SystemExit\n", encoding="utf-8")
    monkeypatch.chdir(tmp_path)
    monkeypatch.setenv("PYTHONPATH", os.pathsep)
    with pytest.raises(NoLiblouis, match="refuses the table"):
        Liblouis(tmp_path / "none.utb")


def _link(path: Path) -> None:
    path.rename(path.with_name("real"))
    path.symlink_to("real")


def _link_to_folder(path: Path) -> None:
    path.unlink()
    path.symlink_to("/")


def _pipe(path: Path) -> None:
    path.unlink()
    os.mkfifo(path)


def _folder(path: Path) -> None:
    path.unlink()
    path.mkdir()


FORGED: dict[str, Callable[[Path], object]] = {
    "a link": _link,
    "a link to a folder": _link_to_folder,
    "a second name": lambda path: os.link(path, path.with_name("real")),
    "a pipe": _pipe,
    "a folder": _folder,
    "10 GB": lambda path: os.truncate(path, 10 * 2**30),
    "of another": lambda path: os.chown(path, STRANGER, STRANGER),
}


@NEEDS_ROOT
@pytest.mark.parametrize("what", FORGED)
def test_rules_are_taken_from_a_file_of_ones_own_alone_and_written_to_no_other(
    tmp_path: Path, what: str
) -> None:
    draft = TableDraft()
    for letter, cells in (("t", 0b11110), ("h", 0b10011)):
        draft.define(letter, "letter", (cells,))
    rules: Learned = {("always", "th"): (0b111001,)}
    shelf, name = OwnFolder(tmp_path / "contractions"), 64 * "0"
    keep(shelf, name, rules)
    assert kept(shelf, name, draft) == rules
    path = shelf.path / name
    FORGED[what](path)
    real = path.with_name("real")
    before = real.read_bytes() if real.exists() else b""
    assert kept(shelf, name, draft) is None
    keep(shelf, name, rules)
    # a folder isn't replaced, and everything else is
    assert kept(shelf, name, draft) == (None if what == "a folder" else rules)
    assert (real.read_bytes() if real.exists() else b"") == before


@NEEDS_ROOT
def test_no_rules_are_kept_in_the_folder_of_another(tmp_path: Path) -> None:
    of_another, link = tmp_path / "of another", tmp_path / "link"
    of_another.mkdir()
    os.chown(of_another, STRANGER, STRANGER)
    link.symlink_to(tmp_path)
    for path in (of_another, link):
        keep(OwnFolder(path), "name", {})
        assert kept(OwnFolder(path), "name", TableDraft()) is None
    assert set(tmp_path.iterdir()) == {of_another, link}
    assert not list(of_another.iterdir())
