"""How scribe ends: by which status or signal, with which sentence, whatever stood in its way."""

import os
import re
import resource
import shutil
import signal
import stat
import subprocess
import sys
import sysconfig
from pathlib import Path

import pytest

import braildesk
from braildesk import Session, SessionEnded

from scribe.cli import make_parser
from scribe.cli.commands import may_change
from tool import (
    ROOT,
    WAIT_SECONDS,
    Ran,
    environment,
    scribe,
    scribe_in_copy,
    wait_for_program,
)
from words import GIVEN, LOOKING, WORDS

IN_THE_BOOK = "What was reported as kept is in the book, and what was asked after that may be there too."
STOPPING = (signal.SIGINT, signal.SIGTERM, signal.SIGHUP)
#: Runs scribe with a command that fails as no command should.
FAULTY = """\
import sys
import scribe.cli as cli

def fail(words, console):
    console.show("ok 8")
    raise {fault}

cli.run_words = fail
sys.exit(cli.main())
"""


def faulty(fault: str, folder: Path, *words: str, **more: str) -> Ran:
    """A run of scribe in which something goes wrong that nobody thought of."""
    words = words or ("run", "moon.braildesk")
    done = subprocess.run(
        [sys.executable, "-c", FAULTY.format(fault=fault), *words],
        cwd=folder,
        env=environment(**more),
        capture_output=True,
    )
    return Ran(done.returncode, done.stdout.decode(), done.stderr.decode())


def test_what_is_said_last_is_no_wider_than_a_line(tmp_path: Path) -> None:
    settings = {"XDG_STATE_HOME": str(tmp_path / "state")}
    whole = faulty("MemoryError()", tmp_path, **settings).said
    said = faulty("MemoryError()", tmp_path, COLUMNS="40", **settings).said
    assert max(map(len, said.splitlines())) <= 40 < len(whole)
    assert said.split() == whole.split()


@pytest.mark.parametrize("fault", ["MemoryError()", "KeyboardInterrupt"])
def test_what_is_said_last_is_no_wider_than_the_words_ask(
    tmp_path: Path, fault: str
) -> None:
    words = ("strike", "moon.braildesk", "1")
    whole = faulty(fault, tmp_path, *words).said
    said = faulty(fault, tmp_path, *words, "--width", "30", COLUMNS="60").said
    assert max(map(len, said.splitlines())) <= 30 < len(whole)
    assert said.split() == whole.split()


def test_what_a_talk_says_last_is_no_wider_than_its_other_lines(
    tmp_path: Path,
) -> None:
    for columns in ("", "200"):
        words = ("talk", "moon.braildesk")
        said = faulty("KeyboardInterrupt", tmp_path, *words, COLUMNS=columns).said
        assert max(map(len, said.splitlines())) <= 80 < len(said)


def test_a_fault_of_scribe_itself_is_a_sentence_with_3_and_its_details_are_kept(
    tmp_path: Path,
) -> None:
    ran = faulty("KeyError('moon')", tmp_path, XDG_STATE_HOME=str(tmp_path / "state"))
    kept = tmp_path / "state" / "braildesk" / "fault.txt"
    assert ran == Ran(
        3,
        "ok 8\n",
        f"scribe has a fault of its own and stopped (KeyError, <string> line 6). {IN_THE_BOOK}"
        f" Please report it with its details, which are in {kept}.\n",
    )
    details = kept.read_text()
    version = braildesk.__version__
    assert details.startswith(f"scribe {version} run, Python 3.")
    assert "Traceback" in details and details.endswith("KeyError: 'moon'\n")
    assert stat.S_IMODE(kept.stat().st_mode) == 0o600
    assert stat.S_IMODE(kept.parent.stat().st_mode) == 0o700


def test_a_fault_whose_details_can_not_be_kept_is_a_sentence_too(
    tmp_path: Path,
) -> None:
    (tmp_path / "file").write_text("mine")
    ran = faulty("KeyError('moon')", tmp_path, XDG_STATE_HOME=str(tmp_path / "file"))
    assert ran.status == 3
    assert ran.said == (
        f"scribe has a fault of its own and stopped (KeyError, <string> line 6). {IN_THE_BOOK}"
        " Please report it. Its details could not be written to a file: Not a directory.\n"
    )


def test_a_fault_is_a_sentence_also_where_no_more_files_can_be_opened(
    tmp_path: Path,
) -> None:
    fault = "sys.modules.update(traceback=None) or OSError(24, 'Too many open files')"
    ran = faulty(fault, tmp_path)
    said = f"scribe stopped (OSError: [Errno 24] Too many open files). {IN_THE_BOOK}\n"
    assert ran == Ran(3, "ok 8\n", said)


def test_a_want_of_memory_is_no_fault_of_scribe(tmp_path: Path) -> None:
    assert faulty("MemoryError()", tmp_path) == Ran(
        3,
        "ok 8\n",
        f"There was no memory for this. {IN_THE_BOOK} Close other programs, and try again.\n",
    )


#: Commands that change no book.
CHANGING_NONE = (
    *("check-table", "try", "show", "list", "history", "compare", "find", "marks"),
    *("next", "volumes", "pages", "export", "proof", "bring"),
)
#: Words by which others change none either, and words by which one of these does.
WITHOUT_CHANGE = [
    ["change-all", "moon.braildesk", "far", "near", "--dry-run"],
    ["import", "moon.braildesk", "text.txt", "--dry-run"],
    ["tune", "moon.braildesk", "de-g2"],
]
WITH_CHANGE = [
    ["volumes", "moon.braildesk", "--pages", "9", "--set"],
    ["tune", "moon.braildesk", "de-g2", "--apply"],
]


def test_only_words_that_may_change_a_book_are_taken_for_such(
    moon: Path, monkeypatch: pytest.MonkeyPatch
) -> None:
    monkeypatch.chdir(moon.parent)
    Path("text.txt").write_text("The sun\n")
    changing = WITH_CHANGE + [
        [name, *WORDS[name]] for name in WORDS if name not in CHANGING_NONE
    ]
    others = WITHOUT_CHANGE + [[name, *WORDS[name]] for name in CHANGING_NONE]
    for words in changing + others:
        arguments = make_parser(words[:1]).parse_args(words)
        assert (words, may_change(arguments)) == (words, words in changing)


@pytest.mark.parametrize(
    "words, kept",
    [
        (("show", "moon.braildesk"), "No book was changed."),
        (("find", "moon.braildesk", "moon"), "No book was changed."),
        (("show", "--help"), "No book was changed."),
        (("show",), "No book was changed."),
        (("strike", "moon.braildesk", "1"), IN_THE_BOOK),
    ],
)
def test_what_may_be_in_the_book_is_said_only_where_a_change_was_asked(
    tmp_path: Path, words: tuple[str, ...], kept: str
) -> None:
    stopped = faulty("KeyboardInterrupt", tmp_path, *words)
    assert stopped == Ran(-signal.SIGINT, "ok 8\n", f"Stopped. {kept}\n")
    at_fault = faulty("KeyError('moon')", tmp_path, *words)
    assert f"line 6). {kept} Please report it" in at_fault.said


def begun_run(
    book: Path, asked: bytes = b"strike 1\n", answer: bytes = b"ok 8\n", **more: str
) -> "subprocess.Popen[bytes]":
    """A run that has answered one request and waits for the next one."""
    words = ("run", book.name)
    process = subprocess.Popen(
        [sys.executable, "-m", "scribe", *words],
        cwd=book.parent,
        stdin=subprocess.PIPE,
        stdout=subprocess.PIPE,
        stderr=subprocess.PIPE,
        preexec_fn=scribe_in_copy(words, environment(**more), wait_for_program),
    )
    assert process.stdin is not None and process.stdout is not None
    process.stdin.write(asked)
    process.stdin.flush()
    assert process.stdout.readline() == answer
    return process


@pytest.fixture
def running(moon: Path) -> "subprocess.Popen[bytes]":
    """A run that has answered one request and waits for the next one."""
    return begun_run(moon)


@pytest.mark.parametrize("number", STOPPING)
def test_a_signal_ends_scribe_after_a_sentence_by_the_same_signal(
    running: "subprocess.Popen[bytes]", moon: Path, number: signal.Signals
) -> None:
    running.send_signal(number)
    shown, said = running.communicate()
    by = "" if number is signal.SIGINT else f" by {number.name}"
    assert (running.returncode, shown) == (-number, b"")
    assert said.decode() == f"Stopped{by}. {IN_THE_BOOK}\n"
    assert braildesk.check(moon) == 8


@pytest.mark.parametrize("is_by_signal", [True, False])
def test_an_end_after_the_book_was_replaced_says_where_what_was_kept_is(
    running: "subprocess.Popen[bytes]", moon: Path, is_by_signal: bool
) -> None:
    assert running.stdin is not None and running.stdout is not None
    other = moon.with_name("other")
    shutil.copyfile(moon, other)
    other.replace(moon)
    if is_by_signal:
        running.send_signal(signal.SIGTERM)
    else:
        # nobody reads what is shown any more
        running.stdout.close()
        running.stdin.write(b"version\n")
    running.stdin.close()
    assert running.stderr is not None
    said = running.stderr.read().decode()
    saved = f"{moon}-saved-1"
    assert said == (
        f"{'Stopped by SIGTERM. ' if is_by_signal else ''}The file of the book is no longer at"
        f" “{moon.name}”: another one was put there while it was open. All of the book, with what"
        f" was kept last, is in the new file “{saved}”. Go on with that one, or look first what is at the"
        " old path by now.\n"
    )
    assert running.wait() == (-signal.SIGTERM if is_by_signal else 3)
    assert braildesk.check(saved) == 8


@pytest.mark.parametrize("name", ["SIGTERM", "SIGINT"])
def test_a_signal_while_a_book_that_is_gone_is_saved_ends_scribe_once_that_is_done(
    moon: Path, name: str
) -> None:
    program, folder = moon.with_name("program"), moon.parent
    # as at a terminal, Ctrl-C ends the program too
    program.write_text(
        "#!/bin/sh\n"
        f'if [ "$1" = check ] && mkdir "{folder}/once"; then\n'
        f"  kill -{name[3:]} $PPID\n"
        f"  if [ {name} = SIGINT ]; then kill -KILL $$; fi\n"
        "fi 2> /dev/null\n"
        f"exec '{braildesk.find()}' \"$@\"\n"
    )
    program.chmod(0o755)
    process = begun_run(moon, BRAILDESK=str(program))
    moon.unlink()
    shown, said = process.communicate()
    by, saved = "" if name == "SIGINT" else f" by {name}", Path(f"{moon}-saved-1")
    assert (process.returncode, shown) == (-signal.Signals[name], b"")
    assert said.decode() == (
        f"Stopped{by}. The file of the book is no longer at “{moon.name}”: it was removed or moved"
        " while it was open. All of the book, with what was kept last, is in the new file"
        f" “{saved}”. Go on with that one, or look first what is at the old path by now.\n"
    )
    assert list(folder.glob("*-saved-*")) == [saved]
    assert braildesk.check(saved) == 8


@pytest.mark.parametrize("is_replaced", [True, False])
def test_a_run_that_is_told_to_end_says_of_a_book_that_is_gone_that_nothing_was_changed(
    moon: Path, is_replaced: bool
) -> None:
    process = begun_run(moon, b"version\n", b"end 7\n")
    if is_replaced:
        Path(shutil.copyfile(moon, moon.with_name("other"))).replace(moon)
    else:
        moon.unlink()
    process.send_signal(signal.SIGTERM)
    shown, said = process.communicate()
    assert (process.returncode, shown) == (-signal.SIGTERM, b"")
    what = "another one was put there" if is_replaced else "it was removed or moved"
    assert said.decode() == (
        f"Stopped by SIGTERM. The file of the book is no longer at “{moon.name}”: {what} while it"
        " was open. Nothing was changed in it here.\n"
    )
    assert not list(moon.parent.glob("*-saved-*"))


def test_the_limit_on_processor_time_stops_scribe_in_a_sentence(
    running: "subprocess.Popen[bytes]", moon: Path
) -> None:
    running.send_signal(signal.SIGXCPU)
    _, said = running.communicate()
    assert running.returncode == -signal.SIGXCPU
    assert said.decode() == (
        f"Stopped by the limit on processor time (ulimit -t). {IN_THE_BOOK}\n"
    )
    assert braildesk.check(moon) == 8


@pytest.mark.parametrize("name", ["strike", "show", "export", "run"])
def test_the_limit_on_the_size_of_files_is_named(moon: Path, name: str) -> None:
    def limit() -> None:
        _, most = resource.getrlimit(resource.RLIMIT_FSIZE)
        resource.setrlimit(resource.RLIMIT_FSIZE, (0, most))

    ran = scribe(name, *WORDS[name], folder=moon.parent, before=limit)
    assert ran == Ran(
        3,
        "",
        "braildesk was ended by the limit on the size of files (ulimit -f) before it was done. Set a"
        f" higher one, and try again.{' Nothing was exported.' if name == 'export' else ''}\n",
    )
    assert braildesk.check(moon) == 7


def test_a_session_that_a_limit_ends_names_it(moon: Path) -> None:
    with Session(moon) as session:
        os.kill(session.pid, signal.SIGXFSZ)
        with pytest.raises(SessionEnded) as caught:
            session.strike(1)
    assert caught.value.cause == (
        "The session was ended by the limit on the size of files (ulimit -f)."
    )


def test_no_second_signal_cuts_short_what_the_first_one_began(
    running: "subprocess.Popen[bytes]",
) -> None:
    for number in (signal.SIGINT, signal.SIGINT, signal.SIGTERM, signal.SIGHUP):
        running.send_signal(number)
    _, said = running.communicate()
    # signals that come at once may be delivered in another order
    assert -running.returncode in STOPPING
    assert re.fullmatch(f"Stopped( by SIG[A-Z]+)?. {IN_THE_BOOK}\n", said.decode())


#: Has the signal come while Python tells of the end of an object, where it drops what is raised.
DROPPED = """\
import os, select, signal, sys, weakref
from scribe.cli.endings import ended

class Thing:
    pass

def run():
    thing = Thing()
    told = weakref.ref(thing, lambda _: os.kill(os.getpid(), signal.{name}))
    del thing
    select.select([], [], [], {wait})
    return 0

sys.exit(ended(run, lambda: False))
"""


@pytest.mark.parametrize("wait", [0, WAIT_SECONDS])
@pytest.mark.parametrize("number", STOPPING)
def test_a_signal_that_comes_where_python_drops_exceptions_ends_scribe_too(
    number: signal.Signals, wait: int
) -> None:
    done = subprocess.run(
        [sys.executable, "-c", DROPPED.format(name=number.name, wait=wait)],
        env=environment(),
        capture_output=True,
        text=True,
    )
    by = "" if number is signal.SIGINT else f" by {number.name}"
    assert done.stderr == f"Stopped{by}. No book was changed.\n"
    assert done.returncode == -number


WRAPPED = """\
import os, signal, sys
from scribe.cli.endings import ended

class Field:
    def __set_name__(self, owner, name):
        os.kill(os.getpid(), signal.{name})

def run():
    class Thing:
        field = Field()
    return 0

sys.exit(ended(run, lambda: False))
"""


@pytest.mark.parametrize("number", STOPPING)
def test_a_signal_that_python_makes_a_fault_of_ends_scribe_as_any(
    number: signal.Signals,
) -> None:
    done = subprocess.run(
        [sys.executable, "-c", WRAPPED.format(name=number.name)],
        env=environment(),
        capture_output=True,
        text=True,
    )
    by = "" if number is signal.SIGINT else f" by {number.name}"
    assert done.stderr == f"Stopped{by}. No book was changed.\n"
    assert done.returncode == -number


#: Has it come there while the lines of a terminal are waited for, or just before that.
DROPPED_AT_LINES = """\
import os, select, signal, sys, weakref
from scribe.cli.endings import ended
from scribe.prompt.typed_lines import TypedLines

class Thing:
    pass

def drop():
    thing = Thing()
    told = weakref.ref(thing, lambda _: os.kill(os.getpid(), signal.SIGTERM))
    del thing

def run():
    lines = object.__new__(TypedLines)
    lines._readline = Thing()
    lines._readline.get_line_buffer = lambda: "begun"
    if {before}:
        drop()
    with lines._asking(lambda: False):
        if not {before}:
            drop()
    select.select([], [], [], {wait})
    return 0

sys.exit(ended(run, lambda: False))
"""


@pytest.mark.parametrize("before", [True, False])
def test_a_dropped_signal_comes_again_where_lines_are_typed(before: bool) -> None:
    done = subprocess.run(
        [
            sys.executable,
            "-c",
            DROPPED_AT_LINES.format(before=before, wait=WAIT_SECONDS),
        ],
        env=environment(),
        capture_output=True,
        text=True,
    )
    assert done.stderr == "Stopped by SIGTERM. No book was changed.\n"
    assert done.returncode == -signal.SIGTERM


#: Sends this process the signal of Ctrl-C when some module is imported.
CTRL_C_AT = """\
import os, signal, sys

def heard(event, words):
    if event == "import" and words[0] == os.environ["CTRL_C_AT"]:
        os.kill(os.getpid(), signal.SIGINT)

sys.addaudithook(heard)
"""
#: A script as pip writes it.
OF_PIP = """\
import sys
from scribe.__main__ import main
sys.exit(main())
"""


@pytest.mark.parametrize(
    "words, module",
    [
        (("-m", "scribe"), "typing"),
        (("-m", "scribe"), "gc"),
        (("scribe",), "typing"),
        ((str(ROOT / "bin" / "scribe"),), "gc"),
    ],
)
def test_ctrl_c_ends_scribe_without_a_traceback_from_its_first_line_on(
    tmp_path: Path, words: tuple[str, ...], module: str
) -> None:
    (tmp_path / "sitecustomize.py").write_text(CTRL_C_AT)
    (tmp_path / "scribe").write_text(OF_PIP)
    script = [str(tmp_path / each) if each == "scribe" else each for each in words[-1:]]
    done = subprocess.run(
        [sys.executable, *(words if words[0] == "-m" else script)],
        cwd=tmp_path,
        env=environment(PYTHONPATH=f"{tmp_path}:{ROOT / 'src'}", CTRL_C_AT=module),
        capture_output=True,
        text=True,
    )
    assert (done.returncode, done.stdout, done.stderr) == (-signal.SIGINT, "", "")


def test_ctrl_c_ends_scribe_as_the_folders_of_packages_are_looked_for(
    tmp_path: Path,
) -> None:
    (tmp_path / "bin").mkdir()
    (tmp_path / "bin" / "python3").symlink_to(sys.executable)
    home = Path(sys.executable).parent
    (tmp_path / "pyvenv.cfg").write_text(
        f"home = {home}\ninclude-system-site-packages = true\n"
    )
    packages = Path(sysconfig.get_path("purelib", "venv", {"base": str(tmp_path)}))
    packages.mkdir(parents=True)
    # the only code there that Python runs while it begins
    (packages / "ctrl-c.pth").write_text(
        "import os, signal; os.kill(os.getpid(), signal.SIGINT)\n"
    )
    done = subprocess.run(
        [ROOT / "bin" / "scribe", "--version"],
        env=environment(PATH=f"{tmp_path / 'bin'}:{os.environ['PATH']}"),
        capture_output=True,
        text=True,
    )
    assert (done.returncode, done.stdout, done.stderr) == (-signal.SIGINT, "", "")


#: The same of SIGTERM when the file of some module, or the book, is opened.
SIGTERM_AT = """\
import os, signal, sys

def heard(event, words):
    if event == "open" and os.environ["SIGTERM_AT"] in str(words[0]):
        os.kill(os.getpid(), signal.SIGTERM)

sys.addaudithook(heard)
"""


@pytest.mark.parametrize(
    "name, module",
    [
        ("strike", "edits"),
        ("strike", "beginning"),
        ("strike", "moon"),
        ("strike", "session"),
        ("new", "making"),
        ("copy", "making"),
        ("run", "session"),
        ("talk", "typed_lines"),
    ],
)
def test_a_signal_before_a_command_does_anything_is_told_so(
    moon: Path, name: str, module: str
) -> None:
    (moon.parent / "sitecustomize.py").write_text(SIGTERM_AT)
    paths = f"{moon.parent}:{ROOT / 'src'}"
    done = subprocess.run(
        [sys.executable, "-m", "scribe", name, *WORDS[name]],
        cwd=moon.parent,
        env=environment(PYTHONPATH=paths, SIGTERM_AT=f"{module}."),
        capture_output=True,
        text=True,
    )
    said = "Stopped by SIGTERM. Nothing was done.\n"
    assert (done.returncode, done.stdout, done.stderr) == (-signal.SIGTERM, "", said)
    assert not any(moon.with_name(each).exists() for each in WORDS["copy"][1:])
    assert not moon.with_name(*WORDS["new"]).exists()
    assert braildesk.check(moon) == 7


def test_a_loop_of_a_shell_stops_where_ctrl_c_stops_scribe(moon: Path) -> None:
    loop = f"for turn in 1 2 3; do '{sys.executable}' -m scribe run moon.braildesk; echo $turn; done"
    process = subprocess.Popen(
        ["bash", "-c", loop],
        cwd=moon.parent,
        env=environment(),
        stdin=subprocess.PIPE,
        stdout=subprocess.PIPE,
        stderr=subprocess.DEVNULL,
        process_group=0,
    )
    assert process.stdin is not None and process.stdout is not None
    process.stdin.write(b"version\n")
    process.stdin.flush()
    assert process.stdout.readline() == b"end 7\n"
    os.killpg(process.pid, signal.SIGINT)
    shown, _ = process.communicate()
    assert (process.returncode, shown) == (-signal.SIGINT, b"")


#: Commands that read standard input.
READING = ("run", "talk", "try")
#: Commands, and which of standard input, output and errors are closed.
CLOSED = [
    *((name, (0, 2)) for name in WORDS if name not in (*READING, *LOOKING)),
    *((name, (closed,)) for name in (*READING, *LOOKING) for closed in range(3)),
    *((name, (1,)) for name in ("new", "strike", "show", "export")),
]


@pytest.fixture
def sample(moon: Path) -> Path:
    """The folder of the sample, with a book of which paragraph 3 is struck, and a text."""
    with Session(moon) as session:
        session.strike(3)
    moon.with_name("text.txt").write_text("The sun\n")
    return moon.parent


def close(descriptors: tuple[int, ...]) -> None:
    for number in descriptors:
        os.close(number)


@pytest.mark.parametrize("name, closed", CLOSED)
def test_a_descriptor_that_is_closed_is_said_or_does_not_matter(
    name: str, closed: tuple[int, ...], sample: Path
) -> None:
    before = (sample / "moon.braildesk").read_bytes()
    ran = scribe(
        name,
        *WORDS[name],
        folder=sample,
        given=GIVEN.get(name, ""),
        before=lambda: close(closed),
    )
    if 1 in closed:
        assert ran == Ran(3, "", "Standard output is closed, so nothing was done.\n")
        assert (sample / "moon.braildesk").read_bytes() == before
        assert not (sample / "other.braildesk").exists()
    elif name in LOOKING:
        assert ran.status == 2
    elif 0 in closed and name in READING:
        assert ran.status == 3
        assert ran.said.endswith("Standard input could not be read: it is closed.\n")
    else:
        assert ran.status == 0
        assert ran.shown


#: Has descriptors be closed, and says the number that the first file gets which is opened then.
OPENS = """
import os, sys
from scribe.cli.endings import ended

def run():
    os.write(int(sys.argv[1]), str(os.open(os.devnull, os.O_RDWR)).encode())
    return 0

for number in sys.argv[2:]:
    os.close(int(number))
os._exit(ended(run, lambda: False))
"""


@pytest.mark.parametrize("closed", ["0", "1", "2", "02", "12", "012"])
def test_no_file_gets_the_number_of_a_descriptor_that_is_closed(closed: str) -> None:
    # what is said would be written into it, or what it has be read as what was typed
    reader, writer = os.pipe()
    done = subprocess.run(
        [sys.executable, "-c", OPENS, str(writer), *closed],
        env=environment(),
        pass_fds=[writer],
    )
    os.close(writer)
    with open(reader, encoding="utf-8") as numbers:
        assert int(numbers.read()) > 2
    assert done.returncode == 0


def test_errors_that_can_not_be_written_end_with_3(moon: Path) -> None:
    with open("/dev/full", "w") as full:
        done = subprocess.run(
            [sys.executable, "-m", "scribe", "undo", moon.name, "9"],
            cwd=moon.parent,
            env=environment(),
            stdout=subprocess.PIPE,
            stderr=full,
        )
    assert (done.returncode, done.stdout) == (3, b"")


@pytest.mark.parametrize("status", [0, 3])
def test_output_that_is_gone_at_the_end_ends_with_3_without_words_of_python(
    status: int,
) -> None:
    leaving = f"from scribe.cli.endings import leave; print('drawn'); leave({status})"
    with open("/dev/full", "w") as full:
        done = subprocess.run(
            [sys.executable, "-c", leaving],
            env=environment(PYTHONUNBUFFERED=""),
            stdout=full,
            stderr=subprocess.PIPE,
        )
    assert (done.returncode, done.stderr) == (3, b"")


def test_input_that_can_not_be_read_ends_each_command_that_reads_it(
    sample: Path,
) -> None:
    for name in READING:
        with open("/proc/self/mem", "rb") as unreadable:
            done = subprocess.run(
                [sys.executable, "-m", "scribe", name, *WORDS[name]],
                cwd=sample,
                env=environment(),
                stdin=unreadable,
                stderr=subprocess.PIPE,
                stdout=subprocess.PIPE,
                timeout=WAIT_SECONDS,
            )
        assert (name, done.returncode) == (name, 3)
        assert done.stderr.decode().endswith(
            "Standard input could not be read: Input/output error.\n"
        )
