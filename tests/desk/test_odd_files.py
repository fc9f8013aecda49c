"""Files and folders that the system refuses: a sentence and a status, whatever the command."""

import errno
import json
import os
import shutil
import signal
import subprocess
import sys
import tempfile
from collections.abc import Iterator, Sequence
from io import BytesIO, StringIO
from pathlib import Path

import pytest

from braildesk import Failed, Lost, Session
import braildesk
from braildesk.desk.export import Job
from braildesk.desk.import_text import bytes_of
from braildesk.desk.layout import PageSize
from braildesk.desk.whole_file import NoPlaceForAFile, write_whole
from braildesk.making import NotCopied, NotMade
from braildesk.protocol.asked import real_path

from scribe.cli import run_words
from scribe.prompt.trial import Trial
from scribe.words.console import Console
from scribe.words.export import export_in_words
from scribe.words.status import Stop, in_sentences, of_system
from tool import ROOT, Ran, environment
from words import LOOKING, PATHS, WORDS

NOBODY = 65_534
#: The words of each command; one of bring that names files.
ALL = {**WORDS, "bring": ["plain.utb", "other.utb"]}
PLACES = {*PATHS, "other.utb"}
for each in LOOKING:
    del ALL[each]


def ran(words: Sequence[str]) -> Ran:
    """What comes of a command in this folder; an exception where it ends without a sentence."""
    shown, said = StringIO(), StringIO()
    status = run_words(words, Console(BytesIO(b"The moon\n"), shown, said))
    return Ran(status, shown.getvalue(), said.getvalue())


def check_said(found: Ran, name: str) -> None:
    """Looks at whether a command ended by a status for what failed, and a sentence.

    An empty word is refused as one.
    """
    if found.status == 1:
        first = found.said.splitlines()[0]
        assert first.endswith(": it is empty, which is no path."), (name, found)
        return
    assert found.status in (2, 3), (name, found)
    assert "Errno" not in found.said, (name, found)
    assert found.said.endswith(".\n"), (name, found)


def odd(kind: str, folder: Path) -> str:
    """A path of a kind."""
    match kind:
        case "a long path":
            return f"{'x' * 200}/" * 25
        case "a long name":
            return "x" * 300
        case "a loop":
            (folder / "loop").symlink_to("loop")
            return "loop"
        case "through a file":
            return "text.txt/x"
        case "nothing":
            return ""
        case "a folder":
            (folder / "folder").mkdir()
            return "folder"
        case "in a folder that is missing":
            return "missing/x"
        case "not UTF-8":
            return "caf\udce9"
    raise ValueError(kind)


ODD = (
    "a long path|a long name|a loop|through a file|nothing|a folder|in a folder that is missing"
    "|not UTF-8"
).split("|")
#: What is no error, by the kind and the place of a path.
FINE = {
    ("a folder", "pages"),
    ("not UTF-8", "pages"),
    ("not UTF-8", "copy.braildesk"),
    ("not UTF-8", "other.utb"),
    ("a loop", "other.utb"),
    ("not UTF-8", "moon.html"),
    ("a loop", "moon.html"),
}


@pytest.fixture
def sample(moon: Path, monkeypatch: pytest.MonkeyPatch) -> Path:
    """The folder of the sample, with a text, in which the tests work."""
    moon.with_name("text.txt").write_text("The sun\n")
    monkeypatch.chdir(moon.parent)
    return moon.parent


@pytest.mark.parametrize("kind", ODD)
def test_a_path_of_any_kind_ends_each_command_in_a_sentence(
    kind: str, sample: Path
) -> None:
    path = odd(kind, sample)
    for name, words in ALL.items():
        for place in PLACES.intersection(words):
            if (kind, place) not in FINE:
                changed = [path if word == place else word for word in words]
                check_said(ran([name, *changed]), f"{name} {place}")


#: Paths in which no file is made or read.
FOLDERS = {"pages"}
SLASH = "ends in a slash, as only the path of a folder does."


def test_no_command_takes_a_path_with_a_slash_at_its_end_for_that_of_a_file(
    sample: Path,
) -> None:
    report = ["moon.braildesk", "text.txt", "--report", "moon.html"]
    tried = {**ALL, "import --report": report, "tune": ["moon.braildesk", "text.txt"]}
    (sample / "moon.html").touch()
    before = sorted(os.listdir(sample))
    for name, words in tried.items():
        for place in PLACES.intersection(words) - FOLDERS:
            changed = [f"{word}/" if word == place else word for word in words]
            found = ran([name.split()[0], *changed])
            first = found.said.splitlines()[0]
            assert (found.status, found.shown) == (1, ""), (name, place, found)
            assert first.endswith(f": {place}/ {SLASH}"), (name, place, first)
    assert sorted(os.listdir(sample)) == before
    assert ran(["export", "moon.braildesk", "pages/"]).status == 0


def test_a_path_with_a_slash_at_its_end_is_that_of_a_folder_that_is_there(
    sample: Path,
) -> None:
    (sample / "sub").mkdir()
    for path in ("sub/", "sub"):
        for words in (["new", path], ["copy", "moon.braildesk", path]):
            said = "“sub” is a folder and no file. Give the path of a file in it.\n"
            assert ran(words) == Ran(2, "", said), words
        assert ran(["copy", "moon.braildesk", path, "--overwrite"]).said == said
    assert not os.listdir(sample / "sub")


def test_no_copy_is_made_at_the_path_of_a_folder_that_is_not_there(
    sample: Path,
) -> None:
    for path in (f"{sample}/sub/", f"{sample}/text.txt/"):
        with pytest.raises(NotCopied) as caught:
            braildesk.copy(sample / "moon.braildesk", path)
        assert caught.value.sentence == (
            f"“{path}” {SLASH} Nothing was made. Take the path of a file."
        )


@pytest.mark.parametrize("user", [0, NOBODY])
@pytest.mark.parametrize(
    "path", ["/proc/x", "/proc/self/x", "/proc/sys/x", "/sys/x", "/dev/fd/x"]
)
def test_a_path_of_the_system_is_said_to_be_one_whoever_asks_for_a_book_there(
    path: str, user: int
) -> None:
    if os.geteuid():
        pytest.skip("only root is another user here")
    begun = os.fork()
    if not begun:
        # what is of the user who began it may be kept from this one
        os.setresuid(user, user, user)
        is_said = False
        try:
            braildesk.new_book(path)
        except NotMade as refused:
            is_said = refused.sentence == (
                f"“{path}” is where the system shows what it has itself, as in /proc and /sys, and no"
                " book is made there. Take another path for the new book."
            )
        finally:
            os._exit(not is_said)
    assert os.waitpid(begun, 0)[1] == 0


def test_no_file_is_written_at_a_path_of_the_system(sample: Path) -> None:
    why = "in its folder the system shows what it has itself, and no file is made there"
    for path in ("/proc/self/x", "/proc/sys/x", "/sys/x"):
        with pytest.raises(NoPlaceForAFile) as caught:
            write_whole(Path(path), b"pages")
        assert caught.value.strerror == why
        for words, said in (
            (["proof", "moon.braildesk", path], f"{path} could not be written: {why}."),
            (
                ["copy", "moon.braildesk", path],
                f"“{path}” is where the system shows what it has itself, as in /proc and /sys, and no"
                " book is made there. Take another path for the copy.",
            ),
            (
                ["export", "moon.braildesk", path],
                f"{path} is where the system shows what it has itself, as in /proc and /sys, and no"
                " folder is made there. Take another path for the folder. Nothing was exported.",
            ),
        ):
            assert ran(words) == Ran(2, "", f"{said}\n")
    # what a link leads to is another matter
    link = sample / "link"
    link.symlink_to("/sys/x")
    write_whole(link, b"pages")
    assert link.read_bytes() == b"pages" and not link.is_symlink()


def test_a_path_that_is_typed_with_nul_is_refused_in_a_sentence(sample: Path) -> None:
    with pytest.raises(Stop) as stop, in_sentences():
        bytes_of(Path("mo\0on"))
    assert stop.value.sentence == (
        "mo\0on can't be read: no path has the character U+0000. Nothing was typed."
    )
    job = Job(Path("moon.braildesk"), Path("mo\0on"), PageSize(), wait=0)
    with pytest.raises(Stop) as stop, in_sentences():
        export_in_words(job, Console(BytesIO(), StringIO(), StringIO()))
    assert stop.value.sentence == (
        "mo\0on can't be a path, which has no character U+0000. Nothing was exported."
    )
    console = Console(BytesIO(b"table own mo\0on\n"), StringIO(), said := StringIO())
    assert run_words(["talk", "moon.braildesk"], console) == 0
    assert said.getvalue() == (
        "The table mo<U+0000>on can't be read: no path has the character U+0000. Nothing\n"
        "was changed.\n"
    )


def test_a_path_that_can_not_be_looked_at_ends_no_talk_and_no_trial(
    sample: Path, monkeypatch: pytest.MonkeyPatch
) -> None:
    given = b"table own " + b"x" * 300 + b"\nversion\n"
    shown, said = StringIO(), StringIO()
    status = run_words(["talk", "moon.braildesk"], Console(BytesIO(given), shown, said))
    assert (status, shown.getvalue().splitlines()[-2:]) == (
        0,
        ["The book is at version 7."] * 2,
    )
    assert " ".join(said.getvalue().split()).endswith(
        "can't be read: File name too long. Nothing was changed."
    )

    def refused(trial: Trial) -> bool:
        raise PermissionError(13, "Permission denied", "plain.utb")

    monkeypatch.setattr(Trial, "reread", refused)
    shown, said = StringIO(), StringIO()
    status = run_words(
        ["try", "plain.utb"], Console(BytesIO(b"The\nsea\n"), shown, said)
    )
    assert status == 3
    assert said.getvalue().count("“plain.utb” could not be read or written:") == 2


def test_a_temporary_folder_without_room_is_said_where_a_book_has_a_log(
    sample: Path, monkeypatch: pytest.MonkeyPatch
) -> None:
    session = Session("moon.braildesk")
    session.strike(1)
    os.kill(session.pid, signal.SIGKILL)
    with pytest.raises(Lost):
        session.close()
    monkeypatch.setattr(tempfile, "tempdir", str(sample / "missing"))
    with pytest.raises(Failed) as failed:
        braildesk.read_tables("moon.braildesk")
    assert failed.value.sentence == (
        "The book “moon.braildesk” could not be copied to a temporary folder, in which its tables"
        " are read with the work in its log: No such file or directory. Nothing was changed. Let"
        " TMPDIR name a folder with room for the book."
    )


def test_a_folder_that_is_gone_ends_each_command_in_a_sentence(
    sample: Path, monkeypatch: pytest.MonkeyPatch
) -> None:
    gone = sample / "gone"
    gone.mkdir()
    monkeypatch.chdir(gone)
    gone.rmdir()
    for name, words in ALL.items():
        check_said(ran([name, *words]), name)
    # the book is found, and the folder for its pages isn't
    check_said(ran(["export", str(sample / "moon.braildesk"), "pages"]), "export")


def test_of_a_book_that_may_be_gone_with_the_folder_of_scribe_it_is_said_so(
    tmp_path: Path, monkeypatch: pytest.MonkeyPatch
) -> None:
    gone = tmp_path / "gone"
    gone.mkdir()
    monkeypatch.chdir(gone)
    gone.rmdir()
    failure = FileNotFoundError(errno.ENOENT, os.strerror(errno.ENOENT))
    its, go = "The folder in which scribe was started is gone.", "Go to another folder,"
    kept = "What was reported as kept is in the book, unless that was in it."
    assert of_system(failure) == f"{its} {kept} {go} and name files from there."
    assert of_system(failure, "") == f"{its} {go} and name files from there."


#: Runs commands, and writes what came of each.
EACH = """\
import json, sys
from io import BytesIO, StringIO
from scribe.cli import run_words
from scribe.words.console import Console

for words in json.load(sys.stdin):
    shown, said = StringIO(), StringIO()
    status = run_words(words, Console(BytesIO(b"The moon\\n"), shown, said))
    print(json.dumps([status, shown.getvalue(), said.getvalue()]))
"""


@pytest.fixture(scope="module")
def installed() -> Iterator[Path]:
    """A folder that anybody may read, with all that scribe needs."""
    with tempfile.TemporaryDirectory(prefix="scribe-installed-") as name:
        folder = Path(name)
        folder.chmod(0o755)
        shutil.copytree(ROOT / "src", folder / "src")
        shutil.copy(braildesk.find(), folder / "braildesk")
        yield folder


@pytest.fixture
def locked(moon: Path, installed: Path) -> Iterator[Path]:
    """The folder of the sample, with a text, where another user can come to."""
    folder = installed / "sample"
    shutil.copytree(moon.parent, folder)
    (folder / "text.txt").write_text("The sun\n")
    yield folder
    folder.chmod(0o700)
    shutil.rmtree(folder)


def ran_by_another(installed: Path, asked: list[list[str]]) -> list[Ran]:
    """What comes of commands of a user who owns no file, or of this one, who isn't root then."""
    user = NOBODY if os.geteuid() == 0 else None
    done = subprocess.run(
        [sys.executable, "-c", EACH],
        cwd=installed,
        env=environment(
            PYTHONPATH=str(installed / "src"),
            BRAILDESK=str(installed / "braildesk"),
            HOME="/nonexistent",
        ),
        input=json.dumps(asked).encode(),
        capture_output=True,
        user=user,
        group=user,
        extra_groups=None if user is None else [],
    )
    assert done.returncode == 0, done.stderr.decode()
    return [Ran(*json.loads(line)) for line in done.stdout.splitlines()]


#: The mode of the folder, and of the files in it, that keep a user from what a command does.
MODES = {
    "a folder of mode 600": (0o600, 0o644),
    "a folder that may not be read": (0o333, 0o000),
    "a folder without any leave": (0o000, 0o644),
    "a folder that may only be read": (0o555, 0o444),
}


#: The commands that look at a book, of which a copy is enough, and write nothing there.
LOOKS = "show list history compare find marks next volumes pages".split()
#: The commands that do what they are asked to there.
ALLOWED = {
    "a folder that may not be read": ("new",),
    "a folder that may only be read": ("check-table", "try", *LOOKS),
}


@pytest.mark.parametrize("kind", MODES)
def test_what_may_not_be_opened_ends_each_command_in_a_sentence(
    kind: str, locked: Path, installed: Path
) -> None:
    folder_mode, mode = MODES[kind]
    names = [name for name in ALL if name not in ALLOWED.get(kind, ())]
    for file in locked.iterdir():
        file.chmod(mode)
    locked.chmod(folder_mode)
    asked = [
        [name, *(str(locked / w) if w in PLACES else w for w in ALL[name])]
        for name in names
    ]
    for name, found in zip(names, ran_by_another(installed, asked)):
        check_said(found, f"{name}, {kind}")


def left_in_log(folder: Path) -> None:
    """Has a killed program leave what was done last in the log of the sample's book."""
    session = Session(folder / "moon.braildesk")
    session.correct(1, 0, 3, "A")
    os.kill(session.pid, signal.SIGKILL)
    with pytest.raises(Lost):
        session.close()


def test_who_may_only_read_a_book_may_look_at_it_and_export_it(
    locked: Path, installed: Path
) -> None:
    left_in_log(locked)
    asked = [
        [name, *(str(locked / w) if w in PLACES else w for w in ALL[name])]
        for name in LOOKS
    ]
    book, made = str(locked / "moon.braildesk"), installed / "pages"
    asked.append(["proof", book, str(installed / "p.html")])
    asked.append(["export", book, str(made), "--page", "1"])
    asked.append(["export", book, str(made)])
    for file in locked.iterdir():
        file.chmod(0o444)
    locked.chmod(0o555)
    installed.chmod(0o777)
    files = {each.name: each.stat().st_mtime_ns for each in locked.iterdir()}
    found = ran_by_another(installed, asked)
    assert {each.name: each.stat().st_mtime_ns for each in locked.iterdir()} == files
    locked.chmod(0o755)
    for each in locked.iterdir():
        each.chmod(0o644)
    shutil.rmtree(made)
    for words, mine, other in zip(asked, map(ran, asked), found):
        assert (words[0], other.status, other.shown) == (words[0], 0, mine.shown)
    assert "A moon is far away." in found[0].shown


def test_who_may_only_read_a_book_exports_it_once_nobody_has_it_open(
    locked: Path, installed: Path
) -> None:
    locked.chmod(0o755)
    book = locked / "moon.braildesk"
    book.chmod(0o644)
    installed.chmod(0o777)
    asked = ["show", str(book)], ["export", str(book), str(installed / "once")]
    with Session(book):
        found = ran_by_another(installed, [*asked])
    said = [f"Another program has {book} open.", f"Another program has “{book}” open."]
    assert [each.status for each in found] == [0, 2]
    for each, sentence in zip(found, said):
        assert " ".join(each.said.split()).startswith(sentence)
    assert [each.status for each in ran_by_another(installed, [*asked])] == [0, 0]


@pytest.mark.parametrize("words", [["show"], ["export", "pages"], ["proof", "p.html"]])
def test_who_looks_at_a_book_that_may_not_be_read_needs_no_leave_to_write(
    locked: Path, installed: Path, words: list[str]
) -> None:
    book = locked / "moon.braildesk"
    locked.chmod(0o755)
    book.chmod(0)
    installed.chmod(0o777)
    name, *rest = words
    asked = [name, str(book), *(str(installed / each) for each in rest)]
    (found,) = ran_by_another(installed, [asked])
    assert found.status == 2
    assert " ".join(found.said.split()) == (
        f"You aren't permitted to read “{book}”. Nothing was changed. Ask who owns it for leave to"
        " read it."
    )


@pytest.mark.parametrize(
    "words, do", [(["show"], "read"), (["strike", "1"], "read and write")]
)
def test_a_log_that_may_not_be_read_is_said_to_be_denied(
    locked: Path, installed: Path, words: list[str], do: str
) -> None:
    left_in_log(locked)
    book, log = locked / "moon.braildesk", locked / "moon.braildesk-wal"
    for each in (locked, book):
        each.chmod(0o777)
    log.chmod(0)
    name, *rest = words
    (found,) = ran_by_another(installed, [[name, str(book), *rest]])
    assert found.status == 2
    assert " ".join(found.said.split()) == (
        f"You aren't permitted to {do} “{log}”, in which the newest work of “{book}” is"
        f" looked for. Nothing was changed. Ask who owns “{log}”, or an administrator, for leave to"
        " do so."
    )


def test_where_a_path_leads_is_found_also_while_a_link_is_exchanged_for_a_file(
    tmp_path: Path, monkeypatch: pytest.MonkeyPatch
) -> None:
    (file := tmp_path / "file").touch()
    (link := tmp_path / "link").symlink_to(file)
    read, fails = os.readlink, [True, True]

    def exchanged(path: str, **words: int) -> str:
        if fails and fails.pop():
            # as of a file that was put there since it was looked at
            raise OSError(errno.EINVAL, os.strerror(errno.EINVAL))
        return read(path, **words)

    monkeypatch.setattr(os, "readlink", exchanged)
    assert real_path(str(link)) == str(file)
    assert not fails
